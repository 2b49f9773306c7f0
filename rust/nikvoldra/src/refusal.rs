//! The questions that can get no.

use std::error::Error;
use std::fmt;

/// The first question of the scope that got no. Its text says the question:
///
/// ```
/// use nikvoldra::{read, Refusal};
///
/// let refusal = read(b"\x81\x7f").unwrap_err();
/// assert_eq!(refusal, Refusal::LongPrefix);
/// assert_eq!(refusal.number(), 15);
/// assert_eq!(refusal.to_string(), "question 15 got no: Is each prefix shortest?");
/// ```
#[non_exhaustive]
#[derive(Clone, Copy, Debug, PartialEq, Eq, Hash, PartialOrd, Ord)]
#[repr(u32)]
pub enum Refusal {
    /// 1: A lent slice is too short. Only [`call`](crate::call) gives it.
    ShortSlice = 1,
    /// 2: The input has more than 65,535 bytes.
    LongInput = 2,
    /// 3: The file doesn't begin with the mark and version 1.
    NoMark = 3,
    /// 4: A field goes on past the end of the file.
    CutField = 4,
    /// 5: There are too many atoms, pairs, atom bytes or steps.
    TooMany = 5,
    /// 6: A listed atom fits in a small one.
    ListedSmallAtom = 6,
    /// 7: A handle names nothing that is listed.
    UnknownHandle = 7,
    /// 8: A step's code is not known.
    UnknownStep = 8,
    /// 9: An add or a quote comes after the session is finished.
    AlreadyFinished = 9,
    /// 10: There are sixteen adds already.
    TooManyAdds = 10,
    /// 11: A restore or a forget names an add that isn't there.
    UnknownRestore = 11,
    /// 12: More than 4,096 pairs would be open.
    TooDeep = 12,
    /// 13: The next item doesn't fit the output.
    OutputFull = 13,
    /// 14: The bytes end too early, go on after the tree, or have a prefix that is too long or a size that is too large.
    BrokenBytes = 14,
    /// 15: A prefix is longer than needed.
    LongPrefix = 15,
    /// 16: A reference's path leads into an atom.
    PathIntoAtom = 16,
    /// 17: A quote is taken, and none is open.
    NoQuote = 17,
}

use Refusal::*;

impl Refusal {
    /// All, by number.
    pub const ALL: [Refusal; 17] = [
        ShortSlice,
        LongInput,
        NoMark,
        CutField,
        TooMany,
        ListedSmallAtom,
        UnknownHandle,
        UnknownStep,
        AlreadyFinished,
        TooManyAdds,
        UnknownRestore,
        TooDeep,
        OutputFull,
        BrokenBytes,
        LongPrefix,
        PathIntoAtom,
        NoQuote,
    ];

    /// The refusal with a number, 1 to 17.
    pub fn from_number(number: u32) -> Option<Refusal> {
        let place = usize::try_from(number).ok()?.checked_sub(1)?;
        Refusal::ALL.get(place).copied()
    }

    /// The question's number, 1 to 17.
    pub fn number(self) -> u32 {
        self as u32
    }

    /// The question that got no.
    pub fn question(self) -> &'static str {
        match self {
            ShortSlice => "Are the slices long enough?",
            LongInput => "Is the input at most 65,535 bytes?",
            NoMark => "Does the file begin with the mark and version 1?",
            CutField => "Does the field end inside the file?",
            TooMany => "At most 1,024 atoms, 1,024 pairs, 32,768 atom bytes so far, 1,024 steps?",
            ListedSmallAtom => "Is this atom one that fits_in_small_atom turns down?",
            UnknownHandle => {
                "Does the handle name a listed atom, a small atom, or a pair listed earlier \
                 (for the sentinel and steps: any listed pair; the sentinel may be ffffffff)?"
            }
            UnknownStep => "Is the step code known?",
            AlreadyFinished => "At an add, is the session unfinished?",
            TooManyAdds => "Are there fewer than 16 adds on the present history?",
            UnknownRestore => {
                "Is the restore number below the count of adds on the present history?"
            }
            TooDeep => "Before a pair's ff, are fewer than 4,096 pairs open?",
            OutputFull => {
                "Does the next item fit the output, of which at most 65,535 bytes are used?"
            }
            BrokenBytes => {
                "Are bytes whole, prefixes at most six bytes, sizes below 2^34, nothing left over?"
            }
            LongPrefix => "Is each prefix shortest?",
            PathIntoAtom => "Does every path stay out of atoms?",
            NoQuote => "At a 05, is a quote open?",
        }
    }

    /// An answer's number: nothing for 0.
    pub(crate) fn of_answer(number: u32) -> Option<Refusal> {
        if number == 0 {
            return None;
        }
        Some(Refusal::from_number(number).expect("the calls answer 0 to 17"))
    }
}

impl fmt::Display for Refusal {
    fn fmt(&self, f: &mut fmt::Formatter<'_>) -> fmt::Result {
        write!(f, "question {} got no: {}", self.number(), self.question())
    }
}

impl Error for Refusal {}

#[cfg(test)]
mod tests {
    use super::*;

    #[test]
    fn numbers_there_and_back() {
        for (i, refusal) in Refusal::ALL.into_iter().enumerate() {
            assert_eq!(refusal.number() as usize, i + 1);
            assert_eq!(Refusal::from_number(refusal.number()), Some(refusal));
            assert!(refusal.to_string().ends_with('?'));
        }
        assert_eq!(Refusal::from_number(0), None);
        assert_eq!(Refusal::from_number(18), None);
        assert_eq!(Refusal::of_answer(0), None);
    }
}
