//! Every small input.

use crate::node::{ATOM, NIL, PAIR, SMALL, handle};
use crate::session::{SessionFile, Step};

/// The sentinel of these files.
const SENTINEL: u32 = handle(SMALL, 7);

/// nil, foobar, the sentinel, then the pairs.
fn choice(i: usize) -> u32 {
    match i {
        0 => NIL,
        1 => handle(ATOM, 0),
        2 => SENTINEL,
        _ => handle(PAIR, i as u32 - 3),
    }
}

/// `n` pairs by number: each side is one of `choice`, of the pairs an earlier one.
/// What is left of the number.
fn pairs(s: &mut SessionFile, n: usize, mut code: usize) -> usize {
    for i in 0..n {
        let sides = i + 3;
        s.pairs
            .push((choice(code % sides), choice(code / sides % sides)));
        code /= sides * sides;
    }
    code
}

/// Up to `most` of `choices` by number, the fewest first.
fn up_to(most: u32, choices: usize, mut code: usize) -> Vec<usize> {
    for n in 0..=most {
        let all = choices.pow(n);
        if code < all {
            return (0..n).map(|i| code / choices.pow(i) % choices).collect();
        }
        code -= all;
    }
    unreachable!()
}

fn file() -> SessionFile {
    SessionFile {
        atoms: vec![b"foobar".to_vec()],
        sentinel: Some(SENTINEL),
        ..SessionFile::default()
    }
}

/// Every file of three pairs over nil, foobar and the sentinel (small atom 7)
/// with up to three adds, by number.
pub const SESSIONS: usize = 9 * 16 * 25 * (1 + 6 + 36 + 216);

pub fn session(i: usize) -> Vec<u8> {
    let mut s = file();
    let steps = pairs(&mut s, 3, i);
    s.steps = up_to(3, 6, steps)
        .into_iter()
        .map(|c| Step::Add(choice(c)))
        .collect();
    s.to_bytes()
}

/// Every file of two such pairs with up to four steps, adds or restores 0 to 2,
/// by number.
pub const UNDO_SESSIONS: usize = 9 * 16 * (1 + 8 + 64 + 512 + 4096);

pub fn undo_session(i: usize) -> Vec<u8> {
    let mut s = file();
    let steps = pairs(&mut s, 2, i);
    s.steps = up_to(4, 8, steps)
        .into_iter()
        .map(|c| match c {
            0..5 => Step::Add(choice(c)),
            _ => Step::Restore(c as u16 - 5),
        })
        .collect();
    s.to_bytes()
}

/// Lists of steps that files of two such pairs have.
struct Lists {
    steps: Vec<Step>,
    most: usize,
    /// whether the last step may be one that is refused
    refused: bool,
}

/// Adds of a `choice`, restores 0 to 3 and forgets 0 to 3; up to five.
fn forget_lists() -> Lists {
    let adds = (0..5).map(|i| Step::Add(choice(i)));
    let restores = (0..4).map(Step::Restore);
    Lists {
        steps: adds
            .chain(restores)
            .chain((0..4).map(Step::Forget))
            .collect(),
        most: 5,
        refused: false,
    }
}

/// Adds of a pair, quotes of a `choice`, takings, restores 0 and 1 and forgets 0 and 1;
/// up to four.
fn quote_lists() -> Lists {
    let adds = (3..5).map(|i| Step::Add(choice(i)));
    let quotes = (0..5).map(|i| Step::Quote(choice(i)));
    let undos = (0..2).flat_map(|k| [Step::Restore(k), Step::Forget(k)]);
    Lists {
        steps: adds
            .chain(quotes)
            .chain([Step::Take])
            .chain(undos)
            .collect(),
        most: 4,
        refused: true,
    }
}

impl Lists {
    fn session(&self, i: usize) -> Vec<u8> {
        let mut s = file();
        let code = pairs(&mut s, 2, i);
        let steps = up_to(self.most as u32, self.steps.len(), code);
        s.steps = steps.into_iter().map(|i| self.steps[i]).collect();
        s.to_bytes()
    }

    /// The numbers of the files of which no step is refused, or none but the last.
    fn sessions(&self) -> Vec<usize> {
        let mut all = vec![];
        for code in 0..9 * 16 {
            let mut s = file();
            pairs(&mut s, 2, code);
            // the open places of each choice
            let mut places = vec![0, 0, 1];
            for (left, right) in s.pairs {
                let places_of = |h| places[of(h)];
                places.push(places_of(left) + places_of(right));
            }
            let mut taken = vec![];
            self.go_on(&places, &[], &Counted::default(), &mut taken);
            all.extend(taken.iter().map(|steps| code + 9 * 16 * steps));
        }
        all
    }

    /// These steps and all that go on from them, as `up_to` has them.
    fn go_on(&self, places: &[usize], steps: &[usize], now: &Counted, taken: &mut Vec<usize>) {
        taken.push(self.number(steps));
        if steps.len() == self.most {
            return;
        }
        for (i, step) in self.steps.iter().enumerate() {
            let more = [steps, &[i]].concat();
            match now.after(places, *step) {
                Some(next) => self.go_on(places, &more, &next, taken),
                None if self.refused => taken.push(self.number(&more)),
                None => (),
            }
        }
    }

    fn number(&self, steps: &[usize]) -> usize {
        let all = self.steps.len();
        let fewer: usize = (0..steps.len() as u32).map(|n| all.pow(n)).sum();
        fewer + steps.iter().rev().fold(0, |n, i| n * all + i)
    }
}

/// The number of a `choice`.
fn of(h: u32) -> usize {
    (0..).find(|c| choice(*c) == h).expect("a choice")
}

/// What the questions 9, 11 and 17 need.
#[derive(Clone)]
struct Counted {
    open: usize,
    /// the open places before each add on the present history
    past: Vec<usize>,
    quoted: Option<u32>,
}

impl Default for Counted {
    fn default() -> Self {
        Self {
            open: 1,
            past: vec![],
            quoted: None,
        }
    }
}

impl Counted {
    /// After a step that isn't refused.
    fn after(&self, places: &[usize], step: Step) -> Option<Counted> {
        let add = |h| {
            (self.open > 0).then(|| Counted {
                open: self.open - 1 + places[of(h)],
                past: [&self.past[..], &[self.open]].concat(),
                quoted: None,
            })
        };
        match step {
            Step::Add(h) => add(h),
            Step::Take => self.quoted.and_then(add),
            Step::Quote(h) => add(h).map(|_| Counted {
                quoted: Some(h),
                ..self.clone()
            }),
            Step::Restore(k) | Step::Forget(k) => {
                let open = *self.past.get(usize::from(k))?;
                Some(Counted {
                    open,
                    past: self.past[..k.into()].to_vec(),
                    quoted: None,
                })
            }
        }
    }
}

/// A file of two such pairs with up to five steps, `02` and `03` among them, by number.
pub fn forget_session(i: usize) -> Vec<u8> {
    forget_lists().session(i)
}

/// The numbers of the files of `forget_session` of which no step is refused: 850,244.
pub fn forget_sessions() -> Vec<usize> {
    forget_lists().sessions()
}

/// A file of two such pairs with up to four steps, `04` and `05` among them, by number.
pub fn quote_session(i: usize) -> Vec<u8> {
    quote_lists().session(i)
}

/// The numbers of the files of `quote_session` of which no step but the last is refused:
/// 788,496.
pub fn quote_sessions() -> Vec<usize> {
    quote_lists().sessions()
}

/// Every file of `session` that has an add, 928,800 files, of `forget_sessions` and of
/// `quote_sessions`.
pub fn sessions(mut each: impl FnMut(&[u8])) {
    (9 * 16 * 25..SESSIONS).for_each(|i| each(&session(i)));
    let more = forget_sessions();
    more.into_iter().for_each(|i| each(&forget_session(i)));
    let more = quote_sessions();
    more.into_iter().for_each(|i| each(&quote_session(i)));
}

pub const LETTERS: [u8; 12] = [
    0x00, 0x01, 0x7f, 0x80, 0x81, 0xbf, 0xc0, 0xfc, 0xfe, 0xff, 0x02, 0x04,
];

/// Every input of up to two bytes, and every one of three to five bytes over
/// `LETTERS`.
pub fn trees(mut each: impl FnMut(&[u8])) {
    each(&[]);
    for a in 0..=255 {
        each(&[a]);
        for b in 0..=255 {
            each(&[a, b]);
        }
    }
    for n in 3..=5_u32 {
        for code in 0..12_usize.pow(n) {
            let tree: Vec<u8> = (0..n)
                .map(|i| LETTERS[code / 12_usize.pow(i) % 12])
                .collect();
            each(&tree);
        }
    }
}
