//! The calls over slices that the caller lends, and their answers. All that is unsafe in this crate stands here.
//!
//! A slice's contents before a call don't matter, and nothing is kept between two calls. What each slice holds afterwards is
//! said in the repository's `include/nikvoldra.h`.

/// The least length of work, in words (question 1).
pub const WORK_LENGTH: usize = 524_288;
/// The least length of the words of steps: three for each.
pub const WORDS_LENGTH: usize = 3_072;
/// The least number of checkpoint records.
pub const CHECKPOINTS_LENGTH: usize = 16;
/// The least length of the pairs, in words.
pub const PAIRS_LENGTH: usize = 262_144;
/// The least length of the atoms, in words.
pub const ATOMS_LENGTH: usize = 131_072;
/// The least length of the atom bytes.
pub const BYTES_LENGTH: usize = 65_536;
/// The most bytes of an input (question 2).
pub const INPUT_MOST: usize = 65_535;
/// The most bytes of an output that are used (question 13).
pub const OUTPUT_MOST: usize = 65_535;

/// A checkpoint record: room that [`session()`] and [`session_documented`] are lent. After a run all its words are zero.
#[repr(C)]
#[derive(Clone, Copy, Debug, Default, PartialEq, Eq)]
pub struct Checkpoint {
    /// The open pairs.
    pub opens: u32,
    /// The depth of the stack.
    pub depth: u32,
    /// The bytes written.
    pub size: u32,
    /// The references among the items written.
    pub references: u32,
    /// The bytes of their prefixes.
    pub prefix_bytes: u32,
    /// One more than the sentinel's entry, or 0.
    pub sentinel: u32,
}

/// What [`session()`] and [`session_documented`] answer.
#[repr(C)]
#[derive(Clone, Copy, Debug, Default, PartialEq, Eq)]
pub struct SessionAnswer {
    /// The first question that got no, or 0.
    pub number: u32,
    /// How many steps were finished.
    pub steps: u32,
    /// The bytes written.
    pub size: u32,
}

/// What [`read`] answers.
#[repr(C)]
#[derive(Clone, Copy, Debug, Default, PartialEq, Eq)]
pub struct ReadAnswer {
    /// The first question that got no, or 0.
    pub number: u32,
    /// The root's handle.
    pub root: u32,
    /// How many pairs there are.
    pub pairs: u32,
    /// How many listed atoms there are.
    pub atoms: u32,
    /// How many atom bytes there are.
    pub bytes: u32,
    /// How many ghost pairs there are.
    pub ghosts: u32,
}

extern "C" {
    fn nikvoldra_session(
        file: *const u8,
        file_length: usize,
        work: *mut u32,
        work_length: usize,
        words: *mut u32,
        words_length: usize,
        checkpoints: *mut Checkpoint,
        checkpoints_length: usize,
        output: *mut u8,
        output_length: usize,
    ) -> SessionAnswer;

    fn nikvoldra_session_documented(
        file: *const u8,
        file_length: usize,
        work: *mut u32,
        work_length: usize,
        words: *mut u32,
        words_length: usize,
        checkpoints: *mut Checkpoint,
        checkpoints_length: usize,
        output: *mut u8,
        output_length: usize,
    ) -> SessionAnswer;

    fn nikvoldra_read(
        input: *const u8,
        input_length: usize,
        work: *mut u32,
        work_length: usize,
        pairs: *mut u32,
        pairs_length: usize,
        atoms: *mut u32,
        atoms_length: usize,
        bytes: *mut u8,
        bytes_length: usize,
    ) -> ReadAnswer;
}

/// Runs a session file: numbers 0 to 13 and 17. Slices that are too short get 1.
///
/// A finished step `i` has the words `3 * i` to `3 * i + 2`: its size times 2, plus 1 if the session is finished; its references; and
/// its prefix bytes (see [`Step`](crate::Step)).
///
/// ```
/// use nikvoldra::call::{self, Checkpoint};
///
/// let mut work = vec![0; call::WORK_LENGTH];
/// let mut words = vec![0; call::WORDS_LENGTH];
/// let mut checkpoints = vec![Checkpoint::default(); call::CHECKPOINTS_LENGTH];
/// let mut output = [0; 100];
/// // no atoms, no pairs, no sentinel; one step, which adds nil: a prefix alone
/// let file = b"BRS\0\x01\0\0\0\0\xff\xff\xff\xff\x01\x08\0\0\0";
/// let answer = call::session(file, &mut work, &mut words, &mut checkpoints, &mut output);
/// assert_eq!((answer.number, answer.steps, answer.size), (0, 1, 1));
/// assert_eq!((&words[..4], output[0]), (&[3, 0, 1, 0][..], 0x80));
/// ```
pub fn session(
    file: &[u8],
    work: &mut [u32],
    words: &mut [u32],
    checkpoints: &mut [Checkpoint],
    output: &mut [u8],
) -> SessionAnswer {
    lend(nikvoldra_session, file, work, words, checkpoints, output)
}

/// The same, with one difference: where a path was found, the reference is written if it is no longer than what it stands for in full,
/// by the prefix lengths of the CLVM serialization documentation.
///
/// [`session()`] has the Rust's prefix lengths, which count a byte too many for a path of 512 to 8,191 bytes. So the two differ only
/// where a found path has n bytes, 512 or more, and leads to what has n + 3 in full.
///
/// ```
/// use nikvoldra::call::{self, Checkpoint};
///
/// let mut work = vec![0; call::WORK_LENGTH];
/// let mut words = vec![0; call::WORDS_LENGTH];
/// let mut checkpoints = vec![Checkpoint::default(); call::CHECKPOINTS_LENGTH];
/// let mut output = [0; 100];
/// let file = b"BRS\0\x01\0\0\0\0\xff\xff\xff\xff\x01\x08\0\0\0";
/// let answer = call::session_documented(file, &mut work, &mut words, &mut checkpoints, &mut output);
/// assert_eq!(answer, call::session(file, &mut work, &mut words, &mut checkpoints, &mut output));
/// ```
pub fn session_documented(
    file: &[u8],
    work: &mut [u32],
    words: &mut [u32],
    checkpoints: &mut [Checkpoint],
    output: &mut [u8],
) -> SessionAnswer {
    lend(
        nikvoldra_session_documented,
        file,
        work,
        words,
        checkpoints,
        output,
    )
}

/// A session call as it is declared above.
type DeclaredSession = unsafe extern "C" fn(
    *const u8,
    usize,
    *mut u32,
    usize,
    *mut u32,
    usize,
    *mut Checkpoint,
    usize,
    *mut u8,
    usize,
) -> SessionAnswer;

/// Lends the slices to one of the two session calls.
fn lend(
    call: DeclaredSession,
    file: &[u8],
    work: &mut [u32],
    words: &mut [u32],
    checkpoints: &mut [Checkpoint],
    output: &mut [u8],
) -> SessionAnswer {
    // SAFETY: each pointer and length are those of a Rust slice, so they are aligned and valid for the whole call, and no
    // `&mut` overlaps another slice. Both calls have no `requires`, keep no pointer, and touch nothing outside their slices; they
    // are declared as the Rattle source has them (tests/declaration.rs compares them).
    unsafe {
        call(
            file.as_ptr(),
            file.len(),
            work.as_mut_ptr(),
            work.len(),
            words.as_mut_ptr(),
            words.len(),
            checkpoints.as_mut_ptr(),
            checkpoints.len(),
            output.as_mut_ptr(),
            output.len(),
        )
    }
}

/// Reads a serialized tree into a fresh store: numbers 0 to 2 and 14 to 16. Slices that are too short get 1.
pub fn read(
    input: &[u8],
    work: &mut [u32],
    pairs: &mut [u32],
    atoms: &mut [u32],
    bytes: &mut [u8],
) -> ReadAnswer {
    // SAFETY: as in `lend`: pointers and lengths of Rust slices, of which no `&mut` overlaps another, and a call without
    // a `requires`, declared as the Rattle source has it.
    unsafe {
        nikvoldra_read(
            input.as_ptr(),
            input.len(),
            work.as_mut_ptr(),
            work.len(),
            pairs.as_mut_ptr(),
            pairs.len(),
            atoms.as_mut_ptr(),
            atoms.len(),
            bytes.as_mut_ptr(),
            bytes.len(),
        )
    }
}
