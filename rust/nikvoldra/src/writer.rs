//! The session calls with slices of their own.

use crate::call::{self, Checkpoint, SessionAnswer};
use crate::refusal::Refusal;
use crate::session::Session;
use std::error::Error;
use std::fmt;

/// What a finished step leaves, or a quote would leave: how much is written so far, and where the bytes went.
///
/// ```
/// use nikvoldra::{Session, Step};
///
/// let mut session = Session::new();
/// let open = session.sentinel()?;
/// let foobar = session.atom(b"foobar")?;
/// let tree = session.pair(foobar, open)?;
/// session.add(tree)?; // ff 86 foobar: the prefix is 86
/// session.quote(foobar)?; // fe 02 would come, a reference whose path has no prefix
/// session.forget(0)?;
/// let step = |size, finished, references, prefix_bytes| Step { size, finished, references, prefix_bytes };
/// assert_eq!(
///     session.run()?.steps(),
///     [step(8, false, 0, 1), step(10, true, 1, 1), step(0, false, 0, 0)]
/// );
/// # Ok::<(), Box<dyn std::error::Error>>(())
/// ```
#[derive(Clone, Copy, Debug, PartialEq, Eq)]
pub struct Step {
    /// The bytes written so far.
    pub size: usize,
    /// Whether no place is open.
    pub finished: bool,
    /// The references among the items written so far.
    pub references: usize,
    /// The bytes of prefixes written so far, of atoms and of the references' paths: none for a single byte below `80`, one for nil. The
    /// marks `ff` of a pair and `fe` of a reference are none.
    pub prefix_bytes: usize,
}

impl Step {
    /// The words of a step that the call wrote.
    fn new(words: &[u32]) -> Step {
        Step {
            size: (words[0] / 2) as usize,
            finished: words[0] % 2 == 1,
            references: words[1] as usize,
            prefix_bytes: words[2] as usize,
        }
    }
}

/// The finished steps of a session, and the bytes written.
#[derive(Clone, Debug, PartialEq, Eq)]
pub struct Run {
    steps: Vec<Step>,
    bytes: Vec<u8>,
    finished: bool,
}

impl Run {
    /// What each finished step left. A quote's says what its add would leave.
    pub fn steps(&self) -> &[Step] {
        &self.steps
    }

    /// The bytes written. If [`is_finished`](Run::is_finished), they are the whole tree's.
    pub fn bytes(&self) -> &[u8] {
        &self.bytes
    }

    /// The bytes written.
    pub fn into_bytes(self) -> Vec<u8> {
        self.bytes
    }

    /// Whether no place is open at the end. A quote leaves its place open, whatever its words say.
    pub fn is_finished(&self) -> bool {
        self.finished
    }
}

/// A session that was refused: why, and what its finished steps and whole items left.
///
/// ```
/// use nikvoldra::{NodePtr, Refusal, Session};
///
/// let mut session = Session::new();
/// session.add(NodePtr::NIL)?;
/// session.add(NodePtr::NIL)?;
/// let error = session.run().unwrap_err();
/// assert_eq!(error.refusal(), Refusal::AlreadyFinished);
/// assert_eq!(error.run().steps().len(), 1);
/// assert_eq!(error.run().bytes(), [0x80]);
/// assert_eq!(error.to_string(), "at step 2, question 9 got no: At an add, is the session unfinished?");
/// # Ok::<(), nikvoldra::BuildError>(())
/// ```
#[derive(Clone, Debug, PartialEq, Eq)]
pub struct SessionError {
    refusal: Refusal,
    run: Run,
}

impl SessionError {
    /// The question that got no.
    pub fn refusal(&self) -> Refusal {
        self.refusal
    }

    /// What the session left. With the numbers 1 to 8 nothing was run, and it is empty.
    pub fn run(&self) -> &Run {
        &self.run
    }

    /// What the session left.
    pub fn into_run(self) -> Run {
        self.run
    }
}

impl fmt::Display for SessionError {
    fn fmt(&self, f: &mut fmt::Formatter<'_>) -> fmt::Result {
        if self.refusal < Refusal::AlreadyFinished {
            return self.refusal.fmt(f);
        }
        write!(f, "at step {}, {}", self.run.steps.len() + 1, self.refusal)
    }
}

impl Error for SessionError {}

/// Runs sessions on slices that it keeps from run to run.
///
/// ```
/// use nikvoldra::{NodePtr, Session, Writer};
///
/// let mut session = Session::new();
/// session.add(NodePtr::NIL)?;
/// let mut writer = Writer::new();
/// let first = writer.run(&session)?;
/// let again = writer.run_file(&session.to_file())?;
/// assert_eq!(first, again);
/// # Ok::<(), Box<dyn std::error::Error>>(())
/// ```
pub struct Writer {
    work: Vec<u32>,
    words: Vec<u32>,
    checkpoints: Vec<Checkpoint>,
    output: Vec<u8>,
}

/// One of the session calls.
type SessionCall = fn(&[u8], &mut [u32], &mut [u32], &mut [Checkpoint], &mut [u8]) -> SessionAnswer;

impl Writer {
    /// A writer whose output has 65,535 bytes, of which no more are ever used.
    pub fn new() -> Writer {
        Writer::with_output_length(call::OUTPUT_MOST)
    }

    /// A writer whose output has so many bytes: an item that doesn't fit is refused with [`Refusal::OutputFull`].
    ///
    /// ```
    /// use nikvoldra::{Refusal, Session, Writer};
    ///
    /// let mut session = Session::new();
    /// let foobar = session.atom(b"foobar")?;
    /// let tree = session.pair(foobar, foobar)?;
    /// session.add(tree)?;
    /// assert_eq!(Writer::with_output_length(10).run(&session)?.bytes().len(), 10);
    /// let error = Writer::with_output_length(9).run(&session).unwrap_err();
    /// assert_eq!(error.refusal(), Refusal::OutputFull);
    /// assert_eq!(error.run().bytes(), b"\xff\x86foobar");
    /// # Ok::<(), Box<dyn std::error::Error>>(())
    /// ```
    pub fn with_output_length(length: usize) -> Writer {
        Writer {
            work: vec![0; call::WORK_LENGTH],
            words: vec![0; call::WORDS_LENGTH],
            checkpoints: vec![Checkpoint::default(); call::CHECKPOINTS_LENGTH],
            output: vec![0; length],
        }
    }

    /// Runs a session.
    pub fn run(&mut self, session: &Session) -> Result<Run, SessionError> {
        self.run_file(&session.to_file())
    }

    /// Runs a session file that was made elsewhere. It can be refused by the questions 2 to 13 and 17.
    pub fn run_file(&mut self, file: &[u8]) -> Result<Run, SessionError> {
        self.run_by(call::session, file)
    }

    /// Runs a session, with references measured as the documentation has it: [`Session::run_documented`].
    pub fn run_documented(&mut self, session: &Session) -> Result<Run, SessionError> {
        self.run_file_documented(&session.to_file())
    }

    /// The same for a session file that was made elsewhere.
    ///
    /// ```
    /// use nikvoldra::{NodePtr, Session, Writer};
    ///
    /// let mut session = Session::new();
    /// session.add(NodePtr::NIL)?;
    /// let mut writer = Writer::new();
    /// let first = writer.run_documented(&session)?;
    /// assert_eq!(writer.run_file_documented(&session.to_file())?, first);
    /// // no path of 512 bytes is found
    /// assert_eq!(writer.run(&session)?, first);
    /// # Ok::<(), Box<dyn std::error::Error>>(())
    /// ```
    pub fn run_file_documented(&mut self, file: &[u8]) -> Result<Run, SessionError> {
        self.run_by(call::session_documented, file)
    }

    fn run_by(&mut self, call: SessionCall, file: &[u8]) -> Result<Run, SessionError> {
        let answer = call(
            file,
            &mut self.work,
            &mut self.words,
            &mut self.checkpoints,
            &mut self.output,
        );
        let steps: Vec<Step> = self
            .words
            .chunks_exact(3)
            .take(answer.steps as usize)
            .map(Step::new)
            .collect();
        let bytes = self.output[..answer.size as usize].to_vec();
        let refusal = Refusal::of_answer(answer.number);
        // The words of a quote that would finish count more bytes than are written. A step that 12 or 13 refuses had an open place.
        let finished = steps
            .last()
            .is_some_and(|step| step.finished && step.size == bytes.len())
            && !matches!(refusal, Some(Refusal::TooDeep | Refusal::OutputFull));
        let run = Run {
            steps,
            bytes,
            finished,
        };
        match refusal {
            None => Ok(run),
            Some(refusal) => Err(SessionError { refusal, run }),
        }
    }
}

impl Default for Writer {
    fn default() -> Writer {
        Writer::new()
    }
}

impl fmt::Debug for Writer {
    fn fmt(&self, f: &mut fmt::Formatter<'_>) -> fmt::Result {
        f.debug_struct("Writer")
            .field("output_length", &self.output.len())
            .finish_non_exhaustive()
    }
}
