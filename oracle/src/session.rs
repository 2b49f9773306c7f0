//! A session file: questions 2 to 8, and the steps on the unchanged Rust with
//! questions 9 to 13 and 17; on that with the documentation's prefix lengths, too.

use crate::counts::{self, Counts};
use crate::node::{ATOM, INDEX_BITS, NONE, PAIR, SMALL, from_word, index, kind};
use crate::writer::{Cache, Measure, Writer};
use clvm_rs::allocator::fits_in_small_atom;
use clvm_rs::serde::write_atom::write_atom;
use clvm_rs::{Allocator, NodePtr, SExp};
use std::fmt::Write;

pub const MARK: &[u8] = b"BRS\x00\x01";
pub const MAX_FILE: usize = 65_535;
pub const MAX_ATOMS: usize = 1024;
pub const MAX_PAIRS: usize = 1024;
pub const MAX_ATOM_BYTES: usize = 32_768;
pub const MAX_STEPS: usize = 1024;
pub const MAX_ADDS: usize = 16;
pub const MAX_OPEN: usize = 4096;
pub const MAX_OUTPUT: usize = 65_535;

#[derive(Debug, Clone, Copy, PartialEq, Eq)]
pub enum Step {
    Add(u32),
    /// `02`: entries and parents stay.
    Restore(u16),
    /// `03`: nothing stays.
    Forget(u16),
    /// `04`: the word of an add, which isn't made.
    Quote(u32),
    /// `05`: the add that was quoted right before it.
    Take,
}

#[derive(Debug, Default, Clone, PartialEq, Eq)]
pub struct SessionFile {
    pub atoms: Vec<Vec<u8>>,
    pub pairs: Vec<(u32, u32)>,
    pub sentinel: Option<u32>,
    pub steps: Vec<Step>,
}

struct Fields<'a> {
    file: &'a [u8],
    at: usize,
}

impl<'a> Fields<'a> {
    /// Question 4.
    fn take(&mut self, n: usize) -> Result<&'a [u8], u32> {
        let part = self.file[self.at..].get(..n).ok_or(4_u32)?;
        self.at += n;
        Ok(part)
    }

    fn word16(&mut self) -> Result<usize, u32> {
        let b = self.take(2)?;
        Ok(usize::from(b[0]) << 8 | usize::from(b[1]))
    }

    fn word32(&mut self) -> Result<u32, u32> {
        let b = self.take(4)?;
        Ok(u32::from_be_bytes([b[0], b[1], b[2], b[3]]))
    }

    /// Questions 4 and 7.
    fn handle(&mut self, atoms: usize, pairs: usize, or_none: bool) -> Result<u32, u32> {
        let h = self.word32()?;
        let named = match kind(h) {
            PAIR => index(h) < pairs,
            ATOM => index(h) < atoms,
            SMALL => true,
            _ => or_none && h == NONE,
        };
        if named { Ok(h) } else { Err(7) }
    }
}

/// Questions 2 to 8, or the number of the first that fails.
pub fn parse(file: &[u8]) -> Result<SessionFile, u32> {
    if file.len() > MAX_FILE {
        return Err(2);
    }
    if !file.starts_with(MARK) {
        return Err(3);
    }
    let mut f = Fields {
        file,
        at: MARK.len(),
    };
    let mut s = SessionFile::default();

    let atom_count = f.word16()?;
    if atom_count > MAX_ATOMS {
        return Err(5);
    }
    let mut atom_bytes = 0;
    for _ in 0..atom_count {
        // length and bytes are one field
        let length = f.word16()?;
        let atom = f.take(length)?;
        atom_bytes += length;
        if atom_bytes > MAX_ATOM_BYTES {
            return Err(5);
        }
        if fits_in_small_atom(atom).is_some() {
            return Err(6);
        }
        s.atoms.push(atom.to_vec());
    }

    let pair_count = f.word16()?;
    if pair_count > MAX_PAIRS {
        return Err(5);
    }
    for i in 0..pair_count {
        let left = f.handle(atom_count, i, false)?;
        let right = f.handle(atom_count, i, false)?;
        s.pairs.push((left, right));
    }

    let sentinel = f.handle(atom_count, pair_count, true)?;
    s.sentinel = (sentinel != NONE).then_some(sentinel);

    while f.at < file.len() {
        let code = f.take(1)?[0];
        if s.steps.len() == MAX_STEPS {
            return Err(5);
        }
        s.steps.push(match code {
            1 => Step::Add(f.handle(atom_count, pair_count, false)?),
            2 => Step::Restore(f.word16()? as u16),
            3 => Step::Forget(f.word16()? as u16),
            4 => Step::Quote(f.handle(atom_count, pair_count, false)?),
            5 => Step::Take,
            _ => return Err(8),
        });
    }
    Ok(s)
}

impl SessionFile {
    /// The file's bytes. Counts beyond 16 bits are the caller's error.
    pub fn to_bytes(&self) -> Vec<u8> {
        let mut out = MARK.to_vec();
        out.extend_from_slice(&(self.atoms.len() as u16).to_be_bytes());
        for a in &self.atoms {
            out.extend_from_slice(&(a.len() as u16).to_be_bytes());
            out.extend_from_slice(a);
        }
        out.extend_from_slice(&(self.pairs.len() as u16).to_be_bytes());
        for (left, right) in &self.pairs {
            out.extend_from_slice(&left.to_be_bytes());
            out.extend_from_slice(&right.to_be_bytes());
        }
        out.extend_from_slice(&self.sentinel.unwrap_or(NONE).to_be_bytes());
        for step in &self.steps {
            match step {
                Step::Add(h) => {
                    out.push(1);
                    out.extend_from_slice(&h.to_be_bytes());
                }
                Step::Restore(k) => {
                    out.push(2);
                    out.extend_from_slice(&k.to_be_bytes());
                }
                Step::Forget(k) => {
                    out.push(3);
                    out.extend_from_slice(&k.to_be_bytes());
                }
                Step::Quote(h) => {
                    out.push(4);
                    out.extend_from_slice(&h.to_be_bytes());
                }
                Step::Take => out.push(5),
            }
        }
        out
    }

    /// A store whose atom i and pair i are the file's.
    pub fn allocator(&self) -> Allocator {
        let mut a = Allocator::new();
        for (i, atom) in self.atoms.iter().enumerate() {
            let n = a.new_atom(atom).expect("new_atom");
            assert_eq!(n, from_word(ATOM << INDEX_BITS | i as u32));
        }
        for (i, (left, right)) in self.pairs.iter().enumerate() {
            let n = a
                .new_pair(from_word(*left), from_word(*right))
                .expect("new_pair");
            assert_eq!(n, from_word(i as u32));
        }
        a
    }
}

/// With 2 to 8 `words`, `counts` and `output` are empty. The count of finished steps is
/// `words.len()`, the size `output.len()`.
#[derive(Debug, Default, Clone, PartialEq, Eq)]
pub struct SessionAnswer {
    pub number: u32,
    /// Each finished step's first word, which the Rust has too.
    pub words: Vec<u32>,
    /// What its other two words count.
    pub counts: Vec<Counts>,
    pub output: Vec<u8>,
}

impl SessionAnswer {
    /// The three words of each finished step, one step after the other.
    pub fn all_words(&self) -> Vec<u32> {
        let steps = self.words.iter().zip(&self.counts);
        steps
            .flat_map(|(word, c)| [*word, c.references, c.prefix_bytes])
            .collect()
    }

    /// Whether the session, of this file, is finished at the end of the run. A quote's
    /// word says what would be, and the session before a quote is unfinished.
    pub fn is_finished(&self, s: &SessionFile) -> bool {
        let last = self.words.len().checked_sub(1);
        last.is_some_and(|i| !matches!(s.steps[i], Step::Quote(_)) && self.words[i] % 2 == 1)
    }
}

/// An item of the output: what `find_path` answered before it, and what was written
/// where it answered nothing.
#[derive(Debug, Clone, PartialEq, Eq)]
pub enum Item {
    Reference(Vec<u8>),
    Pair,
    Atom(Vec<u8>),
}

#[derive(PartialEq, Eq, Clone)]
enum ReadOp {
    Parse,
    Cons(NodePtr),
}

/// `Serializer` as incremental.rs has it, on the Rust's own `TreeCache`, with
/// questions 12 and 13 asked before each item.
struct Driver<'a, C> {
    a: &'a Allocator,
    sentinel: Option<NodePtr>,
    read_op_stack: Vec<ReadOp>,
    write_stack: Vec<NodePtr>,
    tree_cache: C,
    output: Vec<u8>,
    /// The items of `output`
    items: Vec<Item>,
    output_length: usize,
    /// Cons ops in `read_op_stack`
    open: usize,
}

struct DriverState<C: Cache> {
    read_op_stack: Vec<ReadOp>,
    write_stack: Vec<NodePtr>,
    tree_cache: C::Checkpoint,
    size: usize,
    items: usize,
    open: usize,
}

impl<'a, C: Cache> Driver<'a, C> {
    fn new(a: &'a Allocator, sentinel: Option<NodePtr>, output_length: usize) -> Self {
        Self {
            a,
            sentinel,
            read_op_stack: vec![ReadOp::Parse],
            write_stack: vec![],
            tree_cache: C::new(sentinel),
            output: vec![],
            items: vec![],
            output_length: output_length.min(MAX_OUTPUT),
            open: 0,
        }
    }

    fn finished(&self) -> bool {
        self.read_op_stack.is_empty()
    }

    /// Question 13, and the item when it fits.
    fn put(&mut self, item: &[u8]) -> Result<(), u32> {
        if self.output.len() + item.len() > self.output_length {
            return Err(13);
        }
        self.output.extend_from_slice(item);
        Ok(())
    }

    fn state(&self) -> DriverState<C> {
        DriverState {
            read_op_stack: self.read_op_stack.clone(),
            write_stack: self.write_stack.clone(),
            tree_cache: self.tree_cache.undo_state(),
            size: self.output.len(),
            items: self.items.len(),
            open: self.open,
        }
    }

    /// The loop of `Serializer::add`: whether the session is finished, or 12 or
    /// 13, after which the driver is not to be used except for its output.
    fn add(&mut self, node: NodePtr) -> Result<bool, u32> {
        assert!(!self.finished());
        self.tree_cache.update(self.a, node);
        self.write_stack.push(node);

        while let Some(node_to_write) = self.write_stack.pop() {
            if Some(node_to_write) == self.sentinel {
                return Ok(false);
            }
            let op = self.read_op_stack.pop();
            assert!(op == Some(ReadOp::Parse));

            match self.tree_cache.find_path(node_to_write) {
                Some(path) => {
                    let mut item = vec![0xfe];
                    write_atom(&mut item, &path).expect("write_atom");
                    self.put(&item)?;
                    self.items.push(Item::Reference(path));
                    self.tree_cache.push(node_to_write);
                }
                None => match self.a.sexp(node_to_write) {
                    SExp::Pair(left, right) => {
                        if self.open >= MAX_OPEN {
                            return Err(12);
                        }
                        self.put(&[0xff])?;
                        self.items.push(Item::Pair);
                        self.open += 1;
                        self.write_stack.push(right);
                        self.write_stack.push(left);
                        self.read_op_stack.push(ReadOp::Cons(node_to_write));
                        self.read_op_stack.push(ReadOp::Parse);
                        self.read_op_stack.push(ReadOp::Parse);
                    }
                    SExp::Atom => {
                        let mut item = vec![];
                        let atom = self.a.atom(node_to_write);
                        write_atom(&mut item, atom.as_ref()).expect("write_atom");
                        self.put(&item)?;
                        self.items.push(Item::Atom(atom.as_ref().to_vec()));
                        self.tree_cache.push(node_to_write);
                    }
                },
            }
            while let Some(ReadOp::Cons(node)) = self.read_op_stack.last() {
                let node = *node;
                self.read_op_stack.pop();
                self.open -= 1;
                self.tree_cache.pop2_and_cons(node);
            }
        }
        assert!(self.finished());
        Ok(true)
    }

    fn restore(&mut self, state: DriverState<C>) {
        self.read_op_stack = state.read_op_stack;
        self.write_stack = state.write_stack;
        self.tree_cache.restore(state.tree_cache);
        self.output.truncate(state.size);
        self.items.truncate(state.items);
        self.open = state.open;
    }
}

/// A session on the Rust.
struct Session<'a, W: Writer> {
    driver: Driver<'a, W::Cache>,
    /// Does each step too, if the two are compared.
    serializer: Option<W>,
    /// The steps that count: after them a fresh session is this one. Each is an add,
    /// also for a `05`, or a `02`.
    steps: Vec<Step>,
    /// The state before add k, for each k below the adds on the present history.
    history: Vec<Before<W>>,
    /// The handle of the open quote.
    quoted: Option<u32>,
}

/// The words of a step.
#[derive(Debug, Clone, Copy, PartialEq, Eq)]
struct Told {
    word: u32,
    counts: Counts,
}

struct Before<W: Writer> {
    driver: DriverState<W::Cache>,
    serializer: Option<W::Undo>,
    /// How many of the steps that count led to it.
    steps: usize,
}

impl<'a, W: Writer> Session<'a, W> {
    fn new(
        a: &'a Allocator,
        sentinel: Option<NodePtr>,
        output_length: usize,
        compare: bool,
    ) -> Self {
        Self {
            driver: Driver::new(a, sentinel, output_length),
            serializer: compare.then(|| W::new(sentinel)),
            steps: vec![],
            history: vec![],
            quoted: None,
        }
    }

    /// A fresh session that did the first `count` of the steps that count. The Rust
    /// can't copy a `Serializer`.
    fn again(&self, count: usize) -> Self {
        let Driver { a, sentinel, .. } = self.driver;
        let (length, compare) = (self.driver.output_length, self.serializer.is_some());
        let mut again = Self::new(a, sentinel, length, compare);
        for step in &self.steps[..count] {
            again.make(*step, None).expect("a step that went before");
        }
        again
    }

    /// Questions 9, 10, 12 and 13.
    fn add(&mut self, h: u32) -> Result<(), u32> {
        if self.driver.finished() {
            return Err(9);
        }
        if self.history.len() >= MAX_ADDS {
            return Err(10);
        }
        let before = self.driver.state();
        let finished = self.driver.add(from_word(h))?;
        let undo = self.serializer.as_mut().map(|ser| {
            let (done, undo) = ser.add(self.driver.a, from_word(h));
            assert_eq!(done, finished, "finished differs from Serializer");
            undo
        });
        self.history.push(Before {
            driver: before,
            serializer: undo,
            steps: self.steps.len(),
        });
        self.steps.push(Step::Add(h));
        Ok(())
    }

    /// Question 11; then the state before add k as far as the Rust brings it back.
    fn restore(&mut self, k: u16) -> Result<(), u32> {
        let before = self.before(k)?;
        self.driver.restore(before.driver);
        if let Some(ser) = self.serializer.as_mut() {
            ser.restore(before.serializer.expect("an UndoState for k"));
        }
        self.steps.push(Step::Restore(k));
        Ok(())
    }

    /// Question 11; then the whole state before add k. The Rust has no such step: a
    /// fresh session does the steps that led there.
    fn forget(&mut self, k: u16) -> Result<(), u32> {
        let before = self.before(k)?;
        let again = self.again(before.steps);
        assert_eq!(again.history.len(), usize::from(k), "another history");
        let size = before.driver.size;
        assert_eq!(again.driver.output, self.driver.output[..size]);
        *self = again;
        Ok(())
    }

    /// Questions 9, 10, 12 and 13, and the words of the add. The Rust has no such step:
    /// a fresh session does all steps that count and the add, and is thrown away.
    fn quote(&mut self, h: u32) -> Result<Told, u32> {
        let mut again = self.again(self.steps.len());
        assert_eq!(again.history.len(), self.history.len(), "another history");
        assert_eq!(again.driver.output, self.driver.output);
        again.make(Step::Add(h), None)?;
        self.quoted = Some(h);
        Ok(again.told())
    }

    fn before(&mut self, k: u16) -> Result<Before<W>, u32> {
        let k = usize::from(k);
        if k >= self.history.len() {
            return Err(11);
        }
        self.history.truncate(k + 1);
        Ok(self.history.pop().expect("a state for k"))
    }

    /// A step that isn't a quote, with the quote that was open before it, or its number.
    fn make(&mut self, step: Step, quoted: Option<u32>) -> Result<(), u32> {
        match step {
            Step::Add(h) => self.add(h)?,
            Step::Restore(k) => self.restore(k)?,
            Step::Forget(k) => self.forget(k)?,
            Step::Quote(_) => panic!("a quote makes nothing"),
            Step::Take => self
                .add(quoted.ok_or(17_u32)?)
                .expect("an add that was quoted"),
        }
        if let Some(ser) = self.serializer.as_ref() {
            assert_eq!(ser.written(), self.driver.output, "bytes differ");
        }
        Ok(())
    }

    /// One step: its words, or its number. Every step but a `05` drops an open quote, and
    /// that one closes it.
    fn step(&mut self, step: Step) -> Result<Told, u32> {
        let quoted = self.quoted.take();
        if let Step::Quote(h) = step {
            return self.quote(h);
        }
        self.make(step, quoted)?;
        Ok(self.told())
    }

    /// The words of the session as it is: the Rust's, and the counts of the bytes that its
    /// writer has written.
    fn told(&self) -> Told {
        let written = match &self.serializer {
            Some(ser) => ser.written(),
            None => &self.driver.output,
        };
        let counts = counts::of(written);
        let items = self.driver.items.iter();
        let references = items.filter(|i| matches!(i, Item::Reference(_))).count();
        assert_eq!(references as u32, counts.references, "the items differ");
        Told {
            word: written.len() as u32 * 2 + u32::from(self.driver.finished()),
            counts,
        }
    }
}

/// The whole session by the Rust as it is. With `compare` every step that 12 and 13 let
/// through is also done by the unchanged `Serializer`; a difference panics.
pub fn run(file: &[u8], output_length: usize, compare: bool) -> SessionAnswer {
    run_by(Measure::Counted, file, output_length, compare)
}

/// The whole session by a measure, with `compare` as before by the `Serializer` that has it.
pub fn run_by(measure: Measure, file: &[u8], output_length: usize, compare: bool) -> SessionAnswer {
    match parse(file) {
        Err(number) => SessionAnswer {
            number,
            ..SessionAnswer::default()
        },
        Ok(s) => run_parsed(measure, &s, output_length, compare),
    }
}

pub fn run_parsed(
    measure: Measure,
    s: &SessionFile,
    output_length: usize,
    compare: bool,
) -> SessionAnswer {
    run_items(measure, s, output_length, compare).0
}

/// The whole session, and the items of its output.
fn run_items(
    measure: Measure,
    s: &SessionFile,
    output_length: usize,
    compare: bool,
) -> (SessionAnswer, Vec<Item>) {
    match measure {
        Measure::Counted => run_on::<clvm_rs::serde::Serializer>(s, output_length, compare),
        Measure::Documented => run_on::<documented::serde::Serializer>(s, output_length, compare),
    }
}

fn run_on<W: Writer>(
    s: &SessionFile,
    output_length: usize,
    compare: bool,
) -> (SessionAnswer, Vec<Item>) {
    let a = s.allocator();
    let sentinel = s.sentinel.map(from_word);
    let mut session = Session::<W>::new(&a, sentinel, output_length, compare);
    let mut all: Vec<Told> = vec![];
    let mut number = 0;
    for step in &s.steps {
        let told = match session.step(*step) {
            Ok(told) => told,
            Err(n) => {
                number = n;
                break;
            }
        };
        match step {
            Step::Add(_) | Step::Quote(_) => (),
            Step::Restore(_) | Step::Forget(_) => assert!(
                told.word.is_multiple_of(2),
                "an undo left a finished session"
            ),
            Step::Take => assert_eq!(all.last(), Some(&told), "other words than quoted"),
        }
        all.push(told);
    }
    let answer = SessionAnswer {
        number,
        words: all.iter().map(|told| told.word).collect(),
        counts: all.iter().map(|told| told.counts).collect(),
        output: session.driver.output,
    };
    (answer, session.driver.items)
}

fn text(r: &SessionAnswer, counts: bool, output: &str) -> String {
    let mut s = String::new();
    for (i, (w, c)) in r.words.iter().zip(&r.counts).enumerate() {
        let _ = write!(s, "{} {} {}", i + 1, w / 2, w % 2);
        if counts {
            let _ = write!(s, " {} {}", c.references, c.prefix_bytes);
        }
        s.push('\n');
    }
    s += output;
    if r.number != 0 {
        let _ = writeln!(s, "refused {}", r.number);
    }
    s
}

/// The text that `session FILE` prints, or `session --counts FILE`.
pub fn print(r: &SessionAnswer, counts: bool) -> String {
    text(r, counts, &(crate::hex::encode(&r.output) + "\n"))
}

/// The text that `session --items FILE` prints, or with `--counts` or `--documented` too: a
/// line for each item of the output.
pub fn print_items(measure: Measure, file: &[u8], counts: bool) -> String {
    let (answer, items) = match parse(file) {
        Err(_) => (run(file, MAX_OUTPUT, true), vec![]),
        Ok(s) => run_items(measure, &s, MAX_OUTPUT, true),
    };
    let line = |item: &Item| match item {
        Item::Reference(path) => format!("reference {}\n", crate::hex::encode(path)),
        Item::Pair => "pair\n".to_string(),
        Item::Atom(bytes) if bytes.is_empty() => "atom\n".to_string(),
        Item::Atom(bytes) => format!("atom {}\n", crate::hex::encode(bytes)),
    };
    text(&answer, counts, &items.iter().map(line).collect::<String>())
}
