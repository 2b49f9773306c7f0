//! The session as 01's text says it, written from the text and not from the
//! Rust: entries, parents, the search's steps, undo. Only questions 2 to 8 are
//! shared with `session`. `selfcheck` compares it with the unchanged Rust, so a
//! difference is one between 01 and the Rust. A `03` takes a copy of all that
//! there was, where `session` does the steps before it again; a `04` does the add and
//! takes such a copy. References and prefix bytes are counted item by item as they are
//! written, where `session` counts them in the bytes. A found path is measured by the
//! ranges that 01 gives for the Rust, or by the documentation's.

use crate::counts::Counts;
use crate::node::{ATOM, NIL, PAIR, index, kind};
use crate::plain::{atom_in_full, small_bytes};
use crate::session::{MAX_ADDS, MAX_OPEN, MAX_OUTPUT, SessionAnswer, SessionFile, Step, parse};
use crate::writer::Measure;
use std::collections::HashMap;

/// What the search and the parent lists met, to see what inputs reach.
#[derive(Debug, Default, Clone)]
pub struct Met {
    pub searches: usize,
    pub used: usize,
    pub not_used: usize,
    pub list_empty: usize,
    pub pass_limit: usize,
    pub visit_limit: usize,
    pub seen_dropped: usize,
    pub overwritten: usize,
    pub moved: usize,
    pub front_dropped: usize,
    pub second_handles: usize,
    pub longest_path: usize,
    /// found paths of 511, 512, 513 and more bytes whose entry's length is theirs and 2, 3 or 4
    pub by_bytes: [[usize; 3]; 4],
    pub most_open: usize,
    pub most_entries: usize,
    /// atoms, and paths, by the width of their prefix
    pub atom_widths: [usize; 4],
    pub path_widths: [usize; 4],
}

impl Met {
    pub fn add(&mut self, m: &Met) {
        self.searches += m.searches;
        self.used += m.used;
        self.not_used += m.not_used;
        self.list_empty += m.list_empty;
        self.pass_limit += m.pass_limit;
        self.visit_limit += m.visit_limit;
        self.seen_dropped += m.seen_dropped;
        self.overwritten += m.overwritten;
        self.moved += m.moved;
        self.front_dropped += m.front_dropped;
        self.second_handles += m.second_handles;
        self.longest_path = self.longest_path.max(m.longest_path);
        for (mine, theirs) in self.by_bytes.iter_mut().zip(m.by_bytes) {
            mine.iter_mut().zip(theirs).for_each(|(a, b)| *a += b);
        }
        self.most_open = self.most_open.max(m.most_open);
        self.most_entries = self.most_entries.max(m.most_entries);
        for width in 0..4 {
            self.atom_widths[width] += m.atom_widths[width];
            self.path_widths[width] += m.path_widths[width];
        }
    }
}

#[derive(Clone)]
struct Entry {
    length: u64,
    /// parent and position, left 0, right 1
    parents: Vec<(usize, usize)>,
}

#[derive(Clone, Copy)]
enum Place {
    Entry(usize, usize),
    Stack(usize),
}

#[derive(Clone)]
struct Path {
    bits: Vec<bool>,
    place: Place,
}

/// What `02` and `03` take back.
#[derive(Clone, Default)]
struct State {
    /// pairs begun: the handle, and whether its right side is under way
    open: Vec<(u32, bool)>,
    stack: Vec<usize>,
    written: Vec<bool>,
    size: usize,
    counts: Counts,
    finished: bool,
}

/// What a `03` takes back too, and a `02` leaves, but for the sentinel's entry.
#[derive(Clone, Default)]
struct Cache {
    entries: Vec<Entry>,
    by_handle: HashMap<u32, usize>,
    by_atom: HashMap<Vec<u8>, usize>,
    by_pair: HashMap<(usize, usize), usize>,
    sentinel_entry: Option<usize>,
}

/// A right `03`, and wrong ones, to see which inputs notice them.
#[derive(Debug, Default, Clone, Copy, PartialEq, Eq)]
pub enum Forget {
    #[default]
    Right,
    /// leaves all that a `02` leaves
    LeavesCache,
    /// only cuts each list of parents to the length that it had
    LeavesParents,
    /// leaves parents that were moved from the sentinel's entry
    LeavesMoved,
    /// leaves a list without the parents that it lost in front
    LeavesFront,
    /// leaves new handles of entries that were there before
    LeavesHandles,
    /// leaves which entry is the sentinel's
    LeavesSentinel,
    /// takes back what an earlier `02` left
    TakesMore,
}

/// Right quotes, and wrong ones, to see which inputs notice them.
#[derive(Debug, Default, Clone, Copy, PartialEq, Eq)]
pub enum Quote {
    #[default]
    Right,
    /// a `04` leaves its items
    LeavesItems,
    /// a `04` takes its add back as such a wrong `03`
    Back(Forget),
    /// a `04` leaves the session finished
    LeavesFinished,
    /// a `04` takes a place in the history
    TakesPlace,
    /// a `05` takes none
    TakesNone,
    /// a `04` doesn't ask 10, and a `05` does
    AsksLater,
    /// a `04` that is refused leaves the whole items that it wrote
    RefusedLeavesItems,
    /// a `05` leaves the quote open
    StaysOpen,
    /// a `01` leaves the quote open
    KeptByAdd,
    /// a `02` leaves the quote open
    KeptByRestore,
    /// a `03` leaves the quote open
    KeptByForget,
    /// a `04` leaves the quote before it open
    KeptByQuote,
}

/// Right counts, and wrong ones, to see which inputs notice them.
#[derive(Debug, Default, Clone, Copy, PartialEq, Eq)]
pub enum Count {
    #[default]
    Right,
    /// a `02` leaves both
    LeftByRestore,
    /// a `03` leaves both
    LeftByForget,
    /// a `02` and a `03` leave the references
    ReferencesLeft,
    /// a `02` and a `03` leave the prefix bytes
    PrefixesLeft,
    /// a `04` leaves those of its add
    LeftByQuote,
    /// a `04` shows those before it
    QuoteShowsBefore,
    /// a `05` counts its add a second time
    TakenTwice,
    /// the prefix of a path is none
    NoPaths,
    /// `fe` is a prefix byte too
    MarkToo,
    /// nil has no prefix
    NoNil,
    /// a single byte below `80` has a prefix
    EachAtom,
    /// no prefix has more than a byte
    OneByte,
    /// no path's prefix has more than a byte
    PathOneByte,
}

/// The right measures of a found path, and wrong ones in the place of the documentation's.
#[derive(Debug, Clone, Copy, PartialEq, Eq)]
pub enum Length {
    By(Measure),
    /// one less: also a reference that is a byte longer than what it stands for
    Longer,
    /// one more: only a reference that is shorter than what it stands for
    Shorter,
    /// prefix 1 for 64 bytes
    Short64,
    /// prefix 3 for 512 bytes
    Long512,
    /// prefix 3 from 513 bytes on
    Long513,
    /// a `04` measures as the Rust does
    NotQuoted,
    /// a `05` measures as the Rust does
    NotTaken,
    /// after a `02` all steps do
    LostByRestore,
    /// after a `03` all steps do
    LostByForget,
}

impl Default for Length {
    fn default() -> Self {
        Self::By(Measure::Counted)
    }
}

/// How a session is run: right, or wrong in some way.
#[derive(Debug, Default, Clone, Copy)]
pub struct Ways {
    pub forget: Forget,
    pub quote: Quote,
    pub count: Count,
    pub length: Length,
}

impl Ways {
    /// Right, by a measure.
    pub fn by(measure: Measure) -> Self {
        Self {
            length: Length::By(measure),
            ..Self::default()
        }
    }
}

impl Cache {
    /// The cache after a `03`, from that of the state it goes back to.
    fn put_back(&mut self, mut before: Cache, way: Forget) {
        let count = before.entries.len();
        let lists = self.entries.iter().map(|e| &e.parents);
        let lists = lists.zip(before.entries.iter_mut().map(|e| &mut e.parents));
        match way {
            Forget::Right | Forget::TakesMore => (),
            Forget::LeavesCache => {
                self.sentinel_entry = before.sentinel_entry.or(self.sentinel_entry);
                return;
            }
            Forget::LeavesParents => {
                for (now, then) in lists {
                    let cut = now.iter().take(then.len());
                    *then = cut.filter(|p| p.0 < count).copied().collect();
                }
            }
            Forget::LeavesMoved => {
                if let Some(e) = before.sentinel_entry
                    && self.entries[e].parents.is_empty()
                {
                    before.entries[e].parents.clear();
                }
            }
            Forget::LeavesFront => {
                for (now, then) in lists {
                    let lost = (0..then.len()).find(|n| now.starts_with(&then[*n..]));
                    then.drain(..lost.unwrap_or(0));
                }
            }
            Forget::LeavesHandles => {
                let known = self.by_handle.drain().filter(|(_, e)| *e < count);
                before.by_handle.extend(known);
            }
            Forget::LeavesSentinel => {
                before.sentinel_entry = self.sentinel_entry.filter(|e| *e < count);
            }
        }
        *self = before;
    }
}

struct Model<'a> {
    s: &'a SessionFile,
    cache: Cache,
    now: State,
    /// each add on the present history, and what there was before it
    records: Vec<(u32, State, Cache)>,
    output: Vec<u8>,
    output_length: usize,
    /// the handle of the open quote
    quoted: Option<u32>,
    count: Count,
    /// the measure of a found path in this step
    length: Length,
    met: Met,
}

impl Length {
    /// What a path is counted at.
    fn of(self, bits: &[bool]) -> u64 {
        let documented = atom_in_full(&path_bytes(bits)).len() as u64;
        match (self, bits.len().div_ceil(8)) {
            (Length::By(Measure::Counted), _) => counted_length(bits),
            (Length::Longer, _) | (Length::Short64, 64) => documented - 1,
            (Length::Shorter, _) | (Length::Long512, 512) | (Length::Long513, 513..) => {
                documented + 1
            }
            _ => documented,
        }
    }

    /// That of a step, and that of the steps after it.
    fn at(self, step: Step) -> (Self, Self) {
        let rust = Length::By(Measure::Counted);
        match (self, step) {
            (Length::NotQuoted, Step::Quote(_)) | (Length::NotTaken, Step::Take) => (rust, self),
            (Length::LostByRestore, Step::Restore(_)) | (Length::LostByForget, Step::Forget(_)) => {
                (rust, rust)
            }
            _ => (self, self),
        }
    }
}

/// `serialized_length` of path_builder.rs, by the ranges that 01 gives.
fn counted_length(bits: &[bool]) -> u64 {
    let bytes = bits.len().div_ceil(8) as u64;
    match bytes {
        0 => 1,
        // decimal 80, for a full byte
        1 if bits.len() == 8 && path_bytes(bits)[0] >= 80 => 2,
        1 => 1,
        2..64 => 1 + bytes,
        64..512 => 2 + bytes,
        512..1_048_576 => 3 + bytes,
        _ => unreachable!("a search path has at most 5,120 bits"),
    }
}

/// Bits right-aligned in bytes.
fn path_bytes(bits: &[bool]) -> Vec<u8> {
    bits.rchunks(8)
        .rev()
        .map(|c| c.iter().fold(0, |b, bit| b * 2 + u8::from(*bit)))
        .collect()
}

impl Model<'_> {
    fn bytes(&self, h: u32) -> Vec<u8> {
        if kind(h) == ATOM {
            self.s.atoms[index(h)].clone()
        } else {
            small_bytes(index(h) as u32)
        }
    }

    fn entry(&mut self, length: u64) -> usize {
        self.cache.entries.push(Entry {
            length,
            parents: vec![],
        });
        self.cache.entries.len() - 1
    }

    fn add_parent(&mut self, child: usize, parent: usize, position: usize) {
        let parents = &mut self.cache.entries[child].parents;
        if parents.len() < 100 {
            parents.push((parent, position));
        } else {
            self.met.overwritten += 1;
            parents[(parent + position) % 100] = (parent, position);
        }
    }

    fn enter(&mut self, h: u32) -> usize {
        if Some(h) == self.s.sentinel {
            let e = self.entry(0);
            self.cache.sentinel_entry = Some(e);
            return e;
        }
        if let Some(e) = self.cache.by_handle.get(&h) {
            return *e;
        }
        let e = if kind(h) == PAIR {
            let (left, right) = self.s.pairs[index(h)];
            let l = self.enter(left);
            let r = self.enter(right);
            let e = match self.cache.by_pair.get(&(l, r)) {
                Some(e) => {
                    self.met.second_handles += 1;
                    *e
                }
                None => {
                    let (a, b) = (self.cache.entries[l].length, self.cache.entries[r].length);
                    let length = if a == 0 || b == 0 {
                        0
                    } else {
                        a.saturating_add(b).saturating_add(1)
                    };
                    let e = self.entry(length);
                    self.cache.by_pair.insert((l, r), e);
                    e
                }
            };
            self.add_parent(l, e, 0);
            self.add_parent(r, e, 1);
            e
        } else {
            let bytes = self.bytes(h);
            match self.cache.by_atom.get(&bytes) {
                Some(e) => *e,
                None => {
                    let e = self.entry(atom_in_full(&bytes).len() as u64);
                    self.cache.by_atom.insert(bytes, e);
                    e
                }
            }
        };
        self.cache.by_handle.insert(h, e);
        e
    }

    fn update(&mut self, root: u32) {
        let moved = match self.cache.sentinel_entry {
            Some(e) => std::mem::take(&mut self.cache.entries[e].parents),
            None => vec![],
        };
        let root = self.enter(root);
        let parents = &mut self.cache.entries[root].parents;
        self.met.moved += moved.len();
        parents.extend(moved);
        let beyond = parents.len().saturating_sub(100);
        self.met.front_dropped += beyond;
        parents.drain(..beyond);
        self.met.most_entries = self.met.most_entries.max(self.cache.entries.len());
        self.now.written.resize(self.cache.entries.len(), false);
    }

    fn entry_of(&self, h: u32) -> usize {
        self.cache.by_handle[&h]
    }

    fn push(&mut self, h: u32) {
        let e = self.entry_of(h);
        if self.cache.entries[e].length >= 4 {
            self.now.written[e] = true;
        }
        self.now.stack.push(e);
    }

    /// The search's steps.
    fn search(&mut self, start: usize) -> Option<Vec<bool>> {
        let length = self.cache.entries[start].length;
        let limit = (length - 1).saturating_mul(8);
        let mut seen = vec![false; self.cache.entries.len()];
        let mut visits = 0;
        let mut list = vec![Path {
            bits: vec![],
            place: Place::Entry(start, 1),
        }];
        for pass in 0_u64.. {
            if list.is_empty() {
                self.met.list_empty += 1;
                return None;
            }
            if pass > limit {
                self.met.pass_limit += 1;
                return None;
            }
            let mut slot = 0;
            while slot < list.len() {
                if list[slot].bits.len() as u64 > pass {
                    slot += 1;
                    continue;
                }
                match list[slot].place {
                    Place::Stack(0) => return Some(list[slot].bits.clone()),
                    Place::Stack(distance) => {
                        list[slot].bits.push(true);
                        list[slot].place = Place::Stack(distance - 1);
                        slot += 1;
                    }
                    Place::Entry(e, _) if seen[e] => {
                        self.met.seen_dropped += 1;
                        list.swap_remove(slot);
                    }
                    Place::Entry(e, position) => {
                        seen[e] = true;
                        visits += 1;
                        if visits == 1025 {
                            self.met.visit_limit += 1;
                            return None;
                        }
                        list[slot].bits.push(position == 1);
                        let bits = list[slot].bits.clone();
                        let mut first = true;
                        for (parent, position) in &self.cache.entries[e].parents {
                            if seen[*parent] {
                                continue;
                            }
                            let place = Place::Entry(*parent, *position);
                            if first {
                                list[slot].place = place;
                                first = false;
                            } else {
                                list.push(Path {
                                    bits: bits.clone(),
                                    place,
                                });
                            }
                        }
                        if let Some(d) = self.now.stack.iter().rev().position(|v| *v == e) {
                            let mut bits = bits;
                            bits.push(false);
                            list.push(Path {
                                bits,
                                place: Place::Stack(d),
                            });
                        }
                        if first {
                            list.swap_remove(slot);
                        } else {
                            slot += 1;
                        }
                    }
                }
            }
        }
        unreachable!()
    }

    fn find_path(&mut self, h: u32) -> Option<Vec<u8>> {
        if h == NIL {
            return None;
        }
        let e = self.entry_of(h);
        if !self.now.written[e] || self.cache.entries[e].length < 4 {
            return None;
        }
        self.met.searches += 1;
        let bits = self.search(e)?;
        let (bytes, length) = (bits.len().div_ceil(8), self.cache.entries[e].length);
        if bytes >= 511
            && let Some(more @ 2..=4) = (length as usize).checked_sub(bytes)
        {
            self.met.by_bytes[bytes.min(514) - 511][more - 2] += 1;
        }
        if self.length.of(&bits) >= length {
            self.met.not_used += 1;
            return None;
        }
        self.met.used += 1;
        self.met.longest_path = self.met.longest_path.max(bits.len());
        Some(path_bytes(&bits))
    }

    fn put(&mut self, item: &[u8]) -> Result<(), u32> {
        if self.output.len() + item.len() > self.output_length {
            return Err(13);
        }
        self.output.extend_from_slice(item);
        Ok(())
    }

    /// An item with an atom, its own or its path's, is written.
    fn counted(&mut self, item: &[u8], atom: &[u8], reference: bool) {
        let width = item.len() - usize::from(reference) - atom.len();
        let widths = match reference {
            false => &mut self.met.atom_widths,
            true => &mut self.met.path_widths,
        };
        widths[width] += 1;
        let counts = &mut self.now.counts;
        counts.references += u32::from(reference);
        counts.prefix_bytes += match self.count {
            Count::NoPaths if reference => 0,
            Count::MarkToo if reference => width + 1,
            Count::NoNil if atom.is_empty() => 0,
            Count::EachAtom => width.max(1),
            Count::OneByte => width.min(1),
            Count::PathOneByte if reference => width.min(1),
            _ => width,
        } as u32;
    }

    /// What `02` and `03` have in common; the cache before add k.
    fn go_back(&mut self, k: usize, forget: bool) -> Cache {
        self.records.truncate(k + 1);
        let (_, state, cache) = self.records.pop().expect("a record for k");
        self.output.truncate(state.size);
        let counts = self.now.counts;
        self.now = state;
        let both = match self.count {
            Count::LeftByRestore => !forget,
            Count::LeftByForget => forget,
            _ => false,
        };
        if both || self.count == Count::ReferencesLeft {
            self.now.counts.references = counts.references;
        }
        if both || self.count == Count::PrefixesLeft {
            self.now.counts.prefix_bytes = counts.prefix_bytes;
        }
        cache
    }

    /// The first k adds of the present history, as if there had been no others.
    fn go_on_afresh(&mut self, k: usize) -> Result<(), u32> {
        let adds: Vec<u32> = self.records.drain(..).map(|r| r.0).take(k).collect();
        self.output.clear();
        self.now = State::default();
        self.cache = Cache::default();
        adds.into_iter().try_for_each(|h| self.add(h))
    }

    fn add(&mut self, root: u32) -> Result<(), u32> {
        self.now.size = self.output.len();
        self.records
            .push((root, self.now.clone(), self.cache.clone()));
        self.update(root);
        let mut h = root;
        loop {
            // h stands at the next place
            if Some(h) == self.s.sentinel {
                return Ok(());
            }
            if let Some(path) = self.find_path(h) {
                let mut item = vec![0xfe];
                item.extend(atom_in_full(&path));
                self.put(&item)?;
                self.counted(&item, &path, true);
                self.push(h);
            } else if kind(h) == PAIR {
                if self.now.open.len() >= MAX_OPEN {
                    return Err(12);
                }
                self.put(&[0xff])?;
                self.now.open.push((h, false));
                self.met.most_open = self.met.most_open.max(self.now.open.len());
                h = self.s.pairs[index(h)].0;
                continue;
            } else {
                let atom = self.bytes(h);
                let item = atom_in_full(&atom);
                self.put(&item)?;
                self.counted(&item, &atom, false);
                self.push(h);
            }
            // cons what is complete; then the right side of the last open pair
            loop {
                match self.now.open.last_mut() {
                    None => {
                        self.now.finished = true;
                        return Ok(());
                    }
                    Some((pair, right)) if !*right => {
                        *right = true;
                        h = self.s.pairs[index(*pair)].1;
                        break;
                    }
                    Some((pair, _)) => {
                        let pair = *pair;
                        self.now.open.pop();
                        self.now.stack.pop();
                        self.now.stack.pop();
                        self.push(pair);
                    }
                }
            }
        }
    }
}

impl Model<'_> {
    /// 9 and 10 of an add.
    fn asked(&self) -> Result<(), u32> {
        if self.now.finished {
            return Err(9);
        }
        if self.records.len() >= MAX_ADDS {
            return Err(10);
        }
        Ok(())
    }

    fn word(&self) -> u32 {
        self.output.len() as u32 * 2 + u32::from(self.now.finished)
    }

    /// The words of an add. All is then as it was, but for the quote.
    fn quote(&mut self, root: u32, way: Quote) -> Result<(u32, Counts), u32> {
        let before = self.now.counts;
        let result = self.add(root);
        let (word, size, counts) = (self.word(), self.output.len(), self.now.counts);
        let (_, state, cache) = self.records.pop().expect("the add's record");
        let items = match way {
            Quote::LeavesItems => size,
            Quote::RefusedLeavesItems if result.is_err() => size,
            _ => state.size,
        };
        self.output.truncate(items);
        if way == Quote::TakesPlace {
            self.records.push((root, state.clone(), cache.clone()));
        }
        let finished = way == Quote::LeavesFinished && self.now.finished;
        self.now = State { finished, ..state };
        if self.count == Count::LeftByQuote {
            self.now.counts = counts;
        }
        let way_back = match way {
            Quote::Back(forget) => forget,
            _ => Forget::Right,
        };
        self.cache.put_back(cache, way_back);
        if way != Quote::KeptByQuote || self.quoted.is_none() {
            self.quoted = Some(root);
        }
        let shown = match self.count {
            Count::QuoteShowsBefore => before,
            _ => counts,
        };
        result.map(|()| (word, shown))
    }

    fn step(&mut self, step: Step, forget: Forget, quote: Quote) -> Result<(u32, Counts), u32> {
        let kept = match step {
            Step::Add(_) => quote == Quote::KeptByAdd,
            Step::Restore(_) => quote == Quote::KeptByRestore,
            Step::Forget(_) => quote == Quote::KeptByForget,
            Step::Quote(_) => quote == Quote::KeptByQuote,
            Step::Take => quote == Quote::StaysOpen,
        };
        let quoted = self.quoted;
        self.quoted = quoted.filter(|_| kept);
        match step {
            Step::Add(h) => {
                self.asked()?;
                self.add(h)?;
            }
            Step::Restore(k) | Step::Forget(k) if usize::from(k) >= self.records.len() => {
                return Err(11);
            }
            Step::Restore(k) => {
                let cache = self.go_back(k.into(), false);
                self.cache.sentinel_entry = cache.sentinel_entry.or(self.cache.sentinel_entry);
            }
            Step::Forget(k) if forget == Forget::TakesMore => self.go_on_afresh(k.into())?,
            Step::Forget(k) => {
                let cache = self.go_back(k.into(), true);
                self.cache.put_back(cache, forget);
            }
            Step::Quote(h) => {
                match self.asked() {
                    Err(10) if quote == Quote::AsksLater => (),
                    asked => asked?,
                }
                return self.quote(h, quote);
            }
            Step::Take => {
                let h = quoted.ok_or(17_u32)?;
                // only a wrong way gets a no here
                self.asked()?;
                let before = self.now.counts;
                self.add(h)?;
                if quote == Quote::TakesNone {
                    self.records.pop();
                }
                if self.count == Count::TakenTwice {
                    let counts = &mut self.now.counts;
                    counts.references += counts.references - before.references;
                    counts.prefix_bytes += counts.prefix_bytes - before.prefix_bytes;
                }
            }
        }
        Ok((self.word(), self.now.counts))
    }
}

pub fn run(measure: Measure, file: &[u8], output_length: usize) -> (SessionAnswer, Met) {
    run_with(Ways::by(measure), file, output_length)
}

/// The same, in ways that may be wrong.
pub fn run_with(ways: Ways, file: &[u8], output_length: usize) -> (SessionAnswer, Met) {
    let s = match parse(file) {
        Ok(s) => s,
        Err(number) => {
            let refused = SessionAnswer {
                number,
                ..SessionAnswer::default()
            };
            return (refused, Met::default());
        }
    };
    let mut m = Model {
        s: &s,
        cache: Cache::default(),
        now: State::default(),
        records: vec![],
        output: vec![],
        output_length: output_length.min(MAX_OUTPUT),
        quoted: None,
        count: ways.count,
        length: ways.length,
        met: Met::default(),
    };
    let mut answer = SessionAnswer::default();
    let mut length = ways.length;
    for step in &s.steps {
        (m.length, length) = length.at(*step);
        match m.step(*step, ways.forget, ways.quote) {
            Ok((word, counts)) => {
                answer.words.push(word);
                answer.counts.push(counts);
            }
            Err(number) => {
                answer.number = number;
                break;
            }
        }
    }
    answer.output = m.output;
    (answer, m.met)
}
