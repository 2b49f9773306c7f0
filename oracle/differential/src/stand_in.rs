//! The reading call made of the oracle, right or with one fault, to try the
//! comparison itself.

use nikvoldra::call::{ATOMS_LENGTH, BYTES_LENGTH, PAIRS_LENGTH, ReadAnswer, WORK_LENGTH};
use oracle::reading;

#[derive(Clone, Copy, PartialEq)]
#[repr(u8)]
pub enum Fault {
    None,
    /// one ghost pair too many
    Count,
    /// 15 for 14
    Number,
    /// a refused input leaves the slices as they were
    LeftOnRefusal,
    /// the last word of work keeps what it held
    WorkEnd,
    /// only the minimum of work is cleared
    WorkBeyond,
    /// a word past the last pair
    PairsBeyond,
    /// slices that are too short are cleared
    TouchedBy1,
    /// 65,536 bytes are read
    LongerInput,
}

pub fn with_fault<const FAULT: u8>(
    input: &[u8],
    work: &mut [u32],
    pairs: &mut [u32],
    atoms: &mut [u32],
    bytes: &mut [u8],
) -> ReadAnswer {
    let fault = |f: Fault| f as u8 == FAULT;
    let refusal = |number| ReadAnswer {
        number,
        ..ReadAnswer::default()
    };
    if work.len() < WORK_LENGTH
        || pairs.len() < PAIRS_LENGTH
        || atoms.len() < ATOMS_LENGTH
        || bytes.len() < BYTES_LENGTH
    {
        if fault(Fault::TouchedBy1) {
            bytes.fill(0);
        }
        return refusal(1);
    }
    let limit = 65_535 + usize::from(fault(Fault::LongerInput));
    if input.len() > limit {
        return refusal(2);
    }
    let r = reading::read(&input[..input.len().min(65_535)]);
    if r.number != 0 && fault(Fault::LeftOnRefusal) {
        work.fill(0);
        return refusal(r.number);
    }
    let cleared = match work.len() {
        n if fault(Fault::WorkEnd) => n - 1,
        _ if fault(Fault::WorkBeyond) => WORK_LENGTH,
        n => n,
    };
    work[..cleared].fill(0);
    pairs.fill(0);
    atoms.fill(0);
    bytes.fill(0);
    for (i, p) in r.pairs.iter().enumerate() {
        (pairs[2 * i], pairs[2 * i + 1]) = *p;
    }
    for (i, a) in r.atoms.iter().enumerate() {
        (atoms[2 * i], atoms[2 * i + 1]) = *a;
    }
    bytes[..r.bytes.len()].copy_from_slice(&r.bytes);
    if fault(Fault::PairsBeyond) && !r.pairs.is_empty() {
        pairs[2 * r.pairs.len()] = 1;
    }
    ReadAnswer {
        number: match r.number {
            14 if fault(Fault::Number) => 15,
            n => n,
        },
        root: r.root,
        pairs: r.pairs.len() as u32,
        atoms: r.atoms.len() as u32,
        bytes: r.bytes.len() as u32,
        ghosts: r.ghosts + u32::from(fault(Fault::Count) && r.ghosts > 5),
    }
}
