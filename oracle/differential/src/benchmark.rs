//! How long the port's reading call takes, and the Rust's, on the same bytes.

use crate::times::measure;
use clvm_rs::Allocator;
use clvm_rs::serde::node_from_bytes_backrefs;
use nikvoldra::call::{self, ATOMS_LENGTH, BYTES_LENGTH, PAIRS_LENGTH, WORK_LENGTH};
use oracle::generate::trees::{encode_atom, path_bytes};
use oracle::reading::{self, MAX_INPUT};
use oracle::rng::Rng;
use std::hint::black_box;

struct Case {
    name: &'static str,
    input: Vec<u8>,
}

/// Items until `length` bytes are reached, then the end of the list.
fn list(length: usize, mut item: impl FnMut(usize) -> Vec<u8>) -> Vec<u8> {
    let mut out = vec![];
    for i in 0.. {
        let next = item(i);
        if out.len() + 1 + next.len() + 1 > length {
            break;
        }
        out.push(0xff);
        out.extend(next);
    }
    out.push(0x80);
    out
}

pub(crate) fn atom(bytes: &[u8]) -> Vec<u8> {
    let mut out = vec![];
    encode_atom(&mut out, bytes);
    out
}

fn reference(steps: &[bool]) -> Vec<u8> {
    let mut out = vec![0xfe];
    encode_atom(&mut out, &path_bytes(steps, 0));
    out
}

fn cases() -> Vec<Case> {
    let case = |name, input| Case { name, input };
    let mut rng = Rng::new(1);
    let mut balanced = vec![];
    fn grow(out: &mut Vec<u8>, rng: &mut Rng, depth: usize) {
        if depth == 0 {
            let n = *rng.pick(&[0, 1, 2, 6, 33]);
            encode_atom(out, &rng.bytes(n));
        } else {
            out.push(0xff);
            grow(out, rng, depth - 1);
            grow(out, rng, depth - 1);
        }
    }
    grow(&mut balanced, &mut rng, 12);
    vec![
        case("(foobar . foobar), one reference", {
            [&[0xff][..], &atom(b"foobar"), &reference(&[false])].concat()
        }),
        case("list of 200 atoms of 32 bytes", {
            let atoms: Vec<u8> = (0..200)
                .flat_map(|_| [vec![0xff], atom(&rng.bytes(32))].concat())
                .collect();
            [atoms, vec![0x80]].concat()
        }),
        case("list of 200 pairs, every second a reference", {
            let items: Vec<u8> = (0..200)
                .flat_map(|i| {
                    let item = if i % 2 == 0 {
                        atom(&rng.bytes(32))
                    } else {
                        reference(&[false])
                    };
                    [vec![0xff], item].concat()
                })
                .collect();
            [items, vec![0x80]].concat()
        }),
        case("balanced, 4,095 pairs, atoms of 0 to 33 bytes", balanced),
        case(
            "list, small atoms, 65,535 bytes",
            list(MAX_INPUT, |_| vec![5]),
        ),
        case("deep to the left, small atoms, 65,535 bytes", {
            let pairs = (MAX_INPUT - 1) / 2;
            [vec![0xff; pairs], vec![0x05; pairs + 1]].concat()
        }),
        case("list, atoms of 1 byte in the heap, 65,535 bytes", {
            list(MAX_INPUT, |i| vec![0x81, 0x80 | i as u8])
        }),
        case("list, atoms of 32 bytes, 65,535 bytes", {
            list(MAX_INPUT, |_| atom(&rng.bytes(32)))
        }),
        case("one atom, 65,535 bytes", atom(&rng.bytes(MAX_INPUT - 3))),
        case("references to the top of the stack, 65,535 bytes", {
            list(MAX_INPUT, |i| {
                if i == 0 {
                    atom(b"foobar")
                } else {
                    reference(&[false])
                }
            })
        }),
        case("references 200 down the stack, 65,535 bytes", {
            list(MAX_INPUT, |i| {
                if i < 256 {
                    atom(&[i as u8])
                } else {
                    reference(&[vec![true; 200], vec![false]].concat())
                }
            })
        }),
        case("references to the stack itself, 6,000 bytes", {
            list(6_000, |_| reference(&[]))
        }),
        case("references to the stack itself, 65,535 bytes", {
            list(MAX_INPUT, |_| reference(&[]))
        }),
    ]
}

pub fn run() {
    let mut work = vec![0; WORK_LENGTH];
    let mut pairs = vec![0; PAIRS_LENGTH];
    let mut atoms = vec![0; ATOMS_LENGTH];
    let mut bytes = vec![0; BYTES_LENGTH];
    let mut port = |input: &[u8]| {
        let input = black_box(input);
        black_box(call::read(
            input, &mut work, &mut pairs, &mut atoms, &mut bytes,
        ))
    };
    heading();
    for c in cases() {
        let expected = reading::read(&c.input);
        let now = port(&c.input);
        assert_eq!(
            (now.number, now.pairs, now.ghosts),
            (0, expected.pairs.len() as u32, expected.ghosts),
            "{}",
            c.name
        );
        let mut once = |input: &[u8]| {
            port(input);
        };
        let r = measure(&mut once, &c.input, &[0x80], &mut [&mut || rust(&c.input)]);
        let [theirs] = r.rust[..] else { unreachable!() };
        println!(
            "| {} | {} | {} | {:.1} | {:.1} | {:.1} | {theirs:.1} | {:.2} |",
            c.name,
            c.input.len(),
            now.pairs,
            r.whole,
            r.zeroing,
            r.difference,
            r.difference / theirs
        );
    }
}

fn heading() {
    println!(
        "Medians in microseconds. *Zeroing* is a call on the one byte `80`; *reading* is a call less the zeroing right after it."
    );
    println!("The Rust makes and drops an `Allocator` each time.\n");
    println!(
        "| input | bytes | pairs | the call | zeroing | reading | the Rust | reading : Rust |"
    );
    println!("|---|--:|--:|--:|--:|--:|--:|--:|");
}

/// The Rust's reader with a fresh store.
pub(crate) fn rust(input: &[u8]) {
    let mut a = Allocator::new();
    let root = node_from_bytes_backrefs(&mut a, black_box(input));
    black_box((root.is_ok(), a));
}
