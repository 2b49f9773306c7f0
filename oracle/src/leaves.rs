//! Leaf cases: records of an op byte, a 16-bit length and a payload, one line
//! of answer each.

use crate::hex::encode;
use crate::node::{from_word, handle, index, kind};
use crate::reading::number_of;
use bumpalo::Bump;
use clvm_rs::Allocator;
use clvm_rs::allocator::{fits_in_small_atom, len_for_value};
use clvm_rs::msb_mask;
use clvm_rs::serde::parse_atom::parse_path;
use clvm_rs::serde::write_atom::write_atom;
use clvm_rs::serde::{BitSet, ChildPos, PathBuilder, serialized_length_atom};
use clvm_rs::traverse_path::first_non_zero;
use std::io::Cursor;

/// The records of a leaf-case file, or what is wrong with it.
pub fn records(file: &[u8]) -> Result<Vec<(u8, &[u8])>, String> {
    let mut out = vec![];
    let mut at = 0;
    while at < file.len() {
        let head = file.get(at..at + 3).ok_or("a record's head is cut")?;
        let n = usize::from(head[1]) << 8 | usize::from(head[2]);
        let payload = file
            .get(at + 3..at + 3 + n)
            .ok_or("a record's payload is cut")?;
        out.push((head[0], payload));
        at += 3 + n;
    }
    Ok(out)
}

pub fn record(op: u8, payload: &[u8]) -> Vec<u8> {
    let mut r = vec![op];
    r.extend_from_slice(
        &u16::try_from(payload.len())
            .expect("a payload")
            .to_be_bytes(),
    );
    r.extend_from_slice(payload);
    r
}

/// `parse_path` at the start of the input: the blob's place, or 14 or 15.
pub fn parse_blob(input: &[u8]) -> Result<(usize, usize), u32> {
    let mut f = Cursor::new(input);
    match parse_path(&mut f) {
        Ok(blob) => {
            let start = blob.as_ptr() as usize - input.as_ptr() as usize;
            Ok((start, start + blob.len()))
        }
        Err(e) => Err(number_of(&e)),
    }
}

/// `len()`, `serialized_length()` and the bytes of `done()`.
pub fn path_of_bits(bits: impl Iterator<Item = bool>) -> (u32, u32, Vec<u8>) {
    let arena = Bump::new();
    let mut p = PathBuilder::default();
    for right in bits {
        p.push(
            &arena,
            if right {
                ChildPos::Right
            } else {
                ChildPos::Left
            },
        );
    }
    (p.len(), p.serialized_length(), p.done())
}

fn word(payload: &[u8]) -> Result<u32, String> {
    let b: [u8; 4] = payload.try_into().map_err(|_| "a payload of four bytes")?;
    Ok(u32::from_be_bytes(b))
}

pub fn answer(op: u8, payload: &[u8]) -> Result<String, String> {
    Ok(match op {
        b'w' => {
            let mut out = vec![];
            write_atom(&mut out, payload).map_err(|e| e.to_string())?;
            encode(&out)
        }
        b'l' => serialized_length_atom(payload).to_string(),
        b'p' => match parse_blob(payload) {
            Ok((start, end)) => format!("0 {start} {end}"),
            Err(number) => number.to_string(),
        },
        b'm' => msb_mask(*payload.first().ok_or("a payload of one byte")?).to_string(),
        b'z' => first_non_zero(payload).to_string(),
        b'b' => {
            let (len, serialized_length, bytes) = path_of_bits(payload.iter().map(|b| *b != 0));
            format!("{len} {serialized_length} {}", encode(&bytes))
        }
        b's' => match fits_in_small_atom(payload) {
            Some(v) => v.to_string(),
            None => "none".to_string(),
        },
        b'v' => {
            let v = word(payload)?;
            if v >= 1 << 26 {
                return Err("a value below 2^26".to_string());
            }
            let a = Allocator::new();
            let bytes = a.atom(from_word(handle(crate::node::SMALL, v)));
            format!("{} {}", len_for_value(v), encode(&bytes))
        }
        b'o' => {
            let n = from_word(word(payload)?);
            let h = crate::node::to_word(n);
            assert_eq!(n.index() as usize, index(h));
            format!("{} {}", kind(h), n.index())
        }
        b't' => {
            let mut set = BitSet::new(255);
            payload
                .chunks_exact(2)
                .map(|c| {
                    let idx = u32::from(c[1]);
                    let bit = if c[0] == 0 {
                        set.is_visited(idx)
                    } else {
                        set.visit(idx)
                    };
                    if bit { '1' } else { '0' }
                })
                .collect()
        }
        other => return Err(format!("unknown op {other:02x}")),
    })
}

/// The text that `leaves FILE` prints.
pub fn print(file: &[u8]) -> Result<String, String> {
    let mut s = String::new();
    for (op, payload) in records(file)? {
        s += &answer(op, payload)?;
        s.push('\n');
    }
    Ok(s)
}
