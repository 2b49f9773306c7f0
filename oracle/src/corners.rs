//! Cases of 01's "Corners, file by file" and of its questions, each run on the
//! unchanged Rust and compared with what 01 says; and cases of the steps `03`, `04` and
//! `05`, of the counts, and of the measures.

mod measures;

use crate::hex;
use crate::leaves::{parse_blob, path_of_bits};
use crate::node::{NIL, PAIR, SMALL, handle};
use crate::plain::{self, Interner};
use crate::reading::{self, ReadAnswer};
use crate::session::{self, MAX_OUTPUT, SessionAnswer, SessionFile, Step};
use bumpalo::Bump;
use clvm_rs::serde::{ChildPos, PathBuilder};

/// A case's name and, where it differs, what came out.
pub type Case = (String, Result<(), String>);

struct Cases(Vec<Case>);

impl Cases {
    fn equal<T: PartialEq + std::fmt::Debug>(&mut self, name: &str, got: T, expected: T) {
        let result = if got == expected {
            Ok(())
        } else {
            Err(format!("got {got:?}, expected {expected:?}"))
        };
        self.0.push((name.to_string(), result));
    }

    /// The number, and for 0 the tree in full.
    fn read(&mut self, name: &str, input: &str, number: u32, in_full: &str) {
        let input = hex::bytes(input);
        let r = reading::read(&input);
        let tree = match plain::read(&input) {
            Ok(p) if r.number == 0 => {
                let mut i = Interner::default();
                if i.reading(&r) == i.tree(&p.forest, p.root) {
                    let bytes = p.forest.in_full(p.root, 1000);
                    bytes.map_or("too large".to_string(), |b| hex::encode(&b))
                } else {
                    "another tree than the plain reader's".to_string()
                }
            }
            _ => String::new(),
        };
        let expected = hex::encode(&hex::bytes(in_full));
        self.equal(name, (r.number, tree), (number, expected));
        if number != 0 {
            self.equal(
                &format!("{name}: nothing is given"),
                r,
                ReadAnswer::refused(number),
            );
        }
    }

    fn session(&mut self, name: &str, s: &SessionFile, number: u32, words: &[u32], output: &str) {
        self.limited(name, s, MAX_OUTPUT, number, words, output);
    }

    /// The number, and the references and prefix bytes of each finished step.
    fn counts(&mut self, name: &str, s: &SessionFile, number: u32, counts: &[(u32, u32)]) {
        let r = run(s);
        let now: Vec<(u32, u32)> = r
            .counts
            .iter()
            .map(|c| (c.references, c.prefix_bytes))
            .collect();
        self.equal(name, (r.number, &now[..]), (number, counts));
    }

    fn limited(
        &mut self,
        name: &str,
        s: &SessionFile,
        output_length: usize,
        number: u32,
        words: &[u32],
        output: &str,
    ) {
        let r = session::run(&s.to_bytes(), output_length, true);
        self.equal(
            name,
            (r.number, r.words, hex::encode(&r.output)),
            (number, words.to_vec(), hex::encode(&hex::bytes(output))),
        );
    }
}

/// A file made by hand: foobar is atom 0, the sentinel small atom 7.
struct File(SessionFile);

const S: u32 = SMALL << 26 | 7;
const FOOBAR: u32 = 1 << 26;

fn small(v: u32) -> u32 {
    handle(SMALL, v)
}

impl File {
    fn new() -> Self {
        Self(SessionFile {
            atoms: vec![b"foobar".to_vec()],
            sentinel: Some(S),
            ..SessionFile::default()
        })
    }

    fn pair(&mut self, left: u32, right: u32) -> u32 {
        self.0.pairs.push((left, right));
        handle(PAIR, self.0.pairs.len() as u32 - 1)
    }

    fn adds(mut self, handles: &[u32]) -> SessionFile {
        self.0.steps = handles.iter().map(|h| Step::Add(*h)).collect();
        self.0
    }

    fn steps(mut self, steps: Vec<Step>) -> SessionFile {
        self.0.steps = steps;
        self.0
    }
}

fn run(s: &SessionFile) -> SessionAnswer {
    session::run(&s.to_bytes(), MAX_OUTPUT, true)
}

fn parse_atom(c: &mut Cases) {
    c.read("81 7f gets 15", "817f", 15, "");
    c.read("81 80 is the atom 80", "8180", 0, "8180");
    c.read("81 alone gets 14", "81", 14, "");
    let atom63 = "61".repeat(63);
    let atom64 = "61".repeat(64);
    c.read(
        "c0 3f and 63 bytes gets 15",
        &format!("c03f{atom63}"),
        15,
        "",
    );
    c.read(
        "c0 40 and 64 bytes is accepted",
        &format!("c040{atom64}"),
        0,
        &format!("c040{atom64}"),
    );
    c.read("fc 00 00 00 00 00 gets 15", "fc0000000000", 15, "");
    c.read("fc 04 00 00 00 00 gets 14", "fc0400000000", 14, "");
    let mut six = vec![];
    for first in [0xfc, 0xfd_u8] {
        for b in 0..=255_u8 {
            for rest in [[0; 4], [0xff; 4], [0, 0, 0, 1]] {
                let mut p = vec![first, b];
                p.extend(rest);
                p.extend([0x80; 70]);
                six.push(parse_blob(&p));
                six.push(parse_blob(&p[..6]));
            }
        }
    }
    c.equal(
        "a six-byte prefix is never accepted",
        six.iter().filter(|r| r.is_ok()).count(),
        0,
    );
    // the least size of each width, and one less
    for (name, blob, expected) in [
        ("least size of width 2", "c040", Err(14)),
        ("below width 2", "c03f", Err(15)),
        ("least size of width 3", "e02000", Err(14)),
        ("below width 3", "e01fff", Err(15)),
        ("least size of width 4", "f0100000", Err(14)),
        ("below width 4", "f00fffff", Err(15)),
        ("least size of width 5", "f808000000", Err(14)),
        ("below width 5", "f807ffffff", Err(15)),
        ("seven ones", "fe000000000000", Err(14)),
        ("eight ones", "ff", Err(14)),
    ] {
        c.equal(name, parse_blob(&hex::bytes(blob)), expected);
    }
}

fn de_br(c: &mut Cases) {
    c.read("empty input gets 14", "", 14, "");
    c.read("80 80 gets 14", "8080", 14, "");
    c.read("fe 01 alone is nil", "fe01", 0, "80");
    c.read("fe 80 alone is nil", "fe80", 0, "80");
    c.read("an all-zero path is nil", "ff01fe00", 0, "ff0180");
    c.read(
        "an all-zero path of two bytes is nil",
        "ff01fe820000",
        0,
        "ff0180",
    );
    c.read("fe 02 alone gets 16", "fe02", 16, "");
    c.read(
        "ff 01 fe 01 is the whole stack",
        "ff01fe01",
        0,
        "ff01ff0180",
    );
    c.read("ff 01 fe 03 is (1 . nil)", "ff01fe03", 0, "ff0180");
    c.read("ff 01 fe 04 gets 16", "ff01fe04", 16, "");
    c.read(
        "leading zero bytes are skipped",
        "ff01fe820003",
        0,
        "ff0180",
    );
    c.read("leading zero bytes, then 16", "ff01fe83000004", 16, "");
    // a path's atom before its walk, bytes left over last
    c.read("15 of a path before its walk", "fe8102", 15, "");
    c.read("16 before bytes left over", "fe0280", 16, "");
    c.read("16 before a later 15", "fffe02817f", 16, "");
    c.read("15 before a later 16", "ff817ffe02", 15, "");
    // nothing of the cached list outlives its value
    c.read(
        "the stack again after a cons",
        "ffff01fe01fe01",
        0,
        "ffff01ff0180ffff01ff018080",
    );
}

fn tree_cache(c: &mut Cases) {
    // abc is small atom 616263
    let mut f = File::new();
    let p = f.pair(small(0x616263), small(0x616263));
    c.session("(abc . abc)", &f.adds(&[p]), 0, &[15], "ff83616263fe02");

    let mut f = File::new();
    let p = f.pair(small(0x6162), small(0x6162));
    c.session("(ab . ab)", &f.adds(&[p]), 0, &[15], "ff826162826162");

    let mut f = File::new();
    let p = f.pair(NIL, NIL);
    c.session("(nil . nil)", &f.adds(&[p]), 0, &[7], "ff8080");

    // P = (S . foobar) is written, filled and written again: never a reference
    let mut f = File::new();
    let p = f.pair(S, FOOBAR);
    let a = f.pair(p, S);
    let s = f.adds(&[a, small(1), p, small(1)]);
    c.session(
        "length 0 stays after filling",
        &s,
        0,
        &[4, 20, 22, 29],
        "ffff0186666f6f626172ff01fe0d",
    );

    // 70 doublings: the sum of lengths stops at 2^64 - 1
    for levels in [60_u32, 61, 62, 63, 70] {
        let mut f = File::new();
        let mut d = FOOBAR;
        for _ in 0..levels {
            d = f.pair(d, d);
        }
        let s = f.adds(&[d]);
        let expected = format!(
            "{}86666f6f626172{}",
            "ff".repeat(levels as usize),
            "fe02".repeat(levels as usize)
        );
        let size = 3 * levels + 7;
        c.session(
            &format!("{levels} doublings"),
            &s,
            0,
            &[size * 2 + 1],
            &expected,
        );
    }
    let mut f = File::new();
    let mut d = FOOBAR;
    let mut e = small(0x616263);
    for _ in 0..70 {
        d = f.pair(d, d);
        e = f.pair(e, e);
    }
    let p = f.pair(d, e);
    let q = f.pair(d, e);
    let r = f.pair(p, q);
    let s = f.adds(&[r]);
    let back = reading::read(&run(&s).output);
    let filling = plain::fill(&s).expect("no restore");
    let mut i = Interner::default();
    c.equal(
        "sums stop at 2^64 - 1, read back",
        (back.number, i.reading(&back)),
        (0, i.tree(&filling.forest, filling.root)),
    );

    // parents: P0 = (foobar . nil) is foobar's first parent; chain pair i has
    // entry 7 + i, with foobar left or right
    let chain_case = |n: u32, right: bool| {
        let mut f = File::new();
        let p0 = f.pair(FOOBAR, NIL);
        let a = f.pair(p0, S);
        let d = f.pair(FOOBAR, small(2));
        let mut chain = small(1);
        for _ in 0..n {
            chain = if right {
                f.pair(chain, FOOBAR)
            } else {
                f.pair(FOOBAR, chain)
            };
        }
        let b = f.pair(d, chain);
        let r = run(&f.adds(&[a, b]));
        // after ff ff 86 foobar 80 and B's ff ff: foobar in D
        hex::encode(&r.output[12..14])
    };
    c.equal(
        "parents, left: slot 0 kept",
        chain_case(192, false),
        "fe04".to_string(),
    );
    c.equal(
        "parents, left: slot 0 overwritten",
        chain_case(193, false),
        "8666".to_string(),
    );
    c.equal(
        "parents, right: slot 0 kept",
        chain_case(191, true),
        "fe04".to_string(),
    );
    c.equal(
        "parents, right: slot 0 overwritten",
        chain_case(192, true),
        "8666".to_string(),
    );
    c.equal(
        "parents: 100 are kept",
        chain_case(98, false),
        "fe04".to_string(),
    );
    c.equal(
        "parents: the next go to other slots",
        chain_case(150, false),
        "fe04".to_string(),
    );

    // the sentinel's parent moves to the end of foobar's list
    let moved_case = |n: u32, twins: bool| {
        let mut f = File::new();
        let p0 = f.pair(FOOBAR, NIL);
        let mut chain = small(1);
        for _ in 0..n {
            chain = f.pair(FOOBAR, chain);
        }
        if twins {
            // n handles of (foobar . 1), in a list
            f.0.pairs.truncate(1);
            let all: Vec<u32> = (0..n).map(|_| f.pair(FOOBAR, small(1))).collect();
            chain = all.iter().fold(NIL, |t, p| f.pair(*p, t));
        }
        let rest = f.pair(S, chain);
        let a = f.pair(p0, rest);
        let r = run(&f.adds(&[a, FOOBAR]));
        hex::encode(&r.output[11..13])
    };
    c.equal(
        "moved parent: the list holds 100",
        moved_case(98, false),
        "fe04".to_string(),
    );
    c.equal(
        "moved parent: the front is dropped",
        moved_case(99, false),
        "8666".to_string(),
    );
    c.equal(
        "second handles add parents, 100",
        moved_case(98, true),
        "fe04".to_string(),
    );
    c.equal(
        "second handles add parents, 101",
        moved_case(99, true),
        "8666".to_string(),
    );

    // search: distance on the stack, limits
    let list_case = |x: &[u8], between: usize| {
        let mut f = File::new();
        f.0.sentinel = None;
        f.0.atoms = vec![x.to_vec()];
        let mut t = FOOBAR;
        for i in 0..between {
            t = f.pair(small(i as u32 % 100 + 1), t);
        }
        let t = f.pair(FOOBAR, t);
        let r = run(&f.adds(&[t]));
        let written = x.len() + if x.len() < 64 { 1 } else { 2 };
        let at = 1 + written + 2 * between;
        hex::encode(&r.output[at..])
    };
    let x = b"\x80bcd";
    c.equal(
        "distance 0 on the stack",
        list_case(x, 0),
        "fe02".to_string(),
    );
    c.equal(
        "distance 2 on the stack",
        list_case(x, 2),
        "fe0b".to_string(),
    );
    let four = b"\x80bc";
    c.equal("a path of 7 bits", list_case(four, 5), "fe5f".to_string());
    c.equal("a path of 8 bits", list_case(four, 6), "fe81bf".to_string());
    c.equal(
        "a path of 16 bits, as long as the atom",
        list_case(four, 14),
        "fe82bfff".to_string(),
    );
    c.equal(
        "a path of 17 bits isn't used",
        list_case(four, 15),
        "83806263".to_string(),
    );
    let mut long = vec![0x80; 140];
    long[1] = 0x33;
    let reference = list_case(&long, 1022);
    c.equal(
        "1,024 visits: a path of 1,024 bits",
        reference,
        format!("fec080bf{}", "ff".repeat(127)),
    );
    c.equal(
        "visit 1,025 ends the search",
        list_case(&long, 1023),
        format!("c08c{}", hex::encode(&long)),
    );
}

/// x at the bottom of the stack, `far` values above it, then x again: what is
/// written for it.
fn far_case(size: usize, far: usize) -> String {
    let mut f = File::new();
    f.0.atoms = vec![vec![0x80; size]];
    let mut adds = vec![f.pair(FOOBAR, S)];
    let mut chain = vec![S];
    for i in 0..1023 {
        let p = f.pair(small(1), chain[i]);
        chain.push(p);
    }
    let mut left = far;
    while left > 0 {
        let n = left.min(1023);
        adds.push(chain[n]);
        left -= n;
    }
    adds.push(FOOBAR);
    let r = run(&f.adds(&adds));
    assert_eq!((r.number, r.words.last().map(|w| w % 2)), (0, Some(1)));
    hex::encode(&r.output[1 + 2 + size + 2 * far..][..4])
}

fn path_builder(c: &mut Cases) {
    c.equal(
        "a path of 511 bytes counts 513: used for 514",
        far_case(512, 4085),
        "fec1ff5f".into(),
    );
    c.equal(
        "a path of 511 bytes counts 513: not for 513",
        far_case(511, 4085),
        "c1ff8080".into(),
    );
    c.equal(
        "a path of 512 bytes counts 515: used for 516",
        far_case(514, 4092),
        "fec2002f".into(),
    );
    c.equal(
        "a path of 512 bytes counts 515: not for 515",
        far_case(513, 4092),
        "c2018080".into(),
    );

    let length_of = |first: u8| {
        let bits = (0..8).map(|i| first >> (7 - i) & 1 == 1);
        path_of_bits(bits)
    };
    c.equal("a full byte of 79", length_of(79), (8, 1, vec![79]));
    c.equal(
        "a full byte of 80, decimal",
        length_of(80),
        (8, 2, vec![80]),
    );
    c.equal("a full byte of 80", length_of(0x80), (8, 2, vec![0x80]));
    c.equal("no bits", path_of_bits([].into_iter()), (0, 1, vec![]));
    c.equal(
        "seven bits",
        path_of_bits([true; 7].into_iter()),
        (7, 1, vec![0x7f]),
    );
    c.equal(
        "right-aligned in bytes",
        path_of_bits(
            [
                true, false, true, true, false, false, true, true, false, true,
            ]
            .into_iter(),
        ),
        (10, 3, vec![0x02, 0xcd]),
    );

    // prefix bytes counted for a path of so many bytes
    let marks: [(u32, u32); 12] = [
        (1, 1),
        (2, 1),
        (63, 1),
        (64, 2),
        (511, 2),
        (512, 3),
        (8191, 3),
        (8192, 3),
        (1_048_575, 3),
        (1_048_576, 5),
        (16_777_215, 5),
        (16_777_216, 4),
    ];
    let arena = Bump::new();
    let mut p = PathBuilder::default();
    let mut bytes = 0;
    for (n, prefix) in marks {
        while bytes < n {
            for _ in 0..8 {
                p.push(&arena, ChildPos::Right);
            }
            bytes += 1;
        }
        c.equal(
            &format!("serialized_length of {n} path bytes"),
            p.serialized_length(),
            n + prefix,
        );
    }
}

fn incremental(c: &mut Cases) {
    // B = foobar, A = ((S . nil) . B), C = (B . nil)
    let mut f = File::new();
    let sn = f.pair(S, NIL);
    let a = f.pair(sn, FOOBAR);
    let cc = f.pair(FOOBAR, NIL);
    let s = f.steps(vec![
        Step::Add(a),
        Step::Add(FOOBAR),
        Step::Restore(1),
        Step::Add(cc),
    ]);
    let bytes = "ffffff86666f6f6261728080fe04";
    c.session("undo keeps moved parents", &s, 0, &[4, 25, 4, 29], bytes);
    // ((C . nil) . C) with C = (foobar . nil)
    let c_full = "ff86666f6f62617280";
    c.read(
        "undo's bytes read back",
        bytes,
        0,
        &format!("ffff{c_full}80{c_full}"),
    );

    // after the restore before the first add the sentinel's entry is known:
    // its parent moves to foobar, and the path leads into (1 . nil)
    let mut f = File::new();
    let a = f.pair(S, NIL);
    let t = f.pair(a, S);
    let t = f.pair(small(9), t);
    let r = f.pair(FOOBAR, t);
    let s = f.steps(vec![
        Step::Add(a),
        Step::Restore(0),
        Step::Add(FOOBAR),
        Step::Restore(0),
        Step::Add(r),
        Step::Add(small(1)),
        Step::Add(FOOBAR),
    ]);
    c.session(
        "undo before the first add: the sentinel is known",
        &s,
        0,
        &[2, 0, 15, 0, 24, 28, 33],
        "ff86666f6f626172ff09ffff0180fe04",
    );
    // without the first two steps the reference goes to foobar on the stack
    let fresh = SessionFile {
        steps: s.steps[2..].to_vec(),
        ..s.clone()
    };
    c.session(
        "the same from a fresh session",
        &fresh,
        0,
        &[15, 0, 24, 28, 33],
        "ff86666f6f626172ff09ffff0180fe0b",
    );

    let mut f = File::new();
    let p = f.pair(FOOBAR, S);
    let s = f.adds(&[S, p, S, S, FOOBAR]);
    c.session(
        "adding the sentinel writes nothing",
        &s,
        0,
        &[0, 16, 16, 16, 21],
        "ff86666f6f626172fe02",
    );
}

fn session_file(c: &mut Cases) {
    let whole = hex::bytes(
        "42 52 53 00 01 00 01 00 06 66 6f 6f 62 61 72 00 02 08 00 00 00 08 00 00 00 04 00 00 00 \
         00 00 00 00 00 00 00 00 01 00 00 00 01 01 04 00 00 00",
    );
    let r = session::run(&whole, MAX_OUTPUT, true);
    c.equal(
        "the whole case",
        session::print(&r, false),
        "1 8 0\n2 10 1\nff86666f6f626172fe02\n".to_string(),
    );
    for (length, number, size, steps) in [
        (10, 0, 10, 2),
        (9, 13, 8, 1),
        (8, 13, 8, 1),
        (7, 13, 1, 0),
        (1, 13, 1, 0),
        (0, 13, 0, 0),
    ] {
        let r = session::run(&whole, length, true);
        c.equal(
            &format!("the whole case in {length} bytes"),
            (r.number, r.output.len(), r.words.len()),
            (number, size, steps),
        );
    }
    let s = session::parse(&whole).expect("the whole case");
    c.equal("the whole case, premises", plain::premises(&s), Ok(()));
    let filling = plain::fill(&s).expect("no restore");
    c.equal(
        "the whole case, filled",
        filling
            .forest
            .in_full(filling.root, 100)
            .map(|b| hex::encode(&b)),
        Some("ff86666f6f62617286666f6f626172".to_string()),
    );

    // every cut: 3 below five bytes, then 4, until the steps begin
    let number = |file: &[u8]| session::run(file, MAX_OUTPUT, true).number;
    for cut in 0..whole.len() {
        let expected = match cut {
            0..5 => 3,
            // before the first step, after it
            37 | 42 => 0,
            _ => 4,
        };
        c.equal(
            &format!("cut after {cut} bytes"),
            number(&whole[..cut]),
            expected,
        );
    }

    // questions in one file
    for code in [0, 7, 8, 0xff] {
        let f = [&whole[..], &[code]].concat();
        c.equal(&format!("the code {code:02x} gets 8"), number(&f), 8);
    }
    let mut f = whole.clone();
    f.extend([1, 0x04, 0, 0, 1]);
    c.equal("a step's atom that isn't listed gets 7", number(&f), 7);
    let mut f = whole.clone();
    f[17] = 0x0c;
    c.equal("kind 3 gets 7", number(&f), 7);
    let mut f = whole.clone();
    f[17..21].copy_from_slice(&[0, 0, 0, 0]);
    c.equal("a pair that names itself gets 7", number(&f), 7);
    let mut f = whole.clone();
    f[33..37].copy_from_slice(&[0xff; 4]);
    c.equal("the sentinel may be none, then 9", number(&f), 9);
    let mut f = whole.clone();
    f[37 + 1..37 + 5].copy_from_slice(&[0xff; 4]);
    c.equal("a step's handle may not be none", number(&f), 7);
    let mut f = whole.clone();
    f[8] = 1;
    c.equal("an atom of one byte below 80 gets 6", number(&f), 6);

    // 5 before 8 at a step's code; 4 before 5 at an atom
    let s = SessionFile {
        sentinel: Some(NIL),
        steps: vec![Step::Add(NIL); 1024],
        ..SessionFile::default()
    };
    let mut f = s.to_bytes();
    c.equal("1,024 steps, 17 adds", number(&f), 10);
    f.push(9);
    c.equal("step 1,025 gets 5, whatever its code", number(&f), 5);
    let mut f = session::MARK.to_vec();
    f.extend([0, 1, 0xff, 0xff, 0x80]);
    c.equal("a cut atom of 65,535 bytes gets 4", number(&f), 4);
    f.resize(session::MARK.len() + 4 + 32_769, 0x80);
    f[session::MARK.len() + 2..][..2].copy_from_slice(&[0x80, 0x01]);
    c.equal("an atom of 32,769 bytes gets 5", number(&f), 5);
    let mut f = session::MARK.to_vec();
    f.extend([4, 1]);
    c.equal("1,025 atoms get 5 at the count", number(&f), 5);
    f.truncate(6);
    c.equal("a cut count gets 4", number(&f), 4);
    let mut f = session::MARK.to_vec();
    f.extend([0, 0, 4, 1]);
    c.equal("1,025 pairs get 5 at the count", number(&f), 5);
    c.equal("65,535 bytes pass 2", number(&vec![0; 65_535]), 3);
    c.equal("65,536 bytes get 2", number(&vec![0; 65_536]), 2);
}

fn steps(c: &mut Cases) {
    let foobar = "86666f6f626172";
    let f = File::new();
    let s = f.steps(vec![Step::Add(FOOBAR), Step::Add(FOOBAR)]);
    c.session("an add when finished gets 9", &s, 9, &[15], foobar);
    let f = File::new();
    let mut steps = vec![Step::Add(S); 15];
    steps.extend([Step::Add(FOOBAR), Step::Add(FOOBAR)]);
    let mut words = vec![0; 15];
    words.push(15);
    c.session("9 before 10", &f.steps(steps), 9, &words, foobar);
    let f = File::new();
    let s = f.steps(vec![Step::Add(S); 17]);
    c.session("add 17 gets 10", &s, 10, &[0; 16], "");
    let f = File::new();
    let s = f.steps(vec![Step::Restore(0)]);
    c.session("a restore with no add gets 11", &s, 11, &[], "");
    let f = File::new();
    let s = f.steps(vec![Step::Add(S), Step::Restore(1)]);
    c.session("a restore of the count gets 11", &s, 11, &[0], "");
    let f = File::new();
    let s = f.steps(vec![Step::Add(FOOBAR), Step::Restore(0), Step::Restore(0)]);
    c.session("restore 0 twice gets 11", &s, 11, &[15, 0], "");
    let f = File::new();
    let s = f.steps(vec![
        Step::Add(FOOBAR),
        Step::Restore(0),
        Step::Add(small(1)),
    ]);
    c.session("a restore leaves it unfinished", &s, 0, &[15, 0, 3], "01");

    // 4,096 open pairs: four chains of 1,024 that end in the sentinel
    let chain = |last: u32| {
        let mut f = File::new();
        let mut t = S;
        for _ in 0..1024 {
            t = f.pair(t, small(1));
        }
        f.adds(&[t, t, t, t, last])
    };
    let ones = "ff".repeat(4096);
    let words = [2048, 4096, 6144, 8192];
    let pair = chain(handle(PAIR, 0));
    c.session("a pair with 4,096 open gets 12", &pair, 12, &words, &ones);
    c.limited("12 before 13", &pair, 4096, 12, &words, &ones);
    c.limited("an atom gets 13", &chain(small(5)), 4096, 13, &words, &ones);
    let done = [2048, 4096, 6144, 8192, (4096 + 1 + 4096) * 2 + 1];
    let all = format!("{ones}05{}", "01".repeat(4096));
    c.session("an atom with 4,096 open", &chain(small(5)), 0, &done, &all);
    // 12 inside an add keeps the items before it
    let mut f = File::new();
    let mut t = S;
    let mut handles = vec![];
    for _ in 0..1023 {
        t = f.pair(t, small(1));
        handles.push(t);
    }
    let q = f.pair(S, small(1));
    let s = f.adds(&[t, t, t, t, handles[2], handles[2], q]);
    c.session(
        "12 inside an add keeps its whole items",
        &s,
        12,
        &[2046, 4092, 6138, 8184, 8190],
        &ones,
    );
}

/// The step `03`, beside the cases of `02` in `incremental`.
fn forgets(c: &mut Cases) {
    use Step::{Add, Forget, Restore};

    // B = foobar, A = ((S . nil) . B), C = (B . nil)
    let file = |steps: &dyn Fn(u32, u32) -> Vec<Step>| {
        let mut f = File::new();
        let sn = f.pair(S, NIL);
        let a = f.pair(sn, FOOBAR);
        let cc = f.pair(FOOBAR, NIL);
        f.steps(steps(a, cc))
    };
    let right = "ffffff86666f6f6261728080fe08";
    let kept = "ffffff86666f6f6261728080fe04";
    let s = file(&|a, cc| vec![Add(a), Add(FOOBAR), Forget(1), Add(cc)]);
    c.session(
        "03 brings moved parents back",
        &s,
        0,
        &[4, 25, 4, 29],
        right,
    );
    c.equal("03, premises", plain::premises(&s), Ok(()));
    // ((C . nil) . B)
    let in_full = "ffffff86666f6f626172808086666f6f626172";
    c.read("03's bytes read back", right, 0, in_full);
    let filling = plain::fill(&s).expect("no restore");
    c.equal(
        "03, filled",
        filling.forest.in_full(filling.root, 100),
        Some(hex::bytes(in_full)),
    );
    // the state before the third add is one after a 02
    let s = file(&|a, cc| {
        let first = [Add(a), Add(FOOBAR), Restore(1)];
        [&first[..], &[Add(small(1)), Forget(1), Add(cc)]].concat()
    });
    let words = [4, 25, 4, 23, 4, 29];
    c.session("03 brings back what a 02 kept", &s, 0, &words, kept);
    // the state before the first add is one before the 02
    let s = file(&|a, cc| {
        let first = [Add(a), Add(FOOBAR), Restore(1)];
        [&first[..], &[Forget(0), Add(a), Add(cc)]].concat()
    });
    let words = [4, 25, 4, 0, 4, 29];
    c.session("03 goes back before a 02", &s, 0, &words, right);
    let s = file(&|a, cc| {
        let first = [Add(a), Add(FOOBAR), Forget(1), Add(FOOBAR)];
        [&first[..], &[Restore(1), Add(cc)]].concat()
    });
    c.session("02 after a 03", &s, 0, &[4, 25, 4, 25, 4, 29], kept);

    // as in `incremental`, where a 02 has the sentinel known
    let mut f = File::new();
    let a = f.pair(S, NIL);
    let t = f.pair(a, S);
    let t = f.pair(small(9), t);
    let r = f.pair(FOOBAR, t);
    let adds = [Add(r), Add(small(1)), Add(FOOBAR)];
    let s = f.steps([&[Add(a), Forget(0), Add(FOOBAR), Forget(0)], &adds[..]].concat());
    c.session(
        "03 before the first add: the sentinel is unknown",
        &s,
        0,
        &[2, 0, 15, 0, 24, 28, 33],
        "ff86666f6f626172ff09ffff0180fe0b",
    );

    // P0 = (foobar . nil) is foobar's first parent; then B has foobar n times more
    let overwritten_case = |n: u32| {
        let mut f = File::new();
        let p0 = f.pair(FOOBAR, NIL);
        let a = f.pair(p0, S);
        let chain = (0..n).fold(small(1), |t, _| f.pair(FOOBAR, t));
        let d = f.pair(FOOBAR, small(2));
        let b = f.pair(d, chain);
        let r = run(&f.steps(vec![Add(a), Add(b), Forget(1), Add(d)]));
        // after ff ff 86 foobar 80 and D's ff
        hex::encode(&r.output[11..])
    };
    for n in [98, 192, 193, 300] {
        let name = format!("03 brings overwritten parents back, of {n}");
        c.equal(&name, overwritten_case(n), "fe0402".to_string());
    }
    // foobar at S loses P0 if it had 100 parents
    let dropped_case = |n: u32, undo: Step| {
        let mut f = File::new();
        let p0 = f.pair(FOOBAR, NIL);
        let chain = (0..n).fold(small(1), |t, _| f.pair(FOOBAR, t));
        let rest = f.pair(S, chain);
        let a = f.pair(p0, rest);
        let d = f.pair(FOOBAR, small(2));
        let r = run(&f.steps(vec![Add(a), Add(FOOBAR), undo, Add(d)]));
        // after ff ff 86 foobar 80 ff and D's ff
        hex::encode(&r.output[12..14])
    };
    c.equal(
        "02 leaves a dropped parent",
        dropped_case(99, Restore(1)),
        "8666".into(),
    );
    c.equal(
        "03 brings it back",
        dropped_case(99, Forget(1)),
        "fe04".into(),
    );
    c.equal(
        "03, none dropped",
        dropped_case(98, Forget(1)),
        "fe04".into(),
    );

    let pair = || {
        let mut f = File::new();
        f.pair(FOOBAR, S);
        f
    };
    let p = handle(PAIR, 0);
    // the steps, and the number and words they get
    let cases: [(&str, &[Step], u32, &[u32]); 10] = [
        ("03 with no add", &[Forget(0)], 11, &[]),
        ("03 of the count", &[Add(p), Forget(1)], 11, &[16]),
        (
            "03 of one below the count",
            &[Add(p), Forget(0)],
            0,
            &[16, 0],
        ),
        (
            "03 of 256 is not 03 of 0",
            &[Add(p), Forget(256)],
            11,
            &[16],
        ),
        ("03 of 65,535", &[Add(p), Forget(65_535)], 11, &[16]),
        (
            "03 of 0 twice",
            &[Add(p), Forget(0), Forget(0)],
            11,
            &[16, 0],
        ),
        (
            "03 after a finish",
            &[Add(p), Add(FOOBAR), Forget(1)],
            0,
            &[16, 21, 16],
        ),
        (
            "03, and an add once more",
            &[Add(p), Forget(0), Add(FOOBAR)],
            0,
            &[16, 0, 15],
        ),
        (
            "03 to the add that a 02 took",
            &[Add(p), Add(p), Restore(1), Forget(1)],
            11,
            &[16, 22, 16],
        ),
        (
            "03 to the one before",
            &[Add(p), Add(p), Restore(1), Forget(0)],
            0,
            &[16, 22, 16, 0],
        ),
    ];
    for (name, steps, number, words) in cases {
        let r = run(&pair().steps(steps.to_vec()));
        c.equal(name, (r.number, &r.words[..]), (number, words));
    }
    let mut steps = vec![Add(S); 16];
    steps.extend([Forget(15), Add(S), Add(S)]);
    let s = pair().steps(steps);
    c.session("03 makes room for add 16 again", &s, 10, &[0; 18], "");

    let file = pair().steps(vec![Add(p)]).to_bytes();
    for (rest, number) in [
        (&[3][..], 4),
        (&[3, 0], 4),
        (&[3, 0, 0], 0),
        (&[3, 1, 0], 11),
    ] {
        let file = [&file[..], rest].concat();
        let name = format!("03 as {}", hex::encode(rest));
        c.equal(&name, session::run(&file, MAX_OUTPUT, true).number, number);
    }
}

/// A name, steps, and the number, words and output they get.
type Expected<'a> = (&'a str, &'a [Step], u32, &'a [u32], &'a str);

/// The steps `04` and `05`.
fn quotes(c: &mut Cases) {
    use Step::{Add, Forget, Quote, Restore, Take};

    // (foobar . S), and 01's words and output by adds
    let pair = || {
        let mut f = File::new();
        f.pair(FOOBAR, S);
        f
    };
    let p = handle(PAIR, 0);
    let foobar = "86666f6f626172";
    let one = "ff86666f6f626172";
    let two = "ff86666f6f626172fe02";
    let cases: [Expected; 30] = [
        ("a quote alone", &[Quote(p)], 0, &[16], ""),
        ("a quote taken", &[Quote(p), Take], 0, &[16, 16], one),
        (
            "two quotes taken",
            &[Quote(p), Take, Quote(FOOBAR), Take],
            0,
            &[16, 16, 21, 21],
            two,
        ),
        (
            "a quote that would finish",
            &[Add(p), Quote(FOOBAR)],
            0,
            &[16, 21],
            one,
        ),
        (
            "the session goes on after it",
            &[Add(p), Quote(FOOBAR), Add(p)],
            0,
            &[16, 21, 22],
            "ff86666f6f626172fffe02",
        ),
        (
            "a quote, and the same add",
            &[Add(p), Quote(FOOBAR), Add(FOOBAR)],
            0,
            &[16, 21, 21],
            two,
        ),
        (
            "the last of two quotes is taken",
            &[Quote(FOOBAR), Quote(p), Take],
            0,
            &[15, 16, 16],
            one,
        ),
        ("a quote of the sentinel", &[Quote(S)], 0, &[0], ""),
        (
            "a quote of the sentinel, taken",
            &[Quote(S), Take, Add(FOOBAR)],
            0,
            &[0, 0, 15],
            foobar,
        ),
        ("17 at first", &[Take], 17, &[], ""),
        ("17 after an add", &[Add(p), Take], 17, &[16], one),
        (
            "17 at the second",
            &[Quote(p), Take, Take],
            17,
            &[16, 16],
            one,
        ),
        (
            "17 after an add dropped the quote",
            &[Quote(p), Add(p), Take],
            17,
            &[16, 16],
            one,
        ),
        (
            "17 after a 02 dropped it",
            &[Add(p), Quote(p), Restore(0), Take],
            17,
            &[16, 22, 0],
            "",
        ),
        (
            "17 after a 03 dropped it",
            &[Add(p), Quote(p), Forget(0), Take],
            17,
            &[16, 22, 0],
            "",
        ),
        (
            "17 after the second was taken",
            &[Quote(FOOBAR), Quote(p), Take, Take],
            17,
            &[15, 16, 16],
            one,
        ),
        (
            "17 when finished",
            &[Quote(FOOBAR), Take, Take],
            17,
            &[15, 15],
            foobar,
        ),
        (
            "9 at a quote",
            &[Quote(FOOBAR), Take, Quote(S)],
            9,
            &[15, 15],
            foobar,
        ),
        (
            "9 at a quote after an add",
            &[Add(FOOBAR), Quote(p), Take],
            9,
            &[15],
            foobar,
        ),
        (
            "11 counts no quote, of 02",
            &[Quote(p), Restore(0)],
            11,
            &[16],
            "",
        ),
        (
            "11 counts no quote, of 03",
            &[Quote(p), Forget(0)],
            11,
            &[16],
            "",
        ),
        (
            "02 before a taking",
            &[Quote(p), Take, Restore(0)],
            0,
            &[16, 16, 0],
            "",
        ),
        (
            "03 before a taking",
            &[Quote(p), Take, Forget(0)],
            0,
            &[16, 16, 0],
            "",
        ),
        (
            "02 before a taking that finished",
            &[Add(p), Quote(FOOBAR), Take, Restore(1), Quote(FOOBAR), Take],
            0,
            &[16, 21, 21, 16, 21, 21],
            two,
        ),
        (
            "03 before a taking that finished",
            &[Add(p), Quote(FOOBAR), Take, Forget(1), Quote(FOOBAR), Take],
            0,
            &[16, 21, 21, 16, 21, 21],
            two,
        ),
        (
            "02 to the taking's count",
            &[Quote(p), Take, Restore(1)],
            11,
            &[16, 16],
            one,
        ),
        (
            "a quote after a 02",
            &[Add(p), Restore(0), Quote(FOOBAR), Take],
            0,
            &[16, 0, 15, 15],
            foobar,
        ),
        (
            "a quote after a 03",
            &[Add(p), Forget(0), Quote(FOOBAR), Take],
            0,
            &[16, 0, 15, 15],
            foobar,
        ),
        (
            "9 at the second quote of a finish",
            &[Add(p), Quote(FOOBAR), Take, Quote(FOOBAR), Take],
            9,
            &[16, 21, 21],
            two,
        ),
        (
            "four quotes, then the add",
            &[Quote(p), Quote(p), Quote(S), Quote(FOOBAR), Add(p)],
            0,
            &[16, 16, 0, 15, 16],
            one,
        ),
    ];
    for (name, steps, number, words, output) in cases {
        c.session(name, &pair().steps(steps.to_vec()), number, words, output);
    }
    // 13 at a quote leaves what was before it, at an add the whole items
    for (length, number, size, words) in
        [(10, 0, 8, 2), (9, 13, 8, 1), (8, 13, 8, 1), (7, 13, 0, 0)]
    {
        let s = pair().steps(vec![Quote(p), Take, Quote(FOOBAR)]);
        let r = session::run(&s.to_bytes(), length, true);
        let words = words + usize::from(words > 0);
        c.equal(
            &format!("quotes in {length} bytes"),
            (r.number, r.output.len(), r.words.len()),
            (number, size, words),
        );
    }
    let s = pair().steps(vec![Add(S), Quote(p)]);
    c.limited("13 inside a quote leaves nothing", &s, 7, 13, &[0], "");
    let s = pair().steps(vec![Add(S), Add(p)]);
    c.limited("13 inside an add leaves its items", &s, 7, 13, &[0], "ff");

    // a quote takes no place, and 10 asks of the history as it is
    let steps =
        |n: usize, more: &[Step]| pair().steps([&[Quote(S), Take].repeat(n)[..], more].concat());
    let all = |n: usize, more: &[u32]| [&vec![0; 2 * n][..], more].concat();
    let s = steps(16, &[Quote(FOOBAR)]);
    c.session("10 at a quote", &s, 10, &all(16, &[]), "");
    let s = steps(15, &[Quote(p), Quote(p), Quote(FOOBAR), Take, Quote(S)]);
    let words = all(15, &[16, 16, 15, 15]);
    c.session("quotes take no place; 9 before 10", &s, 9, &words, foobar);
    let s = steps(16, &[Take]);
    c.session("17 after 16 adds", &s, 17, &all(16, &[]), "");
    let s = steps(16, &[Forget(15), Quote(FOOBAR), Take]);
    let words = all(16, &[0, 15, 15]);
    c.session("a 03 makes room for a quote", &s, 0, &words, foobar);
    let s = pair().steps(vec![Quote(FOOBAR); 1024]);
    c.session("1,024 quotes", &s, 0, &[15; 1024], "");
    let s = pair().steps(vec![Quote(FOOBAR); 1025]);
    c.session("1,025 quotes", &s, 5, &[], "");

    // 12 inside a quote: 4,093 pairs are open, and the quote would open four
    let mut f = File::new();
    let mut t = S;
    let mut handles = vec![];
    for _ in 0..1024 {
        t = f.pair(t, small(1));
        handles.push(t);
    }
    let open = [t, t, t, handles[1020]].map(Add);
    let words = [2048, 4096, 6144, 8186];
    let ones = "ff".repeat(4093);
    let s = f.steps([&open[..], &[Quote(handles[3])]].concat());
    c.session("12 inside a quote leaves nothing", &s, 12, &words, &ones);
    let s = SessionFile {
        steps: [&open[..], &[Quote(handles[2]), Take, Quote(t)]].concat(),
        ..s
    };
    let words = [&words[..], &[8192, 8192]].concat();
    let ones = "ff".repeat(4096);
    c.session("12 at a quote's first ff", &s, 12, &words, &ones);

    // as in `forgets`: B = foobar, A = ((S . nil) . B), C = (B . nil)
    let file = |steps: &dyn Fn(u32, u32) -> Vec<Step>| {
        let mut f = File::new();
        let sn = f.pair(S, NIL);
        let a = f.pair(sn, FOOBAR);
        let cc = f.pair(FOOBAR, NIL);
        f.steps(steps(a, cc))
    };
    let right = "ffffff86666f6f6261728080fe08";
    let kept = "ffffff86666f6f6261728080fe04";
    let s = file(&|a, cc| vec![Add(a), Quote(FOOBAR), Add(cc)]);
    c.session("04 brings moved parents back", &s, 0, &[4, 25, 29], right);
    let s = file(&|a, cc| vec![Add(a), Quote(FOOBAR), Quote(cc), Take]);
    let words = [4, 25, 29, 29];
    c.session("a taking after a dropped quote", &s, 0, &words, right);
    c.equal("04 and 05, premises", plain::premises(&s), Ok(()));
    let filling = plain::fill(&s).expect("no restore");
    c.equal(
        "04 and 05, filled",
        filling.forest.in_full(filling.root, 100),
        Some(hex::bytes("ffffff86666f6f626172808086666f6f626172")),
    );
    let s = file(&|a, cc| {
        let first = [Add(a), Quote(FOOBAR), Take];
        [&first[..], &[Restore(1), Quote(cc), Take]].concat()
    });
    let words = [4, 25, 25, 4, 29, 29];
    c.session("02 keeps what a taking left", &s, 0, &words, kept);
    let s = file(&|a, cc| {
        let first = [Add(a), Quote(FOOBAR), Take];
        [&first[..], &[Forget(1), Quote(cc), Take]].concat()
    });
    c.session("03 keeps nothing of a taking", &s, 0, &words, right);

    // the sentinel's entry is unknown before and after a quote of the first tree
    let mut f = File::new();
    let a = f.pair(S, NIL);
    let t = f.pair(a, S);
    let t = f.pair(small(9), t);
    let r = f.pair(FOOBAR, t);
    let adds = [Add(r), Add(small(1)), Add(FOOBAR)];
    let s = f.steps([&[Quote(a), Quote(FOOBAR)], &adds[..]].concat());
    c.session(
        "04 before the first add: the sentinel is unknown",
        &s,
        0,
        &[2, 15, 24, 28, 33],
        "ff86666f6f626172ff09ffff0180fe0b",
    );

    let file = pair().steps(vec![Add(p)]).to_bytes();
    for (rest, number) in [
        (&[4][..], 4),
        (&[4, 8, 0, 0], 4),
        (&[4, 8, 0, 0, 0], 0),
        (&[4, 0xff, 0xff, 0xff, 0xff], 7),
        (&[4, 0, 0, 0, 1], 7),
        (&[5], 17),
        (&[5, 9], 8),
        (&[4, 8, 0, 0, 0, 5, 5], 17),
        (&[4, 8, 0, 0, 0, 5, 7], 8),
    ] {
        let file = [&file[..], rest].concat();
        let name = format!("steps {}", hex::encode(rest));
        c.equal(&name, session::run(&file, MAX_OUTPUT, true).number, number);
    }
}

/// A name, steps, their number, and the references and prefix bytes of each.
type Counted<'a> = (&'a str, &'a [Step], u32, &'a [(u32, u32)]);

/// The references and prefix bytes of a step.
fn counts(c: &mut Cases) {
    use Step::{Add, Forget, Quote, Restore, Take};

    // an atom alone: the width of its prefix
    let zeros = |n: usize| vec![0; n];
    for (atom, width) in [
        (zeros(2), 1),
        (vec![0x80], 1),
        (zeros(63), 1),
        (zeros(64), 2),
        (zeros(8_191), 2),
        (zeros(8_192), 3),
        (zeros(32_768), 3),
    ] {
        let mut f = File::new();
        let name = format!("an atom of {} bytes", atom.len());
        f.0.atoms[0] = atom;
        c.counts(&name, &f.adds(&[FOOBAR]), 0, &[(0, width)]);
    }
    for (value, width) in [(0, 1), (1, 0), (0x7f, 0), (0x80, 1), (0x3ff_ffff, 1)] {
        let name = format!("the small atom {value}");
        let s = File::new().adds(&[small(value)]);
        c.counts(&name, &s, 0, &[(0, width)]);
    }
    // (x . (1 . (1 . .. x))): the path has a bit for each 1 between, one, and the terminator
    for (between, width) in [
        (0, 0),
        (5, 0),
        (6, 1),
        (14, 1),
        (502, 1),
        (503, 2),
        (511, 2),
        (1_000, 2),
    ] {
        let mut f = File::new();
        f.0.atoms[0] = zeros(200);
        let list = (0..between).fold(FOOBAR, |t, _| f.pair(small(1), t));
        let t = f.pair(FOOBAR, list);
        let name = format!("a path over {between} values");
        c.counts(&name, &f.adds(&[t]), 0, &[(1, 2 + width)]);
    }
    let mut f = File::new();
    let t = f.pair(NIL, NIL);
    let s = f.adds(&[t]);
    c.counts("ff is no prefix byte, and nil is one", &s, 0, &[(0, 2)]);

    // (foobar . S): what steps back and quotes leave and show
    let pair = |steps: &[Step]| {
        let mut f = File::new();
        f.pair(FOOBAR, S);
        f.steps(steps.to_vec())
    };
    let p = handle(PAIR, 0);
    let cases: [Counted; 14] = [
        ("no step", &[], 0, &[]),
        ("two adds", &[Add(p), Add(FOOBAR)], 0, &[(0, 1), (1, 1)]),
        ("the sentinel", &[Add(S), Add(S)], 0, &[(0, 0), (0, 0)]),
        (
            "02 sets them back",
            &[Add(p), Add(p), Restore(1), Add(NIL)],
            0,
            &[(0, 1), (1, 1), (0, 1), (0, 2)],
        ),
        (
            "03 sets them back",
            &[Add(p), Add(p), Forget(1), Add(NIL)],
            0,
            &[(0, 1), (1, 1), (0, 1), (0, 2)],
        ),
        (
            "over several adds",
            &[Add(p), Add(p), Add(p), Restore(0), Add(p), Forget(0)],
            0,
            &[(0, 1), (1, 1), (2, 1), (0, 0), (0, 1), (0, 0)],
        ),
        (
            "after a finish",
            &[Add(p), Add(FOOBAR), Restore(1), Add(FOOBAR), Forget(1)],
            0,
            &[(0, 1), (1, 1), (0, 1), (1, 1), (0, 1)],
        ),
        (
            "a quote shows its add's, taken or dropped",
            &[Quote(p), Take, Quote(FOOBAR), Quote(p), Take, Quote(NIL)],
            0,
            &[(0, 1), (0, 1), (1, 1), (1, 1), (1, 1), (1, 2)],
        ),
        (
            "02 and 03 after a dropped quote",
            &[Add(p), Add(p), Quote(p), Restore(1), Quote(p), Forget(0)],
            0,
            &[(0, 1), (1, 1), (2, 1), (0, 1), (1, 1), (0, 0)],
        ),
        (
            "02 and 03 before a taking",
            &[Quote(p), Take, Quote(p), Take, Restore(1), Forget(0)],
            0,
            &[(0, 1), (0, 1), (1, 1), (1, 1), (0, 1), (0, 0)],
        ),
        ("9 keeps them", &[Add(FOOBAR), Add(p)], 9, &[(0, 1)]),
        (
            "11 keeps them",
            &[Add(p), Quote(p), Restore(1)],
            11,
            &[(0, 1), (1, 1)],
        ),
        ("17 keeps them", &[Add(p), Take], 17, &[(0, 1)]),
        (
            "17 after a taking",
            &[Quote(p), Take, Take],
            17,
            &[(0, 1), (0, 1)],
        ),
    ];
    for (name, steps, number, counts) in cases {
        let name = format!("counts: {name}");
        c.counts(&name, &pair(steps), number, counts);
    }
    // 13 inside an add and inside a quote: those of the steps before it
    for steps in [[Add(p), Add(p), Add(p)], [Add(p), Add(p), Quote(p)]] {
        let r = session::run(&pair(&steps).to_bytes(), 13, true);
        c.equal(
            &format!("counts: 13 at {:?}", steps[2]),
            (r.number, r.all_words()),
            (13, vec![16, 0, 1, 22, 1, 1]),
        );
    }
    let s = pair(&[Add(p), Quote(FOOBAR), Take]);
    c.equal(
        "the three words of each step",
        run(&s).all_words(),
        vec![16, 0, 1, 21, 1, 1, 21, 1, 1],
    );
    c.equal(
        "five columns",
        session::print(&run(&s), true),
        "1 8 0 0 1\n2 10 1 1 1\n3 10 1 1 1\nff86666f6f626172fe02\n".to_string(),
    );
}

/// Without demand 3's premises read-back fails: two cases.
fn premises(c: &mut Cases) {
    // P = (S . nil); P, (foobar . (1 . (2 . (P . foobar)))), 3
    let mut f = File::new();
    let p = f.pair(S, NIL);
    let t = f.pair(p, FOOBAR);
    let t = f.pair(small(2), t);
    let t = f.pair(small(1), t);
    let t = f.pair(FOOBAR, t);
    let s = f.adds(&[p, t, small(3)]);
    let r = run(&s);
    c.equal(
        "a pair above the sentinel again: finished",
        r.words.last().map(|w| w % 2),
        Some(1),
    );
    c.equal(
        "a pair above the sentinel again: refused",
        reading::read(&r.output).number,
        16,
    );
    c.equal(
        "a pair above the sentinel again: premises",
        plain::premises(&s).is_err(),
        true,
    );

    // X = (S . S); (X . foobar), (foobar . nil), (1 . 2)
    let mut f = File::new();
    let x = f.pair(S, S);
    let a = f.pair(x, FOOBAR);
    let b = f.pair(FOOBAR, NIL);
    let d = f.pair(small(1), small(2));
    let s = f.adds(&[a, b, d]);
    let r = run(&s);
    let back = reading::read(&r.output);
    let filling = plain::fill(&s).expect("no restore");
    let mut i = Interner::default();
    c.equal(
        "two places: finished",
        r.words.last().map(|w| w % 2),
        Some(1),
    );
    c.equal(
        "two places: read back wrong",
        (
            back.number,
            i.reading(&back) == i.tree(&filling.forest, filling.root),
        ),
        (0, false),
    );
    c.equal("two places: premises", plain::premises(&s).is_err(), true);
}

pub fn run_all() -> Vec<Case> {
    let mut c = Cases(vec![]);
    parse_atom(&mut c);
    de_br(&mut c);
    tree_cache(&mut c);
    path_builder(&mut c);
    incremental(&mut c);
    session_file(&mut c);
    steps(&mut c);
    forgets(&mut c);
    quotes(&mut c);
    counts(&mut c);
    measures::all(&mut c);
    premises(&mut c);
    c.0
}

/// The lines, and whether all are ok.
pub fn print(cases: &[Case]) -> (String, bool) {
    let mut s = String::new();
    let mut differ = 0;
    for (name, result) in cases {
        match result {
            Ok(()) => s += &format!("ok {name}\n"),
            Err(what) => {
                differ += 1;
                s += &format!("DIFFERS {name}: {what}\n");
            }
        }
    }
    s += &format!("{} ok, {differ} differ\n", cases.len() - differ);
    (s, differ == 0)
}
