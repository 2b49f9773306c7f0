//! A file of leaf cases (see `leaves`), at most 60,000 bytes.

use crate::hex::bytes;
use crate::leaves::record;
use crate::rng::Rng;

pub const MAX_LEAF_CASES: usize = 60_000;

pub fn leaf_cases(seed: u64) -> Vec<u8> {
    let mut rng = Rng::new(seed);
    let mut out = vec![];
    let mut add = |op: u8, payload: &[u8]| out.extend(record(op, payload));

    // atoms: every prefix width that a small file can hold
    for op in [b'w', b'l'] {
        add(op, &[]);
        for b in [0x00, 0x01, 0x7f, 0x80, 0x81, 0xfe, 0xff] {
            add(op, &[b]);
        }
        for a in [
            "0000",
            "007f",
            "0080",
            "7fff",
            "8000",
            "ffff",
            "666f6f626172",
        ] {
            add(op, &bytes(a));
        }
        for n in [3, 4, 5, 20, 62, 63, 64, 65, 100, 255, 256, 257] {
            add(op, &rng.bytes(n));
        }
    }
    add(b'w', &rng.bytes(8191));
    add(b'w', &rng.bytes(8192));
    add(b'l', &vec![0x7f; 8192]);

    // parse_path: 01's cases
    for case in [
        "",
        "817f",
        "8180",
        "81",
        "fc0000000000",
        "fc0400000000",
        "fc03ffffffff",
        "01",
        "80",
        "00",
    ] {
        add(b'p', &bytes(case));
    }
    for first in 0..=255_u8 {
        add(b'p', &[first]);
    }
    for first in 0..=255_u8 {
        let n = rng.range(1, 9);
        let mut p = vec![first];
        p.extend(rng.bytes(n));
        add(b'p', &p);
    }
    // one byte after 81, around 80
    for b in [0x00, 0x01, 0x7e, 0x7f, 0x80, 0x81, 0xfe, 0xff] {
        add(b'p', &[0x81, b]);
        add(b'p', &[0x81, b, 0x00]);
    }
    // sizes 1 to 63: whole, one short, one more
    for n in [2_usize, 3, 31, 62, 63] {
        for have in [n - 1, n, n + 1] {
            let mut p = vec![0x80 | n as u8];
            p.extend(rng.bytes(have));
            add(b'p', &p);
        }
    }
    // two bytes of prefix
    for size in [0_usize, 1, 63, 64, 65, 255, 256] {
        for have in [size.saturating_sub(1), size, size + 1] {
            let mut p = vec![0xc0 | (size >> 8) as u8, size as u8];
            p.extend(rng.bytes(have));
            add(b'p', &p);
        }
    }
    // prefixes alone, at each boundary, with too few bytes after them
    for prefix in [
        "c000",
        "c001",
        "c03f",
        "c040",
        "dfff",
        "c0",
        "df",
        "e01fff",
        "e02000",
        "e00000",
        "e00001",
        "efffff",
        "e0",
        "e020",
        "ef",
        "f00fffff",
        "f0100000",
        "f0000000",
        "f7ffffff",
        "f0",
        "f010",
        "f01000",
        "f7",
        "f807ffffff",
        "f808000000",
        "f800000000",
        "f800000001",
        "fbffffffff",
        "f8",
        "f80800",
        "f8080000",
        "fb",
        "fc03ffffffff",
        "fc0400000000",
        "fc0000000001",
        "fdffffffffff",
        "fd0000000000",
        "fc",
        "fc04",
        "fc04000000",
        "fc000000",
        "fd",
        "fe",
        "fe000000000000",
        "fe0000000000",
        "fe01",
        "feffffffffffff",
        "ff",
        "ffff",
        "ff80",
        "ff00000000000000",
    ] {
        let p = bytes(prefix);
        add(b'p', &p);
        let mut longer = p.clone();
        longer.extend(rng.bytes(7));
        add(b'p', &longer);
        // the least atom of one byte after a prefix that may not carry it
        let mut one = p;
        one.extend([0x7f, 0x80]);
        add(b'p', &one);
    }
    let mut p = bytes("e02000");
    p.extend(rng.bytes(8192));
    add(b'p', &p);
    let mut p = bytes("c1ff");
    p.extend(rng.bytes(511));
    add(b'p', &p);

    for b in 0..=255_u8 {
        add(b'm', &[b]);
    }

    add(b'z', &[]);
    for case in [
        "00",
        "01",
        "0000",
        "0001",
        "0100",
        "ff",
        "000000000080",
        "0000000000",
    ] {
        add(b'z', &bytes(case));
    }
    for _ in 0..30 {
        let zeros = rng.below(20);
        let mut p = vec![0; zeros];
        if rng.percent(80) {
            let n = rng.range(1, 8);
            p.extend(rng.bytes(n));
        }
        add(b'z', &p);
    }

    // path bits
    let mut bits = |rng: &mut Rng, n: usize, first: Option<u8>| {
        let mut p: Vec<u8> = (0..n).map(|_| rng.byte() & 1).collect();
        if let Some(b) = first {
            for (i, bit) in p.iter_mut().take(8).enumerate() {
                *bit = b >> (7 - i) & 1;
            }
        }
        // any value but 0 is Right
        for bit in &mut p {
            if *bit == 1 && rng.percent(10) {
                *bit = rng.range(1, 255) as u8;
            }
        }
        add(b'b', &p);
    };
    for n in 0..=40 {
        bits(&mut rng, n, None);
        if n > 0 {
            // as a search path, which starts with a set bit
            let first = 0x80 | rng.byte();
            bits(&mut rng, n, Some(first));
        }
    }
    for first in [0, 1, 63, 64, 79, 80, 81, 127, 128, 129, 254, 255] {
        bits(&mut rng, 8, Some(first));
        bits(&mut rng, 7, Some(first));
        bits(&mut rng, 9, Some(first));
    }
    for n in [63 * 8 - 1, 63 * 8, 63 * 8 + 1, 64 * 8] {
        bits(&mut rng, n, Some(0x80));
    }
    bits(&mut rng, 5120, Some(0x91));
    // nine bits, whose bytes are 01 02
    add(b'b', &bytes("010000000000000100"));

    for b in 0..=255_u8 {
        add(b's', &[b]);
    }
    add(b's', &[]);
    for case in [
        "0000",
        "0001",
        "007f",
        "0080",
        "00ff",
        "0100",
        "017f",
        "0180",
        "7f00",
        "7fff",
        "8000",
        "80ff",
        "ff00",
        "ffff",
        "000000",
        "00007f",
        "000080",
        "007fff",
        "008000",
        "00ffff",
        "010000",
        "7fffff",
        "800000",
        "ffffff",
        "00000000",
        "00000080",
        "00007fff",
        "007fffff",
        "00800000",
        "00ffffff",
        "01000000",
        "02ffffff",
        "03000000",
        "03ffffff",
        "04000000",
        "05000000",
        "7fffffff",
        "80000000",
        "ffffffff",
        "0000000000",
        "0003ffffff",
        "0080000000",
        "00ffffffff",
        "0100000000",
        "ffffffffff",
        "666f6f626172",
    ] {
        add(b's', &bytes(case));
    }
    for _ in 0..60 {
        let n = rng.range(1, 6);
        let mut p = rng.bytes(n);
        match rng.below(4) {
            0 => p[0] = 0,
            1 => p[0] &= 0x7f,
            2 => p[0] &= 0x03,
            _ => {}
        }
        add(b's', &p);
    }

    for v in [
        0, 1, 2, 0x7e, 0x7f, 0x80, 0x81, 0xff, 0x100, 0x7ffe, 0x7fff, 0x8000, 0x8001, 0xffff,
        0x10000, 0x7ffffe, 0x7fffff, 0x800000, 0x800001, 0xffffff, 0x1000000, 0x3fffffe, 0x3ffffff,
    ] {
        add(b'v', &u32::to_be_bytes(v));
    }
    for _ in 0..60 {
        let v = (rng.next() as u32 & 0x3ffffff) >> rng.below(26);
        add(b'v', &v.to_be_bytes());
    }

    for kind in 0..3_u32 {
        for i in [0, 1, 1023, 0x3fffffe, 0x3ffffff] {
            add(b'o', &(kind << 26 | i).to_be_bytes());
        }
        for _ in 0..10 {
            let i = (rng.next() as u32 & 0x3ffffff) >> rng.below(26);
            add(b'o', &(kind << 26 | i).to_be_bytes());
        }
    }

    for h in ["00000007", "04000005", "0800007f"] {
        add(b'o', &bytes(h));
    }

    add(b't', &[]);
    add(
        b't',
        &bytes("0000 0100 0000 01ff 00ff 01ff 003f 0140 0040 013f 003f 013f"),
    );
    for n in [10, 40, 100, 300] {
        let span = *rng.pick(&[8, 70, 256]);
        let p: Vec<u8> = (0..n)
            .flat_map(|_| [rng.byte() & 1, rng.below(span) as u8])
            .collect();
        add(b't', &p);
    }

    assert!(out.len() <= MAX_LEAF_CASES, "{} bytes", out.len());
    out
}
