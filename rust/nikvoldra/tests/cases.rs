//! The worked cases of the scope (01), through this crate.

use nikvoldra::{read, BuildError, NodePtr, Reader, Refusal, Run, Session};

fn hex(text: &str) -> Vec<u8> {
    let digits: String = text.split_whitespace().collect();
    let byte = |i| u8::from_str_radix(&digits[i..i + 2], 16).unwrap();
    (0..digits.len()).step_by(2).map(byte).collect()
}

fn words(run: &Run) -> Vec<usize> {
    let word = |s: &nikvoldra::Step| 2 * s.size + usize::from(s.finished);
    run.steps().iter().map(word).collect()
}

/// The references and prefix bytes of each step.
fn counts(run: &Run) -> Vec<(usize, usize)> {
    let both = |s: &nikvoldra::Step| (s.references, s.prefix_bytes);
    run.steps().iter().map(both).collect()
}

/// Whether two serialized trees are accepted and equal.
fn same(one: &[u8], other: &[u8]) -> bool {
    read(one).unwrap().tree() == read(other).unwrap().tree()
}

#[test]
fn whole_case() {
    let mut session = Session::new();
    let foobar = session.atom(b"foobar").unwrap();
    let open = session.pair(NodePtr::NIL, NodePtr::NIL).unwrap();
    session.set_sentinel(open).unwrap();
    let tree = session.pair(foobar, open).unwrap();
    session.add(tree).unwrap();
    session.add(foobar).unwrap();
    let file =
        "42 52 53 00 01 00 01 00 06 66 6f 6f 62 61 72 00 02 08 00 00 00 08 00 00 00 04 00 00 00
        00 00 00 00 00 00 00 00 01 00 00 00 01 01 04 00 00 00";
    assert_eq!(session.to_file(), hex(file));
    let run = session.run().unwrap();
    let steps: Vec<_> = run.steps().iter().map(|s| (s.size, s.finished)).collect();
    assert_eq!(steps, [(8, false), (10, true)]);
    assert_eq!(counts(&run), [(0, 1), (1, 1)]);
    assert_eq!(run.bytes(), hex("ff86666f6f626172fe02"));
    assert!(same(run.bytes(), b"\xff\x86foobar\x86foobar"));
}

#[test]
fn steps_in_the_file() {
    let mut session = Session::new();
    session.add(NodePtr::NIL).unwrap();
    session.restore(2).unwrap();
    session.forget(0x102).unwrap();
    session.quote(NodePtr::small(9).unwrap()).unwrap();
    session.take().unwrap();
    let file = "42 52 53 00 01 00 00 00 00 ff ff ff ff 01 08 00 00 00 02 00 02 03 01 02
        04 08 00 00 09 05";
    assert_eq!(session.to_file(), hex(file));
}

#[test]
fn references_from_four_bytes_on() {
    for (atom, output) in [
        (&b"abc"[..], "ff 83 61 62 63 fe 02"),
        (b"ab", "ff 82 61 62 82 61 62"),
    ] {
        let mut session = Session::new();
        let atom = session.atom(atom).unwrap();
        let tree = session.pair(atom, atom).unwrap();
        session.add(tree).unwrap();
        assert_eq!(session.run().unwrap().bytes(), hex(output));
    }
}

/// B = foobar, A = ((open . nil) . B), C = (B . nil): adds A and B, takes B back, and adds C.
fn taken_back(step: fn(&mut Session, u16) -> Result<(), BuildError>) -> Run {
    let mut session = Session::new();
    let open = session.sentinel().unwrap();
    let b = session.atom(b"foobar").unwrap();
    let left = session.pair(open, NodePtr::NIL).unwrap();
    let a = session.pair(left, b).unwrap();
    let c = session.pair(b, NodePtr::NIL).unwrap();
    session.add(a).unwrap();
    session.add(b).unwrap();
    step(&mut session, 1).unwrap();
    session.add(c).unwrap();
    session.run().unwrap()
}

#[test]
fn undo_keeps_entries_and_parents() {
    let run = taken_back(Session::restore);
    assert_eq!(words(&run), [4, 25, 4, 29]);
    assert_eq!(counts(&run), [(0, 0), (1, 2), (0, 0), (1, 3)]);
    assert_eq!(
        run.bytes(),
        hex("ff ff ff 86 66 6f 6f 62 61 72 80 80 fe 04")
    );
    // ((C . nil) . C) with C = (foobar . nil)
    let full = b"\xff\xff\xff\x86foobar\x80\x80\xff\x86foobar\x80";
    assert!(same(run.bytes(), full));
}

#[test]
fn forget_keeps_nothing() {
    let run = taken_back(Session::forget);
    assert_eq!(words(&run), [4, 25, 4, 29]);
    assert_eq!(counts(&run), [(0, 0), (1, 2), (0, 0), (1, 3)]);
    assert_eq!(
        run.bytes(),
        hex("ff ff ff 86 66 6f 6f 62 61 72 80 80 fe 08")
    );
    // ((C . nil) . B)
    let full = b"\xff\xff\xff\x86foobar\x80\x80\x86foobar";
    assert!(same(run.bytes(), full));
}

/// The trees of `taken_back`: adds A, quotes B, and adds C, by `take` or by an add of its own.
#[test]
fn a_quote_keeps_nothing() {
    for by_taking in [false, true] {
        let mut session = Session::new();
        let open = session.sentinel().unwrap();
        let b = session.atom(b"foobar").unwrap();
        let left = session.pair(open, NodePtr::NIL).unwrap();
        let a = session.pair(left, b).unwrap();
        let c = session.pair(b, NodePtr::NIL).unwrap();
        session.add(a).unwrap();
        session.quote(b).unwrap();
        let quoted = session.run().unwrap();
        assert_eq!(words(&quoted), [4, 25]);
        assert_eq!(counts(&quoted), [(0, 0), (1, 2)]);
        assert_eq!(quoted.bytes(), hex("ff ff"));
        assert!(!quoted.is_finished());
        let mut expected = vec![4, 25, 29];
        if by_taking {
            session.quote(c).unwrap();
            session.take().unwrap();
            expected.push(29);
        } else {
            session.add(c).unwrap();
        }
        let run = session.run().unwrap();
        assert_eq!(words(&run), expected);
        assert_eq!(
            run.bytes(),
            hex("ff ff ff 86 66 6f 6f 62 61 72 80 80 fe 08")
        );
        assert!(run.is_finished());
    }
}

/// Steps back count a taking as an add and a quote as none.
#[test]
fn steps_back_over_quotes() {
    for step in [Session::restore, Session::forget] {
        let mut session = Session::new();
        let open = session.sentinel().unwrap();
        let foobar = session.atom(b"foobar").unwrap();
        let tree = session.pair(foobar, open).unwrap();
        session.quote(foobar).unwrap();
        session.quote(tree).unwrap();
        session.take().unwrap();
        session.quote(foobar).unwrap();
        session.take().unwrap();
        step(&mut session, 1).unwrap();
        session.quote(foobar).unwrap();
        let run = session.run().unwrap();
        assert_eq!(words(&run), [15, 16, 16, 21, 21, 16, 21]);
        let both = [(0, 1), (0, 1), (0, 1), (1, 1), (1, 1), (0, 1), (1, 1)];
        assert_eq!(counts(&run), both);
        assert_eq!(run.bytes(), b"\xff\x86foobar");
        assert!(!run.is_finished());
    }
}

#[test]
fn the_sentinel_alone_writes_nothing() {
    let mut session = Session::new();
    let open = session.sentinel().unwrap();
    session.add(open).unwrap();
    session.add(open).unwrap();
    session.add(NodePtr::NIL).unwrap();
    let run = session.run().unwrap();
    assert_eq!(words(&run), [0, 0, 3]);
    assert_eq!(counts(&run), [(0, 0), (0, 0), (0, 1)]);
    assert_eq!(run.bytes(), [0x80]);
}

/// An atom alone: a single byte below 80 has no prefix, and nil is one.
#[test]
fn widths_of_prefixes() {
    for (atom, width) in [
        (vec![], 1),
        (vec![0x7f], 0),
        (vec![0x80], 1),
        (vec![b'x'; 2], 1),
        (vec![b'x'; 63], 1),
        (vec![b'x'; 64], 2),
        (vec![b'x'; 8_191], 2),
        (vec![b'x'; 8_192], 3),
        (vec![b'x'; 32_768], 3),
    ] {
        let mut session = Session::new();
        let node = session.atom(&atom).unwrap();
        session.add(node).unwrap();
        let run = session.run().unwrap();
        assert_eq!(counts(&run), [(0, width)], "{} bytes", atom.len());
        assert_eq!(run.bytes().len(), width + atom.len());
    }
}

/// (x . (1 . (1 . .. x))): a path of a bit for each 1 between, one more, and the terminator.
#[test]
fn widths_of_paths() {
    for (between, width) in [(0, 0), (5, 0), (6, 1), (502, 1), (503, 2), (1_000, 2)] {
        let mut session = Session::new();
        let x = session.atom(&[b'x'; 200]).unwrap();
        let one = NodePtr::small(1).unwrap();
        let list = session.list(&vec![one; between], x).unwrap();
        let tree = session.pair(x, list).unwrap();
        session.quote(tree).unwrap();
        session.take().unwrap();
        let run = session.run().unwrap();
        assert_eq!(counts(&run), [(1, 2 + width); 2], "{between} between");
        let path = (between + 2).div_ceil(8);
        let all = 1 + 2 + 200 + 2 * between + 1 + width + path;
        assert_eq!(run.bytes().len(), all, "{between} between");
    }
}

/// A tree that is added with so many values of a spine after it, and then again.
fn far(session: &mut Session, tree: NodePtr, between: usize) {
    let open = session.sentinel().unwrap();
    let mut spine = vec![open];
    for i in 0..600 {
        spine.push(session.pair(NodePtr::NIL, spine[i]).unwrap());
    }
    let first = session.pair(tree, spine[between % 600]).unwrap();
    session.add(first).unwrap();
    for _ in 0..between / 600 {
        session.add(spine[600]).unwrap();
    }
    session.add(tree).unwrap();
}

/// The bytes of a path, those of an atom in full, and whether each measure has a reference: they differ from 512 path bytes on, where
/// the atom has 3 more.
#[test]
fn measures_of_a_path() {
    let cases = [
        (4_086, 511, 513, 0, 0),
        (4_086, 511, 514, 1, 1),
        (4_087, 512, 514, 0, 0),
        (4_087, 512, 515, 0, 1),
        (4_087, 512, 516, 1, 1),
        (4_095, 513, 515, 0, 0),
        (4_095, 513, 516, 0, 1),
        (4_095, 513, 517, 1, 1),
    ];
    for (between, path, full, counted, documented) in cases {
        let mut session = Session::new();
        let atom = session.atom(&vec![0x80; full - 2]).unwrap();
        far(&mut session, atom, between);
        let runs = [session.run().unwrap(), session.run_documented().unwrap()];
        for (run, used) in runs.iter().zip([counted, documented]) {
            assert_eq!(counts(run).last().unwrap().0, used, "{path} and {full}");
            let again = if used == 1 { 3 + path } else { full };
            assert_eq!(run.bytes().len(), 1 + full + 2 * between + again);
            assert!(run.is_finished());
        }
        assert!(same(runs[0].bytes(), runs[1].bytes()));
    }
}

/// 4,096 pairs are open: a pair has no place, a reference to it has.
#[test]
fn a_reference_where_no_pair_fits() {
    let mut session = Session::new();
    let atom = session.atom(&[0x80; 512]).unwrap();
    let tree = session.pair(atom, NodePtr::NIL).unwrap();
    far(&mut session, tree, 4_095);
    let error = session.run().unwrap_err();
    assert_eq!(error.refusal(), Refusal::TooDeep);
    let run = session.run_documented().unwrap();
    assert!(run.is_finished());
    assert_eq!(run.bytes().len(), 1 + 516 + 2 * 4_095 + 516);
    // in the Rust's place the other steps are the same
    assert_eq!(run.steps()[..7], error.run().steps()[..]);
}

/// The bytes, and the number they get or a plain form of the same tree.
#[test]
fn reading() {
    let long = |prefix: &str, count| [hex(prefix), vec![b'x'; count]].concat();
    let refused = [
        (hex("81 7f"), 15),
        (hex("81"), 14),
        (long("c0 3f", 63), 15),
        (hex("fc 00 00 00 00 00"), 15),
        (hex("fc 04 00 00 00 00"), 14),
        (hex(""), 14),
        (hex("80 80"), 14),
        (hex("fe 02"), 16),
        (hex("ff 01 fe 04"), 16),
    ];
    let mut reader = Reader::new();
    for (bytes, number) in refused {
        let refusal = reader.read(&bytes).unwrap_err();
        assert_eq!(refusal.number(), number, "{bytes:02x?}");
        assert_eq!(Refusal::from_number(number), Some(refusal));
    }
    let accepted = [
        ("fe 01", "80"),
        ("fe 80", "80"),
        ("fe 00", "80"),
        ("ff 01 fe 01", "ff 01 ff 01 80"),
        ("ff 01 fe 03", "ff 01 80"),
        ("ff 01 fe 82 00 03", "ff 01 80"),
    ];
    for (bytes, plain) in accepted {
        assert!(same(&hex(bytes), &hex(plain)), "{bytes}");
    }
    assert_eq!(
        &*read(&hex("81 80")).unwrap().tree().atom().unwrap(),
        [0x80]
    );
    let store = read(&long("c0 40", 64)).unwrap();
    assert_eq!(&*store.tree().atom().unwrap(), [b'x'; 64]);
    assert_eq!((store.atom_count(), store.byte_count()), (1, 64));
}

#[test]
fn counts_of_a_store() {
    let store = read(&hex("ff 01 fe 01")).unwrap();
    assert_eq!((store.pair_count(), store.atom_count()), (2, 0));
    assert_eq!(store.byte_count(), 0);
    assert!(read(&hex("80")).unwrap().tree() != store.tree());
    assert!(read(&hex("ff 01 ff 02 80")).unwrap().tree() != store.tree());
}
