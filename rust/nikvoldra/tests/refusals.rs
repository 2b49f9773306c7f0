//! Each number that can be reached, the limits of the session file, and what a refused call leaves in lent slices.

use nikvoldra::call::{self, Checkpoint, ReadAnswer, SessionAnswer};
use nikvoldra::{read, BuildError, NodePtr, Refusal, Session, Step, Writer};

const RUBBISH: u32 = 0xdead_beef;

/// The empty session's file with some more bytes.
fn file_with(more: &[u8]) -> Vec<u8> {
    [Session::new().to_file(), more.to_vec()].concat()
}

/// A file with the counts and what follows them given whole.
fn file_of(rest: &[u8]) -> Vec<u8> {
    [b"BRS\x00\x01", rest].concat()
}

#[test]
fn of_a_file() {
    let none = [0xff; 4];
    let cases: [(Refusal, Vec<u8>); 17] = [
        (Refusal::LongInput, vec![0; call::INPUT_MOST + 1]),
        (Refusal::NoMark, b"BRS\x00\x02".to_vec()),
        (Refusal::NoMark, b"BRS\x00".to_vec()),
        (Refusal::CutField, b"BRS\x00\x01".to_vec()),
        (Refusal::CutField, file_with(&[1, 0])),
        (Refusal::CutField, file_with(&[3])),
        (Refusal::CutField, file_with(&[3, 0])),
        (Refusal::CutField, file_with(&[4, 8, 0, 0])),
        (Refusal::TooMany, file_of(&[4, 1])),
        (Refusal::TooMany, file_of(&[0, 0, 4, 1])),
        (Refusal::TooMany, file_with(&[2, 0, 0].repeat(1_025))),
        (Refusal::ListedSmallAtom, file_of(&[0, 1, 0, 1, 5])),
        (Refusal::UnknownHandle, file_with(&[1, 0, 0, 0, 0])),
        (Refusal::UnknownHandle, file_with(&[4, 0, 0, 0, 0])),
        (
            Refusal::UnknownHandle,
            file_of(&[&[0, 0, 0, 1][..], &none].concat()),
        ),
        (Refusal::UnknownStep, file_with(&[7])),
        (Refusal::UnknownStep, file_with(&[5, 8])),
    ];
    let mut writer = Writer::new();
    for (refusal, file) in cases {
        let error = writer.run_file(&file).unwrap_err();
        assert_eq!(writer.run_file_documented(&file).unwrap_err(), error);
        assert_eq!(error.refusal(), refusal);
        assert!(error.run().steps().is_empty() && error.run().bytes().is_empty());
        assert_eq!(error.to_string(), refusal.to_string());
    }
    assert!(writer.run_file(&file_with(&[])).unwrap().bytes().is_empty());
}

#[test]
fn of_a_step() {
    let mut session = Session::new();
    let open = session.sentinel().unwrap();
    for _ in 0..17 {
        session.add(open).unwrap();
    }
    let error = session.run().unwrap_err();
    assert_eq!(error.refusal(), Refusal::TooManyAdds);
    assert_eq!(error.run().steps().len(), 16);
    assert!(error.to_string().starts_with("at step 17, question 10"));

    for step in [Session::restore, Session::forget] {
        let mut session = Session::new();
        step(&mut session, 0).unwrap();
        let error = session.run().unwrap_err();
        assert_eq!(error.refusal(), Refusal::UnknownRestore);

        let mut session = Session::new();
        session.add(NodePtr::NIL).unwrap();
        step(&mut session, 0).unwrap();
        step(&mut session, 0).unwrap();
        let error = session.run().unwrap_err();
        assert_eq!(error.refusal(), Refusal::UnknownRestore);
        assert_eq!(error.run().steps().len(), 2);
        assert!(error.run().bytes().is_empty());
    }

    let mut session = Session::new();
    session.add(NodePtr::NIL).unwrap();
    session.add(NodePtr::NIL).unwrap();
    let error = session.run().unwrap_err();
    assert_eq!(error.refusal(), Refusal::AlreadyFinished);
    assert!(error.run().is_finished());
    assert_eq!(error.into_run().into_bytes(), [0x80]);
}

/// Sixteen adds, by taking, and a quote; a quote after a finish.
#[test]
fn of_a_quote() {
    let mut session = Session::new();
    let open = session.sentinel().unwrap();
    for _ in 0..16 {
        session.quote(open).unwrap();
        session.take().unwrap();
    }
    session.quote(open).unwrap();
    session.take().unwrap();
    let error = session.run().unwrap_err();
    assert_eq!(error.refusal(), Refusal::TooManyAdds);
    assert_eq!(error.run().steps().len(), 32);
    assert!(error.to_string().starts_with("at step 33, question 10"));

    let mut session = Session::new();
    session.quote(NodePtr::NIL).unwrap();
    session.take().unwrap();
    session.quote(NodePtr::NIL).unwrap();
    let error = session.run().unwrap_err();
    assert_eq!(error.refusal(), Refusal::AlreadyFinished);
    assert!(error.run().is_finished());
    assert_eq!(error.into_run().into_bytes(), [0x80]);
}

/// At first, twice, and after each step that drops the quote.
#[test]
fn of_a_taking() {
    let between: [fn(&mut Session); 5] = [
        |s| s.take().unwrap(),
        |s| s.add(NodePtr::NIL).unwrap(),
        |s| s.restore(0).unwrap(),
        |s| s.forget(0).unwrap(),
        |s| {
            s.quote(NodePtr::NIL).unwrap();
            s.take().unwrap();
        },
    ];
    let mut session = Session::new();
    session.take().unwrap();
    let error = session.run().unwrap_err();
    assert_eq!(error.refusal(), Refusal::NoQuote);
    assert!(error.run().steps().is_empty() && error.run().bytes().is_empty());
    assert!(error.to_string().starts_with("at step 1, question 17"));
    for step in between {
        let mut session = Session::new();
        let open = session.sentinel().unwrap();
        session.add(open).unwrap();
        session.quote(NodePtr::NIL).unwrap();
        step(&mut session);
        let before = session.run().unwrap();
        session.take().unwrap();
        let error = session.run().unwrap_err();
        assert_eq!(error.refusal(), Refusal::NoQuote);
        assert_eq!(error.into_run(), before);
    }
}

/// A spine of 1,000 pairs with the open place at its end, added five times.
#[test]
fn of_open_pairs() {
    let mut session = Session::new();
    let mut spine = session.sentinel().unwrap();
    for _ in 0..1_000 {
        spine = session.pair(spine, NodePtr::NIL).unwrap();
    }
    for _ in 0..5 {
        session.add(spine).unwrap();
    }
    let error = session.run().unwrap_err();
    assert_eq!(error.refusal(), Refusal::TooDeep);
    assert_eq!(error.run().steps().len(), 4);
    // a pair has no prefix
    let counts = |step: &Step| (step.references, step.prefix_bytes);
    assert!(error.run().steps().iter().all(|s| counts(s) == (0, 0)));
    assert_eq!(error.run().bytes(), [0xff; 4_096]);

    // a quote leaves none of its items
    let mut quoted = Session::new();
    let mut spine = quoted.sentinel().unwrap();
    for _ in 0..1_000 {
        spine = quoted.pair(spine, NodePtr::NIL).unwrap();
    }
    for _ in 0..5 {
        quoted.quote(spine).unwrap();
        quoted.take().unwrap();
    }
    let error = quoted.run().unwrap_err();
    assert_eq!(error.refusal(), Refusal::TooDeep);
    assert_eq!(error.run().steps().len(), 8);
    assert_eq!(error.run().bytes(), [0xff; 4_000]);
}

#[test]
fn of_the_output() {
    let mut session = Session::new();
    let atom = session.atom(&[b'x'; 32_768]).unwrap();
    let open = session.sentinel();
    assert_eq!(open, Err(BuildError::TooManyAtomBytes));
    let tree = session.pair(atom, atom).unwrap();
    session.add(tree).unwrap();
    let whole = session.run().unwrap();
    let size = whole.bytes().len();
    for (length, refused) in [(size, false), (size - 1, true), (0, true), (100_000, false)] {
        let run = Writer::with_output_length(length).run(&session);
        assert_eq!(run.is_err(), refused, "{length}");
        match run {
            Ok(run) => assert_eq!(run, whole),
            Err(error) => assert_eq!(error.refusal(), Refusal::OutputFull),
        }
    }
}

/// A quote and an add that don't fit; the add leaves its whole items.
#[test]
fn of_the_output_at_a_quote() {
    let mut session = Session::new();
    let open = session.sentinel().unwrap();
    let foobar = session.atom(b"foobar").unwrap();
    let tree = session.pair(foobar, open).unwrap();
    let pair = session.pair(foobar, foobar).unwrap();
    session.add(tree).unwrap();
    session.quote(foobar).unwrap();
    session.quote(pair).unwrap();
    for (length, steps) in [(9, 1), (10, 2), (12, 2), (13, 3)] {
        let run = Writer::with_output_length(length).run(&session);
        let refused = run.as_ref().err().map(|error| error.refusal());
        assert_eq!(refused.is_some(), steps < 3, "{length}");
        assert!(refused.is_none_or(|refusal| refusal == Refusal::OutputFull));
        let run = run.unwrap_or_else(|error| error.into_run());
        assert_eq!(run.steps().len(), steps, "{length}");
        let counts = |step: &Step| (step.references, step.prefix_bytes);
        let counts: Vec<_> = run.steps().iter().map(counts).collect();
        assert_eq!(counts, [(0, 1), (1, 1), (2, 1)][..steps], "{length}");
        assert_eq!(run.bytes(), b"\xff\x86foobar", "{length}");
        assert!(!run.is_finished());
    }

    // the quote would finish with 10 bytes, and the add that is refused leaves as many
    let mut session = Session::new();
    let open = session.sentinel().unwrap();
    let foobar = session.atom(b"foobar").unwrap();
    let tree = session.pair(foobar, open).unwrap();
    let one = NodePtr::small(1).unwrap();
    let list = session.list(&[one, foobar], open).unwrap();
    session.add(tree).unwrap();
    session.quote(foobar).unwrap();
    session.add(list).unwrap();
    let error = Writer::with_output_length(10).run(&session).unwrap_err();
    assert_eq!(error.refusal(), Refusal::OutputFull);
    assert_eq!(error.run().bytes(), b"\xff\x86foobar\xff\x01");
    assert!(!error.run().is_finished());
}

#[test]
fn of_a_tree() {
    assert_eq!(read(&[0; 65_536]).unwrap_err(), Refusal::LongInput);
    assert_eq!(read(&[0; 65_535]).unwrap_err(), Refusal::BrokenBytes);
    assert_eq!(read(&[0x81, 0]).unwrap_err(), Refusal::LongPrefix);
    assert_eq!(read(&[0xfe, 2]).unwrap_err(), Refusal::PathIntoAtom);
}

/// The limits are exact: what the builder takes is not refused by the questions 2 to 8, and one more is turned down.
#[test]
fn of_the_builder() {
    let mut session = Session::new();
    let mut node = NodePtr::NIL;
    let bytes = |i: u32| [&[0xff; 28][..], &i.to_be_bytes()].concat();
    for i in 0..1_024 {
        let atom = session.atom(&bytes(i)).unwrap();
        node = session.pair(atom, node).unwrap();
        match i % 4 {
            0 | 2 => session.add(node).unwrap(),
            1 => session.restore(0).unwrap(),
            _ => session.forget(0).unwrap(),
        }
    }
    assert_eq!(session.atom(&[0xff]), Err(BuildError::TooManyAtoms));
    assert_eq!(session.sentinel(), Err(BuildError::TooManyAtoms));
    let pair = session.pair(NodePtr::NIL, NodePtr::NIL);
    assert_eq!(pair, Err(BuildError::TooManyPairs));
    assert_eq!(session.add(node), Err(BuildError::TooManySteps));
    assert_eq!(session.restore(0), Err(BuildError::TooManySteps));
    assert_eq!(session.forget(0), Err(BuildError::TooManySteps));
    assert_eq!(session.quote(node), Err(BuildError::TooManySteps));
    assert_eq!(session.take(), Err(BuildError::TooManySteps));
    assert_eq!(session.atom(&[5]).unwrap().index(), 5);
    assert_eq!(session.atom(&bytes(7)).unwrap().index(), 7);
    assert_eq!(session.to_file().len(), 47_117);
    assert_eq!(session.run().unwrap().steps().len(), 1_024);

    let mut other = Session::new();
    assert_eq!(other.add(node), Err(BuildError::UnknownNode(node)));
    assert_eq!(other.quote(node), Err(BuildError::UnknownNode(node)));
    assert_eq!(
        other.pair(NodePtr::NIL, node),
        Err(BuildError::UnknownNode(node))
    );
    assert_eq!(other.set_sentinel(node), Err(BuildError::UnknownNode(node)));
    other.atom(&[0xff; 32_768]).unwrap();
    assert_eq!(other.atom(&[0xfe]), Err(BuildError::TooManyAtomBytes));
    for error in [
        BuildError::TooManyAtoms,
        BuildError::TooManyAtomBytes,
        BuildError::TooManyPairs,
        BuildError::TooManySteps,
        BuildError::UnknownNode(node),
    ] {
        assert!(error.to_string().contains("session"));
    }
}

/// The slices of the session call, full of rubbish.
fn session_slices(lengths: [usize; 4]) -> (Vec<u32>, Vec<u32>, Vec<Checkpoint>, Vec<u8>) {
    let record = Checkpoint {
        opens: RUBBISH,
        depth: RUBBISH,
        size: RUBBISH,
        references: RUBBISH,
        prefix_bytes: RUBBISH,
        sentinel: RUBBISH,
    };
    (
        vec![RUBBISH; lengths[0]],
        vec![RUBBISH; lengths[1]],
        vec![record; lengths[2]],
        vec![0xa5; lengths[3]],
    )
}

type SessionCall = fn(&[u8], &mut [u32], &mut [u32], &mut [Checkpoint], &mut [u8]) -> SessionAnswer;

#[test]
fn of_short_slices_in_a_session() {
    short_slices(call::session);
    short_slices(call::session_documented);
}

fn short_slices(session: SessionCall) {
    let file = file_with(&[1, 8, 0, 0, 0]);
    let least = [
        call::WORK_LENGTH,
        call::WORDS_LENGTH,
        call::CHECKPOINTS_LENGTH,
        1,
    ];
    // the last: a word for each step is too few
    for (slice, short) in [(0, 1), (1, 1), (2, 1), (1, 2_048)] {
        let mut lengths = least;
        lengths[slice] -= short;
        let before = session_slices(lengths);
        let mut s = before.clone();
        let answer = session(&file, &mut s.0, &mut s.1, &mut s.2, &mut s.3);
        let refused = SessionAnswer {
            number: Refusal::ShortSlice.number(),
            ..SessionAnswer::default()
        };
        assert_eq!(answer, refused);
        assert!(s == before, "1 touches no slice");
    }
    let mut s = session_slices(least);
    let answer = session(&file, &mut s.0, &mut s.1, &mut s.2, &mut s.3);
    let taken = SessionAnswer {
        number: 0,
        steps: 1,
        size: 1,
    };
    assert_eq!(answer, taken);
    assert!(s.0.iter().all(|word| *word == 0));
    assert!(s.1[..3] == [3, 0, 1] && s.1[3..].iter().all(|word| *word == 0));
    assert!(s.2.iter().all(|record| *record == Checkpoint::default()));
    assert_eq!(s.3, [0x80]);
}

#[test]
fn of_short_slices_in_a_reading() {
    let least = [
        call::WORK_LENGTH,
        call::PAIRS_LENGTH,
        call::ATOMS_LENGTH,
        call::BYTES_LENGTH,
    ];
    let slices = |n: [usize; 4]| {
        (
            vec![RUBBISH; n[0]],
            vec![RUBBISH; n[1]],
            vec![RUBBISH; n[2]],
            vec![0xa5u8; n[3]],
        )
    };
    let input = b"\xff\x86foobar\xfe\x02";
    for short in 0..4 {
        let mut lengths = least;
        lengths[short] -= 1;
        let before = slices(lengths);
        let mut s = before.clone();
        let answer = call::read(input, &mut s.0, &mut s.1, &mut s.2, &mut s.3);
        let refused = ReadAnswer {
            number: Refusal::ShortSlice.number(),
            ..ReadAnswer::default()
        };
        assert_eq!(answer, refused);
        assert!(s == before, "1 touches no slice");
    }
    let mut s = slices(least);
    let answer = call::read(input, &mut s.0, &mut s.1, &mut s.2, &mut s.3);
    assert_eq!((answer.number, answer.root), (0, 0));
    assert_eq!((answer.pairs, answer.atoms, answer.bytes), (1, 1, 6));
    assert!(s.0.iter().all(|word| *word == 0));
    assert_eq!(s.1[..3], [1 << 26, 1 << 26, 0]);
    assert_eq!(s.2[..4], [0, 6, 0, 0]);
    assert_eq!(&s.3[..7], b"foobar\x00");
    let answer = call::read(b"\xff", &mut s.0, &mut s.1, &mut s.2, &mut s.3);
    assert_eq!((answer.number, answer.root, answer.pairs), (14, 0, 0));
    assert!(s.1.iter().chain(&s.2).all(|word| *word == 0));
    assert!(s.3.iter().all(|byte| *byte == 0));
}
