//! The two counts of each step: what the port's call takes with them, and the Rust's
//! `Serializer` without them, and with them made from its bytes.

use crate::session_benchmark::{Case, EMPTY, Port, checked, steps};
use crate::times::measure;
use clvm_rs::Allocator;
use clvm_rs::serde::{Serializer, UndoState};
use nikvoldra::Writer;
use oracle::counts::{self, Counts};
use oracle::node::from_word;
use oracle::session::{self, MAX_OUTPUT, SessionFile, Step};
use std::hint::black_box;

/// The steps by the unchanged `Serializer`, and the counts of each: those of the bytes that an
/// add wrote are counted, and a step back has those of before the add.
fn counted_steps(s: &SessionFile, a: &Allocator) -> Vec<Counts> {
    let mut serializer = Serializer::new(s.sentinel.map(from_word));
    let mut undo: Vec<(UndoState, Counts)> = vec![];
    let mut now = Counts::default();
    let mut all = vec![];
    for step in &s.steps {
        match *step {
            Step::Add(h) => {
                let size = serializer.size() as usize;
                undo.push((serializer.add(a, from_word(h)).expect("an add").1, now));
                let more = counts::of(&serializer.get_ref()[size..]);
                now.references += more.references;
                now.prefix_bytes += more.prefix_bytes;
            }
            Step::Restore(k) => {
                undo.truncate(usize::from(k) + 1);
                let (state, before) = undo.pop().expect("a state");
                serializer.restore(state);
                now = before;
            }
            Step::Forget(_) | Step::Quote(_) | Step::Take => {
                panic!("the Rust has no 03, 04 and 05")
            }
        }
        all.push(now);
    }
    all
}

/// The call and the Rust on a case: a line of the table.
pub fn row(c: &Case, port: &mut Port) -> String {
    let now = checked(c.name, &c.file, port);
    let parsed = session::parse(&c.file).expect("a good file");
    let store = parsed.allocator();
    let counts = session::run(&c.file, MAX_OUTPUT, true).counts;
    assert_eq!(counted_steps(&parsed, &store), counts, "{}", c.name);
    let run = Writer::new().run_file(&c.file).expect("a good session");
    let both = |s: &nikvoldra::Step| Counts {
        references: s.references as u32,
        prefix_bytes: s.prefix_bytes as u32,
    };
    let told: Vec<Counts> = run.steps().iter().map(both).collect();
    assert_eq!(told, counts, "{}", c.name);
    let last = counts.last().expect("a step");
    let mut once = |file: &[u8]| {
        port(file, MAX_OUTPUT);
    };
    let mut alone = || {
        black_box(steps(black_box(&parsed), &store));
    };
    let mut counted = || {
        black_box(counted_steps(black_box(&parsed), &store));
    };
    let r = measure(&mut once, &c.file, EMPTY, &mut [&mut alone, &mut counted]);
    let [alone, counted] = r.rust[..] else {
        unreachable!()
    };
    format!(
        "| {} | {} | {} | {} | {} | {:.1} | {alone:.1} | {:.2} | {counted:.1} | {:.2} |",
        c.name,
        parsed.steps.len(),
        now.size,
        last.references,
        last.prefix_bytes,
        r.difference,
        r.difference / alone,
        r.difference / counted
    )
}

pub fn heading() {
    println!(
        "\nThe first sessions again, with the references and prefix bytes that the last step shows. Medians in microseconds, less the"
    );
    println!(
        "zeroing. The Rust has no counts: *`Serializer`* is its steps alone; *with counts* has those of each step too, made from the"
    );
    println!("bytes that an add wrote, and kept for the steps back.\n");
    println!(
        "| session | steps | output | references | prefix bytes | session | `Serializer` | session : `Serializer` | with counts | session : with counts |"
    );
    println!("|---|--:|--:|--:|--:|--:|--:|--:|--:|--:|");
}
