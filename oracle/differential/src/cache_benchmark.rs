//! `update` and `find_path` by themselves: what the port's call takes for them, and
//! the Rust's functions, on sessions of one add.

use crate::session_benchmark::{Case, EMPTY, Port};
use crate::times::{Row, measure};
use clvm_rs::serde::TreeCache;
use clvm_rs::{Allocator, NodePtr, SExp};
use oracle::node::from_word;
use oracle::session::{self, MAX_OUTPUT, SessionFile, Step};
use std::hint::black_box;

/// The sentinel and the tree of a file's one add.
fn added(s: &SessionFile) -> (Option<NodePtr>, NodePtr) {
    let [Step::Add(h)] = s.steps[..] else {
        panic!("a session of one add")
    };
    (s.sentinel.map(from_word), from_word(h))
}

/// A cache after `update`.
fn updated(a: &Allocator, sentinel: Option<NodePtr>, node: NodePtr) -> TreeCache {
    let mut cache = TreeCache::new(sentinel);
    cache.update(a, node);
    cache
}

enum Op {
    Write(NodePtr),
    Cons(NodePtr),
}

/// The loop of `Serializer::add` without its output, each search made so many times.
fn search(a: &Allocator, cache: &mut TreeCache, node: NodePtr, times: usize) {
    let mut ops = vec![Op::Write(node)];
    while let Some(op) = ops.pop() {
        let node = match op {
            Op::Cons(node) => {
                cache.pop2_and_cons(node);
                continue;
            }
            Op::Write(node) => node,
        };
        let mut found = None;
        for _ in 0..times {
            found = black_box(cache.find_path(black_box(node)));
        }
        match (found, a.sexp(node)) {
            (None, SExp::Pair(left, right)) => {
                ops.extend([Op::Cons(node), Op::Write(right), Op::Write(left)]);
            }
            _ => cache.push(node),
        }
    }
}

/// The port on a file, with an output of that length, and the Rust's ways.
fn times(c: &Case, port: &mut Port, output: usize, rust: &mut [&mut dyn FnMut()]) -> Row {
    let mut once = |file: &[u8]| {
        port(file, output);
    };
    measure(&mut once, &c.file, EMPTY, rust)
}

pub fn row(c: &Case, port: &mut Port) -> String {
    let parsed = session::parse(&c.file).expect("a good file");
    let store = parsed.allocator();
    let (sentinel, node) = added(&parsed);
    assert_eq!(port(&c.file, 0).number, 13, "{}", c.name);
    let mut update = || {
        black_box(updated(&store, sentinel, node));
    };
    let mut once = || {
        let mut cache = updated(&store, sentinel, node);
        search(&store, &mut cache, node, 1);
        black_box(cache);
    };
    let mut twice = || {
        let mut cache = updated(&store, sentinel, node);
        search(&store, &mut cache, node, 2);
        black_box(cache);
    };
    let first = times(c, port, 0, &mut [&mut update]);
    let all = times(c, port, MAX_OUTPUT, &mut [&mut once, &mut twice]);
    let (port_update, port_writing) = (first.difference, all.difference - first.difference);
    let (rust_update, rust_searches) = (first.rust[0], all.rust[1] - all.rust[0]);
    format!(
        "| {} | {} | {port_update:.1} | {rust_update:.1} | {:.2} | {port_writing:.1} | {rust_searches:.1} | {:.2} |",
        c.name,
        parsed.pairs.len(),
        port_update / rust_update,
        port_writing / rust_searches
    )
}

pub fn heading() {
    println!(
        "\nSessions of one add, medians in microseconds. *To the first item* is the session call with no byte of output, less the"
    );
    println!(
        "zeroing: the file's check, its tables and `update`. *Writing* is what the call with its whole output takes more: all"
    );
    println!(
        "searches, the stack and the bytes. The Rust's `update` has its `TreeCache` made and dropped; its searches are the loop of"
    );
    println!(
        "`Serializer::add` with each `find_path` called twice, less that loop with each called once.\n"
    );
    println!(
        "| session | pairs | to the first item | Rust's `update` | ratio | writing | Rust's `find_path` | ratio |"
    );
    println!("|---|--:|--:|--:|--:|--:|--:|--:|");
}
