//! A block of three bundles that share a subtree, written and read back:
//!
//! ```text
//! cargo run --offline --example share
//! ```

use nikvoldra::{Atom, Node, NodePtr, Reader, Session, Tree, Writer};
use std::error::Error;

/// Bundles of spends, each hung at the open place that the one before leaves; the last one leaves none.
fn block() -> Result<Session, Box<dyn Error>> {
    let mut session = Session::new();
    let open = session.sentinel()?;
    let puzzle = session.atom(b"one puzzle")?;
    for (i, amount) in [5, 100, 70_000].into_iter().enumerate() {
        let amount = NodePtr::small(amount).ok_or("the amount is no small atom")?;
        let spend = session.list(&[puzzle, amount], NodePtr::NIL)?;
        let end = if i < 2 { open } else { NodePtr::NIL };
        let bundle = session.pair(spend, end)?;
        session.add(bundle)?;
    }
    Ok(session)
}

/// The tree as text. It goes down by recursion, which is fine for a tree as small as this one.
fn show(tree: Tree) -> String {
    match tree.node() {
        Node::Pair(left, right) => format!("({} . {})", show(left), show(right)),
        Node::Atom(Atom::Small(atom)) if atom.value() == 0 => "nil".to_string(),
        Node::Atom(Atom::Small(atom)) => atom.value().to_string(),
        Node::Atom(Atom::Listed(bytes)) => format!("\"{}\"", bytes.escape_ascii()),
    }
}

fn main() -> Result<(), Box<dyn Error>> {
    let session = block()?;
    let run = Writer::new().run(&session)?;
    for (i, step) in run.steps().iter().enumerate() {
        let end = if step.finished { ", finished" } else { "" };
        let counts = format!(
            "references: {}, prefix bytes: {}",
            step.references, step.prefix_bytes
        );
        println!("add {}: {} bytes{end} ({counts})", i + 1, step.size);
    }
    println!("bytes: {}", run.bytes().escape_ascii());
    let store = Reader::new().read(run.bytes())?;
    println!("read back: {}", show(store.tree()));
    Ok(())
}
