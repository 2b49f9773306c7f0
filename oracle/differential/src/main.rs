//! `read` and `session` compare, `benchmark` and `session-benchmark` measure.

#![forbid(unsafe_code)]

use differential::{benchmark, compare, inputs, one_atom, session_benchmark, session_compare};
use nikvoldra::call;

const USAGE: &str = "\
usage: differential read COUNT SEED [MOST]     COUNT generated inputs, and at most MOST of each other set
       differential read-three FIRST LAST      all inputs of 3 bytes whose first byte lies there
       differential session COUNT SEED [MOST]  COUNT generated session files, and at most MOST of each other set
       differential benchmark                  the reading call, a table in Markdown
       differential session-benchmark          the session call, tables in Markdown
       differential session-files FOLDER       the session files of the first tables, as 1.session and so on";

fn number(text: &str) -> Result<u64, String> {
    text.parse().map_err(|_| format!("not a number: {text}"))
}

fn most(rest: &[&str]) -> Result<usize, String> {
    match rest {
        [] => Ok(usize::MAX),
        [most] => Ok(number(most)? as usize),
        _ => Err(USAGE.to_string()),
    }
}

fn run(args: &[&str]) -> Result<(), String> {
    match args {
        ["read", count, seed, rest @ ..] => {
            let (count, seed, most) = (number(count)? as usize, number(seed)?, most(rest)?);
            compare::run(call::read, count, seed, most, |line| {
                println!("read: {line}")
            })?;
        }
        ["read-three", first, last] => {
            let three = inputs::three(number(first)? as u8, number(last)? as u8);
            compare::run_sets(call::read, vec![three], 1, usize::MAX, |line| {
                println!("read: {line}")
            })?;
        }
        ["session", count, seed, rest @ ..] => {
            let (count, seed, most) = (number(count)? as usize, number(seed)?, most(rest)?);
            let calls = session_compare::Calls {
                counted: call::session,
                documented: call::session_documented,
            };
            session_compare::run(calls, count, seed, most, |line| println!("session: {line}"))?;
        }
        ["benchmark"] => {
            benchmark::run();
            one_atom::run();
        }
        ["session-benchmark"] => session_benchmark::run(),
        ["session-files", folder] => session_benchmark::write(folder).map_err(|e| e.to_string())?,
        _ => return Err(USAGE.to_string()),
    }
    Ok(())
}

fn main() {
    let args: Vec<String> = std::env::args().skip(1).collect();
    let args: Vec<&str> = args.iter().map(String::as_str).collect();
    if let Err(text) = run(&args) {
        println!("{text}");
        std::process::exit(1);
    }
}
