//! The oracle's commands.

use oracle::writer::Measure;
use oracle::{corners, generate, hex, leaves, plain, reading, selfcheck, session};
use std::io::Write;

const USAGE: &str = "\
usage: oracle COMMAND ..
  session [--counts] [--documented] FILE [OUTPUT_LENGTH]
                                 the session on a session file; with each step's references and prefix bytes;
                                 with found paths measured by the documentation
  items [--counts] [--documented] FILE
                                 the same, with a line for each item of the output
  read FILE                      the reading of an encoded tree
  leaves FILE                    answers to a file of leaf cases
  fill FILE                      the plain filling of a session file, in full
  premises FILE                  whether demand 3's premises hold for it
  corners                        01's corner cases, each compared with 01
  selfcheck N SEED               N generated sessions and trees, checked
  exhaustive PART                every small session and tree, or each PARTth
  wrong                          wrong ways of a 03, of a 04 and a 05, of the counts and of the measures, each noticed by the
                                 kinds made for it
  gen-session SEED KIND          writes a session file
  gen-tree SEED KIND             writes an encoded tree
  gen-leaves SEED                writes a file of leaf cases
  bytes HEX                      writes the bytes of a hexadecimal literal
  kinds                          lists the kinds of sessions and trees
";

/// The most bytes that `fill` prints.
const MAX_IN_FULL: u64 = 10_000_000;

fn file(args: &[String], i: usize) -> Result<Vec<u8>, String> {
    let name = args.get(i).ok_or(USAGE)?;
    std::fs::read(name).map_err(|e| format!("{name}: {e}"))
}

fn number<T: std::str::FromStr>(args: &[String], i: usize) -> Result<T, String> {
    let text = args.get(i).ok_or(USAGE)?;
    text.parse().map_err(|_| format!("not a number: {text}"))
}

fn parsed(args: &[String]) -> Result<session::SessionFile, String> {
    session::parse(&file(args, 1)?).map_err(|n| format!("refused {n}"))
}

fn of_kind(args: &[String], make: fn(u64, &str) -> Option<Vec<u8>>) -> Result<Vec<u8>, String> {
    let kind = args.get(2).ok_or(USAGE)?;
    make(number(args, 1)?, kind).ok_or(format!("no such kind: {kind}"))
}

/// Takes an option out of the words, and says whether it was there.
fn option(args: &mut Vec<String>, name: &str) -> bool {
    let count = args.len();
    args.retain(|word| word != name);
    args.len() < count
}

/// The commands `session` and `items`.
fn run_session(mut args: Vec<String>) -> Result<String, String> {
    let counts = option(&mut args, "--counts");
    let measure = match option(&mut args, "--documented") {
        false => Measure::Counted,
        true => Measure::Documented,
    };
    let bytes = file(&args, 1)?;
    if args[0] == "items" {
        return Ok(session::print_items(measure, &bytes, counts));
    }
    let length = if args.len() > 2 {
        number(&args, 2)?
    } else {
        session::MAX_OUTPUT
    };
    let answer = session::run_by(measure, &bytes, length, true);
    Ok(session::print(&answer, counts))
}

fn command(args: &[String]) -> Result<Vec<u8>, String> {
    let name = args.first().map_or("", String::as_str);
    Ok(match name {
        "session" | "items" => run_session(args.to_vec())?.into_bytes(),
        "read" => reading::print(&reading::read(&file(args, 1)?)).into_bytes(),
        "leaves" => leaves::print(&file(args, 1)?)?.into_bytes(),
        "fill" => match plain::fill(&parsed(args)?) {
            None => "restore\n".to_string(),
            Some(f) if !f.whole => format!("open after {} adds\n", f.adds.len()),
            Some(f) => match f.forest.in_full(f.root, MAX_IN_FULL) {
                None => "whole\ntoo large\n".to_string(),
                Some(bytes) => format!("whole\n{}\n", hex::encode(&bytes)),
            },
        }
        .into_bytes(),
        "premises" => match plain::premises(&parsed(args)?) {
            Ok(()) => "yes\n".to_string(),
            Err(reason) => format!("no: {reason}\n"),
        }
        .into_bytes(),
        "corners" => {
            let (text, all_ok) = corners::print(&corners::run_all());
            if !all_ok {
                print!("{text}");
                std::process::exit(1);
            }
            text.into_bytes()
        }
        "selfcheck" => {
            selfcheck::print(&selfcheck::run(number(args, 1)?, number(args, 2)?)?).into_bytes()
        }
        "exhaustive" => {
            selfcheck::print(&selfcheck::run_exhaustive(number(args, 1)?)?).into_bytes()
        }
        "wrong" => selfcheck::run_wrong()?.into_bytes(),
        "gen-session" => of_kind(args, generate::session)?,
        "gen-tree" => of_kind(args, generate::tree)?,
        "gen-leaves" => generate::leaf_cases(number(args, 1)?),
        "bytes" => hex::bytes(&args[1..].concat()),
        "kinds" => {
            let mut s = String::new();
            for (name, _, _) in generate::sessions::KINDS {
                s += &format!("session {name}\n");
            }
            for (name, _, _) in generate::trees::KINDS {
                s += &format!("tree {name}\n");
            }
            s.into_bytes()
        }
        _ => return Err(USAGE.to_string()),
    })
}

fn main() {
    let args: Vec<String> = std::env::args().skip(1).collect();
    match command(&args) {
        Ok(bytes) => {
            // a reader that has gone away is no error of ours
            let _ = std::io::stdout().write_all(&bytes);
        }
        Err(text) => {
            eprintln!("{}", text.trim_end());
            std::process::exit(2);
        }
    }
}
