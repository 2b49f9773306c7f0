//! The sessions and readings that were recorded from the Rust, which the programs `session` and `read` also run on.

use nikvoldra::{call, Run, SessionError, Writer};
use std::fmt::Write;
use std::path::{Path, PathBuf};

fn hex(bytes: &[u8]) -> String {
    bytes.iter().fold(String::new(), |mut text, byte| {
        write!(text, "{byte:02x}").unwrap();
        text
    })
}

/// The files that a program is run on, after an option if there is one and up to the next, and what it must write.
fn recorded(program: &str, option: Option<&str>) -> (Vec<PathBuf>, String) {
    let folder = Path::new(env!("CARGO_MANIFEST_DIR"))
        .join("../../crates")
        .join(program);
    let names = std::fs::read_to_string(folder.join("args")).unwrap();
    let mut names = names.lines();
    if let Some(option) = option {
        names.find(|name| *name == option).expect(option);
    }
    let files = names
        .take_while(|name| !name.starts_with("--"))
        .map(|name| folder.join("data").join(name))
        .collect();
    (
        files,
        std::fs::read_to_string(folder.join("stdout")).unwrap(),
    )
}

#[test]
fn sessions() {
    let (files, expected) = recorded("session", None);
    assert!(files.len() > 50);
    let mut writer = Writer::new();
    let mut text = String::new();
    for file in files {
        let result = writer.run_file(&std::fs::read(file).unwrap());
        let refusal = result.as_ref().err().map(|error| error.refusal());
        let run = result.unwrap_or_else(|error| error.into_run());
        for (i, step) in run.steps().iter().enumerate() {
            writeln!(text, "{} {} {}", i + 1, step.size, u8::from(step.finished)).unwrap();
        }
        writeln!(text, "{}", hex(run.bytes())).unwrap();
        if let Some(refusal) = refusal {
            writeln!(text, "refused {}", refusal.number()).unwrap();
        }
    }
    // the same sessions item by item come after that
    assert!(expected.starts_with(&text));
}

/// A line for each item of an output.
fn items(mut rest: &[u8]) -> String {
    let mut text = String::new();
    while let Some((first, after)) = rest.split_first() {
        if *first == 0xff {
            text += "pair\n";
            rest = after;
            continue;
        }
        let (name, atom) = match first {
            0xfe => ("reference", after),
            _ => ("atom", rest),
        };
        let byte = |i: usize| usize::from(atom[i]);
        let (width, size) = match atom[0] {
            0..0x80 => (0, 1),
            0x80..0xc0 => (1, byte(0) - 0x80),
            0xc0..0xe0 => (2, (byte(0) - 0xc0) << 8 | byte(1)),
            _ => (3, (byte(0) - 0xe0) << 16 | byte(1) << 8 | byte(2)),
        };
        let bytes = hex(&atom[width..width + size]);
        text += format!("{name} {bytes}").trim_end();
        text += "\n";
        rest = &atom[width + size..];
    }
    text
}

/// What `session` writes of a file with `--items` and `--counts`.
fn with_counts(result: Result<Run, SessionError>) -> String {
    let refusal = result.as_ref().err().map(|error| error.refusal());
    let run = result.unwrap_or_else(|error| error.into_run());
    let mut text = String::new();
    for (i, step) in run.steps().iter().enumerate() {
        let finished = u8::from(step.finished);
        let counts = format!("{} {}", step.references, step.prefix_bytes);
        writeln!(text, "{} {} {finished} {counts}", i + 1, step.size).unwrap();
    }
    text += &items(run.bytes());
    if let Some(refusal) = refusal {
        writeln!(text, "refused {}", refusal.number()).unwrap();
    }
    text
}

/// The sessions with their counts stand last, after them those by the documentation, both item by item.
#[test]
fn counts_of_sessions() {
    let (counted, expected) = recorded("session", Some("--counts"));
    let (documented, _) = recorded("session", Some("--documented"));
    assert!(counted.len() > 20 && documented.len() > 20);
    let mut writer = Writer::new();
    let mut text = String::new();
    for file in counted {
        text += &with_counts(writer.run_file(&std::fs::read(file).unwrap()));
    }
    for file in &documented {
        text += &with_counts(writer.run_file_documented(&std::fs::read(file).unwrap()));
    }
    assert!(expected.ends_with(&text));
    // the Rust's measure makes a difference
    let differs = |file: &&PathBuf| {
        let file = std::fs::read(file).unwrap();
        Writer::new().run_file(&file) != Writer::new().run_file_documented(&file)
    };
    assert_eq!(documented.iter().filter(differs).count(), 4);
}

#[test]
fn readings() {
    let (files, expected) = recorded("read", None);
    assert!(files.len() > 50);
    let mut work = vec![0; call::WORK_LENGTH];
    let mut pairs = vec![0; call::PAIRS_LENGTH];
    let mut atoms = vec![0; call::ATOMS_LENGTH];
    let mut bytes = vec![0; call::BYTES_LENGTH];
    let mut text = String::new();
    for file in files {
        let input = std::fs::read(file).unwrap();
        let a = call::read(&input, &mut work, &mut pairs, &mut atoms, &mut bytes);
        let counts = [a.pairs, a.atoms, a.bytes, a.ghosts].map(|n| n.to_string());
        writeln!(text, "{} {:08x} {}", a.number, a.root, counts.join(" ")).unwrap();
        for pair in pairs[..2 * a.pairs as usize].chunks(2) {
            writeln!(text, "pair {:08x} {:08x}", pair[0], pair[1]).unwrap();
        }
        for atom in atoms[..2 * a.atoms as usize].chunks(2) {
            writeln!(text, "atom {} {}", atom[0], atom[1]).unwrap();
        }
        writeln!(text, "{}", hex(&bytes[..a.bytes as usize])).unwrap();
    }
    assert!(text == expected);
}
