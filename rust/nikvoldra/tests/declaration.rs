//! The declarations of the calls, of their answers and of a checkpoint record, in `src/call.rs` and in
//! `include/nikvoldra.h`, are those of the Rattle source: names, order, types; and the sizes and places of the fields.
//! Nothing else compares them: the prover sees only the source, and the linker only the names of the calls.

use nikvoldra::call::{Checkpoint, ReadAnswer, SessionAnswer};
use nikvoldra::{call, Refusal};
use std::mem::{align_of, offset_of, size_of};
use std::path::{Path, PathBuf};

fn place(name: &str) -> PathBuf {
    Path::new(env!("CARGO_MANIFEST_DIR"))
        .join("../..")
        .join(name)
}

/// A file without its comments, each run of white space one space.
fn text(name: &str) -> String {
    let path = place(name);
    let whole =
        std::fs::read_to_string(&path).unwrap_or_else(|e| panic!("{}: {e}", path.display()));
    let lines: Vec<&str> = whole
        .lines()
        .map(|l| l.split("//").next().unwrap())
        .collect();
    let mut rest = &lines.join(" ")[..];
    let mut plain = String::new();
    while let Some((before, after)) = rest.split_once("/*") {
        plain += before;
        rest = after.split_once("*/").expect("a comment is closed").1;
    }
    plain += rest;
    plain.split_whitespace().collect::<Vec<_>>().join(" ")
}

/// What stands between two marks, which follow each other once.
fn between<'a>(text: &'a str, start: &str, end: &str) -> &'a str {
    let parts: Vec<&str> = text.split(start).collect();
    assert_eq!(parts.len(), 2, "`{start}` occurs once in: {text}");
    parts[1]
        .split_once(end)
        .unwrap_or_else(|| panic!("`{end}` after `{start}`"))
        .0
}

/// The parts of a list, without the mark after the last one.
fn parts(list: &str, mark: char) -> Vec<String> {
    let parts = list.split(mark).map(|part| part.trim().to_string());
    parts.filter(|part| !part.is_empty()).collect()
}

/// A field or a parameter: its name, and its type.
type Named = (String, String);

/// `name: type`, as Rattle and Rust have it.
fn named(part: &str) -> Named {
    let (name, kind) = part
        .split_once(':')
        .unwrap_or_else(|| panic!("a name and a type: {part}"));
    (name.trim().to_string(), kind.trim().to_string())
}

/// The fields of a struct for C, in Rattle or in Rust.
fn fields(text: &str, name: &str) -> Vec<Named> {
    let (before, _) = text
        .split_once(&format!("pub struct {name} {{"))
        .expect(name);
    let attributes = before.rsplit(['}', ';']).next().unwrap();
    assert!(
        attributes.contains("#[repr(C)]"),
        "{name} is laid out as in C"
    );
    let body = between(text, &format!("pub struct {name} {{"), "}");
    let field = |part: String| named(part.strip_prefix("pub ").expect("a public field"));
    parts(body, ',').into_iter().map(field).collect()
}

/// The fields of a struct in the header.
fn c_fields(header: &str, name: &str) -> Vec<Named> {
    let body = between(header, &format!("struct {name} {{"), "}");
    let field = |part: String| {
        let (kind, name) = part.rsplit_once(' ').expect("a type and a name");
        (name.to_string(), kind.to_string())
    };
    parts(body, ';').into_iter().map(field).collect()
}

/// A lent slice: its name, whether it may be written, and its elements' type.
#[derive(Debug, PartialEq)]
struct Lent {
    name: String,
    written: bool,
    element: String,
}

/// A call: the slices that it is lent, and the type of its answer.
#[derive(Debug, PartialEq)]
struct Call {
    lent: Vec<Lent>,
    answer: String,
}

/// The exported function of the Rattle source.
fn rattle_call(text: &str, name: &str) -> Call {
    let start = format!("#[unsafe(no_mangle)] pub extern \"C\" fn {name}(");
    let slice = |part: String| {
        let (name, kind) = named(&part);
        let (written, slice) = match kind.strip_prefix("&mut ") {
            Some(slice) => (true, slice),
            None => (false, kind.strip_prefix('&').expect("a lent slice")),
        };
        let element = slice.strip_prefix('[').and_then(|s| s.strip_suffix(']'));
        let element = element.expect("a slice").to_string();
        Lent {
            name,
            written,
            element,
        }
    };
    let answer = between(text, &start, "{")
        .split_once(") -> ")
        .expect("an answer")
        .1;
    Call {
        lent: parts(between(text, &start, ") ->"), ',')
            .into_iter()
            .map(slice)
            .collect(),
        answer: answer.split(' ').next().unwrap().to_string(),
    }
}

/// Pairs of a pointer and its length, each a name and a type.
fn slices(list: Vec<Named>, length: &str, element: impl Fn(&str) -> (bool, String)) -> Vec<Lent> {
    let pair = |two: &[Named]| {
        let [(name, pointer), (length_name, length_type)] = two else {
            panic!("a length after each pointer")
        };
        assert_eq!(*length_name, format!("{name}_length"));
        assert_eq!(length_type, length);
        let (written, element) = element(pointer);
        Lent {
            name: name.clone(),
            written,
            element,
        }
    };
    list.chunks(2).map(pair).collect()
}

/// The function that `src/call.rs` declares in its block.
fn rust_call(text: &str, name: &str) -> Call {
    let block = between(text, "extern \"C\" {", "}");
    let start = format!("fn {name}(");
    let list = parts(between(block, &start, ") ->"), ',')
        .iter()
        .map(|p| named(p))
        .collect();
    let element = |pointer: &str| match pointer.strip_prefix("*mut ") {
        Some(element) => (true, element.to_string()),
        None => (
            false,
            pointer
                .strip_prefix("*const ")
                .expect("a pointer")
                .to_string(),
        ),
    };
    Call {
        lent: slices(list, "usize", element),
        answer: between(block, &start, ";")
            .split_once(") -> ")
            .unwrap()
            .1
            .to_string(),
    }
}

/// The type's name in Rattle and Rust of one in the header.
fn of_c(kind: &str) -> String {
    let name = match kind {
        "uint8_t" => "u8",
        "uint32_t" => "u32",
        "struct nikvoldra_checkpoint" => "Checkpoint",
        "struct nikvoldra_session_answer" => "SessionAnswer",
        "struct nikvoldra_read_answer" => "ReadAnswer",
        _ => panic!("no such type: {kind}"),
    };
    name.to_string()
}

/// The function that the header declares.
fn c_call(header: &str, name: &str) -> Call {
    let start = format!(" {name}(");
    let parameter = |part: String| {
        let at = part.rfind([' ', '*']).expect("a type and a name") + 1;
        (part[at..].to_string(), part[..at].trim().to_string())
    };
    let list = parts(between(header, &start, ");"), ',')
        .into_iter()
        .map(parameter)
        .collect();
    let element = |pointer: &str| {
        let pointed = pointer.strip_suffix('*').expect("a pointer").trim();
        match pointed.strip_prefix("const ") {
            Some(element) => (false, of_c(element)),
            None => (true, of_c(pointed)),
        }
    };
    let before = header.split_once(&start).unwrap().0;
    Call {
        lent: slices(list, "size_t", element),
        answer: of_c(before.rsplit([';', '}']).next().unwrap().trim()),
    }
}

/// The struct has the same fields in all three, in order.
fn same_fields(source: &str, name: &str, c_name: &str) {
    let declared = fields(&text(source), name);
    assert_eq!(fields(&text("rust/nikvoldra/src/call.rs"), name), declared);
    let in_c = c_fields(&text("include/nikvoldra.h"), c_name);
    let in_c: Vec<Named> = in_c.into_iter().map(|(n, kind)| (n, of_c(&kind))).collect();
    assert_eq!(in_c, declared);
}

const CALLS: &str = "crates/nikvoldra/src/lib.rt";
const SESSION_ANSWER: &str = "crates/session_answer/src/lib.rt";
const READ_ANSWER: &str = "crates/read_answer/src/lib.rt";
const CHECKPOINTS: &str = "crates/session_state/src/checkpoints.rt";

/// The call's declaration in the Rattle source. Its checkpoint records are structs, or rows of six words, which have the same
/// layout.
fn declared(name: &str) -> Call {
    let mut call = rattle_call(&text(CALLS), name);
    for lent in &mut call.lent {
        if lent.element == "Checkpoint" {
            same_fields(CHECKPOINTS, "Checkpoint", "nikvoldra_checkpoint");
        } else if lent.element == "[u32; 6]" {
            lent.element = "Checkpoint".to_string();
        }
    }
    call
}

#[test]
fn calls() {
    for (name, names) in [
        (
            "nikvoldra_session",
            ["file", "work", "words", "checkpoints", "output"],
        ),
        (
            "nikvoldra_session_documented",
            ["file", "work", "words", "checkpoints", "output"],
        ),
        (
            "nikvoldra_read",
            ["input", "work", "pairs", "atoms", "bytes"],
        ),
    ] {
        let declared = declared(name);
        let found: Vec<&str> = declared.lent.iter().map(|l| &l.name[..]).collect();
        assert_eq!(found, names);
        assert_eq!(
            rust_call(&text("rust/nikvoldra/src/call.rs"), name),
            declared
        );
        assert_eq!(c_call(&text("include/nikvoldra.h"), name), declared);
    }
}

#[test]
fn answers() {
    same_fields(SESSION_ANSWER, "SessionAnswer", "nikvoldra_session_answer");
    same_fields(READ_ANSWER, "ReadAnswer", "nikvoldra_read_answer");
}

#[test]
fn checkpoint_records() {
    let six = [
        "opens",
        "depth",
        "size",
        "references",
        "prefix_bytes",
        "sentinel",
    ]
    .map(|name| (name.to_string(), "u32".to_string()));
    assert_eq!(
        fields(&text("rust/nikvoldra/src/call.rs"), "Checkpoint"),
        six
    );
    let in_c = six.map(|(name, _)| (name, "uint32_t".to_string()));
    assert_eq!(
        c_fields(&text("include/nikvoldra.h"), "nikvoldra_checkpoint"),
        in_c
    );
    if place(CHECKPOINTS).exists() {
        same_fields(CHECKPOINTS, "Checkpoint", "nikvoldra_checkpoint");
    }
}

/// As the header asserts them of C's structs.
#[test]
fn sizes_and_places() {
    assert_eq!(size_of::<usize>(), 8);
    assert_eq!((size_of::<Checkpoint>(), align_of::<Checkpoint>()), (24, 4));
    assert_eq!(size_of::<Checkpoint>(), size_of::<[u32; 6]>());
    assert_eq!(offset_of!(Checkpoint, opens), 0);
    assert_eq!(offset_of!(Checkpoint, depth), 4);
    assert_eq!(offset_of!(Checkpoint, size), 8);
    assert_eq!(offset_of!(Checkpoint, references), 12);
    assert_eq!(offset_of!(Checkpoint, prefix_bytes), 16);
    assert_eq!(offset_of!(Checkpoint, sentinel), 20);
    assert_eq!(
        (size_of::<SessionAnswer>(), align_of::<SessionAnswer>()),
        (12, 4)
    );
    assert_eq!(offset_of!(SessionAnswer, number), 0);
    assert_eq!(offset_of!(SessionAnswer, steps), 4);
    assert_eq!(offset_of!(SessionAnswer, size), 8);
    assert_eq!((size_of::<ReadAnswer>(), align_of::<ReadAnswer>()), (24, 4));
    assert_eq!(offset_of!(ReadAnswer, number), 0);
    assert_eq!(offset_of!(ReadAnswer, root), 4);
    assert_eq!(offset_of!(ReadAnswer, pairs), 8);
    assert_eq!(offset_of!(ReadAnswer, atoms), 12);
    assert_eq!(offset_of!(ReadAnswer, bytes), 16);
    assert_eq!(offset_of!(ReadAnswer, ghosts), 20);
}

/// The header's lengths are this crate's, which tests/refusals.rs tries.
#[test]
fn lengths() {
    let header = std::fs::read_to_string(place("include/nikvoldra.h")).unwrap();
    for (name, value) in [
        ("WORK_LENGTH", call::WORK_LENGTH),
        ("WORDS_LENGTH", call::WORDS_LENGTH),
        ("CHECKPOINTS_LENGTH", call::CHECKPOINTS_LENGTH),
        ("PAIRS_LENGTH", call::PAIRS_LENGTH),
        ("ATOMS_LENGTH", call::ATOMS_LENGTH),
        ("BYTES_LENGTH", call::BYTES_LENGTH),
        ("INPUT_MOST", call::INPUT_MOST),
        ("OUTPUT_MOST", call::OUTPUT_MOST),
    ] {
        let line = format!("#define NIKVOLDRA_{name} {value}");
        assert!(header.lines().any(|found| found == line), "{line}");
    }
}

/// The header's enum has this crate's names and numbers, and its comments have the questions.
#[test]
fn numbers() {
    let header = std::fs::read_to_string(place("include/nikvoldra.h")).unwrap();
    let body = between(&header, "enum nikvoldra_number {", "};");
    let body = body.split_whitespace().collect::<Vec<_>>().join(" ");
    let mut expected = "/* every question got yes */ NIKVOLDRA_DONE = 0".to_string();
    for refusal in Refusal::ALL {
        let mut name = String::new();
        for letter in format!("{refusal:?}").chars() {
            if letter.is_uppercase() {
                name.push('_');
            }
            name.push(letter.to_ascii_uppercase());
        }
        let (question, number) = (refusal.question(), refusal.number());
        expected += &format!(", /* {question} */ NIKVOLDRA{name} = {number}");
    }
    assert_eq!(body, expected);
}

/// The programs say the same words on standard error, a line for each question.
#[test]
fn words_of_the_programs() {
    let source = std::fs::read_to_string(place("crates/text/src/questions.rt")).unwrap();
    // a line that ends in a backslash goes on
    let said = between(&source, "b\"", "\",").replace("\\\n", "");
    let expected = Refusal::ALL.map(|refusal| format!("{refusal}\n")).concat();
    assert_eq!(said, expected);
}
