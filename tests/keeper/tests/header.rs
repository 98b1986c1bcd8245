//! The C header, the wrapper's declarations and the Rattle source declare the same functions.

use keeper::{block, Call, Refusal, SheetRefusal, RECORD_LENGTH};
use std::collections::BTreeMap;
use std::fs;
use std::path::Path;

/// The parameters' names and types and the result's type, in Rust's spelling.
type Signature = (Vec<(String, String)>, String);
type Functions = BTreeMap<String, Signature>;

fn text(path: &str) -> String {
    let path = Path::new(env!("CARGO_MANIFEST_DIR")).join(path);
    fs::read_to_string(&path).unwrap_or_else(|error| panic!("{}: {error}", path.display()))
}

fn pair(name: &str, of: &str) -> (String, String) {
    (name.to_string(), of.to_string())
}

/// The text between a function's parentheses, split at the commas.
fn parameters(text: &str) -> Vec<&str> {
    let parts = text.split(',').map(str::trim);
    parts.filter(|part| !part.is_empty()).collect()
}

// ---- the header ----

fn of_c(name: &str) -> &str {
    match name {
        "uint8_t" => "u8",
        "uint32_t" => "u32",
        "uint64_t" => "u64",
        "size_t" => "usize",
        "bool" => "bool",
        other => panic!("the header has a type {other}"),
    }
}

fn header_parameter(text: &str) -> (String, String) {
    let (of, name) = text.rsplit_once(' ').expect("a type and a name");
    match (name.strip_prefix('*'), of.strip_prefix("const ")) {
        (None, None) => pair(name, of_c(of)),
        (Some(name), None) => pair(name, &format!("*mut {}", of_c(of))),
        (Some(name), Some(of)) => pair(name, &format!("*const {}", of_c(of))),
        (None, Some(_)) => panic!("a constant parameter: {text}"),
    }
}

fn header() -> Functions {
    let text = text("../../include/keeper.h");
    let lines = text.lines().filter(|line| line.ends_with(");"));
    let lines = lines.filter_map(|line| line.strip_prefix("KEEPER_HEED "));
    let function = |line: &str| {
        let (start, rest) = line.split_once('(').expect("a parenthesis");
        let (result, name) = start.rsplit_once(' ').expect("a result and a name");
        let list = parameters(rest.trim_end_matches(");"));
        let list = list.into_iter().map(header_parameter).collect();
        (name.to_string(), (list, of_c(result).to_string()))
    };
    lines.map(function).collect()
}

// ---- the wrapper ----

/// The functions of the block `extern "C"` of a Rust file.
fn declared(path: &str) -> Functions {
    let text = text(path);
    let (_, block) = text.split_once("extern \"C\" {").expect("a block");
    let (block, _) = block.split_once('}').expect("the block's end");
    let function = |part: &str| {
        let (name, rest) = part.split_once('(').expect("a parenthesis");
        let (list, result) = rest.split_once(')').expect("the list's end");
        let result = result.trim().strip_prefix("-> ").expect("a result");
        let split = |part: &str| {
            let (name, of) = part.split_once(": ").expect("a name and a type");
            pair(name, of)
        };
        let list = parameters(list).into_iter().map(split).collect();
        (name.to_string(), (list, result.to_string()))
    };
    let parts = block
        .split(';')
        .map(|part| part.trim().trim_start_matches("pub "));
    parts
        .filter_map(|part| part.strip_prefix("fn "))
        .map(function)
        .collect()
}

// ---- the Rattle source ----

/// A Rattle parameter as C has it: a slice is a pointer and a length.
fn lowered(text: &str) -> Vec<(String, String)> {
    let (name, of) = text.split_once(": ").expect("a name and a type");
    let length = match name {
        "block" => "words",
        "text" => "text_length",
        "tape" => "tape_length",
        _ => "length",
    };
    let slice = |pointer: &str, of: &str| {
        let element = of.trim_end_matches(']');
        vec![
            pair(name, &format!("{pointer} {element}")),
            pair(length, "usize"),
        ]
    };
    match (of.strip_prefix("&mut ["), of.strip_prefix("&[")) {
        (Some(of), _) => slice("*mut", of),
        (_, Some(of)) => slice("*const", of),
        _ => vec![pair(name, of)],
    }
}

fn source() -> Functions {
    let folder = Path::new(env!("CARGO_MANIFEST_DIR")).join("../../crates/keeper/src");
    let files = fs::read_dir(folder).expect("the crate's source");
    let text: String = files
        .map(|file| fs::read_to_string(file.expect("a file").path()).expect("its text"))
        .collect();
    let function = |part: &str| {
        let (name, rest) = part.split_once('(').expect("a parenthesis");
        let (list, rest) = rest.split_once(") -> ").expect("a result");
        let list = parameters(list).into_iter().flat_map(lowered).collect();
        let result = rest.split_whitespace().next().expect("a result");
        (name.to_string(), (list, result.to_string()))
    };
    let parts = text.split("pub extern \"C\" fn ").skip(1);
    parts.map(function).collect()
}

// ---- the tests ----

#[test]
fn the_header_declares_what_the_wrapper_does() {
    assert_eq!(header(), declared("../../bindings/rust/src/block.rs"));
}

#[test]
fn the_header_declares_what_the_benchmark_calls() {
    let (header, called) = (header(), declared("../../bench/src/exports.rs"));
    assert!(!called.is_empty());
    for (name, signature) in called {
        assert_eq!(header.get(&name), Some(&signature), "{name}");
    }
}

#[test]
fn the_header_declares_what_the_source_exports() {
    let (header, source) = (header(), source());
    assert_eq!(header.len(), 22);
    assert_eq!(header, source);
}

#[test]
fn the_header_has_the_wrappers_constants() {
    let text = text("../../include/keeper.h");
    let constants = [
        ("KEEPER_WORDS", block::WORDS as u64),
        ("KEEPER_RECORD", RECORD_LENGTH as u64),
        ("KEEPER_LONGEST_IMAGE", block::LONGEST_IMAGE as u64),
        ("KEEPER_NO_STATE", block::NO_STATE.into()),
        ("KEEPER_NOT_SAVED", block::NOT_SAVED.into()),
    ];
    let defined = |line: String| assert!(text.lines().any(|found| found == line), "{line}");
    for (name, value) in constants {
        defined(format!("#define {name} {value}"));
    }
    let wide = block::NOT_IMPORTED;
    defined(format!("#define KEEPER_NOT_IMPORTED UINT64_C({wide})"));
}

#[test]
fn the_version_is_one() {
    let version = |path: &str, line: &str| {
        let found = text(path).lines().filter(|found| *found == line).count();
        assert_eq!(found, 1, "{path} has no line {line}");
    };
    let own = env!("CARGO_PKG_VERSION");
    version(
        "../../include/keeper.h",
        &format!("#define KEEPER_VERSION \"{own}\""),
    );
    version("../../Makefile", &format!("VERSION = {own}"));
    version("../../CHANGELOG.md", &format!("## {own}"));
    for manifest in ["../../bindings/rust/Cargo.toml", "../../cli/Cargo.toml"] {
        version(manifest, &format!("version = \"{own}\""));
    }
}

/// The names and numbers of a C enum of the header.
fn named(name: &str) -> Vec<(String, u8)> {
    let text = text("../../include/keeper.h");
    let (_, rest) = text
        .split_once(&format!("enum {name} {{"))
        .expect("an enum");
    let (list, _) = rest.split_once("};").expect("its end");
    let lines = list
        .lines()
        .filter_map(|line| line.trim().split_once(" = "));
    let value = |value: &str| value.trim_end_matches(',').parse().expect("a number");
    lines
        .map(|(name, number)| (name.to_string(), value(number)))
        .collect()
}

/// A variant's name as C spells it.
fn of_variant(variant: &dyn std::fmt::Debug) -> String {
    let shown = format!("{variant:?}");
    let name = shown.split(' ').next().expect("a name");
    let spelled = |c: char| match c.is_uppercase() {
        true => format!("_{c}"),
        false => c.to_uppercase().to_string(),
    };
    "KEEPER".to_string() + &name.chars().map(spelled).collect::<String>()
}

#[test]
fn the_header_names_the_wrappers_refusals() {
    let header = named("keeper_refusal");
    assert_eq!(header.len(), 25);
    let importing = [SheetRefusal::BadSheet { row: 1 }, SheetRefusal::ShortTape];
    for (name, number) in header {
        let own = importing.iter().find(|refusal| refusal.number() == number);
        let spelled = match own {
            Some(refusal) => of_variant(refusal),
            None => of_variant(&Refusal::of(number, 0)),
        };
        assert_eq!(spelled, name);
    }
}

#[test]
fn the_header_names_the_wrappers_kinds() {
    let header = named("keeper_kind");
    assert_eq!(header.len(), 15);
    for (name, kind) in header {
        let mut record = [0; RECORD_LENGTH];
        record[0] = kind;
        let call = Call::of_record(&record).expect("a call");
        assert_eq!(of_variant(&call), name);
    }
}
