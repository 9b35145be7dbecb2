//! The C header and the declarations of src/declared.rs repeat the signatures of the archive's source.

use std::fs;
use std::path::Path;

fn read(path: &str) -> String {
    let file = Path::new(env!("CARGO_MANIFEST_DIR")).join(path);
    fs::read_to_string(&file).unwrap_or_else(|e| panic!("{}: {e}", file.display()))
}

/// The text between `from` and the next `to`, and what follows.
fn cut<'a>(text: &'a str, from: &str, to: &str) -> Option<(&'a str, &'a str)> {
    text.split_once(from)?.1.split_once(to)
}

/// One space for each gap, and none beside a bracket or before a comma.
fn plain(text: &str) -> String {
    let mut s = text.split_whitespace().collect::<Vec<_>>().join(" ");
    for (from, to) in [("( ", "("), (", )", ")"), (",)", ")"), (" )", ")")] {
        s = s.replace(from, to);
    }
    s
}

/// Name and parameters of every exported function of the source.
fn exported() -> Vec<(String, Vec<(String, String)>)> {
    let source = read("../../crates/raxdov/src/lib.rt");
    let mut rest = source.as_str();
    let mut all = Vec::new();
    while let Some((signature, after)) = cut(rest, "pub extern \"C\" fn ", " -> u32") {
        let (name, parameters) = signature.split_once('(').expect("parameters");
        let parameters = plain(parameters.trim_end_matches(')'));
        let pairs = parameters
            .trim_end_matches(',')
            .split(", ")
            .filter(|p| !p.is_empty())
            .map(|p| p.split_once(": ").expect("a name and a type"))
            // `result` is a word of contracts, so the source says `res` where header and declarations say `result`
            .map(|(name, kind)| (if name == "res" { "result" } else { name }, kind))
            .map(|(name, kind)| (name.to_string(), kind.to_string()));
        all.push((name.to_string(), pairs.collect()));
        rest = after;
    }
    all
}

fn c_type(kind: &str) -> &str {
    match kind {
        "f32" => "float",
        "i8" => "int8_t",
        "u8" => "uint8_t",
        "u16" => "uint16_t",
        "u32" => "uint32_t",
        "u64" => "uint64_t",
        "usize" => "size_t",
        _ => panic!("the type {kind}"),
    }
}

/// What a parameter of the source passes: a slice, an array of fixed size, one number behind a reference, or a number.
fn in_c(name: &str, kind: &str) -> String {
    let slice = |kind: &str| kind.strip_suffix(']').map(str::to_string);
    if let Some(kind) = kind.strip_prefix("&[").and_then(slice) {
        return match kind.split_once("; ") {
            Some((kind, size)) => format!("const {} {name}[{size}]", c_type(kind)),
            None => format!("const {} *{name}, size_t {name}_len", c_type(&kind)),
        };
    }
    if let Some(kind) = kind.strip_prefix("&mut [").and_then(slice) {
        return match kind.split_once("; ") {
            Some((kind, size)) => format!("{} {name}[{size}]", c_type(kind)),
            None => format!("{} *{name}, size_t {name}_len", c_type(&kind)),
        };
    }
    match kind.strip_prefix("&mut ") {
        Some(kind) => format!("{} *{name}", c_type(kind)),
        None => format!("{} {name}", c_type(kind)),
    }
}

fn in_rust(name: &str, kind: &str) -> String {
    let slice = |kind: &str| kind.strip_suffix(']').map(str::to_string);
    if let Some(kind) = kind.strip_prefix("&[").and_then(slice) {
        return match kind.split_once("; ") {
            Some(_) => format!("{name}: *const [{kind}]"),
            None => format!("{name}: *const {kind}, {name}_len: usize"),
        };
    }
    if let Some(kind) = kind.strip_prefix("&mut [").and_then(slice) {
        return match kind.split_once("; ") {
            Some(_) => format!("{name}: *mut [{kind}]"),
            None => format!("{name}: *mut {kind}, {name}_len: usize"),
        };
    }
    match kind.strip_prefix("&mut ") {
        Some(kind) => format!("{name}: *mut {kind}"),
        None => format!("{name}: {kind}"),
    }
}

fn list(parameters: &[(String, String)], one: fn(&str, &str) -> String) -> String {
    let all: Vec<String> = parameters.iter().map(|(n, k)| one(n, k)).collect();
    all.join(", ")
}

#[test]
fn the_source_exports_seventeen() {
    let names: Vec<String> = exported().into_iter().map(|(name, _)| name).collect();
    let marked = read("../../crates/raxdov/src/lib.rt")
        .matches("#[unsafe(no_mangle)]")
        .count();
    assert_eq!((names.len(), marked), (17, 17), "{names:?}");
}

#[test]
fn the_header_repeats_them() {
    let header = read("../c/raxdov.h");
    let mut rest = header.as_str();
    let mut declared = Vec::new();
    while let Some((line, after)) = cut(rest, "\nuint32_t ", ";") {
        declared.push(plain(line));
        // the newline before the next declaration stays
        rest = after;
    }
    let wanted: Vec<String> = exported()
        .iter()
        .map(|(name, parameters)| match list(parameters, in_c) {
            none if none.is_empty() => format!("{name}(void)"),
            some => format!("{name}({some})"),
        })
        .collect();
    assert_eq!(declared, wanted);
}

#[test]
fn the_declarations_repeat_them() {
    let archive = read("src/declared.rs");
    let (block, _) = cut(&archive, "unsafe extern \"C\" {", "\n}").expect("the block");
    let mut rest = block;
    let mut declared = Vec::new();
    while let Some((line, after)) = cut(rest, "fn ", " -> u32;") {
        declared.push(plain(line));
        rest = after;
    }
    let wanted: Vec<String> = exported()
        .iter()
        .map(|(name, parameters)| format!("{name}({})", list(parameters, in_rust)))
        .collect();
    assert_eq!(declared, wanted);
}
