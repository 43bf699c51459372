//! The symbols of the library as crates/luphwezane_c exports them, as src/raw/symbols.rs declares them and as the C header does: the
//! same names, parameters and types in the same order, and so the fields of what is passed by value, and the refusals' numbers.
//! Each has the parameters and the clauses of the function of crates/luphwezane that it calls. All are read as text; the header is read
//! as the C preprocessor writes it (the compiler that CC names, or cc).

use std::collections::BTreeMap;
use std::path::Path;
use std::process::Command;

/// Names and types in order, as Rust writes them: a function's parameters and last its result, or a struct's fields.
type Parts = Vec<(String, String)>;

fn root() -> &'static Path {
    Path::new(env!("CARGO_MANIFEST_DIR")).parent().expect("the repository has a folder rust")
}

/// A file of Rattle or Rust without its comments.
fn code(path: &str) -> String {
    let text = std::fs::read_to_string(root().join(path)).unwrap_or_else(|error| panic!("{path}: {error}"));
    text.lines().map(|line| line.split("//").next().unwrap_or("").to_string() + "\n").collect()
}

/// The header without comments and macros.
fn header() -> String {
    let compiler = std::env::var("CC").unwrap_or("cc".to_string());
    let output = Command::new(&compiler).args(["-E", "-P", "-x", "c"]).arg(root().join("include/luphwezane.h")).output();
    let output = output.unwrap_or_else(|error| panic!("{compiler}: {error}"));
    assert!(output.status.success(), "{compiler}: {}", String::from_utf8_lossy(&output.stderr));
    String::from_utf8(output.stdout).expect("the header is text")
}

/// What stands behind `start` and before the next `end`, each time that `start` stands in the text.
fn each<'a>(text: &'a str, start: &'a str, end: &'a str) -> impl Iterator<Item = &'a str> {
    text.split(start).skip(1).map(move |rest| rest.split_once(end).unwrap_or_else(|| panic!("{start} without {end}")).0)
}

fn list(text: &str) -> impl Iterator<Item = &str> {
    text.split(',').map(str::trim).filter(|part| !part.is_empty())
}

/// `leftDepths`, `LEFT_DEPTHS` and `LeftDepths` are `left_depths`.
fn snake(name: &str) -> String {
    let mut snake = String::new();
    for (at, letter) in name.char_indices() {
        let after_small = name[..at].ends_with(|before: char| before.is_ascii_lowercase());
        if letter.is_ascii_uppercase() && after_small {
            snake.push('_');
        }
        snake.push(letter.to_ascii_lowercase());
    }
    snake
}

/// `name: type`, with the words that may stand in front left out.
fn rust_part(part: &str) -> (String, String) {
    let (name, kind) = part.split_once(':').unwrap_or_else(|| panic!("{part} has no type"));
    (snake(name.trim().trim_start_matches("pub ")), kind.trim().to_string())
}

/// `const uint16_t *name`, `uint16_t name[256]` or `luph_block name`.
fn c_part(part: &str) -> (String, String) {
    let (kind, name) = part.rsplit_once([' ', '*']).unwrap_or_else(|| panic!("{part} has no type"));
    let pointer = if !part.contains('*') {
        ""
    } else if kind.starts_with("const ") {
        "*const "
    } else {
        "*mut "
    };
    let kind = pointer.to_string() + c_type(kind.trim_start_matches("const ").trim_end_matches([' ', '*']));
    match name.split_once('[') {
        Some((name, length)) => (name.to_string(), format!("[{kind}; {}]", length.trim_end_matches(']'))),
        None => (name.to_string(), kind),
    }
}

fn c_type(name: &str) -> &str {
    match name {
        "uint8_t" => "u8",
        "uint16_t" => "u16",
        "int16_t" => "i16",
        "uint32_t" => "u32",
        "uint64_t" => "u64",
        "int64_t" => "i64",
        "size_t" => "usize",
        "luph_settings" => "Settings",
        "luph_block" => "Block",
        "luph_private_shape" => "Shape",
        _ => panic!("no symbol is known to have the type {name}"),
    }
}

/// The parameters that a parameter of Rattle is to C: a slice is a pointer and a length, what is borrowed a pointer.
fn passed((name, kind): (String, String)) -> Parts {
    let Some(lent) = kind.strip_prefix('&') else { return vec![(name, kind)] };
    let lent = match lent.strip_prefix('\'') {
        Some(lifetime) => lifetime.split_once(' ').expect("a type follows the lifetime").1,
        None => lent,
    };
    let (pointer, lent) = match lent.strip_prefix("mut ") {
        Some(lent) => ("*mut", lent),
        None => ("*const", lent),
    };
    let Some(entries) = lent.strip_prefix('[') else { return vec![(name, format!("{pointer} {lent}"))] };
    let entries = entries.trim_end_matches(']');
    match entries.split_once("; ") {
        Some((entry, _)) => vec![(name, format!("{pointer} {entry}"))],
        None => vec![(name.clone(), format!("{pointer} {entries}")), (name + "_len", "usize".to_string())],
    }
}

fn with_result(mut parameters: Parts, result: &str) -> Parts {
    parameters.push(("(the result)".to_string(), result.trim().to_string()));
    parameters
}

const EXPORT: &str = "#[unsafe(no_mangle)]\npub extern \"C\" fn ";

/// What crates/luphwezane_c exports.
fn exported() -> BTreeMap<String, Parts> {
    let code = code("crates/luphwezane_c/src/lib.rt");
    let exported: BTreeMap<String, Parts> = each(&code, EXPORT, "\n{")
        .map(|function| {
            let (name, rest) = function.split_once('(').expect("a function has parameters");
            let (parameters, rest) = rest.split_once(')').expect("a list of parameters ends");
            let result = rest.trim_start().strip_prefix("->").expect("an entry has a result").lines().next().expect("it has a type");
            let parameters = list(parameters).map(rust_part).flat_map(passed).collect();
            (name.split('<').next().unwrap_or(name).to_string(), with_result(parameters, result))
        })
        .collect();
    assert_eq!(exported.len(), code.matches("no_mangle").count());
    assert!(!exported.is_empty());
    exported
}

/// What stands between `start` and the body of each function, by name: parameters, result and clauses, apart from how they are laid out.
fn promised(code: &str, start: &str) -> BTreeMap<String, String> {
    let functions = each(code, start, "\n{").map(|function| {
        let (name, rest) = function.split_once(['<', '(']).expect("a function has parameters");
        assert!(rest.contains("ensures"), "{name} has no clause");
        (name.to_string(), function.split_whitespace().collect::<Vec<_>>().join(" "))
    });
    let functions: BTreeMap<String, String> = functions.collect();
    assert_eq!(functions.len(), code.matches(" fn ").count());
    functions
}

/// What the clauses cite is the same too: both crates import it under the same names from the same places.
#[test]
fn exports_promise_what_they_call_promises() {
    let (library, exports) = (code("crates/luphwezane/src/lib.rt"), code("crates/luphwezane_c/src/lib.rt"));
    let functions = promised(&library, "\npub fn ");
    assert_eq!(promised(&exports, EXPORT), functions);
    let uses = |code: &str| -> Vec<String> {
        code.lines().filter(|line| line.starts_with("ghost use ") || line.starts_with("use ")).map(str::to_string).collect()
    };
    assert_eq!(uses(&exports), uses(&library));
    for (name, body) in each(&exports, EXPORT, "\n}").map(|function| function.split_once("\n{").expect("a function has a body")) {
        let name = name.split(['<', '(']).next().unwrap_or(name);
        assert!(body.trim_start().starts_with(&format!("luphwezane::{name}(")), "{name} calls another function");
    }
    assert!(!library.contains("no_mangle") && !library.contains("extern"), "the library has symbols of its own");
}

#[test]
fn symbols_in_rust() {
    let code = code("rust/src/raw/symbols.rs");
    let declared: BTreeMap<String, Parts> = each(&code, "fn ", ";")
        .map(|function| {
            let (name, rest) = function.split_once('(').expect("a function has parameters");
            let (parameters, result) = rest.split_once(") ->").expect("an entry has a result");
            (name.to_string(), with_result(list(parameters).map(rust_part).collect(), result))
        })
        .collect();
    assert_eq!(declared.len(), code.matches("fn ").count());
    compare(&declared, &exported());
}

#[test]
fn symbols_in_c() {
    let header = header();
    let declared: BTreeMap<String, Parts> = header
        .split_inclusive([';', '{', '}'])
        .filter_map(|declaration| declaration.trim().strip_suffix(");"))
        .filter_map(|declaration| declaration.split_once(" luph_raw_"))
        .filter(|(result, _)| !result.contains([' ', '=']))
        .map(|(result, rest)| {
            let (name, parameters) = rest.split_once('(').expect("a function has parameters");
            let spaced = |part: &str| part.split_whitespace().collect::<Vec<_>>().join(" ");
            let parameters = list(parameters).map(|part| c_part(&spaced(part))).collect();
            ("luph_raw_".to_string() + name, with_result(parameters, c_type(result)))
        })
        .collect();
    compare(&declared, &exported());
}

/// Says what differs first, by name.
fn compare(declared: &BTreeMap<String, Parts>, exported: &BTreeMap<String, Parts>) {
    assert_eq!(declared.keys().collect::<Vec<_>>(), exported.keys().collect::<Vec<_>>());
    for (name, parts) in exported {
        for (at, part) in parts.iter().enumerate() {
            assert_eq!(declared[name].get(at), Some(part), "{name}, number {at}");
        }
        assert_eq!(declared[name].len(), parts.len(), "{name}");
    }
}

/// The fields of a struct of Rattle or Rust that has the layout of C.
fn rust_fields(code: &str, name: &str) -> Parts {
    let start = format!("pub struct {name} {{");
    let (before, rest) = code.split_once(&start).unwrap_or_else(|| panic!("there is no struct {name}"));
    let attributes: Vec<&str> = before.trim_end().lines().rev().take_while(|line| line.starts_with("#[")).collect();
    assert!(attributes.contains(&"#[repr(C)]"), "{name} has no layout of C");
    list(rest.split_once('}').expect("a struct ends").0).map(rust_part).collect()
}

fn c_fields(header: &str, name: &str) -> Parts {
    let start = format!("typedef struct {name} {{");
    let fields = each(header, &start, "}").next().unwrap_or_else(|| panic!("there is no struct {name}"));
    let fields = fields.split(';').map(str::trim).filter(|field| !field.is_empty());
    fields
        .flat_map(|field| {
            let (kind, names) = field.split_once(' ').expect("a field has a type");
            list(names).map(move |name| c_part(&format!("{kind} {name}"))).collect::<Parts>()
        })
        .collect()
}

/// The fields with those of the structs and pairs inside them in their place. The bytes of `Tear` have names of their own in C and Rust.
fn flat(fields: Parts) -> Parts {
    fields
        .into_iter()
        .flat_map(|(name, kind)| {
            let inside = match &kind[..] {
                "Tear" => vec![("widest_gap".to_string(), "u8"), ("torn_distance".to_string(), "u8")],
                "Point" => vec![(format!("{name}_column"), "u32"), (format!("{name}_row"), "u32")],
                "[u8; 2]" => vec![(format!("{name}0"), "u8"), (format!("{name}1"), "u8")],
                _ => return vec![(name, kind)],
            };
            inside.into_iter().map(|(name, kind)| (name, kind.to_string())).collect()
        })
        .collect()
}

#[test]
fn structs_passed_by_value() {
    let (model, shape, header) = (code("crates/model/src/lib.rt"), code("crates/shape/src/lib.rt"), header());
    let (types, candidate, symbols) = (code("rust/src/types.rs"), code("rust/src/candidate.rs"), code("rust/src/raw/symbols.rs"));
    let of_bytes = |names: [&str; 2]| names.map(|name| (name.to_string(), "u8".to_string())).to_vec();
    let of_words = |names: [&str; 2]| names.map(|name| (name.to_string(), "u32".to_string())).to_vec();
    assert_eq!(rust_fields(&model, "Tear"), of_bytes(["gap", "distance"]));
    assert_eq!(rust_fields(&candidate, "Point"), of_words(["column", "row"]));
    for (name, rattle, rust) in [("Settings", &model, &types), ("Block", &model, &types), ("Shape", &shape, &symbols)] {
        let fields = flat(rust_fields(rattle, name));
        assert!(!fields.is_empty());
        assert_eq!(flat(rust_fields(rust, name)), fields, "{name} in Rust");
        let in_c = if name == "Shape" { "luph_private_shape".to_string() } else { format!("luph_{}", snake(name)) };
        assert_eq!(flat(c_fields(&header, &in_c)), fields, "{name} in C");
    }
}

#[test]
fn numbers_of_refusals() {
    let (model, refusal, header) = (code("crates/model/src/lib.rt"), code("rust/src/refusal.rs"), header());
    let function = each(&model, "impl From<Refusal> for u32 {", "\n}").next().expect("model gives a refusal its number");
    let numbers: BTreeMap<String, String> =
        each(function, "Refusal::", ",").map(|arm| arm.split_once(" => ").expect("an arm has a number")).map(named).collect();
    assert_eq!(numbers.len(), function.matches("=>").count());
    let refusals = |text: &str| -> BTreeMap<String, String> {
        list(text).map(|part| part.split_once(" = ").expect("a refusal has a number")).map(named).collect()
    };
    let in_rust = refusals(each(&refusal, "pub enum Refusal {", "}").next().expect("it has the refusals"));
    let in_c = each(&header, "enum {", "}").find(|names| names.contains("LUPH_ACCEPTED")).expect("it has the refusals");
    let in_c = refusals(&in_c.replace("LUPH_ACCEPTED", "NONE").replace("LUPH_REFUSED_", ""));
    assert_eq!(in_rust, numbers);
    let accepted = [("none".to_string(), "0".to_string())];
    assert_eq!(in_c, numbers.into_iter().chain(accepted).collect::<BTreeMap<_, _>>());
}

fn named((name, number): (&str, &str)) -> (String, String) {
    (snake(name), number.trim().to_string())
}
