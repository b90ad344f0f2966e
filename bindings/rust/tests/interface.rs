//! The C header and this crate's declarations say what crates/tableau_sum, crates/model, crates/perform and crates/runs say in Rattle:
//! calls, structs, limits, numbers.

use std::collections::BTreeMap;
use tableau_sum::{Error, MAX_CAPACITY, MAX_COEFFICIENTS, MAX_QUBITS, STACK_BYTES};

const CALLS: &str = include_str!("../../../crates/tableau_sum/src/lib.rt");
const TYPES: &str = include_str!("../../../crates/model/src/lib.rt");
const PERFORM: &str = include_str!("../../../crates/perform/src/lib.rt");
const RUNS: &str = include_str!("../../../crates/runs/src/lib.rt");
const HEADER: &str = include_str!("../../../include/tableau_sum.h");
const FFI: &str = include_str!("../src/ffi.rs");
/// Where this crate's structs stand that the library takes or gives.
const STRUCTS: [&str; 3] = [FFI, include_str!("../src/size.rs"), include_str!("../src/sum.rs")];

/// A declaration: what it gives back, and its parameters, each a name and a type.
type Declared = (String, Vec<(String, String)>);

/// With single spaces, and none inside brackets.
fn plain(text: &str) -> String {
    let spaced = text.split_whitespace().collect::<Vec<_>>().join(" ");
    spaced.replace("( ", "(").replace(", )", ")").replace(" )", ")").replace(",)", ")")
}

/// Text without C comments.
fn bare(text: &str) -> String {
    let mut parts = text.split("/*");
    let first = parts.next().unwrap().to_string();
    parts.fold(first, |kept, part| kept + part.split_once("*/").expect("a comment ends").1)
}

/// `name: type, ..` as pairs.
fn fields(text: &str) -> Vec<(String, String)> {
    let field = |f: &str| f.trim().split_once(": ").map(|(name, kind)| (name.to_string(), kind.to_string()));
    text.split(',').filter_map(field).collect()
}

/// Rust's and Rattle's functions that begin with these words.
fn functions(text: &str, words: &str) -> BTreeMap<String, Declared> {
    let text = plain(text);
    let function = |part: &str| {
        let (name, rest) = part.split_once('(').unwrap();
        let (given, rest) = rest.split_once(") -> ").unwrap();
        let gives = rest.split([' ', ';']).next().unwrap();
        (name.to_string(), (gives.to_string(), fields(given)))
    };
    text.split(words).skip(1).map(function).collect()
}

/// The exported functions, with a pointer and a length for each slice.
fn exported() -> BTreeMap<String, Declared> {
    let parameter = |(name, kind): (String, String)| match kind.split_once('[') {
        Some((lent, element)) if !element.contains(';') => {
            let pointer = if lent == "&mut " { "*mut" } else { "*const" };
            let length = (format!("{name}_len"), "usize".to_string());
            vec![(name, format!("{pointer} {}", element.trim_end_matches(']'))), length]
        }
        _ => vec![(name, kind)],
    };
    let passed = |(gives, given): Declared| (gives, given.into_iter().flat_map(parameter).collect());
    functions(CALLS, "pub extern \"C\" fn ").into_iter().map(|(name, declared)| (name, passed(declared))).collect()
}

/// A declaration in C, of a name with a type in Rust.
fn in_c(name: &str, kind: &str) -> String {
    let word = |kind: &str| match kind {
        "usize" => "size_t".to_string(),
        "f64" => "double".to_string(),
        "bool" => "bool".to_string(),
        "u8" | "u64" => kind.replace('u', "uint") + "_t",
        _ => format!("tableau_sum_{}", kind.to_lowercase()),
    };
    match kind.split_once(' ') {
        Some(("*mut", element)) => format!("{} *{name}", word(element)),
        Some(("*const", element)) => format!("const {} *{name}", word(element)),
        Some(("&[f64;", "15]")) => format!("const double {name}[TABLEAU_SUM_PAIRS]"),
        _ => format!("{} {name}", word(kind)),
    }
}

#[test]
fn this_crate_declares_every_call() {
    assert!(!exported().is_empty());
    assert_eq!(functions(FFI, "pub fn "), exported());
}

#[test]
fn the_header_declares_every_call() {
    let prototype = |(name, (gives, given)): (String, Declared)| {
        let given: Vec<String> = given.iter().map(|(name, kind)| in_c(name, kind)).collect();
        in_c(&format!("{name}({})", given.join(", ")), &gives)
    };
    let mut wanted: Vec<String> = exported().into_iter().map(prototype).collect();
    let marked = bare(HEADER);
    let mut declared: Vec<String> = marked.split("\nTABLEAU_SUM_CALL ").skip(1).map(|d| plain(d.split_once(';').unwrap().0)).collect();
    wanted.sort();
    declared.sort();
    assert_eq!(declared, wanted);
}

/// The fields of Rust's or Rattle's struct of this name, if it is there and laid out as C does.
fn members(text: &str, name: &str) -> Option<Vec<(String, String)>> {
    let aside = |line: &&str| !["//", "#[derive("].iter().any(|start| line.trim_start().starts_with(start));
    let code: Vec<&str> = text.lines().filter(aside).collect();
    let code = plain(&code.join("\n").replace("pub ", ""));
    let (_, rest) = code.split_once(&format!("#[repr(C)] struct {name} {{"))?;
    Some(fields(rest.split_once('}')?.0))
}

#[test]
fn the_structs_have_the_same_fields() {
    let header = plain(&bare(HEADER));
    let structs =
        [("Size", TYPES), ("Header", TYPES), ("Counts", TYPES), ("Lost", TYPES), ("Answer", TYPES), ("Room", RUNS), ("Ran", RUNS)];
    for (name, types) in structs {
        let declared = members(types, name).unwrap();
        assert_eq!(STRUCTS.iter().find_map(|text| members(text, name)).as_ref(), Some(&declared), "{name}");
        let own = in_c("", name).trim_end().to_string();
        let members: Vec<String> = declared.iter().map(|(name, kind)| in_c(name, kind) + ";").collect();
        let wanted = format!("typedef struct {own} {{ {} }} {own};", members.join(" "));
        assert!(header.contains(&wanted), "{wanted}");
    }
}

#[test]
fn the_limits_are_the_same() {
    for (name, limit) in [("QUBITS", MAX_QUBITS), ("COEFFICIENTS", MAX_COEFFICIENTS), ("CAPACITY", MAX_CAPACITY)] {
        assert!(TYPES.contains(&format!("pub const MAX_{name}: usize = {limit};")));
        assert!(HEADER.contains(&format!("#define TABLEAU_SUM_MAX_{name} {limit}\n")));
    }
    assert!(HEADER.contains(&format!("#define TABLEAU_SUM_STACK_BYTES {STACK_BYTES}\n")));
    for (name, own, words) in [("CALL", "CALL", 18), ("NUMBER", "RECORD", 11)] {
        assert!(PERFORM.contains(&format!("pub const {name}_WORDS: usize = {words};")));
        assert!(HEADER.contains(&format!("#define TABLEAU_SUM_{own}_WORDS {words}\n")));
        assert!(FFI.contains(&format!("pub const {own}_WORDS: usize = {words};")));
    }
    assert!(PERFORM.contains("pub const SHOWN_WORDS: usize = 2 * model::MAX_CAPACITY;"));
    assert!(HEADER.contains(&format!("#define TABLEAU_SUM_SHOWN_WORDS {}\n", 2 * MAX_CAPACITY)));
    assert!(PERFORM.contains("pub const MOST_SHOWN: usize = 581;") && HEADER.contains("#define TABLEAU_SUM_MOST_SHOWN 581\n"));
}

/// BadSize as C has it: BAD_SIZE.
fn shouted(name: &str) -> String {
    let letter = |c: char| if c.is_uppercase() { format!("_{c}") } else { c.to_uppercase().to_string() };
    name.chars().map(letter).collect::<String>().trim_start_matches('_').to_string()
}

#[test]
fn the_numbers_have_the_same_names_and_meanings() {
    let header = plain(&bare(HEADER));
    for e in Error::ALL {
        let name = format!("TABLEAU_SUM_{}", shouted(&format!("{e:?}")));
        assert!([",", " }"].iter().any(|end| header.contains(&format!("{name} = {}{end}", e.number()))), "{name}");
        assert!(header.contains(&format!("case {name}: return \"{e}\";")), "{name}");
    }
    // and DONE, and the number of a list that does not fit, which no circuit gives
    assert_eq!(header.matches("case TABLEAU_SUM_").count(), Error::ALL.len() + 2);
    assert!(RUNS.contains("pub const DOES_NOT_FIT: u64 = 19;") && header.contains("TABLEAU_SUM_DOES_NOT_FIT = 19 }"));
}
