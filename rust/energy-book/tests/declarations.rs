//! The declarations of include/energy_book.h, of src/raw.rs and of src/inner.rs against the functions that the crates `abi_c` and
//! `abi_inner_c` export.

use std::collections::BTreeMap;
use std::fs;
use std::path::Path;

use energy_book::{BALANCES_MOST, BOOK_SIZE, FIELDS_SIZE, FIGURE_SIZE, RECORD_MOST, RESULTS_MOST, STRIP_MOST, STRIP_ROWS_MOST};

/// By name: the types of the parameters as the machine has them, and of the answer.
type Declared = BTreeMap<String, (Vec<String>, String)>;

fn text(path: &str) -> String {
    fs::read_to_string(Path::new(env!("CARGO_MANIFEST_DIR")).join("../..").join(path)).unwrap()
}

/// The parts of a list, without empty ones.
fn parts(list: &str) -> Vec<String> {
    list.split(',').map(|part| part.trim().to_string()).filter(|part| !part.is_empty()).collect()
}

/// What stands between the first pair of parentheses, and what stands behind it.
fn parameters(declaration: &str) -> (&str, &str) {
    let (inside, behind) = declaration.split_once('(').unwrap().1.split_once(')').unwrap();
    (inside, behind)
}

/// The type behind the colon of each parameter.
fn types(list: &str) -> Vec<String> {
    parts(list).iter().map(|part| part.split_once(':').unwrap().1.trim().to_string()).collect()
}

fn exported(path: &str) -> Declared {
    let source = text(path);
    let functions = source.split("#[unsafe(no_mangle)]\npub extern \"C\" fn ").skip(1);
    functions
        .map(|function| {
            let (list, behind) = parameters(function);
            let answer = behind.trim().strip_prefix("->").unwrap().split_whitespace().next().unwrap();
            let handed_over = types(list).into_iter().flat_map(|of| match &of[..] {
                "&[u8]" => vec!["*const u8".to_string(), "usize".to_string()],
                "&mut [u8]" => vec!["*mut u8".to_string(), "usize".to_string()],
                _ => vec![of],
            });
            (function.split('(').next().unwrap().to_string(), (handed_over.collect(), answer.to_string()))
        })
        .collect()
}

fn declared_in_rust(path: &str) -> Declared {
    let source = text(path);
    let functions = source.split("pub fn energy_book_").skip(1);
    functions
        .map(|function| {
            let (list, behind) = parameters(function);
            let answer = behind.trim().strip_prefix("->").unwrap().split(';').next().unwrap();
            (format!("energy_book_{}", function.split('(').next().unwrap()), (types(list), answer.trim().to_string()))
        })
        .collect()
}

fn declared_in_c() -> Declared {
    let header = text("include/energy_book.h");
    let lines = header.split("\n\n").flat_map(|block| block.rsplit("*/\n").next());
    let declarations = lines.filter(|line| line.trim_end().ends_with(");") && !line.contains('{'));
    declarations
        .map(|declaration| {
            let (answer, rest) = declaration.split_once(' ').unwrap();
            let of = |part: &String| match part.rsplit_once([' ', '*']).unwrap().0.trim() {
                "const uint8_t" => "*const u8".to_string(),
                "uint8_t" if part.contains('*') => "*mut u8".to_string(),
                "uint8_t" => "u8".to_string(),
                "size_t" => "usize".to_string(),
                other => panic!("{other}"),
            };
            let answer = if answer == "uint64_t" { "u64" } else { answer };
            (
                rest.split('(').next().unwrap().to_string(),
                (parts(parameters(rest).0).iter().map(of).collect(), answer.to_string()),
            )
        })
        .collect()
}

#[test]
fn declarations_are_those_of_the_exported_functions() {
    let exported = exported("crates/abi_c/src/lib.rt");
    assert_eq!(exported.len(), 8);
    assert_eq!(declared_in_rust("rust/energy-book/src/raw.rs"), exported);
    assert_eq!(declared_in_c(), exported);
}

#[test]
fn inner_declarations_are_those_of_the_exported_functions() {
    let exported = exported("crates/abi_inner_c/src/lib.rt");
    assert_eq!(exported.len(), 4);
    assert_eq!(declared_in_rust("rust/energy-book/src/inner.rs"), exported);
}

#[test]
fn sizes_are_those_of_the_header() {
    let header = text("include/energy_book.h");
    let size = |name: &str| -> usize {
        let line = header.lines().find_map(|line| line.strip_prefix(&format!("#define ENERGY_BOOK_{name} "))).unwrap();
        line.parse().unwrap()
    };
    assert_eq!(size("SIZE"), BOOK_SIZE);
    assert_eq!(size("FIGURE_SIZE"), FIGURE_SIZE);
    assert_eq!(size("FIELDS_SIZE"), FIELDS_SIZE);
    assert_eq!(size("RECORD_MOST"), RECORD_MOST);
    assert_eq!(size("STRIP_MOST"), STRIP_MOST);
    assert_eq!(size("STRIP_ROWS_MOST"), STRIP_ROWS_MOST);
    assert_eq!(size("RESULTS_MOST"), RESULTS_MOST);
    assert_eq!(size("BALANCES_MOST"), BALANCES_MOST);
}
