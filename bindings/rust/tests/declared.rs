//! The header, the crate's `raw` module and the library's source declare the same entries: names,
//! order and types of all arguments, each written as C has it.

use std::collections::BTreeMap;
use std::fs::{read_dir, read_to_string};
use std::path::Path;

const REPOSITORY: &str = concat!(env!("CARGO_MANIFEST_DIR"), "/../..");

/// An entry's name without its prefix, and its arguments in C.
type Declared = (String, String);

fn text(path: impl AsRef<Path>) -> String {
    let path = path.as_ref();
    read_to_string(path).unwrap_or_else(|why| panic!("{}: {why}", path.display()))
}

/// Behind each mark a name, and the list in brackets that follows it.
fn parts<'a>(text: &'a str, mark: &str, open: char, close: char) -> Vec<(&'a str, &'a str)> {
    let behind = text.split(mark).skip(1);
    behind
        .map(|rest| {
            let (name, rest) = rest.split_once(open).expect("an opened list");
            (name.trim(), rest.split_once(close).expect("a closed list").0)
        })
        .collect()
}

/// As the header has them, comments left out and every gap one space.
fn in_header() -> Vec<Declared> {
    let header = text(Path::new(REPOSITORY).join("include/hencouch.h"));
    let pieces: Vec<&str> = header.split("/*").collect();
    let bare: Vec<&str> = pieces.iter().map(|p| p.split_once("*/").map_or(*p, |p| p.1)).collect();
    let gaps = |list: &str| list.split_whitespace().collect::<Vec<_>>().join(" ");
    parts(&bare.concat(), "uint8_t hencouch_", '(', ')')
        .into_iter()
        .map(|(name, list)| (name.to_string(), gaps(list)))
        .collect()
}

/// As `raw` has them, in its order.
fn in_raw() -> Vec<Declared> {
    parts(&text(Path::new(env!("CARGO_MANIFEST_DIR")).join("src/raw.rs")), " = hencouch_", '{', '}')
        .into_iter()
        .map(|(name, list)| (name.to_string(), c_list(list)))
        .collect()
}

/// As the library's own functions have them, which call the bits per pixel `bpp`.
fn in_library() -> BTreeMap<String, String> {
    let folder = Path::new(REPOSITORY).join("crates/hencouch_c/src");
    let mut all = BTreeMap::new();
    for file in read_dir(&folder).expect("the library's source") {
        let source = text(file.expect("a file").path());
        for (name, list) in parts(&source, "extern \"C\" fn hencouch_", '(', ')') {
            let list = c_list(&list.replace("bpp: ", "bits_per_pixel: "));
            assert_eq!(all.insert(name.to_string(), list), None, "{name} stands twice");
        }
    }
    all
}

/// Arguments of Rust or Rattle in C.
fn c_list(list: &str) -> String {
    let arguments = list.split(',').map(str::trim).filter(|argument| !argument.is_empty());
    arguments.map(c_argument).collect::<Vec<_>>().join(", ")
}

fn c_argument(argument: &str) -> String {
    let (name, sort) = argument.split_once(": ").expect("a name and a type");
    let (sort, name) = match name.split_once(' ') {
        Some(("reads", name)) => (format!("&[{sort}]"), name),
        Some(("writes", name)) => (format!("&mut [{sort}]"), name),
        Some(_) => panic!("{argument} is no argument"),
        None => (sort.to_string(), name),
    };
    let (kind, lent) = match sort.strip_prefix('&') {
        None => return format!("{} {name}", c_type(&sort)),
        Some(lent) => match lent.strip_prefix("mut ") {
            Some(lent) => ("", lent),
            None => ("const ", lent),
        },
    };
    match lent.strip_prefix('[').and_then(|area| area.strip_suffix(']')) {
        None => format!("{kind}{} *{name}", c_type(lent)),
        Some(area) => match area.split_once("; ") {
            Some((sort, length)) => format!("{kind}{} {name}[{length}]", c_type(sort)),
            None => format!("{kind}{} *{name}, size_t {name}_len", c_type(area)),
        },
    }
}

fn c_type(sort: &str) -> &'static str {
    match sort {
        "u8" => "uint8_t",
        "u32" => "uint32_t",
        "i32" => "int32_t",
        "u64" => "uint64_t",
        "usize" => "size_t",
        other => panic!("{other} is no type of an argument"),
    }
}

#[test]
fn raw_declares_what_the_header_declares() {
    let header = in_header();
    assert_eq!(header.len(), 37, "the header's entries");
    for (declared, wanted) in in_raw().iter().zip(&header) {
        assert_eq!(declared, wanted);
    }
    assert_eq!(in_raw().len(), header.len(), "the entries of raw");
}

#[test]
fn the_library_has_what_the_header_declares() {
    let header: BTreeMap<String, String> = in_header().into_iter().collect();
    let library = in_library();
    for (name, arguments) in &library {
        assert_eq!(header.get(name), Some(arguments), "{name}, in the header and in the library");
    }
    assert_eq!(library.len(), header.len(), "the library's entries");
}
