//! The entries as include/hencouch.h declares them.

pub struct Entry {
    /// Without `hencouch_`.
    pub name: String,
    /// From 1, by the header's order.
    pub number: u8,
    pub parameters: Vec<Parameter>,
}

pub struct Parameter {
    pub name: String,
    /// Bytes of an element.
    pub size: usize,
    pub kind: Kind,
}

#[derive(Clone, Copy, PartialEq)]
pub enum Kind {
    Number,
    /// An area that is read, with a length beside it.
    Read,
    /// One of a declared length.
    ReadFixed,
    /// The run of a step: read, then written.
    Changed,
    /// An area that is written, with a length beside it.
    Lent,
    LentFixed(usize),
}

pub fn entries(header: &str) -> Vec<Entry> {
    let text = without_comments(header);
    let declared = text.split("uint8_t hencouch_").skip(1).enumerate();
    declared.map(|(i, part)| entry(i + 1, part)).collect()
}

fn without_comments(text: &str) -> String {
    let parts = text.split("/*").enumerate();
    parts.map(|(i, part)| if i == 0 { part } else { part.split_once("*/").expect("*/").1 }).collect()
}

fn entry(number: usize, text: &str) -> Entry {
    let (name, rest) = text.split_once('(').expect("a list of parameters");
    let (list, _) = rest.split_once(')').expect("the list's end");
    let words: Vec<&str> = list.split(',').map(str::trim).collect();
    let lengths: Vec<&str> = words.iter().filter_map(|w| w.strip_prefix("size_t ")).collect();
    let mut parameters: Vec<Parameter> = Vec::new();
    for word in &words {
        let one = parameter(name, word, &lengths);
        let of_area = parameters.last().is_some_and(|p| one.name == format!("{}_len", p.name));
        if !of_area {
            parameters.push(one);
        }
    }
    Entry { name: name.to_string(), number: number as u8, parameters }
}

fn parameter(entry: &str, text: &str, lengths: &[&str]) -> Parameter {
    let (read, text) = match text.strip_prefix("const ") {
        Some(rest) => (true, rest),
        None => (false, text),
    };
    let (sort, name) = text.split_once(' ').expect("a type and a name");
    let size = match sort {
        "uint8_t" => 1,
        "uint32_t" | "int32_t" => 4,
        "size_t" | "uint64_t" => 8,
        _ => panic!("{sort}"),
    };
    let (plain, count) = match (name.strip_prefix('*'), name.split_once('[')) {
        (Some(pointed), _) => (pointed, Some(1)),
        (_, Some((plain, n))) => (plain, n.trim_end_matches(']').parse().ok()),
        _ => (name, None),
    };
    let long = lengths.contains(&format!("{plain}_len").as_str());
    let kind = match (count, read, long) {
        (None, _, _) => Kind::Number,
        (Some(_), true, true) => Kind::Read,
        (Some(_), true, false) => Kind::ReadFixed,
        (Some(_), false, true) => Kind::Lent,
        (Some(_), false, false) if entry.starts_with("step") && plain == "run" => Kind::Changed,
        (Some(n), false, false) => Kind::LentFixed(n),
    };
    Parameter { name: plain.to_string(), size, kind }
}
