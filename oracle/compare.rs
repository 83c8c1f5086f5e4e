//! Compares the static library and the program with the Rust that they were ported from, on random
//! valid and damaged calls and inputs. The originals, as `half_sample` and `fdct`, are unchanged;
//! they are laid beside this file before it is compiled.
//!
//! A group of entries is one module with `compare(&Options) -> Vec<Row>`, a row an entry. All rows
//! are one table at the end; `options` says what the program is told and when it fails.

include!("modules.rs");

mod clip;
mod copied;
mod counted;
mod damage;
mod events;
mod guard;
mod intended;
mod levels;
mod luma;
mod macroblock;
mod options;
mod predicting;
mod run;
mod sample;
mod search;
mod single;
mod summary;
mod tally;
mod transform;
mod turns;

use options::{Options, USAGE};
use std::process::exit;
use summary::Row;

fn main() {
    let words: Vec<String> = std::env::args().skip(1).collect();
    if words.iter().any(|word| word == "--help" || word == "-h") {
        return println!("{USAGE}");
    }
    let options = Options::parse(&words).unwrap_or_else(|text| wrong(text));
    let (header, page) = (text(&options.header), text(&options.page));
    println!("seed {}", options.seed);
    let groups: [fn(&Options) -> Vec<Row>; 12] = [
        sample::compare,
        single::compare,
        copied::compare,
        luma::compare,
        predicting::compare,
        transform::compare,
        levels::compare,
        events::compare,
        search::compare,
        macroblock::compare,
        run::compare,
        clip::compare,
    ];
    let rows: Vec<Row> = groups.iter().flat_map(|compare| compare(&options)).collect();
    let intended = intended::check(&page);
    if let Ok(cases) = intended {
        println!("intended differences: {cases} smallest inputs as docs/DIFFERENCES.md lists them");
    }
    let mut faults = summary::table(&rows, &header);
    faults.extend(intended.err());
    for fault in &faults {
        println!("{fault}");
    }
    if !faults.is_empty() {
        println!("compare: failed");
        exit(1);
    }
    println!("compare: no differences");
}

fn text(path: &str) -> String {
    std::fs::read_to_string(path).unwrap_or_else(|error| wrong(format!("{path}: {error}")))
}

fn wrong(text: String) -> ! {
    eprintln!("compare: {text}");
    exit(2)
}
