//! Times the static library against the Rust that it was ported from, both built for release, in
//! one run, and holds each row to the table of wanted figures: below one, the run fails. The
//! originals, as `half_sample` and `fdct`, are unchanged; they are laid beside this file before it
//! is compiled. `--cfg timed="NAME"` compiles the rows of NAME: a library that has only the entries
//! these call is then enough. The words are the file of wanted figures and broodline's path, which
//! is timed as a program; rows other than broodline's leave its path unread.

include!("modules.rs");

#[allow(dead_code)]
mod clip_bench;
#[allow(dead_code)]
mod levels_bench;
#[allow(dead_code)]
mod macroblock_bench;
#[allow(dead_code)]
mod predicted_bench;
#[allow(dead_code)]
mod sample_bench;
#[allow(dead_code)]
mod search_bench;
#[allow(dead_code)]
mod table;
#[allow(dead_code)]
mod timing;
#[allow(dead_code)]
mod transform_bench;
#[allow(dead_code)]
mod wanted;

use std::process::exit;
use wanted::Wanted;

const USAGE: &str = "\
bench WANTED BROODLINE

Times the static library and broodline against the original Rust in one run, and ends with a table of
all rows. WANTED is the file of wanted figures (oracle/wanted.txt), BROODLINE the program's path.
ratio: how many times as fast as the Rust. The status is 0 where every row is as wanted, 1 where one
is below, 2 where a word is wrong.";

fn main() {
    let words: Vec<String> = std::env::args().skip(1).collect();
    if words.iter().any(|word| word == "--help" || word == "-h") {
        return println!("{USAGE}");
    }
    let (figures, _broodline) = match &words[..] {
        #[cfg(timed = "broodline")]
        [word, clip] if word == clip_bench::CODING => return clip_bench::code_once(clip),
        [figures, path] => (figures, path),
        _ => wrong("the words are WANTED BROODLINE; see bench --help".to_string()),
    };
    let mut wanted = Wanted::read(figures).unwrap_or_else(|text| wrong(text));
    #[cfg(timed = "half_sample")]
    sample_bench::bench::<sample_bench::Half>(&mut wanted);
    #[cfg(timed = "quarter_sample")]
    sample_bench::bench::<sample_bench::Quarter>(&mut wanted);
    #[cfg(timed = "prediction")]
    predicted_bench::bench(&mut wanted);
    #[cfg(timed = "fdct")]
    transform_bench::bench(&mut wanted);
    #[cfg(timed = "levels")]
    levels_bench::bench(&mut wanted);
    #[cfg(timed = "search")]
    search_bench::bench(&mut wanted);
    #[cfg(timed = "coding")]
    macroblock_bench::parts::bench(macroblock_bench::parts::CODING, &mut wanted);
    #[cfg(timed = "macroblock")]
    {
        macroblock_bench::parts::bench(macroblock_bench::parts::MACROBLOCK, &mut wanted);
        macroblock_bench::bench(&mut wanted);
        macroblock_bench::predicted::bench(&mut wanted);
    }
    #[cfg(timed = "broodline")]
    clip_bench::bench(_broodline, &mut wanted);
    #[cfg(timed = "all")]
    wanted.hold_all_asked();
    report(&wanted);
}

/// Prints the table; ends with status 1 where a row missed what is wanted of it.
fn report(wanted: &Wanted) {
    wanted.print();
    match wanted.missed() {
        0 => println!("bench: every row is as wanted"),
        missed => {
            println!("bench: failed, {missed} missed");
            exit(1)
        }
    }
}

fn wrong(text: String) -> ! {
    eprintln!("bench: {text}");
    exit(2)
}
