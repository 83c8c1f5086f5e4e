//! The command line of `compare`; each word has a default.

pub const USAGE: &str = "\
compare [--seed N] [--valid N] [--refused N] [--broodline PROGRAM] [--header FILE] [--page FILE]

Compares the static library and broodline with the original Rust, call by call, and ends with a
table of counts and differences, a row an entry. The status is 0 where nothing differs and every
count is above 0, 1 where not, 2 where a word is wrong.

  --seed N             of the random calls (144962)
  --valid N            valid calls of each entry (250000); the searches and the coding of a macroblock
                       take a tenth; a picture is run for every 60 of them, a clip for every 100
  --refused N          damaged calls of each entry that refuses any (100000)
  --broodline PROGRAM  (target/bin/broodline)
  --header FILE        whose entries all have to be compared (include/hencouch.h)
  --page FILE          that lists the intended differences (docs/DIFFERENCES.md)";

pub struct Options {
    pub seed: u64,
    /// Valid calls for each entry, of which each group takes its share.
    pub valid: usize,
    /// Damaged calls for each entry.
    pub refused: usize,
    /// The program, whose clips are also cut and damaged.
    pub broodline: String,
    pub header: String,
    pub page: String,
}

impl Options {
    pub fn parse(words: &[String]) -> Result<Options, String> {
        let mut options = Options {
            seed: 144_962,
            valid: 250_000,
            refused: 100_000,
            broodline: "target/bin/broodline".to_string(),
            header: "include/hencouch.h".to_string(),
            page: "docs/DIFFERENCES.md".to_string(),
        };
        for pair in words.chunks(2) {
            let [name, value] = pair else { return Err(format!("{} needs a value", pair[0])) };
            let number = value.parse::<u64>().map_err(|_| format!("{name} needs a number"));
            match name.as_str() {
                "--seed" => options.seed = number?,
                "--valid" => options.valid = number? as usize,
                "--refused" => options.refused = number? as usize,
                "--broodline" => options.broodline = value.clone(),
                "--header" => options.header = value.clone(),
                "--page" => options.page = value.clone(),
                _ => return Err(format!("{name} is none of the words; see compare --help")),
            }
        }
        Ok(options)
    }
}
