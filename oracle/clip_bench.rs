//! broodline on a whole picture of 176 x 144, the texture of the searches that moved, with the
//! predictions of the coding's table. On one side is the program, from the start of its process to
//! its end, reading a file and printing to /dev/null; on the other the same input by the originals
//! put together, in this process, printing to memory. A time is the best of many runs. Both outputs
//! are compared before.
//!
//! What reading and printing take is what is left when the coding is taken away. `start` is a run
//! whose header is turned back: a process and nothing else. `planes` is a run whose input ends
//! before the first prediction. `first` is the library's entry on the same 99 macroblocks, once
//! each, in a new process too, which is this program with `--coding`: so it meets its code and its
//! stack for the first time, as broodline does. `again` is the best of later turns in that process.
//! `planes` less `start` goes into the planes, and `whole` less `planes` less `first` into 99
//! predictions and 99 lines; the share is that of both in `whole` less `start`. It can come out a
//! little below 0, as the library's code is not laid out as the program's is. `at most` is the same
//! share with `again` for `first`: it counts as reading and printing what only a new process pays.

mod shares;

use crate::broodline::{play, Clip, Header, Program, HEADER, PREDICTION};
use crate::macroblock_bench::{predictions, Area, Predicted, Row, Still};
use crate::search_bench::{Picture, HEIGHT, MACROBLOCKS, WIDTH};
use crate::table::Table;
use crate::timing::Times;
use crate::wanted::Wanted;
use shares::Line;
use std::fs::{self, File};
use std::hint::black_box;
use std::process::{Command, Stdio};
use std::time::Instant;

const PASSES: usize = 10;

/// Runs of the program and of the library in a pass; there is one of the originals.
const RUNS: usize = 12;

const QUANTISER: u8 = 5;

/// How often a share that missed is measured again before it has failed.
const SHARES_AGAIN: usize = 3;

/// Turns of the library in a process after the first.
const AGAIN: usize = 3;

/// The word before a clip that makes bench time the library on it, and nothing else.
pub const CODING: &str = "--coding";

/// Where the inputs are laid for the program.
const FOLDER: &str = "target/oracle";

pub fn bench(path: &str, wanted: &mut Wanted) {
    let program = Program::at(path).unwrap_or_else(|text| panic!("{text}"));
    let still = Still::new(Picture::Textured);
    let mut works: Vec<Work> = shares::settings()
        .into_iter()
        .map(|(vectors, mode, fcode)| Work::new(vectors, mode, fcode, &still, &program))
        .collect();
    let mut table = Table::new("broodline, a picture");
    works.iter().for_each(|work| table.row(format!("picture {}", work.line.setting()), &[]));
    table.run(wanted, PASSES, |at, _| {
        works[at].time(&program);
        works[at].line.times
    });
    for _ in 0..SHARES_AGAIN {
        let missed = shares::missed(works.iter().map(|work| &work.line), wanted);
        (0..PASSES).for_each(|_| missed.iter().for_each(|&at| works[at].time(&program)));
    }
    shares::print(works.iter().map(|work| &work.line), wanted);
}

struct Work {
    input: Vec<u8>,
    line: Line,
}

impl Work {
    /// Lays the input down and holds both sides to the same output.
    fn new(vectors: u32, mode: u32, fcode: u32, still: &Still, program: &Program) -> Self {
        let input = input(vectors, mode, fcode, still);
        let work = Work { input, line: Line::new(vectors, mode, fcode) };
        let Work { input, line } = &work;
        let mut bad = input[..HEADER].to_vec();
        bad[4] = 0;
        let planes = input.len() - PREDICTION * MACROBLOCKS;
        for (name, bytes) in [("whole", &input[..]), ("start", &bad), ("planes", &input[..planes])]
        {
            fs::write(line.path(FOLDER, name), bytes).expect("target/oracle can be written");
            let ran = program.run(bytes, usize::MAX).expect("the program runs");
            let same = ran.output == play(bytes).as_bytes() && ran.status.success();
            assert!(same, "the sides differ: see make compare");
        }
        work
    }

    fn time(&mut self, program: &Program) {
        let Work { input, line } = self;
        let rust = timed(|| {
            black_box(play(black_box(input)));
        });
        for _ in 0..RUNS {
            let [first, again] = coding(&line.path(FOLDER, "whole"));
            line.first = line.first.min(first);
            line.again = line.again.min(again);
            let [whole, start, planes] =
                ["whole", "start", "planes"].map(|name| run(program, &line.path(FOLDER, name)));
            line.times = line.times.best(Times { rust, rattle: whole });
            line.start = line.start.min(start);
            line.planes = line.planes.min(planes);
        }
    }
}

/// A clip of all macroblocks.
fn input(vectors: u32, mode: u32, fcode: u32, still: &Still) -> Vec<u8> {
    let header = Header {
        width: WIDTH as u16,
        height: HEIGHT as u16,
        fcode: fcode as u8,
        mode: mode as u8,
        quantiser: QUANTISER,
        vectors: vectors as u8,
    };
    let mut input = header.bytes().to_vec();
    for plane in [&still.source[0], &still.source[1], &still.source[1], &still.reference[0]] {
        input.extend(plane);
    }
    let (picture, first_method) = (Picture::Textured, false);
    let row = Row { vectors, mode, picture, fcode, first_method };
    for Predicted { y, chroma } in predictions(&row, still) {
        input.extend(y);
        input.extend(chroma);
        input.extend(chroma);
    }
    input
}

/// Nanoseconds.
fn timed(work: impl FnOnce()) -> f64 {
    let begun = Instant::now();
    work();
    begun.elapsed().as_nanos() as f64
}

/// The program on an input, from its start to its end.
fn run(program: &Program, path: &str) -> f64 {
    let input = File::open(path).expect("an input laid down before");
    let mut command = program.command();
    command.stdin(input).stdout(Stdio::null());
    timed(|| {
        let status = command.status().expect("the program runs");
        assert!(status.success(), "the program failed");
    })
}

/// The library on an input, first and again, as another process of this program prints it.
fn coding(path: &str) -> [f64; 2] {
    let this = std::env::current_exe().expect("a program knows its file");
    let ran = Command::new(this).args([CODING, path]).output().expect("the program runs");
    let text = String::from_utf8(ran.stdout).expect("two numbers");
    let numbers: Vec<f64> = text.split_whitespace().filter_map(|word| word.parse().ok()).collect();
    numbers.try_into().expect("two numbers")
}

/// Prints how long the library's entry takes on every macroblock of a clip, each once: the first
/// time, and the best of the later times.
pub fn code_once(path: &str) {
    let input = fs::read(path).expect("an input laid down before");
    let clip = Clip::read(&input).expect("nothing wrong");
    let mut area = Area::new();
    let mut pass = || {
        for k in 0..MACROBLOCKS {
            let coding = clip.coding(k).expect("nothing wrong");
            let reply = area.code(black_box(&coding));
            black_box((reply, &area));
        }
    };
    let first = timed(&mut pass);
    let again = (0..AGAIN).map(|_| timed(&mut pass)).fold(f64::INFINITY, f64::min);
    println!("{first} {again}");
}
