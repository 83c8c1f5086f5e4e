//! Writes stored calls, each with the original Rust's answer: `stored HEADER FILE`. The header says
//! which entries there are, in which order, and what each takes; docs/STORED.md says how a call
//! stands in the file. Nothing of the port is asked: what the Rust has no function for is written
//! out here, from the rules.

include!("modules.rs");

#[allow(dead_code)]
#[path = "search/contents.rs"]
mod contents;
mod stored {
    pub mod answer;
    pub mod call;
    pub mod header;
    pub mod levels;
    pub mod luma;
    pub mod macroblocks;
    pub mod planes;
    pub mod reasons;
    pub mod refused;
    pub mod runs;
    pub mod samples;
    pub mod searches;
    pub mod spoil;
    pub mod three_planes;
}

use stored::call::Call;
use stored::header::{self, Entry};
use stored::{levels, luma, macroblocks, refused, runs, samples, searches, three_planes};

/// The calls of one entry, with their bytes.
struct Written {
    name: String,
    calls: usize,
    refusals: usize,
    bytes: Vec<u8>,
}

fn main() {
    let words: Vec<String> = std::env::args().skip(1).collect();
    let [header, file] = words.as_slice() else {
        eprintln!("stored HEADER FILE");
        std::process::exit(2)
    };
    let text = std::fs::read_to_string(header).expect("the header");
    let all: Vec<Written> = header::entries(&text).iter().map(written).collect();
    let mut bytes: Vec<u8> = all.iter().flat_map(|w| w.bytes.iter().copied()).collect();
    bytes.extend([0; 4]);
    std::fs::write(file, &bytes).expect("the file of calls");
    for w in &all {
        println!("{:<27} {:>4} calls {:>4} refused {:>7} bytes", w.name, w.calls, w.refusals, w.bytes.len());
    }
    let calls: usize = all.iter().map(|w| w.calls).sum();
    let refusals: usize = all.iter().map(|w| w.refusals).sum();
    println!("{calls} calls, {refusals} of them refused, {} bytes", bytes.len());
}

fn written(entry: &Entry) -> Written {
    let done = valid(&entry.name);
    assert!(!done.is_empty(), "no calls of {}", entry.name);
    let refused = refused::calls(&entry.name, &done[0]);
    let mut bytes = Vec::new();
    for call in &done {
        assert_eq!(reasons(call), [], "{call:?}");
        call.write(entry, &mut bytes);
    }
    for call in &refused {
        assert_ne!(reasons(call), [], "{call:?}");
        call.write(entry, &mut bytes);
    }
    let name = entry.name.clone();
    Written { name, calls: done.len() + refused.len(), refusals: refused.len(), bytes }
}

fn reasons(call: &Call) -> Vec<u8> {
    stored::reasons::reasons(call)
}

/// The calls of an entry with nothing wrong; the first is what refused calls are made of.
fn valid(name: &str) -> Vec<Call> {
    match name {
        "interpolate_block_into" => samples::half(),
        "interpolate_block_qpel_into" => samples::quarter(),
        "interpolate_pixel" => samples::pixels(),
        "split_half_pel" | "split_quarter_pel" => samples::splits(name),
        "fetch_clamped" => samples::fetched(),
        "copy_block" => samples::copied(),
        "predict_luma_block" => luma::blocks(),
        "predict_luma_macroblock" => luma::one_vector(),
        "predict_luma_macroblock_4mv" => luma::four_vectors(),
        "forward_dct_8x8" => levels::transforms(),
        "quantise_block" => levels::quantised(),
        "inverse_block" => levels::inverse(),
        "forward_scan" | "inverse_scan" => levels::scans(name),
        "levels_to_events" => levels::events(),
        "inter_scan" => levels::inter_scans(),
        "source_luma_block" | "source_chroma_block" => macroblocks::source_blocks(name),
        "estimate_motion" => searches::one(),
        "estimate_motion_4mv" => searches::four(),
        "intra_activity" => macroblocks::activities(),
        "macroblock_residual" => macroblocks::residuals(),
        "quantise_inter_block" => macroblocks::coded_blocks(),
        "quantise_inter_residual" => macroblocks::coded_residuals(),
        "inter_cbp" => macroblocks::patterns(),
        "code_macroblock" => macroblocks::coded(),
        "open" => runs::opened(),
        "next_place" => runs::places(),
        "step" => runs::stepped(),
        "close" => runs::closed(),
        "chroma_vector" => three_planes::chroma_of_one(),
        "chroma_vector_4mv" => three_planes::chroma_of_four(),
        "predict_macroblock" => three_planes::one_vector(),
        "predict_macroblock_4mv" => three_planes::four_vectors(),
        "code_predicted_macroblock" => macroblocks::coded_predicted(),
        "step_predicted" => runs::stepped_predicted(),
        _ => panic!("no calls for {name}"),
    }
}
