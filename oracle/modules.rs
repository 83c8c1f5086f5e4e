// The modules that compare and bench share; each of the two includes this list. Either leaves some
// functions unused.

#[allow(dead_code, unused_imports)]
mod ask;
#[allow(dead_code, unused_imports)]
mod broodline;
mod bvop_prediction;
#[allow(dead_code)]
mod fdct;
#[allow(dead_code)]
mod half_sample;
#[path = "cos_table.rs"]
mod idct;
#[allow(dead_code)]
mod inverse_quant;
#[allow(dead_code)]
mod ivop_encode;
mod motion;
#[allow(dead_code)]
mod pictures;
#[allow(dead_code)]
mod predicted;
mod predictor;
#[allow(dead_code, unused_imports)]
mod pvop_encode;
#[allow(dead_code)]
mod pvop_mv;
#[allow(dead_code)]
mod quantise;
#[allow(dead_code)]
mod quarter_sample;
#[allow(dead_code)]
mod random;
mod reconstruct;
mod sample_padding;
#[allow(dead_code)]
mod scan;
mod texture;
