// record.rs: writes a fixed list of the original Rust's answers as text, for a program to replay without the Rust.
#[allow(dead_code)]
mod calls;
#[allow(dead_code)]
mod colour;
#[allow(dead_code)]
mod draw;
mod inputs;
mod original;
#[allow(dead_code)]
mod plan;
mod random;
mod recorded;
#[allow(dead_code)]
mod refusals;
mod spec;
#[allow(dead_code)]
mod tally;
mod util;

use random::Random;

const SEED: u64 = 0x4C61_7463_6820_6C73;

const HEADER: &str = "\
# Answers of the original Rust, to be replayed by a program that does not have it.
# Made by oracle/record from repository awxkee/maroontree 6cc97d3605, files intrapred.rs, directional.rs and mhccp.rs of src/av2.
# A line that starts with # is a comment. A case is one line: a letter, then decimal whole numbers, single spaces between.
# P b d corner: Paeth; S: smooth; V: smooth_v; H: smooth_h, with the same parameters. Then the 2b entries above,
# the 2b entries left, and the b*b samples due, row by row.
# R width height x y b d have_above have_left top_right bottom_left available_above available_left base: build_refs.
# Then the width*height samples of the plane as bits of f32, the 128 entries due above, the 128 due left, and the corner due.
# Each of these cases is accepted.
# D b d direction delta flags max_width max_height corner above_len left_len out_len answer: directional. Then the entries
# above, the entries left, and the out_len samples due, where all were 0 before the call. The answer is 0 or a refusal.
# In a colour case a list of luma or chroma has an entry for each row and column of a window at 256*row + column. The line has
# the first columns of the first rows, row by row; all other entries are 0. 32-bit numbers are told modulo 2^32.
# C d direction ref_width ref_height above_lines left_lines luma_len chroma_len params_len answer rows columns: derive_params.
# Then the rows*columns entries of luma, those of chroma, and the params_len parameters due, where all were 0 before the call.
# B d direction ref_width ref_height above_lines left_lines width height have_top have_left p0 p1 p2 luma_len out_len answer
# rows columns: predict_block. Then the rows*columns entries of luma, and the out_len samples due, where all were 0 before.
# J width height plane_len plan_len order_len differences_len answers_len answer: run. Then the samples of the plane, the words of
# the plan, the order, the differences modulo 2^16, the answers due, where all were 65535 before the call, and the samples due.
";

fn main() {
    print!("{HEADER}");
    let mut random = Random::new(SEED, 0);
    recorded::predictors::all(&mut random);
    recorded::edges::all(&mut random);
    recorded::directional::all(&mut random);
    recorded::derive_params::all(&mut random);
    recorded::predict_block::all(&mut random);
    recorded::plans::all(&mut random);
}
