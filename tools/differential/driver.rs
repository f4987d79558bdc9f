//! Compares the compiled core with larnt, and times both. A layer adds its module and a line in
//! `LAYERS`; those that are named run, or all.
//!
//!     driver compare SEED COUNT [LAYER..]   COUNT cases a function; ends with 1 if anything differs
//!     driver speed [LAYER..]
//!     driver growth                       draws of 10, 100 and 1,000 solids at steps 4, 1 and 0.25, timed
//!     driver demand SEED COUNT              COUNT questions of demand 3 on hiding, and COUNT / 1000 draws
//!     driver stack
//!     driver travel DRAWING..             how far the pen travels up, in order and as picked
//!     driver own YARD..                   how much of its own outline a solid hides, and what outlines take

mod calls;
mod core;
mod covers;
mod demand;
mod draw_inputs;
mod draws;
mod exact;
mod harness;
// host/python/tests/parts.py compares the calls on ranges and the account
#[allow(dead_code)]
#[path = "../../host/larnt.rs"]
mod host;
mod inputs;
mod leaves;
mod merges;
mod registers;
mod roots;
mod names;
mod outline_inputs;
mod outlines;
mod own;
mod pens;
mod scene_calls;
mod scene_inputs;
mod scenes;
mod second_writer;
mod stack;
mod stage_inputs;
mod stages;
mod stripes;
mod tree_calls;
mod tree_inputs;
mod trees;
mod writes;

use harness::Run;
use std::process::ExitCode;

/// Its name, what it compares, and what it times.
type Layer = (&'static str, fn(&mut Run), fn());

const LAYERS: [Layer; 13] = [
    ("roots", roots::compare, roots::speed),
    ("leaves", leaves::compare, leaves::speed),
    ("scenes", scenes::compare, scenes::speed),
    ("trees", trees::compare, trees::speed),
    ("covers", covers::compare, covers::speed),
    ("stages", stages::compare, stages::speed),
    ("stripes", stripes::compare, || ()),
    ("outlines", outlines::compare, outlines::speed),
    ("draws", draws::compare, draws::speed),
    ("writes", writes::compare, writes::speed),
    ("registers", registers::compare, registers::speed),
    ("pens", pens::compare, pens::speed),
    ("merges", merges::compare, merges::speed),
];

fn layers(named: &[&str]) -> Option<Vec<Layer>> {
    if !named.iter().all(|name| LAYERS.iter().any(|layer| layer.0 == *name)) {
        return None;
    }
    let chosen = LAYERS.iter().filter(|layer| named.is_empty() || named.contains(&layer.0));
    Some(chosen.copied().collect())
}

fn compare(seed: u64, count: u64, layers: &[Layer]) -> bool {
    let mut run = Run::new(seed, count);
    for (_, compare, _) in layers {
        compare(&mut run);
    }
    run.differences == 0
}

fn speed(layers: &[Layer]) -> bool {
    harness::times_header();
    for (_, _, speed) in layers {
        speed();
    }
    true
}

/// Whether all is well, if the words can be read.
fn command(words: &[&str]) -> Option<bool> {
    match words {
        ["compare", seed, count, named @ ..] => {
            let count = count.parse().ok().filter(|count| *count > 0)?;
            Some(compare(seed.parse().ok()?, count, &layers(named)?))
        }
        ["speed", named @ ..] => Some(speed(&layers(named)?)),
        ["demand", seed, count] => {
            let (seed, count): (u64, u64) = (seed.parse().ok()?, count.parse().ok()?);
            let asked = demand::run(seed, count);
            Some(demand::draws(seed, count.div_ceil(1000)) && asked)
        }
        ["travel", files @ ..] => Some(pens::travel(files)),
        ["growth"] => {
            harness::times_header();
            draws::growth();
            Some(true)
        }
        ["own", files @ ..] => Some(own::run(files)),
        ["stack"] => {
            stack::run();
            Some(true)
        }
        _ => None,
    }
}

fn main() -> ExitCode {
    let arguments: Vec<String> = std::env::args().skip(1).collect();
    let words: Vec<&str> = arguments.iter().map(String::as_str).collect();
    // larnt recurses deeply
    match oracle::with_stack(|| command(&words)) {
        Some(true) => ExitCode::SUCCESS,
        Some(false) => ExitCode::FAILURE,
        None => {
            eprintln!(
                "usage: driver compare SEED COUNT [LAYER..] | speed [LAYER..] | growth | demand SEED COUNT | stack | travel DRAWING.. | own YARD.."
            );
            ExitCode::from(2)
        }
    }
}
