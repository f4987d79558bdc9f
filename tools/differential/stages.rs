//! The stages on paths: the adaptive chop and the simplification.

use crate::harness::{Run, Share, time};
use crate::host::{self, raw};
use crate::scene_calls::{UNFILLED, Words, copy, number, put, put_floats};
use crate::stage_inputs::{self, Stage};
use oracle::generate::Rng;
use oracle::larnt_limited::limits;
use oracle::{Answer, Lines, plain};
use std::cell::{Cell, RefCell};
use std::hint::black_box;

/// What a call fills: the points, the starts, and how many there are.
struct Filled {
    out: Vec<f64>,
    begins: Vec<usize>,
    points: usize,
    paths: usize,
}

impl Filled {
    /// Slices of these lengths, with something in each place.
    fn new([out, begins]: [usize; 2]) -> Filled {
        Filled { out: vec![UNFILLED; out], begins: vec![7; begins], points: 7, paths: 7 }
    }
}

type Call = fn(&Stage, &mut Filled) -> u32;

/// The answer, the counts, then each slice: how much of it there is before zeros alone follow, and
/// that. Zeros are written alike among the results.
fn words(call: Call, case: &Stage) -> Words {
    let mut filled = Filled::new(case.lengths);
    let number = call(case, &mut filled);
    let mut words = vec![u64::from(number), filled.points as u64, filled.paths as u64];
    put_floats(&mut words, &filled.out, 3 * filled.points);
    put(&mut words, filled.begins.len(), |k| filled.begins[k] as u64);
    Words(words)
}

fn core_chop(case: &Stage, filled: &mut Filled) -> u32 {
    unsafe {
        raw::larnt_chop(
            &case.view_numbers(),
            case.lines.points.as_ptr(),
            case.lines.points.len(),
            case.lines.starts.as_ptr(),
            case.lines.starts.len(),
            filled.out.as_mut_ptr(),
            filled.out.len(),
            filled.begins.as_mut_ptr(),
            filled.begins.len(),
            &mut filled.points,
            &mut filled.paths,
        )
    }
}

fn core_simplify(case: &Stage, filled: &mut Filled) -> u32 {
    unsafe {
        raw::larnt_simplify(
            case.lines.points.as_ptr(),
            case.lines.points.len(),
            case.lines.starts.as_ptr(),
            case.lines.starts.len(),
            case.threshold,
            filled.out.as_mut_ptr(),
            filled.out.len(),
            filled.begins.as_mut_ptr(),
            filled.begins.len(),
            &mut filled.points,
            &mut filled.paths,
        )
    }
}

fn host_chop(case: &Stage, filled: &mut Filled) -> u32 {
    let (lines, view) = (&case.lines, case.view_numbers());
    let (out, begins) = (&mut filled.out, &mut filled.begins);
    let result = host::chop(&view, &lines.points, &lines.starts, out, begins);
    (filled.points, filled.paths) = result.unwrap_or_default();
    result.err().unwrap_or(0)
}

fn host_simplify(case: &Stage, filled: &mut Filled) -> u32 {
    let lines = &case.lines;
    let (out, begins) = (&mut filled.out, &mut filled.begins);
    let result = host::simplify(&lines.points, &lines.starts, case.threshold, out, begins);
    (filled.points, filled.paths) = result.unwrap_or_default();
    result.err().unwrap_or(0)
}

fn rust_chop(case: &Stage, filled: &mut Filled) -> u32 {
    told(oracle::chop(&case.view, &case.lines, case.places()), filled)
}

fn rust_simplify(case: &Stage, filled: &mut Filled) -> u32 {
    told(oracle::simplify(case.threshold, &case.lines, case.places()), filled)
}

fn told(answer: Answer<Lines>, filled: &mut Filled) -> u32 {
    filled.out.fill(0.0);
    filled.begins.fill(0);
    (filled.points, filled.paths) = (0, 0);
    if let Ok(lines) = &answer {
        copy(&mut filled.out, &lines.points);
        copy(&mut filled.begins, &lines.starts);
        (filled.points, filled.paths) = (lines.points.len() / 3, lines.starts.len());
    }
    number(&answer)
}

type Sharing<'a> = [Share<'a, Stage, Words>];

pub fn compare(run: &mut Run) {
    let deepest = Cell::new(0);
    let shares: &Sharing = &[
        ("chopped", &|_, a| a.0[0] == 0),
        ("with more points", &|case, a| {
            a.0[0] == 0 && 3 * a.0[1] as usize > case.lines.points.len()
        }),
        ("slices exactly full", &|case, a| a.0[0] == 0 && full(case, a)),
        ("a path vanished", &|case, a| a.0[0] == 0 && (a.0[2] as usize) < case.lines.starts.len()),
        ("2", &|_, a| a.0[0] == 2),
        ("4", &|_, a| a.0[0] == 4),
        ("8", &|_, a| a.0[0] == 8),
        ("9", &|_, a| a.0[0] == 9),
        ("13", &|_, a| a.0[0] == 13),
        ("no starts", &|case, _| case.lines.starts.is_empty()),
    ];
    let rust = |case: &Stage| {
        let words = words(rust_chop, case);
        deepest.set(deepest.get().max(limits::deepest_halving()));
        words
    };
    let cores: [&dyn Fn(&Stage) -> Words; 2] =
        [&|case| words(core_chop, case), &|case| words(host_chop, case)];
    run.compare("chop", run.count, stage_inputs::chop, rust, &cores, shares);
    let longest = run.count.div_ceil(10);
    run.compare("chop.longest", longest, stage_inputs::longest, rust, &cores, &shares[..1]);
    println!("(the deepest nesting of halvings: {})", deepest.get());

    let shares: &Sharing = &[
        ("simplified", &|_, a| a.0[0] == 0),
        ("with fewer points", &|case, a| {
            a.0[0] == 0 && 3 * (a.0[1] as usize) < case.lines.points.len()
        }),
        ("slices exactly full", &|case, a| a.0[0] == 0 && full(case, a)),
        ("a path vanished", &|case, a| a.0[0] == 0 && (a.0[2] as usize) < case.lines.starts.len()),
        ("2", &|_, a| a.0[0] == 2),
        ("4", &|_, a| a.0[0] == 4),
        ("8", &|_, a| a.0[0] == 8),
        ("9", &|_, a| a.0[0] == 9),
        ("13", &|_, a| a.0[0] == 13),
        ("no starts", &|case, _| case.lines.starts.is_empty()),
    ];
    let rust = |case: &Stage| words(rust_simplify, case);
    let cores: [&dyn Fn(&Stage) -> Words; 2] =
        [&|case| words(core_simplify, case), &|case| words(host_simplify, case)];
    run.compare("simplify", run.count, stage_inputs::simplify, rust, &cores, shares);
}

/// No place of a slice is left.
fn full(case: &Stage, a: &Words) -> bool {
    let [out, begins] = case.lengths;
    out == 3 * a.0[1] as usize && begins == a.0[2] as usize && out > 0
}

/// Lines of a yard at step 4; then what comes of that, simplified with 1e-6. Both sides are handed the
/// paths as they keep them; the core's slices have the room of the result, or of ten times as much.
pub fn speed() {
    let mut rng = Rng::new(1);
    let case = stage_inputs::ordinary(&mut rng);
    let (paths, args) = (plain::paths(&case.lines), plain::render_args(&case.view));
    let chopped = plain::chop(&case.view, &case.lines);
    let (given, count) = (case.lines.points.len() / 3, chopped.points.len() / 3);
    for (name, room) in [("chop", 1), ("chop (10 x room)", 10)] {
        let lengths = [room * chopped.points.len(), room * case.lines.starts.len()];
        let filled = RefCell::new(Filled::new(lengths));
        let rust = || {
            black_box(black_box(&paths).chop_adaptive(&args));
        };
        let core = || {
            black_box(core_chop(black_box(&case), &mut filled.borrow_mut()));
        };
        time(name, count, rust, core);
    }
    let paths = plain::paths(&chopped);
    let thinned = plain::simplify(1e-6, &chopped);
    let case = Stage { lines: chopped, ..case };
    for (name, room) in [("simplify", 1), ("simplify (10 x)", 10)] {
        let lengths = [room * thinned.points.len(), room * thinned.starts.len()];
        let filled = RefCell::new(Filled::new(lengths));
        let rust = || {
            black_box(black_box(&paths).simplify(1e-6));
        };
        let core = || {
            black_box(core_simplify(black_box(&case), &mut filled.borrow_mut()));
        };
        time(name, count, rust, core);
    }
    let left = thinned.points.len() / 3;
    println!(
        "({given} points, {count} when chopped, {left} when simplified; times a chopped point)"
    );
}
