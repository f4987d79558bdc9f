//! The draw: a scene and a view to a drawing, in lent slices.

use crate::calls;
use crate::core::{self, direct};
use crate::draw_inputs::{self, Bin, Draw, Lengths, Rooms, Threshold};
use crate::harness::{Part, Run, Share, time_rounds};
use crate::host::{self, raw};
use crate::scene_calls::{Words, copy, number, put, put_floats};
use crate::scene_inputs::has_lids;
use crate::stage_inputs::view_numbers;
use oracle::check::any_inside;
use oracle::generate::Rng;
use oracle::outlines::bare;
use oracle::stripes::striped;
use oracle::{Answer, FINE, Lines, Room, Scene, View, draw_measured, plain};
use std::cell::{Cell, RefCell};
use std::hint::black_box;
use std::time::{Duration, Instant};

/// The slices that a draw is lent, in the order of the call, and the counts.
struct Lent {
    out: Vec<f64>,
    begins: Vec<usize>,
    work: Vec<f64>,
    work_starts: Vec<usize>,
    chopped: Vec<f64>,
    chopped_starts: Vec<usize>,
    node_boxes: Vec<f64>,
    node_marks: Vec<u32>,
    order: Vec<u32>,
    points: usize,
    paths: usize,
}

impl Lent {
    /// Slices of these lengths, with something in each place.
    fn new(lengths: &Lengths) -> Lent {
        let floats = |k: usize| -> Vec<f64> {
            let some = [7.0, f64::NAN, -0.0, 1e300, f64::NEG_INFINITY];
            (0..lengths[k]).map(|i| some[i % 5]).collect()
        };
        let counts = |k: usize| -> Vec<usize> {
            (0..lengths[k]).map(|i| [7, usize::MAX, 1][i % 3]).collect()
        };
        let marks = |k: usize| -> Vec<u32> {
            (0..lengths[k]).map(|i| [7, u32::MAX, 1, 4][i % 4]).collect()
        };
        Lent {
            out: floats(0),
            begins: counts(1),
            work: floats(2),
            work_starts: counts(3),
            chopped: floats(4),
            chopped_starts: counts(5),
            node_boxes: floats(6),
            node_marks: marks(7),
            order: marks(8),
            points: 7,
            paths: 7,
        }
    }

    /// The answer, the counts, then each slice: how much of it there is before zeros alone follow, and
    /// that. Zeros and NaNs are written alike among the results, and only there.
    fn words(&self, number: u32) -> Words {
        let mut words = vec![u64::from(number), self.points as u64, self.paths as u64];
        let results = if number == 0 { 3 * self.points } else { 0 };
        put_floats(&mut words, &self.out, results);
        put(&mut words, self.begins.len(), |k| self.begins[k] as u64);
        put_floats(&mut words, &self.work, 0);
        put(&mut words, self.work_starts.len(), |k| self.work_starts[k] as u64);
        put_floats(&mut words, &self.chopped, 0);
        put(&mut words, self.chopped_starts.len(), |k| self.chopped_starts[k] as u64);
        put_floats(&mut words, &self.node_boxes, 0);
        put(&mut words, self.node_marks.len(), |k| u64::from(self.node_marks[k]));
        put(&mut words, self.order.len(), |k| u64::from(self.order[k]));
        Words(words)
    }

    /// The same of a preview: no result slices, and something in each place of the work no more.
    fn previewed(&self, number: u32) -> Words {
        let mut words = self.words(number).0;
        let clear = |xs: &[f64]| xs.iter().all(|x| x.to_bits() == 0);
        let none = |xs: &[usize]| xs.iter().all(|x| *x == 0);
        let blank = |xs: &[u32]| xs.iter().all(|x| *x == 0);
        words.truncate(3);
        words.push(u64::from(
            clear(&self.work)
                && none(&self.work_starts)
                && clear(&self.chopped)
                && none(&self.chopped_starts)
                && clear(&self.node_boxes)
                && blank(&self.node_marks)
                && blank(&self.order),
        ));
        Words(words)
    }

    /// What must be there afterwards: the drawing, then zeros; zeros alone in the work slices.
    fn told(lengths: &Lengths, answer: &Answer<Lines>) -> Words {
        let mut lent = Lent::new(lengths);
        lent.out.fill(0.0);
        lent.begins.fill(0);
        lent.work.fill(0.0);
        lent.work_starts.fill(0);
        lent.chopped.fill(0.0);
        lent.chopped_starts.fill(0);
        lent.node_boxes.fill(0.0);
        lent.node_marks.fill(0);
        lent.order.fill(0);
        (lent.points, lent.paths) = (0, 0);
        if let Ok(lines) = answer {
            copy(&mut lent.out, &lines.points);
            copy(&mut lent.begins, &lines.starts);
            (lent.points, lent.paths) = (lines.points.len() / 3, lines.starts.len());
        }
        lent.words(number(answer))
    }
}

/// A draw or a preview, called as it is: what is asked, then the lent slices of the work.
macro_rules! on_lent {
    ($call:ident, $s:ident, $lent:ident, $($asked:expr),*) => {
        direct!(
            $call,
            $s,
            $($asked,)*
            $lent.work.as_mut_ptr(),
            $lent.work.len(),
            $lent.work_starts.as_mut_ptr(),
            $lent.work_starts.len(),
            $lent.chopped.as_mut_ptr(),
            $lent.chopped.len(),
            $lent.chopped_starts.as_mut_ptr(),
            $lent.chopped_starts.len(),
            $lent.node_boxes.as_mut_ptr(),
            $lent.node_boxes.len(),
            $lent.node_marks.as_mut_ptr(),
            $lent.node_marks.len(),
            $lent.order.as_mut_ptr(),
            $lent.order.len(),
            &mut $lent.points,
            &mut $lent.paths
        )
    };
}

/// The slices that a host in Rust lends.
macro_rules! host_work {
    ($lent:ident) => {
        host::Work {
            work: &mut $lent.work,
            work_starts: &mut $lent.work_starts,
            chopped: &mut $lent.chopped,
            chopped_starts: &mut $lent.chopped_starts,
            node_boxes: &mut $lent.node_boxes,
            node_marks: &mut $lent.node_marks,
            order: &mut $lent.order,
        }
    };
}

fn core_draw(s: &Scene, view: &[f64; 22], threshold: Threshold, lent: &mut Lent) -> u32 {
    let (p, n) = (lent.out.as_mut_ptr(), lent.out.len());
    let (q, m) = (lent.begins.as_mut_ptr(), lent.begins.len());
    match threshold {
        None => on_lent!(larnt_draw, s, lent, view, p, n, q, m),
        Some(t) => on_lent!(larnt_draw_with, s, lent, view, t, p, n, q, m),
    }
}

fn core_preview(s: &Scene, view: &[f64; 22], threshold: Threshold, lent: &mut Lent) -> u32 {
    let (t, n, m) = (draw_inputs::figure(threshold), lent.out.len(), lent.begins.len());
    on_lent!(larnt_preview, s, lent, view, t, n, m)
}

fn host_preview(s: &Scene, view: &[f64; 22], threshold: Threshold, lent: &mut Lent) -> u32 {
    let (t, n, m) = (draw_inputs::figure(threshold), lent.out.len(), lent.begins.len());
    let result = host::preview(core::lent(s), view, t, n, m, host_work!(lent));
    (lent.points, lent.paths) = result.unwrap_or_default();
    result.err().unwrap_or(0)
}

fn host_draw(s: &Scene, view: &[f64; 22], threshold: Threshold, lent: &mut Lent) -> u32 {
    let work = host_work!(lent);
    let (s, out, begins) = (core::lent(s), &mut lent.out, &mut lent.begins);
    let result = match threshold {
        None => host::draw(s, view, out, begins, work),
        Some(t) => host::draw_with(s, view, t, out, begins, work),
    };
    (lent.points, lent.paths) = result.unwrap_or_default();
    result.err().unwrap_or(0)
}

/// What the core draws, given all the room that a short draw needs.
pub fn amply(scene: &Scene, view: &View) -> Option<Lines> {
    given(scene, view, &draw_inputs::ample(scene))
}

/// What the core draws in so much room.
pub fn given(scene: &Scene, view: &View, room: &Room) -> Option<Lines> {
    let mut lent = Lent::new(&draw_inputs::exactly(room));
    match core_draw(scene, &view_numbers(view), None, &mut lent) {
        0 => {
            let points = lent.out[..3 * lent.points].to_vec();
            Some(Lines { points, starts: lent.begins[..lent.paths].to_vec() })
        }
        _ => None,
    }
}

/// How many points and paths a preview counts, given all the room that a short draw needs.
pub fn counted(scene: &Scene, view: &View) -> Option<(usize, usize)> {
    let mut lent = Lent::new(&draw_inputs::exactly(&draw_inputs::ample(scene)));
    match core_preview(scene, &view_numbers(view), None, &mut lent) {
        0 => Some((lent.points, lent.paths)),
        _ => None,
    }
}

/// What the core answers and leaves in slices of these lengths.
pub fn core_words(scene: &Scene, view: &View, lengths: &Lengths) -> Words {
    let mut lent = Lent::new(lengths);
    let number = core_draw(scene, &view_numbers(view), None, &mut lent);
    lent.words(number)
}

/// The same that the Rust's answer asks for.
pub fn rust_words(lengths: &Lengths, answer: &Answer<Lines>) -> Words {
    Lent::told(lengths, answer)
}

/// The same drawing, zeros and NaNs alike.
pub fn alike(a: &Lines, b: &Lines) -> bool {
    let bits = |lines: &Lines| lines.points.iter().map(|x| calls::alike(*x)).collect::<Vec<u64>>();
    a.starts == b.starts && bits(a) == bits(b)
}

/// How often each number was met, 0 for an answer; and how long the core took.
#[derive(Default)]
struct Tally {
    met: RefCell<[u64; 15]>,
    calls: Cell<u64>,
    core: Cell<Duration>,
}

impl Tally {
    /// One draw by the core, directly and as a host in Rust makes it, in turn.
    fn core(&self, scene: &Scene, view: &View, asked: Threshold, lengths: &Lengths) -> Words {
        let mut lent = Lent::new(lengths);
        let view = view_numbers(view);
        let call = if self.calls.get().is_multiple_of(2) { core_draw } else { host_draw };
        let start = Instant::now();
        let number = call(scene, &view, asked, &mut lent);
        self.core.set(self.core.get() + start.elapsed());
        self.calls.set(self.calls.get() + 1);
        lent.words(number)
    }

    /// The preview of the same draw, directly and as a host in Rust makes it, in turn.
    fn preview(&self, scene: &Scene, view: &View, asked: Threshold, lengths: &Lengths) -> Words {
        let mut lent = Lent::new(lengths);
        let call = if self.calls.get().is_multiple_of(2) { core_preview } else { host_preview };
        let start = Instant::now();
        let number = call(scene, &view_numbers(view), asked, &mut lent);
        self.core.set(self.core.get() + start.elapsed());
        self.calls.set(self.calls.get() + 1);
        lent.previewed(number)
    }

    /// What a preview must answer: the draw's number and counts, and zeros in the work slices.
    fn counts(&self, answer: &Answer<Lines>) -> Words {
        let number = number(answer);
        if let Some(met) = self.met.borrow_mut().get_mut(number as usize) {
            *met += 1;
        }
        let (points, paths) = match answer {
            Ok(lines) => (lines.points.len() / 3, lines.starts.len()),
            Err(_) => (0, 0),
        };
        Words(vec![u64::from(number), points as u64, paths as u64, 1])
    }

    fn rust(&self, lengths: &Lengths, answer: &Answer<Lines>) -> Words {
        if let Some(met) = self.met.borrow_mut().get_mut(number(answer) as usize) {
            *met += 1;
        }
        Lent::told(lengths, answer)
    }

    fn print(&self, name: &str, omitted: u64, all: Duration) {
        let met = self.met.borrow();
        let refused: Vec<String> = (1..15).map(|n| format!("{n}: {}", met[n])).collect();
        let a_case = |time: Duration| time.as_secs_f64() * 1e6 / self.calls.get() as f64;
        println!(
            "({name}: answered {}; refused {}; omitted {omitted}; {:.0} us a case, the core {:.0})",
            met[0],
            refused.join(", "),
            a_case(all),
            a_case(self.core.get())
        );
    }
}

/// Whether an entry has stripes, and lines besides if asked for.
fn has_stripes(scene: &Scene, with_lines: bool) -> bool {
    let mut counted = scene.marks.chunks(4).enumerate().filter(|(_, m)| striped(m[0]) && m[1] > 0);
    counted.any(|(i, _)| !with_lines || scene.owners.contains(&(i as u32)))
}

/// Whether an entry has neither lines nor stripes, but an outline.
fn has_outline(scene: &Scene) -> bool {
    (0..scene.entries()).any(|i| bare(scene, i))
}

fn has(scene: &Scene, kind: u32) -> bool {
    scene.marks.chunks(4).any(|m| m[0] == kind)
}

pub fn compare(run: &mut Run) {
    let shares: &[Share<Draw, Words>] = &[
        ("drawn", &|_, a| a.0[0] == 0),
        ("with a path", &|_, a| a.0[0] == 0 && a.0[2] > 0),
        ("at step 0", &|case, a| a.0[0] == 0 && case.view.step == 0.0),
        ("with a cut", &|case, a| a.0[0] == 0 && has(&case.scene, 7)),
        ("with a cut at step 0", &|case, a| {
            a.0[0] == 0 && case.view.step == 0.0 && has(&case.scene, 7)
        }),
        ("with a placing", &|case, a| a.0[0] == 0 && has(&case.scene, 6)),
        ("with lines handed in", &|case, a| a.0[0] == 0 && !case.scene.starts.is_empty()),
        ("with outlines", &|case, a| a.0[0] == 0 && has_outline(&case.scene)),
        ("with outlines in a placing", &|case, a| {
            a.0[0] == 0 && any_inside(&case.scene, |i| bare(&case.scene, i), 6)
        }),
        ("with outlines in a cut", &|case, a| {
            a.0[0] == 0 && any_inside(&case.scene, |i| bare(&case.scene, i), 7)
        }),
        ("with stripes", &|case, a| a.0[0] == 0 && has_stripes(&case.scene, false)),
        ("with stripes and lines of one solid", &|case, a| {
            a.0[0] == 0 && has_stripes(&case.scene, true)
        }),
        ("with closed solids", &|case, a| a.0[0] == 0 && has_lids(&case.scene)),
        ("with closed solids in a cut", &|case, a| {
            a.0[0] == 0 && has(&case.scene, 7) && has_lids(&case.scene)
        }),
        ("out exactly full", &|case, a| {
            a.0[0] == 0 && a.0[1] > 0 && case.lengths[0] / 3 == a.0[1] as usize
        }),
    ];
    // what a threshold does: at one figure, or refused for its sake
    let asked: &[Share<Draw, Words>] = &[
        ("at 1e-6", &|case, a| a.0[0] == 0 && case.threshold == Some(FINE)),
        ("at 0", &|case, a| a.0[0] == 0 && case.threshold == Some(0.0)),
        ("a bad threshold", &|case, a| {
            a.0[0] == 8 && case.threshold.is_some_and(|t| !t.is_finite() || t < 0.0)
        }),
    ];
    compare_one(run, "draw", |_| None, shares);
    compare_one(run, "draw_with", draw_inputs::threshold, &[shares, asked].concat());
    preview_one(run, "preview", draw_inputs::threshold, &[shares, asked].concat());

    let shares: &[Part<Rooms, Words>] = &[
        ("drawn", &|_, _, a| a.0[0] == 0),
        ("13", &|_, _, a| a.0[0] == 13),
        ("another trouble first", &|_, k, a| k > 0 && ![0, 13].contains(&a.0[0])),
    ];
    let tally = Tally::default();
    let start = Instant::now();
    let rust = |case: &Rooms| -> Vec<Words> {
        case.lent.iter().map(|(lengths, answer)| tally.rust(lengths, answer)).collect()
    };
    let core = |case: &Rooms| -> Vec<Words> {
        let lent = case.lent.iter();
        lent.map(|(lengths, _)| tally.core(&case.scene, &case.view, case.threshold, lengths))
            .collect()
    };
    let (count, make) = (run.count.div_ceil(2), draw_inputs::rooms);
    run.compare_many("draw.rooms", count, make, Rooms::one, rust, &[&core], shares);
    tally.print("draw.rooms", 0, start.elapsed());

    let tally = Tally::default();
    let start = Instant::now();
    let rust = |case: &Rooms| -> Vec<Words> {
        case.lent.iter().map(|(_, answer)| tally.counts(answer)).collect()
    };
    let core = |case: &Rooms| -> Vec<Words> {
        let lent = case.lent.iter();
        lent.map(|(lengths, _)| tally.preview(&case.scene, &case.view, case.threshold, lengths))
            .collect()
    };
    run.compare_many("preview.rooms", count, make, Rooms::one, rust, &[&core], shares);
    tally.print("preview.rooms", 0, start.elapsed());
}

/// The preview of a draw with a threshold.
fn preview_one(
    run: &mut Run,
    name: &str,
    threshold: fn(&mut Rng) -> Threshold,
    shares: &[Share<Draw, Words>],
) {
    let (tally, omitted) = (Tally::default(), Cell::new(0));
    let make = |rng: &mut Rng| {
        let mut count = omitted.get();
        let case = draw_inputs::draw(rng, &mut count, threshold);
        omitted.set(count);
        case
    };
    let start = Instant::now();
    let rust = |case: &Draw| tally.counts(&case.answer);
    let core = |case: &Draw| tally.preview(&case.scene, &case.view, case.threshold, &case.lengths);
    run.compare(name, run.count, make, rust, &[&core], shares);
    tally.print(name, omitted.get(), start.elapsed());
}

/// One of the two draws: by default, or with a threshold.
fn compare_one(
    run: &mut Run,
    name: &str,
    threshold: fn(&mut Rng) -> Threshold,
    shares: &[Share<Draw, Words>],
) {
    let (tally, omitted) = (Tally::default(), Cell::new(0));
    let make = |rng: &mut Rng| {
        let mut count = omitted.get();
        let case = draw_inputs::draw(rng, &mut count, threshold);
        omitted.set(count);
        case
    };
    let start = Instant::now();
    let rust = |case: &Draw| tally.rust(&case.lengths, &case.answer);
    let core = |case: &Draw| tally.core(&case.scene, &case.view, case.threshold, &case.lengths);
    run.compare(name, run.count, make, rust, &[&core], shares);
    tally.print(name, omitted.get(), start.elapsed());
}

/// The draws of `driver speed`.
pub fn speed() {
    for n in [100, 500, 1000] {
        for step in [0.0, 4.0, 1.0] {
            let (scene, view) = draw_inputs::ordinary(&mut Rng::new(1), n, step);
            time_draw(
                &format!("draw ({n}, {step})"),
                &scene,
                &view,
                if step == 0.0 { 100 } else { 12 },
            );
        }
    }
    // at step 0 a cut's lines are chopped to millions of points, which takes seconds on either side
    for one_in in [10, 4] {
        for n in [20, 100, 300] {
            for step in [4.0, 1.0] {
                let (scene, view) = draw_inputs::cut_open(&mut Rng::new(1), n, one_in, step);
                let rounds = if n < 100 { 200 } else { 20 };
                time_draw(&format!("cut 1 in {one_in} ({n}, {step})"), &scene, &view, rounds);
            }
        }
    }
    for step in [2.0, 0.5] {
        for (bin, placed, what) in [
            (Bin::Block, false, "bins"),
            (Bin::Block, true, "placed bins"),
            (Bin::Tube, true, "placed tubes"),
        ] {
            for openings in [0, 1, 2] {
                let (scene, view) =
                    draw_inputs::bins(&mut Rng::new(1), bin, openings, placed, step);
                time_draw(&format!("{what}, {openings} cut ({step})"), &scene, &view, 40);
            }
        }
        let (scene, view) = draw_inputs::cuts_in_cuts(&mut Rng::new(1), step);
        time_draw(&format!("cuts in cuts ({step})"), &scene, &view, 20);
    }
}

/// How the cost grows with the solids and as the step gets finer.
pub fn growth() {
    for n in [10, 100, 1000] {
        for step in [4.0, 1.0, 0.25] {
            let (scene, view) = draw_inputs::ordinary(&mut Rng::new(1), n, step);
            let rounds = match n {
                10 => 300,
                100 => 30,
                _ => 8,
            };
            time_draw(&format!("draw ({n}, {step})"), &scene, &view, rounds);
        }
    }
}

/// The Rust draws shapes that stand already, then makes them too; the core checks the scene first, and
/// forms inverses and boxes. Its slices are exactly full.
fn time_draw(name: &str, scene: &Scene, view: &View, rounds: usize) {
    let (drawn, used) = draw_measured(scene, view, FINE, oracle::Room::ENDLESS);
    let drawn = drawn.unwrap_or_else(|trouble| panic!("{trouble:?}"));
    let entries = plain::entries(scene);
    let lengths = draw_inputs::exactly(&used);
    let lent = RefCell::new(Lent::new(&lengths));
    let numbers = view_numbers(view);
    let standing = || {
        black_box(plain::draw(black_box(&entries), black_box(view), FINE));
    };
    let made = || {
        let entries = plain::entries(black_box(scene));
        black_box(plain::draw(&entries, black_box(view), FINE));
    };
    let core = || {
        let number = core_draw(black_box(scene), &numbers, Some(FINE), &mut lent.borrow_mut());
        assert_eq!(black_box(number), 0);
    };
    time_rounds(name, 1, rounds, standing, core);
    time_rounds("..and shapes", 1, rounds, made, core);
    println!(
        "({} points chopped, {} drawn in {} paths)",
        used.chopped.points,
        drawn.points.len() / 3,
        drawn.starts.len()
    );
}
