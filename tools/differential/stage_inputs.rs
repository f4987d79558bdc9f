//! Seeded paths for the chop and the simplification: empty ones, single points, closed, repeated and
//! collinear ones, extremes; views and thresholds. A seed gives the same everywhere.

use crate::harness::Shown;
use crate::inputs::{self, Grain, Numbers, Point};
use oracle::generate::Rng;
use oracle::larnt_limited::limits;
use oracle::{Answer, Lines, Places, View};
use std::fmt::Write;

/// Paths, a view or a threshold, and the lengths of the two slices that the result goes to.
pub struct Stage {
    pub view: View,
    pub threshold: f64,
    pub lines: Lines,
    pub lengths: [usize; 2],
}

impl Stage {
    pub fn places(&self) -> Places {
        Places { points: self.lengths[0] / 3, starts: self.lengths[1] }
    }

    pub fn view_numbers(&self) -> [f64; 22] {
        view_numbers(&self.view)
    }
}

/// A view as the calls take it.
pub fn view_numbers(v: &View) -> [f64; 22] {
    let mut n = [0.0; 22];
    n[..16].copy_from_slice(&v.matrix);
    n[16..19].copy_from_slice(&v.eye);
    (n[19], n[20], n[21]) = (v.width, v.height, v.step);
    n
}

impl Shown for Stage {
    fn size(&self) -> u32 {
        let view = self.view_numbers();
        let floats = self.lines.points.iter().chain(&view).chain([&self.threshold]);
        let ones: u32 = floats.map(|x| 8 + x.to_bits().count_ones()).sum();
        let starts = self.lines.starts.iter().chain(&self.lengths);
        ones + starts.map(|k| 8 + k.count_ones()).sum::<u32>()
    }

    /// The view, the threshold, points, starts, and the lengths.
    fn text(&self) -> String {
        let mut text = String::new();
        for x in self.view_numbers().iter().chain([&self.threshold]) {
            write!(text, "{:016X} ", x.to_bits()).unwrap();
        }
        write!(text, "{}", self.lines.points.len()).unwrap();
        for x in &self.lines.points {
            write!(text, " {:016X}", x.to_bits()).unwrap();
        }
        let [out, begins] = self.lengths;
        write!(text, " {:?} {out} {begins}", self.lines.starts).unwrap();
        text
    }
}

/// The most points that a case's result has room for.
const MOST_POINTS: usize = 700;

pub fn chop(rng: &mut Rng) -> Stage {
    let (mut lines, scale) = paths(rng);
    let mut view = view(rng, scale);
    if rng.chance(3) {
        damage_view(rng, &mut view);
    }
    if rng.chance(6) {
        damage(rng, &mut lines);
    }
    let ample = Places { points: MOST_POINTS, starts: 40 };
    let answer = oracle::chop(&view, &lines, ample);
    let lengths = lengths(rng, answer);
    Stage { view, threshold: 0.0, lines, lengths }
}

/// A segment as long as may be, and room for its first pieces: the halvings nest deepest there.
pub fn longest(rng: &mut Rng) -> Stage {
    let corner = |rng: &mut Rng| -> Point {
        std::array::from_fn(|_| {
            let edge = rng.pick(&[1e6, 1e6, 999_999.75]);
            let far = inputs::nudged(rng, edge).min(1e6);
            rng.pick(&[far, -far])
        })
    };
    let a = corner(rng);
    let b = if rng.chance(80) { a.map(|x| -x) } else { corner(rng) };
    let mut view = view(rng, 1e6);
    (view.step, view.width, view.height) = (rng.pick(&[0.0, 1e-200]), 1000.0, 1000.0);
    if rng.chance(50) {
        view.matrix = [0.0; 16];
    }
    let lines = Lines { points: [a, b].concat(), starts: vec![0] };
    let lengths = [3 * (2 + rng.below(60)), 1 + rng.below(2)];
    Stage { view, threshold: 0.0, lines, lengths }
}

pub fn simplify(rng: &mut Rng) -> Stage {
    let (mut lines, scale) = paths(rng);
    if rng.chance(6) {
        damage(rng, &mut lines);
    }
    let threshold = threshold(rng, scale);
    let ample = Places { points: usize::MAX, starts: usize::MAX };
    let answer = oracle::simplify(threshold, &lines, ample);
    let lengths = lengths(rng, answer);
    let matrix = [0.0; 16];
    let view = View { matrix, eye: [0.0; 3], width: 0.0, height: 0.0, step: 0.0 };
    Stage { view, threshold, lines, lengths }
}

/// Mostly what the result takes exactly, one place less somewhere, or some more. `answer` is the last
/// call of the oracle.
fn lengths(rng: &mut Rng, answer: Answer<Lines>) -> [usize; 2] {
    let used = limits::used().out;
    let less = used.points.saturating_sub(1);
    if answer.is_err() {
        let points = rng.pick(&[0, 1, 2, 30, MOST_POINTS]);
        return [3 * points + rng.below(3), rng.below(8)];
    }
    match rng.below(20) {
        0..7 => [3 * used.points, used.starts],
        7..10 => [3 * less + rng.below(3), used.starts + rng.below(3)],
        10..13 => [3 * used.points + rng.below(9), used.starts.saturating_sub(1)],
        13 => [0, 0],
        14 => [rng.below(3 * used.points + 3), rng.below(used.starts + 2)],
        _ => [3 * (used.points + rng.below(9)) + rng.below(3), used.starts + rng.below(4)],
    }
}

// Paths.

/// Paths of all sorts, and about how far their points reach.
fn paths(rng: &mut Rng) -> (Lines, f64) {
    let far = rng.between(1.0, 1e6);
    let scale = rng.pick(&[1.0, 1.0, 50.0, 50.0, 50.0, 1e-3, 1e6, far, 1e-160, 5e-324]);
    let grain = inputs::grain(rng);
    let mut lines = Lines::default();
    for _ in 0..rng.pick(&[0, 1, 1, 1, 1, 2, 2, 2, 2, 3, 3, 5]) {
        lines.starts.push(lines.points.len() / 3);
        let count = match rng.below(200) {
            0..16 => 0,
            16..36 => 1,
            36..76 => 2,
            76..100 => 3,
            100..190 => 3 + rng.below(10),
            190..199 => 12 + rng.below(60),
            _ => 100 + rng.below(400),
        };
        let path = path(rng, grain, count);
        let size = scale / 50.0;
        lines.points.extend(path.iter().flatten().map(|x| (x * size).clamp(-1e6, 1e6)));
    }
    if rng.chance(4) {
        // zeros of either sign, tiny and huge ones
        let often = rng.pick(&[10, 50, 100]);
        for x in &mut lines.points {
            if rng.chance(often) {
                *x = rng.pick(&[0.0, -0.0, 5e-324, -5e-324, 1e-300, 1e6, -1e6, 1e-9, -1.0]);
            }
        }
    }
    if rng.chance(2) {
        // nothing is handed over then
        lines.starts.clear();
    }
    (lines, scale)
}

/// Points from -50 to 50.
fn path(rng: &mut Rng, grain: Grain, count: usize) -> Vec<Point> {
    let place = |rng: &mut Rng| inputs::place(rng, grain);
    let (from, to) = (place(rng), place(rng));
    let steps = count.max(2) - 1;
    let along = |t: f64| -> Point { std::array::from_fn(|k| from[k] + (to[k] - from[k]) * t) };
    let mut path: Vec<Point> = match rng.below(12) {
        0..3 => (0..count).map(|_| place(rng)).collect(),
        // in one line, in order or not
        3 | 4 => (0..count).map(|k| along(k as f64 / steps as f64)).collect(),
        5 => (0..count).map(|_| along(rng.between(-0.5, 1.5))).collect(),
        // nearly in one line
        6 => {
            let off = rng.pick(&[1e-9, 1e-6, 0.01, 1.0]);
            (0..count)
                .map(|k| along(k as f64 / steps as f64).map(|x| x + off * rng.between(-1.0, 1.0)))
                .collect()
        }
        // to and fro, by equal steps: distances tie
        7 | 8 => {
            let high = rng.pick(&[0.25, 0.5, 1.0, 3.0]);
            (0..count).map(|k| [k as f64 / 4.0 - 20.0, high * (k % 2) as f64, 0.0]).collect()
        }
        // on both sides of its start, ever farther
        9 => (0..count)
            .map(|k| {
                let x = k as f64 * 50.0 / count as f64;
                [if k % 2 == 0 { x } else { -x }, 0.0, 0.0]
            })
            .collect(),
        // a bow
        10 => (0..count)
            .map(|k| {
                let t = k as f64 / steps as f64 * 2.0 - 1.0;
                [40.0 * t, 40.0 * t * t, 10.0 * t]
            })
            .collect(),
        // few spots
        _ => {
            let spots = [from, to, place(rng)];
            (0..count).map(|_| rng.pick(&spots)).collect()
        }
    };
    if rng.chance(15) {
        for k in 1..path.len() {
            if rng.chance(30) {
                path[k] = path[k - 1];
            }
        }
    }
    if rng.chance(20) && !path.is_empty() {
        path.push(path[0]);
    }
    path
}

fn threshold(rng: &mut Rng, scale: f64) -> f64 {
    let near = scale * rng.between(0.0, 0.5);
    let tie = rng.pick(&[0.25, 0.5, 1.0, 3.0]) * (scale / 50.0);
    match rng.below(100) {
        0..15 => 0.0,
        15..18 => -0.0,
        18..24 => rng.pick(&[5e-324, 1e-310, 2.2e-308]),
        24..34 => 1e-6,
        34..60 => near,
        60..80 => tie,
        80..86 => scale,
        86..92 => rng.pick(&[1e300, f64::MAX, 2e6, 1e9]),
        92..96 => scale * 1e-3,
        96..98 => rng.pick(&[-1e-9, -5e-324, f64::NAN, f64::INFINITY, f64::NEG_INFINITY]),
        _ => inputs::extreme(rng),
    }
}

/// Does damage that may meet 2, 4 or 9.
fn damage(rng: &mut Rng, lines: &mut Lines) {
    let count = lines.points.len() / 3;
    match rng.below(6) {
        0 => lines.points.extend(vec![0.0; 1 + rng.below(2)]),
        1 if !lines.starts.is_empty() => {
            let k = rng.below(lines.starts.len());
            let any = rng.below(9);
            lines.starts[k] = rng.pick(&[0, 1, count, count + 1, usize::MAX, any]);
        }
        2 => lines.starts.push(rng.pick(&[0, count, count + 1])),
        3 if !lines.starts.is_empty() => {
            lines.starts.remove(0);
        }
        _ if !lines.points.is_empty() => {
            let k = rng.below(lines.points.len());
            let bad = [f64::NAN, f64::INFINITY, -1_000_000.5, 1e6_f64.next_up(), 1e6];
            lines.points[k] = rng.pick(&bad);
        }
        _ => {}
    }
}

// Views.

/// A view of points that reach so far. Mostly a few pieces come of a segment.
fn view(rng: &mut Rng, scale: f64) -> View {
    let width: f64 = rng.pick(&[2.0, 100.0, 100.0, 1000.0, 1000.0, 1000.0, 1e6, 1e-300]);
    let height = rng.pick(&[width, width, width / 2.0, 7.0]);
    let fine = rng.pick(&[2.0, 4.0, 10.0, 10.0, 30.0, 100.0]);
    let step = match rng.below(100) {
        0..4 => rng.pick(&[0.0, -0.0, 1e-200, 5e-324]),
        4..7 => 1000.0,
        _ => (width / fine).min(1000.0),
    };
    let scale = scale.max(1e-100);
    let shown = scale * rng.pick(&[0.5, 1.0, 1.0, 2.0, 2.0, 5.0]);
    let matrix: Numbers = match rng.below(100) {
        0..65 => {
            let turned = inputs::turned(rng, true);
            std::array::from_fn(|k| match k {
                3 | 7 | 11 => rng.between(-0.3, 0.3),
                0..12 => turned[k] / shown,
                _ => turned[k],
            })
        }
        65..80 => {
            // over a fourth coordinate that may vanish
            let mut m: Numbers = std::array::from_fn(|_| rng.between(-1.0, 1.0) / shown);
            m[15] = rng.pick(&[0.0, 1.0, 2.0]);
            m
        }
        80..90 => inputs::matrix(rng),
        90..93 => [0.0; 16],
        93..96 => std::array::from_fn(|_| rng.pick(&[0.0, -0.0, 1.0, -1.0, 1e300, -1e300, 5e-324])),
        _ => {
            let axis = rng.below(3);
            let mut m = [0.0; 16];
            for row in 0..3 {
                m[4 * row + (axis + 1 + row) % 3] = 1.0 / shown;
            }
            m[15] = 1.0;
            m
        }
    };
    View { matrix, eye: inputs::place(rng, Grain::Any), width, height, step }
}

/// Does damage that may meet 8.
pub fn damage_view(rng: &mut Rng, view: &mut View) {
    let bad = inputs::extreme(rng);
    match rng.below(5) {
        0 => view.matrix[rng.below(16)] = bad,
        1 => view.eye[rng.below(3)] = bad,
        2 => view.width = rng.pick(&[bad, 0.0, -0.0, -1.0, 1e6_f64.next_up()]),
        3 => view.height = rng.pick(&[bad, 0.0, -0.0, -1.0, 1e6_f64.next_up()]),
        _ => view.step = rng.pick(&[bad, 1000.5, -5e-324, 1000.0_f64.next_up()]),
    }
}

// For timing.

/// Lines of a yard on a sheet of 1,000 by 1,000: the edges of boxes, and rings.
pub fn ordinary(rng: &mut Rng) -> Stage {
    let mut lines = Lines::default();
    for _ in 0..40 {
        let at = inputs::place(rng, Grain::Any);
        let size = rng.between(2.0, 20.0);
        lines.starts.push(lines.points.len() / 3);
        let ring = rng.chance(40);
        for k in 0..if ring { 36 } else { 5 } {
            let t = k as f64 / if ring { 35.0 } else { 4.0 };
            let (x, y) = ring_point(t);
            lines.points.extend([at[0] + size * x, at[1] + size * y, at[2]]);
        }
    }
    let mut matrix = [0.0; 16];
    let turned = inputs::turned(rng, true);
    for k in 0..12 {
        matrix[k] = if k % 4 == 3 { 0.0 } else { turned[k] / 70.0 };
    }
    matrix[15] = 1.0;
    let view = View { matrix, eye: [90.0, -120.0, 70.0], width: 1000.0, height: 1000.0, step: 4.0 };
    Stage { view, threshold: 1e-6, lines, lengths: [0, 0] }
}

/// Once around the unit square's rim, bent to a circle.
pub fn ring_point(t: f64) -> (f64, f64) {
    let quarter = (4.0 * t).floor();
    let u = 4.0 * t - quarter;
    let d = 1.0 + u * u;
    let (c, s) = ((1.0 - u * u) / d, 2.0 * u / d);
    match quarter as i64 % 4 {
        0 => (c, s),
        1 => (-s, c),
        2 => (-c, -s),
        _ => (s, -c),
    }
}
