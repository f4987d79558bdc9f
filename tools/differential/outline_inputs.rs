//! Seeded outlines: round solids in placings, seen from outside, from within, from the axis, from the apex's height and from
//! the surface itself, at all steps; and spoilt ones. A seed gives the same everywhere.

use crate::draw_inputs::camera;
use crate::harness::Shown;
use crate::inputs::{self, Numbers, Point, along, unit};
use crate::stage_inputs::{damage_view, view_numbers};
use oracle::check::used_numbers;
use oracle::generate::Rng;
use oracle::outlines::{self, Line, outline};
use oracle::{View, plain};

/// A solid, the eye in its own coordinates, the placings around it, innermost first, how many numbers follow them that
/// make no whole matrix, a view, and the lengths of the two slices that the outline goes to.
pub struct Outline {
    pub kind: u32,
    pub numbers: Numbers,
    pub eye: Point,
    pub placings: Vec<Numbers>,
    pub more: usize,
    pub view: View,
    pub lengths: [usize; 2],
}

impl Outline {
    /// By the second implementation.
    pub fn lines(&self) -> Vec<Line> {
        outline(self.kind, &self.numbers, self.eye, &self.placings, &self.view)
    }

    /// The placings as they are lent.
    pub fn lent(&self) -> Vec<f64> {
        let mut lent = self.placings.concat();
        lent.resize(lent.len() + self.more, 1.0);
        lent
    }

    pub fn radius(&self) -> f64 {
        self.numbers[if self.kind == 1 { 3 } else { 0 }]
    }
}

impl Shown for Outline {
    fn size(&self) -> u32 {
        let view = view_numbers(&self.view);
        let lent = self.lent();
        let floats = self.numbers.iter().chain(&self.eye).chain(&lent).chain(&view);
        let ones: u32 = floats.map(|x| x.to_bits().count_ones()).sum();
        ones + lent.len() as u32 + self.lengths.iter().map(|n| n.count_ones()).sum::<u32>()
    }

    /// As the oracle's program reads it, if the kind is one that has no parts; then the lengths.
    fn text(&self) -> String {
        let (v, used) = (&self.view, &self.numbers[..used_numbers(self.kind)]);
        let words = |xs: &mut dyn Iterator<Item = &f64>| {
            xs.fold(String::new(), |text, x| format!("{text}{:016X} ", x.to_bits()))
        };
        let solid = words(&mut used.iter().chain(&self.eye));
        let placings = words(&mut self.placings.iter().flatten());
        let sheet = [v.width, v.height, v.step];
        let view = words(&mut sheet.iter().chain(&v.eye).chain(&v.matrix));
        let (kind, n, more, lengths) = (self.kind, self.placings.len(), self.more, self.lengths);
        format!("outline {kind} {solid}{n} {placings}{view}({more} more, lengths {lengths:?})")
    }
}

pub fn outlined(rng: &mut Rng) -> Outline {
    let other = rng.next() as u32;
    let kind = match rng.below(100) {
        0..2 => rng.pick(&[4, 5]),
        2..4 => rng.pick(&[0, 6, 7, 10, 256 + 2, u32::MAX, other]),
        _ => rng.pick(&[1, 1, 2, 2, 3, 3, 8, 9]),
    };
    let numbers = solid(rng, kind);
    let placings: Vec<Numbers> = (0..nesting(rng)).map(|_| placing(rng)).collect();
    let eye = own_eye(rng, kind, &numbers);
    let view = view(rng, kind, &numbers, &placings, eye);
    // the eye as it comes back, or exactly where it is meant to be
    let eye = if rng.chance(60) { outlines::own_eye(&view, &placings) } else { eye };
    let more = if rng.chance(2) { 1 + rng.below(15) } else { 0 };
    let mut case = Outline { kind, numbers, eye, placings, more, view, lengths: [0; 2] };
    spoil(rng, &mut case);
    case.lengths = lengths(rng, &case.lines());
    case
}

/// Mostly what the outline takes exactly, one place less somewhere, or some more.
fn lengths(rng: &mut Rng, lines: &[Line]) -> [usize; 2] {
    let (points, paths) = (lines.iter().map(Vec::len).sum::<usize>(), lines.len());
    match rng.below(20) {
        0..13 => [3 * points, paths],
        13 => [3 * points.saturating_sub(1) + rng.below(3), paths + rng.below(3)],
        14 => [3 * points + rng.below(9), paths.saturating_sub(1)],
        15 if rng.chance(30) => [rng.below(3 * points + 3), rng.below(paths + 2)],
        _ => [3 * points + rng.below(9), paths + rng.below(3)],
    }
}

/// Any number anywhere, or a view that meets 8.
fn spoil(rng: &mut Rng, case: &mut Outline) {
    let bad = inputs::extreme(rng);
    match rng.below(100) {
        0..2 => case.numbers[rng.below(4)] = bad,
        2..5 => case.eye[rng.below(3)] = bad,
        5..7 if !case.placings.is_empty() => {
            let k = rng.below(case.placings.len());
            case.placings[k][rng.below(16)] = bad;
        }
        7..9 => case.view.matrix[rng.below(16)] = bad,
        9..11 => damage_view(rng, &mut case.view),
        11 => case.eye = std::array::from_fn(|_| inputs::extreme(rng)),
        _ => {}
    }
}

// Solids.

fn measure(rng: &mut Rng) -> f64 {
    let any = rng.between(0.05, 20.0);
    match rng.below(20) {
        0 => rng.pick(&[0.0, -0.0]),
        1 => rng.pick(&[5e-324, 1e-310, 1e-300, 1e-160, 1e-9, 1e-5]),
        2 => rng.pick(&[0.001, 1e6, 999_999.9, 0.1]),
        3..9 => (1 + rng.below(20)) as f64,
        9..12 => (1 + rng.below(80)) as f64 / 4.0,
        12 => any * rng.pick(&[1e-3, 100.0, 1e4]),
        _ => any,
    }
}

fn height(rng: &mut Rng) -> f64 {
    let far = rng.between(-20.0, 20.0);
    rng.pick(&[0.0, -0.0, 1.0, -3.0, far, far, far.round(), 1e5 * far])
}

fn solid(rng: &mut Rng, kind: u32) -> Numbers {
    let mut n: Numbers = std::array::from_fn(|k| if k < 9 { 0.0 } else { f64::NAN });
    match kind {
        1 => {
            let c = [height(rng), height(rng), height(rng)];
            n[..3].copy_from_slice(if rng.chance(30) { &[0.0; 3] } else { &c });
            n[3] = measure(rng);
        }
        2 | 8 => {
            (n[0], n[1]) = (measure(rng), height(rng));
            n[2] = n[1] + measure(rng);
        }
        _ => {
            n[0] = measure(rng);
            n[1] = measure(rng).max(5e-324);
        }
    }
    n
}

/// A point within a solid or next to it.
fn middle(kind: u32, n: &Numbers) -> Point {
    match kind {
        1 => [n[0], n[1], n[2]],
        2 | 8 => [0.0, 0.0, (n[1] + n[2]) / 2.0],
        _ => [0.0, 0.0, n[1] / 2.0],
    }
}

/// An eye in the solid's own coordinates.
fn own_eye(rng: &mut Rng, kind: u32, n: &Numbers) -> Point {
    let r = n[if kind == 1 { 3 } else { 0 }];
    let middle = middle(kind, n);
    let around: Point = std::array::from_fn(|_| rng.between(-1.0, 1.0));
    let away = unit(around);
    let far = r.max(1e-3) * rng.pick(&[1.1, 1.5, 2.0, 2.0, 4.0, 10.0, 50.0]);
    let outside = along(middle, away, far);
    // a place at the side of a given length: along an axis, or by a triangle of whole numbers
    let [cos, sin] = rng.pick(&[[1.0, 0.0], [0.0, -1.0], [-1.0, 0.0], [0.6, 0.8], [-0.8, 0.6]]);
    let z = match kind {
        1 => n[2],
        2 | 8 => rng.pick(&[n[1], n[2], outside[2]]),
        _ => rng.pick(&[0.0, n[1], n[1] / 2.0, -n[1], 2.0 * n[1], outside[2]]),
    };
    // how far from the axis the surface is at that height
    let wide = if matches!(kind, 3 | 9) { r * (1.0 - z / n[1]) } else { r };
    let side = |wide: f64| match kind {
        1 => [n[0] + wide * cos, n[1] + wide * sin, n[2]],
        _ => [wide * cos, wide * sin, z],
    };
    match rng.below(20) {
        0 => along(middle, away, 0.9 * r * rng.unit()),
        1 => [rng.pick(&[0.0, -0.0]), rng.pick(&[0.0, -0.0]), z],
        2 => [0.0, 0.0, outside[2]],
        3 => side(wide),
        4 => side(inputs::nudged(rng, wide)),
        5 => side(1.0001 * wide),
        6 => side(2.0 * wide),
        7 => [outside[0], outside[1], z],
        8 => along(middle, unit([1.0, rng.pick(&[1.0, -1.0]), 1.0]), far),
        9 => along(middle, [cos, sin, rng.pick(&[0.0, -0.0])], far),
        10 => along(middle, [0.0, rng.pick(&[0.0, -0.0]), rng.pick(&[1.0, -1.0])], far),
        11 => middle,
        _ => outside,
    }
}

// Placings.

fn nesting(rng: &mut Rng) -> usize {
    match rng.below(100) {
        0..35 => 0,
        35..65 => 1,
        65..80 => 2,
        80..82 => 8 + rng.below(3),
        _ => 3 + rng.below(5),
    }
}

const IDENTITY: Numbers =
    [1.0, 0.0, 0.0, 0.0, 0.0, 1.0, 0.0, 0.0, 0.0, 0.0, 1.0, 0.0, 0.0, 0.0, 0.0, 1.0];

/// Moved, stretched, turned, skewed, or any regular matrix; one in five with any row 4.
fn placing(rng: &mut Rng) -> Numbers {
    let mut m = match rng.below(20) {
        0..6 => IDENTITY,
        6..9 => {
            let mut m = IDENTITY;
            for k in [0, 5, 10] {
                m[k] = rng.pick(&[1.0, -1.0, 2.0, 0.5, 3.0, 0.1]);
            }
            m
        }
        9..14 => inputs::turned(rng, true),
        14..17 => {
            let mut m = IDENTITY;
            for k in [0, 1, 2, 4, 5, 6, 8, 9, 10] {
                m[k] += rng.between(-0.7, 0.7);
            }
            m
        }
        17 => inputs::turned(rng, false),
        _ => inputs::matrix(rng),
    };
    if rng.chance(70) {
        let grain = inputs::grain(rng);
        let to = inputs::place(rng, grain);
        (m[3], m[7], m[11]) = (to[0], to[1], to[2]);
    }
    if rng.chance(20) {
        m[12..].fill_with(|| rng.pick(&[0.0, 0.0, 1.0, 2.0, -1.0, 0.5]));
        m[15] = rng.pick(&[1.0, 2.0, 0.25, 3.0, -1.0]);
    }
    m
}

// Views.

/// A view from an eye in the solid's own coordinates, taken out through its placings.
fn view(rng: &mut Rng, kind: u32, n: &Numbers, placings: &[Numbers], own: Point) -> View {
    let out = |p: Point| {
        let moved = placings.iter().fold(plain::vector(p), |v, m| plain::matrix(m).mul_position(v));
        [moved.x, moved.y, moved.z].map(|x| if x.is_nan() { 0.0 } else { x.clamp(-1e6, 1e6) })
    };
    let (eye, target) = (out(own), out(middle(kind, n)));
    let rim = out([n[0], 0.0, middle(kind, n)[2]]);
    let size = inputs::dot(inputs::minus(rim, target), inputs::minus(rim, target)).sqrt();
    let width: f64 = rng.pick(&[2.0, 100.0, 640.0, 1000.0, 1000.0, 1000.0, 1e6]);
    let height = rng.pick(&[width, width, width / 2.0, 7.0]);
    let fine = rng.pick(&[1.0, 2.0, 4.0, 8.0, 15.0, 30.0, 60.0, 120.0]);
    let step = match rng.below(100) {
        0..10 => rng.pick(&[0.0, -0.0]),
        10..20 => rng.pick(&[5e-324, 1e-200, 1e-9, 1e-3]),
        20..26 => 1000.0,
        26..34 => rng.pick(&[1.0, 4.0, 10.0]),
        _ => (width / fine).min(1000.0),
    };
    let far = inputs::minus(target, eye);
    let distance = inputs::dot(far, far).sqrt();
    let matrix = match rng.below(100) {
        0..60 if distance > 0.0 => {
            let half = rng.pick(&[0.1, 0.45, 0.45, 1.2]);
            camera(eye, target, half, width / height, [0.01 * distance, 20.0 * distance])
        }
        0..85 => level(rng, target, size),
        85..90 => inputs::matrix(rng),
        90..95 => std::array::from_fn(|_| rng.between(-1.0, 1.0)),
        95..97 => [0.0; 16],
        _ => std::array::from_fn(|_| rng.pick(&[0.0, -0.0, 1.0, -1.0, 1e300, -1e300, 5e-324])),
    };
    let matrix = matrix.map(|x: f64| if x.is_finite() { x } else { 1.0 });
    View { matrix, eye, width, height, step }
}

/// Along an axis, with a clip box about as large as the solid.
fn level(rng: &mut Rng, middle: Point, size: f64) -> Numbers {
    let axis = rng.below(3);
    let shown = size.max(1e-6) * rng.pick(&[0.3, 1.0, 1.5, 5.0]);
    let mut matrix = [0.0; 16];
    for row in 0..3 {
        let column = (axis + 1 + row) % 3;
        matrix[4 * row + column] = 1.0 / shown;
        matrix[4 * row + 3] = -middle[column] / shown;
    }
    matrix[15] = 1.0;
    matrix
}

// Rings by themselves.

/// A ring whose (u, v) stand in its points: level, or of a ball seen down the axis through its centre.
pub fn ring(rng: &mut Rng) -> Outline {
    let radius = ring_radius(rng);
    let kind = rng.pick(&[1, 1, 2, 3, 8, 9]);
    let mut numbers = [0.0; 16];
    let z = radius * rng.between(1.0001, 30.0);
    match kind {
        1 => numbers[3] = radius,
        2 | 8 => (numbers[0], numbers[2]) = (radius, 1.0),
        _ => (numbers[0], numbers[1]) = (radius, 1.0),
    }
    let shown = 1.5 * radius;
    let mut matrix = [0.0; 16];
    (matrix[0], matrix[5], matrix[10], matrix[15]) = (1.0 / shown, 1.0 / shown, 1.0 / shown, 1.0);
    let step = rng.pick(&[0.0, 1e-200, 1e-200, 1.0, 4.0, 10.0]);
    let view = View { matrix, eye: [0.0; 3], width: 1000.0, height: 1000.0, step };
    let lengths = [3 * 2 * 1025, 2];
    Outline { kind, numbers, eye: [0.0, 0.0, z], placings: Vec::new(), more: 0, view, lengths }
}

/// From 0.001 to 1,000,000: at both ends, at powers of 2 and next to them, whole, or anything.
fn ring_radius(rng: &mut Rng) -> f64 {
    let any =
        f64::from_bits(0.001f64.to_bits() + rng.next() % (1e6f64.to_bits() - 0.001f64.to_bits()));
    let power = f64::from_bits((1023 - 9 + rng.below(28) as u64) << 52);
    match rng.below(20) {
        0 => rng.pick(&[0.001, 0.001f64.next_up(), 1e6, 1e6f64.next_down()]),
        1..3 => power,
        3 => power.next_up(),
        4 => power.next_down(),
        5..8 => (1 + rng.below(1_000_000)) as f64,
        8..10 => (1 + rng.below(100_000)) as f64 / 1000.0,
        _ => any,
    }
}
