//! Seeded inputs of the roots and of the leaves: a yard's ordinary numbers, and spoilt ones.
//!
//! Only sums, products, quotients and square roots are formed, so that a seed gives the same
//! inputs everywhere.

use crate::calls::{INPUTS, Input, NAN};
use oracle::check::used_numbers;
use oracle::generate::Rng;

pub type Point = [f64; 3];
pub type Ray = [f64; 6];
pub type Numbers = [f64; 16];

/// A point of a surface and the direction that stands upright on it.
#[derive(Clone, Copy)]
pub struct Spot {
    pub point: Point,
    pub normal: Point,
}

/// Inputs end to end, after the kind where there is one.
pub fn pack(kind: Option<u32>, parts: &[&[f64]]) -> Input {
    let mut input = [0; INPUTS];
    let floats = parts.iter().flat_map(|part| part.iter()).map(|x| x.to_bits());
    let words = kind.map(u64::from).into_iter().chain(floats);
    for (place, word) in input.iter_mut().zip(words) {
        *place = word;
    }
    input
}

// The cases of each call, some of them spoilt.

pub fn sqrt(rng: &mut Rng) -> Input {
    const HIDDEN: u64 = 1 << 52;
    let s = rng.next();
    let bits = match rng.below(9) {
        0 => s,
        1 => s >> 1,
        // a subnormal of any length
        2 => s >> 12 >> rng.below(52),
        3 => next_to_midpoint(s),
        4 => {
            let i = s >> 38;
            ((i * i) as f64).to_bits().saturating_add(s % 3)
        }
        5 => 0x3FF0_0000_0000_0000 - HIDDEN / 2 + (s >> 12),
        6 => metres(rng, Grain::Any).abs().to_bits(),
        // a power of 2, or next to one
        7 => ((1 + s % 2046) << 52) + (s >> 12) % 3 - 1,
        _ => extreme(rng).to_bits(),
    };
    pack(None, &[&[f64::from_bits(bits)]])
}

/// A float whose root lies next to r + 1/2, r a whole number of 53 bits: (r + 1/2)^2 cut to
/// 53 bits, or one unit more.
fn next_to_midpoint(s: u64) -> u64 {
    let r = u128::from(s >> 12 | 1 << 52);
    let square = r * r + r;
    let odd = u128::BITS - square.leading_zeros() - 105;
    let digits = (square >> (52 + odd)) as u64 + (s & 1);
    let exponent = 2 * ((s >> 1) % 1022) + u64::from(odd);
    (exponent << 52) + digits
}

/// Whole metres have exact lengths among them.
pub fn length(rng: &mut Rng) -> Input {
    let grain = grain(rng);
    let mut v = place(rng, grain);
    spoil(rng, &mut v);
    pack(None, &[&v])
}

pub fn distance(rng: &mut Rng) -> Input {
    let grain = grain(rng);
    let mut xs = [place(rng, grain), place(rng, grain)].concat();
    spoil(rng, &mut xs);
    pack(None, &[&xs])
}

pub fn box_test(rng: &mut Rng) -> Input {
    let (n, ray) = solid_and_ray(rng, 4);
    let mut xs = [&n[..6], &ray].concat();
    spoil(rng, &mut xs);
    pack(None, &[&xs])
}

pub fn project(rng: &mut Rng) -> Input {
    let (m, p) = matrix_and_point(rng);
    let mut xs = [&m[..], &p].concat();
    spoil(rng, &mut xs);
    pack(None, &[&xs])
}

pub fn inverse(rng: &mut Rng) -> Input {
    let mut m = matrix(rng);
    if rng.chance(25) {
        flatten(rng, &mut m);
    }
    spoil(rng, &mut m);
    pack(None, &[&m])
}

pub fn hit(rng: &mut Rng, kind: u32) -> Input {
    let (n, ray) = solid_and_ray(rng, kind);
    spoilt_solid(rng, kind, &n, &ray)
}

pub fn solid_box(rng: &mut Rng, kind: u32) -> Input {
    let grain = grain(rng);
    let n = solid(rng, grain, kind);
    spoilt_solid(rng, kind, &n, &[])
}

pub fn contains(rng: &mut Rng, kind: u32) -> Input {
    let (n, p, f) = solid_and_point(rng, kind);
    spoilt_solid(rng, kind, &n, &[p[0], p[1], p[2], f])
}

/// The simple kinds: those without parts.
pub const SIMPLE: [u32; 7] = [1, 2, 3, 4, 5, 8, 9];

/// A kind that is not simple, with the inputs of one that is.
pub fn other(rng: &mut Rng, case: impl Fn(&mut Rng, u32) -> Input) -> Input {
    let kind = rng.pick(&SIMPLE);
    let mut input = case(rng, kind);
    let any = (rng.next() as u32).max(10);
    let near = [0, 6, 7, 10, 11, 256 + kind, 1 << 16 | kind, 1 << 31 | kind, u32::MAX];
    input[0] = u64::from(if rng.chance(70) { rng.pick(&near) } else { any });
    input
}

/// Spoils the used numbers and what follows them; the unused ones are anything.
fn spoilt_solid(rng: &mut Rng, kind: u32, n: &Numbers, more: &[f64]) -> Input {
    let used = used_numbers(kind);
    let mut xs = [&n[..used], more].concat();
    spoil(rng, &mut xs);
    let mut unused = vec![0.0; 16 - used];
    if rng.chance(50) {
        unused.fill_with(|| extreme(rng));
    }
    pack(Some(kind), &[&xs[..used], &unused, &xs[used..]])
}

// Ordinary cases, for comparing and for timing.

pub fn solid_and_ray(rng: &mut Rng, kind: u32) -> (Numbers, Ray) {
    let grain = grain(rng);
    if rng.chance(5) {
        return at_threshold(rng, grain, kind);
    }
    if has_lids(kind) && rng.chance(35) {
        let n = solid(rng, grain, kind);
        return (n, ray_to_lid(rng, grain, kind, &n));
    }
    let n = solid(rng, grain, kind);
    (n, ray(rng, grain, kind, &n))
}

pub fn solid_and_point(rng: &mut Rng, kind: u32) -> (Numbers, Point, f64) {
    let grain = grain(rng);
    let n = solid(rng, grain, kind);
    let (p, f) = point_near(rng, grain, &|rng| spot(rng, grain, kind, &n));
    (n, p, f)
}

/// A point within, without or next to a surface, of which `spot` gives points, and a widening.
pub fn point_near(rng: &mut Rng, grain: Grain, spot: &dyn Fn(&mut Rng) -> Spot) -> (Point, f64) {
    let [a, b] = [spot(rng), spot(rng)];
    let away = rng.pick(&[0.0, 1e-9, -1e-9, 1e-3, 0.25, -0.25, 2.0]);
    let p = match rng.below(8) {
        0..3 => middle(a.point, b.point),
        3..7 => along(a.point, a.normal, away),
        _ => place(rng, grain),
    };
    (p, rng.pick(&[0.0, -0.0, 1e-9, 1e-3, 0.01, 0.25, -0.25, 1.0, away]))
}

pub fn matrix_and_point(rng: &mut Rng) -> (Numbers, Point) {
    let m = matrix(rng);
    let grain = grain(rng);
    (m, place(rng, grain))
}

pub fn squared_length(rng: &mut Rng) -> f64 {
    let d = place(rng, Grain::Any);
    dot(d, d)
}

/// How fine a case's lengths are.
#[derive(Clone, Copy, PartialEq, Eq)]
pub enum Grain {
    Whole,
    Quarter,
    Any,
}

pub fn grain(rng: &mut Rng) -> Grain {
    rng.pick(&[Grain::Whole, Grain::Quarter, Grain::Any, Grain::Any])
}

/// From -50 to 50.
pub fn metres(rng: &mut Rng, grain: Grain) -> f64 {
    match grain {
        Grain::Whole => rng.below(101) as f64 - 50.0,
        Grain::Quarter => rng.below(401) as f64 / 4.0 - 50.0,
        Grain::Any => rng.between(-50.0, 50.0),
    }
}

/// A radius, a width or a height; seldom 0.
fn measure(rng: &mut Rng, grain: Grain, most: usize) -> f64 {
    if rng.chance(3) {
        return 0.0;
    }
    match grain {
        Grain::Whole => 1.0 + rng.below(most) as f64,
        Grain::Quarter => 0.25 + rng.below(4 * most) as f64 / 4.0,
        Grain::Any => rng.between(0.05, most as f64),
    }
}

pub fn place(rng: &mut Rng, grain: Grain) -> Point {
    std::array::from_fn(|_| metres(rng, grain))
}

/// Of length 1: at the coarser grains one whose numbers are short.
fn direction(rng: &mut Rng, grain: Grain) -> Point {
    if grain == Grain::Any {
        return unit(std::array::from_fn(|_| rng.between(-1.0, 1.0)));
    }
    let short = rng.pick(&[[1.0, 0.0, 0.0], [1.0, 0.0, 0.0], [0.6, 0.8, 0.0], [0.28, 0.96, 0.0]]);
    let turn = rng.below(3);
    std::array::from_fn(|i| {
        let x: f64 = short[(i + turn) % 3];
        if rng.chance(50) { -x } else { x }
    })
}

/// A point of the unit circle.
fn circle(rng: &mut Rng, grain: Grain) -> (f64, f64) {
    match grain {
        Grain::Any => {
            let d = unit([rng.between(-1.0, 1.0), rng.between(-1.0, 1.0), 0.0]);
            (d[0], d[1])
        }
        _ => rng.pick(&[(1.0, 0.0), (0.0, 1.0), (-1.0, 0.0), (0.0, -1.0), (0.6, 0.8), (-0.8, 0.6)]),
    }
}

/// From 0 to 1, its ends often.
fn part(rng: &mut Rng, grain: Grain) -> f64 {
    match grain {
        Grain::Any if !rng.chance(10) => rng.unit(),
        _ => rng.pick(&[0.0, 0.25, 0.5, 0.5, 0.75, 1.0]),
    }
}

/// The measures of a kind, then zeros.
pub fn solid(rng: &mut Rng, grain: Grain, kind: u32) -> Numbers {
    let mut n = [0.0; 16];
    match kind {
        1 => {
            n[..3].copy_from_slice(&place(rng, grain));
            n[3] = measure(rng, grain, 12);
        }
        2 | 8 => {
            n[0] = measure(rng, grain, 6);
            n[1] = if rng.chance(50) { 0.0 } else { metres(rng, grain) / 4.0 };
            n[2] = n[1] + measure(rng, grain, 20);
        }
        3 | 9 => {
            n[0] = measure(rng, grain, 6);
            n[1] = measure(rng, grain, 8);
        }
        4 => {
            let (low, thin) = (place(rng, grain), rng.below(6));
            for i in 0..3 {
                n[i] = low[i];
                n[i + 3] = low[i] + if i == thin { 0.25 } else { measure(rng, grain, 15) };
            }
        }
        _ => {
            let low = place(rng, grain);
            for corner in 0..3 {
                for i in 0..3 {
                    n[3 * corner + i] = low[i] + metres(rng, grain) / 8.0;
                }
            }
            if rng.chance(5) {
                // no area: two corners alike, or all in one line
                let (a, b) = (triangle_corner(&n, 0), triangle_corner(&n, 1));
                let c = along(a, minus(b, a), rng.pick(&[0.0, 1.0, 0.5, 2.0]));
                n[6..9].copy_from_slice(&c);
            }
        }
    }
    n
}

fn triangle_corner(n: &Numbers, i: usize) -> Point {
    [n[3 * i], n[3 * i + 1], n[3 * i + 2]]
}

/// A point of a solid's surface.
pub fn spot(rng: &mut Rng, grain: Grain, kind: u32, n: &Numbers) -> Spot {
    match kind {
        1 => {
            let normal = direction(rng, grain);
            Spot { point: along([n[0], n[1], n[2]], normal, n[3]), normal }
        }
        8 | 9 if rng.chance(50) => {
            // a disc: its middle, its rim, or between
            let ((x, y), r) = (circle(rng, grain), n[0] * part(rng, grain));
            let up = if kind == 8 && rng.chance(50) { 1.0 } else { -1.0 };
            let z = lid(kind, n, up > 0.0);
            Spot { point: [r * x, r * y, z], normal: [0.0, 0.0, up] }
        }
        2 | 8 => {
            let ((x, y), f) = (circle(rng, grain), part(rng, grain));
            let point = [n[0] * x, n[0] * y, n[1] + (n[2] - n[1]) * f];
            Spot { point, normal: [x, y, 0.0] }
        }
        3 | 9 => {
            let ((x, y), f) = (circle(rng, grain), part(rng, grain));
            let r = n[0] * (1.0 - f);
            Spot { point: [r * x, r * y, n[1] * f], normal: unit([n[1] * x, n[1] * y, n[0]]) }
        }
        4 => {
            let (axis, side) = (rng.below(3), rng.below(2));
            let mut spot = Spot { point: [0.0; 3], normal: [0.0; 3] };
            for i in 0..3 {
                spot.point[i] = n[i] + (n[i + 3] - n[i]) * part(rng, grain);
            }
            spot.point[axis] = n[axis + 3 * side];
            spot.normal[axis] = if side == 0 { -1.0 } else { 1.0 };
            spot
        }
        _ => {
            let [a, b, c] = [0, 1, 2].map(|i| triangle_corner(n, i));
            let (e1, e2) = (minus(b, a), minus(c, a));
            let (mut u, mut v) = (part(rng, grain), part(rng, grain));
            if u + v > 1.0 {
                (u, v) = (1.0 - u, 1.0 - v);
            }
            Spot { point: along(along(a, e1, u), e2, v), normal: unit(cross(e1, e2)) }
        }
    }
}

/// Whether a kind has discs.
pub fn has_lids(kind: u32) -> bool {
    matches!(kind, 8 | 9)
}

/// The height of a disc: a cone has the one at 0 alone.
fn lid(kind: u32, n: &Numbers, upper: bool) -> f64 {
    match (kind, upper) {
        (8, true) => n[2],
        (8, false) => n[1],
        _ => 0.0,
    }
}

/// A ray at a disc: at its rim, down its axis, in its plane, from within, at 1e-6, and about INF, which a direction
/// that isn't normalised reaches.
pub fn ray_to_lid(rng: &mut Rng, grain: Grain, kind: u32, n: &Numbers) -> Ray {
    let upper = rng.chance(50);
    let z = lid(kind, n, upper);
    let (x, y) = circle(rng, grain);
    let rim = [n[0] * x, n[0] * y, z];
    let far = measure(rng, grain, 30);
    let side = rng.pick(&[1.0, -1.0]);
    let inner = along([0.0, 0.0, z], minus(rim, [0.0, 0.0, z]), part(rng, grain));
    let (origin, direction) = match rng.below(16) {
        // upright at the rim, or a little within or without
        0..3 => {
            let near = [nudged(rng, rim[0]), nudged(rng, rim[1]), z + side * far];
            (near, [0.0, -0.0, -side])
        }
        // askew at the rim
        3..5 => {
            let d = direction(rng, grain);
            (along(rim, d, -far), d)
        }
        5..7 => ([0.0, rng.pick(&[0.0, -0.0]), z + side * far], [0.0, 0.0, -side]),
        // in its plane, or nearly
        7..9 => {
            let d = direction(rng, Grain::Any);
            let level = rng.pick(&[0.0, -0.0, 5e-324, -1e-300, 1e-17]);
            let beside = nudged(rng, z);
            let height = rng.pick(&[z, z, beside]);
            (along([inner[0], inner[1], height], [d[0], d[1], 0.0], -far), [d[0], d[1], level])
        }
        // from within, or from the disc itself
        9..11 => {
            let d = if rng.chance(50) { [0.0, 0.0, side] } else { direction(rng, grain) };
            let start = along(inner, [0.0, 0.0, if upper { -1.0 } else { 1.0 }], part(rng, grain));
            (rng.pick(&[start, inner]), d)
        }
        // as near as is compared with
        11..13 => {
            let d = if rng.chance(50) { [0.0, 0.0, side] } else { direction(rng, grain) };
            let t = rng.pick(&[1e-6, 1e-6, 2e-6]);
            let t = nudged(rng, t);
            (along(inner, d, -t), d)
        }
        // about INF: upright, or so slow aside that it stays within the rim
        13..15 => {
            let beside = nudged(rng, 1e9);
            let t = rng.pick(&[1e9, 1e9, beside, 1.5e9, 0.5e9, 1e12]);
            let aside = rng.pick(&[0.0, 0.0, 1e-10, -3e-10]);
            let over = rng.pick(&[side * far, side * 1953125.0 / 2097152.0]);
            ([inner[0], inner[1], z + over], [aside, 0.0, -over / t])
        }
        // onto it from anywhere, not normalised
        _ => {
            let eye = place(rng, grain);
            let by = rng.pick(&[1.0, 1e-3, 1e-9, 100.0]);
            (eye, minus(inner, eye).map(|x| x * by))
        }
    };
    [origin[0], origin[1], origin[2], direction[0], direction[1], direction[2]]
}

/// A ray that mostly meets the solid.
fn ray(rng: &mut Rng, grain: Grain, kind: u32, n: &Numbers) -> Ray {
    ray_to(rng, grain, &|rng| spot(rng, grain, kind, n))
}

/// A ray that mostly meets a surface, of which `spot` gives points.
pub fn ray_to(rng: &mut Rng, grain: Grain, spot: &dyn Fn(&mut Rng) -> Spot) -> Ray {
    let aim = spot(rng);
    let eye = place(rng, grain);
    let (origin, direction) = match rng.below(20) {
        // from an eye to the surface, normalised
        0..7 => (eye, unit(minus(aim.point, eye))),
        // from the surface to an eye
        7..9 => (aim.point, unit(minus(eye, aim.point))),
        // from within, or through the solid
        9..11 => {
            let start = middle(aim.point, spot(rng).point);
            (start, direction(rng, grain))
        }
        // along the surface
        11..12 => {
            let d = unit(cross(aim.normal, direction(rng, grain)));
            (along(aim.point, d, -measure(rng, grain, 30)), d)
        }
        // along an axis, the other two parts zeros of either sign
        12..15 => {
            let d = axis(rng);
            (along(aim.point, d, -measure(rng, grain, 30)), d)
        }
        // from next to the surface
        15..17 => {
            let d = if rng.chance(50) { axis(rng) } else { direction(rng, grain) };
            let t = threshold(rng);
            (along(aim.point, d, -t), d)
        }
        // not normalised
        17..18 => (eye, minus(aim.point, eye)),
        18..19 => ([0.0; 3], unit(aim.point)),
        // anywhere
        _ => (eye, direction(rng, grain)),
    };
    [origin[0], origin[1], origin[2], direction[0], direction[1], direction[2]]
}

/// A solid and a ray whose distance comes out at a threshold, often exactly.
fn at_threshold(rng: &mut Rng, grain: Grain, kind: u32) -> (Numbers, Ray) {
    let (d, t) = (axis(rng), threshold(rng));
    let mut n = solid(rng, grain, kind);
    let mut origin = [0.0; 3];
    // a round solid of radius t: from its axis, or from as far again before it
    let before = along(origin, d, -t * rng.pick(&[0.0, 2.0]));
    match kind {
        1 => {
            n[..4].copy_from_slice(&[0.0, 0.0, 0.0, t]);
            origin = before;
        }
        2 | 8 => {
            n[..3].copy_from_slice(&[t, -1.0, 1.0]);
            origin = before;
        }
        3 | 9 => {
            n[..2].copy_from_slice(&[2.0 * t, 2.0]);
            origin = along(before, [0.0, 0.0, 1.0], 1.0);
        }
        5 if rng.chance(50) => {
            // a sliver, across the ray if that is upright
            n[..9].copy_from_slice(&[0.0, 0.0, 0.0, t, 0.0, 0.0, 0.0, 1.0, 0.0]);
            origin = along([0.0, 0.25, 0.0], d, -1.0);
        }
        _ => {
            // a point of the solid moved to where the ray is at t
            let aim = spot(rng, grain, kind, &n).point;
            for (k, x) in n[..used_numbers(kind)].iter_mut().enumerate() {
                *x = (*x - aim[k % 3]) + d[k % 3] * t;
            }
        }
    }
    (n, [origin[0], origin[1], origin[2], d[0], d[1], d[2]])
}

fn axis(rng: &mut Rng) -> Point {
    let upright = rng.below(3);
    std::array::from_fn(|i| {
        let x = if i == upright { 1.0 } else { 0.0 };
        if rng.chance(50) { -x } else { x }
    })
}

/// A distance at or next to one that the Rust compares with.
fn threshold(rng: &mut Rng) -> f64 {
    let t = rng.pick(&[1e-2, 1e-3, 1e-6, 1e-9]);
    match rng.below(3) {
        0 => t,
        1 => nudged(rng, t),
        _ => t * rng.between(0.5, 1.5),
    }
}

/// A camera's matrix, a placing, or any.
pub fn matrix(rng: &mut Rng) -> Numbers {
    match rng.below(10) {
        0..3 => product(&lens(rng), &turned(rng, true)),
        3..6 => turned(rng, false),
        6..8 => std::array::from_fn(|_| rng.below(5) as f64 - 2.0),
        8 => std::array::from_fn(|_| rng.between(-2.0, 2.0)),
        _ => {
            let most = rng.pick(&[1e-3, 10.0, 1e3]);
            std::array::from_fn(|i| if i % 5 == 0 { rng.between(-most, most) } else { 0.0 })
        }
    }
}

/// Turned, moved, and, unless it is to be stiff, stretched.
pub fn turned(rng: &mut Rng, stiff: bool) -> Numbers {
    let grain = grain(rng);
    let x = direction(rng, grain);
    let y = unit(cross(x, direction(rng, grain)));
    let z = cross(x, y);
    let move_by = place(rng, grain);
    let stretch: Point =
        std::array::from_fn(
            |_| if stiff { 1.0 } else { rng.pick(&[1.0, 1.0, 2.0, 0.5, -1.0, 3.7]) },
        );
    let mut m = [0.0; 16];
    for i in 0..3 {
        for (j, column) in [x, y, z].iter().enumerate() {
            m[4 * i + j] = column[i] * stretch[j];
        }
        m[4 * i + 3] = move_by[i];
    }
    m[15] = 1.0;
    m
}

fn lens(rng: &mut Rng) -> Numbers {
    let (wide, near, far) = (rng.between(0.5, 3.0), rng.pick(&[0.1, 1.0]), 100.0);
    let mut m = [0.0; 16];
    (m[0], m[5]) = (wide, wide * 1.5);
    (m[10], m[11]) = ((far + near) / (near - far), 2.0 * far * near / (near - far));
    m[14] = -1.0;
    m
}

/// Makes a matrix singular, or nearly.
pub fn flatten(rng: &mut Rng, m: &mut Numbers) {
    let (a, b) = (rng.below(4), rng.below(4));
    let by_rows = rng.chance(50);
    let at = |line: usize, k: usize| if by_rows { 4 * line + k } else { 4 * k + line };
    let factor = rng.pick(&[0.0, 1.0, -1.0, 2.0, 1.1]);
    for k in 0..4 {
        m[at(a, k)] = factor * m[at(b, k)];
    }
    if rng.chance(40) {
        let k = rng.below(16);
        m[k] = nudged(rng, m[k]);
    }
}

// Spoiling.

/// A number that a yard has no use for.
pub fn extreme(rng: &mut Rng) -> f64 {
    let nans = [NAN, NAN | 1 << 63, 0x7FF0_0000_0000_0001, 0xFFF1_2345_6789_ABCD, u64::MAX];
    let sign = rng.next() << 63;
    let magnitude = match rng.below(10) {
        0 => return f64::from_bits(rng.pick(&nans)),
        1 => f64::INFINITY,
        2 | 3 => 0.0,
        4 => f64::from_bits(rng.next() >> 12 >> rng.below(52)),
        5 => rng.pick(&[f64::MAX, 1e300, 1e160, 1.3407807929942596e154, 1e100]),
        6 => rng.pick(&[f64::MIN_POSITIVE, 1e-300, 1e-160, 1e-20, f64::EPSILON]),
        7 => rng.pick(&[1e6, 999_999.75, 1_000_000.25, 1e9, 1e9 + 0.25]),
        8 => threshold(rng),
        _ => f64::from_bits(rng.next() >> 1),
    };
    f64::from_bits(magnitude.to_bits() | sign)
}

/// A few units in the last place away.
pub fn nudged(rng: &mut Rng, x: f64) -> f64 {
    f64::from_bits(x.to_bits().wrapping_add(rng.below(5) as u64).wrapping_sub(2))
}

/// Leaves most cases as they are, damages some in one number, and some throughout.
fn spoil(rng: &mut Rng, xs: &mut [f64]) {
    let i = rng.below(xs.len());
    match rng.below(20) {
        0..12 => {}
        12..16 => xs[i] = extreme(rng),
        // nearly equal to another, or equal
        16..17 => {
            let j = rng.below(xs.len());
            xs[i] = nudged(rng, xs[j]);
        }
        17..18 => xs[i] = nudged(rng, xs[i]),
        18..19 => {
            let scale = rng.pick(&[2e4, 1e-4, 1e100, 1e-100, 1e155]);
            for x in xs {
                *x *= scale;
            }
        }
        _ => {
            let percent = rng.pick(&[25, 50, 100]);
            for x in xs {
                if rng.chance(percent) {
                    *x = extreme(rng);
                }
            }
        }
    }
}

// Arithmetic on points and matrices.

pub fn minus(a: Point, b: Point) -> Point {
    [a[0] - b[0], a[1] - b[1], a[2] - b[2]]
}

pub fn along(a: Point, d: Point, t: f64) -> Point {
    [a[0] + d[0] * t, a[1] + d[1] * t, a[2] + d[2] * t]
}

fn middle(a: Point, b: Point) -> Point {
    along(a, minus(b, a), 0.5)
}

pub fn dot(a: Point, b: Point) -> f64 {
    a[0] * b[0] + a[1] * b[1] + a[2] * b[2]
}

pub fn cross(a: Point, b: Point) -> Point {
    [a[1] * b[2] - a[2] * b[1], a[2] * b[0] - a[0] * b[2], a[0] * b[1] - a[1] * b[0]]
}

pub fn unit(v: Point) -> Point {
    let length = dot(v, v).sqrt();
    if length == 0.0 { [0.0, 0.0, 1.0] } else { v.map(|x| x / length) }
}

pub fn product(a: &Numbers, b: &Numbers) -> Numbers {
    std::array::from_fn(|k| (0..4).map(|i| a[k / 4 * 4 + i] * b[4 * i + k % 4]).sum())
}
