//! The calls of the roots and of the leaves, their inputs and answers as words, and larnt's own answers.
//!
//! A word is a float's bits or a whole number. Inputs and answers stand in the order of
//! README.md's table of records; what is left of them is 0.

use oracle::larnt_plain as larnt;
use oracle::plain::{self, Solid};

use larnt::bounding_box::BBox;
use larnt::cone::{Cone, ConeTexture};
use larnt::cube::{Cube, CubeTexture};
use larnt::cylinder::{Cylinder, CylinderTexture};
use larnt::hit::Hit;
use larnt::matrix::Matrix;
use larnt::ray::Ray;
use larnt::shape::Shape;
use larnt::sphere::{Sphere, SphereTexture};
use larnt::triangle::Triangle;
use larnt::vector::Vector;

pub const INPUTS: usize = 23;
pub const ANSWERS: usize = 17;

pub type Input = [u64; INPUTS];
pub type Answer = [u64; ANSWERS];

/// How every NaN is written.
pub const NAN: u64 = 0x7FF8_0000_0000_0000;

/// The numbers of the calls in a record; the square root has no records.
#[derive(Clone, Copy, Debug, PartialEq, Eq)]
pub enum Call {
    Sqrt = 0,
    BoxTest = 1,
    Project = 2,
    Inverse = 3,
    Hit = 4,
    Box = 5,
    Contains = 6,
    Length = 7,
    Distance = 8,
}

/// The calls as host/larnt.h declares them.
pub struct Calls {
    pub sqrt: extern "C" fn(f64, &mut i64) -> f64,
    pub length: extern "C" fn(&[f64; 3], &mut i64) -> f64,
    pub distance: extern "C" fn(&[f64; 3], &[f64; 3], &mut i64) -> f64,
    pub box_test: extern "C" fn(&[f64; 6], &[f64; 6], &mut [f64; 2]),
    pub project: extern "C" fn(&[f64; 16], &[f64; 3], &mut [f64; 3]),
    pub inverse: extern "C" fn(&[f64; 16], &mut [f64; 16]) -> f64,
    pub solid_hit: extern "C" fn(u32, &[f64; 16], &[f64; 6], &mut f64, &mut bool) -> u32,
    pub solid_box: extern "C" fn(u32, &[f64; 16], &mut [f64; 6]) -> u32,
    pub solid_contains: extern "C" fn(u32, &[f64; 16], &[f64; 3], f64, &mut bool) -> u32,
}

/// What stands in a place that a call is to fill.
const UNFILLED: f64 = 7.0;

/// The same for a bool: now the one, now the other.
fn unfilled(input: &Input) -> bool {
    input.iter().map(|word| word.count_ones()).sum::<u32>() % 2 == 1
}

/// Makes one call. NaNs are written alike, and so are zeros, except a root's and a refusal's.
pub fn answer(calls: &Calls, call: Call, input: &Input) -> Answer {
    let mut answer = [0; ANSWERS];
    let kind = input[0] as u32;
    match call {
        Call::Sqrt => rooted(&mut answer, |rest| (calls.sqrt)(f64::from_bits(input[0]), rest)),
        Call::Length => rooted(&mut answer, |rest| (calls.length)(&floats(input, 0), rest)),
        Call::Distance => {
            rooted(&mut answer, |rest| (calls.distance)(&floats(input, 0), &floats(input, 3), rest))
        }
        Call::BoxTest => {
            let mut span = [UNFILLED; 2];
            (calls.box_test)(&floats(input, 0), &floats(input, 6), &mut span);
            fill(&mut answer, &span.map(alike));
        }
        Call::Project => {
            let mut projected = [UNFILLED; 3];
            (calls.project)(&floats(input, 0), &floats(input, 16), &mut projected);
            fill(&mut answer, &projected.map(alike));
        }
        Call::Inverse => {
            let mut inverse = [UNFILLED; 16];
            answer[0] = alike((calls.inverse)(&floats(input, 0), &mut inverse));
            fill(&mut answer[1..], &inverse.map(alike));
        }
        Call::Hit => {
            let (mut t, mut ok) = (UNFILLED, unfilled(input));
            let number =
                (calls.solid_hit)(kind, &floats(input, 1), &floats(input, 17), &mut t, &mut ok);
            fill(&mut answer, &[u64::from(number), filled(number)(t), u64::from(ok)]);
        }
        Call::Box => {
            let mut b = [UNFILLED; 6];
            let number = (calls.solid_box)(kind, &floats(input, 1), &mut b);
            answer[0] = u64::from(number);
            fill(&mut answer[1..], &b.map(filled(number)));
        }
        Call::Contains => {
            let mut inside = unfilled(input);
            let [f] = floats(input, 20);
            let number =
                (calls.solid_contains)(kind, &floats(input, 1), &floats(input, 17), f, &mut inside);
            fill(&mut answer, &[u64::from(number), u64::from(inside)]);
        }
    }
    answer
}

/// A root, and its remainder in two's complement.
fn rooted(answer: &mut Answer, call: impl Fn(&mut i64) -> f64) {
    let mut rest = UNFILLED as i64;
    let root = call(&mut rest);
    fill(answer, &[nan_alike(root), rest as u64]);
}

fn floats<const N: usize>(input: &Input, at: usize) -> [f64; N] {
    std::array::from_fn(|i| f64::from_bits(input[at + i]))
}

fn fill(places: &mut [u64], words: &[u64]) {
    places[..words.len()].copy_from_slice(words);
}

fn nan_alike(x: f64) -> u64 {
    if x.is_nan() { NAN } else { x.to_bits() }
}

pub fn alike(x: f64) -> u64 {
    if x == 0.0 { 0 } else { nan_alike(x) }
}

/// A refusal fills +0 alone.
fn filled(number: u32) -> fn(f64) -> u64 {
    if number == 0 { alike } else { f64::to_bits }
}

/// larnt, behind the same boundary as the compiled core. Only the refusal, the remainders and kinds 8 and 9 are not
/// larnt's.
pub const RUST: Calls = Calls {
    sqrt: rust_sqrt,
    length: rust_length,
    distance: rust_distance,
    box_test: rust_box_test,
    project: rust_project,
    inverse: rust_inverse,
    solid_hit: rust_solid_hit,
    solid_box: rust_solid_box,
    solid_contains: rust_solid_contains,
};

const NO_SUCH_KIND: u32 = 3;

/// larnt as it is timed: it works out no remainder.
pub const TIMED: Calls = Calls { sqrt: root_alone, ..RUST };

#[inline(never)]
extern "C" fn root_alone(x: f64, _rest: &mut i64) -> f64 {
    f64::sqrt(x)
}

#[inline(never)]
extern "C" fn rust_sqrt(x: f64, rest: &mut i64) -> f64 {
    let root = x.sqrt();
    *rest = remainder(x, root);
    root
}

#[inline(never)]
extern "C" fn rust_length(v: &[f64; 3], rest: &mut i64) -> f64 {
    let v = vector(v, 0);
    let root = v.length();
    *rest = remainder(v.length_squared(), root);
    root
}

#[inline(never)]
extern "C" fn rust_distance(a: &[f64; 3], b: &[f64; 3], rest: &mut i64) -> f64 {
    let (a, b) = (vector(a, 0), vector(b, 0));
    let root = a.distance(b);
    *rest = remainder(a.distance_squared(b), root);
    root
}

/// A positive finite float as a whole number of 53 bits, or fewer below the normal ones, times a power of 2.
fn parts(x: f64) -> (u64, i32) {
    let (exponent, fraction) = (x.to_bits() >> 52, x.to_bits() << 12 >> 12);
    if exponent == 0 { (fraction, -1074) } else { (fraction | 1 << 52, exponent as i32 - 1075) }
}

/// S - R * R, where the root is R * 2^k with R of 53 bits, and x is S * 4^k.
fn remainder(x: f64, root: f64) -> i64 {
    if !(x > 0.0 && x.is_finite()) {
        return 0;
    }
    let ((m, e), (r, k)) = (parts(x), parts(root));
    let (s, r) = (i128::from(m) << (e - 2 * k), i128::from(r));
    i64::try_from(s - r * r).unwrap()
}

#[inline(never)]
extern "C" fn rust_box_test(b: &[f64; 6], r: &[f64; 6], span: &mut [f64; 2]) {
    let (t1, t2) = BBox::new(vector(b, 0), vector(b, 3)).intersect(ray(r));
    *span = [t1, t2];
}

#[inline(never)]
extern "C" fn rust_project(m: &[f64; 16], p: &[f64; 3], projected: &mut [f64; 3]) {
    let v = matrix(m).mul_position_w(vector(p, 0));
    *projected = [v.x, v.y, v.z];
}

#[inline(never)]
extern "C" fn rust_inverse(m: &[f64; 16], inverse: &mut [f64; 16]) -> f64 {
    let m = matrix(m);
    let i = m.inverse();
    *inverse = [
        i.x00, i.x01, i.x02, i.x03, i.x10, i.x11, i.x12, i.x13, i.x20, i.x21, i.x22, i.x23, i.x30,
        i.x31, i.x32, i.x33,
    ];
    m.determinant()
}

#[inline(never)]
extern "C" fn rust_solid_hit(
    kind: u32,
    n: &[f64; 16],
    r: &[f64; 6],
    t: &mut f64,
    ok: &mut bool,
) -> u32 {
    let r = ray(r);
    let (number, hit) = match kind {
        1 => (0, sphere(n).intersect(r)),
        2 => (0, cylinder(n).intersect(r)),
        3 => (0, cone(n).intersect(r)),
        4 => (0, cube(n).intersect(r)),
        5 => (0, triangle(n).intersect(r)),
        8 | 9 => (0, closed(kind, n).intersect(r)),
        _ => (NO_SUCH_KIND, Hit { t: 0.0, ok: false }),
    };
    *t = hit.t;
    *ok = hit.ok;
    number
}

#[inline(never)]
extern "C" fn rust_solid_box(kind: u32, n: &[f64; 16], b: &mut [f64; 6]) -> u32 {
    let (number, bounds) = match kind {
        1 => (0, sphere(n).bounding_box()),
        2 => (0, cylinder(n).bounding_box()),
        3 => (0, cone(n).bounding_box()),
        4 => (0, cube(n).bounding_box()),
        5 => (0, triangle(n).bounding_box()),
        8 | 9 => (0, closed(kind, n).bounding_box()),
        _ => (NO_SUCH_KIND, BBox::default()),
    };
    let (min, max) = (bounds.min, bounds.max);
    *b = [min.x, min.y, min.z, max.x, max.y, max.z];
    number
}

#[inline(never)]
extern "C" fn rust_solid_contains(
    kind: u32,
    n: &[f64; 16],
    p: &[f64; 3],
    f: f64,
    inside: &mut bool,
) -> u32 {
    let p = vector(p, 0);
    let (number, contained) = match kind {
        1 => (0, sphere(n).contains(p, f)),
        2 => (0, cylinder(n).contains(p, f)),
        3 => (0, cone(n).contains(p, f)),
        4 => (0, cube(n).contains(p, f)),
        5 => (0, triangle(n).contains(p, f)),
        8 | 9 => (0, closed(kind, n).contains(p, f)),
        _ => (NO_SUCH_KIND, false),
    };
    *inside = contained;
    number
}

fn vector(xs: &[f64], at: usize) -> Vector {
    Vector::new(xs[at], xs[at + 1], xs[at + 2])
}

fn ray(r: &[f64; 6]) -> Ray {
    Ray::new(vector(r, 0), vector(r, 3))
}

fn matrix(m: &[f64; 16]) -> Matrix {
    let [x00, x01, x02, x03, x10, x11, x12, x13, x20, x21, x22, x23, x30, x31, x32, x33] = *m;
    Matrix { x00, x01, x02, x03, x10, x11, x12, x13, x20, x21, x22, x23, x30, x31, x32, x33 }
}

fn sphere(n: &[f64; 16]) -> Sphere {
    Sphere { center: vector(n, 0), radius: n[3], texture: SphereTexture::default() }
}

fn cylinder(n: &[f64; 16]) -> Cylinder {
    Cylinder { radius: n[0], z0: n[1], z1: n[2], texture: CylinderTexture::default() }
}

fn cone(n: &[f64; 16]) -> Cone {
    Cone { radius: n[0], height: n[1], texture: ConeTexture::default() }
}

fn cube(n: &[f64; 16]) -> Cube {
    Cube { min: vector(n, 0), max: vector(n, 3), texture: CubeTexture::default() }
}

/// Kinds 8 and 9, which larnt does not have: the oracle's own.
fn closed(kind: u32, n: &[f64; 16]) -> Solid {
    plain::simple(kind, 0, n, Vec::new())
}

fn triangle(n: &[f64; 16]) -> Triangle {
    Triangle::new(vector(n, 0), vector(n, 3), vector(n, 6))
}
