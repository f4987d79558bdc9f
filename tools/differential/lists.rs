//! Writes the records that crates/test_leaves replays: hand-made cases, then seeded ones.
//!
//!     lists FOLDER    writes FOLDER/stdin and FOLDER/stdout

// the driver uses the rest of these
#[allow(dead_code)]
mod calls;
#[allow(dead_code)]
mod inputs;

use calls::{Answer, Call, Input, NAN, RUST, answer};
use inputs::{Numbers, Point, Ray};
use oracle::check::used_numbers;
use oracle::generate::Rng;

/// The program has places for 449.
const MOST: usize = 440;

#[derive(Default)]
struct List {
    records: Vec<(Call, Input, Answer)>,
}

impl List {
    fn add(&mut self, call: Call, input: Input) {
        let input = one_nan(call, input);
        if !self.records.iter().any(|(c, i, _)| *c == call && *i == input) {
            self.records.push((call, input, answer(&RUST, call, &input)));
        }
    }

    fn box_test(&mut self, b: [f64; 6], ray: Ray) {
        self.add(Call::BoxTest, inputs::pack(None, &[&b, &ray]));
    }

    fn project(&mut self, m: Numbers, p: Point) {
        self.add(Call::Project, inputs::pack(None, &[&m, &p]));
    }

    fn inverse(&mut self, m: Numbers) {
        self.add(Call::Inverse, inputs::pack(None, &[&m]));
    }

    fn hit(&mut self, kind: u32, measures: &[f64], ray: Ray) {
        self.add(Call::Hit, inputs::pack(Some(kind), &[&sixteen(measures), &ray]));
    }

    fn solid_box(&mut self, kind: u32, measures: &[f64]) {
        self.add(Call::Box, inputs::pack(Some(kind), &[&sixteen(measures)]));
    }

    fn contains(&mut self, kind: u32, measures: &[f64], p: Point, f: f64) {
        self.add(Call::Contains, inputs::pack(Some(kind), &[&sixteen(measures), &p, &[f]]));
    }

    fn length(&mut self, v: Point) {
        self.add(Call::Length, inputs::pack(None, &[&v]));
    }

    fn distance(&mut self, a: Point, b: Point) {
        self.add(Call::Distance, inputs::pack(None, &[&a, &b]));
    }

    /// Adds the first seeded cases that `wanted` takes, at most `count`: some kinds have none.
    fn pick(
        &mut self,
        count: usize,
        call: Call,
        make: impl Fn(&mut Rng) -> Input,
        wanted: impl Fn(&Input, &Answer) -> bool,
    ) {
        let mut rng = Rng::new(call as u64);
        let full = self.records.len() + count;
        for _ in 0..100_000 {
            if self.records.len() == full {
                return;
            }
            let input = one_nan(call, make(&mut rng));
            if wanted(&input, &answer(&RUST, call, &input)) {
                self.add(call, input);
            }
        }
    }

    fn write(&self, folder: &std::path::Path) -> std::io::Result<()> {
        let count = self.records.len();
        assert!(count <= MOST, "{count} records");
        let mut bytes = Vec::new();
        for (call, input, answer) in &self.records {
            for word in [*call as u64].iter().chain(input).chain(answer) {
                bytes.extend(word.to_be_bytes());
            }
        }
        std::fs::write(folder.join("stdin"), bytes)?;
        std::fs::write(folder.join("stdout"), format!("{count} calls, 0 wrong\n"))
    }
}

/// Writes every NaN among the floats of an input alike.
fn one_nan(call: Call, mut input: Input) -> Input {
    let kinds = usize::from(matches!(call, Call::Hit | Call::Box | Call::Contains));
    for word in &mut input[kinds..] {
        if f64::from_bits(*word).is_nan() {
            *word = NAN;
        }
    }
    input
}

fn sixteen(measures: &[f64]) -> Numbers {
    std::array::from_fn(|i| measures.get(i).copied().unwrap_or(0.0))
}

/// A number and its neighbours.
fn around(x: f64) -> [f64; 3] {
    [x.next_down(), x, x.next_up()]
}

const NOT: f64 = f64::NAN;
const FAR: f64 = f64::INFINITY;

fn down(origin: Point) -> Ray {
    [origin[0], origin[1], origin[2], 0.0, 0.0, -1.0]
}

fn boxes(list: &mut List) {
    let unit = [-1.0, -1.0, -1.0, 1.0, 1.0, 1.0];
    list.box_test(unit, down([0.0, 0.0, 5.0]));
    list.box_test(unit, down([0.0, 0.0, 0.5]));
    list.box_test(unit, down([0.0, 0.0, -5.0]));
    list.box_test(unit, [5.0, 3.0, 0.0, -1.0, 0.0, 0.0]);
    list.box_test(unit, [-3.0, -3.0, -3.0, 0.5, 0.5, 0.5]);
    // in the plane of a side, along it: 0 / 0 at one end of the slab
    for zero in [0.0, -0.0] {
        list.box_test(unit, [1.0, 0.0, 5.0, zero, 0.0, -1.0]);
        list.box_test(unit, [-1.0, 0.0, 5.0, zero, 0.0, -1.0]);
        list.box_test(unit, [0.0, 1.0, 5.0, 0.0, zero, -1.0]);
        list.box_test(unit, [5.0, 0.0, -1.0, -1.0, 0.0, zero]);
        list.box_test(unit, [0.5, 0.5, 0.5, zero, zero, zero]);
    }
    // in a corner, at rest: one end of each slab is no number
    list.box_test(unit, [-1.0, -1.0, -1.0, 0.0, 0.0, 0.0]);
    list.box_test(unit, [1.0, 1.0, 1.0, 0.0, 0.0, 0.0]);
    // no thickness
    list.box_test([2.0, 0.0, 0.0, 2.0, 4.0, 3.0], [5.0, 1.0, 1.0, -1.0, 0.0, 0.0]);
    list.box_test([2.0, 0.0, 0.0, 2.0, 4.0, 3.0], [2.0, 1.0, 1.0, 0.0, 1.0, 0.0]);
    list.box_test([0.0; 6], [0.0; 6]);
    // ends swapped, and numbers that are none
    list.box_test([1.0, 1.0, 1.0, -1.0, -1.0, -1.0], down([0.0, 0.0, 5.0]));
    list.box_test([NOT, -1.0, -1.0, 1.0, 1.0, 1.0], [5.0, 0.0, 0.0, -1.0, 0.0, 0.0]);
    list.box_test([-1.0, -1.0, -1.0, NOT, 1.0, 1.0], [5.0, 0.0, 0.0, -1.0, 0.0, 0.0]);
    list.box_test(unit, [NOT, NOT, NOT, 0.0, 0.0, 1.0]);
    list.box_test([NOT; 6], [NOT; 6]);
    list.box_test([-FAR, -FAR, -FAR, FAR, FAR, FAR], down([0.0, 0.0, 5.0]));
    list.box_test(unit, [0.0, 0.0, 5.0, FAR, 0.0, -FAR]);
    list.box_test([-1e308, -1.0, -1.0, 1e308, 1.0, 1.0], [1e308, 0.0, 0.0, -1.0, 0.0, 0.0]);
    list.box_test(unit, [0.0, 0.0, 5.0, 0.0, 0.0, -5e-324]);
    for (count, wanted) in [
        (5, met as fn(&Input, &Answer) -> bool),
        (3, |i, a| sound(i) && !met(i, a)),
        (2, |_, a| a[0] == NAN || a[1] == NAN),
        (3, |i, a| !sound(i) && met(i, a)),
        (2, |i, a| !sound(i) && !met(i, a)),
    ] {
        list.pick(count, Call::BoxTest, inputs::box_test, wanted);
    }
}

const IDENTITY: Numbers =
    [1.0, 0.0, 0.0, 0.0, 0.0, 1.0, 0.0, 0.0, 0.0, 0.0, 1.0, 0.0, 0.0, 0.0, 0.0, 1.0];

/// The identity with some of its numbers changed.
fn with(changes: &[(usize, f64)]) -> Numbers {
    let mut m = IDENTITY;
    for (place, x) in changes {
        m[*place] = *x;
    }
    m
}

fn matrices(list: &mut List) {
    let moved = with(&[(3, 10.0), (7, -2.5), (11, 0.25)]);
    let stretched = with(&[(0, 2.0), (5, 0.5), (10, -4.0)]);
    let turned = with(&[(0, 0.6), (1, -0.8), (4, 0.8), (5, 0.6)]);
    let lens = with(&[(10, -1.25), (11, -2.25), (14, -1.0), (15, 0.0)]);
    let p = [1.0, 2.0, -3.0];
    for m in [IDENTITY, moved, stretched, turned, lens, [0.0; 16], [1.0; 16], with(&[(15, 0.0)])] {
        list.project(m, p);
        list.inverse(m);
    }
    // the fourth coordinate 0, of either sign, tiny and huge
    list.project(lens, [1.0, 2.0, 0.0]);
    list.project(lens, [0.0, 0.0, 0.0]);
    list.project(lens, [-1.0, 2.0, -0.0]);
    list.project(with(&[(15, 5e-324)]), p);
    list.project(with(&[(15, 1e308)]), p);
    list.project(with(&[(3, NOT)]), p);
    list.project(with(&[(15, FAR)]), p);
    list.project(IDENTITY, [FAR, -FAR, NOT]);
    // nearly singular: rows that differ in the last place
    list.inverse(with(&[(1, 1.0), (4, 1.0), (5, 1.0f64.next_up())]));
    list.inverse(with(&[(1, 1.0), (4, 1.0)]));
    list.inverse(with(&[(0, 1e-160), (5, 1e-160)]));
    list.inverse(with(&[(0, 1e160), (5, 1e160)]));
    list.inverse(with(&[(12, 0.5), (13, -0.25), (14, 2.0)]));
    list.inverse(with(&[(6, NOT)]));
    list.inverse(with(&[(6, FAR)]));
    let finite = |_: &Input, a: &Answer| a.iter().all(|w| f64::from_bits(*w).is_finite());
    let not_finite = |_: &Input, a: &Answer| !a.iter().all(|w| f64::from_bits(*w).is_finite());
    list.pick(6, Call::Project, inputs::project, finite);
    list.pick(5, Call::Project, inputs::project, not_finite);
    list.pick(8, Call::Inverse, inputs::inverse, |i, a| a[0] != 0 && finite(i, a));
    list.pick(4, Call::Inverse, inputs::inverse, |i, a| a[0] == 0 && sound(i));
    list.pick(4, Call::Inverse, inputs::inverse, |i, a| a[0] != 0 && not_finite(i, a));
}

fn hits(list: &mut List) {
    // sphere: met, from its centre, touched, from behind; t next to 1e-2
    let unit = [0.0, 0.0, 0.0, 1.0];
    for z in [5.0, 0.0, -5.0, 1.0, -1.0, 0.5] {
        list.hit(1, &unit, down([0.0, 0.0, z]));
    }
    list.hit(1, &unit, down([1.0, 0.0, 5.0]));
    list.hit(1, &unit, down([1.0f64.next_down(), 0.0, 5.0]));
    list.hit(1, &[0.0, 0.0, 0.0, 0.0], down([0.0, 0.0, 5.0]));
    for t in around(1e-2) {
        list.hit(1, &[0.0, 0.0, 0.0, t], down([0.0, 0.0, 0.0]));
        list.hit(1, &[0.0, 0.0, 0.0, t], down([0.0, 0.0, 2.0 * t]));
    }
    // cylinder: met from either side, from within, along its axis, touched, at its ends; t next to 1e-6
    let tube = [1.0, -1.0, 1.0];
    let across = |x: f64, y: f64, z: f64| [x, y, z, -1.0, 0.0, 0.0];
    for x in [5.0, 0.0, -5.0, 1.0, -1.0] {
        list.hit(2, &tube, across(x, 0.0, 0.0));
    }
    list.hit(2, &tube, down([0.0, 0.0, 5.0]));
    list.hit(2, &tube, down([1.0, 0.0, 5.0]));
    for y in around(1.0) {
        list.hit(2, &tube, across(5.0, y, 0.0));
    }
    for z in around(1.0).into_iter().chain(around(-1.0)) {
        list.hit(2, &tube, across(5.0, 0.0, z));
    }
    for t in around(1e-6) {
        list.hit(2, &[t, -1.0, 1.0], across(0.0, 0.0, 0.0));
        list.hit(2, &[t, -1.0, 1.0], across(2.0 * t, 0.0, 0.0));
    }
    list.hit(2, &[1e-6, -1.0, 1.0], across(3e-6, 0.0, 0.0));
    // over the first edge, onto the far side
    list.hit(2, &tube, [2.0, 0.0, 2.0, -0.8, 0.0, -0.6]);
    list.hit(2, &[0.0, 0.0, 0.0], across(5.0, 0.0, 0.0));
    // cone: a above 0, where the roots are swapped, a below 0, where they are not; tip and base
    let cone = [1.0, 2.0];
    for x in [5.0, 0.25, 0.0, -5.0] {
        list.hit(3, &cone, across(x, 0.0, 1.0));
    }
    list.hit(3, &cone, down([0.25, 0.0, 5.0]));
    list.hit(3, &cone, [0.25, 0.0, -1.0, 0.0, 0.0, 1.0]);
    list.hit(3, &cone, [0.25, 0.125, 0.5, 0.28, 0.0, 0.96]);
    list.hit(3, &cone, down([0.0, 0.0, 5.0]));
    for z in [0.0, 5e-324, 2.0].into_iter().chain(around(2.0)) {
        list.hit(3, &cone, across(5.0, 0.0, z));
    }
    list.hit(3, &cone, across(5.0, 0.5, 1.0));
    for t in around(1e-6) {
        list.hit(3, &[2.0 * t, 2.0], across(0.0, 0.0, 1.0));
        list.hit(3, &[2.0 * t, 2.0], across(2.0 * t, 0.0, 1.0));
    }
    list.hit(3, &[2e-6, 2.0], across(3e-6, 0.0, 1.0));
    // so high that the hit's z is rounded to the tip's
    for x in [1e-5, 1.2e-6] {
        list.hit(3, &[1e12, 1e12], [x, 0.0, 1e12, -1.0, 0.0, -0.3]);
    }
    list.hit(3, &[1.0, 0.0], across(5.0, 0.0, 1.0));
    list.hit(3, &[0.0, 2.0], across(5.0, 0.0, 1.0));
    // closed: discs from either side, from within, at the rim, in their planes, next to 1e-6 and at INF
    let rims = around(1.0).map(|x| down([x, 0.0, 5.0]));
    let over = 1953125.0 / 2097152.0;
    let slow = |over: f64| [0.0, 0.0, 1.0 + over, 0.0, 0.0, -1.0 / 1073741824.0];
    let mixed = [
        down([0.0, 0.0, 5.0]),
        down([0.0, 0.0, 0.5]),
        [0.6, 0.8, -5.0, 0.0, 0.0, 1.0],
        [5.0, 0.0, 0.0, -1.0, 0.0, -0.0],
        [-2.0, 0.0, 2.0, 0.8, 0.0, -0.6],
        [0.0, 0.0, 5.0, NOT, 0.0, -1.0],
    ];
    for ray in mixed {
        list.hit(8, &tube, ray);
        list.hit(9, &cone, ray);
    }
    for ray in rims.into_iter().chain([slow(over - 1.0 / 2097152.0), slow(over)]) {
        list.hit(8, &tube, ray);
    }
    for t in around(1e-6) {
        list.hit(8, &[1.0, -1.0, t], [0.0, 0.0, 0.0, 0.0, 0.0, 1.0]);
        list.hit(9, &cone, down([0.25, 0.0, t]));
    }
    // cube: t0 and t1 next to 1e-3, flat, in the plane of a side
    let block = [-1.0, -1.0, -1.0, 1.0, 1.0, 1.0];
    for z in [5.0, 0.0, -5.0, 1.0] {
        list.hit(4, &block, down([0.0, 0.0, z]));
    }
    for t in around(1e-3) {
        list.hit(4, &[-1.0, -1.0, t, 1.0, 1.0, 1.0], [0.0, 0.0, 0.0, 0.0, 0.0, 1.0]);
        list.hit(4, &[-1.0, -1.0, -1.0, 1.0, 1.0, t], [0.0, 0.0, 0.0, 0.0, 0.0, 1.0]);
        list.hit(4, &[-1.0, -1.0, t, 1.0, 1.0, t], [0.0, 0.0, 0.0, 0.0, 0.0, 1.0]);
    }
    list.hit(4, &block, down([1.0, 0.0, 5.0]));
    list.hit(4, &block, [1.0, 1.0, 5.0, -0.0, 0.0, -1.0]);
    list.hit(4, &[0.0, 0.0, 0.0, 4.0, 0.0, 3.0], [1.0, 5.0, 1.0, 0.0, -1.0, 0.0]);
    // triangle: u and v at 0 and 1, the third edge, the band about 0, d next to 1e-9
    let flat = [0.0, 0.0, 0.0, 1.0, 0.0, 0.0, 0.0, 1.0, 0.0];
    list.hit(5, &flat, down([0.25, 0.25, 1.0]));
    list.hit(5, &flat, [0.25, 0.25, -1.0, 0.0, 0.0, 1.0]);
    list.hit(5, &flat, down([0.25, 0.25, -1.0]));
    list.hit(5, &flat, [0.25, 0.25, 1.0, 1.0, 0.0, 0.0]);
    for edge in [0.0, -5e-324, 1.0, 1.0f64.next_up()] {
        list.hit(5, &flat, down([edge, 0.0, 1.0]));
        list.hit(5, &flat, down([0.0, edge, 1.0]));
    }
    for x in around(0.5) {
        list.hit(5, &flat, down([x, 0.5, 1.0]));
    }
    for e in around(1e-9).into_iter().chain(around(-1e-9)) {
        list.hit(5, &[0.0, 0.0, 0.0, e, 0.0, 0.0, 0.0, 1.0, 0.0], down([0.0, 0.25, 1.0]));
    }
    for d in around(1e-9).into_iter().chain([0.0]) {
        list.hit(5, &flat, down([0.25, 0.25, d]));
    }
    // v is no number, u is
    list.hit(5, &flat, [0.25, NOT, 1.0, 0.0, 0.0, -1.0]);
    list.hit(5, &flat, [0.0, FAR, 1.0, 0.0, 0.0, -1.0]);
    list.hit(5, &flat, [0.25, 0.25, 1.0, 0.0, 0.0, -FAR]);
    for kind in inputs::SIMPLE {
        let make = |rng: &mut Rng| inputs::hit(rng, kind);
        let hit = |a: &Answer| a[2] == 1;
        let far = |a: &Answer| f64::from_bits(a[1]).abs() > 1e9;
        let used = |i: &Input| sound_solid(kind, i);
        list.pick(4, Call::Hit, make, |i, a| hit(a) && used(i));
        list.pick(2, Call::Hit, make, |i, a| !hit(a) && used(i));
        list.pick(1, Call::Hit, make, |i, a| hit(a) && !used(i));
        list.pick(1, Call::Hit, make, |i, a| !hit(a) && !used(i));
        list.pick(1, Call::Hit, make, |_, a| hit(a) && far(a));
    }
    list.pick(4, Call::Hit, |rng| inputs::hit(rng, 5), |_, a| a[2] == 1 && a[1] == NAN);
}

fn bounds(list: &mut List) {
    list.solid_box(1, &[1.0, -2.0, 3.0, 0.5]);
    list.solid_box(2, &[2.0, -1.0, 4.0]);
    list.solid_box(3, &[2.0, 4.0]);
    list.solid_box(4, &[1.0, 2.0, 3.0, 4.0, 5.0, 6.0]);
    list.solid_box(5, &[0.0, 5.0, -1.0, 1.0, 0.0, 2.0, -3.0, 1.0, 0.5]);
    list.solid_box(1, &[1e308, 0.0, -1e308, 1e308]);
    // a triangle's box passes over one NaN
    list.solid_box(5, &[NOT, 0.0, 0.0, 1.0, NOT, 0.0, 0.0, 1.0, NOT]);
    list.solid_box(5, &[NOT, 0.0, 0.0, NOT, NOT, 0.0, NOT, 1.0, NOT]);
    list.solid_box(8, &[2.0, -1.0, 4.0]);
    list.solid_box(9, &[2.0, 4.0]);
    for kind in inputs::SIMPLE {
        let make = |rng: &mut Rng| inputs::solid_box(rng, kind);
        list.pick(1, Call::Box, make, |i, _| sound_solid(kind, i));
        list.pick(1, Call::Box, make, |i, _| !sound_solid(kind, i));
    }
}

fn insides(list: &mut List) {
    // on the surface, and next to it
    for x in around(1.0) {
        list.contains(1, &[0.0, 0.0, 0.0, 1.0], [x, 0.0, 0.0], 0.0);
        list.contains(2, &[1.0, -1.0, 1.0], [0.0, x, 0.0], 0.0);
        list.contains(2, &[1.0, -1.0, 1.0], [0.0, 0.0, x], 0.0);
        list.contains(2, &[1.0, -1.0, 1.0], [0.0, 0.0, -x], 0.0);
        list.contains(4, &[-1.0, -1.0, -1.0, 1.0, 1.0, 1.0], [x, -1.0, 1.0], 0.0);
        list.contains(4, &[-1.0, -1.0, -1.0, 1.0, 1.0, 1.0], [0.0, 0.0, -x], 0.0);
    }
    list.contains(1, &[0.0, 0.0, 0.0, 1.0], [0.0, 0.0, 0.0], NOT);
    list.contains(2, &[1.0, -1.0, 1.0], [NOT, 0.0, 0.0], 0.0);
    list.contains(4, &[-1.0, -1.0, -1.0, 1.0, 1.0, 1.0], [NOT, 0.0, 0.0], 0.0);
    // a closed cone: its base, its slope, its apex, and a widening
    for x in around(1.0) {
        list.contains(9, &[1.0, 2.0], [x, 0.0, 0.0], 0.0);
        list.contains(9, &[1.0, 2.0], [0.0, 0.5 * x, 1.0], 0.0);
        list.contains(9, &[1.0, 2.0], [0.0, 0.0, -0.25 * x], 0.25);
    }
    list.contains(9, &[1.0, 2.0], [0.0, 0.0, 2.0], 0.0);
    list.contains(9, &[1.0, 2.0], [0.0, NOT, 1.0], 0.0);
    for kind in [1, 2, 4, 8, 9] {
        let make = |rng: &mut Rng| inputs::contains(rng, kind);
        list.pick(2, Call::Contains, make, |i, a| sound_solid(kind, i) && a[1] == 1);
        list.pick(2, Call::Contains, make, |i, a| sound_solid(kind, i) && a[1] == 0);
        list.pick(1, Call::Contains, make, |i, a| !sound_solid(kind, i) && a[1] == 1);
        list.pick(1, Call::Contains, make, |i, a| !sound_solid(kind, i) && a[1] == 0);
    }
    // a cone and a triangle contain nothing
    list.contains(3, &[1.0, 2.0], [0.0, 0.0, 0.5], 1.0);
    list.contains(5, &[0.0, 0.0, 0.0, 1.0, 0.0, 0.0, 0.0, 1.0, 0.0], [0.25, 0.25, 0.0], 1.0);
}

fn other_kinds(list: &mut List) {
    for kind in [0, 6, 7, 10] {
        list.hit(kind, &[0.0, 0.0, 0.0, 1.0], down([0.0, 0.0, 5.0]));
        list.solid_box(kind, &[0.0, 0.0, 0.0, 1.0]);
        list.contains(kind, &[0.0, 0.0, 0.0, 1.0], [0.0, 0.0, 0.0], 0.0);
    }
}

fn lengths(list: &mut List) {
    // exact, with a remainder of either sign, subnormal, too long, and no number
    list.length([3.0, 4.0, 0.0]);
    list.length([1.0, 2.0, -2.0]);
    list.length([0.0, -0.0, 0.0]);
    list.length([5e-324, 0.0, 0.0]);
    list.length([3e-162, 0.0, 0.0]);
    list.length([3e-160, -4e-160, 1e-161]);
    list.length([1e308, 0.0, 0.0]);
    list.length([1e154, -1e154, 1e150]);
    list.length([FAR, 0.0, 0.0]);
    list.length([0.0, NOT, 0.0]);
    for x in around(1.0).into_iter().chain(around(2.0)) {
        list.length([x, 1.0, 1.0]);
        list.distance([x, 0.0, 0.0], [0.0, 1.0, 0.5]);
    }
    list.distance([1.5, 2.0, 3.0], [4.5, -2.0, 3.0]);
    list.distance([1.0, 2.0, 3.0], [1.0, 2.0, 3.0]);
    list.distance([FAR, 0.0, 0.0], [FAR, 0.0, 0.0]);
    list.distance([0.0, 0.0, 0.0], [0.0, 0.0, NOT]);
    list.distance([1e-200, 0.0, 0.0], [0.0, 1e-200, 0.0]);
    for (call, make) in [
        (Call::Length, inputs::length as fn(&mut Rng) -> Input),
        (Call::Distance, inputs::distance),
    ] {
        list.pick(2, call, make, |_, a| (a[1] as i64) > 0);
        list.pick(2, call, make, |_, a| (a[1] as i64) < 0);
        list.pick(1, call, make, |i, a| a[1] == 0 && i[0] != 0 && sound(i));
        list.pick(1, call, make, |i, _| !sound(i));
    }
}

fn met(_: &Input, a: &Answer) -> bool {
    let (near, far) = (f64::from_bits(a[0]), f64::from_bits(a[1]));
    near <= far && far > 0.0
}

/// All of an input's words are finite floats.
fn sound(words: &[u64]) -> bool {
    words.iter().all(|word| f64::from_bits(*word).is_finite())
}

/// All that a call on a solid reads is finite.
fn sound_solid(kind: u32, i: &Input) -> bool {
    sound(&i[1..=used_numbers(kind)]) && sound(&i[17..])
}

fn main() -> std::io::Result<()> {
    let folder = std::env::args().nth(1).expect("usage: lists FOLDER");
    let mut list = List::default();
    boxes(&mut list);
    matrices(&mut list);
    hits(&mut list);
    bounds(&mut list);
    insides(&mut list);
    other_kinds(&mut list);
    lengths(&mut list);
    list.write(std::path::Path::new(&folder))?;
    println!("lists: {} records", list.records.len());
    Ok(())
}
