//! Seeded scenes: yards of all kinds, and spoilt ones; rays and points that are aimed at their
//! solids. As in `inputs`, a seed gives the same everywhere.

use crate::harness::Shown;
use crate::inputs::{self, Grain, Numbers, Point, Spot};
use oracle::Scene;
use oracle::check::{parts, round, used_numbers};
use oracle::generate::Rng;
use oracle::stripes::striped;
use std::fmt::Write;

/// A scene and what is asked of it: an entry with a ray, or with a point and a widening.
pub struct Case {
    pub scene: Scene,
    pub i: usize,
    pub asked: Vec<f64>,
}

impl Shown for Case {
    fn size(&self) -> u32 {
        let s = &self.scene;
        let floats = s.numbers.iter().chain(&s.points).chain(&self.asked);
        let ones: u32 = floats.map(|x| 8 + x.to_bits().count_ones()).sum();
        let marks: u32 = s.marks.iter().chain(&s.owners).map(|m| 8 + m.count_ones()).sum();
        let starts: u32 = s.starts.iter().map(|k| 8 + k.count_ones()).sum();
        ones + marks + starts
    }

    /// As the oracle's program reads a scene, then the entry and the numbers.
    fn text(&self) -> String {
        let mut text = scene_text(&self.scene);
        write!(text, "{}", self.i).unwrap();
        self.asked.iter().fold(text, |text, x| text + &format!(" {:016X}", x.to_bits()))
    }
}

/// As the oracle's program reads a scene.
pub fn scene_text(s: &Scene) -> String {
    let numbers = floats(&s.numbers) + &list(&s.marks) + &floats(&s.points);
    numbers + &list(&s.starts) + &list(&s.owners)
}

fn floats(xs: &[f64]) -> String {
    xs.iter().fold(format!("{} ", xs.len()), |text, x| text + &format!("{:016X} ", x.to_bits()))
}

fn list<T: std::fmt::Display>(xs: &[T]) -> String {
    xs.iter().fold(format!("{} ", xs.len()), |text, x| text + &format!("{x} "))
}

// The cases of each call.

/// A scene to be checked: about half of them are spoilt.
pub fn checked(rng: &mut Rng) -> Case {
    let mut yard = Yard::new(rng);
    yard.fill_any();
    if yard.rng.chance(30) {
        yard.litter();
    }
    if yard.rng.chance(55) {
        for _ in 0..yard.rng.pick(&[1, 1, 1, 2, 3]) {
            yard.damage();
        }
    }
    Case { scene: yard.scene, i: 0, asked: Vec::new() }
}

/// An entry of a scene, and a ray aimed at it.
pub fn hit(rng: &mut Rng) -> Case {
    if rng.chance(3) {
        return many_restarts(rng);
    }
    let (mut case, grain) = aimed_at(rng);
    let (kind, n) = (case.scene.marks_of(case.i)[0], case.scene.numbers_of(case.i));
    let ray = if inputs::has_lids(kind) && rng.chance(50) {
        inputs::ray_to_lid(rng, grain, kind, n.try_into().unwrap())
    } else {
        inputs::ray_to(rng, grain, &|rng| spot(rng, grain, &case.scene, case.i))
    };
    case.asked = ray.to_vec();
    spoil(rng, &mut case);
    case
}

/// A cut with cuts in it, by all four operations and with placings between, and a ray aimed at it.
pub fn hit_through_cuts(rng: &mut Rng) -> Case {
    loop {
        let mut yard = Yard::new(rng);
        yard.operations = &[0, 1, 1, 2, 3, 3, 3];
        let about =
            if yard.rng.chance(50) { [0.0; 3] } else { inputs::place(yard.rng, yard.grain) };
        let (depth, cuts) = (2 + yard.rng.below(4), 1 + yard.rng.below(2));
        let plan = Plan { depth, cuts, in_cut: true, placed_in_cuts: true, about };
        let (a, b) = (yard.solid(plan), yard.solid(plan));
        let mut top = yard.cut(a, b);
        if yard.rng.chance(30) {
            let m = yard.placing(false, about);
            top = yard.scene.push([6, 0, top, 0], &m);
        }
        let Yard { scene, grain, rng, .. } = yard;
        let cuts = scene.marks.chunks_exact(4).filter(|marks| marks[0] == 7).count();
        if cuts < 2 || !has_true_cut(&scene) || oracle::check(&scene).is_err() {
            continue;
        }
        let i = top as usize;
        let ray = inputs::ray_to(rng, grain, &|rng| spot(rng, grain, &scene, i));
        // most would miss
        if oracle::own_hit(&scene, i, ray).is_ok_and(|hit| hit.ok) || rng.chance(20) {
            return Case { scene, i, asked: ray.to_vec() };
        }
    }
}

/// An entry of a scene, a point by its surface, and a widening.
pub fn contains(rng: &mut Rng) -> Case {
    let (mut case, grain) = aimed_at(rng);
    let (p, f) = inputs::point_near(rng, grain, &|rng| spot(rng, grain, &case.scene, case.i));
    case.asked = vec![p[0], p[1], p[2], f];
    spoil(rng, &mut case);
    case
}

/// Whether a cut of the scene is by operation 2 or 3, which the Rust does not have.
pub fn has_true_cut(scene: &Scene) -> bool {
    scene.marks.chunks_exact(4).any(|marks| marks[0] == 7 && marks[1] > 1)
}

/// Whether a solid of the scene is closed, which none of the Rust's is.
pub fn has_lids(scene: &Scene) -> bool {
    scene.marks.chunks_exact(4).any(|marks| inputs::has_lids(marks[0]))
}

// For timing: accepted scenes that the Rust has too.

/// An entry of a scene of a few solids, and a ray aimed at it.
pub fn ordinary(rng: &mut Rng) -> Case {
    loop {
        let (mut case, grain) = aimed_at(rng);
        without_stripes(&mut case.scene);
        if has_true_cut(&case.scene) || has_lids(&case.scene) {
            continue;
        }
        let ray = inputs::ray_to(rng, grain, &|rng| spot(rng, grain, &case.scene, case.i));
        if oracle::own_hit(&case.scene, case.i, ray).is_ok() {
            case.asked = ray.to_vec();
            return case;
        }
    }
}

/// The Rust side would make the stripes of a solid with the solid.
fn without_stripes(scene: &mut Scene) {
    scene.marks.chunks_exact_mut(4).filter(|marks| striped(marks[0])).for_each(|m| m[1] = 0);
}

/// A scene as large as it may be: cuts, placings and simple solids.
pub fn full(rng: &mut Rng) -> Case {
    loop {
        let mut yard = Yard::new(rng);
        (yard.operations, yard.kinds) = (RUST_OWN, RUST_KINDS);
        while yard.scene.entries() < 1000 {
            let about = inputs::place(yard.rng, yard.grain);
            yard.cut_of_leaves(about);
            let part = yard.leaf([0.0; 3]);
            yard.placings(part, 1, about);
        }
        while yard.scene.entries() < 1024 {
            yard.leaf([0.0; 3]);
        }
        without_stripes(&mut yard.scene);
        if oracle::check(&yard.scene).is_ok() {
            return Case { scene: yard.scene, i: 0, asked: Vec::new() };
        }
    }
}

/// A solid cut by one so small that its misses come back as 0.01 or so: the cut restarts every two
/// centimetres on the way to the surface, which may be as far away as 64 restarts go, or farther.
pub fn many_restarts(rng: &mut Rng) -> Case {
    let mut yard = Yard::new(rng);
    yard.grain = Grain::Any;
    let about = inputs::place(yard.rng, yard.grain);
    let (a, tiny) = (yard.leaf(about), yard.leaf([0.0; 3]));
    let by = yard.rng.pick(&[1e-11, 1.1e-11, 0.8e-11]);
    let b = yard.scene.push([6, 0, tiny, 0], &stretched([by; 3]));
    let operation = yard.rng.pick(&[1, 3]);
    yard.scene.push([7, operation, a, b], &[]);
    let Yard { scene, grain, rng, .. } = yard;
    let aim = spot(rng, grain, &scene, a as usize);
    // 64 restarts go 1.15 to 1.34, by how small it is
    let away = if rng.chance(50) { rng.between(1.1, 1.4) } else { rng.between(0.0, 2.0) };
    let origin = inputs::along(aim.point, aim.normal, away);
    let d = aim.normal.map(|x| -x);
    let asked = origin.into_iter().chain(d).collect();
    Case { scene, i: 3, asked }
}

/// A scene of a few solids, and mostly one that isn't simple.
fn aimed_at(rng: &mut Rng) -> (Case, Grain) {
    let mut yard = Yard::new(rng);
    for _ in 0..yard.rng.pick(&[1, 1, 1, 2, 3]) {
        yard.any_solid();
    }
    let Yard { scene, grain, rng, .. } = yard;
    let mut i = scene.entries() - 1;
    if rng.chance(15) {
        i = rng.below(scene.entries());
    }
    (Case { scene, i, asked: Vec::new() }, grain)
}

/// Leaves nearly all cases as they are.
fn spoil(rng: &mut Rng, case: &mut Case) {
    match rng.below(100) {
        0..2 => {
            let k = rng.below(case.asked.len());
            case.asked[k] = inputs::extreme(rng);
        }
        2 => {
            let scale = rng.pick(&[1e-3, 1e3, 2e4, 1e-100]);
            for x in &mut case.asked {
                *x *= scale;
            }
        }
        3 => {
            let mut yard = Yard::new(rng);
            yard.scene = std::mem::take(&mut case.scene);
            yard.damage();
            case.scene = yard.scene;
        }
        4 => {
            let n = case.scene.entries();
            case.i = rng.pick(&[n, n + 1, 1024, usize::MAX]);
        }
        _ => {}
    }
}

/// A point of the surface of a solid, in the scene's coordinates.
fn spot(rng: &mut Rng, grain: Grain, scene: &Scene, i: usize) -> Spot {
    let (marks, n) = (scene.marks_of(i), scene.numbers_of(i));
    match parts(marks) {
        [] => inputs::spot(rng, grain, marks[0], n.try_into().unwrap()),
        [part] => {
            let inner = spot(rng, grain, scene, *part as usize);
            let turned = |v: Point| -> Point {
                std::array::from_fn(|k| (0..3).map(|j| n[4 * k + j] * v[j]).sum())
            };
            let moved = inputs::along(turned(inner.point), [n[3], n[7], n[11]], 1.0);
            Spot { point: moved, normal: inputs::unit(turned(inner.normal)) }
        }
        several => {
            let part = rng.pick(several);
            spot(rng, grain, scene, part as usize)
        }
    }
}

const IDENTITY: Numbers =
    [1.0, 0.0, 0.0, 0.0, 0.0, 1.0, 0.0, 0.0, 0.0, 0.0, 1.0, 0.0, 0.0, 0.0, 0.0, 1.0];

fn stretched(by: Point) -> Numbers {
    let mut m = IDENTITY;
    (m[0], m[5], m[10]) = (by[0], by[1], by[2]);
    m
}

fn moved_to(mut m: Numbers, to: Point) -> Numbers {
    (m[3], m[7], m[11]) = (to[0], to[1], to[2]);
    m
}

/// What a solid is made of, and where.
#[derive(Clone, Copy)]
struct Plan {
    /// How deep it nests at most.
    depth: usize,
    /// How many cuts stand in one another at most.
    cuts: usize,
    in_cut: bool,
    /// Whether parts of cuts are placed: their restarts multiply.
    placed_in_cuts: bool,
    about: Point,
}

const RUST_OWN: &[u32] = &[0, 1];
const ALL: &[u32] = &[0, 1, 2, 3];
const RUST_KINDS: &[u32] = &[1, 1, 1, 2, 2, 3, 4, 4, 4, 5];
const ALL_KINDS: &[u32] = &[1, 1, 2, 3, 4, 4, 4, 5, 8, 8, 8, 9, 9];

struct Yard<'a> {
    rng: &'a mut Rng,
    grain: Grain,
    scene: Scene,
    /// What its cuts are picked from: the Rust's own operations, or all.
    operations: &'static [u32],
    /// What its simple solids are picked from: the Rust's own kinds, or all.
    kinds: &'static [u32],
}

impl Yard<'_> {
    fn new(rng: &mut Rng) -> Yard<'_> {
        let (grain, operations) = (inputs::grain(rng), rng.pick(&[RUST_OWN, ALL]));
        let kinds = rng.pick(&[RUST_KINDS, ALL_KINDS]);
        Yard { rng, grain, scene: Scene::default(), operations, kinds }
    }

    // Making.

    /// A yard of any size, with lines of its round solids.
    fn fill_any(&mut self) {
        let solids = match self.rng.below(100) {
            0..3 => 0,
            3..80 => 1 + self.rng.below(4),
            _ => 5 + self.rng.below(20),
        };
        for _ in 0..solids {
            self.any_solid();
        }
        if self.rng.chance(1) {
            let full = 1023 + self.rng.below(4);
            while self.scene.entries() < full {
                self.leaf([0.0; 3]);
            }
        }
        self.lines();
    }

    /// A simple solid, placings in placings, cuts in cuts, or a mixture.
    fn any_solid(&mut self) {
        let about =
            if self.rng.chance(50) { [0.0; 3] } else { inputs::place(self.rng, self.grain) };
        let plan = Plan { depth: 1, cuts: 0, in_cut: false, placed_in_cuts: false, about };
        match self.rng.below(20) {
            0..2 => {
                self.leaf(about);
            }
            2..7 => {
                let part = self.leaf([0.0; 3]);
                let deep = self.rng.pick(&[1, 1, 2, 3, 7]);
                self.placings(part, deep, about);
            }
            7..10 => self.cut_of_leaves(about),
            10..12 => {
                let deep = 1 + self.rng.below(7);
                self.cuts_in_a_row(about, deep);
            }
            12..14 => {
                let depth = 3 + self.rng.below(6);
                self.solid(Plan { depth, cuts: depth - 1, ..plan });
            }
            _ => {
                let (depth, cuts) = (3 + self.rng.below(6), 1 + self.rng.below(3));
                self.solid(Plan { depth, cuts, placed_in_cuts: true, ..plan });
            }
        }
    }

    fn placings(&mut self, mut part: u32, count: usize, about: Point) {
        for _ in 0..count {
            let m = self.placing(false, about);
            part = self.scene.push([6, 0, part, 0], &m);
        }
    }

    fn cut_of_leaves(&mut self, about: Point) {
        let (a, b) = (self.leaf(about), self.leaf(about));
        self.cut(a, b);
    }

    fn cuts_in_a_row(&mut self, about: Point, count: usize) {
        let mut so_far = self.leaf(about);
        for _ in 0..count {
            let next = self.leaf(about);
            so_far =
                if self.rng.chance(70) { self.cut(so_far, next) } else { self.cut(next, so_far) };
        }
    }

    fn cut(&mut self, a: u32, b: u32) -> u32 {
        let operation = self.rng.pick(self.operations);
        self.scene.push([7, operation, a, b], &[])
    }

    fn solid(&mut self, plan: Plan) -> u32 {
        let choice = self.rng.below(100);
        let inner = Plan { depth: plan.depth - 1, ..plan };
        if plan.depth == 1 || self.scene.entries() > 60 {
            self.leaf(plan.about)
        } else if choice < 35 && (plan.placed_in_cuts || !plan.in_cut) {
            // made about the origin, then moved to its place
            let part = self.solid(Plan { about: [0.0; 3], ..inner });
            let m = self.placing(plan.in_cut, plan.about);
            self.scene.push([6, 0, part, 0], &m)
        } else if choice < 80 && plan.cuts > 0 {
            let inner = Plan { cuts: plan.cuts - 1, in_cut: true, ..inner };
            let (a, b) = (self.solid(inner), self.solid(inner));
            self.cut(a, b)
        } else {
            self.leaf(plan.about)
        }
    }

    /// A simple solid, near that point if its kind has a place of its own.
    fn leaf(&mut self, about: Point) -> u32 {
        let kind = self.rng.pick(self.kinds);
        let mut n = inputs::solid(self.rng, self.grain, kind);
        if matches!(kind, 3 | 9) && n[1] == 0.0 {
            n[1] = 1.0;
        }
        if matches!(kind, 1 | 4 | 5) {
            let to: Point = std::array::from_fn(|k| {
                about[k] + inputs::metres(self.rng, self.grain) / 8.0
                    - if kind == 4 { 5.0 } else { 0.0 }
            });
            let from = [n[0], n[1], n[2]];
            let coordinates = if kind == 1 { 3 } else { used_numbers(kind) };
            for (k, x) in n[..coordinates].iter_mut().enumerate() {
                *x = (*x - from[k % 3]) + to[k % 3];
            }
        }
        let detail = match kind {
            4 => self.rng.pick(&[1, 1, 1, 2, 999, 1000]),
            kind if striped(kind) => self.rng.pick(&[0, 0, 0, 0, 0, 0, 0, 1, 7, 8, 181, 360]),
            _ => 0,
        };
        self.scene.push([kind, detail, 0, 0], &n)
    }

    /// A placing at that point. A part of a cut is mostly enlarged: else a miss may come back below
    /// INF, and the cut then restarts without end.
    fn placing(&mut self, in_cut: bool, to: Point) -> Numbers {
        let turned = moved_to(inputs::turned(self.rng, true), to);
        if in_cut && self.rng.chance(75) {
            let by = self.rng.pick(&[
                [1.5; 3],
                [2.0; 3],
                [1.0001; 3],
                [1.25, 1.5, 2.0],
                [-2.0, 3.0, 2.0],
            ]);
            return scaled(if self.rng.chance(40) { moved_to(IDENTITY, to) } else { turned }, by);
        }
        match self.rng.below(20) {
            0..5 => turned,
            5..8 => moved_to(IDENTITY, to),
            8..11 => moved_to(inputs::turned(self.rng, false), to),
            11..13 => scaled(turned, [self.rng.pick(&[0.25, 0.5, 2.0, 1e-3, 1e-6, 100.0]); 3]),
            13..15 => scaled(turned, [0.5, 2.0, 1.5]),
            15 => {
                let thin = self.rng.pick(&[1e-300, 1e-200, 1e-160, 1e-100, -1e-9]);
                let mut by = [1.0; 3];
                by[self.rng.below(3)] = thin;
                scaled(moved_to(IDENTITY, to), by)
            }
            16 => {
                // one axis and w exchanged: the inverse takes that axis to 0
                let mut m = IDENTITY;
                let k = self.rng.below(3);
                (m[5 * k], m[4 * k + 3], m[12 + k], m[15]) = (0.0, 1.0, 1.0, 0.0);
                m
            }
            17 => {
                // a last row of its own counts in determinant and inverse only
                let mut m = moved_to(IDENTITY, to);
                m[12..].fill_with(|| self.rng.between(-1.0, 1.0));
                m
            }
            18 => {
                std::array::from_fn(
                    |k| if k < 12 { self.rng.between(-2.0, 2.0) } else { IDENTITY[k] },
                )
            }
            _ => inputs::matrix(self.rng),
        }
    }

    /// Lines of some round solids.
    fn lines(&mut self) {
        for i in 0..self.scene.entries() {
            if !round(self.scene.marks_of(i)[0]) || self.scene.starts.len() > 20 {
                continue;
            }
            for _ in 0..self.rng.pick(&[0, 0, 1, 2]) {
                let count = self.rng.below(4);
                let line: Vec<Point> =
                    (0..count).map(|_| inputs::place(self.rng, self.grain)).collect();
                self.scene.push_line(i as u32, &line);
            }
        }
    }

    // Spoiling.

    /// Anything in places that are not used.
    fn litter(&mut self) {
        for i in 0..self.scene.entries() {
            let kind = self.scene.marks[4 * i];
            for k in used_numbers(kind)..16 {
                self.scene.numbers[16 * i + k] = inputs::extreme(self.rng);
            }
            let used: &[usize] = match kind {
                4 => &[1],
                6 => &[2],
                7 => &[1, 2, 3],
                kind if striped(kind) => &[1],
                _ => &[],
            };
            for k in (1..4).filter(|k| !used.contains(k)) {
                self.scene.marks[4 * i + k] = self.any_mark();
            }
        }
        for x in &mut self.scene.points {
            if self.rng.chance(10) {
                *x = inputs::extreme(self.rng);
            }
        }
    }

    fn any_mark(&mut self) -> u32 {
        let any = self.rng.next() as u32;
        self.rng.pick(&[0, 1, 2, 7, 8, 360, 361, 1023, 1024, u32::MAX, any])
    }

    /// An entry, if there is one, of a kind that `wanted` takes.
    fn some(&mut self, wanted: impl Fn(u32) -> bool) -> Option<usize> {
        let (marks, n) =
            (&self.scene.marks, self.scene.entries().min(self.scene.numbers.len() / 16));
        let found: Vec<usize> = (0..n).filter(|i| wanted(marks[4 * i])).collect();
        (!found.is_empty()).then(|| self.rng.pick(&found))
    }

    /// Does damage that may meet one of 2 to 7 or 14, or just not.
    fn damage(&mut self) {
        match self.rng.below(20) {
            0..3 => self.damage_lengths(),
            3..5 => self.damage_marks(),
            18.. => self.damage_stripes(),
            5..8 => self.damage_parts(),
            8..10 => self.damage_owners(),
            10..12 => self.damage_starts(),
            12..14 => self.damage_numbers(),
            14..16 => self.damage_placing(),
            _ => self.damage_box(),
        }
    }

    fn damage_lengths(&mut self) {
        let s = &mut self.scene;
        match self.rng.below(15) {
            0 => s.numbers.push(1.0),
            1 => drop(s.numbers.pop()),
            2 => s.numbers.extend([0.0; 16]),
            3 => s.numbers.truncate(s.numbers.len().saturating_sub(16)),
            4 => s.marks.push(1),
            5 => drop(s.marks.pop()),
            6 => s.marks.extend([1, 0, 0, 0]),
            7 => s.marks.truncate(s.marks.len().saturating_sub(4)),
            8 => s.owners.push(0),
            9 => drop(s.owners.pop()),
            10 => s.starts.push(s.points.len() / 3),
            11 => drop(s.starts.pop()),
            12 => s.points.extend([0.5; 2]),
            13 => drop(s.points.pop()),
            _ => s.points.push(0.5),
        }
    }

    fn damage_marks(&mut self) {
        let Some(i) = self.some(|_| true) else { return };
        let (kind, wrong) = (self.scene.marks[4 * i], self.any_mark());
        let (k, mark) = match (kind, self.rng.below(3)) {
            (4, 1..) => (1, self.rng.pick(&[0, 1, 1000, 1001, wrong])),
            (7, 1..) => (1, self.rng.pick(&[0, 1, 2, 3, 4, wrong])),
            _ => (0, self.rng.pick(&[0, 8, 9, 10, 11, 1 << 16 | kind, 1 << 31 | kind, wrong])),
        };
        self.scene.marks[4 * i + k] = mark;
    }

    /// A count at the boundaries of what it may be, or beyond.
    fn damage_stripes(&mut self) {
        let i = match self.some(striped) {
            Some(i) => i,
            None => {
                let kind = self.rng.pick(&[2, 3, 8, 9]);
                self.scene.push([kind, 0, 0, 0], &[1.0, 1.0, 2.0]) as usize
            }
        };
        let any = self.any_mark();
        let count = self.rng.pick(&[0, 1, 7, 181, 360, 361, 361, 362, 1000, u32::MAX, any]);
        if let Some(mark) = self.scene.marks.get_mut(4 * i + 1) {
            *mark = count;
        }
    }

    fn damage_parts(&mut self) {
        match self.rng.below(6) {
            // another part: a later one, a shared one, or a good one
            0..3 => {
                let Some(i) = self.some(|kind| matches!(kind, 6 | 7)) else { return };
                let (k, n) = (2 + self.rng.below(2), self.scene.entries() as u32);
                let any = self.rng.below(i + 1) as u32;
                let at = i as u32;
                let part = self.rng.pick(&[at, at + 1, n - 1, n, u32::MAX, any, any, any]);
                self.scene.marks[4 * i + k] = part;
            }
            // one more entry that names one part twice, or one that has a name already
            3 => {
                let Some(i) = self.some(|_| true) else { return };
                let (a, b) = (i as u32, self.leaf([0.0; 3]));
                let (a, b) = self.rng.pick(&[(a, a), (b, b), (a, b), (b, a)]);
                self.cut(a, b);
            }
            // as deep as it may be, or one deeper, in the first part or in the second
            4 => {
                let mut part = self.leaf([0.0; 3]);
                for _ in 0..self.rng.pick(&[6, 7]) {
                    part = self.scene.push([6, 0, part, 0], &IDENTITY);
                }
                let other = self.leaf([0.0; 3]);
                let (a, b) = self.rng.pick(&[(part, other), (other, part)]);
                self.cut(a, b);
            }
            _ => {
                let part = self.leaf([0.0; 3]);
                let count = 6 + self.rng.below(3);
                self.placings(part, count, [0.0; 3]);
            }
        }
    }

    fn damage_owners(&mut self) {
        if self.scene.owners.is_empty() {
            let owner = self.some(|_| true).unwrap_or(0) as u32;
            self.scene.push_line(owner, &[[0.0; 3]]);
        }
        let n = self.scene.owners.len();
        let (k, j) = (self.rng.below(n), self.rng.below(n));
        let other = self.some(|kind| !round(kind)).unwrap_or(0) as u32;
        let any = self.rng.below(self.scene.entries() + 2) as u32;
        match self.rng.below(3) {
            0 => self.scene.owners.swap(k, j),
            1 => self.scene.owners[k] = any,
            _ => {
                let entries = self.scene.entries() as u32;
                self.scene.owners[k] = self.rng.pick(&[other, entries, u32::MAX, 0]);
            }
        }
    }

    fn damage_starts(&mut self) {
        if self.scene.starts.is_empty() {
            let Some(i) = self.some(round) else { return };
            let owner = i as u32;
            self.scene.push_line(owner, &[[0.0; 3], [1.0; 3]]);
            self.scene.push_line(owner, &[]);
        }
        let (n, points) = (self.scene.starts.len(), self.scene.points.len() / 3);
        let (k, j) = (self.rng.below(n), self.rng.below(n));
        match self.rng.below(4) {
            0 => self.scene.starts.swap(k, j),
            1 => self.scene.starts[k] = self.rng.below(points + 2),
            2 => self.scene.starts[0] = self.rng.pick(&[0, 1, points]),
            _ => {
                self.scene.starts[n - 1] = self.rng.pick(&[points, points + 1, 1 << 32, usize::MAX])
            }
        }
    }

    fn damage_numbers(&mut self) {
        let Some(i) = self.some(|kind| used_numbers(kind) > 0) else { return };
        let kind = self.scene.marks[4 * i];
        let used = used_numbers(kind);
        let extreme = inputs::extreme(self.rng);
        let n = &mut self.scene.numbers[16 * i..16 * i + 16];
        let above = 1e6f64.next_up();
        if self.rng.chance(50) {
            n[self.rng.below(used)] =
                self.rng.pick(&[extreme, extreme, f64::NAN, above, -above, 1e6, -1e6, -0.0]);
            return;
        }
        let small = self.rng.pick(&[-1.0, -5e-324, -0.0, 0.0, 5e-324]);
        match kind {
            1 => n[3] = small,
            2 | 8 if self.rng.chance(50) => n[0] = small,
            2 | 8 => n[2] = inputs::nudged(self.rng, n[1]),
            3 | 9 => n[self.rng.below(2)] = small,
            4 => {
                let k = self.rng.below(3);
                n[k] = inputs::nudged(self.rng, n[k + 3]);
            }
            _ => {}
        }
    }

    fn damage_placing(&mut self) {
        let part = self.leaf([0.0; 3]);
        let mut m = self.placing(false, [0.0; 3]);
        match self.rng.below(8) {
            0..3 => inputs::flatten(self.rng, &mut m),
            3 => m = stretched([self.rng.pick(&[0.0, -0.0, 1e-300]), 1.0, 1.0]),
            4 => m = stretched([self.rng.pick(&[1e-100, 1e-107, 1e-108, 1e-120]); 3]),
            5 => m = stretched([1e-160, self.rng.pick(&[1e-140, 1e-148, 1e-150]), 1.0]),
            6 => m[12..].fill(0.0),
            _ => m = stretched([1e6, 1e-3, self.rng.pick(&[1e-300, 1e-308, 5e-324])]),
        }
        self.scene.push([6, 0, part, 0], &m);
    }

    /// A box at the limit, within or beyond it.
    fn damage_box(&mut self) {
        let at = self.rng.pick(&[999_999.0, 999_999.5, 999_998.999, 1e6]);
        let (axis, side) = (self.rng.below(3), self.rng.pick(&[1.0, -1.0]));
        let mut to = [0.0; 3];
        to[axis] = at * side;
        match self.rng.below(4) {
            0 => drop(self.scene.push([1, 0, 0, 0], &[to[0], to[1], to[2], 1.0])),
            1 => {
                let part = self.scene.push([4, 1, 0, 0], &[-1.0, -1.0, -1.0, 1.0, 1.0, 1.0]);
                self.scene.push([6, 0, part, 0], &moved_to(IDENTITY, to));
            }
            2 => {
                let kind = self.rng.pick(&[2, 8]);
                let part = self.scene.push([kind, 0, 0, 0], &[2.0, -2.0, 2.0]);
                let by = self.rng.pick(&[499_999.5, 500_000.0, 500_000.5, 1e6]);
                let m = self.scene.push([6, 0, part, 0], &stretched([1.0, by, 1.0]));
                // beyond by the second placing alone
                self.scene.push([6, 0, m, 0], &stretched([1.0, 1.0, self.rng.pick(&[1.0, 1e6])]));
            }
            _ => {
                let a = self.leaf([0.0; 3]);
                let (kind, high) = (self.rng.pick(&[3, 9]), self.rng.pick(&[1e6, 999_999.0]));
                let b = self.scene.push([kind, 0, 0, 0], &[1.0, high]);
                self.cut(a, b);
            }
        }
    }
}

/// That matrix after a stretch.
fn scaled(mut m: Numbers, by: Point) -> Numbers {
    for row in 0..3 {
        for k in 0..3 {
            m[4 * row + k] *= by[k];
        }
    }
    m
}
