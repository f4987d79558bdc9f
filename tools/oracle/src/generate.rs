//! Seeded cases for comparisons: a scene with a view and room, rays, points and paths.
//! Most scenes are accepted and drawn; each refusal 2 to 9 and 11 to 14 occurs (10 is unused).
//! Only sums, products, quotients and square roots are formed, so that a seed gives the same case
//! everywhere.

use crate::check::{LARGEST, parts, used_numbers};
use crate::stripes::striped;
use crate::{FINE, Lines, Places, Room, Scene, View, draw_measured};

/// splitmix64.
pub struct Rng(u64);

impl Rng {
    pub fn new(seed: u64) -> Rng {
        Rng(seed)
    }

    pub fn next(&mut self) -> u64 {
        self.0 = self.0.wrapping_add(0x9E37_79B9_7F4A_7C15);
        let z = (self.0 ^ (self.0 >> 30)).wrapping_mul(0xBF58_476D_1CE4_E5B9);
        let z = (z ^ (z >> 27)).wrapping_mul(0x94D0_49BB_1331_11EB);
        z ^ (z >> 31)
    }

    /// 0 to n - 1.
    pub fn below(&mut self, n: usize) -> usize {
        (self.next() % n as u64) as usize
    }

    pub fn chance(&mut self, percent: usize) -> bool {
        self.below(100) < percent
    }

    /// At least 0 and below 1.
    pub fn unit(&mut self) -> f64 {
        (self.next() >> 11) as f64 / (1u64 << 53) as f64
    }

    pub fn between(&mut self, low: f64, high: f64) -> f64 {
        low + (high - low) * self.unit()
    }

    pub fn pick<T: Copy>(&mut self, xs: &[T]) -> T {
        xs[self.below(xs.len())]
    }
}

/// Everything that one seed stands for.
#[derive(Clone, Debug)]
pub struct Case {
    pub seed: u64,
    pub family: Family,
    pub scene: Scene,
    pub view: View,
    pub room: Room,
    /// For the nearest hit.
    pub rays: Vec<[f64; 6]>,
    /// For the eye test, from the view's eye.
    pub points: Vec<[f64; 3]>,
    /// For chop with the view, and for simplify.
    pub lines: Lines,
    pub threshold: f64,
    pub places: Places,
}

#[derive(Clone, Copy, Debug, PartialEq, Eq)]
pub enum Family {
    /// Numbers without pattern, a plausible camera.
    Smooth,
    /// Few distinct numbers: ties, touching solids, rays along axes.
    Lattice,
    /// Zeros, tiny and huge numbers.
    Wild,
    /// Many small solids.
    Crowd,
    /// Boxes in boxes, so that the tree is deep.
    Deep,
    /// A good scene or view, damaged.
    Damaged,
}

/// Places that keep a draw short; the limit of most rooms.
const AMPLE: usize = 4000;

pub fn case(seed: u64) -> Case {
    let mut rng = Rng::new(seed);
    let family = match rng.below(100) {
        0..45 => Family::Smooth,
        45..67 => Family::Lattice,
        67..77 => Family::Wild,
        77..79 => Family::Crowd,
        79..82 => Family::Deep,
        _ => Family::Damaged,
    };
    let style = match family {
        Family::Damaged => rng.pick(&[Family::Smooth, Family::Lattice]),
        other => other,
    };
    let scale = match style {
        Family::Lattice => rng.pick(&[0.0078125, 1.0, 4.0, 1000.0]),
        Family::Wild => rng.pick(&[0.001, 1.0, 1000.0, 300_000.0]),
        Family::Deep => 100_000.0,
        _ => rng.pick(&[0.004, 1.0, 10.0, 10.0, 300.0]),
    };
    let mut maker = Maker { rng, style, scale, scene: Scene::default() };
    maker.fill();
    let mut view = maker.view();
    if family == Family::Damaged {
        maker.damage(&mut view);
    }
    let ample = if style == Family::Crowd { 30_000 } else { AMPLE };
    let room = maker.room(&view, ample);
    let rays = (0..4).map(|_| maker.ray()).collect();
    let points = (0..4).map(|_| maker.put(&view)).collect();
    let lines = maker.lines();
    let threshold = maker.threshold();
    let places = maker.places();
    Case { seed, family, scene: maker.scene, view, room, rays, points, lines, threshold, places }
}

type Mat = [f64; 16];

const IDENTITY: Mat = [1., 0., 0., 0., 0., 1., 0., 0., 0., 0., 1., 0., 0., 0., 0., 1.];

fn product(a: &Mat, b: &Mat) -> Mat {
    std::array::from_fn(|k| (0..4).map(|i| a[k / 4 * 4 + i] * b[4 * i + k % 4]).sum())
}

fn translation(v: [f64; 3]) -> Mat {
    let mut m = IDENTITY;
    (m[3], m[7], m[11]) = (v[0], v[1], v[2]);
    m
}

fn stretch(v: [f64; 3]) -> Mat {
    let mut m = IDENTITY;
    (m[0], m[5], m[10]) = (v[0], v[1], v[2]);
    m
}

/// A turn about an axis; (c, s) lies on the unit circle.
fn turn(axis: usize, c: f64, s: f64) -> Mat {
    let (i, j) = ((axis + 1) % 3, (axis + 2) % 3);
    let mut m = IDENTITY;
    m[4 * i + i] = c;
    m[4 * i + j] = -s;
    m[4 * j + i] = s;
    m[4 * j + j] = c;
    m
}

/// A point of the unit circle for t from 0 to 4, a quarter a unit.
fn circle(t: f64) -> (f64, f64) {
    let quarter = t.floor();
    let u = t - quarter;
    let (c, s) = ((1.0 - u * u) / (1.0 + u * u), 2.0 * u / (1.0 + u * u));
    match quarter as i64 % 4 {
        0 => (c, s),
        1 => (-s, c),
        2 => (-c, -s),
        _ => (s, -c),
    }
}

fn minus(a: [f64; 3], b: [f64; 3]) -> [f64; 3] {
    [a[0] - b[0], a[1] - b[1], a[2] - b[2]]
}

fn dot(a: [f64; 3], b: [f64; 3]) -> f64 {
    a[0] * b[0] + a[1] * b[1] + a[2] * b[2]
}

fn cross(a: [f64; 3], b: [f64; 3]) -> [f64; 3] {
    [a[1] * b[2] - a[2] * b[1], a[2] * b[0] - a[0] * b[2], a[0] * b[1] - a[1] * b[0]]
}

fn unit_vector(v: [f64; 3]) -> [f64; 3] {
    let length = dot(v, v).sqrt();
    if length == 0.0 { [0.0, 0.0, 1.0] } else { v.map(|x| x / length) }
}

struct Maker {
    rng: Rng,
    style: Family,
    scale: f64,
    scene: Scene,
}

impl Maker {
    /// A coordinate somewhere in the yard.
    fn place(&mut self) -> f64 {
        match self.style {
            Family::Lattice => (self.rng.below(9) as f64 - 4.0) * self.scale / 4.0,
            Family::Wild => {
                let far = self.rng.between(-self.scale, self.scale);
                self.rng.pick(&[0.0, -0.0, 5e-324, -1e-300, 1e-9, -1e-3, 1.0, far, far, far, far])
            }
            _ => self.rng.between(-self.scale, self.scale),
        }
    }

    fn spot(&mut self) -> [f64; 3] {
        [self.place(), self.place(), self.place()]
    }

    /// A measure that is not negative.
    fn size(&mut self) -> f64 {
        match self.style {
            Family::Lattice => (1 + self.rng.below(4)) as f64 * self.scale / 4.0,
            Family::Wild => {
                let usual = self.scale * self.rng.between(0.05, 0.8);
                self.rng.pick(&[0.0, -0.0, 1e-300, 1e-9, 1e-3, usual, usual, usual, usual])
            }
            Family::Crowd => self.scale * self.rng.between(0.01, 0.1),
            _ => self.scale * self.rng.between(0.05, 0.8),
        }
    }

    fn fill(&mut self) {
        if self.style == Family::Deep {
            return self.nest_boxes();
        }
        let count = match self.style {
            Family::Crowd => 100 + self.rng.below(925),
            _ if self.rng.chance(3) => 0,
            _ if self.rng.chance(20) => 10 + self.rng.below(40),
            _ => 1 + self.rng.below(9),
        };
        for _ in 0..count {
            if self.style == Family::Crowd {
                self.leaf();
            } else if self.rng.chance(4) {
                self.chain();
            } else {
                let (depth, cuts) = (1 + self.rng.below(6), self.rng.below(4));
                self.solid(depth, cuts, false);
            }
            if self.style == Family::Lattice && self.rng.chance(30) {
                self.repeat();
            }
        }
        if self.rng.chance(30) {
            self.litter();
        }
    }

    /// The same simple solid once more, so that middles are equal.
    fn repeat(&mut self) {
        let i = self.scene.entries() - 1;
        if parts(self.scene.marks_of(i)).is_empty() {
            let marks = self.scene.marks_of(i).try_into().unwrap();
            let numbers = self.scene.numbers_of(i).to_vec();
            self.scene.push(marks, &numbers);
        }
    }

    /// Whatever in places that are not used.
    fn litter(&mut self) {
        for i in 0..self.scene.entries() {
            let kind = self.scene.marks[4 * i];
            for k in used_numbers(kind)..16 {
                self.scene.numbers[16 * i + k] =
                    self.rng.pick(&[f64::NAN, f64::INFINITY, 1e300, -7.0]);
            }
            let used: &[usize] = match kind {
                4 => &[1],
                6 => &[2],
                7 => &[1, 2, 3],
                kind if striped(kind) => &[1],
                _ => &[],
            };
            for k in 1..4 {
                if !used.contains(&k) {
                    self.scene.marks[4 * i + k] = self.rng.next() as u32;
                }
            }
        }
    }

    /// Boxes from one corner, each much smaller than the last: each split takes one off.
    fn nest_boxes(&mut self) {
        let (count, shrink) = (52 + self.rng.below(45), self.rng.between(8.0, 20.0));
        let mut size = 90_000.0;
        let plain = self.rng.chance(50);
        for _ in 0..count {
            let tall = if plain { size } else { size * self.rng.between(0.9, 1.0) };
            self.scene.push([4, 1, 0, 0], &[0.0, 0.0, 0.0, size, size, tall]);
            size /= shrink;
        }
    }

    /// Placings in placings, up to the deepest nesting that passes.
    fn chain(&mut self) {
        let mut part = self.leaf();
        for _ in 0..1 + self.rng.below(7) {
            let m = self.placing(false);
            part = self.scene.push([6, 0, part, 0], &m);
        }
    }

    fn solid(&mut self, depth: usize, cuts: usize, in_cut: bool) -> u32 {
        let choice = self.rng.below(100);
        if depth > 1 && choice < 25 {
            let part = self.solid(depth - 1, cuts, in_cut);
            let m = self.placing(in_cut);
            self.scene.push([6, 0, part, 0], &m)
        } else if depth > 1 && cuts > 0 && choice < 55 {
            let a = self.solid(depth - 1, cuts - 1, true);
            let b = self.solid(depth - 1, cuts - 1, true);
            let operation = self.rng.below(4) as u32;
            self.scene.push([7, operation, a, b], &[])
        } else {
            self.leaf()
        }
    }

    fn leaf(&mut self) -> u32 {
        match self.rng.below(100) {
            0..20 => {
                let (c, r) = (self.spot(), self.size());
                let i = self.scene.push([1, 0, 0, 0], &[c[0], c[1], c[2], r]);
                self.round_lines(i, c, r, 0.0, c[2]);
                i
            }
            20..35 => {
                let (r, z0) = (self.size(), self.place());
                let z1 = z0 + self.size();
                let (kind, count) = (self.rng.pick(&[2, 2, 8]), self.stripes());
                let i = self.scene.push([kind, count, 0, 0], &[r, z0, z1]);
                self.round_lines(i, [0.0, 0.0, z0], r, r, z1);
                i
            }
            35..47 => {
                let (r, h) = (self.size(), self.size());
                let h = if h > 0.0 { h } else { 1.0 };
                let (kind, count) = (self.rng.pick(&[3, 3, 9]), self.stripes());
                let i = self.scene.push([kind, count, 0, 0], &[r, h]);
                self.round_lines(i, [0.0; 3], r, 0.0, h);
                i
            }
            47..80 => {
                let min = self.spot();
                let max: [f64; 3] = std::array::from_fn(|k| min[k] + self.size());
                let stripes = match self.rng.below(100) {
                    0..80 => 1,
                    80..98 => 2 + self.rng.below(6),
                    _ => 1000 - self.rng.below(990),
                };
                let n = [min[0], min[1], min[2], max[0], max[1], max[2]];
                self.scene.push([4, stripes as u32, 0, 0], &n)
            }
            _ => {
                let corners = if self.style == Family::Crowd {
                    let at = self.spot();
                    std::array::from_fn(|k| at[k % 3] + self.size())
                } else {
                    std::array::from_fn::<f64, 9, _>(|_| self.place())
                };
                self.scene.push([5, 0, 0, 0], &corners)
            }
        }
    }

    /// A count of stripes: mostly none or few.
    fn stripes(&mut self) -> u32 {
        match self.rng.below(100) {
            0..60 => 0,
            60..90 => 1 + self.rng.below(12) as u32,
            90..98 => self.rng.pick(&[36, 45, 59, 60, 61]),
            _ => self.rng.pick(&[180, 181, 359, 360]),
        }
    }

    /// Lines of a round solid: rings about c, uprights up to the height `top`, and odd ones.
    fn round_lines(&mut self, owner: u32, c: [f64; 3], r: f64, top_radius: f64, top: f64) {
        let out = self.rng.pick(&[1.0, 1.0, 1.02, 1.3]);
        for _ in 0..self.rng.below(4) {
            let mut line = Vec::new();
            let points = 4 * (1 + self.rng.below(6));
            let start = self.rng.unit();
            match self.rng.below(10) {
                0..4 => {
                    for k in 0..=points {
                        let (x, y) = circle(4.0 * k as f64 / points as f64);
                        line.push([c[0] + r * out * x, c[1] + r * out * y, c[2]]);
                    }
                }
                4..6 => {
                    for k in 0..=points {
                        let (x, z) = circle(start + 3.0 * k as f64 / points as f64);
                        line.push([c[0] + r * out * x, c[1], c[2] + r * out * z]);
                    }
                }
                6..9 => {
                    let (x, y) = circle(4.0 * start);
                    line.push([c[0] + r * out * x, c[1] + r * out * y, c[2]]);
                    line.push([c[0] + top_radius * out * x, c[1] + top_radius * out * y, top]);
                }
                _ => {
                    for _ in 0..self.rng.below(4) {
                        line.push(self.spot());
                    }
                }
            }
            if self.rng.chance(1) && !line.is_empty() {
                let (i, k) = (self.rng.below(line.len()), self.rng.below(3));
                line[i][k] = self.rng.pick(&[f64::NAN, f64::INFINITY, 1_000_001.0, -3e6, 1e300]);
            }
            self.scene.push_line(owner, &line);
        }
    }

    /// A placing. A part of a cut is mostly enlarged: else a miss may come back below INF, and
    /// the cut then restarts without end.
    fn placing(&mut self, in_cut: bool) -> Mat {
        let away = translation(self.spot());
        let (quarter, axis) = (self.rng.below(4), self.rng.below(3));
        let (c, s) = [(1.0, 0.0), (0.0, 1.0), (-1.0, 0.0), (0.0, -1.0)][quarter];
        let squarely = turn(axis, c, s);
        let (c, s) = circle(self.rng.between(0.0, 4.0));
        let askew = turn(axis, c, s);
        if in_cut && self.rng.chance(97) {
            let grown = stretch([self.rng.pick(&[1.0001, 1.5, 2.0, 3.0]); 3]);
            return match self.rng.below(9) {
                0 => away,
                1..3 => product(&away, &grown),
                3..5 => product(&squarely, &grown),
                5..7 => product(&away, &product(&askew, &grown)),
                _ => product(&askew, &stretch([-1.25, 1.5, 2.0])),
            };
        }
        match self.rng.below(24) {
            0..6 => away,
            6..9 => squarely,
            9..12 => product(&away, &squarely),
            12..15 => product(&away, &askew),
            15 => stretch([self.rng.pick(&[-1.0, 1.0]), 1.0, -1.0]),
            16 | 17 => product(&away, &stretch([self.rng.pick(&[0.25, 0.5, 2.0, 1e-3, 1e-6]); 3])),
            18 => product(&askew, &stretch([0.5, 2.0, 1.5])),
            19 | 20 => {
                std::array::from_fn(
                    |k| {
                        if k < 12 { self.rng.between(-1.0, 1.0) } else { IDENTITY[k] }
                    },
                )
            }
            21 => {
                // a last row of its own counts in determinant and inverse only
                let mut m = away;
                for x in &mut m[12..] {
                    *x = self.rng.between(-1.0, 1.0);
                }
                m
            }
            22 => {
                // z and w exchanged: the inverse takes `up` to 0
                let mut m = IDENTITY;
                (m[10], m[11], m[14], m[15]) = (0.0, 1.0, 1.0, 0.0);
                if self.rng.chance(25) { m } else { IDENTITY }
            }
            _ if self.style == Family::Wild => {
                let thin = self.rng.pick(&[1e-300, 1e-150, 1e-100, -1e-9, 1e-3, 100.0]);
                product(&away, &stretch([1.0, thin, self.rng.pick(&[1.0, -0.5])]))
            }
            _ => IDENTITY,
        }
    }

    fn view(&mut self) -> View {
        let width: f64 = self.rng.pick(&[2.0, 100.0, 640.0, 1000.0, 1000.0]);
        let height = self.rng.pick(&[width, width, width / 2.0, 7.0]);
        let cut = self.scene.marks.chunks(4).any(|m| m[0] == 7);
        let fine = self.rng.pick(&[1.0, 2.0, 4.0, 4.0, 8.0, 8.0, 15.0, 30.0, 100.0]);
        let step = match self.rng.below(100) {
            0..30 if !cut || self.scale < 0.01 => self.rng.pick(&[0.0, 0.0, -0.0]),
            0..2 => 0.0,
            _ => (width / fine).min(1000.0),
        };
        let (eye, matrix) = match self.rng.below(100) {
            0..60 if self.style != Family::Deep => self.perspective(width / height),
            60..95 => self.level(),
            _ if self.style == Family::Deep => self.level(),
            _ => {
                let matrix = std::array::from_fn(|_| self.rng.between(-1.0, 1.0) / self.scale);
                (self.spot(), matrix)
            }
        };
        View { matrix, eye, width, height, step }
    }

    /// A camera that looks into the yard from outside, or from within now and then.
    fn perspective(&mut self, aspect: f64) -> ([f64; 3], Mat) {
        let away = match self.style {
            Family::Lattice => [0, 1, 2].map(|_| self.rng.below(7) as f64 - 3.0),
            _ => [0, 1, 2].map(|_| self.rng.between(-1.0, 1.0)),
        };
        let distance = self.scale * self.rng.pick(&[0.5, 2.0, 2.5, 3.0, 4.0]);
        let eye = match self.style {
            Family::Lattice => away.map(|x| x * self.scale),
            _ => unit_vector(away).map(|x| x * distance),
        };
        let target = self.spot().map(|x| x / 4.0);
        let f = unit_vector(minus(target, eye));
        let up = if f[2].abs() > 0.999 { [0.0, 1.0, 0.0] } else { [0.0, 0.0, 1.0] };
        let s = unit_vector(cross(f, up));
        let u = cross(s, f);
        let look = [
            s[0],
            s[1],
            s[2],
            -dot(s, eye), //
            u[0],
            u[1],
            u[2],
            -dot(u, eye), //
            -f[0],
            -f[1],
            -f[2],
            dot(f, eye), //
            0.0,
            0.0,
            0.0,
            1.0,
        ];
        let (near, far) = (0.05 * self.scale, 50.0 * self.scale);
        let half = self.rng.between(0.2, 1.2);
        let mut lens = [0.0; 16];
        lens[0] = 1.0 / (half * aspect);
        lens[5] = 1.0 / half;
        lens[10] = -(far + near) / (far - near);
        lens[11] = -2.0 * far * near / (far - near);
        lens[14] = -1.0;
        (eye.map(|x| x.clamp(-LARGEST, LARGEST)), product(&lens, &look))
    }

    /// A view along an axis; its clip box is as large as the yard, or smaller or larger.
    fn level(&mut self) -> ([f64; 3], Mat) {
        let axis = if self.style == Family::Deep { 2 } else { self.rng.below(3) };
        let side = self.rng.pick(&[1.0, 1.0, -1.0]);
        let mut eye = self.spot().map(|x| x / 2.0);
        eye[axis] = (side * self.scale * self.rng.pick(&[2.0, 3.0, 5.0])).clamp(-LARGEST, LARGEST);
        if self.style != Family::Smooth {
            eye[(axis + 1) % 3] = 0.0;
            eye[(axis + 2) % 3] = 0.0;
        }
        let mut matrix = [0.0; 16];
        let shown = self.scale * self.rng.pick(&[0.5, 1.0, 2.0, 2.0, 2.0, 20.0]);
        for row in 0..3 {
            matrix[4 * row + (axis + 1 + row) % 3] = self.rng.pick(&[1.0, 1.0, -1.0]) / shown;
        }
        matrix[15] = 1.0;
        if self.rng.chance(20) && self.scale == 1.0 {
            matrix = IDENTITY;
        }
        (eye, matrix)
    }

    /// Room for the draw: ample, exactly what it takes at 1e-6, one place less, or whatever.
    fn room(&mut self, view: &View, ample: usize) -> Room {
        let choice = self.rng.below(100);
        let mut room = Room::of(ample);
        if choice < 60 {
            return room;
        }
        if choice >= 97 {
            for places in places_of(&mut room) {
                *places = self.rng.below(200);
            }
            return room;
        }
        let (answer, mut used) = draw_measured(&self.scene, view, FINE, room);
        if answer.is_err() {
            return room;
        }
        if choice >= 90 {
            let k = self.rng.below(8);
            let places = &mut places_of(&mut used)[k];
            **places = places.saturating_sub(1);
        }
        used
    }

    fn ray(&mut self) -> [f64; 6] {
        let far = self.rng.pick(&[0.5, 1.0, 3.0, 3.0]);
        let origin = self.spot().map(|x| x * far);
        let towards = minus(self.spot(), origin);
        let direction = match self.rng.below(100) {
            0..60 => unit_vector(towards),
            60..85 => {
                let zero = self.rng.pick(&[0.0, 0.0, -0.0]);
                let mut d = [zero, 0.0, zero];
                d[self.rng.below(3)] = self.rng.pick(&[1.0, -1.0]);
                d
            }
            85..93 => towards,
            93..95 => [0.0, -0.0, 0.0],
            _ => [1.0, 2.0, self.rng.pick(&[f64::NAN, -f64::INFINITY, 1e6, -1_000_000.5, 1e-320])],
        };
        let mut ray = [origin[0], origin[1], origin[2], direction[0], direction[1], direction[2]];
        if self.style == Family::Deep && self.rng.chance(80) {
            ray = [0.0, 0.0, self.rng.pick(&[-1.0, 0.0, -5.0]), 0.0, 0.0, 1.0];
        }
        ray.map(|x| if x.abs() < 2e6 { x.clamp(-LARGEST, LARGEST) } else { x })
    }

    /// A point for the eye test.
    fn put(&mut self, view: &View) -> [f64; 3] {
        match self.rng.below(100) {
            0..50 => self.spot(),
            50..90 if self.scene.numbers.len() >= 16 => {
                let i = self.rng.below(self.scene.numbers.len() / 16);
                match self.scene.marks.get(4 * i) {
                    Some(1 | 4 | 5) => self.scene.numbers[16 * i..16 * i + 3].try_into().unwrap(),
                    _ => self.spot(),
                }
            }
            90..95 => view.eye,
            _ => {
                let mut p = self.spot();
                p[self.rng.below(3)] = self.rng.pick(&[f64::NAN, f64::INFINITY, 1e6, -1_000_000.5]);
                p
            }
        }
    }

    fn lines(&mut self) -> Lines {
        let mut lines = Lines::default();
        for _ in 0..self.rng.below(5) {
            lines.starts.push(lines.points.len() / 3);
            let along = self.rng.chance(30);
            for k in 0..self.rng.below(14) {
                let mut p = self.spot();
                if along {
                    p[1] = k as f64 * self.scale / 8.0;
                    p[2] = 0.0;
                }
                if self.rng.chance(10) && k > 0 {
                    p = lines.points[lines.points.len() - 3..].try_into().unwrap();
                }
                lines.points.extend(p);
            }
        }
        match self.rng.below(100) {
            0 => lines.points.push(0.0),
            1 if !lines.starts.is_empty() => {
                let i = self.rng.below(lines.starts.len());
                lines.starts[i] = self.rng.below(30);
            }
            2 if !lines.points.is_empty() => {
                let i = self.rng.below(lines.points.len());
                lines.points[i] = self.rng.pick(&[f64::NAN, 1_000_000.5, f64::NEG_INFINITY]);
            }
            _ => {}
        }
        lines
    }

    fn threshold(&mut self) -> f64 {
        let near = self.scale * self.rng.between(0.0, 0.5);
        self.rng.pick(&[0.0, -0.0, 1e-6, near, near, near, self.scale / 4.0, -1e-9, f64::NAN])
    }

    fn places(&mut self) -> Places {
        let few = Places { points: self.rng.below(60), starts: self.rng.below(6) };
        self.rng.pick(&[
            few,
            Places { points: AMPLE, starts: AMPLE },
            Places { points: AMPLE, starts: AMPLE },
        ])
    }

    /// Does damage that should meet one of 2 to 9 or 14, and now and then a second one.
    fn damage(&mut self, view: &mut View) {
        for _ in 0..self.rng.pick(&[1, 1, 1, 2]) {
            match self.rng.pick(&[2, 3, 4, 5, 6, 7, 8, 9, 14]) {
                2 => self.damage_lengths(),
                3 => self.damage_marks(),
                4 => self.damage_parts(),
                5 => self.damage_numbers(),
                6 => self.damage_placing(),
                7 => self.damage_box(),
                8 => self.damage_view(view),
                9 => self.damage_points(view),
                _ => self.damage_stripes(),
            }
        }
    }

    fn damage_lengths(&mut self) {
        let s = &mut self.scene;
        match self.rng.below(7) {
            0 => s.numbers.push(1.0),
            1 => s.numbers.extend([0.0; 16]),
            2 => s.marks.push(1),
            3 => s.owners.push(0),
            4 => s.starts.push(0),
            5 => s.points.push(0.5),
            _ => {
                while s.entries() <= 1024 {
                    s.push([5, 0, 0, 0], &[0.0, 0.0, 0.0, 1.0, 0.0, 0.0, 0.0, 1.0, 0.0]);
                }
            }
        }
    }

    fn damage_marks(&mut self) {
        let odd = self.rng.pick(&[0, 10, 11, u32::MAX]);
        match self.rng.below(3) {
            0 => self.scene.push([odd, 0, 0, 0], &[]),
            1 => {
                let stripes = self.rng.pick(&[0, 1001, u32::MAX]);
                self.scene.push([4, stripes, 0, 0], &[0.0, 0.0, 0.0, 1.0, 1.0, 1.0])
            }
            _ => {
                let (a, b) = (self.leaf(), self.leaf());
                let operation = self.rng.pick(&[4, 5, u32::MAX]);
                self.scene.push([7, operation, a, b], &[])
            }
        };
    }

    /// A count beyond 360, in an entry that is there or in one more.
    fn damage_stripes(&mut self) {
        let kind = self.rng.pick(&[2, 3, 8, 9]);
        let count = self.rng.pick(&[361, 362, 1000, 1_000_000, 1 << 16, 1 << 31, u32::MAX]);
        let n = self.scene.entries().min(self.scene.numbers.len() / 16);
        let found: Vec<usize> = (0..n).filter(|i| striped(self.scene.marks[4 * i])).collect();
        if found.is_empty() || self.rng.chance(30) {
            self.scene.push([kind, count, 0, 0], &[1.0, 0.5, 2.0]);
        } else {
            let i = self.rng.pick(&found);
            self.scene.marks[4 * i + 1] = count;
        }
    }

    fn damage_parts(&mut self) {
        let count = self.scene.entries() as u32;
        match self.rng.below(9) {
            0 => {
                let part = self.rng.pick(&[count, count + 1, u32::MAX]);
                self.scene.push([6, 0, part, 0], &IDENTITY);
            }
            1 => {
                let a = self.leaf();
                self.scene.push([7, 0, a, a], &[]);
            }
            2 => {
                let a = self.leaf();
                self.scene.push([6, 0, a, 0], &IDENTITY);
                self.scene.push([6, 0, a, 0], &IDENTITY);
            }
            3 => {
                let mut part = self.leaf();
                for _ in 0..8 {
                    part = self.scene.push([6, 0, part, 0], &IDENTITY);
                }
            }
            4 => {
                let cube = self.scene.push([4, 1, 0, 0], &[0.0, 0.0, 0.0, 1.0, 1.0, 1.0]);
                self.scene.push_line(self.rng.pick(&[cube, cube + 1, u32::MAX]), &[[0.0; 3]]);
            }
            5 => {
                let a = self.scene.push([1, 0, 0, 0], &[0.0, 0.0, 0.0, 1.0]);
                let b = self.scene.push([1, 0, 0, 0], &[2.0, 0.0, 0.0, 1.0]);
                self.scene.push_line(b, &[[1.0; 3], [2.0; 3]]);
                self.scene.push_line(a, &[[1.0; 3], [2.0; 3]]);
            }
            6 => {
                let a = self.scene.push([1, 0, 0, 0], &[0.0, 0.0, 0.0, 1.0]);
                self.scene.push_line(a, &[[1.0; 3], [2.0; 3]]);
                self.scene.starts[0] = 1;
            }
            7 => {
                let a = self.scene.push([1, 0, 0, 0], &[0.0, 0.0, 0.0, 1.0]);
                self.scene.push_line(a, &[[1.0; 3], [2.0; 3]]);
                self.scene.push_line(a, &[[1.0; 3], [2.0; 3]]);
                self.scene.push_line(a, &[[1.0; 3], [2.0; 3]]);
                let k = self.scene.starts.len();
                self.scene.starts[k - 2] = self.scene.starts[k - 1] + 1;
            }
            _ => {
                let a = self.scene.push([1, 0, 0, 0], &[0.0, 0.0, 0.0, 1.0]);
                self.scene.push_line(a, &[]);
                self.scene.push_line(a, &[]);
                *self.scene.starts.last_mut().unwrap() += self.rng.pick(&[1, usize::MAX / 2]);
            }
        }
    }

    fn damage_numbers(&mut self) {
        let entries = self.scene.entries();
        let above = f64::from_bits(LARGEST.to_bits() + 1);
        match self.rng.below(7) {
            0..3 if entries > 0 => {
                let i = self.rng.below(entries);
                let used = used_numbers(self.scene.marks_of(i)[0]);
                if used > 0 {
                    let k = self.rng.below(used);
                    let bad = self.rng.pick(&[f64::NAN, f64::INFINITY, -above, above, -1e300]);
                    self.scene.numbers[16 * i + k] = bad;
                }
            }
            3 => {
                let kind = self.rng.pick(&[1, 2, 3, 8, 9]);
                let mut n = [1.0; 3].to_vec();
                n.resize(4, 1.0);
                n[if kind == 1 { 3 } else { 0 }] = self.rng.pick(&[-1.0, -5e-324]);
                self.scene.push([kind, 0, 0, 0], &n);
            }
            4 => {
                let height = self.rng.pick(&[0.0, -0.0, -1.0]);
                let kind = self.rng.pick(&[3, 9]);
                self.scene.push([kind, 0, 0, 0], &[1.0, height]);
            }
            5 => {
                let kind = self.rng.pick(&[2, 8]);
                self.scene.push([kind, 0, 0, 0], &[1.0, 1.0, 0.5]);
            }
            _ => {
                let mut n = [0.0, 0.0, 0.0, 1.0, 1.0, 1.0];
                n[self.rng.below(3)] = 1.5;
                self.scene.push([4, 1, 0, 0], &n);
            }
        }
    }

    fn damage_placing(&mut self) {
        let part = self.leaf();
        let mut m = IDENTITY;
        match self.rng.below(4) {
            0 => m[5] = 0.0,
            1 => m[10] = -0.0,
            2 => m = stretch([1e-120, 1e-120, 1e-120]),
            _ => m = stretch([1e-160, 1e-150, 1.0]),
        }
        self.scene.push([6, 0, part, 0], &m);
    }

    fn damage_box(&mut self) {
        match self.rng.below(3) {
            0 => {
                let c = self.rng.pick(&[LARGEST, 999_999.5]);
                self.scene.push([1, 0, 0, 0], &[c, 0.0, 0.0, 1.0]);
            }
            1 => {
                let part = self.scene.push([4, 1, 0, 0], &[0.0, 0.0, 0.0, 2.0, 2.0, 2.0]);
                let m = stretch([1.0, 1.0, self.rng.pick(&[500_000.5, 1e6])]);
                self.scene.push([6, 0, part, 0], &m);
            }
            _ => {
                let part =
                    self.scene.push([5, 0, 0, 0], &[0.0, 0.0, 0.0, 1.0, 1.0, 0.0, 0.0, 2.0, 2.0]);
                self.scene.push([6, 0, part, 0], &translation([0.0, 999_999.0, 0.0]));
            }
        }
    }

    fn damage_view(&mut self, view: &mut View) {
        let above = f64::from_bits(LARGEST.to_bits() + 1);
        let bad = self.rng.pick(&[f64::NAN, f64::INFINITY, f64::NEG_INFINITY]);
        match self.rng.below(5) {
            0 => view.matrix[self.rng.below(16)] = bad,
            1 => view.eye[self.rng.below(3)] = self.rng.pick(&[bad, above, -above]),
            2 => view.width = self.rng.pick(&[bad, above, 0.0, -0.0, -1.0]),
            3 => view.height = self.rng.pick(&[bad, above, 0.0, -0.0, -1.0]),
            _ => view.step = self.rng.pick(&[bad, 1000.5, -5e-324]),
        }
    }

    /// Lines beyond 1,000,000, in a chop, in a cut or put to the eye test.
    fn damage_points(&mut self, view: &mut View) {
        let far = self.rng.pick(&[1_000_000.5, -2e6, f64::NAN]);
        let a = self.scene.push([1, 0, 0, 0], &[0.0, 0.0, 0.0, 1.0]);
        self.scene.push_line(a, &[[0.0, 0.0, 2.0], [far, 0.0, 2.0], [0.0, 2.0, 0.0]]);
        match self.rng.below(3) {
            0 => view.step = 1.0,
            1 => {
                let b = self.leaf();
                self.scene.push([7, 1, a, b], &[]);
            }
            _ => {
                view.step = 0.0;
                view.matrix = stretch([1e-7; 3]);
            }
        }
    }
}

/// The eight numbers of a room.
pub fn places_of(room: &mut Room) -> [&mut usize; 8] {
    [
        &mut room.work.points,
        &mut room.work.starts,
        &mut room.chopped.points,
        &mut room.chopped.starts,
        &mut room.out.points,
        &mut room.out.starts,
        &mut room.nodes,
        &mut room.order,
    ]
}
