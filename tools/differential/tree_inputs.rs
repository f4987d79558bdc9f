//! Seeded scenes of up to 1,024 solids for the tree: crowds, equal middles, flat, nested and
//! point-sized ones; rays, eyes and points that are aimed at them. A seed gives the same everywhere.

use crate::harness::Shown;
use crate::inputs::{self, Grain, Numbers, Point};
use crate::scene_inputs::{self, Case};
use oracle::Scene;
use oracle::generate::Rng;

/// A scene, and the lengths of the slices that its tree goes to.
pub struct Build {
    pub scene: Scene,
    pub lengths: [usize; 3],
}

/// A scene, and rays; or eyes, each with a point.
pub struct Rays {
    pub scene: Scene,
    pub asked: Vec<[f64; 6]>,
}

/// A scene, an eye, points, and how many bytes there are for their answers.
pub struct Many {
    pub scene: Scene,
    pub eye: Point,
    pub tested: Vec<f64>,
    pub room: usize,
}

impl Shown for Many {
    fn size(&self) -> u32 {
        self.case().size()
    }

    fn text(&self) -> String {
        format!("{} {}", self.case().text(), self.room)
    }
}

impl Many {
    fn case(&self) -> Case {
        let asked = self.eye.iter().chain(&self.tested).copied().collect();
        Case { scene: self.scene.clone(), i: 0, asked }
    }
}

impl Shown for Build {
    fn size(&self) -> u32 {
        self.case().size()
    }

    fn text(&self) -> String {
        let [node_boxes, node_marks, order] = self.lengths;
        format!("{} {node_boxes} {node_marks} {order}", self.case().text())
    }
}

impl Shown for Rays {
    fn size(&self) -> u32 {
        self.case().size()
    }

    fn text(&self) -> String {
        self.case().text()
    }
}

impl Build {
    fn case(&self) -> Case {
        Case { scene: self.scene.clone(), i: 0, asked: Vec::new() }
    }
}

impl Rays {
    fn case(&self) -> Case {
        Case { scene: self.scene.clone(), i: 0, asked: self.asked.concat() }
    }

    /// One of its questions alone.
    pub fn one(&self, k: usize) -> Rays {
        Rays { scene: self.scene.clone(), asked: vec![self.asked[k]] }
    }
}

// The cases of each call.

/// How many questions are put to one scene.
const EACH: usize = 48;

pub fn build(rng: &mut Rng) -> Build {
    let scene = match rng.below(100) {
        0..6 => scene_inputs::checked(rng).scene,
        6..8 => deep(rng),
        _ => {
            let most = rng.pick(&[8, 8, 8, 16, 16, 64, 64, 200, 1024]);
            let n = if rng.chance(3) { most } else { rng.below(most + 1) };
            crowd(rng, n)
        }
    };
    let lengths = lengths(rng, &scene);
    Build { scene, lengths }
}

/// Mostly what the tree takes exactly, one place less somewhere, or some more.
fn lengths(rng: &mut Rng, scene: &Scene) -> [usize; 3] {
    let built = oracle::build(scene, usize::MAX, usize::MAX).unwrap_or_default();
    let (nodes, order) = (built.marks.len() / 3, built.order.len());
    let less = nodes.saturating_sub(1);
    match rng.below(20) {
        0..6 => [6 * nodes, 3 * nodes, order],
        6..8 => [6 * less + rng.below(6), 3 * nodes + rng.below(9), order + rng.below(3)],
        8..10 => [6 * nodes + rng.below(13), 3 * less + rng.below(3), order + rng.below(3)],
        10..12 => [6 * nodes, 3 * nodes, order.saturating_sub(1)],
        12 => [6 * less, 3 * less, order.saturating_sub(1)],
        13 => [0, 0, 0],
        14 => [rng.below(6 * nodes + 6), rng.below(3 * nodes + 3), rng.below(order + 2)],
        _ => {
            let more = nodes + rng.below(9);
            [6 * more + rng.below(6), 3 * more + rng.below(3), order + rng.below(5)]
        }
    }
}

pub fn hits(rng: &mut Rng) -> Rays {
    let (scene, steep) = scene(rng);
    let aim = Aim::new(&scene);
    let asked = (0..EACH)
        .map(|_| match steep {
            true if rng.chance(80) => [
                0.0,
                0.0,
                rng.pick(&[-1.0, -5.0, 0.0]),
                0.0,
                0.0,
                rng.pick(&[1.0, 1.0, 0.25, -1.0]),
            ],
            _ => aim.ray(rng),
        })
        .collect();
    Rays { scene, asked }
}

pub fn sights(rng: &mut Rng) -> Rays {
    let (scene, steep) = scene(rng);
    let aim = Aim::new(&scene);
    let eye = aim.eye(rng);
    let asked = (0..EACH)
        .map(|_| match steep {
            true if rng.chance(80) => {
                [0.0, 0.0, rng.pick(&[1.0, 100.0, 9e5]), 0.0, 0.0, rng.pick(&[-1.0, -5.0, 0.0])]
            }
            _ => {
                let eye = if rng.chance(70) { eye } else { aim.eye(rng) };
                aim.sight(rng, eye)
            }
        })
        .collect();
    Rays { scene, asked }
}

/// Eyes and points as above; in some cases a solid stands before what meets 11 or 12.
pub fn covers(rng: &mut Rng) -> Rays {
    match rng.below(100) {
        0..8 => steep_cover(rng),
        8..20 => restart_cover(rng),
        _ => sights(rng),
    }
}

/// Boxes in boxes, whose walk meets 12, and a beam that a walk tries before or after them.
fn steep_cover(rng: &mut Rng) -> Rays {
    let mut scene = Scene::default();
    let (n, low) = (58 + rng.below(11), rng.pick(&[0.5, 1.0, 2.0, 50.0, 200.0]));
    let (before, side) = (rng.chance(50), rng.pick(&[-8e5, -8e5, -8e5, 8e5, -1.0]));
    let beam = |scene: &mut Scene| {
        let (a, b) = if side < 0.0 { (side, 1.0) } else { (-1.0, side) };
        cube(scene, [a, -1.0, low], [b, 1.0, low + 0.25]);
    };
    if before {
        beam(&mut scene);
    }
    let mut size = 1e-57;
    for _ in 0..n {
        cube(&mut scene, [0.0; 3], [size; 3]);
        size *= 8.0;
    }
    if !before {
        beam(&mut scene);
    }
    let asked = (0..EACH)
        .map(|_| {
            [
                0.0,
                0.0,
                rng.pick(&[100.0, 1.5, 9e5, 60.0]),
                0.0,
                0.0,
                rng.pick(&[-1.0, -5.0, 0.0, -0.25]),
            ]
        })
        .collect();
    Rays { scene, asked }
}

/// A cut that may need a 65th restart, and one or two more solids about the points, before or after it.
fn restart_cover(rng: &mut Rng) -> Rays {
    let Case { scene: cut, asked: ray, .. } = scene_inputs::many_restarts(rng);
    let origin: Point = [ray[0], ray[1], ray[2]];
    let way = [ray[3], ray[4], ray[5]];
    let eye = inputs::along(origin, way, rng.between(1.0, 9.0));
    let mut more = Scene::default();
    for _ in 0..1 + rng.below(2) {
        let at = inputs::along(origin, way, rng.between(0.0, 3.0));
        let half = rng.between(0.01, 0.5);
        simple(rng, &mut more, (at, [half; 3]));
    }
    let scene = if rng.chance(70) { joined(more, cut) } else { joined(cut, more) };
    let asked = (0..EACH)
        .map(|_| {
            let point = inputs::along(origin, way, rng.between(-0.5, 0.5));
            [eye[0], eye[1], eye[2], point[0], point[1], point[2]]
        })
        .collect();
    Rays { scene, asked }
}

/// The entries of two scenes without lines, the second's parts raised.
fn joined(mut a: Scene, b: Scene) -> Scene {
    let by = a.entries() as u32;
    a.numbers.extend(&b.numbers);
    for m in b.marks.chunks(4) {
        let raise = |k: usize| match (m[0], k) {
            (6, 2) | (7, 2 | 3) => m[k] + by,
            _ => m[k],
        };
        a.marks.extend([m[0], m[1], raise(2), raise(3)]);
    }
    a
}

/// The points of such a case with one of its eyes; now and then a slice that does not fit.
pub fn many(rng: &mut Rng) -> Many {
    let Rays { scene, asked } = covers(rng);
    let k = rng.below(asked.len());
    let eye = *asked[k].first_chunk().unwrap();
    let mut tested: Vec<f64> = asked.iter().flat_map(|a| a[3..].iter().copied()).collect();
    tested.truncate(3 * rng.below(EACH + 1));
    if rng.chance(3) {
        tested.push(0.5);
    }
    let n = tested.len() / 3;
    let room = match rng.below(20) {
        0 => n.saturating_sub(1),
        1 => rng.below(n + 1),
        2..8 => n + rng.below(9),
        _ => n,
    };
    Many { scene, eye, tested, room }
}

/// A scene for rays, and whether its tree is deeper than the walk's places.
fn scene(rng: &mut Rng) -> (Scene, bool) {
    let scene = match rng.below(1000) {
        0..500 => {
            let n = 1 + rng.below(14);
            crowd(rng, n)
        }
        500..600 => {
            let n = rng.below(120);
            crowd(rng, n)
        }
        600..605 => {
            let n = 200 + rng.below(825);
            crowd(rng, n)
        }
        605..930 => scene_inputs::hit(rng).scene,
        930..960 => scene_inputs::checked(rng).scene,
        _ => return (deep(rng), true),
    };
    (scene, false)
}

/// For timing: an accepted yard of this many solids, some of them placed, the others cubes, spheres and
/// triangles.
pub fn yard(rng: &mut Rng, n: usize) -> Scene {
    loop {
        let scene = any_yard(rng, n);
        if oracle::check(&scene).is_ok() {
            return scene;
        }
    }
}

fn any_yard(rng: &mut Rng, n: usize) -> Scene {
    let mut scene = Scene::default();
    let mut composite = (n / 10).min((1024 - n) / 2);
    for _ in 0..n {
        let at = inputs::place(rng, Grain::Any);
        let half: Point = std::array::from_fn(|_| rng.between(0.2, 2.5));
        if composite > 0 {
            composite -= 1;
            let part = match composite % 3 {
                0 => scene.push([2, 0, 0, 0], &[half[0], -half[2], half[2]]),
                1 => scene.push([3, 0, 0, 0], &[half[0], half[2]]),
                _ => cube(&mut scene, half.map(|x| -x), half),
            };
            placed(rng, &mut scene, part, at);
        } else {
            simple(rng, &mut scene, (at, half));
        }
    }
    scene
}

/// An eye outside that yard, and points on its solids' boxes.
pub fn yard_sights(rng: &mut Rng, scene: &Scene, count: usize) -> Vec<[f64; 6]> {
    let aim = Aim::new(scene);
    let eye = [90.0, -120.0, 70.0];
    let mut asked = Vec::new();
    while asked.len() < count {
        let point = aim.spot(rng);
        asked.push([eye[0], eye[1], eye[2], point[0], point[1], point[2]]);
    }
    asked
}

// Scenes.

/// Where a solid stands: its middle and half its size.
type Stand = (Point, Point);

/// Boxes in boxes from one corner, each much smaller than the last, so that each split takes one off.
pub fn deep(rng: &mut Rng) -> Scene {
    let mut scene = Scene::default();
    if rng.chance(50) {
        let n = 60 + rng.below(9);
        let mut size = 1e-57;
        for _ in 0..n {
            cube(&mut scene, [0.0; 3], [size; 3]);
            size *= 8.0;
        }
    } else {
        let (n, shrink) = (52 + rng.below(45), rng.between(8.0, 20.0));
        let mut size = 90_000.0;
        for _ in 0..n {
            let tall = size * rng.between(0.9, 1.0);
            cube(&mut scene, [0.0; 3], [size, size, tall]);
            size /= shrink;
        }
    }
    scene
}

/// About n solids of one arrangement; cubes alone, or of all kinds.
pub fn crowd(rng: &mut Rng, n: usize) -> Scene {
    let mut stands = arrangement(rng, n);
    match rng.below(5) {
        0..3 => {
            for k in (1..stands.len()).rev() {
                stands.swap(k, rng.below(k + 1));
            }
        }
        3 => stands.reverse(),
        _ => {}
    }
    let mut scene = Scene::default();
    let plain = rng.chance(50);
    for stand in stands {
        if plain {
            let (at, half) = stand;
            cube(&mut scene, minus(at, half), plus(at, half));
        } else if scene.entries() <= 1021 {
            any_kind(rng, &mut scene, stand);
        }
    }
    if rng.chance(5) && scene.entries() < 1024 {
        let ball = scene.push([1, 0, 0, 0], &[0.0, 0.0, 0.0, 1.0]);
        scene.push_line(ball, &[[1.0; 3], [2.0; 3]]);
    }
    scene
}

fn arrangement(rng: &mut Rng, n: usize) -> Vec<Stand> {
    let grain = inputs::grain(rng);
    let place = |rng: &mut Rng| inputs::place(rng, grain);
    let half = |rng: &mut Rng| -> Point { std::array::from_fn(|_| length(rng, grain)) };
    let one = place(rng);
    let few = [one, place(rng), place(rng)];
    let axis = rng.below(3);
    let same = half(rng);
    match rng.below(13) {
        0 | 1 => (0..n).map(|_| (place(rng), half(rng))).collect(),
        // equal middles
        2 => (0..n).map(|_| (one, half(rng))).collect(),
        3 => (0..n).map(|_| (rng.pick(&few), half(rng))).collect(),
        // flat, in one plane or in several
        4 => (0..n)
            .map(|_| {
                let (mut at, mut half) = (place(rng), half(rng));
                half[axis] = 0.0;
                at[axis] = rng.pick(&few)[axis];
                (at, half)
            })
            .collect(),
        // point-sized
        5 => {
            let several = rng.pick(&[1, 2, 3, 5]);
            let spot = |rng: &mut Rng| std::array::from_fn(|_| rng.below(several) as f64);
            (0..n).map(|_| (spot(rng), [0.0; 3])).collect()
        }
        // nested, from one corner or about one middle
        6 => {
            let (mut size, by) = (rng.pick(&[1e-57, 1e-160, 1e-3, 1.0]), grow(rng));
            let about = if rng.chance(50) { 1.0 } else { 0.0 };
            (0..n)
                .map(|_| {
                    size = if size * by < 4e5 { size * by } else { size };
                    ([about * size; 3], [size; 3])
                })
                .collect()
        }
        // in a row, equal ones
        7 => (0..n)
            .map(|k| {
                let mut at = one;
                at[axis] += k as f64 * 0.5;
                (at, same)
            })
            .collect(),
        // on a grid: extents tie
        8 => (0..n)
            .map(|k| ([(k % 4) as f64, (k / 4 % 4) as f64, (k / 16) as f64], [0.25; 3]))
            .collect(),
        // tiny, huge, zeros of either sign
        9 => {
            let number = |rng: &mut Rng| -> f64 {
                let far = rng.between(-1e6, 1e6);
                rng.pick(&[0.0, -0.0, 5e-324, -1e-300, 1e-160, 1e-9, 1e6, -1e6, 999_999.75, far])
            };
            (0..n)
                .map(|_| {
                    let a: Point = std::array::from_fn(|_| number(rng));
                    let b: Point = std::array::from_fn(|_| number(rng));
                    let low: Point = std::array::from_fn(|k| a[k].min(b[k]));
                    let high: Point = std::array::from_fn(|k| a[k].max(b[k]));
                    let at: Point = std::array::from_fn(|k| (low[k] + high[k]) / 2.0);
                    (at, minus(high, at))
                })
                .collect()
        }
        // few solids, repeated
        10 => {
            let kinds: Vec<Stand> = (0..3).map(|_| (place(rng), half(rng))).collect();
            (0..n).map(|_| rng.pick(&kinds)).collect()
        }
        // nearly equal middles
        11 => (0..n).map(|_| (one.map(|x| inputs::nudged(rng, x)), same)).collect(),
        // so small that areas vanish
        _ => {
            let by = rng.pick(&[1e-200, 1e-163, 1e-162]);
            (0..n).map(|_| (place(rng).map(|x| x * by), half(rng).map(|x| x * by))).collect()
        }
    }
}

fn length(rng: &mut Rng, grain: Grain) -> f64 {
    match grain {
        Grain::Whole => rng.below(6) as f64,
        Grain::Quarter => rng.below(20) as f64 / 4.0,
        Grain::Any => rng.between(0.0, 6.0),
    }
}

fn grow(rng: &mut Rng) -> f64 {
    let any = rng.between(1.0, 12.0);
    rng.pick(&[1.0, 1.001, 1.5, 2.0, 3.0, 8.0, any])
}

fn cube(scene: &mut Scene, min: Point, max: Point) -> u32 {
    scene.push([4, 1, 0, 0], &[min, max].concat())
}

/// A solid of any kind there: takes up to three entries.
fn any_kind(rng: &mut Rng, scene: &mut Scene, (at, half): Stand) {
    match rng.below(20) {
        0..14 => simple(rng, scene, (at, half)),
        14 => {
            let (kind, count) = (rng.pick(&[2, 2, 8]), rng.pick(&[0, 1, 7]));
            let part = scene.push([kind, count, 0, 0], &[half[0], -half[2], half[2]]);
            placed(rng, scene, part, at);
        }
        15 => {
            let height = if half[2] > 0.0 { half[2] } else { 1.0 };
            let (kind, count) = (rng.pick(&[3, 3, 9]), rng.pick(&[0, 1, 7]));
            let part = scene.push([kind, count, 0, 0], &[half[0], height]);
            placed(rng, scene, part, at);
        }
        16..18 => {
            let part = cube(scene, half.map(|x| -x), half);
            placed(rng, scene, part, at);
        }
        _ => {
            let a = cube(scene, minus(at, half), plus(at, half));
            let b = cube(scene, at, plus(at, half.map(|x| 2.0 * x)));
            let operation = rng.below(4) as u32;
            scene.push([7, operation, a, b], &[]);
        }
    }
}

/// A cube, a sphere or a triangle.
fn simple(rng: &mut Rng, scene: &mut Scene, (at, half): Stand) {
    let (low, high) = (minus(at, half), plus(at, half));
    match rng.below(14) {
        0..7 => cube(scene, low, high),
        7..11 => scene.push([1, 0, 0, 0], &[at[0], at[1], at[2], half[0]]),
        _ => {
            let corner = [high[0], low[1], at[2]];
            scene.push([5, 0, 0, 0], &[low, high, corner].concat())
        }
    };
}

fn placed(rng: &mut Rng, scene: &mut Scene, part: u32, at: Point) {
    let stiff = rng.chance(70);
    let mut m: Numbers = inputs::turned(rng, stiff);
    if rng.chance(40) {
        m = std::array::from_fn(|k| if k % 5 == 0 { 1.0 } else { 0.0 });
    }
    (m[3], m[7], m[11]) = (at[0], at[1], at[2]);
    scene.push([6, 0, part, 0], &m);
}

// Aiming.

/// The boxes of what is drawn, and of all of it.
struct Aim {
    boxes: Vec<[f64; 6]>,
    hull: [f64; 6],
}

impl Aim {
    fn new(scene: &Scene) -> Aim {
        let boxes = match oracle::check(scene) {
            Ok(checked) => checked.drawn.iter().map(|i| checked.boxes[*i as usize]).collect(),
            Err(_) => Vec::new(),
        };
        let unit = [-1.0, -1.0, -1.0, 1.0, 1.0, 1.0];
        let hull = boxes.iter().copied().reduce(|a: [f64; 6], b| {
            std::array::from_fn(|k| if k < 3 { a[k].min(b[k]) } else { a[k].max(b[k]) })
        });
        let hull = hull.unwrap_or(unit);
        let boxes = if boxes.is_empty() { vec![unit] } else { boxes };
        Aim { boxes, hull }
    }

    /// A point of some box: a corner, on a side, within or just outside.
    fn spot(&self, rng: &mut Rng) -> Point {
        let b = rng.pick(&self.boxes);
        let rough = rng.chance(60);
        std::array::from_fn(|k| {
            let (low, high) = (b[k], b[k + 3]);
            let within = rng.between(low, high);
            match rng.below(8) {
                0 => low,
                1 => high,
                2 => (low + high) / 2.0,
                3 if !rough => inputs::nudged(rng, low),
                _ => within,
            }
        })
    }

    /// Outside of everything, or within it.
    fn eye(&self, rng: &mut Rng) -> Point {
        if rng.chance(15) {
            return self.spot(rng);
        }
        let away = rng.pick(&[0.5, 1.0, 2.0, 4.0]);
        let mut eye: Point = std::array::from_fn(|k| {
            let (low, high) = (self.hull[k], self.hull[k + 3]);
            let size = (high - low).max(1.0);
            (low + high) / 2.0 + size * rng.between(-away, away)
        });
        if rng.chance(25) {
            eye = eye.map(|x| x.round());
        }
        if rng.chance(15) {
            // above, beside or before some point
            let spot = self.spot(rng);
            let k = rng.below(3);
            let kept = eye[k];
            eye = spot;
            eye[k] = kept;
        }
        if rng.chance(10) {
            eye[rng.below(3)] = rng.pick(&[0.0, -0.0, -0.0]);
        }
        eye.map(|x| x.clamp(-1e6, 1e6))
    }

    fn ray(&self, rng: &mut Rng) -> [f64; 6] {
        let aim = self.spot(rng);
        let eye = self.eye(rng);
        let (origin, direction) = match rng.below(100) {
            0..55 => (eye, inputs::unit(minus(aim, eye))),
            55..70 => (aim, inputs::unit(minus(eye, aim))),
            70..85 => {
                let k = rng.below(3);
                let d: Point = std::array::from_fn(|i| {
                    let x = if i == k { 1.0 } else { 0.0 };
                    if rng.chance(50) { -x } else { x }
                });
                let far = rng.pick(&[0.0, 0.25, 1.0, 30.0, 1e5]);
                (inputs::along(aim, d, -far), d)
            }
            85..90 => (eye, minus(aim, eye)),
            90..92 => (eye, rng.pick(&[[0.0; 3], [0.0, -0.0, 0.0], [-0.0; 3]])),
            92..95 => (eye, minus(aim, eye).map(|x| x * 1e-200)),
            95..98 => (eye, inputs::unit(minus(aim, eye)).map(|x| inputs::nudged(rng, x))),
            _ => (eye, inputs::unit(std::array::from_fn(|_| rng.between(-1.0, 1.0)))),
        };
        let mut ray = [origin[0], origin[1], origin[2], direction[0], direction[1], direction[2]];
        if rng.chance(2) {
            ray[rng.below(6)] = inputs::extreme(rng);
        }
        ray
    }

    /// The eye and a point.
    fn sight(&self, rng: &mut Rng, eye: Point) -> [f64; 6] {
        let mut point = match rng.below(100) {
            0..75 => self.spot(rng),
            75..85 => self.eye(rng),
            85..88 => eye,
            88..91 => eye.map(|x| inputs::nudged(rng, x)),
            91..94 => {
                let near = rng.pick(&[5e-324, 1e-300, 1e-200, 1e-162, 1e-20]);
                let k = rng.below(3);
                let mut point = eye;
                point[k] += near;
                point
            }
            // before the eye by a distance that is compared with
            _ => {
                let d = inputs::unit(std::array::from_fn(|_| rng.between(-1.0, 1.0)));
                inputs::along(eye, d, rng.pick(&[1e-2, 1e-3, 1e-6, 1.0]))
            }
        };
        if rng.chance(10) {
            let k = rng.below(3);
            point[k] = rng.pick(&[eye[k], -eye[k], 0.0, -0.0]);
        }
        let mut asked = [eye[0], eye[1], eye[2], point[0], point[1], point[2]];
        if rng.chance(2) {
            asked[rng.below(6)] = inputs::extreme(rng);
        }
        asked
    }
}

fn plus(a: Point, b: Point) -> Point {
    std::array::from_fn(|k| a[k] + b[k])
}

fn minus(a: Point, b: Point) -> Point {
    std::array::from_fn(|k| a[k] - b[k])
}
