//! Seeded draws: yards seen by a camera, the scenes of the other layers with a view of them, spoilt ones,
//! and slices that are ample, exactly full, or one place short. A seed gives the same everywhere.

use crate::harness::Shown;
use crate::inputs::{self, Grain, Numbers, Point, along, cross, dot, minus, product, unit};
use crate::scene_inputs::{self, Case};
use crate::stage_inputs;
use crate::tree_inputs;
use oracle::generate::{self, Rng};
use oracle::{Answer, COARSE, FINE, Lines, Places, Room, Scene, Trouble, View, draw_measured};
use std::fmt::Write;

/// How many slices a draw is lent: out, begins, work, work_starts, chopped, chopped_starts, node_boxes,
/// node_marks, order.
pub const SLICES: usize = 9;

/// What a place takes of each slice. Work is eight slices end to end.
const WIDTHS: [usize; SLICES] = [3, 1, 24, 8, 3, 1, 6, 3, 1];

pub type Lengths = [usize; SLICES];

/// The threshold that a draw is handed, if it is one that takes it.
pub type Threshold = Option<f64>;

/// What larnt's `render` must simplify with.
pub fn figure(threshold: Threshold) -> f64 {
    threshold.unwrap_or(COARSE)
}

/// A scene, a view, a threshold, the lengths of the lent slices, and what the oracle answers.
pub struct Draw {
    pub scene: Scene,
    pub view: View,
    pub threshold: Threshold,
    pub lengths: Lengths,
    pub answer: Answer<Lines>,
}

/// A scene, a view and a threshold, lent several rooms in turn.
pub struct Rooms {
    pub scene: Scene,
    pub view: View,
    pub threshold: Threshold,
    pub lent: Vec<(Lengths, Answer<Lines>)>,
}

impl Rooms {
    /// One of them.
    pub fn one(&self, k: usize) -> Rooms {
        Rooms {
            scene: self.scene.clone(),
            view: self.view.clone(),
            threshold: self.threshold,
            lent: vec![self.lent[k].clone()],
        }
    }
}

/// The places of slices of these lengths.
fn room(lengths: &Lengths) -> Room {
    let [out, begins, work, work_starts, chopped, chopped_starts, node_boxes, node_marks, order] =
        *lengths;
    Room {
        work: Places { points: work / 24, starts: work_starts / 8 },
        chopped: Places { points: chopped / 3, starts: chopped_starts },
        out: Places { points: out / 3, starts: begins },
        nodes: (node_boxes / 6).min(node_marks / 3),
        order,
    }
}

/// How many places each slice has in a room.
fn places(room: &Room) -> [usize; SLICES] {
    let Room { work, chopped, out, nodes, order } = room;
    [
        out.points,
        out.starts,
        work.points,
        work.starts,
        chopped.points,
        chopped.starts,
        *nodes,
        *nodes,
        *order,
    ]
}

/// The lengths of slices that this room fills.
pub fn exactly(used: &Room) -> Lengths {
    let places = places(used);
    std::array::from_fn(|k| WIDTHS[k] * places[k])
}

/// Slices with so many places; what is left over of a row is whatever.
fn lengths(rng: &mut Rng, places: [usize; SLICES]) -> Lengths {
    let ragged = rng.chance(50);
    std::array::from_fn(|k| WIDTHS[k] * places[k] + if ragged { rng.below(WIDTHS[k]) } else { 0 })
}

impl Shown for Draw {
    fn size(&self) -> u32 {
        let view = stage_inputs::view_numbers(&self.view);
        let asked = view.iter().copied().chain(self.threshold).collect();
        let case = Case { scene: self.scene.clone(), i: 0, asked };
        case.size() + self.lengths.iter().map(|n| n.count_ones()).sum::<u32>()
    }

    /// As the oracle's program reads a draw; then the lengths.
    fn text(&self) -> String {
        let v = &self.view;
        let mut text = scene_inputs::scene_text(&self.scene);
        let numbers = [v.width, v.height, v.step].into_iter().chain(v.eye).chain(v.matrix);
        for x in numbers.chain([figure(self.threshold)]) {
            write!(text, "{:016X} ", x.to_bits()).unwrap();
        }
        let Room { work, chopped, out, nodes, order } = room(&self.lengths);
        for Places { points, starts } in [work, chopped, out] {
            write!(text, "{points} {starts} ").unwrap();
        }
        write!(text, "{nodes} {order} (lengths {:?})", self.lengths).unwrap();
        text
    }
}

impl Shown for Rooms {
    fn size(&self) -> u32 {
        self.first().size()
    }

    fn text(&self) -> String {
        self.first().text()
    }
}

impl Rooms {
    fn first(&self) -> Draw {
        let (lengths, answer) = self.lent[0].clone();
        let (scene, view) = (self.scene.clone(), self.view.clone());
        Draw { scene, view, threshold: self.threshold, lengths, answer }
    }
}

// The cases.

/// Places that keep a draw short.
const AMPLE: usize = 4000;

/// Thresholds: those of a sheet in fine detail and of the default, so small that nothing goes, from less
/// than a point of the sheet up to one that leaves the ends, zeros of either sign, and bad ones.
pub fn threshold(rng: &mut Rng) -> Threshold {
    let some = rng.between(0.0, 2.0);
    Some(match rng.below(100) {
        0..20 => FINE,
        20..30 => COARSE,
        30..42 => 0.0,
        42..47 => -0.0,
        47..54 => rng.pick(&[5e-324, 1e-310, 2.2e-308]),
        54..70 => some,
        70..78 => some * rng.pick(&[1e-9, 1e-5, 1e-3, 100.0]),
        78..84 => rng.pick(&[1e300, f64::MAX, 2e6]),
        84..90 => rng.pick(&[-1.0, -1e-4, -5e-324, -1e300]),
        90..98 => rng.pick(&[f64::NAN, -f64::NAN, f64::INFINITY, f64::NEG_INFINITY]),
        _ => inputs::extreme(rng),
    })
}

/// A draw with slices of any length. Runs in which larnt would panic normalising `up` are left out,
/// and counted.
pub fn draw(rng: &mut Rng, omitted: &mut u64, threshold: fn(&mut Rng) -> Threshold) -> Draw {
    loop {
        let (scene, view) = scene_and_view(rng);
        let threshold = threshold(rng);
        let (_, used) = draw_measured(&scene, &view, figure(threshold), ample(&scene));
        let lengths = any_lengths(rng, &used);
        let answer = oracle::draw(&scene, &view, figure(threshold), room(&lengths));
        if answer.as_ref().is_err_and(|trouble| *trouble == Trouble::Omitted) {
            *omitted += 1;
            continue;
        }
        return Draw { scene, view, threshold, lengths, answer };
    }
}

/// A draw with slices that are exactly full, then each slice one place short in turn. The draw may
/// be one that is refused: then the slices are as full as they were at that.
pub fn rooms(rng: &mut Rng) -> Rooms {
    loop {
        let (scene, view) = scene_and_view(rng);
        let threshold = if rng.chance(50) { threshold(rng) } else { None };
        let (answer, used) = draw_measured(&scene, &view, figure(threshold), ample(&scene));
        let used = places(&used);
        let short = |k: usize| std::array::from_fn(|j| used[j] - usize::from(j == k));
        let mut lent = vec![(lengths(rng, used), answer)];
        for k in (0..SLICES).filter(|k| used[*k] > 0) {
            let lengths = lengths(rng, short(k));
            let answer = oracle::draw(&scene, &view, figure(threshold), room(&lengths));
            lent.push((lengths, answer));
        }
        // the room was enough before, so the first answer stands
        lent.retain(|(_, answer)| answer.as_ref().err() != Some(&Trouble::Omitted));
        if lent.len() > 1 && lent[0].1.as_ref().err() != Some(&Trouble::Refused(13)) {
            return Rooms { scene, view, threshold, lent };
        }
    }
}

/// Room for most draws of a scene.
pub fn ample(scene: &Scene) -> Room {
    if scene.entries() > 60 {
        return Room { nodes: 2047, order: 1024, ..Room::of(5 * AMPLE) };
    }
    Room::of(AMPLE)
}

/// Mostly ample, exactly what the draw takes, or one place less somewhere.
fn any_lengths(rng: &mut Rng, used: &Room) -> Lengths {
    let used = places(used);
    let more = |rng: &mut Rng| used.map(|n| n + rng.below(9));
    let taken: Vec<usize> = (0..SLICES).filter(|k| used[*k] > 0).collect();
    match rng.below(20) {
        0..6 => lengths(rng, used),
        6..9 if !taken.is_empty() => {
            let mut places = if rng.chance(50) { used } else { more(rng) };
            let k = rng.pick(&taken);
            places[k] = used[k] - 1;
            lengths(rng, places)
        }
        9 => {
            // several are short: the first that the Rust meets counts
            let places = used.map(|n| n.saturating_sub(rng.below(3)));
            lengths(rng, places)
        }
        10 => {
            let places = used.map(|n| rng.below(n + 2));
            lengths(rng, places)
        }
        11 => [0; SLICES],
        12 => lengths(rng, [2048; SLICES]),
        _ => {
            let places = more(rng);
            lengths(rng, places)
        }
    }
}

pub fn scene_and_view(rng: &mut Rng) -> (Scene, View) {
    let (mut scene, mut view) = match rng.below(100) {
        0..30 => {
            let case = generate::case(rng.next());
            (case.scene, case.view)
        }
        30..66 => {
            let scale = rng.pick(&[1.0, 1.0, 1.0, 1.0, 1.0, 0.0003, 0.0006, 0.004, 100.0, 1e4]);
            let pieces = rng.pick(&[1, 1, 2, 2, 3, 4, 5, 8, 25]);
            let scene = yard(rng, scale, pieces);
            let view = view(rng, &scene);
            (scene, view)
        }
        66..76 => {
            let most = rng.pick(&[4, 8, 12, 30, 100]);
            let n = rng.below(most);
            let scene = tree_inputs::crowd(rng, n);
            let view = view(rng, &scene);
            (scene, view)
        }
        76..88 => {
            let scene = scene_inputs::hit(rng).scene;
            let view = view(rng, &scene);
            (scene, view)
        }
        88..93 => {
            let scene = scene_inputs::checked(rng).scene;
            let view = view(rng, &scene);
            (scene, view)
        }
        93..96 => {
            let scene = tree_inputs::deep(rng);
            let view = down(rng, &scene);
            (scene, view)
        }
        96 => restarts(rng),
        97 => at_zeros(rng),
        _ => {
            let scene = yard(rng, 1.0, 2);
            let mut view = view(rng, &scene);
            stage_inputs::damage_view(rng, &mut view);
            (scene, view)
        }
    };
    match rng.below(100) {
        // a point of a handed-in line is bad, or nearly
        0..4 if !scene.points.is_empty() => {
            let k = rng.below(scene.points.len());
            let bad = inputs::extreme(rng);
            scene.points[k] = rng.pick(&[bad, 1e6_f64.next_up(), -1e6, f64::NAN]);
        }
        // the eye in a line's point: its length is 0
        4..6 if scene.points.len() >= 3 => {
            let k = rng.below(scene.points.len() / 3);
            view.eye = std::array::from_fn(|i| scene.points[3 * k + i]);
        }
        6..8 => {
            let bad = inputs::extreme(rng);
            view.matrix[rng.below(16)] = bad;
        }
        _ => {}
    }
    (scene, view)
}

// Views.

/// The box of all that is drawn, or of a yard.
fn hull(scene: &Scene) -> [f64; 6] {
    let boxes: Vec<[f64; 6]> = match oracle::check(scene) {
        Ok(checked) => checked.drawn.iter().map(|i| checked.boxes[*i as usize]).collect(),
        Err(_) => Vec::new(),
    };
    let hull = boxes.into_iter().reduce(|a, b| {
        std::array::from_fn(|k| if k < 3 { a[k].min(b[k]) } else { a[k].max(b[k]) })
    });
    hull.unwrap_or([-10.0, -10.0, 0.0, 10.0, 10.0, 10.0])
}

/// A view that mostly has the scene on its sheet.
pub fn view(rng: &mut Rng, scene: &Scene) -> View {
    let hull = hull(scene);
    let middle: Point = std::array::from_fn(|k| (hull[k] + hull[k + 3]) / 2.0);
    let size = (0..3).map(|k| hull[k + 3] - hull[k]).fold(1e-30, f64::max);
    let width: f64 = rng.pick(&[2.0, 100.0, 640.0, 1000.0, 1000.0, 1e6]);
    let height = rng.pick(&[width, width, width / 2.0, 7.0]);
    let cut = scene.marks.chunks(4).any(|m| m[0] == 7);
    let fine = rng.pick(&[0.5, 1.0, 2.0, 4.0, 8.0, 8.0, 15.0, 30.0, 100.0]);
    let step = match rng.below(100) {
        0..30 if !cut || size < 0.1 => rng.pick(&[0.0, 0.0, -0.0]),
        0..3 => rng.pick(&[0.0, 5e-324, 1e-200, 1e-3]),
        3..7 if size < 0.1 || rng.chance(20) => rng.pick(&[5e-324, 1e-200, 1e-9, 1e-3]),
        7..12 => 1000.0,
        _ => (width / fine).min(1000.0),
    };
    let (eye, matrix) = match rng.below(100) {
        0..75 => perspective(rng, middle, size, width / height),
        75..93 => level(rng, middle, size),
        93..96 => (inputs::place(rng, Grain::Any), inputs::matrix(rng)),
        _ => {
            let matrix = std::array::from_fn(|_| rng.between(-1.0, 1.0) / size);
            (along(middle, inputs::place(rng, Grain::Any), size / 50.0), matrix)
        }
    };
    View { matrix, eye: eye.map(|x| x.clamp(-1e6, 1e6)), width, height, step }
}

/// From outside, near or far, or from within.
fn perspective(rng: &mut Rng, middle: Point, size: f64, aspect: f64) -> (Point, Numbers) {
    let away = unit([rng.between(-1.0, 1.0), rng.between(-1.0, 1.0), rng.between(-0.2, 0.8)]);
    let far = rng.pick(&[0.3, 0.8, 1.2, 1.5, 2.0, 2.0, 3.0]) * size;
    let eye = along(middle, away, far);
    let target: Point = middle.map(|x| x + rng.between(-0.1, 0.1) * size);
    let half = rng.pick(&[0.2, 0.45, 0.45, 0.7, 1.2]);
    (eye, camera(eye, target, half, aspect, [0.01 * size, 20.0 * size]))
}

/// The matrix of a camera as larnt's `look_at` and `perspective` make it, by the tangent of half its
/// field of view.
pub fn camera(eye: Point, target: Point, half: f64, aspect: f64, [near, far]: [f64; 2]) -> Numbers {
    let f = unit(minus(target, eye));
    let up = if f[2].abs() > 0.999 { [0.0, 1.0, 0.0] } else { [0.0, 0.0, 1.0] };
    let s = unit(cross(f, up));
    let u = cross(s, f);
    let mut look = [0.0; 16];
    for (row, axis) in [s, u, f.map(|x| -x)].iter().enumerate() {
        look[4 * row..4 * row + 3].copy_from_slice(axis);
        look[4 * row + 3] = -dot(*axis, eye);
    }
    look[15] = 1.0;
    let mut lens = [0.0; 16];
    (lens[0], lens[5]) = (1.0 / (half * aspect), 1.0 / half);
    (lens[10], lens[11]) = (-(far + near) / (far - near), -2.0 * far * near / (far - near));
    lens[14] = -1.0;
    product(&lens, &look)
}

/// Along an axis, with a clip box about as large as the yard.
fn level(rng: &mut Rng, middle: Point, size: f64) -> (Point, Numbers) {
    let axis = rng.below(3);
    let mut eye = middle;
    eye[axis] += size * rng.pick(&[1.0, -1.0, 3.0]);
    if rng.chance(30) {
        eye[(axis + 1) % 3] = rng.pick(&[0.0, -0.0]);
    }
    let shown = size * rng.pick(&[0.3, 0.6, 1.0, 5.0]);
    let mut matrix = [0.0; 16];
    for row in 0..3 {
        let column = (axis + 1 + row) % 3;
        let by = rng.pick(&[1.0, 1.0, -1.0]) / shown;
        matrix[4 * row + column] = by;
        matrix[4 * row + 3] = -by * middle[column];
    }
    matrix[15] = 1.0;
    (eye, matrix)
}

/// Into boxes that nest about the origin: the walk's places may not be enough.
fn down(rng: &mut Rng, scene: &Scene) -> View {
    let hull = hull(scene);
    let shown = hull[3].max(1e-30) * rng.pick(&[1.0, 2.0]);
    let mut matrix = [0.0; 16];
    (matrix[0], matrix[5], matrix[10]) = (1.0 / shown, 1.0 / shown, 1.0 / shown);
    matrix[15] = 1.0;
    let eye = [0.0, 0.0, rng.pick(&[1.0, 100.0, 9e5, -1.0])];
    let step = rng.pick(&[0.0, 0.0, 500.0, 1000.0]);
    View { matrix, eye, width: 1000.0, height: 1000.0, step }
}

/// A yard with a cut by something so small that its misses come back as 0.01 or so: eye tests need
/// about as many restarts as there may be.
fn restarts(rng: &mut Rng) -> (Scene, View) {
    let mut scene = Scene::default();
    let a = scene.push([4, 1, 0, 0], &[-0.5, -0.5, 0.0, 0.5, 0.5, 1.0]);
    let tiny = scene.push([1, 0, 0, 0], &[0.0, 0.0, 0.0, 1.0]);
    let by = rng.pick(&[1e-11, 1.1e-11, 0.8e-11, 0.7e-11]);
    let b = scene.push([6, 0, tiny, 0], &stretched([by; 3]));
    let operation = rng.pick(&[1, 3]);
    scene.push([7, operation, a, b], &[]);
    let far = rng.between(0.5, 2.0);
    let below = scene.push([5, 0, 0, 0], &[0.2, 0.2, -far, 0.4, 0.2, -far, 0.2, 0.4, -far]);
    if rng.chance(20) {
        scene.push([6, 0, below, 0], &stretched([0.5, 0.5, 1.0]));
    }
    let view = View {
        matrix: stretched([0.25; 3]),
        eye: [0.1, 0.1, 2.0],
        width: 1000.0,
        height: 1000.0,
        step: rng.pick(&[100.0, 200.0, 500.0]),
    };
    (scene, view)
}

/// Blocks, whole, placed or cut, with corners on the planes of the axes, and an eye on some of these: directions
/// with a component 0, zeros of either sign, and planes through the eye.
fn at_zeros(rng: &mut Rng) -> (Scene, View) {
    let zero = |rng: &mut Rng| rng.pick(&[0.0, -0.0]);
    let mut scene = Scene::default();
    let block = |rng: &mut Rng, scene: &mut Scene| {
        let ends: [[f64; 2]; 3] = std::array::from_fn(|_| {
            let (near, far) = (zero(rng), rng.pick(&[1.0, 2.0, 3.5]));
            match rng.below(3) {
                0 => [near, far],
                1 => [-far, near],
                _ => [far - 3.0, far],
            }
        });
        scene.push([4, 1, 0, 0], &[ends.map(|e| e[0]), ends.map(|e| e[1])].concat())
    };
    for _ in 0..rng.pick(&[1, 2, 3, 6, 12]) {
        let a = block(rng, &mut scene);
        match rng.below(10) {
            0..3 => {
                let to = std::array::from_fn(|_| zero(rng));
                scene.push([6, 0, a, 0], &moved(IDENTITY, to));
            }
            3..6 => {
                let b = block(rng, &mut scene);
                let operation = rng.below(4) as u32;
                scene.push([7, operation, a, b], &[]);
            }
            _ => {}
        }
    }
    let eye = std::array::from_fn(|_| match rng.below(3) {
        0 => zero(rng),
        1 => rng.pick(&[-6.0, 5.0, 9.0]),
        _ => rng.between(-9.0, 9.0),
    });
    let matrix = camera(eye, [0.1, 0.0, 0.0], 0.7, 1.0, [0.1, 100.0]);
    let step = rng.pick(&[20.0, 100.0, 250.0]);
    (scene, View { matrix, eye, width: 1000.0, height: 1000.0, step })
}

// Yards.

const IDENTITY: Numbers =
    [1.0, 0.0, 0.0, 0.0, 0.0, 1.0, 0.0, 0.0, 0.0, 0.0, 1.0, 0.0, 0.0, 0.0, 0.0, 1.0];

fn stretched(by: Point) -> Numbers {
    let mut m = IDENTITY;
    (m[0], m[5], m[10]) = (by[0], by[1], by[2]);
    m
}

fn moved(mut m: Numbers, to: Point) -> Numbers {
    (m[3], m[7], m[11]) = (to[0], to[1], to[2]);
    m
}

/// Silos, hoppers, tanks, walls, roofs, augers and bins that are cut open; `scale` is a metre.
pub fn yard(rng: &mut Rng, scale: f64, pieces: usize) -> Scene {
    let mut yard = Yard { rng, scale, scene: Scene::default(), ours: true };
    for _ in 0..pieces {
        yard.piece();
    }
    yard.scene
}

struct Yard<'a> {
    rng: &'a mut Rng,
    scale: f64,
    scene: Scene,
    /// Whether its tubes and cones may be closed, may have stripes, and may be without lines, as larnt's are not.
    ours: bool,
}

impl Yard<'_> {
    fn measure(&mut self, least: f64, most: f64) -> f64 {
        self.scale * self.rng.between(least, most)
    }

    /// On the ground.
    fn spot(&mut self) -> Point {
        [self.measure(-8.0, 8.0), self.measure(-8.0, 8.0), 0.0]
    }

    fn place(&mut self, part: u32, m: Numbers) -> u32 {
        self.scene.push([6, 0, part, 0], &m)
    }

    fn piece(&mut self) {
        let at = self.spot();
        match self.rng.below(16) {
            0..3 => self.silo(at),
            3..5 => self.tank(at),
            5..8 => {
                let stripes = self.rng.pick(&[1, 1, 1, 2, 3, 5, 8]);
                self.block(at, stripes);
            }
            8..10 => self.hopper(at),
            10 => self.roof(at),
            11 => self.auger(at),
            12..15 => {
                let part = self.opened();
                let m = moved(inputs::turned(self.rng, true), at);
                match self.rng.below(3) {
                    0 => {}
                    1 => drop(self.place(part, moved(IDENTITY, at))),
                    _ => drop(self.place(part, m)),
                }
            }
            _ => {
                let mut part = self.tube(0.5, 2.0);
                for _ in 0..1 + self.rng.below(7) {
                    let m = moved(inputs::turned(self.rng, true), at.map(|x| x / 4.0));
                    part = self.place(part, m);
                }
            }
        }
    }

    /// A ring of a round solid.
    fn ring(&mut self, owner: u32, centre: Point, r: f64, points: usize) {
        let line: Vec<Point> = (0..=points)
            .map(|k| {
                let (x, y) = stage_inputs::ring_point(k as f64 / points as f64);
                [centre[0] + r * x, centre[1] + r * y, centre[2]]
            })
            .collect();
        self.scene.push_line(owner, &line);
    }

    /// Lines from a ring to a smaller or equal one above it.
    fn uprights(&mut self, owner: u32, low: (f64, f64), high: (f64, f64), count: usize) {
        for k in 0..count {
            let (x, y) = stage_inputs::ring_point(k as f64 / count as f64 + 0.01);
            let foot = [low.0 * x, low.0 * y, low.1];
            self.scene.push_line(owner, &[foot, [high.0 * x, high.0 * y, high.1]]);
        }
    }

    /// A count of stripes: none, as few as a yard's, or at the boundaries of what they are.
    fn stripes(&mut self) -> u32 {
        if !self.ours {
            return 0;
        }
        match self.rng.below(100) {
            0..60 => 0,
            60..90 => self.rng.pick(&[1, 2, 3, 5, 7, 8, 12]),
            90..97 => 13 + self.rng.below(60) as u32,
            97 => self.rng.pick(&[120, 121, 180]),
            98 => self.rng.pick(&[181, 359, 360]),
            _ => self.rng.pick(&[361, 1000, u32::MAX]),
        }
    }

    /// Whether a tube or a cone is closed.
    fn closed(&mut self) -> bool {
        self.ours && self.rng.chance(40)
    }

    /// Whether a round solid has no lines: its outline is drawn, or its stripes alone.
    fn bare(&mut self) -> bool {
        self.ours && self.rng.chance(40)
    }

    fn tube(&mut self, r: f64, h: f64) -> u32 {
        let (r, h) = (self.scale * r, self.scale * h);
        let (count, closed) = (self.stripes(), self.closed());
        let tube = self.scene.push([if closed { 8 } else { 2 }, count, 0, 0], &[r, 0.0, h]);
        if self.bare() {
            return tube;
        }
        // on the surface, or just outside it
        let out = r * self.rng.pick(&[1.0, 1.0, 1.001, 1.05]);
        let points = self.rng.pick(&[8, 12, 24]);
        self.ring(tube, [0.0; 3], out, points);
        self.ring(tube, [0.0, 0.0, h], out, points);
        let count = self.rng.below(5);
        self.uprights(tube, (out, 0.0), (out, h), count);
        tube
    }

    fn cone(&mut self, r: f64, h: f64) -> u32 {
        let (r, h) = (self.scale * r, self.scale * h);
        let (count, closed) = (self.stripes(), self.closed());
        let cone = self.scene.push([if closed { 9 } else { 3 }, count, 0, 0], &[r, h]);
        if self.bare() {
            return cone;
        }
        let out = r * self.rng.pick(&[1.0, 1.0, 1.001, 1.05]);
        self.ring(cone, [0.0; 3], out, 12);
        let count = self.rng.below(7);
        self.uprights(cone, (out, 0.0), (0.0, h), count);
        cone
    }

    fn silo(&mut self, at: Point) {
        let (r, h) = (self.rng.between(0.5, 2.5), self.rng.between(2.0, 9.0));
        let tube = self.tube(r, h);
        self.place(tube, moved(IDENTITY, at));
        let high = self.rng.between(0.3, 1.5);
        let roof = self.cone(r, high);
        self.place(roof, moved(IDENTITY, [at[0], at[1], self.scale * h]));
    }

    fn tank(&mut self, at: Point) {
        let r = self.measure(0.4, 2.0);
        let c = [at[0], at[1], r * self.rng.pick(&[1.0, 1.5, 0.5])];
        let ball = self.scene.push([1, 0, 0, 0], &[c[0], c[1], c[2], r]);
        if self.bare() {
            return;
        }
        let out = self.rng.pick(&[1.0, 1.0, 1.001, 1.05]);
        for z in [0.0, 0.6, -0.6] {
            let around = if z == 0.0 { r } else { 0.8 * r };
            self.ring(ball, [c[0], c[1], c[2] + z * r], out * around, 16);
        }
        if self.rng.chance(10) {
            self.scene.push_line(ball, &[]);
            self.scene.push_line(ball, &[c]);
        }
    }

    fn block(&mut self, at: Point, stripes: u32) -> u32 {
        let size: Point = std::array::from_fn(|_| self.measure(0.2, 4.0));
        self.scene.push([4, stripes, 0, 0], &[at, along(at, size, 1.0)].concat())
    }

    /// A cone on its head in a frame, whose beams it may pass through.
    fn hopper(&mut self, at: Point) {
        let (r, h) = (self.rng.between(0.8, 2.0), self.rng.between(1.0, 2.5));
        let cone = self.cone(r, h);
        let upside_down =
            moved(stretched([1.0, 1.0, -1.0]), [at[0], at[1], self.scale * (h + 0.5)]);
        self.place(cone, upside_down);
        let (r, h) = (self.scale * r, self.scale * h);
        let b = 0.1 * self.scale;
        for (x, y) in [(-0.7, -0.7), (0.7, -0.7), (0.7, 0.7), (-0.7, 0.7)] {
            let foot = [at[0] + r * x, at[1] + r * y, 0.0];
            self.scene.push([4, 1, 0, 0], &[foot, along(foot, [b, b, h], 1.0)].concat());
        }
    }

    fn roof(&mut self, at: Point) {
        let (w, d, h) = (self.measure(1.0, 4.0), self.measure(1.0, 4.0), self.measure(0.5, 3.0));
        let top = [at[0], at[1], at[2] + h];
        let corners = [(-w, -d), (w, -d), (w, d), (-w, d)];
        for k in 0..4 {
            let (a, b) = (corners[k], corners[(k + 1) % 4]);
            let foot = |c: (f64, f64)| [at[0] + c.0, at[1] + c.1, at[2]];
            self.scene.push([5, 0, 0, 0], &[foot(a), foot(b), top].concat());
        }
    }

    fn auger(&mut self, at: Point) {
        let h = self.rng.between(2.0, 10.0);
        let tube = self.tube(0.2, h);
        let m = moved(inputs::turned(self.rng, true), at);
        self.place(tube, m);
    }

    /// A block less one that stands in it and out of it at the top.
    fn open_block(&mut self, at: Point) {
        let whole = self.block(at, 1);
        let end: Point = std::array::from_fn(|k| self.scene.numbers_of(whole as usize)[3 + k]);
        let within = |share: Point| std::array::from_fn(|k| at[k] + share[k] * (end[k] - at[k]));
        let (low, high): (Point, Point) = (within([0.2, 0.2, 0.3]), within([0.8, 0.8, 1.5]));
        let hole = self.scene.push([4, 1, 0, 0], &[low, high].concat());
        self.scene.push([7, 1, whole, hole], &[]);
    }

    /// A bin at `at`, three metres wide, with so many openings, cut by this operation.
    fn bin(&mut self, bin: Bin, at: Point, openings: usize, op: u32) -> u32 {
        let mut top = match bin {
            Bin::Block => {
                self.scene.push([4, 1, 0, 0], &[at, along(at, [3.0, 3.0, 4.0], 1.0)].concat())
            }
            Bin::Tube => self.scene.push([8, 12, 0, 0], &[1.5, 0.0, 4.0]),
        };
        let doors: [[Point; 2]; 2] = match bin {
            Bin::Block => [[[0.5, -1.0, 0.3], [1.4, 2.0, 2.0]], [[0.6, 0.6, 2.5], [5.0, 1.6, 3.6]]],
            Bin::Tube => {
                [[[-0.5, -2.0, 0.3], [0.5, -0.4, 2.0]], [[0.4, -0.5, 2.5], [2.0, 0.5, 3.6]]]
            }
        };
        for door in &doors[..openings] {
            let [low, high] = door.map(|p| along(at, p, 1.0));
            let door = self.scene.push([4, 1, 0, 0], &[low, high].concat());
            top = self.scene.push([7, op, top, door], &[]);
        }
        top
    }

    fn turned_about_z(&mut self) -> Numbers {
        let (s, c) = self.rng.between(0.0, 6.28).sin_cos();
        [c, -s, 0.0, 0.0, s, c, 0.0, 0.0, 0.0, 0.0, 1.0, 0.0, 0.0, 0.0, 0.0, 1.0]
    }

    /// Something cut open, about the origin; seldom cut twice.
    fn opened(&mut self) -> u32 {
        let a = match self.rng.below(5) {
            0 => self.tube(2.0, 4.0),
            4 => self.cone(2.0, 3.0),
            1 => {
                let r = self.measure(1.0, 2.0);
                let ball = self.scene.push([1, 0, 0, 0], &[0.0, 0.0, 0.0, r]);
                if !self.bare() {
                    self.ring(ball, [0.0; 3], r, 16);
                }
                ball
            }
            _ => self.block([0.0; 3], 1),
        };
        let corner = [self.measure(0.0, 0.4), self.measure(-0.2, 0.4), self.measure(-0.5, 0.5)];
        let b = self.block(corner, 1);
        let b = if self.rng.chance(15) {
            let m = stretched([self.rng.pick(&[1.0001, 1.5, 2.0]); 3]);
            self.place(b, m)
        } else {
            b
        };
        let operation = self.rng.pick(&[1, 1, 1, 0, 2, 3]);
        let cut = self.scene.push([7, operation, a, b], &[]);
        if !self.rng.chance(20) {
            return cut;
        }
        let more = self.block([0.0; 3], 1);
        let pair = if self.rng.chance(50) { [cut, more] } else { [more, cut] };
        let operation = self.rng.pick(&[1, 3]);
        self.scene.push([7, operation, pair[0], pair[1]], &[])
    }
}

// For timing.

/// A yard of this many solids, most of them placed as far as the entries go, and a view of all of it on a
/// sheet of 1,000 by 1,000.
pub fn ordinary(rng: &mut Rng, n: usize, step: f64) -> (Scene, View) {
    seen_whole(rng, n, 0, step)
}

/// The same, with one solid in `one_in` a block that is cut open from above.
pub fn cut_open(rng: &mut Rng, n: usize, one_in: usize, step: f64) -> (Scene, View) {
    seen_whole(rng, n, one_in, step)
}

fn seen_whole(rng: &mut Rng, n: usize, one_in: usize, step: f64) -> (Scene, View) {
    let placed = (3 * n / 4).min(1024 - n);
    let scene = loop {
        let scene = full_yard(rng, n, placed, one_in);
        if oracle::check(&scene).is_ok() {
            break scene;
        }
    };
    (scene, whole_view(step))
}

fn whole_view(step: f64) -> View {
    let eye = [70.0, -85.0, 60.0];
    let matrix = camera(eye, [0.0; 3], 0.6, 1.0, [1.0, 1000.0]);
    View { matrix, eye, width: 1000.0, height: 1000.0, step }
}

/// What a bin is made of: a block or a closed tube.
#[derive(Clone, Copy)]
pub enum Bin {
    Block,
    Tube,
}

/// 24 bins on the ground, each with so many openings cut into it one after the other. A placed bin is made about the
/// origin, and then turned and moved to its place as a whole.
pub fn bins(rng: &mut Rng, bin: Bin, openings: usize, placed: bool, step: f64) -> (Scene, View) {
    standing(rng, step, |yard, at| {
        let about = if placed { [0.0; 3] } else { at };
        let top = yard.bin(bin, about, openings, 1);
        if placed {
            let m = yard.turned_about_z();
            yard.place(top, moved(m, at));
        }
    })
}

/// 24 placed bins, each of two cuts: a bin with two openings, in common with a ball from which a block is taken away.
pub fn cuts_in_cuts(rng: &mut Rng, step: f64) -> (Scene, View) {
    standing(rng, step, |yard, at| {
        let bin = yard.bin(Bin::Block, [0.0; 3], 2, 3);
        let ball = yard.scene.push([1, 0, 0, 0], &[1.5, 1.5, 2.0, 2.4]);
        let slot = yard.scene.push([4, 1, 0, 0], &[1.0, -1.0, 3.0, 2.0, 4.0, 6.0]);
        let room = yard.scene.push([7, 3, ball, slot], &[]);
        let both = yard.scene.push([7, 2, bin, room], &[]);
        let m = yard.turned_about_z();
        yard.place(both, moved(m, at));
    })
}

fn standing(rng: &mut Rng, step: f64, one: impl Fn(&mut Yard<'_>, Point)) -> (Scene, View) {
    let mut yard = Yard { rng, scale: 1.0, scene: Scene::default(), ours: false };
    for k in 0..24 {
        one(&mut yard, [7.0 * (k % 6) as f64 - 20.0, 7.0 * (k / 6) as f64 - 13.0, 0.0]);
    }
    let scene = yard.scene;
    assert!(oracle::check(&scene).is_ok());
    (scene, whole_view(step))
}

fn full_yard(rng: &mut Rng, n: usize, placed: usize, one_in: usize) -> Scene {
    let mut yard = Yard { rng, scale: 1.0, scene: Scene::default(), ours: false };
    for k in 0..n {
        let at = inputs::place(yard.rng, Grain::Any);
        let at = [at[0], at[1], at[2].abs() / 5.0];
        if one_in > 0 && k % one_in == 0 {
            yard.open_block(at);
            continue;
        }
        if k >= placed {
            yard.block(at, 1);
            continue;
        }
        let (r, h) = (yard.rng.between(0.3, 1.5), yard.rng.between(1.0, 5.0));
        let part = match k % 3 {
            0 => yard.tube(r, h),
            1 => yard.cone(r, h),
            _ => yard.block([0.0; 3], 1),
        };
        let m = if k % 2 == 0 { IDENTITY } else { inputs::turned(yard.rng, true) };
        yard.place(part, moved(m, at));
    }
    yard.scene
}
