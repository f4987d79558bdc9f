//! larnt itself as the judge of the drawing core.
//!
//! `plain` and `limited` hold the same code over larnt's two builds: the first as it is, the
//! second with refusals 9 to 13. The functions here are the public calls of document 01 with
//! all their refusals; they run on the limited build. `larnt_plain` and `larnt_limited` are
//! larnt's own modules, for direct calls of its types and functions.

pub mod check;
pub mod generate;
pub mod outlines;
pub mod merge;
pub mod requests;
pub mod stripes;
pub mod yard;

pub use larnt_limited;
pub use larnt_limited::limits::{Places, Room};
pub use larnt_plain;

use larnt_limited::tree::Tree;

pub mod plain {
    use larnt_plain as larnt;
    include!("engine.rs");

    /// A true cut restarts as often as it likes.
    fn restart(_count: usize) {}
}

pub mod limited {
    use larnt_limited as larnt;
    include!("engine.rs");

    /// 11: a true cut is about to restart after `count` restarts; 64 pass.
    fn restart(count: usize) {
        if count == 64 {
            larnt::limits::refuse(11);
        }
    }
}

/// The five slices of a scene.
#[derive(Clone, Debug, Default)]
pub struct Scene {
    pub numbers: Vec<f64>,
    pub marks: Vec<u32>,
    pub points: Vec<f64>,
    pub starts: Vec<usize>,
    pub owners: Vec<u32>,
}

impl Scene {
    pub fn entries(&self) -> usize {
        self.marks.len() / 4
    }

    pub fn marks_of(&self, i: usize) -> &[u32] {
        &self.marks[4 * i..4 * i + 4]
    }

    pub fn numbers_of(&self, i: usize) -> &[f64] {
        &self.numbers[16 * i..16 * i + 16]
    }

    /// Adds an entry and gives its index; what `numbers` leaves open is 0.
    pub fn push(&mut self, marks: [u32; 4], numbers: &[f64]) -> u32 {
        self.marks.extend(marks);
        self.numbers.extend(numbers);
        self.numbers.resize(16 * self.entries(), 0.0);
        self.entries() as u32 - 1
    }

    /// Adds a handed-in line.
    pub fn push_line(&mut self, owner: u32, points: &[[f64; 3]]) {
        self.starts.push(self.points.len() / 3);
        self.owners.push(owner);
        self.points.extend(points.iter().flatten());
    }
}

#[derive(Clone, Debug)]
pub struct View {
    pub matrix: [f64; 16],
    pub eye: [f64; 3],
    pub width: f64,
    pub height: f64,
    pub step: f64,
}

/// Paths: points end to end, and where each path starts.
#[derive(Clone, Debug, Default)]
pub struct Lines {
    pub points: Vec<f64>,
    pub starts: Vec<usize>,
}

/// A tree as `build` leaves it: 6 floats and 3 marks a node, and the entries in its order.
#[derive(Clone, Debug, Default)]
pub struct Rows {
    pub boxes: Vec<f64>,
    pub marks: Vec<u32>,
    pub order: Vec<u32>,
}

/// What is known of an accepted scene.
#[derive(Clone, Debug)]
pub struct Checked {
    pub boxes: Vec<[f64; 6]>,
    pub inverses: Vec<(usize, [f64; 16])>,
    pub drawn: Vec<u32>,
}

#[derive(Clone, Copy, Debug)]
pub struct Hit {
    pub t: f64,
    pub ok: bool,
}

/// Why there is no result.
#[derive(Clone, Debug, PartialEq, Eq)]
pub enum Trouble {
    Refused(u32),
    /// larnt would panic normalising `up`: such runs are counted and left out.
    Omitted,
    /// larnt panicked otherwise.
    Panicked(String),
}

pub type Answer<T> = Result<T, Trouble>;

/// Runs larnt's work and turns whatever unwinds from it into an answer.
pub fn caught<T>(work: impl FnOnce() -> T) -> Answer<T> {
    use larnt_limited::limits::{Omitted, Refusal};
    std::panic::catch_unwind(std::panic::AssertUnwindSafe(work)).map_err(|cause| {
        if let Some(Refusal(number)) = cause.downcast_ref() {
            Trouble::Refused(*number)
        } else if cause.is::<Omitted>() {
            Trouble::Omitted
        } else if let Some(text) = cause.downcast_ref::<String>() {
            Trouble::Panicked(text.clone())
        } else {
            Trouble::Panicked(cause.downcast_ref::<&str>().unwrap_or(&"").to_string())
        }
    })
}

fn within<T>(room: Room, work: impl FnOnce() -> T) -> Answer<T> {
    larnt_limited::limits::begin(room);
    caught(work)
}

/// 2 to 7, and 14 after 3: the entries of an accepted scene.
pub fn accepted(scene: &Scene) -> Answer<limited::Entries> {
    check::scene(scene)?;
    caught(|| {
        let placed = (0..scene.entries()).filter(|i| scene.marks_of(*i)[0] == 6);
        let determinants: Vec<f64> =
            placed.map(|i| limited::matrix(scene.numbers_of(i)).determinant()).collect();
        (determinants, limited::entries(scene))
    })
    .and_then(|(determinants, entries)| {
        check::placings(determinants.into_iter().zip(entries.inverses.iter().map(|(_, m)| m)))?;
        check::boxes(&entries.boxes)?;
        Ok(entries)
    })
}

pub fn check(scene: &Scene) -> Answer<Checked> {
    let limited::Entries { boxes, inverses, drawn, .. } = accepted(scene)?;
    Ok(Checked { boxes, inverses, drawn })
}

/// The tree of a scene, given places for its nodes and its order.
pub fn build(scene: &Scene, nodes: usize, order: usize) -> Answer<Rows> {
    let entries = accepted(scene)?;
    within(Room { nodes, order, ..Room::ENDLESS }, || limited::rows(&entries.tree()))
}

/// The tree of accepted entries, with all the room it needs.
pub fn tree(entries: &limited::Entries) -> Tree<limited::Drawn<'_>> {
    larnt_limited::limits::begin(Room::ENDLESS);
    entries.tree()
}

/// The nearest hit on the tree that `build` makes.
pub fn intersect(scene: &Scene, ray: [f64; 6]) -> Answer<Hit> {
    let entries = accepted(scene)?;
    intersect_built(&tree(&entries), ray)
}

/// The same on a tree that stands already, for many rays.
pub fn intersect_built(tree: &Tree<limited::Drawn>, ray: [f64; 6]) -> Answer<Hit> {
    check::measures(&ray)?;
    within(Room::ENDLESS, || limited::nearest(tree, ray)).map(|h| Hit { t: h.t, ok: h.ok })
}

/// The eye test on the tree that `build` makes.
pub fn visible(scene: &Scene, eye: [f64; 3], point: [f64; 3]) -> Answer<bool> {
    let entries = accepted(scene)?;
    visible_built(&tree(&entries), eye, point)
}

/// The same on a tree that stands already, for many points.
pub fn visible_built(tree: &Tree<limited::Drawn>, eye: [f64; 3], point: [f64; 3]) -> Answer<bool> {
    check::measures(&eye)?;
    within(Room::ENDLESS, || limited::visible(tree, eye, point))
}

/// Whether the eye sees a point, as request (x) has it: where the full walk meets 11 or 12 only after a solid
/// that falls short, no.
pub fn covered_built(tree: &Tree<limited::Drawn>, eye: [f64; 3], point: [f64; 3]) -> Answer<bool> {
    match visible_built(tree, eye, point) {
        Err(Trouble::Refused(11 | 12)) if falls_short(tree, eye, point) => Ok(false),
        answer => answer,
    }
}

/// larnt's walk again, from its nodes and shapes: whether it tries a solid that falls short before it meets 11
/// or 12.
fn falls_short(tree: &Tree<limited::Drawn>, eye: [f64; 3], point: [f64; 3]) -> bool {
    use larnt_limited::{axis::Axis, hit::Hit, ray::Ray, shape::Shape};
    let (eye, point) = (limited::vector(eye), limited::vector(point));
    let length = eye.sub(point).length();
    let r = Ray::new(point, eye.sub(point).normalize());
    let (mut best, mut waiting) = (Hit::no_hit().t, vec![0]);
    while let Some(i) = waiting.pop() {
        let node = &tree.nodes[i];
        let (tmin, tmax) = node.bx.intersect(r);
        if tmax < tmin || tmax <= 0.0 || tmin >= best {
            continue;
        }
        let first = node.left_first;
        let backward = match (node.axis, node.count) {
            (Axis::X, 0) => r.direction.x < 0.0,
            (Axis::Y, 0) => r.direction.y < 0.0,
            (Axis::Z, 0) => r.direction.z < 0.0,
            _ => {
                for shape in &tree.shapes()[first..first + node.count] {
                    let Ok(hit) = within(Room::ENDLESS, || shape.intersect(r)) else {
                        return false;
                    };
                    if hit.t < length {
                        return true;
                    }
                    best = if hit.t < best { hit.t } else { best };
                }
                continue;
            }
        };
        if waiting.len() + 2 > 64 {
            return false;
        }
        waiting.extend(if backward { [first, first + 1] } else { [first + 1, first] });
    }
    false
}

/// What entry `i` alone returns for a ray: no tree and no other solid.
pub fn own_hit(scene: &Scene, i: usize, ray: [f64; 6]) -> Answer<Hit> {
    use larnt_limited::shape::Shape;
    accepted(scene)?;
    check::measures(&ray)?;
    let solid = limited::solid_of(scene, i);
    within(Room::ENDLESS, || solid.intersect(limited::ray(ray))).map(|h| Hit { t: h.t, ok: h.ok })
}

/// `chop_adaptive` of paths that are handed in.
pub fn chop(view: &View, lines: &Lines, places: Places) -> Answer<Lines> {
    check::lines(lines)?;
    check::view(view)?;
    within(Room { out: places, ..Room::ENDLESS }, || limited::chop(view, lines))
}

/// `simplify` of paths that are handed in.
pub fn simplify(threshold: f64, lines: &Lines, places: Places) -> Answer<Lines> {
    check::lines(lines)?;
    check::threshold(threshold)?;
    within(Room { out: places, ..Room::ENDLESS }, || limited::simplify(threshold, lines))
}

/// What a draw simplifies with by default, and what `yard` passes.
pub const COARSE: f64 = 1e-4;
pub const FINE: f64 = 1e-6;

/// One draw, simplified with the threshold.
pub fn draw(scene: &Scene, view: &View, threshold: f64, room: Room) -> Answer<Lines> {
    draw_measured(scene, view, threshold, room).0
}

/// One draw, and the most places of each slice that it took. Outlines stand among the lines that are handed in.
pub fn draw_measured(
    scene: &Scene,
    view: &View,
    threshold: f64,
    room: Room,
) -> (Answer<Lines>, Room) {
    let asked = || check::view(view).and_then(|()| check::threshold(threshold));
    let checked = accepted(scene).and_then(|_| asked());
    match checked {
        Err(trouble) => (Err(trouble), Room::of(0)),
        Ok(()) => {
            let entries = limited::entries(&outlines::with_outlines(scene, view));
            let answer = within(room, || limited::draw(&entries, view, threshold));
            (answer, larnt_limited::limits::used())
        }
    }
}

/// Runs on a thread with a stack for the deepest recursion: long paths, nested cuts.
pub fn with_stack<T: Send>(work: impl FnOnce() -> T + Send) -> T {
    std::thread::scope(|scope| {
        let thread = std::thread::Builder::new().stack_size(512 << 20);
        let handle = thread.spawn_scoped(scope, work).expect("a thread");
        handle.join().unwrap_or_else(|cause| std::panic::resume_unwind(cause))
    })
}

/// Equal bit for bit, with all NaNs alike.
pub fn same_bits(a: &[f64], b: &[f64]) -> bool {
    a.len() == b.len()
        && a.iter().zip(b).all(|(x, y)| x.to_bits() == y.to_bits() || x.is_nan() && y.is_nan())
}
