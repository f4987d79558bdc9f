//! Hidden-line drawings of yards by the proved library: scenes that grow entry by entry, views, drawings and questions.
//!
//! ```
//! use yard_core::{DIFFERENCE, Scene, View, moved};
//!
//! let mut scene = Scene::new();
//! let hut = scene.cube([-1.0, -1.0, 0.0], [1.0, 1.0, 2.0], 1);
//! let door = scene.cube([-0.5, -1.5, 0.0], [0.5, -0.5, 1.5], 1);
//! scene.cut(DIFFERENCE, hut, door);
//! let silo = scene.cylinder(1.0, 0.0, 3.0, 12, false);
//! let silo = scene.place(moved(4.0, 0.0, 0.0), silo);
//! let view = View { matrix: [1., 0., 0., 0., 0., 0., 2., -2., 0., -1., 0., 0., 0., 1., 0., 20.],
//!                   eye: [0.0, -20.0, 2.0], width: 1200.0, height: 800.0, step: 4.0 };
//! let drawing = scene.draw(&view)?;
//! assert!(drawing.paths().count() > 12);
//! let tree = scene.tree()?;
//! assert_eq!(tree.why_hidden([-20.0, 0.0, 1.0], [6.0, 0.0, 1.0])?, Some(silo));
//! # Ok::<(), yard_core::Refused>(())
//! ```
//!
//! The calls themselves, on slices that the caller lends, are in [`calls`]. What a draw works in grows here until it
//! suffices, and the drawing has the places that a preview counts. Angles are no business of the core: cameras are made by
//! the host, and outlines that stand off the surface; a round solid that is handed no lines has the core's own, which lie
//! in it.

#![deny(unsafe_code)]

#[allow(unsafe_code)] // the calls themselves, and nothing else
#[rustfmt::skip]
#[path = "../../larnt.rs"]
pub mod calls;
pub mod forms;

use std::{
    fmt,
    sync::{
        OnceLock,
        atomic::{AtomicUsize, Ordering},
    },
    thread,
};

/// The threshold of simplification of a draw by default,
pub const COARSE: f64 = 1e-4;
/// and of a sheet in fine detail, as `yard` draws it.
pub const FINE: f64 = 1e-6;
/// Room for so many points is lent to a draw at first,
pub const FIRST_POINTS: usize = 4096;
/// and at most.
pub const MOST_POINTS: usize = 1 << 21;

/// Room for so many points is lent to the draw of one entry at first.
pub const FEW_POINTS: usize = 1024;
/// And to that of several for so many points each.
const A_PART: usize = 128;
/// A draw by threads has so many ranges for each.
const RANGES: usize = 4;

/// What a cut leaves, by the true distance from a ray's first origin. The Rust's two, by the t of the last ray, are 0 and 1.
pub const INTERSECTION: u32 = 2;
pub const DIFFERENCE: u32 = 3;

/// A call was refused; README's table says what its number means.
#[derive(Clone, Copy, Debug, PartialEq, Eq)]
pub struct Refused(pub u32);

impl fmt::Display for Refused {
    fn fmt(&self, f: &mut fmt::Formatter) -> fmt::Result {
        write!(f, "refused {}", self.0)
    }
}

impl std::error::Error for Refused {}

/// What becomes of a point at the clip and eye test of a draw.
#[derive(Clone, Copy, Debug, PartialEq, Eq)]
pub enum Fate {
    Visible,
    Clipped,
    /// By this drawn entry, whose own distance falls short of the eye.
    Hidden(Entry),
    /// 9, 11 or 12.
    Refused(Refused),
}

impl Fate {
    fn of(word: u32) -> Fate {
        match word {
            calls::VISIBLE => Fate::Visible,
            calls::CLIPPED => Fate::Clipped,
            met if met > calls::REFUSED => Fate::Refused(Refused(met - calls::REFUSED)),
            entry => Fate::Hidden(Entry(entry)),
        }
    }
}

/// A place among the entries of the scene that answered it.
#[derive(Clone, Copy, Debug, PartialEq, Eq)]
pub struct Entry(pub u32);

/// Where one looks from: the clip matrix by rows, the eye, and the sheet with its step.
#[derive(Clone, Copy, Debug, PartialEq)]
pub struct View {
    pub matrix: [f64; 16],
    pub eye: [f64; 3],
    pub width: f64,
    pub height: f64,
    pub step: f64,
}

impl View {
    /// The 22 numbers in the library's order.
    pub fn numbers(&self) -> [f64; 22] {
        let mut all = [0.0; 22];
        all[..16].copy_from_slice(&self.matrix);
        all[16..19].copy_from_slice(&self.eye);
        all[19..].copy_from_slice(&[self.width, self.height, self.step]);
        all
    }
}

/// The matrix that moves a part.
pub fn moved(x: f64, y: f64, z: f64) -> [f64; 16] {
    [
        1.0, 0.0, 0.0, x, 0.0, 1.0, 0.0, y, 0.0, 0.0, 1.0, z, 0.0, 0.0, 0.0, 1.0,
    ]
}

/// The visible lines on a sheet.
#[derive(Clone, Debug, Default, PartialEq)]
pub struct Drawing {
    points: Vec<[f64; 3]>,
    starts: Vec<usize>,
}

impl Drawing {
    /// Each path by its points: x to the right, y up, and the depth.
    pub fn paths(&self) -> impl Iterator<Item = &[[f64; 3]]> {
        let ends = self
            .starts
            .iter()
            .skip(1)
            .copied()
            .chain([self.points.len()]);
        self.starts
            .iter()
            .zip(ends)
            .map(|(&start, end)| &self.points[start..end])
    }

    /// All points, path by path.
    pub fn points(&self) -> &[[f64; 3]] {
        &self.points
    }

    /// The drawings one after the other.
    pub fn followed(drawings: &[Drawing]) -> Drawing {
        let mut all = Drawing::default();
        for one in drawings {
            let before = all.points.len();
            all.starts
                .extend(one.starts.iter().map(|start| before + start));
            all.points.extend(&one.points);
        }
        all
    }
}

/// Solids that are drawn together. Each is an entry; one that a placing or a cut names is drawn as that alone.
#[derive(Clone, Debug, Default)]
pub struct Scene {
    numbers: Vec<f64>,
    marks: Vec<u32>,
    points: Vec<f64>,
    starts: Vec<usize>,
    owners: Vec<u32>,
}

impl Scene {
    pub fn new() -> Scene {
        Scene::default()
    }

    /// How many entries there are; the library takes 1,024.
    pub fn entries(&self) -> usize {
        self.marks.len() / 4
    }

    /// An entry as the library takes it: a kind, its measures, its detail and the parts that it names (larnt.h).
    /// Up to 16 measures count.
    pub fn enter(&mut self, kind: u32, measures: &[f64], detail: u32, parts: [u32; 2]) -> Entry {
        let mut row = [0.0; 16];
        let used = measures.len().min(16);
        row[..used].copy_from_slice(&measures[..used]);
        let entry = Entry(self.entries() as u32);
        self.numbers.extend(row);
        self.marks.extend([kind, detail, parts[0], parts[1]]);
        entry
    }

    pub fn sphere(&mut self, centre: [f64; 3], radius: f64) -> Entry {
        let [x, y, z] = centre;
        self.enter(1, &[x, y, z, radius], 0, [0, 0])
    }

    /// A tube about the Z axis; `closed` has a disc at either end.
    pub fn cylinder(
        &mut self,
        radius: f64,
        low: f64,
        high: f64,
        stripes: u32,
        closed: bool,
    ) -> Entry {
        self.enter(
            if closed { 8 } else { 2 },
            &[radius, low, high],
            stripes,
            [0, 0],
        )
    }

    /// A cone about the Z axis, its base at 0; `closed` has a disc there.
    pub fn cone(&mut self, radius: f64, height: f64, stripes: u32, closed: bool) -> Entry {
        self.enter(
            if closed { 9 } else { 3 },
            &[radius, height],
            stripes,
            [0, 0],
        )
    }

    /// A box from its least corner to its greatest; 1 stripe draws its edges.
    pub fn cube(&mut self, low: [f64; 3], high: [f64; 3], stripes: u32) -> Entry {
        self.enter(4, &[low, high].concat(), stripes, [0, 0])
    }

    pub fn triangle(&mut self, a: [f64; 3], b: [f64; 3], c: [f64; 3]) -> Entry {
        self.enter(5, &[a, b, c].concat(), 0, [0, 0])
    }

    /// A part that a matrix by rows takes to its place.
    pub fn place(&mut self, matrix: [f64; 16], part: Entry) -> Entry {
        self.enter(6, &matrix, 0, [part.0, 0])
    }

    /// What an operation leaves of two parts.
    pub fn cut(&mut self, operation: u32, first: Entry, second: Entry) -> Entry {
        self.enter(7, &[], operation, [first.0, second.0])
    }

    /// A line of a round solid, in its coordinates.
    pub fn line(&mut self, owner: Entry, points: &[[f64; 3]]) {
        self.starts.push(self.points.len() / 3);
        self.owners.push(owner.0);
        self.points.extend(points.as_flattened());
    }

    fn lent(&self) -> calls::Scene<'_> {
        calls::Scene {
            numbers: &self.numbers,
            marks: &self.marks,
            points: &self.points,
            starts: &self.starts,
            owners: &self.owners,
        }
    }

    /// The lines that a view sees, simplified with [`COARSE`].
    pub fn draw(&self, view: &View) -> Result<Drawing, Refused> {
        self.draw_with(view, COARSE, MOST_POINTS)
    }

    /// The same simplified with a threshold, [`FINE`] for a sheet in fine detail, with room for `most` points to work in
    /// at most: 13 where they do not suffice. The drawing is lent the places that a preview counts, and one start more.
    pub fn draw_with(&self, view: &View, threshold: f64, most: usize) -> Result<Drawing, Refused> {
        let (mut room, (points, paths)) = self.counted(view, threshold, most)?;
        // at step 0 a path that vanishes has a start until it does
        let (mut out, mut starts) = (vec![[0.0; 3]; points], vec![0; paths + 1]);
        let (view, flat) = (view.numbers(), out.as_flattened_mut());
        calls::draw_with(
            self.lent(),
            &view,
            threshold,
            flat,
            &mut starts,
            room.lent(),
        )
        .map_err(Refused)?;
        starts.truncate(paths);
        Ok(Drawing {
            points: out,
            starts,
        })
    }

    /// How many points and paths `draw` would answer, without the drawing. It takes about as long.
    pub fn preview(&self, view: &View) -> Result<(usize, usize), Refused> {
        self.preview_with(view, COARSE, MOST_POINTS)
    }

    /// The same of `draw_with`.
    pub fn preview_with(
        &self,
        view: &View,
        threshold: f64,
        most: usize,
    ) -> Result<(usize, usize), Refused> {
        Ok(self.counted(view, threshold, most)?.1)
    }

    /// A preview's counts, and the room that it was made in. No call tells how much room a draw works in, so it doubles
    /// until it suffices; most previews that do not fit say so at the chop, before the eye tests.
    fn counted(
        &self,
        view: &View,
        threshold: f64,
        most: usize,
    ) -> Result<(Room, (usize, usize)), Refused> {
        let (view, any) = (view.numbers(), usize::MAX);
        let mut points = FIRST_POINTS.max(self.points.len() / 3).min(most);
        loop {
            let mut room = Room::new(self, points);
            match calls::preview(self.lent(), &view, threshold, any, any, room.lent()) {
                Ok(counts) => return Ok((room, counts)),
                Err(13) if points < most => points = (2 * points).clamp(1, most),
                Err(number) => return Err(Refused(number)),
            }
        }
    }

    /// The drawn entries, in the order in which they are drawn.
    pub fn drawn(&self) -> Result<Vec<Entry>, Refused> {
        let (mut inverses, mut boxes) = (Box::new([0.0; 16384]), Box::new([0.0; 6144]));
        let mut drawn = Box::new([0; 1024]);
        let count = calls::check(self.lent(), &mut inverses, &mut boxes, &mut drawn);
        Ok(drawn[..count.map_err(Refused)?]
            .iter()
            .map(|&entry| Entry(entry))
            .collect())
    }

    /// The drawing of the drawn entries number `first`, `first + 1` and so on alone, `many` of them as far as there are any,
    /// while all solids hide. The drawings of consecutive ranges, one after the other, are that of `draw_with`, bit for bit.
    /// It has small places at first, which double while they do not suffice: a call clears all that it is lent.
    pub fn draw_range(
        &self,
        view: &View,
        threshold: f64,
        most: usize,
        first: usize,
        many: usize,
    ) -> Result<Drawing, Refused> {
        let view = view.numbers();
        let mut points = FEW_POINTS.max(A_PART * many.min(self.entries())).min(most);
        loop {
            let mut room = Room::new(self, points);
            let (mut out, mut starts) = (vec![[0.0; 3]; points], vec![0; points]);
            let flat = out.as_flattened_mut();
            let asked = (first, many);
            match calls::draw_range(
                self.lent(),
                &view,
                threshold,
                asked,
                flat,
                &mut starts,
                room.lent(),
            ) {
                Ok((n, m)) => {
                    out.truncate(n);
                    starts.truncate(m);
                    return Ok(Drawing {
                        points: out,
                        starts,
                    });
                }
                Err(13) if points < most => points = (2 * points).clamp(1, most),
                Err(number) => return Err(Refused(number)),
            }
        }
    }

    /// The drawing of each drawn entry by itself, in their order, by so many threads. One after the other they are the
    /// drawing of `draw_with`, bit for bit ([`Drawing::followed`]). The refusal is that of the first entry that meets one.
    pub fn draw_parts(
        &self,
        view: &View,
        threshold: f64,
        most: usize,
        threads: usize,
    ) -> Result<Vec<Drawing>, Refused> {
        let drawn = self.drawn()?.len();
        let mut made = self.by_ranges(view, threshold, most, drawn, threads)?;
        made.truncate(drawn); // a scene of nothing has a range of nothing
        Ok(made)
    }

    /// The drawing of `draw_with`, bit for bit, by so many threads. Each takes some ranges of drawn entries, which make the
    /// check and the tree of the scene anew.
    pub fn draw_threaded(
        &self,
        view: &View,
        threshold: f64,
        most: usize,
        threads: usize,
    ) -> Result<Drawing, Refused> {
        let made = self.by_ranges(view, threshold, most, RANGES * threads.max(1), threads)?;
        Ok(Drawing::followed(&made))
    }

    fn by_ranges(
        &self,
        view: &View,
        threshold: f64,
        most: usize,
        ranges: usize,
        threads: usize,
    ) -> Result<Vec<Drawing>, Refused> {
        let (drawn, ranges) = (self.drawn()?.len(), ranges.max(1));
        let edge = |k: usize| drawn * k / ranges;
        let (next, end) = (AtomicUsize::new(0), AtomicUsize::new(ranges));
        let made: Vec<OnceLock<Result<Drawing, Refused>>> =
            (0..ranges).map(|_| OnceLock::new()).collect();
        let work = || loop {
            let k = next.fetch_add(1, Ordering::Relaxed);
            // ranges after one that is refused are not begun; all before it are
            if k >= end.load(Ordering::Relaxed) {
                break;
            }
            let one = self.draw_range(view, threshold, most, edge(k), edge(k + 1) - edge(k));
            if one.is_err() {
                end.fetch_min(k, Ordering::Relaxed);
            }
            let _ = made[k].set(one);
        };
        thread::scope(|scope| {
            for _ in 1..threads.min(ranges) {
                scope.spawn(work);
            }
            work();
        });
        made.into_iter().map_while(OnceLock::into_inner).collect()
    }

    /// The lines of one drawn entry, by its number among those, as a draw puts them to the clip and the eye test, in the
    /// scene's coordinates.
    pub fn entry_lines(&self, view: &View, most: usize, number: usize) -> Result<Drawing, Refused> {
        let view = view.numbers();
        let mut points = FEW_POINTS.min(most);
        loop {
            let mut room = Room::new(self, points);
            let (mut out, mut starts) = (vec![[0.0; 3]; points], vec![0; points]);
            let (work, work_starts) = (&mut room.work, &mut room.work_starts);
            let (flat, asked) = (out.as_flattened_mut(), (number, 1));
            match calls::entry_lines(
                self.lent(),
                &view,
                asked,
                flat,
                &mut starts,
                work,
                work_starts,
            ) {
                Ok((n, m)) => {
                    out.truncate(n);
                    starts.truncate(m);
                    return Ok(Drawing {
                        points: out,
                        starts,
                    });
                }
                Err(13) if points < most => points = (2 * points).clamp(1, most),
                Err(number) => return Err(Refused(number)),
            }
        }
    }

    /// One scene of two: this one's entries, then the other's. Either must be one that the library accepts, and they
    /// may have 1,024 entries together.
    pub fn merge(&self, other: &Scene) -> Result<Scene, Refused> {
        let mut made = Scene {
            numbers: vec![0.0; self.numbers.len() + other.numbers.len()],
            marks: vec![0; self.marks.len() + other.marks.len()],
            points: vec![0.0; self.points.len() + other.points.len()],
            starts: vec![0; self.starts.len() + other.starts.len()],
            owners: vec![0; self.owners.len() + other.owners.len()],
        };
        let out = calls::MergedSlices {
            numbers: &mut made.numbers,
            marks: &mut made.marks,
            points: &mut made.points,
            starts: &mut made.starts,
            owners: &mut made.owners,
        };
        calls::merge(self.lent(), other.lent(), out).map_err(Refused)?;
        Ok(made)
    }

    /// The tree of the scene, for questions.
    pub fn tree(&self) -> Result<Tree<'_>, Refused> {
        let nodes = nodes(self);
        let (mut boxes, mut marks, mut order) =
            (vec![0.0; 6 * nodes], vec![0; 3 * nodes], vec![0; nodes]);
        calls::build(self.lent(), &mut boxes, &mut marks, &mut order).map_err(Refused)?;
        Ok(Tree {
            scene: self,
            boxes,
            marks,
            order,
        })
    }
}

/// What a draw works in, with room for so many points.
struct Room {
    work: Vec<f64>,
    work_starts: Vec<usize>,
    chopped: Vec<f64>,
    chopped_starts: Vec<usize>,
    node_boxes: Vec<f64>,
    node_marks: Vec<u32>,
    order: Vec<u32>,
}

impl Room {
    fn new(scene: &Scene, points: usize) -> Room {
        let nodes = nodes(scene);
        Room {
            work: vec![0.0; 8 * 3 * points],
            work_starts: vec![0; 8 * points],
            chopped: vec![0.0; 3 * points],
            chopped_starts: vec![0; points],
            node_boxes: vec![0.0; 6 * nodes],
            node_marks: vec![0; 3 * nodes],
            order: vec![0; nodes],
        }
    }

    fn lent(&mut self) -> calls::Work<'_> {
        calls::Work {
            work: &mut self.work,
            work_starts: &mut self.work_starts,
            chopped: &mut self.chopped,
            chopped_starts: &mut self.chopped_starts,
            node_boxes: &mut self.node_boxes,
            node_marks: &mut self.node_marks,
            order: &mut self.order,
        }
    }
}

/// The places of a tree with a leaf an entry.
fn nodes(scene: &Scene) -> usize {
    2 * scene.entries() + 1
}

/// The tree that the library built of a scene, which stays as it is while questions are put.
#[derive(Clone, Debug)]
pub struct Tree<'a> {
    scene: &'a Scene,
    boxes: Vec<f64>,
    marks: Vec<u32>,
    order: Vec<u32>,
}

impl Tree<'_> {
    fn lent(&self) -> calls::Tree<'_> {
        calls::Tree {
            node_boxes: &self.boxes,
            node_marks: &self.marks,
            order: &self.order,
        }
    }

    /// Whether the eye sees a point past the solids.
    pub fn visible(&self, eye: [f64; 3], point: [f64; 3]) -> Result<bool, Refused> {
        calls::visible(self.scene.lent(), self.lent(), &eye, &point).map_err(Refused)
    }

    /// The drawn entry that hides a point from the eye; none where it is visible.
    pub fn why_hidden(&self, eye: [f64; 3], point: [f64; 3]) -> Result<Option<Entry>, Refused> {
        let found =
            calls::occluder(self.scene.lent(), self.lent(), &eye, &point).map_err(Refused)?;
        Ok(found.map(Entry))
    }

    /// The drawn entry that a ray meets first, and how far off.
    pub fn first_met(
        &self,
        origin: [f64; 3],
        way: [f64; 3],
    ) -> Result<Option<(Entry, f64)>, Refused> {
        let ([a, b, c], [x, y, z]) = (origin, way);
        let (t, ok, entry) = calls::intersect(self.scene.lent(), self.lent(), &[a, b, c, x, y, z])
            .map_err(Refused)?;
        Ok(entry.filter(|_| ok).map(|entry| (Entry(entry), t)))
    }

    /// Of many points at once what becomes of each at the clip and eye test of a draw by this view.
    pub fn fates(&self, view: &View, points: &[[f64; 3]]) -> Result<Vec<Fate>, Refused> {
        let mut told = vec![0; points.len()];
        calls::fates(
            self.scene.lent(),
            self.lent(),
            &view.numbers(),
            points.as_flattened(),
            &mut told,
        )
        .map_err(Refused)?;
        Ok(told.into_iter().map(Fate::of).collect())
    }

    /// Of many points at once whether a solid covers each, or the point's own refusal, 9, 11 or 12.
    pub fn covered(
        &self,
        eye: [f64; 3],
        points: &[[f64; 3]],
    ) -> Result<Vec<Result<bool, Refused>>, Refused> {
        let mut told = vec![0; points.len()];
        calls::covered_all(
            self.scene.lent(),
            self.lent(),
            &eye,
            points.as_flattened(),
            &mut told,
        )
        .map_err(Refused)?;
        let answer = |byte| match byte {
            1 => Ok(false),
            2 => Ok(true),
            number => Err(Refused(number.into())),
        };
        Ok(told.into_iter().map(answer).collect())
    }
}
