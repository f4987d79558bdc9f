//! The calls on the tree of a scene, what they answer as words, and the oracle's own answers.

use crate::calls::alike;
use crate::core::{direct, lent, numbered};
use crate::host::{self, raw};
use crate::scene_calls::{Found, MOST, UNFILLED, Words, copy, number, put, put_floats, unfilled};
use crate::tree_inputs::{Build, Many, Rays};
use oracle::Scene;

/// The most nodes of a tree.
pub const NODES: usize = 2 * MOST - 1;

/// What a build fills.
pub struct Rows {
    pub node_boxes: Vec<f64>,
    pub node_marks: Vec<u32>,
    pub order: Vec<u32>,
    pub count: usize,
}

impl Rows {
    /// Slices of these lengths, with something in each place.
    pub fn new(node_boxes: usize, node_marks: usize, order: usize) -> Rows {
        let (node_boxes, node_marks) = (vec![UNFILLED; node_boxes], vec![7; node_marks]);
        Rows { node_boxes, node_marks, order: vec![7; order], count: 7 }
    }

    /// With room for every tree.
    pub fn ample() -> Rows {
        Rows::new(6 * NODES, 3 * NODES, MOST)
    }

    fn lent(&self) -> host::Tree<'_> {
        host::Tree {
            node_boxes: &self.node_boxes,
            node_marks: &self.node_marks,
            order: &self.order,
        }
    }
}

/// No entry: what a hit carries where no t became the best.
pub const NOBODY: u32 = u32::MAX;

/// The calls as host/larnt.h declares them; each answers 0 or the number of the refusal.
pub struct TreeCalls {
    pub build: fn(&Scene, &mut Rows) -> u32,
    pub intersect: fn(&Scene, &Rows, &[f64; 6], &mut f64, &mut bool, &mut u32) -> u32,
    pub visible: fn(&Scene, &Rows, &[f64; 3], &[f64; 3], &mut bool) -> u32,
    pub occluder: fn(&Scene, &Rows, &[f64; 3], &[f64; 3], &mut u32) -> u32,
    pub covered: fn(&Scene, &Rows, &[f64; 3], &[f64; 3], &mut bool) -> u32,
    pub covered_all: AllCall,
}

pub const CORE: TreeCalls = TreeCalls {
    build: core_build,
    intersect: core_intersect,
    visible: core_visible,
    occluder: core_occluder,
    covered: core_covered,
    covered_all: core_covered_all,
};

pub const HOST: TreeCalls = TreeCalls {
    build: host_build,
    intersect: host_intersect,
    visible: host_visible,
    occluder: host_occluder,
    covered: host_covered,
    covered_all: host_covered_all,
};

/// A direct call on a scene and its tree.
macro_rules! on_rows {
    ($call:ident, $s:ident, $rows:ident, $($more:expr),*) => {
        direct!(
            $call,
            $s,
            $rows.node_boxes.as_ptr(),
            $rows.node_boxes.len(),
            $rows.node_marks.as_ptr(),
            $rows.node_marks.len(),
            $rows.order.as_ptr(),
            $rows.order.len(),
            $($more),*
        )
    };
}

fn core_build(s: &Scene, rows: &mut Rows) -> u32 {
    let Rows { node_boxes, node_marks, order, count } = rows;
    direct!(
        larnt_build,
        s,
        node_boxes.as_mut_ptr(),
        node_boxes.len(),
        node_marks.as_mut_ptr(),
        node_marks.len(),
        order.as_mut_ptr(),
        order.len(),
        count
    )
}

fn core_intersect(
    s: &Scene,
    rows: &Rows,
    ray: &[f64; 6],
    t: &mut f64,
    ok: &mut bool,
    entry: &mut u32,
) -> u32 {
    on_rows!(larnt_intersect, s, rows, ray, t, ok, entry)
}

fn core_visible(s: &Scene, rows: &Rows, eye: &[f64; 3], point: &[f64; 3], seen: &mut bool) -> u32 {
    on_rows!(larnt_visible, s, rows, eye, point, seen)
}

fn core_occluder(s: &Scene, rows: &Rows, eye: &[f64; 3], point: &[f64; 3], entry: &mut u32) -> u32 {
    on_rows!(larnt_occluder, s, rows, eye, point, entry)
}

fn core_covered(s: &Scene, rows: &Rows, eye: &[f64; 3], point: &[f64; 3], seen: &mut bool) -> u32 {
    on_rows!(larnt_covered, s, rows, eye, point, seen)
}

fn core_covered_all(
    s: &Scene,
    rows: &Rows,
    eye: &[f64; 3],
    tested: &[f64],
    told: &mut [u8],
) -> u32 {
    let (points, bytes) = ((tested.as_ptr(), tested.len()), (told.as_mut_ptr(), told.len()));
    on_rows!(larnt_covered_all, s, rows, eye, points.0, points.1, bytes.0, bytes.1)
}

fn host_build(s: &Scene, rows: &mut Rows) -> u32 {
    let number;
    let built = host::build(lent(s), &mut rows.node_boxes, &mut rows.node_marks, &mut rows.order);
    (number, rows.count) = numbered(built);
    number
}

fn host_intersect(
    s: &Scene,
    rows: &Rows,
    ray: &[f64; 6],
    t: &mut f64,
    ok: &mut bool,
    entry: &mut u32,
) -> u32 {
    let number;
    let hit = host::intersect(lent(s), rows.lent(), ray);
    (number, (*t, *ok, *entry)) =
        numbered(hit.map(|(t, ok, entry)| (t, ok, entry.unwrap_or(NOBODY))));
    number
}

fn host_visible(s: &Scene, rows: &Rows, eye: &[f64; 3], point: &[f64; 3], seen: &mut bool) -> u32 {
    let number;
    (number, *seen) = numbered(host::visible(lent(s), rows.lent(), eye, point));
    number
}

fn host_occluder(s: &Scene, rows: &Rows, eye: &[f64; 3], point: &[f64; 3], entry: &mut u32) -> u32 {
    let number;
    let hider = host::occluder(lent(s), rows.lent(), eye, point);
    (number, *entry) = numbered(hider.map(|entry| entry.unwrap_or(NOBODY)));
    number
}

fn host_covered(s: &Scene, rows: &Rows, eye: &[f64; 3], point: &[f64; 3], seen: &mut bool) -> u32 {
    let number;
    (number, *seen) = numbered(host::covered(lent(s), rows.lent(), eye, point));
    number
}

fn host_covered_all(
    s: &Scene,
    rows: &Rows,
    eye: &[f64; 3],
    tested: &[f64],
    told: &mut [u8],
) -> u32 {
    numbered(host::covered_all(lent(s), rows.lent(), eye, tested, told)).0
}

/// The walks and the eye test of crate host_bench: on a scene that is checked already, with its inverses.
mod bench {
    #[link(name = "host_bench", kind = "static")]
    unsafe extern "C" {
        pub fn bench_intersect(
            numbers: *const f64,
            numbers_count: usize,
            inverses: *const f64,
            inverses_count: usize,
            marks: *const u32,
            marks_count: usize,
            node_boxes: *const f64,
            node_boxes_count: usize,
            node_marks: *const u32,
            node_marks_count: usize,
            order: *const u32,
            order_count: usize,
            ray: &[f64; 6],
            t: &mut f64,
            ok: &mut bool,
            entry: &mut u32,
        ) -> u32;
        pub fn bench_visible(
            numbers: *const f64,
            numbers_count: usize,
            inverses: *const f64,
            inverses_count: usize,
            marks: *const u32,
            marks_count: usize,
            node_boxes: *const f64,
            node_boxes_count: usize,
            node_marks: *const u32,
            node_marks_count: usize,
            order: *const u32,
            order_count: usize,
            eye: &[f64; 3],
            point: &[f64; 3],
            seen: &mut bool,
        ) -> u32;
        pub fn bench_covered(
            numbers: *const f64,
            numbers_count: usize,
            inverses: *const f64,
            inverses_count: usize,
            marks: *const u32,
            marks_count: usize,
            node_boxes: *const f64,
            node_boxes_count: usize,
            node_marks: *const u32,
            node_marks_count: usize,
            order: *const u32,
            order_count: usize,
            eye: &[f64; 3],
            point: &[f64; 3],
            seen: &mut bool,
        ) -> u32;
    }
}

/// A scene that is checked, and its tree.
pub struct Checked<'a> {
    pub scene: &'a Scene,
    pub found: Box<Found>,
    pub rows: Rows,
}

macro_rules! inner {
    ($call:ident, $c:ident, $($more:expr),*) => {
        unsafe {
            bench::$call(
                $c.scene.numbers.as_ptr(),
                $c.scene.numbers.len(),
                $c.found.inverses.as_ptr(),
                $c.found.inverses.len(),
                $c.scene.marks.as_ptr(),
                $c.scene.marks.len(),
                $c.rows.node_boxes.as_ptr(),
                $c.rows.node_boxes.len(),
                $c.rows.node_marks.as_ptr(),
                $c.rows.node_marks.len(),
                $c.rows.order.as_ptr(),
                $c.rows.order.len(),
                $($more),*
            )
        }
    };
}

impl Checked<'_> {
    /// By the core's calls; the number of the refusal if there is one.
    pub fn new(scene: &Scene) -> Result<Checked<'_>, u32> {
        let (mut found, mut rows) = (unfilled(), Rows::ample());
        let check = crate::core::CORE_SCENES.check;
        match check(scene, &mut found).max((CORE.build)(scene, &mut rows)) {
            0 => Ok(Checked { scene, found, rows }),
            number => Err(number),
        }
    }

    pub fn intersect(&self, ray: &[f64; 6], t: &mut f64, ok: &mut bool, entry: &mut u32) -> u32 {
        inner!(bench_intersect, self, ray, t, ok, entry)
    }

    pub fn visible(&self, eye: &[f64; 3], point: &[f64; 3], seen: &mut bool) -> u32 {
        inner!(bench_visible, self, eye, point, seen)
    }

    pub fn covered(&self, eye: &[f64; 3], point: &[f64; 3], seen: &mut bool) -> u32 {
        inner!(bench_covered, self, eye, point, seen)
    }
}

// Answers as words.

/// The answer, the count, then each slice: how much of it there is before zeros alone follow, and
/// that. NaNs are written alike; zeros too, among the results.
pub fn build(call: fn(&Scene, &mut Rows) -> u32, case: &Build) -> Words {
    let [node_boxes, node_marks, order] = case.lengths;
    let mut rows = Rows::new(node_boxes, node_marks, order);
    let number = call(&case.scene, &mut rows);
    let mut words = vec![u64::from(number), rows.count as u64];
    put_floats(&mut words, &rows.node_boxes, 6 * rows.count);
    put(&mut words, rows.node_marks.len(), |k| u64::from(rows.node_marks[k]));
    put(&mut words, rows.order.len(), |k| u64::from(rows.order[k]));
    Words(words)
}

pub fn rust_build(scene: &Scene, rows: &mut Rows) -> u32 {
    let places = (rows.node_boxes.len() / 6).min(rows.node_marks.len() / 3);
    let answer = oracle::build(scene, places, rows.order.len());
    rows.node_boxes.fill(0.0);
    rows.node_marks.fill(0);
    rows.order.fill(0);
    rows.count = 0;
    if let Ok(built) = &answer {
        copy(&mut rows.node_boxes, &built.boxes);
        copy(&mut rows.node_marks, &built.marks);
        copy(&mut rows.order, &built.order);
        rows.count = built.marks.len() / 3;
    }
    number(&answer)
}

/// The answer of many points, then the slice of bytes.
pub fn covered_all(call: AllCall, case: &Many) -> Words {
    let mut rows = Rows::ample();
    (CORE.build)(&case.scene, &mut rows);
    let mut told = vec![7; case.room];
    let number = call(&case.scene, &rows, &case.eye, &case.tested, &mut told);
    let mut words = vec![u64::from(number)];
    put(&mut words, told.len(), |k| u64::from(told[k]));
    Words(words)
}

/// A call on many points.
pub type AllCall = fn(&Scene, &Rows, &[f64; 3], &[f64], &mut [u8]) -> u32;

pub fn rust_covered_all(case: &Many) -> Words {
    let answers = rust_bytes(case);
    let number = number(&answers);
    let bytes = answers.unwrap_or_default();
    let mut words = vec![u64::from(number)];
    put(&mut words, bytes.len(), |k| u64::from(bytes[k]));
    Words(words)
}

fn rust_bytes(case: &Many) -> oracle::Answer<Vec<u8>> {
    let refused = |number| Err(oracle::Trouble::Refused(number));
    if case.tested.len() % 3 != 0 {
        return refused(2);
    }
    let entries = oracle::accepted(&case.scene)?;
    oracle::check::measures(&case.eye)?;
    if case.room < case.tested.len() / 3 {
        return refused(13);
    }
    let tree = oracle::tree(&entries);
    let byte = |point: &[f64]| {
        let answer = oracle::covered_built(&tree, case.eye, point.try_into().unwrap());
        match answer {
            Ok(true) => 1,
            Ok(false) => 2,
            _ => number(&answer) as u8,
        }
    };
    Ok(case.tested.chunks(3).map(byte).collect())
}

/// Number, t and ok, or number and seen.
pub type Told = [u64; 3];

fn told_hit(number: u32, t: f64, ok: bool) -> Told {
    let t = if number == 0 { alike(t) } else { t.to_bits() };
    [u64::from(number), t, u64::from(ok)]
}

fn told_sight(number: u32, seen: bool) -> Told {
    [u64::from(number), u64::from(seen), 0]
}

/// The number of a refusal, and zeros.
pub fn refused<const N: usize>(number: u32) -> [u64; N] {
    std::array::from_fn(|k| if k == 0 { u64::from(number) } else { 0 })
}

pub fn eye_and_point(asked: &[f64; 6]) -> (&[f64; 3], &[f64; 3]) {
    (asked.first_chunk().unwrap(), asked.last_chunk().unwrap())
}

/// The public calls, directly and as a host in Rust makes them, in turn.
pub fn core_hits(case: &Rays) -> Vec<Told> {
    by_calls(case, |calls, rows, k, asked| {
        let (mut t, mut ok, mut entry) = (UNFILLED, k % 4 < 2, 7);
        let number = (calls.intersect)(&case.scene, rows, asked, &mut t, &mut ok, &mut entry);
        told_hit(number, t, ok)
    })
}

pub fn core_sights(case: &Rays) -> Vec<Told> {
    core_eye_tests(case, |calls| calls.visible)
}

pub fn core_covers(case: &Rays) -> Vec<Told> {
    core_eye_tests(case, |calls| calls.covered)
}

/// A call that asks whether the eye sees a point.
type EyeTest = fn(&Scene, &Rows, &[f64; 3], &[f64; 3], &mut bool) -> u32;

fn core_eye_tests(case: &Rays, which: fn(&TreeCalls) -> EyeTest) -> Vec<Told> {
    by_calls(case, |calls, rows, k, asked| {
        let mut seen = k % 4 < 2;
        let (eye, point) = eye_and_point(asked);
        let number = which(calls)(&case.scene, rows, eye, point, &mut seen);
        told_sight(number, seen)
    })
}

pub fn by_calls<T>(case: &Rays, one: impl Fn(&TreeCalls, &Rows, usize, &[f64; 6]) -> T) -> Vec<T> {
    let mut rows = Rows::ample();
    (CORE.build)(&case.scene, &mut rows);
    let asked = case.asked.iter().enumerate();
    asked.map(|(k, a)| one(if k % 2 == 0 { &CORE } else { &HOST }, &rows, k, a)).collect()
}

/// The inner walk, where nothing is refused before it.
pub fn inner_hits(case: &Rays) -> Vec<Told> {
    inner(case, |checked, k, asked| {
        if oracle::check::measures(asked).is_err() {
            return told_hit(8, 0.0, false);
        }
        let (mut t, mut ok, mut entry) = (UNFILLED, k % 4 < 2, 7);
        let number = checked.intersect(asked, &mut t, &mut ok, &mut entry);
        told_hit(number, t, ok)
    })
}

pub fn inner_sights(case: &Rays) -> Vec<Told> {
    inner_eye_tests(case, |checked, eye, point, seen| checked.visible(eye, point, seen))
}

pub fn inner_covers(case: &Rays) -> Vec<Told> {
    inner_eye_tests(case, |checked, eye, point, seen| checked.covered(eye, point, seen))
}

/// A call that asks the same of a scene that is checked already.
type InnerTest = fn(&Checked<'_>, &[f64; 3], &[f64; 3], &mut bool) -> u32;

fn inner_eye_tests(case: &Rays, which: InnerTest) -> Vec<Told> {
    inner(case, |checked, k, asked| {
        let (eye, point) = eye_and_point(asked);
        if oracle::check::measures(eye).is_err() {
            return told_sight(8, false);
        }
        if oracle::check::measures(point).is_err() {
            return told_sight(9, false);
        }
        let mut seen = k % 4 < 2;
        let number = which(checked, eye, point, &mut seen);
        told_sight(number, seen)
    })
}

pub fn inner<const N: usize>(
    case: &Rays,
    one: impl Fn(&Checked, usize, &[f64; 6]) -> [u64; N],
) -> Vec<[u64; N]> {
    match Checked::new(&case.scene) {
        Err(number) => vec![refused(number); case.asked.len()],
        Ok(checked) => {
            case.asked.iter().enumerate().map(|(k, asked)| one(&checked, k, asked)).collect()
        }
    }
}

pub fn rust_hits(case: &Rays) -> Vec<Told> {
    rust(case, |tree, asked| {
        let answer = oracle::intersect_built(tree, *asked);
        let (t, ok) = answer.as_ref().map_or((0.0, false), |hit| (hit.t, hit.ok));
        told_hit(number(&answer), t, ok)
    })
}

pub fn rust_sights(case: &Rays) -> Vec<Told> {
    rust(case, |tree, asked| {
        let (eye, point) = eye_and_point(asked);
        // 9 precedes the test for a length of 0
        let answer = oracle::visible_built(tree, *eye, *point);
        told_sight(number(&answer), answer.unwrap_or(false))
    })
}

/// The same by the walk that stops; `behind` is told each 11 or 12 that the full walk meets only after a cover.
pub fn rust_covers(case: &Rays, behind: &dyn Fn(u32)) -> Vec<Told> {
    rust(case, |tree, asked| {
        let (eye, point) = eye_and_point(asked);
        let answer = oracle::covered_built(tree, *eye, *point);
        if answer == Ok(false) {
            behind(number(&oracle::visible_built(tree, *eye, *point)));
        }
        told_sight(number(&answer), answer.unwrap_or(false))
    })
}

fn rust(
    case: &Rays,
    one: impl Fn(&oracle::larnt_limited::tree::Tree<oracle::limited::Drawn>, &[f64; 6]) -> Told,
) -> Vec<Told> {
    match oracle::accepted(&case.scene) {
        Err(trouble) => vec![refused(number::<()>(&Err(trouble))); case.asked.len()],
        Ok(entries) => {
            let tree = oracle::tree(&entries);
            case.asked.iter().map(|asked| one(&tree, asked)).collect()
        }
    }
}
