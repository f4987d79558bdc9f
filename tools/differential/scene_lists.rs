//! Writes the records that crates/test_scenes replays: hand-made scenes, then seeded ones.
//!
//!     scene_lists FOLDER    writes FOLDER/stdin and FOLDER/stdout

// the driver uses the rest of these
#[allow(dead_code)]
mod calls;
#[allow(dead_code)]
mod harness;
#[allow(dead_code)]
mod inputs;
#[allow(dead_code)]
mod scene_calls;
#[allow(dead_code)]
mod scene_inputs;

use calls::NAN;
use oracle::Scene;
use oracle::generate::Rng;
use scene_calls::{RUST, unfilled};
use scene_inputs::Case;

/// The words of a record; the program has places for 64 records.
const WORDS: usize = 256;
const MOST: usize = 64;

type Record = [u64; WORDS];

/// What is asked of a scene.
#[derive(Clone, Copy)]
struct Asked {
    i: usize,
    ray: [f64; 6],
    point: [f64; 3],
    f: f64,
}

/// What the three calls answer: the numbers, t and ok, inside.
#[derive(Clone, Copy, Debug)]
struct Answers {
    check: u32,
    hit: (u32, f64, bool),
    contains: (u32, bool),
}

#[derive(Default)]
struct List {
    records: Vec<Record>,
}

impl List {
    fn add(&mut self, scene: &Scene, asked: Asked) -> Answers {
        let (record, answers) = record(scene, asked);
        if !self.records.contains(&record) {
            self.records.push(record);
        }
        answers
    }

    /// Expects this number of all three calls, or 0.
    fn number(&mut self, what: &str, scene: &Scene, number: u32) {
        let a = self.add(scene, Asked { i: scene.entries().saturating_sub(1), ..DOWN });
        assert_eq!((a.check, a.hit.0, a.contains.0), (number, number, number), "{what}");
    }

    /// Expects what `right` takes of the hit.
    fn hit(
        &mut self,
        what: &str,
        scene: &Scene,
        ray: [f64; 6],
        right: impl Fn(u32, f64, bool) -> bool,
    ) {
        let a = self.add(scene, Asked { i: scene.entries() - 1, ray, ..DOWN });
        assert_eq!(a.check, 0, "{what}");
        assert!(right(a.hit.0, a.hit.1, a.hit.2), "{what}: {a:?}");
    }

    /// Adds the first seeded cases that `wanted` takes.
    fn pick(
        &mut self,
        count: usize,
        make: impl Fn(&mut Rng) -> Case,
        wanted: impl Fn(&Scene, &Answers) -> bool,
    ) {
        let mut rng = Rng::new(1);
        let full = self.records.len() + count;
        for _ in 0..1_000_000 {
            if self.records.len() == full {
                return;
            }
            let Case { scene, i, asked } = make(&mut rng);
            let mut all = DOWN;
            all.i = i;
            for (place, x) in all.ray.iter_mut().zip(&asked) {
                *place = *x;
            }
            for (place, x) in all.point.iter_mut().chain([&mut all.f]).zip(&asked) {
                *place = *x;
            }
            if fits(&scene) && wanted(&scene, &record(&scene, all).1) {
                self.add(&scene, all);
            }
        }
    }

    fn write(&self, folder: &std::path::Path) -> std::io::Result<()> {
        let count = self.records.len();
        assert!(count <= MOST, "{count} records");
        let bytes: Vec<u8> =
            self.records.as_flattened().iter().flat_map(|w| w.to_be_bytes()).collect();
        std::fs::write(folder.join("stdin"), bytes)?;
        std::fs::write(folder.join("stdout"), format!("{count} scenes, 0 wrong\n"))
    }
}

/// Whether a record has places for the scene: a longer one is made of its first entries again.
fn fits(s: &Scene) -> bool {
    s.numbers.len() <= 144
        && s.marks.len() <= 36
        && s.points.len() <= 12
        && s.starts.len() <= 4
        && s.owners.len() <= 4
}

/// The record of a scene; what it has beyond the places is to be its first entries again.
fn record(scene: &Scene, asked: Asked) -> (Record, Answers) {
    let mut words = [0; WORDS];
    let s = scene;
    let lengths =
        [s.numbers.len(), s.marks.len(), s.points.len(), s.starts.len(), s.owners.len(), asked.i];
    put(&mut words[..6], lengths.map(|n| n as u64));
    put(
        &mut words[6..16],
        asked.ray.iter().chain(&asked.point).chain([&asked.f]).map(|x| bits(*x)),
    );
    put(&mut words[16..160], s.numbers.iter().map(|x| bits(*x)));
    put(&mut words[160..196], s.marks.iter().map(|m| u64::from(*m)));
    put(&mut words[196..208], s.points.iter().map(|x| bits(*x)));
    put(&mut words[208..212], s.starts.iter().map(|k| *k as u64));
    put(&mut words[212..216], s.owners.iter().map(|o| u64::from(*o)));
    let mut found = unfilled();
    let number = (RUST.check)(scene, &mut found);
    let row = asked.i % 1024;
    put(&mut words[216..218], [u64::from(number), found.count as u64]);
    put(&mut words[218..224], found.boxes[6 * row..].iter().map(|x| bits(*x)));
    put(&mut words[224..240], found.inverses[16 * row..].iter().map(|x| bits(*x)));
    let (mut t, mut ok, mut inside) = (0.0, false, false);
    let hit = (RUST.own_hit)(scene, asked.i, &asked.ray, &mut t, &mut ok);
    let contains = (RUST.own_contains)(scene, asked.i, &asked.point, asked.f, &mut inside);
    put(&mut words[240..243], [u64::from(hit), bits(t), u64::from(ok)]);
    put(&mut words[243..245], [u64::from(contains), u64::from(inside)]);
    words[245] = u64::from(found.drawn[row]);
    (words, Answers { check: number, hit: (hit, t, ok), contains: (contains, inside) })
}

fn put(places: &mut [u64], words: impl IntoIterator<Item = u64>) {
    for (place, word) in places.iter_mut().zip(words) {
        *place = word;
    }
}

/// Every NaN alike.
fn bits(x: f64) -> u64 {
    if x.is_nan() { NAN } else { x.to_bits() }
}

const DOWN: Asked =
    Asked { i: 0, ray: [0.0, 0.0, 5.0, 0.0, 0.0, -1.0], point: [0.25, 0.25, 0.25], f: 0.0 };

const IDENTITY: [f64; 16] =
    [1.0, 0.0, 0.0, 0.0, 0.0, 1.0, 0.0, 0.0, 0.0, 0.0, 1.0, 0.0, 0.0, 0.0, 0.0, 1.0];

fn stretched(by: [f64; 3]) -> [f64; 16] {
    let mut m = IDENTITY;
    (m[0], m[5], m[10]) = (by[0], by[1], by[2]);
    m
}

fn one(marks: [u32; 4], numbers: &[f64]) -> Scene {
    let mut scene = Scene::default();
    scene.push(marks, numbers);
    scene
}

fn sphere() -> Scene {
    one([1, 0, 0, 0], &[0.0, 0.0, 0.0, 1.0])
}

fn cube() -> Scene {
    one([4, 1, 0, 0], &[-1.0, -1.0, -1.0, 1.0, 1.0, 1.0])
}

/// So many entries: the same nine spheres over and over.
fn many(entries: usize) -> Scene {
    let mut scene = Scene::default();
    for i in 0..entries {
        scene.push([1, 0, 0, 0], &[(i % 9) as f64, 0.0, 0.0, 1.0]);
    }
    scene
}

/// A sphere in so many placings, one in another.
fn chain(placings: usize) -> Scene {
    let mut scene = sphere();
    for part in 0..placings {
        scene.push([6, 0, part as u32, 0], &IDENTITY);
    }
    scene
}

/// A sphere in a placing.
fn placed(m: [f64; 16]) -> Scene {
    let mut scene = sphere();
    scene.push([6, 0, 0, 0], &m);
    scene
}

/// That cube less the box (-0.5, -0.5, 0) to (0.5, 0.5, 2): document 01's cut.
fn document_cut() -> Scene {
    let mut scene = cube();
    scene.push([4, 1, 0, 0], &[-0.5, -0.5, 0.0, 0.5, 0.5, 2.0]);
    scene.push([7, 1, 0, 1], &[]);
    scene
}

/// The cube, cut by a sphere in a placing.
fn cut_with(m: [f64; 16]) -> Scene {
    let mut scene = cube();
    scene.push([1, 0, 0, 0], &[0.0, 0.0, 0.0, 1.0]);
    scene.push([6, 0, 1, 0], &m);
    scene.push([7, 1, 0, 2], &[]);
    scene
}

fn named(list: &mut List) {
    list.number("no entries", &Scene::default(), 0);
    list.number("1,024 entries", &many(1024), 0);
    list.number("1,025 entries", &many(1025), 2);
    list.number("depth 8", &chain(7), 0);
    list.number("depth 9", &chain(8), 4);
    let down = DOWN.ray;
    let near = |t: f64| (t - 0.99).abs() < 1e-9;
    list.hit("document 01's cut", &document_cut(), down, |n, t, ok| n == 0 && ok && near(t));
    // past all of it: the misses of a sphere that is half as large come back below INF
    let past = [2.0, 2.0, 5.0, 0.0, 0.0, -1.0];
    let shrunk = cut_with(stretched([0.5; 3]));
    list.hit("a miss through a shrunk placing in a cut", &shrunk, past, |n, t, ok| {
        (n, t, ok) == (11, 0.0, false)
    });
    list.hit("the same through a grown one", &cut_with(stretched([1.5; 3])), past, |n, _, _| {
        n == 0
    });
    let mut alone = sphere();
    alone.push([6, 0, 0, 0], &stretched([0.5; 3]));
    list.hit("a miss through a shrunk placing alone", &alone, past, |n, t, ok| {
        (n, t, ok) == (0, 0.5e9, false)
    });
    list.hit("down on a lid", &one([8, 0, 0, 0], &[1.0, -1.0, 1.0]), down, |n, t, ok| {
        (n, t, ok) == (0, 4.0, true)
    });
    // z and w exchanged: the inverse takes a ray along z to 0
    let mut swapped = IDENTITY;
    (swapped[10], swapped[11], swapped[14], swapped[15]) = (0.0, 1.0, 1.0, 0.0);
    list.hit("scale 0", &placed(swapped), down, |n, _, _| n == 0);
    list.hit("scale 0 in a cut", &cut_with(swapped), down, |_, _, _| true);
    let thin = stretched([1.0, 1.0, 1e-200]);
    list.hit("an infinite scale", &placed(thin), down, |n, t, ok| (n, t, ok) == (0, 0.0, false));
    list.hit("an infinite scale in a cut", &cut_with(thin), down, |_, _, _| true);
}

/// The farthest that 64 restarts reach, and a little farther: the misses of a sphere so small come back
/// as 0.01, so that the cut restarts every two centimetres.
fn restarts(list: &mut List) {
    let scene = cut_with(stretched([1e-11; 3]));
    let ray = |k: u32| [0.0, 0.0, 1.0 + f64::from(k) / 1024.0, 0.0, 0.0, -1.0];
    let refused = |k: &u32| record(&scene, Asked { i: 3, ray: ray(*k), ..DOWN }).1.hit.0 == 11;
    let first = (0..10_000).find(refused).expect("too far");
    list.hit("64 restarts", &scene, ray(first - 1), |n, _, _| n == 0);
    list.hit("a 65th", &scene, ray(first), |n, _, _| n == 11);
}

fn boundaries(list: &mut List) {
    let above = 1e6f64.next_up();
    let mut s = cube();
    s.numbers.push(0.0);
    list.number("a number too many", &s, 2);
    let mut s = cube();
    s.marks.pop();
    list.number("a mark too few", &s, 2);
    let mut s = sphere();
    s.push_line(0, &[[0.0; 3], [1.0; 3]]);
    list.number("a line", &s, 0);
    s.owners.push(0);
    list.number("an owner too many", &s, 2);
    s.starts.push(2);
    list.number("a second path without points", &s, 0);
    s.starts[1] = 3;
    list.number("a start beyond the points", &s, 4);
    s.points.push(0.0);
    list.number("a third of a point", &s, 2);
    for (what, owners, starts) in [
        ("owners that fall", [1, 0], [0, 1]),
        ("a first start that isn't 0", [0, 1], [1, 1]),
        ("a start far beyond the points", [0, 0], [0, usize::MAX]),
    ] {
        let mut s = many(2);
        (s.owners, s.starts, s.points) = (owners.to_vec(), starts.to_vec(), vec![0.5; 6]);
        list.number(what, &s, 4);
    }
    let mut s = cube();
    s.push_line(0, &[[0.0; 3]]);
    list.number("a cube as owner", &s, 4);
    let mut s = one([9, 360, 0, 0], &[1.0, 2.0]);
    s.push_line(0, &[[0.0; 3]]);
    list.number("a closed cone as owner", &s, 0);
    list.number("361 stripes of a closed tube", &one([8, 361, 0, 0], &[1.0, 0.0, 1.0]), 14);
    list.number("stripes 0", &one([4, 0, 0, 0], &[0.0; 6]), 3);
    list.number("stripes 1,000", &one([4, 1000, 0, 0], &[0.0; 6]), 0);
    list.number("kind 10", &one([10, 0, 0, 0], &[]), 3);
    list.number("360 stripes", &one([2, 360, 0, 0], &[1.0, 0.0, 1.0]), 0);
    list.number("361 stripes", &one([3, 361, 0, 0], &[1.0, 1.0]), 14);
    let mut s = one([2, u32::MAX, 0, 0], &[1.0, 0.0, 1.0]);
    s.push([6, 0, 1, 0], &IDENTITY);
    list.number("14 before 4", &s, 14);
    s.push([4, 0, 0, 0], &[]);
    list.number("3 before 14", &s, 3);
    let mut s = many(2);
    s.push([7, 0, 0, 0], &[]);
    list.number("both parts one entry", &s, 4);
    let mut s = placed(IDENTITY);
    s.push([6, 0, 0, 0], &IDENTITY);
    list.number("named twice", &s, 4);
    let mut s = sphere();
    s.push([6, 0, 1, 0], &IDENTITY);
    list.number("a part of itself", &s, 4);
    let mut s = chain(6);
    s.push([1, 0, 0, 0], &[0.0, 0.0, 0.0, 2.0]);
    s.push([7, 0, 7, 6], &[]);
    list.number("depth 8 in a second part", &s, 0);
    list.number("radius of exactly 1,000,000", &one([2, 0, 0, 0], &[1e6, 0.0, 1.0]), 0);
    list.number("radius above 1,000,000", &one([2, 0, 0, 0], &[above, 0.0, 1.0]), 5);
    list.number("radius -0", &one([1, 0, 0, 0], &[0.0, 0.0, 0.0, -0.0]), 0);
    list.number("height -0", &one([3, 0, 0, 0], &[1.0, -0.0]), 5);
    list.number("determinant 0", &placed(stretched([1.0, 0.0, 1.0])), 6);
    list.number("determinant -0", &placed(stretched([1.0, 1.0, -0.0])), 6);
    list.number("an infinite inverse", &placed(stretched([5e-324, 1.0, 1.0])), 6);
    list.number("a box at 1,000,000", &one([1, 0, 0, 0], &[999_999.0, 0.0, 0.0, 1.0]), 0);
    list.number("a box beyond", &one([1, 0, 0, 0], &[999_999.5, 0.0, 0.0, 1.0]), 7);
    let far = Asked { ray: [0.0, 0.0, above, 0.0, 0.0, -1.0], ..DOWN };
    let a = list.add(&cube(), far);
    assert_eq!((a.check, a.hit.0, a.contains.0), (0, 8, 0), "a ray beyond 1,000,000");
    let beyond = list.add(&cube(), Asked { i: 1, ..DOWN });
    assert_eq!(beyond.hit, (0, 1e9, false), "an entry that isn't there");
}

fn main() -> std::io::Result<()> {
    let folder = std::env::args().nth(1).expect("usage: scene_lists FOLDER");
    let mut list = List::default();
    named(&mut list);
    restarts(&mut list);
    boundaries(&mut list);
    let deep = |s: &Scene| s.entries() > 4;
    let closed = scene_inputs::has_lids;
    list.pick(2, scene_inputs::hit, |s, a| deep(s) && !closed(s) && a.hit.0 == 0 && a.hit.2);
    list.pick(2, scene_inputs::hit, |s, a| deep(s) && closed(s) && a.hit.0 == 0 && a.hit.2);
    list.pick(3, scene_inputs::hit, |s, a| deep(s) && a.hit.0 == 0 && !a.hit.2 && a.hit.1 != 1e9);
    list.pick(2, scene_inputs::hit, |s, a| deep(s) && a.hit.0 == 11);
    list.pick(2, scene_inputs::contains, |s, a| deep(s) && !closed(s) && a.contains.1);
    list.pick(2, scene_inputs::contains, |s, a| deep(s) && closed(s) && a.contains.1);
    list.write(std::path::Path::new(&folder))?;
    println!("lists: {} scenes", list.records.len());
    Ok(())
}
