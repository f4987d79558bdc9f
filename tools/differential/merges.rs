//! Two scenes merged: `larnt_merge` against the oracle's second implementation, every slice to its last place;
//! and the draw of the merged scene against the Rust's draw of the solids of both.

use crate::core;
use crate::draw_inputs::{self, Lengths};
use crate::draws;
use crate::harness::{Run, Share, Shown, time_rounds};
use crate::host::{self, raw};
use crate::scene_calls::{Words, copy, number, put};
use crate::scene_inputs::{self, scene_text};
use oracle::generate::Rng;
use oracle::merge::{Sizes, draw_both, merge, sizes};
use oracle::{Answer, COARSE, Lines, Room, Scene, Trouble, View};
use std::cell::{Cell, RefCell};
use std::hint::black_box;

/// Two scenes, and how long the result slices are.
pub struct Pair {
    pub first: Scene,
    pub second: Scene,
    pub room: Sizes,
}

impl Shown for Pair {
    fn size(&self) -> u32 {
        let all = sizes(&self.first).into_iter().chain(sizes(&self.second)).chain(self.room);
        all.sum::<usize>() as u32
    }

    fn text(&self) -> String {
        let scenes = scene_text(&self.first) + &scene_text(&self.second);
        self.room.iter().fold(scenes, |text, n| text + &format!(" {n}"))
    }
}

/// The result slices, with something in each place, and the counts.
struct Lent {
    scene: Scene,
    counts: [usize; 3],
}

impl Lent {
    fn new(room: Sizes) -> Lent {
        let floats = |n: usize| -> Vec<f64> { (0..n).map(|i| [7.0, f64::NAN, -0.0][i % 3]).collect() };
        let marks = |n: usize| -> Vec<u32> { (0..n).map(|i| [7, u32::MAX, 1][i % 3]).collect() };
        let scene = Scene {
            numbers: floats(room[0]),
            marks: marks(room[1]),
            points: floats(room[2]),
            starts: (0..room[3]).map(|i| [7, usize::MAX, 1][i % 3]).collect(),
            owners: marks(room[4]),
        };
        Lent { scene, counts: [7; 3] }
    }

    /// The answer, the counts, then each slice; NaNs are written alike, zeros as they are.
    fn words(&self, number: u32) -> Words {
        let s = &self.scene;
        let mut words = vec![u64::from(number)];
        words.extend(self.counts.map(|n| n as u64));
        let bits = |x: f64| if x.is_nan() { f64::NAN.to_bits() } else { x.to_bits() };
        put(&mut words, s.numbers.len(), |k| bits(s.numbers[k]));
        put(&mut words, s.marks.len(), |k| u64::from(s.marks[k]));
        put(&mut words, s.points.len(), |k| bits(s.points[k]));
        put(&mut words, s.starts.len(), |k| s.starts[k] as u64);
        put(&mut words, s.owners.len(), |k| u64::from(s.owners[k]));
        Words(words)
    }
}

/// What must be there afterwards: the merged scene, then zeros.
fn rust_words(pair: &Pair) -> Words {
    let answer = merge(&pair.first, &pair.second, pair.room);
    let [n, m, p, s, o] = pair.room;
    let mut lent = Lent {
        scene: Scene {
            numbers: vec![0.0; n],
            marks: vec![0; m],
            points: vec![0.0; p],
            starts: vec![0; s],
            owners: vec![0; o],
        },
        counts: [0; 3],
    };
    if let Ok(merged) = &answer {
        copy(&mut lent.scene.numbers, &merged.numbers);
        copy(&mut lent.scene.marks, &merged.marks);
        copy(&mut lent.scene.points, &merged.points);
        copy(&mut lent.scene.starts, &merged.starts);
        copy(&mut lent.scene.owners, &merged.owners);
        lent.counts = [merged.entries(), merged.points.len() / 3, merged.starts.len()];
    }
    lent.words(number(&answer))
}

/// The call of the header.
fn core_merge(a: &Scene, b: &Scene, lent: &mut Lent) -> u32 {
    let (out, [entries, points, paths]) = (&mut lent.scene, &mut lent.counts);
    unsafe {
        raw::larnt_merge(
            a.numbers.as_ptr(),
            a.numbers.len(),
            a.marks.as_ptr(),
            a.marks.len(),
            a.points.as_ptr(),
            a.points.len(),
            a.starts.as_ptr(),
            a.starts.len(),
            a.owners.as_ptr(),
            a.owners.len(),
            b.numbers.as_ptr(),
            b.numbers.len(),
            b.marks.as_ptr(),
            b.marks.len(),
            b.points.as_ptr(),
            b.points.len(),
            b.starts.as_ptr(),
            b.starts.len(),
            b.owners.as_ptr(),
            b.owners.len(),
            out.numbers.as_mut_ptr(),
            out.numbers.len(),
            out.marks.as_mut_ptr(),
            out.marks.len(),
            out.points.as_mut_ptr(),
            out.points.len(),
            out.starts.as_mut_ptr(),
            out.starts.len(),
            out.owners.as_mut_ptr(),
            out.owners.len(),
            entries,
            points,
            paths,
        )
    }
}

/// The same through host/larnt.rs.
fn host_merge(a: &Scene, b: &Scene, lent: &mut Lent) -> u32 {
    let Scene { numbers, marks, points, starts, owners } = &mut lent.scene;
    let out = host::MergedSlices { numbers, marks, points, starts, owners };
    let result = host::merge(core::lent(a), core::lent(b), out);
    lent.counts = result.map_or([0; 3], |(entries, points, paths)| [entries, points, paths]);
    result.err().unwrap_or(0)
}

/// The core's answer, by either way.
fn core_words(pair: &Pair, call: fn(&Scene, &Scene, &mut Lent) -> u32) -> Words {
    let mut lent = Lent::new(pair.room);
    let number = call(&pair.first, &pair.second, &mut lent);
    lent.words(number)
}

/// A scene as the check takes it; now and then its points are without starts.
fn scene(rng: &mut Rng) -> Scene {
    let mut scene = scene_inputs::checked(rng).scene;
    if rng.chance(10) {
        scene.starts.clear();
        scene.owners.clear();
    }
    if rng.chance(40) && oracle::check(&scene).is_err() {
        return self::scene(rng);
    }
    scene
}

/// Spheres after a scene's entries, up to n entries.
fn grown(scene: &mut Scene, n: usize) {
    while scene.entries() < n && scene.numbers.len() == 16 * scene.entries() {
        let x = scene.entries() as f64;
        scene.push([1, 0, 0, 0], &[x, 0.0, 0.0, 1.0]);
    }
}

/// Two scenes with slices exactly full, one place short somewhere, longer, or of any length.
fn pair(rng: &mut Rng) -> Pair {
    let (mut first, mut second) = (scene(rng), scene(rng));
    if rng.chance(6) {
        // about as many entries together as there may be
        let all = rng.pick(&[1023, 1024, 1025, 1030]);
        let n = rng.pick(&[0, 1, 500, 1000, 1022, 1024, 1025]);
        grown(&mut first, n);
        let rest = all - first.entries().min(all);
        grown(&mut second, rest);
    }
    let endless = [usize::MAX; 5];
    let needed = merge(&first, &second, endless).map_or([64; 5], |merged| sizes(&merged));
    let taken: Vec<usize> = (0..5).filter(|k| needed[*k] > 0).collect();
    let room = match rng.below(10) {
        0..4 => needed,
        4..7 if !taken.is_empty() => {
            let mut room = if rng.chance(50) { needed } else { needed.map(|n| n + rng.below(9)) };
            let k = rng.pick(&taken);
            room[k] = needed[k] - 1;
            room
        }
        7 => needed.map(|n| rng.below(n + 2)),
        _ => needed.map(|n| n + rng.below(9)),
    };
    Pair { first, second, room }
}

/// Two accepted scenes, a view, slices that have room, and what the Rust draws of both.
struct Both {
    pair: Pair,
    view: View,
    lengths: Lengths,
    answer: Answer<Lines>,
}

impl Shown for Both {
    fn size(&self) -> u32 {
        self.pair.size()
    }

    fn text(&self) -> String {
        format!("{} {:?}", self.pair.text(), self.view)
    }
}

fn both(rng: &mut Rng, omitted: &Cell<u64>) -> Both {
    loop {
        let (first, view) = draw_inputs::scene_and_view(rng);
        let second = if rng.chance(50) {
            let (scale, pieces) = (rng.pick(&[1.0, 1.0, 0.004]), rng.pick(&[1, 2, 4]));
            draw_inputs::yard(rng, scale, pieces)
        } else {
            draw_inputs::scene_and_view(rng).0
        };
        let Ok(merged) = merge(&first, &second, [usize::MAX; 5]) else { continue };
        let room: Room = draw_inputs::ample(&merged);
        let answer = draw_both([&first, &second], &view, COARSE, room.clone());
        if matches!(answer, Err(Trouble::Omitted)) {
            omitted.set(omitted.get() + 1);
            continue;
        }
        let lengths = draw_inputs::exactly(&room);
        let room = sizes(&merged);
        return Both { pair: Pair { first, second, room }, view, lengths, answer };
    }
}

/// The core merges and draws what it merged.
fn core_draw(case: &Both) -> Words {
    let mut lent = Lent::new(case.pair.room);
    let number = core_merge(&case.pair.first, &case.pair.second, &mut lent);
    assert_eq!(number, 0, "two accepted scenes are merged");
    draws::core_words(&lent.scene, &case.view, &case.lengths)
}

pub fn compare(run: &mut Run) {
    let shares: &[Share<Pair, Words>] = &[
        ("merged", &|_, a| a.0[0] == 0),
        ("with parts in the second", &|case, a| {
            a.0[0] == 0 && case.second.marks.chunks(4).any(|m| m[0] == 6 || m[0] == 7)
        }),
        ("with lines in both", &|case, a| {
            a.0[0] == 0 && !case.first.starts.is_empty() && !case.second.starts.is_empty()
        }),
        ("points without starts", &|case, a| {
            let loose = |s: &Scene| s.starts.is_empty() && !s.points.is_empty();
            a.0[0] == 0 && (loose(&case.first) || loose(&case.second))
        }),
        ("both ill", &|case, _| {
            oracle::check(&case.first).is_err() && oracle::check(&case.second).is_err()
        }),
        ("2 of both", &|case, a| {
            a.0[0] == 2 && oracle::check(&case.first).is_ok() && oracle::check(&case.second).is_ok()
        }),
        ("13", &|_, a| a.0[0] == 13),
    ];
    let direct = |case: &Pair| core_words(case, core_merge);
    let through = |case: &Pair| core_words(case, host_merge);
    run.compare("merge", run.count.div_ceil(4), pair, rust_words, &[&direct, &through], shares);

    let shares: &[Share<Both, Words>] = &[
        ("drawn", &|_, a| a.0[0] == 0),
        ("with a path", &|_, a| a.0[0] == 0 && a.0[2] > 0),
        ("with a cut in the second", &|case, a| {
            a.0[0] == 0 && case.pair.second.marks.chunks(4).any(|m| m[0] == 7)
        }),
        ("with lines of the second", &|case, a| a.0[0] == 0 && !case.pair.second.starts.is_empty()),
    ];
    let omitted = Cell::new(0);
    let make = |rng: &mut Rng| both(rng, &omitted);
    let rust = |case: &Both| draws::rust_words(&case.lengths, &case.answer);
    run.compare("merge.draw", run.count.div_ceil(4), make, rust, &[&core_draw], shares);
    println!("(merge.draw: omitted {})", omitted.get());
}

pub fn speed() {
    let mut rng = Rng::new(1);
    let case = loop {
        let case = pair(&mut rng);
        let merged = merge(&case.first, &case.second, case.room);
        if merged.is_ok() && case.first.entries() + case.second.entries() >= 1000 {
            break case;
        }
    };
    let lent = RefCell::new(Lent::new(case.room));
    let rust = || {
        black_box(merge(black_box(&case.first), &case.second, case.room).is_ok());
    };
    let core = || {
        let number = core_merge(black_box(&case.first), &case.second, &mut lent.borrow_mut());
        assert_eq!(black_box(number), 0);
    };
    time_rounds("merge (1000)", 1, 100, rust, core);
}
