//! Demand 3 on hiding, by brute force through the compiled library: for each eye and point, every
//! solid's own box and own returned distance, against the eye test; the same for the points of draws.

use crate::core::CORE_SCENES;
use crate::draw_inputs;
use crate::draws;
use crate::harness::{Shown, name_hash};
use crate::host::raw::larnt_box_test;
use crate::names::eye_ray;
use crate::scene_calls::{Found, unfilled};
use crate::tree_calls::{CORE, NOBODY, Rows};
use crate::tree_inputs::{self, Rays};
use crate::trees::length;
use oracle::check::parts;
use oracle::generate::Rng;
use oracle::larnt_plain::filter::ClipFilter;
use oracle::larnt_plain::matrix::Matrix;
use oracle::larnt_plain::path::Paths;
use oracle::larnt_plain::shape::Shape;
use oracle::larnt_plain::vector::Vector;
use oracle::outlines::with_outlines;
use oracle::{COARSE, Lines, Scene, Trouble, View, plain};
use std::cell::RefCell;

/// What is so of an eye and a point.
#[derive(Clone, Copy, Default)]
struct Truth {
    answered: bool,
    hidden: bool,
    /// Some solid covers the point, and which entry that is.
    covered: bool,
    by: usize,
    /// Some solid's own distance falls short.
    short: bool,
    apart: bool,
    minus_zero: bool,
    /// The calls that name an entry don't agree with the eye test and with that entry's own hit.
    misnamed: bool,
}

#[derive(Default)]
struct Tally {
    questions: u64,
    premise: u64,
    covered: u64,
    hidden: u64,
    seen: u64,
    refused: u64,
    /// Covered, the premise holds, and yet visible.
    lost: u64,
    /// Hidden, and no solid's own distance falls short.
    unfounded: u64,
    /// Covered, the premise holds, and the covering solid alone in a scene doesn't hide it.
    brought_back: u64,
    /// Covered and yet visible, where only a -0 breaks the premise; the smallest of them.
    excluded: u64,
    /// A name is wrong: see `misnamed`.
    misnamed: u64,
    smallest: Option<(u32, String)>,
}

/// Ends with whether the theorems hold and the premise on -0 is needed.
pub fn run(seed: u64, count: u64) -> bool {
    let mut rng = Rng::new(seed ^ name_hash("demand"));
    let mut tally = Tally::default();
    while tally.questions < count {
        let case = tree_inputs::sights(&mut rng);
        if case.scene.entries() <= 60 {
            put(&mut tally, &case);
        }
    }
    println!("questions                          {:>9}", tally.questions);
    println!("  refused                          {:>9}", tally.refused);
    println!("  visible                          {:>9}", tally.seen);
    println!("  hidden                           {:>9}", tally.hidden);
    println!("  covered, and the premise holds   {:>9}", tally.covered);
    println!("  the premise holds                {:>9}", tally.premise);
    println!("covered and premise, yet visible   {:>9}", tally.lost);
    println!("hidden, yet nothing falls short    {:>9}", tally.unfounded);
    println!("visible past the coverer alone     {:>9}", tally.brought_back);
    println!("named wrongly                      {:>9}", tally.misnamed);
    let known = known();
    let truth = truths(&known)[0];
    let found = truth.answered && truth.covered && !truth.hidden && truth.minus_zero;
    println!("with -0 admitted, covered yet visible {:>6}", tally.excluded);
    if let Some((_, text)) = &tally.smallest {
        println!("  the smallest: {text}");
    }
    println!("a box flat at x = 0 and one beside it, eye at x = -0: {}", known.text());
    println!("  covered {}, hidden {}", truth.covered, truth.hidden);
    let kept = tally.lost == 0 && tally.unfounded == 0 && tally.brought_back == 0;
    kept && tally.misnamed == 0 && found
}

/// The same for draws: larnt's `render`, which puts its points to the compiled eye test, must give the
/// compiled draw, and each point that is put is looked at by brute force.
pub fn draws(seed: u64, count: u64) -> bool {
    let mut rng = Rng::new(seed ^ name_hash("demand.draws"));
    let (mut tally, mut drawn, mut refused, mut differ) = (Tally::default(), 0, 0, 0);
    let mut omitted = 0;
    while drawn < count {
        let (scene, view) = draw_inputs::scene_and_view(&mut rng);
        if scene.entries() > 60 {
            continue;
        }
        let Some(lines) = draws::amply(&scene, &view) else {
            refused += 1;
            continue;
        };
        // where larnt's own render panics normalising `up` there is nothing to compare with
        let again = match oracle::caught(|| rendered(&mut tally, &scene, &view)) {
            Ok(lines) => lines,
            Err(Trouble::Panicked(text)) if text.contains("normalize") => {
                omitted += 1;
                continue;
            }
            Err(other) => panic!("{other:?}"),
        };
        drawn += 1;
        differ += u64::from(!draws::alike(&lines, &again));
    }
    println!("draws                              {drawn:>9}");
    println!("  others, refused                  {refused:>9}");
    println!("  others, omitted for `up`         {omitted:>9}");
    println!("  differ from their points' answers {differ:>8}");
    println!("points put to the eye test         {:>9}", tally.questions);
    println!("  passed                           {:>9}", tally.seen);
    println!("  dropped as hidden                {:>9}", tally.hidden);
    println!("  covered, and the premise holds   {:>9}", tally.covered);
    println!("  refused                          {:>9}", tally.refused);
    println!("covered and premise, yet passed    {:>9}", tally.lost);
    println!("dropped, yet nothing falls short   {:>9}", tally.unfounded);
    println!("named wrongly                      {:>9}", tally.misnamed);
    let kept = tally.lost == 0 && tally.unfounded == 0 && tally.misnamed == 0;
    differ == 0 && tally.refused == 0 && kept
}

/// `render` with the compiled eye test.
fn rendered(tally: &mut Tally, scene: &Scene, view: &View) -> Lines {
    let (mut found, mut rows) = (unfilled(), Rows::ample());
    (CORE_SCENES.check)(scene, &mut found);
    (CORE.build)(scene, &mut rows);
    let (entries, args) = (plain::entries(&with_outlines(scene, view)), plain::render_args(view));
    let mut paths = Paths::new();
    for solid in &entries.solids {
        paths.extend(solid.paths(&args));
    }
    if view.step > 0.0 {
        paths = paths.chop_adaptive(&args);
    }
    let tally = RefCell::new(tally);
    let visible = |eye: Vector, point: Vector| {
        let asked = [eye.x, eye.y, eye.z, point.x, point.y, point.z];
        let truth = truth(scene, &found, &rows, &asked);
        tally.borrow_mut().count(&truth);
        !truth.hidden
    };
    let matrix = plain::matrix(&view.matrix);
    paths = paths.filter(&ClipFilter::new(matrix, plain::vector(view.eye), visible));
    if view.step > 0.0 {
        paths = paths.simplify(COARSE);
    }
    let size = Vector::new(view.width / 2.0, view.height / 2.0, 1.0);
    let viewport = Matrix::translate(Vector::new(1.0, 1.0, 0.0)).scaled(size);
    plain::of_paths(paths.transform(&viewport))
}

impl Tally {
    /// One question more; whether the point is covered and the premise holds.
    fn count(&mut self, truth: &Truth) -> bool {
        self.questions += 1;
        if !truth.answered {
            self.refused += 1;
            return false;
        }
        let premise = truth.apart && !truth.minus_zero;
        let covered = truth.covered && premise;
        self.premise += u64::from(premise);
        self.hidden += u64::from(truth.hidden);
        self.seen += u64::from(!truth.hidden);
        self.covered += u64::from(covered);
        self.lost += u64::from(covered && !truth.hidden);
        self.unfounded += u64::from(truth.hidden && !truth.short);
        self.misnamed += u64::from(truth.misnamed);
        covered
    }
}

/// A box flat at x = 0 and one beside it; the eye at x = -0 above the point.
fn known() -> Rays {
    let mut scene = Scene::default();
    scene.push([4, 1, 0, 0], &[0.0, -1.0, 1.0, 0.0, 1.0, 2.0]);
    scene.push([4, 1, 0, 0], &[1.0, -1.0, 1.0, 2.0, 1.0, 2.0]);
    Rays { scene, asked: vec![[-0.0, 0.0, 5.0, 0.0, 0.0, 0.0]] }
}

fn put(tally: &mut Tally, case: &Rays) {
    for (k, truth) in truths(case).into_iter().enumerate() {
        if tally.count(&truth) {
            let scene = alone(&case.scene, truth.by);
            let again = truths(&Rays { scene, asked: vec![case.asked[k]] })[0];
            tally.brought_back += u64::from(!again.covered || !again.hidden);
        }
        if truth.covered && truth.apart && truth.minus_zero && !truth.hidden {
            tally.excluded += 1;
            let one = case.one(k);
            if tally.smallest.as_ref().is_none_or(|(least, _)| one.size() < *least) {
                tally.smallest = Some((one.size(), one.text()));
            }
        }
    }
}

/// The solid at an entry, with all others removed.
fn alone(scene: &Scene, i: usize) -> Scene {
    let mut kept = vec![false; i + 1];
    kept[i] = true;
    for k in (0..=i).rev() {
        if kept[k] {
            parts(scene.marks_of(k)).iter().for_each(|part| kept[*part as usize] = true);
        }
    }
    let mut alone = Scene::default();
    let mut moved = vec![0; i + 1];
    for k in (0..=i).filter(|k| kept[*k]) {
        let mut marks: [u32; 4] = scene.marks_of(k).try_into().unwrap();
        for place in 2..2 + parts(&marks).len() {
            marks[place] = moved[marks[place] as usize];
        }
        moved[k] = alone.push(marks, scene.numbers_of(k));
    }
    alone
}

fn truths(case: &Rays) -> Vec<Truth> {
    let (mut found, mut rows) = (unfilled(), Rows::ample());
    if (CORE_SCENES.check)(&case.scene, &mut found) != 0 {
        return vec![Truth::default(); case.asked.len()];
    }
    (CORE.build)(&case.scene, &mut rows);
    case.asked.iter().map(|asked| truth(&case.scene, &found, &rows, asked)).collect()
}

fn truth(scene: &Scene, found: &Found, rows: &Rows, asked: &[f64; 6]) -> Truth {
    let (eye, point) = (asked.first_chunk().unwrap(), asked.last_chunk().unwrap());
    let mut seen = false;
    let number = (CORE.visible)(scene, rows, eye, point, &mut seen);
    if number != 0 {
        return Truth::default();
    }
    let (distance, ray) = (length(asked), eye_ray(asked));
    let mut hider = 7;
    let number = (CORE.occluder)(scene, rows, eye, point, &mut hider);
    let mut truth = Truth {
        answered: true,
        hidden: !seen,
        apart: distance != 0.0,
        minus_zero: ray[3..].iter().any(|x| *x == 0.0 && x.is_sign_negative()),
        misnamed: number != 0 || seen != (hider == NOBODY),
        ..Truth::default()
    };
    if !truth.apart {
        return truth;
    }
    let nearest = nearest(scene, rows, &ray);
    // nobody is named until a solid is found that bears the name, or where none should
    let mut borne = nearest.entry == NOBODY && nearest.t == 1e9 && !nearest.ok;
    truth.misnamed |= !seen && hider != nearest.entry;
    for i in &found.drawn[..found.count] {
        let i = *i as usize;
        let (mut t, mut ok, mut span) = (0.0, false, [0.0; 2]);
        // a number other than 0 is 11: it has no distance then
        if (CORE_SCENES.own_hit)(scene, i, &ray, &mut t, &mut ok) != 0 {
            continue;
        }
        larnt_box_test(found.boxes[6 * i..6 * i + 6].try_into().unwrap(), &ray, &mut span);
        let [tmin, tmax] = span;
        let passes = !(tmax < tmin) && !(tmax <= 0.0);
        truth.short |= t < distance;
        if nearest.entry as usize == i {
            borne =
                t.to_bits() == nearest.t.to_bits() && ok == nearest.ok && (seen || t < distance);
        }
        // such a solid is tried, or something nearer was
        let tried = passes && tmin <= t && t < 1e9 && !truth.minus_zero;
        truth.misnamed |= tried && !(nearest.t <= t);
        if passes && tmin <= t && t < distance {
            (truth.covered, truth.by) = (true, i);
        }
    }
    truth.misnamed |= !borne;
    truth
}

/// The nearest hit of a ray, with its name.
struct Nearest {
    t: f64,
    ok: bool,
    entry: u32,
}

fn nearest(scene: &Scene, rows: &Rows, ray: &[f64; 6]) -> Nearest {
    let (mut t, mut ok, mut entry) = (0.0, false, 7);
    let number = (CORE.intersect)(scene, rows, ray, &mut t, &mut ok, &mut entry);
    assert_eq!(number, 0, "visible answered on this ray");
    Nearest { t, ok, entry }
}
