//! Checks the oracle: document 01's worked pieces, stripes, the boundaries of each refusal, and that the
//! limited build gives bit for bit what the plain one does wherever it answers.
//!
//!     selfcheck [SCENES] [SEED]
//!
//! Ends with a status other than 0 if anything differs or a refusal number never occurs.

mod pieces;

use oracle::check::any_inside;
use oracle::generate::{Case, case, places_of};
use oracle::outlines::{bare, with_outlines};
use oracle::requests::plain_checked;
use oracle::stripes::striped;
use oracle::{Answer, COARSE, Checked, FINE, Lines, Scene, Trouble, caught, plain, same_bits};
use pieces::number_of;
use std::collections::BTreeMap;

fn main() {
    let arguments: Vec<u64> =
        std::env::args().skip(1).map(|a| a.parse().expect("a whole number")).collect();
    let scenes = arguments.first().copied().unwrap_or(20_000);
    let seed = arguments.get(1).copied().unwrap_or(1);
    let good = oracle::with_stack(move || {
        let pieces = pieces::check_all();
        let tally = compare(scenes, seed);
        tally.print(scenes, seed);
        pieces.failed == 0 && tally.good()
    });
    std::process::exit(if good { 0 } else { 1 });
}

#[derive(Default)]
struct Tally {
    /// By call: how often each number was met, 0 for an answer.
    met: BTreeMap<&'static str, BTreeMap<u32, u64>>,
    omitted: u64,
    panics: u64,
    differences: u64,
    /// Of the answered draws: how many hold what.
    held: BTreeMap<&'static str, u64>,
    drawn_points: u64,
    put_points: u64,
    /// At step 0 no point is simplified away, so these are the ones that were hidden.
    hidden_points: u64,
    exact_rooms: u64,
}

/// Whether an entry of this kind stands somewhere inside an entry of that kind.
fn inside(scene: &Scene, kind: u32, outer: u32) -> bool {
    any_inside(scene, |i| scene.marks_of(i)[0] == kind, outer)
}

/// Whether some solid has stripes and handed-in lines too.
fn both(scene: &Scene) -> bool {
    let marks = scene.owners.iter().map(|owner| scene.marks_of(*owner as usize));
    marks.into_iter().any(|m| striped(m[0]) && m[1] > 0)
}

impl Tally {
    fn differs(&mut self, case: &Case, what: &str) {
        self.differences += 1;
        println!("DIFFERENCE: seed {} ({:?}): {what}", case.seed, case.family);
    }

    /// Counts an answer of the limited build and compares it with the plain one's.
    fn compare<A, B>(
        &mut self,
        case: &Case,
        call: &'static str,
        found: &Answer<A>,
        judge: impl FnOnce() -> B,
        same: impl FnOnce(&A, &B) -> bool,
    ) {
        let by_number = self.met.entry(call).or_default();
        match found {
            Ok(a) => {
                *by_number.entry(0).or_default() += 1;
                match caught(judge) {
                    Ok(b) => {
                        if !same(a, &b) {
                            self.differs(case, call);
                        }
                    }
                    Err(trouble) => self.differs(case, &format!("{call}: plain {trouble:?}")),
                }
            }
            Err(Trouble::Refused(number)) => *by_number.entry(*number).or_default() += 1,
            Err(Trouble::Omitted) => self.omitted += 1,
            Err(Trouble::Panicked(message)) => {
                self.panics += 1;
                println!("PANIC: seed {} ({:?}): {call}: {message}", case.seed, case.family);
            }
        }
    }

    fn count(&self, call: &str, number: u32) -> u64 {
        self.met.get(call).and_then(|m| m.get(&number)).copied().unwrap_or(0)
    }

    /// Refusals that never occurred in a draw; 10 is unused.
    fn missing(&self) -> Vec<u32> {
        (2..=14).filter(|n| *n != 10 && self.count("draw", *n) == 0).collect()
    }

    fn good(&self) -> bool {
        self.differences == 0 && self.panics == 0 && self.missing().is_empty()
    }

    fn print(&self, scenes: u64, seed: u64) {
        println!("scenes: {scenes}, seed {seed}");
        for (call, numbers) in &self.met {
            let refused: Vec<String> = numbers
                .iter()
                .filter(|(n, _)| **n > 0)
                .map(|(n, count)| format!("{n}: {count}"))
                .collect();
            println!("{call}: answered {}; refused {}", self.count(call, 0), refused.join(", "));
        }
        for (what, count) in &self.held {
            println!("answered draws with {what}: {count}");
        }
        println!(
            "points put to the eye test in answered draws: {}; drawn: {}; hidden at step 0: {}",
            self.put_points, self.drawn_points, self.hidden_points
        );
        println!("exact rooms tried: {}", self.exact_rooms);
        println!("omitted: {}", self.omitted);
        println!("panics: {}", self.panics);
        println!("refusals that never occurred: {:?}", self.missing());
        println!("differences: {}", self.differences);
    }
}

fn same_lines(a: &Lines, b: &Lines) -> bool {
    same_bits(&a.points, &b.points) && a.starts == b.starts
}

fn same_checked(a: &Checked, b: &Checked) -> bool {
    let flat = |c: &Checked| c.boxes.iter().flatten().copied().collect::<Vec<f64>>();
    let inverses = |c: &Checked| c.inverses.iter().flat_map(|(_, m)| *m).collect::<Vec<f64>>();
    let placings = |c: &Checked| c.inverses.iter().map(|(i, _)| *i).collect::<Vec<usize>>();
    same_bits(&flat(a), &flat(b))
        && same_bits(&inverses(a), &inverses(b))
        && placings(a) == placings(b)
        && a.drawn == b.drawn
}

fn compare(scenes: u64, seed: u64) -> Tally {
    let mut tally = Tally::default();
    for i in 0..scenes {
        let case = case(seed.wrapping_mul(1_000_003).wrapping_add(i));
        compare_scene(&mut tally, &case);
        compare_paths(&mut tally, &case);
        compare_draw(&mut tally, &case, i % 16 == 0);
    }
    tally
}

fn compare_scene(tally: &mut Tally, case: &Case) {
    let scene = &case.scene;
    let checked = oracle::check(scene);
    tally.compare(case, "check", &checked, || plain_checked(plain::entries(scene)), same_checked);
    let rows = oracle::build(scene, case.room.nodes, case.room.order);
    let plain_rows = || plain::rows(&plain::entries(scene).tree());
    tally.compare(case, "build", &rows, plain_rows, |a, b| {
        same_bits(&a.boxes, &b.boxes) && a.marks == b.marks && a.order == b.order
    });
    let Ok(entries) = oracle::accepted(scene) else { return };
    let tree = oracle::tree(&entries);
    let plain_entries = plain::entries(scene);
    let plain_tree = plain_entries.tree();
    for r in &case.rays {
        let hit = oracle::intersect_built(&tree, *r);
        tally.compare(
            case,
            "intersect",
            &hit,
            || plain::nearest(&plain_tree, *r),
            |a, b| same_bits(&[a.t], &[b.t]) && a.ok == b.ok,
        );
    }
    for point in &case.points {
        let eye = case.view.eye;
        let seen = oracle::visible_built(&tree, eye, *point);
        tally.compare(
            case,
            "visible",
            &seen,
            || plain::visible(&plain_tree, eye, *point),
            |a, b| a == b,
        );
    }
}

fn compare_paths(tally: &mut Tally, case: &Case) {
    let (view, lines) = (&case.view, &case.lines);
    let chopped = oracle::chop(view, lines, case.places);
    tally.compare(case, "chop", &chopped, || plain::chop(view, lines), same_lines);
    let thinned = oracle::simplify(case.threshold, lines, case.places);
    tally.compare(
        case,
        "simplify",
        &thinned,
        || plain::simplify(case.threshold, lines),
        same_lines,
    );
}

fn compare_draw(tally: &mut Tally, case: &Case, exactly: bool) {
    let (scene, view) = (&case.scene, &case.view);
    let (drawn, used) = oracle::draw_measured(scene, view, FINE, case.room);
    let put = oracle::larnt_limited::limits::points_put() as u64;
    let entries = || plain::entries(&with_outlines(scene, view));
    let plainly = |threshold: f64| plain::draw(&entries(), view, threshold);
    tally.compare(case, "draw", &drawn, || plainly(FINE), same_lines);
    let coarse = oracle::draw(scene, view, COARSE, case.room);
    tally.compare(case, "draw at 1e-4", &coarse, || plainly(COARSE), same_lines);
    let asked = oracle::draw(scene, view, case.threshold, case.room);
    tally.compare(case, "draw with", &asked, || plainly(case.threshold), same_lines);
    let Ok(lines) = drawn else { return };
    let drawn_points = lines.points.len() as u64 / 3;
    tally.drawn_points += drawn_points;
    tally.put_points += put;
    if view.step == 0.0 {
        tally.hidden_points += put - drawn_points;
    }
    let kinds = |kind| scene.marks.chunks(4).any(|m| m[0] == kind);
    for (what, held) in [
        ("any path", !lines.starts.is_empty()),
        ("step 0", view.step == 0.0),
        ("handed-in lines", !scene.starts.is_empty()),
        ("an outline", (0..scene.entries()).any(|i| bare(scene, i))),
        ("an outline in a placing", any_inside(scene, |i| bare(scene, i), 6)),
        ("an outline in a cut", any_inside(scene, |i| bare(scene, i), 7)),
        ("stripes", scene.marks.chunks(4).any(|m| striped(m[0]) && m[1] > 0)),
        ("stripes and lines of one solid", both(scene)),
        ("a cut", kinds(7)),
        ("a cut at step 0", kinds(7) && view.step == 0.0),
        ("a cut in a cut", inside(scene, 7, 7)),
        ("a closed cylinder", kinds(8)),
        ("a closed cone", kinds(9)),
        ("a closed solid in a cut", inside(scene, 8, 7) || inside(scene, 9, 7)),
        ("a placing", kinds(6)),
        ("a placing in a cut", inside(scene, 6, 7)),
        ("a cut in a placing", inside(scene, 7, 6)),
        ("more than 8 drawn solids", used.order > 8),
    ] {
        *tally.held.entry(what).or_default() += u64::from(held);
    }
    if exactly {
        tally.exact_rooms += 1;
        if !oracle::draw(scene, view, FINE, used).is_ok_and(|l| same_lines(&l, &lines)) {
            tally.differs(case, "a draw with exactly the room it takes");
        }
        for k in 0..8 {
            let mut less = used;
            let places = &mut places_of(&mut less)[k];
            if **places > 0 {
                **places -= 1;
                if number_of(&oracle::draw(scene, view, FINE, less)) != Ok(13) {
                    tally.differs(case, &format!("a draw with one place less at {k}"));
                }
            }
        }
    }
}
