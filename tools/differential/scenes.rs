//! Scenes: the check of their entries, and hits and insides of solids with parts.

use crate::core::{CORE_SCENES, HOST_SCENES};
use crate::harness::{Run, Share, time};
use crate::scene_calls::{self, Found, RUST, SceneCalls, Words};
use crate::scene_inputs::{self, Case, has_lids, has_true_cut};
use oracle::check::parts;
use oracle::generate::Rng;
use std::cell::RefCell;
use std::hint::black_box;

type Sharing<'a> = [Share<'a, Case, Words>];

pub fn compare(run: &mut Run) {
    // a scene takes as long as many rays
    let scenes = run.count.div_ceil(10);
    let check = |calls: &SceneCalls, case: &Case| scene_calls::check(calls, &case.scene);
    let shares: &Sharing = &[
        ("accepted", &|_, a| a.0[0] == 0),
        ("2", &|_, a| a.0[0] == 2),
        ("3", &|_, a| a.0[0] == 3),
        ("14", &|_, a| a.0[0] == 14),
        ("4", &|_, a| a.0[0] == 4),
        ("5", &|_, a| a.0[0] == 5),
        ("6", &|_, a| a.0[0] == 6),
        ("7", &|_, a| a.0[0] == 7),
        ("1,023 to 1,026 entries", &|case, _| case.scene.entries() > 1000),
    ];
    line(run, "check", scenes, scene_inputs::checked, check, shares);
    let hit = |calls: &SceneCalls, case: &Case| {
        scene_calls::own_hit(calls, &case.scene, case.i, case.asked[..].try_into().unwrap())
    };
    let shares: &Sharing = &[
        ("hit", &|_, a| a.0[0] == 0 && a.0[2] == 1),
        ("missed", &|_, a| a.0[0] == 0 && a.0[2] == 0),
        ("missed through a placing", &|_, a| a.0[0] == 0 && a.0[2] == 0 && float(a.0[1]) != 1e9),
        ("t no number", &|_, a| a.0[0] == 0 && float(a.0[1]).is_nan()),
        ("11", &|_, a| a.0[0] == 11),
        ("8", &|_, a| a.0[0] == 8),
        ("2 to 7 or 14", &|_, a| refused(a)),
        ("placed", &|case, _| kind(case) == 6),
        ("cut", &|case, _| kind(case) == 7),
        ("of parts with parts", &|case, _| nested(case)),
        ("operations 0 and 1 alone", &|case, _| !has_true_cut(&case.scene)),
        ("closed", &|case, _| matches!(kind(case), 8 | 9)),
        ("with closed solids", &|case, _| has_lids(&case.scene)),
    ];
    line(run, "own_hit", run.count, scene_inputs::hit, hit, shares);
    let shares: &Sharing = &[
        ("hit", &|_, a| a.0[0] == 0 && a.0[2] == 1),
        ("missed", &|_, a| a.0[0] == 0 && a.0[2] == 0),
        ("11", &|_, a| a.0[0] == 11),
        ("a hit other than by 0 and 1", &|case, a| {
            a.0[0] == 0 && a.0[2] == 1 && hit(&RUST, &as_the_rust(case)) != *a
        }),
    ];
    line(run, "true_hit", run.count, scene_inputs::hit_through_cuts, hit, shares);
    let contains = |calls: &SceneCalls, case: &Case| {
        let p: &[f64; 3] = case.asked[..3].try_into().unwrap();
        scene_calls::own_contains(calls, &case.scene, case.i, p, case.asked[3])
    };
    let shares: &Sharing = &[
        ("inside", &|_, a| a.0[0] == 0 && a.0[1] == 1),
        ("outside", &|_, a| a.0[0] == 0 && a.0[1] == 0),
        ("2 to 7 or 14", &|_, a| refused(a)),
        ("placed", &|case, _| kind(case) == 6),
        ("cut", &|case, _| kind(case) == 7),
        ("of parts with parts", &|case, _| nested(case)),
        ("closed", &|case, _| matches!(kind(case), 8 | 9)),
        ("with closed solids", &|case, _| has_lids(&case.scene)),
    ];
    line(run, "own_contains", run.count, scene_inputs::contains, contains, shares);
}

fn line(
    run: &mut Run,
    name: &str,
    count: u64,
    make: impl Fn(&mut Rng) -> Case,
    answer: impl Fn(&SceneCalls, &Case) -> Words,
    shares: &Sharing,
) {
    let cores: [&dyn Fn(&Case) -> Words; 2] =
        [&|case| answer(&CORE_SCENES, case), &|case| answer(&HOST_SCENES, case)];
    run.compare(name, count, make, |case| answer(&RUST, case), &cores, shares);
}

/// By the check of the scene.
fn refused(a: &Words) -> bool {
    matches!(a.0[0], 2..8 | 14)
}

fn float(word: u64) -> f64 {
    f64::from_bits(word)
}

fn marks(case: &Case, i: usize) -> &[u32] {
    case.scene.marks.chunks_exact(4).nth(i).unwrap_or(&[0; 4])
}

fn kind(case: &Case) -> u32 {
    marks(case, case.i)[0]
}

fn nested(case: &Case) -> bool {
    parts(marks(case, case.i)).iter().any(|part| !parts(marks(case, *part as usize)).is_empty())
}

/// The same with 0 for operation 2, and 1 for 3.
fn as_the_rust(case: &Case) -> Case {
    let mut scene = case.scene.clone();
    for marks in scene.marks.chunks_exact_mut(4) {
        if marks[0] == 7 && marks[1] < 4 {
            marks[1] %= 2;
        }
    }
    Case { scene, i: case.i, asked: case.asked.clone() }
}

/// Ordinary scenes of a few solids, and full ones; the hits are those of a few solids.
pub fn speed() {
    timed("check", 16, scene_inputs::ordinary, |calls, case, found| {
        black_box((calls.check)(&case.scene, found));
    });
    timed("check (1,024)", 2, scene_inputs::full, |calls, case, found| {
        black_box((calls.check)(&case.scene, found));
    });
    timed("own_hit", 16, scene_inputs::ordinary, |calls, case, _| {
        let (mut t, mut ok) = (0.0, false);
        let ray = case.asked[..].try_into().unwrap();
        black_box((calls.own_hit)(&case.scene, case.i, ray, &mut t, &mut ok));
    });
}

fn timed(
    name: &str,
    count: usize,
    make: impl Fn(&mut Rng) -> Case,
    call: impl Fn(&SceneCalls, &Case, &mut Found),
) {
    let mut rng = Rng::new(1);
    let all: Vec<Case> = (0..count).map(|_| make(&mut rng)).collect();
    let found = RefCell::new(scene_calls::unfilled());
    let pass = |calls: &SceneCalls| {
        for case in &all {
            call(calls, case, &mut found.borrow_mut());
        }
    };
    time(name, count, || pass(black_box(&RUST)), || pass(black_box(&CORE_SCENES)));
}
