//! The tree of a scene: its build, the nearest hit and the eye test.

use crate::harness::{Part, Run, Share, time};
use crate::names;
use crate::scene_calls::{self, Words};
use crate::tree_calls::{self, CORE, Checked, HOST, Rows, Told};
use crate::tree_inputs::{self, Build, Rays};
use oracle::generate::Rng;
use oracle::plain;
use std::cell::RefCell;
use std::hint::black_box;

pub fn compare(run: &mut Run) {
    // a tree takes as long as many rays
    let trees = run.count.div_ceil(10);
    let shares: &[Share<Build, Words>] = &[
        ("built", &|_, a| a.0[0] == 0),
        ("13", &|_, a| a.0[0] == 13),
        ("2 to 7 or 14", &|_, a| matches!(a.0[0], 2..8 | 14)),
        ("no solids", &|case, a| a.0[0] == 0 && case.scene.marks.is_empty()),
        ("more than 8 entries", &|case, _| case.scene.entries() > 8),
        ("more than 100", &|case, _| case.scene.entries() > 100),
        ("more than 1,000", &|case, _| case.scene.entries() > 1000),
        ("slices exactly full", &|case, a| a.0[0] == 0 && full(case, a)),
    ];
    let cores: [&dyn Fn(&Build) -> Words; 2] =
        [&|case| tree_calls::build(CORE.build, case), &|case| tree_calls::build(HOST.build, case)];
    let rust = |case: &Build| tree_calls::build(tree_calls::rust_build, case);
    run.compare("build", trees, tree_inputs::build, rust, &cores, shares);

    let rays = 5 * run.count;
    let shares: &[Part<Rays, Told>] = &[
        ("hit", &|_, _, a| a[0] == 0 && a[2] == 1),
        ("missed", &|_, _, a| a[0] == 0 && a[2] == 0),
        ("2 to 7 or 14", &|_, _, a| matches!(a[0], 2..8 | 14)),
        ("8", &|_, _, a| a[0] == 8),
        ("11", &|_, _, a| a[0] == 11),
        ("12", &|_, _, a| a[0] == 12),
        ("of more than 8 entries", &|case, _, _| case.scene.entries() > 8),
        ("of more than 100", &|case, _, _| case.scene.entries() > 100),
    ];
    let cores: [&dyn Fn(&Rays) -> Vec<Told>; 2] = [&tree_calls::core_hits, &tree_calls::inner_hits];
    let rust = tree_calls::rust_hits;
    run.compare_many("intersect", rays, tree_inputs::hits, Rays::one, rust, &cores, shares);

    let shares: &[Part<Rays, Told>] = &[
        ("visible", &|_, _, a| a[0] == 0 && a[1] == 1),
        ("hidden", &|_, _, a| a[0] == 0 && a[1] == 0),
        ("2 to 7 or 14", &|_, _, a| matches!(a[0], 2..8 | 14)),
        ("8", &|_, _, a| a[0] == 8),
        ("9", &|_, _, a| a[0] == 9),
        ("11", &|_, _, a| a[0] == 11),
        ("12", &|_, _, a| a[0] == 12),
        ("of length 0", &|case, k, a| a[0] == 0 && length(&case.asked[k]) == 0.0),
        ("of more than 8 entries", &|case, _, _| case.scene.entries() > 8),
        ("of more than 100", &|case, _, _| case.scene.entries() > 100),
    ];
    let cores: [&dyn Fn(&Rays) -> Vec<Told>; 2] =
        [&tree_calls::core_sights, &tree_calls::inner_sights];
    let rust = tree_calls::rust_sights;
    run.compare_many("visible", rays, tree_inputs::sights, Rays::one, rust, &cores, shares);
    names::compare(run);
}

/// No place of a slice is left.
fn full(case: &Build, a: &Words) -> bool {
    let [node_boxes, node_marks, _] = case.lengths;
    let nodes = a.0[1] as usize;
    node_boxes == 6 * nodes && node_marks == 3 * nodes
}

/// The computed distance of an eye and a point.
pub fn length(asked: &[f64; 6]) -> f64 {
    let v: [f64; 3] = std::array::from_fn(|k| asked[k] - asked[k + 3]);
    (v[0] * v[0] + v[1] * v[1] + v[2] * v[2]).sqrt()
}

/// The Rust builds the tree of shapes that stand already; the core's build checks the scene first, and
/// forms inverses and boxes. The walk is the eye test of one point on a checked scene.
pub fn speed() {
    for n in [100, 1000] {
        let mut rng = Rng::new(1);
        let scene = &tree_inputs::yard(&mut rng, n);
        let entries = plain::entries(scene);
        let (rows, found) = (RefCell::new(Rows::ample()), RefCell::new(scene_calls::unfilled()));
        let tree_of = || {
            black_box(entries.tree());
        };
        let build = || {
            black_box((CORE.build)(black_box(scene), &mut rows.borrow_mut()));
        };
        let check = || {
            let check = crate::core::CORE_SCENES.check;
            black_box(check(black_box(scene), &mut found.borrow_mut()));
        };
        let shapes_and_tree = || {
            black_box(plain::entries(black_box(scene)).tree());
        };
        time(&format!("build ({n})"), 1, tree_of, build);
        time("..and shapes", 1, shapes_and_tree, build);
        time("..its check", 1, tree_of, check);
        let asked = tree_inputs::yard_sights(&mut rng, scene, 2000);
        let tree = entries.tree();
        let checked = Checked::new(scene).unwrap_or_else(|number| panic!("refused: {number}"));
        let rust = || {
            for [a, b, c, x, y, z] in &asked {
                black_box(plain::visible(&tree, [*a, *b, *c], [*x, *y, *z]));
            }
        };
        let core = || {
            for asked in &asked {
                let (eye, point) = (asked.first_chunk().unwrap(), asked.last_chunk().unwrap());
                let mut seen = false;
                black_box(checked.visible(eye, point, &mut seen));
                black_box(seen);
            }
        };
        time(&format!("walk ({n})"), asked.len(), rust, core);
    }
}
