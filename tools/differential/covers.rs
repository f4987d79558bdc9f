//! Whether a point is covered at all (request x): of one point and of many, against larnt's own walk wherever it
//! answers, and against a walk of larnt's tree that stops at a cover where it meets 11 or 12.

use crate::harness::{Part, Run, Share, time};
use crate::scene_calls::Words;
use crate::tree_calls::{self, CORE, Checked, HOST, Told};
use crate::tree_inputs::{self, Many, Rays};
use oracle::generate::Rng;
use std::cell::Cell;
use std::hint::black_box;

pub fn compare(run: &mut Run) {
    let behind: [Cell<u64>; 2] = Default::default();
    let rust = |case: &Rays| {
        tree_calls::rust_covers(case, &|number| match number {
            11 => behind[0].update(|n| n + 1),
            12 => behind[1].update(|n| n + 1),
            _ => {}
        })
    };
    let shares: &[Part<Rays, Told>] = &[
        ("visible", &|_, _, a| a[0] == 0 && a[1] == 1),
        ("hidden", &|_, _, a| a[0] == 0 && a[1] == 0),
        ("2 to 7 or 14", &|_, _, a| matches!(a[0], 2..8 | 14)),
        ("8", &|_, _, a| a[0] == 8),
        ("9", &|_, _, a| a[0] == 9),
        ("11", &|_, _, a| a[0] == 11),
        ("12", &|_, _, a| a[0] == 12),
        ("of length 0", &|case, k, a| a[0] == 0 && crate::trees::length(&case.asked[k]) == 0.0),
    ];
    let cores: [&dyn Fn(&Rays) -> Vec<Told>; 2] =
        [&tree_calls::core_covers, &tree_calls::inner_covers];
    run.compare_many(
        "covered",
        5 * run.count,
        tree_inputs::covers,
        Rays::one,
        rust,
        &cores,
        shares,
    );
    println!("(hidden where the full walk meets 11: {}, 12: {})", behind[0].get(), behind[1].get());

    let shares: &[Share<Many, Words>] = &[
        ("answered", &|_, a| a.0[0] == 0),
        ("2 to 7 or 14", &|_, a| matches!(a.0[0], 2..8 | 14)),
        ("8", &|_, a| a.0[0] == 8),
        ("13", &|_, a| a.0[0] == 13),
        ("a point's 9", &|_, a| a.0[2..].contains(&9)),
        ("a point's 11", &|_, a| a.0[2..].contains(&11)),
        ("a point's 12", &|_, a| a.0[2..].contains(&12)),
    ];
    let cores: [&dyn Fn(&Many) -> Words; 2] =
        [&|case| tree_calls::covered_all(CORE.covered_all, case), &|case| {
            tree_calls::covered_all(HOST.covered_all, case)
        }];
    let rust = tree_calls::rust_covered_all;
    run.compare("covered_all", run.count.div_ceil(10), tree_inputs::many, rust, &cores, shares);
}

/// The yards of the layer `trees`. The first time is that of the full walk on a checked scene, or of one call a
/// point; the second that of the walk that stops, or of the call on many points.
pub fn speed() {
    println!("(full walk, then the walk that stops; one call a point, then one call)");
    for n in [100, 1000] {
        let mut rng = Rng::new(1);
        let scene = &tree_inputs::yard(&mut rng, n);
        let asked = tree_inputs::yard_sights(&mut rng, scene, 2000);
        let checked = Checked::new(scene).unwrap_or_else(|number| panic!("refused: {number}"));
        let all = |test: fn(&Checked<'_>, &[f64; 3], &[f64; 3], &mut bool) -> u32| {
            let mut seen = false;
            for asked in &asked {
                let (eye, point) = (asked.first_chunk().unwrap(), asked.last_chunk().unwrap());
                black_box(test(&checked, eye, point, &mut seen));
                black_box(seen);
            }
        };
        let (full, stopping) =
            (|| all(|c, e, p, s| c.visible(e, p, s)), || all(|c, e, p, s| c.covered(e, p, s)));
        time(&format!("stopping walk ({n})"), asked.len(), full, stopping);

        let few = &asked[..100];
        let eye: &[f64; 3] = few[0].first_chunk().unwrap();
        let tested: Vec<f64> = few.iter().flat_map(|a| a[3..].iter().copied()).collect();
        let each = || {
            let mut seen = false;
            for asked in few {
                let point = asked.last_chunk().unwrap();
                black_box((CORE.covered)(scene, &checked.rows, eye, point, &mut seen));
                black_box(seen);
            }
        };
        let once = || {
            let mut told = [0; 100];
            black_box((CORE.covered_all)(scene, &checked.rows, eye, &tested, &mut told));
            black_box(told);
        };
        time(&format!("100 points ({n})"), few.len(), each, once);
    }
}
