//! The leaves: box test, projection, inverse, and hit, box and contains of the simple kinds.

use crate::calls::{Answer, Call, Calls, Input, RUST, TIMED, answer};
use crate::core::{CORE, HOST};
use crate::harness::{Run, time};
use crate::inputs;
use oracle::generate::Rng;
use std::hint::black_box;

/// The simple kinds.
const KINDS: [(u32, &str); 7] = [
    (1, "sphere"),
    (2, "cylinder"),
    (3, "cone"),
    (4, "cube"),
    (5, "triangle"),
    (8, "closed_cylinder"),
    (9, "closed_cone"),
];

pub fn compare(run: &mut Run) {
    line(run, "box_test", Call::BoxTest, inputs::box_test, "met", met);
    line(run, "project", Call::Project, inputs::project, "finite", finite);
    line(run, "inverse", Call::Inverse, inputs::inverse, "regular", |a| a[0] != 0 && finite(a));
    for (kind, name) in KINDS {
        let hit = |rng: &mut Rng| inputs::hit(rng, kind);
        line(run, &format!("{name}.hit"), Call::Hit, hit, "hit", |a| a[2] == 1);
        let solid_box = |rng: &mut Rng| inputs::solid_box(rng, kind);
        line(run, &format!("{name}.box"), Call::Box, solid_box, "finite", finite);
        let contains = |rng: &mut Rng| inputs::contains(rng, kind);
        line(run, &format!("{name}.contains"), Call::Contains, contains, "inside", |a| a[1] == 1);
    }
    let hit = |rng: &mut Rng| inputs::other(rng, inputs::hit);
    line(run, "other.hit", Call::Hit, hit, "refused", refused);
    let solid_box = |rng: &mut Rng| inputs::other(rng, inputs::solid_box);
    line(run, "other.box", Call::Box, solid_box, "refused", refused);
    let contains = |rng: &mut Rng| inputs::other(rng, inputs::contains);
    line(run, "other.contains", Call::Contains, contains, "refused", refused);
}

pub fn line(
    run: &mut Run,
    name: &str,
    call: Call,
    make: impl Fn(&mut Rng) -> Input,
    share: &str,
    counts: impl Fn(&Answer) -> bool,
) {
    let cores: [&dyn Fn(&Input) -> Answer; 2] =
        [&|input| answer(&CORE, call, input), &|input| answer(&HOST, call, input)];
    let rust = |input: &Input| answer(&RUST, call, input);
    run.compare(name, run.count, make, rust, &cores, &[(share, &|_, a| counts(a))]);
}

pub fn float(word: u64) -> f64 {
    f64::from_bits(word)
}

fn met(a: &Answer) -> bool {
    let (near, far) = (float(a[0]), float(a[1]));
    near <= far && far > 0.0
}

fn finite(a: &Answer) -> bool {
    a.iter().all(|word| float(*word).is_finite())
}

fn refused(a: &Answer) -> bool {
    a[0] == 3 && a[1..].iter().all(|word| *word == 0)
}

/// Ordinary inputs, put to each side in one pass: more than a processor learns by heart.
const INPUTS: usize = 8192;

pub fn speed() {
    let boxed = |rng: &mut Rng| {
        let (n, ray) = inputs::solid_and_ray(rng, 4);
        ([n[0], n[1], n[2], n[3], n[4], n[5]], ray)
    };
    timed("box_test", boxed, |calls, all| {
        let mut span = [0.0; 2];
        for (b, ray) in all {
            (calls.box_test)(b, ray, &mut span);
        }
    });
    timed("project", inputs::matrix_and_point, |calls, all| {
        let mut projected = [0.0; 3];
        for (m, p) in all {
            (calls.project)(m, p, &mut projected);
        }
    });
    timed("inverse", inputs::matrix, |calls, all| {
        let mut inverse = [0.0; 16];
        for m in all {
            black_box((calls.inverse)(m, &mut inverse));
        }
    });
    for (kind, name) in KINDS {
        let seen = |rng: &mut Rng| inputs::solid_and_ray(rng, kind);
        timed(&format!("{name}.hit"), seen, |calls, all| {
            let (mut t, mut ok) = (0.0, false);
            for (n, ray) in all {
                (calls.solid_hit)(kind, n, ray, &mut t, &mut ok);
            }
        });
        timed(&format!("{name}.box"), seen, |calls, all| {
            let mut b = [0.0; 6];
            for (n, _) in all {
                (calls.solid_box)(kind, n, &mut b);
            }
        });
        let near = |rng: &mut Rng| inputs::solid_and_point(rng, kind);
        timed(&format!("{name}.contains"), near, |calls, all| {
            let mut inside = false;
            for (n, p, f) in all {
                (calls.solid_contains)(kind, n, p, *f, &mut inside);
            }
        });
    }
}

/// Which side a pass calls is hidden from the compiler, so that neither is inlined.
pub fn timed<I>(name: &str, make: impl Fn(&mut Rng) -> I, pass: impl Fn(&Calls, &[I])) {
    let mut rng = Rng::new(1);
    let all: Vec<I> = (0..INPUTS).map(|_| make(&mut rng)).collect();
    time(name, INPUTS, || pass(black_box(&TIMED), &all), || pass(black_box(&CORE), &all));
}
