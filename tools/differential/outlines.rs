//! Outlines of round solids: those of the core against the second implementation, bit for bit; and the exact squares of ring
//! points against radius^2.

use crate::exact::magnitudes;
use crate::harness::{Run, Share, name_hash, time};
use crate::host::{self, raw};
use crate::outline_inputs::{self, Outline};
use crate::scene_calls::{UNFILLED, Words, put, put_floats};
use crate::stage_inputs::view_numbers;
use oracle::check::{self, round};
use oracle::generate::Rng;
use oracle::outlines::Line;
use std::hint::black_box;

/// What the call fills: the points, the starts, and how many there are.
struct Filled {
    out: Vec<f64>,
    begins: Vec<usize>,
    points: usize,
    paths: usize,
}

type Call = fn(&Outline, &mut Filled) -> u32;

fn core_outline(case: &Outline, filled: &mut Filled) -> u32 {
    let placings = case.lent();
    unsafe {
        raw::larnt_outline(
            case.kind,
            &case.numbers,
            &case.eye,
            placings.as_ptr(),
            placings.len(),
            &view_numbers(&case.view),
            filled.out.as_mut_ptr(),
            filled.out.len(),
            filled.begins.as_mut_ptr(),
            filled.begins.len(),
            &mut filled.points,
            &mut filled.paths,
        )
    }
}

fn host_outline(case: &Outline, filled: &mut Filled) -> u32 {
    let Outline { kind, numbers, eye, view, .. } = case;
    let (view, out, begins) = (view_numbers(view), &mut filled.out, &mut filled.begins);
    let result = host::outline(*kind, numbers, eye, &case.lent(), &view, out, begins);
    (filled.points, filled.paths) = result.unwrap_or_default();
    result.err().unwrap_or(0)
}

/// The second implementation, and what is refused: 2, 3, 4, 8, then 13.
fn rust_outline(case: &Outline, filled: &mut Filled) -> u32 {
    filled.out.fill(0.0);
    filled.begins.fill(0);
    (filled.points, filled.paths) = (0, 0);
    if case.more > 0 {
        return 2;
    }
    if !round(case.kind) && !matches!(case.kind, 4 | 5) {
        return 3;
    }
    if case.placings.len() > 7 {
        return 4;
    }
    if check::view(&case.view).is_err() {
        return 8;
    }
    let lines = case.lines();
    let points: usize = lines.iter().map(Line::len).sum();
    if points > filled.out.len() / 3 || lines.len() > filled.begins.len() {
        return 13;
    }
    for (begin, line) in filled.begins.iter_mut().zip(&lines) {
        *begin = filled.points;
        let there = filled.out[3 * filled.points..].as_chunks_mut().0;
        there[..line.len()].copy_from_slice(line);
        filled.points += line.len();
    }
    filled.paths = lines.len();
    0
}

/// The answer, the counts, then each slice: how much of it there is before zeros alone follow, and that. Zeros and NaNs
/// are written alike among the results.
fn words(call: Call, case: &Outline) -> Words {
    let (number, filled) = fill(call, case);
    let mut words = vec![u64::from(number), filled.points as u64, filled.paths as u64];
    put_floats(&mut words, &filled.out, 3 * filled.points);
    put(&mut words, filled.begins.len(), |k| filled.begins[k] as u64);
    Words(words)
}

/// Slices with something in each place, filled.
fn fill(call: Call, case: &Outline) -> (u32, Filled) {
    let [out, begins] = case.lengths;
    let (out, begins) = (vec![UNFILLED; out], vec![7; begins]);
    let mut filled = Filled { out, begins, points: 7, paths: 7 };
    let number = call(case, &mut filled);
    (number, filled)
}

pub fn compare(run: &mut Run) {
    // rings of 1,025 points are halved as deep as may be
    let whole = |a: &Words| a.0[0] == 0 && a.0[2] > 0 && a.0[1] as usize >= 1025;
    let shares: &[Share<Outline, Words>] = &[
        ("with tangents", &|case, a| a.0[0] == 0 && a.0[2] > if tube(case) { 2 } else { 1 }),
        ("rings alone", &|case, a| a.0[0] == 0 && a.0[2] == if tube(case) { 2 } else { 1 }),
        ("no lines", &|_, a| a.0[0] == 0 && a.0[2] == 0),
        ("halved 8 deep", &|_, a| whole(a)),
        ("at step 0", &|case, a| a.0[0] == 0 && case.view.step == 0.0),
        ("tiny", &|case, a| a.0[0] == 0 && (5e-324..0.01).contains(&case.view.step)),
        ("large", &|case, a| a.0[0] == 0 && case.view.step >= 500.0),
        ("radius 0", &|case, a| a.0[0] == 0 && case.radius() == 0.0),
        ("in a placing", &|case, a| a.0[0] == 0 && !case.placings.is_empty()),
        ("nested", &|case, a| a.0[0] == 0 && case.placings.len() > 1),
        ("another row 4", &|case, a| {
            a.0[0] == 0 && case.placings.iter().any(|m| m[12..] != [0.0, 0.0, 0.0, 1.0])
        }),
        ("infinitely far", &|case, a| {
            a.0[0] == 0 && a.0[2] == 1 && case.kind == 1 && far_off(case)
        }),
        ("on the axis", &|case, a| {
            a.0[0] == 0 && case.kind != 1 && case.eye[0] == 0.0 && case.eye[1] == 0.0
        }),
        ("at the apex's height", &|case, a| {
            a.0[0] == 0 && matches!(case.kind, 3 | 9) && case.eye[2] == case.numbers[1]
        }),
        ("on the surface", &|case, a| a.0[0] == 0 && on_surface(case)),
        ("a NaN", &|_, a| a.0[0] == 0 && a.0.contains(&f64::NAN.to_bits())),
        ("refused", &|_, a| a.0[0] != 0),
    ];
    let cores: [&dyn Fn(&Outline) -> Words; 2] =
        [&|case| words(core_outline, case), &|case| words(host_outline, case)];
    let rust = |case: &Outline| words(rust_outline, case);
    run.compare("outline", run.count, outline_inputs::outlined, rust, &cores, shares);
    rings(run);
}

/// Whether a ball's distance from the eye is infinite as computed.
fn far_off(case: &Outline) -> bool {
    let (n, [x, y, z]) = (&case.numbers, case.eye);
    [x - n[0], y - n[1], z - n[2]].iter().map(|d| d * d).sum::<f64>() == f64::INFINITY
}

fn tube(case: &Outline) -> bool {
    matches!(case.kind, 2 | 8)
}

/// Whether e, or h, is exactly what it is compared with.
fn on_surface(case: &Outline) -> bool {
    let [x, y, z] = case.eye;
    let n = &case.numbers;
    match case.kind {
        1 => [x - n[0], y - n[1], z - n[2]].iter().map(|d| d * d).sum::<f64>() == n[3] * n[3],
        2 | 8 => x * x + y * y == n[0] * n[0],
        _ => {
            let c = n[0] * (1.0 - z / n[1]);
            x * x + y * y == c * c
        }
    }
}

/// Each ring point's exact squared distance from the centre is within radius^2 * 2^-48 of radius^2, in whole numbers.
fn rings(run: &mut Run) {
    let mut rng = Rng::new(run.seed ^ name_hash("ring"));
    let radii = run.count.div_ceil(100);
    let (mut points, mut differ, mut fine, mut farthest) = (0, 0, 0, 0.0f64);
    let mut smallest: Option<(u32, String)> = None;
    for _ in 0..radii {
        let case = outline_inputs::ring(&mut rng);
        let (number, filled) = fill(core_outline, &case);
        assert_eq!(number, 0, "there is room for two rings");
        // the first point of a ball's ring is its radius down the second axis
        let radius = if case.kind == 1 { filled.out[1].abs() } else { case.radius() };
        let ring = if tube(&case) { filled.points / 2 } else { filled.points };
        fine += u64::from(ring == 1025);
        let mut wrong = u64::from(radius < 0.001 && case.kind != 1 || filled.paths == 0);
        for p in filled.out[..3 * filled.points].chunks(3) {
            points += 1;
            let [u, v, r] = magnitudes([p[0], p[1], radius]).map(|x| x.squared());
            let apart = u.plus(&v).apart(&r).shifted(48);
            wrong += u64::from(apart > r && radius >= 0.001);
            farthest = farthest.max(apart.near() / r.near());
        }
        differ += wrong;
        let size = radius.to_bits().count_ones();
        if wrong > 0 && smallest.as_ref().is_none_or(|(least, _)| size < *least) {
            smallest = Some((size, format!("radius {radius} of kind {}", case.kind)));
        }
    }
    run.report("ring", radii, differ, &["halved 8 deep"], &[fine], smallest);
    println!("(ring: {points} points, off by at most {farthest:.4} of radius^2 * 2^-48)");
}

/// A silo on a sheet of 1,000 by 1,000, from outside.
pub fn speed() {
    for step in [0.0, 1.0, 4.0, 10.0] {
        let mut case = outline_inputs::ring(&mut Rng::new(1));
        (case.kind, case.numbers[0], case.numbers[1], case.numbers[2]) = (2, 2.0, 0.0, 6.0);
        (case.eye, case.view.step) = ([10.0, 3.0, 8.0], step);
        for k in [0, 5, 10] {
            case.view.matrix[k] = 0.25;
        }
        case.lengths = [3 * 2100, 4];
        let side = |call: Call| {
            let mut filled =
                Filled { out: vec![0.0; 6300], begins: vec![0; 4], points: 0, paths: 0 };
            let number = call(black_box(&case), &mut filled);
            assert_eq!((number, filled.paths), (0, 4));
        };
        time(&format!("outline (silo, {step})"), 1, || side(rust_outline), || side(core_outline));
    }
}
