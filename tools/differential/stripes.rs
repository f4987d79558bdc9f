//! Stripes: those of the core, read off draws, against larnt's `paths_striped`, and bit for bit against the table's.

use crate::draws;
use crate::harness::{Run, name_hash};
use oracle::generate::Rng;
use oracle::larnt_plain::cone::{Cone, ConeTexture};
use oracle::larnt_plain::cylinder::{Cylinder, CylinderTexture};
use oracle::larnt_plain::path::Paths;
use oracle::larnt_plain::vector::Vector;
use oracle::stripes::stripes;
use oracle::{Places, Room, Scene, View};

type Stripe = [[f64; 3]; 2];

/// A solid with stripes. It hides nothing: its tube is flat, or its cone lower than any number between, and its ends
/// lie in the planes of its discs or above them.
struct Case {
    kind: u32,
    count: u32,
    numbers: [f64; 3],
}

/// The least height, and the least radius that is compared.
const LOW: f64 = 5e-324;
const LEAST: f64 = f64::from_bits((1023 - 900) << 52);

fn case(rng: &mut Rng) -> Case {
    let any = 1 + rng.below(360) as u32;
    let count = match rng.below(10) {
        0..3 => rng.pick(&[1, 2, 7, 8, 11, 13, 45, 90, 91, 120, 121]),
        3..6 => rng.pick(&[179, 180, 181, 182, 359, 360]),
        _ => any,
    };
    let (kind, z) = (rng.pick(&[2, 3, 8, 9]), rng.between(-1e6, 1e6));
    let z = rng.pick(&[0.0, z, -1e6, 1e6, 0.25]);
    let tube = matches!(kind, 2 | 8);
    let numbers = if tube { [radius(rng), z, z] } else { [radius(rng), LOW, 0.0] };
    Case { kind, count, numbers }
}

/// 0 of either sign, from 2^-900 to 1,000,000, and more often of a silo's size.
fn radius(rng: &mut Rng) -> f64 {
    let any = f64::from_bits(LEAST.to_bits() + rng.next() % (1e6f64.to_bits() - LEAST.to_bits()));
    let near = rng.between(0.0005, 50.0);
    match rng.below(10) {
        0 => rng.pick(&[0.0, -0.0, LEAST, LEAST.next_up(), 1e6, 1e6f64.next_down(), 1.0]),
        1..5 => any,
        5 => (1 + rng.below(10_000)) as f64,
        _ => near,
    }
}

impl Case {
    fn scene(&self) -> Scene {
        let mut scene = Scene::default();
        scene.push([self.kind, self.count, 0, 0], &self.numbers);
        scene
    }

    /// larnt's own stripes.
    fn rust(&self) -> Vec<Stripe> {
        let ([radius, z0, z1], num) = (self.numbers, u64::from(self.count));
        let paths = match self.kind {
            2 | 8 => {
                let texture = CylinderTexture::Striped(num);
                Cylinder { radius, z0, z1, texture }.paths_striped(num)
            }
            _ => Cone { radius, height: z0, texture: ConeTexture::Striped(num) }.paths_striped(num),
        };
        ends(&paths)
    }

    /// The core's: three draws, which have x, y and z in turn where the depth stands. A depth goes through a draw
    /// unrounded, times a power of 2 that brings it within the clip box.
    fn core(&self) -> Option<Vec<Stripe>> {
        let scene = self.scene();
        let room = Room {
            work: Places { points: 720, starts: 360 },
            chopped: Places { points: 0, starts: 0 },
            out: Places { points: 720, starts: 361 },
            nodes: 1,
            order: 1,
        };
        let most = |k: usize| match (self.kind, k) {
            (_, 0 | 1) => self.numbers[0],
            _ => self.numbers[1],
        };
        let mut found = vec![[[0.0; 3]; 2]; 0];
        for k in 0..3 {
            let by = within_one(most(k));
            let mut matrix = [0.0; 16];
            (matrix[8 + k], matrix[15]) = (by, 1.0);
            let view = View { matrix, eye: [0.0, 0.0, 3.0], width: 2.0, height: 2.0, step: 0.0 };
            let lines = draws::given(&scene, &view, &room)?;
            let depths: Vec<f64> = lines.points.chunks(3).map(|p| p[2] / by).collect();
            if k == 0 {
                found.resize(lines.starts.len(), [[0.0; 3]; 2]);
            }
            // two points a path, and nothing hidden or left out
            let whole = lines.starts.iter().enumerate().all(|(i, start)| *start == 2 * i);
            if !whole || depths.len() != 2 * found.len() {
                return None;
            }
            for (stripe, two) in found.iter_mut().zip(depths.chunks(2)) {
                (stripe[0][k], stripe[1][k]) = (two[0], two[1]);
            }
        }
        Some(found)
    }
}

/// Where each path of two points begins and ends.
fn ends(paths: &Paths<Vector>) -> Vec<Stripe> {
    paths.buffer.chunks(2).map(|two| [two[0], two[1]].map(|v| [v.x, v.y, v.z])).collect()
}

/// A power of 2 that takes a number, and all smaller ones, within 1.
fn within_one(most: f64) -> f64 {
    if most == 0.0 {
        return 1.0;
    }
    let exponent = most.abs().max(LEAST).to_bits() >> 52;
    // 2^-(e + 1) of a number from 2^e to 2^(e + 1)
    f64::from_bits((2 * 1023 - exponent - 1) << 52)
}

/// How far two points are apart, in their farthest coordinate.
fn apart(a: &Stripe, b: &Stripe) -> f64 {
    let numbers = a.as_flattened().iter().zip(b.as_flattened());
    numbers.map(|(x, y)| (x - y).abs()).fold(0.0, f64::max)
}

pub fn compare(run: &mut Run) {
    let mut rng = Rng::new(run.seed ^ name_hash("stripes"));
    let (mut done, mut differ, mut farthest) = (0, 0, 0.0f64);
    let (mut flat, mut small) = (0, 0);
    let mut smallest: Option<(u32, String)> = None;
    while done < run.count {
        let case = case(&mut rng);
        let (rust, core) = (case.rust(), case.core().unwrap_or_default());
        let table = stripes(case.kind, case.count, &case.numbers);
        let radius = case.numbers[0];
        // radius * 2^-48
        let bound = radius.abs() * (16.0 * f64::EPSILON);
        done += rust.len() as u64;
        flat += if radius == 0.0 { rust.len() as u64 } else { 0 };
        small += if radius != 0.0 && radius < 1e-6 { rust.len() as u64 } else { 0 };
        let lacking = rust.len().abs_diff(core.len()).max(rust.len().abs_diff(table.len()));
        let mut wrong = lacking as u64;
        for ((r, c), t) in rust.iter().zip(&core).zip(&table) {
            wrong += u64::from(!(apart(r, c) <= bound && c == t));
            if radius != 0.0 {
                farthest = farthest.max(apart(r, c) / bound);
            }
        }
        differ += wrong;
        let size = case.count + radius.to_bits().count_ones();
        if wrong > 0 && smallest.as_ref().is_none_or(|(least, _)| size < *least) {
            let Case { kind, count, numbers } = case;
            let text = format!("kind {kind} count {count} numbers {numbers:?}");
            let ends = format!("{:?} {:?} {:?}", rust.first(), core.first(), table.first());
            let told = format!("{text} rust {} core {} {ends}", rust.len(), core.len());
            smallest = Some((size, told));
        }
    }
    let shares = ["radius 0", "radius below 1e-6"];
    run.report("stripes", done, differ, &shares, &[flat, small], smallest);
    println!("(stripes: apart by at most {farthest:.4} of radius * 2^-48)");
}
