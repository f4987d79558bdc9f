//! How much of its own outline a solid hides, in yards without handed-in lines and stripes: each outline's points are collected,
//! chopped and clipped as a draw does, and put to the core, which names who hides them.

use crate::tree_calls::{CORE, NOBODY, Rows};
use oracle::check::parts;
use oracle::larnt_plain::filter::CLIP_BOX;
use oracle::larnt_plain::matrix::Matrix;
use oracle::larnt_plain::path::Paths;
use oracle::larnt_plain::shape::RenderArgs;
use oracle::larnt_plain::vector::Vector;
use oracle::outlines::{Line, outlines};
use oracle::plain::{self, Solid};
use oracle::stripes::striped;
use oracle::{FINE, Room, Scene, View, draw_measured};

/// What lines of an outline are.
#[derive(Clone, Copy)]
enum Part {
    /// Of a cylinder or a cone, which also has a far side.
    Ring,
    /// Of a ball: it turns away from the eye there.
    Limb,
    /// An upright line or a slope: the same.
    Tangent,
}

/// Of the points put to the eye test: all, those hidden by their own solid, of these those that are seen a thousandth of the
/// radius off the surface, and those hidden by another.
#[derive(Clone, Copy, Default)]
struct Count {
    put: usize,
    own: usize,
    lost: usize,
    other: usize,
}

const STEPS: [f64; 3] = [1.0, 4.0, 10.0];

/// Prints both tables; whether every yard could be read.
pub fn run(files: &[&str]) -> bool {
    let read = |file: &&str| oracle::yard::read(&std::fs::read(file).ok()?).ok();
    let Some(yards) = files.iter().map(read).collect::<Option<Vec<(View, Scene)>>>() else {
        println!("a file is no yard");
        return false;
    };
    let names =
        || files.iter().map(|file| file.rsplit('/').next().unwrap().trim_end_matches(".yard"));
    println!(
        "outline points put to the eye test; share hidden by their own solid, and in brackets the share that is seen a thousandth off"
    );
    println!(
        "yard            step   points  all             tangents        balls           rings           by another"
    );
    for (name, (view, scene)) in names().zip(&yards) {
        for step in STEPS {
            told(name, step, counted(&bare(scene), &View { step, ..view.clone() }));
        }
    }
    for step in STEPS {
        let counts =
            yards.iter().map(|(view, scene)| counted(&bare(scene), &View { step, ..view.clone() }));
        let none = [Count::default(); 3];
        told("together", step, counts.fold(none, |a, b| std::array::from_fn(|k| sum(a[k], b[k]))));
    }
    println!("points of a tube's outline, two rings and two lines; and of all lines of the yard");
    println!(
        "yard            step  tubes  collected       chopped             work  chopped    drawn"
    );
    for (name, (view, scene)) in names().zip(&yards) {
        for step in STEPS {
            sized(name, &bare(scene), &View { step, ..view.clone() });
        }
    }
    true
}

/// Without handed-in lines and stripes.
fn bare(scene: &Scene) -> Scene {
    let mut marks = scene.marks.clone();
    marks.chunks_mut(4).filter(|m| striped(m[0])).for_each(|m| m[1] = 0);
    Scene { numbers: scene.numbers.clone(), marks, ..Scene::default() }
}

/// Of the rings, of the limbs and of the tangents of a yard.
fn counted(scene: &Scene, view: &View) -> [Count; 3] {
    let mut rows = Rows::ample();
    (CORE.build)(scene, &mut rows);
    let mut counts = [Count::default(); 3];
    for (i, outline) in outlines(scene, view).iter().enumerate() {
        let kind = scene.marks_of(i)[0];
        let chain = Chain::of(scene, view, i);
        for (k, line) in outline.iter().enumerate() {
            let part = match kind {
                1 => Part::Limb,
                2 | 8 if k < 2 => Part::Ring,
                _ if k < 1 => Part::Ring,
                _ => Part::Tangent,
            };
            chain.count(&rows, view, line, &mut counts[part as usize]);
        }
    }
    counts
}

fn sum(a: Count, b: Count) -> Count {
    let (put, own, lost) = (a.put + b.put, a.own + b.own, a.lost + b.lost);
    Count { put, own, lost, other: a.other + b.other }
}

fn told(name: &str, step: f64, counts: [Count; 3]) {
    let all = counts.into_iter().fold(Count::default(), sum);
    let [rings, limbs, tangents] = counts;
    let share = |n: usize, of: usize| 100.0 * n as f64 / of.max(1) as f64;
    let text = |c: Count| match c.put {
        0 => "-".to_string(),
        n => format!("{:.1}% ({:.1}%)", share(c.own, n), share(c.lost, n)),
    };
    println!(
        "{name:<15} {step:>4} {:>8}  {:<15} {:<15} {:<15} {:<15} {:.1}%",
        all.put,
        text(all),
        text(tangents),
        text(limbs),
        text(rings),
        share(all.other, all.put)
    );
}

/// What an outline of two rings and two lines takes, and a draw of the whole yard.
fn sized(name: &str, scene: &Scene, view: &View) {
    let (drawn, used) = draw_measured(scene, view, FINE, Room::ENDLESS);
    let outlines = outlines(scene, view);
    let tubes = (0..scene.entries()).filter(|i| outlines[*i].len() == 4);
    let (mut collected, mut chopped) = (Vec::new(), Vec::new());
    for i in tubes {
        let chain = Chain::of(scene, view, i);
        collected.push(outlines[i].iter().map(Line::len).sum::<usize>());
        chopped.push(outlines[i].iter().map(|line| chain.chopped(view, line).buffer.len()).sum());
    }
    let told = |all: &[usize]| match (all.iter().min(), all.iter().max()) {
        (Some(least), Some(most)) => format!("{least} to {most}"),
        _ => "-".to_string(),
    };
    let drawn = drawn.map_or("refused".to_string(), |lines| (lines.points.len() / 3).to_string());
    println!(
        "{name:<15} {:>4} {:>6}  {:<15} {:<15} {:>8} {:>8} {drawn:>8}",
        view.step,
        collected.len(),
        told(&collected),
        told(&chopped),
        used.work.points,
        used.chopped.points
    );
}

/// An entry, and what it is part of, up to the entry that is drawn.
struct Chain<'a> {
    scene: &'a Scene,
    up: Vec<usize>,
    /// What `render` hands to each of them.
    args: Vec<RenderArgs>,
}

impl Chain<'_> {
    fn of<'a>(scene: &'a Scene, view: &View, i: usize) -> Chain<'a> {
        let holder = |i: usize| {
            let names = |k: &usize| parts(scene.marks_of(*k)).contains(&(i as u32));
            (i + 1..scene.entries()).find(names)
        };
        let up: Vec<usize> = std::iter::successors(Some(i), |i| holder(*i)).collect();
        let mut args = vec![plain::render_args(view)];
        for k in up[1..].iter().rev() {
            let outer = &args[args.len() - 1];
            let m = if scene.marks_of(*k)[0] == 6 { matrix(scene, *k) } else { Matrix::identity() };
            args.push(RenderArgs { screen_mat: outer.screen_mat.mul(&m), ..outer.clone() });
        }
        args.reverse();
        Chain { scene, up, args }
    }

    /// A line as placed and cut, then chopped.
    fn chopped(&self, view: &View, line: &Line) -> Paths<Vector> {
        let buffer = line.iter().map(|p| plain::vector(*p)).collect();
        let mut paths = Paths { buffer, offsets: vec![0] };
        for (k, args) in self.up.iter().zip(&self.args).skip(1) {
            paths = match plain::solid_of(self.scene, *k) {
                Solid::Placed(placed) => paths.transform(&placed.matrix),
                Solid::Cut(cut) | Solid::TrueCut(cut) => paths.chop_adaptive(args).filter(&cut),
                _ => unreachable!("only these have parts"),
            };
        }
        if view.step > 0.0 {
            paths = paths.chop_adaptive(&self.args[self.args.len() - 1]);
        }
        paths
    }

    /// The points of a line that reach the eye test: those that are left after clipping.
    fn points(&self, view: &View, line: &Line) -> Vec<Vector> {
        let clip = plain::matrix(&view.matrix);
        let mut points = self.chopped(view, line).buffer;
        points.retain(|v| CLIP_BOX.contains(clip.mul_position_w(*v)));
        points
    }

    /// A point a thousandth of the radius off the surface.
    fn off(&self, v: Vector) -> Vector {
        let placings = self.up[1..].iter().filter(|k| self.scene.marks_of(**k)[0] == 6);
        let placings: Vec<Matrix> = placings.map(|k| matrix(self.scene, *k)).collect();
        let own = placings.iter().rev().fold(v, |v, m| m.inverse().mul_position(v));
        let n = self.scene.numbers_of(self.up[0]);
        let by = Vector::new(1.001, 1.001, 1.001);
        let off = match self.scene.marks_of(self.up[0])[0] {
            1 => {
                let centre = Vector::new(n[0], n[1], n[2]);
                centre.add(own.sub(centre).mul(by))
            }
            2 | 8 => own.mul(Vector { z: 1.0, ..by }),
            _ => own.mul(by),
        };
        placings.iter().fold(off, |v, m| m.mul_position(v))
    }

    fn count(&self, rows: &Rows, view: &View, line: &Line, count: &mut Count) {
        let hider = |v: Vector| {
            let mut entry = NOBODY;
            let number = (CORE.occluder)(self.scene, rows, &view.eye, &[v.x, v.y, v.z], &mut entry);
            assert_eq!(number, 0, "a point of a draw that is answered");
            entry
        };
        let top = self.up[self.up.len() - 1] as u32;
        for v in self.points(view, line) {
            let by = hider(v);
            count.put += 1;
            count.own += usize::from(by == top);
            count.lost += usize::from(by == top && hider(self.off(v)) != top);
            count.other += usize::from(by != top && by != NOBODY);
        }
    }
}

fn matrix(scene: &Scene, i: usize) -> Matrix {
    plain::matrix(scene.numbers_of(i))
}
