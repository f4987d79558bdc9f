//! The outlines of round solids (document 02, vii): a second implementation of that paragraph, over larnt's vectors and
//! matrices. A draw's oracle takes them as lines that are handed in.

use crate::check::{parts, round};
use crate::plain::{matrix, render_args, vector};
use crate::stripes::striped;
use crate::{Scene, View};
use larnt_plain::common::EPS;
use larnt_plain::matrix::Matrix;
use larnt_plain::shape::RenderArgs;
use larnt_plain::vector::Vector;

pub type Line = Vec<[f64; 3]>;

/// What a solid has of the view: the eye in its own coordinates, the placings around it, innermost first, and the view's
/// own screen matrix, sheet and step.
#[derive(Clone)]
struct Sight {
    eye: Vector,
    placings: Vec<Matrix>,
    view: RenderArgs,
}

impl Sight {
    /// At the top, where nothing is placed.
    fn of(view: &View) -> Sight {
        let view = render_args(view);
        Sight { eye: view.eye, placings: Vec::new(), view }
    }

    /// Within a placing.
    fn within(mut self, m: Matrix) -> Sight {
        self.eye = m.inverse().mul_position(self.eye);
        self.placings.insert(0, m);
        self
    }

    /// A point moved by one placing after the other, as `transform` moves the points of a line.
    fn moved(&self, p: Vector) -> Vector {
        self.placings.iter().fold(p, |p, m| m.mul_position(p))
    }

    /// How deep halvings may nest.
    fn deepest(&self) -> u32 {
        if self.view.step > 0.0 { 8 } else { 5 }
    }

    /// The chopping rule of larnt's `path_chop_adaptive`, put to two ends as placed; at step 0 there is none.
    fn fine_enough(&self, ends: [Vector; 2]) -> bool {
        let RenderArgs { screen_mat, width, height, step, .. } = &self.view;
        let [a, b] = ends.map(|v| self.moved(v));
        let [sa, sb] = [a, b].map(|v| screen_mat.mul_position_w(v));
        let both = |beyond: &dyn Fn(Vector) -> bool| beyond(sa) && beyond(sb);
        *step > 0.0
            && (both(&|s| s.x < 0.0)
                || both(&|s| s.y < 0.0)
                || both(&|s| s.x > *width)
                || both(&|s| s.y > *height)
                || sa.distance_squared(sb) < step * step
                || a.distance_squared(b) < EPS)
    }
}

/// A circle about a centre, by two axes.
struct Ring {
    centre: Vector,
    axes: [Vector; 2],
    radius: f64,
}

impl Ring {
    /// In the own x and y axes.
    fn level(radius: f64, z: f64) -> Ring {
        let axes = [Vector::new(1.0, 0.0, 0.0), Vector::new(0.0, 1.0, 0.0)];
        Ring { centre: Vector::new(0.0, 0.0, z), axes, radius }
    }

    /// A point by its (u, v).
    fn point(&self, uv: Vector) -> Vector {
        let [first, second] = self.axes;
        self.centre.add(first.mul_scalar(uv.x)).add(second.mul_scalar(uv.y))
    }

    /// (u, v) halfway between two, unless their sum has length 0.
    fn middle(&self, a: Vector, b: Vector) -> Option<Vector> {
        unit(a.add(b)).map(|sum| sum.mul_scalar(self.radius))
    }

    /// One path, closed by its first point again.
    fn line(&self, sight: &Sight) -> Line {
        let r = self.radius;
        let corners = [(r, 0.0), (0.0, r), (-r, 0.0), (0.0, -r), (r, 0.0)];
        let corners = corners.map(|(u, v)| Vector::new(u, v, 0.0));
        let mut line = vec![told(self.point(corners[0]))];
        for quarter in corners.windows(2) {
            // the pieces that are left, the next one last, and the halvings around each
            let mut left = vec![(quarter[0], quarter[1], 0)];
            while let Some((a, b, halvings)) = left.pop() {
                let whole = halvings == sight.deepest()
                    || sight.fine_enough([self.point(a), self.point(b)]);
                match self.middle(a, b).filter(|_| !whole) {
                    Some(m) => left.extend([(m, b, halvings + 1), (a, m, halvings + 1)]),
                    None => line.push(told(self.point(b))),
                }
            }
        }
        line
    }
}

fn told(v: Vector) -> [f64; 3] {
    [v.x, v.y, v.z]
}

/// Rings at z0 and z1, and the upright lines where the eye isn't above or below the solid.
fn cylinder(n: &[f64], sight: &Sight) -> Vec<Line> {
    let (r, z0, z1) = (n[0], n[1], n[2]);
    let rings = [z0, z1].map(|z| Ring::level(r, z).line(sight));
    let uprights = tangents(r, r, sight.eye).into_iter();
    rings.into_iter().chain(uprights.map(|[x, y]| vec![[x, y, z0], [x, y, z1]])).collect()
}

/// The base ring, and lines to the apex.
fn cone(n: &[f64], sight: &Sight) -> Vec<Line> {
    let (r, height) = (n[0], n[1]);
    let c = r * (1.0 - sight.eye.z / height);
    let ring = Ring::level(r, 0.0).line(sight);
    let lines = tangents(r, c, sight.eye).into_iter();
    std::iter::once(ring).chain(lines.map(|[x, y]| vec![[x, y, 0.0], [0.0, 0.0, height]])).collect()
}

/// The points of the circle of radius r where ax + by = cr, the eye at (a, b); none where e <= c^2.
fn tangents(r: f64, c: f64, eye: Vector) -> Vec<[f64; 2]> {
    let (a, b) = (eye.x, eye.y);
    let e = a * a + b * b;
    if e <= c * c {
        return Vec::new();
    }
    let q = (e - c * c).sqrt();
    vec![
        [r * (c * a - q * b) / e, r * (c * b + q * a) / e],
        [r * (c * a + q * b) / e, r * (c * b - q * a) / e],
    ]
}

/// The ring in which the surface turns away from an eye outside.
fn sphere(n: &[f64], sight: &Sight) -> Vec<Line> {
    let (r, to) = (n[3], Vector::new(n[0], n[1], n[2]).sub(sight.eye));
    let h = to.length();
    if !(h > r) {
        return Vec::new();
    }
    let w = over_length(to);
    let first = over_length(w.cross(w.min_axis()));
    let centre = sight.eye.add(w.mul_scalar((h * h - r * r) / h));
    let radius = r * (h * h - r * r).sqrt() / h;
    vec![Ring { centre, axes: [first, w.cross(first)], radius }.line(sight)]
}

/// `normalize` without its assertion: a vector over its computed length, whatever that is.
fn over_length(v: Vector) -> Vector {
    let d = v.length();
    Vector::new(v.x / d, v.y / d, v.z / d)
}

/// `normalize`, where that has an answer.
fn unit(v: Vector) -> Option<Vector> {
    (v.length() != 0.0).then(|| v.normalize())
}

/// The outline of a solid, the eye in its own coordinates; kinds that aren't round have none.
fn outline_of(kind: u32, numbers: &[f64], sight: &Sight) -> Vec<Line> {
    match kind {
        1 => sphere(numbers, sight),
        2 | 8 => cylinder(numbers, sight),
        3 | 9 => cone(numbers, sight),
        _ => Vec::new(),
    }
}

/// The outline of a solid alone, given the eye in its own coordinates and the placings around it, innermost first.
pub fn outline(
    kind: u32,
    n: &[f64],
    eye: [f64; 3],
    placings: &[[f64; 16]],
    view: &View,
) -> Vec<Line> {
    let placings = placings.iter().map(|m| matrix(m)).collect();
    outline_of(kind, n, &Sight { eye: vector(eye), placings, view: render_args(view) })
}

/// The eye in the coordinates of what stands within these placings, innermost first.
pub fn own_eye(view: &View, placings: &[[f64; 16]]) -> [f64; 3] {
    let within = |sight: Sight, m: &[f64; 16]| sight.within(matrix(m));
    told(placings.iter().rev().fold(Sight::of(view), within).eye)
}

/// Whether a solid is round and has neither handed-in lines nor stripes.
pub fn bare(scene: &Scene, i: usize) -> bool {
    let marks = scene.marks_of(i);
    let stripes = striped(marks[0]) && marks[1] > 0;
    round(marks[0]) && !stripes && !scene.owners.contains(&(i as u32))
}

/// The outline of each entry, in its own coordinates; none where it has other lines.
pub fn outlines(scene: &Scene, view: &View) -> Vec<Vec<Line>> {
    let n = scene.entries();
    let mut sights = vec![Sight::of(view); n];
    let mut found = vec![Vec::new(); n];
    // parts are earlier: what names an entry has been there before
    for i in (0..n).rev() {
        let (marks, numbers) = (scene.marks_of(i), scene.numbers_of(i));
        for part in parts(marks) {
            let sight = sights[i].clone();
            let placed = marks[0] == 6;
            sights[*part as usize] = if placed { sight.within(matrix(numbers)) } else { sight };
        }
        if bare(scene, i) {
            found[i] = outline_of(marks[0], numbers, &sights[i]);
        }
    }
    found
}

/// The scene with its outlines among the lines that are handed in.
pub fn with_outlines(scene: &Scene, view: &View) -> Scene {
    let (numbers, marks) = (scene.numbers.clone(), scene.marks.clone());
    let mut all = Scene { numbers, marks, ..Scene::default() };
    let mut handed = scene.owners.iter().enumerate().peekable();
    for (i, outline) in outlines(scene, view).iter().enumerate() {
        outline.iter().for_each(|line| all.push_line(i as u32, line));
        while let Some((k, owner)) = handed.next_if(|(_, owner)| **owner as usize == i) {
            let end = scene.starts.get(k + 1).copied().unwrap_or(scene.points.len() / 3);
            let points = scene.points[3 * scene.starts[k]..3 * end].as_chunks().0;
            all.push_line(*owner, points);
        }
    }
    all
}
