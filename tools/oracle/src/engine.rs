// Scenes as larnt's own shapes, and larnt's calls on them. Included twice: `larnt` names the
// plain build in one module and the limited one in the other.

use crate::stripes::stripes;
use crate::{Lines, Rows, Scene, View};
use larnt::axis::Axis;
use larnt::bounding_box::BBox;
use larnt::common::INF;
use larnt::cone::{Cone, ConeTexture};
use larnt::csg::{BooleanShape, Op};
use larnt::cube::{Cube, CubeTexture};
use larnt::cylinder::{Cylinder, CylinderTexture};
use larnt::hit::Hit;
use larnt::matrix::Matrix;
use larnt::path::Paths;
use larnt::ray::Ray;
use larnt::shape::{RenderArgs, Shape, TransformedShape};
use larnt::sphere::{Sphere, SphereTexture};
use larnt::tree::Tree;
use larnt::triangle::Triangle;
use larnt::vector::Vector;

/// Lines handed in for a round solid, and before them its stripes.
pub type Handed = Vec<Vec<Vector>>;

include!("closed.rs");

/// An entry as larnt's own shape. Only kinds 1 to 3 need a wrapper, for their lines; 8 and 9 are not larnt's.
pub enum Solid {
    Sphere(Sphere, Handed),
    Cylinder(Cylinder, Handed),
    Cone(Cone, Handed),
    Cube(Cube),
    Triangle(Triangle),
    Placed(Box<TransformedShape<Solid>>),
    Cut(BooleanShape<Solid>),
    /// Operations 2 and 3: larnt's cut but for its hit.
    TrueCut(BooleanShape<Solid>),
    ClosedCylinder(ClosedCylinder),
    ClosedCone(ClosedCone),
}

/// Kind 7. Operations 0 and 1 are larnt's own.
fn cut(operation: u32, a: Solid, b: Solid) -> Solid {
    let op = if operation.is_multiple_of(2) { Op::Intersection } else { Op::Difference };
    let both = BooleanShape::new(op, Box::new(a), Box::new(b));
    if operation < 2 { Solid::Cut(both) } else { Solid::TrueCut(both) }
}

/// The hit of operations 2 and 3 (document 02, vi): the distance from the first origin, the sum of
/// (t + 0.01) over all restarts in order, then plus the last t. A last miss is returned unchanged.
fn true_hit(cut: &BooleanShape<Solid>, first: Ray) -> Hit {
    let mut restarts: Vec<f64> = Vec::new();
    let mut ray = first;
    loop {
        let last = cut.a.intersect(ray).min(cut.b.intersect(ray));
        if !last.is_ok() || cut.contains(ray.position(last.t), 0.0) {
            if !last.ok {
                return last;
            }
            let sum = restarts.iter().fold(0.0, |sum, t| sum + (t + 0.01));
            return Hit { t: sum + last.t, ok: true };
        }
        restart(restarts.len());
        restarts.push(last.t);
        ray = Ray::new(ray.position(last.t + 0.01), ray.direction);
    }
}

fn handed_paths(lines: &Handed) -> Paths<Vector> {
    let mut paths = Paths::new();
    for line in lines {
        paths.new_path().extend(line.iter().copied());
    }
    paths
}

impl Shape for Solid {
    fn bounding_box(&self) -> BBox {
        match self {
            Solid::Sphere(s, _) => s.bounding_box(),
            Solid::Cylinder(s, _) => s.bounding_box(),
            Solid::Cone(s, _) => s.bounding_box(),
            Solid::Cube(s) => s.bounding_box(),
            Solid::Triangle(s) => s.bounding_box(),
            Solid::Placed(s) => s.bounding_box(),
            Solid::Cut(s) | Solid::TrueCut(s) => s.bounding_box(),
            Solid::ClosedCylinder(s) => s.bounding_box(),
            Solid::ClosedCone(s) => s.bounding_box(),
        }
    }

    fn contains(&self, v: Vector, f: f64) -> bool {
        match self {
            Solid::Sphere(s, _) => s.contains(v, f),
            Solid::Cylinder(s, _) => s.contains(v, f),
            Solid::Cone(s, _) => s.contains(v, f),
            Solid::Cube(s) => s.contains(v, f),
            Solid::Triangle(s) => s.contains(v, f),
            Solid::Placed(s) => s.contains(v, f),
            Solid::Cut(s) | Solid::TrueCut(s) => s.contains(v, f),
            Solid::ClosedCylinder(s) => s.contains(v, f),
            Solid::ClosedCone(s) => s.contains(v, f),
        }
    }

    fn intersect(&self, r: Ray) -> Hit {
        match self {
            Solid::Sphere(s, _) => s.intersect(r),
            Solid::Cylinder(s, _) => s.intersect(r),
            Solid::Cone(s, _) => s.intersect(r),
            Solid::Cube(s) => s.intersect(r),
            Solid::Triangle(s) => s.intersect(r),
            Solid::Placed(s) => s.intersect(r),
            Solid::Cut(s) => s.intersect(r),
            Solid::TrueCut(s) => true_hit(s, r),
            Solid::ClosedCylinder(s) => s.intersect(r),
            Solid::ClosedCone(s) => s.intersect(r),
        }
    }

    fn paths(&self, args: &RenderArgs) -> Paths<Vector> {
        match self {
            Solid::Sphere(_, lines) | Solid::Cylinder(_, lines) | Solid::Cone(_, lines) => {
                handed_paths(lines)
            }
            Solid::Cube(s) => s.paths(args),
            Solid::Triangle(s) => s.paths(args),
            Solid::Placed(s) => s.paths(args),
            Solid::Cut(s) | Solid::TrueCut(s) => s.paths(args),
            Solid::ClosedCylinder(s) => s.paths(args),
            Solid::ClosedCone(s) => s.paths(args),
        }
    }
}

/// A solid in a tree, with the index of its entry.
pub struct Drawn<'a> {
    pub index: u32,
    pub solid: &'a Solid,
}

impl Shape for Drawn<'_> {
    fn bounding_box(&self) -> BBox {
        self.solid.bounding_box()
    }

    fn contains(&self, v: Vector, f: f64) -> bool {
        self.solid.contains(v, f)
    }

    fn intersect(&self, r: Ray) -> Hit {
        self.solid.intersect(r)
    }

    fn paths(&self, args: &RenderArgs) -> Paths<Vector> {
        self.solid.paths(args)
    }
}

pub fn vector(v: [f64; 3]) -> Vector {
    Vector::new(v[0], v[1], v[2])
}

pub fn ray(r: [f64; 6]) -> Ray {
    Ray::new(Vector::new(r[0], r[1], r[2]), Vector::new(r[3], r[4], r[5]))
}

pub fn bbox(b: [f64; 6]) -> BBox {
    BBox::new(Vector::new(b[0], b[1], b[2]), Vector::new(b[3], b[4], b[5]))
}

pub fn of_bbox(b: BBox) -> [f64; 6] {
    [b.min.x, b.min.y, b.min.z, b.max.x, b.max.y, b.max.z]
}

/// A matrix of 16 numbers by rows.
pub fn matrix(m: &[f64]) -> Matrix {
    let mut result = Matrix::default();
    for (place, value) in rows_of(&mut result).into_iter().zip(m) {
        *place = *value;
    }
    result
}

pub fn of_matrix(mut m: Matrix) -> [f64; 16] {
    rows_of(&mut m).map(|place| *place)
}

fn rows_of(m: &mut Matrix) -> [&mut f64; 16] {
    [
        &mut m.x00, &mut m.x01, &mut m.x02, &mut m.x03, &mut m.x10, &mut m.x11, &mut m.x12,
        &mut m.x13, &mut m.x20, &mut m.x21, &mut m.x22, &mut m.x23, &mut m.x30, &mut m.x31,
        &mut m.x32, &mut m.x33,
    ]
}

/// Kinds 1 to 5, 8 and 9 from their numbers; `stripes` is the detail of a cube. Stripes of the others are in `lines`.
pub fn simple(kind: u32, stripes: u32, n: &[f64], lines: Handed) -> Solid {
    let corner = |i: usize| Vector::new(n[i], n[i + 1], n[i + 2]);
    match kind {
        1 => {
            let (center, radius, texture) = (corner(0), n[3], SphereTexture::default());
            Solid::Sphere(Sphere { center, radius, texture }, lines)
        }
        2 => {
            let (radius, z0, z1, texture) = (n[0], n[1], n[2], CylinderTexture::default());
            Solid::Cylinder(Cylinder { radius, z0, z1, texture }, lines)
        }
        3 => {
            let (radius, height, texture) = (n[0], n[1], ConeTexture::default());
            Solid::Cone(Cone { radius, height, texture }, lines)
        }
        4 => {
            let texture = match stripes {
                1 => CubeTexture::Vanilla,
                _ => CubeTexture::Striped(stripes as u64),
            };
            Solid::Cube(Cube { min: corner(0), max: corner(3), texture })
        }
        5 => Solid::Triangle(Triangle::new(corner(0), corner(3), corner(6))),
        8 => {
            let (radius, z0, z1, texture) = (n[0], n[1], n[2], CylinderTexture::default());
            let wall = Cylinder { radius, z0, z1, texture };
            Solid::ClosedCylinder(ClosedCylinder { wall, lines })
        }
        9 => {
            let wall = Cone { radius: n[0], height: n[1], texture: ConeTexture::default() };
            Solid::ClosedCone(ClosedCone { wall, lines })
        }
        _ => unreachable!("kind {kind} has parts or doesn't exist"),
    }
}

/// All entries of a scene that 2 to 5 let pass.
pub struct Entries {
    /// The box of each entry.
    pub boxes: Vec<[f64; 6]>,
    /// Each placing's index and inverse.
    pub inverses: Vec<(usize, [f64; 16])>,
    /// Entries that nobody names, and their solids.
    pub drawn: Vec<u32>,
    pub solids: Vec<Solid>,
}

pub fn entries(scene: &Scene) -> Entries {
    let mut held: Vec<Option<Solid>> = Vec::new();
    let mut boxes = Vec::new();
    let mut inverses = Vec::new();
    for i in 0..scene.entries() {
        let (marks, numbers) = (scene.marks_of(i), scene.numbers_of(i));
        let part = |held: &mut Vec<Option<Solid>>, k: usize| {
            held[marks[k] as usize].take().expect("a part is named once")
        };
        let solid = match marks[0] {
            6 => {
                let placed = TransformedShape::new(part(&mut held, 2), matrix(numbers));
                inverses.push((i, of_matrix(placed.inverse)));
                Solid::Placed(Box::new(placed))
            }
            7 => {
                let (a, b) = (part(&mut held, 2), part(&mut held, 3));
                cut(marks[1], a, b)
            }
            kind => simple(kind, marks[1], numbers, handed(scene, i)),
        };
        boxes.push(of_bbox(solid.bounding_box()));
        held.push(Some(solid));
    }
    let mut drawn = Vec::new();
    let mut solids = Vec::new();
    for (i, solid) in held.into_iter().enumerate() {
        if let Some(solid) = solid {
            drawn.push(i as u32);
            solids.push(solid);
        }
    }
    Entries { boxes, inverses, drawn, solids }
}

/// The solid of any entry, drawn or not.
pub fn solid_of(scene: &Scene, i: usize) -> Solid {
    let (marks, numbers) = (scene.marks_of(i), scene.numbers_of(i));
    let part = |k: usize| solid_of(scene, marks[k] as usize);
    match marks[0] {
        6 => Solid::Placed(Box::new(TransformedShape::new(part(2), matrix(numbers)))),
        7 => cut(marks[1], part(2), part(3)),
        kind => simple(kind, marks[1], numbers, handed(scene, i)),
    }
}

/// The lines of a round solid: its stripes, then those that are handed in.
fn handed(scene: &Scene, owner: usize) -> Handed {
    let marks = scene.marks_of(owner);
    let stripes = stripes(marks[0], marks[1], scene.numbers_of(owner)).into_iter();
    let stripes = stripes.map(|stripe| stripe.map(vector).to_vec());
    let mut lines = Vec::new();
    for (k, o) in scene.owners.iter().enumerate() {
        if *o as usize == owner {
            let end = scene.starts.get(k + 1).copied().unwrap_or(scene.points.len() / 3);
            lines.push((scene.starts[k]..end).map(|i| point(&scene.points, i)).collect());
        }
    }
    stripes.chain(lines).collect()
}

fn point(points: &[f64], i: usize) -> Vector {
    Vector::new(points[3 * i], points[3 * i + 1], points[3 * i + 2])
}

impl Entries {
    pub fn tree(&self) -> Tree<Drawn<'_>> {
        let drawn = self.drawn.iter().zip(&self.solids);
        Tree::new(drawn.map(|(index, solid)| Drawn { index: *index, solid }).collect())
    }
}

/// A tree as rows: boxes, marks (left_first, count, axis) and the entries in its order.
pub fn rows(tree: &Tree<Drawn>) -> Rows {
    let mut rows = Rows::default();
    for node in &tree.nodes {
        let axis = match node.axis {
            Axis::None => 0,
            Axis::X => 1,
            Axis::Y => 2,
            Axis::Z => 3,
        };
        rows.boxes.extend(of_bbox(node.bx));
        rows.marks.extend([node.left_first as u32, node.count as u32, axis]);
    }
    rows.order = tree.shapes().iter().map(|s| s.index).collect();
    rows
}

/// Hands paths over as they are: an empty one stays, as it can't in `new_path`.
pub fn paths(lines: &Lines) -> Paths<Vector> {
    if lines.starts.is_empty() {
        return Paths::new();
    }
    let buffer = (0..lines.points.len() / 3).map(|i| point(&lines.points, i)).collect();
    Paths { buffer, offsets: lines.starts.clone() }
}

pub fn of_paths(paths: Paths<Vector>) -> Lines {
    let points = paths.buffer.iter().flat_map(|v| [v.x, v.y, v.z]).collect();
    Lines { points, starts: paths.offsets }
}

/// What `render` hands to the shapes; `up` is used by angles alone.
pub fn render_args(view: &View) -> RenderArgs {
    let up = Vector::new(0.0, 0.0, 1.0);
    let (eye, m) = (vector(view.eye), matrix(&view.matrix));
    larnt::scene::render_args(eye, m, up, view.width, view.height, view.step)
}

pub fn chop(view: &View, lines: &Lines) -> Lines {
    of_paths(paths(lines).chop_adaptive(&render_args(view)))
}

pub fn simplify(threshold: f64, lines: &Lines) -> Lines {
    of_paths(paths(lines).simplify(threshold))
}

pub fn nearest(tree: &Tree<Drawn>, r: [f64; 6]) -> Hit {
    tree.intersect(ray(r))
}

pub fn visible(tree: &Tree<Drawn>, eye: [f64; 3], point: [f64; 3]) -> bool {
    larnt::scene::visible(tree, vector(eye), vector(point))
}

pub fn draw(entries: &Entries, view: &View, threshold: f64) -> Lines {
    let up = Vector::new(0.0, 0.0, 1.0);
    let (eye, m) = (vector(view.eye), matrix(&view.matrix));
    let solids: Vec<&Solid> = entries.solids.iter().collect();
    let View { width, height, step, .. } = *view;
    of_paths(larnt::scene::render(solids, eye, m, up, width, height, step, threshold))
}
