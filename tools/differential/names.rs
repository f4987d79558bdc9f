//! The names that hits carry: the entry whose t last became the best, and who hides a point. larnt names
//! nobody, so its own walk is watched: each solid of its tree notes what t it gave, in order.

use crate::calls::alike;
use crate::harness::{Part, Run};
use crate::scene_calls::{UNFILLED, number};
use crate::tree_calls::{NOBODY, by_calls, eye_and_point, inner, refused};
use crate::tree_inputs::{self, Rays};
use crate::trees::length;
use oracle::larnt_limited::bounding_box::BBox;
use oracle::larnt_limited::hit::Hit;
use oracle::larnt_limited::path::Paths;
use oracle::larnt_limited::ray::Ray;
use oracle::larnt_limited::shape::{RenderArgs, Shape};
use oracle::larnt_limited::tree::Tree;
use oracle::larnt_limited::vector::Vector;
use oracle::limited::{self, Solid};
use oracle::{Answer, Room, check};
use std::cell::RefCell;

/// Number, t, ok and entry; or number and entry.
type Named = [u64; 4];

pub fn compare(run: &mut Run) {
    let rays = 5 * run.count;
    let nobody = u64::from(NOBODY);
    let shares: &[Part<Rays, Named>] = &[
        ("named", &|_, _, a| a[0] == 0 && a[3] != nobody),
        ("a miss named", &|_, _, a| a[0] == 0 && a[3] != nobody && a[2] == 0),
        ("nobody", &|_, _, a| a[3] == nobody),
        ("refused", &|_, _, a| a[0] != 0),
    ];
    let cores: [&dyn Fn(&Rays) -> Vec<Named>; 2] = [&core_hits, &inner_hits];
    run.compare_many("named", rays, tree_inputs::hits, Rays::one, rust_hits, &cores, shares);

    let shares: &[Part<Rays, Named>] = &[
        ("hidden", &|_, _, a| a[0] == 0 && a[1] != nobody),
        ("clear", &|_, _, a| a[1] == nobody),
        ("refused", &|_, _, a| a[0] != 0),
    ];
    let cores: [&dyn Fn(&Rays) -> Vec<Named>; 2] = [&core_hiders, &hiders_by_ray];
    run.compare_many("occluder", rays, tree_inputs::sights, Rays::one, rust_hiders, &cores, shares);
}

fn told_hit(number: u32, t: f64, ok: bool, entry: u32) -> Named {
    let t = if number == 0 { alike(t) } else { t.to_bits() };
    [u64::from(number), t, u64::from(ok), u64::from(entry)]
}

fn told_hider(number: u32, entry: u32) -> Named {
    [u64::from(number), u64::from(entry), 0, 0]
}

// The compiled core.

/// The public calls, directly and as a host in Rust makes them, in turn.
fn core_hits(case: &Rays) -> Vec<Named> {
    by_calls(case, |calls, rows, k, asked| {
        let (mut t, mut ok, mut entry) = (UNFILLED, k % 4 < 2, 7);
        let number = (calls.intersect)(&case.scene, rows, asked, &mut t, &mut ok, &mut entry);
        told_hit(number, t, ok, entry)
    })
}

/// The inner walk, where nothing is refused before it.
fn inner_hits(case: &Rays) -> Vec<Named> {
    inner(case, |checked, k, asked| {
        if check::measures(asked).is_err() {
            return refused(8);
        }
        let (mut t, mut ok, mut entry) = (UNFILLED, k % 4 < 2, 7);
        let number = checked.intersect(asked, &mut t, &mut ok, &mut entry);
        told_hit(number, t, ok, entry)
    })
}

fn core_hiders(case: &Rays) -> Vec<Named> {
    by_calls(case, |calls, rows, _, asked| {
        let mut entry = 7;
        let (eye, point) = eye_and_point(asked);
        let number = (calls.occluder)(&case.scene, rows, eye, point, &mut entry);
        told_hider(number, entry)
    })
}

/// What `visible` answers and, where that is no, the name that `intersect` gives on the ray from the point.
fn hiders_by_ray(case: &Rays) -> Vec<Named> {
    by_calls(case, |calls, rows, _, asked| {
        let mut seen = false;
        let (eye, point) = eye_and_point(asked);
        let number = (calls.visible)(&case.scene, rows, eye, point, &mut seen);
        if number != 0 || seen {
            return told_hider(number, if number == 0 { NOBODY } else { 0 });
        }
        let (mut t, mut ok, mut entry) = (UNFILLED, false, 7);
        let ray = eye_ray(asked);
        let number = (calls.intersect)(&case.scene, rows, &ray, &mut t, &mut ok, &mut entry);
        told_hider(number, entry)
    })
}

/// The ray from the point to the eye, of length 1.
pub fn eye_ray(asked: &[f64; 6]) -> [f64; 6] {
    let distance = length(asked);
    std::array::from_fn(|k| if k < 3 { asked[k + 3] } else { (asked[k - 3] - asked[k]) / distance })
}

// larnt, watched.

/// An entry, and the t that it gave a ray.
type Tried = RefCell<Vec<(u32, f64)>>;

/// A solid in larnt's tree that notes each t that it gives.
struct Watched<'a> {
    index: u32,
    solid: &'a Solid,
    tried: &'a Tried,
}

impl Shape for Watched<'_> {
    fn bounding_box(&self) -> BBox {
        self.solid.bounding_box()
    }

    fn contains(&self, v: Vector, f: f64) -> bool {
        self.solid.contains(v, f)
    }

    fn intersect(&self, r: Ray) -> Hit {
        let hit = self.solid.intersect(r);
        self.tried.borrow_mut().push((self.index, hit.t));
        hit
    }

    fn paths(&self, args: &RenderArgs) -> Paths<Vector> {
        self.solid.paths(args)
    }
}

/// Of the solids tried, the last whose t was less than all before it and than INF.
fn name(tried: &Tried) -> u32 {
    let (mut best, mut name) = (1e9, NOBODY);
    for (index, t) in tried.take() {
        if t < best {
            (best, name) = (t, index);
        }
    }
    name
}

fn rust_hits(case: &Rays) -> Vec<Named> {
    watched(case, |tree, tried, asked| {
        let hit =
            check::measures(asked).and_then(|()| run(|| tree.intersect(limited::ray(*asked))));
        let name = name(tried);
        hit.as_ref().map_or(refused(number(&hit)), |h| told_hit(0, h.t, h.ok, name))
    })
}

fn rust_hiders(case: &Rays) -> Vec<Named> {
    watched(case, |tree, tried, asked| {
        let (eye, point) = eye_and_point(asked);
        let visible = || {
            let (eye, point) = (limited::vector(*eye), limited::vector(*point));
            oracle::larnt_limited::scene::visible(tree, eye, point)
        };
        let seen = check::measures(eye).and_then(|()| run(visible));
        let name = name(tried);
        let hider = |seen: &bool| told_hider(0, if *seen { NOBODY } else { name });
        seen.as_ref().map_or(refused(number(&seen)), hider)
    })
}

fn run<T>(work: impl FnOnce() -> T) -> Answer<T> {
    oracle::larnt_limited::limits::begin(Room::ENDLESS);
    oracle::caught(work)
}

fn watched(case: &Rays, one: impl Fn(&Tree<Watched>, &Tried, &[f64; 6]) -> Named) -> Vec<Named> {
    let entries = match oracle::accepted(&case.scene) {
        Ok(entries) => entries,
        Err(trouble) => {
            return vec![refused(number::<()>(&Err(trouble))); case.asked.len()];
        }
    };
    let tried = Tried::default();
    let solids = entries.drawn.iter().zip(&entries.solids);
    oracle::larnt_limited::limits::begin(Room::ENDLESS);
    let tree = Tree::new(
        solids.map(|(index, solid)| Watched { index: *index, solid, tried: &tried }).collect(),
    );
    case.asked.iter().map(|asked| one(&tree, &tried, asked)).collect()
}
