//! The compiled core: target/staticlib/libhost.a, called directly and through host/larnt.rs.

use crate::calls::Calls;
use crate::host::{self, raw};
use crate::scene_calls::{Found, SceneCalls};
use oracle::Scene;

pub const CORE: Calls = Calls {
    sqrt: raw::larnt_sqrt,
    length: raw::larnt_length,
    distance: raw::larnt_distance,
    box_test: raw::larnt_box_test,
    project: raw::larnt_project,
    inverse: raw::larnt_inverse,
    solid_hit: raw::larnt_solid_hit,
    solid_box: raw::larnt_solid_box,
    solid_contains: raw::larnt_solid_contains,
};

/// The same through the functions that a host in Rust uses.
pub const HOST: Calls = Calls {
    sqrt: host_sqrt,
    length: host_length,
    distance: host_distance,
    box_test: host_box_test,
    project: host_project,
    inverse: host_inverse,
    solid_hit: host_solid_hit,
    solid_box: host_solid_box,
    solid_contains: host_solid_contains,
};

extern "C" fn host_sqrt(x: f64, rest: &mut i64) -> f64 {
    let root;
    (root, *rest) = host::sqrt(x);
    root
}

extern "C" fn host_length(v: &[f64; 3], rest: &mut i64) -> f64 {
    let root;
    (root, *rest) = host::length(v);
    root
}

extern "C" fn host_distance(a: &[f64; 3], b: &[f64; 3], rest: &mut i64) -> f64 {
    let root;
    (root, *rest) = host::distance(a, b);
    root
}

extern "C" fn host_box_test(b: &[f64; 6], ray: &[f64; 6], span: &mut [f64; 2]) {
    *span = host::box_test(b, ray);
}

extern "C" fn host_project(m: &[f64; 16], p: &[f64; 3], projected: &mut [f64; 3]) {
    *projected = host::project(m, p);
}

extern "C" fn host_inverse(m: &[f64; 16], inverse: &mut [f64; 16]) -> f64 {
    let determinant;
    (*inverse, determinant) = host::inverse(m);
    determinant
}

extern "C" fn host_solid_hit(
    kind: u32,
    n: &[f64; 16],
    ray: &[f64; 6],
    t: &mut f64,
    ok: &mut bool,
) -> u32 {
    let number;
    (number, (*t, *ok)) = numbered(host::solid_hit(kind, n, ray));
    number
}

extern "C" fn host_solid_box(kind: u32, n: &[f64; 16], b: &mut [f64; 6]) -> u32 {
    let number;
    (number, *b) = numbered(host::solid_box(kind, n));
    number
}

extern "C" fn host_solid_contains(
    kind: u32,
    n: &[f64; 16],
    p: &[f64; 3],
    f: f64,
    inside: &mut bool,
) -> u32 {
    let number;
    (number, *inside) = numbered(host::solid_contains(kind, n, p, f));
    number
}

/// A result as a call of the header gives it: its number, and what is filled.
pub fn numbered<T: Default>(result: Result<T, u32>) -> (u32, T) {
    match result {
        Ok(value) => (0, value),
        Err(number) => (number, T::default()),
    }
}

pub const CORE_SCENES: SceneCalls =
    SceneCalls { check: core_check, own_hit: core_own_hit, own_contains: core_own_contains };

pub const HOST_SCENES: SceneCalls =
    SceneCalls { check: host_check, own_hit: host_own_hit, own_contains: host_own_contains };

/// A direct call on a scene, for every layer.
macro_rules! direct {
    ($call:ident, $s:ident, $($more:expr),*) => {
        unsafe {
            raw::$call(
                $s.numbers.as_ptr(),
                $s.numbers.len(),
                $s.marks.as_ptr(),
                $s.marks.len(),
                $s.points.as_ptr(),
                $s.points.len(),
                $s.starts.as_ptr(),
                $s.starts.len(),
                $s.owners.as_ptr(),
                $s.owners.len(),
                $($more),*
            )
        }
    };
}
pub(crate) use direct;

fn core_check(s: &Scene, found: &mut Found) -> u32 {
    let Found { inverses, boxes, drawn, count } = found;
    direct!(larnt_check, s, inverses, boxes, drawn, count)
}

fn core_own_hit(s: &Scene, i: usize, ray: &[f64; 6], t: &mut f64, ok: &mut bool) -> u32 {
    direct!(larnt_own_hit, s, i, ray, t, ok)
}

fn core_own_contains(s: &Scene, i: usize, p: &[f64; 3], f: f64, inside: &mut bool) -> u32 {
    direct!(larnt_own_contains, s, i, p, f, inside)
}

/// A scene as a host in Rust hands it over.
pub fn lent(s: &Scene) -> host::Scene<'_> {
    host::Scene {
        numbers: &s.numbers,
        marks: &s.marks,
        points: &s.points,
        starts: &s.starts,
        owners: &s.owners,
    }
}

fn host_check(s: &Scene, found: &mut Found) -> u32 {
    let number;
    let Found { inverses, boxes, drawn, .. } = found;
    (number, found.count) = numbered(host::check(lent(s), inverses, boxes, drawn));
    number
}

fn host_own_hit(s: &Scene, i: usize, ray: &[f64; 6], t: &mut f64, ok: &mut bool) -> u32 {
    let number;
    (number, (*t, *ok)) = numbered(host::own_hit(lent(s), i, ray));
    number
}

fn host_own_contains(s: &Scene, i: usize, p: &[f64; 3], f: f64, inside: &mut bool) -> u32 {
    let number;
    (number, *inside) = numbered(host::own_contains(lent(s), i, p, f));
    number
}
