//! The calls on a scene, what they answer as words, and the oracle's own answers.

use crate::calls::alike;
use crate::harness::Shown;
use oracle::larnt_limited::shape::Shape;
use oracle::{Answer, Scene, Trouble, limited};
use std::fmt::Write;

/// The most entries of a scene.
pub const MOST: usize = 1024;

/// What a check fills.
pub struct Found {
    pub inverses: [f64; 16 * MOST],
    pub boxes: [f64; 6 * MOST],
    pub drawn: [u32; MOST],
    pub count: usize,
}

/// The calls as host/larnt.h declares them; each answers 0 or the number of the refusal.
pub struct SceneCalls {
    pub check: fn(&Scene, &mut Found) -> u32,
    pub own_hit: fn(&Scene, usize, &[f64; 6], &mut f64, &mut bool) -> u32,
    pub own_contains: fn(&Scene, usize, &[f64; 3], f64, &mut bool) -> u32,
}

/// An answer as words.
#[derive(PartialEq, Eq)]
pub struct Words(pub Vec<u64>);

impl Shown for Words {
    fn size(&self) -> u32 {
        self.0.iter().map(|word| word.count_ones()).sum()
    }

    fn text(&self) -> String {
        self.0.iter().fold(String::new(), |mut text, word| {
            let gap = if text.is_empty() { "" } else { " " };
            write!(text, "{gap}{word:X}").unwrap();
            text
        })
    }
}

/// The answer, the count, then each slice: how much of it there is before zeros alone follow, and
/// that. NaNs are written alike; zeros too, among the results.
pub fn check(calls: &SceneCalls, scene: &Scene) -> Words {
    let mut found = unfilled();
    let number = (calls.check)(scene, &mut found);
    let entries = if number == 0 { scene.entries() } else { 0 };
    let mut words = vec![u64::from(number), found.count as u64];
    put_floats(&mut words, &found.inverses, 16 * entries);
    put_floats(&mut words, &found.boxes, 6 * entries);
    put(&mut words, MOST, |k| u64::from(found.drawn[k]));
    Words(words)
}

/// The answer, t, and ok as 0 or 1.
pub fn own_hit(calls: &SceneCalls, scene: &Scene, i: usize, ray: &[f64; 6]) -> Words {
    let (mut t, mut ok) = (UNFILLED, i.is_multiple_of(2));
    let number = (calls.own_hit)(scene, i, ray, &mut t, &mut ok);
    let t = if number == 0 { alike(t) } else { t.to_bits() };
    Words(vec![u64::from(number), t, u64::from(ok)])
}

/// The answer, and inside as 0 or 1.
pub fn own_contains(calls: &SceneCalls, scene: &Scene, i: usize, p: &[f64; 3], f: f64) -> Words {
    let mut inside = i.is_multiple_of(2);
    let number = (calls.own_contains)(scene, i, p, f, &mut inside);
    Words(vec![u64::from(number), u64::from(inside)])
}

/// What stands in a place that a call is to fill.
pub const UNFILLED: f64 = 7.0;

pub fn unfilled() -> Box<Found> {
    Box::new(Found {
        inverses: [UNFILLED; 16 * MOST],
        boxes: [UNFILLED; 6 * MOST],
        drawn: [7; MOST],
        count: 7,
    })
}

pub fn put_floats(words: &mut Vec<u64>, slice: &[f64], results: usize) {
    let word = |k: usize| if k < results { alike(slice[k]) } else { slice[k].to_bits() };
    put(words, slice.len(), word);
}

pub fn put(words: &mut Vec<u64>, len: usize, word: impl Fn(usize) -> u64) {
    let used = (0..len).rev().find(|k| word(*k) != 0).map_or(0, |last| last + 1);
    words.push(used as u64);
    words.extend((0..used).map(word));
}

/// The oracle: larnt's own shapes, and document 01's refusals on top.
pub const RUST: SceneCalls =
    SceneCalls { check: rust_check, own_hit: rust_own_hit, own_contains: rust_own_contains };

fn rust_check(scene: &Scene, found: &mut Found) -> u32 {
    found.inverses.fill(0.0);
    found.boxes.fill(0.0);
    found.drawn.fill(0);
    found.count = 0;
    let answer = oracle::check(scene);
    if let Ok(checked) = &answer {
        for (i, inverse) in &checked.inverses {
            copy(&mut found.inverses[16 * i..], inverse);
        }
        copy(&mut found.boxes, checked.boxes.as_flattened());
        copy(&mut found.drawn, &checked.drawn);
        found.count = checked.drawn.len();
    }
    number(&answer)
}

fn rust_own_hit(scene: &Scene, i: usize, ray: &[f64; 6], t: &mut f64, ok: &mut bool) -> u32 {
    let answer = if oracle::check(scene).is_ok() && i >= scene.entries() {
        // nothing is there, so everything misses it
        oracle::check::measures(ray).map(|()| oracle::Hit { t: 1e9, ok: false })
    } else {
        oracle::own_hit(scene, i, *ray)
    };
    (*t, *ok) = answer.as_ref().map_or((0.0, false), |hit| (hit.t, hit.ok));
    number(&answer)
}

fn rust_own_contains(scene: &Scene, i: usize, p: &[f64; 3], f: f64, inside: &mut bool) -> u32 {
    let answer = oracle::check(scene);
    let within = || limited::solid_of(scene, i).contains(limited::vector(*p), f);
    *inside = answer.is_ok() && i < scene.entries() && within();
    number(&answer)
}

pub fn copy<T: Copy>(places: &mut [T], values: &[T]) {
    for (place, value) in places.iter_mut().zip(values) {
        *place = *value;
    }
}

pub fn number<T>(answer: &Answer<T>) -> u32 {
    match answer {
        Ok(_) => 0,
        Err(Trouble::Refused(number)) => *number,
        // no call on a scene has this answer
        Err(Trouble::Omitted | Trouble::Panicked(_)) => u32::MAX,
    }
}
