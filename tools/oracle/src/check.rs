//! Refusals 2 to 5 and 8 of document 01 and 14 of document 02, which need no geometry.

use crate::stripes::{MOST_STRIPES, striped};
use crate::{Answer, Lines, Scene, Trouble, View};

pub const MOST_ENTRIES: usize = 1024;
pub const DEEPEST: u32 = 8;
pub const LARGEST: f64 = 1e6;

fn pass_if(passes: bool, number: u32) -> Answer<()> {
    if passes { Ok(()) } else { Err(Trouble::Refused(number)) }
}

pub fn small(x: f64) -> bool {
    x.is_finite() && x.abs() <= LARGEST
}

fn finite(xs: &[f64]) -> bool {
    xs.iter().all(|x| x.is_finite())
}

/// 2, 3, 14, 4 and 5, each number over the whole scene before the next.
pub fn scene(s: &Scene) -> Answer<()> {
    pass_if(lengths_agree(s), 2)?;
    pass_if((0..s.entries()).all(|i| marks_known(s.marks_of(i))), 3)?;
    pass_if((0..s.entries()).all(|i| stripes_few(s.marks_of(i))), 14)?;
    pass_if(parts_sound(s) && owners_sound(s) && starts_sound(&s.starts, s.points.len() / 3), 4)?;
    pass_if((0..s.entries()).all(|i| numbers_sound(s.marks_of(i)[0], s.numbers_of(i))), 5)
}

fn lengths_agree(s: &Scene) -> bool {
    s.numbers.len().is_multiple_of(16)
        && s.marks.len().is_multiple_of(4)
        && s.numbers.len() / 16 == s.marks.len() / 4
        && s.owners.len() == s.starts.len()
        && s.points.len().is_multiple_of(3)
        && s.entries() <= MOST_ENTRIES
}

fn marks_known(marks: &[u32]) -> bool {
    match marks[0] {
        4 => (1..=1000).contains(&marks[1]),
        7 => marks[1] <= 3,
        kind => (1..=9).contains(&kind),
    }
}

/// A count of stripes is at most 360.
fn stripes_few(marks: &[u32]) -> bool {
    !striped(marks[0]) || marks[1] <= MOST_STRIPES
}

/// The parts that an entry names; other places of its marks are ignored.
pub fn parts(marks: &[u32]) -> &[u32] {
    match marks[0] {
        6 => &marks[2..3],
        7 => &marks[2..4],
        _ => &[],
    }
}

/// Whether an entry that is meant stands somewhere inside an entry of a kind.
pub fn any_inside(scene: &Scene, meant: impl Fn(usize) -> bool, outer: u32) -> bool {
    let mut within = vec![false; scene.entries()];
    for i in (0..scene.entries()).rev() {
        let marks = scene.marks_of(i);
        for part in parts(marks) {
            within[*part as usize] = within[i] || marks[0] == outer;
        }
        if within[i] && meant(i) {
            return true;
        }
    }
    false
}

fn parts_sound(s: &Scene) -> bool {
    let mut named = vec![false; s.entries()];
    let mut depths = Vec::new();
    for i in 0..s.entries() {
        let mut depth = 1;
        for part in parts(s.marks_of(i)) {
            let part = *part as usize;
            if part >= i || named[part] {
                return false;
            }
            named[part] = true;
            depth = depth.max(depths[part] + 1);
        }
        if depth > DEEPEST {
            return false;
        }
        depths.push(depth);
    }
    true
}

/// The kinds that lines are handed in for.
pub fn round(kind: u32) -> bool {
    matches!(kind, 1 | 2 | 3 | 8 | 9)
}

fn owners_sound(s: &Scene) -> bool {
    let sound = |o: &u32| {
        let owner = *o as usize;
        owner < s.entries() && round(s.marks_of(owner)[0])
    };
    s.owners.iter().all(sound) && s.owners.is_sorted()
}

/// Path starts begin at 0, never fall and stay within the points.
pub fn starts_sound(starts: &[usize], points: usize) -> bool {
    starts.first().is_none_or(|s| *s == 0)
        && starts.is_sorted()
        && starts.last().is_none_or(|s| *s <= points)
}

/// How many of its 16 numbers an entry uses.
pub fn used_numbers(kind: u32) -> usize {
    match kind {
        1 => 4,
        2 | 8 => 3,
        3 | 9 => 2,
        4 => 6,
        5 => 9,
        6 => 16,
        _ => 0,
    }
}

fn numbers_sound(kind: u32, n: &[f64]) -> bool {
    let used = &n[..used_numbers(kind)];
    used.iter().all(|x| small(*x))
        && match kind {
            1 => n[3] >= 0.0,
            2 | 8 => n[0] >= 0.0 && n[1] <= n[2],
            3 | 9 => n[0] >= 0.0 && n[1] > 0.0,
            4 => (0..3).all(|k| n[k] <= n[k + 3]),
            _ => true,
        }
}

/// 2 and 4 of paths that are handed to chop or simplify.
pub fn lines(lines: &Lines) -> Answer<()> {
    pass_if(lines.points.len().is_multiple_of(3), 2)?;
    pass_if(starts_sound(&lines.starts, lines.points.len() / 3), 4)
}

/// 8 of a view.
pub fn view(v: &View) -> Answer<()> {
    let extent = |x: f64| x > 0.0 && x <= LARGEST;
    let step = v.step >= 0.0 && v.step <= 1000.0;
    pass_if(
        finite(&v.matrix)
            && v.eye.iter().all(|x| small(*x))
            && extent(v.width)
            && extent(v.height)
            && step,
        8,
    )
}

/// 8 of a ray or an eye.
pub fn measures(xs: &[f64]) -> Answer<()> {
    pass_if(xs.iter().all(|x| small(*x)), 8)
}

/// 8 of a threshold.
pub fn threshold(t: f64) -> Answer<()> {
    pass_if(t.is_finite() && t >= 0.0, 8)
}

/// 6 of all placings' determinants and inverses.
pub fn placings<'a>(all: impl Iterator<Item = (f64, &'a [f64; 16])>) -> Answer<()> {
    let mut all = all;
    pass_if(all.all(|(determinant, inverse)| determinant != 0.0 && finite(inverse)), 6)
}

/// 7 of all entries' boxes.
pub fn boxes(boxes: &[[f64; 6]]) -> Answer<()> {
    pass_if(boxes.iter().flatten().all(|x| small(*x)), 7)
}
