//! Pen travel: whole tours of two drawings by `larnt_pick`, against a second implementation that lists
//! every path that waits and takes the least of the list; and the way of a pen on stored drawings.

use crate::harness::{Run, Share, Shown};
use crate::host::{self, raw};
use crate::scene_calls::Words;
use oracle::generate::Rng;

/// Two drawings, the marks at first, and where the pen is at each pick: if there are no positions it
/// follows the paths, from (0, 0, 0).
#[derive(Clone, Debug)]
pub struct Tour {
    pub yard: (Vec<f64>, Vec<usize>),
    pub lines: (Vec<f64>, Vec<usize>),
    pub marks: Vec<u8>,
    pub pens: Vec<[f64; 3]>,
}

impl Shown for Tour {
    fn size(&self) -> u32 {
        (self.yard.0.len() + self.lines.0.len() + self.marks.len()) as u32
    }

    fn text(&self) -> String {
        format!("{self:?}")
    }
}

/// What a pick answers: of the lines or not, which path, its first point and the one after its last.
type Picked = Result<(bool, usize, usize, usize), u32>;

/// Picks until one is refused; each answer, and the marks after it.
fn tour(case: &Tour, pick: impl Fn(&Tour, &[f64; 3], &mut [u8]) -> Picked) -> Words {
    let (mut marks, mut pen, mut words) = (case.marks.clone(), [0.0; 3], vec![]);
    for t in 0..case.marks.len() + 2 {
        if !case.pens.is_empty() {
            pen = case.pens[t % case.pens.len()];
        }
        let picked = pick(case, &pen, &mut marks);
        words.extend(marks.iter().map(|mark| u64::from(*mark)));
        match picked {
            Err(number) => {
                words.push(u64::from(number));
                return Words(words);
            }
            Ok((of_lines, path, from, end)) => {
                words.extend([0, u64::from(of_lines), path as u64, from as u64, end as u64]);
                let points = if of_lines { &case.lines.0 } else { &case.yard.0 };
                pen.copy_from_slice(&points[end * 3 - 3..end * 3]);
            }
        }
    }
    Words(words)
}

/// How many points each path has, by its starts, or nothing if these are wrong.
fn counts(points: usize, starts: &[usize]) -> Option<Vec<usize>> {
    let ends = starts.iter().skip(1).copied().chain([points]);
    let good = starts.first().is_none_or(|first| *first == 0);
    let counts = starts.iter().zip(ends).map(|(start, end)| end.checked_sub(*start));
    counts.collect::<Option<Vec<usize>>>().filter(|_| good)
}

fn rust_pick(case: &Tour, pen: &[f64; 3], marks: &mut [u8]) -> Picked {
    let drawings = [&case.yard, &case.lines];
    let paths = case.yard.1.len() + case.lines.1.len();
    if drawings.iter().any(|d| d.0.len() % 3 != 0) || marks.len() != paths {
        return Err(2);
    }
    let of = |d: &(Vec<f64>, Vec<usize>)| counts(d.0.len() / 3, &d.1);
    let (Some(yard), Some(lines)) = (of(&case.yard), of(&case.lines)) else {
        return Err(4);
    };
    let handed = drawings.iter().filter(|d| !d.1.is_empty()).flat_map(|d| &d.0);
    if handed.chain(pen).any(|x| !x.is_finite()) {
        return Err(9);
    }
    let mut waiting = vec![];
    for (d, counts) in [yard, lines].into_iter().enumerate() {
        for (k, count) in counts.into_iter().enumerate() {
            let mark = if d == 0 { k } else { case.yard.1.len() + k };
            if marks[mark] == 0 && count > 0 {
                let from = drawings[d].1[k];
                let p = &drawings[d].0[from * 3..];
                let [x, y, z] = [0, 1, 2].map(|axis| pen[axis] - p[axis]);
                waiting.push((x * x + y * y + z * z, mark, d, k, from, from + count));
            }
        }
    }
    let least =
        waiting.into_iter().min_by(|a, b| a.0.partial_cmp(&b.0).unwrap().then(a.1.cmp(&b.1)));
    let (_, mark, d, k, from, end) = least.ok_or(15u32)?;
    marks[mark] = 1;
    Ok((d == 1, k, from, end))
}

/// The call of the header. What it fills holds something before; after a refusal it must be 0.
fn core_pick(case: &Tour, pen: &[f64; 3], marks: &mut [u8]) -> Picked {
    let (mut of_lines, mut path, mut from, mut end) = (true, 7, 7, 7);
    let ((y, ys), (l, ls)) = (&case.yard, &case.lines);
    let number = unsafe {
        raw::larnt_pick(
            y.as_ptr(),
            y.len(),
            ys.as_ptr(),
            ys.len(),
            l.as_ptr(),
            l.len(),
            ls.as_ptr(),
            ls.len(),
            pen,
            marks.as_mut_ptr(),
            marks.len(),
            &mut of_lines,
            &mut path,
            &mut from,
            &mut end,
        )
    };
    match number {
        0 => Ok((of_lines, path, from, end)),
        _ if (of_lines, path, from, end) != (false, 0, 0, 0) => Err(99),
        _ => Err(number),
    }
}

/// The same through host/larnt.rs, which hands back the part itself.
fn host_pick(case: &Tour, pen: &[f64; 3], marks: &mut [u8]) -> Picked {
    let [yard, lines] =
        [&case.yard, &case.lines].map(|d| host::Drawing { points: &d.0, starts: &d.1 });
    let part = host::pick(yard, lines, pen, marks)?;
    let place = |d: &[f64]| {
        let at = (part.as_ptr() as usize).wrapping_sub(d.as_ptr() as usize) / 8;
        (at + part.len() <= d.len()).then_some(at / 3)
    };
    let of_lines = place(&case.yard.0).is_none();
    let d = if of_lines { &case.lines } else { &case.yard };
    let from = place(&d.0).unwrap_or(usize::MAX);
    let path = d.1.iter().rposition(|start| *start == from).unwrap_or(usize::MAX);
    Ok((of_lines, path, from, from + part.len() / 3))
}

/// A number of a point: few different ones, so that distances tie, or any, or so large that squares are
/// infinite.
fn number(rng: &mut Rng, kind: usize) -> f64 {
    match kind {
        0 => rng.below(3) as f64,
        1 => rng.between(-1000.0, 1000.0),
        2 => rng.pick(&[0.0, -0.0, 1.0, 1e154, -1e154, 1e155, 1e200, -1e300, f64::MAX, -f64::MAX]),
        _ => f64::from_bits(rng.next()).clamp(-f64::MAX, f64::MAX).max(-f64::MAX),
    }
}

fn drawing(rng: &mut Rng, kind: usize) -> (Vec<f64>, Vec<usize>) {
    let (mut points, mut starts) = (vec![], vec![]);
    for _ in 0..rng.pick(&[0, 1, 2, 3, 5, 8, 20]) {
        starts.push(points.len() / 3);
        for _ in 0..3 * rng.pick(&[0, 0, 1, 1, 2, 3, 6]) {
            points.push(number(rng, kind));
        }
    }
    if starts.is_empty() && rng.chance(30) {
        points = vec![f64::NAN; 3];
    }
    (points, starts)
}

/// One thing made wrong, or several.
fn spoil(rng: &mut Rng, case: &mut Tour) {
    let d = if rng.chance(50) { &mut case.yard } else { &mut case.lines };
    match rng.below(7) {
        0 => d.0.push(1.0),
        1 => case.marks.push(0),
        2 => drop(case.marks.pop()),
        3 => d.1.iter_mut().take(1).for_each(|start| *start = 1),
        4 => {
            let (k, to) = (rng.below(d.1.len() + 1), rng.below(d.0.len() / 3 + 3));
            d.1.iter_mut().skip(k).take(1).for_each(|start| *start = to);
        }
        5 => {
            let (k, x) =
                (rng.below(d.0.len() + 1), rng.pick(&[f64::NAN, f64::INFINITY, -f64::INFINITY]));
            d.0.iter_mut().skip(k).take(1).for_each(|number| *number = x);
        }
        _ => {
            let x = rng.pick(&[f64::NAN, f64::INFINITY]);
            case.pens.iter_mut().for_each(|pen| pen[rng.below(3)] = x);
        }
    }
}

fn make(rng: &mut Rng) -> Tour {
    let kind = rng.below(4);
    let (yard, lines) = (drawing(rng, kind), drawing(rng, kind));
    let paths = yard.1.len() + lines.1.len();
    let mut marks = vec![0; paths];
    if rng.chance(20) {
        marks.iter_mut().for_each(|mark| *mark = rng.pick(&[0, 0, 1, 2, 255]));
    }
    let positions = if rng.chance(50) { 0 } else { paths + 2 };
    let pens = (0..positions).map(|_| [0; 3].map(|_| number(rng, kind))).collect();
    let mut case = Tour { yard, lines, marks, pens };
    while rng.chance(15) {
        spoil(rng, &mut case);
    }
    case
}

pub fn compare(run: &mut Run) {
    let last = |a: &Words| *a.0.last().unwrap();
    let shares: &[Share<Tour, Words>] = &[
        ("to its end", &|_, a| last(a) == 15),
        ("2", &|_, a| last(a) == 2),
        ("4", &|_, a| last(a) == 4),
        ("9", &|_, a| last(a) == 9),
        ("infinite squares", &|case, _| far(case)),
        ("from zeros", &|case, _| case.marks.iter().all(|mark| *mark == 0)),
        ("every path once", &once),
    ];
    let cores: [&dyn Fn(&Tour) -> Words; 2] =
        [&|case| tour(case, core_pick), &|case| tour(case, host_pick)];
    run.compare("tour", run.count, make, |case| tour(case, rust_pick), &cores, shares);
}

/// Some number's square is infinite.
fn far(case: &Tour) -> bool {
    case.yard.0.iter().chain(&case.lines.0).any(|x| x.is_finite() && (x * x).is_infinite())
}

/// From zeros to the end, each path with points was picked once and no other: of the answers alone.
fn once(case: &Tour, answers: &Words) -> bool {
    let n = case.marks.len();
    let mut picked = vec![0; n];
    let mut rest = &answers.0[..];
    while rest.len() > n + 1 {
        let [_, of_lines, path, ..] = rest[n..] else { return false };
        picked[path as usize + if of_lines == 1 { case.yard.1.len() } else { 0 }] += 1;
        rest = &rest[n + 5..];
    }
    let points = |d: &(Vec<f64>, Vec<usize>)| counts(d.0.len() / 3, &d.1).unwrap_or_default();
    let all = [points(&case.yard), points(&case.lines)].concat();
    rest.last() == Some(&15)
        && case.marks.iter().all(|mark| *mark == 0)
        && picked.iter().zip(all).all(|(times, count)| *times == usize::from(count > 0))
}

pub fn speed() {}

/// Of each stored drawing, in the form that `yard` prints, how far the pen travels up: in the order of the
/// drawing, as it is picked, and the one over the other. Ends with 1 if a drawing cannot be read.
pub fn travel(files: &[&str]) -> bool {
    println!("drawing                   paths   in order     picked   ratio");
    files.iter().all(|file| {
        let Some(yard) = std::fs::read_to_string(file).ok().and_then(|text| stored(&text)) else {
            println!("{file}: no drawing");
            return false;
        };
        let case =
            Tour { marks: vec![0; yard.1.len()], yard, lines: (vec![], vec![]), pens: vec![] };
        let mut order = vec![];
        let (mut marks, mut pen) = (case.marks.clone(), [0.0; 3]);
        while let Ok((_, _, from, end)) = core_pick(&case, &pen, &mut marks) {
            order.push((from, end));
            pen.copy_from_slice(&case.yard.0[end * 3 - 3..end * 3]);
        }
        let mut drawn = order.clone();
        drawn.sort();
        let (first, picked) = (up(&case.yard.0, &drawn), up(&case.yard.0, &order));
        let name = file.rsplit('/').next().unwrap();
        println!(
            "{name:<24} {:>6} {first:>10.1} {picked:>10.1} {:>7.3}",
            order.len(),
            picked / first
        );
        true
    })
}

/// The way from (0, 0) to the first path and from the end of each to the next, on the sheet.
fn up(points: &[f64], paths: &[(usize, usize)]) -> f64 {
    let mut pen = [0.0; 2];
    paths.iter().fold(0.0, |way, (from, end)| {
        let (x, y) = (points[from * 3] - pen[0], points[from * 3 + 1] - pen[1]);
        pen.copy_from_slice(&points[end * 3 - 3..end * 3 - 1]);
        way + x.hypot(y)
    })
}

/// The points and starts of a drawing as `yard` prints it.
fn stored(text: &str) -> Option<(Vec<f64>, Vec<usize>)> {
    let (mut points, mut starts) = (vec![], vec![]);
    let mut lines = text.lines();
    lines.next()?.strip_prefix("(drawing ")?;
    for line in lines {
        starts.push(points.len() / 3);
        for word in line.split(['(', ')', ' ']).filter_map(|word| word.strip_prefix('#')) {
            points.push(f64::from_bits(u64::from_str_radix(word, 16).ok()?));
        }
    }
    Some((points, starts))
}
