//! The program `yard` against the oracle's: seeded texts, good ones and spoilt ones, put to both.
//!
//!     texts SEED COUNT PROGRAM..               ends with 1 if any output differs by a byte
//!     texts SEED COUNT --canonical PROGRAM..   the program `canonical` against the second writer
//!     texts SEED COUNT --rows PROGRAM..        outlines in nested placings of any row 4
//!     texts SEED COUNT --chords PROGRAM..      outlines, the step where a ring's chord is just as long
//!
//! The shortest text that differs is left in target/differential/differing.yard.

#[allow(dead_code)]
mod calls;
#[allow(dead_code)]
mod draw_inputs;
#[allow(dead_code)]
mod harness;
#[allow(dead_code)]
mod inputs;
#[allow(dead_code)]
mod scene_calls;
#[allow(dead_code)]
mod scene_inputs;
mod second_writer;
#[allow(dead_code)]
mod stage_inputs;
#[allow(dead_code)]
mod tree_inputs;

use oracle::check::used_numbers;
use oracle::generate::Rng;
use oracle::stripes::striped;
use oracle::{Scene, Trouble, View};
use std::collections::BTreeMap;
use std::io::Write;
use std::process::{Command, ExitCode, Stdio};

const DIFFERING: &str = "target/differential/differing.yard";

fn main() -> ExitCode {
    let arguments: Vec<String> = std::env::args().skip(1).collect();
    let [seed, count, program @ ..] = &arguments[..] else {
        eprintln!("usage: texts SEED COUNT [--canonical | --rows | --chords] PROGRAM..");
        return ExitCode::from(2);
    };
    let (seed, count) = (seed.parse().expect("a seed"), count.parse().expect("a count"));
    match oracle::with_stack(|| compare(seed, count, program)) {
        0 => ExitCode::SUCCESS,
        _ => ExitCode::FAILURE,
    }
}

/// The yard in canonical form, or its refusal.
fn restated(text: &[u8]) -> String {
    let read = oracle::yard::read(text);
    match read.and_then(|(view, scene)| second_writer::judged(&scene, &view, usize::MAX)) {
        Ok(text) => text,
        Err(Trouble::Refused(number)) => format!("(refused {number})\n"),
        Err(_) => "omitted\n".to_string(),
    }
}

fn compare(seed: u64, count: u64, program: &[String]) -> u64 {
    let asked = program[0].strip_prefix("--").unwrap_or("");
    let canonical = asked == "canonical";
    let program = &program[usize::from(!asked.is_empty())..];
    let mut rng = Rng::new(seed ^ harness::name_hash("texts"));
    let (mut answers, mut differ) = (BTreeMap::<String, u64>::new(), 0);
    let (mut omitted, mut longest, mut shortest) = (0, 0, usize::MAX);
    for _ in 0..count {
        let text = match asked {
            "rows" | "chords" => {
                let (scene, view) = outlined(&mut rng, asked == "chords");
                written(&mut rng, &scene, &view)
            }
            _ => text(&mut rng),
        };
        let expected = if canonical { restated(&text) } else { oracle::yard::run(&text) };
        if expected == "omitted\n" {
            omitted += 1;
            continue;
        }
        let first = expected.lines().next().unwrap_or("");
        let answer = if first.starts_with("(view") {
            "canonical texts".to_string()
        } else if first.starts_with("(drawing 0") {
            "empty drawings".to_string()
        } else if first.starts_with("(drawing") {
            "drawings".to_string()
        } else {
            first.to_string()
        };
        *answers.entry(answer).or_default() += 1;
        longest = longest.max(expected.len());
        if run(program, &text) != expected.as_bytes() {
            differ += 1;
            if text.len() < shortest {
                shortest = text.len();
                std::fs::write(DIFFERING, &text).expect("a place for the text");
            }
        }
    }
    println!("texts {count}, omitted {omitted}, longest output {longest} bytes");
    for (answer, count) in answers {
        println!("  {answer}: {count}");
    }
    println!("differences: {differ}");
    if differ > 0 {
        println!("the shortest text that differs, of {shortest} bytes: {DIFFERING}");
    }
    differ
}

/// What the program prints; nothing if it ends badly.
fn run(program: &[String], text: &[u8]) -> Vec<u8> {
    let mut child = Command::new(&program[0])
        .args(&program[1..])
        .stdin(Stdio::piped())
        .stdout(Stdio::piped())
        .spawn()
        .expect("the program");
    let mut stdin = child.stdin.take().expect("its input");
    // a program may end before it has read everything
    let _ = stdin.write_all(text);
    drop(stdin);
    let done = child.wait_with_output().expect("its output");
    if done.status.success() { done.stdout } else { Vec::new() }
}

// Texts.

fn text(rng: &mut Rng) -> Vec<u8> {
    let mut text = match rng.below(100) {
        0..70 => {
            let (scene, view) = readable(rng);
            written(rng, &scene, &view)
        }
        70..80 => limits(rng),
        _ => small(rng),
    };
    if rng.chance(35) {
        for _ in 0..rng.pick(&[1, 1, 1, 2, 4]) {
            spoil(rng, &mut text);
        }
    }
    if rng.chance(3) {
        // as long as it may be, or just too long
        let most = oracle::yard::MOST_BYTES;
        let length = rng.pick(&[most - 1, most, most, most + 1, most + 1, most + 4096]);
        let byte = rng.pick(b" \n\n");
        text.push(b'\n');
        text.resize(length.max(text.len()), byte);
    }
    text
}

/// Round solids without lines in placings, most of them nested, of any row 4; or the step is as long as a chord of a ring
/// on the sheet, or next to it.
fn outlined(rng: &mut Rng, chords: bool) -> (Scene, View) {
    loop {
        let mut scene = Scene::default();
        for _ in 0..rng.pick(&[1, 1, 1, 2, 3]) {
            let (r, z) = (rng.between(0.2, 3.0), rng.pick(&[0.0, 1.0, -2.0]));
            let (r, h) = (rng.pick(&[r, r, r.round().max(1.0)]), rng.between(0.5, 4.0));
            let mut part = match rng.pick(&[1, 2, 3, 8, 9]) {
                1 => scene.push([1, 0, 0, 0], &[z, r - z, h, r]),
                kind @ (2 | 8) => scene.push([kind, 0, 0, 0], &[r, z, z + h]),
                kind => scene.push([kind, 0, 0, 0], &[r, h]),
            };
            let nested = if chords { rng.below(4) } else { rng.pick(&[1, 2, 2, 2, 3, 4, 7]) };
            for _ in 0..nested {
                part = scene.push([6, 0, part, 0], &row_placing(rng));
            }
        }
        if oracle::check::scene(&scene).is_err() {
            continue;
        }
        let mut view = draw_inputs::view(rng, &scene);
        if !chords {
            view.step =
                rng.pick(&[0.0, view.step, view.width / 8.0, view.width / 30.0]).min(1000.0);
            return (scene, view);
        }
        if let Some(step) = chord_step(rng, &scene, &view) {
            return (scene, View { step, ..view });
        }
    }
}

/// Moved, stretched or turned, with any row 4 two times in three.
fn row_placing(rng: &mut Rng) -> [f64; 16] {
    let mut m = inputs::turned(rng, true);
    if rng.chance(60) {
        m = [0.0; 16];
        for k in [0, 5, 10] {
            m[k] = rng.pick(&[1.0, 1.0, -1.0, 2.0, 0.5, 0.1, 3.0]);
        }
        m[15] = 1.0;
        (m[1], m[6]) = (rng.pick(&[0.0, 0.0, 0.3]), rng.pick(&[0.0, 0.0, -0.7]));
    }
    for k in [3, 7, 11] {
        let any = rng.between(-5.0, 5.0);
        m[k] = rng.pick(&[0.0, 1.0, -2.0, 12.0, any]);
    }
    if rng.chance(66) {
        m[12..15].fill_with(|| rng.pick(&[0.0, 0.0, 0.0, 1.0, -0.5, 0.125]));
        let any = rng.between(0.1, 3.0);
        m[15] = rng.pick(&[1.0, 2.0, 0.5, -1.0, 16.0, any]);
    }
    m
}

/// Where the points of the outlines become fewer: at such a step a chord is no longer above it. Found by halving; the step
/// itself, the one below, or one next to these.
fn chord_step(rng: &mut Rng, scene: &Scene, view: &View) -> Option<f64> {
    let points = |step: f64| -> usize {
        let all = oracle::outlines::outlines(scene, &View { step, ..*view });
        all.iter().flatten().map(Vec::len).sum()
    };
    let from = (view.width / rng.pick(&[6.0, 15.0, 40.0, 100.0])).min(900.0);
    let (mut low, mut high) = (from.to_bits(), (2.0 * from).min(1000.0).to_bits());
    let most = points(from);
    if most == points(f64::from_bits(high)) {
        return None;
    }
    while high - low > 1 {
        let middle = low + (high - low) / 2;
        if points(f64::from_bits(middle)) == most { low = middle } else { high = middle }
    }
    Some(f64::from_bits(low + 2 - rng.below(4) as u64))
}

/// A scene whose slices agree, so that it can be written as forms, mostly not a large one.
fn readable(rng: &mut Rng) -> (Scene, View) {
    loop {
        let (mut scene, mut view) = draw_inputs::scene_and_view(rng);
        let sound = oracle::check::scene(&scene);
        if sound.is_err() || scene.entries() > 520 {
            continue;
        }
        if rng.chance(50) {
            view.step = rng.pick(&[0.0, 40.0, 100.0, 200.0]);
        }
        if rng.chance(15) {
            recount(rng, &mut scene);
        }
        return (scene, view);
    }
}

/// Another count of stripes in some of the solids that have one.
fn recount(rng: &mut Rng, scene: &mut Scene) {
    let most = rng.pick(&[1, 12, 360, 361]);
    for marks in scene.marks.chunks_exact_mut(4).filter(|marks| striped(marks[0])) {
        if rng.chance(70) {
            let any = rng.below(most + 1) as u32;
            marks[1] = rng.pick(&[any, any, any, any, 360, 361, 1_000_000, 1_000_001, u32::MAX]);
        }
    }
}

/// A few words of the language, nearly right.
fn small(rng: &mut Rng) -> Vec<u8> {
    let mut text = b"(view 2 2 0 0 0 5 1 0 0 0 0 1 0 0 0 0 1 0 0 0 0 1)\n".to_vec();
    for _ in 0..rng.below(4) {
        let form: &[u8] = rng.pick(&[
            &b"(triangle 0 0 0 #3FE0000000000000 0 0 0 #3fe0000000000000 0)"[..],
            b"(cube 1 0 0 0 1 1 1)",
            b"(cube 1000 -1 -1 -1 1 1 1)",
            b"(sphere 0 0 0 1 (line 1 0 0 0 1 0) (line))",
            b"(cylinder 1 -1 1(line 1 0 0 1 0 1))",
            b"(cone 1 2 (line 0 0 2))",
            b"(cylinder 1 -1 1 0)",
            b"(cylinder 1 -1 1 1)",
            b"(cylinder 1 -1 1 7 (line 1 0 0 1 0 1)(line))",
            b"(cylinder 1 -1 1 360)",
            b"(cylinder 1 -1 1 361)",
            b"(cylinder 1 -1 1 1000000)",
            b"(cylinder 1 -1 1 1000001)",
            b"(cylinder 1 -1 1 0012(line 1 1 1))",
            b"(cylinder 1 -1 1 -4)",
            b"(cylinder 1 -1 1 -0)",
            b"(cylinder 1 -1 1 +4)",
            b"(cylinder 1 -1 4)",
            b"(cylinder 1 -1 1 4 4)",
            b"(cylinder 1 -1 1 #4010000000000000)",
            b"(cylinder 1 -1 1 (line 1 0 0) 4)",
            b"(cone 1 2 0)",
            b"(cone 1 2 00)",
            b"(cone 1 2 1 )",
            b"(cone 1 2 181(line 0 0 2))",
            b"(cone 1 2 360)",
            b"(cone 1 2 000361)",
            b"(cone 1 2 x)",
            b"(closed-cylinder 1 -1 1)",
            b"(closed-cylinder 1 -1 1(line 1 0 0 1 0 1))",
            b"(closed-cylinder 1 -1 1 12(line 1 0 0 1 0 1) (line))",
            b"(closed-cylinder 1 -1 1 361)",
            b"(closed-cylinder 1 -1)",
            b"(closed-cylinder 1 1 -1 5)",
            b"(closed-cylinder -1 0 1 361)",
            b"(closed-cone 1 2)",
            b"(closed-cone 1 2 8 (line 0 0 2))",
            b"(closed-cone 1 2 00361)",
            b"(closed-cone 1 0)",
            b"(closed-cone 1 2 3 4)",
            b"(closed-cone 1)",
            b"(closedcone 1 2)",
            b"(closed- 1 2)",
            b"(closed-sphere 0 0 0 1)",
            b"(closed-cube 1 0 0 0 1 1 1)",
            b"(closed-cylinde 1 -1 1)",
            b"(closed-cylinders 1 -1 1)",
            b"(closed-Cone 1 2)",
            b"(cut 1 (closed-cylinder 1 -1 1 6) (closed-cone 1 2))",
            b"(cut 0 (closed-cone 1 2 6) (sphere 0 0 0 1))",
            b"(cut 3 (closed-cylinder 2 -1 1) (cube 1 0 0 0 2 2 2))",
            b"(sphere 0 0 0 1 4)",
            b"(sphere 0 0 0 1 4 (line 1 0 0))",
            b"(cut 1 (cube 1 -1 -1 -1 1 1 1) (cylinder 1 -2 2 5))",
            b"(cut 0 (cone 1 2 361) (cut 4 (cone 1 1) (cone 1 1)))",
            b"(place 1 0 0 0 0 1 0 0 0 0 1 0 0 0 0 1 (cone 1 2 361))",
            b"(place 1 0 0 0 0 1 0 0 0 0 1 0 0 0 0 1 (cube 1 0 0 0 1 1 1))",
            b"(cut 1 (cube 1 -1 -1 -1 1 1 1) (cube 1 0 0 0 2 2 2))",
            b"(cut 0 (sphere 0 0 0 1) (cone 1 1))",
            b"(cube 1001 0 0 0 1 1 1)",
            b"(cut 2 (cone 1 1) (cone 1 1))",
            b"(cut 3 (cube 1 -1 -1 -1 1 1 1) (cube 1 0 0 0 2 2 2))",
            b"(cut 4 (cone 1 1) (cone 1 1))",
            b"(sphere 1000000 0 0 -0)",
            b"(sphere 0 0 0 -1)",
            b"(cone 1 0)",
            b"(cylinder 1 1 -1)",
            b"(cube 1 1 0 0 0 1 1)",
            b"(cone #7FF0000000000000 1)",
            b"(place 1 0 0 0 0 1 0 0 0 0 0 0 0 0 0 1 (cone 1 1))",
            b"(sphere 1000000 0 0 1)",
            b"(sphere 0001000000 -000 0 00)",
            b"   ",
            b"",
        ]);
        text.extend(form);
        text.extend(rng.pick(&[&b"\n"[..], b"\n", b"\n", b" \n", b"\n\n", b""]));
    }
    text
}

/// As many entries, points, lines, stripes or nested forms as there may be, or one more or less.
fn limits(rng: &mut Rng) -> Vec<u8> {
    let mut text = b"(view 10 10 0 0 0 5 1 0 0 0 0 1 0 0 0 0 1 0 0 0 0 1)\n".to_vec();
    let near = |rng: &mut Rng, most: usize| most + 1 - rng.below(3);
    match rng.below(6) {
        0 => {
            for _ in 0..near(rng, 512) {
                text.extend(b"(cone 0 1)\n");
            }
        }
        1 => {
            text.extend(b"(sphere 9 9 9 0");
            for _ in 0..near(rng, 2048) {
                text.extend(b"(line)");
            }
            text.extend(b")");
        }
        2 => {
            let points = near(rng, 2048);
            text.extend(b"(sphere 9 9 9 0(line");
            for k in 0..points {
                if k == 1000 && rng.chance(50) {
                    text.extend(b")(line");
                }
                text.extend(format!(" {} 0 0", k % 2).bytes());
            }
            text.extend(b"))");
        }
        3 => {
            let deep = rng.pick(&[7, 8, 9, 100, 510, 511, 512]);
            for _ in 1..deep {
                text.extend(b"(place 1 0 0 0 0 1 0 0 0 0 1 0 0 0 0 1 ");
            }
            text.extend(b"(cone 1 1)");
            text.extend(std::iter::repeat_n(b')', deep - 1));
        }
        4 => {
            // as many stripes as the slices take: 720 of two tubes and 304 of cones have 2,048 points
            let rest = near(rng, 304);
            text.extend(b"(cylinder 9 0 1 360)\n(cylinder 9 0 1 181)\n");
            for _ in 0..rest {
                text.extend(b"(cone 9 9 1)\n");
            }
        }
        _ => {
            // half of them parts
            let cuts = near(rng, 170);
            for _ in 0..cuts {
                text.extend(b"(cut 1(cone 1 1)(cone 1 1))\n");
            }
            text.extend(b"(cone 1 1)\n");
        }
    }
    text
}

fn written(rng: &mut Rng, scene: &Scene, view: &View) -> Vec<u8> {
    let mut out = Writer { rng, text: Vec::new() };
    out.word("(");
    out.word("view");
    for x in [view.width, view.height, view.step].into_iter().chain(view.eye).chain(view.matrix) {
        out.number(x);
    }
    out.word(")");
    out.end();
    let mut named = vec![false; scene.entries()];
    for i in 0..scene.entries() {
        oracle::check::parts(scene.marks_of(i))
            .iter()
            .for_each(|part| named[*part as usize] = true);
    }
    for i in (0..scene.entries()).filter(|i| !named[*i]) {
        out.form(scene, i);
        out.end();
    }
    out.text
}

struct Writer<'a> {
    rng: &'a mut Rng,
    text: Vec<u8>,
}

impl Writer<'_> {
    /// A bracket or a word, with spaces where they are needed, or where they are not.
    fn word(&mut self, word: &str) {
        let bracket = |b: u8| b == b'(' || b == b')';
        let last = self.text.last().copied().unwrap_or(b'\n');
        let apart = last == b'\n' || last == b' ' || bracket(last) || bracket(word.as_bytes()[0]);
        if !apart || self.rng.chance(5) {
            let spaces = self.rng.pick(&[1, 1, 1, 1, 2, 5]);
            self.text.extend(std::iter::repeat_n(b' ', spaces));
        }
        self.text.extend(word.bytes());
    }

    fn number(&mut self, x: f64) {
        let whole = x == x.trunc() && x.abs() <= 1e6 && !(x == 0.0 && x.is_sign_negative());
        let word = match self.rng.below(20) {
            0 if x == 0.0 => self.rng.pick(&["-0", "00", "-000"]).to_string(),
            1 if whole && x >= 0.0 => format!("0{x}"),
            0..16 if whole => format!("{x}"),
            16 => format!("#{:016x}", x.to_bits()),
            _ => format!("#{:016X}", x.to_bits()),
        };
        self.word(&word);
    }

    fn end(&mut self) {
        self.text.extend(self.rng.pick(&[&b"\n"[..], b"\n", b"\n", b"\n", b" \n", b"\n\n"]));
    }

    fn form(&mut self, scene: &Scene, i: usize) {
        let (marks, numbers) = (scene.marks_of(i), scene.numbers_of(i));
        let heads = [
            "sphere",
            "cylinder",
            "cone",
            "cube",
            "triangle",
            "place",
            "cut",
            "closed-cylinder",
            "closed-cone",
        ];
        self.word("(");
        self.word(heads[marks[0] as usize - 1]);
        if marks[0] == 4 || marks[0] == 7 {
            self.word(&marks[1].to_string());
        }
        for x in &numbers[..used_numbers(marks[0])] {
            self.number(*x);
        }
        if striped(marks[0]) && (marks[1] > 0 || self.rng.chance(20)) {
            let zeros = self.rng.pick(&["", "", "", "", "", "0", "0000000"]);
            self.word(&format!("{zeros}{}", marks[1]));
        }
        for part in oracle::check::parts(marks) {
            self.form(scene, *part as usize);
        }
        for k in (0..scene.owners.len()).filter(|k| scene.owners[*k] as usize == i) {
            let end = scene.starts.get(k + 1).copied().unwrap_or(scene.points.len() / 3);
            self.word("(");
            self.word("line");
            for x in &scene.points[3 * scene.starts[k]..3 * end] {
                self.number(*x);
            }
            self.word(")");
        }
        self.word(")");
    }
}

/// One place of a text changed.
fn spoil(rng: &mut Rng, text: &mut Vec<u8>) {
    if text.is_empty() {
        return;
    }
    let k = rng.below(text.len());
    match rng.below(12) {
        0 => drop(text.remove(k)),
        1 => text.insert(k, rng.pick(b" ()#-0123456789aAfFgG\t\r\n.+e\x00\xff")),
        2 => text[k] = rng.pick(b" ()#-0123456789aAfFgG\t\r\n.+e\x00\xff"),
        3 => text.truncate(k),
        4 => drop(text.drain(..k)),
        5 => {
            let end = (k + 1 + rng.below(30)).min(text.len());
            let part = text[k..end].to_vec();
            text.splice(k..k, part);
        }
        6 => {
            let end = (k + 1 + rng.below(30)).min(text.len());
            text.drain(k..end);
        }
        7 => {
            let word: &[u8] = rng.pick(&[
                &b" 1000000 "[..],
                b" 1000001 ",
                b" -1000000 ",
                b" -1000001 ",
                b" 99999999999999999999 ",
                b" #7FF0000000000000 ",
                b" #7ff8000000000001 ",
                b" #8000000000000000 ",
                b" #123456789ABCDEF ",
                b" #123456789ABCDEF01 ",
                b" - ",
                b" # ",
                b" -#0000000000000000 ",
                b" +1 ",
                b" 0 ",
                b" 7 ",
                b" 360 ",
                b" 361 ",
                b" 1.5 ",
                b" 1e3 ",
                b" () ",
                b" (line 1 2) ",
                b"closed-",
                b"(closed-cone 1 2)",
                b" (line 0 0 0) ",
                b" (sphere 0 0 0 1) ",
            ]);
            text.splice(k..k, word.iter().copied());
        }
        // two forms on a line, or one on two
        8 => text.iter_mut().filter(|b| **b == b'\n').take(1).for_each(|b| *b = b' '),
        9 => text.iter_mut().skip(k).filter(|b| **b == b' ').take(1).for_each(|b| *b = b'\n'),
        10 => text.extend(rng.pick(&[&b")"[..], b"(", b"x", b"\n\n \n", b"(cone 1 1)", b"\r\n"])),
        _ => text
            .splice(0..0, rng.pick(&[&b"\n"[..], b"  \n", b"(cone 1 1)\n", b"x\n"]).to_vec())
            .for_each(drop),
    }
}
