//! The canonical writer: `larnt_write` against a second writer that goes by document 02's words alone; then each
//! text that fits the program is read and written again by `larnt_canonical`, and drawn as it was read.

use crate::core::{self, direct};
use crate::draw_inputs;
use crate::harness::{Run, Share, Shown};
use crate::host::{self, raw};
use crate::scene_calls::{Words, number, put, put_floats};
use crate::scene_inputs;
use crate::second_writer;
use crate::stage_inputs::view_numbers;
use oracle::generate::Rng;
use oracle::stripes::striped;
use oracle::{Answer, FINE, Scene, View};
use std::fmt::Write;

/// A scene, a view and how many bytes are lent.
#[derive(Clone)]
pub struct Case {
    pub scene: Scene,
    pub view: View,
    pub room: usize,
}

impl Case {
    fn judged(&self) -> Answer<String> {
        second_writer::judged(&self.scene, &self.view, self.room)
    }
}

impl Shown for Case {
    fn size(&self) -> u32 {
        scene_inputs::scene_text(&self.scene).len() as u32
    }

    /// As the oracle's program reads a draw; then the room.
    fn text(&self) -> String {
        let v = &self.view;
        let mut text = scene_inputs::scene_text(&self.scene);
        for x in [v.width, v.height, v.step].into_iter().chain(v.eye).chain(v.matrix) {
            write!(text, "{:016X} ", x.to_bits()).unwrap();
        }
        write!(text, "room {}", self.room).unwrap();
        text
    }
}

/// The number, the count, and the bytes up to the last that is not 0.
fn told(number: u32, count: usize, bytes: &[u8]) -> Words {
    let mut words = vec![u64::from(number), count as u64];
    put(&mut words, bytes.len(), |k| u64::from(bytes[k]));
    Words(words)
}

fn rust_write(case: &Case) -> Words {
    let answer = case.judged();
    let number = number(&answer);
    let text = answer.unwrap_or_default();
    told(number, text.len(), text.as_bytes())
}

/// Bytes with something in each place.
fn lent(room: usize) -> Vec<u8> {
    (0..room).map(|k| [7, 255, 40][k % 3]).collect()
}

fn core_write(case: &Case) -> Words {
    let (mut bytes, mut count) = (lent(case.room), 7);
    let (s, view) = (&case.scene, view_numbers(&case.view));
    let number = direct!(larnt_write, s, &view, bytes.as_mut_ptr(), bytes.len(), &mut count);
    told(number, count, &bytes)
}

fn host_write(case: &Case) -> Words {
    let mut bytes = lent(case.room);
    let result = host::write(core::lent(&case.scene), &view_numbers(&case.view), &mut bytes);
    match result {
        Ok(count) => told(0, count, &bytes),
        Err(number) => told(number, 0, &bytes),
    }
}

/// Room for the text, exactly or more, or a byte too little, or any.
fn make(rng: &mut Rng) -> Case {
    let (mut scene, mut view) = draw_inputs::scene_and_view(rng);
    if rng.chance(20) {
        recount(rng, &mut scene);
    }
    if rng.chance(20) {
        odd_points(rng, &mut scene);
    }
    if rng.chance(10) {
        view.step = rng.pick(&[0.0, -0.0, 1.0, 1000.0]);
    }
    let mut case = Case { scene, view, room: usize::MAX };
    let length = case.judged().map_or(100, |text| text.len());
    case.room = match rng.below(10) {
        0..4 => length,
        4..6 => length + rng.below(100),
        6 => length - 1,
        7 => rng.below(length + 1),
        8 => rng.below(40),
        _ => 0,
    };
    case
}

/// Other counts of stripes: 0, 1, 360 and just beyond among them.
fn recount(rng: &mut Rng, scene: &mut Scene) {
    for marks in scene.marks.chunks_exact_mut(4).filter(|marks| striped(marks[0])) {
        marks[1] = rng.pick(&[0, 0, 1, 9, 10, 99, 100, 359, 360, 360, 361]);
    }
}

/// Points of lines may be any numbers: zeros of either sign, NaNs of any pattern, infinities.
fn odd_points(rng: &mut Rng, scene: &mut Scene) {
    let odd = [0, 1 << 63, 0x7FF8_0000_0000_0000, 0x7FF0_0000_0000_0001, u64::MAX, 0x7FF0_0000_0000_0000, 0xFFF0_0000_0000_0000, 1, 0x000F_FFFF_FFFF_FFFF];
    for x in &mut scene.points {
        if rng.chance(30) {
            *x = f64::from_bits(rng.pick(&odd));
        }
    }
}

/// A case that the writer answers, as text, and what the program has places for.
fn readable(rng: &mut Rng) -> (Case, String) {
    loop {
        let mut case = make(rng);
        case.room = usize::MAX;
        let Ok(text) = case.judged() else { continue };
        let s = &case.scene;
        let fits = text.len() <= oracle::yard::MOST_BYTES && s.entries() <= 512;
        let lines = if s.starts.is_empty() { 0 } else { s.points.len() / 3 };
        if fits && lines <= 2048 && s.starts.len() <= 2048 {
            return (case, text);
        }
    }
}

/// A text that was written.
pub struct Text(Case, String);

impl Shown for Text {
    fn size(&self) -> u32 {
        self.1.len() as u32
    }

    /// On one line.
    fn text(&self) -> String {
        self.1.replace('\n', " ")
    }
}

/// What `larnt_canonical` answers a text, in so many bytes.
fn again(text: &str, room: usize) -> Words {
    let mut bytes = lent(room);
    let count = host::canonical(text.as_bytes(), &mut bytes);
    told(0, count, &bytes)
}

/// A draw by the compiled core, with the program's places and its threshold.
fn drawn(s: &Scene, view: &View) -> Words {
    let (mut out, mut begins) = (vec![7.0; 6144], vec![7; 2048]);
    let mut work = (vec![0.0; 49152], vec![0; 16384], vec![0.0; 6144], vec![0; 2048]);
    let mut tree = (vec![0.0; 12288], vec![0; 6144], vec![0; 2048]);
    let slices = host::Work {
        work: &mut work.0,
        work_starts: &mut work.1,
        chopped: &mut work.2,
        chopped_starts: &mut work.3,
        node_boxes: &mut tree.0,
        node_marks: &mut tree.1,
        order: &mut tree.2,
    };
    let result = host::draw_with(core::lent(s), &view_numbers(view), FINE, &mut out, &mut begins, slices);
    let mut words = match result {
        Ok((points, paths)) => vec![0, points as u64, paths as u64],
        Err(number) => vec![u64::from(number)],
    };
    put_floats(&mut words, &out, 0);
    put(&mut words, begins.len(), |k| begins[k] as u64);
    Words(words)
}

pub fn compare(run: &mut Run) {
    let shares: &[Share<Case, Words>] = &[
        ("written", &|_, a| a.0[0] == 0),
        ("exactly full", &|case, a| a.0[0] == 0 && a.0[1] as usize == case.room),
        ("13", &|_, a| a.0[0] == 13),
        ("8", &|_, a| a.0[0] == 8),
        ("14", &|_, a| a.0[0] == 14),
        ("2 to 7", &|_, a| (2..8).contains(&a.0[0])),
    ];
    let cores: [&dyn Fn(&Case) -> Words; 2] = [&core_write, &host_write];
    run.compare("write", run.count, make, rust_write, &cores, shares);

    let text = |rng: &mut Rng| {
        let (case, text) = readable(rng);
        Text(case, text)
    };
    // what is written is printed as it came, in a slice that is longer or exactly full
    run.compare(
        "write.again",
        run.count,
        text,
        |t: &Text| told(0, t.1.len(), t.1.as_bytes()),
        &[&|t: &Text| again(&t.1, t.1.len() + 100), &|t: &Text| again(&t.1, t.1.len())],
        &[
            ("placed or cut", &|t, _| t.1.contains("(place") || t.1.contains("(cut")),
            ("lines", &|t, _| t.1.contains("(line")),
            ("NaN points", &|t, _| t.1.contains("#7FF8000000000000")),
        ],
    );
    // and the scene that is read back draws to the same bits
    run.compare(
        "write.drawn",
        run.count / 10,
        text,
        |t: &Text| drawn(&t.0.scene, &t.0.view),
        &[&|t: &Text| {
            let (view, scene) = oracle::yard::read(t.1.as_bytes()).expect("a yard");
            drawn(&scene, &view)
        }],
        &[("drawn", &|_, a| a.0[0] == 0), ("with paths", &|_, a| a.0[0] == 0 && a.0[2] > 0)],
    );
}

pub fn speed() {}
