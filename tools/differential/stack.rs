//! The stack that the calls take: it is painted, and what a call leaves unpainted is counted.

use crate::core::{self, CORE_SCENES};
use crate::draws;
use crate::host;
use crate::scene_calls::unfilled;
use crate::tree_calls::{CORE, Rows};
use oracle::{Lines, Room, Scene, View};

const MUCH: usize = 64 << 20;
const PAINTED: usize = 48 << 20;
const PAINT: u8 = 0xA5;

/// What host/larnt.h says that a draw's local arrays take, and the little that is left beside them.
const ARRAYS: usize = 241 << 10;
const LITTLE: usize = 256 << 10;

pub fn run() {
    for n in [2, 9, 100, 1000, 1024] {
        let same = boxes(n);
        let mut rows = Rows::ample();
        let bytes = taken(|| assert_eq!((CORE.build)(&same, &mut rows), 0));
        println!(
            "build of {n} equal boxes: {bytes} bytes, {} nodes, {} deep",
            rows.count,
            depth(&rows, 0)
        );
    }
    for n in [2, 3, 100, 1000, 2048, 21_500, 50_000] {
        let points = to_and_fro(n).concat();
        let (mut out, mut begins) = (vec![0.0; 3 * n], vec![0; 1]);
        let mut kept = 0;
        let bytes = taken(|| {
            let result = host::simplify(&points, &[0], 0.0, &mut out, &mut begins);
            kept = result.map_or(0, |(points, _)| points);
        });
        println!("simplify of {n} points to and fro: {bytes} bytes, {kept} points kept");
    }
    let corners = [-1e6, -1e6, -1e6, 1e6, 1e6, 1e6];
    let mut view = [0.0; 22];
    (view[19], view[20]) = (1000.0, 1000.0);
    let (mut out, mut begins) = (vec![0.0; 30], vec![0; 1]);
    let bytes = taken(|| {
        assert_eq!(host::chop(&view, &corners, &[0], &mut out, &mut begins), Err(13));
    });
    println!("chop of a longest segment: {bytes} bytes");
    outline();
    questions();
    draw();
    merge_and_write();
    for n in [20_000, 60_000] {
        zigzag(n);
    }
}

/// The outline of a tube whose rings are halved as deep as may be.
fn outline() {
    let (mut numbers, mut placings, mut view) = ([0.0; 16], [0.0; 16 * 7], [0.0; 22]);
    (numbers[0], numbers[2]) = (2.0, 6.0);
    for k in [0, 5, 10, 15] {
        view[k] = 1.0;
        placings.iter_mut().skip(k).step_by(16).for_each(|x| *x = 1.0);
    }
    (view[15], view[19], view[20], view[21]) = (8.0, 1000.0, 1000.0, 1e-200);
    let (mut out, mut begins) = (vec![0.0; 3 * 2054], vec![0; 4]);
    let eye = [10.0, 3.0, 8.0];
    let bytes = taken(|| {
        let filled = host::outline(2, &numbers, &eye, &placings, &view, &mut out, &mut begins);
        assert_eq!(filled, Ok((2054, 4)));
    });
    println!("outline of a tube in 7 placings, 2,054 points: {bytes} bytes");
}

/// So many points to and fro, each farther out than the one before: every one splits the path.
fn to_and_fro(n: usize) -> Vec<[f64; 3]> {
    (0..n).map(|k| [if k % 2 == 0 { k as f64 } else { -(k as f64) }, 0.0, 0.0]).collect()
}

/// A long zigzag, simplified and drawn on a small stack, is what the Rust makes of it on a large one.
fn zigzag(n: usize) {
    let lines = Lines { points: to_and_fro(n).concat(), starts: vec![0] };
    let rust =
        oracle::with_stack(|| oracle::simplify(0.0, &lines, Room::ENDLESS.out)).expect("an answer");
    let (mut out, mut begins) = (vec![0.0; 3 * n], vec![0; 1]);
    let told = within(LITTLE, || host::simplify(&lines.points, &[0], 0.0, &mut out, &mut begins));
    let (points, paths) = told.expect("an answer");
    let core = Lines { points: out[..3 * points].to_vec(), starts: begins[..paths].to_vec() };
    assert!(draws::alike(&core, &rust), "simplify of {n} points to and fro differs");
    println!("simplify of {n} points to and fro: {points} kept, in a thread of {LITTLE} bytes");

    let mut scene = Scene::default();
    let ball = scene.push([1, 0, 0, 0], &[0.0, 0.0, -3000.0, 1.0]);
    scene.push_line(ball, &to_and_fro(n));
    let mut matrix = [0.0; 16];
    for k in [0, 5, 10] {
        matrix[k] = 1.0 / 131_072.0;
    }
    matrix[15] = 1.0;
    let view = View { matrix, eye: [1e3, 2e3, 9e3], width: 1e3, height: 1e3, step: 1e3 };
    let (rust, room) =
        oracle::with_stack(|| oracle::draw_measured(&scene, &view, oracle::COARSE, Room::ENDLESS));
    let rust = rust.expect("a drawing");
    let mut core = None;
    within(ARRAYS + LITTLE, || core = draws::given(&scene, &view, &room));
    let core = core.expect("a drawing");
    assert!(draws::alike(&core, &rust), "draw of {n} points to and fro differs");
    let points = core.points.len() / 3;
    println!(
        "draw of {n} points to and fro: {points} drawn, in a thread of {} bytes",
        ARRAYS + LITTLE
    );
}

/// The work, on a thread with so much stack.
fn within<T: Send>(stack: usize, work: impl FnOnce() -> T + Send) -> T {
    std::thread::scope(|scope| {
        let thread = std::thread::Builder::new().stack_size(stack);
        thread.spawn_scoped(scope, work).expect("a thread").join().unwrap()
    })
}

/// Cuts in cuts, as deep as a scene may nest them: of a box, or of a tube with so many stripes.
fn cuts(stripes: Option<u32>) -> Scene {
    let mut scene = Scene::default();
    let mut so_far = match stripes {
        Some(count) => scene.push([2, count, 0, 0], &[500.0, -500.0, 500.0]),
        None => scene.push([4, 1, 0, 0], &[-500.0, -500.0, -500.0, 500.0, 500.0, 500.0]),
    };
    for k in 0..7 {
        let at = 100.0 * f64::from(k) - 400.0;
        let b = scene.push([4, 1, 0, 0], &[at, at, at, at + 50.0, at + 50.0, 600.0]);
        so_far = scene.push([7, 1, so_far, b], &[]);
    }
    scene
}

/// The check of a scene, and the questions that a host asks of one: each goes through all the cuts.
fn questions() {
    let scene = cuts(None);
    let last = scene.entries() - 1;
    let (eye, point) = ([-380.0, -380.0, 9000.0], [-380.0, -380.0, -9000.0]);
    let ray = [eye[0], eye[1], eye[2], 0.0, 0.0, -1.0];
    let (mut found, mut rows) = (unfilled(), Rows::ample());
    let (mut t, mut ok, mut entry) = (0.0, false, 0);
    let bytes = taken(|| assert_eq!((CORE_SCENES.check)(&scene, &mut found), 0));
    println!("check: {bytes} bytes");
    let bytes = taken(|| assert_eq!((CORE_SCENES.own_hit)(&scene, last, &ray, &mut t, &mut ok), 0));
    println!("own hit: {bytes} bytes, at {t}");
    let bytes = taken(|| {
        assert_eq!((CORE_SCENES.own_contains)(&scene, last, &point, 0.0, &mut ok), 0);
    });
    println!("own contains: {bytes} bytes");
    assert_eq!((CORE.build)(&scene, &mut rows), 0);
    let bytes = taken(|| {
        assert_eq!((CORE.intersect)(&scene, &rows, &ray, &mut t, &mut ok, &mut entry), 0);
    });
    println!("intersect: {bytes} bytes, at {t}, entry {entry}");
    let bytes = taken(|| assert_eq!((CORE.visible)(&scene, &rows, &eye, &point, &mut ok), 0));
    println!("visible: {bytes} bytes, seen {ok}");
    let bytes = taken(|| assert_eq!((CORE.occluder)(&scene, &rows, &eye, &point, &mut entry), 0));
    println!("occluder: {bytes} bytes, entry {entry}");
    let bytes = taken(|| assert_eq!((CORE.covered)(&scene, &rows, &eye, &point, &mut ok), 0));
    println!("covered: {bytes} bytes, seen {ok}");
    let mut told = [0];
    let bytes = taken(|| assert_eq!((CORE.covered_all)(&scene, &rows, &eye, &point, &mut told), 0));
    println!("covered of many: {bytes} bytes, told {}", told[0]);
}

/// So many boxes that are one and the same.
fn boxes(count: usize) -> Scene {
    let mut same = Scene::default();
    for _ in 0..count {
        same.push([4, 1, 0, 0], &[0.0, 0.0, 0.0, 1.0, 1.0, 1.0]);
    }
    same
}

/// A draw of many equal boxes, whose tree is deepest; of a line to and fro, which is split most often;
/// and of cuts in cuts. The preview of each.
fn draw() {
    let mut line = Scene::default();
    let ball = line.push([1, 0, 0, 0], &[0.0, 0.0, -3000.0, 1.0]);
    line.push_line(ball, &to_and_fro(2048));
    let mut matrix = [0.0; 16];
    (matrix[0], matrix[5], matrix[10], matrix[15]) =
        (1.0 / 4096.0, 1.0 / 4096.0, 1.0 / 4096.0, 1.0);
    let eye = [1000.0, 2000.0, 9000.0];
    for (name, scene, step) in [
        ("800 equal boxes", boxes(800), 0.0),
        ("2,048 points to and fro", line, 1000.0),
        ("7 cuts", cuts(None), 100.0),
        ("7 cuts of a striped tube", cuts(Some(8)), 100.0),
        ("7 cuts of a tube with an outline", cuts(Some(0)), 100.0),
    ] {
        let view = View { matrix, eye, width: 1000.0, height: 1000.0, step };
        let mut points = 0;
        let bytes = taken(|| {
            points = draws::amply(&scene, &view).map_or(0, |lines| lines.points.len() / 3);
        });
        println!("draw of {name}: {bytes} bytes, {points} points drawn");
        let mut counts = None;
        let bytes = taken(|| counts = draws::counted(&scene, &view));
        assert_eq!(counts.map_or(0, |(points, _)| points), points);
        println!("preview of {name}: {bytes} bytes");
    }
}

/// Two scenes merged; one of cuts in cuts written, and its text put to `larnt_canonical`.
fn merge_and_write() {
    let half = boxes(512);
    let (mut numbers, mut marks) = (vec![0.0; 16 * 1024], vec![0; 4 * 1024]);
    let bytes = taken(|| {
        let (points, starts, owners) = (&mut [], &mut [], &mut []);
        let out =
            host::MergedSlices { numbers: &mut numbers, marks: &mut marks, points, starts, owners };
        assert_eq!(host::merge(core::lent(&half), core::lent(&half), out), Ok((1024, 0, 0)));
    });
    println!("merge of 512 and 512 boxes: {bytes} bytes");
    let (scene, mut view) = (cuts(Some(8)), [0.0; 22]);
    (view[0], view[19], view[20]) = (1.0, 1000.0, 1000.0);
    let (mut text, mut again) = (vec![0; 1 << 16], vec![0; 1 << 16]);
    let (mut count, mut printed) = (Ok(0), 0);
    let bytes = taken(|| count = host::write(core::lent(&scene), &view, &mut text));
    let text = &text[..count.expect("a text")];
    println!("write of 7 cuts of a striped tube: {bytes} bytes, a text of {}", text.len());
    let bytes = taken(|| printed = host::canonical(text, &mut again));
    assert_eq!(&again[..printed], text);
    println!("canonical of that text: {bytes} bytes");
}

fn depth(rows: &Rows, node: usize) -> usize {
    let (first, count, axis) = (
        rows.node_marks[3 * node] as usize,
        rows.node_marks[3 * node + 1],
        rows.node_marks[3 * node + 2],
    );
    if axis == 0 || count > 0 {
        return 1;
    }
    1 + depth(rows, first).max(depth(rows, first + 1))
}

/// How many bytes of stack the work takes.
fn taken(work: impl FnOnce() + Send) -> usize {
    within(MUCH, || measured(work))
}

#[inline(never)]
fn measured(work: impl FnOnce()) -> usize {
    let here = 0u8;
    let top = &raw const here as usize - 4096;
    let low = top - PAINTED;
    for at in low..top {
        unsafe { (at as *mut u8).write_volatile(PAINT) };
    }
    work();
    let mut at = low;
    while unsafe { (at as *const u8).read_volatile() } == PAINT {
        at += 1;
    }
    &raw const here as usize - at
}
