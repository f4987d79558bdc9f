//! Refusals 9 and 11 to 13 of document 01, met where larnt does the work, and the nesting of halvings.
//! The patched sources call these functions; each one either returns or leaves the whole run by unwinding.

use crate::matrix::Matrix;
use crate::vector::Vector;
use std::cell::Cell;

/// Carried by the unwinding of a refused run.
pub struct Refusal(pub u32);

/// Carried by the unwinding of a run in which larnt would panic normalising `up`.
pub struct Omitted;

/// Places of one lent pair of points and path starts.
#[derive(Clone, Copy, Debug, PartialEq, Eq)]
pub struct Places {
    pub points: usize,
    pub starts: usize,
}

/// Places of everything a call is lent. `work` is one of its eight equal slices.
#[derive(Clone, Copy, Debug, PartialEq, Eq)]
pub struct Room {
    pub work: Places,
    pub chopped: Places,
    pub out: Places,
    pub nodes: usize,
    pub order: usize,
}

impl Room {
    /// The same number of places everywhere.
    pub const fn of(n: usize) -> Room {
        let places = Places { points: n, starts: n };
        Room { work: places, chopped: places, out: places, nodes: n, order: n }
    }

    pub const ENDLESS: Room = Room::of(usize::MAX);
}

/// The slice that a vector of paths is the counterpart of.
#[derive(Clone, Copy, Debug, PartialEq, Eq)]
pub enum Stage {
    Work,
    Chopped,
    Out,
}

/// Where pushes go now, and what stands there before the vector that larnt pushes to.
#[derive(Clone, Copy)]
struct Target {
    stage: Stage,
    points: usize,
    starts: usize,
}

const AT_OUT: Target = Target { stage: Stage::Out, points: 0, starts: 0 };

thread_local! {
    static ROOM: Cell<Room> = const { Cell::new(Room::ENDLESS) };
    static USED: Cell<Room> = const { Cell::new(Room::of(0)) };
    static TARGET: Cell<Target> = const { Cell::new(AT_OUT) };
    static HALVINGS: Cell<u32> = const { Cell::new(0) };
    static DEEPEST: Cell<u32> = const { Cell::new(0) };
    static RESTARTS: Cell<u32> = const { Cell::new(0) };
    static PUT: Cell<usize> = const { Cell::new(0) };
}

/// Starts a run with this room; pushes go to `out` until a stage says otherwise.
pub fn begin(room: Room) {
    ROOM.set(room);
    USED.set(Room::of(0));
    TARGET.set(AT_OUT);
    HALVINGS.set(0);
    DEEPEST.set(0);
    RESTARTS.set(0);
    PUT.set(0);
}

/// The most places that the run has taken of each slice so far.
pub fn used() -> Room {
    USED.get()
}

/// How many points the run has put to the eye test so far.
pub fn points_put() -> usize {
    PUT.get()
}

/// Leaves the run with this number. The panic hook is not called.
pub fn refuse(number: u32) -> ! {
    std::panic::resume_unwind(Box::new(Refusal(number)))
}

/// 9: a coordinate that is not finite or exceeds 1,000,000 in magnitude.
pub fn judge(points: &[Vector]) {
    let sound = |x: f64| x.is_finite() && x.abs() <= 1e6;
    if !points.iter().all(|v| sound(v.x) && sound(v.y) && sound(v.z)) {
        refuse(9);
    }
}

/// 9: a point is put to the eye test.
pub fn put(point: Vector) {
    judge(&[point]);
    PUT.set(PUT.get() + 1);
}

/// About to halve. Points that pass 9 need at most 37 halvings, one inside another: a 38th is a mistake.
pub fn halve() {
    assert!(HALVINGS.get() < 37, "a segment is halved more than 37 deep");
    HALVINGS.set(HALVINGS.get() + 1);
    DEEPEST.set(DEEPEST.get().max(HALVINGS.get()));
}

/// The deepest nesting of halvings in the run so far.
pub fn deepest_halving() -> u32 {
    DEEPEST.get()
}

/// Both halves are done.
pub fn halved() {
    HALVINGS.set(HALVINGS.get() - 1);
}

/// Restarts behind the ray that a cut was just put: none, unless `restart` handed a count over.
pub fn restarts() -> u32 {
    RESTARTS.replace(0)
}

/// 11: about to restart after `count` restarts; 64 pass.
pub fn restart(count: u32) {
    if count == 64 {
        refuse(11);
    }
    RESTARTS.set(count + 1);
}

/// 12: about to push two children on `waiting` nodes.
pub fn wait(waiting: usize) {
    if waiting + 2 > 64 {
        refuse(12);
    }
}

/// 13: about to push a node.
pub fn node(len: usize) {
    if len >= ROOM.get().nodes {
        refuse(13);
    }
    note(|used| used.nodes = used.nodes.max(len + 1));
}

/// 13: about to collect this many shapes.
pub fn order(len: usize) {
    if len > ROOM.get().order {
        refuse(13);
    }
    note(|used| used.order = used.order.max(len));
}

/// 13: about to push a point to a vector of `len` points.
pub fn point(len: usize) {
    let target = TARGET.get();
    take(target.stage, target.points + len + 1, 0);
}

/// 13: about to open a path in a vector of `len` paths.
pub fn start(len: usize) {
    let target = TARGET.get();
    take(target.stage, 0, target.starts + len + 1);
}

/// 13: lines are appended to a vector of work, which then has this many points and starts.
pub fn append(points: usize, starts: usize) {
    take(Stage::Work, points, starts);
}

/// Pushes go to a slice of work from now on, behind this many points and starts. A cut sets
/// this anew for its own slice; whoever collects the cut sets it again before the next shape.
pub fn collect(points: usize, starts: usize) {
    TARGET.set(Target { stage: Stage::Work, points, starts });
}

/// Pushes go to the empty slice of this stage from now on.
pub fn push_to(stage: Stage) {
    TARGET.set(Target { stage, points: 0, starts: 0 });
}

/// `mul_direction`, but a run in which that panics is left out.
pub fn upright(inverse: &Matrix, up: Vector) -> Vector {
    if inverse.mul_vector(up).length() == 0.0 {
        std::panic::resume_unwind(Box::new(Omitted));
    }
    inverse.mul_direction(up)
}

fn places(room: &mut Room, stage: Stage) -> &mut Places {
    match stage {
        Stage::Work => &mut room.work,
        Stage::Chopped => &mut room.chopped,
        Stage::Out => &mut room.out,
    }
}

fn take(stage: Stage, points: usize, starts: usize) {
    let mut room = ROOM.get();
    let places_there = *places(&mut room, stage);
    if points > places_there.points || starts > places_there.starts {
        refuse(13);
    }
    note(|used| {
        let used = places(used, stage);
        used.points = used.points.max(points);
        used.starts = used.starts.max(starts);
    });
}

fn note(change: impl FnOnce(&mut Room)) {
    let mut used = USED.get();
    change(&mut used);
    USED.set(used);
}
