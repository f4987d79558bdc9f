//! The plotter's registers (request xiv): random writes and steps, put to a second implementation and to the
//! compiled calls on registers in place, directly and through host/larnt.rs in turn. What a call answers and all
//! 16 bytes that it leaves are compared after each write and after each step.

use crate::harness::{Run, name_hash, time};
use crate::host::{Registers, raw_registers};
use oracle::generate::Rng;
use std::hint::black_box;

/// The second implementation. It keeps no position: the pen is where `walked` steps from `from` have brought it.
#[derive(Clone)]
struct Plotter {
    last: u8,
    down: bool,
    busy: bool,
    off: bool,
    /// The status bits that have no meaning.
    unused: u8,
    spelt: [u8; 4],
    mask: u8,
    pending: u8,
    from: [i32; 2],
    to: [i32; 2],
    walked: i32,
}

impl Plotter {
    fn of(r: &Registers) -> Plotter {
        let [last, status, a, b, c, d, mask, pending] = r.bytes;
        Plotter {
            last,
            down: status & 1 == 1,
            busy: status >> 1 & 1 == 1,
            off: status >> 2 & 1 == 1,
            unused: status >> 3,
            spelt: [a, b, c, d],
            mask,
            pending,
            from: r.pen.map(i32::from),
            to: r.target.map(i32::from),
            walked: 0,
        }
    }

    fn pen(&self) -> [i32; 2] {
        [0, 1].map(|axis| {
            let way = self.to[axis] - self.from[axis];
            self.from[axis] + way.signum() * way.abs().min(self.walked)
        })
    }

    fn registers(&self) -> Registers {
        let bit = |set: bool, weight: u8| if set { weight } else { 0 };
        let status = 8 * self.unused + bit(self.off, 4) + bit(self.busy, 2) + bit(self.down, 1);
        let [a, b, c, d] = self.spelt;
        Registers {
            pen: self.pen().map(|x| x as u16),
            target: self.to.map(|x| x as u16),
            bytes: [self.last, status, a, b, c, d, self.mask, self.pending],
        }
    }

    fn go(&mut self, to: [i32; 2]) {
        (self.from, self.to, self.walked) = (self.pen(), to, 0);
        (self.off, self.busy) = (false, true);
    }

    fn obey(&mut self, command: u8) {
        let word = |k: usize| i32::from(u16::from_le_bytes([self.spelt[k], self.spelt[k + 1]]));
        let to = [word(0), word(2)];
        match command {
            1 => self.down = true,
            2 => self.down = false,
            3 => self.go([0, 0]),
            _ if to[0] > 8410 || to[1] > 5940 => self.off = true,
            _ => self.go(to),
        }
    }

    fn write(&mut self, at: usize, value: u8) -> u32 {
        match at {
            0 if self.busy || value < 1 || value > 4 => return 17,
            0 => {
                self.last = value;
                self.obey(value);
            }
            2..=5 => self.spelt[at - 2] = value,
            6 => (self.mask, self.pending) = (value, 0),
            _ => return 16,
        }
        0
    }

    /// How many steps the whole way takes.
    fn duration(&self) -> i32 {
        let far = |axis: usize| (self.to[axis] - self.from[axis]).abs();
        far(0).max(far(1)).max(1)
    }

    fn step(&mut self) {
        if self.busy {
            self.walked += 1;
            if self.walked >= self.duration() {
                self.busy = false;
                self.pending |= self.mask & 1;
            }
        }
    }
}

/// What is counted of one call: how often it was made, how often it differs, how often each share occurs, and the
/// smallest difference.
#[derive(Default)]
struct Tally {
    count: u64,
    differ: u64,
    shares: [u64; 5],
    smallest: Option<(u32, String)>,
}

impl Tally {
    fn add(&mut self, shares: &[bool], alike: bool, before: &Registers, told: impl Fn() -> String) {
        self.count += 1;
        for (counted, share) in self.shares.iter_mut().zip(shares) {
            *counted += u64::from(*share);
        }
        if alike {
            return;
        }
        self.differ += 1;
        let words = before.pen.into_iter().chain(before.target);
        let bytes = before.bytes.iter().map(|b| b.count_ones());
        let size = words.map(u16::count_ones).chain(bytes).sum();
        if self.smallest.as_ref().is_none_or(|(least, _)| size < *least) {
            self.smallest = Some((size, format!("{before:?} {}", told())));
        }
    }
}

/// A session at registers: both sides, which are the same before each call.
struct Session<'a> {
    rng: &'a mut Rng,
    rust: Plotter,
    core: Registers,
    writes: &'a mut Tally,
    steps: &'a mut Tally,
}

impl Session<'_> {
    fn write(&mut self, at: usize, value: u8) {
        let before = self.core;
        let number = self.rust.write(at, value);
        let after = self.rust.registers();
        let got = if self.writes.count % 2 == 0 {
            raw_registers::larnt_plotter_write(&mut self.core, at, value)
        } else {
            self.core.write(at, value).err().unwrap_or(0)
        };
        let core = std::mem::replace(&mut self.core, after);
        let begins = number == 0 && at == 0 && value > 2;
        let shares = [
            number == 0,
            number == 16,
            number == 17,
            begins && self.rust.busy,
            begins && !self.rust.busy,
        ];
        let told = || format!("write {at} {value} rust {number} {after:?} core {got} {core:?}");
        self.writes.add(&shares, number == got && core == after, &before, told);
    }

    fn step(&mut self) {
        let before = self.core;
        let was_busy = self.rust.busy;
        self.rust.step();
        let after = self.rust.registers();
        if self.steps.count % 2 == 0 {
            raw_registers::larnt_plotter_step(&mut self.core);
        } else {
            self.core.step();
        }
        let core = std::mem::replace(&mut self.core, after);
        let arrived = was_busy && !self.rust.busy;
        let shares = [was_busy, arrived, arrived && self.rust.mask & 1 == 1];
        self.steps
            .add(&shares, core == after, &before, || format!("step rust {after:?} core {core:?}"));
    }

    /// Bytes 2 to 5, in any order: mostly a place near the pen, also where the pen is, at the edge of the sheet or
    /// past it; at times any.
    fn spell(&mut self) {
        let pen = self.rust.pen();
        let far = self.rng.chance(4);
        let to = [0, 1].map(|axis| {
            let edge: usize = [8410, 5940][axis];
            match self.rng.below(6) {
                0 if far => self.rng.below(65536) as i32,
                1 | 2 if far => self.rng.below(edge + 1) as i32,
                3 if far => (edge - 1 + self.rng.below(3)) as i32,
                0 => pen[axis],
                _ => (pen[axis] + self.rng.below(25) as i32 - 12).clamp(0, 65535),
            }
        });
        let [a, b] = to.map(|x| (x as u16).to_le_bytes());
        let first = self.rng.below(4);
        for k in 0..4 {
            let k = (first + k) % 4;
            self.write(2 + k, [a[0], a[1], b[0], b[1]][k]);
        }
    }

    /// A few steps, or about as many as the way still takes.
    fn walk(&mut self) {
        let left = self.rust.duration() - self.rust.walked;
        let n = match self.rng.below(10) {
            0..6 => self.rng.below(30) as i32,
            6 if left < 100 || self.rng.chance(5) => left - 1,
            7 if left < 100 || self.rng.chance(5) => left,
            _ => 1 + self.rng.below(60) as i32,
        };
        for _ in 0..n {
            self.step();
        }
    }

    fn act(&mut self) {
        match self.rng.below(20) {
            0..6 => self.walk(),
            6..8 => self.spell(),
            8..11 => self.write(0, 4),
            11 if self.rng.chance(10) || self.rust.pen().iter().max() < Some(&100) => {
                self.write(0, 3)
            }
            11 => self.walk(),
            12..14 => {
                let command = self.rng.pick(&[1, 2, 0, 5, 255]);
                self.write(0, command);
            }
            14..16 => {
                let mask = self.rng.next() as u8;
                self.write(6, mask);
            }
            16 => {
                let at = self.rng.pick(&[1, 7, 8, 9, 256, usize::MAX, usize::MAX - 1]);
                let value = self.rng.next() as u8;
                self.write(at, value);
            }
            _ => {
                let (at, value) = (self.rng.below(10), self.rng.next() as u8);
                self.write(at, if at == 0 { value % 6 } else { value });
            }
        }
    }
}

/// All 0 as at first, near an edge or a corner of the sheet, or of any contents, also such as no writes and
/// steps lead to.
fn contents(rng: &mut Rng) -> Registers {
    let near = |rng: &mut Rng, edge: usize| match rng.below(4) {
        0 => rng.below(12) as u16,
        1 => rng.below(edge) as u16,
        _ => (edge - rng.below(12)) as u16,
    };
    let mut r = Registers { pen: [near(rng, 8410), near(rng, 5940)], ..Registers::default() };
    r.target = r.pen;
    match rng.below(8) {
        0..3 => Registers::default(),
        3..7 => r,
        _ => Registers {
            pen: [rng.next() as u16, rng.next() as u16],
            target: [rng.next() as u16, rng.next() as u16],
            bytes: rng.next().to_le_bytes(),
        },
    }
}

pub fn compare(run: &mut Run) {
    let mut rng = Rng::new(run.seed ^ name_hash("registers"));
    let (mut writes, mut steps) = (Tally::default(), Tally::default());
    while writes.count < 2 * run.count || steps.count < 40 * run.count {
        let core = contents(&mut rng);
        let actions = 1 + rng.below(200);
        let (writes, steps) = (&mut writes, &mut steps);
        let mut session = Session { rng: &mut rng, rust: Plotter::of(&core), core, writes, steps };
        for _ in 0..actions {
            session.act();
        }
    }
    let names = ["accepted", "16", "17", "moves", "past the sheet"];
    run.report(
        "plotter_write",
        writes.count,
        writes.differ,
        &names,
        &writes.shares,
        writes.smallest,
    );
    let names = ["busy", "arrivals", "with pending"];
    run.report(
        "plotter_step",
        steps.count,
        steps.differ,
        &names,
        &steps.shares[..3],
        steps.smallest,
    );
}

/// A go across the sheet, step by step: the second implementation, then the compiled call.
pub fn speed() {
    let mut start = Registers { bytes: [0, 0, 218, 32, 52, 23, 1, 0], ..Registers::default() };
    start.write(0, 4).unwrap_or_else(|number| panic!("refused: {number}"));
    let rust = || {
        let mut plotter = Plotter::of(&start);
        for _ in 0..8410 {
            black_box(&mut plotter).step();
        }
    };
    let core = || {
        let mut registers = start;
        for _ in 0..8410 {
            raw_registers::larnt_plotter_step(black_box(&mut registers));
        }
    };
    time("plotter_step", 8410, rust, core);
}
