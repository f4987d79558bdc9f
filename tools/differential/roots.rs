//! The roots: square root, length and distance, each with its remainder, which the Rust side works out
//! in whole numbers of 128 bits.

use crate::calls::{Answer, Call};
use crate::harness::Run;
use crate::inputs;
use crate::leaves::{float, line, timed};
use std::hint::black_box;

pub fn compare(run: &mut Run) {
    line(run, "sqrt", Call::Sqrt, inputs::sqrt, "exact", exact);
    line(run, "length", Call::Length, inputs::length, "exact", exact);
    line(run, "distance", Call::Distance, inputs::distance, "exact", exact);
}

/// A positive root with nothing left over.
fn exact(a: &Answer) -> bool {
    let root = float(a[0]);
    root > 0.0 && root.is_finite() && a[1] == 0
}

pub fn speed() {
    timed("sqrt", inputs::squared_length, |calls, xs| {
        let mut rest = 0;
        for x in xs {
            black_box((calls.sqrt)(*x, &mut rest));
        }
    });
}
