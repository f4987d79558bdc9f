//! The stripes of cylinders and cones, open or closed (document 02, ii), by the constant table of cosines and sines: what a draw's
//! oracle takes as lines that are handed in. larnt's own `paths_striped` takes the machine's cosine and sine.

use std::sync::LazyLock;

pub const MOST_STRIPES: u32 = 360;

/// Whether the detail of a kind is a count of stripes.
pub fn striped(kind: u32) -> bool {
    matches!(kind, 2 | 3 | 8 | 9)
}

/// Cosine and sine of 0 to 359 degrees in units of 2^-53, as tools/degrees/generate prints them.
static TABLE: LazyLock<Vec<[i64; 2]>> = LazyLock::new(|| {
    let lines = include_str!(env!("DEGREES")).lines();
    let table: Vec<[i64; 2]> = lines
        .map(|line| {
            let mut words = line.split(' ').map(|word| word.parse().expect("a whole number"));
            std::array::from_fn(|_| words.next().expect("cosine and sine"))
        })
        .collect();
    assert_eq!(table.len(), 360);
    table
});

/// 2^-53.
const UNIT: f64 = f64::EPSILON / 2.0;

/// The stripes of an entry of these numbers, each from its foot up; none where the count is 0. Lines stand at
/// each (360 / count, rounded down) degrees.
pub fn stripes(kind: u32, count: u32, n: &[f64]) -> Vec<[[f64; 3]; 2]> {
    if !striped(kind) || count == 0 {
        return Vec::new();
    }
    let degrees = (0..360).step_by((360 / count) as usize);
    let stripe = |degree: usize| {
        let [x, y] = TABLE[degree].map(|units| n[0] * (units as f64 * UNIT));
        match kind {
            2 | 8 => [[x, y, n[1]], [x, y, n[2]]],
            _ => [[x, y, 0.0], [0.0, 0.0, n[1]]],
        }
    };
    degrees.map(stripe).collect()
}
