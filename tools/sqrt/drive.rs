// larnt_sqrt against f64::sqrt, bit for bit (NaNs alike), and its remainder against whole numbers of 128
// bits; then the time of each.
use std::hint::black_box;
use std::time::Instant;

#[link(name = "host", kind = "static")]
unsafe extern "C" {
    fn larnt_sqrt(x: f64, rest: &mut i64) -> f64;
}

#[inline(never)]
fn proved(x: f64) -> f64 {
    proved_with_rest(x).0
}

fn proved_with_rest(x: f64) -> (f64, i64) {
    // what stands there before is no remainder of any root
    let mut rest = i64::MIN;
    let root = unsafe { larnt_sqrt(x, &mut rest) };
    (root, rest)
}

#[inline(never)]
fn hardware(x: f64) -> f64 {
    x.sqrt()
}

const HID: u64 = 1 << 52;
const SIGN: u64 = 1 << 63;

// xorshift64
struct Random(u64);

impl Random {
    fn next(&mut self) -> u64 {
        self.0 ^= self.0 << 13;
        self.0 ^= self.0 >> 7;
        self.0 ^= self.0 << 17;
        self.0
    }
}

// A positive finite f64 as a whole number times a power of 2; the number has 53 bits, or fewer below the
// normal ones.
fn parts(x: f64) -> (u64, i32) {
    let b = x.to_bits();
    if b < HID {
        (b, -1074)
    } else {
        (b % HID + HID, (b / HID) as i32 - 1075)
    }
}

// S - R * R, where the root is R * 2^k with R of 53 bits, and x is S * 4^k.
fn remainder(x: f64, root: f64) -> i128 {
    if !(x > 0.0 && x.is_finite()) {
        return 0;
    }
    let ((m, e), (r, k)) = (parts(x), parts(root));
    (i128::from(m) << (e - 2 * k)) - i128::from(r) * i128::from(r)
}

#[derive(Default)]
struct Tally {
    inputs: u64,
    differ: u64,
    below: u64,
    above: u64,
}

impl Tally {
    fn test(&mut self, bits: u64) {
        let x = f64::from_bits(bits);
        let ((a, left), b) = (proved_with_rest(x), x.sqrt());
        let rest = remainder(x, b);
        self.inputs += 1;
        self.below += u64::from(rest > 0);
        self.above += u64::from(rest < 0);
        let same = if b.is_nan() {
            a.is_nan()
        } else {
            a.to_bits() == b.to_bits()
        };
        if !same || i128::from(left) != rest {
            self.differ += 1;
            if self.differ <= 10 {
                println!(
                    "{bits:016x}: {:016x} and {left}, not {:016x} and {rest}",
                    a.to_bits(),
                    b.to_bits()
                );
            }
        }
    }
}

// An f64 whose root lies next to r + 1/2: (r + 1/2)^2 cut to 53 digits, or one more, at an exponent that puts r's last digit last.
fn next_to_midpoint(s: u64) -> u64 {
    let r = u128::from(s >> 12 | HID);
    let q = r * r + r;
    let odd = u128::BITS - q.leading_zeros() - 105;
    let m = (q >> (52 + odd)) as u64 + (s & 1);
    let field = 2 * ((s >> 1) % 1022) + u64::from(odd);
    field * HID + m
}

// The square of a number of up to 26 digits, exact, times a power of 4.
fn square(s: u64) -> u64 {
    let i = (s >> 38) + 1;
    let power = f64::from_bits((2 * (s & 0x1ff) + 511) * HID);
    ((i * i) as f64 * power).to_bits()
}

fn compare(seed: u64, count: u64) -> Tally {
    let mut t = Tally::default();
    // zeros, infinities, NaNs, the ends of the subnormals and of the normals, of either sign
    for b in [
        0,
        1,
        2,
        3,
        HID - 2,
        HID - 1,
        HID,
        HID + 1,
        0x3fef_ffff_ffff_ffff,
        0x3ff0_0000_0000_0000,
        0x3ff0_0000_0000_0001,
        0x7fef_ffff_ffff_ffff,
        0x7ff0_0000_0000_0000,
        0x7ff0_0000_0000_0001,
        0x7ff8_0000_0000_0000,
        SIGN - 1,
    ] {
        t.test(b);
        t.test(b | SIGN);
    }
    // each exponent
    for e in 0..2047u64 {
        for f in [0, 1, 2, HID / 2 - 1, HID / 2, HID / 2 + 1, HID - 2, HID - 1] {
            t.test(e * HID + f);
            t.test(e * HID + f | SIGN);
        }
    }
    let mut r = Random(seed.wrapping_mul(2).wrapping_add(0x9e37_79b9_7f4a_7c15) | 1);
    for i in 0..count {
        let s = r.next();
        match i % 8 {
            // any pattern; a positive one, two in eight
            0 => t.test(s),
            1 | 2 => t.test(s >> 1),
            // a subnormal of any length
            3 => t.test(s >> 12 >> (s & 63) % 52),
            // each exponent in turn
            4 => t.test(i / 8 % 2047 * HID + (s >> 12)),
            5 => t.test(next_to_midpoint(s)),
            6 => t.test(0x3ff0_0000_0000_0000 - (1 << 19) + (s >> 44)),
            _ => t.test(square(s) + s % 3 - 1),
        }
    }
    t
}

// Nanoseconds a call, each argument depending on the result before.
fn round(f: fn(f64) -> f64) -> f64 {
    let calls = 1_000_000u64;
    let mut x = black_box(1.7f64);
    let mut r = Random(88_172_645_463_325_252);
    let start = Instant::now();
    for _ in 0..calls {
        // a positive normal pattern, with the last result's sign, which is clear, in its last place
        let b = r.next() >> 2 | 0x1000_0000_0000_0000 | x.to_bits() >> 63;
        x = f(f64::from_bits(b));
    }
    black_box(x);
    start.elapsed().as_secs_f64() / calls as f64 * 1e9
}

fn main() {
    let mut args = std::env::args()
        .skip(1)
        .map(|a| a.parse::<u64>().expect("a whole number"));
    let (seed, count) = (args.next().expect("SEED"), args.next().expect("COUNT"));
    let t = compare(seed, count);
    let exact = t.inputs - t.below - t.above;
    println!(
        "{} inputs, {} differ; the root lies below the true one {}, above it {}, and nothing is left over {} times",
        t.inputs, t.differ, t.below, t.above, exact
    );
    // in turn, the best round of each
    let (mut h, mut p) = (f64::INFINITY, f64::INFINITY);
    for _ in 0..40 {
        h = h.min(round(hardware));
        p = p.min(round(proved));
    }
    println!(
        "a call, each after the last: f64::sqrt {h:.2} ns, larnt_sqrt {p:.2} ns, ratio {:.2}",
        p / h
    );
    if t.differ > 0 {
        std::process::exit(1);
    }
}
