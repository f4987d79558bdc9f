//! What every layer needs: comparing a function over seeded cases, and timing it.

use oracle::generate::Rng;
use std::fmt::Write;
use std::time::Instant;

/// One run of comparisons.
pub struct Run {
    pub seed: u64,
    pub count: u64,
    pub differences: u64,
}

/// An input or an answer: how small it is, and how it is printed.
pub trait Shown {
    fn size(&self) -> u32;
    fn text(&self) -> String;
}

/// A name for some answers. The share of them tells how much the comparison bites.
pub type Share<'a, I, A> = (&'a str, &'a dyn Fn(&I, &A) -> bool);

/// The same of one question among those of a case.
pub type Part<'a, I, A> = (&'a str, &'a dyn Fn(&I, usize, &A) -> bool);

impl Run {
    pub fn new(seed: u64, count: u64) -> Run {
        println!(
            "function                     cases   differ  share           smallest differing input"
        );
        Run { seed, count, differences: 0 }
    }

    /// Puts `count` cases to the Rust and to every form of the core, and prints one line.
    pub fn compare<I: Shown, A: Shown + PartialEq>(
        &mut self,
        name: &str,
        count: u64,
        make: impl Fn(&mut Rng) -> I,
        rust: impl Fn(&I) -> A,
        cores: &[&dyn Fn(&I) -> A],
        shares: &[Share<I, A>],
    ) {
        let mut rng = Rng::new(self.seed ^ name_hash(cases_of(name)));
        let (mut differ, mut counted) = (0, vec![0; shares.len()]);
        let mut smallest: Option<(u32, String)> = None;
        for _ in 0..count {
            let input = make(&mut rng);
            let expected = rust(&input);
            for (counted, (_, counts)) in counted.iter_mut().zip(shares) {
                *counted += u64::from(counts(&input, &expected));
            }
            let Some(got) = cores.iter().map(|core| core(&input)).find(|got| *got != expected)
            else {
                continue;
            };
            differ += 1;
            let size = input.size();
            if smallest.as_ref().is_none_or(|(least, _)| size < *least) {
                let (i, e, g) = (input.text(), expected.text(), got.text());
                smallest = Some((size, format!("{i} rust {e} core {g}")));
            }
        }
        let names: Vec<&str> = shares.iter().map(|(name, _)| *name).collect();
        self.report(name, count, differ, &names, &counted, smallest);
    }

    /// The same where a case holds several questions: at least `count` of those are put. `one` is the
    /// case of a single question.
    pub fn compare_many<I: Shown, A: Shown + PartialEq>(
        &mut self,
        name: &str,
        count: u64,
        make: impl Fn(&mut Rng) -> I,
        one: impl Fn(&I, usize) -> I,
        rust: impl Fn(&I) -> Vec<A>,
        cores: &[&dyn Fn(&I) -> Vec<A>],
        shares: &[Part<I, A>],
    ) {
        let mut rng = Rng::new(self.seed ^ name_hash(cases_of(name)));
        let (mut done, mut differ, mut counted) = (0, 0, vec![0; shares.len()]);
        let mut smallest: Option<(u32, String)> = None;
        while done < count {
            let case = make(&mut rng);
            let expected = rust(&case);
            let answers: Vec<Vec<A>> = cores.iter().map(|core| core(&case)).collect();
            for (k, e) in expected.iter().enumerate() {
                done += 1;
                for (counted, (_, counts)) in counted.iter_mut().zip(shares) {
                    *counted += u64::from(counts(&case, k, e));
                }
                let Some(got) = answers.iter().map(|all| &all[k]).find(|got| *got != e) else {
                    continue;
                };
                differ += 1;
                let input = one(&case, k);
                let size = input.size();
                if smallest.as_ref().is_none_or(|(least, _)| size < *least) {
                    let (i, e, g) = (input.text(), e.text(), got.text());
                    smallest = Some((size, format!("{i} rust {e} core {g}")));
                }
            }
        }
        let names: Vec<&str> = shares.iter().map(|(name, _)| *name).collect();
        self.report(name, done, differ, &names, &counted, smallest);
    }

    /// One line, whatever was compared.
    pub fn report(
        &mut self,
        name: &str,
        count: u64,
        differ: u64,
        shares: &[&str],
        counted: &[u64],
        smallest: Option<(u32, String)>,
    ) {
        self.differences += differ;
        let text = smallest.map_or("-".to_string(), |(_, text)| text);
        let named = counted.iter().zip(shares);
        let shares: Vec<String> =
            named.map(|(n, share)| format!("{share} {}", percent(*n, count))).collect();
        println!("{name:<25} {count:>8} {differ:>8}  {:<15} {text}", shares.join(", "));
    }
}

/// With one digit after the point, or with three where that would hide some.
fn percent(n: u64, of: u64) -> String {
    let percent = 100.0 * n as f64 / of as f64;
    if n > 0 && percent < 0.05 { format!("{percent:.3}%") } else { format!("{percent:.1}%") }
}

impl<const N: usize> Shown for [u64; N] {
    /// How many bits are set. Zeros and round numbers have few.
    fn size(&self) -> u32 {
        self.iter().map(|word| word.count_ones()).sum()
    }

    /// As 16 hexadecimal digits each, without the zeros at the end.
    fn text(&self) -> String {
        let used = self.iter().rposition(|word| *word != 0).map_or(1, |last| last + 1);
        self[..used].iter().fold(String::new(), |mut text, word| {
            let gap = if text.is_empty() { "" } else { " " };
            write!(text, "{gap}{word:016X}").unwrap();
            text
        })
    }
}

/// Whose cases a function is put: the preview those of the draws, else its own.
fn cases_of(name: &str) -> &str {
    match name {
        "preview" => "draw_with",
        "preview.rooms" => "draw.rooms",
        _ => name,
    }
}

/// FNV-1a, so that each function has cases of its own, whatever stands before it.
pub fn name_hash(name: &str) -> u64 {
    name.bytes()
        .fold(0xCBF2_9CE4_8422_2325, |h, b| (h ^ u64::from(b)).wrapping_mul(0x0000_0100_0000_01B3))
}

/// The rounds of one function.
const ROUNDS: usize = 1000;

pub fn times_header() {
    println!("function                   ns Rust  ns Rattle  ratio");
}

/// Times rounds of `calls` calls, the two sides in turn, and prints the best round of each.
pub fn time(name: &str, calls: usize, rust: impl Fn(), core: impl Fn()) {
    time_rounds(name, calls, ROUNDS, rust, core);
}

pub fn time_rounds(name: &str, calls: usize, rounds: usize, rust: impl Fn(), core: impl Fn()) {
    let mut best = [f64::INFINITY; 2];
    for _ in 0..rounds {
        for (best, side) in best.iter_mut().zip([&rust as &dyn Fn(), &core]) {
            let start = Instant::now();
            side();
            *best = best.min(start.elapsed().as_secs_f64() * 1e9 / calls as f64);
        }
    }
    let [r, c] = best;
    println!("{name:<25} {r:>8.2} {c:>10.2} {:>6.2}", c / r);
}
