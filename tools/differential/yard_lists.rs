//! Writes the texts that crates/test_yard replays, with the oracle's answers: every refusal that `yard` can meet,
//! its bounds, spoilt forms, and the example yards.
//!
//!     yard_lists FOLDER    writes FOLDER/stdin and FOLDER/stdout

use oracle::generate::Rng;

/// The program has places for so many bytes.
const MOST: usize = 524_288;
const VIEW: &str = "(view 2 2 0 0 0 5 1 0 0 0 0 1 0 0 0 0 1 0 0 0 0 1)\n";
const STEPPED: &str = "(view 10 10 3 0 0 5 1 0 0 0 0 1 0 0 0 0 1 0 0 0 0 1)\n";
const IDENTITY: &str = "1 0 0 0 0 1 0 0 0 0 1 0 0 0 0 1";

#[derive(Default)]
struct List {
    records: Vec<(Vec<u8>, String)>,
}

impl List {
    fn add(&mut self, text: impl AsRef<[u8]>) {
        let text = text.as_ref().to_vec();
        if self.records.iter().any(|(t, _)| *t == text) {
            return;
        }
        let answer = oracle::yard::run(&text);
        if answer != "omitted\n" {
            self.records.push((text, answer));
        }
    }

    fn form(&mut self, form: &str) {
        self.add(format!("{VIEW}{form}\n"));
    }

    /// Each place of a text left out, doubled and changed, some of them.
    fn spoilt(&mut self, rng: &mut Rng, text: &str, count: usize) {
        let text = text.as_bytes();
        for _ in 0..count {
            let k = rng.below(text.len());
            let mut spoilt = text.to_vec();
            match rng.below(5) {
                0 => drop(spoilt.remove(k)),
                1 => spoilt.insert(k, text[k]),
                2 => spoilt.truncate(k),
                3 => spoilt[k] = rng.pick(b" ()#-0123456789aAfFgG\t\r\n.+e\x00\xff"),
                _ => spoilt.insert(k, rng.pick(b" ()#-0123456789aAfFgG\t\r\n.+e\x00\xff")),
            }
            if oracle::yard::run(&spoilt).len() < 2_000 {
                self.add(spoilt);
            }
        }
    }

    /// How many there are, the places of texts and answers, then these.
    fn bytes(&self) -> Vec<u8> {
        let mut at = 8 * (2 * self.records.len() + 2);
        let (mut head, mut body) = (vec![self.records.len(), at], Vec::<u8>::new());
        for (text, answer) in &self.records {
            for part in [&text[..], answer.as_bytes()] {
                at += part.len();
                head.push(at);
                body.extend(part);
            }
        }
        let mut bytes: Vec<u8> = head.iter().flat_map(|n| (*n as u64).to_be_bytes()).collect();
        bytes.extend(body);
        bytes
    }
}

const FORMS: [&str; 30] = [
    "(triangle 0 0 0 #3FE0000000000000 0 0 0 #3fe0000000000000 0)",
    "(sphere 0 0 0 1)",
    "(sphere 0 0 0 1 (line 1 0 0 0 1 0 -1 0 0) (line))",
    "(cylinder 1 -1 1 (line 1 0 -1 1 0 1))",
    "(cone 1 2 (line 1 0 0 0 0 2))",
    "(cylinder 1 -1 1 7 (line 1 0 -1 1 0 1))",
    "(cone 1 2 012)",
    "(closed-cylinder 1 -1 1 5 (line 1 0 -1 1 0 1))",
    "(closed-cone 1 2 (line 1 0 0 0 0 2))",
    "(cube 1 -1 -1 -1 1 1 1)",
    "(cube 7 0 0 0 1 1 1)",
    "(place 1 0 0 1 0 1 0 0 0 0 -1 0 0 0 0 1 (cube 1 0 0 0 1 1 1))",
    "(cut 1 (cube 1 -1 -1 -1 1 1 1) (cube 1 0 0 0 2 2 2))",
    "(cut 0 (cube 1 -1 -1 -1 1 1 1) (sphere 0 0 0 1 (line 1 0 0 0 1 0)))",
    "(cut 1 (cut 0 (cube 1 0 0 0 1 1 1) (sphere 0 0 0 1)) (cylinder 1 -1 1))",
    "(cut 3 (cube 1 -1 -1 -1 1 1 1) (cube 1 0 0 0 2 2 2))",
    "(cut 2 (cut 3 (cube 1 0 0 0 1 1 1) (sphere 0 0 0 1)) (cylinder 1 -1 1))",
    // 3
    "(cube 0 0 0 0 1 1 1)",
    "(cube 1001 0 0 0 1 1 1)",
    "(cut 4 (cone 1 1) (cone 1 1))",
    // 14
    "(cone 1 2 361)",
    // 5
    "(sphere 0 0 0 -1)",
    "(cone 1 0)",
    "(cylinder 1 1 -1)",
    "(cube 1 1 0 0 0 1 1)",
    "(cone #7FF0000000000000 1)",
    // 6
    "(place 1 0 0 0 0 1 0 0 0 0 0 0 0 0 0 1 (cone 1 1))",
    "(place #0000000000000001 0 0 0 0 1 0 0 0 0 1 0 0 0 0 1 (cone 1 1))",
    // 7
    "(sphere 1000000 0 0 1)",
    // 9
    "(sphere 0 0 0 1 (line #7FF8000000000000 0 0 1 1 1))",
];

const TEXTS: [&str; 20] = [
    "",
    "\n",
    "   \n \n",
    "(cone 1 1)\n",
    "(view)\n",
    "(view 2 2 0 0 0 5 1 0 0 0 0 1 0 0 0 0 1 0 0 0 0)\n",
    "(view 2 2 0 0 0 5 1 0 0 0 0 1 0 0 0 0 1 0 0 0 0 1 1)\n",
    "(view 2 2 0 0 0 5 1 0 0 0 0 1 0 0 0 0 1 0 0 0 0 1)",
    "(view 2 2 0 0 0 5 1 0 0 0 0 1 0 0 0 0 1 0 0 0 0 1) (cone 1 1)\n",
    "( view 2 2 0 0 0 5 1 0 0 0 0 1 0 0 0 0 1 0 0 0 0 1 )\n\n ( cone 1 1 ( line ) )",
    "(view 2 2 0 0 0 5 1 0 0 0 0 1 0 0 0 0 1 0 0 0 0 1)\n(cone 1\n1)\n",
    "(view 2 2 0 0 0 5 1 0 0 0 0 1 0 0 0 0 1 0 0 0 0 1)\n(Cone 1 1)\n",
    // 8
    "(view 0 2 0 0 0 5 1 0 0 0 0 1 0 0 0 0 1 0 0 0 0 1)\n",
    "(view 2 -2 0 0 0 5 1 0 0 0 0 1 0 0 0 0 1 0 0 0 0 1)\n",
    "(view 2 2 1001 0 0 5 1 0 0 0 0 1 0 0 0 0 1 0 0 0 0 1)\n",
    "(view 2 2 -1 0 0 5 1 0 0 0 0 1 0 0 0 0 1 0 0 0 0 1)\n",
    "(view 2 2 0 0 0 #412E848200000000 1 0 0 0 0 1 0 0 0 0 1 0 0 0 0 1)\n",
    "(view 2 2 0 0 0 5 #7FF0000000000000 0 0 0 0 1 0 0 0 0 1 0 0 0 0 1)\n",
    "(view 1000000 2 1000 -1000000 0 -5 1 0 0 0 0 1 0 0 0 0 1 0 0 0 0 1)\n(cube 3 0 0 0 1 1 1)\n",
    "(view 2 2 1000001 0 0 5 1 0 0 0 0 1 0 0 0 0 1 0 0 0 0 1)\n",
];

/// As many as there may be, or one more.
fn bounds(list: &mut List) {
    for stripes in [1000, 1001] {
        list.form(&format!("(cube {stripes} -1 -1 -1 1 1 1)"));
    }
    for stripes in ["0", "1", "360", "361", "1000000", "1000001", "-0", "+4"] {
        list.form(&format!("(cylinder 9 0 1 {stripes})"));
    }
    for form in ["closed-cylinder 9 0 1", "closed-cone 9 9"] {
        for stripes in ["", " 360", " 361"] {
            list.form(&format!("({form}{stripes})"));
        }
    }
    for form in
        ["(closed-cone 9)", "(closed-cylinder 9 1 0)", "(closed-sphere 0 0 0 1)", "(closed 9 9)"]
    {
        list.form(form);
    }
    list.form("(sphere 0 0 0 1 4)");
    list.form("(cone 1 2 361)\n(cut 4 (cone 1 1) (cone 1 1))");
    list.form("(cylinder 1 1 0)\n(cone 1 2 361)");
    for n in [304, 305] {
        let tubes = "(cylinder 9 0 1 360)\n(cylinder 9 0 1 181)\n";
        list.add(format!("{VIEW}{tubes}{}", "(cone 9 9 1)\n".repeat(n)));
    }
    for n in [512, 513] {
        // a line without points, so that there is no outline
        list.add(format!("{VIEW}{}", "(cone 0 1(line))\n".repeat(n)));
    }
    for n in [2048, 2049] {
        list.form(&format!("(sphere 9 9 9 0{})", "(line)".repeat(n)));
        // the points lie outside the view, so that the answer is short
        list.form(&format!("(sphere 9 9 9 0(line{}))", " 9 9 9".repeat(n)));
    }
    for deep in [8, 9, 512, 513] {
        let (open, close) = (format!("(place {IDENTITY} ").repeat(deep - 1), ")".repeat(deep - 1));
        list.form(&format!("{open}(cube 2 0 0 0 1 1 1){close}"));
    }
    for n in [65_536, 65_537] {
        let mut text = format!("{VIEW}(cone 1 1(line))\n").into_bytes();
        text.resize(n, b' ');
        list.add(text);
    }
    // chopped finer than there are places for
    for step in ["1", "#3F50624DD2F1A9FC", "#3F1A36E2EB1C432D"] {
        list.add(format!(
            "{}(cube 3 -1 -1 -1 1 1 1)\n",
            STEPPED.replacen(" 3 ", &format!(" {step} "), 1)
        ));
    }
    // many solids in one place, so that the tree is deep
    for n in [8, 9, 200] {
        let balls: String = (0..n).map(|k| format!("(cube 1 {k} 0 0 {} 1 1)\n", k + 1)).collect();
        list.add(format!("(view 9 9 0 300 5 5 1 0 0 0 0 1 0 0 0 0 1 0 0 0 0 400)\n{balls}"));
    }
}

/// Round solids with outlines, from the side and from within; and such as have none.
const OUTLINED: [&str; 10] = [
    "(sphere 0 0 0 1)",
    "(cylinder 1 -1 1)",
    "(closed-cylinder 2 0 1 0)",
    "(cone 1 2)",
    "(closed-cone 1 2)",
    "(cylinder 0 -1 1)",
    "(place 1 1 0 1 0 2 0 0 0 0 -1 0 0 0 0 1 (place 0 -1 0 0 1 0 1 0 0 0 2 0 0 0 0 1 (cylinder 1 -1 1)))",
    "(cut 1 (cube 1 -1 -1 -1 1 1 1) (cylinder 1 -2 2))",
    "(cylinder 1 -1 1 (line))",
    "(cone 1 2 2)",
];

/// A ring whose ends are moved by one placing after the other, whatever row 4 is; a ball infinitely far off as computed.
const PLACED: [&str; 2] = [
    "(view 64 64 4 0 0 9 1 0 0 0 0 1 0 0 0 0 1 0 0 0 0 16)\n(place 1 0 0 12 0 1 0 0 0 0 1 0 0 0 0 1 (place 1 0 0 0 0 1 0 0 0 0 1 0 0 0 0 2 (cone 2 1)))\n",
    "(view 64 64 4 9 8 7 1 0 0 0 0 1 0 0 0 0 1 0 0 0 0 16)\n(place #1E00000000000000 0 0 0 0 1 0 0 0 0 1 0 0 0 0 1 (sphere 0 0 0 1))\n",
];

fn outlines(list: &mut List) {
    let quarter = word(0.25);
    let side = format!("0 {quarter} 0 0 0 0 {quarter} 0 {} 0 0 0 0 0 0 1", word(0.015625));
    for form in OUTLINED {
        for asked in ["10 10 2 20 3 1", "10 10 9 0 0 0"] {
            list.add(format!("(view {asked} {side})\n{form}\n"));
        }
    }
    PLACED.iter().for_each(|text| list.add(text));
    // as fine as there are places for, and finer
    for step in ["1", "#3F50624DD2F1A9FC"] {
        list.add(format!("(view 10 10 {step} 20 3 1 {side})\n(cone 1 2)\n"));
    }
}

/// An f64 as the texts write it.
fn word(x: f64) -> String {
    format!("#{:016X}", x.to_bits())
}

/// 64 restarts of a cut and 65; a tree walk with 64 waiting places and one that needs 65.
fn restarts_and_places(list: &mut List) {
    // a part shrunk by 1e-6 misses at 1,000, so the ray from (0, 5, 0) along x goes on by 1,000.01 at a time
    let tenth = word(0.1);
    let view = format!("(view 2 2 0 900000 5 0 1 0 0 0 0 {tenth} 0 0 0 0 1 0 0 0 0 1)\n");
    let s = word(1e-6);
    let shrunk = format!("(place {s} 0 0 0 0 {s} 0 0 0 0 {s} 0 0 0 0 1 (cube 1 -1 -1 -1 1 1 1))");
    let point = "(sphere 0 -50 0 0 (line 0 5 0))\n";
    for (x, answer) in [(64_500, "(drawing 0)\n"), (65_500, "(refused 11)\n")] {
        let block = format!("(cube 1 {x} -10 -10 {} 10 10)", x + 100);
        for operation in [1, 3] {
            list.add(format!("{view}(cut {operation} {block} {shrunk})\n{point}"));
            assert_eq!(list.records.last().expect("a text").1, answer);
        }
    }
    // boxes in boxes, each a tenth of the one around it: the tree has a split for each but a few
    let mut before = String::new();
    for n in 55..85 {
        let boxes: String = (0..n)
            .map(|k| word(90_000.0 / 10f64.powi(k)))
            .map(|size| format!("(cube 1 0 0 0 {size} {size} {size})\n"))
            .collect();
        let text = format!("(view 2 2 0 0 0 900000 1 0 0 0 0 1 0 0 0 0 1 0 0 0 0 1)\n{boxes}");
        if oracle::yard::run(text.as_bytes()) == "(refused 12)\n" {
            assert!(oracle::yard::run(before.as_bytes()).starts_with("(drawing"));
            list.add(before);
            list.add(text);
            return;
        }
        before = text;
    }
    panic!("no tree is deep enough");
}

fn main() {
    let folder = std::env::args().nth(1).expect("a folder");
    let mut list = List::default();
    oracle::with_stack(move || {
        TEXTS.iter().for_each(|text| list.add(text));
        for form in FORMS {
            list.form(form);
            list.add(format!("{STEPPED}{form}\n"));
            list.add(format!("{VIEW}{form}\n(cube 1 -1 -1 -3 1 1 -2)\n"));
        }
        bounds(&mut list);
        outlines(&mut list);
        restarts_and_places(&mut list);
        let mut rng = Rng::new(1);
        for form in FORMS {
            list.spoilt(&mut rng, &format!("{VIEW}{form}\n"), 18);
        }
        let entries = std::fs::read_dir("examples").expect("examples");
        let mut yards: Vec<_> = entries.map(|e| e.expect("an entry").path()).collect();
        yards.retain(|path| path.extension().is_some_and(|x| x == "yard"));
        yards.sort();
        let mut texts: Vec<_> =
            yards.iter().map(|yard| std::fs::read(yard).expect("a yard")).collect();
        texts.sort_by_key(Vec::len);
        for text in texts {
            list.add(text);
            // one that is too long for the list is left out
            if list.bytes().len() > MOST {
                list.records.pop();
            }
        }
        let bytes = list.bytes();
        assert!(bytes.len() <= MOST, "{} bytes", bytes.len());
        let mut answers = std::collections::BTreeMap::<String, usize>::new();
        for (_, answer) in &list.records {
            let first = answer.lines().next().unwrap_or("").to_string();
            *answers
                .entry(if first.starts_with("(d") { "drawings".into() } else { first })
                .or_default() += 1;
        }
        println!("{} texts, {} bytes: {answers:?}", list.records.len(), bytes.len());
        std::fs::write(format!("{folder}/stdin"), bytes).expect("stdin");
        std::fs::write(
            format!("{folder}/stdout"),
            format!("{} texts, 0 wrong\n", list.records.len()),
        )
        .expect("stdout");
    });
}
