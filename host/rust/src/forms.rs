//! Yards and drawings as text, as the program `yard` reads and prints them. The reader takes a little more: a form may go
//! over several lines, and there is no limit on how much it reads.
use crate::{Drawing, Entry, Refused, Scene, View};
use std::fmt::Write;

/// Forms within forms; the library refuses more than 8.
const DEEPEST: usize = 100;

/// Of each form the kind, how many measures it has and how many parts.
const FORMS: [(&str, u32, usize, usize); 9] = [
    ("sphere", 1, 4, 0),
    ("cylinder", 2, 3, 0),
    ("cone", 3, 2, 0),
    ("cube", 4, 6, 0),
    ("triangle", 5, 9, 0),
    ("place", 6, 16, 1),
    ("cut", 7, 0, 2),
    ("closed-cylinder", 8, 3, 0),
    ("closed-cone", 9, 2, 0),
];

/// The view and the scene of a text, or refusal 1 where it is not forms.
pub fn read(text: &str) -> Result<(View, Scene), Refused> {
    let mut reader = Reader {
        left: text,
        scene: Scene::new(),
    };
    let view = reader.view()?;
    while !reader.peek().is_empty() {
        reader.form(1)?;
    }
    Ok((view, reader.scene))
}

struct Reader<'a> {
    left: &'a str,
    scene: Scene,
}

impl<'a> Reader<'a> {
    /// The next bracket or word, which stays; nothing at the end.
    fn peek(&mut self) -> &'a str {
        self.left = self.left.trim_start_matches([' ', '\n']);
        let end = match self.left.find([' ', '\n', '(', ')']) {
            Some(0) => 1,
            Some(end) => end,
            None => self.left.len(),
        };
        &self.left[..end]
    }

    fn next(&mut self) -> &'a str {
        let token = self.peek();
        self.left = &self.left[token.len()..];
        token
    }

    fn expect(&mut self, token: &str) -> Result<(), Refused> {
        if self.next() == token {
            Ok(())
        } else {
            Err(Refused(1))
        }
    }

    /// A whole decimal up to 1,000,000.
    fn count(&mut self) -> Result<u32, Refused> {
        whole(self.next())
    }

    /// A whole decimal of magnitude up to 1,000,000, or # and 16 hexadecimal digits.
    fn number(&mut self) -> Result<f64, Refused> {
        let word = self.next();
        if let Some(digits) = word.strip_prefix('#') {
            let hex = digits.len() == 16 && digits.bytes().all(|b| b.is_ascii_hexdigit());
            return match u64::from_str_radix(digits, 16) {
                Ok(bits) if hex => Ok(f64::from_bits(bits)),
                _ => Err(Refused(1)),
            };
        }
        match word.strip_prefix('-') {
            Some(digits) => whole(digits).map(|x| 0.0 - f64::from(x)),
            None => whole(word).map(f64::from),
        }
    }

    /// (view width height step, eye, matrix)
    fn view(&mut self) -> Result<View, Refused> {
        self.expect("(")?;
        self.expect("view")?;
        let (width, height, step) = (self.number()?, self.number()?, self.number()?);
        let eye = [self.number()?, self.number()?, self.number()?];
        let mut matrix = [0.0; 16];
        for x in &mut matrix {
            *x = self.number()?;
        }
        self.expect(")")?;
        Ok(View {
            matrix,
            eye,
            width,
            height,
            step,
        })
    }

    /// A form becomes an entry, after those of its parts.
    fn form(&mut self, depth: usize) -> Result<Entry, Refused> {
        if depth > DEEPEST {
            return Err(Refused(4));
        }
        self.expect("(")?;
        let head = self.next();
        let &(_, kind, measures, parts) =
            FORMS.iter().find(|form| form.0 == head).ok_or(Refused(1))?;
        let striped = matches!(kind, 2 | 3 | 8 | 9);
        let mut detail = if kind == 4 || kind == 7 {
            self.count()?
        } else {
            0
        };
        let row = (0..measures)
            .map(|_| self.number())
            .collect::<Result<Vec<f64>, Refused>>()?;
        if striped && !["(", ")"].contains(&self.peek()) {
            detail = self.count()?;
        }
        let mut named = [0; 2];
        for part in &mut named[..parts] {
            *part = self.form(depth + 1)?.0;
        }
        let entry = self.scene.enter(kind, &row, detail, named);
        if striped || kind == 1 {
            self.lines(entry)?;
        }
        self.expect(")")?;
        Ok(entry)
    }

    /// The (line ..) forms of a round solid.
    fn lines(&mut self, entry: Entry) -> Result<(), Refused> {
        while self.peek() == "(" {
            self.expect("(")?;
            self.expect("line")?;
            let mut points = Vec::new();
            while self.peek() != ")" {
                points.push([self.number()?, self.number()?, self.number()?]);
            }
            self.expect(")")?;
            self.scene.line(entry, &points);
        }
        Ok(())
    }
}

fn whole(digits: &str) -> Result<u32, Refused> {
    let plain = !digits.is_empty() && digits.bytes().all(|b| b.is_ascii_digit());
    match digits.parse() {
        Ok(x) if plain && x <= 1_000_000 => Ok(x),
        _ => Err(Refused(1)),
    }
}

/// A drawing as `yard` prints it: both zeros as +0, and every NaN as one.
pub fn write(drawing: &Drawing) -> String {
    let mut text = format!("(drawing {})\n", drawing.paths().count());
    for path in drawing.paths() {
        text += "(path";
        for point in path {
            let [x, y, z] = point.map(|x| {
                if x == 0.0 {
                    0
                } else if x.is_nan() {
                    0x7FF8 << 48
                } else {
                    x.to_bits()
                }
            });
            let _ = write!(text, " (#{x:016X} #{y:016X} #{z:016X})");
        }
        text += ")\n";
    }
    text
}
