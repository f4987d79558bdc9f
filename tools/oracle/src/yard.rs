//! The text that the program `yard` reads and prints, as documents 01 and 02 have it.

use crate::stripes::striped;
use crate::{Answer, FINE, Lines, Room, Scene, Trouble, View};

pub const MOST_BYTES: usize = 65_536;
pub const MOST_ENTRIES: usize = 512;
pub const PLACES: usize = 2_048;

/// The whole program: text in, text out.
pub fn run(text: &[u8]) -> String {
    let drawn =
        read(text).and_then(|(view, scene)| crate::draw(&scene, &view, FINE, Room::of(PLACES)));
    match drawn {
        Ok(lines) => drawing(&lines),
        Err(Trouble::Refused(number)) => format!("(refused {number})\n"),
        Err(Trouble::Omitted) => "omitted\n".to_string(),
        Err(Trouble::Panicked(message)) => format!("panic {message}\n"),
    }
}

/// A view and a scene, or 1.
pub fn read(text: &[u8]) -> Answer<(View, Scene)> {
    forms(text).ok_or(Trouble::Refused(1))
}

enum Token<'a> {
    Open,
    Close,
    Word(&'a [u8]),
}

fn tokens(line: &[u8]) -> Vec<Token<'_>> {
    let mut tokens = Vec::new();
    let mut i = 0;
    while i < line.len() {
        let from = i;
        while i < line.len() && !b" ()".contains(&line[i]) {
            i += 1;
        }
        if i > from {
            tokens.push(Token::Word(&line[from..i]));
            continue;
        }
        match line[i] {
            b'(' => tokens.push(Token::Open),
            b')' => tokens.push(Token::Close),
            _ => {}
        }
        i += 1;
    }
    tokens
}

fn forms(text: &[u8]) -> Option<(View, Scene)> {
    if text.len() > MOST_BYTES {
        return None;
    }
    let mut view = None;
    let mut scene = Scene::default();
    for line in text.split(|b| *b == b'\n') {
        let tokens = tokens(line);
        if tokens.is_empty() {
            continue;
        }
        let mut form = Form { tokens: &tokens, scene: &mut scene };
        if view.is_none() {
            view = Some(form.view()?);
        } else {
            form.solid()?;
        }
        if !form.tokens.is_empty() {
            return None;
        }
    }
    let fits = scene.entries() <= MOST_ENTRIES
        && scene.points.len() / 3 <= PLACES
        && scene.starts.len() <= PLACES;
    if fits { Some((view?, scene)) } else { None }
}

/// What is left of a line, and the scene that its forms go to.
struct Form<'a> {
    tokens: &'a [Token<'a>],
    scene: &'a mut Scene,
}

impl<'a> Form<'a> {
    fn next(&mut self) -> Option<&'a Token<'a>> {
        let (first, rest) = self.tokens.split_first()?;
        self.tokens = rest;
        Some(first)
    }

    fn open(&mut self) -> Option<()> {
        matches!(self.next()?, Token::Open).then_some(())
    }

    fn close(&mut self) -> Option<()> {
        matches!(self.next()?, Token::Close).then_some(())
    }

    fn word(&mut self) -> Option<&'a [u8]> {
        match self.next()? {
            Token::Word(w) => Some(w),
            _ => None,
        }
    }

    fn numbers(&mut self, count: usize) -> Option<Vec<f64>> {
        (0..count).map(|_| number(self.word()?)).collect()
    }

    fn view(&mut self) -> Option<View> {
        self.open()?;
        if self.word()? != b"view" {
            return None;
        }
        let n = self.numbers(22)?;
        self.close()?;
        let matrix = n[6..].try_into().unwrap();
        Some(View { width: n[0], height: n[1], step: n[2], eye: [n[3], n[4], n[5]], matrix })
    }

    /// A form of any solid; inner forms become earlier entries. Gives its entry's index.
    fn solid(&mut self) -> Option<u32> {
        self.open()?;
        let entry = match self.word()? {
            b"sphere" => self.round(1, 4)?,
            b"cylinder" => self.round(2, 3)?,
            b"cone" => self.round(3, 2)?,
            b"closed-cylinder" => self.round(8, 3)?,
            b"closed-cone" => self.round(9, 2)?,
            b"cube" => {
                let stripes = decimal(self.word()?)?;
                let n = self.numbers(6)?;
                self.scene.push([4, stripes, 0, 0], &n)
            }
            b"triangle" => {
                let n = self.numbers(9)?;
                self.scene.push([5, 0, 0, 0], &n)
            }
            b"place" => {
                let n = self.numbers(16)?;
                let part = self.solid()?;
                self.scene.push([6, 0, part, 0], &n)
            }
            b"cut" => {
                let operation = decimal(self.word()?)?;
                let (a, b) = (self.solid()?, self.solid()?);
                self.scene.push([7, operation, a, b], &[])
            }
            _ => return None,
        };
        self.close()?;
        Some(entry)
    }

    /// A round solid: its measures, a count of stripes if one stands there, its lines.
    fn round(&mut self, kind: u32, count: usize) -> Option<u32> {
        let n = self.numbers(count)?;
        let stripes = match self.tokens {
            [Token::Word(word), rest @ ..] if striped(kind) => {
                self.tokens = rest;
                decimal(word)?
            }
            _ => 0,
        };
        let entry = self.scene.push([kind, stripes, 0, 0], &n);
        while let [Token::Open, ..] = self.tokens {
            self.line(entry)?;
        }
        Some(entry)
    }

    fn line(&mut self, owner: u32) -> Option<()> {
        self.open()?;
        if self.word()? != b"line" {
            return None;
        }
        let mut points = Vec::new();
        while let [Token::Word(_), ..] = self.tokens {
            let n = self.numbers(3)?;
            points.push([n[0], n[1], n[2]]);
        }
        self.close()?;
        self.scene.push_line(owner, &points);
        Some(())
    }
}

/// A decimal without sign of value at most 1,000,000.
fn decimal(word: &[u8]) -> Option<u32> {
    if word.is_empty() {
        return None;
    }
    let mut value = 0;
    for b in word {
        if !b.is_ascii_digit() {
            return None;
        }
        value = value * 10 + u32::from(b - b'0');
        if value > 1_000_000 {
            return None;
        }
    }
    Some(value)
}

/// A decimal, with - before it if negative, or # and the 16 digits of an f64's bits.
fn number(word: &[u8]) -> Option<f64> {
    match word {
        [b'#', digits @ ..] => {
            if digits.len() != 16 || !digits.iter().all(u8::is_ascii_hexdigit) {
                return None;
            }
            let digits = std::str::from_utf8(digits).ok()?;
            u64::from_str_radix(digits, 16).ok().map(f64::from_bits)
        }
        [b'-', digits @ ..] => Some(0.0 - f64::from(decimal(digits)?)),
        digits => Some(f64::from(decimal(digits)?)),
    }
}

/// The path count, then each path with its points; both zeros print as +0.
pub fn drawing(lines: &Lines) -> String {
    let mut text = format!("(drawing {})\n", lines.starts.len());
    for (k, start) in lines.starts.iter().enumerate() {
        let end = lines.starts.get(k + 1).copied().unwrap_or(lines.points.len() / 3);
        text.push_str("(path");
        for p in lines.points[3 * start..3 * end].chunks(3) {
            let [x, y, z] = [p[0], p[1], p[2]].map(|x| if x == 0.0 { 0 } else { x.to_bits() });
            text.push_str(&format!(" (#{x:016X} #{y:016X} #{z:016X})"));
        }
        text.push_str(")\n");
    }
    text
}
