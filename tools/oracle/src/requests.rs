//! The line-oriented program: one request a line, one answer a line.
//!
//! A float is 16 hexadecimal digits of its bits, a count or mark a decimal. `LIST` is a count
//! and that many values. Groups are written end to end, separated by spaces:
//!
//!     RAY    origin and direction, 6 floats
//!     BOX    min and max, 6 floats
//!     VIEW   width height step, eye (3), matrix by rows (16)
//!     LINES  LIST of floats (points), LIST of counts (starts)
//!     SCENE  LIST of floats (numbers), LIST of marks, LIST of floats (points),
//!            LIST of counts (starts), LIST of marks (owners)
//!     ROOM   places: work points, work starts, chopped points, chopped starts,
//!            out points, out starts, nodes, order
//!
//!     root X                              -> root
//!     box BOX RAY                         -> t1 t2
//!     project MATRIX(16) POINT(3)         -> x y z
//!     inverse MATRIX(16)                  -> 16 floats, determinant
//!     hit KIND NUMBERS RAY                -> t ok(0 or 1)
//!     bounds KIND NUMBERS                 -> BOX
//!     contains KIND NUMBERS POINT F       -> 0 or 1
//!     outline KIND NUMBERS EYE(3) PLACINGS VIEW -> LINES, with the eye in the solid's own coordinates and a
//!                                            LIST of the placings' matrices, innermost first
//!     segment POINT V W                   -> distance of the point from the segment v w
//!     chop VIEW LINES POINTS STARTS       -> ok LINES         (places for points and starts)
//!     simplify THRESHOLD LINES POINTS STARTS -> ok LINES
//!     check SCENE                         -> ok count of placings, each: entry, inverse (16);
//!                                            count of entries, each: BOX; LIST of drawn entries
//!     build SCENE NODES ORDER             -> ok count of nodes, each: BOX left_first count axis;
//!                                            LIST of entries in the tree's order
//!     intersect SCENE RAY                 -> ok t ok(0 or 1)
//!     own SCENE ENTRY RAY                 -> ok t ok(0 or 1), of that entry alone
//!     visible SCENE EYE(3) POINT(3)       -> ok yes or no
//!     draw SCENE VIEW THRESHOLD ROOM      -> ok LINES
//!
//! KIND is 1 to 5, 8 or 9 and NUMBERS are its 4, 3, 2, 6, 9, 3 or 2 measures. Where a call may refuse, the
//! other answers are `refused N`, `omitted` and `panic MESSAGE`. Before check, build,
//! intersect, visible, chop, simplify or draw the word `plain` may stand: larnt then runs with
//! no refusal at all, 2 to 8 included, so a scene that isn't accepted may panic or never end;
//! places are read and ignored. A request that can't be read is answered `bad`.

use crate::outlines::{outline, with_outlines};
use crate::{Answer, Checked, Hit, Lines, Places, Room, Rows, Scene, Trouble, View};
use crate::{limited, plain};
use larnt_limited::shape::Shape;
use std::fmt::Write;

/// The answer to one line.
pub fn answer(line: &str) -> String {
    let mut words = Words(line.split_ascii_whitespace());
    match words.request() {
        Some(text) if words.0.next().is_none() => text.trim_start().to_string(),
        _ => "bad".to_string(),
    }
}

struct Words<'a>(std::str::SplitAsciiWhitespace<'a>);

impl Words<'_> {
    fn float(&mut self) -> Option<f64> {
        let word = self.0.next()?;
        if word.len() != 16 {
            return None;
        }
        u64::from_str_radix(word, 16).ok().map(f64::from_bits)
    }

    fn floats<const N: usize>(&mut self) -> Option<[f64; N]> {
        let mut result = [0.0; N];
        for x in &mut result {
            *x = self.float()?;
        }
        Some(result)
    }

    fn count(&mut self) -> Option<usize> {
        self.0.next()?.parse().ok()
    }

    fn mark(&mut self) -> Option<u32> {
        self.0.next()?.parse().ok()
    }

    fn list<T>(&mut self, item: impl Fn(&mut Self) -> Option<T>) -> Option<Vec<T>> {
        let count = self.count()?;
        (0..count).map(|_| item(self)).collect()
    }

    fn view(&mut self) -> Option<View> {
        let (width, height, step) = (self.float()?, self.float()?, self.float()?);
        Some(View { width, height, step, eye: self.floats()?, matrix: self.floats()? })
    }

    fn lines(&mut self) -> Option<Lines> {
        Some(Lines { points: self.list(Self::float)?, starts: self.list(Self::count)? })
    }

    fn scene(&mut self) -> Option<Scene> {
        Some(Scene {
            numbers: self.list(Self::float)?,
            marks: self.list(Self::mark)?,
            points: self.list(Self::float)?,
            starts: self.list(Self::count)?,
            owners: self.list(Self::mark)?,
        })
    }

    fn places(&mut self) -> Option<Places> {
        Some(Places { points: self.count()?, starts: self.count()? })
    }

    fn room(&mut self) -> Option<Room> {
        Some(Room {
            work: self.places()?,
            chopped: self.places()?,
            out: self.places()?,
            nodes: self.count()?,
            order: self.count()?,
        })
    }

    /// A kind without parts, and its measures.
    fn measures(&mut self) -> Option<(u32, Vec<f64>)> {
        let kind = self.mark().filter(|k| matches!(k, 1..=5 | 8 | 9))?;
        let numbers = (0..crate::check::used_numbers(kind)).map(|_| self.float());
        Some((kind, numbers.collect::<Option<_>>()?))
    }

    fn simple(&mut self) -> Option<limited::Solid> {
        let (kind, numbers) = self.measures()?;
        Some(limited::simple(kind, 1, &numbers, Vec::new()))
    }

    fn request(&mut self) -> Option<String> {
        let name = self.0.next()?;
        if name == "plain" {
            return self.plain();
        }
        Some(match name {
            "root" => text_of(&[self.float()?.sqrt()]),
            "box" => {
                let (b, r) = (self.floats()?, self.floats()?);
                let (t1, t2) = limited::bbox(b).intersect(limited::ray(r));
                text_of(&[t1, t2])
            }
            "project" => {
                let (m, p): ([f64; 16], _) = (self.floats()?, self.floats()?);
                let v = limited::matrix(&m).mul_position_w(limited::vector(p));
                text_of(&[v.x, v.y, v.z])
            }
            "inverse" => {
                let m = limited::matrix(&self.floats::<16>()?);
                text_of(&limited::of_matrix(m.inverse())) + &text_of(&[m.determinant()])
            }
            "hit" => {
                let (solid, r) = (self.simple()?, self.floats()?);
                let h = solid.intersect(limited::ray(r));
                hit_text(&Hit { t: h.t, ok: h.ok })
            }
            "bounds" => text_of(&limited::of_bbox(self.simple()?.bounding_box())),
            "contains" => {
                let (solid, p, f) = (self.simple()?, self.floats()?, self.float()?);
                u32::from(solid.contains(limited::vector(p), f)).to_string()
            }
            "outline" => {
                let ((kind, numbers), eye) = (self.measures()?, self.floats()?);
                let (placings, view) = (self.list(Self::floats)?, self.view()?);
                let mut told = Scene::default();
                let lines = outline(kind, &numbers, eye, &placings, &view);
                lines.iter().for_each(|line| told.push_line(0, line));
                let Scene { points, starts, .. } = told;
                lines_text(&Lines { points, starts })
            }
            "segment" => {
                let [p, v, w] =
                    [self.floats()?, self.floats()?, self.floats()?].map(limited::vector);
                text_of(&[p.segment_distance(v, w)])
            }
            "chop" => {
                let (view, lines, places) = (self.view()?, self.lines()?, self.places()?);
                answer_text(crate::chop(&view, &lines, places), lines_text)
            }
            "simplify" => {
                let (threshold, lines, places) = (self.float()?, self.lines()?, self.places()?);
                answer_text(crate::simplify(threshold, &lines, places), lines_text)
            }
            "check" => answer_text(crate::check(&self.scene()?), checked_text),
            "build" => {
                let (scene, nodes, order) = (self.scene()?, self.count()?, self.count()?);
                answer_text(crate::build(&scene, nodes, order), rows_text)
            }
            "intersect" => {
                let (scene, r) = (self.scene()?, self.floats()?);
                answer_text(crate::intersect(&scene, r), hit_text)
            }
            "own" => {
                let (scene, i, r) = (self.scene()?, self.count()?, self.floats()?);
                if i >= scene.entries() {
                    return None;
                }
                answer_text(crate::own_hit(&scene, i, r), hit_text)
            }
            "visible" => {
                let (scene, eye, p) = (self.scene()?, self.floats()?, self.floats()?);
                answer_text(crate::visible(&scene, eye, p), seen_text)
            }
            "draw" => {
                let (scene, view) = (self.scene()?, self.view()?);
                let (threshold, room) = (self.float()?, self.room()?);
                answer_text(crate::draw(&scene, &view, threshold, room), lines_text)
            }
            _ => return None,
        })
    }

    fn plain(&mut self) -> Option<String> {
        use crate::caught;
        Some(match self.0.next()? {
            "chop" => {
                let (view, lines, _) = (self.view()?, self.lines()?, self.places()?);
                answer_text(caught(|| plain::chop(&view, &lines)), lines_text)
            }
            "simplify" => {
                let (threshold, lines, _) = (self.float()?, self.lines()?, self.places()?);
                answer_text(caught(|| plain::simplify(threshold, &lines)), lines_text)
            }
            "check" => {
                let scene = self.scene()?;
                let checked = caught(|| plain_checked(plain::entries(&scene)));
                answer_text(checked, checked_text)
            }
            "build" => {
                let (scene, _, _) = (self.scene()?, self.count()?, self.count()?);
                answer_text(caught(|| plain::rows(&plain::entries(&scene).tree())), rows_text)
            }
            "intersect" => {
                let (scene, r) = (self.scene()?, self.floats()?);
                let hit = caught(|| plain::nearest(&plain::entries(&scene).tree(), r));
                answer_text(hit.map(|h| Hit { t: h.t, ok: h.ok }), hit_text)
            }
            "visible" => {
                let (scene, eye, p) = (self.scene()?, self.floats()?, self.floats()?);
                let seen = caught(|| plain::visible(&plain::entries(&scene).tree(), eye, p));
                answer_text(seen, seen_text)
            }
            "draw" => {
                let (scene, view) = (self.scene()?, self.view()?);
                let (threshold, _) = (self.float()?, self.room()?);
                let entries = || plain::entries(&with_outlines(&scene, &view));
                let lines = caught(|| plain::draw(&entries(), &view, threshold));
                answer_text(lines, lines_text)
            }
            _ => return None,
        })
    }
}

/// What the plain build knows of a scene's entries.
pub fn plain_checked(entries: plain::Entries) -> Checked {
    Checked { boxes: entries.boxes, inverses: entries.inverses, drawn: entries.drawn }
}

/// Each value with a space before it.
fn text_of(xs: &[f64]) -> String {
    xs.iter().fold(String::new(), |mut text, x| {
        write!(text, " {:016X}", x.to_bits()).unwrap();
        text
    })
}

fn list_of<T: std::fmt::Display>(xs: &[T]) -> String {
    xs.iter().fold(format!(" {}", xs.len()), |mut text, x| {
        write!(text, " {x}").unwrap();
        text
    })
}

fn answer_text<T>(answer: Answer<T>, text: impl Fn(&T) -> String) -> String {
    match answer {
        Ok(result) => "ok".to_string() + &text(&result),
        Err(Trouble::Refused(number)) => format!("refused {number}"),
        Err(Trouble::Omitted) => "omitted".to_string(),
        Err(Trouble::Panicked(message)) => format!("panic {}", message.replace('\n', " ")),
    }
}

fn hit_text(hit: &Hit) -> String {
    text_of(&[hit.t]) + if hit.ok { " 1" } else { " 0" }
}

fn seen_text(seen: &bool) -> String {
    if *seen { " yes" } else { " no" }.to_string()
}

fn lines_text(lines: &Lines) -> String {
    format!(" {}", lines.points.len()) + &text_of(&lines.points) + &list_of(&lines.starts)
}

fn checked_text(checked: &Checked) -> String {
    let mut text = format!(" {}", checked.inverses.len());
    for (i, inverse) in &checked.inverses {
        write!(text, " {i}{}", text_of(inverse)).unwrap();
    }
    write!(text, " {}", checked.boxes.len()).unwrap();
    for b in &checked.boxes {
        text += &text_of(b);
    }
    text + &list_of(&checked.drawn)
}

fn rows_text(rows: &Rows) -> String {
    let mut text = format!(" {}", rows.marks.len() / 3);
    for (b, m) in rows.boxes.chunks(6).zip(rows.marks.chunks(3)) {
        write!(text, "{} {} {} {}", text_of(b), m[0], m[1], m[2]).unwrap();
    }
    text + &list_of(&rows.order)
}
