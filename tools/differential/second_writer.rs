//! A second writer of canonical text, by document 02's words alone.

use oracle::check::used_numbers;
use oracle::stripes::striped;
use oracle::{Answer, Scene, Trouble, View};

const HEADS: [&str; 9] = [
    "sphere",
    "cylinder",
    "cone",
    "cube",
    "triangle",
    "place",
    "cut",
    "closed-cylinder",
    "closed-cone",
];

/// Every number but counts and operations; there is one NaN.
fn hex(x: f64) -> String {
    let bits = if x.is_nan() { 0x7FF8_0000_0000_0000 } else { x.to_bits() };
    format!("#{bits:016X}")
}

/// The form of entry i.
fn form(scene: &Scene, i: usize) -> String {
    let (marks, numbers) = (scene.marks_of(i), scene.numbers_of(i));
    let mut items = vec![HEADS[marks[0] as usize - 1].to_string()];
    if matches!(marks[0], 4 | 7) {
        items.push(marks[1].to_string());
    }
    items.extend(numbers[..used_numbers(marks[0])].iter().copied().map(hex));
    if striped(marks[0]) && marks[1] != 0 {
        items.push(marks[1].to_string());
    }
    items.extend(oracle::check::parts(marks).iter().map(|part| form(scene, *part as usize)));
    for k in (0..scene.owners.len()).filter(|k| scene.owners[*k] as usize == i) {
        let end = scene.starts.get(k + 1).copied().unwrap_or(scene.points.len() / 3);
        let points = scene.points[3 * scene.starts[k]..3 * end].iter().copied().map(hex);
        let line: Vec<String> = std::iter::once("line".to_string()).chain(points).collect();
        items.push(format!("({})", line.join(" ")));
    }
    format!("({})", items.join(" "))
}

/// The canonical text of a view and an accepted scene.
fn canonical(scene: &Scene, v: &View, drawn: &[u32]) -> String {
    let numbers = [v.width, v.height, v.step].into_iter().chain(v.eye).chain(v.matrix);
    let view: Vec<String> = numbers.map(hex).collect();
    let lines = drawn.iter().map(|i| form(scene, *i as usize));
    std::iter::once(format!("(view {})", view.join(" "))).chain(lines).map(|line| line + "\n").collect()
}

/// The text, or the number: the scene's, the view's, then 13.
pub fn judged(scene: &Scene, view: &View, room: usize) -> Answer<String> {
    let checked = oracle::check(scene)?;
    oracle::check::view(view)?;
    let text = canonical(scene, view, &checked.drawn);
    if text.len() > room { Err(Trouble::Refused(13)) } else { Ok(text) }
}
