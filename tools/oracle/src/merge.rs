//! One yard from two files: document 02's paragraph (xii) a second time, entry by entry and path by path.

use crate::check::parts;
use crate::outlines::with_outlines;
use crate::{Answer, Lines, Room, Scene, Trouble, View, accepted, check, limited, within};

/// The most numbers, marks, numbers of points, path starts and owners that the result may have.
pub type Sizes = [usize; 5];

pub fn sizes(scene: &Scene) -> Sizes {
    let Scene { numbers, marks, points, starts, owners } = scene;
    [numbers.len(), marks.len(), points.len(), starts.len(), owners.len()]
}

/// The first's number, the second's, 2 for too many entries together, 13 for a slice too short.
pub fn merge(first: &Scene, second: &Scene, room: Sizes) -> Answer<Scene> {
    crate::check(first)?;
    crate::check(second)?;
    if first.entries() + second.entries() > 1024 {
        return Err(Trouble::Refused(2));
    }
    let mut merged = Scene::default();
    append(&mut merged, first);
    append(&mut merged, second);
    let short = sizes(&merged).iter().zip(room).any(|(size, room)| *size > room);
    if short { Err(Trouble::Refused(13)) } else { Ok(merged) }
}

/// Each entry and then each handed-in line of a scene, after those that stand already.
fn append(merged: &mut Scene, scene: &Scene) {
    let before = merged.entries() as u32;
    for i in 0..scene.entries() {
        let mut marks: [u32; 4] = scene.marks_of(i).try_into().expect("four marks");
        for place in 2..2 + parts(&marks).len() {
            marks[place] += before;
        }
        merged.push(marks, scene.numbers_of(i));
    }
    let ends = scene.starts.iter().skip(1).copied().chain([scene.points.len() / 3]);
    for ((start, end), owner) in scene.starts.iter().zip(ends).zip(&scene.owners) {
        let (points, _) = scene.points[3 * start..3 * end].as_chunks::<3>();
        merged.push_line(owner + before, points);
    }
}

/// larnt's draw of the solids of both scenes, which it takes as one list. Outlines stand among the lines that are handed in.
pub fn draw_both(
    [first, second]: [&Scene; 2],
    view: &View,
    threshold: f64,
    room: Room,
) -> Answer<Lines> {
    accepted(first)?;
    accepted(second)?;
    check::view(view)?;
    check::threshold(threshold)?;
    let [mut solids, more] = [first, second].map(|s| limited::entries(&with_outlines(s, view)));
    solids.solids.extend(more.solids);
    within(room, || limited::draw(&solids, view, threshold))
}
