//! The calls of libhost.a, libhost_preview.a, libhost_parts.a, libhost_account.a, libhost_merge.a, libhost_text.a and
//! libhost_plotter.a (`tools/archives host`, and so on) for Rust; all seven are linked. `tools/house` looks that none is missing; nothing checks their types against
//! the crates of these names. Matrices stand by rows; the kinds and the order of their numbers are in larnt.h, and so is
//! what a scene holds.

/// The calls as they are.
pub mod raw {
    #[link(name = "host", kind = "static")]
    unsafe extern "C" {
        pub safe fn larnt_sqrt(x: f64, rest: &mut i64) -> f64;
        pub safe fn larnt_length(v: &[f64; 3], rest: &mut i64) -> f64;
        pub safe fn larnt_distance(a: &[f64; 3], b: &[f64; 3], rest: &mut i64) -> f64;
        pub safe fn larnt_box_test(b: &[f64; 6], ray: &[f64; 6], span: &mut [f64; 2]);
        pub safe fn larnt_project(m: &[f64; 16], p: &[f64; 3], projected: &mut [f64; 3]);
        pub safe fn larnt_inverse(m: &[f64; 16], inverse: &mut [f64; 16]) -> f64;
        pub safe fn larnt_solid_hit(
            kind: u32,
            n: &[f64; 16],
            ray: &[f64; 6],
            t: &mut f64,
            ok: &mut bool,
        ) -> u32;
        pub safe fn larnt_solid_box(kind: u32, n: &[f64; 16], b: &mut [f64; 6]) -> u32;
        pub safe fn larnt_solid_contains(
            kind: u32,
            n: &[f64; 16],
            p: &[f64; 3],
            f: f64,
            inside: &mut bool,
        ) -> u32;
        pub fn larnt_chop(
            view: &[f64; 22],
            points: *const f64,
            points_count: usize,
            starts: *const usize,
            starts_count: usize,
            out: *mut f64,
            out_count: usize,
            begins: *mut usize,
            begins_count: usize,
            points_out: &mut usize,
            paths_out: &mut usize,
        ) -> u32;
        pub fn larnt_outline(
            kind: u32,
            numbers: &[f64; 16],
            eye: &[f64; 3],
            placings: *const f64,
            placings_count: usize,
            view: &[f64; 22],
            out: *mut f64,
            out_count: usize,
            begins: *mut usize,
            begins_count: usize,
            points_out: &mut usize,
            paths_out: &mut usize,
        ) -> u32;
        pub fn larnt_simplify(
            points: *const f64,
            points_count: usize,
            starts: *const usize,
            starts_count: usize,
            threshold: f64,
            out: *mut f64,
            out_count: usize,
            begins: *mut usize,
            begins_count: usize,
            points_out: &mut usize,
            paths_out: &mut usize,
        ) -> u32;
    }

    #[link(name = "host_text", kind = "static")]
    unsafe extern "C" {
        pub fn larnt_canonical(
            text: *const u8,
            text_count: usize,
            out: *mut u8,
            out_count: usize,
        ) -> usize;
    }

    // of libhost_plotter.a, as the calls on the registers below
    unsafe extern "C" {
        pub fn larnt_pick(
            yard: *const f64,
            yard_count: usize,
            yard_starts: *const usize,
            yard_starts_count: usize,
            lines: *const f64,
            lines_count: usize,
            line_starts: *const usize,
            line_starts_count: usize,
            pen: &[f64; 3],
            marks: *mut u8,
            marks_count: usize,
            of_lines: &mut bool,
            path: &mut usize,
            from: &mut usize,
            end: &mut usize,
        ) -> u32;
    }

    // of libhost_merge.a: two scenes, then the slices for a third and its counts
    #[link(name = "host_merge", kind = "static")]
    unsafe extern "C" {
        pub fn larnt_merge(
            numbers: *const f64,
            numbers_count: usize,
            marks: *const u32,
            marks_count: usize,
            points: *const f64,
            points_count: usize,
            starts: *const usize,
            starts_count: usize,
            owners: *const u32,
            owners_count: usize,
            more_numbers: *const f64,
            more_numbers_count: usize,
            more_marks: *const u32,
            more_marks_count: usize,
            more_points: *const f64,
            more_points_count: usize,
            more_starts: *const usize,
            more_starts_count: usize,
            more_owners: *const u32,
            more_owners_count: usize,
            out_numbers: *mut f64,
            out_numbers_count: usize,
            out_marks: *mut u32,
            out_marks_count: usize,
            out_points: *mut f64,
            out_points_count: usize,
            out_starts: *mut usize,
            out_starts_count: usize,
            out_owners: *mut u32,
            out_owners_count: usize,
            entry_count: &mut usize,
            point_count: &mut usize,
            path_count: &mut usize,
        ) -> u32;
    }

    /// The calls on a scene, which stands first in each: five slices, each a pointer and a count.
    macro_rules! on_scenes {
        ($(fn $call:ident($($more:ident: $kind:ty,)*);)*) => {
            unsafe extern "C" {
                $(pub fn $call(
                    numbers: *const f64,
                    numbers_count: usize,
                    marks: *const u32,
                    marks_count: usize,
                    points: *const f64,
                    points_count: usize,
                    starts: *const usize,
                    starts_count: usize,
                    owners: *const u32,
                    owners_count: usize,
                    $($more: $kind,)*
                ) -> u32;)*
            }
        };
    }

    on_scenes! {
        fn larnt_check(
            inverses: &mut [f64; 16384],
            boxes: &mut [f64; 6144],
            drawn: &mut [u32; 1024],
            count: &mut usize,
        );
        fn larnt_own_hit(
            entry: usize,
            ray: &[f64; 6],
            t: &mut f64,
            ok: &mut bool,
        );
        fn larnt_own_contains(
            entry: usize,
            p: &[f64; 3],
            f: f64,
            inside: &mut bool,
        );
        fn larnt_build(
            node_boxes: *mut f64,
            node_boxes_count: usize,
            node_marks: *mut u32,
            node_marks_count: usize,
            order: *mut u32,
            order_count: usize,
            count: &mut usize,
        );
        fn larnt_intersect(
            node_boxes: *const f64,
            node_boxes_count: usize,
            node_marks: *const u32,
            node_marks_count: usize,
            order: *const u32,
            order_count: usize,
            ray: &[f64; 6],
            t: &mut f64,
            ok: &mut bool,
            entry: &mut u32,
        );
        fn larnt_visible(
            node_boxes: *const f64,
            node_boxes_count: usize,
            node_marks: *const u32,
            node_marks_count: usize,
            order: *const u32,
            order_count: usize,
            eye: &[f64; 3],
            p: &[f64; 3],
            seen: &mut bool,
        );
        fn larnt_occluder(
            node_boxes: *const f64,
            node_boxes_count: usize,
            node_marks: *const u32,
            node_marks_count: usize,
            order: *const u32,
            order_count: usize,
            eye: &[f64; 3],
            p: &[f64; 3],
            entry: &mut u32,
        );
        fn larnt_covered(
            node_boxes: *const f64,
            node_boxes_count: usize,
            node_marks: *const u32,
            node_marks_count: usize,
            order: *const u32,
            order_count: usize,
            eye: &[f64; 3],
            p: &[f64; 3],
            seen: &mut bool,
        );
        fn larnt_covered_all(
            node_boxes: *const f64,
            node_boxes_count: usize,
            node_marks: *const u32,
            node_marks_count: usize,
            order: *const u32,
            order_count: usize,
            eye: &[f64; 3],
            tested: *const f64,
            tested_count: usize,
            told: *mut u8,
            told_count: usize,
        );
        fn larnt_write(
            view: &[f64; 22],
            text: *mut u8,
            text_count: usize,
            count: &mut usize,
        );
        fn larnt_draw(
            view: &[f64; 22],
            out: *mut f64,
            out_count: usize,
            begins: *mut usize,
            begins_count: usize,
            work: *mut f64,
            work_count: usize,
            work_starts: *mut usize,
            work_starts_count: usize,
            chopped: *mut f64,
            chopped_count: usize,
            chopped_starts: *mut usize,
            chopped_starts_count: usize,
            node_boxes: *mut f64,
            node_boxes_count: usize,
            node_marks: *mut u32,
            node_marks_count: usize,
            order: *mut u32,
            order_count: usize,
            points_out: &mut usize,
            paths_out: &mut usize,
        );
        fn larnt_draw_with(
            view: &[f64; 22],
            threshold: f64,
            out: *mut f64,
            out_count: usize,
            begins: *mut usize,
            begins_count: usize,
            work: *mut f64,
            work_count: usize,
            work_starts: *mut usize,
            work_starts_count: usize,
            chopped: *mut f64,
            chopped_count: usize,
            chopped_starts: *mut usize,
            chopped_starts_count: usize,
            node_boxes: *mut f64,
            node_boxes_count: usize,
            node_marks: *mut u32,
            node_marks_count: usize,
            order: *mut u32,
            order_count: usize,
            points_out: &mut usize,
            paths_out: &mut usize,
        );
        // of libhost_preview.a
        fn larnt_preview(
            view: &[f64; 22],
            threshold: f64,
            out_len: usize,
            begins_len: usize,
            work: *mut f64,
            work_count: usize,
            work_starts: *mut usize,
            work_starts_count: usize,
            chopped: *mut f64,
            chopped_count: usize,
            chopped_starts: *mut usize,
            chopped_starts_count: usize,
            node_boxes: *mut f64,
            node_boxes_count: usize,
            node_marks: *mut u32,
            node_marks_count: usize,
            order: *mut u32,
            order_count: usize,
            points_out: &mut usize,
            paths_out: &mut usize,
        );
        // of libhost_parts.a
        fn larnt_draw_range(
            view: &[f64; 22],
            threshold: f64,
            first: usize,
            many: usize,
            out: *mut f64,
            out_count: usize,
            begins: *mut usize,
            begins_count: usize,
            work: *mut f64,
            work_count: usize,
            work_starts: *mut usize,
            work_starts_count: usize,
            chopped: *mut f64,
            chopped_count: usize,
            chopped_starts: *mut usize,
            chopped_starts_count: usize,
            node_boxes: *mut f64,
            node_boxes_count: usize,
            node_marks: *mut u32,
            node_marks_count: usize,
            order: *mut u32,
            order_count: usize,
            points_out: &mut usize,
            paths_out: &mut usize,
        );
        // of libhost_account.a
        fn larnt_entry_lines(
            view: &[f64; 22],
            first: usize,
            many: usize,
            out: *mut f64,
            out_count: usize,
            begins: *mut usize,
            begins_count: usize,
            work: *mut f64,
            work_count: usize,
            work_starts: *mut usize,
            work_starts_count: usize,
            points_out: &mut usize,
            paths_out: &mut usize,
        );
        fn larnt_fates(
            node_boxes: *const f64,
            node_boxes_count: usize,
            node_marks: *const u32,
            node_marks_count: usize,
            order: *const u32,
            order_count: usize,
            view: &[f64; 22],
            tested: *const f64,
            tested_count: usize,
            told: *mut u32,
            told_count: usize,
        );
    }

    #[link(name = "host_preview", kind = "static")]
    unsafe extern "C" {}
    #[link(name = "host_parts", kind = "static")]
    unsafe extern "C" {}
    #[link(name = "host_account", kind = "static")]
    unsafe extern "C" {}
}

/// The root and its exact remainder: 0 where the root is exact, positive where it lies below the true one.
pub fn sqrt(x: f64) -> (f64, i64) {
    let mut rest = 0;
    let root = raw::larnt_sqrt(x, &mut rest);
    (root, rest)
}

/// The length, and the remainder of its root: that of the computed sum of squares.
pub fn length(v: &[f64; 3]) -> (f64, i64) {
    let mut rest = 0;
    let root = raw::larnt_length(v, &mut rest);
    (root, rest)
}

/// The same of the distance of two points.
pub fn distance(a: &[f64; 3], b: &[f64; 3]) -> (f64, i64) {
    let mut rest = 0;
    let root = raw::larnt_distance(a, b, &mut rest);
    (root, rest)
}

/// Where the ray enters and leaves the box.
pub fn box_test(b: &[f64; 6], ray: &[f64; 6]) -> [f64; 2] {
    let mut span = [0.0; 2];
    raw::larnt_box_test(b, ray, &mut span);
    span
}

pub fn project(m: &[f64; 16], p: &[f64; 3]) -> [f64; 3] {
    let mut projected = [0.0; 3];
    raw::larnt_project(m, p, &mut projected);
    projected
}

/// The inverse, and the determinant that it was divided by.
pub fn inverse(m: &[f64; 16]) -> ([f64; 16], f64) {
    let mut inverse = [0.0; 16];
    let determinant = raw::larnt_inverse(m, &mut inverse);
    (inverse, determinant)
}

/// The distance of the hit and whether there is one, or the number of the refusal.
pub fn solid_hit(kind: u32, n: &[f64; 16], ray: &[f64; 6]) -> Result<(f64, bool), u32> {
    let (mut t, mut ok) = (0.0, false);
    match raw::larnt_solid_hit(kind, n, ray, &mut t, &mut ok) {
        0 => Ok((t, ok)),
        number => Err(number),
    }
}

pub fn solid_box(kind: u32, n: &[f64; 16]) -> Result<[f64; 6], u32> {
    let mut b = [0.0; 6];
    match raw::larnt_solid_box(kind, n, &mut b) {
        0 => Ok(b),
        number => Err(number),
    }
}

pub fn solid_contains(kind: u32, n: &[f64; 16], p: &[f64; 3], f: f64) -> Result<bool, u32> {
    let mut inside = false;
    match raw::larnt_solid_contains(kind, n, p, f, &mut inside) {
        0 => Ok(inside),
        number => Err(number),
    }
}

/// The five slices of a scene.
#[derive(Clone, Copy)]
pub struct Scene<'a> {
    pub numbers: &'a [f64],
    pub marks: &'a [u32],
    pub points: &'a [f64],
    pub starts: &'a [usize],
    pub owners: &'a [u32],
}

/// A raw call on a scene: each slice is handed over as its own pointer and count.
macro_rules! on_scene {
    ($call:ident, $s:expr, $($more:expr),*) => {{
        let Scene { numbers, marks, points, starts, owners } = $s;
        unsafe {
            raw::$call(
                numbers.as_ptr(),
                numbers.len(),
                marks.as_ptr(),
                marks.len(),
                points.as_ptr(),
                points.len(),
                starts.as_ptr(),
                starts.len(),
                owners.as_ptr(),
                owners.len(),
                $($more),*
            )
        }
    }};
}

/// Fills the inverses, the boxes and the drawn entries, and answers how many are drawn, or the number
/// of the refusal.
pub fn check(
    s: Scene,
    inverses: &mut [f64; 16384],
    boxes: &mut [f64; 6144],
    drawn: &mut [u32; 1024],
) -> Result<usize, u32> {
    let mut count = 0;
    match on_scene!(larnt_check, s, inverses, boxes, drawn, &mut count) {
        0 => Ok(count),
        number => Err(number),
    }
}

/// The hit that the solid at an entry gives a ray: its distance, and whether there is one.
pub fn own_hit(s: Scene, entry: usize, ray: &[f64; 6]) -> Result<(f64, bool), u32> {
    let (mut t, mut ok) = (0.0, false);
    match on_scene!(larnt_own_hit, s, entry, ray, &mut t, &mut ok) {
        0 => Ok((t, ok)),
        number => Err(number),
    }
}

/// Whether the solid at an entry, widened by f, contains a point.
pub fn own_contains(s: Scene, entry: usize, p: &[f64; 3], f: f64) -> Result<bool, u32> {
    let mut inside = false;
    match on_scene!(larnt_own_contains, s, entry, p, f, &mut inside) {
        0 => Ok(inside),
        number => Err(number),
    }
}

/// The rows of a tree, as `build` leaves them.
#[derive(Clone, Copy)]
pub struct Tree<'a> {
    pub node_boxes: &'a [f64],
    pub node_marks: &'a [u32],
    pub order: &'a [u32],
}

/// Fills the rows of the scene's tree and answers how many nodes it has, or the number of the refusal.
pub fn build(
    s: Scene,
    node_boxes: &mut [f64],
    node_marks: &mut [u32],
    order: &mut [u32],
) -> Result<usize, u32> {
    let mut count = 0;
    let number = on_scene!(
        larnt_build,
        s,
        node_boxes.as_mut_ptr(),
        node_boxes.len(),
        node_marks.as_mut_ptr(),
        node_marks.len(),
        order.as_mut_ptr(),
        order.len(),
        &mut count
    );
    if number == 0 {
        Ok(count)
    } else {
        Err(number)
    }
}

/// A raw call on a scene and the rows of its tree.
macro_rules! on_tree {
    ($call:ident, $s:expr, $t:expr, $($more:expr),*) => {{
        let Tree { node_boxes, node_marks, order } = $t;
        on_scene!(
            $call,
            $s,
            node_boxes.as_ptr(),
            node_boxes.len(),
            node_marks.as_ptr(),
            node_marks.len(),
            order.as_ptr(),
            order.len(),
            $($more),*
        )
    }};
}

/// The entry that a call names, if it names one.
fn named(entry: u32) -> Option<u32> {
    (entry != u32::MAX).then_some(entry)
}

/// The nearest hit on the scene's tree: its distance, whether there is one, and the entry whose t last
/// became the best, if any did.
pub fn intersect(s: Scene, tree: Tree, ray: &[f64; 6]) -> Result<(f64, bool, Option<u32>), u32> {
    let (mut t, mut ok, mut entry) = (0.0, false, 0);
    match on_tree!(larnt_intersect, s, tree, ray, &mut t, &mut ok, &mut entry) {
        0 => Ok((t, ok, named(entry))),
        number => Err(number),
    }
}

/// Whether the eye sees a point past the solids of the scene's tree.
pub fn visible(s: Scene, tree: Tree, eye: &[f64; 3], p: &[f64; 3]) -> Result<bool, u32> {
    let mut seen = false;
    match on_tree!(larnt_visible, s, tree, eye, p, &mut seen) {
        0 => Ok(seen),
        number => Err(number),
    }
}

/// The entry that hides a point from the eye, or nothing where the point is visible.
pub fn occluder(s: Scene, tree: Tree, eye: &[f64; 3], p: &[f64; 3]) -> Result<Option<u32>, u32> {
    let mut entry = 0;
    match on_tree!(larnt_occluder, s, tree, eye, p, &mut entry) {
        0 => Ok(named(entry)),
        number => Err(number),
    }
}

/// The same by a walk that stops at the first solid that falls short: no where `visible` meets 11 or 12 only
/// after that solid.
pub fn covered(s: Scene, tree: Tree, eye: &[f64; 3], p: &[f64; 3]) -> Result<bool, u32> {
    let mut seen = false;
    match on_tree!(larnt_covered, s, tree, eye, p, &mut seen) {
        0 => Ok(seen),
        number => Err(number),
    }
}

/// The same of many points, three numbers each, with one check of the scene. Fills a byte a point, then zeros: 1
/// yes, 2 no, or the number of the point's own refusal, 9, 11 or 12.
pub fn covered_all(
    s: Scene,
    tree: Tree,
    eye: &[f64; 3],
    tested: &[f64],
    told: &mut [u8],
) -> Result<(), u32> {
    let number = on_tree!(
        larnt_covered_all,
        s,
        tree,
        eye,
        tested.as_ptr(),
        tested.len(),
        told.as_mut_ptr(),
        told.len()
    );
    if number == 0 {
        Ok(())
    } else {
        Err(number)
    }
}

/// Fills the chopped paths and answers how many points and paths there are. A view is the matrix by rows,
/// the eye, width, height and step.
pub fn chop(
    view: &[f64; 22],
    points: &[f64],
    starts: &[usize],
    out: &mut [f64],
    begins: &mut [usize],
) -> Result<(usize, usize), u32> {
    let (mut n, mut m) = (0, 0);
    let number = unsafe {
        raw::larnt_chop(
            view,
            points.as_ptr(),
            points.len(),
            starts.as_ptr(),
            starts.len(),
            out.as_mut_ptr(),
            out.len(),
            begins.as_mut_ptr(),
            begins.len(),
            &mut n,
            &mut m,
        )
    };
    if number == 0 {
        Ok((n, m))
    } else {
        Err(number)
    }
}

/// The same of the outline that step 1 of a draw adds for a solid without lines, in its own coordinates: by the eye
/// there, the placings around it, innermost first, 16 numbers each, and the draw's view.
pub fn outline(
    kind: u32,
    numbers: &[f64; 16],
    eye: &[f64; 3],
    placings: &[f64],
    view: &[f64; 22],
    out: &mut [f64],
    begins: &mut [usize],
) -> Result<(usize, usize), u32> {
    let (mut n, mut m) = (0, 0);
    let number = unsafe {
        raw::larnt_outline(
            kind,
            numbers,
            eye,
            placings.as_ptr(),
            placings.len(),
            view,
            out.as_mut_ptr(),
            out.len(),
            begins.as_mut_ptr(),
            begins.len(),
            &mut n,
            &mut m,
        )
    };
    if number == 0 {
        Ok((n, m))
    } else {
        Err(number)
    }
}

/// The same of the simplified paths.
pub fn simplify(
    points: &[f64],
    starts: &[usize],
    threshold: f64,
    out: &mut [f64],
    begins: &mut [usize],
) -> Result<(usize, usize), u32> {
    let (mut n, mut m) = (0, 0);
    let number = unsafe {
        raw::larnt_simplify(
            points.as_ptr(),
            points.len(),
            starts.as_ptr(),
            starts.len(),
            threshold,
            out.as_mut_ptr(),
            out.len(),
            begins.as_mut_ptr(),
            begins.len(),
            &mut n,
            &mut m,
        )
    };
    if number == 0 {
        Ok((n, m))
    } else {
        Err(number)
    }
}

/// What a draw works in; zeros throughout afterwards. `work` and `work_starts` are eight equal slices end
/// to end.
pub struct Work<'a> {
    pub work: &'a mut [f64],
    pub work_starts: &'a mut [usize],
    pub chopped: &'a mut [f64],
    pub chopped_starts: &'a mut [usize],
    pub node_boxes: &'a mut [f64],
    pub node_marks: &'a mut [u32],
    pub order: &'a mut [u32],
}

/// A raw draw or preview: what is asked, then the slices of the work. Answers how many points and paths there
/// are.
macro_rules! on_work {
    ($call:ident, $s:expr, $work:expr, $($asked:expr),*) => {{
        let (mut n, mut m) = (0, 0);
        let number = on_scene!(
            $call,
            $s,
            $($asked,)*
            $work.work.as_mut_ptr(),
            $work.work.len(),
            $work.work_starts.as_mut_ptr(),
            $work.work_starts.len(),
            $work.chopped.as_mut_ptr(),
            $work.chopped.len(),
            $work.chopped_starts.as_mut_ptr(),
            $work.chopped_starts.len(),
            $work.node_boxes.as_mut_ptr(),
            $work.node_boxes.len(),
            $work.node_marks.as_mut_ptr(),
            $work.node_marks.len(),
            $work.order.as_mut_ptr(),
            $work.order.len(),
            &mut n,
            &mut m
        );
        if number == 0 {
            Ok((n, m))
        } else {
            Err(number)
        }
    }};
}

/// Fills the drawing of a scene, simplified with 1e-4, and answers how many points and paths it has.
pub fn draw(
    s: Scene,
    view: &[f64; 22],
    out: &mut [f64],
    begins: &mut [usize],
    work: Work,
) -> Result<(usize, usize), u32> {
    let (p, q) = (out.as_mut_ptr(), begins.as_mut_ptr());
    on_work!(larnt_draw, s, work, view, p, out.len(), q, begins.len())
}

/// Writes the canonical text of a view and a scene, then zeros; gives how many bytes it has.
pub fn write(s: Scene, view: &[f64; 22], text: &mut [u8]) -> Result<usize, u32> {
    let mut count = 0;
    match on_scene!(larnt_write, s, view, text.as_mut_ptr(), text.len(), &mut count) {
        0 => Ok(count),
        number => Err(number),
    }
}

/// Writes a yard's text in canonical form, or `(refused N)`, then zeros; gives how many bytes that is, 0 where
/// there is no room for either.
pub fn canonical(text: &[u8], out: &mut [u8]) -> usize {
    unsafe { raw::larnt_canonical(text.as_ptr(), text.len(), out.as_mut_ptr(), out.len()) }
}

/// Fills the drawing simplified with a threshold; a sheet in fine detail passes 1e-6.
pub fn draw_with(
    s: Scene,
    view: &[f64; 22],
    threshold: f64,
    out: &mut [f64],
    begins: &mut [usize],
    work: Work,
) -> Result<(usize, usize), u32> {
    let (p, q) = (out.as_mut_ptr(), begins.as_mut_ptr());
    on_work!(larnt_draw_with, s, work, view, threshold, p, out.len(), q, begins.len())
}

/// How many points and paths `draw_with` would fill of `out` numbers and `begins` starts, or its number. A draw that is lent
/// what is counted needs one start more: at step 0 a path that vanishes has one until it does.
pub fn preview(
    s: Scene,
    view: &[f64; 22],
    threshold: f64,
    out: usize,
    begins: usize,
    work: Work,
) -> Result<(usize, usize), u32> {
    on_work!(larnt_preview, s, work, view, threshold, out, begins)
}

/// The drawing of the drawn entries number `first` to `first + many` alone, while all solids hide. The drawings of
/// consecutive ranges, one after the other, are that of `draw_with`, bit for bit.
pub fn draw_range(
    s: Scene,
    view: &[f64; 22],
    threshold: f64,
    range: (usize, usize),
    out: &mut [f64],
    begins: &mut [usize],
    work: Work,
) -> Result<(usize, usize), u32> {
    let ((first, many), p, q) = (range, out.as_mut_ptr(), begins.as_mut_ptr());
    on_work!(larnt_draw_range, s, work, view, threshold, first, many, p, out.len(), q, begins.len())
}

/// The lines of the drawn entries number `first` to `first + many` that a draw puts to its clip and eye test, in the scene's
/// coordinates. `work` and `work_starts` are eight equal slices end to end, and zeros throughout afterwards.
pub fn entry_lines(
    s: Scene,
    view: &[f64; 22],
    range: (usize, usize),
    out: &mut [f64],
    begins: &mut [usize],
    work: &mut [f64],
    work_starts: &mut [usize],
) -> Result<(usize, usize), u32> {
    let (mut n, mut m) = (0, 0);
    let number = on_scene!(
        larnt_entry_lines,
        s,
        view,
        range.0,
        range.1,
        out.as_mut_ptr(),
        out.len(),
        begins.as_mut_ptr(),
        begins.len(),
        work.as_mut_ptr(),
        work.len(),
        work_starts.as_mut_ptr(),
        work_starts.len(),
        &mut n,
        &mut m
    );
    if number == 0 {
        Ok((n, m))
    } else {
        Err(number)
    }
}

/// The words of `fates` for a point that a draw passes and for one that it clips away; `REFUSED` and the number is a point
/// that meets 9, 11 or 12, and any smaller word the drawn entry that hides the point.
pub const VISIBLE: u32 = 0xFFFF_FFFF;
pub const CLIPPED: u32 = 0xFFFF_FFFE;
pub const REFUSED: u32 = 0xFFFF_FF00;

/// What becomes of each of many points, three numbers each, at the clip and eye test of a draw. Fills a word a point, then
/// zeros.
pub fn fates(s: Scene, tree: Tree, view: &[f64; 22], tested: &[f64], told: &mut [u32]) -> Result<(), u32> {
    let number = on_tree!(
        larnt_fates,
        s,
        tree,
        view,
        tested.as_ptr(),
        tested.len(),
        told.as_mut_ptr(),
        told.len()
    );
    if number == 0 {
        Ok(())
    } else {
        Err(number)
    }
}

/// The plotter's registers, which larnt.h describes: the calls of libhost_plotter.a (`tools/archives host_plotter`),
/// declared in crates/host_plotter/src/registers.rt. All are 0 at first.
#[repr(C)]
#[derive(Clone, Copy, Debug, Default, PartialEq, Eq)]
pub struct Registers {
    pub pen: [u16; 2],
    pub target: [u16; 2],
    pub bytes: [u8; 8],
}

pub mod raw_registers {
    use super::Registers;

    #[link(name = "host_plotter", kind = "static")]
    unsafe extern "C" {
        pub safe fn larnt_plotter_write(r: &mut Registers, at: usize, value: u8) -> u32;
        pub safe fn larnt_plotter_step(r: &mut Registers);
    }
}

impl Registers {
    /// A write of one byte, or 16 or 17, which change nothing.
    pub fn write(&mut self, at: usize, value: u8) -> Result<(), u32> {
        match raw_registers::larnt_plotter_write(self, at, value) {
            0 => Ok(()),
            number => Err(number),
        }
    }

    /// One step; it changes nothing unless the plotter is busy.
    pub fn step(&mut self) {
        raw_registers::larnt_plotter_step(self);
    }
}

/// A drawing as a pick takes it: three numbers a point, and where each path starts, in points.
#[derive(Clone, Copy)]
pub struct Drawing<'a> {
    pub points: &'a [f64],
    pub starts: &'a [usize],
}

/// The undrawn path that starts nearest to the pen, as the part of the drawing that holds it; its mark becomes
/// 1. There is one mark a path, the yard's first.
pub fn pick<'a>(
    yard: Drawing<'a>,
    lines: Drawing<'a>,
    pen: &[f64; 3],
    marks: &mut [u8],
) -> Result<&'a [f64], u32> {
    let (mut of_lines, mut path, mut from, mut end) = (false, 0, 0, 0);
    let number = unsafe {
        raw::larnt_pick(
            yard.points.as_ptr(),
            yard.points.len(),
            yard.starts.as_ptr(),
            yard.starts.len(),
            lines.points.as_ptr(),
            lines.points.len(),
            lines.starts.as_ptr(),
            lines.starts.len(),
            pen,
            marks.as_mut_ptr(),
            marks.len(),
            &mut of_lines,
            &mut path,
            &mut from,
            &mut end,
        )
    };
    if number != 0 {
        return Err(number);
    }
    let points = if of_lines { lines.points } else { yard.points };
    Ok(&points[from * 3..end * 3])
}

/// The slices that a merged scene is written to.
pub struct MergedSlices<'a> {
    pub numbers: &'a mut [f64],
    pub marks: &'a mut [u32],
    pub points: &'a mut [f64],
    pub starts: &'a mut [usize],
    pub owners: &'a mut [u32],
}

/// Merges two scenes, the first's entries before the second's, and answers how many entries, points and paths the
/// merged one has; zeros follow it in each slice.
pub fn merge(a: Scene, b: Scene, out: MergedSlices) -> Result<(usize, usize, usize), u32> {
    let (mut entries, mut points, mut paths) = (0, 0, 0);
    let number = unsafe {
        raw::larnt_merge(
            a.numbers.as_ptr(),
            a.numbers.len(),
            a.marks.as_ptr(),
            a.marks.len(),
            a.points.as_ptr(),
            a.points.len(),
            a.starts.as_ptr(),
            a.starts.len(),
            a.owners.as_ptr(),
            a.owners.len(),
            b.numbers.as_ptr(),
            b.numbers.len(),
            b.marks.as_ptr(),
            b.marks.len(),
            b.points.as_ptr(),
            b.points.len(),
            b.starts.as_ptr(),
            b.starts.len(),
            b.owners.as_ptr(),
            b.owners.len(),
            out.numbers.as_mut_ptr(),
            out.numbers.len(),
            out.marks.as_mut_ptr(),
            out.marks.len(),
            out.points.as_mut_ptr(),
            out.points.len(),
            out.starts.as_mut_ptr(),
            out.starts.len(),
            out.owners.as_mut_ptr(),
            out.owners.len(),
            &mut entries,
            &mut points,
            &mut paths,
        )
    };
    if number == 0 {
        Ok((entries, points, paths))
    } else {
        Err(number)
    }
}
