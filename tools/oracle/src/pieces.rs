//! Small pieces with known answers: document 01's worked ones, both sides of each refusal's
//! condition, the yard's text and the program's requests.

use oracle::generate::places_of;
use oracle::requests::answer;
use oracle::{Answer, COARSE, FINE, Lines, Places, Room, Scene, Trouble, View};

const AMPLE: Places = Places { points: 3000, starts: 3000 };
const IDENTITY: [f64; 16] = [1., 0., 0., 0., 0., 1., 0., 0., 0., 0., 1., 0., 0., 0., 0., 1.];
const DOWN: [f64; 3] = [0.0, 0.0, -1.0];

/// Checks every piece and prints those that fail.
pub fn check_all() -> Pieces {
    let mut pieces = Pieces::default();
    worked(&mut pieces);
    stripes(&mut pieces);
    closed(&mut pieces);
    outlines(&mut pieces);
    boundaries(&mut pieces);
    text(&mut pieces);
    requests(&mut pieces);
    println!("pieces: {} checked, {} failed", pieces.checked, pieces.failed);
    pieces
}

#[derive(Default)]
pub struct Pieces {
    pub checked: usize,
    pub failed: usize,
}

impl Pieces {
    fn holds(&mut self, what: &str, holds: bool) {
        self.checked += 1;
        if !holds {
            self.failed += 1;
            println!("FAILED: {what}");
        }
    }

    fn equal<T: PartialEq + std::fmt::Debug>(&mut self, what: &str, found: T, expected: T) {
        let holds = found == expected;
        self.holds(what, holds);
        if !holds {
            println!("  found    {found:?}\n  expected {expected:?}");
        }
    }

    /// Expects this number, or 0 for an answer.
    fn number<T>(&mut self, what: &str, found: Answer<T>, expected: u32) {
        self.equal(what, number_of(&found), Ok(expected));
    }
}

/// Operations 2 and 3: the distance from the first origin, and a last miss unchanged.
fn true_cuts(p: &mut Pieces) {
    let unit = [-1.0, -1.0, -1.0, 1.0, 1.0, 1.0];
    // a part shrunk by 1e-6 misses at 1,000, so the ray goes on by 1,000.01 at a time
    let through = |operation: u32, kind: u32, numbers: &[f64]| {
        let mut s = one([kind, u32::from(kind == 4), 0, 0], numbers);
        s.push([4, 1, 0, 0], &unit);
        s.push([6, 0, 1, 0], &stretched(1e-6));
        s.push([7, operation, 0, 2], &[]);
        s
    };
    let far = |operation, x| through(operation, 4, &[x, -10.0, -10.0, x + 100.0, 10.0, 10.0]);
    let along = ray([0.0, 5.0, 0.0], [1.0, 0.0, 0.0]);
    let answers = |s: &Scene, r: [f64; 6], ok: bool, t: f64| {
        oracle::intersect(s, r).is_ok_and(|h| h.ok == ok && (h.t - t).abs() < 1e-6)
    };
    p.holds("64 restarts, summed", answers(&far(3, 64_500.0), along, true, 64_500.0));
    p.number("65 restarts of a true cut", oracle::intersect(&far(3, 65_500.0), along), 11);
    // down a tube, which has no ends: the second miss lies inside, and is the last
    let tube = |operation| through(operation, 2, &[10.0, 1500.0, 9000.0]);
    let up = ray([5.0, 0.0, 0.0], [0.0, 0.0, 1.0]);
    p.holds("a last miss", answers(&tube(1), up, false, 1000.0));
    p.holds("a last miss of a true cut", answers(&tube(3), up, false, 1000.0));
    // two cubes apart have nothing in common: each face is rejected, then nothing is left
    let mut apart = cube();
    apart.push([4, 1, 0, 0], &[3.0, -1.0, -1.0, 5.0, 1.0, 1.0]);
    apart.push([7, 2, 0, 1], &[]);
    let past = ray([-5.0, 0.0, 0.0], [1.0, 0.0, 0.0]);
    p.holds("a true cut past everything", answers(&apart, past, false, 1e9));
    // placed at twice its size: the sum of the part, times 2
    let mut placed = far(3, 2500.0);
    placed.push([6, 0, 3, 0], &stretched(2.0));
    p.holds("a true cut, placed", answers(&placed, along, true, 5000.0));
    // a part that is a true cut sums for itself, whatever the cut around it does
    for outer in [0, 2] {
        let mut nested = far(3, 2500.0);
        nested.push([4, 1, 0, 0], &unit.map(|x| 1e5 * x));
        nested.push([7, outer, 3, 4], &[]);
        p.holds(&format!("a true cut in {outer}"), answers(&nested, along, true, 2500.0));
    }
}

/// The refusal's number, or 0 for an answer.
pub fn number_of<T>(found: &Answer<T>) -> Result<u32, Trouble> {
    match found {
        Ok(_) => Ok(0),
        Err(Trouble::Refused(number)) => Ok(*number),
        Err(other) => Err(other.clone()),
    }
}

fn bits(x: f64) -> String {
    format!("{:016X}", x.to_bits())
}

fn all_bits(xs: &[f64]) -> String {
    xs.iter().map(|x| bits(*x)).collect::<Vec<_>>().join(" ")
}

fn one(marks: [u32; 4], numbers: &[f64]) -> Scene {
    let mut scene = Scene::default();
    scene.push(marks, numbers);
    scene
}

fn cube() -> Scene {
    one([4, 1, 0, 0], &[-1.0, -1.0, -1.0, 1.0, 1.0, 1.0])
}

fn ray(origin: [f64; 3], direction: [f64; 3]) -> [f64; 6] {
    [origin[0], origin[1], origin[2], direction[0], direction[1], direction[2]]
}

/// A sphere, and so many placings of it, one in another.
fn chain(placings: usize) -> Scene {
    let mut scene = one([1, 0, 0, 0], &[0.0, 0.0, 0.0, 1.0]);
    for part in 0..placings {
        scene.push([6, 0, part as u32, 0], &IDENTITY);
    }
    scene
}

fn many(entries: usize) -> Scene {
    let mut scene = Scene::default();
    for i in 0..entries {
        scene.push([1, 0, 0, 0], &[i as f64, 0.0, 0.0, 1.0]);
    }
    scene
}

fn stretched(s: f64) -> [f64; 16] {
    let mut m = IDENTITY;
    (m[0], m[5], m[10]) = (s, s, s);
    m
}

const SAMPLE: &str = "(view 2 2 0 0 0 5 1 0 0 0 0 1 0 0 0 0 1 0 0 0 0 1)
(triangle 0 0 0 #3FE0000000000000 0 0 0 #3FE0000000000000 0)
";
const SAMPLE_DRAWN: &str = "(drawing 1)
(path (#3FF0000000000000 #3FF0000000000000 #0000000000000000) (#3FF8000000000000 #3FF0000000000000 #0000000000000000) (#3FF0000000000000 #3FF8000000000000 #0000000000000000) (#3FF0000000000000 #3FF0000000000000 #0000000000000000))
";

/// Document 01's worked yard pieces.
fn worked(p: &mut Pieces) {
    for (x, root) in [
        ("0000000000000000", "0000000000000000"),
        ("4022000000000000", "4008000000000000"),
        ("4000000000000000", "3FF6A09E667F3BCD"),
        ("0000000000000001", "1E60000000000000"),
        ("7FEFFFFFFFFFFFFF", "5FEFFFFFFFFFFFFF"),
        ("8000000000000000", "8000000000000000"),
    ] {
        p.equal("root", answer(&format!("root {x}")), root.to_string());
    }
    let x: f64 = 2f64.powi(-537);
    p.equal("2^-537", bits(x), "1E60000000000000".to_string());

    let no_hit = (1e9, false);
    for (what, marks, numbers, r, expected) in [
        ("sphere from above", 1, vec![0., 0., 0., 1.], ray([0., 0., 5.], DOWN), (4.0, true)),
        ("sphere from its centre", 1, vec![0., 0., 0., 1.], ray([0.; 3], DOWN), (1.0, true)),
        ("sphere touched", 1, vec![0., 0., 0., 1.], ray([1., 0., 5.], DOWN), no_hit),
        ("cylinder", 2, vec![1., -1., 1.], ray([5., 0., 0.], [-1., 0., 0.]), (4.0, true)),
        ("cylinder down its axis", 2, vec![1., -1., 1.], ray([0., 0., 5.], DOWN), no_hit),
        ("cone", 3, vec![1., 2.], ray([5., 0., 1.], [-1., 0., 0.]), (4.5, true)),
        ("cube", 4, vec![-1., -1., -1., 1., 1., 1.], ray([0., 0., 5.], DOWN), (4.0, true)),
        (
            "triangle",
            5,
            vec![0., 0., 0., 1., 0., 0., 0., 1., 0.],
            ray([0.25, 0.25, 1.], DOWN),
            (1.0, true),
        ),
    ] {
        let scene = one([marks, 1, 0, 0], &numbers);
        for (way, hit) in
            [("tree", oracle::intersect(&scene, r)), ("own", oracle::own_hit(&scene, 0, r))]
        {
            let found = hit.map(|h| (h.t, h.ok));
            p.equal(&format!("{what} ({way})"), found, Ok(expected));
        }
        let request = format!("hit {marks} {} {}", all_bits(&numbers), all_bits(&r));
        let text = format!("{} {}", bits(expected.0), u32::from(expected.1));
        p.equal(&format!("{what} (request)"), answer(&request), text);
    }

    let path = Lines { points: vec![0., 0., 0., 1., 0.5, 0., 2., 0., 0.], starts: vec![0] };
    let kept = |t| oracle::simplify(t, &path, AMPLE).map(|l| (l.points, l.starts));
    p.equal("path at 0.5", kept(0.5), Ok((vec![0., 0., 0., 2., 0., 0.], vec![0])));
    p.equal("path at 0.25", kept(0.25), Ok((path.points.clone(), vec![0])));

    let eye = [0.0, 0.0, 5.0];
    p.equal("front of the cube", oracle::visible(&cube(), eye, [0., 0., 1.]), Ok(true));
    p.equal("back of the cube", oracle::visible(&cube(), eye, DOWN), Ok(false));

    let mut cut = cube();
    cut.push([4, 1, 0, 0], &[-0.5, -0.5, 0.0, 0.5, 0.5, 2.0]);
    cut.push([7, 1, 0, 1], &[]);
    let hit = oracle::intersect(&cut, ray(eye, DOWN));
    p.holds("cut near 0.99", hit.is_ok_and(|h| h.ok && (h.t - 0.99).abs() < 1e-9));
    cut.marks[9] = 3;
    let hit = oracle::intersect(&cut, ray(eye, DOWN));
    p.holds("true cut near 5", hit.is_ok_and(|h| h.ok && (h.t - 5.0).abs() < 1e-9));
    true_cuts(p);

    p.number("1,024 entries", oracle::check(&many(1024)), 0);
    p.number("1,025 entries", oracle::check(&many(1025)), 2);
    p.number("depth 8", oracle::check(&chain(7)), 0);
    p.number("depth 9", oracle::check(&chain(8)), 4);

    p.equal("sample", oracle::yard::run(SAMPLE.as_bytes()), SAMPLE_DRAWN.to_string());
}

/// Stripes: how many there are, where they stand, and that lines follow them.
fn stripes(p: &mut Pieces) {
    use oracle::stripes::stripes;
    for (count, lines) in [
        (0, 0),
        (1, 1),
        (2, 2),
        (4, 4),
        (7, 8),
        (8, 8),
        (11, 12),
        (180, 180),
        (181, 360),
        (360, 360),
    ] {
        for kind in [2, 3, 8, 9] {
            let found = stripes(kind, count, &[1.0, 2.0, 3.0]);
            p.equal(&format!("{count} stripes of kind {kind}"), found.len(), lines);
        }
    }
    p.equal("stripes of a sphere", stripes(1, 4, &[1.0; 4]), vec![]);
    let tube = stripes(2, 4, &[2.0, -1.0, 3.0]);
    p.equal("four stripes of a closed tube", stripes(8, 4, &[2.0, -1.0, 3.0]), tube.clone());
    let corners = [(2.0, 0.0), (0.0, 2.0), (-2.0, 0.0), (0.0, -2.0)];
    let upright = corners.map(|(x, y)| [[x, y, -1.0], [x, y, 3.0]]).to_vec();
    p.equal("four stripes of a tube", tube, upright);
    let cone = stripes(3, 4, &[2.0, 3.0]);
    p.equal("four stripes of a closed cone", stripes(9, 4, &[2.0, 3.0]), cone.clone());
    let slopes = corners.map(|(x, y)| [[x, y, 0.0], [0.0, 0.0, 3.0]]).to_vec();
    p.equal("four stripes of a cone", cone, slopes);
    // the root of 3/4, and exactly a half
    let [foot, _] = stripes(2, 12, &[1.0, 0.0, 1.0])[1];
    p.equal("30 degrees", foot, [f64::sqrt(0.75), 0.5, 0.0]);

    // a flat tube hides nothing, and x stands where z is drawn
    let mut scene = one([2, 4, 0, 0], &[0.5, 0.0, 0.0]);
    scene.push_line(0, &[[0.25, 0.0, 0.0], [-0.25, 0.0, 0.0]]);
    let mut matrix = [0.0; 16];
    (matrix[8], matrix[15]) = (1.0, 1.0);
    let view = View { matrix, eye: [0., 0., 5.], width: 2.0, height: 2.0, step: 0.0 };
    let drawn = oracle::draw(&scene, &view, FINE, Room::of(100))
        .map(|l| l.points.chunks(3).map(|p| p[2]).collect::<Vec<f64>>());
    let expected = vec![0.5, 0.5, 0.0, 0.0, -0.5, -0.5, 0.0, 0.0, 0.25, -0.25];
    p.equal("lines follow the stripes", drawn, Ok(expected));
}

/// Outlines: rings and lines by triangles of whole numbers, how far rings are halved, and who has an outline.
fn outlines(p: &mut Pieces) {
    use oracle::outlines::{outline, outlines, own_eye, with_outlines};
    let view = |step: f64| View { step, ..outline_view() };
    let seen = |kind, numbers: &[f64], eye: [f64; 3]| outline(kind, numbers, eye, &[], &view(0.0));
    let lens = |lines: &[oracle::outlines::Line]| lines.iter().map(Vec::len).collect::<Vec<_>>();

    // e = 25, q = 4
    let tube = seen(2, &[3.0, -1.0, 2.0], [5.0, 0.0, 7.0]);
    p.equal("a tube: two rings, two lines", lens(&tube), vec![129, 129, 2, 2]);
    p.equal("its ring at z0", (tube[0][0], tube[0][32]), ([3.0, 0.0, -1.0], [0.0, 3.0, -1.0]));
    p.equal("its ring at z1", (tube[1][64], tube[1][128]), ([-3.0, 0.0, 2.0], [3.0, 0.0, 2.0]));
    p.equal("its first line", tube[2].clone(), vec![[1.8, 2.4, -1.0], [1.8, 2.4, 2.0]]);
    p.equal("its second line", tube[3].clone(), vec![[1.8, -2.4, -1.0], [1.8, -2.4, 2.0]]);
    p.equal("a closed tube", seen(8, &[3.0, -1.0, 2.0], [5.0, 0.0, 7.0]), tube);
    for (what, x) in [("within", 2.0), ("on the axis", 0.0), ("on the wall", 3.0)] {
        let tube = seen(2, &[3.0, -1.0, 2.0], [x, 0.0, 7.0]);
        p.equal(&format!("a tube, the eye {what}"), lens(&tube), vec![129, 129]);
    }
    let near = seen(2, &[3.0, -1.0, 2.0], [3.0_f64.next_up(), 0.0, 7.0]);
    p.equal("a tube, the eye next to its wall", lens(&near), vec![129, 129, 2, 2]);

    // c = 3 at the base's height, 0 at the apex's, 1.5 between, 6 below
    let cone = |x: f64, z: f64| seen(3, &[3.0, 2.0], [x, 0.0, z]);
    p.equal("a cone from its base's height", cone(5.0, 0.0)[1][0], [1.8, 2.4, 0.0]);
    p.equal("a cone's line ends at its apex", cone(5.0, 0.0)[2][1], [0.0, 0.0, 2.0]);
    p.equal("a cone from its apex's height", cone(5.0, 2.0)[1][0], [0.0, 3.0, 0.0]);
    p.equal("and its second line", cone(5.0, 2.0)[2][0], [0.0, -3.0, 0.0]);
    p.equal("a cone from halfway up", cone(2.5, 1.0)[1][0], [1.8, 2.4, 0.0]);
    p.equal("a cone from its wall", lens(&cone(1.5, 1.0)), vec![129]);
    p.equal("a cone from below", lens(&cone(5.0, -2.0)), vec![129]);
    p.equal("a cone from its apex", lens(&cone(0.0, 2.0)), vec![129]);
    p.equal("a cone from above", lens(&cone(0.0, 9.0)), vec![129]);
    p.equal("a closed cone", seen(9, &[3.0, 2.0], [5.0, 0.0, 1.0]), cone(5.0, 1.0));

    // h = 5, the root of 16 is 4: radius 2.4, 3.2 from the eye
    let ball = |x: f64| seen(1, &[0.0, 0.0, 0.0, 3.0], [x, 0.0, 0.0]);
    p.equal("a ball: one ring", lens(&ball(5.0)), vec![129]);
    let quarters = [0, 32, 64, 96, 128].map(|k| ball(5.0)[0][k].map(|x| (x * 1e9).round() / 1e9));
    let around =
        [[1.8, 0., -2.4], [1.8, -2.4, 0.], [1.8, 0., 2.4], [1.8, 2.4, 0.], [1.8, 0., -2.4]];
    p.equal("its ring", quarters, around);
    p.equal("a ball, the eye on it", ball(3.0), vec![]);
    p.equal("a ball, the eye within", ball(1.0), vec![]);

    // the sheet is 2 wide, and so is what it shows
    let ring =
        |step, radius| outline(3, &[radius, 1.0], [0.0, 0.0, 5.0], &[], &view(step))[0].len();
    p.equal("steps", [1000.0, 1.0, 0.5, 0.25].map(|s| ring(s, 0.5)), [5, 5, 9, 17]);
    p.equal("a step that is never reached", ring(1e-300, 0.5), 1025);
    p.equal("step 0 of either sign", [0.0, -0.0].map(|s| ring(s, 0.5)), [129, 129]);
    p.equal("radius 0", [0.0, 1e-300, 1.0].map(|s| ring(s, 0.0)), [5, 5, 5]);
    p.equal("ends nearer than 1e-9 squared", ring(1e-300, 1e-5), 5);
    let twice = outline(3, &[0.5, 1.0], [0.0, 0.0, 5.0], &[stretched(2.0)], &view(0.25));
    p.equal("ends as placed", twice[0].len(), 33);

    let turned = [0., -1., 0., 0., 1., 0., 0., 0., 0., 0., 1., 0., 0., 0., 0., 1.];
    let mut moved = IDENTITY;
    moved[3] = 1.0;
    let eye = own_eye(&view(0.0), &[turned, moved]);
    p.equal("the eye, through the outer placing first", eye, [0.0, 1.0, 5.0]);
    // a row 4 counts for nothing where a point is moved: by the product the ring would stand off the sheet
    let (mut outer, mut inner) = (IDENTITY, IDENTITY);
    (outer[3], inner[15]) = (0.5, 4.0);
    let ends = outline(3, &[0.5, 1.0], [0.0, 0.0, 5.0], &[inner, outer], &view(0.25));
    p.equal("ends moved by one placing after the other", ends[0].len(), 17);

    // the square of the distance is no finite number
    let far = outline(1, &[0.0, 0.0, 0.0, 1.0], [1e200, 1.0, 1.0], &[], &view(0.0));
    let nans = far[0].iter().flatten().all(|x| x.is_nan());
    p.equal("a ball infinitely far off: a ring of NaNs", (lens(&far), nans), (vec![129], true));

    // who has one
    let mut scene = one([2, 0, 0, 0], &[1.0, 0.0, 1.0]);
    scene.push([2, 4, 0, 0], &[1.0, 0.0, 1.0]);
    scene.push([1, 7, 0, 0], &[9.0, 0.0, 0.0, 1.0]);
    scene.push([1, 0, 0, 0], &[0.0, 0.0, 0.0, 1.0]);
    scene.push([9, 0, 0, 0], &[1.0, 1.0]);
    scene.push([4, 1, 0, 0], &[0.0, 0.0, 0.0, 1.0, 1.0, 1.0]);
    scene.push([6, 0, 4, 0], &IDENTITY);
    scene.push_line(3, &[]);
    let own: Vec<usize> = outlines(&scene, &view(0.0)).iter().map(Vec::len).collect();
    p.equal("outlines where there are no other lines", own, vec![2, 0, 1, 0, 1, 0, 0]);
    let owners = with_outlines(&scene, &view(0.0)).owners;
    p.equal("outlines in the order of their owners", owners, vec![0, 0, 2, 3, 4]);
    let drawn = |s: &Scene| {
        oracle::draw(s, &view(0.25), FINE, Room::of(3000)).map(|l| (l.points, l.starts))
    };
    let handed = drawn(&with_outlines(&scene, &view(0.25)));
    p.equal("outlines as lines that are handed in", drawn(&scene), handed);
}

/// Straight down, the whole sheet 2 wide.
fn outline_view() -> View {
    View { matrix: IDENTITY, eye: [0.0, 0.0, 5.0], width: 2.0, height: 2.0, step: 0.0 }
}

/// Closed cylinders and cones: discs from either side, at their rims, in their planes and at INF; insides.
fn closed(p: &mut Pieces) {
    let tube = one([8, 0, 0, 0], &[1.0, -1.0, 1.0]);
    let cone = one([9, 0, 0, 0], &[1.0, 2.0]);
    let (up, miss) = ([0.0, 0.0, 1.0], (1e9, false));
    let beyond = 1.0f64.next_up();
    // t is 512 * k: from k * 2^-21 over the lid, by 2^-30
    let slow = |k: u32| {
        let over = f64::from(k) / f64::from(1 << 21);
        ray([0., 0., 1.0 + over], [0., 0., -1.0 / f64::from(1 << 30)])
    };
    for (what, scene, r, expected) in [
        ("down on a lid", &tube, ray([0., 0., 5.], DOWN), (4.0, true)),
        ("up on the floor", &tube, ray([0., 0., -5.], up), (4.0, true)),
        ("up from within", &tube, ray([0., 0., 0.], up), (1.0, true)),
        ("from a lid down to the floor", &tube, ray([0., 0., 1.], DOWN), (2.0, true)),
        ("up from a lid", &tube, ray([0., 0., 1.], up), miss),
        ("on the rim", &tube, ray([0.6, 0.8, 5.], DOWN), (4.0, true)),
        ("on the rim at x", &tube, ray([1., 0., 5.], DOWN), (4.0, true)),
        ("beyond the rim", &tube, ray([beyond, 0., 5.], DOWN), miss),
        ("on the wall", &tube, ray([5., 0., 0.], [-1., 0., 0.]), (4.0, true)),
        ("from within on the wall", &tube, ray([0., 0., 0.], [-1., 0., 0.]), (1.0, true)),
        ("in a lid's plane", &tube, ray([5., 0., 1.], [-1., 0., 0.]), miss),
        ("in a lid's plane, -0", &tube, ray([5., 0., 1.], [-1., 0., -0.0]), miss),
        ("over the edge on a lid", &tube, ray([-2., 0., 2.], [0.8, 0., -0.6]), (1.0 / 0.6, true)),
        ("a short direction, below INF", &tube, slow(1_953_124), (999_999_488.0, true)),
        ("a short direction, at INF", &tube, slow(1_953_125), miss),
        ("a short direction, beyond INF", &tube, slow(1_953_126), miss),
        ("up on a cone's base", &cone, ray([0., 0., -3.], up), (3.0, true)),
        ("down from within a cone", &cone, ray([0.25, 0., 1.], DOWN), (1.0, true)),
        ("down on a cone", &cone, ray([0.25, 0., 5.], DOWN), (3.5, true)),
        ("down a cone's axis", &cone, ray([0., 0., 5.], DOWN), (5.0, true)),
        ("on a base's rim", &cone, ray([0.6, 0.8, -3.], up), (3.0, true)),
        ("beyond a base's rim", &cone, ray([beyond, 0., -3.], up), miss),
        ("in a base's plane", &cone, ray([5., 0., 0.], [-1., 0., 0.]), miss),
    ] {
        for (way, hit) in
            [("tree", oracle::intersect(scene, r)), ("own", oracle::own_hit(scene, 0, r))]
        {
            let found = hit.map(|h| (h.t, h.ok));
            p.equal(&format!("{what} ({way})"), found, Ok(expected));
        }
    }
    let near = |t: f64| one([8, 0, 0, 0], &[1.0, -1.0, t]);
    for (t, ok) in [(1e-6, false), (1e-6f64.next_up(), true)] {
        let hit = oracle::own_hit(&near(t), 0, ray([0.; 3], up)).map(|h| h.ok);
        p.equal(&format!("a lid at {t:?}"), hit, Ok(ok));
    }

    for (what, kind, numbers, v, f, inside) in [
        ("a lid's middle", 8, vec![1., -1., 1.], [0., 0., 1.], 0.0, 1),
        ("a lid's rim", 8, vec![1., -1., 1.], [0.6, 0.8, 1.], 0.0, 1),
        ("over a lid", 8, vec![1., -1., 1.], [0., 0., 1.125], 0.0, 0),
        ("over a lid, widened", 8, vec![1., -1., 1.], [0., 0., 1.125], 0.125, 1),
        ("a cone's base", 9, vec![1., 2.], [1., 0., 0.], 0.0, 1),
        ("a cone's slope", 9, vec![1., 2.], [0.5, 0., 1.], 0.0, 1),
        ("off a cone's slope", 9, vec![1., 2.], [0.625, 0., 1.], 0.0, 0),
        ("off a cone's slope, widened", 9, vec![1., 2.], [0.625, 0., 1.], 0.125, 1),
        ("a cone's apex", 9, vec![1., 2.], [0., 0., 2.], 0.0, 1),
        ("over a cone's apex", 9, vec![1., 2.], [0., 0., 2.25], 0.25, 1),
        ("beside a cone's apex", 9, vec![1., 2.], [0.25, 0., 2.25], 0.25, 0),
        ("under a cone's base", 9, vec![1., 2.], [0., 0., -0.125], 0.125, 1),
        ("far under a cone's base", 9, vec![1., 2.], [0., 0., -0.25], 0.125, 0),
        ("a cone narrowed", 9, vec![1., 2.], [0., 0., 0.], -0.125, 0),
        ("an open cone", 3, vec![1., 2.], [0., 0., 1.], 0.0, 0),
    ] {
        let request =
            format!("contains {kind} {} {} {}", all_bits(&numbers), all_bits(&v), bits(f));
        p.equal(what, answer(&request), inside.to_string());
    }
    for (kind, open, numbers) in [(8, 2, vec![2., -1., 4.]), (9, 3, vec![2., 4.])] {
        let bounds = |kind: u32| answer(&format!("bounds {kind} {}", all_bits(&numbers)));
        p.equal("a closed solid's box", bounds(kind), bounds(open));
    }

    // the far wall is seen through an open end, and not through a lid
    let mut scene = one([2, 0, 0, 0], &[1.0, 0.0, 4.0]);
    let (eye, floor) = ([0.0, 0.0, 9.0], [0.5, 0.0, 1.0]);
    p.equal("into an open tube", oracle::visible(&scene, eye, floor), Ok(true));
    scene.marks[0] = 8;
    p.equal("onto a lid", oracle::visible(&scene, eye, floor), Ok(false));
}

/// Both sides of each refusal's condition.
fn boundaries(p: &mut Pieces) {
    let above = f64::from_bits(1e6f64.to_bits() + 1);
    let sphere = |r: f64| one([1, 0, 0, 0], &[0.0, 0.0, 0.0, r]);

    // 2
    let mut s = cube();
    s.numbers.push(0.0);
    p.number("a number too many", oracle::check(&s), 2);
    let mut s = cube();
    s.marks.push(0);
    p.number("a mark too many", oracle::check(&s), 2);
    let mut s = cube();
    s.marks.extend([0; 4]);
    p.number("four marks too many", oracle::check(&s), 2);
    let mut s = cube();
    s.owners.push(0);
    p.number("an owner too many", oracle::check(&s), 2);
    let mut s = cube();
    s.points.extend([f64::NAN; 3]);
    p.number("points without starts are not looked at", oracle::check(&s), 0);
    s.points.push(0.0);
    p.number("a third of a point", oracle::check(&s), 2);
    p.number("no entries", oracle::check(&Scene::default()), 0);

    // 3
    for (marks, number) in [
        ([0, 0, 0, 0], 3),
        ([8, 0, 7, 7], 0),
        ([9, 0, 7, 7], 5),
        ([10, 0, 0, 0], 3),
        ([5, 99, 7, 7], 0),
        ([4, 0, 0, 0], 3),
        ([4, 1000, 9, 9], 0),
        ([4, 1001, 0, 0], 3),
    ] {
        let scene = one(marks, &[0.0, 0.0, 0.0, 1.0, 1.0, 1.0]);
        p.number(&format!("marks {marks:?}"), oracle::check(&scene), number);
    }
    for (operation, number) in [(0, 0), (1, 0), (2, 0), (3, 0), (4, 3)] {
        let mut s = many(2);
        s.push([7, operation, 0, 1], &[f64::NAN; 16]);
        p.number(&format!("operation {operation}"), oracle::check(&s), number);
    }
    let mut s = cube();
    s.push([6, 0, 1, 0], &IDENTITY);
    s.push([10, 0, 0, 0], &[]);
    p.number("3 in the last entry precedes 4 in an earlier one", oracle::check(&s), 3);

    // 14
    for (marks, number) in [
        ([2, 0, 0, 0], 0),
        ([2, 360, 9, 9], 0),
        ([2, 361, 0, 0], 14),
        ([3, 360, 9, 9], 0),
        ([3, 361, 0, 0], 14),
        ([3, u32::MAX, 0, 0], 14),
        ([8, 360, 9, 9], 0),
        ([8, 361, 0, 0], 14),
        ([9, 360, 9, 9], 0),
        ([9, 361, 0, 0], 14),
        ([1, 361, 0, 0], 0),
    ] {
        let scene = one(marks, &[1.0, 1.0, 1.0]);
        p.number(&format!("stripes {marks:?}"), oracle::check(&scene), number);
    }
    let mut s = one([2, 361, 0, 0], &[1.0, 0.0, 1.0]);
    s.push([6, 0, 1, 0], &IDENTITY);
    p.number("14 precedes 4", oracle::check(&s), 14);
    s.push([4, 0, 0, 0], &[]);
    p.number("3 in a later entry precedes 14", oracle::check(&s), 3);
    let mut s = one([6, 0, 0, 0], &IDENTITY);
    s.push([3, 361, 0, 0], &[1.0, -1.0]);
    p.number("14 in a later entry precedes 4 and 5", oracle::check(&s), 14);

    // 4
    let mut s = many(2);
    s.push([7, 0, 0, 0], &[]);
    p.number("both parts one entry", oracle::check(&s), 4);
    let mut s = many(2);
    s.push([7, 0, 1, 0], &[]);
    p.number("parts in any order", oracle::check(&s), 0);
    s.push([6, 0, 2, 0], &IDENTITY);
    p.equal("drawn", oracle::check(&s).map(|c| c.drawn), Ok(vec![3]));
    s.push([6, 0, 1, 0], &IDENTITY);
    p.number("named twice", oracle::check(&s), 4);
    let mut s = many(1);
    s.push([6, 0, 1, 0], &IDENTITY);
    p.number("a part of itself", oracle::check(&s), 4);
    let lines = |owners: &[u32], starts: &[usize], points: usize| {
        let mut s = many(2);
        s.push([4, 1, 0, 0], &[0.0; 6]);
        (s.owners, s.starts) = (owners.to_vec(), starts.to_vec());
        s.points = vec![0.0; 3 * points];
        s
    };
    let closed = |mut s: Scene| {
        s.marks[8] = 8;
        s.push([9, 0, 0, 0], &[1.0, 1.0]);
        s
    };
    for (what, scene, number) in [
        ("equal owners and starts", lines(&[1, 1, 1], &[0, 0, 2], 4), 0),
        ("a start at the point count", lines(&[0, 1], &[0, 4], 4), 0),
        ("a start beyond the points", lines(&[0, 1], &[0, 5], 4), 4),
        ("a first start that isn't 0", lines(&[0], &[1], 4), 4),
        ("a start that falls", lines(&[0, 0, 0], &[0, 3, 2], 4), 4),
        ("owners that fall", lines(&[1, 0], &[0, 1], 4), 4),
        ("a cube as owner", lines(&[2], &[0], 4), 4),
        ("closed solids as owners", closed(lines(&[2, 3], &[0, 2], 4)), 0),
        ("an owner beyond", lines(&[3], &[0], 4), 4),
        ("a path without points", lines(&[0], &[0], 0), 0),
    ] {
        p.number(what, oracle::check(&scene), number);
    }

    // 5
    let tube = |z0, z1| one([2, 0, 0, 0], &[1.0, z0, z1]);
    let cone = |r, h| one([3, 0, 0, 0], &[r, h]);
    let cube_to = |x| one([4, 1, 0, 0], &[0.0, 0.0, 0.0, 1.0, x, 1.0]);
    for (what, scene, number) in [
        ("radius -0", sphere(-0.0), 0),
        ("radius below 0", sphere(-5e-324), 5),
        ("radius NaN", sphere(f64::NAN), 5),
        ("radius infinite", sphere(f64::INFINITY), 5),
        ("radius of exactly 1,000,000", sphere(1e6), 0),
        ("radius above 1,000,000", sphere(above), 5),
        ("a flat tube", tube(1.0, 1.0), 0),
        ("z1 below z0", tube(1.0, 0.5), 5),
        ("height 0", cone(1.0, 0.0), 5),
        ("height -0", cone(1.0, -0.0), 5),
        ("the least height", cone(0.0, 5e-324), 0),
        ("a negative cone radius", cone(-1.0, 1.0), 5),
        ("a flat closed tube", one([8, 0, 0, 0], &[1.0, 1.0, 1.0]), 0),
        ("a closed tube with z1 below z0", one([8, 0, 0, 0], &[1.0, 1.0, 0.5]), 5),
        ("a closed tube of radius above 1,000,000", one([8, 0, 0, 0], &[above, 0.0, 1.0]), 5),
        ("a closed cone of height -0", one([9, 0, 0, 0], &[1.0, -0.0]), 5),
        ("the least height of a closed cone", one([9, 0, 0, 0], &[0.0, 5e-324, f64::NAN]), 0),
        ("a closed cone of negative radius", one([9, 0, 0, 0], &[-1.0, 1.0]), 5),
        ("a flat cube", cube_to(0.0), 0),
        ("a cube with max -0 on min 0", cube_to(-0.0), 0),
        ("min above max", cube_to(-1e-300), 5),
        ("an unused place", one([1, 0, 0, 0], &[0.0, 0.0, 0.0, 1.0, f64::NAN]), 0),
    ] {
        p.number(what, oracle::check(&scene), number);
    }

    // 6 and 7
    let placed = |m: [f64; 16]| {
        let mut s = one([1, 0, 0, 0], &[1e6, 0.0, 0.0, 1.0]);
        s.push([1, 0, 0, 0], &[0.0, 0.0, 0.0, 1.0]);
        s.push([6, 0, 1, 0], &m);
        s
    };
    p.number(
        "6 in the last entry precedes 7 in the first",
        oracle::check(&placed(stretched(0.0))),
        6,
    );
    p.number("a box beyond 1,000,000", oracle::check(&placed(IDENTITY)), 7);
    let alone = |m: [f64; 16]| {
        let mut s = sphere(1.0);
        s.push([6, 0, 0, 0], &m);
        s
    };
    let thin = |x: f64| {
        let mut m = IDENTITY;
        m[0] = x;
        alone(m)
    };
    p.number("determinant 0", oracle::check(&thin(-0.0)), 6);
    p.number("the least determinant, an infinite inverse", oracle::check(&thin(5e-324)), 6);
    p.number("an inverse just out of range", oracle::check(&thin(5.5e-309)), 6);
    p.number("an inverse just in range", oracle::check(&thin(5.6e-309)), 0);
    p.number("a determinant that underflows", oracle::check(&alone(stretched(1e-110))), 6);
    p.number("a box of exactly 1,000,000", oracle::check(&alone(stretched(1e6))), 0);
    let mut part = sphere(2.0);
    part.push([6, 0, 0, 0], &stretched(1e6));
    part.push([6, 0, 1, 0], &stretched(0.5));
    p.number("7 of a part that isn't drawn", oracle::check(&part), 7);

    // 8
    let view = View { matrix: IDENTITY, eye: [0., 0., 5.], width: 2.0, height: 2.0, step: 0.0 };
    let drawn = |change: &dyn Fn(&mut View)| {
        let mut v = view.clone();
        change(&mut v);
        oracle::draw(&Scene::default(), &v, FINE, Room::of(0))
    };
    for (what, found, number) in [
        ("a plain view", drawn(&|_| ()), 0),
        ("width 0", drawn(&|v| v.width = 0.0), 8),
        ("width -0", drawn(&|v| v.width = -0.0), 8),
        ("the least width", drawn(&|v| v.width = 5e-324), 0),
        ("height of exactly 1,000,000", drawn(&|v| v.height = 1e6), 0),
        ("height above 1,000,000", drawn(&|v| v.height = above), 8),
        ("height NaN", drawn(&|v| v.height = f64::NAN), 8),
        ("step -0", drawn(&|v| v.step = -0.0), 0),
        ("step 1,000", drawn(&|v| v.step = 1000.0), 0),
        ("step above 1,000", drawn(&|v| v.step = 1000.0000000000001), 8),
        ("step below 0", drawn(&|v| v.step = -5e-324), 8),
        ("step NaN", drawn(&|v| v.step = f64::NAN), 8),
        ("eye at 1,000,000", drawn(&|v| v.eye[1] = -1e6), 0),
        ("eye beyond 1,000,000", drawn(&|v| v.eye[1] = -above), 8),
        ("a large matrix number", drawn(&|v| v.matrix[7] = -1e308), 0),
        ("an infinite matrix number", drawn(&|v| v.matrix[7] = f64::INFINITY), 8),
    ] {
        p.number(what, found, number);
    }
    for (what, r, number) in [
        ("no direction", ray([0.; 3], [0.0, -0.0, 0.0]), 0),
        ("a long direction", ray([0.; 3], [1e6, -1e6, 1e6]), 0),
        ("a direction beyond 1,000,000", ray([0.; 3], [0., above, 0.]), 8),
        ("an origin that is NaN", ray([0., 0., f64::NAN], DOWN), 8),
    ] {
        p.number(what, oracle::intersect(&cube(), r), number);
    }
    let dot = Lines { points: vec![1e6, -1e6, 0.0], starts: vec![0] };
    for (threshold, number) in
        [(-0.0, 0), (1e300, 0), (-5e-324, 8), (f64::NAN, 8), (f64::INFINITY, 8)]
    {
        p.number(
            &format!("threshold {threshold}"),
            oracle::simplify(threshold, &dot, AMPLE),
            number,
        );
        let scene = Scene::default();
        p.number(
            &format!("threshold {threshold} of a draw"),
            oracle::draw(&scene, &view, threshold, Room::of(0)),
            number,
        );
    }
    let mut short = cube();
    short.numbers.pop();
    p.number("2 before a threshold's 8", oracle::draw(&short, &view, -1.0, Room::of(0)), 2);

    // 9
    let eye = [0.0, 0.0, 5.0];
    let bad = Lines { points: vec![0.0, above, 0.0], starts: vec![0] };
    p.number("chop at 1,000,000", oracle::chop(&view, &dot, AMPLE), 0);
    p.number("chop beyond", oracle::chop(&view, &bad, Places { points: 0, starts: 0 }), 9);
    p.number("simplify beyond", oracle::simplify(0.0, &bad, Places { points: 0, starts: 0 }), 9);
    p.number(
        "simplify without room",
        oracle::simplify(0.0, &dot, Places { points: 0, starts: 9 }),
        13,
    );
    p.number(
        "4 before 8",
        oracle::simplify(-1.0, &Lines { points: vec![], starts: vec![1] }, AMPLE),
        4,
    );
    p.number(
        "2 before 4",
        oracle::simplify(-1.0, &Lines { points: vec![0.0], starts: vec![1] }, AMPLE),
        2,
    );
    p.number("8 before 9", oracle::simplify(-1.0, &bad, AMPLE), 8);
    p.number("visible at 1,000,000", oracle::visible(&cube(), eye, [1e6, 0., 0.]), 0);
    p.number("visible beyond", oracle::visible(&cube(), eye, [0., 0., -above]), 9);
    p.number(
        "8 before 9 in the eye test",
        oracle::visible(&cube(), [above, 0., 0.], [above, 0., 0.]),
        8,
    );
    p.equal("visible at the eye", oracle::visible(&cube(), [0.; 3], [0.; 3]), Ok(true));
    let loose = Lines { points: vec![f64::NAN; 3], starts: vec![] };
    p.number(
        "points without a start",
        oracle::chop(&view, &loose, Places { points: 0, starts: 0 }),
        0,
    );
    let far = |step: f64, scale: f64| {
        let mut s = sphere(1.0);
        s.push_line(0, &[[above, 0., 0.], [0., 0., 2.0]]);
        let v = View { matrix: stretched(scale), step, ..view.clone() };
        oracle::draw(&s, &v, FINE, Room::of(3000))
    };
    p.number("clipped before the eye test", far(0.0, 1.0), 0);
    p.number("put to the eye test", far(0.0, 1e-7), 9);
    p.number("chopped before clipping", far(1.0, 1.0), 9);

    // halvings: the screen is one spot but for a NaN in one corner, so one side is halved to the end
    let mut matrix = [0.0; 16];
    (matrix[0], matrix[1], matrix[2], matrix[3]) = (0.5, 0.5, 0.5, 1.5e6);
    (matrix[4], matrix[5], matrix[6], matrix[7]) = (0.5, 0.5, 0.5, 1.5e6);
    (matrix[12], matrix[13], matrix[14], matrix[15]) = (1.0, 1.0, 1.0, 3e6);
    let v = View { matrix, step: 1.0, ..view.clone() };
    let longest = Lines { points: [[-1e6; 3], [1e6; 3]].concat(), starts: vec![0] };
    let chopped = oracle::chop(&v, &longest, AMPLE).map(|l| l.points.len() / 3);
    p.equal("37 nested halvings", chopped, Ok(39));
    p.equal("the deepest nesting", oracle::larnt_limited::limits::deepest_halving(), 37);
    let fine = View { step: 0.001, ..view.clone() };
    let line = Lines { points: vec![-0.5, 0., 0., 0.5, 0., 0.], starts: vec![0] };
    let chopped = oracle::chop(&fine, &line, AMPLE).map(|l| l.points.len() / 3);
    p.equal("1,023 halvings, 10 of them nested", chopped, Ok(1025));
    p.number("13 at the deepest", oracle::chop(&v, &longest, Places { points: 1, starts: 1 }), 13);
    let beyond = Lines { points: [[-above; 3], [1e6; 3]].concat(), starts: vec![0] };
    p.number("9 before any halving", oracle::chop(&v, &beyond, AMPLE), 9);

    // 11: a part shrunk by 1e-6 misses at 1,000, so the ray goes on by 1,000.01 at a time
    let far_cut = |x: f64| {
        let mut s = one([4, 1, 0, 0], &[x, -10.0, -10.0, x + 100.0, 10.0, 10.0]);
        s.push([4, 1, 0, 0], &[-1.0, -1.0, -1.0, 1.0, 1.0, 1.0]);
        s.push([6, 0, 1, 0], &stretched(1e-6));
        s.push([7, 1, 0, 2], &[]);
        s
    };
    let along = ray([0.0, 5.0, 0.0], [1.0, 0.0, 0.0]);
    let hit = oracle::intersect(&far_cut(64_500.0), along);
    p.holds("64 restarts", hit.is_ok_and(|h| h.ok && (h.t - 499.36).abs() < 1e-6));
    p.number("65 restarts", oracle::intersect(&far_cut(65_500.0), along), 11);
    p.number("65 restarts of the entry alone", oracle::own_hit(&far_cut(65_500.0), 3, along), 11);
    // one part restarts some 40 times and moves the outer cut on by about 10 at a time, some 40
    // times; the other part restarts 30 times at each of these
    let mut nested = Scene::default();
    for (x, shrink) in [(400.0, 1e-8), (30_500.0, 1e-6)] {
        let a = nested.push([4, 1, 0, 0], &[x, -10.0, -10.0, x + 100.0, 10.0, 10.0]);
        let part = nested.push([4, 1, 0, 0], &[-1.0, -1.0, -1.0, 1.0, 1.0, 1.0]);
        let b = nested.push([6, 0, part, 0], &stretched(shrink));
        nested.push([7, 1, a, b], &[]);
    }
    nested.push([7, 1, 3, 7], &[]);
    p.number("cuts in a cut count anew", oracle::intersect(&nested, along), 0);

    // 12
    let mut depths = Vec::new();
    for n in 55..100 {
        let mut s = Scene::default();
        let mut size = 90_000.0;
        for _ in 0..n {
            s.push([4, 1, 0, 0], &[0.0, 0.0, 0.0, size, size, size]);
            size /= 10.0;
        }
        let rows = oracle::build(&s, usize::MAX, usize::MAX).expect("room");
        let (mut node, mut splits) = (0, 0);
        while rows.marks[3 * node + 1] == 0 {
            splits += 1;
            node = rows.marks[3 * node] as usize;
        }
        let up = ray([0.0, 0.0, -1.0], [0.0, 0.0, 1.0]);
        let number = if splits < 64 { 0 } else { 12 };
        p.number(&format!("a tree of {splits} splits"), oracle::intersect(&s, up), number);
        depths.push(splits);
    }
    p.holds("trees on both sides of 12", depths.contains(&63) && depths.contains(&64));

    // 13
    let mut triangle = one([5, 0, 0, 0], &[0.0, 0.0, 0.0, 0.5, 0.0, 0.0, 0.0, 0.5, 0.0]);
    let exact = Room {
        work: Places { points: 4, starts: 1 },
        chopped: Places { points: 0, starts: 0 },
        out: Places { points: 4, starts: 1 },
        nodes: 1,
        order: 1,
    };
    tight(p, "the sample", &triangle, &view, exact);
    triangle.push([5, 0, 0, 0], &[9.0, 0.0, 0.0, 9.5, 0.0, 0.0, 9.0, 0.5, 0.0]);
    let exact = Room {
        work: Places { points: 8, starts: 2 },
        out: Places { points: 4, starts: 2 },
        order: 2,
        ..exact
    };
    tight(p, "a path that vanishes", &triangle, &view, exact);
    let mut empty = sphere(1.0);
    empty.push_line(0, &[]);
    let exact = Room {
        work: Places { points: 0, starts: 1 },
        out: Places { points: 0, starts: 0 },
        order: 1,
        ..exact
    };
    tight(p, "a handed-in path without points", &empty, &view, exact);
    // 12 pieces of three edges; what is chopped is filtered into work and simplified into out
    let sample = one([5, 0, 0, 0], &[0.0, 0.0, 0.0, 0.5, 0.0, 0.0, 0.0, 0.5, 0.0]);
    let fine = View { step: 0.25, ..view.clone() };
    let exact = Room {
        work: Places { points: 13, starts: 1 },
        chopped: Places { points: 13, starts: 1 },
        out: Places { points: 4, starts: 1 },
        nodes: 1,
        order: 1,
    };
    tight(p, "the sample, chopped", &sample, &fine, exact);
    // off the sheet, at a step that halves nothing: a cube has 12 paths of 2 points
    let coarse = View { step: 1000.0, ..view.clone() };
    let cube_at = |s: &mut Scene, x: f64| s.push([4, 1, 0, 0], &[x, 5.0, 5.0, x + 1.0, 6.0, 6.0]);
    let taking = |scene: &Scene, points: usize, starts: usize, chopped: usize| Room {
        work: Places { points, starts },
        chopped: Places { points: chopped, starts: chopped / 2 },
        out: Places { points: 0, starts: 0 },
        nodes: oracle::build(scene, 99, 99).expect("room").marks.len() / 3,
        order: oracle::check(scene).expect("a good scene").drawn.len(),
    };
    let mut s = Scene::default();
    for x in [0.0, 10.0, 20.0, 30.0, 40.0] {
        cube_at(&mut s, x);
    }
    s.push([7, 1, 3, 4], &[]);
    let exact = taking(&s, 4 * 24, 4 * 12, 4 * 24);
    tight(p, "a cut's lines are appended behind three cubes'", &s, &coarse, exact);
    s.marks[4 * 5 + 1] = 0;
    let exact = taking(&s, 3 * 24, 3 * 12, 3 * 24);
    tight(p, "a cut without lines behind three cubes", &s, &coarse, exact);
    let mut s = Scene::default();
    for x in [0.0, 10.0, 20.0] {
        cube_at(&mut s, x);
    }
    s.push([7, 1, 0, 1], &[]);
    s.push([7, 1, 2, 3], &[]);
    let exact = taking(&s, 2 * 24, 2 * 12, 2 * 24);
    tight(p, "a cut in a cut has its own slice", &s, &coarse, exact);
    s.push([4, 1, 0, 0], &[0.0, 5.0, 5.0, 1.0, 6.0, 6.0]);
    let exact = taking(&s, 2 * 24, 2 * 12, 2 * 24);
    tight(p, "a cube behind a cut is pushed behind the cut's lines", &s, &coarse, exact);
    let mut s = Scene::default();
    cube_at(&mut s, 0.0);
    s.push([1, 0, 0, 0], &[9.0, 9.0, 9.0, 0.5]);
    s.push_line(1, &[]);
    let exact = Room { work: Places { points: 24, starts: 13 }, ..taking(&s, 0, 0, 24) };
    tight(p, "an empty line behind a cube", &s, &coarse, exact);
    s.push([7, 1, 0, 1], &[]);
    let exact = Room { work: Places { points: 24, starts: 13 }, ..taking(&s, 0, 0, 24) };
    tight(p, "an empty line behind a cube, in a cut", &s, &coarse, exact);
    // the last point of the last of 12 paths is filtered away, and opens a thirteenth
    let mut s = Scene::default();
    cube_at(&mut s, 0.0);
    s.push([1, 0, 0, 0], &[1.0, 5.0, 6.0, 0.5]);
    s.push([7, 1, 0, 1], &[]);
    let exact = Room { work: Places { points: 24, starts: 13 }, ..taking(&s, 0, 0, 24) };
    // the eye is in the ball, which has no outline then
    let within = View { eye: [1.0, 5.0, 6.0], ..coarse };
    tight(p, "a cut filters into its own slice", &s, &within, exact);
    p.number(
        "no drawn entry pushes nothing",
        oracle::draw(&Scene::default(), &view, FINE, Room::of(0)),
        0,
    );
    p.number("nodes", oracle::build(&many(3), 3, 3), 0);
    p.number("too few nodes", oracle::build(&many(3), 2, 3), 13);
    p.number("too small an order", oracle::build(&many(3), 3, 2), 13);
    let thin = Lines { points: vec![0., 0., 0., 1., 1., 0., 2., 0., 0.], starts: vec![0, 0] };
    p.number(
        "simplify with exact room",
        oracle::simplify(0.5, &thin, Places { points: 3, starts: 1 }),
        0,
    );
    p.number(
        "simplify with a point too few",
        oracle::simplify(0.5, &thin, Places { points: 2, starts: 1 }),
        13,
    );
    p.number(
        "simplify with a start too few",
        oracle::simplify(0.5, &thin, Places { points: 3, starts: 0 }),
        13,
    );

    // omitted
    let mut swapped = IDENTITY;
    (swapped[10], swapped[11], swapped[14], swapped[15]) = (0.0, 1.0, 1.0, 0.0);
    let found = oracle::draw(&alone(swapped), &view, FINE, Room::of(3000)).map(|l| l.points);
    p.equal("`up` can't be normalised", found, Err(Trouble::Omitted));
}

/// A draw takes exactly this room: it is answered with that, and refused with one place less.
fn tight(p: &mut Pieces, what: &str, scene: &Scene, view: &View, exact: Room) {
    let (answer, used) = oracle::draw_measured(scene, view, FINE, Room::of(3000));
    p.number(what, answer, 0);
    p.equal(&format!("{what}: room taken"), used, exact);
    p.number(&format!("{what}: exact room"), oracle::draw(scene, view, FINE, exact), 0);
    for k in 0..8 {
        let mut less = exact;
        let places = &mut places_of(&mut less)[k];
        if **places > 0 {
            **places -= 1;
            p.number(&format!("{what}: less at {k}"), oracle::draw(scene, view, FINE, less), 13);
        }
    }
}

/// The yard's text.
fn text(p: &mut Pieces) {
    let view = "(view 2 2 0 0 0 5 1 0 0 0 0 1 0 0 0 0 1 0 0 0 0 1)\n";
    let triangle = "(triangle 0 0 0 1 0 0 0 1 0)\n";
    let repeated = |n: usize, s: &str| s.repeat(n);
    let padded = |n: usize| {
        let mut text = view.to_string();
        while text.len() < n {
            text.push(' ');
        }
        text
    };
    let place = |form: &str| format!("(place 1 0 0 0 0 1 0 0 0 0 1 0 0 0 0 1 {form})");
    let nested =
        |n: usize| (0..n).fold("(sphere 0 0 0 1(line))".to_string(), |form, _| place(&form));
    for (what, text, expected) in [
        ("a view alone", view.to_string(), "(drawing 0)\n"),
        ("nothing", String::new(), "(refused 1)\n"),
        ("no view", triangle.to_string(), "(refused 1)\n"),
        ("two views", repeated(2, view), "(refused 1)\n"),
        ("no last line feed", view.trim_end().to_string(), "(drawing 0)\n"),
        ("lines of spaces", format!("\n  \n{view} \n\n"), "(drawing 0)\n"),
        (
            "spaces at brackets",
            " ( view  2 2 0 0 0 5 1 0 0 0 0 1 0 0 0 0 1 0 0 0 0 1 )  ".to_string(),
            "(drawing 0)\n",
        ),
        ("a tab", view.replacen(' ', "\t", 1), "(refused 1)\n"),
        ("a carriage return", view.replace('\n', "\r\n"), "(refused 1)\n"),
        (
            "two forms on a line",
            format!("{view}{}{triangle}", triangle.trim_end()),
            "(refused 1)\n",
        ),
        ("a form on two lines", view.replacen(" 5 ", "\n5 ", 1), "(refused 1)\n"),
        ("a form that isn't closed", view.replace(')', ""), "(refused 1)\n"),
        ("a number too few", view.replacen(" 2", "", 1), "(refused 1)\n"),
        ("a number too many", view.replacen(" 2", " 2 2", 1), "(refused 1)\n"),
        ("an unknown form", format!("{view}(ball 0 0 0 1)"), "(refused 1)\n"),
        (
            "-0 and leading zeros",
            view.replacen(" 0 0 0 5", " -0 000 -00 0000000005", 1),
            "(drawing 0)\n",
        ),
        ("a plus sign", view.replacen(" 5", " +5", 1), "(refused 1)\n"),
        ("two minus signs", view.replacen(" 5", " --5", 1), "(refused 1)\n"),
        ("a minus sign alone", view.replacen(" 5", " -", 1), "(refused 1)\n"),
        ("a fraction", view.replacen(" 5", " 5.0", 1), "(refused 1)\n"),
        ("1,000,000", view.replacen(" 5", " 1000000", 1), "(drawing 0)\n"),
        ("1,000,001", view.replacen(" 5", " 1000001", 1), "(refused 1)\n"),
        ("-1,000,001", view.replacen(" 5", " -1000001", 1), "(refused 1)\n"),
        ("bits of either case", view.replacen(" 5", " #40140000000000aF", 1), "(drawing 0)\n"),
        ("15 digits", view.replacen(" 5", " #401400000000000", 1), "(refused 1)\n"),
        ("17 digits", view.replacen(" 5", " #40140000000000000", 1), "(refused 1)\n"),
        ("a sign in the bits", view.replacen(" 5", " #+014000000000000", 1), "(refused 1)\n"),
        ("an infinite eye", view.replacen(" 5", " #7FF0000000000000", 1), "(refused 8)\n"),
        ("stripes 0", format!("{view}(cube 0 0 0 0 1 1 1)"), "(refused 3)\n"),
        ("stripes 1000000", format!("{view}(cube 1000000 0 0 0 1 1 1)"), "(refused 3)\n"),
        ("stripes 1000001", format!("{view}(cube 1000001 0 0 0 1 1 1)"), "(refused 1)\n"),
        ("stripes -1", format!("{view}(cube -1 0 0 0 1 1 1)"), "(refused 1)\n"),
        ("stripes as bits", format!("{view}(cube #3FF0000000000000 0 0 0 1 1 1)"), "(refused 1)\n"),
        ("a tube with 0 stripes", format!("{view}(cylinder 9 0 1 0)"), "(drawing 0)\n"),
        ("360 stripes", format!("{view}(cone 9 9 360)"), "(drawing 0)\n"),
        ("361 stripes", format!("{view}(cone 9 1 361)"), "(refused 14)\n"),
        ("1000000 stripes", format!("{view}(cylinder 9 0 1 1000000)"), "(refused 14)\n"),
        ("1000001 stripes", format!("{view}(cylinder 9 0 1 1000001)"), "(refused 1)\n"),
        ("stripes with zeros before", format!("{view}(cylinder 9 0 1 000361)"), "(refused 14)\n"),
        ("-0 stripes", format!("{view}(cylinder 9 0 1 -0)"), "(refused 1)\n"),
        ("+4 stripes", format!("{view}(cylinder 9 0 1 +4)"), "(refused 1)\n"),
        (
            "stripes of a tube as bits",
            format!("{view}(cone 9 1 #4010000000000000)"),
            "(refused 1)\n",
        ),
        ("two counts", format!("{view}(cylinder 9 0 1 4 4)"), "(refused 1)\n"),
        ("stripes of a sphere", format!("{view}(sphere 9 0 0 1 4)"), "(refused 1)\n"),
        ("stripes, then lines", format!("{view}(cone 9 9 4(line 9 9 9)(line))"), "(drawing 0)\n"),
        ("a closed tube", format!("{view}(closed-cylinder 9 0 1)"), "(drawing 0)\n"),
        (
            "a closed tube, all of it",
            format!("{view}(closed-cylinder 9 0 1 4(line 9 9 9)(line))"),
            "(drawing 0)\n",
        ),
        ("a closed cone", format!("{view}(closed-cone 9 9 360(line))"), "(drawing 0)\n"),
        (
            "361 stripes of a closed tube",
            format!("{view}(closed-cylinder 9 0 1 361)"),
            "(refused 14)\n",
        ),
        ("361 stripes of a closed cone", format!("{view}(closed-cone 9 9 0361)"), "(refused 14)\n"),
        ("a closed cone of no height", format!("{view}(closed-cone 9 0)"), "(refused 5)\n"),
        ("a closed cone of three", format!("{view}(closed-cone 9 9 9 9)"), "(refused 1)\n"),
        ("a closed tube of two", format!("{view}(closed-cylinder 9 0)"), "(refused 1)\n"),
        ("a closed sphere", format!("{view}(closed-sphere 9 0 0 1)"), "(refused 1)\n"),
        ("closed", format!("{view}(closed 9 0 1)"), "(refused 1)\n"),
        ("a count after a line", format!("{view}(cone 9 1 (line 9 9 9) 4)"), "(refused 1)\n"),
        ("a tube without z1", format!("{view}(cylinder 9 0)"), "(refused 1)\n"),
        (
            "3 before 14",
            format!("{view}(cone 9 1 361)\n(cut 4(cone 9 1)(cone 9 1))"),
            "(refused 3)\n",
        ),
        ("14 before 5", format!("{view}(cone -9 1)\n(cone 9 1 361)"), "(refused 14)\n"),
        ("operation 4", format!("{view}(cut 4(sphere 0 0 0 1)(cone 1 1))"), "(refused 3)\n"),
        (
            "no space at brackets",
            format!("{view}(cut 1(sphere 0 0 0 1(line))(cone 1 1(line 0 0 0)(line)))"),
            "(drawing 0)\n",
        ),
        ("a cut of one", format!("{view}(cut 1 (sphere 0 0 0 1))"), "(refused 1)\n"),
        ("lines of a cube", format!("{view}(cube 1 0 0 0 1 1 1 (line 0 0 0))"), "(refused 1)\n"),
        ("two numbers of a point", format!("{view}(sphere 0 0 0 1 (line 0 0))"), "(refused 1)\n"),
        ("a number after a line", format!("{view}(sphere 0 0 0 (line 0 0 0) 1)"), "(refused 1)\n"),
        ("a view in a placing", format!("{view}{}", place(view.trim_end())), "(refused 1)\n"),
        ("depth 8", format!("{view}{}", nested(7)), "(drawing 0)\n"),
        ("depth 9", format!("{view}{}", nested(8)), "(refused 4)\n"),
        ("depth 513", format!("{view}{}", nested(512)), "(refused 1)\n"),
        ("512 entries", format!("{view}{}", repeated(512, "(cone 1 1(line))\n")), "(drawing 0)\n"),
        ("513 entries", format!("{view}{}", repeated(513, "(cone 1 1)\n")), "(refused 1)\n"),
        ("2,048 lines", format!("{view}(cone 1 1{})", repeated(2048, "(line)")), "(drawing 0)\n"),
        ("2,049 lines", format!("{view}(cone 1 1{})", repeated(2049, "(line)")), "(refused 1)\n"),
        (
            "2,048 points",
            format!("{view}(cone 1 1(line{}))", repeated(2048, " 9 9 9")),
            "(drawing 0)\n",
        ),
        (
            "2,049 points",
            format!("{view}(cone 1 1(line{}))", repeated(2049, " 9 9 9")),
            "(refused 1)\n",
        ),
        ("65,536 bytes", padded(65_536), "(drawing 0)\n"),
        ("65,537 bytes", padded(65_537), "(refused 1)\n"),
        (
            "too many edges",
            format!("{view}{}", repeated(171, "(cube 1 9 9 9 9 9 9)\n")),
            "(refused 13)\n",
        ),
        (
            "as many edges as fit",
            format!("{view}{}", repeated(85, "(cube 1 9 9 9 9 9 9)\n")),
            "(drawing 0)\n",
        ),
    ] {
        p.equal(what, oracle::yard::run(text.as_bytes()), expected.to_string());
    }
    let minus = Lines { points: vec![-0.0, 1.0, -1.0], starts: vec![0] };
    let printed = "(drawing 1)\n(path (#0000000000000000 #3FF0000000000000 #BFF0000000000000))\n";
    p.equal("both zeros print alike", oracle::yard::drawing(&minus), printed.to_string());
}

fn list<T>(xs: &[T], text: impl Fn(&T) -> String) -> String {
    let items: Vec<String> =
        std::iter::once(xs.len().to_string()).chain(xs.iter().map(text)).collect();
    items.join(" ")
}

fn scene_text(s: &Scene) -> String {
    [
        list(&s.numbers, |x| bits(*x)),
        list(&s.marks, u32::to_string),
        list(&s.points, |x| bits(*x)),
        list(&s.starts, usize::to_string),
        list(&s.owners, u32::to_string),
    ]
    .join(" ")
}

fn lines_text(l: &Lines) -> String {
    format!("{} {}", list(&l.points, |x| bits(*x)), list(&l.starts, usize::to_string))
}

/// The program's requests, on one scene.
fn requests(p: &mut Pieces) {
    let view = View { matrix: IDENTITY, eye: [0., 0., 5.], width: 2.0, height: 2.0, step: 0.0 };
    let view_text = format!(
        "{} {} {}",
        all_bits(&[view.width, view.height, view.step]),
        all_bits(&view.eye),
        all_bits(&view.matrix)
    );
    let mut scene = one([5, 0, 0, 0], &[0.0, 0.0, 0.0, 0.5, 0.0, 0.0, 0.0, 0.5, 0.0]);
    let drawn = "ok 12 3FF0000000000000 3FF0000000000000 0000000000000000 3FF8000000000000 3FF0000000000000 0000000000000000 3FF0000000000000 3FF8000000000000 0000000000000000 3FF0000000000000 3FF0000000000000 0000000000000000 1 0";
    for build in ["", "plain "] {
        let asked = format!("{} {view_text} {}", scene_text(&scene), bits(COARSE));
        let request = format!("{build}draw {asked} 9 9 9 9 9 9 9 9");
        p.equal("draw request", answer(&request), drawn.to_string());
    }
    for (threshold, room, number) in [(FINE, 3, 13), (-FINE, 9, 8)] {
        let asked = format!("{} {view_text} {}", scene_text(&scene), bits(threshold));
        let request = format!("draw {asked} 9 9 9 9 {room} 9 9 9");
        p.equal("draw request refused", answer(&request), format!("refused {number}"));
    }
    // a cone that is a line, from its axis: a ring of five points
    let line = all_bits(&[0.0, 1.0, 0.0, 0.0, 5.0]);
    let request = format!("outline 3 {line} {} {view_text}", all_bits(&IDENTITY));
    p.equal("outline request", answer(&request), format!("15 {} 1 0", all_bits(&[0.0; 15])));
    scene.push([6, 0, 0, 0], &stretched(2.0));
    let text = scene_text(&scene);
    let half = bits(0.5);
    let (zero, unit, two) = (bits(0.0), bits(1.0), bits(2.0));
    let inverse = format!(
        "{half} {zero} {zero} {zero} {zero} {half} {zero} {zero} {zero} {zero} {half} {zero} {zero} {zero} {zero} {unit}"
    );
    let small = format!("{zero} {zero} {zero} {half} {half} {zero}");
    let large = format!("{zero} {zero} {zero} {unit} {unit} {zero}");
    for build in ["", "plain "] {
        let checked = format!("ok 1 1 {inverse} 2 {small} {large} 1 1");
        p.equal("check request", answer(&format!("{build}check {text}")), checked);
        let built = format!("ok 1 {large} 0 1 0 1 1");
        p.equal("build request", answer(&format!("{build}build {text} 1 1")), built);
        let r = all_bits(&[0.25, 0.25, 1.0, 0.0, 0.0, -1.0]);
        let hit = answer(&format!("{build}intersect {text} {r}"));
        p.equal("intersect request", hit, format!("ok {unit} 1"));
        let seen = answer(&format!(
            "{build}visible {text} {} {}",
            all_bits(&[0., 0., 5.]),
            all_bits(&[0.25, 0.25, -1.0])
        ));
        p.equal("visible request", seen, "ok no".to_string());
        let lines = Lines { points: vec![0., 0., 0., 1., 0.5, 0., 2., 0., 0.], starts: vec![0] };
        let thin = format!(
            "ok {}",
            lines_text(&Lines { points: vec![0., 0., 0., 2., 0., 0.], starts: vec![0] })
        );
        p.equal(
            "simplify request",
            answer(&format!("{build}simplify {half} {} 9 9", lines_text(&lines))),
            thin,
        );
        let wide = View { step: 1000.0, ..view.clone() };
        let wide_text = view_text.replacen(
            &format!("{two} {two} {zero}"),
            &format!("{two} {two} {}", bits(wide.step)),
            1,
        );
        let same = format!("ok {}", lines_text(&lines));
        p.equal(
            "chop request",
            answer(&format!("{build}chop {wide_text} {} 9 9", lines_text(&lines))),
            same,
        );
    }
    p.equal(
        "own request",
        answer(&format!("own {text} 0 {}", all_bits(&[0.25, 0.25, 1., 0., 0., -1.]))),
        format!("ok {unit} 1"),
    );
    p.equal(
        "inverse request",
        answer(&format!("inverse {}", all_bits(&stretched(2.0)))),
        format!("{inverse} {}", bits(8.0)),
    );
    let request = format!(
        "box {} {}",
        all_bits(&[-1., -1., -1., 1., 1., 1.]),
        all_bits(&[0., 0., 5., 0., 0., -1.])
    );
    p.equal("box request", answer(&request), format!("{} {}", bits(4.0), bits(6.0)));
    let request = format!("project {} {}", all_bits(&stretched(2.0)), all_bits(&[1., 2., 3.]));
    p.equal("project request", answer(&request), all_bits(&[2., 4., 6.]));
    let request = format!("bounds 1 {}", all_bits(&[1., 2., 3., 0.5]));
    p.equal("bounds request", answer(&request), all_bits(&[0.5, 1.5, 2.5, 1.5, 2.5, 3.5]));
    let request =
        format!("contains 2 {} {} {zero}", all_bits(&[1., -1., 1.]), all_bits(&[0.6, 0.8, 1.0]));
    p.equal("contains request", answer(&request), "1".to_string());
    let request = format!(
        "segment {} {} {}",
        all_bits(&[1., 0.5, 0.]),
        all_bits(&[0.; 3]),
        all_bits(&[2., 0., 0.])
    );
    p.equal("segment request", answer(&request), half.clone());
    for request in ["", "root", "root 1", &format!("root {zero} {zero}"), "hit 6", "walk", "draw 1"]
    {
        p.equal(&format!("request {request:?}"), answer(request), "bad".to_string());
    }
}
