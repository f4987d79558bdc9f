//! The example yards against their stored drawings, and what the wrapper adds: room that grows, owned scenes, questions.
use std::{fs, path::Path};
use yard_core::{
    COARSE, DIFFERENCE, Drawing, Entry, FINE, Fate, MOST_POINTS, Refused, Scene, View, forms, moved,
};

/// Looks along Y from far away.
const VIEW: View = View {
    matrix: [
        1.0, 0.0, 0.0, 0.0, 0.0, 0.0, 2.0, -2.0, 0.0, -1.0, 0.0, 0.0, 0.0, 1.0, 0.0, 20.0,
    ],
    eye: [0.0, -20.0, 2.0],
    width: 1200.0,
    height: 800.0,
    step: 8.0,
};

fn examples() -> Vec<(String, String, String)> {
    let folder = Path::new(env!("CARGO_MANIFEST_DIR")).join("../../examples");
    let mut all = Vec::new();
    for file in fs::read_dir(folder).unwrap() {
        let path = file.unwrap().path();
        if path.extension().is_some_and(|ending| ending == "yard") {
            let drawing = fs::read_to_string(path.with_extension("drawing")).unwrap();
            all.push((
                path.display().to_string(),
                fs::read_to_string(&path).unwrap(),
                drawing,
            ));
        }
    }
    all
}

/// As `yard` draws it.
fn fine(scene: &Scene, view: &View) -> Result<Drawing, Refused> {
    scene.draw_with(view, FINE, MOST_POINTS)
}

fn points(drawing: &Drawing) -> usize {
    drawing.paths().map(<[_]>::len).sum()
}

#[test]
fn each_example_is_drawn_as_stored() {
    let all = examples();
    assert!(all.len() >= 10);
    for (name, yard, drawing) in all {
        let (view, scene) = forms::read(&yard).unwrap();
        assert!(
            forms::write(&fine(&scene, &view).unwrap()) == drawing,
            "{name}"
        );
    }
}

#[test]
fn a_draw_is_coarse_by_default() {
    let mut fewer = 0;
    for (name, yard, _) in examples() {
        let (view, scene) = forms::read(&yard).unwrap();
        let (drawing, detailed) = (scene.draw(&view).unwrap(), fine(&scene, &view).unwrap());
        let coarse = scene.draw_with(&view, COARSE, MOST_POINTS).unwrap();
        assert!(drawing == coarse, "{name}");
        assert_eq!(drawing.paths().count(), detailed.paths().count(), "{name}");
        fewer += usize::from(points(&drawing) < points(&detailed));
    }
    assert!(fewer > 0);
}

/// At step 0 a path that vanishes takes a start, which no preview counts.
#[test]
fn a_last_path_that_vanishes_at_step_0_is_no_refusal() {
    let view = "(view 2 2 0 0 0 5 1 0 0 0 0 1 0 0 0 0 1 0 0 0 0 1)\n";
    let clipped = "(triangle 10 0 0 11 0 0 10 1 0)\n";
    let hidden = "(cube 1 #BFC0000000000000 #BFC0000000000000 #3FC0000000000000 #3FC0000000000000 #3FC0000000000000 #3FD0000000000000)
(triangle 0 0 0 #3FE0000000000000 0 0 0 #3FE0000000000000 0)\n";
    for (forms, count) in [(clipped, 0), (hidden, 9)] {
        let (view, scene) = forms::read(&(view.to_owned() + forms)).unwrap();
        let drawing = scene.draw(&view).unwrap();
        assert_eq!(drawing.paths().count(), count);
        assert_eq!(scene.preview(&view), Ok((points(&drawing), count)));
    }
}

#[test]
fn room_grows_and_changes_nothing() {
    let mut scene = Scene::new();
    scene.cube([-4.0, 0.0, 0.0], [4.0, 1.0, 3.0], 400);
    let fine = View { step: 0.25, ..VIEW };
    assert_eq!(scene.draw_with(&fine, 0.0, 4096), Err(Refused(13)));
    let drawing = scene.draw_with(&fine, 0.0, MOST_POINTS).unwrap();
    assert!(drawing.paths().count() > 400);
    assert_eq!(scene.draw_with(&fine, 0.0, 0), Err(Refused(13)));
    assert_eq!(Scene::new().draw(&VIEW).unwrap().paths().count(), 0);
}

#[test]
fn a_preview_has_the_counts_of_the_drawing() {
    for (name, yard, _) in examples() {
        let (view, scene) = forms::read(&yard).unwrap();
        let drawing = scene.draw(&view).unwrap();
        assert_eq!(
            scene.preview(&view),
            Ok((points(&drawing), drawing.paths().count())),
            "{name}"
        );
    }
    let (mut scene, fine) = (Scene::new(), View { step: 0.25, ..VIEW });
    scene.cube([-4.0, 0.0, 0.0], [4.0, 1.0, 3.0], 400);
    assert_eq!(scene.preview_with(&fine, 0.0, 4096), Err(Refused(13)));
    assert!(scene.preview_with(&fine, 0.0, MOST_POINTS).is_ok());
    assert_eq!(
        scene.preview_with(&VIEW, -1.0, MOST_POINTS),
        Err(Refused(8))
    );
}

#[test]
fn parts_and_threads_draw_what_one_draw_does() {
    for (name, yard, drawing) in examples() {
        let (view, scene) = forms::read(&yard).unwrap();
        for threads in [1, 2, 3] {
            let parts = scene.draw_parts(&view, FINE, MOST_POINTS, threads).unwrap();
            assert_eq!(parts.len(), scene.drawn().unwrap().len(), "{name}");
            let whole = Drawing::followed(&parts);
            assert!(whole == fine(&scene, &view).unwrap(), "{name}");
            assert!(forms::write(&whole) == drawing, "{name}");
            let threaded = scene.draw_threaded(&view, FINE, MOST_POINTS, threads);
            assert!(threaded.unwrap() == whole, "{name}");
        }
    }
    let (mut scene, fine) = (Scene::new(), View { step: 0.25, ..VIEW });
    scene.cube([-4.0, 0.0, 0.0], [4.0, 1.0, 3.0], 1);
    scene.cube([-4.0, 5.0, 0.0], [4.0, 6.0, 3.0], 400);
    let by_two = |most| scene.draw_parts(&fine, 0.0, most, 2);
    assert_eq!(by_two(4096), Err(Refused(13)));
    let whole = scene.draw_with(&fine, 0.0, MOST_POINTS).unwrap();
    assert!(Drawing::followed(&by_two(MOST_POINTS).unwrap()) == whole);
    assert_eq!(
        scene.draw_threaded(&VIEW, -1.0, MOST_POINTS, 2),
        Err(Refused(8))
    );
    let empty = Scene::new();
    assert_eq!(
        empty.draw_threaded(&VIEW, FINE, MOST_POINTS, 2),
        empty.draw(&VIEW)
    );
    assert_eq!(empty.draw_parts(&VIEW, FINE, MOST_POINTS, 2), Ok(vec![]));
}

/// Of the pipe's 164 points 114 are hidden by the bin, which lies behind the eye; by the true distance none.
#[test]
fn the_account_of_the_plinth() {
    for (name, by_bin) in [("plinth.yard", 114), ("plinth_true.yard", 0)] {
        let all = examples();
        let (_, yard, _) = all
            .iter()
            .find(|(path, _, _)| path.ends_with(name))
            .unwrap();
        let (view, scene) = forms::read(yard).unwrap();
        let (tree, drawn) = (scene.tree().unwrap(), scene.drawn().unwrap());
        let told = |number| {
            let lines = scene.entry_lines(&view, MOST_POINTS, number).unwrap();
            tree.fates(&view, lines.points()).unwrap()
        };
        let (pipe, bin) = (told(2), told(8));
        let hidden = pipe.iter().filter(|&&fate| fate == Fate::Hidden(drawn[8]));
        assert_eq!((pipe.len(), hidden.count()), (164, by_bin));
        let seen = pipe.iter().filter(|&&fate| fate == Fate::Visible).count();
        assert_eq!(seen, 114 - by_bin);
        assert!(bin.len() == 339 && bin.iter().all(|&fate| fate == Fate::Clipped));
        assert!(scene.entry_lines(&view, 8, 0) == Err(Refused(13)));
    }
}

#[test]
fn two_scenes_are_one() {
    let folder = Path::new(env!("CARGO_MANIFEST_DIR")).join("../../examples");
    let read = |name: &str| fs::read_to_string(folder.join(name)).unwrap();
    let (view, building) = forms::read(&read("merge/building.yard")).unwrap();
    let (_, plant) = forms::read(&read("merge/plant.yard")).unwrap();
    let both = building.merge(&plant).unwrap();
    assert_eq!(both.entries(), building.entries() + plant.entries());
    let drawn = |scene: &Scene| forms::write(&fine(scene, &view).unwrap());
    assert!(drawn(&both) == read("blower.drawing"));
    let empty = Scene::new();
    assert!(drawn(&empty.merge(&plant).unwrap()) == drawn(&plant));
    assert!(drawn(&plant.merge(&empty).unwrap()) == drawn(&plant));
    let mut wrong = Scene::new();
    wrong.sphere([0.0; 3], -1.0);
    assert_eq!(plant.merge(&wrong).unwrap_err(), Refused(5));
    let mut many = Scene::new();
    for _ in 0..600 {
        many.sphere([0.0; 3], 1.0);
    }
    assert_eq!(many.merge(&many).unwrap_err(), Refused(2));
}

#[test]
fn what_is_refused() {
    let mut scene = Scene::new();
    scene.sphere([0.0; 3], -1.0);
    assert_eq!(scene.draw(&VIEW), Err(Refused(5)));
    assert_eq!(scene.tree().unwrap_err(), Refused(5));
    assert_eq!(Refused(5).to_string(), "refused 5");
    let mut scene = Scene::new();
    scene.place(moved(0.0, 0.0, 0.0), Entry(7));
    assert_eq!(scene.draw(&VIEW), Err(Refused(4)));
    assert_eq!(
        Scene::new().draw(&View { step: -1.0, ..VIEW }),
        Err(Refused(8))
    );
    for text in ["", "(view 1 1)", "(view", "(cube 1 0 0 0 1 1 1)"] {
        assert_eq!(forms::read(text).unwrap_err(), Refused(1), "{text}");
    }
    let view = format!("(view 9 9 1{})\n", " 1".repeat(19));
    for form in [
        "(cube 1 0 0 0 1 1 1",
        "(cube x 0 0 0 1 1 1)",
        "(cone 1 +2)",
        "(cone 1 1000001)",
        "(cone 1 #7)",
        "(ball 1)",
        "(cone 1 2) )",
        "(sphere 0 0 0 1 (line 1 2))",
    ] {
        assert_eq!(
            forms::read(&(view.clone() + form)).unwrap_err(),
            Refused(1),
            "{form}"
        );
    }
    assert_eq!(
        forms::read(&(view.clone() + "(sphere -0 0 0 1 (line))\n"))
            .unwrap()
            .1
            .entries(),
        1
    );
    assert_eq!(
        forms::read(&(view + &"(cut 0 ".repeat(200))).unwrap_err(),
        Refused(4)
    );
}

#[test]
fn who_hides_what() {
    let mut scene = Scene::new();
    let wall = scene.cube([-4.0, 0.0, 0.0], [4.0, 1.0, 5.0], 1);
    let ball = scene.sphere([0.0; 3], 1.0);
    let ball = scene.place(moved(0.0, 5.0, 2.0), ball);
    let tree = scene.tree().unwrap();
    let (eye, behind, above) = (VIEW.eye, [0.0, 3.0, 2.0], [0.0, 5.0, 9.0]);
    assert_eq!(tree.why_hidden(eye, behind), Ok(Some(wall)));
    assert_eq!(tree.visible(eye, behind), Ok(false));
    assert_eq!(tree.why_hidden(eye, above), Ok(None));
    assert_eq!(
        tree.covered(eye, &[behind, above, [2e6, 0.0, 0.0]]),
        Ok(vec![Ok(true), Ok(false), Err(Refused(9))])
    );
    assert_eq!(tree.covered(eye, &[]), Ok(vec![]));
    assert_eq!(tree.first_met(eye, [0.0, 1.0, 0.0]), Ok(Some((wall, 20.0))));
    let (entry, far) = tree
        .first_met([0.0, 20.0, 2.0], [0.0, -1.0, 0.0])
        .unwrap()
        .unwrap();
    assert!(entry == ball && (far - 14.0).abs() < 1e-9);
    assert_eq!(tree.first_met(eye, [0.0, -1.0, 0.0]), Ok(None));
}

#[test]
fn every_solid_has_its_lines() {
    let lines = |add: &dyn Fn(&mut Scene)| {
        let mut scene = Scene::new();
        add(&mut scene);
        scene.draw(&VIEW).unwrap().paths().count()
    };
    let ball = |scene: &mut Scene| _ = scene.sphere([0.0; 3], 1.0);
    assert!(lines(&ball) >= 1);
    let triangle =
        |scene: &mut Scene| _ = scene.triangle([0.0; 3], [1.0, 0.0, 0.0], [0.0, 0.0, 1.0]);
    assert_eq!(lines(&triangle), 1);
    let tube = |scene: &mut Scene| _ = scene.cylinder(1.0, 0.0, 2.0, 8, true);
    assert!(lines(&tube) >= 3);
    let cone = |scene: &mut Scene| _ = scene.cone(1.0, 2.0, 8, false);
    assert!(lines(&cone) >= 3);
    let ring = |scene: &mut Scene| {
        let ball = scene.sphere([0.0; 3], 1.0);
        scene.line(ball, &[[-2.0, 0.0, 0.0], [-2.0, 0.0, 1.0]]);
        scene.line(ball, &[[2.0, 0.0, 0.0], [2.0, 0.0, 1.0]]);
    };
    assert_eq!(lines(&ring), 2);
    let cut = |scene: &mut Scene| {
        let (block, bay) = (
            scene.cube([-2.0, 0.0, 0.0], [2.0, 2.0, 2.0], 1),
            scene.cube([-1.0, -1.0, 0.5], [1.0, 1.0, 1.5], 1),
        );
        scene.cut(DIFFERENCE, block, bay);
    };
    assert!(lines(&cut) >= 6);
}
