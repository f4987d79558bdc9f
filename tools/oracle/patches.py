"""How larnt's published sources become the two crates of the oracle.

Each step names a file, a short text that must stand in it, and how often. A count that
differs ends the build. No step touches a formula: what goes is what needs other crates
(bon, rand, image); what comes is visibility, the matrix and the threshold handed in, and calls of `limits`.
"""

# The sources that are meant, by SHA-256: larnt at commit c871b00f8c.
SOURCES = {
    "bounding_box.rs": "2e9eaac36b8ab8d7c5b445a8fc8461b9d9de296d34b19ffd6f7fea653d439bc4",
    "cone.rs": "cc5cd226abd97c29584b3854564ec800a9d1d8dfa0a9b2e033494646a5aaf353",
    "csg.rs": "ff71caaa0921d417221eb943cb89d7d626dae0f439b81f7505754e62cb4de786",
    "cube.rs": "1d17ecfd1e2cc14c412fde9a5d8981711f22b042ecea9f021d58a80e2e374032",
    "cylinder.rs": "e22431b848e333f12969e219aabc60737eef38e707511da30fd9339a4b54d170",
    "filter.rs": "436a210a0814bfd4886ccc20a83b73966b574e0e6dc27f31448078300fb3d61d",
    "hit.rs": "bdc7580d81053e3a349a624840a3eeb0ecdc619cf6db116a130893e14eea76d1",
    "matrix.rs": "d1c71de6cb5bd05cfeab059deb450950baad361a8069d053fd51c9788c9db20c",
    "path.rs": "6ac3a0e441caf800017db55760061b2646d188861c71359144e03dea2fda1a42",
    "ray.rs": "692cadfac031036c3b2da26d993fccfb6157272365ec2c5ca32551c033080ec8",
    "scene.rs": "b4045b64e749c3891ebae9835da75bd74c96332b04015bdd6e3d63cbfc7a6095",
    "shape.rs": "20b008797836aa321caa5f4fa5d032a1bbf4e805b0d5d041319959a70fe1c6d3",
    "sphere.rs": "de5ed6fc1da585b646cfeeff7e3bc220aec6680ccd3409559498e6ada08ed4f2",
    "tree.rs": "3ace9fb9f1dd7923236723bfd307e6bb0991dbf48dbe68da65e4f1d6bd8ddd37",
    "triangle.rs": "fee4c7dba81277aa672b96e6ee0c02059482b269b34e8e237d34a5eb0a80a16c",
    "util.rs": "c0a4092cbbfaf66c3836e51abe35ccd62ecc661e668aa35836a394614cc371be",
    "vector.rs": "e1299558f524d3976f8d6d0dd947918190109dd8f73b626db38b7fa40edf01e7",
}


class Mismatch(Exception):
    pass


def swap(file, find, put, count=1):
    """Replace every occurrence of `find`; there must be `count` of them."""

    def step(texts):
        found = texts[file].count(find)
        if found != count:
            raise Mismatch(f"{file}: {found} matches, {count} expected: {find!r}")
        texts[file] = texts[file].replace(find, put)

    return step


def drop(file, find, count=1):
    return swap(file, find, "", count)


def before(file, find, call, count=1):
    """Put `call` in front of `find`."""
    return swap(file, find, call + find, count)


def after(file, find, call, count=1):
    """Put `call` behind `find`."""
    return swap(file, find, find + call, count)


def span(text, file, start, end):
    """The one place where `start` stands, up to the next `end` after it."""
    found = text.count(start)
    if found != 1:
        raise Mismatch(f"{file}: {found} matches, 1 expected: {start!r}")
    a = text.index(start)
    b = text.find(end, a + len(start))
    if b < 0:
        raise Mismatch(f"{file}: nothing after {start!r} matches {end!r}")
    return a, b


def cut(file, start, end, put=""):
    """Replace what stands from `start` up to `end`."""

    def step(texts):
        a, b = span(texts[file], file, start, end)
        texts[file] = texts[file][:a] + put + texts[file][b:]

    return step


def keep(file, start, end):
    """Keep only what stands from `start` up to `end`."""

    def step(texts):
        a, b = span(texts[file], file, start, end)
        texts[file] = texts[file][a:b]

    return step


def copy(file, start, end, head, tail):
    """Repeat what stands from `start` up to `end` as a function of its own."""

    def step(texts):
        a, b = span(texts[file], file, start, end)
        texts[file] += head + texts[file][a:b] + tail

    return step


# What both builds need.
COMPILE = [
    # vector: no random vectors
    drop("vector.rs", "use rand::Rng;\n"),
    cut("vector.rs", "    /// Returns a random unit vector", "    /// Returns the length (magnitude)"),
    # util: only `radians`, for the striped textures
    keep("util.rs", "pub fn radians", "/// Converts radians"),
    # sphere: no builders, no random textures
    drop("sphere.rs", "use bon::{Builder, bon};\n"),
    drop("sphere.rs", "use rand::{Rng, SeedableRng, rngs::SmallRng};\n"),
    cut("sphere.rs", "    /// Random rotated equators (great circles) (default", "}\n\n#[bon]"),
    cut("sphere.rs", "#[bon]\n", "/// A sphere defined by"),
    swap("sphere.rs", ", Builder)]", ")]"),
    drop("sphere.rs", "    #[builder(start_fn)]\n", 2),
    drop("sphere.rs", "    #[builder(default)]\n"),
    cut("sphere.rs", "SphereTexture::RandomEquators {", "        }\n    }\n}\n"),
    cut("sphere.rs", "    /// Random rotated equators (great circles)\n", "/// Converts latitude", "}\n\n"),
    # cylinder
    drop("cylinder.rs", "use bon::{Builder, bon, builder};\n"),
    drop("cylinder.rs", "#[bon]\n"),
    drop("cylinder.rs", "    #[builder]\n"),
    drop("cylinder.rs", "#[builder(default = 36)] "),
    swap("cylinder.rs", ", Builder)]", ")]"),
    drop("cylinder.rs", "    #[builder(start_fn)]\n", 3),
    drop("cylinder.rs", "    #[builder(default)]\n"),
    drop("cylinder.rs", "\n#[builder]", 1),
    drop("cylinder.rs", "#[builder(start_fn)] ", 3),
    drop("cylinder.rs", "#[builder(default)] "),
    swap(
        "cylinder.rs",
        "Cylinder::builder(radius, 0.0, z).texture(texture).build()",
        "Cylinder { radius, z0: 0.0, z1: z, texture }",
    ),
    # cone
    drop("cone.rs", "use bon::{Builder, bon, builder};\n"),
    drop("cone.rs", "#[bon]\n"),
    drop("cone.rs", "    #[builder]\n"),
    drop("cone.rs", "#[builder(default = 8)] "),
    swap("cone.rs", ", Builder)]", ")]"),
    drop("cone.rs", "    #[builder(start_fn)]\n", 2),
    drop("cone.rs", "    #[builder(default)]\n"),
    drop("cone.rs", "\n#[builder]"),
    drop("cone.rs", "#[builder(start_fn)] ", 3),
    drop("cone.rs", "#[builder(default)] "),
    swap(
        "cone.rs",
        "Cone::builder(radius, z).texture(texture).build()",
        "Cone { radius, height: z, texture }",
    ),
    # cube
    drop("cube.rs", "use bon::{Builder, bon};\n"),
    drop("cube.rs", "#[bon]\n"),
    drop("cube.rs", "    #[builder]\n"),
    drop("cube.rs", "#[builder(default = 8)] "),
    swap("cube.rs", ", Builder)]", ")]"),
    drop("cube.rs", "    #[builder(start_fn)]\n", 2),
    drop("cube.rs", "    #[builder(default)]\n"),
    # path: the image code is behind a feature that is never on
    drop("path.rs", "use bon::bon;\n"),
    drop("path.rs", "#[bon]\n"),
    # scene: the clip matrix is handed in instead of made, and the threshold instead of 1e-6
    drop("scene.rs", "use bon::builder;\n"),
    drop("scene.rs", "#[builder]\n"),
    drop("scene.rs", "#[builder(start_fn)] "),
    cut(
        "scene.rs",
        "    #[builder(default = Vector::new(0.0, 0.0, 0.0))] center",
        ") -> Paths<Vector> {",
        "    matrix: Matrix,\n    up: Vector,\n    width: f64,\n    height: f64,\n    step: f64,\n    threshold: f64,\n",
    ),
    swap("scene.rs", "paths.simplify(1e-6)", "paths.simplify(threshold)"),
    cut("scene.rs", "    let aspect = ", "    let viewport_mat"),
    # tree: a stable sort
    swap("tree.rs", "sort_unstable_by", "sort_by"),
    # what callers read or call directly
    swap("tree.rs", "\nstruct BvhNode {", "\npub struct BvhNode {"),
    swap("tree.rs", "    nodes: Vec<BvhNode>,\n    shapes: Vec<T>,", "    pub nodes: Vec<BvhNode>,\n    shapes: Vec<T>,"),
    swap("path.rs", "    buffer: Vec<T>,\n    offsets: Vec<usize>,", "    pub buffer: Vec<T>,\n    pub offsets: Vec<usize>,"),
    swap("path.rs", "\nfn path_chop_adaptive(", "\npub fn path_chop_adaptive("),
    swap("path.rs", "\nfn path_simplify(", "\npub fn path_simplify("),
    swap("cube.rs", "    fn paths_striped", "    pub fn paths_striped"),
    swap("cylinder.rs", "    fn paths_striped", "    pub fn paths_striped"),
    swap("cone.rs", "    fn paths_striped", "    pub fn paths_striped"),
]

# The refusals 9 and 11 to 13, for the limited build alone.
HOOKS = [
    # 9: points handed to chop and simplify, and put to the eye test
    after("path.rs", "pub fn chop_adaptive(&self, args: &RenderArgs) -> Self {\n", "        crate::limits::judge(&self.buffer);\n"),
    after("path.rs", "pub fn simplify(&self, threshold: f64) -> Self {\n", "        crate::limits::judge(&self.buffer);\n"),
    before("scene.rs", "            let v = eye.sub(point);", "            crate::limits::put(point);\n"),
    # nested halvings of one segment: document 02 (ix) allows no more than 37
    before("path.rs", "        let mid = divider(a, b);", "        crate::limits::halve();\n"),
    after("path.rs", "        recursive_subdivide((mid, b), divider, terminator, collector);\n", "        crate::limits::halved();\n"),
    # 11: restarts of a cut for one ray put from outside
    before("csg.rs", "        let h1 = ", "        let restarts = crate::limits::restarts();\n"),
    before("csg.rs", "        self.intersect(Ray::new(", "        crate::limits::restart(restarts);\n"),
    # 12: waiting places of the walk
    before("tree.rs", "            stack[stack_ptr] = far;", "            crate::limits::wait(stack_ptr);\n"),
    # 13: nodes and shapes of the tree
    before("tree.rs", "nodes.push(BvhNode::empty());", "crate::limits::node(nodes.len());\n        ", 3),
    before("tree.rs", "        let mut prims: Vec<", "        crate::limits::order(len);\n"),
    # 13: points and starts of paths, each push
    before("path.rs", "        self.offsets.push(self.buffer.len());", "        crate::limits::start(self.offsets.len());\n"),
    before("path.rs", "        self.buffer.push(v);", "        crate::limits::point(self.buffer.len());\n"),
    swap("path.rs", "        self.buffer.extend_from_slice(slice);", "        for v in slice {\n            self.push(*v);\n        }"),
    swap("path.rs", "        self.buffer.extend(iter);", "        for v in iter {\n            self.push(v);\n        }"),
    before("path.rs", "        self.offsets\n            .extend(other", "        crate::limits::append(self.buffer.len() + other.buffer.len(), self.offsets.len() + other.offsets.len());\n"),
    # 13: which slice a vector is pushed to, in a draw
    before("scene.rs", "        paths.extend(shape.paths(&args));", "        crate::limits::collect(paths.total_len(), paths.len());\n"),
    before("scene.rs", "        paths = paths.chop_adaptive(&args);", "        crate::limits::push_to(crate::limits::Stage::Chopped);\n"),
    before("scene.rs", "    paths = paths.filter(&filter);", "    crate::limits::push_to(if step > 0.0 { crate::limits::Stage::Work } else { crate::limits::Stage::Out });\n"),
    before("scene.rs", "        paths = paths.simplify(threshold);", "        crate::limits::push_to(crate::limits::Stage::Out);\n"),
    # 13: the same in a cut, whose lines are collected in the next slice of work
    before("csg.rs", "        let mut p = self.a.paths(args);", "        crate::limits::collect(0, 0);\n"),
    before("csg.rs", "        p.extend(self.b.paths(args));", "        crate::limits::collect(p.total_len(), p.len());\n"),
    before("csg.rs", "        p = p.chop_adaptive(args);", "        crate::limits::push_to(crate::limits::Stage::Chopped);\n"),
    before("csg.rs", "        p = p.filter(self);", "        crate::limits::push_to(crate::limits::Stage::Work);\n"),
    # runs in which larnt would panic normalising `up` are left out
    swap("shape.rs", "self.inverse.mul_direction(args.up)", "crate::limits::upright(&self.inverse, args.up)"),
]

# Parts of `render` that are also called alone, repeated as functions.
APART = [
    copy(
        "scene.rs",
        "    let viewport_mat = ",
        "    let mut paths",
        "\n/// What `render` hands to the shapes.\npub fn render_args(\n    eye: Vector,\n    matrix: Matrix,\n    up: Vector,\n    width: f64,\n    height: f64,\n    step: f64,\n) -> RenderArgs {\n",
        "    args\n}\n",
    ),
    copy(
        "scene.rs",
        "let visible = |eye: Vector, point: Vector| -> bool {\n",
        "        ClipFilter::new",
        "\n/// The eye test of `render`.\npub fn visible<T: Shape>(tree: &Tree<T>, eye: Vector, point: Vector) -> bool {\n    ",
        "        visible(eye, point)\n}\n",
    ),
]

BUILDS = {
    "plain": COMPILE + APART,
    "limited": COMPILE + HOOKS + APART,
}
