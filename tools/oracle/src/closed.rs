// Kinds 8 and 9 (document 02, iii): a closed cylinder and a closed cone, a second implementation of that paragraph.
// Walls, boxes and what a cylinder contains are larnt's; the discs and what a cone contains are not. Included in
// `engine.rs`.

pub struct ClosedCylinder {
    pub wall: Cylinder,
    pub lines: Handed,
}

pub struct ClosedCone {
    pub wall: Cone,
    pub lines: Handed,
}

/// Where a ray meets a disc at height z: at t = (z - o.z) / d.z if d.z isn't 0, t > 1e-6 and the computed
/// x^2 + y^2 there is at most radius^2.
fn disc(radius: f64, z: f64, ray: Ray) -> Option<f64> {
    if ray.direction.z == 0.0 {
        return None;
    }
    let t = (z - ray.origin.z) / ray.direction.z;
    let there = ray.position(t);
    let within = there.x * there.x + there.y * there.y <= radius * radius;
    (t > 1e-6 && within).then_some(t)
}

/// The nearest of wall and discs; no hit where that isn't below INF.
fn closed_hit(wall: Hit, discs: &[Option<f64>]) -> Hit {
    let hits = discs.iter().copied().flatten().chain(wall.ok.then_some(wall.t));
    match hits.reduce(f64::min) {
        Some(t) if t < INF => Hit::new(t),
        _ => Hit::no_hit(),
    }
}

impl Shape for ClosedCylinder {
    fn bounding_box(&self) -> BBox {
        self.wall.bounding_box()
    }

    fn contains(&self, v: Vector, f: f64) -> bool {
        self.wall.contains(v, f)
    }

    fn intersect(&self, r: Ray) -> Hit {
        let Cylinder { radius, z0, z1, .. } = self.wall;
        closed_hit(self.wall.intersect(r), &[disc(radius, z0, r), disc(radius, z1, r)])
    }

    fn paths(&self, _args: &RenderArgs) -> Paths<Vector> {
        handed_paths(&self.lines)
    }
}

impl Shape for ClosedCone {
    fn bounding_box(&self) -> BBox {
        self.wall.bounding_box()
    }

    /// -f <= z <= height + f, and the length of (x, y) is at most radius * (height - z) / height + f.
    fn contains(&self, v: Vector, f: f64) -> bool {
        let Cone { radius, height, .. } = self.wall;
        let across = Vector::new(v.x, v.y, 0.0).length();
        -f <= v.z && v.z <= height + f && across <= radius * (height - v.z) / height + f
    }

    fn intersect(&self, r: Ray) -> Hit {
        closed_hit(self.wall.intersect(r), &[disc(self.wall.radius, 0.0, r)])
    }

    fn paths(&self, _args: &RenderArgs) -> Paths<Vector> {
        handed_paths(&self.lines)
    }
}
