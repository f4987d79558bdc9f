//! The two constants that document 01 fixes; larnt's own file is not supplied.

pub const EPS: f64 = 1e-9;
pub const INF: f64 = 1e9;
