//! larnt's modules as far as the oracle needs them, patched by tools/oracle/build.

pub mod axis;
pub mod bounding_box;
pub mod common;
pub mod cone;
pub mod csg;
pub mod cube;
pub mod cylinder;
pub mod filter;
pub mod hit;
#[cfg(limited)]
pub mod limits;
pub mod matrix;
pub mod path;
pub mod ray;
pub mod scene;
pub mod shape;
pub mod sphere;
pub mod tree;
pub mod triangle;
pub mod util;
pub mod vector;
