//! The axis a node is split on; larnt's own file is not supplied.

#[derive(Debug, Clone, Copy, PartialEq, Eq)]
pub enum Axis {
    X,
    Y,
    Z,
    None,
}
