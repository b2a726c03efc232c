//! The questions of the layout test: how many the port asks, how many the reference, and on which inputs that grows.

mod change;
#[cfg(feature = "library")]
pub mod figures;
pub mod nodes;
pub mod picture;
pub mod plain;
pub mod port;
pub mod shapes;
pub mod worst;
pub mod worst_found;

#[cfg(test)]
mod tests;
