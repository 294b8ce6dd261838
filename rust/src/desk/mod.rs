//! The parts of the desk's program.
pub mod args;
pub mod bar;
pub mod check;
pub mod excerpt;
pub mod explain;
pub mod facts;
pub mod json;
pub mod named;
pub mod names;
pub mod paint;
pub mod question;
pub mod theory;
