//! The tests of the definition, one module for each of its parts.

mod answers;
mod cases;
mod characters;
mod drift;
mod edges;
mod files;
mod layouts;
mod manuals;
mod program;
mod readings;
mod runs;
mod support;
