//! An interpreter of display files for a raster display of 512 by 512 pixels.
//!
//! It serves as a yardstick: it is written from the definition of the display
//! processor alone, so that another implementation can be compared with it.

mod answer;
pub mod cases;
mod characters;
pub mod fault;
mod file;
pub mod files;
mod image;
mod machine;
pub mod parts;
pub mod picture;
pub mod plot;
pub mod replay;
mod run;
mod stores;
mod unit;
pub mod vector;
mod word;

pub use answer::{Answer, Door, Fault};
pub use characters::{BUILT_IN, SET_BYTES};
pub use file::check;
pub use image::{clear, read_pixel, IMAGE_BYTES};
pub use machine::{fresh, start, Machine, NO_MODE};
pub use run::{run, step, Outcome, BUDGET_LIMIT};
pub use stores::stores;
pub use unit::{Pixel, Place, Position, Unit};
