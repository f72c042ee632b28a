//! Kribbelsteen for Rust: reads Radiance scene texts into tables that the caller lends, walks from a panel to its finish or to every
//! material that it may show, tells whether the order of two primitives mattered, compares two saves of a scene, joins two hands' edits of
//! one, writes a scene out tidy, moves its glass, sorts its statements, and works out ray hits, Fresnel values and panes of glass. The work
//! is done by a library that is proved to meet its contracts; this package only gives its numbers their Rust forms.
//!
//! ```
//! use kribbelsteen::{Mode, Scene, PAIR, RECORD};
//!
//! let text = b"void plastic wall 0 0 5 .5 .5 .5 0 0\nwall sphere lamp 0 0 4 0 0 0 1\n";
//! let (mut records, mut reals, mut pairs) = ([0; RECORD * 8], [0.0; 32], [0; PAIR * 8]);
//! let scene = Scene::read(Mode::New, text, &mut records, &mut reals, &mut pairs)?;
//! assert_eq!(scene.counts().primitives, 2);
//! let finish = scene.finish(2)?;
//! assert_eq!(scene.name(finish.material.unwrap())?, b"wall");
//! # Ok::<(), Box<dyn std::error::Error>>(())
//! ```
//!
//! A scene that is not well-formed is refused with a reason and a place:
//!
//! ```
//! use kribbelsteen::{Mode, Reason, Scene};
//!
//! let text = b"a sphere s 0 0 4 0 0 0 1";
//! let refusal = Scene::read(Mode::New, text, &mut [0; 11], &mut [0.0; 4], &mut [0; 2]).unwrap_err();
//! assert_eq!(refusal.reason, Reason::NoModifier);
//! assert_eq!(refusal.to_string(), "modifier not defined above (reason 7), at byte 0");
//! ```
#![deny(missing_docs)]

mod joining;
mod polygons;
mod questions;
pub mod raw;
mod rays;
mod reading;
mod saves;
mod types;
mod words;
mod writing;

pub use joining::{check_join, join, Edits, JoinText, Joined, Unjoined};
pub use polygons::{polygon, polygon_above, polygon_in_table, polygon_in_table_above, PolygonRefusal};
pub use questions::{finish, mattered, name, shown, Finish, Order, Question};
pub use rays::{fresnel, pane_factors, ring, ring_above, root, sphere, sphere_above, transmissivity};
pub use rays::{Factors, Ray, Reflection, Ring, Sphere, Step, LEAST};
pub use reading::{read, read_indexed, Counts, Indexed, Mode, Pair, Primitive, Reason, Refusal, Scene};
pub use saves::{compare, read_both, Line, Lines, SaveRefusal, Saves, Side, State};
pub use types::Type;
pub use words::{next_word, words, Word, Words};
pub use writing::{move_glass, sort, write, Direction, Unwritten};

/// The longest text that is read, in bytes.
pub const MOST_BYTES: usize = 65_536;
/// The longest word that is read, in bytes.
pub const LONGEST_WORD: usize = 64;
/// The most primitives of a scene.
pub const MOST_PRIMITIVES: usize = 1_024;
/// The most reals of a scene.
pub const MOST_REALS: usize = 4_096;
/// How many numbers of a lent table a primitive takes.
pub const RECORD: usize = 11;
/// How many numbers of a lent pair table a primitive takes.
pub const PAIR: usize = 2;
/// How many entries an index of names has to have.
pub const INDEX: usize = 2_048;
