//! Threshtide and ciplink driven with the same calls on a fake clock, and compared after every one.
//!
//! A [`Call`] is a call of the C interface; a [`Side`] is one of the two that are compared; a [`Run`] is a list of
//! calls that begins with a setup. [`Runner`] makes runs that aim at the rules' edges, compares every answer and
//! every field of the state, and shrinks a run that shows a difference.

// the copies of ciplink's files name this crate, here and in `plants`
extern crate self as compare;

pub mod bytes;
mod call;
mod generate;
mod lane;
mod record;
mod rng;
mod run;
mod script;
mod seen;
mod show;
mod shrink;

// the safe crate's own files, for a build without the library
#[path = "../../threshtide/src/block.rs"]
pub mod block;
#[path = "../../threshtide/src/places.rs"]
#[rustfmt::skip]
pub mod places;
#[path = "../../threshtide/src/words.rs"]
#[allow(dead_code)]
mod words;

#[cfg(feature = "library")]
mod layout;
#[cfg(feature = "library")]
mod library;

pub use call::*;
pub use generate::Generator;
#[cfg(feature = "library")]
pub use layout::plant_tested;
#[cfg(feature = "library")]
pub use library::Library;
pub use record::record;
pub use run::{Difference, Found, Make, Run, Runner, Tally, answers, replay};
pub use seen::{AssemblySeen, ConnSeen, Seen, Side, UploadSeen};
pub use show::{grouped, print_line, show_run};
pub use shrink::shrink;

/// ciplink as it is: compiled from its own text.
pub mod ciplink {
    include!(concat!(env!("OUT_DIR"), "/copies.rs"));
}
