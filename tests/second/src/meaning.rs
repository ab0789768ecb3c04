//! What the answers mean, checked on a model by exploration.
//!
//! Nothing here uses the rank table, the search behind Word or the walk
//! behind Run. Each check answers with what is wrong, if anything is.

mod answers;
mod bisimulations;
mod books;
mod interference;
mod moves;
mod pages;
mod ranks;
mod rolls;
mod runs;
mod sequences;

pub use bisimulations::{greatest_bisimulation, is_bisimulation};
pub use bisimulations::{greatest_weak_bisimulation, is_weak_bisimulation};
pub use books::{book_holds, first_bad_entry, plays_hold, Plays};
pub use interference::{Deterministic, Interference};
pub use moves::moves;
pub use pages::page_holds;
pub use ranks::{ranks_hold, verdict_of, Alike};
pub use rolls::roll_holds;
pub use runs::{distances_hold, run_holds};
pub use sequences::{deterministic, ends, first_silent_step, possible, reachable, thin};

/// The result of a check: in order, or what is wrong.
pub type Check = Result<(), String>;

fn demand(holds: bool, wrong: impl Fn() -> String) -> Check {
    if holds {
        Ok(())
    } else {
        Err(wrong())
    }
}
