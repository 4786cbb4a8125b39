//! A second reckoning of the shared-office access monitor, written from the
//! papers alone. It follows the sections "Rulebook", "History", "Levels",
//! "Four rules" and "Requests and calls" word by word, and Points 1 (public
//! folders), 2 (a step alters the folder), 4 (levels held ready), 5 (rank or
//! compartment) and 6 (an order for the day's jobs) of the later requests, with
//! sets of requests and plain loops, so that a reader can check it by hand. The
//! module `planners` is for the tests and not from the papers.

pub mod answers;
pub mod book;
pub mod buffers;
pub mod calls;
pub mod command;
pub mod fields;
pub mod generator;
pub mod history;
pub mod level;
pub mod levels;
pub mod marked;
pub mod numbers;
pub mod orders;
pub mod places;
pub mod plan;
pub mod planners;
pub mod play;
pub mod random;
pub mod request;
pub mod rules;
pub mod state;
pub mod tables;

pub use book::{load, rest, Loaded};
pub use buffers::Buffers;
pub use calls::{blank, judge, put, run, standing, Ran, Standing};
pub use level::{Compared, Level};
pub use plan::{plan, Job, Plan};
pub use request::Request;
pub use state::State;
pub use tables::{given, Tables};
