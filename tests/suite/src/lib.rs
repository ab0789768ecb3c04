//! The proved operations as the tests and the benchmark call them.
pub mod archive;
pub mod bench;
pub mod books;
pub mod command;
pub mod input;
pub mod lists;
pub mod not_read;
pub mod operations;
pub mod program;
pub mod script;
pub mod stores;
pub mod texts;
pub mod ticks;
