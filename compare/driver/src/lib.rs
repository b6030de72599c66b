//! The driver: reads scripts and prints traces, with the Rust for an engine.

pub mod bench;
pub mod check;
pub mod context;
pub mod coverage;
pub mod engine;
pub mod generate;
pub mod history;
pub mod judge;
pub mod kinds;
pub mod link;
pub mod options;
pub mod port;
pub mod program;
pub mod random;
pub mod script;
pub mod session;
pub mod shrink;
pub mod source;
pub mod trace;
