//! The proved mapper beside two written in Rust: what they answer is compared, and how long they take. The
//! programs are `differential`, `bit_places`, `walks`, `touched`, `benchmark`, `pair`, `digest`, `tree_check`,
//! `recover_time`, `waiting`, `longest`, `fill`, `spread` and `stacks`; `tests/` holds all three mappers to
//! the documents' examples.
pub mod allowed;
pub mod any_calls;
pub mod arguments;
#[cfg(before)]
pub mod before;
pub mod calls;
pub mod carried;
pub mod cuts;
pub mod drive;
pub mod drives;
pub mod engine;
pub mod held;
pub mod inplace;
pub mod line;
pub mod lines;
pub mod met;
pub mod painted;
pub mod plain;
pub mod plot;
pub mod proved;
pub mod random;
pub mod recoveries;
pub mod states;
pub mod tree;
pub mod tree_damage;
pub mod volume;
pub mod waits;
pub mod watched;
pub mod workload;
pub mod wrong;
pub mod wrong_cuts;

/// All three mappers, the proved one first.
pub const ENGINES: [engine::Engine; 3] = [proved::PROVED, plain::PLAIN, inplace::IN_PLACE];
