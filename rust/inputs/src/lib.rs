//! Random tables, logs, texts and policies for the tests and the benchmark.
//!
//! Everything is made from a seed, so that a failure can be had again. Good inputs are good by construction; damaged
//! ones are close to good ones, or not.

mod cases;
mod damage;
mod logs;
mod policies;
mod policy_texts;
mod random;
mod recipe;
mod shrink;
mod tables;
mod texts;

pub use cases::Case;
pub use damage::{boundary_word, damage, noise};
pub use logs::{counting_log, damaged_log, decimal_log, extension, full_log, good_log, random_log, FULL_LOG_TABLE};
pub use policies::{long_policy, policy};
pub use policy_texts::{
    damage_policy_text, deep_policy_texts, noise_policy_text, slipping_policy_text, spelled_policy, DeepText,
    PolicySpelling, POLICY_TEXT_BYTES,
};
pub use random::Random;
pub use recipe::Recipe;
pub use shrink::shrink;
pub use tables::{damaged_table, good_table, small_table};
pub use texts::{damage_text, noise_text, slipping_text, spelled_text, Spelling, TEXT_BYTES};
