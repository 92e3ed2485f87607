//! Comparisons of the library with the reference on many random inputs.
//!
//! Seeds are fixed. A disagreement is shrunk before it is printed. Each test also counts the answers it has seen, so
//! that it cannot pass by trying nothing but one kind of input.

mod comparison;
mod features;
mod logs;
mod policies;
mod policy_texts;
mod reductions;
mod rooms;
mod texts;
mod tuples;
