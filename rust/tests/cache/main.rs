// SPDX-License-Identifier: MIT
//! Each call on its happy path, the refusals that a caller can bring about, and what they leave.
//! What is expected follows from RFCs and the headers.

mod common;
mod histories;
mod lookups;
mod refusals;
mod replies;
mod rows;
mod stores;
mod threads;

/// Behind the comment that the example begins with.
#[test]
fn the_readme_has_the_example() {
    let (_, example) = include_str!("../../examples/answer.rs").split_once("\nuse ").unwrap();
    assert!(include_str!("../../README.md").contains(example));
}
