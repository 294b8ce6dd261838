//! The tariff proof checker for Rust programs.
//!
//! A tariff is three texts: a theory (Horn rules over terms), goals, and a proof that shows the goals. [`Checker::check`] takes them as bytes
//! and answers with a [`Report`] or with the first [`Refusal`]. The answer is that of a static library whose every function is proved; this
//! crate passes it on, and reads the facts that were recorded. docs/USING.md says what the proofs cover, and what they do not.
//!
//! ```
//! use tariff::Checker;
//!
//! let theory = b"(sort Pass) (ctor first () Pass) (ctor renew (Pass) Pass) (pred Child (Pass))
//!     (rule c0 () (Child first)) (rule c1 ((Child ?p)) (Child (renew ?p)))";
//! let goals = b"(var x Pass) (goal everybody (Child x))";
//! let proof = b"(var y Pass) (step 0 c0 ()) (hyp 1 (Child y)) (step 2 c1 (1))
//!     (induct 3 x (Child x) ((0) (2 y))) (result everybody 3)";
//!
//! let mut checker = Checker::new();
//! match checker.check(theory, goals, proof) {
//!     Ok(report) => println!("{report}"),
//!     Err(refusal) => println!("{refusal}"),
//! }
//!
//! let judgments: Vec<String> = checker.facts().map(|fact| fact.judgment().to_string()).collect();
//! assert_eq!(judgments, ["(Child first)", "(Child y)", "(Child (renew y))", "(Child x)"]);
//! ```
//!
//! A check takes up to [`tables::STACK`] bytes of stack. The main thread has them as a rule, a thread that Rust starts has not: call it through
//! [`with_stack`] there, or start the thread with as much.
#![deny(unsafe_code)]
#![warn(missing_docs)]

mod answer;
#[cfg(feature = "library")]
#[allow(unsafe_code)]
mod bindings;
#[cfg(feature = "library")]
mod checker;
#[cfg(feature = "library")]
mod facts;
pub mod forms;
mod originals;
pub mod places;
#[cfg(feature = "library")]
mod printing;
pub mod questions;
mod questions_list;
mod refusal;
pub mod tables;

pub use answer::{Answer, Report, Verdict, line};
#[cfg(feature = "library")]
pub use bindings::check_lent;
#[cfg(feature = "library")]
pub use checker::{Checker, with_stack};
#[cfg(feature = "library")]
pub use facts::{Fact, Goal, Head, Rule, Term, Variable};
pub use refusal::{Refusal, Text};

/// The examples of docs/USING.md run as tests.
#[cfg(all(doctest, feature = "library"))]
#[doc = include_str!("../../docs/USING.md")]
struct Using;
