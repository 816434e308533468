//! Compares two programs that run replay scripts, byte by byte, on generated scripts.
//!
//! | module | what it does |
//! |---|---|
//! | [`rng`] | random numbers from a seed |
//! | [`words`] | instruction words: those that an event can have, and others |
//! | [`scribe`] | a script under construction, performed by the second program's library as it grows |
//! | [`tables`] | page tables of both stages, written by `put` lines |
//! | [`scenes`] | the scenes that a script is made of |
//! | [`generate`] | a whole script from a seed |
//! | [`fuzz`] | damaged scripts and random bytes from a seed |
//! | [`reasons`] | the kinds of reasons that programs give |
//! | [`word_lines`] | the kinds of what programs say about words |
//! | [`coverage`] | what the scripts and their answers reached, and what they must reach |
//! | [`program`] | a program under comparison: a process, or a function in this process |
//! | [`shrink`] | the smallest script that still shows a difference |
//! | [`comparing`] | the comparison itself |
//! | [`mutants`] | a program's source with one small change, for tests |

#![forbid(unsafe_code)]
#![warn(missing_docs)]

pub mod comparing;
pub mod coverage;
pub mod fuzz;
pub mod generate;
pub mod mutants;
pub mod program;
pub mod reasons;
pub mod rng;
pub mod scenes;
pub mod scribe;
pub mod shrink;
pub mod tables;
pub mod word_lines;
pub mod words;
