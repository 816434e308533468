//! Translations and register accesses through the proved library and through plain Rust, over the same harts, images and accesses.
//!
//! | module | what it holds |
//! |---|---|
//! | [`timing`] | how long each side takes: the same for both parts |
//! | [`instructions`] | how many instructions an access takes, by callgrind |
//! | [`plain`] | the translation as plain Rust, written for speed, and in [`plain::access`] the register access |
//! | [`call`] | the C calls on prepared words, without the wrapper |
//! | [`cases`] | translations: harts, images and accesses; walks of 0, 3 and 15 reads, faults, a refusal; deeper walks, of up to 35 reads |
//! | [`sides`] | translations: what is timed, and that all sides answer alike |
//! | [`registers`] | register accesses: their cases, and their sides |

#![deny(missing_docs)]
#![deny(unsafe_code)]

pub mod call;
pub mod cases;
pub mod instructions;
pub mod plain;
pub mod registers;
pub mod sides;
pub mod timing;
