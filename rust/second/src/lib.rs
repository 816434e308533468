//! The independent second program: the model of document 01 with change requests 2026-01 to 2026-05 and 2026-07 written a
//! second time, from the papers alone, so that the two programs can be compared byte by byte.
//!
//! One module for each subject, in the paper's order:
//!
//! | module | part of document 01, or request |
//! |---|---|
//! | [`bits`] | single bits and fields of a 64-bit number |
//! | [`address`] | "Guest physical and machine addresses are kept as two kinds of number" |
//! | [`registers`] | "Twenty-nine registers" and the request's twelve: the table, the stored bits, the views, the write rules |
//! | [`hart`] | the five modes, the hart, refusal 2 |
//! | [`trap`] | refusal 4, "Delivery", and request 2026-02: the word of an instruction that traps |
//! | [`calls`] | environment calls and the breakpoint |
//! | [`returns`] | MRET and SRET |
//! | [`interrupts`] | request 2026-01: which interrupt is due, and taking it |
//! | [`access`] | "Access": read, write, set and clear of a register, refusal 5 |
//! | [`waits`] | WFI and the fences |
//! | [`image`] | the image and refusal 1 |
//! | [`walk`] | "The walk": translation of a fetch, load or store, refusal 3 |
//! | [`stepping`] | request 2026-07: the second engine, which reads one entry on each press, refusal 6 |
//! | [`hypervisor`] | request 2026-03: the hypervisor loads and stores |
//! | [`reasons`] | what each rule that refused, trapped, faulted or took an interrupt is called in words |
//! | [`word`] | which instruction an event's word is, in words, and whether it fits the event |
//! | [`lines`] | the lines of a script, and the longest one |
//! | [`script`] | the replay script language |
//!
//! Every event is a function from a hart (and what else it is given) to a hart and an answer; nothing is kept between events but the
//! place of the second engine, which each press hands back. One of them, HSV, writes the image that it is lent.
//! No input makes any of them panic: sums that can pass 2^64 are made in 128 bits, the program counter wraps by its rule, and
//! the list of reads is filled by a bounded push.

#![forbid(unsafe_code)]
#![warn(missing_docs)]

pub mod access;
pub mod address;
pub mod bits;
pub mod calls;
pub mod hart;
pub mod hypervisor;
pub mod image;
pub mod interrupts;
pub mod lines;
pub mod reasons;
pub mod registers;
pub mod returns;
pub mod script;
pub mod stepping;
pub mod trap;
pub mod waits;
pub mod walk;
pub mod word;
