//! What an event came to, and what there is to say about it.

use crate::names;
use crate::reason;
use crate::script::Event;
use balcumentri::{Accessed, GuestAccessed, Hart, Image, Outcome, Translation};

/// What an event came to.
pub enum Came {
    Translated(Box<Translation>),
    Accessed(Accessed),
    /// A hypervisor load.
    Loaded(Box<GuestAccessed>),
    /// A hypervisor store.
    Stored(Box<GuestAccessed>),
    Stepped(Outcome),
    Shown,
}

/// An event that was performed, with all that there is to say about it.
pub struct Happened<'a> {
    /// The number and the words of the script's line.
    pub line: u64,
    pub text: String,
    pub event: &'a Event,
    pub came: &'a Came,
    pub before: &'a Hart,
    pub after: &'a Hart,
    pub image: Image<'a>,
    /// What was there before where a hypervisor store wrote.
    pub overwritten: u64,
}

impl Happened<'_> {
    /// Why it was refused.
    pub fn refused(&self, number: u64) -> Option<String> {
        reason::refused(number, self.before, self.image, self.event)
    }

    /// Whether it was done or took an interrupt.
    pub fn is_well(&self) -> bool {
        matches!(
            self.came,
            Came::Stepped(Outcome::Done | Outcome::Interrupted(_))
        )
    }
}

/// What happened, line by line, and why: of a refusal, a fault, an instruction's trap and the event that takes interrupts.
pub struct Explanation {
    pub lines: Vec<String>,
    pub why: Option<String>,
}

/// A refusal by its number.
pub fn refusal(number: u64) -> String {
    format!("refused as {number:x}: {}", names::refusal(number))
}
