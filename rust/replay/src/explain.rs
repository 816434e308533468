//! Answers in words: lines that begin with `# `.

use crate::events;
use crate::guest;
use crate::happened::{refusal, Came, Explanation, Happened};
use crate::interrupts;
use crate::names;
use crate::paint::Paint;
use crate::script::{Event, GuestAccess};
use crate::tree;
use crate::walk::{self, Part, Right, Stage, View, Walk};
use crate::word;
use balcumentri::{Access, Answer, Fault, GuestAccessed, Kind, Outcome, Translation};
use std::io::{self, Write};

/// The instruction word of a fault at a guest entry.
const GUEST_ENTRY: u64 = 0x3000;

/// How a walk is explained.
#[derive(Clone, Copy, PartialEq, Eq)]
pub enum Style {
    /// A line for each entry.
    Words,
    /// A picture.
    Tree,
}

/// Says answers in words.
pub struct Explainer {
    pub style: Style,
    pub paint: Paint,
}

impl Explainer {
    /// The line, what it came to, which instruction its word is, and why.
    pub fn explain(&self, out: &mut impl Write, happened: &Happened<'_>) -> io::Result<()> {
        writeln!(out, "# line {}: {}", happened.line, happened.text)?;
        let explanation = match (happened.event, happened.came) {
            (Event::Translate(access), Came::Translated(translation)) => {
                self.translation(happened, *access, translation)
            }
            (Event::Register(number, action, _), Came::Accessed(accessed)) => {
                events::access(happened, *number, *action, *accessed)
            }
            (Event::Ecall, Came::Stepped(outcome)) => events::event(happened, "ECALL", *outcome),
            (Event::Ebreak, Came::Stepped(outcome)) => events::event(happened, "EBREAK", *outcome),
            (Event::Perform(instruction, _), Came::Stepped(outcome)) => {
                events::event(happened, instruction.name(), *outcome)
            }
            (Event::Guest(access, _), Came::Loaded(accessed) | Came::Stored(accessed)) => {
                self.guest_access(happened, access, accessed)
            }
            (Event::Interrupt, Came::Stepped(outcome)) => interrupts::event(happened, *outcome),
            (_, Came::Stepped(outcome)) => events::event(happened, "trap request", *outcome),
            _ => Explanation {
                lines: events::hart(happened.after),
                why: None,
            },
        };
        for line in explanation.lines {
            writeln!(out, "# {line}")?;
        }
        if let Some(words) = word::described(happened.event) {
            writeln!(out, "# word: {words}")?;
        }
        match explanation.why {
            Some(why) if happened.is_well() => writeln!(out, "# why: {why}"),
            Some(why) => writeln!(out, "# {}", self.paint.bad(&format!("why: {why}"))),
            None => Ok(()),
        }
    }

    /// A translation: the access, each entry read for it, and how it ended.
    fn translation(
        &self,
        happened: &Happened<'_>,
        access: Access,
        translation: &Translation,
    ) -> Explanation {
        let answer = translation.answer();
        let ending = self.ending(answer);
        if let Answer::Refused(number) = answer {
            return Explanation {
                lines: vec![refused_access(access), ending],
                why: happened.refused(number),
            };
        }
        let Some(view) = View::of_access(happened.before, access) else {
            return Explanation {
                lines: vec![ending],
                why: None,
            };
        };
        let faulted = matches!(answer, Answer::Fault(_));
        let walk = walk::follow(&view, translation.reads(), faulted);
        Explanation {
            lines: self.walk(&view, &walk, ending),
            why: walk.end.err().map(|stop| stop.to_string()),
        }
    }

    /// A hypervisor load or store: what it came to; if that was its access, each entry read for it and how it ended; where it
    /// trapped, why the trap went there and what it wrote.
    fn guest_access(
        &self,
        happened: &Happened<'_>,
        access: &GuestAccess,
        accessed: &GuestAccessed,
    ) -> Explanation {
        let mut explanation = events::event(happened, access.name(), accessed.outcome);
        let GuestAccessed { outcome, value, .. } = *accessed;
        if matches!(outcome, Outcome::Refused(_) | Outcome::Trapped(2 | 22)) {
            return explanation;
        }
        let view = View::of_guest(happened.before, access);
        let walk = walk::follow(&view, accessed.reads(), outcome != Outcome::Done);
        let ending = match &walk.end {
            Ok(address) => {
                let words = guest::transferred(access, *address, value, happened.overwritten);
                self.paint.good(&words)
            }
            Err(_) => {
                let fault = guest::fault(happened.after);
                self.paint.bad(&fault_words(fault))
            }
        };
        let lines = self.walk(&view, &walk, ending);
        explanation.lines.splice(1..1, lines);
        explanation.why = walk.end.err().map(|stop| stop.to_string());
        explanation
    }

    /// A walk in the style that was asked for: the access, each entry read for it, and how it ended.
    fn walk(&self, view: &View, walk: &Walk, ending: String) -> Vec<String> {
        let heading = heading(view);
        match self.style {
            Style::Words => walk_lines(heading, walk, ending),
            Style::Tree => tree::drawn(self.paint, heading, walk, ending),
        }
    }

    /// How a translation ended.
    fn ending(&self, answer: Answer) -> String {
        match answer {
            Answer::Address(address) => self
                .paint
                .good(&format!("it reaches machine address {address:x}")),
            Answer::Refused(number) => self.paint.bad(&refusal(number)),
            Answer::Fault(fault) => self.paint.bad(&fault_words(fault)),
        }
    }
}

fn kind(access: Access) -> &'static str {
    match access.kind {
        Kind::Fetch => "fetch",
        Kind::Load => "load",
        Kind::Store => "store",
    }
}

/// The access, its effective mode and the stages that are on.
fn heading(view: &View) -> String {
    let access = view.access;
    let stages = match (view.first.is_some(), view.second.is_some()) {
        (false, false) => "no stage is on",
        (true, false) => "the first stage is on",
        (false, true) => "the second stage is on",
        (true, true) => "both stages are on",
    };
    let by = view.by.map_or(String::new(), |by| format!(", by {by}"));
    let needs = match (access.kind, view.needs) {
        (Kind::Load, Right::X) => ", with X in place of R",
        _ => "",
    };
    let bytes = if access.width == 1 { "byte" } else { "bytes" };
    format!(
        "{} of {:x} {bytes} at {:x} as {}{by}{needs}; {stages}",
        kind(access),
        access.width,
        access.address,
        view.mode
    )
}

/// An access whose width may be none.
fn refused_access(access: Access) -> String {
    let (kind, width, address) = (kind(access), access.width, access.address);
    format!("{kind} of width {width:x} at {address:x}")
}

/// A fault by its name, and what its second value and word say.
fn fault_words(fault: Fault) -> String {
    let mut words = format!(
        "{}: value {:x}",
        names::titled_cause(fault.cause),
        fault.value
    );
    if matches!(fault.cause, 20 | 21 | 23) {
        words += &format!(
            ", second value {:x} (a guest physical address, shifted right by 2)",
            fault.second
        );
    }
    if fault.word == GUEST_ENTRY {
        words += &format!(", word {GUEST_ENTRY:x} (the hart's own read of a guest entry)");
    }
    words
}

/// Each entry of a walk, and each second-stage walk with the address that it is for.
fn walk_lines(heading: String, walk: &Walk, ending: String) -> Vec<String> {
    let mut lines = vec![heading];
    for stage in [&walk.first, &walk.second].into_iter().flatten() {
        stage_lines(stage, "the access", &mut lines);
    }
    lines.push(ending);
    lines
}

fn stage_lines(stage: &Stage, purpose: &str, lines: &mut Vec<String>) {
    let name = if stage.part.is_first() {
        "first"
    } else {
        let address = stage.address;
        lines.push(format!(
            "second stage for guest physical {address:x}, {purpose}:"
        ));
        "second"
    };
    for step in &stage.steps {
        if let Some(through) = &step.through {
            let purpose = format!("the guest entry at level {:x}", step.level);
            stage_lines(through, &purpose, lines);
        }
        if let Some(read) = step.read {
            let guest = match stage.part {
                Part::Vsatp => format!(" (guest physical {:x})", step.address()),
                _ => String::new(),
            };
            lines.push(format!(
                "{name} stage, level {:x}, entry at {:x}{guest}: {}, {}",
                step.level,
                read.address,
                walk::flags(read.value),
                walk::leads(stage.part, step.level, read.value)
            ));
        }
    }
}
