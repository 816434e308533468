//! Answers, as docs/REPLAY.md has them.

use crate::happened::Came;
use crate::stand_in::{Press, Pressed};
use balcumentri::{Answer, Hart, Outcome, Read};
use std::io::{self, Write};

/// Writes an event's answer.
pub fn write(out: &mut impl Write, came: &Came, hart: &Hart) -> io::Result<()> {
    match came {
        Came::Translated(translation) => {
            write_end(out, translation.answer())?;
            write_reads(out, translation.reads())
        }
        Came::Accessed(accessed) => write_value(out, accessed.outcome, accessed.value),
        Came::Loaded(loaded) => {
            write_value(out, loaded.outcome, loaded.value)?;
            write_reads(out, loaded.reads())
        }
        Came::Stored(stored) => {
            write_step(out, stored.outcome)?;
            write_reads(out, stored.reads())
        }
        Came::Stepped(outcome) => write_step(out, *outcome),
        Came::Started(end) => write_course(out, *end),
        Came::Pressed(press) => write_press(out, press),
        Came::Shown => write_hart(out, hart),
    }
}

/// What an event that answers a value came to.
fn write_value(out: &mut impl Write, outcome: Outcome, value: u64) -> io::Result<()> {
    match outcome {
        Outcome::Refused(number) => writeln!(out, "refused {number:x}"),
        _ => writeln!(out, "value {value:x}"),
    }
}

/// What an event that answers no value came to.
fn write_step(out: &mut impl Write, outcome: Outcome) -> io::Result<()> {
    match outcome {
        Outcome::Refused(number) => writeln!(out, "refused {number:x}"),
        _ => writeln!(out, "ok"),
    }
}

/// What a translation answers.
fn write_end(out: &mut impl Write, answer: Answer) -> io::Result<()> {
    match answer {
        Answer::Address(address) => writeln!(out, "address {address:x}"),
        Answer::Refused(number) => writeln!(out, "refused {number:x}"),
        Answer::Fault(fault) => writeln!(
            out,
            "fault {:x} {:x} {:x} {:x} {:x}",
            fault.cause,
            fault.value,
            fault.second,
            fault.word,
            u64::from(fault.flag)
        ),
    }
}

/// How one ended that is taken one read at a time, or that it goes on.
fn write_course(out: &mut impl Write, end: Option<Answer>) -> io::Result<()> {
    match end {
        None => writeln!(out, "going"),
        Some(answer) => write_end(out, answer),
    }
}

fn write_press(out: &mut impl Write, press: &Press) -> io::Result<()> {
    write_reads(out, press.shown.as_slice())?;
    let end = match press.answer {
        Pressed::Going => None,
        Pressed::Ended(answer) => Some(answer),
        Pressed::Refused(number) => Some(Answer::Refused(number)),
    };
    write_course(out, end)
}

/// The list.
fn write_reads(out: &mut impl Write, reads: &[Read]) -> io::Result<()> {
    for read in reads {
        writeln!(
            out,
            "read {:x} {:x} {:x} {:x}",
            read.stage, read.level, read.address, read.value
        )?;
    }
    Ok(())
}

/// The hart, as a script.
fn write_hart(out: &mut impl Write, hart: &Hart) -> io::Result<()> {
    let (v, privilege, pc) = (hart.v(), hart.privilege(), hart.pc());
    writeln!(out, "hart {v:x} {privilege:x} {pc:x}")?;
    for (number, value) in hart.registers() {
        writeln!(out, "reg {number:x} {value:x}")?;
    }
    Ok(())
}
