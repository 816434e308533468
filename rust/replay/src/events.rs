//! Events in words: what they came to, what they read and what they wrote.

use crate::happened::{refusal, Explanation, Happened};
use crate::names::{self, place, Mode};
use crate::reason;
use crate::registers::{self, HSTATUS, MSTATUS, VSSTATUS};
use crate::script::{Action, Event, Instruction};
use crate::views::{self, held};
use crate::writes;
use balcumentri::{Accessed, Hart, Outcome};

/// A register access: what it came to, and what it read or wrote.
pub fn access(
    happened: &Happened<'_>,
    number: u64,
    action: Action,
    accessed: Accessed,
) -> Explanation {
    let form = match action {
        Action::Read => "read of",
        Action::Write(_) => "write to",
        Action::Set(..) => "set of bits in",
        Action::Clear(..) => "clear of bits in",
    };
    let reached = reached(happened.before, number);
    let mut what = format!("{form} {}", registers::title(number));
    if reached != number {
        what += &format!(", which is {} here,", registers::title(reached));
    }
    let mut explanation = event(happened, &what, accessed.outcome);
    if accessed.outcome == Outcome::Done {
        if action.writes() {
            let lines = write_lines(happened, reached, action, accessed.value);
            explanation.lines.extend(lines);
        } else {
            if !matches!(action, Action::Read) {
                let line = "told not to write: it counts as a read";
                explanation.lines.push(line.to_owned());
            }
            explanation.lines.push(content(reached, accessed.value));
            let hidden = views::not_shown(happened.before, reached);
            explanation.lines.extend(hidden);
        }
    }
    explanation
}

/// The register that a number reaches: in VS an S number reaches its VS register.
fn reached(hart: &Hart, number: u64) -> u64 {
    let twin = number.wrapping_add(0x100);
    let in_vs = Mode::of_hart(hart) == Some(Mode::Vs);
    if in_vs && number >> 8 == 1 && registers::name(twin).is_some() {
        return twin;
    }
    number
}

/// What a register holds, decoded.
fn content(number: u64, word: u64) -> String {
    let register = registers::title(number);
    match registers::decoded(number, word) {
        words if words.is_empty() => format!("{register} {word:x}"),
        words => format!("{register} {word:x}: {words}"),
    }
}

/// What a write changed, and what of it was not stored.
fn write_lines(happened: &Happened<'_>, number: u64, action: Action, old: u64) -> Vec<String> {
    let (before, after) = (happened.before, happened.after);
    let asked = action.asked(old);
    let new = held(after, number);
    let register = registers::title(number);
    if let Some(why) = writes::ignored(number, asked) {
        return vec![format!(
            "the write is ignored: {why}; {register} stays {old:x}"
        )];
    }
    let change = match registers::changes(number, old, new) {
        _ if old == new => format!("{register} stays {old:x}"),
        words if words.is_empty() => format!("{register} {old:x} becomes {new:x}"),
        words => format!("{register} {old:x} becomes {new:x}: {words}"),
    };
    let mut lines = vec![change];
    lines.extend(views::kept(before, after, number));
    lines.extend(writes::not_stored(number, asked, new));
    lines
}

/// An event: what it came to, the mode and pc after it, and what it wrote.
pub fn event(happened: &Happened<'_>, what: &str, outcome: Outcome) -> Explanation {
    let (from, to) = (place(happened.before), place(happened.after));
    match outcome {
        // no event that is explained here takes an interrupt
        Outcome::Done | Outcome::Interrupted(_) => {
            let mut lines = vec![format!("{what} in {from}: done, on in {to}")];
            if let Event::Perform(instruction, _) = happened.event {
                lines.extend(return_origin(*instruction, happened));
                lines.extend(return_writes(*instruction, happened));
            }
            Explanation { lines, why: None }
        }
        Outcome::Trapped(cause) => Explanation {
            lines: vec![
                format!(
                    "{what} in {from}: {} goes to {to}",
                    names::titled_cause(cause)
                ),
                delegation(happened).to_owned(),
                trap_writes(happened),
            ],
            why: match cause {
                2 | 22 => reason::trapped(happened.before, happened.event),
                _ => None,
            },
        },
        Outcome::Refused(number) => Explanation {
            lines: vec![format!("{what} in {from}: {}", refusal(number))],
            why: happened.refused(number),
        },
    }
}

/// Why a trap went where it went.
fn delegation(happened: &Happened<'_>) -> &'static str {
    let from = Mode::of_hart(happened.before);
    let guest = from.is_some_and(Mode::is_guest);
    match Mode::of_hart(happened.after) {
        Some(Mode::M) if from == Some(Mode::M) => "to M: a trap from M stays there",
        Some(Mode::M) => "to M: medeleg does not hand it down",
        Some(Mode::Hs) if guest => "to HS: medeleg hands it down, hedeleg does not",
        Some(Mode::Hs) => "to HS: medeleg hands it down",
        _ => "to VS: medeleg and hedeleg hand it down",
    }
}

/// What a trap or an interrupt wrote, by where it went.
pub fn trap_writes(happened: &Happened<'_>) -> String {
    let from_guest = happened.before.v() == 1;
    match Mode::of_hart(happened.after) {
        Some(Mode::M) => wrote(
            happened.after,
            &[(MSTATUS, &["MPV", "MPP", "MPIE", "MIE", "GVA"])],
            &[0x341, 0x342, 0x343, 0x34b, 0x34a],
        ),
        Some(Mode::Hs) => {
            let saved: &[&str] = if from_guest {
                &["SPV", "SPVP", "GVA"]
            } else {
                &["SPV", "GVA"]
            };
            wrote(
                happened.after,
                &[(HSTATUS, saved), (MSTATUS, &["SPP", "SPIE", "SIE"])],
                &[0x141, 0x142, 0x143, 0x643, 0x64a],
            )
        }
        _ => wrote(
            happened.after,
            &[(VSSTATUS, &["SPP", "SPIE", "SIE"])],
            &[0x241, 0x242, 0x243],
        ),
    }
}

/// Why a return went where it went.
fn return_origin(instruction: Instruction, happened: &Happened<'_>) -> Option<String> {
    let before = happened.before;
    let saved = |register, name| registers::get(register, name, held(before, register));
    let (mpp, mpv) = (saved(MSTATUS, "MPP"), saved(MSTATUS, "MPV"));
    let to = Mode::of_hart(happened.after)?;
    Some(match instruction {
        Instruction::Mret if mpp == 3 => {
            format!("to {to}: MPP was 3, with which MPV ({mpv}) does not count; pc from mepc")
        }
        Instruction::Mret => format!("to {to}: MPP was {mpp} and MPV {mpv}; pc from mepc"),
        Instruction::Sret if before.v() == 1 => {
            let spp = saved(VSSTATUS, "SPP");
            format!("to {to}: vsstatus.SPP was {spp}; pc from vsepc")
        }
        Instruction::Sret => {
            let (spp, spv) = (saved(MSTATUS, "SPP"), saved(HSTATUS, "SPV"));
            format!("to {to}: SPP was {spp} and SPV {spv}; pc from sepc")
        }
        _ => return None,
    })
}

/// What a return wrote.
fn return_writes(instruction: Instruction, happened: &Happened<'_>) -> Option<String> {
    let before = happened.before;
    let to_machine = registers::get(MSTATUS, "MPP", held(before, MSTATUS)) == 3;
    let status: &[(u64, &[&str])] = match instruction {
        Instruction::Mret if to_machine => &[(MSTATUS, &["MIE", "MPIE", "MPP", "MPV"])],
        Instruction::Mret => &[(MSTATUS, &["MIE", "MPIE", "MPP", "MPV", "MPRV"])],
        Instruction::Sret if before.v() == 1 => &[(VSSTATUS, &["SIE", "SPIE", "SPP"])],
        Instruction::Sret => &[
            (HSTATUS, &["SPV"]),
            (MSTATUS, &["SIE", "SPIE", "SPP", "MPRV"]),
        ],
        _ => return None,
    };
    Some(wrote(happened.after, status, &[]))
}

/// Fields of status registers and whole registers, with what they hold.
fn wrote(hart: &Hart, status: &[(u64, &[&str])], whole: &[u64]) -> String {
    let mut parts = Vec::new();
    for (number, names) in status {
        let word = held(hart, *number);
        let fields: Vec<String> = names
            .iter()
            .map(|name| format!("{name} {:x}", registers::get(*number, name, word)))
            .collect();
        let register = registers::name(*number).unwrap_or_default();
        parts.push(format!("{register} {}", fields.join(", ")));
    }
    for number in whole {
        let name = registers::name(*number).unwrap_or_default();
        parts.push(format!("{name} {:x}", held(hart, *number)));
    }
    format!("it wrote {}", parts.join("; "))
}

/// A hart that was shown: where it is, whether the model takes it, and each register decoded.
pub fn hart(hart: &Hart) -> Vec<String> {
    let taken = match reason::hart_refused(hart) {
        None => "the model takes it".to_owned(),
        Some(why) => format!("the model refuses it as 2: {why}"),
    };
    let mut lines = vec![format!("{}; {taken}", place(hart))];
    lines.extend(hart.registers().map(|(number, word)| content(number, word)));
    lines
}
