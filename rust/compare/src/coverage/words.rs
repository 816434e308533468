//! What the words of instructions reached: the traps that took them, by event, cause, mode and target, where a `show` showed them;
//! what else came of their events; the instructions that they were; and what was said about them.
//!
//! What traps where, and where it puts the word, is here once more. A trap that put it elsewhere counts for nothing.

use std::collections::BTreeMap;
use std::fmt::Write as _;

use second::hart::{Hart, Mode};
use second::registers::{HSTATUS_GVA, MSTATUS_GVA, ROWS};
use second::script::{Answer, Line};
use second::trap::{Ending, Target};

use super::interrupts::LEVELS;
use super::{add, count, event_word};
use crate::word_lines::{self, understand, UNLISTED};
use crate::words::{case_of, cases, Case, Fields, INSTRUCTIONS};

/// The register accesses.
const ACCESSES: [&str; 4] = ["read", "write", "set", "clear"];
/// The hypervisor loads and stores.
pub const GUEST_EVENTS: [&str; 3] = ["hlv", "hlvx", "hsv"];

/// The events that have a word.
pub fn events() -> impl Iterator<Item = &'static str> {
    let others = INSTRUCTIONS.into_iter().chain(GUEST_EVENTS);
    ACCESSES.into_iter().chain(others)
}

/// A trap that takes a word: the event, the cause, the mode and the target.
pub type Trapped = (&'static str, u64, Mode, Target);

/// Whether an event can trap so: what it gives in the mode, and where the cause can go from there.
fn can_trap((event, cause, mode, target): &Trapped) -> bool {
    let arises = match (*event, cause, mode) {
        // An unlisted number, or a write to hgeip.
        ("read" | "write" | "set" | "clear", 2, _) => true,
        (_, _, Mode::M) => false,
        ("mret", cause, _) => *cause == 2,
        ("wfi", 2, _) => true,
        ("hfence.vvma" | "hlv" | "hlvx" | "hsv", 2, Mode::Hs) => false,
        (_, cause, mode) => mode.v() == (*cause == 22),
    };
    let goes = match target {
        Target::M => true,
        Target::Hs => *mode != Mode::M,
        Target::Vs => mode.v() && *cause == 2,
    };
    arises && goes
}

/// All that there are.
pub fn all_trapped() -> Vec<Trapped> {
    let mut all = Vec::new();
    for event in events() {
        for cause in [2, 22] {
            for mode in Mode::ALL {
                all.extend(LEVELS.map(|target| (event, cause, mode, target)));
            }
        }
    }
    all.retain(can_trap);
    all
}

/// Each event refused as 2, the register accesses as 5, and the hypervisor loads and stores as 1 and 3.
pub fn all_refused() -> Vec<(&'static str, u64)> {
    let by_number = ACCESSES.map(|event| (event, 5));
    let by_image = GUEST_EVENTS.map(|event| (event, 1));
    let by_width = GUEST_EVENTS.map(|event| (event, 3));
    let others = by_number.into_iter().chain(by_image).chain(by_width);
    events().map(|event| (event, 2)).chain(others).collect()
}

/// Whether a hart shows a trap with this word as its value, second value and word 0 and the flag clear.
fn shows(hart: &Hart, cause: u64, target: Target, word: u32) -> bool {
    let (written, zero) = match target {
        Target::M => (
            [hart.mcause, hart.mtval],
            [hart.mtval2, hart.mtinst, hart.mstatus & (1 << MSTATUS_GVA)],
        ),
        Target::Hs => (
            [hart.scause, hart.stval],
            [hart.htval, hart.htinst, hart.hstatus & (1 << HSTATUS_GVA)],
        ),
        Target::Vs => ([hart.vscause, hart.vstval], [0; 3]),
    };
    (written, zero) == ([cause, u64::from(word)], [0; 3])
}

/// Each register that a line can name.
fn registers() -> impl Iterator<Item = &'static str> {
    ROWS.iter().map(|row| row.name).chain([UNLISTED])
}

/// Counts of what words reached.
#[derive(Clone, Debug, Default, PartialEq, Eq)]
pub struct Words {
    /// The bits that were 1, and those that were 0, in the words of traps that were shown.
    pub shown: BTreeMap<Trapped, [u32; 2]>,
    /// Events that were done, with a word that is not 0.
    pub done: BTreeMap<&'static str, u64>,
    /// Events that were refused as this, with a word that is not 0.
    pub refused: BTreeMap<(&'static str, u64), u64>,
    /// How events and their words met.
    pub cases: BTreeMap<Case, u64>,
    /// From the outputs: `# word: `, by whether it fits and its kind.
    pub lines: BTreeMap<(bool, usize), u64>,
    /// From the outputs: `# word: `, by whether it fits and the register that it names.
    pub registers: BTreeMap<(bool, &'static str), u64>,
    /// From the outputs: a `# word: ` line that says nothing about a word.
    pub no_line: Option<String>,
    /// The trap that the line before this one raised, and its word.
    last: Option<(Trapped, u32)>,
}

impl Words {
    /// Notes a line of a script, the hart before it and its answer.
    pub fn note(&mut self, line: &Line, before: &Hart, answer: &Answer) {
        let last = self.last.take();
        if let (Line::Show, Some((trapped, word))) = (line, last) {
            self.note_shown(before, trapped, word);
        }
        let (Some(event), Some(word), Some(case)) = (event_word(line), line.word(), case_of(line))
        else {
            return;
        };
        count(&mut self.cases, case);
        let ending = match answer {
            Answer::Register(accessed) => accessed.outcome.ending,
            Answer::Event(outcome) => outcome.ending,
            Answer::Guest(reached) => reached.outcome.ending,
            _ => return,
        };
        match ending {
            // A fault takes no word.
            Ending::Trapped(trap, _) if !matches!(trap.cause, 2 | 22) => {}
            Ending::Trapped(trap, target) => {
                let mode = before.checked_mode();
                self.last = mode.map(|mode| ((event, trap.cause, mode, target), word));
            }
            Ending::Done if word != 0 => count(&mut self.done, event),
            Ending::Refused(number) if word != 0 => count(&mut self.refused, (event, number)),
            Ending::Done | Ending::Refused(_) => {}
        }
    }

    fn note_shown(&mut self, hart: &Hart, trapped: Trapped, word: u32) {
        let (_, cause, _, target) = trapped;
        if shows(hart, cause, target, word) {
            self.join(trapped, [word, !word]);
        }
    }

    fn join(&mut self, trapped: Trapped, [ones, zeros]: [u32; 2]) {
        let known = self.shown.entry(trapped).or_default();
        known[0] |= ones;
        known[1] |= zeros;
    }

    /// Counts what a program said about a word.
    pub fn note_line(&mut self, text: &str) {
        match understand(text) {
            Some(said) => {
                count(&mut self.lines, (said.fits, said.kind));
                if let Some(register) = said.register {
                    count(&mut self.registers, (said.fits, register));
                }
            }
            None => self.no_line = Some(text.to_string()),
        }
    }

    /// Adds another's counts.
    pub fn add(&mut self, other: &Words) {
        for (trapped, bits) in &other.shown {
            self.join(*trapped, *bits);
        }
        add(&mut self.done, &other.done);
        add(&mut self.refused, &other.refused);
        add(&mut self.cases, &other.cases);
        add(&mut self.lines, &other.lines);
        add(&mut self.registers, &other.registers);
        self.no_line = self.no_line.take().or(other.no_line.clone());
    }

    /// What must be reached and was not, but for what is said.
    pub fn missing(&self) -> Vec<String> {
        let mut missing = Vec::new();
        for trapped in all_trapped() {
            let bits = self.shown.get(&trapped).copied().unwrap_or_default();
            let (event, cause, mode, target) = trapped;
            for (bits, value) in bits.into_iter().zip([1, 0]) {
                if bits != u32::MAX {
                    let bits = !bits;
                    missing.push(format!(
                        "bits {bits:x} of a word as {value} in {target}'s tval, by {event} in {mode} with cause {cause}"
                    ));
                }
            }
        }
        for event in events() {
            if !self.done.contains_key(event) {
                missing.push(format!("{event} done, with a word"));
            }
        }
        for (event, number) in all_refused() {
            if !self.refused.contains_key(&(event, number)) {
                missing.push(format!("{event} refused as {number}, with a word"));
            }
        }
        for case in cases() {
            if !self.cases.contains_key(&case) {
                missing.push(format!("an event and its word: {}", describe(&case)));
            }
        }
        missing
    }

    /// What must be said and was not, and what was said and is nothing about a word.
    pub fn missing_lines(&self) -> Vec<String> {
        let kinds = word_lines::all().filter(|line| !self.lines.contains_key(line));
        let kinds = kinds.map(|line| format!("the word \"{}\"", word_lines::text(line)));
        let named = [true, false]
            .into_iter()
            .flat_map(|fits| registers().map(move |register| (fits, register)));
        let unnamed = named.filter(|named| !self.registers.contains_key(named));
        let unnamed = unnamed.map(|(fits, register)| {
            let fits = if fits { "fits" } else { "does not fit" };
            format!("a word that {fits} and names {register}")
        });
        let wrong = self.no_line.iter();
        let wrong = wrong.map(|text| format!("a word instead of \"{text}\""));
        kinds.chain(unnamed).chain(wrong).collect()
    }

    /// The counts, for people.
    pub fn table(&self, text: &mut String) {
        let bits = self.shown.values().flatten();
        let _ = writeln!(
            text,
            "words of instructions that trapped and were shown, by event, cause, mode and target: {} of {}, bits {} of {}; \
             with a word, by event: done {} of {}, refused {} of {}; events and instructions that met: {} of {}",
            self.shown.len(),
            all_trapped().len(),
            bits.map(|bits| bits.count_ones()).sum::<u32>(),
            all_trapped().len() * 64,
            self.done.len(),
            events().count(),
            self.refused.len(),
            all_refused().len(),
            self.cases.len(),
            cases().len()
        );
    }

    /// The counts of what was said, for people.
    pub fn table_of_lines(&self, text: &mut String) {
        let of = |fits| {
            let lines = self.lines.iter().filter(move |((of, _), _)| *of == fits);
            lines.map(|(_, number)| number).sum::<u64>()
        };
        let _ = writeln!(
            text,
            "words that fit {}, that do not {}; kinds of what is said of them: {} of {}, registers named: {} of {}; the rarest:",
            of(true),
            of(false),
            self.lines.len(),
            word_lines::all().count(),
            self.registers.len(),
            2 * registers().count()
        );
        let mut counts: Vec<(u64, (bool, usize))> = self
            .lines
            .iter()
            .map(|(line, number)| (*number, *line))
            .collect();
        counts.sort();
        for (number, line) in counts.iter().take(4) {
            let _ = writeln!(text, "  {} {number}", word_lines::text(*line));
        }
    }
}

/// A case, for people.
fn describe((form, instruction, fields): &Case) -> String {
    let facts: &[(&str, bool)] = match fields {
        Fields::None => &[],
        Fields::Access([zero, number, value]) => &[
            ("S {}0", *zero),
            ("N {}its number", *number),
            ("S {}its value", *value),
        ],
        Fields::Load([s, address]) => &[("S {}0", *s), ("ADDRESS {}0", *address)],
        Fields::Store([s, address, t, value]) => &[
            ("S {}0", *s),
            ("ADDRESS {}0", *address),
            ("T {}0", *t),
            ("VALUE {}0", *value),
        ],
    };
    let mut text = format!("{form} and {instruction}");
    for (fact, is) in facts {
        let not = if *is { "" } else { "not " };
        let _ = write!(text, ", {}", fact.replace("{}", not));
    }
    text
}

#[cfg(test)]
mod tests {
    use super::*;
    use second::script::{parse, Session};
    use std::path::PathBuf;

    /// Notes the lines of a script.
    fn noted(script: &str) -> Words {
        let mut words = Words::default();
        let mut session = Session::new(PathBuf::new());
        for line in script.split(';') {
            let line = parse(line.as_bytes()).unwrap().unwrap();
            let before = session.hart;
            let answer = session.perform(&line).unwrap();
            words.note(&line, &before, &answer);
        }
        words
    }

    #[test]
    fn what_there_is() {
        let count = |of: &str| {
            all_trapped()
                .iter()
                .filter(|trapped| trapped.0 == of)
                .count()
        };
        let counts: Vec<usize> = events().map(count).collect();
        // From M 1, from HS and U 2 each, from VS and VU 3 with cause 2 and 2 with 22.
        let access = 1 + 2 + 2 + 2 * (3 + 2);
        assert_eq!(counts[..4], [access; 4]);
        assert_eq!(
            counts[4..],
            [2 + 2 + 3 + 3, 8, 2 + 2 + 2 * (3 + 2), 8, 6, 8, 6, 6, 6]
        );
        assert_eq!(all_refused().len(), 13 + 4 + 2 * 3);
        assert_eq!(registers().count(), 42);
    }

    #[test]
    fn a_trap_counts_where_it_is_shown() {
        let words = noted("hart 0 0 0;wfi f0000001;show;show");
        let trapped = ("wfi", 2, Mode::U, Target::M);
        assert_eq!(
            words.shown,
            BTreeMap::from([(trapped, [0xf000_0001, 0x0fff_fffe])])
        );
        assert_eq!(words.cases.len(), 1);
        for script in [
            "hart 0 0 0;wfi f0000001;hart 0 0 0;show",
            "hart 0 0 0;wfi f0000001;reg 343 1;show",
            "hart 0 0 0;wfi f0000001;ecall;show",
            "hart 0 3 0;wfi f0000001;show",
            "hart 0 0 0;trap 2 f0000001 0 0 0;show",
            "hart 0 3 0;hlv 1 0 f0000001 f0000001;show",
        ] {
            assert_eq!(noted(script).shown, BTreeMap::new(), "{script}");
        }
    }

    #[test]
    fn a_word_in_another_place_counts_for_nothing() {
        let mut hart = Hart::new(0, 3, 0);
        (hart.mcause, hart.mtval) = (2, 0x8000_0000);
        assert!(shows(&hart, 2, Target::M, 1 << 31));
        assert!(!shows(&hart, 22, Target::M, 1 << 31));
        assert!(!shows(&hart, 2, Target::Hs, 1 << 31));
        for change in [
            (|hart: &mut Hart| hart.mtval = 0) as fn(&mut Hart),
            |hart| hart.mtval = 0xffff_ffff_8000_0000,
            |hart| hart.mtval2 = 0x8000_0000,
            |hart| hart.mtinst = 0x8000_0000,
            |hart| hart.mstatus |= 1 << MSTATUS_GVA,
        ] {
            let mut other = hart;
            change(&mut other);
            assert!(!shows(&other, 2, Target::M, 1 << 31));
        }
    }

    #[test]
    fn endings_with_a_word_are_counted() {
        let words = noted("wfi 1;read 340 0;read 1000 5;hart 0 3 2;mret 7;sret 0");
        assert_eq!(words.done, BTreeMap::from([("wfi", 1)]));
        let refused = [(("mret", 2), 1), (("read", 5), 1)];
        assert_eq!(words.refused, BTreeMap::from(refused));
        assert_eq!(words.cases.values().sum::<u64>(), 5);
    }

    #[test]
    fn lines_are_counted() {
        let mut words = Words::default();
        words.note_line("30002573 is CSRRS: mstatus (300) read to x10");
        words.note_line("30002573 does not fit: it is CSRRS: mstatus (300) read to x10");
        words.note_line("30200073 is MRET");
        assert_eq!(words.lines.len(), 3);
        assert_eq!(words.registers.len(), 2);
        let missing = words.missing_lines();
        assert_eq!(missing.len(), (80 - 3) + (84 - 2));
        assert!(missing.contains(&"the word \"* is SRET\"".to_string()));
        assert!(missing.contains(&"a word that fits and names sstatus".to_string()));
        words.note_line("30200073 is mret");
        let last = words.missing_lines().pop();
        assert_eq!(
            last.as_deref(),
            Some("a word instead of \"30200073 is mret\"")
        );
    }
}
