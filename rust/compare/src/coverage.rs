//! What the scripts and their answers reached.
//!
//! Two sources: the outputs of the programs under comparison (causes of faults, refusals, list lengths, stages and levels of
//! reads, reasons, bad lines), and the second program's library while a script is written (the rule that ended a walk, the traps that
//! were delivered and where to, which are not in any answer).

pub mod bits;
pub mod depths;
pub mod guest;
pub mod interrupts;
pub mod numbers;
pub mod words;

use std::collections::BTreeMap;
use std::fmt::Write as _;

use second::access::Action;
use second::hart::{Hart, Mode};
use second::hypervisor::Operation;
use second::registers::{find, Row, ROWS};
use second::script::{Answer, Instruction, Line, Session};
use second::trap::{Ending, Target, Trap};
use second::walk::{self, translate, Key, Kind, Part, Rule, PLACES};

use crate::coverage::bits::Bits;
use crate::coverage::depths::Deep;
use crate::coverage::guest::{has_mprv, Guest};
use crate::coverage::interrupts::Interrupts;
use crate::coverage::numbers::Numbers;
use crate::coverage::words::Words;
use crate::reasons::{KINDS, REASON};
use crate::word_lines::WORD;

/// The words of the events, in REPLAY.md's order.
pub const WORDS: [&str; 21] = [
    "fetch",
    "load",
    "store",
    "read",
    "write",
    "set",
    "clear",
    "trap",
    "ecall",
    "ebreak",
    "mret",
    "sret",
    "wfi",
    "sfence.vma",
    "hfence.vvma",
    "hfence.gvma",
    "interrupt",
    "hlv",
    "hlvx",
    "hsv",
    "show",
];

/// The causes that exist.
pub const CAUSES: [u64; 19] = [
    0, 1, 2, 3, 4, 5, 6, 7, 8, 9, 10, 11, 12, 13, 15, 20, 21, 22, 23,
];

/// The causes of guest-page faults.
const GUEST_PAGE_CAUSES: [u64; 3] = [20, 21, 23];

/// The causes that a translation can answer.
const FAULT_CAUSES: [u64; 11] = [1, 4, 5, 6, 7, 12, 13, 15, 20, 21, 23];

/// What meets a hart with a flipped bit.
#[derive(Clone, Copy, Debug, PartialEq, Eq, PartialOrd, Ord)]
pub enum Meeting {
    /// A translation.
    Translation,
    /// Another event.
    Event,
}

/// A translation, by its word, and the rule that ended it.
pub type Ended = (&'static str, Key);

/// One bit of a hart that passes check 2 flipped: the mode of that hart, what met it, the word and the bit.
pub type Flip = (Mode, Meeting, usize, u32);

/// The words of a hart: V, privilege, pc and the stored registers.
pub fn words(hart: &Hart) -> Vec<u64> {
    let stored = ROWS.iter().filter_map(|row| hart.stored(row.number));
    [hart.v, hart.privilege, hart.pc]
        .into_iter()
        .chain(stored)
        .collect()
}

/// The word and the bit in which two harts differ, if it is the only one.
fn flipped_bit(one: &Hart, other: &Hart) -> Option<(usize, u32)> {
    let (one, other) = (words(one), words(other));
    let mut changes = one.iter().zip(&other).map(|(a, b)| a ^ b).enumerate();
    let (word, change) = changes.find(|(_, change)| *change != 0)?;
    let alone = change.is_power_of_two() && changes.all(|(_, change)| change == 0);
    alone.then_some((word, change.trailing_zeros()))
}

/// Counts of what was reached.
#[derive(Clone, Debug, Default, PartialEq, Eq)]
pub struct Coverage {
    /// Event words.
    pub words: BTreeMap<&'static str, u64>,
    /// Events (without `show`).
    pub events: u64,
    /// Rules that ended a walk, by the word of the translation.
    pub rules: BTreeMap<Ended, u64>,
    /// Traps delivered, by cause and target.
    pub delivered: BTreeMap<(u64, Target), u64>,
    /// Of these, the faults of translations on the way to a guest entry.
    pub of_entries: BTreeMap<(u64, Target), u64>,
    /// The fault of the translation before, if it was one of these.
    entry_fault: Option<Trap>,
    /// Instructions, by word and mode.
    pub instructions: BTreeMap<(&'static str, Mode), u64>,
    /// Accesses to listed registers, by number and mode.
    pub registers: BTreeMap<(u64, Mode), u64>,
    /// Translations by the mode of the hart that passed its check.
    pub translations: BTreeMap<Mode, u64>,
    /// Interrupts.
    pub interrupts: Interrupts,
    /// Bits of the registers of interrupts.
    pub bits: Bits,
    /// The words of instructions.
    pub instruction_words: Words,
    /// Hypervisor loads and stores.
    pub guest: Guest,
    /// Depths of tables, and MODEs.
    pub deep: Deep,
    /// Numbers of registers.
    pub numbers: Numbers,
    /// Refusals by event word and number.
    pub refused_words: BTreeMap<(&'static str, u64), u64>,
    /// Single flipped bits.
    pub flips: BTreeMap<Flip, u64>,
    /// From the outputs: `refused N`.
    pub refusals: BTreeMap<u64, u64>,
    /// From the outputs: `fault CAUSE`.
    pub faults: BTreeMap<u64, u64>,
    /// From the outputs: `address`.
    pub addresses: u64,
    /// From the outputs: lengths of the lists of `address` and `fault` answers.
    pub lengths: BTreeMap<u64, u64>,
    /// From the outputs: `read STAGE LEVEL`.
    pub reads: BTreeMap<(u64, u64), u64>,
    /// From the outputs: `# why: `, by the kind of the reason.
    pub reasons: BTreeMap<usize, u64>,
    /// From the outputs: a `# why: ` line that gives no reason.
    pub no_reason: Option<String>,
    /// From the outputs: `error`.
    pub bad_lines: u64,
    /// Scripts compared.
    pub scripts: u64,
    /// Bytes of output compared.
    pub bytes: u64,
}

/// The word of a line that is an event.
pub fn event_word(line: &Line) -> Option<&'static str> {
    let word = match line {
        Line::Translate(access) => match access.kind {
            Kind::Fetch => "fetch",
            Kind::Load => "load",
            Kind::Store => "store",
        },
        Line::Register { action, .. } => match action {
            Action::Read => "read",
            Action::Write(_) => "write",
            Action::Set { .. } => "set",
            Action::Clear { .. } => "clear",
        },
        Line::Trap(_) => "trap",
        Line::Ecall => "ecall",
        Line::Ebreak => "ebreak",
        Line::Instruction { instruction, .. } => match instruction {
            Instruction::Mret => "mret",
            Instruction::Sret => "sret",
            Instruction::Wfi => "wfi",
            Instruction::SfenceVma => "sfence.vma",
            Instruction::HfenceVvma => "hfence.vvma",
            Instruction::HfenceGvma => "hfence.gvma",
        },
        Line::Interrupt => "interrupt",
        Line::Guest { access, .. } => match access.operation {
            Operation::Load { .. } => "hlv",
            Operation::LoadExecutable => "hlvx",
            Operation::Store { .. } => "hsv",
        },
        Line::Show => "show",
        Line::Image { .. }
        | Line::File { .. }
        | Line::Put { .. }
        | Line::Hart { .. }
        | Line::Reg { .. }
        | Line::Start(_)
        | Line::Press => return None,
    };
    Some(word)
}

/// What a line meets.
#[derive(Clone, Copy, Debug, PartialEq, Eq)]
pub struct Before {
    /// The hart before it.
    pub hart: Hart,
    /// The image's base and length.
    pub image: (u64, u64),
    /// Whether the image is one that is taken.
    pub image_taken: bool,
    /// What the access of a hypervisor load or store in M with MPRV set would come to if MPRV were obeyed.
    pub by_mprv: Option<walk::Answer>,
}

impl Before {
    /// What this line meets in a session.
    pub fn of(session: &Session, line: &Line) -> Before {
        let (hart, image) = (&session.hart, &session.image);
        let by_mprv = match line {
            Line::Guest { access, .. } if has_mprv(hart) => {
                Some(translate(hart, image, &access.access()).answer)
            }
            _ => None,
        };
        Before {
            hart: *hart,
            image: (image.base, image.bytes.len() as u64),
            image_taken: image.refusal().is_none(),
            by_mprv,
        }
    }
}

/// One more of these.
fn count<K: Ord>(counts: &mut BTreeMap<K, u64>, key: K) {
    *counts.entry(key).or_insert(0) += 1;
}

/// Adds the counts of another.
fn add<K: Ord + Copy>(counts: &mut BTreeMap<K, u64>, others: &BTreeMap<K, u64>) {
    for (key, number) in others {
        *counts.entry(*key).or_insert(0) += number;
    }
}

impl Coverage {
    /// Notes a line of a script, what it met and its answer.
    pub fn note(&mut self, line: &Line, met: &Before, answer: &Answer) {
        self.guest.note(line, met, answer);
        self.deep.note(line, met, answer);
        self.numbers.note(line, met, answer);
        let before = &met.hart;
        self.instruction_words.note(line, before, answer);
        let Some(word) = event_word(line) else {
            return;
        };
        count(&mut self.words, word);
        if word != "show" {
            self.events += 1;
        }
        let entry_fault = self.entry_fault.take();
        match answer {
            Answer::Nothing | Answer::Hart(_) | Answer::Started(_) | Answer::Pressed(_) => {}
            Answer::Translation(translation) => {
                if let second::walk::Answer::Refused(number) = translation.answer {
                    count(&mut self.refused_words, (word, number));
                } else if let Some(mode) = before.checked_mode() {
                    count(&mut self.translations, mode);
                }
                if let Some(why) = translation.why {
                    count(&mut self.rules, (word, why.key()));
                    if let walk::Answer::Fault(trap) = translation.answer {
                        self.entry_fault = of_entry(&why.key()).then_some(trap);
                    }
                }
            }
            Answer::Register(accessed) => self.note_ending(word, before, &accessed.outcome.ending),
            Answer::Event(outcome) => {
                self.note_ending(word, before, &outcome.ending);
                if let (Line::Trap(trap), Ending::Trapped(_, target)) = (line, outcome.ending) {
                    if entry_fault == Some(*trap) {
                        count(&mut self.of_entries, (trap.cause, target));
                    }
                }
            }
            Answer::Guest(reached) => self.note_ending(word, before, &reached.outcome.ending),
        }
        if let Some(mode) = before.checked_mode() {
            self.note_mode(line, word, before, mode, answer);
        }
    }

    fn note_ending(&mut self, word: &'static str, before: &Hart, ending: &Ending) {
        match ending {
            Ending::Refused(number) => count(&mut self.refused_words, (word, *number)),
            Ending::Trapped(trap, target) => {
                count(&mut self.delivered, (trap.cause, *target));
                self.interrupts.note_exception(before, trap.cause, *target);
            }
            Ending::Done => {}
        }
    }

    /// Notes what depends on the mode of a hart that passes.
    fn note_mode(
        &mut self,
        line: &Line,
        word: &'static str,
        before: &Hart,
        mode: Mode,
        answer: &Answer,
    ) {
        match (line, answer) {
            (Line::Ecall | Line::Ebreak | Line::Instruction { .. } | Line::Guest { .. }, _) => {
                count(&mut self.instructions, (word, mode));
            }
            (Line::Interrupt, Answer::Event(outcome)) => {
                self.interrupts.note(before, mode, outcome);
            }
            (Line::Register { number, action, .. }, Answer::Register(accessed))
                if find(*number).is_some() =>
            {
                count(&mut self.registers, (*number, mode));
                self.bits.note(before, mode, *number, *action, accessed);
            }
            _ => {}
        }
    }

    /// Notes that a hart one bit away from a hart that passes was met.
    pub fn note_flip(&mut self, passing: &Hart, met: &Hart, meeting: Meeting) {
        let mode = passing.checked_mode();
        if let (Some(mode), Some((word, bit))) = (mode, flipped_bit(passing, met)) {
            count(&mut self.flips, (mode, meeting, word, bit));
        }
    }

    /// How many bits of a hart in this mode were flipped and met.
    fn flipped(&self, mode: Mode, meeting: Meeting) -> usize {
        let all = (mode, meeting, 0, 0)..=(mode, meeting, usize::MAX, u32::MAX);
        self.flips.range(all).count()
    }

    /// Counts what a program wrote.
    pub fn read_output(&mut self, output: &[u8]) {
        self.scripts += 1;
        self.bytes += output.len() as u64;
        let mut open_list: Option<u64> = None;
        for line in output.split(|byte| *byte == b'\n') {
            if let Some(reason) = line.strip_prefix(REASON) {
                self.note_reason(&String::from_utf8_lossy(reason));
                continue;
            }
            if let Some(said) = line.strip_prefix(WORD) {
                let said = String::from_utf8_lossy(said);
                self.instruction_words.note_line(&said);
                continue;
            }
            let mut words = line.split(|byte| *byte == b' ');
            let word = words.next().unwrap_or(b"");
            let mut number = || {
                words
                    .next()
                    .and_then(second::script::parse_number)
                    .unwrap_or(u64::MAX)
            };
            if word == b"read" {
                count(&mut self.reads, (number(), number()));
                open_list = open_list.map(|length| length + 1);
                continue;
            }
            if let Some(length) = open_list.take() {
                count(&mut self.lengths, length);
            }
            match word {
                b"address" => {
                    self.addresses += 1;
                    open_list = Some(0);
                }
                b"fault" => {
                    count(&mut self.faults, number());
                    open_list = Some(0);
                }
                b"refused" => count(&mut self.refusals, number()),
                b"error" => self.bad_lines += 1,
                _ => {}
            }
        }
    }

    /// Counts a reason.
    fn note_reason(&mut self, text: &str) {
        match KINDS.find(text) {
            Some(kind) => count(&mut self.reasons, kind),
            None => self.no_reason = Some(text.to_string()),
        }
    }

    /// Adds another's counts.
    pub fn add(&mut self, other: &Coverage) {
        add(&mut self.words, &other.words);
        self.events += other.events;
        add(&mut self.rules, &other.rules);
        add(&mut self.delivered, &other.delivered);
        add(&mut self.of_entries, &other.of_entries);
        add(&mut self.instructions, &other.instructions);
        add(&mut self.registers, &other.registers);
        add(&mut self.translations, &other.translations);
        self.interrupts.add(&other.interrupts);
        self.bits.add(&other.bits);
        self.instruction_words.add(&other.instruction_words);
        self.guest.add(&other.guest);
        self.deep.add(&other.deep);
        self.numbers.add(&other.numbers);
        add(&mut self.refused_words, &other.refused_words);
        add(&mut self.flips, &other.flips);
        add(&mut self.refusals, &other.refusals);
        add(&mut self.faults, &other.faults);
        self.addresses += other.addresses;
        add(&mut self.lengths, &other.lengths);
        add(&mut self.reads, &other.reads);
        add(&mut self.reasons, &other.reasons);
        self.no_reason = self.no_reason.take().or(other.no_reason.clone());
        self.bad_lines += other.bad_lines;
        self.scripts += other.scripts;
        self.bytes += other.bytes;
    }

    /// What must be given as a reason and was not, and what was given and is none.
    fn missing_whys(&self) -> Vec<String> {
        let missing = (0..KINDS.count()).filter(|kind| !self.reasons.contains_key(kind));
        let missing = missing.map(|kind| format!("the reason \"{}\"", KINDS.text(kind)));
        let wrong = self.no_reason.iter();
        let wrong = wrong.map(|text| format!("a reason instead of \"{text}\""));
        missing.chain(wrong).collect()
    }

    /// What must be given as a reason or said about a word and was not, and what was given or said and is neither.
    pub fn missing_reasons(&self) -> Vec<String> {
        let mut missing = self.missing_whys();
        missing.extend(self.instruction_words.missing_lines());
        missing
    }

    /// What must be reached and was not, but for reasons.
    pub fn missing(&self) -> Vec<String> {
        let mut missing = Vec::new();
        for word in WORDS {
            if !self.words.contains_key(word) {
                missing.push(format!("the event word {word}"));
            }
        }
        for cause in CAUSES {
            for target in targets_of(cause) {
                if !self.delivered.contains_key(&(cause, target)) {
                    missing.push(format!("cause {cause} delivered to {target:?}"));
                }
            }
        }
        for cause in FAULT_CAUSES {
            if !self.faults.contains_key(&cause) {
                missing.push(format!("a fault of cause {cause}"));
            }
        }
        for number in 1..=5 {
            if !self.refusals.contains_key(&number) {
                missing.push(format!("refusal {number}"));
            }
        }
        for length in 0..=PLACES as u64 {
            if !self.lengths.contains_key(&length) {
                missing.push(format!("a list of {length} reads"));
            }
        }
        for stage in 1..=2 {
            for level in 0..5 {
                if !self.reads.contains_key(&(stage, level)) {
                    missing.push(format!("a read of stage {stage} at level {level}"));
                }
            }
        }
        for key in ending_rules() {
            if !self.rules.contains_key(&key) {
                missing.push(format!("the rule {}", describe(&key)));
            }
        }
        for cause in GUEST_PAGE_CAUSES {
            for target in targets_of(cause) {
                if !self.of_entries.contains_key(&(cause, target)) {
                    missing.push(format!(
                        "cause {cause} of a guest entry delivered to {target:?}"
                    ));
                }
            }
        }
        for mode in Mode::ALL {
            for row in &ROWS {
                if !self.registers.contains_key(&(row.number, mode)) {
                    missing.push(format!("an access to {} in {mode:?}", row.name));
                }
            }
            for word in WORDS[8..16].iter().chain(&WORDS[17..20]) {
                if !self.instructions.contains_key(&(*word, mode)) {
                    missing.push(format!("{word} in {mode:?}"));
                }
            }
            if !self.translations.contains_key(&mode) {
                missing.push(format!("a translation in {mode:?}"));
            }
            for meeting in [Meeting::Translation, Meeting::Event] {
                let short = hart_bits() - self.flipped(mode, meeting);
                if short > 0 {
                    missing.push(format!("{short} flipped bits in {mode:?} by {meeting:?}"));
                }
            }
        }
        if !self.refused_words.contains_key(&("interrupt", 2)) {
            missing.push("a refused interrupt".to_string());
        }
        missing.extend(self.interrupts.missing());
        missing.extend(self.bits.missing());
        missing.extend(self.instruction_words.missing());
        missing.extend(self.guest.missing());
        missing.extend(self.deep.missing());
        missing.extend(self.numbers.missing());
        if self.bad_lines == 0 {
            missing.push("a bad line".to_string());
        }
        missing
    }

    /// The counts, for people.
    pub fn table(&self) -> String {
        let mut text = String::new();
        let _ = writeln!(
            text,
            "events {} (and {} show), scripts {}, bad lines {}, bytes compared {}",
            self.events,
            self.words.get("show").unwrap_or(&0),
            self.scripts,
            self.bad_lines,
            self.bytes
        );
        self.table_of_events(&mut text);
        self.table_of_answers(&mut text);
        self.table_of_rules(&mut text);
        self.table_of_reasons(&mut text);
        text
    }

    fn table_of_events(&self, text: &mut String) {
        text.push_str("event words:");
        for word in WORDS {
            let _ = write!(text, " {word} {}", self.words.get(word).unwrap_or(&0));
        }
        text.push_str("\ntraps delivered, by cause (to M / HS / VS):");
        for cause in CAUSES {
            let to = |target| self.delivered.get(&(cause, target)).unwrap_or(&0);
            let _ = write!(
                text,
                " {cause}: {}/{}/{}",
                to(Target::M),
                to(Target::Hs),
                to(Target::Vs)
            );
        }
        text.push_str(
            "\nof these, faults of translations on the way to a guest entry (to M / HS):",
        );
        for cause in GUEST_PAGE_CAUSES {
            let to = |target| self.of_entries.get(&(cause, target)).unwrap_or(&0);
            let _ = write!(text, " {cause}: {}/{}", to(Target::M), to(Target::Hs));
        }
        text.push_str("\ntranslations by mode:");
        for (mode, number) in &self.translations {
            let _ = write!(text, " {mode:?} {number}");
        }
        let _ = writeln!(
            text,
            "\nregisters by mode: {} of {} reached",
            self.registers.len(),
            ROWS.len() * Mode::ALL.len()
        );
        let _ = writeln!(
            text,
            "flipped bits of a hart, by mode, with a translation and with another event: {} of {}",
            self.flips.len(),
            2 * hart_bits() * Mode::ALL.len()
        );
        self.interrupts.table(text);
        self.bits.table(text);
        self.instruction_words.table(text);
        self.guest.table(text);
        self.deep.table(text);
        self.numbers.table(text);
    }

    fn table_of_answers(&self, text: &mut String) {
        let _ = write!(text, "addresses {}; faults by cause:", self.addresses);
        for (cause, number) in &self.faults {
            let _ = write!(text, " {cause}: {number}");
        }
        text.push_str("\nrefusals:");
        for (refusal, number) in &self.refusals {
            let _ = write!(text, " {refusal}: {number}");
        }
        text.push_str("\nrefusals by event word:");
        for ((word, refusal), number) in &self.refused_words {
            let _ = write!(text, " {word}/{refusal}: {number}");
        }
        text.push_str("\nlist lengths:");
        for (length, number) in &self.lengths {
            let _ = write!(text, " {length}: {number}");
        }
        text.push_str("\nreads by stage and level:");
        for ((stage, level), number) in &self.reads {
            let _ = write!(text, " {stage}/{level}: {number}");
        }
        text.push('\n');
    }

    fn table_of_rules(&self, text: &mut String) {
        let all = ending_rules();
        let reached = all
            .iter()
            .filter(|key| self.rules.contains_key(key))
            .count();
        let _ = writeln!(
            text,
            "fault rules by event, part and level: {reached} of {} reached; the rarest:",
            all.len()
        );
        let mut counts: Vec<(u64, &Ended)> = self
            .rules
            .iter()
            .map(|(key, number)| (*number, key))
            .collect();
        counts.sort();
        for (number, key) in counts.iter().take(8) {
            let _ = writeln!(text, "  {} {number}", describe(key));
        }
        let mut by_rule: BTreeMap<Rule, u64> = BTreeMap::new();
        for ((_, (rule, ..)), number) in &self.rules {
            *by_rule.entry(*rule).or_insert(0) += number;
        }
        text.push_str("fault rules:");
        for (rule, number) in &by_rule {
            let _ = write!(text, " {rule:?} {number}");
        }
        text.push('\n');
    }

    fn table_of_reasons(&self, text: &mut String) {
        let _ = writeln!(
            text,
            "reasons {}; kinds of reasons: {} of {} given; the rarest:",
            self.reasons.values().sum::<u64>(),
            self.reasons.len(),
            KINDS.count()
        );
        let mut counts: Vec<(u64, usize)> = self
            .reasons
            .iter()
            .map(|(kind, number)| (*number, *kind))
            .collect();
        counts.sort();
        for (number, kind) in counts.iter().take(8) {
            let _ = writeln!(text, "  {} {number}", KINDS.text(*kind));
        }
        self.instruction_words.table_of_lines(text);
    }
}

/// How many of the cases of each kind were reached, of how many, for people.
fn table_of_kinds<'a>(cases: impl Iterator<Item = (&'a str, bool)>) -> String {
    let mut kinds: Vec<(&str, [usize; 2])> = Vec::new();
    for (kind, reached) in cases {
        let known = kinds.iter().position(|(known, _)| *known == kind);
        let place = known.unwrap_or_else(|| {
            kinds.push((kind, [0, 0]));
            kinds.len() - 1
        });
        kinds[place].1[0] += usize::from(reached);
        kinds[place].1[1] += 1;
    }
    let counts = kinds.iter();
    let counts =
        counts.map(|(kind, [reached, there_are])| format!("{kind}: {reached} of {there_are}"));
    counts.collect::<Vec<String>>().join("; ")
}

/// Whether a register is stored.
pub fn is_stored(row: &Row) -> bool {
    Hart::new(0, 3, 0).stored(row.number).is_some()
}

/// How many bits a hart has.
fn hart_bits() -> usize {
    64 * words(&Hart::new(0, 3, 0)).len()
}

/// Where a cause can be delivered to: medeleg has no bit 11, hedeleg no bit 9, 10, 11, 20 to 23; 9 and 11 come with V=0.
fn targets_of(cause: u64) -> Vec<Target> {
    let mut targets = vec![Target::M];
    if cause != 11 {
        targets.push(Target::Hs);
    }
    if matches!(cause, 0..=8 | 12 | 13 | 15) {
        targets.push(Target::Vs);
    }
    targets
}

/// Every rule at every part and level where it can hold.
pub fn reachable_rules() -> Vec<Key> {
    let mut rules = Vec::new();
    for rule in [Rule::Misaligned, Rule::AccessOutside] {
        rules.push((rule, Part::Access, None));
    }
    for part in [
        Part::Satp,
        Part::Vsatp,
        Part::HgatpForEntry,
        Part::HgatpForAccess,
    ] {
        for bits in address_bits(part) {
            rules.push((Rule::HighBits(*bits), part, None));
        }
        for level in 0..5 {
            for rule in entry_rules(part, level) {
                rules.push((rule, part, Some(level)));
            }
        }
    }
    rules
}

/// How many bits of its address a part may take, by the depth of its tables, where it can be given more. (A guest entry's address has
/// 56 bits: never too many for Sv57x4.)
pub fn address_bits(part: Part) -> &'static [u32] {
    match part {
        Part::Access => &[],
        Part::Satp | Part::Vsatp => &[39, 48, 57],
        Part::HgatpForEntry => &[41, 50],
        Part::HgatpForAccess => &[41, 50, 59],
    }
}

/// The rules about an entry that can hold at a part and level.
fn entry_rules(part: Part, level: u64) -> Vec<Rule> {
    let mut rules = vec![
        Rule::EntryOutside,
        Rule::NotValid,
        Rule::WriteWithoutRead,
        Rule::ReservedBits,
        Rule::PointerWithA,
        Rule::PointerWithD,
        Rule::PointerWithU,
        Rule::NotAccessed,
        Rule::NotUser,
        Rule::NotReadable,
    ];
    rules.push(if level == 0 {
        Rule::PointerAtLevelZero
    } else {
        Rule::LargeLeafLowPpn
    });
    if part != Part::HgatpForEntry {
        rules.extend([Rule::NotDirty, Rule::NotWritable, Rule::NotExecutable]);
    }
    if matches!(part, Part::Satp | Part::Vsatp) {
        rules.extend([Rule::SupervisorFetch, Rule::SupervisorNeedsSum]);
    }
    rules
}

/// Whether it is a guest-page fault on the way to a guest entry.
fn of_entry((rule, part, _): &Key) -> bool {
    *part == Part::HgatpForEntry && *rule != Rule::EntryOutside
}

/// Whether a rule can end this event's walk.
fn ends(event: &str, (rule, part, _): &Key) -> bool {
    match rule {
        Rule::Misaligned | Rule::SupervisorNeedsSum => event != "fetch",
        Rule::NotDirty | Rule::NotWritable => matches!(event, "store" | "hsv"),
        Rule::NotReadable => *part == Part::HgatpForEntry || matches!(event, "load" | "hlv"),
        Rule::NotExecutable | Rule::SupervisorFetch => event == "fetch",
        Rule::NotExecutableForHlvx => event == "hlvx",
        _ => true,
    }
}

/// Every rule that can end a fetch, a load and a store.
pub fn ending_rules() -> Vec<Ended> {
    let of_event = |event| {
        let rules = reachable_rules().into_iter();
        rules.map(move |key| (event, key))
    };
    let all = ["fetch", "load", "store"].into_iter().flat_map(of_event);
    all.filter(|(event, key)| ends(event, key)).collect()
}

/// A rule, its place and the event that it ended, for people.
fn describe((event, (rule, part, level)): &Ended) -> String {
    match level {
        Some(level) => format!("{rule:?} at level {level} of {part:?}, by {event}"),
        None => format!("{rule:?} of {part:?}, by {event}"),
    }
}

#[cfg(test)]
mod tests {
    use super::*;
    use second::script::parse;
    use std::path::PathBuf;

    /// What a count comes to by the lines of a script, with its answers changed.
    pub fn notes<T: Default>(
        script: &str,
        change: fn(&mut Answer),
        note: fn(&mut T, &Line, &Before, &Answer),
    ) -> T {
        let mut counted = T::default();
        let mut session = Session::new(PathBuf::new());
        for line in script.split(';') {
            let line = parse(line.as_bytes()).unwrap().unwrap();
            let before = Before::of(&session, &line);
            let mut answer = session.perform(&line).unwrap();
            change(&mut answer);
            note(&mut counted, &line, &before, &answer);
        }
        counted
    }

    #[test]
    fn outputs_are_counted() {
        let mut coverage = Coverage::default();
        coverage.read_output(
            b"address 0\nread 2 2 0 1\nread 1 0 8 1\nok\nfault 15 0 0 0 1\nrefused 5\nvalue 3\naddress 1\nerror 7\n",
        );
        assert_eq!(coverage.addresses, 2);
        assert_eq!(coverage.lengths, BTreeMap::from([(0, 2), (2, 1)]));
        assert_eq!(coverage.reads, BTreeMap::from([((1, 0), 1), ((2, 2), 1)]));
        assert_eq!(coverage.faults, BTreeMap::from([(21, 1)]));
        assert_eq!(coverage.refusals, BTreeMap::from([(5, 1)]));
        assert_eq!(coverage.bad_lines, 1);
    }

    #[test]
    fn reasons_are_counted() {
        let mut coverage = Coverage::default();
        coverage.read_output(b"refused 5\n# why: register number 1000 is over fff\n");
        coverage.read_output(b"ok\n# why: mstatus.TW is 1\nok\n# why: mstatus.TW is 1\n# other\n");
        let counts: Vec<u64> = coverage.reasons.values().copied().collect();
        assert_eq!(counts, [1, 2]);
        assert_eq!(coverage.no_reason, None);
        let missing = coverage.missing_whys();
        assert_eq!(missing.len(), KINDS.count() - 2);
        let of_tsr = "the reason \"mstatus.TSR is 1\"".to_string();
        assert!(missing.contains(&of_tsr));
        coverage.read_output(b"ok\n# why: mstatus.TW is on\n");
        let missing = coverage.missing_whys();
        assert_eq!(
            missing.last().unwrap(),
            "a reason instead of \"mstatus.TW is on\""
        );
    }

    #[test]
    fn what_is_said_about_words_is_counted() {
        let mut coverage = Coverage::default();
        let none = coverage.missing_reasons().len();
        coverage.read_output(b"ok\n# word: 10500073 is WFI\n# why: mstatus.TW is 1\nok\n");
        assert_eq!(coverage.instruction_words.lines.len(), 1);
        assert_eq!(coverage.missing_reasons().len(), none - 2);
        coverage.read_output(b"ok\n# word: wfi\n");
        let missing = coverage.missing_reasons();
        assert_eq!(missing.last().unwrap(), "a word instead of \"wfi\"");
    }

    #[test]
    fn a_list_before_a_reason_is_counted() {
        let mut coverage = Coverage::default();
        coverage.read_output(
            b"fault d 0 0 0 0\nread 1 2 0 1\n# why: first stage (satp), level 2: V is 0\nok\n",
        );
        assert_eq!(coverage.lengths, BTreeMap::from([(1, 1)]));
    }

    #[test]
    fn a_list_at_the_very_end_is_counted() {
        let mut coverage = Coverage::default();
        coverage.read_output(b"address 0\nread 1 2 0 1\n");
        assert_eq!(coverage.lengths, BTreeMap::from([(1, 1)]));
    }

    #[test]
    fn nothing_reached_is_much_missing() {
        let missing = Coverage::default().missing();
        for needed in [
            "refusal 4",
            "a list of 35 reads",
            "cause 23 delivered to M",
            "cause 20 of a guest entry delivered to Hs",
            "the rule NotReadable at level 1 of HgatpForEntry, by fetch",
            "the rule LargeLeafLowPpn at level 4 of Vsatp, by store",
            "the rule HighBits(59) of HgatpForAccess, by load",
            "a read of stage 2 at level 4",
            "the event word wfi",
            "the event word interrupt",
            "a refused interrupt",
            "interrupt 10 to VS alone in Vu, enable bits [false, false, false]",
            "interrupt 9 to M with interrupt 2 to VS due",
            "no interrupt pending in Hs",
            "bits 222 of 144 in Vs: 1 written and not handed down",
            "bits ffffffff of a word as 1 in VS's tval, by mret in VU with cause 2",
            "wfi done, with a word",
            "set refused as 5, with a word",
            "an event and its word: write and CSRRW, S 0, N its number, S not its value",
            "an event and its word: hsv 2 and HSV.H, S not 0, ADDRESS 0, T not 0, VALUE 0",
            "hlvx in Hs",
            "hsv refused as 3, with a word",
            "a hypervisor load or store: Loaded { form: (\"hlv\", 2, true), value: Smallest }",
            "a hypervisor load or store: Table { width: 4, stage: 2, event: \"fetch\" }",
            "bits ffffffffffffffff of VALUE as 0, by a store of 1 that is read back",
            "of numbers: read of e13 in HS",
            "of numbers: clear 1 of 100 in VS",
            "of numbers: 2300 refused as 5",
            "a bad line",
        ] {
            assert!(
                missing.iter().any(|sentence| sentence == needed),
                "{needed}"
            );
        }
        assert!(missing.len() > 3500);
    }

    #[test]
    fn a_flip_is_one_bit_of_a_hart_that_passes() {
        let good = Hart::new(0, 3, 0x40);
        let mut coverage = Coverage::default();
        let mut note = |hart: &Hart, change: fn(&mut Hart)| {
            let mut met = *hart;
            change(&mut met);
            coverage.note_flip(hart, &met, Meeting::Event);
        };
        note(&good, |_| {});
        note(&good, |hart| hart.pc ^= 3);
        note(&good, |hart| (hart.v, hart.hgatp) = (1, 1));
        note(&Hart::new(0, 2, 0), |hart| hart.pc ^= 1);
        note(&good, |hart| hart.pc ^= 1 << 63);
        note(&good, |hart| hart.hgatp ^= 4);
        assert_eq!(coverage.flipped(Mode::M, Meeting::Event), 2);
        let flips = [(2, 63), (33, 2)].map(|(word, bit)| ((Mode::M, Meeting::Event, word, bit), 1));
        assert_eq!(coverage.flips, BTreeMap::from(flips));
    }

    /// A guest-page fault on the way to a guest entry counts as delivered by the trap request behind it alone.
    #[test]
    fn the_fault_of_a_guest_entry_is_counted_by_its_cause_and_target() {
        let scene = "hart 1 1 0;reg 280 8000000020000000;reg 680 8000000000000000;reg 302 800000";
        let fault = "trap 17 0 8000000000 3000 1";
        let script = format!("{scene};store 0 8;{fault};hart 1 1 0;{fault}");
        let coverage = notes(&script, |_| {}, Coverage::note);
        let key = (Rule::HighBits(41), Part::HgatpForEntry, None);
        assert_eq!(coverage.rules, BTreeMap::from([(("store", key), 1)]));
        let delivered = BTreeMap::from([((23, Target::Hs), 1)]);
        assert_eq!(coverage.of_entries, delivered);
    }

    #[test]
    fn rules_are_each_named_once() {
        let mut rules = ending_rules();
        let length = rules.len();
        assert_eq!(length, 743);
        rules.sort();
        rules.dedup();
        assert_eq!(rules.len(), length);
    }
}
