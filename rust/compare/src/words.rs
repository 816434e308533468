//! Instruction words: those that an event can have, and others in their place. Their encodings are here once more, as the manual has
//! them: the bits that an instruction's words have in common, and their values.

use second::access::Action;
use second::hypervisor::{GuestAccess, Operation};
use second::script::{parse, Line};

use crate::coverage::event_word;
use crate::rng::Rng;

/// An instruction's words: those that have these bits where the mask has ones.
#[derive(Clone, Copy, Debug, PartialEq, Eq)]
pub struct Pattern {
    /// The instruction's name.
    pub name: &'static str,
    mask: u32,
    bits: u32,
}

const fn pattern(name: &'static str, mask: u32, bits: u32) -> Pattern {
    Pattern { name, mask, bits }
}

/// The mask of an instruction that is one word.
const WHOLE: u32 = u32::MAX;
/// The mask of a fence: all but its two registers.
const FENCE: u32 = 0xfe00_7fff;
/// The mask of a register access: all but N, S and D.
const ACCESS: u32 = 0x707f;
/// The mask of a hypervisor load: all but S and D.
const LOAD: u32 = 0xfff0_707f;
/// The mask of a hypervisor store: all but T and S.
const STORE: u32 = FENCE;

/// A word is the first of these whose bits it has.
pub const PATTERNS: [Pattern; 29] = [
    pattern("ECALL", WHOLE, 0x0000_0073),
    pattern("EBREAK", WHOLE, 0x0010_0073),
    pattern("MRET", WHOLE, 0x3020_0073),
    pattern("SRET", WHOLE, 0x1020_0073),
    pattern("WFI", WHOLE, 0x1050_0073),
    pattern("SFENCE.VMA", FENCE, 0x1200_0073),
    pattern("HFENCE.VVMA", FENCE, 0x2200_0073),
    pattern("HFENCE.GVMA", FENCE, 0x6200_0073),
    pattern("CSRRW", ACCESS, 0x1073),
    pattern("CSRRS", ACCESS, 0x2073),
    pattern("CSRRC", ACCESS, 0x3073),
    pattern("CSRRWI", ACCESS, 0x5073),
    pattern("CSRRSI", ACCESS, 0x6073),
    pattern("CSRRCI", ACCESS, 0x7073),
    pattern("HLV.B", LOAD, 0x6000_4073),
    pattern("HLV.BU", LOAD, 0x6010_4073),
    pattern("HLV.H", LOAD, 0x6400_4073),
    pattern("HLV.HU", LOAD, 0x6410_4073),
    pattern("HLVX.HU", LOAD, 0x6430_4073),
    pattern("HLV.W", LOAD, 0x6800_4073),
    pattern("HLV.WU", LOAD, 0x6810_4073),
    pattern("HLVX.WU", LOAD, 0x6830_4073),
    pattern("HLV.D", LOAD, 0x6c00_4073),
    pattern("HSV.B", STORE, 0x6200_4073),
    pattern("HSV.H", STORE, 0x6600_4073),
    pattern("HSV.W", STORE, 0x6a00_4073),
    pattern("HSV.D", STORE, 0x6e00_4073),
    pattern("another SYSTEM instruction", 0x7f, 0x73),
    pattern("no SYSTEM instruction", 0, 0),
];

/// What a word is.
fn pattern_of(word: u32) -> &'static Pattern {
    let mut patterns = PATTERNS.iter();
    let found = patterns.find(|pattern| word & pattern.mask == pattern.bits);
    found.expect("the last has every word")
}

/// The instruction with this name.
pub fn named(name: &str) -> &'static Pattern {
    let mut patterns = PATTERNS.iter();
    let found = patterns.find(|pattern| pattern.name == name);
    found.expect("a name of an instruction")
}

impl Pattern {
    /// Whether it is a register access.
    pub fn is_access(&self) -> bool {
        self.mask == ACCESS
    }

    /// Whether it is a hypervisor load.
    fn is_load(&self) -> bool {
        self.mask == LOAD
    }

    /// Whether it is a hypervisor store.
    fn is_store(&self) -> bool {
        self.name.starts_with("HSV")
    }

    /// Any of its words; some of their fields are often 0.
    pub fn word(&self, rng: &mut Rng) -> u32 {
        let zero = rng.pick(&[0, 0x1f << 7, 0x1f << 15, 0x1f << 20, 0x3ff << 15]);
        loop {
            let word = (rng.bits() as u32 & !zero & !self.mask) | self.bits;
            if pattern_of(word) == self {
                return word;
            }
        }
    }

    /// The word with these fields: of a fence or a hypervisor store N is the register at bits 24:20, of a load 0.
    pub fn with_fields(&self, n: u32, s: u32, d: u32) -> u32 {
        self.bits | (n << 20) | (s << 15) | (d << 7)
    }
}

/// N, bits 31:20 of a register access.
fn n_of(word: u32) -> u32 {
    word >> 20
}

/// S, bits 19:15.
fn s_of(word: u32) -> u32 {
    (word >> 15) & 0x1f
}

/// T, bits 24:20.
fn t_of(word: u32) -> u32 {
    (word >> 20) & 0x1f
}

// Choosing a word.

/// The line of an event with a word behind it, where it has one: mostly one that fits.
pub fn with_word(rng: &mut Rng, text: &str) -> String {
    // With one more number it is a good line exactly if it has a word.
    let event = parse(format!("{text} 0").as_bytes()).ok().flatten();
    match event.and_then(|event| fitting(rng, &event)) {
        Some(fitting) => format!("{text} {:x}", choose(rng, fitting)),
        None => text.to_string(),
    }
}

/// Words at limits.
const LIMITS: [u32; 6] = [0, 1, u32::MAX, 1 << 31, i32::MAX as u32, 0x73];

/// The word that fits, or another: near it, of the same register, of another instruction, a half of it, or any.
fn choose(rng: &mut Rng, fitting: u32) -> u32 {
    match rng.below(20) {
        0 | 1 => fitting ^ (1 << rng.below(32)),
        2 => (fitting & 0xfff0_007f) | (rng.bits() as u32 & 0xf_ff80),
        3 => rng.pick(&PATTERNS).word(rng),
        4 => rng.bits() as u32,
        5 => rng.pick(&LIMITS),
        6 => fitting & rng.pick(&[0xffff, 0xffff_0000]),
        _ => fitting,
    }
}

/// A word that fits an event, with any registers where it does not say which; none for an event without a word.
fn fitting(rng: &mut Rng, event: &Line) -> Option<u32> {
    match event {
        Line::Register { number, action, .. } => Some(fitting_access(rng, *number, *action)),
        Line::Instruction { .. } => Some(named(&event_word(event)?.to_uppercase()).word(rng)),
        Line::Guest { access, .. } => Some(fitting_guest(rng, access)),
        _ => None,
    }
}

/// The name of a hypervisor load or store that an access is; none where its width is none.
fn guest_name(access: &GuestAccess) -> Option<&'static str> {
    let names: [&str; 4] = match access.operation {
        Operation::Load { signed: true } => ["HLV.B", "HLV.H", "HLV.W", "HLV.D"],
        Operation::Load { signed: false } => ["HLV.BU", "HLV.HU", "HLV.WU", "HLV.D"],
        Operation::LoadExecutable => ["", "HLVX.HU", "HLVX.WU", ""],
        Operation::Store { .. } => ["HSV.B", "HSV.H", "HSV.W", "HSV.D"],
    };
    let place = [1, 2, 4, 8].iter().position(|of| *of == access.width)?;
    (!names[place].is_empty()).then_some(names[place])
}

/// Where the width is none of the instruction's, the word is of another width and does not fit.
fn fitting_guest(rng: &mut Rng, access: &GuestAccess) -> u32 {
    let name = guest_name(access).unwrap_or(match access.operation {
        Operation::Load { .. } => "HLV.W",
        Operation::LoadExecutable => "HLVX.WU",
        Operation::Store { .. } => "HSV.W",
    });
    let mut register = |value: u64| match value {
        0 => rng.below(32) as u32 * rng.below(2) as u32,
        _ => 1 + rng.below(31) as u32,
    };
    let s = register(access.address);
    match access.operation {
        Operation::Store { value } => named(name).with_fields(register(value), s, 0),
        _ => named(name).with_fields(0, s, register(0)),
    }
}

/// The low twelve bits of a larger number are the N of a word that does not fit.
fn fitting_access(rng: &mut Rng, number: u64, action: Action) -> u32 {
    let (names, value): (&[&str], u64) = match action {
        Action::Read => (&["CSRRS", "CSRRSI", "CSRRC", "CSRRCI"], 0),
        Action::Write(value) => (&["CSRRW", "CSRRWI"], value),
        Action::Set { value, .. } => (&["CSRRS", "CSRRSI"], value),
        Action::Clear { value, .. } => (&["CSRRC", "CSRRCI"], value),
    };
    let by_value = rng.chance(50);
    let (name, s) = match (action, value) {
        _ if !action.writes() => (rng.pick(names), 0),
        (Action::Write(_), 0) if by_value => (rng.pick(names), 0),
        (_, 1..32) if by_value => (names[1], value),
        _ => (names[0], 1 + rng.below(31)),
    };
    let d = rng.below(32) * rng.below(2);
    named(name).with_fields(number as u32 & 0xfff, s as u32, d as u32)
}

// How an event and its word meet.

/// The form of an event, the instruction that its word is, and how their numbers meet.
pub type Case = (&'static str, &'static str, Fields);

/// How the numbers of an event and of an instruction of its kind meet.
#[derive(Clone, Copy, Debug, PartialEq, Eq, PartialOrd, Ord)]
pub enum Fields {
    /// It is an instruction of another kind.
    None,
    /// Of two register accesses, whether S is 0, whether N is the event's number and whether S is its VALUE.
    Access([bool; 3]),
    /// Of two hypervisor loads, whether S is 0 and whether ADDRESS is.
    Load([bool; 2]),
    /// Of two hypervisor stores, whether S, ADDRESS, T and VALUE are 0.
    Store([bool; 4]),
}

/// The forms of register accesses: the word, and the flag of a set or clear.
pub const FORMS: [&str; 6] = ["read", "write", "set 0", "set 1", "clear 0", "clear 1"];

/// The returns, WFI and the fences.
pub const INSTRUCTIONS: [&str; 6] = [
    "mret",
    "sret",
    "wfi",
    "sfence.vma",
    "hfence.vvma",
    "hfence.gvma",
];

/// The forms of hypervisor loads: the word, the width and SIGNED. The last of each word is any other width.
pub const LOAD_FORMS: [&str; 14] = [
    "hlv 1 0", "hlv 1 1", "hlv 2 0", "hlv 2 1", "hlv 4 0", "hlv 4 1", "hlv 8 0", "hlv 8 1", "hlv",
    "hlvx 1", "hlvx 2", "hlvx 4", "hlvx 8", "hlvx",
];

/// The forms of hypervisor stores.
pub const STORE_FORMS: [&str; 5] = ["hsv 1", "hsv 2", "hsv 4", "hsv 8", "hsv"];

/// The form of a hypervisor load or store.
fn guest_form(access: &GuestAccess) -> &'static str {
    let place = [1, 2, 4, 8].iter().position(|of| *of == access.width);
    let place = place.unwrap_or(4);
    match access.operation {
        Operation::Load { signed } if place < 4 => LOAD_FORMS[2 * place + usize::from(signed)],
        Operation::Load { .. } => LOAD_FORMS[8],
        Operation::LoadExecutable => LOAD_FORMS[9 + place],
        Operation::Store { .. } => STORE_FORMS[place],
    }
}

/// The form of a register access.
pub fn form(action: Action) -> &'static str {
    match action {
        Action::Read => FORMS[0],
        Action::Write(_) => FORMS[1],
        Action::Set { writes, .. } => FORMS[2 + usize::from(writes)],
        Action::Clear { writes, .. } => FORMS[4 + usize::from(writes)],
    }
}

/// The case of an event; none for one without a word.
pub fn case_of(event: &Line) -> Option<Case> {
    let word = event.word()?;
    let pattern = pattern_of(word);
    let case = match event {
        Line::Register { number, action, .. } => {
            let fields = Fields::Access(access_fields(word, *number, *action));
            let fields = if pattern.is_access() {
                fields
            } else {
                Fields::None
            };
            (form(*action), pattern.name, fields)
        }
        Line::Guest { access, .. } => (
            guest_form(access),
            pattern.name,
            guest_fields(word, pattern, access),
        ),
        _ => (event_word(event)?, pattern.name, Fields::None),
    };
    Some(case)
}

fn access_fields(word: u32, number: u64, action: Action) -> [bool; 3] {
    let s = u64::from(s_of(word));
    let is_value = match action {
        Action::Read => false,
        Action::Write(value) | Action::Set { value, .. } | Action::Clear { value, .. } => {
            s == value
        }
    };
    [s == 0, u64::from(n_of(word)) == number, is_value]
}

fn guest_fields(word: u32, pattern: &Pattern, access: &GuestAccess) -> Fields {
    let (s, address) = (s_of(word) == 0, access.address == 0);
    match access.operation {
        Operation::Store { value } if pattern.is_store() => {
            Fields::Store([s, address, t_of(word) == 0, value == 0])
        }
        Operation::Load { .. } | Operation::LoadExecutable if pattern.is_load() => {
            Fields::Load([s, address])
        }
        _ => Fields::None,
    }
}

/// Each setting of so many facts.
fn settings<const N: usize>() -> impl Iterator<Item = [bool; N]> {
    (0..1u32 << N).map(|setting| std::array::from_fn(|place| (setting >> place) & 1 == 1))
}

/// All cases that can be.
pub fn cases() -> Vec<Case> {
    let mut cases = Vec::new();
    for pattern in &PATTERNS {
        let name = pattern.name;
        let alone = |form| (form, name, Fields::None);
        cases.extend(INSTRUCTIONS.map(alone));
        for form in FORMS {
            if !pattern.is_access() {
                cases.push(alone(form));
                continue;
            }
            // A read has no VALUE.
            let settings = settings().filter(|[_, _, value]| form != "read" || !value);
            cases.extend(settings.map(|fields| (form, name, Fields::Access(fields))));
        }
        for form in LOAD_FORMS {
            if !pattern.is_load() {
                cases.push(alone(form));
                continue;
            }
            cases.extend(settings().map(|fields| (form, name, Fields::Load(fields))));
        }
        for form in STORE_FORMS {
            if !pattern.is_store() {
                cases.push(alone(form));
                continue;
            }
            cases.extend(settings().map(|fields| (form, name, Fields::Store(fields))));
        }
    }
    cases
}

#[cfg(test)]
mod tests {
    use super::*;
    use second::word::Explanation;

    fn event(text: &str) -> Line {
        parse(text.as_bytes()).unwrap().unwrap()
    }

    #[test]
    fn each_pattern_has_its_words() {
        let mut rng = Rng::new(1);
        for pattern in &PATTERNS {
            assert_eq!(named(pattern.name), pattern);
            for _ in 0..100 {
                assert_eq!(pattern_of(pattern.word(&mut rng)), pattern);
            }
        }
    }

    #[test]
    fn fitting_words_fit() {
        let mut rng = Rng::new(1);
        for text in [
            "read 300 0",
            "write 180 0 0",
            "write 180 1 0",
            "write 180 1f 0",
            "write 180 20 0",
            "write 180 ffffffffffffffff 0",
            "set fff 0 1 0",
            "set fff 1f 1 0",
            "set fff 1f 0 0",
            "clear 0 0 1 0",
            "clear 0 4 1 0",
            "clear 0 4 0 0",
            "mret 0",
            "sret 0",
            "wfi 0",
            "sfence.vma 0",
            "hfence.vvma 0",
            "hfence.gvma 0",
            "hlv 1 0 0 0",
            "hlv 1 1 80 0",
            "hlv 2 0 80 0",
            "hlv 2 1 0 0",
            "hlv 4 0 0 0",
            "hlv 4 1 80 0",
            "hlv 8 0 0 0",
            "hlv 8 1 80 0",
            "hlvx 2 0 0",
            "hlvx 4 80 0",
            "hsv 1 0 0 0",
            "hsv 2 80 0 0",
            "hsv 4 0 5 0",
            "hsv 8 80 5 0",
        ] {
            let text = text.strip_suffix('0').unwrap();
            for _ in 0..100 {
                let word = fitting(&mut rng, &event(&format!("{text}0"))).unwrap();
                let line = event(&format!("{text}{word:x}"));
                assert!(Explanation::of(&line).unwrap().fits, "{text}{word:x}");
            }
        }
    }

    #[test]
    fn words_stand_behind_the_events_that_have_one() {
        let mut rng = Rng::new(1);
        for text in ["ecall", "ebreak", "interrupt", "load 0 8", "trap 2 0 0 0 0"] {
            assert_eq!(with_word(&mut rng, text), text);
        }
        let words: Vec<String> = (0..200).map(|_| with_word(&mut rng, "wfi")).collect();
        let fitting = words.iter().filter(|line| *line == "wfi 10500073").count();
        assert!((100..170).contains(&fitting), "{fitting}");
    }

    #[test]
    fn cases_are_told_apart() {
        for (line, expected) in [
            ("mret 30200073", ("mret", "MRET", Fields::None)),
            ("wfi 13000073", ("wfi", "SFENCE.VMA", Fields::None)),
            ("wfi 30002073", ("wfi", "CSRRS", Fields::None)),
            ("read 300 73", ("read", "ECALL", Fields::None)),
            (
                "set 300 0 1 4073",
                ("set 1", "another SYSTEM instruction", Fields::None),
            ),
            (
                "set 300 0 0 0",
                ("set 0", "no SYSTEM instruction", Fields::None),
            ),
            (
                "read 300 30002073",
                ("read", "CSRRS", Fields::Access([true, true, false])),
            ),
            (
                "write 300 1 3000d073",
                ("write", "CSRRWI", Fields::Access([false, true, true])),
            ),
            (
                "write 1300 0 30001073",
                ("write", "CSRRW", Fields::Access([true, false, true])),
            ),
            (
                "clear 301 2 1 3000b073",
                ("clear 1", "CSRRC", Fields::Access([false, false, false])),
            ),
            ("read 680 68054073", ("read", "HLV.W", Fields::None)),
            (
                "hlv 4 1 0 68054073",
                ("hlv 4 1", "HLV.W", Fields::Load([false, true])),
            ),
            (
                "hlv 3 1 8 6c0040f3",
                ("hlv", "HLV.D", Fields::Load([true, false])),
            ),
            ("hlvx 8 8 6e054073", ("hlvx 8", "HSV.D", Fields::None)),
            (
                "hsv 2 8 5 66054073",
                ("hsv 2", "HSV.H", Fields::Store([false, false, true, false])),
            ),
            (
                "hsv 10 0 0 66b04073",
                ("hsv", "HSV.H", Fields::Store([true, true, false, true])),
            ),
            (
                "hsv 1 0 0 660540f3",
                ("hsv 1", "another SYSTEM instruction", Fields::None),
            ),
        ] {
            assert_eq!(case_of(&event(line)), Some(expected), "{line}");
        }
        assert_eq!(case_of(&event("ecall")), None);
        // Six events with 29 instructions; six with those that are no access; with six that are one, a read 4 ways, others 8.
        let before = 6 * 29 + 6 * 23 + 6 * (4 + 5 * 8);
        // Fourteen forms of loads: nine that are one, 4 ways. Five of stores: four that are one, 16 ways.
        let guest = 14 * (20 + 9 * 4) + 5 * (25 + 4 * 16);
        assert_eq!(cases().len(), before + guest);
    }
}
