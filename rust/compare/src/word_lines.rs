//! The kinds of `# word: ` lines: what is said about a word, without its numbers and without the register's name.

use second::registers::find;
use second::script::parse_number;

/// What a line about a word begins with.
pub const WORD: &[u8] = b"# word: ";

/// What is said of a word that fits, and of one that does not.
const RELATIONS: [(bool, &str); 2] = [(true, "is "), (false, "does not fit: it is ")];

/// The instructions: `x*` for the number of a register of the hart, `*` for a number, REGISTER for what is accessed.
pub const KINDS: [&str; 42] = [
    "MRET",
    "SRET",
    "WFI",
    "SFENCE.VMA: all addresses, all ASIDs",
    "SFENCE.VMA: all addresses, the ASID in x*",
    "SFENCE.VMA: the address in x*, all ASIDs",
    "SFENCE.VMA: the address in x*, the ASID in x*",
    "HFENCE.VVMA: all addresses, all ASIDs",
    "HFENCE.VVMA: all addresses, the ASID in x*",
    "HFENCE.VVMA: the address in x*, all ASIDs",
    "HFENCE.VVMA: the address in x*, the ASID in x*",
    "HFENCE.GVMA: all addresses, all VMIDs",
    "HFENCE.GVMA: all addresses, the VMID in x*",
    "HFENCE.GVMA: the address in x*, all VMIDs",
    "HFENCE.GVMA: the address in x*, the VMID in x*",
    "CSRRW: x* written to REGISTER, the old value to x*",
    "CSRRWI: * written to REGISTER, the old value to x*",
    "CSRRS: the bits of x* set in REGISTER, the old value to x*",
    "CSRRSI: the bits of * set in REGISTER, the old value to x*",
    "CSRRC: the bits of x* cleared in REGISTER, the old value to x*",
    "CSRRCI: the bits of * cleared in REGISTER, the old value to x*",
    "CSRRS: REGISTER read to x*",
    "CSRRSI: REGISTER read to x*",
    "CSRRC: REGISTER read to x*",
    "CSRRCI: REGISTER read to x*",
    "HLV.B: x* loaded from the address in x*",
    "HLV.BU: x* loaded from the address in x*",
    "HLV.H: x* loaded from the address in x*",
    "HLV.HU: x* loaded from the address in x*",
    "HLVX.HU: x* loaded from the address in x*",
    "HLV.W: x* loaded from the address in x*",
    "HLV.WU: x* loaded from the address in x*",
    "HLVX.WU: x* loaded from the address in x*",
    "HLV.D: x* loaded from the address in x*",
    "HSV.B: x* stored at the address in x*",
    "HSV.H: x* stored at the address in x*",
    "HSV.W: x* stored at the address in x*",
    "HSV.D: x* stored at the address in x*",
    "ECALL",
    "EBREAK",
    "a SYSTEM instruction that the model has no event for",
    "no SYSTEM instruction",
];

/// How many of them can fit an event: all but the last four.
const FITTING: usize = KINDS.len() - 4;

/// What stands for a register that the model has not.
pub const UNLISTED: &str = "register *";

/// What a line says.
#[derive(Clone, Copy, Debug, PartialEq, Eq)]
pub struct Said {
    /// Whether the word fits.
    pub fits: bool,
    /// The place of the instruction in [`KINDS`].
    pub kind: usize,
    /// The name of the register that it names, if it names one.
    pub register: Option<&'static str>,
}

/// Each kind that can fit, and each as one that does not.
pub fn all() -> impl Iterator<Item = (bool, usize)> {
    let fitting = (0..FITTING).map(|kind| (true, kind));
    fitting.chain((0..KINDS.len()).map(|kind| (false, kind)))
}

/// What stands behind `# word: ` for this kind.
pub fn text((fits, kind): (bool, usize)) -> String {
    let relation = RELATIONS.into_iter().find(|(of, _)| *of == fits);
    format!("* {}{}", relation.map_or("", |(_, text)| text), KINDS[kind])
}

/// What is said behind `# word: `; none where it is nothing that can be said.
pub fn understand(text: &str) -> Option<Said> {
    let (word, rest) = text.split_once(' ')?;
    number(word, u64::from(u32::MAX))?;
    let mut relations = RELATIONS.into_iter();
    let (fits, instruction) =
        relations.find_map(|(fits, relation)| Some((fits, rest.strip_prefix(relation)?)))?;
    let mut kinds = KINDS.iter().enumerate();
    let (kind, register) = kinds.find_map(|(kind, of)| Some((kind, matched(instruction, of)?)))?;
    let said = Said {
        fits,
        kind,
        register,
    };
    (kind < FITTING || !fits).then_some(said)
}

/// Whether a text is of this kind, and the register that it names.
fn matched(text: &str, kind: &str) -> Option<Option<&'static str>> {
    let mut words = text.split(' ');
    let mut register = None;
    for expected in kind.split(' ') {
        // A register is two words.
        let name = match expected.starts_with("REGISTER") {
            true => words.next()?,
            false => "",
        };
        let word = words.next()?;
        let (expected, word) = match expected.strip_suffix(',') {
            Some(expected) => (expected, word.strip_suffix(',')?),
            None => (expected, word),
        };
        match expected {
            "x*" => decimal(word.strip_prefix('x')?)?,
            "*" => number(word, 31).map(drop)?,
            "REGISTER" => register = Some(named(name, word)?),
            _ if word == expected => {}
            _ => return None,
        }
    }
    words.next().is_none().then_some(register)
}

/// `NAME (N)`, or `register N` where the model has none.
fn named(name: &str, behind: &str) -> Option<&'static str> {
    if name == "register" {
        let number = number(behind, 0xfff)?;
        return find(number).is_none().then_some(UNLISTED);
    }
    let number = number(behind.strip_prefix('(')?.strip_suffix(')')?, 0xfff)?;
    let row = find(number)?;
    (row.name == name).then_some(row.name)
}

/// A number as answers have it, at most this.
fn number(text: &str, most: u64) -> Option<u64> {
    let number = parse_number(text.as_bytes())?;
    (number <= most && format!("{number:x}") == text).then_some(number)
}

/// The decimal number of a register of the hart.
fn decimal(text: &str) -> Option<()> {
    let number: u8 = text.parse().ok()?;
    (number < 32 && number.to_string() == text).then_some(())
}

#[cfg(test)]
mod tests {
    use super::*;

    #[test]
    fn lines_are_understood() {
        for (line, fits, kind, register) in [
            ("30200073 is MRET", true, "MRET", None),
            ("73 does not fit: it is ECALL", false, "ECALL", None),
            (
                "0 does not fit: it is no SYSTEM instruction",
                false,
                "no SYSTEM instruction",
                None,
            ),
            (
                "62a58073 is HFENCE.GVMA: the address in x11, the VMID in x10",
                true,
                "HFENCE.GVMA: the address in x*, the VMID in x*",
                None,
            ),
            (
                "18051073 is CSRRW: x10 written to satp (180), the old value to x0",
                true,
                "CSRRW: x* written to REGISTER, the old value to x*",
                Some("satp"),
            ),
            (
                "fff5d073 does not fit: it is CSRRWI: b written to register fff, the old value to x0",
                false,
                "CSRRWI: * written to REGISTER, the old value to x*",
                Some(UNLISTED),
            ),
            (
                "30002573 is CSRRS: mstatus (300) read to x10",
                true,
                "CSRRS: REGISTER read to x*",
                Some("mstatus"),
            ),
            (
                "6c0545f3 is HLV.D: x11 loaded from the address in x10",
                true,
                "HLV.D: x* loaded from the address in x*",
                None,
            ),
        ] {
            let said = understand(line).unwrap_or_else(|| panic!("{line}"));
            assert_eq!((said.fits, said.register), (fits, register), "{line}");
            assert_eq!(KINDS[said.kind], kind, "{line}");
        }
    }

    #[test]
    fn what_is_no_line() {
        for line in [
            "",
            "MRET",
            "is MRET",
            "030200073 is MRET",
            "100000000 does not fit: it is no SYSTEM instruction",
            "30200073 is MRET.",
            "30200073 is MRET ",
            "30200073 is mret",
            "73 is ECALL",
            "0 is no SYSTEM instruction",
            "30200073 does not fit: MRET",
            "18051073 is CSRRW: x32 written to satp (180), the old value to x0",
            "18051073 is CSRRW: x010 written to satp (180), the old value to x0",
            "18051073 is CSRRW: xa written to satp (180), the old value to x0",
            "18051073 is CSRRW: x10 written to satp (181), the old value to x0",
            "18051073 is CSRRW: x10 written to register 180, the old value to x0",
            "18051073 is CSRRW: x10 written to satp (180) the old value to x0",
            "18055073 is CSRRWI: 20 written to satp (180), the old value to x0",
            "12000073 is SFENCE.VMA: all addresses, all VMIDs",
            "6c0545f3 is HLV.D: x11 loaded from the address in xa",
            "6c0545f3 is HLV.D: x11 stored at the address in x10",
            "6c0545f3 is HLV.DU: x11 loaded from the address in x10",
        ] {
            assert_eq!(understand(line), None, "{line}");
        }
    }

    #[test]
    fn each_kind_is_there_once_and_understands_itself() {
        assert_eq!(all().count(), 38 + 42);
        for (fits, kind) in all() {
            let text = text((fits, kind)).replace('*', "1");
            let text = text.replace("REGISTER", "register 1");
            let said = understand(&text).unwrap_or_else(|| panic!("{text}"));
            assert_eq!((said.fits, said.kind), (fits, kind), "{text}");
        }
    }
}
