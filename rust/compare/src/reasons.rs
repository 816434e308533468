//! The kinds of reasons that `# why: ` lines give. A kind is a reason without its numbers; those that the rules tell apart (the
//! register, the field, the cause, the level) stay.

use std::collections::HashMap;
use std::sync::LazyLock;

use second::address::GuestPhysical;
use second::hart::{BadHart, Mode};
use second::image::BadImage;
use second::interrupts::{self, Interrupt, Rule};
use second::reasons::Reason;
use second::registers::{after_write, wrong, Level, Row, Wrong, ROWS};
use second::trap::{BadRequest, Control, Forbidden, Refusal, Target};
use second::walk::{BadAccess, Why};

use crate::coverage::guest::hlvx_rules;
use crate::coverage::interrupts::{passes, ways};
use crate::coverage::{is_stored, reachable_rules, CAUSES};

/// What a line with a reason begins with.
pub const REASON: &[u8] = b"# why: ";

/// A number that stands for any number.
const ANY: u64 = 0x5e47_13e1_7a5c_3abc;
/// What stands for any number in the text of a kind.
const STAR: &str = "*";

/// The kinds of reasons.
pub struct Kinds {
    /// Their texts, in the order of the tables.
    texts: Vec<String>,
    /// The kinds without a number, by their texts.
    whole: HashMap<String, usize>,
    /// The kinds with numbers: what stands before, between and behind these.
    pieces: Vec<(Vec<String>, usize)>,
}

/// All kinds.
pub static KINDS: LazyLock<Kinds> = LazyLock::new(|| Kinds::of(&all()));

impl Kinds {
    fn of(reasons: &[Reason]) -> Kinds {
        let (any, page) = (format!("{ANY:x}"), format!("{:x}", ANY & !0xfff));
        let mut kinds = Kinds {
            texts: Vec::new(),
            whole: HashMap::new(),
            pieces: Vec::new(),
        };
        for (kind, reason) in reasons.iter().enumerate() {
            let text = reason.to_string().replace(&any, STAR).replace(&page, STAR);
            if text.contains(STAR) {
                let pieces = text.split(STAR).map(str::to_string).collect();
                kinds.pieces.push((pieces, kind));
            } else {
                kinds.whole.insert(text.clone(), kind);
            }
            kinds.texts.push(text);
        }
        kinds
    }

    /// How many there are.
    pub fn count(&self) -> usize {
        self.texts.len()
    }

    /// The text of a kind, with `*` for each number.
    pub fn text(&self, kind: usize) -> &str {
        &self.texts[kind]
    }

    /// The kind of a reason; none where the text is no reason.
    pub fn find(&self, text: &str) -> Option<usize> {
        let with_numbers = || self.pieces.iter().find(|(pieces, _)| fits(text, pieces));
        let whole = self.whole.get(text);
        whole
            .or_else(|| with_numbers().map(|(_, kind)| kind))
            .copied()
    }
}

/// Whether a text is these pieces with a number between each two of them.
fn fits(text: &str, pieces: &[String]) -> bool {
    let Some((first, others)) = pieces.split_first() else {
        return false;
    };
    let Some(mut rest) = text.strip_prefix(first.as_str()) else {
        return false;
    };
    for piece in others {
        let behind = rest.trim_start_matches(|digit| matches!(digit, '0'..='9' | 'a'..='f'));
        let number = &rest[..rest.len() - behind.len()];
        let canonical = !number.is_empty() && (number == "0" || !number.starts_with('0'));
        match behind.strip_prefix(piece.as_str()) {
            Some(after) if canonical => rest = after,
            _ => return false,
        }
    }
    rest.is_empty()
}

/// A reason of each kind.
fn all() -> Vec<Reason> {
    let refusals = harts().into_iter().map(Refusal::Hart);
    let refusals = refusals.chain(images().map(Refusal::Image));
    let refusals = refusals.chain(accesses().map(Refusal::Access));
    let refusals = refusals.chain(requests().into_iter().map(Refusal::Request));
    let refusals = refusals.chain([Refusal::Number(ANY)]);
    let rules = reachable_rules()
        .into_iter()
        .chain(hlvx_rules())
        .map(|(rule, part, level)| Why {
            rule,
            part,
            level,
            address: ANY,
            width: ANY,
            guest: Some(GuestPhysical(ANY)),
        });
    let mut reasons: Vec<Reason> = refusals.map(Reason::Refused).collect();
    reasons.extend(forbidden().into_iter().map(Reason::Forbidden));
    reasons.extend(interrupts().into_iter().map(Reason::Interrupt));
    reasons.extend(rules.map(Reason::Fault));
    reasons
}

/// Refusal 2: each field and each bit of each stored register that can be wrong alone.
fn harts() -> Vec<BadHart> {
    let mut harts = vec![BadHart::Mode(ANY, ANY)];
    for row in ROWS.iter().filter(|row| is_stored(row)) {
        for bit in 0..64 {
            let content = after_write(row, 0, 0) ^ (1 << bit);
            let wrong = match wrong(row, content) {
                Some(Wrong::Field(field, _)) => Wrong::Field(field, ANY),
                Some(wrong) => wrong,
                None => continue,
            };
            let bad = BadHart::Register(row, wrong);
            if !harts.contains(&bad) {
                harts.push(bad);
            }
        }
    }
    harts.extend([BadHart::Pc(ANY), BadHart::MprvOutsideM]);
    harts
}

/// Refusal 1.
fn images() -> impl Iterator<Item = BadImage> {
    let any = u128::from(ANY);
    [
        BadImage::TooLarge(any),
        BadImage::Base(ANY),
        BadImage::Length(any),
        BadImage::End(any),
    ]
    .into_iter()
}

/// Refusal 3.
fn accesses() -> impl Iterator<Item = BadAccess> {
    [
        BadAccess::Width(ANY),
        BadAccess::FetchWidth(ANY),
        BadAccess::FetchAddress(ANY),
        BadAccess::HlvxWidth(ANY),
    ]
    .into_iter()
}

/// Refusal 4: each of its reasons for each cause.
fn requests() -> Vec<BadRequest> {
    let mut requests = vec![BadRequest::Cause(ANY)];
    for cause in CAUSES {
        let call = matches!(cause, 8..=11);
        if call {
            requests.push(BadRequest::FromElsewhere(cause));
            requests.push(BadRequest::Value(cause, ANY));
        }
        if cause == 22 {
            requests.push(BadRequest::WithoutV(cause));
        }
        if matches!(cause, 20 | 21 | 23) {
            requests.push(BadRequest::FlagClear(cause));
            continue;
        }
        requests.push(BadRequest::SecondValue(cause));
        requests.push(BadRequest::Word(cause));
        requests.push(if call || matches!(cause, 2 | 22) {
            BadRequest::FlagSet(cause)
        } else {
            BadRequest::FlagClearWithV(cause)
        });
    }
    requests
}

/// Traps with cause 2 or 22: each register and each instruction in each mode that does not reach it, and each bit.
fn forbidden() -> Vec<Forbidden> {
    let mut rules = vec![Forbidden::Unlisted(ANY)];
    for row in &ROWS {
        if row.read_only {
            rules.push(Forbidden::ReadOnly(row));
        }
        let modes = Mode::ALL.into_iter();
        let unreached = modes.filter(|mode| !reaches(*mode, row));
        rules.extend(unreached.map(|mode| Forbidden::Register(row, mode)));
    }
    for (name, modes) in UNREACHED {
        rules.extend(modes.iter().map(|mode| Forbidden::Instruction(name, *mode)));
    }
    let bits = [
        Control::Tvm,
        Control::Tw,
        Control::Tsr,
        Control::Vtvm,
        Control::Vtw,
        Control::Vtsr,
    ];
    rules.extend(bits.map(Forbidden::Bit));
    rules.push(Forbidden::HuClear);
    rules
}

/// Interrupts: none pending or enabled; each one to each level in each mode, where the level's bit decides both ways.
fn interrupts() -> Vec<interrupts::Why> {
    let mut whys = vec![interrupts::Why::NonePending, interrupts::Why::NoneEnabled];
    for (number, level) in ways() {
        for rule in Mode::ALL.into_iter().flat_map(|mode| rules_in(mode, level)) {
            let interrupt = Interrupt {
                number,
                level,
                rule,
            };
            whys.push(if rule.passes() {
                interrupts::Why::Taken(interrupt)
            } else {
                interrupts::Why::Waits(interrupt)
            });
        }
    }
    whys
}

/// What a level's rule can say in a mode: always, never, or by its bit.
fn rules_in(mode: Mode, level: Target) -> Vec<Rule> {
    match [[true; 3], [false; 3]].map(|enables| passes(level, mode, enables)) {
        [true, true] => vec![Rule::Always(mode)],
        [false, false] => vec![Rule::Never(mode)],
        _ => vec![Rule::Enable(true), Rule::Enable(false)],
    }
}

/// "M reaches all; HS all but M's; U none"; in VS S's numbers alone, in VU none.
fn reaches(mode: Mode, row: &Row) -> bool {
    match mode {
        Mode::M => true,
        Mode::Hs => row.level != Level::M,
        Mode::Vs => row.level == Level::S,
        Mode::U | Mode::Vu => false,
    }
}

/// The modes that do not reach an instruction.
const UNREACHED: [(&str, &[Mode]); 9] = [
    ("MRET", &[Mode::U, Mode::Hs, Mode::Vu, Mode::Vs]),
    ("SRET", &[Mode::U, Mode::Vu]),
    ("WFI", &[Mode::U, Mode::Vu]),
    ("SFENCE.VMA", &[Mode::U, Mode::Vu]),
    ("HFENCE.VVMA", &[Mode::U, Mode::Vu, Mode::Vs]),
    ("HFENCE.GVMA", &[Mode::U, Mode::Vu, Mode::Vs]),
    ("HLV", &[Mode::Vu, Mode::Vs]),
    ("HLVX", &[Mode::Vu, Mode::Vs]),
    ("HSV", &[Mode::Vu, Mode::Vs]),
];

#[cfg(test)]
mod tests {
    use super::*;

    fn kind(text: &str) -> Option<&str> {
        KINDS.find(text).map(|kind| KINDS.text(kind))
    }

    #[test]
    fn kinds_have_their_numbers_left_out() {
        for (text, expected) in [
            ("V is 0", None),
            ("mstatus.TVM is 1", Some("mstatus.TVM is 1")),
            ("the model has no register a", Some("the model has no register *")),
            ("the model has no register 0a", None),
            ("the model has no register ", None),
            ("the model has no register a ", None),
            ("the model has no register A", None),
            (
                "the access: a is not a multiple of 4",
                Some("the access: * is not a multiple of *"),
            ),
            (
                "first stage (satp), level 1: V is 0",
                Some("first stage (satp), level 1: V is 0"),
            ),
            (
                "first stage (satp), level 4: V is 0",
                Some("first stage (satp), level 4: V is 0"),
            ),
            ("first stage (satp), level 5: V is 0", None),
            (
                "first stage (vsatp): bits 63:48 of 800000000000 are not all equal to bit 47",
                Some("first stage (vsatp): bits 63:48 of * are not all equal to bit 47"),
            ),
            ("first stage (vsatp): bits 63:48 of 800000000000 are not all equal to bit 48", None),
            (
                "second stage for the access at 800000000000000: bits 63:59 of 800000000000000 are not all 0",
                Some("second stage for the access at *: bits 63:59 of * are not all 0"),
            ),
            ("second stage for the guest entry at 800000000000000: bits 63:59 of 800000000000000 are not all 0", None),
            (
                "second stage for the guest entry at 1000, level 0: the entry at 1008 is outside the image: page 1000 is missing",
                Some("second stage for the guest entry at *, level 0: the entry at * is outside the image: page * is missing"),
            ),
            ("hgatp (680): bit 58 is 1; it may hold 0", Some("hgatp (680): bit 58 is 1; it may hold 0")),
            ("hgatp (680): bit 57 is 1; it may hold 0", None),
            (
                "hgatp (680): MODE is f; it may hold 0, 8, 9 or a",
                Some("hgatp (680): MODE is *; it may hold 0, 8, 9 or a"),
            ),
            ("mideleg (303): bit 6 is 0; it may hold 1", Some("mideleg (303): bit 6 is 0; it may hold 1")),
            ("mideleg (303): bit 5 is 0; it may hold 1", None),
            (
                "interrupt a would go to VS, bit 10 of hideleg is 1; HS is outside the guest",
                Some("interrupt a would go to VS, bit 10 of hideleg is 1; HS is outside the guest"),
            ),
            ("interrupt a goes to M, bit 10 of mideleg is 0; HS is below M", None),
            ("interrupt 9 goes to HS, bit 9 of hideleg is 0; HS is below HS", None),
            ("hstatus.HU is 0", Some("hstatus.HU is 0")),
            ("HLVX has width 2 or 4, not 1", Some("HLVX has width 2 or 4, not *")),
            ("HLVX is out of reach in VU", Some("HLVX is out of reach in VU")),
            ("HLVX is out of reach in U", None),
            ("first stage (satp), level 0: HLVX needs X", None),
            (
                "second stage for the access at 40, level 1: HLVX needs X",
                Some("second stage for the access at *, level 1: HLVX needs X"),
            ),
        ] {
            assert_eq!(kind(text), expected, "{text}");
        }
    }

    #[test]
    fn each_kind_is_there_once_and_finds_itself() {
        assert_eq!(KINDS.count(), 1138);
        for kind in 0..KINDS.count() {
            let text = KINDS.text(kind).replace(STAR, "0");
            assert_eq!(KINDS.find(&text), Some(kind), "{text}");
        }
    }

    #[test]
    fn fields_that_can_be_wrong() {
        let texts: Vec<String> = harts().iter().map(BadHart::to_string).collect();
        let count = |of: &str| texts.iter().filter(|text| text.starts_with(of)).count();
        for (register, fields) in [
            ("mstatus (300)", 3 + 45 + 1),
            ("vsstatus", 1 + 57),
            ("hstatus", 1 + 55),
            ("satp", 1),
            ("vsatp", 1),
            ("hgatp", 1 + 4),
            ("mtvec", 1),
            ("sepc", 2),
            ("hedeleg", 64 - 12),
            ("medeleg", 64 - 18),
            ("mideleg", 64 - 3),
            ("mie", 64 - 9),
            ("mip", 64 - 9),
            ("hideleg", 64 - 3),
            ("sscratch", 0),
            ("sstatus", 0),
            ("hie", 0),
        ] {
            assert_eq!(count(register), fields, "{register}");
        }
    }
}
