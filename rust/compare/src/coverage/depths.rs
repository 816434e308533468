//! What tables of three, four and five levels reached (request 2026-05): each pair of depths, the longest walks, leaves of every level,
//! the edges of every address space and each wrong high bit, the second stage's root, and each MODE written and come in.
//!
//! How many entries a walk may read, which addresses are well formed and what a write stores is here once more. What came out otherwise
//! counts for nothing.

use std::collections::BTreeMap;
use std::fmt::Write as _;

use second::access::Action;
use second::bits::{field, with_field};
use second::hart::{Hart, Mode};
use second::registers::{HGATP, SATP, VSATP};
use second::script::{Answer, Line};
use second::trap::Ending;
use second::walk::{self, effective_mode, Access, Part, Read, Rule, Translation, Why};

use super::words::GUEST_EVENTS;
use super::{add, address_bits, count, event_word, table_of_kinds, Before, Meeting};
use crate::tables::{first_bits, second_bits, sign_extended, DEPTHS};

/// The events that are translations.
pub const TRANSLATIONS: [&str; 3] = ["fetch", "load", "store"];

/// The MODEs that are taken.
pub const TAKEN: [u64; 4] = [0, 8, 9, 10];

/// How many levels the tables of the stages have that a walk goes through; none is Bare.
#[derive(Clone, Copy, Debug, PartialEq, Eq, PartialOrd, Ord)]
pub enum Depths {
    /// satp's, with effective V=0.
    Host(Option<u64>),
    /// vsatp's and hgatp's, with effective V=1.
    Guest(Option<u64>, Option<u64>),
}

impl Depths {
    /// "n levels over m levels read at most (n+1)(m+1)-1 entries".
    pub fn longest(self) -> u64 {
        let (n, m) = match self {
            Depths::Host(first) => (first, None),
            Depths::Guest(first, second) => (first, second),
        };
        (n.unwrap_or(0) + 1) * (m.unwrap_or(0) + 1) - 1
    }

    /// The depth of a part's tables.
    fn of(self, part: Part) -> Option<u64> {
        match (self, part) {
            (Depths::Host(first), Part::Satp) => first,
            (Depths::Guest(first, _), Part::Vsatp) => first,
            (Depths::Guest(_, second), Part::HgatpForEntry | Part::HgatpForAccess) => second,
            _ => None,
        }
    }
}

/// Places at the edges of an address space.
#[derive(Clone, Copy, Debug, PartialEq, Eq, PartialOrd, Ord)]
pub enum Edge {
    /// The lowest address.
    Lowest,
    /// The highest one, or of the first stage's lower half.
    End,
    /// The first one that is not well formed.
    Beyond,
    /// The last one that is not well formed, at the first stage.
    Before,
    /// The lowest one of its upper half.
    UpperStart,
    /// The highest one of its upper half.
    Highest,
}

impl Edge {
    /// Those of a stage.
    pub fn of(part: Part) -> &'static [Edge] {
        match part {
            Part::Satp | Part::Vsatp => &[
                Edge::Lowest,
                Edge::End,
                Edge::Beyond,
                Edge::Before,
                Edge::UpperStart,
                Edge::Highest,
            ],
            _ => &[Edge::Lowest, Edge::End, Edge::Beyond],
        }
    }

    /// The address of an access of this width there: the lower half, or the whole space of a second stage, ends at `end`.
    pub fn address(self, end: u64, width: u64) -> u64 {
        match self {
            Edge::Lowest => 0,
            Edge::End => end - width,
            Edge::Beyond => end,
            Edge::Before => end.wrapping_neg() - width,
            Edge::UpperStart => end.wrapping_neg(),
            Edge::Highest => width.wrapping_neg(),
        }
    }

    /// Whether it is well formed.
    fn is_taken(self) -> bool {
        !matches!(self, Edge::Beyond | Edge::Before)
    }
}

/// Where the lower half of a first stage's address space ends, or the whole one of a second stage.
pub fn end_of(part: Part, levels: u64) -> u64 {
    match part {
        Part::Satp | Part::Vsatp => 1 << (first_bits(levels) - 1),
        _ => 1 << second_bits(levels),
    }
}

/// What depths and MODEs can reach. `event` is the word of the event.
#[derive(Clone, Copy, Debug, PartialEq, Eq, PartialOrd, Ord)]
#[allow(missing_docs)] // The fields carry the names of what they say.
pub enum Case {
    /// A walk that ended with an address.
    Walk { event: &'static str, depths: Depths },
    /// And read as many entries as it can.
    Longest { event: &'static str, depths: Depths },
    /// And went through a leaf of this level in tables of so many levels.
    Leaf {
        event: &'static str,
        part: Part,
        levels: u64,
        level: u64,
    },
    /// An address that is not well formed by one bit alone; the other high ones are all 0 or all 1.
    WrongBit {
        part: Part,
        bits: u32,
        bit: u32,
        ones: bool,
    },
    /// An access at the edge of an address space.
    Edge { part: Part, levels: u64, edge: Edge },
    /// A read in this page of the second stage's root.
    RootPage { part: Part, levels: u64, page: u64 },
    /// MODE of the VALUE of a write, set or clear while the register held another; what it stored was read next. `in_vs`: by satp's
    /// number in VS.
    Written {
        number: u64,
        in_vs: bool,
        form: &'static str,
        old: u64,
        new: u64,
    },
    /// MODE of a register of a hart that has nothing else against it.
    Held {
        number: u64,
        mode: u64,
        meeting: Meeting,
    },
}

/// satp, vsatp and hgatp.
pub const REGISTERS: [u64; 3] = [SATP, VSATP, HGATP];

/// The four ways to write them: the number, and whether it is in VS.
pub const WAYS: [(u64, bool); 4] = [(SATP, false), (SATP, true), (VSATP, false), (HGATP, false)];

/// The parts that are walks of tables.
const PARTS: [Part; 4] = [
    Part::Satp,
    Part::Vsatp,
    Part::HgatpForEntry,
    Part::HgatpForAccess,
];

/// The events that can walk a part's tables.
fn events_of(part: Part) -> Vec<&'static str> {
    let outside = GUEST_EVENTS.into_iter().filter(|_| part != Part::Satp);
    TRANSLATIONS.into_iter().chain(outside).collect()
}

/// All cases.
pub fn all() -> Vec<Case> {
    let mut all = walk_cases();
    for part in PARTS {
        all.extend(leaf_cases(part));
        all.extend(wrong_bits(part));
        for levels in DEPTHS {
            if part != Part::HgatpForEntry {
                let edges = Edge::of(part).iter();
                all.extend(edges.map(|edge| Case::Edge {
                    part,
                    levels,
                    edge: *edge,
                }));
            }
            let pages = 0..root_pages(part, levels);
            all.extend(pages.map(|page| Case::RootPage { part, levels, page }));
        }
    }
    all.extend(mode_cases());
    all
}

/// Every pair of depths, by every event that can have it.
fn walk_cases() -> Vec<Case> {
    let depths = || DEPTHS.into_iter().map(Some).chain([None]);
    let mut cases = Vec::new();
    let mut push = |event, depths| {
        cases.push(Case::Walk { event, depths });
        cases.push(Case::Longest { event, depths });
    };
    for first in depths() {
        for event in events_of(Part::Satp) {
            push(event, Depths::Host(first));
        }
        for second in depths() {
            for event in events_of(Part::Vsatp) {
                push(event, Depths::Guest(first, second));
            }
        }
    }
    cases
}

fn leaf_cases(part: Part) -> Vec<Case> {
    let mut cases = Vec::new();
    for levels in DEPTHS {
        for level in 0..levels {
            cases.extend(events_of(part).into_iter().map(|event| Case::Leaf {
                event,
                part,
                levels,
                level,
            }));
        }
    }
    cases
}

/// At the first stage each bit from the highest of the address up, with the others 0 and 1; at the second each one above it, up to
/// bit 55 for a guest entry.
fn wrong_bits(part: Part) -> Vec<Case> {
    let mut cases = Vec::new();
    for bits in address_bits(part) {
        let (from, to, others): (u32, u32, &[bool]) = match part {
            Part::Satp | Part::Vsatp => (bits - 1, 64, &[false, true]),
            Part::HgatpForEntry => (*bits, 56, &[false]),
            _ => (*bits, 64, &[false]),
        };
        for bit in from..to {
            cases.extend(others.iter().map(|ones| Case::WrongBit {
                part,
                bits: *bits,
                bit,
                ones: *ones,
            }));
        }
    }
    cases
}

/// How many of the four pages of a second stage's root a part can read: a guest entry's address has 56 bits.
fn root_pages(part: Part, levels: u64) -> u64 {
    match part {
        Part::HgatpForAccess => 4,
        Part::HgatpForEntry if levels < 5 => 4,
        Part::HgatpForEntry => 1,
        _ => 0,
    }
}

fn mode_cases() -> Vec<Case> {
    let mut cases = Vec::new();
    for new in 0..16 {
        for (number, in_vs) in WAYS {
            for form in ["write", "set", "clear"] {
                cases.extend(TAKEN.map(|old| Case::Written {
                    number,
                    in_vs,
                    form,
                    old,
                    new,
                }));
            }
        }
        for number in REGISTERS {
            let meetings = [Meeting::Translation, Meeting::Event];
            cases.extend(meetings.map(|meeting| Case::Held {
                number,
                mode: new,
                meeting,
            }));
        }
    }
    cases
}

/// The kind of a case, for the table.
fn kind(case: &Case) -> &'static str {
    match case {
        Case::Walk { .. } => "pairs by event",
        Case::Longest { .. } => "the longest walks",
        Case::Leaf { .. } => "leaves by event, part, depth and level",
        Case::WrongBit { .. } => "wrong high bits by part and depth",
        Case::Edge { .. } => "edges of address spaces",
        Case::RootPage { .. } => "pages of the second stage's root",
        Case::Written { .. } => "MODEs written",
        Case::Held { .. } => "MODEs come in",
    }
}

/// What a write must have stored, seen by the next read of this number.
type Awaited = (Case, u64, u64);

/// Counts of what depths and MODEs reached.
#[derive(Clone, Debug, Default, PartialEq, Eq)]
pub struct Deep {
    /// The cases.
    pub cases: BTreeMap<Case, u64>,
    awaited: Option<Awaited>,
}

impl Deep {
    /// Whether a case was reached.
    pub fn has(&self, case: &Case) -> bool {
        self.cases.contains_key(case)
    }

    fn reach(&mut self, case: Case) {
        count(&mut self.cases, case);
    }

    /// Notes a line of a script, what it met and its answer.
    pub fn note(&mut self, line: &Line, before: &Before, answer: &Answer) {
        let awaited = self.awaited.take();
        let Some(event) = event_word(line) else {
            return;
        };
        let hart = &before.hart;
        match (line, answer) {
            (Line::Translate(access), Answer::Translation(translation)) => {
                self.note_translation(event, hart, access, translation);
            }
            (Line::Guest { access, .. }, Answer::Guest(reached)) if reached.machine.is_some() => {
                let walked = Seen {
                    event,
                    depths: depths(hart, Mode::Vu),
                    access: &access.access(),
                    items: reached.list.items(),
                    ended: true,
                    why: None,
                };
                self.note_walk(hart, &walked);
            }
            (Line::Register { number, action, .. }, Answer::Register(accessed)) => {
                let ending = accessed.outcome.ending;
                if let (Action::Read, Some((case, by, stored))) = (*action, awaited) {
                    if (by, stored) == (*number, accessed.old) {
                        self.reach(case);
                    }
                }
                if ending == Ending::Done {
                    self.awaited = written(hart, event, *number, *action);
                }
                self.note_held(hart, Meeting::Event, ending == Ending::Refused(2));
            }
            (_, Answer::Event(outcome)) => {
                let by_hart = outcome.ending == Ending::Refused(2);
                self.note_held(hart, Meeting::Event, by_hart);
            }
            _ => {}
        }
    }

    fn note_translation(
        &mut self,
        event: &'static str,
        hart: &Hart,
        access: &Access,
        translation: &Translation,
    ) {
        let refused = matches!(translation.answer, walk::Answer::Refused(_));
        if let Some(mode) = hart.checked_mode().filter(|_| !refused) {
            let walked = Seen {
                event,
                depths: depths(hart, effective_mode(hart, mode, access.kind)),
                access,
                items: translation.list.items(),
                ended: matches!(translation.answer, walk::Answer::Address(_)),
                why: translation.why,
            };
            self.note_walk(hart, &walked);
        }
        let by_hart = translation.answer == walk::Answer::Refused(2);
        self.note_held(hart, Meeting::Translation, by_hart);
    }

    /// Notes a hart that was refused as 2 or not: it counts for those of its three MODEs that decide.
    fn note_held(&mut self, hart: &Hart, meeting: Meeting, refused: bool) {
        let passes = hart.checked_mode().is_some();
        for number in REGISTERS {
            let mode = mode_of(hart.stored(number).unwrap_or(0));
            let taken = TAKEN.contains(&mode);
            let decides = if taken {
                passes
            } else {
                let mut other = *hart;
                if let Some(content) = other.stored_mut(number) {
                    *content = 0;
                }
                other.checked_mode().is_some()
            };
            if decides && taken != refused {
                self.reach(Case::Held {
                    number,
                    mode,
                    meeting,
                });
            }
        }
    }

    fn note_walk(&mut self, hart: &Hart, seen: &Seen) {
        let Some(depths) = seen.depths else {
            return;
        };
        let event = seen.event;
        if seen.ended {
            self.reach(Case::Walk { event, depths });
            if seen.items.len() as u64 == depths.longest() {
                self.reach(Case::Longest { event, depths });
            }
            for (part, leaf) in leaves(seen.items, depths) {
                if let Some(levels) = depths.of(part) {
                    let level = leaf.level;
                    self.reach(Case::Leaf {
                        event,
                        part,
                        levels,
                        level,
                    });
                }
            }
        }
        if let Some(why) = &seen.why {
            self.note_wrong_bit(why);
        }
        self.note_edge(depths, seen);
        self.note_root(hart, depths, seen);
    }

    /// Notes the one bit without which an address would be well formed.
    fn note_wrong_bit(&mut self, why: &Why) {
        let Rule::HighBits(bits) = why.rule else {
            return;
        };
        let part = why.part;
        let first = matches!(part, Part::Satp | Part::Vsatp);
        let is_taken = |address: u64| match first {
            true => sign_extended(address, bits.into()) == address,
            false => address >> bits == 0,
        };
        for bit in bits - 1..64 {
            let repaired = why.address ^ (1 << bit);
            if is_taken(repaired) {
                let ones = first && repaired >> 63 == 1;
                self.reach(Case::WrongBit {
                    part,
                    bits,
                    bit,
                    ones,
                });
            }
        }
    }

    /// Notes an access at the edge of the address space that its own address belongs to, where it was tested as it must be.
    fn note_edge(&mut self, depths: Depths, seen: &Seen) {
        let part = match depths {
            Depths::Host(_) => Part::Satp,
            Depths::Guest(Some(_), _) => Part::Vsatp,
            Depths::Guest(None, _) => Part::HgatpForAccess,
        };
        let Some(levels) = depths.of(part) else {
            return;
        };
        let high_bits = |why: &Why| matches!(why.rule, Rule::HighBits(_)) && why.part == part;
        let taken = !seen.why.as_ref().is_some_and(high_bits);
        let end = end_of(part, levels);
        for edge in Edge::of(part) {
            let here = edge.address(end, seen.access.width) == seen.access.address;
            if here && edge.is_taken() == taken {
                self.reach(Case::Edge {
                    part,
                    levels,
                    edge: *edge,
                });
            }
        }
    }

    /// Notes which pages of the second stage's root were read.
    fn note_root(&mut self, hart: &Hart, depths: Depths, seen: &Seen) {
        let Some(levels) = depths.of(Part::HgatpForAccess) else {
            return;
        };
        let root = field(hart.hgatp, 0, 44) << 12;
        let last_entry = seen.items.iter().rposition(|read| read.stage == 1);
        let before_leaf = seen.why.map(|why| why.part) == Some(Part::HgatpForEntry);
        for (place, read) in seen.items.iter().enumerate() {
            if (read.stage, read.level) == (2, levels - 1) {
                let for_entry = before_leaf || last_entry.is_some_and(|last| place < last);
                let part = match for_entry {
                    true => Part::HgatpForEntry,
                    false => Part::HgatpForAccess,
                };
                let page = read.address.wrapping_sub(root) >> 12;
                self.reach(Case::RootPage { part, levels, page });
            }
        }
    }

    /// Adds another's counts.
    pub fn add(&mut self, other: &Deep) {
        add(&mut self.cases, &other.cases);
    }

    /// What must be reached and was not.
    pub fn missing(&self) -> Vec<String> {
        let missing = all().into_iter().filter(|case| !self.has(case));
        missing
            .map(|case| format!("of depths and MODEs: {case:?}"))
            .collect()
    }

    /// The counts, for people.
    pub fn table(&self, text: &mut String) {
        let kinds = table_of_kinds(all().iter().map(|case| (kind(case), self.has(case))));
        let _ = writeln!(text, "depths of tables: {kinds}");
    }
}

/// A walk, as it is noted.
struct Seen<'a> {
    event: &'static str,
    depths: Option<Depths>,
    access: &'a Access,
    items: &'a [Read],
    /// Whether it ended with an address.
    ended: bool,
    why: Option<Why>,
}

/// MODE of a satp, vsatp or hgatp.
fn mode_of(atp: u64) -> u64 {
    field(atp, 60, 4)
}

/// The levels that the tables of a satp, vsatp or hgatp have: three with MODE 8, four with 9, five with 10.
fn levels_of(atp: u64) -> Option<u64> {
    DEPTHS.into_iter().find(|levels| levels + 5 == mode_of(atp))
}

/// The depths of the stages that an access in this effective mode walks; none in M.
fn depths(hart: &Hart, mode: Mode) -> Option<Depths> {
    match mode {
        Mode::M => None,
        Mode::U | Mode::Hs => Some(Depths::Host(levels_of(hart.satp))),
        Mode::Vu | Mode::Vs => Some(Depths::Guest(levels_of(hart.vsatp), levels_of(hart.hgatp))),
    }
}

/// The leaves of a walk that ended with an address, each with its part: the last item before a guest entry, the last of the first
/// stage, the last of all.
fn leaves(items: &[Read], depths: Depths) -> Vec<(Part, Read)> {
    let mut leaves = Vec::new();
    let last_of_first = items.iter().rposition(|read| read.stage == 1);
    for (place, read) in items.iter().enumerate() {
        let next = items.get(place + 1).map(|next| next.stage);
        match (read.stage, next) {
            (1, _) if Some(place) == last_of_first => {
                let part = match depths {
                    Depths::Host(_) => Part::Satp,
                    Depths::Guest(..) => Part::Vsatp,
                };
                leaves.push((part, *read));
            }
            (2, Some(1)) => leaves.push((Part::HgatpForEntry, *read)),
            (2, None) => leaves.push((Part::HgatpForAccess, *read)),
            _ => {}
        }
    }
    leaves
}

/// What a done write, set or clear of satp, vsatp or hgatp must have stored: "MODE 0 or 8", 9 or 10, else satp and vsatp stay as they
/// are, while hgatp keeps its MODE alone.
fn written(hart: &Hart, form: &'static str, number: u64, action: Action) -> Option<Awaited> {
    let in_vs = hart.checked_mode() == Some(Mode::Vs);
    let held = if in_vs { number + 0x100 } else { number };
    let old = hart
        .stored(held)
        .filter(|_| WAYS.contains(&(number, in_vs)))?;
    let (value, combined) = match action {
        Action::Read => return None,
        Action::Write(value) => (value, value),
        Action::Set { writes: false, .. } | Action::Clear { writes: false, .. } => return None,
        Action::Set { value, .. } => (value, old | value),
        Action::Clear { value, .. } => (value, old & !value),
    };
    let taken = TAKEN.contains(&mode_of(combined));
    let stored = match (held == HGATP, taken) {
        (true, true) => combined & 0xf3ff_ffff_ffff_fffc,
        (true, false) => with_field(combined & 0xf3ff_ffff_ffff_fffc, 60, 4, mode_of(old)),
        (false, true) => combined,
        (false, false) => old,
    };
    let case = Case::Written {
        number,
        in_vs,
        form,
        old: mode_of(old),
        new: mode_of(value),
    };
    Some((case, number, stored))
}

#[cfg(test)]
mod tests {
    use super::super::tests::notes;
    use super::*;

    /// Notes the lines of a script, with its answers changed.
    fn noted_with(script: &str, change: fn(&mut Answer)) -> Deep {
        notes(script, change, Deep::note)
    }

    /// Notes the lines of a script.
    fn noted(script: &str) -> Deep {
        noted_with(script, |_| {})
    }

    /// The cases that a filter lets through.
    fn only(deep: &Deep, of: fn(&Case) -> bool) -> Vec<Case> {
        deep.cases.keys().copied().filter(of).collect()
    }

    #[test]
    fn what_there_is() {
        let all = all();
        let count = |of: fn(&Case) -> bool| all.iter().filter(|case| of(case)).count();
        for (there_are, of) in [
            (
                4 * 3 + 16 * 6,
                (|case| matches!(case, Case::Walk { .. })) as fn(&Case) -> bool,
            ),
            (4 * 3 + 16 * 6, |case| matches!(case, Case::Longest { .. })),
            (12 * (3 + 3 * 6), |case| matches!(case, Case::Leaf { .. })),
            (2 * 2 * (26 + 17 + 8) + (23 + 14 + 5) + (15 + 6), |case| {
                matches!(case, Case::WrongBit { .. })
            }),
            (3 * (6 + 6 + 3), |case| matches!(case, Case::Edge { .. })),
            (3 * 4 + 4 + 4 + 1, |case| {
                matches!(case, Case::RootPage { .. })
            }),
            (16 * 4 * 3 * 4, |case| matches!(case, Case::Written { .. })),
            (16 * 3 * 2, |case| matches!(case, Case::Held { .. })),
        ] {
            assert_eq!(count(of), there_are);
        }
        let mut once = all.clone();
        once.sort();
        once.dedup();
        assert_eq!(once.len(), all.len());
        assert_eq!(Deep::default().missing().len(), all.len());
    }

    #[test]
    fn the_bounds_of_the_request() {
        let longest = |n: u64, m: u64| {
            let [first, second] = [n, m].map(|levels| (levels > 0).then_some(levels));
            Depths::Guest(first, second).longest()
        };
        assert_eq!([longest(3, 3), longest(4, 4), longest(5, 5)], [15, 24, 35]);
        assert_eq!([longest(0, 0), longest(0, 5), longest(5, 0)], [0, 5, 5]);
        assert_eq!([longest(3, 5), longest(5, 3)], [23, 23]);
        assert_eq!(Depths::Host(Some(5)).longest(), 5);
    }

    /// One page is every table of five levels: entry 0 points to it, entry 1 is a leaf.
    const PAGE: &str = "image 0 1000;put 0 1;put 8 df;hart 1 0 0;reg 680 a000000000000000";

    #[test]
    fn a_walk_counts_by_its_depths_and_leaves() {
        let deep = noted(&format!("{PAGE};load 1008 8"));
        let depths = Depths::Guest(None, Some(5));
        let (event, part) = ("load", Part::HgatpForAccess);
        for case in [
            Case::Walk { event, depths },
            Case::Longest { event, depths },
            Case::Leaf {
                event,
                part,
                levels: 5,
                level: 0,
            },
            Case::RootPage {
                part,
                levels: 5,
                page: 0,
            },
        ] {
            assert!(deep.has(&case), "{case:?}");
        }
        // A leaf of level 1 makes it shorter; a fault makes it none.
        let deep = noted(&format!("{PAGE};load 200008 8"));
        assert!(deep.has(&Case::Walk { event, depths }));
        assert!(!deep.has(&Case::Longest { event, depths }));
        let deep = noted(&format!("{PAGE};load 2008 8"));
        assert!(!deep.has(&Case::Walk { event, depths }));
    }

    #[test]
    fn one_wrong_bit_counts() {
        let wrong = |script: &str| {
            let deep = noted(&format!("hart 0 1 0;reg 180 9000000000000000;{script}"));
            only(&deep, |case| matches!(case, Case::WrongBit { .. }))
        };
        let case = |bit, ones| Case::WrongBit {
            part: Part::Satp,
            bits: 48,
            bit,
            ones,
        };
        assert_eq!(wrong("load 800000000000 8"), [case(47, false)]);
        assert_eq!(wrong("load ffff7fffffffff00 8"), [case(47, true)]);
        assert_eq!(wrong("load 7fffffffffffff00 8"), [case(63, true)]);
        assert_eq!(wrong("load 3000000000000 8"), []);
        assert_eq!(wrong("load 400000000000 8"), []);
    }

    #[test]
    fn an_edge_counts_where_it_is_tested_as_it_must_be() {
        let edges = |deep: &Deep| only(deep, |case| matches!(case, Case::Edge { .. }));
        let script = "hart 1 1 0;reg 680 9000000000000000;load 4000000000000 8";
        let case = Case::Edge {
            part: Part::HgatpForAccess,
            levels: 4,
            edge: Edge::Beyond,
        };
        assert_eq!(edges(&noted(script)), [case]);
        let walked = noted_with(script, |answer| {
            if let Answer::Translation(translation) = answer {
                translation.why = None;
            }
        });
        assert_eq!(edges(&walked), []);
        assert_eq!(edges(&noted("hart 1 1 0;load 4000000000000 8")), []);
    }

    #[test]
    fn a_mode_counts_where_what_is_stored_is_read() {
        let written = |script: &str| {
            let deep = noted(script);
            only(&deep, |case| matches!(case, Case::Written { .. }))
        };
        let case = |number, in_vs, form, old, new| Case::Written {
            number,
            in_vs,
            form,
            old,
            new,
        };
        assert_eq!(
            written("hart 0 1 0;write 180 b000000000000005 0;read 180 0"),
            [case(SATP, false, "write", 0, 11)]
        );
        assert_eq!(
            written("hart 1 1 0;reg 280 8000000000000000;set 180 1000000000000000 1 0;read 180 0"),
            [case(SATP, true, "set", 8, 1)]
        );
        for script in [
            "hart 0 1 0;write 180 9000000000000005 0",
            "hart 0 1 0;write 180 9000000000000005 0;read 280 0",
            "hart 0 1 0;write 180 9000000000000005 0;reg 180 0;read 180 0",
            "hart 0 1 0;set 180 9000000000000005 0 0;read 180 0",
            "hart 0 0 0;write 180 9000000000000005 0;read 180 0",
            "hart 1 1 0;write 280 9000000000000005 0;read 280 0",
        ] {
            assert_eq!(written(script), [], "{script}");
        }
    }

    #[test]
    fn a_mode_that_comes_in_counts_where_it_decides() {
        let held = |script: &str, mode| {
            noted(script).has(&Case::Held {
                number: VSATP,
                mode,
                meeting: Meeting::Event,
            })
        };
        assert!(held("reg 280 a000000000000000;wfi 0", 10));
        assert!(held("reg 280 b000000000000000;wfi 0", 11));
        assert!(!held("reg 280 a000000000000000;reg 302 800;wfi 0", 10));
        assert!(!held("reg 280 b000000000000000;reg 302 800;wfi 0", 11));
        assert!(!held("reg 280 a000000000000000;load 0 8", 10));
    }
}
