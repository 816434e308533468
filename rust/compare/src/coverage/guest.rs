//! What hypervisor loads and stores reached: where they were done, what they loaded and stored, the rights that decided, the faults
//! and what their traps wrote, the refusals, and stores that later events see.
//!
//! What decides, what is loaded and where a trap goes is here once more. What came out otherwise counts for nothing.

use std::collections::{BTreeMap, BTreeSet, VecDeque};
use std::fmt::Write as _;

use second::bits::{bit, low_ones};
use second::hart::{Hart, Mode};
use second::hypervisor::{GuestAccess, Operation, Reached};
use second::reasons::Reason;
use second::registers::{
    atp_mode, mpp, HSTATUS_GVA, HU, MPRV, MPV, MSTATUS_GVA, MXR, SPP, SPV, SPVP, SUM,
};
use second::script::{Answer, Line};
use second::trap::{Ending, Target, Trap};
use second::walk::{self, Key, List, Part, Read, Rule};

use super::words::GUEST_EVENTS;
use super::{add, count, ends, event_word, of_entry, reachable_rules, table_of_kinds, Before};
use crate::tables::{R, U, W, X};

/// A form: the event, the width, and whether it is sign-extended.
pub type Form = (&'static str, u64, bool);

/// All forms.
pub fn forms() -> Vec<Form> {
    let mut forms = Vec::new();
    for width in [1, 2, 4, 8] {
        forms.extend([("hlv", width, false), ("hlv", width, true)]);
        forms.push(("hsv", width, false));
    }
    forms.extend([("hlvx", 2, false), ("hlvx", 4, false)]);
    forms
}

/// The form of an access.
fn form_of(access: &GuestAccess) -> Form {
    match access.operation {
        Operation::Load { signed } => ("hlv", access.width, signed),
        Operation::LoadExecutable => ("hlvx", access.width, false),
        Operation::Store { .. } => ("hsv", access.width, false),
    }
}

/// The rights that a leaf can have.
pub const RIGHTS: [u64; 5] = [R, X, R | X, R | W, R | W | X];

/// Widths that are refused, of each event.
const BAD_WIDTHS: [u64; 8] = [0, 3, 5, 6, 7, 9, 16, (1 << 32) + 4];

/// The ends of what so many bytes can hold: 0, 7f.., 80.. and ff...
#[derive(Clone, Copy, Debug, PartialEq, Eq, PartialOrd, Ord)]
pub enum Value {
    /// All bits are 0.
    Zero,
    /// All but the highest are 1.
    Largest,
    /// The highest alone is 1.
    Smallest,
    /// All bits are 1.
    Ones,
}

impl Value {
    /// All four.
    pub const ALL: [Value; 4] = [Value::Zero, Value::Largest, Value::Smallest, Value::Ones];

    /// These bytes.
    pub fn bytes(self, width: u64) -> u64 {
        let ones = low_ones(8 * width as u32);
        match self {
            Value::Zero => 0,
            Value::Largest => ones >> 1,
            Value::Smallest => ones ^ (ones >> 1),
            Value::Ones => ones,
        }
    }

    /// What a load of them answers.
    fn loaded(self, width: u64, signed: bool) -> u64 {
        let negative = matches!(self, Value::Smallest | Value::Ones);
        let above = !low_ones(8 * width as u32);
        self.bytes(width) | if signed && negative { above } else { 0 }
    }
}

/// Where the bytes of a store lie.
#[derive(Clone, Copy, Debug, PartialEq, Eq, PartialOrd, Ord)]
pub enum Place {
    /// So far from a multiple of 8.
    Offset(u64),
    /// The first bytes of the image.
    ImageStart,
    /// Its last bytes.
    ImageEnd,
    /// The first bytes of a page.
    PageStart,
    /// Its last bytes.
    PageEnd,
}

/// A fault and where its trap went: the event, the cause, whether it was on the way to a guest entry, the mode that it came from, the
/// target, and SPVP.
pub type Delivery = (&'static str, u64, bool, Mode, Target, bool);

/// What a hypervisor load or store can reach. `event` is its word.
#[derive(Clone, Copy, Debug, PartialEq, Eq, PartialOrd, Ord)]
#[allow(missing_docs)] // The fields carry the names of what they say.
pub enum Case {
    /// Done, with the first and the second stage on or not.
    Done {
        form: Form,
        mode: Mode,
        hu: bool,
        spvp: bool,
        stages: [bool; 2],
    },
    /// Done, through leaves of these levels.
    Levels {
        event: &'static str,
        first: Option<u64>,
        second: Option<u64>,
    },
    /// Loaded at an end of what its bytes can hold.
    Loaded { form: Form, value: Value },
    /// The first stage's leaf decided by U and SUM.
    Sum {
        event: &'static str,
        spvp: bool,
        user_page: bool,
        guest_sum: bool,
        host_sum: bool,
    },
    /// The first stage's leaf decided by its rights and MXR.
    FirstRight {
        event: &'static str,
        mxr: [bool; 2],
        rights: u64,
        second_on: bool,
    },
    /// The second stage's leaf for the access did.
    SecondRight {
        event: &'static str,
        mxr: [bool; 2],
        rights: u64,
        first_on: bool,
    },
    /// The second stage's leaf for the first guest entry did.
    EntryRight {
        event: &'static str,
        mxr: [bool; 2],
        rights: u64,
    },
    /// In M with MPRV set, where obeying it would have come to something else if it could.
    Mprv {
        event: &'static str,
        mpp: u64,
        mpv: bool,
        spvp: bool,
    },
    /// A fault by this rule.
    Fault { event: &'static str, key: Key },
    /// A fault's trap, shown by the next line.
    Delivered(Delivery),
    /// A store whose bytes and those around them were loaded next.
    Stored { width: u64, place: Place },
    /// A store into an entry that a later event read.
    Table {
        width: u64,
        stage: u64,
        event: &'static str,
    },
    /// A store into an entry of its own walk.
    OwnTable { stage: u64 },
    /// A load of what was stored last.
    ReadBack { form: Form, width: u64 },
    /// pc moved on over the end, shown by the next line.
    Wraps { event: &'static str },
    /// Trapped with cause 2 or 22, at an address that is misaligned or not.
    Forbidden {
        event: &'static str,
        mode: Mode,
        misaligned: bool,
    },
    /// Refused as 3.
    Refused {
        event: &'static str,
        width: u64,
        mode: Mode,
    },
    /// Refused with the hart, the image and the width bad or not.
    Order { event: &'static str, bad: [bool; 3] },
}

/// Both values.
const BOTH: [bool; 2] = [false, true];

/// HLVX needs X at both stages.
pub fn hlvx_rules() -> Vec<Key> {
    let mut rules = Vec::new();
    for part in [Part::Vsatp, Part::HgatpForAccess] {
        let levels = (0..5).map(|level| (Rule::NotExecutableForHlvx, part, Some(level)));
        rules.extend(levels);
    }
    rules
}

/// Every rule that can end an event's walk, at every part and level.
pub fn rules_of(event: &str) -> Vec<Key> {
    let rules = reachable_rules().into_iter().chain(hlvx_rules());
    let of_guest = rules.filter(|(_, part, _)| *part != Part::Satp);
    of_guest.filter(|key| ends(event, key)).collect()
}

/// The causes of an event's faults, each with whether it is one on the way to a guest entry.
fn causes_of(event: &str) -> [(u64, bool); 5] {
    match event {
        "hsv" => [(6, false), (7, false), (15, false), (23, false), (23, true)],
        _ => [(4, false), (5, false), (13, false), (21, false), (21, true)],
    }
}

/// All cases.
pub fn all() -> Vec<Case> {
    let mut all = Vec::new();
    for form in forms() {
        all.extend(done_cases(form));
        if form.0 != "hsv" {
            all.extend(Value::ALL.map(|value| Case::Loaded { form, value }));
            all.extend([1, 2, 4, 8].map(|width| Case::ReadBack { form, width }));
        }
    }
    for event in GUEST_EVENTS {
        all.extend(level_cases(event));
        all.extend(right_cases(event));
        all.extend(mode_cases(event));
        all.extend(
            rules_of(event)
                .into_iter()
                .map(|key| Case::Fault { event, key }),
        );
        all.extend(deliveries(event).into_iter().map(Case::Delivered));
        all.push(Case::Wraps { event });
    }
    all.extend(store_cases());
    all
}

fn done_cases(form: Form) -> Vec<Case> {
    let mut cases = Vec::new();
    for (mode, hu) in [
        (Mode::U, true),
        (Mode::Hs, false),
        (Mode::Hs, true),
        (Mode::M, false),
        (Mode::M, true),
    ] {
        for spvp in BOTH {
            for stages in [[false, false], [false, true], [true, false], [true, true]] {
                cases.push(Case::Done {
                    form,
                    mode,
                    hu,
                    spvp,
                    stages,
                });
            }
        }
    }
    cases
}

fn level_cases(event: &'static str) -> Vec<Case> {
    let levels = [None, Some(0), Some(1), Some(2), Some(3), Some(4)];
    let pairs = levels
        .into_iter()
        .flat_map(|first| levels.map(|second| (first, second)));
    let case = |(first, second)| Case::Levels {
        event,
        first,
        second,
    };
    pairs.map(case).collect()
}

fn right_cases(event: &'static str) -> Vec<Case> {
    let mut cases = Vec::new();
    for one in BOTH {
        for other in BOTH {
            for spvp in BOTH {
                cases.extend(BOTH.map(|user_page| Case::Sum {
                    event,
                    spvp,
                    user_page,
                    guest_sum: one,
                    host_sum: other,
                }));
            }
            let mxr = [one, other];
            for rights in RIGHTS {
                cases.extend(BOTH.map(|second_on| Case::FirstRight {
                    event,
                    mxr,
                    rights,
                    second_on,
                }));
                cases.extend(BOTH.map(|first_on| Case::SecondRight {
                    event,
                    mxr,
                    rights,
                    first_on,
                }));
                cases.push(Case::EntryRight { event, mxr, rights });
            }
        }
    }
    cases
}

/// By MPRV, by the modes that it is forbidden in, and refused.
fn mode_cases(event: &'static str) -> Vec<Case> {
    let mut cases = Vec::new();
    for mpp in [0, 1, 3] {
        for mpv in BOTH {
            cases.extend(BOTH.map(|spvp| Case::Mprv {
                event,
                mpp,
                mpv,
                spvp,
            }));
        }
    }
    for mode in [Mode::U, Mode::Vu, Mode::Vs] {
        cases.extend(BOTH.map(|misaligned| Case::Forbidden {
            event,
            mode,
            misaligned,
        }));
    }
    let of_hlvx = [1, 8].into_iter().filter(|_| event == "hlvx");
    for width in BAD_WIDTHS.into_iter().chain(of_hlvx) {
        cases.extend(Mode::ALL.map(|mode| Case::Refused { event, width, mode }));
    }
    let bad = (1..8u32).map(|setting| [1, 2, 4].map(|place| setting & place != 0));
    cases.extend(bad.map(|bad| Case::Order { event, bad }));
    cases
}

/// To M, and but for M to HS.
fn deliveries(event: &'static str) -> Vec<Delivery> {
    let mut all = Vec::new();
    for (cause, of_entry) in causes_of(event) {
        for (mode, target) in [
            (Mode::U, Target::M),
            (Mode::U, Target::Hs),
            (Mode::Hs, Target::M),
            (Mode::Hs, Target::Hs),
            (Mode::M, Target::M),
        ] {
            all.extend(BOTH.map(|spvp| (event, cause, of_entry, mode, target, spvp)));
        }
    }
    all
}

fn store_cases() -> Vec<Case> {
    let mut cases = vec![Case::OwnTable { stage: 1 }, Case::OwnTable { stage: 2 }];
    for width in [1, 2, 4, 8] {
        let offsets = (0..8).step_by(width as usize).map(Place::Offset);
        let edges = [
            Place::ImageStart,
            Place::ImageEnd,
            Place::PageStart,
            Place::PageEnd,
        ];
        cases.extend(
            offsets
                .chain(edges)
                .map(|place| Case::Stored { width, place }),
        );
        for stage in [1, 2] {
            let events = ["fetch", "load", "store"].into_iter().chain(GUEST_EVENTS);
            cases.extend(events.map(|event| Case::Table {
                width,
                stage,
                event,
            }));
        }
    }
    cases
}

/// The kind of a case, for the table.
fn kind(case: &Case) -> &'static str {
    match case {
        Case::Done { .. } => "done by form, mode, HU, SPVP and stages",
        Case::Levels { .. } => "leaf levels",
        Case::Loaded { .. } => "ends of what is loaded",
        Case::Sum { .. } => "SPVP, U and SUM",
        Case::FirstRight { .. } => "rights and MXR at the first stage",
        Case::SecondRight { .. } => "at the second",
        Case::EntryRight { .. } => "for a guest entry",
        Case::Mprv { .. } => "MPRV",
        Case::Fault { .. } => "fault rules by event, part and level",
        Case::Delivered(_) => "their traps shown",
        Case::Stored { .. } => "stores read back with their neighbours",
        Case::Table { .. } => "stores into tables that are walked",
        Case::OwnTable { .. } => "into their own",
        Case::ReadBack { .. } => "loads of what was stored",
        Case::Wraps { .. } => "pc over the end",
        Case::Forbidden { .. } => "causes 2 and 22",
        Case::Refused { .. } => "refusals as 3",
        Case::Order { .. } => "orders of refusals",
    }
}

/// Whether two runs of bytes have one in common.
fn meet((one, width): (u64, u64), (other, other_width): (u64, u64)) -> bool {
    let end = |start: u64, width: u64| u128::from(start) + u128::from(width);
    u128::from(one) < end(other, other_width) && u128::from(other) < end(one, width)
}

/// A store whose bytes and those around them are being loaded.
#[derive(Clone, Debug, PartialEq, Eq)]
struct Pending {
    width: u64,
    value: u64,
    places: Vec<Place>,
    /// The multiples of 8 whose eight bytes are still to be loaded.
    needed: BTreeSet<u64>,
}

impl Pending {
    fn new(start: u64, width: u64, value: u64, (base, length): (u64, u64)) -> Pending {
        let end = start + width;
        let mut places = vec![Place::Offset(start & 7)];
        for (place, is) in [
            (Place::ImageStart, start == base),
            (Place::ImageEnd, end == base + length),
            (Place::PageStart, start & 0xfff == 0),
            (Place::PageEnd, end & 0xfff == 0),
        ] {
            if is {
                places.push(place);
            }
        }
        let around = [start.wrapping_sub(8) & !7, start & !7, (start & !7) + 8];
        let needed = around.into_iter().filter(|word| {
            let touched = meet((*word, 8), (start.saturating_sub(1), width + 2));
            touched && (base..base + length).contains(word)
        });
        Pending {
            width,
            value,
            places,
            needed: needed.collect(),
        }
    }
}

/// What the next line must show.
#[derive(Clone, Debug, PartialEq, Eq)]
enum Awaited {
    /// The hart after this fault, and the hart before it.
    Trap(Delivery, Trap, Box<Hart>),
    /// pc 0.
    Wrap(&'static str),
}

/// How many stores are remembered.
const STORES: usize = 4;

/// Counts of what hypervisor loads and stores reached.
#[derive(Clone, Debug, Default, PartialEq, Eq)]
pub struct Guest {
    /// The cases.
    pub cases: BTreeMap<Case, u64>,
    /// By the width of stores that were read back, the bits of their VALUE that were 1 and those that were 0.
    pub stored_bits: BTreeMap<u64, [u64; 2]>,
    pending: Option<Pending>,
    awaited: Option<Awaited>,
    /// The last stores that no `put` has overwritten.
    stores: VecDeque<(u64, u64)>,
}

impl Guest {
    /// Whether a case was reached.
    pub fn has(&self, case: &Case) -> bool {
        self.cases.contains_key(case)
    }

    fn reach(&mut self, case: Case) {
        count(&mut self.cases, case);
    }

    /// Notes a line of a script, what it met and its answer.
    pub fn note(&mut self, line: &Line, before: &Before, answer: &Answer) {
        if let (Some(awaited), Line::Show) = (self.awaited.take(), line) {
            self.note_shown(awaited, &before.hart);
        }
        self.note_lists(line, answer);
        match (line, answer) {
            (Line::Guest { access, .. }, Answer::Guest(reached)) => {
                self.note_access(access, before, reached);
            }
            (Line::Put { address, .. }, _) => {
                self.pending = None;
                self.stores.retain(|store| !meet(*store, (*address, 8)));
            }
            (Line::Image { .. } | Line::File { .. }, _) => {
                self.pending = None;
                self.stores.clear();
            }
            _ => {}
        }
    }

    /// Notes the entries that an event read and a store has changed.
    fn note_lists(&mut self, line: &Line, answer: &Answer) {
        let list = match answer {
            Answer::Translation(translation) => &translation.list,
            Answer::Guest(reached) => &reached.list,
            _ => return,
        };
        let Some(event) = event_word(line) else {
            return;
        };
        for read in list.items() {
            for place in 0..self.stores.len() {
                let (start, width) = self.stores[place];
                if meet((start, width), (read.address, 8)) {
                    let stage = read.stage;
                    self.reach(Case::Table {
                        width,
                        stage,
                        event,
                    });
                }
            }
        }
    }

    fn note_access(&mut self, access: &GuestAccess, before: &Before, reached: &Reached) {
        let event = form_of(access).0;
        let mode = before.hart.checked_mode();
        match (reached.outcome.ending, mode) {
            (Ending::Refused(number), _) => self.note_refused(access, before, mode, number),
            (Ending::Trapped(trap, _), Some(mode)) if matches!(trap.cause, 2 | 22) => {
                let misaligned = !access.address.is_multiple_of(access.width);
                self.reach(Case::Forbidden {
                    event,
                    mode,
                    misaligned,
                });
            }
            (Ending::Trapped(trap, target), Some(mode)) => {
                self.note_mprv(event, before, walk::Answer::Fault(trap));
                if let Some(Reason::Fault(why)) = reached.outcome.reason {
                    let key = why.key();
                    self.reach(Case::Fault { event, key });
                    self.note_rights(event, &before.hart, &reached.list, Some(key));
                    let of_entry = of_entry(&key);
                    let spvp = bit(before.hart.hstatus, SPVP);
                    let delivery = (event, trap.cause, of_entry, mode, target, spvp);
                    self.awaited = Some(Awaited::Trap(delivery, trap, Box::new(before.hart)));
                }
            }
            (Ending::Done, Some(mode)) => self.note_done(access, before, mode, reached),
            _ => {}
        }
    }

    fn note_refused(
        &mut self,
        access: &GuestAccess,
        before: &Before,
        mode: Option<Mode>,
        number: u64,
    ) {
        let (event, width, _) = form_of(access);
        let good_width = match event {
            "hlvx" => matches!(width, 2 | 4),
            _ => matches!(width, 1 | 2 | 4 | 8),
        };
        let bad = [mode.is_none(), !before.image_taken, !good_width];
        let expected = match bad {
            [true, ..] => 2,
            [_, true, _] => 1,
            _ => 3,
        };
        if number == expected {
            self.reach(Case::Order { event, bad });
        }
        if let (Some(mode), 3) = (mode, number) {
            self.reach(Case::Refused { event, width, mode });
        }
    }

    fn note_done(&mut self, access: &GuestAccess, before: &Before, mode: Mode, reached: &Reached) {
        let form = form_of(access);
        let (event, width, signed) = form;
        let hart = &before.hart;
        let Some(machine) = reached.machine else {
            return;
        };
        let stages = [hart.vsatp, hart.hgatp].map(|atp| atp_mode(atp) != 0);
        self.reach(Case::Done {
            form,
            mode,
            hu: bit(hart.hstatus, HU),
            spvp: bit(hart.hstatus, SPVP),
            stages,
        });
        self.note_levels(event, stages, &reached.list);
        self.note_rights(event, hart, &reached.list, None);
        self.note_mprv(event, before, walk::Answer::Address(machine));
        if hart.pc == u64::MAX - 3 {
            self.awaited = Some(Awaited::Wrap(event));
        }
        match (access.operation, reached.value) {
            (Operation::Store { value }, _) => {
                self.note_store(machine.0, width, value, before, &reached.list);
            }
            (_, Some(loaded)) => {
                let ends = Value::ALL.into_iter();
                for value in ends.filter(|value| value.loaded(width, signed) == loaded) {
                    self.reach(Case::Loaded { form, value });
                }
                self.note_load(form, machine.0);
            }
            _ => {}
        }
    }

    fn note_levels(&mut self, event: &'static str, stages: [bool; 2], list: &List) {
        let level_of = |stage: u64| {
            let mut items = list.items().iter().rev();
            items
                .find(|read| read.stage == stage)
                .map(|read| read.level)
        };
        let [first, second] = [1, 2].map(level_of);
        if stages == [first.is_some(), second.is_some()] {
            self.reach(Case::Levels {
                event,
                first,
                second,
            });
        }
    }

    fn note_store(&mut self, start: u64, width: u64, value: u64, before: &Before, list: &List) {
        let own = list.items().iter();
        let own = own.filter(|read| meet((start, width), (read.address, 8)));
        for stage in own.map(|read| read.stage).collect::<BTreeSet<u64>>() {
            self.reach(Case::OwnTable { stage });
        }
        if self.stores.len() == STORES {
            self.stores.pop_front();
        }
        self.stores.push_back((start, width));
        self.pending = Some(Pending::new(start, width, value, before.image));
    }

    fn note_load(&mut self, form: Form, start: u64) {
        let (_, width, _) = form;
        if let Some(store) = self.stores.back().copied() {
            if meet(store, (start, width)) {
                self.reach(Case::ReadBack {
                    form,
                    width: store.1,
                });
            }
        }
        let Some(pending) = &mut self.pending else {
            return;
        };
        if width == 8 {
            pending.needed.remove(&start);
        }
        if pending.needed.is_empty() {
            let Pending {
                width,
                value,
                ref places,
                ..
            } = *pending;
            let places = places.clone();
            self.pending = None;
            self.join(width, [value, !value]);
            for place in places {
                self.reach(Case::Stored { width, place });
            }
        }
    }

    fn join(&mut self, width: u64, [ones, zeros]: [u64; 2]) {
        let known = self.stored_bits.entry(width).or_default();
        known[0] |= ones;
        known[1] |= zeros;
    }

    /// Notes an access in M with MPRV set, which came to this.
    fn note_mprv(&mut self, event: &'static str, before: &Before, answer: walk::Answer) {
        let Some(obeying) = before.by_mprv else {
            return;
        };
        let hart = &before.hart;
        let (mpp, mpv) = (mpp(hart.mstatus), bit(hart.mstatus, MPV));
        let spvp = bit(hart.hstatus, SPVP);
        let same = mpv && mpp == u64::from(spvp);
        if same || obeying != answer {
            self.reach(Case::Mprv {
                event,
                mpp,
                mpv,
                spvp,
            });
        }
    }

    /// Notes which leaves decided by their rights, and what they decided.
    fn note_rights(&mut self, event: &'static str, hart: &Hart, list: &List, fault: Option<Key>) {
        let mxr = [hart.vsstatus, hart.mstatus].map(|status| bit(status, MXR));
        let [guest_mxr, host_mxr] = mxr;
        let passes = |leaf: &Read, mxr: bool| match event {
            "hlv" => leaf.value & R != 0 || (mxr && leaf.value & X != 0),
            "hlvx" => leaf.value & X != 0,
            _ => leaf.value & W != 0,
        };
        let leaves = Leaves::of(list.items());
        let [first_on, second_on] = [hart.vsatp, hart.hgatp].map(|atp| atp_mode(atp) != 0);
        if let Some(leaf) = leaves.first {
            if decided(fault, Part::Vsatp, is_right) == Some(passes(leaf, guest_mxr || host_mxr)) {
                self.reach(Case::FirstRight {
                    event,
                    mxr,
                    rights: leaf.value & (R | W | X),
                    second_on,
                });
            }
            let [guest_sum, host_sum] =
                [hart.vsstatus, hart.mstatus].map(|status| bit(status, SUM));
            let spvp = bit(hart.hstatus, SPVP);
            let user_page = leaf.value & U != 0;
            let passes = if spvp {
                !user_page || guest_sum
            } else {
                user_page
            };
            if decided(fault, Part::Vsatp, is_user) == Some(passes) {
                self.reach(Case::Sum {
                    event,
                    spvp,
                    user_page,
                    guest_sum,
                    host_sum,
                });
            }
        }
        if let Some(leaf) = leaves.second {
            if decided(fault, Part::HgatpForAccess, is_right) == Some(passes(leaf, host_mxr)) {
                self.reach(Case::SecondRight {
                    event,
                    mxr,
                    rights: leaf.value & (R | W | X),
                    first_on,
                });
            }
        }
        if let (Some(leaf), true) = (leaves.entry, first_on) {
            let passed = leaves.entry_passed.then_some(true);
            let passed = passed.or(decided(fault, Part::HgatpForEntry, is_right));
            if passed == Some(leaf.value & R != 0) {
                self.reach(Case::EntryRight {
                    event,
                    mxr,
                    rights: leaf.value & (R | W | X),
                });
            }
        }
    }

    fn note_shown(&mut self, awaited: Awaited, hart: &Hart) {
        match awaited {
            Awaited::Wrap(event) if hart.pc == 0 => self.reach(Case::Wraps { event }),
            Awaited::Trap(delivery, trap, before) if shows(hart, &delivery, &trap, &before) => {
                self.reach(Case::Delivered(delivery));
            }
            _ => {}
        }
    }

    /// Adds another's counts.
    pub fn add(&mut self, other: &Guest) {
        add(&mut self.cases, &other.cases);
        for (width, bits) in &other.stored_bits {
            self.join(*width, *bits);
        }
    }

    /// What must be reached and was not.
    pub fn missing(&self) -> Vec<String> {
        let missing = all().into_iter().filter(|case| !self.has(case));
        let mut missing: Vec<String> = missing
            .map(|case| format!("a hypervisor load or store: {case:?}"))
            .collect();
        for width in [1, 2, 4, 8] {
            let bits = self.stored_bits.get(&width).copied().unwrap_or_default();
            for (bits, value) in bits.into_iter().zip([1, 0]) {
                if bits != u64::MAX {
                    let bits = !bits;
                    missing.push(format!(
                        "bits {bits:x} of VALUE as {value}, by a store of {width} that is read back"
                    ));
                }
            }
        }
        missing
    }

    /// The counts, for people.
    pub fn table(&self, text: &mut String) {
        let kinds = table_of_kinds(all().iter().map(|case| (kind(case), self.has(case))));
        let bits = self.stored_bits.values().flatten();
        let bits = bits.map(|bits| bits.count_ones()).sum::<u32>();
        let _ = writeln!(
            text,
            "hypervisor loads and stores: {kinds}; bits of VALUE stored and read back: {bits} of {}",
            4 * 128
        );
    }
}

/// The leaves of a walk's list that its rights may have ended at.
struct Leaves<'a> {
    /// The first stage's.
    first: Option<&'a Read>,
    /// The second stage's for the access.
    second: Option<&'a Read>,
    /// The second stage's for the first guest entry.
    entry: Option<&'a Read>,
    /// Whether that entry was read.
    entry_passed: bool,
}

impl Leaves<'_> {
    fn of(items: &[Read]) -> Leaves<'_> {
        let is_leaf = |read: &&Read| read.value & (R | X) != 0;
        let first_stage = items.iter().position(|read| read.stage == 1);
        let before_entry = &items[..first_stage.unwrap_or(items.len())];
        let last_of_first = items.iter().rposition(|read| read.stage == 1);
        let behind = &items[last_of_first.map_or(0, |place| place + 1)..];
        Leaves {
            first: last_of_first.map(|place| &items[place]).filter(is_leaf),
            second: behind.last().filter(is_leaf),
            entry: before_entry.last().filter(is_leaf),
            entry_passed: first_stage.is_some(),
        }
    }
}

/// Whether a part's rules of this kind let the access pass: not where one of them ended the walk. None where another rule ended it there
/// or before.
fn decided(fault: Option<Key>, part: Part, of_kind: fn(Rule) -> bool) -> Option<bool> {
    let Some((rule, at, _)) = fault else {
        return Some(true);
    };
    let order = [
        Part::HgatpForEntry,
        Part::Vsatp,
        Part::HgatpForAccess,
        Part::Access,
    ];
    let place = |part| order.iter().position(|of| *of == part);
    if at == part && of_kind(rule) {
        Some(false)
    } else {
        (place(at) > place(part) && rule != Rule::Misaligned).then_some(true)
    }
}

/// A right is missing.
fn is_right(rule: Rule) -> bool {
    matches!(
        rule,
        Rule::NotReadable | Rule::NotWritable | Rule::NotExecutableForHlvx
    )
}

/// U and SUM do not let it pass.
fn is_user(rule: Rule) -> bool {
    matches!(rule, Rule::NotUser | Rule::SupervisorNeedsSum)
}

/// Whether a hart shows what the trap of a fault must have written, where each of it was otherwise before: from V=0, with the flag set,
/// SPVP kept, and not to VS although hedeleg has the bit.
fn shows(hart: &Hart, delivery: &Delivery, trap: &Trap, before: &Hart) -> bool {
    let (_, _, _, mode, target, spvp) = *delivery;
    let to_vs = trap.cause > 15 || bit(before.hedeleg, trap.cause as u32);
    let kept = bit(hart.hstatus, SPVP) == spvp;
    let privilege = mode.privilege();
    let numbers = [trap.cause, trap.value, trap.second, trap.word, before.pc];
    let written = match target {
        Target::M => {
            let was_set = bit(before.mstatus, MPV) && !bit(before.mstatus, MSTATUS_GVA);
            let from = (bit(hart.mstatus, MPV), mpp(hart.mstatus));
            was_set
                && from == (false, privilege)
                && bit(hart.mstatus, MSTATUS_GVA)
                && numbers == [hart.mcause, hart.mtval, hart.mtval2, hart.mtinst, hart.mepc]
        }
        Target::Hs => {
            let was_set = bit(before.hstatus, SPV) && !bit(before.hstatus, HSTATUS_GVA);
            let from = (bit(hart.hstatus, SPV), u64::from(bit(hart.mstatus, SPP)));
            was_set
                && from == (false, privilege)
                && bit(hart.hstatus, HSTATUS_GVA)
                && numbers == [hart.scause, hart.stval, hart.htval, hart.htinst, hart.sepc]
        }
        Target::Vs => false,
    };
    to_vs && kept && written
}

/// Whether a hart's loads and stores are made by MPP.
pub fn has_mprv(hart: &Hart) -> bool {
    hart.checked_mode() == Some(Mode::M) && bit(hart.mstatus, MPRV)
}

#[cfg(test)]
mod tests {
    use super::super::tests::notes;
    use super::*;

    /// Notes the lines of a script, with its answers changed.
    fn noted_with(script: &str, change: fn(&mut Answer)) -> Guest {
        notes(script, change, Guest::note)
    }

    /// Notes the lines of a script.
    fn noted(script: &str) -> Guest {
        noted_with(script, |_| {})
    }

    /// The cases that a filter lets through.
    fn only(guest: &Guest, of: fn(&Case) -> bool) -> Vec<Case> {
        guest.cases.keys().copied().filter(of).collect()
    }

    #[test]
    fn what_there_is() {
        let all = all();
        let count = |of: fn(&Case) -> bool| all.iter().filter(|case| of(case)).count();
        assert_eq!(forms().len(), 14);
        assert_eq!(
            count(|case| matches!(case, Case::Done { .. })),
            14 * 5 * 2 * 4
        );
        assert_eq!(count(|case| matches!(case, Case::Loaded { .. })), 10 * 4);
        assert_eq!(count(|case| matches!(case, Case::Fault { .. })), 550);
        assert_eq!(count(|case| matches!(case, Case::Levels { .. })), 3 * 36);
        assert_eq!(
            count(|case| matches!(case, Case::Delivered(_))),
            3 * 5 * 5 * 2
        );
        assert_eq!(
            count(|case| matches!(case, Case::Refused { .. })),
            (3 * 8 + 2) * 5
        );
        assert_eq!(
            count(|case| matches!(case, Case::Stored { .. })),
            15 + 4 * 4
        );
        let mut once = all.clone();
        once.sort();
        once.dedup();
        assert_eq!(once.len(), all.len());
        // Before anything is reached all of them are missing, and the bits of four widths.
        assert_eq!(Guest::default().missing().len(), all.len() + 8);
    }

    #[test]
    fn a_load_counts_by_what_it_must_answer() {
        let script = "image 0 1000;put 0 80;hlv 1 1 0 0;hlv 1 0 0 0";
        let loaded = |guest: &Guest| only(guest, |case| matches!(case, Case::Loaded { .. }));
        let case = |signed| Case::Loaded {
            form: ("hlv", 1, signed),
            value: Value::Smallest,
        };
        assert_eq!(loaded(&noted(script)), [case(false), case(true)]);
        // Not extended, it counts for the unsigned load alone.
        let wrong = noted_with(script, |answer| {
            if let Answer::Guest(reached) = answer {
                reached.value = Some(0x80);
            }
        });
        assert_eq!(loaded(&wrong), [case(false)]);
    }

    #[test]
    fn a_store_counts_where_all_around_it_is_loaded() {
        let script = "image 0 2000;hsv 2 8 1234 0;hlv 8 0 0 0;hlv 8 0 8 0";
        let stored =
            |script: &str| only(&noted(script), |case| matches!(case, Case::Stored { .. }));
        let offset = Case::Stored {
            width: 2,
            place: Place::Offset(0),
        };
        assert_eq!(stored(script), [offset]);
        for script in [
            "image 0 2000;hsv 2 8 1234 0;hlv 8 0 8 0",
            "image 0 2000;hsv 2 8 1234 0;hlv 8 0 0 0;put 8 0;hlv 8 0 8 0",
            "image 0 2000;hsv 2 8 1234 0;hlv 4 0 0 0;hlv 4 0 8 0",
            "image 0 2000;hsv 2 e 1234 0;hlv 8 0 8 0",
        ] {
            assert_eq!(stored(script), [], "{script}");
        }
        let ends = stored("image 1000 1000;hsv 8 1ff8 5 0;hlv 8 0 1ff8 0;hlv 8 0 1ff0 0");
        assert_eq!(
            ends.len(),
            3,
            "the end of the image and of a page, and an offset"
        );
        let bits = noted(script).stored_bits;
        assert_eq!(bits, BTreeMap::from([(2, [0x1234, !0x1234])]));
    }

    #[test]
    fn tables_and_what_was_stored_are_seen_later() {
        // A leaf of 1 GiB of the first stage at 0, and a store into it.
        let scene = "image 0 1000;put 0 df;reg 280 8000000000000000;reg 200 200040000";
        let guest = noted(&format!("{scene};hsv 1 0 df 0;hlv 8 0 8 0;hlv 2 1 0 0"));
        assert!(guest.has(&Case::OwnTable { stage: 1 }));
        let table = |event| Case::Table {
            width: 1,
            stage: 1,
            event,
        };
        assert!(guest.has(&table("hlv")) && !guest.has(&table("hsv")));
        let back = only(&guest, |case| matches!(case, Case::ReadBack { .. }));
        let form = ("hlv", 2, true);
        assert_eq!(back, [Case::ReadBack { form, width: 1 }]);
        let guest = noted(&format!("{scene};hsv 1 0 df 0;put 0 df;hlv 8 0 8 0"));
        assert!(!guest.has(&table("hlv")));
    }

    #[test]
    fn a_trap_counts_where_it_is_shown_as_it_must_be() {
        let delivered = |guest: &Guest| only(guest, |case| matches!(case, Case::Delivered(_)));
        // SPV and hedeleg's bit are set; it goes to HS.
        let scene = "hart 0 1 40;reg 302 b0ff;reg 602 b1ff;reg 600 200000180;hlv 2 0 1 0";
        let delivery = ("hlv", 4, false, Mode::Hs, Target::Hs, true);
        let shown = noted(&format!("{scene};show"));
        assert_eq!(delivered(&shown), [Case::Delivered(delivery)]);
        for behind in [
            "",
            ";wfi 0;show",
            // Without the flag, with SPV, without SPVP, with another stval or sepc.
            ";reg 600 200000100;show",
            ";reg 600 2000001c0;show",
            ";reg 600 200000040;show",
            ";reg 143 0;show",
            ";reg 141 44;show",
        ] {
            let script = format!("{scene}{behind}");
            assert_eq!(delivered(&noted(&script)), [], "{script}");
        }
        // Nor where nothing would have gone to VS.
        let scene = scene.replace("reg 602 b1ff;", "");
        assert_eq!(delivered(&noted(&format!("{scene};show"))), []);
    }

    #[test]
    fn mprv_counts_where_obeying_it_would_be_seen() {
        // The first stage has nothing: V=1 faults. With MPV=0 satp is Bare.
        let case = |mpv, spvp| Case::Mprv {
            event: "hlv",
            mpp: 1,
            mpv,
            spvp,
        };
        let script = |mstatus: &str| {
            format!("image 0 1000;reg 280 8000000000000000;reg 300 {mstatus};hlv 1 0 0 0")
        };
        let mprv = |script: &str| only(&noted(script), |case| matches!(case, Case::Mprv { .. }));
        assert_eq!(mprv(&script("a00020800")), [case(false, false)]);
        // As VS it would fault too, as VU does.
        assert_eq!(mprv(&script("8a00020800")), []);
        assert_eq!(mprv(&script("a00000800")), []);
    }

    #[test]
    fn rights_count_where_they_decide() {
        let sums = |script: &str| only(&noted(script), |case| matches!(case, Case::Sum { .. }));
        let scene = "image 0 1000;reg 280 8000000000000000";
        let user = sums(&format!("{scene};put 0 df;hlv 1 0 0 0"));
        assert_eq!(user.len(), 1);
        // Another rule comes first.
        assert_eq!(sums(&format!("{scene};put 0 9f;hlv 1 0 0 0")), []);
        let rights = |script: &str| {
            only(&noted(script), |case| {
                matches!(case, Case::FirstRight { .. })
            })
        };
        assert_eq!(rights(&format!("{scene};put 0 d7;hlvx 2 0 0")).len(), 1);
        assert_eq!(rights(&format!("{scene};put 0 c7;hlvx 2 0 0")), []);
    }

    #[test]
    fn refusals_count_by_what_is_bad() {
        let orders = |script: &str| only(&noted(script), |case| matches!(case, Case::Order { .. }));
        let order = |bad| Case::Order { event: "hsv", bad };
        assert_eq!(
            orders("hart 0 3 2;hsv 3 0 0 0"),
            [order([true, false, true])]
        );
        assert_eq!(
            orders("image 1 1;hsv 1 0 0 0"),
            [order([false, true, false])]
        );
        assert_eq!(orders("hsv 1 0 0 0"), []);
    }
}
