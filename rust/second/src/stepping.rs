//! Change request 2026-07, "Stop the walk and show each read": "a second engine that keeps its place in a small state, reads at
//! most one entry on each press, and says which."
//!
//! What an entry, an address or an access comes to is by the rules of [`walk`](crate::walk). The way from one entry to the next is
//! this module's own: a press reads the entry that is next, and goes on by it to the one after it or to the end.

use crate::address::{GuestPhysical, Machine};
use crate::hart::{Hart, Mode};
use crate::image::Image;
use crate::reasons::Reason;
use crate::registers::atp_levels;
use crate::trap::Refusal;
use crate::walk::{
    effective_mode, first_stage_bits, first_stage_index, first_stage_takes, leaf_result,
    root_table, second_stage_bits, second_stage_index, second_stage_takes, top_level, Access,
    Answer, Entry, Fault, List, Manner, Purpose, Read, Rule, Stage, Walk, PLACES,
};

/// A place: what is kept of a walk from one press to the next. Of the image it is the base and the length alone.
#[derive(Clone, Copy, PartialEq, Eq, Debug)]
pub struct Place {
    /// The hart at the start.
    pub hart: Hart,
    /// The access.
    pub access: Access,
    /// The base of the image at the start.
    pub base: u64,
    /// The length of that image.
    pub length: u128,
    /// "the list so far": the entries shown.
    pub list: List,
    /// What comes next, or the end.
    pub state: State,
}

/// Whether a place is finished.
#[derive(Clone, Copy, PartialEq, Eq, Debug)]
pub enum State {
    /// It is not: this entry is next.
    Going(Next),
    /// It is.
    Finished(End),
}

/// The entry that is next, with what the stages hold: "for each stage, the address it translates, a table address and a level". The
/// first stage's address is the access's; of the tables' addresses none is needed but for where the entry is.
#[derive(Clone, Copy, PartialEq, Eq, Debug)]
pub struct Next {
    /// The effective mode.
    pub mode: Mode,
    /// The entry's stage: 1 first, 2 second.
    pub stage: u64,
    /// Where the entry is.
    pub entry: Machine,
    /// The first stage's level; 0 once that has yielded its address, or where it isn't on.
    pub first_level: u64,
    /// The second stage's level; 0 while that isn't walked.
    pub second_level: u64,
    /// The address that the second stage translates; 0 while that isn't walked.
    pub guest: GuestPhysical,
    /// What the second stage translates it for.
    pub purpose: Purpose,
}

/// How a place ended.
#[derive(Clone, Copy, PartialEq, Eq, Debug)]
pub struct End {
    /// "its end answer is the plain engine's".
    pub answer: Answer,
    /// Why it is a refusal or a fault.
    pub reason: Option<Reason>,
}

/// What a press came to.
#[derive(Clone, Copy, PartialEq, Eq, Debug)]
pub struct Pressed {
    /// "Each press hands the place back."
    pub place: Place,
    /// The entry shown, which is the last item of the place's list.
    pub shown: Option<Read>,
    /// Why the press was refused: "the place, with its list, is unchanged and nothing is shown".
    pub refusal: Option<Refusal>,
}

impl Pressed {
    /// Why the press was refused, or why the place ended with a refusal or a fault.
    pub fn reason(&self) -> Option<Reason> {
        let refused = self.refusal.map(Reason::Refused);
        refused.or(self.place.reason())
    }
}

/// What makes the model refuse a press as 6.
#[derive(Clone, Copy, PartialEq, Eq, Debug)]
pub enum BadPlace {
    /// The image has another base than the place's.
    Base {
        /// The image's base.
        image: u64,
        /// The place's.
        place: u64,
    },
    /// The image has another length than the place's.
    Length {
        /// The image's length.
        image: u128,
        /// The place's.
        place: u128,
    },
    /// "a count over 35, or an unfinished place whose count is 35".
    Count {
        /// The count.
        count: usize,
        /// The most that it may be.
        limit: usize,
    },
    /// An unfinished place "whose stage isn't 1 or 2".
    Stage(u64),
    /// "a level still being walked isn't below its mode's depth".
    Level {
        /// The stage.
        stage: u64,
        /// Its level.
        level: u64,
        /// Its depth.
        depth: u64,
    },
}

/// A start: "A start that the plain engine refuses is finished at once, with that refusal as its end answer."
pub fn start(hart: &Hart, image: &Image, access: &Access) -> Place {
    let list = List::default();
    let state = match manner(hart, image, access) {
        Ok(manner) => settled(begin(&Walk::new(hart, image, access, manner, list))),
        Err(refusal) => State::Finished(End {
            answer: Answer::Refused(refusal.number()),
            reason: Some(Reason::Refused(refusal)),
        }),
    };
    Place {
        hart: *hart,
        access: *access,
        base: image.base,
        length: image.length(),
        list,
        state,
    }
}

/// A press. "Any other press after the end changes and shows nothing."
pub fn press(place: &Place, image: &Image) -> Pressed {
    let unchanged = Pressed {
        place: *place,
        shown: None,
        refusal: place.refusal(image),
    };
    match place.state {
        State::Going(next) if unchanged.refusal.is_none() => place.go_on(next, image),
        _ => unchanged,
    }
}

impl Place {
    /// The end, if it is finished.
    pub fn end(&self) -> Option<End> {
        match self.state {
            State::Going(_) => None,
            State::Finished(end) => Some(end),
        }
    }

    /// Why it ended with a refusal or a fault.
    pub fn reason(&self) -> Option<Reason> {
        self.end()?.reason
    }

    /// Why a press on this image is refused: "a press on an image bad by check 1 is refused as 1; then [...] as 6".
    pub fn refusal(&self, image: &Image) -> Option<Refusal> {
        let bad_image = image.refusal().map(Refusal::Image);
        bad_image.or_else(|| self.unfit(image).map(Refusal::Place))
    }

    /// Refusal 6: "one with another base or length, a count over 35, or an unfinished place whose count is 35, whose stage isn't 1 or
    /// 2, or where a level still being walked isn't below its mode's depth".
    fn unfit(&self, image: &Image) -> Option<BadPlace> {
        let (next, limit) = match self.state {
            State::Going(next) => (Some(next), PLACES - 1),
            State::Finished(_) => (None, PLACES),
        };
        let count = self.list.count;
        if image.base != self.base {
            Some(BadPlace::Base {
                image: image.base,
                place: self.base,
            })
        } else if image.length() != self.length {
            Some(BadPlace::Length {
                image: image.length(),
                place: self.length,
            })
        } else if count > limit {
            Some(BadPlace::Count { count, limit })
        } else {
            next?.unfit(&self.hart)
        }
    }

    /// The press that reads the entry that is next.
    fn go_on(&self, next: Next, image: &Image) -> Pressed {
        let manner = Manner {
            mode: next.mode,
            needs_x: false,
        };
        let mut walk = Walk::new(&self.hart, image, &self.access, manner, self.list);
        let state = settled(next.read(&mut walk));
        Pressed {
            place: Place {
                list: walk.list,
                state,
                ..*self
            },
            shown: walk.list.items().get(self.list.count).copied(),
            refusal: None,
        }
    }
}

impl Next {
    /// The stage that is walked. (One that is neither 1 nor 2 is refused.)
    fn walked(&self) -> Stage {
        match self.stage {
            1 => Stage::First,
            _ => Stage::Second(self.guest, self.purpose),
        }
    }

    /// The entry's level.
    fn level(&self) -> u64 {
        match self.walked() {
            Stage::First => self.first_level,
            Stage::Second(..) => self.second_level,
        }
    }

    /// What is wrong with the stage, or with a level still being walked: on the way to a guest entry these are both stages'.
    fn unfit(&self, hart: &Hart) -> Option<BadPlace> {
        let first = too_high(1, self.first_level, first_register(hart, self.mode));
        let second = too_high(2, self.second_level, second_register(hart, self.mode));
        match (self.stage, self.purpose) {
            (1, _) => first,
            (2, Purpose::GuestEntry) => first.or(second),
            (2, Purpose::Access) => second,
            _ => Some(BadPlace::Stage(self.stage)),
        }
    }

    /// Reads the entry, and goes on by it.
    fn read(self, walk: &mut Walk) -> Result<State, Fault> {
        let (stage, level) = (self.walked(), self.level());
        match (walk.visit(stage, level, self.entry)?, stage) {
            (Entry::Pointer { level, table }, Stage::First) => first_table(walk, level, table),
            (Entry::Pointer { level, table }, Stage::Second(guest, _)) => {
                let below = Next {
                    entry: second_entry(walk.hart, guest, level, table),
                    second_level: level,
                    ..self
                };
                going(walk, below)
            }
            (Entry::Leaf { ppn }, Stage::First) => {
                first_result(walk, leaf_result(ppn, walk.access.address, level))
            }
            (Entry::Leaf { ppn }, Stage::Second(guest, purpose)) => {
                let machine = Machine(leaf_result(ppn, guest.0, level));
                second_result(walk, machine, purpose, self.first_level)
            }
        }
    }
}

/// What is wrong with a level of a stage that goes by this register.
fn too_high(stage: u64, level: u64, register: u64) -> Option<BadPlace> {
    let depth = depth(register);
    (level >= depth).then_some(BadPlace::Level {
        stage,
        level,
        depth,
    })
}

/// How many levels the tables of a register have: none where it is Bare.
fn depth(register: u64) -> u64 {
    atp_levels(register).unwrap_or(0)
}

/// The first stage's register: "V=0 walks satp alone; V=1 walks vsatp". M is as if that were Bare.
fn first_register(hart: &Hart, mode: Mode) -> u64 {
    match mode {
        Mode::M => 0,
        Mode::U | Mode::Hs => hart.satp,
        Mode::Vu | Mode::Vs => hart.vsatp,
    }
}

/// The second stage's register. V=0 is as if that were Bare.
fn second_register(hart: &Hart, mode: Mode) -> u64 {
    if mode.v() {
        hart.hgatp
    } else {
        0
    }
}

// From one entry to the next. None of this looks at the image's bytes.

/// The start of an access that is not refused.
fn begin(walk: &Walk) -> Result<State, Fault> {
    walk.alignment()?;
    let register = first_register(walk.hart, walk.mode);
    let Some(levels) = atp_levels(register) else {
        return first_result(walk, walk.access.address);
    };
    walk.test_first_stage(levels)?;
    first_table(walk, top_level(levels), root_table(register))
}

/// To the first stage's entry in a table. "A guest entry is one of the first stage with effective V=1; with the second stage on, its
/// address goes through that before the read."
fn first_table(walk: &Walk, level: u64, table: u64) -> Result<State, Fault> {
    let entry = table + 8 * first_stage_index(walk.access.address, level);
    if walk.mode.v() {
        second_stage(walk, GuestPhysical(entry), Purpose::GuestEntry, level)
    } else {
        first_entry(walk, Machine(entry), level)
    }
}

/// The first stage's entry is next.
fn first_entry(walk: &Walk, entry: Machine, level: u64) -> Result<State, Fault> {
    let next = Next {
        mode: walk.mode,
        stage: 1,
        entry,
        first_level: level,
        second_level: 0,
        guest: GuestPhysical(0),
        purpose: Purpose::Access,
    };
    going(walk, next)
}

/// To the second stage's root, if that is on, while the first stage is at this level.
fn second_stage(
    walk: &Walk,
    guest: GuestPhysical,
    purpose: Purpose,
    first_level: u64,
) -> Result<State, Fault> {
    let hgatp = walk.hart.hgatp;
    let Some(levels) = atp_levels(hgatp) else {
        return second_result(walk, Machine(guest.0), purpose, first_level);
    };
    walk.test_second_stage(levels, guest, purpose)?;
    let second_level = top_level(levels);
    let next = Next {
        mode: walk.mode,
        stage: 2,
        entry: second_entry(walk.hart, guest, second_level, root_table(hgatp)),
        first_level,
        second_level,
        guest,
        purpose,
    };
    going(walk, next)
}

/// "The entry is at the table plus 8 times the index": the second stage's, which is on.
fn second_entry(hart: &Hart, guest: GuestPhysical, level: u64, table: u64) -> Machine {
    let index = second_stage_index(guest, level, depth(hart.hgatp));
    Machine(table + 8 * index)
}

/// "With effective V=1 the first stage's result, or the access's address if vsatp is Bare, goes through the second stage, if on, for
/// the access itself."
fn first_result(walk: &Walk, address: u64) -> Result<State, Fault> {
    if walk.mode.v() {
        second_stage(walk, GuestPhysical(address), Purpose::Access, 0)
    } else {
        end(walk, Machine(address))
    }
}

/// The second stage's result: where the guest entry is, or the access.
fn second_result(
    walk: &Walk,
    machine: Machine,
    purpose: Purpose,
    first_level: u64,
) -> Result<State, Fault> {
    match purpose {
        Purpose::GuestEntry => first_entry(walk, machine, first_level),
        Purpose::Access => end(walk, machine),
    }
}

/// "it is finished with the last item (at the start if there is none)": an entry outside the image isn't listed, so no press is for it.
fn going(walk: &Walk, next: Next) -> Result<State, Fault> {
    if !walk.image.holds(next.entry, 8) {
        return Err(walk.entry_outside(next.walked(), next.level(), next.entry));
    }
    Ok(State::Going(next))
}

/// "The last address, if the whole access lies in the image, is the answer."
fn end(walk: &Walk, machine: Machine) -> Result<State, Fault> {
    walk.whole_access_in_image(machine)?;
    Ok(State::Finished(End {
        answer: Answer::Address(machine),
        reason: None,
    }))
}

/// How an access is made, or why it is refused. "Order: 2, then 1, then the call's own", which is 3.
fn manner(hart: &Hart, image: &Image, access: &Access) -> Result<Manner, Refusal> {
    let mode = hart.check().map_err(Refusal::Hart)?;
    if let Some(bad) = image.refusal() {
        return Err(Refusal::Image(bad));
    }
    if let Some(bad) = access.refusal() {
        return Err(Refusal::Access(bad));
    }
    Ok(Manner {
        mode: effective_mode(hart, mode, access.kind),
        needs_x: false,
    })
}

impl<'a> Walk<'a> {
    /// A walk with this list so far.
    fn new(
        hart: &'a Hart,
        image: &'a Image,
        access: &'a Access,
        manner: Manner,
        list: List,
    ) -> Walk<'a> {
        Walk {
            hart,
            image,
            access,
            mode: manner.mode,
            needs_x: manner.needs_x,
            list,
        }
    }

    /// "An entry in the image is read, eight bytes, and listed; then the fault rules above are tried."
    fn visit(&mut self, stage: Stage, level: u64, place: Machine) -> Result<Entry, Fault> {
        let entry = self.read_entry(stage, level, place)?;
        let why = |rule| self.why_of_entry(rule, stage, level, place);
        match stage {
            Stage::First => self
                .first_stage_entry(entry, level)
                .map_err(|rule| self.page_fault(why(rule))),
            Stage::Second(guest, purpose) => self
                .second_stage_entry(entry, level, purpose)
                .map_err(|rule| self.guest_page_fault(guest, purpose, why(rule))),
        }
    }

    /// "An entry outside the image: access fault 1, 5, 7 by the original access."
    fn entry_outside(&self, stage: Stage, level: u64, place: Machine) -> Fault {
        let why = self.why_of_entry(Rule::EntryOutside, stage, level, place);
        self.access_fault(why)
    }

    /// "A stage that is on begins by testing its address's high bits."
    fn test_first_stage(&self, levels: u64) -> Result<(), Fault> {
        let address = self.access.address;
        let bits = first_stage_bits(levels);
        if !first_stage_takes(address, bits) {
            let why = self.why_of_stage(Rule::HighBits(bits), Stage::First, address);
            return Err(self.page_fault(why));
        }
        Ok(())
    }

    /// The same test, of a guest physical address.
    fn test_second_stage(
        &self,
        levels: u64,
        guest: GuestPhysical,
        purpose: Purpose,
    ) -> Result<(), Fault> {
        let bits = second_stage_bits(levels);
        if !second_stage_takes(guest, bits) {
            let stage = Stage::Second(guest, purpose);
            let why = self.why_of_stage(Rule::HighBits(bits), stage, guest.0);
            return Err(self.guest_page_fault(guest, purpose, why));
        }
        Ok(())
    }
}

/// "Any fault, of either stage, ends the walk and is its answer."
fn settled(came: Result<State, Fault>) -> State {
    came.unwrap_or_else(|fault| {
        State::Finished(End {
            answer: Answer::Fault(fault.trap),
            reason: Some(Reason::Fault(fault.why)),
        })
    })
}

#[cfg(test)]
#[path = "stepping_tests.rs"]
mod tests;
