//! Hypervisor loads and stores: everything that they can come to, in images with neither stage, with either and with both. (Those
//! through any tables, damaged in any way, are in the walks.)

use second::bits::{low_ones, with_bit};
use second::hart::{Hart, Mode};
use second::hypervisor::{GuestAccess, Operation};
use second::registers::{with_mpp, MPRV, MPV, SPV, SPVP, SUM};
use second::trap::Target;
use second::walk::{Part, Rule};

use crate::coverage::guest::{all, Case, Delivery, Form, Place};
use crate::coverage::words::GUEST_EVENTS;
use crate::scenes::world::{
    pairs, store, with_mxr, Spoilt, Walking, World, ALL_RIGHTS, DATA, LENGTH,
};
use crate::scribe::Scribe;
use crate::tables::{A, D, G, U, V};

/// The line of a hypervisor load or store, without its word.
pub fn text(access: &GuestAccess) -> String {
    let GuestAccess { address, width, .. } = access;
    match access.operation {
        Operation::Load { signed } => format!("hlv {width:x} {} {address:x}", u8::from(signed)),
        Operation::LoadExecutable => format!("hlvx {width:x} {address:x}"),
        Operation::Store { value } => format!("hsv {width:x} {address:x} {value:x}"),
    }
}

/// A hypervisor load or store of this form; what is stored is any number.
pub fn of_form(scribe: &mut Scribe, (event, width, signed): Form, address: u64) -> GuestAccess {
    let operation = match event {
        "hlv" => Operation::Load { signed },
        "hlvx" => Operation::LoadExecutable,
        _ => Operation::Store {
            value: scribe.rng.bits(),
        },
    };
    GuestAccess {
        operation,
        address,
        width,
    }
}

/// A hypervisor load or store of 2 or 4 bytes, and but for HLVX also of 1 or 8.
pub fn of_event(scribe: &mut Scribe, event: &'static str, address: u64) -> GuestAccess {
    let width = match event {
        "hlvx" => scribe.rng.pick(&[2, 4]),
        _ => scribe.rng.pick(&[1, 2, 4, 8]),
    };
    let signed = scribe.rng.chance(50);
    of_form(scribe, (event, width, signed), address)
}

/// Everything that they can come to.
pub fn all_in_turn(scribe: &mut Scribe) {
    for (first, second) in pairs() {
        let world = World::build(scribe, first, second);
        for case in all() {
            if !scribe.coverage.guest.has(&case) {
                world.attempt(scribe, case);
            }
        }
    }
    orders(scribe);
}

/// The bad ones among the hart, the image and the width, in all combinations.
fn orders(scribe: &mut Scribe) {
    for event in GUEST_EVENTS {
        for setting in 1..8u32 {
            let [hart, image, width] = [1, 2, 4].map(|place| setting & place != 0);
            let base = if image { 0x8000_0008u64 } else { 0x8000_0000 };
            scribe.line(&format!("image {base:x} 1000"));
            let mode = scribe.mode();
            scribe.hart(mode, if hart { 2 } else { 0 });
            let mut access = of_event(scribe, event, base);
            if width {
                access.width = scribe.rng.pick(&[0, 3, 7, 16]);
            }
            scribe.event(&text(&access));
            scribe.show();
        }
    }
}

impl World {
    /// The levels of its leaves.
    fn leaf_levels(&self) -> [Option<u64>; 2] {
        [self.first, self.second].map(|shape| shape.map(|shape| shape.leaf))
    }

    /// Makes a case happen, if it is one that this world can have.
    fn attempt(&self, scribe: &mut Scribe, case: Case) {
        let [first_on, second_on] = self.stages();
        let small_second = self.leaf_levels()[1] == Some(0);
        match case {
            Case::Done {
                form,
                mode,
                hu,
                spvp,
                stages,
            } if stages == self.stages() => {
                let hart = self.hart(scribe, mode, hu, spvp);
                let address = self.data(scribe);
                let access = of_form(scribe, form, address);
                perform(scribe, &hart, &access);
                scribe.show_sometimes(25);
            }
            Case::Levels {
                event,
                first,
                second,
            } if [first, second] == self.leaf_levels() => {
                let hart = self.any_hart(scribe);
                let address = self.data(scribe);
                let access = of_event(scribe, event, address);
                perform(scribe, &hart, &access);
            }
            Case::Loaded { form, value } => {
                let hart = self.any_hart(scribe);
                let (_, width, _) = form;
                let above = scribe.rng.bits() & !low_ones(8 * width as u32);
                scribe.put(self.base + DATA, above | value.bytes(width));
                let access = of_form(scribe, form, self.address(DATA));
                perform(scribe, &hart, &access);
            }
            Case::Sum {
                event,
                spvp,
                user_page,
                guest_sum,
                host_sum,
            } if first_on => {
                let mut hart = self.any_hart(scribe);
                hart.hstatus = with_bit(hart.hstatus, SPVP, spvp);
                hart.vsstatus = with_bit(hart.vsstatus, SUM, guest_sum);
                hart.mstatus = with_bit(hart.mstatus, SUM, host_sum);
                let flags = if user_page {
                    ALL_RIGHTS
                } else {
                    ALL_RIGHTS & !U
                };
                self.with_leaf(scribe, &hart, event, self.leaf(1, DATA, flags));
            }
            Case::FirstRight {
                event,
                mxr,
                rights,
                second_on: second,
            } if first_on && second_on == second => {
                let hart = with_mxr(self.any_hart(scribe), mxr);
                let leaf = self.leaf(1, DATA, V | U | A | D | rights);
                self.with_leaf(scribe, &hart, event, leaf);
            }
            Case::SecondRight {
                event,
                mxr,
                rights,
                first_on: first,
            } if second_on && first_on == first && (!first || small_second) => {
                let hart = with_mxr(self.any_hart(scribe), mxr);
                let leaf = self.leaf(2, DATA, V | U | A | D | rights);
                self.with_leaf(scribe, &hart, event, leaf);
            }
            Case::EntryRight { event, mxr, rights } if first_on && small_second => {
                let hart = with_mxr(self.any_hart(scribe), mxr);
                let leaf = self.leaf(2, self.first_root(), V | U | A | D | rights);
                self.with_leaf(scribe, &hart, event, leaf);
            }
            Case::Mprv {
                event,
                mpp,
                mpv,
                spvp,
            } if first_on => {
                let mut hart = self.hart(scribe, Mode::M, true, spvp);
                // VU reaches every page, VS none.
                hart.vsstatus = with_bit(hart.vsstatus, SUM, false);
                hart.mstatus = with_bit(with_mpp(hart.mstatus, mpp), MPV, mpv) | (1 << MPRV);
                let address = self.data(scribe);
                let access = of_event(scribe, event, address);
                perform(scribe, &hart, &access);
                scribe.show();
            }
            Case::Fault { event, key } => {
                let hart = self.any_hart(scribe);
                let address = self.data(scribe);
                let access = Walking::Outside(of_event(scribe, event, address));
                if let Some(spoilt) = self.spoilt(scribe, hart, access, key) {
                    self.perform_spoilt(scribe, &spoilt, 25);
                }
            }
            Case::Delivered(delivery) => self.deliver(scribe, delivery),
            Case::Stored { width, place } => self.store_around(scribe, width, place),
            Case::Table {
                width,
                stage,
                event,
            } if self.stages()[stage as usize - 1] => {
                self.store_into_table(scribe, width, stage, event)
            }
            Case::OwnTable { stage } if self.stages()[stage as usize - 1] => {
                let table = self.table_of_leaves(stage);
                let (place, leaf) = self.leaf(stage, table, ALL_RIGHTS | G);
                let hart = self.any_hart(scribe);
                let access = store(leaf, self.address(place - self.base), 8);
                perform(scribe, &hart, &access);
            }
            Case::ReadBack { form, width } => {
                let hart = self.any_hart(scribe);
                let address = self.data(scribe);
                let store = of_form(scribe, ("hsv", width, false), address);
                perform(scribe, &hart, &store);
                let load = of_form(scribe, form, address);
                scribe.event(&text(&load));
            }
            Case::Wraps { event } => {
                let mut hart = self.any_hart(scribe);
                hart.pc = u64::MAX - 3;
                let address = self.data(scribe);
                let access = of_event(scribe, event, address);
                perform(scribe, &hart, &access);
                scribe.show();
            }
            Case::Forbidden {
                event,
                mode,
                misaligned,
            } => {
                let hu = mode.v() && scribe.rng.chance(50);
                let spvp = scribe.rng.chance(50);
                let hart = self.hart(scribe, mode, hu, spvp);
                let address = self.data(scribe) + u64::from(misaligned);
                let access = of_form(scribe, (event, 4, true), address);
                perform(scribe, &hart, &access);
                scribe.show();
            }
            Case::Refused { event, width, mode } => {
                let hu = scribe.rng.chance(50);
                let spvp = scribe.rng.chance(50);
                let hart = self.hart(scribe, mode, hu, spvp);
                let address = self.data(scribe);
                let access = of_form(scribe, (event, width, true), address);
                perform(scribe, &hart, &access);
                scribe.show_sometimes(25);
            }
            _ => {}
        }
    }

    /// An access to the page of data while an entry is another one.
    fn with_leaf(&self, scribe: &mut Scribe, hart: &Hart, event: &'static str, leaf: (u64, u64)) {
        let address = self.data(scribe);
        let event = Walking::Outside(of_event(scribe, event, address));
        let spoilt = Spoilt {
            hart: *hart,
            event,
            entry: Some(leaf),
        };
        self.perform_spoilt(scribe, &spoilt, 25);
    }

    /// A fault whose trap goes so, and the hart after it.
    fn deliver(&self, scribe: &mut Scribe, delivery: Delivery) {
        let (event, cause, of_entry, mode, target, spvp) = delivery;
        let [first, second] = self.leaf_levels();
        let (rule, part, level) = match cause {
            4 | 6 => (Rule::Misaligned, Part::Access, None),
            5 | 7 => (Rule::AccessOutside, Part::Access, None),
            13 | 15 => (Rule::NotValid, Part::Vsatp, first),
            _ if of_entry => (Rule::NotValid, Part::HgatpForEntry, second),
            _ => (Rule::NotValid, Part::HgatpForAccess, second),
        };
        let mut hart = self.hart(scribe, mode, true, spvp);
        // What the trap makes 0 was 1, and the guest would take what is delegated.
        hart.hstatus = with_bit(hart.hstatus, SPV, true);
        hart.mstatus = with_bit(hart.mstatus, MPV, true);
        hart.medeleg = with_bit(0xf0_b7ff, cause as u32, target != Target::M);
        hart.hedeleg = 0xb1ff;
        let address = self.data(scribe);
        let access = Walking::Outside(of_event(scribe, event, address));
        if let Some(spoilt) = self.spoilt(scribe, hart, access, (rule, part, level)) {
            self.perform_spoilt(scribe, &spoilt, 100);
        }
    }

    /// Two stores to a place, each with its bytes and those around them loaded next.
    fn store_around(&self, scribe: &mut Scribe, width: u64, place: Place) {
        let offset = match place {
            Place::Offset(offset) => DATA + 0x20 + offset,
            Place::ImageStart => 0,
            Place::ImageEnd => LENGTH - width,
            Place::PageStart => DATA + 0x1000,
            Place::PageEnd => DATA + 0x1000 - width,
        };
        let hart = self.any_hart(scribe);
        scribe.whole_hart(&hart);
        let value = scribe.rng.bits();
        for value in [value, !value] {
            let access = store(value, self.address(offset), width);
            scribe.event(&text(&access));
            let word = offset & !7;
            for near in [word.wrapping_sub(8), word, word + 8] {
                if near < LENGTH {
                    let load = of_form(scribe, ("hlv", 8, false), self.address(near));
                    scribe.event(&text(&load));
                }
            }
        }
    }

    /// A store into the leaf of a stage, which leaves it a leaf, and an event that walks it.
    fn store_into_table(&self, scribe: &mut Scribe, width: u64, stage: u64, event: &'static str) {
        let (place, leaf) = self.leaf(stage, DATA, ALL_RIGHTS);
        let ignored = match width {
            1 => G,
            _ => scribe.rng.pick(&[0x100, 0x200, 0x300, 0x300 | G]),
        };
        let hart = self.any_hart(scribe);
        let access = store(leaf | ignored, self.address(place - self.base), width);
        perform(scribe, &hart, &access);
        let address = self.address(DATA + 0x40);
        if GUEST_EVENTS.contains(&event) {
            let access = of_event(scribe, event, address);
            scribe.event(&text(&access));
        } else {
            let mode = if event == "fetch" { Mode::Vu } else { Mode::Vs };
            scribe.whole_hart(&hart.in_mode(mode));
            scribe.line(&format!("{event} {address:x} 4"));
        }
        scribe.put(place, leaf);
    }
}

/// An access of this hart.
fn perform(scribe: &mut Scribe, hart: &Hart, access: &GuestAccess) {
    scribe.whole_hart(hart);
    scribe.event(&text(access));
}
