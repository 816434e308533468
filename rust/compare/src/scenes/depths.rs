//! Tables of three, four and five levels, at either stage, with each other and with Bare: everything that they can come to, and every
//! MODE of satp, vsatp and hgatp. (Those of any depth, damaged in any way, are in the walks.)

use second::hart::{Hart, Mode};
use second::registers::{find, HGATP, SATP};
use second::walk::{Access, Kind, Part};

use crate::coverage::depths::{all, end_of, Case, Depths, TRANSLATIONS};
use crate::coverage::words::GUEST_EVENTS;
use crate::coverage::{ending_rules, Ended, Meeting};
use crate::scenes::guest::of_event;
use crate::scenes::world::{pairs, Shape, Spoilt, Walking, World, DATA};
use crate::scribe::Scribe;
use crate::tables::{atp, first_bits, offset_bits, sign_extended};

/// Everything that they can come to.
pub fn all_in_turn(scribe: &mut Scribe) {
    for (first, second) in pairs() {
        let world = World::build(scribe, first, second);
        for case in all() {
            if !scribe.coverage.deep.has(&case) {
                world.attempt_depth(scribe, case);
            }
        }
        for ended in ending_rules() {
            if !scribe.coverage.rules.contains_key(&ended) {
                world.attempt_rule(scribe, ended);
            }
        }
        if let (Some(5), Some(5)) = (world.depth(1), world.depth(2)) {
            world.every_length(scribe);
        }
    }
    for case in all() {
        modes(scribe, case);
    }
}

/// A fetch, a load or a store.
fn translation(scribe: &mut Scribe, event: &str, address: u64) -> Access {
    let kind = match event {
        "fetch" => Kind::Fetch,
        "load" => Kind::Load,
        _ => Kind::Store,
    };
    let width = match kind {
        Kind::Fetch => 4,
        _ => scribe.rng.pick(&[1, 2, 4, 8]),
    };
    Access {
        kind,
        address,
        width,
    }
}

impl World {
    /// How many levels a stage's tables have, if it is on.
    fn depth(&self, stage: u64) -> Option<u64> {
        self.shape(stage).map(|shape| shape.levels)
    }

    /// The tables of a part.
    fn shape_of(&self, part: Part) -> Option<Shape> {
        match part {
            Part::Satp if self.second.is_none() => self.first,
            Part::Vsatp => self.first,
            Part::HgatpForEntry if self.first.is_some() => self.second,
            Part::HgatpForAccess => self.second,
            _ => None,
        }
    }

    /// Makes a case of depths happen, if it is one that this world can have.
    fn attempt_depth(&self, scribe: &mut Scribe, case: Case) {
        let small =
            [self.first, self.second].map(|shape| shape.is_none_or(|shape| shape.leaf == 0));
        match case {
            Case::Walk { event, depths } if self.has_depths(depths) => {
                self.walk_data(scribe, event, matches!(depths, Depths::Guest(..)));
            }
            Case::Longest { event, depths } if self.has_depths(depths) && small == [true, true] => {
                self.walk_data(scribe, event, matches!(depths, Depths::Guest(..)));
            }
            Case::Leaf {
                event,
                part,
                levels,
                level,
            } => {
                let leaf = level;
                if self.shape_of(part) == Some(Shape { levels, leaf }) {
                    self.walk_data(scribe, event, part != Part::Satp);
                }
            }
            Case::WrongBit {
                part,
                bits,
                bit,
                ones,
            } => self.wrong_bit(scribe, part, bits, bit, ones),
            Case::Edge { part, levels, edge } => {
                let own = self.own_address(part);
                if own && self.shape_of(part).map(|shape| shape.levels) == Some(levels) {
                    let event = scribe.rng.pick(&["load", "store"]);
                    let mut access = translation(scribe, event, 0);
                    access.address = edge.address(end_of(part, levels), access.width);
                    let hart = self.walking_hart(scribe, part != Part::Satp);
                    self.translate(scribe, hart, access);
                }
            }
            Case::RootPage { part, levels, page } if self.depth(2) == Some(levels) => {
                self.root_page(scribe, part, levels, page);
            }
            _ => {}
        }
    }

    /// Whether the access's own address is a part's to test: that of a first stage, or with vsatp Bare of the second.
    fn own_address(&self, part: Part) -> bool {
        part != Part::HgatpForAccess || self.first.is_none()
    }

    fn has_depths(&self, depths: Depths) -> bool {
        match depths {
            Depths::Host(first) => self.second.is_none() && self.depth(1) == first,
            Depths::Guest(first, second) => (self.depth(1), self.depth(2)) == (first, second),
        }
    }

    /// An access of this hart.
    fn translate(&self, scribe: &mut Scribe, hart: Hart, access: Access) {
        let spoilt = Spoilt {
            hart,
            event: Walking::Translation(access),
            entry: None,
        };
        self.perform_spoilt(scribe, &spoilt, 0);
    }

    /// This event at the page of data, with V=1 or 0.
    fn walk_data(&self, scribe: &mut Scribe, event: &'static str, v: bool) {
        let address = self.data(scribe);
        let (hart, event) = if GUEST_EVENTS.contains(&event) {
            let access = of_event(scribe, event, address);
            (self.any_hart(scribe), Walking::Outside(access))
        } else {
            let access = translation(scribe, event, address);
            (self.walking_hart(scribe, v), Walking::Translation(access))
        };
        let spoilt = Spoilt {
            hart,
            event,
            entry: None,
        };
        self.perform_spoilt(scribe, &spoilt, 0);
    }

    /// An address with one wrong bit, where it is this world's to test.
    fn wrong_bit(&self, scribe: &mut Scribe, part: Part, bits: u32, bit: u32, ones: bool) {
        let Some(shape) = self.shape_of(part) else {
            return;
        };
        let first = matches!(part, Part::Satp | Part::Vsatp);
        let own = first_bits(shape.levels) + if first { 0 } else { 2 };
        if own != u64::from(bits) || !self.own_address(part) {
            return;
        }
        let event = scribe.rng.pick(&TRANSLATIONS);
        let address = self.data(scribe);
        let mut access = translation(scribe, event, address);
        let mut hart = self.walking_hart(scribe, part != Part::Satp);
        if part == Part::HgatpForEntry {
            hart.vsatp |= 1 << (bit - 12);
        } else {
            let top = u64::from(ones) << (own - 1);
            let below = access.address & ((1 << (own - 1)) - 1);
            let taken = if first {
                sign_extended(top | below, own)
            } else {
                access.address
            };
            access.address = taken ^ (1 << bit);
        }
        self.translate(scribe, hart, access);
    }

    /// A read in this page of the second stage's root: for the access, or for the guest's root entry.
    fn root_page(&self, scribe: &mut Scribe, part: Part, levels: u64, page: u64) {
        let index = (page << 9) | scribe.rng.below(if levels == 5 { 256 } else { 512 });
        let guest = index << offset_bits(levels - 1);
        let mut hart = self.walking_hart(scribe, true);
        let address = if part == Part::HgatpForEntry {
            let depth = scribe.rng.pick(&[3, 4, 5]);
            hart.vsatp = atp(depth, guest);
            0
        } else {
            hart.vsatp = 0;
            guest
        };
        let access = translation(scribe, "load", address);
        self.translate(scribe, hart, access);
    }

    /// A translation that ends by this rule, if one of this world can.
    fn attempt_rule(&self, scribe: &mut Scribe, (event, key): Ended) {
        let (_, part, _) = key;
        if part == Part::Satp && self.second.is_some() {
            return;
        }
        let hart = self.walking_hart(scribe, part != Part::Satp);
        let address = self.data(scribe);
        let access = Walking::Translation(translation(scribe, event, address));
        if let Some(spoilt) = self.spoilt(scribe, hart, access, key) {
            self.perform_spoilt(scribe, &spoilt, 0);
        }
    }

    /// Walks of five levels over five that end after each number of reads: an entry of the first stage is missing, or leads to where
    /// the second stage has no entry at one of its levels.
    fn every_length(&self, scribe: &mut Scribe) {
        let hart = self.walking_hart(scribe, true);
        let access = translation(scribe, "load", self.address(DATA));
        let event = Walking::Translation(access);
        let Some(walked) = event.walked(scribe, &hart) else {
            return;
        };
        // More than the sixteen pages of the image away.
        let away = [0, 1, 2, 3, 4].map(|level| 16 << offset_bits(level));
        let items = walked.list.items().to_vec();
        for read in items.iter().filter(|read| read.stage == 1) {
            let elsewhere = away.map(|distance| read.value ^ (distance >> 2));
            for changed in elsewhere.into_iter().chain([0]) {
                let spoilt = Spoilt {
                    hart,
                    event,
                    entry: Some((read.address, changed)),
                };
                self.perform_spoilt(scribe, &spoilt, 0);
            }
        }
        for distance in away {
            let mut hart = hart;
            hart.vsatp ^= distance >> 12;
            self.translate(scribe, hart, access);
        }
    }
}

/// A MODE written and read, or one that comes in.
fn modes(scribe: &mut Scribe, case: Case) {
    if scribe.coverage.deep.has(&case) {
        return;
    }
    match case {
        Case::Written {
            number,
            in_vs,
            form,
            old,
            new,
        } => {
            let mode = if in_vs { Mode::Vs } else { Mode::Hs };
            let held = if in_vs { number + 0x100 } else { number };
            let mut hart = Hart::new(0, 0, 0).in_mode(mode);
            if let (Some(place), Some(row)) = (hart.stored_mut(held), find(held)) {
                *place = (old << 60) | (scribe.rng.bits() & row.stored & !(0xf << 60));
            }
            scribe.whole_hart(&hart);
            let value = (new << 60) | (scribe.rng.bits() >> 4);
            let writes = if form == "write" { "" } else { " 1" };
            scribe.event(&format!("{form} {number:x} {value:x}{writes}"));
            scribe.event(&format!("read {number:x}"));
        }
        Case::Held {
            number,
            mode,
            meeting,
        } => {
            let of_hart = scribe.mode();
            scribe.hart(of_hart, 0);
            let low = if number == HGATP { !3 } else { !0 };
            let value = (mode << 60) | (scribe.rng.bits() & low & ((1 << 44) - 1));
            scribe.reg(number, value);
            let event = match meeting {
                Meeting::Translation => "load 80000000 8".to_string(),
                Meeting::Event => format!("read {SATP:x}"),
            };
            scribe.event(&event);
        }
        _ => {}
    }
}
