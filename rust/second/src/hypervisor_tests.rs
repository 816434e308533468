//! Tests of the hypervisor loads and stores: widths and extension, exactly which bytes are stored, the guest's privilege and rights,
//! the order of refusals, traps and faults, and what a fault's trap writes.

use super::*;
use crate::bits::with_bit;
use crate::hart::BadHart;
use crate::image::BadImage;
use crate::registers::{with_mpp, HSTATUS_GVA, MPRV, MPV, MSTATUS_GVA, MXR, SPP, SPV, SUM};
use crate::trap::{request, Ending, Target, Trap};
use crate::walk::tests::{
    deepest, entry, A, ALL_RIGHTS, BASE, D, DATA, FIRST_0, FIRST_1, FIRST_ROOT, GUEST, LENGTH, R,
    SECOND_0, SECOND_1, U, V, VIRTUAL, W, X,
};
use crate::walk::{translate, Answer, Part, Read, Rule};

const WORD: u32 = 0xb2c5_80f3;
const PC: u64 = 0x4000;

const HLV: Operation = Operation::Load { signed: false };
const HLVX: Operation = Operation::LoadExecutable;
const HSV: Operation = Operation::Store {
    value: 0x8182_8384_8586_8788,
};
const OPERATIONS: [Operation; 3] = [HLV, HLVX, HSV];

/// A hart and an image whose tables of both stages have a leaf for each page.
#[derive(Clone)]
struct World {
    hart: Hart,
    image: Image,
}

impl World {
    /// A hart in this mode, with HU set, SPVP clear and both stages on.
    fn new(mode: Mode) -> World {
        let mut world = World {
            hart: Hart::new(0, 0, PC).in_mode(mode),
            image: Image {
                base: BASE,
                bytes: vec![0; LENGTH],
            },
        };
        world.hart.hstatus |= 1 << HU;
        world.hart.vsatp = (8 << 60) | ((GUEST + FIRST_ROOT) >> 12);
        world.hart.hgatp = (8 << 60) | (BASE >> 12);
        world.put(8 * (GUEST >> 30), entry(BASE + SECOND_1, V));
        world.put(SECOND_1, entry(BASE + SECOND_0, V));
        world.put(FIRST_ROOT + 8 * (VIRTUAL >> 30), entry(GUEST + FIRST_1, V));
        world.put(FIRST_1, entry(GUEST + FIRST_0, V));
        for page in 0..16 {
            world.first_leaf(page << 12, ALL_RIGHTS);
            world.second_leaf(page << 12, ALL_RIGHTS);
        }
        for place in (DATA - 8..DATA + 0x40).step_by(8) {
            world.put(place, 0x5a5a_5a5a_5a5a_5a5a);
        }
        world
    }

    fn put(&mut self, offset: u64, value: u64) {
        assert!(self.image.put(Machine(BASE + offset), value));
    }

    /// The first-stage leaf of a page.
    fn first_leaf(&mut self, offset: u64, flags: u64) {
        self.put(FIRST_0 + 8 * (offset >> 12), entry(GUEST + offset, flags));
    }

    /// The second-stage leaf of a page.
    fn second_leaf(&mut self, offset: u64, flags: u64) {
        self.put(SECOND_0 + 8 * (offset >> 12), entry(BASE + offset, flags));
    }

    fn spvp(mut self, on: bool) -> World {
        self.hart.hstatus = with_bit(self.hart.hstatus, SPVP, on);
        self
    }

    fn mxr(mut self, guest: bool, host: bool) -> World {
        self.hart.vsstatus = with_bit(self.hart.vsstatus, MXR, guest);
        self.hart.mstatus = with_bit(self.hart.mstatus, MXR, host);
        self
    }

    /// The same access by another copy of the world, whose image may change.
    fn reach(&self, operation: Operation, address: u64, width: u64) -> (Reached, Image) {
        let access = GuestAccess {
            operation,
            address,
            width,
        };
        let mut image = self.image.clone();
        let reached = reach(&self.hart, &mut image, &access, WORD);
        (reached, image)
    }

    /// An access of 4 bytes to the page of data.
    fn data(&self, operation: Operation) -> Reached {
        self.reach(operation, VIRTUAL + DATA, 4).0
    }

    /// It goes on to the next access.
    fn follow(&mut self, operation: Operation, address: u64, width: u64) -> Reached {
        let (reached, image) = self.reach(operation, address, width);
        self.image = image;
        reached
    }

    fn fault(&self, operation: Operation, address: u64, width: u64) -> (Trap, Reached) {
        let (reached, image) = self.reach(operation, address, width);
        assert_eq!(image, self.image, "nothing is stored");
        assert_eq!(reached.machine, None);
        let zero = match operation {
            Operation::Store { .. } => None,
            _ => Some(0),
        };
        assert_eq!(reached.value, zero, "a trap answers 0");
        match reached.outcome.ending {
            Ending::Trapped(trap, _) => (trap, reached),
            other => panic!("no trap but {other:?}"),
        }
    }

    /// The cause of the fault of an access to the page of data, or 0.
    fn cause(&self, operation: Operation) -> u64 {
        match self.data(operation).outcome.ending {
            Ending::Trapped(trap, _) => trap.cause,
            Ending::Done => 0,
            Ending::Refused(number) => panic!("refused {number}"),
        }
    }
}

/// The modes that it can be done in.
const OUTSIDE: [Mode; 3] = [Mode::U, Mode::Hs, Mode::M];

fn loaded(bytes: u64, width: u64, operation: Operation) -> u64 {
    let mut world = World::new(Mode::Hs);
    world.put(DATA, bytes);
    let (reached, image) = world.reach(operation, VIRTUAL + DATA, width);
    assert_eq!(image, world.image, "a load writes nothing");
    assert_eq!(reached.machine, Some(Machine(BASE + DATA)));
    assert_eq!(reached.outcome, only_moves_on(&world.hart));
    reached.value.unwrap()
}

#[test]
fn loads_of_each_width_are_extended() {
    let signed = Operation::Load { signed: true };
    // What is behind the loaded bytes counts for nothing, on either side of the sign.
    for behind in [0, u64::MAX, 0x5555_5555_5555_5555] {
        for (width, bytes, negative) in [
            (1, 0x00, false),
            (1, 0x7f, false),
            (1, 0x80, true),
            (1, 0xff, true),
            (2, 0x7fff, false),
            (2, 0x8000, true),
            (2, 0x00ff, false),
            (2, 0xff00, true),
            (4, 0x7fff_ffff, false),
            (4, 0x8000_0000, true),
            (4, 0x0000_80ff, false),
            (4, 0xffff_fffe, true),
            (8, 0x7fff_ffff_ffff_ffff, false),
            (8, 0x8000_0000_0000_0000, true),
            (8, 0x0000_0000_8000_0000, false),
            (8, u64::MAX, true),
        ] {
            let above = match width {
                8 => 0,
                _ => u64::MAX << (8 * width),
            };
            let image = (behind & above) | bytes;
            let extended = if negative { bytes | above } else { bytes };
            assert_eq!(loaded(image, width, signed), extended, "{width} {bytes:x}");
            assert_eq!(loaded(image, width, HLV), bytes, "{width} {bytes:x}");
            if matches!(width, 2 | 4) {
                assert_eq!(loaded(image, width, HLVX), bytes, "{width} {bytes:x}");
            }
        }
    }
}

#[test]
fn loads_are_little_endian() {
    let bytes = 0x8877_6655_4433_2211;
    for (width, expected) in [(1, 0x11), (2, 0x2211), (4, 0x4433_2211), (8, bytes)] {
        assert_eq!(loaded(bytes, width, HLV), expected);
    }
    let mut world = World::new(Mode::Hs);
    world.put(DATA, bytes);
    for (offset, expected) in [(1, 0x22), (4, 0x55), (7, 0x88)] {
        let place = VIRTUAL + DATA + offset;
        assert_eq!(world.reach(HLV, place, 1).0.value, Some(expected));
    }
    let place = VIRTUAL + DATA + 6;
    assert_eq!(world.reach(HLVX, place, 2).0.value, Some(0x8877));
}

/// "HSV writes exactly its own bytes of the image": every other byte of the image stays.
#[test]
fn stores_of_each_width_write_their_own_bytes() {
    let value: u64 = 0x1f2e_3d4c_5b6a_7988;
    for width in [1, 2, 4, 8] {
        for offset in (0..16).step_by(width) {
            let world = World::new(Mode::M);
            let address = VIRTUAL + DATA + offset as u64;
            let operation = Operation::Store { value };
            let (reached, image) = world.reach(operation, address, width as u64);
            let mut expected = world.image.clone();
            let start = DATA as usize + offset;
            for byte in 0..width {
                expected.bytes[start + byte] = value.to_le_bytes()[byte];
            }
            assert_eq!(image, expected, "{width} {offset}");
            assert_ne!(image, world.image);
            assert_eq!(reached.value, None);
            assert_eq!(reached.outcome, only_moves_on(&world.hart));
        }
    }
}

#[test]
fn what_is_stored_is_read_back() {
    let mut world = World::new(Mode::Hs);
    let at = VIRTUAL + DATA;
    world.follow(HSV, at, 8);
    world.follow(Operation::Store { value: 0x11_2233 }, at + 2, 2);
    world.follow(Operation::Store { value: 0 }, at + 7, 1);
    let read = world.follow(HLV, at, 8).value;
    assert_eq!(read, Some(0x0082_8384_2233_8788));
    let signed = Operation::Load { signed: true };
    let read = world.follow(signed, at + 4, 1).value;
    assert_eq!(read, Some(0xffff_ffff_ffff_ff84));
    assert_eq!(world.follow(HLVX, at + 2, 2).value, Some(0x2233));
}

/// A store into a table: the walk that stores has read the entry as it was, and the next one as it is.
#[test]
fn a_store_into_a_table_changes_the_next_walk() {
    for (leaf, cause) in [
        (FIRST_0 + 8 * (DATA >> 12), 13),
        (SECOND_0 + 8 * (DATA >> 12), 21),
    ] {
        let mut world = World::new(Mode::Hs);
        assert_eq!(world.cause(HLV), 0);
        // All but V.
        let value = ALL_RIGHTS & !V;
        let stored = world.follow(Operation::Store { value }, VIRTUAL + leaf, 1);
        assert_eq!(stored.outcome.ending, Ending::Done);
        assert_eq!(world.cause(HLV), cause);
        let (_, reached) = world.fault(HSV, VIRTUAL + DATA, 4);
        let listed = reached.list.items().last().unwrap();
        assert_eq!(listed.address, BASE + leaf);
        assert_eq!(listed.value & 0xff, value);
        world.follow(Operation::Store { value: ALL_RIGHTS }, VIRTUAL + leaf, 1);
        assert_eq!(world.cause(HLV), 0);
    }
    // Into the leaf that leads to itself.
    let mut world = World::new(Mode::Hs);
    let own = SECOND_0 + 8 * (SECOND_0 >> 12);
    let before = entry(BASE + SECOND_0, ALL_RIGHTS);
    let stored = world.follow(Operation::Store { value: 0 }, VIRTUAL + own, 8);
    let listed = stored.list.items().last().copied();
    let expected = Read {
        stage: 2,
        level: 0,
        address: BASE + own,
        value: before,
    };
    assert_eq!(listed, Some(expected));
    assert_eq!(stored.outcome.ending, Ending::Done);
    let (trap, _) = world.fault(HLV, VIRTUAL + own, 8);
    assert_eq!((trap.cause, trap.second), (21, (GUEST + own) >> 2));
}

/// "They translate as V=1 with privilege SPVP": what a hart in VU or VS would get, address, fault and list.
#[test]
fn they_translate_as_a_guest_with_privilege_spvp() {
    for mode in OUTSIDE {
        for (spvp, guest) in [(false, Mode::Vu), (true, Mode::Vs)] {
            for (vsatp_on, hgatp_on) in [(true, true), (true, false), (false, true), (false, false)]
            {
                for operation in [HLV, HSV] {
                    let mut world = World::new(mode).spvp(spvp);
                    // satp leads nowhere.
                    world.hart.satp = 8 << 60;
                    world.hart.vsstatus |= u64::from(spvp) << SUM;
                    let address = match (vsatp_on, hgatp_on) {
                        (true, _) => VIRTUAL + DATA,
                        (false, true) => GUEST + DATA,
                        (false, false) => BASE + DATA,
                    };
                    if !vsatp_on {
                        world.hart.vsatp = 0;
                    }
                    if !hgatp_on {
                        world.hart.hgatp = 0;
                        world.hart.vsatp &= !0xfff_ffff_ffff;
                        world.hart.vsatp |= u64::from(vsatp_on) * ((BASE + FIRST_ROOT) >> 12);
                        let first_1 = entry(BASE + FIRST_1, V);
                        world.put(FIRST_ROOT + 8 * (VIRTUAL >> 30), first_1);
                        world.put(FIRST_1, entry(BASE + FIRST_0, V));
                        let leaf = entry(BASE + DATA, ALL_RIGHTS);
                        world.put(FIRST_0 + 8 * (DATA >> 12), leaf);
                    }
                    let reached = world.reach(operation, address, 4).0;
                    let access = GuestAccess {
                        operation,
                        address,
                        width: 4,
                    };
                    let as_guest = Hart {
                        hstatus: world.hart.hstatus,
                        ..world.hart.in_mode(guest)
                    };
                    let translation = translate(&as_guest, &world.image, &access.access());
                    assert_eq!(translation.answer, Answer::Address(Machine(BASE + DATA)));
                    assert_eq!(reached.machine, Some(Machine(BASE + DATA)));
                    assert_eq!(reached.list, translation.list);
                    let reads = match (vsatp_on, hgatp_on) {
                        (true, true) => 15,
                        (false, false) => 0,
                        _ => 3,
                    };
                    assert_eq!(reached.list.count, reads);
                }
            }
        }
    }
}

/// Each of the three through each pair of depths: "n levels over m levels read at most (n+1)(m+1)-1 entries, so 15, 24, 35."
#[test]
fn the_deepest_walk_of_each_pair_of_depths() {
    let choices = [0, 3, 4, 5];
    for n in choices {
        for m in choices {
            let [first, second] = [n, m].map(|levels| (levels > 0).then(|| deepest(levels)));
            let mut guest = crate::walk::tests::World::new(Mode::Vu, first, second);
            let items = guest.items();
            assert_eq!(items.len() as u64, (n + 1) * (m + 1) - 1);
            let hart = guest.hart.in_mode(Mode::Hs);
            for operation in [HSV, HLV, HLVX] {
                let access = GuestAccess {
                    operation,
                    address: guest.virtual_address() + DATA,
                    width: 4,
                };
                let reached = reach(&hart, &mut guest.image, &access, WORD);
                assert_eq!(reached.machine, Some(Machine(BASE + DATA)));
                assert_eq!(reached.list.items(), items, "{n} over {m}");
                let loaded = (operation != HSV).then_some(0x8586_8788);
                assert_eq!(reached.value, loaded);
            }
        }
    }
}

/// "user mode needs U=1; supervisor on a U=1 page [...] needs SUM for data": HLVX is data too. SUM is vsstatus's.
#[test]
fn spvp_u_and_sum() {
    for operation in OPERATIONS {
        let page_fault = match operation {
            Operation::Store { .. } => 15,
            _ => 13,
        };
        for setting in 0..16 {
            let [spvp, user_page, guest_sum, host_sum] =
                [1, 2, 4, 8].map(|place| setting & place != 0);
            let mut world = World::new(Mode::Hs).spvp(spvp);
            let flags = if user_page {
                ALL_RIGHTS
            } else {
                ALL_RIGHTS & !U
            };
            world.first_leaf(DATA, flags);
            world.hart.vsstatus = with_bit(world.hart.vsstatus, SUM, guest_sum);
            world.hart.mstatus = with_bit(world.hart.mstatus, SUM, host_sum);
            let passes = match (spvp, user_page) {
                (false, user_page) => user_page,
                (true, false) => true,
                (true, true) => guest_sum,
            };
            let cause = if passes { 0 } else { page_fault };
            assert_eq!(world.cause(operation), cause, "{operation:?} {setting:b}");
        }
    }
}

/// MXR at each stage: vsstatus's or mstatus's at the first, mstatus's at the second, and none in HLVX.
#[test]
fn mxr_and_the_right_to_execute() {
    for setting in 0..4 {
        let [guest, host] = [1, 2].map(|place| setting & place != 0);
        for (rights, readable) in [(R, true), (X, false), (R | X, true), (R | W, true)] {
            let executable = rights & X != 0;
            let flags = V | U | A | D | rights;
            let mut first = World::new(Mode::Hs).mxr(guest, host);
            first.first_leaf(DATA, flags);
            let hlv = readable || (executable && (guest || host));
            assert_eq!(first.cause(HLV), if hlv { 0 } else { 13 });
            assert_eq!(first.cause(HLVX), if executable { 0 } else { 13 });
            let writable = rights & W != 0;
            assert_eq!(first.cause(HSV), if writable { 0 } else { 15 });
            let mut second = World::new(Mode::Hs).mxr(guest, host);
            second.second_leaf(DATA, flags);
            let hlv = readable || (executable && host);
            assert_eq!(second.cause(HLV), if hlv { 0 } else { 21 });
            assert_eq!(second.cause(HLVX), if executable { 0 } else { 21 });
            assert_eq!(second.cause(HSV), if writable { 0 } else { 23 });
        }
    }
}

/// "The hart's reads of guest entries [...] need R, and MXR doesn't help", nor does X for HLVX. They are no stores.
#[test]
fn reads_of_guest_entries_stay_reads() {
    for operation in OPERATIONS {
        for (flags, passes) in [
            (V | U | A | R, true),
            (V | U | A | X, false),
            (V | U | A | D | X, false),
            (V | U | A | D | R | X, true),
        ] {
            let mut world = World::new(Mode::Hs).mxr(true, true);
            world.second_leaf(FIRST_1, flags);
            if passes {
                assert_eq!(world.cause(operation), 0);
                continue;
            }
            let (trap, reached) = world.fault(operation, VIRTUAL + DATA, 4);
            let expected = Trap {
                cause: if operation == HSV { 23 } else { 21 },
                value: VIRTUAL + DATA,
                second: (GUEST + FIRST_1) >> 2,
                word: 0x3000,
                flag: true,
            };
            assert_eq!(trap, expected, "{operation:?}");
            let Some(Reason::Fault(why)) = reached.outcome.reason else {
                panic!("no reason");
            };
            let key = (Rule::NotReadable, Part::HgatpForEntry, Some(0));
            assert_eq!(why.key(), key);
        }
    }
}

/// "whatever MPRV says".
#[test]
fn mprv_is_not_obeyed() {
    for operation in OPERATIONS {
        for mpp in [0, 1, 3] {
            for mpv in [false, true] {
                for spvp in [false, true] {
                    let mut world = World::new(Mode::M).spvp(spvp);
                    // VU alone reaches the page.
                    world.hart.mstatus = with_mpp(world.hart.mstatus, mpp);
                    world.hart.mstatus = with_bit(world.hart.mstatus, MPV, mpv);
                    let without = world.data(operation);
                    world.hart.mstatus = with_bit(world.hart.mstatus, MPRV, true);
                    let with = world.data(operation);
                    assert_eq!(with.list, without.list);
                    assert_eq!(with.machine, without.machine);
                    assert_eq!(with.machine.is_some(), !spvp);
                    assert_eq!(with.list.count, 15 - 3 * usize::from(spvp));
                }
            }
        }
    }
}

#[test]
fn with_v_1_the_cause_is_22() {
    for mode in [Mode::Vu, Mode::Vs] {
        for operation in OPERATIONS {
            for hu in [false, true] {
                let mut world = World::new(mode);
                world.hart.hstatus = with_bit(world.hart.hstatus, HU, hu);
                // Misaligned, and where there is nothing: no matter.
                for address in [VIRTUAL + DATA, VIRTUAL + DATA + 1, u64::MAX] {
                    let (trap, reached) = world.fault(operation, address, 4);
                    let expected = Trap {
                        value: u64::from(WORD),
                        ..Trap::plain(22)
                    };
                    assert_eq!(trap, expected);
                    assert_eq!(reached.list, List::default());
                    let rule = Forbidden::Instruction(operation.name(), mode);
                    assert_eq!(reached.outcome.reason, Some(Reason::Forbidden(rule)));
                    assert_eq!(reached.outcome.hart.mtval, u64::from(WORD));
                }
            }
        }
    }
}

#[test]
fn hu_is_asked_in_u_alone() {
    for mode in OUTSIDE {
        for operation in OPERATIONS {
            let mut world = World::new(mode);
            assert_eq!(world.cause(operation), 0, "{mode:?}");
            world.hart.hstatus = with_bit(world.hart.hstatus, HU, false);
            if mode != Mode::U {
                assert_eq!(world.cause(operation), 0, "{mode:?}");
                continue;
            }
            for address in [VIRTUAL + DATA, VIRTUAL + DATA + 1, u64::MAX] {
                let (trap, reached) = world.fault(operation, address, 4);
                let expected = Trap {
                    value: u64::from(WORD),
                    ..Trap::plain(2)
                };
                assert_eq!(trap, expected);
                assert_eq!(reached.list, List::default());
                let rule = Reason::Forbidden(Forbidden::HuClear);
                assert_eq!(reached.outcome.reason, Some(rule));
            }
        }
    }
}

/// "HLVX of width 1 or 8 is refused as 3", and every other width than 1, 2, 4 and 8.
#[test]
fn refusal_3_by_the_width() {
    for mode in Mode::ALL {
        let world = World::new(mode);
        for operation in OPERATIONS {
            for width in (0..20).chain([0x104, (1 << 32) + 4, u64::MAX]) {
                let (reached, image) = world.reach(operation, VIRTUAL + DATA, width);
                let taken = match operation {
                    Operation::LoadExecutable => matches!(width, 2 | 4),
                    _ => matches!(width, 1 | 2 | 4 | 8),
                };
                let refused = reached.outcome.ending == Ending::Refused(3);
                assert_eq!(refused, !taken, "{operation:?} {width}");
                if taken {
                    continue;
                }
                let bad = match width {
                    1 | 8 => BadAccess::HlvxWidth(width),
                    _ => BadAccess::Width(width),
                };
                let outcome = crate::trap::refused(&world.hart, Refusal::Access(bad));
                assert_eq!(reached.outcome, outcome);
                assert_eq!(reached.list, List::default());
                assert_eq!(image, world.image);
                assert!(matches!(reached.value, None | Some(0)));
            }
        }
    }
}

/// "Order: 2, then 1, then the call's own", and a refusal before a trap.
#[test]
fn refusals_in_their_order() {
    for operation in OPERATIONS {
        for mode in [Mode::Hs, Mode::Vs] {
            let mut world = World::new(mode);
            let ending = |world: &World, width| {
                let (reached, image) = world.reach(operation, VIRTUAL + DATA + 1, width);
                assert_eq!(image, world.image);
                reached.outcome
            };
            world.hart.pc = 2;
            world.image.base += 1;
            let bad = Refusal::Hart(BadHart::Pc(2));
            assert_eq!(ending(&world, 3), crate::trap::refused(&world.hart, bad));
            world.hart.pc = 0;
            let bad = Refusal::Image(BadImage::Base(BASE + 1));
            assert_eq!(ending(&world, 3), crate::trap::refused(&world.hart, bad));
            world.image.base -= 1;
            let bad = Refusal::Access(BadAccess::Width(3));
            assert_eq!(ending(&world, 3), crate::trap::refused(&world.hart, bad));
            let trapped = ending(&world, 4).ending;
            assert!(matches!(trapped, Ending::Trapped(..)), "{trapped:?}");
        }
    }
}

/// A fault of each cause: what it says, and its list.
#[test]
fn faults_of_each_cause() {
    let value = VIRTUAL + DATA;
    let guest = GUEST + DATA;
    for operation in OPERATIONS {
        let store = matches!(operation, Operation::Store { .. });
        let cause = |load, of_store| if store { of_store } else { load };
        let check = |world: &World, address, expected: (u64, u64, u64), count| {
            let (trap, reached) = world.fault(operation, address, 4);
            let (cause, second, word) = expected;
            let fault = Trap {
                cause,
                value: address,
                second,
                word,
                flag: true,
            };
            assert_eq!(trap, fault, "{operation:?}");
            assert_eq!(reached.list.count, count);
            assert!(matches!(reached.outcome.reason, Some(Reason::Fault(_))));
        };
        let world = World::new(Mode::Hs);
        check(&world, value + 2, (cause(4, 6), 0, 0), 0);
        // Bits 63:39 are not all equal to bit 38.
        check(&world, 1 << 40, (cause(13, 15), 0, 0), 0);
        let mut world = World::new(Mode::Hs);
        world.first_leaf(DATA, 0);
        check(&world, value, (cause(13, 15), 0, 0), 12);
        let mut world = World::new(Mode::Hs);
        world.second_leaf(DATA, 0);
        check(&world, value, (cause(21, 23), guest >> 2, 0), 15);
        // On the way to a guest entry: "the fault of the original access".
        let mut world = World::new(Mode::Hs);
        world.second_leaf(FIRST_0, 0);
        let place = GUEST + FIRST_0 + 8 * (DATA >> 12);
        check(&world, value, (cause(21, 23), place >> 2, 0x3000), 11);
        // An entry, and the access, outside the image.
        let mut world = World::new(Mode::Hs);
        world.hart.hgatp = (8 << 60) | ((BASE - 0x4000) >> 12);
        check(&world, value, (cause(5, 7), 0, 0), 0);
        let mut world = World::new(Mode::Hs);
        world.put(
            SECOND_0 + 8 * (DATA >> 12),
            entry(BASE + LENGTH as u64, ALL_RIGHTS),
        );
        check(&world, value, (cause(5, 7), 0, 0), 15);
    }
}

/// D is a store's, A everyone's.
#[test]
fn accessed_and_dirty() {
    for operation in OPERATIONS {
        let store = matches!(operation, Operation::Store { .. });
        let faults = if store { [15, 23] } else { [13, 21] };
        let set = [World::first_leaf, World::second_leaf];
        for (set, fault) in set.into_iter().zip(faults) {
            let mut world = World::new(Mode::Hs);
            set(&mut world, DATA, ALL_RIGHTS & !D);
            assert_eq!(world.cause(operation), if store { fault } else { 0 });
            set(&mut world, DATA, ALL_RIGHTS & !A);
            assert_eq!(world.cause(operation), fault);
        }
    }
}

/// "a fault is delivered as a trap": from the hart's own mode. V was 0, so SPV becomes 0, SPVP is kept, and it never goes to VS; the
/// flag is the effective V.
#[test]
fn a_fault_is_delivered_from_the_harts_own_mode() {
    for mode in OUTSIDE {
        for operation in OPERATIONS {
            for spvp in [false, true] {
                for delegated in [false, true] {
                    let mut world = World::new(mode).spvp(spvp);
                    world.hart.hstatus = with_bit(world.hart.hstatus, SPV, true);
                    world.hart.mstatus = with_bit(world.hart.mstatus, MPV, true);
                    world.hart.mstatus = with_bit(world.hart.mstatus, SPP, mode != Mode::Hs);
                    world.hart.medeleg = if delegated { 0xf0_b7ff } else { 0 };
                    world.hart.hedeleg = 0xb1ff;
                    (world.hart.mtvec, world.hart.stvec) = (0x3001, 0x2001);
                    world.first_leaf(DATA, 0);
                    let (trap, reached) = world.fault(operation, VIRTUAL + DATA, 4);
                    let after = reached.outcome.hart;
                    let to_hs = delegated && mode != Mode::M;
                    let target = if to_hs { Target::Hs } else { Target::M };
                    assert_eq!(reached.outcome.ending, Ending::Trapped(trap, target));
                    assert_eq!(after, request(&world.hart, &trap).hart, "as if asked for");
                    assert!(after.checked_mode().is_some());
                    assert_eq!(bit(after.hstatus, SPVP), spvp);
                    if to_hs {
                        assert_eq!(after.pc, 0x2000);
                        assert!(!bit(after.hstatus, SPV));
                        assert!(bit(after.hstatus, HSTATUS_GVA));
                        assert_eq!(bit(after.mstatus, SPP), mode == Mode::Hs);
                        let written = [after.sepc, after.scause, after.stval];
                        assert_eq!(written, [PC, trap.cause, VIRTUAL + DATA]);
                    } else {
                        assert_eq!(after.pc, 0x3000);
                        assert!(!bit(after.mstatus, MPV));
                        assert!(bit(after.mstatus, MSTATUS_GVA));
                        let written = [after.mepc, after.mcause, after.mtval];
                        assert_eq!(written, [PC, trap.cause, VIRTUAL + DATA]);
                    }
                }
            }
        }
    }
}

#[test]
fn a_done_one_moves_pc_on_and_changes_nothing_else() {
    for mode in OUTSIDE {
        for operation in OPERATIONS {
            let mut world = World::new(mode);
            for (pc, next) in [(0x1000, 0x1004), (u64::MAX - 3, 0)] {
                world.hart.pc = pc;
                let mut expected = world.hart;
                expected.pc = next;
                let reached = world.data(operation);
                assert_eq!(reached.outcome.hart, expected);
                assert_eq!(reached.outcome.reason, None);
            }
        }
    }
}
