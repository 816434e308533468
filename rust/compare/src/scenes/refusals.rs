//! Refusals, alone and together, and harts that just do or just don't pass check 2.

use second::bits::with_field;
use second::hart::{Hart, Mode};
use second::registers::{self, MPRV, ROWS};

use crate::coverage::words::GUEST_EVENTS;
use crate::scenes::guest::{of_event, text};
use crate::scenes::interrupts::pending_hart;
use crate::scenes::traps::BARE_EVENTS;
use crate::scribe::Scribe;

/// Events in which the hart, the image and the event's own numbers are good or bad, in all combinations.
pub fn combinations(scribe: &mut Scribe) {
    for setting in 0..8u32 {
        let bad_hart = setting & 1 == 1;
        let bad_image = setting & 2 == 2;
        let bad_own = setting & 4 == 4;
        image(scribe, bad_image);
        if bad_hart {
            illegal_hart(scribe);
        } else {
            let mode = scribe.mode();
            let hart = scribe.legal_hart(mode);
            scribe.whole_hart(&hart);
        }
        event(scribe, bad_own);
        scribe.show_sometimes(50);
        // And once more with another event: a refusal has left the hart as it was.
        event(scribe, bad_own);
    }
}

/// An image that is taken, or one that is refused as 1.
fn image(scribe: &mut Scribe, bad: bool) {
    let (base, length): (u64, u64) = if bad {
        scribe.rng.pick(&[
            (0x1001, 0x1000),
            (0x1000, 0x1001),
            (0x1000, 0xfff),
            (0x800, 0x1000),
            (0xff_ffff_ffff_f000, 0x2000),
            (0x100_0000_0000_0000, 0x1000),
            (0x100_0000_0000_1000, 0),
            (u64::MAX - 0xfff, 0x1000),
            (1 << 63, 0x1000),
            (0x8000_0000, 8),
        ])
    } else {
        scribe.rng.pick(&[
            (0x8000_0000, 0x1000),
            (0, 0x2000),
            (0xff_ffff_ffff_f000, 0x1000),
            (0, 0),
            (0x100_0000_0000_0000, 0),
        ])
    };
    scribe.line(&format!("image {base:x} {length:x}"));
}

/// A hart that is refused as 2, for one reason or for several.
fn illegal_hart(scribe: &mut Scribe) {
    let mode = scribe.mode();
    let mut hart = scribe.legal_hart(mode);
    loop {
        spoil(scribe, &mut hart);
        if hart.checked_mode().is_none() && scribe.rng.chance(80) {
            break;
        }
    }
    scribe.whole_hart(&hart);
}

/// Changes one thing of a hart, mostly to what it can't be.
fn spoil(scribe: &mut Scribe, hart: &mut Hart) {
    match scribe.rng.below(6) {
        0 => {
            let (v, privilege) = scribe.rng.pick(&[
                (0, 2),
                (1, 2),
                (1, 3),
                (2, 0),
                (2, 1),
                (0, 4),
                (0, 7),
                (u64::MAX, 0),
                (1 << 32, 1),
                (0, 0x1_0000_0001),
                (0x100, 3),
                (1, u64::MAX),
            ]);
            hart.v = v;
            hart.privilege = privilege;
        }
        1 => hart.pc ^= 1 + scribe.rng.below(3),
        2 => hart.mstatus |= 1 << MPRV,
        _ => {
            let row = scribe.rng.pick(&ROWS);
            let flipped = 1 << scribe.rng.below(64);
            if let Some(place) = hart.stored_mut(row.number) {
                *place ^= flipped;
            }
        }
    }
}

/// An event, good or refused by its own numbers where that is possible.
fn event(scribe: &mut Scribe, bad: bool) {
    let bad_number = scribe.rng.pick(&[0x1000, 0x1300, u64::MAX, 1 << 32]);
    let number = if bad {
        bad_number
    } else {
        scribe.rng.pick(&ROWS).number
    };
    let text = match scribe.rng.below(10) {
        0..=2 => translation(scribe, bad),
        8 | 9 => guest_access(scribe, bad),
        3 => format!("read {number:x}"),
        4 => format!("write {number:x} {:x}", scribe.rng.number()),
        5 if bad => scribe
            .rng
            .pick(&[
                "trap e 0 0 0 0",
                "trap 10 0 0 0 1",
                "trap ffffffffffffffff 0 0 0 0",
                "trap 8 1 0 0 0",
                "trap 15 0 0 0 0",
                "trap d 0 1 0 1",
                "trap 2 0 0 0 1",
            ])
            .to_string(),
        5 => "trap d 1000 0 0 1".to_string(),
        6 => format!(
            "set {number:x} {:x} {}",
            scribe.rng.number(),
            scribe.rng.below(2)
        ),
        _ => scribe.rng.pick(&BARE_EVENTS).to_string(),
    };
    scribe.event(&text);
}

/// Widths that are none.
const BAD_WIDTHS: [u64; 12] = [
    0,
    3,
    5,
    6,
    7,
    9,
    16,
    0x101,
    0x104,
    (1 << 32) + 4,
    (1 << 63) + 8,
    u64::MAX,
];

/// A hypervisor load or store, good or refused as 3.
fn guest_access(scribe: &mut Scribe, bad: bool) -> String {
    let address = scribe.rng.pick(&[0x8000_0000, 0, 0xff_ffff_ffff_f000]) + scribe.rng.below(16);
    let event = scribe.rng.pick(&GUEST_EVENTS);
    let mut access = of_event(scribe, event, address);
    if bad {
        access.width = match (event, scribe.rng.below(2)) {
            ("hlvx", 0) => scribe.rng.pick(&[1, 8]),
            _ => scribe.rng.pick(&BAD_WIDTHS),
        };
    }
    text(&access)
}

/// A translation, good or refused as 3.
fn translation(scribe: &mut Scribe, bad: bool) -> String {
    let address = scribe.rng.pick(&[0x8000_0000, 0, 0xff_ffff_ffff_f000]) + scribe.rng.below(16);
    if !bad {
        let word = scribe.rng.pick(&["load", "store"]);
        let width = scribe.rng.pick(&[1, 2, 4, 8]);
        return format!("{word} {address:x} {width:x}");
    }
    let width = scribe.rng.pick(&BAD_WIDTHS);
    match scribe.rng.below(4) {
        0 => format!("fetch {:x} 4", address | 2),
        1 => {
            let aligned = scribe.rng.pick(&[address, address & !7]);
            format!("fetch {aligned:x} {:x}", scribe.rng.pick(&[1, 2, 8]))
        }
        2 => format!("fetch {address:x} {width:x}"),
        _ => format!(
            "{} {address:x} {width:x}",
            scribe.rng.pick(&["load", "store"])
        ),
    }
}

/// The fields that can't hold every value, and the bits around those that the registers of interrupts hold: the register, the
/// lowest bit, the width.
const FIELDS: [(u64, u32, u32); 28] = [
    (registers::MSTATUS, 32, 2),
    (registers::MSTATUS, 34, 2),
    (registers::MSTATUS, 11, 2),
    (registers::VSSTATUS, 32, 2),
    (registers::HSTATUS, 32, 2),
    (registers::SATP, 60, 4),
    (registers::VSATP, 60, 4),
    (registers::HGATP, 60, 4),
    (registers::HGATP, 58, 2),
    (registers::HGATP, 0, 2),
    (registers::STVEC, 0, 2),
    (registers::VSTVEC, 0, 2),
    (registers::MTVEC, 0, 2),
    (registers::SEPC, 0, 2),
    (registers::VSEPC, 0, 2),
    (registers::MEPC, 0, 2),
    (registers::MIDELEG, 0, 4),
    (registers::MIDELEG, 4, 4),
    (registers::MIDELEG, 8, 5),
    (registers::MIE_REGISTER, 0, 4),
    (registers::MIE_REGISTER, 4, 4),
    (registers::MIE_REGISTER, 8, 5),
    (registers::MIP, 0, 4),
    (registers::MIP, 4, 4),
    (registers::MIP, 8, 5),
    (registers::HIDELEG, 0, 4),
    (registers::HIDELEG, 4, 4),
    (registers::HIDELEG, 8, 5),
];

/// Every value of every field that can't hold all of them.
pub fn fields(scribe: &mut Scribe) {
    let (number, low, width) = scribe.rng.pick(&FIELDS);
    let mode = scribe.mode();
    let row = registers::find(number);
    for value in 0..(1u64 << width) {
        scribe.hart(mode, 0);
        let old = match row {
            Some(row) if scribe.rng.chance(50) => scribe.content(row),
            _ => scribe.session.hart.stored(number).unwrap_or(0),
        };
        scribe.reg(number, with_field(old, low, width, value));
        let word = scribe.rng.pick(&SIMPLE_EVENTS);
        scribe.event(word);
        scribe.show_sometimes(30);
    }
}

/// Events with numbers that no call refuses.
const SIMPLE_EVENTS: [&str; 7] = [
    "wfi",
    "ebreak",
    "interrupt",
    "read 340",
    "load 0 1",
    "hlv 1 1 0",
    "trap 3 0 0 0 1",
];

/// Each bit of a register of interrupts flipped: most are always 0, and bits 2, 6 and 10 of mideleg always 1.
pub fn interrupt_bits(scribe: &mut Scribe) {
    let number = scribe.rng.pick(&[
        registers::MIDELEG,
        registers::MIE_REGISTER,
        registers::MIP,
        registers::HIDELEG,
    ]);
    let mode = scribe.mode();
    let hart = pending_hart(scribe, mode);
    scribe.whole_hart(&hart);
    let content = hart.stored(number).unwrap_or(0);
    for bit in 0..64 {
        scribe.reg(number, content ^ (1 << bit));
        let word = scribe.rng.pick(&SIMPLE_EVENTS);
        scribe.event(word);
        if scribe.session.hart.checked_mode().is_some() {
            // It passed, and may have gone elsewhere.
            scribe.show();
            scribe.whole_hart(&hart);
        }
    }
}

/// Other modes and other pcs than there are.
pub fn modes_and_pcs(scribe: &mut Scribe) {
    for _ in 0..12 {
        let v = scribe
            .rng
            .pick(&[0, 0, 1, 1, 2, 3, 1 << 8, 1 << 32, u64::MAX]);
        let privilege = scribe
            .rng
            .pick(&[0, 1, 2, 3, 3, 4, 5, 7, 1 << 8, 1 << 32, u64::MAX]);
        let pc = scribe
            .rng
            .pick(&[0, 1, 2, 3, 4, u64::MAX, u64::MAX - 3, 1 << 63]);
        scribe.line(&format!("hart {v:x} {privilege:x} {pc:x}"));
        let word = scribe.rng.pick(&BARE_EVENTS);
        scribe.event(word);
        scribe.show();
    }
}

/// Harts with several things wrong at once: which of them is told first has an order.
pub fn many_wrong(scribe: &mut Scribe) {
    for _ in 0..12 {
        let mode = scribe.mode();
        let mut hart = scribe.legal_hart(mode);
        for _ in 0..scribe.rng.below(4) {
            let row = scribe.rng.pick(&ROWS);
            let content = scribe.rng.number();
            if let Some(place) = hart.stored_mut(row.number) {
                *place = content;
            }
        }
        hart.pc |= scribe.rng.below(4);
        hart.mstatus |= scribe.rng.below(2) << MPRV;
        if scribe.rng.chance(10) {
            hart.privilege = 2;
        }
        scribe.whole_hart(&hart);
        let bad = scribe.rng.chance(50);
        event(scribe, bad);
    }
}

/// Modes for the combinations of MPRV with each mode.
pub fn mprv_everywhere(scribe: &mut Scribe) {
    for mode in Mode::ALL {
        scribe.hart(mode, 0);
        scribe.reg(registers::MSTATUS, 0xa_0002_0000);
        let word = scribe.rng.pick(&BARE_EVENTS);
        scribe.event(word);
        scribe.show();
    }
}
