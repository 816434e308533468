//! Images of odd length and base, accesses at the image's edge, around 2^56 and 2^64 and at the edges of the address spaces of each
//! MODE, large images, images from files.

use second::hart::{Hart, Mode};
use second::registers::{HGATP, HU};

use crate::program::FILES;
use crate::scribe::Scribe;
use crate::tables::{atp, first_bits, second_bits, DEPTHS};

/// Accesses around the edges of an image.
pub fn edges(scribe: &mut Scribe) {
    let base = choose_base(scribe);
    let length = choose_length(scribe);
    scribe.line(&format!("image {base:x} {length:x}"));
    let mode = scribe.mode();
    let mut hart = Hart::new(0, 0, 0).in_mode(mode);
    hart.hstatus |= 1 << HU;
    if scribe.rng.chance(20) {
        // MODE 0 is Bare, whatever is below.
        hart.satp = 0x0fff_ffff_ffff_ffff;
        hart.vsatp = 0x0fff_ffff_ffff_ffff;
        hart.hgatp = 0x03ff_ffff_ffff_fffc;
    }
    scribe.whole_hart(&hart);
    for _ in 0..12 {
        if scribe.session.hart.checked_mode() != Some(mode) {
            // A fault of a hypervisor load or store was delivered.
            scribe.whole_hart(&hart);
        }
        let edge = scribe.rng.pick(&[
            base,
            base.wrapping_add(length),
            base.wrapping_add(length),
            1 << 56,
            0,
        ]);
        let near = edge.wrapping_add(scribe.rng.below(20)).wrapping_sub(12);
        access(scribe, near);
    }
}

/// Accesses around the edges of the address spaces of each MODE. The root of every stage is the image.
pub fn address_spaces(scribe: &mut Scribe) {
    scribe.line("image 80000000 4000");
    for _ in 0..4 {
        let entry = scribe.rng.pick(&[0, 0x2000_0001, 0x2000_00df, 0xdf]);
        let place = scribe.rng.pick(&[0, 0x7f8, 0x800, 0xff8, 0x3ff8]);
        scribe.put(0x8000_0000 + place, entry);
    }
    let mode = scribe.mode();
    let mut hart = Hart::new(0, 0, 0).in_mode(mode);
    hart.hstatus |= 1 << HU;
    for _ in 0..6 {
        let [satp, vsatp, hgatp] = [0, 0, 0].map(|bare| {
            let levels = scribe.rng.pick(&DEPTHS);
            scribe.rng.pick(&[bare, atp(levels, 0x8000_0000)])
        });
        (hart.satp, hart.vsatp, hart.hgatp) = (satp, vsatp, hgatp);
        scribe.whole_hart(&hart);
        for _ in 0..2 {
            let levels = scribe.rng.pick(&DEPTHS);
            let half = 1u64 << (first_bits(levels) - 1);
            let edge = scribe
                .rng
                .pick(&[half, half.wrapping_neg(), 1 << second_bits(levels)]);
            let near = edge.wrapping_add(scribe.rng.below(20)).wrapping_sub(12);
            access(scribe, near);
            if scribe.session.hart.checked_mode() != Some(mode) {
                scribe.whole_hart(&hart);
            }
        }
    }
}

/// An access near an address: a translation or, outside the guest, often a hypervisor load or store.
fn access(scribe: &mut Scribe, near: u64) {
    let in_guest = scribe.session.hart.v == 1;
    let width = scribe.rng.pick(&[1, 2, 4, 8]);
    let aligned = if scribe.rng.chance(80) {
        near & !(width - 1)
    } else {
        near
    };
    let text = match scribe.rng.below(if in_guest { 3 } else { 6 }) {
        0 => format!("fetch {:x} 4", near & !3),
        1 => format!("load {aligned:x} {width:x}"),
        2 => format!("store {aligned:x} {width:x}"),
        3 => format!("hlvx 4 {:x}", near & !3),
        4 => format!("hlv {width:x} {} {aligned:x}", scribe.rng.below(2)),
        _ => format!("hsv {width:x} {aligned:x} {:x}", scribe.rng.number()),
    };
    scribe.event(&text);
}

fn choose_base(scribe: &mut Scribe) -> u64 {
    let limit = 1u64 << 56;
    match scribe.rng.below(12) {
        0 => 0,
        1 => 0x1000,
        2 => limit - 0x1000,
        3 => limit - 0x2000,
        4 => limit,
        5 => limit + 0x1000,
        6 => u64::MAX - 0xfff,
        7 => 1 << 63,
        8 => scribe.rng.number(),
        9 => scribe.rng.bits() & 0xff_ffff_ffff_f000,
        10 => 0x8000_0000 + scribe.rng.below(0x2000),
        _ => 0x8000_0000,
    }
}

fn choose_length(scribe: &mut Scribe) -> u64 {
    match scribe.rng.below(8) {
        0 => 0,
        1 => scribe.rng.below(0x3000),
        2 => 0x2000,
        3 => 0x1001,
        4 => 0xfff,
        5 => 0x1_0000,
        _ => 0x1000,
    }
}

/// The largest image that is taken, the smallest that is too large, and one of 128 MiB.
pub fn large_images(scribe: &mut Scribe) {
    let lengths = [0x400_0000, 0x400_1000, 0x3ff_f000, 0x800_0000, 0x400_0008];
    let length = scribe.rng.pick(&lengths);
    large_image(scribe, length);
}

/// The largest image that is taken, and two that are too large.
pub fn around_the_largest(scribe: &mut Scribe) {
    for length in [0x400_0000, 0x400_1000, 0x400_0008] {
        large_image(scribe, length);
    }
}

/// An image of this length, and accesses at its end.
fn large_image(scribe: &mut Scribe, length: u64) {
    let base = scribe.rng.pick(&[0, 0x8000_0000, (1 << 56) - 0x400_0000]);
    scribe.line(&format!("image {base:x} {length:x}"));
    scribe.put(base + length - 8, 0xdf);
    scribe.hart(Mode::M, 0);
    for _ in 0..4 {
        let near = (base + length)
            .wrapping_add(scribe.rng.below(16))
            .wrapping_sub(8);
        access(scribe, near);
    }
    // Leave a small one behind.
    scribe.line("image 0 0");
}

/// Images from files.
pub fn files(scribe: &mut Scribe) {
    let name = scribe.rng.pick(&FILES);
    let base = scribe.rng.pick(&[
        0x8000_0000,
        0x8000_0000,
        0,
        0x8000_0008,
        0xff_ffff_ffff_c000,
    ]);
    scribe.line(&format!("file {base:x} {name}"));
    let mode = scribe.rng.pick(&[Mode::Vs, Mode::Vu, Mode::M]);
    scribe.hart(mode, 0);
    let levels = scribe.rng.pick(&DEPTHS);
    scribe.reg(HGATP, atp(levels, 0x8000_0000));
    for _ in 0..8 {
        let address = match scribe.rng.below(3) {
            0 => base + scribe.rng.below(0x5000),
            _ => scribe.rng.bits() & ((1 << second_bits(levels)) - 8),
        };
        access(scribe, address);
    }
    if scribe.session.image.bytes.len() >= 16 {
        let value = scribe.rng.bits();
        scribe.put(base + 8, value);
        access(scribe, base + 8);
    }
}
