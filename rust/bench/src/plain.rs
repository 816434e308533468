//! The translation as plain Rust, written for speed: the other side of the comparison.
//!
//! It does all that the proved call does: check 2 over the whole hart, check 1, check 3, misalignment, the effective mode, both
//! stages of any depth, and the list of thirty-five places. Nothing is kept between calls. What makes it fast:
//!
//! - The caller lends the result. The walk writes its entries there, and only the places after them are zeroed, once it is done.
//! - One compare says whether an entry lies in the image; it is then loaded, and its place written, unchecked.
//! - The rules of a hart and of an entry are masks over whole words, not tests of one bit after another.
//! - The walk is compiled once for each pair of depths, so that the levels of its loops are constants.
//! - All inner functions become one with [`translate`].
#![allow(unsafe_code)]

pub mod access;
mod hart;

use crate::call::HartWords;
use balcumentri::{Access, Answer, Fault, Image, Kind, Read};
use hart::{
    passes, BARE, HGATP, MACHINE, MODE_LOW, MPP_LOW, MPRV, MPV, MSTATUS, MXR, PPN, PRIVILEGE, SATP,
    SUM, SV39, SV48, USER, VIRTUALIZATION, VSATP, VSSTATUS,
};

/// A translation: the answer, and the entries read for it. The default one has address 0 and no entry.
#[derive(Clone, Copy, Debug, PartialEq, Eq)]
pub struct Translation {
    /// The answer.
    pub answer: Answer,
    /// The list's places; those from the count on are zero.
    pub places: [Read; PLACES],
    /// How many entries were read.
    pub count: usize,
}

/// The most entries that a walk reads: at each of five levels of the first stage one, after five of the second stage for its
/// address; and five of the second stage for the access itself.
pub const PLACES: usize = 5 * (5 + 1) + 5;

impl Default for Translation {
    fn default() -> Self {
        Translation {
            answer: Answer::Address(0),
            places: [Read::default(); PLACES],
            count: 0,
        }
    }
}

// Bits of an entry.
const V: u64 = 1 << 0;
const R: u64 = 1 << 1;
const W: u64 = 1 << 2;
const X: u64 = 1 << 3;
const U: u64 = 1 << 4;
const A: u64 = 1 << 6;
const D: u64 = 1 << 7;
const RESERVED: u64 = !0 << 54;

/// The pseudoinstruction for a read of eight bytes by the walk itself.
const READ_OF_ENTRY: u64 = 0x3000;

/// The translation of an access over an image, written over `out`. Callgrind finds it by its symbol.
#[inline(never)]
#[export_name = "plain_translate"]
pub fn translate(hart: &HartWords, image: Image<'_>, access: Access, out: &mut Translation) {
    if !passes(hart) {
        return out.finish(0, Answer::Refused(2));
    }
    if image_refused(image) {
        return out.finish(0, Answer::Refused(1));
    }
    if access_refused(access) {
        return out.finish(0, Answer::Refused(3));
    }
    let Access {
        kind,
        address,
        width,
    } = access;
    let (v, privilege) = effective(hart, kind);
    let fault = |cause, second, word| {
        Answer::Fault(Fault {
            cause,
            value: address,
            second,
            word,
            flag: v,
        })
    };
    if address & (width - 1) != 0 {
        return out.finish(0, fault(by(kind, 0, 4, 6), 0, 0));
    }
    let mstatus = hart[MSTATUS];
    // the first stage's table register, and the status word whose SUM and MXR count there
    let (atp, status) = if v {
        (hart[VSATP], hart[VSSTATUS])
    } else if privilege == MACHINE {
        (0, mstatus)
    } else {
        (hart[SATP], mstatus)
    };
    let mut walk = Walk {
        image,
        limit: (image.bytes.len() as u64).saturating_sub(7),
        hgatp: if v { hart[HGATP] } else { 0 },
        places: &mut out.places,
        count: 0,
    };
    let first = Need::first(kind, privilege, status, mstatus);
    let second = Need::second(kind, mstatus);
    let end = match walk.hgatp >> MODE_LOW {
        BARE => walk.both::<0>(atp, address, first, second),
        SV39 => walk.both::<3>(atp, address, first, second),
        SV48 => walk.both::<4>(atp, address, first, second),
        _ => walk.both::<5>(atp, address, first, second),
    };
    let end = end.and_then(|machine| walk.whole(machine, width));
    let answer = match end {
        Ok(machine) => Answer::Address(machine),
        Err(End::Outside) => fault(by(kind, 1, 5, 7), 0, 0),
        Err(End::Page) => fault(by(kind, 12, 13, 15), 0, 0),
        Err(End::Entry(guest)) => fault(by(kind, 20, 21, 23), guest >> 2, READ_OF_ENTRY),
        Err(End::Guest(guest)) => fault(by(kind, 20, 21, 23), guest >> 2, 0),
    };
    let count = walk.count;
    out.finish(count, answer);
}

impl Translation {
    /// Ends a translation whose walk has written so many places.
    #[inline(always)]
    fn finish(&mut self, count: usize, answer: Answer) {
        self.count = count;
        // SAFETY: these are the places from count on, which is at most PLACES, and zeros are a Read.
        unsafe {
            std::ptr::write_bytes(self.places.as_mut_ptr().add(count), 0, PLACES - count);
        }
        self.answer = answer;
    }
}

/// Check 1.
#[inline(always)]
fn image_refused(image: Image<'_>) -> bool {
    let length = image.bytes.len() as u64;
    length > 1 << 26 || (image.base | length) & 4095 != 0 || image.base > (1 << 56) - length
}

/// Check 3.
#[inline(always)]
fn access_refused(access: Access) -> bool {
    let Access {
        kind,
        address,
        width,
    } = access;
    !matches!(width, 1 | 2 | 4 | 8) || kind == Kind::Fetch && (width != 4 || address & 3 != 0)
}

/// The mode that an access goes by: V and the privilege. By check 2, MPRV is set in M alone.
#[inline(always)]
fn effective(hart: &HartWords, kind: Kind) -> (bool, u64) {
    let mstatus = hart[MSTATUS];
    if mstatus & MPRV != 0 && kind != Kind::Fetch {
        let mpp = mstatus >> MPP_LOW & 3;
        (mpp != MACHINE && mstatus & MPV != 0, mpp)
    } else {
        (hart[VIRTUALIZATION] == 1, hart[PRIVILEGE])
    }
}

/// The number for a kind of access.
#[inline(always)]
fn by(kind: Kind, fetch: u64, load: u64, store: u64) -> u64 {
    match kind {
        Kind::Fetch => fetch,
        Kind::Load => load,
        Kind::Store => store,
    }
}

/// What a leaf must be: these bits under this mask, with X counted as R where MXR helps.
#[derive(Clone, Copy)]
struct Need {
    mask: u64,
    bits: u64,
    x_is_r: u64,
}

/// For an entry of the first stage, which the second stage takes as a user's load.
const ENTRY: Need = Need {
    mask: RESERVED | V | R | U | A,
    bits: V | R | U | A,
    x_is_r: 0,
};

impl Need {
    /// What every stage asks of a leaf.
    #[inline(always)]
    fn new(kind: Kind, mxr: bool) -> Need {
        let rights = by(kind, X, R, R | W | D);
        Need {
            mask: RESERVED | V | A | rights,
            bits: V | A | rights,
            x_is_r: if mxr && kind == Kind::Load { R } else { 0 },
        }
    }

    /// The first stage, with its own status word and mstatus, whose MXR counts too.
    #[inline(always)]
    fn first(kind: Kind, privilege: u64, status: u64, mstatus: u64) -> Need {
        let mut need = Need::new(kind, (status | mstatus) & MXR != 0);
        if privilege == USER {
            need.mask |= U;
            need.bits |= U;
        } else if kind == Kind::Fetch || status & SUM == 0 {
            need.mask |= U;
        }
        need
    }

    /// The second stage, where every access is a user's.
    #[inline(always)]
    fn second(kind: Kind, mstatus: u64) -> Need {
        let mut need = Need::new(kind, mstatus & MXR != 0);
        need.mask |= U;
        need.bits |= U;
        need
    }

    /// Where an entry that is no pointer takes an address, if it is a leaf without a fault: its low bits, so many, stay.
    #[inline(always)]
    fn leaf(self, entry: u64, address: u64, shift: u32) -> Option<u64> {
        let low = (1 << shift) - 1;
        let page = target(entry);
        let seen = entry | entry >> 2 & self.x_is_r;
        let good = (seen & self.mask == self.bits) & (entry & (R | W) != W) & (page & low == 0);
        good.then_some(page | address & low)
    }
}

/// Whether an entry is a pointer without a fault, its level apart.
#[inline(always)]
fn is_pointer(entry: u64) -> bool {
    entry & (RESERVED | V | R | W | X | U | A | D) == V
}

/// The address that an entry's PPN stands for.
#[inline(always)]
fn target(entry: u64) -> u64 {
    entry << 2 & PPN << 12
}

/// How a walk ends with a fault.
enum End {
    /// An entry, or the access, outside the image.
    Outside,
    /// A page fault of the first stage.
    Page,
    /// A guest-page fault for a guest entry at this guest physical address.
    Entry(u64),
    /// A guest-page fault for the access itself.
    Guest(u64),
}

/// A walk under way.
struct Walk<'a> {
    image: Image<'a>,
    /// The offsets in the image below this are those at which eight bytes begin.
    limit: u64,
    /// With V=0: zero, which is Bare.
    hgatp: u64,
    places: &'a mut [Read; PLACES],
    /// How many places are written.
    count: usize,
}

impl Walk<'_> {
    /// The entry at a machine address, listed.
    #[inline(always)]
    fn read(&mut self, stage: u64, level: u32, address: u64) -> Result<u64, End> {
        let offset = address.wrapping_sub(self.image.base);
        if offset >= self.limit {
            return Err(End::Outside);
        }
        // SAFETY: below the limit, so eight bytes from the offset on lie in the image.
        let value = unsafe {
            let at = self.image.bytes.as_ptr().add(offset as usize);
            u64::from_le(at.cast::<u64>().read_unaligned())
        };
        // SAFETY: a walk reads at most PLACES entries, so the count is below that before each.
        let place = unsafe { self.places.get_unchecked_mut(self.count) };
        *place = Read {
            stage,
            level: level.into(),
            address,
            value,
        };
        self.count += 1;
        Ok(value)
    }

    /// The access lies whole in the image.
    #[inline(always)]
    fn whole(&self, address: u64, width: u64) -> Result<u64, End> {
        let length = self.image.bytes.len() as u64;
        let offset = address.wrapping_sub(self.image.base);
        if offset < length && length - offset >= width {
            Ok(address)
        } else {
            Err(End::Outside)
        }
    }

    /// Both stages, the second one's tables of so many levels, none where it is off.
    #[inline(always)]
    fn both<const SECOND: u32>(
        &mut self,
        atp: u64,
        address: u64,
        first: Need,
        second: Need,
    ) -> Result<u64, End> {
        let guest = match atp >> MODE_LOW {
            BARE => address,
            SV39 => self.first::<3, SECOND>(atp, address, first)?,
            SV48 => self.first::<4, SECOND>(atp, address, first)?,
            _ => self.first::<5, SECOND>(atp, address, first)?,
        };
        self.second::<SECOND>(guest, second, End::Guest)
    }

    /// The first stage, its tables of so many levels, its entries' addresses through the second one.
    #[inline(always)]
    fn first<const LEVELS: u32, const SECOND: u32>(
        &mut self,
        atp: u64,
        address: u64,
        need: Need,
    ) -> Result<u64, End> {
        let mut level = LEVELS - 1;
        let mut shift = 12 + 9 * level;
        // the top table's index has nine bits, and those above are as the highest of them
        let high = (address as i64) >> (shift + 8);
        if high != 0 && high != -1 {
            return Err(End::Page);
        }
        let mut table = (atp & PPN) << 12;
        loop {
            let slot = table + 8 * (address >> shift & 511);
            let at = self.second::<SECOND>(slot, ENTRY, End::Entry)?;
            let entry = self.read(1, level, at)?;
            if !is_pointer(entry) {
                return need.leaf(entry, address, shift).ok_or(End::Page);
            }
            if level == 0 {
                return Err(End::Page);
            }
            level -= 1;
            shift -= 9;
            table = target(entry);
        }
    }

    /// The second stage, its tables of so many levels, none where it is off.
    #[inline(always)]
    fn second<const LEVELS: u32>(
        &mut self,
        address: u64,
        need: Need,
        fault: fn(u64) -> End,
    ) -> Result<u64, End> {
        if LEVELS == 0 {
            return Ok(address);
        }
        let mut level = LEVELS - 1;
        let mut shift = 12 + 9 * level;
        // the top table has four times 512 entries
        let top = address >> shift;
        if top >= 2048 {
            return Err(fault(address));
        }
        let mut at = ((self.hgatp & PPN) << 12) + 8 * top;
        loop {
            let entry = self.read(2, level, at)?;
            if !is_pointer(entry) {
                return need.leaf(entry, address, shift).ok_or(fault(address));
            }
            if level == 0 {
                return Err(fault(address));
            }
            level -= 1;
            shift -= 9;
            at = target(entry) + 8 * (address >> shift & 511);
        }
    }
}
