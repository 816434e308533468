//! Views: registers that show bits of another, in which they are kept.

use crate::fields::Field;
use crate::registers::{
    self, HIDELEG, HIE, HIP, HVIP, MIDELEG, MIE, MIP, MSTATUS, SIE, SIP, SSTATUS, VSIE, VSIP,
};
use balcumentri::Hart;

/// A view.
struct View {
    /// The register that keeps its bits.
    home: u64,
    /// How much higher they stand there.
    shift: u32,
    /// The register without whose bits, each where it stands at home, they read 0 and are not written.
    gate: Option<u64>,
}

/// The view with a number.
fn find(number: u64) -> Option<View> {
    let (home, shift, gate) = match number {
        SSTATUS => (MSTATUS, 0, None),
        SIE => (MIE, 0, Some(MIDELEG)),
        SIP => (MIP, 0, Some(MIDELEG)),
        VSIE => (MIE, 1, Some(HIDELEG)),
        VSIP => (MIP, 1, Some(HIDELEG)),
        HIE => (MIE, 0, None),
        HIP | HVIP => (MIP, 0, None),
        _ => return None,
    };
    Some(View { home, shift, gate })
}

/// The register in which a view's bits are kept.
pub fn home(number: u64) -> Option<u64> {
    find(number).map(|view| view.home)
}

/// What a stored register holds.
fn stored(hart: &Hart, number: u64) -> u64 {
    hart.register(number).unwrap_or(0)
}

/// What a register shows: a view what its gate lets through of its home, a constant 0.
pub fn held(hart: &Hart, number: u64) -> u64 {
    let word = match find(number) {
        Some(view) => stored(hart, view.home) >> view.shift & open(hart, &view),
        None => stored(hart, number),
    };
    registers::visible(number, word)
}

/// The bits that a view's gate lets through.
fn open(hart: &Hart, view: &View) -> u64 {
    view.gate
        .map_or(u64::MAX, |gate| stored(hart, gate) >> view.shift)
}

/// What a view's gate hides of its home.
pub fn not_shown(hart: &Hart, number: u64) -> Option<String> {
    let view = find(number)?;
    let hidden = stored(hart, view.home) >> view.shift & !open(hart, &view);
    let fields = registers::fields(number).iter();
    let hidden: Vec<&Field> = fields.filter(|field| field.of(hidden) == 1).collect();
    let why = closed(number, &hidden)?;
    let names: Vec<&str> = hidden.iter().map(|field| field.name).collect();
    let is = if hidden.len() == 1 { "is" } else { "are" };
    Some(format!("{} {is} not shown: {why}", names.join(", ")))
}

/// That a view's gate shuts bits off: the gate's bits, in the order of the view's.
pub fn closed(number: u64, shut: &[&Field]) -> Option<String> {
    let view = find(number)?;
    let gate = registers::title(view.gate?);
    let bits = shut.iter().map(|field| field.low + view.shift);
    let bits: Vec<String> = bits.map(|bit| bit.to_string()).collect();
    match bits.as_slice() {
        [] => None,
        [bit] => Some(format!("bit {bit} of {gate} is 0")),
        _ => Some(format!("bits {} of {gate} are 0", bits.join(", "))),
    }
}

/// What a write through a view changed where its bits are kept.
pub fn kept(before: &Hart, after: &Hart, number: u64) -> Option<String> {
    let view = find(number)?;
    let (old, new) = (stored(before, view.home), stored(after, view.home));
    if old == new {
        return None;
    }
    let home = registers::title(view.home);
    let change = format!("it is kept in {home}: {old:x} becomes {new:x}");
    Some(match view.shift {
        0 => change,
        _ => format!("{change}, {}", registers::changes(view.home, old, new)),
    })
}
