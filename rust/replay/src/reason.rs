//! Why the model refused an event, why an instruction trapped with cause 2 or 22, and why an interrupt was taken or none: the first
//! reason in the order of docs/REPLAY.md. It explains answers and decides none.

use crate::names::{self, Mode};
use crate::pending::{self, Way};
use crate::registers::{self, get, stray, HGATP, HSTATUS, MSTATUS, SATP};
use crate::script::{Event, GuestAccess, Instruction, Transfer};
use balcumentri::{Access, Fault, Hart, Image, Kind};

/// Why an event was refused.
pub fn refused(number: u64, hart: &Hart, image: Image<'_>, event: &Event) -> Option<String> {
    match (number, event) {
        (2, _) => hart_refused(hart),
        (1, _) => image_refused(image),
        (3, Event::Translate(access)) => access_refused(access),
        (3, Event::Guest(access, _)) => guest_access_refused(access),
        (4, Event::Trap(trap)) => trap_refused(hart, trap),
        (5, Event::Register(number, ..)) => Some(format!("register number {number:x} is over fff")),
        _ => None,
    }
}

/// Refusal 2.
pub fn hart_refused(hart: &Hart) -> Option<String> {
    let Some(mode) = Mode::of_hart(hart) else {
        let (v, privilege) = (hart.v(), hart.privilege());
        return Some(format!(
            "V {v:x} and privilege {privilege:x} are none of the five modes"
        ));
    };
    for (number, word) in hart.registers() {
        if let Some((field, value, may)) = stray(number, word) {
            let register = registers::title(number);
            return Some(format!(
                "{register}: {field} is {value:x}; it may hold {may}"
            ));
        }
    }
    if !hart.pc().is_multiple_of(4) {
        return Some(format!("pc {:x} is not a multiple of 4", hart.pc()));
    }
    (mode != Mode::M && control(hart, MSTATUS, "MPRV"))
        .then(|| "mstatus (300): MPRV is 1; outside M it may hold 0".to_owned())
}

/// Refusal 1.
fn image_refused(image: Image<'_>) -> Option<String> {
    let (base, length) = (image.base, image.bytes.len());
    let end = u128::from(base) + length as u128;
    if length > 0x400_0000 {
        Some(format!(
            "the image has {length:x} bytes; it may have at most 4000000"
        ))
    } else if !base.is_multiple_of(0x1000) {
        Some(format!(
            "the image's base {base:x} is not a multiple of 1000"
        ))
    } else if !length.is_multiple_of(0x1000) {
        Some(format!(
            "the image's length {length:x} is not a multiple of 1000"
        ))
    } else if end > 1 << 56 {
        Some(format!(
            "the image ends at {end:x}; it may end at most at {:x}",
            1_u64 << 56
        ))
    } else {
        None
    }
}

/// Refusal 3.
fn access_refused(access: &Access) -> Option<String> {
    let Access {
        kind,
        address,
        width,
    } = *access;
    if !is_width(width) {
        Some(no_width(width))
    } else if kind == Kind::Fetch && width != 4 {
        Some(format!("a fetch has width 4, not {width:x}"))
    } else if kind == Kind::Fetch && !address.is_multiple_of(4) {
        Some(format!(
            "a fetch's address is a multiple of 4; {address:x} is not"
        ))
    } else {
        None
    }
}

/// Refusal 3 of a hypervisor load or store.
fn guest_access_refused(access: &GuestAccess) -> Option<String> {
    let width = access.width;
    if !is_width(width) {
        return Some(no_width(width));
    }
    let executes = matches!(access.transfer, Transfer::LoadX);
    (executes && !matches!(width, 2 | 4)).then(|| format!("HLVX has width 2 or 4, not {width:x}"))
}

fn is_width(width: u64) -> bool {
    matches!(width, 1 | 2 | 4 | 8)
}

fn no_width(width: u64) -> String {
    format!("width {width:x} is none of 1, 2, 4 and 8")
}

/// Refusal 4.
fn trap_refused(hart: &Hart, trap: &Fault) -> Option<String> {
    let Fault {
        cause,
        value,
        second,
        word,
        flag,
    } = *trap;
    let mode = Mode::of_hart(hart)?;
    let guest_page = matches!(cause, 20 | 21 | 23);
    let call = matches!(cause, 8..=11);
    let without_flag = call || matches!(cause, 2 | 22);
    let (arises, modes) = match cause {
        8 => (mode.is_user(), "U and VU"),
        9 => (mode == Mode::Hs, "HS"),
        10 => (mode == Mode::Vs, "VS"),
        11 => (mode == Mode::M, "M"),
        _ => (true, ""),
    };
    if names::cause(cause).is_none() {
        Some(format!("the model has no cause {cause:x}"))
    } else if !arises {
        Some(format!("cause {cause:x} arises in {modes} alone"))
    } else if cause == 22 && !mode.is_guest() {
        Some(format!("cause {cause:x} arises with V=1 alone"))
    } else if call && value != 0 {
        Some(format!("the value of cause {cause:x} is 0, not {value:x}"))
    } else if !guest_page && second != 0 {
        Some(format!("cause {cause:x} has no second value"))
    } else if !guest_page && word != 0 {
        Some(format!("cause {cause:x} has no instruction word"))
    } else if without_flag && flag {
        Some(format!("cause {cause:x} has the flag clear"))
    } else if guest_page && !flag {
        Some(format!("cause {cause:x} has the flag set"))
    } else if !without_flag && mode.is_guest() && !flag {
        Some(format!("with V=1 cause {cause:x} has the flag set"))
    } else {
        None
    }
}

/// Why an instruction trapped with cause 2 or 22.
pub fn trapped(hart: &Hart, event: &Event) -> Option<String> {
    match *event {
        Event::Register(number, action, _) => register_trapped(hart, number, action.writes()),
        Event::Perform(instruction, _) => instruction_trapped(hart, instruction),
        Event::Guest(access, _) => guest_access_trapped(hart, access),
        _ => None,
    }
}

/// Whose register it is: bits 9:8 of its number.
enum Level {
    S,
    H,
    M,
}

fn level(number: u64) -> Level {
    match number >> 8 & 3 {
        1 => Level::S,
        2 => Level::H,
        _ => Level::M,
    }
}

fn register_trapped(hart: &Hart, number: u64, writes: bool) -> Option<String> {
    if registers::name(number).is_none() {
        return Some(format!("the model has no register {number:x}"));
    }
    let register = registers::title(number);
    // bits 11:10 of a number say that the register can't be written
    if writes && number >> 10 == 3 {
        return Some(format!("{register} is read-only"));
    }
    let mode = Mode::of_hart(hart)?;
    let reached = match mode {
        Mode::M => true,
        Mode::Hs => !matches!(level(number), Level::M),
        Mode::Vs => matches!(level(number), Level::S),
        Mode::U | Mode::Vu => false,
    };
    if !reached {
        return Some(format!("{register} is out of reach in {mode}"));
    }
    match (mode, number) {
        (Mode::Hs, SATP | HGATP) => set(hart, MSTATUS, "TVM"),
        (Mode::Vs, SATP) => set(hart, HSTATUS, "VTVM"),
        _ => None,
    }
}

fn instruction_trapped(hart: &Hart, instruction: Instruction) -> Option<String> {
    use Instruction::{HfenceGvma, HfenceVvma, Mret, SfenceVma, Sret, Wfi};
    let mode = Mode::of_hart(hart)?;
    if instruction == Wfi && control(hart, MSTATUS, "TW") {
        return set(hart, MSTATUS, "TW");
    }
    let reached = match instruction {
        Mret => mode == Mode::M,
        HfenceVvma | HfenceGvma => matches!(mode, Mode::M | Mode::Hs),
        _ => !mode.is_user(),
    };
    if !reached {
        return Some(format!("{} is out of reach in {mode}", instruction.name()));
    }
    match (instruction, mode) {
        (Sret, Mode::Hs) => set(hart, MSTATUS, "TSR"),
        (Sret, Mode::Vs) => set(hart, HSTATUS, "VTSR"),
        (Wfi, Mode::Vs) => set(hart, HSTATUS, "VTW"),
        (SfenceVma | HfenceGvma, Mode::Hs) => set(hart, MSTATUS, "TVM"),
        (SfenceVma, Mode::Vs) => set(hart, HSTATUS, "VTVM"),
        _ => None,
    }
}

fn guest_access_trapped(hart: &Hart, access: GuestAccess) -> Option<String> {
    let mode = Mode::of_hart(hart)?;
    if mode.is_guest() {
        return Some(format!("{} is out of reach in {mode}", access.name()));
    }
    (mode == Mode::U && !control(hart, HSTATUS, "HU")).then(|| "hstatus.HU is 0".to_owned())
}

/// Why an interrupt was taken.
pub fn interrupted(hart: &Hart, number: u64) -> Option<String> {
    let way = Way::new(hart, number)?;
    let passes = way.gate.as_ref().ok()?;
    Some(format!("interrupt {number:x} goes to {way}; {passes}"))
}

/// Why no interrupt was taken.
pub fn not_interrupted(hart: &Hart) -> Option<String> {
    let (enabled, others) = pending::numbers(hart);
    if enabled.is_empty() && others.is_empty() {
        return Some("no interrupt is pending".to_owned());
    }
    if enabled.is_empty() {
        return Some("no pending interrupt is enabled".to_owned());
    }
    let asking = pending::asking(hart);
    let way = asking.first()?;
    let (number, waits) = (way.number, way.gate.as_ref().err()?);
    Some(format!("interrupt {number:x} would go to {way}; {waits}"))
}

/// Whether a control bit is set.
fn control(hart: &Hart, register: u64, field: &str) -> bool {
    get(register, field, hart.register(register).unwrap_or(0)) == 1
}

/// The control bit that is set, as a reason.
fn set(hart: &Hart, register: u64, field: &str) -> Option<String> {
    let name = registers::name(register)?;
    control(hart, register, field).then(|| format!("{name}.{field} is 1"))
}
