//! The fields of registers: what they are called, where they are, what they may hold, and what writes them.

/// A field of a register.
#[derive(Clone, Copy)]
pub struct Field {
    pub name: &'static str,
    high: u32,
    pub low: u32,
    /// What it may hold; nothing here: anything.
    may: &'static [u64],
    pub writer: Writer,
}

/// What writes a field.
#[derive(Clone, Copy, PartialEq, Eq)]
pub enum Writer {
    /// A write to its register.
    Own,
    /// A write to another register alone, by name and number.
    Other(&'static str),
    /// Nothing: it comes in with the hart.
    Nothing,
}

impl Field {
    pub fn of(&self, word: u64) -> u64 {
        (word & self.mask()) >> self.low
    }

    pub const fn mask(&self) -> u64 {
        (u64::MAX >> (63 - (self.high - self.low))) << self.low
    }

    pub fn is_bit(&self) -> bool {
        self.high == self.low
    }

    /// What it is called where it holds what no write stores: a bit goes by its number.
    pub fn label(&self) -> String {
        if self.is_bit() {
            return format!("bit {}", self.low);
        }
        self.name.to_owned()
    }

    /// Whether it may hold a value.
    pub fn takes(&self, value: u64) -> bool {
        self.may.is_empty() || self.may.contains(&value)
    }

    /// Whether no write changes it.
    pub fn is_constant(&self) -> bool {
        self.may.len() == 1
    }

    /// What it may hold, in words.
    pub fn choices(&self) -> String {
        let choices: Vec<String> = self.may.iter().map(|value| format!("{value:x}")).collect();
        match choices.split_last() {
            Some((last, [])) => last.clone(),
            Some((last, others)) => format!("{} or {last}", others.join(", ")),
            None => "anything".to_owned(),
        }
    }
}

const fn bit(name: &'static str, at: u32) -> Field {
    field(name, at, at, &[])
}

const fn field(name: &'static str, high: u32, low: u32, may: &'static [u64]) -> Field {
    Field {
        name,
        high,
        low,
        may,
        writer: Writer::Own,
    }
}

/// A bit that is always 1.
const fn one(name: &'static str, at: u32) -> Field {
    field(name, at, at, &[1])
}

/// A bit that its register's writes leave as it is.
const fn kept(name: &'static str, at: u32, writer: Writer) -> Field {
    Field {
        writer,
        ..bit(name, at)
    }
}

pub const MSTATUS: &[Field] = &[
    bit("SIE", 1),
    bit("MIE", 3),
    bit("SPIE", 5),
    bit("MPIE", 7),
    bit("SPP", 8),
    field("MPP", 12, 11, &[0, 1, 3]),
    bit("MPRV", 17),
    bit("SUM", 18),
    bit("MXR", 19),
    bit("TVM", 20),
    bit("TW", 21),
    bit("TSR", 22),
    field("UXL", 33, 32, &[2]),
    field("SXL", 35, 34, &[2]),
    bit("GVA", 38),
    bit("MPV", 39),
];
pub const SSTATUS: &[Field] = &[
    bit("SIE", 1),
    bit("SPIE", 5),
    bit("SPP", 8),
    bit("SUM", 18),
    bit("MXR", 19),
    field("UXL", 33, 32, &[2]),
];
pub const HSTATUS: &[Field] = &[
    bit("GVA", 6),
    bit("SPV", 7),
    bit("SPVP", 8),
    bit("HU", 9),
    bit("VTVM", 20),
    bit("VTW", 21),
    bit("VTSR", 22),
    field("VSXL", 33, 32, &[2]),
];
/// What MODE may hold of satp, vsatp and hgatp.
const MODES: &[u64] = &[0, 8, 9, 10];
pub const SATP: &[Field] = &[
    field("MODE", 63, 60, MODES),
    field("ASID", 59, 44, &[]),
    field("PPN", 43, 0, &[]),
];
pub const HGATP: &[Field] = &[
    field("MODE", 63, 60, MODES),
    field("VMID", 57, 44, &[]),
    field("PPN", 43, 0, &[]),
];
pub const TVEC: &[Field] = &[field("BASE", 63, 2, &[]), bit("MODE", 0)];

const BY_MIP: Writer = Writer::Other("mip (344)");
const BY_HVIP: Writer = Writer::Other("hvip (645)");

/// All interrupts: mie.
pub const INTERRUPTS: &[Field] = &[
    bit("SSI", 1),
    bit("VSSI", 2),
    bit("MSI", 3),
    bit("STI", 5),
    bit("VSTI", 6),
    bit("MTI", 7),
    bit("SEI", 9),
    bit("VSEI", 10),
    bit("MEI", 11),
];
pub const MIP: &[Field] = &[
    bit("SSI", 1),
    bit("VSSI", 2),
    kept("MSI", 3, Writer::Nothing),
    bit("STI", 5),
    kept("VSTI", 6, BY_HVIP),
    kept("MTI", 7, Writer::Nothing),
    bit("SEI", 9),
    kept("VSEI", 10, BY_HVIP),
    kept("MEI", 11, Writer::Nothing),
];
pub const MIDELEG: &[Field] = &[
    bit("SSI", 1),
    one("VSSI", 2),
    bit("STI", 5),
    one("VSTI", 6),
    bit("SEI", 9),
    one("VSEI", 10),
];
/// Those of S, and of VS where its own registers show them: sie, vsie.
pub const S_INTERRUPTS: &[Field] = &[bit("SSI", 1), bit("STI", 5), bit("SEI", 9)];
pub const SIP: &[Field] = &[
    bit("SSI", 1),
    kept("STI", 5, BY_MIP),
    kept("SEI", 9, BY_MIP),
];
pub const VSIP: &[Field] = &[
    bit("SSI", 1),
    kept("STI", 5, BY_HVIP),
    kept("SEI", 9, BY_HVIP),
];
/// Those of VS: hie, hvip, hideleg.
pub const VS_INTERRUPTS: &[Field] = &[bit("VSSI", 2), bit("VSTI", 6), bit("VSEI", 10)];
pub const HIP: &[Field] = &[
    bit("VSSI", 2),
    kept("VSTI", 6, BY_HVIP),
    kept("VSEI", 10, BY_HVIP),
];
