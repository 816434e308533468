//! A script under construction. Every line is performed at once by the second program's library, so that the scenes know the
//! hart and the image they have, and the coverage knows why walks end.

use std::path::PathBuf;

use second::hart::{Hart, Mode};
use second::registers::{after_write, Row, MIP, MPRV, ROWS};
use second::script::{parse, Answer, Session};

use crate::coverage::bits::REGISTERS;
use crate::coverage::{Before, Coverage};
use crate::rng::Rng;
use crate::words::with_word;

/// What this register could hold, by a value for it.
pub fn content_of(row: &Row, value: u64) -> u64 {
    match row.number {
        // Some of its bits come in with the hart.
        MIP => value & row.stored,
        _ => after_write(row, after_write(row, 0, 0), value),
    }
}

/// A script under construction.
pub struct Scribe {
    /// The random numbers of this script.
    pub rng: Rng,
    /// The hart and the image after the lines so far.
    pub session: Session,
    /// The lines so far.
    pub lines: Vec<Vec<u8>>,
    /// What they reached.
    pub coverage: Coverage,
}

impl Scribe {
    /// An empty script. `folder` holds the files that `file` lines name.
    pub fn new(seed: u64, folder: PathBuf) -> Scribe {
        Scribe {
            rng: Rng::new(seed),
            session: Session::new(folder),
            lines: Vec::new(),
            coverage: Coverage::default(),
        }
    }

    /// Writes one good line, and performs it.
    pub fn line(&mut self, text: &str) -> Answer {
        let bytes = if self.rng.below(60) == 0 {
            self.decorated(text)
        } else {
            text.as_bytes().to_vec()
        };
        let parsed = parse(&bytes)
            .unwrap_or_else(|bad| panic!("the generator wrote a bad line, {text:?}: {}", bad.0))
            .unwrap_or_else(|| panic!("the generator wrote a blank line, {text:?}"));
        let before = Before::of(&self.session, &parsed);
        let answer = self
            .session
            .perform(&parsed)
            .unwrap_or_else(|bad| panic!("the generator wrote a bad line, {text:?}: {}", bad.0));
        self.coverage.note(&parsed, &before, &answer);
        self.lines.push(bytes);
        answer
    }

    /// Writes one good line, with a word behind it where it is an event that has one, and performs it.
    pub fn event(&mut self, text: &str) -> Answer {
        let line = with_word(&mut self.rng, text);
        self.line(&line)
    }

    /// The same line with other blanks, digits and comments. (A `file` line only gets blanks around it.)
    fn decorated(&mut self, text: &str) -> Vec<u8> {
        if text.starts_with("file ") {
            return format!(" \t{text} \r").into_bytes();
        }
        let mut line = String::new();
        for (place, word) in text.split(' ').enumerate() {
            if place > 0 {
                line.push_str(self.rng.pick(&[" ", "  ", "\t", " \t ", "\r", " \r"]));
            }
            let mut word = word.to_string();
            if place > 0 && self.rng.chance(50) {
                word = word.to_uppercase();
            }
            if place > 0 && self.rng.chance(50) {
                word = format!("{word:0>16}");
            }
            line.push_str(&word);
        }
        line.insert_str(0, self.rng.pick(&["", " ", "\t", "\r "]));
        let mut bytes = line.into_bytes();
        bytes.extend(self.rng.pick(&[
            &b""[..],
            b" ",
            b"\r",
            b"#",
            b" # a comment",
            b"# load 0 8",
            b"\t#\xff\xfe\x00",
        ]));
        bytes
    }

    /// `show`.
    pub fn show(&mut self) {
        self.line("show");
    }

    /// `show` in `percent` of 100 cases.
    pub fn show_sometimes(&mut self, percent: u64) {
        if self.rng.chance(percent) {
            self.show();
        }
    }

    /// `put`.
    pub fn put(&mut self, address: u64, value: u64) {
        self.line(&format!("put {address:x} {value:x}"));
    }

    /// `reg`.
    pub fn reg(&mut self, number: u64, value: u64) {
        self.line(&format!("reg {number:x} {value:x}"));
    }

    /// `hart` in one of the five modes.
    pub fn hart(&mut self, mode: Mode, pc: u64) {
        self.line(&format!(
            "hart {:x} {:x} {pc:x}",
            u64::from(mode.v()),
            mode.privilege()
        ));
    }

    /// Lines that make the hart exactly this one.
    pub fn whole_hart(&mut self, hart: &Hart) {
        let plain = Hart::new(hart.v, hart.privilege, hart.pc);
        self.line(&format!(
            "hart {:x} {:x} {:x}",
            hart.v, hart.privilege, hart.pc
        ));
        for row in &ROWS {
            if let Some(content) = hart.stored(row.number) {
                if plain.stored(row.number) != Some(content) {
                    self.reg(row.number, content);
                }
            }
        }
    }

    /// A pc that passes check 2.
    pub fn pc(&mut self) -> u64 {
        match self.rng.below(4) {
            0 => u64::MAX - 3,
            1 => self.rng.below(0x1000) * 4,
            _ => self.rng.bits() & !3,
        }
    }

    /// A mode.
    pub fn mode(&mut self) -> Mode {
        self.rng.pick(&Mode::ALL)
    }

    /// Content that this register could hold.
    pub fn content(&mut self, row: &Row) -> u64 {
        content_of(row, self.value_for(row))
    }

    /// A value for a write to this register: for satp, vsatp and hgatp the MODE is often one that is taken, for the registers
    /// of interrupts the value often has one bit of the low twelve, or all but one.
    pub fn value_for(&mut self, row: &Row) -> u64 {
        let value = self.rng.number();
        let of_interrupts = REGISTERS.iter().any(|one| one.number == row.number);
        if of_interrupts && self.rng.chance(40) {
            let bit = 1 << self.rng.below(12);
            return self.rng.pick(&[bit, !bit, 0xfff & !bit]);
        }
        let is_atp = matches!(row.name, "satp" | "vsatp" | "hgatp");
        if is_atp && self.rng.chance(70) {
            let mode = self.rng.pick(&[0, 8, 9, 10]);
            (value & 0x0fff_ffff_ffff_ffff) | (mode << 60)
        } else {
            value
        }
    }

    /// A hart in this mode that passes check 2, with about half of its registers filled.
    pub fn legal_hart(&mut self, mode: Mode) -> Hart {
        let pc = self.pc();
        let mut hart = Hart::new(u64::from(mode.v()), mode.privilege(), pc);
        for row in &ROWS {
            if self.rng.chance(50) {
                continue;
            }
            let content = self.content(row);
            if let Some(place) = hart.stored_mut(row.number) {
                *place = content;
            }
        }
        if mode != Mode::M {
            hart.mstatus &= !(1 << MPRV);
        }
        hart
    }
}
