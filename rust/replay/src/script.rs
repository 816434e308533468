//! The script language: what a line says.

use crate::forms::{value, Form, FORMS, MOST};
use crate::suggest;
use balcumentri::{Access, Fault, Kind};

/// A return, a wait or a fence.
#[derive(Clone, Copy, PartialEq, Eq)]
pub enum Instruction {
    Mret,
    Sret,
    Wfi,
    SfenceVma,
    HfenceVvma,
    HfenceGvma,
}

impl Instruction {
    /// The manual's name.
    pub fn name(self) -> &'static str {
        match self {
            Instruction::Mret => "MRET",
            Instruction::Sret => "SRET",
            Instruction::Wfi => "WFI",
            Instruction::SfenceVma => "SFENCE.VMA",
            Instruction::HfenceVvma => "HFENCE.VVMA",
            Instruction::HfenceGvma => "HFENCE.GVMA",
        }
    }
}

/// A hypervisor load or store.
#[derive(Clone, Copy)]
pub struct GuestAccess {
    pub transfer: Transfer,
    pub width: u64,
    pub address: u64,
}

/// What a hypervisor load or store does.
#[derive(Clone, Copy)]
pub enum Transfer {
    /// HLV; whether it sign-extends.
    Load { signed: bool },
    /// HLVX.
    LoadX,
    /// HSV.
    Store { value: u64 },
}

impl GuestAccess {
    /// The manual's name, without the width.
    pub fn name(&self) -> &'static str {
        match self.transfer {
            Transfer::Load { .. } => "HLV",
            Transfer::LoadX => "HLVX",
            Transfer::Store { .. } => "HSV",
        }
    }

    /// What is translated.
    pub fn access(&self) -> Access {
        Access {
            kind: match self.transfer {
                Transfer::Load { .. } | Transfer::LoadX => Kind::Load,
                Transfer::Store { .. } => Kind::Store,
            },
            address: self.address,
            width: self.width,
        }
    }
}

/// What is done to a register; the flag of a set and a clear says whether it writes.
#[derive(Clone, Copy)]
pub enum Action {
    Read,
    Write(u64),
    Set(u64, bool),
    Clear(u64, bool),
}

impl Action {
    pub fn writes(self) -> bool {
        match self {
            Action::Read => false,
            Action::Write(_) => true,
            Action::Set(_, writes) | Action::Clear(_, writes) => writes,
        }
    }

    /// The word that a write asks for, made of the old one.
    pub fn asked(self, old: u64) -> u64 {
        match self {
            Action::Read => old,
            Action::Write(value) => value,
            Action::Set(value, _) => old | value,
            Action::Clear(value, _) => old & !value,
        }
    }
}

/// What a line asks for.
pub enum Command<'a> {
    Image {
        base: u64,
        length: u64,
    },
    /// The path begins at an offset of the line.
    File {
        base: u64,
        path: &'a [u8],
        at: usize,
    },
    Put {
        address: u64,
        value: u64,
    },
    Hart {
        v: u64,
        privilege: u64,
        pc: u64,
    },
    Reg {
        number: u64,
        value: u64,
    },
    Event(Event),
}

/// What has an answer. The last number of a register access, of what is performed and of a hypervisor load or store is the
/// instruction's word.
#[derive(Clone, Copy)]
pub enum Event {
    Translate(Access),
    Register(u64, Action, u32),
    Trap(Fault),
    Ecall,
    Ebreak,
    Perform(Instruction, u32),
    Guest(GuestAccess, u32),
    /// The interrupt that is due is taken.
    Interrupt,
    Show,
}

/// What is wrong with a line, and where.
pub struct Mistake {
    /// The column, in bytes from 1.
    pub column: usize,
    pub sentence: String,
}

impl Mistake {
    /// At an offset of the line.
    pub fn at(offset: usize, sentence: impl Into<String>) -> Self {
        Mistake {
            column: offset + 1,
            sentence: sentence.into(),
        }
    }
}

/// Reads a line, without its line feed. `None`: nothing but blanks and a comment.
pub fn parse(line: &[u8]) -> Result<Option<Command<'_>>, Mistake> {
    let mut words = Words { line, at: 0 };
    let Some((at, word)) = words.next() else {
        return Ok(None);
    };
    let form = FORMS.iter().find(|form| form.word.as_bytes() == word);
    let form = form.ok_or_else(|| Mistake::at(at, suggest::word(word)))?;
    if form.word == "file" {
        return words.file(form).map(Some);
    }
    let numbers = words.numbers(form)?;
    Ok(Some(command(form.word, numbers)))
}

/// The offset at which a word of the line begins, the first being number 0.
pub fn offset(line: &[u8], number: usize) -> usize {
    let mut words = Words { line, at: 0 };
    (0..number).for_each(|_| {
        words.next();
    });
    words.next().map_or(line.len(), |(at, _)| at)
}

/// The line's words, without blanks and comment around them.
pub fn text(line: &[u8]) -> String {
    let mut words = Words { line, at: 0 };
    let mut text = Vec::new();
    while let Some((_, word)) = words.next() {
        text.push(String::from_utf8_lossy(word));
    }
    text.join(" ")
}

/// What a word says with its numbers.
fn command(word: &str, [a, b, c, d, e]: [u64; MOST]) -> Command<'static> {
    let access = |kind| {
        Event::Translate(Access {
            kind,
            address: a,
            width: b,
        })
    };
    // a word of more than 32 bits does not come here: its line is bad
    let register = |action, word| Event::Register(a, action, word as u32);
    let perform = |instruction| Event::Perform(instruction, a as u32);
    let guest = |transfer, address, word| {
        let access = GuestAccess {
            transfer,
            width: a,
            address,
        };
        Event::Guest(access, word as u32)
    };
    Command::Event(match word {
        "image" => return Command::Image { base: a, length: b },
        "put" => {
            return Command::Put {
                address: a,
                value: b,
            }
        }
        "hart" => {
            return Command::Hart {
                v: a,
                privilege: b,
                pc: c,
            }
        }
        "reg" => {
            return Command::Reg {
                number: a,
                value: b,
            }
        }
        "fetch" => access(Kind::Fetch),
        "load" => access(Kind::Load),
        "store" => access(Kind::Store),
        "read" => register(Action::Read, b),
        "write" => register(Action::Write(b), c),
        "set" => register(Action::Set(b, c == 1), d),
        "clear" => register(Action::Clear(b, c == 1), d),
        "trap" => Event::Trap(Fault {
            cause: a,
            value: b,
            second: c,
            word: d,
            flag: e == 1,
        }),
        "ecall" => Event::Ecall,
        "ebreak" => Event::Ebreak,
        "mret" => perform(Instruction::Mret),
        "sret" => perform(Instruction::Sret),
        "wfi" => perform(Instruction::Wfi),
        "sfence.vma" => perform(Instruction::SfenceVma),
        "hfence.vvma" => perform(Instruction::HfenceVvma),
        "hfence.gvma" => perform(Instruction::HfenceGvma),
        "interrupt" => Event::Interrupt,
        "hlv" => guest(Transfer::Load { signed: b == 1 }, c, d),
        "hlvx" => guest(Transfer::LoadX, b, c),
        "hsv" => guest(Transfer::Store { value: c }, b, d),
        _ => Event::Show,
    })
}

/// The words of a line up to its comment.
struct Words<'a> {
    line: &'a [u8],
    /// Where what is left begins.
    at: usize,
}

impl<'a> Words<'a> {
    /// The next word, and its offset.
    fn next(&mut self) -> Option<(usize, &'a [u8])> {
        let left = &self.line[self.at..];
        let start = self.at + left.iter().position(|&byte| !is_blank(byte))?;
        let from = &self.line[start..];
        let end = from.iter().position(|&byte| is_blank(byte) || byte == b'#');
        let word = &from[..end.unwrap_or(from.len())];
        if word.is_empty() {
            return None;
        }
        self.at = start + word.len();
        Some((start, word))
    }

    /// The numbers that a form takes, and nothing more.
    fn numbers(&mut self, form: &Form) -> Result<[u64; MOST], Mistake> {
        let mut numbers = [0; MOST];
        for (number, name) in numbers.iter_mut().zip(form.takes) {
            *number = self.number(form, name)?;
        }
        match self.next() {
            None => Ok(numbers),
            Some((at, more)) => {
                let sentence = format!("{}; {} is too much", form.usage(), suggest::shown(more));
                Err(Mistake::at(at, sentence))
            }
        }
    }

    /// The next number, by its name.
    fn number(&mut self, form: &Form, name: &str) -> Result<u64, Mistake> {
        let (at, word) = self.next().ok_or_else(|| self.missing(form, name))?;
        let number = value(word).ok_or_else(|| {
            let register = matches!(name, "N" | "NUMBER");
            Mistake::at(at, suggest::number(word, register))
        })?;
        let sentence = match name {
            "WRITES" | "FLAG" | "SIGNED" if number > 1 => {
                format!("{name} is 0 or 1, not {number:x}")
            }
            "WORD" if form.is_worded() && number > u32::MAX.into() => suggest::long_word(number),
            _ => return Ok(number),
        };
        Err(Mistake::at(at, sentence))
    }

    /// The path is the rest of the line, `#` and inner blanks included.
    fn file(&mut self, form: &Form) -> Result<Command<'a>, Mistake> {
        let base = self.number(form, "BASE")?;
        let rest = &self.line[self.at..];
        let blanks = rest.iter().take_while(|&&byte| is_blank(byte)).count();
        let path = trimmed(rest);
        if blanks == 0 || path.is_empty() {
            return Err(self.missing(form, "PATH"));
        }
        Ok(Command::File {
            base,
            path,
            at: self.at + blanks,
        })
    }

    /// Something is missing where the next word would begin, behind a blank.
    fn missing(&self, form: &Form, name: &str) -> Mistake {
        let hint = match name {
            "WORD" if form.is_worded() => suggest::no_word(form),
            _ => "",
        };
        let sentence = format!("{}; {name} is missing{hint}", form.usage());
        Mistake::at(self.at + 1, sentence)
    }
}

/// Space, tab and carriage return.
fn is_blank(byte: u8) -> bool {
    matches!(byte, b' ' | b'\t' | b'\r')
}

/// The bytes without the blanks around them.
fn trimmed(bytes: &[u8]) -> &[u8] {
    let Some(first) = bytes.iter().position(|&byte| !is_blank(byte)) else {
        return &[];
    };
    let last = bytes.iter().rposition(|&byte| !is_blank(byte));
    &bytes[first..=last.unwrap_or(first)]
}
