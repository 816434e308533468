//! The replay script language: reading a line, performing it, writing its answer.
//!
//! The three steps are separate functions ([`parse`], [`Session::perform`], [`Writing::write`]) and [`run`] puts them together.
//! Lines are bytes, not characters: what is not UTF-8 is an ordinary byte.

use std::fs::File;
use std::io::{self, Read, Write};
use std::path::PathBuf;

use crate::access::{access, Accessed, Action};
use crate::address::Machine;
use crate::calls::{ebreak, ecall};
use crate::hart::Hart;
use crate::hypervisor::{reach, GuestAccess, Operation, Reached};
use crate::image::Image;
use crate::interrupts::interrupt;
use crate::lines::Lines;
use crate::reasons::Reason;
use crate::returns::{mret, sret};
use crate::stepping::{press, start, Place, Pressed, State};
use crate::trap::{request, Ending, Outcome, Trap};
use crate::waits::{hfence_gvma, hfence_vvma, sfence_vma, wfi};
use crate::walk::{self, translate, Access, Kind, List, Translation};
use crate::word::Explanation;

/// The largest image that this program holds: 1 GiB.
pub const IMAGE_LIMIT: u64 = 0x4000_0000;

/// Whether `start` and `press` are words of the language: in this crate's own tests alone, as long as the proved model has no calls
/// for them.
const STEPS: bool = cfg!(test);

/// A return, WFI or a fence.
#[derive(Clone, Copy, PartialEq, Eq, Debug)]
pub enum Instruction {
    /// `mret`
    Mret,
    /// `sret`
    Sret,
    /// `wfi`
    Wfi,
    /// `sfence.vma`
    SfenceVma,
    /// `hfence.vvma`
    HfenceVvma,
    /// `hfence.gvma`
    HfenceGvma,
}

/// A line that is neither blank nor bad.
#[derive(Clone, PartialEq, Eq, Debug)]
pub enum Line {
    /// `image BASE LENGTH`
    Image {
        /// The base.
        base: u64,
        /// The length.
        length: u64,
    },
    /// `file BASE PATH`
    File {
        /// The base.
        base: u64,
        /// The path, as bytes.
        path: Vec<u8>,
    },
    /// `put ADDRESS VALUE`
    Put {
        /// The machine address.
        address: u64,
        /// The eight bytes.
        value: u64,
    },
    /// `hart V P PC`
    Hart {
        /// V.
        v: u64,
        /// The privilege.
        privilege: u64,
        /// The program counter.
        pc: u64,
    },
    /// `reg NUMBER VALUE`
    Reg {
        /// The register's number.
        number: u64,
        /// What it holds.
        value: u64,
    },
    /// `fetch`, `load` or `store`
    Translate(Access),
    /// `read`, `write`, `set` or `clear`
    Register {
        /// The register's number.
        number: u64,
        /// What is done to it.
        action: Action,
        /// The instruction's word.
        word: u32,
    },
    /// `trap`
    Trap(Trap),
    /// `ecall`
    Ecall,
    /// `ebreak`
    Ebreak,
    /// A return, WFI or a fence.
    Instruction {
        /// Which one.
        instruction: Instruction,
        /// Its word.
        word: u32,
    },
    /// `interrupt`
    Interrupt,
    /// `hlv`, `hlvx` or `hsv`
    Guest {
        /// The hypervisor load or store.
        access: GuestAccess,
        /// Its word.
        word: u32,
    },
    /// `start KIND ADDRESS WIDTH`
    Start(Access),
    /// `press`
    Press,
    /// `show`
    Show,
}

impl Line {
    /// "Each such event gains the word": that of a register access, a return, WFI or a fence, and of a hypervisor load or store.
    pub fn word(&self) -> Option<u32> {
        match self {
            Line::Register { word, .. }
            | Line::Instruction { word, .. }
            | Line::Guest { word, .. } => Some(*word),
            _ => None,
        }
    }
}

/// What a line answers.
#[derive(Clone, PartialEq, Eq, Debug)]
pub enum Answer {
    /// A line that sets the scene.
    Nothing,
    /// A translation.
    Translation(Box<Translation>),
    /// An access to a register.
    Register(Accessed),
    /// A trap request, an instruction or an interrupt.
    Event(Outcome),
    /// A hypervisor load or store.
    Guest(Box<Reached>),
    /// `start`: the new place.
    Started(Box<Place>),
    /// `press`
    Pressed(Box<Pressed>),
    /// `show`
    Hart(Hart),
}

impl Answer {
    /// Why it is a refusal, a fault, or a trap by a rule, and what came of an interrupt.
    pub fn reason(&self) -> Option<Reason> {
        match self {
            Answer::Nothing | Answer::Hart(_) => None,
            Answer::Translation(translation) => {
                let refused = translation.refusal.map(Reason::Refused);
                refused.or(translation.why.map(Reason::Fault))
            }
            Answer::Register(accessed) => accessed.outcome.reason,
            Answer::Event(outcome) => outcome.reason,
            Answer::Guest(reached) => reached.outcome.reason,
            Answer::Started(place) => place.reason(),
            Answer::Pressed(pressed) => pressed.reason(),
        }
    }
}

/// Why a line is bad: a sentence.
#[derive(Clone, PartialEq, Eq, Debug)]
pub struct Bad(pub String);

// Reading a line.

/// Spaces, tabs and carriage returns separate words.
fn is_blank(byte: u8) -> bool {
    matches!(byte, b' ' | b'\t' | b'\r')
}

/// `bytes` without the blanks before and after.
fn trimmed(bytes: &[u8]) -> &[u8] {
    let start = bytes.iter().position(|byte| !is_blank(*byte));
    let end = bytes.iter().rposition(|byte| !is_blank(*byte));
    match (start, end) {
        (Some(start), Some(end)) => &bytes[start..=end],
        _ => &[],
    }
}

/// The next word and what follows it. A word ends at a blank or at `#`; it is empty at the end of the line and at a comment.
fn next_word(bytes: &[u8]) -> (&[u8], &[u8]) {
    let start = bytes
        .iter()
        .position(|byte| !is_blank(*byte))
        .unwrap_or(bytes.len());
    let from = &bytes[start..];
    let end = from
        .iter()
        .position(|byte| is_blank(*byte) || *byte == b'#')
        .unwrap_or(from.len());
    from.split_at(end)
}

/// A piece of a line for a sentence: printable and not long.
fn shown(bytes: &[u8]) -> String {
    let cut = bytes.get(..40).unwrap_or(bytes);
    let dots = if cut.len() < bytes.len() { "..." } else { "" };
    format!("\"{}{dots}\"", cut.escape_ascii())
}

/// A number: 1 to 16 hexadecimal digits, either case, no prefix and no sign.
pub fn parse_number(word: &[u8]) -> Option<u64> {
    if word.is_empty() || word.len() > 16 {
        return None;
    }
    let mut number = 0u64;
    for byte in word {
        let digit = char::from(*byte).to_digit(16)?;
        number = (number << 4) | u64::from(digit);
    }
    Some(number)
}

/// Exactly `N` numbers, and nothing but a comment after them.
fn numbers<const N: usize>(mut rest: &[u8]) -> Result<[u64; N], Bad> {
    let mut found = [0; N];
    for place in &mut found {
        let (word, after) = next_word(rest);
        if word.is_empty() {
            return Err(Bad(format!("a number is missing: {N} are needed")));
        }
        *place = parse_number(word).ok_or_else(|| {
            Bad(format!(
                "{} is not a number of 1 to 16 hexadecimal digits",
                shown(word)
            ))
        })?;
        rest = after;
    }
    let (surplus, _) = next_word(rest);
    if !surplus.is_empty() {
        return Err(Bad(format!(
            "{} is too much: {N} numbers are needed",
            shown(surplus)
        )));
    }
    Ok(found)
}

/// WRITES, FLAG or SIGNED: 0 or 1.
fn flag(number: u64, name: &str) -> Result<bool, Bad> {
    match number {
        0 => Ok(false),
        1 => Ok(true),
        _ => Err(Bad(format!("{name} is {number:x}, neither 0 nor 1"))),
    }
}

/// WORD: "below 2^32, else the line is bad".
fn instruction_word(number: u64) -> Result<u32, Bad> {
    let over = |_| Bad(format!("WORD is {number:x}, over {:x}", u32::MAX));
    u32::try_from(number).map_err(over)
}

/// Reads one line (without its newline). None for a line with nothing but blanks and a comment.
pub fn parse(line: &[u8]) -> Result<Option<Line>, Bad> {
    let (word, rest) = next_word(line);
    if word.is_empty() {
        return Ok(None);
    }
    let parsed = match word {
        b"image" => {
            let [base, length] = numbers(rest)?;
            Line::Image { base, length }
        }
        b"file" => parse_file(rest)?,
        b"put" => {
            let [address, value] = numbers(rest)?;
            Line::Put { address, value }
        }
        b"hart" => {
            let [v, privilege, pc] = numbers(rest)?;
            Line::Hart { v, privilege, pc }
        }
        b"reg" => {
            let [number, value] = numbers(rest)?;
            Line::Reg { number, value }
        }
        b"fetch" | b"load" | b"store" => Line::Translate(parse_access(word, rest)?),
        b"read" => {
            let [number, word] = numbers(rest)?;
            register_line(number, Action::Read, word)?
        }
        b"write" => {
            let [number, value, word] = numbers(rest)?;
            register_line(number, Action::Write(value), word)?
        }
        b"set" => {
            let [number, value, writes, word] = numbers(rest)?;
            let writes = flag(writes, "WRITES")?;
            register_line(number, Action::Set { value, writes }, word)?
        }
        b"clear" => {
            let [number, value, writes, word] = numbers(rest)?;
            let writes = flag(writes, "WRITES")?;
            register_line(number, Action::Clear { value, writes }, word)?
        }
        b"trap" => parse_trap(rest)?,
        b"ecall" => alone(Line::Ecall, rest)?,
        b"ebreak" => alone(Line::Ebreak, rest)?,
        b"mret" => parse_instruction(Instruction::Mret, rest)?,
        b"sret" => parse_instruction(Instruction::Sret, rest)?,
        b"wfi" => parse_instruction(Instruction::Wfi, rest)?,
        b"sfence.vma" => parse_instruction(Instruction::SfenceVma, rest)?,
        b"hfence.vvma" => parse_instruction(Instruction::HfenceVvma, rest)?,
        b"hfence.gvma" => parse_instruction(Instruction::HfenceGvma, rest)?,
        b"interrupt" => alone(Line::Interrupt, rest)?,
        b"hlv" => {
            let [width, signed, address, word] = numbers(rest)?;
            let signed = flag(signed, "SIGNED")?;
            guest_line(Operation::Load { signed }, width, address, word)?
        }
        b"hlvx" => {
            let [width, address, word] = numbers(rest)?;
            guest_line(Operation::LoadExecutable, width, address, word)?
        }
        b"hsv" => {
            let [width, address, value, word] = numbers(rest)?;
            guest_line(Operation::Store { value }, width, address, word)?
        }
        b"start" if STEPS => {
            let (kind, rest) = next_word(rest);
            Line::Start(parse_access(kind, rest)?)
        }
        b"press" if STEPS => alone(Line::Press, rest)?,
        b"show" => alone(Line::Show, rest)?,
        _ => return Err(Bad(format!("the word {} is unknown", shown(word)))),
    };
    Ok(Some(parsed))
}

/// An access: its kind, and the rest of the line.
fn parse_access(kind: &[u8], rest: &[u8]) -> Result<Access, Bad> {
    let kind = match kind {
        b"fetch" => Kind::Fetch,
        b"load" => Kind::Load,
        b"store" => Kind::Store,
        _ => {
            let shown = shown(kind);
            return Err(Bad(format!(
                "KIND is {shown}, none of fetch, load and store"
            )));
        }
    };
    let [address, width] = numbers(rest)?;
    Ok(Access {
        kind,
        address,
        width,
    })
}

/// The rest of a `trap` line.
fn parse_trap(rest: &[u8]) -> Result<Line, Bad> {
    let [cause, value, second, word, flag_number] = numbers(rest)?;
    let flag = flag(flag_number, "FLAG")?;
    Ok(Line::Trap(Trap {
        cause,
        value,
        second,
        word,
        flag,
    }))
}

/// The line of a register access with this WORD.
fn register_line(number: u64, action: Action, word: u64) -> Result<Line, Bad> {
    let word = instruction_word(word)?;
    Ok(Line::Register {
        number,
        action,
        word,
    })
}

/// The rest of a line with a return, WFI or a fence.
fn parse_instruction(instruction: Instruction, rest: &[u8]) -> Result<Line, Bad> {
    let [word] = numbers(rest)?;
    let word = instruction_word(word)?;
    Ok(Line::Instruction { instruction, word })
}

/// The line of a hypervisor load or store with this WORD.
fn guest_line(operation: Operation, width: u64, address: u64, word: u64) -> Result<Line, Bad> {
    let access = GuestAccess {
        operation,
        address,
        width,
    };
    let word = instruction_word(word)?;
    Ok(Line::Guest { access, word })
}

/// A line that is its word alone.
fn alone(line: Line, rest: &[u8]) -> Result<Line, Bad> {
    let [] = numbers(rest)?;
    Ok(line)
}

/// The rest of a `file` line: BASE, a blank, and PATH, which is all the rest of the line without the blanks around it. A `#`
/// in PATH is part of it.
fn parse_file(rest: &[u8]) -> Result<Line, Bad> {
    let (base_word, after) = next_word(rest);
    let [base] = numbers(base_word)?;
    let path = match after.first() {
        Some(byte) if is_blank(*byte) => trimmed(after),
        _ => &[],
    };
    if path.is_empty() {
        return Err(Bad("the path of the file is missing".to_string()));
    }
    Ok(Line::File {
        base,
        path: path.to_vec(),
    })
}

// Performing a line.

/// What a script has set up so far: the hart and the image of the next event, and the place of the next press.
#[derive(Clone, PartialEq, Eq, Debug)]
pub struct Session {
    /// The hart.
    pub hart: Hart,
    /// The image.
    pub image: Image,
    /// The place, after the first `start`.
    pub place: Option<Place>,
    /// The folder that the paths of `file` lines start from.
    folder: PathBuf,
}

impl Session {
    /// The session before the first line: `hart 0 3 0`, an image of base 0 and length 0.
    pub fn new(folder: PathBuf) -> Session {
        Session {
            hart: Hart::new(0, 3, 0),
            image: Image::default(),
            place: None,
            folder,
        }
    }

    /// Performs one line.
    pub fn perform(&mut self, line: &Line) -> Result<Answer, Bad> {
        match line {
            Line::Image { base, length } => {
                self.image = zero_image(*base, *length)?;
                Ok(Answer::Nothing)
            }
            Line::File { base, path } => {
                self.image = self.file_image(*base, path)?;
                Ok(Answer::Nothing)
            }
            Line::Put { address, value } => self.put(*address, *value),
            Line::Hart { v, privilege, pc } => {
                self.hart = Hart::new(*v, *privilege, *pc);
                Ok(Answer::Nothing)
            }
            Line::Reg { number, value } => self.reg(*number, *value),
            Line::Translate(access) => {
                let translation = translate(&self.hart, &self.image, access);
                Ok(Answer::Translation(Box::new(translation)))
            }
            Line::Register {
                number,
                action,
                word,
            } => {
                let accessed = access(&self.hart, *number, *action, *word);
                self.hart = accessed.outcome.hart;
                Ok(Answer::Register(accessed))
            }
            Line::Trap(trap) => Ok(self.hand_on(request(&self.hart, trap))),
            Line::Ecall => Ok(self.hand_on(ecall(&self.hart))),
            Line::Ebreak => Ok(self.hand_on(ebreak(&self.hart))),
            Line::Instruction { instruction, word } => {
                let outcome = perform_instruction(&self.hart, *instruction, *word);
                Ok(self.hand_on(outcome))
            }
            Line::Interrupt => Ok(self.hand_on(interrupt(&self.hart))),
            Line::Guest { access, word } => {
                let reached = reach(&self.hart, &mut self.image, access, *word);
                self.hart = reached.outcome.hart;
                Ok(Answer::Guest(Box::new(reached)))
            }
            Line::Start(access) => Ok(self.start(access)),
            Line::Press => self.press(),
            Line::Show => Ok(Answer::Hart(self.hart)),
        }
    }

    /// `start`: "A new place for the hart and image as they are now."
    fn start(&mut self, access: &Access) -> Answer {
        let place = start(&self.hart, &self.image, access);
        self.place = Some(place);
        Answer::Started(Box::new(place))
    }

    /// `press`: "The image of a press is the script's image at that moment".
    fn press(&mut self) -> Result<Answer, Bad> {
        let Some(place) = &self.place else {
            return Err(Bad("a press needs a start before it".to_string()));
        };
        let pressed = press(place, &self.image);
        self.place = Some(pressed.place);
        Ok(Answer::Pressed(Box::new(pressed)))
    }

    /// "The hart after an event is the hart of the next one."
    fn hand_on(&mut self, outcome: Outcome) -> Answer {
        self.hart = outcome.hart;
        Answer::Event(outcome)
    }

    /// `put`: eight bytes of the image.
    fn put(&mut self, address: u64, value: u64) -> Result<Answer, Bad> {
        if self.image.put(Machine(address), value) {
            Ok(Answer::Nothing)
        } else {
            Err(Bad(format!(
                "the eight bytes at {address:x} do not lie in the image"
            )))
        }
    }

    /// `reg`: "the stored register NUMBER holds exactly VALUE".
    fn reg(&mut self, number: u64, value: u64) -> Result<Answer, Bad> {
        match self.hart.stored_mut(number) {
            Some(place) => {
                *place = value;
                Ok(Answer::Nothing)
            }
            None => Err(Bad(format!("{number:x} names no stored register"))),
        }
    }

    /// `file`: an image of the bytes of a file.
    fn file_image(&self, base: u64, path: &[u8]) -> Result<Image, Bad> {
        let path_on_disk = self.folder.join(path_of(path));
        let unreadable =
            |error: io::Error| Bad(format!("the file {} can't be read: {error}", shown(path)));
        let file = File::open(path_on_disk).map_err(unreadable)?;
        let mut bytes = Vec::new();
        file.take(IMAGE_LIMIT + 1)
            .read_to_end(&mut bytes)
            .map_err(unreadable)?;
        if bytes.len() as u64 > IMAGE_LIMIT {
            return Err(Bad(format!(
                "the file {} is larger than {IMAGE_LIMIT:x} bytes",
                shown(path)
            )));
        }
        Ok(Image { base, bytes })
    }
}

/// The events of returns, WFI and the fences.
fn perform_instruction(hart: &Hart, instruction: Instruction, word: u32) -> Outcome {
    let event = match instruction {
        Instruction::Mret => mret,
        Instruction::Sret => sret,
        Instruction::Wfi => wfi,
        Instruction::SfenceVma => sfence_vma,
        Instruction::HfenceVvma => hfence_vvma,
        Instruction::HfenceGvma => hfence_gvma,
    };
    event(hart, word)
}

/// `image`: zero bytes.
fn zero_image(base: u64, length: u64) -> Result<Image, Bad> {
    let too_large = || Bad(format!("an image of {length:x} bytes can't be held"));
    if length > IMAGE_LIMIT {
        return Err(too_large());
    }
    let length = usize::try_from(length).map_err(|_| too_large())?;
    // Asking first whether the memory can be had: where it can't, `vec!` would end the program.
    let mut asked: Vec<u8> = Vec::new();
    asked.try_reserve_exact(length).map_err(|_| too_large())?;
    drop(std::hint::black_box(asked));
    let bytes = vec![0; length];
    Ok(Image { base, bytes })
}

/// The path that these bytes name.
#[cfg(unix)]
fn path_of(bytes: &[u8]) -> PathBuf {
    use std::os::unix::ffi::OsStrExt;
    PathBuf::from(std::ffi::OsStr::from_bytes(bytes))
}

/// The path that these bytes name.
#[cfg(not(unix))]
fn path_of(bytes: &[u8]) -> PathBuf {
    PathBuf::from(String::from_utf8_lossy(bytes).into_owned())
}

// Writing an answer.

/// Writes the answer of a line.
fn write_answer<W: Write>(output: &mut W, answer: &Answer) -> io::Result<()> {
    match answer {
        Answer::Nothing => Ok(()),
        Answer::Translation(translation) => write_translation(output, translation),
        Answer::Register(accessed) => match accessed.outcome.ending {
            Ending::Refused(number) => writeln!(output, "refused {number:x}"),
            Ending::Trapped(..) | Ending::Done => writeln!(output, "value {:x}", accessed.old),
        },
        Answer::Event(outcome) => match outcome.ending {
            Ending::Refused(number) => writeln!(output, "refused {number:x}"),
            Ending::Trapped(..) | Ending::Done => writeln!(output, "ok"),
        },
        Answer::Guest(reached) => write_reached(output, reached),
        Answer::Started(place) => write_state(output, place),
        Answer::Pressed(pressed) => write_pressed(output, pressed),
        Answer::Hart(hart) => write_hart(output, hart),
    }
}

/// Writes what the word of an event is, and the reason of an answer that has one.
fn write_reasons<W: Write>(output: &mut W, line: &Line, answer: &Answer) -> io::Result<()> {
    if let Some(word) = Explanation::of(line) {
        writeln!(output, "# word: {word}")?;
    }
    if let Some(reason) = answer.reason() {
        writeln!(output, "# why: {reason}")?;
    }
    Ok(())
}

/// The answer of a translation and its list.
fn write_translation<W: Write>(output: &mut W, translation: &Translation) -> io::Result<()> {
    write_end(output, &translation.answer)?;
    write_list(output, &translation.list)
}

/// What a translation or a place ended with.
fn write_end<W: Write>(output: &mut W, answer: &walk::Answer) -> io::Result<()> {
    match answer {
        walk::Answer::Address(address) => writeln!(output, "address {:x}", address.0),
        walk::Answer::Refused(number) => writeln!(output, "refused {number:x}"),
        walk::Answer::Fault(trap) => writeln!(
            output,
            "fault {:x} {:x} {:x} {:x} {:x}",
            trap.cause,
            trap.value,
            trap.second,
            trap.word,
            u8::from(trap.flag)
        ),
    }
}

/// "`going`, or its end answer".
fn write_state<W: Write>(output: &mut W, place: &Place) -> io::Result<()> {
    match place.state {
        State::Going(_) => writeln!(output, "going"),
        State::Finished(end) => write_end(output, &end.answer),
    }
}

/// "`refused N`; else the `read` line of the entry shown, if one was, and then `going` or the end answer".
fn write_pressed<W: Write>(output: &mut W, pressed: &Pressed) -> io::Result<()> {
    if let Some(refusal) = pressed.refusal {
        return writeln!(output, "refused {:x}", refusal.number());
    }
    if let Some(read) = &pressed.shown {
        write_read(output, read)?;
    }
    write_state(output, &pressed.place)
}

/// The answer of a hypervisor load or store and its list.
fn write_reached<W: Write>(output: &mut W, reached: &Reached) -> io::Result<()> {
    match (reached.outcome.ending, reached.value) {
        (Ending::Refused(number), _) => writeln!(output, "refused {number:x}")?,
        (Ending::Trapped(..) | Ending::Done, Some(value)) => writeln!(output, "value {value:x}")?,
        (Ending::Trapped(..) | Ending::Done, None) => writeln!(output, "ok")?,
    }
    write_list(output, &reached.list)
}

/// One line for each item of a list.
fn write_list<W: Write>(output: &mut W, list: &List) -> io::Result<()> {
    for read in list.items() {
        write_read(output, read)?;
    }
    Ok(())
}

/// The line of one item.
fn write_read<W: Write>(output: &mut W, read: &walk::Read) -> io::Result<()> {
    writeln!(
        output,
        "read {:x} {:x} {:x} {:x}",
        read.stage, read.level, read.address, read.value
    )
}

/// The hart, as a script.
fn write_hart<W: Write>(output: &mut W, hart: &Hart) -> io::Result<()> {
    writeln!(
        output,
        "hart {:x} {:x} {:x}",
        hart.v, hart.privilege, hart.pc
    )?;
    for (row, content) in hart.registers() {
        writeln!(output, "reg {:x} {content:x}", row.number)?;
    }
    Ok(())
}

// Running a script.

/// How a script ended.
#[derive(Clone, PartialEq, Eq, Debug)]
pub enum End {
    /// At its last line.
    Whole,
    /// At a bad line; `error LINE` has been written.
    Bad {
        /// The line's number, from 1.
        line: u64,
        /// Why: a sentence.
        reason: String,
    },
}

/// What kept a run from its end.
#[derive(Debug)]
pub enum Trouble {
    /// The script can't be read.
    Input(io::Error),
    /// The answers can't be written.
    Output(io::Error),
}

/// What a run writes.
#[derive(Clone, Copy, PartialEq, Eq, Debug)]
pub enum Writing {
    /// The answers.
    Answers,
    /// The answers, each with what its word is and with its reason, where it has them.
    Reasons,
}

impl Writing {
    /// Writes what there is to write about one line and its answer.
    pub fn write<W: Write>(self, output: &mut W, line: &Line, answer: &Answer) -> io::Result<()> {
        write_answer(output, answer)?;
        match self {
            Writing::Answers => Ok(()),
            Writing::Reasons => write_reasons(output, line, answer),
        }
    }
}

/// Runs a script: reads it from `input` and writes its answers to `output`.
pub fn run<R: Read, W: Write>(
    session: &mut Session,
    writing: Writing,
    input: R,
    output: &mut W,
) -> Result<End, Trouble> {
    run_by(Session::perform, session, writing, input, output)
}

/// What is done with a line: [`Session::perform`], or an altered copy of it.
pub type Perform = fn(&mut Session, &Line) -> Result<Answer, Bad>;

/// Runs a script with `perform` for its lines. An answer does not wait for the next line: before the input is asked for more,
/// what has been answered is written out.
pub fn run_by<R: Read, W: Write>(
    perform: Perform,
    session: &mut Session,
    writing: Writing,
    input: R,
    output: &mut W,
) -> Result<End, Trouble> {
    let mut lines = Lines::new(input);
    let mut number = 0u64;
    loop {
        let Some(line) = lines.next(|| output.flush())? else {
            output.flush().map_err(Trouble::Output)?;
            return Ok(End::Whole);
        };
        number = number.wrapping_add(1);
        match line.and_then(|line| run_line(perform, session, writing, line, output)) {
            Ok(written) => written.map_err(Trouble::Output)?,
            Err(Bad(reason)) => {
                writeln!(output, "error {number:x}").map_err(Trouble::Output)?;
                output.flush().map_err(Trouble::Output)?;
                return Ok(End::Bad {
                    line: number,
                    reason,
                });
            }
        }
    }
}

/// Reads and performs one line, and writes what there is to write about it.
fn run_line<W: Write>(
    perform: Perform,
    session: &mut Session,
    writing: Writing,
    line: &[u8],
    output: &mut W,
) -> Result<io::Result<()>, Bad> {
    let Some(line) = parse(line)? else {
        return Ok(Ok(()));
    };
    let answer = perform(session, &line)?;
    Ok(writing.write(output, &line, &answer))
}

#[cfg(test)]
#[path = "script_tests.rs"]
pub(crate) mod tests;
