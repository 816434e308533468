//! Runs a script: one line after the other, an answer for each event.

use crate::explain::Explainer;
use crate::happened::{Came, Happened};
use crate::input::{Lines, Stop};
use crate::scene::Scene;
use crate::script::{self, Action, Command, Event, GuestAccess, Instruction, Mistake, Transfer};
use balcumentri::{Answer, Hart, Outcome, Read, Translation};
use std::ffi::OsStr;
use std::io::{self, Write};
use std::os::unix::ffi::OsStrExt;
use std::path::Path;

/// Runs a script to its end, or to its first bad line. The paths of its `file` lines start from the folder.
pub fn run(
    script: impl io::Read,
    folder: &Path,
    explainer: Option<Explainer>,
    out: &mut impl Write,
) -> Result<(), Stop> {
    let mut scene = Scene::new();
    let mut lines = Lines::new(script);
    while lines.advance(out)? {
        let line = lines.line();
        match script::parse(line).map_err(|mistake| lines.bad(mistake))? {
            None => {}
            Some(Command::Event(event)) => {
                let before = scene.hart;
                let overwritten = match explainer {
                    Some(_) => overwritten(&event, &scene),
                    None => 0,
                };
                let came = perform(&event, &mut scene);
                write_answer(out, &came, &scene.hart).map_err(Stop::Answers)?;
                if let Some(explainer) = &explainer {
                    let happened = Happened {
                        line: lines.number(),
                        text: script::text(line),
                        event: &event,
                        came: &came,
                        before: &before,
                        after: &scene.hart,
                        image: scene.image(),
                        overwritten,
                    };
                    explainer.explain(out, &happened).map_err(Stop::Answers)?;
                }
            }
            Some(command) => {
                let set = prepare(command, line, &mut scene, folder);
                set.map_err(|mistake| lines.bad(mistake))?;
            }
        }
    }
    Ok(())
}

/// Performs a line that sets the scene.
fn prepare(command: Command, line: &[u8], scene: &mut Scene, folder: &Path) -> Result<(), Mistake> {
    let wrong = |word| move |sentence: String| Mistake::at(script::offset(line, word), sentence);
    match command {
        Command::Image { base, length } => scene.clear_image(base, length).map_err(wrong(2)),
        Command::File { base, path, at } => {
            let loaded = scene.load_image(base, folder, Path::new(OsStr::from_bytes(path)));
            loaded.map_err(|sentence| Mistake::at(at, sentence))
        }
        Command::Put { address, value } => scene.put(address, value).map_err(wrong(1)),
        Command::Reg { number, value } => scene.hold(number, value).map_err(wrong(1)),
        Command::Hart { v, privilege, pc } => {
            scene.hart = Hart::new(v, privilege, pc);
            Ok(())
        }
        Command::Event(_) => Ok(()),
    }
}

/// Performs an event.
fn perform(event: &Event, scene: &mut Scene) -> Came {
    let before = scene.hart;
    let hart = &mut scene.hart;
    match *event {
        Event::Translate(access) => {
            Came::Translated(Box::new(before.translate(scene.image(), access)))
        }
        Event::Register(number, action, word) => Came::Accessed(match action {
            Action::Read => hart.read(number, word),
            Action::Write(value) => hart.write(number, value, word),
            Action::Set(value, writes) => hart.set(number, value, writes, word),
            Action::Clear(value, writes) => hart.clear(number, value, writes, word),
        }),
        Event::Trap(fault) => Came::Stepped(hart.trap(fault)),
        Event::Ecall => Came::Stepped(hart.ecall()),
        Event::Ebreak => Came::Stepped(hart.ebreak()),
        Event::Perform(instruction, word) => Came::Stepped(match instruction {
            Instruction::Mret => hart.mret(word),
            Instruction::Sret => hart.sret(word),
            Instruction::Wfi => hart.wfi(word),
            Instruction::SfenceVma => hart.sfence_vma(word),
            Instruction::HfenceVvma => hart.hfence_vvma(word),
            Instruction::HfenceGvma => hart.hfence_gvma(word),
        }),
        Event::Guest(access, word) => perform_guest(access, word, scene),
        Event::Interrupt => Came::Stepped(hart.interrupt()),
        Event::Show => Came::Shown,
    }
}

/// Performs a hypervisor load or store.
fn perform_guest(access: GuestAccess, word: u32, scene: &mut Scene) -> Came {
    let GuestAccess {
        transfer,
        width,
        address,
    } = access;
    let (hart, mut image) = scene.parts();
    match transfer {
        Transfer::Load { signed } => {
            let loaded = hart.hlv(image.as_image(), width, signed, address, word);
            Came::Loaded(Box::new(loaded))
        }
        Transfer::LoadX => {
            let loaded = hart.hlvx(image.as_image(), width, address, word);
            Came::Loaded(Box::new(loaded))
        }
        Transfer::Store { value } => {
            let stored = hart.hsv(&mut image, width, address, value, word);
            Came::Stored(Box::new(stored))
        }
    }
}

/// What is there where an HSV will store, if it is done: what an HLV loads. Wherever the one may store the other may load, since
/// W needs R. Of any other event 0.
fn overwritten(event: &Event, scene: &Scene) -> u64 {
    match *event {
        Event::Guest(access, word) if matches!(access.transfer, Transfer::Store { .. }) => {
            let (mut hart, image) = (scene.hart, scene.image());
            let there = hart.hlv(image, access.width, false, access.address, word);
            there.value
        }
        _ => 0,
    }
}

/// Writes an event's answer.
fn write_answer(out: &mut impl Write, came: &Came, hart: &Hart) -> io::Result<()> {
    match came {
        Came::Translated(translation) => write_translation(out, translation),
        Came::Accessed(accessed) => write_value(out, accessed.outcome, accessed.value),
        Came::Loaded(loaded) => {
            write_value(out, loaded.outcome, loaded.value)?;
            write_reads(out, loaded.reads())
        }
        Came::Stored(stored) => {
            write_step(out, stored.outcome)?;
            write_reads(out, stored.reads())
        }
        Came::Stepped(outcome) => write_step(out, *outcome),
        Came::Shown => write_hart(out, hart),
    }
}

/// What an event that answers a value came to.
fn write_value(out: &mut impl Write, outcome: Outcome, value: u64) -> io::Result<()> {
    match outcome {
        Outcome::Refused(number) => writeln!(out, "refused {number:x}"),
        _ => writeln!(out, "value {value:x}"),
    }
}

/// What an event that answers no value came to.
fn write_step(out: &mut impl Write, outcome: Outcome) -> io::Result<()> {
    match outcome {
        Outcome::Refused(number) => writeln!(out, "refused {number:x}"),
        _ => writeln!(out, "ok"),
    }
}

fn write_translation(out: &mut impl Write, translation: &Translation) -> io::Result<()> {
    match translation.answer() {
        Answer::Address(address) => writeln!(out, "address {address:x}")?,
        Answer::Refused(number) => writeln!(out, "refused {number:x}")?,
        Answer::Fault(fault) => writeln!(
            out,
            "fault {:x} {:x} {:x} {:x} {:x}",
            fault.cause,
            fault.value,
            fault.second,
            fault.word,
            u64::from(fault.flag)
        )?,
    }
    write_reads(out, translation.reads())
}

/// The list.
fn write_reads(out: &mut impl Write, reads: &[Read]) -> io::Result<()> {
    for read in reads {
        writeln!(
            out,
            "read {:x} {:x} {:x} {:x}",
            read.stage, read.level, read.address, read.value
        )?;
    }
    Ok(())
}

/// The hart, as a script.
fn write_hart(out: &mut impl Write, hart: &Hart) -> io::Result<()> {
    let (v, privilege, pc) = (hart.v(), hart.privilege(), hart.pc());
    writeln!(out, "hart {v:x} {privilege:x} {pc:x}")?;
    for (number, value) in hart.registers() {
        writeln!(out, "reg {number:x} {value:x}")?;
    }
    Ok(())
}
