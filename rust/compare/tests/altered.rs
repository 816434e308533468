//! The comparer against deliberately altered copies of the model, in this process: each must be caught, and the script that
//! shows it shrunk to a few lines. Among them are the slips that document 01 names.

use std::cmp::Ordering;
use std::collections::BTreeSet;
use std::io;
use std::path::{Path, PathBuf};

use compare::comparing::{compare, Difference, Failure, Options, FULL_RUN};
use compare::coverage::depths;
use compare::coverage::guest::Case;
use compare::coverage::numbers::{self, LAST};
use compare::coverage::Coverage;
use compare::coverage::{ending_rules, event_word, Ended, Meeting};
use compare::generate::{depths_script, guest_script, numbers_script, words_script};
use compare::program::{model, Folder, InProcess, Outcome, Perform, Program, Script, Status};
use compare::tables::sign_extended;
use compare::words::Fields;
use second::access::Action;
use second::address::{GuestPhysical, Machine};
use second::bits::{bit, with_bit, with_field};
use second::hart::{BadHart, Hart, Mode};
use second::hypervisor::{GuestAccess, Operation, Reached};
use second::image::{BadImage, Image};
use second::interrupts::{self, Rule as LevelRule};
use second::lines::LONGEST_LINE;
use second::reasons::Reason;
use second::registers::{
    mpp, Level, Row, Wrong, HGATP, HGEIE, HGEIP, HIP, HSTATUS_GVA, HU, HVIP, MIDELEG, MIE, MIP,
    MPRV, MPV, MSTATUS_GVA, MXR, ROWS, SATP, SIE, SIE_REGISTER, SIP, SPP, SPV, SPVP, SUM, VSATP,
    VSIE,
};
use second::script::{parse, Answer, Bad, Line, Session, Writing};
use second::trap::{
    self, deliver, deliver_to, illegal, virtual_instruction, BadRequest, Control, Ending,
    Forbidden, Refusal, Target, Trap, INTERRUPT_BIT,
};
use second::walk::{
    self, effective_mode, first_stage_takes, Access, BadAccess, Kind, Part, Rule, Why,
};
use second::word::Explanation;

/// Compares the model with an altered copy over at most this many events.
fn find(perform: Perform, events: u64) -> Option<Difference> {
    let folder = Folder::new().unwrap();
    let first = InProcess {
        name: "altered",
        perform,
        folder: &folder,
    };
    let second = InProcess {
        name: "the model",
        perform: model,
        folder: &folder,
    };
    compare_in(&folder, &first, &second, events)
}

fn compare_in(
    folder: &Folder,
    first: &dyn Program,
    second: &dyn Program,
    events: u64,
) -> Option<Difference> {
    let options = Options { events, seed: 42 };
    match compare(first, second, &options, folder.path()) {
        Ok(_) => None,
        Err(Failure::Different(difference)) => Some(*difference),
        Err(Failure::NotRun(name, error)) => panic!("{name}: {error}"),
    }
}

/// Checks that one script, made of a seed, shows each slip.
fn shown_by(make: fn(u64, &Path) -> (Script, Coverage), slips: &[(&str, Perform)]) {
    let folder = Folder::new().unwrap();
    let (script, _) = make(42, folder.path());
    let run = |perform| {
        let program = InProcess {
            name: "",
            perform,
            folder: &folder,
        };
        program.run(&script).unwrap()
    };
    let expected = run(model);
    for (slip, perform) in slips {
        assert_ne!(run(*perform), expected, "{slip}");
    }
}

/// Checks that an altered copy is caught within 50,000 events, by a script of at most `lines` lines none of which can go.
fn caught(perform: Perform, lines: usize) -> Difference {
    let difference = find(perform, 50_000).expect("the altered copy is caught");
    assert!(
        difference.script.lines.len() <= lines,
        "not small enough: {difference}"
    );
    assert_ne!(difference.first, difference.second);
    let folder = Folder::new().unwrap();
    let run = |perform, script: &Script| {
        let program = InProcess {
            name: "",
            perform,
            folder: &folder,
        };
        program.run(script).unwrap()
    };
    for place in 0..difference.script.lines.len() {
        let mut fewer = difference.script.lines.clone();
        fewer.remove(place);
        let script = difference.script.with_lines(fewer);
        assert_eq!(
            run(perform, &script),
            run(model, &script),
            "line {place} can go: {difference}"
        );
    }
    difference
}

/// The model with another hart for this one line. The hart of the next line is the one that was there.
fn with_other_hart(
    session: &mut Session,
    line: &Line,
    change: fn(&mut Hart),
) -> Result<Answer, Bad> {
    let hart = session.hart;
    change(&mut session.hart);
    let answer = session.perform(line);
    session.hart = hart;
    answer
}

#[test]
fn the_model_does_not_differ_from_itself() {
    assert_eq!(find(model, 20_000), None);
}

#[test]
fn a_copy_that_forgets_sum() {
    fn forgets_sum(session: &mut Session, line: &Line) -> Result<Answer, Bad> {
        match line {
            Line::Translate(_) => with_other_hart(session, line, |hart| {
                hart.mstatus |= 1 << SUM;
                hart.vsstatus |= 1 << SUM;
            }),
            _ => session.perform(line),
        }
    }
    let difference = caught(forgets_sum, 20);
    let output = String::from_utf8(difference.second.output).unwrap();
    let page_fault = output.starts_with("fault d ") || output.starts_with("fault f ");
    assert!(page_fault, "{output}");
}

#[test]
fn a_copy_that_swaps_sum() {
    fn swaps_sum(session: &mut Session, line: &Line) -> Result<Answer, Bad> {
        match line {
            Line::Translate(_) => with_other_hart(session, line, |hart| {
                let host = bit(hart.mstatus, SUM);
                hart.mstatus = with_bit(hart.mstatus, SUM, bit(hart.vsstatus, SUM));
                hart.vsstatus = with_bit(hart.vsstatus, SUM, host);
            }),
            _ => session.perform(line),
        }
    }
    caught(swaps_sum, 20);
}

#[test]
fn a_copy_with_a_second_stage_root_of_4_kib() {
    /// With vsatp Bare the address is the guest physical one: without bits 40:39 it finds what a small root finds.
    fn small_root(session: &mut Session, line: &Line) -> Result<Answer, Bad> {
        if let Line::Translate(access) = line {
            let guest = session.hart.v == 1 && session.hart.vsatp >> 60 == 0;
            let second_stage = session.hart.hgatp >> 60 == 8;
            if guest && second_stage && access.address >> 41 == 0 {
                let address = access.address & !(3 << 39);
                return session.perform(&Line::Translate(Access { address, ..*access }));
            }
        }
        session.perform(line)
    }
    caught(small_root, 12);
}

#[test]
fn a_copy_whose_guest_mxr_opens_second_stage_pages() {
    fn guest_mxr(session: &mut Session, line: &Line) -> Result<Answer, Bad> {
        if let Line::Translate(access) = line {
            let mode = session.hart.checked_mode();
            let v = mode.is_some_and(|mode| effective_mode(&session.hart, mode, access.kind).v());
            if v && bit(session.hart.vsstatus, MXR) {
                return with_other_hart(session, line, |hart| hart.mstatus |= 1 << MXR);
            }
        }
        session.perform(line)
    }
    caught(guest_mxr, 20);
}

#[test]
fn a_copy_that_writes_spvp_on_a_trap_from_hs() {
    fn writes_spvp(session: &mut Session, line: &Line) -> Result<Answer, Bad> {
        let before = session.hart;
        let answer = session.perform(line)?;
        if let Answer::Event(outcome) = answer {
            if matches!(outcome.ending, Ending::Trapped(_, Target::Hs)) && before.v == 0 {
                session.hart.hstatus = with_bit(session.hart.hstatus, SPVP, before.privilege == 1);
            }
        }
        Ok(answer)
    }
    caught(writes_spvp, 8);
}

#[test]
fn a_copy_that_trusts_mpv_when_mpp_is_3() {
    fn trusts_mpv(session: &mut Session, line: &Line) -> Result<Answer, Bad> {
        let before = session.hart;
        let answer = session.perform(line)?;
        if let (Some("mret"), Answer::Event(outcome)) = (event_word(line), &answer) {
            let done = outcome.ending == Ending::Done;
            if done && mpp(before.mstatus) == 3 && bit(before.mstatus, MPV) {
                session.hart.v = 1;
            }
        }
        Ok(answer)
    }
    caught(trusts_mpv, 5);
}

#[test]
fn a_copy_that_swaps_s_and_vs_registers() {
    fn swaps_registers(session: &mut Session, line: &Line) -> Result<Answer, Bad> {
        let is_vs = session.hart.checked_mode() == Some(Mode::Vs);
        if let (true, Line::Register { number, .. }) = (is_vs, line) {
            if matches!(number, 0x140..=0x143) {
                session.hart = session.hart.in_mode(Mode::Hs);
                let answer = session.perform(line);
                session.hart = session.hart.in_mode(Mode::Vs);
                return answer;
            }
        }
        session.perform(line)
    }
    caught(swaps_registers, 8);
}

#[test]
fn a_copy_with_another_order_of_refusals() {
    fn image_first(session: &mut Session, line: &Line) -> Result<Answer, Bad> {
        let answer = session.perform(line)?;
        if let Answer::Translation(mut translation) = answer.clone() {
            if translation.answer == walk::Answer::Refused(2) && session.image.refusal().is_some() {
                translation.answer = walk::Answer::Refused(1);
                return Ok(Answer::Translation(translation));
            }
        }
        Ok(answer)
    }
    caught(image_first, 4);
}

#[test]
fn a_copy_that_refuses_everything() {
    fn refuses(session: &mut Session, line: &Line) -> Result<Answer, Bad> {
        let answer = session.perform(line)?;
        if let Answer::Translation(mut translation) = answer.clone() {
            translation.answer = walk::Answer::Refused(1);
            return Ok(Answer::Translation(translation));
        }
        Ok(answer)
    }
    caught(refuses, 2);
}

#[test]
fn a_copy_that_lists_nothing() {
    fn lists_nothing(session: &mut Session, line: &Line) -> Result<Answer, Bad> {
        let answer = session.perform(line)?;
        if let Answer::Translation(mut translation) = answer.clone() {
            translation.list = walk::List::default();
            return Ok(Answer::Translation(translation));
        }
        Ok(answer)
    }
    caught(lists_nothing, 10);
}

#[test]
fn a_copy_whose_hart_stays_as_it_is() {
    fn stays(session: &mut Session, line: &Line) -> Result<Answer, Bad> {
        let before = session.hart;
        let answer = session.perform(line)?;
        if let Answer::Event(_) = answer {
            session.hart = before;
        }
        Ok(answer)
    }
    caught(stays, 3);
}

/// The model with the fault of a translation on the way to a guest entry changed.
fn with_entry_fault(
    session: &mut Session,
    line: &Line,
    change: fn(&mut Trap),
) -> Result<Answer, Bad> {
    let mut answer = session.perform(line)?;
    if let Answer::Translation(translation) = &mut answer {
        if let walk::Answer::Fault(trap) = &mut translation.answer {
            if trap.word == 0x3000 {
                change(trap);
            }
        }
    }
    Ok(answer)
}

/// "The manual raises the fault of the original access": always a load's, always a store's; and without the word.
#[test]
fn copies_with_a_slip_in_the_fault_of_a_guest_entry() {
    let slips: [Perform; 3] = [
        |session, line| with_entry_fault(session, line, |trap| trap.cause = 21),
        |session, line| with_entry_fault(session, line, |trap| trap.cause = 23),
        |session, line| with_entry_fault(session, line, |trap| trap.word = 0),
    ];
    for slip in slips {
        caught(slip, 16);
    }
}

#[test]
fn a_copy_that_takes_a_bad_line() {
    fn takes_any_register(session: &mut Session, line: &Line) -> Result<Answer, Bad> {
        match line {
            Line::Reg { number: 0x100, .. } => Ok(Answer::Nothing),
            _ => session.perform(line),
        }
    }
    let difference = find(takes_any_register, FULL_RUN).expect("caught");
    assert_eq!(difference.script.lines, [b"reg 100 0"]);
    assert_eq!(difference.first.status, Status::Exit(0));
    assert_eq!(difference.second.status, Status::Exit(1));
}

/// A program that gives the model's outcome changed in a fixed way.
struct Changed<'a, F> {
    folder: &'a Folder,
    change: F,
}

impl<F: Fn(Outcome) -> Outcome> Program for Changed<'_, F> {
    fn name(&self) -> String {
        "changed".to_string()
    }

    fn explains(&self) -> bool {
        true
    }

    fn run(&self, script: &Script) -> io::Result<Outcome> {
        let program = InProcess {
            name: "the model",
            perform: model,
            folder: self.folder,
        };
        Ok((self.change)(program.run(script)?))
    }
}

fn changed(change: impl Fn(Outcome) -> Outcome) -> Difference {
    found_in_changed(change).expect("caught")
}

fn found_in_changed(change: impl Fn(Outcome) -> Outcome) -> Option<Difference> {
    let folder = Folder::new().unwrap();
    let first = Changed {
        folder: &folder,
        change,
    };
    let second = InProcess {
        name: "the model",
        perform: model,
        folder: &folder,
    };
    compare_in(&folder, &first, &second, 5_000)
}

#[test]
fn another_exit_status() {
    let difference = changed(|outcome| Outcome {
        status: match outcome.status {
            Status::Exit(1) => Status::Exit(2),
            other => other,
        },
        ..outcome
    });
    assert_eq!(difference.script.lines.len(), 1);
    assert_eq!(difference.first.output, difference.second.output);
    assert!(difference.to_string().contains("exit status 2"));
}

#[test]
fn a_missing_last_newline() {
    let difference = changed(|mut outcome| {
        outcome.output.pop();
        outcome
    });
    assert_eq!(difference.script.lines.len(), 1);
}

#[test]
fn one_wrong_byte_after_many() {
    let difference = changed(|mut outcome| {
        if let Some(byte) = outcome.output.get_mut(30_000) {
            *byte ^= 1;
        }
        outcome
    });
    // Nothing shorter than 30,000 bytes of output shows it.
    assert_eq!(
        difference.first.output.len(),
        difference.second.output.len()
    );
    assert!(difference.first.output.len() > 30_000);
}

#[test]
fn a_difference_is_told_with_its_script_and_both_outputs() {
    fn other_value(session: &mut Session, line: &Line) -> Result<Answer, Bad> {
        let answer = session.perform(line)?;
        match answer {
            Answer::Register(mut accessed) => {
                accessed.old ^= 1;
                Ok(Answer::Register(accessed))
            }
            other => Ok(other),
        }
    }
    let difference = caught(other_value, 1);
    let text = difference.to_string();
    assert!(
        text.contains("the first program, exit status 0:\n    value 1\n"),
        "{text}"
    );
    assert!(
        text.contains("the second program, exit status 0:\n    value 0\n"),
        "{text}"
    );
}

#[test]
fn a_copy_that_overlooks_one_bit() {
    // No scene but the flips has a hart that passes but for this bit.
    fn overlooks(session: &mut Session, line: &Line) -> Result<Answer, Bad> {
        let mut hart = session.hart;
        hart.privilege &= !(1 << 57);
        if hart.checked_mode().is_some() && *line != Line::Show {
            session.hart = hart;
        }
        session.perform(line)
    }
    let difference = caught(overlooks, 2);
    assert!(difference.second.output.starts_with(b"refused 2\n"));
}

// Copies with a slip in what change request 2026-01 asks for.

/// The model's interrupt with only these bits of mip pending; mip itself stays.
fn with_pending(session: &mut Session, line: &Line, pending: u64) -> Result<Answer, Bad> {
    let mip = session.hart.mip;
    session.hart.mip &= pending;
    let answer = session.perform(line);
    session.hart.mip = mip;
    answer
}

/// The model, where an `interrupt` finds only those pending that `left` leaves of a hart in this mode.
fn interrupt_with(
    session: &mut Session,
    line: &Line,
    left: fn(&Hart, Mode) -> u64,
) -> Result<Answer, Bad> {
    match (line, session.hart.checked_mode()) {
        (Line::Interrupt, Some(mode)) => {
            let pending = left(&session.hart, mode);
            with_pending(session, line, pending)
        }
        _ => session.perform(line),
    }
}

/// The model with another hart after an `interrupt` that was taken into this level.
fn taken_with(
    session: &mut Session,
    line: &Line,
    change: fn(&mut Hart, &Hart, Target),
) -> Result<Answer, Bad> {
    let before = session.hart;
    let answer = session.perform(line)?;
    if let (Line::Interrupt, Answer::Event(outcome)) = (line, &answer) {
        if let Ending::Trapped(_, level) = outcome.ending {
            change(&mut session.hart, &before, level);
        }
    }
    Ok(answer)
}

/// The model with another hart after a write to the register with this number in M or HS.
fn written_with(
    session: &mut Session,
    line: &Line,
    register: u64,
    change: fn(&mut Hart, u64),
) -> Result<Answer, Bad> {
    let v = session.hart.v;
    let answer = session.perform(line)?;
    let (Line::Register { number, action, .. }, Answer::Register(accessed)) = (line, &answer)
    else {
        return Ok(answer);
    };
    if (v, *number) == (0, register) && accessed.outcome.ending == Ending::Done {
        match action {
            Action::Write(value) => change(&mut session.hart, *value),
            Action::Set { value, writes } if *writes => {
                change(&mut session.hart, accessed.old | value);
            }
            Action::Clear { value, writes } if *writes => {
                change(&mut session.hart, accessed.old & !value);
            }
            _ => {}
        }
    }
    Ok(answer)
}

/// The bits of `to` where `mask` has them, else those of `from`.
fn mixed(from: u64, to: u64, mask: u64) -> u64 {
    (from & !mask) | (to & mask)
}

/// The slips in what an interrupt does.
const INTERRUPT_SLIPS: [(&str, Perform); 20] = [
    ("VS before HS", |session, line| {
        interrupt_with(session, line, |hart, mode| {
            let guest = mode == Mode::Vu || (mode == Mode::Vs && bit(hart.vsstatus, SIE));
            let to_m = hart.mip & hart.mie & !hart.mideleg != 0;
            let to_vs = hart.mip & hart.mie & hart.hideleg;
            if guest && !to_m && to_vs != 0 {
                to_vs
            } else {
                u64::MAX
            }
        })
    }),
    ("HS before M", |session, line| {
        interrupt_with(session, line, |hart, mode| {
            let to_hs = hart.mip & hart.mie & hart.mideleg & !hart.hideleg;
            if matches!(mode, Mode::U | Mode::Vu | Mode::Vs) && to_hs != 0 {
                to_hs
            } else {
                u64::MAX
            }
        })
    }),
    ("9 after 1", |session, line| {
        interrupt_with(session, line, |hart, _| {
            let both = |bits: u64| bits & 0x202 == 0x202;
            let one_level = both(hart.mideleg) || both(!hart.mideleg);
            if both(hart.mip & hart.mie) && one_level {
                !0x200
            } else {
                u64::MAX
            }
        })
    }),
    ("mstatus.SIE asked in VS", |session, line| {
        interrupt_with(session, line, |hart, mode| {
            if mode == Mode::Vs && !bit(hart.mstatus, SIE) {
                !hart.mideleg | hart.hideleg
            } else {
                u64::MAX
            }
        })
    }),
    ("mstatus.MIE asked in every mode", |session, line| {
        interrupt_with(session, line, |hart, _| {
            if bit(hart.mstatus, MIE) {
                u64::MAX
            } else {
                hart.mideleg
            }
        })
    }),
    ("VS's taken in HS", |session, line| {
        if *line == Line::Interrupt && session.hart.checked_mode() == Some(Mode::Hs) {
            let to_vs = session.hart.mip & session.hart.mie & session.hart.hideleg;
            let others = session.hart.mip & session.hart.mie & !session.hart.hideleg;
            if to_vs != 0 && others == 0 {
                session.hart.v = 1;
            }
        }
        session.perform(line)
    }),
    ("vsstatus.SIE asked in VU", |session, line| {
        interrupt_with(session, line, |hart, mode| {
            if mode == Mode::Vu && !bit(hart.vsstatus, SIE) {
                !hart.hideleg
            } else {
                u64::MAX
            }
        })
    }),
    ("mie not asked", |session, line| {
        let mie = session.hart.mie;
        let interrupt = *line == Line::Interrupt && session.hart.checked_mode().is_some();
        if interrupt {
            session.hart.mie = 0xeee;
        }
        let answer = session.perform(line);
        if interrupt {
            session.hart.mie = mie;
        }
        answer
    }),
    ("10 written into VS as 10", |session, line| {
        taken_with(session, line, |hart, _, level| {
            if level == Target::Vs && hart.vscause == INTERRUPT_BIT | 9 {
                hart.vscause += 1;
            }
        })
    }),
    ("VS's vector by mip's number", |session, line| {
        taken_with(session, line, |hart, before, level| {
            if level == Target::Vs && bit(before.vstvec, 0) {
                hart.pc = hart.pc.wrapping_add(4);
            }
        })
    }),
    ("the interrupt bit not written into HS", |session, line| {
        taken_with(session, line, |hart, _, level| {
            if level == Target::Hs {
                hart.scause &= !INTERRUPT_BIT;
            }
        })
    }),
    ("a vector that does not wrap", |session, line| {
        taken_with(session, line, |hart, before, level| {
            if level == Target::M && bit(before.mtvec, 0) && hart.pc < before.mtvec & !3 {
                hart.pc = u64::MAX - 3;
            }
        })
    }),
    ("mip cleared by taking", |session, line| {
        taken_with(session, line, |hart, before, level| {
            if level == Target::M {
                hart.mip = before.mip & !(1 << (hart.mcause & 15));
            }
        })
    }),
    ("mtval left as it was", |session, line| {
        taken_with(session, line, |hart, before, level| {
            if level == Target::M {
                hart.mtval = before.mtval;
            }
        })
    }),
    ("hstatus.GVA left as it was", |session, line| {
        taken_with(session, line, |hart, before, level| {
            if level == Target::Hs {
                hart.hstatus = mixed(hart.hstatus, before.hstatus, 1 << 6);
            }
        })
    }),
    ("sepc behind the instruction", |session, line| {
        taken_with(session, line, |hart, _, level| {
            if level == Target::Hs {
                hart.sepc = hart.sepc.wrapping_add(4);
            }
        })
    }),
    ("nothing done", |session, line| {
        let before = session.hart;
        let answer = session.perform(line);
        if *line == Line::Interrupt {
            session.hart = before;
        }
        answer
    }),
    ("pc moved on where none is due", |session, line| {
        let answer = session.perform(line)?;
        if let (Line::Interrupt, Answer::Event(outcome)) = (line, &answer) {
            if outcome.ending == Ending::Done {
                session.hart = session.hart.moved_on();
            }
        }
        Ok(answer)
    }),
    ("an exception vectored", |session, line| {
        let before = session.hart;
        let answer = session.perform(line)?;
        if let Answer::Event(outcome) = &answer {
            if let Ending::Trapped(trap, Target::M) = outcome.ending {
                if bit(before.mtvec, 0) && trap.cause < INTERRUPT_BIT {
                    session.hart.pc = session.hart.pc.wrapping_add(4 * trap.cause);
                }
            }
        }
        Ok(answer)
    }),
    (
        "an interrupt that is never refused",
        |session, line| match (line, session.hart.checked_mode()) {
            (Line::Interrupt, None) => {
                let hart = std::mem::replace(&mut session.hart, Hart::new(0, 3, 0));
                let answer = session.perform(line);
                session.hart = hart;
                answer
            }
            _ => session.perform(line),
        },
    ),
];

/// The slips in the registers of interrupts.
const REGISTER_SLIPS: [(&str, Perform); 14] = [
    ("sip's 5 written", |session, line| {
        written_with(session, line, SIP, |hart, value| {
            hart.mip = mixed(hart.mip, value, hart.mideleg & 0x20);
        })
    }),
    ("mip's 11 written", |session, line| {
        written_with(session, line, MIP, |hart, value| {
            hart.mip = mixed(hart.mip, value, 0x800);
        })
    }),
    ("mip's 6 written", |session, line| {
        written_with(session, line, MIP, |hart, value| {
            hart.mip = mixed(hart.mip, value, 0x40);
        })
    }),
    ("hip's 10 written", |session, line| {
        written_with(session, line, HIP, |hart, value| {
            hart.mip = mixed(hart.mip, value, 0x400);
        })
    }),
    ("hvip's 6 not written", |session, line| {
        let mip = session.hart.mip;
        let answer = session.perform(line);
        if let Line::Register { number: HVIP, .. } = line {
            session.hart.mip = mixed(session.hart.mip, mip, 0x40);
        }
        answer
    }),
    (
        "sie's bits written where mideleg lacks them",
        |session, line| {
            written_with(session, line, SIE_REGISTER, |hart, value| {
                hart.mie = mixed(hart.mie, value, 0x222);
            })
        },
    ),
    ("vsie not gated", |session, line| match line {
        Line::Register { number: VSIE, .. } => gated_by_all(session, line),
        _ => session.perform(line),
    }),
    ("vsip in VS not gated", |session, line| match line {
        Line::Register { number: SIP, .. } if session.hart.v == 1 => gated_by_all(session, line),
        _ => session.perform(line),
    }),
    ("sie in VS is sie", |session, line| {
        let in_vs = session.hart.checked_mode() == Some(Mode::Vs);
        match line {
            Line::Register {
                number: SIE_REGISTER,
                ..
            } if in_vs => {
                session.hart = session.hart.in_mode(Mode::Hs);
                let answer = session.perform(line);
                session.hart = session.hart.in_mode(Mode::Vs);
                answer
            }
            _ => session.perform(line),
        }
    }),
    ("mideleg's 2 not read as one", |session, line| {
        let mut answer = session.perform(line)?;
        if let (
            Line::Register {
                number: MIDELEG, ..
            },
            Answer::Register(accessed),
        ) = (line, &mut answer)
        {
            accessed.old &= !4;
        }
        Ok(answer)
    }),
    ("mideleg's 7 written", |session, line| {
        written_with(session, line, MIDELEG, |hart, value| {
            hart.mideleg = mixed(hart.mideleg, value, 0x80);
        })
    }),
    ("hgeie not written", |session, line| match line {
        // As if it were read-only.
        Line::Register {
            number: HGEIE,
            action,
            word,
        } if action.writes() => session.perform(&Line::Register {
            number: HGEIP,
            action: *action,
            word: *word,
        }),
        _ => session.perform(line),
    }),
    (
        "a hart whose mip has 3, 7 or 11 refused",
        |session, line| {
            let mip = session.hart.mip;
            if *line != Line::Interrupt || mip & 0x888 == 0 {
                return session.perform(line);
            }
            session.hart.mip |= 1;
            let answer = session.perform(line);
            session.hart.mip = mip;
            answer
        },
    ),
    ("a hart whose mideleg lacks 6 taken", |session, line| {
        if *line != Line::Show {
            let mut hart = session.hart;
            hart.mideleg |= 0x40;
            if hart.checked_mode().is_some() {
                session.hart = hart;
            }
        }
        session.perform(line)
    }),
];

/// The model with all of hideleg's bits for this one line.
fn gated_by_all(session: &mut Session, line: &Line) -> Result<Answer, Bad> {
    let hideleg = session.hart.hideleg;
    if session.hart.checked_mode().is_none() {
        return session.perform(line);
    }
    session.hart.hideleg = 0x444;
    let answer = session.perform(line);
    session.hart.hideleg = hideleg;
    answer
}

#[test]
fn copies_with_a_slip_in_interrupts() {
    for (slip, perform) in INTERRUPT_SLIPS {
        println!("{slip}");
        caught(perform, 12);
    }
}

#[test]
fn copies_with_a_slip_in_the_registers_of_interrupts() {
    for (slip, perform) in REGISTER_SLIPS {
        println!("{slip}");
        caught(perform, 12);
    }
}

// Copies with a slip in what change request 2026-02 asks for.

/// The model with another word for this one line.
fn with_other_word(
    session: &mut Session,
    line: &Line,
    other: fn(u32) -> u32,
) -> Result<Answer, Bad> {
    let mut line = line.clone();
    if let Line::Register { word, .. } | Line::Instruction { word, .. } | Line::Guest { word, .. } =
        &mut line
    {
        *word = other(*word);
    }
    session.perform(&line)
}

/// The model with another hart after a line whose event trapped into this target.
fn trapped_with(
    session: &mut Session,
    line: &Line,
    change: fn(&mut Hart, &Hart, &Trap, Target),
) -> Result<Answer, Bad> {
    let before = session.hart;
    let answer = session.perform(line)?;
    let ending = match &answer {
        Answer::Register(accessed) => accessed.outcome.ending,
        Answer::Event(outcome) => outcome.ending,
        Answer::Guest(reached) => reached.outcome.ending,
        _ => return Ok(answer),
    };
    if let Ending::Trapped(trap, target) = ending {
        change(&mut session.hart, &before, &trap, target);
    }
    Ok(answer)
}

/// The same for a trap that has the word as its value.
fn word_with(
    session: &mut Session,
    line: &Line,
    change: fn(&mut Hart, &Hart, &Trap, Target),
) -> Result<Answer, Bad> {
    let before = session.hart;
    let answer = session.perform(line)?;
    let trapped = match (line.word(), &answer) {
        (Some(_), Answer::Register(accessed)) => accessed.outcome.ending,
        (Some(_), Answer::Event(outcome)) => outcome.ending,
        (Some(_), Answer::Guest(reached)) => reached.outcome.ending,
        _ => return Ok(answer),
    };
    match trapped {
        Ending::Trapped(trap, target) if matches!(trap.cause, 2 | 22) => {
            change(&mut session.hart, &before, &trap, target);
        }
        _ => {}
    }
    Ok(answer)
}

/// The tval of a target.
fn tval(hart: &mut Hart, target: Target) -> &mut u64 {
    match target {
        Target::M => &mut hart.mtval,
        Target::Hs => &mut hart.stval,
        Target::Vs => &mut hart.vstval,
    }
}

/// The model without the word of one event, by its place in [`EVENTS`].
fn drops_word<const EVENT: usize>(session: &mut Session, line: &Line) -> Result<Answer, Bad> {
    if event_word(line) == Some(EVENTS[EVENT]) {
        with_other_word(session, line, |_| 0)
    } else {
        session.perform(line)
    }
}

/// The events that have a word.
const EVENTS: [&str; 13] = [
    "read",
    "write",
    "set",
    "clear",
    "mret",
    "sret",
    "wfi",
    "sfence.vma",
    "hfence.vvma",
    "hfence.gvma",
    "hlv",
    "hlvx",
    "hsv",
];

/// The slips in what is done with a word.
const WORD_SLIPS: [(&str, Perform); 45] = [
    ("none of a read", drops_word::<0>),
    ("none of a write", drops_word::<1>),
    ("none of a set", drops_word::<2>),
    ("none of a clear", drops_word::<3>),
    ("none of MRET", drops_word::<4>),
    ("none of SRET", drops_word::<5>),
    ("none of WFI", drops_word::<6>),
    ("none of SFENCE.VMA", drops_word::<7>),
    ("none of HFENCE.VVMA", drops_word::<8>),
    ("none of HFENCE.GVMA", drops_word::<9>),
    ("none of HLV", drops_word::<10>),
    ("none of HLVX", drops_word::<11>),
    ("none of HSV", drops_word::<12>),
    ("its low half", |session, line| {
        with_other_word(session, line, |word| word & 0xffff)
    }),
    ("its high half", |session, line| {
        with_other_word(session, line, |word| word & 0xffff_0000)
    }),
    ("without bit 31", |session, line| {
        with_other_word(session, line, |word| word & 0x7fff_ffff)
    }),
    ("without its two lowest bits", |session, line| {
        with_other_word(session, line, |word| word & !3)
    }),
    ("with its two lowest bits set", |session, line| {
        with_other_word(session, line, |word| word | 3)
    }),
    ("its bytes in another order", |session, line| {
        with_other_word(session, line, u32::swap_bytes)
    }),
    ("shifted left", |session, line| {
        with_other_word(session, line, |word| word << 1)
    }),
    ("shifted right", |session, line| {
        with_other_word(session, line, |word| word >> 2)
    }),
    ("of a SYSTEM instruction alone", |session, line| {
        with_other_word(
            session,
            line,
            |word| {
                if word & 0x7f == 0x73 {
                    word
                } else {
                    0
                }
            },
        )
    }),
    (
        "only where it fits",
        |session, line| match Explanation::of(line) {
            Some(word) if !word.fits => with_other_word(session, line, |_| 0),
            _ => session.perform(line),
        },
    ),
    ("sign-extended", |session, line| {
        word_with(session, line, |hart, _, trap, target| {
            *tval(hart, target) = trap.value as i32 as u64;
        })
    }),
    ("in both halves of tval", |session, line| {
        word_with(session, line, |hart, _, trap, target| {
            *tval(hart, target) = (trap.value << 32) | trap.value;
        })
    }),
    ("with the old high half of tval", |session, line| {
        word_with(session, line, |hart, before, _, target| {
            let old = *tval(&mut before.clone(), target);
            *tval(hart, target) |= old & !0xffff_ffff;
        })
    }),
    ("pc in its place", |session, line| {
        word_with(session, line, |hart, before, _, target| {
            *tval(hart, target) = before.pc;
        })
    }),
    (
        "the register's number in its place",
        |session, line| match line {
            Line::Register { number, action, .. } => session.perform(&Line::Register {
                number: *number,
                action: *action,
                word: *number as u32,
            }),
            _ => session.perform(line),
        },
    ),
    ("not into M", |session, line| {
        word_with(session, line, |hart, _, _, target| {
            if target == Target::M {
                hart.mtval = 0;
            }
        })
    }),
    ("not into HS", |session, line| {
        word_with(session, line, |hart, _, _, target| {
            if target == Target::Hs {
                hart.stval = 0;
            }
        })
    }),
    ("not into VS", |session, line| {
        word_with(session, line, |hart, _, _, target| {
            if target == Target::Vs {
                hart.vstval = 0;
            }
        })
    }),
    ("not with cause 2", |session, line| {
        word_with(session, line, |hart, _, trap, target| {
            if trap.cause == 2 {
                *tval(hart, target) = 0;
            }
        })
    }),
    ("not with cause 22", |session, line| {
        word_with(session, line, |hart, _, trap, target| {
            if trap.cause == 22 {
                *tval(hart, target) = 0;
            }
        })
    }),
    ("not from HS", |session, line| {
        word_with(session, line, |hart, before, _, target| {
            if before.checked_mode() == Some(Mode::Hs) {
                *tval(hart, target) = 0;
            }
        })
    }),
    ("not from M", |session, line| {
        word_with(session, line, |hart, before, _, _| {
            if before.checked_mode() == Some(Mode::M) {
                hart.mtval = 0;
            }
        })
    }),
    ("in every tval", |session, line| {
        word_with(session, line, |hart, _, trap, _| {
            [hart.mtval, hart.stval, hart.vstval] = [trap.value; 3];
        })
    }),
    ("in mtinst too", |session, line| {
        word_with(session, line, |hart, _, trap, target| {
            if target == Target::M {
                hart.mtinst = trap.value;
            }
        })
    }),
    ("in htinst too", |session, line| {
        word_with(session, line, |hart, _, trap, target| {
            if target == Target::Hs {
                hart.htinst = trap.value;
            }
        })
    }),
    ("in mtval2 too", |session, line| {
        word_with(session, line, |hart, _, trap, target| {
            if target == Target::M {
                hart.mtval2 = trap.value;
            }
        })
    }),
    ("in htval too", |session, line| {
        word_with(session, line, |hart, _, trap, target| {
            if target == Target::Hs {
                hart.htval = trap.value >> 2;
            }
        })
    }),
    ("with the flag set in M", |session, line| {
        word_with(session, line, |hart, before, _, target| {
            if target == Target::M && before.v == 1 {
                hart.mstatus |= 1 << MSTATUS_GVA;
            }
        })
    }),
    ("with the flag set in HS", |session, line| {
        word_with(session, line, |hart, before, _, target| {
            if target == Target::Hs && before.v == 1 {
                hart.hstatus |= 1 << HSTATUS_GVA;
            }
        })
    }),
    ("in mtval where it is done", |session, line| {
        let pc = session.hart.pc;
        let answer = session.perform(line);
        if let (Some(word), true) = (line.word(), session.hart.pc == pc.wrapping_add(4)) {
            session.hart.mtval = u64::from(word);
        }
        answer
    }),
    ("in mtval where it is refused", |session, line| {
        if let (Some(word), None) = (line.word(), session.hart.checked_mode()) {
            session.hart.mtval = u64::from(word);
        }
        session.perform(line)
    }),
    (
        "an access that it does not fit is illegal",
        |session, line| match (line, Explanation::of(line)) {
            (Line::Register { action, word, .. }, Some(said)) if !said.fits => {
                session.perform(&Line::Register {
                    number: 0xfff,
                    action: *action,
                    word: *word,
                })
            }
            _ => session.perform(line),
        },
    ),
];

/// The slips in other traps.
const OTHER_SLIPS: [(&str, Perform); 3] = [
    ("ECALL's", |session, line| match line {
        Line::Ecall => trapped_with(session, line, |hart, _, _, target| {
            *tval(hart, target) = 0x73;
        }),
        _ => session.perform(line),
    }),
    ("EBREAK's", |session, line| match line {
        Line::Ebreak => trapped_with(session, line, |hart, _, _, target| {
            *tval(hart, target) = 0x10_0073;
        }),
        _ => session.perform(line),
    }),
    (
        "0 for a trap that is asked for",
        |session, line| match line {
            Line::Trap(_) => trapped_with(session, line, |hart, _, trap, target| {
                if matches!(trap.cause, 2 | 22) {
                    *tval(hart, target) = 0;
                }
            }),
            _ => session.perform(line),
        },
    ),
];

/// The script with everything about words is part of every run: it alone shows each slip in what is done with them.
#[test]
fn copies_with_a_slip_in_words() {
    shown_by(words_script, &WORD_SLIPS);
}

#[test]
fn copies_that_have_words_where_there_are_none() {
    for (slip, perform) in OTHER_SLIPS {
        println!("{slip}");
        caught(perform, 6);
    }
}

#[test]
fn a_copy_that_forgets_words() {
    fn forgets(session: &mut Session, line: &Line) -> Result<Answer, Bad> {
        with_other_word(session, line, |_| 0)
    }
    let difference = caught(forgets, 4);
    let text = String::from_utf8(difference.first.output).unwrap();
    assert!(text.lines().any(|line| line.ends_with("43 0")), "{text}");
}

/// The output with what is said about words changed.
fn with_words(outcome: Outcome, change: fn(&str) -> String) -> Outcome {
    let text = String::from_utf8(outcome.output).unwrap();
    let lines = text.split_inclusive('\n');
    let changed = lines.map(|line| match line.strip_prefix("# word: ") {
        Some(_) => change(line),
        None => line.to_string(),
    });
    Outcome {
        output: changed.collect::<String>().into_bytes(),
        status: outcome.status,
    }
}

#[test]
fn what_is_said_about_words_is_compared() {
    for change in [
        (|_| String::new()) as fn(&str) -> String,
        |said| said.replace(" is ", " does not fit: it is "),
        |said| said.replace("x10", "xa"),
    ] {
        let difference = changed(|outcome| with_words(outcome, change));
        assert!(difference.script.explained);
        assert!(difference.script.lines.len() <= 2, "{difference}");
    }
}

// Copies with a slip in what change request 2026-03 asks for.

/// The model with another hart for a hypervisor load or store that is not refused. What was changed is as it was after it.
fn guest_with_hart(
    session: &mut Session,
    line: &Line,
    change: fn(&mut Hart, Mode),
) -> Result<Answer, Bad> {
    let before = session.hart;
    let (Line::Guest { .. }, Some(mode)) = (line, before.checked_mode()) else {
        return session.perform(line);
    };
    change(&mut session.hart, mode);
    let changed = session.hart;
    let answer = session.perform(line);
    for row in &ROWS {
        let held = [before, changed].map(|hart| hart.stored(row.number));
        if let ([Some(before), Some(changed)], Some(place)) =
            (held, session.hart.stored_mut(row.number))
        {
            *place = mixed(*place, before, before ^ changed);
        }
    }
    answer
}

/// The model with another access in the place of a hypervisor load or store.
fn guest_with_access(
    session: &mut Session,
    line: &Line,
    change: fn(&mut GuestAccess, &Hart),
) -> Result<Answer, Bad> {
    let mut line = line.clone();
    if let Line::Guest { access, .. } = &mut line {
        change(access, &session.hart);
    }
    session.perform(&line)
}

/// The model with another answer of a hypervisor load or store, or another image.
fn guest_with_answer(
    session: &mut Session,
    line: &Line,
    change: fn(&GuestAccess, &mut Reached, &mut Image),
) -> Result<Answer, Bad> {
    let mut answer = session.perform(line)?;
    if let (Line::Guest { access, .. }, Answer::Guest(reached)) = (line, &mut answer) {
        change(access, reached, &mut session.image);
    }
    Ok(answer)
}

/// The model with another hart after the fault of a hypervisor load or store.
fn guest_fault_with(
    session: &mut Session,
    line: &Line,
    change: fn(&mut Hart, &Hart, &Trap, Target),
) -> Result<Answer, Bad> {
    let before = session.hart;
    let answer = session.perform(line)?;
    if let Answer::Guest(reached) = &answer {
        let outcome = &reached.outcome;
        if let (Ending::Trapped(trap, target), Some(Reason::Fault(_))) =
            (outcome.ending, outcome.reason)
        {
            change(&mut session.hart, &before, &trap, target);
        }
    }
    Ok(answer)
}

/// The model with this cause in the place of that of a fault.
fn guest_cause_with(
    session: &mut Session,
    line: &Line,
    other: fn(&GuestAccess, &Trap) -> u64,
) -> Result<Answer, Bad> {
    let before = session.hart;
    let answer = session.perform(line)?;
    if let (Line::Guest { access, .. }, Answer::Guest(reached), Some(mode)) =
        (line, &answer, before.checked_mode())
    {
        if let Ending::Trapped(trap, _) = reached.outcome.ending {
            let cause = other(access, &trap);
            session.hart = deliver(&before, mode, &Trap { cause, ..trap }).0;
        }
    }
    Ok(answer)
}

/// Lets the guest be the hart's own address space.
fn walks_satp(hart: &mut Hart) {
    (hart.vsatp, hart.hgatp) = (hart.satp, 0);
}

/// Whether a hypervisor load or store is HSV.
fn stores(access: &GuestAccess) -> bool {
    matches!(access.operation, Operation::Store { .. })
}

/// The slips in hypervisor loads and stores.
const GUEST_SLIPS: [(&str, Perform); 52] = [
    ("V=0", |session, line| {
        guest_with_hart(session, line, |hart, _| walks_satp(hart))
    }),
    ("privilege SPP", |session, line| {
        guest_with_hart(session, line, |hart, _| {
            hart.hstatus = with_bit(hart.hstatus, SPVP, bit(hart.mstatus, SPP));
        })
    }),
    ("the hart's own privilege", |session, line| {
        guest_with_hart(session, line, |hart, mode| {
            hart.hstatus = with_bit(hart.hstatus, SPVP, mode != Mode::U);
        })
    }),
    ("always VS", |session, line| {
        guest_with_hart(session, line, |hart, _| hart.hstatus |= 1 << SPVP)
    }),
    ("always VU", |session, line| {
        guest_with_hart(session, line, |hart, _| hart.hstatus &= !(1 << SPVP))
    }),
    ("SPVP the other way", |session, line| {
        guest_with_hart(session, line, |hart, _| hart.hstatus ^= 1 << SPVP)
    }),
    ("MPRV obeyed by MPP", |session, line| {
        guest_with_hart(session, line, |hart, _| {
            if bit(hart.mstatus, MPRV) && mpp(hart.mstatus) != 3 {
                hart.hstatus = with_bit(hart.hstatus, SPVP, mpp(hart.mstatus) == 1);
            }
        })
    }),
    ("MPRV obeyed by MPV", |session, line| {
        guest_with_hart(session, line, |hart, _| {
            if bit(hart.mstatus, MPRV) && !bit(hart.mstatus, MPV) {
                walks_satp(hart);
            }
        })
    }),
    ("the first stage alone", |session, line| {
        guest_with_hart(session, line, |hart, _| hart.hgatp = 0)
    }),
    ("the second stage alone", |session, line| {
        guest_with_hart(session, line, |hart, _| hart.vsatp = 0)
    }),
    ("mstatus.SUM", |session, line| {
        guest_with_hart(session, line, |hart, _| {
            hart.vsstatus = with_bit(hart.vsstatus, SUM, bit(hart.mstatus, SUM));
        })
    }),
    ("SUM not asked", |session, line| {
        guest_with_hart(session, line, |hart, _| hart.vsstatus |= 1 << SUM)
    }),
    ("SUM not asked by HLVX", |session, line| match line {
        Line::Guest { access, .. } if access.operation == Operation::LoadExecutable => {
            guest_with_hart(session, line, |hart, _| hart.vsstatus |= 1 << SUM)
        }
        _ => session.perform(line),
    }),
    ("vsstatus.MXR at the second stage", |session, line| {
        guest_with_hart(session, line, |hart, _| {
            hart.mstatus |= hart.vsstatus & (1 << MXR);
        })
    }),
    ("mstatus.MXR nowhere", |session, line| {
        guest_with_hart(session, line, |hart, _| hart.mstatus &= !(1 << MXR))
    }),
    ("vsstatus.MXR nowhere", |session, line| {
        guest_with_hart(session, line, |hart, _| hart.vsstatus &= !(1 << MXR))
    }),
    ("HLVX by R", |session, line| {
        guest_with_access(session, line, |access, _| {
            let taken = matches!(access.width, 2 | 4);
            if access.operation == Operation::LoadExecutable && taken {
                access.operation = Operation::Load { signed: false };
            }
        })
    }),
    ("HLVX by MXR", |session, line| {
        guest_with_access(session, line, |access, hart| {
            let mxr = bit(hart.vsstatus | hart.mstatus, MXR);
            if access.operation == Operation::LoadExecutable && mxr && access.width == 4 {
                access.operation = Operation::Load { signed: false };
            }
        })
    }),
    ("HLVX by R and X", |session, line| {
        let mut tried = session.clone();
        let load = |line: &Line| match line {
            Line::Guest { access, word } if access.operation == Operation::LoadExecutable => {
                let operation = Operation::Load { signed: false };
                let access = GuestAccess {
                    operation,
                    ..*access
                };
                Some(Line::Guest {
                    access,
                    word: *word,
                })
            }
            _ => None,
        };
        let answer = load(line).map(|load| tried.perform(&load));
        match answer {
            Some(Ok(Answer::Guest(reached))) if reached.machine.is_none() => {
                *session = tried;
                Ok(Answer::Guest(reached))
            }
            _ => session.perform(line),
        }
    }),
    ("HLVX sign-extended", |session, line| {
        guest_with_answer(session, line, |access, reached, _| {
            if access.operation == Operation::LoadExecutable {
                reached.value = reached.value.map(|value| match access.width {
                    2 => value as i16 as u64,
                    _ => value as i32 as u64,
                });
            }
        })
    }),
    ("zeros above a signed load", |session, line| {
        guest_with_access(session, line, |access, _| {
            if access.operation == (Operation::Load { signed: true }) {
                access.operation = Operation::Load { signed: false };
            }
        })
    }),
    ("an unsigned load sign-extended", |session, line| {
        guest_with_access(session, line, |access, _| {
            if access.operation == (Operation::Load { signed: false }) {
                access.operation = Operation::Load { signed: true };
            }
        })
    }),
    (
        "a signed load of 4 bytes extended to 32 bits",
        |session, line| {
            guest_with_answer(session, line, |_, reached, _| {
                reached.value = reached.value.map(|value| match value >> 31 {
                    0x1_ffff_ffff => value & 0xffff_ffff,
                    _ => value,
                });
            })
        },
    ),
    ("loaded in another order of bytes", |session, line| {
        guest_with_answer(session, line, |access, reached, _| {
            if access.width == 8 {
                reached.value = reached.value.map(u64::swap_bytes);
            }
        })
    }),
    ("a byte too many stored", |session, line| {
        guest_with_answer(session, line, |access, reached, image| {
            if let (Operation::Store { value }, Some(machine)) = (access.operation, reached.machine)
            {
                let byte = value.checked_shr(8 * access.width as u32).unwrap_or(0);
                image.store(Machine(machine.0 + access.width), 1, byte);
            }
        })
    }),
    ("a byte too few stored", |session, line| {
        let image = session.image.clone();
        let answer = session.perform(line)?;
        if let (Line::Guest { access, .. }, Answer::Guest(reached)) = (line, &answer) {
            if let (true, Some(machine)) = (stores(access), reached.machine) {
                let last = Machine(machine.0 + access.width - 1);
                let byte = image.load(last, 1).unwrap();
                session.image.store(last, 1, byte);
            }
        }
        Ok(answer)
    }),
    ("the byte before cleared", |session, line| {
        guest_with_answer(session, line, |access, reached, image| {
            if let (true, Some(machine)) = (stores(access), reached.machine) {
                image.store(Machine(machine.0.wrapping_sub(1)), 1, 0);
            }
        })
    }),
    ("stored in another order of bytes", |session, line| {
        guest_with_answer(session, line, |access, reached, image| {
            if let (Operation::Store { value }, Some(machine)) = (access.operation, reached.machine)
            {
                let swapped = value.swap_bytes() >> (64 - 8 * access.width);
                image.store(machine, access.width, swapped);
            }
        })
    }),
    ("nothing stored", |session, line| {
        let image = session.image.clone();
        let answer = session.perform(line);
        if let Line::Guest { .. } = line {
            session.image = image;
        }
        answer
    }),
    ("stored before D and W are asked", |session, line| {
        let hart = session.hart;
        let answer = session.perform(line)?;
        if let (Line::Guest { access, .. }, Answer::Guest(reached)) = (line, &answer) {
            let faulted = matches!(reached.outcome.reason, Some(Reason::Fault(_)));
            if let (Operation::Store { value }, true) = (access.operation, faulted) {
                let load = Access {
                    kind: Kind::Load,
                    ..access.access()
                };
                let walked = walk::walk(&hart, &session.image, &load, access.manner(&hart));
                if let Ok(machine) = walked.end {
                    session.image.store(machine, access.width, value);
                }
            }
        }
        Ok(answer)
    }),
    ("stored where it is misaligned", |session, line| {
        let hart = session.hart;
        let answer = session.perform(line)?;
        if let (Line::Guest { access, .. }, Answer::Guest(reached)) = (line, &answer) {
            let misaligned = match reached.outcome.reason {
                Some(Reason::Fault(why)) => why.rule == Rule::Misaligned,
                _ => false,
            };
            if let (Operation::Store { value }, true) = (access.operation, misaligned) {
                let byte = Access {
                    width: 1,
                    ..access.access()
                };
                let walked = walk::walk(&hart, &session.image, &byte, access.manner(&hart));
                if let Ok(machine) = walked.end {
                    session.image.store(machine, access.width, value);
                }
            }
        }
        Ok(answer)
    }),
    ("its own store seen by its walk", |session, line| {
        guest_with_answer(session, line, |_, reached, image| {
            for read in &mut reached.list.places {
                read.value = image.read(Machine(read.address)).unwrap_or(read.value);
            }
        })
    }),
    ("HU asked in HS", |session, line| match line {
        Line::Guest { word, .. } if session.hart.checked_mode() == Some(Mode::Hs) => {
            let hart = session.hart;
            let mut answer = session.perform(line)?;
            if let (Answer::Guest(reached), false) = (&mut answer, bit(hart.hstatus, HU)) {
                if !matches!(reached.outcome.ending, Ending::Refused(_)) {
                    let raised = illegal(Forbidden::HuClear);
                    reached.outcome = trap::forbidden(&hart, Mode::Hs, raised, *word);
                    session.hart = reached.outcome.hart;
                }
            }
            Ok(answer)
        }
        _ => session.perform(line),
    }),
    ("HU not asked in U", |session, line| {
        guest_with_hart(session, line, |hart, _| hart.hstatus |= 1 << HU)
    }),
    ("2 for 22", |session, line| {
        guest_cause_with(session, line, |_, trap| match trap.cause {
            22 => 2,
            other => other,
        })
    }),
    ("22 for 2", |session, line| {
        guest_cause_with(session, line, |_, trap| match trap.cause {
            2 => 22,
            other => other,
        })
    }),
    ("22 where HU is 0 in VU", |session, line| {
        let before = session.hart;
        let answer = session.perform(line)?;
        if let (Line::Guest { word, .. }, Some(Mode::Vu)) = (line, before.checked_mode()) {
            if matches!(answer.reason(), Some(Reason::Forbidden(_))) && !bit(before.hstatus, HU) {
                let raised = illegal(Forbidden::HuClear);
                session.hart = trap::forbidden(&before, Mode::Vu, raised, *word).hart;
            }
        }
        Ok(answer)
    }),
    ("misaligned before 22", |session, line| {
        let before = session.hart;
        let answer = session.perform(line)?;
        if let (Line::Guest { access, .. }, Answer::Guest(reached)) = (line, &answer) {
            let forbidden = matches!(reached.outcome.reason, Some(Reason::Forbidden(_)));
            let misaligned = forbidden && !access.address.is_multiple_of(access.width);
            if let (true, Some(mode)) = (misaligned, before.checked_mode()) {
                let fault = Trap {
                    cause: if stores(access) { 6 } else { 4 },
                    value: access.address,
                    flag: true,
                    ..Trap::default()
                };
                session.hart = deliver(&before, mode, &fault).0;
            }
        }
        Ok(answer)
    }),
    ("SPVP written", |session, line| {
        guest_fault_with(session, line, |hart, before, _, target| {
            if target == Target::Hs {
                hart.hstatus = with_bit(hart.hstatus, SPVP, before.privilege == 1);
            }
        })
    }),
    ("SPV set", |session, line| {
        guest_fault_with(session, line, |hart, _, _, target| {
            if target == Target::Hs {
                hart.hstatus |= 1 << SPV;
            }
        })
    }),
    ("MPV set", |session, line| {
        guest_fault_with(session, line, |hart, _, _, target| {
            if target == Target::M {
                hart.mstatus |= 1 << MPV;
            }
        })
    }),
    ("the flag clear", |session, line| {
        guest_fault_with(session, line, |hart, _, _, target| match target {
            Target::M => hart.mstatus &= !(1 << MSTATUS_GVA),
            _ => hart.hstatus &= !(1 << HSTATUS_GVA),
        })
    }),
    ("into VS where hedeleg says so", |session, line| {
        guest_fault_with(session, line, |hart, before, trap, target| {
            let delegated = bit(before.hedeleg, trap.cause as u32);
            if let (Target::Hs, true, Some(mode)) = (target, delegated, before.checked_mode()) {
                *hart = deliver_to(Target::Vs, before, mode, trap);
            }
        })
    }),
    ("the word in tval", |session, line| {
        let Some(word) = line.word() else {
            return session.perform(line);
        };
        let answer = session.perform(line)?;
        if let Answer::Guest(reached) = &answer {
            if let Ending::Trapped(_, target) = reached.outcome.ending {
                *tval(&mut session.hart, target) = u64::from(word);
            }
        }
        Ok(answer)
    }),
    ("pc not moved on", |session, line| {
        let pc = session.hart.pc;
        let answer = session.perform(line)?;
        if let Answer::Guest(reached) = &answer {
            if reached.machine.is_some() {
                session.hart.pc = pc;
            }
        }
        Ok(answer)
    }),
    ("no list where it faults", |session, line| {
        guest_with_answer(session, line, |_, reached, _| {
            if reached.machine.is_none() {
                reached.list = walk::List::default();
            }
        })
    }),
    ("no list where it is done", |session, line| {
        guest_with_answer(session, line, |_, reached, _| {
            if reached.machine.is_some() {
                reached.list = walk::List::default();
            }
        })
    }),
    ("a value where it traps", |session, line| {
        guest_with_answer(session, line, |access, reached, _| {
            if reached.machine.is_none() {
                reached.value = reached.value.map(|_| access.address);
            }
        })
    }),
    ("21 for a guest entry of HSV", |session, line| {
        guest_cause_with(session, line, |_, trap| match trap.cause {
            23 if trap.word == 0x3000 => 21,
            other => other,
        })
    }),
    ("the faults of a fetch for HLVX", |session, line| {
        guest_cause_with(session, line, |access, trap| match trap.cause {
            5 | 13 | 21 if access.operation == Operation::LoadExecutable => match trap.cause {
                5 => 1,
                13 => 12,
                _ => 20,
            },
            other => other,
        })
    }),
    ("HLVX of 8 bytes taken", |session, line| {
        guest_with_access(session, line, |access, _| {
            if (access.operation, access.width) == (Operation::LoadExecutable, 8) {
                access.operation = Operation::Load { signed: false };
            }
        })
    }),
    ("22 before refusal 3", |session, line| {
        let before = session.hart;
        let mut answer = session.perform(line)?;
        let (Line::Guest { access, word }, Answer::Guest(reached)) = (line, &mut answer) else {
            return Ok(answer);
        };
        let mode = before.checked_mode().filter(|mode| mode.v());
        if let (Ending::Refused(3), Some(mode)) = (reached.outcome.ending, mode) {
            let rule = Forbidden::Instruction(access.operation.name(), mode);
            let raised = virtual_instruction(rule);
            reached.outcome = trap::forbidden(&before, mode, raised, *word);
            session.hart = reached.outcome.hart;
        }
        Ok(answer)
    }),
];

/// The script with everything about hypervisor loads and stores is part of every run: it alone shows each slip in them.
#[test]
fn copies_with_a_slip_in_hypervisor_loads_and_stores() {
    shown_by(guest_script, &GUEST_SLIPS);
}

/// Random scenes find some of them too, and few lines show them.
#[test]
fn copies_with_a_slip_in_hypervisor_loads_and_stores_are_shrunk() {
    for name in [
        "privilege SPP",
        "HLVX by MXR",
        "a byte too many stored",
        "SPVP written",
    ] {
        println!("{name}");
        let mut slips = GUEST_SLIPS.into_iter();
        let (_, perform) = slips.find(|(slip, _)| *slip == name).unwrap();
        caught(perform, 24);
    }
}

// Copies with a slip in what change request 2026-05 asks for.

/// MODE of a satp, vsatp or hgatp.
fn mode_of(atp: u64) -> u64 {
    atp >> 60
}

/// The MODE of the first stage that a hart's own accesses walk; Bare in M.
fn first_mode(hart: &Hart) -> u64 {
    match hart.checked_mode() {
        Some(Mode::U | Mode::Hs) => mode_of(hart.satp),
        Some(Mode::Vu | Mode::Vs) => mode_of(hart.vsatp),
        _ => 0,
    }
}

/// hgatp's MODE where the hart's own accesses walk nothing else.
fn second_mode(hart: &Hart) -> u64 {
    let alone = hart.v == 1 && mode_of(hart.vsatp) == 0;
    if alone {
        mode_of(hart.hgatp)
    } else {
        0
    }
}

/// The model with another address in the place of a translation's, which its fault does not show.
fn with_other_address(
    session: &mut Session,
    line: &Line,
    other: fn(&Hart, u64) -> Option<u64>,
) -> Result<Answer, Bad> {
    let Line::Translate(access) = line else {
        return session.perform(line);
    };
    let Some(address) = other(&session.hart, access.address) else {
        return session.perform(line);
    };
    let mut answer = session.perform(&Line::Translate(Access { address, ..*access }))?;
    if let Answer::Translation(translation) = &mut answer {
        if let walk::Answer::Fault(trap) = &mut translation.answer {
            trap.value = access.address;
            if trap.second == address >> 2 {
                trap.second = access.address >> 2;
            }
        }
    }
    Ok(answer)
}

/// The model with eleven bits of the index at a level below the root of a second stage with this MODE: it reads an entry elsewhere.
fn wide_index<const MODE: u64, const LEVEL: u64>(
    session: &mut Session,
    line: &Line,
) -> Result<Answer, Bad> {
    let mode = second_mode(&session.hart);
    let mut answer = session.perform(line)?;
    if let (Line::Translate(access), Answer::Translation(translation)) = (line, &mut answer) {
        let above = (access.address >> (21 + 9 * LEVEL)) & 3;
        let used = translation.list.count;
        for read in &mut translation.list.places[..used] {
            if (mode, read.level) == (MODE, LEVEL) {
                read.address += above << 12;
            }
        }
    }
    Ok(answer)
}

/// The model where a leaf of this level may have any PPN, of which it uses what it must.
fn any_ppn<const LEVEL: u64>(session: &mut Session, line: &Line) -> Result<Answer, Bad> {
    let answer = session.perform(line)?;
    let Answer::Translation(translation) = &answer else {
        return Ok(answer);
    };
    let Some(why) = translation.why else {
        return Ok(answer);
    };
    if (why.rule, why.level) != (Rule::LargeLeafLowPpn, Some(LEVEL)) {
        return Ok(answer);
    }
    let place = Machine(why.address);
    let entry = session.image.read(place).unwrap();
    let low = ((1 << (9 * LEVEL)) - 1) << 10;
    session.image.put(place, entry & !low);
    let mut answer = session.perform(line);
    session.image.put(place, entry);
    if let Ok(Answer::Translation(translation)) = &mut answer {
        for read in &mut translation.list.places {
            if read.address == place.0 && read.stage > 0 {
                read.value = entry;
            }
        }
    }
    answer
}

/// The model with another content of satp, vsatp or hgatp after a write to it. `change` is given its place, its number, what it held
/// and what was written.
fn atp_with(
    session: &mut Session,
    line: &Line,
    change: fn(&mut u64, u64, u64, u64),
) -> Result<Answer, Bad> {
    let v = session.hart.v;
    let answer = session.perform(line)?;
    let (Line::Register { number, action, .. }, Answer::Register(accessed)) = (line, &answer)
    else {
        return Ok(answer);
    };
    let old = accessed.old;
    let written = match *action {
        Action::Write(value) => value,
        Action::Set {
            value,
            writes: true,
        } => old | value,
        Action::Clear {
            value,
            writes: true,
        } => old & !value,
        _ => return Ok(answer),
    };
    if accessed.outcome.ending == Ending::Done {
        let held = number + 0x100 * v;
        let is_atp = [SATP, VSATP, HGATP].contains(&held);
        if let (true, Some(place)) = (is_atp, session.hart.stored_mut(held)) {
            change(place, held, old, written);
        }
    }
    Ok(answer)
}

/// satp, vsatp and hgatp of a hart.
fn atps(hart: &mut Hart) -> [&mut u64; 3] {
    [&mut hart.satp, &mut hart.vsatp, &mut hart.hgatp]
}

/// The model with another hart for a translation.
fn translated_with(
    session: &mut Session,
    line: &Line,
    change: fn(&mut Hart),
) -> Result<Answer, Bad> {
    match line {
        Line::Translate(_) => with_other_hart(session, line, change),
        _ => session.perform(line),
    }
}

/// The slips in depths and MODEs.
const DEPTH_SLIPS: [(&str, Perform); 22] = [
    ("eleven index bits at level 2 of Sv48x4", wide_index::<9, 2>),
    (
        "eleven index bits at level 2 of Sv57x4",
        wide_index::<10, 2>,
    ),
    (
        "eleven index bits at level 3 of Sv57x4",
        wide_index::<10, 3>,
    ),
    ("nine index bits at the top of Sv48x4", |session, line| {
        with_other_address(session, line, |hart, address| {
            (second_mode(hart) == 9 && address >> 50 == 0).then_some(address & !(3 << 48))
        })
    }),
    ("nine index bits at the top of Sv57x4", |session, line| {
        with_other_address(session, line, |hart, address| {
            (second_mode(hart) == 10 && address >> 59 == 0).then_some(address & !(3 << 57))
        })
    }),
    ("Sv57's test of addresses at Sv48", |session, line| {
        with_other_address(session, line, |hart, address| {
            let passes = first_stage_takes(address, 57);
            (first_mode(hart) == 9 && passes).then_some(sign_extended(address, 48))
        })
    }),
    ("Sv48's test of addresses at Sv57", |session, line| {
        with_other_address(session, line, |hart, address| {
            let passes = first_stage_takes(address, 48);
            (first_mode(hart) == 10 && !passes).then_some(sign_extended(address, 57) ^ (1 << 63))
        })
    }),
    ("Sv57x4's test of addresses at Sv48x4", |session, line| {
        with_other_address(session, line, |hart, address| {
            let passes = address >> 59 == 0;
            (second_mode(hart) == 9 && passes).then_some(address & ((1 << 50) - 1))
        })
    }),
    ("Sv48x4's test of addresses at Sv57x4", |session, line| {
        with_other_address(session, line, |hart, address| {
            let passes = address >> 50 == 0;
            (second_mode(hart) == 10 && !passes).then_some(address | (1 << 63))
        })
    }),
    ("a list of 34 places", |session, line| {
        let mut answer = session.perform(line)?;
        let list = match &mut answer {
            Answer::Translation(translation) => &mut translation.list,
            Answer::Guest(reached) => &mut reached.list,
            _ => return Ok(answer),
        };
        list.places[34] = walk::Read::default();
        list.count = list.count.min(34);
        Ok(answer)
    }),
    ("the depth of vsatp used for hgatp", |session, line| {
        translated_with(session, line, |hart| {
            if mode_of(hart.vsatp) != 0 && mode_of(hart.hgatp) != 0 {
                hart.hgatp = with_field(hart.hgatp, 60, 4, mode_of(hart.vsatp));
            }
        })
    }),
    ("the depth of hgatp used for vsatp", |session, line| {
        translated_with(session, line, |hart| {
            if mode_of(hart.vsatp) != 0 && mode_of(hart.hgatp) != 0 {
                hart.vsatp = with_field(hart.vsatp, 60, 4, mode_of(hart.hgatp));
            }
        })
    }),
    ("a walk that starts at level 2", |session, line| {
        translated_with(session, line, |hart| {
            for atp in atps(hart) {
                if matches!(mode_of(*atp), 9 | 10) {
                    *atp = with_field(*atp, 60, 4, 8);
                }
            }
        })
    }),
    ("any PPN in a leaf of level 3", any_ppn::<3>),
    ("any PPN in a leaf of level 4", any_ppn::<4>),
    ("a hart with MODE 9 refused", |session, line| {
        translated_with(session, line, |hart| {
            for atp in atps(hart) {
                if mode_of(*atp) == 9 {
                    *atp = with_field(*atp, 60, 4, 11);
                }
            }
        })
    }),
    ("a hart with MODE 11 taken", |session, line| {
        translated_with(session, line, |hart| {
            for atp in atps(hart) {
                if mode_of(*atp) == 11 {
                    *atp = with_field(*atp, 60, 4, 10);
                }
            }
        })
    }),
    ("MODE 11 taken", |session, line| {
        atp_with(session, line, |place, _, _, written| {
            if mode_of(written) == 11 {
                *place = with_field(*place, 60, 4, 11);
            }
        })
    }),
    ("MODE 9 not taken", |session, line| {
        atp_with(session, line, |place, held, old, written| {
            if held != HGATP && mode_of(written) == 9 {
                *place = old;
            }
        })
    }),
    ("MODE 10 not taken", |session, line| {
        atp_with(session, line, |place, held, old, written| {
            if held != HGATP && mode_of(written) == 10 {
                *place = old;
            }
        })
    }),
    (
        "hgatp keeps its MODE where 9 is written",
        |session, line| {
            atp_with(session, line, |place, held, old, written| {
                if held == HGATP && mode_of(written) == 9 {
                    *place = with_field(*place, 60, 4, mode_of(old));
                }
            })
        },
    ),
    (
        "another MODE in satp that writes the PPN",
        |session, line| {
            atp_with(session, line, |place, held, old, written| {
                if held != HGATP && !matches!(mode_of(written), 0 | 8..=10) {
                    *place = with_field(written, 60, 4, mode_of(old));
                }
            })
        },
    ),
];

/// The script with everything about depths is part of every run: it alone shows each slip in them, and few lines do.
#[test]
fn copies_with_a_slip_in_depths() {
    shown_by(depths_script, &DEPTH_SLIPS);
    for (slip, perform) in DEPTH_SLIPS {
        println!("{slip}");
        caught(perform, 30);
    }
}

// Copies with a slip in the lookup of a register, which change request 2026-06 asks for anew.

/// The model with an access by another number.
fn with_number(
    session: &mut Session,
    line: &Line,
    other: impl Fn(u64) -> u64,
) -> Result<Answer, Bad> {
    let mut line = line.clone();
    if let Line::Register { number, .. } = &mut line {
        *number = other(*number);
    }
    session.perform(&line)
}

/// The model with another lookup, which gives the number of the row found. Where it finds none the access is by a number that no
/// register has.
fn with_lookup(
    session: &mut Session,
    line: &Line,
    lookup: fn(u64) -> Option<u64>,
) -> Result<Answer, Bad> {
    with_number(session, line, |number| match number {
        0..=LAST => lookup(number).unwrap_or(LAST),
        _ => number,
    })
}

/// The number of the first row that is so.
fn first_row(is: impl Fn(u64) -> bool) -> Option<u64> {
    let mut rows = ROWS.iter().map(|row| row.number);
    rows.find(|row| is(*row))
}

/// The number of the last row that is so.
fn last_row(is: impl Fn(u64) -> bool) -> Option<u64> {
    let mut rows = ROWS.iter().rev().map(|row| row.number);
    rows.find(|row| is(*row))
}

/// The row that bears a number.
fn right_row(number: u64) -> Option<u64> {
    first_row(|row| row == number)
}

/// The model whose lookup misses a row.
fn missed<const ROW: u64>(session: &mut Session, line: &Line) -> Result<Answer, Bad> {
    with_lookup(session, line, |number| {
        right_row(number).filter(|row| *row != ROW)
    })
}

/// The model whose lookup finds another row for one number.
fn mistaken<const NUMBER: u64, const ROW: u64>(
    session: &mut Session,
    line: &Line,
) -> Result<Answer, Bad> {
    with_lookup(session, line, |number| match number {
        _ if number == NUMBER => Some(ROW),
        _ => right_row(number),
    })
}

/// A search by halves that looks at so many rows, and leaves out so many beside each row that it looks at: below it and above it.
fn by_halves(mut rows: &[Row], number: u64, looks: usize, left_out: [usize; 2]) -> Option<u64> {
    for _ in 0..looks {
        let middle = rows.len() / 2;
        rows = match number.cmp(&rows.get(middle)?.number) {
            Ordering::Less => &rows[..middle.saturating_sub(left_out[0])],
            Ordering::Equal => return Some(number),
            Ordering::Greater => rows.get(middle + 1 + left_out[1]..)?,
        };
    }
    None
}

/// The rows in document 01's order: S, VS, H, M.
fn rows_by_level() -> Vec<Row> {
    let levels = [Level::S, Level::Vs, Level::H, Level::M];
    let of_level = |level| ROWS.into_iter().filter(move |row| row.level == level);
    levels.into_iter().flat_map(of_level).collect()
}

/// The first row of the same level as the one that bears a number.
fn row_of_level(number: u64) -> Option<u64> {
    let level = numbers::level(number)?;
    first_row(|row| numbers::level(row) == Some(level))
}

/// The slips in the lookup.
const NUMBER_SLIPS: [(&str, Perform); 30] = [
    ("the first row is missed", missed::<0x100>),
    ("the last row is missed", missed::<0xe12>),
    ("a row in the middle is missed", missed::<0x300>),
    ("a row that reads 0 is missed", missed::<0x607>),
    (
        "an unlisted number finds the row below it",
        |session, line| with_lookup(session, line, |number| last_row(|row| row <= number)),
    ),
    (
        "an unlisted number finds the row above it",
        |session, line| with_lookup(session, line, |number| first_row(|row| row >= number)),
    ),
    ("0 finds the first row", mistaken::<0, 0x100>),
    ("ff finds the first row", mistaken::<0xff, 0x100>),
    ("301 finds the row below it", mistaken::<0x301, 0x300>),
    ("301 finds the row above it", mistaken::<0x301, 0x302>),
    ("345 finds the row above it", mistaken::<0x345, 0x34a>),
    ("e13 finds the last row", mistaken::<0xe13, 0xe12>),
    ("fff finds the last row", mistaken::<0xfff, 0xe12>),
    ("scause finds stval", mistaken::<0x142, 0x143>),
    ("mtval2 finds mtinst", mistaken::<0x34b, 0x34a>),
    ("hip finds hvip", mistaken::<0x644, 0x645>),
    ("hvip finds hip", mistaken::<0x645, 0x644>),
    ("hgeie finds hgeip", mistaken::<0x607, 0xe12>),
    ("hgeip finds hgeie", mistaken::<0xe12, 0x607>),
    (
        "every number finds the row after its own",
        |session, line| {
            with_lookup(session, line, |number| {
                right_row(number).and_then(|own| first_row(|row| row > own))
            })
        },
    ),
    ("five rows are looked at", |session, line| {
        with_lookup(session, line, |number| by_halves(&ROWS, number, 5, [0, 0]))
    }),
    (
        "a search by halves leaves out a row below",
        |session, line| with_lookup(session, line, |number| by_halves(&ROWS, number, 8, [1, 0])),
    ),
    (
        "a search by halves leaves out a row above",
        |session, line| with_lookup(session, line, |number| by_halves(&ROWS, number, 8, [0, 1])),
    ),
    ("the rows are in order of level", |session, line| {
        with_lookup(session, line, |number| {
            by_halves(&rows_by_level(), number, 8, [0, 0])
        })
    }),
    ("the search goes by the level", |session, line| {
        with_lookup(session, line, row_of_level)
    }),
    ("numbers are cut to 8 bits", |session, line| {
        with_lookup(session, line, |number| {
            first_row(|row| row & 0xff == number & 0xff)
        })
    }),
    ("numbers are cut to 12 bits", |session, line| {
        with_number(session, line, |number| number & LAST)
    }),
    ("numbers are cut to 32 bits", |session, line| {
        with_number(session, line, |number| number & 0xffff_ffff)
    }),
    (
        "numbers over 4095 are cut before they are looked up",
        |session, line| {
            with_number(session, line, |number| match number {
                0x1000.. => right_row(number & LAST).unwrap_or(number),
                _ => number,
            })
        },
    ),
    ("numbers over 4095 are unlisted", |session, line| {
        with_number(session, line, |number| number.min(LAST))
    }),
];

/// What lines answer to a hart, where other numbers are looked up.
fn answers(hart: Hart, lines: &[Line], other: impl Fn(u64) -> u64) -> Vec<u8> {
    let mut session = Session::new(PathBuf::new());
    session.hart = hart;
    let mut output = Vec::new();
    for line in lines {
        let answer = with_number(&mut session, line, &other).unwrap();
        Writing::Answers.write(&mut output, line, &answer).unwrap();
    }
    output
}

/// Each number finds in turn each row that it does not bear, or none where it bears one: each time an access of the script with
/// every number or the line behind it answers something else.
#[test]
fn every_number_that_finds_another_row() {
    let folder = Folder::new().unwrap();
    let (script, _) = numbers_script(42, folder.path());
    let lines = script.lines.iter();
    let lines: Vec<Line> = lines.map(|line| parse(line).unwrap().unwrap()).collect();
    let mut session = Session::new(PathBuf::new());
    let mut shown = BTreeSet::new();
    for pair in lines.windows(2) {
        let hart = session.hart;
        session.perform(&pair[0]).unwrap();
        let number = match pair[0] {
            Line::Register { number, .. } if number <= LAST => number,
            _ => continue,
        };
        let right = answers(hart, pair, |number| number);
        for row in ROWS.iter().map(|row| row.number).chain([LAST]) {
            let other = |of| if of == number { row } else { of };
            if !shown.contains(&(number, row)) && answers(hart, pair, other) != right {
                shown.insert((number, row));
            }
        }
    }
    assert_eq!(shown.len(), 4096 * ROWS.len());
}

/// The script with every number, without its reasons.
fn numbers_without_reasons(seed: u64, folder: &Path) -> (Script, Coverage) {
    let (mut script, coverage) = numbers_script(seed, folder);
    script.explained = false;
    (script, coverage)
}

/// The script with every number is part of every run: its answers alone show each slip in the lookup, and few lines do.
#[test]
fn copies_with_a_slip_in_the_lookup_of_a_register() {
    shown_by(numbers_without_reasons, &NUMBER_SLIPS);
    for (slip, perform) in NUMBER_SLIPS {
        println!("{slip}");
        caught(perform, 8);
    }
}

/// It alone also reaches everything that is asked of depths, each rule that ends a translation and each length of a list.
#[test]
fn the_script_about_depths_reaches_all_of_them() {
    let folder = Folder::new().unwrap();
    let program = InProcess {
        name: "the model",
        perform: model,
        folder: &folder,
    };
    for seed in 0..4 {
        let (script, mut coverage) = depths_script(seed, folder.path());
        coverage.read_output(&program.run(&script).unwrap().output);
        assert_eq!(coverage.deep.missing(), Vec::<String>::new());
        let rules = ending_rules().into_iter();
        let missing: Vec<Ended> = rules
            .filter(|ended| !coverage.rules.contains_key(ended))
            .collect();
        assert_eq!(missing, []);
        assert!((0..=35).all(|length| coverage.lengths.contains_key(&length)));
    }
}

// Copies whose answers are right, and only a reason is wrong.

/// The wrong reasons.
const WRONG_REASONS: [fn(&mut Reason); 34] = [
    // Faults.
    |reason| fault(reason, |why| why.level = why.level.map(|level| level ^ 1)),
    |reason| {
        fault(reason, |why| {
            if why.rule == Rule::EntryOutside {
                why.address ^= 0x1000;
            }
        })
    },
    |reason| {
        fault(reason, |why| {
            if why.rule == Rule::AccessOutside {
                why.address ^= 1;
            }
        })
    },
    |reason| {
        fault(reason, |why| {
            if why.rule == Rule::Misaligned {
                why.width ^= 8;
            }
        })
    },
    |reason| {
        fault(reason, |why| {
            if why.part == Part::HgatpForEntry {
                why.guest = why.guest.map(|guest| GuestPhysical(guest.0 & !0xfff));
            }
        })
    },
    |reason| {
        fault(reason, |why| {
            if why.part == Part::HgatpForAccess {
                why.part = Part::HgatpForEntry;
            }
        })
    },
    |reason| {
        fault(reason, |why| {
            if why.part == Part::Vsatp {
                why.part = Part::Satp;
            }
        })
    },
    |reason| {
        fault(reason, |why| {
            if why.rule == Rule::WriteWithoutRead {
                why.rule = Rule::NotReadable;
            }
        })
    },
    |reason| {
        fault(reason, |why| {
            if (why.rule, why.level) == (Rule::PointerWithU, Some(2)) && why.part == Part::Satp {
                why.rule = Rule::PointerWithD;
            }
        })
    },
    // Refusals.
    |reason| {
        refusal(reason, |refusal| {
            if let Refusal::Hart(BadHart::Register(row, Wrong::Bit(bit))) = refusal {
                *refusal = Refusal::Hart(BadHart::Register(row, Wrong::Bit(*bit ^ 1)));
            }
        })
    },
    |reason| {
        refusal(reason, |refusal| {
            if let Refusal::Hart(BadHart::Register(row, wrong @ Wrong::Field(..))) = refusal {
                *row = ROWS.iter().rfind(|other| other.name != row.name).unwrap();
                *refusal = Refusal::Hart(BadHart::Register(row, *wrong));
            }
        })
    },
    |reason| {
        refusal(reason, |refusal| {
            if let Refusal::Hart(BadHart::MprvOutsideM) = refusal {
                *refusal = Refusal::Hart(BadHart::Pc(0));
            }
        })
    },
    |reason| {
        refusal(reason, |refusal| {
            if let Refusal::Hart(BadHart::Mode(v, privilege)) = refusal {
                *refusal = Refusal::Hart(BadHart::Mode(*v & 1, *privilege));
            }
        })
    },
    |reason| {
        refusal(reason, |refusal| {
            if let Refusal::Image(BadImage::End(end)) = refusal {
                *refusal = Refusal::Image(BadImage::End(*end & u128::from(u64::MAX)));
            }
        })
    },
    |reason| {
        refusal(reason, |refusal| {
            if let Refusal::Image(BadImage::Length(_)) = refusal {
                *refusal = Refusal::Image(BadImage::Base(0));
            }
        })
    },
    |reason| {
        refusal(reason, |refusal| {
            if let Refusal::Access(BadAccess::FetchWidth(width)) = refusal {
                *refusal = Refusal::Access(BadAccess::Width(*width));
            }
        })
    },
    |reason| {
        refusal(reason, |refusal| {
            if let Refusal::Request(BadRequest::FlagClearWithV(cause)) = refusal {
                *refusal = Refusal::Request(BadRequest::FlagClear(*cause));
            }
        })
    },
    |reason| {
        refusal(reason, |refusal| {
            if let Refusal::Number(number) = refusal {
                *refusal = Refusal::Number(*number & 0xffff_ffff);
            }
        })
    },
    // Traps.
    |reason| {
        forbidden(reason, |rule| {
            if let Forbidden::Bit(Control::Vtvm) = rule {
                *rule = Forbidden::Bit(Control::Tvm);
            }
        })
    },
    |reason| {
        forbidden(reason, |rule| {
            if let Forbidden::Register(row, Mode::Vu) = rule {
                *rule = Forbidden::Register(row, Mode::Vs);
            }
        })
    },
    |reason| {
        forbidden(reason, |rule| {
            if let Forbidden::Instruction("HFENCE.VVMA", mode) = rule {
                *rule = Forbidden::Instruction("HFENCE.GVMA", *mode);
            }
        })
    },
    |reason| {
        forbidden(reason, |rule| {
            if let Forbidden::ReadOnly(row) = rule {
                *rule = Forbidden::Unlisted(row.number);
            }
        })
    },
    // Interrupts.
    |reason| {
        interrupt(reason, |why| {
            if let interrupts::Why::Taken(due) = why {
                due.number -= u32::from(due.level == Target::Vs);
            }
        })
    },
    |reason| {
        interrupt(reason, |why| {
            if *why == interrupts::Why::NoneEnabled {
                *why = interrupts::Why::NonePending;
            }
        })
    },
    |reason| {
        interrupt(reason, |why| {
            if let interrupts::Why::Waits(waiting) = why {
                if waiting.rule == LevelRule::Never(Mode::U) {
                    waiting.rule = LevelRule::Never(Mode::Hs);
                }
            }
        })
    },
    |reason| {
        interrupt(reason, |why| {
            if let interrupts::Why::Waits(waiting) = why {
                if (waiting.level, waiting.number) == (Target::Hs, 5) {
                    waiting.number = 9;
                }
            }
        })
    },
    |reason| {
        interrupt(reason, |why| {
            if let interrupts::Why::Taken(due) = why {
                if due.rule == LevelRule::Always(Mode::Vs) {
                    due.rule = LevelRule::Enable(true);
                }
            }
        })
    },
    |reason| {
        refusal(reason, |refusal| {
            if let Refusal::Hart(BadHart::Register(row, Wrong::ClearBit(bit))) = refusal {
                *refusal = Refusal::Hart(BadHart::Register(row, Wrong::Bit(*bit)));
            }
        })
    },
    // Hypervisor loads and stores.
    |reason| {
        fault(reason, |why| {
            if why.rule == Rule::NotExecutableForHlvx {
                why.rule = Rule::NotReadable;
            }
        })
    },
    |reason| {
        refusal(reason, |refusal| {
            if let Refusal::Access(BadAccess::HlvxWidth(width)) = refusal {
                *refusal = Refusal::Access(BadAccess::Width(*width));
            }
        })
    },
    |reason| {
        forbidden(reason, |rule| {
            if *rule == Forbidden::HuClear {
                *rule = Forbidden::Instruction("HLV", Mode::U);
            }
        })
    },
    // Depths of tables.
    |reason| {
        fault(reason, |why| {
            if matches!(why.rule, Rule::HighBits(48 | 57)) {
                why.rule = Rule::HighBits(39);
            }
        })
    },
    |reason| {
        fault(reason, |why| {
            if let Rule::HighBits(bits @ (50 | 59)) = &mut why.rule {
                *bits -= 2;
            }
        })
    },
    |reason| {
        fault(reason, |why| {
            why.level = why.level.map(|level| level.min(3))
        })
    },
];

fn interrupt(reason: &mut Reason, change: fn(&mut interrupts::Why)) {
    if let Reason::Interrupt(why) = reason {
        change(why);
    }
}

fn fault(reason: &mut Reason, change: fn(&mut Why)) {
    if let Reason::Fault(why) = reason {
        change(why);
    }
}

fn refusal(reason: &mut Reason, change: fn(&mut Refusal)) {
    if let Reason::Refused(refusal) = reason {
        change(refusal);
    }
}

fn forbidden(reason: &mut Reason, change: fn(&mut Forbidden)) {
    if let Reason::Forbidden(rule) = reason {
        change(rule);
    }
}

/// The model with the wrong reason number `N`.
fn wrong_reason<const N: usize>(session: &mut Session, line: &Line) -> Result<Answer, Bad> {
    let mut answer = session.perform(line)?;
    let Some(mut reason) = answer.reason() else {
        return Ok(answer);
    };
    WRONG_REASONS[N](&mut reason);
    match (&mut answer, reason) {
        (Answer::Translation(translation), Reason::Fault(why)) => translation.why = Some(why),
        (Answer::Translation(translation), Reason::Refused(refusal)) => {
            translation.refusal = Some(refusal);
        }
        (Answer::Register(accessed), reason) => accessed.outcome.reason = Some(reason),
        (Answer::Event(outcome), reason) => outcome.reason = Some(reason),
        (Answer::Guest(reached), reason) => reached.outcome.reason = Some(reason),
        (answer, reason) => panic!("{answer:?} has no reason like {reason:?}"),
    }
    Ok(answer)
}

/// A run whose programs differ in nothing but reasons.
fn differs_in_reasons(difference: &Difference) {
    assert!(difference.script.explained);
    let answers = |output: &[u8]| {
        let lines = output.split_inclusive(|byte| *byte == b'\n');
        let answers = lines.filter(|line| !line.starts_with(b"# why: "));
        answers.flatten().copied().collect::<Vec<u8>>()
    };
    let (first, second) = (&difference.first, &difference.second);
    assert_eq!(answers(&first.output), answers(&second.output));
    assert_ne!(first.output, second.output);
    assert!(difference.to_string().contains(", with reasons)"));
}

#[test]
fn copies_with_a_wrong_reason() {
    let copies: [Perform; WRONG_REASONS.len()] = [
        wrong_reason::<0>,
        wrong_reason::<1>,
        wrong_reason::<2>,
        wrong_reason::<3>,
        wrong_reason::<4>,
        wrong_reason::<5>,
        wrong_reason::<6>,
        wrong_reason::<7>,
        wrong_reason::<8>,
        wrong_reason::<9>,
        wrong_reason::<10>,
        wrong_reason::<11>,
        wrong_reason::<12>,
        wrong_reason::<13>,
        wrong_reason::<14>,
        wrong_reason::<15>,
        wrong_reason::<16>,
        wrong_reason::<17>,
        wrong_reason::<18>,
        wrong_reason::<19>,
        wrong_reason::<20>,
        wrong_reason::<21>,
        wrong_reason::<22>,
        wrong_reason::<23>,
        wrong_reason::<24>,
        wrong_reason::<25>,
        wrong_reason::<26>,
        wrong_reason::<27>,
        wrong_reason::<28>,
        wrong_reason::<29>,
        wrong_reason::<30>,
        wrong_reason::<31>,
        wrong_reason::<32>,
        wrong_reason::<33>,
    ];
    for (place, perform) in copies.into_iter().enumerate() {
        println!("wrong reason {place}");
        differs_in_reasons(&caught(perform, 20));
    }
}

#[test]
fn a_copy_without_a_reason() {
    fn silent(session: &mut Session, line: &Line) -> Result<Answer, Bad> {
        let mut answer = session.perform(line)?;
        if let Answer::Event(outcome) = &mut answer {
            outcome.reason = None;
        }
        Ok(answer)
    }
    differs_in_reasons(&caught(silent, 3));
}

#[test]
fn a_copy_with_a_reason_where_none_is_needed() {
    fn talkative(session: &mut Session, line: &Line) -> Result<Answer, Bad> {
        let mut answer = session.perform(line)?;
        if let Answer::Event(outcome) = &mut answer {
            if *line == Line::Ecall && outcome.reason.is_none() {
                outcome.reason = Some(Reason::Forbidden(Forbidden::Bit(Control::Tw)));
            }
        }
        Ok(answer)
    }
    differs_in_reasons(&caught(talkative, 1));
}

/// The output with its lines changed.
fn with_lines(outcome: Outcome, change: fn(Vec<Vec<u8>>) -> Vec<Vec<u8>>) -> Outcome {
    let lines = outcome.output.split_inclusive(|byte| *byte == b'\n');
    Outcome {
        output: change(lines.map(<[u8]>::to_vec).collect()).concat(),
        status: outcome.status,
    }
}

fn is_reason(line: &[u8]) -> bool {
    line.starts_with(b"# why: ")
}

#[test]
fn a_word_behind_its_reason() {
    let difference = changed(|outcome| {
        with_lines(outcome, |mut lines| {
            for place in 1..lines.len() {
                if is_reason(&lines[place]) && lines[place - 1].starts_with(b"# word: ") {
                    lines.swap(place - 1, place);
                }
            }
            lines
        })
    });
    differs_in_reasons(&difference);
}

#[test]
fn reasons_in_another_place() {
    let difference = changed(|outcome| {
        with_lines(outcome, |mut lines| {
            for place in 1..lines.len() {
                if is_reason(&lines[place]) {
                    lines.swap(place - 1, place);
                }
            }
            lines
        })
    });
    differs_in_reasons(&difference);
}

/// Puts lines behind each line of an output that has reasons.
fn with_more(outcome: Outcome, more: fn(Vec<u8>) -> Vec<Vec<u8>>) -> Outcome {
    let mut lines = outcome.output.split(|byte| *byte == b'\n');
    if !lines.any(is_reason) {
        return outcome;
    }
    let lines = outcome.output.split_inclusive(|byte| *byte == b'\n');
    Outcome {
        output: lines.map(<[u8]>::to_vec).flat_map(more).flatten().collect(),
        status: outcome.status,
    }
}

#[test]
fn other_explanations_do_not_count_where_reasons_are_asked_for() {
    fn explained(outcome: Outcome) -> Outcome {
        with_more(outcome, |line| vec![line, b"# and\n# why not\n".to_vec()])
    }
    assert_eq!(found_in_changed(explained), None);
    // Without `# ` it is no explanation.
    fn without_blank(outcome: Outcome) -> Outcome {
        with_more(outcome, |line| vec![line, b"#\n".to_vec()])
    }
    assert!(changed(without_blank).script.explained);
    // And where no reasons are asked for there are none.
    fn always(outcome: Outcome) -> Outcome {
        with_lines(outcome, |mut lines| {
            lines.insert(0, b"# hart\n".to_vec());
            lines
        })
    }
    assert!(!changed(always).script.explained);
}

/// A program that can't be asked for reasons.
struct Plain<'a>(InProcess<'a>);

impl Program for Plain<'_> {
    fn name(&self) -> String {
        "plain".to_string()
    }

    fn run(&self, script: &Script) -> io::Result<Outcome> {
        assert!(!script.explained);
        self.0.run(script)
    }
}

#[test]
fn a_program_without_reasons_is_compared_by_its_answers() {
    let folder = Folder::new().unwrap();
    let in_process = |name| InProcess {
        name,
        perform: model,
        folder: &folder,
    };
    let (plain, model) = (Plain(in_process("plain")), in_process("the model"));
    assert_eq!(compare_in(&folder, &plain, &model, 3_000), None);
    assert_eq!(compare_in(&folder, &model, &plain, 3_000), None);
}

#[test]
fn a_copy_with_another_longest_line() {
    struct Longer<'a>(InProcess<'a>);
    impl Program for Longer<'_> {
        fn name(&self) -> String {
            "longer".to_string()
        }

        /// Lines of blanks are cut before the model sees them, so that it takes any number of them.
        fn run(&self, script: &Script) -> io::Result<Outcome> {
            let blank = |line: &Vec<u8>| line.iter().all(|byte| *byte == b' ');
            let lines = script.lines.iter();
            let cut = lines.map(|line| {
                if blank(line) {
                    Vec::new()
                } else {
                    line.clone()
                }
            });
            self.0.run(&script.with_lines(cut.collect()))
        }
    }
    let folder = Folder::new().unwrap();
    let in_process = || InProcess {
        name: "the model",
        perform: model,
        folder: &folder,
    };
    let difference = compare_in(&folder, &Longer(in_process()), &in_process(), 3_000).unwrap();
    assert_eq!(difference.script.lines.len(), 1);
    assert_eq!(difference.script.lines[0].len(), LONGEST_LINE + 1);
    // It is told without all of it.
    assert!(difference.to_string().len() < 2_000);
}

#[test]
fn a_run_reaches_everything() {
    let folder = Folder::new().unwrap();
    let program = InProcess {
        name: "the model",
        perform: model,
        folder: &folder,
    };
    let options = Options {
        events: 60_000,
        seed: 7,
    };
    let Ok(mut coverage) = compare(&program, &program, &options, folder.path()) else {
        panic!("the model differs from itself");
    };
    assert_eq!(coverage.missing(), Vec::<String>::new());
    assert_eq!(coverage.missing_reasons(), Vec::<String>::new());
    assert_eq!(coverage.flips.len(), 5 * 2 * 34 * 64);
    coverage.flips.remove(&(Mode::Vs, Meeting::Event, 2, 63));
    assert_eq!(coverage.missing(), ["1 flipped bits in Vs by Event"]);
    let pair = ((9, Target::M), (2, Target::Vs));
    assert!(coverage.interrupts.due.remove(&pair).is_some());
    let bits = coverage.bits.cases.get_mut(&(SIP, Mode::Vs)).unwrap();
    bits[7] ^= 0x20;
    assert_eq!(
        coverage.missing(),
        [
            "1 flipped bits in Vs by Event",
            "interrupt 9 to M with interrupt 2 to VS due",
            "bits 20 of 144 in Vs: 1 written and not handed down",
        ]
    );
    let words = &mut coverage.instruction_words;
    let trapped = ("mret", 2, Mode::Vs, Target::Vs);
    words.shown.get_mut(&trapped).unwrap()[0] ^= 1 << 31;
    assert!(words.done.remove("hfence.gvma").is_some());
    assert!(words.cases.remove(&("wfi", "MRET", Fields::None)).is_some());
    let guest = &mut coverage.guest;
    assert!(guest.cases.remove(&Case::OwnTable { stage: 2 }).is_some());
    let (part, levels, page) = (Part::HgatpForAccess, 4, 3);
    let deepest = depths::Case::RootPage { part, levels, page };
    assert!(coverage.deep.cases.remove(&deepest).is_some());
    let (number, mode) = (0xe13, Mode::Hs);
    let beside = numbers::Case::Read { number, mode };
    assert!(coverage.numbers.cases.remove(&beside).is_some());
    guest.stored_bits.get_mut(&4).unwrap()[1] ^= 1 << 40;
    assert_eq!(
        coverage.missing()[3..],
        [
            "bits 80000000 of a word as 1 in VS's tval, by mret in VS with cause 2",
            "hfence.gvma done, with a word",
            "an event and its word: wfi and MRET",
            "a hypervisor load or store: OwnTable { stage: 2 }",
            "bits 10000000000 of VALUE as 0, by a store of 4 that is read back",
            "of depths and MODEs: RootPage { part: HgatpForAccess, levels: 4, page: 3 }",
            "of numbers: read of e13 in HS",
        ]
    );
    assert!(coverage.events >= 60_000);
    // Most translations get past the checks, and deep walks are common.
    let translations: u64 = coverage.translations.values().sum();
    let refused: u64 = coverage.refusals.values().sum();
    assert!(coverage.events > 6 * refused, "{refused}");
    let deep: u64 = coverage.lengths.range(12..).map(|(_, number)| number).sum();
    assert!(deep * 12 > translations, "{deep} of {translations}");
}
