//! Harts and register accesses: what is done, what traps and what is refused.

use super::{Access, Form};
use crate::call::{self, HartWords};
use crate::plain::access::is_listed;
use balcumentri::{Hart, Outcome};
use compare::rng::Rng;

/// What is accessed in one case: these registers, on one hart, by one form.
pub struct Case {
    /// Its name, for people.
    pub name: &'static str,
    /// The form of all accesses.
    pub form: Form,
    /// The hart.
    pub hart: Hart,
    /// Its words.
    pub words: HartWords,
    /// The accesses, in their order.
    pub accesses: Vec<Access>,
    /// How many are timed in a round.
    pub round: usize,
    meant: fn(u64) -> Outcome,
}

impl Case {
    /// What an access is meant to come to.
    pub fn meant(&self, access: Access) -> Outcome {
        (self.meant)(access.number)
    }

    /// How many accesses come to such an outcome.
    pub fn count(&self, is: fn(Outcome) -> bool) -> usize {
        let outcomes = self.accesses.iter().map(|access| self.meant(*access));
        outcomes.filter(|outcome| is(*outcome)).count()
    }
}

/// How a case is made.
struct Plan {
    name: &'static str,
    mode: Mode,
    form: Form,
    numbers: fn() -> Vec<u64>,
    meant: fn(u64) -> Outcome,
}

/// V and the privilege.
type Mode = (u64, u64);
const M: Mode = (0, 3);
const HS: Mode = (0, 1);
const U: Mode = (0, 0);
const VS: Mode = (1, 1);
const VU: Mode = (1, 0);
const MODES: [Mode; 5] = [M, HS, U, VS, VU];

/// The case that is timed longest: ten million accesses in 51 rounds.
const LONGEST: &str = "M, read, all";
/// The case whose hart is refused.
const REFUSED_HART: &str = "M, read, hart refused";

/// The cases: all registers in M, then in the other modes; then those that are refused.
const PLANS: [Plan; 13] = {
    use Form::{Clear, Read, Set, Write};
    [
        plan(LONGEST, M, Read, all, in_m),
        plan("M, read, listed", M, Read, listed, in_m),
        plan("M, read, not listed", M, Read, unlisted, in_m),
        plan("M, write, listed", M, Write, listed, written_in_m),
        plan("M, set, listed", M, Set, listed, written_in_m),
        plan("M, clear, listed", M, Clear, listed, written_in_m),
        plan("HS, read, all", HS, Read, all, in_hs),
        plan("U, read, all", U, Read, all, |_| ILLEGAL),
        plan("VS, read, all", VS, Read, all, in_vs),
        plan("VS, write, S", VS, Write, of_s, in_vs),
        plan("VU, read, all", VU, Read, all, in_vu),
        plan(REFUSED_HART, M, Read, all, |_| Outcome::Refused(2)),
        plan("M, read, over 4095", M, Read, over, |_| Outcome::Refused(5)),
    ]
};

const fn plan(
    name: &'static str,
    mode: Mode,
    form: Form,
    numbers: fn() -> Vec<u64>,
    meant: fn(u64) -> Outcome,
) -> Plan {
    Plan {
        name,
        mode,
        form,
        numbers,
        meant,
    }
}

/// How many numbers there are.
const NUMBERS: u64 = 4096;

fn all() -> Vec<u64> {
    (0..NUMBERS).collect()
}

fn listed() -> Vec<u64> {
    (0..NUMBERS).filter(|n| is_listed(*n)).collect()
}

fn unlisted() -> Vec<u64> {
    (0..NUMBERS).filter(|n| !is_listed(*n)).collect()
}

fn of_s() -> Vec<u64> {
    (0..NUMBERS).filter(|n| group(*n) == Group::S).collect()
}

/// Numbers that no register could have: each has one of the bits from 12 up.
fn over() -> Vec<u64> {
    (0..NUMBERS).map(|n| n | 1 << (12 + n % 52)).collect()
}

/// Whose register has a number.
#[derive(Clone, Copy, PartialEq, Eq)]
enum Group {
    S,
    Vs,
    H,
    M,
    Nobody,
}

fn group(number: u64) -> Group {
    match number >> 8 {
        _ if !is_listed(number) => Group::Nobody,
        1 => Group::S,
        2 => Group::Vs,
        3 => Group::M,
        _ => Group::H,
    }
}

const ILLEGAL: Outcome = Outcome::Trapped(2);
const VIRTUAL: Outcome = Outcome::Trapped(22);

fn in_m(number: u64) -> Outcome {
    match group(number) {
        Group::Nobody => ILLEGAL,
        _ => Outcome::Done,
    }
}

/// hgeip is not written.
fn written_in_m(number: u64) -> Outcome {
    match number {
        0xe12 => ILLEGAL,
        _ => in_m(number),
    }
}

fn in_hs(number: u64) -> Outcome {
    match group(number) {
        Group::M | Group::Nobody => ILLEGAL,
        _ => Outcome::Done,
    }
}

fn in_vs(number: u64) -> Outcome {
    match group(number) {
        Group::S => Outcome::Done,
        Group::Vs | Group::H => VIRTUAL,
        Group::M | Group::Nobody => ILLEGAL,
    }
}

fn in_vu(number: u64) -> Outcome {
    match group(number) {
        Group::S | Group::Vs | Group::H => VIRTUAL,
        Group::M | Group::Nobody => ILLEGAL,
    }
}

/// All cases.
pub fn cases() -> Vec<Case> {
    PLANS.iter().map(made).collect()
}

/// The case at a place among all.
pub fn case(place: usize) -> Option<Case> {
    PLANS.get(place).map(made)
}

fn made(plan: &Plan) -> Case {
    let mut rng = Rng::new(1);
    let mut hart = filled(plan.mode, &mut rng);
    if plan.name == REFUSED_HART {
        assert!(hart.put_register(MEPC, 0b10));
    }
    let numbers = often(&(plan.numbers)(), &mut rng);
    let accesses = numbers.into_iter().map(|number| Access {
        form: plan.form,
        number,
        value: rng.number(),
        writes: true,
        word: word(number),
    });
    Case {
        name: plan.name,
        form: plan.form,
        hart,
        words: call::words(&hart),
        accesses: accesses.collect(),
        round: if plan.name == LONGEST {
            200_000
        } else {
            50_000
        },
        meant: plan.meant,
    }
}

/// The numbers, each as often as keeps them all within 4096, in a random order: nobody shall learn it.
fn often(numbers: &[u64], rng: &mut Rng) -> Vec<u64> {
    let mut numbers = numbers.repeat(NUMBERS as usize / numbers.len());
    for last in (1..numbers.len()).rev() {
        numbers.swap(last, rng.below(last as u64 + 1) as usize);
    }
    numbers
}

/// The word of an instruction that accesses a register: csrrs. It is taken for every form, since nothing decodes it.
fn word(number: u64) -> u32 {
    (number as u32) << 20 | 0x2573
}

const MSTATUS: u64 = 0x300;
const MEDELEG: u64 = 0x302;
const MEPC: u64 = 0x341;
const HSTATUS: u64 = 0x600;
const HEDELEG: u64 = 0x602;
const MPRV: u64 = 1 << 17;
/// TVM of mstatus, VTVM of hstatus.
const TVM: u64 = 1 << 20;

/// A hart in a mode whose registers random writes have filled. What can be delegated is, so that traps go to M, HS and VS; MPRV, TVM
/// and VTVM are clear.
fn filled((v, privilege): Mode, rng: &mut Rng) -> Hart {
    let mut writer = Hart::new(0, 3, 0);
    for number in listed() {
        writer.write(number, rng.bits(), 0);
    }
    writer.write(MEDELEG, !0, 0);
    writer.write(HEDELEG, !0, 0);
    writer.clear(MSTATUS, MPRV | TVM, true, 0);
    writer.clear(HSTATUS, TVM, true, 0);
    let mut hart = Hart::new(v, privilege, 0x1000);
    for (number, value) in writer.registers() {
        assert!(hart.put_register(number, value));
    }
    hart
}

/// Every number from 0 to 4095 by every form, a set and a clear also where they don't write, on a hart in each mode.
pub fn every() -> impl Iterator<Item = (Hart, Access)> {
    let forms = [
        (Form::Read, false),
        (Form::Write, true),
        (Form::Set, true),
        (Form::Set, false),
        (Form::Clear, true),
        (Form::Clear, false),
    ];
    let mut rng = Rng::new(2);
    MODES.into_iter().flat_map(move |mode| {
        let hart = filled(mode, &mut rng);
        let mut rng = rng.clone();
        (0..NUMBERS).flat_map(move |number| {
            let value = rng.number();
            forms.map(|(form, writes)| {
                let access = Access {
                    form,
                    number,
                    value,
                    writes,
                    word: word(number),
                };
                (hart, access)
            })
        })
    })
}
