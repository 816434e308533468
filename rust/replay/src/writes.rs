//! What a write asked for and did not get.

use crate::fields::{Field, Writer};
use crate::registers::{bits, fields, meaning, visible, SATP, VSATP};
use crate::views;

/// Why a write to satp or vsatp does nothing.
pub fn ignored(number: u64, asked: u64) -> Option<String> {
    let mode = fields(number).iter().find(|field| field.name == "MODE")?;
    let value = mode.of(asked);
    (matches!(number, SATP | VSATP) && !mode.takes(value))
        .then(|| format!("MODE is {value:x}, it may hold {}", mode.choices()))
}

/// What of a write was not stored: a sentence for each wider field that kept what it held, one for each reason why bits did, and one
/// for bits that are always 0. `asked` is the word that the write asked for, `new` what the register shows after it.
pub fn not_stored(number: u64, asked: u64, new: u64) -> Vec<String> {
    let wider = fields(number).iter().filter(|field| !field.is_bit());
    let mut sentences: Vec<String> = wider
        .filter_map(|field| field_kept(number, field, asked, new))
        .collect();
    sentences.extend(bits_kept(number, asked, new));
    match bits(asked & !visible(number, asked)) {
        (0, _) => {}
        (1, bit) => sentences.push(format!("bit {bit} is not stored: it is always 0")),
        (_, bits) => sentences.push(format!("bits {bits} are not stored: they are always 0")),
    }
    sentences
}

/// A wider field that kept what it held. To write 0 to one that never changes is common, and asks for nothing.
fn field_kept(number: u64, field: &Field, asked: u64, new: u64) -> Option<String> {
    let (name, value) = (field.name, field.of(asked));
    let (choices, kept) = (field.choices(), meaning(number, field, field.of(new)));
    if field.takes(value) || field.is_constant() && value == 0 {
        return None;
    }
    Some(if field.is_constant() {
        format!("{name} {value:x} is not stored: it is always {choices}")
    } else {
        format!("{name} {value:x} is not stored, it may hold {choices}: it keeps {kept}")
    })
}

/// Why a write left a bit as it was.
#[derive(Clone, Copy, PartialEq, Eq)]
enum Why {
    /// It is always 1.
    One,
    /// Another register alone writes it.
    By(&'static str),
    /// It comes in with the hart.
    Given,
    /// The view's gate shuts it off.
    Shut,
}

impl Why {
    fn of(field: &Field) -> Self {
        match field.writer {
            Writer::Own if field.is_constant() => Why::One,
            Writer::Own => Why::Shut,
            Writer::Other(register) => Why::By(register),
            Writer::Nothing => Why::Given,
        }
    }
}

/// The bits that a write left as they were: a sentence for each reason.
fn bits_kept(number: u64, asked: u64, new: u64) -> Vec<String> {
    let kept = |field: &&Field| field.is_bit() && field.of(asked) != field.of(new);
    let mut left: Vec<&Field> = fields(number).iter().filter(kept).collect();
    let mut sentences = Vec::new();
    while let Some(why) = left.first().map(|field| Why::of(field)) {
        let (same, others): (Vec<_>, Vec<_>) =
            left.into_iter().partition(|field| Why::of(field) == why);
        sentences.push(bits_sentence(number, asked, why, &same));
        left = others;
    }
    sentences
}

/// What was asked of some bits, and why they were left.
fn bits_sentence(number: u64, asked: u64, why: Why, bits: &[&Field]) -> String {
    let names = bits
        .iter()
        .map(|bit| format!("{} {}", bit.name, bit.of(asked)));
    let names = names.collect::<Vec<_>>().join(", ");
    let one = bits.len() == 1;
    let why = match (why, one) {
        (Why::One, true) => "it is always 1".to_owned(),
        (Why::One, false) => "they are always 1".to_owned(),
        (Why::By(register), true) => format!("{register} alone writes it"),
        (Why::By(register), false) => format!("{register} alone writes them"),
        (Why::Given, true) => "it comes in with the hart".to_owned(),
        (Why::Given, false) => "they come in with the hart".to_owned(),
        (Why::Shut, _) => views::closed(number, bits).unwrap_or_default(),
    };
    let is = if one { "is" } else { "are" };
    format!("{names} {is} not stored: {why}")
}
