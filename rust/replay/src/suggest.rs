//! Sentences about words that are none of the language, with what to write instead.

use crate::forms::{value, Form, FORMS};
use crate::registers;

/// How many characters of a word or a path a sentence shows.
const SHOWN: usize = 40;

/// The mark that some editors put before a text.
const BYTE_ORDER_MARK: &[u8] = b"\xef\xbb\xbf";

/// What follows where the word of an instruction is missing. Scripts had none before 2026-02, when a trap's value was 0; the
/// hypervisor loads and stores came later.
pub fn no_word(form: &Form) -> &'static str {
    match form.word {
        "hlv" | "hlvx" | "hsv" => ": the instruction's 32 bits",
        _ => {
            ": the instruction's 32 bits, which older scripts lack; with 0 the answers are as they were"
        }
    }
}

/// A word or a name in a sentence: printable, short, in quotes.
pub fn shown(bytes: &[u8]) -> String {
    // no character has more than four bytes
    let text = printable(&bytes[..bytes.len().min(4 * SHOWN + 4)]);
    let dots = if text.chars().nth(SHOWN).is_some() {
        ".."
    } else {
        ""
    };
    let start: String = text.chars().take(SHOWN).collect();
    format!("`{start}{dots}`")
}

/// Bytes as text, with what nobody could see escaped; a character that is cut off at their end is left out.
pub fn printable(bytes: &[u8]) -> String {
    let escaped = |character: char| match character {
        '\'' | '"' | '\\' => character.to_string(),
        _ => character.escape_debug().to_string(),
    };
    let whole = match std::str::from_utf8(bytes) {
        Err(error) if error.error_len().is_none() => &bytes[..error.valid_up_to()],
        _ => bytes,
    };
    match std::str::from_utf8(whole) {
        Ok(text) => text.chars().map(escaped).collect(),
        Err(_) => bytes.escape_ascii().to_string(),
    }
}

/// A word that begins no line.
pub fn word(text: &[u8]) -> String {
    if text.starts_with(BYTE_ORDER_MARK) {
        return "a byte-order mark (bytes ef bb bf) stands before the word: save the script without it".to_owned();
    }
    let controls = text.iter().filter(|byte| byte.is_ascii_control()).count();
    if controls > 1 || std::str::from_utf8(text).is_err() {
        return format!(
            "{} is no word but raw bytes: a script is text, and names an image by `file BASE PATH`",
            shown(text)
        );
    }
    let lower = text[..text.len().min(SHOWN)].to_ascii_lowercase();
    let words: Vec<&str> = FORMS.iter().map(|form| form.word).collect();
    let hint = if words.iter().any(|word| word.as_bytes() == lower) {
        format!(": words are lower case, {}", shown(&lower))
    } else if let Some(line) = with_width(&lower) {
        format!(": the width is a number, {}", shown(line.as_bytes()))
    } else {
        let found = within(&lower, &words);
        meant(&if found.is_empty() {
            nearest(&lower, &words)
        } else {
            found
        })
    };
    format!("{} is no word of the language{hint}", shown(text))
}

/// The line for an access that was named as in the manual, with its width.
fn with_width(lower: &[u8]) -> Option<String> {
    let (name, ending) = std::str::from_utf8(lower).ok()?.split_once('.')?;
    let form = FORMS.iter().find(|form| form.word == name)?;
    let numbers = form.takes.contains(&"WIDTH").then_some(form.takes)?;
    let width = match ending {
        "b" | "bu" => 1,
        "h" | "hu" => 2,
        "w" | "wu" => 4,
        "d" => 8,
        _ => return None,
    };
    let signed = u8::from(!ending.ends_with('u'));
    let numbers = numbers.iter().map(|number| match *number {
        "WIDTH" => width.to_string(),
        "SIGNED" => signed.to_string(),
        number => number.to_owned(),
    });
    let numbers: Vec<String> = numbers.collect();
    Some(format!("{name} {}", numbers.join(" ")))
}

/// A word where a number belongs, which may be that of a register.
pub fn number(text: &[u8], register: bool) -> String {
    let bad = format!("{} is no number: ", shown(text));
    let lower = text[..text.len().min(SHOWN)].to_ascii_lowercase();
    let digits: Vec<u8> = lower
        .iter()
        .copied()
        .filter(|b| !b"_'".contains(b))
        .collect();
    if let Some(after) = lower
        .strip_prefix(b"0x")
        .filter(|after| value(after).is_some())
    {
        return format!(
            "{bad}numbers are hexadecimal without a prefix, {}",
            shown(after)
        );
    }
    if value(&digits).is_some() {
        return format!("{bad}a number's digits stand together, {}", shown(&digits));
    }
    if text.contains(&b',') {
        return format!("{bad}numbers are separated by blanks, without commas");
    }
    if register {
        if let Some(hint) = register_number(&lower) {
            return format!("{bad}{hint}");
        }
    }
    if text.len() > 16 && text.iter().all(u8::is_ascii_hexdigit) {
        return format!("{bad}it has {} digits, and 16 are the most", text.len());
    }
    format!("{bad}a number is 1 to 16 hexadecimal digits")
}

/// A number that is no word of an instruction.
pub fn long_word(number: u64) -> String {
    format!("WORD is the instruction's 32 bits, at most ffffffff, not {number:x}")
}

/// The number of the register that was named, or almost.
fn register_number(lower: &[u8]) -> Option<String> {
    let names: Vec<&str> = registers::listed().map(|(_, name)| name).collect();
    let near = nearest(lower, &names);
    let numbered = registers::listed().filter(|(_, name)| near.contains(name));
    let numbered: Vec<String> = numbered
        .map(|(number, name)| format!("{name}, which is {number:x}"))
        .collect();
    match near[..] {
        [] => None,
        [name] if name.as_bytes() == lower => {
            Some(format!("registers go by number: {}", numbered[0]))
        }
        _ => Some(format!("did you mean {}?", numbered.join(", or "))),
    }
}

fn meant(words: &[&str]) -> String {
    if words.is_empty() {
        return String::new();
    }
    format!(": did you mean {}?", words.join(" or "))
}

/// The words in which a longer piece stands.
fn within<'a>(piece: &[u8], words: &[&'a str]) -> Vec<&'a str> {
    let Ok(piece) = std::str::from_utf8(piece) else {
        return Vec::new();
    };
    let found = words
        .iter()
        .filter(|word| piece.len() > 2 && word.contains(piece));
    found.copied().collect()
}

/// The words that are one or two slips away, and none nearer.
fn nearest<'a>(text: &[u8], words: &[&'a str]) -> Vec<&'a str> {
    let slips = |word: &str| distance(text, word.as_bytes());
    let near = words
        .iter()
        .filter(|word| text.len().abs_diff(word.len()) <= 2);
    let least = near
        .clone()
        .map(|word| slips(word))
        .min()
        .unwrap_or(usize::MAX);
    if least > 2 || 2 * least >= text.len() {
        return Vec::new();
    }
    near.filter(|word| slips(word) == least).copied().collect()
}

/// How many bytes were changed, left out, added, or exchanged with their neighbour.
fn distance(one: &[u8], other: &[u8]) -> usize {
    let mut rows = vec![vec![0; other.len() + 1]; one.len() + 1];
    for i in 0..=one.len() {
        for j in 0..=other.len() {
            rows[i][j] = if i == 0 || j == 0 {
                i + j
            } else {
                let same = usize::from(one[i - 1] != other[j - 1]);
                let exchanged =
                    i > 1 && j > 1 && one[i - 1] == other[j - 2] && one[i - 2] == other[j - 1];
                let before = if exchanged {
                    rows[i - 2][j - 2] + 1
                } else {
                    usize::MAX
                };
                before
                    .min(rows[i - 1][j - 1] + same)
                    .min(rows[i - 1][j] + 1)
                    .min(rows[i][j - 1] + 1)
            };
        }
    }
    rows[one.len()][other.len()]
}
