//! The words that begin a line, what each takes, and numbers.

/// A first word of a line, and what it takes.
pub struct Form {
    pub word: &'static str,
    pub takes: &'static [&'static str],
}

impl Form {
    /// What it takes, as a sentence.
    pub fn usage(&self) -> String {
        if self.takes.is_empty() {
            return format!("{} takes no number", self.word);
        }
        format!("{} takes {}", self.word, self.takes.join(" "))
    }

    /// Whether it takes the word of an instruction, which then comes last.
    pub fn is_worded(&self) -> bool {
        self.takes.last() == Some(&"WORD")
    }
}

const fn form(word: &'static str, takes: &'static [&'static str]) -> Form {
    Form { word, takes }
}

/// The most numbers that a line takes.
pub const MOST: usize = 5;

pub const FORMS: [Form; 26] = [
    form("image", &["BASE", "LENGTH"]),
    form("file", &["BASE", "PATH"]),
    form("put", &["ADDRESS", "VALUE"]),
    form("hart", &["V", "P", "PC"]),
    form("reg", &["NUMBER", "VALUE"]),
    form("fetch", &["ADDRESS", "WIDTH"]),
    form("load", &["ADDRESS", "WIDTH"]),
    form("store", &["ADDRESS", "WIDTH"]),
    form("read", &["N", "WORD"]),
    form("write", &["N", "VALUE", "WORD"]),
    form("set", &["N", "VALUE", "WRITES", "WORD"]),
    form("clear", &["N", "VALUE", "WRITES", "WORD"]),
    form("trap", &["CAUSE", "VALUE", "SECOND", "WORD", "FLAG"]),
    form("ecall", &[]),
    form("ebreak", &[]),
    form("mret", &["WORD"]),
    form("sret", &["WORD"]),
    form("wfi", &["WORD"]),
    form("sfence.vma", &["WORD"]),
    form("hfence.vvma", &["WORD"]),
    form("hfence.gvma", &["WORD"]),
    form("interrupt", &[]),
    form("hlv", &["WIDTH", "SIGNED", "ADDRESS", "WORD"]),
    form("hlvx", &["WIDTH", "ADDRESS", "WORD"]),
    form("hsv", &["WIDTH", "ADDRESS", "VALUE", "WORD"]),
    form("show", &[]),
];

/// The number that 1 to 16 hexadecimal digits are.
pub fn value(word: &[u8]) -> Option<u64> {
    if word.is_empty() || word.len() > 16 {
        return None;
    }
    word.iter().try_fold(0, |sum, &byte| {
        let digit = char::from(byte).to_digit(16)?;
        Some(sum << 4 | u64::from(digit))
    })
}
