//! A hart's words and the second program's hart.

use bench::call::{HartWords, HART_WORDS};
use second::hart::Hart;

/// The hart's words.
pub fn words_of_second(hart: &Hart) -> HartWords {
    let mut words = [0; HART_WORDS];
    words[..3].copy_from_slice(&[hart.v, hart.privilege, hart.pc]);
    for (place, word) in words[3..].iter_mut().enumerate() {
        let number = balcumentri::number(place).unwrap();
        *word = hart.stored(number).unwrap_or(0);
    }
    words
}

/// The hart with these words.
pub fn second_of_words(words: &HartWords) -> Hart {
    let mut hart = Hart::new(words[0], words[1], words[2]);
    for (place, value) in words[3..].iter().enumerate() {
        let number = balcumentri::number(place).unwrap();
        *hart.stored_mut(number).unwrap() = *value;
    }
    hart
}
