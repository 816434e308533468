//! Keys, in the bytes that a terminal sends for them.

/// What a key asks for.
#[derive(Clone, Copy, Debug, PartialEq, Eq)]
pub enum Key {
    /// The next read.
    Press,
    /// The end of this translation.
    End,
    Help,
    Leave,
}

/// What the keys ask for that sent these bytes.
pub fn keys(mut bytes: &[u8]) -> Vec<Key> {
    let mut keys = Vec::new();
    while let Some(first) = bytes.first() {
        keys.push(match first {
            // Ctrl-C too, where the terminal makes no signal of it
            b'q' | b'Q' | 3 => Key::Leave,
            b'e' | b'E' => Key::End,
            b'?' => Key::Help,
            _ => Key::Press,
        });
        bytes = &bytes[length(bytes)..];
    }
    keys
}

/// How many bytes the first key sent: one, a character's, or an escape sequence's.
fn length(bytes: &[u8]) -> usize {
    let end = |from: usize, ends: fn(&u8) -> bool| {
        let rest = bytes.get(from..).unwrap_or_default();
        let found = rest.iter().position(ends);
        found.map_or(bytes.len(), |at| from + at + 1)
    };
    match bytes {
        [0x1b, b'[', ..] => end(2, |byte| (0x40..0x7f).contains(byte)),
        [0x1b, b'O', ..] => bytes.len().min(3),
        [0x1b, ..] => bytes.len().min(2),
        [0xc0.., rest @ ..] => 1 + rest.iter().take_while(|byte| **byte >> 6 == 2).count(),
        _ => 1,
    }
}

#[cfg(test)]
mod tests {
    use super::*;

    #[test]
    fn letters_ask_for_more_than_a_press() {
        assert_eq!(keys(b""), []);
        assert_eq!(keys(b"\n x"), [Key::Press; 3]);
        assert_eq!(keys(b"e?qQE\x03"), {
            use Key::*;
            [End, Help, Leave, Leave, End, Leave]
        });
    }

    #[test]
    fn a_key_with_many_bytes_is_one_press() {
        for key in [
            &b"\x1b[A"[..],
            b"\x1b[15~",
            b"\x1b[1;5C",
            b"\x1bOP",
            b"\x1b",
            b"\x1bq",
            b"\x1b[",
            b"\x1bO",
            "é".as_bytes(),
            "字".as_bytes(),
            b"\xff",
        ] {
            assert_eq!(keys(key), [Key::Press], "{}", key.escape_ascii());
            let twice = [key, b"e"].concat();
            assert!(keys(&twice).len() <= 2, "{}", key.escape_ascii());
        }
        assert_eq!(keys(b"\x1b[Aq"), [Key::Press, Key::Leave]);
        assert_eq!(keys("éq".as_bytes()), [Key::Press, Key::Leave]);
    }
}
