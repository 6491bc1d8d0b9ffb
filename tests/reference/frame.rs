// Frames, and the report on a file of lines that spell frames in hexadecimal.

use crate::verdict::Verdict;
use crate::{array, matrix};
use std::io::{self, BufRead, Write};

pub const MATRIX_KEY: [u8; 16] = [
    0x06, 0x0E, 0x2B, 0x34, 0x02, 0x05, 0x01, 0x01, 0x0E, 0x01, 0x03, 0x03, 0x21, 0x00, 0x00, 0x00,
];
pub const ARRAY_KEY: [u8; 16] = [
    0x06, 0x0E, 0x2B, 0x34, 0x02, 0x05, 0x01, 0x01, 0x0E, 0x01, 0x03, 0x03, 0x06, 0x00, 0x00, 0x00,
];

/// The greatest frame, in bytes.
pub const GREATEST_FRAME: usize = 32832;

/// The shortest BER length of a value, up to two bytes behind 82.
pub fn ber_length(length: usize) -> Vec<u8> {
    if length <= 0x7F {
        vec![length as u8]
    } else if length <= 0xFF {
        vec![0x81, length as u8]
    } else {
        vec![0x82, (length / 256) as u8, (length % 256) as u8]
    }
}

/// The bytes of upper-case hexadecimal, or nothing for another character or an odd count.
pub fn bytes_of_hex(text: &[u8]) -> Option<Vec<u8>> {
    const DIGITS: &[u8] = b"0123456789ABCDEF";
    if text.len() % 2 != 0 {
        return None;
    }
    let mut bytes = Vec::with_capacity(text.len() / 2);
    for pair in text.chunks(2) {
        let high = DIGITS.iter().position(|digit| *digit == pair[0])?;
        let low = DIGITS.iter().position(|digit| *digit == pair[1])?;
        bytes.push((16 * high + low) as u8);
    }
    Some(bytes)
}

pub fn hex_of_bytes(bytes: &[u8]) -> String {
    let mut text = String::with_capacity(2 * bytes.len());
    for byte in bytes {
        for digit in [byte / 16, byte % 16] {
            text.push(
                char::from_digit(digit as u32, 16)
                    .unwrap()
                    .to_ascii_uppercase(),
            );
        }
    }
    text
}

/// The kind of a frame, and the verdict on it: complete with the length of its value.
pub fn verdict(frame: &[u8]) -> (char, Verdict) {
    let bad = |reason| Verdict::Refused { reason, place: 0 };
    if frame.len() > GREATEST_FRAME {
        return ('-', bad(25));
    }
    if frame.len() < 16 {
        return ('-', bad(24));
    }
    let kind = if frame[..16] == MATRIX_KEY {
        'S'
    } else if frame[..16] == ARRAY_KEY {
        'M'
    } else {
        return ('-', bad(21));
    };

    // The length: how many bytes it takes, whether they are there, and whether the form is due.
    let behind_key = &frame[16..];
    let form = match behind_key.first() {
        None => return (kind, bad(24)),
        Some(0x00..=0x7F) => 1,
        Some(0x81) => 2,
        Some(0x82) => 3,
        Some(_) => return (kind, bad(22)),
    };
    if behind_key.len() < form {
        return (kind, bad(24));
    }
    let length = match form {
        1 => behind_key[0] as usize,
        2 => behind_key[1] as usize,
        _ => 256 * behind_key[1] as usize + behind_key[2] as usize,
    };
    if ber_length(length) != behind_key[..form] {
        return (kind, bad(22));
    }
    let value = &behind_key[form..];
    if value.len() != length {
        return (kind, bad(23));
    }

    // Frames take deviations as IEEE where the pack does not say.
    let verdict = if kind == 'S' {
        matrix::verdict(value, false)
    } else {
        array::verdict(value)
    };
    match verdict {
        Verdict::Complete(pack) if pack < length => (kind, bad(23)),
        _ => (kind, verdict),
    }
}

/// Kind, word and the two numbers for one line, without its LF.
fn examine(line: &[u8]) -> (char, &'static str, usize, usize) {
    if line.len() > 2 * GREATEST_FRAME {
        return ('-', "BAD", 25, 0);
    }
    let frame = match bytes_of_hex(line) {
        None => return ('-', "BAD", 20, 0),
        Some(frame) => frame,
    };
    match verdict(&frame) {
        (kind, Verdict::Complete(length)) => (kind, "OK", length, 0),
        (kind, Verdict::Unfinished(missing)) => (kind, "CUT", missing, 0),
        (kind, Verdict::Refused { reason, place }) => (kind, "BAD", reason as usize, place),
    }
}

/// The report on the lines of `input`.
pub fn report(input: &mut dyn BufRead, output: &mut dyn Write) -> io::Result<()> {
    let mut number = 0u64;
    let mut line = Vec::new();
    loop {
        line.clear();
        if input.read_until(b'\n', &mut line)? == 0 {
            return Ok(());
        }
        number += 1;
        let (kind, word, first, second) = if line.last() == Some(&b'\n') {
            examine(&line[..line.len() - 1])
        } else {
            ('-', "OPEN", 0, 0)
        };
        writeln!(output, "{} {} {} {} {}", number, kind, word, first, second)?;
    }
}
