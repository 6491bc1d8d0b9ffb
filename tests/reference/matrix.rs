// Matrix packs: which packs agree with given bytes, and the verdict on them. Where a format is
// stated, it is that of the deviations in Mode 1: mapped, or IEEE where it is not. Mode 2 does not
// see it.

use crate::verdict::{first_that_holds, judge, Verdict};

pub const GREATEST_N: usize = 64;

/// What the control bytes say: one byte in Mode 1, two in Mode 2.
#[derive(Clone, Copy)]
pub struct Control {
    pub mode: u8,
    pub sparse: bool,
    pub c_mapped: bool,
    pub c_length: usize,
    pub s_mapped: bool,
    pub s_length: usize,
}

impl Control {
    pub fn bytes(&self) -> Vec<u8> {
        let sparse = self.sparse as usize;
        if self.mode == 1 {
            return vec![(16 * self.s_length + 8 * sparse + self.c_length) as u8];
        }
        vec![
            (128 + 32 * sparse + 16 * self.c_mapped as usize + self.c_length) as u8,
            (16 * self.s_mapped as usize + self.s_length) as u8,
        ]
    }

    /// What the control bytes of a pack say, which are all there.
    pub fn read(bytes: &[u8], stated: bool) -> Control {
        let byte = bytes[1];
        let field = |byte: u8, low: u8, count: u8| (byte >> low & ((1 << count) - 1)) as usize;
        if field(byte, 7, 1) == 0 {
            return Control {
                mode: 1,
                sparse: field(byte, 3, 1) == 1,
                c_mapped: true,
                c_length: field(byte, 0, 3),
                s_mapped: stated,
                s_length: field(byte, 4, 3),
            };
        }
        Control {
            mode: 2,
            sparse: field(byte, 5, 1) == 1,
            c_mapped: field(byte, 4, 1) == 1,
            c_length: field(byte, 0, 4),
            s_mapped: field(bytes[2], 4, 1) == 1,
            s_length: field(bytes[2], 0, 4),
        }
    }
}

#[derive(Clone, Copy, PartialEq, Eq)]
pub enum Role {
    Deviation,
    Coefficient,
}

/// The value lengths that a format allows in a mode.
pub fn allowed_lengths(mode: u8, mapped: bool) -> &'static [usize] {
    match (mode, mapped) {
        (1, true) => &[0, 1, 2, 3, 4, 5, 6, 7],
        (1, false) => &[0, 2, 4],
        (_, true) => &[0, 1, 2, 3, 4, 5, 6, 7, 8],
        (_, false) => &[0, 2, 4, 8],
    }
}

/// The formats of coefficients and of deviations that go together in a mode.
fn allowed_formats(mode: u8, stated: bool) -> &'static [(bool, bool)] {
    match (mode, stated) {
        (1, true) => &[(true, true)],
        (1, false) => &[(true, false)],
        _ => &[(false, false), (false, true), (true, false), (true, true)],
    }
}

/// Whether a format flag stands with no values behind it. Mode 1 has no such flags.
pub fn flag_alone(mode: u8, mapped: bool, length: usize) -> bool {
    mode == 2 && mapped && length == 0
}

/// All that the control bytes of an N by N pack may say in a mode.
pub fn lawful_controls(n: usize, mode: u8, stated: bool) -> Vec<Control> {
    let mut list = Vec::new();
    for &(c_mapped, s_mapped) in allowed_formats(mode, stated) {
        for &c_length in allowed_lengths(mode, c_mapped) {
            for &s_length in allowed_lengths(mode, s_mapped) {
                for sparse in [false, true] {
                    if flag_alone(mode, c_mapped, c_length) || flag_alone(mode, s_mapped, s_length)
                    {
                        continue;
                    }
                    if sparse && c_length == 0 {
                        continue;
                    }
                    if n == 1 && c_length > 0 {
                        continue;
                    }
                    if s_length == 0 && c_length == 0 {
                        continue;
                    }
                    list.push(Control {
                        mode,
                        sparse,
                        c_mapped,
                        c_length,
                        s_mapped,
                        s_length,
                    });
                }
            }
        }
    }
    list
}

pub fn coefficient_count(n: usize) -> usize {
    n * (n - 1) / 2
}

pub fn vector_length(n: usize) -> usize {
    (coefficient_count(n) + 7) / 8
}

/// The number that an IEEE word of 2, 4 or 8 bytes stands for.
fn ieee_number(word: u64, length: usize) -> f64 {
    match length {
        2 => {
            let sign = if word & 0x8000 != 0 { -1.0 } else { 1.0 };
            let exponent = (word >> 10 & 0x1F) as i32;
            let fraction = (word & 0x3FF) as f64;
            let size = if exponent == 0x1F {
                if fraction == 0.0 {
                    f64::INFINITY
                } else {
                    f64::NAN
                }
            } else if exponent == 0 {
                fraction / 1024.0 * 2f64.powi(-14)
            } else {
                (1.0 + fraction / 1024.0) * 2f64.powi(exponent - 15)
            };
            sign * size
        }
        4 => f32::from_bits(word as u32) as f64,
        _ => f64::from_bits(word),
    }
}

/// Whether a whole word keeps its rule, told by the number it stands for: a mapped word lies in
/// its range; an IEEE deviation is finite with the sign clear; an IEEE coefficient lies from -1
/// to 1.
pub fn lawful_word(word: u64, length: usize, mapped: bool, role: Role) -> bool {
    if mapped {
        // The scaled value over a unit of 2^(8L - 2), which lies from -1 to 1 unit.
        let unit = 1i128 << (8 * length - 2);
        let scaled = word as i128 - unit;
        return -unit <= scaled && scaled <= unit;
    }
    let number = ieee_number(word, length);
    match role {
        Role::Deviation => number.is_finite() && number.is_sign_positive(),
        Role::Coefficient => -1.0 <= number && number <= 1.0,
    }
}

/// Whether a word that begins with these bytes has a lawful ending. The ending of noughts is the
/// nearest to nought, so if any ending is lawful that one is.
pub fn has_lawful_ending(begun: &[u8], length: usize, mapped: bool, role: Role) -> bool {
    let mut word: u64 = 0;
    for i in 0..length {
        word = word * 256 + if i < begun.len() { begun[i] as u64 } else { 0 };
    }
    lawful_word(word, length, mapped, role)
}

/// How many bytes the shortest pack with this size and control has behind its control bytes, if its
/// bytes there agree with `rest`.
fn shortest_behind_control(n: usize, control: &Control, rest: &[u8]) -> Option<usize> {
    let m = coefficient_count(n);
    let (c_length, s_length) = (control.c_length, control.s_length);
    let vector_bytes = if control.sparse { vector_length(n) } else { 0 };

    // The bits of the vector that are there, the first in the top of the first byte.
    let mut bits = Vec::new();
    for &byte in rest.iter().take(vector_bytes) {
        for k in 0..8 {
            bits.push(byte & (128 >> k) != 0);
        }
    }
    if bits.iter().skip(m).any(|&bit| bit) {
        return None;
    }
    let sent_so_far = bits.iter().filter(|&&bit| bit).count();
    let bits_to_come = m - bits.len().min(m);

    // All the counts of coefficients that the bits to come may still make, the shortest pack being
    // the one with the fewest.
    let coefficients = if control.sparse {
        (sent_so_far..=sent_so_far + bits_to_come).find(|&count| count > 0 || s_length > 0)?
    } else if c_length > 0 {
        m
    } else {
        0
    };

    // Each word of which something is there must have a lawful ending. Such words come only behind
    // a whole vector, where the count of coefficients is certain.
    let values = rest.get(vector_bytes..).unwrap_or(&[]);
    let deviations = if s_length > 0 { n } else { 0 };
    let words = (0..deviations)
        .map(|i| (i * s_length, s_length, control.s_mapped, Role::Deviation))
        .chain((0..coefficients).map(|i| {
            (
                n * s_length + i * c_length,
                c_length,
                control.c_mapped,
                Role::Coefficient,
            )
        }));
    for (start, length, mapped, role) in words {
        if start >= values.len() {
            break;
        }
        let end = (start + length).min(values.len());
        if !has_lawful_ending(&values[start..end], length, mapped, role) {
            return None;
        }
    }
    Some(vector_bytes + n * s_length + coefficients * c_length)
}

/// The shortest matrix pack that agrees with the bytes: all sizes, both modes and all that their
/// control bytes may say are tried.
pub fn shortest(bytes: &[u8], stated: bool) -> Option<usize> {
    let agrees = |place: usize, byte: u8| place >= bytes.len() || bytes[place] == byte;
    let mut best: Option<usize> = None;
    for n in (1..=GREATEST_N).filter(|&n| agrees(0, n as u8)) {
        for mode in [1, 2] {
            for control in lawful_controls(n, mode, stated) {
                let written = control.bytes();
                if !(0..written.len()).all(|i| agrees(1 + i, written[i])) {
                    continue;
                }
                let head = 1 + written.len();
                let rest = bytes.get(head..).unwrap_or(&[]);
                if let Some(more) = shortest_behind_control(n, &control, rest) {
                    best = Some(best.map_or(head + more, |b| b.min(head + more)));
                }
            }
        }
    }
    best
}

/// Why the last of these bytes is refused, by the order within one byte.
fn reason(bytes: &[u8], stated: bool) -> u32 {
    let last = bytes[bytes.len() - 1];
    if bytes.len() == 1 {
        return first_that_holds(&[(last == 0x00, 1), (last == 0x80, 3), (last > 64, 2)]);
    }
    let n = bytes[0] as usize;
    let head = if bytes[1] & 0x80 == 0 { 2 } else { 3 };
    if bytes.len() <= head {
        return control_reason(n, &bytes[1..], stated);
    }
    let control = Control::read(bytes, stated);
    let vector_end = head + vector_length(n);
    if !control.sparse || bytes.len() > vector_end {
        return 11;
    }
    let whole = bytes.len() == vector_end;
    let unused = 8 * vector_length(n) - coefficient_count(n);
    let unused_bits = ((1u32 << unused) - 1) as u8;
    let no_bit = bytes[head..].iter().all(|&byte| byte == 0);
    first_that_holds(&[
        (whole && last & unused_bits != 0, 10),
        (whole && no_bit && control.s_length == 0, 9),
    ])
}

/// Why the last of these control bytes is refused.
fn control_reason(n: usize, control: &[u8], stated: bool) -> u32 {
    let last = control[control.len() - 1];
    let wrong = |mode: u8, mapped: bool, length: u8| {
        !allowed_lengths(mode, mapped).contains(&(length as usize))
    };
    if control[0] & 0x80 == 0 {
        let (s_length, c_length) = (last >> 4, last & 0x07);
        return first_that_holds(&[
            (wrong(1, stated, s_length), 6),
            (last & 0x08 != 0 && c_length == 0, 7),
            (n == 1 && c_length > 0, 8),
            (s_length == 0 && c_length == 0, 9),
        ]);
    }
    let length = last & 0x0F;
    if control.len() == 1 {
        return first_that_holds(&[
            (last & 0x40 != 0, 5),
            (wrong(2, last & 0x10 != 0, length), 6),
            (last & 0x10 != 0 && length == 0, 16),
            (last & 0x20 != 0 && length == 0, 7),
            (n == 1 && length > 0, 8),
        ]);
    }
    first_that_holds(&[
        (last & 0x80 != 0, 4),
        (last & 0x60 != 0, 5),
        (wrong(2, last & 0x10 != 0, length), 6),
        (last & 0x10 != 0 && length == 0, 16),
        (length == 0 && control[0] & 0x0F == 0, 9),
    ])
}

pub fn verdict(bytes: &[u8], stated: bool) -> Verdict {
    judge(
        bytes,
        |bytes| shortest(bytes, stated),
        |bytes| reason(bytes, stated),
    )
}
