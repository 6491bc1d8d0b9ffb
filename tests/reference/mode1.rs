// Rows of packs with one control byte, under both stated formats, and of others that must not see
// the stated format.

use crate::corpus::greatest_word;
use crate::frame::hex_of_bytes;
use crate::matrix::{coefficient_count, lawful_controls, vector_length, Control, Role};
use crate::rows::{vector, whole_matrix, whole_pack, words_about, Rows, TABLE};
use std::io::{self, Write};

/// All that the single byte of an N by N pack may say.
pub fn controls(n: usize, stated: bool) -> Vec<Control> {
    lawful_controls(n, 1, stated)
}

/// A whole pack of Mode 1 with some words.
pub fn whole_single(n: usize, c: usize, s: (bool, usize), vector: Option<&[u8]>) -> Vec<u8> {
    let control = Control {
        mode: 1,
        sparse: vector.is_some(),
        c_mapped: true,
        c_length: c,
        s_mapped: s.0,
        s_length: s.1,
    };
    whole_pack(n, &control, vector)
}

/// The bit vectors to try with a control: none for a full pack, else one with a few bits, and one
/// without a bit beside deviations and the shortest or the longest coefficients.
pub fn ones(n: usize, control: &Control) -> Vec<Option<Vec<u8>>> {
    if !control.sparse {
        return vec![None];
    }
    let m = coefficient_count(n);
    let mut list = vec![Some(vector(n, &[0, m / 2, m - 1]))];
    if control.s_length > 0 && [1, 7].contains(&control.c_length) {
        list.push(Some(vector(n, &[])));
    }
    list
}

/// Packs of every shape: of all lengths at N = 3, else of those that are equal or alone.
pub fn shapes(n: usize, stated: bool) -> Vec<(Control, Vec<u8>)> {
    let mut list = Vec::new();
    for control in controls(n, stated) {
        let (c, s) = (control.c_length, control.s_length);
        if n == 3 || c == 0 || s == 0 || c == s {
            for ones in ones(n, &control) {
                list.push((control, whole_pack(n, &control, ones.as_deref())));
            }
        }
    }
    list
}

/// A whole pack of every control byte that these sizes may have, under both formats, as rows that
/// are cut after every byte: too many lines to be stored.
pub fn cuts(output: &mut dyn Write) -> io::Result<()> {
    for (stated, mark) in [(false, ' '), (true, '*')] {
        for n in [1, 2, 3, 16, 17, 64] {
            for control in controls(n, stated) {
                let ones = &ones(n, &control)[0];
                let pack = whole_pack(n, &control, ones.as_deref());
                writeln!(output, "s{}{}", mark, hex_of_bytes(&pack))?;
            }
        }
    }
    Ok(())
}

fn table(rows: &mut Rows) {
    for &(kind, text) in TABLE {
        if kind == 'S' {
            rows.hex_under(true, kind, text);
        }
    }
    // Figure 7 of ST 1010: deviations of four bytes, sparse, coefficients of three bytes.
    for stated in [false, true] {
        for n in ["02 4B 80", "03 4B A0"] {
            rows.hex_under(stated, 'S', n);
        }
        rows.hex_under(
            stated,
            's',
            "03 4B A0 3F800000 40000000 40800000 600000 200000",
        );
        rows.hex_under(stated, 's', "02 4B 80 7F7FFFFF 00000000 800000");
        rows.hex_under(stated, 's', "02 4B 80 80000000 7F800000 800000");
        rows.hex_under(stated, 's', "03 4B 00 3F800000 40000000 40800000 FF");
    }
}

fn sizes_and_controls(rows: &mut Rows) {
    for byte in (0..=0x42).chain([0x7F, 0x80, 0x81, 0xFF]) {
        rows.under(true, 'S', &[byte]);
    }
    for stated in [false, true] {
        for n in [1, 2, 3, 64] {
            for byte in 0..=0x7F {
                rows.under(stated, 'S', &[n, byte]);
            }
        }
        // The size is refused first.
        for n in [0x00, 0x41, 0x80, 0xFF] {
            rows.under(stated, 'S', &[n, 0x00]);
            rows.under(stated, 'S', &[n, 0x01, 0x40]);
        }
        // What is refused on the single byte is so whatever follows.
        for byte in [0x00, 0x08, 0x10, 0x30, 0x38, 0x58, 0x78] {
            rows.under(stated, 'S', &[2, byte, 0x80, 0x00, 0x00, 0x00]);
        }
    }
    // Mode 2 does not see the stated format; bit 7 of control byte 2 alone is 4.
    for byte in 0x80..=0xFF {
        rows.under(true, 'S', &[2, byte]);
    }
    for byte in [
        0x00, 0x01, 0x02, 0x03, 0x08, 0x09, 0x10, 0x11, 0x18, 0x19, 0x20, 0x40, 0x80, 0xFF,
    ] {
        rows.under(true, 'S', &[2, 0x80, byte]);
        rows.under(true, 'S', &[3, 0xB1, byte]);
    }
}

/// A pack with all its beginnings where it is short; else whole, and with equal lengths also one byte
/// short and cut about its vector.
fn cut(rows: &mut Rows, n: usize, stated: bool, control: &Control, ones: Option<&[u8]>) {
    let bytes = whole_pack(n, control, ones);
    if n < 16 || bytes.len() <= 100 {
        rows.under(stated, 's', &bytes);
        return;
    }
    rows.under(stated, 'S', &bytes);
    if control.c_length != control.s_length {
        return;
    }
    rows.under(stated, 'S', &bytes[..bytes.len() - 1]);
    if let Some(vector) = ones {
        rows.under(stated, 'S', &bytes[..2 + vector.len()]);
        rows.under(stated, 'S', &bytes[..3 + vector.len()]);
    }
}

/// Every length of coefficients and of deviations, full and sparse.
fn lengths(rows: &mut Rows, stated: bool) {
    for n in [1, 2, 3, 16, 17, 64] {
        for control in controls(n, stated) {
            // Full packs of the greatest size are long: some stand for all.
            let (c, s) = (control.c_length, control.s_length);
            if n == 64 && !control.sparse && c > 0 && c + s != 8 && (c, s) != (1, 0) {
                continue;
            }
            for ones in ones(n, &control) {
                cut(rows, n, stated, &control, ones.as_deref());
            }
        }
    }
    // Deviations that only mapped ones have.
    for s in [1, 3, 5, 6, 7] {
        rows.under(stated, 'S', &whole_single(2, 1, (true, s), None));
    }
}

/// Longer packs with all their beginnings; the longest of Mode 1, and its end.
fn long(rows: &mut Rows, stated: bool) {
    for (n, c, s) in [(16, 1, 2), (17, 1, 0), (17, 2, 2), (64, 0, 2), (64, 0, 4)] {
        rows.under(stated, 's', &whole_single(n, c, (stated, s), None));
    }
    for (n, c, s) in [(16, 7, 4), (17, 3, 4), (64, 1, 0), (64, 7, 2)] {
        let m = coefficient_count(n);
        for ones in [vec![0], vec![m - 1], vec![0, 7, 8, m - 2]] {
            let bytes = whole_single(n, c, (stated, s), Some(&vector(n, &ones)));
            rows.under(stated, 's', &bytes);
        }
    }
    let longest = if stated { 7 } else { 4 };
    let all: Vec<usize> = (0..2016).collect();
    let bytes = whole_single(64, 7, (stated, longest), Some(&vector(64, &all)));
    rows.under(stated, 'S', &bytes);
    rows.under(stated, 'S', &bytes[..bytes.len() - 1]);
}

/// The words about the greatest of each length: the first byte that makes it certain.
fn words(rows: &mut Rows) {
    for stated in [false, true] {
        for control in controls(2, stated) {
            let (c, s) = (control.c_length, control.s_length);
            if control.sparse || c > 0 && s > 0 {
                continue;
            }
            let (role, mapped, length) = if s > 0 {
                (Role::Deviation, stated, s)
            } else {
                (Role::Coefficient, true, c)
            };
            let head = [2, control.bytes()[0]];
            let greatest = greatest_word(length, mapped, role);
            let mut words = words_about(&greatest);
            for fill in [0x00, 0x7F, 0x80, 0xFF] {
                words.push(vec![fill; length]);
            }
            words.push([&[0x7C][..], &vec![0; length - 1]].concat());
            words.push([&[0x80][..], &vec![0; length - 1]].concat());
            rows.under(stated, 's', &[&head[..], &greatest, &greatest].concat());
            for word in words {
                rows.under(stated, 'S', &[&head[..], &word].concat());
                rows.under(stated, 'S', &[&head[..], &greatest, &word].concat());
            }
        }
        // A bad word behind good ones: each beginning up to it and past it.
        for text in [
            "03 01 80 80 81 00",
            "03 02 8000 8000 8001 00",
            "03 09 60 80 81 00",
            "03 29 20 7BFF 0000 7BFF 81",
            "03 29 20 7BFF 7C00 0000 80",
            "02 41 7F7FFFFF 7F800000 80",
            "02 41 7F7FFFFF 7F7FFFFF 81",
            "02 11 80 80 81",
            "02 11 80 81 80",
            "02 33 800000 800001 800000",
            "03 7F E0 80000000000000 80000000000000 80000000000001",
        ] {
            rows.hex_under(stated, 's', text);
        }
    }
}

/// Vectors: unused bits, no bit, bits in the first and last place, cut vectors.
fn vectors(rows: &mut Rows) {
    for stated in [false, true] {
        for n in [2usize, 3, 5, 17] {
            let m = coefficient_count(n);
            for s in [0, 2] {
                let head = whole_single(n, 1, (stated, s), Some(&[]))[..2].to_vec();
                for bit in m..8 * vector_length(n) {
                    for used in [&[0][..], &[]] {
                        let ones = [used, &[bit]].concat();
                        rows.under(stated, 'S', &[&head[..], &vector(n, &ones)].concat());
                    }
                }
                for ones in [&[][..], &[0], &[m - 1]] {
                    rows.under(stated, 'S', &[&head[..], &vector(n, ones)].concat());
                    if !ones.is_empty() {
                        let vector = vector(n, ones);
                        let bytes = whole_single(n, 2, (stated, s), Some(&vector));
                        rows.under(stated, 'S', &bytes);
                        rows.under(stated, 'S', &bytes[..bytes.len() - 1]);
                    }
                }
                rows.under(stated, 'S', &[&head[..], &[0x00]].concat());
                rows.under(stated, 'S', &[&head[..], &[0x80]].concat());
            }
        }
        let mut bytes = vec![64, 0x09];
        bytes.extend(vec![0; 251]);
        for end in [&[][..], &[0x00], &[0x01], &[0x01, 0x80], &[0x01, 0x81]] {
            rows.under(stated, 'S', &[&bytes[..], end].concat());
        }
    }
}

fn ends(rows: &mut Rows) {
    for stated in [false, true] {
        // Bytes behind a complete pack.
        for text in [
            "01 20 0000 FF",
            "02 01 40 FF FF",
            "02 02 4000 81",
            "02 10 05 06 FF",
            "03 29 00 0000 0000 0000 FF",
        ] {
            rows.hex_under(stated, 'S', text);
        }
        // The same values in Mode 2 and in Mode 1.
        for n in [2, 3] {
            for c in [1, 2, 7] {
                for s in [2, 4] {
                    rows.under(stated, 'S', &whole_matrix(n, (true, c), (stated, s), None));
                    rows.under(stated, 'S', &whole_single(n, c, (stated, s), None));
                    rows.under(!stated, 'S', &whole_single(n, c, (stated, s), None));
                }
            }
        }
    }
    // Packs of Mode 2 with all their beginnings, under the format mapped.
    for c in [(false, 0), (true, 2), (false, 4), (false, 8)] {
        for s in [(true, 1), (true, 8), (false, 2), (false, 8)] {
            rows.under(true, 's', &whole_matrix(3, c, s, None));
            if c.1 > 0 {
                rows.under(true, 's', &whole_matrix(3, c, s, Some(&vector(3, &[1]))));
            }
        }
    }
}

/// Packs to be written again: every length and shape.
fn again(rows: &mut Rows) {
    for stated in [false, true] {
        for n in [1, 2, 3, 5, 16, 17] {
            for (_, pack) in shapes(n, stated) {
                rows.under(stated, 'R', &pack);
            }
        }
        let some = vector(64, &(0..2016).step_by(7).collect::<Vec<_>>());
        for (c, s, ones) in [
            (7, 4, None),
            (0, 4, None),
            (1, 0, None),
            (3, 4, Some(&some)),
            (7, 0, Some(&some)),
        ] {
            let ones = ones.map(|ones| ones.as_slice());
            rows.under(stated, 'R', &whole_single(64, c, (stated, s), ones));
        }
    }
    for c in [(false, 0), (true, 2), (false, 4), (false, 8)] {
        for s in [(true, 1), (true, 8), (false, 2), (false, 8)] {
            rows.under(true, 'R', &whole_matrix(3, c, s, None));
        }
    }
}

pub fn make(rows: &mut Rows) {
    table(rows);
    sizes_and_controls(rows);
    for stated in [false, true] {
        lengths(rows, stated);
        long(rows, stated);
    }
    words(rows);
    vectors(rows);
    ends(rows);
    again(rows);
}
