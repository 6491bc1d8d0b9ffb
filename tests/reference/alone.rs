// Rows about a format flag with nothing behind it, and about its lawful neighbours in both modes.

use crate::matrix::{coefficient_count, verdict, Control};
use crate::rows::{formats, vector, whole_matrix, Rows, NONE};
use crate::verdict::Verdict;

/// First control bytes: lawful ones, and such as are refused for each reason and for two at once.
const FIRSTS: [u8; 11] = [
    0x80, 0x81, 0x82, 0x90, 0x91, 0x92, 0xA0, 0xB0, 0xB1, 0xB2, 0xD0,
];

/// Whether a pack may begin with these bytes.
fn lawful(head: &[u8], stated: bool) -> bool {
    matches!(verdict(head, stated), Verdict::Unfinished(_))
}

/// The whole pack behind a lawful head: all words nought, of a sparse one the first coefficient.
fn noughts(head: &[u8], stated: bool) -> Vec<u8> {
    let n = head[0] as usize;
    let control = Control::read(head, stated);
    let mut pack = head.to_vec();
    let mut coefficients = coefficient_count(n);
    if control.sparse {
        pack.extend(vector(n, &[0]));
        coefficients = 1;
    }
    let values = n * control.s_length + coefficients * control.c_length;
    pack.resize(pack.len() + values, 0);
    pack
}

/// The head, and the whole pack where it is lawful.
fn add_head(rows: &mut Rows, stated: bool, head: &[u8]) {
    rows.under(stated, 'S', head);
    if lawful(head, stated) {
        rows.under(stated, 'S', &noughts(head, stated));
    }
}

/// Every first control byte of two at N = 1 and 2, and some at other sizes.
fn first_bytes(rows: &mut Rows, stated: bool) {
    for byte in 0x80..=0xFF {
        rows.under(stated, 'S', &[1, byte]);
        rows.under(stated, 'S', &[2, byte]);
    }
    for byte in [
        0x80, 0x90, 0x91, 0x98, 0x99, 0x9F, 0xA0, 0xB0, 0xB1, 0xC0, 0xD0, 0xE0, 0xF0,
    ] {
        rows.under(stated, 'S', &[3, byte]);
        rows.under(stated, 'S', &[64, byte]);
    }
}

/// The second control bytes to try: behind a first one that is refused a few stand for all.
fn seconds(all: bool) -> Vec<u8> {
    if all {
        (0x00..=0x3F).chain([0x80, 0x90]).collect()
    } else {
        vec![0x00, 0x01, 0x02, 0x10, 0x11, 0x30, 0x80, 0x90]
    }
}

fn second_bytes(rows: &mut Rows, stated: bool) {
    for n in [1, 2] {
        for first in FIRSTS {
            for second in seconds(lawful(&[n, first], stated)) {
                add_head(rows, stated, &[n, first, second]);
            }
        }
    }
    for n in [3, 64] {
        for first in [0x80, 0x90, 0x91, 0xB0, 0xB1] {
            for second in seconds(false) {
                rows.under(stated, 'S', &[n, first, second]);
            }
        }
    }
}

/// Packs that are whole but for the flag, with all their beginnings.
fn whole_but_for_the_flag(rows: &mut Rows, stated: bool) {
    let alone = (true, 0);
    for n in [1, 2, 3, 17] {
        for s in [(true, 1), (false, 2)] {
            rows.under(stated, 's', &whole_matrix(n, alone, s, None));
        }
    }
    for n in [2, 3, 17] {
        for c in [(true, 1), (false, 2)] {
            let ones = vector(n, &[0]);
            rows.under(stated, 's', &whole_matrix(n, c, alone, None));
            rows.under(stated, 's', &whole_matrix(n, c, alone, Some(&ones)));
        }
    }
}

/// Every single control byte without coefficients or without deviations: Mode 1 has no flags.
fn single_bytes(rows: &mut Rows, stated: bool) {
    for n in [1, 2] {
        for byte in 0x00..=0x7F {
            if byte & 0x07 == 0 || byte & 0x70 == 0 {
                add_head(rows, stated, &[n, byte]);
            }
        }
    }
}

/// Packs without coefficients or without deviations, and without a flag for them.
fn again(rows: &mut Rows, stated: bool) {
    for n in [1, 2, 3] {
        for format in formats() {
            rows.under(stated, 'R', &whole_matrix(n, NONE, format, None));
            if n > 1 {
                let ones = vector(n, &[0]);
                rows.under(stated, 'R', &whole_matrix(n, format, NONE, None));
                rows.under(stated, 'R', &whole_matrix(n, format, NONE, Some(&ones)));
            }
        }
    }
}

pub fn make(rows: &mut Rows) {
    for stated in [false, true] {
        first_bytes(rows, stated);
        second_bytes(rows, stated);
        whole_but_for_the_flag(rows, stated);
        single_bytes(rows, stated);
        again(rows, stated);
    }
}
