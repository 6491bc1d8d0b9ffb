// What unpacking and expanding a matrix pack give, and rows of both.

use crate::frame::{bytes_of_hex, hex_of_bytes};
use crate::matrix::{self, coefficient_count, vector_length, Control};
use crate::mode1::{shapes, whole_single};
use crate::rows::{formats, letters, stated, vector, whole_matrix, NONE};
use crate::verdict::Verdict;

/// The values of a whole matrix pack; a coefficient not sent is its format's nought.
pub struct Values {
    pub n: usize,
    pub control: Control,
    pub deviations: Vec<u64>,
    pub coefficients: Vec<u64>,
    pub marks: Vec<u64>,
}

fn word(bytes: &[u8]) -> u64 {
    bytes.iter().fold(0, |word, &byte| word << 8 | byte as u64)
}

pub fn values(bytes: &[u8], stated: bool) -> Values {
    let n = bytes[0] as usize;
    let control = Control::read(bytes, stated);
    let length = control.c_length;
    let count = coefficient_count(n);

    let mut at = 1 + control.mode as usize;
    let mut marks = vec![(length > 0) as u64; count];
    if control.sparse {
        for (i, mark) in marks.iter_mut().enumerate() {
            *mark = (bytes[at + i / 8] as u64 >> (7 - i % 8)) & 1;
        }
        at += vector_length(n);
    }
    let mut deviations = vec![0; n];
    for deviation in &mut deviations {
        *deviation = word(&bytes[at..at + control.s_length]);
        at += control.s_length;
    }
    let nought = if control.c_mapped && length > 0 {
        1 << (8 * length - 2)
    } else {
        0
    };
    let mut coefficients = vec![nought; count];
    for i in 0..count {
        if marks[i] == 1 {
            coefficients[i] = word(&bytes[at..at + length]);
            at += length;
        }
    }
    Values {
        n,
        control,
        deviations,
        coefficients,
        marks,
    }
}

fn listed(name: &str, values: &[u64]) -> String {
    let list: String = values.iter().map(|value| format!(" {}", value)).collect();
    format!(" {}{}", name, list)
}

/// The cells by rows: the diagonal's value and each pair's, found by looking for the pair.
fn square(n: usize, diagonal: impl Fn(usize) -> u64, pairs: &[u64]) -> Vec<u64> {
    let mut order = Vec::new();
    for i in 0..n {
        for j in i + 1..n {
            order.push((i, j));
        }
    }
    let mut cells = Vec::new();
    for i in 0..n {
        for j in 0..n {
            let place = order
                .iter()
                .position(|&pair| pair == (i, j) || pair == (j, i));
            cells.push(place.map_or_else(|| diagonal(i), |place| pairs[place]));
        }
    }
    cells
}

/// What is said of "U HEX D C M" (unpacked into lists of these lengths), "E HEX W M" (expanded) and
/// "C HEX" (the scaled coefficients).
pub fn said(line: &str) -> Option<String> {
    let mut parts = line.get(2..)?.split(' ');
    let bytes = bytes_of_hex(parts.next()?.as_bytes())?;
    let lengths: Vec<usize> = parts.map(|text| text.parse().ok()).collect::<Option<_>>()?;
    let stated = stated(line)?;
    let verdict = matrix::verdict(&bytes, stated);
    if !matches!(verdict, Verdict::Complete(_)) {
        return Some(format!("{} kept", verdict));
    }
    let values = values(&bytes, stated);
    let (n, m) = (values.n, values.coefficients.len());
    let small = Verdict::Refused {
        reason: 13,
        place: 0,
    };
    Some(match line.as_bytes()[0] {
        b'U' if lengths.len() == 3 => {
            if lengths[0] < n || lengths[1] < m || lengths[2] < m {
                return Some(format!("{} kept", small));
            }
            format!(
                "{}{}{}{} kept",
                verdict,
                listed("deviations", &values.deviations),
                listed("coefficients", &values.coefficients),
                listed("marks", &values.marks)
            )
        }
        b'E' if lengths.len() == 2 => {
            if lengths[0] < n * n || lengths[1] < n * n {
                return Some(format!("{} kept", small));
            }
            let words = square(n, |i| values.deviations[i], &values.coefficients);
            let mark = (values.control.s_length > 0) as u64;
            let marks = square(n, |_| mark, &values.marks);
            format!(
                "{}{}{} kept",
                verdict,
                listed("words", &words),
                listed("marks", &marks)
            )
        }
        b'C' if lengths.is_empty() && values.control.c_mapped && values.control.c_length > 0 => {
            let unit = 1i128 << (8 * values.control.c_length - 2);
            let scaled: String = values
                .coefficients
                .iter()
                .map(|&word| format!(" {}", word as i128 - unit))
                .collect();
            format!("{} scaled{} of {}", verdict, scaled, unit)
        }
        _ => return None,
    })
}

fn add_row(rows: &mut Vec<String>, kind: char, stated: bool, bytes: &[u8], lengths: &[usize]) {
    let list: String = lengths
        .iter()
        .map(|length| format!(" {}", length))
        .collect();
    rows.push(format!(
        "{}{}{}",
        letters(kind, stated),
        hex_of_bytes(bytes),
        list
    ));
}

/// A pack with each list exactly long enough, longer, and one entry short.
fn add_lengths(rows: &mut Vec<String>, stated: bool, bytes: &[u8], all: bool) {
    let n = bytes[0] as usize;
    let m = coefficient_count(n);
    let mut add = |kind: char, lengths: &[usize]| add_row(rows, kind, stated, bytes, lengths);
    add('U', &[n, m, m]);
    add('E', &[n * n, n * n]);
    if !all {
        return;
    }
    add('U', &[n + 1, m + 2, m + 3]);
    add('U', &[n - 1, m, m]);
    if m > 0 {
        add('U', &[n, m - 1, m]);
        add('U', &[n, m, m - 1]);
    }
    add('U', &[0, 0, 0]);
    add('E', &[n * n + 3, n * n + 1]);
    add('E', &[n * n - 1, n * n]);
    add('E', &[n * n, n * n - 1]);
    add('E', &[0, 0]);
}

/// The example of ST 1010's Figure 7 and every beginning of it; other packs of Mode 1 that are
/// unfinished or refused.
fn add_single_verdicts(rows: &mut Vec<String>, stated: bool) {
    let example = bytes_of_hex(b"034BA03F8000004000000040800000600000200000").unwrap();
    add_lengths(rows, stated, &example, true);
    add_row(rows, 'C', stated, &example, &[]);
    for end in 0..example.len() {
        add_row(rows, 'U', stated, &example[..end], &[3, 3, 3]);
        add_row(rows, 'E', stated, &example[..end], &[1, 0]);
    }
    let others = "0210 0211 0213 0208 0101 0200 030800 030900 0309A1 02028001 01207C00 \
                  01407F800000 0210808081";
    for text in others.split(' ').filter(|text| !text.is_empty()) {
        let bytes = bytes_of_hex(text.as_bytes()).unwrap();
        add_row(rows, 'U', stated, &bytes, &[3, 3, 3]);
        add_row(rows, 'U', stated, &bytes, &[0, 0, 0]);
        add_row(rows, 'E', stated, &bytes, &[9, 9]);
    }
}

/// Whole packs of Mode 1 of every shape, and some of the greatest size.
fn add_single(rows: &mut Vec<String>, stated: bool) {
    for n in [1, 2, 3, 5] {
        for (control, pack) in shapes(n, stated) {
            let (c, s) = (control.c_length, control.s_length);
            add_lengths(rows, stated, &pack, n == 3 && c + s == 2);
            if n > 2 && (s == 0 || s == c) {
                add_row(rows, 'C', stated, &pack, &[]);
            }
        }
    }
    // Bytes behind a pack are not looked at.
    add_lengths(rows, stated, &[2, 0x01, 0x40, 0xFF], false);
    let some = vector(64, &(0..2016).step_by(5).collect::<Vec<_>>());
    let sparse = whole_single(64, 3, (stated, 4), Some(&some));
    add_lengths(rows, stated, &sparse, true);
    add_lengths(rows, stated, &whole_single(64, 1, (stated, 0), None), false);
}

/// Packs of Mode 2, which say the same under both formats.
fn add_two_bytes_under_mapped(rows: &mut Vec<String>) {
    for pack in [
        whole_matrix(3, (true, 2), (false, 4), Some(&vector(3, &[0, 2]))),
        whole_matrix(2, (false, 8), (false, 8), None),
        whole_matrix(3, (true, 8), (true, 3), None),
        whole_matrix(1, NONE, (false, 2), None),
        whole_matrix(4, NONE, (true, 1), None),
    ] {
        add_lengths(rows, true, &pack, true);
        if pack[1] & 0x10 != 0 {
            add_row(rows, 'C', true, &pack, &[]);
        }
    }
}

/// A format flag with nothing behind it, in packs that are whole without it and in cut ones: the
/// verdict comes before 13, and nothing changes.
fn add_flag_alone(rows: &mut Vec<String>) {
    let few = vector(3, &[1]);
    for (stated, pack) in [
        (false, whole_matrix(1, (true, 0), (true, 1), None)),
        (true, whole_matrix(1, (true, 0), (false, 4), None)),
        (false, whole_matrix(3, (true, 0), (true, 1), None)),
        (true, whole_matrix(3, (true, 0), (false, 2), None)),
        (false, whole_matrix(2, (true, 1), (true, 0), None)),
        (true, whole_matrix(3, (false, 4), (true, 0), None)),
        (false, whole_matrix(3, (true, 2), (true, 0), Some(&few))),
        (true, whole_matrix(3, (false, 2), (true, 0), Some(&few))),
        (false, vec![2, 0xB0]),
        (false, vec![2, 0x90, 0x10]),
        (false, vec![2, 0x80, 0x10]),
    ] {
        add_row(rows, 'U', stated, &pack, &[3, 3, 3]);
        add_row(rows, 'U', stated, &pack, &[0, 0, 0]);
        add_row(rows, 'E', stated, &pack, &[9, 9]);
        add_row(rows, 'E', stated, &pack, &[0, 0]);
    }
}

pub fn make() -> Vec<String> {
    let mut rows = Vec::new();
    // The example of the document: expanded, unpacked, scaled.
    let example = bytes_of_hex(b"03B204A03F800000400000004080000060002000").unwrap();
    add_lengths(&mut rows, false, &example, true);
    add_row(&mut rows, 'C', false, &example, &[]);
    // Unfinished and refused: the verdict comes before 13, and nothing changes.
    for end in 0..example.len() {
        add_row(&mut rows, 'U', false, &example[..end], &[3, 3, 3]);
        add_row(&mut rows, 'E', false, &example[..end], &[1, 0]);
    }
    for text in ["0211", "028000", "03B10000", "03B100A1", "0292008001"] {
        let bytes = bytes_of_hex(text.as_bytes()).unwrap();
        add_row(&mut rows, 'U', false, &bytes, &[3, 3, 3]);
        add_row(&mut rows, 'U', false, &bytes, &[0, 0, 0]);
        add_row(&mut rows, 'E', false, &bytes, &[9, 9]);
        add_row(&mut rows, 'E', false, &bytes, &[0, 0]);
    }
    // Every format and length, sparse and full, and without one kind of value.
    for c in formats() {
        for s in formats() {
            add_lengths(&mut rows, false, &whole_matrix(2, c, s, None), false);
            add_lengths(
                &mut rows,
                false,
                &whole_matrix(3, c, s, Some(&vector(3, &[0, 2]))),
                false,
            );
        }
        for pack in [
            whole_matrix(2, c, NONE, None),
            whole_matrix(3, c, NONE, None),
            whole_matrix(3, c, NONE, Some(&vector(3, &[1]))),
            whole_matrix(4, c, (true, 1), Some(&vector(4, &[]))),
            whole_matrix(5, c, (true, 1), Some(&vector(5, &[0, 3, 7, 8, 9]))),
        ] {
            add_lengths(&mut rows, false, &pack, true);
            if c.0 {
                add_row(&mut rows, 'C', false, &pack, &[]);
            }
        }
    }
    for s in formats() {
        for n in [1, 2, 3] {
            add_lengths(&mut rows, false, &whole_matrix(n, NONE, s, None), true);
        }
    }
    add_flag_alone(&mut rows);
    // The greatest size.
    let some: Vec<usize> = (0..2016).step_by(3).collect();
    add_lengths(
        &mut rows,
        false,
        &whole_matrix(64, NONE, (true, 1), None),
        true,
    );
    add_lengths(
        &mut rows,
        false,
        &whole_matrix(64, (true, 2), (false, 4), Some(&vector(64, &some))),
        true,
    );
    add_lengths(
        &mut rows,
        false,
        &whole_matrix(64, (true, 8), (true, 8), None),
        false,
    );
    add_lengths(
        &mut rows,
        false,
        &whole_matrix(64, (false, 8), NONE, None),
        false,
    );
    for stated in [false, true] {
        add_single_verdicts(&mut rows, stated);
        add_single(&mut rows, stated);
    }
    add_two_bytes_under_mapped(&mut rows);
    let mut seen = std::collections::HashSet::new();
    rows.retain(|row| seen.insert(row.clone()));
    rows
}
