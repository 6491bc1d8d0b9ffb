// What writing a matrix and an array answers and leaves, and rows of both.

use crate::array::{octets, LIMIT};
use crate::corpus::greatest_word;
use crate::frame::{self, bytes_of_hex, hex_of_bytes};
use crate::matrix::{
    self, allowed_lengths, coefficient_count, flag_alone, vector_length, Control, Role,
};
use crate::order;
use crate::rows::{formats, letters, stated, NONE};
use crate::values::values;
use crate::verdict::Verdict;
use std::io::{self, BufRead, Write};

/// What the writer of matrices is given, beside the stated format.
#[derive(Clone)]
pub struct Given {
    pub mode: u8,
    pub n: usize,
    pub sparse: bool,
    pub coefficients_mapped: bool,
    pub coefficient_length: usize,
    pub deviations_mapped: bool,
    pub deviation_length: usize,
    pub deviations: Vec<u64>,
    pub coefficients: Vec<u64>,
    pub marks: Vec<u8>,
}

/// A word too long for its length is above every limit.
fn keeps(mapped: bool, length: usize, role: Role, word: u64) -> bool {
    let bytes = word.to_be_bytes();
    let (front, own) = bytes.split_at(8 - length);
    let mut own = own.to_vec();
    if front.iter().any(|&byte| byte != 0) {
        return false;
    }
    if !mapped && matches!(role, Role::Coefficient) {
        own[0] &= 0x7F;
    }
    own <= greatest_word(length, mapped, role)
}

/// The refusal, in the document's order, or the bytes. Mode 1 judges lengths by its own formats,
/// whatever formats are given; that these are its own is one of the causes of 14.
pub fn write_matrix(g: &Given, stated: bool, room: usize) -> Result<Vec<u8>, u32> {
    if g.mode != 1 && g.mode != 2 {
        return Err(14);
    }
    let control = Control {
        mode: g.mode,
        sparse: g.sparse,
        c_mapped: g.mode == 1 || g.coefficients_mapped,
        c_length: g.coefficient_length,
        s_mapped: if g.mode == 1 {
            stated
        } else {
            g.deviations_mapped
        },
        s_length: g.deviation_length,
    };
    if g.n == 0 {
        return Err(1);
    }
    if g.n > 64 {
        return Err(2);
    }
    if !allowed_lengths(g.mode, control.c_mapped).contains(&g.coefficient_length) {
        return Err(6);
    }
    if flag_alone(g.mode, g.coefficients_mapped, g.coefficient_length) {
        return Err(16);
    }
    if g.sparse && g.coefficient_length == 0 {
        return Err(7);
    }
    if g.n == 1 && g.coefficient_length > 0 {
        return Err(8);
    }
    if !allowed_lengths(g.mode, control.s_mapped).contains(&g.deviation_length) {
        return Err(6);
    }
    if flag_alone(g.mode, g.deviations_mapped, g.deviation_length) {
        return Err(16);
    }
    if g.deviation_length == 0 && g.coefficient_length == 0 {
        return Err(9);
    }
    if g.coefficients_mapped != control.c_mapped || g.deviations_mapped != control.s_mapped {
        return Err(14);
    }
    let m = coefficient_count(g.n);
    if g.deviations.len() < g.n || g.coefficients.len() < m || g.marks.len() < m {
        return Err(14);
    }
    for &mark in &g.marks[..m] {
        if mark > 1
            || (mark == 0 && !g.sparse && g.coefficient_length > 0)
            || (mark == 1 && g.coefficient_length == 0)
        {
            return Err(14);
        }
    }
    let sent: Vec<u64> = (0..m)
        .filter(|&i| g.marks[i] == 1)
        .map(|i| g.coefficients[i])
        .collect();
    if g.sparse && g.deviation_length == 0 && sent.is_empty() {
        return Err(9);
    }
    let deviations = if g.deviation_length > 0 { g.n } else { 0 };
    let deviations = &g.deviations[..deviations];
    if !deviations.iter().all(|&word| {
        keeps(
            g.deviations_mapped,
            g.deviation_length,
            Role::Deviation,
            word,
        )
    }) {
        return Err(11);
    }
    if !sent.iter().all(|&word| {
        keeps(
            g.coefficients_mapped,
            g.coefficient_length,
            Role::Coefficient,
            word,
        )
    }) {
        return Err(11);
    }
    let mut bytes = vec![g.n as u8];
    bytes.extend(control.bytes());
    if g.sparse {
        let mut vector = vec![0; vector_length(g.n)];
        for i in 0..m {
            vector[i / 8] |= g.marks[i] << (7 - i % 8);
        }
        bytes.extend(vector);
    }
    for word in deviations {
        bytes.extend(&word.to_be_bytes()[8 - g.deviation_length..]);
    }
    for word in sent {
        bytes.extend(&word.to_be_bytes()[8 - g.coefficient_length..]);
    }
    if room < bytes.len() {
        return Err(13);
    }
    Ok(bytes)
}

/// Likewise for an array whose bytes are all 7.
fn write_array(sizes: &[u64], element: u64, count: usize, room: usize) -> Result<Vec<u8>, u32> {
    let limit = LIMIT as u128;
    if sizes.is_empty() {
        return Err(1);
    }
    if sizes.len() > 8 {
        return Err(2);
    }
    let mut product = 1u128;
    for &size in sizes {
        if size == 0 {
            return Err(1);
        }
        product *= size as u128;
        if product > limit {
            return Err(2);
        }
    }
    if product * element as u128 > limit {
        return Err(2);
    }
    if count as u128 != product * element as u128 {
        return Err(14);
    }
    let mut bytes = octets(sizes.len() as u64);
    for &size in sizes {
        bytes.extend(octets(size));
    }
    bytes.extend(octets(element));
    bytes.push(1);
    bytes.extend(vec![7; count]);
    if room < bytes.len() {
        return Err(13);
    }
    Ok(bytes)
}

fn answer(written: Result<Vec<u8>, u32>) -> String {
    match written {
        Err(reason) => format!("refused {} at 0 kept", reason),
        Ok(bytes) => {
            let first: String = bytes
                .iter()
                .take(64)
                .map(|byte| format!(" {}", byte))
                .collect();
            format!("complete {}{} kept", bytes.len(), first)
        }
    }
}

/// A number of eight bytes at the front of others.
fn number(bytes: &mut &[u8]) -> Option<u64> {
    let (first, rest) = bytes.split_at_checked(8)?;
    *bytes = rest;
    Some(u64::from_be_bytes(first.try_into().ok()?))
}

/// What is said of "W HEX" and "X HEX".
pub fn said(line: &str) -> Option<String> {
    let bytes = bytes_of_hex(line.get(2..)?.as_bytes())?;
    if line.starts_with('X') {
        let (&dims, mut rest) = bytes.split_first()?;
        let sizes: Vec<u64> = (0..dims)
            .map(|_| number(&mut rest))
            .collect::<Option<_>>()?;
        let element = number(&mut rest)?;
        let count = number(&mut rest)? as usize;
        let room = number(&mut rest)? as usize;
        return Some(answer(write_array(&sizes, element, count, room)));
    }
    let (head, mut rest) = bytes.split_at_checked(11)?;
    let mut words =
        |count: u8| -> Option<Vec<u64>> { (0..count).map(|_| number(&mut rest)).collect() };
    let given = Given {
        mode: head[6],
        n: head[0] as usize,
        sparse: head[1] == 1,
        coefficients_mapped: head[2] == 1,
        coefficient_length: head[3] as usize,
        deviations_mapped: head[4] == 1,
        deviation_length: head[5] as usize,
        deviations: words(head[8])?,
        coefficients: words(head[9])?,
        marks: rest.to_vec(),
    };
    if given.marks.len() != head[10] as usize {
        return None;
    }
    Some(answer(write_matrix(
        &given,
        stated(line)?,
        head[7] as usize,
    )))
}

/// Whether the bytes are a pack from end to end, and writing what is read of it gives them back.
pub fn same_again(bytes: &[u8], stated: bool) -> bool {
    if matrix::verdict(bytes, stated) != Verdict::Complete(bytes.len()) {
        return false;
    }
    let values = values(bytes, stated);
    let given = Given {
        mode: values.control.mode,
        n: values.n,
        sparse: values.control.sparse,
        coefficients_mapped: values.control.c_mapped,
        coefficient_length: values.control.c_length,
        deviations_mapped: values.control.s_mapped,
        deviation_length: values.control.s_length,
        deviations: values.deviations,
        coefficients: values.coefficients,
        marks: values.marks.iter().map(|&mark| mark as u8).collect(),
    };
    write_matrix(&given, stated, bytes.len()).as_deref() == Ok(bytes)
}

pub fn matrix_row(g: &Given, stated: bool, room: usize) -> String {
    let mut bytes = vec![
        g.n as u8,
        g.sparse as u8,
        g.coefficients_mapped as u8,
        g.coefficient_length as u8,
        g.deviations_mapped as u8,
        g.deviation_length as u8,
        g.mode,
        room as u8,
        g.deviations.len() as u8,
        g.coefficients.len() as u8,
        g.marks.len() as u8,
    ];
    for word in g.deviations.iter().chain(&g.coefficients) {
        bytes.extend(word.to_be_bytes());
    }
    bytes.extend(&g.marks);
    format!("{}{}", letters('W', stated), hex_of_bytes(&bytes))
}

fn array_row(sizes: &[u64], element: u64, count: usize, room: usize) -> String {
    let mut bytes = vec![sizes.len() as u8];
    for &number in sizes.iter().chain(&[element, count as u64, room as u64]) {
        bytes.extend(number.to_be_bytes());
    }
    format!("X {}", hex_of_bytes(&bytes))
}

/// A matrix of three variables that the writer takes in Mode 2.
pub fn good(c: (bool, usize), s: (bool, usize), marks: Option<[u8; 3]>) -> Given {
    let word = |i: u64, length: usize| if length == 0 { 0 } else { 0x11 + i };
    Given {
        mode: 2,
        n: 3,
        sparse: marks.is_some(),
        coefficients_mapped: c.0,
        coefficient_length: c.1,
        deviations_mapped: s.0,
        deviation_length: s.1,
        deviations: (0..3).map(|i| word(i, s.1)).collect(),
        coefficients: (0..3).map(|i| word(i + 3, c.1)).collect(),
        marks: marks.unwrap_or([(c.1 > 0) as u8; 3]).to_vec(),
    }
}

/// No coefficients, and in Mode 2 no flag for them.
fn without_coefficients(g: &mut Given) {
    g.coefficient_length = 0;
    g.coefficients_mapped = g.coefficients_mapped && g.mode == 1;
}

/// No deviations, and in Mode 2 no flag for them.
fn without_deviations(g: &mut Given) {
    g.deviation_length = 0;
    g.deviations_mapped = g.deviations_mapped && g.mode == 1;
}

/// Each makes one rule broken, where the others leave that possible: the reason, and the change.
const SPOILS: &[Spoil] = &[
    (1, |g| g.n = 0),
    (2, |g| g.n = 65),
    (6, |g| g.coefficient_length = 9),
    (6, |g| g.coefficient_length = 255),
    (7, |g| {
        g.sparse = true;
        without_coefficients(g);
    }),
    (8, |g| g.n = 1),
    (6, |g| g.deviation_length = 9),
    (6, |g| g.deviation_length = 16),
    (9, |g| {
        without_deviations(g);
        without_coefficients(g);
        g.marks = vec![0; 3];
    }),
    (14, |g| g.deviations.truncate(2)),
    (14, |g| g.coefficients.truncate(2)),
    (14, |g| g.marks.truncate(2)),
    (14, |g| g.marks[1] = 2),
    (14, |g| g.marks[0] = 255),
    (14, |g| {
        g.sparse = false;
        g.marks[0] = 0;
    }),
    (14, |g| {
        without_coefficients(g);
        g.marks[1] = 1;
    }),
    (9, |g| {
        g.sparse = true;
        without_deviations(g);
        g.marks = vec![0; 3];
    }),
    (11, |g| g.deviations[0] = u64::MAX),
    (11, |g| g.coefficients[0] = u64::MAX),
];

/// Rooms about the count of bytes.
fn add_rooms(rows: &mut Vec<String>, g: &Given, stated: bool) {
    if let Ok(bytes) = write_matrix(g, stated, usize::MAX) {
        for room in [bytes.len(), bytes.len() - 1, bytes.len() + 7, 0] {
            rows.push(matrix_row(g, stated, room));
        }
    }
}

/// A rule that is broken, and the change that breaks it.
type Spoil = (u32, fn(&mut Given));

/// Each of these rules broken alone, with room and without.
fn add_alone(rows: &mut Vec<String>, g: &Given, stated: bool, spoils: &[Spoil]) {
    for (_, spoil) in spoils {
        let mut alone = g.clone();
        spoil(&mut alone);
        rows.push(matrix_row(&alone, stated, 200));
        rows.push(matrix_row(&alone, stated, 3));
    }
}

/// Both broken; the first change is made last.
fn add_both(rows: &mut Vec<String>, g: &Given, stated: bool, first: &Spoil, second: &Spoil) {
    let mut both = g.clone();
    second.1(&mut both);
    first.1(&mut both);
    rows.push(matrix_row(&both, stated, 200));
}

fn matrices(rows: &mut Vec<String>) {
    let base = [
        good((true, 2), (true, 2), Some([1, 0, 1])),
        good((true, 2), (true, 2), None),
        good((false, 4), (false, 8), Some([1, 1, 1])),
    ];
    for g in &base {
        add_alone(rows, g, false, SPOILS);
        for (i, first) in SPOILS.iter().enumerate() {
            for second in &SPOILS[i + 1..] {
                add_both(rows, g, false, first, second);
            }
        }
    }
    // Every format and length, with the greatest word and the one above it, and what is ignored.
    for c in formats() {
        for s in [NONE, (true, 1), (false, 4)] {
            for marks in [None, Some([0, 1, 1]), Some([1, 1, 1])] {
                let mut g = good(c, s, marks);
                add_rooms(rows, &g, false);
                g.coefficients[0] = u64::MAX;
                rows.push(matrix_row(&g, false, 200));
            }
        }
    }
    for (mapped, length) in formats() {
        let limit = |role| {
            greatest_word(length, mapped, role)
                .iter()
                .fold(0u64, |word, &byte| word << 8 | byte as u64)
        };
        let sign = 1u64 << (8 * length - 1);
        for role in [Role::Deviation, Role::Coefficient] {
            for word in [
                limit(role),
                limit(role) + 1,
                sign,
                sign + limit(role),
                sign | (limit(role) + 1),
            ] {
                let mut g = good((mapped, length), (mapped, length), Some([1, 0, 1]));
                match role {
                    Role::Deviation => g.deviations[1] = word,
                    Role::Coefficient => g.coefficients[2] = word,
                }
                rows.push(matrix_row(&g, false, 200));
            }
        }
    }
    // One variable; lists longer than needed; deviations that are ignored.
    let mut one = good(NONE, (true, 1), None);
    one.n = 1;
    add_rooms(rows, &one, false);
    let mut longer = good((true, 2), NONE, Some([0, 0, 1]));
    longer.deviations.push(u64::MAX);
    longer.coefficients.push(u64::MAX);
    longer.marks.push(255);
    longer.deviations[0] = u64::MAX;
    add_rooms(rows, &longer, false);
}

/// What Mode 1 adds to the rules that can be broken: a length of 8, and formats that are not its own.
const MODE_1_SPOILS: &[Spoil] = &[
    (14, |g| g.mode = 0),
    (14, |g| g.mode = 3),
    (6, |g| g.coefficient_length = 8),
    (6, |g| g.deviation_length = 8),
    (6, |g| g.deviation_length = 3),
    (14, |g| g.coefficients_mapped = false),
    (14, |g| g.deviations_mapped = !g.deviations_mapped),
    (14, |g| {
        g.coefficients_mapped = false;
        g.deviations_mapped = !g.deviations_mapped;
    }),
    (14, |g| {
        // three bytes, which IEEE does not have
        g.coefficients_mapped = false;
        g.coefficient_length = 3;
    }),
];

/// A matrix of three variables that the writer takes in Mode 1 under the stated format.
fn good_single(c_length: usize, s_length: usize, stated: bool, marks: Option<[u8; 3]>) -> Given {
    let mut g = good((true, c_length), (stated, s_length), marks);
    g.mode = 1;
    g
}

/// The greatest word of a format, and others about it.
fn edges(mapped: bool, length: usize, role: Role) -> Vec<u64> {
    let limit = greatest_word(length, mapped, role)
        .iter()
        .fold(0u64, |word, &byte| word << 8 | byte as u64);
    let sign = 1u64 << (8 * length - 1);
    vec![
        limit,
        limit + 1,
        sign,
        sign + 1,
        2 * sign - 1,
        2 * sign,
        u64::MAX,
    ]
}

/// The order of refusals in Mode 1.
fn single_order(rows: &mut Vec<String>, stated: bool) {
    // Each of its own causes with each other cause, either change made first.
    let g = good_single(2, 2, stated, Some([1, 0, 1]));
    add_alone(rows, &g, stated, SPOILS);
    for (i, own) in MODE_1_SPOILS.iter().enumerate() {
        for other in SPOILS.iter().chain(&MODE_1_SPOILS[i + 1..]) {
            add_both(rows, &g, stated, own, other);
            add_both(rows, &g, stated, other, own);
        }
    }
    // Without coefficients and without deviations a wrong format is 14 all the same.
    for g in [
        g,
        good_single(2, 2, stated, None),
        good_single(0, 4, stated, None),
        good_single(3, 0, stated, Some([0, 1, 1])),
        good_single(3, 0, stated, Some([0, 0, 0])),
    ] {
        add_alone(rows, &g, stated, MODE_1_SPOILS);
    }
    // Every length in every format given.
    for length in 0..=9 {
        for (c_length, s_length) in [(length, 2), (2, length), (length, length)] {
            for formats in 0..4 {
                let mut g = good_single(c_length, s_length, stated, None);
                g.coefficients_mapped = formats % 2 == 0;
                g.deviations_mapped = stated == (formats / 2 == 0);
                rows.push(matrix_row(&g, stated, 200));
            }
        }
    }
    // A mode that there is not is 14 before all else.
    let spoils: [fn(&mut Given); 3] = [|_| (), |g| g.n = 0, |g| g.coefficient_length = 9];
    for mode in [0, 3, 255] {
        for spoil in spoils {
            let mut g = good_single(2, 2, stated, None);
            g.mode = mode;
            spoil(&mut g);
            rows.push(matrix_row(&g, stated, 200));
        }
    }
}

/// What is written in Mode 1, some of it into rooms about its count; what is ignored.
fn single_written(rows: &mut Vec<String>, stated: bool) {
    for c_length in 0..=7 {
        for &s_length in allowed_lengths(1, stated) {
            for marks in [None, Some([0, 1, 1])] {
                let mut g = good_single(c_length, s_length, stated, marks);
                rows.push(matrix_row(&g, stated, 200));
                if s_length == 2 {
                    add_rooms(rows, &g, stated);
                    g.coefficients[0] = u64::MAX;
                    rows.push(matrix_row(&g, stated, 200));
                }
            }
        }
    }
    for marks in [[0, 0, 0], [1, 1, 1]] {
        add_rooms(rows, &good_single(7, 4, stated, Some(marks)), stated);
    }
    // One variable; lists longer than needed.
    let mut one = good_single(0, 2, stated, None);
    one.n = 1;
    add_rooms(rows, &one, stated);
    one.deviations_mapped = !stated;
    rows.push(matrix_row(&one, stated, 200));
    let mut longer = good_single(2, 0, stated, Some([0, 0, 1]));
    longer.deviations.push(u64::MAX);
    longer.coefficients.push(u64::MAX);
    longer.marks.push(255);
    longer.deviations[0] = u64::MAX;
    add_rooms(rows, &longer, stated);
}

/// Words about the greatest in Mode 1.
fn single_words(rows: &mut Vec<String>, stated: bool) {
    for c_length in 1..=7 {
        for word in edges(true, c_length, Role::Coefficient) {
            let mut g = good_single(c_length, 0, stated, Some([1, 0, 1]));
            g.coefficients[2] = word;
            rows.push(matrix_row(&g, stated, 200));
        }
    }
    for &s_length in &allowed_lengths(1, stated)[1..] {
        for word in edges(stated, s_length, Role::Deviation) {
            let mut g = good_single(1, s_length, stated, None);
            g.deviations[1] = word;
            rows.push(matrix_row(&g, stated, 200));
        }
    }
}

/// Mode 2 does not see the stated format.
fn two_bytes_under_mapped(rows: &mut Vec<String>) {
    for c in formats() {
        for s in [(true, 1), (false, 4), (false, 8)] {
            for marks in [None, Some([0, 1, 1])] {
                rows.push(matrix_row(&good(c, s, marks), true, 200));
            }
        }
    }
    add_rooms(rows, &good((true, 8), (true, 8), None), true);
    add_alone(rows, &good((false, 4), (false, 8), None), true, SPOILS);
}

fn arrays(rows: &mut Vec<String>) {
    let lists: &[&[u64]] = &[
        &[],
        &[1],
        &[1; 8],
        &[1; 9],
        &[0],
        &[2, 3],
        &[127],
        &[128],
        &[32768],
        &[32769],
        &[256, 128],
        &[256, 129],
        &[300, 300, 0],
        &[0, 40000],
        &[2, 0, 40000],
        &[1 << 63, 2],
        &[u64::MAX, u64::MAX],
        &[16384, 2, 1],
        &[16384, 2, 2],
        &[8, 8, 8, 8, 8, 1, 1, 1],
        &[0; 9],
    ];
    for sizes in lists {
        for element in [0, 1, 2, 127, 128, 32768, 32769, 1 << 63, u64::MAX] {
            let whole = sizes.iter().fold(element as u128, |product, &size| {
                product.saturating_mul(size as u128)
            });
            let count = if whole <= LIMIT as u128 {
                whole as usize
            } else {
                5
            };
            rows.push(array_row(sizes, element, count, 33000));
            rows.push(array_row(sizes, element, count + 1, 33000));
            rows.push(array_row(sizes, element, count.saturating_sub(1), 0));
            if let Ok(bytes) = write_array(sizes, element, count, usize::MAX) {
                for room in [bytes.len(), bytes.len() - 1, bytes.len() + 7, 0] {
                    rows.push(array_row(sizes, element, count, room));
                }
            }
        }
    }
}

pub fn make() -> Vec<String> {
    let mut rows = Vec::new();
    matrices(&mut rows);
    arrays(&mut rows);
    for stated in [false, true] {
        single_order(&mut rows, stated);
        single_written(&mut rows, stated);
        single_words(&mut rows, stated);
    }
    two_bytes_under_mapped(&mut rows);
    rows.extend(order::make());
    let mut seen = std::collections::HashSet::new();
    rows.retain(|row| seen.insert(row.clone()));
    rows
}

/// Rows of the packs of all lines of frames that are OK, to be read and written again.
pub fn again(input: &mut dyn BufRead, output: &mut dyn Write) -> io::Result<()> {
    for line in input.split(b'\n') {
        let mut line = line?;
        line.push(b'\n');
        let mut report = Vec::new();
        frame::report(&mut line.as_slice(), &mut report)?;
        let line = String::from_utf8_lossy(&line[..line.len() - 1]);
        let report = String::from_utf8_lossy(&report);
        let words: Vec<&str> = report.split(' ').collect();
        if words[2] == "OK" {
            let kind = if words[1] == "S" { 'R' } else { 'Q' };
            let count: usize = words[3].parse().unwrap_or(0);
            writeln!(output, "{} {}", kind, &line[line.len() - 2 * count..])?;
        }
    }
    Ok(())
}
