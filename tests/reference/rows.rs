// Rows of pack bytes: the verdicts on them, and the rows that the project runs.

use crate::array::{octets, LIMIT};
use crate::corpus::greatest_word;
use crate::frame::{bytes_of_hex, hex_of_bytes};
use crate::matrix::{allowed_lengths, coefficient_count, vector_length, Control, Role};
use crate::{address, alone, array, framed, matrix, mode1, scaling, values, writes};
use std::collections::HashSet;
use std::io::{self, BufRead, Write};

/// The format that a row states behind its letter: a space for IEEE, a star for mapped.
pub fn stated(line: &str) -> Option<bool> {
    match line.as_bytes().get(1)? {
        b' ' => Some(false),
        b'*' if line.starts_with(['S', 's', 'U', 'E', 'C', 'R', 'W']) => Some(true),
        _ => None,
    }
}

/// How a row of this kind begins.
pub fn letters(kind: char, stated: bool) -> String {
    format!("{}{}", kind, if stated { '*' } else { ' ' })
}

/// Prints each row with what is said of it. "S" and "M" are followed by the bytes of a matrix and of
/// an array pack; for a lower-case kind the verdicts on all shorter beginnings come first.
pub fn run(input: &mut dyn BufRead, output: &mut dyn Write) -> io::Result<()> {
    for line in input.lines() {
        let line = line?;
        let wrong = || io::Error::new(io::ErrorKind::InvalidData, format!("not a row: {}", line));
        let stated = stated(&line).ok_or_else(wrong)?;
        let kind = line.chars().next().ok_or_else(wrong)?;
        let said = match kind {
            'A' => Some(addressed(&line).ok_or_else(wrong)?),
            'U' | 'E' | 'C' => Some(values::said(&line).ok_or_else(wrong)?),
            'W' | 'X' => Some(writes::said(&line).ok_or_else(wrong)?),
            'K' => Some(scaling::said(&line).ok_or_else(wrong)?),
            'P' => Some(framed::said(&line).ok_or_else(wrong)?),
            _ => None,
        };
        if let Some(said) = said {
            writeln!(output, "{} {}", line, said)?;
            continue;
        }
        let bytes = bytes_of_hex(line[2..].as_bytes()).ok_or_else(wrong)?;
        if kind == 'R' || kind == 'Q' {
            let same = kind == 'Q' || writes::same_again(&bytes, stated);
            writeln!(
                output,
                "{}{} {} {}",
                kind,
                if stated { "*" } else { "" },
                bytes.len(),
                if same { "same" } else { "differs" }
            )?;
            continue;
        }
        let verdict = |bytes: &[u8]| match kind {
            'S' | 's' => Some(matrix::verdict(bytes, stated)),
            'M' | 'm' => Some(array::verdict(bytes)),
            _ => None,
        };
        if kind.is_lowercase() {
            for k in 0..bytes.len() {
                let verdict = verdict(&bytes[..k]).ok_or_else(wrong)?;
                writeln!(output, "{} {}", k, verdict)?;
            }
        }
        writeln!(output, "{} {}", line, verdict(&bytes).ok_or_else(wrong)?)?;
    }
    Ok(())
}

/// What reading and addressing say of "A HEX COUNT INDEX ..": the bytes, so many bytes of 0 behind
/// them, and the indices.
fn addressed(line: &str) -> Option<String> {
    let mut parts = line.strip_prefix("A ")?.split(' ');
    let mut bytes = bytes_of_hex(parts.next()?.as_bytes())?;
    let count: usize = parts.next()?.parse().ok()?;
    bytes.resize(bytes.len() + count, 0);
    let indices: Vec<usize> = parts.map(|text| text.parse().ok()).collect::<Option<_>>()?;
    let numbers = match address::read(&bytes) {
        Ok(numbers) => numbers,
        Err(verdict) => return Some(verdict.to_string()),
    };
    let mut sizes = numbers.sizes.clone();
    sizes.resize(8, 0);
    let sizes: String = sizes.iter().map(|size| format!(" {}", size)).collect();
    let answer = match address::offset(&bytes, &indices) {
        Ok(offset) => format!("offset {}", offset),
        Err(verdict) => verdict.to_string(),
    };
    Some(format!(
        "array {}{} {} {} {}",
        numbers.sizes.len(),
        sizes,
        numbers.element,
        numbers.start,
        answer
    ))
}

/// A list of rows, in which none stands twice: kind, stated format, bytes.
pub struct Rows(Vec<(char, bool, Vec<u8>)>);

impl Rows {
    /// A row under the stated format IEEE, or of an array.
    fn add(&mut self, kind: char, bytes: &[u8]) {
        self.under(false, kind, bytes);
    }

    pub fn under(&mut self, stated: bool, kind: char, bytes: &[u8]) {
        self.0.push((kind, stated, bytes.to_vec()));
    }

    fn hex(&mut self, kind: char, text: &str) {
        self.hex_under(false, kind, text);
    }

    pub fn hex_under(&mut self, stated: bool, kind: char, text: &str) {
        let packed: String = text.chars().filter(|c| *c != ' ').collect();
        let bytes = bytes_of_hex(packed.as_bytes()).expect("a row of hexadecimal");
        self.under(stated, kind, &bytes);
    }

    /// All rows once; a row whose beginnings are asked for elsewhere stands only there.
    fn print(&self, output: &mut dyn Write) -> io::Result<()> {
        let with_beginnings: HashSet<(char, bool, &[u8])> = self
            .0
            .iter()
            .filter(|(kind, _, _)| kind.is_lowercase())
            .map(|(kind, stated, bytes)| (*kind, *stated, bytes.as_slice()))
            .collect();
        let mut seen = HashSet::new();
        for (kind, stated, bytes) in &self.0 {
            let lower = kind.to_ascii_lowercase();
            let elsewhere = with_beginnings.contains(&(lower, *stated, bytes.as_slice()));
            if kind.is_uppercase() && elsewhere {
                continue;
            }
            if seen.insert((*kind, *stated, bytes)) {
                writeln!(output, "{}{}", letters(*kind, *stated), hex_of_bytes(bytes))?;
            }
        }
        Ok(())
    }
}

/// The rows of the reference table, as they stand in the document of exact rules.
pub const TABLE: &[(char, &str)] = &[
    ('S', ""),
    ('S', "01"),
    ('S', "02"),
    ('S', "03"),
    ('S', "10"),
    ('S', "11"),
    ('S', "40"),
    ('S', "41"),
    ('S', "01 80 11 05"),
    ('S', "02 91 00 40"),
    ('S', "02 11"),
    ('S', "02 83"),
    ('S', "02 A0"),
    ('S', "01 91"),
    ('S', "02 80 00"),
    ('S', "03 B1 00 00"),
    ('S', "03 B1 00 A1"),
    ('S', "03 B1 00"),
    ('S', "03 B1 11"),
    ('S', "02 92 00 80"),
    ('S', "02 92 00 80 01"),
    ('M', "01 01 00 01"),
    ('M', "01 82 80 00"),
    ('M', "01 82 80 01"),
    ('M', "01 82 81"),
    ('M', "01 02 81"),
    ('S', "03 B2 04 A0 3F800000 40000000 40800000 6000 2000"),
];

/// The format of values that are not there, which Mode 2 has no flag for.
pub const NONE: (bool, usize) = (false, 0);

/// The formats of values that are there in Mode 2: mapped or not, with the length.
pub fn formats() -> Vec<(bool, usize)> {
    let mut list = Vec::new();
    for mapped in [true, false] {
        for &length in allowed_lengths(2, mapped) {
            if length > 0 {
                list.push((mapped, length));
            }
        }
    }
    list
}

fn control_1(sparse: bool, mapped: bool, length: usize) -> u8 {
    (128 + 32 * sparse as usize + 16 * mapped as usize + length) as u8
}

fn control_2(mapped: bool, length: usize) -> u8 {
    (16 * mapped as usize + length) as u8
}

/// A lawful word, another one for each i: the greatest, nought, and some between.
fn some_word(i: usize, length: usize, mapped: bool, role: Role) -> Vec<u8> {
    let mut word = match i % 4 {
        0 => greatest_word(length, mapped, role),
        1 => vec![0; length],
        2 => (0..length).map(|k| (0x21 + 16 * k + i) as u8).collect(),
        _ => (0..length)
            .map(|k| if k == 0 { 0x3B } else { 0xFF })
            .collect(),
    };
    word[0] &= if i % 4 == 2 { 0x3B } else { 0xFF };
    if !mapped && role == Role::Coefficient && i % 8 >= 4 {
        word[0] |= 0x80;
    }
    word
}

/// A whole matrix pack with some words. `vector` is there for a sparse one.
pub fn whole_pack(n: usize, control: &Control, vector: Option<&[u8]>) -> Vec<u8> {
    let mut bytes = vec![n as u8];
    bytes.extend(control.bytes());
    let mut coefficients = if control.c_length > 0 {
        coefficient_count(n)
    } else {
        0
    };
    if let Some(vector) = vector {
        coefficients = vector.iter().map(|byte| byte.count_ones() as usize).sum();
        bytes.extend_from_slice(vector);
    }
    if control.s_length > 0 {
        for i in 0..n {
            bytes.extend(some_word(
                i,
                control.s_length,
                control.s_mapped,
                Role::Deviation,
            ));
        }
    }
    for i in 0..coefficients {
        bytes.extend(some_word(
            i,
            control.c_length,
            control.c_mapped,
            Role::Coefficient,
        ));
    }
    bytes
}

/// Likewise in Mode 2, of these formats and lengths.
pub fn whole_matrix(
    n: usize,
    c: (bool, usize),
    s: (bool, usize),
    vector: Option<&[u8]>,
) -> Vec<u8> {
    let control = Control {
        mode: 2,
        sparse: vector.is_some(),
        c_mapped: c.0,
        c_length: c.1,
        s_mapped: s.0,
        s_length: s.1,
    };
    whole_pack(n, &control, vector)
}

/// A bit vector for N by N with these bits.
pub fn vector(n: usize, ones: &[usize]) -> Vec<u8> {
    let mut bytes = vec![0u8; vector_length(n)];
    for &i in ones {
        bytes[i / 8] |= 128 >> (i % 8);
    }
    bytes
}

fn matrix_sizes_and_controls(rows: &mut Rows) {
    for byte in 0..=255u8 {
        rows.add('S', &[byte]);
    }
    for byte in [0x00, 0x41, 0x7F, 0x80, 0x81, 0xFF] {
        rows.add('S', &[byte, 0x80, 0x11, 0x05]);
    }
    // Every control byte 1; and every control byte 2 behind some first ones.
    for n in [1, 2, 3] {
        for byte in 0..=255u8 {
            rows.add('S', &[n, byte]);
        }
    }
    for n in [16, 17, 64] {
        for byte in 0x80..=0xBFu8 {
            rows.add('S', &[n, byte]);
        }
    }
    for (n, first) in [(1, 0x80), (2, 0x80), (2, 0x91), (3, 0xB1)] {
        for byte in 0..=255u8 {
            rows.add('S', &[n, first, byte]);
        }
    }
    // Every lawful pair of control bytes in some sizes.
    for n in [2, 4, 64] {
        for c in formats() {
            for s in formats().into_iter().chain([NONE]) {
                for sparse in [false, true] {
                    rows.add('S', &[n, control_1(sparse, c.0, c.1), control_2(s.0, s.1)]);
                }
            }
        }
    }
}

fn matrix_formats(rows: &mut Rows) {
    for s in formats() {
        rows.add('S', &whole_matrix(1, NONE, s, None));
        rows.add('S', &whole_matrix(3, NONE, s, None));
    }
    for c in formats() {
        for s in formats().into_iter().chain([NONE]) {
            rows.add('S', &whole_matrix(2, c, s, None));
        }
        for s in [NONE, (true, 1), (false, 2), (false, 8)] {
            rows.add('S', &whole_matrix(3, c, s, Some(&[0xA0])));
        }
    }
}

/// The words about the greatest one of a format: with each byte raised by one and with each byte
/// lowered by one, noughts or FF behind it.
pub fn words_about(greatest: &[u8]) -> Vec<Vec<u8>> {
    let mut list = Vec::new();
    for place in 0..greatest.len() {
        for up in [true, false] {
            let end = if up { 0xFF } else { 0x00 };
            if greatest[place] == end {
                continue;
            }
            for fill in [0x00, 0xFF] {
                let mut word = greatest.to_vec();
                word[place] = if up { word[place] + 1 } else { word[place] - 1 };
                for byte in &mut word[place + 1..] {
                    *byte = fill;
                }
                list.push(word);
            }
        }
    }
    list
}

fn matrix_words(rows: &mut Rows) {
    for (mapped, length) in formats() {
        for role in [Role::Deviation, Role::Coefficient] {
            let head = match role {
                Role::Deviation => vec![1, 0x80, control_2(mapped, length)],
                Role::Coefficient => vec![2, control_1(false, mapped, length), 0x00],
            };
            let greatest = greatest_word(length, mapped, role);
            rows.add('s', &[&head[..], &greatest[..]].concat());
            for fill in [0x00, 0xFF] {
                rows.add('S', &[&head[..], &vec![fill; length][..]].concat());
            }
            let mut words = words_about(&greatest);
            if !mapped {
                // The greatest one with its sign set, negative nought, the infinities and a
                // not-a-number of either sign.
                let infinity: &[u8] = match length {
                    2 => &[0x7C, 0x00],
                    4 => &[0x7F, 0x80, 0, 0],
                    _ => &[0x7F, 0xF0, 0, 0, 0, 0, 0, 0],
                };
                let mut not_a_number = infinity.to_vec();
                not_a_number[length - 1] = 1;
                let nought = vec![0; length];
                words.push(infinity.to_vec());
                words.push(not_a_number);
                words.push(nought);
                words.push(greatest.clone());
                for mut word in words.clone() {
                    word[0] |= 0x80;
                    words.push(word);
                }
            }
            for word in words {
                rows.add('S', &[&head[..], &word[..]].concat());
            }
        }
    }
    // A word that is bad behind good ones, in the second and in the last place.
    for (mapped, length) in [
        (true, 1),
        (true, 3),
        (true, 8),
        (false, 2),
        (false, 4),
        (false, 8),
    ] {
        for role in [Role::Deviation, Role::Coefficient] {
            let n = 3;
            let (head, words) = match role {
                Role::Deviation => (vec![n, 0x91, control_2(mapped, length)], 3),
                Role::Coefficient => (vec![n, control_1(false, mapped, length), 0x00], 3),
            };
            let greatest = greatest_word(length, mapped, role);
            let next = words_about(&greatest)
                .into_iter()
                .filter(|word| *word > greatest)
                .last()
                .unwrap();
            for bad in 1..words {
                let mut bytes = head.clone();
                for i in 0..words {
                    bytes.extend(if i == bad { &next } else { &greatest });
                }
                rows.add('S', &bytes);
            }
        }
    }
    // A bad coefficient behind good deviations, full and sparse; the pack cut before and at it.
    rows.hex('s', "02 91 11 80 80 81");
    rows.hex('s', "02 92 02 7BFF 0000 8001");
    rows.hex('s', "03 B1 11 A0 80 00 80 80 81");
    rows.hex(
        's',
        "03 A4 18 20 8000000000000000 0000000000000000 7FFFFFFFFFFFFFFF BF800001",
    );
    rows.hex(
        's',
        "03 B8 08 C0 7FEFFFFFFFFFFFFF 0000000000000000 7FF0000000000000",
    );
}

fn matrix_vectors(rows: &mut Rows) {
    for n in [2usize, 3, 4, 5, 6, 16] {
        let m = coefficient_count(n);
        let all: Vec<usize> = (0..m).collect();
        for s in [NONE, (true, 1), (false, 4)] {
            let c = if n == 4 { (false, 2) } else { (true, 1) };
            let head = [n as u8, control_1(true, c.0, c.1), control_2(s.0, s.1)];
            // Each unused bit, beside a coefficient's bit and alone.
            for bit in m..8 * vector_length(n) {
                for used in [&[0][..], &[]] {
                    let mut ones = used.to_vec();
                    ones.push(bit);
                    rows.add('S', &[&head[..], &vector(n, &ones)].concat());
                }
            }
            rows.add('S', &[&head[..], &vector(n, &[])].concat());
            for ones in [&[0][..], &[m - 1], &[0, m - 1], &all] {
                let mut ones = ones.to_vec();
                ones.dedup();
                let bytes = whole_matrix(n, c, s, Some(&vector(n, &ones)));
                rows.add('S', &[&head[..], &vector(n, &ones)].concat());
                rows.add('S', &bytes[..bytes.len() - 1]);
                rows.add('S', &bytes);
            }
            if s.1 > 0 {
                rows.add('S', &whole_matrix(n, c, s, Some(&vector(n, &[]))));
            }
            // Only the first byte of the vector is there, without a 1 and with all.
            rows.add('S', &[&head[..], &[0x00]].concat());
            rows.add('S', &[&head[..], &[0x80]].concat());
        }
    }
    // The last byte of the vector has the only 1, in a vector of 252 bytes.
    let mut bytes = vec![64, 0xB1, 0x00];
    bytes.extend(vec![0; 251]);
    rows.add('S', &bytes);
    for last in [0x00, 0x01, 0x80] {
        rows.add('S', &[&bytes[..], &[last]].concat());
    }
    rows.add('S', &[&bytes[..], &[0x01, 0x80]].concat());
    rows.add('S', &[&bytes[..], &[0x01, 0x81]].concat());
}

fn matrix_ends_and_beginnings(rows: &mut Rows) {
    // Bytes behind a complete pack.
    rows.hex('S', "01 80 11 05 FF");
    rows.hex('S', "01 80 11 80 81 81");
    rows.hex('S', "02 91 00 40 FF FF FF");
    rows.hex('S', "03 B1 11 00 00 00 00 FF");
    rows.hex('S', "03 B2 04 A0 3F800000 40000000 40800000 6000 2000 FFFF");
    rows.hex('S', "03 B2 04 A0 3F800000 40000000 40800000 6000 20");

    // The examples of ST 1010: the control bytes B308 and 4B, and the three groupings of six
    // variables with two threes of coefficients.
    rows.hex('S', "03 B3 08");
    rows.hex('S', "03 4B");
    rows.add('s', &whole_matrix(3, (true, 3), (false, 8), Some(&[0xA0])));
    let places = |n: usize, list: &[(usize, usize)]| -> Vec<u8> {
        let mut ones = Vec::new();
        let mut i = 0;
        for row in 0..n {
            for column in row + 1..n {
                if list.contains(&(row, column)) {
                    ones.push(i);
                }
                i += 1;
            }
        }
        vector(n, &ones)
    };
    let twelve = places(12, &[(0, 1), (0, 2), (1, 2), (6, 7), (6, 8), (7, 8)]);
    let six = places(6, &[(0, 1), (0, 2), (1, 2), (3, 4), (3, 5), (4, 5)]);
    rows.add('s', &whole_matrix(12, (true, 2), (false, 4), Some(&twelve)));
    rows.add('s', &whole_matrix(6, (true, 2), (false, 4), Some(&six)));
    rows.add('s', &whole_matrix(3, (true, 2), (false, 4), None));

    // Every beginning of packs of several sizes and formats.
    rows.add('s', &whole_matrix(1, NONE, (true, 1), None));
    rows.add('s', &whole_matrix(1, NONE, (true, 8), None));
    rows.add('s', &whole_matrix(1, NONE, (false, 8), None));
    for n in [2usize, 3, 16, 17] {
        let m = coefficient_count(n);
        let few = vector(n, &[m - 1]);
        let some: Vec<usize> = (0..m).filter(|i| i % 3 == 1 || *i == 0).collect();
        rows.add('s', &whole_matrix(n, (true, 1), NONE, None));
        rows.add('s', &whole_matrix(n, (true, 2), (false, 4), None));
        rows.add('s', &whole_matrix(n, (false, 4), NONE, None));
        rows.add('s', &whole_matrix(n, NONE, (true, 3), None));
        rows.add('s', &whole_matrix(n, (true, 1), NONE, Some(&few)));
        rows.add('s', &whole_matrix(n, (false, 8), (true, 1), Some(&few)));
        rows.add(
            's',
            &whole_matrix(n, (false, 2), (true, 2), Some(&vector(n, &some))),
        );
        rows.add(
            's',
            &whole_matrix(n, (true, 5), (false, 2), Some(&vector(n, &[]))),
        );
    }
    rows.add('s', &whole_matrix(64, (true, 1), (true, 1), None));
    rows.add('s', &whole_matrix(64, NONE, (true, 1), None));
    rows.add(
        's',
        &whole_matrix(64, (true, 1), NONE, Some(&vector(64, &[2015]))),
    );
    rows.add(
        's',
        &whole_matrix(
            64,
            (false, 8),
            (true, 1),
            Some(&vector(64, &[0, 7, 8, 2000])),
        ),
    );
    // The greatest matrix pack.
    rows.add('S', &whole_matrix(64, (false, 8), (false, 8), None));
}

/// The header of an array pack, up to and with the sizes.
pub fn sizes_header(sizes: &[usize]) -> Vec<u8> {
    let mut bytes = octets(sizes.len() as u64);
    for &size in sizes {
        bytes.extend(octets(size as u64));
    }
    bytes
}

/// Adds a header, and the whole pack with E = 0 behind it.
fn add_header(rows: &mut Rows, sizes: &[usize]) {
    let header = sizes_header(sizes);
    rows.add('M', &header);
    rows.add('M', &[&header[..], &[0x00, 0x01]].concat());
}

fn array_sizes(rows: &mut Rows) {
    rows.hex('M', "");
    for byte in 0..=255u8 {
        rows.add('M', &[byte]);
    }
    for byte in [0x00, 0x09, 0x7F, 0x80, 0x81, 0xFF] {
        rows.add('M', &[byte, 0x01, 0x00, 0x01]);
    }
    // Every first octet of a size.
    for byte in 0..=255u8 {
        rows.add('M', &[1, byte]);
    }
    // Sizes alone, and every beginning of them.
    let alone = [
        0, 1, 2, 127, 128, 129, 255, 256, 16383, 16384, 16385, 32767, 32768, 32769, 32896, 65535,
        65536, 2097151, 2097152, 268435456, 4294967296, 4294967297,
    ];
    for size in alone {
        let header = sizes_header(&[size]);
        for end in 1..header.len() {
            rows.add('M', &header[..end]);
        }
        add_header(rows, &[size]);
    }
    // Sizes in every place among ones, and behind and before another size than one.
    for ndim in 2..=8usize {
        for place in 0..ndim {
            for size in [0, 1, 127, 128, 16383, 16384, 32768, 32769] {
                let mut sizes = vec![1; ndim];
                sizes[place] = size;
                add_header(rows, &sizes);
            }
            let mut header = octets(ndim as u64);
            header.extend(vec![1; place]);
            for octet in [0x80u8, 0x81, 0x82, 0x83] {
                rows.add('M', &[&header[..], &[octet]].concat());
            }
            rows.add('M', &[&header[..], &[0x82, 0x80]].concat());
            rows.add('M', &[&header[..], &[0x82, 0x81]].concat());
            rows.add('M', &[&header[..], &[0x80, 0x01, 0x01, 0x01]].concat());
        }
        // Products of twos: exactly the limit, with the great size in every place; one more.
        let great = LIMIT >> (ndim - 1);
        for place in 0..ndim {
            for size in [great, great + 1] {
                let mut sizes = vec![2; ndim];
                sizes[place] = size;
                add_header(rows, &sizes);
                let header = sizes_header(&sizes);
                rows.add('M', &header[..header.len() - 1]);
            }
        }
    }
    for sizes in [
        &[181, 181][..],
        &[181, 182],
        &[182, 181],
        &[32768, 1, 2],
        &[32768, 2, 1],
        &[1, 32768, 2],
        &[256, 128],
        &[256, 129],
        &[128, 256],
        &[128, 257],
        &[127, 258],
        &[127, 259],
        &[16384, 2],
        &[16384, 3],
        &[2, 16384],
        &[2, 16385],
        &[3, 16384],
        &[256, 256, 256, 256, 256],
        &[32768, 32768, 32768, 32768, 32768],
        &[128, 128, 2],
        &[128, 128, 3],
        &[128, 128, 128],
        &[32, 32, 32],
        &[32, 32, 33],
        &[33, 32, 31],
        &[31, 32, 33],
        &[4, 4, 4, 4, 4, 4, 4, 2],
        &[4, 4, 4, 4, 4, 4, 4, 3],
        &[4, 4, 4, 4, 4, 4, 9, 1],
        &[4, 4, 4, 4, 4, 4, 8, 1],
        &[8, 8, 8, 8, 8, 1, 1, 1],
        &[8, 8, 8, 8, 8, 1, 1, 2],
        &[8, 8, 8, 8, 9, 1, 1, 1],
        &[7, 6, 5, 4, 3, 2, 6],
        &[7, 6, 5, 4, 3, 2, 7],
        &[300, 300, 0],
        &[0, 40000],
    ] {
        add_header(rows, sizes);
    }
    // A size begun behind others: one octet, where its smallest ending is at the limit or past it.
    for text in [
        "02 02 81",
        "02 81 00 82",
        "02 82 00 81",
        "02 82 00 82",
        "02 82 01 81",
        "02 81 7F 81",
        "02 02 81 80",
        "02 02 81 81",
        "02 03 81 80",
        "02 81 80 00 02",
        "02 81 80 00 03",
        "03 10 10 81",
        "03 10 11 81",
        "03 02 81 00 81",
        "03 02 81 00 82",
        "03 02 82 80 00",
        "02 81 80",
        "02 82 80",
        "08 01 01 01 01 01 01 01 82 80",
        "08 01 01 01 01 01 01 01 82 81",
        "01 81 80 80",
        "01 81 80 80 00",
        "01 FF",
        "01 83",
        "01 82 80 80",
        "01 FF FF FF FF 7F",
        "01 81 FF",
        "01 81 FF 7F",
        "01 81 81",
        "01 81 81 80",
        "01 90 80 80 80 00",
    ] {
        rows.hex('M', text);
    }
}

fn array_elements(rows: &mut Rows) {
    // Every first octet of E, and some of them for other products.
    for byte in 0..=255u8 {
        rows.add('M', &[1, 1, byte]);
    }
    for byte in (0..=8).chain(0x7E..=0x88).chain([0xC0, 0xFE, 0xFF]) {
        rows.add('M', &[2, 2, 3, byte]);
        rows.add('M', &[1, 0x82, 0x80, 0x00, byte]);
        rows.add('M', &[1, 0x81, 0x80, 0x00, byte]);
    }
    // E at the edges of its octets, and at the limit and past it for several products.
    for product in [
        1, 2, 3, 4, 100, 127, 128, 129, 255, 256, 257, 1000, 16384, 16385, 32767, 32768,
    ] {
        let header = sizes_header(&[product]);
        let most = LIMIT / product;
        for element in [0, 1, 127, 128, most, most + 1] {
            let mut bytes = header.clone();
            let written = octets(element as u64);
            for end in 1..=written.len() {
                rows.add('M', &[&header[..], &written[..end]].concat());
            }
            bytes.extend(written);
            rows.add('M', &[&bytes[..], &[0x01]].concat());
        }
    }
    for text in [
        "01 01 82 80",
        "01 01 82 81",
        "01 01 83",
        "01 01 82 80 00 01",
        "01 01 82 80 01 01",
        "01 01 81 80 80",
        "02 02 02 81",
        "02 80 01",
        "01 01 80",
        "01 01 80 01",
        "01 82 00 81",
        "01 82 01 81",
        "01 81 7F 81",
        "01 01 81 80 80 80 80 80 80 80 80 80 00",
        "03 20 20 20 01 01",
        "03 20 20 20 02",
        "08 01 02 01 02 01 02 01 02 90 00",
        "08 01 02 01 02 01 02 01 02 90 01",
    ] {
        rows.hex('M', text);
    }
    // Every EPA, without a body and before one; a padded number in it.
    for byte in 0..=255u8 {
        rows.add('M', &[1, 1, 0, byte]);
    }
    for byte in [0x00, 0x01, 0x02, 0x03, 0x7F, 0x80, 0x81, 0x82, 0xFF] {
        rows.add('M', &[1, 2, 3, byte]);
        rows.add('M', &[2, 1, 2, 0x81, 0x00, byte]);
        rows.add('M', &[8, 1, 1, 1, 1, 1, 1, 1, 1, 1, byte]);
        rows.add('M', &[1, 1, 0, byte, 0x01]);
    }
    for ndim in 1..=8u8 {
        let mut bytes = vec![ndim];
        bytes.extend(vec![1; ndim as usize]);
        rows.add('M', &[&bytes[..], &[0x80]].concat());
        rows.add('M', &[&bytes[..], &[0x01, 0x80]].concat());
    }
}

fn array_bodies(rows: &mut Rows) {
    // Bodies: none there, cut, whole, with bytes behind.
    rows.hex('M', "01 03 02 01");
    rows.hex('M', "01 03 02 01 FF");
    rows.hex('M', "01 03 02 01 FF 80 00 81 7F");
    rows.hex('M', "01 03 02 01 FF 80 00 81 7F 00");
    rows.hex('M', "01 03 02 01 FF 80 00 81 7F 00 00");
    rows.hex('M', "01 01 00 01 00");
    rows.hex('M', "01 01 00 01 FF FF");
    rows.hex('M', "02 82 00 81 00 00 01 80");
    rows.hex('M', "01 82 80 00 00 01 80");

    // The examples of ST 1303: 100 by 100 (two dimensions), and 100 by 200 by 300, which is past
    // the limit.
    add_header(rows, &[100, 100]);
    for element in 0..=4 {
        let mut bytes = sizes_header(&[100, 100]);
        bytes.extend(octets(element));
        rows.add('M', &bytes);
        rows.add('M', &[&bytes[..], &[0x01]].concat());
    }
    add_header(rows, &[100, 200]);
    add_header(rows, &[100, 200, 300]);
    rows.add('m', &sizes_header(&[100, 200, 300]));

    // Every beginning.
    rows.hex('m', "01 05 00 01");
    rows.hex('m', "01 01 01 01 00");
    rows.hex('m', "01 82 80 00 01");
    rows.hex('m', "01 82 80 01 00 01");
    rows.hex('m', "01 81 80 00 02");
    rows.hex(
        'm',
        "02 02 03 04 01 000102030405060708090A0B0C0D0E0F1011121314151617 FF",
    );
    rows.hex('m', "03 81 00 02 81 00 00 01");
    rows.hex('m', "03 81 00 02 81 01 00 01");
    rows.hex('m', "08 01 01 01 01 01 01 01 01 01 01 FF");
    rows.hex('m', "08 02 01 02 01 02 01 02 01 03 01 FFFFFFFF");
    rows.hex('m', "08 02 02 02 02 02 02 02 82 00 00 01");
    rows.hex('m', "08 02 02 02 02 02 02 02 82 00 01 01");
    rows.hex('m', "01 02 81 00 02");
    rows.hex('m', "01 02 81 80 00 80");
    rows.hex('m', "01 02 81 80 01");
    rows.hex('m', "01 01 82 80 00 81");
    let mut bytes = sizes_header(&[2, 1, 1]);
    bytes.extend([0x81, 0x00, 0x01]);
    bytes.extend((0..=255u8).rev());
    rows.add('m', &bytes);
    // The greatest body.
    let mut bytes = sizes_header(&[LIMIT]);
    bytes.extend([0x01, 0x01]);
    bytes.extend((0..LIMIT).map(|i| (i * 7) as u8));
    rows.add('M', &bytes);
}

/// Prints the rows of the reference table and those on each side of every limit.
pub fn make(output: &mut dyn Write) -> io::Result<()> {
    let mut rows = Rows(Vec::new());
    for &(kind, text) in TABLE {
        rows.hex(kind, text);
    }
    matrix_sizes_and_controls(&mut rows);
    matrix_formats(&mut rows);
    matrix_words(&mut rows);
    matrix_vectors(&mut rows);
    matrix_ends_and_beginnings(&mut rows);
    array_sizes(&mut rows);
    array_elements(&mut rows);
    array_bodies(&mut rows);
    mode1::make(&mut rows);
    alone::make(&mut rows);
    rows.print(output)?;
    let others = [
        address::make(),
        values::make(),
        writes::make(),
        scaling::make(),
        framed::make(),
    ];
    for row in others.iter().flatten() {
        writeln!(output, "{}", row)?;
    }
    Ok(())
}
