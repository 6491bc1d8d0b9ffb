// A seeded generator of frames: good ones, cut ones, damaged ones and lines that are no frames.

use crate::array::{octets, GREATEST_NDIM, LIMIT};
use crate::frame::{ber_length, hex_of_bytes, ARRAY_KEY, GREATEST_FRAME, MATRIX_KEY};
use crate::matrix::{
    allowed_lengths, coefficient_count, lawful_controls, vector_length, Control, Role,
};
use std::io::{self, Write};

/// splitmix64.
pub struct Random(u64);

impl Random {
    pub fn new(seed: u64) -> Random {
        Random(seed)
    }

    pub fn next(&mut self) -> u64 {
        self.0 = self.0.wrapping_add(0x9E3779B97F4A7C15);
        let mut z = self.0;
        z = (z ^ (z >> 30)).wrapping_mul(0xBF58476D1CE4E5B9);
        z = (z ^ (z >> 27)).wrapping_mul(0x94D049BB133111EB);
        z ^ (z >> 31)
    }

    /// A number below `n`.
    pub fn below(&mut self, n: usize) -> usize {
        (self.next() % n as u64) as usize
    }

    /// A number from `low` to `high`.
    pub fn between(&mut self, low: usize, high: usize) -> usize {
        low + self.below(high - low + 1)
    }

    pub fn one_in(&mut self, n: usize) -> bool {
        self.below(n) == 0
    }

    pub fn pick<T: Copy>(&mut self, list: &[T]) -> T {
        list[self.below(list.len())]
    }

    pub fn byte(&mut self) -> u8 {
        self.next() as u8
    }

    pub fn bytes(&mut self, count: usize) -> Vec<u8> {
        (0..count).map(|_| self.byte()).collect()
    }
}

/// The bytes of a pack, with the places where its fields begin.
pub struct Pack {
    pub bytes: Vec<u8>,
    pub fields: Vec<usize>,
}

impl Pack {
    fn new() -> Pack {
        Pack {
            bytes: Vec::new(),
            fields: Vec::new(),
        }
    }

    fn add(&mut self, field: &[u8]) {
        self.fields.push(self.bytes.len());
        self.bytes.extend_from_slice(field);
    }
}

/// The greatest lawful word of a format, the sign left aside, in big-endian bytes.
pub fn greatest_word(length: usize, mapped: bool, role: Role) -> Vec<u8> {
    let word: u64 = match (mapped, role, length) {
        (true, _, _) => 1 << (8 * length - 1),
        (false, Role::Deviation, 2) => 0x7BFF,
        (false, Role::Deviation, 4) => 0x7F7FFFFF,
        (false, Role::Deviation, _) => 0x7FEFFFFFFFFFFFFF,
        (false, Role::Coefficient, 2) => 0x3C00,
        (false, Role::Coefficient, 4) => 0x3F800000,
        (false, Role::Coefficient, _) => 0x3FF0000000000000,
    };
    word.to_be_bytes()[8 - length..].to_vec()
}

/// A lawful word, often one at an edge.
fn good_word(random: &mut Random, length: usize, mapped: bool, role: Role) -> Vec<u8> {
    let greatest = greatest_word(length, mapped, role);
    let mut word = match random.below(8) {
        0 => vec![0; length],
        1 => greatest.clone(),
        _ => {
            let mut word = random.bytes(length);
            word[0] &= 0x7F;
            if word > greatest {
                word[0] = random.below(greatest[0] as usize) as u8;
            }
            word
        }
    };
    if !mapped && role == Role::Coefficient && random.one_in(2) {
        word[0] |= 0x80;
    }
    word
}

/// A word that breaks its rule, at any of its bytes where it can.
fn bad_word(random: &mut Random, length: usize, mapped: bool, role: Role) -> Vec<u8> {
    let greatest = greatest_word(length, mapped, role);
    loop {
        let place = random.below(length);
        if greatest[place] == 0xFF {
            continue;
        }
        let mut word = greatest.clone();
        let step = random.between(1, 0xFF - greatest[place] as usize);
        word[place] += if random.one_in(2) { 1 } else { step as u8 };
        for byte in &mut word[place + 1..] {
            *byte = random.byte();
        }
        if !mapped && role == Role::Coefficient {
            // The sign is free; the first byte must be too great without it.
            if word[0] & 0x7F <= greatest[0] && place == 0 {
                word[0] = random.between(greatest[0] as usize + 1, 0x7F) as u8;
            }
            if random.one_in(2) {
                word[0] |= 0x80;
            }
        }
        return word;
    }
}

/// How large a thing may be.
#[derive(Clone, Copy, PartialEq, Eq)]
pub enum Scale {
    Small,
    Any,
    Greatest,
}

fn scale(random: &mut Random) -> Scale {
    match random.below(1000) {
        0 => Scale::Greatest,
        1..=120 => Scale::Any,
        _ => Scale::Small,
    }
}

/// What a generated matrix pack holds.
struct Matrix {
    n: usize,
    control: Control,
    marks: Vec<bool>,
}

/// A matrix pack, good in all but perhaps one word.
fn write_matrix(random: &mut Random, matrix: &Matrix, bad: bool) -> Pack {
    let n = matrix.n;
    let control = &matrix.control;
    let mut pack = Pack::new();
    pack.add(&[n as u8]);
    for byte in control.bytes() {
        pack.add(&[byte]);
    }
    if control.sparse {
        let mut vector = vec![0u8; vector_length(n)];
        for (i, &mark) in matrix.marks.iter().enumerate() {
            if mark {
                vector[i / 8] |= 128 >> (i % 8);
            }
        }
        pack.add(&vector);
    }
    let deviations = if control.s_length > 0 { n } else { 0 };
    let coefficients = matrix.marks.iter().filter(|&&mark| mark).count();
    let words = deviations + coefficients;
    let bad_place = if bad && words > 0 {
        random.below(words)
    } else {
        words
    };
    for i in 0..words {
        let (length, mapped, role) = if i < deviations {
            (control.s_length, control.s_mapped, Role::Deviation)
        } else {
            (control.c_length, control.c_mapped, Role::Coefficient)
        };
        let word = if i == bad_place {
            bad_word(random, length, mapped, role)
        } else {
            good_word(random, length, mapped, role)
        };
        pack.add(&word);
    }
    pack
}

/// What the control bytes of an N by N pack say, of the greatest lengths if that is asked for.
fn choose_control(random: &mut Random, n: usize, stated: bool, greatest: bool) -> Control {
    let mode = if random.one_in(3) { 1 } else { 2 };
    let mut list = lawful_controls(n, mode, stated);
    if greatest {
        let (c, s) = match (mode, stated) {
            (1, true) => (7, 7),
            (1, false) => (7, 4),
            _ => (8, 8),
        };
        list.retain(|control| control.c_length == c && control.s_length == s);
    }
    random.pick(&list)
}

/// The fields of a matrix pack.
fn choose_matrix(random: &mut Random, scale: Scale, stated: bool) -> Matrix {
    let n = match scale {
        Scale::Small => match random.below(10) {
            0..=6 => random.between(1, 4),
            _ => random.between(3, 7),
        },
        Scale::Any => match random.below(4) {
            0 => random.between(1, 64),
            1 => random.pick(&[15, 16, 17, 18]),
            _ => random.between(8, 20),
        },
        Scale::Greatest => 64,
    };
    let control = choose_control(random, n, stated, scale == Scale::Greatest);
    let m = coefficient_count(n);
    let mut marks = vec![control.c_length > 0; m];
    if control.sparse {
        let share = random.below(5);
        for mark in &mut marks {
            *mark = match share {
                0 => false,
                1 => random.one_in(20),
                2 => random.one_in(4),
                3 => random.one_in(2),
                _ => true,
            };
        }
        if control.s_length == 0 && !marks.contains(&true) {
            marks[random.below(m)] = true;
        }
    }
    Matrix { n, control, marks }
}

pub fn good_matrix(random: &mut Random, scale: Scale, stated: bool) -> Pack {
    let matrix = choose_matrix(random, scale, stated);
    write_matrix(random, &matrix, false)
}

/// A value length below the given one that the format does not allow.
fn wrong_length(random: &mut Random, mode: u8, mapped: bool, above: usize) -> u8 {
    loop {
        let length = random.below(above);
        if !allowed_lengths(mode, mapped).contains(&length) {
            return length as u8;
        }
    }
}

/// The reasons that a matrix pack is refused for.
const MATRIX_REASONS: [usize; 12] = [1, 2, 3, 4, 5, 6, 7, 8, 9, 10, 11, 16];

/// A matrix pack made to be refused for one of these reasons, where deviations are stated to be
/// IEEE.
fn bad_matrix(random: &mut Random, reason: usize) -> Vec<u8> {
    loop {
        let scale = if random.one_in(12) {
            Scale::Any
        } else {
            Scale::Small
        };
        let mut matrix = choose_matrix(random, scale, false);
        let m = coefficient_count(matrix.n);
        match reason {
            // Mode 1 has neither a second byte, nor a reserved bit, nor a format flag.
            4 | 5 | 16 if matrix.control.mode == 1 => continue,
            8 if matrix.n == 1 || matrix.control.c_length == 0 => continue,
            9 if random.one_in(2) => {
                // A sparse pack without a 1 and without deviations.
                if m == 0 || matrix.control.c_length == 0 {
                    continue;
                }
                matrix.control.sparse = true;
                matrix.control.s_mapped = false;
                matrix.control.s_length = 0;
                matrix.marks = vec![false; m];
            }
            10 if m % 8 == 0 || !matrix.control.sparse => continue,
            _ => {}
        }
        let mut bytes = write_matrix(random, &matrix, reason == 11).bytes;
        let control = &matrix.control;
        let on_first = random.one_in(2);
        match (reason, control.mode) {
            (1, _) => bytes[0] = 0,
            (2, _) => bytes[0] = random.pick(&[0x41, 0x42, 0x7F, 0x81, 0x82, 0xC0, 0xFF]),
            (3, _) => bytes[0] = 0x80,
            (4, _) => bytes[2] |= 0x80,
            (5, _) if on_first => bytes[1] |= 0x40,
            (5, _) => bytes[2] |= random.pick(&[0x20, 0x40, 0x60]),
            (6, 1) => bytes[1] = bytes[1] & 0x0F | wrong_length(random, 1, false, 8) << 4,
            (6, _) if on_first => {
                bytes[1] = bytes[1] & 0xF0 | wrong_length(random, 2, control.c_mapped, 16)
            }
            (6, _) => bytes[2] = bytes[2] & 0xF0 | wrong_length(random, 2, control.s_mapped, 16),
            (7, 1) => bytes[1] = bytes[1] & 0x70 | 0x08,
            (7, _) => bytes[1] = 0xA0,
            (8, _) => bytes[0] = 1,
            (9, 1) if !control.sparse => bytes[1] = 0,
            (9, _) if !control.sparse => {
                bytes[1] = 0x80;
                bytes[2] = 0x00;
            }
            (10, mode) => {
                let unused = vector_length(matrix.n) * 8 - m;
                let last = mode as usize + vector_length(matrix.n);
                bytes[last] |= 1 << random.below(unused);
            }
            // Beside the other bits of its byte; the values stay, so that where there were none
            // the flag alone is wrong.
            (16, _) if on_first => bytes[1] = bytes[1] & 0xE0 | 0x10,
            (16, _) => bytes[2] = 0x10,
            _ => {}
        }
        return bytes;
    }
}

/// The numbers of an array pack, each by its octets, and its body.
struct Array {
    numbers: Vec<Vec<u8>>,
    body: usize,
    product: usize,
}

fn choose_array(random: &mut Random, scale: Scale) -> Array {
    let (limit, least) = match scale {
        Scale::Small => (random.pick(&[1, 4, 16, 64, 128, 200]), 1),
        Scale::Any => (random.pick(&[256, 1000, 4000]), 1),
        Scale::Greatest => (LIMIT, LIMIT / 2),
    };
    // Now and then a value about 127, 128, 255 or 256 bytes long, where the form of the frame's
    // length changes.
    if scale == Scale::Small && random.one_in(30) {
        let body = random.pick(&[122, 123, 124, 125, 249, 250, 251, 252]);
        let numbers = vec![octets(1), octets(body as u64), octets(1), octets(1)];
        return Array {
            numbers,
            body,
            product: body,
        };
    }
    loop {
        let ndim = random.pick(&[3, GREATEST_NDIM]);
        let ndim = random.between(1, ndim);
        let mut sizes = vec![1; ndim];
        let mut product = 1;
        for _ in 0..ndim {
            let place = random.below(ndim);
            if sizes[place] > 1 {
                continue;
            }
            let room = limit / product;
            let size = match random.below(4) {
                0 => room,
                1 => 1 + random.below(room),
                _ => 1 + random.below(room.min(8)),
            };
            sizes[place] = size;
            product *= size;
        }
        // With no elements' bytes the product may be as great as it likes.
        let mut element = match random.below(6) {
            0 => 0,
            1 => limit / product,
            _ => random.below(limit / product + 1),
        };
        if element == 0 && random.one_in(2) {
            let place = random.below(ndim);
            let room = LIMIT / (product / sizes[place]);
            product /= sizes[place];
            sizes[place] = 1 + random.below(room);
            product *= sizes[place];
        }
        if scale == Scale::Greatest {
            element = LIMIT / product;
        }
        let body = product * element;
        if body < least && scale == Scale::Greatest {
            continue;
        }
        let mut numbers = vec![octets(ndim as u64)];
        for size in sizes {
            numbers.push(octets(size as u64));
        }
        numbers.push(octets(element as u64));
        numbers.push(octets(1));
        return Array {
            numbers,
            body,
            product,
        };
    }
}

fn write_array(random: &mut Random, array: &Array) -> Pack {
    let mut pack = Pack::new();
    for number in &array.numbers {
        pack.add(number);
    }
    pack.add(&random.bytes(array.body));
    pack
}

pub fn good_array(random: &mut Random, scale: Scale) -> Pack {
    let array = choose_array(random, scale);
    write_array(random, &array)
}

/// An array pack made to be refused for reason 1, 2, 3 or 12.
fn bad_array(random: &mut Random, reason: usize) -> Vec<u8> {
    let mut array = choose_array(random, Scale::Small);
    let last = array.numbers.len() - 1;
    let any = random.below(last + 1);
    match reason {
        1 => {
            let place = if any == last - 1 { last } else { any };
            array.numbers[place] = vec![0];
        }
        2 => {
            let place = any.min(last - 1);
            let limit = if place == 0 {
                GREATEST_NDIM
            } else if place == last - 1 {
                LIMIT / array.product
            } else {
                LIMIT
            };
            let number = match random.below(4) {
                0 => limit as u64 + 1,
                1 => limit as u64 + 1 + random.below(300) as u64,
                2 => limit as u64 + 1 + random.next() % 0x1_0000_0000,
                _ => limit as u64 + 1 + random.next() / 2,
            };
            array.numbers[place] = octets(number);
        }
        3 => array.numbers[any].insert(0, 0x80),
        _ => {
            array.numbers[last] = random
                .pick(&[&[2][..], &[3], &[0x7F], &[0x81, 0x01], &[0xFF, 0x7F]])
                .to_vec()
        }
    }
    write_array(random, &array).bytes
}

#[derive(Clone, Copy, PartialEq, Eq)]
enum Kind {
    Matrix,
    Array,
}

fn key(kind: Kind) -> [u8; 16] {
    match kind {
        Kind::Matrix => MATRIX_KEY,
        Kind::Array => ARRAY_KEY,
    }
}

fn good_pack(random: &mut Random, kind: Kind) -> Pack {
    let scale = scale(random);
    match kind {
        Kind::Matrix => good_matrix(random, scale, false),
        Kind::Array => good_array(random, scale),
    }
}

/// A frame around a value, with the due length.
fn frame(kind: Kind, value: &[u8]) -> Vec<u8> {
    let mut bytes = key(kind).to_vec();
    bytes.extend(ber_length(value.len()));
    bytes.extend_from_slice(value);
    bytes
}

/// A place where something is cut: at the start of a field, beside it, or anywhere.
fn cut_place(random: &mut Random, pack: &Pack) -> usize {
    let length = pack.bytes.len();
    match random.below(4) {
        0 => random.below(length + 1),
        1 => random.below(length.min(8) + 1),
        2 => random.pick(&pack.fields),
        _ => (random.pick(&pack.fields) + 1).min(length),
    }
}

fn damage(random: &mut Random, bytes: &mut [u8], place: usize) {
    let old = bytes[place];
    while bytes[place] == old {
        bytes[place] = match random.below(4) {
            0 => old ^ (1 << random.below(8)),
            1 => old.wrapping_add(1),
            2 => random.pick(&[0x00, 0x01, 0x7F, 0x80, 0x81, 0xFF]),
            _ => random.byte(),
        };
    }
}

/// A length field that is not the shortest form, or none at all.
fn wrong_form(random: &mut Random, length: usize) -> Vec<u8> {
    let two = [(length / 256) as u8, length as u8];
    match random.below(8) {
        0 if length < 0x80 => vec![0x81, length as u8],
        1 if length < 0x100 => vec![0x82, 0x00, length as u8],
        2 => vec![0x83, 0x00, two[0], two[1]],
        3 => vec![0x84, 0x00, 0x00, two[0], two[1]],
        4 => vec![0x80],
        5 => vec![0xFF],
        6 => vec![0x81, 0x7F],
        _ => vec![0x82, 0x00, 0xFF],
    }
}

/// The text of one line, without its LF.
fn line(random: &mut Random) -> Vec<u8> {
    let kind = if random.below(5) < 3 {
        Kind::Matrix
    } else {
        Kind::Array
    };
    let choice = random.below(1000);
    let bytes = match choice {
        // A good frame.
        0..=229 => {
            let pack = good_pack(random, kind);
            frame(kind, &pack.bytes)
        }
        // A pack cut at a field, in a frame with the due length.
        230..=349 => {
            let pack = good_pack(random, kind);
            let cut = cut_place(random, &pack);
            frame(kind, &pack.bytes[..cut])
        }
        // A frame cut in its key, its length or its value.
        350..=409 => {
            let pack = good_pack(random, kind);
            let mut bytes = frame(kind, &pack.bytes);
            let cut = match random.below(4) {
                0 => random.below(17),
                1 => random.between(15, 20),
                _ => bytes.len() - pack.bytes.len() + cut_place(random, &pack),
            };
            bytes.truncate(cut);
            bytes
        }
        // One byte of the value damaged, mostly near its start.
        410..=539 => {
            let pack = good_pack(random, kind);
            let mut value = pack.bytes;
            let place = if random.one_in(2) {
                random.below(value.len())
            } else {
                random.below(value.len().min(6))
            };
            damage(random, &mut value, place);
            frame(kind, &value)
        }
        // One byte of the frame damaged.
        540..=589 => {
            let pack = good_pack(random, kind);
            let mut bytes = frame(kind, &pack.bytes);
            let place = random.below(bytes.len());
            damage(random, &mut bytes, place);
            bytes
        }
        // A pack made to be refused, sometimes cut, sometimes with more behind it.
        590..=789 => {
            let mut value = match kind {
                Kind::Matrix => {
                    let reason = random.pick(&MATRIX_REASONS);
                    bad_matrix(random, reason)
                }
                Kind::Array => {
                    let reason = random.pick(&[1, 2, 3, 12]);
                    bad_array(random, reason)
                }
            };
            match random.below(6) {
                0 => value.truncate(random.between(1, value.len())),
                1 => {
                    let more = random.between(1, 9);
                    value.extend(random.bytes(more));
                }
                _ => {}
            }
            frame(kind, &value)
        }
        // Any bytes, the first ones often lawful.
        790..=829 => {
            let count = random.below(24);
            let mut value = random.bytes(count);
            for (place, byte) in value.iter_mut().enumerate() {
                if random.one_in(2) {
                    *byte = match (kind, place) {
                        (_, 0) => random.between(1, 4) as u8,
                        (Kind::Matrix, 1) if random.one_in(2) => *byte & 0x6B,
                        (Kind::Matrix, 1) => 0x80 | *byte & 0x33,
                        (Kind::Matrix, 2) => *byte & 0x13,
                        (Kind::Matrix, _) => *byte & 0x7F,
                        (Kind::Array, _) => *byte & 0x83,
                    };
                }
            }
            frame(kind, &value)
        }
        // Another key.
        830..=859 => {
            let pack = good_pack(random, kind);
            let mut bytes = frame(kind, &pack.bytes);
            match random.below(3) {
                0 => bytes[12] = random.byte(),
                1 => {
                    let place = random.below(16);
                    damage(random, &mut bytes, place);
                }
                _ => {
                    for byte in &mut bytes[..16] {
                        *byte = random.byte();
                    }
                }
            }
            if random.one_in(4) {
                bytes.truncate(16);
            }
            bytes
        }
        // A length form that is not due.
        860..=899 => {
            let pack = good_pack(random, kind);
            let mut bytes = key(kind).to_vec();
            bytes.extend(wrong_form(random, pack.bytes.len()));
            bytes.extend(pack.bytes);
            bytes
        }
        // A length in its due form that is not the value's.
        900..=929 => {
            let pack = good_pack(random, kind);
            let length = pack.bytes.len();
            let said = match random.below(4) {
                0 => length + 1,
                1 => length - 1,
                2 => random.below(0x10000),
                _ => random.pick(&[0, 0x7F, 0x80, 0xFF, 0x100, 0xFFFF]),
            };
            let mut bytes = key(kind).to_vec();
            bytes.extend(ber_length(said));
            bytes.extend(pack.bytes);
            bytes
        }
        // A whole pack with more behind it, in a frame with the due length.
        930..=949 => {
            let mut value = good_pack(random, kind).bytes;
            let more = random.between(1, 5);
            value.extend(random.bytes(more));
            frame(kind, &value)
        }
        // A line that is no upper-case hexadecimal.
        950..=989 => return odd_line(random, kind),
        // A line of no bytes, or of few.
        990..=998 => {
            if random.one_in(2) {
                return Vec::new();
            }
            let count = random.below(20);
            random.bytes(count)
        }
        // A line at the greatest length or past it, or a frame without a value.
        _ => {
            if random.one_in(4) {
                frame(kind, &[])
            } else {
                return long_line(random, kind);
            }
        }
    };
    hex_of_bytes(&bytes).into_bytes()
}

/// A good line with something wrong in its characters.
fn odd_line(random: &mut Random, kind: Kind) -> Vec<u8> {
    let pack = good_pack(random, kind);
    let mut text = hex_of_bytes(&frame(kind, &pack.bytes)).into_bytes();
    let place = random.below(text.len());
    match random.below(7) {
        0 => text.make_ascii_lowercase(),
        1 => text.push(b'\r'),
        2 => {
            text.push(b'0');
            text.push(b'\r');
        }
        3 => text.truncate(text.len() - 1),
        4 => {
            text.remove(place);
        }
        5 => text[place] = random.pick(b"/:@G`abcdefg \t\r\0\x7F\x80\xFFxX.,-Zz"),
        _ => {
            text.insert(place, random.pick(b" \t\r0F:G"));
        }
    }
    text
}

/// A line at the greatest length of a line, or past it, whatever it holds.
fn long_line(random: &mut Random, kind: Kind) -> Vec<u8> {
    let head = 16 + 3;
    let (value, characters) = match random.below(4) {
        0 => (GREATEST_FRAME - head, 0),
        1 => (GREATEST_FRAME - head, 1),
        2 => (GREATEST_FRAME - head + 1, 0),
        _ => (
            GREATEST_FRAME - head + random.between(1, 40),
            random.below(2),
        ),
    };
    let mut bytes = good_pack(random, kind).bytes;
    while bytes.len() < value {
        bytes.push(random.byte());
    }
    bytes.truncate(value);
    let mut text = hex_of_bytes(&frame(kind, &bytes)).into_bytes();
    for _ in 0..characters {
        text.push(b'0');
    }
    if random.one_in(3) {
        let place = random.below(text.len());
        text[place] = random.pick(b"ag\r /");
    }
    text
}

/// Prints so many lines; the last has no LF if their count is odd.
pub fn print(seed: u64, count: u64, output: &mut dyn Write) -> io::Result<()> {
    let mut random = Random::new(seed);
    for i in 1..=count {
        let open = i == count && count % 2 == 1;
        let mut text = line(&mut random);
        while open && text.is_empty() {
            text = line(&mut random);
        }
        output.write_all(&text)?;
        if !open {
            output.write_all(b"\n")?;
        }
    }
    Ok(())
}
