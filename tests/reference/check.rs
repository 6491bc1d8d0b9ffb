// A comparison of the verdicts with a search: packs are known by a plain definition on whole bytes,
// and endings are tried until one makes a pack.

use crate::corpus::{good_array, good_matrix, Pack, Random, Scale};
use crate::frame::hex_of_bytes;
use crate::matrix::{has_lawful_ending, lawful_word, Role};
use crate::verdict::Verdict;
use crate::writes::same_again;
use crate::{array, matrix, order};
use std::io::{self, Write};

/// The rule of a word, by the limits of the document.
fn keeps_rule(word: &[u8], mapped: bool, role: Role) -> bool {
    let mut number = word.iter().fold(0u64, |sum, &byte| sum << 8 | byte as u64);
    if mapped {
        return number <= 1 << (8 * word.len() - 1);
    }
    if role == Role::Coefficient {
        number &= !(1 << (8 * word.len() - 1));
    }
    number
        <= match (role, word.len()) {
            (Role::Deviation, 2) => 0x7BFF,
            (Role::Deviation, 4) => 0x7F7FFFFF,
            (Role::Deviation, _) => 0x7FEFFFFFFFFFFFFF,
            (Role::Coefficient, 2) => 0x3C00,
            (Role::Coefficient, 4) => 0x3F800000,
            (Role::Coefficient, _) => 0x3FF0000000000000,
        }
}

/// What stands behind the size of a matrix pack: how many control bytes, Cs, Cf, Clen, Sf and Slen.
type Fields = (usize, bool, bool, usize, bool, usize);

/// The fields of Mode 1 (000, Table 1) by the place of their bits.
fn single_byte(byte: u8, stated: bool) -> Option<Fields> {
    let (s_length, sparse, c_length) = (byte / 16, byte / 8 % 2 == 1, byte % 8);
    let allowed = stated || [0, 2, 4].contains(&s_length);
    allowed.then_some((
        1,
        sparse,
        true,
        c_length as usize,
        stated,
        s_length as usize,
    ))
}

/// The fields of Mode 2 (000, Table 2). A format flag that is 1 has values behind it.
fn two_bytes(one: u8, two: u8) -> Option<Fields> {
    let (sparse, c_mapped, c_length) = (one & 0x20 != 0, one & 0x10 != 0, (one & 0x0F) as usize);
    let (s_mapped, s_length) = (two & 0x10 != 0, (two & 0x0F) as usize);
    let allowed = |mapped: bool, length: usize| {
        if mapped {
            1 <= length && length <= 8
        } else {
            length == 0 || length == 2 || length == 4 || length == 8
        }
    };
    let good = one & 0xC0 == 0x80
        && two & 0xE0 == 0
        && allowed(c_mapped, c_length)
        && allowed(s_mapped, s_length);
    good.then_some((2, sparse, c_mapped, c_length, s_mapped, s_length))
}

/// Whether the bytes are a matrix pack from end to end.
fn is_matrix_pack(bytes: &[u8], stated: bool) -> bool {
    if bytes.len() < 3 || bytes[0] < 1 || bytes[0] > 64 {
        return false;
    }
    let n = bytes[0] as usize;
    let m = n * (n - 1) / 2;
    let fields = if bytes[1] < 128 {
        single_byte(bytes[1], stated)
    } else {
        two_bytes(bytes[1], bytes[2])
    };
    let Some((count, sparse, c_mapped, c_length, s_mapped, s_length)) = fields else {
        return false;
    };
    if sparse && c_length == 0 || n == 1 && c_length > 0 {
        return false;
    }
    let mut rest = &bytes[1 + count..];
    let mut coefficients = if c_length > 0 { m } else { 0 };
    if sparse {
        let count = (m + 7) / 8;
        if rest.len() < count {
            return false;
        }
        coefficients = 0;
        for i in 0..8 * count {
            if rest[i / 8] >> (7 - i % 8) & 1 == 1 {
                if i >= m {
                    return false;
                }
                coefficients += 1;
            }
        }
        rest = &rest[count..];
    }
    if s_length == 0 && coefficients == 0 {
        return false;
    }
    if rest.len() != n * s_length + coefficients * c_length {
        return false;
    }
    let (deviations, coefficients) = rest.split_at(n * s_length);
    (s_length == 0
        || deviations
            .chunks(s_length)
            .all(|word| keeps_rule(word, s_mapped, Role::Deviation)))
        && (c_length == 0
            || coefficients
                .chunks(c_length)
                .all(|word| keeps_rule(word, c_mapped, Role::Coefficient)))
}

/// A number at the start of the bytes, and its octets; no number above 2^40, and none padded.
fn number(bytes: &[u8]) -> Option<(u64, usize)> {
    let mut value = 0u64;
    for (i, &octet) in bytes.iter().enumerate() {
        if i == 0 && octet == 0x80 || value > 1 << 40 {
            return None;
        }
        value = value * 128 + (octet & 0x7F) as u64;
        if octet & 0x80 == 0 {
            return Some((value, i + 1));
        }
    }
    None
}

/// Whether the bytes are an array pack from end to end.
fn is_array_pack(bytes: &[u8]) -> bool {
    fn read(bytes: &[u8]) -> Option<bool> {
        let (ndim, mut at) = number(bytes)?;
        if ndim < 1 || ndim > 8 {
            return Some(false);
        }
        let mut product = 1u128;
        for _ in 0..ndim {
            let (size, count) = number(&bytes[at..])?;
            if size == 0 {
                return Some(false);
            }
            product *= size as u128;
            at += count;
        }
        let (element, count) = number(&bytes[at..])?;
        at += count;
        let (processing, count) = number(&bytes[at..])?;
        at += count;
        let body = product * element as u128;
        Some(
            product <= 32768
                && body <= 32768
                && processing == 1
                && (bytes.len() - at) as u128 == body,
        )
    }
    read(bytes) == Some(true)
}

/// The fewest bytes, up to `most`, that make a pack behind the given ones; the bytes to try at a
/// place are given by `alphabet`.
fn fewest_by_search(
    bytes: &[u8],
    most: usize,
    is_pack: fn(&[u8]) -> bool,
    alphabet: fn(usize) -> &'static [u8],
) -> Option<usize> {
    fn try_all(
        bytes: &mut Vec<u8>,
        left: usize,
        is_pack: fn(&[u8]) -> bool,
        alphabet: fn(usize) -> &'static [u8],
    ) -> bool {
        if left == 0 {
            return is_pack(bytes);
        }
        for &byte in alphabet(bytes.len()) {
            bytes.push(byte);
            let found = try_all(bytes, left - 1, is_pack, alphabet);
            bytes.pop();
            if found {
                return true;
            }
        }
        false
    }
    (0..=most).find(|&count| try_all(&mut bytes.to_vec(), count, is_pack, alphabet))
}

const ALL_BYTES: [u8; 256] = {
    let mut list = [0u8; 256];
    let mut i = 0;
    while i < 256 {
        list[i] = i as u8;
        i += 1;
    }
    list
};

fn matrix_alphabet(place: usize) -> &'static [u8] {
    if place < 3 {
        &ALL_BYTES
    } else {
        &[0x00, 0x80, 0x01]
    }
}

fn array_alphabet(place: usize) -> &'static [u8] {
    if place == 0 {
        &ALL_BYTES
    } else {
        &[0x00, 0x01, 0x02, 0x81]
    }
}

struct Kind {
    verdict: fn(&[u8]) -> Verdict,
    is_pack: fn(&[u8]) -> bool,
    alphabet: fn(usize) -> &'static [u8],
    good: fn(&mut Random, Scale) -> Pack,
}

/// Matrix packs where deviations of Mode 1 are stated to be IEEE, and where mapped.
const MATRICES: [Kind; 2] = [
    Kind {
        verdict: |bytes| matrix::verdict(bytes, false),
        is_pack: |bytes| is_matrix_pack(bytes, false),
        alphabet: matrix_alphabet,
        good: |random, scale| good_matrix(random, scale, false),
    },
    Kind {
        verdict: |bytes| matrix::verdict(bytes, true),
        is_pack: |bytes| is_matrix_pack(bytes, true),
        alphabet: matrix_alphabet,
        good: |random, scale| good_matrix(random, scale, true),
    },
];
const ARRAY: Kind = Kind {
    verdict: array::verdict,
    is_pack: is_array_pack,
    alphabet: array_alphabet,
    good: good_array,
};

/// Compares the verdict on the bytes with what the search finds, trying up to `most` more bytes.
fn compare(kind: &Kind, bytes: &[u8], most: usize) {
    let verdict = (kind.verdict)(bytes);
    let whole = (0..=bytes.len()).find(|&k| (kind.is_pack)(&bytes[..k]));
    let search = |bytes: &[u8]| fewest_by_search(bytes, most, kind.is_pack, kind.alphabet);
    let agrees = match verdict {
        Verdict::Complete(length) => whole == Some(length),
        Verdict::Unfinished(missing) => {
            let found = search(bytes);
            whole.is_none()
                && missing > 0
                && if missing <= most {
                    found == Some(missing)
                } else {
                    found.is_none()
                }
        }
        Verdict::Refused { place, .. } => {
            // Nothing ends the bytes up to the place; something ends those before it.
            let before = match (kind.verdict)(&bytes[..place]) {
                // No byte and single bytes are compared for themselves.
                Verdict::Unfinished(missing) => {
                    missing > most || place <= 1 || search(&bytes[..place]) == Some(missing)
                }
                _ => false,
            };
            let none_after = place == 0 && bytes.len() > 1 || search(&bytes[..place + 1]).is_none();
            whole.is_none() && before && place < bytes.len() && none_after
        }
    };
    if !agrees {
        panic!(
            "{} is {}, which the search does not find",
            hex_of_bytes(bytes),
            verdict
        );
    }
}

/// The verdicts on all beginnings must hang together with the verdict on the whole.
fn compare_beginnings(kind: &Kind, bytes: &[u8]) {
    let whole = (kind.verdict)(bytes);
    let mut last_missing = 4;
    for k in 0..bytes.len() {
        let verdict = (kind.verdict)(&bytes[..k]);
        let agrees = match (whole, verdict) {
            (Verdict::Complete(length), Verdict::Complete(other)) => k >= length && other == length,
            (Verdict::Complete(length), Verdict::Unfinished(missing)) => k + missing <= length,
            (Verdict::Unfinished(whole_missing), Verdict::Unfinished(missing)) => {
                k + missing <= bytes.len() + whole_missing
            }
            (Verdict::Refused { place, .. }, Verdict::Unfinished(_)) => k <= place,
            (Verdict::Refused { place, .. }, Verdict::Refused { .. }) => {
                k > place && verdict == whole
            }
            _ => false,
        };
        // One more byte brings a pack nearer by one at the most.
        let steady = match verdict {
            Verdict::Unfinished(missing) => {
                let steady = missing + 1 >= last_missing;
                last_missing = missing;
                steady
            }
            _ => true,
        };
        if !agrees || !steady {
            panic!(
                "{} is {}, but its first {} are {}",
                hex_of_bytes(bytes),
                whole,
                k,
                verdict
            );
        }
    }
}

/// The two ways to tell a lawful word agree: all words of two bytes, and those about the edges.
fn compare_words(random: &mut Random, count: u64) {
    for role in [Role::Deviation, Role::Coefficient] {
        for mapped in [true, false] {
            for first in 0..=255u8 {
                let mut some = false;
                for second in 0..=255u8 {
                    let word = [first, second];
                    let lawful = keeps_rule(&word, mapped, role);
                    assert_eq!(
                        lawful,
                        lawful_word(u16::from_be_bytes(word) as u64, 2, mapped, role)
                    );
                    some |= lawful;
                }
                assert_eq!(some, has_lawful_ending(&[first], 2, mapped, role));
                assert_eq!(
                    keeps_rule(&[first], true, role),
                    has_lawful_ending(&[first], 1, true, role)
                );
            }
            for _ in 0..count {
                let length = if mapped {
                    random.between(1, 8)
                } else {
                    random.pick(&[2, 4, 8])
                };
                let word: Vec<u8> = (0..length)
                    .map(|k| {
                        let edges: &[u8] = if k == 0 {
                            &[
                                0x00, 0x3B, 0x3C, 0x3F, 0x40, 0x7B, 0x7C, 0x7F, 0x80, 0x81, 0xBC,
                                0xBF, 0xC0, 0xFF,
                            ]
                        } else {
                            &[0x00, 0x01, 0x7F, 0x80, 0x81, 0xEF, 0xF0, 0xF1, 0xFE, 0xFF]
                        };
                        if random.one_in(6) {
                            random.byte()
                        } else {
                            random.pick(edges)
                        }
                    })
                    .collect();
                assert_eq!(
                    keeps_rule(&word, mapped, role),
                    has_lawful_ending(&word, length, mapped, role)
                );
                // A beginning has a lawful ending if the greatest word is not below it.
                for k in 1..length {
                    let mut least = word.clone();
                    least[k..].fill(0);
                    assert_eq!(
                        keeps_rule(&least, mapped, role),
                        has_lawful_ending(&word[..k], length, mapped, role)
                    );
                }
            }
        }
    }
}

pub fn run(seed: u64, count: u64, output: &mut dyn Write) -> io::Result<()> {
    let mut random = Random::new(seed);
    compare_words(&mut random, count);

    // No byte; all single bytes; all pairs at the smallest sizes.
    compare(&ARRAY, &[], 4);
    for kind in &MATRICES {
        compare(kind, &[], 3);
        for first in 0..=255u8 {
            let most = if (1..=3).contains(&first) { 4 } else { 3 };
            compare(kind, &[first], most);
            for n in 1..=4 {
                compare(kind, &[n, first], 5);
            }
            // Every second control byte behind first ones with and without their format flag.
            for one in [0x80, 0x82, 0x90, 0x91, 0xA0, 0xB0, 0xB1] {
                compare(kind, &[1, one, first], 3);
                compare(kind, &[2, one, first], 3);
            }
        }
    }
    // What the writer of matrices answers, by the causes that hold.
    order::compare();
    for first in 0..=255u8 {
        compare(&ARRAY, &[first], 6);
        for n in 1..=3 {
            compare(&ARRAY, &[n, first], 6);
        }
    }

    // Short strings, the first bytes mostly lawful, the others mostly at the edges.
    for _ in 0..count {
        let length = random.between(2, 9);
        let mut bytes = random.bytes(length);
        for (place, byte) in bytes.iter_mut().enumerate() {
            if random.one_in(8) {
                continue;
            }
            *byte = match place {
                0 => random.between(1, 4) as u8,
                1 if random.one_in(2) => *byte & 0x3B,
                1 => 0x80 | *byte & 0x33,
                2 if random.one_in(2) => *byte & 0x13,
                _ => random.pick(&[
                    0x00, 0x20, 0x40, 0x80, 0xA0, 0xE0, 0x01, 0x81, 0x3C, 0xBC, 0x7B, 0xFF,
                ]),
            };
        }
        for kind in &MATRICES {
            compare(kind, &bytes, 5);
            compare_beginnings(kind, &bytes);
        }

        let length = random.between(2, 9);
        let mut bytes = random.bytes(length);
        for (place, byte) in bytes.iter_mut().enumerate() {
            *byte = match place {
                0 => random.between(1, 3) as u8,
                _ if random.one_in(8) => *byte,
                _ => random.pick(&[
                    0x00, 0x01, 0x01, 0x01, 0x02, 0x03, 0x7F, 0x80, 0x81, 0x82, 0x83, 0xFF,
                ]),
            };
        }
        compare(&ARRAY, &bytes, 5);
        compare_beginnings(&ARRAY, &bytes);
    }

    // Whole packs, as they are and with one byte changed.
    for i in 0..count {
        for kind in [&MATRICES[0], &MATRICES[1], &ARRAY] {
            let scale = if i % 1000 == 0 {
                Scale::Any
            } else {
                Scale::Small
            };
            let mut bytes = (kind.good)(&mut random, scale).bytes;
            assert!(
                (kind.is_pack)(&bytes),
                "{} is no pack",
                hex_of_bytes(&bytes)
            );
            assert_eq!((kind.verdict)(&bytes), Verdict::Complete(bytes.len()));
            compare_beginnings(kind, &bytes);
            let place = random.below(bytes.len());
            bytes[place] = random.byte();
            compare_beginnings(kind, &bytes);
            let whole = (0..=bytes.len()).find(|&k| (kind.is_pack)(&bytes[..k]));
            match (kind.verdict)(&bytes) {
                Verdict::Complete(length) => assert_eq!(whole, Some(length)),
                _ => assert_eq!(whole, None),
            }
        }
    }
    // What is read of a good matrix pack, written again, gives its bytes back.
    for _ in 0..count {
        for stated in [false, true] {
            let bytes = good_matrix(&mut random, Scale::Small, stated).bytes;
            assert!(
                same_again(&bytes, stated),
                "{} is not the same when written again",
                hex_of_bytes(&bytes)
            );
        }
    }
    writeln!(output, "ok")
}
