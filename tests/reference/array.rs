// Array packs: BER-OID numbers, which packs agree with given bytes, and the verdict on them.

use crate::verdict::{first_that_holds, judge, Verdict};
use std::collections::HashMap;
use std::sync::OnceLock;

/// The limit of the product of sizes, and of that product times E.
pub const LIMIT: usize = 32768;
pub const GREATEST_NDIM: usize = 8;

/// The octets of a number: seven bits each, the top bit set on all but the last.
pub fn octets(number: u64) -> Vec<u8> {
    let mut list = vec![(number % 128) as u8];
    let mut left = number / 128;
    while left > 0 {
        list.insert(0, 128 + (left % 128) as u8);
        left /= 128;
    }
    list
}

/// A number that may come, and the count of its octets.
struct Choice {
    number: usize,
    count: usize,
}

/// All numbers up to the limit, found by their octets and by every beginning of them.
struct Numbers {
    whole: HashMap<Vec<u8>, usize>,
    begun: HashMap<Vec<u8>, Vec<Choice>>,
}

fn numbers() -> &'static Numbers {
    static NUMBERS: OnceLock<Numbers> = OnceLock::new();
    NUMBERS.get_or_init(|| {
        let mut whole = HashMap::new();
        let mut begun: HashMap<Vec<u8>, Vec<Choice>> = HashMap::new();
        for number in 0..=LIMIT {
            let written = octets(number as u64);
            let count = written.len();
            for cut in 1..count {
                begun
                    .entry(written[..cut].to_vec())
                    .or_default()
                    .push(Choice { number, count });
            }
            whole.insert(written, number);
        }
        Numbers { whole, begun }
    })
}

/// What stands at the start of some bytes.
enum Field {
    /// There are no bytes.
    NotBegun,
    /// The octets end before the number does; these numbers up to the limit begin so, in order.
    Begun(&'static [Choice]),
    /// A whole number, and the count of its octets.
    Whole(usize, usize),
    /// No number up to the limit stands or begins so.
    NoNumber,
}

fn field(bytes: &[u8]) -> Field {
    if bytes.is_empty() {
        return Field::NotBegun;
    }
    match bytes.iter().position(|&octet| octet < 128) {
        Some(last) => match numbers().whole.get(&bytes[..last + 1]) {
            Some(&number) => Field::Whole(number, last + 1),
            None => Field::NoNumber,
        },
        None => match numbers().begun.get(bytes) {
            Some(list) => Field::Begun(list),
            None => Field::NoNumber,
        },
    }
}

/// The shortest pack of so many dimensions that agrees with the bytes.
fn shortest_of_dimensions(ndim: usize, bytes: &[u8]) -> Option<usize> {
    let mut at = 1;
    let mut product = 1;
    let from = |at: usize| if at < bytes.len() { &bytes[at..] } else { &[] };

    for i in 0..ndim {
        // Behind this size the least is: one octet for each other size (1), for E (0) and for EPA.
        let least_behind = (ndim - i - 1) + 1 + 1;
        match field(from(at)) {
            Field::NotBegun => return Some(at + 1 + least_behind),
            Field::Begun(list) => {
                return list
                    .iter()
                    .take_while(|size| product * size.number <= LIMIT)
                    .map(|size| at + size.count + least_behind)
                    .min()
            }
            Field::Whole(size, count) => {
                if size == 0 || product * size > LIMIT {
                    return None;
                }
                product *= size;
                at += count;
            }
            Field::NoNumber => return None,
        }
    }

    let element = match field(from(at)) {
        Field::NotBegun => return Some(at + 1 + 1),
        Field::Begun(list) => {
            return list
                .iter()
                .take_while(|element| product * element.number <= LIMIT)
                .map(|element| at + element.count + 1 + product * element.number)
                .min()
        }
        Field::Whole(element, count) => {
            if product * element > LIMIT {
                return None;
            }
            at += count;
            element
        }
        Field::NoNumber => return None,
    };

    if at < bytes.len() && bytes[at] != 1 {
        return None;
    }
    Some(at + 1 + product * element)
}

/// The shortest array pack that agrees with the bytes: all counts of dimensions are tried.
pub fn shortest(bytes: &[u8]) -> Option<usize> {
    let mut best: Option<usize> = None;
    for ndim in 1..=GREATEST_NDIM {
        if !bytes.is_empty() && bytes[0] != ndim as u8 {
            continue;
        }
        if let Some(length) = shortest_of_dimensions(ndim, bytes) {
            best = Some(best.map_or(length, |b| b.min(length)));
        }
    }
    best
}

/// Why the last of these bytes is refused. All of them are octets of numbers, for a body is never
/// refused; so the octets below 128 before the last one count the numbers before its own.
fn reason(bytes: &[u8]) -> u32 {
    let before = &bytes[..bytes.len() - 1];
    let numbers_before = before.iter().filter(|&&octet| octet < 128).count();
    let start = before
        .iter()
        .rposition(|&octet| octet < 128)
        .map_or(0, |place| place + 1);
    let own = &bytes[start..];

    let ndim = bytes[0] as usize;
    let in_element_size = numbers_before > 0 && numbers_before == ndim + 1;
    let in_processing = numbers_before > 0 && numbers_before == ndim + 2;
    first_that_holds(&[
        (own == [0x80], 3),
        (own == [0x00] && !in_element_size, 1),
        (in_processing, 12),
        (true, 2),
    ])
}

pub fn verdict(bytes: &[u8]) -> Verdict {
    judge(bytes, shortest, reason)
}
