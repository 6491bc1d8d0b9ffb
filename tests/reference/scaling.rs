// What scaling a list of mapped words gives, and rows of it.

use crate::frame::{bytes_of_hex, hex_of_bytes};

/// The words less 2^(8L - 2), or the reason why they have no scale or no room.
fn scaled(words: &[u64], length: u64, room: usize) -> Result<Vec<i128>, u32> {
    if length == 0 || length > 8 {
        return Err(6);
    }
    let unit = 1i128 << (8 * length - 2);
    if words.iter().any(|&word| word as i128 > 2 * unit) {
        return Err(11);
    }
    if room < words.len() {
        return Err(13);
    }
    Ok(words.iter().map(|&word| word as i128 - unit).collect())
}

/// What is said of "K HEX LENGTH ROOM": words of eight bytes each, scaled as words of so many bytes
/// into a list of so many entries.
pub fn said(line: &str) -> Option<String> {
    let mut parts = line.strip_prefix("K ")?.split(' ');
    let bytes = bytes_of_hex(parts.next()?.as_bytes())?;
    let length = parts.next()?.parse().ok()?;
    let room = parts.next()?.parse().ok()?;
    if bytes.len() % 8 != 0 || parts.next().is_some() {
        return None;
    }
    let words: Vec<u64> = bytes
        .chunks(8)
        .map(|eight| u64::from_be_bytes(eight.try_into().unwrap()))
        .collect();
    Some(match scaled(&words, length, room) {
        Err(reason) => format!("refused {} at 0 kept", reason),
        Ok(list) => {
            let list: String = list.iter().map(|value| format!(" {}", value)).collect();
            format!("complete {} scaled{} kept", words.len(), list)
        }
    })
}

fn row(words: &[u64], length: u64, room: usize) -> String {
    let bytes: Vec<u8> = words.iter().flat_map(|word| word.to_be_bytes()).collect();
    format!("K {} {} {}", hex_of_bytes(&bytes), length, room)
}

/// The least words of a length, those about nought, and the greatest.
fn lawful(length: u64) -> Vec<u64> {
    let nought = 1 << (8 * length - 2);
    vec![
        0,
        1,
        nought - 1,
        nought,
        nought + 1,
        2 * nought - 1,
        2 * nought,
    ]
}

/// Words of each length, into room that is exact, one entry short, longer, and none; no words.
fn lengths(rows: &mut Vec<String>) {
    for length in 1..=8 {
        let words = lawful(length);
        for room in [7, 6, 8, 0] {
            rows.push(row(&words, length, room));
        }
        rows.push(row(&words[6..], length, 1));
        rows.push(row(&[], length, 0));
    }
    rows.push(row(&[], 1, 3));
    rows.push(row(&[], 8, 3));
    // sixty-four words, of which some are too long for seven bytes
    let many: Vec<u64> = (0..64).map(|i| i * 0x0204_0810_2040_8102).collect();
    for room in [64, 63, 65] {
        rows.push(row(&many, 8, room));
    }
    rows.push(row(&many, 7, 64));
}

/// A word above the greatest at the first, a middle and the last place, also where there is no room.
fn ranges(rows: &mut Vec<String>) {
    for length in 1..=8 {
        let greatest = 1 << (8 * length - 1);
        for place in 0..3 {
            let mut words = [greatest, 0, greatest / 2];
            words[place] = greatest + 1;
            rows.push(row(&words, length, 3));
        }
        rows.push(row(&[greatest + 1], length, 1));
        rows.push(row(&[greatest + 1], length, 0));
        rows.push(row(&[0, 0, greatest + 1], length, 2));
        rows.push(row(&[u64::MAX], length, 1));
    }
}

/// Lengths that no word has, alone and beside each other reason.
fn no_lengths(rows: &mut Vec<String>) {
    for length in [
        0, 9, 10, 16, 64, 255, 256, 257, 4294967296, 4294967297, 4294967304, 9999999999,
    ] {
        rows.push(row(&[0], length, 1));
    }
    for length in [0, 9, 4294967297] {
        rows.push(row(&[], length, 0));
        rows.push(row(&[u64::MAX], length, 1));
        rows.push(row(&[0], length, 0));
        rows.push(row(&[0, u64::MAX], length, 1));
    }
}

pub fn make() -> Vec<String> {
    let mut rows = Vec::new();
    lengths(&mut rows);
    ranges(&mut rows);
    no_lengths(&mut rows);
    let mut seen = std::collections::HashSet::new();
    rows.retain(|row| seen.insert(row.clone()));
    rows
}
