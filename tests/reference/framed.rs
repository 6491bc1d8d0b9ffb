// What is said of a frame's bytes, and rows of frames.

use crate::frame::{
    ber_length, bytes_of_hex, hex_of_bytes, verdict, ARRAY_KEY, GREATEST_FRAME, MATRIX_KEY,
};

/// Values of a matrix frame: whole packs, cut ones and refused ones of Mode 2, then of Mode 1, whose
/// deviations are taken as IEEE.
const MATRICES: &str = "01801105 02910040 03B11100000000 0180027BFF 03 0280 03B100 02920080 00 41 \
    80 028080 02C0 0283 02A0 0191 028000 03B10000 03B100A1 0292008001 0290 02911040 \
    01203C00 020140 0309405A 01407F7FFFFF 0120 034B 030900 0211 0200 0108 0101 0309A1 020181 \
    01207C00 01407F800000";

/// Likewise of an array frame.
const ARRAYS: &str = "01010001 0264640001 01050001 01 010302 01030201 010281 0182800001 00 09 80 \
    0100 0180 01828001 018281 01010000 01010002 01010081 0182800002";

/// What is said of "P HEX ZEROS": the frame of these bytes and so many of 0.
pub fn said(line: &str) -> Option<String> {
    let mut parts = line.strip_prefix("P ")?.split(' ');
    let mut bytes = bytes_of_hex(parts.next()?.as_bytes())?;
    let zeros: usize = parts.next()?.parse().ok()?;
    if parts.next().is_some() {
        return None;
    }
    bytes.resize(bytes.len() + zeros, 0);
    let (kind, verdict) = verdict(&bytes);
    Some(format!("{} {}", kind, verdict))
}

fn row(bytes: &[u8], zeros: usize) -> String {
    format!("P {} {}", hex_of_bytes(bytes), zeros)
}

/// A frame whose value is these bytes and so many of 0; its length may say more or less than that.
fn framed(key: &[u8; 16], length: usize, head: &[u8], zeros: usize) -> String {
    row(&[&key[..], &ber_length(length), head].concat(), zeros)
}

/// A frame whose value is these bytes.
fn frame(key: &[u8; 16], value: &[u8]) -> String {
    framed(key, value.len(), value, 0)
}

/// So many bytes of a frame, about the key's end; keys with a byte spoilt, all that the two kinds
/// share and the rest of each.
fn keys(rows: &mut Vec<String>) {
    for (key, value, shared) in [
        (MATRIX_KEY, [0x01, 0x80, 0x11, 0x05], 0),
        (ARRAY_KEY, [0x01, 0x01, 0x00, 0x01], 12),
    ] {
        let whole = [&key[..], &[4], &value].concat();
        for count in [15, 16, 17, 20, 21] {
            rows.push(row(&whole[..count], 0));
        }
        for place in shared..16 {
            let mut spoilt = whole.clone();
            spoilt[place] ^= 1;
            rows.push(row(&spoilt, 0));
        }
    }
    for zeros in [0, 1, 15, 16, 17] {
        rows.push(row(&[], zeros));
    }
}

/// The forms of a length, with as many bytes behind it as it says; where the form is due, also with
/// one fewer and one more.
fn lengths(rows: &mut Vec<String>) {
    for key in [MATRIX_KEY, ARRAY_KEY] {
        for (form, length) in [
            (&[0x80][..], 0),
            (&[0x81], 0),
            (&[0x81, 0x00], 0),
            (&[0x81, 0x7F], 127),
            (&[0x82], 0),
            (&[0x82, 0x01], 0),
            (&[0x82, 0x00, 0xFF], 255),
            (&[0x83], 0),
            (&[0x83, 0x00, 0x01], 0),
            (&[0xFF], 0),
        ] {
            rows.push(row(&[&key[..], form].concat(), length));
        }
        for length in [127, 128, 255, 256] {
            for zeros in [length, length - 1, length + 1] {
                rows.push(framed(&key, length, &[], zeros));
            }
        }
        rows.push(framed(&key, 0, &[], 0));
        rows.push(framed(&key, 0, &[], 1));
    }
}

/// Packs of both kinds, the whole ones also with a byte behind them; each kind under the other's key.
fn values(rows: &mut Vec<String>) {
    for (key, list) in [(MATRIX_KEY, MATRICES), (ARRAY_KEY, ARRAYS)] {
        for text in list.split_whitespace() {
            let value = bytes_of_hex(text.as_bytes()).unwrap();
            let row = frame(&key, &value);
            let whole = said(&row).unwrap().contains("complete");
            rows.push(row);
            if whole {
                rows.push(frame(&key, &[&value[..], &[0]].concat()));
            }
        }
    }
    rows.push(frame(&ARRAY_KEY, &[0x01, 0x80, 0x11, 0x05]));
    rows.push(frame(&MATRIX_KEY, &[0x01, 0x01, 0x00, 0x01]));
    // the example of the document, and Figure 7 of ST 1010, whole and cut
    for text in [
        "03B204A03F800000400000004080000060002000",
        "034BA03F8000004000000040800000600000200000",
    ] {
        let value = bytes_of_hex(text.as_bytes()).unwrap();
        for count in [4, 7, 12, value.len() - 1, value.len()] {
            rows.push(frame(&MATRIX_KEY, &value[..count]));
        }
    }
}

/// The longest packs of both kinds, with a byte fewer and one more, and in the longest frames.
fn long(rows: &mut Vec<String>) {
    let array = [&[8, 0x82, 0x80, 0][..], &[1; 9]].concat();
    let matrix = [&[0x40, 0xB8, 0x18][..], &[0xFF; 252]].concat();
    for (key, head, zeros) in [(ARRAY_KEY, array, 32768), (MATRIX_KEY, matrix, 16640)] {
        let length = head.len() + zeros;
        rows.push(framed(&key, length, &head, zeros));
        rows.push(framed(&key, length - 1, &head, zeros - 1));
        rows.push(framed(&key, length + 1, &head, zeros + 1));
        rows.push(framed(&key, length, &head, zeros - 1));
        for count in [GREATEST_FRAME, GREATEST_FRAME + 1] {
            let value = count - 19;
            rows.push(framed(&key, value, &head, value - head.len()));
        }
    }
    for zeros in [GREATEST_FRAME, GREATEST_FRAME + 1, 65536] {
        rows.push(row(&[], zeros));
    }
    // the last of sixty-four deviations is too large
    let deviations = [&[0; 504][..], &[0x80, 0, 0, 0, 0, 0, 0, 1]].concat();
    let value = [&[0x40, 0xB8, 0x18][..], &[0xFF; 252], &deviations].concat();
    rows.push(framed(&MATRIX_KEY, 16895, &value, 16128));
}

pub fn make() -> Vec<String> {
    let mut rows = Vec::new();
    keys(&mut rows);
    lengths(&mut rows);
    values(&mut rows);
    long(&mut rows);
    let mut seen = std::collections::HashSet::new();
    rows.retain(|row| seen.insert(row.clone()));
    rows
}
