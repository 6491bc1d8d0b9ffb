// Lines of frames at the edges of every rule: the part of the checking program's corpus that no chance decides.

use crate::array::{octets, LIMIT};
use crate::frame::{ber_length, hex_of_bytes, ARRAY_KEY, GREATEST_FRAME, MATRIX_KEY};
use crate::mode1::{controls, ones, whole_single};
use crate::rows::{formats, sizes_header, vector, whole_matrix, whole_pack};
use std::io::{self, Write};

const NO_VALUES: (bool, usize) = (false, 0);

/// A frame around a value, with the length in its shortest form.
fn frame(key: &[u8; 16], value: &[u8]) -> Vec<u8> {
    [&key[..], &ber_length(value.len())[..], value].concat()
}

fn array(sizes: &[usize], element: usize) -> Vec<u8> {
    let mut bytes = sizes_header(sizes);
    bytes.extend(octets(element as u64));
    bytes.push(1);
    let count = sizes.iter().product::<usize>() * element;
    bytes.extend((0..count).map(|i| (i * 11) as u8));
    bytes
}

/// Every format and length of values beside every other, sparse and full, and without one kind.
fn every_format() -> Vec<Vec<u8>> {
    let mut packs = Vec::new();
    for c in formats() {
        packs.push(whole_matrix(2, c, NO_VALUES, None));
        packs.push(whole_matrix(3, c, NO_VALUES, Some(&vector(3, &[1]))));
        for s in formats() {
            packs.push(whole_matrix(2, c, s, None));
            packs.push(whole_matrix(3, c, s, Some(&vector(3, &[0, 2]))));
        }
    }
    for s in formats() {
        packs.push(whole_matrix(1, NO_VALUES, s, None));
        packs.push(whole_matrix(2, NO_VALUES, s, None));
    }
    packs
}

/// Every single control byte with its values, and each such byte alone.
fn every_single() -> Vec<Vec<u8>> {
    let mut packs = Vec::new();
    for n in [1, 2, 3] {
        for control in controls(n, false) {
            for ones in ones(n, &control) {
                packs.push(whole_pack(n, &control, ones.as_deref()));
            }
        }
        for byte in 0..=0x7F {
            packs.push(vec![n as u8, byte]);
        }
    }
    packs
}

/// Packs that are whole but for a format flag with nothing behind it, and that flag beside other
/// faults of its byte.
fn flag_alone() -> Vec<Vec<u8>> {
    let alone = (true, 0);
    let mut packs = Vec::new();
    for s in formats() {
        for n in [1, 2, 3] {
            packs.push(whole_matrix(n, alone, s, None));
        }
    }
    for c in formats() {
        packs.push(whole_matrix(2, c, alone, None));
        packs.push(whole_matrix(3, c, alone, Some(&vector(3, &[1]))));
    }
    for head in [
        &[0x90][..],
        &[0x90, 0x00],
        &[0x90, 0x10],
        &[0xB0],
        &[0xD0],
        &[0xF0],
        &[0x80, 0x10],
        &[0x80, 0x30],
        &[0x80, 0x50],
        &[0x80, 0x90],
    ] {
        packs.push([&[2], head].concat());
    }
    packs
}

/// The greatest packs.
fn greatest() -> Vec<Vec<u8>> {
    let all: Vec<usize> = (0..2016).collect();
    let some: Vec<usize> = (0..2016).step_by(3).collect();
    vec![
        whole_matrix(64, (true, 8), (true, 8), None),
        whole_matrix(64, (false, 8), (false, 8), None),
        whole_matrix(64, (true, 8), (true, 8), Some(&vector(64, &all))),
        whole_matrix(64, (true, 2), (false, 4), Some(&vector(64, &some))),
        whole_single(64, 7, (false, 4), None),
        whole_single(64, 7, (false, 4), Some(&vector(64, &all))),
        whole_single(64, 3, (false, 2), Some(&vector(64, &some))),
    ]
}

fn greatest_arrays() -> Vec<Vec<u8>> {
    vec![
        array(&[LIMIT], 1),
        array(&[1], LIMIT),
        array(&[8, 8, 8, 8, 8, 1, 1, 1], 1),
        array(&[100, 100], 3),
    ]
}

/// Both kinds of pack, small: each is cut and damaged at every place.
fn small() -> Vec<(&'static [u8; 16], Vec<u8>)> {
    vec![
        (
            &MATRIX_KEY,
            whole_matrix(3, (true, 2), (false, 4), Some(&vector(3, &[0, 2]))),
        ),
        (&MATRIX_KEY, whole_matrix(2, (false, 8), (true, 3), None)),
        (&MATRIX_KEY, whole_matrix(1, NO_VALUES, (false, 2), None)),
        (
            &MATRIX_KEY,
            whole_single(3, 3, (false, 4), Some(&vector(3, &[0, 2]))),
        ),
        (&MATRIX_KEY, whole_single(2, 2, (false, 2), None)),
        (&MATRIX_KEY, whole_single(2, 1, (false, 0), None)),
        (&MATRIX_KEY, whole_single(1, 0, (false, 4), None)),
        (&ARRAY_KEY, array(&[2, 3], 4)),
        (&ARRAY_KEY, array(&[1, 2, 1, 3, 1, 1, 2, 1], 2)),
        (&ARRAY_KEY, array(&[128], 1)),
        (&ARRAY_KEY, array(&[300, 2], 0)),
    ]
}

fn cut(lines: &mut Vec<Vec<u8>>) {
    for (key, value) in small() {
        let whole = frame(key, &value);
        for end in 0..value.len().min(48) {
            // the length that is left, and the length of the whole
            lines.push(hex_of_bytes(&frame(key, &value[..end])).into_bytes());
            lines.push(hex_of_bytes(&whole[..end]).into_bytes());
        }
        for end in 1..=20 {
            lines.push(hex_of_bytes(&whole[..end]).into_bytes());
        }
        lines.push(hex_of_bytes(&frame(key, &[&value[..], &[0]].concat())).into_bytes());
        lines.push(hex_of_bytes(&[&whole[..], &[0]].concat()).into_bytes());
    }
}

fn damaged(lines: &mut Vec<Vec<u8>>) {
    for (key, value) in small() {
        let whole = frame(key, &value);
        for place in 0..whole.len().min(48) {
            for change in [0x01, 0x10, 0x80, 0xFF] {
                let mut bytes = whole.clone();
                bytes[place] ^= change;
                lines.push(hex_of_bytes(&bytes).into_bytes());
            }
        }
    }
}

/// Every length form around its edges.
fn lengths(lines: &mut Vec<Vec<u8>>) {
    for form in [
        &[0x00][..],
        &[0x04],
        &[0x7F],
        &[0x80],
        &[0x80, 0x04],
        &[0x81],
        &[0x81, 0x04],
        &[0x81, 0x7F],
        &[0x81, 0x80],
        &[0x81, 0xFF],
        &[0x82],
        &[0x82, 0x01],
        &[0x82, 0x00, 0x04],
        &[0x82, 0x00, 0xFF],
        &[0x82, 0x01, 0x00],
        &[0x82, 0xFF, 0xFF],
        &[0x83],
        &[0x83, 0x00, 0x00, 0x04],
        &[0x84, 0x00, 0x00, 0x00, 0x04],
        &[0xFF],
    ] {
        for key in [&MATRIX_KEY, &ARRAY_KEY] {
            lines.push(hex_of_bytes(&[&key[..], form].concat()).into_bytes());
            for value in [&[0x01, 0x80, 0x11, 0x05][..], &[0x01, 0x01, 0x00, 0x01]] {
                lines.push(hex_of_bytes(&[&key[..], form, value].concat()).into_bytes());
            }
        }
    }
    for length in [127, 128, 255, 256] {
        for key in [&MATRIX_KEY, &ARRAY_KEY] {
            lines.push(hex_of_bytes(&frame(key, &vec![1; length])).into_bytes());
        }
    }
}

/// Other characters than digits at the first, a middle and the last place; odd counts; empty lines.
fn characters(lines: &mut Vec<Vec<u8>>) {
    let good = hex_of_bytes(&frame(&MATRIX_KEY, &[0x01, 0x80, 0x11, 0x05])).into_bytes();
    for place in [0, 1, 20, good.len() - 2, good.len() - 1] {
        for c in (0u8..=255).filter(|c| *c != b'\n') {
            let edge = [
                47, 48, 57, 58, 64, 65, 70, 71, 96, 97, 102, 103, 0, 13, 32, 255,
            ];
            if place == 1 || edge.contains(&c) {
                let mut line = good.clone();
                line[place] = c;
                lines.push(line);
            }
        }
    }
    for end in 0..good.len() {
        lines.push(good[..end].to_vec());
    }
    lines.push([&good[..], b"\r"].concat());
    lines.push([&good[..], b"0"].concat());
    lines.push(good.to_ascii_lowercase());
    lines.push(Vec::new());
}

/// Lines of the greatest length and one past it, in characters and in bytes.
fn long(lines: &mut Vec<Vec<u8>>) {
    let whole = frame(&ARRAY_KEY, &array(&[LIMIT], 1));
    for count in [
        2 * GREATEST_FRAME - 1,
        2 * GREATEST_FRAME,
        2 * GREATEST_FRAME + 1,
        2 * GREATEST_FRAME + 2,
        70000,
    ] {
        let mut line = hex_of_bytes(&whole).into_bytes();
        line.resize(count, b'0');
        lines.push(line);
    }
    lines.push(vec![b'\r'; 2 * GREATEST_FRAME + 1]);
}

/// Prints them; each is closed by LF.
pub fn make(output: &mut dyn Write) -> io::Result<()> {
    let mut lines: Vec<Vec<u8>> = Vec::new();
    lines.extend(
        every_format()
            .iter()
            .map(|value| hex_of_bytes(&frame(&MATRIX_KEY, value)).into_bytes()),
    );
    lines.extend(
        every_single()
            .iter()
            .map(|value| hex_of_bytes(&frame(&MATRIX_KEY, value)).into_bytes()),
    );
    lines.extend(
        flag_alone()
            .iter()
            .map(|value| hex_of_bytes(&frame(&MATRIX_KEY, value)).into_bytes()),
    );
    lines.extend(
        greatest()
            .iter()
            .map(|value| hex_of_bytes(&frame(&MATRIX_KEY, value)).into_bytes()),
    );
    lines.extend(
        greatest_arrays()
            .iter()
            .map(|value| hex_of_bytes(&frame(&ARRAY_KEY, value)).into_bytes()),
    );
    cut(&mut lines);
    damaged(&mut lines);
    lengths(&mut lines);
    characters(&mut lines);
    long(&mut lines);
    for line in lines {
        output.write_all(&line)?;
        output.write_all(b"\n")?;
    }
    Ok(())
}
