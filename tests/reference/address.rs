// The numbers of a whole array pack, and the offset of an element of it.

use crate::array::{self, octets};
use crate::verdict::Verdict;

/// NDim sizes, E, and the place of the first byte of the array.
pub struct Numbers {
    pub sizes: Vec<usize>,
    pub element: usize,
    pub start: usize,
}

/// The number at a place of a whole pack, and the place behind it.
fn number_at(bytes: &[u8], place: usize) -> (usize, usize) {
    let last = (place..).find(|&at| bytes[at] < 128).expect("a whole pack");
    let value = bytes[place..=last]
        .iter()
        .fold(0, |value, &octet| value * 128 + (octet % 128) as usize);
    (value, last + 1)
}

/// The numbers of the pack that the bytes begin with, or the verdict where there is none.
pub fn read(bytes: &[u8]) -> Result<Numbers, Verdict> {
    let verdict = array::verdict(bytes);
    if !matches!(verdict, Verdict::Complete(_)) {
        return Err(verdict);
    }
    let (ndim, mut at) = number_at(bytes, 0);
    let mut sizes = Vec::new();
    for _ in 0..ndim {
        let (size, next) = number_at(bytes, at);
        sizes.push(size);
        at = next;
    }
    let (element, next) = number_at(bytes, at);
    let (_, start) = number_at(bytes, next);
    Ok(Numbers {
        sizes,
        element,
        start,
    })
}

/// The offset by the sum of Appendix A: each index times the product of the later sizes, times E.
pub fn offset(bytes: &[u8], indices: &[usize]) -> Result<usize, Verdict> {
    let numbers = read(bytes)?;
    let sizes = &numbers.sizes;
    let exists = indices.len() == sizes.len() && indices.iter().zip(sizes).all(|(x, d)| x < d);
    if !exists {
        return Err(Verdict::Refused {
            reason: 15,
            place: 0,
        });
    }
    let elements: usize = (0..sizes.len())
        .map(|i| indices[i] * sizes[i + 1..].iter().product::<usize>())
        .sum();
    assert_eq!(elements, elements_before(sizes, indices));
    Ok(elements * numbers.element)
}

/// How many elements come before the one at these indices, by counting them: the last index runs fastest.
fn elements_before(sizes: &[usize], indices: &[usize]) -> usize {
    let mut at = vec![0; sizes.len()];
    let mut count = 0;
    while at != indices {
        count += 1;
        let mut place = sizes.len();
        loop {
            place -= 1;
            at[place] += 1;
            if at[place] < sizes[place] {
                break;
            }
            at[place] = 0;
        }
    }
    count
}

/// A row of addressing: the bytes before the array, how many bytes of 0 behind them, the indices.
fn row(sizes: &[usize], element: usize, behind: usize, indices: &[usize]) -> String {
    let mut header = octets(sizes.len() as u64);
    for &size in sizes {
        header.extend(octets(size as u64));
    }
    header.extend(octets(element as u64));
    header.push(1);
    let hex: String = header.iter().map(|byte| format!("{:02X}", byte)).collect();
    let list: String = indices.iter().map(|x| format!(" {}", x)).collect();
    format!("A {} {}{}", hex, behind, list)
}

/// Arrays of one, two, three and eight dimensions, each with indices at, below and past its sizes.
pub fn make() -> Vec<String> {
    let shapes: &[(&[usize], usize)] = &[
        (&[1], 1),
        (&[5], 3),
        (&[32768], 1),
        (&[2, 3], 4),
        // ST 1303: 100 by 100, and the first column of the eleventh row of it
        (&[100, 100], 1),
        (&[100, 100], 3),
        // ST 1303: planes of latitude, longitude and height
        (&[3, 4, 5], 4),
        (&[2, 3, 4], 8),
        (&[1, 2, 3, 4, 5, 6, 1, 2], 2),
        (&[2, 2, 2, 2, 2, 2, 2, 3], 1),
        (&[8, 8, 8, 8, 8, 1, 1, 1], 1),
        (&[4, 4, 4, 4, 4, 4, 4, 2], 1),
        (&[7, 6, 5], 0),
        (&[100, 200], 0),
    ];
    let mut rows = Vec::new();
    for &(sizes, element) in shapes {
        let total = sizes.iter().product::<usize>() * element;
        let last: Vec<usize> = sizes.iter().map(|size| size - 1).collect();
        let first = vec![0; sizes.len()];
        rows.push(row(sizes, element, total, &first));
        rows.push(row(sizes, element, total, &last));
        for place in 0..sizes.len() {
            // one step in this dimension, the last step, and one too far
            let mut indices = first.clone();
            if sizes[place] > 1 {
                indices[place] = 1;
                rows.push(row(sizes, element, total, &indices));
            }
            indices[place] = last[place];
            rows.push(row(sizes, element, total, &indices));
            indices[place] = sizes[place];
            rows.push(row(sizes, element, total, &indices));
            let mut indices = last.clone();
            indices[place] = sizes[place];
            rows.push(row(sizes, element, total, &indices));
        }
        // too few and too many indices; none; a pack that is not whole
        rows.push(row(sizes, element, total, &first[1..]));
        rows.push(row(sizes, element, total, &[&first[..], &[0]].concat()));
        rows.push(row(sizes, element, total, &[]));
        if total > 0 {
            rows.push(row(sizes, element, total - 1, &first));
            rows.push(row(sizes, element, total - 1, &[]));
        }
        rows.push(row(sizes, element, total + 1, &last));
    }
    rows.push(row(&[100, 100], 3, 30000, &[10, 0]));
    rows.push(row(&[100, 100], 3, 30000, &[0, 10]));
    rows.push(row(&[100, 100], 3, 30000, &[99, 100]));
    rows.push(row(&[3, 4, 5], 4, 240, &[1, 2, 3]));
    rows.push(row(&[3, 4, 5], 4, 240, &[2, 1, 0]));
    rows.push(row(&[2, 3], 4, 24, &[4294967296, 0]));
    rows.push(row(&[2, 3], 4, 24, &[0, 4294967298]));
    rows.push("A 0300 0 0 0 0".to_string());
    rows.push("A  0".to_string());
    rows.push("A 6464C8 9 1 1 1".to_string());
    let mut seen = std::collections::HashSet::new();
    rows.retain(|row| seen.insert(row.clone()));
    rows
}
