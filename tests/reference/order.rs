// The causes for which the writer of matrices refuses, and rows in which one or two of them hold.

use crate::matrix::{allowed_lengths, coefficient_count, lawful_word, vector_length, Role};
use crate::writes::{good, matrix_row, write_matrix, Given};
use std::collections::BTreeMap;

/// A call of the writer.
#[derive(Clone)]
struct Call {
    given: Given,
    stated: bool,
    room: usize,
}

impl Call {
    /// The size that lists and room are judged by: where N itself is refused, that of the lists.
    fn size(&self) -> usize {
        match self.given.n {
            1..=64 => self.given.n,
            _ => 3,
        }
    }

    fn pairs(&self) -> usize {
        coefficient_count(self.size())
    }

    /// The marks that count, as far as they are there.
    fn marks(&self) -> impl Iterator<Item = u8> + '_ {
        self.given.marks.iter().copied().take(self.pairs())
    }

    /// The format that the mode has for coefficients, whatever is given.
    fn c_mapped(&self) -> bool {
        self.given.mode == 1 || self.given.coefficients_mapped
    }

    /// Likewise for deviations.
    fn s_mapped(&self) -> bool {
        match self.given.mode {
            1 => self.stated,
            _ => self.given.deviations_mapped,
        }
    }

    fn c_allowed(&self) -> bool {
        allowed_lengths(self.given.mode, self.c_mapped()).contains(&self.given.coefficient_length)
    }

    fn s_allowed(&self) -> bool {
        allowed_lengths(self.given.mode, self.s_mapped()).contains(&self.given.deviation_length)
    }

    /// A deviation that is sent and breaks its rule, which only an allowed length has.
    fn bad_deviation(&self) -> bool {
        let (mapped, length) = (self.s_mapped(), self.given.deviation_length);
        let mut sent = self.given.deviations.iter().take(self.size());
        let bad = |word: &u64| breaks(*word, length, mapped, Role::Deviation);
        length > 0 && self.s_allowed() && sent.any(bad)
    }

    fn bad_coefficient(&self) -> bool {
        let (mapped, length) = (self.c_mapped(), self.given.coefficient_length);
        let marked = self.given.coefficients.iter().zip(self.marks());
        let mut sent = marked.filter(|(_, mark)| *mark == 1);
        let bad = |(word, _): (&u64, u8)| breaks(*word, length, mapped, Role::Coefficient);
        length > 0 && self.c_allowed() && sent.any(bad)
    }

    fn bad_mark(&self) -> bool {
        let (sparse, length) = (self.given.sparse, self.given.coefficient_length);
        self.marks().any(|mark| match mark {
            0 => !sparse && length > 0,
            1 => length == 0,
            _ => true,
        })
    }

    fn short_list(&self) -> bool {
        let m = self.pairs();
        self.given.deviations.len() < self.size()
            || self.given.coefficients.len() < m
            || self.given.marks.len() < m
    }

    /// How many bytes the fields and the marks ask for.
    fn needed(&self) -> usize {
        let g = &self.given;
        let sent = self.marks().filter(|&mark| mark == 1).count();
        let vector = if g.sparse {
            vector_length(self.size())
        } else {
            0
        };
        1 + g.mode as usize
            + vector
            + self.size() * g.deviation_length
            + sent * g.coefficient_length
    }
}

/// Whether a word breaks its rule or is too long for its length.
fn breaks(word: u64, length: usize, mapped: bool, role: Role) -> bool {
    length < 8 && word >> (8 * length) != 0 || !lawful_word(word, length, mapped, role)
}

/// A cause: its name, the reason, and whether it holds of a call, whatever else does.
type Cause = (&'static str, u32, fn(&Call) -> bool);

/// All causes in the order of the writer.
const CAUSES: [Cause; 16] = [
    ("1", 1, |call| call.given.n == 0),
    ("2", 2, |call| call.given.n > 64),
    ("6 Clen", 6, |call| !call.c_allowed()),
    ("16 Cf", 16, |call| {
        let g = &call.given;
        g.mode == 2 && g.coefficients_mapped && g.coefficient_length == 0
    }),
    ("7", 7, |call| {
        call.given.sparse && call.given.coefficient_length == 0
    }),
    ("8", 8, |call| {
        call.given.n == 1 && call.given.coefficient_length > 0
    }),
    ("6 Slen", 6, |call| !call.s_allowed()),
    ("16 Sf", 16, |call| {
        let g = &call.given;
        g.mode == 2 && g.deviations_mapped && g.deviation_length == 0
    }),
    ("9 lengths", 9, |call| {
        call.given.coefficient_length == 0 && call.given.deviation_length == 0
    }),
    ("14 formats", 14, |call| {
        let g = &call.given;
        g.coefficients_mapped != call.c_mapped() || g.deviations_mapped != call.s_mapped()
    }),
    ("14 lists", 14, |call| call.short_list()),
    ("14 marks", 14, |call| call.bad_mark()),
    ("9 sent", 9, |call| {
        let g = &call.given;
        let sparse = g.sparse && g.coefficient_length > 0;
        sparse && g.deviation_length == 0 && !call.marks().any(|mark| mark == 1)
    }),
    ("11 deviations", 11, |call| call.bad_deviation()),
    ("11 coefficients", 11, |call| call.bad_coefficient()),
    ("13", 13, |call| call.room < call.needed()),
];

/// Causes that one mode alone has, so that those of one never meet those of the other.
const OF_MODE_1: [&str; 1] = ["14 formats"];
const OF_MODE_2: [&str; 2] = ["16 Cf", "16 Sf"];

/// Pairs that no call has alone, and why. All others have rows, in each mode that has both causes.
const NEVER: &[(&str, &[&str], &str)] = &[
    ("1", &["2", "8"], "N is 0, and so not above 64 nor 1"),
    ("2", &["8"], "N is above 64, and so not 1"),
    (
        "6 Clen",
        &["16 Cf", "7", "9 lengths"],
        "Clen is not 0, and is 0",
    ),
    (
        "6 Clen",
        &["11 coefficients"],
        "the length is of no format, and so has no rule of words",
    ),
    (
        "16 Cf",
        &["8", "9 sent", "11 coefficients"],
        "Clen is 0, and is not 0",
    ),
    (
        "7",
        &["8", "9 sent", "11 coefficients"],
        "Clen is 0, and is not 0",
    ),
    ("8", &["9 lengths"], "Clen is not 0, and is 0"),
    (
        "8",
        &["14 marks", "11 coefficients"],
        "N = 1 has no coefficients and no marks",
    ),
    (
        "6 Slen",
        &["16 Sf", "9 lengths", "9 sent"],
        "Slen is not 0, and is 0",
    ),
    (
        "6 Slen",
        &["11 deviations"],
        "the length is of no format, and so has no rule of words",
    ),
    ("16 Sf", &["11 deviations"], "Slen is 0, and is not 0"),
    (
        "9 lengths",
        &["9 sent", "11 coefficients"],
        "Clen is 0, and is not 0",
    ),
    ("9 lengths", &["11 deviations"], "Slen is 0, and is not 0"),
    ("9 sent", &["11 deviations"], "Slen is 0, and is not 0"),
    (
        "9 sent",
        &["11 coefficients"],
        "no coefficient is sent, and one is",
    ),
    (
        "16 Sf",
        &["16 Cf", "7"],
        "both lengths are 0: 9 holds too, and the rows have all three",
    ),
];

/// What meets only with a third cause, and then has rows too.
const THREE: [[&str; 3]; 2] = [["16 Cf", "16 Sf", "9 lengths"], ["7", "16 Sf", "9 lengths"]];

/// The causes that hold, a bit for each.
fn holding(call: &Call) -> u32 {
    let bit = |(i, cause): (usize, &Cause)| (cause.2(call) as u32) << i;
    CAUSES.iter().enumerate().map(bit).sum()
}

fn bits(names: &[&str]) -> u32 {
    let place = |name: &str| CAUSES.iter().position(|cause| cause.0 == name).unwrap();
    names.iter().map(|name| 1u32 << place(name)).sum()
}

/// Whether causes can meet in a mode by what is said above.
fn can_meet(set: u32, mode: u8) -> bool {
    let other = if mode == 1 {
        bits(&OF_MODE_2)
    } else {
        bits(&OF_MODE_1)
    };
    let never = |&(one, others, _): &(&str, &[&str], &str)| {
        set & bits(&[one]) != 0 && set & bits(others) != 0
    };
    set & other == 0 && !NEVER.iter().any(never)
}

type Change = fn(&mut Call);

/// What a call may differ in, the usual first. A later change may go by the earlier ones.
const CHANGES: [&[Change]; 9] = [
    &[
        |_| (),
        |call| call.given.n = 0,
        |call| call.given.n = 65,
        |call| call.given.n = 1,
    ],
    &[|_| (), |call| call.given.sparse = true],
    &[
        |_| (),
        |call| call.given.coefficient_length = 0,
        |call| call.given.coefficient_length = 3,
        |call| call.given.coefficient_length = 9,
    ],
    &[
        |_| (),
        |call| call.given.deviation_length = 0,
        |call| call.given.deviation_length = 3,
        |call| call.given.deviation_length = 9,
    ],
    &[
        |_| (),
        |call| call.given.coefficients_mapped = false,
        |call| call.given.deviations_mapped = !call.given.deviations_mapped,
        |call| {
            call.given.coefficients_mapped = false;
            call.given.deviations_mapped = !call.given.deviations_mapped;
        },
    ],
    &[
        |call| {
            let sent = (call.given.coefficient_length > 0) as u8;
            call.given.marks = vec![sent, sent * !call.given.sparse as u8, sent];
        },
        |call| call.given.marks = vec![0; 3],
        |call| call.given.marks = vec![0, 2, 0],
        |call| call.given.marks = vec![1, 255, 1],
        |call| call.given.marks = vec![1, 0, 1],
    ],
    &[
        |_| (),
        |call| call.given.deviations[0] = u64::MAX,
        |call| call.given.coefficients[0] = u64::MAX,
        |call| {
            call.given.deviations[0] = u64::MAX;
            call.given.coefficients[0] = u64::MAX;
        },
    ],
    &[
        |_| (),
        |call| call.given.deviations.truncate(call.size() - 1),
        |call| call.given.coefficients.truncate(2),
        |call| call.given.marks.truncate(2),
    ],
    &[|_| (), |call| call.room = call.needed() - 1],
];

/// Each call with each of the changes.
fn each(calls: Vec<Call>, changes: &&[Change]) -> Vec<Call> {
    let mut list = Vec::with_capacity(calls.len() * changes.len());
    for call in &calls {
        for change in *changes {
            let mut changed = call.clone();
            change(&mut changed);
            list.push(changed);
        }
    }
    list
}

/// All calls that differ in these ways from one that is written.
fn calls(mode: u8, stated: bool) -> Vec<Call> {
    let mut given = good((true, 2), (stated, 2), None);
    given.mode = mode;
    let usual = Call {
        given,
        stated,
        room: 200,
    };
    CHANGES.iter().fold(vec![usual], each)
}

const MODES: [(u8, bool); 4] = [(2, false), (2, true), (1, false), (1, true)];

/// Compares the writer with the first cause that holds, on all these calls.
pub fn compare() {
    for (mode, stated) in MODES {
        for call in calls(mode, stated) {
            let first = CAUSES.iter().find(|cause| cause.2(&call));
            let refused = write_matrix(&call.given, call.stated, call.room).err();
            assert_eq!(
                refused,
                first.map(|cause| cause.1),
                "{}",
                matrix_row(&call.given, call.stated, call.room)
            );
        }
    }
}

/// The rows that have no cause, one, two or those three, by their causes.
fn found(mode: u8, stated: bool) -> BTreeMap<u32, Vec<String>> {
    let three: Vec<u32> = THREE.iter().map(|names| bits(names)).collect();
    let mut found: BTreeMap<u32, Vec<String>> = BTreeMap::new();
    for call in calls(mode, stated) {
        let set = holding(&call);
        if set.count_ones() <= 2 || three.contains(&set) {
            let row = matrix_row(&call.given, stated, call.room);
            found.entry(set).or_default().push(row);
        }
    }
    found
}

/// A row for each set of causes that can meet, and another where a flag is alone. That there are
/// rows for all of them, and for no others, is looked at here.
fn by_causes(rows: &mut Vec<String>, mode: u8, stated: bool) {
    let found = found(mode, stated);
    for i in 0..CAUSES.len() {
        for k in 0..=i {
            let set = 1 << i | 1 << k;
            let names = (CAUSES[i].0, CAUSES[k].0);
            assert_eq!(found.contains_key(&set), can_meet(set, mode), "{:?}", names);
        }
    }
    for (set, list) in &found {
        rows.push(list[0].clone());
        if set & bits(&OF_MODE_2) != 0 {
            rows.push(list[list.len() - 1].clone());
        }
    }
}

/// Each combination of flags beside each of lengths that are 0, sparse and full: Mode 1 never gives
/// 16.
fn lengths_of_nought(rows: &mut Vec<String>, mode: u8, stated: bool) {
    for (c_length, s_length) in [(0, 2), (2, 0), (0, 0)] {
        for flags in 0..8 {
            for n in [1, 3] {
                let c = (flags & 1 != 0, c_length);
                let s = (flags & 2 != 0, s_length);
                let mut given = good(c, s, None);
                given.mode = mode;
                given.n = n;
                given.sparse = flags & 4 != 0;
                rows.push(matrix_row(&given, stated, 200));
            }
        }
    }
}

/// A mode that there is not is 14 before 16.
fn other_modes(rows: &mut Vec<String>) {
    for mode in [0, 3, 255] {
        for (c, s) in [((true, 0), (true, 2)), ((true, 2), (true, 0))] {
            let mut given = good(c, s, None);
            given.mode = mode;
            rows.push(matrix_row(&given, false, 200));
            rows.push(matrix_row(&given, true, 200));
        }
    }
}

pub fn make() -> Vec<String> {
    let mut rows = Vec::new();
    for (mode, stated) in MODES {
        by_causes(&mut rows, mode, stated);
        lengths_of_nought(&mut rows, mode, stated);
    }
    other_modes(&mut rows);
    rows
}
