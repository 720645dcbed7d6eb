//! The small entries at their edges.

use super::writer::Writer;
use crate::machine::*;

const SIDES: [[u32; 3]; 27] = [
    [1, 1, 1],
    [1, 2048, 1],
    [32, 64, 32],
    [32, 1, 32],
    [33, 1, 1],
    [1, 1, 33],
    [1, 2049, 1],
    [32, 65, 1],
    [1, 65, 32],
    [0, 1, 1],
    [1, 0, 1],
    [1, 1, 0],
    [16, 16, 17],
    [17, 17, 18],
    [1, 1, 2],
    [2, 2, 3],
    [2, 2, 2],
    [2, 3, 3],
    [2, 3, 2],
    [2, 2, 1],
    [2, 2, 4],
    [16, 16, 16],
    [17, 17, 17],
    [0, 0, 1],
    [65_536, 65_536, 1],
    [u32::MAX, u32::MAX, 0],
    [u32::MAX, u32::MAX, u32::MAX],
];

const MODULI: [u32; 14] = [0, 1, 2, 3, 4, 6, 7, 10, 11, 100, 101, 2_147_483_647, 2_147_483_648, u32::MAX];

/// Small primes and squares, the largest, products of two, and numbers that some tests of primality take for prime.
const NUMBERS: [u32; 28] = [
    0,
    1,
    2,
    3,
    4,
    5,
    9,
    25,
    49,
    561,
    1105,
    1729,
    2047,
    1_373_653,
    25_326_001,
    65_521,
    65_536,
    65_537,
    2_147_483_629,
    2_147_483_646,
    2_147_483_647,
    3_215_031_751,
    4_292_870_399,
    4_293_001_441,
    4_294_049_777,
    4_294_836_225,
    4_294_967_291,
    u32::MAX,
];

pub fn small(writer: &mut Writer) {
    let none = [0; REGISTERS];
    writer.call(VERSION, &none);
    writer.call(RECORD_WORDS, &none);
    sizes(writer);
    for n in NUMBERS {
        writer.call(IS_PRIME, &with(&[(7, n)]));
    }
    inverses(writer);
    scores(writer);
    refusal_words(writer);
    // no call at all
    writer.call(FLAGS_FIT + 1, &none);
}

/// Registers of zeros but for these.
pub fn with(values: &[(usize, u32)]) -> Registers {
    let mut r = [0; REGISTERS];
    for (i, value) in values {
        r[*i] = *value;
    }
    r
}

fn sizes(writer: &mut Writer) {
    for [m, k, p] in SIDES {
        for end in [0, 1, 2, 3, 4, 5, 6, 7, u32::MAX] {
            let r = with(&[(7, 7), (8, m), (9, k), (10, p), (11, end)]);
            for call in TAPE_WORDS..=DEAL_COUNT {
                writer.call(call, &r);
            }
        }
    }
    for q in MODULI {
        for kind in [1, 2, 3, 4, 5, 6, 7, 1 << 31] {
            for [m, k, p] in [[2, 2, 3], [1, 1, 2], [2, 2, 2], [1, 1, 1], [16, 16, 16]] {
                writer.call(LINE_BYTES, &with(&[(7, q), (8, m), (9, k), (10, p), (11, kind)]));
            }
        }
    }
}

/// q, n, bytes that are lent, and the matrix.
type Row = (u32, u32, u32, &'static [u32]);

const MATRICES: &[Row] = &[
    (7, 1, 4, &[3]),
    (7, 1, 4, &[0]),
    (2, 2, 16, &[0, 1, 1, 0]),
    (2, 2, 16, &[1, 1, 1, 1]),
    (2_147_483_647, 2, 16, &[2_147_483_646, 1, 1, 2_147_483_646]),
    (2_147_483_647, 2, 16, &[2_147_483_646, 1, 1, 2_147_483_645]),
    (5, 3, 36, &[0, 0, 1, 0, 1, 0, 1, 0, 0]),
    (5, 3, 36, &[1, 2, 3, 4, 0, 1, 0, 2, 4]),
    (0, 1, 4, &[0]),
    (1, 1, 4, &[0]),
    (2_147_483_648, 1, 4, &[1]),
    (u32::MAX, 1, 4, &[1]),
    (6, 1, 4, &[1]),
    (2_147_483_646, 1, 4, &[1]),
    (7, 0, 0, &[]),
    (7, 17, 1156, &[]),
    (7, 65_536, 0, &[]),
    (7, u32::MAX, 4, &[1]),
    (7, 1, 0, &[1]),
    (7, 1, 3, &[1]),
    (7, 1, 5, &[1]),
    (7, 1, 8, &[1]),
    (7, 2, 15, &[1, 0, 0, 1]),
    (7, 2, 20, &[1, 0, 0, 1]),
    (7, 1, 4, &[7]),
    (7, 2, 16, &[1, 0, 0, u32::MAX]),
    // the lower number counts
    (1, 0, 3, &[]),
    (6, 17, 0, &[]),
    (6, 1, 4, &[6]),
    (7, 17, 4, &[7]),
    (7, 2, 16, &[0, 0, 0, 7]),
];

fn inverses(writer: &mut Writer) {
    for (q, n, bytes, matrix) in MATRICES {
        writer.put(INPUT, 0, matrix);
        writer.call(HAS_INVERSE, &with(&[(7, *q), (8, *n), (25, *bytes)]));
    }
    for (n, seed) in (1..=16).flat_map(|n| [(n, 5), (n, 6)]) {
        for q in [2, 3, 2_147_483_647] {
            writer.call(HAS_INVERSE, &with(&[(7, q), (8, n), (21, q), (22, seed), (23, n * n), (25, 4 * n * n)]));
        }
    }
}

fn scores(writer: &mut Writer) {
    let near = |n: i64| [n - 1, n, n + 1];
    for q in [0, 1, 2, 3, 15, 16, 2_147_483_646, 2_147_483_647, 2_147_483_648, u32::MAX] {
        let wide = i64::from(q);
        let mut edges = vec![i64::from(i32::MIN), i64::from(i32::MAX), 0];
        edges.extend([1, wide / 2, -(wide / 2), wide, -wide].into_iter().flat_map(near));
        edges.sort();
        edges.dedup();
        for edge in edges {
            if let Ok(score) = i32::try_from(edge) {
                writer.call(TO_RESIDUE, &with(&[(7, q), (28, score as u32)]));
            }
            if let Ok(residue) = u32::try_from(edge) {
                writer.call(TO_SCORE, &with(&[(7, q), (28, residue)]));
            }
        }
        writer.call(TO_SCORE, &with(&[(7, q), (28, u32::MAX)]));
    }
}

fn refusal_words(writer: &mut Writer) {
    for number in (0..=11).chain([256, 1 << 31, u32::MAX]) {
        for room in [0, 3, 4, 5, 6, 7, 8, 9, 10] {
            writer.call(REFUSAL_WORD, &with(&[(19, room), (28, number)]));
        }
    }
}
