//! What an opened sum tells (docs/HOSTS.md): the count, more than the count to an end that chooses its list, and with secret factors zero or
//! not and nothing else. And what several determinants of one table tell together.

mod common;

use common::*;
use yuthsaok::{is_prime, Session, Shape};

/// The opened inner product of two lists.
fn opened(q: u32, x: &[u32], y: &[u32]) -> u32 {
    let shape = Shape::Product { q, m: 1, k: x.len() as u32, p: 1 };
    let [mut left, mut right] = pools(shape);
    let (mut session, first) = Session::right(&mut right, SLOT, terms(shape), y).unwrap();
    let (_, second) = Session::left(&mut left, SLOT, terms(shape), x, &random_words(1), &first.line).unwrap();
    let last = session.next(&mut right, SLOT, &second.line).unwrap();
    ((u64::from(second.result[0]) + u64::from(last.result[0])) % u64::from(q)) as u32
}

fn scaled(list: &[u32], factor: u32, q: u32) -> Vec<u32> {
    list.iter().map(|flag| flag * factor % q).collect()
}

#[test]
fn the_count_is_told() {
    let (x, y) = (residues(30, 2), residues(30, 2));
    let both = x.iter().zip(&y).map(|(a, b)| a * b).sum::<u32>();
    assert_eq!(opened(31, &x, &y), both);
}

#[test]
fn a_chosen_list_reads_the_other() {
    let y = residues(30, 2);
    let powers: Vec<u32> = (0..30).map(|day| 1 << day).collect();
    let sum = opened(2_147_483_647, &powers, &y);
    let read: Vec<u32> = (0..30).map(|day| sum >> day & 1).collect();
    assert_eq!(read, y);

    let mut one = vec![0; 30];
    one[12] = 1;
    assert_eq!(opened(31, &one, &y), y[12]);
}

/// Whatever the count and one end's factor are, the other's factors give each number from 1 to q − 1 once.
#[test]
fn factors_leave_zero_or_not() {
    let q = 7;
    assert!(is_prime(q));
    for both in 0..q {
        let list: Vec<u32> = (0..6).map(|day| u32::from(day < both)).collect();
        for own in 1..q {
            let mut sums: Vec<u32> = (1..q).map(|other| opened(q, &scaled(&list, own, q), &scaled(&list, other, q))).collect();
            sums.sort_unstable();
            let right: Vec<u32> = if both == 0 { vec![0; 6] } else { (1..q).collect() };
            assert_eq!(sums, right, "{both} days, factor {own}");
        }
    }
}

/// The blinder's answer for L and its own M.
fn determined(q: u32, n: u32, l: &[u32], m: &[u32]) -> u32 {
    let shape = Shape::Determinant { q, n };
    let [mut blinders, mut solvers] = pools(shape);
    let (mut solving, first) = Session::solver(&mut solvers, SLOT, terms(shape), l, &[]).unwrap();
    let (mut blinding, second) = blinder(&mut blinders, SLOT, terms(shape), m, &[], &first.line);
    let third = solving.next(&mut solvers, SLOT, &second.line).unwrap();
    let fourth = blinding.next(&mut blinders, SLOT, &third.line).unwrap();
    let sixth = solving.next(&mut solvers, SLOT, &fourth.line).unwrap();
    blinding.next(&mut blinders, SLOT, &sixth.line).unwrap().result[0]
}

/// Two tables of the blinder that differ by 1 in the first entry: of two rows the answers differ by the last entry of L + M.
#[test]
fn determinants_of_one_table_tell_a_minor() {
    let q = 101;
    let l = invertible(2, q);
    let (one, two) = (determined(q, 2, &l, &[1, 0, 0, 1]), determined(q, 2, &l, &[2, 0, 0, 1]));
    assert_eq!((two + q - one) % q, (l[3] + 1) % q);
    assert_eq!(determined(q, 1, &[l[3].max(1)], &[5]), (l[3].max(1) + 5) % q);
}
