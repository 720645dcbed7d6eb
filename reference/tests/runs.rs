//! The runs of RULES 9.3.

use reference::dealer::deal_system;
use reference::faults::{COMPOSITE, MODULUS, RESIDUE, SINGULAR, SIZE};
use reference::pool::Place;
use reference::rehearsal::rehearse;
use reference::scores::{to_residue, to_score};
use reference::system::*;
use reference::words::draw;
use reference::Terms;

fn text(lines: &[&str]) -> String {
    lines.iter().map(|line| format!("{line}\n")).collect()
}

fn place(pool: &mut [u32]) -> Place<'_> {
    let length = pool.len();
    Place { pool, length, index: 0 }
}

/// A whole system: the residues of the five messages and z, or the refusal.
fn system(q: u32, n: u32, input: [&[u32]; 4], dealer: &[u32], blinder: &[u32]) -> Result<Vec<Vec<u32>>, u32> {
    let (mut one, mut two) = (vec![9; 2000], vec![9; 2000]);
    (one[0], two[0]) = (0, 0);
    let (mut one, mut two) = (place(&mut one), place(&mut two));
    let mut scratch = vec![7; 600];
    let kept = |number: u32| if number == 0 { Ok(()) } else { Err(number) };
    let t = Terms::system(9, 4, q, n);
    let [l, x, m, y] = input;
    kept(deal_system(&mut one, &mut two, 4, q, t.m, t.k, t.p, dealer).number)?;
    let (r1, s) = solver_first(t, &mut two, l, x, 9999);
    kept(r1.number)?;
    let (r2, b) = blinder_first(t, &mut one, &mut scratch, m, y, blinder, &r1.message, 9999);
    kept(r2.number)?;
    let (r3, s) = solver_second(s, &mut two, &r2.message, 9999);
    kept(r3.number)?;
    let (r4, b) = blinder_second(b, &mut one, &scratch, &r3.message, 9999);
    kept(r4.number)?;
    let (r5, _) = solver_last(s, &mut two, &r4.message, 9999);
    assert_eq!(two.slot()[0], 3);
    kept(r5.number)?;
    let (r6, b) = blinder_last(b, &mut one, &mut scratch, &r5.message, 9999);
    kept(r6.number)?;
    assert_eq!((b.due, one.slot()[0]), (0, 3));
    let mut all: Vec<Vec<u32>> = [r1, r2, r3, r4, r5].into_iter().map(|r| r.message.residues).collect();
    all.push(r6.result);
    Ok(all)
}

#[test]
fn the_rehearsal() {
    let input = text(&["7,1,2,1,9,4", "3,5", "2,6", "1,4,6,3,2", "5"]);
    let output = text(&["1,9,4,7,1,2,1,3,3", "2,9,4,7,1,2,1,4,2,3", "left,5", "right,3"]);
    assert_eq!(rehearse(input.as_bytes()), output);
    let composite = text(&["6,1,1,1,9,4", "3", "2", "1,4,5", "5", "not read"]);
    assert!(rehearse(composite.as_bytes()).contains("left,"));
    let one = text(&["1,1,1,1,9,4", "0", "0", "0,0,0", "0"]);
    assert_eq!(rehearse(one.as_bytes()), "refused,2\n");
}

#[test]
fn the_system() {
    // X0, Y0, A0, Q, R, G, and then P, U0
    let run = system(5, 1, [&[2], &[3], &[1], &[1]], &[1, 4, 2, 0, 3, 3, 2, 1], &[2, 1, 2]);
    assert_eq!(run, Ok(vec![vec![3, 1], vec![3, 0, 2], vec![4], vec![1, 4], vec![1], vec![3]]));
    let singular = system(5, 1, [&[2], &[3], &[3], &[1]], &[1, 4, 2, 0, 3, 3, 2, 1], &[2, 1, 2]);
    assert_eq!(singular, Err(SINGULAR));
    assert_eq!(system(6, 1, [&[2], &[3], &[1], &[1]], &[1; 8], &[1; 3]), Err(COMPOSITE));
    assert_eq!(system(1, 1, [&[0], &[0], &[0], &[0]], &[1; 8], &[1; 3]), Err(MODULUS));
    assert_eq!(system(5, 17, [&[0], &[0], &[0], &[0]], &[1; 8], &[1; 3]), Err(SIZE));
}

#[test]
fn drawing() {
    assert_eq!(draw(7, 1, &[4294967291]), Some((vec![6], 1)));
    assert_eq!(draw(7, 1, &[4294967292]), None);
    assert_eq!(draw(2147483647, 1, &[4294967293]), Some((vec![2147483646], 1)));
    assert_eq!(draw(2147483647, 1, &[4294967294, 5, 6]), Some((vec![5], 2)));
}

#[test]
fn scores() {
    let residues = |scores: [i32; 4]| scores.map(|s| u64::from(to_residue(15, s).unwrap()));
    let (a, b) = (residues([-2, 3, -6, 7]), residues([4, -5, 2, -6]));
    let product = a.iter().zip(b).map(|(x, y)| x * y).sum::<u64>() % 15;
    assert_eq!(product, 13);
    assert_eq!(to_score(15, 13), Ok(-2));
    assert_eq!(to_residue(15, 7), Ok(7));
    assert_eq!(to_residue(15, 8), Err(RESIDUE));
}
