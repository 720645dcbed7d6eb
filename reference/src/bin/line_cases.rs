//! Prints the cases of the program `test_line`: lines right and wrong, each with a `;` behind it.

use std::io::Write;

use reference::line::text;
use reference::script::random::Random;

fn main() -> std::io::Result<()> {
    let mut cases: Vec<Vec<u8>> = [RIGHT, NUMBERS, FORMS, MODULI, SIDES, ROOMS].concat().iter().map(|case| case.to_vec()).collect();
    cases.extend(long());
    let random = &mut Random(63);
    cases.extend((0..40).map(|_| any(random)));
    cases.iter().try_for_each(|case| std::io::stdout().write_all(&[case, &b";"[..]].concat()))
}

/// Messages of each kind, with at most the four residues that there is room for.
const RIGHT: &[&[u8]] = &[
    b"1,9,4,7,1,2,1,3,3\n",
    b"1,4294967295,4294967295,2,32,1,4,0,1,0,1\n",
    b"1,1,1,6,1,2,2,5,4,3,0\n",
    b"1,1,1,2147483647,1,1,1,2147483646\n",
    b"2,9,4,7,1,2,1,4,2,3\n",
    b"2,9,4,7,1,3,1,4,2,3,6\n",
    b"2,9,4,2147483646,2,1,1,0,2147483645,0,1\n",
    b"3,9,4,5,1,1,2,4\n",
    b"3,9,4,5,2,2,3,1,2,3,4\n",
    b"4,9,4,2,1,1,2,1,0\n",
    b"4,10,100,1000003,1,1,2,1000,1000002\n",
    b"5,9,4,5,1,1,2,1\n",
    b"5,1,1,2147483647,4,4,5,2147483646,0,1,2147483645\n",
    b"3,9,4,5,2,2,2,1,2,3,4\n",
    b"4,9,4,2,1,1,1,1\n",
    b"4,9,4,5,2,2,2,1,2,3,4\n",
    b"6,9,4,5,1,1,1,0\n",
    b"6,4294967295,1,2147483647,16,16,16,2147483646\n",
];

/// Numbers and lines at their edges.
const NUMBERS: &[&[u8]] = &[
    b"0\n",
    b"1\n",
    b"10,100,1000,10000,100000,1000000,10000000,100000000,1000000000\n",
    b"0,9,99,999,9999,99999,999999,9999999,999999999\n",
    b"0,0,0,0,0,0,0,0,0,0\n",
    b"0,0,0,0,0,0,0,0,0,0,\n",
    b"4294967294,4294967295\n",
    b"4294967296\n",
    b"4294967300\n",
    b"5000000000\n",
    b"9999999999\n",
    b"10000000000\n",
    b"42949672950\n",
    b"18446744073709551615\n",
    b"18446744073709551616\n",
    b"18446744073709551617\n",
    b"340282366920938463463374607431768211457\n",
    b"00\n",
    b"01\n",
    b"1,02\n",
    b"0000000001\n",
    b"+1\n",
    b"-1\n",
    b"-0\n",
    b" 1\n",
    b"1 \n",
    b"1, 2\n",
    b"1,\t2\n",
    b"1,,2\n",
    b",1\n",
    b"1,\n",
    b",\n",
    b"\n",
    b"",
    b"1",
    b"0",
    b"1,2",
    b"1,",
    b"\n1\n",
    b"1\n\n",
    b"1\n2\n",
    b"1\n,2\n",
    b"1,\n2\n",
    b"1\r\n",
    b"1/2\n",
    b"1:2\n",
    b"1.0\n",
    b"1e3\n",
    b"0x1\n",
    b"a\n",
    b"1\0\n",
    b"\0\n",
    b"1\xff\n",
    b"\xb1\n",
    "\u{661}\n".as_bytes(),
];

/// Messages that are none by their form, alone or beside other faults.
const FORMS: &[&[u8]] = &[
    b"1,9,4,7,1,2\n",
    b"7,9,4,7,1,2\n",
    b"1,9,4,7,1,2,\n",
    b"1,9,4,7,1,2,1",
    b"0,9,4,7,1,2,1,3,3\n",
    b"7,9,4,7,1,2,1,3,3\n",
    b"4294967295,9,4,7,1,2,1,3,3\n",
    b"4294967297,9,4,7,1,2,1,3,3\n",
    b"01,9,4,7,1,2,1,3,3\n",
    b"1,9,4,7,1,2,1,3,3",
    b"1,9,4,7,1,2,1,3,3\n\n",
    b"1,9,4,7,1,2,1,3,03\n",
    b"1,9,4,7,1,2,1,3,4294967296\n",
    b"7,0,0,1,0,0,0,9\n",
    b"0,0,0,0,0,0,0\n",
    b"1,0,0,1,0,0,0,9,x\n",
];

/// Moduli out of range, and moduli of systems that are not prime.
const MODULI: &[&[u8]] = &[
    b"1,9,4,0,1,2,1,0,0\n",
    b"1,9,4,1,1,2,1,0,0\n",
    b"2,9,4,2147483648,1,2,1,4,2,3\n",
    b"1,9,4,4294967295,1,2,1,3,3\n",
    b"3,9,4,0,1,1,2,0\n",
    b"4,9,4,1,1,1,2,0,0\n",
    b"5,9,4,2147483649,1,1,2,1\n",
    b"3,9,4,4,1,1,2,3\n",
    b"4,9,4,9,1,1,2,1,4\n",
    b"5,9,4,561,1,1,2,1\n",
    b"5,9,4,2147117569,1,1,2,1\n",
    b"5,9,4,2147483646,1,1,2,1\n",
    b"5,9,4,4294967291,1,1,2,1\n",
    b"6,9,4,0,1,1,1,0\n",
    b"6,9,4,2147483646,1,1,1,1\n",
    // beside faults that stand behind them
    b"1,0,4,1,1,2,1,3,3\n",
    b"2,9,4,0,33,2,1\n",
    b"3,0,0,6,1,1,2,6\n",
    b"4,9,4,6,17,17,18\n",
    b"5,9,4,1,0,0,1\n",
    b"6,0,4,6,1,1,2,6\n",
];

/// Sides out of bounds, counts that they do not give, numbers 0, and residues of q or more.
const SIDES: &[&[u8]] = &[
    b"1,0,4,7,1,2,1,3,3\n",
    b"1,9,0,7,1,2,1,3,3\n",
    b"1,9,4,7,0,2,1,3,3\n",
    b"1,9,4,7,1,0,1\n",
    b"1,9,4,7,1,2,0\n",
    b"1,9,4,7,33,2,1,3,3\n",
    b"1,9,4,7,32,64,1\n",
    b"1,9,4,7,32,65,1\n",
    b"2,9,4,7,1,1,33\n",
    b"1,9,4,7,1,2049,1\n",
    b"1,9,4,7,65537,65536,65536\n",
    b"2,9,4,7,1,4294967295,1,3\n",
    b"2,9,4,7,4294967295,4294967295,4294967295,3\n",
    b"3,9,4,5,0,0,1\n",
    b"3,9,4,5,1,2,2,4\n",
    b"3,9,4,5,1,1,0,4\n",
    b"3,9,4,5,1,1,3,4\n",
    b"5,9,4,5,17,17,18,1\n",
    b"5,9,4,5,4294967295,4294967295,0,1\n",
    b"1,9,4,7,1,2,1\n",
    b"1,9,4,7,1,2,1,3\n",
    b"1,9,4,7,1,2,1,3,3,3\n",
    b"2,9,4,7,1,2,1,4,2\n",
    b"2,9,4,7,1,2,1,4,2,3,1\n",
    b"3,9,4,5,2,2,3,1,2,3\n",
    b"4,9,4,5,1,1,2,1\n",
    b"5,9,4,5,2,2,3,1\n",
    b"5,9,4,5,1,1,2,1,0\n",
    b"1,9,4,7,1,2,1,7,3\n",
    b"1,9,4,7,1,2,1,3,7\n",
    b"2,9,4,7,1,2,1,4,2,4294967295\n",
    b"3,9,4,5,1,1,2,5\n",
    b"4,9,4,2,1,1,2,1,2\n",
    b"5,9,4,2147483647,1,1,2,2147483647\n",
    // a kind of the other p, and counts of the other p
    b"5,9,4,5,1,1,1\n",
    b"5,9,4,5,1,1,1,1\n",
    b"6,9,4,5,1,1,2,1\n",
    b"6,9,4,5,1,2,1,1\n",
    b"6,9,4,5,17,17,17,1\n",
    b"4,9,4,5,1,1,1,1,4\n",
    b"6,9,4,5,1,1,1\n",
    b"6,9,4,5,2,2,2,1,0\n",
    b"6,9,4,5,1,1,1,5\n",
    // a count and a residue at once
    b"1,9,4,7,1,2,1,7\n",
    b"5,9,0,5,1,1,2,5\n",
];

/// More residues than there is room for, alone and beside other faults.
const ROOMS: &[&[u8]] = &[
    b"1,9,4,7,1,5,1,3,3,3,3,3\n",
    b"1,9,4,7,1,5,1,3,3,3,3,7\n",
    b"1,9,4,7,1,2,1,3,3,3,3,3\n",
    b"1,9,4,1,1,5,1,3,3,3,3,3\n",
    b"3,9,4,6,2,2,3,3,3,3,3,3\n",
    b"4,9,4,1,2,2,3,3,3,3,3,3,6\n",
    b"4,9,4,5,2,2,3,0,1,2,3,4,0\n",
    b"7,9,4,1,1,5,1,3,3,3,3,3\n",
    b"6,9,4,5,2,2,2,3,3,3,3,3\n",
    b"1,9,4,1,1,5,1,3,3,3,3,3",
    b"5,9,4,65537,16,16,17,1,2,3,4,5,6,7,8,9,10,11,12,13,14,15,16\n",
];

/// Messages with about as many residues as one may have, or with more, and one with a fault at its end.
fn long() -> Vec<Vec<u8>> {
    let message = |kind, q, residues| text(&[&[kind, 9, 4, q, 32, 64, 32][..], &vec![1; residues]].concat()).into_bytes();
    let mut unended = message(2, 3, 3072);
    unended.pop();
    vec![message(2, 3, 3072), message(2, 3, 3073), message(1, 1, 3080), message(4, 4, 3081), message(7, 3, 3072), unended]
}

/// A message of small numbers, most of them wrong somewhere; of each fourth a byte is another.
fn any(random: &mut Random) -> Vec<u8> {
    const MODULUS: [u32; 8] = [1, 2, 3, 4, 5, 7, 7, 2147483648];
    const BYTES: [u8; 8] = *b"0,-19\n x";
    let mut below = |n: usize| random.below(n as u64) as usize;
    let (kind, m, k) = (below(8) as u32, below(4) as u32, below(3) as u32);
    let is_wide = below(8) < if kind == 6 { 1 } else { 6 };
    let (k, p) = if kind < 3 { (k, below(3) as u32) } else { (m, m + u32::from(is_wide)) };
    let count = match (kind, below(4)) {
        (_, 0) => below(6),
        (1, _) => (k * p) as usize,
        (2, _) => (m * k + m * p) as usize,
        (3, _) => (m * m) as usize,
        (4, _) => (m * p) as usize,
        (5, _) => (m * (p - m)) as usize,
        _ => 1,
    };
    let mut all = vec![kind, u32::from(below(10) != 0), 4, MODULUS[below(8)], m, k, p];
    all.extend((0..count).map(|_| below(3) as u32));
    let mut line = text(&all).into_bytes();
    if below(4) == 0 {
        let at = below(line.len());
        line[at] = BYTES[below(8)];
    }
    line
}
