//! Lines, valid and damaged, as messages of every step that takes one.

use super::cases::plan;
use super::damage::Damage;
use super::plan::{Plan, Step};
use super::random::Random;
use super::writer::Writer;
use crate::entries::RECORD;
use crate::machine::*;
use crate::Terms;

/// At each step of each sort every line arrives, but one that is taken, and then the message that was sent.
pub fn lines(writer: &mut Writer) {
    let random = &mut Random(6);
    let sorts = [(false, Terms::product(9, 4, 7, 1, 2, 1)), (true, Terms::system(9, 4, 5, 1)), (true, Terms::determinant(9, 4, 5, 1))];
    for (is_system, t) in sorts {
        let plan = plan(writer, random, is_system, t);
        for step in plan.steps() {
            if step.takes() != 0 {
                rows(writer, &plan, *step);
                long_lines(writer, &plan, *step);
            }
            assert_eq!(writer.right(&plan, *step), 0);
        }
        let last = plan.steps()[plan.steps().len() - 1];
        without_session(writer, &plan, last);
    }
}

/// Every line at a session that is closed, at a record of zeros, and at one of another length.
fn without_session(writer: &mut Writer, plan: &Plan, last: Step) {
    let right = plan.registers(last);
    for (place, bytes) in [(right[13], RECORD as u32), (7, RECORD as u32), (right[13], 32)] {
        for line in ROWS {
            writer.post(SPARE, line);
            let mut r = right;
            (r[12], r[13], r[16]) = (bytes, place, SPARE);
            writer.call(NEXT, &r);
        }
    }
}

fn rows(writer: &mut Writer, plan: &Plan, step: Step) {
    for line in ROWS {
        writer.post(SPARE, line);
        arrives(writer, plan, step);
    }
}

/// What is in the spare box arrives, where it is refused.
fn arrives(writer: &mut Writer, plan: &Plan, step: Step) {
    let mut damage = Damage::none(step.call(), plan.registers(step));
    damage.registers[16] = SPARE;
    if damage.is_refused(writer) {
        writer.damaged(&damage);
    }
}

fn long_lines(writer: &mut Writer, plan: &Plan, step: Step) {
    // the most residues that a message has, and one more
    for residues in [3072, 3073, 6000] {
        long(writer, b"1,9,4,7,1,2,1,", 14 + 2 * residues);
        arrives(writer, plan, step);
    }
    for (head, length) in [(&b"1,10,4,7,1,2,1,"[..], 65_535), (b"1,9,4,7,1,2,1,", 65_536), (b"1,10,4,7,1,2,1,", 65_537)] {
        long(writer, head, length);
        arrives(writer, plan, step);
    }
    // of such a length that the moduli and the sides are still judged
    for head in [&b"1,9,4,1,1,2,1,"[..], b"3,9,4,6,1,2,1,", b"7,9,4,7,1,2,1,", b"2,9,4,2147483648,32,64,32,"] {
        long(writer, head, 40_000 + head.len() as u32 % 2);
        arrives(writer, plan, step);
    }
    replies(writer, plan, step);
}

/// Second messages, and one like a system's fourth, that have more residues than any first message: right by themselves, with one residue
/// more or less, and with one that is no residue.
fn replies(writer: &mut Writer, plan: &Plan, step: Step) {
    let heads: [(&[u8], u32); 5] = [
        (b"2,9,4,7,32,64,32,", 3072),
        (b"2,10,4,7,32,33,32,", 2080),
        (b"2,9,4,6,1,2048,1,", 2049),
        (b"4,9,4,7,16,128,32,", 2304),
        (b"2,9,0,7,32,64,2,", 2112),
    ];
    for (head, residues) in heads {
        for residues in [residues, residues - 1, residues + 1] {
            long(writer, head, head.len() as u32 + 2 * residues);
            arrives(writer, plan, step);
        }
        long(writer, head, head.len() as u32 + 2 * residues);
        writer.say(&[4, SPARE, head.len() as u32, u32::from(b'9')]);
        arrives(writer, plan, step);
    }
}

/// A line of so many bytes whose residues are zeros.
fn long(writer: &mut Writer, head: &[u8], length: u32) {
    let start = head.len() as u32;
    writer.post(SPARE, head);
    writer.say(&[5, SPARE, start, length - start, 48, 44]);
    writer.say(&[4, SPARE, length - 1, 10]);
}

const ROWS: &[&[u8]] = &[
    // Lines of messages.
    b"1,9,4,7,1,2,1,3,3\n",          // product 1
    b"2,9,4,7,1,2,1,4,2,3\n",        // product 2
    b"3,9,4,5,1,1,2,4\n",            // system 3
    b"4,9,4,5,1,1,2,1,4\n",          // system 4
    b"5,9,4,5,1,1,2,1\n",            // system 5
    b"1,9,4,5,1,1,1,3\n",            // determinant 1
    b"2,9,4,5,1,1,1,3,0\n",          // determinant 2
    b"3,9,4,5,1,1,1,4\n",            // determinant 3
    b"4,9,4,5,1,1,1,1\n",            // determinant 4
    b"6,9,4,5,1,1,1,3\n",            // determinant 6
    b"1,4294967295,4,7,1,2,1,3,3\n", // largest session
    // Faults of form.
    b"",                                       // empty
    b"\n",                                     // byte 10 alone
    b"1,9,4,7,1,2,1,3,3",                      // no byte 10
    b"1,9,4,7,1,2,1,3,3\n\n",                  // two of them
    b"1,9,4,7\n1,2,1,3,3\n",                   // byte 10 inside
    b"1,9,4,7,1,2,1,03,3\n",                   // leading zero
    b"1,9,4,7,1,2,1,00,3\n",                   // two zeros
    b"1,9,4,7,1,2,1,+3,3\n",                   // plus
    b"1,9,4,7,1,2,1,-3,3\n",                   // minus
    b"1,9,4,7,1,2,1, 3,3\n",                   // blank
    b"1,9,4,7,1,2,1,3,a\n",                    // letter
    b"1,9,4,7,1,2,1,3,4294967295\n",           // 4294967295
    b"1,9,4,7,1,2,1,3,4294967296\n",           // 4294967296
    b"1,9,4,7,1,2,1,3,10000000000\n",          // eleven digits
    b"1,9,4,7,1,2\n",                          // 6 numbers
    b"1,9,4,7,1,2,1\n",                        // 7 numbers
    b"0,9,4,7,1,2,1,3,3\n",                    // kind 0
    b"7,9,4,7,1,2,1,3,3\n",                    // kind 7
    b"1,9,4,7,1,2,1,3,3,\n",                   // trailing comma
    b",1,9,4,7,1,2,1,3,3\n",                   // leading comma
    b"1,9,4,7,1,2,1,3,,3\n",                   // double comma
    b"1,9,4,1,1,2,1,3,3x\n",                   // form at the end, q 1
    b"0000000001,9,4,7,1,2,1,3,3\n",           // zeros before the kind
    b"1;9;4;7;1;2;1;3;3\n",                    // semicolons
    b"1,9,4,7,1,2,1,3,3\r\n",                  // byte 13
    b"1,9,4,7,1,2,1,3,3\0\n",                  // byte 0
    b"1,9,4,7,1,2,1,3,\xb3\n",                 // a byte above 127
    b"1,9,4,7,1,2,1,3,99999999999999999999\n", // twenty digits
    b"\xef\xbb\xbf1,9,4,7,1,2,1,3,3\n",        // a mark of the byte order
    // Faults of what the numbers say.
    b"1,9,4,1,1,2,1,0,0\n",                   // q 1
    b"1,9,4,2147483648,1,2,1,0,0\n",          // q 2147483648
    b"1,9,4,2147483647,1,2,1,2147483646,0\n", // q 2147483647
    b"1,9,4,6,1,2,1,5,5\n",                   // q 6 in a product
    b"3,9,4,6,1,1,2,4\n",                     // q 6 in a system
    b"1,0,4,7,1,2,1,3,3\n",                   // session 0
    b"1,9,0,7,1,2,1,3,3\n",                   // tape 0
    b"1,9,4,7,33,2,1,3,3\n",                  // m 33
    b"5,9,4,5,17,17,18,1\n",                  // n 17
    b"1,9,4,7,1,2,1,3\n",                     // one residue too few
    b"1,9,4,7,1,2,1,3,3,3\n",                 // one residue too many
    b"1,9,4,7,1,2,1,3,7\n",                   // residue q
    b"1,0,4,7,1,2,1,3,7\n",                   // residue q, session 0
    b"7,9,4,1,1,2,1,0,0\n",                   // kind 7, q 1
    b"3,0,4,0,1,1,2,4\n",                     // q 0 in a system, session 0
    b"2,9,4,2147483648,1,2,1,0,0,0\n",        // q 2147483648 in a second message
    b"5,9,4,6,17,17,18,1\n",                  // q 6 and n 17 in a system
    b"1,9,4,6,1,1,2,5,5\n",                   // q 6 in a system's first message
    b"1,9,4,7,1,2,1,3,3,7\n",                 // one residue too many, residue q
    b"1,9,4,1,1,2,1\n",                       // no residue, q 1
    b"1,9,4,5,1,1,2,5,1\n",                   // a system's first message with residue q
    b"2,9,4,5,1,1,2,4,4,5\n",                 // a system's second message with residue q
    // Systems and determinants taken for each other, and other faults of a determinant's messages.
    b"6,9,4,5,1,1,2,3\n",    // kind 6 with p = n + 1
    b"5,9,4,5,1,1,1\n",      // kind 5 with p = n, as many residues as the sides give
    b"5,9,4,5,1,1,1,1\n",    // kind 5 with p = n
    b"4,9,4,5,1,1,1,1,4\n",  // W and c with p = n
    b"4,9,4,5,1,1,2,1\n",    // W alone with p = n + 1
    b"3,9,4,5,1,1,0,4\n",    // p = n - 1
    b"3,9,4,5,1,1,3,4\n",    // p = n + 2
    b"6,9,4,5,1,2,1,3\n",    // k = n + 1
    b"6,9,4,7,1,2,1,3,3\n",  // kind 6 of a product's sides
    b"6,9,4,5,1,1,1\n",      // no determinant
    b"6,9,4,5,1,1,1,3,3\n",  // two
    b"6,9,4,5,1,1,1,5\n",    // residue q
    b"6,9,4,5,1,1,2,5\n",    // residue q, p = n + 1
    b"6,9,4,5,2,2,2,1\n",    // n 2
    b"6,9,4,5,17,17,17,1\n", // n 17
    b"6,9,0,5,1,1,1,3\n",    // tape 0
    b"6,9,4,6,1,1,1,3\n",    // q 6
    b"6,9,4,6,1,1,2,3\n",    // q 6, p = n + 1
    b"6,9,4,1,1,1,1,0\n",    // q 1
    b"6,10,4,5,1,1,1,3\n",   // another session
];
