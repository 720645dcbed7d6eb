//! Random calls of the engine beside the reference: `fuzz [COUNT] [SEED]`.
//!
//! Worlds of a few hundred calls: sessions of every sort with damaged calls between the right ones, calls with any numbers on what is left,
//! messages of any bytes, small entries, and windows of days. After each call its answer and every byte of every array must be the same on
//! both sides. The first difference ends the run; the script up to it is then in `failed.script`, which `replay` performs, here and in the
//! reference.
//!
//! What each call was answered by is printed as a table. A run of `WHOLE` calls or more fails where an answer that a call can get was not
//! among them, and any run where one that it cannot get was.

use std::cell::RefCell;
use std::panic::{catch_unwind, resume_unwind, AssertUnwindSafe};
use std::process::ExitCode;
use std::rc::Rc;

use fuzz::engine::Engine;
use reference::answers::Reference;
use reference::machine::{Machine, ARRAYS, DEAL};
use reference::script::driver::Habit;
use reference::script::random::Random;
use reference::script::reach;
use reference::script::tally::Tally;
use reference::script::writer::Writer;

const HABIT: Habit = Habit { damaged: 2, taken: 4, dropped: 10, singular: 16, stray: 16 };

/// So many calls have to come to every answer.
const WHOLE: usize = 100_000;

/// What differs after a line, if anything does.
fn difference(ours: &Machine<Reference>, theirs: &Machine<Engine>) -> Option<String> {
    if ours.reply != theirs.reply {
        return Some(format!("{} by the reference; {} by the engine", ours.reply, theirs.reply));
    }
    for (number, (a, b)) in ours.arrays.iter().zip(&theirs.arrays).enumerate() {
        if a != b {
            let at = (0..a.len()).find(|at| a[*at] != b[*at]).unwrap_or(0);
            return Some(format!("byte {at} of the {}: {} by the reference, {} by the engine", ARRAYS[number], a[at], b[at]));
        }
    }
    (ours.mail != theirs.mail).then(|| "another line was sent".to_string())
}

fn world(random: &mut Random, writer: &mut Writer) {
    let large = random.once_in(40);
    writer.sessions(random, HABIT, if large { 2 } else { 5 }, large, 0);
    for _ in 0..40 {
        writer.any_call(random);
    }
    for _ in 0..8 {
        writer.any_line(random);
    }
    for _ in 0..12 {
        writer.any_small(random);
    }
    for _ in 0..6 {
        writer.any_window(random);
    }
}

/// A world on both sides, and what differs.
fn compared(random: &mut Random) -> (Writer, Option<String>) {
    let mut writer = Writer::default();
    writer.machine.quiet = true;
    let mut theirs = Machine::<Engine>::default();
    theirs.quiet = true;
    let found = Rc::new(RefCell::new(None));
    let told = found.clone();
    writer.observer = Some(Box::new(move |line, ours| {
        theirs.perform(line);
        if line[0] >= DEAL {
            if let Some(difference) = difference(ours, &theirs) {
                *told.borrow_mut() = Some(difference);
                // no panic, which would print where it was
                resume_unwind(Box::new(()));
            }
        }
    }));
    let ended = catch_unwind(AssertUnwindSafe(|| world(random, &mut writer)));
    let why = ended.err().map(|_| found.borrow().clone().unwrap_or("the reference stopped".to_string()));
    (writer, why)
}

fn main() -> ExitCode {
    let mut arguments = std::env::args().skip(1).map(|word| word.parse::<u64>().expect("a number"));
    let wanted = arguments.next().unwrap_or(100_000) as usize;
    let seed = arguments.next().unwrap_or(1);
    let mut tally = Tally::default();
    let mut number = 0;
    while tally.calls() < wanted {
        let mut random = Random(seed.wrapping_mul(1 << 32).wrapping_add(number));
        let (writer, difference) = compared(&mut random);
        if let Some(why) = difference {
            println!("world {number} of seed {seed}, {}: {why}", writer.name);
            std::fs::write("failed.script", &writer.script).expect("failed.script is written");
            return ExitCode::FAILURE;
        }
        number += 1;
        tally.add(&writer.tally);
    }
    let made = tally.calls();
    println!("{made} calls in {number} worlds of seed {seed}: no difference");
    print!("{}", reach::shown(&tally));
    let faults = if made < WHOLE { reach::strange(&tally) } else { reach::faults(&tally) };
    faults.iter().for_each(|fault| println!("in {made} calls {fault}"));
    if faults.is_empty() {
        ExitCode::SUCCESS
    } else {
        ExitCode::FAILURE
    }
}
