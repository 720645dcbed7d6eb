//! Hostile records: any word in them changed, records of nothing that an engine wrote, and records handed to the wrong call.

use super::cases::plan;
use super::damage::{record, Damage};
use super::plan::{Plan, Step};
use super::random::Random;
use super::writer::Writer;
use crate::machine::*;
use crate::Terms;

pub fn records(writer: &mut Writer) {
    let random = &mut Random(11);
    let sorts = [(false, Terms::product(5, 9, 10, 2, 3, 2)), (true, Terms::system(5, 9, 7, 2)), (true, Terms::determinant(5, 9, 7, 2))];
    for (is_system, t) in sorts {
        let plan = plan(writer, random, is_system, t);
        for (stage, step) in plan.steps().iter().enumerate().skip(1) {
            anew(writer, &plan, stage);
            changed(writer, &plan, *step);
            cut(writer, &plan, *step);
            made_up(writer, random, &plan, *step);
            taken(writer, &plan, stage, *step);
        }
        for drop in plan.drops() {
            dropped(writer, &plan, *drop);
        }
    }
}

/// The slot dealt again, and all steps before a stage made.
fn anew(writer: &mut Writer, plan: &Plan, stage: usize) {
    writer.free(plan);
    for step in &plan.steps()[..stage] {
        assert_eq!(writer.right(plan, *step), 0);
    }
}

/// Every change of one word, handed to each call with a record, where it is refused.
fn changed(writer: &mut Writer, plan: &Plan, step: Step) {
    let Some(end) = step.end() else { return };
    for (i, value) in record(plan, end) {
        let poke = (RECORDS, plan.place(step) * PLACE + i, value);
        for call in [FIRST, NEXT, DROP] {
            let damage = Damage { call, pokes: vec![poke], ..Damage::none(call, plan.registers(step)) };
            if damage.is_refused(writer) {
                writer.damaged(&damage);
            }
        }
    }
}

/// Of a record of another length nothing is judged, also no modulus that is none.
fn cut(writer: &mut Writer, plan: &Plan, step: Step) {
    for (bytes, q) in [0, 32, 1119, 1121, 1124].into_iter().flat_map(|bytes| [(bytes, 1), (bytes, 6)]) {
        for call in [FIRST, NEXT, DROP] {
            let mut damage = Damage::none(call, plan.registers(step));
            damage.registers[12] = bytes;
            damage.pokes = vec![(RECORDS, plan.place(step) * PLACE + 3, q)];
            assert_ne!(writer.damaged(&damage), 0);
        }
    }
}

/// Records of any words, as they are and with an end and a kind that is due; what stood there is put back.
fn made_up(writer: &mut Writer, random: &mut Random, plan: &Plan, step: Step) {
    let at = plan.place(step) * PLACE;
    let old = writer.machine.words(RECORDS, at as u32, 280);
    let kept = [(0, 2), (1, 2), (2, 2), (3, 5), (3, 6), (4, 4)].map(|(end, due)| (Some(end), Some(due)));
    for (end, due) in [(None, None)].into_iter().chain(kept) {
        writer.say(&[1, RECORDS as u32, at as u32, 280, random.from(1, 60_000), 0]);
        for (i, value) in [(0, end), (7, due)] {
            if let Some(value) = value {
                writer.put(RECORDS, at + i, &[value]);
            }
        }
        for call in [FIRST, NEXT, DROP] {
            assert_ne!(writer.call(call, &plan.registers(step)), 0);
        }
    }
    writer.put(RECORDS, at, &old);
}

/// Words that no step looks at are no hindrance, and are gone afterwards: behind what is kept, and before a first step all but what is due.
fn taken(writer: &mut Writer, plan: &Plan, stage: usize, step: Step) {
    let (Some(end), at) = (step.end(), plan.place(step) * PLACE) else { return };
    let mut changes: Vec<Vec<(usize, u32)>> = record(plan, end).into_iter().filter(|(i, _)| *i >= 8).map(|change| vec![change]).collect();
    if step.call() == FIRST {
        changes = vec![(0..280).filter(|i| *i != 7).map(|i| (i, u32::MAX - i as u32)).collect()];
    }
    for change in changes {
        let pokes: Vec<(usize, usize, u32)> = change.into_iter().map(|(i, value)| (RECORDS, at + i, value)).collect();
        let damage = Damage { pokes, ..Damage::none(step.call(), plan.registers(step)) };
        if writer.tried(&damage).number == 0 {
            writer.damaged(&damage);
            anew(writer, plan, stage);
        }
    }
}

/// Drops of records with words behind those that are looked at, where they are taken.
fn dropped(writer: &mut Writer, plan: &Plan, drop: Step) {
    let Some(end) = drop.end() else { return };
    for (i, value) in record(plan, end).into_iter().filter(|(i, _)| *i >= 7) {
        anew(writer, plan, 3);
        let damage = Damage { pokes: vec![(RECORDS, plan.place(drop) * PLACE + i, value)], ..Damage::none(DROP, plan.registers(drop)) };
        writer.damaged(&damage);
    }
}
