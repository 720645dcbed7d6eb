//! The parts of the stored script, one after the other on one machine.

use super::damage::{single, Damage};
use super::dealings::dealings;
use super::determinants::determinants;
use super::driver::Habit;
use super::lines::lines;
use super::plan::{matrix_seed, tape_size, Layout, Plan, Step};
use super::random::Random;
use super::records::records;
use super::small::small;
use super::windows::windows;
use super::writer::Writer;
use crate::faults::SINGULAR;
use crate::machine::*;
use crate::Terms;

/// Slots that fit a tape exactly, and words behind the last.
pub fn layout(is_system: bool, t: &Terms) -> Layout {
    Layout { size: tape_size(is_system, t), slots: 2, tail: 3 }
}

/// A plan in the second slot, which shows every sum.
pub fn plan(writer: &mut Writer, random: &mut Random, is_system: bool, t: Terms) -> Plan {
    let layout = layout(is_system, &t);
    writer.lay(random, layout);
    loop {
        let plan = Plan::new(random, is_system, t, layout, 1, 0).expect("seeds");
        if plan.is_answered() {
            writer.free(&plan);
            return Plan { detail: 1, generous: false, ..plan };
        }
    }
}

pub fn whole(writer: &mut Writer, plan: &Plan) {
    for step in plan.steps() {
        assert_eq!(writer.right(plan, *step), 0);
    }
}

/// Every call of a plan, each after all that one change makes of it and is refused; and once more, when all of it is over.
pub fn refusals(writer: &mut Writer, random: &mut Random, plan: &Plan) {
    for step in plan.steps() {
        refused(writer, plan, *step);
        pairs(writer, random, plan, *step);
        assert_eq!(writer.right(plan, *step), 0);
    }
    for step in &plan.steps()[1..] {
        writer.right(plan, *step);
    }
}

fn refused(writer: &mut Writer, plan: &Plan, step: Step) {
    for damage in single(plan, step, writer) {
        if damage.is_refused(writer) {
            writer.damaged(&damage);
        }
    }
}

/// Two changes at once: the lower number counts.
fn pairs(writer: &mut Writer, random: &mut Random, plan: &Plan, step: Step) {
    let all = single(plan, step, writer);
    for _ in 0..25 {
        let (one, two) = (random.one_of(&all), random.one_of(&all));
        let both = one.and(two, &plan.registers(step));
        if one.call == two.call && both.is_refused(writer) {
            writer.damaged(&both);
        }
    }
}

/// The state, printed: the slots' words, scratch, records, the message at its place and the result.
fn print(writer: &mut Writer, plan: &Plan) {
    let (size, lent) = (plan.layout.size, plan.layout.words());
    for pool in [ONE, TWO] {
        writer.print(pool, size, lent - size);
    }
    writer.print(SCRATCHES, 600 * plan.index, 4);
    writer.print(RECORDS, plan.index * PLACE, 10);
    writer.print(RECORDS, (4 + plan.index) * PLACE, 10);
    writer.print(RECORDS, (4 + plan.index) * PLACE + 264, 2);
    writer.say(&[8, plan.index as u32]);
    writer.print(RESULT, 0, 2);
}

/// What a call of a run is handed: raw words and an input.
pub type Given<'a> = (&'a [u32], &'a [u32]);

/// A run with these inputs, and everything printed after each call.
pub fn printed_run(
    writer: &mut Writer,
    random: &mut Random,
    is_system: bool,
    terms: Terms,
    counts: (u32, u32),
    given: &[Given],
) -> Vec<u32> {
    let layout = layout(is_system, &terms);
    writer.lay(random, layout);
    let (dealer, coins) = ((0, counts.0), (0, counts.1));
    let plan = Plan { is_system, terms, layout, index: 1, pool: 0, generous: true, detail: 1, dealer, coins, inputs: [(0, 0), (0, 0)] };
    writer.free(&plan);
    let mut answers = Vec::new();
    for (step, (raw, input)) in plan.steps().iter().zip(given) {
        writer.put(RAW, 0, raw);
        writer.put(INPUT, 0, input);
        answers.push(writer.right(&plan, *step));
        print(writer, &plan);
    }
    answers
}

/// The product of RULES 9.3.
fn product_run(writer: &mut Writer, random: &mut Random) -> Vec<u32> {
    let given: [Given; 4] = [(&[1, 4, 6, 3, 2], &[]), (&[], &[2, 6]), (&[5], &[3, 5]), (&[], &[])];
    printed_run(writer, random, false, Terms::product(9, 4, 7, 1, 2, 1), (5, 1), &given)
}

/// The system of RULES 9.3, with this M.
fn system_run(writer: &mut Writer, random: &mut Random, m: u32) -> Vec<u32> {
    let none: Given = (&[], &[]);
    let given = [(&[1, 4, 2, 0, 3, 3, 2, 1][..], &[][..]), (&[], &[2, 3]), (&[2, 1, 2], &[m, 1]), none, none, none, none];
    printed_run(writer, random, true, Terms::system(9, 4, 5, 1), (8, 3), &given)
}

/// Singular matrices: the dealer's Q, the solver's L, the blinder's M and P.
pub fn singular(writer: &mut Writer, random: &mut Random, plan: &Plan) {
    let (q, n) = (plan.terms.q, plan.terms.rows());
    for step in plan.steps() {
        let r = plan.registers(*step);
        if r[22] != 0 {
            let mut with = r;
            with[22] = matrix_seed(random, q, n, false).expect("a seed");
            assert_eq!(writer.call(step.call(), &with), SINGULAR);
        }
        if r[26] != 0 {
            let mut damage = Damage::none(step.call(), r);
            damage.registers[27] = 4 * 9000;
            while writer.tried(&damage).number != SINGULAR {
                damage.registers[26] = random.from(1, 60_000);
            }
            writer.damaged(&damage);
        }
        writer.right(plan, *step);
    }
}

/// A system whose L and M have inverses, and their sum has none: M is −L. With no room for a line its last step answers the same.
fn singular_sum(writer: &mut Writer, random: &mut Random, t: Terms, line_room: u32) {
    let layout = layout(true, &t);
    writer.lay(random, layout);
    let plan = Plan { detail: 1, ..Plan::new(random, true, t, layout, 1, 0).expect("seeds") };
    let l = seeded(plan.inputs[0].0, t.q, t.rows() * t.rows());
    let minus: Vec<u32> = l.iter().map(|x| (t.q - x) % t.q).collect();
    for step in plan.steps() {
        let mut r = plan.registers(*step);
        if *step == Step::BlinderFirst {
            writer.put(INPUT, 0, &minus);
            r[22] = 0;
        }
        if *step == Step::SolverLast {
            // what is refused before leaves all as it is
            for (register, more) in [(20, 1), (1, 3), (12, 4)] {
                let mut odd = r;
                odd[register] += more;
                odd[2] += odd[1] - r[1];
                assert_eq!(writer.call(NEXT, &odd), 4);
            }
            r[19] = line_room;
        }
        let answer = writer.call(step.call(), &r);
        assert_eq!(answer, [0, SINGULAR, 5][(*step == Step::SolverLast) as usize + 2 * (*step == Step::BlinderLast) as usize]);
    }
    for step in &plan.steps()[1..] {
        writer.right(&plan, *step);
    }
    writer.free(&plan);
}

/// Products: the run of RULES 9.3, the largest sides and moduli, and every refusal at every step.
fn products(writer: &mut Writer) {
    let random = &mut Random(7);
    assert_eq!(product_run(writer, random), [0; 4]);
    for t in [Terms::product(7, 1, 2_147_483_647, 32, 64, 32), Terms::product(7, 2, 6, 1, 1, 1), Terms::product(7, 3, 2, 3, 2, 2)] {
        let plan = plan(writer, random, false, t);
        whole(writer, &plan);
    }
    // of 1 by 2 by 2 the messages of both kinds are of one length
    for t in [Terms::product(3, 4, 10, 2, 3, 2), Terms::product(3, 5, 9, 1, 2, 2)] {
        let plan = plan(writer, random, false, t);
        refusals(writer, random, &plan);
    }
}

/// Systems: the run of RULES 9.3, the largest, the smallest, and every refusal at every step.
fn systems(writer: &mut Writer) {
    let random = &mut Random(8);
    assert_eq!(system_run(writer, random, 1), [0; 7]);
    assert_eq!(system_run(writer, random, 3)[5], 10);
    for t in [Terms::system(7, 1, 2_147_483_647, 16), Terms::system(7, 2, 3, 1), Terms::system(7, 3, 2, 16)] {
        let plan = plan(writer, random, true, t);
        whole(writer, &plan);
    }
    // modulo 2 a sum of two units is 0
    singular_sum(writer, random, Terms::system(7, 4, 2, 1), LINE_ROOM as u32);
    let plan_two = plan(writer, random, true, Terms::system(3, 5, 7, 2));
    refusals(writer, random, &plan_two);
    let plan_three = plan(writer, random, true, Terms::system(3, 6, 3, 3));
    singular(writer, random, &plan_three);
    singular_sum(writer, random, Terms::system(11, 12, 2_147_483_647, 4), 0);
}

/// Drops at every stage, each after all that one change makes of it and is refused; then the slot is dealt anew.
fn drops(writer: &mut Writer) {
    let random = &mut Random(9);
    let sorts = [(false, Terms::product(5, 8, 10, 2, 3, 2)), (true, Terms::system(5, 8, 7, 2)), (true, Terms::determinant(5, 8, 7, 2))];
    for (is_system, t) in sorts {
        let plan = plan(writer, random, is_system, t);
        for stage in 0..=plan.steps().len() {
            for step in &plan.steps()[..stage] {
                writer.right(&plan, *step);
            }
            for drop in plan.drops() {
                refused(writer, &plan, *drop);
                writer.right(&plan, *drop);
                writer.right(&plan, *drop);
            }
            for step in plan.steps() {
                writer.right(&plan, *step);
            }
            for step in &plan.steps()[1..] {
                writer.right(&plan, *step);
            }
            writer.free(&plan);
        }
        whole(writer, &plan);
    }
}

/// The runs of RULES 9.3 that are executed: the longest inner side and one more, the most unknowns and one more.
fn bounds(writer: &mut Writer, random: &mut Random) {
    let size = 4200;
    let most = [
        (false, Terms::product(1, 1, 7, 1, 2048, 1), 9),
        (true, Terms::system(1, 2, 7, 16), 8),
        (true, Terms::determinant(1, 3, 7, 16), 8),
    ];
    for (is_system, t, more) in most {
        let layout = Layout { size, slots: 2, tail: 0 };
        writer.lay(random, layout);
        let plan = Plan { detail: 1, ..Plan::new(random, is_system, t, layout, 0, 0).expect("seeds") };
        writer.free(&plan);
        for step in plan.steps() {
            // a later step is told no sides
            if matches!(step.call(), DEAL | FIRST) {
                let mut past = plan.registers(*step);
                past[more] += 1;
                if is_system {
                    past[9] += 1;
                    past[10] += 1;
                }
                assert_eq!(writer.call(step.call(), &past), 4);
            }
            writer.right(&plan, *step);
        }
    }
}

/// The runs of RULES 9.3 that are executed, and a thousand sessions.
fn sessions(writer: &mut Writer) {
    let random = &mut Random(10);
    let habit = Habit { damaged: 4, taken: 12, dropped: 12, singular: 0, stray: 0 };
    bounds(writer, random);
    for block in 0..100 {
        writer.sessions(random, habit, 10, block % 8 == 0, 0);
    }
}

/// Small entries and dealings at their edges; lines, valid and damaged; products, systems and determinants with every refusal of their
/// steps; drops; hostile records; a thousand sessions; windows of days.
pub fn all() -> Writer {
    let mut writer = Writer::default();
    small(&mut writer);
    dealings(&mut writer);
    lines(&mut writer);
    products(&mut writer);
    systems(&mut writer);
    determinants(&mut writer);
    drops(&mut writer);
    records(&mut writer);
    sessions(&mut writer);
    windows(&mut writer);
    writer
}
