//! What a file of tapes holds, as a table of the headers: no word of a matrix is ever shown.

use std::path::Path;

use yuthsaok::{Pool, Shape, Status, Tape};

use crate::{tapes, Failure};

type Row = [String; 6];

pub fn table(path: &Path, slot_words: Option<usize>) -> Result<String, Failure> {
    let pool = tapes::read(path, slot_words).map_err(Failure::Failed)?;
    let head = ["slot", "number", "sort", "q", "sides", "status"].map(String::from);
    let rows: Vec<Row> = std::iter::once(head).chain(pool.tapes().map(row)).collect();
    let slots = if pool.slots() == 1 { "slot" } else { "slots" };
    let title = format!("{}: {} {slots} of {} words\n", path.display(), pool.slots(), pool.slot_words());
    Ok(title + &aligned(&rows) + &summary(&pool))
}

/// Of an empty slot nothing but its status means anything.
fn row(tape: Tape) -> Row {
    let (slot, status) = (tape.slot.to_string(), tape.status.to_string());
    let Some(shape) = tape.shape().filter(|_| tape.status != Status::Empty) else {
        let none = || String::from("-");
        return [slot, none(), none(), none(), none(), status];
    };
    let (sort, sides) = match shape {
        Shape::Product { m, k, p, .. } => ("product", format!("{m} by {k} by {p}")),
        Shape::System { n: 1, .. } => ("system", "1 unknown".into()),
        Shape::System { n, .. } => ("system", format!("{n} unknowns")),
        Shape::Determinant { n, .. } => ("determinant", format!("{n} by {n}")),
    };
    [slot, tape.number.to_string(), sort.into(), tape.q.to_string(), sides, status]
}

fn aligned(rows: &[Row]) -> String {
    let mut widths = [0; 6];
    for row in rows {
        widths.iter_mut().zip(row).for_each(|(width, cell)| *width = cell.len().max(*width));
    }
    let line = |row: &Row| row.iter().zip(widths).map(|(cell, width)| format!("{cell:width$}")).collect::<Vec<_>>().join("  ");
    rows.iter().map(|row| line(row).trim_end().to_string() + "\n").collect()
}

fn summary(pool: &Pool) -> String {
    let counts =
        [Status::Ready, Status::InUse, Status::Spent, Status::Empty].map(|status| format!("{} {status}", tapes::count(pool, status)));
    counts.join(", ") + "\n"
}
