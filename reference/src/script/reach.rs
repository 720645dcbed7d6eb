//! What each call can be answered by (RULES 8.3, 11.4, 11.5, 12.3): what a script or random calls should come to.

use super::tally::Tally;
use crate::faults::word;

/// The calls as the machine names them, and the words of their answers. Those of a determinant have `p = n` behind them.
const ANSWERS: &[(&str, &str)] = &[
    ("deal product", "accepted modulus size mark dry"),
    ("deal system", "accepted modulus composite size mark dry singular"),
    ("deal system, p = n", "accepted modulus composite size mark dry singular"),
    ("deal of no sort", "size"),
    ("first left", "accepted form modulus composite size turn mark stranger residue dry"),
    ("first right", "accepted modulus size turn mark stranger residue"),
    ("first blinder", "accepted form modulus composite size turn mark stranger residue dry singular"),
    ("first solver", "accepted modulus composite size turn mark stranger residue singular"),
    ("first blinder, p = n", "accepted form modulus composite size turn mark stranger residue dry singular"),
    ("first solver, p = n", "accepted modulus composite size turn mark stranger residue singular"),
    ("first of no end", "size"),
    ("next right last", "accepted form modulus composite size turn mark stranger residue"),
    ("next solver second", "accepted form modulus composite size turn mark stranger residue"),
    ("next solver last", "accepted form modulus composite size turn mark stranger residue singular"),
    ("next blinder second", "accepted form modulus composite size turn mark stranger residue"),
    ("next blinder last", "accepted form modulus composite size turn mark stranger residue"),
    ("next solver second, p = n", "accepted form modulus composite size turn mark stranger residue"),
    ("next solver last, p = n", "accepted form modulus composite size turn mark stranger residue"),
    ("next blinder second, p = n", "accepted form modulus composite size turn mark stranger residue"),
    ("next blinder last, p = n", "accepted form modulus composite size turn mark stranger residue singular"),
    ("next (closed)", "form modulus composite size turn"),
    ("next (no session)", "form modulus composite size turn"),
    ("drop right", "accepted modulus size mark stranger"),
    ("drop solver", "accepted modulus composite size mark stranger"),
    ("drop blinder", "accepted modulus composite size mark stranger"),
    ("drop solver, p = n", "accepted modulus composite size mark stranger"),
    ("drop blinder, p = n", "accepted modulus composite size mark stranger"),
    ("drop (closed)", "size turn"),
    ("drop (no session)", "size turn"),
    ("version", "accepted"),
    ("record_words", "accepted"),
    ("tape_words", "accepted zero"),
    ("scratch_words", "accepted zero"),
    ("line_bytes", "accepted zero"),
    ("coin_count", "accepted zero"),
    ("deal_count", "accepted zero"),
    ("is_prime", "accepted zero"),
    ("has_inverse", "accepted modulus composite size residue singular"),
    ("to_residue", "accepted modulus residue"),
    ("to_score", "accepted modulus residue"),
    ("refusal_word", "accepted zero"),
    ("window_share", "accepted modulus size residue"),
    ("next_window", "accepted modulus size residue"),
    ("flags_fit", "accepted size residue"),
];

/// The calls that are refused for a matrix without an inverse, and that matrix.
const MATRICES: &[(&str, &str)] = &[
    ("deal system", "Q"),
    ("first solver", "L"),
    ("first blinder", "M"),
    ("first blinder", "P"),
    ("next solver last", "W + V"),
    ("next blinder last, p = n", "kept P"),
    ("next blinder last, p = n", "dealt Q"),
    ("has_inverse", "the matrix"),
];

/// What is answered 0 in place of a size, or of a yes, and is no refusal, stands last.
fn columns() -> Vec<&'static str> {
    std::iter::once("accepted").chain((1..=10).map(word)).chain(["zero"]).collect()
}

fn can(answers: &str, word: &str) -> bool {
    answers.split(' ').any(|answer| answer == word)
}

fn sentence(call: &str, word: &str, end: &str) -> String {
    match word {
        "accepted" => format!("{call} was never accepted"),
        "zero" => format!("{call} never answered zero"),
        _ => format!("{call} was never refused as {word}{end}"),
    }
}

/// A sentence for each answer that can be given and was not, and for each that was given and cannot be.
pub fn faults(tally: &Tally) -> Vec<String> {
    let mut all = Vec::new();
    for (call, answers) in ANSWERS {
        let missing = answers.split(' ').filter(|word| !tally.answers.keys().any(|(name, seen)| name == call && seen == word));
        all.extend(missing.map(|word| sentence(call, word, "")));
    }
    let unseen = MATRICES.iter().filter(|(_, matrix)| !tally.matrices.contains_key(matrix));
    all.extend(unseen.map(|(call, matrix)| sentence(call, "singular", &format!(" for {matrix}"))));
    all.extend(strange(tally));
    all
}

/// A sentence for each answer that cannot be.
pub fn strange(tally: &Tally) -> Vec<String> {
    let known = |name: &str, word: &str| ANSWERS.iter().any(|(call, answers)| *call == name && can(answers, word));
    let all = tally.answers.keys().filter(|(name, word)| !known(name, word));
    all.map(|(name, word)| format!("{name} was answered by {word}, which the rules don't know of it")).collect()
}

/// A row for each call: how often it got each answer, and - where it cannot. Below, the matrices that had no inverse.
pub fn shown(tally: &Tally) -> String {
    let columns = columns();
    let cells = |(call, answers): &(&str, &str)| -> Vec<String> {
        let cell = |word: &&'static str| if can(answers, word) { tally.answered(call, word).to_string() } else { "-".to_string() };
        columns.iter().map(cell).collect()
    };
    let rows: Vec<(&str, Vec<String>)> = ANSWERS.iter().map(|row| (row.0, cells(row))).collect();
    let widths = |i: usize| rows.iter().map(|(_, cells)| cells[i].len()).max().unwrap_or(0).max(columns[i].len());
    let widths: Vec<usize> = (0..columns.len()).map(widths).collect();
    let first = ANSWERS.iter().map(|(call, _)| call.len()).max().unwrap_or(0);
    let line = |name: &str, cells: &[String]| {
        let cells: String = cells.iter().zip(&widths).map(|(cell, width)| format!("  {cell:>width$}")).collect();
        format!("{name:first$}{cells}\n")
    };
    let mut text = line("", &columns.iter().map(|word| word.to_string()).collect::<Vec<_>>());
    rows.iter().for_each(|(name, cells)| text += &line(name, cells));
    let count = |matrix: &str| tally.matrices.get(matrix).copied().unwrap_or(0);
    let matrices = ["Q", "L", "M", "P", "M and P", "W + V", "kept P", "dealt Q", "kept P and dealt Q"];
    let parts: Vec<String> = matrices.iter().map(|matrix| format!("{matrix} {}", count(matrix))).collect();
    text + &format!("singular, by matrix: {}\n", parts.join(", "))
}
