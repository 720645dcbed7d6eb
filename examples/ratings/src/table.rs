//! What the two makers have agreed on, and a maker's table.

use std::path::Path;

use yuthsaok::{has_inverse, to_residue, to_score, Refusal, Shape};

use crate::Result;

/// The classes of puzzles, in the order of rows and columns.
pub const CLASSES: [&str; 3] = ["mini crossword", "sudoku", "word ladder"];

/// The largest prime that the engine takes.
pub const Q: u32 = 2_147_483_647;

/// A system of one unknown for each class.
pub const SHAPE: Shape = Shape::System { q: Q, n: CLASSES.len() as u32 };

/// Both right-hand sides are multiplied by this, and so is the answer: ratings are whole tenths of a minute.
const SCALE: i32 = 10;

/// No rating is farther from par than a day. A fraction of a tenth looks like any number up to q, and mostly like a
/// larger one.
const MOST: i32 = 24 * 60 * SCALE;

/// A maker's input, as residues.
pub struct Table {
    /// L or M, row by row. It has an inverse.
    pub matrix: Vec<u32>,
    /// x or y, scaled.
    pub vector: Vec<u32>,
}

impl Table {
    /// Reads a table: the rows, and then the right-hand side; a # begins a comment.
    pub fn read(path: &Path) -> Result<Table> {
        let text = std::fs::read_to_string(path).map_err(|error| format!("{}: {error}", path.display()))?;
        Table::parse(&text).map_err(|fault| format!("{}: {fault}", path.display()).into())
    }

    fn parse(text: &str) -> Result<Table> {
        let n = CLASSES.len();
        let mut rows = Vec::new();
        for line in text.lines() {
            let words: Vec<&str> = line.split('#').next().unwrap_or("").split_whitespace().collect();
            if !words.is_empty() {
                rows.push(words.into_iter().map(number).collect::<Result<Vec<i32>>>()?);
            }
        }
        if rows.len() != n + 1 || rows.iter().any(|row| row.len() != n) {
            return Err(format!("a table has {n} rows of {n} numbers, and the right-hand side in one more row").into());
        }
        let vector = rows.pop().unwrap_or_default().into_iter().map(scaled).collect::<Result<Vec<u32>>>()?;
        let matrix = rows.concat().into_iter().map(residue).collect::<Result<Vec<u32>>>()?;
        match has_inverse(Q, n as u32, &matrix) {
            Ok(()) => Ok(Table { matrix, vector }),
            Err(Refusal::Singular) => Err("this table has no inverse: let each diagonal outweigh its row".into()),
            Err(refusal) => Err(refusal.into()),
        }
    }
}

fn number(word: &str) -> Result<i32> {
    word.parse().map_err(|_| format!("{word} is no whole number of 32 bits").into())
}

fn residue(number: i32) -> Result<u32> {
    to_residue(Q, number).map_err(|_| format!("{number} is too far from 0").into())
}

fn scaled(minutes: i32) -> Result<u32> {
    residue(minutes.checked_mul(SCALE).ok_or_else(|| format!("{minutes} minutes are too many"))?)
}

/// The sentence that tells the ratings.
pub fn sentence(z: &[u32]) -> Result<String> {
    let scores = z.iter().map(|residue| to_score(Q, *residue)).collect::<std::result::Result<Vec<i32>, Refusal>>()?;
    if scores.iter().any(|score| score.abs() > MOST) {
        return Err(format!("the ratings are no whole numbers at scale {SCALE}: agree on another").into());
    }
    let ratings: Vec<String> = CLASSES.iter().zip(scores).map(|(class, score)| format!("{class} {score}")).collect();
    Ok(format!("ratings: {} (tenths of a minute from par)", ratings.join(", ")))
}
