//! Signed scores.

use crate::faults::{LARGEST_MODULUS, MODULUS, RESIDUE};

fn modulus(q: u32) -> Result<i64, u32> {
    if (2..=LARGEST_MODULUS).contains(&q) {
        Ok(i64::from(q))
    } else {
        Err(MODULUS)
    }
}

pub fn to_residue(q: u32, score: i32) -> Result<u32, u32> {
    let (q, score) = (modulus(q)?, i64::from(score));
    if score < -((q - 1) / 2) || q / 2 < score {
        return Err(RESIDUE);
    }
    Ok(score.rem_euclid(q) as u32)
}

pub fn to_score(q: u32, residue: u32) -> Result<i32, u32> {
    let (q, residue) = (modulus(q)?, i64::from(residue));
    if q <= residue {
        return Err(RESIDUE);
    }
    Ok(if residue <= q / 2 { residue } else { residue - q } as i32)
}
