//! 'Read check'.

use crate::register::Register;
use crate::Refusal;

/// All 0 at a pass; else the first failing entry's index, key and reason.
#[derive(Clone, Copy, Debug, Default, PartialEq, Eq)]
pub struct Finding {
    pub index: u32,
    pub key: u32,
    pub reason: u32,
}

pub fn check(register: &[u8], mode: u8, lsn: u32, keys: &[u32], csns: &[u64]) -> Result<Finding, Refusal> {
    let register = Register::read(register).ok_or(1u32)?;
    let bad = !(1..=3).contains(&mode) || keys.len() != csns.len() || keys.len() > 32 || keys.contains(&0) || lsn > register.snapshot;
    if bad {
        return Err(10);
    }
    for (i, (key, csn)) in keys.iter().zip(csns).enumerate() {
        let reason = match (mode, register.rows.get(key)) {
            (1, _) => 0,
            (_, None) => 1,
            (2, Some(row)) => if row.mark.csn != *csn { 2 } else { 0 },
            (_, Some(row)) => if i64::from(row.mark.cen) - 1 > i64::from(lsn) { 3 } else { 0 },
        };
        if reason != 0 {
            return Ok(Finding { index: i as u32, key: *key, reason });
        }
    }
    Ok(Finding::default())
}
