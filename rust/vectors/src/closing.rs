//! The closing program over `paper`: what it prints of all the bytes that it reads.

use paper::{Register, Sheet, REGISTER_ROOM, SHEET_ROOM, VERDICT_ROOM};

/// The report, or `refused` and the number.
pub fn run(input: &[u8]) -> String {
    report(input).unwrap_or_else(|n| format!("refused {n}\n"))
}

/// The first n bytes are taken from the front, or the input ends inside them and is refused.
fn take<'a>(input: &mut &'a [u8], n: usize, refusal: u32) -> Result<&'a [u8], u32> {
    let (front, rest) = input.split_at_checked(n).ok_or(refusal)?;
    *input = rest;
    Ok(front)
}

fn report(mut input: &[u8]) -> Result<String, u32> {
    let rows = input.get(4..8).ok_or(1u32)?;
    let rows = u32::from_le_bytes(rows.try_into().unwrap());
    let register = take(&mut input, if rows > 1024 { return Err(1) } else { 8 + 28 * rows as usize }, 1)?;
    Register::read(register).ok_or(1u32)?;
    let mut joined = next_sheet(&mut input)?;
    while !input.is_empty() {
        joined = paper::join(&joined, &next_sheet(&mut input)?, SHEET_ROOM)?;
    }
    closed(register, &joined)
}

/// A sheet's length follows from its set count and record counts.
fn next_sheet(input: &mut &[u8]) -> Result<Vec<u8>, u32> {
    let sets = usize::from(*input.get(7).ok_or(2u32)?);
    if sets > 64 {
        return Err(2);
    }
    let contents = input.get(..24 + 16 * sets).ok_or(2u32)?;
    let records: usize = contents[24..].chunks(16).map(|e| usize::from(u16::from_le_bytes([e[14], e[15]]))).sum();
    let sheet = take(input, 24 + 16 * sets + 16 * records, 2)?;
    Sheet::read(sheet).ok_or(2u32)?;
    Ok(sheet.to_vec())
}

fn closed(register: &[u8], sheet: &[u8]) -> Result<String, u32> {
    let closing = paper::close(register, sheet, REGISTER_ROOM, VERDICT_ROOM)?;
    let next = Register::read(&closing.register).unwrap();
    let mut text = format!("snapshot {} rows {}\n", next.snapshot, next.rows.len());
    let sets = Sheet::read(sheet).unwrap().offers.unwrap().sets;
    for (set, v) in sets.iter().zip(closing.verdicts.chunks(5)) {
        let word = ["commit", "lost", "unfit"][usize::from(v[0]) - 1];
        text += &format!("set {} {word} {}\n", set.csn, u32::from_le_bytes([v[1], v[2], v[3], v[4]]));
    }
    for (key, row) in &next.rows {
        text += &format!("row {key} {} {} {} {}\n", row.value, row.mark.cen, row.mark.sen, row.mark.csn);
    }
    Ok(text)
}
