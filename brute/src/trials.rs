//! What the program `trials` has to print, from the sheets on its standard input.

use crate::listing;
use crate::stored::answer;

/// A sheet stands behind a line with its length in five places, the budget in ten, the rooms' length in five.
const LINE: usize = 23;
/// The program leaves further sheets unread.
const MOST: usize = 1000;

/// The output, or what is wrong with the input.
pub fn printed(input: &[u8]) -> Result<Vec<u8>, String> {
    let mut output = Vec::new();
    let mut rest = input;
    let mut sheets = 0;
    while !rest.is_empty() {
        sheets += 1;
        if sheets > MOST {
            return Err(format!("more than {MOST} sheets"));
        }
        let at = input.len() - rest.len();
        let (sheet, budget, room) = trial(&mut rest)
            .ok_or_else(|| format!("no line with a sheet behind it at byte {at}"))?;
        output.extend(printed_one(sheet, budget, room));
    }
    Ok(output)
}

/// Takes the next trial from the front.
fn trial<'a>(rest: &mut &'a [u8]) -> Option<(&'a [u8], u32, usize)> {
    let (line, behind) = rest.split_at_checked(LINE)?;
    if [line[5], line[16], line[22]] != *b"  \n" {
        return None;
    }
    let length = number(&line[..5])?;
    let budget = number(&line[6..16])?;
    let room = number(&line[17..22])?;
    let (sheet, behind) = behind.split_at_checked(length as usize)?;
    *rest = behind;
    Some((sheet, u32::try_from(budget).ok()?, room as usize))
}

fn number(digits: &[u8]) -> Option<u64> {
    std::str::from_utf8(digits).ok()?.parse().ok()
}

/// What the first call hands back, the length of the second call's part, four counts of bytes that are not as
/// they should be, and the listing.
fn printed_one(sheet: &[u8], budget: u32, room: usize) -> Vec<u8> {
    let (handed, listing) = match answer(sheet, budget, room) {
        Err(refusal) => (
            format!("refused {} {}", refusal.number, refusal.line),
            Vec::new(),
        ),
        Ok((problem, ended)) => (
            format!(
                "answered {}",
                ended.values().map(|v| v.to_string()).join(" ")
            ),
            listing::write(&ended, &problem),
        ),
    };
    let line = format!("{handed} part {} unlike 0 0 0 0\n", listing.len());
    [line.into_bytes(), listing].concat()
}
