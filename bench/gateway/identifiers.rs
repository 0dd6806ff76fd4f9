// Identifiers: a letter, and a number in eleven digits of base 62.

use crate::messages::{Partition, Text};

const DIGITS: [u8; 62] = *b"0123456789ABCDEFGHIJKLMNOPQRSTUVWXYZabcdefghijklmnopqrstuvwxyz";

/// What each byte is worth as a digit; 62 where it is none.
const WORTHS: [u8; 256] = worths();

const fn worths() -> [u8; 256] {
    let mut worths = [62; 256];
    let mut worth = 0;
    while worth < 62 {
        worths[DIGITS[worth] as usize] = worth as u8;
        worth += 1;
    }
    worths
}

/// The identifier of an order: `O` and its number.
pub fn order_id(number: u64) -> Text<12> {
    written(b'O', number)
}

/// The identifier of a report: `E`, its partition and its number there.
pub fn execution_id(partition: Partition, sequence: u32) -> Text<12> {
    written(b'E', u64::from(partition as u8) << 32 | u64::from(sequence))
}

/// The number of an order's identifier, if it is one of a number below 2^64.
pub fn order_number(id: &Text<12>) -> Option<u64> {
    let digits = id.strip_prefix(b"O")?;
    digits.iter().try_fold(0_u64, |number, &digit| {
        let worth = Some(WORTHS[usize::from(digit)]).filter(|worth| *worth < 62)?;
        number.checked_mul(62)?.checked_add(u64::from(worth))
    })
}

fn written(letter: u8, number: u64) -> Text<12> {
    let mut id = [b'0'; 12];
    id[0] = letter;
    let mut rest = number;
    let mut at = 11;
    while rest > 0 && at > 0 {
        id[at] = DIGITS[(rest % 62) as usize];
        rest /= 62;
        at -= 1;
    }
    id
}
