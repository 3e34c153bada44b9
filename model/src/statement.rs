//! The statement program of F-5, with the rate of F-8, as a function from its
//! standard input to its standard output.

use crate::layout::{read_u16, within};

/// F-5: "the number of days (2 bytes, 1 to 366)", then "2-byte values".
pub const MAX_DAYS: usize = 366;
const VALUE: usize = 2;

/// The program's refusals, which no call gives. F-5: "A list of the wrong length
/// or day count, or a day that has more rolled back than taken part, is refused
/// with 12, and a list in which nobody took part with 13".
pub const BAD_LIST: u8 = 12;
pub const NOBODY: u8 = 13;

/// Sessions taken part and sessions rolled back.
pub type Day = (u16, u16);

/// The input that gives a number of days, right or wrong, and then these days.
pub fn input(count: u16, days: &[Day]) -> Vec<u8> {
    let taken_part = days.iter().map(|day| day.0);
    let rolled_back = days.iter().map(|day| day.1);
    let values = [count].into_iter().chain(taken_part).chain(rolled_back);
    values.flat_map(u16::to_le_bytes).collect()
}

/// F-5: "A refused list prints its number alone."
pub fn statement(input: &[u8]) -> Vec<u8> {
    written(input)
        .unwrap_or_else(|refusal| format!("{refusal}\n"))
        .into_bytes()
}

/// The refusals "in that order", then the text.
fn written(input: &[u8]) -> Result<String, u8> {
    let days = days(input).ok_or(BAD_LIST)?;
    // F-5: "a day that has more rolled back than taken part"
    if days.iter().any(|day| day.1 > day.0) {
        return Err(BAD_LIST);
    }
    let taken_part: u64 = days.iter().map(|day| u64::from(day.0)).sum();
    let rolled_back: u64 = days.iter().map(|day| u64::from(day.1)).sum();
    if taken_part == 0 {
        return Err(NOBODY);
    }

    // F-5: "a line a day (day from 1, taken part, rolled back), then one line
    // with both sums and rolled back per thousand taken part"
    let mut text = String::new();
    for (number, day) in (1..).zip(&days) {
        text += &format!("{number} {} {}\n", day.0, day.1);
    }
    let rate = rate(taken_part, rolled_back);
    text += &format!("{taken_part} {rolled_back} {rate}\n");
    Ok(text)
}

/// The days of a list of the right length and day count. F-5: "then two parallel
/// arrays of 2-byte values, sessions taken part and sessions rolled back".
pub fn days(input: &[u8]) -> Option<Vec<Day>> {
    let (days, rest) = input.split_at_checked(VALUE)?;
    let days = within(read_u16(days).into(), MAX_DAYS)?;
    if rest.len() != 2 * VALUE * days {
        return None;
    }
    let (taken_part, rolled_back) = rest.split_at(VALUE * days);
    let pairs = taken_part.chunks(VALUE).zip(rolled_back.chunks(VALUE));
    Some(pairs.map(|(t, r)| (read_u16(t), read_u16(r))).collect())
}

/// F-5: "rolled back per thousand taken part". F-8: "rounded to the nearest whole,
/// a tie going to the even one". The exact rate is a fraction, and every whole
/// number is held against it over the same denominator, `taken_part`. Somebody
/// took part, and no more were rolled back, so none above 1000 is the nearest.
fn rate(taken_part: u64, rolled_back: u64) -> u64 {
    let distance = |whole: u64| (whole * taken_part).abs_diff(1000 * rolled_back);
    let nearest = (0..=1000).min_by_key(|&whole| (distance(whole), whole % 2));
    nearest.expect("a whole number")
}
