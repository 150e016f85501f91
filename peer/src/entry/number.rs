//! Numbers as they are written, exactly: -3, .5, 1.25e2. None is rounded here.

use super::cursor::{refuse, Cursor, Refusal};

/// A count of parts, `ONE` of which make 1.
pub type Exact = i128;

const MOST_DECIMALS: i64 = 20;
pub const ONE: Exact = 10_i128.pow(MOST_DECIMALS as u32);

/// How many digits a number has before its point: far more than a coordinate in range. A hundred
/// such numbers and a scale of seven digits still fit an `Exact`.
const MOST_DIGITS: i64 = 9;

/// Units of length. No path goes on so after a number.
const UNITS: [&str; 10] = ["px", "pt", "pc", "mm", "cm", "in", "em", "ex", "rem", "%"];

/// Whether a number may begin with the symbol.
pub fn begins(symbol: char) -> bool {
    symbol.is_ascii_digit() || ['+', '-', '.'].contains(&symbol)
}

/// Takes a number; what follows it is left to the caller.
pub fn number(cursor: &mut Cursor) -> Result<Exact, Refusal> {
    let start = cursor.clone();
    let negative = cursor.eat("-");
    if !negative {
        cursor.eat("+");
    }
    let whole = digits(cursor);
    let pointed = cursor.eat(".");
    let parts = if pointed { digits(cursor) } else { "" };
    if (whole.is_empty() && parts.is_empty()) || (pointed && parts.is_empty()) {
        return refuse(start.at, format!("{} is no number", start.quoted()));
    }
    let power = power(cursor).saturating_sub(parts.len() as i64);
    if UNITS.iter().any(|unit| cursor.clone().eat(unit)) {
        return refuse(start.at, format!("{} has a unit: plain numbers only", start.quoted()));
    }
    match value(&format!("{whole}{parts}"), power) {
        Ok(size) => Ok(if negative { -size } else { size }),
        Err(reason) => refuse(start.at, format!("{} {reason}", start.quoted())),
    }
}

fn digits<'a>(cursor: &mut Cursor<'a>) -> &'a str {
    cursor.take(|symbol| symbol.is_ascii_digit())
}

/// Takes the power of ten after an e, if there is one: an e alone belongs to what follows.
fn power(cursor: &mut Cursor) -> i64 {
    let before = cursor.at;
    if !cursor.eat("e") && !cursor.eat("E") {
        return 0;
    }
    let negative = cursor.eat("-");
    if !negative {
        cursor.eat("+");
    }
    let size = digits(cursor);
    if size.is_empty() {
        cursor.at = before;
        return 0;
    }
    let size = size.parse().unwrap_or(i64::from(i32::MAX)).min(i64::from(i32::MAX));
    if negative {
        -size
    } else {
        size
    }
}

/// The digits times a power of ten.
fn value(digits: &str, power: i64) -> Result<Exact, &'static str> {
    let short = digits.trim_end_matches('0');
    let power = power + (digits.len() - short.len()) as i64;
    let short = short.trim_start_matches('0');
    if short.is_empty() {
        return Ok(0);
    }
    if short.len() as i64 + power > MOST_DIGITS {
        return Err("is too large");
    }
    if power < -MOST_DECIMALS {
        return Err("has more than 20 decimals");
    }
    let size: Exact = short.parse().map_err(|_| "is too long")?;
    Ok(size * 10_i128.pow((power + MOST_DECIMALS) as u32))
}

/// The number in decimals.
pub fn told(number: Exact) -> String {
    let sign = if number < 0 { "-" } else { "" };
    let (whole, parts) = (number.abs() / ONE, number.abs() % ONE);
    let text = format!("{sign}{whole}.{parts:020}");
    text.trim_end_matches('0').trim_end_matches('.').to_string()
}
