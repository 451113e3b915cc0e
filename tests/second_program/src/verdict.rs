//! The verdict: calendar, reading, sheet and gate, and whether a cartridge may be dosed now.

use crate::calls::{valid_key, Outcome};

/// What a verdict is asked on, in the numbers of the call for firmware.
#[derive(Clone, Debug)]
pub struct Question {
    pub label: Vec<u8>,
    pub year: u32,
    pub month: u32,
    pub day: u32,
    pub unit: u32,
    pub degrees: f32,
    pub kind: u32,
    pub low: f32,
    pub high: f32,
    pub section: f32,
    pub length: f32,
}

/// The numbers of the units.
pub const CELSIUS: u32 = 1;
pub const FAHRENHEIT: u32 = 2;

/// The numbers of the gate kinds; "at least" uses the low limit.
pub const GATE_ANY: u32 = 1;
pub const GATE_AT_LEAST: u32 = 2;
pub const GATE_BETWEEN: u32 = 3;

/// The verdict on the value that a sound block holds for the label; a dose goes with answer 0 alone.
pub fn verdict(held: Option<u32>, question: &Question) -> Outcome {
    if !valid_key(&question.label) {
        return Outcome::bare(3);
    }
    if !valid_sheet(question) {
        return Outcome::bare(8);
    }
    let Some(degrees) = celsius(question.unit, question.degrees) else {
        return Outcome::bare(9);
    };
    let Some(today) = day_number(question.year, question.month, question.day) else {
        return Outcome::bare(10);
    };
    let Some(value) = held else {
        return Outcome::bare(11);
    };
    let Some(expiry) = day_number(value / 512, value / 32 % 16, value % 32) else {
        return Outcome::bare(12);
    };
    if today > expiry {
        return Outcome::bare(13);
    }
    if !gate_lets_through(question, degrees) {
        return Outcome::bare(14);
    }
    let dose = rounded(question.section, question.length, |section, length| section * length);
    let dose = rounded(dose, 1000.0, |volume, scale| volume / scale);
    Outcome { dose: dose.to_bits(), ..Outcome::bare(0) }
}

/// One operation in double precision rounded once to single: for these four operations that is the single result.
pub fn rounded(left: f32, right: f32, operation: impl Fn(f64, f64) -> f64) -> f32 {
    operation(f64::from(left), f64::from(right)) as f32
}

/// Whether a number lies in a range with its bounds; what is not a number never does.
fn inside(number: f32, low: f32, high: f32) -> bool {
    low <= number && number <= high
}

/// Whether the sheet is valid; a limit that the gate does not use is not judged.
fn valid_sheet(question: &Question) -> bool {
    let valid_limit = |limit: f32| inside(limit, -100.0, 400.0);
    let valid_gate = match question.kind {
        GATE_ANY => true,
        GATE_AT_LEAST => valid_limit(question.low),
        GATE_BETWEEN => valid_limit(question.low) && valid_limit(question.high) && question.low <= question.high,
        _ => false,
    };
    valid_gate && inside(question.section, 0.5, 100.0) && inside(question.length, 1.0, 10_000.0)
}

/// A valid reading in Celsius; it is judged in its own unit, before it is converted.
pub fn celsius(unit: u32, degrees: f32) -> Option<f32> {
    if !inside(degrees, -100.0, 400.0) {
        return None;
    }
    match unit {
        CELSIUS => Some(degrees),
        FAHRENHEIT => {
            let above_freezing = rounded(degrees, 32.0, |degrees, freezing| degrees - freezing);
            let fivefold = rounded(above_freezing, 5.0, |degrees, factor| degrees * factor);
            Some(rounded(fivefold, 9.0, |degrees, factor| degrees / factor))
        }
        _ => None,
    }
}

/// Whether a valid gate lets a reading through.
fn gate_lets_through(question: &Question, degrees: f32) -> bool {
    match question.kind {
        GATE_AT_LEAST => degrees >= question.low,
        GATE_BETWEEN => inside(degrees, question.low, question.high),
        _ => true,
    }
}

/// The years with 29 days in February: those that 4 divides, but of the century years only those that 400 divides.
fn is_leap(year: u32) -> bool {
    year % 4 == 0 && (year % 100 != 0 || year % 400 == 0)
}

/// The days of a month; a number that is no month has none.
pub fn days_in_month(year: u32, month: u32) -> u32 {
    match month {
        1 | 3 | 5 | 7 | 8 | 10 | 12 => 31,
        4 | 6 | 9 | 11 => 30,
        2 if is_leap(year) => 29,
        2 => 28,
        _ => 0,
    }
}

/// The days from 1 January 2000 to a date of 2000 to 2199; nothing for what is no date.
pub fn day_number(year: u32, month: u32, day: u32) -> Option<u32> {
    if !(2000..=2199).contains(&year) || !(1..=days_in_month(year, month)).contains(&day) {
        return None;
    }
    let of_years: u32 = (2000..year).map(|year| if is_leap(year) { 366 } else { 365 }).sum();
    let of_months: u32 = (1..month).map(|month| days_in_month(year, month)).sum();
    Some(of_years + of_months + day - 1)
}
