//! When an image is sound: a list of named rules, each with a predicate of its own.

use crate::sheet::{distance, Field, Sheet, TrailerField, LOG_BYTES, TRAILER_BYTES};
use crate::stages::LAST_STAGE;

/// One rule of a sound image.
///
/// A rule that can't be judged, because another one is broken that it rests on (there is no
/// trailer, or the trailer leads to no records), counts as kept. So an image can break exactly
/// one rule, and it is sound if and only if it breaks none.
#[derive(Clone, Copy, Debug)]
pub struct Rule {
    /// The rule in the paper's words.
    pub name: &'static str,
    /// Whether the image keeps it.
    pub kept: fn(&Sheet) -> bool,
}

const fn rule(name: &'static str, kept: fn(&Sheet) -> bool) -> Rule {
    Rule { name, kept }
}

/// The name of the rule on stages, which tells [`LAST_STAGE`].
pub const STAGE_RULE: &str = "stage is 0 to 19";

/// All rules of a sound image, in the paper's order.
pub const RULES: [Rule; 25] = [
    rule("the buffer holds a trailer", |sheet| sheet.has_trailer()),
    rule("the buffer holds all the trailer points back to", |sheet| {
        trailer(sheet, TrailerField::Distance, |back| {
            u64::from(back) + TRAILER_BYTES as u64 <= sheet.buffer_length() as u64
        })
    }),
    rule("edition is 1", |sheet| {
        trailer(sheet, TrailerField::Edition, |edition| edition == 1)
    }),
    rule("n is 1 to 64", |sheet| {
        trailer(sheet, TrailerField::N, |n| (1..=64).contains(&n))
    }),
    rule("trailer bytes 6 and 7 are zero", |sheet| {
        trailer(sheet, TrailerField::Zeros, |zeros| zeros == 0)
    }),
    rule("record byte 5 is zero", |sheet| {
        all(sheet, Field::Byte5, |byte| byte == 0)
    }),
    rule("record byte 15 is zero", |sheet| {
        all(sheet, Field::Byte15, |byte| byte == 0)
    }),
    rule("distance is 16n + 256", |sheet| {
        trailer(sheet, TrailerField::Distance, |back| {
            u64::from(back) == distance(sheet.n())
        })
    }),
    rule("log length is 0 to 256", |sheet| {
        trailer(sheet, TrailerField::LogLength, |length| length <= 256)
    }),
    rule("log entries are 1 to n", |sheet| {
        log_parts(sheet, |entries, _| {
            entries
                .iter()
                .all(|entry| (1..=sheet.n()).contains(&u32::from(*entry)))
        })
    }),
    rule("the rest of the log is 0", |sheet| {
        log_parts(sheet, |_, rest| rest.iter().all(|byte| *byte == 0))
    }),
    rule("w's pointer is 0 to n", |sheet| {
        all(sheet, Field::WPointer, |module| at_most_n(sheet, module))
    }),
    rule("the link's pointer is 0 to n", |sheet| {
        all(sheet, Field::LinkPointer, |module| at_most_n(sheet, module))
    }),
    rule("prev is 0 to n", |sheet| {
        all(sheet, Field::Prev, |module| at_most_n(sheet, module))
    }),
    rule("s is 0 to n", |sheet| {
        all(sheet, Field::S, |module| at_most_n(sheet, module))
    }),
    rule("the lock word is 0 to n", |sheet| {
        !sheet.has_body() || at_most_n(sheet, sheet.lock_word())
    }),
    rule("w's mark is 0 or 1", |sheet| {
        all(sheet, Field::WMark, |mark| mark <= 1)
    }),
    rule("the link's mark is 0 or 1", |sheet| {
        all(sheet, Field::LinkMark, |mark| mark <= 1)
    }),
    rule("Locked is 0 or 1", |sheet| {
        all(sheet, Field::Locked, |locked| locked <= 1)
    }),
    rule(STAGE_RULE, |sheet| {
        all(sheet, Field::Stage, |stage| stage <= LAST_STAGE)
    }),
    rule("own priority is 0 at stage 0", |sheet| {
        where_stage(
            sheet,
            |stage| stage == 0,
            Field::OwnPriority,
            |own| own == 0,
        )
    }),
    rule("own priority is 1 to 254 elsewhere", |sheet| {
        where_stage(
            sheet,
            |stage| stage != 0,
            Field::OwnPriority,
            |own| (1..=254).contains(&own),
        )
    }),
    rule("prev isn't 0 at stages 4 to 10", |sheet| {
        where_stage(
            sheet,
            |stage| (4..=10).contains(&stage),
            Field::Prev,
            |prev| prev != 0,
        )
    }),
    rule("w's pointer isn't 0 at stage 7", |sheet| {
        where_stage(
            sheet,
            |stage| stage == 7,
            Field::WPointer,
            |pointer| pointer != 0,
        )
    }),
    rule("s isn't 0 at stages 17 and 18", |sheet| {
        where_stage(
            sheet,
            |stage| stage == 17 || stage == 18,
            Field::S,
            |s| s != 0,
        )
    }),
];

/// The trailer's field fits, or there is no trailer to judge.
fn trailer(sheet: &Sheet, field: TrailerField, fits: impl Fn(u32) -> bool) -> bool {
    sheet.trailer(field).is_none_or(fits)
}

/// The field fits in every record.
fn all(sheet: &Sheet, field: Field, fits: impl Fn(u16) -> bool) -> bool {
    sheet.column(field).iter().all(|number| fits(*number))
}

/// The field fits in every record whose stage is meant.
fn where_stage(
    sheet: &Sheet,
    meant: impl Fn(u16) -> bool,
    field: Field,
    fits: impl Fn(u16) -> bool,
) -> bool {
    sheet
        .column(Field::Stage)
        .iter()
        .zip(sheet.column(field))
        .all(|(stage, number)| !meant(*stage) || fits(*number))
}

/// The log's entries and its rest fit, or there is no log or no length to judge by.
fn log_parts(sheet: &Sheet, fit: impl Fn(&[u8], &[u8]) -> bool) -> bool {
    if !sheet.has_body() || sheet.log_length() > LOG_BYTES {
        return true;
    }
    let (entries, rest) = sheet.log().split_at(sheet.log_length());
    fit(entries, rest)
}

fn at_most_n(sheet: &Sheet, module: u16) -> bool {
    u32::from(module) <= sheet.n()
}

/// The names of the rules that an image breaks, in the order of [`RULES`]; none if it is sound.
pub fn broken_rules(image: &[u8]) -> Vec<&'static str> {
    let sheet = Sheet::read(image);
    RULES
        .iter()
        .filter(|rule| !(rule.kept)(&sheet))
        .map(|rule| rule.name)
        .collect()
}

/// Whether an image is sound.
pub fn is_sound(image: &[u8]) -> bool {
    let sheet = Sheet::read(image);
    RULES.iter().all(|rule| (rule.kept)(&sheet))
}
