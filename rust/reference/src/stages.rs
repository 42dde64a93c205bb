//! The stage table as data, and the small evaluator that carries out a row of it.

use crate::sheet::{Field, Sheet, TrailerField};

/// Whose record is meant.
#[derive(Clone, Copy, PartialEq, Eq, Debug)]
pub enum Whose {
    /// The stepping module's own.
    Own,
    /// That of the module *prev*.
    Prev,
    /// That of the module that *w*'s pointer names.
    WPointer,
    /// That of the successor *s*.
    S,
}

/// A number that a row reads.
#[derive(Clone, Copy, PartialEq, Eq, Debug)]
pub enum Value {
    /// This number; nil is 0.
    Number(u16),
    /// The stepping module.
    ThisModule,
    /// The lock word.
    LockWord,
    /// The stepping module's own priority, which is private to it.
    OwnPriority,
    /// The pointer of *w*.
    WPointer,
    /// *s*.
    S,
    /// The pointer of the module's own link.
    OwnLinkPointer,
    /// The record priority of somebody's record.
    RecordPriority(Whose),
    /// Locked of somebody's record.
    Locked(Whose),
}

/// Nil in every pointer.
const NIL: Value = Value::Number(0);

/// A number that a row writes.
#[derive(Clone, Copy, PartialEq, Eq, Debug)]
pub enum Place {
    /// The lock word.
    LockWord,
    /// The stepping module's own priority.
    OwnPriority,
    /// *prev*.
    Prev,
    /// *s*.
    S,
    /// The record priority of somebody's record.
    RecordPriority(Whose),
    /// Locked of somebody's record.
    Locked(Whose),
}

/// When a row applies, given that no earlier row of its stage does.
#[derive(Clone, Copy, PartialEq, Eq, Debug)]
pub enum When {
    /// The stage's only row.
    Always,
    /// Where no earlier row of the stage applies.
    Else,
    /// The first number is the second.
    Is(Value, Value),
    /// The first number is below the second.
    Below(Value, Value),
    /// Somebody's link is closed.
    LinkClosed(Whose),
    /// Somebody's link equals *w* in all three parts.
    LinkIsW(Whose),
}

/// What a row does.
#[derive(Clone, Copy, PartialEq, Eq, Debug)]
pub enum Act {
    /// The place := the number.
    Set(Place, Value),
    /// *w* := somebody's link.
    SetW(Whose),
    /// Somebody's link: point to the number, the mark stays.
    Point(Whose, Value),
    /// Open somebody's link.
    Open(Whose),
    /// Close somebody's link.
    Close(Whose),
    /// Swap somebody's link, expecting *w*, to the number.
    Swap(Whose, Value),
    /// Log the admission of the stepping module.
    LogAdmission,
}

/// One outcome of one stage.
#[derive(Clone, Copy, PartialEq, Eq, Debug)]
pub struct Row {
    /// The stage.
    pub stage: u16,
    /// The row in the paper's words.
    pub name: &'static str,
    /// When it applies.
    pub when: When,
    /// What it does.
    pub does: &'static [Act],
    /// The next stage.
    pub next: u16,
    /// The answer number.
    pub answer: u8,
}

impl Row {
    /// Whether the row admits the module, so that the log must have room.
    pub fn admits(&self) -> bool {
        self.does.contains(&Act::LogAdmission)
    }
}

const fn row(
    stage: u16,
    name: &'static str,
    when: When,
    does: &'static [Act],
    next: u16,
    answer: u8,
) -> Row {
    Row {
        stage,
        name,
        when,
        does,
        next,
        answer,
    }
}

/// The last stage: 18 in document 01, 19 since R-1.
pub const LAST_STAGE: u16 = 19;

const DONE: u8 = 0;
const WAITING: u8 = 1;
const ADMITTED: u8 = 2;
const JOINED: u8 = 3;
const LEFT: u8 = 4;
const RELEASE_FINISHED: u8 = 5;

/// The stage table: every outcome of every stage, in the papers' order. Stages 0 and 13 have no
/// step and so no row. Stage 19, which follows a success at stage 2, is R-1's.
///
/// All rows look at the table as it was before the step. A link *found* at stage 9 is prev's link.
pub const STAGE_TABLE: [Row; 28] = [
    row(
        1,
        "1: own link's pointer := nil, mark stays",
        When::Always,
        &[Act::Point(Whose::Own, NIL)],
        2,
        DONE,
    ),
    row(
        2,
        "2: lock word 0: it becomes this module",
        When::Is(Value::LockWord, NIL),
        &[Act::Set(Place::LockWord, Value::ThisModule)],
        19,
        JOINED,
    ),
    row(
        2,
        "2: else prev := lock word",
        When::Else,
        &[Act::Set(Place::Prev, Value::LockWord)],
        4,
        DONE,
    ),
    row(
        3,
        "3: open own link, log admission",
        When::Always,
        &[Act::Open(Whose::Own), Act::LogAdmission],
        13,
        ADMITTED,
    ),
    row(
        4,
        "4: own Locked := 1",
        When::Always,
        &[Act::Set(Place::Locked(Whose::Own), Value::Number(1))],
        5,
        DONE,
    ),
    row(
        5,
        "5: w := prev's link. Closed",
        When::LinkClosed(Whose::Prev),
        &[Act::SetW(Whose::Prev)],
        1,
        DONE,
    ),
    row(
        5,
        "5: w := prev's link. open",
        When::Else,
        &[Act::SetW(Whose::Prev)],
        6,
        DONE,
    ),
    row(
        6,
        "6: prev's record priority below own",
        When::Below(Value::RecordPriority(Whose::Prev), Value::OwnPriority),
        &[],
        1,
        DONE,
    ),
    row(
        6,
        "6: else w's pointer nil",
        When::Is(Value::WPointer, NIL),
        &[],
        8,
        DONE,
    ),
    row(6, "6: else", When::Else, &[], 7, DONE),
    row(
        7,
        "7: record priority of w's pointer below own",
        When::Below(Value::RecordPriority(Whose::WPointer), Value::OwnPriority),
        &[],
        8,
        DONE,
    ),
    row(
        7,
        "7: else prev := w's pointer",
        When::Else,
        &[Act::Set(Place::Prev, Value::WPointer)],
        5,
        DONE,
    ),
    row(
        8,
        "8: own link's pointer := w's pointer, mark stays",
        When::Always,
        &[Act::Point(Whose::Own, Value::WPointer)],
        9,
        DONE,
    ),
    row(
        9,
        "9: swap prev's link, expecting w, to this module",
        When::LinkIsW(Whose::Prev),
        &[Act::Swap(Whose::Prev, Value::ThisModule)],
        11,
        JOINED,
    ),
    row(
        9,
        "9: failed: w := found. Closed",
        When::LinkClosed(Whose::Prev),
        &[Act::SetW(Whose::Prev)],
        1,
        DONE,
    ),
    row(
        9,
        "9: failed: w := found. failed and open",
        When::Else,
        &[Act::SetW(Whose::Prev)],
        10,
        DONE,
    ),
    row(
        10,
        "10: prev's record priority below own",
        When::Below(Value::RecordPriority(Whose::Prev), Value::OwnPriority),
        &[],
        1,
        DONE,
    ),
    row(10, "10: else", When::Else, &[], 5, DONE),
    row(
        11,
        "11: open own link",
        When::Always,
        &[Act::Open(Whose::Own)],
        12,
        DONE,
    ),
    row(
        12,
        "12: own Locked is 1: nothing changes",
        When::Is(Value::Locked(Whose::Own), Value::Number(1)),
        &[],
        12,
        WAITING,
    ),
    row(
        12,
        "12: is 0: log admission",
        When::Else,
        &[Act::LogAdmission],
        13,
        ADMITTED,
    ),
    row(
        14,
        "14: close own link",
        When::Always,
        &[Act::Close(Whose::Own)],
        15,
        LEFT,
    ),
    row(
        15,
        "15: s := own link's pointer",
        When::Always,
        &[Act::Set(Place::S, Value::OwnLinkPointer)],
        16,
        DONE,
    ),
    row(
        16,
        "16: lock word := s. If s is nil, own priority := 0",
        When::Is(Value::S, NIL),
        &[
            Act::Set(Place::LockWord, Value::S),
            Act::Set(Place::OwnPriority, Value::Number(0)),
        ],
        0,
        RELEASE_FINISHED,
    ),
    row(
        16,
        "16: lock word := s. else",
        When::Else,
        &[Act::Set(Place::LockWord, Value::S)],
        17,
        DONE,
    ),
    row(
        17,
        "17: record priority of s := 255",
        When::Always,
        &[Act::Set(
            Place::RecordPriority(Whose::S),
            Value::Number(255),
        )],
        18,
        DONE,
    ),
    row(
        18,
        "18: Locked of s := 0; own priority := 0",
        When::Always,
        &[
            Act::Set(Place::Locked(Whose::S), Value::Number(0)),
            Act::Set(Place::OwnPriority, Value::Number(0)),
        ],
        0,
        RELEASE_FINISHED,
    ),
    row(
        19,
        "19: own record priority := 255",
        When::Always,
        &[Act::Set(
            Place::RecordPriority(Whose::Own),
            Value::Number(255),
        )],
        3,
        DONE,
    ),
];

/// The row of the table that a step of `me` would carry out on a sound sheet; none at a stage
/// without a step. `me` is 1 to n.
pub fn row_for<'a>(rows: &'a [Row], sheet: &Sheet, me: u16) -> Option<&'a Row> {
    let stage = sheet.get(Field::Stage, me);
    rows.iter()
        .find(|row| row.stage == stage && applies(row.when, sheet, me))
}

/// Carry out a row for `me` on a sound sheet.
pub(crate) fn carry_out(row: &Row, sheet: &mut Sheet, me: u16) {
    for act in row.does {
        do_act(*act, sheet, me);
    }
    sheet.set(Field::Stage, me, row.next);
}

/// The module whose record is meant.
fn module(whose: Whose, sheet: &Sheet, me: u16) -> u16 {
    match whose {
        Whose::Own => me,
        Whose::Prev => sheet.get(Field::Prev, me),
        Whose::WPointer => sheet.get(Field::WPointer, me),
        Whose::S => sheet.get(Field::S, me),
    }
}

fn number(value: Value, sheet: &Sheet, me: u16) -> u16 {
    match value {
        Value::Number(number) => number,
        Value::ThisModule => me,
        Value::LockWord => sheet.lock_word(),
        Value::OwnPriority => sheet.get(Field::OwnPriority, me),
        Value::WPointer => sheet.get(Field::WPointer, me),
        Value::S => sheet.get(Field::S, me),
        Value::OwnLinkPointer => sheet.get(Field::LinkPointer, me),
        Value::RecordPriority(whose) => sheet.get(Field::RecordPriority, module(whose, sheet, me)),
        Value::Locked(whose) => sheet.get(Field::Locked, module(whose, sheet, me)),
    }
}

fn applies(when: When, sheet: &Sheet, me: u16) -> bool {
    match when {
        When::Always | When::Else => true,
        When::Is(left, right) => number(left, sheet, me) == number(right, sheet, me),
        When::Below(left, right) => number(left, sheet, me) < number(right, sheet, me),
        When::LinkClosed(whose) => sheet.link(module(whose, sheet, me)).closed(),
        When::LinkIsW(whose) => sheet.link(module(whose, sheet, me)) == sheet.w(me),
    }
}

fn do_act(act: Act, sheet: &mut Sheet, me: u16) {
    match act {
        Act::Set(place, value) => {
            let number = number(value, sheet, me);
            match place {
                Place::LockWord => sheet.set_trailer(TrailerField::LockWord, u32::from(number)),
                Place::OwnPriority => sheet.set(Field::OwnPriority, me, number),
                Place::Prev => sheet.set(Field::Prev, me, number),
                Place::S => sheet.set(Field::S, me, number),
                Place::RecordPriority(whose) => {
                    sheet.set(Field::RecordPriority, module(whose, sheet, me), number);
                }
                Place::Locked(whose) => {
                    sheet.set(Field::Locked, module(whose, sheet, me), number);
                }
            }
        }
        Act::SetW(whose) => {
            let found = sheet.link(module(whose, sheet, me));
            sheet.set_w(me, found);
        }
        Act::Point(whose, value) => {
            let owner = module(whose, sheet, me);
            let pointed = sheet.link(owner).point(number(value, sheet, me));
            sheet.set_link(owner, pointed);
        }
        Act::Open(whose) => {
            let owner = module(whose, sheet, me);
            sheet.set_link(owner, sheet.link(owner).open());
        }
        Act::Close(whose) => {
            let owner = module(whose, sheet, me);
            sheet.set_link(owner, sheet.link(owner).close());
        }
        Act::Swap(whose, value) => {
            let owner = module(whose, sheet, me);
            let swapped = sheet
                .link(owner)
                .swap(sheet.w(me), number(value, sheet, me));
            if let Ok(link) = swapped {
                sheet.set_link(owner, link);
            }
        }
        Act::LogAdmission => sheet.log_admission(me),
    }
}
