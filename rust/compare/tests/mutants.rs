//! Proof that the comparison can fail: desks with one deliberate slip each, every one of which is
//! caught within [`LIMIT`] calls, from each of several seeds.

use cases::Call;
use compare::{drive, Desk, ReferenceDesk, Said};
use reference::{
    Act, Place, Row, Rule, Rulebook, Value, When, Whose, LAST_STAGE, RULES, STAGE_RULE, STAGE_TABLE,
};

/// Every mutant is caught within this many calls.
const LIMIT: u64 = 50_000;
const SEEDS: [u64; 3] = [1, 2, 3];

// ---------------------------------------------------------------------------------------------
// Two ways to make a mutant: another rulebook, or another function for one of the calls.

/// The reference by another rulebook.
struct Book {
    name: String,
    rules: Vec<Rule>,
    rows: Vec<Row>,
}

impl Book {
    fn rulebook(&self) -> Rulebook<'_> {
        Rulebook {
            rules: &self.rules,
            rows: &self.rows,
        }
    }
}

impl Desk for Book {
    fn name(&self) -> String {
        self.name.clone()
    }
    fn set_up(&mut self, image: &mut [u8], n: u32) -> Said {
        self.rulebook().set_up(image, n).into()
    }
    fn begin_acquisition(&mut self, image: &mut [u8], p: u32, priority: u32) -> Said {
        self.rulebook().begin_acquisition(image, p, priority).into()
    }
    fn begin_release(&mut self, image: &mut [u8], p: u32) -> Said {
        self.rulebook().begin_release(image, p).into()
    }
    fn step(&mut self, image: &mut [u8], p: u32) -> Said {
        self.rulebook().step(image, p).into()
    }
    fn take_log(&mut self, image: &mut [u8], log: &mut [u8]) -> Said {
        self.rulebook().take_log(image, log).into()
    }
    fn turn(&mut self, image: &mut [u8], last: &mut u32) -> Said {
        self.rulebook().turn(image, last).into()
    }
}

type Turn = fn(&mut [u8], &mut u32) -> Said;

/// The reference with some calls replaced.
#[derive(Clone, Copy)]
struct Slip {
    name: &'static str,
    set_up: fn(&mut [u8], u32) -> Said,
    begin_acquisition: fn(&mut [u8], u32, u32) -> Said,
    begin_release: fn(&mut [u8], u32) -> Said,
    step: fn(&mut [u8], u32) -> Said,
    take_log: fn(&mut [u8], &mut [u8]) -> Said,
    turn: Turn,
}

const NONE: Slip = Slip {
    name: "no slip",
    set_up: |image, n| reference::set_up(image, n).into(),
    begin_acquisition: |image, p, priority| reference::begin_acquisition(image, p, priority).into(),
    begin_release: |image, p| reference::begin_release(image, p).into(),
    step: |image, p| reference::step(image, p).into(),
    take_log: |image, log| reference::take_log(image, log).into(),
    turn: |image, last| reference::turn(image, last).into(),
};

impl Desk for Slip {
    fn name(&self) -> String {
        self.name.into()
    }
    fn set_up(&mut self, image: &mut [u8], n: u32) -> Said {
        (self.set_up)(image, n)
    }
    fn begin_acquisition(&mut self, image: &mut [u8], p: u32, priority: u32) -> Said {
        (self.begin_acquisition)(image, p, priority)
    }
    fn begin_release(&mut self, image: &mut [u8], p: u32) -> Said {
        (self.begin_release)(image, p)
    }
    fn step(&mut self, image: &mut [u8], p: u32) -> Said {
        (self.step)(image, p)
    }
    fn take_log(&mut self, image: &mut [u8], log: &mut [u8]) -> Said {
        (self.take_log)(image, log)
    }
    fn turn(&mut self, image: &mut [u8], last: &mut u32) -> Said {
        (self.turn)(image, last)
    }
}

// ---------------------------------------------------------------------------------------------
// Slips in the stage table.

/// The stage table with all rows of these stages replaced.
fn with_rows(name: &str, rows: &[Row]) -> Box<dyn Desk> {
    let mut table: Vec<Row> = STAGE_TABLE
        .iter()
        .filter(|row| rows.iter().all(|new| new.stage != row.stage))
        .copied()
        .collect();
    table.extend(rows);
    Box::new(Book {
        name: name.into(),
        rules: RULES.to_vec(),
        rows: table,
    })
}

/// The stage table with this change made to its rows one by one.
fn altered(name: &str, alter: impl Fn(&mut Row)) -> Box<dyn Desk> {
    let mut rows = STAGE_TABLE.to_vec();
    rows.iter_mut().for_each(alter);
    assert!(rows != STAGE_TABLE, "{name} alters nothing");
    Box::new(Book {
        name: name.into(),
        rules: RULES.to_vec(),
        rows,
    })
}

const fn new_row(stage: u16, when: When, does: &'static [Act], next: u16, answer: u8) -> Row {
    Row {
        stage,
        name: "",
        when,
        does,
        next,
        answer,
    }
}

const S_LOCKED_0: Act = Act::Set(Place::Locked(Whose::S), Value::Number(0));
const S_RAISED: Act = Act::Set(Place::RecordPriority(Whose::S), Value::Number(255));
const OWN_RAISED: Act = Act::Set(Place::RecordPriority(Whose::Own), Value::Number(255));
const LOCK_WORD_ME: Act = Act::Set(Place::LockWord, Value::ThisModule);
const LOCK_FREE: When = When::Is(Value::LockWord, Value::Number(0));
const PREV_LOCK_WORD: Row = new_row(
    2,
    When::Else,
    &[Act::Set(Place::Prev, Value::LockWord)],
    4,
    0,
);
const LOCK_WORD_S: Act = Act::Set(Place::LockWord, Value::S);
const OWN_0: Act = Act::Set(Place::OwnPriority, Value::Number(0));
const PREV_W: Act = Act::Set(Place::Prev, Value::WPointer);
const PREV_PRIORITY: Value = Value::RecordPriority(Whose::Prev);
const W_PRIORITY: Value = Value::RecordPriority(Whose::WPointer);
const OWN_RECORD: Value = Value::RecordPriority(Whose::Own);
const NO_S: When = When::Is(Value::S, Value::Number(0));

fn table_mutants() -> Vec<Box<dyn Desk>> {
    vec![
        altered("stage 5 does not write w when closed", |row| {
            if row.stage == 5 && row.next == 1 {
                row.does = &[];
            }
        }),
        altered("a failed swap does not write w when closed", |row| {
            if row.stage == 9 && row.next == 1 {
                row.does = &[];
            }
        }),
        altered("a failed swap does not write w when open", |row| {
            if row.stage == 9 && row.next == 10 {
                row.does = &[];
            }
        }),
        with_rows(
            "stands ahead of an equal",
            &[
                new_row(
                    7,
                    When::Below(Value::OwnPriority, W_PRIORITY),
                    &[PREV_W],
                    5,
                    0,
                ),
                new_row(7, When::Else, &[], 8, 0),
            ],
        ),
        with_rows(
            "starts over behind an equal at stage 6",
            &[
                new_row(6, When::Below(PREV_PRIORITY, Value::OwnPriority), &[], 1, 0),
                new_row(6, When::Is(PREV_PRIORITY, Value::OwnPriority), &[], 1, 0),
                new_row(6, When::Is(Value::WPointer, Value::Number(0)), &[], 8, 0),
                new_row(6, When::Else, &[], 7, 0),
            ],
        ),
        with_rows(
            "looks at w's pointer before prev's priority at stage 6",
            &[
                new_row(6, When::Is(Value::WPointer, Value::Number(0)), &[], 8, 0),
                new_row(6, When::Below(PREV_PRIORITY, Value::OwnPriority), &[], 1, 0),
                new_row(6, When::Else, &[], 7, 0),
            ],
        ),
        altered("takes the own record's priority for own", |row| {
            if row.when == When::Below(PREV_PRIORITY, Value::OwnPriority) {
                row.when = When::Below(PREV_PRIORITY, OWN_RECORD);
            }
        }),
        with_rows(
            "stage 10 goes on whatever prev's priority is",
            &[new_row(10, When::Always, &[], 5, 0)],
        ),
        with_rows(
            "gives the link away while the record is closed: stage 11 left out",
            &[
                new_row(
                    9,
                    When::LinkIsW(Whose::Prev),
                    &[Act::Swap(Whose::Prev, Value::ThisModule)],
                    12,
                    3,
                ),
                new_row(
                    9,
                    When::LinkClosed(Whose::Prev),
                    &[Act::SetW(Whose::Prev)],
                    1,
                    0,
                ),
                new_row(9, When::Else, &[Act::SetW(Whose::Prev)], 10, 0),
            ],
        ),
        with_rows(
            "frees the successor before raising it",
            &[
                new_row(17, When::Always, &[S_LOCKED_0], 18, 0),
                new_row(18, When::Always, &[S_RAISED, OWN_0], 0, 5),
            ],
        ),
        with_rows(
            "stores the lock word before closing",
            &[
                new_row(
                    14,
                    When::Always,
                    &[Act::Set(Place::S, Value::OwnLinkPointer)],
                    15,
                    4,
                ),
                new_row(15, When::Always, &[LOCK_WORD_S], 16, 0),
                new_row(16, NO_S, &[Act::Close(Whose::Own), OWN_0], 0, 5),
                new_row(16, When::Else, &[Act::Close(Whose::Own)], 17, 0),
            ],
        ),
        with_rows(
            "return to idle clears the record priority",
            &[new_row(
                18,
                When::Always,
                &[
                    S_LOCKED_0,
                    OWN_0,
                    Act::Set(Place::RecordPriority(Whose::Own), Value::Number(0)),
                ],
                0,
                5,
            )],
        ),
        with_rows(
            "return to idle clears s",
            &[new_row(
                18,
                When::Always,
                &[S_LOCKED_0, OWN_0, Act::Set(Place::S, Value::Number(0))],
                0,
                5,
            )],
        ),
        with_rows(
            "return to idle without successor keeps own priority",
            &[
                new_row(16, NO_S, &[LOCK_WORD_S], 0, 5),
                new_row(16, When::Else, &[LOCK_WORD_S], 17, 0),
            ],
        ),
        with_rows(
            "stage 16 stores the lock word only if it has a successor",
            &[
                new_row(16, NO_S, &[OWN_0], 0, 5),
                new_row(16, When::Else, &[LOCK_WORD_S], 17, 0),
            ],
        ),
        with_rows(
            "raises the successor to 254",
            &[new_row(
                17,
                When::Always,
                &[Act::Set(
                    Place::RecordPriority(Whose::S),
                    Value::Number(254),
                )],
                18,
                0,
            )],
        ),
        with_rows(
            "stage 3 raises the own record too",
            &[new_row(
                3,
                When::Always,
                &[Act::Open(Whose::Own), OWN_RAISED, Act::LogAdmission],
                13,
                2,
            )],
        ),
        with_rows(
            "stage 3 clears Locked",
            &[new_row(
                3,
                When::Always,
                &[
                    Act::Open(Whose::Own),
                    Act::Set(Place::Locked(Whose::Own), Value::Number(0)),
                    Act::LogAdmission,
                ],
                13,
                2,
            )],
        ),
        altered("a join answers 0 at stage 2", |row| {
            if row.stage == 2 {
                row.answer = 0;
            }
        }),
        altered("a release without successor answers 4 at its end", |row| {
            if row.stage == 16 && row.next == 0 {
                row.answer = 4;
            }
        }),
        altered("stage 1 is left out on the way back from stage 5", |row| {
            if row.stage == 5 && row.next == 1 {
                row.next = 2;
            }
        }),
    ]
}

/// Slips in what R-1 changed: row 2 where it succeeds, and row 19.
fn raising_mutants() -> Vec<Box<dyn Desk>> {
    let stage_19 = |name: &str, does: &'static [Act]| {
        with_rows(
            &format!("stage 19 {name}"),
            &[new_row(19, When::Always, does, 3, 0)],
        )
    };
    vec![
        altered("a success at stage 2 goes on to 3, as before R-1", |row| {
            if row.stage == 2 && row.next == 19 {
                row.next = 3;
            }
        }),
        altered("stage 2 goes on to 19 where the lock is taken too", |row| {
            if row.stage == 2 && row.next == 4 {
                row.next = 19;
            }
        }),
        with_rows(
            "takes the free lock and raises itself in one step",
            &[
                new_row(2, LOCK_FREE, &[LOCK_WORD_ME, OWN_RAISED], 3, 3),
                PREV_LOCK_WORD,
            ],
        ),
        with_rows(
            "raises itself before it has the free lock",
            &[
                new_row(2, LOCK_FREE, &[OWN_RAISED], 19, 0),
                PREV_LOCK_WORD,
                new_row(19, When::Always, &[LOCK_WORD_ME], 3, 3),
            ],
        ),
        with_rows(
            "raises itself only after opening its link",
            &[
                new_row(2, LOCK_FREE, &[LOCK_WORD_ME], 3, 3),
                PREV_LOCK_WORD,
                new_row(3, When::Always, &[Act::Open(Whose::Own)], 19, 0),
                new_row(19, When::Always, &[OWN_RAISED, Act::LogAdmission], 13, 2),
            ],
        ),
        stage_19(
            "raises to 254",
            &[Act::Set(
                Place::RecordPriority(Whose::Own),
                Value::Number(254),
            )],
        ),
        stage_19(
            "raises to own priority",
            &[Act::Set(
                Place::RecordPriority(Whose::Own),
                Value::OwnPriority,
            )],
        ),
        stage_19(
            "raises prev's record",
            &[Act::Set(
                Place::RecordPriority(Whose::Prev),
                Value::Number(255),
            )],
        ),
        stage_19("raises the successor's record, as 17 does", &[S_RAISED]),
        stage_19("raises nobody's record", &[]),
        stage_19(
            "sets own priority instead of the record's",
            &[Act::Set(Place::OwnPriority, Value::Number(255))],
        ),
        stage_19(
            "sets Locked to 0 too",
            &[
                OWN_RAISED,
                Act::Set(Place::Locked(Whose::Own), Value::Number(0)),
            ],
        ),
        with_rows(
            "stage 19 raises only where the lock word is this module",
            &[
                new_row(
                    19,
                    When::Is(Value::LockWord, Value::ThisModule),
                    &[OWN_RAISED],
                    3,
                    0,
                ),
                new_row(19, When::Else, &[], 3, 0),
            ],
        ),
        with_rows(
            "stage 19 opens, logs and goes to 13",
            &[new_row(
                19,
                When::Always,
                &[OWN_RAISED, Act::Open(Whose::Own), Act::LogAdmission],
                13,
                2,
            )],
        ),
        with_rows(
            "stage 19 answers 3",
            &[new_row(19, When::Always, &[OWN_RAISED], 3, 3)],
        ),
        with_rows(
            "stage 19 answers 2",
            &[new_row(19, When::Always, &[OWN_RAISED], 3, 2)],
        ),
        with_rows(
            "stage 19 goes to 13",
            &[new_row(19, When::Always, &[OWN_RAISED], 13, 0)],
        ),
        with_rows(
            "stage 19 stays",
            &[new_row(19, When::Always, &[OWN_RAISED], 19, 0)],
        ),
        altered("stage 19 has no step", |row| {
            if row.stage == 19 {
                row.stage = LAST_STAGE + 1;
            }
        }),
    ]
}

// ---------------------------------------------------------------------------------------------
// Slips in the rules of a sound image.

fn with_rules(name: String, rules: Vec<Rule>) -> Box<dyn Desk> {
    Box::new(Book {
        name,
        rules,
        rows: STAGE_TABLE.to_vec(),
    })
}

fn with_rule(name: &str, old: &str, kept: fn(&reference::Sheet) -> bool) -> Box<dyn Desk> {
    let mut rules = RULES.to_vec();
    let place = rules.iter().position(|rule| rule.name == old).unwrap();
    rules[place].kept = kept;
    with_rules(name.into(), rules)
}

fn at_stages(
    sheet: &reference::Sheet,
    stages: std::ops::RangeInclusive<u16>,
    field: reference::Field,
    fits: impl Fn(u16) -> bool,
) -> bool {
    sheet
        .column(reference::Field::Stage)
        .iter()
        .zip(sheet.column(field))
        .all(|(stage, number)| !stages.contains(stage) || fits(*number))
}

fn rule_mutants() -> Vec<Box<dyn Desk>> {
    use reference::Field;
    // Each rule left out in turn, among them "the rest of the log is 0".
    let mut mutants: Vec<Box<dyn Desk>> = RULES
        .iter()
        .map(|left_out| {
            let rules = RULES
                .iter()
                .filter(|rule| rule.name != left_out.name)
                .copied()
                .collect();
            with_rules(format!("not checked: {}", left_out.name), rules)
        })
        .collect();
    mutants.extend([
        with_rule(
            "own priority 255 allowed",
            "own priority is 1 to 254 elsewhere",
            |sheet| at_stages(sheet, 1..=255, Field::OwnPriority, |own| own != 0),
        ),
        with_rule(
            "own priority 254 not allowed",
            "own priority is 1 to 254 elsewhere",
            |sheet| {
                at_stages(sheet, 1..=255, Field::OwnPriority, |own| {
                    (1..=253).contains(&own)
                })
            },
        ),
        with_rule("one stage more allowed", STAGE_RULE, |sheet| {
            at_stages(sheet, 0..=255, Field::Stage, |stage| {
                stage <= LAST_STAGE + 1
            })
        }),
        with_rule("the last stage not allowed", STAGE_RULE, |sheet| {
            at_stages(sheet, 0..=255, Field::Stage, |stage| stage < LAST_STAGE)
        }),
        with_rule(
            "own priority may be 0 or 255 at stage 19",
            "own priority is 1 to 254 elsewhere",
            |sheet| {
                at_stages(sheet, 1..=18, Field::OwnPriority, |own| {
                    (1..=254).contains(&own)
                })
            },
        ),
        with_rule(
            "prev must not be 0 at stage 19 either",
            "prev isn't 0 at stages 4 to 10",
            |sheet| {
                at_stages(sheet, 4..=10, Field::Prev, |prev| prev != 0)
                    && at_stages(sheet, 19..=19, Field::Prev, |prev| prev != 0)
            },
        ),
        with_rule(
            "w's pointer must not be 0 at stage 19 either",
            "w's pointer isn't 0 at stage 7",
            |sheet| {
                at_stages(sheet, 7..=7, Field::WPointer, |pointer| pointer != 0)
                    && at_stages(sheet, 19..=19, Field::WPointer, |pointer| pointer != 0)
            },
        ),
        with_rule(
            "s must not be 0 at stage 19 either",
            "s isn't 0 at stages 17 and 18",
            |sheet| at_stages(sheet, 17..=19, Field::S, |s| s != 0),
        ),
        with_rule(
            "the lock word must be the module at stage 19",
            "the lock word is 0 to n",
            |sheet| {
                let first = sheet.lock_word();
                !sheet.has_body()
                    || (u32::from(first) <= sheet.n()
                        && (1..=sheet.n() as u16)
                            .all(|module| sheet.get(Field::Stage, module) != 19 || module == first))
            },
        ),
        with_rule(
            "prev may be 0 at stage 4",
            "prev isn't 0 at stages 4 to 10",
            |sheet| at_stages(sheet, 5..=10, Field::Prev, |prev| prev != 0),
        ),
        with_rule(
            "prev may be 0 at stage 10",
            "prev isn't 0 at stages 4 to 10",
            |sheet| at_stages(sheet, 4..=9, Field::Prev, |prev| prev != 0),
        ),
        with_rule(
            "prev must not be 0 at stage 11 either",
            "prev isn't 0 at stages 4 to 10",
            |sheet| at_stages(sheet, 4..=11, Field::Prev, |prev| prev != 0),
        ),
        with_rule(
            "w's pointer must not be 0 at stage 8 either",
            "w's pointer isn't 0 at stage 7",
            |sheet| at_stages(sheet, 7..=8, Field::WPointer, |pointer| pointer != 0),
        ),
        with_rule(
            "s may be 0 at stage 18",
            "s isn't 0 at stages 17 and 18",
            |sheet| at_stages(sheet, 17..=17, Field::S, |s| s != 0),
        ),
        with_rule(
            "s must not be 0 at stage 16 either",
            "s isn't 0 at stages 17 and 18",
            |sheet| at_stages(sheet, 16..=18, Field::S, |s| s != 0),
        ),
        with_rule(
            "a log of 256 not allowed",
            "log length is 0 to 256",
            |sheet| sheet.log_length() <= 255,
        ),
        with_rule(
            "a closed w not allowed at stages 6 to 10",
            "w's mark is 0 or 1",
            |sheet| {
                at_stages(sheet, 0..=255, Field::WMark, |mark| mark <= 1)
                    && at_stages(sheet, 6..=10, Field::WMark, |mark| mark == 0)
            },
        ),
        with_rule("n up to 63", "n is 1 to 64", |sheet| {
            !sheet.has_trailer() || (1..=63).contains(&sheet.n())
        }),
    ]);
    mutants
}

// ---------------------------------------------------------------------------------------------
// Slips in the handling of bytes and numbers.

const STAGE: usize = 0;
const PREV: usize = 2;
const W_POINTER: usize = 3;
const W_MARK: usize = 4;
const W_COUNT: usize = 6;
const LINK_POINTER: usize = 8;
const LINK_MARK: usize = 9;
const LINK_COUNT: usize = 10;

/// Where a module's record lies, and its stage, if the image is sound and has the module.
fn find(image: &[u8], p: u32) -> Option<(usize, u8)> {
    if !reference::is_sound(image) {
        return None;
    }
    let n = u32::from(image[image.len() - 9]);
    if !(1..=n).contains(&p) {
        return None;
    }
    let at = record_at(image, p);
    Some((at, image[at + STAGE]))
}

/// Where a module's record lies in a sound image.
fn record_at(image: &[u8], p: u32) -> usize {
    let n = u32::from(image[image.len() - 9]);
    image.len() - 268 - 16 * (n + 1 - p) as usize
}

fn count_at(image: &[u8], at: usize) -> u16 {
    u16::from_be_bytes([image[at], image[at + 1]])
}

fn put_count(image: &mut [u8], at: usize, count: u16) {
    image[at..at + 2].copy_from_slice(&count.to_be_bytes());
}

/// A step before which w is made to look like prev's link in some bytes, if it is at stage 9, and
/// after which a remembered w is put right again.
fn careless_swap(image: &mut [u8], p: u32, bytes: &[(usize, usize)]) -> Said {
    let Some((at, 9)) = find(image, p) else {
        return (NONE.step)(image, p);
    };
    let prev = record_at(image, u32::from(image[at + PREV]));
    let w = image[at + W_POINTER..at + W_COUNT + 2].to_vec();
    for (w_byte, link_byte) in bytes {
        image[at + w_byte] = image[prev + link_byte];
    }
    let said = (NONE.step)(image, p);
    if said.number == 3 {
        image[at + W_POINTER..at + W_COUNT + 2].copy_from_slice(&w);
    }
    said
}

/// A step after which every link count that a step changed is reckoned anew.
fn other_count(image: &mut [u8], p: u32, reckon: fn(u16) -> u16) -> Said {
    let before = image.to_vec();
    let said = (NONE.step)(image, p);
    if find(&before, p).is_some() {
        let n = u32::from(image[image.len() - 9]);
        for module in 1..=n {
            let at = record_at(image, module) + LINK_COUNT;
            let count = count_at(&before, at);
            if count != count_at(image, at) {
                put_count(image, at, reckon(count));
            }
        }
    }
    said
}

/// A step after which the own link's count goes back, if the step changed nothing else of it.
fn idle_changes_free(image: &mut [u8], p: u32, stages: &[u8]) -> Said {
    let found = find(image, p);
    let before = image.to_vec();
    let said = (NONE.step)(image, p);
    if let Some((at, stage)) = found {
        let link = at + LINK_POINTER..at + LINK_COUNT;
        if stages.contains(&stage) && before[link.clone()] == image[link] {
            put_count(image, at + LINK_COUNT, count_at(&before, at + LINK_COUNT));
        }
    }
    said
}

/// A step with these trailer bytes taken for this value.
fn blind_to(image: &mut [u8], bytes: &[usize], call: impl FnOnce(&mut [u8]) -> Said) -> Said {
    let Some(trailer) = image.len().checked_sub(12) else {
        return call(image);
    };
    let kept: Vec<u8> = bytes.iter().map(|byte| image[trailer + byte]).collect();
    for byte in bytes {
        image[trailer + byte] = 0;
    }
    let said = call(image);
    for (byte, value) in bytes.iter().zip(kept) {
        image[trailer + byte] = value;
    }
    said
}

fn byte_mutants() -> Vec<Slip> {
    vec![
        Slip {
            name: "swap compares pointer and mark only",
            step: |image, p| {
                careless_swap(
                    image,
                    p,
                    &[(W_COUNT, LINK_COUNT), (W_COUNT + 1, LINK_COUNT + 1)],
                )
            },
            ..NONE
        },
        Slip {
            name: "swap compares the count's low byte only",
            step: |image, p| careless_swap(image, p, &[(W_COUNT, LINK_COUNT)]),
            ..NONE
        },
        Slip {
            name: "swap compares mark and count only",
            step: |image, p| careless_swap(image, p, &[(W_POINTER, LINK_POINTER)]),
            ..NONE
        },
        Slip {
            name: "swap compares pointer and count only",
            step: |image, p| careless_swap(image, p, &[(W_MARK, LINK_MARK)]),
            ..NONE
        },
        Slip {
            name: "swap fails where w is closed",
            step: |image, p| match find(image, p) {
                Some((at, 9)) if image[at + W_MARK] == 1 => {
                    let prev = record_at(image, u32::from(image[at + PREV]));
                    let found = image[prev + LINK_POINTER..prev + LINK_COUNT + 2].to_vec();
                    image[at + W_POINTER] = found[0];
                    image[at + W_MARK] = found[1];
                    image[at + W_COUNT..at + W_COUNT + 2].copy_from_slice(&found[2..]);
                    image[at + STAGE] = if found[1] == 1 { 1 } else { 10 };
                    Said::answered(0)
                }
                _ => (NONE.step)(image, p),
            },
            ..NONE
        },
        Slip {
            name: "failed swap bumps the count",
            step: |image, p| {
                let found = find(image, p);
                let said = (NONE.step)(image, p);
                if let Some((at, 9)) = found {
                    if said.number == 0 {
                        let prev = record_at(image, u32::from(image[at + PREV]));
                        let count = count_at(image, prev + LINK_COUNT).wrapping_add(1);
                        put_count(image, prev + LINK_COUNT, count);
                    }
                }
                said
            },
            ..NONE
        },
        Slip {
            name: "successful swap keeps a closed mark",
            step: |image, p| {
                let before = image.to_vec();
                let said = (NONE.step)(image, p);
                if let Some((at, 9)) = find(&before, p) {
                    let prev = record_at(image, u32::from(before[at + PREV]));
                    image[prev + LINK_MARK] = before[prev + LINK_MARK];
                }
                said
            },
            ..NONE
        },
        Slip {
            name: "count does not wrap: it stays at 65,535",
            step: |image, p| other_count(image, p, |count| count.saturating_add(1)),
            ..NONE
        },
        Slip {
            name: "count wraps to 1",
            step: |image, p| {
                other_count(
                    image,
                    p,
                    |count| if count == 65_535 { 1 } else { count + 1 },
                )
            },
            ..NONE
        },
        Slip {
            name: "count's low byte does not carry",
            step: |image, p| {
                other_count(image, p, |count| {
                    count & 0xff00 | count.wrapping_add(1) & 0xff
                })
            },
            ..NONE
        },
        Slip {
            name: "pointing where it pointed already is no change",
            step: |image, p| idle_changes_free(image, p, &[1, 8]),
            ..NONE
        },
        Slip {
            name: "opening what is open already is no change",
            step: |image, p| idle_changes_free(image, p, &[3, 11]),
            ..NONE
        },
        Slip {
            name: "closing what is closed already is no change",
            step: |image, p| idle_changes_free(image, p, &[14]),
            ..NONE
        },
        Slip {
            name: "stage 1 closes the mark",
            step: |image, p| {
                let found = find(image, p);
                let said = (NONE.step)(image, p);
                if let Some((at, 1)) = found {
                    image[at + LINK_MARK] = 1;
                }
                said
            },
            ..NONE
        },
        Slip {
            name: "stage 8 opens the mark",
            step: |image, p| {
                let found = find(image, p);
                let said = (NONE.step)(image, p);
                if let Some((at, 8)) = found {
                    image[at + LINK_MARK] = 0;
                }
                said
            },
            ..NONE
        },
        Slip {
            name: "w's mark is coded the other way round",
            step: |image, p| {
                let before = find(image, p);
                let said = (NONE.step)(image, p);
                if let Some((at, 5 | 9)) = before {
                    if said.number == 0 {
                        image[at + W_MARK] ^= 1;
                    }
                }
                said
            },
            ..NONE
        },
        Slip {
            name: "refusal 4 before 3",
            begin_acquisition: |image, p, priority| match find(image, p) {
                Some((_, stage)) if stage != 0 => Said::refused(4),
                _ => (NONE.begin_acquisition)(image, p, priority),
            },
            ..NONE
        },
        Slip {
            name: "refusal 3 before 2",
            begin_acquisition: |image, p, priority| {
                if reference::is_sound(image) && !(1..=254).contains(&priority) {
                    Said::refused(3)
                } else {
                    (NONE.begin_acquisition)(image, p, priority)
                }
            },
            ..NONE
        },
        Slip {
            name: "refusal 3 before 1",
            begin_acquisition: |image, p, priority| {
                if (1..=254).contains(&priority) {
                    (NONE.begin_acquisition)(image, p, priority)
                } else {
                    Said::refused(3)
                }
            },
            ..NONE
        },
        Slip {
            name: "refusal 8 before 7",
            set_up: |image, n| {
                if (image.len() as u64) < reference::table_length(n) {
                    Said::refused(8)
                } else {
                    (NONE.set_up)(image, n)
                }
            },
            ..NONE
        },
        Slip {
            name: "refusal 6 before 1",
            take_log: |image, log| {
                let held = image
                    .len()
                    .checked_sub(8)
                    .map_or(0, |at| count_at(image, at));
                if log.len() < usize::from(held) {
                    Said::refused(6)
                } else {
                    (NONE.take_log)(image, log)
                }
            },
            ..NONE
        },
        Slip {
            name: "a refused begin acquisition writes the record priority all the same",
            begin_acquisition: |image, p, priority| {
                let said = (NONE.begin_acquisition)(image, p, priority);
                if said == Said::refused(4) {
                    let at = record_at(image, p);
                    image[at + 12] = priority as u8;
                }
                said
            },
            ..NONE
        },
        Slip {
            name: "begin acquisition does not write the record priority",
            begin_acquisition: |image, p, priority| {
                let before = image.to_vec();
                let said = (NONE.begin_acquisition)(image, p, priority);
                if !said.refused {
                    let at = record_at(image, p) + 12;
                    image[at] = before[at];
                }
                said
            },
            ..NONE
        },
        Slip {
            name: "priority is cut to a byte",
            begin_acquisition: |image, p, priority| {
                (NONE.begin_acquisition)(image, p, priority & 0xff)
            },
            ..NONE
        },
        Slip {
            name: "module number is cut to a byte",
            step: |image, p| (NONE.step)(image, p & 0xff),
            ..NONE
        },
        Slip {
            name: "n is cut to a byte",
            set_up: |image, n| (NONE.set_up)(image, n & 0xff),
            ..NONE
        },
        Slip {
            name: "set-up reckons in 32 bits and looks at the length first",
            set_up: |image, n| {
                let needed = n.wrapping_mul(16).wrapping_add(268);
                if (image.len() as u64) < u64::from(needed) {
                    Said::refused(8)
                } else {
                    (NONE.set_up)(image, n)
                }
            },
            ..NONE
        },
        Slip {
            name: "the last module is unknown",
            begin_release: |image, p| {
                let n = image
                    .len()
                    .checked_sub(9)
                    .map_or(0, |at| u32::from(image[at]));
                if reference::is_sound(image) && p == n {
                    Said::refused(2)
                } else {
                    (NONE.begin_release)(image, p)
                }
            },
            ..NONE
        },
        Slip {
            name: "release can begin at stage 12",
            begin_release: |image, p| match find(image, p) {
                Some((at, 12)) => {
                    image[at] = 14;
                    Said::answered(0)
                }
                _ => (NONE.begin_release)(image, p),
            },
            ..NONE
        },
        Slip {
            name: "set-up touches owner's bytes",
            set_up: |image, n| {
                let said = (NONE.set_up)(image, n);
                if !said.refused {
                    let owner = image.len() - reference::table_length(n) as usize;
                    image[..owner].fill(0);
                }
                said
            },
            ..NONE
        },
        Slip {
            name: "set-up puts the table at the front",
            set_up: |image, n| {
                let length = reference::table_length(n).min(image.len() as u64) as usize;
                (NONE.set_up)(&mut image[..length], n)
            },
            ..NONE
        },
        Slip {
            name: "set-up goes on with the counts of an earlier table",
            set_up: |image, n| {
                let before = image.to_vec();
                let said = (NONE.set_up)(image, n);
                if !said.refused && find(&before, n).is_some() {
                    let at = record_at(image, n) + LINK_COUNT;
                    put_count(image, at, count_at(&before, at));
                }
                said
            },
            ..NONE
        },
        Slip {
            name: "set-up leaves the log bytes",
            set_up: |image, n| {
                let before = image.to_vec();
                let said = (NONE.set_up)(image, n);
                if !said.refused {
                    let log = image.len() - 268;
                    image[log..log + 256].copy_from_slice(&before[log..log + 256]);
                }
                said
            },
            ..NONE
        },
        Slip {
            name: "set-up opens the links",
            set_up: |image, n| {
                let said = (NONE.set_up)(image, n);
                if !said.refused {
                    let at = record_at(image, 1);
                    image[at + LINK_MARK] = 0;
                }
                said
            },
            ..NONE
        },
        Slip {
            name: "take_log clears only the entries",
            take_log: |image, log| {
                let before = image.to_vec();
                let said = (NONE.take_log)(image, log);
                if !said.refused {
                    let at = image.len() - 8;
                    put_count(image, at, count_at(&before, at));
                }
                said
            },
            ..NONE
        },
        Slip {
            name: "take_log clears only the length",
            take_log: |image, log| {
                let before = image.to_vec();
                let said = (NONE.take_log)(image, log);
                if !said.refused {
                    let at = image.len() - 268;
                    image[at..at + 256].copy_from_slice(&before[at..at + 256]);
                }
                said
            },
            ..NONE
        },
        Slip {
            name: "take_log leaves the last of 256 entries",
            take_log: |image, log| {
                let before = image.to_vec();
                let said = (NONE.take_log)(image, log);
                if said.length == 256 {
                    let at = image.len() - 13;
                    image[at] = before[at];
                }
                said
            },
            ..NONE
        },
        Slip {
            name: "take_log clears the rest of the buffer",
            take_log: |image, log| {
                let said = (NONE.take_log)(image, log);
                if !said.refused {
                    log[said.length as usize..].fill(0);
                }
                said
            },
            ..NONE
        },
        Slip {
            name: "take_log writes what fits into a short buffer",
            take_log: |image, log| {
                let said = (NONE.take_log)(image, log);
                if said == Said::refused(6) {
                    let at = image.len() - 268;
                    log.copy_from_slice(&image[at..at + log.len()]);
                }
                said
            },
            ..NONE
        },
        Slip {
            name: "take_log wants a byte to spare",
            take_log: |image, log| {
                let short = log.len().saturating_sub(1);
                let held = image
                    .len()
                    .checked_sub(8)
                    .map_or(0, |at| count_at(image, at));
                if reference::is_sound(image) && short < usize::from(held) {
                    Said::refused(6)
                } else {
                    (NONE.take_log)(image, log)
                }
            },
            ..NONE
        },
        Slip {
            name: "take_log does not tell the length",
            take_log: |image, log| Said {
                length: 0,
                ..(NONE.take_log)(image, log)
            },
            ..NONE
        },
        Slip {
            name: "an admission does not tell the module",
            step: |image, p| Said {
                module: 0,
                ..(NONE.step)(image, p)
            },
            ..NONE
        },
        Slip {
            name: "the log is full at 255",
            step: |image, p| {
                let mut trial = image.to_vec();
                let said = (NONE.step)(&mut trial, p);
                if said.number == 2 && !said.refused && count_at(&trial, trial.len() - 8) == 256 {
                    return Said::refused(5);
                }
                image.copy_from_slice(&trial);
                said
            },
            ..NONE
        },
        Slip {
            name: "a full log refuses waiting too",
            step: |image, p| match find(image, p) {
                Some((_, 12)) if count_at(image, image.len() - 8) == 256 => Said::refused(5),
                _ => (NONE.step)(image, p),
            },
            ..NONE
        },
        Slip {
            name: "a full log refuses stage 19 too",
            step: |image, p| match find(image, p) {
                Some((_, 19)) if count_at(image, image.len() - 8) == 256 => Said::refused(5),
                _ => (NONE.step)(image, p),
            },
            ..NONE
        },
        Slip {
            name: "stage 19 counts as a change of the link",
            step: |image, p| {
                let found = find(image, p);
                let said = (NONE.step)(image, p);
                if let Some((at, 19)) = found {
                    let count = count_at(image, at + LINK_COUNT).wrapping_add(1);
                    put_count(image, at + LINK_COUNT, count);
                }
                said
            },
            ..NONE
        },
        Slip {
            name: "begin release clears the raised record priority",
            begin_release: |image, p| {
                let said = (NONE.begin_release)(image, p);
                if !said.refused {
                    let at = record_at(image, p);
                    image[at + 12] = image[at + 1];
                }
                said
            },
            ..NONE
        },
        Slip {
            name: "an admission in a full log is let in and not logged",
            step: |image, p| {
                let said = (NONE.step)(image, p);
                if said == Said::refused(5) {
                    let at = record_at(image, p);
                    image[at] = 13;
                    return Said {
                        module: p,
                        ..Said::answered(2)
                    };
                }
                said
            },
            ..NONE
        },
        Slip {
            name: "n is read from one byte",
            step: |image, p| blind_to(image, &[2], |image| (NONE.step)(image, p)),
            ..NONE
        },
        Slip {
            name: "distance is read from two bytes",
            step: |image, p| blind_to(image, &[8, 9], |image| (NONE.step)(image, p)),
            ..NONE
        },
        Slip {
            name: "trailer byte 7 is not looked at",
            step: |image, p| blind_to(image, &[7], |image| (NONE.step)(image, p)),
            ..NONE
        },
        Slip {
            name: "owner's bytes make the image unsound",
            begin_release: |image, p| {
                let said = (NONE.begin_release)(image, p);
                let n = image
                    .len()
                    .checked_sub(9)
                    .map_or(0, |at| u32::from(image[at]));
                if said != Said::refused(1) && image.len() as u64 > reference::table_length(n) {
                    if !said.refused {
                        let at = record_at(image, p);
                        image[at] = 13;
                    }
                    return Said::refused(1);
                }
                said
            },
            ..NONE
        },
        Slip {
            name: "panics on a buffer shorter than a trailer",
            step: |image, p| {
                assert!(image.len() >= 12, "deliberate");
                (NONE.step)(image, p)
            },
            ..NONE
        },
        Slip {
            name: "one that never writes",
            step: |image, p| (NONE.step)(&mut image.to_vec(), p),
            ..NONE
        },
        Slip {
            name: "one that always answers 0",
            step: |_, _| Said::answered(0),
            ..NONE
        },
        Slip {
            name: "one that refuses everything",
            step: |_, _| Said::refused(1),
            ..NONE
        },
    ]
}

// ---------------------------------------------------------------------------------------------
// Slips in the turn.

/// Every module after the marker around the table, itself last.
fn around(n: u32, last: u32) -> Vec<u32> {
    (last + 1..=n).chain(1..=last).collect()
}

/// Of a sound image n, whether the marker is 1 to n, and whether the log holds 256.
fn look(image: &[u8], last: u32) -> Option<(u32, bool, bool)> {
    reference::is_sound(image).then(|| {
        let n = u32::from(image[image.len() - 9]);
        let full = count_at(image, image.len() - 8) == 256;
        (n, (1..=n).contains(&last), full)
    })
}

/// A turn of the first in this order for which `able` holds, which is given where its record lies and
/// its stage. Module 0, if it is looked at, counts as able.
fn turn_of(
    image: &mut [u8],
    last: &mut u32,
    order: impl Fn(u32, u32) -> Vec<u32>,
    able: impl Fn(&[u8], usize, u8) -> bool,
) -> Said {
    let Some((n, true, _)) = look(image, *last) else {
        return (NONE.turn)(image, last);
    };
    let mut order = order(n, *last).into_iter();
    let next = order.find(|p| find(image, *p).is_none_or(|(at, stage)| able(image, at, stage)));
    let Some(next) = next else {
        return Said::answered(9);
    };
    let said = (NONE.step)(image, next);
    if !said.refused {
        *last = next;
    }
    said
}

fn in_order(image: &mut [u8], last: &mut u32, order: fn(u32, u32) -> Vec<u32>) -> Said {
    turn_of(image, last, order, |_, _, stage| ![0, 13].contains(&stage))
}

fn passing(image: &mut [u8], last: &mut u32, stages: &[u8]) -> Said {
    turn_of(image, last, around, |_, _, stage| !stages.contains(&stage))
}

/// A turn after which the marker, if it was 1 to n, is this: given what the turn said, n, and the
/// marker before and after.
fn marked(image: &mut [u8], last: &mut u32, mark: impl Fn(Said, u32, u32, u32) -> u32) -> Said {
    let (looked, before) = (look(image, *last), *last);
    let said = (NONE.turn)(image, last);
    if let Some((n, true, _)) = looked {
        *last = mark(said, n, before, *last);
    }
    said
}

/// A turn with this taken for the marker, if the image is sound.
fn taken_for(image: &mut [u8], last: &mut u32, taken: impl Fn(u32, u32) -> u32) -> Said {
    let Some((n, _, _)) = look(image, *last) else {
        return (NONE.turn)(image, last);
    };
    let mut other = taken(n, *last);
    let said = (NONE.turn)(image, &mut other);
    if !said.refused && said.number != 9 {
        *last = other;
    }
    said
}

fn turn_mutants() -> Vec<Slip> {
    const NOBODY: Said = Said {
        refused: false,
        number: 9,
        module: 0,
        length: 0,
    };
    let turns: &[(&'static str, Turn)] = &[
        // In which order.
        ("starts at the marker itself", |image, last| {
            in_order(image, last, |n, last| (last..=n).chain(1..last).collect())
        }),
        ("never comes to the marker's own module", |image, last| {
            in_order(image, last, |n, last| {
                (last + 1..=n).chain(1..last).collect()
            })
        }),
        ("does not go around", |image, last| {
            in_order(image, last, |n, last| (last + 1..=n).collect())
        }),
        ("goes around to 0", |image, last| {
            in_order(image, last, |n, last| {
                (last + 1..=n).chain(0..=last).collect()
            })
        }),
        ("goes around to 2", |image, last| {
            in_order(image, last, |n, last| {
                (last + 1..=n).chain(2..=last).collect()
            })
        }),
        ("leaves out the last of the table", |image, last| {
            in_order(image, last, |n, last| {
                (last + 1..n).chain(1..=last).collect()
            })
        }),
        ("always starts at 1", |image, last| {
            in_order(image, last, |n, _| (1..=n).collect())
        }),
        ("goes backwards", |image, last| {
            in_order(image, last, |n, last| {
                let mut order = around(n, last);
                order.pop();
                order.reverse();
                order.push(last);
                order
            })
        }),
        // Who can step.
        ("serves a module at stage 0", |image, last| {
            passing(image, last, &[13])
        }),
        ("serves a module at stage 13", |image, last| {
            passing(image, last, &[0])
        }),
        ("passes over stage 12", |image, last| {
            passing(image, last, &[0, 12, 13])
        }),
        ("passes over whoever waits", |image, last| {
            turn_of(image, last, around, |image, at, stage| match stage {
                0 | 13 => false,
                12 => image[at + 13] == 0,
                _ => true,
            })
        }),
        (
            "passes over stage 14, which is inside too",
            |image, last| passing(image, last, &[0, 13, 14]),
        ),
        ("passes over stage 19", |image, last| {
            passing(image, last, &[0, 13, 19])
        }),
        ("passes over stage 1", |image, last| {
            passing(image, last, &[0, 1, 13])
        }),
        ("passes over whom a full log refuses", |image, last| {
            turn_of(image, last, around, |image, at, stage| {
                let full = count_at(image, image.len() - 8) == 256;
                match stage {
                    0 | 13 => false,
                    3 => !full,
                    12 => !full || image[at + 13] == 1,
                    _ => true,
                }
            })
        }),
        // What becomes of the marker.
        (
            "the marker moves on where it is refused 5",
            |image, last| {
                marked(image, last, |said, n, before, after| match said.refusal() {
                    Some(5) => before % n + 1,
                    _ => after,
                })
            },
        ),
        (
            "the marker moves on where nobody can step",
            |image, last| {
                marked(image, last, |said, n, before, after| match said {
                    NOBODY => before % n + 1,
                    _ => after,
                })
            },
        ),
        ("the marker is 0 where nobody can step", |image, last| {
            marked(image, last, |said, _, _, after| match said {
                NOBODY => 0,
                _ => after,
            })
        }),
        ("the marker stays", |image, last| {
            marked(image, last, |_, _, before, _| before)
        }),
        ("the marker stays where the module waits", |image, last| {
            marked(image, last, |said, _, before, after| match said.number {
                1 => before,
                _ => after,
            })
        }),
        (
            "the marker goes to the next, served or not",
            |image, last| {
                marked(image, last, |said, n, before, after| {
                    if said.refused || said == NOBODY {
                        after
                    } else {
                        before % n + 1
                    }
                })
            },
        ),
        ("the marker is the one to be served next", |image, last| {
            marked(image, last, |said, n, _, after| {
                if said.refused || said == NOBODY {
                    after
                } else {
                    after % n + 1
                }
            })
        }),
        (
            "a wrong marker is put right though refused",
            |image, last| {
                let said = (NONE.turn)(image, last);
                if said.refusal() == Some(10) {
                    *last = 1;
                }
                said
            },
        ),
        (
            "the marker is cleared where the image is unsound",
            |image, last| {
                let said = (NONE.turn)(image, last);
                if said.refusal() == Some(1) {
                    *last = 0;
                }
                said
            },
        ),
        // Which markers are taken, and the numbers given.
        ("5 before 10", |image, last| {
            if let Some((n, false, true)) = look(image, *last) {
                let said = (NONE.turn)(&mut image.to_vec(), &mut n.clone());
                if said.refused {
                    return said;
                }
            }
            (NONE.turn)(image, last)
        }),
        ("10 before 1", |image, last| match *last {
            1..=64 => (NONE.turn)(image, last),
            _ => Said::refused(10),
        }),
        ("9 before 10", |image, last| match look(image, *last) {
            Some((n, false, _)) if (NONE.turn)(&mut image.to_vec(), &mut n.clone()) == NOBODY => {
                NOBODY
            }
            _ => (NONE.turn)(image, last),
        }),
        ("marker 0 is taken for n", |image, last| {
            taken_for(image, last, |n, last| if last == 0 { n } else { last })
        }),
        ("marker n + 1 is taken for n", |image, last| {
            taken_for(image, last, |n, last| if last == n + 1 { n } else { last })
        }),
        ("marker n is refused", |image, last| {
            match look(image, *last) {
                Some((n, ..)) if n == *last => Said::refused(10),
                _ => (NONE.turn)(image, last),
            }
        }),
        ("the marker is cut to a byte", |image, last| {
            taken_for(image, last, |_, last| last & 0xff)
        }),
        (
            "a wrong marker is refused by 2",
            |image, last| match (NONE.turn)(image, last) {
                said if said.refusal() == Some(10) => Said::refused(2),
                said => said,
            },
        ),
        ("nobody answers 0", |image, last| {
            match (NONE.turn)(image, last) {
                NOBODY => Said::answered(0),
                said => said,
            }
        }),
        ("nobody is refused by 4", |image, last| {
            match (NONE.turn)(image, last) {
                NOBODY => Said::refused(4),
                said => said,
            }
        }),
        ("whoever waits is answered 9", |image, last| {
            match (NONE.turn)(image, last) {
                said if said == Said::answered(1) => NOBODY,
                said => said,
            }
        }),
        ("an admission does not tell the module", |image, last| {
            Said {
                module: 0,
                ..(NONE.turn)(image, last)
            }
        }),
        // The step and the image.
        ("takes two steps", |image, last| {
            let said = (NONE.turn)(image, last);
            if !said.refused && said != NOBODY {
                (NONE.step)(image, *last);
            }
            said
        }),
        ("a turn never writes the image", |image, last| {
            (NONE.turn)(&mut image.to_vec(), last)
        }),
        ("in a turn n is read from one byte", |image, last| {
            blind_to(image, &[2], |image| (NONE.turn)(image, last))
        }),
        (
            "in a turn trailer byte 7 is not looked at",
            |image, last| blind_to(image, &[7], |image| (NONE.turn)(image, last)),
        ),
        ("logs the module before the one served", |image, last| {
            let before = *last;
            let said = (NONE.turn)(image, last);
            if !said.refused && said.number == 2 {
                let at = image.len() - 268 + usize::from(count_at(image, image.len() - 8)) - 1;
                image[at] = before as u8;
            }
            said
        }),
    ];
    let slip = |&(name, turn): &(&'static str, Turn)| Slip { name, turn, ..NONE };
    turns.iter().map(slip).collect()
}

// ---------------------------------------------------------------------------------------------

/// Keep the panics of mutants, which are caught and reported as differences, off the output.
fn quiet_about_mutants() {
    let usual = std::panic::take_hook();
    std::panic::set_hook(Box::new(move |info| {
        let of_a_mutant = info.location().is_some_and(|location| {
            location.file().contains("reference") || location.file().contains("core")
        });
        let deliberate = info.payload().downcast_ref::<&str>() == Some(&"deliberate");
        if !of_a_mutant && !deliberate {
            usual(info);
        }
    }));
}

#[test]
fn every_mutant_is_caught() {
    quiet_about_mutants();
    let mut mutants = table_mutants();
    mutants.extend(raising_mutants());
    mutants.extend(rule_mutants());
    for slip in byte_mutants().into_iter().chain(turn_mutants()) {
        mutants.push(Box::new(slip));
    }
    let mut missed = Vec::new();
    let mut slowest = 0;
    for mutant in &mut mutants {
        let mut caught = Vec::new();
        for seed in SEEDS {
            match drive(&mut ReferenceDesk, mutant.as_mut(), seed, LIMIT) {
                Ok(_) => missed.push(format!("{} (seed {seed})", mutant.name())),
                Err(difference) => {
                    caught.push(difference.at_call);
                    slowest = slowest.max(difference.at_call);
                }
            }
        }
        println!("{caught:?}  {}", mutant.name());
    }
    println!(
        "{} mutants, the slowest caught at call {slowest}",
        mutants.len()
    );
    assert!(missed.is_empty(), "never caught: {missed:#?}");
}

#[test]
fn without_a_slip_nothing_is_caught() {
    // The turns made by way of the functions for mutants too.
    let turns: [Turn; 4] = [
        NONE.turn,
        |image, last| passing(image, last, &[0, 13]),
        |image, last| marked(image, last, |_, _, _, after| after),
        |image, last| taken_for(image, last, |_, last| last),
    ];
    for turn in turns {
        let mut none = Slip { turn, ..NONE };
        drive(&mut ReferenceDesk, &mut none, 4, LIMIT).unwrap();
    }
    let mut book = Book {
        name: "the papers".into(),
        rules: RULES.to_vec(),
        rows: STAGE_TABLE.to_vec(),
    };
    drive(&mut ReferenceDesk, &mut book, 5, LIMIT).unwrap();
}

#[test]
fn an_account_is_short_and_names_what_differs() {
    let mut mutants = byte_mutants();
    let slip = mutants
        .iter_mut()
        .find(|slip| slip.name == "failed swap bumps the count")
        .unwrap();
    let difference = drive(&mut ReferenceDesk, slip, 1, LIMIT).unwrap_err();
    let account = difference.to_string();
    println!("{account}");
    for part in [
        "stage 9",
        "reference: answered 0",
        "failed swap bumps the count: answered 0",
        "link count, record byte 11",
    ] {
        assert!(account.contains(part), "{part:?} is not in\n{account}");
    }
    assert!(account.lines().count() <= 10, "{account}");
}

#[test]
fn an_account_of_a_turn_names_the_marker() {
    let mut slip = Slip {
        turn: |image, last| marked(image, last, |_, n, _, _| n + 7),
        ..NONE
    };
    let difference = drive(&mut ReferenceDesk, &mut slip, 1, LIMIT).unwrap_err();
    let account = difference.to_string();
    println!("{account}");
    let Call::Turn { last } = difference.call else {
        panic!("{account}");
    };
    let n = u32::from(difference.before[difference.before.len() - 9]);
    for part in [
        format!(": turn, marker {last}\n"),
        format!("marker: {last} before, reference has "),
        format!(", no slip has {}\n", n + 7),
    ] {
        assert!(account.contains(&part), "{part:?} is not in\n{account}");
    }
}
