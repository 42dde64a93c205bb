//! Demand 3 of the minutes, tried on histories: at every moment the records found from the lock
//! word are the plain line of joins and leaves, at most one module is inside and it is the line's
//! first, and the log of admissions names the firsts in order, lacking at most the latest. Some steps
//! are taken by turns, which are steps like any other.
//!
//! R-1 adds that a step at stage 6 that looks at a module inside never returns to stage 1, in
//! histories begun under it. Where desks of before and after R-1 take turns on one table, demand 3
//! stands and the addition does not: there the one looked at took the lock free under the base.
//!
//! The histories are far too short for a link to change 65,536 times: `outside/tests/premise.rs` has one that is not.

use std::collections::HashMap;

use cases::{Call, History, Rng};
use reference::{Field, Reply, Row, Rulebook, Sheet, RULEBOOK, RULES, STAGE_RULE, STAGE_TABLE};

/// At stage 13 or 14.
fn inside(sheet: &Sheet, module: u16) -> bool {
    [13, 14].contains(&sheet.get(Field::Stage, module))
}

/// The plain line and all it ever had as firsts.
#[derive(Clone, Default, PartialEq, Debug)]
struct Line {
    /// Module and priority.
    standing: Vec<(u16, u16)>,
    firsts: Vec<u8>,
    logged: Vec<u8>,
}

impl Line {
    /// Behind the line's first and everyone at least as urgent, ahead of all others.
    fn join(&mut self, module: u16, priority: u16) {
        let behind = self
            .standing
            .iter()
            .skip(1)
            .take_while(|(_, other)| *other >= priority)
            .count();
        let at = self.standing.len().min(1 + behind);
        self.standing.insert(at, (module, priority));
        if at == 0 {
            self.firsts.push(module as u8);
        }
    }

    fn leave(&mut self, module: u16) {
        assert_eq!(self.standing.remove(0).0, module, "the first leaves");
        if let Some((next, _)) = self.standing.first() {
            self.firsts.push(*next as u8);
        }
    }

    fn check(&self, sheet: &Sheet) {
        // Found from the lock word.
        let mut found = Vec::new();
        let mut next = sheet.lock_word();
        while next != 0 {
            assert!(found.len() <= 64, "a circle");
            found.push(next);
            next = sheet.link(next).pointer;
        }
        if let Some(first) = found.first() {
            if [15, 16].contains(&sheet.get(Field::Stage, *first)) {
                found.remove(0);
            }
        }
        let line: Vec<u16> = self.standing.iter().map(|(module, _)| *module).collect();
        assert_eq!(found, line);
        // Inside.
        let inside: Vec<u16> = (1..=sheet.n() as u16)
            .filter(|module| inside(sheet, *module))
            .collect();
        assert!(inside.len() <= 1);
        if let Some(module) = inside.first() {
            assert_eq!(line.first(), Some(module));
        }
        // While a module seeks, its own priority and its record's are the same, until it raises its
        // record at stage 19.
        for module in 1..=sheet.n() as u16 {
            if matches!(sheet.get(Field::Stage, module), 1 | 2 | 4..=10 | 19) {
                let own = sheet.get(Field::OwnPriority, module);
                assert_eq!(own, sheet.get(Field::RecordPriority, module));
            }
        }
        // The log.
        let mut log = self.logged.clone();
        log.extend(&sheet.log()[..sheet.log_length()]);
        let lacking = self.firsts.len() - log.len();
        assert!(lacking <= 1);
        assert_eq!(log, self.firsts[..log.len()]);
    }
}

/// What was met.
#[derive(Default, Debug)]
struct Met {
    longest: usize,
    releases: u32,
    /// Steps taken by turns.
    turns: u32,
    /// Calls refused 1.
    unsound: u32,
    /// Steps at stage 6 that look at a module inside, less urgent by its own priority.
    urgent: u32,
    /// Steps at stage 6 that look at a module inside and return to stage 1.
    turned_away: u32,
}

/// A table with the plain line beside it.
#[derive(Clone)]
struct Table {
    image: Vec<u8>,
    /// The turn marker.
    last: u32,
    line: Line,
    /// Own steps of a release that is under way.
    steps: [u8; 65],
    /// Who took the lock free by the base's row, straight to stage 3.
    by_the_base: [bool; 65],
}

impl Table {
    fn on(image: Vec<u8>) -> Table {
        Table {
            image,
            last: 0,
            line: Line::default(),
            steps: [0; 65],
            by_the_base: [false; 65],
        }
    }

    /// Carries out a call by this book and checks demand 3; that a release takes 3 or 5 own steps;
    /// and that whoever is turned away by a module inside looks at one that took the lock free by
    /// the base's row.
    fn call(&mut self, book: Rulebook, call: Call, met: &mut Met) {
        let before = Sheet::read(&self.image);
        let image = &mut self.image;
        let reply = match call {
            Call::SetUp { n } => {
                let reply = book.set_up(image, n);
                if reply == Reply::answered(0) {
                    *self = Table::on(std::mem::take(image));
                }
                reply
            }
            Call::BeginAcquisition { p, priority } => book.begin_acquisition(image, p, priority),
            Call::BeginRelease { p } => {
                let reply = book.begin_release(image, p);
                if reply == Reply::answered(0) {
                    self.steps[p as usize] = 0;
                }
                reply
            }
            Call::Step { p } => {
                let reply = book.step(image, p);
                if let Reply::Answered { number, .. } = reply {
                    self.stepped(&before, p as u16, number, met);
                }
                reply
            }
            Call::TakeLog { mut buffer } => {
                let reply = book.take_log(image, &mut buffer);
                if let Reply::Answered {
                    log_length: Some(length),
                    ..
                } = reply
                {
                    self.line.logged.extend(&buffer[..usize::from(length)]);
                }
                reply
            }
            Call::Turn { last } => {
                self.last = last;
                let reply = book.turn(image, &mut self.last);
                match reply {
                    Reply::Answered { number, .. } if number != 9 => {
                        self.stepped(&before, self.last as u16, number, met);
                        met.turns += 1;
                    }
                    _ => assert_eq!(self.last, last),
                }
                reply
            }
        };
        met.unsound += u32::from(reply == Reply::Refused(1));
        self.line.check(&Sheet::read(&self.image));
        met.longest = met.longest.max(self.line.standing.len());
    }

    fn stepped(&mut self, before: &Sheet, me: u16, number: u8, met: &mut Met) {
        let place = usize::from(me);
        let after = Sheet::read(&self.image).get(Field::Stage, me);
        self.steps[place] = self.steps[place].saturating_add(1);
        match number {
            3 => {
                self.line.join(me, before.get(Field::OwnPriority, me));
                self.by_the_base[place] = after == 3;
            }
            4 => self.line.leave(me),
            5 => {
                met.releases += 1;
                let alone = before.get(Field::S, me) == 0;
                assert_eq!(self.steps[place], if alone { 3 } else { 5 });
            }
            _ => {}
        }
        let prev = before.get(Field::Prev, me);
        if before.get(Field::Stage, me) == 6 && inside(before, prev) {
            let own = |module| before.get(Field::OwnPriority, module);
            met.urgent += u32::from(own(prev) < own(me));
            if after == 1 {
                met.turned_away += 1;
                assert!(self.by_the_base[usize::from(prev)]);
            }
        }
    }
}

/// Histories, each call carried out by the book chosen for it.
fn histories<'a>(seed: u64, count: u32, mut choose: impl FnMut() -> Rulebook<'a>) -> Met {
    let mut rng = Rng::new(seed);
    let mut met = Met::default();
    for _ in 0..count {
        let (mut history, image) = History::new(&mut rng);
        let mut table = Table::on(image);
        while let Some(call) = history.next_call(&table.image, table.last) {
            table.call(choose(), call, &mut met);
        }
    }
    assert!(
        met.longest >= 8 && met.releases > 1000 && met.turns > 1000,
        "{met:?}"
    );
    met
}

/// Every history of so many calls on a table of three, whose modules have the priorities of the
/// bench table and always do what their stage asks for, each call carried out by each book. What
/// was met at the first call, at the second, and so on.
fn every_history(books: &[Rulebook], calls: usize) -> Vec<Met> {
    let mut fresh = vec![0; 16 * 3 + 268];
    assert_eq!(reference::set_up(&mut fresh, 3), Reply::answered(0));
    // The image tells all that is to come, and what line stands beside it.
    let mut tables = HashMap::from([(fresh.clone(), Table::on(fresh))]);
    let mut met = Vec::new();
    for _ in 0..calls {
        let mut now = Met::default();
        let mut next = HashMap::new();
        for table in tables.values() {
            for (p, priority) in [(1, 10), (2, 5), (3, 20)] {
                for book in books {
                    let mut table = table.clone();
                    let call = match table.image[16 * (p as usize - 1)] {
                        0 => Call::BeginAcquisition { p, priority },
                        13 => Call::BeginRelease { p },
                        _ => Call::Step { p },
                    };
                    table.call(*book, call, &mut now);
                    let line = table.line.clone();
                    if let Some(same) = next.insert(table.image.clone(), table) {
                        assert_eq!(same.line, line);
                    }
                }
            }
        }
        tables = next;
        met.push(now);
    }
    met
}

/// The stage table with the base's row 2: a success goes to 3.
fn base_rows() -> Vec<Row> {
    let mut rows = STAGE_TABLE.to_vec();
    rows.iter_mut().find(|row| row.next == 19).unwrap().next = 3;
    rows
}

#[test]
fn histories_keep_demand_3_and_nobody_is_turned_away_by_a_module_inside() {
    let met = histories(2026, 400, || RULEBOOK);
    assert!(met.urgent > 500, "{met:?}");
    assert_eq!((met.turned_away, met.unsound), (0, 0));
}

#[test]
fn mixed_histories_keep_demand_3_and_no_more() {
    // The base's row 2 with all else as R-1 has it; and the base whole, which has no stage 19.
    let rows = base_rows();
    let row_2 = Rulebook {
        rows: &rows,
        ..RULEBOOK
    };
    let known: Vec<Row> = rows.iter().filter(|row| row.stage != 19).copied().collect();
    let mut rules = RULES.to_vec();
    let stages = rules.iter_mut().find(|rule| rule.name == STAGE_RULE);
    stages.unwrap().kept = |sheet| sheet.column(Field::Stage).iter().all(|stage| *stage <= 18);
    let base = Rulebook {
        rules: &rules,
        rows: &known,
    };
    for (before, knows_19) in [(row_2, true), (base, false)] {
        let mut coin = Rng::new(19);
        let met = histories(2027, 1000, || {
            if coin.chance(1, 2) {
                before
            } else {
                RULEBOOK
            }
        });
        assert!(met.turned_away > 100, "{met:?}");
        // A desk that does not know stage 19 refuses an image that has it.
        assert_eq!(met.unsound == 0, knows_19, "{met:?}");
    }
}

#[test]
fn every_short_history_of_three_modules() {
    let met = every_history(&[RULEBOOK], 28);
    assert!(met.iter().all(|met| met.turned_away == 0));
    assert!(met
        .iter()
        .any(|met| met.urgent > 0 && met.releases > 0 && met.longest == 3));
    // With the base's row 2 the shortest history in which somebody is turned away has 10 calls:
    // 1 begins and takes stages 1, 2 and 3; 3 begins and takes stages 1, 2, 4, 5 and 6.
    let rows = base_rows();
    let row_2 = Rulebook {
        rows: &rows,
        ..RULEBOOK
    };
    let met = every_history(&[RULEBOOK, row_2], 24);
    let first = met.iter().position(|met| met.turned_away > 0);
    assert_eq!(first, Some(10 - 1));
}
