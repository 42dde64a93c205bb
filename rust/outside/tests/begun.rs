//! R-1 and when an image was begun. A module that took the lock free before R-1 went from stage 2 straight to 3 and never
//! raised its record: such an image is sound and goes on, but an urgent module is turned away at stage 6 while that one is
//! inside. Begun under R-1, the urgent one joins. This is why R-1's addition speaks of histories begun under it.

mod table;

use compare::{Desk, ReferenceDesk};
use outside::ArchiveDesk;
use table::{Table, FREE};

const STAGE: usize = 0;
const RECORD_PRIORITY: usize = 12;

/// The stages after each of so many steps, all answered 0 but where a module joins.
fn stages(table: &mut Table, p: u32, count: usize) -> Vec<u8> {
    (0..count)
        .map(|_| {
            let number = table.step(p);
            assert_eq!(number, if table.stage(p) == 11 { 3 } else { 0 });
            table.stage(p)
        })
        .collect()
}

/// Module 1, priority 10, has just taken the free lock, as a desk of before R-1 leaves it: at stage 3, not raised.
fn before_the_rule(desk: &mut dyn Desk) -> Table<'_> {
    let mut table = Table::fresh(desk, 3);
    table.begin_acquisition(1, 10);
    assert_eq!([1, 1].map(|p| table.step(p)), [0, 3]);
    assert_eq!(table.stage(1), 19);
    // Record 1 is at the very front.
    table.image[STAGE] = 3;
    assert_eq!(table.step(1), 2);
    assert_eq!(table.stage(1), 13);
    assert_eq!(table.record(1)[8..13], [0, 0, 0, 2, 10]);
    table
}

/// Module 3, priority 20, circles as B7 of document 01 had it.
fn circle(table: &mut Table) {
    table.begin_acquisition(3, 20);
    for _ in 0..3 {
        assert_eq!(stages(table, 3, 5), [2, 4, 5, 6, 1]);
        assert_eq!(table.stage(1), 13);
    }
}

fn release(table: &mut Table, p: u32, answers: &[u32]) {
    table.begin_release(p);
    for answer in answers {
        assert_eq!(table.step(p), *answer);
    }
    assert_eq!(table.stage(p), 0);
}

/// Nobody else is there: 3 circles until 1 has released, and then takes the lock free, by R-1's rule.
fn alone(desk: &mut dyn Desk) {
    let mut table = before_the_rule(desk);
    circle(&mut table);
    assert_eq!(table.found(), [1]);
    release(&mut table, 1, &[4, 0, 5]);
    assert_eq!([3; FREE as usize].map(|p| table.step(p)), [0, 3, 0, 2]);
    assert_eq!(table.record(3)[RECORD_PRIORITY], 255);
    assert_eq!(table.found(), [3]);
    assert_eq!(table.log(), [1, 3]);
}

/// The less urgent 2 joins while 3 circles. Its record is raised by the release of 1, and 3 joins behind it.
fn with_another(desk: &mut dyn Desk) {
    let mut table = before_the_rule(desk);
    circle(&mut table);
    table.begin_acquisition(2, 5);
    assert_eq!(stages(&mut table, 2, 8), [2, 4, 5, 6, 8, 9, 11, 12]);
    assert_eq!(stages(&mut table, 3, 5), [2, 4, 5, 6, 1]);
    assert_eq!(table.found(), [1, 2]);
    release(&mut table, 1, &[4, 0, 0, 0, 5]);
    assert_eq!(table.step(2), 2);
    assert_eq!(table.record(2)[RECORD_PRIORITY], 255);
    assert_eq!(stages(&mut table, 3, 8), [2, 4, 5, 6, 8, 9, 11, 12]);
    assert_eq!(table.found(), [2, 3]);
    assert_eq!(table.log(), [1, 2]);
}

/// B7 as R-1 has it.
fn under_the_rule(desk: &mut dyn Desk) {
    let mut table = Table::fresh(desk, 3);
    table.begin_acquisition(1, 10);
    assert_eq!([1; FREE as usize].map(|p| table.step(p)), [0, 3, 0, 2]);
    assert_eq!(table.record(1)[8..13], [0, 0, 0, 2, 255]);
    table.begin_acquisition(3, 20);
    assert_eq!(stages(&mut table, 3, 8), [2, 4, 5, 6, 8, 9, 11, 12]);
    assert_eq!(table.stage(1), 13);
    assert_eq!(table.found(), [1, 3]);
    assert_eq!(table.step(3), 1);
    release(&mut table, 1, &[4, 0, 0, 0, 5]);
    assert_eq!(table.step(3), 2);
    assert_eq!(table.log(), [1, 3]);
}

#[test]
fn begun_before_the_rule_the_urgent_one_circles_until_the_release() {
    alone(&mut ReferenceDesk);
    alone(&mut ArchiveDesk::default());
    with_another(&mut ReferenceDesk);
    with_another(&mut ArchiveDesk::default());
}

#[test]
fn begun_under_the_rule_the_urgent_one_joins() {
    under_the_rule(&mut ReferenceDesk);
    under_the_rule(&mut ArchiveDesk::default());
}
