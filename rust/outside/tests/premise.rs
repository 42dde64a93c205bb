//! The premise of demand 3 cannot be dropped. Module 2 reads the link of 1, which is inside, and sleeps before its swap.
//! The link of 1 then changes exactly 65,536 times and is bit for bit what 2 has read; but by now 1 waits behind 3, less
//! urgent than 2. The swap succeeds, and 2 stands behind 1.

mod table;

use compare::{Desk, ReferenceDesk};
use outside::ArchiveDesk;
use table::{Table, FREE};

/// A table, with how often the link of module 1 has changed since 2 read it.
struct History<'a> {
    table: Table<'a>,
    changes: u32,
}

impl History<'_> {
    /// Steps of a module; the number of the last one's answer.
    fn steps(&mut self, p: u32, count: u32) -> u32 {
        let mut number = 0;
        for _ in 0..count {
            let link = self.table.record(1)[8..12].to_vec();
            number = self.table.step(p);
            self.changes += u32::from(self.table.record(1)[8..12] != link);
        }
        number
    }

    fn acquire(&mut self, p: u32, priority: u32, steps: u32) -> u32 {
        self.table.begin_acquisition(p, priority);
        self.steps(p, steps)
    }

    /// The release of a module with nobody behind it; then the log is taken.
    fn release(&mut self, p: u32) {
        self.table.begin_release(p);
        assert_eq!(self.steps(p, 3), 5);
        assert_eq!(self.table.log().len(), 1);
    }
}

/// Up to just before the swap, with so many rounds of module 1 in between.
fn before_the_swap(desk: &mut dyn Desk, rounds: u32) -> History<'_> {
    let mut history = History {
        table: Table::fresh(desk, 3),
        changes: 0,
    };
    assert_eq!(history.acquire(1, 10, FREE), 2);
    // Stages 1, 2, 4 and 5: the fourth step reads the link.
    history.acquire(2, 5, 4);
    history.changes = 0;
    history.steps(2, 2);
    history.release(1);
    for _ in 0..rounds {
        assert_eq!(history.acquire(1, 10, FREE), 2);
        history.release(1);
    }
    assert_eq!(history.acquire(3, 10, FREE), 2);
    // The seventh step joins behind 3, the eighth opens the link.
    history.acquire(1, 3, 8);
    assert_eq!([1, 2, 3].map(|p| history.table.stage(p)), [12, 9, 13]);
    assert_eq!(history.table.found(), [3, 1]);
    history
}

fn on(desk: &mut dyn Desk) {
    // One change by the release, three by each round, three by the last acquisition.
    let mut history = before_the_swap(desk, 21_844);
    assert_eq!(history.changes, 65_536);
    assert_eq!(history.steps(2, 1), 3);
    // The plain line is 3, 2, 1: 2, with 5, stands ahead of 1, with 3.
    assert_eq!(history.table.found(), [3, 1, 2]);

    // With three changes fewer the swap fails, and 2 finds its place.
    let mut history = before_the_swap(history.table.desk, 21_843);
    assert_eq!(history.changes, 65_533);
    assert_eq!(history.steps(2, 1), 0);
    while history.table.stage(2) != 12 {
        history.steps(2, 1);
    }
    assert_eq!(history.table.found(), [3, 2, 1]);
}

#[test]
fn demand_3_fails_after_65_536_changes() {
    on(&mut ReferenceDesk);
    on(&mut ArchiveDesk::default());
}
