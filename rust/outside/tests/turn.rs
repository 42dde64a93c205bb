//! nobody is left out by turns, and how soon a release hands the lock on.

mod table;

use cases::Rng;
use compare::{Desk, ReferenceDesk, Said};
use outside::ArchiveDesk;
use table::{Table, FREE};

/// A table with a turn marker.
struct Turns<'a> {
    table: Table<'a>,
    last: u32,
}

impl Turns<'_> {
    /// A fresh table. The marker makes module 1 the first.
    fn fresh(desk: &mut dyn Desk, n: u32) -> Turns<'_> {
        let table = Table::fresh(desk, n);
        Turns { table, last: n }
    }

    /// An accepted turn: the module served, and the number of its answer. A full log is taken first.
    fn turn(&mut self) -> (u32, u32) {
        let length = self.table.image.len() - 12 + 4;
        if self.table.image[length..][..2] == [1, 0] {
            assert_eq!(self.table.log().len(), 256);
        }
        let said = self.table.desk.turn(&mut self.table.image, &mut self.last);
        assert!(!said.refused, "{said}");
        (self.last, said.number)
    }

    /// Whether a module is at neither stage 0 nor 13.
    fn able(&self, p: u32) -> bool {
        ![0, 13].contains(&self.table.stage(p))
    }

    /// What the module's stage asks for: it begins, is stepped, or begins to release. The number of
    /// the answer; a step that a full log refuses is left out.
    fn natural(&mut self, p: u32, priority: u32) -> u32 {
        match self.table.stage(p) {
            0 => self.table.begin_acquisition(p, priority),
            13 => self.table.begin_release(p),
            _ => {
                let said = self.table.desk.step(&mut self.table.image, p);
                assert!(!said.refused || said == Said::refused(5), "{said}");
                return said.number;
            }
        }
        0
    }
}

fn some(rng: &mut Rng, n: u32) -> u32 {
    rng.within(1, u64::from(n)) as u32
}

/// One after another each module that can step is left to turns alone. With what any others do
/// between them, and from any marker, one of n turns is its own.
fn nobody_is_left_out(desk: &mut dyn Desk, n: u32, rng: &mut Rng) {
    let mut turns = Turns::fresh(desk, n);
    let (mut tried, mut latest) = (0, 0);
    for _ in 0..200 {
        for _ in 0..rng.below(20) {
            let p = some(rng, n);
            turns.natural(p, rng.within(1, 5) as u32);
        }
        let p = some(rng, n);
        if !turns.able(p) {
            continue;
        }
        turns.last = some(rng, n);
        let served = (1..=n).find(|_| {
            for _ in 0..rng.below(4) {
                let other = some(rng, n);
                if other != p {
                    turns.natural(other, rng.within(1, 5) as u32);
                }
            }
            turns.turn().0 == p
        });
        tried += 1;
        latest = latest.max(served.expect("one of n turns"));
    }
    assert!(tried > 20, "n = {n}: {tried}");
    // n is no more than it takes, where it can be told.
    assert!(n > 4 || latest == n, "n = {n}: {latest}");
}

#[test]
fn n_turns_serve_everybody_who_can_step() {
    let mut rng = Rng::new(22);
    for n in (1..=9).chain([16, 33, 63, 64]) {
        nobody_is_left_out(&mut ReferenceDesk, n, &mut rng);
        nobody_is_left_out(&mut ArchiveDesk::default(), n, &mut rng);
    }
}

/// Module 1 is inside, all others wait at stage 12, and the last of the table is the next in the line.
/// The marker is 1 as it begins to release: every round serves all who wait, to no avail, and then 1.
/// Its five steps are turns n, 2n, .. 5n, and the last of the table is served right before 6n.
fn the_longest_release(desk: &mut dyn Desk, n: u32) {
    let mut turns = Turns::fresh(desk, n);
    turns.table.begin_acquisition(1, 10);
    for _ in 0..FREE {
        turns.table.step(1);
    }
    for p in (2..=n).rev() {
        turns.table.begin_acquisition(p, p);
        while turns.table.stage(p) != 12 {
            turns.table.step(p);
        }
    }
    let line: Vec<u8> = [1].into_iter().chain((2..=n as u8).rev()).collect();
    assert_eq!(turns.table.found(), line);
    turns.table.begin_release(1);
    turns.last = 1;
    for number in [4, 0, 0, 0, 5] {
        for p in 2..=n {
            assert_eq!(turns.turn(), (p, 1));
        }
        assert_eq!(turns.turn(), (1, number));
    }
    // 1 is idle now, so this round has one turn less.
    for p in 2..n {
        assert_eq!(turns.turn(), (p, 1));
    }
    assert_eq!(turns.turn(), (n, 2));
    assert_eq!(turns.table.log(), [1, n as u8]);
}

/// The same for two modules, every turn of it: the 11th admits.
fn eleven(desk: &mut dyn Desk) {
    let mut turns = Turns::fresh(desk, 2);
    turns.table.begin_acquisition(1, 10);
    assert_eq!(
        [1; FREE as usize].map(|p| turns.table.step(p)),
        [0, 3, 0, 2]
    );
    turns.table.begin_acquisition(2, 5);
    let joined = [2; 8].map(|p| turns.table.step(p));
    assert_eq!(joined, [0, 0, 0, 0, 0, 0, 3, 0]);
    assert_eq!([1, 2].map(|p| turns.table.stage(p)), [13, 12]);
    turns.table.begin_release(1);
    turns.last = 1;
    let served = [0; 11].map(|_| turns.turn());
    let [waits, admitted] = [(2, 1), (2, 2)];
    assert_eq!(
        served,
        [
            waits,
            (1, 4), // stage 14: left
            waits,
            (1, 0), // 15
            waits,
            (1, 0), // 16
            waits,
            (1, 0), // 17
            waits,
            (1, 5), // 18: release finished
            admitted,
        ]
    );
    assert_eq!(turns.turn(), (2, 9));
}

/// A busy table. Whenever a release begins with somebody behind it in the line, the next admission
/// comes within 6n - 1 turns, from any marker and whatever calls fall between.
fn a_release_hands_on(desk: &mut dyn Desk, n: u32, rng: &mut Rng) {
    let mut turns = Turns::fresh(desk, n);
    let mut handed_on = 0;
    // Turns since such a release began.
    let mut since = None;
    for _ in 0..6000 {
        let number = if rng.chance(1, 2) {
            since = since.map(|turns| turns + 1);
            turns.turn().1
        } else {
            let p = some(rng, n);
            let begins = turns.table.stage(p) == 13;
            // Whoever is inside mostly waits until somebody stands behind it.
            let behind = turns.table.record(p)[8] != 0;
            if begins && !behind && rng.chance(7, 8) {
                continue;
            }
            if begins && behind {
                since = Some(0);
                turns.last = some(rng, n);
            }
            turns.natural(p, rng.within(1, 5) as u32)
        };
        assert!(since.is_none_or(|turns| turns < 6 * n));
        if number == 2 {
            handed_on += u32::from(since.take().is_some());
        }
    }
    assert!(handed_on > 10, "n = {n}: {handed_on}");
}

#[test]
fn a_release_with_somebody_behind_it_hands_on_within_6n_less_1_turns() {
    let mut rng = Rng::new(23);
    let desks: [&mut dyn Desk; 2] = [&mut ReferenceDesk, &mut ArchiveDesk::default()];
    for desk in desks {
        eleven(desk);
        for n in 2..=64 {
            the_longest_release(desk, n);
        }
        for n in [2, 3, 4, 8] {
            a_release_hands_on(desk, n, &mut rng);
        }
    }
}
