//! The listing of `turns` and the bench table B1 to B10, with every figure that document 01 gives,
//! as R-1 of document 02 has changed them.

use reference::{begin_acquisition, begin_release, broken_rules, set_up, step, take_log, Reply};

const OPEN: u8 = 0;
const CLOSED: u8 = 1;

/// Taking the free lock: the answer of each step and the stage after it.
const FREE: [(u8, u8); 4] = [(0, 2), (3, 19), (0, 3), (2, 13)];

/// Joining behind the only one in the line.
const BEHIND_ONE: [(u8, u8); 8] = [
    (0, 2),
    (0, 4),
    (0, 5),
    (0, 6),
    (0, 8),
    (0, 9),
    (3, 11),
    (0, 12),
];

/// A table at the end of a buffer with owner's bytes in front, looked at by byte offsets of the
/// paper, not through the package's own columns.
struct Bench {
    buffer: Vec<u8>,
    n: usize,
}

impl Bench {
    fn fresh(n: u32) -> Bench {
        let mut buffer = vec![0xee; 5 + 16 * n as usize + 268];
        assert_eq!(set_up(&mut buffer, n), Reply::answered(0));
        Bench {
            buffer,
            n: n as usize,
        }
    }

    fn record(&self, module: u32) -> &[u8] {
        let at = 5 + 16 * (module as usize - 1);
        &self.buffer[at..at + 16]
    }

    fn record_mut(&mut self, module: u32) -> &mut [u8] {
        let at = 5 + 16 * (module as usize - 1);
        &mut self.buffer[at..at + 16]
    }

    fn stage(&self, module: u32) -> u8 {
        self.record(module)[0]
    }

    fn w(&self, module: u32) -> (u8, u8, u16) {
        let record = self.record(module);
        (
            record[3],
            record[4],
            u16::from_be_bytes([record[6], record[7]]),
        )
    }

    fn link(&self, module: u32) -> (u8, u8, u16) {
        let record = self.record(module);
        (
            record[8],
            record[9],
            u16::from_be_bytes([record[10], record[11]]),
        )
    }

    fn record_priority(&self, module: u32) -> u8 {
        self.record(module)[12]
    }

    fn trailer(&self) -> &[u8] {
        &self.buffer[5 + 16 * self.n + 256..]
    }

    fn lock(&self) -> u8 {
        self.trailer()[0]
    }

    fn log(&self) -> Vec<u8> {
        let trailer = self.trailer();
        let length = usize::from(u16::from_be_bytes([trailer[4], trailer[5]]));
        let at = 5 + 16 * self.n;
        self.buffer[at..at + length].to_vec()
    }

    /// Follow link pointers from the lock word to nil.
    fn line(&self) -> Vec<u8> {
        let mut line = Vec::new();
        let mut next = self.lock();
        while next != 0 {
            assert!(line.len() <= self.n, "the line runs in a circle");
            line.push(next);
            next = self.link(u32::from(next)).0;
        }
        line
    }

    fn begin(&mut self, module: u32, priority: u32) {
        assert_eq!(
            begin_acquisition(&mut self.buffer, module, priority),
            Reply::answered(0)
        );
        assert_eq!(self.stage(module), 1);
    }

    fn release(&mut self, module: u32) {
        assert_eq!(begin_release(&mut self.buffer, module), Reply::answered(0));
        assert_eq!(self.stage(module), 14);
    }

    fn step(&mut self, module: u32) -> Reply {
        step(&mut self.buffer, module)
    }

    /// Step one module and hold its stages and answer numbers against the expected ones.
    fn walk(&mut self, module: u32, expected: &[(u8, u8)]) {
        for (position, (number, stage)) in expected.iter().enumerate() {
            let reply = self.step(module);
            let expected_reply = if *number == 2 {
                Reply::admitted(module as u8)
            } else {
                Reply::answered(*number)
            };
            assert_eq!(reply, expected_reply, "step {position} of module {module}");
            assert_eq!(
                self.stage(module),
                *stage,
                "stage after step {position} of module {module}"
            );
            assert!(broken_rules(&self.buffer).is_empty());
            assert_eq!(self.buffer[..5], [0xee; 5]);
        }
    }

    /// B1: module 1, priority 10, 4 steps.
    fn b1() -> Bench {
        let mut bench = Bench::fresh(3);
        bench.begin(1, 10);
        bench.walk(1, &FREE);
        bench
    }

    /// B2: then module 2, priority 5, 8 steps.
    fn b2() -> Bench {
        let mut bench = Bench::b1();
        bench.begin(2, 5);
        bench.walk(2, &BEHIND_ONE);
        bench
    }

    /// B3: then module 3, priority 8, 9 steps.
    fn b3() -> Bench {
        let mut bench = Bench::b2();
        bench.begin(3, 8);
        bench.walk(
            3,
            &[
                (0, 2),
                (0, 4),
                (0, 5),
                (0, 6),
                (0, 7),
                (0, 8),
                (0, 9),
                (3, 11),
                (0, 12),
            ],
        );
        bench
    }

    /// B5's start: after B1, module 2 at stage 9 and module 3 joined, at stage 11.
    fn b5_start() -> Bench {
        let mut bench = Bench::b1();
        bench.begin(2, 5);
        bench.walk(2, &[(0, 2), (0, 4), (0, 5), (0, 6), (0, 8), (0, 9)]);
        assert_eq!(bench.w(2), (0, OPEN, 2));
        bench.begin(3, 8);
        bench.walk(
            3,
            &[(0, 2), (0, 4), (0, 5), (0, 6), (0, 8), (0, 9), (3, 11)],
        );
        bench
    }
}

#[test]
fn the_listing_of_turns() {
    let mut image = vec![0; 1292];
    assert_eq!(set_up(&mut image, 1), Reply::answered(0));
    assert_eq!(begin_acquisition(&mut image, 1, 10), Reply::answered(0));
    assert_eq!(step(&mut image, 1), Reply::answered(0));
    assert_eq!(step(&mut image, 1), Reply::answered(3));
    assert_eq!(step(&mut image, 1), Reply::answered(0));
    assert_eq!(step(&mut image, 1), Reply::admitted(1));
    assert_eq!(begin_release(&mut image, 1), Reply::answered(0));
    assert_eq!(step(&mut image, 1), Reply::answered(4));
    assert_eq!(step(&mut image, 1), Reply::answered(0));
    assert_eq!(step(&mut image, 1), Reply::answered(5));
    assert_eq!(image[1280], 0, "lock 0");
    assert_eq!(image[1284..1286], [0, 1]);
    assert_eq!(image[1292 - 268], 1, "log 1");
    let mut log = [9; 3];
    assert_eq!(take_log(&mut image, &mut log), Reply::log_taken(1));
    assert_eq!(log, [1, 9, 9]);
}

#[test]
fn b1_taking_the_free_lock() {
    let bench = Bench::b1();
    assert_eq!(bench.stage(1), 13);
    assert_eq!(bench.link(1), (0, OPEN, 2));
    assert_eq!(bench.lock(), 1);
    assert_eq!(bench.log(), [1]);
    assert_eq!(
        bench.record_priority(1),
        255,
        "a module that takes a free lock raises its record"
    );
    assert_eq!(bench.record(1)[1], 10, "its own priority stays");
}

#[test]
fn b2_joining_behind() {
    let mut bench = Bench::b2();
    assert_eq!(bench.link(1), (2, OPEN, 3));
    assert_eq!(bench.link(2), (0, OPEN, 3));
    let before = bench.buffer.clone();
    bench.walk(2, &[(1, 12)]);
    assert_eq!(bench.buffer, before, "waiting changes nothing");
}

#[test]
fn b3_joining_between() {
    let bench = Bench::b3();
    assert_eq!(bench.link(1), (3, OPEN, 4));
    assert_eq!(bench.link(3), (2, OPEN, 3));
    assert_eq!(bench.line(), [1, 3, 2]);
}

#[test]
fn b4_releasing_to_the_successor() {
    let mut bench = Bench::b3();
    bench.release(1);
    bench.walk(1, &[(4, 15), (0, 16), (0, 17), (0, 18), (5, 0)]);
    assert_eq!(bench.lock(), 3);
    assert_eq!(bench.record_priority(3), 255);
    assert_eq!(bench.link(1), (3, CLOSED, 5));
    // What a row doesn't name keeps its value: record 1 keeps all but stage and own priority.
    assert_eq!(
        bench.record(1),
        [0, 0, 0, 0, 0, 0, 0, 0, 3, 1, 0, 5, 255, 0, 3, 0]
    );
    bench.walk(3, &[(2, 13)]);
    assert_eq!(bench.log(), [1, 3]);
    assert_eq!(bench.line(), [3, 2]);
}

#[test]
fn b5_overtaken_by_a_more_urgent_joiner() {
    let mut bench = Bench::b5_start();
    bench.walk(3, &[(0, 12)]);
    bench.walk(2, &[(0, 10)]);
    assert_eq!(bench.w(2), (3, OPEN, 3));
    bench.walk(
        2,
        &[
            (0, 5),
            (0, 6),
            (0, 7),
            (0, 5),
            (0, 6),
            (0, 8),
            (0, 9),
            (3, 11),
            (0, 12),
            (1, 12),
        ],
    );
    assert_eq!(bench.line(), [1, 3, 2]);
    assert_eq!(bench.link(1), (3, OPEN, 3));
    assert_eq!(bench.link(3), (2, OPEN, 4));
    // Pointed at 1, at 8, at 8 again; opened at 11.
    assert_eq!(bench.link(2), (0, OPEN, 4));
}

#[test]
fn b6_reading_a_joiner_that_is_still_closed() {
    let mut bench = Bench::b5_start();
    bench.walk(2, &[(0, 10), (0, 5), (0, 6), (0, 7), (0, 5)]);
    assert_eq!(bench.link(3), (0, CLOSED, 2));
    bench.walk(2, &[(0, 1)]);
    assert_eq!(
        bench.w(2),
        (0, CLOSED, 2),
        "w is written though it was closed"
    );
    assert_eq!(bench.stage(3), 11);
}

#[test]
fn b7_the_urgent_one_joins() {
    let mut bench = Bench::b1();
    bench.begin(3, 20);
    bench.walk(3, &BEHIND_ONE);
    bench.walk(3, &[(1, 12)]);
    assert_eq!(bench.stage(1), 13);
    assert_eq!(bench.line(), [1, 3]);
    assert_eq!(bench.link(1), (3, OPEN, 3));
    assert_eq!(bench.link(3), (0, OPEN, 3));
    // One that is less urgent stands behind it.
    bench.begin(2, 15);
    while bench.stage(2) != 12 {
        bench.step(2);
    }
    assert_eq!(bench.line(), [1, 3, 2]);
}

#[test]
fn the_urgent_one_starts_over_until_the_first_is_raised_and_open() {
    // Module 1 has the lock, and is at 19, then at 3: its link is closed.
    let mut bench = Bench::fresh(3);
    bench.begin(1, 10);
    bench.begin(3, 20);
    bench.walk(1, &FREE[..2]);
    bench.walk(3, &[(0, 2), (0, 4), (0, 5), (0, 1)]);
    assert_eq!(bench.record_priority(1), 10);
    bench.walk(1, &FREE[2..3]);
    assert_eq!(bench.record_priority(1), 255);
    bench.walk(3, &[(0, 2), (0, 4), (0, 5), (0, 1)]);
    assert_eq!(bench.log(), []);
    bench.walk(1, &FREE[3..]);
    bench.walk(3, &[(0, 2), (0, 4), (0, 5), (0, 6), (0, 8)]);
}

#[test]
fn b8_equals_stand_in_order_of_joining() {
    let mut bench = Bench::b1();
    for module in [2, 3] {
        bench.begin(module, 5);
        while bench.stage(module) != 12 {
            bench.step(module);
        }
    }
    assert_eq!(bench.line(), [1, 2, 3]);
}

#[test]
fn b9_the_count_wraps() {
    // Each operation in turn: point (1 and 8), open (3 and 11), close (14) and swap (9).
    for (stage, number, next) in [
        (1, 0, 2),
        (3, 2, 13),
        (8, 0, 9),
        (9, 3, 11),
        (11, 0, 12),
        (14, 4, 15),
    ] {
        let mut bench = Bench::fresh(3);
        let record = bench.record_mut(2);
        record[0] = stage;
        record[1] = 7;
        record[2] = 2; // prev is the module itself
        record[6..8].fill(0xff); // w's count
        record[10..12].fill(0xff); // the link's count
        record[4] = 1; // w closed, as the link is
        bench.walk(2, &[(number, next)]);
        assert_eq!(bench.link(2).2, 0, "stage {stage}");
    }
}

#[test]
fn b10_beginning_twice() {
    let mut bench = Bench::fresh(3);
    bench.begin(2, 10);
    let before = bench.buffer.clone();
    assert_eq!(
        begin_acquisition(&mut bench.buffer, 2, 10),
        Reply::Refused(4)
    );
    assert_eq!(bench.buffer, before);
}

#[test]
fn a_release_takes_3_own_steps_or_5() {
    let mut bench = Bench::b1();
    bench.release(1);
    bench.walk(1, &[(4, 15), (0, 16), (5, 0)]);
    assert_eq!(bench.lock(), 0);
    assert_eq!(bench.link(1), (0, CLOSED, 3));
    bench.begin(1, 4);
    assert_eq!(
        bench.record_priority(1),
        4,
        "raised no longer once it begins again"
    );
    bench.walk(1, &FREE);
    assert_eq!(
        bench.link(1),
        (0, OPEN, 5),
        "the lock can be taken again and counts go on"
    );
    assert_eq!(bench.log(), [1, 1]);
}

#[test]
fn a_joiner_that_comes_too_late_starts_over() {
    // Module 2 has read 1's link open and stands at 9 when 1 closes it.
    let mut bench = Bench::b1();
    bench.begin(2, 5);
    bench.walk(2, &[(0, 2), (0, 4), (0, 5), (0, 6), (0, 8), (0, 9)]);
    bench.release(1);
    bench.walk(1, &[(4, 15)]);
    bench.walk(2, &[(0, 1)]);
    assert_eq!(bench.w(2), (0, CLOSED, 3), "w := found");
    bench.walk(1, &[(0, 16), (5, 0)]);
    bench.walk(2, &FREE);
    assert_eq!(
        bench.record(2)[13],
        1,
        "Locked keeps its value when the lock is taken free"
    );
    assert_eq!(bench.log(), [1, 2]);
}
