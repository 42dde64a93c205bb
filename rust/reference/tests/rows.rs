//! Every outcome of every stage on images that no history reaches: prev, w's pointer, s and the
//! lock word may be the module itself, w may be closed, and what a row doesn't name stays.

use reference::{set_up, step, Reply, LAST_STAGE, STAGE_TABLE};

const OPEN: u8 = 0;
const CLOSED: u8 = 1;

#[derive(Clone)]
struct Image(Vec<u8>);

impl Image {
    /// Three modules. Module 2 is the one to step; it has a field of its own everywhere.
    fn at(stage: u8) -> Image {
        let mut buffer = vec![0x77; 3 + 16 * 3 + 268];
        assert_eq!(set_up(&mut buffer, 3), Reply::answered(0));
        Image(buffer)
            .put(2, 0, &[stage, 50, 3, 1, OPEN, 0, 1, 2])
            .put(2, 8, &[3, CLOSED, 3, 4, 60, 1, 3])
            .put(3, 8, &[1, OPEN, 5, 6, 50, 1, 0])
            .put(1, 8, &[0, OPEN, 7, 8, 50, 1, 0])
            .lock(1)
    }

    fn put(mut self, module: usize, byte: usize, values: &[u8]) -> Image {
        let at = 3 + 16 * (module - 1) + byte;
        self.0[at..at + values.len()].copy_from_slice(values);
        self
    }

    fn lock(mut self, module: u8) -> Image {
        let at = self.0.len() - 12;
        self.0[at] = module;
        self
    }

    fn logged(mut self, module: u8) -> Image {
        let at = self.0.len();
        self.0[at - 12 + 5] = 1;
        self.0[at - 268] = module;
        self
    }

    fn full(mut self) -> Image {
        let at = self.0.len();
        self.0[at - 268..at - 12].fill(1);
        self.0[at - 12 + 4] = 1;
        self
    }

    #[track_caller]
    fn steps_to(self, number: u8, expected: Image) {
        assert!(reference::is_sound(&self.0));
        let mut after = self.0.clone();
        let reply = if number == 2 {
            Reply::admitted(2)
        } else {
            Reply::answered(number)
        };
        assert_eq!(step(&mut after, 2), reply);
        assert_eq!(after, expected.0);
        assert!(reference::is_sound(&after));
    }
}

#[test]
fn stage_1() {
    Image::at(1).steps_to(0, Image::at(2).put(2, 8, &[0, CLOSED, 3, 5]));
    // The mark stays, also where it is open.
    Image::at(1)
        .put(2, 9, &[OPEN])
        .steps_to(0, Image::at(2).put(2, 8, &[0, OPEN, 3, 5]));
    // The count goes up also where nil was there already.
    Image::at(1)
        .put(2, 8, &[0])
        .steps_to(0, Image::at(2).put(2, 8, &[0, CLOSED, 3, 5]));
}

#[test]
fn stage_2() {
    Image::at(2).lock(0).steps_to(3, Image::at(19).lock(2));
    // The record is not raised yet, nor touched where it is raised already.
    Image::at(2)
        .lock(0)
        .put(2, 12, &[255])
        .steps_to(3, Image::at(19).lock(2).put(2, 12, &[255]));
    Image::at(2).steps_to(0, Image::at(4).put(2, 2, &[1]));
    // The lock word may be the module itself.
    Image::at(2)
        .lock(2)
        .steps_to(0, Image::at(4).put(2, 2, &[2]).lock(2));
}

#[test]
fn stage_3() {
    // The record priority stays: 60, as a desk of before R-1 leaves it, or 255.
    Image::at(3).steps_to(2, Image::at(13).put(2, 9, &[OPEN, 3, 5]).logged(2));
    Image::at(3)
        .put(2, 12, &[255])
        .steps_to(2, Image::at(13).put(2, 9, &[OPEN, 3, 5, 255]).logged(2));
    Image::at(3)
        .put(2, 9, &[OPEN])
        .steps_to(2, Image::at(13).put(2, 9, &[OPEN, 3, 5]).logged(2));
}

#[test]
fn stage_4() {
    Image::at(4)
        .put(2, 13, &[0])
        .steps_to(0, Image::at(5).put(2, 13, &[1]));
    Image::at(4).steps_to(0, Image::at(5));
}

#[test]
fn stage_5() {
    Image::at(5).steps_to(0, Image::at(6).put(2, 3, &[1, OPEN, 0, 5, 6]));
    Image::at(5).put(3, 9, &[CLOSED]).steps_to(
        0,
        Image::at(1)
            .put(3, 9, &[CLOSED])
            .put(2, 3, &[1, CLOSED, 0, 5, 6]),
    );
    // prev may be the module itself.
    Image::at(5).put(2, 2, &[2]).steps_to(
        0,
        Image::at(1)
            .put(2, 2, &[2])
            .put(2, 3, &[3, CLOSED, 0, 3, 4]),
    );
}

#[test]
fn stage_6() {
    let prev_has = |priority: u8, image: Image| image.put(3, 12, &[priority]);
    for below in [0, 1, 49] {
        prev_has(below, Image::at(6)).steps_to(0, prev_has(below, Image::at(1)));
    }
    for not_below in [50, 51, 255] {
        prev_has(not_below, Image::at(6)).steps_to(0, prev_has(not_below, Image::at(7)));
        prev_has(not_below, Image::at(6).put(2, 3, &[0]))
            .steps_to(0, prev_has(not_below, Image::at(8).put(2, 3, &[0])));
    }
    // Below own has the first word, also where w's pointer is nil.
    prev_has(49, Image::at(6).put(2, 3, &[0]))
        .steps_to(0, prev_has(49, Image::at(1).put(2, 3, &[0])));
    // It is own priority, not the own record's: prev is the module, its record priority is 60.
    Image::at(6)
        .put(2, 2, &[2])
        .steps_to(0, Image::at(7).put(2, 2, &[2]));
    Image::at(6)
        .put(2, 2, &[2])
        .put(2, 12, &[49])
        .steps_to(0, Image::at(1).put(2, 2, &[2]).put(2, 12, &[49]));
    // A closed w makes no difference here.
    Image::at(6)
        .put(2, 4, &[CLOSED])
        .steps_to(0, Image::at(7).put(2, 4, &[CLOSED]));
}

#[test]
fn stage_7() {
    for below in [0, 49] {
        Image::at(7)
            .put(1, 12, &[below])
            .steps_to(0, Image::at(8).put(1, 12, &[below]));
    }
    for not_below in [50, 51, 255] {
        Image::at(7)
            .put(1, 12, &[not_below])
            .steps_to(0, Image::at(5).put(1, 12, &[not_below]).put(2, 2, &[1]));
    }
    Image::at(7)
        .put(2, 3, &[2])
        .steps_to(0, Image::at(5).put(2, 3, &[2]).put(2, 2, &[2]));
}

#[test]
fn stage_8() {
    Image::at(8).steps_to(0, Image::at(9).put(2, 8, &[1, CLOSED, 3, 5]));
    Image::at(8)
        .put(2, 3, &[0])
        .put(2, 9, &[OPEN])
        .steps_to(0, Image::at(9).put(2, 3, &[0]).put(2, 8, &[0, OPEN, 3, 5]));
    Image::at(8).put(2, 3, &[2]).steps_to(
        0,
        Image::at(9).put(2, 3, &[2]).put(2, 8, &[2, CLOSED, 3, 5]),
    );
}

#[test]
fn stage_9() {
    let same = |image: Image| image.put(2, 3, &[1, OPEN, 0, 5, 6]);
    same(Image::at(9)).steps_to(3, same(Image::at(11)).put(3, 8, &[2, OPEN, 5, 7]));
    // All three parts count: pointer, mark, either byte of the count.
    for w in [
        [0, OPEN, 0, 5, 6],
        [1, CLOSED, 0, 5, 6],
        [1, OPEN, 0, 4, 6],
        [1, OPEN, 0, 5, 5],
    ] {
        Image::at(9).put(2, 3, &w).steps_to(0, same(Image::at(10)));
    }
    // Failed and found closed.
    let closed = |image: Image| image.put(3, 9, &[CLOSED]);
    closed(Image::at(9)).steps_to(0, closed(Image::at(1)).put(2, 3, &[1, CLOSED, 0, 5, 6]));
    // Equal though w is closed: the swap succeeds and opens the link.
    closed(Image::at(9))
        .put(2, 3, &[1, CLOSED, 0, 5, 6])
        .steps_to(
            3,
            Image::at(11)
                .put(2, 3, &[1, CLOSED, 0, 5, 6])
                .put(3, 8, &[2, OPEN, 5, 7]),
        );
    // prev may be the module itself, and the pointer may be this module already.
    Image::at(9)
        .put(2, 2, &[2, 2, OPEN, 0, 3, 4, 2, OPEN])
        .steps_to(
            3,
            Image::at(11).put(2, 2, &[2, 2, OPEN, 0, 3, 4, 2, OPEN, 3, 5]),
        );
    // After 65,535 comes 0.
    Image::at(9)
        .put(2, 6, &[0xff, 0xff])
        .put(3, 10, &[0xff, 0xff])
        .steps_to(
            3,
            Image::at(11)
                .put(2, 6, &[0xff, 0xff])
                .put(3, 8, &[2, OPEN, 0, 0]),
        );
}

#[test]
fn stage_10() {
    Image::at(10).steps_to(0, Image::at(5));
    Image::at(10)
        .put(3, 12, &[49])
        .steps_to(0, Image::at(1).put(3, 12, &[49]));
    Image::at(10)
        .put(3, 12, &[255])
        .steps_to(0, Image::at(5).put(3, 12, &[255]));
}

#[test]
fn stage_11() {
    Image::at(11).steps_to(0, Image::at(12).put(2, 9, &[OPEN, 3, 5]));
    Image::at(11)
        .put(2, 9, &[OPEN, 255, 255])
        .steps_to(0, Image::at(12).put(2, 9, &[OPEN, 0, 0]));
}

#[test]
fn stage_12() {
    Image::at(12).steps_to(1, Image::at(12));
    Image::at(12)
        .put(2, 13, &[0])
        .steps_to(2, Image::at(13).put(2, 13, &[0]).logged(2));
}

#[test]
fn stage_14() {
    Image::at(14)
        .put(2, 9, &[OPEN])
        .steps_to(4, Image::at(15).put(2, 9, &[CLOSED, 3, 5]));
    Image::at(14).steps_to(4, Image::at(15).put(2, 9, &[CLOSED, 3, 5]));
}

#[test]
fn stage_15() {
    Image::at(15)
        .put(2, 14, &[0])
        .steps_to(0, Image::at(16).put(2, 14, &[3]));
    Image::at(15)
        .put(2, 8, &[2])
        .steps_to(0, Image::at(16).put(2, 8, &[2]).put(2, 14, &[2]));
    Image::at(15)
        .put(2, 8, &[0])
        .steps_to(0, Image::at(16).put(2, 8, &[0]).put(2, 14, &[0]));
}

#[test]
fn stage_16() {
    Image::at(16)
        .put(2, 14, &[0])
        .steps_to(5, Image::at(0).put(2, 1, &[0]).put(2, 14, &[0]).lock(0));
    Image::at(16).steps_to(0, Image::at(17).lock(3));
    Image::at(16)
        .put(2, 14, &[2])
        .steps_to(0, Image::at(17).put(2, 14, &[2]).lock(2));
}

#[test]
fn stage_17() {
    Image::at(17).steps_to(0, Image::at(18).put(3, 12, &[255]));
    Image::at(17)
        .put(2, 14, &[2])
        .steps_to(0, Image::at(18).put(2, 14, &[2]).put(2, 12, &[255]));
}

#[test]
fn stage_18() {
    Image::at(18).steps_to(5, Image::at(0).put(2, 1, &[0]).put(3, 13, &[0]));
    Image::at(18)
        .put(2, 14, &[2])
        .steps_to(5, Image::at(0).put(2, 1, &[0]).put(2, 13, &[0, 2]));
}

#[test]
fn stage_19() {
    Image::at(19).steps_to(0, Image::at(3).put(2, 12, &[255]));
    // Whatever it was: 0, own priority, or 255 already.
    for priority in [0, 50, 254, 255] {
        Image::at(19)
            .put(2, 12, &[priority])
            .steps_to(0, Image::at(3).put(2, 12, &[255]));
    }
    // Nobody else's record, link or own priority: prev and s are another module, the module itself,
    // or nil; w's pointer may be nil, and the lock word another's, or nil.
    for other in [0, 2, 3] {
        let names = |image: Image| {
            image
                .put(2, 2, &[other, 0])
                .put(2, 14, &[other])
                .lock(other)
        };
        names(Image::at(19)).steps_to(0, names(Image::at(3)).put(2, 12, &[255]));
    }
    // It admits nobody, so a full log is no hindrance.
    Image::at(19)
        .full()
        .steps_to(0, Image::at(3).put(2, 12, &[255]).full());
}

#[test]
fn the_table_has_every_stage_with_a_step() {
    for stage in 0..=LAST_STAGE {
        let rows = STAGE_TABLE.iter().filter(|row| row.stage == stage).count();
        assert_eq!(rows == 0, stage == 0 || stage == 13, "stage {stage}");
    }
}
