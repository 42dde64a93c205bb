//! Each refusal number of each call, that the lowest is given, and that nothing changes.

use reference::{begin_acquisition, begin_release, set_up, step, take_log, Reply, LAST_STAGE};

const MODULES: usize = 3;
const OWNER: usize = 4;

/// A sound image of three modules behind four owner's bytes, with given bytes put into records.
fn image(puts: &[(u8, usize, u8)]) -> Vec<u8> {
    let mut buffer = vec![0xaa; OWNER + 16 * MODULES + 268];
    assert_eq!(set_up(&mut buffer, MODULES as u32), Reply::answered(0));
    for (module, byte, value) in puts {
        buffer[OWNER + 16 * (usize::from(*module) - 1) + byte] = *value;
    }
    buffer
}

fn with_log(mut buffer: Vec<u8>, entries: usize) -> Vec<u8> {
    let log_at = OWNER + 16 * MODULES;
    buffer[log_at..log_at + entries].fill(2);
    buffer[log_at + 256 + 4..log_at + 256 + 6].copy_from_slice(&(entries as u16).to_be_bytes());
    buffer
}

/// Carry out a call that must be refused by this number and change no byte.
fn refused(number: u8, buffer: &[u8], call: impl FnOnce(&mut [u8]) -> Reply) {
    let mut after = buffer.to_vec();
    assert_eq!(call(&mut after), Reply::Refused(number));
    assert_eq!(after, buffer);
}

#[test]
fn unsound_comes_first_in_every_call_but_set_up() {
    let mut sick = image(&[(2, 5, 1)]);
    refused(1, &sick, |i| begin_acquisition(i, 1, 10));
    refused(1, &sick, |i| begin_acquisition(i, 0, 10));
    refused(1, &sick, |i| begin_acquisition(i, 9, 0));
    refused(1, &sick, |i| begin_release(i, 1));
    refused(1, &sick, |i| begin_release(i, u32::MAX));
    refused(1, &sick, |i| step(i, 1));
    refused(1, &sick, |i| step(i, 0));
    let mut log = [7; 300];
    refused(1, &sick, |i| take_log(i, &mut log));
    assert_eq!(log, [7; 300]);
    assert_eq!(
        set_up(&mut sick, 3),
        Reply::answered(0),
        "set-up looks at no earlier byte"
    );
    assert_eq!(sick, image(&[]));
}

#[test]
fn unknown_modules_are_refused_by_2() {
    let sound = image(&[]);
    for p in [0, 4, 64, 65, 255, 256, 257, 259, 65_537, u32::MAX] {
        refused(2, &sound, |i| begin_acquisition(i, p, 10));
        refused(2, &sound, |i| begin_release(i, p));
        refused(2, &sound, |i| step(i, p));
        // 2 before 3
        refused(2, &sound, |i| begin_acquisition(i, p, 0));
    }
    for p in 1..=3 {
        assert_eq!(
            begin_acquisition(&mut sound.clone(), p, 10),
            Reply::answered(0)
        );
    }
}

#[test]
fn priorities_out_of_range_are_refused_by_3() {
    let sound = image(&[]);
    let busy = image(&[(2, 0, 1), (2, 1, 10)]);
    for priority in [0, 255, 256, 257, 510, 999, 65_537, u32::MAX] {
        refused(3, &sound, |i| begin_acquisition(i, 2, priority));
        // 3 before 4
        refused(3, &busy, |i| begin_acquisition(i, 2, priority));
    }
    for priority in [1, 2, 253, 254] {
        let mut after = sound.clone();
        assert_eq!(
            begin_acquisition(&mut after, 2, priority),
            Reply::answered(0)
        );
        assert_eq!(
            after,
            image(&[(2, 0, 1), (2, 1, priority as u8), (2, 12, priority as u8)])
        );
    }
}

#[test]
fn wrong_stages_are_refused_by_4() {
    for stage in 0..=LAST_STAGE as u8 {
        let own = if stage == 0 { 0 } else { 10 };
        let at_stage = image(&[(2, 0, stage), (2, 1, own), (2, 2, 1), (2, 3, 1), (2, 14, 1)]);
        let mut after = at_stage.clone();
        match stage {
            0 => {
                assert_eq!(begin_acquisition(&mut after, 2, 10), Reply::answered(0));
                refused(4, &at_stage, |i| begin_release(i, 2));
                refused(4, &at_stage, |i| step(i, 2));
            }
            13 => {
                assert_eq!(begin_release(&mut after, 2), Reply::answered(0));
                let mut expected = at_stage.clone();
                expected[OWNER + 16] = 14;
                assert_eq!(after, expected);
                refused(4, &at_stage, |i| begin_acquisition(i, 2, 10));
                refused(4, &at_stage, |i| step(i, 2));
            }
            _ => {
                assert!(matches!(step(&mut after, 2), Reply::Answered { .. }));
                refused(4, &at_stage, |i| begin_acquisition(i, 2, 10));
                refused(4, &at_stage, |i| begin_release(i, 2));
            }
        }
    }
}

#[test]
fn a_full_log_refuses_admissions_by_5() {
    for (stage, locked) in [(3, 0), (3, 1), (12, 0)] {
        let admits = image(&[(2, 0, stage), (2, 1, 10), (2, 13, locked)]);
        let full = with_log(admits.clone(), 256);
        refused(5, &full, |i| step(i, 2));
        // One place is left: it is used.
        let mut last = with_log(admits, 255);
        assert_eq!(step(&mut last, 2), Reply::admitted(2));
        assert_eq!(last[OWNER + 48 + 255], 2);
        assert_eq!(last[OWNER + 48 + 256 + 4..][..2], [1, 0]);
    }
    // Waiting admits nobody.
    let mut waiting = with_log(image(&[(2, 0, 12), (2, 1, 10), (2, 13, 1)]), 256);
    let before = waiting.clone();
    assert_eq!(step(&mut waiting, 2), Reply::answered(1));
    assert_eq!(waiting, before);
    // Nor does raising, though the next step would.
    let mut raising = with_log(image(&[(2, 0, 19), (2, 1, 10)]), 256);
    assert_eq!(step(&mut raising, 2), Reply::answered(0));
    refused(5, &raising, |i| step(i, 2));
    // Taking the log makes its room usable again.
    let mut full = with_log(image(&[(2, 0, 3), (2, 1, 10)]), 256);
    let mut log = [0; 256];
    assert_eq!(take_log(&mut full, &mut log), Reply::log_taken(256));
    assert_eq!(log, [2; 256]);
    assert_eq!(step(&mut full, 2), Reply::admitted(2));
    assert_eq!(full[OWNER + 48..OWNER + 50], [2, 0]);
}

#[test]
fn a_short_log_buffer_is_refused_by_6() {
    let held = with_log(image(&[]), 5);
    for room in 0..5 {
        let mut log = vec![7; room];
        refused(6, &held, |i| take_log(i, &mut log));
        assert_eq!(log, vec![7; room]);
    }
    for room in [5, 6, 300] {
        let mut log = vec![7; room];
        let mut after = held.clone();
        assert_eq!(take_log(&mut after, &mut log), Reply::log_taken(5));
        assert_eq!(after, image(&[]));
        assert_eq!(log[..5], [2; 5]);
        assert!(log[5..].iter().all(|byte| *byte == 7));
    }
    assert_eq!(take_log(&mut image(&[]), &mut []), Reply::log_taken(0));
}

#[test]
fn set_up_refuses_by_7_and_8() {
    for n in [0, 65, 66, 255, 256, 257, 65_537, u32::MAX] {
        refused(7, &vec![3; 5000], |i| set_up(i, n));
        // 7 before 8
        refused(7, &[], |i| set_up(i, n));
    }
    for n in 1..=64 {
        let least = 16 * n as usize + 268;
        for short in [0, 11, 12, 283, least - 1] {
            refused(8, &vec![3; short.min(least - 1)], |i| set_up(i, n));
        }
        let mut buffer = vec![3; least];
        assert_eq!(set_up(&mut buffer, n), Reply::answered(0));
    }
    refused(8, &[3; 283], |i| set_up(i, 1));
    refused(8, &[3; 1291], |i| set_up(i, 64));
}

#[test]
fn a_fresh_image_is_zero_but_for_closed_marks_and_the_trailer() {
    for n in 1..=64_usize {
        let mut buffer = vec![0x5a; 9 + 16 * n + 268];
        assert_eq!(set_up(&mut buffer, n as u32), Reply::answered(0));
        let mut expected = vec![0x5a; 9];
        for _ in 0..n {
            expected.extend([0, 0, 0, 0, 0, 0, 0, 0, 0, 1, 0, 0, 0, 0, 0, 0]);
        }
        expected.extend([0; 256]);
        let distance = (16 * n + 256) as u32;
        expected.extend([0, 1, 0, n as u8, 0, 0, 0, 0]);
        expected.extend(distance.to_be_bytes());
        assert_eq!(buffer, expected);
        assert!(reference::is_sound(&buffer));
    }
}
