//! R-2 of document 02: whose turn it is, what becomes of the marker, and the refusals in their order.

use reference::{
    begin_acquisition, begin_release, set_up, step, take_log, turn, Reply, LAST_STAGE,
};

/// Behind three owner's bytes a sound table whose modules are at these stages, each with a prev, w's
/// pointer and s, and an open link to nobody. Nobody waits: Locked is 0.
fn table(stages: &[u8]) -> Vec<u8> {
    let mut buffer = vec![0x99; 3 + 16 * stages.len() + 268];
    assert_eq!(set_up(&mut buffer, stages.len() as u32), Reply::answered(0));
    for (place, stage) in stages.iter().enumerate() {
        let own = if *stage == 0 { 0 } else { 7 };
        let at = 3 + 16 * place;
        buffer[at..at + 4].copy_from_slice(&[*stage, own, 1, 1]);
        buffer[at + 9] = 0;
        buffer[at + 14] = 1;
    }
    assert!(reference::is_sound(&buffer));
    buffer
}

/// The same with 256 entries in the log.
fn full(stages: &[u8]) -> Vec<u8> {
    let mut buffer = table(stages);
    let trailer = buffer.len() - 12;
    buffer[trailer - 256..trailer].fill(1);
    buffer[trailer + 4] = 1;
    assert!(reference::is_sound(&buffer));
    buffer
}

/// A turn with this marker steps this module, exactly as the call does, and leaves it in the marker.
#[track_caller]
fn serves(before: &[u8], last: u32, module: u32) -> Reply {
    let (mut after, mut stepped, mut marker) = (before.to_vec(), before.to_vec(), last);
    let reply = turn(&mut after, &mut marker);
    assert_eq!(reply, step(&mut stepped, module));
    assert!(matches!(reply, Reply::Answered { .. }), "{reply:?}");
    assert_eq!((after, marker), (stepped, module));
    reply
}

/// A turn with this marker says this and leaves image and marker as they are.
#[track_caller]
fn keeps(before: &[u8], last: u32, said: Reply) {
    let (mut after, mut marker) = (before.to_vec(), last);
    assert_eq!(turn(&mut after, &mut marker), said);
    assert_eq!((&after[..], marker), (before, last));
}

#[test]
fn the_first_after_the_marker_around_the_table() {
    // All can step: the next one, and after the last the first.
    for (last, module) in [(1, 2), (2, 3), (3, 4), (4, 1)] {
        serves(&table(&[1, 1, 1, 1]), last, module);
    }
    // Some can't: at stage 0, at stage 13.
    for (last, module) in [(1, 2), (2, 5), (3, 5), (4, 5), (5, 2)] {
        serves(&table(&[0, 1, 13, 0, 1]), last, module);
    }
    // The marker's own module is the last one, and is served where it alone can step.
    for last in 1..=3 {
        serves(&table(&[0, 1, 13]), last, 2);
    }
    serves(&table(&[1]), 1, 1);
    // At every n, from the last module to the first and to the last again.
    for n in 1..=64 {
        let mut stages = vec![0; n];
        stages[0] = 1;
        serves(&table(&stages), n as u32, 1);
        stages[0] = 13;
        stages[n - 1] = 1;
        serves(&table(&stages), n as u32, n as u32);
    }
}

#[test]
fn everybody_but_at_stages_0_and_13_can_step() {
    for stage in 0..=LAST_STAGE as u8 {
        let before = table(&[stage, 1]);
        serves(&before, 2, if [0, 13].contains(&stage) { 2 } else { 1 });
    }
    // Also where the step changes nothing: at stage 12 with Locked 1.
    let mut waits = table(&[12, 1]);
    waits[3 + 13] = 1;
    assert_eq!(serves(&waits, 2, 1), Reply::answered(1));
}

#[test]
fn the_answer_is_the_steps() {
    for (stage, said) in [
        (1, Reply::answered(0)),
        (2, Reply::answered(3)),
        (3, Reply::admitted(2)),
        (12, Reply::admitted(2)),
        (14, Reply::answered(4)),
        (18, Reply::answered(5)),
    ] {
        assert_eq!(serves(&table(&[0, stage, 13]), 3, 2), said);
    }
}

#[test]
fn nobody_answers_9_and_all_stays() {
    for stages in [&[0][..], &[13], &[0, 0, 0], &[0, 13, 0], &[13, 13, 13]] {
        for last in 1..=stages.len() as u32 {
            keeps(&table(stages), last, Reply::answered(9));
            keeps(&full(stages), last, Reply::answered(9));
        }
    }
}

#[test]
fn a_wrong_marker_is_refused_by_10_after_1() {
    let before = table(&[1, 1, 1]);
    // Also where the log is full and everybody would be admitted; and where nobody can step.
    for before in [&before, &full(&[3, 3, 12]), &table(&[0, 13, 0])] {
        for last in [0, 4, 64, 65, 255, 256, 257, 65_537, u32::MAX] {
            keeps(before, last, Reply::Refused(10));
        }
    }
    let mut sick = before.clone();
    sick[3 + 5] = 1;
    for last in [0, 1, 3, 4, u32::MAX] {
        keeps(&sick, last, Reply::Refused(1));
        keeps(&[], last, Reply::Refused(1));
    }
}

#[test]
fn a_full_log_refuses_by_5_until_it_is_taken() {
    for stage in [3, 12] {
        // Module 2 would be admitted; 3 could step, and is not come to.
        let mut image = full(&[0, stage, 1]);
        keeps(&image, 1, Reply::Refused(5));
        keeps(&image, 1, Reply::Refused(5));
        serves(&image, 2, 3);
        let mut log = [0; 256];
        assert_eq!(take_log(&mut image, &mut log), Reply::log_taken(256));
        assert_eq!(serves(&image, 1, 2), Reply::admitted(2));
    }
    // A step that admits nobody goes on: raising, and waiting.
    serves(&full(&[0, 19, 3]), 1, 2);
    let mut waits = full(&[0, 12, 3]);
    waits[3 + 16 + 13] = 1;
    assert_eq!(serves(&waits, 1, 2), Reply::answered(1));
}

/// From a fresh table of three by turns alone. The first marker is n, so module 1 comes first.
#[test]
fn a_history_by_turns() {
    let mut image = vec![0; 16 * 3 + 268];
    let mut marker = 3;
    assert_eq!(set_up(&mut image, 3), Reply::answered(0));
    let mut turns = |image: &mut [u8], expected: &[(u32, u8)]| {
        for (module, number) in expected {
            let said = match number {
                2 => Reply::admitted(*module as u8),
                _ => Reply::answered(*number),
            };
            assert_eq!((turn(image, &mut marker), marker), (said, *module));
        }
    };
    turns(&mut image, &[(3, 9)]);
    assert_eq!(begin_acquisition(&mut image, 1, 10), Reply::answered(0));
    assert_eq!(begin_acquisition(&mut image, 3, 20), Reply::answered(0));
    // 1 takes stages 1, 2 (joined), 19 and 3 (admitted). 3 takes 1, 2, 4; and reads at 5 the link of
    // 1 open, since 1 was served before it.
    let to_the_lock = [(1, 0), (3, 0), (1, 3), (3, 0), (1, 0), (3, 0), (1, 2)];
    turns(&mut image, &to_the_lock);
    // 3 alone: stages 5, 6, 8, 9 (joined), 11, and it waits at 12.
    turns(
        &mut image,
        &[(3, 0), (3, 0), (3, 0), (3, 3), (3, 0), (3, 1), (3, 1)],
    );
    assert_eq!(begin_release(&mut image, 1), Reply::answered(0));
    // The release, 14 to 18, between turns of one that waits; then that one is let in.
    let released = [
        (1, 4),
        (3, 1),
        (1, 0),
        (3, 1),
        (1, 0),
        (3, 1),
        (1, 0),
        (3, 1),
        (1, 5),
    ];
    turns(&mut image, &released);
    turns(&mut image, &[(3, 2), (3, 9)]);
    let mut log = [0; 2];
    assert_eq!(take_log(&mut image, &mut log), Reply::log_taken(2));
    assert_eq!(log, [1, 3]);
}
