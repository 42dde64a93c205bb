//! Each rule of a sound image, broken on each side, and kept at its very edge.

use reference::{broken_rules, set_up, Reply, LAST_STAGE, RULES, STAGE_RULE};

const MODULES: usize = 3;

fn fresh() -> Vec<u8> {
    let mut buffer = vec![0; 16 * MODULES + 268];
    assert_eq!(set_up(&mut buffer, MODULES as u32), Reply::answered(0));
    buffer
}

/// Byte offsets: of a byte of a record, of the log, of the trailer.
fn rec(module: usize, byte: usize) -> usize {
    16 * (module - 1) + byte
}
fn log(entry: usize) -> usize {
    16 * MODULES + entry
}
fn tra(byte: usize) -> usize {
    16 * MODULES + 256 + byte
}

fn with(puts: &[(usize, u8)]) -> Vec<u8> {
    let mut buffer = fresh();
    for (at, value) in puts {
        buffer[*at] = *value;
    }
    buffer
}

#[track_caller]
fn breaks(rule: &str, puts: &[(usize, u8)]) {
    assert!(
        RULES.iter().any(|known| known.name == rule),
        "no rule {rule}"
    );
    assert_eq!(broken_rules(&with(puts)), [rule]);
    assert!(!reference::is_sound(&with(puts)));
}

#[track_caller]
fn sound(puts: &[(usize, u8)]) {
    assert_eq!(broken_rules(&with(puts)), Vec::<&str>::new());
    assert!(reference::is_sound(&with(puts)));
}

/// At this stage with all that the stage asks for.
fn at(stage: u8) -> Vec<(usize, u8)> {
    let own = if stage == 0 { 0 } else { 9 };
    vec![
        (rec(2, 0), stage),
        (rec(2, 1), own),
        (rec(2, 2), 1),
        (rec(2, 3), 1),
        (rec(2, 14), 1),
    ]
}

fn at_but(stage: u8, byte: usize, value: u8) -> Vec<(usize, u8)> {
    let mut puts = at(stage);
    puts.push((rec(2, byte), value));
    puts
}

#[test]
fn the_trailer() {
    sound(&[]);
    for value in [0, 2, 255] {
        breaks("edition is 1", &[(tra(1), value)]);
    }
    breaks("trailer bytes 6 and 7 are zero", &[(tra(6), 1)]);
    breaks("trailer bytes 6 and 7 are zero", &[(tra(7), 128)]);
    breaks("distance is 16n + 256", &[(tra(11), 47)]);
    breaks("distance is 16n + 256", &[(tra(11), 32)]);
    // n one less than the distance tells.
    breaks("distance is 16n + 256", &[(tra(3), 2)]);
    // n = 0 with its own distance.
    breaks("n is 1 to 64", &[(tra(3), 0), (tra(11), 0)]);
    for value in [257_u16, 512, 65_535] {
        let [high, low] = value.to_be_bytes();
        breaks("log length is 0 to 256", &[(tra(4), high), (tra(5), low)]);
    }
    sound(&[(tra(0), 3)]);
    breaks("the lock word is 0 to n", &[(tra(0), 4)]);
    breaks("the lock word is 0 to n", &[(tra(0), 255)]);
}

#[test]
fn distance_and_room() {
    // Farther back than the buffer reaches, and not 16n + 256 either.
    for byte in 8..=10 {
        let mut broken = fresh();
        broken[tra(byte)] = 0xff;
        assert_eq!(
            broken_rules(&broken),
            [
                "the buffer holds all the trailer points back to",
                "distance is 16n + 256"
            ]
        );
    }
    // 65 modules in a buffer that holds them.
    let mut many = vec![0; 16 * 65 + 268];
    many[16 * 65 + 256 + 1] = 1;
    many[16 * 65 + 256 + 3] = 65;
    many[16 * 65 + 256 + 8..].copy_from_slice(&(16_u32 * 65 + 256).to_be_bytes());
    assert_eq!(broken_rules(&many), ["n is 1 to 64"]);
    // 64 are taken.
    let mut most = vec![0; 1292];
    assert_eq!(set_up(&mut most, 64), Reply::answered(0));
    assert!(broken_rules(&most).is_empty());
}

#[test]
fn every_length_of_buffer() {
    let whole = fresh();
    for cut in 1..=whole.len() {
        let rest = &whole[cut..];
        let expected = if rest.len() < 12 {
            "the buffer holds a trailer"
        } else {
            "the buffer holds all the trailer points back to"
        };
        assert_eq!(broken_rules(rest), [expected]);
    }
    let mut longer = vec![0xcc; 1000];
    longer.extend(&whole);
    assert!(broken_rules(&longer).is_empty(), "owner's bytes come first");
}

#[test]
fn the_log() {
    let length = |length: u16, mut puts: Vec<(usize, u8)>| {
        let [high, low] = length.to_be_bytes();
        puts.push((tra(4), high));
        puts.push((tra(5), low));
        puts
    };
    sound(&length(2, vec![(log(0), 1), (log(1), 3)]));
    breaks(
        "log entries are 1 to n",
        &length(2, vec![(log(0), 4), (log(1), 3)]),
    );
    breaks(
        "log entries are 1 to n",
        &length(2, vec![(log(0), 1), (log(1), 4)]),
    );
    breaks(
        "log entries are 1 to n",
        &length(2, vec![(log(0), 0), (log(1), 3)]),
    );
    breaks(
        "log entries are 1 to n",
        &length(2, vec![(log(0), 1), (log(1), 0)]),
    );
    breaks(
        "the rest of the log is 0",
        &length(2, vec![(log(0), 1), (log(1), 3), (log(2), 1)]),
    );
    breaks(
        "the rest of the log is 0",
        &length(2, vec![(log(0), 1), (log(1), 3), (log(255), 1)]),
    );
    breaks("the rest of the log is 0", &length(0, vec![(log(0), 1)]));
    let all: Vec<_> = (0..256).map(|entry| (log(entry), 2)).collect();
    sound(&length(256, all.clone()));
    breaks("the rest of the log is 0", &length(255, all.clone()));
    breaks("log entries are 1 to n", &length(256, all[..255].to_vec()));
}

#[test]
fn pointers_and_marks_in_every_record() {
    for module in 1..=MODULES {
        for (byte, name) in [
            (2, "prev is 0 to n"),
            (3, "w's pointer is 0 to n"),
            (8, "the link's pointer is 0 to n"),
            (14, "s is 0 to n"),
        ] {
            for value in 0..=3 {
                sound(&[(rec(module, byte), value)]);
            }
            for value in [4, 5, 64, 255] {
                breaks(name, &[(rec(module, byte), value)]);
            }
        }
        for (byte, name) in [
            (4, "w's mark is 0 or 1"),
            (9, "the link's mark is 0 or 1"),
            (13, "Locked is 0 or 1"),
        ] {
            sound(&[(rec(module, byte), 0)]);
            sound(&[(rec(module, byte), 1)]);
            for value in [2, 3, 128, 255] {
                breaks(name, &[(rec(module, byte), value)]);
            }
        }
        for (byte, name) in [(5, "record byte 5 is zero"), (15, "record byte 15 is zero")] {
            for value in [1, 255] {
                breaks(name, &[(rec(module, byte), value)]);
            }
        }
        for value in 0..=255 {
            sound(&[(rec(module, 12), value)]); // record priority may be any byte
            for byte in [6, 7, 10, 11] {
                sound(&[(rec(module, byte), value)]); // and so may counts
            }
        }
    }
}

#[test]
fn stages_and_what_they_ask() {
    for stage in 0..=19 {
        sound(&at(stage));
        // Own priority.
        if stage == 0 {
            for own in [1, 254, 255] {
                breaks("own priority is 0 at stage 0", &at_but(stage, 1, own));
            }
        } else {
            sound(&at_but(stage, 1, 1));
            sound(&at_but(stage, 1, 254));
            for own in [0, 255] {
                breaks("own priority is 1 to 254 elsewhere", &at_but(stage, 1, own));
            }
        }
        // prev.
        if (4..=10).contains(&stage) {
            breaks("prev isn't 0 at stages 4 to 10", &at_but(stage, 2, 0));
        } else {
            sound(&at_but(stage, 2, 0));
        }
        // w's pointer.
        if stage == 7 {
            breaks("w's pointer isn't 0 at stage 7", &at_but(stage, 3, 0));
        } else {
            sound(&at_but(stage, 3, 0));
        }
        // s.
        if stage == 17 || stage == 18 {
            breaks("s isn't 0 at stages 17 and 18", &at_but(stage, 14, 0));
        } else {
            sound(&at_but(stage, 14, 0));
        }
    }
    for stage in [20, 21, 25, 128, 255] {
        breaks("stage is 0 to 19", &at(stage));
    }
}

#[test]
fn the_rule_on_stages_tells_the_last_one() {
    assert_eq!(STAGE_RULE, format!("stage is 0 to {LAST_STAGE}"));
}

#[test]
fn every_rule_has_its_own_name() {
    for (position, rule) in RULES.iter().enumerate() {
        assert!(RULES[..position]
            .iter()
            .all(|other| other.name != rule.name));
    }
}
