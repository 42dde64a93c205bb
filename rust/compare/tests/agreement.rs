//! The plain desk against the reference, and the program `turns` against a naive one.

use cases::{random_script, Call, Rng};
use compare::{drive, sweep, Desk, Lent, PlainDesk, ReferenceDesk};

#[test]
fn the_plain_desk_agrees_with_the_reference_and_every_class_is_met() {
    for seed in [10, 11] {
        match drive(&mut ReferenceDesk, &mut PlainDesk, seed, 1_000_000) {
            Err(difference) => panic!("seed {seed}\n{difference}"),
            Ok(coverage) => {
                assert_eq!(coverage.never_hit(), Vec::<String>::new(), "seed {seed}");
                assert_eq!(coverage.strangers(), 0);
            }
        }
    }
}

#[test]
fn they_agree_on_every_value_of_every_byte() {
    match sweep(&mut ReferenceDesk, &mut PlainDesk, 12) {
        Err(difference) => panic!("{difference}"),
        Ok(calls) => assert!(calls > 1_000_000),
    }
}

#[test]
fn cases_are_the_same_for_the_same_seed_and_others_for_another() {
    let hits = |seed| {
        let coverage = drive(&mut ReferenceDesk, &mut PlainDesk, seed, 20_000).unwrap();
        coverage.classes()
    };
    assert_eq!(hits(1), hits(1));
    assert_ne!(hits(1), hits(2));
}

#[test]
fn counts_wrap_in_a_history_of_their_own() {
    // Three changes a round: point, open, close. No byte is set but by calls.
    let mut left = vec![0; 284];
    let mut right = vec![0; 284];
    let mut both = |call: Call| {
        let mut said = Vec::new();
        let desks: [(&mut dyn Desk, &mut Vec<u8>); 2] = [
            (&mut ReferenceDesk, &mut left),
            (&mut PlainDesk, &mut right),
        ];
        for (desk, image) in desks {
            said.push(desk.call(image, &mut Lent::default(), &call));
        }
        assert_eq!(said[0], said[1]);
        assert!(!said[0].refused);
        assert_eq!(left, right);
        u16::from_be_bytes([left[10], left[11]])
    };
    both(Call::SetUp { n: 1 });
    let mut changes = 0_u32;
    while changes < 2 * 65_536 + 10 {
        both(Call::BeginAcquisition { p: 1, priority: 9 });
        // Stages 1, 2, 19 and 3.
        for _ in 0..4 {
            both(Call::Step { p: 1 });
        }
        both(Call::BeginRelease { p: 1 });
        for _ in 0..3 {
            both(Call::Step { p: 1 });
        }
        changes += 3;
        let count = both(Call::TakeLog { buffer: vec![0; 1] });
        assert_eq!(u32::from(count), changes % 65_536);
    }
}

/// The program `turns` over the reference, written as naively as can be: all input at once, and a
/// line is a command if it is what the command would be written like.
fn naive_turns(input: &[u8]) -> String {
    let mut image = vec![0; 1292];
    let mut output = String::new();
    let mut lines: Vec<&[u8]> = input.split(|byte| *byte == 10).collect();
    if lines.last() == Some(&&b""[..]) {
        lines.pop();
    }
    for line in lines {
        let text = String::from_utf8_lossy(line).into_owned();
        let numbers: Vec<u32> = text
            .split(' ')
            .skip(1)
            .map_while(|field| field.parse().ok())
            .take_while(|number| *number <= 999)
            .collect();
        let written = |name: &str| {
            let fields: Vec<String> = numbers.iter().map(u32::to_string).collect();
            format!("{name} {}", fields.join(" ")).into_bytes() == line
        };
        let reply = match numbers[..] {
            [n] if written("n") => reference::set_up(&mut image, n),
            [p, r] if written("a") => reference::begin_acquisition(&mut image, p, r),
            [p] if written("s") => reference::step(&mut image, p),
            [p] if written("r") => reference::begin_release(&mut image, p),
            _ => reference::Reply::Refused(9),
        };
        output += &match reply {
            reference::Reply::Refused(number) => format!("x {number}\n"),
            reference::Reply::Answered { number, .. } => format!("{number}\n"),
        };
    }
    let lock = if reference::is_sound(&image) {
        image[1280]
    } else {
        0
    };
    output += &format!("lock {lock}\nlog");
    let mut log = [0; 256];
    if let reference::Reply::Answered {
        log_length: Some(length),
        ..
    } = reference::take_log(&mut image, &mut log)
    {
        for entry in &log[..usize::from(length)] {
            output += &format!(" {entry}");
        }
    }
    output + "\n"
}

#[test]
fn the_program_agrees_with_a_naive_one() {
    let mut rng = Rng::new(99);
    let mut admissions = 0;
    let mut malformed = 0;
    for _ in 0..3000 {
        let script = random_script(&mut rng);
        let mut output = Vec::new();
        plain::turns::run(&script[..], &mut output).unwrap();
        let output = String::from_utf8(output).unwrap();
        assert_eq!(
            output,
            naive_turns(&script),
            "{:?}",
            String::from_utf8_lossy(&script)
        );
        admissions += output.lines().filter(|line| *line == "2").count();
        malformed += output.lines().filter(|line| *line == "x 9").count();
    }
    assert!(admissions > 1000, "{admissions}");
    assert!(malformed > 1000, "{malformed}");
}
