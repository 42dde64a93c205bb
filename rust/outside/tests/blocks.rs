//! `plain_block` says and writes what `plain` does.

use cases::{Call, Stream};
use compare::Lent;

macro_rules! said {
    ($desk:ident, $given:expr, $call:expr) => {{
        let (image, lent): &mut (Vec<u8>, Lent) = $given;
        match $call {
            Call::SetUp { n } => $desk::set_up(image, *n),
            Call::BeginAcquisition { p, priority } => {
                $desk::begin_acquisition(image, *p, *priority)
            }
            Call::BeginRelease { p } => $desk::begin_release(image, *p),
            Call::Step { p } => $desk::step(image, *p),
            Call::TakeLog { .. } => $desk::take_log(image, &mut lent.log),
            Call::Turn { .. } => $desk::turn(image, &mut lent.last),
        }
        .map(|answer| format!("{answer:?}"))
        .map_err(|refusal| refusal.number())
    }};
}

#[test]
fn no_difference() {
    let mut stream = Stream::new(4);
    let (mut calls, mut refused_unsound) = (0, 0);
    while calls < 300_000 {
        let mut case = stream.next_case();
        let mut one = (case.image.clone(), Lent::default());
        while let Some(call) = case.next_call(&one.0, one.1.last) {
            one.1.give(&call);
            let mut other = one.clone();
            let said = said!(plain, &mut one, &call);
            assert_eq!(said, said!(plain_block, &mut other, &call));
            assert_eq!(one, other);
            refused_unsound += usize::from(said == Err(1));
            calls += 1;
        }
    }
    assert!(refused_unsound > 1000, "{refused_unsound}");
}
