//! The archive against the reference.

use compare::{drive, sweep, ReferenceDesk};
use outside::ArchiveDesk;

#[test]
fn no_difference() {
    let coverage = drive(&mut ReferenceDesk, &mut ArchiveDesk::default(), 2, 500_000)
        .unwrap_or_else(|difference| panic!("{difference}"));
    assert_eq!(coverage.never_hit(), Vec::<String>::new());
    sweep(&mut ReferenceDesk, &mut ArchiveDesk::default(), 2)
        .unwrap_or_else(|difference| panic!("{difference}"));
}
