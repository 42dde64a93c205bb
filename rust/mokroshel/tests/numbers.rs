//! Every answer and every refusal comes with its number of documents 01 and 02.

use mokroshel::{Answer, Image, Marker, Refusal};

/// The number of a reply: an answer's, or a refusal's with a minus.
fn number(reply: Result<Answer, Refusal>) -> i8 {
    match reply {
        Ok(answer) => answer.number() as i8,
        Err(refusal) => -(refusal.number() as i8),
    }
}

#[test]
fn every_number() {
    let mut image = Image::over(vec![0; 300]);
    assert_eq!(number(image.step(1)), -1);
    assert_eq!(number(image.set_up(0)), -7);
    assert_eq!(number(image.set_up(3)), -8);
    assert_eq!(number(image.set_up(2)), 0);
    assert_eq!(number(image.begin_release(3)), -2);
    assert_eq!(number(image.begin_acquisition(1, 0)), -3);
    assert_eq!(number(image.begin_acquisition(1, 254)), 0);
    assert_eq!(number(image.begin_release(1)), -4);
    assert_eq!([0; 4].map(|_| number(image.step(1))), [0, 3, 0, 2]);
    assert_eq!(number(image.begin_acquisition(2, 1)), 0);
    let behind = [0; 9].map(|_| number(image.step(2)));
    assert_eq!(behind, [0, 0, 0, 0, 0, 0, 3, 0, 1]);
    assert_eq!(number(image.begin_release(1)), 0);
    let released = [0; 5].map(|_| number(image.step(1)));
    assert_eq!(released, [4, 0, 0, 0, 5]);
    assert_eq!(image.step(2), Ok(Answer::Admitted(2)));
    assert_eq!(number(image.take_log(&mut [0])), -6);
    let mut log = [0; 2];
    assert_eq!(image.take_log(&mut log), Ok(Answer::LogTaken(2)));
    assert_eq!(log, [1, 2]);
}

/// Module 1 takes the lock and gives it back.
fn in_and_out(image: &mut Image<Vec<u8>>) -> Result<Answer, Refusal> {
    image.begin_acquisition(1, 7)?;
    while image.step(1)? != Answer::Admitted(1) {}
    image.begin_release(1)?;
    while image.step(1)? != Answer::ReleaseFinished {}
    Ok(Answer::ReleaseFinished)
}

#[test]
fn a_full_log_is_refused_until_it_is_taken() {
    let mut image = Image::over(vec![0; 284]);
    image.set_up(1).unwrap();
    for _ in 0..256 {
        in_and_out(&mut image).unwrap();
    }
    let refused = in_and_out(&mut image);
    assert_eq!(refused, Err(Refusal::LogFull));
    assert_eq!(number(refused), -5);
    let mut marker = Marker { last: 1 };
    assert_eq!(image.turn(&mut marker), Err(Refusal::LogFull));
    assert_eq!(number(image.turn(&mut Marker { last: 2 })), -10);
    let mut log = [0; 300];
    assert_eq!(image.take_log(&mut log), Ok(Answer::LogTaken(256)));
    assert_eq!((log[255], log[256]), (1, 0));
    assert_eq!(image.step(1), Ok(Answer::Admitted(1)));
}

#[test]
fn turns() {
    let mut image = Image::over(vec![0; 316]);
    let mut marker = Marker { last: 0 };
    assert_eq!(number(image.turn(&mut marker)), -1);
    image.set_up(3).unwrap();
    for last in [0, 4, 256 + 1, u32::MAX] {
        marker.last = last;
        assert_eq!(number(image.turn(&mut marker)), -10);
        assert_eq!(marker, Marker { last });
    }
    marker.last = 3;
    let mut next = |image: &mut Image<Vec<u8>>| (number(image.turn(&mut marker)), marker.last);
    assert_eq!(next(&mut image), (9, 3));
    // Module 2 takes the free lock, 3 waits behind it.
    image.begin_acquisition(2, 5).unwrap();
    let free = [0; 4].map(|_| next(&mut image));
    assert_eq!(free, [(0, 2), (3, 2), (0, 2), (2, 2)]);
    image.begin_acquisition(3, 5).unwrap();
    let behind = [0; 9].map(|_| next(&mut image));
    assert_eq!(
        behind,
        [0, 0, 0, 0, 0, 0, 3, 0, 1].map(|number| (number, 3))
    );
    // 2 releases, and the lock is handed on: after 3 the turns go around to 2.
    image.begin_release(2).unwrap();
    let released = [0; 10].map(|_| next(&mut image));
    let twos = [4, 0, 0, 0, 5].map(|number| (number, 2));
    let threes = [1, 1, 1, 1, 2].map(|number| (number, 3));
    for place in 0..5 {
        assert_eq!(released[2 * place..][..2], [twos[place], threes[place]]);
    }
    assert_eq!(next(&mut image), (9, 3));
}

#[test]
fn a_marker_is_one_number() {
    assert_eq!((size_of::<Marker>(), align_of::<Marker>()), (4, 4));
}
