//! A judge is fed a byte connection between two other programs, piece by piece.

use osi_session::{Error, Judge, JudgedSide, Rule, Said, Verdict, VerdictKind};

const CR: &[u8] = &[3, 0, 0, 14, 9, 0xE0, 0, 0, 0, 1, 0, 0xC0, 1, 10];
const CC: &[u8] = &[3, 0, 0, 14, 9, 0xD0, 0, 1, 0, 2, 0, 0xC0, 1, 10];
const CN: &[u8] =
    &[3, 0, 0, 27, 2, 0xF0, 0x80, 13, 18, 5, 12, 19, 1, 1, 22, 1, 2, 23, 1, b'1', 26, 1, 0, 20, 2, 0, 0xB9];
const AC: &[u8] =
    &[3, 0, 0, 27, 2, 0xF0, 0x80, 14, 18, 5, 12, 19, 1, 1, 22, 1, 2, 23, 1, b'1', 26, 1, 0, 20, 2, 0, 0xB9];
const DT: &[u8] = b"\x03\0\0\x13\x02\xf0\x80\x01\0\x01\0record 1";

fn opened() -> Judge {
    let mut judge = Judge::new().unwrap();
    for (side, piece) in
        [(JudgedSide::Left, CR), (JudgedSide::Right, CC), (JudgedSide::Left, CN), (JudgedSide::Right, AC)]
    {
        judge.feed(side, piece).unwrap();
    }
    judge
}

#[test]
fn a_break_is_told_once() {
    let mut judge = opened();
    judge.feed(JudgedSide::Left, DT).unwrap();
    assert_eq!(judge.next_verdict(), Ok(None));
    for octet in DT {
        assert_eq!(judge.next_verdict(), Ok(None));
        judge.feed(JudgedSide::Right, &[*octet]).unwrap();
    }
    let told = Verdict {
        side: JudgedSide::Right,
        kind: VerdictKind::Broke,
        said: Said::Dt,
        rule: Rule::TokenNotHeld,
        offset: 41,
        by: JudgedSide::Right,
        connection: Some(0),
        left: Some(1),
        right: Some(2),
    };
    assert_eq!(judge.next_verdict(), Ok(Some(told)));
    assert_eq!(judge.next_verdict(), Ok(None));
    assert_eq!(judge.verdict(0, JudgedSide::Right), Ok(told));
    assert_eq!(judge.verdict(0, JudgedSide::Left).unwrap().to_string(), "left 1 kept");
    assert_eq!(judge.verdict(1, JudgedSide::Left), Err(Error::NoSuchConnection));
    assert_eq!(judge.transport_verdict(JudgedSide::Right).unwrap().to_string(), "right kept");
    assert_eq!(judge.connections(), Ok(1));
    assert_eq!(told.to_string(), "right 2 broke packet 41 Data TokenNotHeld");
    let text = judge.text().unwrap();
    assert_eq!(text.lines().last(), Some("right broke the protocol first, packet 41: Data TokenNotHeld"));
}

/// The packet of a minor synchronization point, in a DT of class 0.
fn point(number: u32) -> Vec<u8> {
    let digits = number.to_string();
    let length = digits.len() as u8;
    let head = [3, 0, 0, 13 + length, 2, 0xF0, 0x80, 1, 0, 49, 2 + length, 42, length];
    [&head, digits.as_bytes()].concat()
}

#[test]
fn a_judge_keeps_no_more_than_its_bound() {
    let mut judge = opened();
    // Points, each of which is kept, since it has a number of its own.
    let mut number = 0;
    let told = loop {
        number += 1;
        judge.feed(JudgedSide::Left, &point(number)).unwrap();
        if let Some(told) = judge.next_verdict().unwrap() {
            break told;
        }
    };
    assert!(number > 50_000);
    assert_eq!((told.side, told.kind, told.rule), (JudgedSide::Left, VerdictKind::NotJudged, Rule::Limit));
    let told = judge.next_verdict().unwrap().unwrap();
    assert_eq!((told.side, told.kind, told.rule), (JudgedSide::Right, VerdictKind::NotJudged, Rule::Limit));
    judge.feed(JudgedSide::Right, DT).unwrap();
    assert_eq!(judge.next_verdict(), Ok(None));
    let text = judge.text().unwrap();
    assert_eq!(text.lines().last(), Some("not judged: more passed on a connection than is kept"));
}

#[test]
fn a_judge_goes_to_another_thread() {
    let mut judge = opened();
    let told = std::thread::spawn(move || {
        judge.feed(JudgedSide::Left, b"no packet")?;
        judge.next_verdict()
    });
    assert_eq!(told.join().unwrap().unwrap().unwrap().rule, Rule::BadVersion);
}

/// A connection of class 2 whose called side sends data without the token.
#[test]
fn a_judge_tells_the_connection() {
    const CR: &[u8] = &[3, 0, 0, 17, 12, 0xE4, 0, 0, 0, 1, 0x20, 0xC0, 1, 10, 0xC6, 1, 0];
    const CC: &[u8] = &[3, 0, 0, 17, 12, 0xD4, 0, 1, 0, 2, 0x20, 0xC0, 1, 10, 0xC6, 1, 0];
    let unit = |to: u8, number: u8, rest: &[u8]| {
        [&[3, 0, 0, 9 + rest.len() as u8, 4, 0xF0, 0, to, 0x80 | number][..], rest].concat()
    };
    let mut judge = Judge::new().unwrap();
    judge.feed(JudgedSide::Left, CR).unwrap();
    judge.feed(JudgedSide::Right, CC).unwrap();
    judge.feed(JudgedSide::Left, &unit(2, 0, &CN[7..])).unwrap();
    judge.feed(JudgedSide::Right, &unit(1, 0, &AC[7..])).unwrap();
    assert_eq!(judge.next_verdict(), Ok(None));
    judge.feed(JudgedSide::Right, &unit(1, 1, &DT[7..])).unwrap();
    let told = judge.next_verdict().unwrap().unwrap();
    assert_eq!(
        (told.side, told.kind, told.rule),
        (JudgedSide::Right, VerdictKind::Broke, Rule::TokenNotHeld)
    );
    assert_eq!((told.connection, told.left, told.right, told.offset), (Some(0), Some(1), Some(2), 46));
    assert_eq!(told.to_string(), "right 2 broke packet 46 Data TokenNotHeld");
    assert_eq!(judge.next_verdict(), Ok(None));
}
