//! Two ends in memory: each kind of indication, each code that is quick to come by, and what is lent.

use osi_session::{
    Classes, Counters, Direction, End, Ending, Error, Fault, Indication, Opening, Phase, Reference, Refusal,
    Side, Sides, Sizes, Spelling, Terms, Tokens, Trace, Units,
};
use std::panic::{catch_unwind, resume_unwind, AssertUnwindSafe};
use std::thread;

type Owned = Indication<Vec<u8>>;
/// What an end was shown, in order.
type Shown = Vec<(Reference, Owned)>;

const ALL_UNITS: Units = Units::HALF_DUPLEX
    .union(Units::MINOR_SYNC)
    .union(Units::MAJOR_SYNC)
    .union(Units::RESYNCHRONIZE)
    .union(Units::NEGOTIATED_RELEASE);
const ALL_TOKENS: Tokens = Tokens::DATA.union(Tokens::MINOR).union(Tokens::MAJOR).union(Tokens::RELEASE);
const ASKERS: Sides =
    Sides { data: Side::Asker, minor: Side::Asker, major: Side::Asker, release: Side::Asker };

fn of_class(classes: Classes) -> Terms {
    Terms { classes, ..Terms::default() }
}

fn opening() -> Opening<'static> {
    Opening {
        requirements: ALL_UNITS,
        serial: 1,
        calling_tsap: b"here",
        called_tsap: b"there",
        calling_selector: b"caller",
        called_selector: b"called",
        user_data: b"who is there?",
        ..Opening::default()
    }
}

struct Pair {
    caller: End,
    called: End,
    of: Reference,
}

/// Carries the outgoing octets of one end to the other, in pieces of seven octets, and returns the indications.
fn carry_one(from: &mut End, to: &mut End) -> Shown {
    let mut all = Vec::new();
    while !from.outgoing().is_empty() {
        let waiting = from.outgoing();
        let octets = waiting[..waiting.len().min(7)].to_vec();
        from.taken(octets.len()).unwrap();
        let mut piece = octets.as_slice();
        while let Some((of, indication)) = to.feed_next(&mut piece) {
            all.push((of, indication.into_owned()));
        }
        assert!(piece.is_empty());
    }
    all
}

impl Pair {
    fn new(caller: Terms, called: Terms) -> Pair {
        let caller = End::caller(caller).unwrap();
        Pair { caller, called: End::called(called).unwrap(), of: Reference::new(1) }
    }

    /// Carries in both directions until nothing is left. Returns the indications of the caller and of the called end.
    fn carry(&mut self) -> (Shown, Shown) {
        let (mut by_caller, mut by_called) = (Vec::new(), Vec::new());
        for _ in 0..3 {
            by_called.extend(carry_one(&mut self.caller, &mut self.called));
            by_caller.extend(carry_one(&mut self.called, &mut self.caller));
        }
        (by_caller, by_called)
    }

    /// The one indication of the caller, if the called end has none.
    fn by_caller(&mut self) -> Owned {
        let (mut by_caller, by_called) = self.carry();
        assert_eq!((by_caller.len(), by_called.len()), (1, 0), "{by_caller:?} {by_called:?}");
        by_caller.remove(0).1
    }

    fn by_called(&mut self) -> Owned {
        let (by_caller, mut by_called) = self.carry();
        assert_eq!((by_caller.len(), by_called.len()), (0, 1), "{by_caller:?} {by_called:?}");
        by_called.remove(0).1
    }

    fn asked(classes: Classes, asked: &Opening) -> Pair {
        let mut pair = Pair::new(of_class(classes), of_class(classes));
        pair.of = pair.caller.connect(asked).unwrap();
        assert_eq!(pair.of.get(), 1);
        pair
    }

    fn opened(classes: Classes, asked: &Opening) -> Pair {
        let mut pair = Pair::asked(classes, asked);
        pair.by_called();
        pair.called.accept(pair.of, asked.requirements, asked.serial, ASKERS, b"a gateway").unwrap();
        pair.by_caller();
        pair
    }
}

/// A packet of class 0 with a TSDU.
fn packet(tsdu: &[u8]) -> Vec<u8> {
    let mut octets = vec![0x03, 0x00, 0x00, 7 + tsdu.len() as u8, 0x02, 0xf0, 0x80];
    octets.extend(tsdu);
    octets
}

fn is_send<T: Send>() {}

#[test]
fn an_end_goes_to_another_thread() {
    is_send::<End>();
    is_send::<Owned>();
    let pair = Pair::opened(Classes::CLASS_2, &opening());
    let Pair { mut caller, called, of } = pair;
    let (caller, phase) = thread::spawn(move || {
        caller.data(of, b"from there").unwrap();
        let phase = caller.phase(of);
        (caller, phase)
    })
    .join()
    .unwrap();
    assert_eq!(phase, Some(Phase::Ready));
    let mut pair = Pair { caller, called, of };
    assert_eq!(pair.by_called(), Indication::Data { user_data: b"from there".to_vec() });
}

#[test]
fn a_moved_end_is_the_end_that_it_was() {
    let pair = Pair::opened(Classes::CLASS_0, &opening());
    let mut many = vec![pair.called, pair.caller];
    many.reserve(100);
    many.swap(0, 1);
    let (called, caller) = (many.pop().unwrap(), many.pop().unwrap());
    let mut pair = Pair { caller, called, of: pair.of };
    pair.caller.data(pair.of, b"still here").unwrap();
    assert_eq!(pair.by_called(), Indication::Data { user_data: b"still here".to_vec() });
}

#[test]
fn ends_are_freed_at_any_time() {
    drop(End::caller(Terms::default()).unwrap());
    let mut pair = Pair::opened(Classes::CLASS_2, &opening());
    pair.caller.data(pair.of, &[0; 100_000]).unwrap();
    assert_eq!(pair.called.feed(&[3]).used, 1);
    assert_eq!(pair.called.kept(), 1);
    pair.caller = End::caller(Terms::default()).unwrap();
    assert_eq!(pair.caller.phase(pair.of), None);
    let mut waits = Pair::opened(Classes::CLASS_0, &opening());
    waits.caller.data(waits.of, b"waits").unwrap();
    assert!(waits.called.feed(waits.caller.outgoing()).waits);
}

#[test]
fn an_opening_is_shown() {
    let wishes = Sides { data: Side::Answerer, minor: Side::Choice, ..ASKERS };
    let mut pair = Pair::asked(Classes::BOTH, &Opening { wishes, ..opening() });
    assert_eq!(pair.caller.phase(pair.of), Some(Phase::WaitTransport));
    let user_data = b"who is there?".to_vec();
    let (requirements, number, sizes) = (ALL_UNITS, Some(1), Sizes::default());
    assert_eq!(pair.by_called(), Indication::Connect { requirements, number, wishes, sizes, user_data });
    assert_eq!(pair.called.phase(pair.of), Some(Phase::Answering));
    let choice = Sides { minor: Side::Choice, ..ASKERS };
    assert_eq!(pair.called.accept(pair.of, ALL_UNITS, 7, choice, b""), Err(Error::BadArgument));
    let holders = Sides { minor: Side::Answerer, ..ASKERS };
    pair.called.accept(pair.of, ALL_UNITS, 7, holders, b"a gateway").unwrap();
    let (number, user_data) = (Some(7), b"a gateway".to_vec());
    let sides = Sides { data: Side::Answerer, ..holders };
    assert_eq!(pair.by_caller(), Indication::Connected { requirements, number, sides, sizes, user_data });
    assert_eq!(pair.called.held(pair.of), Tokens::DATA | Tokens::MINOR);
    assert_eq!(pair.caller.held(pair.of), Tokens::MAJOR | Tokens::RELEASE);
    assert_eq!(pair.caller.next_serial(pair.of), 7);
}

#[test]
fn sizes_are_agreed() {
    let sizes = Sizes { from_asker: 64, from_answerer: 200 };
    let mut pair = Pair::asked(Classes::CLASS_0, &Opening { sizes, ..opening() });
    assert!(matches!(pair.by_called(), Indication::Connect { sizes: named, .. } if named == sizes));
    let few = Sizes { from_asker: 63, from_answerer: 0 };
    let (of, units) = (pair.of, ALL_UNITS);
    assert_eq!(pair.called.accept_sized(of, units, 1, ASKERS, few, b""), Err(Error::BadArgument));
    let own = Sizes { from_asker: 0, from_answerer: 100 };
    pair.called.accept_sized(of, units, 1, ASKERS, own, b"").unwrap();
    let agreed = Sizes { from_asker: 64, from_answerer: 100 };
    assert!(matches!(pair.by_caller(), Indication::Connected { sizes: named, .. } if named == agreed));
    assert_eq!(pair.caller.abort(of, &[0; 60]), Err(Error::TooLong));
    pair.caller.data(of, &[0; 61]).unwrap();
    assert_eq!(pair.by_called(), Indication::Data { user_data: vec![0; 61] });
    pair.called.abort(of, &[0; 60]).unwrap();
    let asked = Opening { sizes: few, ..opening() };
    assert_eq!(End::caller(Terms::default()).unwrap().connect(&asked), Err(Error::BadArgument));
}

#[test]
fn duplex_has_no_number() {
    let mut pair =
        Pair::asked(Classes::CLASS_0, &Opening { requirements: Units::DUPLEX, ..Opening::default() });
    assert!(matches!(
        pair.by_called(),
        Indication::Connect { number: None, requirements: Units::DUPLEX, .. }
    ));
}

#[test]
fn refusals_are_shown() {
    let mut pair = Pair::asked(Classes::CLASS_0, &opening());
    pair.by_called();
    pair.called.refuse(pair.of, b"not now").unwrap();
    let user_data = b"not now".to_vec();
    let (by_caller, _) = pair.carry();
    assert_eq!(by_caller[0].1, Indication::RefusedBySession { reason: 2, user_data });
    let mut pair = Pair::asked(Classes::CLASS_0, &opening());
    pair.by_called();
    pair.called.refuse_with(pair.of, Refusal::Congestion).unwrap();
    let (by_caller, _) = pair.carry();
    assert_eq!(by_caller[0].1, Indication::RefusedBySession { reason: 1, user_data: Vec::new() });
    let mut pair = Pair::new(of_class(Classes::BOTH), of_class(Classes::NONE));
    pair.caller.connect(&opening()).unwrap();
    assert_eq!(pair.by_caller(), Indication::RefusedByTransport { reason: 130 });
}

fn data_and_tokens(pair: &mut Pair) {
    let (of, long) = (pair.of, vec![b'x'; 300]);
    pair.caller.data(of, &long).unwrap();
    assert_eq!(pair.by_called(), Indication::Data { user_data: long });
    pair.called.please(of, Tokens::DATA, b"please").unwrap();
    let tokens = Tokens::DATA;
    assert_eq!(pair.by_caller(), Indication::Asked { tokens, user_data: b"please".to_vec() });
    pair.caller.give(of, tokens).unwrap();
    assert_eq!(pair.by_called(), Indication::Given { tokens });
    pair.called.give(of, tokens).unwrap();
    assert_eq!(pair.by_caller(), Indication::Given { tokens });
}

fn points(pair: &mut Pair) {
    let of = pair.of;
    pair.caller.minor(of, false, b"").unwrap();
    assert_eq!(pair.by_called(), Indication::Minor { number: 1, confirm: false, user_data: vec![] });
    pair.caller.minor(of, true, b"m").unwrap();
    assert_eq!(pair.by_called(), Indication::Minor { number: 2, confirm: true, user_data: b"m".to_vec() });
    pair.called.minor_confirm(of, 2, b"c").unwrap();
    assert_eq!(pair.by_caller(), Indication::MinorConfirmed { number: 2, user_data: b"c".to_vec() });
    pair.caller.major(of, b"M").unwrap();
    assert_eq!(pair.caller.phase(of), Some(Phase::MajorAsked));
    assert_eq!(pair.by_called(), Indication::Major { number: 3, user_data: b"M".to_vec() });
    pair.called.major_confirm(of, b"").unwrap();
    assert_eq!(pair.by_caller(), Indication::MajorConfirmed { user_data: vec![] });
    assert_eq!((pair.caller.confirmed_below(of), pair.caller.lowest_restart(of)), (4, 4));
}

fn restarts(pair: &mut Pair) {
    let wishes = Sides { release: Side::Choice, ..ASKERS };
    pair.caller.restart(pair.of, 4, wishes, b"again").unwrap();
    assert_eq!(pair.by_called(), Indication::Restart { number: 4, wishes, user_data: b"again".to_vec() });
    pair.called.restart_confirm(pair.of, ASKERS, b"").unwrap();
    assert_eq!(pair.by_caller(), Indication::Restarted { number: 4, sides: ASKERS, user_data: vec![] });
    assert_eq!(pair.caller.held(pair.of), ALL_TOKENS);
}

fn release(pair: &mut Pair) {
    pair.caller.release(pair.of, b"bye").unwrap();
    assert_eq!(pair.by_called(), Indication::Release { user_data: b"bye".to_vec() });
    pair.called.release_refuse(pair.of, b"stay").unwrap();
    assert_eq!(pair.by_caller(), Indication::ReleaseRefused { user_data: b"stay".to_vec() });
    pair.caller.release(pair.of, b"").unwrap();
    pair.by_called();
    pair.called.release_accept(pair.of, b"").unwrap();
    assert_eq!(pair.by_caller(), Indication::Released { user_data: vec![] });
    assert_eq!(pair.caller.phase(pair.of), Some(Phase::Ended));
}

#[test]
fn a_connection_is_shown() {
    for classes in [Classes::CLASS_0, Classes::CLASS_2] {
        let mut pair = Pair::opened(classes, &opening());
        data_and_tokens(&mut pair);
        points(&mut pair);
        restarts(&mut pair);
        release(&mut pair);
        let ended = (classes == Classes::CLASS_0).then_some(Ending::Closed);
        assert_eq!(pair.caller.ended(), ended);
    }
}

#[test]
fn an_abort_and_a_loss_are_shown() {
    let mut pair = Pair::opened(Classes::CLASS_2, &opening());
    pair.called.abort(pair.of, b"enough").unwrap();
    assert_eq!(pair.by_caller(), Indication::Aborted { user_data: b"enough".to_vec() });
    let mut pair = Pair::opened(Classes::CLASS_0, &opening());
    pair.caller.broken();
    assert_eq!(pair.caller.next_indication(), Some((pair.of, Indication::Lost)));
    assert_eq!(pair.caller.next_indication(), None);
    assert_eq!(pair.caller.ended(), Some(Ending::Broken));
}

#[test]
fn what_credit_holds_back_is_unsent() {
    let mut pair = Pair::opened(Classes::CLASS_2, &opening());
    for _ in 0..20 {
        pair.caller.data(pair.of, &[0; 1000]).unwrap();
    }
    assert_eq!((pair.caller.unsent(pair.of), pair.caller.unsent(Reference::new(2))), (5020, 0));
    assert_eq!((pair.caller.backlog(), pair.caller.live()), (5020, 1));
    pair.carry();
    assert_eq!((pair.caller.unsent(pair.of), pair.caller.backlog()), (0, 0));
    pair.caller.abort(pair.of, b"").unwrap();
    pair.carry();
    assert_eq!((pair.caller.live(), pair.called.live()), (0, 0));
    let mut pair = Pair::opened(Classes::CLASS_0, &opening());
    for _ in 0..20 {
        pair.caller.data(pair.of, &[0; 1000]).unwrap();
    }
    assert_eq!((pair.caller.unsent(pair.of), pair.caller.backlog(), pair.caller.live()), (0, 0, 1));
}

#[test]
fn a_connection_is_given_up_alone() {
    let mut pair = Pair::opened(Classes::CLASS_2, &opening());
    let second = pair.caller.connect(&opening()).unwrap();
    assert_eq!(pair.caller.disconnect(second), Err(Error::BadState));
    assert_eq!(pair.caller.disconnect(Reference::new(3)), Err(Error::NoSuchConnection));
    pair.by_called();
    pair.called.accept(second, ALL_UNITS, 1, ASKERS, b"").unwrap();
    pair.by_caller();
    pair.caller.data(pair.of, &[0; 200_000]).unwrap();
    assert!(pair.caller.backlog() > 0 && pair.caller.wants_write());
    pair.caller.disconnect(pair.of).unwrap();
    assert_eq!((pair.caller.backlog(), pair.caller.phase(pair.of)), (0, Some(Phase::Ended)));
    let (by_caller, by_called) = pair.carry();
    assert_eq!((by_caller, by_called), (vec![], vec![(pair.of, Indication::Lost)]));
    assert_eq!((pair.caller.live(), pair.called.live(), pair.caller.is_over()), (1, 1, false));
    assert_eq!(pair.caller.disconnect(pair.of), Ok(()));
    pair.caller.data(second, b"still here").unwrap();
    assert_eq!(pair.by_called(), Indication::Data { user_data: b"still here".to_vec() });
    pair.called.disconnect(second).unwrap();
    assert_eq!(pair.by_caller(), Indication::Lost);
    assert!(pair.caller.is_over() && pair.called.is_over());
}

#[test]
fn what_waits_of_a_connection_that_is_given_up_is_dropped() {
    let mut pair = Pair::opened(Classes::CLASS_0, &opening());
    pair.caller.data(pair.of, b"unseen").unwrap();
    let octets = pair.caller.outgoing().to_vec();
    assert!(pair.called.feed(&octets).waits);
    pair.called.disconnect(pair.of).unwrap();
    assert_eq!(pair.called.next_indication(), None);
    assert_eq!((pair.called.ended(), pair.called.is_over()), (Some(Ending::Closed), true));
    assert!(!pair.called.wants_write());
}

fn known(end: &mut End, of: Reference) -> Option<[String; 4]> {
    let addresses = end.addresses(of)?;
    let all = [
        addresses.calling_tsap(),
        addresses.called_tsap(),
        addresses.calling_selector(),
        addresses.called_selector(),
    ];
    Some(all.map(|octets| String::from_utf8_lossy(octets).into_owned()))
}

#[test]
fn connections_are_told_apart_by_whom_they_ask_for() {
    let mut pair = Pair::opened(Classes::CLASS_2, &opening());
    let asked = Opening { called_selector: b"another", calling_tsap: &[b'x'; 32], ..Opening::default() };
    let second = pair.caller.connect(&asked).unwrap();
    assert_eq!(known(&mut pair.called, second), None);
    pair.carry();
    let first = ["here", "there", "caller", "called"].map(String::from);
    let other = ["x".repeat(32), String::new(), String::new(), "another".into()];
    for end in [&mut pair.caller, &mut pair.called] {
        assert_eq!(known(end, pair.of).as_ref(), Some(&first));
        assert_eq!(known(end, second).as_ref(), Some(&other));
        assert_eq!(known(end, Reference::new(3)), None);
    }
    pair.caller.abort(pair.of, b"").unwrap();
    pair.carry();
    assert_eq!(known(&mut pair.called, pair.of), None);
    assert_eq!(known(&mut pair.called, second).as_ref(), Some(&other));
    assert!(format!("{:?}", pair.called.addresses(second)).contains("called_selector"));
}

#[test]
fn data_in_parts_is_joined() {
    let mut pair = Pair::opened(Classes::CLASS_0, &opening());
    let first = packet(b"\x01\x00\x01\x03\x19\x01\x01one ");
    assert_eq!(pair.called.feed_next(&mut first.as_slice()), None);
    assert_eq!(pair.called.kept(), 4);
    let last = packet(b"\x01\x00\x01\x03\x19\x01\x02two");
    let shown = Indication::Data { user_data: b"one two".as_slice() };
    assert_eq!(pair.called.feed_next(&mut last.as_slice()), Some((pair.of, shown)));
    assert_eq!(pair.called.kept(), 0);
}

#[test]
fn bad_units_are_shown() {
    let unknown = Fault::Spelling { spelling: Spelling::UnknownSi, offset: 0 };
    let missing = Fault::Spelling { spelling: Spelling::MissingParameter(42), offset: 2 };
    let cases: [(&[u8], Fault); 4] = [
        (&[0x21, 0x00], unknown),
        (&[0x01, 0x00, 0x31, 0x00], missing),
        (&[0x0a, 0x00], Fault::Unexpected { si: 10 }),
        (b"\x01\x00\x01\x03\x19\x01\x02A", Fault::BadEnclosure { si: 1 }),
    ];
    for (tsdu, fault) in cases {
        let mut pair = Pair::opened(Classes::CLASS_0, &opening());
        let octets = packet(tsdu);
        assert_eq!(
            pair.called.feed_next(&mut octets.as_slice()),
            Some((pair.of, Indication::BadUnit { fault }))
        );
        let (by_caller, _) = pair.carry();
        assert_eq!(by_caller, [(pair.of, Indication::PeerAbort { reason: 5 })]);
    }
}

#[test]
fn an_end_says_why_it_has_ended() {
    let mut end = End::called(Terms::default()).unwrap();
    assert_eq!(end.ended(), None);
    assert_eq!(end.feed(&[4]).used, 1);
    assert_eq!(end.ended(), Some(Ending::BadVersion { offset: 0 }));
    assert_eq!(end.ended().unwrap().to_string(), "the packet at octet 0 is not of TPKT version 3");
}

#[test]
fn connections_are_told_apart() {
    let mut pair = Pair::opened(Classes::CLASS_2, &opening());
    let duplex = Opening { requirements: Units::DUPLEX, ..Opening::default() };
    let second = pair.caller.connect(&duplex).unwrap();
    assert_eq!(second.get(), 2);
    pair.by_called();
    pair.called.accept(second, Units::DUPLEX, 0, ASKERS, b"").unwrap();
    pair.by_caller();
    pair.caller.data(second, b"two").unwrap();
    pair.caller.data(pair.of, b"one").unwrap();
    let (_, by_called) = pair.carry();
    let two = (second, Indication::Data { user_data: b"two".to_vec() });
    assert_eq!(by_called, [two, (pair.of, Indication::Data { user_data: b"one".to_vec() })]);
}

#[test]
fn user_data_is_lent_and_can_be_kept() {
    let mut pair = Pair::opened(Classes::CLASS_0, &opening());
    pair.caller.data(pair.of, b"lent").unwrap();
    let octets = pair.caller.outgoing().to_vec();
    let (of, indication) = pair.called.feed_next(&mut octets.as_slice()).unwrap();
    let kept = indication.clone().into_owned();
    assert_eq!(indication.user_data(), Some(b"lent".as_slice()));
    pair.called.broken();
    assert_eq!((of, kept.user_data()), (pair.of, Some(b"lent".as_slice())));
    assert_eq!(Indication::<Vec<u8>>::Lost.user_data(), None);
    assert!(Indication::<Vec<u8>>::Lost.is_over() && !kept.is_over());
}

/// Whatever indication the loop's body panics at, the rest of the piece is still there, and all indications come once and in order.
#[test]
fn a_body_that_panics_loses_nothing() {
    let texts: Vec<String> = (0..6).map(|number| number.to_string()).collect();
    for at in 0..=texts.len() {
        let mut pair = Pair::opened(Classes::CLASS_2, &opening());
        texts.iter().for_each(|text| pair.caller.data(pair.of, text.as_bytes()).unwrap());
        let octets = pair.caller.outgoing().to_vec();
        let (mut piece, mut said) = (octets.as_slice(), Vec::new());
        let mut feed = |panics_at: usize| {
            while let Some((_, indication)) = pair.called.feed_next(&mut piece) {
                said.push(String::from_utf8(indication.user_data().unwrap().to_vec()).unwrap());
                // (A panic without a message for the log of the tests.)
                if said.len() == panics_at + 1 {
                    resume_unwind(Box::new("the body panics"));
                }
            }
        };
        let has_panicked = catch_unwind(AssertUnwindSafe(|| feed(at))).is_err();
        feed(usize::MAX - 1);
        assert_eq!((has_panicked, said), (at < texts.len(), texts.clone()));
    }
}

#[test]
fn terms_are_judged() {
    for terms in [
        Terms { size: 6, ..Terms::default() },
        Terms { size: 14, ..Terms::default() },
        Terms { window: 0, ..Terms::default() },
        Terms { window: 16, ..Terms::default() },
        Terms { classes: Classes::from_bits(4), ..Terms::default() },
    ] {
        assert_eq!(End::caller(terms).unwrap_err(), Error::BadArgument);
        assert_eq!(End::called(terms).unwrap_err(), Error::BadArgument);
    }
}

#[test]
fn the_library_is_of_this_version() {
    assert_eq!(osi_session::library_version(), env!("CARGO_PKG_VERSION"));
}

#[test]
fn connects_are_judged() {
    let mut pair = Pair::new(Terms::default(), Terms::default());
    let much = vec![b'x'; 10_241];
    let cases = [
        (Opening { serial: 1_000_000, ..opening() }, Error::BadArgument),
        (Opening { called_tsap: &much[..33], ..opening() }, Error::BadArgument),
        (Opening { requirements: Units::MINOR_SYNC, ..opening() }, Error::NotSelected),
        (Opening { called_selector: &much[..17], ..opening() }, Error::TooLong),
        (Opening { user_data: &much, ..opening() }, Error::TooLong),
    ];
    for (asked, error) in cases {
        assert_eq!(pair.caller.connect(&asked), Err(error));
    }
    assert_eq!(pair.called.connect(&opening()), Err(Error::NotCaller));
    pair.caller.connect(&opening()).unwrap();
    assert_eq!(pair.caller.connect(&opening()), Err(Error::Negotiating));
    let mut pair = Pair::opened(Classes::CLASS_0, &opening());
    assert_eq!(pair.caller.connect(&opening()), Err(Error::OneConnection));
    let mut pair = Pair::opened(Classes::CLASS_2, &opening());
    for _ in 1..64 {
        pair.caller.connect(&opening()).unwrap();
    }
    assert_eq!(pair.caller.connect(&opening()), Err(Error::TooMany));
    pair.caller.broken();
    assert_eq!(pair.caller.connect(&opening()), Err(Error::Ended));
}

#[test]
fn references_are_used_up() {
    let mut end = End::caller(of_class(Classes::CLASS_0)).unwrap();
    let refusal = |reference: u16| {
        let [high, low] = reference.to_be_bytes();
        [0x03, 0x00, 0x00, 0x0b, 0x06, 0x80, high, low, 0x00, 0x00, 0x00]
    };
    for reference in 1..=u16::MAX {
        let of = end.connect(&Opening::default()).unwrap();
        let waiting = end.outgoing().len();
        end.taken(waiting).unwrap();
        let shown = end.feed_next(&mut refusal(reference).as_slice());
        assert_eq!(shown, Some((of, Indication::RefusedByTransport { reason: 0 })));
    }
    assert_eq!(end.connect(&Opening::default()), Err(Error::ReferencesUsedUp));
}

#[test]
fn calls_are_judged() {
    let mut pair = Pair::opened(Classes::CLASS_0, &opening());
    let (of, much) = (pair.of, vec![b'x'; 1_048_573]);
    assert_eq!(pair.caller.data(Reference::new(9), b"x"), Err(Error::NoSuchConnection));
    assert_eq!(pair.caller.accept(of, ALL_UNITS, 0, ASKERS, b""), Err(Error::BadState));
    assert_eq!(pair.caller.accept(of, ALL_UNITS, 1_000_000, ASKERS, b""), Err(Error::BadArgument));
    assert_eq!(pair.called.data(of, b"x"), Err(Error::TokenNotHeld));
    assert_eq!(pair.caller.please(of, Tokens::DATA, b""), Err(Error::TokenAlreadyHeld));
    assert_eq!(pair.called.minor_confirm(of, 5, b""), Err(Error::BadNumber));
    assert_eq!(pair.caller.data(of, b""), Err(Error::Empty));
    assert_eq!(pair.caller.give(of, Tokens::NONE), Err(Error::Empty));
    assert_eq!(pair.caller.data(of, &much), Err(Error::TooLong));
    assert_eq!(pair.caller.data(of, &much[..1_048_572]), Ok(()));
    let waiting = pair.caller.outgoing().len();
    assert_eq!(pair.caller.taken(waiting + 1), Err(Error::BadArgument));
    assert_eq!(pair.caller.taken(waiting), Ok(()));
    pair.caller.broken();
    assert_eq!(pair.caller.data(of, b"x"), Err(Error::Ended));
    let plain = Opening { requirements: Units::HALF_DUPLEX, ..Opening::default() };
    let mut pair = Pair::opened(Classes::CLASS_0, &plain);
    assert_eq!(pair.caller.major(of, b""), Err(Error::NotSelected));
    let mut pair = Pair::opened(Classes::CLASS_0, &Opening { serial: 999_999, ..opening() });
    pair.caller.minor(of, true, b"").unwrap();
    assert_eq!(pair.caller.minor(of, true, b""), Err(Error::SerialsUsedUp));
}

#[test]
fn errors_are_errors() {
    let error: Box<dyn std::error::Error + Send + Sync> = Box::new(Error::TokenNotHeld);
    assert_eq!(error.to_string(), "the other side holds a token that the call needs");
    let fault: Box<dyn std::error::Error> =
        Box::new(Fault::Spelling { spelling: Spelling::BadValue(20), offset: 4 });
    assert_eq!(fault.to_string(), "the value of the parameter 20 is bad, at octet 4 of the TSDU");
    let ending: Box<dyn std::error::Error> = Box::new(Ending::PeerClosed { reason: 128 });
    assert_eq!(ending.to_string(), "the peer closed its connection, with the reason 128");
}

#[test]
fn an_end_is_traced() {
    let mut pair = Pair::opened(Classes::CLASS_0, &opening());
    let mut lines = Vec::new();
    pair.caller.trace(Trace::Lines);
    pair.caller.traced(|_, line| panic!("{line:?}"));
    pair.caller.data(pair.of, b"hello").unwrap();
    pair.by_called();
    pair.caller.traced(|direction, line| lines.push((direction, line.map(str::to_string))));
    assert_eq!(lines[0], (Direction::Sent, Some("packet 0 length 16 code f0".to_string())));
    let counters = pair.caller.counts();
    assert_eq!((counters.sent.packets, counters.sent.tsdus, counters.sent.session_units), (1, 1, 2));
    assert_eq!(counters.received.octets, 0);
    pair.caller.trace(Trace::Off);
    assert_eq!(pair.caller.counts(), Counters::default());
}

#[test]
fn a_stopped_trace_says_so_once() {
    let mut end = End::called(Terms::default()).unwrap();
    let mut stopped = Vec::new();
    end.trace(Trace::Lines);
    let used = end.feed(&packet(&[]).repeat(20_000)).used;
    assert_eq!(used, 140_000);
    end.traced(|direction, line| stopped.push((direction, line.is_none())));
    end.traced(|direction, line| stopped.push((direction, line.is_none())));
    assert_eq!(stopped, [(Direction::Received, true)]);
}
