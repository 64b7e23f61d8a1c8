//! Judging a byte connection between two other programs, while it passes.

use crate::codes::Error;
use crate::end::lent;
use crate::ffi;
use std::fmt;
use std::marker::PhantomData;
use std::str;

/// A side of a byte connection that a [`Judge`] is fed.
#[derive(Clone, Copy, Debug, PartialEq, Eq, Hash)]
pub enum JudgedSide {
    /// The side that opened the byte connection, and sent the CR.
    Left = 0,
    /// The other side.
    Right = 1,
}

/// What a [`Verdict`] says. [`Kept`](VerdictKind::Kept) may change while octets pass. The others may change
/// only to [`None`](VerdictKind::None), if the other side leaves the profile.
#[derive(Clone, Copy, Debug, PartialEq, Eq, Hash)]
pub enum VerdictKind {
    /// Nothing: the other side of the connection left the profile.
    None = 0,
    /// All that was judged of it is what a conforming end may send.
    Kept = 1,
    /// It broke the protocol.
    Broke = 2,
    /// It sent what X.225 allows and this product leaves out.
    Leaves = 3,
    /// More than 4,096 sessions explain it, so it is judged no further.
    TooMany = 4,
    /// It is judged no further; the rule says why.
    NotJudged = 5,
}

/// The rule that a side broke, or why it is judged no further.
#[derive(Clone, Copy, Debug, PartialEq, Eq, Hash)]
#[non_exhaustive]
pub enum Rule {
    /// There is none.
    None = 0,
    /// There was no session connection.
    NoSuchConnection = 10,
    /// The session connection was over.
    Ended = 11,
    /// A session may not send it in this phase (X.225 annex A).
    BadState = 12,
    /// Its functional unit or token is not available.
    NotSelected = 13,
    /// It needs a token that the other side held.
    TokenNotHeld = 14,
    /// It asks for a token that this side held.
    TokenAlreadyHeld = 15,
    /// It names a point that it may not name.
    BadNumber = 16,
    /// All numbers of points were used.
    SerialsUsedUp = 17,
    /// Data without an octet, or a set without a token.
    Empty = 18,
    /// It is longer than the sides have agreed.
    TooLong = 19,
    /// It settles a token that the other side has settled.
    BadTokens = 30,
    /// A part of data is out of its place.
    BadEnclosure = 31,
    /// It aborts for a protocol error that nobody made.
    NoFault = 32,
    /// An AA, although no AB came; or a DC, although no DR came.
    NothingToAnswer = 33,
    /// X.225 allows it, and this product leaves it out.
    Outside = 34,
    /// The TSDU is no session units: an SI is unknown.
    UnknownSi = 40,
    /// A length of the TSDU goes past its end.
    LengthPastEnd = 41,
    /// A session unit lacks a parameter that it must have.
    MissingParameter = 42,
    /// A parameter of a session unit occurs twice.
    DuplicateParameter = 43,
    /// A parameter of a session unit has a value that it may not have.
    BadValue = 44,
    /// A session unit may not be in that place of the TSDU.
    BadConcatenation = 45,
    /// Octets are left after the last session unit.
    TrailingOctets = 46,
    /// No break: the capture begins in the middle of a connection. Its first packet has no CR.
    NoOpening = 50,
    /// No packet begins there: its version is not 3 (RFC 1006 section 6).
    BadVersion = 54,
    /// No packet begins there: its length is below 7.
    BadLength = 55,
    /// The length of a transport unit is wrong (X.224 section 13).
    BadLi = 56,
    /// The code of a transport unit is unknown.
    UnknownCode = 57,
    /// A parameter of a transport unit has a wrong length.
    BadTpduParameterLength = 58,
    /// A parameter of a transport unit has a value that it may not have.
    BadTpduParameterValue = 59,
    /// A parameter of a transport unit occurs twice.
    DuplicateTpduParameter = 60,
    /// A transport unit that has no place there, such as data before the CC.
    UnexpectedUnit = 61,
    /// A DR that refuses no CR.
    WrongForm = 62,
    /// A TSDU of more than 1,048,576 octets.
    TsduTooLong = 63,
    /// No break: more was to be kept of a connection than a judge keeps.
    Limit = 70,
    /// No break: there are more than 128 connections at once. Or nobody can tell whether the unit is right,
    /// since a connection is not judged any more.
    TooManyConnections = 71,
    /// A CR in class 0, which has one connection.
    OneConnection = 80,
    /// A CR while another one is unanswered and the class is not known.
    Negotiating = 81,
    /// A CR or CC with a reference that its sender has given another connection.
    ReferenceInUse = 82,
    /// A unit for a reference of no connection.
    UnknownReference = 83,
    /// A CC that selects what its CR does not offer.
    BadAnswer = 84,
    /// A CC with a larger TPDU size than its CR.
    LargerSize = 85,
    /// A unit on a connection that its sender has closed.
    Closed = 86,
    /// A DT or an AK with a wrong number.
    OutOfSequence = 87,
    /// A DT that the window does not allow.
    NoCredit = 88,
    /// A DT that is longer than the size that the CC selects.
    SizeExceeded = 89,
    /// An AK that moves the upper edge of the window down.
    CreditReduced = 90,
}

/// What a side sent: a session unit by its name in X.225, or what could not be read.
#[derive(Clone, Copy, Debug, PartialEq, Eq, Hash)]
#[non_exhaustive]
pub enum Said {
    /// Nothing.
    Nothing = 0,
    /// CONNECT.
    Cn = 1,
    /// ACCEPT.
    Ac = 2,
    /// REFUSE.
    Rf = 3,
    /// DATA TRANSFER.
    Dt = 4,
    /// GIVE TOKENS.
    Gt = 5,
    /// PLEASE TOKENS.
    Pt = 6,
    /// MINOR SYNC POINT.
    Mip = 7,
    /// MINOR SYNC ACK.
    Mia = 8,
    /// MAJOR SYNC POINT.
    Map = 9,
    /// MAJOR SYNC ACK.
    Maa = 10,
    /// RESYNCHRONIZE.
    Rs = 11,
    /// RESYNCHRONIZE ACK.
    Ra = 12,
    /// FINISH.
    Fn = 13,
    /// DISCONNECT.
    Dn = 14,
    /// NOT FINISHED.
    Nf = 15,
    /// ABORT.
    Ab = 16,
    /// ABORT ACCEPT.
    Aa = 17,
    /// A TSDU that is no session units.
    Tsdu = 18,
    /// Octets that begin no packet.
    Tpkt = 19,
    /// A transport unit.
    Tpdu = 20,
    /// A DT of the transport, by which a TSDU is too long.
    TransportDt = 21,
    /// A DR of the transport.
    TransportDr = 22,
    /// A CR of the transport.
    TransportCr = 23,
    /// A CC of the transport.
    TransportCc = 24,
    /// A DC of the transport.
    TransportDc = 25,
    /// An AK of the transport.
    TransportAk = 26,
    /// An ER of the transport.
    TransportEr = 27,
}

pub(crate) const KINDS: [VerdictKind; 6] = [
    VerdictKind::None,
    VerdictKind::Kept,
    VerdictKind::Broke,
    VerdictKind::Leaves,
    VerdictKind::TooMany,
    VerdictKind::NotJudged,
];

pub(crate) const RULES: &[Rule] = &[
    Rule::None,
    Rule::NoSuchConnection,
    Rule::Ended,
    Rule::BadState,
    Rule::NotSelected,
    Rule::TokenNotHeld,
    Rule::TokenAlreadyHeld,
    Rule::BadNumber,
    Rule::SerialsUsedUp,
    Rule::Empty,
    Rule::TooLong,
    Rule::BadTokens,
    Rule::BadEnclosure,
    Rule::NoFault,
    Rule::NothingToAnswer,
    Rule::Outside,
    Rule::UnknownSi,
    Rule::LengthPastEnd,
    Rule::MissingParameter,
    Rule::DuplicateParameter,
    Rule::BadValue,
    Rule::BadConcatenation,
    Rule::TrailingOctets,
    Rule::NoOpening,
    Rule::BadVersion,
    Rule::BadLength,
    Rule::BadLi,
    Rule::UnknownCode,
    Rule::BadTpduParameterLength,
    Rule::BadTpduParameterValue,
    Rule::DuplicateTpduParameter,
    Rule::UnexpectedUnit,
    Rule::WrongForm,
    Rule::TsduTooLong,
    Rule::Limit,
    Rule::TooManyConnections,
    Rule::OneConnection,
    Rule::Negotiating,
    Rule::ReferenceInUse,
    Rule::UnknownReference,
    Rule::BadAnswer,
    Rule::LargerSize,
    Rule::Closed,
    Rule::OutOfSequence,
    Rule::NoCredit,
    Rule::SizeExceeded,
    Rule::CreditReduced,
];

pub(crate) const SAID: &[Said] = &[
    Said::Nothing,
    Said::Cn,
    Said::Ac,
    Said::Rf,
    Said::Dt,
    Said::Gt,
    Said::Pt,
    Said::Mip,
    Said::Mia,
    Said::Map,
    Said::Maa,
    Said::Rs,
    Said::Ra,
    Said::Fn,
    Said::Dn,
    Said::Nf,
    Said::Ab,
    Said::Aa,
    Said::Tsdu,
    Said::Tpkt,
    Said::Tpdu,
    Said::TransportDt,
    Said::TransportDr,
    Said::TransportCr,
    Said::TransportCc,
    Said::TransportDc,
    Said::TransportAk,
    Said::TransportEr,
];

/// A verdict on a side of a byte connection.
#[derive(Clone, Copy, Debug, PartialEq, Eq, Hash)]
pub struct Verdict {
    /// The side.
    pub side: JudgedSide,
    /// What is said of it.
    pub kind: VerdictKind,
    /// What was sent.
    pub said: Said,
    /// The rule that it broke.
    pub rule: Rule,
    /// The offset of the packet, in the direction of [`by`](Verdict::by), from 0. A TSDU has that of its last packet.
    pub offset: u64,
    /// The side that sent the packet. If nothing more of both sides is judged, it may be the other one.
    pub by: JudgedSide,
    /// The number of the connection in the order of the CRs, from 0; `None` if it is of no single one.
    pub connection: Option<u64>,
    /// The reference that left gave the connection; `None` if it gave none.
    pub left: Option<u16>,
    /// The same of right.
    pub right: Option<u16>,
}

fn side_of(number: u32) -> JudgedSide {
    if number == JudgedSide::Right as u32 {
        JudgedSide::Right
    } else {
        JudgedSide::Left
    }
}

fn kind_of(number: u32) -> VerdictKind {
    KINDS.into_iter().find(|kind| *kind as u32 == number).unwrap_or(VerdictKind::None)
}

fn said_of(number: u32) -> Said {
    SAID.iter().copied().find(|said| *said as u32 == number).unwrap_or(Said::Nothing)
}

fn rule_of(number: u32) -> Rule {
    RULES.iter().copied().find(|rule| *rule as u32 == number).unwrap_or(Rule::None)
}

impl Verdict {
    fn of(shown: &ffi::osi_verdict) -> Self {
        Verdict {
            side: side_of(shown.side),
            kind: kind_of(shown.kind),
            said: said_of(shown.said),
            rule: rule_of(shown.rule),
            offset: shown.offset,
            by: side_of(shown.by),
            connection: (shown.connection != ffi::OSI_NO_CONNECTION).then_some(shown.connection),
            left: (shown.left != 0).then_some(shown.left),
            right: (shown.right != 0).then_some(shown.right),
        }
    }

    fn shown(&self) -> ffi::osi_verdict {
        ffi::osi_verdict {
            offset: self.offset,
            connection: self.connection.unwrap_or(ffi::OSI_NO_CONNECTION),
            kind: self.kind as u32,
            side: self.side as u32,
            by: self.by as u32,
            rule: self.rule as u32,
            said: self.said as u32,
            left: self.left.unwrap_or(0),
            right: self.right.unwrap_or(0),
        }
    }
}

/// The line of the verdict, in the words of `osi judge`: `left 1 broke packet 143 Data TokenNotHeld`. `osi.h` lists the
/// forms.
impl fmt::Display for Verdict {
    fn fmt(&self, f: &mut fmt::Formatter<'_>) -> fmt::Result {
        let mut text = [0u8; ffi::OSI_VERDICT_TEXT];
        // SAFETY: the text has as many octets as the call is told.
        let length = unsafe { ffi::osi_verdict_text(&self.shown(), text.as_mut_ptr().cast(), text.len()) };
        f.pad(str::from_utf8(text.get(..length).unwrap_or_default()).unwrap_or_default())
    }
}

/// Judges a byte connection between two other programs: it says which side first sent what no conforming end could have
/// sent there, as `osi judge` does, while the octets pass. It judges both classes of transport and any number of
/// connections: the transport of each side, and the session of each side of each connection. It needs no
/// [`End`](crate::End), no key and no clock.
///
/// Of each connection it keeps the TSDUs that passed, without their user data and equal ones in a row once, and what has
/// passed of unfinished ones: at most 3,145,728 octets, of which each TSDU counts 48 more than it has. So data may pass
/// for ever. If there is no room for a DT, the connection is judged no further, and a side that was kept until then has
/// [`VerdictKind::NotJudged`] with [`Rule::Limit`].
///
/// ```
/// use osi_session::{Judge, JudgedSide, Rule, VerdictKind};
///
/// # fn main() -> Result<(), osi_session::Error> {
/// let mut judge = Judge::new()?;
/// judge.feed(JudgedSide::Left, b"GET / HTTP/1.1")?;
/// let verdict = judge.next_verdict()?.expect("no packet begins so");
/// assert_eq!((verdict.kind, verdict.rule, verdict.offset), (VerdictKind::Broke, Rule::BadVersion, 0));
/// assert_eq!(verdict.to_string(), "left broke packet 0 TPKT BadVersion");
/// # Ok(())
/// # }
/// ```
pub struct Judge {
    slot: Box<ffi::osi_judge>,
    /// A judge may go to another thread, and is not used by two at the same time.
    alone: PhantomData<*mut ()>,
}

// SAFETY: a judge shares nothing with others, and all calls take it by `&mut`.
unsafe impl Send for Judge {}

// SAFETY, of each call below: the slot began as OSI_JUDGE, only these functions read or write it, and `&mut self`
// keeps two calls apart and ends the borrow of text that was lent.
impl Judge {
    /// The judge of a byte connection on which nothing has passed.
    ///
    /// # Errors
    /// [`Error::NoMemory`].
    pub fn new() -> Result<Judge, Error> {
        let mut slot = Box::new(ffi::OSI_JUDGE);
        match unsafe { ffi::osi_judge_new(&mut *slot) } {
            ffi::OSI_OK => Ok(Judge { slot, alone: PhantomData }),
            code => Err(Error::of(code)),
        }
    }

    /// Feeds octets of a side, in the order in which they passed, cut in any way.
    ///
    /// # Errors
    /// [`NotFed`] if memory ran out: the first [`used`](NotFed::used) octets have passed, and you can feed the
    /// others again when there is memory.
    pub fn feed(&mut self, side: JudgedSide, piece: &[u8]) -> Result<(), NotFed> {
        let mut used = 0;
        let code =
            unsafe { ffi::osi_judge_feed(self.at(), side as u32, piece.as_ptr(), piece.len(), &mut used) };
        match code {
            ffi::OSI_OK => Ok(()),
            code => Err(NotFed { used, error: Error::of(code) }),
        }
    }

    /// A verdict that is certain, whatever passes later: each once, that on the break that passed first before the
    /// others, and never [`VerdictKind::Kept`].
    ///
    /// What right sends before the first packet of left is certain once that packet has passed: if it is no CR, the
    /// capture begins in the middle of a connection, and nothing is judged ([`Rule::NoOpening`]).
    ///
    /// # Errors
    /// [`Error::NoMemory`]: make the call again when there is memory.
    pub fn next_verdict(&mut self) -> Result<Option<Verdict>, Error> {
        let mut shown = ffi::osi_verdict::default();
        match unsafe { ffi::osi_judge_next(self.at(), &mut shown) } {
            ffi::OSI_OK => Ok(Some(Verdict::of(&shown))),
            ffi::OSI_NOTHING => Ok(None),
            code => Err(Error::of(code)),
        }
    }

    /// The verdict by what has passed so far, whether it is certain or not, on the session of a side of the connection
    /// with this number.
    ///
    /// # Errors
    /// [`Error::NoSuchConnection`] if no connection has this number so far, and [`Error::NoMemory`].
    pub fn verdict(&mut self, connection: u64, side: JudgedSide) -> Result<Verdict, Error> {
        self.ask(connection, side)
    }

    /// The verdict by what has passed so far on the transport of a side: its first break, else the packet after which
    /// nothing more of it is judged, else [`VerdictKind::Kept`].
    ///
    /// # Errors
    /// [`Error::NoMemory`].
    pub fn transport_verdict(&mut self, side: JudgedSide) -> Result<Verdict, Error> {
        self.ask(ffi::OSI_NO_CONNECTION, side)
    }

    fn ask(&mut self, connection: u64, side: JudgedSide) -> Result<Verdict, Error> {
        let mut shown = ffi::osi_verdict::default();
        match unsafe { ffi::osi_judge_verdict(self.at(), connection, side as u32, &mut shown) } {
            ffi::OSI_OK => Ok(Verdict::of(&shown)),
            code => Err(Error::of(code)),
        }
    }

    /// How many connections were requested so far. Their numbers are 0 to one less.
    ///
    /// # Errors
    /// [`Error::NoMemory`].
    pub fn connections(&mut self) -> Result<u64, Error> {
        let mut connections = 0;
        match unsafe { ffi::osi_judge_connections(self.at(), &mut connections) } {
            ffi::OSI_OK => Ok(connections),
            code => Err(Error::of(code)),
        }
    }

    /// The text of the verdict on all that has passed so far: what `osi judge` prints for it. Its last line is "both kept
    /// the protocol" only if all that passed was judged.
    ///
    /// # Errors
    /// [`Error::NoMemory`].
    pub fn text(&mut self) -> Result<&str, Error> {
        let mut octets = ffi::lend(&[]);
        // SAFETY, in addition: the text is lent until the next call with this judge, and the text that is returned
        // holds the borrow that a call needs.
        let text = unsafe {
            match ffi::osi_judge_write(self.at()) {
                ffi::OSI_OK => ffi::osi_judge_text(self.at(), &mut octets),
                code => return Err(Error::of(code)),
            }
            lent(octets)
        };
        Ok(str::from_utf8(text).unwrap_or_default())
    }

    fn at(&mut self) -> *mut ffi::osi_judge {
        &mut *self.slot
    }
}

impl Drop for Judge {
    fn drop(&mut self) {
        unsafe { ffi::osi_judge_free(self.at()) }
    }
}

impl fmt::Debug for Judge {
    fn fmt(&self, f: &mut fmt::Formatter<'_>) -> fmt::Result {
        f.debug_struct("Judge").finish_non_exhaustive()
    }
}

/// Memory ran out while octets were fed to a [`Judge`].
#[derive(Clone, Copy, Debug, PartialEq, Eq, Hash)]
pub struct NotFed {
    /// How many octets of the piece have passed, from the first.
    pub used: usize,
    /// Why the next one has not: [`Error::NoMemory`].
    pub error: Error,
}

impl fmt::Display for NotFed {
    fn fmt(&self, f: &mut fmt::Formatter<'_>) -> fmt::Result {
        write!(f, "{} after {} octets", self.error, self.used)
    }
}

impl std::error::Error for NotFed {
    fn source(&self) -> Option<&(dyn std::error::Error + 'static)> {
        Some(&self.error)
    }
}

impl From<NotFed> for Error {
    fn from(refused: NotFed) -> Error {
        refused.error
    }
}
