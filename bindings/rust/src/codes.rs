//! Why a call is refused, why an end has ended, and why a received unit is bad.

use std::error;
use std::fmt;

/// Why a call is refused. A refused call has changed nothing.
///
/// The library tests for these in this order: a call answers the first that applies.
#[derive(Clone, Copy, Debug, PartialEq, Eq, Hash)]
#[non_exhaustive]
pub enum Error {
    /// A number or a length is outside its range. The calling program has a bug.
    BadArgument,
    /// `malloc` or `realloc` failed. Call again when there is memory, or close the socket and call
    /// [`End::broken`](crate::End::broken), which needs none.
    NoMemory,
    /// This end never gave the reference.
    NoSuchConnection,
    /// The connection, or the end, is over. An indication has said why, or one that is pending will.
    Ended,
    /// The call is not allowed in this phase (X.225 annex A): see [`End::phase`](crate::End::phase).
    BadState,
    /// A functional unit or a token isn't available, or functional units can't be combined.
    NotSelected,
    /// The call needs a token that the other side holds. Ask for it by [`End::please`](crate::End::please).
    TokenNotHeld,
    /// The call asks for a token that this side holds.
    TokenAlreadyHeld,
    /// The call may not name a point of this number.
    BadNumber,
    /// All numbers of points, up to 999,999, are used.
    SerialsUsedUp,
    /// Data without an octet, or a set without a token.
    Empty,
    /// More than 10,240 octets of user data, 1,048,572 of data, or 16 of a session address.
    TooLong,
    /// Only the calling end asks for connections.
    NotCaller,
    /// The first connection is not answered yet, so the transport class is not known: ask again after
    /// [`Indication::Connected`](crate::Indication::Connected).
    Negotiating,
    /// The end uses class 0, which has one connection.
    OneConnection,
    /// 64 connections are live.
    TooMany,
    /// All 65,535 references are used.
    ReferencesUsedUp,
    /// A code of the library for C that this crate doesn't know. The library that belongs to it has none.
    Other(u32),
}

impl Error {
    /// The error of a code; `None` for `OSI_OK`.
    pub(crate) fn of(code: u32) -> Error {
        match code {
            2 => Error::BadArgument,
            3 => Error::NoMemory,
            10 => Error::NoSuchConnection,
            11 => Error::Ended,
            12 => Error::BadState,
            13 => Error::NotSelected,
            14 => Error::TokenNotHeld,
            15 => Error::TokenAlreadyHeld,
            16 => Error::BadNumber,
            17 => Error::SerialsUsedUp,
            18 => Error::Empty,
            19 => Error::TooLong,
            20 => Error::NotCaller,
            21 => Error::Negotiating,
            22 => Error::OneConnection,
            23 => Error::TooMany,
            24 => Error::ReferencesUsedUp,
            other => Error::Other(other),
        }
    }

    /// The code of `osi.h`.
    pub fn code(self) -> u32 {
        match self {
            Error::BadArgument => 2,
            Error::NoMemory => 3,
            Error::NoSuchConnection => 10,
            Error::Ended => 11,
            Error::BadState => 12,
            Error::NotSelected => 13,
            Error::TokenNotHeld => 14,
            Error::TokenAlreadyHeld => 15,
            Error::BadNumber => 16,
            Error::SerialsUsedUp => 17,
            Error::Empty => 18,
            Error::TooLong => 19,
            Error::NotCaller => 20,
            Error::Negotiating => 21,
            Error::OneConnection => 22,
            Error::TooMany => 23,
            Error::ReferencesUsedUp => 24,
            Error::Other(code) => code,
        }
    }
}

impl fmt::Display for Error {
    fn fmt(&self, f: &mut fmt::Formatter<'_>) -> fmt::Result {
        f.write_str(match self {
            Error::BadArgument => "a number or a length is outside its range",
            Error::NoMemory => "there is no memory",
            Error::NoSuchConnection => "no connection has this reference or number",
            Error::Ended => "the connection is over",
            Error::BadState => "the call is not allowed in this phase",
            Error::NotSelected => "a functional unit or a token is not selected",
            Error::TokenNotHeld => "the other side holds a token that the call needs",
            Error::TokenAlreadyHeld => "a token is held already",
            Error::BadNumber => "the number is of no point that the call may name",
            Error::SerialsUsedUp => "all numbers of points are used",
            Error::Empty => "there is no octet of data, or no token",
            Error::TooLong => "there are too many octets",
            Error::NotCaller => "only the calling end asks for connections",
            Error::Negotiating => "the first connection is not answered yet",
            Error::OneConnection => "class 0 has one connection",
            Error::TooMany => "64 connections are live",
            Error::ReferencesUsedUp => "all references were given",
            Error::Other(code) => return write!(f, "the library answers {code}"),
        })
    }
}

impl error::Error for Error {}

/// Why an end has ended. After the first four, each names a rule of X.224 or RFC 1006 that the peer broke,
/// or says that memory ran out for what the peer sent.
#[derive(Clone, Copy, Debug, PartialEq, Eq, Hash)]
#[non_exhaustive]
pub enum Ending {
    /// [`End::broken`](crate::End::broken) was called.
    Broken,
    /// Its connection of class 0 was closed here. In class 0 that ends the byte connection.
    Closed,
    /// The peer closed its connection by a DR.
    PeerClosed {
        /// X.224 section 13.5.3.
        reason: u8,
    },
    /// Memory ran out in [`End::feed`](crate::End::feed).
    NoMemory,
    /// A unit names an unknown reference.
    UnknownReference,
    /// A CC doesn't fit the CR that it answers.
    BadAnswer,
    /// The peer sent a unit that is not expected.
    UnexpectedUnit,
    /// A packet is not of version 3 (RFC 1006 section 6).
    BadVersion {
        /// The offset of the packet's first octet in the stream, from 0.
        offset: u64,
    },
    /// The length of a packet is out of range (RFC 1006 section 6).
    BadLength {
        /// The offset of the packet's first octet in the stream, from 0.
        offset: u64,
    },
    /// Memory ran out for a packet.
    NoMemoryForPacket,
    /// The length indicator of a unit is bad (X.224 section 13).
    BadLi {
        /// The offset of the octet in the packet's units, from 0.
        offset: u64,
    },
    /// The code of a unit is unknown (X.224 section 13).
    UnknownCode {
        /// The offset of the octet in the packet's units, from 0.
        offset: u64,
    },
    /// The length of a parameter is bad (X.224 section 13).
    BadParameterLength {
        /// The offset of the octet in the packet's units, from 0.
        offset: u64,
    },
    /// The value of a parameter is bad (X.224 section 13).
    BadParameterValue {
        /// The offset of the octet in the packet's units, from 0.
        offset: u64,
    },
    /// A parameter is present twice (X.224 section 13).
    DuplicateParameter {
        /// The offset of the octet in the packet's units, from 0.
        offset: u64,
    },
    /// A unit has the form of another class.
    WrongForm,
    /// A data unit or an acknowledgement is out of sequence (X.224 section 6.16).
    OutOfSequence,
    /// An acknowledgement reduces credit that was given (X.224 section 6.16).
    CreditReduced,
    /// A TSDU is longer than 1,048,576 octets.
    TsduTooLong,
    /// Memory ran out for a TSDU.
    NoMemoryForTsdu,
    /// A reason of the library for C that this crate doesn't know.
    Other {
        /// What `osi_ended` answers.
        number: u32,
        /// Its detail.
        detail: u64,
    },
}

impl Ending {
    /// The reason of a number and its detail; `None` for `OSI_END_NONE`.
    pub(crate) fn of(number: u32, detail: u64) -> Ending {
        let offset = detail;
        match number {
            1 => Ending::Broken,
            2 => Ending::Closed,
            3 => Ending::PeerClosed { reason: detail as u8 },
            4 => Ending::NoMemory,
            5 => Ending::UnknownReference,
            6 => Ending::BadAnswer,
            7 => Ending::UnexpectedUnit,
            10 => Ending::BadVersion { offset },
            11 => Ending::BadLength { offset },
            12 => Ending::NoMemoryForPacket,
            13 => Ending::BadLi { offset },
            14 => Ending::UnknownCode { offset },
            15 => Ending::BadParameterLength { offset },
            16 => Ending::BadParameterValue { offset },
            17 => Ending::DuplicateParameter { offset },
            18 => Ending::WrongForm,
            19 => Ending::OutOfSequence,
            20 => Ending::CreditReduced,
            21 => Ending::TsduTooLong,
            22 => Ending::NoMemoryForTsdu,
            number => Ending::Other { number, detail },
        }
    }
}

impl fmt::Display for Ending {
    fn fmt(&self, f: &mut fmt::Formatter<'_>) -> fmt::Result {
        match self {
            Ending::Broken => f.write_str("the byte connection is broken or closed"),
            Ending::Closed => f.write_str("its connection was closed here"),
            Ending::PeerClosed { reason } => {
                write!(f, "the peer closed its connection, with the reason {reason}")
            }
            Ending::NoMemory => f.write_str("there was no memory for what came"),
            Ending::UnknownReference => f.write_str("a unit names an unknown reference"),
            Ending::BadAnswer => f.write_str("a CC answers what was not asked for"),
            Ending::UnexpectedUnit => f.write_str("a unit came that is not expected"),
            Ending::BadVersion { offset } => {
                write!(f, "the packet at octet {offset} is not of TPKT version 3")
            }
            Ending::BadLength { offset } => {
                write!(f, "the length of the packet at octet {offset} is out of range")
            }
            Ending::NoMemoryForPacket => f.write_str("there was no memory for a packet"),
            Ending::BadLi { offset } => {
                write!(f, "the length indicator at octet {offset} of a packet's units is bad")
            }
            Ending::UnknownCode { offset } => {
                write!(f, "the code at octet {offset} of a packet's units is unknown")
            }
            Ending::BadParameterLength { offset } => {
                write!(f, "the length of the parameter at octet {offset} of a packet's units is bad")
            }
            Ending::BadParameterValue { offset } => {
                write!(f, "the value of the parameter at octet {offset} of a packet's units is bad")
            }
            Ending::DuplicateParameter { offset } => {
                write!(f, "the parameter at octet {offset} of a packet's units stands twice")
            }
            Ending::WrongForm => f.write_str("a unit has the form of another class"),
            Ending::OutOfSequence => f.write_str("a unit is out of sequence"),
            Ending::CreditReduced => f.write_str("a credit was reduced"),
            Ending::TsduTooLong => f.write_str("a TSDU is too long"),
            Ending::NoMemoryForTsdu => f.write_str("there was no memory for a TSDU"),
            Ending::Other { number, detail } => {
                write!(f, "the library says {number}, with the detail {detail}")
            }
        }
    }
}

impl error::Error for Ending {}

/// Why a received session unit is bad (X.225 section 8 and annex A).
#[derive(Clone, Copy, Debug, PartialEq, Eq, Hash)]
pub enum Fault {
    /// Its octets are no unit.
    Spelling {
        /// What is wrong with them.
        spelling: Spelling,
        /// The offset of the octet in the TSDU, from 0.
        offset: u64,
    },
    /// The unit is not expected in this phase.
    Unexpected {
        /// The SI of the unit.
        si: u8,
    },
    /// Its functional unit is not selected.
    NotSelected {
        /// The SI of the unit.
        si: u8,
    },
    /// The peer does not hold a token that the unit needs.
    TokenNotHeld {
        /// The SI of the unit.
        si: u8,
    },
    /// The unit may not name a point of this number.
    BadNumber {
        /// The SI of the unit.
        si: u8,
    },
    /// It names tokens or sides that it may not name.
    BadTokens {
        /// The SI of the unit.
        si: u8,
    },
    /// It is out of its place among the parts of one Data: a first part, whole data, a token item with
    /// tokens, a point or a finish before the last part has come, or a later part without a first one.
    BadEnclosure {
        /// The SI of the unit.
        si: u8,
    },
    /// With this part, the Data has more than 1,048,572 octets.
    DataTooLong {
        /// The SI of the unit.
        si: u8,
    },
}

impl fmt::Display for Fault {
    fn fmt(&self, f: &mut fmt::Formatter<'_>) -> fmt::Result {
        match self {
            Fault::Spelling { spelling, offset } => write!(f, "{spelling}, at octet {offset} of the TSDU"),
            Fault::Unexpected { si } => write!(f, "a unit with the SI {si} is not expected in this phase"),
            Fault::NotSelected { si } => write!(f, "the functional unit of the SI {si} is not selected"),
            Fault::TokenNotHeld { si } => write!(f, "the peer does not hold a token that the SI {si} needs"),
            Fault::BadNumber { si } => {
                write!(f, "the number in the unit with the SI {si} is of no such point")
            }
            Fault::BadTokens { si } => write!(f, "the tokens in the unit with the SI {si} are bad"),
            Fault::BadEnclosure { si } => {
                write!(f, "the unit with the SI {si} does not come there among the parts of one Data")
            }
            Fault::DataTooLong { si } => {
                write!(f, "with the unit with the SI {si} the parts of one Data are too long")
            }
        }
    }
}

impl error::Error for Fault {}

/// What is wrong with the octets of a session unit (X.225 section 8).
#[derive(Clone, Copy, Debug, PartialEq, Eq, Hash)]
pub enum Spelling {
    /// No unit has this SI.
    UnknownSi,
    /// A length reaches past the end of the parameter, unit or TSDU around it.
    LengthPastEnd,
    /// A parameter with this code is missing.
    MissingParameter(u8),
    /// The parameter with this code is present twice.
    DuplicateParameter(u8),
    /// The value of the parameter with this code is bad.
    BadValue(u8),
    /// Units that may not be in one TSDU together.
    BadConcatenation,
    /// Octets are left over after the last unit.
    OctetsLeftOver,
}

impl fmt::Display for Spelling {
    fn fmt(&self, f: &mut fmt::Formatter<'_>) -> fmt::Result {
        match self {
            Spelling::UnknownSi => f.write_str("the SI is unknown"),
            Spelling::LengthPastEnd => f.write_str("a length reaches past the end"),
            Spelling::MissingParameter(code) => write!(f, "the parameter {code} is missing"),
            Spelling::DuplicateParameter(code) => write!(f, "the parameter {code} stands twice"),
            Spelling::BadValue(code) => write!(f, "the value of the parameter {code} is bad"),
            Spelling::BadConcatenation => f.write_str("the units do not stand together"),
            Spelling::OctetsLeftOver => f.write_str("octets are left over"),
        }
    }
}
