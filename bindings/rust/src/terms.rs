//! What you pass to an end: its terms, the parameters of a connection, and its phases.

use crate::ffi;
use std::fmt;
use std::ops::{BitAnd, BitOr};

/// Names a connection of one end: 1 to 65,535, and no number twice.
///
/// [`End::connect`](crate::End::connect) answers it, and each indication comes with one.
#[derive(Clone, Copy, Debug, PartialEq, Eq, PartialOrd, Ord, Hash)]
pub struct Reference(pub(crate) u16);

impl Reference {
    /// The reference with this number. Each call tests whether the end has given it.
    pub fn new(number: u16) -> Reference {
        Reference(number)
    }

    /// Its number.
    pub fn get(self) -> u16 {
        self.0
    }
}

impl fmt::Display for Reference {
    fn fmt(&self, f: &mut fmt::Formatter<'_>) -> fmt::Result {
        self.0.fmt(f)
    }
}

/// The operators of a set of bits.
macro_rules! set {
    ($name:ident, $bits:ty) => {
        impl $name {
            /// The set with these bits, as `osi.h` numbers them.
            pub const fn from_bits(bits: $bits) -> $name {
                $name(bits)
            }

            /// The bits of the set, as `osi.h` numbers them.
            pub const fn bits(self) -> $bits {
                self.0
            }

            /// The union of both sets, which is `|`, in a constant.
            pub const fn union(self, other: $name) -> $name {
                $name(self.0 | other.0)
            }

            /// Whether this set has all of the other one.
            pub const fn contains(self, other: $name) -> bool {
                self.0 & other.0 == other.0
            }

            /// Whether the set is empty.
            pub const fn is_empty(self) -> bool {
                self.0 == 0
            }
        }

        impl BitOr for $name {
            type Output = $name;

            fn bitor(self, other: $name) -> $name {
                self.union(other)
            }
        }

        impl BitAnd for $name {
            type Output = $name;

            fn bitand(self, other: $name) -> $name {
                $name(self.0 & other.0)
            }
        }
    };
}

/// A set of classes of the transport protocol (X.224 section 5.4).
#[derive(Clone, Copy, Debug, Default, PartialEq, Eq, Hash)]
pub struct Classes(u8);

impl Classes {
    /// None. A caller with none takes class 0; a called end with none refuses every connection.
    pub const NONE: Classes = Classes(0);
    /// Class 0: one connection for each byte connection.
    pub const CLASS_0: Classes = Classes(1);
    /// Class 2, with explicit flow control: up to 64 connections.
    pub const CLASS_2: Classes = Classes(2);
    /// Both: class 2 if the peer has it.
    pub const BOTH: Classes = Classes(3);
}

set!(Classes, u8);

/// A set of functional units (X.225 section 8): half-duplex with any of the last four, or duplex alone.
#[derive(Clone, Copy, Debug, Default, PartialEq, Eq, Hash)]
pub struct Units(u16);

impl Units {
    /// No unit.
    pub const NONE: Units = Units(0);
    /// Half-duplex: the side that holds the data token sends data.
    pub const HALF_DUPLEX: Units = Units(0x0001);
    /// Both sides send data. It can't be combined with another unit.
    pub const DUPLEX: Units = Units(0x0002);
    /// Minor synchronization points.
    pub const MINOR_SYNC: Units = Units(0x0008);
    /// Major synchronization points.
    pub const MAJOR_SYNC: Units = Units(0x0010);
    /// Restarts at a point.
    pub const RESYNCHRONIZE: Units = Units(0x0020);
    /// A release that can be refused.
    pub const NEGOTIATED_RELEASE: Units = Units(0x0080);
}

set!(Units, u16);

/// A set of tokens (X.215 section 7). A token is available if its functional unit is selected.
#[derive(Clone, Copy, Debug, Default, PartialEq, Eq, Hash)]
pub struct Tokens(u8);

impl Tokens {
    /// No token.
    pub const NONE: Tokens = Tokens(0);
    /// The data token, of half-duplex.
    pub const DATA: Tokens = Tokens(0x01);
    /// The token of minor points.
    pub const MINOR: Tokens = Tokens(0x04);
    /// The token of major points.
    pub const MAJOR: Tokens = Tokens(0x10);
    /// The token of the negotiated release.
    pub const RELEASE: Tokens = Tokens(0x40);
}

set!(Tokens, u8);

/// The transport protocol of an end (X.224 section 6.5). The default is class 0 alone, the largest size and
/// the largest window. A caller should offer both classes only to a peer that is known to have class 2: one
/// that has only class 0 may leave a request that prefers class 2 unanswered. A called end with both takes
/// the class that the caller prefers.
#[derive(Clone, Copy, Debug, PartialEq, Eq, Hash)]
pub struct Terms {
    /// The classes that the end has.
    pub classes: Classes,
    /// The exponent of the largest TPDU in octets: 7 (128 octets) to 13 (8,192).
    pub size: u8,
    /// How many units the peer may send before they are acknowledged, in class 2: 1 to 15.
    pub window: u8,
}

impl Default for Terms {
    fn default() -> Terms {
        Terms { classes: Classes::CLASS_0, size: 13, window: 15 }
    }
}

/// Why a user refuses a connection (X.225 section 8.3.5).
#[derive(Clone, Copy, Debug, PartialEq, Eq, Hash)]
pub enum Refusal<'a> {
    /// No reason is given.
    Unspecified,
    /// Temporary congestion: the caller may ask again later.
    Congestion,
    /// This user data says why; it may be empty.
    WithData(&'a [u8]),
}

impl<'a> Refusal<'a> {
    pub(crate) fn reason(self) -> u8 {
        match self {
            Refusal::Unspecified => 0,
            Refusal::Congestion => 1,
            Refusal::WithData(_) => 2,
        }
    }

    pub(crate) fn user_data(self) -> &'a [u8] {
        match self {
            Refusal::WithData(user_data) => user_data,
            _ => &[],
        }
    }
}

/// A side of a connection or of a restart (X.215 section 12.1.2).
#[derive(Clone, Copy, Debug, Default, PartialEq, Eq, Hash)]
pub enum Side {
    /// The side that asks.
    #[default]
    Asker,
    /// The side that answers.
    Answerer,
    /// Only in a wish: the answering side chooses.
    Choice,
}

impl Side {
    fn of(number: u8) -> Side {
        match number {
            0 => Side::Asker,
            1 => Side::Answerer,
            _ => Side::Choice,
        }
    }
}

/// Which side holds, or is to hold, each token at first. By default it is the side that asks.
#[derive(Clone, Copy, Debug, Default, PartialEq, Eq, Hash)]
pub struct Sides {
    /// The data token.
    pub data: Side,
    /// The token of minor points.
    pub minor: Side,
    /// The token of major points.
    pub major: Side,
    /// The token of the negotiated release.
    pub release: Side,
}

impl Sides {
    pub(crate) fn of(sides: ffi::osi_sides) -> Sides {
        Sides {
            data: Side::of(sides.data),
            minor: Side::of(sides.minor),
            major: Side::of(sides.major),
            release: Side::of(sides.release),
        }
    }

    pub(crate) fn passed(self) -> ffi::osi_sides {
        ffi::osi_sides {
            data: self.data as u8,
            minor: self.minor as u8,
            major: self.major as u8,
            release: self.release as u8,
        }
    }
}

/// The most octets of a TSDU in each direction: 64 to 65,535, or 0 for no limit (X.225 section 8).
#[derive(Clone, Copy, Debug, Default, PartialEq, Eq, Hash)]
pub struct Sizes {
    /// From the side that asks for the connection.
    pub from_asker: u16,
    /// From the side that answers.
    pub from_answerer: u16,
}

/// The parameters of a connection that you ask for. Begin with [`Opening::default`], which asks for
/// half-duplex alone, and has no address, no size and no user data.
#[derive(Clone, Copy, Debug, PartialEq, Eq, Hash)]
pub struct Opening<'a> {
    /// The functional units.
    pub requirements: Units,
    /// The number of the first point, 0 to 999,999.
    pub serial: u32,
    /// Which side is to hold each token at first.
    pub wishes: Sides,
    /// The transport address of this end, 1 to 32 octets. If it is empty, none is sent.
    pub calling_tsap: &'a [u8],
    /// That of the other end.
    pub called_tsap: &'a [u8],
    /// The session address of this user, 1 to 16 octets. If it is empty, none is sent.
    pub calling_selector: &'a [u8],
    /// That of the other user.
    pub called_selector: &'a [u8],
    /// The sizes that you ask for.
    pub sizes: Sizes,
    /// User data, at most 10,240 octets.
    pub user_data: &'a [u8],
}

impl Default for Opening<'_> {
    fn default() -> Self {
        Opening {
            requirements: Units::HALF_DUPLEX,
            serial: 0,
            wishes: Sides::default(),
            calling_tsap: b"",
            called_tsap: b"",
            calling_selector: b"",
            called_selector: b"",
            sizes: Sizes::default(),
            user_data: b"",
        }
    }
}

/// The phase of a connection (X.225 annex A, states).
#[derive(Clone, Copy, Debug, PartialEq, Eq, Hash)]
pub enum Phase {
    /// The transport connection is awaited.
    WaitTransport,
    /// A CN is awaited.
    WaitCn,
    /// The answer to the CN is awaited.
    Connecting,
    /// The user is to accept or refuse.
    Answering,
    /// Data may be sent, points set, and the release requested.
    Ready,
    /// The confirmation of a major point is awaited.
    MajorAsked,
    /// The user is to confirm a major point.
    MajorDue,
    /// The answer to the release is awaited.
    Releasing,
    /// The user is to answer the release.
    ReleaseDue,
    /// The answer to the restart is awaited.
    Restarting,
    /// The user is to answer the restart.
    RestartDue,
    /// The answer to the abort is awaited.
    Aborting,
    /// The connection is gone.
    Ended,
}

impl Phase {
    /// The phase of a number; `None` for `OSI_PHASE_NONE`.
    pub(crate) fn of(number: u32) -> Option<Phase> {
        Some(match number {
            1 => Phase::WaitTransport,
            2 => Phase::WaitCn,
            3 => Phase::Connecting,
            4 => Phase::Answering,
            5 => Phase::Ready,
            6 => Phase::MajorAsked,
            7 => Phase::MajorDue,
            8 => Phase::Releasing,
            9 => Phase::ReleaseDue,
            10 => Phase::Restarting,
            11 => Phase::RestartDue,
            12 => Phase::Aborting,
            13 => Phase::Ended,
            _ => return None,
        })
    }
}

impl fmt::Display for Phase {
    fn fmt(&self, f: &mut fmt::Formatter<'_>) -> fmt::Result {
        f.write_str(match self {
            Phase::WaitTransport => "awaits the transport connection",
            Phase::WaitCn => "awaits a CN",
            Phase::Connecting => "awaits the answer to its CN",
            Phase::Answering => "is to be accepted or refused",
            Phase::Ready => "ready",
            Phase::MajorAsked => "awaits the confirmation of a major point",
            Phase::MajorDue => "is to confirm a major point",
            Phase::Releasing => "awaits the answer to the release",
            Phase::ReleaseDue => "is to answer the release",
            Phase::Restarting => "awaits the answer to the restart",
            Phase::RestartDue => "is to answer the restart",
            Phase::Aborting => "awaits the answer to the abort",
            Phase::Ended => "over",
        })
    }
}
