//! The indications that the user of a connection receives.

use crate::codes::{Fault, Spelling};
use crate::ffi;
use crate::terms::{Sides, Sizes, Tokens, Units};

/// An indication for the user of a connection (X.215 section 10, indications and confirms).
///
/// `D` holds the user data: `&[u8]` as long as the end lends it, until the next call with that end, and
/// `Vec<u8>` after [`into_owned`](Indication::into_owned). The abbreviations are the units of X.225
/// section 8.
#[derive(Clone, Debug, PartialEq, Eq, Hash)]
pub enum Indication<D> {
    /// CN: the peer asks for a connection. Answer by [`End::accept`](crate::End::accept) or
    /// [`End::refuse`](crate::End::refuse).
    Connect {
        /// The functional units that the peer offers.
        requirements: Units,
        /// The number of the first point, 0 to 999,999, if the CN names one.
        number: Option<u32>,
        /// Which side is to hold each token.
        wishes: Sides,
        /// The sizes that the CN names.
        sizes: Sizes,
        /// User data.
        user_data: D,
    },
    /// AC: the peer accepts the connection.
    Connected {
        /// The functional units that the peer names. Those that both sides name are selected.
        requirements: Units,
        /// The number of the first point, 0 to 999,999, if the AC names one.
        number: Option<u32>,
        /// Which side holds each token.
        sides: Sides,
        /// The sizes that the AC names.
        sizes: Sizes,
        /// User data.
        user_data: D,
    },
    /// DR: the transport connection is refused.
    RefusedByTransport {
        /// The reason of the DR (X.224 section 13.5.3).
        reason: u8,
    },
    /// RF: the session connection is refused.
    RefusedBySession {
        /// 0, 1 and 2 come from the called user, 128 and above from its provider.
        reason: u8,
        /// User data.
        user_data: D,
    },
    /// DT: data.
    Data {
        /// User data, at least one octet.
        user_data: D,
    },
    /// GT: the peer gives tokens to this side.
    Given {
        /// Which tokens.
        tokens: Tokens,
    },
    /// PT: the peer asks for tokens.
    Asked {
        /// Which tokens.
        tokens: Tokens,
        /// User data.
        user_data: D,
    },
    /// MIP: a minor point.
    Minor {
        /// Its number, 0 to 999,999.
        number: u32,
        /// Whether the peer asks for [`End::minor_confirm`](crate::End::minor_confirm).
        confirm: bool,
        /// User data.
        user_data: D,
    },
    /// MIA: the peer confirms the minor points up to this number.
    MinorConfirmed {
        /// Its number, 0 to 999,999.
        number: u32,
        /// User data.
        user_data: D,
    },
    /// MAP: a major point. Answer by [`End::major_confirm`](crate::End::major_confirm).
    Major {
        /// Its number, 0 to 999,999.
        number: u32,
        /// User data.
        user_data: D,
    },
    /// MAA: the peer confirms the major point.
    MajorConfirmed {
        /// User data.
        user_data: D,
    },
    /// RS: a restart at a point. Answer by [`End::restart_confirm`](crate::End::restart_confirm).
    Restart {
        /// The number that the next point then has, 0 to 999,999.
        number: u32,
        /// Which side is to hold each token.
        wishes: Sides,
        /// User data.
        user_data: D,
    },
    /// RA: the peer confirms the restart.
    Restarted {
        /// The number that the next point has, 0 to 999,999.
        number: u32,
        /// Which side holds each token.
        sides: Sides,
        /// User data.
        user_data: D,
    },
    /// FN: the peer asks for the release. Answer by [`End::release_accept`](crate::End::release_accept) or
    /// [`End::release_refuse`](crate::End::release_refuse).
    Release {
        /// User data.
        user_data: D,
    },
    /// DN: the connection is released.
    Released {
        /// User data.
        user_data: D,
    },
    /// NF: the peer refuses the release.
    ReleaseRefused {
        /// User data.
        user_data: D,
    },
    /// AB of the peer's user.
    Aborted {
        /// User data.
        user_data: D,
    },
    /// The transport connection was closed, broke, or had a fault.
    Lost,
    /// AB of the peer's provider.
    PeerAbort {
        /// The octet of its parameter 17 (X.225 section 8).
        reason: u8,
    },
    /// This end aborts because it received a bad unit.
    BadUnit {
        /// Why the unit is bad.
        fault: Fault,
    },
}

impl<D: AsRef<[u8]>> Indication<D> {
    /// The user data, if the indication has some.
    pub fn user_data(&self) -> Option<&[u8]> {
        match self {
            Indication::Connect { user_data, .. }
            | Indication::Connected { user_data, .. }
            | Indication::RefusedBySession { user_data, .. }
            | Indication::Data { user_data }
            | Indication::Asked { user_data, .. }
            | Indication::Minor { user_data, .. }
            | Indication::MinorConfirmed { user_data, .. }
            | Indication::Major { user_data, .. }
            | Indication::MajorConfirmed { user_data }
            | Indication::Restart { user_data, .. }
            | Indication::Restarted { user_data, .. }
            | Indication::Release { user_data }
            | Indication::Released { user_data }
            | Indication::ReleaseRefused { user_data }
            | Indication::Aborted { user_data } => Some(user_data.as_ref()),
            Indication::RefusedByTransport { .. }
            | Indication::Given { .. }
            | Indication::Lost
            | Indication::PeerAbort { .. }
            | Indication::BadUnit { .. } => None,
        }
    }
}

impl<D> Indication<D> {
    /// Whether the connection is over after this indication.
    pub fn is_over(&self) -> bool {
        matches!(
            self,
            Indication::RefusedByTransport { .. }
                | Indication::RefusedBySession { .. }
                | Indication::Released { .. }
                | Indication::Aborted { .. }
                | Indication::Lost
                | Indication::PeerAbort { .. }
                | Indication::BadUnit { .. }
        )
    }

    /// The same indication, with its user data converted by a function.
    pub fn map<E>(self, made: impl FnOnce(D) -> E) -> Indication<E> {
        match self {
            Indication::Connect { requirements, number, wishes, sizes, user_data } => {
                Indication::Connect { requirements, number, wishes, sizes, user_data: made(user_data) }
            }
            Indication::Connected { requirements, number, sides, sizes, user_data } => {
                Indication::Connected { requirements, number, sides, sizes, user_data: made(user_data) }
            }
            Indication::RefusedByTransport { reason } => Indication::RefusedByTransport { reason },
            Indication::RefusedBySession { reason, user_data } => {
                Indication::RefusedBySession { reason, user_data: made(user_data) }
            }
            Indication::Data { user_data } => Indication::Data { user_data: made(user_data) },
            Indication::Given { tokens } => Indication::Given { tokens },
            Indication::Asked { tokens, user_data } => {
                Indication::Asked { tokens, user_data: made(user_data) }
            }
            Indication::Minor { number, confirm, user_data } => {
                Indication::Minor { number, confirm, user_data: made(user_data) }
            }
            Indication::MinorConfirmed { number, user_data } => {
                Indication::MinorConfirmed { number, user_data: made(user_data) }
            }
            Indication::Major { number, user_data } => {
                Indication::Major { number, user_data: made(user_data) }
            }
            Indication::MajorConfirmed { user_data } => {
                Indication::MajorConfirmed { user_data: made(user_data) }
            }
            Indication::Restart { number, wishes, user_data } => {
                Indication::Restart { number, wishes, user_data: made(user_data) }
            }
            Indication::Restarted { number, sides, user_data } => {
                Indication::Restarted { number, sides, user_data: made(user_data) }
            }
            Indication::Release { user_data } => Indication::Release { user_data: made(user_data) },
            Indication::Released { user_data } => Indication::Released { user_data: made(user_data) },
            Indication::ReleaseRefused { user_data } => {
                Indication::ReleaseRefused { user_data: made(user_data) }
            }
            Indication::Aborted { user_data } => Indication::Aborted { user_data: made(user_data) },
            Indication::Lost => Indication::Lost,
            Indication::PeerAbort { reason } => Indication::PeerAbort { reason },
            Indication::BadUnit { fault } => Indication::BadUnit { fault },
        }
    }
}

impl Indication<&[u8]> {
    /// The same indication with a copy of its user data, which you can keep or hand to another thread.
    pub fn into_owned(self) -> Indication<Vec<u8>> {
        self.map(<[u8]>::to_vec)
    }
}

impl<'a> Indication<&'a [u8]> {
    /// The indication of C's struct; `None` for `OSI_NONE` and for a tag that this crate doesn't know.
    pub(crate) fn of(shown: &ffi::osi_indication, user_data: &'a [u8]) -> Option<Self> {
        let requirements = Units::from_bits(shown.requirements);
        let named = (shown.has_number != 0).then_some(shown.number);
        let sides = Sides::of(shown.sides);
        let sizes = Sizes { from_asker: shown.size_from_asker, from_answerer: shown.size_from_answerer };
        let tokens = Tokens::from_bits(shown.tokens);
        let (number, reason, confirm) = (shown.number, shown.reason, shown.confirm != 0);
        Some(match shown.tag {
            1 => Indication::Connect { requirements, number: named, wishes: sides, sizes, user_data },
            2 => Indication::Connected { requirements, number: named, sides, sizes, user_data },
            3 => Indication::RefusedByTransport { reason },
            4 => Indication::RefusedBySession { reason, user_data },
            5 => Indication::Data { user_data },
            6 => Indication::Given { tokens },
            7 => Indication::Asked { tokens, user_data },
            8 => Indication::Minor { number, confirm, user_data },
            9 => Indication::MinorConfirmed { number, user_data },
            10 => Indication::Major { number, user_data },
            11 => Indication::MajorConfirmed { user_data },
            12 => Indication::Restart { number, wishes: sides, user_data },
            13 => Indication::Restarted { number, sides, user_data },
            14 => Indication::Release { user_data },
            15 => Indication::Released { user_data },
            16 => Indication::ReleaseRefused { user_data },
            17 => Indication::Aborted { user_data },
            18 => Indication::Lost,
            19 => Indication::PeerAbort { reason },
            20 => Indication::BadUnit { fault: fault_of(&shown.fault)? },
            _ => return None,
        })
    }
}

fn fault_of(fault: &ffi::osi_fault) -> Option<Fault> {
    let si = fault.si;
    Some(match fault.fault {
        1 => Fault::Spelling { spelling: spelling_of(fault)?, offset: fault.offset },
        2 => Fault::Unexpected { si },
        3 => Fault::NotSelected { si },
        4 => Fault::TokenNotHeld { si },
        5 => Fault::BadNumber { si },
        6 => Fault::BadTokens { si },
        7 => Fault::BadEnclosure { si },
        8 => Fault::DataTooLong { si },
        _ => return None,
    })
}

fn spelling_of(fault: &ffi::osi_fault) -> Option<Spelling> {
    Some(match fault.spelling {
        1 => Spelling::UnknownSi,
        2 => Spelling::LengthPastEnd,
        3 => Spelling::MissingParameter(fault.parameter),
        4 => Spelling::DuplicateParameter(fault.parameter),
        5 => Spelling::BadValue(fault.parameter),
        6 => Spelling::BadConcatenation,
        7 => Spelling::OctetsLeftOver,
        _ => return None,
    })
}
