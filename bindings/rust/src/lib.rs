//! One end of an OSI session (ITU-T X.225 version 2) over the transport classes 0 and 2 of X.224 in
//! TPKT packets (RFC 1006). You pass in the octets that you received, and it returns the octets to send.
//!
//! Nothing here opens a socket, starts a thread or reads a clock. An [`End`] sits between a byte connection
//! and the users of its session connections. You feed it the octets that you received from the peer, and it
//! returns octets to send; you call it for your user, and it returns indications.
//!
//! This crate is the safe way to the library for C of the same project (`include/osi.h`), whose functions
//! are proved: whatever octets come, in whatever pieces, a call returns, and refuses what the standards'
//! tables refuse. It is not proved that the calls of this crate keep what that library asks of its caller:
//! the types below are made for that, and it is tested.
//!
//! # Two ends
//!
//! ```
//! use osi_session::{End, Error, Indication, Opening, Sides, Sizes, Terms};
//!
//! /// Carries what one end has to send to the other, as a socket would.
//! fn carry(from: &mut End, to: &mut End, mut shown: impl FnMut(&Indication<&[u8]>)) -> Result<(), Error> {
//!     let octets = from.outgoing().to_vec();
//!     from.taken(octets.len())?;
//!     let mut piece = octets.as_slice();
//!     while let Some((_, indication)) = to.feed_next(&mut piece) {
//!         shown(&indication);
//!     }
//!     Ok(())
//! }
//!
//! # fn main() -> Result<(), Error> {
//! let mut caller = End::caller(Terms::default())?;
//! let mut called = End::called(Terms::default())?;
//! let asked = Opening { user_data: b"who is there?", ..Opening::default() };
//! let connection = caller.connect(&asked)?;
//! carry(&mut caller, &mut called, |_| {})?; // the transport connection is asked for,
//! carry(&mut called, &mut caller, |_| {})?; // and agreed to
//! let mut seen = false;
//! carry(&mut caller, &mut called, |indication| {
//!     seen = matches!(indication, Indication::Connect { user_data: b"who is there?", .. });
//! })?;
//! assert!(seen);
//! called.accept(connection, asked.requirements, 0, Sides::default(), b"a gateway")?;
//! carry(&mut called, &mut caller, |_| {})?;
//! caller.data(connection, b"hello")?;
//! # Ok(())
//! # }
//! ```
//!
//! # The loop of a gateway
//!
//! Three things happen in any order, as the socket becomes ready.
//!
//! 1. Octets to send: write as much of [`End::outgoing`] as the socket takes, and pass that number to
//!    [`End::taken`].
//! 2. Received octets: pass them to [`End::feed_next`] until it answers `None`.
//! 3. The peer is gone: call [`End::broken`], and then fetch the indications by [`End::next_indication`].
//!
//! After each turn ask [`End::is_over`], which says when to close the socket. The examples `client` and
//! `server` are such loops over non-blocking sockets of [`std::net`]; the server has many peers in one thread.
//!
//! The end keeps what it has to send until you have taken it, so you set the bounds. Make no more calls while
//! [`End::outgoing`] and [`End::backlog`] have many octets. Read no more while `outgoing` has many more than
//! that. If [`End::unsent`] says that a peer gives no credit for the answers to it, don't answer that
//! connection any more, but [`End::disconnect`] it.
//!
//! # Lent octets
//!
//! [`End::outgoing`] and the user data of an [`Indication`] are octets of the end, which are valid until the
//! next call with it. The compiler checks that: all calls take `&mut self`, even those that only read,
//! because the library for C says so. Copy what you want to keep, or call [`Indication::into_owned`].
//!
//! ```compile_fail,E0499
//! # use osi_session::{End, Terms};
//! let mut end = End::caller(Terms::default()).unwrap();
//! let lent = end.outgoing();
//! end.taken(0).unwrap();
//! assert!(lent.is_empty()); // lent is used after the next call
//! ```
//!
//! # Linking
//!
//! The build script finds `libosi-session.a` (or `libosi-session.so`) in the folder that `OSI_SESSION_DIR` names, or by
//! `pkg-config osi-session`. With `OSI_SESSION_SHARED=1` it links the shared library, even if both are there.

mod addresses;
mod codes;
mod end;
#[allow(missing_docs, non_camel_case_types)]
mod ffi;
mod indications;
mod judges;
mod terms;
mod traces;

/// The version of the library for C. `CARGO_PKG_VERSION` is that of this crate.
#[must_use]
pub fn library_version() -> &'static str {
    // SAFETY: the library returns a constant text that ends in a zero.
    let text = unsafe { std::ffi::CStr::from_ptr(ffi::osi_version()) };
    text.to_str().unwrap_or("unknown")
}

pub use addresses::Addresses;
pub use codes::{Ending, Error, Fault, Spelling};
pub use end::{End, Fed};
pub use indications::Indication;
pub use judges::{Judge, JudgedSide, NotFed, Rule, Said, Verdict, VerdictKind};
pub use terms::{Classes, Opening, Phase, Reference, Refusal, Side, Sides, Sizes, Terms, Tokens, Units};
pub use traces::{Counters, Direction, Tally, Trace};

/// These do not compile. Two threads can't use an end at the same time:
///
/// ```compile_fail,E0277
/// fn is_sync<T: Sync>() {}
/// is_sync::<osi_session::End>();
/// ```
///
/// An end can't be copied:
///
/// ```compile_fail,E0599
/// # use osi_session::{End, Terms};
/// let end = End::called(Terms::default()).unwrap();
/// let other = end.clone();
/// ```
///
/// Lent user data doesn't outlive the next call, nor the end:
///
/// ```compile_fail,E0499
/// # use osi_session::{End, Terms};
/// let mut end = End::called(Terms::default()).unwrap();
/// let shown = end.next_indication();
/// end.broken();
/// drop(shown);
/// ```
///
/// ```compile_fail,E0505
/// # use osi_session::{End, Terms};
/// let mut end = End::called(Terms::default()).unwrap();
/// let shown = end.next_indication();
/// drop(end);
/// drop(shown);
/// ```
#[cfg(doctest)]
pub struct DoesNotCompile;
