//! One end of a byte connection.

use crate::addresses::Addresses;
use crate::codes::{Ending, Error};
use crate::ffi;
use crate::indications::Indication;
use crate::terms::{Opening, Phase, Reference, Refusal, Sides, Sizes, Terms, Tokens, Units};
use std::fmt;
use std::mem::{size_of, size_of_val, MaybeUninit};
use std::slice;

/// What [`End::feed`] did.
#[derive(Clone, Copy, Debug, PartialEq, Eq, Hash)]
#[must_use = "the octets that were not used are to be fed again"]
pub struct Fed {
    /// How many octets of the piece were used, from the first.
    pub used: usize,
    /// An indication is pending.
    pub waits: bool,
}

/// One end of a byte connection, with up to 64 session connections in transport class 2, and one in
/// class 0. It is freed when it is dropped.
///
/// You may hand it to another thread, but only one thread uses it at a time. All calls take `&mut self`,
/// because octets that the end has lent are valid only until the next call, whichever it is.
///
/// User data of a call has at most 10,240 octets, unless the call says otherwise, and is copied. A refused
/// call changes nothing, and answers the first [`Error`] that applies.
pub struct End {
    /// The library is given the address of the slot, and nobody else reads or writes it. So the slot is in a
    /// box, and keeps its address while the `End` moves.
    slot: Box<ffi::osi_end>,
}

// SAFETY: an end of the library shares nothing with another, has no state of a thread, and may be used
// by one thread after the other (`osi.h`). All calls take `&mut self`.
unsafe impl Send for End {}

fn answer(code: u32) -> Result<(), Error> {
    match code {
        ffi::OSI_OK => Ok(()),
        code => Err(Error::of(code)),
    }
}

/// Octets that C lends.
///
/// # Safety
/// They are valid for `'a`, and nobody writes to them.
pub(crate) unsafe fn lent<'a>(octets: ffi::osi_octets) -> &'a [u8] {
    // SAFETY: by the condition on the caller; the pointer is never null (`osi.h`).
    unsafe { slice::from_raw_parts(octets.at, octets.length) }
}

// SAFETY, of each call below: `slot` began as `OSI_END`, and its address does not change. No pointer is
// null. Each points to an object of its type for the time of the call, and to no octet that the end has
// lent, since a slice of such octets would hold the borrow of `self` that the call needs.
impl End {
    /// Makes the calling end of a byte connection. It has nothing to send yet.
    ///
    /// # Errors
    /// [`Error::BadArgument`] if a number of the terms is outside its range, [`Error::NoMemory`].
    pub fn caller(terms: Terms) -> Result<End, Error> {
        End::make(ffi::osi_caller, terms)
    }

    /// Makes the called end of a byte connection. It has nothing to send yet.
    ///
    /// # Errors
    /// [`Error::BadArgument`] if a number of the terms is outside its range, [`Error::NoMemory`].
    pub fn called(terms: Terms) -> Result<End, Error> {
        End::make(ffi::osi_called, terms)
    }

    fn make(
        made: unsafe extern "C" fn(*mut ffi::osi_end, *const ffi::osi_terms) -> u32,
        terms: Terms,
    ) -> Result<End, Error> {
        let mut end = End { slot: Box::new(ffi::OSI_END) };
        let passed = ffi::osi_terms { classes: terms.classes.bits(), size: terms.size, window: terms.window };
        answer(unsafe { made(end.at(), &passed) })?;
        Ok(end)
    }

    pub(crate) fn at(&mut self) -> *mut ffi::osi_end {
        &mut *self.slot
    }

    fn say(&mut self, call: ffi::Says, of: Reference, data: &[u8]) -> Result<(), Error> {
        answer(unsafe { call(self.at(), of.0, data.as_ptr(), data.len()) })
    }

    /// Asks for a connection, and answers its reference. The peer's answer comes as an indication:
    /// [`Connected`](Indication::Connected), one of the two refusals, or one that says why the connection is over.
    ///
    /// # Errors
    /// The first that applies of [`BadArgument`](Error::BadArgument) (the serial, a size of 1 to 63, a
    /// transport address of more than 32 octets), [`NotCaller`](Error::NotCaller), [`Ended`](Error::Ended),
    /// [`Negotiating`](Error::Negotiating), [`OneConnection`](Error::OneConnection),
    /// [`TooMany`](Error::TooMany), [`ReferencesUsedUp`](Error::ReferencesUsedUp),
    /// [`NotSelected`](Error::NotSelected) (units that can't be combined),
    /// [`TooLong`](Error::TooLong) and [`NoMemory`](Error::NoMemory).
    pub fn connect(&mut self, asked: &Opening<'_>) -> Result<Reference, Error> {
        let passed = ffi::osi_opening {
            requirements: asked.requirements.bits(),
            serial: asked.serial,
            wishes: asked.wishes.passed(),
            calling_tsap: ffi::lend(asked.calling_tsap),
            called_tsap: ffi::lend(asked.called_tsap),
            calling_selector: ffi::lend(asked.calling_selector),
            called_selector: ffi::lend(asked.called_selector),
            user_data: ffi::lend(asked.user_data),
            size_from_asker: asked.sizes.from_asker,
            size_from_answerer: asked.sizes.from_answerer,
        };
        let mut reference = 0;
        let size = size_of_val(&passed);
        answer(unsafe { ffi::osi_connect_with_size(self.at(), &passed, size, &mut reference) })?;
        Ok(Reference(reference))
    }

    /// Answers [`Indication::Connect`]. Select some of the units that were offered: half-duplex, with or
    /// without others, or duplex alone. The number is that of the first point, 0 to 999,999. The sides say
    /// who holds the tokens whose choice was left to this side.
    ///
    /// # Errors
    /// [`BadArgument`](Error::BadArgument) (a number above 999,999, a side that is
    /// [`Choice`](crate::Side::Choice)), [`BadState`](Error::BadState),
    /// [`NotSelected`](Error::NotSelected), [`TooLong`](Error::TooLong), and those of every call:
    /// [`NoSuchConnection`](Error::NoSuchConnection), [`Ended`](Error::Ended),
    /// [`NoMemory`](Error::NoMemory).
    pub fn accept(
        &mut self,
        of: Reference,
        selected: Units,
        number: u32,
        sides: Sides,
        user_data: &[u8],
    ) -> Result<(), Error> {
        let (data, length) = (user_data.as_ptr(), user_data.len());
        let (units, sides) = (selected.bits(), sides.passed());
        answer(unsafe { ffi::osi_accept(self.at(), of.0, units, number, &sides, data, length) })
    }

    /// [`accept`](End::accept) with sizes of this side's own: if the CN names a size, the smaller of the two
    /// is agreed; if it names 0, there is no limit.
    ///
    /// # Errors
    /// Those of [`accept`](End::accept), and [`BadArgument`](Error::BadArgument) for a size of 1 to 63.
    pub fn accept_sized(
        &mut self,
        of: Reference,
        selected: Units,
        number: u32,
        sides: Sides,
        sizes: Sizes,
        user_data: &[u8],
    ) -> Result<(), Error> {
        let (data, length) = (user_data.as_ptr(), user_data.len());
        let (units, sides) = (selected.bits(), sides.passed());
        let (asker, answerer) = (sizes.from_asker, sizes.from_answerer);
        answer(unsafe {
            ffi::osi_accept_sized(self.at(), of.0, units, number, &sides, asker, answerer, data, length)
        })
    }

    /// Refuses the connection that [`Indication::Connect`] asks for.
    ///
    /// # Errors
    /// [`BadState`](Error::BadState), [`TooLong`](Error::TooLong), and those of every call.
    pub fn refuse(&mut self, of: Reference, user_data: &[u8]) -> Result<(), Error> {
        self.say(ffi::osi_refuse, of, user_data)
    }

    /// [`refuse`](End::refuse) with a reason.
    ///
    /// # Errors
    /// Those of [`refuse`](End::refuse).
    pub fn refuse_with(&mut self, of: Reference, refusal: Refusal<'_>) -> Result<(), Error> {
        let (reason, user_data) = (refusal.reason(), refusal.user_data());
        let (data, length) = (user_data.as_ptr(), user_data.len());
        answer(unsafe { ffi::osi_refuse_with(self.at(), of.0, reason, data, length) })
    }

    /// Sends data, 1 to 1,048,572 octets.
    ///
    /// # Errors
    /// [`BadState`](Error::BadState), [`TokenNotHeld`](Error::TokenNotHeld), [`Empty`](Error::Empty),
    /// [`TooLong`](Error::TooLong), and those of every call.
    pub fn data(&mut self, of: Reference, user_data: &[u8]) -> Result<(), Error> {
        self.say(ffi::osi_data, of, user_data)
    }

    /// Gives tokens that this side holds, at least one.
    ///
    /// # Errors
    /// [`BadState`](Error::BadState), [`NotSelected`](Error::NotSelected) (a token isn't available),
    /// [`TokenNotHeld`](Error::TokenNotHeld), [`Empty`](Error::Empty), and those of every call.
    pub fn give(&mut self, of: Reference, tokens: Tokens) -> Result<(), Error> {
        answer(unsafe { ffi::osi_give(self.at(), of.0, tokens.bits()) })
    }

    /// Asks for tokens that this side doesn't hold, at least one.
    ///
    /// # Errors
    /// [`BadState`](Error::BadState), [`NotSelected`](Error::NotSelected) (a token isn't available),
    /// [`TokenAlreadyHeld`](Error::TokenAlreadyHeld), [`Empty`](Error::Empty),
    /// [`TooLong`](Error::TooLong), and those of every call.
    pub fn please(&mut self, of: Reference, tokens: Tokens, user_data: &[u8]) -> Result<(), Error> {
        let (data, length) = (user_data.as_ptr(), user_data.len());
        answer(unsafe { ffi::osi_please(self.at(), of.0, tokens.bits(), data, length) })
    }

    /// Sets a minor point, with or without a request for its confirmation. The point has the number that
    /// [`next_serial`](End::next_serial) answers before the call.
    ///
    /// # Errors
    /// [`BadState`](Error::BadState), [`NotSelected`](Error::NotSelected),
    /// [`TokenNotHeld`](Error::TokenNotHeld) (of data and minor),
    /// [`SerialsUsedUp`](Error::SerialsUsedUp), [`TooLong`](Error::TooLong), and those of every call.
    pub fn minor(&mut self, of: Reference, confirm: bool, user_data: &[u8]) -> Result<(), Error> {
        let (data, length) = (user_data.as_ptr(), user_data.len());
        answer(unsafe { ffi::osi_minor(self.at(), of.0, u8::from(confirm), data, length) })
    }

    /// Confirms all minor points up to this number.
    ///
    /// # Errors
    /// [`BadState`](Error::BadState), [`NotSelected`](Error::NotSelected),
    /// [`BadNumber`](Error::BadNumber), [`TooLong`](Error::TooLong), and those of every call.
    pub fn minor_confirm(&mut self, of: Reference, number: u32, user_data: &[u8]) -> Result<(), Error> {
        let (data, length) = (user_data.as_ptr(), user_data.len());
        answer(unsafe { ffi::osi_minor_confirm(self.at(), of.0, number, data, length) })
    }

    /// Sets a major point.
    ///
    /// # Errors
    /// [`BadState`](Error::BadState), [`NotSelected`](Error::NotSelected),
    /// [`TokenNotHeld`](Error::TokenNotHeld) (of data, minor and major),
    /// [`SerialsUsedUp`](Error::SerialsUsedUp), [`TooLong`](Error::TooLong), and those of every call.
    pub fn major(&mut self, of: Reference, user_data: &[u8]) -> Result<(), Error> {
        self.say(ffi::osi_major, of, user_data)
    }

    /// Answers [`Indication::Major`].
    ///
    /// # Errors
    /// [`BadState`](Error::BadState), [`TooLong`](Error::TooLong), and those of every call.
    pub fn major_confirm(&mut self, of: Reference, user_data: &[u8]) -> Result<(), Error> {
        self.say(ffi::osi_major_confirm, of, user_data)
    }

    /// Restarts at this number, which the next point then has.
    ///
    /// # Errors
    /// [`BadState`](Error::BadState), [`NotSelected`](Error::NotSelected),
    /// [`BadNumber`](Error::BadNumber) (below [`lowest_restart`](End::lowest_restart), or above
    /// [`next_serial`](End::next_serial)), [`TooLong`](Error::TooLong), and those of every call.
    pub fn restart(
        &mut self,
        of: Reference,
        number: u32,
        wishes: Sides,
        user_data: &[u8],
    ) -> Result<(), Error> {
        let (data, length) = (user_data.as_ptr(), user_data.len());
        let wishes = wishes.passed();
        answer(unsafe { ffi::osi_restart(self.at(), of.0, number, &wishes, data, length) })
    }

    /// Answers [`Indication::Restart`]. The sides say who holds the tokens whose choice was left to this side.
    ///
    /// # Errors
    /// [`BadArgument`](Error::BadArgument) (a side that is [`Choice`](crate::Side::Choice)),
    /// [`BadState`](Error::BadState), [`TooLong`](Error::TooLong), and those of every call.
    pub fn restart_confirm(&mut self, of: Reference, sides: Sides, user_data: &[u8]) -> Result<(), Error> {
        let (data, length) = (user_data.as_ptr(), user_data.len());
        let sides = sides.passed();
        answer(unsafe { ffi::osi_restart_confirm(self.at(), of.0, &sides, data, length) })
    }

    /// Asks for the release.
    ///
    /// # Errors
    /// [`BadState`](Error::BadState), [`TokenNotHeld`](Error::TokenNotHeld) (it needs all tokens that are
    /// available; with duplex it needs to be the caller), [`TooLong`](Error::TooLong), and those of every call.
    pub fn release(&mut self, of: Reference, user_data: &[u8]) -> Result<(), Error> {
        self.say(ffi::osi_release, of, user_data)
    }

    /// Answers [`Indication::Release`]: the connection is over.
    ///
    /// # Errors
    /// [`BadState`](Error::BadState), [`TooLong`](Error::TooLong), and those of every call.
    pub fn release_accept(&mut self, of: Reference, user_data: &[u8]) -> Result<(), Error> {
        self.say(ffi::osi_release_accept, of, user_data)
    }

    /// Answers [`Indication::Release`]: the connection goes on.
    ///
    /// # Errors
    /// [`BadState`](Error::BadState), [`NotSelected`](Error::NotSelected) (negotiated release),
    /// [`TooLong`](Error::TooLong), and those of every call.
    pub fn release_refuse(&mut self, of: Reference, user_data: &[u8]) -> Result<(), Error> {
        self.say(ffi::osi_release_refuse, of, user_data)
    }

    /// Aborts the connection.
    ///
    /// # Errors
    /// [`BadState`](Error::BadState) (there is no transport connection yet),
    /// [`TooLong`](Error::TooLong), and those of every call.
    pub fn abort(&mut self, of: Reference, user_data: &[u8]) -> Result<(), Error> {
        self.say(ffi::osi_abort, of, user_data)
    }

    /// Gives up one connection at once, whatever it waits for. It drops the octets that the peer's credit
    /// holds back, and the pending indications of this connection, which has no more of them. In class 2 it
    /// appends a disconnect request to [`outgoing`](End::outgoing), the peer's user receives
    /// [`Indication::Lost`], and all other connections go on. In class 0 the end ends with
    /// [`Ending::Closed`]. If the connection is gone already, only its pending indications are dropped.
    ///
    /// # Errors
    /// [`NoSuchConnection`](Error::NoSuchConnection), [`BadState`](Error::BadState) (in
    /// [`Phase::WaitTransport`]: the peer has not answered yet; call again in a later phase) and
    /// [`NoMemory`](Error::NoMemory) (for the request).
    pub fn disconnect(&mut self, of: Reference) -> Result<(), Error> {
        answer(unsafe { ffi::osi_disconnect(self.at(), of.0) })
    }

    /// Feeds octets that you received from the peer, in their order, cut in any way.
    ///
    /// It stops after a packet that causes an indication, and uses nothing while one is pending: fetch all
    /// indications, and then feed the rest of the piece. [`feed_next`](End::feed_next) does both. Once the
    /// end has ended, it uses everything. If memory runs out, the end ends with [`Ending::NoMemory`].
    pub fn feed(&mut self, piece: &[u8]) -> Fed {
        let mut fed = ffi::osi_fed { used: 0, waits: false };
        // It answers OSI_OK, since the slot holds an end.
        unsafe { ffi::osi_feed(self.at(), piece.as_ptr(), piece.len(), &mut fed) };
        Fed { used: fed.used, waits: fed.waits }
    }

    /// The next indication: a pending one, or else the first that the octets of the piece cause. It takes
    /// the octets that it uses from the front of the piece. `None`: all of the piece is used, and no
    /// indication is pending.
    ///
    /// ```
    /// # use osi_session::{End, Error, Indication, Sides};
    /// fn received(end: &mut End, mut piece: &[u8]) -> Result<(), Error> {
    ///     while let Some((connection, indication)) = end.feed_next(&mut piece) {
    ///         match indication {
    ///             Indication::Connect { requirements, number, .. } => {
    ///                 end.accept(connection, requirements, number.unwrap_or(0), Sides::default(), b"")?;
    ///             }
    ///             Indication::Data { user_data } => println!("{} octets", user_data.len()),
    ///             _ => {}
    ///         }
    ///     }
    ///     Ok(())
    /// }
    /// ```
    pub fn feed_next(&mut self, piece: &mut &[u8]) -> Option<(Reference, Indication<&[u8]>)> {
        while !self.fetch() {
            if piece.is_empty() {
                return None;
            }
            let used = self.feed(piece).used;
            *piece = &piece[used..];
        }
        self.last_indication()
    }

    /// Lends the octets to send to the peer, in their order. They stay until [`taken`](End::taken) says that
    /// you have sent them.
    pub fn outgoing(&mut self) -> &[u8] {
        let mut octets = ffi::lend(&[]);
        // SAFETY, in addition to that of each call: the octets are lent until the next call with this end,
        // and the slice holds the borrow that a call needs.
        unsafe {
            ffi::osi_outgoing(self.at(), &mut octets);
            lent(octets)
        }
    }

    /// Whether [`outgoing`](End::outgoing) lends an octet. If so, wait until you can write to the socket.
    pub fn wants_write(&mut self) -> bool {
        unsafe { ffi::osi_wants_write(self.at()) }
    }

    /// Says that you have sent this many octets of [`outgoing`](End::outgoing), from the first.
    ///
    /// # Errors
    /// [`Error::BadArgument`] if it lends fewer.
    pub fn taken(&mut self, octets: usize) -> Result<(), Error> {
        answer(unsafe { ffi::osi_taken(self.at(), octets) })
    }

    /// Says that the byte connection is over: it broke, or the peer closed it. Each user who doesn't yet know
    /// that his connection is over then receives [`Indication::Lost`]. If the end has ended, nothing changes.
    pub fn broken(&mut self) {
        // It answers OSI_OK, since the slot holds an end.
        unsafe { ffi::osi_broken(self.at()) };
    }

    /// Why the end has ended; `None` if it has not. If it has, send the rest of [`outgoing`](End::outgoing)
    /// (unless the byte connection broke), and close the byte connection.
    pub fn ended(&mut self) -> Option<Ending> {
        let mut detail = 0;
        match unsafe { ffi::osi_ended(self.at(), &mut detail) } {
            ffi::OSI_END_NONE => None,
            number => Some(Ending::of(number, detail)),
        }
    }

    /// Whether you may close the byte connection now: [`outgoing`](End::outgoing) lends nothing, and either the
    /// end has ended, or there were connections and none is live. To ask for another connection, keep it open.
    pub fn is_over(&mut self) -> bool {
        unsafe { ffi::osi_is_over(self.at()) }
    }

    /// How many octets the end keeps of a packet, of TSDUs and of data in parts that are not whole yet: at
    /// most 65,535, and 2,097,148 for each live connection.
    pub fn kept(&mut self) -> usize {
        unsafe { ffi::osi_kept(self.at()) }
    }

    /// How many octets of a connection's TSDUs the peer's credit holds back, so that
    /// [`outgoing`](End::outgoing) doesn't lend them yet; 0 for a connection that is gone or never was.
    pub fn unsent(&mut self, of: Reference) -> usize {
        unsafe { ffi::osi_unsent(self.at(), of.0) }
    }

    /// The sum of [`unsent`](End::unsent) over all connections.
    pub fn backlog(&mut self) -> usize {
        unsafe { ffi::osi_backlog(self.at()) }
    }

    /// How many connections are live, at most 64: those whose transport connection is being opened, open or
    /// closing.
    pub fn live(&mut self) -> usize {
        unsafe { ffi::osi_live(self.at()) }
    }

    /// Fetches the oldest indication of the connection with the lowest reference that has one. It allocates
    /// nothing.
    ///
    /// # Panics
    /// If the library returns an indication that this crate doesn't know. The library that belongs to it has none.
    pub fn next_indication(&mut self) -> Option<(Reference, Indication<&[u8]>)> {
        self.feed_next(&mut [].as_slice())
    }

    fn fetch(&mut self) -> bool {
        unsafe { ffi::osi_fetch(self.at()) == ffi::OSI_OK }
    }

    /// The indication that was fetched last.
    fn last_indication(&mut self) -> Option<(Reference, Indication<&[u8]>)> {
        let mut shown = MaybeUninit::<ffi::osi_indication>::uninit();
        // SAFETY, in addition to that of each call: an indication is filled in completely; its user data is lent
        // until the next call with this end, and the slice holds the borrow that a call needs.
        let (shown, user_data) = unsafe {
            ffi::osi_last_with_size(self.at(), shown.as_mut_ptr(), size_of::<ffi::osi_indication>());
            let shown = shown.assume_init();
            (shown, lent(shown.user_data))
        };
        match Indication::of(&shown, user_data) {
            Some(indication) => Some((Reference(shown.reference), indication)),
            None => panic!("the library shows an indication {} that is not known here", shown.tag),
        }
    }

    /// The phase of a connection; `None` for a reference that was never given.
    pub fn phase(&mut self, of: Reference) -> Option<Phase> {
        Phase::of(unsafe { ffi::osi_phase(self.at(), of.0) })
    }

    /// The tokens that this end holds; none for a connection that is gone or never was.
    pub fn held(&mut self, of: Reference) -> Tokens {
        Tokens::from_bits(unsafe { ffi::osi_held(self.at(), of.0) })
    }

    /// V(M) (X.225 section 5.9): the number of the next point. 0 for a connection that is gone or never
    /// was.
    pub fn next_serial(&mut self, of: Reference) -> u32 {
        unsafe { ffi::osi_next_serial(self.at(), of.0) }
    }

    /// V(A): the number below which all points are confirmed. 0 for a connection that is gone or never
    /// was.
    pub fn confirmed_below(&mut self, of: Reference) -> u32 {
        unsafe { ffi::osi_confirmed_below(self.at(), of.0) }
    }

    /// V(R): the lowest number at which this end may restart. 0 for a connection that is gone or never
    /// was.
    pub fn lowest_restart(&mut self, of: Reference) -> u32 {
        unsafe { ffi::osi_lowest_restart(self.at(), of.0) }
    }

    /// The addresses of a connection: those that you asked for, or on the called side the peer's, from the
    /// moment [`Indication::Connect`] is pending. `None` for a connection that is gone or never was, and
    /// before the CN has come.
    pub fn addresses(&mut self, of: Reference) -> Option<Addresses> {
        let mut shown = ffi::osi_addressing::default();
        let code = unsafe { ffi::osi_addresses(self.at(), of.0, &mut shown) };
        (code == ffi::OSI_OK).then_some(Addresses(shown))
    }
}

impl Drop for End {
    fn drop(&mut self) {
        unsafe { ffi::osi_free(self.at()) }
    }
}

impl fmt::Debug for End {
    fn fmt(&self, f: &mut fmt::Formatter<'_>) -> fmt::Result {
        f.debug_struct("End").finish_non_exhaustive()
    }
}
