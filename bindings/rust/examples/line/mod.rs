//! One end on its socket, and its log: what the examples `client` and `server` have in common. No call of a line blocks, so
//! one thread serves many lines ([`wait`]), and a peer that doesn't read delays nobody.

#![allow(dead_code)]

use osi_session::{End, Error, Indication, Reference, Side, Sides, Sizes, Units};
use std::cell::RefCell;
use std::env;
use std::ffi::{c_int, c_short};
use std::fmt::Display;
use std::fs::File;
use std::io::{self, ErrorKind, Read, Write};
use std::net::TcpStream;
use std::os::fd::{AsRawFd, RawFd};
use std::rc::Rc;
use std::time::{Duration, Instant};

/// A side makes no more calls while this many octets are unsent: outgoing ones, and those that wait for credit.
pub const MOST_WAITING: usize = 262_144;
/// It reads no more while this many octets are outgoing, because it answers what it reads. This bound is above that of
/// calls: otherwise two sides that both write much would stop reading, and wait for each other for ever.
const MOST_OUTGOING: usize = 524_288;
/// If a peer gives no credit for this many octets of answers, its connection is answered no more and given up.
pub const MOST_UNSENT: usize = 16_384;
/// The most octets that a turn reads: some 700 messages of one octet. So a peer that sends without a pause delays no other.
const MOST_READ: usize = 8192;

// ---- waiting for many sockets: the standard library has no call for this

/// The events to wait for at a socket, and those that happened: `struct pollfd` of POSIX.
#[repr(C)]
pub struct Waits {
    socket: RawFd,
    events: c_short,
    pub found: c_short,
}

const POLLIN: c_short = 0x01;
const POLLOUT: c_short = 0x04;

#[cfg(target_os = "linux")]
type Count = std::ffi::c_ulong;
#[cfg(not(target_os = "linux"))]
type Count = std::ffi::c_uint;

extern "C" {
    fn poll(waits: *mut Waits, count: Count, timeout: c_int) -> c_int;
}

impl Waits {
    /// Waits until there is something to read from the socket.
    pub fn to_read(socket: &impl AsRawFd) -> Waits {
        Waits { socket: socket.as_raw_fd(), events: POLLIN, found: 0 }
    }
}

/// Waits until an event happens at one of these sockets, at most for this time.
pub fn wait(waits: &mut [Waits], timeout: Option<Duration>) -> io::Result<()> {
    // In milliseconds, rounded up, so that it never returns just before a deadline.
    let timeout = timeout.map_or(-1, |time| time.as_micros().div_ceil(1000).try_into().unwrap_or(c_int::MAX));
    // SAFETY: the pointer and the length are those of a slice of structs as POSIX lays them out.
    match unsafe { poll(waits.as_mut_ptr(), waits.len() as Count, timeout) } {
        0.. => Ok(()),
        _ => match io::Error::last_os_error() {
            error if error.kind() == ErrorKind::Interrupted => Ok(()),
            error => Err(error),
        },
    }
}

// ---- the log, in the words of a transcript (docs/TOOL.md)

pub type Log = Rc<RefCell<Box<dyn Write>>>;

/// The log that `--log FILE|-` names.
pub fn log() -> io::Result<Log> {
    let log: Box<dyn Write> = match option("--log", "-").as_str() {
        "-" => Box::new(io::stdout()),
        name => Box::new(io::LineWriter::new(File::create(name)?)),
    };
    Ok(Rc::new(RefCell::new(log)))
}

/// The command line: switches with a value, such as `--port 4000`.
pub fn option(name: &str, otherwise: &str) -> String {
    let mut words = env::args().skip_while(|word| word != name).skip(1);
    words.next().unwrap_or_else(|| otherwise.to_string())
}

fn hex(octets: &[u8]) -> String {
    if octets.is_empty() {
        return "-".to_string();
    }
    octets.iter().map(|octet| format!("{octet:02x}")).collect()
}

fn letters(sides: Sides) -> String {
    let letter = |side| match side {
        Side::Asker => 'a',
        Side::Answerer => 'r',
        Side::Choice => 'c',
    };
    [sides.data, sides.minor, sides.major, sides.release].map(letter).iter().collect()
}

fn opened(requirements: Units, number: Option<u32>, sides: Sides) -> String {
    let serial = number.map_or("-".to_string(), |number| number.to_string());
    format!("units {:04x} serial {serial} sides {}", requirements.bits(), letters(sides))
}

/// The sizes that a CN or an AC names, if one of them is not 0.
fn named(sizes: Sizes) -> String {
    match sizes {
        Sizes { from_asker: 0, from_answerer: 0 } => String::new(),
        Sizes { from_asker, from_answerer } => format!(" tsdu {from_asker} {from_answerer}"),
    }
}

/// The words of an indication in a transcript.
fn words(indication: &Indication<Vec<u8>>) -> String {
    let data = hex(indication.user_data().unwrap_or_default());
    match *indication {
        Indication::Connect { requirements, number, wishes, sizes, .. } => {
            format!("Connect {} data {data}{}", opened(requirements, number, wishes), named(sizes))
        }
        Indication::Connected { requirements, number, sides, sizes, .. } => {
            format!("Connected {} data {data}{}", opened(requirements, number, sides), named(sizes))
        }
        Indication::RefusedByTransport { reason } => format!("Refused transport {reason}"),
        Indication::RefusedBySession { reason, .. } => format!("Refused session {reason} data {data}"),
        Indication::Data { .. } => format!("Data {data}"),
        Indication::Given { tokens } => format!("Given {:02x}", tokens.bits()),
        Indication::Asked { tokens, .. } => format!("Asked {:02x} data {data}", tokens.bits()),
        Indication::Minor { number, confirm, .. } => {
            format!("Minor {number} confirm {} data {data}", if confirm { "yes" } else { "no" })
        }
        Indication::MinorConfirmed { number, .. } => format!("MinorConfirmed {number} data {data}"),
        Indication::Major { number, .. } => format!("Major {number} data {data}"),
        Indication::MajorConfirmed { .. } => format!("MajorConfirmed data {data}"),
        Indication::Restart { number, wishes, .. } => {
            format!("Restart {number} sides {} data {data}", letters(wishes))
        }
        Indication::Restarted { number, sides, .. } => {
            format!("Restarted {number} sides {} data {data}", letters(sides))
        }
        Indication::Release { .. } => format!("Release data {data}"),
        Indication::Released { .. } => format!("Released data {data}"),
        Indication::ReleaseRefused { .. } => format!("ReleaseRefused data {data}"),
        Indication::Aborted { .. } => format!("Aborted data {data}"),
        Indication::Lost => "ProviderAbort Lost".to_string(),
        Indication::PeerAbort { reason } => format!("ProviderAbort Peer {reason:02x}"),
        Indication::BadUnit { fault } => format!("ProviderAbort Unit {fault}"),
    }
}

// ---- an end on its socket

/// An end, its socket, and how long its user waits for the peer: from each of these times.
pub struct Line {
    pub end: End,
    stream: TcpStream,
    side: &'static str,
    log: Option<Log>,
    patience: Duration,
    began: Instant,
    /// Octets were last read or written.
    moved: Instant,
    /// No packet or data was incomplete, or one was completed.
    whole: Instant,
    /// Octets were last written, or none waited for the socket.
    written: Instant,
    /// The user last received an indication.
    shown_at: Instant,
    was_heard: bool,
    was_shown: bool,
}

impl Line {
    /// A line that never blocks. Without a log, calls and indications are not written down.
    pub fn new(end: End, stream: TcpStream, side: &'static str, log: Option<Log>) -> io::Result<Line> {
        stream.set_nodelay(true)?;
        stream.set_nonblocking(true)?;
        let patience = Duration::from_secs(option("--wait", "10").parse().unwrap_or(10));
        let now = Instant::now();
        Ok(Line {
            end,
            stream,
            side,
            log,
            patience,
            began: now,
            moved: now,
            whole: now,
            written: now,
            shown_at: now,
            was_heard: false,
            was_shown: false,
        })
    }

    pub fn say(&self, text: impl Display) {
        if let Some(log) = &self.log {
            // A log that cannot be written is no reason to stop.
            let _ = writeln!(log.borrow_mut(), "{} {text}", self.side);
        }
    }

    /// Writes a call to the log, and answers whether it was done.
    pub fn did(&self, of: Reference, call: &str, answer: Result<(), Error>) -> bool {
        match answer {
            Ok(()) => self.say(format_args!("{of} {call} ok")),
            Err(error) => self.say(format_args!("{of} {call} refused: {error}")),
        }
        answer.is_ok()
    }

    /// Whether a connection may be answered. If its peer keeps asking and gives no credit for the answers, it is given up.
    pub fn may_answer(&mut self, of: Reference) -> bool {
        if self.end.unsent(of) <= MOST_UNSENT {
            return true;
        }
        let gave_up = self.end.disconnect(of);
        self.did(of, "disconnect", gave_up);
        false
    }

    /// How many octets are unsent: outgoing ones, and those that wait for the peer's credit.
    pub fn waiting(&mut self) -> usize {
        self.end.outgoing().len() + self.end.backlog()
    }

    /// Which events of its socket to wait for.
    pub fn waits(&mut self) -> Waits {
        let reads = if self.end.outgoing().len() <= MOST_OUTGOING { POLLIN } else { 0 };
        let writes = if self.end.wants_write() { POLLOUT } else { 0 };
        Waits { socket: self.stream.as_raw_fd(), events: reads | writes, found: 0 }
    }

    /// When to give up the peer, unless something happens before.
    fn deadline(&self) -> Instant {
        let heard = if self.was_shown { self.moved } else { self.began };
        heard.min(self.whole).min(self.written) + self.patience
    }

    /// How long to wait for its socket.
    pub fn timeout(&self) -> Duration {
        self.deadline().saturating_duration_since(Instant::now())
    }

    /// Writes once, as much as the socket takes.
    fn transmit(&mut self) -> io::Result<()> {
        match self.stream.write(self.end.outgoing()) {
            Ok(count) => {
                self.moved = Instant::now();
                self.written = self.moved;
                self.end.taken(count).map_err(io::Error::other)
            }
            Err(error) if matches!(error.kind(), ErrorKind::WouldBlock | ErrorKind::Interrupted) => Ok(()),
            Err(error) => Err(error),
        }
    }

    /// Reads once. Returns the number of octets, or `None` if the peer has closed.
    fn receive(&mut self, piece: &mut [u8]) -> io::Result<Option<usize>> {
        match self.stream.read(piece) {
            Ok(0) => Ok(None),
            Ok(count) => Ok(Some(count)),
            Err(error) if matches!(error.kind(), ErrorKind::WouldBlock | ErrorKind::Interrupted) => {
                Ok(Some(0))
            }
            Err(error) => Err(error),
        }
    }

    /// Notes whether a packet or data is incomplete, and whether octets wait for the socket.
    fn note(&mut self) {
        let now = Instant::now();
        if self.end.kept() == 0 {
            self.whole = now;
        }
        if !self.end.wants_write() {
            self.written = now;
        }
    }

    /// What the peer has not done in time.
    fn overdue(&self) -> &'static str {
        let now = Instant::now();
        if now >= self.whole + self.patience {
            "a packet or data is not ended"
        } else if now >= self.written + self.patience {
            "the peer does not read"
        } else if self.was_heard && !self.was_shown {
            "nothing was shown"
        } else {
            "the peer is silent"
        }
    }

    /// How active the peer is: a peer with less of it has no session, or has sent nothing whole for longer.
    pub fn activity(&self) -> (bool, Instant) {
        (self.was_shown, self.shown_at)
    }

    /// Logs why the peer is given up, and the phase of each connection that had no indication yet.
    fn give_up(&mut self, why: &str) {
        self.say(format_args!("gives up: {why}"));
        for of in (1..=u16::MAX).map(Reference::new).take_while(|_| !self.was_shown) {
            let Some(phase) = self.end.phase(of) else { return };
            self.say(format_args!("{of} was never shown, {phase:?}"));
        }
    }
}

/// The user of a line: a client, or a server's state for one peer.
pub trait User {
    fn line(&mut self) -> &mut Line;

    /// Receives each indication.
    fn shown(&mut self, of: Reference, indication: Indication<Vec<u8>>);

    /// Feeds the octets that were received, and passes each indication to the user.
    fn feed(&mut self, mut piece: &[u8]) {
        loop {
            let line = self.line();
            let Some((of, indication)) = line.end.feed_next(&mut piece) else { return };
            let indication = indication.into_owned();
            line.was_shown = true;
            line.shown_at = Instant::now();
            line.whole = line.shown_at;
            line.say(format_args!("{of} {}", words(&indication)));
            self.shown(of, indication);
        }
    }

    /// Reads and writes once. Returns whether the byte connection goes on.
    fn carry(&mut self, found: c_short) -> io::Result<bool> {
        let mut piece = [0; MOST_READ];
        let came = if found & !POLLOUT != 0 { self.line().receive(&mut piece)? } else { Some(0) };
        let Some(count) = came else { return Ok(false) };
        self.line().was_heard |= count > 0;
        self.feed(&piece[..count]);
        let line = self.line();
        if line.end.wants_write() {
            line.transmit()?;
        }
        Ok(!line.end.is_over())
    }

    /// One turn of the loop, after [`wait`]: reads and writes, and never blocks. False if there is nothing left to do,
    /// because the byte connection is over or the peer was given up; then drop the line.
    fn turn(&mut self, found: c_short) -> bool {
        if found != 0 {
            self.line().moved = Instant::now();
        }
        let goes_on = self.carry(found).unwrap_or_else(|error| {
            self.line().say(format_args!("loses the byte connection: {error}"));
            false
        });
        let line = self.line();
        line.note();
        if goes_on && line.timeout() > Duration::ZERO {
            return true;
        }
        let why = line.overdue();
        if goes_on {
            self.give_up(why);
        } else {
            self.lose();
        }
        false
    }

    /// Gives the peer up, and logs why. Then drop the line.
    fn give_up(&mut self, why: &str) {
        self.line().give_up(why);
        self.lose();
    }

    /// The byte connection is over: tells the user of each connection that isn't.
    fn lose(&mut self) {
        self.line().end.broken();
        self.feed(&[]);
    }
}
