//! The called side of a gateway over [`std::net`], for many peers at once in one thread. It accepts each connection,
//! confirms each point, answers after it has received the tokens, and releases the connection.
//!
//! ```text
//! server [--port 4000] [--peers COUNT] [--classes 0|2|20] [--tsdu OCTETS] [--wait SECONDS] [--log FILE|-]
//! ```
//!
//! It prints the port that it listens on (0 takes a free one). With `--peers` it ends after COUNT peers have come and gone.
//! It gives up a peer that asks for no connection within `--wait` seconds, that is silent for that long, that has not ended a
//! packet or data by then, or reads nothing; and if all places are taken, the least active one. It logs this.

mod line;

use line::{option, wait, Line, Log, User, Waits};
use osi_session::{Classes, End, Indication, Reference, Sides, Sizes, Terms, Units};
use std::error::Error;
use std::io::{self, ErrorKind};
use std::net::{TcpListener, TcpStream};

/// The most byte connections at a time. If another comes, the least active peer gives way.
const MOST_PEERS: usize = 256;
/// The most that are accepted in a turn.
const MOST_TAKEN: usize = 16;

/// A byte connection, and what it has received.
struct Peer {
    line: Line,
    messages: u32,
    sizes: Sizes,
}

impl Peer {
    fn accept(&mut self, of: Reference, offered: Units) {
        let known = Units::HALF_DUPLEX | Units::MINOR_SYNC | Units::NEGOTIATED_RELEASE;
        let (selected, sizes) = (offered & known, self.sizes);
        let accepted = self.line.end.accept_sized(of, selected, 0, Sides::default(), sizes, b"");
        self.line.did(of, "accept", accepted);
    }

    /// The tokens have come: sends the number of messages, and asks for the release.
    fn answer(&mut self, of: Reference) {
        let sent = self.line.end.data(of, format!("{} messages", self.messages).as_bytes());
        self.line.did(of, "data", sent);
        let asked = self.line.end.release(of, b"");
        self.line.did(of, "release", asked);
    }
}

impl User for Peer {
    fn line(&mut self) -> &mut Line {
        &mut self.line
    }

    fn shown(&mut self, of: Reference, indication: Indication<Vec<u8>>) {
        match indication {
            Indication::Connect { requirements, .. } => self.accept(of, requirements),
            Indication::Data { .. } => self.messages += 1,
            Indication::Minor { number, confirm: true, .. } if self.line.may_answer(of) => {
                let confirmed = self.line.end.minor_confirm(of, number, b"");
                self.line.did(of, "minorconfirm", confirmed);
            }
            Indication::Given { .. } if self.line.may_answer(of) => self.answer(of),
            _ => {}
        }
    }
}

fn classes(named: &str) -> Classes {
    let class = |letter, class| if named.contains(letter) { class } else { Classes::NONE };
    class('0', Classes::CLASS_0) | class('2', Classes::CLASS_2)
}

/// The next peer.
fn peer(stream: TcpStream, log: &Log) -> Result<Peer, Box<dyn Error>> {
    let end = End::called(Terms { classes: classes(&option("--classes", "20")), ..Terms::default() })?;
    let tsdu = option("--tsdu", "0").parse()?;
    let line = Line::new(end, stream, "right", Some(log.clone()))?;
    Ok(Peer { line, messages: 0, sizes: Sizes { from_asker: tsdu, from_answerer: tsdu } })
}

/// Accepts the next peer, if there is one.
fn take(listener: &TcpListener, log: &Log) -> Result<Option<Peer>, Box<dyn Error>> {
    match listener.accept() {
        Ok((stream, _)) => peer(stream, log).map(Some),
        Err(error) if matches!(error.kind(), ErrorKind::WouldBlock | ErrorKind::ConnectionAborted) => {
            Ok(None)
        }
        Err(error) => Err(error.into()),
    }
}

/// If all places are taken, gives up the least active peer.
fn make_place(peers: &mut Vec<Peer>) {
    let least = (0..peers.len()).min_by_key(|&place| peers[place].line.activity());
    if let (Some(place), MOST_PEERS..) = (least, peers.len()) {
        peers.swap_remove(place).give_up("it gives way to another peer");
    }
}

/// Waits until there is something to do, and reads and writes for all peers. Returns whether another peer can be accepted.
fn turn(listener: &TcpListener, takes: bool, peers: &mut Vec<Peer>) -> io::Result<bool> {
    let mut waits: Vec<Waits> = peers.iter_mut().map(|peer| peer.line.waits()).collect();
    if takes {
        waits.push(Waits::to_read(listener));
    }
    wait(&mut waits, peers.iter().map(|peer| peer.line.timeout()).min())?;
    let comes = waits.get(peers.len()).is_some_and(|door| door.found != 0);
    let mut found = waits.iter().map(|waits| waits.found);
    peers.retain_mut(|peer| peer.turn(found.next().unwrap_or(0)));
    Ok(comes)
}

fn main() -> Result<(), Box<dyn Error>> {
    let listener = TcpListener::bind(format!("127.0.0.1:{}", option("--port", "4000")))?;
    listener.set_nonblocking(true)?;
    println!("port {}", listener.local_addr()?.port());
    let log = line::log()?;
    let (mut peers, mut awaited) = (Vec::new(), option("--peers", &u64::MAX.to_string()).parse::<u64>()?);
    while awaited > 0 || !peers.is_empty() {
        if !turn(&listener, awaited > 0, &mut peers)? {
            continue;
        }
        for _ in 0..awaited.min(MOST_TAKEN as u64) {
            let Some(taken) = take(&listener, &log)? else { break };
            awaited -= 1;
            make_place(&mut peers);
            peers.push(taken);
        }
    }
    Ok(())
}
