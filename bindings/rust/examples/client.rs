//! The calling side of a gateway over [`std::net`]. It sends messages, sets a minor point after each and waits
//! for its confirmation; then it gives the tokens and accepts the release.
//!
//! ```text
//! client [--port 4000] [--classes 0|2|20] [--tsdu OCTETS] [--wait SECONDS] [--messages 5] [--log FILE|-]
//!        [--bulk COUNT] [--size OCTETS]
//! ```
//!
//! With `--bulk` it sends COUNT messages of one size as fast as possible, with a point after each, and waits only for the
//! last confirmation, so that both sides write much. The status is 0 if the connection was released, and 3 if it was lost.

mod line;

use line::{option, wait, Line, User, MOST_WAITING};
use osi_session::{Classes, End, Indication, Opening, Reference, Sizes, Terms, Tokens, Units};
use std::error::Error;
use std::net::TcpStream;
use std::process::ExitCode;
use std::time::Duration;

struct Client {
    line: Line,
    of: Reference,
    messages: u32,
    said: u32,
    /// The size of each message with `--bulk`; `None` without it, when no message is sent ahead.
    size: Option<usize>,
    ready: bool,
    released: bool,
    lost: bool,
}

impl Client {
    /// Sends the next message, and sets a point after it.
    fn say_one(&mut self) {
        self.said += 1;
        let text = match self.size {
            Some(size) => vec![b'x'; size],
            None => format!("message {}", self.said).into_bytes(),
        };
        let sent = self.line.end.data(self.of, &text);
        self.line.did(self.of, "data", sent);
        let set = self.line.end.minor(self.of, true, b"");
        self.line.did(self.of, "minor", set);
    }

    /// Sends the next message, or gives the tokens after the last one.
    fn go_on(&mut self) {
        if self.said < self.messages {
            return self.say_one();
        }
        let gave = self.line.end.give(self.of, Tokens::DATA | Tokens::MINOR | Tokens::RELEASE);
        self.line.did(self.of, "give", gave);
    }

    /// Whether messages are sent ahead and only a few octets are unsent.
    fn has_more(&mut self) -> bool {
        self.size.is_some() && self.ready && self.said < self.messages && self.line.waiting() < MOST_WAITING
    }

    fn status(&self) -> u8 {
        match (self.lost, self.released) {
            (true, _) => 3,
            (false, true) => 0,
            (false, false) => 2,
        }
    }
}

impl User for Client {
    fn line(&mut self) -> &mut Line {
        &mut self.line
    }

    fn shown(&mut self, of: Reference, indication: Indication<Vec<u8>>) {
        match indication {
            Indication::Connected { .. } => {
                self.ready = true;
                if self.size.is_none() {
                    self.go_on();
                }
            }
            Indication::MinorConfirmed { number, .. }
                if self.size.is_none() || number + 1 == self.messages =>
            {
                self.go_on()
            }
            Indication::Release { .. } => {
                let accepted = self.line.end.release_accept(of, b"");
                self.released = self.line.did(of, "releaseaccept", accepted);
            }
            other => self.lost |= other.is_over() && !self.released,
        }
    }
}

fn classes(named: &str) -> Classes {
    let class = |letter, class| if named.contains(letter) { class } else { Classes::NONE };
    class('0', Classes::CLASS_0) | class('2', Classes::CLASS_2)
}

fn main() -> Result<ExitCode, Box<dyn Error>> {
    let stream = TcpStream::connect(format!("127.0.0.1:{}", option("--port", "4000")))?;
    let mut end = End::caller(Terms { classes: classes(&option("--classes", "0")), ..Terms::default() })?;
    let tsdu = option("--tsdu", "0").parse()?;
    let asked = Opening {
        requirements: Units::HALF_DUPLEX | Units::MINOR_SYNC | Units::NEGOTIATED_RELEASE,
        user_data: b"gateway",
        sizes: Sizes { from_asker: tsdu, from_answerer: tsdu },
        ..Opening::default()
    };
    let of = end.connect(&asked)?;
    let bulk = option("--bulk", "0").parse()?;
    let size = if bulk > 0 { Some(option("--size", "1000").parse()?) } else { None };
    let messages = if bulk > 0 { bulk } else { option("--messages", "5").parse()? };
    let line = Line::new(end, stream, "left", if bulk > 0 { None } else { Some(line::log()?) })?;
    line.say(format_args!("connect ok {of}"));
    let mut client = Client { line, of, messages, said: 0, size, ready: false, released: false, lost: false };
    let mut goes_on = true;
    while goes_on {
        let timeout = if client.has_more() { Duration::ZERO } else { client.line.timeout() };
        let mut waits = [client.line.waits()];
        wait(&mut waits, Some(timeout))?;
        goes_on = client.turn(waits[0].found);
        while client.has_more() {
            client.say_one();
        }
    }
    Ok(ExitCode::from(client.status()))
}
