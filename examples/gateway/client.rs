//! The calling side of client.c, in Rust without crates. It sends messages, sets a minor point after each and
//! waits for its confirmation; then it gives the tokens and accepts the release. It writes everything before it
//! reads, which is enough for a program that sends little; `bindings/rust/examples` has the loop of a gateway.
//!
//!     rustc -O --edition 2021 -L build -l static=osi-session client.rs
//!     client [--port 4000] [--classes 0|2|20] [--tsdu OCTETS] [--wait SECONDS] [--messages 5] [--log FILE]

use std::env;
use std::ffi::c_void;
use std::fs::File;
use std::io::{self, ErrorKind, Read, Write};
use std::net::{Shutdown, TcpStream};
use std::process::ExitCode;
use std::ptr::null_mut;
use std::time::Duration;

/// The declarations of `include/osi.h` that a client needs.
mod osi {
    use std::ffi::c_void;

    #[repr(C)]
    pub struct End {
        pub full: bool,
        pub at: *mut c_void,
    }

    #[repr(C)]
    pub struct Terms {
        pub classes: u8,
        pub size: u8,
        pub window: u8,
    }

    #[repr(C)]
    #[derive(Clone, Copy)]
    pub struct Sides(pub [u8; 4]);

    #[repr(C)]
    #[derive(Clone, Copy)]
    pub struct Octets {
        pub at: *const u8,
        pub length: usize,
    }

    #[repr(C)]
    pub struct Opening {
        pub requirements: u16,
        pub serial: u32,
        pub wishes: Sides,
        pub calling_tsap: Octets,
        pub called_tsap: Octets,
        pub calling_selector: Octets,
        pub called_selector: Octets,
        pub user_data: Octets,
        pub size_from_asker: u16,
        pub size_from_answerer: u16,
    }

    #[repr(C)]
    pub struct Fed {
        pub used: usize,
        pub waits: bool,
    }

    #[repr(C)]
    pub struct Fault {
        pub fault: u8,
        pub si: u8,
        pub spelling: u8,
        pub parameter: u8,
        pub offset: u64,
    }

    #[repr(C)]
    pub struct Indication {
        pub tag: u32,
        pub number: u32,
        pub reference: u16,
        pub requirements: u16,
        pub has_number: u8,
        pub confirm: u8,
        pub tokens: u8,
        pub reason: u8,
        pub sides: Sides,
        pub fault: Fault,
        pub user_data: Octets,
        pub size_from_asker: u16,
        pub size_from_answerer: u16,
    }

    pub const OK: u32 = 0;

    extern "C" {
        pub fn osi_caller(end: *mut End, terms: *const Terms) -> u32;
        pub fn osi_free(end: *mut End);
        pub fn osi_connect_with_size(end: *mut End, asked: *const Opening, size: usize, reference: *mut u16) -> u32;
        pub fn osi_data(end: *mut End, reference: u16, data: *const u8, length: usize) -> u32;
        pub fn osi_minor(end: *mut End, reference: u16, confirm: u8, data: *const u8, length: usize) -> u32;
        pub fn osi_give(end: *mut End, reference: u16, tokens: u8) -> u32;
        pub fn osi_release_accept(end: *mut End, reference: u16, data: *const u8, length: usize) -> u32;
        pub fn osi_feed(end: *mut End, piece: *const u8, length: usize, fed: *mut Fed) -> u32;
        pub fn osi_outgoing(end: *mut End, octets: *mut Octets);
        pub fn osi_taken(end: *mut End, octets: usize) -> u32;
        pub fn osi_broken(end: *mut End) -> u32;
        pub fn osi_is_over(end: *mut End) -> bool;
        pub fn osi_fetch(end: *mut End) -> u32;
        pub fn osi_last_with_size(end: *mut End, shown: *mut Indication, size: usize);
    }
}

/// An indication, with its own copy of the user data.
struct Shown {
    said: osi::Indication,
    user_data: Vec<u8>,
}

/// An end that asks for connections. It is freed when it is dropped.
struct Caller {
    end: Box<osi::End>,
}

impl Caller {
    fn new(classes: u8) -> Option<Caller> {
        let mut end = Box::new(osi::End { full: false, at: null_mut::<c_void>() });
        let terms = osi::Terms { classes, size: 13, window: 15 };
        let code = unsafe { osi::osi_caller(&mut *end, &terms) };
        (code == osi::OK).then_some(Caller { end })
    }

    fn connect(&mut self, requirements: u16, tsdu: u16, user_data: &[u8]) -> Result<u16, u32> {
        let none = octets(&[]);
        let asked = osi::Opening {
            requirements,
            serial: 0,
            wishes: osi::Sides([0; 4]),
            calling_tsap: none,
            called_tsap: none,
            calling_selector: none,
            called_selector: none,
            user_data: octets(user_data),
            size_from_asker: tsdu,
            size_from_answerer: tsdu,
        };
        let mut reference = 0;
        match unsafe { osi::osi_connect_with_size(&mut *self.end, &asked, std::mem::size_of_val(&asked), &mut reference) } {
            osi::OK => Ok(reference),
            code => Err(code),
        }
    }

    fn data(&mut self, reference: u16, data: &[u8]) -> u32 {
        unsafe { osi::osi_data(&mut *self.end, reference, data.as_ptr(), data.len()) }
    }

    fn minor(&mut self, reference: u16) -> u32 {
        unsafe { osi::osi_minor(&mut *self.end, reference, 1, [].as_ptr(), 0) }
    }

    fn give(&mut self, reference: u16, tokens: u8) -> u32 {
        unsafe { osi::osi_give(&mut *self.end, reference, tokens) }
    }

    fn release_accept(&mut self, reference: u16) -> u32 {
        unsafe { osi::osi_release_accept(&mut *self.end, reference, [].as_ptr(), 0) }
    }

    /// Feeds a piece, and returns how many of its octets were used.
    fn feed(&mut self, piece: &[u8]) -> usize {
        let mut fed = osi::Fed { used: 0, waits: false };
        unsafe { osi::osi_feed(&mut *self.end, piece.as_ptr(), piece.len(), &mut fed) };
        fed.used
    }

    /// The octets to send, lent until the next call.
    fn outgoing(&mut self) -> &[u8] {
        let mut lent = octets(&[]);
        unsafe {
            osi::osi_outgoing(&mut *self.end, &mut lent);
            std::slice::from_raw_parts(lent.at, lent.length)
        }
    }

    fn taken(&mut self, count: usize) {
        unsafe { osi::osi_taken(&mut *self.end, count) };
    }

    fn broken(&mut self) {
        unsafe { osi::osi_broken(&mut *self.end) };
    }

    /// Whether this side may close the byte connection now.
    fn is_over(&mut self) -> bool {
        unsafe { osi::osi_is_over(&mut *self.end) }
    }

    fn next(&mut self) -> Option<Shown> {
        if unsafe { osi::osi_fetch(&mut *self.end) } != osi::OK {
            return None;
        }
        let mut said = std::mem::MaybeUninit::uninit();
        let said = unsafe {
            osi::osi_last_with_size(&mut *self.end, said.as_mut_ptr(), std::mem::size_of::<osi::Indication>());
            said.assume_init()
        };
        let user_data = unsafe { std::slice::from_raw_parts(said.user_data.at, said.user_data.length) }.to_vec();
        Some(Shown { said, user_data })
    }
}

impl Drop for Caller {
    fn drop(&mut self) {
        unsafe { osi::osi_free(&mut *self.end) }
    }
}

fn octets(slice: &[u8]) -> osi::Octets {
    osi::Octets { at: slice.as_ptr(), length: slice.len() }
}

fn hex(octets: &[u8]) -> String {
    if octets.is_empty() {
        return "-".to_string();
    }
    octets.iter().map(|octet| format!("{octet:02x}")).collect()
}

fn sides(sides: osi::Sides) -> String {
    sides.0.iter().map(|side| ['a', 'r', 'c'][usize::from(*side)]).collect()
}

/// The words of an indication (docs/TOOL.md).
fn text(shown: &Shown) -> String {
    let (i, data) = (&shown.said, hex(&shown.user_data));
    let number = if i.has_number == 0 { "-".to_string() } else { i.number.to_string() };
    let tsdu = match (i.size_from_asker, i.size_from_answerer) {
        (0, 0) => String::new(),
        (from_asker, from_answerer) => format!(" tsdu {from_asker} {from_answerer}"),
    };
    let opening = format!("units {:04x} serial {number} sides {} data {data}{tsdu}", i.requirements, sides(i.sides));
    let confirm = if i.confirm == 0 { "no" } else { "yes" };
    match i.tag {
        1 => format!("Connect {opening}"),
        2 => format!("Connected {opening}"),
        3 => format!("Refused transport {}", i.reason),
        4 => format!("Refused session {} data {data}", i.reason),
        5 => format!("Data {data}"),
        6 => format!("Given {:02x}", i.tokens),
        7 => format!("Asked {:02x} data {data}", i.tokens),
        8 => format!("Minor {} confirm {confirm} data {data}", i.number),
        9 => format!("MinorConfirmed {} data {data}", i.number),
        10 => format!("Major {} data {data}", i.number),
        11 => format!("MajorConfirmed data {data}"),
        12 => format!("Restart {} sides {} data {data}", i.number, sides(i.sides)),
        13 => format!("Restarted {} sides {} data {data}", i.number, sides(i.sides)),
        14 => format!("Release data {data}"),
        15 => format!("Released data {data}"),
        16 => format!("ReleaseRefused data {data}"),
        17 => format!("Aborted data {data}"),
        18 => "ProviderAbort Lost".to_string(),
        19 => format!("ProviderAbort Peer {:02x}", i.reason),
        _ => {
            let names = [
                "",
                "Spelling",
                "Unexpected",
                "NotSelected",
                "TokenHeld",
                "BadNumber",
                "BadTokens",
                "BadEnclosure",
                "DataTooLong",
            ];
            format!("ProviderAbort Unit {}", names[usize::from(i.fault.fault)])
        }
    }
}

struct Client {
    caller: Caller,
    reference: u16,
    messages: u32,
    said: u32,
    released: bool,
    lost: bool,
    log: Box<dyn Write>,
}

impl Client {
    fn did(&mut self, call: &str, code: u32) -> io::Result<bool> {
        let answer = if code == osi::OK { "ok".to_string() } else { format!("refused {code}") };
        writeln!(self.log, "left {} {call} {answer}", self.reference)?;
        Ok(code == osi::OK)
    }

    fn go_on(&mut self) -> io::Result<()> {
        if self.said == self.messages {
            let code = self.caller.give(self.reference, 0x01 | 0x04 | 0x40);
            self.did("give", code)?;
            return Ok(());
        }
        self.said += 1;
        let code = self.caller.data(self.reference, format!("message {}", self.said).as_bytes());
        self.did("data", code)?;
        let code = self.caller.minor(self.reference);
        self.did("minor", code)?;
        Ok(())
    }

    fn show_all(&mut self) -> io::Result<()> {
        while let Some(shown) = self.caller.next() {
            writeln!(self.log, "left {} {}", shown.said.reference, text(&shown))?;
            match shown.said.tag {
                2 | 9 => self.go_on()?,
                14 => {
                    let code = self.caller.release_accept(self.reference);
                    self.released = self.did("releaseaccept", code)?;
                }
                17..=20 => self.lost = !self.released,
                _ => {}
            }
        }
        Ok(())
    }

    fn feed(&mut self, mut piece: &[u8]) -> io::Result<()> {
        while !piece.is_empty() {
            let used = self.caller.feed(piece);
            piece = &piece[used..];
            self.show_all()?;
        }
        Ok(())
    }

    /// Writes all outgoing octets, in whatever pieces the socket takes.
    fn transmit(&mut self, stream: &mut TcpStream) -> io::Result<()> {
        loop {
            let waiting = self.caller.outgoing();
            if waiting.is_empty() {
                return Ok(());
            }
            let count = stream.write(waiting)?;
            self.caller.taken(count);
        }
    }

    fn run(&mut self, stream: &mut TcpStream) -> io::Result<()> {
        let mut piece = [0; 65536];
        loop {
            self.transmit(stream)?;
            if self.caller.is_over() {
                return stream.shutdown(Shutdown::Both);
            }
            match stream.read(&mut piece) {
                Ok(0) => return Ok(()),
                Ok(count) => self.feed(&piece[..count])?,
                Err(error) if error.kind() == ErrorKind::Interrupted => {}
                Err(error) => return Err(error),
            }
        }
    }
}

fn option(name: &str, otherwise: &str) -> String {
    let mut words = env::args().skip_while(|word| word != name).skip(1);
    words.next().unwrap_or_else(|| otherwise.to_string())
}

fn main() -> io::Result<ExitCode> {
    let classes = option("--classes", "0");
    let classes = u8::from(classes.contains('0')) | u8::from(classes.contains('2')) << 1;
    let log: Box<dyn Write> = match option("--log", "-").as_str() {
        "-" => Box::new(io::stdout()),
        name => Box::new(File::create(name)?),
    };
    let mut stream = TcpStream::connect(format!("127.0.0.1:{}", option("--port", "4000")))?;
    stream.set_nodelay(true)?;
    stream.set_read_timeout(Some(Duration::from_secs(option("--wait", "10").parse().unwrap_or(10))))?;
    let Some(caller) = Caller::new(classes) else {
        return Ok(ExitCode::from(2));
    };
    let messages = option("--messages", "5").parse().unwrap_or(5);
    let mut client = Client { caller, reference: 0, messages, said: 0, released: false, lost: false, log };
    let tsdu = option("--tsdu", "0").parse().unwrap_or(0);
    match client.caller.connect(0x0001 | 0x0008 | 0x0080, tsdu, b"gateway") {
        Ok(reference) => client.reference = reference,
        Err(code) => {
            writeln!(client.log, "left connect refused {code}")?;
            return Ok(ExitCode::from(2));
        }
    }
    writeln!(client.log, "left connect ok {}", client.reference)?;
    let ran = client.run(&mut stream);
    client.caller.broken();
    client.show_all()?;
    if let Err(error) = ran {
        eprintln!("client: {error}");
    }
    Ok(ExitCode::from(if client.lost { 3 } else if client.released { 0 } else { 2 }))
}
