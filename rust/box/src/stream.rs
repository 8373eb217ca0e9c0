//! One connection of the stream: the greeting, then capsules, in bytes that the system takes and hands out as it likes.

use crate::greeting::{self, LINE_LIMIT};
use std::io::{ErrorKind, Read, Write};
use std::net::{Shutdown, TcpStream};
use std::time::{Duration, Instant};

/// The bytes that are read at once.
const PIECE: usize = 16 << 10;

/// While this many bytes wait for the peer, nothing is read from it.
const BACKLOG: usize = 64 << 10;

/// How long an end that stops waits for its last bytes to be read.
const FAREWELL: Duration = Duration::from_secs(1);

pub struct Connection {
    pub stream: TcpStream,
    /// When the peer's first line has to be there.
    pub deadline: Instant,
    greeting: Vec<u8>,
    out: Vec<u8>,
    piece: Box<[u8]>,
}

/// The plan of a first line, and the bytes behind it.
pub struct Greeting {
    pub plan: Vec<u8>,
    pub rest: Vec<u8>,
}

impl Connection {
    /// Sends a first line, and awaits the peer's.
    pub fn new(stream: TcpStream, line: &str, deadline: Instant) -> Connection {
        let piece = vec![0; PIECE].into();
        let mut connection = Connection { stream, deadline, greeting: Vec::new(), out: Vec::new(), piece };
        connection.send(line.as_bytes());
        connection
    }

    /// Bytes for the peer; those that the system does not take now go with a later call.
    pub fn send(&mut self, bytes: &[u8]) {
        self.out.extend_from_slice(bytes);
        // An error is one for the next read, too.
        let _ = self.flush();
    }

    pub fn waits(&self) -> bool {
        !self.out.is_empty()
    }

    /// Whether more is to be read; a peer that does not read what it asked for is not heard either.
    pub fn wants_more(&self) -> bool {
        self.out.len() < BACKLOG
    }

    /// The peer's first line, once it is there; or why there is none.
    pub fn first_line(&mut self) -> Result<Option<Greeting>, String> {
        let count = self.read()?;
        self.greeting.extend_from_slice(&self.piece[..count]);
        match self.greeting.iter().position(|byte| *byte == b'\n') {
            Some(end) if end < LINE_LIMIT => {
                let rest = self.greeting.split_off(end + 1);
                Ok(Some(Greeting { plan: greeting::plan(&self.greeting)?, rest }))
            }
            None if self.greeting.len() < LINE_LIMIT => Ok(None),
            _ => Err("the peer's first line is too long".to_string()),
        }
    }

    /// Bytes of capsules, none where none came; or why the stream is over.
    pub fn capsules(&mut self) -> Result<Vec<u8>, String> {
        let count = self.read()?;
        Ok(self.piece[..count].to_vec())
    }

    /// Writes what waits, and reads a piece.
    fn read(&mut self) -> Result<usize, String> {
        self.flush().map_err(|error| error.to_string())?;
        if !self.wants_more() {
            return Ok(0);
        }
        match self.stream.read(&mut self.piece) {
            Ok(0) => Err("closed by the peer".to_string()),
            Ok(count) => Ok(count),
            Err(error) if [ErrorKind::WouldBlock, ErrorKind::Interrupted].contains(&error.kind()) => Ok(0),
            Err(error) => Err(error.to_string()),
        }
    }

    fn flush(&mut self) -> std::io::Result<()> {
        let mut written = 0;
        let result = loop {
            if written == self.out.len() {
                break Ok(());
            }
            match self.stream.write(&self.out[written..]) {
                Ok(0) => break Err(ErrorKind::WriteZero.into()),
                Ok(count) => written += count,
                Err(error) if error.kind() == ErrorKind::WouldBlock => break Ok(()),
                Err(error) if error.kind() == ErrorKind::Interrupted => {}
                Err(error) => break Err(error),
            }
        };
        self.out.drain(..written);
        result
    }

    /// Sees to it that the peer gets what was written, its first line among them, before the connection is closed.
    pub fn finish(&mut self) {
        let until = Instant::now() + FAREWELL;
        let set_up = self.stream.set_nonblocking(false).and_then(|()| self.stream.set_read_timeout(Some(FAREWELL)));
        if set_up.and_then(|()| self.stream.set_write_timeout(Some(FAREWELL))).is_err() || self.flush().is_err() {
            return;
        }
        let _ = self.stream.shutdown(Shutdown::Write);
        while Instant::now() < until && matches!(self.stream.read(&mut self.piece), Ok(1..)) {}
    }
}
