//! The other end written by hand: a stream and a socket that say what the tests want.

use crate::capsules::read_capsule;
use crate::check::{until, Outcome, While, SOON};
use crate::ends::{Lab, STREAM_PORT, UDP_PORT};
use crate::ensure;
use crate::net::Space;
use crate::packets::lowered;
use crate::plan::{self, Template};
use crate::tap::Tap;
use std::io::{self, Read, Write};
use std::net::{Shutdown, TcpListener, TcpStream, UdpSocket};
use std::time::Duration;

const VAN: &str = "10.77.0.1";
const CLINIC: &str = "10.77.0.2";

/// The line that each end sends first.
pub fn greeting(plan: &[u8]) -> String {
    let hex: String = plan.iter().map(|byte| format!("{byte:02x}")).collect();
    format!("whapirohi 1 plan {hex}\n")
}

/// One connection of the stream.
pub struct Peer {
    stream: TcpStream,
    read: Vec<u8>,
}

/// The socket of the van's datagrams.
pub fn van_socket(lab: &Lab) -> Result<UdpSocket, String> {
    datagrams(&lab.van, VAN, CLINIC)
}

/// The socket of the clinic's datagrams.
pub fn clinic_socket(lab: &Lab) -> Result<UdpSocket, String> {
    datagrams(&lab.clinic, CLINIC, VAN)
}

fn datagrams(space: &Space, own: &str, peer: &str) -> Result<UdpSocket, String> {
    let socket = space.within(|| UdpSocket::bind((own, UDP_PORT))).during("binding the peer's socket")?;
    socket.connect((peer, UDP_PORT)).during("connecting the peer's socket")?;
    socket.set_read_timeout(Some(SOON)).during("the peer's socket")?;
    Ok(socket)
}

/// Puts a packet into a device until the datagram that it has to make comes to the peer's socket: until then the grants may be on their way.
/// No other datagram is left in the socket.
pub fn arrives(tap: &Tap, socket: &UdpSocket, plan: &[Template], packet: &[u8]) -> Outcome {
    let expected = plan::datagram(plan, &lowered(packet));
    let mut bytes = [0; 2048];
    socket.set_read_timeout(Some(Duration::from_millis(50))).during("the peer's socket")?;
    until("datagram of a packet", SOON, || {
        tap.send(packet).during("sending")?;
        Ok(socket.recv(&mut bytes).ok().filter(|length| bytes[..*length] == expected))
    })?;
    while socket.recv(&mut bytes).is_ok() {}
    socket.set_read_timeout(Some(SOON)).during("the peer's socket")
}

impl Peer {
    fn new(stream: TcpStream) -> Result<Peer, String> {
        for set in [TcpStream::set_read_timeout, TcpStream::set_write_timeout] {
            set(&stream, Some(Duration::from_millis(200))).during("the peer's stream")?;
        }
        stream.set_nodelay(true).during("the peer's stream")?;
        Ok(Peer { stream, read: Vec::new() })
    }

    /// Connects to the clinic from the van's namespace, as soon as it listens.
    pub fn connect(lab: &Lab) -> Result<Peer, String> {
        Peer::connect_from(&lab.van)
    }

    /// Connects to the clinic from any namespace that has a way to it.
    pub fn connect_from(space: &Space) -> Result<Peer, String> {
        let connect = || Ok(TcpStream::connect((CLINIC, STREAM_PORT)).ok());
        Peer::new(space.within(|| until("connection to the clinic", SOON, connect))?)
    }

    /// Connects and greets with the plan of no templates; what the clinic sends first has come.
    pub fn greeted(lab: &Lab) -> Result<Peer, String> {
        let mut peer = Peer::connect(lab)?;
        peer.greet(&plan::EMPTY)?;
        Ok(peer)
    }

    /// Listens in the clinic's namespace.
    pub fn listen(lab: &Lab) -> Result<TcpListener, String> {
        let listener = lab.clinic.within(|| TcpListener::bind((CLINIC, STREAM_PORT))).during("listening")?;
        listener.set_nonblocking(true).during("listening")?;
        Ok(listener)
    }

    /// The next connection of a van.
    pub fn accept(listener: &TcpListener) -> Result<Peer, String> {
        let accept = || match listener.accept() {
            Ok((stream, _)) => Ok(Some(stream)),
            Err(error) if error.kind() == io::ErrorKind::WouldBlock => Ok(None),
            Err(error) => Err(format!("accepting: {error}")),
        };
        let stream = until("connection of the van", 3 * SOON, accept)?;
        stream.set_nonblocking(false).during("the peer's stream")?;
        Peer::new(stream)
    }

    /// Sends the greeting and reads that of the other end, which has the same plan.
    pub fn greet(&mut self, plan: &[u8]) -> Outcome {
        self.send(greeting(plan).as_bytes())?;
        let line = self.read_until("greeting", |read| {
            let length = 1 + read.iter().position(|byte| *byte == b'\n')?;
            Some((read[..length].to_vec(), length))
        })?;
        let line = String::from_utf8_lossy(&line).into_owned();
        ensure!(line == greeting(plan), "the greeting is {line:?}");
        Ok(())
    }

    pub fn send(&mut self, bytes: &[u8]) -> Outcome {
        self.stream.write_all(bytes).during("writing to the stream")
    }

    /// The next capsule: its kind and its value.
    pub fn capsule(&mut self) -> Result<(u64, Vec<u8>), String> {
        self.read_until("capsule", |read| {
            let (kind, value, rest) = read_capsule(read)?;
            Some(((kind, value.to_vec()), read.len() - rest.len()))
        })
    }

    /// The values of the next capsules of these kinds, in whichever order they come.
    pub fn capsules(&mut self, kinds: [u64; 2]) -> Result<[Vec<u8>; 2], String> {
        let (first, second) = (self.capsule()?, self.capsule()?);
        match [first.0, second.0] {
            found if found == kinds => Ok([first.1, second.1]),
            [second_kind, first_kind] if [first_kind, second_kind] == kinds => Ok([second.1, first.1]),
            found => Err(format!("capsules of the kinds {found:?} came, not {kinds:?}")),
        }
    }

    fn read_until<T>(&mut self, what: &str, take: impl Fn(&[u8]) -> Option<(T, usize)>) -> Result<T, String> {
        until(what, SOON, || {
            if let Some((found, length)) = take(&self.read) {
                self.read.drain(..length);
                return Ok(Some(found));
            }
            match self.more()? {
                true => Ok(None),
                false => Err(format!("the stream ended before a {what}")),
            }
        })
    }

    /// Reads on for a moment; false where the stream has ended.
    fn more(&mut self) -> Result<bool, String> {
        let mut bytes = [0; 4096];
        match self.stream.read(&mut bytes) {
            Ok(0) => Ok(false),
            Ok(length) => {
                self.read.extend(&bytes[..length]);
                Ok(true)
            }
            Err(error) if error.kind() == io::ErrorKind::WouldBlock => Ok(true),
            Err(error) if error.kind() == io::ErrorKind::ConnectionReset => Ok(false),
            Err(error) => Err(format!("reading the stream: {error}")),
        }
    }

    /// Waits until the other end has closed the stream.
    pub fn closed(&mut self) -> Outcome {
        until("end of the stream", SOON, || Ok((!self.more()?).then_some(())))
    }

    /// No more is sent; what the other end says is still read.
    pub fn finish(&self) -> Outcome {
        self.stream.shutdown(Shutdown::Write).during("closing the stream")
    }
}
