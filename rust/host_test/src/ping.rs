//! ICMP echo by a raw socket, answered by the kernel of the other namespace.

use crate::check::{While, SOON};
use crate::net::Space;
use crate::packets::{echo_request, octets, ICMP, ICMPV6};
use crate::sys;
use std::io;
use std::net::{IpAddr, UdpSocket};
use std::time::{Duration, Instant};

pub struct Ping {
    socket: UdpSocket,
    target: IpAddr,
    id: u16,
}

impl Ping {
    pub fn new(space: &Space, target: IpAddr) -> Result<Ping, String> {
        let open = || match target {
            IpAddr::V4(_) => sys::raw_socket(sys::AF_INET, ICMP.into()),
            IpAddr::V6(_) => sys::raw_socket(sys::AF_INET6, ICMPV6.into()),
        };
        let socket = space.within(open).during("a socket of ICMP")?;
        socket.set_read_timeout(Some(Duration::from_millis(100))).during("a socket of ICMP")?;
        let id = octets(target).iter().fold(1, |id: u16, byte| id.wrapping_mul(31) ^ u16::from(*byte));
        Ok(Ping { socket, target, id })
    }

    /// Sends an echo request and waits for its reply: the time that it took.
    pub fn echo(&self, sequence: u16, data: &[u8]) -> Result<Duration, String> {
        let v4 = self.target.is_ipv4();
        // The kernel puts in the checksum of IPv6.
        let request = echo_request(v4, self.id, sequence, data);
        let begun = Instant::now();
        self.socket.send_to(&request, (self.target, 0)).during("sending an echo request")?;
        let mut bytes = [0; 2048];
        while begun.elapsed() < SOON {
            let message = match self.socket.recv_from(&mut bytes) {
                Ok((_, from)) if from.ip() != self.target => continue,
                // A raw socket of IPv4 gives the header too.
                Ok((length, _)) if v4 => bytes[..length].get(4 * usize::from(bytes[0] & 15)..).unwrap_or(&[]),
                Ok((length, _)) => &bytes[..length],
                Err(error) if error.kind() == io::ErrorKind::WouldBlock => continue,
                Err(error) => return Err(format!("receiving an echo reply: {error}")),
            };
            let reply = if v4 { 0 } else { 129 };
            if message.len() == request.len() && message[0] == reply && message[4..] == request[4..] {
                return Ok(begun.elapsed());
            }
        }
        Err(format!("no echo reply from {} to {} bytes", self.target, data.len()))
    }
}
