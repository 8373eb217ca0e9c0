//! A TUN device seen from outside the program: packets are put into it, and those that come out of it are looked at.

use crate::check::{until, Outcome, While, SOON};
use crate::ensure;
use crate::net::Space;
use crate::packets::{lowered, Flow};
use crate::sys;
use std::collections::HashMap;
use std::io;
use std::net::UdpSocket;
use std::time::{Duration, Instant};

pub struct Tap {
    listen: UdpSocket,
    v4: UdpSocket,
    v6: UdpSocket,
}

/// How many packets are under way at most: a device's queue holds 500.
const WINDOW: usize = 32;

fn hex(bytes: &[u8]) -> String {
    bytes.iter().take(64).map(|byte| format!("{byte:02x}")).collect()
}

impl Tap {
    pub fn open(space: &Space, device: &str) -> Result<Tap, String> {
        let tap = space.within(|| {
            let listen = sys::packet_socket(device, sys::ETH_P_ALL)?;
            sys::receive_buffer(&listen, 1 << 22)?;
            let [v4, v6] = [sys::ETH_P_IP, sys::ETH_P_IPV6].map(|protocol| sys::packet_socket(device, protocol));
            io::Result::Ok(Tap { listen, v4: v4?, v6: v6? })
        });
        tap.during(format!("capturing on {device}"))
    }

    /// Hands a packet to the program, as if the kernel had routed it to the device.
    pub fn send(&self, packet: &[u8]) -> io::Result<()> {
        let socket = if packet.first().is_some_and(|byte| byte >> 4 == 6) { &self.v6 } else { &self.v4 };
        socket.send(packet).map(|_| ())
    }

    /// The next packet that comes out of the program, if one does in time.
    pub fn next(&self, limit: Duration) -> Result<Option<Vec<u8>>, String> {
        let mut bytes = vec![0; 65_536];
        self.listen.set_read_timeout(Some(limit.max(Duration::from_millis(1)))).during("capture")?;
        match self.listen.recv(&mut bytes) {
            Ok(length) => {
                bytes.truncate(length);
                Ok(Some(bytes))
            }
            Err(e) if matches!(e.kind(), io::ErrorKind::WouldBlock | io::ErrorKind::Interrupted) => Ok(None),
            Err(error) => Err(format!("capture: {error}")),
        }
    }

    /// Waits for one packet; no other may come before it.
    pub fn only(&self, expected: &[u8]) -> Outcome {
        match self.next(SOON)? {
            Some(packet) if packet == expected => Ok(()),
            Some(packet) => Err(format!("{} came out, not {}", hex(&packet), hex(expected))),
            None => Err(format!("{} did not come out", hex(expected))),
        }
    }
}

/// Sends packets in by one device: each has to come out of the other once, with its hop count lowered, and nothing else may.
pub fn carry(from: &Tap, to: &Tap, packets: &[Vec<u8>]) -> Outcome {
    for window in packets.chunks(WINDOW) {
        let mut missing: HashMap<Vec<u8>, usize> = HashMap::new();
        for packet in window {
            *missing.entry(lowered(packet)).or_default() += 1;
            from.send(packet).during(format!("sending {} bytes", packet.len()))?;
        }
        let end = Instant::now() + SOON;
        for came in 0..window.len() {
            let Some(packet) = to.next(end.saturating_duration_since(Instant::now()))? else {
                let lost =
                    missing.iter().find(|(_, count)| **count > 0).map_or(String::new(), |(packet, _)| hex(packet));
                return Err(format!(
                    "{} of {} packets did not come out, such as {lost}",
                    window.len() - came,
                    window.len()
                ));
            };
            match missing.get_mut(&packet) {
                Some(count) if *count > 0 => *count -= 1,
                _ => return Err(format!("{} bytes came out that were not sent: {}", packet.len(), hex(&packet))),
            }
        }
    }
    if let Some(packet) = to.next(Duration::from_millis(100))? {
        return Err(format!("came out once too often: {}", hex(&packet)));
    }
    Ok(())
}

/// Waits until the grants are there: until a packet of this flow passes.
pub fn passes(from: &Tap, to: &Tap, flow: Flow) -> Outcome {
    let mut sequence = 0;
    until("packet that passes", 3 * SOON, || {
        sequence += 1;
        let packet = flow.echo(0x7E57, sequence, b"probe");
        from.send(&packet).during("sending a probe")?;
        // Each probe is waited for by itself, so that none is under way when this ends.
        let end = Instant::now() + Duration::from_millis(200);
        while let Some(came) = to.next(end.saturating_duration_since(Instant::now()))? {
            if came == lowered(&packet) {
                return Ok(Some(()));
            }
        }
        Ok(None)
    })
}

/// Sends packets that may not come out, and a good one behind them.
pub fn refused(from: &Tap, to: &Tap, packets: &[Vec<u8>], good: &[u8]) -> Outcome {
    for packet in packets {
        from.send(packet).during("sending")?;
    }
    from.send(good).during("sending")?;
    to.only(&lowered(good))?;
    ensure!(to.next(Duration::from_millis(50))?.is_none(), "a packet came out behind the good one");
    Ok(())
}
