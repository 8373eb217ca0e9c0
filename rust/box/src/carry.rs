//! The library's calls for packets, or, with the feature `forward-only`, what stands in their place when the host by itself is measured.

pub use calls::{is_short, receive, send};

#[cfg(not(feature = "forward-only"))]
mod calls {
    use whapirohi_tunnel::{read_number, Answer, State};

    pub fn send(state: &State, packet: &[u8], out: &mut [u8]) -> Answer {
        state.send(packet, out)
    }

    pub fn receive(state: &State, datagram: &[u8], out: &mut [u8]) -> Answer {
        state.receive(datagram, out)
    }

    /// Whether a datagram goes by a template.
    pub fn is_short(datagram: &[u8]) -> bool {
        read_number(datagram).value != 0
    }
}

/// Every packet in full, unjudged.
#[cfg(feature = "forward-only")]
mod calls {
    use whapirohi_tunnel::{number, Answer, State};

    pub fn send(_: &State, packet: &[u8], out: &mut [u8]) -> Answer {
        let Some((first, rest)) = out.split_first_mut().filter(|(_, rest)| packet.len() <= rest.len()) else {
            return Answer { number: number::NO_ROOM, length: 0 };
        };
        *first = 0;
        rest[..packet.len()].copy_from_slice(packet);
        Answer { number: number::DONE, length: packet.len() as u64 + 1 }
    }

    pub fn receive(_: &State, datagram: &[u8], out: &mut [u8]) -> Answer {
        let Some(packet) = datagram.get(1..).filter(|packet| packet.len() <= out.len()) else {
            return Answer { number: number::CUT_DATAGRAM, length: 0 };
        };
        out[..packet.len()].copy_from_slice(packet);
        Answer { number: number::DONE, length: packet.len() as u64 }
    }

    pub fn is_short(_: &[u8]) -> bool {
        false
    }
}
