//! One end of the tunnel without its files: the library's state, what is sent to the peer, and what is counted.

use crate::carry;
use crate::config::Config;
use crate::counters::{Counters, Direction};
use crate::greeting::NO_TEMPLATES;
use crate::leases::Leases;
use crate::log::{describe, Limit};
use std::time::Instant;
use whapirohi_tunnel::{address_words, entries, kind, number, ranges, read_number, reason, route_words, write_request};
use whapirohi_tunnel::{AddressWords, Entry, KeptBytes, Range, Refusal, State};
use whapirohi_tunnel::{ADDRESS_WORDS, CAPSULE_ROOM, FEED_ROOM, KEPT_SIZE, RECEIVE_ROOM};

/// The most lines a second that refused packets take of the log.
const REFUSED_LINES: u32 = 10;

/// What came of a capsule, for the host to act on.
#[derive(Clone, Debug, PartialEq, Eq)]
pub enum Event<'a> {
    /// A packet for the device, out of a DATAGRAM capsule.
    Packet(&'a [u8]),
    /// The peer's addresses for us, and its routes, are these now.
    Addresses(Vec<Entry>),
    Routes(Vec<Range>),
    /// A capsule to be sent.
    Capsule(&'a [u8]),
}

pub struct End {
    state: Box<State>,
    kept: Box<KeptBytes>,
    plan: Vec<u8>,
    assign: Vec<Entry>,
    routes: Vec<Range>,
    request: Vec<Entry>,
    leases: Leases,
    pub counters: Counters,
    /// The log of refused packets, until the host has written it.
    pub log: Limit,
    requested: Box<AddressWords>,
    value: Box<[u8]>,
    out: Box<[u8]>,
}

impl End {
    /// A fresh end. The configuration was tested with the library as it was read.
    pub fn new(config: &Config) -> Result<End, Refusal> {
        let mut end = End {
            state: Box::new(State::new()),
            kept: Box::new([0; KEPT_SIZE]),
            plan: config.plan.as_ref().map_or(NO_TEMPLATES.to_vec(), |(_, file)| file.clone()),
            assign: config.assign.clone(),
            routes: config.routes.clone(),
            request: config.request.clone(),
            leases: Leases::new(&config.assign),
            counters: Counters::default(),
            log: Limit::new(Instant::now(), REFUSED_LINES, "refused packets"),
            requested: Box::new([0; ADDRESS_WORDS]),
            value: vec![0; FEED_ROOM].into(),
            out: vec![0; CAPSULE_ROOM].into(),
        };
        end.start()?;
        Ok(end)
    }

    /// No grants, no capsule open, the plan as configured.
    pub fn start(&mut self) -> Result<(), Refusal> {
        self.state.start();
        self.leases = Leases::new(&self.assign);
        self.counters.up = false;
        match self.state.load_plan(&self.plan) {
            number::DONE => Ok(()),
            number => Err(Refusal(number)),
        }
    }

    pub fn plan(&self) -> &[u8] {
        &self.plan
    }

    /// Whether the stream ended in the middle of a capsule.
    pub fn capsule_is_open(&self) -> bool {
        self.state.kept_count > 0 || self.state.to_skip > 0
    }

    /// The capsules that open a stream: what the peer is given, and what is asked of it. Empty lists go out too: the peer's device may still
    /// have what an earlier stream gave.
    pub fn opening(&mut self) -> Result<Vec<u8>, Refusal> {
        let mut bytes = Vec::new();
        let length = self.state.write_assign(&address_words(self.leases.entries())?, &mut self.out).written()?;
        bytes.extend_from_slice(&self.out[..length]);
        let length = self.state.write_routes(&route_words(&self.routes)?, &mut self.out).written()?;
        bytes.extend_from_slice(&self.out[..length]);
        if !self.request.is_empty() {
            let length = write_request(&address_words(&self.request)?, &mut self.out).written()?;
            bytes.extend_from_slice(&self.out[..length]);
        }
        Ok(bytes)
    }

    /// The datagram of a packet from the device, and its length; or none, and that is counted and said.
    pub fn send(&mut self, packet: &[u8], out: &mut [u8]) -> Option<usize> {
        if !self.counters.up {
            self.counters.no_stream += 1;
            return None;
        }
        match carry::send(&self.state, packet, out).written() {
            Ok(length) => {
                self.counters.sent.pass(packet.len(), length, carry::is_short(&out[..length]));
                Some(length)
            }
            Err(refusal) => {
                let line = || format!("refused sending {} {}: {}", refusal.0, reason(refusal.0), describe(packet));
                refuse(&mut self.counters.sent, &mut self.log, refusal, line);
                None
            }
        }
    }

    /// The packet of a datagram from the link, and its length; or none, and that is counted and said.
    pub fn receive(&mut self, datagram: &[u8], out: &mut [u8]) -> Option<usize> {
        if !self.counters.up {
            self.counters.no_stream += 1;
            return None;
        }
        match carry::receive(&self.state, datagram, out).written() {
            Ok(length) => {
                self.counters.received.pass(length, datagram.len(), carry::is_short(datagram));
                Some(length)
            }
            Err(refusal) => {
                let line = || {
                    format!("refused receiving {} {}: {}", refusal.0, reason(refusal.0), describe_datagram(datagram))
                };
                refuse(&mut self.counters.received, &mut self.log, refusal, line);
                None
            }
        }
    }

    /// Bytes of the stream, with an event for each capsule that asks for something; the first refusal ends it.
    pub fn feed(&mut self, mut bytes: &[u8], mut act: impl FnMut(Event)) -> Result<(), Refusal> {
        while !bytes.is_empty() {
            let piece = self.state.feed(&mut self.kept, bytes, &mut self.value, &mut self.requested);
            match piece.number {
                number::DONE if piece.handed == 1 => self.capsule(piece.kind, piece.length as usize, &mut act)?,
                number::DONE | number::INCOMPLETE => return Ok(()),
                number => return Err(Refusal(number)),
            }
            bytes = bytes.get(piece.taken as usize..).unwrap_or_default();
        }
        Ok(())
    }

    fn capsule(&mut self, kind: u64, length: usize, act: &mut impl FnMut(Event)) -> Result<(), Refusal> {
        match kind {
            kind::DATAGRAM => {
                let mut packet = [0; RECEIVE_ROOM];
                let value = std::mem::take(&mut self.value);
                if let Some(length) = self.receive(&value[..length], &mut packet) {
                    act(Event::Packet(&packet[..length]));
                }
                self.value = value;
            }
            kind::ADDRESS_ASSIGN => {
                let list = entries(&self.state.received_addresses).ok_or(Refusal(number::BROKEN_STATE))?;
                act(Event::Addresses(list));
            }
            kind::ROUTE_ADVERTISEMENT => {
                let list = ranges(&self.state.received_routes).ok_or(Refusal(number::BROKEN_STATE))?;
                act(Event::Routes(list));
            }
            kind::ADDRESS_REQUEST => {
                let requests = entries(&self.requested).ok_or(Refusal(number::BROKEN_STATE))?;
                let words = address_words(&self.leases.answer(&requests))?;
                let length = self.state.write_assign(&words, &mut self.out).written()?;
                act(Event::Capsule(&self.out[..length]));
            }
            _ => {}
        }
        Ok(())
    }
}

fn refuse(direction: &mut Direction, log: &mut Limit, refusal: Refusal, line: impl FnOnce() -> String) {
    direction.refuse(refusal.0);
    log.admit(Instant::now(), line);
}

/// The packet of a full datagram; of a short one its Context ID.
fn describe_datagram(datagram: &[u8]) -> String {
    let id = read_number(datagram);
    match (id.number, id.value) {
        (0, 0) => describe(datagram.get(id.size as usize..).unwrap_or_default()),
        (0, value) => format!("Context ID {value}, {} bytes", datagram.len()),
        _ => format!("no Context ID, {} bytes", datagram.len()),
    }
}
