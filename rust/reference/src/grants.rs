//! The grants in force and what they let pass.

use crate::capsule::{self, read_assign, read_request, read_routes, Frame, CAPSULE_ROOM};
use crate::capsule::{ADDRESS_ASSIGN, ADDRESS_REQUEST, DATAGRAM, ROUTE_ADVERTISEMENT};
use crate::list::{assign_fault, routes_fault};
use crate::packet::Header;
use crate::{AddressList, Plan, Refusal, RouteList};

/// The lists received from the other end and those given to it.
#[derive(Clone, Copy, Debug, Default, PartialEq, Eq)]
pub struct Grants {
    pub received_addresses: AddressList,
    pub received_routes: RouteList,
    pub given_addresses: AddressList,
    pub given_routes: RouteList,
}

/// What a capsule did to the grants, or hands back.
#[derive(Clone, Copy, Debug, PartialEq, Eq)]
#[allow(clippy::large_enum_variant)]
pub enum Event {
    /// Where the value stands in the bytes.
    Datagram {
        start: usize,
        length: usize,
    },
    Assigned,
    Requested(AddressList),
    Advertised,
    /// Any other type.
    Skipped,
}

impl Grants {
    #[inline]
    pub fn sound(&self) -> bool {
        assign_fault(&self.received_addresses).is_none()
            && routes_fault(&self.received_routes).is_none()
            && assign_fault(&self.given_addresses).is_none()
            && routes_fault(&self.given_routes).is_none()
    }

    /// The lists of the other end, if it holds what was given to it and gave what was received.
    pub fn mirrored(&self) -> Grants {
        Grants {
            received_addresses: self.given_addresses,
            received_routes: self.given_routes,
            given_addresses: self.received_addresses,
            given_routes: self.received_routes,
        }
    }

    pub fn allow_sending(&self, packet: &Header) -> bool {
        forward(&self.received_addresses, &self.received_routes, packet)
            || reply(&self.given_addresses, &self.given_routes, packet)
    }

    pub fn allow_receiving(&self, packet: &Header) -> bool {
        forward(&self.given_addresses, &self.given_routes, packet)
            || reply(&self.received_addresses, &self.received_routes, packet)
    }

    /// One capsule at a place, and where the next one starts; a list that was assigned or advertised replaces the received one. A plan that
    /// breaks its rules is a broken state, as lists are.
    pub fn read_capsule(&mut self, plan: &Plan, bytes: &[u8], at: usize) -> Result<(Event, usize), Refusal> {
        if !(self.sound() && plan.sound()) {
            return Err(Refusal::BrokenState);
        }
        let frame = Frame::read(bytes, at)?;
        Ok((self.take(&frame)?, frame.next()))
    }

    /// A capsule that is all there.
    #[inline]
    pub(crate) fn take(&mut self, frame: &Frame) -> Result<Event, Refusal> {
        Ok(match frame.kind {
            DATAGRAM => Event::Datagram { start: frame.start, length: frame.value.len() },
            ADDRESS_ASSIGN => {
                read_assign(frame.value, &mut self.received_addresses)?;
                Event::Assigned
            }
            ADDRESS_REQUEST => Event::Requested(read_request(frame.value)?),
            ROUTE_ADVERTISEMENT => {
                read_routes(frame.value, &mut self.received_routes)?;
                Event::Advertised
            }
            _ => Event::Skipped,
        })
    }

    /// An ADDRESS_ASSIGN capsule; its list becomes the given one.
    pub fn write_assign(&mut self, plan: &Plan, list: &AddressList, out: &mut [u8]) -> Result<usize, Refusal> {
        self.ready(plan, out)?;
        let length = capsule::write_assign(list, out)?;
        self.given_addresses = *list;
        Ok(length)
    }

    /// A ROUTE_ADVERTISEMENT capsule; its list becomes the given one.
    pub fn write_routes(&mut self, plan: &Plan, list: &RouteList, out: &mut [u8]) -> Result<usize, Refusal> {
        self.ready(plan, out)?;
        let length = capsule::write_routes(list, out)?;
        self.given_routes = *list;
        Ok(length)
    }

    fn ready(&self, plan: &Plan, out: &[u8]) -> Result<(), Refusal> {
        if out.len() < CAPSULE_ROOM {
            return Err(Refusal::NoRoom);
        }
        if !(self.sound() && plan.sound()) {
            return Err(Refusal::BrokenState);
        }
        Ok(())
    }
}

/// From one of the addresses, into one of the ranges.
fn forward(addresses: &AddressList, routes: &RouteList, packet: &Header) -> bool {
    passes(addresses, routes, packet, packet.source, packet.destination)
}

/// Back from one of the ranges, to one of the addresses.
fn reply(addresses: &AddressList, routes: &RouteList, packet: &Header) -> bool {
    passes(addresses, routes, packet, packet.destination, packet.source)
}

fn passes(addresses: &AddressList, routes: &RouteList, packet: &Header, near: u128, far: u128) -> bool {
    let icmp = packet.is_icmp();
    addresses.stored().iter().any(|entry| entry.covers(packet.version, near))
        && routes.stored().iter().any(|range| {
            range.holds(packet.version, far) && (range.protocol == 0 || range.protocol == packet.protocol || icmp)
        })
}
