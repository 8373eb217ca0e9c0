//! Address entries, route ranges, and bounded lists of them with their rules.

use crate::number::MAX_NUMBER;
use crate::packet::width;
use crate::Refusal;

pub const MAX_ADDRESSES: usize = 32;
pub const MAX_RANGES: usize = 256;

/// A list of at most `N` items; more where `count` says so is a list that breaks its rules.
#[derive(Clone, Copy, Debug, PartialEq, Eq)]
pub struct List<T, const N: usize> {
    pub count: usize,
    pub items: [T; N],
}

pub type AddressList = List<AddressEntry, MAX_ADDRESSES>;
pub type RouteList = List<RouteRange, MAX_RANGES>;

impl<T: Copy + Default, const N: usize> Default for List<T, N> {
    fn default() -> Self {
        List { count: 0, items: [T::default(); N] }
    }
}

impl<T, const N: usize> List<T, N> {
    /// The items that are stored: all that are counted, as far as there are any.
    #[inline]
    pub fn stored(&self) -> &[T] {
        &self.items[..self.count.min(N)]
    }

    #[inline]
    pub fn too_long(&self) -> bool {
        self.count > N
    }
}

#[derive(Clone, Copy, Debug, Default, PartialEq, Eq, PartialOrd, Ord)]
pub struct RequestId(pub u64);

/// An address with its prefix; an IPv4 address is the number of its four bytes.
#[derive(Clone, Copy, Debug, Default, PartialEq, Eq)]
pub struct AddressEntry {
    pub request_id: RequestId,
    pub version: u8,
    pub prefix: u8,
    pub address: u128,
}

impl AddressEntry {
    #[inline]
    pub fn sound(&self) -> bool {
        let Some(width) = width(self.version) else { return false };
        let prefix = u32::from(self.prefix);
        self.request_id.0 <= MAX_NUMBER
            && prefix <= width
            && fits_width(self.address, width)
            && self.address & low_bits(width - prefix) == 0
    }

    /// Whether the entry covers an address of a packet; a declined request covers nothing. The entry is sound.
    #[inline]
    pub fn covers(&self, version: u8, address: u128) -> bool {
        if self.version != version {
            return false;
        }
        let width = if version == 4 { 32 } else { 128 };
        let prefix = u32::from(self.prefix);
        let declined = self.address == 0 && prefix == width;
        !declined && (self.address ^ address) & !low_bits(width - prefix) == 0
    }
}

/// Addresses from `start` to `end`, both included, for one protocol or (0) for all.
#[derive(Clone, Copy, Debug, Default, PartialEq, Eq)]
pub struct RouteRange {
    pub version: u8,
    pub protocol: u8,
    pub start: u128,
    pub end: u128,
}

impl RouteRange {
    #[inline]
    pub fn sound(&self) -> bool {
        let Some(width) = width(self.version) else { return false };
        self.start <= self.end && fits_width(self.end, width)
    }

    /// RFC 9484 section 4.7.3: neighbours are ordered by version, protocol, then address.
    #[inline]
    pub fn in_order(&self, next: &RouteRange) -> bool {
        (self.version, self.protocol) < (next.version, next.protocol)
            || (self.version, self.protocol) == (next.version, next.protocol) && self.end < next.start
    }

    #[inline]
    pub fn holds(&self, version: u8, address: u128) -> bool {
        self.version == version && self.start <= address && address <= self.end
    }
}

/// The first fault of an address list to be assigned, or held.
pub fn assign_fault(list: &AddressList) -> Option<Refusal> {
    if !list.stored().iter().all(AddressEntry::sound) {
        return Some(Refusal::BadAddress);
    }
    list.too_long().then_some(Refusal::ListTooLong)
}

/// The first fault of an address list to be requested.
pub fn request_fault(list: &AddressList) -> Option<Refusal> {
    let entries = list.stored();
    for (n, entry) in entries.iter().enumerate() {
        if !entry.sound() {
            return Some(Refusal::BadAddress);
        }
        if entry.request_id.0 == 0 || entries[..n].iter().any(|e| e.request_id == entry.request_id) {
            return Some(Refusal::BadRequestId);
        }
    }
    if list.count == 0 {
        return Some(Refusal::BadRequestId);
    }
    list.too_long().then_some(Refusal::ListTooLong)
}

/// The first fault of a list of ranges to be advertised, or held.
pub fn routes_fault(list: &RouteList) -> Option<Refusal> {
    let mut previous: Option<&RouteRange> = None;
    for range in list.stored() {
        if !range.sound() {
            return Some(Refusal::BadRange);
        }
        if previous.is_some_and(|p| !p.in_order(range)) {
            return Some(Refusal::RangesOutOfOrder);
        }
        previous = Some(range);
    }
    list.too_long().then_some(Refusal::ListTooLong)
}

#[inline]
fn low_bits(count: u32) -> u128 {
    if count == 128 {
        u128::MAX
    } else {
        (1 << count) - 1
    }
}

#[inline]
fn fits_width(address: u128, width: u32) -> bool {
    width == 128 || address >> 32 == 0
}
