//! Which of the prefixes that an end has for its peer answer which of the peer's requests (RFC 9484, section 4.7.2).

use whapirohi_tunnel::{Entry, MAX_ADDRESSES};

/// The prefixes for the peer, each with the Request ID that it answers, or 0.
#[derive(Clone, Debug)]
pub struct Leases(Vec<Entry>);

fn full_length(entry: &Entry) -> u8 {
    if entry.address.is_ipv4() {
        32
    } else {
        128
    }
}

impl Leases {
    /// All prefixes are free.
    pub fn new(prefixes: &[Entry]) -> Leases {
        Leases(prefixes.iter().map(|prefix| Entry { request_id: 0, ..*prefix }).collect())
    }

    /// The prefixes as they are.
    pub fn entries(&self) -> &[Entry] {
        &self.0
    }

    /// The whole list that answers requests: every prefix, with the Request IDs that are bound to it, and each request that got none declined,
    /// as far as a list goes. A request that names an address gets that prefix or none; one that does not, a free prefix of its version,
    /// of the length that it asks for where there is one.
    pub fn answer(&mut self, requests: &[Entry]) -> Vec<Entry> {
        let refused: Vec<Entry> = requests.iter().filter(|request| !self.bind(request)).copied().collect();
        let no =
            |request: &Entry| Entry { address: unspecified(request), prefix_length: full_length(request), ..*request };
        self.0.iter().copied().chain(refused.iter().map(no)).take(MAX_ADDRESSES).collect()
    }

    fn bind(&mut self, request: &Entry) -> bool {
        let any = request.address.is_unspecified();
        let fits = |prefix: &Entry, length: bool| {
            (prefix.request_id == 0 || prefix.request_id == request.request_id)
                && prefix.address.is_ipv4() == request.address.is_ipv4()
                && (any || prefix.address == request.address)
                && (!length || prefix.prefix_length == request.prefix_length)
        };
        let exact = self.0.iter().position(|prefix| fits(prefix, true));
        let found = if any { exact.or_else(|| self.0.iter().position(|prefix| fits(prefix, false))) } else { exact };
        if let Some(i) = found {
            self.0[i].request_id = request.request_id;
        }
        found.is_some()
    }
}

fn unspecified(entry: &Entry) -> std::net::IpAddr {
    match entry.address {
        std::net::IpAddr::V4(_) => std::net::Ipv4Addr::UNSPECIFIED.into(),
        std::net::IpAddr::V6(_) => std::net::Ipv6Addr::UNSPECIFIED.into(),
    }
}

#[cfg(test)]
mod tests {
    use super::*;

    fn entry(request_id: u64, address: &str, prefix_length: u8) -> Entry {
        Entry { request_id, address: address.parse().unwrap(), prefix_length }
    }

    #[test]
    fn requests_get_their_prefix_or_no() {
        let prefixes = [entry(0, "192.0.2.3", 32), entry(0, "198.51.100.0", 24), entry(0, "2001:db8::3", 128)];
        let mut leases = Leases::new(&prefixes);
        let answer =
            leases.answer(&[entry(7, "0.0.0.0", 32), entry(8, "198.51.100.0", 24), entry(9, "203.0.113.1", 32)]);
        assert_eq!(
            answer,
            [
                entry(7, "192.0.2.3", 32),
                entry(8, "198.51.100.0", 24),
                entry(0, "2001:db8::3", 128),
                entry(9, "0.0.0.0", 32)
            ]
        );
        assert!(answer[3].is_declined() && !answer[0].is_declined());
        // A later request leaves what is bound, and a refusal is said once.
        assert_eq!(leases.answer(&[entry(10, "::", 64)])[2..], [entry(10, "2001:db8::3", 128)]);
        assert_eq!(leases.answer(&[entry(11, "::", 64)])[3..], [entry(11, "::", 128)]);
        assert_eq!(leases.entries().iter().map(|entry| entry.request_id).collect::<Vec<_>>(), [7, 8, 10]);
    }

    #[test]
    fn one_that_is_asked_for_by_length_is_preferred() {
        let mut leases = Leases::new(&[entry(0, "192.0.2.0", 24), entry(0, "198.51.100.7", 32)]);
        assert_eq!(leases.answer(&[entry(1, "0.0.0.0", 32)])[1], entry(1, "198.51.100.7", 32));
        assert_eq!(leases.answer(&[entry(2, "0.0.0.0", 32)])[0], entry(2, "192.0.2.0", 24));
        assert_eq!(leases.answer(&[entry(3, "0.0.0.0", 32)]).len(), 3);
    }

    #[test]
    fn a_list_ends_at_its_limit() {
        let prefixes: Vec<Entry> = (0..MAX_ADDRESSES as u8).map(|i| entry(0, &format!("192.0.2.{i}"), 32)).collect();
        let answer = Leases::new(&prefixes).answer(&[entry(1, "203.0.113.1", 32)]);
        assert_eq!(answer, prefixes);
    }
}
