//! The header fields of packets by name, as they stand once sending has lowered the hop count.

use std::net::{Ipv4Addr, Ipv6Addr};
use whapirohi_tunnel::{Checksum, Template};

#[derive(Clone, Copy, Debug, PartialEq, Eq)]
pub enum Ip {
    V4,
    V6,
}

#[derive(Clone, Copy, Debug, PartialEq, Eq)]
pub enum Transport {
    Udp,
    Tcp,
}

/// The header that a field belongs to.
#[derive(Clone, Copy, Debug, PartialEq, Eq)]
pub enum Layer {
    Ip(Ip),
    Transport(Transport),
}

/// The headers at the front of a packet: an IPv4 header of 20 bytes or an IPv6 header of 40, and what is known to stand right behind it.
#[derive(Clone, Copy, Debug, PartialEq, Eq)]
pub struct Headers {
    pub ip: Ip,
    pub transport: Option<Transport>,
}

/// How the value of a field is written.
#[derive(Clone, Copy, Debug, PartialEq, Eq)]
enum Form {
    Decimal,
    Hex,
    Address,
}

/// A field: whole bytes of its header.
#[derive(Clone, Copy, Debug, PartialEq, Eq)]
pub struct Field {
    pub name: &'static str,
    /// Counted from the start of its header.
    pub offset: usize,
    pub length: usize,
    form: Form,
}

const fn field(name: &'static str, offset: usize, length: usize, form: Form) -> Field {
    Field { name, offset, length, form }
}

pub const IP4: [Field; 10] = [
    field("ip4.version_ihl", 0, 1, Form::Hex),
    field("ip4.tos", 1, 1, Form::Hex),
    field("ip4.length", 2, 2, Form::Decimal),
    field("ip4.id", 4, 2, Form::Decimal),
    field("ip4.fragment", 6, 2, Form::Hex),
    field("ip4.ttl", 8, 1, Form::Decimal),
    field("ip4.protocol", 9, 1, Form::Decimal),
    field("ip4.checksum", 10, 2, Form::Hex),
    field("ip4.src", 12, 4, Form::Address),
    field("ip4.dst", 16, 4, Form::Address),
];

/// The first four bytes have a name together, which comes first, and names for their parts: the class and the flow label share a byte.
pub const IP6: [Field; 9] = [
    field("ip6.version_class_flow", 0, 4, Form::Hex),
    field("ip6.version_class", 0, 1, Form::Hex),
    field("ip6.class_flow", 1, 1, Form::Hex),
    field("ip6.flow", 2, 2, Form::Hex),
    field("ip6.length", 4, 2, Form::Decimal),
    field("ip6.next", 6, 1, Form::Decimal),
    field("ip6.hops", 7, 1, Form::Decimal),
    field("ip6.src", 8, 16, Form::Address),
    field("ip6.dst", 24, 16, Form::Address),
];

pub const UDP: [Field; 4] = [
    field("udp.sport", 0, 2, Form::Decimal),
    field("udp.dport", 2, 2, Form::Decimal),
    field("udp.length", 4, 2, Form::Decimal),
    field("udp.checksum", 6, 2, Form::Hex),
];

pub const TCP: [Field; 9] = [
    field("tcp.sport", 0, 2, Form::Decimal),
    field("tcp.dport", 2, 2, Form::Decimal),
    field("tcp.seq", 4, 4, Form::Decimal),
    field("tcp.ack", 8, 4, Form::Decimal),
    field("tcp.offset", 12, 1, Form::Hex),
    field("tcp.flags", 13, 1, Form::Hex),
    field("tcp.window", 14, 2, Form::Decimal),
    field("tcp.checksum", 16, 2, Form::Hex),
    field("tcp.urgent", 18, 2, Form::Decimal),
];

/// The field of a name such as `ip4.src`.
pub fn find(name: &str) -> Option<(Layer, &'static Field)> {
    let layer = Layer::named(name.split_once('.')?.0)?;
    layer.fields().iter().find(|field| field.name == name).map(|field| (layer, field))
}

/// A number in decimal, or in hex behind `0x`.
pub fn number(text: &str) -> Option<u64> {
    let (digits, radix) = text.strip_prefix("0x").map_or((text, 10), |digits| (digits, 16));
    // from_str_radix would take a sign.
    digits.chars().all(|c| c.is_digit(radix)).then(|| u64::from_str_radix(digits, radix).ok())?
}

impl Field {
    /// The bytes of a value: an address, or a number that fits.
    pub fn read(&self, text: &str) -> Option<Vec<u8>> {
        match (self.form, self.length) {
            (Form::Address, 4) => Some(text.parse::<Ipv4Addr>().ok()?.octets().to_vec()),
            (Form::Address, _) => Some(text.parse::<Ipv6Addr>().ok()?.octets().to_vec()),
            _ => {
                let bytes = number(text)?.to_be_bytes();
                let (high, low) = bytes.split_at(bytes.len() - self.length);
                high.iter().all(|byte| *byte == 0).then(|| low.to_vec())
            }
        }
    }

    /// The value of as many bytes as the field has.
    pub fn show(&self, bytes: &[u8]) -> String {
        let wide = bytes.iter().fold(0, |value, byte| value << 8 | u128::from(*byte));
        match (self.form, self.length) {
            (Form::Decimal, _) => wide.to_string(),
            (Form::Hex, length) => format!("{wide:#0width$x}", width = 2 + 2 * length),
            (Form::Address, 4) => Ipv4Addr::from(wide as u32).to_string(),
            (Form::Address, _) => Ipv6Addr::from(wide).to_string(),
        }
    }

    /// What a value looks like, for a message.
    pub fn wants(&self) -> String {
        match (self.form, self.length) {
            (Form::Address, 4) => "an IPv4 address".into(),
            (Form::Address, _) => "an IPv6 address".into(),
            (_, length) => format!("a number below {}, in decimal or 0x hex", 1u64 << (8 * length)),
        }
    }
}

impl Layer {
    /// The header of a name such as `ip4`.
    pub fn named(name: &str) -> Option<Layer> {
        match name {
            "ip4" => Some(Layer::Ip(Ip::V4)),
            "ip6" => Some(Layer::Ip(Ip::V6)),
            "udp" => Some(Layer::Transport(Transport::Udp)),
            "tcp" => Some(Layer::Transport(Transport::Tcp)),
            _ => None,
        }
    }

    pub fn ip(self) -> Option<Ip> {
        match self {
            Layer::Ip(ip) => Some(ip),
            Layer::Transport(_) => None,
        }
    }

    pub fn transport(self) -> Option<Transport> {
        match self {
            Layer::Ip(_) => None,
            Layer::Transport(transport) => Some(transport),
        }
    }

    fn fields(self) -> &'static [Field] {
        match self {
            Layer::Ip(Ip::V4) => &IP4,
            Layer::Ip(Ip::V6) => &IP6,
            Layer::Transport(Transport::Udp) => &UDP,
            Layer::Transport(Transport::Tcp) => &TCP,
        }
    }
}

impl Ip {
    /// The version in the first byte of a packet.
    fn of(first: u8) -> Option<Ip> {
        match first >> 4 {
            4 => Some(Ip::V4),
            6 => Some(Ip::V6),
            _ => None,
        }
    }

    /// The length of the header without options or extension headers: where the transport header starts.
    pub fn length(self) -> usize {
        match self {
            Ip::V4 => 20,
            Ip::V6 => 40,
        }
    }

    /// Where the protocol, or the next header, stands.
    pub fn protocol_at(self) -> usize {
        match self {
            Ip::V4 => 9,
            Ip::V6 => 6,
        }
    }

    /// False for a header that is known to be longer.
    fn plain(self, first: u8) -> bool {
        self == Ip::V6 || first == 0x45
    }
}

impl Transport {
    fn of(protocol: u8) -> Option<Transport> {
        match protocol {
            17 => Some(Transport::Udp),
            6 => Some(Transport::Tcp),
            _ => None,
        }
    }

    pub fn name(self) -> &'static str {
        match self {
            Transport::Udp => "udp",
            Transport::Tcp => "tcp",
        }
    }

    /// The checksum pair behind a header of the version.
    pub fn checksum(self, ip: Ip) -> Checksum {
        let start = ip.length();
        match self {
            Transport::Udp => Checksum { field: start + 6, start },
            Transport::Tcp => Checksum { field: start + 16, start },
        }
    }
}

impl Headers {
    /// The headers that a template is surely for. The version is that of its byte 0; where byte 0 is not static, that of a checksum which
    /// starts at 20 or at 40. The transport is what the static protocol says, or the checksum pair, or both alike.
    pub fn of_template(template: &Template) -> Option<Headers> {
        let first = static_byte(template, 0);
        let ip = match (first, template.checksum) {
            (Some(first), _) => Ip::of(first)?,
            (None, Some(Checksum { start: 20, .. })) => Ip::V4,
            (None, Some(Checksum { start: 40, .. })) => Ip::V6,
            _ => return None,
        };
        let by_protocol = static_byte(template, ip.protocol_at()).map(Transport::of);
        let by_checksum = template
            .checksum
            .map(|pair| [Transport::Udp, Transport::Tcp].into_iter().find(|transport| transport.checksum(ip) == pair));
        let transport = match (by_protocol, by_checksum) {
            (Some(one), Some(other)) => one.filter(|_| one == other),
            (one, other) => one.or(other).flatten(),
        };
        Some(Headers { ip, transport: transport.filter(|_| first.is_none_or(|first| ip.plain(first))) })
    }

    /// The headers of a packet. No transport behind options or extension headers, nor in a fragment that is not the first.
    pub fn of_packet(packet: &[u8]) -> Option<Headers> {
        let first = *packet.first()?;
        let ip = Ip::of(first)?;
        let transport = Transport::of(*packet.get(ip.protocol_at())?);
        Some(Headers { ip, transport: transport.filter(|_| ip.plain(first) && !later_fragment(packet)) })
    }

    /// Every field, with the place in the packet where it starts.
    pub fn fields(self) -> impl Iterator<Item = (usize, &'static Field)> {
        let ip = Layer::Ip(self.ip).fields().iter().map(|field| (field.offset, field));
        let base = self.ip.length();
        let behind = self.transport.map_or(&[][..], |transport| Layer::Transport(transport).fields());
        ip.chain(behind.iter().map(move |field| (base + field.offset, field)))
    }
}

/// Whether a packet is an IPv4 fragment other than the first.
pub fn later_fragment(packet: &[u8]) -> bool {
    matches!(packet, [first, _, _, _, _, _, high, low, ..] if first >> 4 == 4 && (high & 0x1f, *low) != (0, 0))
}

fn static_byte(template: &Template, at: usize) -> Option<u8> {
    template.segments.iter().find_map(|segment| segment.bytes.get(at.checked_sub(segment.offset)?).copied())
}
