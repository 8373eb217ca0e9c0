//! Sockets of programs that know nothing of the tunnel.

use super::Run;
use crate::check::{until, Outcome, While, SOON};
use crate::ends::{End, Lab, Options, CLINIC_TUN, PLAIN, VAN_TUN};
use crate::ensure;
use crate::packets::{CLINIC4, CLINIC6, VAN4, VAN6};
use crate::ping::Ping;
use crate::plan::{both_ways, PORTS};
use crate::random::Random;
use std::io::{Read, Write};
use std::net::{IpAddr, TcpListener, TcpStream, UdpSocket};
use std::thread;

pub const TESTS: &[(&str, Run)] = &[
    ("sockets: UDP echo of IPv4", |lab| udp(lab, VAN4, CLINIC4, 28)),
    ("sockets: UDP echo of IPv6", |lab| udp(lab, VAN6, CLINIC6, 48)),
    ("sockets: TCP of IPv4, 4 MiB each way", |lab| tcp(lab, CLINIC4)),
    ("sockets: TCP of IPv6, 4 MiB each way", |lab| tcp(lab, CLINIC6)),
    ("sockets: ICMP echo", echo),
];

/// Both ends with `apply ip`, and the clinic's addresses on its loopback device; addresses and routes are there.
pub fn applied<'s>(lab: &'s Lab, options: &Options) -> Result<(End<'s>, End<'s>), String> {
    lab.clinic.ip("addr add 198.51.100.2/32 dev lo")?;
    lab.clinic.ip("addr add 2001:db8:2::2/128 dev lo nodad")?;
    let ends = lab.start_both(&Options { apply: "ip", ..*options })?;
    for (space, line, words) in [
        (&lab.van, format!("addr show dev {VAN_TUN}"), "192.0.2.3/32"),
        (&lab.van, format!("addr show dev {VAN_TUN}"), "2001:db8:1::3/128"),
        (&lab.van, format!("route show dev {VAN_TUN}"), "198.51.100.0/24"),
        (&lab.van, format!("-6 route show dev {VAN_TUN}"), "2001:db8:2::/64"),
        (&lab.clinic, format!("route show dev {CLINIC_TUN}"), "192.0.2.3"),
        (&lab.clinic, format!("-6 route show dev {CLINIC_TUN}"), "2001:db8:1::3"),
    ] {
        until(&format!("{words} in ip {line}"), SOON, || Ok(space.ip(&line)?.contains(words).then_some(())))?;
    }
    Ok(ends)
}

fn udp(lab: &Lab, van: IpAddr, clinic: IpAddr, headers: usize) -> Outcome {
    let plan = both_ways();
    let (end, _clinic) = applied(lab, &Options { plan: &plan, ..PLAIN })?;
    let server = lab.clinic.within(|| UdpSocket::bind((clinic, PORTS.1))).during("binding")?;
    let client = lab.van.within(|| UdpSocket::bind((van, PORTS.0))).during("binding")?;
    client.connect((clinic, PORTS.1)).during("connecting")?;
    for socket in [&server, &client] {
        socket.set_read_timeout(Some(SOON)).during("socket")?;
    }
    let before = end.counters()?;
    let (mut random, mut bytes) = (Random::new(1), [0; 2048]);
    let most = 1500 - headers;
    let sizes: Vec<usize> = (0..=most).filter(|n| *n < 20 || n % 29 == 0 || most - n < 4).collect();
    for size in &sizes {
        let data = random.bytes(*size);
        client.send(&data).during("sending")?;
        let (length, from) = server.recv_from(&mut bytes).during(format!("{size} bytes at the clinic"))?;
        ensure!(bytes[..length] == data && from.ip() == van, "{size} bytes came as {length} from {from}");
        server.send_to(&bytes[..length], from).during("answering")?;
        let length = client.recv(&mut bytes).during(format!("{size} bytes back at the van"))?;
        ensure!(bytes[..length] == data, "{size} bytes came back as {length}");
    }
    let after = end.counters()?;
    for name in ["sent short", "received short"] {
        ensure!(after.get(name) >= before.get(name) + sizes.len() as u64, "{name}: not all by the templates");
    }
    Ok(())
}

const LOAD: usize = 4 << 20;

/// Sends and receives 4 MiB at the same time, and compares what comes.
fn exchange(stream: TcpStream, sends: u64, receives: u64) -> Outcome {
    stream.set_read_timeout(Some(2 * SOON)).during("stream")?;
    stream.set_write_timeout(Some(2 * SOON)).during("stream")?;
    let (mut writer, mut reader) = (stream.try_clone().during("stream")?, stream);
    thread::scope(|scope| {
        let sending = scope.spawn(move || writer.write_all(&Random::new(sends).bytes(LOAD)).during("writing"));
        let expected = Random::new(receives).bytes(LOAD);
        let mut found = vec![0; LOAD];
        reader.read_exact(&mut found).during("reading")?;
        let difference = found.iter().zip(&expected).position(|(found, expected)| found != expected);
        ensure!(difference.is_none(), "the bytes that came differ, first at {difference:?}");
        sending.join().unwrap_or_else(|_| Err("the writer panicked".to_string()))
    })
}

fn tcp(lab: &Lab, clinic: IpAddr) -> Outcome {
    let plan = both_ways();
    let _ends = applied(lab, &Options { plan: &plan, ..PLAIN })?;
    let listener = lab.clinic.within(|| TcpListener::bind((clinic, 80))).during("listening")?;
    let client = lab.van.within(|| TcpStream::connect_timeout(&(clinic, 80).into(), SOON)).during("connecting")?;
    let (server, _) = listener.accept().during("accepting")?;
    thread::scope(|scope| {
        let clinic = scope.spawn(|| exchange(server, 1, 2));
        exchange(client, 2, 1)?;
        clinic.join().unwrap_or_else(|_| Err("the clinic's side panicked".to_string()))
    })
}

fn echo(lab: &Lab) -> Outcome {
    let _ends = applied(lab, &PLAIN)?;
    for (space, target, headers) in
        [(&lab.van, CLINIC4, 28), (&lab.van, CLINIC6, 48), (&lab.clinic, VAN4, 28), (&lab.clinic, VAN6, 48)]
    {
        let ping = Ping::new(space, target)?;
        for (sequence, size) in [0, 1, 56, 555, 1500 - headers].into_iter().enumerate() {
            ping.echo(sequence as u16, &Random::new(3).bytes(size))?;
        }
    }
    Ok(())
}
