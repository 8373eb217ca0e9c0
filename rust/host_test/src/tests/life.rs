//! Starting, ending, counters, and a stream that is cut.

use super::Run;
use crate::check::{until, Outcome, While, SOON};
use crate::ends::{Counters, Lab, Options, Rise, CLINIC_TUN, PLAIN, VAN_TUN};
use crate::ensure;
use crate::net::LINK;
use crate::packets::{lowered, OUT4, OUT6};
use crate::peer::{van_socket, Peer};
use crate::plan::datagram;
use crate::sys::{SIGINT, SIGTERM, SIGUSR1};
use crate::tap::{carry, passes, Tap};
use std::time::{Duration, Instant};

pub const TESTS: &[(&str, Run)] = &[
    ("life: the clinic is killed and started again", restart),
    ("life: the van is killed and started again", van_restarts),
    ("life: the pause before connecting again grows", pauses),
    ("life: the link is down for a while", link_down),
    ("life: the peer's socket is not there for a while", socket_gone),
    ("life: two on one device", two_on_one),
    ("life: SIGTERM and SIGINT", signals),
    ("life: SIGTERM before there is a peer", alone),
    ("life: SIGUSR1 and stats", counters),
    ("life: bad configurations", bad_configurations),
];

const QUICK: Duration = Duration::from_secs(2);

fn restart(lab: &Lab) -> Outcome {
    let (mut van, clinic) = lab.start_both(&PLAIN)?;
    let at_van = Tap::open(&lab.van, VAN_TUN)?;
    passes(&at_van, &Tap::open(&lab.clinic, CLINIC_TUN)?, OUT4)?;
    clinic.kill()?;
    van.log.wait("stream down", 1)?;
    let before = van.counters()?;
    ensure!(!before.up, "the van takes the stream to be up");
    for _ in 0..5 {
        at_van.send(&OUT4.udp((1, 2), b"nobody there")).during("sending")?;
    }
    until("count of the packets without a stream", SOON, || {
        Ok((van.counters()?.get("dropped no stream") >= before.get("dropped no stream") + 5).then_some(()))
    })?;
    van.counters()?.rose(&before, Rise::of("dropped no stream", 5))?;
    ensure!(van.is_alive(), "the van has ended");

    let clinic = lab.start_clinic(&PLAIN)?;
    van.log.wait("stream up", 2)?;
    clinic.log.wait("stream up", 1)?;
    let at_clinic = Tap::open(&lab.clinic, CLINIC_TUN)?;
    passes(&at_van, &at_clinic, OUT4)?;
    passes(&at_van, &at_clinic, OUT6)?;
    carry(&at_van, &at_clinic, &[OUT4.udp((1, 2), b"again"), OUT6.udp((1, 2), b"again")])?;
    carry(&at_clinic, &at_van, &[OUT4.back().udp((1, 2), b"again"), OUT6.back().udp((1, 2), b"again")])?;
    let connections = van.counters()?.get("connections");
    ensure!(connections == 2, "{connections} connections");
    Ok(())
}

fn van_restarts(lab: &Lab) -> Outcome {
    let (van, clinic) = lab.start_both(&PLAIN)?;
    van.kill()?;
    let _van = lab.start_van(&PLAIN)?;
    clinic.log.wait("stream up", 2)?;
    let (at_van, at_clinic) = (Tap::open(&lab.van, VAN_TUN)?, Tap::open(&lab.clinic, CLINIC_TUN)?);
    passes(&at_van, &at_clinic, OUT4)?;
    passes(&at_clinic, &at_van, OUT6.back())
}

/// A clinic that closes each connection at once.
fn pauses(lab: &Lab) -> Outcome {
    let listener = Peer::listen(lab)?;
    let _van = lab.start_van(&PLAIN)?;
    let mut times = Vec::new();
    for _ in 0..3 {
        drop(Peer::accept(&listener)?);
        times.push(Instant::now());
    }
    let (first, second) = (times[1] - times[0], times[2] - times[1]);
    ensure!(first >= Duration::from_millis(200), "connected again after {first:?}");
    ensure!(2 * second > 3 * first, "connected again after {first:?}, then after {second:?}");
    Ok(())
}

/// The stream outlives it: its bytes are only late.
fn link_down(lab: &Lab) -> Outcome {
    let (van, _clinic) = lab.start_both(&PLAIN)?;
    let (at_van, at_clinic) = (Tap::open(&lab.van, VAN_TUN)?, Tap::open(&lab.clinic, CLINIC_TUN)?);
    passes(&at_van, &at_clinic, OUT4)?;
    lab.van.ip(&format!("link set {LINK} down"))?;
    let before = van.counters()?;
    for _ in 0..5 {
        at_van.send(&OUT4.udp((1, 2), b"no link")).during("sending")?;
    }
    let count = || Result::<u64, String>::Ok(van.counters()?.get("dropped link") - before.get("dropped link"));
    until("count of the packets without a link", SOON, || Ok((count()? >= 5).then_some(())))?;
    ensure!(count()? == 5, "5 packets without a link are counted as {}", count()?);
    lab.van.ip(&format!("link set {LINK} up"))?;
    passes(&at_van, &at_clinic, OUT4)?;
    passes(&at_clinic, &at_van, OUT4.back())?;
    let counters = van.counters()?;
    ensure!(counters.up && counters.get("connections") == 1, "the stream was cut: {counters:?}");
    Ok(())
}

/// The peer's kernel says that nobody is there, which ends nothing.
fn socket_gone(lab: &Lab) -> Outcome {
    let clinic = lab.start_clinic(&PLAIN)?;
    let mut peer = Peer::greeted(lab)?;
    clinic.log.wait("stream up", 1)?;
    let tap = Tap::open(&lab.clinic, CLINIC_TUN)?;
    for count in 1..=3 {
        tap.send(&OUT4.back().udp((1, 2), b"nobody there")).during("sending")?;
        until("count of the packets that nobody took", SOON, || {
            Ok((clinic.counters()?.get("dropped link") >= count).then_some(()))
        })?;
    }
    let socket = van_socket(lab)?;
    let packet = OUT4.back().udp((1, 2), b"somebody there");
    tap.send(&packet).during("sending")?;
    let mut bytes = [0; 2048];
    let length = socket.recv(&mut bytes).during("waiting for a datagram")?;
    ensure!(bytes[..length] == datagram(&[], &lowered(&packet)), "another datagram came");
    ensure!(clinic.counters()?.up, "the stream is down");
    // It is also still read.
    peer.send(&[0x2A, 0])
}

fn two_on_one(lab: &Lab) -> Outcome {
    let (van, _clinic) = lab.start_both(&PLAIN)?;
    let config = lab.van_config(&PLAIN)?.replace(":7000 ", ":7002 ");
    let mut other = lab.launch(&lab.van, VAN_TUN, &config)?;
    let status = other.wait(QUICK)?;
    ensure!(status == 1 && other.log.count(VAN_TUN) > 0, "status {status}");
    ensure!(van.counters()?.up, "the first one's stream is down");
    Ok(())
}

fn signals(lab: &Lab) -> Outcome {
    for (first, second) in [(SIGTERM, SIGINT), (SIGINT, SIGTERM)] {
        let (mut van, mut clinic) = lab.start_both(&PLAIN)?;
        for (end, signal) in [(&mut van, first), (&mut clinic, second)] {
            end.signal(signal)?;
            let status = end.wait(QUICK)?;
            ensure!(status == 0, "status {status} by signal {signal}");
        }
        ensure!(!lab.van.has_device(VAN_TUN) && !lab.clinic.has_device(CLINIC_TUN), "a device is left");
    }
    Ok(())
}

fn alone(lab: &Lab) -> Outcome {
    let mut van = lab.start_van(&PLAIN)?;
    let mut clinic = lab.start_clinic(&Options { link6: true, ..PLAIN })?;
    for end in [&mut van, &mut clinic] {
        ensure!(!end.counters()?.up, "the stream is up without a peer");
        end.signal(SIGTERM)?;
        let status = end.wait(QUICK)?;
        ensure!(status == 0, "status {status}");
    }
    Ok(())
}

/// The counters that are always printed.
const NAMES: [&str; 13] = [
    "connections",
    "sent packets",
    "sent bytes",
    "sent short",
    "sent full",
    "received packets",
    "received bytes",
    "received short",
    "received full",
    "dropped no stream",
    "dropped link",
    "dropped device",
    "stream up",
];

fn counters(lab: &Lab) -> Outcome {
    let (van, _clinic) = lab.start_both(&PLAIN)?;
    let (at_van, at_clinic) = (Tap::open(&lab.van, VAN_TUN)?, Tap::open(&lab.clinic, CLINIC_TUN)?);
    passes(&at_van, &at_clinic, OUT4)?;
    at_van.send(&OUT4.hops(1).udp((1, 2), b"spent")).during("sending")?;
    carry(&at_van, &at_clinic, &[OUT4.udp((1, 2), b"good")])?;
    let done = van.stats()?;
    for name in NAMES {
        ensure!(done.out.lines().any(|line| line.starts_with(name)), "no {name} in {:?}", done.out);
    }
    ensure!(done.out.starts_with("stream up\n"), "the first line of {:?}", done.out);
    let counters = Counters::read(&done.out)?;
    ensure!(counters.get("refused sending 11") == 1, "{counters:?}");

    let start = van.log.all().len();
    van.signal(SIGUSR1)?;
    van.log.wait("dropped device", 1)?;
    let printed = van.log.all()[start..].join("\n");
    for line in done.out.lines() {
        ensure!(printed.contains(line), "no {line:?} in {printed:?}");
    }
    let nobody = lab.van.run(lab.program, &["stats", "nobody0"], SOON)?;
    ensure!(nobody.status == Some(1) && !nobody.err.is_empty(), "stats of no device: {:?}", nobody.status);
    let elsewhere = lab.clinic.run(lab.program, &["stats", VAN_TUN], SOON)?;
    ensure!(elsewhere.status == Some(1), "stats of a device in another namespace: {:?}", elsewhere.status);
    Ok(())
}

/// Each with the line that is at fault; 0 where a line is missing.
const BAD: &[(usize, &str)] = &[
    (1, "tunnel wv0\n"),
    (1, "tun\n"),
    (1, "tun a-name-that-is-too-long-for-a-device\n"),
    (2, "tun wv0\nmtu many\n"),
    (2, "tun wv0\nmtu 1501\n"),
    (3, "tun wv0\n\nudp 10.77.0.1:7000\n"),
    (2, "tun wv0\nudp 10.77.0.1:7000 [fd77::2]:7000\n"),
    (2, "tun wv0\nconnect 10.77.0.2\n"),
    (3, "# a comment\ntun wv0\nassign 192.0.2.3/24\n"),
    (2, "tun wv0\nassign 192.0.2.3/33\n"),
    (2, "tun wv0\nroute 198.51.100.9-198.51.100.2\n"),
    (2, "tun wv0\nroute 198.51.100.0/24 256\n"),
    (2, "tun wv0\nrequest 5\n"),
    (2, "tun wv0\napply all\n"),
    (2, "tun wv0\ntun wv1\n"),
    (2, "tun wv0\nplan none-such.plan\n"),
    (2, "tun wv0\nplan bad.plan\n"),
    (0, "tun wv0\n"),
    (0, "udp 10.77.0.1:7000 10.77.0.2:7000\nconnect 10.77.0.2:7001\n"),
    (0, ""),
];

fn bad_configurations(lab: &Lab) -> Outcome {
    lab.directory.write("bad.plan", b"VAN\x00\x02\x00")?;
    for (line, text) in BAD {
        let path = lab.directory.write("bad.conf", text.as_bytes())?;
        for command in ["check", "run"] {
            let done = lab.van.run(lab.program, &[command, &path.to_string_lossy()], QUICK)?;
            let place = if *line == 0 { "bad.conf".to_string() } else { format!("bad.conf:{line}: ") };
            ensure!(
                done.status == Some(2) && done.err.contains(&place),
                "{command} {text:?}: status {:?}, {:?}",
                done.status,
                done.err
            );
            ensure!(!lab.van.has_device("wv0"), "{command} {text:?} made a device");
        }
    }
    let good = lab.directory.write("good.conf", lab.van_config(&PLAIN)?.as_bytes())?;
    let done = lab.van.run(lab.program, &["check", &good.to_string_lossy()], QUICK)?;
    ensure!(done.status == Some(0), "check of a good configuration: {:?}, {}", done.status, done.err);
    ensure!(!lab.van.has_device(VAN_TUN), "check made a device");
    let done = lab.van.run(lab.program, &["check", "/none/such.conf"], QUICK)?;
    ensure!(matches!(done.status, Some(1 | 2)) && !done.err.is_empty(), "a file that is not there: {:?}", done.status);
    Ok(())
}
