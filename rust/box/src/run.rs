//! `whapirohi run`: packets between a TUN device and a UDP socket, capsules over a TCP stream, until a signal ends it.
//!
//! One thread waits for all files. Packets are carried while a stream is up; when it breaks, all grants are gone, and both ends begin again
//! from a fresh state on the next stream.

use crate::apply::{self, Wanted};
use crate::config::{Apply, Config, Stream, MTU_LEAST_IPV6};
use crate::end::{End, Event};
use crate::greeting;
use crate::log::{put, say, Limit};
use crate::stream::{Connection, Greeting};
use crate::sys::{self, Batch, Watch, BATCH, ROOM};
use crate::text;
use std::fs::File;
use std::io::{ErrorKind, Read, Write};
use std::net::{IpAddr, SocketAddr, TcpListener, TcpStream, UdpSocket};
use std::os::linux::net::SocketAddrExt;
use std::os::unix::net::{SocketAddr as UnixAddress, UnixListener, UnixStream};
use std::time::{Duration, Instant};
use whapirohi_tunnel::{reason, templates, write_number, Entry, Range, Refusal, State, MAX_PACKET, NUMBER_ROOM};

/// The pauses before the stream is connected again: each twice the one before.
const FIRST_PAUSE: Duration = Duration::from_secs(1);
const LONGEST_PAUSE: Duration = Duration::from_secs(30);

/// A stream that was up this long begins with the first pause again.
const SETTLED: Duration = Duration::from_secs(60);

/// How long connecting and the peer's first line may take.
const PATIENCE: Duration = Duration::from_secs(10);

/// A peer that does not answer for this many seconds is gone.
const SILENCE: u32 = 30;

/// Room for bursts that arrive. What leaves has no more room than usual: on a slow link the stream waits behind it, and a long queue would pass
/// for silence.
const ARRIVALS: usize = 4 << 20;

/// More datagrams than a socket's buffer holds before it is widened.
const UNCONNECTED: usize = 1 << 16;

/// The most lines a second about lists and about connections that are not the peer's, which may come in any number.
const NOTED_LINES: u32 = 10;

/// The most entries or ranges in a line of the log.
const TOLD: usize = 8;

/// Headers around a datagram: IPv4 or IPv6, and UDP.
const OUTER4: usize = 20 + 8;
const OUTER6: usize = 40 + 8;

/// How a run ended without a failure.
#[derive(Clone, Copy, Debug, PartialEq, Eq)]
pub enum Ending {
    Signal,
    PlansDiffer,
}

/// Where the stream stands.
enum Link {
    /// None: a listening end waits for its peer, a connecting one for the peer's first line.
    Down,
    /// A connecting end waits until then.
    Paused(Instant),
    Connecting(TcpStream, Instant),
    /// Up, since then.
    Up(Box<Connection>, Instant),
}

struct Host {
    config: Config,
    end: End,
    signals: File,
    tun: File,
    udp: Option<UdpSocket>,
    control: UnixListener,
    listener: Option<TcpListener>,
    link: Link,
    /// A connection whose first line is awaited. A stream that is up stays so until the line is there.
    newcomer: Option<Box<Connection>>,
    pause: Duration,
    /// Datagrams to the link and from it.
    out: Batch,
    arrived: Batch,
    packet: Box<[u8]>,
    device: Device,
    /// What was noted for the log, until it is written.
    log: Limit,
}

/// What is put on the device: what the peer gave last, also while the stream is down.
#[derive(Default)]
struct Device {
    addresses: Vec<Entry>,
    routes: Vec<Range>,
    applied: Wanted,
}

/// Runs an end until a signal, different plans, or a failure.
pub fn run(config: Config) -> Result<Ending, String> {
    let mut host = Host::open(config)?;
    let mut watch = Watch::default();
    loop {
        if let Some(ending) = host.turn(&mut watch)? {
            host.write_log(Instant::now());
            host.clear_device();
            return Ok(ending);
        }
    }
}

/// The counters of the end that runs on a device, in this network namespace.
pub fn counters(device: &str) -> Result<String, String> {
    let mut text = String::new();
    let result = control_address(device).and_then(|address| UnixStream::connect_addr(&address));
    result
        .and_then(|mut stream| stream.read_to_string(&mut text))
        .map_err(|error| format!("no box runs on {device} in this network namespace: {error}"))?;
    Ok(text)
}

/// A name that goes with its process, a namespace each, as devices do.
fn control_address(device: &str) -> std::io::Result<UnixAddress> {
    UnixAddress::from_abstract_name(format!("whapirohi.{device}"))
}

fn open_udp(config: &Config) -> Result<UdpSocket, String> {
    let failed = |what: String| move |error| format!("udp: cannot {what}: {error}");
    let udp = UdpSocket::bind(config.local).map_err(failed(format!("bind {}", config.local)))?;
    udp.connect(config.peer).map_err(failed(format!("reach {}", config.peer)))?;
    udp.set_nonblocking(true).map_err(failed("be set up".to_string()))?;
    // Until it was connected, the socket took datagrams from anyone: as many as its buffer holds.
    for _ in 0..UNCONNECTED {
        if udp.recv(&mut [0]).is_err_and(|error| error.kind() == ErrorKind::WouldBlock) {
            break;
        }
    }
    sys::widen_arrivals(&udp, ARRIVALS);
    Ok(udp)
}

/// Where the stream comes from: the address of the datagrams, by which a listening peer knows this end; any port.
fn stream_source(config: &Config, peer: SocketAddr) -> Option<SocketAddr> {
    let mut local = config.local;
    local.set_port(0);
    Some(local).filter(|local| local.is_ipv4() == peer.is_ipv4())
}

/// The first of a list, for a line of the log.
fn told(list: impl ExactSizeIterator<Item = String>) -> String {
    let more = list.len().saturating_sub(TOLD);
    match list.take(TOLD).collect::<Vec<_>>().join(", ") {
        none if none.is_empty() => "nothing".to_string(),
        all if more == 0 => all,
        first => format!("{first} and {more} more"),
    }
}

/// The longest packets whose datagrams the link takes whole: its MTU, less the outer headers and the longest Context ID.
fn fitting_mtu(config: &Config, udp: &UdpSocket) -> Result<usize, String> {
    let link = sys::path_mtu(udp, config.peer).map_err(|error| format!("udp: cannot learn the link's MTU: {error}"))?;
    let outer = if config.peer.is_ipv4() { OUTER4 } else { OUTER6 };
    Ok(link.saturating_sub(outer + longest_id(config)).min(MAX_PACKET))
}

/// The bytes of the longest Context ID; that of a full datagram takes 1.
fn longest_id(config: &Config) -> usize {
    let mut state = State::new();
    if let Some((_, file)) = &config.plan {
        state.load_plan(file);
    }
    let size = |id| write_number(id, &mut [0; NUMBER_ROOM]).length as usize;
    templates(&state.plan).unwrap_or_default().iter().map(|template| size(template.context_id)).fold(1, usize::max)
}

impl Host {
    fn open(config: Config) -> Result<Host, String> {
        let signals = sys::signals().map_err(|error| format!("cannot take signals: {error}"))?;
        let end = End::new(&config).map_err(|refusal| format!("plan: {refusal}"))?;
        let control = control_address(&config.tun)
            .and_then(|address| UnixListener::bind_addr(&address))
            .map_err(|error| format!("tun {}: another box runs on it? {error}", config.tun))?;
        let udp = open_udp(&config)?;
        let fitting = fitting_mtu(&config, &udp)?;
        let mtu = config.mtu.unwrap_or(fitting);
        let listener = match config.stream {
            Stream::Connect(_) => None,
            Stream::Listen(address) => {
                Some(TcpListener::bind(address).map_err(|error| format!("listen {address}: {error}"))?)
            }
        };
        let tun = sys::open_tun(&config.tun).map_err(|error| format!("tun {}: {error}", config.tun))?;
        sys::bring_up(&udp, &config.tun, mtu)
            .map_err(|error| format!("tun {}: cannot bring it up with an MTU of {mtu}: {error}", config.tun))?;
        let set_up = |result: std::io::Result<()>| result.map_err(|error| format!("cannot set up a socket: {error}"));
        set_up(control.set_nonblocking(true))?;
        if let Some(listener) = &listener {
            set_up(listener.set_nonblocking(true))?;
        }
        say(format_args!("tun {} mtu {mtu}, udp {} to {}", config.tun, config.local, config.peer));
        if mtu > fitting {
            say(format_args!(
                "packets over {fitting} bytes take two datagrams of the link: an mtu of {fitting} is better"
            ));
        }
        if mtu < MTU_LEAST_IPV6 {
            say(format_args!("the device carries no IPv6, which needs an mtu of {MTU_LEAST_IPV6}"));
        }
        if let Some(doubt) = config.doubt() {
            say(doubt);
        }
        if config.apply == Apply::None {
            say("apply none: the ip commands for what comes are printed, and none is run");
        }
        let link = match config.stream {
            Stream::Listen(address) => {
                say(format_args!("listening on {address}"));
                Link::Down
            }
            Stream::Connect(_) => Link::Paused(Instant::now()),
        };
        Ok(Host {
            config,
            end,
            signals,
            tun,
            udp: Some(udp),
            control,
            listener,
            link,
            newcomer: None,
            pause: FIRST_PAUSE,
            out: Batch::default(),
            arrived: Batch::default(),
            packet: vec![0; ROOM].into(),
            device: Device::default(),
            log: Limit::new(Instant::now(), NOTED_LINES, "lists, or connections that are not the peer's"),
        })
    }

    /// Waits for one thing or more, and does what is to be done.
    fn turn(&mut self, watch: &mut Watch) -> Result<Option<Ending>, String> {
        watch.clear();
        let signals = watch.add(&self.signals, true, false);
        let control = watch.add(&self.control, true, false);
        // While datagrams wait for the link, the device's packets wait in its queue.
        let tun = (!self.out.waits()).then(|| watch.add(&self.tun, true, false));
        let udp = self.udp.as_ref().map(|udp| watch.add(udp, true, self.out.waits()));
        let listener = self.listener.as_ref().map(|listener| watch.add(listener, true, false));
        let stream = match &self.link {
            Link::Connecting(stream, _) => Some(watch.add(stream, false, true)),
            Link::Up(stream, _) => Some(watch.add(&stream.stream, stream.wants_more(), stream.waits())),
            Link::Down | Link::Paused(_) => None,
        };
        let newcomer = self.newcomer.as_ref().map(|newcomer| watch.add(&newcomer.stream, true, newcomer.waits()));
        watch.wait(self.wait()).map_err(|error| format!("cannot wait: {error}"))?;
        let ready = |place: Option<usize>| place.is_some_and(|place| watch.ready(place));

        if ready(tun) {
            self.carry_out()?;
        }
        if ready(udp) {
            self.carry_in();
        }
        if ready(Some(signals)) && self.signal() {
            return Ok(Some(Ending::Signal));
        }
        if ready(Some(control)) {
            self.answer_control();
        }
        if ready(stream) {
            self.serve_stream()?;
        }
        if ready(newcomer) && self.serve_newcomer()? {
            return Ok(Some(Ending::PlansDiffer));
        }
        if ready(listener) {
            self.accept()?;
        }
        self.due(Instant::now())?;
        Ok(None)
    }

    /// How long to wait, in milliseconds: until the next thing is due.
    fn wait(&self) -> i32 {
        let link = match &self.link {
            Link::Paused(until) | Link::Connecting(_, until) => Some(*until),
            Link::Down | Link::Up(..) => None,
        };
        let newcomer = self.newcomer.as_ref().map(|newcomer| newcomer.deadline);
        match [link, newcomer, self.end.log.due(), self.log.due()].into_iter().flatten().min() {
            None => -1,
            // A millisecond more, so as not to wake before it.
            Some(until) => until.saturating_duration_since(Instant::now()).as_millis() as i32 + 1,
        }
    }

    /// Packets of the tablets, to the link.
    fn carry_out(&mut self) -> Result<(), String> {
        for _ in 0..BATCH {
            let Some(slot) = self.out.slot() else { break };
            match (&self.tun).read(&mut self.packet) {
                Ok(length) => {
                    if let Some(length) = self.end.send(&self.packet[..length], slot) {
                        self.out.push(length);
                    }
                }
                Err(error) if error.kind() == ErrorKind::WouldBlock => break,
                Err(error) if error.kind() == ErrorKind::Interrupted => {}
                Err(error) => return Err(format!("tun {}: {error}", self.config.tun)),
            }
        }
        self.send_waiting();
        Ok(())
    }

    /// Sends what waits for the link. What the link refuses is dropped; what it has no room for goes on waiting.
    fn send_waiting(&mut self) {
        let Some(udp) = &self.udp else { return };
        while let Err(error) = self.out.send(udp) {
            match error.kind() {
                ErrorKind::WouldBlock => return,
                ErrorKind::Interrupted => {}
                // The peer's host said of an earlier datagram that nobody takes it; this one was not tried.
                ErrorKind::ConnectionRefused => self.end.counters.link += 1,
                _ => {
                    self.end.counters.link += 1;
                    self.out.skip();
                }
            }
        }
    }

    /// Datagrams of the link, to the device.
    fn carry_in(&mut self) {
        self.send_waiting();
        let Some(udp) = &self.udp else { return };
        match self.arrived.receive(udp) {
            Ok(()) => {}
            Err(error) if [ErrorKind::WouldBlock, ErrorKind::Interrupted].contains(&error.kind()) => return,
            // The peer's host said that a datagram did not get through.
            Err(_) => {
                self.end.counters.link += 1;
                return;
            }
        }
        for i in 0..self.arrived.len() {
            if let Some(length) = self.end.receive(self.arrived.datagram(i), &mut self.packet) {
                if (&self.tun).write(&self.packet[..length]).is_err() {
                    self.end.counters.device += 1;
                }
            }
        }
    }

    /// Whether a signal ends the run.
    fn signal(&mut self) -> bool {
        while let Some(signal) = sys::signal(&self.signals) {
            if signal == sys::SIGUSR1 {
                say(self.end.counters.to_string().trim_end());
            } else {
                say(format_args!("ended by {}", if signal == sys::SIGINT { "SIGINT" } else { "SIGTERM" }));
                return true;
            }
        }
        false
    }

    fn answer_control(&mut self) {
        if let Ok((mut stream, _)) = self.control.accept() {
            // The text is far smaller than a socket's buffer: a reader that does not read holds nothing up.
            let _ = stream.set_nonblocking(true);
            let _ = stream.write_all(self.end.counters.to_string().as_bytes());
        }
    }

    /// A connection of the peer.
    fn accept(&mut self) -> Result<(), String> {
        let Some(Ok((stream, from))) = self.listener.as_ref().map(TcpListener::accept) else { return Ok(()) };
        if from.ip().to_canonical() != self.config.peer.ip().to_canonical() {
            let peer = self.config.peer.ip();
            self.note(format_args!("a connection from {from}, which is not the peer {peer}, is closed"));
            return Ok(());
        }
        self.greet(stream, from)
    }

    /// A connection stands: the first line goes out, and the peer's is awaited.
    fn greet(&mut self, stream: TcpStream, peer: SocketAddr) -> Result<(), String> {
        let set_up = stream
            .set_nonblocking(true)
            .and_then(|()| stream.set_nodelay(true))
            .and_then(|()| sys::notice_silence(&stream, SILENCE));
        if let Err(error) = set_up {
            return self.turn_away(format_args!("{error}"));
        }
        let line = greeting::line(self.end.plan());
        self.newcomer = Some(Box::new(Connection::new(stream, &line, Instant::now() + PATIENCE)));
        say(format_args!("connected with {peer}"));
        Ok(())
    }

    /// The first line of a connection may be there. Whether the plans differ.
    fn serve_newcomer(&mut self) -> Result<bool, String> {
        let Some(mut newcomer) = self.newcomer.take() else { return Ok(false) };
        match newcomer.first_line() {
            Ok(None) => self.newcomer = Some(newcomer),
            Ok(Some(Greeting { plan, rest })) if plan == self.end.plan() => {
                self.up(newcomer)?;
                self.feed(&rest)?;
            }
            Ok(Some(Greeting { plan, .. })) => {
                self.plans_differ(&plan);
                newcomer.finish();
                return Ok(true);
            }
            Err(why) => self.turn_away(format_args!("{why}"))?,
        }
        Ok(false)
    }

    /// A connection does not become the stream.
    fn turn_away(&mut self, why: std::fmt::Arguments) -> Result<(), String> {
        match self.link {
            Link::Up(..) => {
                self.note(format_args!("the stream stays up; a newer connection is closed: {why}"));
                Ok(())
            }
            _ => self.down(why),
        }
    }

    /// The stream can be read or written, or is broken.
    fn serve_stream(&mut self) -> Result<(), String> {
        match (std::mem::replace(&mut self.link, Link::Down), self.config.stream) {
            (Link::Connecting(stream, _), Stream::Connect(peer)) => {
                match stream.take_error().unwrap_or_else(Some).or(stream.peer_addr().err()) {
                    None => self.greet(stream, peer)?,
                    Some(error) => self.paused(format_args!("cannot connect to {peer}: {error}")),
                }
            }
            (Link::Up(mut stream, since), _) => {
                let capsules = stream.capsules();
                self.link = Link::Up(stream, since);
                match capsules {
                    Ok(bytes) => self.feed(&bytes)?,
                    Err(why) => {
                        let middle = if self.end.capsule_is_open() { ", in the middle of a capsule" } else { "" };
                        self.down(format_args!("{why}{middle}"))?;
                    }
                }
            }
            (other, _) => self.link = other,
        }
        Ok(())
    }

    /// The peer's plan is ours: from a fresh state the capsules go out, and packets are carried. A newer stream takes the place of an older
    /// one, whose peer may be gone without a word.
    fn up(&mut self, mut stream: Box<Connection>) -> Result<(), String> {
        if let Link::Up(..) = self.link {
            self.down(format_args!("the peer connected again"))?;
        }
        self.end.start().map_err(|refusal| format!("plan: {refusal}"))?;
        // The way to the peer may be another than before: its source address is chosen again.
        (self.udp, self.out) = (None, Batch::default());
        match open_udp(&self.config) {
            Ok(udp) => self.udp = Some(udp),
            Err(error) => return self.down(format_args!("{error}")),
        }
        let opening = self.end.opening().map_err(|refusal| format!("the lists: {refusal}"))?;
        stream.send(&opening);
        self.link = Link::Up(stream, Instant::now());
        self.end.counters.up = true;
        self.end.counters.connections += 1;
        say("stream up");
        if self.config.apply == Apply::Ip {
            // All is put again, which does no harm: what stood there may be gone with a device that was down.
            self.device.applied = Wanted::default();
        }
        self.put_on_device();
        Ok(())
    }

    fn feed(&mut self, bytes: &[u8]) -> Result<(), String> {
        let Link::Up(stream, _) = &mut self.link else { return Ok(()) };
        let (mut tun, device) = (&self.tun, &mut self.device);
        let (mut lost, mut assigned, mut advertised) = (0, false, false);
        let result = self.end.feed(bytes, |event| match event {
            Event::Packet(packet) => lost += u64::from(tun.write(packet).is_err()),
            Event::Addresses(list) => (device.addresses, assigned) = (list, true),
            Event::Routes(list) => (device.routes, advertised) = (list, true),
            Event::Capsule(bytes) => stream.send(bytes),
        });
        self.end.counters.device += lost;
        if assigned {
            let line = told(self.device.addresses.iter().map(text::entry));
            self.note(format_args!("assigned {line}"));
        }
        if advertised {
            let line = told(self.device.routes.iter().map(text::range));
            self.note(format_args!("may reach {line}"));
        }
        if assigned || advertised {
            self.put_on_device();
        }
        match result {
            Ok(()) => Ok(()),
            Err(Refusal(number)) => self.down(format_args!("stream refused {number} {}", reason(number))),
        }
    }

    /// Takes off the device what was put there: it may be one that stays.
    fn clear_device(&mut self) {
        if self.config.apply == Apply::Ip {
            self.change_device(Wanted::default());
        }
    }

    /// What the peer gave is put on the device, or said.
    fn put_on_device(&mut self) {
        let mut outer: Vec<IpAddr> = vec![self.config.peer.ip()];
        if let Stream::Connect(peer) = self.config.stream {
            outer.push(peer.ip());
        }
        self.change_device(apply::wanted(&self.device.addresses, &self.device.routes, &self.config.assign, &outer));
    }

    fn change_device(&mut self, wanted: Wanted) {
        let commands = apply::commands(&self.config.tun, &self.device.applied, &wanted);
        match self.config.apply {
            Apply::None => {
                let text: String = commands.iter().map(|command| command.join(" ") + "\n").collect();
                match put(&mut std::io::stdout(), &text) {
                    0 => {}
                    lost => say(format_args!("{lost} ip commands were lost: standard output does not take them")),
                }
            }
            Apply::Ip => apply::run(&commands).iter().for_each(say),
        }
        self.device.applied = wanted;
    }

    /// The stream is over: nothing is granted any more.
    fn down(&mut self, why: std::fmt::Arguments) -> Result<(), String> {
        say(format_args!("stream down: {why}"));
        if matches!(self.link, Link::Up(_, since) if since.elapsed() >= SETTLED) {
            self.pause = FIRST_PAUSE;
        }
        self.end.start().map_err(|refusal| format!("plan: {refusal}"))?;
        match self.config.stream {
            Stream::Listen(_) => self.link = Link::Down,
            Stream::Connect(_) => self.wait_longer(),
        }
        Ok(())
    }

    fn paused(&mut self, why: std::fmt::Arguments) {
        say(why);
        self.wait_longer();
    }

    fn wait_longer(&mut self) {
        say(format_args!("connecting again in {} s", self.pause.as_secs()));
        self.link = Link::Paused(Instant::now() + self.pause);
        self.pause = LONGEST_PAUSE.min(2 * self.pause);
    }

    /// What time brings: a new attempt to connect, the end of patience, a count of refused packets.
    fn due(&mut self, now: Instant) -> Result<(), String> {
        self.write_log(now);
        match (&self.link, self.config.stream) {
            (Link::Paused(until), Stream::Connect(peer)) if now >= *until => {
                match sys::start_connect(stream_source(&self.config, peer), peer) {
                    Ok(stream) => self.link = Link::Connecting(stream, now + PATIENCE),
                    Err(error) => self.paused(format_args!("cannot connect to {peer}: {error}")),
                }
            }
            (Link::Connecting(_, until), Stream::Connect(peer)) if now >= *until => {
                self.paused(format_args!("cannot connect to {peer}: no answer"));
            }
            _ => {}
        }
        match self.newcomer.take_if(|newcomer| now >= newcomer.deadline) {
            Some(_) => self.turn_away(format_args!("the peer's first line did not come")),
            None => Ok(()),
        }
    }

    /// A line of the log, of which only some a second are written, at the end of this turn.
    fn note(&mut self, line: std::fmt::Arguments) {
        self.log.admit(Instant::now(), || line.to_string());
    }

    fn write_log(&mut self, now: Instant) {
        self.log.take(now).iter().for_each(say);
        self.end.log.take(now).iter().for_each(say);
    }

    fn plans_differ(&mut self, theirs: &[u8]) {
        self.write_log(Instant::now());
        say("the plans of the two ends differ: both need the same plan file");
        for (whose, plan) in [("this end's", self.end.plan()), ("the peer's", theirs)] {
            match crate::plan_text::show(plan) {
                Ok(text) => say(format_args!("{whose} plan:\n{}", text.trim_end())),
                Err(refusal) => say(format_args!("{whose} plan: {refusal}")),
            }
        }
    }
}
