//! The calls of Linux that the standard library does not have: all that is unsafe of this crate.
//!
//! Layouts and constants are those of the C library on x86-64 Linux, for which the static library is built.
#![allow(unsafe_code)]

use std::ffi::{c_int, c_uint, c_ulong, c_void};
use std::fs::{File, OpenOptions};
use std::io;
use std::net::{SocketAddr, TcpStream, UdpSocket};
use std::os::fd::{AsRawFd, FromRawFd, OwnedFd, RawFd};
use std::os::unix::fs::OpenOptionsExt;
use std::ptr::null_mut;

const O_NONBLOCK: c_int = 0o4000;

const AF_INET: c_int = 2;
const AF_INET6: c_int = 10;
const SOCK_STREAM: c_int = 1;
const SOCK_NONBLOCK: c_int = 0o4000;
const SOCK_CLOEXEC: c_int = 0o2000000;
const EINPROGRESS: c_int = 115;

const SOL_SOCKET: c_int = 1;
const SO_KEEPALIVE: c_int = 9;
const SO_RCVBUFFORCE: c_int = 33;
const IPPROTO_IP: c_int = 0;
const IP_MTU: c_int = 14;
const IPPROTO_IPV6: c_int = 41;
const IPV6_MTU: c_int = 24;
const IPPROTO_TCP: c_int = 6;
const TCP_KEEPIDLE: c_int = 4;
const TCP_KEEPINTVL: c_int = 5;
const TCP_KEEPCNT: c_int = 6;
const TCP_USER_TIMEOUT: c_int = 18;

const TUNSETIFF: c_ulong = 0x4004_54CA;
const SIOCGIFFLAGS: c_ulong = 0x8913;
const SIOCSIFFLAGS: c_ulong = 0x8914;
const SIOCSIFMTU: c_ulong = 0x8922;
const IFF_TUN: u16 = 0x0001;
const IFF_NO_PI: u16 = 0x1000;
const IFF_UP: u16 = 0x0001;

pub const SIGINT: c_int = 2;
pub const SIGUSR1: c_int = 10;
pub const SIGTERM: c_int = 15;
const SIG_BLOCK: c_int = 0;
const SFD_NONBLOCK: c_int = 0o4000;
const SFD_CLOEXEC: c_int = 0o2000000;

const POLLIN: i16 = 0x001;
const POLLOUT: i16 = 0x004;

#[repr(C)]
struct IfReq {
    name: [u8; 16],
    value: [u8; 24],
}

#[repr(C)]
struct SigSet([u64; 16]);

#[repr(C)]
#[derive(Clone, Copy)]
struct PollFd {
    fd: c_int,
    events: i16,
    revents: i16,
}

#[repr(C)]
#[derive(Clone, Copy)]
struct IoVec {
    base: *mut c_void,
    length: usize,
}

#[repr(C)]
#[derive(Clone, Copy)]
struct MsgHdr {
    name: *mut c_void,
    name_length: u32,
    vectors: *mut IoVec,
    vector_count: usize,
    control: *mut c_void,
    control_length: usize,
    flags: c_int,
}

#[repr(C)]
#[derive(Clone, Copy)]
struct MMsgHdr {
    header: MsgHdr,
    length: c_uint,
}

#[repr(C)]
struct SockAddrIn {
    family: u16,
    port: [u8; 2],
    address: [u8; 4],
    zero: [u8; 8],
}

#[repr(C)]
struct SockAddrIn6 {
    family: u16,
    port: [u8; 2],
    flow: u32,
    address: [u8; 16],
    scope: u32,
}

extern "C" {
    fn ioctl(fd: c_int, request: c_ulong, ...) -> c_int;
    fn poll(fds: *mut PollFd, count: c_ulong, timeout: c_int) -> c_int;
    fn socket(domain: c_int, kind: c_int, protocol: c_int) -> c_int;
    fn bind(fd: c_int, address: *const c_void, length: u32) -> c_int;
    fn connect(fd: c_int, address: *const c_void, length: u32) -> c_int;
    fn getsockopt(fd: c_int, level: c_int, name: c_int, value: *mut c_void, length: *mut u32) -> c_int;
    fn setsockopt(fd: c_int, level: c_int, name: c_int, value: *const c_void, length: u32) -> c_int;
    fn recvmmsg(fd: c_int, messages: *mut MMsgHdr, count: c_uint, flags: c_int, timeout: *mut c_void) -> c_int;
    fn sendmmsg(fd: c_int, messages: *mut MMsgHdr, count: c_uint, flags: c_int) -> c_int;
    fn sigemptyset(set: *mut SigSet) -> c_int;
    fn sigaddset(set: *mut SigSet, signal: c_int) -> c_int;
    fn pthread_sigmask(how: c_int, set: *const SigSet, old: *mut SigSet) -> c_int;
    fn signalfd(fd: c_int, set: *const SigSet, flags: c_int) -> c_int;
}

/// -1 is an error, whose number the system keeps.
fn answer(result: c_int) -> io::Result<c_int> {
    if result < 0 {
        Err(io::Error::last_os_error())
    } else {
        Ok(result)
    }
}

impl IfReq {
    fn new(name: &str) -> io::Result<IfReq> {
        let mut request = IfReq { name: [0; 16], value: [0; 24] };
        // The last byte stays 0.
        if name.len() >= request.name.len() {
            return Err(io::Error::other("the name of the device is too long"));
        }
        request.name[..name.len()].copy_from_slice(name.as_bytes());
        Ok(request)
    }

    fn with_flags(mut self, flags: u16) -> IfReq {
        self.value[..2].copy_from_slice(&flags.to_ne_bytes());
        self
    }

    fn flags(&self) -> u16 {
        u16::from_ne_bytes([self.value[0], self.value[1]])
    }

    fn ask(&mut self, fd: RawFd, request: c_ulong) -> io::Result<()> {
        // SAFETY: these requests read and write one ifreq, which is lent whole.
        answer(unsafe { ioctl(fd, request, self as *mut IfReq) }).map(|_| ())
    }
}

/// Opens a TUN device, which is made where it is missing, and goes when it is closed. A read is a packet, and so is a write.
pub fn open_tun(name: &str) -> io::Result<File> {
    let file = OpenOptions::new().read(true).write(true).custom_flags(O_NONBLOCK).open("/dev/net/tun");
    let file = file.map_err(|error| io::Error::other(format!("/dev/net/tun: {error}{}", as_root(&error))))?;
    match IfReq::new(name)?.with_flags(IFF_TUN | IFF_NO_PI).ask(file.as_raw_fd(), TUNSETIFF) {
        Err(error) if error.kind() == io::ErrorKind::InvalidInput => {
            Err(io::Error::other(format!("a device of another kind has that name? {error}")))
        }
        Err(error) => Err(io::Error::other(format!("{error}{}", as_root(&error)))),
        Ok(()) => Ok(file),
    }
}

fn as_root(error: &io::Error) -> &'static str {
    if error.kind() == io::ErrorKind::PermissionDenied {
        "; run it as root"
    } else {
        ""
    }
}

/// Sets the MTU of a device and brings it up; any socket will do.
pub fn bring_up(socket: &UdpSocket, name: &str, mtu: usize) -> io::Result<()> {
    // No address of its own in IPv6: nothing from it would ever be granted. A host without IPv6 has no such file.
    let _ = std::fs::write(format!("/proc/sys/net/ipv6/conf/{name}/addr_gen_mode"), "1");
    let mut request = IfReq::new(name)?;
    request.value[..4].copy_from_slice(&(mtu as c_int).to_ne_bytes());
    request.ask(socket.as_raw_fd(), SIOCSIFMTU)?;
    let mut request = IfReq::new(name)?;
    request.ask(socket.as_raw_fd(), SIOCGIFFLAGS)?;
    let flags = request.flags();
    IfReq::new(name)?.with_flags(flags | IFF_UP).ask(socket.as_raw_fd(), SIOCSIFFLAGS)
}

/// The MTU of the way from a connected socket to its peer.
pub fn path_mtu(socket: &UdpSocket, peer: SocketAddr) -> io::Result<usize> {
    let (level, name) = if peer.is_ipv4() { (IPPROTO_IP, IP_MTU) } else { (IPPROTO_IPV6, IPV6_MTU) };
    let (mut value, mut length): (c_int, u32) = (0, size_of::<c_int>() as u32);
    // SAFETY: `value` has as many bytes as `length` says.
    answer(unsafe { getsockopt(socket.as_raw_fd(), level, name, (&raw mut value).cast(), &mut length) })?;
    usize::try_from(value).map_err(io::Error::other)
}

fn set(fd: RawFd, level: c_int, name: c_int, value: c_int) -> io::Result<()> {
    let length = size_of::<c_int>() as u32;
    // SAFETY: `value` has as many bytes as `length` says.
    answer(unsafe { setsockopt(fd, level, name, (&raw const value).cast(), length) }).map(|_| ())
}

/// Room for bursts that arrive, in bytes, beyond what is set for every process; without the right to it, as it was.
pub fn widen_arrivals(socket: &UdpSocket, bytes: usize) {
    let _ = set(socket.as_raw_fd(), SOL_SOCKET, SO_RCVBUFFORCE, bytes as c_int);
}

/// A peer that is gone without a word is noticed after some `seconds`, whether bytes wait for it or not.
pub fn notice_silence(stream: &TcpStream, seconds: u32) -> io::Result<()> {
    let fd = stream.as_raw_fd();
    set(fd, SOL_SOCKET, SO_KEEPALIVE, 1)?;
    set(fd, IPPROTO_TCP, TCP_KEEPIDLE, (seconds / 2) as c_int)?;
    set(fd, IPPROTO_TCP, TCP_KEEPINTVL, (seconds / 6) as c_int)?;
    set(fd, IPPROTO_TCP, TCP_KEEPCNT, 3)?;
    set(fd, IPPROTO_TCP, TCP_USER_TIMEOUT, (1000 * seconds) as c_int)
}

/// Hands an address to a call in the system's form, with its size.
fn lend(address: SocketAddr, call: impl FnOnce(*const c_void, u32) -> c_int) -> io::Result<c_int> {
    let port = address.port().to_be_bytes();
    answer(match address {
        SocketAddr::V4(v4) => {
            let address = SockAddrIn { family: AF_INET as u16, port, address: v4.ip().octets(), zero: [0; 8] };
            call((&raw const address).cast(), size_of::<SockAddrIn>() as u32)
        }
        SocketAddr::V6(v6) => {
            let (flow, scope) = (v6.flowinfo(), v6.scope_id());
            let address = SockAddrIn6 { family: AF_INET6 as u16, port, flow, address: v6.ip().octets(), scope };
            call((&raw const address).cast(), size_of::<SockAddrIn6>() as u32)
        }
    })
}

/// Starts to connect, from a local address where one is named: the stream is writable once it is connected, or failed (`take_error`).
pub fn start_connect(local: Option<SocketAddr>, peer: SocketAddr) -> io::Result<TcpStream> {
    let family = if peer.is_ipv4() { AF_INET } else { AF_INET6 };
    // SAFETY: takes no pointer.
    let fd = answer(unsafe { socket(family, SOCK_STREAM | SOCK_NONBLOCK | SOCK_CLOEXEC, 0) })?;
    // SAFETY: the descriptor is new and nobody else's.
    let stream = TcpStream::from(unsafe { OwnedFd::from_raw_fd(fd) });
    if let Some(local) = local {
        // SAFETY: the address is lent with its size.
        lend(local, |address, length| unsafe { bind(fd, address, length) })?;
    }
    // SAFETY: the address is lent with its size.
    match lend(peer, |address, length| unsafe { connect(fd, address, length) }) {
        Err(error) if error.raw_os_error() != Some(EINPROGRESS) => Err(error),
        _ => Ok(stream),
    }
}

/// SIGTERM, SIGINT and SIGUSR1 no longer interrupt: they are read from this file (`signal`).
pub fn signals() -> io::Result<File> {
    let mut signals = SigSet([0; 16]);
    // SAFETY: the set is lent whole to each call, and the descriptor is new and nobody else's.
    unsafe {
        sigemptyset(&mut signals);
        for signal in [SIGTERM, SIGINT, SIGUSR1] {
            sigaddset(&mut signals, signal);
        }
        pthread_sigmask(SIG_BLOCK, &signals, null_mut());
        let fd = answer(signalfd(-1, &signals, SFD_NONBLOCK | SFD_CLOEXEC))?;
        Ok(File::from_raw_fd(fd))
    }
}

/// The next signal of `signals`, if any.
pub fn signal(mut signals: &File) -> Option<c_int> {
    let mut information = [0; 128];
    match io::Read::read(&mut signals, &mut information) {
        Ok(128) => Some(c_int::from_ne_bytes([information[0], information[1], information[2], information[3]])),
        _ => None,
    }
}

/// What is waited for: files that can be read or written.
#[derive(Default)]
pub struct Watch(Vec<PollFd>);

impl Watch {
    pub fn clear(&mut self) {
        self.0.clear();
    }

    /// Watches a file, and answers its place.
    pub fn add(&mut self, file: &impl AsRawFd, read: bool, write: bool) -> usize {
        let events = if read { POLLIN } else { 0 } | if write { POLLOUT } else { 0 };
        self.0.push(PollFd { fd: file.as_raw_fd(), events, revents: 0 });
        self.0.len() - 1
    }

    /// Waits until something is ready, or for some milliseconds at most; -1 is without end.
    pub fn wait(&mut self, milliseconds: c_int) -> io::Result<()> {
        // SAFETY: the entries are lent with their count.
        match answer(unsafe { poll(self.0.as_mut_ptr(), self.0.len() as c_ulong, milliseconds) }) {
            Err(error) if error.kind() != io::ErrorKind::Interrupted => Err(error),
            Err(_) => {
                self.0.iter_mut().for_each(|file| file.revents = 0);
                Ok(())
            }
            Ok(_) => Ok(()),
        }
    }

    /// Whether anything is to be done with a file: to read, to write, or to learn its error.
    pub fn ready(&self, place: usize) -> bool {
        self.0[place].revents != 0
    }
}

/// Whether a file takes bytes now, or at once says that it takes none.
pub fn takes_bytes(file: &impl AsRawFd) -> bool {
    let mut watch = Watch::default();
    let place = watch.add(file, false, true);
    watch.wait(0).is_ok() && watch.ready(place)
}

/// The datagrams of one call, at most.
pub const BATCH: usize = 64;

/// The bytes that are taken of a datagram. A longer one is cut to this, which is still too long for the box.
pub const ROOM: usize = 2048;

/// Datagrams that are received by one call, or gathered and sent by one.
pub struct Batch {
    bytes: Box<[u8]>,
    lengths: Box<[usize]>,
    vectors: Box<[IoVec]>,
    headers: Box<[MMsgHdr]>,
    /// Those from `from` on, below `used`, are not sent yet.
    from: usize,
    used: usize,
}

impl Default for Batch {
    fn default() -> Self {
        let header = MsgHdr {
            name: null_mut(),
            name_length: 0,
            vectors: null_mut(),
            vector_count: 1,
            control: null_mut(),
            control_length: 0,
            flags: 0,
        };
        Batch {
            bytes: vec![0; BATCH * ROOM].into(),
            lengths: vec![0; BATCH].into(),
            vectors: vec![IoVec { base: null_mut(), length: 0 }; BATCH].into(),
            headers: vec![MMsgHdr { header, length: 0 }; BATCH].into(),
            from: 0,
            used: 0,
        }
    }
}

impl Batch {
    /// Takes the datagrams that have arrived, as many as fit; what the batch held is gone.
    pub fn receive(&mut self, socket: &UdpSocket) -> io::Result<()> {
        (self.from, self.used) = (0, 0);
        self.lengths.fill(ROOM);
        let headers = self.headers(0, BATCH);
        // SAFETY: each header names one slot of `bytes` with its length; all are borrowed for the whole call.
        let count = answer(unsafe { recvmmsg(socket.as_raw_fd(), headers, BATCH as c_uint, 0, null_mut()) })?;
        self.used = count as usize;
        for (length, header) in self.lengths.iter_mut().zip(&self.headers).take(self.used) {
            *length = header.length as usize;
        }
        Ok(())
    }

    /// How many datagrams the batch holds, sent or not.
    pub fn len(&self) -> usize {
        self.used
    }

    pub fn is_empty(&self) -> bool {
        self.used == 0
    }

    pub fn datagram(&self, i: usize) -> &[u8] {
        &self.bytes[i * ROOM..][..self.lengths[i]]
    }

    /// Room for one more datagram, which `push` then takes; `None` where the batch is full.
    pub fn slot(&mut self) -> Option<&mut [u8]> {
        self.bytes.chunks_exact_mut(ROOM).nth(self.used)
    }

    pub fn push(&mut self, length: usize) {
        self.lengths[self.used] = length;
        self.used += 1;
    }

    /// Whether datagrams wait to be sent.
    pub fn waits(&self) -> bool {
        self.from < self.used
    }

    /// Sends those that wait; with an error, those behind the first that was not taken still wait.
    pub fn send(&mut self, socket: &UdpSocket) -> io::Result<()> {
        while self.waits() {
            let count = (self.used - self.from) as c_uint;
            let headers = self.headers(self.from, self.used);
            // SAFETY: each header names one slot of `bytes` with its length; all are borrowed for the whole call.
            self.from += answer(unsafe { sendmmsg(socket.as_raw_fd(), headers, count, 0) })? as usize;
        }
        (self.from, self.used) = (0, 0);
        Ok(())
    }

    /// Gives up the first that waits.
    pub fn skip(&mut self) {
        self.from += 1;
        if !self.waits() {
            (self.from, self.used) = (0, 0);
        }
    }

    /// The headers of the slots from `from` on, below `to`.
    fn headers(&mut self, from: usize, to: usize) -> *mut MMsgHdr {
        let slots = self.bytes.chunks_exact_mut(ROOM).zip(&self.lengths);
        for (vector, (slot, length)) in self.vectors.iter_mut().zip(slots).take(to).skip(from) {
            *vector = IoVec { base: slot.as_mut_ptr().cast(), length: *length };
        }
        for (header, vector) in self.headers.iter_mut().zip(&mut self.vectors).take(to).skip(from) {
            header.header.vectors = vector;
        }
        self.headers[from..].as_mut_ptr()
    }
}

#[cfg(test)]
mod tests {
    use super::*;

    #[test]
    fn a_stream_comes_from_the_address_that_is_named() {
        let listener = std::net::TcpListener::bind("127.0.0.1:0").unwrap();
        let local: SocketAddr = "127.0.0.5:0".parse().unwrap();
        let stream = start_connect(Some(local), listener.local_addr().unwrap()).unwrap();
        let (_, from) = listener.accept().unwrap();
        assert_eq!((from.ip(), from), (local.ip(), stream.local_addr().unwrap()));
    }
}
