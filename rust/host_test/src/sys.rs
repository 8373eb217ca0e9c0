//! The calls of the C library that std does not have; all that is unsafe is here.
#![allow(unsafe_code)]

use std::ffi::{c_char, c_int, c_uint, c_void, CString};
use std::fs::File;
use std::io;
use std::net::UdpSocket;
use std::os::fd::{AsRawFd, FromRawFd, OwnedFd};
use std::sync::atomic::{AtomicBool, Ordering};

pub const AF_INET: c_int = 2;
pub const AF_INET6: c_int = 10;
pub const ETH_P_ALL: u16 = 0x0003;
pub const ETH_P_IP: u16 = 0x0800;
pub const ETH_P_IPV6: u16 = 0x86DD;
pub const SIGINT: c_int = 2;
pub const SIGUSR1: c_int = 10;
pub const SIGTERM: c_int = 15;

const AF_PACKET: c_int = 17;
const SOCK_DGRAM: c_int = 2;
const SOCK_RAW: c_int = 3;
const SOCK_CLOEXEC: c_int = 0o2000000;
const CLONE_NEWNET: c_int = 0x4000_0000;
const SOL_SOCKET: c_int = 1;
const SO_RCVBUFFORCE: c_int = 33;
const SOL_PACKET: c_int = 263;
const PACKET_IGNORE_OUTGOING: c_int = 23;

/// `struct sockaddr_ll`; the protocol is in network order.
#[repr(C)]
struct LinkAddress {
    family: u16,
    protocol: u16,
    index: c_int,
    hardware: u16,
    packet_type: u8,
    length: u8,
    address: [u8; 8],
}

extern "C" {
    fn setns(fd: c_int, kind: c_int) -> c_int;
    fn socket(domain: c_int, kind: c_int, protocol: c_int) -> c_int;
    fn bind(fd: c_int, address: *const c_void, length: c_uint) -> c_int;
    fn setsockopt(fd: c_int, level: c_int, name: c_int, value: *const c_void, length: c_uint) -> c_int;
    fn if_nametoindex(name: *const c_char) -> c_uint;
    fn kill(process: c_int, signal: c_int) -> c_int;
    fn signal(number: c_int, handler: extern "C" fn(c_int)) -> usize;
    fn geteuid() -> c_uint;
}

fn checked(answer: c_int) -> io::Result<c_int> {
    if answer < 0 {
        return Err(io::Error::last_os_error());
    }
    Ok(answer)
}

fn open(domain: c_int, kind: c_int, protocol: c_int) -> io::Result<OwnedFd> {
    // SAFETY: no pointers; the descriptor is new and nobody else's.
    unsafe { Ok(OwnedFd::from_raw_fd(checked(socket(domain, kind | SOCK_CLOEXEC, protocol))?)) }
}

fn set(socket: &impl AsRawFd, level: c_int, name: c_int, value: c_int) -> io::Result<()> {
    // SAFETY: the pointer is to a number of the length that is given.
    checked(unsafe { setsockopt(socket.as_raw_fd(), level, name, (&raw const value).cast(), 4) }).map(|_| ())
}

/// Moves the calling thread, and what it starts and opens from now on, into a network namespace.
pub fn enter(namespace: &File) -> io::Result<()> {
    // SAFETY: no pointers.
    checked(unsafe { setns(namespace.as_raw_fd(), CLONE_NEWNET) }).map(|_| ())
}

/// A socket of whole packets on a device of this namespace, without those that go out of it; it takes packets of one protocol, or of all. What
/// is sent by it goes out of the device as it stands. std has no type for it, but send, recv and the time limits are those of a UDP socket.
pub fn packet_socket(device: &str, protocol: u16) -> io::Result<UdpSocket> {
    let name = CString::new(device)?;
    // SAFETY: the pointer is to a C string.
    let index = unsafe { if_nametoindex(name.as_ptr()) };
    if index == 0 {
        return Err(io::Error::last_os_error());
    }
    let socket = open(AF_PACKET, SOCK_DGRAM, 0)?;
    set(&socket, SOL_PACKET, PACKET_IGNORE_OUTGOING, 1)?;
    let address = LinkAddress {
        family: AF_PACKET as u16,
        protocol: protocol.to_be(),
        index: index as c_int,
        hardware: 0,
        packet_type: 0,
        length: 0,
        address: [0; 8],
    };
    // SAFETY: the pointer is to an address of the length that is given.
    checked(unsafe { bind(socket.as_raw_fd(), (&raw const address).cast(), size_of::<LinkAddress>() as c_uint) })?;
    Ok(UdpSocket::from(socket))
}

/// A raw socket of one protocol; its addresses are those of a UDP socket with port 0.
pub fn raw_socket(domain: c_int, protocol: c_int) -> io::Result<UdpSocket> {
    open(domain, SOCK_RAW, protocol).map(UdpSocket::from)
}

/// Room for what a socket has received and nobody has read yet.
pub fn receive_buffer(socket: &UdpSocket, bytes: usize) -> io::Result<()> {
    set(socket, SOL_SOCKET, SO_RCVBUFFORCE, bytes as c_int)
}

pub fn send_signal(process: u32, number: c_int) -> io::Result<()> {
    // SAFETY: no pointers.
    checked(unsafe { kill(process as c_int, number) }).map(|_| ())
}

pub fn is_root() -> bool {
    // SAFETY: no pointers.
    unsafe { geteuid() == 0 }
}

static STOPPED: AtomicBool = AtomicBool::new(false);

extern "C" fn note(_: c_int) {
    STOPPED.store(true, Ordering::Relaxed);
}

/// From now on SIGINT and SIGTERM end this process only by way of `stopped`, so that everything is taken down.
pub fn catch_signals() {
    for number in [SIGINT, SIGTERM] {
        // SAFETY: the handler only stores to an atomic.
        unsafe { signal(number, note) };
    }
}

/// What a signal does, by the program's own time limit.
pub fn stop() {
    note(0);
}

pub fn stopped() -> bool {
    STOPPED.load(Ordering::Relaxed)
}
