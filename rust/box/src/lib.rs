//! The host around the proved box: it moves bytes between a TUN device, a UDP socket and a stream, and leaves every judgement to the library.
#![deny(unsafe_code)]

pub mod apply;
pub mod carry;
pub mod config;
pub mod counters;
pub mod end;
pub mod explain;
pub mod fields;
pub mod greeting;
pub mod leases;
pub mod log;
pub mod pcap;
pub mod plan_text;
pub mod run;
pub mod stream;
pub mod sys;
pub mod text;

/// What is wrong with a file, and on which of its lines, counted from 1; line 0 is the file as a whole.
#[derive(Clone, Debug, PartialEq, Eq)]
pub struct Fault {
    pub line: usize,
    pub reason: String,
}
