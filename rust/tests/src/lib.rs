//! The proved library against the reference, on many inputs.
//!
//! Each case is one call, made of the library ([`subject::Library`]) and of the reference behind the same words ([`subject::Model`]) on copies
//! of the same state and output. Everything that either can alter is compared afterwards.

pub mod capsules;
pub mod chains;
pub mod compare;
pub mod families;
pub mod lists;
pub mod packets;
pub mod pieces;
pub mod plans;
pub mod random;
pub mod requests;
pub mod subject;
pub mod words;
