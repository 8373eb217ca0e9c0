//! The van tunnel box in ordinary Rust.
//!
//! Written from the paper alone, so that the proved library can be tested and measured against it. Every entry point answers
//! `Result<_, Refusal>`; a refusal alters nothing that was lent, but a stream remembers it. Nothing is allocated but the bytes of an
//! unfinished capsule and, while a request is read, its IDs. Fields are public, so that a state that breaks its own rules can be handed in:
//! each entry point tests that itself (number 9).
#![forbid(unsafe_code)]

pub mod capsule;
pub mod grants;
pub mod list;
pub mod number;
pub mod packet;
pub mod plan;
pub mod refusal;
pub mod stream;
pub mod tunnel;

pub use capsule::{read_capsule, write_assign, write_datagram, write_request, write_routes, Capsule};
pub use grants::{Event, Grants};
pub use list::{AddressEntry, AddressList, List, RequestId, RouteList, RouteRange};
pub use number::{read_number, write_number};
pub use plan::{read_plan, write_plan, Checksum, ContextId, Plan, Segment, Template};
pub use refusal::Refusal;
pub use stream::{Piece, Stream};
pub use tunnel::{receive, send};
