//! The tests, a group a file.

mod apply;
mod bytes;
mod datagrams;
mod life;
mod plans;
mod refusals;
mod request;
mod sockets;
mod stream;

use crate::check::Outcome;
use crate::ends::Lab;

pub use sockets::applied;

pub type Run = fn(&Lab) -> Outcome;

/// All tests by name.
pub fn all() -> Vec<(&'static str, Run)> {
    [
        bytes::TESTS,
        sockets::TESTS,
        refusals::TESTS,
        plans::TESTS,
        stream::TESTS,
        datagrams::TESTS,
        life::TESTS,
        request::TESTS,
        apply::TESTS,
    ]
    .concat()
}
