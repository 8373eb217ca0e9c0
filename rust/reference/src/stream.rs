//! Capsules of a stream that comes in pieces, cut anywhere.
//!
//! What is unfinished is kept between calls, but never the value of a type that is skipped. A call ends at most one capsule and takes no byte
//! past its end. The first refusal is repeated by every later call; 9 and 16 are not remembered.

use crate::capsule::{Frame, Head, DATAGRAM, HEAD_LIMIT, MAX_VALUE};
use crate::number::MAX_NUMBER;
use crate::{Event, Grants, Plan, Refusal};

/// The most bytes of an unfinished capsule: type, length and value.
pub const KEPT_LIMIT: usize = HEAD_LIMIT + MAX_VALUE;

/// The least output lent: the value of a DATAGRAM.
pub const FEED_ROOM: usize = MAX_VALUE;

/// What is left of a stream between two calls.
#[derive(Clone, Debug, Default, PartialEq, Eq)]
pub struct Stream {
    /// The front of a capsule that is not all there.
    pub kept: Vec<u8>,
    /// How much of a skipped value is still to come.
    pub to_skip: u64,
    /// The first refusal.
    pub refused: Option<Refusal>,
}

/// What a call has come to.
#[derive(Clone, Copy, Debug, PartialEq, Eq)]
#[allow(clippy::large_enum_variant)]
pub enum Piece {
    /// A capsule has ended, with so many of the bytes given. The place of a DATAGRAM's value is one in the output.
    Ended(Event, usize),
    /// A capsule is open, and all bytes given were taken.
    Wait,
    /// No capsule is open, and no byte was given.
    Clean,
}

impl Stream {
    /// Whether a call could have left this: a capsule that is open, or none.
    #[inline]
    pub fn sound(&self) -> bool {
        let open = if self.to_skip > 0 {
            self.kept.is_empty() && self.to_skip <= MAX_NUMBER
        } else {
            Head::parse(&self.kept).is_none_or(|head| {
                head.is_known() && !head.is_too_long() && self.kept.len() < head.size + head.length as usize
            })
        };
        open && self.refused.is_none_or(|refusal| matches!(refusal.number(), 2..=7))
    }

    /// The next bytes of the stream, as far as one capsule goes; the caller hands in again what was not taken.
    pub fn feed(&mut self, grants: &mut Grants, plan: &Plan, bytes: &[u8], out: &mut [u8]) -> Result<Piece, Refusal> {
        if out.len() < FEED_ROOM {
            return Err(Refusal::NoRoom);
        }
        if !(grants.sound() && plan.sound() && self.sound()) {
            return Err(Refusal::BrokenState);
        }
        if let Some(refusal) = self.refused {
            return Err(refusal);
        }
        let piece = self.take(grants, bytes, out);
        if let Err(refusal) = piece {
            self.refused = Some(refusal);
        }
        piece
    }

    fn take(&mut self, grants: &mut Grants, bytes: &[u8], out: &mut [u8]) -> Result<Piece, Refusal> {
        if self.to_skip > 0 {
            return Ok(self.skip(self.to_skip, bytes, 0));
        }
        let Some(head) = self.head(bytes) else {
            return Ok(self.keep(bytes));
        };
        if head.is_too_long() {
            return Err(Refusal::ValueTooLong);
        }
        if !head.is_known() {
            let start = head.size - self.kept.len();
            self.kept.clear();
            return Ok(self.skip(head.length, bytes, start));
        }
        let missing = head.size + head.length as usize - self.kept.len();
        match bytes.get(..missing) {
            None => Ok(self.keep(bytes)),
            Some(last) if head.kind == DATAGRAM => {
                self.end_datagram(&head, last, out);
                Ok(Piece::Ended(Event::Datagram { start: 0, length: head.length as usize }, missing))
            }
            Some(last) => Ok(Piece::Ended(self.end_list(&head, last, grants)?, missing)),
        }
    }

    /// Type and length, of which some bytes may be kept and some given.
    #[inline]
    fn head(&self, bytes: &[u8]) -> Option<Head> {
        if self.kept.is_empty() {
            return Head::parse(bytes);
        }
        Head::parse(&self.kept).or_else(|| {
            let held = self.kept.len();
            let given = bytes.len().min(HEAD_LIMIT - held);
            let mut front = [0; HEAD_LIMIT];
            front[..held].copy_from_slice(&self.kept);
            front[held..][..given].copy_from_slice(&bytes[..given]);
            Head::parse(&front[..held + given])
        })
    }

    #[inline]
    fn keep(&mut self, bytes: &[u8]) -> Piece {
        self.kept.extend_from_slice(bytes);
        if self.kept.is_empty() {
            Piece::Clean
        } else {
            Piece::Wait
        }
    }

    /// A value that is skipped, of which `length` bytes are still to come from `start` on.
    #[inline]
    fn skip(&mut self, length: u64, bytes: &[u8], start: usize) -> Piece {
        let given = (bytes.len() - start) as u64;
        if given < length {
            self.to_skip = length - given;
            Piece::Wait
        } else {
            self.to_skip = 0;
            Piece::Ended(Event::Skipped, start + length as usize)
        }
    }

    /// Puts a value, of which some bytes may be kept, in the output.
    #[inline]
    fn end_datagram(&mut self, head: &Head, last: &[u8], out: &mut [u8]) {
        let front = self.kept.get(head.size..).unwrap_or(&[]);
        let back = &last[head.size.saturating_sub(self.kept.len())..];
        out[..front.len()].copy_from_slice(front);
        out[front.len()..][..back.len()].copy_from_slice(back);
        self.kept.clear();
    }

    /// Reads a list from one slice: in place where none of its capsule is kept.
    #[inline]
    fn end_list(&mut self, head: &Head, last: &[u8], grants: &mut Grants) -> Result<Event, Refusal> {
        let mut read =
            |capsule: &[u8]| grants.take(&Frame { kind: head.kind, start: head.size, value: &capsule[head.size..] });
        let held = self.kept.len();
        if held == 0 {
            return read(last);
        }
        self.kept.extend_from_slice(last);
        let event = read(&self.kept);
        self.kept.truncate(if event.is_ok() { 0 } else { held });
        event
    }
}
