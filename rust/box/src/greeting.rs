//! The line that each end sends before its capsules: `whapirohi 1 plan HEX`, with the file of its plan in hex. A plan has exactly one file,
//! so that ends with different plans notice it; a template that only one of them knew would rebuild a packet as another.

use crate::text::{hex, unhex};
use whapirohi_tunnel::{number, Refusal, State, PLAN_ROOM};

const START: &str = "whapirohi 1 plan ";

/// The most bytes of a line, its end among them.
pub const LINE_LIMIT: usize = START.len() + 2 * PLAN_ROOM + 1;

/// The plan of no templates.
pub const NO_TEMPLATES: &[u8] = b"VAN\x00\x01\x00";

pub fn line(plan: &[u8]) -> String {
    format!("{START}{}\n", hex(plan))
}

/// The plan of a line, of what came up to its end; or why it is none. Bytes that are no plan come from no other end: they are a broken stream,
/// and not a plan that differs.
pub fn plan(line: &[u8]) -> Result<Vec<u8>, String> {
    let text = std::str::from_utf8(line).ok().and_then(|text| text.strip_suffix('\n'));
    match text.map(|text| (text, text.strip_prefix(START).and_then(unhex))) {
        Some((_, Some(plan))) => match State::new().load_plan(&plan) {
            number::DONE => Ok(plan),
            number => Err(format!("the peer's first line has no plan: {}", Refusal(number))),
        },
        Some((text, None)) if version(text).is_some_and(|version| version != 1) => {
            Err(format!("the peer speaks another version of whapirohi than 1: {}", version(text).unwrap_or_default()))
        }
        _ => Err("the peer's first line is not `whapirohi 1 plan HEX`".to_string()),
    }
}

fn version(line: &str) -> Option<u32> {
    line.strip_prefix("whapirohi ")?.split(' ').next()?.parse().ok()
}

#[cfg(test)]
mod tests {
    use super::*;

    #[test]
    fn a_line_gives_its_plan_back() {
        assert_eq!(line(NO_TEMPLATES), "whapirohi 1 plan 56414e000100\n");
        for file in [NO_TEMPLATES, b"VAN\x00\x01\x01\x02\x01\x0C\x01\xC0\x00"] {
            assert_eq!(plan(line(file).as_bytes()).as_deref(), Ok(file));
        }
        assert_eq!(line(&[0xAB; PLAN_ROOM]).len(), LINE_LIMIT);
    }

    #[test]
    fn other_lines_are_refused() {
        for other in [
            &b"whapirohi 1 plan 5\n"[..],
            b"whapirohi 1 plan 56 41\n",
            b"whapirohi 1 plan +5\n",
            b"whapirohi 1 plan \n",
            b"whapirohi 1 plan 56414e\n",
            b"whapirohi 1 plan 56414e00010000\n",
            b"whapirohi 1 plan 56414e000100",
            b"whapirohi 1 plan 56\r\n",
            b"WHAPIROHI 1 plan 56\n",
            b"whapirohi \n",
            b"whapirohi x plan 56\n",
            b"GET / HTTP/1.1\r\n",
            b"\xFF\xFE\n",
            b"\n",
            b"",
        ] {
            assert!(plan(other).unwrap_err().contains("first line"), "{other:?}");
        }
        assert!(plan(b"whapirohi 2 plan 56\n").unwrap_err().contains("another version of whapirohi than 1: 2"));
    }
}
