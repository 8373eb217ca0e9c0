//! Templates, their rules, and the plan file.

use crate::list::List;
use crate::number::{self, parse, MAX_NUMBER};
use crate::Refusal;

pub const MAX_TEMPLATES: usize = 8;
pub const MAX_SEGMENTS: usize = 8;

/// Static bytes lie within this many bytes of a packet's front.
pub const STATIC_LIMIT: usize = 128;

/// The least output lent for a plan file.
pub const PLAN_ROOM: usize = 1400;

const MARK: &[u8; 3] = b"VAN";
const VERSION: [u8; 2] = [0, 1];
const LEAST_START: usize = 20;
const LAST_FIELD: usize = 126;

#[derive(Clone, Copy, Debug, Default, PartialEq, Eq)]
pub struct ContextId(pub u64);

#[derive(Clone, Copy, Debug, Default, PartialEq, Eq)]
pub struct Segment {
    pub offset: usize,
    pub length: usize,
}

impl Segment {
    #[inline]
    pub fn end(&self) -> usize {
        self.offset + self.length
    }

    /// At least one byte, not before `from`, within the static bytes.
    #[inline]
    fn sound(&self, from: usize) -> bool {
        self.length >= 1
            && self.offset >= from
            && self.length <= STATIC_LIMIT
            && self.offset <= STATIC_LIMIT - self.length
    }
}

/// Where a transport checksum stands and where its words start.
#[derive(Clone, Copy, Debug, PartialEq, Eq)]
pub struct Checksum {
    pub field: usize,
    pub start: usize,
}

/// The static byte of place p of a packet is `bytes[p]`.
#[derive(Clone, Copy, Debug, PartialEq, Eq)]
pub struct Template {
    pub id: ContextId,
    pub segments: List<Segment, MAX_SEGMENTS>,
    pub bytes: [u8; STATIC_LIMIT],
    pub checksum: Option<Checksum>,
}

impl Default for Template {
    fn default() -> Self {
        Template { id: ContextId(0), segments: List::default(), bytes: [0; STATIC_LIMIT], checksum: None }
    }
}

impl Template {
    /// The first rule that is broken, in the file's order; `previous` is the Context ID before, or 0.
    #[inline]
    fn fault(&self, previous: ContextId) -> Option<Refusal> {
        if self.id.0 <= previous.0 || self.id.0 > MAX_NUMBER {
            return Some(Refusal::PlanContext);
        }
        if self.segments.too_long() {
            return Some(Refusal::PlanRule);
        }
        let mut from = 0;
        for segment in self.segments.stored() {
            if !segment.sound(from) {
                return Some(Refusal::PlanRule);
            }
            from = segment.end();
        }
        (!self.checksum_sound()).then_some(Refusal::PlanRule)
    }

    #[inline]
    fn checksum_sound(&self) -> bool {
        let Some(Checksum { field, start }) = self.checksum else {
            return self.segments.count > 0;
        };
        LEAST_START <= start
            && start <= field
            && field <= LAST_FIELD
            && (field - start) % 2 == 0
            && self.segments.stored().iter().all(|s| field + 2 <= s.offset || s.end() <= field)
    }

    /// How many bytes a packet must have to reach the last segment's end and the field's end.
    #[inline]
    pub fn reach(&self) -> usize {
        let end = self.segments.stored().last().map_or(0, Segment::end);
        self.checksum.map_or(end, |c| end.max(c.field + 2))
    }

    /// How many bytes of a packet are static.
    #[inline]
    pub fn static_length(&self) -> usize {
        self.segments.stored().iter().map(|s| s.length).sum()
    }
}

#[derive(Clone, Copy, Debug, Default, PartialEq, Eq)]
pub struct Plan {
    pub templates: List<Template, MAX_TEMPLATES>,
}

impl Plan {
    /// The first rule that is broken, in the file's order: 25 or 23.
    #[inline]
    pub fn fault(&self) -> Option<Refusal> {
        if self.templates.too_long() {
            return Some(Refusal::PlanContext);
        }
        let mut previous = ContextId(0);
        for template in self.templates.stored() {
            if let Some(refusal) = template.fault(previous) {
                return Some(refusal);
            }
            previous = template.id;
        }
        None
    }

    #[inline]
    pub fn sound(&self) -> bool {
        self.fault().is_none()
    }
}

/// A plan file, tested from left to right.
pub fn read_plan(file: &[u8]) -> Result<Plan, Refusal> {
    let mut rest = Rest(file);
    if rest.take(MARK.len())? != MARK {
        return Err(Refusal::PlanMark);
    }
    if rest.take(VERSION.len())? != VERSION {
        return Err(Refusal::PlanVersion);
    }
    let count = usize::from(rest.byte()?);
    if count > MAX_TEMPLATES {
        return Err(Refusal::PlanContext);
    }
    let mut plan = Plan::default();
    let mut previous = ContextId(0);
    for template in &mut plan.templates.items[..count] {
        *template = read_template(&mut rest, previous)?;
        previous = template.id;
    }
    plan.templates.count = count;
    if !rest.0.is_empty() {
        return Err(Refusal::PlanCut);
    }
    Ok(plan)
}

fn read_template(rest: &mut Rest, previous: ContextId) -> Result<Template, Refusal> {
    let mut template = Template { id: ContextId(rest.number()?), ..Template::default() };
    if template.id.0 <= previous.0 {
        return Err(Refusal::PlanContext);
    }
    let count = usize::from(rest.byte()?);
    if count > MAX_SEGMENTS {
        return Err(Refusal::PlanRule);
    }
    let mut from = 0;
    for segment in &mut template.segments.items[..count] {
        *segment = Segment { offset: rest.size()?, length: rest.size()? };
        if !segment.sound(from) {
            return Err(Refusal::PlanRule);
        }
        from = segment.end();
        template.bytes[segment.offset..from].copy_from_slice(rest.take(segment.length)?);
    }
    template.segments.count = count;
    template.checksum = match rest.byte()? {
        0 => None,
        1 => Some(Checksum { field: rest.size()?, start: rest.size()? }),
        _ => return Err(Refusal::PlanRule),
    };
    if !template.checksum_sound() {
        return Err(Refusal::PlanRule);
    }
    Ok(template)
}

/// What is left of a plan file.
struct Rest<'a>(&'a [u8]);

impl<'a> Rest<'a> {
    fn take(&mut self, length: usize) -> Result<&'a [u8], Refusal> {
        let (taken, rest) = self.0.split_at_checked(length).ok_or(Refusal::PlanCut)?;
        self.0 = rest;
        Ok(taken)
    }

    fn byte(&mut self) -> Result<u8, Refusal> {
        Ok(self.take(1)?[0])
    }

    fn number(&mut self) -> Result<u64, Refusal> {
        let (value, size) = parse(self.0).ok_or(Refusal::PlanCut)?;
        if size != number::size(value) {
            return Err(Refusal::PlanNumber);
        }
        self.0 = &self.0[size..];
        Ok(value)
    }

    /// A number that some rule keeps small.
    fn size(&mut self) -> Result<usize, Refusal> {
        Ok(usize::try_from(self.number()?).unwrap_or(usize::MAX))
    }
}

/// The one file of a plan.
pub fn write_plan(plan: &Plan, out: &mut [u8]) -> Result<usize, Refusal> {
    if out.len() < PLAN_ROOM {
        return Err(Refusal::NoRoom);
    }
    if let Some(refusal) = plan.fault() {
        return Err(refusal);
    }
    let mut at = 0;
    put(out, &mut at, MARK);
    put(out, &mut at, &VERSION);
    put(out, &mut at, &[plan.templates.count as u8]);
    for template in plan.templates.stored() {
        put_number(out, &mut at, template.id.0);
        put(out, &mut at, &[template.segments.count as u8]);
        for segment in template.segments.stored() {
            put_number(out, &mut at, segment.offset as u64);
            put_number(out, &mut at, segment.length as u64);
            put(out, &mut at, &template.bytes[segment.offset..segment.end()]);
        }
        match template.checksum {
            None => put(out, &mut at, &[0]),
            Some(checksum) => {
                put(out, &mut at, &[1]);
                put_number(out, &mut at, checksum.field as u64);
                put_number(out, &mut at, checksum.start as u64);
            }
        }
    }
    Ok(at)
}

fn put(out: &mut [u8], at: &mut usize, bytes: &[u8]) {
    out[*at..][..bytes.len()].copy_from_slice(bytes);
    *at += bytes.len();
}

fn put_number(out: &mut [u8], at: &mut usize, value: u64) {
    *at += number::put(value, &mut out[*at..]);
}
