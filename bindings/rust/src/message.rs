//! Client messages and their parts.

#![forbid(unsafe_code)]

use core::num::NonZeroUsize;

use crate::answer::{done, placed};
use crate::event::Body;
use crate::{Refusal, ffi};

/// The most numbers of a message's row: a REQ of four filters.
const MESSAGE_NUMBERS: usize = 44;

// What is answered where an event matches no filter.
const DIFFERS: u8 = 103;

/// A string part: where it stands between its quotes, as spelled there. Where parts are lent, control characters that have no short escape may
/// stand raw in it.
///
/// ```
/// use plavdrosa::{Message, Span, read};
/// let message = br#"["CLOSE","floor\u002d3"]"#;
/// assert_eq!(read(message), Ok(Message::Close(Span { start: 10, len: 12 })));
/// ```
#[derive(Clone, Copy, Debug, Default, PartialEq, Eq, Hash)]
pub struct Span {
    /// The place of its first byte.
    pub start: usize,
    /// How many bytes it has.
    pub len: usize,
}

impl Span {
    /// Its bytes in a buffer, or nothing if it lies outside.
    ///
    /// ```
    /// use plavdrosa::Span;
    /// assert_eq!(Span { start: 1, len: 2 }.of(b"\"ab\""), Some(&b"ab"[..]));
    /// assert_eq!(Span { start: 3, len: usize::MAX }.of(b"\"ab\""), None);
    /// ```
    pub fn of(self, bytes: &[u8]) -> Option<&[u8]> {
        bytes.get(self.start..self.start.checked_add(self.len)?)
    }
}

/// The parts of an EVENT.
///
/// ```
/// use plavdrosa::{Message, read, sample};
/// let Message::Event(parts) = read(sample::EVENT)? else { panic!() };
/// assert_eq!(parts.id.of(sample::EVENT).unwrap()[..4], *b"afb4");
/// assert_eq!(parts.body.created_at, -7200);
/// # Ok::<(), plavdrosa::Refusal>(())
/// ```
#[derive(Clone, Copy, Debug, Default, PartialEq, Eq, Hash)]
pub struct EventParts {
    /// The id, 64 lower-case hex characters.
    pub id: Span,
    /// What is hashed.
    pub body: Body,
    /// The signature, 128 lower-case hex characters.
    pub sig: Span,
}

/// The parts of a filter. What is absent is `None`; a limit of 0 is a limit.
///
/// ```
/// use plavdrosa::{FilterParts, Message, read};
/// let Message::Req(parts) = read(br#"["REQ","s",{"kinds":[1],"limit":0}]"#)? else { panic!() };
/// let filter: &FilterParts = &parts.filters()[0];
/// assert_eq!(filter.limit, Some(0));
/// assert_eq!(filter.since, None);
/// assert_eq!(filter.kinds.map(|place| place.get()), Some(20));
/// # Ok::<(), plavdrosa::Refusal>(())
/// ```
#[derive(Clone, Copy, Debug, Default, PartialEq, Eq, Hash)]
pub struct FilterParts {
    /// The place of the list's opening bracket. No list can stand at 0.
    pub ids: Option<NonZeroUsize>,
    /// As of `ids`.
    pub authors: Option<NonZeroUsize>,
    /// As of `ids`.
    pub kinds: Option<NonZeroUsize>,
    /// The earliest time, inclusive.
    pub since: Option<i64>,
    /// The latest time, inclusive.
    pub until: Option<i64>,
    /// The most events that the filter adds to an answer.
    pub limit: Option<i64>,
    /// The place of the object whose `#` members are the conditions. Members of `#e` and `#p` are 64 lower-case hex characters.
    pub conditions: Option<NonZeroUsize>,
}

/// The parts of a REQ: its subscription id and 1 to 4 filters.
///
/// ```
/// use plavdrosa::{Message, read};
/// let message = br#"["REQ","map",{"kinds":[30078]},{"limit":1}]"#;
/// let Message::Req(parts) = read(message)? else { panic!() };
/// assert_eq!(parts.subscription.of(message), Some(&b"map"[..]));
/// assert_eq!(parts.filters().len(), 2);
/// # Ok::<(), plavdrosa::Refusal>(())
/// ```
#[derive(Clone, Copy, Debug, Default, PartialEq, Eq, Hash)]
pub struct ReqParts {
    /// The subscription id.
    pub subscription: Span,
    /// The filters, from the first on.
    pub filters: [FilterParts; 4],
    /// How many of them count. Calls refuse 0, and more than 4, by row 8.
    pub count: usize,
}

impl ReqParts {
    /// The filters that count.
    ///
    /// ```
    /// use plavdrosa::ReqParts;
    /// assert_eq!(ReqParts { count: 3, ..ReqParts::default() }.filters().len(), 3);
    /// ```
    pub fn filters(&self) -> &[FilterParts] {
        &self.filters[..self.count.min(4)]
    }
}

/// A client message that was read.
///
/// ```
/// use plavdrosa::{Message, read};
/// assert!(matches!(read(br#"["REQ","s",{}]"#), Ok(Message::Req(_))));
/// ```
#[derive(Clone, Copy, Debug, PartialEq, Eq, Hash)]
#[allow(clippy::large_enum_variant)]
pub enum Message {
    /// An event is published.
    Event(EventParts),
    /// Events are asked for.
    Req(ReqParts),
    /// A subscription is closed.
    Close(Span),
}

/// Tests a text by rows 1 to 4: its length, UTF-8, JSON, its strings.
///
/// ```
/// use plavdrosa::{Refusal, text_row};
/// assert_eq!(text_row(b"[1,2]"), Ok(()));
/// assert_eq!(text_row(b"[1,2"), Err(Refusal::NotJson));
/// assert_eq!(text_row(b"\"\\ud800\""), Err(Refusal::BadString));
/// assert_eq!(text_row(b"\"\\u0000\""), Ok(()));
/// assert_eq!(text_row(b"\"\0\""), Err(Refusal::NotJson));
/// ```
pub fn text_row(bytes: &[u8]) -> Result<(), Refusal> {
    done(ffi::text_row(bytes))
}

/// Tests a client message by rows 1 to 8, without its parts. Rows 6 and 7 say where the earliest number or string that breaks them begins.
///
/// ```
/// use plavdrosa::{Refusal, message_row};
/// assert_eq!(message_row(br#"["CLOSE","s"]"#), Ok(()));
/// assert_eq!(message_row(br#"["REQ","s",{"limit":1e3}]"#), Err(Refusal::BadNumber { offset: Some(20) }));
/// ```
pub fn message_row(bytes: &[u8]) -> Result<(), Refusal> {
    let mut offset = 0;
    done(ffi::message_row(bytes, &mut offset)).map_err(|refusal| placed(refusal, offset))
}

/// Reads a client message: its parts as places in it, or the lowest of rows 1 to 8. Rows 6 and 7 say where the earliest number or string that
/// breaks them begins.
///
/// ```
/// use plavdrosa::{Message, Refusal, read};
/// assert!(matches!(read(br#"["CLOSE","s"]"#), Ok(Message::Close(_))));
/// assert_eq!(read(br#"["REQ","s",{"kinds":[]}]"#), Err(Refusal::BadCount));
/// assert_eq!(read(br#"["REQ","s",{"authors":["X"]}]"#), Err(Refusal::BadHex { offset: Some(23) }));
/// ```
pub fn read(message: &[u8]) -> Result<Message, Refusal> {
    let (mut row, mut offset) = ([0; MESSAGE_NUMBERS], 0);
    done(ffi::read(message, &mut row, &mut offset)).map_err(|refusal| placed(refusal, offset))?;
    Ok(match row[0] {
        1 => Message::Event(event_from(&row)),
        2 => Message::Req(request_from(&row)),
        _ => Message::Close(span_at(&row, 1)),
    })
}

/// Tells whether an event matches some of a REQ's filters. `limit` cuts a list, and is not looked at here.
///
/// ```
/// use plavdrosa::{Message, matches, read, sample};
/// let Message::Event(event) = read(sample::EVENT)? else { panic!() };
/// let since = br#"["REQ","s",{"since":0}]"#;
/// let Message::Req(request) = read(since)? else { panic!() };
/// assert_eq!(matches(sample::EVENT, &event, since, &request), Ok(false));
/// let tile = br##"["REQ","s",{"#d":["floor-3/tile-17"]}]"##;
/// let Message::Req(request) = read(tile)? else { panic!() };
/// assert_eq!(matches(sample::EVENT, &event, tile, &request), Ok(true));
/// # Ok::<(), plavdrosa::Refusal>(())
/// ```
pub fn matches(bytes: &[u8], event: &EventParts, message: &[u8], request: &ReqParts) -> Result<bool, Refusal> {
    match ffi::matches(bytes, &event_numbers(event), message, &request_numbers(request)) {
        DIFFERS => Ok(false),
        row => done(row).map(|()| true),
    }
}

fn place(number: u64) -> usize {
    number as usize
}

fn span_at(row: &[u64], i: usize) -> Span {
    Span {
        start: place(row[i]),
        len: place(row[i + 1]),
    }
}

fn event_from(row: &[u64]) -> EventParts {
    EventParts {
        id: span_at(row, 1),
        body: Body {
            pubkey: span_at(row, 3),
            created_at: row[5] as i64,
            kind: row[6] as i64,
            tags: place(row[7]),
            content: span_at(row, 8),
        },
        sig: span_at(row, 10),
    }
}

fn bound_at(row: &[u64], i: usize) -> Option<i64> {
    (row[i] != 0).then_some(row[i + 1] as i64)
}

fn filter_from(row: &[u64]) -> FilterParts {
    let list = |i: usize| NonZeroUsize::new(place(row[i]));
    FilterParts {
        ids: list(0),
        authors: list(1),
        kinds: list(2),
        since: bound_at(row, 3),
        until: bound_at(row, 5),
        limit: bound_at(row, 7),
        conditions: list(9),
    }
}

fn request_from(row: &[u64]) -> ReqParts {
    let mut filters = [FilterParts::default(); 4];
    for (filter, numbers) in filters.iter_mut().zip(row[4..].chunks(10)) {
        *filter = filter_from(numbers);
    }
    ReqParts {
        subscription: span_at(row, 1),
        filters,
        count: place(row[3]),
    }
}

pub(crate) fn event_numbers(p: &EventParts) -> [u64; 12] {
    let body = &p.body;
    [
        1,
        p.id.start as u64,
        p.id.len as u64,
        body.pubkey.start as u64,
        body.pubkey.len as u64,
        body.created_at as u64,
        body.kind as u64,
        body.tags as u64,
        body.content.start as u64,
        body.content.len as u64,
        p.sig.start as u64,
        p.sig.len as u64,
    ]
}

fn filter_numbers(p: &FilterParts) -> [u64; 10] {
    let list = |place: Option<NonZeroUsize>| place.map_or(0, |at| at.get() as u64);
    let flag = |bound: Option<i64>| bound.is_some() as u64;
    let bits = |bound: Option<i64>| bound.unwrap_or(0) as u64;
    [
        list(p.ids),
        list(p.authors),
        list(p.kinds),
        flag(p.since),
        bits(p.since),
        flag(p.until),
        bits(p.until),
        flag(p.limit),
        bits(p.limit),
        list(p.conditions),
    ]
}

pub(crate) fn request_numbers(p: &ReqParts) -> [u64; MESSAGE_NUMBERS] {
    let mut row = [0; MESSAGE_NUMBERS];
    row[0] = 2;
    row[1] = p.subscription.start as u64;
    row[2] = p.subscription.len as u64;
    row[3] = p.count as u64;
    for (numbers, filter) in row[4..].chunks_mut(10).zip(&p.filters) {
        numbers.copy_from_slice(&filter_numbers(filter));
    }
    row
}
