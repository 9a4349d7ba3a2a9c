//! The core of a Nostr relay: it reads client messages, keeps events in a table of fixed size, answers a REQ from it and writes replies.
//!
//! The code behind these calls is written in Rattle and proved: each answer, and each buffer when a call returns, is equated with a definition,
//! for every input. Nothing is allocated, and there is no state but what the caller lends. This crate only lends slices and turns numbers into
//! types; all its unsafe code stands in one module.
//!
//! A relay is a table and one call for each message:
//!
//! ```
//! use plavdrosa::{output_size, sample, table_size, Table};
//!
//! let mut buffer = [0; table_size(8)];
//! let mut out = [0; output_size(8)];
//! let mut table = Table::format(&mut buffer, 8)?;
//!
//! let mut lines = Vec::new();
//! for message in [sample::EVENT, br#"["REQ","s",{"limit":1}]"#] {
//!     table.respond(message, &mut out, |line| lines.push(String::from_utf8(line.to_vec()).unwrap()))?;
//! }
//! assert!(lines[0].starts_with(r#"["OK","afb4d2ec"#));
//! assert!(lines[1].starts_with(r#"["EVENT","s",{"id":"afb4d2ec"#));
//! assert_eq!(lines[2], r#"["EOSE","s"]"#);
//! # Ok::<(), plavdrosa::Refusal>(())
//! ```
//!
//! # What is refused
//!
//! A [`Refusal`] is one of 14 rows; where several hold, the lowest is given. A refused call leaves every lent buffer as it found it.
//!
//! A wrong number (6) or wrong hex (7) in a message is refused with its [`offset`](Refusal::offset), the place of its first byte or of its opening
//! quote; of several the earliest. `to_string` gives the reason as clients get it:
//!
//! ```
//! let refusal = plavdrosa::read(br#"["REQ","s",{"since":0,"until":1e9}]"#).unwrap_err();
//! assert_eq!(refusal.offset(), Some(30));
//! assert_eq!(refusal.to_string(), "invalid: number at 30");
//! ```
//!
//! # Parts
//!
//! A [`Span`] is where a string stands between its quotes in a buffer, as spelled there; a list is the place of its opening bracket. Whoever hands
//! parts to a call hands over the buffer too, and parts that do not fit it are refused.
//!
//! # Control characters
//!
//! Every string may have characters below U+0020. A message spells them with an escape, the short one or `\u00XX`. In an event's text, and so in
//! a slot, 08, 09, 0A, 0C and 0D have their short escape and the other 27 stand raw, one byte each; what is lent as parts may have these 27 raw
//! too. Replies write them as `\u00` and two lower-case hex digits, so that they are JSON.
//!
//! # Features
//!
//! `std`, on by default, adds [`relay`], which answers what a reader gives until it ends. Without it the crate needs `core` alone.

#![cfg_attr(not(any(feature = "std", test)), no_std)]
#![deny(unsafe_code)]
#![warn(missing_docs)]

mod answer;
mod event;
mod feed;
#[allow(unsafe_code)]
mod ffi;
mod message;
mod replies;
pub mod sample;
mod table;

pub use answer::{Refusal, Verdict};
pub use event::{Body, Class, Digest, TextParts, class, digest, id, read_text, serialise};
pub use feed::Feed;
#[cfg(feature = "std")]
pub use feed::relay;
pub use message::{EventParts, FilterParts, Message, ReqParts, Span, matches, message_row, read, text_row};
pub use replies::{ReplyParts, refused, reply};
pub use table::Table;

/// The most bytes of a message, without what ends its line.
///
/// ```
/// use plavdrosa::{MAX_MESSAGE, Refusal, message_row};
/// assert_eq!(message_row(&[b' '; MAX_MESSAGE + 1]), Err(Refusal::TooLong));
/// assert_eq!(message_row(&[b' '; MAX_MESSAGE]), Err(Refusal::NotJson));
/// ```
pub const MAX_MESSAGE: usize = 16384;

/// The most bytes of an event's serialised text.
///
/// ```
/// use plavdrosa::{MAX_TEXT, Refusal, read_text};
/// assert_eq!(read_text(&[b'x'; MAX_TEXT + 1]), Err(Refusal::EventTooLarge));
/// ```
pub const MAX_TEXT: usize = 4096;

/// The most slots of a table.
///
/// ```
/// use plavdrosa::{MAX_CAPACITY, Refusal, Table};
/// assert_eq!(Table::format(&mut [], MAX_CAPACITY + 1).err(), Some(Refusal::NoSlot));
/// ```
pub const MAX_CAPACITY: usize = 1024;

/// The bytes of a table of `n` slots, 1 to [`MAX_CAPACITY`]. A table of many slots belongs on the heap or in a `static`.
///
/// ```
/// use plavdrosa::{MAX_CAPACITY, Table, table_size};
/// assert_eq!(table_size(8), 33_680);
/// let mut buffer = vec![0; table_size(MAX_CAPACITY)];
/// assert_eq!(buffer.len(), 4_309_008);
/// assert!(Table::format(&mut buffer, MAX_CAPACITY)?.is_empty());
/// # Ok::<(), plavdrosa::Refusal>(())
/// ```
pub const fn table_size(n: usize) -> usize {
    16 + n * 4208
}

/// So many bytes of output are never too short for an answer over a table of `n` slots. An EVENT takes at most 24,827 of them with its line's end:
/// each byte of a string may be a control character, which a reply spells with six. Whoever has less memory than a large table's answer may take
/// lends less, and writes a REQ's answer by pieces: [`Table::list`], then [`Table::events`] until all are sent, then an EOSE by [`reply`].
///
/// ```
/// use plavdrosa::{MAX_CAPACITY, output_size};
/// assert_eq!(output_size(8), 199_044);
/// assert_eq!(output_size(MAX_CAPACITY), 25_423_276);
/// ```
pub const fn output_size(n: usize) -> usize {
    n * 24827 + 428
}
