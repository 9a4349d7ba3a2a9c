//! Replies written from parts.

#![forbid(unsafe_code)]

use crate::answer::done;
use crate::message::event_numbers;
use crate::{EventParts, Refusal, Span, ffi};

/// The parts of a reply, all places in one buffer.
///
/// ```
/// use plavdrosa::{ReplyParts, Span, reply};
/// let parts = ReplyParts::Closed { subscription: Span { start: 0, len: 1 }, reason: Span { start: 1, len: 14 } };
/// assert_eq!(reply(b"serror: no room", &parts, &mut [0; 100])?, br#"["CLOSED","s","error: no room"]"#);
/// # Ok::<(), plavdrosa::Refusal>(())
/// ```
#[derive(Clone, Copy, Debug, PartialEq, Eq, Hash)]
pub enum ReplyParts {
    /// Whether an event was accepted.
    Ok {
        /// The event's id.
        id: Span,
        /// Whether it was.
        accepted: bool,
        /// Why not, or what else there is to say.
        reason: Span,
    },
    /// An event that was asked for.
    Event {
        /// The subscription id.
        subscription: Span,
        /// The event.
        event: EventParts,
    },
    /// All stored events have been sent.
    Eose {
        /// The subscription id.
        subscription: Span,
    },
    /// A subscription was ended.
    Closed {
        /// The subscription id.
        subscription: Span,
        /// Why.
        reason: Span,
    },
    /// A message for a human.
    Notice {
        /// What it says.
        reason: Span,
    },
}

/// Writes a reply from the start of `out`, without a line's end: the lowest row that refuses the parts, or 13 if there is no room.
///
/// ```
/// use plavdrosa::{Refusal, ReplyParts, Span, reply};
/// let mut out = [0; 100];
/// let whole = ReplyParts::Notice { reason: Span { start: 0, len: 9 } };
/// assert_eq!(reply(b"good\\nbye", &whole, &mut out)?, br#"["NOTICE","good\nbye"]"#);
/// assert_eq!(reply(b"good", &whole, &mut out), Err(Refusal::WrongShape));
/// # Ok::<(), Refusal>(())
/// ```
pub fn reply<'o>(bytes: &[u8], parts: &ReplyParts, out: &'o mut [u8]) -> Result<&'o [u8], Refusal> {
    let mut written = 0;
    done(ffi::reply(bytes, &numbers(parts), out, &mut written))?;
    Ok(&out[..written])
}

/// Writes the reply that a refused message gets, without a line's end: NOTICE for rows 1 to 5; for later ones OK with `false` if the message is
/// an EVENT with an id of 64 lower-case hex characters, CLOSED if it is a REQ whose subscription id is within bounds, or else NOTICE.
///
/// The offset of rows 6 and 7 is told from the message, whatever the refusal that is given has. Where the row is not the message's own, as
/// [`read`](crate::read) tells it, the reason is the row's text alone.
///
/// ```
/// use plavdrosa::{Refusal, read, refused};
/// let message = br#"["REQ","s",{"limit":-1}]"#;
/// let row = read(message).unwrap_err();
/// assert_eq!(refused(message, row, &mut [0; 500])?, br#"["CLOSED","s","invalid: number at 20"]"#);
/// assert_eq!(refused(message, Refusal::BadHex { offset: Some(8) }, &mut [0; 500])?, br#"["CLOSED","s","invalid: hex"]"#);
/// # Ok::<(), Refusal>(())
/// ```
pub fn refused<'o>(message: &[u8], refusal: Refusal, out: &'o mut [u8]) -> Result<&'o [u8], Refusal> {
    let mut written = 0;
    done(ffi::refused(message, refusal.number(), out, &mut written))?;
    Ok(&out[..written])
}

fn numbers(parts: &ReplyParts) -> [u64; 15] {
    let mut row = [0; 15];
    let none = Span::default();
    let (form, name, reason) = match *parts {
        ReplyParts::Ok { id, reason, .. } => (1, id, reason),
        ReplyParts::Event { subscription, .. } => (2, subscription, none),
        ReplyParts::Eose { subscription } => (3, subscription, none),
        ReplyParts::Closed { subscription, reason } => (4, subscription, reason),
        ReplyParts::Notice { reason } => (5, reason, none),
    };
    row[..5].copy_from_slice(&[
        form,
        name.start as u64,
        name.len as u64,
        reason.start as u64,
        reason.len as u64,
    ]);
    if let ReplyParts::Ok { accepted, .. } = parts {
        row[5] = *accepted as u64;
    }
    if let ReplyParts::Event { event, .. } = parts {
        row[3..].copy_from_slice(&event_numbers(event));
    }
    row
}
