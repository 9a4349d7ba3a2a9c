//! What calls answer: refusals and verdicts, with their numbers and the texts of their replies.

#![forbid(unsafe_code)]

use core::fmt;

/// What refuses a call. Where several hold, the lowest number is given; but formatting tests 14 before 13.
///
/// A message that is refused by 6 or 7 has a number or a string that is wrong, and the refusal says where the earliest one begins. It is shown as
/// in the reply that a client gets.
///
/// ```
/// use plavdrosa::{Refusal, read};
/// assert_eq!(read(b"{}"), Err(Refusal::WrongShape));
/// assert_eq!(Refusal::WrongShape.number(), 5);
/// assert_eq!(Refusal::WrongShape.to_string(), "invalid: wrong shape");
///
/// let refusal = read(br#"["REQ","s",{"kinds":[1,-7]}]"#).unwrap_err();
/// assert_eq!(refusal, Refusal::BadNumber { offset: Some(23) });
/// assert_eq!(refusal.to_string(), "invalid: number at 23");
/// ```
#[derive(Clone, Copy, Debug, PartialEq, Eq, PartialOrd, Ord, Hash)]
pub enum Refusal {
    /// 1: a message over [`MAX_MESSAGE`](crate::MAX_MESSAGE) bytes.
    TooLong,
    /// 2: not UTF-8.
    NotUtf8,
    /// 3: not JSON, or more than 8 brackets and braces open at once.
    NotJson,
    /// 4: a string with an unpaired surrogate.
    BadString,
    /// 5: a wrong shape; also a part that lies outside its buffer or is no spelling of a string.
    WrongShape,
    /// 6: a number that is no whole number in its range.
    BadNumber {
        /// The place of the first byte of the earliest such number in the message, from 0; none where parts were lent, and no message.
        offset: Option<usize>,
    },
    /// 7: an id, pubkey or signature, or a member of `ids`, `authors`, `#e` or `#p`, that is not lower-case hex of the length wanted.
    BadHex {
        /// The place of the opening quote of the earliest such string in the message, from 0; none where parts were lent, and no message.
        offset: Option<usize>,
    },
    /// 8: a count or a length out of bounds.
    BadCount,
    /// 9: a serialised text over [`MAX_TEXT`](crate::MAX_TEXT) bytes.
    EventTooLarge,
    /// 10: the id is not the SHA-256 of the text.
    WrongId,
    /// 11: the table is not sound.
    BadTable,
    /// 12: a new slot is needed, and all are in use.
    NoRoom,
    /// 13: the lent output, or the buffer to be formatted, is too short.
    ShortOutput,
    /// 14: a capacity outside 1 to [`MAX_CAPACITY`](crate::MAX_CAPACITY), or a slot that is not held.
    NoSlot,
}

// From number 1 on.
const REFUSALS: [(Refusal, Option<&str>); 14] = [
    (Refusal::TooLong, Some("invalid: message too long")),
    (Refusal::NotUtf8, Some("invalid: not UTF-8")),
    (Refusal::NotJson, Some("invalid: not JSON")),
    (Refusal::BadString, Some("invalid: string not allowed")),
    (Refusal::WrongShape, Some("invalid: wrong shape")),
    (Refusal::BadNumber { offset: None }, Some("invalid: number")),
    (Refusal::BadHex { offset: None }, Some("invalid: hex")),
    (Refusal::BadCount, Some("invalid: count or length")),
    (Refusal::EventTooLarge, Some("invalid: event too large")),
    (Refusal::WrongId, Some("invalid: id does not match")),
    (Refusal::BadTable, Some("error: bad table")),
    (Refusal::NoRoom, Some("error: no room")),
    (Refusal::ShortOutput, None),
    (Refusal::NoSlot, None),
];

impl Refusal {
    /// The row's number, 1 to 14.
    ///
    /// ```
    /// assert_eq!(plavdrosa::Refusal::NoRoom.number(), 12);
    /// ```
    pub const fn number(self) -> u8 {
        match self {
            Refusal::TooLong => 1,
            Refusal::NotUtf8 => 2,
            Refusal::NotJson => 3,
            Refusal::BadString => 4,
            Refusal::WrongShape => 5,
            Refusal::BadNumber { .. } => 6,
            Refusal::BadHex { .. } => 7,
            Refusal::BadCount => 8,
            Refusal::EventTooLarge => 9,
            Refusal::WrongId => 10,
            Refusal::BadTable => 11,
            Refusal::NoRoom => 12,
            Refusal::ShortOutput => 13,
            Refusal::NoSlot => 14,
        }
    }

    /// Where in a message what is wrong begins, if rows 6 or 7 refused it.
    ///
    /// ```
    /// use plavdrosa::{Refusal, read};
    /// let message = br#"["REQ","s",{"ids":["5c83"]}]"#;
    /// let offset = read(message).unwrap_err().offset().unwrap();
    /// assert_eq!(&message[offset..offset + 6], br#""5c83""#);
    /// assert_eq!(Refusal::BadCount.offset(), None);
    /// ```
    pub const fn offset(self) -> Option<usize> {
        match self {
            Refusal::BadNumber { offset } | Refusal::BadHex { offset } => offset,
            _ => None,
        }
    }

    /// The row's text, with which the reason begins in the reply that a client gets; where the refusal has an [`offset`](Refusal::offset), the
    /// reason is what `to_string` gives. Rows 13 and 14 have none: no client causes them.
    ///
    /// ```
    /// use plavdrosa::Refusal;
    /// assert_eq!(Refusal::NoRoom.text(), Some("error: no room"));
    /// assert_eq!(Refusal::BadHex { offset: Some(12) }.text(), Some("invalid: hex"));
    /// assert_eq!(Refusal::BadHex { offset: Some(12) }.to_string(), "invalid: hex at 12");
    /// assert_eq!(Refusal::ShortOutput.text(), None);
    /// ```
    pub const fn text(self) -> Option<&'static str> {
        REFUSALS[self.number() as usize - 1].1
    }

    /// The refusal with this number, without an offset.
    ///
    /// ```
    /// use plavdrosa::Refusal;
    /// assert_eq!(Refusal::from_number(3), Some(Refusal::NotJson));
    /// assert_eq!(Refusal::from_number(6), Some(Refusal::BadNumber { offset: None }));
    /// assert_eq!(Refusal::from_number(0), None);
    /// ```
    pub fn from_number(number: u8) -> Option<Refusal> {
        REFUSALS.iter().map(|row| row.0).find(|row| row.number() == number)
    }
}

impl fmt::Display for Refusal {
    fn fmt(&self, f: &mut fmt::Formatter<'_>) -> fmt::Result {
        f.write_str(match self {
            Refusal::ShortOutput => "output too short",
            Refusal::NoSlot => "no such slot or capacity",
            _ => self.text().unwrap_or(""),
        })?;
        match self.offset() {
            Some(offset) => write!(f, " at {offset}"),
            None => Ok(()),
        }
    }
}

impl core::error::Error for Refusal {}

/// What an offer is answered where nothing refuses it. All four are acceptance: the reply is `OK` with `true`.
///
/// ```
/// use plavdrosa::{Table, Verdict, sample, table_size};
/// let mut buffer = [0; table_size(1)];
/// let mut table = Table::format(&mut buffer, 1)?;
/// assert_eq!(table.offer(sample::NEWER)?, Verdict::Stored);
/// assert_eq!(table.offer(sample::EVENT)?, Verdict::Older);
/// # Ok::<(), plavdrosa::Refusal>(())
/// ```
#[derive(Clone, Copy, Debug, PartialEq, Eq, PartialOrd, Ord, Hash)]
#[repr(u8)]
pub enum Verdict {
    /// Stored, over the slot with its key or in a new one.
    Stored = 0,
    /// Ephemeral: nothing is kept.
    Ephemeral = 100,
    /// Its id is held.
    Duplicate = 101,
    /// A newer event with its key is held.
    Older = 102,
}

impl Verdict {
    /// The number that the C call answers.
    ///
    /// ```
    /// assert_eq!(plavdrosa::Verdict::Older.number(), 102);
    /// ```
    pub const fn number(self) -> u8 {
        self as u8
    }

    /// The text of the reply.
    ///
    /// ```
    /// use plavdrosa::Verdict;
    /// assert_eq!(Verdict::Stored.text(), "");
    /// assert_eq!(Verdict::Duplicate.text(), "duplicate: already have this event");
    /// ```
    pub const fn text(self) -> &'static str {
        match self {
            Verdict::Stored | Verdict::Ephemeral => "",
            Verdict::Duplicate => "duplicate: already have this event",
            Verdict::Older => "duplicate: have a newer version",
        }
    }
}

// A row other than 0 that a call answered.
fn refusal(number: u8) -> Refusal {
    match Refusal::from_number(number) {
        Some(row) => row,
        None => panic!("the library answered {number}, which is no row: header and library are not of one version"),
    }
}

// The refusal of a message: of rows 6 and 7 the call has written the offset.
pub(crate) fn placed(refusal: Refusal, offset: usize) -> Refusal {
    let offset = Some(offset);
    match refusal {
        Refusal::BadNumber { .. } => Refusal::BadNumber { offset },
        Refusal::BadHex { .. } => Refusal::BadHex { offset },
        other => other,
    }
}

// 0 is done.
pub(crate) fn done(number: u8) -> Result<(), Refusal> {
    if number == 0 { Ok(()) } else { Err(refusal(number)) }
}

// The answer to an offer.
pub(crate) fn verdict(number: u8) -> Result<Verdict, Refusal> {
    match number {
        0 => Ok(Verdict::Stored),
        100 => Ok(Verdict::Ephemeral),
        101 => Ok(Verdict::Duplicate),
        102 => Ok(Verdict::Older),
        row => Err(refusal(row)),
    }
}
