//! A table of events over a caller's buffer.

#![forbid(unsafe_code)]

use crate::answer::{done, placed, verdict};
use crate::feed::each_line;
use crate::message::{event_numbers, request_numbers};
use crate::{EventParts, Refusal, ReqParts, Span, Verdict, ffi, table_size};

/// A sound table over a buffer that the caller lends for as long as it lives. Nobody else can write it meanwhile, so it stays sound.
///
/// ```
/// use plavdrosa::{Table, Verdict, sample, table_size};
/// let mut buffer = [0; table_size(2)];
/// let mut table = Table::format(&mut buffer, 2)?;
/// assert_eq!(table.offer(sample::EVENT)?, Verdict::Stored);
/// assert_eq!(table.offer(sample::NEWER)?, Verdict::Stored);
/// assert_eq!(table.len(), 1);
/// # Ok::<(), plavdrosa::Refusal>(())
/// ```
#[derive(Debug)]
pub struct Table<'a> {
    bytes: &'a mut [u8],
}

impl<'a> Table<'a> {
    /// Formats a buffer as a table without events. Refused by 14 if the capacity is not 1 to [`MAX_CAPACITY`](crate::MAX_CAPACITY), and by 13 if
    /// the buffer has fewer than [`table_size`]`(capacity)` bytes; it stays as it was then. Bytes behind the last slot stay in any case.
    ///
    /// ```
    /// use plavdrosa::{Refusal, Table, table_size};
    /// let mut buffer = [0; table_size(8)];
    /// assert!(Table::format(&mut buffer, 8)?.is_empty());
    /// assert_eq!(Table::format(&mut buffer, 9).err(), Some(Refusal::ShortOutput));
    /// # Ok::<(), Refusal>(())
    /// ```
    pub fn format(buffer: &'a mut [u8], capacity: usize) -> Result<Table<'a>, Refusal> {
        done(ffi::format(buffer, capacity))?;
        Ok(Table {
            bytes: &mut buffer[..table_size(capacity)],
        })
    }

    /// Takes a buffer that holds a table, as one read from a file. Refused by 11 if it is not sound. Tables that an earlier build wrote, of at most
    /// 64 slots, are.
    ///
    /// ```
    /// use plavdrosa::{Refusal, Table, sample, table_size};
    /// let mut buffer = [0; table_size(2)];
    /// Table::format(&mut buffer, 2)?.offer(sample::EVENT)?;
    ///
    /// let mut copy = buffer;
    /// assert_eq!(Table::open(&mut copy)?.len(), 1);
    /// copy[16 + 112 + 5] ^= 1;
    /// assert_eq!(Table::open(&mut copy).err(), Some(Refusal::BadTable));
    /// # Ok::<(), Refusal>(())
    /// ```
    pub fn open(buffer: &'a mut [u8]) -> Result<Table<'a>, Refusal> {
        done(ffi::sound(buffer))?;
        let size = table_size(number_at(buffer, 0));
        Ok(Table {
            bytes: &mut buffer[..size],
        })
    }

    /// The table's bytes, to be kept in a file or sent.
    ///
    /// ```
    /// use plavdrosa::{Table, table_size};
    /// let mut buffer = [0; 10_000];
    /// assert_eq!(Table::format(&mut buffer, 2)?.bytes().len(), table_size(2));
    /// # Ok::<(), plavdrosa::Refusal>(())
    /// ```
    pub fn bytes(&self) -> &[u8] {
        self.bytes
    }

    /// How many slots it has.
    ///
    /// ```
    /// # use plavdrosa::{Table, table_size};
    /// let mut buffer = [0; table_size(3)];
    /// assert_eq!(Table::format(&mut buffer, 3)?.capacity(), 3);
    /// # Ok::<(), plavdrosa::Refusal>(())
    /// ```
    pub fn capacity(&self) -> usize {
        number_at(self.bytes, 0)
    }

    /// How many of them are held: slots 0 to `len() - 1`.
    ///
    /// ```
    /// # use plavdrosa::{Table, sample, table_size};
    /// let mut buffer = [0; table_size(3)];
    /// let mut table = Table::format(&mut buffer, 3)?;
    /// table.offer(sample::EVENT)?;
    /// assert_eq!(table.len(), 1);
    /// # Ok::<(), plavdrosa::Refusal>(())
    /// ```
    pub fn len(&self) -> usize {
        number_at(self.bytes, 4)
    }

    /// Whether none is held.
    ///
    /// ```
    /// # use plavdrosa::{Table, table_size};
    /// let mut buffer = [0; table_size(3)];
    /// assert!(Table::format(&mut buffer, 3)?.is_empty());
    /// # Ok::<(), plavdrosa::Refusal>(())
    /// ```
    pub fn is_empty(&self) -> bool {
        self.len() == 0
    }

    /// Offers an event, as a message. The table changes only if the answer is [`Verdict::Stored`].
    ///
    /// ```
    /// use plavdrosa::{Refusal, Table, Verdict, sample, table_size};
    /// let mut buffer = [0; table_size(1)];
    /// let mut table = Table::format(&mut buffer, 1)?;
    /// assert_eq!(table.offer(sample::EVENT), Ok(Verdict::Stored));
    /// assert_eq!(table.offer(sample::EVENT), Ok(Verdict::Duplicate));
    /// assert_eq!(table.offer(sample::EPHEMERAL), Ok(Verdict::Ephemeral));
    /// assert_eq!(table.offer(br#"["CLOSE","s"]"#), Err(Refusal::WrongShape));
    ///
    /// let wrong = String::from_utf8_lossy(sample::EVENT).replace("-7200", "7.2e3");
    /// assert_eq!(table.offer(wrong.as_bytes()), Err(Refusal::BadNumber { offset: wrong.find("7.2e3") }));
    /// # Ok::<(), Refusal>(())
    /// ```
    pub fn offer(&mut self, message: &[u8]) -> Result<Verdict, Refusal> {
        let mut offset = 0;
        verdict(ffi::offer(self.bytes, message, &mut offset)).map_err(|refusal| placed(refusal, offset))
    }

    /// Offers an event, as parts of `bytes`. A refusal of parts has no offset.
    ///
    /// ```
    /// use plavdrosa::{Message, Table, Verdict, read, sample, table_size};
    /// let mut buffer = [0; table_size(1)];
    /// let mut table = Table::format(&mut buffer, 1)?;
    /// let Message::Event(parts) = read(sample::EVENT)? else { panic!() };
    /// assert_eq!(table.offer_parts(sample::EVENT, &parts), Ok(Verdict::Stored));
    /// # Ok::<(), plavdrosa::Refusal>(())
    /// ```
    pub fn offer_parts(&mut self, bytes: &[u8], parts: &EventParts) -> Result<Verdict, Refusal> {
        verdict(ffi::offer_parts(self.bytes, bytes, &event_numbers(parts)))
    }

    /// Tells what [`Table::offer`] would answer, without storing.
    ///
    /// ```
    /// use plavdrosa::{Table, Verdict, sample, table_size};
    /// let mut buffer = [0; table_size(1)];
    /// let table = Table::format(&mut buffer, 1)?;
    /// assert_eq!(table.judge(sample::EVENT), Ok(Verdict::Stored));
    /// assert!(table.is_empty());
    /// # Ok::<(), plavdrosa::Refusal>(())
    /// ```
    pub fn judge(&self, message: &[u8]) -> Result<Verdict, Refusal> {
        let mut offset = 0;
        verdict(ffi::judge(self.bytes, message, &mut offset)).map_err(|refusal| placed(refusal, offset))
    }

    /// Shows the text of a slot: the very bytes in the table. Refused by 14 if the slot is not held.
    ///
    /// ```
    /// use plavdrosa::{Refusal, Table, sample, table_size};
    /// let mut buffer = [0; table_size(2)];
    /// let mut table = Table::format(&mut buffer, 2)?;
    /// table.offer(sample::EVENT)?;
    /// assert!(table.show(0)?.ends_with(br#","corridor"]"#));
    /// assert_eq!(table.show(1), Err(Refusal::NoSlot));
    /// # Ok::<(), Refusal>(())
    /// ```
    pub fn show(&self, slot: usize) -> Result<&[u8], Refusal> {
        let (mut place, mut len) = (0, 0);
        done(ffi::show(self.bytes, slot, &mut place, &mut len))?;
        Ok(&self.bytes[place..place + len])
    }

    /// Lists the slots that a REQ is answered with, newest first, each once. A row of as many numbers as the table has slots is always enough, so
    /// one of [`MAX_CAPACITY`](crate::MAX_CAPACITY) for any table; one too short for the answer is refused by 13.
    ///
    /// ```
    /// use plavdrosa::{Message, Table, read, sample, table_size};
    /// let mut buffer = [0; table_size(2)];
    /// let mut table = Table::format(&mut buffer, 2)?;
    /// table.offer(sample::EVENT)?;
    /// let mut row = [0; 2];
    /// let message = br#"["REQ","s",{"kinds":[30078]}]"#;
    /// let Message::Req(parts) = read(message)? else { panic!() };
    /// assert_eq!(table.list(message, &parts, &mut row)?, [0]);
    /// # Ok::<(), plavdrosa::Refusal>(())
    /// ```
    pub fn list<'r>(&self, message: &[u8], request: &ReqParts, row: &'r mut [u16]) -> Result<&'r [u16], Refusal> {
        let mut count = 0;
        done(ffi::list(
            self.bytes,
            message,
            &request_numbers(request),
            row,
            &mut count,
        ))?;
        Ok(&row[..count])
    }

    /// Answers one message and updates the table: calls `each` with every reply, without the line's end, and gives the bytes written, where
    /// each reply is ended with a line's end.
    ///
    /// A message that is refused gets the reply for it; the call itself is refused only by 13, which never happens with an output of
    /// [`output_size`](crate::output_size)`(capacity)` bytes. Table and output stay as they were then.
    ///
    /// ```
    /// use plavdrosa::{Table, output_size, table_size};
    /// let mut buffer = [0; table_size(1)];
    /// let mut out = [0; output_size(1)];
    /// let mut table = Table::format(&mut buffer, 1)?;
    /// table.respond(b"{}", &mut out, |line| assert_eq!(line, br#"["NOTICE","invalid: wrong shape"]"#))?;
    /// let written = table.respond(br#"["REQ","s",{}]"#, &mut out, |_| ())?;
    /// assert_eq!(written, b"[\"EOSE\",\"s\"]\n");
    /// # Ok::<(), plavdrosa::Refusal>(())
    /// ```
    pub fn respond<'o>(
        &mut self,
        message: &[u8],
        out: &'o mut [u8],
        each: impl FnMut(&[u8]),
    ) -> Result<&'o [u8], Refusal> {
        let mut written = 0;
        done(ffi::respond(self.bytes, message, out, &mut written))?;
        let replies = &out[..written];
        each_line(replies, each);
        Ok(replies)
    }

    /// Writes the EVENT of a slot for a subscription id that is a part of `message`, without a line's end.
    /// [`output_size`](crate::output_size)`(1)` bytes are always enough.
    ///
    /// ```
    /// use plavdrosa::{Message, Table, output_size, read, sample, table_size};
    /// let mut buffer = [0; table_size(1)];
    /// let mut table = Table::format(&mut buffer, 1)?;
    /// table.offer(sample::EVENT)?;
    /// let message = br#"["REQ","s",{}]"#;
    /// let Message::Req(parts) = read(message)? else { panic!() };
    /// let mut out = [0; output_size(1)];
    /// assert!(table.slot_event(0, message, parts.subscription, &mut out)?.starts_with(br#"["EVENT","s",{"id":"afb4"#));
    /// # Ok::<(), plavdrosa::Refusal>(())
    /// ```
    pub fn slot_event<'o>(
        &self,
        slot: usize,
        message: &[u8],
        subscription: Span,
        out: &'o mut [u8],
    ) -> Result<&'o [u8], Refusal> {
        let mut written = 0;
        done(ffi::slot_event(
            self.bytes,
            slot,
            message,
            subscription,
            out,
            &mut written,
        ))?;
        Ok(&out[..written])
    }

    /// Writes the EVENTs of some slots, each with a line's end: as many as fit whole, from the first on. Gives the bytes, and of how many slots
    /// they are; refused by 13 if not even the first fits.
    ///
    /// ```
    /// use plavdrosa::{Message, Table, output_size, read, sample, table_size};
    /// let mut buffer = [0; table_size(1)];
    /// let mut table = Table::format(&mut buffer, 1)?;
    /// table.offer(sample::EVENT)?;
    /// let message = br#"["REQ","s",{}]"#;
    /// let Message::Req(parts) = read(message)? else { panic!() };
    /// let mut out = [0; output_size(1)];
    /// let (lines, sent) = table.events(&[0], message, parts.subscription, &mut out)?;
    /// assert!(lines.ends_with(b"\n"));
    /// assert_eq!(sent, 1);
    /// # Ok::<(), plavdrosa::Refusal>(())
    /// ```
    pub fn events<'o>(
        &self,
        slots: &[u16],
        message: &[u8],
        subscription: Span,
        out: &'o mut [u8],
    ) -> Result<(&'o [u8], usize), Refusal> {
        let (mut written, mut sent) = (0, 0);
        done(ffi::events(
            self.bytes,
            slots,
            message,
            subscription,
            out,
            &mut written,
            &mut sent,
        ))?;
        Ok((&out[..written], sent))
    }

    pub(crate) fn lent(&mut self) -> &mut [u8] {
        self.bytes
    }
}

// A number of the header: four bytes, little-endian.
fn number_at(bytes: &[u8], at: usize) -> usize {
    let mut number = [0; 4];
    number.copy_from_slice(&bytes[at..at + 4]);
    u32::from_le_bytes(number) as usize
}
