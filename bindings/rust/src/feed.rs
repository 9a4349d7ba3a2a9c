//! Input that comes in pieces, a message a line.

#![forbid(unsafe_code)]

use crate::answer::done;
use crate::{MAX_MESSAGE, Refusal, Table, ffi};

// A byte more than a message may have tells that the line is too long.
const LINE_SIZE: usize = MAX_MESSAGE + 1;

/// The line so far of an input that comes in pieces, as from a socket or a pipe. However the input is cut, the replies are the same. A line that
/// is too long gives one reply, and never more than [`MAX_MESSAGE`]` + 1` bytes are kept of it. So many stand in the value itself, 16 KB.
///
/// ```
/// use plavdrosa::{Feed, Table, output_size, table_size};
/// let mut buffer = [0; table_size(1)];
/// let mut out = [0; output_size(1)];
/// let mut table = Table::format(&mut buffer, 1)?;
/// let mut feed = Feed::new();
/// let mut replies = Vec::new();
/// for mut piece in [&b"[\"REQ\",\"s\""[..], b",{}]\n\n[]"] {
///     while !piece.is_empty() {
///         let used = feed.turn(&mut table, piece, &mut out, |line| replies.push(line.to_vec()))?;
///         piece = &piece[used..];
///     }
/// }
/// feed.finish(&mut table, &mut out, |line| replies.push(line.to_vec()))?;
/// assert_eq!(replies, [&br#"["EOSE","s"]"#[..], br#"["NOTICE","invalid: not JSON"]"#, br#"["NOTICE","invalid: wrong shape"]"#]);
/// # Ok::<(), plavdrosa::Refusal>(())
/// ```
#[derive(Clone, Debug)]
pub struct Feed {
    line: [u8; LINE_SIZE],
    kept: usize,
}

impl Default for Feed {
    fn default() -> Feed {
        Feed::new()
    }
}

impl Feed {
    /// An input of which nothing has come.
    ///
    /// ```
    /// assert_eq!(plavdrosa::Feed::new().kept(), 0);
    /// ```
    pub const fn new() -> Feed {
        Feed {
            line: [0; LINE_SIZE],
            kept: 0,
        }
    }

    /// How many bytes the line so far has.
    ///
    /// ```
    /// # use plavdrosa::{Feed, Table, output_size, table_size};
    /// # let mut buffer = [0; table_size(1)];
    /// # let mut out = [0; output_size(1)];
    /// # let mut table = Table::format(&mut buffer, 1)?;
    /// let mut feed = Feed::new();
    /// feed.turn(&mut table, b"[\"CLOSE\"", &mut out, |_| ())?;
    /// assert_eq!(feed.kept(), 8);
    /// # Ok::<(), plavdrosa::Refusal>(())
    /// ```
    pub const fn kept(&self) -> usize {
        self.kept
    }

    /// Feeds a piece up to its first line's end, and with it; answers the line that ends there, with a call of `each` for every reply. Gives how
    /// many bytes of the piece were used up, at least one of a piece that has some: call again with the rest. Where a part of the line was fed
    /// before and the piece has more of it, only these are used up, and the next call, which begins at the line's end, answers it. Refused by 13,
    /// with nothing used up, if the output is too short.
    ///
    /// ```
    /// # use plavdrosa::{Feed, Table, output_size, table_size};
    /// # let mut buffer = [0; table_size(1)];
    /// # let mut out = [0; output_size(1)];
    /// # let mut table = Table::format(&mut buffer, 1)?;
    /// let mut feed = Feed::new();
    /// assert_eq!(feed.turn(&mut table, b"{}\n[]\n", &mut out, |_| ())?, 3);
    /// # Ok::<(), plavdrosa::Refusal>(())
    /// ```
    pub fn turn(
        &mut self,
        table: &mut Table<'_>,
        piece: &[u8],
        out: &mut [u8],
        each: impl FnMut(&[u8]),
    ) -> Result<usize, Refusal> {
        let (used, written) = self.fed(table, piece, out)?;
        each_line(&out[..written], each);
        Ok(used)
    }

    /// Ends the input: a last line without its end is answered if it is not empty. The feed is then as new.
    ///
    /// ```
    /// # use plavdrosa::{Feed, Table, output_size, table_size};
    /// # let mut buffer = [0; table_size(1)];
    /// # let mut out = [0; output_size(1)];
    /// # let mut table = Table::format(&mut buffer, 1)?;
    /// let mut feed = Feed::new();
    /// feed.turn(&mut table, b"[", &mut out, |_| panic!())?;
    /// feed.finish(&mut table, &mut out, |line| assert_eq!(line, br#"["NOTICE","invalid: not JSON"]"#))?;
    /// # Ok::<(), plavdrosa::Refusal>(())
    /// ```
    pub fn finish(&mut self, table: &mut Table<'_>, out: &mut [u8], each: impl FnMut(&[u8])) -> Result<(), Refusal> {
        let written = self.ended(table, out)?;
        each_line(&out[..written], each);
        Ok(())
    }

    // How many bytes of the piece were used up, and how many were written.
    fn fed(&mut self, table: &mut Table<'_>, piece: &[u8], out: &mut [u8]) -> Result<(usize, usize), Refusal> {
        let (mut used, mut written) = (0, 0);
        done(ffi::turn(
            table.lent(),
            &mut self.line,
            &mut self.kept,
            piece,
            out,
            &mut used,
            &mut written,
        ))?;
        Ok((used, written))
    }

    fn ended(&mut self, table: &mut Table<'_>, out: &mut [u8]) -> Result<usize, Refusal> {
        let mut written = 0;
        done(ffi::finish(table.lent(), &self.line, self.kept, out, &mut written))?;
        self.kept = 0;
        Ok(written)
    }
}

/// Answers what a reader gives, a message a line, until it ends. A reply is written when its line has been read.
///
/// ```
/// use plavdrosa::{Table, relay, table_size};
/// let mut buffer = [0; table_size(8)];
/// let mut table = Table::format(&mut buffer, 8)?;
/// let mut replies = Vec::new();
/// relay(&mut table, &b"{}\n[\"REQ\",\"s\",{}]\n[\"CLOSE\",\"s\"]\n\n"[..], &mut replies)?;
/// assert_eq!(replies, b"[\"NOTICE\",\"invalid: wrong shape\"]\n[\"EOSE\",\"s\"]\n[\"NOTICE\",\"invalid: not JSON\"]\n");
/// # Ok::<(), Box<dyn std::error::Error>>(())
/// ```
#[cfg(feature = "std")]
pub fn relay(
    table: &mut Table<'_>,
    mut input: impl std::io::Read,
    mut output: impl std::io::Write,
) -> std::io::Result<()> {
    let mut out = vec![0; crate::output_size(table.capacity())];
    let mut chunk = vec![0; 65_536];
    let mut feed = Feed::new();
    loop {
        let n = match input.read(&mut chunk) {
            Err(e) if e.kind() == std::io::ErrorKind::Interrupted => continue,
            read => read?,
        };
        if n == 0 {
            let written = feed.ended(table, &mut out).map_err(std::io::Error::other)?;
            output.write_all(&out[..written])?;
            return output.flush();
        }
        let mut piece = &chunk[..n];
        while !piece.is_empty() {
            let (used, written) = feed.fed(table, piece, &mut out).map_err(std::io::Error::other)?;
            output.write_all(&out[..written])?;
            piece = &piece[used..];
        }
        output.flush()?;
    }
}

// The replies, without the 0A that ends each: no reply has one inside.
pub(crate) fn each_line(replies: &[u8], mut each: impl FnMut(&[u8])) {
    for line in replies.split_inclusive(|&byte| byte == b'\n') {
        each(&line[..line.len() - 1]);
    }
}
