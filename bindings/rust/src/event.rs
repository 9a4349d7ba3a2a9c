//! An event's text, its id, and what its kind makes of it.

#![forbid(unsafe_code)]

use crate::answer::done;
use crate::message::event_numbers;
use crate::{EventParts, Refusal, Span, ffi};

/// What is hashed of an event, as parts of a buffer.
///
/// ```
/// use plavdrosa::{Body, Span, serialise};
/// let bytes = br#""content" [["d","x"]] aaaaaaaaaaaaaaaaaaaaaaaaaaaaaaaaaaaaaaaaaaaaaaaaaaaaaaaaaaaaaaaa"#;
/// let body = Body {
///     pubkey: Span { start: 22, len: 64 },
///     created_at: -7200,
///     kind: 1,
///     tags: 10,
///     content: Span { start: 1, len: 7 },
/// };
/// assert!(serialise(bytes, &body, &mut [0; 4096])?.ends_with(br#",-7200,1,[["d","x"]],"content"]"#));
/// # Ok::<(), plavdrosa::Refusal>(())
/// ```
#[derive(Clone, Copy, Debug, Default, PartialEq, Eq, Hash)]
pub struct Body {
    /// The public key, 64 lower-case hex characters.
    pub pubkey: Span,
    /// The time, in seconds; negative before 1970.
    pub created_at: i64,
    /// The kind, 0 to 65,535.
    pub kind: i64,
    /// The place of the opening bracket of the tags.
    pub tags: usize,
    /// The content.
    pub content: Span,
}

/// The parts of a text that was read back. The public key is always at 4, 64 bytes long.
///
/// ```
/// use plavdrosa::{Table, read_text, sample, table_size};
/// let mut buffer = [0; table_size(1)];
/// let mut table = Table::format(&mut buffer, 1)?;
/// table.offer(sample::EVENT)?;
/// let text = table.show(0)?;
/// let parts = read_text(text)?;
/// assert_eq!(parts.created_at, -7200);
/// assert_eq!(parts.d.of(text), Some(&b"floor-3/tile-17"[..]));
/// assert_eq!(parts.content.of(text), Some(&b"corridor"[..]));
/// # Ok::<(), plavdrosa::Refusal>(())
/// ```
#[derive(Clone, Copy, Debug, Default, PartialEq, Eq, Hash)]
pub struct TextParts {
    /// The time.
    pub created_at: i64,
    /// The kind.
    pub kind: u16,
    /// The place of the opening bracket of the tags.
    pub tags: usize,
    /// The content.
    pub content: Span,
    /// The second string of the first tag named `d`, whatever the kind; at 0 and of no bytes if it is empty.
    pub d: Span,
}

/// What a kind makes of an event.
///
/// ```
/// use plavdrosa::{Class, class};
/// assert_eq!([1, 0, 20_000, 30_000].map(class), [Class::Regular, Class::Replaceable, Class::Ephemeral, Class::Addressable]);
/// ```
#[derive(Clone, Copy, Debug, PartialEq, Eq, Hash)]
pub enum Class {
    /// Every event is kept.
    Regular,
    /// The newest of a public key and kind is kept.
    Replaceable,
    /// None is kept.
    Ephemeral,
    /// The newest of a public key, kind and `d` is kept.
    Addressable,
}

/// Tells the class of a kind.
///
/// ```
/// use plavdrosa::{Class, class};
/// assert_eq!(class(40_000), Class::Regular);
/// ```
pub fn class(kind: u16) -> Class {
    match ffi::class(kind) {
        0 => Class::Regular,
        1 => Class::Replaceable,
        2 => Class::Ephemeral,
        _ => Class::Addressable,
    }
}

/// Serialises an event: the text that is hashed, from the start of `out`. 4,096 bytes are always enough. Control characters that have no short
/// escape stand raw in it.
///
/// ```
/// use plavdrosa::{Message, read, sample, serialise};
/// let Message::Event(parts) = read(sample::EVENT)? else { panic!() };
/// let mut out = [0; 4096];
/// let text = serialise(sample::EVENT, &parts.body, &mut out)?;
/// assert!(text.starts_with(br#"[0,"aaaa"#));
/// assert_eq!(text.len(), 119);
/// # Ok::<(), plavdrosa::Refusal>(())
/// ```
pub fn serialise<'o>(bytes: &[u8], body: &Body, out: &'o mut [u8]) -> Result<&'o [u8], Refusal> {
    let mut written = 0;
    done(ffi::serialise(bytes, &body_numbers(body), out, &mut written))?;
    Ok(&out[..written])
}

/// Reads a serialised text back. Refused by 9 if it has over 4,096 bytes, and by 5 if it is no event's text byte for byte.
///
/// ```
/// use plavdrosa::{Refusal, read_text};
/// let text = br#"[0,"aaaaaaaaaaaaaaaaaaaaaaaaaaaaaaaaaaaaaaaaaaaaaaaaaaaaaaaaaaaaaaaa",-7200,1,[],"a\/b"]"#;
/// assert_eq!(read_text(text), Err(Refusal::WrongShape));
/// let escaped = br#"[0,"aaaaaaaaaaaaaaaaaaaaaaaaaaaaaaaaaaaaaaaaaaaaaaaaaaaaaaaaaaaaaaaa",-7200,1,[],"\u0001"]"#;
/// assert_eq!(read_text(escaped), Err(Refusal::WrongShape));
/// let raw = b"[0,\"aaaaaaaaaaaaaaaaaaaaaaaaaaaaaaaaaaaaaaaaaaaaaaaaaaaaaaaaaaaaaaaa\",-7200,1,[],\"\x01\"]";
/// assert!(read_text(raw).is_ok());
/// ```
pub fn read_text(text: &[u8]) -> Result<TextParts, Refusal> {
    let mut row = [0; 7];
    done(ffi::read_text(text, &mut row))?;
    let [time, kind, tags, content, content_len, d, d_len] = row;
    let span = |start: u64, len: u64| Span {
        start: start as usize,
        len: len as usize,
    };
    Ok(TextParts {
        created_at: time as i64,
        kind: kind as u16,
        tags: tags as usize,
        content: span(content, content_len),
        d: span(d, d_len),
    })
}

/// Computes an event's id: the SHA-256 of its text.
///
/// ```
/// use plavdrosa::{Message, id, read, sample};
/// let Message::Event(parts) = read(sample::EVENT)? else { panic!() };
/// assert_eq!(id(sample::EVENT, &parts.body)?[..2], [0xaf, 0xb4]);
/// # Ok::<(), plavdrosa::Refusal>(())
/// ```
pub fn id(bytes: &[u8], body: &Body) -> Result<[u8; 32], Refusal> {
    let mut out = [0; 32];
    done(ffi::id(bytes, &body_numbers(body), &mut out))?;
    Ok(out)
}

/// Computes a SHA-256. Refused by 8 if there are more than 2^61 - 1 bytes.
///
/// ```
/// assert_eq!(plavdrosa::digest(b"abc")?[..4], [0xba, 0x78, 0x16, 0xbf]);
/// # Ok::<(), plavdrosa::Refusal>(())
/// ```
pub fn digest(bytes: &[u8]) -> Result<[u8; 32], Refusal> {
    let mut out = [0; 32];
    done(ffi::digest(bytes, &mut out))?;
    Ok(out)
}

// The numbers of an event that has no id and no signature.
fn body_numbers(body: &Body) -> [u64; 12] {
    event_numbers(&EventParts {
        body: *body,
        ..EventParts::default()
    })
}

/// A SHA-256 that is fed by pieces.
///
/// Its state is 104 bytes, which may be kept and gone on with: [`Digest::state`] and [`Digest::from_state`].
///
/// ```
/// use plavdrosa::{Digest, digest};
/// let mut pieces = Digest::new();
/// pieces.update(b"corr")?;
/// let mut kept = Digest::from_state(*pieces.state());
/// kept.update(b"idor")?;
/// assert_eq!(kept.finish(), digest(b"corridor"));
/// # Ok::<(), plavdrosa::Refusal>(())
/// ```
#[derive(Clone, Copy, Debug, PartialEq, Eq, Hash)]
pub struct Digest {
    state: [u8; Digest::STATE_SIZE],
}

impl Digest {
    /// The bytes of a state.
    ///
    /// ```
    /// assert_eq!(plavdrosa::Digest::STATE_SIZE, 104);
    /// ```
    pub const STATE_SIZE: usize = 104;

    /// A digest of nothing fed.
    ///
    /// ```
    /// use plavdrosa::{Digest, digest};
    /// assert_eq!(Digest::new().finish(), digest(b""));
    /// ```
    pub fn new() -> Digest {
        let mut state = [0; Digest::STATE_SIZE];
        ffi::digest_start(&mut state);
        Digest { state }
    }

    /// Feeds a piece. Refused by 8 if more than 2^61 - 1 bytes would be fed in all; the digest is then as it was.
    ///
    /// ```
    /// use plavdrosa::{Digest, Refusal};
    /// let mut state = *Digest::new().state();
    /// state[96..].fill(0xff);
    /// let mut over = Digest::from_state(state);
    /// assert_eq!(over.update(b""), Err(Refusal::BadCount));
    /// assert_eq!(*over.state(), state);
    /// ```
    pub fn update(&mut self, bytes: &[u8]) -> Result<(), Refusal> {
        done(ffi::digest_update(&mut self.state, bytes))
    }

    /// The SHA-256 of all that was fed. It may be fed on. Refused by 8 if the state counts more than 2^61 - 1 bytes.
    ///
    /// ```
    /// use plavdrosa::Digest;
    /// let mut pieces = Digest::new();
    /// pieces.update(b"a")?;
    /// pieces.update(b"bc")?;
    /// assert_eq!(pieces.finish()?[..4], [0xba, 0x78, 0x16, 0xbf]);
    /// # Ok::<(), plavdrosa::Refusal>(())
    /// ```
    pub fn finish(&self) -> Result<[u8; 32], Refusal> {
        let mut out = [0; 32];
        done(ffi::digest_finish(&self.state, &mut out))?;
        Ok(out)
    }

    /// The state, as bytes.
    ///
    /// ```
    /// use plavdrosa::Digest;
    /// assert_eq!(Digest::new().state()[..4], [0x6a, 0x09, 0xe6, 0x67]);
    /// ```
    pub fn state(&self) -> &[u8; Digest::STATE_SIZE] {
        &self.state
    }

    /// A digest that goes on from a state. Any bytes are some state.
    ///
    /// ```
    /// use plavdrosa::Digest;
    /// let started = Digest::new();
    /// assert_eq!(Digest::from_state(*started.state()), started);
    /// ```
    pub fn from_state(state: [u8; Digest::STATE_SIZE]) -> Digest {
        Digest { state }
    }
}

impl Default for Digest {
    fn default() -> Digest {
        Digest::new()
    }
}
