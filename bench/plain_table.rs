// A table in plain Rust, with the same layout: soundness by one pass over the slots, offers as a message and as parts, a slot shown.
// Ids and keys are told apart by marks of eight bytes in a hash table, and compared whole where marks meet.
use crate::plain_event::{self, Text, MOST_TEXT};
use crate::plain_message::{self, Event, Refusal, Span};
use crate::plain_sha256;

pub const MOST_SLOTS: usize = 1024;
pub const HEADER: usize = 16;
pub const TEXT: usize = 112;
pub const SLOT: usize = TEXT + MOST_TEXT;

pub fn size(capacity: usize) -> usize {
    HEADER + capacity * SLOT
}

pub fn number(b: &[u8], at: usize, len: usize) -> usize {
    b[at..at + len].iter().rev().fold(0, |n, &x| n << 8 | x as usize)
}

pub fn word(b: &[u8]) -> u64 {
    u64::from_le_bytes(b[..8].try_into().unwrap())
}

pub fn format(b: &mut [u8], capacity: usize) -> u8 {
    if !(1..=MOST_SLOTS).contains(&capacity) {
        return 14;
    }
    if b.len() < size(capacity) {
        return 13;
    }
    b[..size(capacity)].fill(0);
    b[..4].copy_from_slice(&(capacity as u32).to_le_bytes());
    b[8..12].copy_from_slice(&(SLOT as u32).to_le_bytes());
    b[12] = HEADER as u8;
    0
}

#[derive(PartialEq)]
enum Class {
    Regular,
    Replaceable,
    Ephemeral,
    Addressable,
}

fn class(kind: usize) -> Class {
    match kind {
        0 | 3 | 10000..=19999 => Class::Replaceable,
        20000..=29999 => Class::Ephemeral,
        30000..=39999 => Class::Addressable,
        _ => Class::Regular,
    }
}

pub fn slot(b: &[u8], k: usize) -> &[u8] {
    &b[size(k)..size(k + 1)]
}

fn all_zero(s: &[u8]) -> bool {
    s.iter().fold(0, |a, &x| a | x) == 0
}

// The fields of a slot agree with its text; "zero after its end".
fn slot_sound(s: &[u8]) -> bool {
    let len = number(s, 106, 2);
    if MOST_TEXT < len {
        return false;
    }
    let Ok(p) = plain_event::read_text(&s[TEXT..TEXT + len]) else { return false };
    let kind = number(s, 104, 2);
    let class = class(kind);
    let d = if class == Class::Addressable { (p.d.start, p.d.len) } else { (0, 0) };
    word(&s[96..]) == p.time as u64
        && kind as i64 == p.kind
        && class != Class::Ephemeral
        && (number(s, 108, 2), number(s, 110, 2)) == d
        && all_zero(&s[TEXT + len..])
}

// Kind, d and pubkey of a slot that has a key.
type Key<'a> = (usize, &'a [u8], &'a [u8]);

fn key(s: &[u8]) -> Option<Key<'_>> {
    let kind = number(s, 104, 2);
    if !matches!(class(kind), Class::Replaceable | Class::Addressable) {
        return None;
    }
    let d = TEXT + number(s, 108, 2);
    Some((kind, &s[d..d + number(s, 110, 2)], &s[TEXT + 4..TEXT + 68]))
}

const MIX: u64 = 0x9e37_79b9_7f4a_7c15;

// Equal for equal keys.
fn key_mark((kind, d, pubkey): Key) -> u64 {
    let mix = |mark: u64, part: u64| (mark ^ part).wrapping_mul(MIX).rotate_left(29);
    let parts = d.chunks_exact(8);
    let rest = parts.remainder().iter().fold(d.len() as u64, |n, &b| n << 8 | b as u64);
    mix(parts.fold(kind as u64 ^ word(pubkey), |mark, part| mix(mark, word(part))), rest)
}

// Slots by their marks, in an open table of at least twice as many places.
struct Marks {
    marks: Vec<u64>,
    // the slot's number and one, or 0
    places: Vec<u16>,
    shift: u32,
}

impl Marks {
    fn new(slots: usize) -> Self {
        let n = (2 * slots).next_power_of_two().max(2);
        Marks { marks: vec![0; slots], places: vec![0; n], shift: 64 - n.trailing_zeros() }
    }

    // Slot k goes in; whether one before it has its mark and is the same.
    fn again(&mut self, k: usize, mark: u64, same: impl Fn(usize) -> bool) -> bool {
        let mut at = (mark.wrapping_mul(MIX) >> self.shift) as usize;
        while self.places[at] != 0 {
            let j = self.places[at] as usize - 1;
            if self.marks[j] == mark && same(j) {
                return true;
            }
            at = (at + 1) & (self.places.len() - 1);
        }
        self.marks[k] = mark;
        self.places[at] = k as u16 + 1;
        false
    }
}

pub fn sound(b: &[u8]) -> bool {
    if b.len() < HEADER {
        return false;
    }
    let (n, c) = (number(b, 0, 4), number(b, 4, 4));
    if !(1..=MOST_SLOTS).contains(&n) || b.len() < size(n) || n < c || number(b, 8, 4) != SLOT || number(b, 12, 4) != HEADER {
        return false;
    }
    let (mut ids, mut keys) = (Marks::new(c), Marks::new(c));
    for k in 0..c {
        let s = slot(b, k);
        if !slot_sound(s) || ids.again(k, word(s), |j| slot(b, j)[..32] == s[..32]) {
            return false;
        }
        if key(s).is_some_and(|of_s| keys.again(k, key_mark(of_s), |j| key(slot(b, j)) == Some(of_s))) {
            return false;
        }
    }
    all_zero(&b[size(c)..size(n)])
}

// 0 stored, 100 ephemeral, 101 duplicate, 102 older, or the row. Soundness is tested if that is asked for.
pub fn offer_event(b: &mut [u8], m: &[u8], e: &Event, test: bool) -> u8 {
    let t = plain_event::text_of(m, &e.body);
    if t.large {
        return 9;
    }
    let mut id = [0; 32];
    unhex(m, e.id, &mut id);
    if plain_sha256::digest(&t.bytes[..t.len]) != id {
        return 10;
    }
    let mut sig = [0; 64];
    unhex(m, e.sig, &mut sig);
    if test && !sound(b) {
        return 11;
    }
    verdict(b, &new_slot(e, &t, &id, &sig))
}

fn unhex(m: &[u8], p: Span, out: &mut [u8]) {
    let digit = |b: u8| if b <= b'9' { b - b'0' } else { b - b'a' + 10 };
    plain_message::decoded(&m[p.start..p.start + p.len], |s| {
        for (o, h) in out.iter_mut().zip(s.chunks_exact(2)) {
            *o = digit(h[0]) << 4 | digit(h[1]);
        }
    })
}

fn new_slot(e: &Event, t: &Text, id: &[u8], sig: &[u8]) -> [u8; SLOT] {
    let mut s = [0; SLOT];
    let text = &t.bytes[..t.len];
    s[..32].copy_from_slice(id);
    s[32..96].copy_from_slice(sig);
    s[96..104].copy_from_slice(&e.body.created_at.to_le_bytes());
    s[104..106].copy_from_slice(&(e.body.kind as u16).to_le_bytes());
    s[106..108].copy_from_slice(&(t.len as u16).to_le_bytes());
    if class(e.body.kind as usize) == Class::Addressable {
        let d = plain_event::read_text(text).map(|p| p.d).unwrap_or_default();
        s[108..110].copy_from_slice(&(d.start as u16).to_le_bytes());
        s[110..112].copy_from_slice(&(d.len as u16).to_le_bytes());
    }
    s[TEXT..TEXT + t.len].copy_from_slice(text);
    s
}

fn verdict(b: &mut [u8], new: &[u8; SLOT]) -> u8 {
    let (n, c) = (number(b, 0, 4), number(b, 4, 4));
    if class(number(new, 104, 2)) == Class::Ephemeral {
        return 100;
    }
    if (0..c).any(|k| slot(b, k)[..32] == new[..32]) {
        return 101;
    }
    let at = key(new).and_then(|key_of_new| (0..c).find(|&k| key(slot(b, k)) == Some(key_of_new)));
    if let Some(k) = at {
        let age = |s: &[u8]| -> (i64, [u8; 32]) { (-(word(&s[96..]) as i64), s[..32].try_into().unwrap()) };
        if age(slot(b, k)) < age(new) {
            return 102;
        }
    } else if c == n {
        return 12;
    }
    let k = at.unwrap_or(c);
    b[size(k)..size(k + 1)].copy_from_slice(new);
    if k == c {
        b[4..8].copy_from_slice(&(c as u32 + 1).to_le_bytes());
    }
    0
}

pub fn offer(b: &mut [u8], m: &[u8]) -> Refusal {
    match plain_message::read_event(m) {
        Ok(e) => Refusal::plain(offer_event(b, m, &e, true)),
        Err(refusal) => refusal,
    }
}

pub fn offer_parts(b: &mut [u8], m: &[u8], e: &Event) -> u8 {
    let row = plain_event::event_row(m, e);
    if row < 9 {
        return row;
    }
    offer_event(b, m, e, true)
}

// The place and the length of a slot's text, or the row.
pub fn show(b: &[u8], k: usize) -> Result<(usize, usize), u8> {
    if !sound(b) {
        return Err(11);
    }
    if number(b, 4, 4) <= k {
        return Err(14);
    }
    Ok((size(k) + TEXT, number(slot(b, k), 106, 2)))
}
