// Matching in plain Rust: lent filters tested, an event matched against them, and a REQ answered from a table, which is tested for soundness first.
use crate::plain_event;
use crate::plain_message::{self, Event, Filter};
use crate::plain_table::{self, number, slot, word, MOST_SLOTS, TEXT};
use std::borrow::Cow;
use std::cmp::{Ordering, Reverse};

// A filter with its members decoded.
struct Known<'a> {
    ids: Option<Vec<[u8; 32]>>,
    authors: Option<Vec<Cow<'a, [u8]>>>,
    kinds: Option<Vec<i64>>,
    since: i64,
    until: i64,
    limit: usize,
    conditions: Vec<(u8, Vec<Cow<'a, [u8]>>)>,
}

pub fn decoded(s: &[u8]) -> Cow<'_, [u8]> {
    if s.contains(&b'\\') { Cow::Owned(plain_message::decode(s)) } else { Cow::Borrowed(s) }
}

fn bytes_of(hex: &[u8]) -> [u8; 32] {
    let digit = |b: u8| if b <= b'9' { b - b'0' } else { b - b'a' + 10 };
    let mut out = [0; 32];
    for (o, h) in out.iter_mut().zip(hex.chunks_exact(2)) {
        *o = digit(h[0]) << 4 | digit(h[1]);
    }
    out
}

fn known<'a>(m: &'a [u8], f: &Filter) -> Known<'a> {
    let strings = |at: usize| -> Vec<Cow<'a, [u8]>> { plain_message::strings_at(m, at).into_iter().map(decoded).collect() };
    Known {
        ids: f.lists[0].map(|at| strings(at).iter().map(|s| bytes_of(s)).collect()),
        authors: f.lists[1].map(strings),
        kinds: f.lists[2].map(|at| plain_message::numbers_at(m, at)),
        since: f.bounds[0].unwrap_or(i64::MIN),
        until: f.bounds[1].unwrap_or(i64::MAX),
        limit: f.bounds[2].map_or(usize::MAX, |n| n as usize),
        conditions: plain_message::conditions_at(m, f.at).into_iter().map(|(letter, at)| (letter, strings(at))).collect(),
    }
}

// The string at a place of a text that is known to be a serialisation, and the place after it.
fn string_at(t: &[u8], at: usize) -> (&[u8], usize) {
    let mut end = at + 1;
    while t[end] != b'"' {
        end += if t[end] == b'\\' { 2 } else { 1 };
    }
    (&t[at + 1..end], end + 1)
}

// Some tag of the text named so has a second string that is among the members.
fn holds(t: &[u8], letter: u8, members: &[Cow<[u8]>]) -> bool {
    let mut at = 70;
    for _ in 0..2 {
        at += t[at..].iter().position(|&b| b == b',').unwrap() + 1;
    }
    at += 1;
    while t[at] == b'[' {
        let (name, mut next) = string_at(t, at + 1);
        let named = name == [letter];
        let mut k = 1;
        while t[next] == b',' {
            let (s, after) = string_at(t, next + 1);
            if named && k == 1 {
                let s = decoded(s);
                if members.iter().any(|m| m[..] == s[..]) {
                    return true;
                }
            }
            k += 1;
            next = after;
        }
        at = next + 1;
        at += (t[at] == b',') as usize;
    }
    false
}

impl Known<'_> {
    fn matches(&self, id: &[u8], time: i64, kind: i64, text: &[u8]) -> bool {
        self.ids.as_ref().map_or(true, |l| l.iter().any(|x| x == id))
            && self.authors.as_ref().map_or(true, |l| l.iter().any(|x| x[..] == text[4..68]))
            && self.kinds.as_ref().map_or(true, |l| l.contains(&kind))
            && self.since <= time
            && time <= self.until
            && self.conditions.iter().all(|(letter, members)| holds(text, *letter, members))
    }
}

// The lowest of rows 2 and 4 to 8 of lent filters, or 9.
fn filters_row(m: &[u8], fs: &[Filter]) -> u8 {
    let row = fs.iter().map(|f| plain_message::filter_row(m, f)).min().unwrap_or(9);
    if (1..=4).contains(&fs.len()) { row } else { row.min(8) }
}

// Whether an event of lent parts matches some filter, or the row.
pub fn matched(b: &[u8], e: &Event, m: &[u8], fs: &[Filter]) -> Result<bool, u8> {
    let row = plain_event::event_row(b, e).min(filters_row(m, fs));
    if row < 9 {
        return Err(row);
    }
    let t = plain_event::text_of(b, &e.body);
    if t.large {
        return Err(9);
    }
    let id = bytes_of(&decoded(&b[e.id.start..e.id.start + e.id.len]));
    Ok(fs.iter().any(|f| known(m, f).matches(&id, e.body.created_at, e.body.kind, &t.bytes[..t.len])))
}

// The slots that a REQ is answered with, newest first: how many were written, or the row.
pub fn list(b: &[u8], m: &[u8], fs: &[Filter], row: &mut [u16]) -> Result<usize, u8> {
    let refused = filters_row(m, fs);
    if refused < 9 {
        return Err(refused);
    }
    answer(b, m, fs, row, true)
}

// What slots are ordered by, newest first: the time, the first bytes of the id, and the whole id where these are alike.
struct Age {
    first: (Reverse<i64>, u64),
    slot: u16,
}

fn age(b: &[u8], k: usize) -> Age {
    let s = slot(b, k);
    Age { first: (Reverse(word(&s[96..]) as i64), word(s).swap_bytes()), slot: k as u16 }
}

fn order(b: &[u8]) -> impl Fn(&Age, &Age) -> Ordering + '_ {
    move |x, y| x.first.cmp(&y.first).then_with(|| slot(b, x.slot as usize)[..32].cmp(&slot(b, y.slot as usize)[..32]))
}

// The same of filters that passed their rows; soundness is tested if that is asked for.
pub fn answer(b: &[u8], m: &[u8], fs: &[Filter], row: &mut [u16], test: bool) -> Result<usize, u8> {
    if test && !plain_table::sound(b) {
        return Err(11);
    }
    let held = number(b, 4, 4);
    let mut picked = [false; MOST_SLOTS];
    for f in fs {
        let f = known(m, f);
        let matches = (0..held).filter(|&k| {
            let s = slot(b, k);
            let text = &s[TEXT..TEXT + number(s, 106, 2)];
            f.matches(&s[..32], word(&s[96..]) as i64, number(s, 104, 2) as i64, text)
        });
        if held <= f.limit {
            matches.for_each(|k| picked[k] = true);
            continue;
        }
        let mut list: Vec<Age> = matches.map(|k| age(b, k)).collect();
        if f.limit < list.len() {
            list.select_nth_unstable_by(f.limit, order(b));
            list.truncate(f.limit);
        }
        for a in list {
            picked[a.slot as usize] = true;
        }
    }
    let mut all: Vec<Age> = (0..held).filter(|&k| picked[k]).map(|k| age(b, k)).collect();
    if row.len() < all.len() {
        return Err(13);
    }
    all.sort_unstable_by(order(b));
    for (to, a) in row.iter_mut().zip(&all) {
        *to = a.slot;
    }
    Ok(all.len())
}
