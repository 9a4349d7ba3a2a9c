// The calls on a table beside plain Rust: every line of table_cases answered alike, then times and stack. `run` has tables of 64 slots; `large`
// has the same calls on tables of 64 slots and of the most, named alike, so that bench/run tells the cost of a slot in each.
use crate::plain_message::{self, Body, Event, Refusal, Span};
use crate::plain_table::{self, HEADER, MOST_SLOTS, SLOT};
use crate::{placed, plain_sha256, race, row, stack, NO_PLACE};
use std::cell::RefCell;
use std::hint::black_box;

// The slots of the tables of `run`.
pub const FEW: usize = 64;
// Those of `large`.
pub const SIZES: [usize; 2] = [FEW, MOST_SLOTS];

extern "C" {
    fn plavdrosa_format(table: *mut u8, len: usize, capacity: usize) -> u8;
    fn plavdrosa_sound(table: *const u8, len: usize) -> u8;
    fn plavdrosa_offer(table: *mut u8, len: usize, message: *const u8, message_len: usize, offset: *mut usize) -> u8;
    fn plavdrosa_offer_parts(table: *mut u8, len: usize, bytes: *const u8, bytes_len: usize, event: *const u64, event_len: usize) -> u8;
    fn plavdrosa_show(table: *const u8, len: usize, slot: usize, place: *mut usize, text_len: *mut usize) -> u8;
}

fn format(t: &mut [u8], capacity: usize) -> u8 {
    unsafe { plavdrosa_format(t.as_mut_ptr(), t.len(), capacity) }
}

fn sound(t: &[u8]) -> bool {
    unsafe { plavdrosa_sound(t.as_ptr(), t.len()) == 0 }
}

fn offer(t: &mut [u8], m: &[u8]) -> Refusal {
    let mut at = NO_PLACE;
    let row = unsafe { plavdrosa_offer(t.as_mut_ptr(), t.len(), m.as_ptr(), m.len(), &mut at) };
    placed(row, at)
}

fn offer_parts(t: &mut [u8], m: &[u8], e: &Event) -> u8 {
    let mut n = crate::body_numbers(&e.body);
    n[1] = e.id.start as u64;
    n[2] = e.id.len as u64;
    n[10] = e.sig.start as u64;
    n[11] = e.sig.len as u64;
    unsafe { plavdrosa_offer_parts(t.as_mut_ptr(), t.len(), m.as_ptr(), m.len(), n.as_ptr(), n.len()) }
}

fn show(t: &[u8], slot: usize) -> Result<(usize, usize), u8> {
    let (mut place, mut len) = (0, 0);
    match unsafe { plavdrosa_show(t.as_ptr(), t.len(), slot, &mut place, &mut len) } {
        0 => Ok((place, len)),
        row => Err(row),
    }
}

// ---- Both sides answer and write alike.
fn parts_of(n: &[i64]) -> Event {
    let span = |k: usize| Span { start: n[k] as usize, len: n[k + 1] as usize };
    let body = Body { pubkey: span(2), created_at: n[4], kind: n[5], tags: n[6] as usize, content: span(7) };
    Event { id: span(0), body, sig: span(9) }
}

fn replay() {
    let cases = include_bytes!("../crates/table_cases/stdin");
    let mut lent = vec![0u8; 65536];
    let room = plain_table::size(MOST_SLOTS) + 256;
    let (mut proved, mut plain, mut n) = (vec![0u8; room], vec![0u8; room], 0);
    for line in cases.split(|&b| b == b'\n').filter(|l| !l.is_empty()) {
        if line[0] == b'B' {
            lent[..line.len() - 2].copy_from_slice(&line[2..]);
            continue;
        }
        let text = std::str::from_utf8(line).unwrap();
        let v: Vec<i64> = text.split(' ').skip(1).map(|s| s.parse().unwrap()).collect();
        let at = |k: usize| v[k] as usize;
        let (p, q) = (&mut proved[..], &mut plain[..]);
        match line[0] {
            b'L' => {
                n = at(0);
                p[..n].fill(v[1] as u8);
                q[..n].fill(v[1] as u8);
            }
            b'X' => {
                p[at(0)] ^= v[1] as u8;
                q[at(0)] ^= v[1] as u8;
            }
            b'F' => assert_eq!(format(&mut p[..n], at(0)), plain_table::format(&mut q[..n], at(0)), "{text}"),
            b'M' => {
                let m = &lent[at(0)..at(0) + at(1)];
                assert_eq!(offer(&mut p[..n], m), plain_table::offer(&mut q[..n], m), "{text}");
            }
            b'P' => {
                let e = parts_of(&v);
                assert_eq!(offer_parts(&mut p[..n], &lent, &e), plain_table::offer_parts(&mut q[..n], &lent, &e), "{text}");
            }
            b'H' => assert_eq!(show(&p[..n], at(0)), plain_table::show(&q[..n], at(0)), "{text}"),
            _ => (),
        }
        let (p, q) = (&proved[..n], &plain[..n]);
        assert_eq!(sound(p), plain_table::sound(q), "{text}");
        assert!(p == q, "{text}");
    }
}

// Ids and keys that are held twice, at both ends of a full table and within it, and such that are nearly alike.
fn twice_alike(capacity: usize) {
    let t = table(capacity, capacity, 30000, SMALL);
    let agreed = |t: &[u8], want: bool, say: &str| assert_eq!((sound(t), plain_table::sound(t)), (want, want), "{say}");
    agreed(&t, true, "tiles");
    let last = capacity - 1;
    for (i, j) in [(0, 1), (0, last), (1, 0), (last - 1, last), (last, 0), (last / 2, last / 2 + 1), (last / 3, last)] {
        let (from, to) = (plain_table::size(i), plain_table::size(j));
        let changed = |n: usize, flip: usize| {
            let mut u = t.clone();
            u.copy_within(from..from + n, to);
            u[to + flip] ^= 1;
            u
        };
        agreed(&changed(32, 32), false, "an id");
        agreed(&changed(32, 31), true, "an id but for its last byte");
        agreed(&changed(4, 4), true, "four bytes of an id");
        agreed(&changed(8, 31), true, "eight bytes of an id");
        agreed(&changed(SLOT, 0), false, "a key");
    }
    for held in [1, 2, capacity / 2, capacity] {
        let mut u = t.clone();
        u[4..8].copy_from_slice(&(held as u32).to_le_bytes());
        agreed(&u, held == capacity, "slots behind the count");
        u[plain_table::size(held)..].fill(0);
        agreed(&u, true, "fewer slots");
    }
    for floors in [2, 8, capacity] {
        agreed(&of_floors(capacity, floors), true, "tiles of floors");
    }
    agreed(&ending_alike(capacity), true, "d that end alike");
    agreed(&alike_at_both_ends(capacity), true, "d that begin and end alike");
}

// ---- Events and tables.
pub const PUBKEY: &str = "5c83da77af1dec6d7289834998ad7aafbd9e2191396d75ec3cc27f5a77226f36";

fn message(time: i64, kind: u32, d: &str, content: &str) -> Vec<u8> {
    message_by(PUBKEY, time, kind, d, content)
}

fn message_by(pubkey: &str, time: i64, kind: u32, d: &str, content: &str) -> Vec<u8> {
    message_with(pubkey, time, kind, &format!("[\"d\",\"{d}\"]"), content)
}

pub fn message_with(pubkey: &str, time: i64, kind: u32, tags: &str, content: &str) -> Vec<u8> {
    let text = format!("[0,\"{pubkey}\",{time},{kind},[{tags}],\"{content}\"]");
    let id: String = plain_sha256::digest(text.as_bytes()).iter().map(|b| format!("{b:02x}")).collect();
    let sig = "0f".repeat(64);
    let head = format!("[\"EVENT\",{{\"id\":\"{id}\",\"pubkey\":\"{pubkey}\",\"created_at\":{time},\"kind\":{kind},");
    (head + &format!("\"tags\":[{tags}],\"content\":\"{content}\",\"sig\":\"{sig}\"}}]")).into_bytes()
}

pub const SMALL: &str = "the shelf by the door has moved";

// A text of about 4,096 bytes of one kind.
pub fn full(unit: &str) -> String {
    unit.repeat(3950 / unit.len())
}

pub fn tile(k: usize) -> String {
    format!("floor-3/tile-{k:04}")
}

// The tiles from 1 on, of one pubkey and kind.
fn table(capacity: usize, held: usize, kind: u32, content: &str) -> Vec<u8> {
    table_by(capacity, held, |k| message(1700000000, kind, &tile(k), content))
}

// A full table of tiles of several floors, which are numbered alike: their d differ in the floor.
fn of_floors(capacity: usize, floors: usize) -> Vec<u8> {
    table_by(capacity, capacity, |k| message(1700000000, 30000, &format!("floor-{}/tile-{:04}", k % floors, k / floors), SMALL))
}

// A full table of tiles whose d begin with their number and end alike.
fn ending_alike(capacity: usize) -> Vec<u8> {
    table_by(capacity, capacity, |k| message(1700000000, 30000, &format!("{k:04}/tile-of-the-new-wing"), SMALL))
}

// And of tiles whose d begin and end alike, both for longer than a mark takes in: they are compared whole, each with each.
fn alike_at_both_ends(capacity: usize) -> Vec<u8> {
    table_by(capacity, capacity, |k| message(1700000000, 30000, &format!("corridor-of-the-north-wing/{k:04}/as-seen-by-cart-7"), SMALL))
}

// Soundness is not asked at each offer, but in the end.
pub fn table_by(capacity: usize, held: usize, event: impl Fn(usize) -> Vec<u8>) -> Vec<u8> {
    let mut t = vec![0u8; plain_table::size(capacity)];
    assert_eq!(plain_table::format(&mut t, capacity), 0);
    for k in 0..held {
        let m = event(k + 1);
        let e = plain_message::read_event(&m).unwrap();
        assert_eq!(plain_table::offer_event(&mut t, &m, &e, false), 0);
    }
    assert!(plain_table::sound(&t));
    t
}

fn sound_timed(name: &str, t: &[u8]) {
    assert_eq!((sound(t), plain_table::sound(t)), (true, true), "{name}");
    let (proved, plain) = race(
        || {
            black_box(sound(black_box(t)));
        },
        || {
            black_box(plain_table::sound(black_box(t)));
        },
    );
    row(&format!("sound, {name}"), proved, plain);
}

// An offer that is taken back each time: the header and the slot that it may fill are copied from the table before it.
fn offer_timed(name: &str, t: &[u8], slot: usize, want: u8, mut call: impl FnMut(&mut [u8]) -> u8, mut other: impl FnMut(&mut [u8]) -> u8) {
    let at = plain_table::size(slot);
    let back = |t: &[u8], u: &mut [u8]| {
        u[..HEADER].copy_from_slice(&t[..HEADER]);
        u[at..at + SLOT].copy_from_slice(&t[at..at + SLOT]);
    };
    let (mut p, mut q) = (t.to_vec(), t.to_vec());
    assert_eq!((call(&mut p), other(&mut q)), (want, want), "{name}");
    assert!(p == q, "{name}");
    back(t, &mut p);
    back(t, &mut q);
    assert!(p == t, "{name}");
    let (proved, plain) = race(
        || {
            black_box(call(black_box(&mut p)));
            back(t, &mut p);
        },
        || {
            black_box(other(black_box(&mut q)));
            back(t, &mut q);
        },
    );
    row(&format!("offer, {name}"), proved, plain);
}

fn offers_timed(name: &str, t: &[u8], held: usize, content: &str) {
    let newer = message(1800000000, 30000, &tile(held.max(1)), content);
    let mut wrong = newer.clone();
    wrong[17] = if wrong[17] == b'0' { b'1' } else { b'0' };
    let slot = held.saturating_sub(1);
    let as_message = |what: &str, want: u8, m: &[u8]| {
        offer_timed(&format!("{what}, {name}"), t, slot, want, |t| offer(t, m).row, |t| plain_table::offer(t, m).row);
    };
    as_message("stored", 0, &newer);
    let e = plain_message::read_event(&newer).unwrap();
    let parts = format!("parts, stored, {name}");
    offer_timed(&parts, t, slot, 0, |t| offer_parts(t, &newer, &e), |t| plain_table::offer_parts(t, &newer, &e));
    if held > 0 {
        as_message("duplicate", 101, &message(1700000000, 30000, &tile(held), content));
        as_message("older", 102, &message(1600000000, 30000, &tile(held), content));
    }
    as_message("refused by 10", 10, &wrong);
}

pub fn run() {
    replay();
    twice_alike(FEW);
    let (ascii, escapes, utf8) = (full("a tile of floor 3, read by cart 17 "), full("\\n\\t\\\""), full("é€𝄞жあ😀ßñ"));
    sound_timed("64 slots, empty", &table(FEW, 0, 30000, SMALL));
    for (name, held) in [("half full", FEW / 2), ("full", FEW)] {
        sound_timed(&format!("{name}, small texts, regular"), &table(FEW, held, 1, SMALL));
        sound_timed(&format!("{name}, small texts, tiles"), &table(FEW, held, 30000, SMALL));
        sound_timed(&format!("{name}, full texts"), &table(FEW, held, 30000, &ascii));
    }
    let many = table_by(FEW, FEW, |k| message_by(&format!("{}{k:02x}", &PUBKEY[2..]), 1700000000, 1, "", SMALL));
    sound_timed("full, small texts, regular, of 64 pubkeys", &many);
    sound_timed("full, full texts of escapes", &table(FEW, FEW, 30000, &escapes));
    sound_timed("full, full texts of UTF-8", &table(FEW, FEW, 30000, &utf8));
    for (name, held) in [("empty", 0), ("half full", FEW / 2), ("full", FEW)] {
        offers_timed(&format!("{name}, small texts"), &table(FEW, held, 30000, SMALL), held, SMALL);
    }
    offers_timed("full, full texts", &table(FEW, FEW, 30000, &ascii), FEW, &ascii);
    let t = table(FEW, FEW, 30000, &ascii);
    let newer = message(1800000000, 30000, &tile(1), &ascii);
    let e = plain_message::read_event(&newer).unwrap();
    let used = stack::used(|| {
        black_box(sound(black_box(&t)));
    });
    println!("stack of sound: {used} bytes");
    let mut u = t.clone();
    let used = stack::used(|| {
        black_box(offer(black_box(&mut u), &newer));
        u.copy_from_slice(&t);
    });
    println!("stack of an offer of a message: {used} bytes");
    let used = stack::used(|| {
        black_box(offer_parts(black_box(&mut u), &newer, &e));
        u.copy_from_slice(&t);
    });
    println!("stack of an offer of parts: {used} bytes");
}

// ---- Tables of 64 slots and of the most.
fn format_timed(capacity: usize) {
    let n = plain_table::size(capacity);
    // one buffer, which was written before
    let (t, mut u) = (RefCell::new(vec![1u8; n]), vec![2u8; n]);
    assert_eq!((format(&mut t.borrow_mut(), capacity), plain_table::format(&mut u, capacity)), (0, 0));
    assert!(*t.borrow() == u);
    let (proved, plain) = race(
        || {
            black_box(format(black_box(&mut t.borrow_mut()), capacity));
        },
        || {
            black_box(plain_table::format(black_box(&mut t.borrow_mut()), capacity));
        },
    );
    row(&format!("format, {capacity} slots, {n} bytes"), proved, plain);
}

// An offer as a message and as parts.
fn both_timed(name: &str, t: &[u8], slot: usize, want: u8, m: &[u8]) {
    let e = plain_message::read_event(m).unwrap();
    offer_timed(name, t, slot, want, |t| offer(t, m).row, |t| plain_table::offer(t, m).row);
    offer_timed(&format!("{name}, parts"), t, slot, want, |t| offer_parts(t, m, &e), |t| plain_table::offer_parts(t, m, &e));
}

// A version of the last tile held that is newer, its own, one that is older, and a tile that is not held.
fn versions_timed(name: &str, t: &[u8], capacity: usize, held: usize, content: &str) {
    let version = |time: i64, k: usize| message(time, 30000, &tile(k), content);
    if held > 0 {
        both_timed(&format!("{name}, newer"), t, held - 1, 0, &version(1800000000, held));
        both_timed(&format!("{name}, duplicate"), t, held - 1, 101, &version(1700000000, held));
        both_timed(&format!("{name}, older"), t, held - 1, 102, &version(1600000000, held));
    }
    let other = version(1700000000, capacity + 1);
    if held < capacity {
        both_timed(&format!("{name}, another"), t, held, 0, &other);
    } else {
        both_timed(&format!("{name}, refused by 12"), t, held - 1, 12, &other);
    }
}

pub fn large() {
    twice_alike(MOST_SLOTS);
    let ascii = full("a tile of floor 3, read by cart 17 ");
    for n in SIZES {
        let slots = format!("{n} slots");
        sound_timed(&format!("{slots}, empty"), &table(n, 0, 30000, SMALL));
        for (name, held) in [("half full", n / 2), ("full", n)] {
            sound_timed(&format!("{slots}, {name}, regular"), &table(n, held, 1, SMALL));
            sound_timed(&format!("{slots}, {name}, tiles"), &table(n, held, 30000, SMALL));
            sound_timed(&format!("{slots}, {name}, full texts"), &table(n, held, 30000, &ascii));
        }
        sound_timed(&format!("{slots}, full, tiles of 8 floors"), &of_floors(n, 8));
        sound_timed(&format!("{slots}, full, d that end alike"), &ending_alike(n));
        sound_timed(&format!("{slots}, full, d alike at both ends"), &alike_at_both_ends(n));
        for (name, held) in [("empty", 0), ("half full", n / 2), ("full", n)] {
            versions_timed(&format!("{slots}, {name}"), &table(n, held, 30000, SMALL), n, held, SMALL);
        }
        versions_timed(&format!("{slots}, full texts"), &table(n, n, 30000, &ascii), n, n, &ascii);
        format_timed(n);
    }
}
