// Times the proved library beside plain Rust on the same input, in one run, and measures the stack of its calls.
// Built and started by bench/run.
mod messages;
mod plain_event;
mod plain_json;
mod plain_message;
mod plain_query;
mod plain_sha256;
mod plain_table;
mod query;
mod stack;
mod table;

use plain_json::MOST;
use plain_message::{Body, Message, Refusal};
use std::hint::black_box;
use std::time::Instant;

// How far the code behind this is shifted: short loops gain or lose up to a half by where they stand, so bench/run builds several times.
std::arch::global_asm!(".section .text.shift,\"axR\",@progbits", concat!(".skip ", env!("SHIFT")), ".text");

extern "C" {
    fn plavdrosa_digest(bytes: *const u8, len: usize, out: *mut u8, out_len: usize) -> u8;
    fn plavdrosa_digest_start(state: *mut u8, state_len: usize) -> u8;
    fn plavdrosa_digest_update(state: *mut u8, state_len: usize, bytes: *const u8, len: usize) -> u8;
    fn plavdrosa_digest_finish(state: *const u8, state_len: usize, out: *mut u8, out_len: usize) -> u8;
    fn plavdrosa_text_row(bytes: *const u8, len: usize) -> u8;
    fn plavdrosa_message_row(bytes: *const u8, len: usize, offset: *mut usize) -> u8;
    fn plavdrosa_read(bytes: *const u8, len: usize, out: *mut u64, out_len: usize, offset: *mut usize) -> u8;
    fn plavdrosa_read_text(bytes: *const u8, len: usize, out: *mut u64, out_len: usize) -> u8;
    fn plavdrosa_serialise(bytes: *const u8, len: usize, event: *const u64, event_len: usize, out: *mut u8, out_len: usize, written: *mut usize) -> u8;
    fn plavdrosa_id(bytes: *const u8, len: usize, event: *const u64, event_len: usize, out: *mut u8, out_len: usize) -> u8;
}

fn proved_digest(bytes: &[u8]) -> [u8; 32] {
    let mut out = [0u8; 32];
    let row = unsafe { plavdrosa_digest(bytes.as_ptr(), bytes.len(), out.as_mut_ptr(), 32) };
    assert_eq!(row, 0);
    out
}

// A state that is lent as bytes.
type Lent = [u8; 104];

fn proved_start(state: &mut Lent) {
    assert_eq!(unsafe { plavdrosa_digest_start(state.as_mut_ptr(), 104) }, 0);
}

fn proved_update(state: &mut Lent, bytes: &[u8]) {
    assert_eq!(unsafe { plavdrosa_digest_update(state.as_mut_ptr(), 104, bytes.as_ptr(), bytes.len()) }, 0);
}

fn proved_finish(state: &Lent) -> [u8; 32] {
    let mut out = [0u8; 32];
    assert_eq!(unsafe { plavdrosa_digest_finish(state.as_ptr(), 104, out.as_mut_ptr(), 32) }, 0);
    out
}

fn proved_pieces(bytes: &[u8], size: usize) -> [u8; 32] {
    let mut state = [0u8; 104];
    proved_start(&mut state);
    for piece in bytes.chunks(size) {
        proved_update(&mut state, piece);
    }
    proved_finish(&state)
}

fn plain_pieces(bytes: &[u8], size: usize) -> [u8; 32] {
    let mut state = plain_sha256::State::new();
    for piece in bytes.chunks(size) {
        state.update(piece);
    }
    state.finish()
}

fn proved_text_row(bytes: &[u8]) -> u8 {
    unsafe { plavdrosa_text_row(bytes.as_ptr(), bytes.len()) }
}

// What stands in a lent offset before a call, which leaves it where no place is given.
pub const NO_PLACE: usize = usize::MAX;

pub fn placed(row: u8, at: usize) -> Refusal {
    Refusal { row, at: if at == NO_PLACE { None } else { Some(at) } }
}

fn proved_refusal(bytes: &[u8]) -> Refusal {
    let mut at = NO_PLACE;
    let row = unsafe { plavdrosa_message_row(bytes.as_ptr(), bytes.len(), &mut at) };
    placed(row, at)
}

pub type Numbers = [u64; 44];

pub fn proved_read(bytes: &[u8], out: &mut Numbers) -> Refusal {
    let mut at = NO_PLACE;
    let row = unsafe { plavdrosa_read(bytes.as_ptr(), bytes.len(), out.as_mut_ptr(), out.len(), &mut at) };
    placed(row, at)
}

fn plain_read(bytes: &[u8], out: &mut Numbers) -> Refusal {
    match plain_message::read(bytes) {
        Ok(m) => {
            m.numbers(out);
            Refusal::plain(0)
        }
        Err(refusal) => refusal,
    }
}

fn proved_read_text(bytes: &[u8], out: &mut [u64; 7]) -> u8 {
    unsafe { plavdrosa_read_text(bytes.as_ptr(), bytes.len(), out.as_mut_ptr(), out.len()) }
}

fn plain_read_text(bytes: &[u8], out: &mut [u64; 7]) -> u8 {
    match plain_event::read_text(bytes) {
        Ok(p) => {
            p.numbers(out);
            0
        }
        Err(row) => row,
    }
}

// The numbers of an EVENT, with no id and no signature.
fn body_numbers(p: &Body) -> [u64; 12] {
    let (k, c) = (p.pubkey, p.content);
    let place = |n: usize| n as u64;
    [1, 0, 0, place(k.start), place(k.len), p.created_at as u64, p.kind as u64, place(p.tags), place(c.start), place(c.len), 0, 0]
}

fn proved_serialise(b: &[u8], p: &Body, out: &mut [u8]) -> Result<usize, u8> {
    let e = body_numbers(p);
    let mut n = 0usize;
    let row = unsafe { plavdrosa_serialise(b.as_ptr(), b.len(), e.as_ptr(), e.len(), out.as_mut_ptr(), out.len(), &mut n) };
    if row == 0 { Ok(n) } else { Err(row) }
}

fn proved_id(b: &[u8], p: &Body) -> Result<[u8; 32], u8> {
    let e = body_numbers(p);
    let mut out = [0u8; 32];
    let row = unsafe { plavdrosa_id(b.as_ptr(), b.len(), e.as_ptr(), e.len(), out.as_mut_ptr(), 32) };
    if row == 0 { Ok(out) } else { Err(row) }
}

// Nanoseconds a call of each, the best of many short batches taken in turn, so that other work on the machine spoils few of them.
pub fn race<F: FnMut(), G: FnMut()>(mut f: F, mut g: G) -> (f64, f64) {
    fn batch<F: FnMut()>(f: &mut F, turns: u32) -> f64 {
        let t = Instant::now();
        for _ in 0..turns {
            f();
        }
        t.elapsed().as_nanos() as f64
    }
    let mut turns = 1u32;
    while batch(&mut f, turns) < 1e6 && turns < 1 << 24 {
        turns *= 2;
    }
    let (mut best_f, mut best_g) = (f64::MAX, f64::MAX);
    for _ in 0..60 {
        best_f = best_f.min(batch(&mut f, turns));
        best_g = best_g.min(batch(&mut g, turns));
    }
    (best_f / turns as f64, best_g / turns as f64)
}

pub fn row(name: &str, proved: f64, plain: f64) {
    println!("{name:<54} {proved:>12.0} {plain:>12.0} {:>7.2}", proved / plain);
}

fn bytes_of(n: usize, mut seed: u64) -> Vec<u8> {
    (0..n)
        .map(|_| {
            seed = seed.wrapping_mul(6364136223846793005).wrapping_add(1442695040888963407);
            (seed >> 56) as u8
        })
        .collect()
}

fn digest() {
    for n in 0..400 {
        let b = bytes_of(n, n as u64);
        assert_eq!(proved_digest(&b), plain_sha256::digest(&b), "length {n}");
        for size in [1, 63, 64, 65, 200] {
            assert_eq!(proved_pieces(&b, size), plain_sha256::digest(&b), "length {n} in pieces of {size}");
            assert_eq!(plain_pieces(&b, size), plain_sha256::digest(&b), "length {n} in pieces of {size}");
        }
    }
    for n in [0usize, 64, 200, 1000, 4096, 65536, 1 << 20] {
        let b = bytes_of(n, 7);
        let (proved, plain) = race(
            || {
                black_box(proved_digest(black_box(&b)));
            },
            || {
                black_box(plain_sha256::digest(black_box(&b)));
            },
        );
        row(&format!("digest of {n} bytes"), proved, plain);
    }
    for size in [10usize, 64, 100, 1000, 4096] {
        let b = bytes_of(65536, 9);
        let (proved, plain) = race(
            || {
                black_box(proved_pieces(black_box(&b), size));
            },
            || {
                black_box(plain_pieces(black_box(&b), size));
            },
        );
        row(&format!("65536 bytes in pieces of {size}"), proved, plain);
    }
    let b = bytes_of(1000, 3);
    let used = stack::used(|| {
        black_box(proved_digest(black_box(&b)));
    });
    println!("stack of a digest call: {used} bytes");
    let mut state = [0u8; 104];
    let used = stack::used(|| proved_start(black_box(&mut state)));
    println!("stack of starting a digest: {used} bytes");
    let used = stack::used(|| proved_update(black_box(&mut state), black_box(&b)));
    println!("stack of a piece more: {used} bytes");
    let used = stack::used(|| {
        black_box(proved_finish(black_box(&state)));
    });
    println!("stack of finishing a digest: {used} bytes");
}

fn text_row() {
    let cases = include_bytes!("../crates/json_cases/stdin");
    for line in cases.split(|&b| b == b'\n') {
        assert_eq!(proved_text_row(line), plain_json::text_row(line), "{}", String::from_utf8_lossy(line));
    }
    let timed = |name: &str, text: &[u8]| {
        assert_eq!((proved_text_row(text), plain_json::text_row(text)), (0, 0));
        let (proved, plain) = race(
            || {
                black_box(proved_text_row(black_box(text)));
            },
            || {
                black_box(plain_json::text_row(black_box(text)));
            },
        );
        row(&format!("rows 1 to 4, {name}, {} bytes", text.len()), proved, plain);
    };
    for size in [8192, MOST] {
        for (name, make) in messages::KINDS {
            timed(name, &make(size));
        }
    }
    for size in [1024, 2048, 4096, 8192] {
        timed("an EVENT with tags", &messages::event(size));
    }
    let text = messages::deep(8192);
    let used = stack::used(|| {
        black_box(proved_text_row(black_box(&text)));
    });
    println!("stack of rows 1 to 4: {used} bytes");
}

pub const MESSAGE_CASES: &[u8] = include_bytes!("../crates/message_cases/stdin");
pub const EVENT_CASES: &[u8] = include_bytes!("../crates/event_cases/stdin");

pub fn lines(cases: &[u8]) -> impl Iterator<Item = &[u8]> {
    cases.split(|&b| b == b'\n')
}

fn client_messages() -> [(&'static str, Vec<u8>); 11] {
    [
        ("an EVENT with tags", messages::event(1024)),
        ("an EVENT with tags", messages::event(5000)),
        ("an EVENT with long content", messages::content(8192)),
        ("a REQ of four filters", messages::req(8192)),
        ("a REQ of four filters", messages::req(2048)),
        ("a REQ with #e and #p", messages::referring()),
        ("a CLOSE", b"[\"CLOSE\",\"tablet 4\"]".to_vec()),
        ("an EVENT with 64 tags", messages::tagged(MOST)),
        ("an EVENT with long content", messages::content(MOST)),
        ("an EVENT spelled in escapes", messages::spelled(MOST)),
        ("a REQ with full lists", messages::wide_req(MOST)),
    ]
}

// Messages that rows 6 and 7 refuse, with the place that is said.
fn refused_messages() -> [(&'static str, Vec<u8>, Refusal); 3] {
    let placed = |name, text: Vec<u8>, row, piece: &str| {
        let at = text.windows(piece.len()).position(|w| w == piece.as_bytes());
        (name, text, Refusal { row, at })
    };
    [
        placed("an EVENT, a number wrong", messages::wrong_number(MOST), 6, "1.7e9"),
        placed("a REQ, one id wrong", messages::wrong_hex(MOST, 1), 7, "\"F"),
        placed("a REQ, all ids wrong", messages::wrong_hex(MOST, MOST), 7, "\"F"),
    ]
}

fn message_row() {
    for line in lines(MESSAGE_CASES).chain(lines(EVENT_CASES)) {
        assert_eq!(proved_refusal(line), plain_message::message_refusal(line), "{}", String::from_utf8_lossy(line));
    }
    let texts = client_messages().map(|(name, text)| (name, text, Refusal::plain(0)));
    for (name, text, want) in texts.iter().chain(&refused_messages()) {
        assert_eq!((proved_refusal(text), plain_message::message_refusal(text)), (*want, *want), "{name}");
        let (proved, plain) = race(
            || {
                black_box(proved_refusal(black_box(text)));
            },
            || {
                black_box(plain_message::message_refusal(black_box(text)));
            },
        );
        row(&format!("rows 1 to 8, {name}, {} bytes", text.len()), proved, plain);
    }
    let used = stack::used(|| {
        black_box(proved_refusal(black_box(&texts[3].1)));
    });
    println!("stack of rows 1 to 8: {used} bytes");
}

// Both sides read alike: the row, its place, and every part.
fn read_alike(text: &[u8]) -> Refusal {
    let (mut proved, mut plain) = ([7; 44], [7; 44]);
    let refusal = proved_read(text, &mut proved);
    assert_eq!(refusal, plain_read(text, &mut plain), "{}", String::from_utf8_lossy(text));
    assert_eq!(proved, plain, "{}", String::from_utf8_lossy(text));
    refusal
}

fn read() {
    for line in lines(MESSAGE_CASES).chain(lines(EVENT_CASES)) {
        read_alike(line);
    }
    let texts = client_messages().map(|(name, text)| (name, text, Refusal::plain(0)));
    for (name, text, want) in texts.iter().chain(&refused_messages()) {
        assert_eq!(read_alike(text), *want, "{name}");
        let (mut p, mut q) = ([0; 44], [0; 44]);
        let (proved, plain) = race(
            || {
                black_box(proved_read(black_box(text), &mut p));
                black_box(&mut p);
            },
            || {
                black_box(plain_read(black_box(text), &mut q));
                black_box(&mut q);
            },
        );
        row(&format!("read, {name}, {} bytes", text.len()), proved, plain);
    }
    for k in [1, 3] {
        let (name, text, _) = &texts[k];
        let used = stack::used(|| {
            black_box(proved_read(black_box(text), &mut [0; 44]));
        });
        println!("stack of reading, {name}: {used} bytes");
    }
}

// Both sides answer and write alike, whatever the parts: the text, the id, and the text read back.
fn event_alike(b: &[u8], p: &Body, room: usize) -> Result<usize, u8> {
    let (mut proved, mut plain) = (vec![b'.'; room], vec![b'.'; room]);
    let n = proved_serialise(b, p, &mut proved);
    let say = || format!("{n:?} {room} {}", String::from_utf8_lossy(b));
    assert_eq!(n, plain_event::serialise(b, p, &mut plain), "{}", say());
    assert!(proved == plain, "{}", say());
    assert_eq!(proved_id(b, p), plain_event::id(b, p), "{}", say());
    if let Ok(n) = n {
        assert_eq!(text_alike(&proved[..n]), 0, "{}", say());
    }
    n
}

fn text_alike(t: &[u8]) -> u8 {
    let (mut proved, mut plain) = ([7; 7], [7; 7]);
    let row = proved_read_text(t, &mut proved);
    assert_eq!(row, plain_read_text(t, &mut plain), "{}", String::from_utf8_lossy(t));
    assert_eq!(proved, plain, "{}", String::from_utf8_lossy(t));
    row
}

// The parts of an event as they were read, and with each of them moved a little.
fn parts_alike(text: &[u8]) {
    let Ok(Message::Event(e)) = plain_message::read(text) else { return };
    let p = e.body;
    let n = event_alike(text, &p, 4200).unwrap_or(100);
    event_alike(text, &p, n).ok();
    event_alike(text, &p, n - 1).ok();
    for by in [1usize, 2, 5, text.len(), usize::MAX, usize::MAX - 1, usize::MAX - 60] {
        let (mut a, mut b, mut c, mut d, mut f) = (p, p, p, p, p);
        a.pubkey.start = p.pubkey.start.wrapping_add(by);
        b.pubkey.len = p.pubkey.len.wrapping_add(by);
        c.tags = p.tags.wrapping_add(by);
        d.content.start = p.content.start.wrapping_add(by);
        f.content.len = p.content.len.wrapping_add(by);
        for q in [a, b, c, d, f] {
            event_alike(text, &q, 4200).ok();
        }
    }
    for at in [p.tags + 1, p.tags + 3, p.content.start] {
        let mut wrong = text.to_vec();
        for byte in [b'"', b'\\', b'[', b' ', 0x00, 0x0a, 0x1f, 0x80, 0xff] {
            wrong[at] = byte;
            event_alike(&wrong, &p, 4200).ok();
        }
    }
    for time in [plain_message::TIME, plain_message::TIME + 1, -plain_message::TIME - 1, i64::MIN, i64::MAX] {
        event_alike(text, &Body { created_at: time, ..p }, 4200).ok();
        event_alike(text, &Body { kind: time, ..p }, 4200).ok();
    }
}

fn back_timed(name: &str, t: &[u8]) {
    let (mut a, mut b) = ([0; 7], [0; 7]);
    let (proved, plain) = race(
        || {
            black_box(proved_read_text(black_box(t), &mut a));
            black_box(&mut a);
        },
        || {
            black_box(plain_read_text(black_box(t), &mut b));
            black_box(&mut b);
        },
    );
    row(&format!("read back, {name}, {} bytes", t.len()), proved, plain);
}

// Texts in which bytes that stand as they are come in short runs.
fn back() {
    let d = "[\"d\",\"floor 3\"]";
    let cases = [
        ("lines", messages::sized(4096, d, "a tile of floor 3, read by cart 17 \\n")),
        ("words in quotes", messages::sized(4096, d, "said \\\"no\\\" to it, and \\\"yes\\\" to that\\n")),
        ("words of Latin with accents", messages::sized(4096, d, "der Weg über die Brücke führt nach Köln, ")),
        ("short tags", messages::sized(2048, &vec!["[\"t\",\"shelf\",\"a\",\"door 4\"]"; 60].join(","), "the shelf by the door has moved")),
    ];
    for (name, text) in &cases {
        let Ok(Message::Event(e)) = plain_message::read(text) else { panic!("{name}") };
        let mut out = vec![0u8; 4096];
        let n = plain_event::serialise(text, &e.body, &mut out).unwrap();
        assert_eq!(text_alike(&out[..n]), 0, "{name}");
        for at in 0..n {
            let was = out[at];
            for byte in [b'"', b'\\', b'x', 0x00, 0x0a, 0x1f, 0x80, 0xc3, 0xed, 0xf4] {
                out[at] = byte;
                text_alike(&out[..n]);
            }
            out[at] = was;
        }
        back_timed(name, &out[..n]);
    }
}

fn event() {
    for line in lines(MESSAGE_CASES).chain(lines(EVENT_CASES)) {
        parts_alike(line);
        text_alike(line.strip_prefix(b"T ").unwrap_or(line));
    }
    let cases = [
        ("a small event", messages::sized(200, "[\"d\",\"floor 3\"]", "the shelf by the door has moved")),
        ("a full event, content", messages::sized(4096, "[\"d\",\"floor 3\"]", "a tile of floor 3, read by cart 17 ")),
        (
            "a full event, tags",
            messages::sized(
                4096,
                &vec!["[\"e\",\"5c83da77af1dec6d7289834998ad7aafbd9e2191396d75ec3cc27f5a77226f36\",\"wss://r\"]"; 45].join(","),
                "the shelf by the door has moved",
            ),
        ),
        ("a full event, escapes", messages::sized(4096, "[\"d\",\"floor 3\"]", "\\n\\t\\\"")),
        ("a full event, UTF-8", messages::sized(4096, "[\"d\",\"floor 3\"]", "é€𝄞жあ😀ßñ")),
        ("an event, control characters", messages::sized(4096, "[\"d\",\"floor 3\"]", "a tile of floor 3\\u0001 read by cart 17\\u001F ")),
    ];
    let mut out = vec![0u8; 4096];
    for (name, text) in &cases {
        let Ok(Message::Event(e)) = plain_message::read(text) else { panic!("{name}") };
        let p = e.body;
        parts_alike(text);
        let n = event_alike(text, &p, 4096).unwrap();
        let mut other = vec![0u8; 4096];
        let (proved, plain) = race(
            || {
                black_box(proved_serialise(black_box(text), black_box(&p), &mut out)).ok();
            },
            || {
                black_box(plain_event::serialise(black_box(text), black_box(&p), &mut other)).ok();
            },
        );
        row(&format!("serialise, {name}, {n} bytes"), proved, plain);
        back_timed(name, &out[..n]);
        let (proved, plain) = race(
            || {
                black_box(proved_id(black_box(text), black_box(&p))).ok();
            },
            || {
                black_box(plain_event::id(black_box(text), black_box(&p))).ok();
            },
        );
        row(&format!("id, {name}, {n} bytes"), proved, plain);
    }
    let text = &cases[2].1;
    let Ok(Message::Event(e)) = plain_message::read(text) else { panic!() };
    let p = e.body;
    let n = proved_serialise(text, &p, &mut out).unwrap();
    let t = out[..n].to_vec();
    let used = stack::used(|| {
        black_box(proved_serialise(black_box(text), black_box(&p), &mut out)).ok();
    });
    println!("stack of serialise: {used} bytes");
    let used = stack::used(|| {
        black_box(proved_read_text(black_box(&t), &mut [0; 7]));
    });
    println!("stack of read back: {used} bytes");
    let used = stack::used(|| {
        black_box(proved_id(black_box(text), black_box(&p))).ok();
    });
    println!("stack of id: {used} bytes");
}

// Tables of the most slots beside small ones.
fn large() {
    table::large();
    query::large();
}

// All, or those named.
fn main() {
    let named: Vec<String> = std::env::args().skip(1).collect();
    println!("{:<54} {:>12} {:>12} {:>7}", "", "proved, ns", "plain, ns", "ratio");
    let all: [(&str, fn()); 9] = [
        ("digest", digest),
        ("text_row", text_row),
        ("message_row", message_row),
        ("read", read),
        ("event", event),
        ("back", back),
        ("table", table::run),
        ("query", query::run),
        ("large", large),
    ];
    for (name, run) in all {
        if named.is_empty() || named.iter().any(|n| n == name) {
            run();
        }
    }
}
