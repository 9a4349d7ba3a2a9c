// That every call keeps to its stack over a full table of 1,024 slots and with messages of 16,384 bytes (02, Wish 6): no contract can say it, so
// examples/check runs this in the gate. Prints what each call takes at most, over the inputs here, and exits with 1 where one takes more than it may.
// Those of the digest have a bound of their own, in digest_stack.rs.
mod stack;

use std::hint::black_box;

extern "C" {
    fn plavdrosa_text_row(bytes: *const u8, len: usize) -> u8;
    fn plavdrosa_message_row(bytes: *const u8, len: usize, offset: *mut usize) -> u8;
    fn plavdrosa_read(bytes: *const u8, len: usize, out: *mut u64, out_len: usize, offset: *mut usize) -> u8;
    fn plavdrosa_read_text(bytes: *const u8, len: usize, out: *mut u64, out_len: usize) -> u8;
    fn plavdrosa_serialise(bytes: *const u8, len: usize, event: *const u64, event_len: usize, out: *mut u8, out_len: usize, written: *mut usize) -> u8;
    fn plavdrosa_id(bytes: *const u8, len: usize, event: *const u64, event_len: usize, out: *mut u8, out_len: usize) -> u8;
    fn plavdrosa_digest(bytes: *const u8, len: usize, out: *mut u8, out_len: usize) -> u8;
    fn plavdrosa_format(table: *mut u8, len: usize, capacity: usize) -> u8;
    fn plavdrosa_sound(table: *const u8, len: usize) -> u8;
    fn plavdrosa_offer(table: *mut u8, len: usize, message: *const u8, message_len: usize, offset: *mut usize) -> u8;
    fn plavdrosa_offer_parts(table: *mut u8, len: usize, bytes: *const u8, bytes_len: usize, event: *const u64, event_len: usize) -> u8;
    fn plavdrosa_judge(table: *const u8, len: usize, message: *const u8, message_len: usize, offset: *mut usize) -> u8;
    fn plavdrosa_show(table: *const u8, len: usize, slot: usize, place: *mut usize, text_len: *mut usize) -> u8;
    fn plavdrosa_match(bytes: *const u8, len: usize, event: *const u64, event_len: usize, message: *const u8, message_len: usize, request: *const u64, request_len: usize) -> u8;
    fn plavdrosa_list(table: *const u8, len: usize, message: *const u8, message_len: usize, request: *const u64, request_len: usize, row: *mut u16, row_len: usize, count: *mut usize) -> u8;
    fn plavdrosa_respond(table: *mut u8, len: usize, message: *const u8, message_len: usize, out: *mut u8, out_len: usize, written: *mut usize) -> u8;
    fn plavdrosa_turn(table: *mut u8, len: usize, line: *mut u8, line_len: usize, kept: *mut usize, piece: *const u8, piece_len: usize, out: *mut u8, out_len: usize, used: *mut usize, written: *mut usize) -> u8;
    fn plavdrosa_finish(table: *mut u8, len: usize, line: *const u8, line_len: usize, kept: usize, out: *mut u8, out_len: usize, written: *mut usize) -> u8;
    fn plavdrosa_refused(message: *const u8, message_len: usize, row: u8, out: *mut u8, out_len: usize, written: *mut usize) -> u8;
    fn plavdrosa_slot_event(table: *const u8, len: usize, slot: usize, message: *const u8, message_len: usize, subscription: usize, subscription_len: usize, out: *mut u8, out_len: usize, written: *mut usize) -> u8;
    fn plavdrosa_events(table: *const u8, len: usize, slots: *const u16, slots_len: usize, message: *const u8, message_len: usize, subscription: usize, subscription_len: usize, out: *mut u8, out_len: usize, written: *mut usize, sent: *mut usize) -> u8;
    fn plavdrosa_reply(bytes: *const u8, len: usize, reply: *const u64, reply_len: usize, out: *mut u8, out_len: usize, written: *mut usize) -> u8;
}

// The bytes of stack that a call may take.
const MOST: usize = 32768;
const SLOTS: usize = 1024;
const MESSAGE: usize = 16384;
const HEADER: usize = 16;
const SLOT: usize = 4208;
// The EVENTs of all slots and an EOSE.
const REPLIES: usize = SLOTS * 24827 + 428;

const PUBKEY: &str = "5c83da77af1dec6d7289834998ad7aafbd9e2191396d75ec3cc27f5a77226f36";

// What each call was found to take at most.
#[derive(Default)]
struct Found(Vec<(&'static str, usize)>);

impl Found {
    fn call(&mut self, name: &'static str, want: u8, mut f: impl FnMut() -> u8 + Send) {
        let mut got = 0;
        let used = stack::used(|| got = black_box(f()));
        assert_eq!(got, want, "{name}");
        match self.0.iter_mut().find(|(n, _)| *n == name) {
            Some((_, most)) => *most = used.max(*most),
            None => self.0.push((name, used)),
        }
    }
}

// ---- Messages, filled up with spaces to the most bytes that one may have.
fn padded(mut m: Vec<u8>) -> Vec<u8> {
    assert!(m.len() <= MESSAGE, "{}", m.len());
    m.resize(MESSAGE, b' ');
    m
}

fn hex(b: &[u8]) -> String {
    b.iter().map(|b| format!("{b:02x}")).collect()
}

// An event whose content is so many times `a`, each spelled so.
fn event(time: i64, kind: u32, d: &str, letters: usize, spelling: &str) -> Vec<u8> {
    let tags = format!("[[\"d\",\"{d}\"],[\"e\",\"{PUBKEY}\"]]");
    let text = format!("[0,\"{PUBKEY}\",{time},{kind},{tags},\"{}\"]", "a".repeat(letters));
    let mut id = [0u8; 32];
    assert_eq!(unsafe { plavdrosa_digest(text.as_ptr(), text.len(), id.as_mut_ptr(), 32) }, 0);
    let (id, sig, content) = (hex(&id), "0f".repeat(64), spelling.repeat(letters));
    format!("[\"EVENT\",{{\"id\":\"{id}\",\"pubkey\":\"{PUBKEY}\",\"created_at\":{time},\"kind\":{kind},\"tags\":{tags},\"content\":\"{content}\",\"sig\":\"{sig}\"}}]").into_bytes()
}

fn tile(k: usize) -> String {
    format!("floor-3/tile-{k:04}")
}

// Tile k, held and offered: a full text, and a message as long as it may be.
fn held(k: usize) -> Vec<u8> {
    event(1700000000 + k as i64, 30000, &tile(k), 3850, "a")
}

fn offered(time: i64, kind: u32, d: &str) -> Vec<u8> {
    padded(event(time, kind, d, 2600, "\\u0061"))
}

fn req(filters: &str) -> Vec<u8> {
    padded(format!("[\"REQ\",\"tablet 4\",{filters}]").into_bytes())
}

// Four filters with long lists.
fn wide() -> String {
    let list = vec![format!("\"{PUBKEY}\""); 14].join(",");
    vec![format!("{{\"ids\":[{list}],\"authors\":[{list}],\"kinds\":[1,30000],\"limit\":900,\"#e\":[{list}],\"#p\":[{list}]}}"); 4].join(",")
}

fn numbers(m: &[u8]) -> Vec<u64> {
    let mut l = vec![0; 44];
    assert_eq!(unsafe { plavdrosa_read(m.as_ptr(), m.len(), l.as_mut_ptr(), 44, &mut 0) }, 0);
    l
}

// A table of the most slots that holds so many tiles.
fn table(count: usize) -> Vec<u8> {
    let mut t = vec![0u8; HEADER + SLOTS * SLOT];
    assert_eq!(unsafe { plavdrosa_format(t.as_mut_ptr(), t.len(), SLOTS) }, 0);
    for k in 0..count {
        let m = held(k);
        assert_eq!(unsafe { plavdrosa_offer(t.as_mut_ptr(), t.len(), m.as_ptr(), m.len(), &mut 0) }, 0);
    }
    t
}

// ---- The calls.
fn message_row(m: &[u8]) -> u8 {
    unsafe { plavdrosa_message_row(m.as_ptr(), m.len(), &mut 0) }
}

fn texts(found: &mut Found) {
    let deep = vec!["[[[[[[[]]]]]]]"; MESSAGE / 15].join(",");
    let parts = offered(1800000000, 30000, &tile(0));
    let deep = padded(format!("[{deep}]").into_bytes());
    // every number of one and every id of the other is wrong
    let (number, hex) = (req(&wide().replace("900", "9e2").replace("30000", "3e4")), req(&wide().replace("\"5c", "\"5C")));
    let texts = [deep, parts.clone(), req("{}"), req(&wide()), number, hex, vec![b'['; MESSAGE], vec![b' '; MESSAGE + 1], vec![0xff; MESSAGE]];
    let mut l = vec![0u64; 44];
    for m in &texts {
        let text_row = || unsafe { plavdrosa_text_row(m.as_ptr(), m.len()) };
        found.call("rows 1 to 4", text_row(), text_row);
        found.call("rows 1 to 8", message_row(m), || message_row(m));
        found.call("reading a message", message_row(m), || unsafe { plavdrosa_read(m.as_ptr(), m.len(), l.as_mut_ptr(), l.len(), &mut 0) });
    }
    let e = numbers(&parts);
    let (mut out, mut n) = (vec![0u8; MESSAGE], 0);
    found.call("serialising", 0, || unsafe { plavdrosa_serialise(parts.as_ptr(), parts.len(), e.as_ptr(), 12, out.as_mut_ptr(), out.len(), &mut n) });
    found.call("an id", 0, || unsafe { plavdrosa_id(parts.as_ptr(), parts.len(), e.as_ptr(), 12, l.as_mut_ptr().cast(), 32) });
    found.call("reading a text", 0, || unsafe { plavdrosa_read_text(out.as_ptr(), n, l.as_mut_ptr(), l.len()) });
    for m in &texts {
        for row in 1..13 {
            found.call("a refusal's reply", 0, || unsafe { plavdrosa_refused(m.as_ptr(), m.len(), row, out.as_mut_ptr(), out.len(), &mut n) });
        }
    }
    for form in 1..6 {
        // an EVENT's parts, and else the id as name and reason
        let mut reply = [&[form, e[1], 9][..], if form == 2 { &e[..12] } else { &e[1..3] }, &[1]].concat();
        reply[2] = if form == 1 { 64 } else { 9 };
        found.call("a reply", 0, || unsafe { plavdrosa_reply(parts.as_ptr(), parts.len(), reply.as_ptr(), reply.len(), out.as_mut_ptr(), out.len(), &mut n) });
    }
}

// Offers to a table, each taken back: the header and the slot that it may fill are copied from the table before it.
fn offers(found: &mut Found, t: &[u8], slot: usize, cases: &[(u8, Vec<u8>)]) {
    let (mut u, at) = (t.to_vec(), HEADER + slot * SLOT);
    let back = |u: &mut [u8]| {
        u[..HEADER].copy_from_slice(&t[..HEADER]);
        u[at..at + SLOT].copy_from_slice(&t[at..at + SLOT]);
    };
    let (mut line, mut out, mut n) = (vec![0u8; MESSAGE + 1], vec![0u8; REPLIES], 0);
    for (want, m) in cases {
        found.call("an offer of a message", *want, || {
            let row = unsafe { plavdrosa_offer(u.as_mut_ptr(), u.len(), m.as_ptr(), m.len(), &mut 0) };
            back(&mut u);
            row
        });
        found.call("judging a message", *want, || unsafe { plavdrosa_judge(t.as_ptr(), t.len(), m.as_ptr(), m.len(), &mut 0) });
        if *want > 8 || *want == 0 {
            let e = numbers(m);
            found.call("an offer of parts", *want, || {
                let row = unsafe { plavdrosa_offer_parts(u.as_mut_ptr(), u.len(), m.as_ptr(), m.len(), e.as_ptr(), 12) };
                back(&mut u);
                row
            });
        }
        found.call("answering a message", 0, || {
            let row = unsafe { plavdrosa_respond(u.as_mut_ptr(), u.len(), m.as_ptr(), m.len(), out.as_mut_ptr(), out.len(), &mut n) };
            back(&mut u);
            row
        });
        let fed = [m, &b"\n"[..]].concat();
        let mut used = 0;
        found.call("feeding a line", 0, || {
            let mut kept = 0;
            let row = unsafe { plavdrosa_turn(u.as_mut_ptr(), u.len(), line.as_mut_ptr(), line.len(), &mut kept, fed.as_ptr(), fed.len(), out.as_mut_ptr(), out.len(), &mut used, &mut n) };
            back(&mut u);
            row
        });
        line[..m.len()].copy_from_slice(m);
        found.call("feeding a line's end", 0, || {
            let mut kept = m.len();
            let row = unsafe { plavdrosa_turn(u.as_mut_ptr(), u.len(), line.as_mut_ptr(), line.len(), &mut kept, b"\n".as_ptr(), 1, out.as_mut_ptr(), out.len(), &mut used, &mut n) };
            back(&mut u);
            row
        });
        found.call("ending the input", 0, || {
            let row = unsafe { plavdrosa_finish(u.as_mut_ptr(), u.len(), line.as_ptr(), line.len(), m.len(), out.as_mut_ptr(), out.len(), &mut n) };
            back(&mut u);
            row
        });
        assert!(u == t);
    }
}

fn requests(found: &mut Found, t: &[u8]) {
    let (mut row, mut out) = (vec![0u16; SLOTS], vec![0u8; REPLIES]);
    let (mut n, mut sent) = (0, 0);
    let event = offered(1800000000, 30000, &tile(0));
    let e = numbers(&event);
    let four = format!("{{\"limit\":5}},{{\"authors\":[\"{PUBKEY}\"],\"limit\":900}},{{\"#e\":[\"{PUBKEY}\"]}},{{\"#d\":[\"{}\",\"\\u0061\"]}}", tile(1));
    for filters in ["{}".to_string(), wide(), four, format!("{{\"#d\":[\"{}\"]}}", tile(1)), "{\"limit\":0}".to_string()] {
        let m = req(&filters);
        let r = numbers(&m);
        let matched = |m: &[u8]| unsafe { plavdrosa_match(event.as_ptr(), event.len(), e.as_ptr(), 12, m.as_ptr(), m.len(), r.as_ptr(), r.len()) };
        found.call("matching", matched(&m), || matched(&m));
        found.call("a REQ's list", 0, || unsafe { plavdrosa_list(t.as_ptr(), t.len(), m.as_ptr(), m.len(), r.as_ptr(), r.len(), row.as_mut_ptr(), row.len(), &mut n) });
        if n > 0 {
            found.call("the EVENTs of slots", 0, || unsafe {
                plavdrosa_events(t.as_ptr(), t.len(), row.as_ptr(), n, m.as_ptr(), m.len(), r[1] as usize, r[2] as usize, out.as_mut_ptr(), out.len(), &mut 0, &mut sent)
            });
            assert_eq!(sent, n);
            found.call("the EVENT of a slot", 0, || unsafe {
                plavdrosa_slot_event(t.as_ptr(), t.len(), row[n - 1] as usize, m.as_ptr(), m.len(), r[1] as usize, r[2] as usize, out.as_mut_ptr(), out.len(), &mut 0)
            });
        }
    }
}

fn main() {
    let mut found = Found::default();
    texts(&mut found);
    let (full, nearly) = (table(SLOTS), table(SLOTS - 1));
    let mut wrong = full.clone();
    wrong[HEADER + (SLOTS - 1) * SLOT] = full[HEADER];
    wrong.copy_within(HEADER..HEADER + 32, HEADER + (SLOTS - 1) * SLOT);
    let mut fresh = vec![1u8; full.len()];
    found.call("formatting", 0, || unsafe { plavdrosa_format(fresh.as_mut_ptr(), fresh.len(), SLOTS) });
    let (mut place, mut len) = (0, 0);
    for (t, row) in [(&full, 0), (&nearly, 0), (&fresh, 0), (&wrong, 11)] {
        found.call("soundness", row, || unsafe { plavdrosa_sound(t.as_ptr(), t.len()) });
    }
    found.call("showing a slot", 0, || unsafe { plavdrosa_show(full.as_ptr(), full.len(), SLOTS - 1, &mut place, &mut len) });
    let last = tile(SLOTS - 1);
    let mut id = offered(1800000000, 30000, &last);
    id[20] ^= 1;
    let cases = [
        (0, offered(1800000000, 30000, &last)),
        (101, padded(held(SLOTS - 1))),
        (102, offered(1600000000, 30000, &last)),
        (12, offered(1800000000, 30000, &tile(SLOTS))),
        (100, offered(1800000000, 20000, "")),
        (9, padded(event(1800000000, 1, "", 4000, "a"))),
        (id_row(&id), id),
        (6, offered(1 << 60, 30000, &last)),
        (1, vec![b' '; MESSAGE + 1]),
        (5, req("{}")),
        (5, req(&wide())),
        (5, padded(b"[\"CLOSE\",\"tablet 4\"]".to_vec())),
    ];
    offers(&mut found, &full, SLOTS - 1, &cases);
    offers(&mut found, &nearly, SLOTS - 1, &[(0, offered(1800000000, 30000, &last)), (0, offered(1800000000, 1, ""))]);
    offers(&mut found, &wrong, SLOTS - 1, &[(11, offered(1800000000, 30000, &last))]);
    requests(&mut found, &full);
    let mut over = false;
    for (call, used) in found.0 {
        println!("{call}: {used} bytes of stack{}", if used > MOST { format!(", over {MOST}") } else { String::new() });
        over |= used > MOST;
    }
    std::process::exit(over as i32);
}

// 10, or 7 where the digit that was changed is none any more.
fn id_row(m: &[u8]) -> u8 {
    match message_row(m) {
        0 => 10,
        row => row,
    }
}
