// Matching and the answer of a REQ beside plain Rust: answered alike on every table and filter here, then times and stack. `run` has tables of 64
// slots; `large` has some of the same REQs on tables of 64 slots and of the most.
use crate::plain_message::{self, Event, Filter, Message};
use crate::plain_query;
use crate::plain_table::{self, MOST_SLOTS};
use crate::table::{full, message_with, table_by, tile, FEW, PUBKEY, SIZES, SMALL};
use crate::{lines, proved_read, race, row, stack, Numbers, EVENT_CASES, MESSAGE_CASES};
use std::hint::black_box;

extern "C" {
    fn plavdrosa_match(
        bytes: *const u8,
        len: usize,
        event: *const u64,
        event_len: usize,
        message: *const u8,
        message_len: usize,
        request: *const u64,
        request_len: usize,
    ) -> u8;
    fn plavdrosa_list(
        table: *const u8,
        len: usize,
        message: *const u8,
        message_len: usize,
        request: *const u64,
        request_len: usize,
        row: *mut u16,
        row_len: usize,
        count: *mut usize,
    ) -> u8;
}

fn matched(b: &[u8], e: &[u64], m: &[u8], r: &[u64]) -> Result<bool, u8> {
    match unsafe { plavdrosa_match(b.as_ptr(), b.len(), e.as_ptr(), e.len(), m.as_ptr(), m.len(), r.as_ptr(), r.len()) } {
        0 => Ok(true),
        103 => Ok(false),
        row => Err(row),
    }
}

fn list(t: &[u8], m: &[u8], r: &[u64], out: &mut [u16]) -> Result<usize, u8> {
    let mut k = 777;
    let row = unsafe { plavdrosa_list(t.as_ptr(), t.len(), m.as_ptr(), m.len(), r.as_ptr(), r.len(), out.as_mut_ptr(), out.len(), &mut k) };
    if row != 0 {
        assert_eq!(k, 777);
        return Err(row);
    }
    Ok(k)
}

// A REQ, as it was read by both sides.
struct Req {
    text: Vec<u8>,
    numbers: Numbers,
    filters: Vec<Filter>,
}

fn req(filters: &str) -> Req {
    req_of(format!("[\"REQ\",\"tablet 4\",{filters}]").into_bytes()).unwrap_or_else(|| panic!("{filters}"))
}

fn req_of(text: Vec<u8>) -> Option<Req> {
    let mut numbers = [0; 44];
    let Ok(Message::Req { filters, count, .. }) = plain_message::read(&text) else { return None };
    assert_eq!(proved_read(&text, &mut numbers).row, 0);
    Some(Req { text, numbers, filters: filters[..count].to_vec() })
}

// ---- Both sides answer and write alike.
fn list_alike(t: &[u8], r: &Req, room: usize) -> Result<usize, u8> {
    let (mut p, mut q) = (vec![9u16; room], vec![9u16; room]);
    let n = list(t, &r.text, &r.numbers, &mut p);
    let say = || format!("{n:?} {room} {}", String::from_utf8_lossy(&r.text));
    assert_eq!(n, plain_query::list(t, &r.text, &r.filters, &mut q), "{}", say());
    assert_eq!(p, q, "{}", say());
    n
}

fn match_alike(b: &[u8], e: &Event, numbers: &Numbers, r: &Req) -> Result<bool, u8> {
    let a = matched(b, &numbers[..12], &r.text, &r.numbers);
    assert_eq!(a, plain_query::matched(b, e, &r.text, &r.filters), "{} {}", String::from_utf8_lossy(b), String::from_utf8_lossy(&r.text));
    a
}

// The filters with each part moved a little, and with bounds out of range.
fn moved(r: &Req, mut each: impl FnMut(&Req)) {
    for k in 4..4 + 10 * r.filters.len() {
        for by in [1u64, 2, 60, 1 << 62, u64::MAX, 8000] {
            let mut n = r.numbers;
            n[k] = n[k].wrapping_add(by);
            let filters = r.filters.iter().enumerate().map(|(i, _)| filter_of(&n[4 + 10 * i..])).collect::<Option<Vec<_>>>();
            let Some(filters) = filters else { continue };
            each(&Req { text: r.text.clone(), numbers: n, filters });
        }
    }
}

// Plain Rust's filter always has an object.
fn filter_of(n: &[u64]) -> Option<Filter> {
    let place = |v: u64| if v == 0 { None } else { Some(v as usize) };
    let bound = |k: usize| if n[k] == 0 { None } else { Some(n[k + 1] as i64) };
    if n[9] == 0 {
        return None;
    }
    Some(Filter { lists: [place(n[0]), place(n[1]), place(n[2])], bounds: [bound(3), bound(5), bound(7)], at: n[9] as usize })
}

fn alike(tables: &[Vec<u8>], reqs: &[Req]) {
    for r in reqs {
        for t in tables {
            for room in [0, 1, FEW - 1, FEW] {
                list_alike(t, r, room).ok();
            }
        }
        moved(r, |r| {
            list_alike(&tables[1], r, FEW).ok();
        });
        let mut wrong = tables[1].clone();
        wrong[4] ^= 1;
        assert_eq!(list_alike(&wrong, r, FEW), Err(11));
    }
    let cases = || lines(MESSAGE_CASES).chain(lines(EVENT_CASES));
    let others: Vec<Req> = cases().filter_map(|m| req_of(m.to_vec())).collect();
    for r in &others {
        for t in tables {
            list_alike(t, r, FEW).ok();
        }
    }
    for m in cases() {
        let Ok(Message::Event(e)) = plain_message::read(m) else { continue };
        let mut numbers = [0; 44];
        assert_eq!(proved_read(m, &mut numbers).row, 0);
        for r in reqs.iter().chain(&others) {
            match_alike(m, &e, &numbers, r).ok();
        }
    }
}

// ---- Times.
fn timed(name: &str, t: &[u8], r: &Req) {
    let n = list_alike(t, r, FEW).unwrap();
    raced(&format!("{name}, {n} slots"), t, r, FEW);
}

fn raced(name: &str, t: &[u8], r: &Req, room: usize) {
    let (mut p, mut q) = (vec![0u16; room], vec![0u16; room]);
    let (proved, plain) = race(
        || {
            black_box(list(black_box(t), black_box(&r.text), &r.numbers, &mut p)).ok();
            black_box(&mut p);
        },
        || {
            black_box(plain_query::list(black_box(t), black_box(&r.text), &r.filters, &mut q)).ok();
            black_box(&mut q);
        },
    );
    row(&format!("REQ, {name}"), proved, plain);
}

// Tiles of one pubkey and kind, each with an `e` tag of its own and one that all have; later slots are newer, or not.
fn tiles(held: usize, content: &str) -> Vec<u8> {
    table_by(FEW, held, |k| event(k, content))
}

fn event(k: usize, content: &str) -> Vec<u8> {
    event_at((k * 37 % FEW) as i64, k, content)
}

fn event_at(time: i64, k: usize, content: &str) -> Vec<u8> {
    let tags = format!("[\"d\",\"{}\"],[\"e\",\"{}\"],[\"t\",\"floor 3\"]", tile(k), hex(k));
    message_with(PUBKEY, 1700000000 + time, 30000, &tags, content)
}

fn hex(k: usize) -> String {
    format!("{k:064x}")
}

fn id_of(m: &[u8]) -> String {
    let Ok(Message::Event(e)) = plain_message::read(m) else { panic!() };
    String::from_utf8(m[e.id.start..e.id.start + e.id.len].to_vec()).unwrap()
}

fn many(n: usize, of: impl Fn(usize) -> String) -> String {
    (0..n).map(|k| format!("\"{}\"", of(k))).collect::<Vec<_>>().join(",")
}

pub fn run() {
    let ascii = &full("a tile of floor 3, read by cart 17 ")[..3850];
    let empty = tiles(0, SMALL);
    let half = tiles(FEW / 2, SMALL);
    let all = tiles(FEW, SMALL);
    let large = tiles(FEW, ascii);
    let id = id_of(&event(1, SMALL));
    let all_of_it = format!("{{\"authors\":[\"{PUBKEY}\"],\"kinds\":[30000],\"since\":0,\"#t\":[\"floor 3\"]}}");
    let sixteen = format!(
        "{{\"ids\":[{}],\"authors\":[{}],\"kinds\":[1,2,3,4,5,6,7,8,9,10,11,12,13,14,15,30000],\"#d\":[{}],\"#e\":[{}],\"#t\":[{}]}}",
        many(16, |k| id_of(&event(k + 1, SMALL))),
        many(16, |k| if k == 15 { PUBKEY.to_string() } else { hex(k) }),
        many(16, |k| tile(k + 1)),
        many(16, |k| hex(k + 1)),
        many(16, |k| if k == 15 { "floor 3".to_string() } else { format!("floor {}", k + 10) }),
    );
    let four = format!(
        "{{\"ids\":[\"{id}\"]}},{{\"authors\":[\"{PUBKEY}\"]}},{{\"kinds\":[30000]}},{{\"#d\":[\"{}\"]}}",
        tile(1)
    );
    let cases = [
        ("{}", "{}".to_string()),
        ("an id", format!("{{\"ids\":[\"{id}\"]}}")),
        ("16 ids", format!("{{\"ids\":[{}]}}", many(16, |k| id_of(&event(k + 1, SMALL))))),
        ("an author", format!("{{\"authors\":[\"{PUBKEY}\"]}}")),
        ("a kind", "{\"kinds\":[30000]}".to_string()),
        ("a tag, one match", format!("{{\"#d\":[\"{}\"]}}", tile(1))),
        ("a tag, all match", "{\"#t\":[\"floor 3\"]}".to_string()),
        ("limit 10", "{\"limit\":10}".to_string()),
        ("all kinds of condition", all_of_it.clone()),
        ("four filters", four),
        ("four filters with limits", format!("{{\"limit\":5}},{{\"kinds\":[30000],\"limit\":9}},{{\"until\":1700000031}},{{\"#d\":[\"{}\"],\"limit\":1}}", tile(9))),
        ("16 members in each list", sixteen.clone()),
        ("two filters of 16 members", vec![sixteen; 2].join(",")),
    ];
    let reqs: Vec<Req> = cases.iter().map(|(_, f)| req(f)).collect();
    alike(&[empty.clone(), half.clone(), all.clone(), large.clone()], &reqs);
    for (name, t, some) in [("empty", &empty, &[0, 1, 8, 9, 12][..]), ("half full", &half, &[0, 1, 8, 9, 12])] {
        for &k in some {
            timed(&format!("{name}, {}", cases[k].0), t, &reqs[k]);
        }
    }
    for (k, (name, _)) in cases.iter().enumerate() {
        timed(&format!("full, {name}"), &all, &reqs[k]);
    }
    for k in [0, 4, 6, 8, 9] {
        timed(&format!("full, full texts, {}", cases[k].0), &large, &reqs[k]);
    }
    for held in [1, 8, 16] {
        timed(&format!("{held} slots held, all kinds of condition"), &tiles(held, SMALL), &reqs[8]);
    }
    for (name, r) in [("four filters", &reqs[9]), ("two filters of 16 members", &reqs[12])] {
        let used = stack::used(|| {
            black_box(list(black_box(&large), &r.text, &r.numbers, &mut [0; FEW])).ok();
        });
        println!("stack of a REQ's answer, {name}: {used} bytes");
    }
    let m = event(1, ascii);
    let mut numbers = [0; 44];
    assert_eq!(proved_read(&m, &mut numbers).row, 0);
    let used = stack::used(|| {
        black_box(matched(black_box(&m), &numbers[..12], &reqs[8].text, &reqs[8].numbers)).ok();
    });
    println!("stack of matching: {used} bytes");
    assert!(plain_table::sound(&large));
}

// ---- Tables of 64 slots and of the most.

// The time of tile k, of n.
const ORDERS: [(&str, fn(usize, usize) -> usize); 3] = [("rising", |k, _| k), ("falling", |k, n| n - k), ("no order", |k, n| k * 37 % n)];

fn large_reqs(first: &[u8]) -> [(&'static str, Req); 6] {
    [
        ("{}", req("{}")),
        ("a tile", req(&format!("{{\"#d\":[\"{}\"]}}", tile(1)))),
        ("an id", req(&format!("{{\"ids\":[\"{}\"]}}", id_of(first)))),
        ("a kind", req("{\"kinds\":[30000]}")),
        ("limit 10", req("{\"limit\":10}")),
        ("four filters", req(&format!("{{\"limit\":5}},{{\"authors\":[\"{PUBKEY}\"],\"limit\":900}},{{\"until\":1700000031}},{{\"#d\":[\"{}\"]}}", tile(1)))),
    ]
}

fn large_alike(t: &[u8], capacity: usize, reqs: &[(&str, Req)]) {
    for (_, r) in reqs {
        for room in [0, 1, capacity / 2 - 1, capacity / 2, capacity - 1, capacity] {
            list_alike(t, r, room).ok();
        }
    }
    let mut wrong = t.to_vec();
    wrong[4] ^= 1;
    assert_eq!(list_alike(&wrong, &reqs[0].1, capacity), Err(11));
}

pub fn large() {
    let ascii = &full("a tile of floor 3, read by cart 17 ")[..3850];
    for n in SIZES {
        for (order, time) in ORDERS {
            let made = |k: usize, content: &str| event_at(time(k, n) as i64, k, content);
            let reqs = large_reqs(&made(1, SMALL));
            for (name, held) in [("empty", 0), ("half full", n / 2), ("full", n)] {
                if held == 0 && order != "rising" {
                    continue;
                }
                let t = table_by(n, held, |k| made(k, SMALL));
                large_alike(&t, n, &reqs);
                for (what, r) in &reqs[..4] {
                    raced(&format!("{n} slots, {name}, {order}, {what}"), &t, r, n);
                }
            }
            if order == "no order" {
                let t = table_by(n, n, |k| made(k, SMALL));
                for (what, r) in &reqs[4..] {
                    raced(&format!("{n} slots, full, {order}, {what}"), &t, r, n);
                }
                let t = table_by(n, n, |k| made(k, ascii));
                for (what, r) in &reqs[..2] {
                    raced(&format!("{n} slots, full texts, {order}, {what}"), &t, r, n);
                }
            }
        }
        // one time: the ids tell
        let t = table_by(n, n, |k| event_at(0, k, SMALL));
        let reqs = large_reqs(&event_at(0, 1, SMALL));
        large_alike(&t, n, &reqs);
        raced(&format!("{n} slots, full, one time, {{}}"), &t, &reqs[0].1, n);
    }
    let t = table_by(MOST_SLOTS, MOST_SLOTS, |k| event(k, SMALL));
    for r in lines(MESSAGE_CASES).chain(lines(EVENT_CASES)).filter_map(|m| req_of(m.to_vec())) {
        list_alike(&t, &r, MOST_SLOTS).ok();
    }
}
