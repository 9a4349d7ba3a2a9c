// Times the program `relay` beside the relay in plain Rust: both read the same file as standard input and write a file, in turn; the best of many
// runs, by the processor time of the process, which other work on the machine changes little. Built and started by bench/run_relay.
#![allow(dead_code)]
mod plain_event;
mod plain_json;
mod plain_message;
mod plain_sha256;
mod plain_table;

use std::fs::{self, File};
use std::process::Command;

const PUBKEY: &str = "5c83da77af1dec6d7289834998ad7aafbd9e2191396d75ec3cc27f5a77226f36";
const SMALL: &str = "the shelf by the door has moved";

// The content is spelled as in the text that is hashed, but for U+0001, which stands raw there.
fn event(time: i64, d: usize, content: &str) -> String {
    let tags = format!("[[\"d\",\"floor-3/tile-{d:04}\"],[\"t\",\"floor 3\"]]");
    let text = format!("[0,\"{PUBKEY}\",{time},30000,{tags},\"{content}\"]").replace("\\u0001", "\x01");
    let id: String = plain_sha256::digest(text.as_bytes()).iter().map(|b| format!("{b:02x}")).collect();
    let sig = "0f".repeat(64);
    format!(
        "[\"EVENT\",{{\"id\":\"{id}\",\"pubkey\":\"{PUBKEY}\",\"created_at\":{time},\"kind\":30000,\"tags\":{tags},\"content\":\"{content}\",\"sig\":\"{sig}\"}}]"
    )
}

// New versions of 8 tiles, in turn.
fn events(n: usize, content: &str) -> Vec<String> {
    (0..n).map(|k| event(1700000000 + k as i64, k % 8, content)).collect()
}

const REQS: [&str; 5] = [
    "{}",
    "{\"kinds\":[30000],\"#t\":[\"floor 3\"]}",
    "{\"#d\":[\"floor-3/tile-0003\"]}",
    "{\"authors\":[\"5c83da77af1dec6d7289834998ad7aafbd9e2191396d75ec3cc27f5a77226f36\"],\"limit\":3}",
    "{\"since\":1700000003},{\"#d\":[\"floor-3/tile-0001\",\"floor-3/tile-0002\"]}",
];

// REQs over the 8 tiles that are sent first.
fn requests(n: usize, content: &str) -> Vec<String> {
    let mut l = events(8, content);
    l.extend((0..n).map(|k| format!("[\"REQ\",\"tablet {}\",{}]", k % 10, REQS[k % 5])));
    l
}

fn mixed(n: usize) -> Vec<String> {
    let (small, mut l) = (events(n, SMALL), Vec::new());
    for (k, e) in small.into_iter().enumerate() {
        if k % 4 == 3 {
            l.push(e.replacen("the shelf", "the door", 1));
            l.push(event(1600000000, k % 8, SMALL));
        }
        l.push(e);
        l.push(format!("[\"REQ\",\"tablet {}\",{}]", k % 10, REQS[k % 5]));
        l.push(format!("[\"CLOSE\",\"tablet {}\"]", k % 10));
        if k % 10 == 0 {
            l.push("[\"REQ\",\"s\",{\"kinds\":[1.5]}]".into());
            l.push("{\"not\":\"a message\"}".into());
        }
    }
    l
}

// Seconds of processor time that the children of this process have taken.
fn spent() -> f64 {
    extern "C" {
        fn getrusage(who: i32, usage: *mut i64) -> i32;
    }
    let mut u = [0i64; 18];
    assert_eq!(unsafe { getrusage(-1, u.as_mut_ptr()) }, 0);
    (u[0] + u[2]) as f64 + (u[1] + u[3]) as f64 / 1e6
}

fn run(program: &str, words: &[&str], input: &str, output: &str) -> f64 {
    let before = spent();
    let status = Command::new(program).args(words).stdin(File::open(input).unwrap()).stdout(File::create(output).unwrap()).status().unwrap();
    assert!(status.success(), "{program}");
    spent() - before
}

fn main() {
    let words: Vec<String> = std::env::args().collect();
    let (relay, plain, dir) = (&words[1], &words[2], &words[3]);
    let rounds: usize = words[4].parse().unwrap();
    let full = &"a tile of floor 3, read by cart 17 ".repeat(113)[..3900];
    let controls = &"a tile of floor 3\\u0001 read by cart 17 ".repeat(110);
    let cases = [
        ("EVENTs, small, new versions of 8 tiles", events(20000, SMALL)),
        ("EVENTs of 4 KB", events(5000, full)),
        ("REQs over 8 small tiles", requests(10000, SMALL)),
        ("REQs over 8 tiles of 4 KB", requests(4000, full)),
        ("EVENTs of 4 KB, control characters", events(5000, controls)),
        ("REQs over 8 tiles, control characters", requests(4000, controls)),
        ("EVENTs of 4 KB, a number wrong", events(5000, full).into_iter().map(|e| e.replacen(":30000,", ":3e4,", 1)).collect()),
        ("mixed", mixed(5000)),
    ];
    println!("{:<40} {:>8} {:>12} {:>12} {:>7} {:>12} {:>7}", "lines a second of processor time", "lines", "proved", "plain", "ratio", "untested", "ratio");
    for (name, lines) in &cases {
        let input = format!("{dir}/input");
        fs::write(&input, lines.join("\n") + "\n").unwrap();
        let out = |k: usize| format!("{dir}/output{k}");
        let (mut best, n) = ([f64::MAX; 3], lines.len());
        for _ in 0..rounds {
            best[0] = best[0].min(run(relay, &[], &input, &out(0)));
            best[1] = best[1].min(run(plain, &[], &input, &out(1)));
            best[2] = best[2].min(run(plain, &["untested"], &input, &out(2)));
        }
        let said = fs::read(out(0)).unwrap();
        assert!(said == fs::read(out(1)).unwrap() && said == fs::read(out(2)).unwrap(), "{name}: the outputs differ");
        let rate = |k: usize| n as f64 / best[k];
        println!(
            "{name:<40} {n:>8} {:>12.0} {:>12.0} {:>7.2} {:>12.0} {:>7.2}",
            rate(0),
            rate(1),
            best[0] / best[1],
            rate(2),
            best[0] / best[2]
        );
    }
}
