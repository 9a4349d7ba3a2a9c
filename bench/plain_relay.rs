// The relay in plain Rust: messages on standard input, one a line, over a fresh table of 8 slots; their replies on standard output. It reads into
// a chunk of 64 KB, answers the lines that end in it and then writes what they are answered, as the proved program does. With the argument
// `untested` the table's soundness is not asked.
#![allow(dead_code)]
mod plain_event;
mod plain_json;
mod plain_message;
mod plain_query;
mod plain_sha256;
mod plain_table;

use plain_json::MOST;
use plain_message::{Message, Refusal, Span};
use plain_table::{number, slot, word, TEXT};
use std::fs::File;
use std::io::{Read, Write};
use std::os::fd::FromRawFd;

// The program's table.
const SLOTS: usize = 8;

const REASONS: [&str; 13] = [
    "",
    "invalid: message too long",
    "invalid: not UTF-8",
    "invalid: not JSON",
    "invalid: string not allowed",
    "invalid: wrong shape",
    "invalid: number",
    "invalid: hex",
    "invalid: count or length",
    "invalid: event too large",
    "invalid: id does not match",
    "error: bad table",
    "error: no room",
];

fn span(m: &[u8], s: Span) -> &[u8] {
    &m[s.start..s.start + s.len]
}

const DIGITS: &[u8; 16] = b"0123456789abcdef";

// A control character that has no short escape.
fn put_control(out: &mut Vec<u8>, b: u8) {
    out.extend_from_slice(&[b'\\', b'u', b'0', b'0', DIGITS[(b >> 4) as usize], DIGITS[(b & 15) as usize]]);
}

// A string as spelled, decoded and escaped between quotes.
fn put_quoted(out: &mut Vec<u8>, s: &[u8]) {
    out.push(b'"');
    if s.iter().any(|&b| matches!(b, b'\\' | 0x00..=0x1f)) {
        for &b in plain_query::decoded(s).iter() {
            match b {
                0x0a => out.extend_from_slice(b"\\n"),
                0x22 => out.extend_from_slice(b"\\\""),
                0x5c => out.extend_from_slice(b"\\\\"),
                0x0d => out.extend_from_slice(b"\\r"),
                0x09 => out.extend_from_slice(b"\\t"),
                0x08 => out.extend_from_slice(b"\\b"),
                0x0c => out.extend_from_slice(b"\\f"),
                0x00..=0x1f => put_control(out, b),
                _ => out.push(b),
            }
        }
    } else {
        out.extend_from_slice(s);
    }
    out.push(b'"');
}

// A piece of a held text. What stands raw in it below U+0020 has no short escape.
fn put_held(out: &mut Vec<u8>, s: &[u8]) {
    if !s.iter().fold(false, |a, &b| a | (b < 0x20)) {
        return out.extend_from_slice(s);
    }
    for &b in s {
        if b < 0x20 { put_control(out, b) } else { out.push(b) }
    }
}

fn put_hex(out: &mut Vec<u8>, s: &[u8]) {
    for b in s {
        out.push(DIGITS[(b >> 4) as usize]);
        out.push(DIGITS[(b & 15) as usize]);
    }
}

// The text of the row, and where the message is wrong if that is told.
fn put_reason(out: &mut Vec<u8>, refusal: Refusal) {
    out.extend_from_slice(REASONS[refusal.row as usize].as_bytes());
    if let Some(at) = refusal.at {
        write!(out, " at {at}").unwrap();
    }
}

fn notice(out: &mut Vec<u8>, refusal: Refusal) {
    out.extend_from_slice(b"[\"NOTICE\",\"");
    put_reason(out, refusal);
    out.extend_from_slice(b"\"]\n");
}

fn accepted(out: &mut Vec<u8>, id: &[u8], reason: &str) {
    out.extend_from_slice(b"[\"OK\",");
    put_quoted(out, id);
    out.extend_from_slice(b",true,\"");
    out.extend_from_slice(reason.as_bytes());
    out.extend_from_slice(b"\"]\n");
}

fn rejected(out: &mut Vec<u8>, id: &[u8], refusal: Refusal) {
    out.extend_from_slice(b"[\"OK\",");
    put_quoted(out, id);
    out.extend_from_slice(b",false,\"");
    put_reason(out, refusal);
    out.extend_from_slice(b"\"]\n");
}

fn closed(out: &mut Vec<u8>, sub: &[u8], refusal: Refusal) {
    out.extend_from_slice(b"[\"CLOSED\",");
    put_quoted(out, sub);
    out.extend_from_slice(b",\"");
    put_reason(out, refusal);
    out.extend_from_slice(b"\"]\n");
}

// The reply to a message that a row from 6 on refuses.
fn refused(out: &mut Vec<u8>, m: &[u8], parts: &Message, refusal: Refusal) {
    match parts {
        Message::Event(e) if plain_message::is_hex(span(m, e.id), 64) => rejected(out, span(m, e.id), refusal),
        Message::Req { subscription, .. } => {
            let n = plain_query::decoded(span(m, *subscription)).iter().filter(|b| **b & 0xc0 != 0x80).count();
            if (1..=64).contains(&n) { closed(out, span(m, *subscription), refusal) } else { notice(out, refusal) }
        }
        _ => notice(out, refusal),
    }
}

// The EVENT reply of a held slot: tags and content stand in its text as they go into the reply, but for control characters.
fn event(out: &mut Vec<u8>, sub: &[u8], s: &[u8]) {
    let text = &s[TEXT..TEXT + number(s, 106, 2)];
    let p = plain_event::read_text(text).unwrap_or_default();
    out.extend_from_slice(b"[\"EVENT\",");
    put_quoted(out, sub);
    out.extend_from_slice(b",{\"id\":\"");
    put_hex(out, &s[..32]);
    out.extend_from_slice(b"\",\"pubkey\":");
    out.extend_from_slice(&text[3..69]);
    write!(out, ",\"created_at\":{},\"kind\":{},\"tags\":", word(&s[96..]) as i64, number(s, 104, 2)).unwrap();
    put_held(out, &text[p.tags..p.content.start - 2]);
    out.extend_from_slice(b",\"content\":");
    put_held(out, &text[p.content.start - 1..text.len() - 1]);
    out.extend_from_slice(b",\"sig\":\"");
    put_hex(out, &s[32..96]);
    out.extend_from_slice(b"\"}]\n");
}

fn respond(table: &mut [u8], m: &[u8], out: &mut Vec<u8>, test: bool) {
    let (parts, refusal) = match plain_message::walk(m) {
        Ok(read) => read,
        Err(refusal) => return notice(out, refusal),
    };
    if refusal.row < 6 {
        return notice(out, refusal);
    }
    if refusal.row < 9 {
        return refused(out, m, &parts, refusal);
    }
    match &parts {
        Message::Event(e) => match plain_table::offer_event(table, m, e, test) {
            0 | 100 => accepted(out, span(m, e.id), ""),
            101 => accepted(out, span(m, e.id), "duplicate: already have this event"),
            102 => accepted(out, span(m, e.id), "duplicate: have a newer version"),
            row => refused(out, m, &parts, Refusal::plain(row)),
        },
        Message::Req { subscription, filters, count } => {
            let mut slots = [0; SLOTS];
            match plain_query::answer(table, m, &filters[..*count], &mut slots, test) {
                Ok(n) => {
                    let sub = span(m, *subscription);
                    for &k in &slots[..n] {
                        event(out, sub, slot(table, k as usize));
                    }
                    out.extend_from_slice(b"[\"EOSE\",");
                    put_quoted(out, sub);
                    out.extend_from_slice(b"]\n");
                }
                Err(row) => refused(out, m, &parts, Refusal::plain(row)),
            }
        }
        Message::Close(_) => (),
    }
}

// Replies are written from so many bytes on; those to one message have at most so many: the EVENTs of all slots and an EOSE. Of a line so many
// bytes are kept: one more than a message may have.
const PIECE: usize = 65536;
const REPLIES: usize = SLOTS * 24827 + 428;
const LINE: usize = MOST + 1;

fn main() {
    let test = std::env::args().nth(1).as_deref() != Some("untested");
    let (mut input, mut output) = unsafe { (File::from_raw_fd(0), File::from_raw_fd(1)) };
    let mut table = vec![0u8; plain_table::size(SLOTS)];
    plain_table::format(&mut table, SLOTS);
    let mut chunk = vec![0u8; 65536];
    let (mut line, mut out) = (Vec::with_capacity(LINE), Vec::with_capacity(PIECE + REPLIES));
    loop {
        let n = input.read(&mut chunk).unwrap_or(0);
        if n == 0 {
            break;
        }
        let mut rest = &chunk[..n];
        while let Some(end) = rest.iter().position(|&b| b == b'\n') {
            if line.is_empty() {
                respond(&mut table, &rest[..end], &mut out, test);
            } else {
                line.extend_from_slice(&rest[..end.min(LINE - line.len())]);
                respond(&mut table, &line, &mut out, test);
                line.clear();
            }
            rest = &rest[end + 1..];
            if PIECE < out.len() {
                output.write_all(&out).unwrap();
                out.clear();
            }
        }
        line.extend_from_slice(&rest[..rest.len().min(LINE - line.len())]);
        output.write_all(&out).unwrap();
        out.clear();
    }
    if !line.is_empty() {
        respond(&mut table, &line, &mut out, test);
        output.write_all(&out).unwrap();
    }
}
