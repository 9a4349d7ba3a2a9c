//! The library against the stored input and output of the program `relay`, and at its borders.

use plavdrosa::{
    Body, EventParts, Feed, MAX_CAPACITY, MAX_MESSAGE, MAX_TEXT, Message, Refusal, ReplyParts, ReqParts, Span, Table,
    Verdict, digest, message_row, output_size, read, read_text, refused, relay, reply, sample, table_size, text_row,
};

const STDIN: &[u8] = include_bytes!(concat!(env!("CARGO_MANIFEST_DIR"), "/../../crates/relay/stdin"));
const STDOUT: &[u8] = include_bytes!(concat!(env!("CARGO_MANIFEST_DIR"), "/../../crates/relay/stdout"));

#[test]
fn relay_writes_what_the_program_writes() {
    let mut buffer = vec![0; table_size(8)];
    let mut table = Table::format(&mut buffer, 8).unwrap();
    let mut replies = Vec::new();
    relay(&mut table, STDIN, &mut replies).unwrap();
    assert!(replies == STDOUT);
}

#[test]
fn pieces_of_any_size_give_the_same_replies() {
    for size in [1, 7, MAX_MESSAGE + 1, 100_000] {
        let mut buffer = vec![0; table_size(8)];
        let mut table = Table::format(&mut buffer, 8).unwrap();
        assert!(fed(&mut table, STDIN, size) == STDOUT, "pieces of {size} bytes");
    }
}

#[test]
fn a_message_has_at_most_16384_bytes() {
    assert_eq!(MAX_MESSAGE, 16_384);
    let long = |message: &[u8], len: usize| {
        let mut long = message.to_vec();
        long.resize(len, b' ');
        long
    };
    let close = br#"["CLOSE","s"]"#;
    assert!(read(&long(close, 16_384)).is_ok());
    assert_eq!(read(&long(close, 16_385)), Err(Refusal::TooLong));
    assert!(text_row(&long(b"[]", 16_384)).is_ok());
    assert_eq!(text_row(&long(b"[]", 16_385)), Err(Refusal::TooLong));

    let mut buffer = vec![0; table_size(1)];
    let mut table = Table::format(&mut buffer, 1).unwrap();
    assert_eq!(table.offer(&long(sample::EVENT, 16_385)), Err(Refusal::TooLong));
    assert_eq!(table.offer(&long(sample::EVENT, 16_384)), Ok(Verdict::Stored));

    // as lines: both lengths, a line that goes on, and a last one without its end
    let ask = br#"["REQ","s",{"kinds":[1]}]"#;
    let lines = [
        long(ask, 16_384),
        long(ask, 16_385),
        vec![b'['; 50_000],
        long(ask, 8_193),
        long(ask, 16_384),
    ];
    let (eose, notice) = ("[\"EOSE\",\"s\"]\n", "[\"NOTICE\",\"invalid: message too long\"]\n");
    let replies = [eose, notice, notice, eose, eose].concat();
    for size in [1, 8_192, 8_193, 16_384, 16_385, 100_000] {
        let written = fed(&mut table, &lines.join(&b'\n'), size);
        assert_eq!(written, replies.as_bytes(), "pieces of {size} bytes");
    }
}

#[test]
fn a_text_has_at_most_4096_bytes_however_long_the_message() {
    let mut buffer = vec![0; table_size(2)];
    let mut table = Table::format(&mut buffer, 2).unwrap();
    let fits = MAX_TEXT - "[0,\"\",0,1,[],\"\"]".len() - 64;
    // as many control characters as a message has room for
    let most = (MAX_MESSAGE - event_saying(0, "").len()) / 6;
    assert!(most < fits);
    for content in ["\\u0001".repeat(most), "x".repeat(fits)] {
        assert_eq!(table.offer(&event_saying(0, &content)), Ok(Verdict::Stored));
    }
    let unnamed = |content: &str| message_of(&"0".repeat(64), 0, 1, "[]", content);
    for n in [fits + 1, 16_000] {
        assert_eq!(table.offer(&unnamed(&"x".repeat(n))), Err(Refusal::EventTooLarge));
    }
    assert_eq!(
        table.offer(&unnamed(&"\\u0001".repeat(most + 1))),
        Err(Refusal::TooLong)
    );
}

#[test]
fn short_output_changes_nothing() {
    let mut buffer = vec![0; table_size(2)];
    let mut table = Table::format(&mut buffer, 2).unwrap();
    let before = table.bytes().to_vec();
    let mut out = [7; 20];
    assert_eq!(
        table.respond(sample::EVENT, &mut out, |_| panic!()),
        Err(Refusal::ShortOutput)
    );
    assert_eq!(table.bytes(), before);
    assert_eq!(out, [7; 20]);

    let mut feed = Feed::new();
    let mut line = sample::EVENT.to_vec();
    line.push(b'\n');
    assert_eq!(
        feed.turn(&mut table, &line, &mut out, |_| panic!()),
        Err(Refusal::ShortOutput)
    );
    assert_eq!(feed.kept(), 0);
    assert_eq!(table.bytes(), before);
}

#[test]
fn every_refusal_has_its_number_and_its_text_in_a_reply() {
    for number in 1..=14 {
        let row = Refusal::from_number(number).unwrap();
        assert_eq!(row.number(), number);
        let mut out = [0; 100];
        let reply = refused(b"", row, &mut out).unwrap();
        let text = format!("[\"NOTICE\",\"{}\"]", row.text().unwrap_or(""));
        assert_eq!(reply, text.as_bytes());
    }
    assert_eq!(Refusal::from_number(0), None);
    assert_eq!(Refusal::from_number(15), None);
}

#[test]
fn every_verdict_has_its_text_in_a_reply() {
    let mut buffer = vec![0; table_size(2)];
    let mut out = vec![0; output_size(2)];
    let mut table = Table::format(&mut buffer, 2).unwrap();
    let offers = [sample::NEWER, sample::NEWER, sample::EVENT, sample::EPHEMERAL];
    let verdicts = [Verdict::Stored, Verdict::Duplicate, Verdict::Older, Verdict::Ephemeral];
    for (message, verdict) in offers.into_iter().zip(verdicts) {
        assert_eq!(table.judge(message), Ok(verdict));
        let end = format!(",true,\"{}\"]", verdict.text());
        table
            .respond(message, &mut out, |line| assert!(line.ends_with(end.as_bytes())))
            .unwrap();
    }
    assert_eq!(table.len(), 1);
}

#[test]
fn a_table_has_1_to_1024_slots() {
    assert_eq!(MAX_CAPACITY, 1024);
    let size = table_size(1024);
    let mut buffer = vec![7; table_size(1025)];
    for capacity in [0, 1025, usize::MAX] {
        assert_eq!(Table::format(&mut buffer, capacity).err(), Some(Refusal::NoSlot));
    }
    assert_eq!(
        Table::format(&mut buffer[..size - 1], 1024).err(),
        Some(Refusal::ShortOutput)
    );
    assert!(buffer.iter().all(|&byte| byte == 7));
    let table = Table::format(&mut buffer, 1024).unwrap();
    assert_eq!(
        (table.capacity(), table.len(), table.bytes().len()),
        (1024, 0, 4_309_008)
    );
    assert!(buffer[size..].iter().all(|&byte| byte == 7));
    assert!(Table::open(&mut buffer).is_ok());
    // the header says 1,025, and there are so many
    buffer[size..].fill(0);
    buffer[0] = 1;
    assert_eq!(Table::open(&mut buffer).err(), Some(Refusal::BadTable));
}

#[test]
fn full_tables_of_every_capacity_answer() {
    let request = asked(ALL);
    for capacity in [1, 63, 64, 65, 900, 1023, 1024] {
        let mut buffer = vec![0; table_size(capacity)];
        let mut table = filled(&mut buffer, capacity);
        let newest_first: Vec<u16> = (0..capacity as u16).rev().collect();
        let mut row = vec![0; capacity];
        assert_eq!(table.list(ALL, &request, &mut row).unwrap(), newest_first);
        assert_eq!(table.list(ALL, &request, &mut row[1..]), Err(Refusal::ShortOutput));

        let last = capacity - 1;
        let later = capacity as i64;
        assert_eq!(table.offer(&tile(last, last as i64)), Ok(Verdict::Duplicate));
        assert_eq!(table.offer(&tile(capacity, later)), Err(Refusal::NoRoom));
        assert_eq!(table.offer(&event(later)), Err(Refusal::NoRoom));
        assert_eq!(table.offer(&tile(0, later)), Ok(Verdict::Stored));
        assert_eq!(table.offer(&tile(0, 0)), Ok(Verdict::Older));
        assert_eq!(table.list(ALL, &request, &mut row).unwrap()[0], 0);
        assert!(table.show(last).is_ok());
        assert_eq!(table.show(capacity), Err(Refusal::NoSlot));
    }
}

#[test]
fn a_table_of_an_earlier_build_goes_on() {
    // 01's bytes, of 64 slots that hold as many tiles
    let mut old = [64u32, 64, 4208, 16].map(u32::to_le_bytes).concat();
    for number in 0..64 {
        old.extend(slot_of(number));
    }
    assert_eq!(old.len(), 269_328);
    let mut buffer = vec![0; old.len()];
    assert!(filled(&mut buffer, 64).bytes() == old);

    let mut table = Table::open(&mut old).unwrap();
    assert_eq!((table.capacity(), table.len()), (64, 64));
    assert_eq!(table.offer(&tile(17, 17)), Ok(Verdict::Duplicate));
    assert_eq!(table.offer(&tile(17, -1)), Ok(Verdict::Older));
    assert_eq!(table.offer(&tile(64, 64)), Err(Refusal::NoRoom));
    assert_eq!(table.offer(&tile(17, 64)), Ok(Verdict::Stored));
    let mut row = [0; 64];
    let listed = table.list(ALL, &asked(ALL), &mut row).unwrap();
    assert_eq!((listed.len(), &listed[..3]), (64, &[17, 63, 62][..]));
}

#[test]
fn a_long_answer_is_written_by_pieces() {
    let mut buffer = vec![0; table_size(MAX_CAPACITY)];
    let mut table = filled(&mut buffer, MAX_CAPACITY);
    let mut large = vec![0; output_size(MAX_CAPACITY)];
    let whole = table.respond(ALL, &mut large, |_| ()).unwrap();

    let mut out = vec![0; output_size(1)];
    assert_eq!(table.respond(ALL, &mut out, |_| panic!()), Err(Refusal::ShortOutput));
    let request = asked(ALL);
    let subscription = request.subscription;
    let mut row = vec![0; table.capacity()];
    let mut left = table.list(ALL, &request, &mut row).unwrap();
    let mut pieces = Vec::new();
    while !left.is_empty() {
        let (lines, sent) = table.events(left, ALL, subscription, &mut out).unwrap();
        pieces.extend_from_slice(lines);
        left = &left[sent..];
    }
    let eose = reply(ALL, &ReplyParts::Eose { subscription }, &mut out).unwrap();
    pieces.extend_from_slice(eose);
    pieces.push(b'\n');
    assert!(pieces == whole);
}

#[test]
fn members_of_e_and_p_are_hex() {
    let hex = "0123456789abcdef".repeat(4);
    let ask = |name: &str, member: &str| format!("[\"REQ\",\"s\",{{\"{name}\":[\"{member}\"]}}]").into_bytes();
    let mut buffer = vec![0; table_size(1)];
    let table = Table::format(&mut buffer, 1).unwrap();
    let mut row = [0; 1];
    for name in ["#e", "#p", "#\\u0065", "\\u0023p"] {
        for member in ["", "x", &hex[1..], &hex.to_uppercase()] {
            let message = ask(name, member);
            let offset = Some(message.len() - member.len() - r#"""]}]"#.len());
            assert_eq!(read(&message), Err(Refusal::BadHex { offset }));
        }
        // the parts of a good message, lent over bytes that were changed since
        let mut message = ask(name, &hex);
        let Ok(Message::Req(request)) = read(&message) else {
            panic!()
        };
        assert!(table.list(&message, &request, &mut row).unwrap().is_empty());
        let last = message.len() - 5;
        message[last] = b'F';
        assert_eq!(
            table.list(&message, &request, &mut row),
            Err(Refusal::BadHex { offset: None })
        );
    }
    for name in ["#E", "#P", "#t"] {
        assert!(read(&ask(name, "x")).is_ok());
    }
}

#[test]
fn a_refusal_says_where() {
    let hex = "0123456789abcdef".repeat(4);
    let wrong = [
        // the minus; wrong hex before it does not count. Of two the earlier, by place
        (6, r#"["REQ","s",{"ids":["x"],"limit":-0}]"#.into(), "-0}"),
        (6, r#"["REQ","s",{"kinds":[1,2,65536,70000]}]"#.into(), "65536"),
        (6, r#"["REQ","s",{"until":1.0,"since":1e3}]"#.into(), "1.0"),
        // white space, escapes and characters of several bytes count as they stand
        (
            6,
            " \t\r\n[ \"REQ\" , \"\u{e9}\u{20ac}\u{1d11e}\" ,{ \"limit\" : -1 } ] ".into(),
            "-1",
        ),
        (
            6,
            r#"["\u0052EQ","\u00e9\n",{"\u0023t":["\ud834\udd1e"],"limit":65536}]"#.into(),
            "65536",
        ),
        (
            7,
            "[\"REQ\",\"\u{1d11e}\",{\"#t\":[\"\u{20ac}\"],\"#\\u0070\":[\"\u{e9}\"]}]".into(),
            "\"\u{e9}",
        ),
        // of a list, of a filter, and beyond the bounds of row 8: the 17th member, the fifth filter
        (
            7,
            format!(r#"["REQ","s",{{"authors":["{hex}","A{}"]}}]"#, &hex[1..]),
            "\"A",
        ),
        (6, format!(r#"["REQ","s",{{"kinds":[{}-1]}}]"#, "1,".repeat(16)), "-1"),
        (
            7,
            format!(r#"["REQ","s",{{"ids":[{}"X"]}}]"#, format!("\"{hex}\",").repeat(16)),
            "\"X",
        ),
        (
            6,
            r#"["REQ","s",{},{},{},{},{"since":9007199254740992}]"#.into(),
            "90071",
        ),
        (
            7,
            r##"["REQ","s",{},{},{},{},{"#e":[""]},{"#e":["x"]}]"##.into(),
            "\"\"]",
        ),
    ];
    let mut buffer = vec![0; table_size(1)];
    let mut out = vec![0; output_size(1)];
    let mut table = Table::format(&mut buffer, 1).unwrap();
    for (row, message, piece) in &wrong {
        let offset = message.find(piece);
        let refusal = match row {
            6 => Refusal::BadNumber { offset },
            _ => Refusal::BadHex { offset },
        };
        let text = format!("{} at {}", refusal.text().unwrap(), offset.unwrap());
        assert_eq!(refusal.to_string(), text);
        let message = message.as_bytes();
        assert_eq!(read(message), Err(refusal));
        assert_eq!(message_row(message), Err(refusal));
        // no EVENT: refused by 5, which has no offset
        assert_eq!(table.offer(message), Err(Refusal::WrongShape));
        assert_eq!(table.judge(message), Err(Refusal::WrongShape));
        let reply = refused(message, refusal, &mut out).unwrap().to_vec();
        assert!(reply.starts_with(br#"["CLOSED","#) && reply.ends_with(format!(",\"{text}\"]").as_bytes()));
        let written = table
            .respond(message, &mut out, |line| assert_eq!(line, reply))
            .unwrap();
        assert_eq!(written.len(), reply.len() + 1);
    }
}

#[test]
fn a_refused_event_says_where() {
    let good = String::from_utf8(event_saying(0, "\u{e9}\u{1d11e}\\u0000")).unwrap();
    let hex = "b".repeat(64);
    let mut buffer = vec![0; table_size(1)];
    let mut out = vec![0; output_size(1)];
    let mut table = Table::format(&mut buffer, 1).unwrap();
    // of two wrong numbers the earlier, whatever the order of the members; a wrong key beside a wrong number does not count
    let moved = good.replace("\"kind\":1,", "").replace("\"}]", "\",\"kind\":65536}]");
    let cases = [
        (6, good.replace(":0,", ":-0,"), "-0,"),
        (6, good.replace(":0,", ":0.5,").replace(":1,", ":-1,"), "0.5"),
        (6, moved.clone(), "65536"),
        (6, moved.replace(&hex, "b"), "65536"),
        (7, good.replace(&hex, &hex[1..]), "\"bbb"),
        (7, good.replace(&"0".repeat(128), "0").replace(&hex, "B"), "\"B\""),
        (7, good.replace(&"0".repeat(128), &"0".repeat(127)), "\"0000"),
    ];
    for (row, message, piece) in &cases {
        let offset = message.find(piece);
        let refusal = match row {
            6 => Refusal::BadNumber { offset },
            _ => Refusal::BadHex { offset },
        };
        let message = message.as_bytes();
        assert_eq!(read(message), Err(refusal));
        assert_eq!(table.offer(message), Err(refusal));
        assert_eq!(table.judge(message), Err(refusal));
        let end = format!(",false,\"{refusal}\"]");
        table
            .respond(message, &mut out, |line| {
                assert!(line.starts_with(b"[\"OK\",") && line.ends_with(end.as_bytes()))
            })
            .unwrap();
    }
    // an id that is no hex is not named: NOTICE
    let message = good.replacen("\"id\":\"", "\"id\":\"F", 1);
    let offset = message.find("\"F");
    assert_eq!(table.offer(message.as_bytes()), Err(Refusal::BadHex { offset }));
    let notice = format!("[\"NOTICE\",\"invalid: hex at {}\"]", offset.unwrap());
    table
        .respond(message.as_bytes(), &mut out, |line| assert_eq!(line, notice.as_bytes()))
        .unwrap();
    assert!(table.is_empty());
}

#[test]
fn parts_and_other_rows_have_no_offset() {
    let mut buffer = vec![0; table_size(1)];
    let mut table = Table::format(&mut buffer, 1).unwrap();
    let Ok(Message::Event(parts)) = read(sample::EVENT) else {
        panic!()
    };
    let mut number = parts;
    number.body.kind = 65_536;
    let mut hex = parts;
    hex.sig.len -= 1;
    let (six, seven) = (Refusal::BadNumber { offset: None }, Refusal::BadHex { offset: None });
    assert_eq!(table.offer_parts(sample::EVENT, &number), Err(six));
    assert_eq!(table.offer_parts(sample::EVENT, &hex), Err(seven));
    assert_eq!(plavdrosa::id(sample::EVENT, &number.body), Err(six));
    let mut request = asked(ALL);
    request.filters[0].limit = Some(-1);
    assert_eq!(plavdrosa::matches(sample::EVENT, &parts, ALL, &request), Err(six));
    assert_eq!(table.list(ALL, &request, &mut [0; 1]), Err(six));

    let others = [
        (Refusal::NotUtf8, &b"\xff"[..]),
        (Refusal::NotJson, b"[1e]"),
        (Refusal::BadString, br#"["REQ","\ud800",{"limit":-1}]"#),
        (Refusal::WrongShape, br#"["REQ","s",{"limit":-1,"x":1}]"#),
        (Refusal::BadCount, br#"["REQ","",{"limit":1}]"#),
    ];
    let mut out = [0; 500];
    for (refusal, message) in others {
        assert_eq!(read(message), Err(refusal));
        assert_eq!(refusal.offset(), None);
        let reply = refused(message, refusal, &mut out).unwrap();
        assert!(reply.ends_with(format!("\"{refusal}\"]").as_bytes()));
        // a row that is not the message's own
        let reply = refused(message, six, &mut out).unwrap();
        assert!(reply.ends_with(b"\"invalid: number\"]"));
    }
    let message = br#"["REQ","s",{"limit":-1,"ids":["x"]}]"#;
    assert_eq!(
        refused(message, seven, &mut out).unwrap(),
        br#"["CLOSED","s","invalid: hex"]"#
    );
    assert_eq!(
        refused(message, six, &mut out).unwrap(),
        br#"["CLOSED","s","invalid: number at 20"]"#
    );
}

#[test]
fn control_characters_are_held_raw_and_given_back_escaped() {
    let mut buffer = vec![0; table_size(1)];
    let mut out = vec![0; output_size(1)];
    let mut table = Table::format(&mut buffer, 1).unwrap();
    let message = event_saying(0, "\\u0000\\u0001\\u001F\\u000a\x7f");
    let mut replies = Vec::new();
    for asked in [&message[..], br#"["REQ","s\u001E",{}]"#] {
        table
            .respond(asked, &mut out, |line| replies.push(line.to_vec()))
            .unwrap();
    }
    let text = table.show(0).unwrap().to_vec();
    assert!(text.ends_with(b",\"\x00\x01\x1f\\n\x7f\"]"));
    assert!(replies[0].ends_with(br#",true,""]"#));
    assert!(replies[1].starts_with(br#"["EVENT","s\u001e",{"id":"#));
    assert!(holds(&replies[1], b"\"content\":\"\\u0000\\u0001\\u001f\\n\x7f\","));
    assert_eq!(replies[2], br#"["EOSE","s\u001e"]"#);

    // raw in a message
    let mut raw = message.clone();
    let at = message.windows(6).position(|six| six == b"\\u0001").unwrap();
    raw.splice(at..at + 6, [1]);
    assert_eq!(read(&raw), Err(Refusal::NotJson));
    table
        .respond(&raw, &mut out, |line| {
            assert_eq!(line, br#"["NOTICE","invalid: not JSON"]"#)
        })
        .unwrap();

    // raw in parts: those of the text itself, and of one with a character that has a short escape
    let body = body_of(&text);
    assert_eq!(plavdrosa::id(&text, &body), digest(&text));
    let mut tab = text.clone();
    tab[text.iter().position(|&byte| byte == 1).unwrap()] = b'\t';
    assert_eq!(plavdrosa::id(&tab, &body), Err(Refusal::WrongShape));
    assert_eq!(read_text(&tab), Err(Refusal::WrongShape));
}

#[test]
fn the_longest_event_takes_what_output_size_counts() {
    let key = "b".repeat(64);
    let shortest = format!("[0,\"{key}\",0,1,[],\"\"]").len();
    let text = format!("[0,\"{key}\",0,1,[],\"{}\"]", "\x01".repeat(MAX_TEXT - shortest)).into_bytes();
    let id = hex(&digest(&text).unwrap());
    let bytes = [&text[..], id.as_bytes(), &[b'0'; 128]].concat();
    let parts = EventParts {
        id: Span {
            start: MAX_TEXT,
            len: 64,
        },
        body: body_of(&text),
        sig: Span {
            start: MAX_TEXT + 64,
            len: 128,
        },
    };
    let mut buffer = vec![0; table_size(1)];
    let mut out = vec![0; output_size(1)];
    let mut table = Table::format(&mut buffer, 1).unwrap();
    assert_eq!(table.offer_parts(&bytes, &parts), Ok(Verdict::Stored));
    // held, it is offered again as parts, though no message has room for it
    let (bytes, parts) = held(&table, 0);
    assert_eq!(table.offer_parts(&bytes, &parts), Ok(Verdict::Duplicate));
    let subscription = "\\u0001".repeat(64);
    let request = format!("[\"REQ\",\"{subscription}\",{{}}]");
    let mut replies = Vec::new();
    table
        .respond(request.as_bytes(), &mut out, |line| replies.push(line.to_vec()))
        .unwrap();
    assert_eq!(replies[0].len() + 1, output_size(1) - output_size(0));
    assert_eq!(replies[1], format!("[\"EOSE\",\"{subscription}\"]").as_bytes());
}

#[test]
fn a_table_moves_to_a_larger_one() {
    let mut small = vec![0; table_size(64)];
    let mut large = vec![0; table_size(MAX_CAPACITY)];
    let from = filled(&mut small, 64);
    let mut to = Table::format(&mut large, MAX_CAPACITY).unwrap();
    for slot in 0..from.len() {
        let (bytes, parts) = held(&from, slot);
        assert_eq!(to.offer_parts(&bytes, &parts), Ok(Verdict::Stored));
    }
    // each slot is the same, in its old place
    let end = table_size(64);
    assert_eq!(to.len(), 64);
    assert!(to.bytes()[16..end] == from.bytes()[16..]);
    assert!(to.bytes()[end..].iter().all(|&byte| byte == 0));
    assert_eq!(to.offer(&tile(64, 64)), Ok(Verdict::Stored));
}

#[test]
fn a_table_moves_by_messages() {
    let mut small = vec![0; table_size(3)];
    let mut large = vec![0; table_size(4)];
    let mut from = Table::format(&mut small, 3).unwrap();
    for message in [event(0), event(-1), sample::EVENT.to_vec()] {
        from.offer(&message).unwrap();
    }
    let mut to = Table::format(&mut large, 4).unwrap();
    let mut out = vec![0; output_size(1)];
    let subscription = Span { start: 0, len: 1 };
    for slot in (0..from.len()).rev() {
        let n = from.slot_event(slot, b"s", subscription, &mut out).unwrap().len();
        // ["EVENT","s",{..}] becomes ["EVENT",{..}]
        out[4..13].copy_from_slice(b"[\"EVENT\",");
        assert_eq!(to.offer(&out[4..n]), Ok(Verdict::Stored));
    }
    assert_eq!(to.len(), 3);
    assert_eq!(to.show(0), from.show(2));
}

const ALL: &[u8] = br#"["REQ","s",{}]"#;

// The parts of a REQ.
fn asked(message: &[u8]) -> ReqParts {
    let Ok(Message::Req(request)) = read(message) else {
        panic!()
    };
    request
}

// What is written over a table for an input that comes in pieces of a size.
fn fed(table: &mut Table<'_>, input: &[u8], size: usize) -> Vec<u8> {
    let mut out = vec![0; output_size(table.capacity())];
    let mut feed = Feed::new();
    let mut replies = Vec::new();
    let mut add = |line: &[u8]| {
        replies.extend_from_slice(line);
        replies.push(b'\n');
    };
    for mut piece in input.chunks(size) {
        while !piece.is_empty() {
            let used = feed.turn(table, piece, &mut out, &mut add).unwrap();
            assert!(used > 0 && feed.kept() <= MAX_MESSAGE + 1);
            piece = &piece[used..];
        }
    }
    feed.finish(table, &mut out, &mut add).unwrap();
    replies
}

// A table full of tiles, each later than the one before.
fn filled(buffer: &mut [u8], capacity: usize) -> Table<'_> {
    let mut table = Table::format(buffer, capacity).unwrap();
    for number in 0..capacity {
        assert_eq!(table.offer(&tile(number, number as i64)), Ok(Verdict::Stored));
    }
    table
}

// A held event as parts: its text, and behind it its EVENT, which has id and signature in hex.
fn held(table: &Table<'_>, slot: usize) -> (Vec<u8>, EventParts) {
    let text = table.show(slot).unwrap();
    let mut out = vec![0; output_size(1)];
    let event = table
        .slot_event(slot, b"s", Span { start: 0, len: 1 }, &mut out)
        .unwrap();
    let bytes = [text, event].concat();
    let parts = EventParts {
        id: Span {
            start: text.len() + r#"["EVENT","s",{"id":""#.len(),
            len: 64,
        },
        body: body_of(text),
        sig: Span {
            start: bytes.len() - r#""}]"#.len() - 128,
            len: 128,
        },
    };
    (bytes, parts)
}

// A regular event of a time, with its id.
fn event(time: i64) -> Vec<u8> {
    event_saying(time, "x")
}

// The same with a content, as spelled.
fn event_saying(time: i64, content: &str) -> Vec<u8> {
    named(time, 1, "[]", content)
}

// A version of the tile with a number.
fn tile(number: usize, time: i64) -> Vec<u8> {
    named(time, 30078, &format!(r#"[["d","tile-{number}"]]"#), "x")
}

// The slot of the tile with a number and this time, by 01.
fn slot_of(number: usize) -> Vec<u8> {
    let d = format!("tile-{number}");
    let text = format!(r#"[0,"{KEY}",{number},30078,[["d","{d}"]],"x"]"#);
    let mut slot = digest(text.as_bytes()).unwrap().to_vec();
    slot.extend([0; 64]);
    slot.extend((number as i64).to_le_bytes());
    for field in [30078, text.len(), text.find(&d).unwrap(), d.len()] {
        slot.extend((field as u16).to_le_bytes());
    }
    slot.extend(text.as_bytes());
    slot.resize(4208, 0);
    slot
}

// An EVENT with its id; tags and content as spelled.
fn named(time: i64, kind: u16, tags: &str, content: &str) -> Vec<u8> {
    let unnamed = message_of(&"0".repeat(64), time, kind, tags, content);
    let Ok(Message::Event(parts)) = read(&unnamed) else {
        panic!()
    };
    let id = plavdrosa::id(&unnamed, &parts.body).unwrap();
    message_of(&hex(&id), time, kind, tags, content)
}

const KEY: &str = "bbbbbbbbbbbbbbbbbbbbbbbbbbbbbbbbbbbbbbbbbbbbbbbbbbbbbbbbbbbbbbbb";

fn message_of(id: &str, time: i64, kind: u16, tags: &str, content: &str) -> Vec<u8> {
    let sig = "0".repeat(128);
    format!(
        r#"["EVENT",{{"id":"{id}","pubkey":"{KEY}","created_at":{time},"kind":{kind},"tags":{tags},"content":"{content}","sig":"{sig}"}}]"#
    )
    .into_bytes()
}

fn hex(bytes: &[u8]) -> String {
    bytes.iter().map(|byte| format!("{byte:02x}")).collect()
}

// The parts of a text that are hashed.
fn body_of(text: &[u8]) -> Body {
    let parts = read_text(text).unwrap();
    Body {
        pubkey: Span { start: 4, len: 64 },
        created_at: parts.created_at,
        kind: parts.kind.into(),
        tags: parts.tags,
        content: parts.content,
    }
}

fn holds(bytes: &[u8], piece: &[u8]) -> bool {
    bytes.windows(piece.len()).any(|here| here == piece)
}
