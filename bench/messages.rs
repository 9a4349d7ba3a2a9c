// JSON texts of a size, each of one kind.

// A text of `open`, as many of `piece` as fit with a comma between them, and `close`.
fn filled(size: usize, open: &str, piece: &str, close: &str) -> Vec<u8> {
    let mut s = open.to_string() + piece;
    while s.len() + 1 + piece.len() + close.len() <= size {
        s.push(',');
        s.push_str(piece);
    }
    (s + close).into_bytes()
}

// One string of as many of `piece` as fit.
fn string(size: usize, piece: &str) -> Vec<u8> {
    format!("[\"{}\"]", piece.repeat((size - 4) / piece.len())).into_bytes()
}

pub fn ascii(size: usize) -> Vec<u8> {
    string(size, "a tile of floor 3, read by cart 17 ")
}

pub fn high(size: usize) -> Vec<u8> {
    string(size, "é€𝄞жあ😀ßñ")
}

pub fn digits(size: usize) -> Vec<u8> {
    format!("[{}]", "1234567890".repeat((size - 2) / 10)).into_bytes()
}

pub fn deep(size: usize) -> Vec<u8> {
    filled(size, "[", "[[[[[[[]]]]]]]", "]")
}

pub fn members(size: usize) -> Vec<u8> {
    filled(size, "{", "\"ab\":1,\"c\":\"d\"", "}")
}

pub fn escapes(size: usize) -> Vec<u8> {
    string(size, "\\n\\u00e9\\\"\\ud83d\\ude00\\t")
}

// What stands before and behind the tags of an EVENT.
fn around_tags() -> (String, String) {
    let hex = "0123456789abcdef".repeat(4);
    let open = format!(
        "[\"EVENT\",{{\"id\":\"{hex}\",\"pubkey\":\"{hex}\",\"created_at\":1700000000,\"kind\":30078,\"tags\":["
    );
    let close = format!("],\"content\":\"the shelf by the door has moved\\n\",\"sig\":\"{hex}{hex}\"}}]");
    (open, close)
}

// An EVENT as clients send it. From some 5,800 bytes on it has more tags than row 8 allows.
pub fn event(size: usize) -> Vec<u8> {
    let (open, close) = around_tags();
    filled(size, &open, "[\"e\",\"5c83da77af1dec6d7289834998ad7aafbd9e2191396d75ec3cc27f5a77226f36\",\"wss://r\"]", &close)
}

// An EVENT with as many tags as there may be, each of one length.
pub fn tagged(size: usize) -> Vec<u8> {
    let (open, close) = around_tags();
    let room = (size - open.len() - close.len() + 1) / 64 - "[\"t\",\"\"],".len();
    let tag = format!("[\"t\",\"{}\"]", &"a tile of floor 3, read by cart 17 ".repeat(size / 35)[..room]);
    (open + &vec![tag; 64].join(",") + &close).into_bytes()
}

// A REQ of four filters with full lists.
pub fn req(size: usize) -> Vec<u8> {
    let hex = "0123456789abcdef".repeat(4);
    let list = vec![format!("\"{hex}\""); (size / 4 - 200).min(2400) / 67 / 2].join(",");
    let filter = format!(
        "{{\"ids\":[{list}],\"authors\":[{list}],\"kinds\":[1,30078],\"since\":-7200,\"until\":1700000000,\"limit\":10,\"#d\":[\"t1\",\"t2\"]}}"
    );
    format!("[\"REQ\",\"tablet 4\",{filter},{filter},{filter},{filter}]").into_bytes()
}

// A REQ that asks for what refers to sixteen events and sixteen pubkeys, in each of three filters.
pub fn referring() -> Vec<u8> {
    let list = vec![format!("\"{}\"", "0123456789abcdef".repeat(4)); 16].join(",");
    let filter = format!("{{\"#e\":[{list}],\"#p\":[{list}]}}");
    format!("[\"REQ\",\"tablet 4\",{filter},{filter},{filter}]").into_bytes()
}

// A REQ of four filters that each have as many ids, authors and members of #e and #p as fit.
pub fn wide_req(size: usize) -> Vec<u8> {
    let hex = "0123456789abcdef".repeat(4);
    let of = |n: usize| {
        let list = vec![format!("\"{hex}\""); n].join(",");
        let filter = format!("{{\"ids\":[{list}],\"authors\":[{list}],\"kinds\":[1,30078],\"since\":-7200,\"limit\":10,\"#e\":[{list}],\"#p\":[{list}]}}");
        format!("[\"REQ\",\"tablet 4\",{filter},{filter},{filter},{filter}]").into_bytes()
    };
    (1..=16).map(of).take_while(|m| m.len() <= size).last().unwrap()
}

// An EVENT with as many tags as there may be and a wrong number behind them.
pub fn wrong_number(size: usize) -> Vec<u8> {
    let text = String::from_utf8(tagged(size)).unwrap();
    let moved = text.replace("\"created_at\":1700000000,", "").replace("\"}]", "\",\"created_at\":1.7e9}]");
    moved.into_bytes()
}

// A REQ with full lists, in which so many ids and keys, from the last on, are no lower-case hex.
pub fn wrong_hex(size: usize, count: usize) -> Vec<u8> {
    let mut m = wide_req(size);
    let quoted = |k: &usize| m[*k] == b'"' && m[*k + 1] == b'0';
    let places: Vec<usize> = (0..m.len() - 1).filter(quoted).collect();
    for k in places.into_iter().rev().take(count) {
        m[k + 1] = b'F';
    }
    m
}

// An EVENT that is mostly content.
pub fn content(size: usize) -> Vec<u8> {
    content_of(size, "a tile of floor 3, read by cart 17 ")
}

// The same with each letter spelled as an escape, so that the text has a sixth of the bytes.
pub fn spelled(size: usize) -> Vec<u8> {
    content_of(size, "\\u0061")
}

fn content_of(size: usize, piece: &str) -> Vec<u8> {
    let hex = "0123456789abcdef".repeat(4);
    let open = format!(
        "[\"EVENT\",{{\"id\":\"{hex}\",\"pubkey\":\"{hex}\",\"created_at\":-7200,\"kind\":1,\"tags\":[],\"content\":\""
    );
    let close = format!("\",\"sig\":\"{hex}{hex}\"}}]");
    let room = size - open.len() - close.len();
    (open + &piece.repeat(room / piece.len()) + &close).into_bytes()
}

// An EVENT whose text has so many bytes: these tags, and content of `piece` filled up with `x`.
pub fn sized(size: usize, tags: &str, piece: &str) -> Vec<u8> {
    let hex = "0123456789abcdef".repeat(4);
    let text = format!("[0,\"{hex}\",1700000000,30078,[{tags}],\"\"]").len();
    let room = size.checked_sub(text).unwrap();
    let content = piece.repeat(room / piece.len()) + &"x".repeat(room % piece.len());
    format!(
        "[\"EVENT\",{{\"id\":\"{hex}\",\"pubkey\":\"{hex}\",\"created_at\":1700000000,\"kind\":30078,\"tags\":[{tags}],\"content\":\"{content}\",\"sig\":\"{hex}{hex}\"}}]"
    )
    .into_bytes()
}

pub const KINDS: [(&str, fn(usize) -> Vec<u8>); 7] = [
    ("one ASCII string", ascii),
    ("two- to four-byte UTF-8", high),
    ("one run of digits", digits),
    ("eight brackets open", deep),
    ("small members", members),
    ("strings of escapes", escapes),
    ("an EVENT with tags", event),
];
