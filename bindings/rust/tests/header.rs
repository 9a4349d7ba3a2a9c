//! The crate's numbers, texts and sizes against those of the C header.

use plavdrosa::{Digest, MAX_CAPACITY, MAX_MESSAGE, MAX_TEXT, Refusal, Verdict, output_size, table_size};

const HEADER: &str = include_str!(concat!(env!("CARGO_MANIFEST_DIR"), "/../../include/plavdrosa.h"));

// The lines of an enum.
fn rows(name: &str) -> Vec<&'static str> {
    let start = HEADER.find(&format!("enum {name} {{")).unwrap();
    let body = &HEADER[start..];
    body[..body.find('}').unwrap()].lines().skip(1).collect()
}

// The line that gives a number.
fn row(name: &str, number: u8) -> &'static str {
    let given = |line: &&str| {
        line.split("/*")
            .next()
            .unwrap()
            .trim_end()
            .trim_end_matches(',')
            .ends_with(&format!("= {number}"))
    };
    rows(name).into_iter().find(given).unwrap()
}

// TOO_LONG for TooLong.
fn upper(name: &str) -> String {
    let mut upper = String::new();
    for (i, letter) in name.char_indices() {
        if i > 0 && letter.is_uppercase() {
            upper.push('_');
        }
        upper.push(letter.to_ascii_uppercase());
    }
    upper
}

#[test]
fn refusals_are_the_headers() {
    assert_eq!(rows("plavdrosa_row").len(), 1 + 14);
    for number in 1..=14 {
        let refusal = Refusal::from_number(number).unwrap();
        let line = row("plavdrosa_row", number);
        // without the offset of rows 6 and 7
        let shown = format!("{refusal:?}");
        let name = upper(shown.split(' ').next().unwrap());
        assert!(line.contains(&format!("PLAVDROSA_{name} ")), "{line}");
        match refusal.text() {
            Some(text) => assert!(line.contains(&format!("\"{text}\"")), "{line}"),
            None => assert!(line.contains("no reply"), "{line}"),
        }
        assert_eq!(
            line.contains("\" at \" and the offset"),
            matches!(number, 6 | 7),
            "{line}"
        );
    }
}

#[test]
fn verdicts_are_the_headers() {
    assert_eq!(rows("plavdrosa_verdict").len(), 4);
    for verdict in [Verdict::Stored, Verdict::Ephemeral, Verdict::Duplicate, Verdict::Older] {
        let line = row("plavdrosa_verdict", verdict.number());
        assert!(
            line.contains(&format!("PLAVDROSA_{} ", upper(&format!("{verdict:?}")))),
            "{line}"
        );
        assert!(line.contains(&format!("\"{}\"", verdict.text())), "{line}");
    }
}

#[test]
fn what_matching_answers_is_the_headers() {
    assert_eq!(rows("plavdrosa_matched").len(), 2);
    assert!(row("plavdrosa_matched", 0).contains("PLAVDROSA_MATCHES "));
    assert!(row("plavdrosa_matched", 103).contains("PLAVDROSA_DIFFERS "));
}

#[test]
fn sizes_are_the_headers() {
    let defined = |what: &str| assert!(HEADER.contains(&format!("#define PLAVDROSA_{what}\n")), "{what}");
    defined(&format!("MAX_MESSAGE {MAX_MESSAGE}"));
    defined(&format!("MAX_TEXT {MAX_TEXT}"));
    defined(&format!("MAX_CAPACITY {MAX_CAPACITY}"));
    defined("LINE_SIZE (PLAVDROSA_MAX_MESSAGE + 1)");
    defined(&format!("DIGEST_STATE_SIZE {}", Digest::STATE_SIZE));
    let slot = table_size(1) - table_size(0);
    defined(&format!(
        "TABLE_SIZE(n) ((size_t){} + (size_t)(n) * {slot})",
        table_size(0)
    ));
    let event = output_size(1) - output_size(0);
    defined(&format!("OUTPUT_SIZE(n) ((size_t)(n) * {event} + {})", output_size(0)));
}
