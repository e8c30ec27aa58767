//! A scan as one writes it without proofs and without crates: events as the generator of the bench makes them are read and rolled up
//! by hour, and then the rows of five columns are written as JSON, as the node's scan writes them. `rustc -O scan.rs`
//!
//!     scan EVENTS OUT      times on standard error
//!
//! The text is that of `{"queryType":"scan","columns":["__time","page","lang","added","delta"],"resultFormat":"compactedList",..}` over
//! one range per hour. Texts and numbers are written as `serde_json` writes them: runs of bytes that need no escape are copied
//! whole, and digits go through a buffer two by two.
use std::collections::HashMap;
use std::fs::File;
use std::io::{BufRead, BufReader, Write};
use std::time::Instant;

const DIMS: [&str; 5] = ["page", "lang", "user", "country", "namespace"];
const BATCH: usize = 20480;
const HOUR: i64 = 3_600_000;
const DIGITS: &[u8; 200] =
    b"00010203040506070809101112131415161718192021222324252627282930313233343536373839404142434445464748495051525354555657585960616263646566676869707172737475767778798081828384858687888990919293949596979899";

struct Row {
    time: i64,
    dims: [String; 5],
    added: i64,
    delta: i64,
}

/// Days from 1970-01-01 (the proleptic Gregorian calendar).
fn days(year: i64, month: i64, day: i64) -> i64 {
    let y = if month <= 2 { year - 1 } else { year };
    let era = y.div_euclid(400);
    let of_era = y - era * 400;
    let of_year = (153 * (month + if month > 2 { -3 } else { 9 }) + 2) / 5 + day - 1;
    era * 146_097 + of_era * 365 + of_era / 4 - of_era / 100 + of_year - 719_468
}

/// `2024-01-01T13:22:07.123Z` in milliseconds.
fn millis(text: &str) -> i64 {
    let n = |from: usize, to: usize| text[from..to].parse::<i64>().unwrap();
    let day = days(n(0, 4), n(5, 7), n(8, 10));
    ((day * 24 + n(11, 13)) * 60 + n(14, 16)) * 60_000 + n(17, 19) * 1000 + n(20, 23)
}

/// `2024-01-01T13:00:00.000Z` of an hour within 2024.
fn hour_text(time: i64) -> String {
    let (day, hour) = (time.div_euclid(24 * HOUR), time.rem_euclid(24 * HOUR) / HOUR);
    let (mut month, mut first) = (1, days(2024, 1, 1));
    while month < 12 && days(2024, month + 1, 1) <= day {
        month += 1;
        first = days(2024, month, 1);
    }
    format!("2024-{:02}-{:02}T{:02}:00:00.000Z", month, day - first + 1, hour)
}

/// The value of a member of an event as it is written; the generator writes flat objects without spaces.
fn member<'l>(line: &'l str, name: &str) -> &'l str {
    let start = line.find(&format!("\"{name}\":")).unwrap() + name.len() + 3;
    let rest = &line[start..];
    if !rest.starts_with('"') {
        return &rest[..rest.find([',', '}']).unwrap()];
    }
    let bytes = rest.as_bytes();
    let mut end = 1;
    while bytes[end] != b'"' {
        end += if bytes[end] == b'\\' { 2 } else { 1 };
    }
    &rest[1..end]
}

fn rows_of(path: &str) -> Vec<Row> {
    let mut places: HashMap<(i64, [String; 5]), usize> = HashMap::new();
    let mut rows: Vec<Row> = Vec::new();
    for line in BufReader::new(File::open(path).unwrap()).lines() {
        let line = line.unwrap();
        let time = millis(member(&line, "time")) / HOUR * HOUR;
        let dims = DIMS.map(|d| member(&line, d).replace("\\\"", "\""));
        let number = |name| member(&line, name).parse::<i64>().unwrap();
        let (added, delta) = (number("added"), number("delta"));
        match places.get(&(time, dims.clone())) {
            Some(place) => {
                rows[*place].added += added;
                rows[*place].delta += delta;
            }
            None => {
                places.insert((time, dims.clone()), rows.len());
                rows.push(Row { time, dims, added, delta });
            }
        }
    }
    rows.sort_by(|a, b| (a.time, &a.dims).cmp(&(b.time, &b.dims)));
    rows
}

fn put_number(out: &mut Vec<u8>, number: i64) {
    let mut digits = [0u8; 20];
    let (mut at, mut n) = (20, number.unsigned_abs());
    while n >= 100 {
        let two = (n % 100) as usize * 2;
        n /= 100;
        at -= 2;
        digits[at..at + 2].copy_from_slice(&DIGITS[two..two + 2]);
    }
    if n >= 10 {
        at -= 2;
        digits[at..at + 2].copy_from_slice(&DIGITS[n as usize * 2..n as usize * 2 + 2]);
    } else {
        at -= 1;
        digits[at] = b'0' + n as u8;
    }
    if number < 0 {
        out.push(b'-');
    }
    out.extend_from_slice(&digits[at..]);
}

fn put_text(out: &mut Vec<u8>, text: &str) {
    out.push(b'"');
    let bytes = text.as_bytes();
    let mut start = 0;
    for (i, byte) in bytes.iter().enumerate() {
        if *byte >= 0x20 && *byte != b'"' && *byte != b'\\' {
            continue;
        }
        out.extend_from_slice(&bytes[start..i]);
        start = i + 1;
        match byte {
            b'"' => out.extend_from_slice(b"\\\""),
            b'\\' => out.extend_from_slice(b"\\\\"),
            b'\n' => out.extend_from_slice(b"\\n"),
            b'\r' => out.extend_from_slice(b"\\r"),
            b'\t' => out.extend_from_slice(b"\\t"),
            8 => out.extend_from_slice(b"\\b"),
            12 => out.extend_from_slice(b"\\f"),
            _ => out.extend_from_slice(format!("\\u{byte:04x}").as_bytes()),
        }
    }
    out.extend_from_slice(&bytes[start..]);
    out.push(b'"');
}

fn scan(rows: &[Row]) -> Vec<u8> {
    let mut out = Vec::new();
    out.push(b'[');
    for chunk in rows.chunk_by(|a, b| a.time == b.time) {
        for batch in chunk.chunks(BATCH) {
            if out.len() > 1 {
                out.push(b',');
            }
            out.extend_from_slice(b"{\"columns\":[\"__time\",\"page\",\"lang\",\"added\",\"delta\"],\"events\":[");
            for (i, row) in batch.iter().enumerate() {
                out.extend_from_slice(if i > 0 { b",[" } else { b"[" });
                put_number(&mut out, row.time);
                for text in &row.dims[..2] {
                    out.push(b',');
                    put_text(&mut out, text);
                }
                for number in [row.added, row.delta] {
                    out.push(b',');
                    put_number(&mut out, number);
                }
                out.push(b']');
            }
            let (start, end) = (hour_text(batch[0].time), hour_text(batch[0].time + HOUR));
            out.extend_from_slice(b"],\"segmentId\":");
            put_text(&mut out, &format!("wiki_{start}_{end}_r"));
            out.push(b'}');
        }
    }
    out.extend_from_slice(b"]\n");
    out
}

fn main() {
    let arguments: Vec<String> = std::env::args().collect();
    let rows = rows_of(&arguments[1]);
    for _ in 0..5 {
        let start = Instant::now();
        let text = scan(&rows);
        File::create(&arguments[2]).unwrap().write_all(&text).unwrap();
        let seconds = start.elapsed().as_secs_f64();
        eprintln!("{} rows, {} bytes, {:.1} ms, {:.0} rows/s", rows.len(), text.len(), seconds * 1e3, rows.len() as f64 / seconds);
    }
}
