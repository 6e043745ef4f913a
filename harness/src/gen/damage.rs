//! Damaged cards and junk.

use super::{net, Rng, Size};
use crate::naive;

/// The start and end of each line, its byte 10 not included.
pub fn lines(bytes: &[u8]) -> Vec<(usize, usize)> {
    let mut lines = Vec::new();
    let mut start = 0;
    for (at, &byte) in bytes.iter().enumerate() {
        if byte == b'\n' {
            lines.push((start, at));
            start = at + 1;
        }
    }
    if start < bytes.len() {
        lines.push((start, bytes.len()));
    }
    lines
}

pub const NUMBERS: [&str; 34] = [
    "",
    "0",
    "00",
    "01",
    "007",
    "1",
    "16",
    "17",
    "31",
    "32",
    "33",
    "64",
    "65",
    "99",
    "255",
    "256",
    "1000",
    "1001",
    "9999",
    "10000",
    "10000000",
    "10000001",
    "99999999",
    "999999999",
    "1000000000",
    "4294967296",
    "18446744073709551616",
    "+1",
    "-1",
    " 1",
    "1 ",
    "0x1",
    "inf",
    "1e3",
];

const WORDS: [&str; 32] = [
    "inf",
    "INF",
    "in",
    "inf0",
    "infinity",
    "atomic",
    "Atomic",
    "atomi",
    "atomicc",
    "intermediate",
    "intermediat",
    "carry",
    "Carry",
    "carr",
    "carryx",
    "carry ",
    "none",
    "off",
    "=",
    ",",
    "sheet=0",
    "sheet=1",
    "places=1",
    "start=0",
    "memory=atomic",
    "memory=carry",
    "rest=0",
    "wait=0",
    "fire=0",
    "firings=0",
    "denominator=1",
    "pairs=none",
];

/// Does one thing to the bytes that a careless writer or a bad line might.
pub fn damage(rng: &mut Rng, bytes: &mut Vec<u8>) {
    if bytes.is_empty() {
        bytes.push(rng.draw() as u8);
        return;
    }
    let lines = lines(bytes);
    let (start, end) = rng.pick(&lines);
    let at = rng.index(bytes.len());
    let value = bytes[start..end]
        .iter()
        .position(|&byte| byte == b'=')
        .map_or(start, |at| start + at + 1);
    match rng.below(30) {
        0 => bytes[at] ^= 1 << rng.below(8),
        1 => bytes[at] = rng.pick(b"0123456789,=\n\r -+.aif\0\xff"),
        2 => drop(bytes.remove(at)),
        3 => bytes.insert(at, rng.pick(b"0123456789,=\n\r -+.aif\0\xff")),
        4 => bytes.truncate(at),
        5 => bytes.truncate(end + rng.index(2)),
        6 => drop(bytes.drain(start..(end + 1).min(bytes.len()))),
        7 => {
            let mut line = bytes[start..end].to_vec();
            line.push(b'\n');
            bytes.splice(start..start, line);
        }
        8 => {
            // Two lines change places.
            let (other_start, other_end) = rng.pick(&lines);
            let line = bytes[start..end].to_vec();
            let other = bytes[other_start..other_end].to_vec();
            if start > other_start {
                bytes.splice(start..end, other);
                bytes.splice(other_start..other_end, line);
            } else {
                bytes.splice(other_start..other_end, line);
                bytes.splice(start..end, other);
            }
        }
        9 | 27 | 28 => bytes.extend_from_slice(
            rng.pick(&[
                "\n",
                "x",
                "0",
                "rest=0\n",
                "fire=0\n",
                "places=1\n",
                "sheet=1\n",
                "pairs=none\n",
                "\0",
            ])
            .as_bytes(),
        ),
        10 => drop(bytes.splice(value..end, rng.pick(&NUMBERS).bytes())),
        11 => drop(bytes.splice(value..end, rng.pick(&WORDS).bytes())),
        12 => {
            let zeros = rng.pick(&["0", "00", "000000000"]);
            bytes.splice(value..value, zeros.bytes());
        }
        13 => bytes.insert(end, b'\r'),
        14 => {
            let text: Vec<u8> = bytes
                .iter()
                .flat_map(|&byte| {
                    if byte == b'\n' {
                        vec![b'\r', b'\n']
                    } else {
                        vec![byte]
                    }
                })
                .collect();
            *bytes = text;
        }
        15 | 16 => one_number(rng, bytes),
        17 | 18 => one_item(rng, bytes, &lines),
        19 | 25 | 26 => boundary(rng, bytes),
        20 => drop(bytes.pop()),
        21 | 22 => stray_fire(rng, bytes),
        23 | 24 => early_latest(rng, bytes),
        _ => {
            // The end of the cards' numbers: the last lines rather than any.
            let (start, end) = lines[lines.len() - 1 - rng.index(lines.len().min(4))];
            let value = bytes[start..end]
                .iter()
                .position(|&byte| byte == b'=')
                .map_or(start, |at| start + at + 1);
            bytes.splice(value..end, rng.pick(&NUMBERS).bytes());
        }
    }
}

/// Changes one number somewhere into another, often a large one.
fn one_number(rng: &mut Rng, bytes: &mut Vec<u8>) {
    let from = rng.index(bytes.len());
    let Some(start) = bytes[from..]
        .iter()
        .position(u8::is_ascii_digit)
        .map(|at| from + at)
    else {
        return;
    };
    let digits = bytes[start..]
        .iter()
        .take_while(|byte| byte.is_ascii_digit())
        .count();
    bytes.splice(start..start + digits, rng.pick(&NUMBERS).bytes());
}

/// Changes something in a list of weights: an item, or the number of items.
fn one_item(rng: &mut Rng, bytes: &mut Vec<u8>, lines: &[(usize, usize)]) {
    let is_list = |&&(start, _): &&(usize, usize)| {
        bytes[start..].starts_with(b"take=") || bytes[start..].starts_with(b"give=")
    };
    let lists: Vec<_> = lines.iter().filter(is_list).copied().collect();
    if lists.is_empty() {
        return;
    }
    let (start, end) = rng.pick(&lists);
    let list = String::from_utf8_lossy(&bytes[start + 5..end]).into_owned();
    let mut items: Vec<String> = list.split(',').map(str::to_owned).collect();
    for _ in 0..rng.pick(&[1, 1, 2]) {
        let at = rng.index(items.len());
        match rng.below(5) {
            0 => items.insert(at, rng.pick(&["0", "", "255", "256"]).to_owned()),
            1 if items.len() > 1 => drop(items.remove(at)),
            2 => items[at] = rng.pick(&["256", "999999999"]).to_owned(),
            _ => items[at] = rng.pick(&NUMBERS).to_owned(),
        }
    }
    bytes.splice(start + 5..end, items.join(",").into_bytes());
}

/// Sets the number of one known line to an end of its range or one past it.
fn boundary(rng: &mut Rng, bytes: &mut Vec<u8>) {
    let keys: [(&str, [&str; 3]); 10] = [
        ("sheet=", ["0", "9999", "10000"]),
        ("places=", ["0", "16", "17"]),
        ("transitions=", ["0", "32", "33"]),
        ("start=", ["0", "255", "256"]),
        ("earliest=", ["0", "1000", "1001"]),
        ("latest=", ["0", "1000", "1001"]),
        ("denominator=", ["0", "1000", "1001"]),
        ("firings=", ["0", "64", "65"]),
        ("wait=", ["0", "10000000", "10000001"]),
        ("rest=", ["0", "10000000", "10000001"]),
    ];
    let (key, values) = rng.pick(&keys);
    set(rng, bytes, key, &values);
}

/// Sets a transition number to one about the end of the net's, or far outside.
fn stray_fire(rng: &mut Rng, bytes: &mut Vec<u8>) {
    let Ok((net, _)) = naive::read_net(bytes) else {
        return;
    };
    let transitions = net.transitions.len() as u64;
    let values = [
        transitions,
        transitions - 1,
        transitions + 1,
        99,
        256,
        65_536,
        999_999_999,
    ];
    set(rng, bytes, "fire=", &values);
}

/// Lowers the number of a `latest` line below the one of the line before.
fn early_latest(rng: &mut Rng, bytes: &mut Vec<u8>) {
    let lines = lines(bytes);
    let number = |&(start, end): &(usize, usize), key: &str| -> Option<u64> {
        let text = bytes[start..end].strip_prefix(key.as_bytes())?;
        std::str::from_utf8(text).ok()?.parse().ok()
    };
    let mut found = Vec::new();
    for pair in lines.windows(2) {
        if let Some(earliest) = number(&pair[0], "earliest=") {
            if earliest > 0 && bytes[pair[1].0..].starts_with(b"latest=") {
                found.push((pair[1], earliest));
            }
        }
    }
    if !found.is_empty() {
        let ((start, end), earliest) = rng.pick(&found);
        let latest = rng.pick(&[earliest - 1, earliest - 1, 0, earliest]);
        bytes.splice(
            start + "latest=".len()..end,
            latest.to_string().into_bytes(),
        );
    }
}

/// Gives one of the lines with this key one of the values.
fn set<T: Copy + ToString>(rng: &mut Rng, bytes: &mut Vec<u8>, key: &str, values: &[T]) {
    let is_key = |&&(start, _): &&(usize, usize)| bytes[start..].starts_with(key.as_bytes());
    let found: Vec<_> = lines(bytes).iter().filter(is_key).copied().collect();
    if !found.is_empty() {
        let (start, end) = rng.pick(&found);
        let value = rng.pick(values).to_string();
        bytes.splice(start + key.len()..end, value.into_bytes());
    }
}

/// Bytes that are hardly a card.
pub fn junk(rng: &mut Rng) -> Vec<u8> {
    let length = rng.within(0, 300);
    match rng.below(6) {
        0 => Vec::new(),
        1 => (0..length).map(|_| rng.draw() as u8).collect(),
        2 => (0..length)
            .map(|_| rng.pick(b"0123456789,=\n\nsheetplacestrinf"))
            .collect(),
        3 => net(rng, Size::Small).card().into_bytes(),
        4 => {
            let net = net(rng, Size::Small);
            (net.card() + &net.card()).into_bytes()
        }
        _ => {
            let all: Vec<&str> = WORDS.iter().chain(&NUMBERS).copied().collect();
            let lines: Vec<&str> = (0..length % 20).map(|_| rng.pick(&all)).collect();
            lines.join("\n").into_bytes()
        }
    }
}
