//! Cards on another sheet than their net's, or without a sheet that can be read.

use super::damage::{damage, lines};
use super::Rng;

/// A number near the net's sheet, or at an end of the range.
fn other(rng: &mut Rng, own: u64) -> u64 {
    let any = rng.within(0, 9999);
    rng.pick(&[
        own + 1,
        own.saturating_sub(1),
        (own + 256) % 10_000,
        own / 10,
        own * 10 % 10_000,
        0,
        1,
        9999,
        any,
        any,
    ])
}

/// What may stand in the place of a line with this sheet; at times nothing, or no byte 10 behind it.
fn line(rng: &mut Rng, own: u64) -> String {
    let far = rng.pick(&[10_000, 10_000 + own, 65_536 + own, 99_999, 999_999_999]);
    match rng.below(16) {
        0..=7 => format!("sheet={}\n", other(rng, own)),
        8 | 9 => format!("sheet={far}\n"),
        10 => rng
            .pick(&[
                "\n",
                "sheet\n",
                "sheet=\n",
                "sheet=x\n",
                "sheet=1000000000\n",
                "sheet=4294967296\n",
                "memory=atomic\n",
                "places=1\n",
            ])
            .to_owned(),
        11 | 12 => {
            let before = rng.pick(&[
                "sheet=0",
                "sheet=000",
                "sheet=+",
                "sheet= ",
                "Sheet=",
                "sheets=",
                " sheet=",
                "sheet:",
                "",
            ]);
            format!("{before}{own}\n")
        }
        13 => {
            let behind = rng.pick(&[",\n", " \n", "\r\n", ",1\n", ".0\n", "\n\n", "", ";"]);
            format!("sheet={own}{behind}")
        }
        14 => String::new(),
        _ => {
            let (first, second) = (other(rng, own), other(rng, own));
            let (first, second) = rng.pick(&[(own, own), (own, own), (own, second), (first, own)]);
            format!("sheet={first}\nsheet={second}\n")
        }
    }
}

/// Puts the sheet line of one card wrong, mostly of one behind the net's; at times the card ends
/// there, or something behind that line is damaged too.
pub fn stray_sheet(rng: &mut Rng, bytes: &mut Vec<u8>) {
    let is_sheet = |&&(start, _): &&(usize, usize)| bytes[start..].starts_with(b"sheet=");
    let found: Vec<_> = lines(bytes).iter().filter(is_sheet).copied().collect();
    let Some(&(net_start, net_end)) = found.first() else {
        return;
    };
    let number = std::str::from_utf8(&bytes[net_start + "sheet=".len()..net_end]).ok();
    let own = number.and_then(|text| text.parse().ok()).unwrap_or(1) % 10_000;
    let card = match found.len() {
        1 => 0,
        _ if rng.one_in(10) => 0,
        cards => 1 + rng.index(cards - 1),
    };
    let (start, end) = found[card];
    let mut behind = bytes.split_off((end + 1).min(bytes.len()));
    match rng.below(8) {
        0 => behind.clear(),
        1..=3 => damage(rng, &mut behind),
        _ => {}
    }
    bytes.truncate(start);
    bytes.extend_from_slice(line(rng, own).as_bytes());
    bytes.extend_from_slice(&behind);
}
