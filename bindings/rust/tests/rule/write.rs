//! (01, "The image card, 98 bytes"; 02, E4 and E13): writing.

use super::read::{extents_hold, name_good, origin_accepted};
use super::{non_polar, printed, refuse, stored_angle, Answer, CARD};
use fordcask::{Record, Series};

/// A sign, degrees, minutes, seconds, a dot and hundredths; zero carries a plus.
fn angle_text(angle: i128, degree_digits: usize) -> String {
    let sign = if angle < 0 { '-' } else { '+' };
    let size = angle.abs();
    let degrees = size / 360_000;
    let minutes = size / 6_000 % 60;
    let seconds = size / 100 % 60;
    let hundredths = size % 100;
    format!("{sign}{degrees:0degree_digits$}{minutes:02}{seconds:02}.{hundredths:02}")
}

/// The card's text for a good record.
fn card_text(a: i128, b: i128, record: &Record) -> String {
    let lso = angle_text(stored_angle(record.m as i128, a), 3);
    let pso = angle_text(stored_angle(record.n as i128, b), 2);
    let edges = [record.nul, record.nus, record.nll, record.nls];
    let mut text = format!("3{a:08}{b:08}{lso}{pso}");
    for edge in edges {
        text += &format!("{edge:06}");
    }
    text += &format!("{:03}{:03}", record.nfl, record.nfc);
    text += "00012800012801008";
    for byte in record.bad {
        text.push(byte as char);
    }
    text.push(if record.tif { 'Y' } else { 'N' });
    text
}

/// The 98 bytes at any scale: 1, 17, 1 (02, E4), 2, 3, 6, then NFL, NFC (8), BAD (7), then 10, 11.
pub fn lay_out(series: Series, record: &Record, out_len: usize) -> Answer<Vec<u8>> {
    let (a, b) = non_polar(series)?;
    if out_len < CARD {
        return refuse(6, 0);
    }
    if !(1..=999).contains(&record.nfl) {
        return refuse(8, 62);
    }
    if !(1..=999).contains(&record.nfc) {
        return refuse(8, 65);
    }
    if !name_good(&record.bad) {
        return refuse(7, 85);
    }
    if !origin_accepted(a, b, record.n as i128, record.m as i128) {
        return refuse(10, 0);
    }
    if !extents_hold(a, b, record) {
        return refuse(11, 0);
    }
    let bytes = card_text(a, b, record).into_bytes();
    assert_eq!(bytes.len(), CARD, "a written card has 98 bytes");
    Ok(bytes)
}

/// Writing: 1, 24 (02, E13), then as laid out: 17, 1 (02, E4), 2, 3, 6, then NFL, NFC (8), BAD (7),
/// then 10, 11.
pub fn write(series: Series, record: &Record, out_len: usize) -> Answer<Vec<u8>> {
    printed(series.scale)?;
    lay_out(series, record, out_len)
}
