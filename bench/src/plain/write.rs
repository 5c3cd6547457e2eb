//! Card writing: 1, 24, 2, 3, 6, NFL and NFC (8), BAD (7), 10, 11.

use super::read::good_name;
use super::{refuse, spacing, stored, Record, Refusal, CARD};
use fordcask::Series;

#[inline(never)]
pub fn write_card(series: Series, record: &Record, out: &mut [u8]) -> Result<(), Refusal> {
    if (5_000..=9_999).contains(&series.scale) {
        return refuse(24, 0);
    }
    let (a, b) = spacing(series)?;
    let Some(out) = out.first_chunk_mut::<CARD>() else {
        return refuse(6, 0);
    };
    check(record, a, b)?;
    lay_out(record, a, b, out);
    Ok(())
}

/// The bytes of a good record, at any scale that is read.
#[inline(always)]
pub fn lay_out(record: &Record, a: i64, b: i64, out: &mut [u8; CARD]) {
    let (pso, lso) = stored(record.n, record.m, a, b);
    out[0] = b'3';
    put(out, 1, 8, a as u64);
    put(out, 9, 8, b as u64);
    put_angle(out, 17, 3, lso);
    put_angle(out, 28, 2, pso);
    put(out, 38, 6, record.nul);
    put(out, 44, 6, record.nus);
    put(out, 50, 6, record.nll);
    put(out, 56, 6, record.nls);
    put(out, 62, 3, record.nfl);
    put(out, 65, 3, record.nfc);
    out[68..85].copy_from_slice(b"00012800012801008");
    out[85..97].copy_from_slice(&record.bad);
    out[97] = if record.tif { b'Y' } else { b'N' };
}

pub fn check(record: &Record, a: i64, b: i64) -> Result<(), Refusal> {
    if !(1..=999).contains(&record.nfl) {
        return refuse(8, 62);
    }
    if !(1..=999).contains(&record.nfc) {
        return refuse(8, 65);
    }
    if !good_name(&record.bad) {
        return refuse(7, 85);
    }
    let (rows, columns) = (b / 512, a / 256);
    if record.n < -rows || record.n > rows || record.m < -columns || record.m > columns {
        return refuse(10, 0);
    }
    let good = record.nfc <= a as u64 / 128
        && record.n - record.nfl as i64 >= -rows
        && record.nul <= record.nll
        && record.nll < 128 * record.nfl
        && record.nls <= record.nus
        && record.nus < 128 * record.nfc;
    if !good {
        return refuse(11, 0);
    }
    Ok(())
}

/// Zero-filled digits, last first.
fn put(out: &mut [u8; CARD], at: usize, width: usize, value: u64) {
    let mut rest = value;
    for byte in out[at..at + width].iter_mut().rev() {
        *byte = b'0' + (rest % 10) as u8;
        rest /= 10;
    }
}

fn put_angle(out: &mut [u8; CARD], at: usize, width: usize, angle: i64) {
    out[at] = if angle < 0 { b'-' } else { b'+' };
    let size = angle.unsigned_abs();
    let minutes_at = at + 1 + width;
    put(out, at + 1, width, size / 360_000);
    put(out, minutes_at, 2, size / 6_000 % 60);
    put(out, minutes_at + 2, 2, size / 100 % 60);
    out[minutes_at + 4] = b'.';
    put(out, minutes_at + 5, 2, size % 100);
}
