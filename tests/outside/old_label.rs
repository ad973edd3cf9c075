//! Reads labels as a reader does that knows the old editions, 1 and 2, alone.

/// The number in so many bits of a label from a bit on, the most significant first.
fn field(label: &[u8], from: usize, width: usize) -> u32 {
    let bit = |place: usize| u32::from(label[place / 8] >> (7 - place % 8) & 1);
    (from..from + width).fold(0, |number, place| 2 * number + bit(place))
}

/// Whether no bit is set from a bit on.
fn spare(label: &[u8], from: usize) -> bool {
    (from..8 * label.len()).all(|place| field(label, place, 1) == 0)
}

/// The bytes that a label needs: by edition 2 those of its count, by any other four.
fn needs(bytes: &[u8]) -> Option<usize> {
    if field(bytes.get(..1)?, 0, 4) != 2 {
        return Some(4);
    }
    let count = field(bytes.get(..3)?, 12, 7) as usize;
    Some((19 + 7 * count).div_ceil(8))
}

/// The lengths and B of a label, or the number that refuses it: 5, 8, 1, 2 and 3 are tested.
pub fn read(bytes: &[u8]) -> Result<(Vec<u16>, u32), u32> {
    let label = needs(bytes).and_then(|needs| bytes.get(..needs));
    let label = label.ok_or(5u32)?;
    match field(label, 0, 4) {
        1 => edition_1(label),
        2 => edition_2(label),
        _ => Err(8),
    }
}

fn edition_1(label: &[u8]) -> Result<(Vec<u16>, u32), u32> {
    let (k, b) = (field(label, 4, 7), field(label, 11, 8));
    if !spare(label, 19) {
        return Err(8);
    }
    if !(2..=64).contains(&k) {
        return Err(1);
    }
    if !(1..=128).contains(&b) {
        return Err(2);
    }
    if 4 * b % k != 0 || 4 * b / k > 64 {
        return Err(3);
    }
    Ok((vec![k as u16; (4 * b / k) as usize], b))
}

fn edition_2(label: &[u8]) -> Result<(Vec<u16>, u32), u32> {
    let (b, count) = (field(label, 4, 8), field(label, 12, 7) as usize);
    let length = |i: usize| field(label, 19 + 7 * i, 7) as u16;
    let lengths: Vec<u16> = (0..count).map(length).collect();
    let equal = lengths.windows(2).all(|two| two[0] == two[1]);
    if !spare(label, 19 + 7 * count) || (1..=64).contains(&count) && equal {
        return Err(8);
    }
    if lengths.iter().any(|k| !(2..=64).contains(k)) {
        return Err(1);
    }
    if !(1..=128).contains(&b) {
        return Err(2);
    }
    let sum: u32 = lengths.iter().map(|&k| u32::from(k)).sum();
    if !(1..=64).contains(&count) || sum != 4 * b {
        return Err(3);
    }
    Ok((lengths, b))
}
