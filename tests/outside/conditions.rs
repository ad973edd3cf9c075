//! The one-edit conditions, decided from the written and the received strand alone.

use crate::strands::{cut, syndrome_length, LETTERS};

/// The smallest place of the one edit between a segment and a stretch that differs from it; none where it takes more.
fn edited_at(segment: &[u8], stretch: &[u8]) -> Option<usize> {
    if segment.len().abs_diff(stretch.len()) > 1 {
        return None;
    }
    let equal = |(x, y): &(&u8, &u8)| x == y;
    let before = segment.iter().zip(stretch).take_while(equal).count();
    let backwards = segment.iter().rev().zip(stretch.iter().rev());
    let behind = backwards.take_while(equal).count();
    let place = segment.len().max(stretch.len()) - 1 - behind;
    (place <= before).then_some(place)
}

/// Whether some way of cutting up the received strand keeps the conditions; letters are compared as they stand.
pub fn kept(lengths: &[u16], strand: &[u8], received: &[u8]) -> bool {
    if received.iter().any(|letter| !LETTERS.contains(letter)) {
        return false;
    }
    // Each is an end of the stretches so far, and whether the next segment has to be untouched.
    let mut ends = vec![(0, false)];
    for (segment, &k) in cut(lengths, strand).iter().zip(lengths) {
        let n = segment.len();
        let tail = n - syndrome_length(k) - 3;
        let mut next = Vec::new();
        for (from, spared) in ends {
            for end in from + n - 1..=from + n + 1 {
                let Some(stretch) = received.get(from..end) else {
                    continue;
                };
                if stretch == segment {
                    next.push((end, false));
                } else if let (false, Some(place)) = (spared, edited_at(segment, stretch)) {
                    next.push((end, place >= tail));
                }
            }
        }
        next.sort();
        next.dedup();
        ends = next;
    }
    ends.iter().any(|&(end, _)| end == received.len())
}
