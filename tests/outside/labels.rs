//! Samples of labels with their bytes.

use crate::program::{bytes_of, hex};
use crate::{ffi, order_of, sample, MOST_LABEL};

/// Stands in lent buffers before a call.
const BEFORE: u8 = 0xEE;

/// An order, B and lengths, and its label in edition 1 or 2 and in edition 3.
type Carried = (u32, &'static [u16], &'static str, &'static str);

/// Orders that the old editions can carry: the last two are at the ends of their limits.
const CARRIED: [Carried; 7] = [
    (1, &[2, 2], "10402000", "3004100804"),
    (1, &[4], "10802000", "30040810"),
    // 0010 00000010 0000010 0000010 0000110 and seven zero bits; 0011 0000000010 0000010 000000010 000000110 and one.
    (2, &[2, 6], "2020408300", "300810080C"),
    (2, &[2, 4, 2], "2020608202", "300818080802"),
    (32, &[16; 8], "12040000", "308040402010080402010080"),
    (128, &[64; 8], "18100000", "320041008040201008040200"),
    (
        128,
        &[2, 64, 64, 64, 64, 64, 64, 64, 62],
        "280120A040810204080F80",
        "320048088040201008040200F8",
    ),
];

/// Orders that edition 3 alone can carry, by a length or by B.
const LARGE: [(u32, &[u16], &str); 6] = [
    (17, &[65, 3], "3044110406"),
    (65, &[65; 4], "3104210482412080"),
    (129, &[43; 12], "320460AC562B158AC562B158AC562B1580"),
    (64, &[256], "31000C00"),
    (64, &[2, 254], "31001009FC"),
    // 0011 1000000000 0001000, eight times 100000000, and three zero bits.
    (512, &[256; 8], "380044020100804020100800"),
];

fn bytes(digits: &str) -> Vec<u8> {
    bytes_of(digits.as_bytes()).unwrap_or_default()
}

/// A buffer of so many bytes with a label at its front.
fn buffer(label: &str, room: usize) -> String {
    let behind = [BEFORE; MOST_LABEL + 3];
    let rest = &hex(&behind)[..2 * room - label.len()];
    format!("{label}{rest}")
}

/// The refusal and the buffer after a call that writes a label.
fn after(call: impl Fn(&mut [u8]) -> ffi::Written, room: usize) -> (u32, usize, String) {
    let mut out = vec![BEFORE; room];
    let got = call(&mut out);
    (got.refusal, got.length, hex(&out))
}

/// What a call leaves that writes this label to a buffer of so many bytes, or has too few for it.
fn written_in(label: &str, room: usize) -> (u32, usize, String) {
    if 2 * room < label.len() {
        return (5, 0, buffer("", room));
    }
    (0, label.len() / 2, buffer(label, room))
}

/// The rooms about the bytes of a label.
fn rooms(label: &str) -> [usize; 5] {
    let needed = label.len() / 2;
    [0, needed - 1, needed, needed + 1, MOST_LABEL + 1]
}

/// Each order is written in the oldest edition that can carry it.
pub fn written() {
    let carried = CARRIED.map(|(b, lengths, old, _)| (b, lengths, old));
    for (b, lengths, label) in carried.into_iter().chain(LARGE) {
        for room in rooms(label) {
            let got = after(|out| ffi::write_label(lengths, b, out), room);
            sample(&format!("label {label}"), got, written_in(label, room));
        }
    }
    let got = ffi::write_label(&[256; 64], 512, &mut [0; MOST_LABEL]);
    sample("64 lengths of 256", got.refusal, 3);
    let longest = [&[33; 60][..], &[17; 4]].concat();
    let got = ffi::write_label(&longest, 512, &mut [0; MOST_LABEL]);
    sample("longest label", (got.refusal, got.length), (0, MOST_LABEL));
}

/// A label is read also where bytes stand behind it; a byte less is too few.
fn read_as(label: &str, order: (&[u16], u32)) {
    let (label, behind) = (bytes(label), [0xFF]);
    let longer = [&label[..], &behind].concat();
    let shorter = &label[..label.len() - 1];
    for (label, wanted) in [
        (&label[..], Ok(order)),
        (&longer, Ok(order)),
        (shorter, Err(5)),
    ] {
        let got = ffi::read_label(label);
        sample(&format!("label {}", hex(label)), got, order_of(wanted));
    }
}

/// What is read from a label, or the number that refuses it.
pub fn read() {
    for (b, lengths, old, label) in CARRIED {
        read_as(old, (lengths, b));
        read_as(label, (lengths, b));
    }
    for (b, lengths, label) in LARGE {
        read_as(label, (lengths, b));
    }
    let refused = [
        // No bytes, no count, too few for the count.
        ("", 5),
        ("20", 5),
        ("2020", 5),
        ("20204083", 5),
        ("30", 5),
        ("3008", 5),
        ("30081008", 5),
        ("33FFFF", 5),
        // An edition that is not known needs four bytes.
        ("402040", 5),
        ("40204000", 8),
        ("00402000", 8),
        ("F0402000", 8),
        // A bit behind the last field.
        ("10402001", 8),
        ("2020408301", 8),
        ("300810080D", 8),
        // Equal lengths in edition 2, whatever they are.
        ("2020410200", 8),
        ("2010404080", 8),
        // Lengths 0, 1, 65 and 257; those of the old editions go up to 64.
        ("2020408000", 1),
        ("2020404300", 1),
        ("3004100402", 1),
        ("18222000", 1),
        ("2110504180", 1),
        ("3104140406", 1),
        // Each length is looked at, and 1 comes before 2.
        ("3000140406", 1),
        // B = 0, 129 in edition 1 and 2, 513 in edition 3.
        ("10400000", 2),
        ("15702000", 2),
        ("281130204081020407C180", 2),
        ("3000100804", 2),
        ("3804100804", 2),
        ("3FFC00", 2),
        // No lengths, another sum.
        ("202000", 3),
        ("300800", 3),
        ("3004100806", 3),
        ("3048110406", 3),
    ];
    for (label, number) in refused {
        let got = ffi::read_label(&bytes(label));
        sample(&format!("label {label}"), got, order_of(Err(number)));
        // The buffer is not looked at, and stays as it is.
        for room in [0, MOST_LABEL] {
            let got = after(|out| ffi::convert_label(&bytes(label), out), room);
            let wanted = (number, 0, buffer("", room));
            sample(&format!("label {label} converted"), got, wanted);
        }
    }
}

/// Each label goes to the other editions and back, and one too large for the old ones is refused before the buffer is looked at.
pub fn converted() {
    for (_, _, old, label) in CARRIED {
        for (from, to) in [(old, label), (label, old)] {
            for room in rooms(to) {
                let got = after(|out| ffi::convert_label(&bytes(from), out), room);
                sample(&format!("{from} converted"), got, written_in(to, room));
            }
        }
    }
    for (_, _, label) in LARGE {
        for room in rooms(label) {
            let got = after(|out| ffi::convert_label(&bytes(label), out), room);
            let wanted = (13, 0, buffer("", room));
            sample(&format!("{label} converted"), got, wanted);
        }
    }
    // Bytes behind the label are not read.
    let got = after(|out| ffi::convert_label(&bytes("10402000FF"), out), 5);
    sample("bytes behind", got, written_in("3004100804", 5));
}
