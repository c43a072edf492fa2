//! The files that the document gives, and files of protocols, with the line for each.

pub fn hex(text: &str) -> Vec<u8> {
    text.split_whitespace().map(|byte| u8::from_str_radix(byte, 16).expect("two hexadecimal digits")).collect()
}

pub const R: &str = "02 01 01 00 00 01 01 02 00 00 00 01 00 01 00 01 00 00 02 00 01 00 01 01 01 00 00 01 00";
pub const S: &str = "01 01 00 02 01 01 01 00 00 00 01 00 01 00 02 01 02 00 00 01 01 01 01 01 01 01 00";

/// R without its pool `01 01 01 00 00`, in two parts.
const R_BEFORE_POOL: &str = "02 01 01 00 00 01 01 02 00 00 00 01 00 01 00 01 00 00 02 00 01 00";
const R_AFTER_POOL: &str = "01 00";
/// S up to the count of its one transition, the transition, the pool, and the rest.
const S_BEFORE_TRANSITION: &str = "01 01 00 02 01 01 01";
const S_TRANSITION: &str = "00 00 00 01 00 01 00";
const S_POOL: &str = "02 01 02 00 00 01 01 01 01 01 01";
const S_AFTER_POOL: &str = "01 00";

pub struct Worked {
    pub name: &'static str,
    pub bytes: Vec<u8>,
    pub line: &'static str,
}

/// The fourteen lettered cases.
pub fn cases() -> Vec<Worked> {
    let r_with_pool = |pool: &str| hex(&format!("{R_BEFORE_POOL} {pool} {R_AFTER_POOL}"));
    let s_with =
        |transition: &str, pool: &str| hex(&format!("{S_BEFORE_TRANSITION} {transition} {pool} {S_AFTER_POOL}"));
    let r = hex(R);
    let (_, r_after_first) = r.split_first().expect("R has bytes");
    let (_, r_before_last) = r.split_last().expect("R has bytes");
    let worked = |name, bytes, line| Worked { name, bytes, line };
    vec![
        worked("a", r.clone(), "closed 4"),
        worked("b", r_with_pool("01 01 00"), "leaves 0 0 0 0:"),
        worked("c", r_with_pool("02 01 01 00 01 01 00"), "leaves 0 0 1 1: 0"),
        worked("d", r_with_pool("01 00 01 00 00"), "outside"),
        worked("e", [r_before_last, &[1, 0, 0]].concat(), "bad 0 0:"),
        worked("f", s_with(S_TRANSITION, S_POOL), "closed 3"),
        worked("g", s_with("00 00 00 02 01 01 01", S_POOL), "closed 3"),
        worked("h", vec![], "refused 3 at 0"),
        worked("i", [&[0x82, 0], r_after_first].concat(), "refused 4 at 0"),
        worked("j", [&[5], r_after_first].concat(), "refused 5 at 2"),
        worked("k", [&r[..], &[0]].concat(), "refused 10 at 29"),
        worked("l", r_before_last.to_vec(), "refused 3 at 28"),
        worked("m", s_with(S_TRANSITION, "01 01 02 00 00 01 00"), "refused 9 at 23"),
        worked("n", hex("03 10 10 02"), "refused 6 at 3"),
    ]
}

/// Sessions of real protocols.
pub fn samples() -> Vec<Worked> {
    let worked = |name, text, line| Worked { name, bytes: hex(text), line };
    vec![
        worked("producer-consumer", include_str!("../../samples/producer-consumer.hex"), "closed 190"),
        worked("alternating-bit", include_str!("../../samples/alternating-bit.hex"), "closed 180"),
        worked("half-duplex", include_str!("../../samples/half-duplex.hex"), "closed 48"),
        worked("takeover-two-feeds", include_str!("../../samples/takeover-two-feeds.hex"), "bad 0 4: 0 1 3 2"),
        worked("takeover-sequenced", include_str!("../../samples/takeover-sequenced.hex"), "closed 173"),
        worked("logon-burst", include_str!("../../samples/logon-burst.hex"), "closed 97"),
        worked(
            "logon-burst-leaves",
            include_str!("../../samples/logon-burst-leaves.hex"),
            "leaves 3 1 11 11: 0 1 2 3 4 5 6 7 8 9 10",
        ),
    ]
}
