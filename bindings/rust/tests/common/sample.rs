//! The paper's sample agreement: party 0 owes a salinity not below 250 within 60 minutes of minute 100.

const SAMPLE: &str = "40 00 01 00 64 00 00 00 02 01 00 | 06 00 02 00 01 01 | 2F 00 11 00 00 01 | \
    15 00 24 00 11 00 2A 00 05 00 23 00 00 08 00 20 00 FA 00 00 00 | 08 00 20 00 00 00 00 00 | \
    08 00 20 00 3C 00 00 00 | 04 00 10 00";

pub fn sample() -> Vec<u8> {
    SAMPLE.split([' ', '|']).filter(|s| !s.is_empty()).map(|s| u8::from_str_radix(s, 16).unwrap()).collect()
}
