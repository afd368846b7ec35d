//! What `Timestamp::from_crashlog_metadata` names; the comparison does not call it.

pub fn bin_to_bcd(value: u8) -> u8 {
    (value / 10) << 4 | value % 10
}
