// The fifteen numbers with which a call is turned down.

pub const INPUT_TOO_LONG: u8 = 1;
pub const PAST_THE_END: u8 = 2;
pub const TAG_NOT_DUE: u8 = 3;
pub const BYTES_LEFT: u8 = 4;
pub const TOO_DEEP: u8 = 5;
pub const OUT_OF_RANGE: u8 = 6;
pub const BLOCKED_PAIR: u8 = 7;
pub const CANNOT_ACT: u8 = 8;
pub const NOT_A_PARTNER: u8 = 9;
pub const PARTNER_EXISTS: u8 = 10;
pub const NAMES_USED_UP: u8 = 11;
pub const RESULT_TOO_DEEP: u8 = 12;
pub const RESULT_TOO_LONG: u8 = 13;
pub const WRONG_COUNT: u8 = 14;
pub const BOX_AND_CHANNEL: u8 = 15;
