// The numbers that a call may give, 0 for done.

pub const DONE: u32 = 0;
pub const CARD_LENGTH: u32 = 1;
pub const CARD_FORMAT: u32 = 2;
pub const CARD_CONFIGURATION: u32 = 3;
pub const CARD_BLOCKS: u32 = 4;
pub const FORMATTER_LIMITS: u32 = 5;
pub const BATCH_FORM: u32 = 6;
pub const BATCH_ORDER: u32 = 7;
pub const NO_PLACE_LEFT: u32 = 8;
pub const QUESTION: u32 = 9;
pub const ANSWER_WORDS: u32 = 10;
pub const PAGE_MEMORY: u32 = 11;
pub const SCORES_LINE: u32 = 12;
pub const SCORES_LINES: u32 = 13;
pub const BATCH_ARRIVAL: u32 = 14;
