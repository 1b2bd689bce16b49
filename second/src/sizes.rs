//! The sizes of document 01.

pub const DOMAINS: u32 = 16;
pub const DOMAIN_SIZE: u32 = 16_777_215;
pub const RELATIONS: u32 = 8;
pub const COLUMNS: u32 = 8;
pub const LAST_SITE: u32 = 7;
pub const ESTIMATED_ROWS: u32 = 1_000_000;
pub const WIDTH: u32 = 255;
pub const CLAUSES: u32 = 12;
pub const TARGETS: u32 = 16;
pub const STEPS: u32 = 156;
pub const TRUE_ROWS: u32 = 4_096;
pub const TABLE_WORDS: usize = 16_384;
