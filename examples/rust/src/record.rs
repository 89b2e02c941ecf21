//! The bytes of a chip record, as `include/fulkibono.h` names them: places, flags, kinds of work. Numbers stand low byte first. The length of an image file. The
//! station list: its first place and its bytes, its slots, the bytes of a slot and of its data, the largest allowance, the most writes of a store.

pub const RECORD_SIZE: usize = 320;
pub const IMAGE: usize = 2148374;

pub const PLACE_PAGE: usize = 0;
pub const PLACE_PROTECTION: usize = 256;
pub const PLACE_PERMANENT: usize = 264;
pub const PLACE_RUNNING_NUMBER: usize = 272;
pub const PLACE_SUSPENDED_NUMBER: usize = 280;
pub const PLACE_RUNNING_KIND: usize = 288;
pub const PLACE_SUSPENDED_KIND: usize = 289;
pub const PLACE_FLAGS: usize = 290;
pub const PLACE_BURST: usize = 291;
pub const PLACE_RESERVED: usize = 292;

pub const FLAG_SQI: u8 = 1;
pub const FLAG_WEL: u8 = 2;
pub const FLAG_IOC: u8 = 4;
pub const FLAG_WPEN: u8 = 8;
pub const FLAG_WPLD: u8 = 16;
pub const FLAG_SEC: u8 = 32;
pub const FLAG_RESET_ENABLE: u8 = 64;
pub const FLAG_BA: u8 = 128;

pub const KIND_NOTHING: u8 = 0;
pub const KIND_SECTOR_ERASE: u8 = 1;
pub const KIND_BLOCK_ERASE: u8 = 2;
pub const KIND_ARRAY_ERASE: u8 = 3;
pub const KIND_PAGE_PROGRAM: u8 = 4;
pub const KIND_SECURITY_PROGRAM: u8 = 5;
pub const KIND_SECURITY_LOCK: u8 = 6;
pub const KIND_CONFIGURATION: u8 = 7;
pub const KIND_PERMANENT_BITS: u8 = 8;

pub const STATION_START: usize = 65536;
pub const STATION_LIST: usize = 65536;
pub const STATION_SLOTS: usize = 2048;
pub const STATION_SLOT: usize = 32;
pub const STATION_DATA: usize = 28;
pub const STATION_POLLS_MOST: u64 = 65535;
pub const STATION_WRITES_MOST: usize = 2049;
