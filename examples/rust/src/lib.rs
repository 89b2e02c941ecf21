//! The SST26WF016BA flash chip, and the old part SST26WF016B, for firmware benches: a safe wrapper of the proved library.
//!
//! The library reads and writes lent bytes only, for every input of every length, so nothing here can be used wrongly: the types hold
//! the sizes, and references hold that no two lent parts overlap.

mod record;

pub use record::*;
use std::fmt;
use std::num::NonZeroU8;
use std::ops::Range;

pub const ARRAY: usize = 2_097_152;
pub const SECURITY: usize = 2_048;

mod library {
    extern "C" {
        pub fn fulkibono_new(record: *mut u8, record_len: usize) -> u8;
        pub fn fulkibono_new_old(record: *mut u8, record_len: usize) -> u8;
        pub fn fulkibono_frame(
            record: *mut u8,
            record_len: usize,
            array: *mut u8,
            array_len: usize,
            security: *mut u8,
            security_len: usize,
            sent: *const u8,
            sent_len: usize,
            reply: *mut u8,
            reply_len: usize,
            marks: *mut u8,
            marks_len: usize,
            x: super::Circumstances,
        ) -> u8;
        pub fn fulkibono_completion(
            record: *mut u8,
            record_len: usize,
            array: *mut u8,
            array_len: usize,
            security: *mut u8,
            security_len: usize,
        ) -> u8;
        pub fn fulkibono_power_cut(
            record: *mut u8,
            record_len: usize,
            array: *mut u8,
            array_len: usize,
            security: *mut u8,
            security_len: usize,
            k: u64,
            m: u8,
        ) -> u8;
        pub fn fulkibono_image_write(
            record: *const u8,
            record_len: usize,
            array: *const u8,
            array_len: usize,
            security: *const u8,
            security_len: usize,
            file: *mut u8,
            file_len: usize,
        ) -> u8;
        pub fn fulkibono_image_read(
            file: *const u8,
            file_len: usize,
            record: *mut u8,
            record_len: usize,
            array: *mut u8,
            array_len: usize,
            security: *mut u8,
            security_len: usize,
        ) -> u8;
        pub fn fulkibono_meaning(number: u8, text: *mut u8, text_len: usize) -> usize;
        pub fn fulkibono_station_find(
            record: *mut u8,
            record_len: usize,
            array: *mut u8,
            array_len: usize,
            security: *mut u8,
            security_len: usize,
            reply: *mut u8,
            reply_len: usize,
            marks: *mut u8,
            marks_len: usize,
            station: u16,
            data: *mut u8,
            data_len: usize,
        ) -> u8;
        pub fn fulkibono_station_store(
            record: *mut u8,
            record_len: usize,
            array: *mut u8,
            array_len: usize,
            security: *mut u8,
            security_len: usize,
            reply: *mut u8,
            reply_len: usize,
            marks: *mut u8,
            marks_len: usize,
            station: u16,
            data: *const u8,
            data_len: usize,
            allowance: u64,
            list: *const u64,
            list_len: usize,
        ) -> Stored;
    }

    #[repr(C)]
    pub struct Stored {
        pub polls: u64,
        pub number: u8,
    }
}

/// Why an event, an image or a station was refused: a number from 1 to 18.
#[repr(transparent)]
#[derive(Clone, Copy, PartialEq, Eq, Debug)]
pub struct Refusal(NonZeroU8);

impl Refusal {
    pub fn number(self) -> u8 {
        self.0.get()
    }
}

impl fmt::Display for Refusal {
    fn fmt(&self, f: &mut fmt::Formatter<'_>) -> fmt::Result {
        let mut text = [0u8; 64];
        // Safety: text is lent with its own length.
        let n = unsafe { library::fulkibono_meaning(self.number(), text.as_mut_ptr(), text.len()) };
        f.write_str(std::str::from_utf8(&text[..n.min(text.len())]).unwrap_or("?"))
    }
}

impl std::error::Error for Refusal {}

fn answer(number: u8) -> Result<(), Refusal> {
    match NonZeroU8::new(number) {
        None => Ok(()),
        Some(n) => Err(Refusal(n)),
    }
}

/// Lent bytes of one size: the array, or the Security ID.
#[repr(transparent)]
pub struct Memory<const N: usize>([u8; N]);

/// The array's 2,097,152 bytes.
pub type Array = Memory<ARRAY>;

/// The Security ID's 2,048 bytes.
pub type Security = Memory<SECURITY>;

impl<const N: usize> Memory<N> {
    /// Bytes that the caller lends; None where there are not N.
    pub fn of(bytes: &mut [u8]) -> Option<&mut Self> {
        let whole: &mut [u8; N] = bytes.try_into().ok()?;
        // Safety: Memory is transparent over its bytes.
        Some(unsafe { &mut *(whole as *mut [u8; N] as *mut Self) })
    }

    pub fn bytes(&self) -> &[u8; N] {
        &self.0
    }
}

/// What runs or is suspended: one of `KIND_..`, and its number, as `include/fulkibono.h` lists them.
#[derive(Clone, Copy, PartialEq, Eq, Debug)]
pub struct Work {
    pub kind: u8,
    pub number: u64,
}

/// Part i of n that have one size; no places where there is none.
fn part(i: u64, n: u64, size: usize) -> Range<usize> {
    if i < n {
        let start = i as usize * size;
        start..start + size
    } else {
        0..0
    }
}

/// The places of a protection block, numbered in the order of document 01's table: 1FE000 is 0, 010000 is 39. None above that.
pub fn block(n: u64) -> Range<usize> {
    match n {
        0..=3 => part(255 - n, 256, 0x2000),
        4..=7 => part(7 - n, 256, 0x2000),
        8 => part(62, 64, 0x8000),
        9 => part(1, 64, 0x8000),
        10..=39 => part(40 - n, 32, 0x1_0000),
        _ => 0..0,
    }
}

impl Work {
    /// Its range in the array; empty where it has none.
    pub fn array_range(self) -> Range<usize> {
        match self.kind {
            KIND_SECTOR_ERASE => part(self.number, 512, 4096),
            KIND_BLOCK_ERASE => block(self.number),
            KIND_ARRAY_ERASE => 0..ARRAY,
            KIND_PAGE_PROGRAM => part(self.number, 8192, 256),
            _ => 0..0,
        }
    }

    /// The same in the Security ID.
    pub fn security_range(self) -> Range<usize> {
        match self.kind {
            KIND_SECURITY_PROGRAM => part(self.number, 8, 256),
            _ => 0..0,
        }
    }
}

/// What a frame carries beside its bytes and buffers. It counts only where the frame is a 99 that is accepted while something runs: such a reset stops the
/// running operation in its middle, and so does a power cut. Of the operation's range the first k bytes are finished (all, if k is larger); byte k, if the
/// range has one, becomes old AND (finished OR m) for a program and old OR m for an erase; the others are unchanged. 85, 01 and E8 act fully if k is 1 or
/// more, else not, and then the registers are reset.
///
/// The default is all zero. Mind the first byte of a program: k 0 and m 00 leave the target of an erase unchanged and finish the first byte of a page that
/// is being programmed. `Record::untorn` leaves either unchanged.
#[repr(C)]
#[derive(Clone, Copy, PartialEq, Eq, Debug, Default)]
pub struct Circumstances {
    pub k: u64,
    pub m: u8,
}

/// What the read of the station list needs, 128 KB: the list as it was read, and the marks of its bytes.
pub struct StationBuffers {
    reply: Box<[u8; STATION_LIST]>,
    marks: Box<[u8; STATION_LIST]>,
}

impl Default for StationBuffers {
    fn default() -> Self {
        Self::new()
    }
}

impl StationBuffers {
    pub fn new() -> StationBuffers {
        let zeros = || vec![0; STATION_LIST].into_boxed_slice().try_into().expect("the list's size");
        StationBuffers { reply: zeros(), marks: zeros() }
    }

    /// The list as the last call read it: FF where the chip refused the read. What that call wrote is not in it.
    pub fn list(&self) -> &[u8; STATION_LIST] {
        &self.reply
    }

    /// Its marks: 1 for a byte that is known, 0 for one that is not.
    pub fn marks(&self) -> &[u8; STATION_LIST] {
        &self.marks
    }
}

/// When the writes of a store end, each by a completion before one of its polls.
#[derive(Clone, Copy, PartialEq, Eq, Debug)]
pub enum Completions<'a> {
    /// Each before its first poll: a store is never refused with 18.
    AtOnce,
    /// At most so many polls a write, `STATION_POLLS_MOST` at most; and of each write in turn, before which poll, counted from 1, its completion arrives. 0, or
    /// no entry: never.
    Before { allowance: u64, polls: &'a [u64] },
}

static AT_ONCE: [u64; STATION_WRITES_MOST] = [1; STATION_WRITES_MOST];

/// A store that was not done: why, and the polls that it made.
#[derive(Clone, Copy, PartialEq, Eq, Debug)]
pub struct NotStored {
    pub why: Refusal,
    pub polls: u64,
}

impl fmt::Display for NotStored {
    fn fmt(&self, f: &mut fmt::Formatter<'_>) -> fmt::Result {
        self.why.fmt(f)
    }
}

impl std::error::Error for NotStored {}

/// A chip record. Its bytes can be kept and read back; bytes that are no record's are refused by every event, with number 1.
#[repr(transparent)]
#[derive(Clone, PartialEq, Eq)]
pub struct Record([u8; RECORD_SIZE]);

impl Default for Record {
    fn default() -> Self {
        Self::new()
    }
}

impl Record {
    /// A new chip: a BA, whose IOC is 1 at power-up and after a reset. 6B, 32 and EC are taken at once, and 35 reads 0A. `flag(FLAG_BA)` tells the part.
    pub fn new() -> Record {
        let mut r = Record([0; RECORD_SIZE]);
        // Safety: the record's own bytes, with their length, which is the right one.
        let n = unsafe { library::fulkibono_new(r.0.as_mut_ptr(), RECORD_SIZE) };
        debug_assert_eq!(n, 0);
        r
    }

    /// The same of the old part, whose IOC is 0 then: 6B, 32 and EC get 7 until 01 sets it, and 35 reads 08.
    pub fn new_old() -> Record {
        let mut r = Record([0; RECORD_SIZE]);
        // Safety: as in `new`.
        let n = unsafe { library::fulkibono_new_old(r.0.as_mut_ptr(), RECORD_SIZE) };
        debug_assert_eq!(n, 0);
        r
    }

    pub fn from_bytes(bytes: [u8; RECORD_SIZE]) -> Record {
        Record(bytes)
    }

    pub fn bytes(&self) -> &[u8; RECORD_SIZE] {
        &self.0
    }

    fn number_at(&self, place: usize) -> u64 {
        self.0[place..place + 8].iter().rev().fold(0, |x, &b| x << 8 | u64::from(b))
    }

    /// What runs. BUSY is that its kind is not `KIND_NOTHING`.
    pub fn running(&self) -> Work {
        Work { kind: self.0[PLACE_RUNNING_KIND], number: self.number_at(PLACE_RUNNING_NUMBER) }
    }

    pub fn suspended(&self) -> Work {
        Work { kind: self.0[PLACE_SUSPENDED_KIND], number: self.number_at(PLACE_SUSPENDED_NUMBER) }
    }

    /// The protection register.
    pub fn protection(&self) -> u64 {
        self.number_at(PLACE_PROTECTION)
    }

    /// The permanent register.
    pub fn permanent(&self) -> u64 {
        self.number_at(PLACE_PERMANENT)
    }

    /// One of `FLAG_..`.
    pub fn flag(&self, flag: u8) -> bool {
        self.0[PLACE_FLAGS] & flag != 0
    }

    /// How many bytes a burst read goes round in: 8, 16, 32 or 64.
    pub fn burst(&self) -> usize {
        8 << (self.0[PLACE_BURST] & 3)
    }

    /// The m that leaves byte k of what runs unchanged: FF of a program, else 00.
    pub fn clean_m(&self) -> u8 {
        match self.running().kind {
            KIND_PAGE_PROGRAM | KIND_SECURITY_PROGRAM => 0xFF,
            _ => 0x00,
        }
    }

    /// With these a reset leaves all of its target unchanged.
    pub fn untorn(&self) -> Circumstances {
        Circumstances { k: 0, m: self.clean_m() }
    }

    /// `frame` where a reset leaves its target unchanged.
    pub fn send(
        &mut self,
        array: &mut Array,
        security: &mut Security,
        sent: &[u8],
        reply: &mut [u8],
        marks: &mut [u8],
    ) -> Result<(), Refusal> {
        self.frame(array, security, sent, reply, marks, self.untorn())
    }

    /// The bytes sent while CE# is low. Reply and marks have one length. No frame but a 99 that stops the running operation changes the array or the
    /// Security ID.
    pub fn frame(
        &mut self,
        array: &mut Array,
        security: &mut Security,
        sent: &[u8],
        reply: &mut [u8],
        marks: &mut [u8],
        x: Circumstances,
    ) -> Result<(), Refusal> {
        // Safety: each part is lent with its own length, and the references keep them apart.
        answer(unsafe {
            library::fulkibono_frame(
                self.0.as_mut_ptr(),
                RECORD_SIZE,
                array.0.as_mut_ptr(),
                ARRAY,
                security.0.as_mut_ptr(),
                SECURITY,
                sent.as_ptr(),
                sent.len(),
                reply.as_mut_ptr(),
                reply.len(),
                marks.as_mut_ptr(),
                marks.len(),
                x,
            )
        })
    }

    /// The running operation ends.
    pub fn completion(&mut self, array: &mut Array, security: &mut Security) -> Result<(), Refusal> {
        // Safety: as in `frame`.
        answer(unsafe {
            library::fulkibono_completion(
                self.0.as_mut_ptr(),
                RECORD_SIZE,
                array.0.as_mut_ptr(),
                ARRAY,
                security.0.as_mut_ptr(),
                SECURITY,
            )
        })
    }

    /// A power cut in the middle of the running operation, and power-up. k and m say how far it came, as in `Circumstances`: with `clean_m` byte k is
    /// unchanged.
    pub fn power_cut(&mut self, array: &mut Array, security: &mut Security, k: u64, m: u8) -> Result<(), Refusal> {
        // Safety: as in `frame`.
        answer(unsafe {
            library::fulkibono_power_cut(
                self.0.as_mut_ptr(),
                RECORD_SIZE,
                array.0.as_mut_ptr(),
                ARRAY,
                security.0.as_mut_ptr(),
                SECURITY,
                k,
                m,
            )
        })
    }

    /// The whole idle chip as an image file, into lent bytes. Refused with 1 where they are not `IMAGE` bytes or the record is not well-formed, with
    /// 14 where something runs or is suspended; then the bytes are as they were.
    pub fn write_image(&self, array: &Array, security: &Security, file: &mut [u8]) -> Result<(), Refusal> {
        // Safety: each part is lent with its own length, and only the file is written, which no other reference holds.
        answer(unsafe {
            library::fulkibono_image_write(
                self.0.as_ptr(),
                RECORD_SIZE,
                array.0.as_ptr(),
                ARRAY,
                security.0.as_ptr(),
                SECURITY,
                file.as_mut_ptr(),
                file.len(),
            )
        })
    }

    /// The same in bytes of its own.
    pub fn image(&self, array: &Array, security: &Security) -> Result<Vec<u8>, Refusal> {
        let mut file = vec![0; IMAGE];
        self.write_image(array, security, &mut file)?;
        Ok(file)
    }

    /// The chip in an image file, in place of this one, which may be any record's bytes. Refused with 1 where the file has another length, with 15
    /// where it is wrong; then record, array and Security ID are as they were.
    pub fn read_image(&mut self, file: &[u8], array: &mut Array, security: &mut Security) -> Result<(), Refusal> {
        // Safety: as in `frame`.
        answer(unsafe {
            library::fulkibono_image_read(
                file.as_ptr(),
                file.len(),
                self.0.as_mut_ptr(),
                RECORD_SIZE,
                array.0.as_mut_ptr(),
                ARRAY,
                security.0.as_mut_ptr(),
                SECURITY,
            )
        })
    }

    /// The same as a new record.
    pub fn from_image(file: &[u8], array: &mut Array, security: &mut Security) -> Result<Record, Refusal> {
        let mut chip = Record([0; RECORD_SIZE]);
        chip.read_image(file, array, security)?;
        Ok(chip)
    }

    /// The data of a station: those of the first live slot of its number. Refused with 17 where there is none; with 5 or 3, as a read, where the chip is
    /// busy or in SQI; with 1 where the record is not well-formed.
    pub fn station_find(
        &mut self,
        array: &mut Array,
        security: &mut Security,
        buffers: &mut StationBuffers,
        station: u16,
    ) -> Result<[u8; STATION_DATA], Refusal> {
        let mut data = [0; STATION_DATA];
        // Safety: each part is lent with its own length, and the references keep them apart.
        answer(unsafe {
            library::fulkibono_station_find(
                self.0.as_mut_ptr(),
                RECORD_SIZE,
                array.0.as_mut_ptr(),
                ARRAY,
                security.0.as_mut_ptr(),
                SECURITY,
                buffers.reply.as_mut_ptr(),
                STATION_LIST,
                buffers.marks.as_mut_ptr(),
                STATION_LIST,
                station,
                data.as_mut_ptr(),
                STATION_DATA,
            )
        })?;
        Ok(data)
    }

    /// The data of a station, onto the list: number and data into the first empty slot, then its mark, then 00 00 over the mark of each other live slot of the
    /// number, lowest first, each write with its polls. Gives the polls made.
    ///
    /// Refused with 1 where the record is not well-formed or the allowance is above `STATION_POLLS_MOST`: nothing is sent. With 5 or 3, as a read; with 16 where
    /// no slot is empty; with 8 beside a suspended page program and 11 where the list is write-locked, as on a new chip and after every power-up (06, 98 open it).
    /// With 18 where a completion did not come within the allowance: that write still runs, and the writes before it are done. To go on, let it end
    /// (`completion`) and store again.
    ///
    /// What a power cut in the middle leaves: `docs/STATIONS.md`.
    pub fn station_store(
        &mut self,
        array: &mut Array,
        security: &mut Security,
        buffers: &mut StationBuffers,
        station: u16,
        data: &[u8; STATION_DATA],
        completions: Completions<'_>,
    ) -> Result<u64, NotStored> {
        let (allowance, list) = match completions {
            Completions::AtOnce => (1, &AT_ONCE[..]),
            Completions::Before { allowance, polls } => (allowance, polls),
        };
        // Safety: as in `station_find`; data and list are only read.
        let stored = unsafe {
            library::fulkibono_station_store(
                self.0.as_mut_ptr(),
                RECORD_SIZE,
                array.0.as_mut_ptr(),
                ARRAY,
                security.0.as_mut_ptr(),
                SECURITY,
                buffers.reply.as_mut_ptr(),
                STATION_LIST,
                buffers.marks.as_mut_ptr(),
                STATION_LIST,
                station,
                data.as_ptr(),
                STATION_DATA,
                allowance,
                list.as_ptr(),
                list.len(),
            )
        };
        match answer(stored.number) {
            Ok(()) => Ok(stored.polls),
            Err(why) => Err(NotStored { why, polls: stored.polls }),
        }
    }
}
