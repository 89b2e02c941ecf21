use fulkibono::*;

struct Bench {
    chip: Record,
    array: Vec<u8>,
    security: Vec<u8>,
    buffers: StationBuffers,
}

const SLOTS: std::ops::Range<usize> = STATION_START..STATION_START + STATION_LIST;

/// The data of 28 bytes with one value.
fn data(value: u8) -> [u8; STATION_DATA] {
    [value; STATION_DATA]
}

impl Bench {
    /// An open chip, all memory FF.
    fn new() -> Bench {
        let mut b = Bench::locked();
        assert_eq!((b.send(&[0x06]), b.send(&[0x98])), (0, 0));
        b
    }

    fn locked() -> Bench {
        Bench { chip: Record::new(), array: vec![0xFF; ARRAY], security: vec![0xFF; SECURITY], buffers: StationBuffers::new() }
    }

    fn send(&mut self, sent: &[u8]) -> u8 {
        let array = Array::of(&mut self.array).unwrap();
        let security = Security::of(&mut self.security).unwrap();
        self.chip.send(array, security, sent, &mut [], &mut []).err().map_or(0, |r| r.number())
    }

    fn complete(&mut self) -> u8 {
        let array = Array::of(&mut self.array).unwrap();
        let security = Security::of(&mut self.security).unwrap();
        self.chip.completion(array, security).err().map_or(0, |r| r.number())
    }

    fn cut(&mut self, k: u64, m: u8) {
        let array = Array::of(&mut self.array).unwrap();
        let security = Security::of(&mut self.security).unwrap();
        self.chip.power_cut(array, security, k, m).unwrap();
    }

    fn find(&mut self, station: u16) -> Result<[u8; STATION_DATA], u8> {
        let array = Array::of(&mut self.array).unwrap();
        let security = Security::of(&mut self.security).unwrap();
        self.chip.station_find(array, security, &mut self.buffers, station).map_err(|r| r.number())
    }

    /// The polls; or the number and the polls.
    fn store_in(&mut self, station: u16, value: u8, completions: Completions) -> Result<u64, (u8, u64)> {
        let array = Array::of(&mut self.array).unwrap();
        let security = Security::of(&mut self.security).unwrap();
        self.chip
            .station_store(array, security, &mut self.buffers, station, &data(value), completions)
            .map_err(|r| (r.why.number(), r.polls))
    }

    fn store(&mut self, station: u16, value: u8) -> Result<u64, (u8, u64)> {
        self.store_in(station, value, Completions::AtOnce)
    }

    fn slot(&self, i: usize) -> &[u8] {
        &self.array[STATION_START + i * STATION_SLOT..][..STATION_SLOT]
    }

    fn put(&mut self, i: usize, mark: [u8; 2], station: u16, value: u8) {
        let slot = &mut self.array[STATION_START + i * STATION_SLOT..][..STATION_SLOT];
        slot[..2].copy_from_slice(&mark);
        slot[2..4].copy_from_slice(&station.to_be_bytes());
        slot[4..].fill(value);
    }
}

#[test]
fn stored_and_found() {
    let mut b = Bench::new();
    assert_eq!(b.find(0x1234), Err(17));
    assert_eq!(b.store(0x1234, 0x5A), Ok(2));
    assert_eq!(b.slot(0)[..5], [0x53, 0x54, 0x12, 0x34, 0x5A]);
    assert_eq!(b.find(0x1234), Ok(data(0x5A)));
    assert_eq!(b.find(0x3412), Err(17));
    // again: the old mark is cleared by a third write
    assert_eq!(b.store(0x1234, 0xA5), Ok(3));
    assert_eq!((b.find(0x1234), b.slot(0)[..5] == [0, 0, 0x12, 0x34, 0x5A]), (Ok(data(0xA5)), true));
    assert!(!b.chip.flag(FLAG_WEL) && b.chip.running().kind == KIND_NOTHING);
    // nothing else changed
    assert!(b.array[..SLOTS.start].iter().chain(&b.array[SLOTS.start + 2 * STATION_SLOT..]).chain(&b.security).all(|&x| x == 0xFF));
}

#[test]
fn every_number_and_data_of_ff() {
    let mut b = Bench::new();
    for station in [0x0000, 0x5354, 0xFFFF] {
        assert_eq!((b.store(station, 0xFF), b.find(station)), (Ok(2), Ok(data(0xFF))));
    }
    // the last is live by its mark alone
    assert!(b.slot(2)[2..].iter().all(|&x| x == 0xFF) && b.slot(2)[..2] == [0x53, 0x54]);
}

#[test]
fn the_buffers_hold_the_read() {
    let mut b = Bench::new();
    b.store(7, 1).unwrap();
    assert!(b.buffers.list().iter().all(|&x| x == 0xFF) && b.buffers.marks().iter().all(|&m| m == 1));
    b.find(7).unwrap();
    assert!(b.buffers.list()[..] == b.array[SLOTS]);
    assert_eq!((b.send(&[0x38]), b.find(7)), (0, Err(3)));
    assert!(b.buffers.list().iter().all(|&x| x == 0xFF) && b.buffers.marks().iter().all(|&m| m == 0));
}

#[test]
fn live_and_dead_slots() {
    let mut b = Bench::new();
    for (i, mark) in [[0x00, 0x00], [0xFF, 0xFF], [0x53, 0xFF], [0x53, 0x00], [0x00, 0x54], [0x54, 0x53]].into_iter().enumerate() {
        b.put(i, mark, 9, i as u8);
    }
    assert_eq!(b.find(9), Err(17));
    b.put(6, [0x53, 0x54], 9, 6);
    b.put(7, [0x53, 0x54], 9, 7);
    b.put(8, [0x53, 0x54], 10, 8);
    assert_eq!((b.find(9), b.find(10)), (Ok(data(6)), Ok(data(8))));
    // into slot 9, and both marks of 9 are cleared
    assert_eq!((b.store(9, 0x99), b.find(9), b.find(10)), (Ok(4), Ok(data(0x99)), Ok(data(8))));
    assert!(b.slot(6)[..2] == [0, 0] && b.slot(7)[..2] == [0, 0] && b.slot(8)[..2] == [0x53, 0x54] && b.slot(9)[..2] == [0x53, 0x54]);
}

#[test]
fn a_full_list() {
    let mut b = Bench::new();
    for i in 0..STATION_SLOTS {
        b.put(i, [0x53, 0x54], i as u16, i as u8);
    }
    let before = b.array.clone();
    assert_eq!(b.store(5, 1), Err((16, 0)));
    assert!(b.array == before);
    assert_eq!((b.find(2047), b.find(2048)), (Ok(data(0xFF)), Err(17)));
    // one slot more
    b.array[STATION_START + 2047 * STATION_SLOT..][..STATION_SLOT].fill(0xFF);
    assert_eq!((b.store(5, 0x77), b.find(5), b.find(4)), (Ok(3), Ok(data(0x77)), Ok(data(4))));
}

#[test]
fn most_writes() {
    let mut b = Bench::new();
    for i in 1..STATION_SLOTS {
        b.put(i, [0x53, 0x54], 3, i as u8);
    }
    assert_eq!(b.store(3, 0x42), Ok(STATION_WRITES_MOST as u64));
    assert_eq!(b.find(3), Ok(data(0x42)));
    assert!((1..STATION_SLOTS).all(|i| b.slot(i)[..2] == [0, 0]));
}

#[test]
fn polls_and_allowance() {
    let polls = |b: &mut Bench, allowance, polls: &[u64]| b.store_in(1, 2, Completions::Before { allowance, polls });
    assert_eq!(polls(&mut Bench::new(), 10, &[3, 4]), Ok(7));
    assert_eq!(polls(&mut Bench::new(), STATION_POLLS_MOST, &[STATION_POLLS_MOST, 1, 9]), Ok(STATION_POLLS_MOST + 1));
    assert_eq!(polls(&mut Bench::new(), STATION_POLLS_MOST + 1, &[1, 1]), Err((1, 0)));
    assert_eq!(polls(&mut Bench::new(), u64::MAX, &[1, 1]), Err((1, 0)));
    // 18: the write runs
    for (allowance, list, made, mark) in [
        (0, &[1, 1][..], 0, false),
        (10, &[][..], 10, false),
        (10, &[0, 1][..], 10, false),
        (10, &[11, 1][..], 10, false),
        (10, &[3][..], 13, true),
        (10, &[3, u64::MAX][..], 13, true),
    ] {
        let mut b = Bench::new();
        assert_eq!(polls(&mut b, allowance, list), Err((18, made)));
        assert_eq!(b.chip.running(), Work { kind: KIND_PAGE_PROGRAM, number: 0x100 });
        assert!(b.chip.flag(FLAG_WEL) && (b.slot(0)[4] == 2) == mark && b.slot(0)[..2] == [0xFF, 0xFF]);
        assert_eq!((b.find(1), b.store(1, 3)), (Err(5), Err((5, 0))));
        // to go on
        assert_eq!((b.complete(), b.store(1, 3).is_ok(), b.find(1)), (0, true, Ok(data(3))));
    }
}

#[test]
fn what_the_chip_refuses() {
    let mut b = Bench::locked();
    assert_eq!((b.store(1, 1), b.chip.flag(FLAG_WEL)), (Err((11, 0)), true));
    assert_eq!((b.send(&[0x98]), b.store(1, 1)), (0, Ok(2)));
    // a suspended page program, anywhere
    assert_eq!((b.send(&[0x06]), b.send(&[0x02, 0x10, 0, 0, 0]), b.send(&[0xB0])), (0, 0, 0));
    assert_eq!((b.find(1), b.store(1, 2), b.chip.flag(FLAG_WEL)), (Ok(data(1)), Err((8, 0)), true));
    assert_eq!((b.send(&[0x30]), b.complete()), (0, 0));
    // a suspended erase of the list's first sector hides its slots: they are dead
    assert_eq!((b.send(&[0x06]), b.send(&[0x20, 0x01, 0, 0]), b.send(&[0xB0])), (0, 0, 0));
    assert_eq!((b.find(1), b.store(2, 2), b.find(2)), (Err(17), Ok(2), Ok(data(2))));
    assert_eq!(b.slot(128)[..4], [0x53, 0x54, 0x00, 0x02]);
    // no record
    b.chip = Record::from_bytes([0xEE; RECORD_SIZE]);
    assert_eq!((b.find(1), b.store(1, 1)), (Err(1), Err((1, 0))));
    assert!(b.chip.bytes() == &[0xEE; RECORD_SIZE]);
}

/// Each write of a store in its middle, cut at every byte of what it sends and around it: old or new data, and the other station as before.
#[test]
fn a_power_cut_in_a_store() {
    for write in 0..3 {
        for k in 0..=256 {
            for m in [0x00, 0xFF, 0x53, 0xA5] {
                let mut b = Bench::new();
                b.put(0, [0x53, 0x54], 8, 0x08);
                b.put(1, [0x53, 0x54], 7, 0x0F);
                let list = [1, 1, 1];
                assert_eq!(b.store_in(7, 0xF0, Completions::Before { allowance: 4, polls: &list[..write] }).unwrap_err(), (18, write as u64 + 4));
                b.cut(k, m);
                let there = b.find(7).unwrap();
                assert!(there == data(0x0F) || there == data(0xF0), "write {write} cut at {k} with {m:02X}");
                assert_eq!(b.find(8), Ok(data(0x08)));
                // after a power-up the list is write-locked
                assert_eq!(b.store(7, 1), Err((11, 0)));
            }
        }
    }
}
