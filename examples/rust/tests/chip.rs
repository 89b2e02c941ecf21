use fulkibono::*;

struct Bench {
    chip: Record,
    array: Vec<u8>,
    security: Vec<u8>,
}

impl Bench {
    fn new() -> Bench {
        Bench::of(Record::new())
    }

    fn of(chip: Record) -> Bench {
        Bench { chip, array: vec![0xFF; ARRAY], security: vec![0xFF; SECURITY] }
    }

    fn send(&mut self, sent: &[u8], n: usize) -> (u8, Vec<u8>, Vec<u8>) {
        self.send_in(sent, n, self.chip.untorn())
    }

    fn send_in(&mut self, sent: &[u8], n: usize, x: Circumstances) -> (u8, Vec<u8>, Vec<u8>) {
        let (mut reply, mut marks) = (vec![0u8; n], vec![0u8; n]);
        let array = Array::of(&mut self.array).unwrap();
        let security = Security::of(&mut self.security).unwrap();
        let number = self.chip.frame(array, security, sent, &mut reply, &mut marks, x).err().map_or(0, |r| r.number());
        (number, reply, marks)
    }

    /// 66, then 99 with k and m.
    fn reset(&mut self, k: u64, m: u8) {
        let x = Circumstances { k, m };
        assert_eq!((self.send_in(&[0x66], 0, x).0, self.send_in(&[0x99], 0, x).0), (0, 0));
    }

    fn image(&mut self) -> Result<Vec<u8>, u8> {
        let array = Array::of(&mut self.array).unwrap();
        let security = Security::of(&mut self.security).unwrap();
        self.chip.image(array, security).map_err(|r| r.number())
    }

    fn read_image(&mut self, file: &[u8]) -> u8 {
        let array = Array::of(&mut self.array).unwrap();
        let security = Security::of(&mut self.security).unwrap();
        self.chip.read_image(file, array, security).err().map_or(0, |r| r.number())
    }

    fn complete(&mut self) -> u8 {
        let array = Array::of(&mut self.array).unwrap();
        let security = Security::of(&mut self.security).unwrap();
        self.chip.completion(array, security).err().map_or(0, |r| r.number())
    }

    /// With byte k unchanged.
    fn cut(&mut self, k: u64) -> u8 {
        self.cut_torn(k, self.chip.clean_m())
    }

    fn cut_torn(&mut self, k: u64, m: u8) -> u8 {
        let array = Array::of(&mut self.array).unwrap();
        let security = Security::of(&mut self.security).unwrap();
        self.chip.power_cut(array, security, k, m).err().map_or(0, |r| r.number())
    }

    /// The byte that 35 reads.
    fn configuration(&mut self) -> u8 {
        let (number, reply, marks) = self.send(&[0x35], 1);
        assert_eq!((number, marks), (0, vec![1]));
        reply[0]
    }
}

/// A new chip of each part, and the bit of 35 that is its IOC at power-up and after a reset.
fn parts() -> [(Record, u8); 2] {
    [(Record::new(), 0x02), (Record::new_old(), 0x00)]
}

#[test]
fn a_new_chip() {
    let mut b = Bench::new();
    assert_eq!(b.send(&[0x05], 1), (0, vec![0x00], vec![1]));
    assert_eq!(b.send(&[0x35], 1), (0, vec![0x0A], vec![1]));
    assert_eq!(b.send(&[0x72], 6), (0, vec![0x55, 0x55, 0xFF, 0xFF, 0xFF, 0xFF], vec![1; 6]));
    assert_eq!(b.send(&[], 2), (2, vec![0xFF; 2], vec![0; 2]));
    assert_eq!(b.complete(), 12);
}

#[test]
fn a_new_old_part() {
    let mut b = Bench::of(Record::new_old());
    assert_eq!(b.send(&[0x05], 1), (0, vec![0x00], vec![1]));
    assert_eq!(b.send(&[0x35], 1), (0, vec![0x08], vec![1]));
    let (ba, old) = (Record::new(), Record::new_old());
    assert!(ba.flag(FLAG_BA) && ba.flag(FLAG_IOC) && !old.flag(FLAG_BA) && !old.flag(FLAG_IOC));
    // they differ in the flags alone
    for place in 0..RECORD_SIZE {
        assert_eq!(ba.bytes()[place] ^ old.bytes()[place], if place == PLACE_FLAGS { FLAG_BA | FLAG_IOC } else { 0 });
    }
}

#[test]
fn quad_frames_on_each_part() {
    for (chip, ioc) in parts() {
        let mut b = Bench::of(chip);
        let number = if ioc == 0 { 7 } else { 0 };
        let mark = u8::from(number == 0);
        assert_eq!(b.send(&[0x6B, 0, 0, 0, 0], 2), (number, vec![0xFF; 2], vec![mark; 2]));
        assert_eq!(b.send(&[0xEC, 0, 0, 0, 0, 0, 0], 2), (number, vec![0xFF; 2], vec![mark; 2]));
        b.send(&[0x06], 0);
        b.send(&[0x98], 0);
        b.send(&[0x06], 0);
        assert_eq!(b.send(&[0x32, 0, 0, 0, 0x5A], 0).0, number);
        assert_eq!(b.complete(), if number == 0 { 0 } else { 12 });
        assert_eq!(b.array[0], if number == 0 { 0x5A } else { 0xFF });
    }
}

#[test]
fn a_reset_and_a_power_up_give_the_part_its_ioc() {
    for (chip, ioc) in parts() {
        for said in [0x00, 0x02, 0x80, 0x82] {
            let running = || {
                let mut b = Bench::of(chip.clone());
                b.send(&[0x06], 0);
                assert_eq!(b.send(&[0x01, 0xFF, said], 0).0, 0);
                b
            };
            // done: both as 01 says; then a reset, or a cut of the idle chip, sets IOC back and leaves WPEN
            let mut b = running();
            assert_eq!((b.complete(), b.configuration()), (0, 0x08 | said));
            let mut other = Bench::of(b.chip.clone());
            assert_eq!((b.send(&[0x66], 0).0, b.send(&[0x99], 0).0), (0, 0));
            assert_eq!(b.configuration(), 0x08 | ioc | said & 0x80);
            assert_eq!((other.cut(0), other.configuration()), (0, 0x08 | ioc | said & 0x80));
            // in flight: a reset and a cut at 0 lose it, at 1 or more they leave WPEN, and m is not used
            let mut b = running();
            assert_eq!((b.send(&[0x66], 0).0, b.send(&[0x99], 0).0, b.configuration()), (0, 0, 0x08 | ioc));
            for (k, m) in [(1, 0xFF), (2, 0x00), (u64::MAX, 0x80)] {
                let mut b = running();
                b.reset(k, m);
                assert_eq!(b.configuration(), 0x08 | ioc | said & 0x80);
            }
            let mut b = running();
            assert_eq!((b.cut(0), b.configuration()), (0, 0x08 | ioc));
            let mut b = running();
            assert_eq!((b.cut(1), b.configuration()), (0, 0x08 | ioc | said & 0x80));
            assert!(b.chip.flag(FLAG_BA) == chip.flag(FLAG_BA));
        }
    }
}

#[test]
fn a_record_stored_before_is_an_old_part() {
    let mut stored = [0; RECORD_SIZE];
    stored[PLACE_PAGE..PLACE_PROTECTION].fill(0xFF);
    stored[PLACE_PROTECTION..PLACE_PROTECTION + 6].copy_from_slice(&[0xFF, 0xFF, 0xFF, 0xFF, 0x55, 0x55]);
    let mut b = Bench::of(Record::from_bytes(stored));
    assert!(b.chip == Record::new_old());
    assert_eq!(b.configuration(), 0x08);
    // with IOC 1, as 01 left it
    stored[PLACE_FLAGS] = FLAG_IOC;
    b.chip = Record::from_bytes(stored);
    assert_eq!(b.configuration(), 0x0A);
    assert_eq!((b.cut(0), b.configuration()), (0, 0x08));
    assert!(b.chip == Record::new_old());
}

#[test]
fn data_wrap_at_the_page_end() {
    let mut b = Bench::new();
    b.send(&[0x06], 0);
    assert_eq!(b.send(&[0x02, 0, 0, 0, 0], 0).0, 11);
    b.send(&[0x98], 0);
    b.send(&[0x06], 0);
    assert_eq!(b.send(&[0x02, 0x00, 0x01, 0xFE, 0x11, 0x22, 0x33], 0).0, 0);
    assert_eq!(b.send(&[0x05], 1).1, vec![0x83]);
    assert_eq!(b.complete(), 0);
    assert_eq!((b.array[0x1FE], b.array[0x1FF], b.array[0x100], b.array[0x200]), (0x11, 0x22, 0x33, 0xFF));
}

#[test]
fn a_power_cut_in_an_erase() {
    let mut b = Bench::new();
    b.send(&[0x06], 0);
    b.send(&[0x98], 0);
    b.array[0x2000..0x3000].fill(0);
    b.send(&[0x06], 0);
    assert_eq!(b.send(&[0x20, 0x00, 0x20, 0x00], 0).0, 0);
    assert_eq!(b.cut(10), 0);
    assert!(b.array[0x2000..0x200A].iter().all(|&x| x == 0xFF) && b.array[0x200A..0x3000].iter().all(|&x| x == 0));
    assert!(b.chip == Record::new());
}

/// A program of 00 over FF: of the page only the byte at k keeps bits, those of m.
#[test]
fn a_reset_in_a_program() {
    let mut zeros = vec![0x02, 0x00, 0x21, 0x00];
    zeros.resize(4 + 256, 0x00);
    for (k, m) in [(100, 0xF0), (255, 0xF0), (0, 0x00), (0, 0xFF), (0, 0x81), (256, 0xF0), (u64::MAX, 0xFF)] {
        for cut in [false, true] {
            let mut b = Bench::new();
            b.send(&[0x06], 0);
            b.send(&[0x98], 0);
            b.send(&[0x06], 0);
            assert_eq!(b.send(&zeros, 0).0, 0);
            if cut {
                assert_eq!(b.cut_torn(k, m), 0);
            } else {
                b.reset(k, m);
            }
            for (i, &byte) in b.array.iter().enumerate() {
                let place = i.wrapping_sub(0x2100) as u64;
                let there = if place >= 256 || place > k { 0xFF } else if place == k { m } else { 0x00 };
                assert_eq!(byte, there, "place {i:06X} with k {k}, m {m:02X}");
            }
            assert!(b.chip.running() == Record::new().running() && b.chip.flag(FLAG_IOC) && !b.chip.flag(FLAG_WEL));
            // a power-up closes the array again, a reset leaves the protection as it is
            assert_eq!(b.chip.protection(), if cut { 0x5555_FFFF_FFFF } else { 0 });
        }
    }
}

#[test]
fn a_reset_in_an_erase() {
    for (k, m, there) in [(0, 0x30, 0x3F), (100, 0x30, 0x3F), (4095, 0x80, 0x8F), (7, 0x00, 0x0F), (7, 0xFF, 0xFF)] {
        let mut b = Bench::new();
        b.send(&[0x06], 0);
        b.send(&[0x98], 0);
        b.array[0x1000..0x4000].fill(0x0F);
        b.send(&[0x06], 0);
        assert_eq!(b.send(&[0x20, 0x00, 0x20, 0x00], 0).0, 0);
        b.reset(k, m);
        let torn = 0x2000 + k as usize;
        assert!(b.array[0x2000..torn].iter().all(|&x| x == 0xFF) && b.array[torn] == there);
        assert!(b.array[torn + 1..0x4000].iter().all(|&x| x == 0x0F) && b.array[0x1000..0x2000].iter().all(|&x| x == 0x0F));
    }
}

#[test]
fn k_and_m_count_only_where_a_reset_stops_what_runs() {
    let x = Circumstances { k: 9, m: 0x00 };
    let suspended = || {
        let mut b = Bench::new();
        b.send(&[0x06], 0);
        b.send(&[0x98], 0);
        b.array[0x2000..0x3000].fill(0x0F);
        b.send(&[0x06], 0);
        b.send(&[0x20, 0x00, 0x20, 0x00], 0);
        assert_eq!(b.send_in(&[0xB0], 0, x).0, 0);
        b
    };
    let untouched = |b: &Bench| b.array[0x2000..0x3000].iter().all(|&x| x == 0x0F);
    // only suspended work: dropped, its target unchanged
    let mut b = suspended();
    b.reset(9, 0xFF);
    assert!(untouched(&b) && b.chip.suspended().kind == KIND_NOTHING);
    // suspended work beside a running program: dropped too, and the program is torn
    let mut b = suspended();
    b.send(&[0x06], 0);
    assert_eq!(b.send_in(&[0x02, 0x00, 0x40, 0x00, 0x11, 0x22], 0, x).0, 0);
    assert_eq!(b.send_in(&[0x99], 0, x).0, 6);
    assert_eq!((b.array[0x4000], b.chip.running().kind), (0xFF, KIND_PAGE_PROGRAM));
    b.reset(1, 0xF0);
    assert!(untouched(&b) && b.array[0x4000..0x4002] == [0x11, 0xF2]);
    assert!(b.chip.suspended().kind == KIND_NOTHING && b.chip.running().kind == KIND_NOTHING);
    // an idle chip
    b.reset(9, 0x00);
    assert!(untouched(&b) && b.array[0x4000..0x4003] == [0x11, 0xF2, 0xFF]);
}

/// The default, all zero, leaves an erase's target and finishes the first byte of a program; `untorn` leaves both.
#[test]
fn the_default_and_a_programs_first_byte() {
    assert_eq!(Circumstances::default(), Circumstances { k: 0, m: 0 });
    for (x, there) in [(Some(Circumstances::default()), [0x11, 0xFF]), (None, [0xFF, 0xFF])] {
        let mut b = Bench::new();
        b.send(&[0x06], 0);
        b.send(&[0x98], 0);
        b.send(&[0x06], 0);
        b.send(&[0x02, 0x00, 0x40, 0x00, 0x11, 0x22], 0);
        assert_eq!(b.chip.untorn(), Circumstances { k: 0, m: 0xFF });
        let x = x.unwrap_or(b.chip.untorn());
        b.reset(x.k, x.m);
        assert_eq!(b.array[0x4000..0x4002], there);
    }
}

/// In the Security ID: 85 and A5.
#[test]
fn a_reset_in_the_security_id() {
    let mut b = Bench::new();
    b.send(&[0x06], 0);
    assert_eq!(b.send(&[0xA5, 0x01, 0x00, 0x00, 0x00, 0x00], 0).0, 0);
    b.reset(1, 0x3C);
    assert_eq!(b.security[0xFF..0x103], [0xFF, 0x00, 0x3C, 0xFF]);
    for (k, locked) in [(0, false), (1, true)] {
        b.send(&[0x06], 0);
        assert_eq!(b.send(&[0x85], 0).0, 0);
        b.reset(k, 0x00);
        assert_eq!(b.chip.flag(FLAG_SEC), locked);
    }
}

/// E8 on an open chip, with a write lock and the read lock above it: lost at 0; at 1 the write lock is in both registers after a reset, and in the permanent
/// one after a cut, whose power-up sets the other.
#[test]
fn a_reset_in_the_permanent_bits() {
    for (k, bits) in [(0, 0), (1, 0x4000_0000_0000)] {
        for cut in [false, true] {
            let mut b = Bench::new();
            b.send(&[0x06], 0);
            b.send(&[0x98], 0);
            b.send(&[0x06], 0);
            assert_eq!(b.send(&[0xE8, 0xC0, 0, 0, 0, 0, 0], 0).0, 0);
            if cut {
                assert_eq!(b.cut_torn(k, 0xFF), 0);
            } else {
                b.reset(k, 0xFF);
            }
            assert_eq!((b.chip.permanent(), b.chip.protection()), (bits, if cut { 0x5555_FFFF_FFFF } else { bits }));
        }
    }
}

#[test]
fn a_burst_wraps_in_its_group() {
    let mut b = Bench::new();
    assert_eq!(b.chip.burst(), 8);
    b.array[..256].iter_mut().enumerate().for_each(|(i, x)| *x = i as u8);
    assert_eq!(b.send(&[0x38], 0).0, 0);
    assert_eq!(b.send(&[0xC0, 0x03], 0).0, 0);
    assert_eq!(b.chip.burst(), 64);
    assert_eq!(b.send(&[0x0C, 0x00, 0x00, 0x3E, 0, 0, 0], 4), (0, vec![0x3E, 0x3F, 0x00, 0x01], vec![1; 4]));
    assert_eq!(b.send(&[0xC0, 0x04], 0).0, 13);
    assert_eq!(b.chip.burst(), 64);
}

#[test]
fn bytes_that_are_no_record() {
    let mut b = Bench::new();
    let wrong = [
        (PLACE_BURST, 4),
        (PLACE_RUNNING_KIND, KIND_PERMANENT_BITS + 1),
        (PLACE_RUNNING_NUMBER, 1),
        (PLACE_SUSPENDED_NUMBER, 1),
        (PLACE_RESERVED, 1),
        (RECORD_SIZE - 1, 1),
    ];
    for (at, value) in wrong {
        let mut bytes = *Record::new().bytes();
        bytes[at] = value;
        b.chip = Record::from_bytes(bytes);
        assert_eq!(b.send(&[0x05], 1).0, 1);
        assert_eq!(b.chip.bytes(), &bytes);
    }
    let mut bytes = *Record::new().bytes();
    bytes[PLACE_PROTECTION] = 0;
    b.chip = Record::from_bytes(bytes);
    assert_eq!(b.send(&[0x05], 1).0, 0);
    assert_eq!(b.chip.bytes(), &bytes);
}

#[test]
fn every_byte_is_some_flags() {
    let mut b = Bench::new();
    for flags in 0..=255 {
        let mut bytes = *Record::new().bytes();
        bytes[PLACE_FLAGS] = flags;
        b.chip = Record::from_bytes(bytes);
        assert_eq!((b.chip.flag(FLAG_SQI), b.chip.flag(FLAG_BA)), (flags & 1 != 0, flags >= 128));
        assert_eq!(b.send(&[0x00], 0).0, 0);
        bytes[PLACE_FLAGS] = flags & !FLAG_RESET_ENABLE;
        assert_eq!(b.chip.bytes(), &bytes);
    }
}

#[test]
fn what_a_record_holds() {
    let mut b = Bench::new();
    assert_eq!((b.chip.protection(), b.chip.permanent()), (0x5555_FFFF_FFFF, 0));
    assert_eq!(b.chip.running(), Work { kind: KIND_NOTHING, number: 0 });
    b.send(&[0x06], 0);
    assert!(b.chip.flag(FLAG_WEL) && !b.chip.flag(FLAG_SQI));
    b.send(&[0x98], 0);
    b.send(&[0x06], 0);
    b.send(&[0x20, 0x00, 0x10, 0x00], 0);
    assert_eq!(b.chip.running().array_range(), 0x1000..0x2000);
    b.send(&[0xB0], 0);
    assert_eq!((b.chip.running().kind, b.chip.suspended()), (KIND_NOTHING, Work { kind: KIND_SECTOR_ERASE, number: 1 }));
    b.send(&[0x30], 0);
    assert_eq!(b.complete(), 0);
    b.send(&[0x06], 0);
    b.send(&[0xD8, 0x01, 0x00, 0x00], 0);
    assert_eq!(b.chip.running(), Work { kind: KIND_BLOCK_ERASE, number: 39 });
    assert_eq!(b.chip.running().array_range(), 0x1_0000..0x2_0000);
    assert_eq!(b.complete(), 0);
    b.send(&[0x06], 0);
    b.send(&[0xA5, 0x01, 0x00, 0x00], 0);
    assert_eq!((b.chip.running().array_range(), b.chip.running().security_range()), (0..0, 0x100..0x200));
}

#[test]
fn forty_blocks_cover_the_array() {
    let mut count = vec![0u8; ARRAY];
    for n in 0..40 {
        count[block(n)].iter_mut().for_each(|c| *c += 1);
    }
    assert!(count.iter().all(|&c| c == 1) && block(40).is_empty());
    assert_eq!((block(0), block(39)), (0x1F_E000..0x20_0000, 0x1_0000..0x2_0000));
}

#[test]
fn sizes_are_held() {
    assert!(Array::of(&mut vec![0; ARRAY - 1]).is_none());
    assert!(Security::of(&mut [0; SECURITY + 1]).is_none());
    let mut b = Bench::new();
    let array = Array::of(&mut b.array).unwrap();
    let security = Security::of(&mut b.security).unwrap();
    let refused = b.chip.send(array, security, &[0x05], &mut [0; 2], &mut [0; 1]).unwrap_err();
    assert_eq!(refused.number(), 1);
    assert_eq!(refused.to_string(), "record not well-formed, or a length outside \"Sizes\"");
}

#[test]
fn an_image_gives_the_chip_back() {
    let mut b = Bench::new();
    b.send(&[0x06], 0);
    b.send(&[0x98], 0);
    b.send(&[0x06], 0);
    b.array[0x12345] = 0x5A;
    b.security[9] = 0xA5;
    let file = b.image().unwrap();
    assert_eq!(file.len(), IMAGE);
    assert_eq!(file[..18], [b'R', b'G', 0x00, 0x00, 0x00, 0x00, 0x00, 0x00, 0, 0, 0, 0, 0, 0, 0x86, 0x00, 0x00, 0x86]);
    assert_eq!((&file[18..20], file[29]), (&b"SI"[..], 0xA5));
    // the last page, blank: its sum wraps
    assert_eq!(file[IMAGE - 262..IMAGE - 258], [b'P', b'G', 0x1F, 0xFF]);
    assert_eq!(file[IMAGE - 2..], [0x00, 0x1E]);
    let mut other = Bench::new();
    other.chip = Record::from_bytes([0xEE; RECORD_SIZE]);
    assert_eq!(other.read_image(&file), 0);
    assert!(other.chip == b.chip && other.array == b.array && other.security == b.security);
    assert!(other.image().unwrap() == file);
    let array = Array::of(&mut other.array).unwrap();
    let security = Security::of(&mut other.security).unwrap();
    assert!(Record::from_image(&file, array, security).unwrap() == b.chip);
}

#[test]
fn an_image_keeps_the_part() {
    for (chip, flags) in [(Record::new(), FLAG_BA | FLAG_IOC), (Record::new_old(), 0)] {
        let mut b = Bench::of(chip.clone());
        let file = b.image().unwrap();
        assert_eq!(file[14], flags);
        for there in [Record::new(), Record::new_old()] {
            b.chip = there;
            assert_eq!(b.read_image(&file), 0);
            assert!(b.chip == chip);
        }
    }
    // each of the 256 bytes is read, with its sum: 55 55 FF FF FF FF and the flags
    let mut b = Bench::new();
    let mut file = b.image().unwrap();
    for flags in 0..=255 {
        file[14] = flags;
        file[16..18].copy_from_slice(&(0x04A6 + u16::from(flags)).to_be_bytes());
        assert_eq!(b.read_image(&file), 0);
        assert_eq!((b.chip.bytes()[PLACE_FLAGS], b.chip.flag(FLAG_BA)), (flags, flags >= 128));
    }
    assert!(b.image().unwrap() == file);
}

#[test]
fn a_refused_image_changes_nothing() {
    let mut b = Bench::new();
    let file = b.image().unwrap();
    b.send(&[0x06], 0);
    b.array[7] = 7;
    let (chip, array) = (b.chip.clone(), b.array.clone());
    // mark, flags and burst code with the old sum, sum of RG; mark of SI; number, page and sum of PG
    for at in [0, 14, 15, 16, 18, 2072, 2074, 2331, IMAGE - 1] {
        let mut wrong = file.clone();
        wrong[at] ^= 0x80;
        assert_eq!(b.read_image(&wrong), 15);
        assert!(b.chip == chip && b.array == array);
    }
    assert_eq!((b.read_image(&file[1..]), b.read_image(&[])), (1, 1));
    let refused = Record::from_image(&[], Array::of(&mut b.array).unwrap(), Security::of(&mut b.security).unwrap()).err().unwrap();
    assert_eq!(refused.number(), 1);
    b.send(&[0x98], 0);
    b.send(&[0x06], 0);
    b.send(&[0x20, 0, 0, 0], 0);
    assert_eq!(b.image(), Err(14));
    b.send(&[0xB0], 0);
    assert_eq!(b.image(), Err(14));
    b.send(&[0x30], 0);
    assert_eq!(b.complete(), 0);
    assert!(b.image().is_ok());
    let mut short = [0xAB; 5];
    assert!(b.chip.write_image(Array::of(&mut b.array).unwrap(), Security::of(&mut b.security).unwrap(), &mut short).is_err());
    assert_eq!(short, [0xAB; 5]);
}
