// A record written across a page's end, and what the chip really did; then a reset in the middle of a program; then a station stored and found.
use fulkibono::{Array, Circumstances, Completions, Record, Security, StationBuffers, ARRAY, SECURITY};
use std::error::Error;

fn main() -> Result<(), Box<dyn Error>> {
    let mut array = vec![0xFF; ARRAY];
    let mut security = vec![0xFF; SECURITY];
    let array = Array::of(&mut array).expect("the array's size");
    let security = Security::of(&mut security).expect("the Security ID's size");
    let mut chip = Record::new();

    chip.send(array, security, &[0x06], &mut [], &mut [])?;
    let program = [0x02, 0x00, 0x01, 0xFE, 0x11, 0x22, 0x33];
    if let Err(why) = chip.send(array, security, &program, &mut [], &mut []) {
        println!("before opening: {} {}", why.number(), why);
    }
    chip.send(array, security, &[0x98], &mut [], &mut [])?;
    chip.send(array, security, &[0x06], &mut [], &mut [])?;
    chip.send(array, security, &program, &mut [], &mut [])?;

    let (mut status, mut mark) = ([0u8], [0u8]);
    chip.send(array, security, &[0x05], &mut status, &mut mark)?;
    println!("status while it runs: {:02X}", status[0]);
    chip.completion(array, security)?;

    let (mut bytes, mut marks) = ([0u8; 4], [0u8; 4]);
    chip.send(array, security, &[0x03, 0x00, 0x01, 0xFE], &mut bytes, &mut marks)?;
    println!("0001FE: {:02X} {:02X} | 000200: {:02X} {:02X}", bytes[0], bytes[1], bytes[2], bytes[3]);
    println!("000100: {:02X}, where 33 went", array.bytes()[0x100]);

    // a software reset in the middle of a program: 256 bytes 00, the first 100 done, and the next one only in its low half
    chip.send(array, security, &[0x06], &mut [], &mut [])?;
    let mut zeros = vec![0x02, 0x00, 0x02, 0x00];
    zeros.resize(4 + 256, 0x00);
    chip.send(array, security, &zeros, &mut [], &mut [])?;
    chip.send(array, security, &[0x66], &mut [], &mut [])?;
    chip.frame(array, security, &[0x99], &mut [], &mut [], Circumstances { k: 100, m: 0xF0 })?;
    let torn = &array.bytes()[0x263..0x266];
    println!("reset in the middle: 000263: {:02X} {:02X} {:02X}", torn[0], torn[1], torn[2]);

    // a station: five polls allowed a write; the completions of the two writes come before polls 2 and 4
    let mut buffers = StationBuffers::new();
    let polls = chip.station_store(array, security, &mut buffers, 7, b"platform 3, track 12, open  ", Completions::Before { allowance: 5, polls: &[2, 4] })?;
    let data = chip.station_find(array, security, &mut buffers, 7)?;
    println!("station 7 after {polls} polls: {}", String::from_utf8_lossy(&data));
    Ok(())
}
