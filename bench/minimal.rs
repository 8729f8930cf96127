// What reading costs without any judgement: all fields of A, D, U, E and X, of the mix `core`, by a reader that checks no code and no text and trusts
// every length. S is stepped over; the last messages, where fewer than 52 bytes are left, are not read. It reads 8,192 bytes at a time, as the crate
// does, and prints the messages and the fields, xored, so that none is left out.
use std::io::{self, Read};

fn field(b: &[u8], at: usize, width: usize) -> u64 {
    // a constant width: one load
    match width {
        2 => u16::from_be_bytes(b[at..at + 2].try_into().unwrap()) as u64,
        4 => u32::from_be_bytes(b[at..at + 4].try_into().unwrap()) as u64,
        _ => u64::from_be_bytes(b[at..at + 8].try_into().unwrap()),
    }
}

fn main() -> io::Result<()> {
    let mut from = io::stdin().lock();
    let mut buf = [0u8; 8192];
    let (mut start, mut end, mut messages, mut sum) = (0, 0, 0u64, 0u64);
    loop {
        while end - start >= 52 {
            let b: &[u8; 52] = buf[start..start + 52].try_into().unwrap();
            let eight = field(b, 5, 8);
            sum ^= b[2] as u64 ^ field(b, 3, 2) ^ (eight >> 48) ^ (eight & 0xffff_ffff_ffff);
            start += match b[2] {
                b'A' => {
                    sum ^= field(b, 13, 8) ^ b[21] as u64 ^ field(b, 22, 4) ^ field(b, 26, 8) ^ field(b, 34, 4);
                    38
                }
                b'D' => {
                    sum ^= field(b, 13, 8);
                    21
                }
                b'U' => {
                    sum ^= field(b, 13, 8) ^ field(b, 21, 8) ^ field(b, 29, 4) ^ field(b, 33, 4);
                    37
                }
                b'E' => {
                    sum ^= field(b, 13, 8) ^ field(b, 21, 4) ^ field(b, 25, 8);
                    33
                }
                b'X' => {
                    sum ^= field(b, 13, 8) ^ field(b, 21, 4);
                    25
                }
                _ => 2 + field(b, 0, 2) as usize,
            };
            messages += 1;
        }
        buf.copy_within(start..end, 0);
        end -= start;
        start = 0;
        match from.read(&mut buf[end..])? {
            0 => break,
            n => end += n,
        }
    }
    println!("messages {messages}\nsum {sum}");
    Ok(())
}
