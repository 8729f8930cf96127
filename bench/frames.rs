// The yardstick for `frames`: the same walk by hand, with its own checks of every field. The crate is no help here: it has no call that judges one frame,
// and a stream for each frame would zero 8,192 bytes each time.
#[path = "../oracle/digits.rs"]
mod digits;

use digits::number;
use std::io::{self, Read, Write};

type Judged = Result<(), (u64, u64)>; // refused: number and place

const SHORT: (u64, u64) = (20, 0);
const LONG: (u64, u64) = (21, 0);

struct Fields<'a> {
    frame: &'a [u8],
    at: usize,
}

impl<'a> Fields<'a> {
    #[inline]
    fn take(&mut self, n: usize) -> Result<&'a [u8], (u64, u64)> {
        let field = self.frame.get(self.at..self.at + n).ok_or(SHORT)?;
        self.at += n;
        Ok(field)
    }
    #[inline]
    fn number(&mut self, n: usize) -> Judged {
        self.take(n).map(|_| ())
    }
    #[inline]
    fn code(&mut self, legal: impl Fn(u8) -> bool) -> Judged {
        let at = self.at;
        if legal(self.take(1)?[0]) { Ok(()) } else { Err((2, at as u64)) }
    }
    #[inline]
    fn text(&mut self, n: usize) -> Judged {
        let at = self.at;
        std::str::from_utf8(self.take(n)?).map(|_| ()).map_err(|e| (3, (at + e.valid_up_to()) as u64))
    }
    fn subtype(&mut self) -> Judged {
        let at = self.at;
        let field = self.take(2)?;
        let second: &[u8] = match field[0] {
            b'A' => b" I",
            b'C' => b" BFLMOTUW",
            b'E' => b" GIMNU",
            b'F' => b" IL",
            b'I' => b" RWX",
            b'L' => b" L",
            b'M' => b" FLT",
            b'P' => b" PU",
            b'R' => b" CFTU",
            b'S' => b" CI",
            b'T' => b" CU",
            b'W' => b" C",
            b'B' | b'D' | b'G' | b'J' | b'N' | b'O' | b'Q' | b'U' | b'V' | b'X' | b'Y' | b'Z' => b" ",
            _ => b"",
        };
        if second.contains(&field[1]) { Ok(()) } else { Err((2, at as u64)) }
    }
    #[inline]
    fn order(&mut self) -> Judged {
        self.number(8)?;
        self.code(|b| matches!(b, b'B' | b'S'))?;
        self.number(4)?;
        self.text(8)?;
        self.number(4)
    }
}

fn flag(b: u8) -> bool {
    matches!(b, b'Y' | b'N')
}

fn maybe(b: u8) -> bool {
    matches!(b, b'Y' | b'N' | b' ')
}

fn judge(frame: &[u8]) -> Judged {
    let mut f = Fields { frame, at: 2 };
    let tag = f.take(11)?[0];
    match tag {
        b'A' => f.order()?,
        b'B' | b'D' => f.number(8)?,
        b'C' => {
            f.number(20)?;
            f.code(flag)?;
            f.number(4)?;
        }
        b'E' => f.number(20)?,
        b'F' => {
            f.order()?;
            f.text(4)?;
        }
        b'H' => {
            f.text(8)?;
            f.code(|b| matches!(b, b'H' | b'P' | b'Q' | b'T'))?;
            f.number(1)?;
            f.text(4)?;
        }
        b'I' => {
            f.number(16)?;
            f.code(|b| matches!(b, b'B' | b'S' | b'N' | b'O'))?;
            f.text(8)?;
            f.number(12)?;
            f.code(|b| matches!(b, b'O' | b'C' | b'H' | b'A'))?;
            f.number(1)?;
        }
        b'J' => {
            f.text(8)?;
            f.number(16)?;
        }
        b'K' => {
            f.text(8)?;
            f.number(4)?;
            f.code(|b| matches!(b, b'A' | b'C'))?;
            f.number(4)?;
        }
        b'L' => {
            f.text(4)?;
            f.text(8)?;
            f.code(flag)?;
            f.code(|b| matches!(b, b'N' | b'P' | b'S' | b'R' | b'L'))?;
            f.code(|b| matches!(b, b'A' | b'E' | b'W' | b'S' | b'D'))?;
        }
        b'N' => {
            f.text(8)?;
            f.code(|b| matches!(b, b'B' | b'S' | b'A' | b'N'))?;
        }
        b'P' => {
            f.order()?;
            f.number(8)?;
        }
        b'Q' => {
            f.number(8)?;
            f.text(8)?;
            f.number(12)?;
            f.code(|b| matches!(b, b'O' | b'C' | b'H' | b'I' | b'A'))?;
        }
        b'R' => {
            f.text(8)?;
            f.code(|b| b"QGSNAPZV ".contains(&b))?;
            f.code(|b| b"NDEQSGHJKC ".contains(&b))?;
            f.number(4)?;
            f.code(flag)?;
            f.code(|b| b"ABCFILNOPQRSTUVW".contains(&b))?;
            f.subtype()?;
            f.code(|b| matches!(b, b'P' | b'T'))?;
            f.code(maybe)?;
            f.code(maybe)?;
            f.code(|b| matches!(b, b' ' | b'1' | b'2'))?;
            f.code(|b| maybe(b) || b == b'M')?;
            f.number(4)?;
            f.code(flag)?;
        }
        b'S' => f.code(|b| b"OSQMEC".contains(&b))?,
        b'U' | b'V' => f.number(24)?,
        b'W' => f.code(|b| matches!(b, b'1' | b'2' | b'3'))?,
        b'X' => f.number(12)?,
        b'Y' => {
            f.text(8)?;
            f.code(|b| matches!(b, b'0' | b'1' | b'2'))?;
        }
        _ => return Err((1, 2)),
    }
    if f.at < frame.len() { Err(LONG) } else { Ok(()) }
}

fn main() -> io::Result<()> {
    let mut from = io::stdin().lock();
    let mut to = io::stdout().lock();
    let mut buf = vec![0u8; 1 << 18]; // holds a block and the longest frame
    let mut out = Vec::with_capacity(1 << 17);
    let (mut start, mut end, mut offset) = (0, 0, 0u64);
    let (mut frames, mut accepted) = (0u64, 0u64);
    loop {
        buf.copy_within(start..end, 0);
        end -= start;
        start = 0;
        let n = from.read(&mut buf[end..]).unwrap_or(0); // a failed read is the end
        if n == 0 {
            break;
        }
        end += n;
        while end - start >= 2 {
            let size = 2 + u16::from_be_bytes([buf[start], buf[start + 1]]) as usize;
            if end - start < size {
                break;
            }
            let frame = &buf[start..start + size];
            number(&mut out, offset);
            match judge(frame) {
                Ok(()) => {
                    accepted += 1;
                    out.extend_from_slice(b" ok ");
                    out.push(frame[2]);
                    out.push(b' ');
                    number(&mut out, size as u64);
                }
                Err((n, place)) => {
                    out.extend_from_slice(b" refused ");
                    number(&mut out, n);
                    out.push(b' ');
                    number(&mut out, place);
                }
            }
            out.push(b'\n');
            frames += 1;
            start += size;
            offset += size as u64;
            if out.len() >= 1 << 16 {
                to.write_all(&out)?;
                out.clear();
            }
        }
    }
    let left = (end - start) as u64;
    for (word, numbers) in [("tail", &[offset, left][..]), ("total", &[frames, accepted, frames - accepted, offset + left][..])] {
        out.extend_from_slice(word.as_bytes());
        for &n in numbers {
            out.push(b' ');
            number(&mut out, n);
        }
        out.push(b'\n');
    }
    to.write_all(&out)
}
