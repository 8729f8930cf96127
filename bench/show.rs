// The yardstick for `show`: the same lines over the crate's own stream. Of an input that is not clean it tells neither number nor place.
#[path = "../oracle/line.rs"]
mod line;

use line::{line, number};
use std::io::{self, Write};

fn main() -> io::Result<()> {
    let mut stream = itchy::MessageStream::from_reader(io::stdin().lock());
    let mut to = io::stdout().lock();
    let mut out = Vec::with_capacity(1 << 17);
    let mut messages = 0;
    let mut clean = true;
    for m in stream.by_ref() {
        let Ok(m) = m else {
            clean = false;
            break;
        };
        messages += 1;
        line(&mut out, &m);
        if out.len() >= 1 << 16 {
            to.write_all(&out)?;
            out.clear();
        }
    }
    let text = format!("{:?}", stream); // only its Debug tells the bytes consumed
    let at = text.find("buffer_pos: ").unwrap() + "buffer_pos: ".len();
    out.extend_from_slice(b"messages ");
    number(&mut out, messages);
    out.extend_from_slice(b"\nconsumed ");
    out.extend_from_slice(text[at..].split(',').next().unwrap().as_bytes());
    out.extend_from_slice(if clean { b"\nstopped 0 0\n" } else { b"\nstopped\n" });
    to.write_all(&out)
}
