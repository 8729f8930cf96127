// The yardstick for `tally`: the same counts over the crate's own stream.
use std::io::Write;

fn main() {
    let mut count = [0u64; 256];
    let mut messages = 0u64;
    let mut clean = true;
    for m in itchy::MessageStream::from_reader(std::io::stdin().lock()) {
        match m {
            Ok(m) => {
                count[m.tag as usize] += 1;
                messages += 1;
            }
            Err(_) => {
                clean = false;
                break;
            }
        }
    }
    let out = std::io::stdout();
    let mut out = out.lock();
    for (tag, n) in count.iter().enumerate().filter(|(_, n)| **n > 0) {
        writeln!(out, "{} {}", tag as u8 as char, n).unwrap();
    }
    writeln!(out, "messages {}", messages).unwrap();
    writeln!(out, "{}", if clean { "stopped 0 0" } else { "stopped" }).unwrap();
}
