// The crate itchy 0.3.4, unchanged, asked what the port is asked; prints, byte for byte, what the port's programs print, of what the Rust keeps.
//   driver show WIDTH < recording    as `show`; the stream reads at most WIDTH bytes at a time
//   driver cases < list              as `cases`
//   driver frames < recording        as `frames`: each frame by itself to a stream of its own
//   driver tally < recording         as `tally`
//   driver as-rust < lines           of lines that the port's `show` or `cases` printed, what the Rust keeps: see `as_rust`
// On standard error, at the end: `panic KIND TIMES` for each kind of panic that was caught.
#[path = "line.rs"]
mod line;

use itchy::{Error, Message, MessageStream};
use line::{line, number};
use std::collections::BTreeMap;
use std::io::{self, Read, Write};
use std::panic::{catch_unwind, set_hook, take_hook, AssertUnwindSafe};
use std::sync::atomic::{AtomicBool, Ordering::SeqCst};
use std::sync::Mutex;

static ASKED: AtomicBool = AtomicBool::new(false); // the crate runs, and a panic is its own
static SAID: Mutex<String> = Mutex::new(String::new()); // what its last panic said

// What one call of the Rust's next came to.
#[derive(PartialEq)]
enum Came {
    Message(Message),
    Nothing,
    Parse,               // the crate's parse error: an illegal code
    End,                 // its "Unexpected EOF"
    Io,                  // the reader's error handed on
    Panic(&'static str), // the kind
}

fn next<R: Read>(stream: &mut MessageStream<R>) -> Came {
    ASKED.store(true, SeqCst);
    let came = catch_unwind(AssertUnwindSafe(|| stream.next()));
    ASKED.store(false, SeqCst);
    match came {
        Ok(None) => Came::Nothing,
        Ok(Some(Ok(m))) => Came::Message(m),
        Ok(Some(Err(Error::Parse(t)))) if t == "Unexpected EOF" => Came::End,
        Ok(Some(Err(Error::Parse(_)))) => Came::Parse,
        Ok(Some(Err(_))) => Came::Io,
        Err(_) => Came::Panic(match SAID.lock().unwrap().as_str() {
            t if !t.contains("lib.rs:") => panic!("a panic that is not the crate's: {}", t),
            t if t.contains("entered unreachable code") => "tag",
            t if t.contains("Utf8Error") => "text",
            t if t.contains("out of range for slice of length 8192") => "context",
            t => panic!("a panic of no known kind: {}", t),
        }),
    }
}

// Brings one byte a read.
struct Drip<'a>(&'a [u8]);

impl Read for Drip<'_> {
    fn read(&mut self, room: &mut [u8]) -> io::Result<usize> {
        let n = self.0.len().min(1);
        room[..n].copy_from_slice(&self.0[..n]);
        self.0 = &self.0[n..];
        Ok(n)
    }
}

// Where the text's first bad sequence begins, counted from the field: the crate unwraps the error of its `from_utf8`, so its panic says `valid_up_to`.
fn valid_up_to() -> usize {
    let said = SAID.lock().unwrap();
    let from = said.find("valid_up_to: ").unwrap() + 13;
    said[from..].split(',').next().unwrap().parse().unwrap()
}

// Number and place for a message that the Rust did not take, from the bytes that begin with it. The Rust tells no place; but handed one byte at a time it
// complains as soon as the bad field's last byte is there, so the field begins at the bytes read by then less its width. The tag is judged after byte 13.
fn refusal(bytes: &[u8], came: &Came) -> (u8, usize) {
    let mut stream = MessageStream::from_reader(Drip(bytes));
    let again = next(&mut stream);
    let end = stream.bytes_read();
    let same = again == *came || (again == Came::Parse && *came == Came::Panic("context"));
    assert!(same, "byte by byte the Rust says something else");
    match again {
        Came::Panic("tag") => (1, end - 11),
        Came::Panic("text") => match (bytes[2], end) {
            (b'F', 42) | (b'H', 27) | (b'L', 17) => (3, end - 4 + valid_up_to()),
            _ => (3, end - 8 + valid_up_to()),
        },
        _ => (2, if (bytes[2], end) == (b'R', 31) { end - 2 } else { end - 1 }),
    }
}

// The numbers of an answer that is no message; 0 0 for None. `given` is all that the reader has brought.
fn numbers<R>(stream: &MessageStream<R>, came: &Came, given: &[u8]) -> (u8, usize) {
    match came {
        Came::Nothing => (0, 0),
        Came::End => (10, 0),
        Came::Io => (11, 0),
        _ => refusal(&given[consumed(stream)..], came),
    }
}

// Bytes that the stream has consumed: only its Debug tells them.
fn consumed<R>(stream: &MessageStream<R>) -> usize {
    let text = format!("{:?}", stream);
    let from = text.find("buffer_pos: ").unwrap() + 12;
    text[from..].split(',').next().unwrap().parse().unwrap()
}

struct Out {
    text: Vec<u8>,
    panics: BTreeMap<String, u64>,
}

impl Out {
    fn say(&mut self, word: &str, numbers: &[u64]) {
        self.text.extend_from_slice(word.as_bytes());
        for &n in numbers {
            self.text.push(b' ');
            number(&mut self.text, n);
        }
        self.text.push(b'\n');
        if self.text.len() > 1 << 16 {
            self.flush();
        }
    }
    fn panic(&mut self, marked: bool, came: &Came) {
        if let Came::Panic(kind) = came {
            *self.panics.entry(format!("{}{}", if marked { "marked-" } else { "" }, kind)).or_insert(0) += 1;
        }
    }
    fn flush(&mut self) {
        io::stdout().write_all(&self.text).unwrap();
        self.text.clear();
    }
}

// Brings at most `width` bytes of `all` a read.
struct Pieces<'a> {
    all: &'a [u8],
    at: usize,
    width: usize,
}

impl Read for Pieces<'_> {
    fn read(&mut self, room: &mut [u8]) -> io::Result<usize> {
        let n = room.len().min(self.width).min(self.all.len() - self.at);
        room[..n].copy_from_slice(&self.all[self.at..self.at + n]);
        self.at += n;
        Ok(n)
    }
}

fn show(all: &[u8], width: usize, out: &mut Out) {
    let mut stream = MessageStream::from_reader(Pieces { all, at: 0, width });
    let mut messages = 0;
    loop {
        match next(&mut stream) {
            Came::Message(m) => {
                messages += 1;
                line(&mut out.text, &m);
                if out.text.len() > 1 << 16 {
                    out.flush();
                }
            }
            came => {
                out.panic(false, &came);
                let (n, place) = numbers(&stream, &came, &all[..stream.get_ref().at]);
                out.say("messages", &[messages]);
                out.say("consumed", &[consumed(&stream) as u64]);
                return out.say("stopped", &[n as u64, place as u64]);
            }
        }
    }
}

fn tally(all: &[u8], out: &mut Out) {
    let mut stream = MessageStream::from_reader(Pieces { all, at: 0, width: 8192 });
    let mut counts = [0u64; 256];
    let (n, place) = loop {
        match next(&mut stream) {
            Came::Message(m) => counts[m.tag as usize] += 1,
            came => {
                out.panic(false, &came);
                break numbers(&stream, &came, &all[..stream.get_ref().at]);
            }
        }
    };
    for (tag, &count) in counts.iter().enumerate().filter(|(_, &count)| count > 0) {
        out.say(&(tag as u8 as char).to_string(), &[count]);
    }
    out.say("messages", &[counts.iter().sum()]);
    out.say("stopped", &[n as u64, place as u64]);
}

fn frames(all: &[u8], out: &mut Out) {
    let (mut at, mut count, mut accepted) = (0, 0u64, 0u64);
    while all.len() - at >= 2 {
        let size = 2 + u16::from_be_bytes([all[at], all[at + 1]]) as usize;
        if all.len() - at < size {
            break;
        }
        let frame = &all[at..at + size];
        let mut stream = MessageStream::from_reader(frame);
        let came = next(&mut stream);
        out.panic(false, &came);
        let answer = match &came {
            Came::Message(m) if consumed(&stream) == size => {
                accepted += 1;
                number(&mut out.text, at as u64);
                out.say(&format!(" ok {}", m.tag as char), &[size as u64]);
                None
            }
            Came::Message(_) => Some((21, 0)),
            Came::End => Some((20, 0)),
            _ => Some(numbers(&stream, &came, frame)),
        };
        if let Some((n, place)) = answer {
            number(&mut out.text, at as u64);
            out.say(" refused", &[n as u64, place as u64]);
        }
        count += 1;
        at += size;
    }
    out.say("tail", &[at as u64, (all.len() - at) as u64]);
    out.say("total", &[count, accepted, count - accepted, all.len() as u64]);
}

// The reads of one case, not yet brought; `calls` counts the reads that took from them, `given` keeps what they brought.
struct Case<'a> {
    reads: &'a [u8],
    left: usize, // of a read that did not fit, bytes still to bring
    calls: usize,
    given: Vec<u8>,
}

impl Case<'_> {
    fn word(&self) -> usize {
        u16::from_be_bytes([self.reads[0], self.reads[1]]) as usize
    }
    fn over(&self) -> bool {
        self.left == 0 && self.word() == 0xffff
    }
}

impl Read for Case<'_> {
    fn read(&mut self, room: &mut [u8]) -> io::Result<usize> {
        if self.over() {
            return Ok(0);
        }
        self.calls += 1;
        if self.left == 0 {
            self.left = self.word();
            self.reads = &self.reads[2..];
            if self.left == 0xfffe {
                self.left = 0;
                return Err(io::Error::new(io::ErrorKind::Other, "a read that fails"));
            }
        }
        let n = room.len().min(self.left);
        room[..n].copy_from_slice(&self.reads[..n]);
        self.given.extend_from_slice(&self.reads[..n]);
        self.reads = &self.reads[n..];
        self.left -= n;
        Ok(n)
    }
}

fn cases(mut list: &[u8], out: &mut Out) {
    while !list.is_empty() {
        let mut stream = MessageStream::from_reader(Case { reads: list, left: 0, calls: 0, given: Vec::new() });
        let (mut messages, mut marked, mut last) = (0, false, None);
        loop {
            let came = next(&mut stream);
            if let Came::Message(m) = &came {
                messages += 1;
                marked = false;
                last = None;
                line(&mut out.text, m);
                continue;
            }
            // a panic counts as the refusal of its kind, and sets the mark that the Rust would have set; while that is set, as nothing
            out.panic(marked, &came);
            let panicked = matches!(came, Came::Panic(_));
            if came == Came::Nothing || (panicked && marked) {
                out.say("nothing", &[]);
            } else {
                let (n, place) = numbers(&stream, &came, &stream.get_ref().given);
                out.say("refused", &[n as u64, place as u64]);
                marked = true;
            }
            let case = stream.get_ref();
            if case.over() || last == Some(case.calls) {
                break;
            }
            last = Some(case.calls);
            if panicked {
                out.say("nothing", &[]); // the window stays bad: asked again, the Rust panics again, and the mark is set
                break;
            }
        }
        out.say("end", &[messages, consumed(&stream) as u64]);
        let mut rest = stream.get_ref().reads;
        rest = &rest[stream.get_ref().left..];
        loop {
            let n = u16::from_be_bytes([rest[0], rest[1]]) as usize;
            rest = &rest[2..];
            match n {
                0xffff => break,
                0xfffe => {}
                _ => rest = &rest[n..],
            }
        }
        list = rest;
    }
}

// The one place where the port's lines are brought down to what the Rust keeps: it reads the ETP flag's M as yes, so that both are `Some(true)`, and drops H's
// reserved byte. A tab stands between two fields and nowhere else.
fn as_rust(lines: &[u8], out: &mut Out) {
    for line in lines.split_inclusive(|&b| b == b'\n') {
        for (i, field) in line.split(|&b| b == b'\t').enumerate() {
            if field.starts_with(b"reserved=") {
                continue;
            }
            if i > 0 {
                out.text.push(b'\t');
            }
            out.text.extend_from_slice(if field == b"etp_flag=M" { b"etp_flag=Some(true)" } else { field });
        }
        if out.text.len() > 1 << 16 {
            out.flush();
        }
    }
}

fn main() {
    let usual = take_hook();
    set_hook(Box::new(move |info| {
        if ASKED.load(SeqCst) {
            *SAID.lock().unwrap() = info.to_string();
        } else {
            usual(info);
        }
    }));
    let words: Vec<String> = std::env::args().skip(1).collect();
    let words: Vec<&str> = words.iter().map(|w| w.as_str()).collect();
    let mut all = Vec::new();
    io::stdin().read_to_end(&mut all).unwrap();
    let mut out = Out { text: Vec::new(), panics: BTreeMap::new() };
    match words[..] {
        ["show", width] => show(&all, width.parse().unwrap(), &mut out),
        ["cases"] => cases(&all, &mut out),
        ["frames"] => frames(&all, &mut out),
        ["tally"] => tally(&all, &mut out),
        ["as-rust"] => as_rust(&all, &mut out),
        _ => {
            eprintln!("usage: driver show WIDTH | cases | frames | tally | as-rust");
            std::process::exit(2)
        }
    }
    out.flush();
    for (kind, times) in &out.panics {
        eprintln!("panic {} {}", kind, times);
    }
}
