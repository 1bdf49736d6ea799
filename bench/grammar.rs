// A plain Rust parser of the same shape as geo_grammar, measured by the same program: the same states, the same copies of
// keys and data, the same lists of requests. Prints the same lines as grammar.rt.txt.
use std::hint::black_box;

mod clock;

use clock::cpu_nanos;

const GETS: u32 = 20_000;
const SETS: u32 = 10_000;
const MEBIBYTE: usize = 1_048_576;
const PIECE: usize = 16_384;
const LONGEST_LINE: usize = 65_536;

extern "C" {
    fn memchr(bytes: *const u8, byte: i32, count: usize) -> *const u8;
}

fn find_newline(bytes: &[u8]) -> Option<usize> {
    // std has no public search for a byte that is as fast as the C library's.
    let found = unsafe { memchr(bytes.as_ptr(), b'\n' as i32, bytes.len()) };
    if found.is_null() {
        None
    } else {
        Some(found as usize - bytes.as_ptr() as usize)
    }
}

struct Key(Vec<u8>);

impl Key {
    fn is_valid(bytes: &[u8]) -> bool {
        !bytes.is_empty() && bytes.len() <= 250 && bytes.iter().all(|b| *b >= 0x21 && *b != 0x7f)
    }

    fn new(bytes: &[u8]) -> Option<Key> {
        if Key::is_valid(bytes) {
            Some(Key(bytes.to_vec()))
        } else {
            None
        }
    }
}

#[derive(Clone, Copy, PartialEq)]
enum Verb {
    Set,
    Add,
    Replace,
    Append,
    Prepend,
    Cas,
}

#[allow(dead_code)]
enum Request {
    Store { verb: Verb, key: Key, flags: u32, exptime: i64, unique: Option<u64>, bytes: Vec<u8>, noreply: bool },
    Fetch { keys: Vec<Key>, numbers: bool },
    Delete { key: Key, noreply: bool },
    Arith { up: bool, key: Key, by: u64, noreply: bool },
    ShowVersion,
    Verbosity { noreply: bool },
    Stats,
    Quit,
}

impl Request {
    fn is_noreply(&self) -> bool {
        match self {
            Request::Store { noreply, .. }
            | Request::Delete { noreply, .. }
            | Request::Arith { noreply, .. }
            | Request::Verbosity { noreply } => *noreply,
            _ => false,
        }
    }
}

#[allow(dead_code)]
#[derive(Clone, Copy)]
enum Fault {
    Unknown,
    BadLine,
    BadData,
    LineTooLong,
    TooLarge,
    BadNumber,
}

#[allow(dead_code)]
enum Item {
    Request(Request),
    Fault(Fault),
}

struct Head {
    verb: Verb,
    key: Key,
    flags: u32,
    exptime: i64,
    unique: Option<u64>,
    size: usize,
    noreply: bool,
}

enum Line {
    Whole(Request),
    Storage(Head),
    Huge(usize),
    Bad(Fault),
}

enum State {
    Line(Vec<u8>),
    Data { head: Head, got: Vec<u8>, returned: bool },
    Skip { left: usize, fault: Fault },
    Ended,
}

fn next_word(line: &[u8]) -> Option<(&[u8], &[u8])> {
    let start = line.iter().position(|b| *b != b' ')?;
    let rest = &line[start..];
    let end = rest.iter().position(|b| *b == b' ').unwrap_or(rest.len());
    Some(rest.split_at(end))
}

fn number(word: &[u8], most: u64) -> Option<u64> {
    if word.is_empty() {
        return None;
    }
    let mut value: u64 = 0;
    for byte in word {
        if !byte.is_ascii_digit() {
            return None;
        }
        value = value.checked_mul(10)?.checked_add((byte - b'0') as u64)?;
        if value > most {
            return None;
        }
    }
    Some(value)
}

fn exptime(word: &[u8]) -> Option<i64> {
    let (digits, minus) = match word {
        [b'-', digits @ ..] => (digits, true),
        _ => (word, false),
    };
    match number(digits, i64::MAX as u64 + minus as u64) {
        Some(0) => Some(0),
        _ => None,
    }
}

fn read_noreply(line: &[u8]) -> Option<bool> {
    let Some((word, rest)) = next_word(line) else {
        return Some(false);
    };
    if word == b"noreply" && next_word(rest).is_none() {
        Some(true)
    } else {
        None
    }
}

fn storage(verb: Verb, line: &[u8]) -> Option<Head> {
    let (key, rest) = next_word(line)?;
    let (flags, rest) = next_word(rest)?;
    let (exp, rest) = next_word(rest)?;
    let (size, mut rest) = next_word(rest)?;
    let key = Key::new(key)?;
    let flags = number(flags, u32::MAX as u64)? as u32;
    let exptime = exptime(exp)?;
    let size = number(size, i32::MAX as u64)? as usize;
    let mut unique = None;
    if verb == Verb::Cas {
        let (word, after) = next_word(rest)?;
        unique = Some(number(word, u64::MAX)?);
        rest = after;
    }
    let noreply = read_noreply(rest)?;
    Some(Head { verb, key, flags, exptime, unique, size, noreply })
}

fn storage_line(verb: Verb, line: &[u8]) -> Line {
    match storage(verb, line) {
        Some(head) if head.size > MEBIBYTE => Line::Huge(head.size),
        Some(head) => Line::Storage(head),
        None => Line::Bad(Fault::BadLine),
    }
}

fn fetch_line(numbers: bool, line: &[u8]) -> Line {
    let mut rest = line;
    let mut any = false;
    while let Some((word, after)) = next_word(rest) {
        if !Key::is_valid(word) {
            return Line::Bad(Fault::BadLine);
        }
        any = true;
        rest = after;
    }
    if !any {
        return Line::Bad(Fault::BadLine);
    }
    let mut keys = Vec::new();
    let mut rest = line;
    while let Some((word, after)) = next_word(rest) {
        keys.extend(Key::new(word));
        rest = after;
    }
    Line::Whole(Request::Fetch { keys, numbers })
}

fn delete_line(line: &[u8]) -> Line {
    let Some((key, mut rest)) = next_word(line) else {
        return Line::Bad(Fault::BadLine);
    };
    if let Some((b"0", after)) = next_word(rest) {
        rest = after;
    }
    match (read_noreply(rest), Key::new(key)) {
        (Some(noreply), Some(key)) => Line::Whole(Request::Delete { key, noreply }),
        _ => Line::Bad(Fault::BadLine),
    }
}

fn arith_line(up: bool, line: &[u8]) -> Line {
    let Some((key, rest)) = next_word(line) else {
        return Line::Bad(Fault::BadLine);
    };
    let Some((by, rest)) = next_word(rest) else {
        return Line::Bad(Fault::BadLine);
    };
    let (Some(noreply), Some(key)) = (read_noreply(rest), Key::new(key)) else {
        return Line::Bad(Fault::BadLine);
    };
    match number(by, u64::MAX) {
        Some(by) => Line::Whole(Request::Arith { up, key, by, noreply }),
        None => Line::Bad(Fault::BadNumber),
    }
}

fn verbosity_line(line: &[u8]) -> Line {
    let Some((level, rest)) = next_word(line) else {
        return Line::Bad(Fault::BadLine);
    };
    let Some(noreply) = read_noreply(rest) else {
        return Line::Bad(Fault::BadLine);
    };
    match number(level, u32::MAX as u64) {
        Some(_) => Line::Whole(Request::Verbosity { noreply }),
        None => Line::Bad(Fault::BadNumber),
    }
}

fn lone_line(request: Request, line: &[u8]) -> Line {
    match next_word(line) {
        None => Line::Whole(request),
        Some(_) => Line::Bad(Fault::BadLine),
    }
}

fn read_line(line: &[u8]) -> Line {
    let line = match line {
        [front @ .., b'\r'] => front,
        _ => line,
    };
    let Some((name, rest)) = next_word(line) else {
        return Line::Bad(Fault::Unknown);
    };
    match name {
        b"get" => fetch_line(false, rest),
        b"gets" => fetch_line(true, rest),
        b"delete" => delete_line(rest),
        b"incr" => arith_line(true, rest),
        b"decr" => arith_line(false, rest),
        b"version" => lone_line(Request::ShowVersion, rest),
        b"verbosity" => verbosity_line(rest),
        b"stats" => lone_line(Request::Stats, rest),
        b"quit" => lone_line(Request::Quit, rest),
        b"set" => storage_line(Verb::Set, rest),
        b"add" => storage_line(Verb::Add, rest),
        b"replace" => storage_line(Verb::Replace, rest),
        b"append" => storage_line(Verb::Append, rest),
        b"prepend" => storage_line(Verb::Prepend, rest),
        b"cas" => storage_line(Verb::Cas, rest),
        _ => Line::Bad(Fault::Unknown),
    }
}

struct Reader {
    state: State,
}

impl Reader {
    fn new() -> Reader {
        Reader { state: State::Line(Vec::new()) }
    }

    fn feed(&mut self, piece: &[u8]) -> Vec<Item> {
        let mut out = Vec::new();
        let mut rest = piece;
        while !rest.is_empty() {
            rest = self.step(rest, &mut out);
        }
        out
    }

    fn end_line(&mut self, line: &[u8], out: &mut Vec<Item>) {
        self.state = match read_line(line) {
            Line::Whole(request) => {
                out.push(Item::Request(request));
                State::Line(Vec::new())
            }
            Line::Bad(fault) => {
                out.push(Item::Fault(fault));
                State::Line(Vec::new())
            }
            Line::Storage(head) => {
                let got = Vec::with_capacity(head.size);
                State::Data { head, got, returned: false }
            }
            Line::Huge(left) => State::Skip { left, fault: Fault::TooLarge },
        };
    }

    fn step<'a>(&mut self, piece: &'a [u8], out: &mut Vec<Item>) -> &'a [u8] {
        match &mut self.state {
            State::Line(seen) => {
                let room = LONGEST_LINE - seen.len();
                let near = &piece[..piece.len().min(room + 1)];
                match find_newline(near) {
                    Some(at) => {
                        let rest = &piece[at + 1..];
                        if seen.is_empty() {
                            self.end_line(&piece[..at], out);
                        } else {
                            seen.extend_from_slice(&piece[..at]);
                            let line = std::mem::take(seen);
                            self.end_line(&line, out);
                        }
                        rest
                    }
                    None if near.len() > room => {
                        out.push(Item::Fault(Fault::LineTooLong));
                        self.state = State::Ended;
                        &[]
                    }
                    None => {
                        seen.extend_from_slice(piece);
                        &[]
                    }
                }
            }
            State::Data { .. } => self.block(piece, out),
            State::Skip { left, fault } => {
                if piece.len() <= *left {
                    *left -= piece.len();
                    return &[];
                }
                let tail = &piece[*left..];
                *left = 0;
                match find_newline(tail) {
                    Some(at) => {
                        out.push(Item::Fault(*fault));
                        self.state = State::Line(Vec::new());
                        &tail[at + 1..]
                    }
                    None => &[],
                }
            }
            State::Ended => &[],
        }
    }

    fn block<'a>(&mut self, piece: &'a [u8], out: &mut Vec<Item>) -> &'a [u8] {
        let State::Data { head, got, returned } = &mut self.state else {
            return &[];
        };
        let mut rest = piece;
        if !*returned {
            let room = head.size - got.len();
            if rest.len() <= room {
                got.extend_from_slice(rest);
                return &[];
            }
            got.extend_from_slice(&rest[..room]);
            rest = &rest[room..];
            if rest[0] != b'\r' {
                self.state = State::Skip { left: 0, fault: Fault::BadData };
                return rest;
            }
            *returned = true;
            rest = &rest[1..];
            if rest.is_empty() {
                return &[];
            }
        }
        if rest[0] != b'\n' {
            self.state = State::Skip { left: 0, fault: Fault::BadData };
            return rest;
        }
        let before = std::mem::replace(&mut self.state, State::Line(Vec::new()));
        if let State::Data { head, got, .. } = before {
            let Head { verb, key, flags, exptime, unique, noreply, .. } = head;
            out.push(Item::Request(Request::Store { verb, key, flags, exptime, unique, bytes: got, noreply }));
        }
        &rest[1..]
    }
}

struct Found {
    key: Key,
    flags: u32,
    unique: Option<u64>,
    bytes: Vec<u8>,
}

enum Reply {
    Stored,
    Values(Vec<Found>),
}

/// The decimal digits of a number.
fn push_number(out: &mut Vec<u8>, mut number: u64) {
    let mut digits = [0u8; 20];
    let mut at = digits.len();
    loop {
        at -= 1;
        digits[at] = b'0' + (number % 10) as u8;
        number /= 10;
        if number == 0 {
            break;
        }
    }
    out.extend_from_slice(&digits[at..]);
}

fn push_answer(out: &mut Vec<u8>, request: &Request, reply: &Reply) {
    if request.is_noreply() {
        return;
    }
    match reply {
        Reply::Stored => out.extend_from_slice(b"STORED\r\n"),
        Reply::Values(values) => {
            for found in values {
                out.extend_from_slice(b"VALUE ");
                out.extend_from_slice(&found.key.0);
                out.extend_from_slice(b" ");
                push_number(out, found.flags as u64);
                out.extend_from_slice(b" ");
                push_number(out, found.bytes.len() as u64);
                if let Some(unique) = found.unique {
                    out.extend_from_slice(b" ");
                    push_number(out, unique);
                }
                out.extend_from_slice(b"\r\n");
                out.extend_from_slice(&found.bytes);
                out.extend_from_slice(b"\r\n");
            }
            out.extend_from_slice(b"END\r\n");
        }
    }
}

fn render(request: &Request, reply: &Reply) -> Vec<u8> {
    let mut out = Vec::new();
    push_answer(&mut out, request, reply);
    out
}

fn weight(item: &Item) -> u64 {
    match item {
        Item::Request(Request::Store { key, bytes, .. }) => (key.0.len() + bytes.len()) as u64,
        Item::Request(Request::Fetch { keys, .. }) => keys.len() as u64,
        _ => 1_000_000,
    }
}

fn feed_pieces(text: &[u8], size: usize) -> u64 {
    let mut reader = Reader::new();
    let mut sum = 0;
    for piece in text.chunks(size) {
        sum += reader.feed(piece).iter().map(weight).sum::<u64>();
    }
    sum
}

fn print(name: &str, requests: u64, bytes: u64, took: u64, sum: u64) {
    println!("{name} {requests} {bytes} {took} {sum}");
}

fn measure_feed(name: &str, text: &[u8], requests: u32, size: usize, times: u32) {
    let start = cpu_nanos();
    let mut sum = 0;
    for _ in 0..times {
        sum += feed_pieces(black_box(text), size);
    }
    let took = cpu_nanos() - start;
    print(name, requests as u64 * times as u64, text.len() as u64 * times as u64, took, sum);
}

fn measure_render(name: &str, request: &Request, reply: &Reply, times: u32) {
    let start = cpu_nanos();
    let mut sum = 0;
    for _ in 0..times {
        sum += black_box(render(black_box(request), black_box(reply))).len() as u64;
    }
    let took = cpu_nanos() - start;
    print(name, times as u64, sum, took, sum);
}

fn measure_push(name: &str, request: &Request, reply: &Reply, thousands: u32) {
    let start = cpu_nanos();
    let mut sum = 0;
    let mut out = Vec::new();
    for _ in 0..thousands {
        out.clear();
        for _ in 0..1_000 {
            push_answer(&mut out, black_box(request), black_box(reply));
        }
        sum += out.len() as u64;
    }
    let took = cpu_nanos() - start;
    print(name, thousands as u64 * 1_000, sum, took, sum);
}

fn main() {
    let mut text = Vec::new();
    for number in 0..GETS {
        text.extend_from_slice(format!("get key:{number:08}\r\n").as_bytes());
    }
    measure_feed("gets", &text, GETS, PIECE, 50);
    let data = "x".repeat(100);
    let mut text = Vec::new();
    for number in 0..SETS {
        text.extend_from_slice(format!("set key:{number:08} 0 0 100\r\n{data}\r\n").as_bytes());
    }
    measure_feed("sets", &text, SETS, PIECE, 100);
    let text = format!("set big 0 0 1048576\r\n{}\r\n", "x".repeat(MEBIBYTE)).into_bytes();
    measure_feed("mebibyte", &text, 1, PIECE, 1_000);
    measure_feed("bytewise", &text, 1, 1, 8);
    let key = || Key(b"key:00000123".to_vec());
    let request = Request::Fetch { keys: vec![key()], numbers: false };
    let found = Found { key: key(), flags: 0, unique: None, bytes: vec![b'x'; 100] };
    let reply = Reply::Values(vec![found]);
    measure_render("render_value", &request, &reply, 1_000_000);
    measure_render("render_stored", &request, &Reply::Stored, 4_000_000);
    measure_push("push_value", &request, &reply, 4_000);
}
