// Scripts for `geocache script`: makes one, carries one out as plain Rust does over std's HashMap, and times a program.
use std::collections::HashMap;
use std::fs::File;
use std::io::{BufWriter, Read, Write};
use std::process::{Command, Stdio};

mod plain_site;

use plain_site::{Found, Parcel, Reply, Request, Site};

#[repr(C)]
#[derive(Clone, Copy, Default)]
struct Timeval {
    seconds: i64,
    micros: i64,
}

#[repr(C)]
#[derive(Default)]
struct Usage {
    user: Timeval,
    system: Timeval,
    rest: [i64; 14],
}

extern "C" {
    fn getrusage(who: i32, usage: *mut Usage) -> i32;
}

/// The processor time of all children that have ended, in nanoseconds.
fn children_nanos() -> u64 {
    let mut usage = Usage::default();
    // -1 is RUSAGE_CHILDREN.
    unsafe { getrusage(-1, &mut usage) };
    let nanos = |time: Timeval| time.seconds as u64 * 1_000_000_000 + time.micros as u64 * 1_000;
    nanos(usage.user) + nanos(usage.system)
}

fn scattered(number: u32, keys: u32) -> u32 {
    number.wrapping_mul(2_654_435_761) % keys
}

/// Each site sends to each other, and takes what was sent to it.
fn exchange(out: &mut impl Write, sites: u32, sent: &mut u32) -> std::io::Result<()> {
    let first = *sent;
    for site in 1..=sites {
        for to in (1..=sites).filter(|to| *to != site) {
            writeln!(out, "send {site} {to}")?;
            *sent += 1;
        }
    }
    let mut parcel = first;
    for site in 1..=sites {
        for to in (1..=sites).filter(|to| *to != site) {
            writeln!(out, "take {to} {parcel}")?;
            parcel += 1;
        }
    }
    Ok(())
}

fn site_of(number: u32, sites: u32) -> u32 {
    number % sites + 1
}

/// A script that sets each key, then sets and gets keys in turn, so many of them, with or without exptimes; several sites exchange
/// parcels in between and at the end.
fn make(out: &mut impl Write, keys: u32, sites: u32, ends: bool, commands: u32) -> std::io::Result<()> {
    let data = "x".repeat(100);
    let exptime = |number: u32| if ends { 1 + number % 1_000 } else { 0 };
    let mut sent = 0;
    writeln!(out, "sites {sites} pages 160 max 1000000")?;
    writeln!(out, "at 100")?;
    for number in 0..keys {
        writeln!(out, "client {} set key:{number:08} 0 {} 100\\r\\n{data}\\r\\n", site_of(number, sites), exptime(number))?;
    }
    exchange(out, sites, &mut sent)?;
    for number in 0..commands {
        let key = scattered(number, keys);
        let site = site_of(key, sites);
        if ends && number % 1_000 == 0 {
            writeln!(out, "at {}", 100 + number / 1_000)?;
        }
        if number % 2 == 0 {
            writeln!(out, "client {site} set key:{key:08} 0 {} 100\\r\\n{data}\\r\\n", exptime(number))?;
        } else {
            writeln!(out, "client {site} get key:{key:08}\\r\\n")?;
        }
    }
    exchange(out, sites, &mut sent)
}

fn unescaped(text: &[u8]) -> Vec<u8> {
    let mut out = Vec::with_capacity(text.len());
    let mut bytes = text.iter();
    while let Some(byte) = bytes.next() {
        out.push(match (byte, if *byte == b'\\' { bytes.next() } else { None }) {
            (b'\\', Some(b'r')) => b'\r',
            (b'\\', Some(b'n')) => b'\n',
            (b'\\', _) => b'\\',
            (byte, _) => *byte,
        });
    }
    out
}

fn escaped(out: &mut Vec<u8>, bytes: &[u8]) {
    for byte in bytes {
        match byte {
            b'\r' => out.extend_from_slice(b"\\r"),
            b'\n' => out.extend_from_slice(b"\\n"),
            b'\\' => out.extend_from_slice(b"\\\\"),
            byte => out.push(*byte),
        }
    }
}

fn number(word: &[u8]) -> u64 {
    word.iter().fold(0, |number, digit| number * 10 + (digit - b'0') as u64)
}

fn request(text: &[u8]) -> Request {
    let end = text.iter().position(|byte| *byte == b'\r').expect("a line");
    let words: Vec<_> = text[..end].split(|byte| *byte == b' ').collect();
    match words[0] {
        b"set" => Request::Set {
            key: words[1].to_vec(),
            flags: number(words[2]) as u32,
            exptime: number(words[3]),
            bytes: text[end + 2..end + 2 + number(words[4]) as usize].to_vec(),
        },
        _ => Request::Get { keys: words[1..].iter().map(|key| key.to_vec()).collect() },
    }
}

fn show(out: &mut Vec<u8>, reply: &Reply) {
    match reply {
        Reply::Stored => out.extend_from_slice(b"STORED\r\n"),
        Reply::Refused => out.extend_from_slice(b"SERVER_ERROR out of memory\r\n"),
        Reply::Values(values) => {
            for Found { key, flags, bytes, .. } in values {
                out.extend_from_slice(b"VALUE ");
                out.extend_from_slice(key);
                out.extend_from_slice(format!(" {flags} {}\r\n", bytes.len()).as_bytes());
                out.extend_from_slice(bytes);
                out.extend_from_slice(b"\r\n");
            }
            out.extend_from_slice(b"END\r\n");
        }
    }
}

/// Carries out a script that `make` made, as geocache does.
fn play(text: &[u8], out: &mut impl Write) -> std::io::Result<()> {
    let mut sites: Vec<Site> = Vec::new();
    let mut parcels: HashMap<u64, Parcel> = HashMap::new();
    let mut now = 1;
    let (mut reply, mut line_out) = (Vec::new(), Vec::new());
    for line in text.split(|byte| *byte == b'\n').filter(|line| !line.is_empty()) {
        let mut words = line.splitn(3, |byte| *byte == b' ');
        let name = words.next().expect("a name");
        let one = number(words.next().expect("a number"));
        let rest = words.next().unwrap_or(b"");
        match name {
            b"sites" => sites = (1..=one).map(|site| Site::new(site as u8, one as usize)).collect(),
            b"at" => now = one,
            b"client" => {
                reply.clear();
                line_out.clear();
                show(&mut reply, &sites[one as usize - 1].act(now, &request(&unescaped(rest))));
                line_out.extend_from_slice(format!("{one}> ").as_bytes());
                escaped(&mut line_out, &reply);
                line_out.push(b'\n');
                out.write_all(&line_out)?;
            }
            b"send" => {
                let parcel = sites[one as usize - 1].send(number(rest) as u8);
                writeln!(out, "parcel {}", parcels.len())?;
                parcels.insert(parcels.len() as u64, parcel);
            }
            _ => {
                let parcel = parcels[&number(rest)].clone();
                sites[one as usize - 1].take(parcel).expect("taken");
                writeln!(out, "taken")?;
            }
        }
    }
    Ok(())
}

/// Runs a program several times with the script as its input, and prints how many nanoseconds of processor time a run took.
fn time(times: u64, script: &str, output: &str, program: &[String]) {
    let before = children_nanos();
    for _ in 0..times {
        let status = Command::new(&program[0])
            .args(&program[1..])
            .stdin(Stdio::from(File::open(script).expect("the script")))
            .stdout(Stdio::from(File::create(output).expect("the output")))
            .status()
            .expect("the program");
        assert!(status.success(), "the program failed");
    }
    println!("{}", (children_nanos() - before) / times);
}

fn main() -> std::io::Result<()> {
    let words: Vec<String> = std::env::args().skip(1).collect();
    let mut out = BufWriter::new(std::io::stdout().lock());
    match words[0].as_str() {
        "make" => {
            let number = |word: &String| word.parse().expect("a number");
            make(&mut out, number(&words[1]), number(&words[2]), words[3] == "ends", number(&words[4]))?
        }
        "play" => {
            let mut text = Vec::new();
            std::io::stdin().lock().read_to_end(&mut text)?;
            play(&text, &mut out)?;
        }
        _ => time(words[1].parse().expect("times"), &words[2], &words[3], &words[4..]),
    }
    out.flush()
}
