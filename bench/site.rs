// A plain Rust site, measured by the same program as geo_site: the same commands, records, parcels and joins, without contracts.
// Prints the same lines as site.rt.txt.
use std::hint::black_box;

mod clock;
mod plain_site;

use clock::cpu_nanos;
use plain_site::{Key, Parcel, Reply, Request, Site, Vector, sha256};

const BATCH: u32 = 1_000;
const COMMANDS: u32 = 200_000;
const SMALL_TAKES: u32 = 1_000;
const SMALL_SENDS: u32 = 1_000;

#[derive(Clone, Copy)]
enum Kind {
    New,
    Set,
    Get,
    Miss,
}

fn print(name: &str, keys: u32, requests: u64, bytes: u64, took: u64, sum: u64) {
    println!("{name}@{keys} {requests} {bytes} {took} {sum}");
}

fn key(number: u32) -> Key {
    format!("key:{number:08}").into_bytes()
}

fn set(number: u32, data: &[u8]) -> Request {
    Request::Set { key: key(number), flags: 0, exptime: 0, bytes: data.to_vec() }
}

fn get(number: u32) -> Request {
    Request::Get { keys: vec![key(number)] }
}

fn scattered(number: u32, keys: u32) -> u32 {
    number.wrapping_mul(2_654_435_761) % keys
}

/// Each of the keys once, where their count is a power of ten, and not in their own order.
fn spread(number: u32, keys: u32) -> u32 {
    number * 3_001 % keys
}

fn request(kind: Kind, number: u32, keys: u32, data: &[u8]) -> Request {
    match kind {
        Kind::New => set(spread(number, keys), data),
        Kind::Set => set(scattered(number, keys), data),
        Kind::Get => get(scattered(number, keys)),
        Kind::Miss => get(keys + number),
    }
}

fn weight(reply: &Reply) -> u64 {
    match reply {
        Reply::Stored => 1,
        Reply::Values(values) => values.iter().map(|found| found.bytes.len() as u64).sum(),
        Reply::Refused => 1_000_000_000,
    }
}

fn measure_acts(site: &mut Site, name: &str, kind: Kind, keys: u32, count: u32) {
    let data = [b'x'; 100];
    let (mut took, mut sum) = (0, 0);
    for at in 0..count / BATCH {
        let requests: Vec<_> = (0..BATCH).map(|number| request(kind, at * BATCH + number, keys, &data)).collect();
        let start = cpu_nanos();
        for request in black_box(&requests) {
            sum += weight(&black_box(site.act(100, request)));
        }
        took += cpu_nanos() - start;
    }
    print(name, keys, count as u64, count as u64 * 100, took, sum);
}

fn measure_send(site: &Site, keys: u32, times: u32) {
    // One that isn't measured: memory that it takes from the system is there for those after it.
    drop(black_box(site.send(2)));
    let (mut took, mut sum) = (0, 0);
    for _ in 0..times {
        let start = cpu_nanos();
        let made = black_box(site.send(2));
        took += cpu_nanos() - start;
        sum += made.records.len() as u64;
    }
    print("send", keys, sum, 0, took, sum);
}

fn take(site: &mut Site, parcel: Parcel) -> (u64, u64) {
    let start = cpu_nanos();
    let (rose, dropped) = site.take(parcel).expect("taken");
    (cpu_nanos() - start, rose as u64 + dropped as u64)
}

fn measure_takes(from: &Site, keys: u32, times: u32) {
    let (mut first, mut again) = ((0, 0), (0, 0));
    for _ in 0..times {
        let mut site = Site::new(2, 3);
        let (took, sum) = take(&mut site, from.send(2));
        first = (first.0 + took, first.1 + sum);
        let (took, sum) = take(&mut site, from.send(2));
        again = (again.0 + took, again.1 + sum);
    }
    let records = times as u64 * keys as u64;
    print("take_new", keys, records, 0, first.0, first.1);
    print("take_again", keys, records, 0, again.0, again.1);
}

fn measure_small_take(site: &mut Site, keys: u32) {
    let mut other = Site::new(3, 3);
    other.act(100, &set(u32::MAX, b"one"));
    let small = other.send(1);
    let (mut took, mut sum) = (0, 0);
    for _ in 0..SMALL_TAKES {
        let (more, weight) = take(site, small.clone());
        took += more;
        sum += weight;
    }
    print("take_one", keys, SMALL_TAKES as u64, 0, took, sum);
}

/// Parcels of one record each: a key is set that is there, and what came before it is acknowledged.
fn measure_small_send(site: &mut Site, keys: u32) {
    let (mut took, mut sum) = (0, 0);
    for number in 0..SMALL_SENDS {
        let known = Parcel { from: 2, to: 1, base: Vector::new(3), upto: site.vector, records: Vec::new() };
        site.take(known).expect("taken");
        site.act(100, &set(spread(number, keys), b"one"));
        let start = cpu_nanos();
        let made = black_box(site.send(2));
        took += cpu_nanos() - start;
        sum += made.records.len() as u64;
    }
    print("send_one", keys, SMALL_SENDS as u64, 0, took, sum);
}

/// The bytes of memory that the process has resident.
fn resident() -> u64 {
    let text = std::fs::read_to_string("/proc/self/statm").expect("statm");
    let pages: u64 = text.split(' ').nth(1).expect("pages").parse().expect("a number");
    pages * 4_096
}

fn measure_site(keys: u32) {
    let mut site = Site::new(1, 3);
    let before = resident();
    measure_acts(&mut site, "set_new", Kind::New, keys, keys);
    let more = resident().saturating_sub(before);
    print("memory", keys, keys as u64, more, more, 0);
    measure_acts(&mut site, "set", Kind::Set, keys, COMMANDS);
    measure_acts(&mut site, "get", Kind::Get, keys, COMMANDS);
    measure_acts(&mut site, "miss", Kind::Miss, keys, COMMANDS);
    let times = 1_000_000 / keys;
    measure_send(&site, keys, times);
    measure_takes(&site, keys, times);
    measure_small_take(&mut site, keys);
    measure_small_send(&mut site, keys);
}

fn measure_sha(length: u32, times: u32) {
    let mut data = vec![b'x'; length as usize];
    let start = cpu_nanos();
    let mut sum = 0;
    for number in 0..times {
        data[0] = number as u8;
        sum += black_box(sha256(black_box(&data)))[0] as u64;
    }
    let took = cpu_nanos() - start;
    print("sha", length, times as u64, times as u64 * length as u64, took, sum);
}

fn main() {
    match std::env::args().nth(1).as_deref() {
        Some("sha") => {
            measure_sha(100, 1_000_000);
            measure_sha(1_048_576, 100);
        }
        Some(word) => {
            if let Ok(keys) = word.parse() {
                measure_site(keys);
            }
        }
        None => {}
    }
}
