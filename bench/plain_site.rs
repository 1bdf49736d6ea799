//! A plain Rust site over std's HashMap: the commands, records, parcels and joins of geo_site, without contracts.
use std::collections::{HashMap, VecDeque};

const LAST_TIME: u64 = 0xff_ffff_ffff_ffff;
const LONGEST_VALUE: usize = 1_048_576;
const THIRTY_DAYS: u64 = 2_592_000;
const MOST_CHANGES: usize = 4_096;

const K: [u32; 64] = [
    0x428a2f98, 0x71374491, 0xb5c0fbcf, 0xe9b5dba5, 0x3956c25b, 0x59f111f1, 0x923f82a4, 0xab1c5ed5,
    0xd807aa98, 0x12835b01, 0x243185be, 0x550c7dc3, 0x72be5d74, 0x80deb1fe, 0x9bdc06a7, 0xc19bf174,
    0xe49b69c1, 0xefbe4786, 0x0fc19dc6, 0x240ca1cc, 0x2de92c6f, 0x4a7484aa, 0x5cb0a9dc, 0x76f988da,
    0x983e5152, 0xa831c66d, 0xb00327c8, 0xbf597fc7, 0xc6e00bf3, 0xd5a79147, 0x06ca6351, 0x14292967,
    0x27b70a85, 0x2e1b2138, 0x4d2c6dfc, 0x53380d13, 0x650a7354, 0x766a0abb, 0x81c2c92e, 0x92722c85,
    0xa2bfe8a1, 0xa81a664b, 0xc24b8b70, 0xc76c51a3, 0xd192e819, 0xd6990624, 0xf40e3585, 0x106aa070,
    0x19a4c116, 0x1e376c08, 0x2748774c, 0x34b0bcb5, 0x391c0cb3, 0x4ed8aa4a, 0x5b9cca4f, 0x682e6ff3,
    0x748f82ee, 0x78a5636f, 0x84c87814, 0x8cc70208, 0x90befffa, 0xa4506ceb, 0xbef9a3f7, 0xc67178f2,
];

fn block(state: &mut [u32; 8], bytes: &[u8]) {
    let mut w = [0u32; 64];
    for (word, four) in w.iter_mut().zip(bytes.chunks_exact(4)) {
        *word = u32::from_be_bytes([four[0], four[1], four[2], four[3]]);
    }
    for t in 16..64 {
        let a = w[t - 15];
        let b = w[t - 2];
        let low = a.rotate_right(7) ^ a.rotate_right(18) ^ (a >> 3);
        let high = b.rotate_right(17) ^ b.rotate_right(19) ^ (b >> 10);
        w[t] = w[t - 16].wrapping_add(low).wrapping_add(w[t - 7]).wrapping_add(high);
    }
    let [mut a, mut b, mut c, mut d, mut e, mut f, mut g, mut h] = *state;
    for t in 0..64 {
        let sum = e.rotate_right(6) ^ e.rotate_right(11) ^ e.rotate_right(25);
        let choice = (e & f) ^ (!e & g);
        let first = h.wrapping_add(sum).wrapping_add(choice).wrapping_add(K[t]).wrapping_add(w[t]);
        let sum = a.rotate_right(2) ^ a.rotate_right(13) ^ a.rotate_right(22);
        let second = sum.wrapping_add((a & b) ^ (a & c) ^ (b & c));
        h = g;
        g = f;
        f = e;
        e = d.wrapping_add(first);
        d = c;
        c = b;
        b = a;
        a = first.wrapping_add(second);
    }
    for (word, more) in state.iter_mut().zip([a, b, c, d, e, f, g, h]) {
        *word = word.wrapping_add(more);
    }
}

pub fn sha256(bytes: &[u8]) -> [u8; 32] {
    let mut state = [
        0x6a09e667, 0xbb67ae85, 0x3c6ef372, 0xa54ff53a, 0x510e527f, 0x9b05688c, 0x1f83d9ab, 0x5be0cd19,
    ];
    let mut blocks = bytes.chunks_exact(64);
    for whole in &mut blocks {
        block(&mut state, whole);
    }
    let rest = blocks.remainder();
    let mut last = [0u8; 128];
    last[..rest.len()].copy_from_slice(rest);
    last[rest.len()] = 0x80;
    let end = if rest.len() < 56 { 64 } else { 128 };
    last[end - 8..end].copy_from_slice(&(bytes.len() as u64 * 8).to_be_bytes());
    for whole in last[..end].chunks_exact(64) {
        block(&mut state, whole);
    }
    let mut out = [0u8; 32];
    for (four, word) in out.chunks_exact_mut(4).zip(state) {
        four.copy_from_slice(&word.to_be_bytes());
    }
    out
}

pub type Key = Vec<u8>;

#[derive(Clone, Copy, PartialEq, Eq, PartialOrd, Ord)]
pub struct Stamp {
    pub time: u64,
    pub site: u8,
}

#[allow(dead_code)]
#[derive(Clone, Copy, PartialEq, Eq, PartialOrd, Ord)]
pub enum Body {
    Gone,
    Value { digest: [u8; 32], flags: u32, length: u32 },
}

#[derive(Clone, Copy)]
pub struct Record {
    pub body: Option<(Stamp, Body)>,
    pub expiry: Option<(Stamp, u64)>,
}

impl Record {
    pub fn join(&mut self, other: Record) {
        self.body = self.body.max(other.body);
        self.expiry = self.expiry.max(other.expiry);
    }
}

pub struct Blob {
    pub bytes: Vec<u8>,
    pub digest: [u8; 32],
}

#[derive(Clone, Copy)]
pub struct Vector {
    pub clocks: [u64; 16],
    pub sites: usize,
}

impl Vector {
    pub fn new(sites: usize) -> Vector {
        Vector { clocks: [0; 16], sites }
    }

    pub fn greatest(&self) -> u64 {
        self.clocks[..self.sites].iter().copied().max().unwrap_or(0)
    }

    pub fn knows(&self, stamp: Stamp) -> bool {
        stamp.time <= self.clocks[stamp.site as usize - 1]
    }

    pub fn join(&mut self, other: &Vector) {
        for (mine, other) in self.clocks.iter_mut().zip(other.clocks) {
            *mine = (*mine).max(other);
        }
    }

    pub fn covers(&self, other: &Vector) -> bool {
        self.clocks.iter().zip(&other.clocks).all(|(a, b)| a >= b)
    }

    pub fn knows_record(&self, record: &Record) -> bool {
        record.body.is_none_or(|(stamp, _)| self.knows(stamp)) && record.expiry.is_none_or(|(stamp, _)| self.knows(stamp))
    }
}

pub enum Request {
    Set { key: Key, flags: u32, exptime: u64, bytes: Vec<u8> },
    Get { keys: Vec<Key> },
}

#[allow(dead_code)]
pub struct Found {
    pub key: Key,
    pub flags: u32,
    pub unique: Option<u64>,
    pub bytes: Vec<u8>,
}

pub enum Reply {
    Stored,
    Values(Vec<Found>),
    Refused,
}

#[derive(Clone)]
pub struct Parcel {
    pub from: u8,
    pub to: u8,
    pub base: Vector,
    pub upto: Vector,
    pub records: Vec<(Key, Record)>,
}

pub struct Site {
    pub number: u8,
    pub max_records: usize,
    pub vector: Vector,
    /// What was heard of each site's vector.
    pub heard: [Vector; 16],
    pub records: HashMap<Key, Record>,
    /// The keys that were changed last, with what was known then, and what was known after the newest of the others.
    pub changes: VecDeque<(Key, Vector)>,
    pub reach: Vector,
    pub held: HashMap<Key, Blob>,
    pub hits: u64,
    pub misses: u64,
}

/// The value that a record shows: its digest, flags and length, and its expiry.
pub fn shown(record: &Record) -> Option<(&[u8; 32], u32, u32, u64)> {
    match &record.body {
        Some((_, Body::Value { digest, flags, length })) => {
            Some((digest, *flags, *length, record.expiry.map_or(0, |(_, expiry)| expiry)))
        }
        _ => None,
    }
}

/// Whether a record shows these bytes.
fn names(record: &Record, blob: &Blob) -> bool {
    shown(record).is_some_and(|(digest, _, length, _)| *digest == blob.digest && length as usize == blob.bytes.len())
}

impl Site {
    pub fn new(number: u8, sites: usize) -> Site {
        Site {
            number,
            max_records: 1_000_000,
            vector: Vector::new(sites),
            heard: [Vector::new(sites); 16],
            records: HashMap::new(),
            changes: VecDeque::with_capacity(MOST_CHANGES),
            reach: Vector::new(sites),
            held: HashMap::new(),
            hits: 0,
            misses: 0,
        }
    }

    pub fn act(&mut self, now: u64, request: &Request) -> Reply {
        match request {
            Request::Set { key, flags, exptime, bytes } => self.set(now, key, *flags, *exptime, bytes),
            Request::Get { keys } => self.get(now, keys),
        }
    }

    fn set(&mut self, now: u64, key: &Key, flags: u32, exptime: u64, bytes: &[u8]) -> Reply {
        if bytes.len() > LONGEST_VALUE {
            return Reply::Refused;
        }
        if self.records.len() >= self.max_records && !self.records.contains_key(key) {
            return Reply::Refused;
        }
        let time = self.vector.greatest() + 1;
        if time > LAST_TIME {
            return Reply::Refused;
        }
        let stamp = Stamp { time, site: self.number };
        let expiry = if exptime == 0 || exptime > THIRTY_DAYS { exptime } else { now + exptime };
        let bytes = bytes.to_vec();
        let digest = sha256(&bytes);
        let body = Body::Value { digest, flags, length: bytes.len() as u32 };
        let record = Record { body: Some((stamp, body)), expiry: Some((stamp, expiry)) };
        match self.records.get_mut(key) {
            Some(mine) => mine.join(record),
            None => {
                self.records.insert(key.clone(), record);
            }
        }
        self.vector.clocks[self.number as usize - 1] = time;
        self.note(key);
        self.held.insert(key.clone(), Blob { bytes, digest });
        Reply::Stored
    }

    fn get(&mut self, now: u64, keys: &[Key]) -> Reply {
        let mut all = Vec::new();
        for key in keys {
            let Some(blob) = self.held.get(key) else { continue };
            let Some((_, flags, _, expiry)) = self.records.get(key).and_then(shown) else { continue };
            if expiry == 0 || expiry > now {
                all.push(Found { key: key.clone(), flags, unique: None, bytes: blob.bytes.clone() });
            }
        }
        self.hits += all.len() as u64;
        self.misses += (keys.len() - all.len()) as u64;
        Reply::Values(all)
    }

    pub fn send(&self, to: u8) -> Parcel {
        let base = self.heard[to as usize - 1];
        if base.covers(&self.vector) {
            return Parcel { from: self.number, to, base, upto: self.vector, records: Vec::new() };
        }
        let records = if base.covers(&self.reach) { self.recent(&base) } else { self.since(&base) };
        Parcel { from: self.number, to, base, upto: self.vector, records }
    }

    /// What a base lacks, by a look at all records.
    fn since(&self, base: &Vector) -> Vec<(Key, Record)> {
        let mut records: Vec<_> = self
            .records
            .iter()
            .filter(|(_, record)| !base.knows_record(record))
            .map(|(key, record)| (key.clone(), *record))
            .collect();
        records.sort_unstable_by(|a, b| a.0.cmp(&b.0));
        records
    }

    /// What a base lacks, by a look at the keys that were changed after what it knows.
    fn recent(&self, base: &Vector) -> Vec<(Key, Record)> {
        let news = self.changes.iter().rev().take_while(|(_, after)| !base.covers(after));
        let mut keys: Vec<Key> = news.map(|(key, _)| key.clone()).collect();
        keys.sort_unstable();
        keys.dedup();
        keys.into_iter()
            .filter_map(|key| self.records.get(&key).filter(|record| !base.knows_record(record)).copied().map(|record| (key, record)))
            .collect()
    }

    fn note(&mut self, key: &Key) {
        if self.changes.len() == MOST_CHANGES {
            if let Some((_, after)) = self.changes.pop_front() {
                self.reach = after;
            }
        }
        self.changes.push_back((key.clone(), self.vector));
    }

    /// Whether the vector rose and how many values were dropped; None where the parcel is refused.
    pub fn take(&mut self, parcel: Parcel) -> Option<(bool, usize)> {
        let sound = parcel.to == self.number
            && parcel.from != self.number
            && parcel.upto.sites == self.vector.sites
            && parcel.records.iter().all(|(_, record)| parcel.upto.knows_record(record));
        if !sound || !self.vector.covers(&parcel.base) {
            return None;
        }
        let rose = !self.vector.covers(&parcel.upto);
        // As geo_site does, so that the map grows once.
        let missing = parcel.records.iter().filter(|(key, _)| !self.records.contains_key(key)).count();
        self.records.reserve(missing);
        self.vector.join(&parcel.upto);
        self.heard[parcel.from as usize - 1].join(&parcel.upto);
        self.vector.clocks[self.number as usize - 1] = self.vector.greatest();
        if parcel.records.len() > MOST_CHANGES {
            self.changes.clear();
            self.reach = self.vector;
        } else {
            for (key, _) in &parcel.records {
                self.note(key);
            }
        }
        let before = self.held.len();
        let few = parcel.records.len() < before;
        for (key, record) in parcel.records {
            match self.records.get_mut(&key) {
                Some(mine) => {
                    mine.join(record);
                    if few && self.held.get(&key).is_some_and(|blob| !names(mine, blob)) {
                        self.held.remove(&key);
                    }
                }
                None => {
                    self.records.insert(key, record);
                }
            }
        }
        if !few {
            let records = &self.records;
            self.held.retain(|key, blob| records.get(key).is_some_and(|record| names(record, blob)));
        }
        Some((rose, before - self.held.len()))
    }
}
