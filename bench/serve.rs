// A client of memcached's text protocol that counts what a server answers: `serve PORT fill`, or `serve PORT MEASURE CONNECTIONS
// MILLISECONDS`, which prints how many operations were answered and in how many nanoseconds. Each connection has a thread.
use std::io::{Read, Write};
use std::net::TcpStream;
use std::sync::atomic::{AtomicBool, Ordering};
use std::time::{Duration, Instant};

const KEYS: u64 = 10_000;
const KEY_LENGTH: usize = 12;
const SMALL: usize = 100;
const LARGE_KEYS: u64 = 8;
const LARGE: usize = 1 << 20;
const BATCH: u64 = 100;

fn key(number: u64) -> String {
    format!("key-{:08}", number % KEYS)
}

fn large_key(number: u64) -> String {
    format!("large-{}", number % LARGE_KEYS)
}

/// How many bytes show a value.
fn shown(name: usize, size: usize) -> usize {
    "VALUE  0 \r\n\r\n".len() + name + size.to_string().len() + size
}

struct Connection {
    stream: TcpStream,
    buffer: Vec<u8>,
    dice: u64,
}

impl Connection {
    fn new(port: u16, seed: u64) -> Connection {
        let stream = TcpStream::connect(("127.0.0.1", port)).expect("nobody listens");
        stream.set_nodelay(true).expect("no delay");
        stream.set_read_timeout(Some(Duration::from_secs(10))).expect("a bound for reads");
        Connection { stream, buffer: vec![0; 1 << 21], dice: seed * 2 + 1 }
    }

    fn roll(&mut self) -> u64 {
        self.dice = self.dice.wrapping_mul(6364136223846793005).wrapping_add(1442695040888963407);
        self.dice >> 33
    }

    /// Reads so many bytes. A value that is missing shows, since then fewer come.
    fn await_bytes(&mut self, mut count: usize) {
        while count > 0 {
            let most = count.min(self.buffer.len());
            let came = self.stream.read(&mut self.buffer[..most]).expect("fewer bytes came than are owed");
            assert!(came > 0, "the connection ended");
            count -= came;
        }
    }

    fn set(&mut self, name: &str, bytes: &[u8]) {
        let mut text = format!("set {name} 0 0 {}\r\n", bytes.len()).into_bytes();
        text.extend_from_slice(bytes);
        text.extend_from_slice(b"\r\n");
        self.stream.write_all(&text).expect("write");
        self.await_bytes("STORED\r\n".len());
    }

    fn get(&mut self, name: &str, size: usize) {
        self.stream.write_all(format!("get {name}\r\n").as_bytes()).expect("write");
        self.await_bytes(shown(name.len(), size) + "END\r\n".len());
    }

    /// One turn of a measure, and how many operations it was.
    fn turn(&mut self, measure: &str, small: &[u8], large: &[u8]) -> u64 {
        let number = self.roll();
        match measure {
            "mixed" if self.roll() % 10 == 0 => self.set(&key(number), small),
            "mixed" => self.get(&key(number), SMALL),
            "pipeline" => {
                let text: String = (0..BATCH).map(|at| format!("get {}\r\n", key(number + at * 7))).collect();
                self.stream.write_all(text.as_bytes()).expect("write");
                self.await_bytes(BATCH as usize * (shown(KEY_LENGTH, SMALL) + "END\r\n".len()));
                return BATCH;
            }
            "keys" => {
                let names: String = (0..BATCH).map(|at| format!(" {}", key(number + at * 7))).collect();
                self.stream.write_all(format!("get{names}\r\n").as_bytes()).expect("write");
                self.await_bytes(BATCH as usize * shown(KEY_LENGTH, SMALL) + "END\r\n".len());
                return BATCH;
            }
            "large" if self.roll() % 10 == 0 => self.set(&large_key(number), large),
            "large" => self.get(&large_key(number), LARGE),
            _ => panic!("there is no measure {measure}"),
        }
        1
    }
}

fn main() {
    let words: Vec<String> = std::env::args().collect();
    let port: u16 = words[1].parse().expect("a port");
    let (small, large) = (vec![b'x'; SMALL], vec![b'y'; LARGE]);
    if words[2] == "fill" {
        let mut connection = Connection::new(port, 0);
        (0..KEYS).for_each(|number| connection.set(&key(number), &small));
        (0..LARGE_KEYS).for_each(|number| connection.set(&large_key(number), &large));
        return;
    }
    let (connections, millis): (u64, u64) = (words[3].parse().expect("connections"), words[4].parse().expect("milliseconds"));
    let stop = AtomicBool::new(false);
    let (stop, small, large, measure) = (&stop, &small, &large, &words[2]);
    std::thread::scope(|scope| {
        let all: Vec<Connection> = (0..connections).map(|seed| Connection::new(port, seed)).collect();
        let began = Instant::now();
        let threads: Vec<_> = all
            .into_iter()
            .map(|mut one| {
                scope.spawn(move || {
                    let mut done = 0;
                    while !stop.load(Ordering::Relaxed) {
                        done += one.turn(measure, small, large);
                    }
                    done
                })
            })
            .collect();
        std::thread::sleep(Duration::from_millis(millis));
        stop.store(true, Ordering::Relaxed);
        let done: u64 = threads.into_iter().map(|thread| thread.join().expect("a thread")).sum();
        println!("{done} {}", began.elapsed().as_nanos());
    });
}
