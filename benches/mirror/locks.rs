//! The same document and the same reads as in main.rt.in, in a `BTreeMap` behind std's `Mutex` and `RwLock`.
use std::collections::BTreeMap;
use std::sync::{Arc, Mutex, RwLock};
use std::thread;
use std::time::{Duration, Instant};

const KEYS: [&str; 16] = [
    "k0000", "k0001", "k0002", "k0003", "k0004", "k0005", "k0006", "k0007", "k0008", "k0009",
    "k0010", "k0011", "k0012", "k0013", "k0014", "k0015",
];
const MILLIS: u128 = 2_000;

#[allow(dead_code)]
#[derive(Clone)]
enum Scalar {
    Word(String),
    Int(i64),
    Flag(bool),
}

#[derive(Default)]
struct Document {
    version: u64,
    entries: BTreeMap<String, Scalar>,
}

impl Document {
    fn read(&self, key: &str) -> (u64, Option<Scalar>) {
        (self.version, self.entries.get(key).cloned())
    }

    fn change(&mut self, key: String, version: u64) {
        self.version = version;
        self.entries.insert(key, Scalar::Int(version as i64));
    }
}

trait Shared: Default + Send + Sync + 'static {
    fn read(&self, key: &str) -> (u64, Option<Scalar>);
    fn change(&self, key: String, version: u64);
}

impl Shared for Mutex<Document> {
    fn read(&self, key: &str) -> (u64, Option<Scalar>) {
        self.lock().unwrap().read(key)
    }

    fn change(&self, key: String, version: u64) {
        self.lock().unwrap().change(key, version);
    }
}

impl Shared for RwLock<Document> {
    fn read(&self, key: &str) -> (u64, Option<Scalar>) {
        RwLock::read(self).unwrap().read(key)
    }

    fn change(&self, key: String, version: u64) {
        self.write().unwrap().change(key, version);
    }
}

fn read<S: Shared>(shared: &S, start: Instant) -> u64 {
    let mut reads = 0;
    loop {
        for _ in 0..64 {
            for key in KEYS {
                std::hint::black_box(shared.read(key));
                reads += 1;
            }
        }
        if start.elapsed().as_millis() >= MILLIS {
            return reads;
        }
    }
}

fn write<S: Shared>(shared: &S, start: Instant) -> u64 {
    let mut published = 0;
    loop {
        let passed = start.elapsed().as_millis();
        if passed >= MILLIS {
            return published;
        }
        if u128::from(published) <= passed {
            shared.change(format!("k{:04}", published % 16), published + 17);
            published += 1;
        } else {
            thread::sleep(Duration::from_micros(100));
        }
    }
}

fn run<S: Shared>(name: &str, readers: usize) {
    let shared = Arc::new(S::default());
    for (version, key) in (1..).zip(KEYS) {
        shared.change(key.to_string(), version);
    }
    let start = Instant::now();
    let threads: Vec<_> = (0..readers)
        .map(|_| {
            let shared = shared.clone();
            thread::spawn(move || read(&*shared, start))
        })
        .collect();
    let published = write(&*shared, start);
    let reads: u64 = threads.into_iter().map(|thread| thread.join().unwrap()).sum();
    let rate = u128::from(reads) * 1_000 / MILLIS;
    println!("{name}, {readers} readers: {rate} reads a second, {published} publishes");
}

fn main() {
    for readers in [1, 2, 4] {
        run::<Mutex<Document>>("Mutex", readers);
        run::<RwLock<Document>>("RwLock", readers);
    }
}
