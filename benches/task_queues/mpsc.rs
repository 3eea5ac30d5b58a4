//! The same as main.rt.in does, through std's bounded channel: blocking, and with tries that give way.
use std::sync::mpsc::{sync_channel, Receiver, SyncSender};
use std::thread;
use std::time::Instant;

const ALL: u32 = 1_600_000;

#[allow(dead_code)]
enum Request {
    Publish(u8, String, Vec<u8>),
    Subscribe(Vec<(String, u8)>),
    Unsubscribe(Vec<String>),
    Ping,
}

struct Submission {
    task: u32,
    seq: u32,
    request: Request,
}

fn send_blocking(to: SyncSender<Submission>, task: u32, each: u32) {
    for seq in 0..each {
        let _ = to.send(Submission { task, seq, request: Request::Ping });
    }
}

fn send_trying(to: SyncSender<Submission>, task: u32, each: u32) {
    let mut seq = 0;
    while seq < each {
        match to.try_send(Submission { task, seq, request: Request::Ping }) {
            Ok(()) => seq += 1,
            Err(_) => thread::yield_now(),
        }
    }
}

fn take_blocking(from: Receiver<Submission>) -> u64 {
    (0..ALL).map(|_| from.recv().map_or(0, sum)).fold(0, u64::wrapping_add)
}

fn take_trying(from: Receiver<Submission>) -> u64 {
    let mut total = 0u64;
    let mut left = ALL;
    while left > 0 {
        match from.try_recv() {
            Ok(s) => {
                total = total.wrapping_add(sum(s));
                left -= 1;
            }
            Err(_) => thread::yield_now(),
        }
    }
    total
}

fn sum(s: Submission) -> u64 {
    u64::from(s.task) + u64::from(s.seq) + u64::from(matches!(s.request, Request::Ping))
}

type Send = fn(SyncSender<Submission>, u32, u32);
type Take = fn(Receiver<Submission>) -> u64;

fn main() {
    let ways: [(&str, Send, Take); 2] = [
        ("blocking", send_blocking, take_blocking),
        ("trying", send_trying, take_trying),
    ];
    for (way, send, take) in ways {
        for senders in [1, 2, 8] {
            let start = Instant::now();
            let (to, from) = sync_channel(64);
            let threads: Vec<_> = (0..senders)
                .map(|task| {
                    let to = to.clone();
                    thread::spawn(move || send(to, task, ALL / senders))
                })
                .collect();
            let total = take(from);
            for thread in threads {
                let _ = thread.join();
            }
            let rate = u128::from(ALL) * 1_000_000 / start.elapsed().as_micros().max(1);
            println!("std mpsc, {way}, {senders} senders: {rate} submissions a second ({total})");
        }
    }
}
