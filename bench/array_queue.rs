//! The shapes of crates/dp_bench over crossbeam's own `ArrayQueue`, with the same back-off: one queue in place of the lane,
//! two in place of the ring. Two workers keep no order there, as nothing in a queue does, so their items are added up.
use crossbeam_queue::ArrayQueue;
use crossbeam_utils::Backoff;
use std::sync::atomic::{AtomicU64, Ordering::Relaxed};
use std::thread::scope;

const PLACES: usize = 64;

fn send(to: &ArrayQueue<u64>, item: u64, backoff: &Backoff) {
    while to.push(item).is_err() {
        backoff.snooze();
    }
    backoff.reset();
}

fn take(from: &ArrayQueue<u64>, backoff: &Backoff) -> u64 {
    loop {
        if let Some(item) = from.pop() {
            backoff.reset();
            return item;
        }
        backoff.snooze();
    }
}

fn produce(count: u64, to: &ArrayQueue<u64>) {
    let backoff = Backoff::new();
    (0..count).for_each(|item| send(to, item, &backoff));
}

fn work(count: u64, drawn: &AtomicU64, from: &ArrayQueue<u64>, to: &ArrayQueue<u64>) {
    let backoff = Backoff::new();
    while drawn.fetch_add(1, Relaxed) < count {
        send(to, take(from, &backoff), &backoff);
    }
}

fn consume(count: u64, from: &ArrayQueue<u64>, is_ordered: bool) {
    let backoff = Backoff::new();
    let mut sum = 0;
    for next in 0..count {
        let item = take(from, &backoff);
        assert!(item == next || !is_ordered);
        sum += item;
    }
    assert_eq!(sum, (0..count).sum());
}

fn main() {
    let words: Vec<String> = std::env::args().skip(1).collect();
    let count = words[1].parse().expect("a number of items");
    let workers = match words[0].as_str() {
        "lane" => 0,
        "one-worker" => 1,
        "two-workers" => 2,
        _ => panic!("no such shape"),
    };
    let (inward, outward) = (ArrayQueue::new(PLACES), ArrayQueue::new(PLACES));
    let last = if workers == 0 { &inward } else { &outward };
    let drawn = AtomicU64::new(0);
    scope(|threads| {
        threads.spawn(|| produce(count, &inward));
        for _ in 0..workers {
            threads.spawn(|| work(count, &drawn, &inward, &outward));
        }
        consume(count, last, workers < 2);
    });
}
