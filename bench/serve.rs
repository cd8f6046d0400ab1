//! The loads of serve.cpp by the client in Rust, or over std's heap. bench/serve calls it, with the same words but `echo`.

#[allow(dead_code)]
#[path = "../clients/rust/ppq_client.rs"]
mod ppq_client;

use ppq_client::{Ended, Order, Queue};
use std::cmp::Reverse;
use std::collections::BinaryHeap;
use std::process::Command;
use std::time::Instant;

type Record = [u64; 2];

struct Random(u64);

impl Random {
    fn next(&mut self) -> u64 {
        self.0 ^= self.0 << 13;
        self.0 ^= self.0 >> 7;
        self.0 ^= self.0 << 17;
        self.0
    }
}

/// A server behind the client, or a heap.
enum Records {
    Server(Queue<2>),
    Heap(BinaryHeap<Reverse<Record>>),
}

impl Records {
    fn push(&mut self, records: &[Record]) -> Result<(), Ended> {
        match self {
            Records::Server(queue) => queue.push_many(records),
            Records::Heap(heap) => Ok(heap.extend(records.iter().copied().map(Reverse))),
        }
    }

    fn pop(&mut self, records: &mut Vec<Record>, count: usize) -> Result<(), Ended> {
        records.clear();
        match self {
            Records::Server(queue) => queue.pop_many(count, records).map(|_| ()),
            Records::Heap(heap) => Ok(records.extend((0..count).map_while(|_| heap.pop()).map(|least| least.0))),
        }
    }

    fn close(self) -> Result<(), Ended> {
        match self {
            Records::Server(queue) => queue.close(),
            Records::Heap(_) => Ok(()),
        }
    }
}

fn sum_of(sum: u64, records: &[Record]) -> u64 {
    records.iter().fold(sum, |sum, record| sum.wrapping_mul(31).wrapping_add(record[0]).wrapping_add(record[1]))
}

fn run(load: &str, queue: &mut Records, count: usize, batch: usize) -> Result<u64, Ended> {
    let (mut random, mut records, mut sum, mut at) = (Random(7), Vec::new(), 0, 0);
    while at < count {
        records = (0..batch.min(count - at)).map(|_| [random.next() >> 16, random.next()]).collect();
        queue.push(&records)?;
        at += records.len();
    }
    while load == "through" && !records.is_empty() {
        queue.pop(&mut records, batch)?;
        sum = sum_of(sum, &records);
    }
    at = 0;
    while load == "held" && at < count {
        queue.pop(&mut records, batch.min(count - at))?;
        sum = sum_of(sum, &records);
        for record in &mut records {
            *record = [record[0] + (random.next() >> 16), random.next()];
        }
        queue.push(&records)?;
        at += records.len();
    }
    Ok(sum)
}

fn main() -> Result<(), Ended> {
    let words: Vec<String> = std::env::args().collect();
    let (count, batch) = (words[2].parse().expect("a number"), words[3].parse().expect("a number"));
    let begin = Instant::now();
    let mut queue = match words[4].as_str() {
        "heap" => Records::Heap(BinaryHeap::new()),
        server => Records::Server(Queue::open(Command::new(server).args(&words[5..]), Order::Up)?),
    };
    let sum = run(&words[1], &mut queue, count, batch)?;
    queue.close()?;
    println!("{:.6} {sum:016x}", begin.elapsed().as_secs_f64());
    Ok(())
}
