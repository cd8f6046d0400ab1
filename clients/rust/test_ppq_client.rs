//! Random operations of ppq_client.rs against std's heap, and ends. Arguments: the words of a server that spills.

mod ppq_client;

use ppq_client::{Order, Queue};
use std::cmp::Reverse;
use std::collections::BinaryHeap;
use std::process::Command;

const STEPS: usize = 3_000;
const MANY: usize = 100_000;

struct Random(u64);

impl Random {
    fn next(&mut self) -> u64 {
        self.0 ^= self.0 << 13;
        self.0 ^= self.0 >> 7;
        self.0 ^= self.0 << 17;
        self.0
    }

    fn below(&mut self, bound: u64) -> u64 {
        (self.next() >> 11) % bound
    }

    fn record<const N: usize>(&mut self) -> [u64; N] {
        let small = self.below(2) == 0;
        std::array::from_fn(|_| if small { self.below(40) } else { self.next() })
    }

    fn records<const N: usize>(&mut self, count: usize) -> Vec<[u64; N]> {
        (0..count).map(|_| self.record()).collect()
    }
}

/// std's heap gives the greatest first, so each number is turned round where the order is up.
struct Model<const N: usize> {
    order: Order,
    heap: BinaryHeap<Reverse<[u64; N]>>,
}

impl<const N: usize> Model<N> {
    fn key(&self, record: [u64; N]) -> [u64; N] {
        if self.order == Order::Up { record } else { record.map(|number| !number) }
    }

    fn push(&mut self, record: [u64; N]) {
        self.heap.push(Reverse(self.key(record)));
    }

    fn top(&self) -> Option<[u64; N]> {
        self.heap.peek().map(|least| self.key(least.0))
    }

    fn pop(&mut self) -> Option<[u64; N]> {
        self.heap.pop().map(|least| self.key(least.0))
    }

    fn has_below(&self, limit: [u64; N]) -> bool {
        self.heap.peek().is_some_and(|least| least.0 < self.key(limit))
    }

    fn pop_many(&mut self, count: usize) -> Vec<[u64; N]> {
        (0..count).map_while(|_| self.pop()).collect()
    }

    fn pop_below(&mut self, limit: [u64; N], count: usize) -> Vec<[u64; N]> {
        (0..count).map_while(|_| if self.has_below(limit) { self.pop() } else { None }).collect()
    }
}

fn step<const N: usize>(queue: &mut Queue<N>, model: &mut Model<N>, random: &mut Random) {
    let count = random.below(60) as usize;
    let mut popped = Vec::new();
    match random.below(6) {
        0 => {
            let record = random.record();
            queue.push(record).unwrap();
            model.push(record);
        }
        1 => {
            let records = random.records(count);
            queue.push_many(&records).unwrap();
            records.into_iter().for_each(|record| model.push(record));
        }
        2 => assert_eq!(queue.pop().unwrap(), model.pop()),
        3 => assert_eq!(queue.top().unwrap(), model.top()),
        4 => {
            let wanted = model.pop_many(count / 2);
            assert_eq!(queue.pop_many(count / 2, &mut popped).unwrap(), wanted.len());
            assert_eq!(popped, wanted);
        }
        _ => {
            let limit = random.record();
            let all = queue.pop_below(limit, count / 2, &mut popped).unwrap();
            assert_eq!(popped, model.pop_below(limit, count / 2));
            assert_eq!(all, !model.has_below(limit));
        }
    }
    assert_eq!(queue.len(), model.heap.len() as u64);
}

/// Random operations, and then more records than one request holds, all of which are popped.
fn compare<const N: usize>(words: &[String], order: Order) {
    let mut queue = Queue::<N>::open(Command::new(&words[0]).args(&words[1..]), order).unwrap();
    let mut model = Model { order, heap: BinaryHeap::new() };
    let mut random = Random(1);
    for _ in 0..STEPS {
        step(&mut queue, &mut model, &mut random);
    }
    let many = random.records(MANY);
    queue.push_many(&many).unwrap();
    many.into_iter().for_each(|record| model.push(record));
    let mut popped = Vec::new();
    queue.pop_many(usize::MAX, &mut popped).unwrap();
    assert_eq!(popped, model.pop_many(usize::MAX));
    assert!(queue.is_empty() && queue.pop().unwrap().is_none() && queue.top().unwrap().is_none());
    queue.close().unwrap();
}

/// A server that is none, and one that ends at once.
fn ends() {
    let none = Queue::<2>::open(&mut Command::new("/nowhere/ppq_serve"), Order::Up).err().unwrap();
    assert!(none.status.is_none() && !none.report.is_empty());
    let refuses = Queue::<2>::open(&mut Command::new("false"), Order::Up).err().unwrap();
    assert_eq!(refuses.status, Some(1));
}

fn main() {
    let words: Vec<String> = std::env::args().skip(1).collect();
    ends();
    for order in [Order::Up, Order::Down] {
        compare::<2>(&words, order);
        compare::<3>(&words, order);
    }
}
