//! A priority queue that outgrows memory, in a child process: ppq-serve, spoken to in frames (docs/serve.md).
//!
//! ```no_run
//! let mut queue = Queue::<2>::open(Command::new("ppq_serve").args(sizes), Order::Up)?;
//! queue.push([5, 1])?;
//! queue.push_many(&[[3, 9], [7, 2]])?;
//! assert_eq!(queue.pop()?, Some([3, 9]));
//! assert_eq!(queue.len(), 2);
//! queue.close()?;
//! ```
//!
//! One file, std alone. A record is `[u64; 2]` or `[u64; 3]`, and the order is that of whole arrays. If the server ends, a
//! call gives `Ended` with its status and the line that it wrote; the records are gone then, and each later call gives
//! the same again.

use std::fmt;
use std::io::{BufReader, Read, Write};
use std::process::{Child, ChildStdin, ChildStdout, Command, Stdio};

/// Records that one request adds or takes at most.
const ROUND: usize = 65_536;
/// Bytes of pushes that are gathered before they are sent.
const GATHERED: usize = 65_536;
/// Bytes of answers that are read at once.
const ANSWERS: usize = 65_536;

/// Which record comes out first.
#[derive(Clone, Copy, Debug, PartialEq, Eq)]
pub enum Order {
    /// The least.
    Up,
    /// The greatest.
    Down,
}

/// The server has ended, or could not be started.
#[derive(Clone, Debug, PartialEq, Eq)]
pub struct Ended {
    /// Its exit status; none where a signal ended it, or where it could not be started.
    pub status: Option<i32>,
    /// The line that it wrote, or why it could not be started.
    pub report: String,
}

impl fmt::Display for Ended {
    fn fmt(&self, out: &mut fmt::Formatter<'_>) -> fmt::Result {
        match self.status {
            Some(status) => write!(out, "ppq-serve ended with status {status}: {}", self.report),
            None => write!(out, "ppq-serve ended: {}", self.report),
        }
    }
}

impl std::error::Error for Ended {}

/// A server that runs, and the ends of its pipes on this side.
struct Server {
    child: Child,
    requests: ChildStdin,
    answers: BufReader<ChildStdout>,
}

impl Server {
    /// Closes its input, waits for its end, and says how it ended.
    fn wait(self) -> Ended {
        let Server { mut child, requests, mut answers } = self;
        drop(requests);
        let mut report = String::new();
        let _ = std::io::copy(&mut answers, &mut std::io::sink());
        if let Some(mut errors) = child.stderr.take() {
            let _ = errors.read_to_string(&mut report);
        }
        let status = child.wait().ok().and_then(|status| status.code());
        Ended { status, report: report.trim_end().to_string() }
    }
}

/// What the answer to a request has beside records.
struct Answer {
    /// How many records it has.
    records: usize,
    /// Its letter, if it has one.
    letter: Option<u8>,
}

/// A queue of records of `N` numbers, 2 or 3, in a server.
pub struct Queue<const N: usize> {
    server: Result<Server, Ended>,
    /// Operations that push, not yet sent, behind four bytes for their length.
    request: Vec<u8>,
    /// The records in them.
    gathered: u64,
    /// Records in the server's queue, as the last answer said.
    size: u64,
}

impl<const N: usize> Queue<N> {
    const KIND: &'static str = match N {
        2 => "pair",
        3 => "triple",
        _ => panic!("a record has 2 or 3 numbers"),
    };

    /// Starts the server, which the program and the arguments of `command` name, and waits until its queue is open.
    pub fn open(command: &mut Command, order: Order) -> Result<Queue<N>, Ended> {
        let started = command.stdin(Stdio::piped()).stdout(Stdio::piped()).stderr(Stdio::piped()).spawn();
        let mut child = started.map_err(|error| Ended { status: None, report: error.to_string() })?;
        let requests = child.stdin.take().expect("its input is a pipe");
        let answers = child.stdout.take().expect("its output is a pipe");
        let answers = BufReader::with_capacity(ANSWERS, answers);
        let server = Ok(Server { child, requests, answers });
        let mut queue = Queue { server, request: vec![0; 4], gathered: 0, size: 0 };
        let order = if order == Order::Up { "up" } else { "down" };
        let first = format!("ppq-serve 1 {} {order}", Self::KIND);
        queue.request.extend_from_slice(first.as_bytes());
        queue.flush()?;
        Ok(queue)
    }

    /// Adds one record. Pushes are gathered, and sent in front of the next other request.
    pub fn push(&mut self, record: [u64; N]) -> Result<(), Ended> {
        self.request.push(b'+');
        self.add(&record);
        self.gather(1)
    }

    /// Adds these records. They are gathered too, and sent once they are many.
    pub fn push_many(&mut self, records: &[[u64; N]]) -> Result<(), Ended> {
        for part in records.chunks(ROUND) {
            self.request.push(b'P');
            self.request.extend_from_slice(&(part.len() as u32).to_be_bytes());
            for record in part {
                self.add(record);
            }
            self.gather(part.len() as u64)?;
        }
        Ok(())
    }

    /// Sends the pushes that were gathered, and waits until the queue has them.
    pub fn flush(&mut self) -> Result<(), Ended> {
        if self.request.len() > 4 {
            self.ask(|_| ())?;
        }
        self.running().map(|_| ())
    }

    /// Takes the least record, if there is one. One round trip.
    pub fn pop(&mut self) -> Result<Option<[u64; N]>, Ended> {
        self.least(b'p')
    }

    /// The least record, if there is one; it stays. One round trip.
    pub fn top(&mut self) -> Result<Option<[u64; N]>, Ended> {
        self.least(b't')
    }

    /// Takes the least `count` records, or all where there are fewer, and puts them behind those of `records`. Gives how many.
    pub fn pop_many(&mut self, count: usize, records: &mut Vec<[u64; N]>) -> Result<usize, Ended> {
        let mut left = count;
        while left > 0 {
            let asked = left.min(ROUND);
            self.request.push(b'n');
            self.request.extend_from_slice(&(asked as u64).to_be_bytes());
            let got = self.ask(|record| records.push(record))?.records;
            left -= got;
            if got < asked {
                break;
            }
        }
        Ok(count - left)
    }

    /// Takes the least `count` records, or fewer, that come before `limit`, and puts them behind those of `records`. Gives
    /// whether no more come before it.
    pub fn pop_below(&mut self, limit: [u64; N], count: usize, records: &mut Vec<[u64; N]>) -> Result<bool, Ended> {
        let mut left = count;
        loop {
            let asked = left.min(ROUND);
            self.request.push(b'b');
            self.add(&limit);
            self.request.extend_from_slice(&(asked as u64).to_be_bytes());
            let answer = self.ask(|record| records.push(record))?;
            left -= answer.records;
            let all = answer.letter == Some(b'a');
            if all || left == 0 {
                return Ok(all);
            }
        }
    }

    /// How many records there are. No request is sent.
    pub fn len(&self) -> u64 {
        self.size + self.gathered
    }

    /// Whether there is none.
    pub fn is_empty(&self) -> bool {
        self.len() == 0
    }

    /// Sends what was gathered and ends the server. A queue that is dropped without it ends its server too, and forgets
    /// what was gathered.
    pub fn close(mut self) -> Result<(), Ended> {
        self.flush()?;
        match self.end() {
            Ended { status: Some(0), .. } => Ok(()),
            ended => Err(ended),
        }
    }

    fn add(&mut self, record: &[u64; N]) {
        for number in record {
            self.request.extend_from_slice(&number.to_be_bytes());
        }
    }

    fn gather(&mut self, records: u64) -> Result<(), Ended> {
        self.gathered += records;
        if self.request.len() < GATHERED {
            self.running().map(|_| ())
        } else {
            self.flush()
        }
    }

    fn least(&mut self, operation: u8) -> Result<Option<[u64; N]>, Ended> {
        self.request.push(operation);
        let mut least = None;
        self.ask(|record| least = Some(record))?;
        Ok(least)
    }

    fn running(&mut self) -> Result<&mut Server, Ended> {
        self.server.as_mut().map_err(|ended| ended.clone())
    }

    /// Waits for the end of the server, and keeps how it ended.
    fn end(&mut self) -> Ended {
        let none = Ended { status: None, report: String::new() };
        let ended = match std::mem::replace(&mut self.server, Err(none)) {
            Ok(server) => server.wait(),
            Err(ended) => ended,
        };
        self.server = Err(ended.clone());
        ended
    }

    /// Sends the request that was gathered, and reads its answer; each of its records is handed to `take`.
    fn ask(&mut self, take: impl FnMut([u64; N])) -> Result<Answer, Ended> {
        self.send_and_read(take)?.ok_or(()).or_else(|()| Err(self.end()))
    }

    /// The same; none where a pipe is closed.
    fn send_and_read(&mut self, mut take: impl FnMut([u64; N])) -> Result<Option<Answer>, Ended> {
        let mut request = std::mem::replace(&mut self.request, vec![0; 4]);
        let length = (request.len() - 4) as u32;
        request[..4].copy_from_slice(&length.to_be_bytes());
        self.gathered = 0;
        let server = self.running()?;
        if server.requests.write_all(&request).is_err() {
            return Ok(None);
        }
        let mut answer = Answer { records: 0, letter: None };
        let size = loop {
            let Some(head) = bytes::<4>(server) else { return Ok(None) };
            match u32::from_be_bytes(head) {
                8 => match bytes::<8>(server) {
                    Some(size) => break u64::from_be_bytes(size),
                    None => return Ok(None),
                },
                1 => match bytes::<1>(server) {
                    Some([letter]) => answer.letter = Some(letter),
                    None => return Ok(None),
                },
                _ => {
                    let mut record = [0; N];
                    for number in &mut record {
                        let Some(bytes) = bytes::<8>(server) else { return Ok(None) };
                        *number = u64::from_be_bytes(bytes);
                    }
                    take(record);
                    answer.records += 1;
                }
            }
        };
        request.truncate(4);
        self.request = request;
        self.size = size;
        Ok(Some(answer))
    }
}

impl<const N: usize> Drop for Queue<N> {
    fn drop(&mut self) {
        self.end();
    }
}

/// The next bytes of the answers; none where they stop.
fn bytes<const COUNT: usize>(server: &mut Server) -> Option<[u8; COUNT]> {
    let mut bytes = [0; COUNT];
    server.answers.read_exact(&mut bytes).ok().map(|()| bytes)
}
