//! The threads of a run: one reads the table in batches of lines, workers judge them, and the caller takes what comes of
//! them in the order of the table.
//!
//! Memory is bounded whatever the speed of each: the reader waits where [`AHEAD`] batches for each worker are not taken,
//! and a worker waits where the caller has yet to take two pieces of its batch. The earliest batch that is not taken
//! whole is always in the hands of a worker, so nobody waits in a circle.

use super::check::{Checker, Wanted};
use super::outcome::Told;
use super::summary::Tally;
use super::table::{Line, Table};
use crate::signals;
use base::{Failure, Status};
use std::io::{self, Read};
use std::sync::atomic::{AtomicUsize, Ordering};
use std::sync::mpsc::{sync_channel, Receiver, RecvTimeoutError, SyncSender};
use std::sync::{Arc, Mutex};
use std::thread;
use std::time::{Duration, Instant};

/// How many batches are read ahead for each worker.
const AHEAD: usize = 4;
/// How many pieces of a batch are handed over ahead.
const PIECES: usize = 2;
/// The most lines of a batch.
const MOST_LINES: usize = 1024;
/// The bytes with which a batch is full.
const BATCH_BYTES: usize = 64 << 10;
/// The bytes of lines to be told with which a piece is full.
const PIECE_BYTES: usize = 16 << 10;
/// How long a worker keeps what it found.
const PROMPT: Duration = Duration::from_millis(50);
/// A batch that takes less makes the next ones longer; one that takes ten times as long makes them shorter.
const BRIEF: Duration = Duration::from_millis(3);
/// The stack of each thread; a call of the library needs a part of it.
const STACK: usize = 1 << 20;
const _: () = assert!(STACK >= 4 * judge::STACK_BYTES);

/// What came of lines that follow one another.
pub struct Piece {
    /// How many came out how.
    pub tally: Tally,
    /// Those that are to be told of.
    pub told: Vec<Told>,
    /// The number of the last line.
    pub last: u64,
    /// How many bytes of the table are read with it.
    pub end: u64,
    /// About how many bytes are to be told.
    size: usize,
    /// Whether it is the last of its batch.
    is_last: bool,
}

impl Piece {
    fn new() -> Piece {
        Piece {
            tally: Tally::new(),
            told: Vec::new(),
            last: 0,
            end: 0,
            size: 0,
            is_last: false,
        }
    }

    fn add(&mut self, line: &Line, told: Option<Told>) {
        (self.last, self.end) = (line.number, line.end);
        let Some(told) = told else { return };
        self.tally.add(&told.outcome);
        if !told.outcome.why.is_empty() || told.shown.is_some() {
            self.size += told.size();
            self.told.push(told);
        }
    }
}

/// Lines for a worker, and where what comes of them goes.
struct Batch {
    lines: Vec<Line>,
    bytes: usize,
    pieces: SyncSender<Piece>,
}

/// What the reader hands to the caller, in order.
enum Ordered {
    /// What comes of a batch.
    Batch(Receiver<Piece>),
    /// The table cannot be read any further.
    Unreadable(io::Error),
}

/// What comes next.
pub enum Next {
    /// A piece.
    Piece(Piece),
    /// Nothing yet.
    Waiting,
    /// Nothing more: all lines of the table are judged.
    End,
    /// Nothing more: the table cannot be read any further.
    Unreadable(io::Error),
    /// Nothing more: a worker has given up, since a signal was caught, or by an error in desk.
    Lost,
}

/// What comes of a table, in its order.
pub struct Results {
    order: Receiver<Ordered>,
    batch: Option<Receiver<Piece>>,
}

impl Results {
    /// What comes next, which is waited for, but no longer than this.
    pub fn next(&mut self, wait: Duration) -> Next {
        let Some(batch) = &self.batch else {
            match self.order.recv_timeout(wait) {
                Ok(Ordered::Batch(batch)) => self.batch = Some(batch),
                Ok(Ordered::Unreadable(error)) => return Next::Unreadable(error),
                Err(RecvTimeoutError::Timeout) => return Next::Waiting,
                Err(RecvTimeoutError::Disconnected) => return Next::End,
            }
            return self.next(wait);
        };
        match batch.recv_timeout(wait) {
            Ok(piece) => {
                if piece.is_last {
                    self.batch = None;
                }
                Next::Piece(piece)
            }
            Err(RecvTimeoutError::Timeout) => Next::Waiting,
            Err(RecvTimeoutError::Disconnected) => Next::Lost,
        }
    }
}

/// How many lines a batch has: few where they take long, so that workers share them evenly.
struct Pace(AtomicUsize);

impl Pace {
    fn lines(&self) -> usize {
        self.0.load(Ordering::Relaxed)
    }

    fn learn(&self, lines: usize, time: Duration) {
        if time < BRIEF && lines >= self.lines() {
            self.0.store((2 * lines).min(MOST_LINES), Ordering::Relaxed);
        } else if time > 10 * BRIEF {
            self.0.store((lines / 2).max(1), Ordering::Relaxed);
        }
    }
}

/// Starts the threads that read and judge a table.
pub fn start(source: impl Read + Send + 'static, wanted: &Wanted, workers: usize) -> Result<Results, Failure> {
    let (to_caller, order) = sync_channel(AHEAD * workers);
    let (to_workers, batches) = sync_channel(AHEAD * workers);
    let batches = Arc::new(Mutex::new(batches));
    let pace = Arc::new(Pace(AtomicUsize::new(1)));
    for _ in 0..workers {
        let (batches, pace, checker) = (batches.clone(), pace.clone(), Checker::new(wanted.clone()));
        spawn(move || work(&batches, checker, &pace))?;
    }
    let reader = Reader {
        lines: Vec::new(),
        bytes: 0,
        to_caller,
        to_workers,
        pace,
    };
    spawn(move || drop(reader.read(Table::new(source))))?;
    Ok(Results { order, batch: None })
}

/// Starts a thread. Nobody waits for its end: the process ends when the caller has all it wants.
fn spawn(run: impl FnOnce() + Send + 'static) -> Result<(), Failure> {
    let thread = thread::Builder::new().stack_size(STACK).spawn(run);
    let failed = |error| Failure::new(Status::System, format!("a thread cannot be started ({error})"));
    thread.map(drop).map_err(failed)
}

/// The caller takes no more.
struct Gone;

/// Cuts a table into batches.
struct Reader {
    lines: Vec<Line>,
    bytes: usize,
    to_caller: SyncSender<Ordered>,
    to_workers: SyncSender<Batch>,
    pace: Arc<Pace>,
}

impl Reader {
    fn read(mut self, mut table: Table<impl Read>) -> Result<(), Gone> {
        loop {
            while let Some(line) = table.next_line() {
                self.add(line)?;
            }
            // The next part may have to be waited for, and the lines so far shall not.
            self.send()?;
            match table.read_on() {
                Ok(true) => {}
                Ok(false) => break,
                Err(error) => return self.to_caller.send(Ordered::Unreadable(error)).map_err(|_| Gone),
            }
        }
        if let Some(line) = table.last_line() {
            self.add(line)?;
        }
        self.send()
    }

    fn add(&mut self, line: Line) -> Result<(), Gone> {
        self.bytes += line.bytes.len();
        self.lines.push(line);
        if self.lines.len() >= self.pace.lines() || self.bytes >= BATCH_BYTES {
            self.send()?;
        }
        Ok(())
    }

    /// Hands the lines to a worker, and what comes of them to the caller.
    fn send(&mut self) -> Result<(), Gone> {
        if self.lines.is_empty() {
            return Ok(());
        }
        let (pieces, results) = sync_channel(PIECES);
        let lines = std::mem::take(&mut self.lines);
        let bytes = std::mem::take(&mut self.bytes);
        self.to_caller.send(Ordered::Batch(results)).map_err(|_| Gone)?;
        let batch = Batch { lines, bytes, pieces };
        self.to_workers.send(batch).map_err(|_| Gone)
    }
}

/// Judges batches as long as there are some.
fn work(batches: &Mutex<Receiver<Batch>>, mut checker: Checker, pace: &Pace) {
    loop {
        let next = match batches.lock() {
            Ok(batches) => batches.recv(),
            Err(_) => return,
        };
        let Ok(batch) = next else { return };
        let begun = Instant::now();
        if judge_batch(&batch, &mut checker, begun).is_err() {
            return;
        }
        if batch.bytes < BATCH_BYTES {
            pace.learn(batch.lines.len(), begun.elapsed());
        }
    }
}

/// Judges the lines of a batch, and hands over what comes of them while they are judged.
fn judge_batch(batch: &Batch, checker: &mut Checker, begun: Instant) -> Result<(), Gone> {
    let mut piece = Piece::new();
    let mut handed = begun;
    for line in &batch.lines {
        if signals::caught() {
            return Err(Gone);
        }
        piece.add(line, checker.check(line));
        if piece.size >= PIECE_BYTES || handed.elapsed() >= PROMPT {
            let full = std::mem::replace(&mut piece, Piece::new());
            batch.pieces.send(full).map_err(|_| Gone)?;
            handed = Instant::now();
        }
    }
    let end = batch.lines.last().map_or((0, 0), |line| (line.number, line.end));
    (piece.last, piece.end) = end;
    piece.is_last = true;
    batch.pieces.send(piece).map_err(|_| Gone)
}
