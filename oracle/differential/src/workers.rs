//! The same work on every processor: numbers are handed out until they are used
//! up or one worker has found something.

use std::fs::File;
use std::io::Write as _;
use std::os::unix::fs::FileExt as _;
use std::sync::atomic::{AtomicBool, AtomicU64, Ordering::Relaxed};
use std::time::{Duration, Instant};
use std::{env, thread};

use crate::numbers::grouped;

/// How often a line on standard error says how far the work is.
const EVERY: Duration = Duration::from_secs(5);

/// The variable that names the file in which each worker keeps what it is at.
/// Should the call end the program, the file still says so.
pub const AT_WORK: &str = "DIFFERENTIAL_AT_WORK";

/// What one worker is at.
pub struct Note {
    file: Option<File>,
    place: u64,
}

impl Note {
    /// The worker begins with this trace.
    pub fn begin(&self, name: &str) {
        if let Some(file) = &self.file {
            // The note is a help and no result: a full disk does not stop the work.
            let _ = file.write_all_at(format!("{name:63}\n").as_bytes(), self.place);
        }
    }
}

pub struct Numbers {
    next: AtomicU64,
    end: u64,
    done: AtomicU64,
    stopped: AtomicBool,
}

impl Numbers {
    /// The next number to work on.
    pub fn next(&self) -> Option<u64> {
        if self.stopped.load(Relaxed) {
            return None;
        }
        let number = self.next.fetch_add(1, Relaxed);
        (number < self.end).then_some(number)
    }

    pub fn done(&self) {
        self.done.fetch_add(1, Relaxed);
    }

    /// No worker takes another number.
    pub fn stop(&self) {
        self.stopped.store(true, Relaxed);
    }
}

/// Runs the worker on each processor over the numbers 0 to `count` and gives
/// what each worker ended with.
pub fn work<T: Send>(
    name: &str,
    count: u64,
    worker: impl Fn(&Numbers, &Note) -> T + Sync,
) -> Vec<T> {
    let numbers = Numbers {
        next: AtomicU64::new(0),
        end: count,
        done: AtomicU64::new(0),
        stopped: AtomicBool::new(false),
    };
    let processors = thread::available_parallelism().map_or(1, usize::from);
    let begun = Instant::now();
    thread::scope(|scope| {
        let threads: Vec<_> = (0..processors)
            .map(|place| {
                let note = Note {
                    file: env::var_os(AT_WORK)
                        .and_then(|path| File::options().write(true).open(path).ok()),
                    place: 64 * place as u64,
                };
                let (numbers, worker) = (&numbers, &worker);
                scope.spawn(move || worker(numbers, &note))
            })
            .collect();
        let mut said = begun;
        while threads.iter().any(|thread| !thread.is_finished()) {
            thread::sleep(Duration::from_millis(20));
            if said.elapsed() >= EVERY {
                said = Instant::now();
                let done = grouped(numbers.done.load(Relaxed));
                let seconds = begun.elapsed().as_secs();
                // Nothing is lost where standard error is closed.
                let _ = writeln!(
                    std::io::stderr(),
                    "{name}: {done} of {} traces, {seconds} s",
                    grouped(count)
                );
            }
        }
        let ended = threads.into_iter().map(|thread| thread.join());
        ended.map(|end| end.expect("a worker ends")).collect()
    })
}
