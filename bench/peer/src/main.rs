//! The plain peer of `crq_hold`: the same words and the same two lines, over one sorted vector behind a lock.
//!
//! Several threads share one queue of events. Each of them makes holds: it takes the least event and puts it back
//! with a later time and the same load. Which thread gets which event depends on the schedule, but the loads that
//! are pending in the end do not, nor does the number of holds.

mod draws;

use draws::Draws;
use std::process::ExitCode;
use std::sync::{Mutex, MutexGuard};
use std::thread;

/// The most threads that may share the queue.
const THREADS: u64 = 16;
/// The most events that may be pending.
const PENDING: u64 = 256;

/// The most ticks per hold.
const STEP: u64 = 1024;

/// One pending event. Events are compared field by field, from the first to the last.
#[derive(Clone, Copy, PartialEq, Eq, PartialOrd, Ord)]
struct Event {
    /// When the event is due.
    time: u32,
    /// The thread that put it, numbered from 0.
    source: u32,
    /// How many events that thread had put before.
    number: u64,
    /// What it carries.
    load: u64,
}

/// The shared queue: its events from the greatest to the least, so that the least is popped.
struct Queue(Mutex<Vec<Event>>);

impl Queue {
    /// An empty queue, with room for so many events.
    fn with_room(events: u64) -> Queue {
        Queue(Mutex::new(Vec::with_capacity(events as usize)))
    }

    /// Locks the events.
    fn events(&self) -> MutexGuard<'_, Vec<Event>> {
        self.0.lock().expect("no thread panics under the lock")
    }

    /// Puts an event at its place.
    fn put(&self, event: Event) {
        let mut events = self.events();
        let place = events.partition_point(|other| *other > event);
        events.insert(place, event);
    }

    /// Takes the least event, if there is one.
    fn take(&self) -> Option<Event> {
        self.events().pop()
    }

    /// Takes the least event, and waits for one while the other threads have them all.
    fn take_surely(&self) -> Event {
        loop {
            if let Some(event) = self.take() {
                return event;
            }
            thread::yield_now();
        }
    }
}

/// What one thread keeps for itself.
struct Source {
    /// The thread's number.
    thread: u32,
    /// How many events it has put.
    count: u64,
    /// Where its increments come from.
    draws: Draws,
}

impl Source {
    /// The source of this thread, before its first event.
    fn new(thread: u32, seed: u64) -> Source {
        let draws = Draws(seed.wrapping_add(1 + u64::from(thread)));
        Source {
            thread,
            count: 0,
            draws,
        }
    }

    /// Puts an event under the next number of this source.
    fn put(&mut self, queue: &Queue, time: u32, load: u64) {
        let (source, number) = (self.thread, self.count);
        self.count += 1;
        queue.put(Event {
            time,
            source,
            number,
            load,
        });
    }

    /// Takes the least event and puts its load back, 1 to `span` ticks later.
    fn hold(&mut self, queue: &Queue, span: u32) {
        let least = queue.take_surely();
        let time = least.time.saturating_add(1 + self.draws.below(span));
        self.put(queue, time, least.load);
    }
}

/// The words of one run.
struct Words {
    threads: u64,
    pending: u64,
    holds: u64,
    seed: u64,
    /// How many ticks a new event can fall on, and how many ticks later an event can be put back.
    span: u32,
}

impl Words {
    /// Reads the five words, if each is a number in its range.
    fn read(words: &[String]) -> Option<Words> {
        let [threads, pending, holds, seed, step] = words else {
            return None;
        };
        let pending = number(pending, 1, PENDING)?;
        Some(Words {
            threads: number(threads, 1, THREADS)?,
            pending,
            holds: number(holds, 0, u64::MAX)?,
            seed: number(seed, 0, u64::MAX)?,
            span: (2 * number(step, 1, STEP)? * pending) as u32,
        })
    }
}

/// Reads a number from `least` to `most`: digits alone, and no zero before them.
fn number(word: &str, least: u64, most: u64) -> Option<u64> {
    let digits = word.bytes().all(|byte| byte.is_ascii_digit());
    if !digits || (word.len() > 1 && word.starts_with('0')) {
        return None;
    }
    let value = word.parse().ok()?;
    (least..=most).contains(&value).then_some(value)
}

/// Puts the first events, by one source after the other in turn.
fn fill(queue: &Queue, sources: &mut [Source], words: &Words) {
    let mut draws = Draws(words.seed);
    let threads = sources.len();
    for i in 0..words.pending as usize {
        let time = draws.below(words.span);
        let load = draws.draw();
        sources[i % threads].put(queue, time, load);
    }
}

/// Makes so many holds on each source, all sources at once, each on a thread of its own.
fn hold_all(queue: &Queue, sources: Vec<Source>, each: u64, span: u32) {
    thread::scope(|scope| {
        for mut source in sources {
            scope.spawn(move || {
                for _ in 0..each {
                    source.hold(queue, span);
                }
            });
        }
    });
}

/// Takes all events; the sum of their loads modulo 2^64.
fn drain(queue: &Queue) -> u64 {
    let mut sum = 0_u64;
    while let Some(event) = queue.take() {
        sum = sum.wrapping_add(event.load);
    }
    sum
}

/// Runs the whole model; the number of holds made, and the sum of the loads that are left.
fn run(words: &Words) -> (u64, u64) {
    let queue = Queue::with_room(words.pending);
    let mut sources: Vec<Source> = (0..words.threads as u32)
        .map(|thread| Source::new(thread, words.seed))
        .collect();
    fill(&queue, &mut sources, words);
    let each = words.holds / words.threads;
    hold_all(&queue, sources, each, words.span);
    (each * words.threads, drain(&queue))
}

fn main() -> ExitCode {
    let words: Vec<String> = std::env::args().skip(1).collect();
    let Some(words) = Words::read(&words) else {
        eprintln!("usage: hold_peer THREADS PENDING HOLDS SEED STEP, with 1 to {THREADS} threads, 1 to {PENDING} events and 1 to {STEP} ticks");
        return ExitCode::from(2);
    };
    let (holds, sum) = run(&words);
    println!("holds {holds}\nsum {sum}");
    ExitCode::SUCCESS
}
