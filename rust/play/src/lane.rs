//! One drive, asked by a few threads of its own. Nobody has to wait for it: each question owns what
//! it reads to, and an answer that nobody waits for any more is dropped. A drive that has a question
//! for longer than the patience counts as slow; from then on it is asked in the background alone,
//! one question at a time, until it answers in time.

use std::collections::VecDeque;
use std::panic::{catch_unwind, AssertUnwindSafe};
use std::sync::mpsc::{sync_channel, Receiver};
use std::sync::{Arc, Condvar, Mutex, MutexGuard, PoisonError};
use std::thread;
use std::time::{Duration, Instant};

use crate::report;

/// So many questions of one drive are under way, and so many wait, at most.
const THREADS: usize = 4;
const MOST_WAITING: usize = 64;
/// A thread that has nothing to do ends after this.
const IDLE: Duration = Duration::from_secs(10);
/// A slow drive is asked again after a pause: longer each time it is slow again soon.
const PAUSE: Duration = Duration::from_secs(1);
const LONGEST: Duration = Duration::from_secs(8);
const SOON: Duration = Duration::from_secs(60);

type Work = Box<dyn FnOnce() + Send>;

/// What is asked for: a read shows better than a look at names, which are in memory, how a drive is.
#[derive(Clone, Copy, Debug, PartialEq, Eq, PartialOrd, Ord)]
pub enum Kind {
    /// Advice to the kernel, which shows nothing.
    Advice,
    Look,
    Read,
}

#[derive(Default)]
struct State {
    waiting: VecDeque<Work>,
    /// When each question that is under way was begun, by its number.
    begun: Vec<(u64, Instant)>,
    count: u64,
    threads: usize,
    idle: usize,
    /// Since when it is slow.
    slow: Option<Instant>,
    /// What a slow drive is asked next, from when on, and the pause before that.
    question: Option<(Kind, Work)>,
    again: Option<Instant>,
    pause: Option<Duration>,
    /// When it was last well after it had been slow, and when that was last reported.
    well: Option<Instant>,
    reported: Option<Instant>,
}

pub struct Lane {
    name: String,
    patience: Duration,
    state: Mutex<State>,
    change: Condvar,
}

impl Lane {
    pub fn new(name: String, patience: Duration) -> Lane {
        Lane { name, patience, state: Mutex::default(), change: Condvar::new() }
    }

    fn lock(&self) -> MutexGuard<'_, State> {
        self.state.lock().unwrap_or_else(PoisonError::into_inner)
    }

    /// Asks the drive; none if it is slow, unless one insists, or has too much to do. The answer
    /// may come late, or never.
    pub fn ask<T: Send + 'static>(
        self: &Arc<Lane>,
        kind: Kind,
        insist: bool,
        work: impl FnOnce() -> T + Send + 'static,
    ) -> Option<Receiver<T>> {
        let (answer, coming) = sync_channel(1);
        let work: Work = Box::new(move || drop(answer.send(work())));
        let mut state = self.lock();
        if self.look(&mut state) && !insist {
            let better = state.question.as_ref().is_none_or(|(other, _)| *other <= kind);
            if better && kind > Kind::Advice {
                state.question = Some((kind, work));
            }
            self.wake(&mut state);
            return None;
        }
        if state.waiting.len() >= MOST_WAITING {
            return None;
        }
        state.waiting.push_back(work);
        self.wake(&mut state);
        if state.threads == 0 {
            // No thread can be had: who asks does it.
            let work = state.waiting.pop_back();
            drop(state);
            work.into_iter().for_each(|work| work());
        }
        Some(coming)
    }

    /// Whether the drive answers so quickly that it can be asked in passing, too: what such a
    /// question makes the kernel ask of the drive is not counted here.
    pub fn is_quick(&self) -> bool {
        let mut state = self.lock();
        let slack = self.patience / 8;
        !self.look(&mut state) && state.begun.iter().all(|(_, begun)| begun.elapsed() < slack)
    }

    /// Takes how long a question took that was asked in passing.
    pub fn took(&self, time: Duration) {
        if time > self.patience {
            let mut state = self.lock();
            self.judge(&mut state, time, false);
        }
    }

    /// Whether the drive is slow now, and since when.
    pub fn slow(&self) -> Option<Instant> {
        let mut state = self.lock();
        self.look(&mut state);
        state.slow
    }

    /// Looks whether a question is under way for too long; says whether the drive is slow.
    fn look(&self, state: &mut State) -> bool {
        let stuck = |(_, begun): &(u64, Instant)| begun.elapsed() > self.patience;
        if state.slow.is_none() && state.begun.iter().any(stuck) {
            self.is_slow(state);
        }
        state.slow.is_some()
    }

    /// From now on it is asked in the background alone. Who waits is not kept waiting.
    fn is_slow(&self, state: &mut State) {
        let now = Instant::now();
        let soon = state.well.is_some_and(|well| now - well < SOON);
        let pause = state.pause.filter(|_| soon).map_or(PAUSE, |pause| (2 * pause).min(LONGEST));
        state.waiting.clear();
        (state.slow, state.pause, state.again) = (Some(now), Some(pause), Some(now + pause));
        if state.reported.is_none_or(|reported| now - reported >= SOON) {
            state.reported = Some(now);
            let patience = self.patience.as_millis();
            report::say(format!(
                "{} does not answer within {patience} ms; films are computed from the other disks until it does",
                self.name
            ));
        }
    }

    /// Sees that somebody does what is to be done.
    fn wake(self: &Arc<Lane>, state: &mut State) {
        let todo = state.waiting.len() + usize::from(state.question.is_some());
        if todo > state.idle && state.threads < THREADS {
            let own = self.clone();
            let started = thread::Builder::new().name("drive".into()).spawn(move || own.serve());
            state.threads += usize::from(started.is_ok());
        }
        self.change.notify_one();
    }

    fn serve(&self) {
        let mut state = self.lock();
        loop {
            let (work, wait) = state.next();
            if let Some(work) = work {
                let number = state.begin();
                let was_slow = state.slow.is_some();
                drop(state);
                let _ = catch_unwind(AssertUnwindSafe(work));
                state = self.lock();
                let took = state.end(number);
                self.judge(&mut state, took, was_slow);
                continue;
            }
            state.idle += 1;
            let (woken, timeout) =
                self.change.wait_timeout(state, wait).unwrap_or_else(PoisonError::into_inner);
            state = woken;
            state.idle -= 1;
            if timeout.timed_out() && state.waiting.is_empty() && state.question.is_none() {
                state.threads -= 1;
                return;
            }
        }
    }

    /// Takes how long an answer took, to a question that was asked while it was slow or not.
    fn judge(&self, state: &mut State, took: Duration, was_slow: bool) {
        if took > self.patience {
            if state.slow.is_none() {
                self.is_slow(state);
            }
            let pause = state.pause.unwrap_or(PAUSE);
            state.again = Some(Instant::now() + pause);
            return;
        }
        let stuck = |(_, begun): &(u64, Instant)| begun.elapsed() > self.patience;
        if was_slow && state.slow.is_some() && !state.begun.iter().any(stuck) {
            (state.slow, state.question) = (None, None);
            state.well = Some(Instant::now());
        }
    }
}

impl State {
    /// What is to be done now, or how long there is nothing.
    fn next(&mut self) -> (Option<Work>, Duration) {
        if let Some(work) = self.waiting.pop_front() {
            return (Some(work), IDLE);
        }
        let Some(again) = self.again.filter(|_| self.slow.is_some()) else { return (None, IDLE) };
        let left = again.saturating_duration_since(Instant::now());
        match self.question.take_if(|_| left.is_zero()) {
            Some((_, work)) => {
                self.again = Some(Instant::now() + self.pause.unwrap_or(PAUSE));
                (Some(work), IDLE)
            }
            None if self.question.is_some() => (None, left),
            None => (None, IDLE),
        }
    }

    fn begin(&mut self) -> u64 {
        self.count += 1;
        self.begun.push((self.count, Instant::now()));
        self.count
    }

    /// How long a question took.
    fn end(&mut self, number: u64) -> Duration {
        let place = self.begun.iter().position(|(other, _)| *other == number);
        place.map_or(Duration::ZERO, |place| self.begun.swap_remove(place).1.elapsed())
    }
}

#[cfg(test)]
mod tests {
    use super::*;

    const PATIENCE: Duration = Duration::from_millis(60);

    fn lane() -> Arc<Lane> {
        Arc::new(Lane::new("a drive".into(), PATIENCE))
    }

    #[test]
    fn a_drive_that_answers_is_asked_by_all() {
        let lane = lane();
        let coming: Vec<_> =
            (0..40).filter_map(|n| lane.ask(Kind::Read, false, move || n * 2)).collect();
        let answers: Vec<i32> = coming.iter().map(|one| one.recv().unwrap()).collect();
        assert_eq!(answers, (0..40).map(|n| n * 2).collect::<Vec<_>>());
        assert_eq!(lane.slow(), None);
    }

    #[test]
    fn a_slow_drive_keeps_nobody_waiting_until_it_answers_in_time() {
        let lane = lane();
        let (end, ended) = sync_channel::<()>(0);
        let stuck = lane.ask(Kind::Read, false, move || ended.recv().is_ok()).unwrap();
        assert!(stuck.recv_timeout(2 * PATIENCE).is_err());
        assert!(lane.slow().is_some());
        assert!(lane.ask(Kind::Read, false, || ()).is_none());
        drop(end); // it answers again: what was asked last is asked in the background
        let begun = Instant::now();
        while lane.slow().is_some() && begun.elapsed() < 4 * PAUSE {
            thread::sleep(PATIENCE);
        }
        assert_eq!(lane.slow(), None);
        assert_eq!(lane.ask(Kind::Read, false, || 7).unwrap().recv(), Ok(7));
    }

    #[test]
    fn what_waits_for_a_stuck_drive_is_let_go_and_is_not_much() {
        let lane = lane();
        let (end, ended) = sync_channel::<()>(0);
        let ended = Arc::new(Mutex::new(ended));
        let ask = || {
            let ended = ended.clone();
            lane.ask(Kind::Read, false, move || ended.lock().is_ok_and(|one| one.recv().is_ok()))
        };
        let coming: Vec<_> = (0..200).filter_map(|_| ask()).collect();
        assert!(coming.len() <= THREADS + MOST_WAITING);
        thread::sleep(2 * PATIENCE);
        assert!(lane.slow().is_some());
        assert_eq!(lane.lock().waiting.len(), 0);
        drop(end);
    }
}
