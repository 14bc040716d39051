//! Work by a few threads: checksums are computed while other disks are read.

use std::sync::Mutex;
use std::thread;

/// Does all jobs by as many threads as there are memories, each with its own; the results come in
/// any order. The memories are the caller's, who keeps them for the next time.
pub fn each<J: Send, R: Send, M: Send>(
    memories: &mut [M],
    jobs: Vec<J>,
    work: impl Fn(J, &mut M) -> R + Sync,
) -> Vec<R> {
    let threads = memories.len().min(jobs.len()).max(1);
    let (jobs, done) = (Mutex::new(jobs.into_iter()), Mutex::new(Vec::new()));
    let turn = |memory: &mut M| loop {
        let Some(job) = jobs.lock().ok().and_then(|mut jobs| jobs.next()) else { break };
        let result = work(job, memory);
        if let Ok(mut done) = done.lock() {
            done.push(result);
        }
    };
    let turn = &turn;
    thread::scope(|scope| {
        let mut memories = memories.iter_mut().take(threads);
        let own = memories.next();
        for memory in memories {
            // Where no second thread can be had, the first does all.
            let _ = thread::Builder::new().spawn_scoped(scope, move || turn(memory));
        }
        own.into_iter().for_each(turn);
    });
    done.into_inner().unwrap_or_default()
}

#[cfg(test)]
mod tests {
    #[test]
    fn every_job_is_done_once() {
        let mut done = super::each(&mut [0; 4], (0..100).collect(), |job: u32, _| job * 2);
        done.sort();
        assert!(done.into_iter().eq((0..100).map(|job| job * 2)));
    }
}
