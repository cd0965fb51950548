//! Sixteen threads at once, each on a state of its own, give what one gives.
mod common;

use std::sync::Barrier;
use std::thread;

use common::{all_settings, bits, heard};
use vikkozhan::PCM_SAMPLES;

const THREADS: usize = 16;

/// All that a run of twelve losses writes.
fn run(thread: usize) -> Vec<Vec<u32>> {
    let settings = all_settings()[7 * thread % 40];
    let mut concealer = heard(settings, thread as u32);
    let mut losses = Vec::new();
    for _ in 0..12 {
        let mut pcm = [0.0; PCM_SAMPLES];
        concealer.conceal(&mut pcm).unwrap();
        losses.push(bits(&concealer, &pcm));
    }
    losses
}

#[test]
fn threads_do_not_meet() {
    let alone: Vec<_> = (0..THREADS).map(run).collect();
    let start = Barrier::new(THREADS);
    let together: Vec<_> = thread::scope(|scope| {
        let start_together = |thread| {
            start.wait();
            run(thread)
        };
        let threads: Vec<_> =
            (0..THREADS).map(|thread| scope.spawn(move || start_together(thread))).collect();
        threads.into_iter().map(|thread| thread.join().unwrap()).collect()
    });
    assert!(alone == together);
}
