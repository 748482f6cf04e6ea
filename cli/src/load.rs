//! Work on many things by several threads, told in the order in which they were given.

use crate::exit::Failure;
use std::collections::BTreeMap;
use std::sync::Mutex;
use std::sync::atomic::{AtomicUsize, Ordering};

/// What is done and waits for an earlier one; how many were told; whether telling failed, which ends the work.
struct Queue<T, F> {
    waiting: BTreeMap<usize, T>,
    told: usize,
    tell: F,
    ended: Result<(), Failure>,
}

impl<T, F: FnMut(T) -> Result<(), Failure>> Queue<T, F> {
    /// Takes what was done at a place, and tells all whose turn it is. Whether the work goes on.
    fn take(&mut self, place: usize, done: T) -> bool {
        self.waiting.insert(place, done);
        while self.ended.is_ok()
            && let Some(next) = self.waiting.remove(&self.told)
        {
            self.told += 1;
            self.ended = (self.tell)(next);
        }
        self.ended.is_ok()
    }
}

/// Does the work at places 0 up to `all` by so many threads, each with something of its own, and tells what came of it in the order of the places.
pub fn in_order<S, T: Send>(
    jobs: usize,
    all: usize,
    own: impl Fn() -> S + Sync,
    work: impl Fn(&mut S, usize) -> T + Sync,
    tell: impl FnMut(T) -> Result<(), Failure> + Send,
) -> Result<(), Failure> {
    let next = AtomicUsize::new(0);
    let queue = Mutex::new(Queue { waiting: BTreeMap::new(), told: 0, tell, ended: Ok(()) });
    let places = || Some(next.fetch_add(1, Ordering::Relaxed)).filter(|&place| place < all);
    let worker = || {
        let mut own = own();
        while let Some(place) = places() {
            let done = work(&mut own, place);
            // a lock that cannot be had is that of a thread which panicked
            if !queue.lock().is_ok_and(|mut queue| queue.take(place, done)) {
                next.store(all, Ordering::Relaxed);
            }
        }
    };
    std::thread::scope(|scope| {
        // where there are no more threads to be had, the work is done by those that are there
        let spawned = (1..jobs.min(all)).map_while(|_| std::thread::Builder::new().spawn_scoped(scope, worker).ok());
        spawned.for_each(drop);
        worker();
    });
    queue.into_inner().map_or(Ok(()), |queue| queue.ended)
}

#[cfg(test)]
mod tests {
    use super::*;

    #[test]
    fn told_in_order() {
        for jobs in [1, 2, 7, 2000] {
            let mut told = Vec::new();
            let slow = |place: usize| std::thread::sleep(std::time::Duration::from_micros(if place.is_multiple_of(7) { 300 } else { 0 }));
            let work = |count: &mut usize, place| {
                slow(place);
                *count += 1;
                place
            };
            let tell = |place| {
                told.push(place);
                Ok(())
            };
            assert_eq!(in_order(jobs, 500, || 0, work, tell), Ok(()));
            assert_eq!(told, (0..500).collect::<Vec<_>>());
        }
        assert_eq!(in_order(3, 0, || (), |_, place| place, |_| Err(Failure::Unread)), Ok(()));
    }

    #[test]
    fn ends_where_telling_fails() {
        let done = AtomicUsize::new(0);
        let work = |_: &mut (), place| {
            done.fetch_add(1, Ordering::Relaxed);
            std::thread::sleep(std::time::Duration::from_micros(100));
            place
        };
        let ended = in_order(2, 100_000, || (), work, |place| if place == 3 { Err(Failure::Unread) } else { Ok(()) });
        assert_eq!(ended, Err(Failure::Unread));
        assert!(done.into_inner() < 1000);
    }
}
