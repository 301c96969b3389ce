//! Work on many indices, shared by two threads.

use std::sync::atomic::{AtomicU64, Ordering};
use std::thread;

const THREADS: usize = 2;

/// Works on each index below a count, up to the first error; gives what each thread gathered.
pub fn each<T: Default + Send>(
    count: u64,
    work: impl Fn(u64, &mut T) -> Result<(), String> + Sync,
) -> Result<Vec<T>, String> {
    let next_index = AtomicU64::new(0);
    thread::scope(|scope| {
        let share = || work_on_share(count, &next_index, &work);
        let shares = [(); THREADS].map(|()| scope.spawn(share));
        shares.into_iter().map(|share| share.join().expect("no share panics")).collect()
    })
}

fn work_on_share<T: Default>(
    count: u64,
    next_index: &AtomicU64,
    work: &impl Fn(u64, &mut T) -> Result<(), String>,
) -> Result<T, String> {
    let mut gathered = T::default();
    loop {
        let index = next_index.fetch_add(1, Ordering::Relaxed);
        if index >= count {
            return Ok(gathered);
        }
        if let Err(error) = work(index, &mut gathered) {
            next_index.store(count, Ordering::Relaxed);
            return Err(error);
        }
    }
}
