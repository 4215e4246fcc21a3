//! Work on many things by some threads, each with a connection of its own: so requests share a sync of the disk.
use crate::asking::AskError;
use crate::core::{Core, Link};
use std::sync::Mutex;
use std::thread;

/// Does some work for each item, by so many threads at most. It ends early where the program has ended.
pub fn for_each<T: Sync>(core: &Core, most: usize, items: &[T], work: impl Fn(&mut Link, &T) -> Result<(), AskError> + Sync) -> Result<(), AskError> {
    let next = Mutex::new(items.iter());
    let run = || -> Result<(), AskError> {
        let mut link = core.connect()?;
        loop {
            let item = next.lock().expect("no thread panics").next();
            match item {
                Some(item) => work(&mut link, item)?,
                None => return Ok(()),
            }
        }
    };
    thread::scope(|threads| {
        let running: Vec<_> = (0..most.min(items.len())).map(|_| threads.spawn(run)).collect();
        running.into_iter().try_for_each(|thread| thread.join().expect("no thread panics"))
    })
}
