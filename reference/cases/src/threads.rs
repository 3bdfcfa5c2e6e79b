//! Parts of a test that run at the same time.

/// What each of so many parts gives, each in a thread of its own. If one fails, so does
/// the test.
pub fn in_threads<T: Send>(count: usize, part: impl Fn(usize) -> T + Sync) -> Vec<T> {
    std::thread::scope(|scope| {
        let part = &part;
        let start = |number| scope.spawn(move || part(number));
        let threads: Vec<_> = (0..count).map(start).collect();
        let join = |thread: std::thread::ScopedJoinHandle<'_, T>| thread.join().unwrap();
        threads.into_iter().map(join).collect()
    })
}
