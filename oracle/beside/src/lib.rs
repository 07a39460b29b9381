//! Makes inputs, asks the Rust, and compares a program's answers with its own.

pub mod answer;
pub mod cases;
pub mod frame;
pub mod marked;
pub mod random;
pub mod structured;
pub mod text;
pub mod wire;

/// Runs `work` with a stack that the Rust's recursion doesn't fill: it has no depth limit, and takes about a kilobyte a level.
pub fn with_stack<T: Send>(work: impl FnOnce() -> T + Send) -> T {
    std::thread::scope(|scope| {
        std::thread::Builder::new()
            .stack_size(1 << 30)
            .spawn_scoped(scope, work)
            .expect("a thread")
            .join()
            .expect("the thread ends well")
    })
}
