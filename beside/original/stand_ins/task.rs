// Stand-in for the task helpers: a task runs on the pool, its answer or its panic comes by a channel.
use crossbeam_channel::{Receiver, Sender};
use std::panic::{catch_unwind, resume_unwind, AssertUnwindSafe};
use threadpool::ThreadPool;

pub type TaskResult<T> = std::thread::Result<T>;

pub fn spawn_task<R: Send + 'static>(
    tp: &ThreadPool,
    task: impl FnOnce() -> R + Send + 'static,
    tx: Sender<TaskResult<R>>,
) {
    tp.execute(move || {
        let _ = tx.send(catch_unwind(AssertUnwindSafe(task)));
    });
}

pub fn join_task<T, E: Into<anyhow::Error>>(
    rx: &Receiver<TaskResult<Result<T, E>>>,
) -> anyhow::Result<T> {
    match rx.recv()? {
        Ok(result) => result.map_err(Into::into),
        Err(panic) => resume_unwind(panic),
    }
}
