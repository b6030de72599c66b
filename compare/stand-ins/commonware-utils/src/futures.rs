use std::{
    cell::Cell,
    future::Future,
    pin::Pin,
    task::{Context, Poll, Waker},
};

thread_local! {
    static ONLY: Cell<Option<u64>> = const { Cell::new(None) };
}

/// Until it is called again, every pool polls only its future of this number
/// (they are numbered from 0 as they are pushed), or all of them for `None`.
///
/// This is how the driver leaves a canceled delivery alone until its verdict
/// comes, as the rules want.
pub fn poll_only(number: Option<u64>) {
    ONLY.set(number);
}

type Task<'a, T> = Pin<Box<dyn Future<Output = T> + 'a>>;

/// Futures that run side by side.
pub struct Pool<'a, T> {
    tasks: Vec<(u64, Task<'a, T>)>,
    pushed: u64,
}

impl<T> Default for Pool<'_, T> {
    fn default() -> Self {
        Self {
            tasks: Vec::new(),
            pushed: 0,
        }
    }
}

impl<'a, T> Pool<'a, T> {
    /// Adds a future and lets it start. It must not be ready at once.
    pub fn push(&mut self, future: impl Future<Output = T> + 'a) {
        let mut task: Task<'a, T> = Box::pin(future);
        let started = task.as_mut().poll(&mut Context::from_waker(Waker::noop()));
        assert!(
            started.is_pending(),
            "a future was ready when it was pushed"
        );
        self.tasks.push((self.pushed, task));
        self.pushed += 1;
    }

    pub fn len(&self) -> usize {
        self.tasks.len()
    }

    pub fn is_empty(&self) -> bool {
        self.tasks.is_empty()
    }

    pub fn cancel_all(&mut self) {
        self.tasks.clear();
    }

    /// Waits for a future to end, in the order in which they were pushed.
    pub fn next_completed(&mut self) -> impl Future<Output = T> {
        std::future::poll_fn(|cx| {
            let only = ONLY.get();
            for place in 0..self.tasks.len() {
                let (number, task) = &mut self.tasks[place];
                if only.is_some_and(|only| only != *number) {
                    continue;
                }
                if let Poll::Ready(value) = task.as_mut().poll(cx) {
                    drop(self.tasks.remove(place));
                    return Poll::Ready(value);
                }
            }
            Poll::Pending
        })
    }
}
