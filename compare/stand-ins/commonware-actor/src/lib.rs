//! Stand-in for `commonware-actor`: what a sender hears back, and mailboxes.

/// What became of a message that was handed over.
#[derive(Clone, Copy, Debug, PartialEq, Eq)]
pub enum Feedback {
    Ok,
    Backoff,
    Closed,
}

/// Feedback over a path that may refuse the message altogether.
#[derive(Clone, Copy, Debug, PartialEq, Eq)]
pub enum Unreliable {
    Outcome(Feedback),
    Rejected,
}

pub mod mailbox {
    use crate::Feedback;
    use std::{cell::RefCell, collections::VecDeque, future::Future, rc::Rc, task::Poll};

    type Queue<T> = Rc<RefCell<VecDeque<T>>>;

    /// The end that messages are put in at.
    pub struct Sender<T>(Queue<T>);

    impl<T> Clone for Sender<T> {
        fn clone(&self) -> Self {
            Self(self.0.clone())
        }
    }

    impl<T> Sender<T> {
        pub fn enqueue(&self, message: T) -> Feedback {
            self.0.borrow_mut().push_back(message);
            Feedback::Ok
        }
    }

    /// The end that messages are taken out at.
    pub struct Receiver<T>(Queue<T>);

    impl<T> Receiver<T> {
        /// Waits for the next message. The mailbox never closes.
        pub fn recv(&mut self) -> impl Future<Output = Option<T>> {
            std::future::poll_fn(|_| {
                self.0
                    .borrow_mut()
                    .pop_front()
                    .map_or(Poll::Pending, |message| Poll::Ready(Some(message)))
            })
        }
    }

    /// A mailbox without a bound; `size` is ignored.
    pub fn new<E, T>(_context: E, _size: usize) -> (Sender<T>, Receiver<T>) {
        let queue = Queue::default();
        (Sender(queue.clone()), Receiver(queue))
    }
}
