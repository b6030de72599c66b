/// A channel for one value. Nobody is woken: the driver polls when it is time.
pub mod oneshot {
    use std::{
        cell::RefCell,
        future::Future,
        pin::Pin,
        rc::Rc,
        task::{Context, Poll},
    };

    pub mod error {
        /// The sender went away without a value.
        #[derive(Clone, Copy, Debug, PartialEq, Eq)]
        pub struct RecvError;

        /// There is no value, now or ever.
        #[derive(Clone, Copy, Debug, PartialEq, Eq)]
        pub enum TryRecvError {
            Empty,
            Closed,
        }
    }

    use error::{RecvError, TryRecvError};

    struct Slot<T> {
        value: Option<T>,
        sender_gone: bool,
        receiver_closed: bool,
    }

    pub struct Sender<T>(Rc<RefCell<Slot<T>>>);

    pub struct Receiver<T>(Rc<RefCell<Slot<T>>>);

    pub fn channel<T>() -> (Sender<T>, Receiver<T>) {
        let slot = Rc::new(RefCell::new(Slot {
            value: None,
            sender_gone: false,
            receiver_closed: false,
        }));
        (Sender(slot.clone()), Receiver(slot))
    }

    impl<T> Sender<T> {
        /// Hands the value over, or back if nobody listens any more.
        pub fn send(self, value: T) -> Result<(), T> {
            let mut slot = self.0.borrow_mut();
            if slot.receiver_closed {
                return Err(value);
            }
            slot.value = Some(value);
            Ok(())
        }

        pub fn is_closed(&self) -> bool {
            self.0.borrow().receiver_closed
        }
    }

    impl<T> Drop for Sender<T> {
        fn drop(&mut self) {
            self.0.borrow_mut().sender_gone = true;
        }
    }

    impl<T> Receiver<T> {
        /// Takes no value from now on; one that was sent before can still be read.
        pub fn close(&mut self) {
            self.0.borrow_mut().receiver_closed = true;
        }

        pub fn try_recv(&mut self) -> Result<T, TryRecvError> {
            let mut slot = self.0.borrow_mut();
            match slot.value.take() {
                Some(value) => Ok(value),
                None if slot.sender_gone || slot.receiver_closed => Err(TryRecvError::Closed),
                None => Err(TryRecvError::Empty),
            }
        }
    }

    impl<T> Drop for Receiver<T> {
        fn drop(&mut self) {
            self.close();
        }
    }

    impl<T> Future for Receiver<T> {
        type Output = Result<T, RecvError>;

        fn poll(self: Pin<&mut Self>, _: &mut Context<'_>) -> Poll<Self::Output> {
            match self.get_mut().try_recv() {
                Ok(value) => Poll::Ready(Ok(value)),
                Err(TryRecvError::Closed) => Poll::Ready(Err(RecvError)),
                Err(TryRecvError::Empty) => Poll::Pending,
            }
        }
    }
}
