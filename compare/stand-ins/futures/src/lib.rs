//! Stand-in for `futures`: the few names that the engine's loop mentions.

pub mod future {
    use std::{
        future::Future,
        pin::Pin,
        task::{Context, Poll},
    };

    pub use std::future::pending;

    /// A task was stopped before it had a result.
    #[derive(Clone, Copy, Debug, PartialEq, Eq)]
    pub struct Aborted;

    /// One of two futures with the same output.
    pub enum Either<A, B> {
        Left(A),
        Right(B),
    }

    impl<A, B> Future for Either<A, B>
    where
        A: Future + Unpin,
        B: Future<Output = A::Output> + Unpin,
    {
        type Output = A::Output;

        fn poll(self: Pin<&mut Self>, cx: &mut Context<'_>) -> Poll<Self::Output> {
            match self.get_mut() {
                Self::Left(future) => Pin::new(future).poll(cx),
                Self::Right(future) => Pin::new(future).poll(cx),
            }
        }
    }
}
