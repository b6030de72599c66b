//! Stand-in for `commonware-runtime`: a clock that the script sets, metrics that
//! do nothing, and a task that the driver polls by hand.

use std::{
    future::Future,
    ops::Deref,
    pin::Pin,
    task::{Context, Waker},
    time::SystemTime,
};

pub trait Clock: 'static {
    fn current(&self) -> SystemTime;

    fn sleep_until(&self, deadline: SystemTime) -> impl Future<Output = ()> + Unpin + 'static;
}

pub trait Metrics: Sized + 'static {
    fn child(&self, name: &'static str) -> Self;
}

pub trait Spawner: 'static {}

/// Holds the context of a task.
pub struct ContextCell<E>(E);

impl<E> ContextCell<E> {
    pub const fn new(context: E) -> Self {
        Self(context)
    }
}

impl<E> AsRef<E> for ContextCell<E> {
    fn as_ref(&self) -> &E {
        &self.0
    }
}

impl<E> Deref for ContextCell<E> {
    type Target = E;

    fn deref(&self) -> &E {
        &self.0
    }
}

/// A started task.
pub struct Handle<T>(Pin<Box<dyn Future<Output = T>>>);

impl<T> Handle<T> {
    pub fn new(future: impl Future<Output = T> + 'static) -> Self {
        Self(Box::pin(future))
    }

    /// Lets the task run until it waits. Says whether it still runs.
    pub fn step(&mut self) -> bool {
        let mut context = Context::from_waker(Waker::noop());
        self.0.as_mut().poll(&mut context).is_pending()
    }
}

#[macro_export]
macro_rules! spawn_cell {
    ($cell:expr, $future:expr) => {
        $crate::Handle::new($future)
    };
}

pub mod telemetry {
    pub mod metrics {
        use std::marker::PhantomData;

        pub use commonware_macros::EncodeStruct;

        /// Anything that a metric can be set to, or made from.
        pub trait MetricsExt {
            fn family<T: Default>(&self, _name: &str, _help: &str) -> T {
                T::default()
            }

            fn histogram(
                &self,
                _name: &str,
                _help: &str,
                _buckets: histogram::Buckets,
            ) -> Histogram {
                Histogram
            }
        }

        impl<E: crate::Metrics> MetricsExt for E {}

        #[derive(Clone, Copy, Default)]
        pub struct Gauge;

        pub trait GaugeExt {
            fn try_set<T>(&self, _value: T) {}
        }

        impl GaugeExt for Gauge {}

        /// A gauge for each label.
        pub struct GaugeFamily<L>(PhantomData<L>);

        impl<L> Default for GaugeFamily<L> {
            fn default() -> Self {
                Self(PhantomData)
            }
        }

        impl<L> GaugeFamily<L> {
            pub fn get_or_create_by<T>(&self, _label: &T) -> Gauge {
                Gauge
            }
        }

        #[derive(Clone, Copy, Default)]
        pub struct Histogram;

        impl Histogram {
            pub fn observe(&self, _value: f64) {}
        }

        pub mod histogram {
            pub struct Buckets;

            impl Buckets {
                pub const NETWORK: Self = Self;
            }

            /// A histogram of durations.
            #[derive(Clone, Copy, Default)]
            pub struct Timed;

            impl Timed {
                pub fn timer<E: crate::Clock>(&self, _clock: &E) -> Timer {
                    Timer
                }
            }

            #[derive(Clone, Copy)]
            pub struct Timer;

            impl Timer {
                pub fn observe<E: crate::Clock>(self, _clock: &E) {}
            }
        }

        pub mod status {
            #[derive(Clone, Copy)]
            pub enum Status {
                Success,
                Failure,
                Dropped,
                Ambiguous,
            }

            #[derive(Clone, Copy, Default)]
            pub struct Counter;

            impl Counter {
                pub fn inc(&self, _status: Status) {}

                pub fn inc_by(&self, _status: Status, _count: u64) {}
            }
        }
    }
}
