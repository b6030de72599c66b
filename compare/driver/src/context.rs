//! The context that an engine runs in: the script's clock and its draw source.

use crate::source::Source;
use commonware_runtime::{Clock, Metrics, Spawner};
use rand_core::Rng;
use std::{
    cell::{Cell, RefCell},
    future::{Future, pending},
    rc::Rc,
    time::{Duration, SystemTime, UNIX_EPOCH},
};

/// The clock and the source, shared by the driver, the engine and the link.
#[derive(Clone)]
pub struct World {
    now: Rc<Cell<u64>>,
    source: Rc<RefCell<Source>>,
}

impl World {
    pub fn new(source: Source) -> Self {
        Self {
            now: Rc::default(),
            source: Rc::new(RefCell::new(source)),
        }
    }

    pub fn now(&self) -> u64 {
        self.now.get()
    }

    /// The script sets the clock, forwards or back.
    pub fn set_now(&self, now: u64) {
        self.now.set(now);
    }

    /// Words taken so far.
    pub fn words(&self) -> u64 {
        self.source.borrow().taken()
    }

    /// The source as it is, to be put back later.
    pub fn source(&self) -> Source {
        self.source.borrow().clone()
    }

    pub fn put_source_back(&self, source: Source) {
        self.source.replace(source);
    }
}

impl Clock for World {
    fn current(&self) -> SystemTime {
        UNIX_EPOCH + Duration::from_nanos(self.now())
    }

    /// No timer ever goes off: a script's `fetch` and `expire` are calls.
    fn sleep_until(&self, _deadline: SystemTime) -> impl Future<Output = ()> + Unpin + 'static {
        pending()
    }
}

impl Rng for World {
    fn next_u64(&mut self) -> u64 {
        self.source.borrow_mut().next_u64()
    }
}

impl Metrics for World {
    fn child(&self, _name: &'static str) -> Self {
        self.clone()
    }
}

impl Spawner for World {}
