//! Metrics that do nothing.

use commonware_runtime::telemetry::metrics::{Gauge, histogram::Timed, status::Counter};

#[derive(Default)]
pub struct Metrics {
    pub fetch_pending: Gauge,
    pub fetch_active: Gauge,
    pub serve_processing: Gauge,
    pub fetch: Counter,
    pub cancel: Counter,
    pub serve: Counter,
    pub fetch_duration: Timed,
    pub serve_duration: Timed,
}

impl Metrics {
    pub fn init<E>(_context: &E) -> Self {
        Self::default()
    }
}
