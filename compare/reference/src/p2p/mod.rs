//! The peer-to-peer resolver. `config` and `metrics` are ours, as are `drive` and
//! `observe`, by which the driver gets in; the rest are the reference's files.

include!(concat!(env!("OUT_DIR"), "/p2p.rs"));

pub mod config;
pub mod drive;
pub mod metrics;
pub mod observe;

use bytes::Bytes;
use commonware_utils::channel::oneshot;

/// Supplies records to peers that ask for them. Never called here.
pub trait Producer: Clone + 'static {
    type Key;

    fn produce(&mut self, key: Self::Key) -> oneshot::Receiver<Bytes>;
}
