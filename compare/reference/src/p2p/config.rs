use super::Producer;
use crate::Consumer;
use bytes::Bytes;
use commonware_cryptography::PublicKey;
use commonware_p2p::{Blocker, Provider};
use commonware_utils::{NonZeroDuration, Span};
use std::time::Duration;

/// What an engine is made from.
pub struct Config<P, D, B, Key, Con, Pro>
where
    P: PublicKey,
    D: Provider<PublicKey = P>,
    B: Blocker<PublicKey = P>,
    Key: Span,
    Con: Consumer<Key = Key, Value = Bytes>,
    Pro: Producer<Key = Key>,
{
    pub peer_provider: D,
    pub blocker: B,
    pub consumer: Con,
    pub producer: Pro,
    pub mailbox_size: usize,
    pub me: Option<P>,
    pub fetch_timeout: NonZeroDuration,
    pub fetch_retry_delay: Duration,
    pub priority_requests: bool,
    pub priority_responses: bool,
}
