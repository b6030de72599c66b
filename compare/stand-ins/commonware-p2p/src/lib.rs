//! Stand-in for `commonware-p2p`: sending to peers, and what the network tells.
//!
//! The links themselves belong to the driver; they implement [`Sender`] here.

use commonware_actor::Unreliable;
use commonware_cryptography::PublicKey;
use std::{future::Future, time::SystemTime};

/// Who a message is for. The resolver only ever names one peer.
#[derive(Clone, Debug, PartialEq, Eq)]
pub enum Recipients<P> {
    One(P),
}

/// The sending half of the network.
pub trait Sender: 'static {
    type PublicKey: PublicKey;
    type Checked<'a>: CheckedSender;

    /// A pass for one message to this peer, or the time to wait for. It changes nothing.
    fn check(
        &mut self,
        recipients: Recipients<Self::PublicKey>,
    ) -> Result<Self::Checked<'_>, SystemTime>;
}

/// A pass: it is used up by sending.
pub trait CheckedSender {
    fn send(self, message: &[u8], priority: bool) -> Unreliable;
}

/// The receiving half of the network.
pub trait Receiver: 'static {
    type PublicKey: PublicKey;
}

/// One version of the peers that the network follows.
pub struct PeerSetUpdate<P> {
    pub index: u64,
    pub latest: TrackedPeers<P>,
}

pub struct TrackedPeers<P>(pub Vec<P>);

impl<P: Clone> TrackedPeers<P> {
    pub fn union(&self) -> Vec<P> {
        self.0.clone()
    }
}

/// Where news arrives.
pub type Updates<T> = commonware_actor::mailbox::Receiver<T>;

/// Tells which peers there are.
pub trait Provider: 'static {
    type PublicKey: PublicKey;

    fn subscribe(&mut self) -> impl Future<Output = Updates<PeerSetUpdate<Self::PublicKey>>>;
}

/// Blocks peers, and tells which are blocked.
pub trait Blocker: 'static {
    type PublicKey: PublicKey;

    fn block(&mut self, peer: Self::PublicKey);

    fn blocked(&mut self) -> Updates<Vec<Self::PublicKey>>;
}

#[macro_export]
macro_rules! block {
    ($blocker:expr, $peer:expr, $reason:literal) => {
        $crate::Blocker::block(&mut $blocker, $peer)
    };
}

pub mod utils {
    pub mod codec {
        use crate::{CheckedSender as _, Receiver, Recipients, Sender};
        use commonware_actor::Unreliable;
        use commonware_codec::{EncodeSize, Error, Read, Write};
        use std::{future::Future, marker::PhantomData, time::SystemTime};

        /// A sender that writes messages out before it sends them.
        pub struct WrappedSender<S, V> {
            sender: S,
            message: PhantomData<V>,
        }

        /// A receiver that would read messages. Here nothing arrives by it:
        /// the driver hands responses to the engine's own handlers.
        pub struct WrappedReceiver<R, V> {
            _receiver: R,
            message: PhantomData<V>,
        }

        pub fn wrap<S, R, V>(
            _cfg: V::Cfg,
            sender: S,
            receiver: R,
        ) -> (WrappedSender<S, V>, WrappedReceiver<R, V>)
        where
            S: Sender,
            R: Receiver<PublicKey = S::PublicKey>,
            V: Write + EncodeSize + Read,
        {
            let sender = WrappedSender {
                sender,
                message: PhantomData,
            };
            let receiver = WrappedReceiver {
                _receiver: receiver,
                message: PhantomData,
            };
            (sender, receiver)
        }

        /// A pass for a message that is still to be written out.
        pub struct CheckedWrappedSender<'a, S: Sender + 'a, V> {
            checked: S::Checked<'a>,
            message: PhantomData<V>,
        }

        impl<S: Sender, V: Write + EncodeSize> WrappedSender<S, V> {
            pub fn check(
                &mut self,
                recipients: Recipients<S::PublicKey>,
            ) -> Result<CheckedWrappedSender<'_, S, V>, SystemTime> {
                Ok(CheckedWrappedSender {
                    checked: self.sender.check(recipients)?,
                    message: PhantomData,
                })
            }

            /// Sends without a check. Only the engine's serving half calls this,
            /// which never runs here.
            pub fn send(
                &mut self,
                _recipients: Recipients<S::PublicKey>,
                _message: V,
                _priority: bool,
            ) -> Vec<S::PublicKey> {
                unreachable!("the engine under comparison serves nobody")
            }
        }

        impl<'a, S: Sender + 'a, V: Write + EncodeSize> CheckedWrappedSender<'a, S, V> {
            pub fn send(self, message: V, priority: bool) -> Unreliable {
                let mut bytes = Vec::with_capacity(message.encode_size());
                message.write(&mut bytes);
                self.checked.send(&bytes, priority)
            }
        }

        impl<R: Receiver, V> WrappedReceiver<R, V> {
            pub fn recv(
                &mut self,
            ) -> impl Future<Output = Result<(R::PublicKey, Result<V, Error>), Error>> {
                std::future::pending()
            }
        }
    }
}
