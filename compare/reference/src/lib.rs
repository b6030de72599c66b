//! The reference: `subscribers`, `delivery` and the modules of `p2p` are compiled
//! from commonware-resolver's own files, unchanged. This file holds what the rest
//! of that crate supplied to them, in our words.

// The reference's own warnings are not ours to mend.
#![allow(warnings)]

include!(concat!(env!("OUT_DIR"), "/root.rs"));

pub mod ingress;
pub mod p2p;

use bytes::Bytes;
use commonware_actor::Feedback;
use commonware_utils::{Span, channel::oneshot, vec::NonEmptyVec};

/// The files that this crate was compiled from, with their bytes.
pub const COMPILED: &[(&str, &[u8])] = include!(concat!(env!("OUT_DIR"), "/compiled.rs"));

/// The directory that they were read from.
pub const DIRECTORY: &str = env!("REFERENCE_DIRECTORY");

/// How far a good response satisfied those it was delivered to.
#[derive(Clone, Copy, Debug, PartialEq, Eq)]
pub enum Resolution {
    Complete,
    Partial,
}

/// What the consumer says of a response.
#[derive(Clone, Copy, Debug, PartialEq, Eq)]
pub enum Outcome {
    Resolved(Resolution),
    Unresolved,
    Invalid,
    Ignored,
}

/// A key and those that its response is for.
#[derive(Clone, Debug, PartialEq, Eq)]
pub struct Delivery<K, S> {
    pub key: K,
    pub subscribers: NonEmptyVec<(S, tracing::Span)>,
}

/// Takes responses and answers, some time later, what they are worth.
pub trait Consumer: Clone + 'static {
    type Key: Span;
    type Value;
    type Subscriber: Clone + Ord + std::fmt::Debug + Send + 'static;

    fn deliver(
        &mut self,
        delivery: Delivery<Self::Key, Self::Subscriber>,
        value: Self::Value,
    ) -> oneshot::Receiver<Outcome>;
}

/// One subscriber's want of one key.
pub struct Fetch<K, S> {
    pub key: K,
    pub subscriber: S,
    pub span: tracing::Span,
}

/// Asks for keys.
pub trait Resolver {
    type Key;
    type Subscriber;

    fn fetch<D>(&mut self, key: D) -> Feedback
    where
        D: Into<Fetch<Self::Key, Self::Subscriber>> + Send;

    fn fetch_all<D>(&mut self, keys: Vec<D>) -> Feedback
    where
        D: Into<Fetch<Self::Key, Self::Subscriber>> + Send;

    fn retain(
        &mut self,
        predicate: impl Fn(&Self::Key, &Self::Subscriber) -> bool + Send + 'static,
    ) -> Feedback;
}

/// Asks for keys at named peers.
pub trait TargetedResolver: Resolver {
    type PublicKey;

    fn fetch_targeted(
        &mut self,
        key: impl Into<Fetch<Self::Key, Self::Subscriber>> + Send,
        targets: NonEmptyVec<Self::PublicKey>,
    ) -> Feedback;

    fn fetch_all_targeted<D>(&mut self, keys: Vec<(D, NonEmptyVec<Self::PublicKey>)>) -> Feedback
    where
        D: Into<Fetch<Self::Key, Self::Subscriber>> + Send;
}
