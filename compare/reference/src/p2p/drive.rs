//! Orders from the driver to a running engine.
//!
//! The engine's `run` waits for an order, carries it out with the engine's own
//! parts and private handlers, and waits for the next. Orders and answers go by
//! way of this thread's two slots.

use super::observe::Seen;
use bytes::Bytes;
use commonware_utils::vec::NonEmptyVec;
use std::{
    any::Any,
    cell::RefCell,
    future::{Future, poll_fn},
    task::{Context, Poll, Waker},
    time::Duration,
};

/// Says for each key and subscriber whether it stays.
pub type Rule<K, S> = Box<dyn Fn(&K, &S) -> bool>;

/// What the engine is to do.
pub enum Order<P, K, S> {
    Reconcile(Vec<P>),
    SetBlocked(Vec<P>),
    Want {
        key: K,
        subscribers: NonEmptyVec<(S, tracing::Span)>,
        aim: Option<Vec<P>>,
    },
    AddTargets {
        key: K,
        peers: Vec<P>,
    },
    ClearTargets(K),
    Fetch,
    /// A fetch whose traces in the engine are undone: the link refuses everything
    /// and counts.
    TryFetch,
    Expire,
    Response {
        id: u64,
        peer: P,
        record: Bytes,
    },
    Missing {
        id: u64,
        peer: P,
    },
    /// Takes up the delivery that has an outcome, if any, and judges by it.
    Verdict,
    Retain(Rule<K, S>),
    SetId(Option<u64>),
    SetRetries {
        key: K,
        retries: u32,
    },
    /// For rehearsals: credits a reply to a peer.
    Record {
        peer: P,
        elapsed: Duration,
        length: usize,
    },
    /// For rehearsals: draws over the whole roster.
    DrawOrder(u32),
    /// One turn of the original loop, without the fetch at its end.
    Turn,
    Look,
    Stop,
}

/// What came of an order.
pub enum Reply<P, K, S> {
    /// Whether something was there to be done.
    Done(bool),
    /// The order of a draw.
    Order(Vec<P>),
    Seen(Seen<P, K, S>),
}

thread_local! {
    static ORDER: RefCell<Option<Box<dyn Any>>> = const { RefCell::new(None) };
    static REPLY: RefCell<Option<(Box<dyn Any>, Duration)>> = const { RefCell::new(None) };
    static STARTED: RefCell<Option<(Box<dyn Any>, bool)>> = const { RefCell::new(None) };
}

/// Lays an order out for the engine that is stepped next.
pub fn give<P: 'static, K: 'static, S: 'static>(order: Order<P, K, S>) {
    let former = ORDER.replace(Some(Box::new(order)));
    assert!(former.is_none(), "an order was not carried out");
}

/// Takes the reply to the last order, with the time that carrying it out took.
pub fn take_reply<P: 'static, K: 'static, S: 'static>() -> Option<(Reply<P, K, S>, Duration)> {
    let (reply, took) = REPLY.take()?;
    let reply = reply.downcast().expect("a reply of this engine's kinds");
    Some((*reply, took))
}

/// Takes what was last reported of a delivery that started: the context that it
/// carries, and whether its response had been accepted before.
pub fn take_started<C: 'static>() -> Option<(C, bool)> {
    let (context, accepted) = STARTED.take()?;
    let context = context
        .downcast()
        .expect("a context of this engine's kinds");
    Some((*context, accepted))
}

/// Waits for the next order.
pub(crate) fn next_order<P: 'static, K: 'static, S: 'static>()
-> impl Future<Output = Order<P, K, S>> {
    poll_fn(|_| {
        ORDER.take().map_or(Poll::Pending, |order| {
            Poll::Ready(*order.downcast().expect("an order of this engine's kinds"))
        })
    })
}

pub(crate) fn reply<P: 'static, K: 'static, S: 'static>(reply: Reply<P, K, S>, took: Duration) {
    REPLY.set(Some((Box::new(reply), took)));
}

/// Called by a delivery as it starts.
pub(crate) fn delivery_started<C: Clone + 'static>(context: &C, previously_accepted: bool) {
    STARTED.set(Some((Box::new(context.clone()), previously_accepted)));
}

/// What a future has to say at once.
pub(crate) fn at_once<T>(future: impl Future<Output = T>) -> Option<T> {
    let mut context = Context::from_waker(Waker::noop());
    match std::pin::pin!(future).poll(&mut context) {
        Poll::Ready(value) => Some(value),
        Poll::Pending => None,
    }
}

/// Carries an order out. This is written into the engine's `run` by `select_loop!`;
/// `$engine` is its `self`. The time is taken around the reference's code alone.
macro_rules! carry_out {
    ($engine:ident, $sender:ident, $order:ident,
        turn $turn:block, on_end $on_end:block, on_stopped $on_stopped:block) => {{
        use crate::p2p::drive::{Order, Reply, at_once, reply};
        use crate::p2p::observe::Seen;

        let started = std::time::Instant::now();
        let mut done = true;
        match $order {
            Order::Reconcile(peers) => $engine.fetcher.reconcile(&peers),
            Order::SetBlocked(peers) => $engine.fetcher.set_blocked(peers),
            Order::Want {
                key,
                subscribers,
                aim,
            } => {
                if $engine.subscribers.insert(key.clone(), subscribers) {
                    let timer = $engine.metrics.fetch_duration.timer($engine.context.as_ref());
                    $engine.inflight.insert(key.clone(), timer);
                    if let Some(peers) = aim {
                        $engine.fetcher.add_targets(key.clone(), peers);
                    }
                    $engine.fetcher.add_ready(key);
                }
            }
            Order::AddTargets { key, peers } => $engine.fetcher.add_targets(key, peers),
            Order::ClearTargets(key) => $engine.fetcher.clear_targets(&key),
            Order::Fetch => $engine.fetcher.fetch(&mut $sender),
            Order::TryFetch => {
                let next_id = $engine.fetcher.observe().next_id;
                let waiter = $engine.fetcher.waiter();
                $engine.fetcher.fetch(&mut $sender);
                $engine.fetcher.set_next_id(next_id);
                $engine.fetcher.set_waiter(waiter);
            }
            Order::Expire => match $engine.fetcher.pop_active() {
                Some(key) => $engine.fetcher.add_retry(key),
                None => done = false,
            },
            Order::Response { id, peer, record } => {
                $engine.handle_network_response(peer, id, record)
            }
            Order::Missing { id, peer } => $engine.handle_network_error_response(peer, id),
            Order::Verdict => match at_once($engine.inflight.next_delivery()) {
                Some(Ok(completed)) => $engine.handle_delivery(completed),
                Some(Err(_)) | None => done = false,
            },
            Order::Retain(rule) => {
                $engine.subscribers.retain(|key, subscriber| rule(key, subscriber));
                let subscribers = &$engine.subscribers;
                $engine.inflight.retain(|key| subscribers.contains(key));
                $engine.fetcher.retain(|key| subscribers.contains(key));
            }
            Order::SetId(id) => $engine.fetcher.set_next_id(id),
            Order::SetRetries { key, retries } => $engine.fetcher.set_retries(key, retries),
            Order::Record {
                peer,
                elapsed,
                length,
            } => $engine.fetcher.record_response(&peer, elapsed, length),
            Order::DrawOrder(retries) => {
                let order = $engine.fetcher.draw_order(retries);
                reply(
                    Reply::<P, Key, Con::Subscriber>::Order(order),
                    started.elapsed(),
                );
                continue;
            }
            Order::Turn => done = $turn,
            Order::Look => {
                // Neither of the two is changed: every predicate says yes.
                let mut waits: Vec<(Key, Vec<Con::Subscriber>)> = Vec::new();
                $engine.subscribers.retain(|key, subscriber| {
                    match waits.last_mut() {
                        Some((last, list)) if last == key => list.push(subscriber.clone()),
                        _ => waits.push((key.clone(), vec![subscriber.clone()])),
                    }
                    true
                });
                let mut inflight: Vec<Key> = Vec::new();
                $engine.inflight.retain(|key| {
                    inflight.push(key.clone());
                    true
                });
                inflight.sort();
                let fetcher = $engine.fetcher.observe();
                let seen = Seen {
                    fetcher,
                    waits,
                    inflight,
                };
                reply(Reply::Seen(seen), started.elapsed());
                continue;
            }
            Order::Stop => {
                $on_stopped
                return;
            }
        }
        let took = started.elapsed();
        if false {
            // The original loop fetches here. In a script, `fetch` is a call.
            $on_end
        }
        reply(Reply::<P, Key, Con::Subscriber>::Done(done), took);
    }};
}

pub(crate) use carry_out;
