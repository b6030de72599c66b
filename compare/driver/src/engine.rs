//! A running engine of the reference, with the stand-ins around it.

use crate::{
    context::World,
    kinds::{KeyKind, PeerKind},
    link::SharedLink,
};
use bytes::Bytes;
use commonware_actor::mailbox;
use commonware_p2p::{Blocker, PeerSetUpdate, Provider, Receiver, TrackedPeers, Updates};
use commonware_runtime::Handle;
use commonware_utils::{NonZeroDuration, channel::oneshot, vec::NonEmptyVec};
use reference::{
    Consumer, Delivery, Fetch, Outcome, Resolver as _, TargetedResolver as _,
    p2p::{
        Producer,
        config::Config,
        drive::{self, Order, Reply},
        engine::Engine,
        ingress::Mailbox,
        observe::Seen,
    },
};
use std::{cell::RefCell, future::Future, marker::PhantomData, rc::Rc, time::Duration};

/// A delivery as it reached the consumer.
pub struct Handed<P, K> {
    /// Deliveries of an engine are numbered from 0.
    pub number: u64,
    pub key: K,
    pub subscribers: Vec<P>,
    pub record: Bytes,
    pub verdict: oneshot::Sender<Outcome>,
    /// What the reference keeps with the delivery.
    pub peer: P,
    pub elapsed: u64,
    pub accepted: bool,
}

/// The consumer: keeps each delivery until the driver takes it.
struct Desk<P, K>(Rc<RefCell<DeskState<P, K>>>);

struct DeskState<P, K> {
    count: u64,
    latest: Option<Unclaimed<P, K>>,
}

struct Unclaimed<P, K> {
    number: u64,
    delivery: Delivery<K, P>,
    record: Bytes,
    verdict: oneshot::Sender<Outcome>,
}

impl<P, K> Default for Desk<P, K> {
    fn default() -> Self {
        Self(Rc::new(RefCell::new(DeskState {
            count: 0,
            latest: None,
        })))
    }
}

impl<P, K> Clone for Desk<P, K> {
    fn clone(&self) -> Self {
        Self(self.0.clone())
    }
}

impl<P: PeerKind, K: KeyKind> Consumer for Desk<P, K> {
    type Key = K;
    type Value = Bytes;
    type Subscriber = P;

    fn deliver(&mut self, delivery: Delivery<K, P>, record: Bytes) -> oneshot::Receiver<Outcome> {
        let (verdict, receiver) = oneshot::channel();
        let mut state = self.0.borrow_mut();
        let unclaimed = Unclaimed {
            number: state.count,
            delivery,
            record,
            verdict,
        };
        assert!(
            state.latest.replace(unclaimed).is_none(),
            "a delivery was not taken"
        );
        state.count += 1;
        receiver
    }
}

/// Tells the engine of new rosters.
struct Peers<P>(Option<Updates<PeerSetUpdate<P>>>);

impl<P: PeerKind> Provider for Peers<P> {
    type PublicKey = P;

    fn subscribe(&mut self) -> impl Future<Output = Updates<PeerSetUpdate<P>>> {
        std::future::ready(self.0.take().expect("one subscription"))
    }
}

/// Notes the peer that a verdict names, and tells the engine of new blocked lists.
struct Blocks<P> {
    named: Rc<RefCell<Option<P>>>,
    updates: Option<Updates<Vec<P>>>,
}

impl<P: PeerKind> Blocker for Blocks<P> {
    type PublicKey = P;

    fn block(&mut self, peer: P) {
        self.named.replace(Some(peer));
    }

    fn blocked(&mut self) -> Updates<Vec<P>> {
        self.updates.take().expect("one subscription")
    }
}

/// Nothing arrives from the network: the driver calls the handlers.
struct Silent<P>(PhantomData<P>);

impl<P: PeerKind> Receiver for Silent<P> {
    type PublicKey = P;
}

/// Nobody is served.
#[derive(Clone)]
struct NoProducer<K>(PhantomData<K>);

impl<K: KeyKind> Producer for NoProducer<K> {
    type Key = K;

    fn produce(&mut self, _key: K) -> oneshot::Receiver<Bytes> {
        unreachable!("the engine under comparison serves nobody")
    }
}

pub struct Running<P: PeerKind, K: KeyKind> {
    task: Handle<()>,
    mailbox: Mailbox<K, P, P>,
    rosters: mailbox::Sender<PeerSetUpdate<P>>,
    roster_count: u64,
    blocked_lists: mailbox::Sender<Vec<P>>,
    desk: Desk<P, K>,
    named: Rc<RefCell<Option<P>>>,
}

impl<P: PeerKind, K: KeyKind> Running<P, K> {
    /// A new engine; its `run` has started and waits for an order.
    pub fn start(
        world: World,
        link: SharedLink<P, K>,
        me: Option<P>,
        timeout: NonZeroDuration,
        delay: Duration,
    ) -> Self {
        let (rosters, roster_updates) = mailbox::new((), 0);
        let (blocked_lists, blocked_updates) = mailbox::new((), 0);
        let desk = Desk::default();
        let named = Rc::default();
        let config = Config {
            peer_provider: Peers(Some(roster_updates)),
            blocker: Blocks {
                named: Rc::clone(&named),
                updates: Some(blocked_updates),
            },
            consumer: desk.clone(),
            producer: NoProducer(PhantomData),
            mailbox_size: 0,
            me,
            fetch_timeout: timeout,
            fetch_retry_delay: delay,
            priority_requests: false,
            priority_responses: false,
        };
        let (engine, mailbox) = Engine::new(world, config);
        let mut task = engine.start((link, Silent(PhantomData)));
        assert!(task.step(), "the engine runs");
        Self {
            task,
            mailbox,
            rosters,
            roster_count: 0,
            blocked_lists,
            desk,
            named,
        }
    }

    fn give(&mut self, order: Order<P, K, P>) -> (Reply<P, K, P>, Duration) {
        drive::give(order);
        assert!(self.task.step(), "the engine runs");
        drive::take_reply().expect("a reply")
    }

    /// Has an order carried out. Answers whether there was something to do, and
    /// the time that it took.
    pub fn order(&mut self, order: Order<P, K, P>) -> (bool, Duration) {
        match self.give(order) {
            (Reply::Done(done), took) => (done, took),
            _ => unreachable!("only questions are answered otherwise"),
        }
    }

    /// Everything in the engine.
    pub fn look(&mut self) -> Seen<P, K, P> {
        match self.give(Order::Look) {
            (Reply::Seen(seen), _) => seen,
            _ => unreachable!("a look is answered with what was seen"),
        }
    }

    /// The order in which a draw over the whole roster picks.
    pub fn draw_order(&mut self, retries: u32) -> Vec<P> {
        match self.give(Order::DrawOrder(retries)) {
            (Reply::Order(order), _) => order,
            _ => unreachable!("a draw is answered with its order"),
        }
    }

    /// The delivery that the last order started, if any.
    pub fn take_handed(&mut self) -> Option<Handed<P, K>> {
        let Unclaimed {
            number,
            delivery,
            record,
            verdict,
        } = self.desk.0.borrow_mut().latest.take()?;
        let (context, accepted) =
            drive::take_started::<(P, Duration, usize)>().expect("a delivery that started");
        let (peer, elapsed, length) = context;
        assert_eq!(
            length,
            record.len(),
            "the length that is kept is the record's"
        );
        Some(Handed {
            number,
            key: delivery.key,
            subscribers: delivery
                .subscribers
                .into_iter()
                .map(|(subscriber, _)| subscriber)
                .collect(),
            record,
            verdict,
            peer,
            elapsed: u64::try_from(elapsed.as_nanos()).expect("an elapsed time of 64 bits"),
            accepted,
        })
    }

    /// The peer that the last verdict named to be blocked, if any.
    pub fn take_named(&mut self) -> Option<P> {
        self.named.take()
    }

    /// Lets the original loop take turns until none of its branches is ready.
    pub fn turn(&mut self) {
        while self.order(Order::Turn).0 {}
    }

    /// Tells the original loop of a roster.
    pub fn publish_roster(&mut self, peers: Vec<P>) {
        self.roster_count += 1;
        self.rosters.enqueue(PeerSetUpdate {
            index: self.roster_count,
            latest: TrackedPeers(peers),
        });
    }

    /// Tells the original loop of a blocked list.
    pub fn publish_blocked(&mut self, peers: Vec<P>) {
        self.blocked_lists.enqueue(peers);
    }

    /// Puts a want into the original loop's mailbox, one message a subscriber.
    pub fn post_want(&mut self, key: K, subscribers: &[P], aim: Option<NonEmptyVec<P>>) {
        for subscriber in subscribers {
            let fetch = Fetch {
                key,
                subscriber: *subscriber,
                span: tracing::Span,
            };
            match &aim {
                Some(peers) => self.mailbox.fetch_targeted(fetch, peers.clone()),
                None => self.mailbox.fetch(fetch),
            };
        }
    }

    /// Puts a retain into the original loop's mailbox.
    pub fn post_retain(&mut self, keeps: impl Fn(&K, &P) -> bool + Send + 'static) {
        self.mailbox.retain(keeps);
    }
}
