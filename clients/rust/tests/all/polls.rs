//! Streams and futures without a runtime: the session's thread wakes whatever polls.

use crate::jute::{Record, EXISTS, GET_DATA, PING, PONG};
use crate::partner::{Line, Partner};
use crate::runtime::block_on;
use crate::{renewing, started, tells_each_change, text};
use dirwolleu::{Event, Session, State};
use std::future::poll_fn;
use std::sync::{mpsc, Arc};
use std::task::{Context, Wake};
use std::time::{Duration, Instant};

#[test]
fn a_node_is_followed_by_any_runtime() {
    let Some(mut server) = started() else { return };
    let session = renewing(&server).shared();
    let mut nodes = session.follow("/a");
    tells_each_change(&mut server, || {
        let node = block_on(poll_fn(|context| nodes.poll_next(context)));
        text(node.expect("the session lives").unwrap())
    });
    session.close().unwrap();
    let over = block_on(poll_fn(|context| nodes.poll_next(context)));
    assert!(over.is_none(), "{over:?}");
}

#[test]
fn events_are_told_to_any_runtime() {
    let Some(mut server) = started() else { return };
    server.tell("create /a one");
    let session = renewing(&server).shared();
    let mut events = session.events();
    let mut next = || block_on(poll_fn(|context| events.poll_next(context)));
    assert_eq!(next(), Some(Ok(Event::State(State::Connecting))));
    assert_eq!(next(), Some(Ok(Event::State(State::Connected))));
    session.watch("/a").unwrap();
    server.tell("set /a two");
    assert!(matches!(next(), Some(Ok(Event::Report { .. }))));
    session.close().unwrap();
    assert_eq!(next(), Some(Ok(Event::State(State::Closed))));
    assert_eq!(next(), None);
}

/// A new waker for each poll.
struct Flag;

impl Wake for Flag {
    fn wake(self: Arc<Self>) {}
}

/// How many wakers are kept after this many polls, each with another one.
fn kept_after(polls: usize, mut poll: impl FnMut(&mut Context<'_>)) -> usize {
    let wakers = (0..polls).map(|_| {
        let flag = Arc::new(Flag);
        let weak = Arc::downgrade(&flag);
        let waker = flag.into();
        poll(&mut Context::from_waker(&waker));
        weak
    });
    let wakers: Vec<_> = wakers.collect();
    wakers.iter().filter(|weak| weak.strong_count() > 0).count()
}

#[test]
fn one_that_polls_keeps_one_waker_and_none_once_it_is_gone() {
    let partner = Partner::start(|_, line| deny_once(line, &mpsc::channel().0));
    let session = Session::open(partner.address, Duration::from_secs(60)).unwrap();
    let mut nodes = session.follow("/a");
    assert!(block_on(poll_fn(|context| nodes.poll_next(context))).is_some());
    let mut events = session.events();
    while session.next_event(Some(Instant::now())) != Ok(None) {}
    let kept = kept_after(60_000, |context| {
        assert!(events.poll_next(context).is_pending());
        assert!(nodes.poll_next(context).is_pending());
    });
    assert!(kept <= 1, "{kept} wakers");
    let kept = kept_after(1, |context| {
        assert!(session.events().poll_next(context).is_pending());
    });
    assert_eq!(kept, 0);
}

/// Refuses the first read, says that there is a node, and then has data.
fn deny_once(mut line: Line, reads: &mpsc::Sender<()>) {
    line.admit(60_000); // so no ping is late, however long a test polls
    let mut is_denied = false;
    while let Some(request) = line.request() {
        match request.kind {
            PING => line.send(&Record::reply(PONG, 5, 0).framed()),
            EXISTS => line.tell_stat(request.xid),
            GET_DATA => {
                let _ = reads.send(());
                if is_denied {
                    line.tell_data(request.xid)
                } else {
                    is_denied = true;
                    line.refuse(request.xid, -101)
                }
            }
            _ => false,
        };
    }
}

#[test]
fn a_read_that_is_denied_is_made_again() {
    let (sender, reads) = mpsc::channel();
    let partner = Partner::start(move |_, line| deny_once(line, &sender));
    let session = Session::open(partner.address, Duration::from_secs(60)).unwrap();
    let mut nodes = session.follow("/a");
    let node = block_on(poll_fn(|context| nodes.poll_next(context)));
    assert_eq!(text(node.unwrap().unwrap()).as_deref(), Some("one"));
    assert_eq!(reads.try_iter().count(), 2);
}
