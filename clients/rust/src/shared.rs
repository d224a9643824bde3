//! The engine and its lock, which the threads of a session share, and the threads and futures that wait for it.

use crate::engine::{Engine, News, Plan};
use crate::events::Event;
use crate::fault::Fault;
use crate::moment::{Clock, Moment};
use crate::notify::Notify;
use crate::outbox::{Outbox, Writer, Written};
use crate::request::{Asking, Request};
use crate::stats::{Observation, Observer};
use crate::ticket::{AskedCall, CallLimit, CallResult, ExpireCalls, Slot, Ticket};
use std::collections::HashMap;
use std::mem;
use std::panic::{catch_unwind, resume_unwind, AssertUnwindSafe};
use std::sync::atomic::{AtomicBool, Ordering};
use std::sync::{Arc, Mutex, MutexGuard, PoisonError, RwLock, Weak};
use std::task::{Context, Poll, Waker};
use std::thread::{self, Builder};
use std::time::{Duration, Instant};

/// The longest wait of one read, and of one rest: an hour.
pub(crate) const LONGEST_WAIT: Duration = Duration::from_secs(3_600);

/// How long a helper waits for room at a time, as does a session without helpers while something waits to be written.
pub(crate) const WAIT_FOR_ROOM: Duration = Duration::from_millis(20);

/// The wakers of polled futures, by their keys.
#[derive(Default)]
struct Wakers {
    last: u64,
    waiting: HashMap<u64, Waker>,
}

/// An engine that threads share.
pub(crate) struct Shared {
    engine: Mutex<Engine>,
    /// A look-up that waits for the engine holds this for reading. The next bytes wait for it, because the engine's lock is not fair.
    looks: RwLock<()>,
    clock: Clock,
    changed: Notify,
    wakers: Mutex<Wakers>,
    observer: Option<Observer>,
    /// The kind of thread that writes what finds no room at once: a helper, or the driver's own.
    writer: Writer,
    /// Whether the last write found too little room.
    is_full: AtomicBool,
    own: Weak<Shared>,
}

/// Its lock, and the work after it is released.
impl Shared {
    pub(crate) fn new(
        mut engine: Engine,
        writer: Writer,
        observer: Option<Observer>,
    ) -> Arc<Shared> {
        if observer.is_some() {
            engine.is_observed();
        }
        Arc::new_cyclic(|own| Shared {
            observer,
            clock: engine.clock(),
            engine: Mutex::new(engine),
            looks: RwLock::default(),
            changed: Notify::default(),
            wakers: Mutex::default(),
            writer,
            is_full: AtomicBool::new(false),
            own: Weak::clone(own),
        })
    }

    pub(crate) fn clock(&self) -> Clock {
        self.clock
    }

    /// Locks the engine. Whoever changes it then calls [`release`](Shared::release).
    #[inline]
    pub(crate) fn lock(&self) -> MutexGuard<'_, Engine> {
        self.engine.lock().unwrap_or_else(PoisonError::into_inner)
    }

    /// The same for bytes, whose step may take long: it comes after the look-ups that already wait, so that none waits for two such steps.
    #[inline]
    pub(crate) fn lock_after_looks(&self) -> MutexGuard<'_, Engine> {
        drop(self.looks.write());
        self.lock()
    }

    /// Does something with the engine, and then hands out the answers.
    pub(crate) fn with<R>(&self, act: impl FnOnce(&mut Engine) -> R) -> R {
        let mut engine = self.lock();
        let result = act(&mut engine);
        self.release(engine);
        result
    }

    /// Takes the outcome of the call of a session without a thread, which has ended by now.
    #[inline]
    pub(crate) fn take_alone<'a>(
        &'a self,
        mut engine: MutexGuard<'a, Engine>,
        call: &AskedCall<'_>,
        now: Duration,
    ) -> CallResult {
        engine.note_alone(call, now);
        if self.observer.is_some() {
            self.release(engine);
            engine = self.lock();
        }
        engine.take_alone(call)
    }

    /// Releases the engine, so that a woken thread can have it, then writes frames and hands out answers.
    #[inline]
    pub(crate) fn release(&self, mut engine: MutexGuard<'_, Engine>) {
        engine.update_trees();
        let outbox = engine.take_to_write();
        if engine.may_have_news() {
            return self.hand_out(engine, outbox);
        }
        drop(engine);
        if let Some(outbox) = outbox {
            self.write(&outbox, self.writer, Duration::ZERO);
        }
    }

    /// The same if there may be something to hand out.
    #[inline(never)]
    fn hand_out(&self, mut engine: MutexGuard<'_, Engine>, outbox: Option<Arc<Outbox>>) {
        let news = engine.take_news();
        drop(engine);
        let observed = self.observe(&news.seen);
        if let Some(outbox) = outbox {
            self.write(&outbox, self.writer, Duration::ZERO);
        }
        self.tell(news);
        if let Err(panic) = observed {
            if !thread::panicking() {
                resume_unwind(panic);
            }
        }
    }

    /// Wakes whoever waits for news.
    fn tell(&self, news: News) {
        for slot in news.answered {
            slot.tell();
        }
        if news.wakes_all {
            self.notify_all();
        }
        for copy in news.tree_copies {
            copy.show();
            drop(copy); // it counts as a handle of its tree
            self.wake();
        }
    }

    /// Calls the observer. A panic of it goes on once everything else is handed out, because others wait for that.
    fn observe(&self, seen: &[Observation]) -> thread::Result<()> {
        let Some(observer) = &self.observer else {
            return Ok(());
        };
        let tell = || seen.iter().for_each(|seen| observer(seen));
        catch_unwind(AssertUnwindSafe(tell))
    }

    /// Wakes all waiting threads and all polled futures.
    pub(crate) fn notify_all(&self) {
        self.changed.notify_all();
        let mut wakers = self.wakers();
        if !wakers.waiting.is_empty() {
            let waiting = mem::take(&mut wakers.waiting);
            drop(wakers); // without the lock: whatever wakes may poll
            waiting.into_values().for_each(Waker::wake);
        }
    }

    fn wakers(&self) -> MutexGuard<'_, Wakers> {
        self.wakers.lock().unwrap_or_else(PoisonError::into_inner)
    }

    /// A new poller for a future.
    pub(crate) fn poller(&self) -> Poller {
        let mut wakers = self.wakers();
        wakers.last += 1;
        Poller {
            shared: Weak::clone(&self.own),
            key: wakers.last,
        }
    }

    /// Makes all waiting threads look again. It takes the lock first, so that none of them is between its look and its wait.
    pub(crate) fn wake(&self) {
        drop(self.lock());
        self.notify_all();
    }

    /// Waits until something changes, at most this long.
    fn rest<'a>(&self, engine: MutexGuard<'a, Engine>, wait: Duration) -> MutexGuard<'a, Engine> {
        self.changed.wait(engine, Some(wait.min(LONGEST_WAIT)))
    }

    /// Writes what waits for a connection, and closes one that is over. Returns whether something still waits for room.
    fn write(&self, outbox: &Arc<Outbox>, writer: Writer, wait: Duration) -> bool {
        let mut guard = PanicGuard {
            shared: self,
            is_done: false,
        };
        let written = outbox.write(writer, wait);
        guard.is_done = true;
        let is_full = written != Written::All && self.is_filled(outbox, written);
        self.is_full.store(is_full, Ordering::Relaxed);
        is_full
    }

    /// Deals with a write that left something. Returns whether something still waits for room.
    #[cold]
    fn is_filled(&self, outbox: &Arc<Outbox>, written: Written) -> bool {
        match written {
            Written::All => false,
            Written::Some => true,
            Written::WantsHelper => self.begin_to_help(outbox),
            Written::Failed => {
                self.with(|engine| engine.is_broken(outbox));
                false
            }
        }
    }

    /// Starts a thread that writes what finds no room, until nothing waits. If the system makes none, the connection is over.
    fn begin_to_help(&self, outbox: &Arc<Outbox>) -> bool {
        let Some(shared) = self.own.upgrade() else {
            return false;
        };
        let helped = Arc::clone(outbox);
        let help = move || while shared.write(&helped, Writer::Helper, WAIT_FOR_ROOM) {};
        let thread = Builder::new().name(String::from("dirwolleu"));
        if thread.spawn(help).is_err() {
            outbox.is_unhelped();
            self.with(|engine| engine.is_broken(outbox));
        }
        true
    }

    /// Goes on writing for a while, in a session without helpers. Returns whether something still waits for room.
    #[inline]
    pub(crate) fn writes_on(&self) -> bool {
        self.writer == Writer::Alone && self.is_full.load(Ordering::Relaxed) && self.goes_on()
    }

    #[cold]
    fn goes_on(&self) -> bool {
        let unwritten = self.look(Engine::unwritten);
        unwritten.is_some_and(|outbox| self.write(&outbox, Writer::Alone, WAIT_FOR_ROOM))
    }

    /// Looks at the engine, which stands still meanwhile.
    pub(crate) fn look<R>(&self, look: impl FnOnce(&Engine) -> R) -> R {
        let waits = self.looks.read();
        let engine = self.lock();
        drop(waits);
        look(&engine)
    }

    /// The same for a look that the engine notes: there is nothing to hand out.
    pub(crate) fn note<R>(&self, look: impl FnOnce(&mut Engine) -> R) -> R {
        look(&mut self.lock())
    }

    /// Waits while this holds, at most until this instant.
    pub(crate) fn wait_while(&self, until: Option<Instant>, holds: impl Fn(&Engine) -> bool) {
        let mut engine = self.lock();
        while holds(&engine) {
            let now = Instant::now();
            let left = until.map_or(LONGEST_WAIT, |until| until.saturating_duration_since(now));
            if left.is_zero() {
                return;
            }
            engine = self.rest(engine, left);
        }
    }

    /// The driver's next task, after a rest if there is time for one.
    pub(crate) fn plan(&self, now: Moment, until: Moment) -> Plan {
        let engine = self.lock();
        let plan = engine.plan(now, until);
        if let Plan::Rest(moment) = plan {
            let wait = moment.saturating_duration_since(self.clock.now());
            drop(self.rest(engine, wait));
        }
        plan
    }

    /// Returns the next event. If none waits, it waits for one until this instant. `None` if none has come, or the session is over.
    pub(crate) fn next_event(&self, until: Option<Instant>) -> Result<Option<Event>, Fault> {
        let mut engine = self.lock();
        loop {
            if let Some(event) = engine.next_event() {
                return Ok(Some(event));
            }
            engine.halt()?;
            let now = Instant::now();
            let left = until.map_or(LONGEST_WAIT, |until| until.saturating_duration_since(now));
            if engine.is_over() || left.is_zero() {
                return Ok(None);
            }
            engine = self.rest(engine, left);
        }
    }
}

/// A future's place at a session. Its waker stays until it is woken, polls again, or is dropped.
pub(crate) struct Poller {
    shared: Weak<Shared>,
    key: u64,
}

impl Poller {
    /// Looks. If it finds nothing, the next change wakes the waker of this context, maybe at once, from another thread.
    pub(crate) fn poll<R>(
        &self,
        context: &Context<'_>,
        look: impl FnOnce(&mut Engine) -> Poll<R>,
    ) -> Poll<R> {
        let Some(shared) = self.shared.upgrade() else {
            return Poll::Pending;
        };
        let waker = context.waker().clone();
        let before = shared.wakers().waiting.insert(self.key, waker);
        drop(before); // without the lock: whatever it holds may poll too
        shared.note(look)
    }
}

impl Drop for Poller {
    fn drop(&mut self) {
        if let Some(shared) = self.shared.upgrade() {
            let waker = shared.wakers().waiting.remove(&self.key);
            drop(waker);
        }
    }
}

/// Ends a session if the connection that it writes to panics.
struct PanicGuard<'a> {
    shared: &'a Shared,
    is_done: bool,
}

impl Drop for PanicGuard<'_> {
    fn drop(&mut self) {
        if !self.is_done {
            self.shared.with(Engine::panicked);
            self.shared.notify_all();
        }
    }
}

impl ExpireCalls for Shared {
    fn expire_calls(&self, limit: Moment) {
        self.with(|engine| engine.expire_calls(limit));
    }
}

/// Makes a request of a session, and returns the ticket for its answer.
pub(crate) fn ask<T>(shared: &Arc<Shared>, mut request: Request<T>) -> Ticket<T> {
    let path = mem::take(&mut request.path);
    let asking = request.lend().asking;
    let slot = Slot::new(path, asking.call, shared.clock());
    let path = slot.call().path();
    let asking = Asking { path, ..asking };
    let now = Moment::after(slot.call().at());
    let wait = shared.with(|engine| engine.ask(now, &asking, &slot));
    if wait.is_to_wake {
        shared.wake();
    }
    let session: Weak<Shared> = Arc::downgrade(shared);
    let limit = CallLimit {
        moment: wait.until,
        clock: shared.clock(),
        session,
    };
    Ticket::new(slot, request.read, limit)
}

#[cfg(test)]
mod tests {
    use super::{Shared, Writer};
    use crate::engine::tests::engine_at;
    use crate::hosts::Hosts;
    use std::cell::Cell;
    use std::sync::atomic::{AtomicUsize, Ordering};
    use std::sync::{mpsc, Arc};
    use std::thread;

    fn shared() -> Arc<Shared> {
        Shared::new(engine_at(Hosts::default()), Writer::Passing, None)
    }

    #[test]
    fn a_look_up_that_waits_goes_before_the_next_bytes() {
        const ROUNDS: usize = 200;
        let (shared, looked) = (shared(), AtomicUsize::new(0));
        let before = Cell::new(0);
        thread::scope(|scope| {
            let (look, asked) = mpsc::channel::<()>();
            let (shared, looked) = (&shared, &looked);
            scope.spawn(move || {
                for () in asked {
                    shared.look(|_| looked.fetch_add(1, Ordering::SeqCst));
                }
            });
            for round in 0..ROUNDS {
                let engine = shared.lock_after_looks();
                before.set(before.get() + usize::from(looked.load(Ordering::SeqCst) == round));
                look.send(()).unwrap();
                while shared.looks.try_write().is_ok() {
                    thread::yield_now(); // until it waits
                }
                shared.release(engine);
            }
        });
        assert_eq!(before.get(), ROUNDS);
    }
}
