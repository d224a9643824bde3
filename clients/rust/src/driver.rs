//! The driver of a session: it dials, reads and waits, in a thread of its own or in its caller's.

use crate::connection::{self, Connection, Dial, Incoming, Server};
use crate::engine::{Attempt, Engine, Plan, NEVER};
use crate::fault::Fault;
use crate::hosts::{Addresses, DialOrder};
use crate::moment::Moment;
use crate::request::Asking;
use crate::sasl::LogInFault;
use crate::shared::{Shared, LONGEST_WAIT, WAIT_FOR_ROOM};
use crate::ticket::{AskedCall, CallResult};
use std::io;
use std::net::SocketAddr;
use std::sync::Arc;
use std::thread;
use std::time::Duration;

/// The most bytes of one read.
const PIECE: usize = 65_536;

/// The most reads in a row before the machine gets the moment.
const MOST_PIECES: usize = 64;

/// The least time of an attempt, even if the name's look-up took all of it.
const SHORTEST_DIAL: Duration = Duration::from_millis(1);

/// How long a session waits before it tries again after memory ran out.
const WAIT_FOR_MEMORY: Duration = Duration::from_millis(10);

/// The outcome of a read. Something may have been due before it ended.
enum Received {
    /// Bytes, which the engine has.
    Bytes { is_late: bool },
    /// Nothing in time.
    Nothing { is_late: bool },
    /// The end of the connection.
    End,
}

/// Dials and reads for a session. Each session has one.
pub(crate) struct Driver {
    shared: Arc<Shared>,
    dial: Box<dyn Dial>,
    addresses: Addresses,
    incoming: Option<Box<dyn Incoming>>,
    room: Vec<u8>,
    /// The clock's time at the last look, after the last wait.
    looked: Duration,
}

impl Driver {
    pub(crate) fn new(shared: Arc<Shared>, dial: Box<dyn Dial>, order: DialOrder) -> Driver {
        Driver {
            shared,
            dial,
            addresses: Addresses::new(order),
            incoming: None,
            room: vec![0; PIECE],
            looked: Duration::ZERO,
        }
    }

    pub(crate) fn shared(&self) -> &Arc<Shared> {
        &self.shared
    }

    /// Keeps the session alive until its program drops it.
    pub(crate) fn run(mut self) {
        let _end = StopsSession(Arc::clone(&self.shared));
        loop {
            let now = self.look();
            let plan = self.shared.plan(now, NEVER);
            match self.execute(now, plan) {
                _ if plan == Plan::Stop => return,
                Err(Fault::NoMemory) => thread::sleep(WAIT_FOR_MEMORY),
                // After a halt the driver rests, and each caller gets the fault.
                Ok(()) | Err(_) => {}
            }
        }
    }

    /// Does the next task, until this moment at most.
    pub(crate) fn turn(&mut self, until: Moment) -> Result<(), Fault> {
        let now = self.look();
        let plan = self.shared.plan(now, until);
        self.execute(now, plan)
    }

    /// Makes a call of a session without a thread, and goes on until it has ended.
    pub(crate) fn call_alone(&mut self, asking: &Asking<'_>) -> CallResult {
        let clock = self.shared.clock();
        let asked = AskedCall::now(asking.path.into(), asking.call, clock);
        self.ask_alone(asked.at(), asking)?;
        loop {
            let engine = self.shared.lock();
            if engine.has_ended_alone() {
                return self.shared.take_alone(engine, &asked, self.looked);
            }
            drop(engine);
            self.turn(NEVER)?;
        }
    }

    /// Makes it at this time of the clock, once the session has caught up. Unless the call has ended by then, does the next task.
    fn ask_alone(&mut self, at: Duration, asking: &Asking<'_>) -> Result<(), Fault> {
        self.looked = at;
        let now = Moment::after(at);
        let mut engine = self.shared.lock();
        if engine.is_late(now) {
            drop(engine);
            self.catch_up()?;
            engine = self.shared.lock();
        }
        engine.ask_alone(now, asking);
        if engine.has_ended_alone() {
            self.shared.release(engine);
            return Ok(());
        }
        let plan = engine.plan(now, NEVER);
        self.shared.release(engine);
        self.execute(now, plan)
    }

    /// Looks at the clock.
    fn look(&mut self) -> Moment {
        self.looked = self.shared.clock().passed();
        Moment::after(self.looked)
    }

    #[inline]
    fn execute(&mut self, now: Moment, plan: Plan) -> Result<(), Fault> {
        if let Plan::Listen(until) = plan {
            return self.listen(now, until);
        }
        self.execute_rest(now, plan)
    }

    /// Does any task but listening.
    #[cold]
    fn execute_rest(&mut self, now: Moment, plan: Plan) -> Result<(), Fault> {
        match plan {
            Plan::Listen(_) | Plan::Stop | Plan::Rest(_) => {}
            Plan::Tick => self.shared.with(Engine::tick)?,
            Plan::Dial => self.dial()?,
            Plan::HandIn => self.shared.with(|engine| engine.hand_in(now, &[]))?,
        }
        self.look();
        Ok(())
    }

    /// Dials the server that the machine asks for.
    fn dial(&mut self) -> Result<(), Fault> {
        self.incoming = None;
        let Some(attempt) = self.shared.with(Engine::begin_attempt) else {
            return Ok(());
        };
        match self.connect(&attempt) {
            Ok((address, connection)) => {
                self.incoming = Some(connection.incoming);
                let outgoing = connection.outgoing;
                self.shared
                    .with(|engine| engine.opened(attempt.number, address, outgoing))
            }
            Err(fault) => self
                .shared
                .with(|engine| engine.has_failed(attempt.number, &fault)),
        }
    }

    /// Connects to a host. Returns its address and the connection.
    fn connect(&mut self, attempt: &Attempt) -> io::Result<(SocketAddr, Connection)> {
        let address = self.addresses.of(&attempt.host)?;
        let now = self.shared.clock().now();
        let within = attempt.until.saturating_duration_since(now);
        let server = Server::new(&attempt.host.name, address);
        let made = self.dial.dial(&server, within.max(SHORTEST_DIAL));
        let made = made.map_err(|fault| connection::fault_of(&address, &fault))?;
        Ok((address, made))
    }

    /// Hands in the next bytes of the connection. If something was due before them, catches up.
    fn listen(&mut self, now: Moment, until: Moment) -> Result<(), Fault> {
        let until = until.min(now.saturating_add(LONGEST_WAIT));
        let mut wait = until.saturating_duration_since(now);
        if self.shared.writes_on() {
            wait = wait.min(WAIT_FOR_ROOM);
        }
        match self.receive(wait)? {
            Received::Bytes { is_late } | Received::Nothing { is_late } if is_late => {
                self.catch_up()
            }
            _ => Ok(()),
        }
    }

    /// Hands in all that the connection has, and then the moment before the last read, so that a late session does not call a server silent
    /// that has answered.
    #[cold]
    fn catch_up(&mut self) -> Result<(), Fault> {
        let mut now = self.look();
        for _ in 0..MOST_PIECES {
            match self.receive(Duration::ZERO)? {
                Received::Bytes { .. } => now = self.look(),
                Received::Nothing { .. } => break,
                Received::End => return Ok(()),
            }
        }
        self.shared.with(|engine| {
            if engine.is_open() {
                engine.tick_at(now)?;
            }
            Ok(())
        })
    }

    /// Catches up if something is already due.
    pub(crate) fn catch_up_if_late(&mut self, now: Moment) -> Result<(), Fault> {
        if self.shared.look(|engine| engine.is_late(now)) {
            self.catch_up()?;
        }
        Ok(())
    }

    /// Reads once, and hands in the bytes.
    fn receive(&mut self, wait: Duration) -> Result<Received, Fault> {
        let Some(incoming) = &mut self.incoming else {
            return Ok(Received::End);
        };
        let read = incoming.read(&mut self.room, wait);
        let now = self.look();
        let mut engine = self.shared.lock_after_looks();
        let is_late = engine.is_late(now);
        let count = match read {
            Ok(count @ 1..) if engine.is_open() => count,
            read => {
                let received = received_no_bytes(&mut engine, read, is_late);
                self.shared.release(engine);
                return received;
            }
        };
        let taken = engine.hand_in(now, &self.room[..count]);
        self.shared.release(engine);
        taken.map(|()| Received::Bytes { is_late })
    }
}

/// The outcome of a read that brings no bytes to an open connection.
#[cold]
fn received_no_bytes(
    engine: &mut Engine,
    read: io::Result<usize>,
    is_late: bool,
) -> Result<Received, Fault> {
    match read {
        _ if !engine.is_open() => return Ok(Received::End),
        Err(fault) if connection::is_late(&fault) => return Ok(Received::Nothing { is_late }),
        Err(fault) => {
            if let Some(fault) = LogInFault::of(&fault) {
                engine.log_in_failed(fault);
            }
        }
        Ok(_) => {}
    }
    engine.end()?;
    Ok(Received::End)
}

/// Ends the session when its thread ends, even by a panic of a dialler or a connection, so that nobody waits any longer.
struct StopsSession(Arc<Shared>);

impl Drop for StopsSession {
    fn drop(&mut self) {
        if thread::panicking() {
            self.0.with(Engine::panicked);
        } else {
            self.0.with(Engine::stop);
        }
        self.0.notify_all();
    }
}
