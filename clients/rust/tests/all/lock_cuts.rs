//! Locks whose connection is cut at a request of a way out: the session still gives the place up, and another one takes the lock. Without
//! python3 each test says so and passes.

use crate::jute::{CREATE, DELETE};
use crate::server::Server;
use crate::{started, PATIENCE};
use dirwolleu::{ErrorKind, Lock, LockOptions, Session, Sharing};
use std::io::{Read, Write};
use std::net::{Shutdown, SocketAddr, TcpListener, TcpStream};
use std::panic::{catch_unwind, AssertUnwindSafe};
use std::sync::{Arc, Mutex};
use std::thread::{self, sleep};
use std::time::{Duration, Instant};

/// A session lasts for longer than its test.
const TIMEOUT: Duration = Duration::from_secs(60);

/// How long a contender waits before it gives up.
const A_WHILE: Duration = Duration::from_millis(300);

/// Which part of a request and its answer is lost with its connection.
#[derive(Clone, Copy, Debug, PartialEq, Eq)]
enum Cut {
    Request,
    Answer,
}

/// The orders of a wire.
#[derive(Default)]
struct Orders {
    /// The type of the request at which it is cut next.
    next: Option<(i32, Cut)>,
    was_cut: bool,
    /// Whether it makes no connection.
    is_down: bool,
}

/// The wire between a session and its server.
struct Wire {
    address: SocketAddr,
    orders: Arc<Mutex<Orders>>,
}

impl Wire {
    fn to(server: SocketAddr) -> Wire {
        let listener = TcpListener::bind("127.0.0.1:0").unwrap();
        let address = listener.local_addr().unwrap();
        let orders = Arc::<Mutex<Orders>>::default();
        let wire = Wire {
            address,
            orders: Arc::clone(&orders),
        };
        thread::spawn(move || {
            for client in listener.incoming().map_while(Result::ok) {
                let server = TcpStream::connect(server).unwrap();
                if !orders.lock().unwrap().is_down {
                    connect(&client, &server, &orders);
                }
            }
        });
        wire
    }

    /// Cuts the connection at the next request of this type, so that it or its answer is lost.
    fn cut_at(&self, kind: i32, cut: Cut) {
        let mut orders = self.orders.lock().unwrap();
        (orders.next, orders.was_cut) = (Some((kind, cut)), false);
    }

    fn was_cut(&self) -> bool {
        self.orders.lock().unwrap().was_cut
    }

    fn set_down(&self, is_down: bool) {
        self.orders.lock().unwrap().is_down = is_down;
    }

    fn wait_for_cut(&self) {
        let until = Instant::now() + PATIENCE;
        while !self.was_cut() {
            assert!(Instant::now() < until, "nothing is cut");
            sleep(Duration::from_millis(1));
        }
    }
}

fn connect(client: &TcpStream, server: &TcpStream, orders: &Arc<Mutex<Orders>>) {
    let [client, server] = [client, server].map(|stream| stream.try_clone().unwrap());
    let (from, to) = (server.try_clone().unwrap(), client.try_clone().unwrap());
    thread::spawn(move || pass_back(from, to));
    let orders = Arc::clone(orders);
    thread::spawn(move || pass(client, server, &orders));
}

/// Passes answers on, until either side has ended the connection.
fn pass_back(mut from: TcpStream, mut to: TcpStream) {
    let mut room = [0; 65_536];
    while let Ok(count @ 1..) = from.read(&mut room) {
        if to.write_all(&room[..count]).is_err() {
            break;
        }
    }
    let _ = from.shutdown(Shutdown::Both);
    let _ = to.shutdown(Shutdown::Both);
}

/// The next frame with its length.
fn frame(from: &mut TcpStream) -> Option<Vec<u8>> {
    let mut length = [0; 4];
    from.read_exact(&mut length).ok()?;
    let mut rest = vec![0; u32::from_be_bytes(length) as usize];
    from.read_exact(&mut rest).ok()?;
    Some([&length[..], &rest].concat())
}

/// Passes requests on, until one that is to be cut. The first frame is no request.
fn pass(mut from: TcpStream, mut to: TcpStream, orders: &Mutex<Orders>) {
    let mut is_request = false;
    while let Some(frame) = frame(&mut from) {
        let kind = i32::from_be_bytes(frame[8..12].try_into().unwrap());
        let mut orders = orders.lock().unwrap();
        let next = orders.next.filter(|next| is_request && next.0 == kind);
        is_request = true;
        if let Some((_, cut)) = next {
            (orders.next, orders.was_cut) = (None, true);
            let _ = from.shutdown(Shutdown::Both);
            if cut == Cut::Answer {
                let _ = to.write_all(&frame);
                return; // and the first answer ends it
            }
            break;
        }
        if to.write_all(&frame).is_err() {
            break;
        }
    }
    let _ = from.shutdown(Shutdown::Both);
    let _ = to.shutdown(Shutdown::Both);
}

/// Each way out of a lock.
#[derive(Clone, Copy, Debug, PartialEq, Eq)]
enum Way {
    Release,
    Drop,
    Panic,
    /// It has waited for long enough.
    GiveUp,
    /// The same, while it is unknown whether it has a place.
    GiveUpUnknown,
}

/// A lock with several contenders.
struct Scene {
    server: Server,
    wire: Wire,
    path: String,
}

impl Scene {
    fn at_server(&self) -> Session {
        Session::open(self.server.address, TIMEOUT).unwrap()
    }

    fn take<'s>(&self, session: &'s Session) -> Lock<'s> {
        Lock::acquire(session, &self.path, Sharing::Exclusive, b"").unwrap()
    }

    /// Contends in vain for a while.
    fn give_up(&self, session: &Session) {
        let holder = self.at_server();
        let held = self.take(&holder);
        let late = LockOptions::new().within(A_WHILE);
        let late = late.acquire(session, &self.path).map(drop).unwrap_err();
        assert_eq!(late.kind(), &ErrorKind::LockTimeout);
        self.wire.set_down(false);
        self.wire.wait_for_cut();
        held.release().unwrap();
    }

    /// Leaves the lock this way, and is cut.
    fn leave(&self, session: &Session, way: Way, cut: Cut) {
        session.exists("/").unwrap(); // it is connected
        self.wire.cut_at(DELETE, cut);
        match way {
            Way::Release => self.take(session).release().unwrap(),
            Way::Drop => drop(self.take(session)),
            Way::Panic => {
                let panics = || {
                    let _lock = self.take(session);
                    panic!("as the test has it");
                };
                catch_unwind(AssertUnwindSafe(panics)).unwrap_err();
            }
            Way::GiveUp => self.give_up(session),
            Way::GiveUpUnknown => {
                self.wire.cut_at(CREATE, cut);
                self.wire.set_down(true);
                self.give_up(session);
            }
        }
        self.wire.wait_for_cut();
    }
}

fn leave_cut_and_have_another_one_take_it(way: Way) {
    let Some(server) = started() else { return };
    let wire = Wire::to(server.address);
    let mut scene = Scene {
        server,
        wire,
        path: String::new(),
    };
    let session = Session::open(scene.wire.address, TIMEOUT).unwrap();
    for (number, cut) in [Cut::Request, Cut::Answer].into_iter().enumerate() {
        scene.path = format!("/lock{number}");
        let other = scene.at_server();
        scene.take(&other).release().unwrap();
        scene.leave(&session, way, cut);
        let next = LockOptions::new().within(PATIENCE);
        let next = next.acquire(&other, &scene.path);
        assert!(next.is_ok(), "{way:?} {cut:?}: {:?}", next.err());
    }
    assert!(session.id().unwrap() != 0, "the session lives");
}

#[test]
fn a_release_is_cut() {
    leave_cut_and_have_another_one_take_it(Way::Release);
}

#[test]
fn a_drop_is_cut() {
    leave_cut_and_have_another_one_take_it(Way::Drop);
}

#[test]
fn a_panic_is_cut() {
    leave_cut_and_have_another_one_take_it(Way::Panic);
}

#[test]
fn one_that_gives_up_is_cut() {
    leave_cut_and_have_another_one_take_it(Way::GiveUp);
}

#[test]
fn one_that_gives_up_and_knows_no_place_is_cut() {
    leave_cut_and_have_another_one_take_it(Way::GiveUpUnknown);
}

#[test]
fn a_release_says_what_is_left() {
    let Some(server) = started() else { return };
    let wire = Wire::to(server.address);
    let session = Session::open(wire.address, Duration::from_secs(6)).unwrap();
    let lock = Lock::acquire(&session, "/lock", Sharing::Exclusive, b"").unwrap();
    wire.set_down(true);
    wire.cut_at(DELETE, Cut::Request);
    let left = lock.release().unwrap_err();
    assert_eq!(left.kind(), &ErrorKind::TimedOut);
    assert!(left.path().unwrap().starts_with("/lock/"), "{left}");
    wire.set_down(false);
    let other = Session::open(server.address, TIMEOUT).unwrap();
    let next = LockOptions::new().within(PATIENCE);
    assert!(next.acquire(&other, "/lock").is_ok());
}
