//! A machine at the server in memory, which is proved to follow the model: no socket and no clock, and each test says where bytes are cut.
//! It needs `libdirwolleu_bench.a` beside the library.

use crate::bench::{self, Bench, Change};
use dirwolleu::{
    Action, Actions, Brought, DataAnswer, Fault, Machine, Mark, Mode, Moment, NodeEvent, Side,
    State, Watch,
};
use std::time::Duration;

const TIMEOUT: Duration = Duration::from_secs(6);
const START: Moment = Moment::from_millis(1_000);
const NUMBER: i64 = 77;

/// A machine and its server.
struct Pair {
    machine: Machine,
    bench: Bench,
    now: Moment,
    tickets: u64,
    /// How many bytes come at a time.
    piece: usize,
    heard: Heard,
}

/// What callers heard, and whether the machine asks for a connection.
#[derive(Default)]
struct Heard {
    said: Vec<String>,
    is_dialled: bool,
}

/// Notes what a machine reports to callers. Returns what it sends to its server.
fn read(mut actions: Actions<'_>, heard: &mut Heard) -> Vec<u8> {
    let mut sent = Vec::new();
    let said = &mut heard.said;
    while let Some(action) = actions.next().unwrap() {
        match action {
            Action::Send(frame) => sent.extend(frame.to_vec()),
            Action::Answer { outcome, .. } => {
                let reply = outcome.unwrap();
                said.push(match reply.result.unwrap() {
                    Brought::Data { data, .. } => {
                        let data = data.map(|data| data.to_vec()).unwrap_or_default();
                        format!("{} at {}", String::from_utf8(data).unwrap(), reply.zxid)
                    }
                    _ => format!("done at {}", reply.zxid),
                });
            }
            Action::Report { side, event, .. } => said.push(report(side, event)),
            Action::Dial { .. } => heard.is_dialled = true,
            Action::Renewed => said.push(String::from("renewed")),
            _ => {}
        }
    }
    sent
}

fn report(side: Side, event: NodeEvent) -> String {
    format!("{side:?} {event:?}")
}

impl Pair {
    fn new(piece: usize) -> Pair {
        Pair {
            machine: Machine::open(TIMEOUT, 1, 1).unwrap(),
            bench: Bench::new(NUMBER),
            now: START,
            tickets: 0,
            piece,
            heard: Heard::default(),
        }
    }

    /// Hands something to the machine, and moves bytes until none is on its way. Returns whether the server has the connection then.
    fn step(&mut self, hand: impl FnOnce(&mut Machine) -> Result<Actions<'_>, Fault>) -> bool {
        let mut sent = read(hand(&mut self.machine).unwrap(), &mut self.heard);
        loop {
            self.bench.hear(&sent);
            while self.bench.process() {}
            let (bytes, is_open) = self.bench.say(self.piece);
            if bytes.is_empty() {
                return is_open;
            }
            sent = read(
                self.machine.bytes(self.now, &bytes).unwrap(),
                &mut self.heard,
            );
        }
    }

    /// Connects once the machine asks for it, after a pause if there is one.
    fn connect(&mut self, number: i32) -> bool {
        let _ = read(self.machine.tick(self.now).unwrap(), &mut self.heard);
        while !self.heard.is_dialled {
            self.now = self.machine.deadline().unwrap();
            let _ = read(self.machine.tick(self.now).unwrap(), &mut self.heard);
        }
        self.heard.is_dialled = false;
        self.bench.connect(number).unwrap();
        let now = self.now;
        self.step(|machine| machine.opened(now))
    }

    fn cut(&mut self) {
        self.bench.cut();
        let _ = read(self.machine.cut(self.now).unwrap(), &mut self.heard);
    }

    /// Changes a node as another session, and lets the first server take the change.
    fn change(&mut self, path: &str, change: &Change<'_>) {
        self.bench.change(path, change).unwrap();
        self.bench.take(1);
    }

    fn read(&mut self, path: &str) {
        self.tickets += 1;
        let (now, ticket) = (self.now, self.tickets);
        assert!(self.step(|machine| machine.get_data(now, ticket, None, path, Watch::Yes)));
    }

    /// Lets the bytes that are on their way come.
    fn wait(&mut self) {
        let now = self.now;
        assert!(self.step(|machine| machine.tick(now)));
    }

    fn take_said(&mut self) -> Vec<String> {
        std::mem::take(&mut self.heard.said)
    }
}

fn mark(machine: &Machine, path: &str) -> Option<Mark> {
    let kept = machine.peek_data(path).unwrap()?;
    assert!(matches!(kept.answer, DataAnswer::Full { .. }));
    Some(kept.mark)
}

#[test]
fn what_is_marked_good_is_what_the_history_has() {
    for piece in [1, 7, 4096] {
        let mut pair = Pair::new(piece);
        pair.change("/a", &Change::Make(b"one"));
        assert!(pair.connect(1));
        pair.read("/a");
        pair.change("/a", &Change::Write(b"two"));
        assert_eq!(mark(&pair.machine, "/a"), Some(Mark::Good)); // the notice is on its way
        pair.wait();
        assert_eq!(mark(&pair.machine, "/a"), Some(Mark::Stale));
        pair.read("/a");
        let changed = report(Side::Data, NodeEvent::DataChanged);
        assert_eq!(pair.take_said(), ["one at 1", changed.as_str(), "two at 2"]);
        pair.cut();
        pair.change("/a", &Change::Write(b"three"));
        assert!(pair.connect(1)); // which brings the missed notices
        pair.read("/a");
        assert_eq!(pair.take_said(), [changed.as_str(), "three at 3"]);
    }
}

#[test]
fn a_server_that_is_behind_ends_the_connection() {
    let mut pair = Pair::new(4096);
    pair.change("/a", &Change::Make(b"one"));
    assert!(pair.connect(1));
    pair.read("/a");
    pair.cut();
    assert!(!pair.connect(2));
    assert_eq!(pair.machine.state(), State::Connecting);
    pair.cut();
    pair.bench.take(2);
    assert!(pair.connect(2));
    assert_eq!(pair.machine.state(), State::Connected);
}

#[test]
fn a_session_that_has_expired_is_told_so() {
    let mut pair = Pair::new(4096);
    assert!(pair.connect(1));
    pair.cut();
    pair.bench.expire(true);
    assert!(!pair.connect(1));
    assert_eq!(pair.take_said(), ["renewed"]);
    pair.bench.expire(false);
    assert!(pair.connect(1));
    assert_eq!(pair.machine.state(), State::Connected);
}

#[test]
fn the_server_of_another_session_learns_what_was_written() {
    let mut pair = Pair::new(4096);
    assert!(pair.connect(1));
    let (now, mode) = (pair.now, Mode::Ephemeral);
    assert!(pair.step(|machine| machine.create(now, 9, None, "/mine", Some(b"x"), mode)));
    let mut other = Bench::new(NUMBER + 1);
    assert!(other.learn(&mut pair.bench));
    assert!(!other.learn(&mut pair.bench));
    assert_eq!((other.zxid(), pair.bench.zxid()), (1, 1));
    pair.read("/mine");
    other.change("/mine", &Change::Delete).unwrap();
    assert!(pair.bench.learn(&mut other));
    pair.bench.take(1);
    pair.wait();
    let deleted = report(Side::Data, NodeEvent::Deleted);
    assert_eq!(pair.take_said(), ["done at 1", "x at 1", deleted.as_str()]);
}

#[test]
fn what_is_refused_says_why() {
    let mut bench = Bench::new(NUMBER);
    bench.change("/a", &Change::Make(b"")).unwrap();
    bench.change("/a/b", &Change::Make(b"")).unwrap();
    for (path, change, why) in [
        ("/", Change::Delete, bench::BAD_ARGUMENTS),
        ("/", Change::Make(b""), bench::NODE_EXISTS),
        ("/a", Change::Make(b""), bench::NODE_EXISTS),
        ("/b/c", Change::Make(b""), bench::NO_NODE),
        ("/b", Change::Write(b""), bench::NO_NODE),
        ("/a", Change::Delete, bench::NOT_EMPTY),
        ("b", Change::Make(b""), bench::NOT_PATH),
    ] {
        assert_eq!(bench.change(path, &change), Err(why), "{path}");
        assert_eq!(bench.zxid(), 2);
    }
    assert_eq!(bench.connect(0), Err(bench::NO_SUCH_SERVER));
}
