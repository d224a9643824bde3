//! A machine at servers in memory that plays the rows of `clients/cases/cuts.txt`: each 61st cut, or each Kth if `DIRWOLLEU_EVERY` is K. It
//! needs `libdirwolleu_bench.a` beside the library.

use crate::bench::{Bench, Change};
use crate::jute::{EXISTS, GET_CHILDREN_2, GET_DATA, NOTICE, SET_WATCHES};
use dirwolleu::{
    Action, Actions, DataAnswer, DataStat, Fault, Kept, Machine, Mark, Moment, Side, State,
};
use std::collections::HashMap;
use std::time::Duration;
use std::{env, thread};

const TABLE: &str = include_str!("../../../cases/cuts.txt");
const EVERY: usize = 61;

const TIMEOUT: Duration = Duration::from_secs(9);
const ADDRESSES: usize = 2;
const SEED: u64 = 1;
const NUMBER: i64 = 77;

/// How many bytes come at a time; at last, all of them.
const PIECES: [usize; 6] = [1, 2, 3, 7, 64, 4096];

/// More steps than a play has.
const MOST_STEPS: usize = 20_000;

/// How many more connections a cut makes: another one, and one to a server that is behind.
const MORE_CONNECTIONS: usize = 2;

/// How many connections are made, and how many bytes are sent and heard by servers.
#[derive(Clone, Copy, Debug, Default, PartialEq)]
struct Counts {
    connections: usize,
    sent: usize,
    heard: usize,
}

/// A case. Its first rows are done before those whose connections are cut.
#[derive(Default)]
struct Case {
    name: &'static str,
    rows: Vec<&'static str>,
    begin: usize,
    counts: Counts,
}

fn cases() -> Vec<Case> {
    let mut cases: Vec<Case> = Vec::new();
    for line in TABLE.lines() {
        if let Some(names) = line.strip_prefix("case ") {
            let (name, after) = names.split_once(' ').unwrap_or((names, ""));
            let before = cases.iter().find(|case| case.name == after);
            let rows = before.map_or(Vec::new(), |case| case.rows.clone());
            cases.push(Case {
                name,
                rows,
                ..Case::default()
            });
        } else if let Some(numbers) = line.strip_prefix("each ") {
            let case = cases.last_mut().unwrap();
            let numbers: Vec<usize> = numbers.split(' ').map(|it| it.parse().unwrap()).collect();
            case.begin = case.rows.len();
            case.counts = Counts {
                connections: numbers[0],
                sent: numbers[1],
                heard: numbers[2],
            };
        } else if line.starts_with(['!', '>', '=']) {
            cases.last_mut().unwrap().rows.push(line);
        }
    }
    cases
}

/// A description of the play, which is printed if the play fails.
struct Played(String);

impl Drop for Played {
    fn drop(&mut self) {
        if thread::panicking() {
            eprintln!("{}", self.0);
        }
    }
}

/// A subject of the session, and its lines when it was last reported good, or the tree complete.
struct Subject {
    name: &'static str,
    path: &'static str,
    most: usize,
    shown: Vec<String>,
}

impl Subject {
    fn is_tree(&self) -> bool {
        self.name == "tree"
    }

    /// How many reads of a path it may have under way: a node of a tree has two sides.
    fn most_of(&self, path: &str) -> usize {
        let rest = path.strip_prefix(self.path);
        let is_there = rest.is_some_and(|rest| rest.is_empty() || rest.starts_with('/'));
        usize::from(is_there) * if self.is_tree() { 2 } else { 1 }
    }

    /// Its lines, if it is good.
    fn look(&self, machine: &Machine) -> Vec<String> {
        let path = self.path;
        if self.is_tree() {
            let tree = machine.subtree(path, self.most).unwrap();
            let nodes = tree.unwrap_or_else(|| panic!("the tree of {path} is not good"));
            let line = |node: &dirwolleu::SubtreeNode| {
                let text = text_of(&node.path, node.data.as_deref(), &node.stat);
                format!("{text} {}", node.pzxid)
            };
            return nodes.nodes.iter().map(line).collect();
        }
        if self.name == "names" {
            let kept = good(path, machine.peek_children(path));
            return vec![format!("{path}: {} {}", kept.names.join(","), kept.pzxid)];
        }
        vec![match good(path, machine.peek_data(path)) {
            DataAnswer::Full { data, stat } => text_of(path, data.as_deref(), &stat),
            DataAnswer::Absent => format!("{path} none"),
            DataAnswer::Known(_) => panic!("the data of {path} were not read"),
        }]
    }
}

fn good<T>(path: &str, kept: Result<Option<Kept<T>>, Fault>) -> T {
    match kept.unwrap() {
        Some(Kept {
            answer,
            mark: Mark::Good,
        }) => answer,
        _ => panic!("{path} is not good"),
    }
}

/// The line of a node. What follows from its numbers is as the servers have it.
fn text_of(path: &str, data: Option<&[u8]>, stat: &DataStat) -> String {
    let data = std::str::from_utf8(data.unwrap()).unwrap();
    let times = (1_000 * stat.czxid, 1_000 * stat.mzxid);
    assert_eq!((stat.ctime, stat.mtime), times, "{path}");
    assert_eq!(usize::try_from(stat.data_length), Ok(data.len()), "{path}");
    assert_eq!(stat.ephemeral_owner, 0, "{path}");
    let shown = if data.is_empty() { "-" } else { data };
    let (made, written) = (stat.czxid, stat.mzxid);
    format!("{path} {shown} {made} {written} {}", stat.version)
}

/// After how many bytes the connection ends, if it does, and how many have passed.
#[derive(Default)]
struct Way {
    end: Option<usize>,
    passed: usize,
}

impl Way {
    /// How many of these bytes pass, and whether the last one that may pass is among them.
    fn pass(&mut self, count: usize) -> (usize, bool) {
        let left = self.end.map(|end| end - self.passed);
        let is_end = left.is_some_and(|left| count >= left);
        let count = left.map_or(count, |left| count.min(left));
        self.passed += count;
        if is_end {
            self.end = None;
        }
        (count, is_end)
    }
}

fn int_at(frame: &[u8], at: usize) -> i32 {
    i32::from_be_bytes(frame[at..at + 4].try_into().unwrap())
}

fn long_at(frame: &[u8], at: usize) -> i64 {
    i64::from_be_bytes(frame[at..at + 8].try_into().unwrap())
}

/// The stage of the connection.
#[derive(Clone, Copy, PartialEq)]
enum Stage {
    Apart,
    Dialled,
    /// Nothing is sent to the server yet.
    New,
    Open,
    /// The bytes that were sent come, and no others.
    Leaving,
}

/// The connection, the servers, and the frames in the bytes.
struct Link {
    bench: Bench,
    /// How many transactions each server has.
    taken: [i64; 1 + ADDRESSES],
    stage: Stage,
    /// The server that is dialled or connected, and the session's server, or its last one.
    asked_server: usize,
    server: usize,
    is_open: bool,
    sent: Way,
    heard: Way,
    was_cut: bool,
    connections: usize,
    /// The bytes of a frame that have come.
    frames: Vec<u8>,
    /// The reads under way: each by its xid, with its type and path.
    asked: HashMap<i32, (i32, String)>,
    /// The greatest zxid of a reply.
    seen: i64,
}

impl Link {
    fn new() -> Link {
        Link {
            bench: Bench::new(NUMBER),
            taken: [0; 1 + ADDRESSES],
            stage: Stage::Apart,
            asked_server: 1,
            server: 1,
            is_open: false,
            sent: Way::default(),
            heard: Way::default(),
            was_cut: false,
            connections: 0,
            frames: Vec::new(),
            asked: HashMap::new(),
            seen: 0,
        }
    }

    /// Changes the tree as another client.
    fn change(&mut self, path: &str, change: &Change<'_>) {
        self.bench.now_ms = 1_000 * (self.bench.zxid() + 1).unsigned_abs();
        self.bench.change(path, change).unwrap();
        self.take_all(self.server);
    }

    fn take_all(&mut self, server: usize) {
        while self.taken[server] < self.bench.zxid() {
            self.bench.take(i32::try_from(server).unwrap());
            self.taken[server] += 1;
        }
    }

    fn connect(&mut self) {
        let number = i32::try_from(self.asked_server).unwrap();
        self.bench.connect(number).unwrap();
        self.stage = Stage::New;
        self.is_open = true;
        self.frames.clear();
        self.asked.clear();
        self.connections += 1;
    }

    /// Lets nothing more come: the machine has to find that the connection is over.
    fn leave(&mut self) {
        self.bench.cut();
        if self.is_there() {
            self.stage = Stage::Leaving;
        }
    }

    fn hang_up(&mut self) {
        self.bench.cut();
        self.stage = Stage::Apart;
    }

    fn is_there(&self) -> bool {
        matches!(self.stage, Stage::New | Stage::Open | Stage::Leaving)
    }

    /// Lets the server admit the session, which it is not behind. It takes the transactions that it does not have.
    fn admit(&mut self) {
        self.server = self.asked_server;
        let taken = self.taken[self.server];
        assert!(taken >= self.seen, "{taken} is behind {}", self.seen);
        self.take_all(self.server);
    }

    /// Carries a frame of the session.
    fn carry(&mut self, frame: &[u8], subjects: &[Subject]) {
        match self.stage {
            Stage::New => self.greet(frame),
            Stage::Open => self.note(frame, subjects),
            Stage::Leaving => return,
            _ => panic!("a frame is sent, and there is no connection"),
        }
        let (count, is_end) = self.heard.pass(frame.len());
        self.bench.hear(&frame[..count]);
        while self.bench.process() {}
        if is_end {
            self.was_cut = true;
            self.stage = Stage::Leaving;
        }
    }

    /// Checks a `ConnectRequest`, which has the greatest zxid that was seen. One for another session is admitted.
    fn greet(&mut self, frame: &[u8]) {
        self.stage = Stage::Open;
        assert_eq!(long_at(frame, 8), self.seen, "a server is told another");
        if long_at(frame, 20) == 0 {
            self.bench.expire(false);
        }
    }

    /// Checks a request: a path has no more reads under way than subjects, and only one of its data and one of its names.
    fn note(&mut self, frame: &[u8], subjects: &[Subject]) {
        let (xid, kind) = (int_at(frame, 4), int_at(frame, 8));
        if kind == SET_WATCHES {
            return;
        }
        assert!([EXISTS, GET_DATA, GET_CHILDREN_2].contains(&kind), "{kind}");
        let path = std::str::from_utf8(&frame[16..frame.len() - 1]).unwrap();
        let under_way = self.asked.values().filter(|asked| asked.1 == path);
        let is_twice = |asked: &(i32, String)| kind != EXISTS && asked.0 == kind;
        let most: usize = subjects.iter().map(|subject| subject.most_of(path)).sum();
        assert!(under_way.clone().count() < most, "too many reads of {path}");
        assert!(!under_way.clone().any(is_twice), "{path} is asked twice");
        self.asked.insert(xid, (kind, path.into()));
    }

    /// Takes the next bytes that come, at most this many.
    fn take(&mut self, piece: usize) -> Vec<u8> {
        if !self.is_there() {
            return Vec::new();
        }
        let left = self.sent.end.map(|end| end - self.sent.passed);
        let (bytes, is_open) = self.bench.say(left.map_or(piece, |left| left.min(piece)));
        self.is_open = is_open;
        if !bytes.is_empty() && self.sent.pass(bytes.len()).1 {
            self.was_cut = true;
            self.leave();
        }
        self.hear(&bytes);
        bytes
    }

    /// Ends the reads that are answered. The answer to a `ConnectRequest` has no xid, and comes while no read is under way.
    fn hear(&mut self, bytes: &[u8]) {
        self.frames.extend(bytes);
        while self.frames.len() >= 4 {
            let end = 4 + usize::try_from(int_at(&self.frames, 0)).unwrap();
            if self.frames.len() < end {
                return;
            }
            let (xid, zxid) = (int_at(&self.frames, 4), long_at(&self.frames, 8));
            if xid != 0 && xid != NOTICE {
                self.asked.remove(&xid);
                self.seen = self.seen.max(zxid);
            }
            self.frames.drain(..end);
        }
    }
}

/// The world around the machine: each subject has its place as its ticket.
struct World {
    link: Link,
    subjects: Vec<Subject>,
    piece: usize,
}

/// An action of a machine that needs more than a match does.
enum Told {
    Frame(Vec<u8>),
    Shown(u64, bool),
    Other,
}

impl World {
    fn perform(&mut self, mut actions: Actions<'_>) {
        while let Some(action) = actions.next().unwrap() {
            match self.told(action) {
                Told::Frame(frame) => self.link.carry(&frame, &self.subjects),
                Told::Shown(ticket, is_tree) => self.show(ticket, is_tree, actions.machine()),
                Told::Other => {}
            }
        }
    }

    fn told(&mut self, action: Action<'_>) -> Told {
        match action {
            Action::Send(frame) => return Told::Frame(frame.to_vec()),
            Action::Shown { ticket } => return Told::Shown(ticket, false),
            Action::TreeComplete { tree } => return Told::Shown(tree, true),
            Action::Dial { place, .. } => {
                let is_apart = self.link.stage == Stage::Apart;
                assert!(is_apart, "a server is dialled, and there is a connection");
                self.link.stage = Stage::Dialled;
                self.link.asked_server = place + 1;
            }
            Action::HangUp => self.link.hang_up(),
            Action::Renewed => self.subjects.iter_mut().for_each(|it| it.shown.clear()),
            Action::State(State::Connected) => self.link.admit(),
            Action::State(_) | Action::Report { .. } => {}
            Action::MemberAdded { .. } | Action::MemberRemoved { .. } => {}
            other => panic!("{other:?} is told"),
        }
        Told::Other
    }

    /// Notes that a subject is good. For a tree [`Action::TreeComplete`] says so, and other tickets belong to its nodes.
    fn show(&mut self, ticket: u64, is_tree: bool, machine: &Machine) {
        let place = usize::try_from(ticket).unwrap();
        let subject = self.subjects.get_mut(place);
        if let Some(subject) = subject.filter(|subject| subject.is_tree() == is_tree) {
            subject.shown = subject.look(machine);
        }
    }
}

struct Play {
    machine: Machine,
    now: Moment,
    world: World,
}

impl Play {
    fn new() -> Play {
        let world = World {
            link: Link::new(),
            subjects: Vec::new(),
            piece: PIECES[PIECES.len() - 1],
        };
        Play {
            machine: Machine::open(TIMEOUT, ADDRESSES, SEED).unwrap(),
            now: Moment::from_millis(0),
            world,
        }
    }

    /// Moves what is under way by a step. Returns whether there was something.
    fn go_on(&mut self) -> bool {
        let (machine, link) = (&mut self.machine, &mut self.world.link);
        let bytes = link.take(self.world.piece);
        let actions = if !bytes.is_empty() {
            machine.bytes(self.now, &bytes)
        } else if link.stage == Stage::Dialled {
            link.connect();
            machine.opened(self.now)
        } else if link.is_there() && (link.stage == Stage::Leaving || !link.is_open) {
            link.hang_up();
            machine.cut(self.now)
        } else if machine.state() != State::Connected
            || machine.deadline().is_some_and(|due| due <= self.now)
        {
            self.now = self.now.max(machine.deadline().unwrap());
            machine.tick(self.now)
        } else {
            return false;
        };
        self.world.perform(actions.unwrap());
        true
    }

    fn happen(&mut self, words: &[&'static str]) {
        let link = &mut self.world.link;
        let bytes = |data: &&'static str| data.trim_start_matches('-').as_bytes();
        match words {
            ["level"] => (1..=ADDRESSES).for_each(|server| link.take_all(server)),
            ["create", path, data] => link.change(path, &Change::Make(bytes(data))),
            ["set", path, data] => link.change(path, &Change::Write(bytes(data))),
            ["delete", path] => link.change(path, &Change::Delete),
            ["drop"] => link.leave(),
            ["expire"] => {
                link.bench.expire(true);
                link.leave();
            }
            _ => panic!("{words:?} is no command"),
        }
    }

    fn follow(&mut self, words: &[&'static str]) {
        let (name, path) = (words[0], words[1]);
        let most = words.get(2).map_or(0, |most| most.parse().unwrap());
        let ticket = u64::try_from(self.world.subjects.len()).unwrap();
        self.world.subjects.push(Subject {
            name,
            path,
            most,
            shown: Vec::new(),
        });
        let (machine, now) = (&mut self.machine, self.now);
        let actions = match name {
            "tree" => machine.follow_tree(now, ticket, path, most),
            "names" => machine.follow(now, ticket, path, Side::Children),
            _ => machine.follow(now, ticket, path, Side::Data),
        };
        self.world.perform(actions.unwrap());
    }

    /// Checks that nothing is under way, and that these lines were shown, and are kept.
    fn expect(&mut self, wanted: &mut [&str]) {
        let steps = (0..MOST_STEPS).find(|_| !self.go_on());
        assert!(steps.is_some(), "it does not end");
        wanted.sort_unstable();
        let subjects = &self.world.subjects;
        let shown = subjects.iter().flat_map(|subject| subject.shown.clone());
        let kept = subjects.iter().flat_map(|it| it.look(&self.machine));
        for mut found in [shown.collect::<Vec<_>>(), kept.collect()] {
            found.sort_unstable();
            assert_eq!(found, wanted);
        }
    }

    fn do_rows(&mut self, rows: &[&'static str]) {
        let mut lines = Vec::new();
        for (place, row) in rows.iter().enumerate() {
            let (sign, rest) = row.split_once(' ').unwrap();
            if sign == "=" {
                lines.push(rest);
                if rows
                    .get(place + 1)
                    .map_or(true, |row| !row.starts_with('='))
                {
                    self.expect(&mut lines);
                    lines.clear();
                }
                continue;
            }
            let words: Vec<&str> = rest.split(' ').collect();
            match sign {
                "!" => self.happen(&words),
                _ => self.follow(&words),
            }
        }
    }
}

impl Case {
    /// Plays the rows. The connection ends after this many bytes that are sent or heard, which come in pieces.
    fn play(&self, sent: Option<usize>, heard: Option<usize>, piece: usize) -> Link {
        let name = self.name;
        let _played = Played(format!("{name}: sent {sent:?}, heard {heard:?}, {piece}"));
        let mut play = Play::new();
        play.do_rows(&self.rows[..self.begin]);
        let link = &mut play.world.link;
        link.connections = 0;
        link.sent = Way {
            end: sent,
            passed: 0,
        };
        link.heard = Way {
            end: heard,
            passed: 0,
        };
        play.world.piece = piece;
        play.do_rows(&self.rows[self.begin..]);
        play.world.link
    }

    /// The same, with a cut.
    fn play_cut(&self, sent: Option<usize>, heard: Option<usize>, piece: usize) {
        let link = self.play(sent, heard, piece);
        let most = self.counts.connections + MORE_CONNECTIONS;
        assert!(link.was_cut && link.connections <= most, "{}", self.name);
    }

    /// Plays without a cut: as many bytes pass as the row says, or fewer in small pieces.
    fn play_whole(&self, piece: usize) -> Counts {
        let (link, wanted) = (self.play(None, None, piece), self.counts);
        let counts = Counts {
            connections: link.connections,
            sent: link.sent.passed,
            heard: link.heard.passed,
        };
        let is_well = counts.sent <= wanted.sent && counts.heard <= wanted.heard;
        let is_small = is_well && Some(&piece) != PIECES.last();
        let is_same = counts.connections == wanted.connections;
        assert!(
            counts == wanted || (is_small && is_same),
            "{}: {counts:?}",
            self.name
        );
        counts
    }
}

/// In pieces of each size: without a cut, and after each byte whose number makes a multiple with that of the size.
#[test]
fn what_is_followed_is_shown_whatever_byte_is_the_last() {
    let every = env::var("DIRWOLLEU_EVERY").map_or(EVERY, |every| every.parse().unwrap());
    for case in cases() {
        let mut cuts = 0;
        for (size, piece) in PIECES.into_iter().enumerate() {
            let counts = case.play_whole(piece);
            let first = every - size % every;
            for cut in (first..=counts.sent).step_by(every) {
                case.play_cut(Some(cut), None, piece);
                cuts += 1;
            }
            for cut in (first..=counts.heard).step_by(every) {
                case.play_cut(None, Some(cut), piece);
                cuts += 1;
            }
        }
        println!("{}: {cuts} cuts", case.name);
    }
}
