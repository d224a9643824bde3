//! How trees are read. The server does what each test says.

use crate::jute::{Record, EXISTS, GET_CHILDREN_2, GET_DATA, PING, PONG, SET_WATCHES, WATCHES_SET};
use crate::partner::{Line, Partner, Request};
use crate::PATIENCE;
use dirwolleu::{Code, ErrorKind, Request as Asked, Session, SubtreeNode, TreeSnapshot};
use std::mem;
use std::sync::atomic::{AtomicBool, Ordering};
use std::sync::{mpsc, Arc};
use std::thread;
use std::time::{Duration, Instant};

const TIMEOUT: Duration = Duration::from_secs(300);

/// How many reads of a tree wait for their answers, at most.
const MOST_READS: usize = 960;

/// How many children a large tree has.
const MANY: usize = 1_500;

fn millis(time: Duration) -> i32 {
    i32::try_from(time.as_millis()).unwrap()
}

fn paths(snapshot: &TreeSnapshot) -> Vec<&str> {
    let nodes = snapshot.into_iter();
    nodes.map(|node: &SubtreeNode| node.path.as_str()).collect()
}

#[test]
fn a_tree_that_never_settles_has_no_snapshot_until_it_does() {
    let is_quiet = Arc::new(AtomicBool::new(false));
    let quiet = Arc::clone(&is_quiet);
    let partner = Partner::start(move |_, mut line| {
        serve_child(&mut line, |line, xid| {
            let reply = Record::reply(xid, 5, 0).buffer(b"one");
            let reply = reply.stat(5, 0, 3, 0).framed();
            let notice = Record::notice(3, "/t/a");
            let is_quiet = quiet.load(Ordering::SeqCst);
            let told = if is_quiet {
                vec![reply]
            } else {
                vec![reply, notice]
            };
            line.send(&told.concat());
        });
    });
    let session = Session::open(partner.address, TIMEOUT).unwrap();
    let tree = session.tree("/t").unwrap();
    let late = tree.wait_for(Duration::from_millis(200)).unwrap_err();
    assert_eq!(*late.kind(), ErrorKind::NotWhole);
    assert_eq!((tree.latest(), tree.trouble()), (None, None));
    is_quiet.store(true, Ordering::SeqCst);
    let settled = tree.wait_for(PATIENCE).unwrap();
    assert_eq!(paths(&settled), ["/t", "/t/a"]);
    assert_eq!(tree.current(), Some(settled));
}

/// A server that has `/t` with the child `a`, and does as the test says with requests that the test takes.
fn serve(line: &mut Line, mut takes: impl FnMut(&mut Line, &Request) -> bool) {
    line.admit(millis(TIMEOUT));
    while let Some(request) = line.request() {
        if !takes(line, &request) {
            answer(line, &request);
        }
    }
}

fn answer(line: &mut Line, request: &Request) -> bool {
    let names: &[&str] = if is_below(request) { &[] } else { &["a"] };
    match request.kind {
        PING => line.refuse(PONG, 0),
        SET_WATCHES => line.refuse(WATCHES_SET, 0),
        GET_DATA => line.tell_data(request.xid),
        EXISTS => line.tell_stat(request.xid),
        GET_CHILDREN_2 => line.send(&listed(request, names)),
        _ => line.refuse(request.xid, -6),
    }
}

/// The answer that a node has these children.
fn listed(request: &Request, names: &[&str]) -> Vec<u8> {
    let count = i32::try_from(names.len()).unwrap();
    let reply = Record::reply(request.xid, 5, 0).texts(names);
    reply.stat(5, 0, 3, count).framed()
}

/// Whether a request is about a node below `/t`.
fn is_below(request: &Request) -> bool {
    request.rest.windows(3).any(|bytes| bytes == b"/t/")
}

/// The same if the test takes the reads of the child's data.
fn serve_child(line: &mut Line, mut child: impl FnMut(&mut Line, i32)) {
    serve(line, |line, request| {
        let is_taken = request.kind == GET_DATA && is_below(request);
        if is_taken {
            child(line, request.xid);
        }
        is_taken
    });
}

/// The time between the first two reads of a node whose first read is answered with this code, and the news. Nothing else wakes the session
/// meanwhile: its first ping is due after 100 seconds.
fn refuse_once(code: i32) -> (Duration, Vec<String>) {
    let (sender, reads) = mpsc::channel();
    let partner = Partner::start(move |_, mut line| {
        let mut is_first = true;
        serve_child(&mut line, |line, xid| {
            let _ = sender.send(Instant::now());
            if mem::replace(&mut is_first, false) {
                line.refuse(xid, code);
            } else {
                line.tell_data(xid);
            }
        });
    });
    let session = Session::open(partner.address, TIMEOUT).unwrap();
    let tree = session.tree("/t").unwrap();
    let mut told = Vec::new();
    let mut snapshots = tree.snapshots();
    loop {
        let news = snapshots.next_within(PATIENCE);
        match news.expect("the session lives") {
            Ok(snapshot) => {
                assert_eq!(snapshot.len(), 2);
                break;
            }
            Err(trouble) => {
                assert_ne!(trouble.kind(), &ErrorKind::NotWhole);
                told.push(trouble.to_string());
            }
        }
    }
    let [first, second] = [(); 2].map(|()| reads.recv_timeout(PATIENCE).unwrap());
    (second - first, told)
}

#[test]
fn a_read_that_was_refused_is_made_again_after_a_second() {
    let bounds = Duration::from_millis(999)..TIMEOUT / 4;
    let kinds = [Code::NO_AUTH, Code::THROTTLED];
    let told = thread::scope(|scope| {
        let tried = kinds.map(|code| scope.spawn(move || refuse_once(code.0)));
        tried.map(|tried| tried.join().unwrap())
    });
    for ((pause, _), code) in told.iter().zip(kinds) {
        assert!(bounds.contains(pause), "{code}: {pause:?}");
    }
    let denied = "the node's ACL does not admit this client: /t/a";
    assert_eq!(
        told.map(|(_, told)| told),
        [vec![String::from(denied)], vec![]]
    );
}

/// A read of the data of a node that does not exist leaves no watch, and the question whether it exists does. So the machine asks that
/// then, at once, and reads the data again if there is a node by now.
#[test]
fn a_node_that_was_not_there_is_asked_for() {
    let (sender, kinds) = mpsc::channel();
    let partner = Partner::start(move |_, mut line| {
        let mut is_first = true;
        serve(&mut line, |line, request| {
            let is_of_data = is_below(request) && request.kind != GET_CHILDREN_2;
            if is_of_data {
                let _ = sender.send(request.kind);
            }
            is_of_data && mem::take(&mut is_first) && line.refuse(request.xid, Code::NO_NODE.0)
        });
    });
    let session = Session::open(partner.address, TIMEOUT).unwrap();
    let tree = session.tree("/t").unwrap();
    let whole = tree.wait_for(PATIENCE);
    assert_eq!(whole.map(|all| all.len()), Ok(2), "no trouble is told");
    let kinds: Vec<_> = kinds.try_iter().collect();
    assert_eq!(kinds, [GET_DATA, EXISTS, GET_DATA]);
}

/// A server that reports a change of the child before it answers exists. Then it answers each read of the child, or none.
fn change_once(line: &mut Line, answers: bool) {
    let mut is_changed = false;
    serve(line, |line, request| {
        if request.kind == EXISTS {
            is_changed = true;
            line.send(&Record::notice(3, "/t/a"));
        }
        is_changed && is_below(request) && !answers
    });
}

#[test]
fn a_report_ends_what_is_current() {
    let partner = Partner::start(|_, mut line| change_once(&mut line, false));
    let session = Session::open(partner.address, TIMEOUT).unwrap();
    let tree = session.tree("/t").unwrap();
    let first = tree.wait_for(PATIENCE).unwrap();
    assert_eq!(tree.current().as_ref(), Some(&first));
    session.exists("/x").unwrap();
    assert_eq!(tree.current(), None);
    assert_eq!((tree.latest(), tree.trouble()), (Some(first), None));
}

#[test]
fn who_waits_for_a_tree_is_woken_where_others_take_all_events() {
    let partner = Partner::start(|_, mut line| change_once(&mut line, true));
    let session = Session::open(partner.address, TIMEOUT).unwrap().shared();
    let taking = session.clone();
    let taker = thread::spawn(move || while taking.next_event(None).unwrap().is_some() {});
    let tree = session.tree("/t").unwrap();
    let mut snapshots = tree.snapshots();
    for _ in 0..2 {
        let begun = Instant::now();
        let news = snapshots.next_within(PATIENCE).unwrap();
        assert_eq!(news.unwrap().len(), 2);
        let took = begun.elapsed();
        assert!(took < PATIENCE, "it was there, and nobody was told");
        session.exists("/x").unwrap();
    }
    let _ = session.close();
    taker.join().unwrap();
}

/// The names of the children of a large tree.
fn many_names() -> Vec<String> {
    (0..MANY).map(|number| format!("n{number}")).collect()
}

/// A server of a large tree, which reports a change of one node before it answers exists.
fn change_of_many(line: &mut Line) {
    let names = many_names();
    let names: Vec<_> = names.iter().map(String::as_str).collect();
    serve(line, |line, request| {
        if request.kind == EXISTS {
            line.send(&Record::notice(3, "/t/n7"));
        }
        let is_root = request.kind == GET_CHILDREN_2 && !is_below(request);
        is_root && line.send(&listed(request, &names))
    });
}

#[test]
fn a_large_tree_that_has_just_been_looked_at_is_looked_at_again_after_a_change() {
    let partner = Partner::start(|_, mut line| change_of_many(&mut line));
    let session = Session::open(partner.address, TIMEOUT).unwrap();
    let tree = session.tree("/t").unwrap();
    let mut snapshots = tree.snapshots();
    for _ in 0..3 {
        let begun = Instant::now();
        let news = snapshots.next_within(PATIENCE).unwrap();
        assert_eq!(news.unwrap().len(), MANY + 1);
        let took = begun.elapsed();
        assert!(took < TIMEOUT / 4, "it waits for a ping: {took:?}");
        session.exists("/x").unwrap();
    }
}

/// A server with many children, which answers no read of them before a call has come. It sends to the test how many reads it holds, once
/// they are as many as may be, and when that call comes.
fn hold_reads(line: &mut Line, holds: &mpsc::Sender<usize>) {
    let names = many_names();
    let names: Vec<_> = names.iter().map(String::as_str).collect();
    let mut held = Vec::new();
    let mut is_holding = true;
    serve(line, |line, request| {
        if request.kind == GET_CHILDREN_2 && !is_below(request) {
            return line.send(&listed(request, &names));
        }
        if is_holding && is_below(request) {
            held.push(request.clone());
            if held.len() == MOST_READS {
                let _ = holds.send(held.len());
            }
            return true;
        }
        if is_holding && request.kind == EXISTS {
            is_holding = false;
            let _ = holds.send(held.len());
            for read in held.drain(..) {
                answer(line, &read);
            }
        }
        false
    });
}

/// As many reads of the tree are on their way as may be: a call has room beside them.
#[test]
fn the_reads_of_a_large_tree_leave_room_for_a_call() {
    let (sender, held) = mpsc::channel();
    let partner = Partner::start(move |_, mut line| hold_reads(&mut line, &sender));
    let session = Session::open(partner.address, TIMEOUT).unwrap();
    let tree = session.tree("/t").unwrap();
    assert_eq!(held.recv_timeout(PATIENCE), Ok(MOST_READS));
    let asked = session.ask(Asked::exists("/x"));
    assert_eq!(held.recv_timeout(PATIENCE), Ok(MOST_READS));
    assert!(asked.wait_for(PATIENCE).unwrap().is_some());
    assert_eq!(tree.wait_for(PATIENCE).unwrap().len(), MANY + 1);
}

/// The time from the admission of a session to the read of the child, which ends the connection.
fn end_at_the_child(line: &mut Line) -> Option<Duration> {
    line.admit(millis(TIMEOUT));
    let begun = Instant::now();
    while let Some(request) = line.request() {
        if request.kind == GET_DATA && is_below(&request) {
            return Some(begun.elapsed());
        }
        answer(line, &request);
    }
    None
}

#[test]
fn a_read_that_was_lost_is_made_again_at_once() {
    let (sender, times) = mpsc::channel();
    let partner = Partner::start(move |number, mut line| match number {
        0 => drop(end_at_the_child(&mut line)),
        1..=6 => drop(sender.send(end_at_the_child(&mut line))),
        _ => serve(&mut line, |_, _| false),
    });
    let session = Session::open(partner.address, TIMEOUT).unwrap();
    let tree = session.tree("/t").unwrap();
    let whole = tree.wait_for(PATIENCE);
    assert_eq!(whole.map(|all| all.len()), Ok(2), "no loss is told");
    let least = times.try_iter().flatten().min().unwrap();
    assert!(least < Duration::from_millis(900), "{least:?}"); // and not after a second
}

#[test]
fn a_tree_is_read_anew_by_a_renewed_client() {
    let (admit, is_admitted) = mpsc::channel();
    let partner = Partner::start(move |number, mut line| {
        if number > 0 {
            is_admitted.recv_timeout(PATIENCE).unwrap();
        }
        serve(&mut line, |_, _| false);
    });
    let session = Session::open(partner.address, TIMEOUT).unwrap();
    let tree = session.tree("/t").unwrap();
    let mut snapshots = tree.snapshots();
    let first = snapshots.next().unwrap().unwrap();
    session.renew().unwrap();
    assert_eq!((tree.current(), tree.latest()), (None, Some(first.clone())));
    admit.send(()).unwrap();
    let again = snapshots.next_within(PATIENCE).unwrap().unwrap();
    assert_eq!((again.len(), tree.current()), (first.len(), Some(again)));
}

/// No read completes such a tree.
#[test]
fn a_name_that_makes_no_path_is_a_trouble() {
    let partner = Partner::start(|_, mut line| {
        serve(&mut line, |line, request| {
            request.kind == GET_CHILDREN_2 && line.send(&listed(request, &["a", ".."]))
        });
    });
    let session = Session::open(partner.address, TIMEOUT).unwrap();
    let trouble = session.tree("/t").unwrap().wait_for(PATIENCE).unwrap_err();
    let wanted = "some of what is asked for is not kept, or not good: /t; read what is lacking, with a watch";
    assert_eq!(trouble.to_string(), wanted);
}

#[test]
fn a_tree_that_nobody_has_is_read_no_more() {
    let (sender, reads) = mpsc::channel();
    let partner = Partner::start(move |_, mut line| {
        serve(&mut line, |line, request| {
            if request.kind == EXISTS {
                line.send(&Record::notice(3, "/t/a"));
            }
            if is_below(request) {
                let _ = sender.send(());
            }
            false
        });
    });
    let session = Session::open(partner.address, TIMEOUT).unwrap();
    let tree = session.tree("/t").unwrap();
    assert_eq!(tree.wait_for(PATIENCE).unwrap().len(), 2);
    assert_eq!(reads.try_iter().count(), 2);
    drop(tree);
    for _ in 0..2 {
        session.exists("/x").unwrap();
    }
    assert_eq!(reads.try_iter().count(), 0);
}

/// Watched reads of the program keep the child, so no read is missing when it asks for the tree. A change of the child and its new data
/// come at once.
#[test]
fn what_the_program_itself_has_read_again_is_shown() {
    let partner = Partner::start(|_, mut line| {
        let mut version = 0;
        serve_child(&mut line, |line, xid| {
            let reply = Record::reply(xid, 5, 0).buffer(&[version]);
            let reply = reply.stat(5, i32::from(version), 1, 0).framed();
            let mut told = Record::notice(3, "/t/a");
            if version == 0 {
                told.clear();
            }
            version += 1;
            line.send(&[told, reply].concat());
        });
    });
    let session = Session::open(partner.address, TIMEOUT).unwrap();
    let read = || session.call(Asked::get("/t/a").watched()).unwrap();
    read();
    session.call(Asked::children("/t/a").watched()).unwrap();
    let tree = session.tree("/t").unwrap();
    let mut snapshots = tree.snapshots();
    for version in 0..3 {
        let snapshot = snapshots.next_within(PATIENCE).unwrap().unwrap();
        let child = snapshot.get("/t/a").unwrap();
        assert_eq!(child.data, Some(vec![version]));
        assert_eq!(tree.current(), Some(snapshot.clone()));
        read();
    }
}
