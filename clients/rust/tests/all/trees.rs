//! Followed trees, at the server in memory. Without python3 each test that needs it says so and passes.

use crate::runtime::block_on;
use crate::server::Server;
use crate::{renewing, PATIENCE, TIMEOUT};
use dirwolleu::{
    Code, DataAnswer, Error, ErrorKind, Fault, LocalSession, Mark, Mode, NoReply, Request, Session,
    SessionOptions, Snapshots, SubtreeNode, Tree, TreeSnapshot,
};
use std::future::poll_fn;
use std::sync::Arc;
use std::thread::{self};
use std::time::{Duration, Instant};

fn server() -> Option<Server> {
    let mut server = Server::start(&[])?;
    let nodes = ["/t root", "/t/a 1", "/t/a/deep 2", "/t/b -", "/other 3"];
    for node in nodes {
        server.tell(&format!("create {node}"));
    }
    Some(server)
}

fn paths<'a>(nodes: impl IntoIterator<Item = &'a SubtreeNode>) -> Vec<&'a str> {
    nodes.into_iter().map(|node| node.path.as_str()).collect()
}

fn data<'a>(snapshot: &'a TreeSnapshot, path: &str) -> Option<&'a str> {
    let data = snapshot.get(path)?.data.as_deref()?;
    Some(std::str::from_utf8(data).unwrap())
}

/// The next news that the test wants.
fn next(snapshots: &mut Snapshots<'_>, is_wanted: impl Fn(&TreeSnapshot) -> bool) -> TreeSnapshot {
    loop {
        match snapshots.next_within(PATIENCE).expect("the session lives") {
            Ok(snapshot) if is_wanted(&snapshot) => return snapshot,
            Ok(_) => {}
            Err(error) => assert!(error.code().is_some(), "{error}"),
        }
    }
}

fn next_trouble(snapshots: &mut Snapshots<'_>) -> Error {
    loop {
        if let Err(error) = snapshots.next_within(PATIENCE).expect("the session lives") {
            return error;
        }
    }
}

#[test]
fn all_nodes_are_there_and_no_other() {
    let Some(server) = server() else { return };
    let session = renewing(&server);
    let tree = session.tree("/t").unwrap();
    let snapshot = tree.wait_for(PATIENCE).unwrap();
    let all = ["/t", "/t/a", "/t/a/deep", "/t/b"];
    assert_eq!(paths(&snapshot), all);
    assert_eq!(paths(snapshot.children("/t")), ["/t/a", "/t/b"]);
    assert_eq!(data(&snapshot, "/t/a/deep"), Some("2"));
    assert_eq!((snapshot.root(), tree.root()), ("/t", "/t"));
    assert_eq!(snapshot.zxid(), session.last_zxid());
    assert_eq!(tree.current(), Some(snapshot));
    assert_eq!(tree.trouble(), None);
}

#[test]
fn changes_are_followed_through_all() {
    let Some(mut server) = server() else { return };
    let session = renewing(&server);
    let tree = session.tree("/t").unwrap();
    let mut snapshots = tree.snapshots();
    let first = next(&mut snapshots, |_| true);
    for change in ["set /t/a 9", "delete /t/a/deep", "create /t/b/new 7"] {
        server.tell(change);
    }
    let second = next(&mut snapshots, |one| {
        one.get("/t/b/new").is_some() && one.get("/t/a/deep").is_none()
    });
    let changes = second.changes_since(Some(&first));
    assert_eq!(paths(changes.added), ["/t/b/new"]);
    assert_eq!(paths(changes.removed), ["/t/a/deep"]);
    assert_eq!(paths(changes.changed), ["/t/a"]);
    assert!(second.zxid() > first.zxid());
    assert_eq!(first.len(), 4, "a snapshot never changes");
    server.tell("down");
    server.tell("set /t/a 10");
    server.tell("up");
    let third = next(&mut snapshots, |one| data(one, "/t/a") == Some("10"));
    server.tell("expire");
    server.tell("delete /t/b/new");
    let fourth = next(&mut snapshots, |one| one.get("/t/b/new").is_none());
    assert!(fourth.zxid() > third.zxid());
    assert_eq!(tree.latest(), Some(fourth));
}

#[test]
fn a_node_that_comes_and_goes_is_there_or_not() {
    let Some(mut server) = server() else { return };
    let session = renewing(&server);
    let tree = session.tree("/t").unwrap();
    let mut snapshots = tree.snapshots();
    let first = next(&mut snapshots, |_| true);
    let made = |one: &TreeSnapshot| one.get("/t/b").map(|node| node.stat.czxid);
    for _ in 0..20 {
        server.tell("delete /t/b");
        server.tell("create /t/b again");
    }
    let again = next(&mut snapshots, |one| {
        data(one, "/t/b") == Some("again") && tree.current().as_ref() == Some(one)
    });
    assert!(made(&again) > made(&first));
    assert_eq!(paths(again.changes_since(Some(&first)).changed), ["/t/b"]);
}

#[test]
fn a_root_that_is_not_there_is_told_and_waited_for() {
    let Some(mut server) = server() else { return };
    let session = renewing(&server);
    let tree = session.tree("/later").unwrap();
    let none = tree.wait_for(PATIENCE).unwrap_err();
    assert_eq!(none.to_string(), "no node: /later");
    let mut snapshots = tree.snapshots();
    assert_eq!(next_trouble(&mut snapshots), none);
    server.tell("create /later 1");
    server.tell("create /later/one 2");
    next(&mut snapshots, |one| one.len() == 2);
    assert_eq!(tree.trouble(), None);
    server.tell("delete /later/one");
    server.tell("delete /later");
    let gone = next_trouble(&mut snapshots);
    assert_eq!((gone, tree.current()), (none, None));
    assert!(tree.latest().is_some(), "it was there at its zxid");
    server.tell("create /later 3");
    let again = next(&mut snapshots, |_| true);
    assert_eq!(data(&again, "/later"), Some("3"));
}

#[test]
fn more_nodes_than_wanted_are_told() {
    let Some(mut server) = server() else { return };
    let session = renewing(&server);
    let tree = session.bounded_tree("/t", 3).unwrap();
    let mut snapshots = tree.snapshots();
    let many = next_trouble(&mut snapshots);
    assert_eq!(*many.kind(), ErrorKind::Fault(Fault::TooManyNodes));
    assert_eq!((many.path(), tree.latest()), (Some("/t"), None));
    server.tell("delete /t/b");
    assert_eq!(next(&mut snapshots, |_| true).len(), 3);
    server.tell("create /t/b -");
    assert_eq!(next_trouble(&mut snapshots), many);
}

#[test]
fn what_is_no_tree_is_refused() {
    let session = SessionOptions::new(TIMEOUT).open_lazily([]).unwrap();
    for path in ["t", "/t/", ""] {
        let refused = session.tree(path).unwrap_err();
        assert!(matches!(refused, Fault::NotPath { .. }), "{refused}");
    }
    let tree = session.tree("/t").unwrap();
    let late = tree.wait_for(Duration::from_millis(1)).unwrap_err();
    let why = "the tree was not whole in time: /t; it is read on";
    assert_eq!(late.to_string(), why);
}

#[test]
fn a_tree_is_below_the_chroot() {
    let Some(mut server) = server() else { return };
    let below = format!("{}/t", server.address);
    let session = Session::open(below, TIMEOUT).unwrap();
    let tree = session.tree("/").unwrap();
    let mut snapshots = tree.snapshots();
    let all = next(&mut snapshots, |_| true);
    assert_eq!(paths(&all), ["/", "/a", "/a/deep", "/b"]);
    server.tell("create /t/b/new 5");
    let all = next(&mut snapshots, |_| true);
    assert_eq!(data(&all, "/b/new"), Some("5"));
    let none = session.tree("/none").unwrap().wait_for(PATIENCE);
    assert_eq!(none.unwrap_err().to_string(), "no node: /none");
}

#[test]
fn many_trees_and_calls_go_on_at_once() {
    let Some(server) = server() else { return };
    let session = renewing(&server);
    let names: Vec<_> = (0..400).map(|number| format!("/t/n{number}")).collect();
    let create = |name: &String| session.ask(Request::create(name, b"", Mode::Persistent));
    let made: Vec<_> = names.iter().map(create).collect();
    let roots = ["/t", "/t/a", "/", "/t/b", "/t"];
    let trees: Vec<Tree> = roots.map(|root| session.tree(root).unwrap()).into();
    made.into_iter()
        .for_each(|made| drop(made.wait_for(PATIENCE).unwrap()));
    for (tree, least) in trees.iter().zip([404, 2, 406, 1, 404]) {
        next(&mut tree.snapshots(), |one| one.len() >= least);
    }
    let held = trees[0].latest().unwrap();
    drop(trees);
    assert_eq!(held.children("/t").count(), 402);
}

/// When the second tree begins, the first one already keeps all of it good.
#[test]
fn trees_may_have_the_same_nodes() {
    let Some(mut server) = server() else { return };
    let session = renewing(&server);
    let trees = ["/t", "/t/a"].map(|root| {
        let tree = session.tree(root).unwrap();
        tree.wait_for(PATIENCE).unwrap();
        tree
    });
    let mut all_news: Vec<_> = trees.iter().map(Tree::snapshots).collect();
    for value in ["4", "5"] {
        server.tell(&format!("set /t/a/deep {value}"));
        for news in &mut all_news {
            next(news, |one| data(one, "/t/a/deep") == Some(value));
        }
        assert!(trees.iter().all(|tree| tree.current().is_some()));
    }
}

#[test]
fn a_transaction_is_in_a_snapshot_as_a_whole() {
    let Some(server) = server() else { return };
    let (session, writer) = (renewing(&server), renewing(&server));
    let tree = session.tree("/t").unwrap();
    let set = |word: &str| {
        let both = writer.transaction().set("/t/a", word.as_bytes(), -1);
        both.set("/t/b", word.as_bytes(), -1).commit().unwrap();
    };
    set("0");
    thread::scope(|scope| {
        scope.spawn(|| (1..=100).for_each(|number| set(&number.to_string())));
        let mut snapshots = tree.snapshots();
        let is_last = |one: &TreeSnapshot| data(one, "/t/a") == Some("100");
        next(&mut snapshots, |one| {
            let [a, b] = ["/t/a", "/t/b"].map(|path| data(one, path));
            assert!(a == b || (a, b) == (Some("1"), Some("-")), "{a:?} {b:?}");
            is_last(one)
        });
    });
}

#[test]
fn threads_look_at_one_tree() {
    let Some(mut server) = server() else { return };
    let session = renewing(&server).shared();
    let tree = Arc::new(session.tree("/t").unwrap());
    let looks: Vec<_> = (0..4)
        .map(|_| {
            let tree = Arc::clone(&tree);
            thread::spawn(move || next(&mut tree.snapshots(), |one| one.len() == 5).zxid())
        })
        .collect();
    server.tell("create /t/e 5");
    let zxids: Vec<_> = looks.into_iter().map(|one| one.join().unwrap()).collect();
    assert!(zxids.iter().all(|zxid| *zxid >= 6), "{zxids:?}");
    session.close().unwrap();
    assert!(
        tree.snapshots().nth(1).is_none(),
        "it ends with its session"
    );
    assert_eq!((tree.current(), tree.latest().is_some()), (None, true));
}

#[test]
fn an_expiry_is_told_where_nothing_is_renewed() {
    let Some(mut server) = server() else { return };
    let session = Session::open(server.address, TIMEOUT).unwrap();
    let tree = session.tree("/t").unwrap();
    let mut snapshots = tree.snapshots();
    next(&mut snapshots, |_| true);
    server.tell("expire");
    let expired = next_trouble(&mut snapshots);
    assert_eq!(expired.no_reply(), Some(NoReply::SessionExpired));
    assert!(snapshots.next().is_none() && tree.current().is_none());
    session.renew().unwrap();
    next(&mut tree.snapshots(), |one| {
        tree.current().as_ref() == Some(one)
    });
}

#[test]
fn a_session_without_a_thread_has_trees() {
    let Some(mut server) = server() else { return };
    let mut session = LocalSession::open(server.address, TIMEOUT).unwrap();
    let mut tree = session.tree("/t").unwrap();
    let until = || Some(Instant::now() + PATIENCE);
    let first = session.next_snapshot(&mut tree, until()).unwrap().unwrap();
    assert_eq!((first.len(), tree.current()), (4, Some(first.clone())));
    let soon = Some(Instant::now() + Duration::from_millis(1));
    assert_eq!(session.next_snapshot(&mut tree, soon), Ok(None));
    server.tell("set /t/a 9");
    let second = session.next_snapshot(&mut tree, until()).unwrap().unwrap();
    assert_eq!(data(&second, "/t/a"), Some("9"));
    let mut later = session.bounded_tree("/later", 2).unwrap();
    let none = session.next_snapshot(&mut later, until()).unwrap_err();
    assert_eq!(none.code(), Some(Code::NO_NODE));
    server.tell("expire");
    let expired = session.next_snapshot(&mut tree, until()).unwrap_err();
    assert_eq!(expired.no_reply(), Some(NoReply::SessionExpired));
}

#[test]
fn a_tree_is_followed_by_any_runtime() {
    let Some(mut server) = server() else { return };
    let session = renewing(&server).shared();
    let tree = session.tree("/t").unwrap();
    let mut snapshots = tree.snapshots();
    let mut next = || block_on(poll_fn(|context| snapshots.poll_next(context)));
    assert_eq!(next().unwrap().unwrap().len(), 4);
    server.tell("create /t/e 5");
    assert_eq!(next().unwrap().unwrap().len(), 5);
    session.close().unwrap();
    assert!(next().is_none() && next().is_none());
}

#[test]
fn listed_nodes_are_of_one_moment_or_there_is_none() {
    let Some(mut server) = server() else { return };
    let session = renewing(&server);
    assert_eq!(session.snapshot(&["/t/a"], &[]), Ok(None));
    session.watch("/t/a").unwrap();
    session.watch("/none").unwrap();
    session.watch_children("/t").unwrap();
    let found = session.snapshot(&["/none", "/t/a"], &["/t"]);
    let found = found.unwrap().unwrap();
    assert_eq!(found.zxid, session.last_zxid());
    assert_eq!(found.nodes[0], DataAnswer::Absent);
    assert!(matches!(&found.nodes[1], DataAnswer::Full { data: Some(data), .. } if data == b"1"));
    assert_eq!(found.children[0].names, ["a", "b"]);
    server.tell("set /t/a 2");
    let is_good = |mark| mark == Ok(Some(Mark::Good));
    while is_good(session.data_mark("/t/a")) {
        let until = Some(Instant::now() + PATIENCE);
        session.next_event(until).unwrap().expect("it is told");
    }
    assert_eq!(session.snapshot(&["/none", "/t/a"], &["/t"]), Ok(None));
    let rest = session.snapshot(&["/none"], &["/t"]).unwrap();
    assert_eq!(rest.unwrap().children, found.children);
    let nothing = session.snapshot(&[], &[]).unwrap().unwrap();
    assert_eq!(nothing.nodes.len() + nothing.children.len(), 0);
    let refused = session.snapshot(&["/t/a", "t"], &[]).unwrap_err();
    assert!(
        matches!(&refused, Fault::NotPath { path, .. } if path == "t"),
        "{refused}"
    );
}
