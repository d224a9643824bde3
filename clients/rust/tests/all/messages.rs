//! The text of errors: the reason, the path as the program named it, and what to do.

use crate::{started, TIMEOUT};
use dirwolleu::{Hosts, Machine, Mode, Moment, Session, SessionOptions, Watch, ANY_VERSION};
use std::fmt::{Debug, Display};
use std::net::{IpAddr, Ipv4Addr, SocketAddr, TcpListener};
use std::thread;
use std::time::Duration;

/// The text of an error, also when `main` returns it.
fn printed<T, E: Display + Debug>(outcome: Result<T, E>) -> String {
    let Err(error) = outcome else {
        return String::from("no error");
    };
    let words = error.to_string();
    assert_eq!(format!("{error:?}"), words);
    words
}

/// An address that nobody listens at: no system gives that port to a client.
const NOBODY: SocketAddr = SocketAddr::new(IpAddr::V4(Ipv4Addr::LOCALHOST), 1);

/// How long to search for a server: even a busy machine dials each address by then.
const SEARCH: Duration = Duration::from_secs(8);

/// A message about a search for a server, with the seconds that it says.
fn searched(message: &str, hosts: &str) -> (f64, String) {
    let begin = format!("no server{hosts} accepted the session in ");
    let rest = message.strip_prefix(&begin).expect(message);
    let (seconds, last) = rest.split_once(" s; last: ").expect(message);
    (seconds.parse().expect(message), String::from(last))
}

#[test]
fn a_refused_call_has_its_path_and_reason() {
    let Some(mut server) = started() else { return };
    server.tell("create /a one");
    let session = Session::open(server.address, TIMEOUT).unwrap();
    session.create("/a/b", b"", Mode::Ephemeral).unwrap();
    assert_eq!(printed(session.get("/nope")), "no node: /nope");
    let orphan = session.create("/x/y/z", b"", Mode::Persistent);
    assert_eq!(printed(orphan), "no node: /x/y");
    let below = session.create("/a/b/c", b"", Mode::Persistent);
    assert_eq!(printed(below), "an ephemeral node has no children: /a/b");
    let again = session.create("/a", b"", Mode::Persistent);
    assert_eq!(printed(again), "there is a node already: /a");
    let late = session.set("/a", b"", 7);
    let wanted = "the node has another version: /a; read it again";
    assert_eq!(printed(late), wanted);
    let full = session.delete("/a", ANY_VERSION);
    let wanted = "the node has children: /a; delete them first";
    assert_eq!(printed(full), wanted);
    let large = session.set("/a", &vec![0; 1 << 20], ANY_VERSION);
    let wanted =
        "the request or its answer is longer than the session allows: /a; send or read less, or raise longest_request or longest_answer";
    assert_eq!(printed(large), wanted);
}

#[test]
fn a_refused_transaction_has_the_path_of_its_operation() {
    let Some(mut server) = started() else { return };
    server.tell("create /a one");
    let session = Session::open(server.address, TIMEOUT).unwrap();
    let begin = "operation 1 was refused, and nothing has happened: ";
    let refused = session.transaction().check("/a", 0).delete("/nope", 0);
    assert_eq!(printed(refused.commit()), format!("{begin}no node: /nope"));
    let orphan = session
        .transaction()
        .check("/a", 0)
        .create("/x/y", b"", Mode::Persistent);
    assert_eq!(printed(orphan.commit()), format!("{begin}no node: /x"));
    let late = session.transaction().check("/a", 0).set("/a", b"", 7);
    let wanted = format!("{begin}the node has another version: /a; read it again");
    assert_eq!(printed(late.commit()), wanted);
    let no_path = session.transaction().delete("/a//b", 0).commit();
    let wanted = "/a//b is no path: an empty name";
    assert_eq!(printed(no_path), wanted);
}

#[test]
fn below_a_chroot_the_path_is_that_of_the_program() {
    let Some(mut server) = started() else { return };
    server.tell("create /app x");
    let below: Hosts = format!("{}/app", server.address).parse().unwrap();
    let session = Session::open(below, TIMEOUT).unwrap();
    let missing = session.get("/nope").unwrap_err();
    assert_eq!(missing.path(), Some("/nope"));
    assert_eq!(missing.to_string(), "no node: /nope");
    let orphan = session.create("/x/y", b"", Mode::Persistent);
    assert_eq!(printed(orphan), "no node: /x");
    let wanted = "/a//b is no path: an empty name";
    assert_eq!(printed(session.get("/a//b")), wanted);
    assert_eq!(printed(session.peek("/a//b")), wanted);
    let wanted = "a is no path: no slash at its beginning";
    assert_eq!(printed(session.get("a")), wanted);
    assert_eq!(printed(session.children_mark("a")), wanted);
    let almost = format!("/{}", "x".repeat(4_094));
    let message = printed(session.get(&almost));
    assert!(message.ends_with(".. is no path: more than 4096 bytes"));
}

#[test]
fn a_text_that_is_no_path_says_why() {
    let mut machine = Machine::open(TIMEOUT, 1, 1).unwrap();
    let long = format!("/{}", "x".repeat(4_096));
    let begin = &long[..256];
    for (path, why) in [
        ("", "\"\" is no path: it is empty"),
        ("a", "a is no path: no slash at its beginning"),
        ("/a//b", "/a//b is no path: an empty name"),
        ("/a/", "/a/ is no path: an empty name"),
        ("/a/../b", "/a/../b is no path: a name that is . or .."),
        (
            "/a\0",
            "/a\\u{0} is no path: a character that paths do not have",
        ),
        (
            long.as_str(),
            &format!("{begin}.. is no path: more than 4096 bytes"),
        ),
    ] {
        assert_eq!(printed(machine.peek_data(path)), why);
        assert_eq!(printed(machine.peek_children(path)), why);
        let asked = machine.exists(Moment::from_millis(1), 1, None, path, Watch::No);
        assert_eq!(printed(asked), why);
    }
    assert_eq!(printed(machine.peek_data("/")), "no error");
}

#[test]
fn where_no_server_is_there_the_last_attempt_is_told() {
    let options = SessionOptions::new(SEARCH);
    let session = options.open_lazily(NOBODY).unwrap();
    let (seconds, last) = searched(&printed(session.get("/a")), &format!(" of {NOBODY}"));
    assert!(seconds >= SEARCH.as_secs_f64(), "{seconds}");
    assert_eq!(last, format!("{NOBODY}: connection refused"));
}

#[test]
fn a_call_whose_limit_has_passed_tells_it_too() {
    let timeout = 10 * SEARCH;
    let options = SessionOptions::new(timeout).limit(SEARCH);
    let session = options.open_lazily(NOBODY).unwrap();
    let (seconds, last) = searched(&printed(session.get("/a")), &format!(" of {NOBODY}"));
    assert!(
        (SEARCH.as_secs_f64()..timeout.as_secs_f64()).contains(&seconds),
        "{seconds}"
    );
    assert_eq!(last, format!("{NOBODY}: connection refused"));
}

#[test]
fn a_server_that_says_nothing_is_told() {
    let listener = TcpListener::bind("127.0.0.1:0").unwrap();
    let address = listener.local_addr().unwrap();
    thread::spawn(move || listener.incoming().map(Result::unwrap).collect::<Vec<_>>());
    let options = SessionOptions::new(10 * SEARCH).limit(SEARCH); // before the server is left
    let session = options.open_lazily(address).unwrap();
    let (_, last) = searched(&printed(session.get("/a")), &format!(" of {address}"));
    let wanted = format!("{address}: connected, and it has not accepted the session");
    assert_eq!(last, wanted);
}

#[test]
fn who_opens_a_session_where_no_server_is_there_is_told_why() {
    let options = SessionOptions::new(TIMEOUT).shuffles(false);
    let hosts = format!("{NOBODY},127.0.0.1:2");
    let nobody = options.opens_within(SEARCH).open(hosts.as_str());
    let (seconds, last) = searched(&printed(nobody), &format!(" of {hosts}"));
    assert!(seconds >= SEARCH.as_secs_f64(), "{seconds}");
    let each = last.split("; ").map(|reason| reason.split_once(": "));
    let mut each: Vec<_> = each.map(Option::unwrap).collect();
    each.sort_unstable();
    let refused = ["127.0.0.1:1", "127.0.0.1:2"].map(|address| (address, "connection refused"));
    assert_eq!(each, refused);
}

#[test]
fn a_session_without_a_host_says_so() {
    let options = SessionOptions::new(Duration::from_secs(1));
    let session = options.open_lazily(Hosts::default()).unwrap();
    let (_, last) = searched(&printed(session.get("/a")), "");
    assert_eq!(last, "the session has no host");
}

#[test]
fn what_begins_no_session_is_told() {
    let refused = |hosts: &str, timeout| printed(Session::open(hosts, timeout));
    let wanted = "the timeout is not 1 to 2147483647 milliseconds";
    assert_eq!(refused("127.0.0.1:1", Duration::ZERO), wanted);
    assert_eq!(refused("a:1,", TIMEOUT), "'' is no HOST:PORT");
    let wanted = "/app//x is no path: an empty name";
    assert_eq!(refused("a:1/app//x", TIMEOUT), wanted);
}
