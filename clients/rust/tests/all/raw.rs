//! A session's calls whose records the core does not read: transactions, ACLs, sync and others. The server does what each test says, frame
//! by frame.

use crate::jute::{Record, EXISTS, GET_DATA, PING, PONG};
use crate::partner::{Line, Partner};
use crate::{kind_of, PATIENCE, TIMEOUT};
use dirwolleu::{
    Acl, Change, Code, Mark, Mode, NoReply, Operations, Permissions, Read, ReadAnswer, Request,
    Session, ANY_VERSION,
};
use std::sync::mpsc;

/// Types of requests, as `zookeeper.jute` has them.
const GET_ACL: i32 = 6;
const SYNC: i32 = 9;
const MULTI: i32 = 14;
const MULTI_READ: i32 = 22;
const WHO_AM_I: i32 = 107;

/// `MultiHeader`.
fn header(record: Record, kind: i32, is_end: bool) -> Record {
    record.int(kind).boolean(is_end).int(-1)
}

#[test]
fn a_transaction_is_spelled_and_read_as_the_protocol_has_it() {
    let (sender, asked) = mpsc::channel();
    let partner = Partner::start(move |_, mut line| {
        line.admit(60_000);
        let request = line.request().unwrap();
        sender
            .send((request.xid, request.kind, request.rest))
            .unwrap();
        let reply = Record::reply(request.xid, 6, 0);
        let reply = header(reply, 13, false);
        let reply = header(reply, 5, false).stat(6, 4, 3, 0);
        let reply = header(reply, 1, false).text("/app/log-0000000000");
        line.send(&header(header(reply, 2, false), -1, true).framed());
        line.serve();
    });
    let below = format!("{}/app", partner.address);
    let session = Session::open(below, TIMEOUT).unwrap();
    let transaction = session.transaction().check("/a", 3).set("/a", b"two", 3);
    let transaction = transaction.create("/log-", b"", Mode::PersistentSequential);
    let changes = transaction.delete("/b", ANY_VERSION).commit().unwrap();
    let [Change::Checked, Change::Set(stat), Change::Created(path), Change::Deleted] = &changes[..]
    else {
        panic!("{changes:?}");
    };
    assert_eq!((stat.version, path.as_str()), (4, "/log-0000000000"));
    let spelled = header(Record::new(), 13, false).text("/app/a").int(3);
    let spelled = header(spelled, 5, false)
        .text("/app/a")
        .buffer(b"two")
        .int(3);
    let spelled = header(spelled, 1, false).text("/app/log-").buffer(b"");
    let spelled = spelled.int(1).int(31).text("world").text("anyone").int(2);
    let spelled = header(spelled, 2, false).text("/app/b").int(-1);
    let spelled = header(spelled, -1, true).framed()[4..].to_vec();
    assert_eq!(asked.recv_timeout(PATIENCE), Ok((1, MULTI, spelled)));
}

#[test]
fn what_a_transaction_made_stale_is_stale_when_its_caller_goes_on() {
    let partner = Partner::answering(|line, request| {
        match request.kind {
            MULTI => {
                let reply = Record::reply(request.xid, 6, 0);
                let reply = header(header(reply, 2, false), -1, true).framed();
                line.send(&[Record::notice(2, "/a"), reply].concat())
            }
            PING => line.refuse(PONG, 0),
            GET_DATA => line.tell_data(request.xid),
            _ => line.send(&Record::reply(request.xid, 6, 0).stat(5, 0, 3, 0).framed()),
        };
    });
    let session = Session::open(partner.address, TIMEOUT).unwrap();
    session.watch("/a").unwrap();
    assert_eq!(session.data_mark("/a"), Ok(Some(Mark::Good)));
    let changes = session.transaction().delete("/a", ANY_VERSION).commit();
    assert_eq!(changes, Ok(vec![Change::Deleted]));
    assert_eq!(session.data_mark("/a"), Ok(Some(Mark::Stale)));
    assert_eq!(session.last_zxid(), 6);
}

/// A server with this last transaction. Like one of version 3.8.0, it leaves a client that has seen a later one.
fn admit_at(zxid: i64, line: &mut Line) -> bool {
    let request = line.frame().unwrap();
    let seen = i64::from_be_bytes(request[4..12].try_into().unwrap());
    seen <= zxid && line.send(&Record::accepted(60_000, 0x1234))
}

#[test]
fn a_server_that_has_not_got_a_transaction_is_left() {
    let (sender, admitted) = mpsc::channel();
    let partner = Partner::start(move |number, mut line| {
        let zxid = [40, 40, 50][number.min(2)];
        let is_admitted = admit_at(zxid, &mut line);
        sender.send(is_admitted).unwrap();
        while let Some(request) = line.request().filter(|_| is_admitted) {
            let reply = Record::reply(request.xid, 50, 0);
            match request.kind {
                MULTI => {
                    line.send(&header(reply, -1, true).framed());
                    return;
                }
                PING => line.refuse(PONG, 0),
                _ => line.tell_stat(request.xid),
            };
        }
    });
    let session = Session::open(partner.address, TIMEOUT).unwrap();
    assert_eq!(session.transaction().commit(), Ok(vec![]));
    assert!(session.call(Request::exists("/a").within(PATIENCE)).is_ok());
    assert_eq!(admitted.try_iter().collect::<Vec<_>>(), [true, false, true]);
    let saved = session.saved().unwrap();
    assert_eq!(saved.as_bytes()[28..], 50_i64.to_be_bytes());
}

/// Answers a request for an ACL.
fn tell_acls(line: &mut Line, xid: i32) -> bool {
    let reply = Record::reply(xid, 5, 0).int(1).int(1);
    let reply = reply.text("ip").text("10.0.0.0/8");
    line.send(&reply.stat(5, 0, 3, 0).framed())
}

#[test]
fn a_write_is_told_where_the_connection_ends_and_a_read_is_asked_again() {
    let partner = Partner::start(|number, mut line| {
        line.admit(60_000);
        if number == 0 {
            (0..6).for_each(|_| drop(line.request()));
            return;
        }
        while let Some(request) = line.request() {
            match request.kind {
                SYNC => line.tell_path(request.xid, "/"),
                GET_ACL => tell_acls(&mut line, request.xid),
                PING => line.refuse(PONG, 0),
                _ => line.tell_data(request.xid),
            };
        }
    });
    let session = Session::open(partner.address, TIMEOUT).unwrap();
    let sync = session.ask(Request::sync("/"));
    let node = session.ask(Request::get("/"));
    let set = session.ask(Request::set_acls("/", &[], ANY_VERSION));
    let made = session.ask(Request::create2("/a", b"", Mode::Persistent, &[]));
    let changed = session.ask(Request::transaction(Operations::new().check("/a", 0)));
    let acls = session.ask(Request::acls("/"));
    let lost = Some(NoReply::ConnectionLoss);
    assert_eq!(set.wait_for(PATIENCE).unwrap_err().no_reply(), lost);
    assert_eq!(made.wait_for(PATIENCE).unwrap_err().no_reply(), lost);
    assert_eq!(changed.wait_for(PATIENCE).unwrap_err().no_reply(), lost);
    assert_eq!(sync.wait_for(PATIENCE), Ok(()));
    assert!(node.wait_for(PATIENCE).is_ok() && acls.wait_for(PATIENCE).is_ok());
}

/// Also if it has no bytes.
#[test]
fn an_answer_that_does_not_read_ends_the_connection() {
    let partner = Partner::start(|number, mut line| {
        line.admit(60_000);
        while let Some(request) = line.request() {
            let reply = Record::reply(request.xid, 6, 0);
            match (number, request.kind) {
                (0, SYNC) => line.send(&reply.int(-7).framed()),
                (1, SYNC) => line.send(&reply.framed()),
                (_, SYNC) => line.send(&reply.text("/").framed()),
                _ => line.tell_stat(request.xid),
            };
        }
    });
    let session = Session::open(partner.address, TIMEOUT).unwrap();
    for _ in 0..2 {
        assert_eq!(kind_of(session.sync("/")), NoReply::ConnectionLoss.into());
    }
    assert_eq!(session.sync("/"), Ok(()));
}

#[test]
fn calls_that_the_core_reads_and_does_not_read_are_on_their_way_at_once() {
    let partner = Partner::answering(|line, request| {
        match request.kind {
            GET_ACL => tell_acls(line, request.xid),
            EXISTS => line.tell_stat(request.xid),
            _ => line.tell_data(request.xid),
        };
    });
    let session = Session::open(partner.address, TIMEOUT).unwrap();
    let told = [Acl::new(Permissions::READ, "ip", "10.0.0.0/8")];
    for _ in 0..20 {
        let acls = session.ask(Request::acls("/a"));
        let node = session.ask(Request::get("/a"));
        let last = session.ask(Request::acls("/b"));
        assert_eq!(last.wait_for(PATIENCE).unwrap().0, told);
        assert!(node.wait_for(PATIENCE).is_ok());
        assert_eq!(acls.wait_for(PATIENCE).unwrap().0, told);
    }
}

/// How many bytes a request has besides the data of the one node that a transaction sets: its header, two `MultiHeader`s, the path `/a`
/// after its length, the length of the data, and the version.
const BESIDE_DATA: usize = 8 + 9 + 9 + 6 + 4 + 4;

/// The most bytes of a request, as servers take them.
const LONGEST: usize = 1_048_575;

#[test]
fn a_request_is_sent_that_is_as_long_as_it_may_be() {
    let partner = Partner::answering(|line, request| {
        let reply = Record::reply(request.xid, 6, 0);
        match request.kind {
            MULTI => {
                assert_eq!(8 + request.rest.len(), LONGEST);
                let reply = header(reply, 5, false).stat(6, 4, 3, 0);
                line.send(&header(reply, -1, true).framed())
            }
            _ => line.refuse(PONG, 0),
        };
    });
    let session = Session::open(partner.address, TIMEOUT).unwrap();
    let mut data = vec![7; LONGEST - BESIDE_DATA];
    let set = |data: &[u8]| session.transaction().set("/a", data, 0).commit();
    assert_eq!(set(&data).map(|changes| changes.len()), Ok(1));
    data.push(7);
    assert_eq!(kind_of(set(&data)), NoReply::TooLarge.into());
}

#[test]
fn each_read_of_several_has_its_own_code() {
    let partner = Partner::answering(|line, request| {
        let reply = Record::reply(request.xid, 6, 0);
        match request.kind {
            MULTI_READ => {
                let reply = header(reply, 4, false).buffer(b"one");
                let reply = header(reply.stat(5, 0, 3, 0), -1, false).int(-102);
                let reply = header(reply, 8, false).texts(&["b"]);
                line.send(&header(reply, -1, true).framed())
            }
            WHO_AM_I => {
                let reply = reply.int(1).text("ip").text("127.0.0.1");
                line.send(&reply.framed())
            }
            _ => line.refuse(PONG, 0),
        };
    });
    let session = Session::open(partner.address, TIMEOUT).unwrap();
    let path = || String::from("/a");
    let reads = [
        Read::Data(path()),
        Read::Data(path()),
        Read::Children(path()),
    ];
    let mut answers = session.multi_read(&reads).unwrap();
    let names = ReadAnswer::Children(vec![String::from("b")]);
    assert_eq!(answers.pop(), Some(Ok(names)));
    assert_eq!(answers.pop(), Some(Err(Code::NO_AUTH)));
    let Some(Ok(ReadAnswer::Data(node))) = answers.pop() else {
        panic!("it brings data");
    };
    assert_eq!(node.data.as_deref(), Some(&b"one"[..]));
    assert_eq!(session.last_zxid(), 6);
    let ids = session.who_am_i().unwrap();
    assert_eq!(ids[0].to_string(), "ip:127.0.0.1");
}
