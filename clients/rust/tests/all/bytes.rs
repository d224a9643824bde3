//! A machine with one address: what it says and keeps, to the byte, when bytes drive it as `zookeeper.jute` spells them.

use crate::jute::{self, Record};
use crate::machine::{connected, sent, SESSION, START, TIMEOUT};
use dirwolleu::{
    Action, Actions, Brought, Cause, Children, Code, Contender, DataAnswer, Fault, GivenUp, Kept,
    Lacking, Machine, Mark, Markers, Mode, Moment, NoReply, NodeEvent, Reply, SavedSession, Side,
    Standing, State, Subtree, Watch, ANY_VERSION,
};
use std::time::Duration;

/// Later than any pause before an address is dialled again.
const LATER: Moment = Moment::from_millis(1_000_010_000);

/// The actions as text, with all bytes.
fn said(mut actions: Actions<'_>) -> Vec<String> {
    let mut lines = Vec::new();
    while let Some(action) = actions.next().unwrap() {
        lines.push(match &action {
            Action::Send(frame) => format!("Send({:?})", frame.to_vec()),
            Action::Answer {
                outcome:
                    Ok(Reply {
                        result:
                            Ok(Brought::Data {
                                data: Some(data), ..
                            }),
                        ..
                    }),
                ..
            } => format!("{action:?} {:?}", data.to_vec()),
            Action::Drop(given_up) => format!("{action:?} {}", given_up.words().unwrap()),
            _ => format!("{action:?}"),
        });
    }
    lines
}

/// The next action's reply, to the call of this ticket.
fn reply_to<'a>(ticket: u64, actions: &'a mut Actions<'_>) -> Reply<'a> {
    match actions.next().unwrap() {
        Some(Action::Answer {
            ticket: answered,
            outcome: Ok(reply),
        }) if answered == ticket => reply,
        other => panic!("no reply: {other:?}"),
    }
}

/// The next action's state.
fn state(actions: &mut Actions<'_>) -> State {
    match actions.next().unwrap() {
        Some(Action::State(state)) => state,
        other => panic!("no state: {other:?}"),
    }
}

/// The next action's reason for giving the connection up.
fn given_up<'a>(actions: &'a mut Actions<'_>) -> GivenUp<'a> {
    match actions.next().unwrap() {
        Some(Action::Drop(given_up)) => given_up,
        other => panic!("the connection goes on: {other:?}"),
    }
}

/// Asks for data; below, for names or a `Stat`: all with a watch.
fn ask_data(machine: &mut Machine, ticket: u64, path: &str) {
    let _ = machine
        .get_data(START, ticket, None, path, Watch::Yes)
        .unwrap();
}

fn ask_names(machine: &mut Machine, ticket: u64, path: &str) {
    let _ = machine
        .get_children(START, ticket, None, path, Watch::Yes)
        .unwrap();
}

fn ask_stat(machine: &mut Machine, ticket: u64, path: &str) {
    let _ = machine
        .exists(START, ticket, None, path, Watch::Yes)
        .unwrap();
}

fn hear(machine: &mut Machine, bytes: &[u8]) {
    let _ = machine.bytes(START, bytes).unwrap();
}

/// A machine that has asked for its first connection.
fn dialling() -> Machine {
    let mut machine = Machine::open(TIMEOUT, 1, 1).unwrap();
    let _ = machine.tick(START).unwrap();
    machine
}

/// A machine that has read `/a` with a watch: the bytes `one`, at zxid 5.
fn watching() -> Machine {
    let mut machine = connected();
    ask_data(&mut machine, 7, "/a");
    let reply = Record::reply(1, 5, 0).buffer(b"one").stat(5, 0, 3, 0);
    hear(&mut machine, &reply.framed());
    machine
}

#[test]
fn a_connection_begins_with_a_connect_request() {
    let mut machine = dialling();
    assert_eq!(machine.state(), State::Idle);
    let request = Record::new().int(0).long(0).int(9_000).long(0);
    let request = request.buffer(&[0; 16]).boolean(false).framed();
    assert_eq!(sent(machine.opened(START).unwrap()), [request]);
    assert_eq!(machine.state(), State::Connecting);
    let silent_at = START.saturating_add(TIMEOUT / 3 * 2);
    assert_eq!(machine.deadline(), Some(silent_at));
    let mut actions = machine
        .bytes(START, &Record::accepted(6_000, SESSION))
        .unwrap();
    assert_eq!(state(&mut actions), State::Connected);
    assert!(actions.next().unwrap().is_none());
    assert_eq!(actions.machine().timeout(), Duration::from_secs(6));
}

/// The frame of a request: its header, the path, and the rest.
fn request(xid: i32, kind: i32, path: &str) -> Record {
    Record::new().int(xid).int(kind).text(path)
}

#[test]
fn each_call_is_spelled() {
    let mut machine = connected();
    let exists = request(1, jute::EXISTS, "/a").boolean(false);
    let actions = machine.exists(START, 1, None, "/a", Watch::No).unwrap();
    assert_eq!(sent(actions), [exists.framed()]);
    let get = request(2, jute::GET_DATA, "/a").boolean(true);
    let actions = machine.get_data(START, 1, None, "/a", Watch::Yes).unwrap();
    assert_eq!(sent(actions), [get.framed()]);
    let children = request(3, jute::GET_CHILDREN_2, "/a").boolean(true);
    let actions = machine
        .get_children(START, 1, None, "/a", Watch::Yes)
        .unwrap();
    assert_eq!(sent(actions), [children.framed()]);
    let set = request(4, jute::SET_DATA, "/a").int(-1).int(3);
    let actions = machine.set_data(START, 1, None, "/a", None, 3).unwrap();
    assert_eq!(sent(actions), [set.framed()]);
    let create = request(5, jute::CREATE, "/a/b").buffer(b"x").int(1);
    let create = create.int(31).text("world").text("anyone").int(3);
    let mode = Mode::EphemeralSequential;
    let actions = machine
        .create(START, 1, None, "/a/b", Some(b"x"), mode)
        .unwrap();
    assert_eq!(sent(actions), [create.framed()]);
    let delete = request(6, jute::DELETE, "/a").int(ANY_VERSION);
    let actions = machine.delete(START, 1, None, "/a", ANY_VERSION).unwrap();
    assert_eq!(sent(actions), [delete.framed()]);
    let close = Record::new().int(7).int(jute::CLOSE_SESSION);
    let actions = machine.close_session(START, 1, None).unwrap();
    assert_eq!(sent(actions), [close.framed()]);
}

#[test]
fn a_reply_is_read() {
    let mut machine = connected();
    ask_data(&mut machine, 7, "/a");
    let reply = Record::reply(1, 5, 0).buffer(b"one").stat(5, 2, 3, 0);
    let mut actions = machine.bytes(START, &reply.framed()).unwrap();
    let reply = reply_to(7, &mut actions);
    assert_eq!(reply.zxid, 5);
    let Ok(Brought::Data {
        data: Some(data),
        stat,
    }) = reply.result
    else {
        panic!("no data");
    };
    assert_eq!(data.to_vec(), b"one");
    let mut room = [0; 5];
    assert_eq!((data.copy_to(1, &mut room), &room), (2, b"ne\0\0\0"));
    assert_eq!((stat.czxid, stat.ctime, stat.mtime), (5, 1_000, 2_000));
    assert_eq!((stat.version, stat.data_length), (2, 3));
    assert_eq!(stat.num_children, 0);
}

#[test]
fn each_field_of_a_stat_has_its_place() {
    let mut machine = connected();
    ask_data(&mut machine, 1, "/a");
    let longs = Record::reply(1, 90, 0).buffer(b"x");
    let longs = longs.long(11).long(12).long(13).long(14);
    let ints = longs.int(15).int(16).int(17).long(18).int(19).int(20);
    hear(&mut machine, &ints.long(21).framed());
    let Some(Kept {
        answer: DataAnswer::Full { stat, .. },
        ..
    }) = machine.peek_data("/a").unwrap()
    else {
        panic!("nothing is kept");
    };
    let zxids = (stat.czxid, stat.mzxid, stat.ephemeral_owner);
    assert_eq!((zxids, stat.ctime, stat.mtime), ((11, 12, 18), 13, 14));
    assert_eq!((stat.version, stat.data_length), (15, 19));
    let _ = machine.exists(START, 2, None, "/a", Watch::No).unwrap();
    let longs = Record::reply(2, 90, 0).long(11).long(12).long(13).long(14);
    let ints = longs.int(15).int(16).int(17).long(18).int(19).int(20);
    let bytes = ints.long(21).framed();
    let mut actions = machine.bytes(START, &bytes).unwrap();
    let Ok(Brought::Stat(stat)) = reply_to(2, &mut actions).result else {
        panic!("no stat");
    };
    let zxids = (stat.czxid, stat.mzxid, stat.ephemeral_owner, stat.pzxid);
    assert_eq!((zxids, stat.ctime, stat.mtime), ((11, 12, 18, 21), 13, 14));
    assert_eq!((stat.version, stat.cversion, stat.aversion), (15, 16, 17));
    assert_eq!((stat.data_length, stat.num_children), (19, 20));
}

#[test]
fn null_data_are_no_empty_data() {
    let mut machine = connected();
    ask_data(&mut machine, 1, "/a");
    let reply = Record::reply(1, 5, 0).int(-1).stat(5, 0, 0, 0);
    let mut actions = machine.bytes(START, &reply.framed()).unwrap();
    let reply = reply_to(1, &mut actions);
    assert!(matches!(reply.result, Ok(Brought::Data { data: None, .. })));
    let Some(Kept {
        answer: DataAnswer::Full { data, .. },
        ..
    }) = machine.peek_data("/a").unwrap()
    else {
        panic!("nothing is kept");
    };
    assert_eq!(data, None);
}

/// Five answers and two notices: a server's bytes for the calls of `pieces`.
fn stream() -> Vec<u8> {
    let data = Record::reply(1, 5, 0).buffer(&[9; 700]).stat(5, 0, 700, 2);
    let names = Record::reply(2, 5, 0).texts(&["b", "c"]).stat(5, 0, 0, 2);
    let created = Record::reply(4, 6, 0).text("/s0000000003");
    [
        data.framed(),
        names.framed(),
        Record::reply(3, 5, -101).framed(),
        Record::notice(4, "/a"),
        created.framed(),
        Record::notice(3, "/a"),
        Record::reply(5, 7, 0).framed(),
    ]
    .concat()
}

/// All actions when the stream comes in pieces of this length.
fn pieces(length: usize) -> Vec<String> {
    let mut machine = connected();
    ask_data(&mut machine, 1, "/a");
    ask_names(&mut machine, 2, "/a");
    ask_stat(&mut machine, 3, "/none");
    let mode = Mode::PersistentSequential;
    let _ = machine
        .create(START, 4, None, "/s", Some(b"x"), mode)
        .unwrap();
    let _ = machine.delete(START, 5, None, "/d", ANY_VERSION).unwrap();
    let mut lines = Vec::new();
    for piece in stream().chunks(length) {
        lines.extend(said(machine.bytes(START, piece).unwrap()));
    }
    assert_eq!(machine.last_zxid(), 7);
    lines
}

#[test]
fn how_a_stream_is_cut_does_not_matter() {
    let whole = pieces(usize::MAX);
    assert_eq!(whole.len(), 7);
    assert!(whole[1].contains(r#"names: ["b", "c"]"#), "{}", whole[1]);
    assert!(whole[2].contains("Err(Code(-101))"), "{}", whole[2]);
    assert!(whole[4].contains("/s0000000003"), "{}", whole[4]);
    for length in [1, 2, 3, 7, 100] {
        assert_eq!(pieces(length), whole, "pieces of {length}");
    }
}

#[test]
fn a_watch_is_reported_once_and_its_answer_is_stale() {
    let mut machine = watching();
    assert_eq!(machine.data_mark("/a").unwrap(), Some(Mark::Good));
    let notice = Record::notice(3, "/a");
    let mut actions = machine.bytes(START, &notice).unwrap();
    let Some(Action::Report { path, side, event }) = actions.next().unwrap() else {
        panic!("no report");
    };
    assert_eq!((String::from(path).as_str(), side), ("/a", Side::Data));
    assert_eq!(event, NodeEvent::DataChanged);
    assert!(actions.next().unwrap().is_none());
    let kept = machine.peek_data("/a").unwrap().unwrap();
    assert_eq!(kept.mark, Mark::Stale);
    let DataAnswer::Full {
        data: Some(data),
        stat,
    } = kept.answer
    else {
        panic!("no data");
    };
    assert_eq!((data.as_slice(), stat.mzxid), (b"one".as_slice(), 5));
    assert!(said(machine.bytes(START, &notice).unwrap()).is_empty());
    machine.forget_stale();
    assert_eq!(machine.peek_data("/a").unwrap(), None);
}

#[test]
fn names_of_each_length_are_kept_in_byte_order() {
    let mut machine = connected();
    let long = "n".repeat(1_000);
    ask_names(&mut machine, 1, "/a");
    let reply = Record::reply(1, 5, 0)
        .texts(&["z", &long, "", "b"])
        .stat(5, 0, 0, 3);
    let mut actions = machine.bytes(START, &reply.framed()).unwrap();
    let reply = reply_to(1, &mut actions);
    let Ok(Brought::Names { names, .. }) = reply.result else {
        panic!("no names");
    };
    assert_eq!(names.iter().collect::<Vec<_>>(), ["z", &long, "", "b"]);
    assert_eq!(names.to_vec().unwrap(), ["z", &long, "", "b"]);
    let kept = machine.peek_children("/a").unwrap().unwrap();
    assert_eq!(kept.answer.names, ["", "b", &long, "z"]);
    assert_eq!((kept.answer.pzxid, kept.mark), (5, Mark::Good));
    assert_eq!(machine.children_mark("/a").unwrap(), Some(Mark::Good));
    assert_eq!(machine.peek_children("/b").unwrap(), None);
}

#[test]
fn a_subtree_is_told_once_nothing_is_lacking() {
    let mut machine = connected();
    let read = |path: &str, side| Lacking {
        path: String::from(path),
        side,
    };
    let both = |path| vec![read(path, Side::Data), read(path, Side::Children)];
    assert_eq!(machine.lacking("/a", 9).unwrap(), both("/a"));
    assert_eq!(machine.subtree("/a", 9).unwrap(), None);
    ask_data(&mut machine, 1, "/a");
    ask_names(&mut machine, 2, "/a");
    let data = Record::reply(1, 5, 0).buffer(b"one").stat(5, 2, 3, 1);
    let names = Record::reply(2, 5, 0).texts(&["b"]).stat(5, 2, 3, 1);
    let came = [data.framed(), names.framed()].concat();
    hear(&mut machine, &came);
    assert_eq!(machine.lacking("/a", 9).unwrap(), both("/a/b"));
    ask_data(&mut machine, 3, "/a/b");
    ask_names(&mut machine, 4, "/a/b");
    let data = Record::reply(3, 6, 0).int(-1).stat(6, 0, 0, 0);
    let names = Record::reply(4, 6, 0).texts(&[]).stat(6, 0, 0, 0);
    let came = [data.framed(), names.framed()].concat();
    hear(&mut machine, &came);
    assert_eq!(machine.lacking("/a", 9).unwrap(), []);
    let Subtree { zxid, nodes } = machine.subtree("/a", 2).unwrap().unwrap();
    let [root, leaf] = nodes.as_slice() else {
        panic!("{nodes:?}");
    };
    assert_eq!((zxid, root.path.as_str(), root.pzxid), (6, "/a", 5));
    assert_eq!((&root.data, &leaf.data), (&Some(b"one".to_vec()), &None));
    let (stat, of_leaf) = (root.stat, leaf.stat);
    assert_eq!((stat.version, stat.data_length), (2, 3));
    assert_eq!((stat.czxid, stat.ctime, stat.mtime), (5, 1_000, 2_000));
    assert_eq!((stat.ephemeral_owner, of_leaf.mzxid), (0, 6));
    assert_eq!(leaf.path, "/a/b");
    assert_eq!(machine.subtree("/a", 1), Err(Fault::TooManyNodes));
    assert!(matches!(
        machine.lacking("a", 1),
        Err(Fault::NotPath { .. })
    ));
}

#[test]
fn a_snapshot_is_of_several_paths_that_are_all_good() {
    let mut machine = watching();
    assert_eq!(machine.snapshot(&["/a"], &["/a"]), Ok(None));
    ask_stat(&mut machine, 8, "/known");
    ask_stat(&mut machine, 9, "/none");
    ask_names(&mut machine, 10, "/a");
    let known = Record::reply(2, 6, 0).stat(4, 1, 2, 0).framed();
    let none = Record::reply(3, 6, -101).framed();
    let names = Record::reply(4, 6, 0).texts(&["c", "b"]).stat(5, 0, 3, 2);
    let came = [known, none, names.framed()].concat();
    hear(&mut machine, &came);
    let paths = ["/none", "/a", "/known"];
    let found = machine.snapshot(&paths, &["/a"]).unwrap().unwrap();
    let [DataAnswer::Absent, DataAnswer::Full { data, stat }, DataAnswer::Known(known)] =
        found.nodes.as_slice()
    else {
        panic!("{found:?}");
    };
    assert_eq!((found.zxid, data.as_deref()), (6, Some(b"one".as_slice())));
    assert_eq!((stat.czxid, stat.version, known.version), (5, 0, 1));
    assert_eq!((known.mtime, known.data_length), (2_000, 2));
    let names = ["b", "c"].map(String::from).to_vec();
    assert_eq!(found.children, [Children { names, pzxid: 5 }]);
    let empty = machine.snapshot(&[], &[]).unwrap().unwrap();
    assert_eq!((empty.zxid, empty.nodes.len()), (6, 0));
    assert!(empty.children.is_empty());
    let refused = machine.snapshot(&["/a", "b"], &["/a"]).unwrap_err();
    let why = "b is no path: no slash at its beginning";
    assert_eq!(refused.to_string(), why);
    hear(&mut machine, &Record::notice(3, "/a"));
    assert_eq!(machine.snapshot(&paths, &["/a"]), Ok(None));
    assert!(machine.snapshot(&["/none"], &["/a"]).unwrap().is_some());
}

#[test]
fn who_holds_by_the_first_name_of_a_prefix_has_a_token() {
    let mut machine = connected();
    let own = "/l/lock-0000000007";
    ask_data(&mut machine, 1, own);
    let longs = Record::reply(1, 90, 0).buffer(b"").long(88).long(89);
    let owned = longs.long(0).long(0).int(1).int(0).int(0).long(SESSION);
    let data = owned.int(0).int(0).long(88).framed();
    hear(&mut machine, &data);
    assert_eq!(machine.holder("/l", "lock-", own), Ok(None));
    ask_names(&mut machine, 2, "/l");
    let names = ["lock-0000000007", "lock-0000000008", "a"];
    let reply = Record::reply(2, 90, 0).texts(&names).stat(80, 0, 0, 3);
    hear(&mut machine, &reply.framed());
    assert_eq!(machine.holder("/l", "lock-", own), Ok(Some(88)));
    assert_eq!(machine.holder("/l", "", own), Ok(None));
    assert_eq!(machine.holder("/", "lock-", own), Ok(None));
    for (directory, path, none) in [("l", own, "l"), ("/l", "lock-", "lock-")] {
        let fault = machine.holder(directory, "lock-", path).unwrap_err();
        assert!(matches!(fault, Fault::NotPath { path, .. } if path == none));
    }
}

#[test]
fn who_stands_first_has_a_token_and_others_wait() {
    let mut machine = connected();
    ask_data(&mut machine, 1, "/l/x-lock-0000000007");
    let longs = Record::reply(1, 90, 0).buffer(b"").long(88).long(88);
    let owned = longs.long(0).long(0).int(0).int(0).int(0).long(SESSION);
    let data = owned.int(0).int(0).long(88).framed();
    hear(&mut machine, &data);
    let names = ["a-lock-0000000008", "x-lock-0000000007", "y-0000000001"].map(String::from);
    let mut contender = Contender {
        directory: "/l",
        name: "x-lock-0000000007",
        names: &names,
        listed: 90,
        markers: Markers {
            own: "lock-",
            against: &["lock-"],
        },
    };
    let first = Standing::First { token: 88 };
    assert_eq!(machine.standing(&contender), Ok(first));
    contender.listed = 87;
    assert_eq!(machine.standing(&contender), Ok(Standing::Unsure));
    contender.name = "a-lock-0000000008";
    let rival = String::from("x-lock-0000000007");
    assert_eq!(machine.standing(&contender), Ok(Standing::After { rival }));
    contender.name = "a/b";
    assert!(matches!(
        machine.standing(&contender),
        Err(Fault::NotPath { .. })
    ));
}

#[test]
fn pings_and_silence_are_due_at_a_third_and_two_thirds() {
    let mut machine = connected();
    let ping_at = START.saturating_add(TIMEOUT / 3);
    assert_eq!(machine.deadline(), Some(ping_at));
    let ping = Record::new().int(jute::PONG).int(jute::PING).framed();
    assert_eq!(sent(machine.tick(ping_at).unwrap()), [ping]);
    let silent_at = START.saturating_add(TIMEOUT / 3 * 2);
    assert_eq!(machine.deadline(), Some(silent_at));
    let mut actions = machine.tick(silent_at).unwrap();
    let given_up = given_up(&mut actions);
    assert_eq!(given_up.cause, Cause::Silence);
    assert_eq!(String::from(given_up.code), "D1");
    assert!(!given_up.words().unwrap().is_empty());
    assert_eq!(state(&mut actions), State::Idle);
    assert!(matches!(actions.next().unwrap(), Some(Action::HangUp)));
}

#[test]
fn a_cut_answers_what_waits_and_watches_are_set_again() {
    let mut machine = watching();
    let _ = machine.delete(START, 8, None, "/b", 0).unwrap();
    let mut actions = machine.cut(START).unwrap();
    let Some(Action::Answer { ticket: 8, outcome }) = actions.next().unwrap() else {
        panic!("no answer");
    };
    assert_eq!(outcome.unwrap_err(), NoReply::ConnectionLoss);
    assert_eq!(state(&mut actions), State::Idle);
    let _ = machine.tick(LATER).unwrap();
    let _ = machine.opened(LATER).unwrap();
    let actions = machine
        .bytes(LATER, &Record::accepted(9_000, SESSION))
        .unwrap();
    let set = Record::new()
        .int(jute::WATCHES_SET)
        .int(jute::SET_WATCHES)
        .long(5);
    let set = set.texts(&["/a"]).texts(&[]).texts(&[]).framed();
    assert_eq!(sent(actions), [set]);
    assert_eq!(machine.data_mark("/a").unwrap(), Some(Mark::Good));
}

#[test]
fn a_frame_out_of_range_ends_the_connection() {
    let mut machine = connected();
    let mut actions = machine.bytes(START, &[0xFF; 4]).unwrap();
    let given_up = given_up(&mut actions);
    assert_eq!(given_up.cause, Cause::Frame);
    assert_eq!(given_up.code.to_string(), "F1");
}

#[test]
fn a_reply_that_is_behind_ends_the_connection() {
    let mut machine = watching();
    ask_stat(&mut machine, 8, "/b");
    let reply = Record::reply(2, 4, 0).stat(4, 0, 0, 0).framed();
    let mut actions = machine.bytes(START, &reply).unwrap();
    let given_up = given_up(&mut actions);
    assert_eq!(given_up.cause, Cause::Behind { zxid: 4 });
}

#[test]
fn watches_that_are_refused_end_the_connection() {
    let mut machine = watching();
    let _ = machine.cut(START).unwrap();
    let _ = machine.tick(LATER).unwrap();
    let _ = machine.opened(LATER).unwrap();
    let accepted = Record::accepted(9_000, SESSION);
    let _ = machine.bytes(LATER, &accepted).unwrap();
    let refused = Record::reply(jute::WATCHES_SET, 5, -6).framed();
    let mut actions = machine.bytes(LATER, &refused).unwrap();
    let given_up = given_up(&mut actions);
    assert_eq!(given_up.cause, Cause::WatchesRefused { code: Code(-6) });
}

#[test]
fn a_session_is_saved_and_resumed() {
    let saved = watching().saved().unwrap();
    assert_eq!((saved.id(), saved.as_bytes().len()), (Some(SESSION), 36));
    assert!(
        !format!("{saved:?}").contains("15"),
        "a password is printed"
    );
    let saved = SavedSession::from_bytes(saved.as_bytes().to_vec());
    let mut machine = Machine::resume(TIMEOUT, 1, 1, &saved).unwrap();
    let _ = machine.tick(START).unwrap();
    let password: Vec<u8> = (0..16).collect();
    let request = Record::new().int(0).long(5).int(9_000).long(SESSION);
    let request = request.buffer(&password).boolean(false).framed();
    assert_eq!(sent(machine.opened(START).unwrap()), [request]);
}

#[test]
fn the_revision_rises_where_something_may_have_changed() {
    assert_eq!(Machine::open(TIMEOUT, 1, 1).unwrap().revision(), 1);
    let mut machine = watching();
    assert_eq!(machine.revision(), 1 + 3, "connecting, and bytes twice");
    ask_data(&mut machine, 8, "/b");
    let _ = machine.tick(START).unwrap();
    assert_eq!(machine.revision(), 1 + 3);
    hear(&mut machine, &Record::notice(3, "/a"));
    assert_eq!(machine.revision(), 1 + 4, "bytes");
    let _ = machine.cut(START).unwrap();
    assert_eq!(machine.revision(), 1 + 5, "idle");
}

#[test]
fn what_is_no_timeout_or_session_is_refused() {
    let too_long = Duration::from_millis(1 << 31);
    for timeout in [Duration::ZERO, Duration::from_micros(999), too_long] {
        assert_eq!(Machine::open(timeout, 1, 1).unwrap_err(), Fault::BadTimeout);
    }
    let short = SavedSession::from_bytes(vec![0; 19]);
    let resumed = Machine::resume(TIMEOUT, 1, 1, &short);
    assert_eq!(resumed.unwrap_err(), Fault::NotSaved);
}

#[test]
fn what_is_no_path_is_refused() {
    let mut machine = connected();
    for path in ["", "a", "/a/", "//", "/a//b", "/a/../b", "/a\0"] {
        let asked = machine.get_data(START, 1, None, path, Watch::No).map(said);
        let fault = asked.unwrap_err();
        assert!(
            matches!(fault, Fault::NotPath { .. }),
            "{path:?}: {fault:?}"
        );
        let followed = machine.follow(START, 1, path, Side::Data).map(said);
        assert_eq!(followed, Err(fault.clone()), "{path:?}");
        let followed = machine.follow_tree(START, 1, path, 9).map(said);
        assert_eq!(followed, Err(fault.clone()), "{path:?}");
        assert_eq!(machine.peek_data(path), Err(fault), "{path:?}");
    }
    assert_eq!(machine.state(), State::Connected);
}

#[test]
fn outputs_that_were_not_taken_are_forgotten() {
    let mut machine = connected();
    let _ = machine.exists(START, 1, None, "/a", Watch::No).unwrap();
    assert!(said(machine.tick(START).unwrap()).is_empty());
    assert!(said(machine.tick(START).unwrap()).is_empty());
}

#[test]
fn a_machine_moves_between_places_and_threads() {
    fn is_send<T: Send>() {}
    is_send::<Machine>();
    is_send::<Actions<'_>>();
    is_send::<dirwolleu::Session>();
    is_send::<dirwolleu::LocalLock>();
    let mut machines = vec![watching()];
    machines.extend([watching(), connected()]);
    let mut first = Box::new(machines.remove(0));
    let thread = std::thread::spawn(move || {
        let lines = said(first.bytes(START, &Record::notice(2, "/a")).unwrap());
        (first, lines)
    });
    let (first, lines) = thread.join().unwrap();
    assert_eq!(lines.len(), 1);
    assert_eq!(first.data_mark("/a").unwrap(), Some(Mark::Stale));
    assert_eq!(machines[0].data_mark("/a").unwrap(), Some(Mark::Good));
}
