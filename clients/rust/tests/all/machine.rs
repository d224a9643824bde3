//! A machine that is driven by bytes, as `zookeeper.jute` spells them, and by moments.

use crate::jute::Record;
use dirwolleu::{
    Action, Actions, Brought, Code, DataAnswer, Fault, Machine, Mark, Moment, NoReply,
    RawOperation, Refusal, Reply, Side, State, Watch,
};
use std::time::Duration;

pub const TIMEOUT: Duration = Duration::from_secs(9);
pub const START: Moment = Moment::from_millis(1_000_000_000);
pub const SESSION: i64 = 0x1234_5678;

fn after(millis: u64) -> Moment {
    START.saturating_add(Duration::from_millis(millis))
}

/// The actions as text, without the bytes of frames.
fn said(mut actions: Actions<'_>) -> Vec<String> {
    let mut lines = Vec::new();
    while let Some(action) = actions.next().unwrap() {
        lines.push(match action {
            Action::Dial { place, within } => format!("dial {place} within {within:?}"),
            Action::HangUp => String::from("hang up"),
            Action::Send(frame) => format!("send {}", kind_of(&frame.to_vec())),
            Action::Answer { ticket, outcome } => format!("{ticket}: {}", answer_of(outcome)),
            Action::TimedOut { ticket, was_sent } => format!("{ticket}: late, sent {was_sent}"),
            Action::Report { path, side, event } => format!("{path}: {side:?} {event:?}"),
            Action::State(state) => format!("{state:?}"),
            Action::Drop(given_up) => format!("drop {}", given_up.code),
            Action::Renewed => String::from("renewed"),
            Action::Shown { ticket } => format!("{ticket}: shown"),
            Action::Refused { ticket, reason } => format!("{ticket}: refused, {reason:?}"),
            Action::MemberAdded { ticket, path, .. } => format!("{ticket}: {path} is taken on"),
            Action::MemberRemoved { ticket, .. } => format!("{ticket}: let go"),
            Action::TreeComplete { tree } => format!("{tree}: whole"),
            other => format!("{other:?}"),
        });
    }
    lines
}

/// The type of a request, by its frame, or `connect` if it has none.
fn kind_of(frame: &[u8]) -> String {
    if frame.len() == 4 + 45 {
        return String::from("connect");
    }
    i32::from_be_bytes(frame[8..12].try_into().unwrap()).to_string()
}

fn answer_of(outcome: Result<Reply<'_>, NoReply>) -> String {
    match outcome.map(|reply| reply.result) {
        Ok(Ok(Brought::Data { data, .. })) => String::from_utf8(data.unwrap().to_vec()).unwrap(),
        Ok(Ok(other)) => format!("{other:?}"),
        Ok(Err(code)) => format!("code {}", code.0),
        Err(reason) => format!("{reason:?}"),
    }
}

/// The actions when these bytes come.
fn heard(machine: &mut Machine, now: Moment, bytes: &[u8]) -> Vec<String> {
    said(machine.bytes(now, bytes).unwrap())
}

/// The actions at a moment.
fn ticked(machine: &mut Machine, now: Moment) -> Vec<String> {
    said(machine.tick(now).unwrap())
}

/// A machine with one address, which a server has accepted.
pub fn connected() -> Machine {
    let mut machine = Machine::open(TIMEOUT, 1, 1).unwrap();
    assert_eq!(ticked(&mut machine, START), ["dial 0 within 3s"]);
    assert_eq!(
        said(machine.opened(START).unwrap()),
        ["send connect", "Connecting"]
    );
    let accepted = Record::accepted(9_000, SESSION);
    assert_eq!(heard(&mut machine, START, &accepted), ["Connected"]);
    machine
}

/// Connects again, after a pause that is surely over.
fn connect_again(machine: &mut Machine, now: Moment) -> Vec<String> {
    assert_eq!(ticked(machine, now), ["dial 0 within 3s"]);
    let _ = machine.opened(now).unwrap();
    let accepted = Record::accepted(9_000, SESSION);
    heard(machine, now, &accepted)
}

fn names(xid: i32, zxid: i64, names: &[&str]) -> Vec<u8> {
    let count = i32::try_from(names.len()).unwrap();
    let reply = Record::reply(xid, zxid, 0).texts(names);
    reply.stat(zxid, 0, 0, count).framed()
}

fn data(xid: i32, zxid: i64, text: &str) -> Vec<u8> {
    let length = i32::try_from(text.len()).unwrap();
    let reply = Record::reply(xid, zxid, 0).buffer(text.as_bytes());
    reply.stat(zxid, 0, length, 0).framed()
}

#[test]
fn a_subject_is_read_again_after_each_report() {
    let mut machine = connected();
    let actions = machine.follow(START, 7, "/a", Side::Data).unwrap();
    assert_eq!(said(actions), ["send 4"]);
    assert_eq!(heard(&mut machine, START, &data(1, 5, "one")), ["7: shown"]);
    let kept = machine.peek_data("/a").unwrap().unwrap();
    assert!(matches!(&kept.answer, DataAnswer::Full { data: Some(data), .. } if data == b"one"));
    assert_eq!(kept.mark, Mark::Good);
    assert_eq!(
        heard(&mut machine, START, &Record::notice(3, "/a")),
        ["/a: Data DataChanged", "send 4"]
    );
    assert_eq!(machine.data_mark("/a"), Ok(Some(Mark::Stale)));
    assert_eq!(heard(&mut machine, START, &data(2, 6, "two")), ["7: shown"]);
    let _ = machine.bytes(START, &Record::notice(3, "/a")).unwrap();
    assert_eq!(said(machine.unfollow(START, 7).unwrap()), [""; 0]);
    assert_eq!(heard(&mut machine, START, &data(3, 7, "three")), [""; 0]);
}

/// The ticket of the first node of a tree that is not the data of its root.
const FIRST: u64 = 1 << 63;

#[test]
fn a_tree_is_followed_as_its_names_come() {
    let mut machine = connected();
    let [first, second, third] = [FIRST, FIRST + 1, FIRST + 2];
    let actions = machine.follow_tree(START, 7, "/a", 2).unwrap();
    let root = [
        String::from("7: /a is taken on"),
        format!("{first}: /a is taken on"),
        String::from("send 4"),
        String::from("send 12"),
    ];
    assert_eq!(said(actions), root);
    assert_eq!(heard(&mut machine, START, &data(1, 5, "one")), ["7: shown"]);
    assert_eq!(
        heard(&mut machine, START, &names(2, 5, &["b"])),
        [format!("{first}: shown")]
    );
    assert_eq!(machine.deadline(), Some(START));
    let below = [
        format!("{second}: /a/b is taken on"),
        format!("{third}: /a/b is taken on"),
        String::from("send 4"),
        String::from("send 12"),
    ];
    assert_eq!(ticked(&mut machine, START), below);
    assert_eq!(
        heard(&mut machine, START, &data(3, 5, "two")),
        [format!("{second}: shown")]
    );
    assert_eq!(
        heard(&mut machine, START, &names(4, 5, &[])),
        [format!("{third}: shown")]
    );
    assert_eq!(ticked(&mut machine, START), ["7: whole"]);
    let tickets = [7, first, second, third];
    let lines = said(machine.unfollow_tree(START, 7).unwrap());
    assert_eq!(lines, tickets.map(|ticket| format!("{ticket}: let go")));
}

#[test]
fn a_tree_of_more_nodes_than_its_bound_is_told() {
    let mut machine = connected();
    let _ = machine.follow_tree(START, 7, "/a", 1).unwrap();
    let _ = machine.bytes(START, &data(1, 5, "one")).unwrap();
    let _ = machine.bytes(START, &names(2, 5, &["b"])).unwrap();
    let mut actions = machine.tick(START).unwrap();
    let Ok(Some(Action::TreeBounded { tree, is_bounded })) = actions.next() else {
        panic!("the bound is not told");
    };
    assert_eq!((tree, is_bounded), (7, true));
    assert_eq!(said(actions), [""; 0]);
}

#[test]
fn stale_answers_are_forgotten_and_good_ones_stay() {
    let mut machine = connected();
    let _ = machine.follow(START, 7, "/a", Side::Data).unwrap();
    let _ = machine.bytes(START, &data(1, 5, "one")).unwrap();
    machine.forget_stale();
    assert_eq!(machine.data_mark("/a"), Ok(Some(Mark::Good)));
    let _ = machine.bytes(START, &Record::notice(3, "/a")).unwrap();
    machine.forget_stale();
    assert_eq!(machine.data_mark("/a"), Ok(None));
    assert_eq!(heard(&mut machine, START, &data(2, 6, "two")), ["7: shown"]); // it is still followed
}

#[test]
fn a_read_that_is_refused_is_made_again_after_a_second() {
    let mut machine = connected();
    let _ = machine.follow(START, 7, "/a", Side::Children).unwrap();
    let refused = Record::reply(1, 5, -102).framed();
    let actions = machine.bytes(START, &refused).unwrap();
    let reason = Refusal::Code(Code::NO_AUTH);
    assert_eq!(said(actions), [format!("7: refused, {reason:?}")]);
    assert_eq!(machine.deadline(), Some(after(1_000)));
    assert_eq!(ticked(&mut machine, after(999)), [""; 0]);
    assert_eq!(ticked(&mut machine, after(1_000)), ["send 12"]);
}

#[test]
fn a_lost_read_is_asked_again_and_a_lost_write_is_told() {
    let mut machine = connected();
    let actions = machine.get_data(START, 1, None, "/a", Watch::No).unwrap();
    assert_eq!(said(actions), ["send 4"]);
    let actions = machine.delete(START, 2, None, "/b", -1).unwrap();
    assert_eq!(said(actions), ["send 2"]);
    let lines = said(machine.cut(START).unwrap());
    assert_eq!(lines, ["2: ConnectionLoss", "Idle"]);
    assert_eq!(
        connect_again(&mut machine, after(2_000)),
        ["Connected", "send 4"]
    );
    assert_eq!(
        heard(&mut machine, after(2_000), &data(3, 5, "one")),
        ["1: one"]
    );
}

#[test]
fn a_server_that_sends_notices_and_no_answer_is_left() {
    let mut machine = connected();
    let actions = machine.delete(START, 1, None, "/a", -1).unwrap();
    assert_eq!(said(actions), ["send 2"]);
    assert_eq!(ticked(&mut machine, after(4_000)), ["send 11"]);
    let notice = Record::notice(3, "/b");
    assert_eq!(heard(&mut machine, after(5_999), &notice), [""; 0]);
    assert_eq!(machine.deadline(), Some(after(6_000))); // two thirds of the timeout
    let actions = machine.bytes(after(6_000), &notice).unwrap();
    let left = ["hang up", "1: ConnectionLoss", "Idle", "dial 0 within 3s"];
    assert_eq!(said(actions), left);
}

#[test]
fn a_call_waits_to_its_limit() {
    let mut machine = connected();
    let until = Some(after(100));
    let _ = machine.get_data(START, 1, until, "/a", Watch::No).unwrap();
    assert_eq!(machine.deadline(), Some(after(100)));
    let lines = ticked(&mut machine, after(100));
    assert_eq!(lines, ["1: late, sent true"]);
    let _ = machine.cut(after(100)).unwrap();
    let until = Some(after(150));
    let actions = machine.delete(after(100), 2, until, "/a", -1).unwrap();
    assert_eq!(said(actions), [""; 0]);
    let lines = ticked(&mut machine, after(150));
    assert_eq!(lines, ["2: late, sent false"]);
}

#[test]
fn a_thousand_and_twenty_four_are_on_their_way_and_more_wait() {
    let mut machine = connected();
    let asked = |machine: &mut Machine, ticket| {
        let asked = machine.exists(START, ticket, None, "/", Watch::No);
        said(asked.unwrap()).len()
    };
    let sent: usize = (1..=1_030).map(|ticket| asked(&mut machine, ticket)).sum();
    assert_eq!(sent, 1_024);
    let reply = Record::reply(1, 5, 0).stat(5, 0, 0, 0).framed();
    let lines = heard(&mut machine, START, &reply);
    assert_eq!((lines.len(), lines[1].as_str()), (2, "send 3"));
}

#[test]
fn an_expired_session_is_followed_by_another() {
    let mut machine = connected();
    let _ = machine.follow(START, 7, "/a", Side::Data).unwrap();
    let _ = machine.bytes(START, &data(1, 5, "one")).unwrap();
    let _ = machine.cut(START).unwrap();
    let _ = machine.exists(START, 8, None, "/", Watch::No).unwrap();
    assert_eq!(ticked(&mut machine, after(2_000)), ["dial 0 within 3s"]);
    let _ = machine.opened(after(2_000)).unwrap();
    let _ = machine.delete(after(2_000), 9, None, "/a", 0).unwrap();
    let lines = heard(&mut machine, after(2_000), &Record::expired());
    let calls = ["8: SessionExpired", "9: SessionExpired"];
    assert_eq!(lines, ["Expired", "hang up", calls[0], calls[1], "renewed"]);
    assert_eq!((machine.state(), machine.last_zxid()), (State::Idle, 5));
    assert_eq!(machine.data_mark("/a"), Ok(None));
    assert_eq!(machine.peek_data("/a"), Ok(None));
    assert_eq!(
        connect_again(&mut machine, after(4_000)),
        ["Connected", "send 4"]
    );
}

#[test]
fn each_address_is_dialled_in_a_round() {
    let mut machine = Machine::open(TIMEOUT, 3, 5).unwrap();
    let mut places = Vec::new();
    for attempt in 0..6 {
        let now = after(attempt * 60_000);
        // in the first round the next one is dialled at once after a refusal
        let mut actions = match attempt {
            1 | 2 => machine.failed(now).unwrap(),
            _ => machine.tick(now).unwrap(),
        };
        let Some(Action::Dial { place, .. }) = actions.next().unwrap() else {
            panic!("nothing is dialled");
        };
        places.push(place);
        if attempt >= 2 {
            assert_eq!(said(machine.failed(now).unwrap()), [""; 0]);
        }
    }
    assert_eq!(places[..3], places[3..]);
    places[..3].sort_unstable();
    assert_eq!(places[..3], [0, 1, 2]);
    let _ = machine.set_addresses(after(360_000), 0, 0, true).unwrap();
    assert_eq!(machine.deadline(), None);
}

#[test]
fn when_a_server_was_heard_is_told() {
    let mut machine = connected();
    assert_eq!(machine.heard_at(), Some(START));
    let _ = machine.tick(after(500)).unwrap();
    assert_eq!(machine.heard_at(), Some(START));
    let _ = machine.bytes(after(700), &Record::notice(3, "/a")).unwrap();
    assert_eq!(machine.heard_at(), Some(after(700)));
    let fresh = Machine::open(TIMEOUT, 1, 1).unwrap();
    assert_eq!(fresh.heard_at(), None);
}

#[test]
fn a_session_that_is_closed_says_so() {
    let mut machine = connected();
    let actions = machine.close_session(START, 9, None).unwrap();
    assert_eq!(said(actions), ["send -11"]);
    let actions = machine.exists(START, 10, None, "/", Watch::No).unwrap();
    assert_eq!(said(actions), ["10: SessionClosed"]);
    let closed = Record::reply(1, 6, 0).framed();
    let lines = heard(&mut machine, START, &closed);
    assert_eq!(lines[..3], ["9: Done", "Closed", "hang up"]);
    assert_eq!(machine.state(), State::Closed);
}

const OPERATIONS: [RawOperation; 11] = [
    RawOperation::GetAcl,
    RawOperation::SetAcl,
    RawOperation::Sync,
    RawOperation::Multi,
    RawOperation::Create2,
    RawOperation::CreateContainer,
    RawOperation::CreateTtl,
    RawOperation::MultiRead,
    RawOperation::GetEphemerals,
    RawOperation::GetAllChildrenNumber,
    RawOperation::WhoAmI,
];

/// The operations that change nothing.
const READS: [RawOperation; 6] = [
    RawOperation::GetAcl,
    RawOperation::Sync,
    RawOperation::MultiRead,
    RawOperation::GetEphemerals,
    RawOperation::GetAllChildrenNumber,
    RawOperation::WhoAmI,
];

/// The frames, and the bodies of answers by their tickets, of some steps.
#[derive(Default)]
struct RawSaid {
    frames: Vec<Vec<u8>>,
    bodies: Vec<(u64, Vec<u8>)>,
}

fn raw_said(mut actions: Actions<'_>) -> RawSaid {
    let mut said = RawSaid::default();
    while let Some(action) = actions.next().unwrap() {
        match action {
            Action::Send(frame) => said.frames.push(frame.to_vec()),
            Action::Answer { ticket, outcome } => match outcome.unwrap().result.unwrap() {
                Brought::Raw(body) => said.bodies.push((ticket, body.to_vec())),
                other => panic!("{other:?}"),
            },
            other => panic!("{other:?}"),
        }
    }
    said
}

/// A reply with these bytes after its header.
fn raw_reply(xid: i32, zxid: i64, body: &[u8]) -> Vec<u8> {
    let mut reply = Record::reply(xid, zxid, 0).framed();
    reply.extend(body);
    let length = u32::try_from(reply.len() - 4).unwrap();
    reply[..4].copy_from_slice(&length.to_be_bytes());
    reply
}

#[test]
fn bodies_of_raw_calls_go_and_come_as_they_are() {
    for size in [0, 1, 1_048_567] {
        let mut machine = connected();
        let body: Vec<u8> = (0..=255).cycle().take(size).collect();
        let (xid, kind) = ([0, 0, 0, 1], [0, 0, 0, 14]);
        let actions = machine.raw(START, 7, None, RawOperation::Multi, &body);
        let frames = raw_said(actions.unwrap()).frames;
        let length = u32::try_from(8 + size).unwrap().to_be_bytes();
        assert!(
            frames == [[&length[..], &xid, &kind, &body].concat()],
            "{size}"
        );
        let reply = raw_reply(1, 5, &body);
        let RawSaid { frames, bodies } = raw_said(machine.bytes(START, &reply).unwrap());
        assert!(frames.is_empty() && bodies == [(7, body)], "{size}");
        assert_eq!(machine.last_zxid(), 5);
    }
    let mut machine = connected();
    let body = vec![7; 1_048_568];
    let actions = machine.raw(START, 7, None, RawOperation::Multi, &body);
    assert_eq!(said(actions.unwrap()), ["7: TooLarge"]);
}

#[test]
fn a_raw_call_is_answered_whatever_byte_is_the_last() {
    for operation in OPERATIONS {
        let reply = raw_reply(1, 5, b"body");
        for length in 0..reply.len() {
            let mut machine = connected();
            let asked = machine.raw(START, 7, None, operation, b"x").unwrap();
            assert_eq!(raw_said(asked).frames.len(), 1);
            let heard = machine.bytes(START, &reply[..length]).unwrap();
            assert_eq!(said(heard), [""; 0]);
            let cut = said(machine.cut(START).unwrap());
            let is_read = READS.contains(&operation);
            let is_lost = cut.contains(&String::from("7: ConnectionLoss"));
            assert_eq!(is_lost, !is_read, "{operation:?} {length}");
            let again = connect_again(&mut machine, after(9_000));
            assert_eq!(again.len(), if is_read { 2 } else { 1 }, "{again:?}");
            if is_read {
                let reply = raw_reply(2, 5, b"body");
                let heard = machine.bytes(after(9_000), &reply).unwrap();
                assert_eq!(raw_said(heard).bodies, [(7, b"body".to_vec())]);
            }
        }
    }
}

#[test]
fn the_answer_to_a_raw_call_comes_in_pieces() {
    let replies = [raw_reply(1, 5, b"body"), raw_reply(2, 5, b"")].concat();
    for piece in 1..=replies.len() {
        let mut machine = connected();
        for ticket in [7, 8] {
            let asked = machine.raw(START, ticket, None, RawOperation::WhoAmI, b"");
            let _ = asked.unwrap();
        }
        let mut bodies = Vec::new();
        for bytes in replies.chunks(piece) {
            bodies.extend(raw_said(machine.bytes(START, bytes).unwrap()).bodies);
        }
        assert_eq!(bodies, [(7, b"body".to_vec()), (8, Vec::new())], "{piece}");
    }
}

/// The server says nothing about it for two thirds of the timeout, whatever else it sends.
#[test]
fn a_connection_is_left_on_which_a_raw_call_waits() {
    let mut machine = connected();
    let asked = machine.raw(START, 7, None, RawOperation::Multi, b"x");
    assert_eq!(said(asked.unwrap()), ["send 14"]);
    for second in 1..6 {
        let now = after(1_000 * second);
        let _ = machine.tick(now).unwrap();
        let heard = machine.bytes(now, &Record::reply(-2, 0, 0).framed());
        assert_eq!(said(heard.unwrap()), [""; 0]);
    }
    assert_eq!(ticked(&mut machine, after(5_999)), [""; 0]);
    let left = ticked(&mut machine, after(6_000));
    assert!(
        left.contains(&String::from("7: ConnectionLoss")),
        "{left:?}"
    );
    assert!(left.contains(&String::from("hang up")), "{left:?}");
}

#[test]
fn a_server_that_is_behind_a_raw_call_is_asked_for_more() {
    let mut machine = connected();
    let asked = machine.raw(START, 7, None, RawOperation::Sync, b"x");
    let _ = asked.unwrap();
    let _ = machine.bytes(START, &raw_reply(1, 50, b"")).unwrap();
    let _ = machine.cut(START).unwrap();
    let _ = machine.tick(after(9_000)).unwrap();
    let frames = sent(machine.opened(after(9_000)).unwrap());
    assert_eq!(frames[0][8..16], 50_i64.to_be_bytes());
}

/// The frames among the actions.
pub fn sent(mut actions: Actions<'_>) -> Vec<Vec<u8>> {
    let mut frames = Vec::new();
    while let Some(action) = actions.next().unwrap() {
        if let Action::Send(frame) = action {
            frames.push(frame.to_vec());
        }
    }
    frames
}

#[test]
fn credentials_go_first_on_each_connection_and_their_answers_are_told() {
    let auth = |secret: &[u8]| {
        let record = Record::new().int(-4).int(100).int(0);
        record.text("digest").buffer(secret).framed()
    };
    let mut machine = connected();
    let now = sent(machine.credential(START, "digest", b"ann:secret").unwrap());
    assert_eq!(now, [auth(b"ann:secret")]);
    let accepted = Record::reply(-4, 0, 0).framed();
    let told = heard(&mut machine, START, &accepted);
    assert_eq!(told, ["Credential { place: 0, code: Code(0) }"]);
    let _ = machine.cut(START).unwrap();
    let later = sent(machine.credential(START, "digest", b"bob").unwrap());
    assert!(later.is_empty(), "there is no connection");
    let _ = machine.tick(after(9_000)).unwrap();
    let begun = sent(machine.opened(after(9_000)).unwrap());
    assert_eq!(begun[1..], [auth(b"ann:secret"), auth(b"bob")]);
    let _ = machine.bytes(after(9_000), &Record::accepted(9_000, SESSION));
    let refused = Record::reply(-4, 0, -115).framed();
    let answers = [accepted, refused].concat();
    let told = heard(&mut machine, after(9_000), &answers);
    assert_eq!(
        told,
        [
            "Credential { place: 0, code: Code(0) }",
            "Credential { place: 1, code: Code(-115) }"
        ]
    );
}

#[test]
fn a_credential_is_as_long_as_it_may_be() {
    let mut machine = connected();
    let mut secret = vec![7; 1_048_575 - 20 - 6];
    let frames = sent(machine.credential(START, "digest", &secret).unwrap());
    assert_eq!(frames[0].len(), 4 + 1_048_575);
    secret.push(7);
    let refused = machine.credential(START, "digest", &secret).map(said);
    assert_eq!(refused, Err(Fault::CredentialTooLarge));
}
