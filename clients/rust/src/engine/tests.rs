//! Tests of an engine's parts.

use super::{
    DialOrder, Engine, EngineOptions, Error, ErrorKind, Fault, Hosts, NoReply, Plan, Slot, NEVER,
};
use crate::action::Refusal;
use crate::connection::Outgoing;
use crate::dispatch::{SubjectUpdate, TreeUpdate};
use crate::jute::Writer;
use crate::machine::Limits;
use crate::machine::State;
use crate::moment::Moment;
use crate::node::ANY_VERSION;
use crate::request::Request;
use std::io;
use std::net::SocketAddr;
use std::sync::Arc;
use std::thread::sleep;
use std::time::Duration;

/// A stream that nobody reads.
struct Nowhere;

impl Outgoing for Nowhere {
    fn write(&mut self, bytes: &[u8], _: Duration) -> io::Result<usize> {
        Ok(bytes.len())
    }

    fn close(&mut self) {}
}

fn address() -> SocketAddr {
    SocketAddr::from(([127, 0, 0, 1], 1))
}

/// An engine whose session renews itself.
pub(crate) fn engine_at(hosts: Hosts) -> Engine {
    Engine::new(EngineOptions {
        timeout: Duration::from_secs(10),
        limits: Limits::default(),
        hosts,
        order: DialOrder::Shuffled,
        saved: None,
        renews: true,
        limit: None,
        credentials: Vec::new(),
    })
    .unwrap()
}

fn engine() -> Engine {
    engine_at(Hosts::from(address()))
}

/// A response that admits the session with this id and this timeout. Zeros say that it has expired.
pub(super) fn response(timeout_ms: i32, session: i32) -> Vec<u8> {
    let (mut response, mut frame) = (Writer::default(), Writer::default());
    response.int(0).int(timeout_ms).int(0).int(session);
    response.buffer(&[0; 16]).boolean(false);
    frame.buffer(&response.into_bytes());
    frame.into_bytes()
}

/// One for the session 7, with a timeout of 3 seconds.
fn accepted() -> Vec<u8> {
    response(3_000, 7)
}

/// Makes the connection that the engine asks for.
pub(super) fn open(engine: &mut Engine) {
    let attempt = engine.begin_attempt().unwrap();
    let made = engine.opened(attempt.number, address(), Box::new(Nowhere));
    made.unwrap();
}

/// The driver's next task.
fn plan(engine: &Engine) -> Plan {
    engine.plan(engine.clock.now(), NEVER)
}

/// Dials, and makes the connection.
fn connect(engine: &mut Engine) {
    assert_eq!(plan(engine), Plan::Tick);
    engine.tick().unwrap();
    assert_eq!(plan(engine), Plan::Dial);
    open(engine);
}

fn ask<T>(engine: &mut Engine, request: &Request<T>) -> Arc<Slot> {
    let asking = request.lend().asking;
    let slot = Slot::new(String::from(asking.path), asking.call, engine.clock);
    let now = Moment::after(slot.call().at());
    engine.ask(now, &asking, &slot);
    slot
}

/// Why a call failed.
fn fault_of(engine: &mut Engine, slot: &Slot) -> Error {
    engine.take_answered().iter().for_each(|slot| slot.tell());
    slot.take().unwrap().unwrap_err()
}

pub(super) fn connected() -> Engine {
    let mut engine = engine();
    connect(&mut engine);
    engine.hand_in(engine.clock.now(), &accepted()).unwrap();
    assert_eq!(engine.state(Duration::ZERO), Some(State::Connected));
    engine
}

#[test]
fn a_library_of_another_version_ends_a_session_in_words() {
    let mut engine = engine();
    let fault = Fault::from(State::try_from(9).unwrap_err());
    let settled = engine.settle(NEVER, Err(fault.clone()));
    assert_eq!(settled, Err(fault.clone()));
    assert!(engine.is_over());
    assert_eq!(engine.halt(), Err(fault.clone()));
    let slot = ask(&mut engine, &Request::get("/a"));
    assert_eq!(fault_of(&mut engine, &slot).kind(), &fault.into());
}

#[test]
fn a_session_that_has_halted_goes_on_where_it_is_renewed() {
    let mut engine = connected();
    let slot = ask(&mut engine, &Request::get("/a"));
    let settled = engine.settle(NEVER, Err(Fault::Halted));
    assert_eq!(settled, Err(Fault::Halted));
    assert_eq!(plan(&engine), Plan::Rest(NEVER));
    assert!(fault_of(&mut engine, &slot).may_have_happened());
    let slot = ask(&mut engine, &Request::get("/a"));
    assert_eq!(fault_of(&mut engine, &slot).kind(), &Fault::Halted.into());
    engine.renew().unwrap();
    let saved = engine.machine().saved().unwrap();
    assert_eq!((saved.id(), engine.is_over()), (Some(7), false));
    connect(&mut engine);
}

#[test]
fn what_has_panicked_is_told_after_the_thread_has_ended() {
    let mut engine = connected();
    engine.panicked();
    engine.stop();
    assert_eq!(engine.halt(), Err(Fault::Panicked));
    assert_eq!(engine.state(Duration::ZERO), None);
}

/// This happens when as many paths are watched as may be: the read is refused at once.
#[test]
fn a_refusal_is_of_the_node_that_is_told_after_it() {
    let mut engine = connected();
    let shown = engine.open_tree("/t", 10).unwrap();
    let (tree, ticket) = (*engine.trees.keys().next().unwrap(), 1 << 63 | 1);
    let refused = SubjectUpdate::Refused(Refusal::TooManyWatches);
    let path = String::from("/t/a");
    engine.dispatcher.update().shown.push((ticket, refused));
    let taken_on = TreeUpdate::MemberAdded { ticket, path };
    engine.dispatcher.update().trees.push((tree, taken_on));
    engine.settle(NEVER, Ok(())).unwrap();
    let trouble = shown.trouble().unwrap();
    let kind = ErrorKind::from(Refusal::TooManyWatches);
    assert_eq!((trouble.path(), trouble.kind()), (Some("/t/a"), &kind));
}

#[test]
fn what_there_was_no_memory_for_is_handed_in_again() {
    let mut engine = engine();
    connect(&mut engine);
    engine.inbox = accepted();
    assert_eq!(plan(&engine), Plan::HandIn);
    engine.hand_in(engine.clock.now(), &[]).unwrap();
    assert_eq!(engine.state(Duration::ZERO), Some(State::Connected));
    assert!(matches!(plan(&engine), Plan::Listen(_)));
}

#[test]
fn why_a_connection_is_left_is_told() {
    let mut engine = connected();
    let slot = ask(&mut engine, &Request::set_acls("/", &[], ANY_VERSION));
    let begun = engine.clock.now();
    let after = |millis| begun.saturating_add(Duration::from_millis(millis));
    let mut notice = Writer::default();
    notice.int(-1).long(-1).int(0).int(3).int(3).text("/a");
    let mut frame = Writer::default();
    frame.buffer(&notice.into_bytes());
    let frame = frame.into_bytes();
    let heard = engine.step(after(1_500), |machine, now| machine.bytes(now, &frame));
    heard.unwrap();
    assert!(engine.is_open() && engine.take_answered().is_empty());
    engine.tick_at(after(2_100)).unwrap();
    assert!(!engine.is_open());
    let lost = ErrorKind::NoReply(NoReply::ConnectionLoss);
    assert_eq!(fault_of(&mut engine, &slot).kind(), &lost);
    let slot = ask(&mut engine, &Request::get("/a").within(Duration::ZERO));
    sleep(Duration::from_millis(2));
    engine.tick().unwrap();
    let told = fault_of(&mut engine, &slot).to_string();
    let seconds = told
        .strip_prefix("no server of 127.0.0.1:1 accepted the session in ")
        .and_then(|rest| rest.strip_suffix(" s; last: 127.0.0.1:1: an answer did not come"));
    let seconds = seconds.map(str::parse::<f64>);
    assert!(matches!(seconds, Some(Ok(_))), "{told}");
}

#[test]
fn an_attempt_that_was_given_up_is_no_connection() {
    let mut engine = engine();
    engine.tick().unwrap();
    let attempt = engine.begin_attempt().unwrap();
    engine.change_hosts(Hosts::default()).unwrap();
    engine.hang_up(); // as when the machine gives it up
    let made = engine.opened(attempt.number, address(), Box::new(Nowhere));
    made.unwrap();
    assert!(!engine.is_open());
    assert_eq!(engine.state(Duration::ZERO), Some(State::Idle));
}
