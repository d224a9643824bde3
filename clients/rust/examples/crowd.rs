//! Many sessions, for trials over real servers, `clients/crowd`: `crowd HOSTS COUNT PATH`. Each follows the node of the path.

use dirwolleu::{Event, SessionOptions, SharedSession, State};
use std::env;
use std::error::Error;
use std::thread;
use std::time::{Duration, SystemTime, UNIX_EPOCH};

const TIMEOUT: Duration = Duration::from_secs(10);

fn print_event(number: usize, what: &str) {
    let now = SystemTime::now().duration_since(UNIX_EPOCH);
    println!(
        "{:.3} {number} {what}",
        now.unwrap_or_default().as_secs_f64()
    );
}

/// Prints what happens to a session, until it is over.
fn tell(number: usize, session: &SharedSession) {
    while let Ok(Some(event)) = session.next_event(None) {
        match event {
            Event::State(State::Connected) => {
                let id = session.id().unwrap_or_default();
                print_event(number, &format!("connected {id:#x}"));
            }
            Event::State(State::Idle) => print_event(number, "cut"),
            Event::State(State::Expired) => print_event(number, "expired"),
            _ => {}
        }
    }
}

/// Prints the node's content, at first and at each change.
fn follow(number: usize, session: &SharedSession, path: &str) {
    for node in session.follow(path).flatten() {
        let data = node.and_then(|node| node.data);
        let text = data.map_or("-".into(), |data| {
            String::from_utf8_lossy(&data).into_owned()
        });
        print_event(number, &format!("data {text}"));
    }
}

fn main() -> Result<(), Box<dyn Error>> {
    let words: Vec<String> = env::args().skip(1).collect();
    let [hosts, count, path] = words.as_slice() else {
        return Err("usage: crowd HOSTS COUNT PATH".into());
    };
    let options = || SessionOptions::new(TIMEOUT).renews(true);
    let open = |_| Ok(options().open(hosts)?.shared());
    let sessions: Result<Vec<_>, Box<dyn Error>> = (0..count.parse()?).map(open).collect();
    thread::scope(|scope| {
        for (number, session) in sessions?.into_iter().enumerate() {
            let told = session.clone();
            scope.spawn(move || tell(number, &told));
            scope.spawn(move || follow(number, &session, path));
        }
        Ok(())
    })
}
