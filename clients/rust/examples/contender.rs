//! Contends for a lock, for tests beside others: `contender HOST:PORT PATH KIND NAMES`. KIND is lock, read, write, election or work, and
//! NAMES is kazoo or curator. `clients/cases/README.md` has the lines that it reads and prints.

use dirwolleu::{
    Election, Error, ErrorKind, Lock, LockNames, LockOptions, NoReply, Session, SessionOptions,
    SharedSession, Sharing,
};
use std::io::{stdin, stdout, BufRead, Write};
use std::process::exit;
use std::sync::mpsc::{channel, Receiver, RecvTimeoutError, Sender};
use std::time::Duration;
use std::{env, thread};

/// How long a holder waits before it looks again whether it still holds.
const BETWEEN_LOOKS: Duration = Duration::from_millis(200);

/// How long a working contender waits each third time, and between two writes.
const SHORT: Duration = Duration::from_millis(300);
const BETWEEN_WRITES: Duration = Duration::from_millis(50);

/// An event of a contender.
enum Happened<'a> {
    Taken(Result<Lock<'a>, Error>),
    Command(String),
    /// Nobody commands it any more.
    End,
}

fn say(line: &str) {
    // The reader may have gone.
    let _ = writeln!(stdout(), "{line}");
}

/// Ends the session, and the program.
fn leave(session: &SharedSession, line: &str) -> ! {
    // Without a server the session is left to its timeout.
    let _ = session.close();
    if !line.is_empty() {
        say(line);
    }
    exit(i32::from(line.starts_with("error")))
}

fn names_of(words: &[String]) -> LockNames {
    match words[3].as_str() {
        "curator" => LockNames::Curator,
        _ => LockNames::Kazoo,
    }
}

fn contend<'a>(session: &'a Session, words: &[String]) -> Result<Lock<'a>, Error> {
    let path = &words[1];
    let names = names_of(words);
    let options = LockOptions::new().names(names).data(b"rust");
    match words[2].as_str() {
        "read" => options.sharing(Sharing::Shared).acquire(session, path),
        "write" => options.sharing(Sharing::Writing).acquire(session, path),
        "election" => Election::new(session, path).names(names).lead(b"rust"),
        _ => options.acquire(session, path),
    }
}

/// Prints the token and the zxid, and writes the token through the fence, which takes none below the one that it has.
fn write_through_fence(session: &Session, fence: &str, lock: &Lock<'_>) -> Result<(), Error> {
    let zxid = session.last_zxid();
    if lock.is_held() && session.last_zxid() == zxid {
        say(&format!("holds {} {zxid}", lock.token()));
    }
    let node = session.get(fence)?;
    let data = String::from_utf8(node.data.unwrap_or_default()).unwrap_or_default();
    if data
        .parse()
        .is_ok_and(|written: i64| written > lock.token())
    {
        say("refused");
        return Ok(());
    }
    let token = lock.token().to_string();
    session.set(fence, token.as_bytes(), node.stat.version)?;
    say("wrote");
    Ok(())
}

/// Holds the lock for a while, again and again, and writes meanwhile. Each third time it waits only briefly.
fn work(session: &Session, words: &[String]) {
    let fence = format!("{}-fence", words[1]);
    for number in 0_u64.. {
        let options = LockOptions::new().names(names_of(words)).data(b"rust");
        let lock = match number % 3 {
            2 => options.within(SHORT).acquire(session, &words[1]),
            _ => options.acquire(session, &words[1]),
        };
        match lock {
            Ok(lock) => {
                for _ in 0..3 {
                    // If it fails, another one was faster, or the connection is gone.
                    let _ = write_through_fence(session, &fence, &lock);
                    thread::sleep(BETWEEN_WRITES);
                }
                if lock.release().is_ok() {
                    say("released");
                }
            }
            Err(error) if *error.kind() == ErrorKind::LockTimeout => {}
            Err(error) if *error.kind() == ErrorKind::from(NoReply::SessionClosed) => return,
            Err(error) => say(&format!("error: {error}")),
        }
    }
}

fn read_commands(sender: &Sender<Happened<'_>>) {
    for line in stdin().lock().lines().map_while(Result::ok) {
        let _ = sender.send(Happened::Command(line));
    }
    let _ = sender.send(Happened::End);
}

/// Releases what is held, and ends.
fn release(session: &SharedSession, held: Option<Lock<'_>>, line: &str) -> ! {
    match held.map(Lock::release) {
        Some(Err(error)) => leave(session, &format!("error: {error}")),
        _ => leave(session, line),
    }
}

fn obey(session: &SharedSession, happens: &Receiver<Happened<'_>>) -> ! {
    let mut held = None;
    loop {
        match happens.recv_timeout(BETWEEN_LOOKS) {
            Ok(Happened::Taken(Ok(lock))) => {
                say("held");
                held = Some(lock);
            }
            Ok(Happened::Taken(Err(error))) => match error.kind() {
                ErrorKind::MixedNames => leave(session, "mixed names"),
                _ => leave(session, &format!("error: {error}")),
            },
            Ok(Happened::Command(line)) => match line.trim() {
                "release" => release(session, held, "released"),
                "give up" => release(session, held, "given up"),
                line => say(&format!("error: no command: {line}")),
            },
            Ok(Happened::End) | Err(RecvTimeoutError::Disconnected) => leave(session, ""),
            Err(RecvTimeoutError::Timeout) if held.as_ref().is_some_and(|lock| !lock.is_held()) => {
                say("lost");
                held = None;
            }
            Err(RecvTimeoutError::Timeout) => {}
        }
    }
}

fn main() {
    let words: Vec<String> = env::args().skip(1).collect();
    if words.len() != 4 {
        eprintln!("usage: contender HOST:PORT PATH KIND NAMES");
        exit(2);
    }
    let works = words[2] == "work";
    let timeout = Duration::from_secs(if works { 4 } else { 10 });
    let options = SessionOptions::new(timeout).renews(works);
    let session = match options.open(words[0].as_str()) {
        Ok(session) => session.shared(),
        Err(error) => {
            say(&format!("error: {error}"));
            exit(1)
        }
    };
    let (sender, happens) = channel();
    let commands = sender.clone();
    thread::scope(|scope| {
        scope.spawn(|| {
            if works {
                work(&session, &words);
            } else {
                // Nobody may be listening any more.
                let _ = sender.send(Happened::Taken(contend(&session, &words)));
            }
        });
        scope.spawn(move || read_commands(&commands));
        obey(&session, &happens)
    })
}
