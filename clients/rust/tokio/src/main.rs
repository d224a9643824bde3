//! Follows nodes under tokio, each in a task of one thread, and asks with a limit:
//!
//! `dirwolleu-tokio HOSTS PATH..`
//!
//! The client knows nothing of the runtime: its tickets are futures, what it follows is polled, and the session's own thread wakes the
//! tasks.

use dirwolleu::{Request, SessionOptions, SharedSession};
use std::env;
use std::future::poll_fn;
use std::time::Duration;
use tokio::runtime::Builder;
use tokio::task::LocalSet;
use tokio::time::timeout;

/// Prints a node's content, at first and at each change. It goes on if a server refuses a read.
async fn follow(session: SharedSession, path: String) {
    let mut nodes = session.follow(&path);
    while let Some(node) = poll_fn(|context| nodes.poll_next(context)).await {
        match node.map(|node| node.and_then(|node| node.data)) {
            Ok(Some(data)) => println!("{path} {}", String::from_utf8_lossy(&data)),
            Ok(None) => println!("{path} has no data"),
            Err(error) => println!("{error}"),
        }
    }
}

/// Asks for the children of the root, and waits a second at most. A later answer finds nobody waiting.
async fn tell_children(session: &SharedSession) {
    match timeout(Duration::from_secs(1), session.ask(Request::children("/"))).await {
        Ok(Ok((names, _))) => println!("{} nodes below the root", names.len()),
        Ok(Err(error)) => println!("{error}"),
        Err(_) => println!("no answer within a second"),
    }
}

fn main() -> Result<(), Box<dyn std::error::Error>> {
    let mut words = env::args().skip(1);
    let hosts = words.next().ok_or("usage: dirwolleu-tokio HOSTS PATH..")?;
    let options = SessionOptions::new(Duration::from_secs(10)).renews(true);
    let session = options.open(hosts)?.shared();
    let runtime = Builder::new_current_thread().enable_time().build()?;
    let tasks = LocalSet::new();
    tasks.block_on(&runtime, async {
        tell_children(&session).await;
        let followed: Vec<_> = words
            .map(|path| tokio::task::spawn_local(follow(session.clone(), path)))
            .collect();
        for task in followed {
            task.await?;
        }
        Ok(())
    })
}
