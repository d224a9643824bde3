//! Follows a node: `follow HOST:PORT[,HOST:PORT..] PATH` prints its content at first, and at each change, whatever the servers do. If a
//! server refuses a read, it says so on standard error, and goes on.

use dirwolleu::{KeptNode, SessionOptions};
use std::error::Error;
use std::io::{stdout, Write};
use std::process::ExitCode;
use std::{env, time::Duration};

/// A node's content, in a line.
fn line(path: &str, node: Option<KeptNode>) -> String {
    let Some(node) = node else {
        return format!("{path} is not there");
    };
    let text = String::from_utf8_lossy(node.data.as_deref().unwrap_or_default());
    format!("{path} version {}: {text}", node.stat.version)
}

fn follow(hosts: &str, path: &str) -> Result<(), Box<dyn Error>> {
    let options = SessionOptions::new(Duration::from_secs(10)).renews(true);
    let session = options.open(hosts)?;
    for node in session.follow(path) {
        match node {
            Ok(node) => writeln!(stdout(), "{}", line(path, node))?,
            Err(error) => eprintln!("{error}"),
        }
    }
    Ok(())
}

fn main() -> ExitCode {
    let words: Vec<String> = env::args().skip(1).collect();
    let done = match words.as_slice() {
        [hosts, path] => follow(hosts, path),
        _ => Err("usage: follow HOST:PORT[,HOST:PORT..] PATH".into()),
    };
    if let Err(error) = done {
        eprintln!("follow: {error}");
        return ExitCode::FAILURE;
    }
    ExitCode::SUCCESS
}
