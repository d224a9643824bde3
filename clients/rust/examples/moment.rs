//! Two nodes of one moment: see `docs/COOKBOOK.md`.

use dirwolleu::{DataAnswer, SessionOptions};
use std::error::Error;
use std::thread::sleep;
use std::time::Duration;

const NODES: [&str; 2] = ["/host", "/port"];

fn text(node: &DataAnswer) -> String {
    match node {
        DataAnswer::Full { data, .. } => {
            String::from_utf8_lossy(data.as_deref().unwrap_or_default()).into_owned()
        }
        DataAnswer::Known(_) | DataAnswer::Absent => String::from("nothing"),
    }
}

fn main() -> Result<(), Box<dyn Error>> {
    let options = SessionOptions::new(Duration::from_secs(10)).renews(true);
    let session = options.open("127.0.0.1:2181")?;
    let mut followed = NODES.map(|path| session.follow(path));
    for node in &mut followed {
        node.next(); // keeps it good
    }
    loop {
        if let Some(found) = session.snapshot(&NODES, &[])? {
            let (host, port) = (text(&found.nodes[0]), text(&found.nodes[1]));
            println!("{host} {port} at zxid {}", found.zxid);
        }
        sleep(Duration::from_secs(1));
    }
}
