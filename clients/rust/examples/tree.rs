//! All nodes at and below `/app`, and each change, through lost connections, restarts and expired sessions: see `docs/COOKBOOK.md`.

use dirwolleu::{SessionOptions, SubtreeNode, TreeSnapshot};
use std::error::Error;
use std::time::Duration;

fn tell(sign: char, nodes: &[&SubtreeNode]) {
    for node in nodes {
        let text = String::from_utf8_lossy(node.data.as_deref().unwrap_or_default());
        println!("{sign} {} {text:?}", node.path);
    }
}

fn show(snapshot: TreeSnapshot, before: &mut Option<TreeSnapshot>) {
    println!("{} nodes at zxid {}", snapshot.len(), snapshot.zxid());
    let changes = snapshot.changes_since(before.as_ref());
    tell('+', &changes.added);
    tell('-', &changes.removed);
    tell('~', &changes.changed);
    *before = Some(snapshot);
}

fn main() -> Result<(), Box<dyn Error>> {
    let options = SessionOptions::new(Duration::from_secs(10)).renews(true);
    let session = options.open("127.0.0.1:2181")?;
    let mut before = None;
    let tree = session.tree("/app")?;
    for snapshot in tree.snapshots() {
        match snapshot {
            Ok(snapshot) => show(snapshot, &mut before),
            Err(trouble) => println!("{trouble}"), // and it goes on
        }
    }
    Ok(())
}
