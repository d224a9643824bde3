//! The example over the server in memory. Without python3 it says so and passes.

use std::io::{BufRead, BufReader, Lines, Write};
use std::process::{Child, ChildStdout, Command, Stdio};

const SERVER: &str = concat!(env!("CARGO_MANIFEST_DIR"), "/../../bench/server.py");

/// A process, and the lines that it prints. Dropping it ends the process.
struct Program {
    child: Child,
    lines: Lines<BufReader<ChildStdout>>,
}

impl Program {
    fn start(program: &str, words: &[&str]) -> Option<Program> {
        let mut command = Command::new(program);
        command
            .args(words)
            .stdin(Stdio::piped())
            .stdout(Stdio::piped());
        let mut child = command.spawn().ok()?;
        let lines = BufReader::new(child.stdout.take()?).lines();
        Some(Program { child, lines })
    }

    fn line(&mut self) -> String {
        self.lines
            .next()
            .expect("a line comes")
            .expect("it is text")
    }

    fn tell(&mut self, command: &str) {
        let input = self.child.stdin.as_mut().expect("it is piped");
        writeln!(input, "{command}").expect("it listens");
        assert_eq!(self.line(), "done", "{command}");
    }
}

impl Drop for Program {
    fn drop(&mut self) {
        let _ = self.child.kill();
        let _ = self.child.wait();
    }
}

#[test]
fn nodes_are_followed_in_tasks() {
    let Some(mut server) = Program::start("python3", &[SERVER]) else {
        println!("skipped: there is no python3");
        return;
    };
    let address = server.line().replace("listening ", "127.0.0.1:");
    server.tell("create /a one");
    let words = [address.as_str(), "/a", "/b"];
    let mut program = Program::start(env!("CARGO_BIN_EXE_dirwolleu-tokio"), &words).unwrap();
    assert_eq!(program.line(), "1 nodes below the root");
    let mut first = [program.line(), program.line()];
    first.sort();
    assert_eq!(first, ["/a one", "/b has no data"]);
    server.tell("create /b two");
    assert_eq!(program.line(), "/b two");
    server.tell("expire");
    server.tell("set /a three");
    let mut renewed = [program.line(), program.line()];
    renewed.sort();
    assert_eq!(renewed, ["/a three", "/b two"]);
}
