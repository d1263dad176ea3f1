//! A program that runs as a process and is given lines.

use std::io::{BufRead, BufReader, Write};
use std::path::Path;
use std::process::{Child, ChildStdin, Command, Stdio};
use std::sync::mpsc::Sender;
use std::thread::JoinHandle;

/// A whole line that a process printed, or that its output has ended.
pub enum Printed {
    Line(Vec<u8>),
    End,
}

/// A running process. A thread passes on what it prints, marked with the process's number.
pub struct Process {
    child: Child,
    stdin: ChildStdin,
    reader: JoinHandle<()>,
}

impl Process {
    pub fn start(program: &Path, arguments: &[String], number: usize, to: Sender<(usize, Printed)>) -> std::io::Result<Process> {
        let mut command = Command::new(program);
        let mut child = command.args(arguments).stdin(Stdio::piped()).stdout(Stdio::piped()).spawn()?;
        let stdin = child.stdin.take().expect("it is piped");
        let stdout = child.stdout.take().expect("it is piped");
        let reader = std::thread::spawn(move || {
            let mut stdout = BufReader::new(stdout);
            let mut line = Vec::new();
            while let Ok(1..) = stdout.read_until(b'\n', &mut line) {
                // a last line without its newline was cut short by a kill, and says nothing
                if line.pop() == Some(b'\n') {
                    let _ = to.send((number, Printed::Line(std::mem::take(&mut line))));
                }
                line.clear();
            }
            let _ = to.send((number, Printed::End));
        });
        Ok(Process { child, stdin, reader })
    }

    /// Gives it some bytes, a line or only the beginning of one.
    pub fn give(&mut self, bytes: &[u8]) -> std::io::Result<()> {
        self.stdin.write_all(bytes)
    }

    /// Kills it, wherever it is, and waits until all that it printed was passed on.
    pub fn kill(mut self) {
        let _ = self.child.kill();
        let _ = self.child.wait();
        let _ = self.reader.join();
    }
}
