//! Another program, driven through pipes.

use std::io::{self, Read, Write};
use std::process::{Child, Command as Process, ExitStatus, Stdio};
use std::thread::{self, JoinHandle};

/// A program and its arguments, started in the present directory.
pub struct Command {
    words: Vec<String>,
}

/// A started program: one thread feeds it and another collects what it prints, so that neither pipe can fill up and
/// stop both sides.
pub struct Running {
    child: Child,
    writer: JoinHandle<()>,
    reader: JoinHandle<io::Result<Vec<u8>>>,
}

impl Command {
    pub fn new(line: &str) -> Command {
        Command { words: line.split_whitespace().map(str::to_string).collect() }
    }

    pub fn line(&self) -> String {
        self.words.join(" ")
    }

    pub fn start(&self, input: Vec<u8>) -> io::Result<Running> {
        let (program, arguments) = self.words.split_first().ok_or_else(|| io::Error::other("no command is named"))?;
        let mut process = Process::new(program);
        let mut child = process
            .args(arguments)
            .stdin(Stdio::piped())
            .stdout(Stdio::piped())
            .spawn()
            .map_err(|error| io::Error::new(error.kind(), format!("{}: {error}", self.line())))?;
        let mut to_child = child.stdin.take().expect("its standard input is a pipe");
        let mut from_child = child.stdout.take().expect("its standard output is a pipe");
        // A program that ends early closes its pipe; what it answered shows that.
        let writer = thread::spawn(move || drop(to_child.write_all(&input)));
        let reader = thread::spawn(move || {
            let mut output = Vec::new();
            from_child.read_to_end(&mut output).map(|_| output)
        });
        Ok(Running { child, writer, reader })
    }

    pub fn run(&self, input: Vec<u8>) -> io::Result<(Vec<u8>, ExitStatus)> {
        self.start(input)?.finish()
    }
}

impl Running {
    /// All that it printed, and how it ended.
    pub fn finish(mut self) -> io::Result<(Vec<u8>, ExitStatus)> {
        let output = self.reader.join().map_err(|_| io::Error::other("the reading thread failed"))??;
        self.writer.join().map_err(|_| io::Error::other("the writing thread failed"))?;
        Ok((output, self.child.wait()?))
    }
}
