//! One of the two programs that speak the call script, at the other end of a pipe.

use std::io::BufRead;
use std::io::BufReader;
use std::io::BufWriter;
use std::io::Write;
use std::process::Child;
use std::process::ChildStdin;
use std::process::ChildStdout;
use std::process::Command;
use std::process::Stdio;

/// One of the two programs. It may be told several lines before it is heard; one that has ended answers nothing.
pub struct Side {
    path: String,
    pub ended: bool,
    _child: Child,
    to: BufWriter<ChildStdin>,
    from: BufReader<ChildStdout>,
}

impl Side {
    pub fn start(path: &str) -> Side {
        let mut child = Command::new(path)
            .stdin(Stdio::piped())
            .stdout(Stdio::piped())
            .spawn()
            .unwrap_or_else(|e| panic!("{path}: {e}"));
        let (to, from) = (child.stdin.take().unwrap(), child.stdout.take().unwrap());
        Side {
            path: path.into(),
            ended: false,
            _child: child,
            to: BufWriter::new(to),
            from: BufReader::new(from),
        }
    }

    pub fn tell(&mut self, line: &str) {
        let _ = writeln!(self.to, "{line}");
    }

    pub fn hear(&mut self) -> String {
        let _ = self.to.flush();
        let mut said = String::new();
        self.ended = self.from.read_line(&mut said).unwrap_or(0) == 0;
        said.trim_end().to_string()
    }

    pub fn ask(&mut self, line: &str) -> String {
        self.tell(line);
        self.hear()
    }

    /// A new sequence, and what its first calls are answered.
    pub fn ask_all(&mut self, lines: &[String]) -> Vec<String> {
        self.begin();
        lines.iter().for_each(|line| self.tell(line));
        self.hear();
        lines.iter().map(|_| self.hear()).collect()
    }

    /// A new sequence, in a new process where the old one has ended. Its echo is still to be heard.
    pub fn begin(&mut self) {
        if self.ended {
            *self = Side::start(&self.path);
        }
        self.tell("seq x");
    }
}
