// The port: the program `calls`, asked line by line.
use std::io::{BufRead, BufReader, BufWriter, Write};
use std::process::{Child, ChildStdin, ChildStdout, Command, Stdio};

// Nothing can be compared: why is told, and the status is 2.
pub fn stop(why: String) -> ! {
    eprintln!("compare: {why}");
    std::process::exit(2)
}

pub fn cut(text: &str) -> String {
    if text.len() > 400 {
        format!("{}..({} bytes)", &text[..400], text.len())
    } else {
        text.into()
    }
}

pub struct Port {
    child: Child,
    to: BufWriter<ChildStdin>,
    from: BufReader<ChildStdout>,
}

impl Port {
    pub fn start(program: &str) -> Self {
        let mut words = program.lines();
        let mut child = Command::new(words.next().unwrap_or(""))
            .args(words)
            .stdin(Stdio::piped())
            .stdout(Stdio::piped())
            .spawn()
            .unwrap_or_else(|why| stop(format!("the program calls does not start: {why}")));
        let to = BufWriter::new(child.stdin.take().unwrap());
        let from = BufReader::new(child.stdout.take().unwrap());
        Port { child, to, from }
    }

    pub fn ask(&mut self, line: &str) -> String {
        let mut answer = String::new();
        let sent = writeln!(self.to, "{line}").and_then(|_| self.to.flush());
        match sent.and_then(|_| self.from.read_line(&mut answer)) {
            Ok(0) => stop(format!("calls ended at: {}", cut(line))),
            Ok(_) => (),
            Err(why) => stop(format!("calls does not answer ({why}): {}", cut(line))),
        }
        answer.trim_end_matches('\n').to_string()
    }

    pub fn end(mut self) {
        drop(self.to);
        self.child.wait().ok();
    }
}
