//! Asking a worker process that may hang or die.
//!
//! The Rust's alignment walk doubles at each level, so some short texts would
//! take hours. A thread cannot be stopped, a process can: the questions go to
//! a child, one that is silent for too long is killed and started again, and
//! only the text it was at is lost.

use crate::{read_answer, read_record, write_answer, write_record, Record};
use std::io::{self, BufReader, BufWriter, Write};
use std::path::PathBuf;
use std::process::{Child, ChildStdin, Command, Stdio};
use std::sync::mpsc::{channel, Receiver, RecvTimeoutError};
use std::time::Duration;

/// The answer where the worker was silent for too long.
pub const SLOW: &[u8] = b"slow\n";
/// The answer where the worker process itself ended.
pub const DIED: &[u8] = b"panicked the worker process died\n";

/// Bytes sent ahead of their answers: less than a pipe holds, so that writing
/// never blocks on a worker that hangs.
const AHEAD: usize = 32 * 1024;

/// Deep recursion in the Rust (a chain of 32,768 declarator steps is dropped
/// recursively) must not look like a fault of the text.
const WORKER_STACK: usize = 1 << 29;

/// A command that answers records, kept running and restarted when needed.
pub struct Supervisor {
    program: PathBuf,
    arguments: Vec<String>,
    patience: Duration,
    worker: Option<Worker>,
}

struct Worker {
    child: Child,
    input: BufWriter<ChildStdin>,
    answers: Receiver<Vec<u8>>,
}

impl Supervisor {
    pub fn new(program: PathBuf, arguments: &[&str], patience: Duration) -> Supervisor {
        Supervisor {
            program,
            arguments: arguments.iter().map(|a| a.to_string()).collect(),
            patience,
            worker: None,
        }
    }

    /// Answer every record, in order.
    pub fn ask(&mut self, records: &[Record]) -> io::Result<Vec<Vec<u8>>> {
        let mut answers = Vec::with_capacity(records.len());
        while answers.len() < records.len() {
            let rest = &records[answers.len()..];
            self.ask_ahead(&rest[..how_many_ahead(rest)], &mut answers)?;
        }
        Ok(answers)
    }

    /// Send some records and collect answers until all are there or the worker
    /// is lost. At least one answer is added.
    fn ask_ahead(&mut self, records: &[Record], answers: &mut Vec<Vec<u8>>) -> io::Result<()> {
        if self.worker.is_none() {
            self.worker = Some(Worker::start(&self.program, &self.arguments)?);
        }
        let worker = self.worker.as_mut().expect("started above");
        // A failed write means a dead worker, which the first answer tells too.
        let _ = worker.send(records);
        for _ in records {
            let lost = match worker.answers.recv_timeout(self.patience) {
                Ok(answer) => {
                    answers.push(answer);
                    continue;
                }
                Err(RecvTimeoutError::Timeout) => SLOW,
                Err(RecvTimeoutError::Disconnected) => DIED,
            };
            answers.push(lost.to_vec());
            self.stop();
            break;
        }
        Ok(())
    }

    fn stop(&mut self) {
        if let Some(mut worker) = self.worker.take() {
            let _ = worker.child.kill();
            let _ = worker.child.wait();
        }
    }
}

impl Drop for Supervisor {
    fn drop(&mut self) {
        self.stop();
    }
}

impl Worker {
    fn start(program: &PathBuf, arguments: &[String]) -> io::Result<Worker> {
        let mut child = Command::new(program)
            .args(arguments)
            .stdin(Stdio::piped())
            .stdout(Stdio::piped())
            .stderr(Stdio::null())
            .spawn()?;
        let input = BufWriter::new(child.stdin.take().expect("stdin is piped"));
        let mut output = BufReader::new(child.stdout.take().expect("stdout is piped"));
        let (sender, answers) = channel();
        std::thread::spawn(move || {
            while let Ok(Some(answer)) = read_answer(&mut output) {
                if sender.send(answer).is_err() {
                    break;
                }
            }
        });
        Ok(Worker { child, input, answers })
    }

    fn send(&mut self, records: &[Record]) -> io::Result<()> {
        for record in records {
            write_record(&mut self.input, record)?;
        }
        self.input.flush()
    }
}

fn how_many_ahead(records: &[Record]) -> usize {
    let mut bytes = 0;
    let fitting = records
        .iter()
        .take_while(|r| {
            bytes += r.text.len() + 40;
            bytes <= AHEAD
        })
        .count();
    fitting.max(1)
}

/// The worker's side: answer records from standard input until it ends.
/// Each answer is flushed, because the other side counts its silence.
pub fn serve(answer: impl Fn(&Record) -> Vec<u8> + Send + 'static) -> io::Result<()> {
    on_large_stack(move || {
        let mut input = io::stdin().lock();
        let mut out = BufWriter::new(io::stdout().lock());
        while let Some(record) = read_record(&mut input)? {
            write_answer(&mut out, &answer(&record))?;
            out.flush()?;
        }
        Ok(())
    })
}

/// Run something where the Rust's deepest recursion fits.
pub fn on_large_stack<T: Send + 'static>(work: impl FnOnce() -> T + Send + 'static) -> T {
    std::thread::Builder::new()
        .stack_size(WORKER_STACK)
        .spawn(work)
        .expect("a thread can be started")
        .join()
        .unwrap_or_else(|fault| std::panic::resume_unwind(fault))
}
