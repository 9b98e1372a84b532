//! Running the reader under test.

use batch::{read_answer, write_record, Entry, Record};
use std::io::{self, BufReader, BufWriter, Read, Write};
use std::os::unix::process::CommandExt;
use std::process::{Child, Command, ExitStatus, Stdio};
use std::sync::mpsc::{channel, Receiver, RecvTimeoutError};
use std::time::Duration;

/// Stands for the answer where the reader ended, hung or wrote nonsense.
pub const ENDED: &[u8] = b"ended without an answer\n";
pub const SILENT: &[u8] = b"silent for too long\n";

/// A reader that falls this often in one go is not asked any further.
const FALLS_ALLOWED: usize = 30;

/// How a command is asked.
#[derive(Debug, Clone, Copy, PartialEq, Eq)]
pub enum Form {
    /// A batch on its standard input, of at most this many records.
    Batch(usize),
    /// One text on its standard input; it uses lp64 and reads a whole unit,
    /// and all it prints is the answer.
    OneText,
}

/// The command under test.
pub struct Reader {
    command: String,
    form: Form,
    patience: Duration,
    has_answered: bool,
}

impl Reader {
    pub fn new(command: String, form: Form, patience: Duration) -> Reader {
        Reader { command, form, patience, has_answered: false }
    }

    /// False for a record that this form of command can't be asked.
    pub fn can_be_asked(&self, record: &Record) -> bool {
        self.form != Form::OneText || (record.model == 0 && record.entry == Entry::Unit)
    }

    /// One answer for each record. Where a run falls, that record gets
    /// `ENDED` or `SILENT` and the next run begins behind it.
    pub fn ask(&mut self, records: &[Record]) -> Result<Vec<Vec<u8>>, String> {
        let mut answers = Vec::new();
        let mut falls = 0;
        while answers.len() < records.len() {
            let rest = &records[answers.len()..];
            let asked = match self.form {
                Form::Batch(lot) => rest.len().min(lot.max(1)),
                Form::OneText => 1,
            };
            let run = run(&self.command, self.form, &rest[..asked], self.patience)
                .map_err(|e| format!("the reader's command `{}` can't run: {e}", self.command))?;
            self.check(&run, asked)?;
            let complete = run.answers.len() == asked;
            answers.extend(run.answers);
            if complete {
                continue;
            }
            falls += 1;
            if falls > FALLS_ALLOWED {
                return Err(format!(
                    "the reader answers too few records: it fell {falls} times, at last with: {}",
                    run.end
                ));
            }
            answers.push(if run.silent { SILENT } else { ENDED }.to_vec());
        }
        Ok(answers)
    }

    /// Errors of the command itself and not of one answer.
    fn check(&mut self, run: &Run, asked: usize) -> Result<(), String> {
        if run.answers.is_empty() && !self.has_answered {
            return Err(format!(
                "the reader's command `{}` gave no answer at all ({})",
                self.command, run.end
            ));
        }
        self.has_answered = true;
        if run.answers.len() > asked {
            return Err(format!("the reader gives more answers than the {asked} it was asked for"));
        }
        Ok(())
    }
}

/// What one run of the command gave.
struct Run {
    answers: Vec<Vec<u8>>,
    silent: bool,
    /// How it ended, in words.
    end: String,
}

fn run(command: &str, form: Form, records: &[Record], patience: Duration) -> io::Result<Run> {
    let mut child = Command::new("sh")
        .args(["-c", command])
        // A group of its own, so that what the shell started ends with it.
        .process_group(0)
        .stdin(Stdio::piped())
        .stdout(Stdio::piped())
        .spawn()?;
    let received = exchange(&mut child, form, records);
    let mut answers = Vec::new();
    let mut silent = false;
    let mut fault = None;
    while answers.len() <= records.len() {
        match received.recv_timeout(patience) {
            Ok(Ok(answer)) => answers.push(answer),
            Ok(Err(e)) => {
                fault = Some(e.to_string());
                break;
            }
            Err(RecvTimeoutError::Disconnected) => break,
            Err(RecvTimeoutError::Timeout) => {
                silent = true;
                break;
            }
        }
    }
    let talks_on = answers.len() > records.len();
    let status = stop(&mut child, silent || talks_on || fault.is_some())?;
    let end = match fault {
        Some(fault) => fault,
        None if silent => "it was silent for too long".into(),
        None => status.to_string(),
    };
    Ok(Run { answers, silent, end })
}

/// Feed the records from one thread and collect the answers on another: a
/// reader may answer while it reads, or read everything first.
fn exchange(child: &mut Child, form: Form, records: &[Record]) -> Receiver<io::Result<Vec<u8>>> {
    let mut input = BufWriter::new(child.stdin.take().expect("stdin is piped"));
    let mut output = BufReader::new(child.stdout.take().expect("stdout is piped"));
    let records = records.to_vec();
    std::thread::spawn(move || {
        // A reader that ends early breaks the pipe; its missing answers tell.
        let _ = records
            .iter()
            .try_for_each(|r| match form {
                Form::Batch(_) => write_record(&mut input, r),
                Form::OneText => input.write_all(&r.text),
            })
            .and_then(|()| input.flush());
    });
    let (sender, received) = channel();
    std::thread::spawn(move || match form {
        Form::Batch(_) => {
            while let Some(answer) = read_answer(&mut output).transpose() {
                let failed = answer.is_err();
                if sender.send(answer).is_err() || failed {
                    break;
                }
            }
        }
        Form::OneText => {
            let mut printed = Vec::new();
            let answer = output.read_to_end(&mut printed).map(|_| printed);
            // Nothing printed is no answer.
            if !matches!(&answer, Ok(printed) if printed.is_empty()) {
                let _ = sender.send(answer);
            }
        }
    });
    received
}

fn stop(child: &mut Child, by_force: bool) -> io::Result<ExitStatus> {
    if by_force {
        let group = format!("-{}", child.id());
        let _ = Command::new("kill").args(["-KILL", "--", &group]).status();
    }
    child.wait()
}
