//! A running probe: one thread writes calls, one reads results, so that neither pipe can fill up and stop the other.

use crate::model::face::Reply;
use crate::wire::read_reply;
use std::io::{BufReader, Write};
use std::process::{Child, Command, Stdio};
use std::sync::mpsc::{channel, Receiver, RecvTimeoutError, Sender};
use std::time::Duration;

/// A result takes no longer than this, on a slow machine under an emulator.
const PATIENCE: Duration = Duration::from_secs(300);

const ENDS: &str = "the program's output ends";

/// Why there is no result. A program that hangs is not tried again: that would take too long.
pub struct Trouble {
    pub what: String,
    pub hangs: bool,
}

pub struct Probe {
    child: Child,
    calls: Option<Sender<Vec<u8>>>,
    results: Receiver<Result<Reply, String>>,
}

impl Probe {
    pub fn start(command: &[String]) -> Result<Probe, String> {
        let mut child = Command::new(&command[0])
            .args(&command[1..])
            .stdin(Stdio::piped())
            .stdout(Stdio::piped())
            .spawn()
            .map_err(|e| format!("{} can't be started: {e}", command[0]))?;
        let mut input = child.stdin.take().expect("piped");
        let mut output = BufReader::new(child.stdout.take().expect("piped"));

        let (calls, to_write) = channel::<Vec<u8>>();
        std::thread::spawn(move || {
            for bytes in to_write {
                if input.write_all(&bytes).and_then(|()| input.flush()).is_err() {
                    return;
                }
            }
        });
        let (read, results) = channel();
        std::thread::spawn(move || loop {
            let result = match read_reply(&mut output) {
                Ok(Some(reply)) => Ok(reply),
                Ok(None) => Err(ENDS.to_string()),
                Err(e) => Err(format!("the program's output is no result: {e}")),
            };
            let last = result.is_err();
            if read.send(result).is_err() || last {
                return;
            }
        });
        Ok(Probe { child, calls: Some(calls), results })
    }

    /// Hands bytes over to be written; does not wait.
    pub fn send(&self, bytes: Vec<u8>) {
        if let Some(calls) = &self.calls {
            // If the program has ended, the results say so.
            let _ = calls.send(bytes);
        }
    }

    pub fn receive(&self) -> Result<Reply, Trouble> {
        match self.results.recv_timeout(PATIENCE) {
            Ok(Ok(reply)) => Ok(reply),
            Ok(Err(what)) => Err(Trouble { what, hangs: false }),
            Err(RecvTimeoutError::Disconnected) => Err(Trouble { what: ENDS.to_string(), hangs: false }),
            Err(RecvTimeoutError::Timeout) => {
                Err(Trouble { what: format!("no result within {} seconds", PATIENCE.as_secs()), hangs: true })
            }
        }
    }

    /// Ends the input and looks that nothing more comes.
    pub fn ends_with_nothing_more(mut self) -> Result<(), String> {
        self.nothing_more()
    }

    fn nothing_more(&mut self) -> Result<(), String> {
        self.calls = None;
        match self.receive() {
            Err(trouble) if trouble.what == ENDS => Ok(()),
            Err(trouble) => Err(trouble.what),
            Ok(_) => Err("a result that no call asked for".to_string()),
        }
    }

    /// Ends the input and looks that nothing more comes and that the program ends well.
    pub fn finish(mut self) -> Result<(), String> {
        self.nothing_more()?;
        match self.child.wait() {
            Ok(status) if status.success() => Ok(()),
            Ok(status) => Err(format!("the program ended with {status}")),
            Err(e) => Err(format!("{e}")),
        }
    }
}

impl Drop for Probe {
    fn drop(&mut self) {
        self.calls = None;
        let _ = self.child.kill();
        let _ = self.child.wait();
    }
}
