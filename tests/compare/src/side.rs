//! What is compared with the second implementation, by way of a program that can
//! link it (`calls.c`): the library, and the same in plain C. Calls go there in
//! batches; the program checks for itself that nothing is written outside the buffers
//! that it lends.

use crate::call::{Call, Left, Said, Seen};
use crate::wire;
use std::io::{self, Read, Write};
use std::path::PathBuf;
use std::process::{Child, ChildStdin, Command, Stdio};
use std::sync::mpsc::{self, Receiver, RecvTimeoutError};
use std::thread;
use std::time::Duration;

/// How long the answers to a batch, or to one call, may take.
const PATIENCE: Duration = Duration::from_secs(20);
const PATIENCE_FOR_ONE: Duration = Duration::from_secs(3);

pub struct Side {
    /// What it is called where its answers are shown.
    pub name: &'static str,
    program: PathBuf,
    empty_is_null: bool,
    running: Running,
}

/// The program as it runs. One thread does nothing but read its answers, so
/// that no answer can be waited for in vain.
struct Running {
    child: Child,
    calls: ChildStdin,
    answers: Receiver<Vec<u8>>,
}

/// Why there is no answer.
#[derive(Clone, Debug, PartialEq, Eq)]
pub struct Lost(pub String);

/// A program that the script `build` has made.
fn made(name: &str) -> PathBuf {
    let made = PathBuf::from(env!("CARGO_MANIFEST_DIR")).join("../../target/compare");
    made.join(name)
}

impl Side {
    /// The library, by the program that TACIT_CALLS names, if it names one.
    pub fn library(empty_is_null: bool) -> io::Result<Side> {
        let named = std::env::var_os("TACIT_CALLS").map(PathBuf::from);
        let program = named.unwrap_or_else(|| made("calls"));
        Side::start("library", program, empty_is_null)
    }

    /// The same in plain C.
    pub fn plain(empty_is_null: bool) -> io::Result<Side> {
        Side::start("plain", made("plain"), empty_is_null)
    }

    fn start(name: &'static str, program: PathBuf, empty_is_null: bool) -> io::Result<Side> {
        if !program.is_file() {
            let why = format!("no {}: run tests/compare/build", program.display());
            return Err(io::Error::new(io::ErrorKind::NotFound, why));
        }
        let running = Running::start(&program)?;
        Ok(Side {
            name,
            program,
            empty_is_null,
            running,
        })
    }

    /// Asks one call and waits for its answer.
    pub fn ask(&mut self, call: &Call) -> Seen {
        self.send(std::slice::from_ref(call));
        match self.receive_within(std::slice::from_ref(call), PATIENCE_FOR_ONE) {
            Ok(mut seen) => seen.remove(0),
            Err(lost) => Seen {
                said: Said::Lost(lost),
                left: Left::as_found(call),
                faults: 0,
            },
        }
    }

    /// Sends calls, whose answers are to be received next. If they cannot be
    /// sent, no answer will come.
    pub fn send(&mut self, calls: &[Call]) {
        let mut batch = vec![0; 4];
        for call in calls {
            wire::put_call(&mut batch, call, self.empty_is_null);
        }
        let length = (batch.len() - 4) as u32;
        batch[..4].copy_from_slice(&length.to_le_bytes());
        let _ = self.running.calls.write_all(&batch);
    }

    /// The answers to the calls that were sent. If there are none, the program
    /// has been started anew.
    pub fn receive(&mut self, calls: &[Call]) -> Result<Vec<Seen>, Lost> {
        self.receive_within(calls, PATIENCE)
    }

    fn receive_within(&mut self, calls: &[Call], patience: Duration) -> Result<Vec<Seen>, Lost> {
        let why = match self.running.answers.recv_timeout(patience) {
            Ok(batch) => match wire::seen(calls, &batch) {
                Some(seen) => return Ok(seen),
                None => "answers that cannot be read".to_string(),
            },
            Err(RecvTimeoutError::Timeout) => {
                format!("no answer within {} seconds", patience.as_secs())
            }
            Err(RecvTimeoutError::Disconnected) => match self.running.child.wait() {
                Ok(status) => format!("the program ended: {status}"),
                Err(error) => format!("the program ended: {error}"),
            },
        };
        self.running.stop();
        self.running = Running::start(&self.program).expect("it could be started before");
        Err(Lost(why))
    }
}

impl Running {
    fn start(program: &PathBuf) -> io::Result<Running> {
        let mut command = Command::new(program);
        let mut child = command
            .stdin(Stdio::piped())
            .stdout(Stdio::piped())
            .spawn()
            .map_err(|error| io::Error::new(error.kind(), format!("{command:?}: {error}")))?;
        let calls = child.stdin.take().expect("it is a pipe");
        let mut from = child.stdout.take().expect("it is a pipe");
        let (to, answers) = mpsc::channel();
        thread::spawn(move || {
            while let Ok(batch) = read_batch(&mut from) {
                if to.send(batch).is_err() {
                    return;
                }
            }
        });
        Ok(Running {
            child,
            calls,
            answers,
        })
    }

    fn stop(&mut self) {
        let _ = self.child.kill();
        let _ = self.child.wait();
    }
}

impl Drop for Side {
    fn drop(&mut self) {
        self.running.stop();
    }
}

fn read_batch(from: &mut impl Read) -> io::Result<Vec<u8>> {
    let mut length = [0; 4];
    from.read_exact(&mut length)?;
    let mut batch = vec![0; u32::from_le_bytes(length) as usize];
    from.read_exact(&mut batch)?;
    Ok(batch)
}
