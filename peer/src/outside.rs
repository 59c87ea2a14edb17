//! Runs another program on an input, with a limit of time.

use std::fs::File;
use std::io::Read;
use std::path::{Path, PathBuf};
use std::process::{Child, Command, Stdio};
use std::sync::mpsc::{channel, Sender};
use std::sync::{Arc, Mutex};
use std::time::{Duration, Instant};

const PATIENCE: Duration = Duration::from_secs(120);
/// More than any log of `press`: 6,384 presses of 145 lines, 96 pair rounds of 17.
const MOST_OUTPUT: u64 = 32_000_000;

/// A child that is still ours to end; nothing once it was waited for.
type Running = Arc<Mutex<Option<Child>>>;

pub struct Outside {
    path: PathBuf,
    input: PathBuf,
    watch: Sender<(Instant, Running)>,
}

impl Outside {
    pub fn new(path: &str, directory: &Path) -> Result<Outside, String> {
        let path = std::fs::canonicalize(path).map_err(|error| format!("{path}: {error}"))?;
        std::fs::create_dir_all(directory).map_err(|error| error.to_string())?;
        let name = path
            .file_name()
            .unwrap_or_default()
            .to_string_lossy()
            .into_owned();
        let input = directory.join(format!("now-{}-{name}", std::process::id()));
        let (watch, watched) = channel::<(Instant, Running)>();
        std::thread::spawn(move || {
            for (deadline, running) in watched {
                end_when_late(deadline, &running);
            }
        });
        Ok(Outside { path, input, watch })
    }

    /// What the program prints, and a note if it did not end well.
    pub fn answer(&self, input: &[u8]) -> (Vec<u8>, String) {
        match self.try_answer(input) {
            Ok(answer) => answer,
            Err(error) => (vec![], error.to_string()),
        }
    }

    fn try_answer(&self, input: &[u8]) -> std::io::Result<(Vec<u8>, String)> {
        std::fs::write(&self.input, input)?;
        let mut child = Command::new(&self.path)
            .stdin(File::open(&self.input)?)
            .stdout(Stdio::piped())
            .stderr(Stdio::null())
            .spawn()?;
        let stdout = child.stdout.take();
        let running = Arc::new(Mutex::new(Some(child)));
        let _ = self
            .watch
            .send((Instant::now() + PATIENCE, running.clone()));
        let mut found = Vec::new();
        if let Some(stdout) = stdout {
            stdout.take(MOST_OUTPUT).read_to_end(&mut found)?;
        }
        let mut slot = running.lock().unwrap();
        let status = slot.as_mut().map(|child| child.wait()).transpose()?;
        *slot = None;
        let crashed = status.is_none_or(|status| matches!(status.code(), None | Some(101)));
        let note = if crashed {
            format!("ended with {status:?}")
        } else {
            String::new()
        };
        Ok((found, note))
    }
}

impl Drop for Outside {
    fn drop(&mut self) {
        let _ = std::fs::remove_file(&self.input);
    }
}

fn end_when_late(deadline: Instant, running: &Running) {
    loop {
        let mut slot = running.lock().unwrap();
        let Some(child) = slot.as_mut() else { return };
        if Instant::now() >= deadline {
            let _ = child.kill();
            return;
        }
        drop(slot);
        std::thread::sleep(Duration::from_millis(20));
    }
}
