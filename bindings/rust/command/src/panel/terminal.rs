//! The terminal: keys as they are pressed, and one screen; as it was before when the panel ends. By the program stty.
use std::io::{self, Read, Write};
use std::process::{Command, Stdio};
use std::time::{Duration, Instant};

/// How long the terminal waits for a key, in tenths of a second.
const WAIT: u64 = 2;

pub struct Terminal {
    before: String,
    shown: String,
    /// Columns, at most 72, and rows.
    pub size: (usize, usize),
}

fn stty(words: &[&str]) -> io::Result<String> {
    let said = Command::new("stty").args(words).stdin(Stdio::inherit()).stderr(Stdio::null()).output();
    let said = said.map_err(|error| io::Error::other(format!("the program stty: {error}")))?;
    match said.status.success() {
        true => Ok(String::from_utf8_lossy(&said.stdout).trim().into()),
        false => Err(io::Error::other("stty cannot set the terminal")),
    }
}

fn put(text: &str) -> io::Result<()> {
    let mut out = io::stdout();
    out.write_all(text.as_bytes())?;
    out.flush()
}

/// Columns, at most 72, and rows, as far as the terminal says them.
fn size() -> (usize, usize) {
    let said = stty(&["size"]).unwrap_or_default();
    let numbers: Vec<usize> = said.split_whitespace().filter_map(|word| word.parse().ok()).collect();
    match numbers[..] {
        [rows, columns] if rows > 0 && columns > 0 => (columns.min(72), rows),
        _ => (72, 24),
    }
}

impl Terminal {
    pub fn open() -> io::Result<Terminal> {
        let before = stty(&["-g"])?;
        stty(&["-icanon", "-echo", "-isig", "min", "0", "time", &WAIT.to_string()])?;
        put("\x1b[?1049h\x1b[?25l")?;
        Ok(Terminal { before, shown: String::new(), size: size() })
    }

    pub fn show(&mut self, text: &str) -> io::Result<()> {
        if self.shown != text {
            put(&format!("\x1b[H{}\x1b[J", text.replace('\n', "\x1b[K\r\n")))?;
            self.shown = text.into();
        }
        Ok(())
    }

    /// The keys that were pressed; none after a short while. A key also has the size asked anew.
    pub fn keys(&mut self) -> io::Result<Vec<u8>> {
        let mut keys = [0; 64];
        let asked = Instant::now();
        let count = io::stdin().read(&mut keys)?;
        if count == 0 {
            // A terminal that is gone answers at once.
            std::thread::sleep(Duration::from_millis(100 * WAIT).saturating_sub(asked.elapsed()));
        }
        if count > 0 {
            self.size = size();
        }
        Ok(keys[..count].to_vec())
    }
}

impl Drop for Terminal {
    fn drop(&mut self) {
        // The panel ends anyhow: there is nobody left to tell.
        let _ = put("\x1b[?25h\x1b[?1049l");
        let _ = stty(&[&self.before]);
    }
}
