//! The player program: a run of it over some bytes, handed over by a pipe in pieces or as a file,
//! and what it printed held against the model's text.

use std::fmt;
use std::fs::File;
use std::io::{Read, Write};
use std::path::{Path, PathBuf};
use std::process::{ChildStdin, Command, ExitStatus, Stdio};
use std::sync::atomic::{AtomicUsize, Ordering};
use std::sync::mpsc;
use std::thread;
use std::time::{Duration, Instant};

use super::on_model::{Played, Tally, play};
use crate::rng::Rng;

/// How the bytes come to the player.
#[derive(Clone, Copy)]
pub enum Feed<'a> {
    /// By a pipe, in pieces of so many bytes.
    Pieces(usize),
    /// By a pipe, byte by byte, each when the last has had time to be read.
    Slowly,
    /// By a pipe, in pieces of random length from this seed.
    Random(u64),
    /// The file that holds them is the standard input.
    File(&'a Path),
}

impl fmt::Display for Feed<'_> {
    fn fmt(&self, f: &mut fmt::Formatter) -> fmt::Result {
        match self {
            Feed::Pieces(usize::MAX) => write!(f, "in one piece"),
            Feed::Pieces(length) => write!(f, "in pieces of length {length}"),
            Feed::Slowly => write!(f, "slowly"),
            Feed::Random(seed) => write!(f, "in random pieces, seed {seed}"),
            Feed::File(_) => write!(f, "from a file"),
        }
    }
}

/// By a pipe, all in one piece.
pub const WHOLE: Feed = Feed::Pieces(usize::MAX);

/// A player that runs so long has come to no end.
const LONGEST: Duration = Duration::from_secs(120);
/// The time between two bytes that are handed over slowly.
const REST: Duration = Duration::from_micros(50);
/// The lengths of random pieces are below one of these.
const RANDOM: [u64; 6] = [2, 4, 12, 100, 5_000, 140_000];

/// A run of the player.
pub struct Ran {
    pub out: Vec<u8>,
    pub status: ExitStatus,
    /// From before it was started to after its end.
    pub time: Duration,
}

/// Writes the bytes. A player that stopped reads no more, and that is no error.
fn hand_over(mut pipe: ChildStdin, mut bytes: &[u8], feed: Feed) {
    let mut rng = Rng::new(if let Feed::Random(seed) = feed { seed } else { 0 });
    while !bytes.is_empty() {
        let length = match feed {
            Feed::Pieces(length) => length,
            // A file is not handed over.
            Feed::Slowly | Feed::File(_) => 1,
            Feed::Random(_) => {
                let below = *rng.pick(&RANDOM);
                1 + rng.below(below) as usize
            }
        };
        let (piece, rest) = bytes.split_at(length.min(bytes.len()));
        if pipe.write_all(piece).is_err() {
            return;
        }
        if matches!(feed, Feed::Slowly) {
            thread::sleep(REST);
        }
        bytes = rest;
    }
}

/// Runs the player over the bytes. Writing and reading have a thread each, so that neither waits for
/// the other when the pipes are full.
pub fn run(player: &Path, bytes: &[u8], feed: Feed) -> Result<Ran, String> {
    let name = player.display();
    let said = |error: std::io::Error| format!("{name}: {error}");
    let input = match feed {
        Feed::File(path) => Stdio::from(File::open(path).map_err(said)?),
        _ => Stdio::piped(),
    };
    let start = Instant::now();
    let mut command = Command::new(player);
    let mut child = command.stdin(input).stdout(Stdio::piped()).spawn().map_err(said)?;
    let mut output = child.stdout.take().expect("it is piped");
    thread::scope(|scope| {
        if let Some(pipe) = child.stdin.take() {
            scope.spawn(move || hand_over(pipe, bytes, feed));
        }
        let (sender, receiver) = mpsc::channel();
        scope.spawn(move || {
            let mut out = Vec::new();
            let read = output.read_to_end(&mut out).map(|_| out);
            // Nobody listens any more once the player has run too long.
            let _ = sender.send(read);
        });
        let Ok(out) = receiver.recv_timeout(LONGEST) else {
            child.kill().map_err(said)?;
            child.wait().map_err(said)?;
            return Err(format!("{name}: no end after {} seconds", LONGEST.as_secs()));
        };
        let status = child.wait().map_err(said)?;
        Ok(Ran { out: out.map_err(said)?, status, time: start.elapsed() })
    })
}

/// Bytes in a file that is there as long as this is.
pub struct Stored(PathBuf);

impl Stored {
    pub fn new(bytes: &[u8]) -> Result<Self, String> {
        static MADE: AtomicUsize = AtomicUsize::new(0);
        let name = format!("trace-{}-{}", std::process::id(), MADE.fetch_add(1, Ordering::Relaxed));
        let path = std::env::temp_dir().join(name);
        std::fs::write(&path, bytes).map_err(|e| format!("{}: {e}", path.display()))?;
        Ok(Stored(path))
    }

    pub fn path(&self) -> &Path {
        &self.0
    }
}

impl Drop for Stored {
    fn drop(&mut self) {
        // What is left behind is a file for temporary ones.
        let _ = std::fs::remove_file(&self.0);
    }
}

/// The first line in which what was printed differs, and why it does.
fn difference(bytes: &[u8], played: &Played, ran: &Ran) -> Option<String> {
    let (expected, actual) = (played.text.as_bytes(), &ran.out[..]);
    if expected == actual {
        let good = ran.status.success() || (played.tally.bad > 0 && ran.status.code().is_some());
        return (!good).then(|| format!("it printed the same and ended with {}", ran.status));
    }
    let lines = |text: &[u8]| -> Vec<Vec<u8>> {
        text.split_inclusive(|b| *b == b'\n').map(<[u8]>::to_vec).collect()
    };
    let (expected, actual) = (lines(expected), lines(actual));
    let at = (0..).find(|at| expected.get(*at) != actual.get(*at))?;
    let (number, range) = played.record_of(at);
    let hex: String = bytes[range].iter().map(|byte| format!("{byte:02x}")).collect();
    let shown = |lines: &[Vec<u8>]| match lines.get(at) {
        Some(line) => format!("{:?}", String::from_utf8_lossy(line)),
        None => "(no such line)".to_owned(),
    };
    Some(format!(
        "line {} of the output, record {number}: {hex}\n  expected: {}\n  actual:   {}\n  ended with {}",
        at + 1,
        shown(&expected),
        shown(&actual),
        ran.status
    ))
}

/// Runs of one player, and what was met in them.
pub struct Runs<'a> {
    pub player: &'a Path,
    pub tally: Tally,
}

impl<'a> Runs<'a> {
    pub fn new(player: &'a Path) -> Self {
        Runs { player, tally: Tally::default() }
    }

    /// The player and the model on the same bytes.
    pub fn same(&mut self, name: &str, bytes: &[u8]) -> Result<(), String> {
        self.as_played(name, bytes, WHOLE, &play(bytes))
    }

    /// The player on bytes of which the model's text is known.
    pub fn as_played(
        &mut self,
        name: &str,
        bytes: &[u8],
        feed: Feed,
        played: &Played,
    ) -> Result<(), String> {
        let ran = run(self.player, bytes, feed)?;
        self.tally.add(&played.tally);
        match difference(bytes, played, &ran) {
            None => Ok(()),
            Some(what) => {
                Err(format!("the player differs: {name}, {feed}\n  {what}\n{}", kept(bytes)))
            }
        }
    }
}

/// Leaves the whole trace where it can be played again.
fn kept(bytes: &[u8]) -> String {
    let path = std::env::temp_dir().join("difference.trace");
    match std::fs::write(&path, bytes) {
        Ok(()) => format!("  the trace: {}", path.display()),
        Err(error) => format!("  the trace could not be kept: {error}"),
    }
}
