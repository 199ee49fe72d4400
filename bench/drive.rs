//! Measures programs that answer messages: `drive SESSION ROUNDS GATEBOX PLAIN ASKING ECHO` sends the session to each
//! of the four, one message in flight and then in batches, and prints how many messages a second each one answers and
//! the most memory it had. The replies of the first three must be the same, byte for byte; those of ECHO the session.
//!
//! In a round all four run side by side and take turns, a short slice of the session each. Rates and ratios are
//! medians over all slices, so that whatever else the machine does falls on all alike, and rarely counts.

use std::fs;
use std::io::{self, Read, Write};
use std::process::{Child, ChildStdin, ChildStdout, Command, Stdio};
use std::time::Instant;

const NAMES: [&str; 4] = ["gatebox", "plain", "asking", "echo"];
const USAGE: &str = "usage: drive SESSION ROUNDS GATEBOX PLAIN ASKING ECHO";

struct Mode {
    name: &'static str,
    /// How many messages are sent before their replies are awaited.
    batch: usize,
    /// How many batches are sent to one program before it is the next one's turn.
    slice: usize,
    /// How many messages of the session are sent at the most.
    limit: usize,
    /// The ratios of gatebox to the others that are aimed at.
    aims: [Option<f64>; 4],
}

const MODES: [Mode; 2] = [
    Mode {
        name: "one message in flight",
        batch: 1,
        slice: 1000,
        limit: 100_000,
        aims: [None, Some(1.0), None, Some(0.8)],
    },
    Mode {
        name: "batches of 64",
        batch: 64,
        slice: 100,
        limit: usize::MAX,
        aims: [None, Some(1.0), None, Some(0.3)],
    },
];

/// Where the frame ends that begins at a position, if all of it is there.
fn frame_end(bytes: &[u8], at: usize) -> Option<usize> {
    let [_, hi, lo, ..] = bytes[at..] else {
        return None;
    };
    let end = at + 3 + usize::from(u16::from_be_bytes([hi, lo]));
    (end <= bytes.len()).then_some(end)
}

/// Where the messages of the session end.
fn ends(session: &[u8]) -> Vec<usize> {
    std::iter::successors(frame_end(session, 0), |&at| frame_end(session, at)).collect()
}

/// A running program.
struct Server {
    child: Child,
    to: ChildStdin,
    from: ChildStdout,
    sent: usize,
    filled: usize,
    parsed: usize,
    /// Messages a second in each slice.
    rates: Vec<f64>,
}

impl Server {
    fn start(program: &str) -> io::Result<Self> {
        let mut child = Command::new(program).stdin(Stdio::piped()).stdout(Stdio::piped()).spawn()?;
        let to = child.stdin.take().expect("a pipe");
        let from = child.stdout.take().expect("a pipe");
        Ok(Server { child, to, from, sent: 0, filled: 0, parsed: 0, rates: Vec::new() })
    }

    /// Sends messages in batches, and awaits the replies to each before the next.
    fn serve(&mut self, session: &[u8], ends: &[usize], batch: usize, replies: &mut [u8]) -> io::Result<()> {
        let start = Instant::now();
        for batch in ends.chunks(batch) {
            let end = batch[batch.len() - 1];
            self.to.write_all(&session[self.sent..end])?;
            self.sent = end;
            let mut awaited = batch.len();
            while awaited > 0 {
                let count = self.from.read(&mut replies[self.filled..])?;
                if count == 0 {
                    return Err(io::Error::other("a program ended before the session"));
                }
                self.filled += count;
                while let Some(next) = frame_end(&replies[..self.filled], self.parsed) {
                    self.parsed = next;
                    awaited -= 1;
                }
            }
        }
        self.rates.push(ends.len() as f64 / start.elapsed().as_secs_f64());
        Ok(())
    }

    /// Ends the program. Answers the most memory that it has had, in KiB.
    fn end(mut self) -> io::Result<u64> {
        let status = fs::read_to_string(format!("/proc/{}/status", self.child.id()))?;
        let peak = status.lines().find_map(|line| line.strip_prefix("VmHWM:"));
        let peak = peak.and_then(|rest| rest.split_whitespace().next()).and_then(|word| word.parse().ok());
        drop(self.to);
        let more = self.from.read(&mut [0])?;
        if more > 0 || !self.child.wait()?.success() {
            return Err(io::Error::other("a program did not end well"));
        }
        Ok(peak.unwrap_or(0))
    }
}

/// What one program did in one round.
struct Run {
    rates: Vec<f64>,
    peak: u64,
}

/// Runs the programs side by side.
fn round(
    programs: &[String],
    session: &[u8],
    ends: &[usize],
    mode: &Mode,
    replies: &mut [Vec<u8>],
) -> io::Result<Vec<Run>> {
    let mut servers: Vec<Server> = programs.iter().map(|program| Server::start(program)).collect::<io::Result<_>>()?;
    for (turn, slice) in ends.chunks(mode.batch * mode.slice).enumerate() {
        for step in 0..servers.len() {
            let which = (turn + step) % servers.len();
            servers[which].serve(session, slice, mode.batch, &mut replies[which])?;
        }
    }
    let filled: Vec<usize> = servers.iter().map(|server| server.filled).collect();
    for which in [1, 2] {
        if replies[0][..filled[0]] != replies[which][..filled[which]] {
            return Err(io::Error::other(format!("the replies of gatebox and {} differ", NAMES[which])));
        }
    }
    if replies[3][..filled[3]] != session[..servers[3].sent] {
        return Err(io::Error::other("echo wrote something else than it read"));
    }
    servers
        .into_iter()
        .map(|mut server| {
            let rates = std::mem::take(&mut server.rates);
            Ok(Run { rates, peak: server.end()? })
        })
        .collect()
}

fn median(values: impl Iterator<Item = f64>) -> f64 {
    let mut values: Vec<f64> = values.collect();
    values.sort_by(f64::total_cmp);
    values[values.len() / 2]
}

fn main() -> io::Result<()> {
    let args: Vec<String> = std::env::args().collect();
    let [_, session, rounds, programs @ ..] = args.as_slice() else {
        return Err(io::Error::other(USAGE));
    };
    let rounds: usize = rounds.parse().map_err(io::Error::other)?;
    if programs.len() != NAMES.len() || rounds == 0 {
        return Err(io::Error::other(USAGE));
    }
    let session = fs::read(session)?;
    let ends = ends(&session);
    // a reply has at most 9 bytes, or 6 and the text, and a message at least 5
    let mut replies = vec![vec![1; 2 * session.len() + 4096]; programs.len()];
    for mode in &MODES {
        let ends = &ends[..ends.len().min(mode.limit)];
        // the first round only warms up
        round(programs, &session, ends, mode, &mut replies)?;
        let runs: Vec<Vec<Run>> = (0..rounds)
            .map(|_| round(programs, &session, ends, mode, &mut replies))
            .collect::<io::Result<_>>()?;

        println!("\n{}: {} messages, {rounds} rounds", mode.name, ends.len());
        println!("{:<10}{:>14}{:>10}{:>12}", "program", "messages/s", "peak KiB", "gatebox/it");
        for (which, name) in NAMES.iter().enumerate() {
            let rate = median(runs.iter().flat_map(|run| run[which].rates.iter().copied()));
            let peak = runs.iter().map(|run| run[which].peak).max().unwrap_or(0);
            let pairs = runs.iter().flat_map(|run| run[0].rates.iter().zip(&run[which].rates));
            let ratio = median(pairs.map(|(ours, theirs)| ours / theirs));
            let verdict = match mode.aims[which] {
                Some(aim) if ratio + 0.005 >= aim => format!("   aim {aim:.1}, reached"),
                Some(aim) => format!("   aim {aim:.1}, missed"),
                None => String::new(),
            };
            println!("{name:<10}{rate:>14.0}{peak:>10}{ratio:>12.2}{verdict}");
        }
    }
    println!("\nthe replies of gatebox, plain and asking are the same, byte for byte");
    Ok(())
}
