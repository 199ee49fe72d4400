//! Makes a session: `gen PROGRAM MESSAGES SEED FILE` lets 64 clients talk to a box that PROGRAM serves, and writes
//! what they sent to FILE. The same arguments give the same session.
//!
//! Each client knows its seat and what the replies have told it, and has one message at a time under way.

use std::fs::File;
use std::io::{self, BufReader, BufWriter, Read, Write};
use std::process::{Command, Stdio};

const SEATS: usize = 64;
const PASSAGES: u64 = 16_383;
/// How many clients want the right at the same time.
const BUSY: usize = 6;

/// splitmix64
struct Random(u64);

impl Random {
    fn next(&mut self) -> u64 {
        self.0 = self.0.wrapping_add(0x9e37_79b9_7f4a_7c15);
        let mut x = self.0;
        x = (x ^ x >> 30).wrapping_mul(0xbf58_476d_1ce4_e5b9);
        x = (x ^ x >> 27).wrapping_mul(0x94d0_49bb_1331_11eb);
        x ^ x >> 31
    }

    fn below(&mut self, limit: u64) -> u64 {
        self.next() % limit
    }

    fn chance(&mut self, per_thousand: u64) -> bool {
        self.below(1000) < per_thousand
    }
}

#[derive(Clone, Copy, Default)]
struct Client {
    /// The last state that a reply has named: 0 away, 1 climbing, 2 holding, 3 leaving.
    state: u8,
    passage: u16,
    gave_up: bool,
    /// How many texts are still to be published.
    texts: u64,
}

/// What one client sends next.
fn message(random: &mut Random, seat: u8, client: &Client, may_apply: bool) -> Vec<u8> {
    let [hi, lo] = client.passage.to_be_bytes();
    if random.chance(20) {
        return vec![5, seat];
    }
    if random.chance(20) {
        // calls that are refused, most of them
        return match random.below(6) {
            0 => vec![1, seat | 64],
            1 => vec![2, seat, hi, lo, 3],
            2 => vec![2, seat, hi ^ 1, lo, 0],
            3 => vec![4, seat, hi ^ 2, lo],
            4 => vec![3, seat, hi ^ 4, lo],
            _ => vec![6, seat, hi ^ 8, lo, b'?'],
        };
    }
    match client.state {
        0 if may_apply => vec![1, seat],
        0 => vec![5, seat],
        1 if !client.gave_up && random.chance(4) => vec![3, seat, hi, lo],
        2 if client.texts > 0 => {
            let mut body = vec![6, seat, hi, lo];
            for _ in 0..1 + random.below(80) {
                body.push(b'a' + random.below(26) as u8);
            }
            body
        }
        2 => vec![4, seat, hi, lo],
        _ => vec![2, seat, hi, lo, random.below(3) as u8],
    }
}

/// Takes in what the reply says.
fn learn(client: &mut Client, sent: &[u8], reply: &[u8], random: &mut Random) {
    if reply[1] != 0 {
        return;
    }
    match sent[0] {
        1 => {
            let passage = u16::from_be_bytes([reply[2], reply[3]]);
            *client = Client { state: 1, passage, gave_up: false, texts: 1 + random.below(3) };
        }
        3 => {
            client.state = reply[2];
            client.gave_up = true;
        }
        6 => client.texts -= 1,
        _ => client.state = reply[2],
    }
}

fn read_body(replies: &mut impl Read) -> io::Result<Vec<u8>> {
    let mut header = [0; 3];
    replies.read_exact(&mut header)?;
    let mut body = vec![0; usize::from(u16::from_be_bytes([header[1], header[2]]))];
    replies.read_exact(&mut body)?;
    Ok(body)
}

fn main() -> io::Result<()> {
    let args: Vec<String> = std::env::args().collect();
    let [_, program, messages, seed, file] = args.as_slice() else {
        eprintln!("usage: gen PROGRAM MESSAGES SEED FILE");
        std::process::exit(2);
    };
    let messages: u64 = messages.parse().expect("a number of messages");
    let mut random = Random(seed.parse().expect("a seed"));
    let mut child = Command::new(program).stdin(Stdio::piped()).stdout(Stdio::piped()).spawn()?;
    let mut requests = child.stdin.take().expect("a pipe");
    let mut replies = BufReader::new(child.stdout.take().expect("a pipe"));
    let mut session = BufWriter::new(File::create(file)?);

    let mut clients = [Client::default(); SEATS];
    let mut busy: Vec<usize> = Vec::new();
    let (mut sent, mut applied, mut held, mut given_up, mut published, mut refused) = (0, 0, 0, 0, 0, 0);
    while sent < messages {
        while busy.len() < BUSY {
            let seat = random.below(SEATS as u64) as usize;
            if !busy.contains(&seat) {
                busy.push(seat);
            }
        }
        // each busy client sends one message, some twice as often as others
        let mut batch = Vec::new();
        let mut bodies = Vec::new();
        for &seat in &busy {
            if sent + (bodies.len() as u64) < messages && random.chance(700) {
                // the passages are to last for the whole session
                let may_apply = applied * messages <= sent * (PASSAGES - 100);
                let body = message(&mut random, seat as u8, &clients[seat], may_apply);
                batch.extend_from_slice(&[1, 0, body.len() as u8]);
                batch.extend_from_slice(&body);
                bodies.push((seat, body));
            }
        }
        requests.write_all(&batch)?;
        session.write_all(&batch)?;
        sent += bodies.len() as u64;
        for (seat, body) in &bodies {
            let reply = read_body(&mut replies)?;
            let before = clients[*seat].state;
            learn(&mut clients[*seat], body, &reply, &mut random);
            let accepted = reply[1] == 0;
            applied += u64::from(accepted && body[0] == 1);
            given_up += u64::from(accepted && body[0] == 3);
            published += u64::from(accepted && body[0] == 6);
            refused += u64::from(!accepted);
            held += u64::from(before != 2 && clients[*seat].state == 2);
        }
        // whoever is away again may make room for another
        if random.chance(50) {
            busy.retain(|&seat| clients[seat].state != 0);
        }
    }
    drop(requests);
    session.flush()?;
    child.wait()?;
    println!(
        "session: {sent} messages, {applied} passages, {held} of them held, {given_up} given up, \
         {published} texts published, {refused} calls refused"
    );
    Ok(())
}
