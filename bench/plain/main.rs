//! The box of four ways and its message line in plain Rust, written from `docs/RULES.md`.
//!
//! Reads a block of messages, answers every whole one, and writes the replies before it reads on.

use std::fs::File;
use std::io::{self, Read, Write};
use std::os::fd::AsFd;

const WAYS: usize = 4;
const HEIGHTS: u8 = 3;
const SEATS: usize = 64;
const GATES: usize = 21;
const GATE_CELLS: usize = 4 + 2 * WAYS;
/// The number of the first gate of each height, from height 1 on.
const FIRST_GATE: [usize; HEIGHTS as usize] = [0, 16, 20];
const LAST_PASSAGE: u16 = 16_383;
const QUEEN_GAVE_UP: u64 = 15;

/// The state of a pair of passage number and state.
#[derive(Clone, Copy, PartialEq, Eq)]
enum Mark {
    Reg = 1,
    Pro = 2,
    Abort = 3,
}

/// The word of a passage number and a state.
fn pair(number: u16, mark: Mark) -> u64 {
    4 * u64::from(number) + mark as u64
}

#[derive(Clone, Copy, PartialEq, Eq)]
enum Role {
    King = 1,
    Queen = 2,
    Pawn = 3,
    Promoted = 4,
}

/// One pair for each way, 16 bits each, the lowest way in the lowest bits.
#[derive(Clone, Copy, Default)]
struct Pawns(u64);

impl Pawns {
    fn entry(self, way: usize) -> u64 {
        self.0 >> (16 * way) & 0xffff
    }

    fn is(self, way: usize, mark: Mark) -> bool {
        self.entry(way) & 3 == mark as u64
    }

    fn set(&mut self, way: usize, entry: u64) {
        let shift = 16 * way;
        self.0 = self.0 & !(0xffff << shift) | entry << shift;
    }

    fn collect(&mut self, noted: &[u16; WAYS]) {
        for (way, &number) in noted.iter().enumerate() {
            if number != 0 && !self.is(way, Mark::Abort) {
                self.set(way, pair(number, Mark::Reg));
            }
        }
    }

    fn abort(&mut self, way: usize, number: u16) -> bool {
        if self.is(way, Mark::Pro) {
            return false;
        }
        self.set(way, pair(number, Mark::Abort));
        true
    }

    fn promote(&mut self) -> Option<(usize, u16)> {
        let way = (0..WAYS).find(|&way| self.is(way, Mark::Reg))?;
        let number = (self.entry(way) / 4) as u16;
        self.set(way, pair(number, Mark::Pro));
        Some((way, number))
    }

    fn remove(&mut self, way: usize) {
        self.0 |= (Mark::Abort as u64) << (16 * way);
    }
}

/// The cells of one gate.
#[derive(Clone, Copy, Default)]
struct Gate {
    count: u64,
    sync1: u64,
    sync2: u64,
    pawns: Pawns,
    apply: [u64; WAYS],
    role: [u64; WAYS],
}

/// Replaces the word if it is the old one, and says whether it was.
fn swap(word: &mut u64, old: u64, new: u64) -> bool {
    let found = *word == old;
    if found {
        *word = new;
    }
    found
}

#[derive(Clone, Copy, PartialEq, Eq, Default)]
enum State {
    #[default]
    Away,
    Climbing,
    Holding,
    Leaving,
}

/// The step of a seat's next poll.
#[derive(Clone, Copy, PartialEq, Eq, Default)]
enum Place {
    #[default]
    Rest,
    ClaimApply,
    RaceForRole,
    AwaitPromotion,
    RecheckCount,
    AwaitKing,
    MarkApply,
    CloseApply,
    AbortPawn,
    AbortQueen,
    AcceptGate,
    WithdrawApply,
    ReadRole,
    OpenAlone,
    HandOver,
    ReadApply,
    ClearApply,
    ScanApply,
    CollectPawns,
    RaceToClose,
    ClearSyncOne,
    ReadSyncTwo,
    ClearSyncTwo,
    StrikeOut,
    StrikeSelf,
    PromotePawn,
    ResetPawns,
    OpenGate,
    MarkPromoted,
}

#[derive(Clone, Copy, PartialEq, Eq, Default)]
struct Seat {
    state: State,
    place: Place,
    height: u8,
    top: u8,
    aim: u8,
    gave_up: bool,
    handed: bool,
    scan: u8,
    kept_way: u8,
    passage: u16,
    kept_number: u16,
    noted: [u16; WAYS],
}

impl Seat {
    /// Whether the record is lawful.
    fn lawful(&self) -> bool {
        use Place::*;
        if self.state == State::Away {
            return *self == Seat::default();
        }
        let ranged = (1..=LAST_PASSAGE).contains(&self.passage)
            && (1..=HEIGHTS).contains(&self.height)
            && self.top <= HEIGHTS
            && self.aim <= HEIGHTS
            && usize::from(self.scan) < WAYS
            && usize::from(self.kept_way) < WAYS
            && self.kept_number <= LAST_PASSAGE
            && self.noted.iter().all(|&number| number <= LAST_PASSAGE);
        let release = matches!(
            self.place,
            ScanApply | CollectPawns | RaceToClose | ClearSyncOne | ReadSyncTwo | ClearSyncTwo | StrikeOut | StrikeSelf
                | PromotePawn | ResetPawns | OpenGate | MarkPromoted
        );
        ranged
            && match self.state {
                State::Climbing => {
                    self.height == self.top + 1
                        && match self.place {
                            ClaimApply | RaceForRole | AwaitPromotion | RecheckCount | AwaitKing => !self.gave_up,
                            MarkApply => (self.height..=HEIGHTS).contains(&self.aim),
                            CloseApply | AbortPawn | AbortQueen | AcceptGate | WithdrawApply => self.gave_up,
                            _ => release && self.gave_up,
                        }
                }
                State::Holding => self.height == HEIGHTS && self.top == HEIGHTS && self.place == Rest,
                _ => {
                    self.height <= self.top
                        && (release || matches!(self.place, ReadRole | OpenAlone | HandOver | ReadApply | ClearApply))
                }
            }
    }

    fn back_out(&mut self) {
        if self.top == 0 {
            *self = Seat::default();
        } else {
            self.leave();
        }
    }

    fn leave(&mut self) {
        self.state = State::Leaving;
        self.height = 1;
        self.place = Place::ReadRole;
    }

    fn captured(&mut self) {
        self.top = self.aim;
        if self.top == HEIGHTS {
            self.state = State::Holding;
            self.height = HEIGHTS;
            self.place = Place::Rest;
        } else if self.gave_up {
            self.back_out();
        } else {
            self.height = self.top + 1;
            self.place = Place::ClaimApply;
        }
    }

    fn close(&mut self) {
        self.place = match self.state {
            State::Leaving => Place::ReadApply,
            _ => Place::WithdrawApply,
        };
    }

    /// Does the step of the seat's place at the gate that it meets by the way. Answers the offset of a cell whose
    /// word does not fit, and then nothing has changed.
    fn step(&mut self, gate: &mut Gate, way: usize, coin: u8) -> Result<(), usize> {
        let registered = pair(self.passage, Mark::Reg);
        let promoted = pair(self.passage, Mark::Pro);
        match self.place {
            Place::Rest => {}
            Place::ClaimApply => {
                if swap(&mut gate.apply[way], 0, registered) {
                    gate.role[way] = 0;
                    self.place = Place::RaceForRole;
                }
            }
            Place::RaceForRole => match coin {
                0 => {
                    if swap(&mut gate.count, 0, 1) {
                        gate.role[way] = Role::King as u64;
                        self.aim = self.height;
                        self.place = Place::MarkApply;
                    }
                }
                1 => {
                    if swap(&mut gate.count, 1, 2) {
                        gate.role[way] = Role::Queen as u64;
                        self.place = Place::AwaitKing;
                    }
                }
                _ => {
                    if gate.count == 2 {
                        gate.role[way] = Role::Pawn as u64;
                        self.place = Place::AwaitPromotion;
                    }
                }
            },
            Place::AwaitPromotion => {
                if gate.apply[way] == promoted {
                    gate.role[way] = Role::Promoted as u64;
                    self.aim = self.height;
                    self.place = Place::MarkApply;
                } else {
                    self.place = Place::RecheckCount;
                }
            }
            Place::RecheckCount => {
                self.place = if gate.count == 2 { Place::AwaitPromotion } else { Place::RaceForRole };
            }
            Place::AwaitKing => {
                if gate.sync1 != 0 {
                    self.aim = self.handed_height(gate)?;
                    self.place = Place::MarkApply;
                }
            }
            Place::MarkApply => {
                swap(&mut gate.apply[way], registered, promoted);
                self.captured();
            }
            Place::CloseApply => {
                swap(&mut gate.apply[way], registered, promoted);
                self.place = if gate.role[way] == Role::Queen as u64 { Place::AbortQueen } else { Place::AbortPawn };
            }
            Place::AbortPawn => {
                if gate.pawns.abort(way, self.passage) {
                    self.place = Place::WithdrawApply;
                } else {
                    gate.role[way] = Role::Promoted as u64;
                    self.aim = self.height;
                    self.captured();
                }
            }
            Place::AbortQueen => {
                if swap(&mut gate.sync1, 0, QUEEN_GAVE_UP) {
                    self.scan = 0;
                    self.place = Place::ScanApply;
                } else {
                    self.place = Place::AcceptGate;
                }
            }
            Place::AcceptGate => {
                self.aim = self.handed_height(gate)?;
                self.captured();
            }
            Place::WithdrawApply => {
                swap(&mut gate.apply[way], promoted, 0);
                self.back_out();
            }
            Place::ReadRole => {
                self.place = match gate.role[way] {
                    1 => Place::OpenAlone,
                    2 => Place::RaceToClose,
                    4 => Place::StrikeSelf,
                    _ => return Err(4 + WAYS + way),
                };
            }
            Place::OpenAlone => {
                self.place = if swap(&mut gate.count, 1, 0) { Place::ReadApply } else { Place::HandOver };
            }
            Place::HandOver => {
                if swap(&mut gate.sync1, 0, u64::from(self.top)) {
                    self.handed = true;
                    self.scan = 0;
                    self.place = Place::ScanApply;
                } else {
                    self.place = Place::RaceToClose;
                }
            }
            Place::ReadApply => {
                self.kept_number = (gate.apply[way] / 4 % 16_384) as u16;
                self.place = Place::ClearApply;
            }
            Place::ClearApply => {
                swap(&mut gate.apply[way], pair(self.kept_number, Mark::Pro), 0);
                if self.handed || self.height == self.top {
                    *self = Seat::default();
                } else {
                    self.height += 1;
                    self.place = Place::ReadRole;
                }
            }
            Place::ScanApply => {
                let scan = usize::from(self.scan);
                let word = gate.apply[scan];
                let waits = (5..=65_535).contains(&word) && word % 4 == Mark::Reg as u64;
                self.noted[scan] = if waits { (word / 4) as u16 } else { 0 };
                if scan + 1 < WAYS {
                    self.scan += 1;
                } else {
                    self.scan = 0;
                    self.place = Place::CollectPawns;
                }
            }
            Place::CollectPawns => {
                gate.pawns.collect(&self.noted);
                self.place = Place::RaceToClose;
            }
            Place::RaceToClose => {
                if swap(&mut gate.sync2, 0, way as u64 + 1) {
                    self.close();
                } else {
                    self.place = Place::ClearSyncOne;
                }
            }
            Place::ClearSyncOne => {
                gate.sync1 = 0;
                self.place = Place::ReadSyncTwo;
            }
            Place::ReadSyncTwo => {
                self.kept_way = match gate.sync2 {
                    closed @ 1..=4 => closed as u8 - 1,
                    _ => return Err(2),
                };
                self.place = Place::ClearSyncTwo;
            }
            Place::ClearSyncTwo => {
                gate.sync2 = 0;
                self.place = Place::StrikeOut;
            }
            Place::StrikeOut => {
                gate.pawns.remove(usize::from(self.kept_way));
                self.place = Place::StrikeSelf;
            }
            Place::StrikeSelf => {
                gate.pawns.remove(way);
                self.place = Place::PromotePawn;
            }
            Place::PromotePawn => {
                self.place = match gate.pawns.promote() {
                    Some((way, number)) => {
                        self.kept_way = way as u8;
                        self.kept_number = number;
                        Place::MarkPromoted
                    }
                    None => Place::ResetPawns,
                };
            }
            Place::ResetPawns => {
                gate.pawns = Pawns(0);
                self.place = Place::OpenGate;
            }
            Place::OpenGate => {
                swap(&mut gate.count, 2, 0);
                self.close();
            }
            Place::MarkPromoted => {
                let kept = &mut gate.apply[usize::from(self.kept_way)];
                swap(kept, pair(self.kept_number, Mark::Reg), pair(self.kept_number, Mark::Pro));
                self.close();
            }
        }
        Ok(())
    }

    /// The height up to which the king has handed over.
    fn handed_height(&self, gate: &Gate) -> Result<u8, usize> {
        match u8::try_from(gate.sync1) {
            Ok(height) if (self.height..=HEIGHTS).contains(&height) => Ok(height),
            _ => Err(1),
        }
    }
}

#[derive(Default)]
struct Refusal {
    number: u8,
    seat: u8,
    height: u8,
    cell: u16,
}

impl Refusal {
    fn new(number: u8, seat: u8) -> Self {
        Refusal { number, seat, ..Refusal::default() }
    }
}

/// The box. All cells and seats are there, and nobody else changes them, so that the records stay lawful: that question
/// is asked only where the program is built with `--cfg asking`.
struct GateBox {
    gates: [Gate; GATES],
    seats: [Seat; SEATS],
    next: u16,
}

impl GateBox {
    fn open() -> Self {
        GateBox { gates: [Gate::default(); GATES], seats: [Seat::default(); SEATS], next: 1 }
    }

    fn seat(&mut self, seat: u8) -> Result<&mut Seat, Refusal> {
        let found = self.seats.get_mut(usize::from(seat)).ok_or(Refusal::new(4, seat))?;
        if cfg!(asking) && !found.lawful() {
            return Err(Refusal::new(5, seat));
        }
        Ok(found)
    }

    /// The seat, if the passage is its own and its state is fit.
    fn own(&mut self, seat: u8, passage: u16, fit: impl Fn(&Seat) -> bool) -> Result<&mut Seat, Refusal> {
        let found = self.seat(seat)?;
        if found.state == State::Away || found.passage != passage {
            Err(Refusal::new(6, seat))
        } else if !fit(found) {
            Err(Refusal::new(7, seat))
        } else {
            Ok(found)
        }
    }

    fn apply(&mut self, seat: u8) -> Result<u16, Refusal> {
        let next = self.next;
        let found = self.seat(seat)?;
        if found.state != State::Away {
            return Err(Refusal::new(7, seat));
        }
        if next > LAST_PASSAGE {
            return Err(Refusal::new(8, seat));
        }
        *found = Seat { state: State::Climbing, place: Place::ClaimApply, height: 1, passage: next, ..Seat::default() };
        self.next += 1;
        Ok(next)
    }

    fn poll(&mut self, seat: u8, passage: u16, coin: u8) -> Result<State, Refusal> {
        self.own(seat, passage, |found| matches!(found.state, State::Climbing | State::Leaving))?;
        if coin > 2 {
            return Err(Refusal::new(9, seat));
        }
        let found = &mut self.seats[usize::from(seat)];
        let height = found.height;
        // four ways: each height takes two bits of the seat's number
        let below = usize::from(seat) >> (2 * (height - 1));
        let number = FIRST_GATE[usize::from(height - 1)] + below / WAYS;
        match found.step(&mut self.gates[number], below % WAYS, coin) {
            Ok(()) => Ok(found.state),
            Err(offset) => Err(Refusal { number: 10, seat, height, cell: (number * GATE_CELLS + offset) as u16 }),
        }
    }

    fn give_up(&mut self, seat: u8, passage: u16) -> Result<State, Refusal> {
        let found = self.own(seat, passage, |found| found.state == State::Climbing && !found.gave_up)?;
        found.gave_up = true;
        match found.place {
            Place::ClaimApply => found.back_out(),
            Place::MarkApply => {}
            _ => found.place = Place::CloseApply,
        }
        Ok(found.state)
    }

    fn leave(&mut self, seat: u8, passage: u16) -> Result<State, Refusal> {
        let found = self.own(seat, passage, |found| found.state == State::Holding)?;
        found.leave();
        Ok(found.state)
    }

    fn publish(&mut self, seat: u8, passage: u16) -> Result<State, Refusal> {
        Ok(self.own(seat, passage, |found| found.state == State::Holding)?.state)
    }

    fn look(&mut self, seat: u8) -> Result<(State, u8), Refusal> {
        let found = self.seat(seat)?;
        Ok((found.state, found.top))
    }

    /// Answers the message of a body. An error is the kind and number of a message that ends the session.
    fn answer(&mut self, body: &[u8], out: &mut Vec<u8>) -> Result<(), (u8, u8)> {
        let kind = body[0];
        let outcome = match *body {
            [1, seat] => self.apply(seat).map(|passage| {
                let [hi, lo] = passage.to_be_bytes();
                out.extend_from_slice(&[1, 0, 4, kind, 0, hi, lo]);
            }),
            [2, seat, hi, lo, coin] => {
                self.poll(seat, u16::from_be_bytes([hi, lo]), coin).map(|state| put_state(out, kind, state))
            }
            [3, seat, hi, lo] => {
                self.give_up(seat, u16::from_be_bytes([hi, lo])).map(|state| put_state(out, kind, state))
            }
            [4, seat, hi, lo] => {
                self.leave(seat, u16::from_be_bytes([hi, lo])).map(|state| put_state(out, kind, state))
            }
            [5, seat] => self.look(seat).map(|(state, top)| {
                out.extend_from_slice(&[1, 0, 4, kind, 0, state as u8, top]);
            }),
            [6, seat, hi, lo, ref text @ ..] if (1..=80).contains(&text.len()) => {
                self.publish(seat, u16::from_be_bytes([hi, lo])).map(|state| {
                    out.extend_from_slice(&[1, 0, 3 + text.len() as u8, kind, 0, state as u8]);
                    out.extend_from_slice(text);
                })
            }
            [1..=6, ..] => return Err((kind, 34)),
            _ => return Err((0, 33)),
        };
        if let Err(refusal) = outcome {
            put_refusal(out, kind, &refusal);
        }
        Ok(())
    }
}

fn put_state(out: &mut Vec<u8>, kind: u8, state: State) {
    out.extend_from_slice(&[1, 0, 3, kind, 0, state as u8]);
}

fn put_refusal(out: &mut Vec<u8>, kind: u8, refusal: &Refusal) {
    let [hi, lo] = refusal.cell.to_be_bytes();
    out.extend_from_slice(&[1, 0, 6, kind, refusal.number, refusal.seat, refusal.height, hi, lo]);
}

/// What the input begins with.
enum Frame<'a> {
    Message(&'a [u8], &'a [u8]),
    Part,
    Bad(u8),
}

fn next_frame(input: &[u8]) -> Frame<'_> {
    match *input {
        [] => Frame::Part,
        [1, hi, lo, ref rest @ ..] => match usize::from(u16::from_be_bytes([hi, lo])) {
            size @ 1..=84 => match rest.split_at_checked(size) {
                Some((body, rest)) => Frame::Message(body, rest),
                None => Frame::Part,
            },
            _ => Frame::Bad(32),
        },
        [1, ..] => Frame::Part,
        _ => Frame::Bad(31),
    }
}

const BLOCK: usize = 65_536;

fn main() -> io::Result<()> {
    // files, since the standard handles have buffers of their own
    let mut stdin = File::from(io::stdin().as_fd().try_clone_to_owned()?);
    let mut stdout = File::from(io::stdout().as_fd().try_clone_to_owned()?);
    let mut gate_box = GateBox::open();
    let mut input = vec![0; BLOCK];
    let mut filled = 0;
    let mut out = Vec::with_capacity(BLOCK);
    loop {
        let count = stdin.read(&mut input[filled..])?;
        filled += count;
        let mut rest = &input[..filled];
        let over = loop {
            match next_frame(rest) {
                Frame::Message(body, next) => match gate_box.answer(body, &mut out) {
                    Ok(()) => rest = next,
                    Err(end) => break Some(end),
                },
                Frame::Part if count == 0 && !rest.is_empty() => break Some((0, 32)),
                Frame::Part => break None,
                Frame::Bad(number) => break Some((0, number)),
            }
        };
        if let Some((kind, number)) = over {
            put_refusal(&mut out, kind, &Refusal::new(number, 0));
        }
        stdout.write_all(&out)?;
        if over.is_some() || count == 0 {
            return Ok(());
        }
        out.clear();
        let left = rest.len();
        input.copy_within(filled - left..filled, 0);
        filled = left;
    }
}
