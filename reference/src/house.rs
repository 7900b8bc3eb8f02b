//! Houses: "Workers with ward names". (02, wish 11; source document 002, figure 2.)
//!
//! A worker's outer round is cut into turns of at most one register operation. Its place
//! says what its next turn does.

use crate::board::Counts;
use crate::phase::Phase;
use crate::poll::{Answer, Poll, Voter};
use crate::refusal::Refusal;
use crate::session::{check_processes, present, window, Caller, Session};
use crate::sheet::Operation;
use crate::sound::sound;

/// "at most 16 workers".
pub const MAX_WORKERS: usize = 16;
/// "c at most 4".
pub const MAX_WARDS: usize = 4;
/// "for each outer round, 1 to 8".
pub const OUTER_ROUNDS: usize = 8;
/// "A ward session has n - c + 1 seats .. and 64 rounds".
pub const WARD_ROUNDS: u32 = 64;
/// "for each outer round .. one session for each ward", with room for the most wards.
pub const SESSIONS: usize = MAX_WARDS * OUTER_ROUNDS;

/// What the next turn of a working worker does.
#[derive(Clone, Copy, PartialEq, Eq, Debug)]
pub enum Place {
    /// "the first turn of an outer round only proposes to the ward".
    ProposeWard,
    /// "In a ward session a worker's turns alternate, work first".
    StepWard,
    /// "then a look at the ward's D".
    LearnWard,
    /// "writes the decision to the table".
    WriteTable,
    /// "the turn after the table write only proposes to the poll".
    ProposePoll,
    /// "polls with its ward number".
    StepPoll,
    /// "reads the table at the answer's ward and takes that value".
    ReadTable,
    /// "committed, it then writes the house's own decision register".
    WriteHouse,
}

/// Where a worker stands.
#[derive(Clone, Copy, PartialEq, Eq, Debug)]
pub enum Stance {
    /// Out: it has not proposed.
    Idle,
    /// Working, at a place.
    Working(Place),
    /// Spent.
    Exhausted,
    /// Crashed.
    Crashed,
    /// Decided, by a house look.
    Decided,
}

/// What the house keeps of one worker, beside its ward.
#[derive(Clone, Copy, PartialEq, Eq, Debug)]
pub struct Worker {
    /// Where it stands.
    pub stance: Stance,
    /// Its outer round, 1 to 8.
    pub outer: usize,
    /// Its value. Proposals, table reads and house looks change it, and nothing else.
    pub value: u32,
}

impl Worker {
    /// A worker that has not proposed.
    pub const IDLE: Worker = Worker {
        stance: Stance::Idle,
        outer: 1,
        value: 0,
    };
}

/// Workers with ward names. (02, wish 11: a house.)
#[derive(Clone, PartialEq, Eq, Debug)]
pub struct House {
    /// The number of workers.
    pub n: usize,
    /// The number of wards.
    pub c: usize,
    /// The ward of each worker, 1 to c.
    pub wards: [u8; MAX_WORKERS],
    /// The workers.
    pub workers: [Worker; MAX_WORKERS],
    /// The ward sessions: those of ward 1 by outer round, then those of ward 2, and so on.
    pub sessions: [Session; SESSIONS],
    /// The polls by outer round.
    pub polls: [Poll; OUTER_ROUNDS],
    /// "The value table has one row for each outer round and one entry per ward"; 0 is
    /// blank.
    pub table: [[u32; MAX_WARDS]; OUTER_ROUNDS],
    /// "the house's own decision register"; 0 is blank.
    pub decision: u32,
}

/// Opening: 1 "by the server's limits", then 19: "c not 1 to 4, over 16 workers, a worker's
/// ward not 1 to c, or an empty ward".
pub fn check_wards(c: usize, wards: &[u8]) -> Result<(), Refusal> {
    check_processes(Caller::Server.limits(), wards.len())?;
    let named = |ward: &u8| (1..=c).contains(&usize::from(*ward));
    let filled = |ward: usize| wards.iter().any(|own| usize::from(*own) == ward);
    let fits = (1..=MAX_WARDS).contains(&c)
        && wards.len() <= MAX_WORKERS
        && wards.iter().all(named)
        && (1..=c).all(filled);
    if fits {
        Ok(())
    } else {
        Err(Refusal::BadWards)
    }
}

/// Where the session of a ward and an outer round is kept.
pub fn session_place(ward: usize, outer: usize) -> usize {
    OUTER_ROUNDS * (ward - 1) + outer - 1
}

impl House {
    /// Opens a house of c wards, with a worker for each ward that is listed. (Order: 1, 19.)
    pub fn open(c: usize, wards: &[u8]) -> Result<House, Refusal> {
        check_wards(c, wards)?;
        let n = wards.len();
        let session = Session::open(Caller::Server, n - c + 1, WARD_ROUNDS as usize)?;
        let poll = Poll::open(Caller::Server, n)?;
        let mut house = House {
            n,
            c,
            wards: [0; MAX_WORKERS],
            workers: [Worker::IDLE; MAX_WORKERS],
            sessions: std::array::from_fn(|_| session.clone()),
            polls: std::array::from_fn(|_| poll.clone()),
            table: [[0; MAX_WARDS]; OUTER_ROUNDS],
            decision: 0,
        };
        house.wards[..n].copy_from_slice(wards);
        Ok(house)
    }

    /// A worker takes up a value. (Order: 3, 4, 5, 6.)
    pub fn propose(&mut self, worker: usize, value: u32) -> Result<(), Refusal> {
        self.check_sound()?;
        let worker = present(&mut self.workers[..self.n], worker)?;
        if value == 0 {
            return Err(Refusal::BlankProposal);
        }
        if worker.stance != Stance::Idle {
            return Err(Refusal::SecondProposal);
        }
        *worker = Worker {
            stance: Stance::Working(Place::ProposeWard),
            outer: 1,
            value,
        };
        Ok(())
    }

    /// One turn of a worker. Also where it makes no register operation, 16 is tested. (Order:
    /// 3, 4, 7, 8, 9, 16.)
    pub fn turn(
        &mut self,
        worker: usize,
        leader: bool,
        counts: &mut Counts,
    ) -> Result<(), Refusal> {
        self.check_sound()?;
        let Stance::Working(place) = self.alive(worker)?.stance else {
            return Err(Refusal::ProcessSpent);
        };
        room(counts)?;
        let stance = match place {
            Place::ProposeWard | Place::StepWard | Place::LearnWard => {
                self.ward_turn(place, worker, leader, counts)?
            }
            Place::WriteTable => self.write_table(worker, counts),
            Place::ProposePoll => self.propose_poll(worker)?,
            Place::StepPoll => self.step_poll(worker, counts)?,
            Place::ReadTable => self.read_table(worker, counts),
            Place::WriteHouse => self.write_house(worker, counts),
        };
        self.workers[worker].stance = stance;
        Ok(())
    }

    /// "A house look at the house register, taken instead of a turn by a working or spent
    /// worker, ends it as decided if filled." (Order: 3, 4, 7, 8, 16.)
    pub fn learn(&mut self, worker: usize, counts: &mut Counts) -> Result<(), Refusal> {
        self.check_sound()?;
        let decision = self.decision;
        let worker = self.alive(worker)?;
        room(counts)?;
        counts.reads += 1;
        if decision != 0 {
            worker.stance = Stance::Decided;
            worker.value = decision;
        }
        Ok(())
    }

    /// A worker stops for good. "A crash or house look changes no ward or poll seat."
    /// (Order: 3, 4, 7, 8.)
    pub fn crash(&mut self, worker: usize) -> Result<(), Refusal> {
        self.check_sound()?;
        self.alive(worker)?.stance = Stance::Crashed;
        Ok(())
    }

    /// The worker of that number, working or spent, or 4, 7, 8 in this order.
    fn alive(&mut self, worker: usize) -> Result<&mut Worker, Refusal> {
        let worker = present(&mut self.workers[..self.n], worker)?;
        match worker.stance {
            Stance::Idle => Err(Refusal::ProcessOut),
            Stance::Crashed | Stance::Decided => Err(Refusal::ProcessGone),
            Stance::Working(_) | Stance::Exhausted => Ok(worker),
        }
    }

    /// The ward of a worker.
    pub fn ward(&self, worker: usize) -> usize {
        usize::from(self.wards[worker])
    }

    /// The seat of a worker in its ward's sessions: "taken by its workers in number order".
    pub fn seat(&self, worker: usize) -> usize {
        let own = self.wards[worker];
        self.wards[..worker]
            .iter()
            .filter(|ward| **ward == own)
            .count()
    }

    /// The place of the session of a worker's ward and outer round.
    pub fn session_of(&self, worker: usize) -> usize {
        session_place(self.ward(worker), self.workers[worker].outer)
    }

    /// The three turns in a ward's session. "A worker becomes spent in the turn that ..
    /// makes its ward seat spent"; it works and looks "until decided".
    fn ward_turn(
        &mut self,
        place: Place,
        worker: usize,
        leader: bool,
        counts: &mut Counts,
    ) -> Result<Stance, Refusal> {
        let process = self.seat(worker);
        let value = self.workers[worker].value;
        let session = self.session_of(worker);
        let session = &mut self.sessions[session];
        let operation = match place {
            Place::ProposeWard => Operation::Propose { process, value },
            Place::StepWard => Operation::Step { process, leader },
            _ => Operation::Learn { process },
        };
        session.apply_trusted(operation, counts, |_| {})?;
        let phase = session.processes[process].phase;
        Ok(match place {
            Place::ProposeWard => Stance::Working(Place::StepWard),
            Place::StepWard if phase == Phase::Exhausted => Stance::Exhausted,
            Place::StepWard => Stance::Working(Place::LearnWard),
            _ if phase == Phase::Decided => Stance::Working(Place::WriteTable),
            _ => Stance::Working(Place::StepWard),
        })
    }

    /// The table's entry of the worker's ward takes the number that its ward seat holds.
    fn write_table(&mut self, worker: usize, counts: &mut Counts) -> Stance {
        let (ward, outer) = (self.ward(worker), self.workers[worker].outer);
        let seat = &self.sessions[self.session_of(worker)].processes[self.seat(worker)];
        self.table[outer - 1][ward - 1] = seat.estimate;
        counts.writes += 1;
        Stance::Working(Place::ProposePoll)
    }

    /// "one poll over ward numbers for all workers": a worker's seat there has its number.
    fn propose_poll(&mut self, worker: usize) -> Result<Stance, Refusal> {
        let ward = self.ward(worker) as u32;
        self.poll_of(worker).propose_trusted(worker, ward)?;
        Ok(Stance::Working(Place::StepPoll))
    }

    fn step_poll(&mut self, worker: usize, counts: &mut Counts) -> Result<Stance, Refusal> {
        let window = window(self.n);
        let answer = self.poll_of(worker).step_trusted(window, worker, counts)?;
        Ok(Stance::Working(match answer {
            Some(_) => Place::ReadTable,
            None => Place::StepPoll,
        }))
    }

    /// "A blank table entry leaves the value."
    fn read_table(&mut self, worker: usize, counts: &mut Counts) -> Stance {
        let outer = self.workers[worker].outer;
        let Voter::Answered(answer, _) = self.poll_of(worker).voters[worker] else {
            unreachable!("a worker that reads the table in a sound house has answered");
        };
        let entry = self.table[outer - 1][answer.value() as usize - 1];
        counts.reads += 1;
        if entry != 0 {
            self.workers[worker].value = entry;
        }
        match answer {
            Answer::Committed(_) => Stance::Working(Place::WriteHouse),
            Answer::Adopted(_) => self.end_round(worker),
        }
    }

    fn write_house(&mut self, worker: usize, counts: &mut Counts) -> Stance {
        self.decision = self.workers[worker].value;
        counts.writes += 1;
        self.end_round(worker)
    }

    /// "either way the next outer round follows"; "A worker becomes spent in the turn that
    /// ends outer round 8".
    fn end_round(&mut self, worker: usize) -> Stance {
        let worker = &mut self.workers[worker];
        if worker.outer == OUTER_ROUNDS {
            return Stance::Exhausted;
        }
        worker.outer += 1;
        Stance::Working(Place::ProposeWard)
    }

    fn poll_of(&mut self, worker: usize) -> &mut Poll {
        &mut self.polls[self.workers[worker].outer - 1]
    }

    /// "3 is tested first in each call on a house".
    fn check_sound(&self) -> Result<(), Refusal> {
        sound(self.is_sound())
    }

    /// Whether the house is sound. It is not exactly if one of these holds: "wards not as
    /// opening allows, a session or poll unsound, closed or of another size, a poll number
    /// above c, an outer round not 1 to 8, a proposed worker without a value, or a seat not
    /// out, working, decided or answered (committed, before a house write) as a working
    /// worker's next turn needs". So the table, the house register, sessions of wards above
    /// c, workers from n on, and seats that no next turn needs may be anything.
    pub fn is_sound(&self) -> bool {
        let Some(wards) = self.wards.get(..self.n) else {
            return false;
        };
        check_wards(self.c, wards).is_ok()
            && self.sessions[..self.c * OUTER_ROUNDS]
                .iter()
                .all(|s| self.fits_ward(s))
            && self.polls.iter().all(|poll| self.fits_poll(poll))
            && (0..self.n).all(|worker| self.stands(worker))
    }

    /// "a session .. unsound, closed or of another size": "Ward sessions are never closed
    /// here."
    fn fits_ward(&self, session: &Session) -> bool {
        session.is_sound()
            && !session.closed
            && session.n == self.n - self.c + 1
            && session.limit == WARD_ROUNDS
    }

    /// A sound poll is open, and its size gives its rounds. "A poll number" is that of a
    /// value register or of a seat, whatever its stance.
    fn fits_poll(&self, poll: &Poll) -> bool {
        let low = |number: u32| number as usize <= self.c;
        poll.is_sound()
            && poll.n == self.n
            && poll.registers.values.iter().all(|value| low(*value))
            && poll.voters.iter().all(|voter| low(voter.value()))
    }

    /// Whether a worker's record may stand so, and its seat is as its next turn needs.
    fn stands(&self, worker: usize) -> bool {
        let Worker {
            stance,
            outer,
            value,
        } = self.workers[worker];
        let proposed = stance != Stance::Idle;
        (1..=OUTER_ROUNDS).contains(&outer)
            && (!proposed || value != 0)
            && match stance {
                Stance::Working(place) => self.seat_ready(worker, place),
                _ => true,
            }
    }

    fn seat_ready(&self, worker: usize, place: Place) -> bool {
        let ward = self.sessions[self.session_of(worker)].processes[self.seat(worker)].phase;
        let poll = &self.polls[self.workers[worker].outer - 1].voters[worker];
        match (place, poll) {
            (Place::ProposeWard, _) => ward == Phase::Idle,
            (Place::StepWard | Place::LearnWard, _) => works(ward),
            (Place::WriteTable, _) => ward == Phase::Decided,
            (Place::ProposePoll, Voter::Walking(process)) => process.phase == Phase::Idle,
            (Place::StepPoll, Voter::Walking(process)) => works(process.phase),
            (Place::ReadTable, Voter::Answered(..)) => true,
            (Place::WriteHouse, Voter::Answered(Answer::Committed(_), _)) => true,
            _ => false,
        }
    }

    /// The marked rounds of all boards, in all their registers.
    pub fn marked_rounds(&self) -> usize {
        let sessions = self.sessions.iter().map(|session| &session.registers);
        let polls = self.polls.iter().map(|poll| &poll.registers);
        let marks = sessions.chain(polls).flat_map(|registers| &registers.marks);
        marks.filter(|mark| **mark).count()
    }
}

/// "Seat refusals 4 to 9 and 16 keep their order": 16 comes last.
fn room(counts: &Counts) -> Result<(), Refusal> {
    if counts.full() {
        return Err(Refusal::CountsFull);
    }
    Ok(())
}

/// 01: "Working means gate to commit."
fn works(phase: Phase) -> bool {
    use Phase::{Crashed, Decided, Exhausted, Idle};
    !matches!(phase, Idle | Exhausted | Crashed | Decided)
}
