//! The lanes of a scheduler with what runs in them: each turn is lent the volume of the lane that is next, as its last turn left it.
//!
//! No refusal is decided here: which lane is next, whether there is room, and when a lane is finished is what the proved calls say.
use crate::ffi::{self, Scheduler};
use crate::progress::Told;
use crate::recorder::{accepted, Recorder};
use crate::words::{Refusal, CAPACITY};

pub const LANES: usize = 8;

/// A job in its lane.
struct Running<T> {
    whose: T,
    recorder: Recorder,
    lines: u32,
    /// How many turns there were before it entered.
    before: u64,
}

/// A job that has left its lane, finished or not: how many lines it had, and how many turns there were from its entering on.
pub struct Left<T> {
    pub lane: usize,
    pub whose: T,
    pub recorder: Recorder,
    pub lines: u32,
    pub turns: u64,
}

/// What became of a job that was to enter.
pub enum Entering<T> {
    Entered,
    NoRoom(T, Recorder),
    Refused(T, Refusal),
}

pub struct Lanes<T> {
    scheduler: Scheduler,
    running: [Option<Running<T>>; LANES],
    turns: u64,
}

impl<T> Lanes<T> {
    pub fn new() -> Lanes<T> {
        Lanes { scheduler: ffi::new_scheduler(), running: [const { None }; LANES], turns: 0 }
    }

    /// Whether a lane is free.
    pub fn is_free(&self) -> bool {
        self.running.iter().any(Option::is_none)
    }

    /// The lowest lane that is free, by its number from 1 on, or one that no scheduler has.
    fn free(&self) -> u32 {
        self.running.iter().take_while(|running| running.is_some()).count() as u32 + 1
    }

    /// Whether a job finds room: it may be one without its volume, since 32 comes before 6.
    pub fn has_room(&self, job: &mut Recorder) -> bool {
        job.enter(self.scheduler, self.free()).number != CAPACITY
    }

    pub fn enter(&mut self, whose: T, mut recorder: Recorder) -> Entering<T> {
        let lane = self.free();
        let answer = recorder.enter(self.scheduler, lane);
        match answer.number {
            0 => {
                let at = lane as usize - 1;
                self.scheduler = answer.scheduler;
                self.running[at] = Some(Running { whose, recorder, lines: answer.scheduler.lanes[at].left, before: self.turns });
                Entering::Entered
            }
            CAPACITY => Entering::NoRoom(whose, recorder),
            number => Entering::Refused(whose, Refusal::plain(number)),
        }
    }

    /// Turns until a lane is finished, or none runs, or it is time to stop; how far each lane has come is told.
    pub fn turns(&mut self, told: &[Told; LANES], stop: impl Fn() -> bool) -> Result<Option<Left<T>>, Refusal> {
        while !stop() {
            let next = ffi::next_lane(self.scheduler);
            accepted(next.number)?;
            let Some(at) = (next.lane as usize).checked_sub(1) else {
                break;
            };
            let running = self.running[at].as_mut().expect("what runs is here");
            let answer = running.recorder.turn(self.scheduler);
            accepted(answer.number)?;
            self.scheduler = answer.scheduler;
            self.turns += 1;
            if answer.finished == 1 {
                return Ok(self.left(at));
            }
            let lines = running.lines as usize;
            told[at].done(lines - answer.scheduler.lanes[at].left as usize, lines);
        }
        Ok(None)
    }

    /// Withdraws a job that runs, if one does. Its volume is given up with it: it is neither factors nor a map.
    pub fn withdraw(&mut self) -> Result<Option<Left<T>>, Refusal> {
        let Some(at) = self.running.iter().position(Option::is_some) else {
            return Ok(None);
        };
        let answer = ffi::withdraw(self.scheduler, at as u32 + 1);
        accepted(answer.number)?;
        self.scheduler = answer.scheduler;
        Ok(self.left(at))
    }

    fn left(&mut self, at: usize) -> Option<Left<T>> {
        let Running { whose, recorder, lines, before } = self.running[at].take()?;
        Some(Left { lane: at + 1, whose, recorder, lines, turns: self.turns - before })
    }
}
