//! One end of a session: takes its steps, and can be killed and started again at any moment.

use std::path::Path;

use yuthsaok::random::{os_words, raw_words};
use yuthsaok::{End, Head, Pool, Refusal, Session, SessionNumber, Slot, Status, Step, TapeNumber, Terms};

use crate::channel::Channel;
use crate::state::{Standing, State};
use crate::store::Folder;
use crate::table::{self, Table, SHAPE};
use crate::Result;

/// The file of an end's tapes: the pool in bytes.
pub const TAPES: &str = "tapes";

/// What the solver says where the joint table has no inverse. The engine has no line for it.
const SINGULAR: &[u8] = b"singular\n";

/// How often raw words are drawn where the last ones gave no P with an inverse. Already a second time is very rare.
const DRAWS: usize = 20;

/// How a process of an end comes to its end.
pub enum Ending {
    /// The session is done; the blinder has a sentence.
    Done(Option<String>),
    /// The joint table has no inverse, and both tapes are spent.
    Singular,
    /// The other end is gone, and the session still open.
    PeerLost,
}

/// The process of one end.
struct Process {
    role: End,
    number: SessionNumber,
    table: Table,
    folder: Folder,
    pool: Pool,
    channel: Channel,
    /// The session of that number, from its first step on.
    state: Option<State>,
}

/// Plays one end over the socket on standard input, until the other end has no more to say.
pub fn run(role: End, dir: &Path, table: &Path, number: SessionNumber) -> Result<Ending> {
    let table = Table::read(table)?;
    let folder = Folder::of(dir, &role.to_string());
    let _lock = folder.lock()?;
    let mut process = Process::wake(role, number, table, folder)?;
    if role == End::Solver && process.state.is_none() {
        process.solver_first()?;
    } else {
        process.tell()?;
    }
    while let Some(line) = process.channel.line()? {
        process.take(&line)?;
    }
    process.ending()
}

/// Whether an end has taken its first step in a session, in whatever process.
pub fn has_begun(folder: &Folder, number: SessionNumber) -> Result<bool> {
    Ok(State::load(folder)?.is_some_and(|state| state.session.session_number() == number))
}

/// Reads an end's pool; one without slots where nothing was dealt yet.
pub fn load_pool(folder: &Folder) -> Result<Pool> {
    Ok(Pool::from_bytes(folder.load(TAPES)?.unwrap_or_default(), SHAPE.slot_words())?)
}

/// Copies the session's slot into the pool's file, unless another tape lies there by now. To do it twice does no harm.
fn settle(folder: &Folder, state: &State) -> Result<()> {
    let there = load_pool(folder)?.tape(state.slot).map(|tape| tape.number);
    if there != Some(state.session.tape_number()) {
        return Ok(());
    }
    folder.patch(TAPES, state.slot.0 * state.tape.len(), &state.tape)
}

impl Process {
    /// Finds the end as its last process left it. That one may have been killed before the slot was in the pool.
    fn wake(role: End, number: SessionNumber, table: Table, folder: Folder) -> Result<Process> {
        let state = State::load(&folder)?;
        if let Some(state) = &state {
            if state.session.end() != role {
                return Err("the session's file is another end's".into());
            }
            settle(&folder, state)?;
            if state.standing == Standing::Dropped && state.session.session_number() == number {
                return Err(format!("session {number} was given up: take a higher number").into());
            }
        }
        let pool = load_pool(&folder)?;
        let mut process = Process { role, number, table, folder, pool, channel: Channel::of_stdin()?, state };
        process.renew()?;
        Ok(process)
    }

    /// Leaves a session of a lower number: it is given up where it is open, which spends its tape.
    fn renew(&mut self) -> Result<()> {
        let Some(state) = self.state.take_if(|state| state.session.session_number() != self.number) else {
            return Ok(());
        };
        if state.session.session_number() > self.number {
            return Err(format!("session {} was begun already", state.session.session_number()).into());
        }
        if state.standing == Standing::Open {
            let dropped = self.given_up(state, Standing::Dropped)?;
            self.commit(&dropped)?;
        }
        Ok(())
    }

    fn given_up(&mut self, state: State, standing: Standing) -> Result<State> {
        let (mut session, slot) = (state.session, state.slot);
        session.give_up(&mut self.pool, slot)?;
        Ok(State { standing, ..State::new(session, &self.pool, slot, Step::default())? })
    }

    /// Brings what a step has left to the disk. The session's file alone decides whether the step was taken.
    fn commit(&self, state: &State) -> Result<()> {
        state.save(&self.folder)?;
        settle(&self.folder, state)
    }

    /// The end of every step. All rests on this order: nothing is sent that a crash could make undone.
    fn conclude(&mut self, state: State) -> Result<()> {
        self.commit(&state)?;
        self.state = Some(state);
        self.tell()
    }

    /// Sends what the latest step sends: after the step, and again at every start.
    fn tell(&mut self) -> Result<()> {
        let Some(state) = &self.state else { return Ok(()) };
        self.channel.send(&state.line)?;
        if state.standing != Standing::Open {
            self.channel.close();
        }
        Ok(())
    }

    fn terms(&self, tape: TapeNumber) -> Terms {
        Terms { session: self.number, tape, shape: SHAPE }
    }

    /// The solver's first step, on the first tape that is ready. From here on the session keeps to this tape.
    fn solver_first(&mut self) -> Result<()> {
        let ready = self.pool.tapes().find(|tape| tape.status == Status::Ready && tape.shape() == Some(SHAPE));
        let tape = ready.ok_or("there is no tape that is ready")?;
        let terms = self.terms(tape.number);
        let (l, x) = (&self.table.matrix, &self.table.vector);
        let (session, step) = Session::solver(&mut self.pool, tape.slot, terms, l, x)?;
        self.conclude(State::new(session, &self.pool, tape.slot, step)?)
    }

    /// The blinder's first step, on the tape that the solver's line names. The engine refuses one that does not fit.
    fn blinder_first(&mut self, line: &[u8]) -> Result<()> {
        let tape = Head::of(line).ok_or("the solver's line names no tape")?.tape;
        let slot = self.pool.find(tape).ok_or("the solver's line names a tape that is not here")?;
        let (session, step) = self.draw(slot, tape, line)?;
        self.conclude(State::new(session, &self.pool, slot, step)?)
    }

    /// Takes fresh words until they give a P with an inverse. M has one, or the table would not have been read.
    fn draw(&mut self, slot: Slot, tape: TapeNumber, line: &[u8]) -> Result<(Session, Step)> {
        let terms = self.terms(tape);
        let (m, y) = (&self.table.matrix, &self.table.vector);
        for _ in 0..DRAWS {
            let words = os_words(raw_words(SHAPE.coin_count(End::Blinder)))?;
            match Session::blinder(&mut self.pool, slot, terms, m, y, &words, line) {
                Err(Refusal::Dry | Refusal::Singular) => continue,
                answer => return Ok(answer?),
            }
        }
        Err("no words gave a matrix with an inverse: is the random source at fault?".into())
    }

    /// A line has arrived.
    fn take(&mut self, line: &[u8]) -> Result<()> {
        if line == SINGULAR {
            return self.take_singular();
        }
        match self.state.take() {
            None if self.role == End::Blinder => self.blinder_first(line),
            None => Err("a line has come before the first was sent".into()),
            Some(state) if is_repeated(&state, line) => {
                self.state = Some(state);
                Ok(())
            }
            Some(state) => self.next(state, line),
        }
    }

    /// The step that is due.
    fn next(&mut self, state: State, line: &[u8]) -> Result<()> {
        let (mut session, slot) = (state.session, state.slot);
        let is_last_of_solver = self.role == End::Solver && session.due() == Some(4);
        let state = match session.next(&mut self.pool, slot, line) {
            // the one refusal that changes something: the session is closed and the tape spent
            Err(Refusal::Singular) if is_last_of_solver => {
                let step = Step { line: SINGULAR.to_vec(), ..Step::default() };
                State { standing: Standing::Singular, ..State::new(session, &self.pool, slot, step)? }
            }
            step => State::new(session, &self.pool, slot, step?)?,
        };
        self.conclude(state)
    }

    /// The solver has found that the joint table has no inverse: the blinder's session would wait for ever.
    fn take_singular(&mut self) -> Result<()> {
        match self.state.take() {
            Some(state) if self.role == End::Blinder && state.session.due() == Some(5) => {
                let state = self.given_up(state, Standing::Singular)?;
                self.conclude(state)
            }
            Some(state) if self.role == End::Blinder && state.standing == Standing::Singular => {
                self.state = Some(state);
                Ok(())
            }
            _ => Err("the other end gives up at a step where it cannot".into()),
        }
    }

    fn ending(&self) -> Result<Ending> {
        match &self.state {
            Some(state) if state.standing == Standing::Singular => Ok(Ending::Singular),
            Some(state) if state.standing == Standing::Done && self.role == End::Blinder => {
                Ok(Ending::Done(Some(table::sentence(&state.result)?)))
            }
            Some(state) if state.standing == Standing::Done => Ok(Ending::Done(None)),
            _ => Ok(Ending::PeerLost),
        }
    }
}

/// Whether this line was taken already, and comes again after a crash. Any other line is for the engine to judge.
fn is_repeated(state: &State, line: &[u8]) -> bool {
    let Some(head) = Head::of(line) else { return false };
    let session = &state.session;
    let is_own = head.session == session.session_number() && head.tape == session.tape_number();
    is_own && session.due().is_none_or(|due| head.kind < due)
}
