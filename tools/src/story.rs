//! A run as it is told: what each reading did, what is ahead, and how it ends.
//!
//! The verdicts are the library's. Why they came so is worked out from the library's table before
//! the reading ([`pending`](crate::pending)); what cannot be explained is said to be so.

pub mod objects;
pub mod text;
pub mod words;

use crate::pending::breach::broken;
use crate::pending::changes::{changes, Change};
use crate::pending::{Pending, Tree};
use crate::readings::Reading;
use crate::run::{Run, Step, Verdict};
use crate::source::Source;
use givuntha::{Breach, Refusal};
use words::Words;

/// What explains a verdict, or why it cannot be told.
pub type Told<T> = Result<T, String>;

/// The start or a reading.
#[derive(Clone)]
pub struct Event<'a> {
    pub step: Step,
    pub time: u32,
    /// The line of the readings; none of the start, and of a reading that is not entered.
    pub line: Option<usize>,
    /// The reading by its name, or `start`.
    pub what: String,
    /// When the agreement last moved, by the library's table after this event.
    pub last_moved: u32,
    pub changes: Told<Vec<Change<'a>>>,
    /// What a reading was too early for, the next window to open first; none unless the library marked it (`step`).
    pub early: Told<Vec<Pending<'a>>>,
    /// The obligations behind the breach that is ahead or has come; none where there is none.
    pub broken: Told<Vec<Pending<'a>>>,
}

/// A run in the making.
pub struct Story<'a> {
    pub source: &'a Source,
    run: Run,
    waiting: Told<Tree<'a>>,
    /// The event that decided: a breach that was shown, or the fulfilment.
    decided: Option<Event<'a>>,
}

/// How a run ends, as far as it was told.
pub enum Ending<'s, 'a> {
    Running { waiting: &'s Told<Tree<'a>>, last_moved: u32 },
    Fulfilled(&'s Event<'a>),
    Breached(Breach, &'s Event<'a>),
}

impl Ending<'_, '_> {
    /// When the agreement last moved. Once it is decided no reading alters a unit or the state.
    pub fn last_moved(&self) -> u32 {
        match self {
            Ending::Running { last_moved, .. } => *last_moved,
            Ending::Fulfilled(event) | Ending::Breached(_, event) => event.last_moved,
        }
    }
}

/// What is said where a breach cannot be led back to a duty.
const UNEXPLAINED: &str = "no obligation that waited comes to just this breach";

/// What is said where no window is found that opens after a reading which the library marked.
const NO_WINDOW: &str = "no clause that waited wants it later";

impl<'a> Story<'a> {
    /// Starts the agreement and tells the start.
    pub fn start(source: &'a Source) -> Result<(Story<'a>, Event<'a>), Refusal> {
        let run = Run::start(source.assembled.bytes.clone())?;
        let waiting = Tree::of_table(&run.table(), &source.assembled.agreement);
        let mut story = Story { source, run, waiting, decided: None };
        let step = story.run.started();
        let event = Event {
            step,
            time: source.assembled.agreement.start,
            line: None,
            what: "start".to_string(),
            last_moved: story.run.last_moved(),
            changes: story.waiting.clone().map(|tree| tree.all().into_iter().cloned().map(Change::Begun).collect()),
            early: Ok(Vec::new()),
            broken: story.ahead(&step.verdict),
        };
        story.note(&event);
        Ok((story, event))
    }

    /// Gives the run a reading and tells what it did.
    pub fn reading(&mut self, line: usize, reading: &Reading) -> Event<'a> {
        let step = self.run.reading(&reading.record());
        let after = Tree::of_table(&self.run.table(), &self.source.assembled.agreement);
        let before = std::mem::replace(&mut self.waiting, after);
        let event = self.event(step, Some(line), reading, &before);
        self.note(&event);
        event
    }

    /// Tells what a reading would do, and does not give it to the run.
    pub fn preview(&self, reading: &Reading) -> Event<'a> {
        let (step, run) = self.run.preview(&reading.record());
        let waiting = Tree::of_table(&run.table(), &self.source.assembled.agreement);
        let after = Story { source: self.source, run, waiting, decided: self.decided.clone() };
        after.event(step, None, reading, &self.waiting)
    }

    /// The event of a reading, told by what waited before it and by this story, which is the one after it.
    fn event(&self, step: Step, line: Option<usize>, reading: &Reading, before: &Told<Tree<'a>>) -> Event<'a> {
        let broken = match (&step.verdict, &self.decided) {
            (Verdict::Breached(_), Some(shown)) => shown.broken.clone(),
            (Verdict::Breached(breach), None) => self.behind(before, i64::from(reading.time), breach),
            (verdict, _) => self.ahead(verdict),
        };
        Event {
            step,
            time: reading.time,
            line,
            what: Words::of(self.source).reading(reading),
            last_moved: self.run.last_moved(),
            changes: self.changes(&step.verdict, before, reading),
            early: early(&step, before, reading),
            broken,
        }
    }

    /// How it stands now.
    pub fn ending(&self) -> Ending<'_, 'a> {
        match &self.decided {
            None => Ending::Running { waiting: &self.waiting, last_moved: self.run.last_moved() },
            Some(event) => match event.step.verdict {
                Verdict::Breached(breach) => Ending::Breached(breach, event),
                _ => Ending::Fulfilled(event),
            },
        }
    }

    fn note(&mut self, event: &Event<'a>) {
        if self.decided.is_none() && matches!(event.step.verdict, Verdict::Done | Verdict::Breached(_)) {
            self.decided = Some(event.clone());
        }
    }

    fn changes(&self, verdict: &Verdict, before: &Told<Tree<'a>>, reading: &Reading) -> Told<Vec<Change<'a>>> {
        let (before, after) = (before.as_ref().map_err(String::clone)?, self.waiting.as_ref().map_err(String::clone)?);
        if matches!(verdict, Verdict::Refused(_)) {
            return Ok(Vec::new());
        }
        let mut changes = changes(&self.source.assembled.agreement, before, after, reading);
        if matches!(verdict, Verdict::Breached(_)) {
            // A breach ends everything; that the rest waits no more says nothing of it.
            changes.retain(|change| !matches!(change, Change::Dropped(_)));
        }
        Ok(changes)
    }

    /// The obligations behind the breach that is ahead.
    fn ahead(&self, verdict: &Verdict) -> Told<Vec<Pending<'a>>> {
        match verdict {
            Verdict::Live(Some(breach)) => self.behind(&self.waiting, i64::MAX, breach),
            _ => Ok(Vec::new()),
        }
    }

    fn behind(&self, waiting: &Told<Tree<'a>>, until: i64, breach: &Breach) -> Told<Vec<Pending<'a>>> {
        let tree = waiting.as_ref().map_err(String::clone)?;
        broken(&self.source.assembled.agreement, tree, until, breach).ok_or_else(|| UNEXPLAINED.to_string())
    }
}

/// That it was too early the library says; here it is told for what.
fn early<'a>(step: &Step, before: &Told<Tree<'a>>, reading: &Reading) -> Told<Vec<Pending<'a>>> {
    if !step.early {
        return Ok(Vec::new());
    }
    let windows = before.as_ref().map_err(String::clone)?.opening_after(reading);
    match windows.is_empty() {
        true => Err(NO_WINDOW.to_string()),
        false => Ok(windows),
    }
}
