//! Scripts of a world: spaces in one process, and the frames between them, as `nobj script` has them.

use super::event::{Answer, Event};
use super::events::Space;
use super::frame::Frame;
use super::names::{Limits, SpaceId};
use super::reading::{opening_of, step_of};
use super::refusal::SpaceError;
use std::fmt::{self, Write};

/// What the first line of a script says: see [`World`].
///
/// ```
/// # use masttomato::space::script::*;
/// # use masttomato::space::*;
/// let opening = Opening { spaces: SpaceId::try_from(3)?, limits: Limits::default() };
/// assert_eq!(World::new(opening)?.spaces().len(), 3);
/// # Ok::<(), Box<dyn std::error::Error>>(())
/// ```
#[derive(Clone, Copy, Debug, PartialEq, Eq, Hash)]
pub struct Opening {
    /// The last space: there are those from 1 to it.
    pub spaces: SpaceId,
    /// The limits of their sessions.
    pub limits: Limits,
}

/// A step of a world: see [`World`].
///
/// ```
/// # use masttomato::space::script::*;
/// # use masttomato::space::*;
/// let step = Step::Do(SpaceId::try_from(2)?, Event::Export);
/// assert_eq!((step.to_string(), Step::Deliver(5).to_string()), ("2 export".into(), "deliver 5".into()));
/// # Ok::<(), Box<dyn std::error::Error>>(())
/// ```
#[derive(Clone, Debug, PartialEq, Eq, Hash)]
#[non_exhaustive]
pub enum Step {
    /// A space is asked something.
    Do(SpaceId, Event),
    /// The frame of this number, counted from 1 over all that were ever transmitted, arrives.
    Deliver(u64),
}

impl fmt::Display for Step {
    fn fmt(&self, f: &mut fmt::Formatter<'_>) -> fmt::Result {
        match self {
            Step::Do(space, event) => write!(f, "{space} {event}"),
            Step::Deliver(number) => write!(f, "deliver {number}"),
        }
    }
}

/// Why a step isn't done. Its text is its name in scripts: `X1`, `X2`, or that of a space's refusal.
///
/// ```
/// # use masttomato::space::script::*;
/// # use masttomato::space::*;
/// let mut world = World::new(Opening { spaces: SpaceId::try_from(1)?, limits: Limits::default() })?;
/// assert_eq!(world.step(&Step::Deliver(1)), Err(StepError::NoFrame));
/// assert_eq!(world.step(&Step::Do(SpaceId::try_from(2)?, Event::Export)), Err(StepError::NoSpace));
/// # Ok::<(), Box<dyn std::error::Error>>(())
/// ```
#[derive(Clone, Copy, Debug, PartialEq, Eq, Hash)]
#[non_exhaustive]
pub enum StepError {
    /// X1: there is no such space.
    NoSpace,
    /// X2: no such frame was transmitted.
    NoFrame,
    /// The space doesn't do it.
    Space(SpaceError),
}

impl std::error::Error for StepError {
    fn source(&self) -> Option<&(dyn std::error::Error + 'static)> {
        match self {
            StepError::Space(error) => Some(error),
            _ => None,
        }
    }
}

impl fmt::Display for StepError {
    fn fmt(&self, f: &mut fmt::Formatter<'_>) -> fmt::Result {
        f.write_str(match self {
            StepError::NoSpace => "X1",
            StepError::NoFrame => "X2",
            StepError::Space(SpaceError::Refused(refusal)) => refusal.name(),
            // The spaces of a script have no bounds, so nothing else is left.
            StepError::Space(_) => "S14",
        })
    }
}

/// Spaces of one process and the frames that they gave. Each space keeps its trace, and the stamps
/// of all traces come from one clock, so that together they say in which order everything was.
///
/// ```
/// use masttomato::space::script::{Opening, Step, World};
/// use masttomato::space::{Answer, Event, Limits, SpaceId};
///
/// # fn main() -> Result<(), Box<dyn std::error::Error>> {
/// let [one, two] = [SpaceId::try_from(1)?, SpaceId::try_from(2)?];
/// let mut world = World::new(Opening { spaces: two, limits: Limits::default() })?;
/// world.step(&Step::Do(one, "call 2.0 1 u".parse()?))?;
/// world.step(&Step::Do(one, Event::Transmit(two)))?;
/// assert_eq!(world.step(&Step::Deliver(1))?, Answer::Took(1));
/// assert_eq!(world.step(&Step::Deliver(2)).unwrap_err().to_string(), "X2");
/// assert_eq!((world.frame_count(), world.spaces().len()), (1, 2));
/// assert_eq!(world.traces().lines().count(), 5);
/// # Ok(())
/// # }
/// ```
#[derive(Debug)]
pub struct World {
    spaces: Vec<Space>,
    frames: Vec<Frame>,
    stamp: u64,
}

impl World {
    /// Spaces that did nothing.
    ///
    /// ```
    /// # use masttomato::space::script::*;
    /// # use masttomato::space::*;
    /// let world = World::new(Opening { spaces: SpaceId::try_from(2)?, limits: Limits::default() })?;
    /// assert_eq!((world.spaces().len(), world.frame_count()), (2, 0));
    /// # Ok::<(), Box<dyn std::error::Error>>(())
    /// ```
    ///
    /// # Errors
    /// Where memory runs out.
    pub fn new(opening: Opening) -> Result<World, SpaceError> {
        let Opening { spaces, limits } = opening;
        let all = spaces.up_to().map(|id| {
            let mut space = Space::new(id, spaces, limits)?;
            space.keep_trace();
            Ok::<_, SpaceError>(space)
        });
        Ok(World { spaces: all.collect::<Result<_, _>>()?, frames: Vec::new(), stamp: 0 })
    }

    /// One step: what its space answers. It is written as a script has it.
    ///
    /// ```
    /// # use masttomato::space::script::*;
    /// # use masttomato::space::*;
    /// let one = SpaceId::try_from(1)?;
    /// let mut world = World::new(Opening { spaces: one, limits: Limits::default() })?;
    /// assert_eq!(world.step(&Step::Do(one, Event::Export))?.to_string(), "exported 1.1");
    /// # Ok::<(), Box<dyn std::error::Error>>(())
    /// ```
    ///
    /// # Errors
    /// Where there is no such space or frame, or the space doesn't do it.
    pub fn step(&mut self, step: &Step) -> Result<Answer, StepError> {
        let answer = match step {
            Step::Do(space, event) => self.ask(*space, event)?,
            Step::Deliver(number) => {
                let frame = self.frame(*number).ok_or(StepError::NoFrame)?.clone();
                self.ask(frame.to(), &Event::Arrive(frame))?
            }
        };
        if let Answer::Frames(frames) = &answer {
            self.frames.extend(frames.iter());
        }
        Ok(answer)
    }

    /// The frame of a number, counted from 1.
    ///
    /// ```
    /// # use masttomato::space::script::*;
    /// # use masttomato::space::*;
    /// let [one, two] = [SpaceId::try_from(1)?, SpaceId::try_from(2)?];
    /// let mut world = World::new(Opening { spaces: two, limits: Limits::default() })?;
    /// world.step(&Step::Do(one, "call 2.0 1 u".parse()?))?;
    /// world.step(&Step::Do(one, Event::Transmit(two)))?;
    /// assert_eq!(world.frame(1).map(Frame::to), Some(two));
    /// assert_eq!((world.frame(0), world.frame(2)), (None, None));
    /// # Ok::<(), Box<dyn std::error::Error>>(())
    /// ```
    pub fn frame(&self, number: u64) -> Option<&Frame> {
        self.frames.get(usize::try_from(number).ok()?.checked_sub(1)?)
    }

    /// How many frames were transmitted.
    ///
    /// ```
    /// # use masttomato::space::script::*;
    /// # use masttomato::space::*;
    /// let world = World::new(Opening { spaces: SpaceId::try_from(2)?, limits: Limits::default() })?;
    /// assert_eq!(world.frame_count(), 0);
    /// # Ok::<(), Box<dyn std::error::Error>>(())
    /// ```
    pub fn frame_count(&self) -> u64 {
        self.frames.len() as u64
    }

    /// The spaces, from 1 on.
    ///
    /// ```
    /// # use masttomato::space::script::*;
    /// # use masttomato::space::*;
    /// let world = World::new(Opening { spaces: SpaceId::try_from(2)?, limits: Limits::default() })?;
    /// assert_eq!(world.spaces().iter().map(|space| space.id().get()).collect::<Vec<_>>(), [1, 2]);
    /// # Ok::<(), Box<dyn std::error::Error>>(())
    /// ```
    pub fn spaces(&self) -> &[Space] {
        &self.spaces
    }

    /// The traces of all spaces, one after the other: what `nobj check` reads.
    ///
    /// ```
    /// # use masttomato::space::script::*;
    /// # use masttomato::space::*;
    /// let one = SpaceId::try_from(1)?;
    /// let mut world = World::new(Opening { spaces: one, limits: Limits::default() })?;
    /// world.step(&Step::Do(one, Event::Export))?;
    /// assert_eq!(world.traces(), "trace2 1 of 1 window 8 retry 16 entries 1\n1 export = exported 1.1\n");
    /// # Ok::<(), Box<dyn std::error::Error>>(())
    /// ```
    pub fn traces(&self) -> String {
        self.spaces.iter().filter_map(Space::trace).map(|trace| trace.to_string()).collect()
    }

    fn ask(&mut self, space: SpaceId, event: &Event) -> Result<Answer, StepError> {
        let place = usize::from(space.get()) - 1;
        let space = self.spaces.get_mut(place).ok_or(StepError::NoSpace)?;
        space.rise_to(self.stamp);
        let result = space.step(event);
        self.stamp = space.stamp();
        result.map_err(StepError::Space)
    }
}

/// Makes the steps of a script, whose last line may lack its newline, and writes them with their
/// results, up to the first line that is no step, which it names. With it comes the world, where
/// all lines were read. The verdict, which `nobj script` writes as the last line, isn't judged here:
/// `nobj check` reads it off the world's traces.
///
/// ```
/// # use masttomato::space::script::play;
/// let (text, world) = play(b"spaces 2\n1 export\n1 withdraw 1\n")?;
/// assert_eq!(text, "spaces 2\n1 export = exported 1.1\n1 withdraw 1 = S11(1)\n");
/// assert!(world.is_some());
/// # Ok::<(), masttomato::space::SpaceError>(())
/// ```
///
/// # Errors
/// Where memory runs out.
pub fn play(script: &[u8]) -> Result<(String, Option<World>), SpaceError> {
    let script = script.strip_suffix(b"\n").unwrap_or(script);
    let mut lines = script.split(|byte| *byte == b'\n').map(|line| str::from_utf8(line).ok());
    let first = lines.next().flatten().unwrap_or_default();
    let Some(opening) = opening_of(first) else {
        return Ok(("line 1: bad step\n".into(), None));
    };
    let mut world = World::new(opening)?;
    let mut text = format!("{first}\n");
    for (place, line) in lines.enumerate() {
        let Some((line, step)) = line.and_then(|line| Some((line, step_of(line)?))) else {
            text.push_str(&format!("line {}: bad step\n", place + 2));
            return Ok((text, None));
        };
        put_step(&mut text, line, &mut world, &step);
    }
    Ok((text, Some(world)))
}

// Makes a step and writes it with its result.
fn put_step(text: &mut String, line: &str, world: &mut World, step: &Step) {
    let before = world.frame_count();
    let written = match world.step(step) {
        Ok(Answer::Frames(frames)) => numbers(before, frames.iter().count() as u64),
        Ok(answer) => answer.to_string(),
        Err(error) => error.to_string(),
    };
    writeln!(text, "{line} = {written}").expect("a String takes any text");
}

// The numbers of so many frames behind so many others.
fn numbers(before: u64, count: u64) -> String {
    if count == 0 {
        return "frames none".into();
    }
    let numbers = (before + 1..=before + count).map(|number| format!(" {number}"));
    format!("frames{}", numbers.collect::<String>())
}
