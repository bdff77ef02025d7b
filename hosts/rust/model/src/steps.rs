//! "Steps": one function for each kind of row of the list.

use crate::log::{Event, Log};
use crate::state::State;
use crate::table::{Node, Recipe};
use crate::tasks::{Task, TASKS};
use crate::values::Context;

/// The named stops, by their numbers in "What the runner says".
#[derive(Clone, Copy, Debug, PartialEq, Eq)]
pub enum Stop {
    Finished = 0,
    Paused = 1,
    Stuck = 2,
    Tasks = 3,
    Spent = 4,
    LogFull = 5,
    /// "24, a stop like 3 and no refusal, when the expression of the next set, test or spawn has no value" (request 2.2
    /// of document 02). The task stands at the statement.
    NoValue = 24,
}

/// Whether a burst goes on after a step, or the task gave way, waits or ended.
#[derive(Clone, Copy, Debug, PartialEq, Eq)]
pub enum Burst {
    On,
    Over,
}

impl State {
    /// What a task's expressions and awaits are worked out from.
    #[inline]
    pub fn context<'a>(&'a self, recipe: &'a Recipe, task: &Task) -> Context<'a> {
        Context { nodes: recipe.nodes(), variables: &self.variables, parameter: task.parameter }
    }

    /// The value of a statement's expression, which stands right after the statement, if it has one.
    #[inline]
    fn value(&self, recipe: &Recipe, task: &Task) -> Option<i32> {
        self.context(recipe, task).value(usize::from(task.place) + 1)
    }

    /// The value that a set, a test or a spawn needs: without one "the step .. is not done".
    #[inline]
    fn needed_value(&self, recipe: &Recipe, task: &Task) -> Result<i32, Stop> {
        self.value(recipe, task).ok_or(Stop::NoValue)
    }

    /// "Names 0–63 are shared variables .. Name 64 is the task's own parameter."
    #[inline]
    fn set(&mut self, task: &mut Task, name: u8, value: i32) {
        match self.variables.get_mut(usize::from(name)) {
            Some(variable) => *variable = value,
            None => task.parameter = value,
        }
    }

    /// Not "it waits if its next statement is an await and the variable's value now is not a done number". A task at a
    /// guard "passes only if the expression is true then", and one "without a value counts as untrue".
    #[inline]
    fn is_ready(&self, recipe: &Recipe, task: &Task) -> bool {
        match recipe.at(task.place) {
            Node::Await { name, .. } => self.is_done(self.context(recipe, task).read(name)),
            Node::Guard { .. } => self.value(recipe, task).is_some_and(|value| value != 0),
            _ => true,
        }
    }

    /// How many queued tasks stand before the first ready one, mostly the front, which is tested without a call.
    #[inline]
    pub fn before_ready(&self, recipe: &Recipe) -> Result<usize, Stop> {
        if self.is_ready(recipe, &self.tasks.first()) {
            return Ok(0);
        }
        self.behind_front(recipe)
    }

    /// The same behind a front that waits. Without a ready task, a queue that is not empty is "stuck".
    fn behind_front(&self, recipe: &Recipe) -> Result<usize, Stop> {
        let ready = |&before: &usize| self.is_ready(recipe, &self.tasks.at(before));
        (1..self.tasks.live()).find(ready).ok_or(Stop::Stuck)
    }

    /// "With a task active, one step is": the row for the node that the task stands at. The stops 24, 3, 4 and 5 are
    /// tried where they can come, in this order; a skip, a test and a set of names 8 to 64 write no record.
    #[inline]
    pub fn act(&mut self, recipe: &Recipe, task: &mut Task, log: &mut Log) -> Result<Burst, Stop> {
        match recipe.at(task.place) {
            Node::Skip { next } => task.place = next,
            Node::Set { name, next } => {
                let value = self.needed_value(recipe, task)?;
                self.set(task, name, value);
                task.place = next;
            }
            Node::Valve { name, next } => {
                let value = self.needed_value(recipe, task)?;
                log.write(task.number, Event::Valve(name, value))?;
                self.set(task, name, value);
                task.place = next;
            }
            Node::Test { yes, no } => task.place = if self.needed_value(recipe, task)? != 0 { yes } else { no },
            Node::Spawn { name, procedure, next } => {
                self.spawn(recipe, task, name, procedure, log)?;
                task.place = next;
            }
            Node::Suspend { next } => {
                log.write(task.number, Event::Gave)?;
                self.put_back(Task { place: next, ..*task });
                return Ok(Burst::Over);
            }
            Node::Await { name, .. } => {
                let number = self.context(recipe, task).read(name);
                return self.wait(task, number, log);
            }
            Node::Guard { .. } => return self.wait(task, 0, log),
            _ => {
                log.write(task.number, Event::Ended)?;
                self.active = false;
                self.tasks.leave();
                return Ok(Burst::Over);
            }
        }
        Ok(Burst::On)
    }

    /// "The argument is worked out, the next number goes into the variable, the new task joins the back": the active task
    /// is its spawner.
    #[inline]
    fn spawn(&mut self, recipe: &Recipe, task: &mut Task, name: u8, procedure: u8, log: &mut Log) -> Result<(), Stop> {
        let parameter = self.needed_value(recipe, task)?;
        if self.tasks.live() == TASKS {
            return Err(Stop::Tasks);
        }
        let number = self.issued.checked_add(1).ok_or(Stop::Spent)?;
        log.write(task.number, Event::Spawned(number))?;
        self.issued = number;
        self.set(task, name, i32::from(number));
        let place = recipe.entry(procedure);
        self.tasks.join(Task { number, place, parameter, spawner: task.number, taken: 0 });
        Ok(())
    }

    /// What the log says of a task that waits: "the variable's value now" at an await, 0 at a guard.
    #[inline]
    fn awaited(&self, recipe: &Recipe, task: &Task) -> i32 {
        match recipe.at(task.place) {
            Node::Await { name, .. } => self.context(recipe, task).read(name),
            _ => 0,
        }
    }

    /// An await or a guard: the task "joins the back, still at the await", with what the log says of it.
    #[inline]
    fn wait(&mut self, task: &Task, number: i32, log: &mut Log) -> Result<Burst, Stop> {
        log.write(task.number, Event::Waits(number))?;
        self.put_back(*task);
        Ok(Burst::Over)
    }

    /// The first task joins the back, and no task is active: suspend, await, guard, and a turn.
    #[inline]
    fn put_back(&mut self, task: Task) {
        self.active = false;
        self.tasks.leave();
        self.tasks.join(task);
    }

    /// A try of a front that waits: it "is turned to the back".
    #[inline]
    pub fn turn(&mut self, recipe: &Recipe, log: &mut Log) -> Result<(), Stop> {
        let front = self.tasks.first();
        log.write(front.number, Event::Turned(self.awaited(recipe, &front)))?;
        self.put_back(front);
        Ok(())
    }

    /// A try of a front that is ready: it "becomes active (past its await, if it stood at one)", or past its guard, and its
    /// times taken up are one more.
    #[inline]
    pub fn take_up(&mut self, recipe: &Recipe, log: &mut Log) -> Result<(), Stop> {
        let front = self.tasks.first();
        log.write(front.number, Event::Taken)?;
        let place = match recipe.at(front.place) {
            Node::Await { next, .. } | Node::Guard { next } => next,
            _ => front.place,
        };
        self.tasks.set_first(front.taken_up(place));
        self.active = true;
        Ok(())
    }
}
