//! A run: traffic with all calls by the library beside the model, and if that is asked for, at many
//! points of it damaged copies of the site.

use crate::ask;
use crate::call::{Call, Outcome, State};
use crate::damage::{self, Damaged};
use crate::plain::from_plain;
use crate::rules::{RULES, broken};
use crate::subject::{Subject, spots};
use crate::tally::Tally;
use crate::unlucky;
use model::books::Books;
use model::event::{Event, Run as Traffic};
use model::random::Random;
use model::stream::{KINDS, Kind, Stream};

/// Out of a hundred events, after how many a query is begun, and after how many an id is looked at.
const QUERIES: usize = 6;
const LOOKS: usize = 10;
/// Single numbers damaged at each of these points.
const NUMBERS_A_TIME: usize = 100;
/// How often each other kind of damage is done at each of these points.
const TIMES: usize = 4;

/// A run in progress.
pub struct Run {
    /// What happened so far.
    pub tally: Tally,
    /// Events in each stream.
    events: u64,
    /// Events from one damaged site to the next, if any is damaged.
    stride: Option<u64>,
    /// Where chance comes from.
    random: Random,
    /// A site of earlier traffic, to mix with.
    earlier: Subject,
    /// The books of the traffic's answers.
    books: Books,
    /// Where the run is, in words.
    place: String,
}

/// A difference, in words.
pub type Difference = String;

impl Run {
    /// A run over streams of so many events, from a seed.
    pub fn new(seed: u64, events: u64, stride: Option<u64>) -> Run {
        Run {
            tally: Tally::default(),
            events,
            stride,
            random: Random::new(seed),
            earlier: Subject::empty(),
            books: Books::default(),
            place: String::new(),
        }
    }

    /// Goes over so many streams, the kinds in turn; the first difference, if any.
    pub fn go(&mut self, streams: u64, seed: u64) -> Result<(), Difference> {
        for (turn, &(kind, name)) in (0..streams).zip(KINDS.iter().cycle()) {
            self.stream(kind, name, seed.wrapping_add(turn))?;
        }
        Ok(())
    }

    /// One stream of traffic, with damage on the way.
    fn stream(&mut self, kind: Kind, name: &str, seed: u64) -> Result<(), Difference> {
        let mut traffic = Traffic::fresh();
        self.books = Books::default();
        let mut subject = Call::Fresh.made(&Subject::empty()).after;
        for (place, bytes) in (1..).zip(Stream::new(kind, seed, self.events)) {
            self.place = format!("stream {name}, seed {seed}, event {place}");
            traffic.take(&bytes);
            if let Some(call) = Event::decode(&bytes).as_ref().and_then(ask::of_event) {
                subject = self.next(&call, &subject, &traffic)?;
            }
            for call in self.besides(&subject) {
                call.on(&mut traffic.site);
                subject = self.next(&call, &subject, &traffic)?;
            }
            if self.stride.is_some_and(|stride| place % stride == 0) {
                self.damage(&subject)?;
                self.earlier = subject.clone();
            }
        }
        Ok(())
    }

    /// The calls that no event asks for, now and then one of each.
    fn besides(&mut self, subject: &Subject) -> Vec<Call> {
        let random = &mut self.random;
        let query = random.chance(QUERIES).then(|| ask::query(random));
        let look = random.chance(LOOKS).then(|| ask::look(random, subject));
        query.into_iter().chain(look).collect()
    }

    /// Makes a call of the traffic, which the model has taken; what it leaves.
    fn next(
        &mut self,
        call: &Call,
        before: &Subject,
        traffic: &Traffic,
    ) -> Result<Subject, Difference> {
        let state = state_of(before).0;
        let made = self.hold(call, before, state, "none")?;
        self.within_the_books(call, &made)?;
        self.same_as_traffic(&made.after, traffic)?;
        Ok(made.after)
    }

    /// No count of times put back may be above what the answers so far allow.
    fn within_the_books(&mut self, call: &Call, made: &Outcome) -> Result<(), Difference> {
        unlucky::enter(&mut self.books, call, made);
        for (id, backs) in unlucky::shown(call, made) {
            let met = self.books.met(id);
            if backs > met.most() {
                return Err(format!("{}: {id} put back {backs} times, met {met:?}", self.place));
            }
            self.tally.unluckiest += u64::from(backs > 0 && backs == met.most());
        }
        Ok(())
    }

    /// The subject must be what the model has after all events so far.
    fn same_as_traffic(&self, subject: &Subject, traffic: &Traffic) -> Result<(), Difference> {
        match from_plain(&traffic.site).first_difference(subject) {
            None => Ok(()),
            Some(found) => Err(format!("{}: after the traffic {found}", self.place)),
        }
    }

    /// Damages copies of a subject in every way.
    fn damage(&mut self, base: &Subject) -> Result<(), Difference> {
        self.each(damage::none(base))?;
        for _ in 0..NUMBERS_A_TIME {
            let next = self.tally.numbers % spots();
            let damaged = damage::one_number(&mut self.random, base, next);
            self.tally.numbers += 1;
            self.each(damaged)?;
        }
        for rule in &RULES {
            let damaged = damage::aimed(&mut self.random, base, rule);
            self.each(damaged)?;
        }
        for _ in 0..TIMES {
            self.other_ways(base)?;
        }
        Ok(())
    }

    /// Damages copies of a subject in each way that is not about one number or one rule.
    fn other_ways(&mut self, base: &Subject) -> Result<(), Difference> {
        let random = &mut self.random;
        let mixed = damage::mixed(random, base, &self.earlier);
        let late = damage::late(random, base);
        let sound = damage::still_sound(random, base);
        let cut = damage::wrong_cells(random, damage::none(base));
        let scattered = damage::chance_field(random, base);
        let field = damage::chance_field(random, base);
        let scattered_and_cut = damage::wrong_cells(random, scattered);
        let chance = damage::chance_bytes(random, base);
        for damaged in [mixed, late, sound, cut, field, scattered_and_cut, chance] {
            self.each(damaged)?;
        }
        Ok(())
    }

    /// Makes each call on a damaged subject.
    fn each(&mut self, damaged: Damaged) -> Result<(), Difference> {
        let Damaged { subject, how } = damaged;
        let (state, broken) = state_of(&subject);
        self.tally.tried += 1;
        self.tally.sound += u64::from(state == State::Sound);
        self.tally.count_broken(&broken);
        for call in ask::each(&mut self.random, &subject) {
            self.hold(&call, &subject, state, &how)?;
        }
        Ok(())
    }

    /// Makes one call and holds it against what it must do; a sound site must stay sound.
    fn hold(
        &mut self,
        call: &Call,
        before: &Subject,
        state: State,
        how: &str,
    ) -> Result<Outcome, Difference> {
        let (due, made) = (call.due(before, state), call.made(before));
        if let Some(found) = difference(state, &due, &made) {
            let (next, place) = (self.tally.made() + 1, &self.place);
            let site = format!("site: {state:?}, broken: {:?}", words(&state_of(before).1));
            let call = format!("call: {call:?}");
            return Err(format!("call {next}, {place}\ndamage: {how}\n{site}\n{call}\n{found}"));
        }
        self.tally.count(call.kind(), state, &made);
        Ok(made)
    }
}

/// What a call must find in a subject, and the rules that are broken.
fn state_of(subject: &Subject) -> (State, Vec<usize>) {
    if !subject.has_right_cells() {
        return (State::WrongCells, Vec::new());
    }
    let broken = broken(subject);
    (if broken.is_empty() { State::Sound } else { State::Unsound }, broken)
}

/// In what a call did something else than was due, in words.
fn difference(state: State, due: &Outcome, made: &Outcome) -> Option<Difference> {
    if made.answer != due.answer {
        return Some(format!("answered {:?} instead of {:?}", made.answer, due.answer));
    }
    due.after.first_difference(&made.after).or_else(|| {
        let left = if state == State::Sound { broken(&made.after) } else { Vec::new() };
        (!left.is_empty()).then(|| format!("a sound site was left with broken: {:?}", words(&left)))
    })
}

/// The words of rules, by their places in the table.
fn words(rules: &[usize]) -> Vec<&'static str> {
    rules.iter().map(|rule| RULES[*rule].words).collect()
}
