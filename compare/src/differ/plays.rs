//! A case's events played through both sides: in small and exact rooms,
//! cut at every event, and resumed from the event at which the trace is full.

use herringcart::{End, Played};
use second::cases::Case;
use second::stream::{PLAYED, TRACE_FILL, play_rooms};

use super::{Difference, Lent, Tried, as_word, same, same_lent, visits_words};
use crate::subject::Subject;

/// How many of a case's events its plays are cut at, unless it is one of those that are cut at every event; each cut is two plays.
const CUTS: usize = 12;
/// One case in so many, by its table's length, is cut at every event.
const CUT_THROUGHOUT: usize = 3;

pub fn compare_plays(subject: &impl Subject, table: &[u32], case: &Case) -> Result<(), Difference> {
    let b = second::check(table).b;
    let plays = Plays { subject, table, case };
    let mut enough = b;
    for room in [b, 2 * b + 1] {
        enough = b + plays.resumed(room)?;
    }
    let events = case.events.len();
    for room in play_rooms(case) {
        plays.once(room, &case.events[..events.min(PLAYED)])?;
    }
    for room in [0, b.saturating_sub(1), case.room, enough] {
        plays.once(room, &case.events)?;
    }
    let cuts = if table.len() % CUT_THROUGHOUT == 0 { events } else { events.min(CUTS) };
    (0..=cuts).try_for_each(|cut| plays.cut(enough, cut))
}

struct Plays<'a, S> {
    subject: &'a S,
    table: &'a [u32],
    case: &'a Case,
}

impl<S: Subject> Plays<'_, S> {
    /// One play from the case's state.
    fn once(&self, room: usize, events: &[u32]) -> Result<(), Difference> {
        self.play(&mut self.start(), room, events, "from the case's state").map(|_| ())
    }

    /// The events before a cut, and then those behind it.
    fn cut(&self, room: usize, cut: usize) -> Result<(), Difference> {
        let (first, rest) = self.case.events.split_at(cut);
        let mut states = self.start();
        self.play(&mut states, room, first, "the events before a cut")?;
        self.play(&mut states, room, rest, "the events behind a cut").map(|_| ())
    }

    /// Played to the end of the events or a refused one, each time in this room;
    /// gives how many trace words were written in all.
    fn resumed(&self, room: usize) -> Result<usize, Difference> {
        let mut states = self.start();
        let (mut from, mut written) = (0, 0);
        loop {
            let played = self.play(&mut states, room, &self.case.events[from..], "resumed")?;
            from += played.taken;
            written += played.count;
            // Two sides that are stuck alike are found by the second program's properties.
            if played.end != End::TraceFull || played.taken == 0 {
                return Ok(written);
            }
        }
    }

    fn start(&self) -> [Lent; 2] {
        [Lent::of(&self.case.state), Lent::of(&self.case.state)]
    }

    fn play(
        &self,
        states: &mut [Lent; 2],
        room: usize,
        events: &[u32],
        name: &str,
    ) -> Result<Played, Difference> {
        let number = events.len();
        let what = |part: &str| format!("{number} events played in {room} words, {name}, {part}");
        let Tried { given, alike } =
            try_play(self.subject, self.table, states, room, events, &what);
        alike.map(|()| given.0)
    }
}

/// One play by both sides, with the words that it wrote; the states, the proved side's first, are passed on.
pub(super) fn try_play(
    subject: &impl Subject,
    table: &[u32],
    [state, judged]: &mut [Lent; 2],
    room: usize,
    events: &[u32],
    what: &dyn Fn(&str) -> String,
) -> Tried<(Played, Vec<u32>)> {
    let mut trace = Lent::filled(room, TRACE_FILL);
    let mut expected = trace.clone();
    let proved = subject.play(table, state.words(), trace.words(), events);
    let second = second::play(table, judged.words(), expected.words(), events);
    let compared = || {
        same(
            || what("answer, taken, count"),
            &[proved.end.number(), as_word(proved.taken), as_word(proved.count)],
            &[second.answer, as_word(second.taken), as_word(second.count)],
        )?;
        same(
            || what("visits"),
            &visits_words(subject, proved.visits),
            &visits_words(subject, second.visits),
        )?;
        same_lent(&|| what("state"), state, judged)?;
        same_lent(&|| what("trace"), &trace, &expected)
    };
    let alike = compared();
    Tried { given: (proved, trace.front(proved.count)), alike }
}
