//! Every interleaving of a pull of a lazy pool with threads that pull, return, and fail to make
//! items: a refused pull had a moment at which all places were in use. The steps are those of
//! `src/lazy_pool/places.rs`. A look at places of one kind is one step: that much is proved of the
//! library.
//!
//! At first one of two places has an item, and both are free. Each wrong protocol refuses a pull
//! though a place was free all the time, or counts a place as free that isn't.
use std::collections::HashSet;

const PLACES: usize = 2;

#[derive(Clone, Copy, Debug, PartialEq, Eq, Hash)]
enum Fault {
    None,
    /// It looks for an item, for an empty place, and for an item again.
    ThreeLooks,
    /// It doesn't see that an empty place came and went.
    ComingIsNotCounted,
    /// It looks at the count of empty places once, before or after its look for an item.
    CountsOnce,
    CountsLate,
    /// A return counts an empty place before it is free.
    CountedBeforeItIsFree,
    /// A pull of an empty place counts it off after it has it.
    CountedOffLate,
}

/// What a thread that isn't the pull does next.
#[derive(Clone, Copy, Debug, PartialEq, Eq, Hash)]
enum User {
    Idle,
    HasItem(usize),
    /// It counted an empty place off, and has it then.
    Counted,
    /// It makes an item there, which fails.
    Makes(usize),
    /// It returned an empty place, or counted it, and not yet both.
    Halfway(usize),
    /// It has an empty place, and hasn't counted it off.
    Uncounted(usize),
}

#[derive(Clone, Copy, Debug, PartialEq, Eq, Hash)]
enum Pull {
    Begins,
    LooksForItem,
    TakesEmpty,
    Counted,
    LooksAgain,
    Compares,
    Got,
    Refused,
}

#[derive(Clone, Debug, PartialEq, Eq, Hash)]
struct State {
    made: [bool; PLACES],
    empty: [bool; PLACES],
    /// How many empty places are counted, and how many came.
    count: u8,
    came: u8,
    pull: Pull,
    seen: (u8, u8),
    saw_all_in_use: bool,
    users: Vec<(User, u8)>,
    is_wrong: bool,
}

impl State {
    fn new(users: usize, turns: u8) -> State {
        State {
            made: [true, false],
            empty: [false, true],
            count: 1,
            came: 0,
            pull: Pull::Begins,
            seen: (0, 0),
            saw_all_in_use: false,
            users: vec![(User::Idle, turns); users],
            is_wrong: false,
        }
    }

    /// A place is free if it has an item, or is empty and counted: else its return isn't over.
    fn is_all_in_use(&self) -> bool {
        self.made == [false; PLACES] && self.count == 0
    }

    fn with(&self, change: impl FnOnce(&mut State)) -> State {
        let mut state = self.clone();
        change(&mut state);
        state.saw_all_in_use |= state.is_all_in_use();
        state.is_wrong |= state.pull == Pull::Refused && !state.saw_all_in_use;
        state
    }

    fn now(&self) -> (u8, u8) {
        (self.count, self.came)
    }

    /// The states after a step of the pull.
    fn after_pull(&self, fault: Fault) -> Vec<State> {
        let goes = |pull| vec![self.with(|state| state.pull = pull)];
        let items = |found: Pull, none: Pull| match self.made.contains(&true) {
            true => goes(found),
            false => goes(none),
        };
        match self.pull {
            Pull::Begins => vec![self.with(|state| {
                (state.seen, state.saw_all_in_use) = (self.now(), self.is_all_in_use());
                state.pull = Pull::LooksForItem;
            })],
            Pull::LooksForItem => items(Pull::Got, Pull::TakesEmpty),
            Pull::TakesEmpty if self.count > 0 => vec![self.with(|state| {
                (state.count, state.pull) = (self.count - 1, Pull::Counted);
            })],
            Pull::TakesEmpty if fault == Fault::ThreeLooks => goes(Pull::LooksAgain),
            Pull::TakesEmpty => goes(Pull::Compares),
            Pull::Counted => vec![self.with(|state| {
                state.is_wrong |= !self.empty.contains(&true);
                state.pull = Pull::Got;
            })],
            Pull::LooksAgain => items(Pull::Got, Pull::Refused),
            Pull::Compares => {
                let is_refused = match fault {
                    Fault::CountsOnce => self.seen.0 == 0,
                    Fault::CountsLate => self.count == 0,
                    Fault::ComingIsNotCounted => self.seen.0 == 0 && self.count == 0,
                    _ => self.seen.0 == 0 && self.seen == self.now(),
                };
                goes(if is_refused { Pull::Refused } else { Pull::Begins })
            }
            Pull::Got | Pull::Refused => vec![],
        }
    }

    /// The states after a step of a user.
    fn after_user(&self, index: usize, fault: Fault) -> Vec<State> {
        let (user, turns) = self.users[index];
        let with = |user, turns, change: &dyn Fn(&mut State)| {
            self.with(|state| {
                change(state);
                state.users[index] = (user, turns);
                state.users.sort_by_key(|user| format!("{user:?}"));
            })
        };
        let put = |state: &mut State| {
            (state.count, state.came) = (state.count + 1, state.came.wrapping_add(1))
        };
        let places = 0..PLACES;
        match user {
            User::Idle if turns == 0 => vec![],
            User::Idle => {
                let made = places.clone().filter(|&at| self.made[at]);
                let pulls = made
                    .map(|at| with(User::HasItem(at), turns - 1, &|state| state.made[at] = false));
                let late = fault == Fault::CountedOffLate;
                let empty = places.filter(|&at| late && self.empty[at]);
                let has = empty.map(|at| {
                    with(User::Uncounted(at), turns - 1, &|state| state.empty[at] = false)
                });
                let counts = (!late && self.count > 0)
                    .then(|| with(User::Counted, turns - 1, &|state| state.count -= 1));
                pulls.chain(has).chain(counts).collect()
            }
            User::HasItem(at) => vec![with(User::Idle, turns, &|state| state.made[at] = true)],
            User::Counted => {
                let empty = places.filter(|&at| self.empty[at]);
                let has =
                    empty.map(|at| with(User::Makes(at), turns, &|state| state.empty[at] = false));
                has.collect()
            }
            User::Uncounted(at) => vec![with(User::Makes(at), turns, &|state| {
                state.is_wrong |= state.count == 0;
                state.count = state.count.saturating_sub(1);
            })],
            User::Makes(at) if fault == Fault::CountedBeforeItIsFree => {
                vec![with(User::Halfway(at), turns, &put)]
            }
            User::Makes(at) => {
                vec![with(User::Halfway(at), turns, &|state| state.empty[at] = true)]
            }
            User::Halfway(at) if fault == Fault::CountedBeforeItIsFree => {
                vec![with(User::Idle, turns, &|state| state.empty[at] = true)]
            }
            User::Halfway(_) => vec![with(User::Idle, turns, &put)],
        }
    }
}

/// Returns how many states there are, and a wrong one.
fn explore(users: usize, turns: u8, fault: Fault) -> (usize, Option<State>) {
    let first = State::new(users, turns);
    let (mut seen, mut untried) = (HashSet::from([first.clone()]), vec![first]);
    while let Some(state) = untried.pop() {
        if state.is_wrong {
            return (seen.len(), Some(state));
        }
        let of_users = (0..users).flat_map(|user| state.after_user(user, fault));
        let after: Vec<_> = of_users.chain(state.after_pull(fault)).collect();
        untried.extend(after.into_iter().filter(|state| seen.insert(state.clone())));
    }
    (seen.len(), None)
}

#[test]
fn a_refused_pull_had_a_moment_at_which_all_were_in_use() {
    for (users, turns) in [(1, 6), (2, 3), (3, 2)] {
        let (states, wrong) = explore(users, turns, Fault::None);
        println!("{users} users, {turns} turns: {states} states");
        assert_eq!(wrong, None, "{users} users, {turns} turns");
    }
}

/// By one user at most one place is in use, so each refusal is wrong.
#[test]
fn each_wrong_protocol_refuses_beside_a_free_place_or_miscounts() {
    let cases = [
        (Fault::ThreeLooks, 1, 3),
        (Fault::ComingIsNotCounted, 2, 3),
        (Fault::CountsOnce, 1, 3),
        (Fault::CountsLate, 1, 3),
        (Fault::CountedBeforeItIsFree, 1, 3),
        (Fault::CountedOffLate, 1, 3),
    ];
    for (fault, users, turns) in cases {
        let (states, wrong) = explore(users, turns, fault);
        println!("{fault:?}: {states} states");
        assert!(wrong.is_some(), "{fault:?}");
    }
}
