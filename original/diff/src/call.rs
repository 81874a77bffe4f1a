//! Random calls, which a seed settles.
use std::fmt;

/// Numbers of attached items begin here. `init` makes fewer.
const FIRST_ATTACHED: u64 = 1_000_000_000;

/// After so many calls, another number of items is sought.
const PHASE: u64 = 1000;

/// The most items that are sought, which fill some pages of a linear pool.
const MOST_SOUGHT: u64 = 160;

/// One item in so many that come is attached.
const ATTACHES: u64 = 200;

/// One call in so many on a held item forgets it.
const FORGETS: u64 = 100;

#[derive(Clone, Copy, Debug, PartialEq, Eq)]
pub enum Kind {
    Linear,
    Mutex,
    SpinLock,
    None,
}

impl fmt::Display for Kind {
    fn fmt(&self, f: &mut fmt::Formatter) -> fmt::Result {
        f.write_str(match self {
            Kind::Linear => "linear",
            Kind::Mutex => "mutex",
            Kind::SpinLock => "spin_lock",
            Kind::None => "none",
        })
    }
}

/// What is done on a pool of a kind.
#[derive(Clone, Copy)]
pub struct Plan {
    pub kind: Kind,
    /// Whether a reset clears what was written.
    pub clears: bool,
    /// Whether items that own the pool may be forgotten too.
    pub forgets_owned: bool,
    pub seed: u64,
    pub calls: u64,
}

/// A call. Items that are held are named by their places in a list, to which each that comes is added last; where one goes,
/// the last takes its place.
#[derive(Clone, Copy, Debug, PartialEq, Eq)]
pub enum Call {
    Pull,
    PullOwned,
    Attach(u64),
    AttachOwned(u64),
    Write { place: usize, content: u64 },
    Drop(usize),
    Forget(usize),
}

/// The line that asks for the call.
impl fmt::Display for Call {
    fn fmt(&self, f: &mut fmt::Formatter) -> fmt::Result {
        match self {
            Call::Pull => write!(f, "pull"),
            Call::PullOwned => write!(f, "pull_owned"),
            Call::Attach(number) => write!(f, "attach {number}"),
            Call::AttachOwned(number) => write!(f, "attach_owned {number}"),
            Call::Write { place, content } => write!(f, "write {place} {content}"),
            Call::Drop(place) => write!(f, "drop {place}"),
            Call::Forget(place) => write!(f, "forget {place}"),
        }
    }
}

/// Who has the pool while an item is held.
#[derive(Clone, Copy, PartialEq, Eq)]
enum Holder {
    Borrower,
    Owner,
}

/// The calls of a plan.
pub struct Calls {
    plan: Plan,
    random: Random,
    done: u64,
    sought: u64,
    attached: u64,
    held: Vec<Holder>,
    forgotten: Forgotten,
}

/// How many items were forgotten.
#[derive(Clone, Copy, Default)]
pub struct Forgotten {
    pub borrowed: u64,
    /// A pool with such an owner never ends.
    pub owned: u64,
}

impl Calls {
    pub fn new(plan: Plan) -> Calls {
        Calls {
            plan,
            random: Random(plan.seed),
            done: 0,
            sought: 0,
            attached: 0,
            held: Vec::new(),
            forgotten: Forgotten::default(),
        }
    }

    /// What was forgotten by the calls until now.
    pub fn forgotten(&self) -> Forgotten {
        self.forgotten
    }

    /// Whether as many items are held as are sought.
    fn has_enough(&self) -> bool {
        self.held.len() as u64 >= self.sought
    }

    /// An item that comes.
    fn coming(&mut self) -> Call {
        let holder = match self.random.below(2) {
            0 => Holder::Borrower,
            _ => Holder::Owner,
        };
        self.held.push(holder);
        let attaches = self.plan.kind != Kind::Linear && self.random.below(ATTACHES) == 0;
        if attaches {
            self.attached += 1;
        }
        let number = FIRST_ATTACHED + self.attached;
        match (attaches, holder) {
            (false, Holder::Borrower) => Call::Pull,
            (false, Holder::Owner) => Call::PullOwned,
            (true, Holder::Borrower) => Call::Attach(number),
            (true, Holder::Owner) => Call::AttachOwned(number),
        }
    }

    /// What is done with a held item: where more are held than are sought, most are dropped, else most are written to.
    fn with_held(&mut self) -> Call {
        let place = self.random.below(self.held.len() as u64) as usize;
        let forgettable = self.plan.forgets_owned || self.held[place] == Holder::Borrower;
        if forgettable && self.random.below(FORGETS) == 0 {
            match self.held.swap_remove(place) {
                Holder::Borrower => self.forgotten.borrowed += 1,
                Holder::Owner => self.forgotten.owned += 1,
            }
            return Call::Forget(place);
        }
        let drops_of_four = if self.has_enough() { 3 } else { 1 };
        if self.random.below(4) < drops_of_four {
            self.held.swap_remove(place);
            return Call::Drop(place);
        }
        let content = self.random.next();
        Call::Write { place, content }
    }
}

impl Iterator for Calls {
    type Item = Call;

    fn next(&mut self) -> Option<Call> {
        if self.done == self.plan.calls {
            return None;
        }
        if self.done % PHASE == 0 {
            self.sought = self.random.below(MOST_SOUGHT + 1);
        }
        self.done += 1;
        let comings_of_four = if self.has_enough() { 1 } else { 2 };
        if self.held.is_empty() || self.random.below(4) < comings_of_four {
            Some(self.coming())
        } else {
            Some(self.with_held())
        }
    }
}

/// The generator SplitMix64.
struct Random(u64);

impl Random {
    fn next(&mut self) -> u64 {
        self.0 = self.0.wrapping_add(0x9e37_79b9_7f4a_7c15);
        let mixed = (self.0 ^ (self.0 >> 30)).wrapping_mul(0xbf58_476d_1ce4_e5b9);
        let mixed = (mixed ^ (mixed >> 27)).wrapping_mul(0x94d0_49bb_1331_11eb);
        mixed ^ (mixed >> 31)
    }

    fn below(&mut self, bound: u64) -> u64 {
        self.next() % bound
    }
}
