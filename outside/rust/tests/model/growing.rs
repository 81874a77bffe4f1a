//! What a thread of a pool that grows keeps. So it is known when an item is made.

/// How many items a thread keeps at most.
const KEPT: usize = 8;
/// After so many pulls of what others returned, with no return between but of what it keeps, a
/// thread pulls ahead. After so many such returns it returns all that it keeps but one.
const OFTEN: usize = 1_024;

#[derive(Default)]
pub struct Kept {
    /// The items that it keeps, the last one last.
    items: Vec<usize>,
    pulls: usize,
    returns: usize,
    /// Whether it may have pulled ahead. From then on it isn't known what it keeps.
    is_unknown: bool,
}

impl Kept {
    /// How many it keeps at least.
    pub fn least(&self) -> usize {
        if self.is_unknown {
            0
        } else {
            self.items.len()
        }
    }

    /// How many it keeps at most.
    pub fn most(&self) -> usize {
        if self.is_unknown {
            KEPT
        } else {
            self.items.len()
        }
    }

    /// Follows a pull that makes no item. Returns which item it has to be, if that is known.
    pub fn pull(&mut self) -> Option<usize> {
        let kept = self.items.pop();
        if kept.is_none() {
            self.is_unknown |= self.pulls >= OFTEN;
            self.pulls += 1;
            self.returns = 0;
        }
        kept
    }

    /// Follows a return.
    pub fn give_back(&mut self, item: usize) {
        if self.is_unknown {
            return;
        }
        if self.items.len() < KEPT {
            self.items.push(item);
            return;
        }
        self.returns += 1;
        self.pulls = 0;
        if self.returns >= OFTEN {
            self.items.drain(..KEPT - 1);
        }
    }
}
