//! Match data of a `Regex`, in a pool of kundratu-pool. It is used on as it is left.
use crate::ffi::{Code, MatchConfig, MatchData};
use kundratu_pool::{LinearObjectPool, LinearReusable};
use std::cell::RefCell;
use std::panic::{RefUnwindSafe, UnwindSafe};
use std::sync::{Arc, OnceLock};

pub type Pulled<'r> = LinearReusable<'r, RefCell<MatchData>>;

#[derive(Default)]
pub struct Pool(OnceLock<LinearObjectPool<RefCell<MatchData>>>);

impl UnwindSafe for Pool {}
impl RefUnwindSafe for Pool {}

impl Pool {
    /// Pulls match data for this code.
    #[inline(always)]
    pub fn get(&self, config: &MatchConfig, code: &Arc<Code>) -> Pulled<'_> {
        let new_pool = || {
            let (config, code) = (config.clone(), Arc::clone(code));
            let init = move || RefCell::new(MatchData::new(config.clone(), &code));
            LinearObjectPool::new(init, |_| ())
        };
        self.0.get_or_init(new_pool).pull()
    }
}
