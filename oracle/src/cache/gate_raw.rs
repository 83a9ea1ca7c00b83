// SPDX-License-Identifier: Apache-2.0
//! The original's gate with public functions: two counts, a mark and a generation, which stand in `CacheControl` and `Budget`. Each turn below runs
//! the original; document 02's own rules stand in front of these calls, in gate_calls.rs.

use core::mem::forget;
use core::sync::atomic::Ordering;

use super::super::{CacheError, DirtyPage, FileDataCache, FilePage};
use super::{CacheKey, stopped};

/// All 0 and unmarked at first.
#[derive(Clone, Copy, Debug, Default, Eq, PartialEq)]
pub struct Gate {
    pub pauses: u64,
    pub dirty: u64,
    pub pending: bool,
    pub generation: u64,
}

#[derive(Clone, Copy, Debug, Eq, PartialEq)]
pub enum Did {
    Done,
    /// `write_page` gives no page.
    Declined,
    Stopped,
}

/// What a turn of the original did, and the gate that it left, after a stop too.
#[derive(Clone, Copy, Debug, Eq, PartialEq)]
pub struct Turned {
    pub did: Did,
    pub gate: Gate,
}

/// A page without bytes, for the original's `write_page`.
type Written = FilePage<()>;

impl Gate {
    /// The gate of a cache.
    pub(super) fn of<Page>(cache: &FileDataCache<Page>) -> Self {
        let dirty = cache.budget.dirty.load(Ordering::Acquire) as u64;
        cache.state.with(|control| {
            assert!(!control.maintenance_running, "one step, so that no call meets another's maintenance");
            Self { pauses: control.admission_pauses as u64, dirty, pending: control.maintenance_pending, generation: control.generation }
        })
    }

    pub(super) fn set<Page>(self, cache: &FileDataCache<Page>) {
        cache.budget.dirty.store(self.dirty as usize, Ordering::Release);
        cache.state.with(|control| {
            control.admission_pauses = self.pauses as usize;
            control.maintenance_pending = self.pending;
            control.generation = self.generation;
        });
    }

    /// The original `pause_admission`, whose pause is not ended.
    pub fn begin_pause(self) -> Turned {
        let cache = one_slot();
        self.set(&cache);
        let did = stopped(|| forget(cache.pause_admission()));
        Turned::of(&cache, did.map(|()| Did::Done))
    }

    /// The drop of an `AdmissionPause`, which was begun at an open gate.
    pub fn end_pause(self) -> Turned {
        let cache = one_slot();
        let pause = cache.pause_admission();
        self.set(&cache);
        let did = stopped(|| drop(pause));
        Turned::of(&cache, did.map(|()| Did::Done))
    }

    /// The original `write_page` of a key that is absent, up to where its page is published. The count is looked at while the page is filled.
    pub fn begin_dirty(self) -> Turned {
        let cache = one_slot();
        self.set(&cache);
        let mut filling = None;
        let page = stopped(|| write(&cache, || filling = Some(Gate::of(&cache))));
        let did = page.as_ref().map(|page| if page.is_some() { Did::Done } else { Did::Declined });
        let turned = Turned::of(&cache, did);
        assert_eq!(filling.is_some(), turned.did == Did::Done, "a page is filled where one is given");
        assert!(filling.is_none_or(|gate| gate == turned.gate), "nothing but the count's raising turns the gate");
        // So that the page's own end does not stop where the count has wrapped to 0.
        Gate { dirty: 1, ..Gate::default() }.set(&cache);
        drop(page);
        turned
    }

    /// The drop of a `DirtyAdmission`, which was begun at an open gate.
    pub fn end_dirty(self) -> Turned {
        let cache = one_slot();
        let DirtyPage { page, _admission } = write(&cache, || ()).expect("an open gate");
        self.set(&cache);
        let did = stopped(|| drop(_admission));
        drop(page);
        Turned::of(&cache, did.map(|()| Did::Done))
    }
}

impl Turned {
    fn of<Page>(cache: &FileDataCache<Page>, did: Option<Did>) -> Self {
        Self { did: did.unwrap_or(Did::Stopped), gate: Gate::of(cache) }
    }
}

/// A cache with an empty table of one slot: a turn looks at the gate alone.
fn one_slot() -> FileDataCache<Written> {
    FileDataCache::try_new(1).expect("a table of one slot")
}

fn write(cache: &FileDataCache<Written>, filling: impl FnOnce()) -> Option<DirtyPage<Written>> {
    let fill = |_: Option<&Written>, _: &mut Written| {
        filling();
        Ok::<(), CacheError>(())
    };
    cache.write_page(CacheKey::default(), 0, &(), fill).expect("room for one page")
}
