//! The environment: the clock, the storage and the end of a call.

use std::any::Any;
use std::cell::{Cell, RefCell};
use std::panic::{catch_unwind, panic_any, resume_unwind, AssertUnwindSafe, Location};
use std::rc::Rc;
use std::sync::Once;

use crate::address::set_signer;
use crate::storage::{Storage, Store};
use crate::{Address, BytesN};

#[derive(Clone)]
pub struct Env(Rc<Host>);

struct Host {
    time: Cell<u64>,
    store: RefCell<Store>,
    ranges: bool,
}

/// Whose refusal it is: the contract's own code, another contract's or the host's (no code of the
/// contract), or a rule of the port.
#[derive(Clone, Copy, Debug, PartialEq, Eq, Hash, PartialOrd, Ord)]
pub enum By {
    Contract,
    Other,
    Port,
}

/// A refusal with its number in document 01 and the line of the original's text that it left
/// from, or 0.
#[derive(Clone, Copy, Debug, PartialEq, Eq)]
pub struct Refusal {
    pub by: By,
    pub number: u32,
    pub line: u32,
}

/// How a call ended that was not accepted.
#[derive(Clone, Debug, PartialEq, Eq)]
pub enum Stop {
    Refused(Refusal),
    /// A bare `assert!` or `panic!`: its message and its line in the original's text, or 0 where
    /// it left from anywhere else.
    Panicked(std::string::String, u32),
}

pub type Outcome<T> = Result<T, Stop>;

thread_local! {
    // While a call runs, the line of its panic or 0; outside a call, nothing.
    static PANICKED_AT: Cell<Option<u32>> = const { Cell::new(None) };
}

static HOOK: Once = Once::new();

/// Inside a call a panic is an answer: its line is noted and nothing is printed.
fn note_panics() {
    HOOK.call_once(|| {
        let usual = std::panic::take_hook();
        std::panic::set_hook(Box::new(move |info| {
            if PANICKED_AT.get().is_some() {
                PANICKED_AT.set(Some(info.location().map_or(0, line_of)));
            } else {
                usual(info);
            }
        }));
    });
}

fn line_of(location: &Location) -> u32 {
    if location.file().ends_with("/financing.rs") {
        location.line()
    } else {
        0
    }
}

#[track_caller]
pub(crate) fn refuse(by: By, number: u32) -> ! {
    let line = line_of(Location::caller());
    resume_unwind(Box::new(Refusal { by, number, line }))
}

fn stop_of(payload: Box<dyn Any + Send>) -> Stop {
    let line = PANICKED_AT.get().unwrap_or(0);
    if let Some(refusal) = payload.downcast_ref::<Refusal>() {
        Stop::Refused(*refusal)
    } else if let Some(text) = payload.downcast_ref::<&str>() {
        Stop::Panicked(text.to_string(), line)
    } else if let Some(text) = payload.downcast_ref::<std::string::String>() {
        Stop::Panicked(text.clone(), line)
    } else {
        panic_any(payload)
    }
}

impl Env {
    /// An environment with nothing stored, that holds stored values to the port's ranges.
    pub fn fresh() -> Env {
        Env::with_ranges(true)
    }

    pub fn with_ranges(ranges: bool) -> Env {
        note_panics();
        let (time, store) = (Cell::new(0), RefCell::default());
        Env(Rc::new(Host { time, store, ranges }))
    }

    pub fn set_time(&self, now: u64) {
        self.0.time.set(now);
    }

    /// Runs one call signed by `signer`. Whatever ends it but `Ok` puts the storage back.
    pub fn transaction<T>(
        &self,
        signer: Option<Address>,
        call: impl FnOnce() -> Outcome<T>,
    ) -> Outcome<T> {
        set_signer(signer);
        PANICKED_AT.set(Some(0));
        let ended = catch_unwind(AssertUnwindSafe(call)).unwrap_or_else(|p| Err(stop_of(p)));
        PANICKED_AT.set(None);
        set_signer(None);
        let mut store = self.0.store.borrow_mut();
        match ended {
            Ok(_) => store.keep(),
            Err(_) => store.put_back(),
        }
        ended
    }

    pub(crate) fn store(&self) -> &RefCell<Store> {
        &self.0.store
    }

    pub(crate) fn keeps_ranges(&self) -> bool {
        self.0.ranges
    }

    pub fn storage(&self) -> Storage<'_> {
        Storage { env: self }
    }

    pub fn ledger(&self) -> Ledger<'_> {
        Ledger(self)
    }

    pub fn events(&self) -> Events {
        Events
    }

    pub fn deployer(&self) -> Deployer {
        Deployer
    }

    pub fn current_contract_address(&self) -> Address {
        Address::FINANCING
    }

    #[track_caller]
    pub fn panic_with_error(&self, error: impl Into<u32>) -> ! {
        refuse(By::Contract, error.into())
    }
}

impl Env {
    /// How another contract's stand-in refuses.
    #[track_caller]
    pub fn refused_by_other(&self, number: impl Into<u32>) -> ! {
        refuse(By::Other, number.into())
    }
}

pub struct Ledger<'a>(&'a Env);

impl Ledger<'_> {
    pub fn timestamp(&self) -> u64 {
        self.0 .0.time.get()
    }
}

/// Events are left behind: publishing does nothing.
pub struct Events;

impl Events {
    pub fn publish<T, D>(&self, _topics: T, _data: D) {}
}

/// Upgrades are left behind: replacing the code does nothing.
pub struct Deployer;

impl Deployer {
    pub fn update_current_contract_wasm(&self, _hash: BytesN<32>) {}
}

#[cfg(test)]
mod test {
    use super::*;
    use crate::symbol_short;

    const KEY: crate::Symbol = symbol_short!("figure");

    fn figure(env: &Env) -> Option<u64> {
        env.storage().instance().get(&KEY)
    }

    fn set_figure(env: &Env, figure: u64) -> Outcome<()> {
        env.storage().instance().set(&KEY, &figure);
        Ok(())
    }

    #[test]
    fn a_refusal_puts_the_storage_back() {
        let env = Env::fresh();
        let kept = env.transaction(None, || set_figure(&env, 1));
        assert_eq!((kept, figure(&env)), (Ok(()), Some(1)));
        let refused: Outcome<()> = env.transaction(None, || {
            set_figure(&env, 2)?;
            set_figure(&env, 3)?;
            env.panic_with_error(7u32)
        });
        let Err(Stop::Refused(refusal)) = refused else { panic!("accepted") };
        assert_eq!((refusal.by, refusal.number, figure(&env)), (By::Contract, 7, Some(1)));
    }

    #[test]
    fn an_assert_ends_the_call_with_its_message() {
        let env = Env::fresh();
        let ended: Outcome<()> = env.transaction(None, || {
            set_figure(&env, 2)?;
            assert!(figure(&env).is_none(), "a figure stands");
            Ok(())
        });
        let Err(Stop::Panicked(text, line)) = ended else { panic!("accepted") };
        assert_eq!((text.as_str(), line, figure(&env)), ("a figure stands", 0, None));
    }

    #[test]
    fn only_the_signer_is_authorised() {
        let env = Env::fresh();
        let (one, two) = (Address::account(1), Address::account(2));
        let signed_by_one = |by: Address| {
            env.transaction(Some(one), || {
                by.require_auth();
                Ok(())
            })
        };
        assert_eq!(signed_by_one(one), Ok(()));
        let Err(Stop::Refused(refusal)) = signed_by_one(two) else { panic!("accepted") };
        assert_eq!((refusal.by, refusal.number), (By::Other, 6));
    }
}
