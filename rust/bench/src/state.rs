//! A book in three forms: bytes for the public call, an owned book for the inner one, and the reference's.

use energy_book::{raw, Book as Owned, Verdict as Outcome};
use reference::days::Step;
use reference::{Book, Setup, Verdict};
use std::hint::black_box;

#[derive(Clone)]
pub struct State {
    pub setup: Vec<u8>,
    pub public: Vec<u8>,
    pub owned: Owned,
    pub theirs: Book,
    pub results: Vec<u8>,
    pub balances: Vec<u8>,
}

impl State {
    /// A book after these calls, each of which is accepted.
    pub fn after(setup: &Setup, calls: &[Step]) -> Self {
        let setup = setup.to_bytes();
        let owned = Owned::open(&setup).expect("a good set-up");
        let mut state = Self {
            public: owned.as_bytes().to_vec(),
            owned,
            theirs: Book::open(&setup).expect("a good set-up"),
            setup,
            results: vec![0; 256],
            balances: vec![0; 128],
        };
        for call in calls {
            assert!(state.both(call).is_accepted());
        }
        state
    }

    /// A call on all three, which agree.
    pub fn both(&mut self, call: &Step) -> Verdict {
        let theirs = self.call_checked(call).expect("a book");
        let public = self.call_public(call);
        let inner = self.call_inner(call);
        assert_eq!(public, inner);
        assert_eq!(public.numbers(), (theirs.number, theirs.first, theirs.second));
        assert_eq!(self.public[..], self.owned.as_bytes()[..]);
        theirs
    }

    pub fn call_public(&mut self, call: &Step) -> Outcome {
        raw::call(&call.record, &mut self.public, &call.prices, &mut self.results, &mut self.balances)
    }

    pub fn call_inner(&mut self, call: &Step) -> Outcome {
        self.owned.call(&call.record, &call.prices, &mut self.results, &mut self.balances)
    }

    pub fn call_theirs(&mut self, call: &Step) -> Verdict {
        self.theirs.call(&call.record, &call.prices, &mut self.results, &mut self.balances)
    }

    /// The reference's book, if what it holds is one.
    pub fn checked(&self) -> Option<&Book> {
        black_box(&self.theirs).stands().then_some(&self.theirs)
    }

    /// The call by the reference, if what it holds is a book.
    pub fn call_checked(&mut self, call: &Step) -> Option<Verdict> {
        self.checked()?;
        Some(self.call_theirs(call))
    }
}
