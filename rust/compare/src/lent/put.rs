//! What a call that writes has to answer and to leave behind.

use std::fmt::{self, Debug};

use crate::lent::answer::{Answer, Reply};
use crate::tally::Tally;

/// The answer, the buffer after it, and what is read back where something was put.
pub struct Due<B> {
    pub answer: Answer,
    pub after: Vec<u8>,
    back: Option<B>,
}

impl<B> Due<B> {
    pub fn done(answer: Answer, after: Vec<u8>, back: B) -> Due<B> {
        Due {
            answer,
            after,
            back: Some(back),
        }
    }

    /// An answer that leaves the buffer as it was.
    pub fn unchanged(answer: Answer, before: &[u8]) -> Due<B> {
        Due {
            answer,
            after: before.to_vec(),
            back: None,
        }
    }
}

#[derive(PartialEq)]
struct Outcome<B> {
    reply: Reply,
    after: Vec<u8>,
    back: Option<B>,
}

impl<B: Debug> fmt::Display for Outcome<B> {
    fn fmt(&self, f: &mut fmt::Formatter) -> fmt::Result {
        let Outcome { reply, after, back } = self;
        write!(f, "{reply}, buffer {after:02x?}, read back {back:x?}")
    }
}

/// Makes one call on a copy of `before` and counts it as an input.
pub fn check<B: Debug + PartialEq, I: Debug>(
    tally: &mut Tally,
    due: Due<B>,
    before: &[u8],
    call: impl FnOnce(&mut [u8], &mut [u64]) -> i64,
    read_back: impl FnOnce(&[u8]) -> Option<B>,
    input: impl FnOnce() -> I,
) {
    let mut out = before.to_vec();
    let (ours, reply) = tally.ask(&due.answer, |words| call(&mut out, words));
    let ours = Outcome {
        reply: ours,
        back: due.back.as_ref().and_then(|_| read_back(&out)),
        after: out,
    };
    let due = Outcome {
        reply,
        after: due.after,
        back: due.back,
    };
    tally.check(ours, due, input);
}
