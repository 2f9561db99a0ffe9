//! Calls and answers as octets, the way `calls.c` takes and gives them.

use crate::call::{Call, Left, Said, Seen, SAID_OCTETS};
use crate::value::{take, Given, Value};

pub fn put_call(batch: &mut Vec<u8>, call: &Call, empty_is_null: bool) {
    batch.push(call.which as u8);
    empty_is_null.put(batch);
    for (_, given) in call.given() {
        given.put(batch);
    }
}

/// What a batch of answers says; nothing if it does not fit the calls.
pub fn seen(calls: &[Call], mut batch: &[u8]) -> Option<Vec<Seen>> {
    let all: Option<Vec<Seen>> = calls.iter().map(|call| answer(call, &mut batch)).collect();
    all.filter(|_| batch.is_empty())
}

fn answer(call: &Call, batch: &mut &[u8]) -> Option<Seen> {
    let faults = u8::get(batch)?;
    let mut said = take(batch, SAID_OCTETS)?;
    Some(Seen {
        said: Said::get(call.which, &mut said)?,
        left: Left::get(call, batch)?,
        faults,
    })
}
