//! Outputs and lists whose size a call gives where there is too little room.

use crate::error::make_room;
use crate::ffi::{ListReply, SizeReply};
use crate::{Error, Refusal};

/// The number of an output that is too short; the reply has the size then.
const SHORT_ROOM: u8 = 16;

/// The number of a list that is too short; the reply has the count then.
const SHORT_LIST: u8 = 13;

/// The size that a call's output has.
pub(crate) fn size_of(call: impl Fn(&mut Vec<u8>) -> SizeReply) -> Result<usize, Refusal> {
    let reply = call(&mut Vec::new());
    if reply.number != SHORT_ROOM {
        check(reply)?;
    }
    Ok(reply.size)
}

/// Replaces the contents of a vector by a call's output. It gets room where it has too little, and stays as it is where
/// the call refuses.
pub(crate) fn fill(output: &mut Vec<u8>, call: impl Fn(&mut Vec<u8>) -> SizeReply) -> Result<(), Error> {
    let mut reply = call(output);
    if reply.number == SHORT_ROOM {
        make_room(output, reply.size)?;
        reply = call(output);
    }
    Ok(check(reply)?)
}

/// The same into a new vector.
pub(crate) fn filled(call: impl Fn(&mut Vec<u8>) -> SizeReply) -> Result<Vec<u8>, Error> {
    let mut output = Vec::new();
    fill(&mut output, call)?;
    Ok(output)
}

/// What a reply refuses.
pub(crate) fn check(reply: SizeReply) -> Result<(), Refusal> {
    Refusal::check(reply.number, reply.refused_at, reply.unknown_type)
}

/// How many records a call lists.
pub(crate) fn count_of<T>(call: impl Fn(&mut Vec<T>) -> ListReply) -> Result<usize, Refusal> {
    let reply = call(&mut Vec::new());
    if reply.number != SHORT_LIST {
        check_list(reply)?;
    }
    Ok(reply.count)
}

/// The records that a call lists, in a vector of just their count.
pub(crate) fn listed<T>(call: impl Fn(&mut Vec<T>) -> ListReply) -> Result<Vec<T>, Error> {
    let mut list = Vec::new();
    make_room(&mut list, count_of(&call)?)?;
    check_list(call(&mut list))?;
    Ok(list)
}

fn check_list(reply: ListReply) -> Result<(), Refusal> {
    Refusal::check(reply.number, reply.refused_at, reply.unknown_type)
}
