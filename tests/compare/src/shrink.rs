//! Makes a call at which one side differs as small as it goes: fewer octets first,
//! then fewer bits set.

use crate::call::Call;
use crate::side::Side;
use crate::value::{runs, Way};
use crate::{records, rows};
use second::Fields;
use std::time::{Duration, Instant};

/// No difference is worth more time than this.
const PATIENCE: Duration = Duration::from_secs(10);

/// Hands simpler calls to `take` until one is taken; tells whether one was.
type Pass = fn(&Call, take: &mut dyn FnMut(Call) -> bool) -> bool;

const PASSES: [Pass; 7] = [
    fewer_sessions,
    fewer_tlvs,
    |call, take| call.simpler(Way::Shorter, take),
    plainer_record,
    plainer_sessions,
    usual_limits,
    |call, take| call.simpler(Way::Plainer, take),
];

/// The smallest call found at which this side still differs.
pub fn shrink(mut call: Call, side: &mut Side) -> Call {
    let deadline = Instant::now() + PATIENCE;
    loop {
        let before = size(&call);
        for pass in PASSES {
            while let Some(smaller) = smaller(&call, pass, deadline, side) {
                call = smaller;
            }
        }
        if size(&call) == before {
            return call;
        }
    }
}

/// A smaller call that still differs, if this pass has one.
fn smaller(call: &Call, pass: Pass, deadline: Instant, side: &mut Side) -> Option<Call> {
    let limit = size(call);
    let mut found = None;
    pass(call, &mut |candidate| {
        if size(&candidate) < limit && candidate.differs(side) {
            found = Some(candidate);
        }
        found.is_some() || Instant::now() > deadline
    });
    found
}

/// How large a call is: octets, then set bits.
fn size(call: &Call) -> (usize, u32) {
    let bits = call.given().iter().map(|(_, given)| given.bits()).sum();
    (call.octets(), bits)
}

fn with_area(call: &Call, area: Vec<u8>) -> Call {
    Call {
        area,
        ..call.clone()
    }
}

/// Whole TLVs away, and single elements of TAC and SAC with their lengths put
/// right.
fn fewer_tlvs(call: &Call, take: &mut dyn FnMut(Call) -> bool) -> bool {
    let area = &call.area;
    let mut start = 0;
    while start + 4 <= area.len() {
        let length = usize::from(u16::from_be_bytes([area[start + 2], area[start + 3]]));
        let end = start + 4 + length;
        if end > area.len() {
            break;
        }
        let mut fewer = area.to_vec();
        fewer.drain(start..end);
        if take(with_area(call, fewer)) {
            return true;
        }
        // The value as a whole, then elements of 4 octets, then of 1.
        for (width, first) in [(length, start + 4), (4, start + 5), (1, start + 4)] {
            let mut from = first;
            while width > 0 && from + width <= end {
                let left = (length - width) as u16;
                let mut fewer = area.to_vec();
                fewer[start + 2..start + 4].copy_from_slice(&left.to_be_bytes());
                fewer.drain(from..from + width);
                if take(with_area(call, fewer)) {
                    return true;
                }
                from += width;
            }
        }
        start = end;
    }
    false
}

/// Sessions out of the row, so that the one with the number stays the same; if
/// need be with limits that are lower by as many as used each application.
fn fewer_sessions(call: &Call, take: &mut dyn FnMut(Call) -> bool) -> bool {
    runs(call.row.len(), &mut |from, to| {
        let mut other = call.clone();
        let left_out: Vec<Fields> = other.row.drain(from..to).collect();
        if other.at >= to as u64 {
            other.at -= left_out.len() as u64;
        }
        take(other.clone()) || {
            for (limit, users) in other.limits.of.iter_mut().zip(rows::counts(&left_out)) {
                *limit = limit.saturating_sub(users);
            }
            take(other)
        }
    })
}

/// Records with fields that go together.
fn plainer_record(call: &Call, take: &mut dyn FnMut(Call) -> bool) -> bool {
    plainer_stored(&call.record, &mut |record| {
        take(Call {
            record,
            ..call.clone()
        })
    }) || plainer_stored(&call.kind2, &mut |kind2| {
        take(Call {
            kind2,
            ..call.clone()
        })
    }) || plainer_stored(&records::to_kind2(&call.kind1), &mut |record| {
        take(Call {
            kind1: records::to_kind1(&record),
            ..call.clone()
        })
    })
}

/// The record with plainer fields, the rest of it as it is.
fn plainer_stored(record: &[u8], take: &mut dyn FnMut(Vec<u8>) -> bool) -> bool {
    if record.len() != records::LENGTH {
        return false;
    }
    plainer_fields(&records::fields(record), &mut |session| {
        let mut plainer = records::stored(&session);
        for at in [0, 1, 2, 3, 13] {
            plainer[at] = record[at];
        }
        take(plainer)
    })
}

/// Sessions that say nothing, or less of what goes together.
fn plainer_sessions(call: &Call, take: &mut dyn FnMut(Call) -> bool) -> bool {
    let less = |session: &Fields, take: &mut dyn FnMut(Fields) -> bool| {
        take(Fields::default()) || plainer_fields(session, take)
    };
    less(&call.session, &mut |session| {
        take(Call {
            session,
            ..call.clone()
        })
    }) || less(&call.one, &mut |one| {
        take(Call {
            one,
            ..call.clone()
        })
    }) || (0..call.row.len()).any(|at| {
        less(&call.row[at], &mut |session| {
            let mut other = call.clone();
            other.row[at] = session;
            take(other)
        })
    })
}

fn usual_limits(call: &Call, take: &mut dyn FnMut(Call) -> bool) -> bool {
    take(Call {
        limits: second::no_limits(),
        ..call.clone()
    })
}

/// Fields that go together: no Hello; not in force; nothing that only Open may
/// have; an application off both lists; a capability of neither end.
fn plainer_fields(session: &Fields, take: &mut dyn FnMut(Fields) -> bool) -> bool {
    let out_of_force = Fields {
        flags: session.flags & !records::IN_FORCE,
        listed: 0,
        ..*session
    };
    take(Fields {
        flags: session.flags & !records::HELLO,
        hello: 0,
        ..*session
    }) || take(out_of_force)
        || take(Fields {
            state: records::READY,
            flags: out_of_force.flags & !records::DYNAMIC,
            disabled: 0,
            theirs: 0,
            ..out_of_force
        })
        || (0..16).any(|bit| {
            take(Fields {
                enabled: session.enabled & !(1 << bit),
                listed: session.listed & !(1 << bit),
                ..*session
            })
        })
        || (0..8).any(|bit| {
            take(Fields {
                ours: session.ours & !(1 << bit),
                theirs: session.theirs & !(1 << bit),
                ..*session
            })
        })
}
