//! Makes the calls that crates/cases replays over the library. They, and the
//! lines that are expected, are made anew by
//!
//!     cd tests/second
//!     cargo run --offline --bin make_cases > ../../crates/cases/stdin
//!     cargo run --offline --bin cases < ../../crates/cases/stdin > ../../crates/cases/stdout
//!
//! # The calls
//!
//! One record lives through the whole input, all its 24 octets 0 at first. A
//! call is one octet with its number, and then its arguments; in parentheses
//! the octets of each, numbers least significant octet first.
//!
//! |  n | call            | arguments                                          |
//! |----|-----------------|----------------------------------------------------|
//! |  1 | create          | roles (1), protected kinds (4), enabled (4), first |
//! |    |                 | message number (4), wishes (4), capabilities (4)   |
//! |  2 | initialization  | length of the area (2), the area                   |
//! |  3 | capability      | length of the area (2), the area                   |
//! |  4 | local change    | TA-Id (4), on or 0 (1), length of the room (1)     |
//! |  5 | mismatch        |                                                    |
//! |  6 | hello           | number (4)                                         |
//! |  7 | closed          |                                                    |
//! |  8 | permitted       | kind (4)                                           |
//! |  9 | permitted kinds |                                                    |
//! | 10 | retry interval  |                                                    |
//! | 11 | sound           |                                                    |
//! | 12 | read            | length of the area (2), the area                   |
//! | 13 | set the record  | what takes its place (24), sound or not            |
//! | 14 | no limits       |                                                    |
//! | 15 | set a limit     | limits (13), TA-Id (4), limit (4)                  |
//! | 16 | load            |                                                    |
//! | 17 | store           | a session, length of the room (1)                  |
//! | 18 | wish            | wishes (4), App (4), disable or 0 (1), length of   |
//! |    |                 | the room (1)                                       |
//! | 19 | SAC of wishes   | wishes (4), length of the room (1)                 |
//! | 20 | wanted          | wishes (4), kind (4)                               |
//! | 21 | total of a kind | totals (10), kind (4)                              |
//! | 22 | forward         | length of a record of kind 1 (2), the record       |
//! | 23 | back            | length of the room (1)                             |
//!
//! Roles from bit 0: initiating, active, uses TAC, drops; the other bits are not
//! read. Limits are an octet for each application, from TA-Id 1 on; totals are one
//! for each kind, from kind 0 on. A session is its fields: state (1), flags (1),
//! disabled (1), enabled (2), listed (2), protected kinds (2), our capabilities (1), the
//! peer's (1), Hello number (4), next message number (4). A room has as many octets as
//! asked for, but never more than 40, and each is 0xEE before the call. `load` and `back`
//! read the record, `store` leaves it alone, and `forward` has it for its room. The wishes
//! and the totals of a call are those that it is given: none are kept from one call to the
//! next. The run ends at the end of the input, at a call whose arguments are cut short, and
//! at any other number. What lies beyond 32,768 octets is not read.
//!
//! # The lines
//!
//! One for each call: words with one space between, and a line feed. A number is
//! lower-case hexadecimal without leading zeros. Octets are one word, two
//! lower-case hexadecimal digits for each, or `-` if there are none. The first
//! word is the call's number; then come
//!
//! |   n | words                                                              |
//! |-----|--------------------------------------------------------------------|
//! |   1 | refusal, record                                                    |
//! | 2-7 | refusal, outcome, lost, gained, written, record; for 4 also room   |
//! |   8 | refusal, permitted                                                 |
//! |   9 | refusal, kinds                                                     |
//! |  10 | refusal, interval                                                  |
//! |  11 | 0 or 1                                                             |
//! |  12 | refusal, dynamic, capabilities, holding, start and length of TAC,  |
//! |     | start and length of SAC                                            |
//! |  13 | record                                                             |
//! |  14 | limits                                                             |
//! |  15 | refusal, limits                                                    |
//! |  16 | refusal, the ten fields of the session                             |
//! |  17 | refusal, room                                                      |
//! |  18 | refusal, outcome, lost, gained, written, wishes, record, room      |
//! |  19 | refusal, written, room                                             |
//! |  20 | refusal, wanted                                                    |
//! |  21 | refusal, total                                                     |
//! |  22 | refusal, lost, record                                              |
//! |  23 | refusal, room                                                      |

use std::io::{self, Write};

const INITIATING: u8 = 1;
const ACTIVE: u8 = 2;
const USES_TAC: u8 = 4;
const DROPS: u8 = 8;

/// Roles with which a mismatch leads to Held.
const HOLDS: u8 = INITIATING | ACTIVE | USES_TAC;

/// Just enough room, for a local change and for a wish.
const ROOM: u8 = 17;
const WISH_ROOM: u8 = 14;

/// The room for a record of kind 1.
const KIND1_ROOM: u8 = 22;

/// TAC with 4 and 7, a dynamic peer.
const BOTH_DYNAMIC: &str = "850F0009 80 00048000 00078000 85060001 80";

/// All three capabilities.
const ALL_HELD: &str = "85080001 80 85090001 80 89020001 80";

/// Octets that are read.
const MOST: usize = 32_768;

/// Octets from hexadecimal; blanks do not matter.
fn hex(text: &str) -> Vec<u8> {
    let digits: Vec<u8> = text
        .chars()
        .filter(|digit| !digit.is_whitespace())
        .map(|digit| digit.to_digit(16).expect("a hexadecimal digit") as u8)
        .collect();
    assert!(digits.len().is_multiple_of(2), "half an octet in {text}");
    digits
        .chunks(2)
        .map(|pair| pair[0] << 4 | pair[1])
        .collect()
}

/// The set of these applications, TA-Id n at bit n-1.
fn applications(ta_ids: &[u32]) -> u32 {
    ta_ids.iter().map(|ta_id| 1 << (ta_id - 1)).sum()
}

/// The calls so far, as octets.
struct Calls(Vec<u8>);

impl Calls {
    fn octets(&mut self, octets: &[u8]) {
        self.0.extend_from_slice(octets);
    }

    fn number(&mut self, number: u32) {
        self.octets(&number.to_le_bytes());
    }

    /// With their length before them.
    fn lent(&mut self, octets: &[u8]) {
        let length = u16::try_from(octets.len()).expect("a length of 16 bits");
        self.octets(&length.to_le_bytes());
        self.octets(octets);
    }

    fn create(&mut self, roles: u8, protected: u32, enabled: u32, first: u32) {
        self.create_with(roles, [protected, enabled, first, 0, 0]);
    }

    /// With protected kinds, enabled applications, message number, wishes and capabilities.
    fn create_with(&mut self, roles: u8, settings: [u32; 5]) {
        self.octets(&[1, roles]);
        for number in settings {
            self.number(number);
        }
    }

    /// A fresh session that holds these capabilities, with applications enabled.
    fn holding(&mut self, capabilities: u32, ta_ids: &[u32]) {
        self.create_with(HOLDS, [0, applications(ta_ids), 0, 0, capabilities]);
    }

    fn initialization(&mut self, area: &str) {
        self.octets(&[2]);
        self.lent(&hex(area));
    }

    fn capability(&mut self, area: &str) {
        self.octets(&[3]);
        self.lent(&hex(area));
    }

    fn local_change(&mut self, ta_id: u32, on: bool, room: u8) {
        self.octets(&[4]);
        self.number(ta_id);
        self.octets(&[on.into(), room]);
    }

    fn mismatch(&mut self) {
        self.octets(&[5]);
    }

    fn hello(&mut self, number: u32) {
        self.octets(&[6]);
        self.number(number);
    }

    fn closed(&mut self) {
        self.octets(&[7]);
    }

    fn permitted(&mut self, kind: u32) {
        self.octets(&[8]);
        self.number(kind);
    }

    fn permitted_kinds(&mut self) {
        self.octets(&[9]);
    }

    fn retry_interval(&mut self) {
        self.octets(&[10]);
    }

    fn sound(&mut self) {
        self.octets(&[11]);
    }

    fn read(&mut self, area: &str) {
        self.octets(&[12]);
        self.lent(&hex(area));
    }

    /// Without its last two octets nothing is held at either end.
    fn record(&mut self, record: &str) {
        let mut record = hex(record);
        if record.len() == 22 {
            record.extend([0, 0]);
        }
        assert!(record.len() == 24, "a record of {} octets", record.len());
        self.octets(&[13]);
        self.octets(&record);
    }

    fn no_limits(&mut self) {
        self.octets(&[14]);
    }

    fn set_limit(&mut self, limits: [u8; 13], ta_id: u32, limit: u32) {
        self.octets(&[15]);
        self.octets(&limits);
        self.number(ta_id);
        self.number(limit);
    }

    fn load(&mut self) {
        self.octets(&[16]);
    }

    fn store(&mut self, session: &str, room: u8) {
        let session = hex(session);
        assert!(session.len() == 19, "fields of {} octets", session.len());
        self.octets(&[17]);
        self.octets(&session);
        self.octets(&[room]);
    }

    fn wish(&mut self, wishes: u32, app: u32, disable: bool, room: u8) {
        self.octets(&[18]);
        self.number(wishes);
        self.number(app);
        self.octets(&[disable.into(), room]);
    }

    fn wish_sac(&mut self, wishes: u32, room: u8) {
        self.octets(&[19]);
        self.number(wishes);
        self.octets(&[room]);
    }

    fn wanted(&mut self, wishes: u32, kind: u32) {
        self.octets(&[20]);
        self.number(wishes);
        self.number(kind);
    }

    fn kind_total(&mut self, totals: [u8; 10], kind: u32) {
        self.octets(&[21]);
        self.octets(&totals);
        self.number(kind);
    }

    fn forward(&mut self, kind1: &str) {
        self.octets(&[22]);
        self.lent(&hex(kind1));
    }

    fn back(&mut self, room: u8) {
        self.octets(&[23, room]);
    }

    /// A fresh session with these applications enabled.
    fn enabling(&mut self, ta_ids: &[u32]) {
        self.create(HOLDS, 0, applications(ta_ids), 0);
    }
}

/// The twelve examples that the scope of work gives with their results.
fn examples(calls: &mut Calls) {
    fn fourth(calls: &mut Calls) {
        calls.enabling(&[7]);
        calls.initialization("850F0009 80 00048000 00078000");
    }

    // 1
    calls.enabling(&[]);
    calls.initialization("");
    calls.permitted_kinds();
    // 2
    calls.enabling(&[4, 7]);
    calls.initialization("850F0005 80 00048000");
    calls.permitted_kinds();
    // 3
    calls.enabling(&[4, 7]);
    calls.initialization("850F0001 80");
    // 4 to 6
    fourth(calls);
    calls.permitted_kinds();
    calls.capability("850D0002 80 C0");
    calls.capability("850D0002 80 40");
    // 7
    fourth(calls);
    calls.capability("850F0009 80 00070000 00078000");
    // 8
    fourth(calls);
    calls.capability("850D0002 80 C0");
    calls.capability("850F0001 00");
    // 9
    calls.enabling(&[4]);
    calls.initialization("850F0004 80 000480");
    calls.initialization("850F0005 80");
    // 10
    calls.initialization("06000000");
    calls.initialization("86000000");
    // 11
    calls.enabling(&[4]);
    calls.initialization("850F0005 80 000E8000");
    calls.enabling(&[4]);
    calls.initialization("850F0005 80 00040000");
    // 12
    calls.create(HOLDS, 0, applications(&[7]), 7);
    calls.initialization(BOTH_DYNAMIC);
    calls.local_change(4, true, 16);
    calls.local_change(4, true, ROOM);
}

/// The stored record that the scope of work gives, of kind 1.
const STORED: &str = "1400 0100 00 07 4800 0000 0000 00 00 00000000 01000000";

/// The same session made, moved back and forward.
fn stored(calls: &mut Calls) {
    calls.create(HOLDS, 0, applications(&[4, 7]), 1);
    calls.back(KIND1_ROOM);
    calls.forward(STORED);
    calls.sound();
}

/// Every event in every state that a session with these roles has. Areas in a
/// state that they are not for are broken, since 7 comes before 2. What is told
/// of Held and Gone is told of an active end; a passive one is Ready there, and
/// Open after the Initialization.
fn life(calls: &mut Calls, roles: u8) {
    calls.create(roles, 0, applications(&[4, 7]), 0x0102_0304);
    // Ready
    calls.closed();
    calls.capability("85");
    calls.hello(0x7FFF_FFFF);
    calls.local_change(3, true, 0);
    calls.initialization("850D0002 80 90 850F0009 80 00048000 00078000 85060001 80");
    // Open
    calls.initialization("85");
    calls.hello(0x7FFF_FFFE);
    calls.capability("850D0003 80 10 A0");
    calls.local_change(7, false, ROOM);
    calls.closed();
    calls.initialization(BOTH_DYNAMIC);
    calls.mismatch();
    // Held or Gone
    calls.capability("85");
    calls.closed();
    calls.initialization("");
    // Held becomes Ready, Gone stays
    calls.local_change(10, true, ROOM);
    calls.mismatch();
    // Gone becomes Ready by any Hello, Held by a higher one
    calls.hello(0x7FFF_FFFF);
    calls.mismatch();
    calls.hello(0x8000_0000);
    calls.initialization("850F0005 80 00068000");
}

/// What each application opens, on and off beside one that opens nothing. The
/// message number wraps on the way.
fn applications_opened(calls: &mut Calls) {
    let mut area = String::from("85060001 00 850F0035 80");
    for ta_id in 1..=13 {
        area += &format!("{ta_id:04X}8000");
    }
    calls.create(HOLDS, 0x102, applications(&[9]), 0xFFFF_FFFE);
    calls.initialization(&area);
    for ta_id in (1..=8).chain(10..=13) {
        calls.local_change(ta_id, true, ROOM);
        calls.local_change(ta_id, false, ROOM);
    }
    // nothing common is left: a mismatch, and nothing written
    calls.local_change(9, false, ROOM);
}

/// What TAC and SAC lists come to.
fn lists(calls: &mut Calls) {
    // of equal elements the first; unknown ones; E with the reserved bits set
    calls.enabling(&[4, 7]);
    calls.initialization("850F0011 00 00000000 00047FFF 000E8000 01078000");
    calls.capability("850F0011 80 00070000 00078000 00048000 00047FFF");
    // S = 1 without elements changes nothing; S = 0 ends negotiation
    calls.capability("850F0001 FF");
    calls.capability("850F0005 7F 00048000");
    // S = 1 then starts from the empty list
    calls.capability("850F0005 80 0007FFFF");
    calls.capability("850F0005 80 00047FFF");
    calls.capability("850F0005 80 00077FFF");
    // SAC in an Initialization disables and never enables; unknown Apps; S as an element would be
    calls.enabling(&[4]);
    calls.initialization("850D0009 A0 90 10 2F BF 40 80 D0 F0");
    calls.permitted_kinds();
    // in a Capability message the later one holds
    calls.capability("850D0007 00 C0 10 20 A0 30 40");
    calls.permitted_kinds();
    // common, and nothing opened
    calls.enabling(&[9]);
    calls.initialization("850F0005 00 00090000");
    // Dynamic has no effect any more; 9 though a mismatch follows
    calls.capability("85060001 80");
    calls.local_change(9, false, ROOM);
}

/// What reading finds, and what it refuses first.
fn readings(calls: &mut Calls) {
    for area in [
        "",
        "850F0001 80",
        "86000000 850D0002 80 90",
        "85060001 80",
        // ours between others, U and F of all sorts; then the capabilities, S of both sorts
        "05000000 05FF0001 AA C6000000 86000000 450D0003 00 90 A0 050F0001 00 C5060001 7F",
        "05080001 80 86000000 45090001 7F 09020001 FF",
        "89020001 00 85080001 01",
        "85090001 80",
        // their neighbours are passed over, or not
        "05070000 050A0000 89010000 89030000",
        "09010000",
        "09030000",
        // 2: octets remain, or the value runs past the area
        "85",
        "85060001 80 8506",
        "850600",
        "850F0005 80 000480",
        "06000001",
        // 3
        "850F0000",
        "850F0003 80 0004",
        "850D0000",
        "850D0001 80",
        "85060000",
        "85060002 80 80",
        "85080000",
        "85080002 80 80",
        "85090000",
        "85090002 80 80",
        "89020000",
        "09020002 80 80",
        // 4
        "04FF0000",
        "46000000",
        "06000000 850F0000",
        // 5, before 3
        "850F0001 80 850F0001 80",
        "850F0001 80 850F0000",
        "850D0002 80 90 850D0001 80",
        "85060001 80 85060000",
        "85080001 80 85080001 80",
        "85090001 00 85090000",
        "89020001 80 09020002 80 80",
        // 3, 5 and 4 from the left
        "850F0000 850F0001 80 06000000",
    ] {
        calls.read(area);
    }
    // 1, before 2: one octet more than an area may have
    calls.enabling(&[4]);
    calls.initialization(&"FF".repeat(4097));
}

/// Numbers and sets out of range, and what a local change asks for.
fn numbers(calls: &mut Calls) {
    calls.enabling(&[4]);
    for (protected, enabled) in [
        (0x400, 0),
        (0x1_0000, 0),
        (0, 0x2000),
        (0, 0x1_0000),
        (0x8000_0000, 0x8000_0000),
        (0x3FF, 0x1FFF),
    ] {
        calls.create(0xFF, protected, enabled, 0xFFFF_FFFF);
    }
    calls.initialization("");
    for kind in [0, 9, 10, 0x1_0000, 0xFFFF_FFFF] {
        calls.permitted(kind);
    }
    for ta_id in [0, 14, 0x1_0004, 0xFFFF_FFFF] {
        calls.local_change(ta_id, true, 0);
    }
    // 0 is a number as any other, and recorded or not is told apart
    for number in [0, 0, 0xFFFF_FFFF, 0] {
        calls.hello(number);
    }
    // Unchanged before 9, 9 before 8
    calls.local_change(13, true, 0);
    calls.local_change(13, false, 0);
    // 8 though a mismatch follows; the room beyond the message stays
    calls.enabling(&[4]);
    calls.initialization("85060001 80 850F0005 80 00048000");
    calls.local_change(4, false, 16);
    calls.local_change(1, true, 0);
    calls.local_change(1, true, 40);
    // a room of 40 octets at the most
    calls.local_change(1, false, 0xFF);
}

/// What a record of either kind has behind its head, each with one rule broken.
const BROKEN: [&str; 20] = [
    // state, the zero octet, spare bits
    "04 07 4800 0000 0000 00 00 00000000 01000000",
    "00 07 4800 0000 0000 00 01 00000000 01000000",
    "00 87 4800 0000 0000 00 00 00000000 01000000",
    "00 07 4820 0000 0000 00 00 00000000 01000000",
    "01 17 4800 4820 0000 00 00 00000000 01000000",
    "00 07 4800 0000 0004 00 00 00000000 01000000",
    "01 07 4800 0000 0000 10 00 00000000 01000000",
    // in force: in Ready, without TAC, with nothing common
    "00 17 4800 4800 0000 00 00 00000000 01000000",
    "01 13 4800 4800 0000 00 00 00000000 01000000",
    "01 17 4800 0100 0000 00 00 00000000 01000000",
    // listed and not in force; disabled and dynamic in Ready; a Hello number and none recorded
    "01 07 4800 4800 0000 00 00 00000000 01000000",
    "00 07 4800 0000 0000 01 00 00000000 01000000",
    "00 27 4800 0000 0000 00 00 00000000 01000000",
    "00 07 4800 0000 0000 00 00 00000001 01000000",
    // Held: passive, or set to drop; Gone: not so set, passive, responding, with a Hello recorded
    "02 05 4800 0000 0000 00 00 00000000 01000000",
    "02 0F 4800 0000 0000 00 00 00000000 01000000",
    "03 07 4800 0000 0000 00 00 00000000 01000000",
    "03 0D 4800 0000 0000 00 00 00000000 01000000",
    "03 0E 4800 0000 0000 00 00 00000000 01000000",
    "03 4F 4800 0000 0000 00 00 00000000 01000000",
];

/// Every call that a record is handed to; areas and numbers are broken, since 10 comes first.
fn everything(calls: &mut Calls) {
    calls.initialization("85");
    calls.capability("85");
    calls.local_change(14, true, 0);
    calls.mismatch();
    calls.hello(1);
    calls.closed();
    calls.permitted(10);
    calls.permitted_kinds();
    calls.retry_interval();
    calls.sound();
    calls.load();
    calls.wish(0, 5, true, 0);
    calls.back(0);
}

/// Records that break one rule each, and sound ones beside them.
fn records(calls: &mut Calls) {
    for broken in BROKEN {
        calls.record(&format!("1600 0200 {broken}"));
        calls.sound();
    }
    for record in [
        // length, kind, both, which version 4.0.0 wrote
        "1700 0200 00 07 4800 0000 0000 00 00 00000000 01000000",
        "1400 0200 00 07 4800 0000 0000 00 00 00000000 01000000",
        "1601 0200 00 07 4800 0000 0000 00 00 00000000 01000000",
        "1600 0100 00 07 4800 0000 0000 00 00 00000000 01000000",
        "1600 0202 00 07 4800 0000 0000 00 00 00000000 01000000",
        "1400 0100 01 07 4800 0000 0000 00 00 00000000 01000000",
        // capabilities: spare bits of ours and of the peer's, the peer's unless Open
        "1600 0200 00 07 4800 0000 0000 00 00 00000000 01000000 08 00",
        "1600 0200 01 07 4800 0000 0000 00 00 00000000 01000000 80 00",
        "1600 0200 01 07 4800 0000 0000 00 00 00000000 01000000 00 08",
        "1600 0200 01 07 4800 0000 0000 00 00 00000000 01000000 07 80",
        "1600 0200 00 07 4800 0000 0000 00 00 00000000 01000000 00 01",
        "1600 0200 02 07 4800 0000 0000 00 00 00000000 01000000 02 02",
        "1600 0200 03 0B 4800 0000 0000 00 00 00000000 01000000 07 04",
    ] {
        calls.record(record);
        calls.sound();
    }
    // refused by everything, and made anew
    everything(calls);
    calls.create(HOLDS, 0, 0x2000, 0);
    calls.create(HOLDS | DROPS, 0, 0, 0);
    for record in [
        "1600 0200 00 47 4800 0000 FF03 00 00 00000000 FFFFFFFF",
        "1600 0200 01 37 FF1F FF1F FF03 0F 00 00000000 01000000",
        "1600 0200 02 4E 4800 0000 0000 00 00 FFFFFFFF 01000000",
        "1600 0200 03 0B 4800 0000 0000 00 00 00000000 01000000",
        // capabilities of ours in every state, the peer's in Open
        "1600 0200 00 07 4800 0000 0000 00 00 00000000 01000000 07 00",
        "1600 0200 01 07 4800 0000 0000 00 00 00000000 01000000 07 07",
        "1600 0200 01 07 4800 0000 0000 00 00 00000000 01000000 03 06",
        "1600 0200 01 17 0400 0404 0000 00 00 00000000 01000000 05 05",
        "1600 0200 02 07 4800 0000 0000 00 00 00000000 01000000 05 00",
        "1600 0200 03 0B 4800 0000 0000 00 00 00000000 01000000 02 00",
    ] {
        calls.record(record);
        calls.sound();
        calls.permitted_kinds();
        calls.retry_interval();
    }
    // Held stays after the first Hello and after Unchanged
    calls.record("1600 0200 02 07 4800 0000 0000 00 00 00000000 01000000");
    calls.hello(5);
    calls.local_change(4, true, 0);
}

/// Limits set and refused; what is handed in comes back, over 64 or not.
fn limits(calls: &mut Calls) {
    let handed_in = [0, 1, 2, 63, 64, 65, 66, 128, 254, 255, 10, 11, 12];
    calls.no_limits();
    for (ta_id, limit) in [(1, 0), (6, 64), (10, 63), (13, 1)] {
        calls.set_limit(handed_in, ta_id, limit);
    }
    // 12
    for limit in [65, 255, 256, 0xFFFF_FFFF] {
        calls.set_limit(handed_in, 4, limit);
    }
    // 6, before 12
    for (ta_id, limit) in [(0, 0), (14, 64), (0x1_0001, 1), (0, 65), (0xFFFF_FFFF, 256)] {
        calls.set_limit(handed_in, ta_id, limit);
    }
}

/// Sessions by their fields, taken out of a record and put into one.
fn by_fields(calls: &mut Calls) {
    // each of the four states, stored as loaded
    for (record, session) in [
        (
            "1600 0200 00 47 4800 0000 FF03 00 00 04030201 FFFFFFFF",
            "00 47 00 4800 0000 FF03 00 00 04030201 FFFFFFFF",
        ),
        (
            "1600 0200 01 37 FF1F FF1F FF03 0F 00 00000000 08070605 03 06",
            "01 37 0F FF1F FF1F FF03 03 06 00000000 08070605",
        ),
        (
            "1600 0200 02 4E 4800 0000 0000 00 00 FFFFFFFF 01000000 07 00",
            "02 4E 00 4800 0000 0000 07 00 FFFFFFFF 01000000",
        ),
        (
            "1600 0200 03 0B 4800 0000 0000 00 00 00000000 01000000",
            "03 0B 00 4800 0000 0000 00 00 00000000 01000000",
        ),
    ] {
        calls.record(record);
        calls.load();
        calls.store(session, 24);
    }
    // a room that is not of 24 octets
    for room in [0, 22, 23, 25, 40, 0xFF] {
        calls.store("00 07 00 4800 0000 0000 00 00 00000000 01000000", room);
    }
    // fields that are not sound: no session, a spare flag, Held and passive, a spare
    // capability of ours and of the peer, one of the peer's in Ready
    for session in [
        "FF 00 00 0000 0000 0000 00 00 00000000 00000000",
        "00 87 00 4800 0000 0000 00 00 00000000 01000000",
        "02 05 00 4800 0000 0000 00 00 00000000 01000000",
        "01 07 00 4800 0000 0000 08 00 00000000 01000000",
        "01 07 00 4800 0000 0000 00 08 00000000 01000000",
        "00 07 00 4800 0000 0000 01 01 00000000 01000000",
    ] {
        calls.store(session, 24);
    }
    // neither sound nor a room of its size
    calls.store("FF 00 00 0000 0000 0000 00 00 00000000 00000000", 23);
    // records that are not: by a field, by the kind, by the zero octet
    for record in [
        "1600 0200 00 87 4800 0000 0000 00 00 00000000 01000000",
        "1600 0201 00 07 4800 0000 0000 00 00 00000000 01000000",
        "1600 0200 00 07 4800 0000 0000 00 01 00000000 01000000",
    ] {
        calls.record(record);
        calls.load();
    }
}

/// Wishes given at creation: the record is the same with any that are sound.
fn wishes_at_creation(calls: &mut Calls) {
    for wishes in [0, 1, 8, 15, 16, 0x100, 0x1_0000, 0x8000_0000, 0xFFFF_FFFF] {
        calls.create_with(HOLDS, [0x3FF, applications(&[4, 7]), 5, wishes, 0]);
    }
}

/// Every App disabled and taken again, one behind the other and with all others
/// wished; the message number wraps on the way. `tac` is in the area or not.
fn wishes_changed(calls: &mut Calls, roles: u8, tac: &str) {
    calls.create(roles, 0, applications(&[4, 7]), 0xFFFF_FFFC);
    calls.initialization(&format!("{tac} 85060001 80 850D0003 80 90 B0"));
    for app in 1..=4 {
        let own = 1 << (app - 1);
        calls.wish(0, app, true, WISH_ROOM);
        calls.wish(own, app, false, WISH_ROOM);
        calls.wish(15 - own, app, true, 40);
        calls.wish(15, app, false, 40);
        // so already
        calls.wish(own, app, true, WISH_ROOM);
        calls.wish(15 - own, app, false, WISH_ROOM);
    }
    calls.permitted_kinds();
}

/// What is written, given to a session at the other end: by its Capability event,
/// then by its Initialization.
fn wishes_read(calls: &mut Calls) {
    calls.enabling(&[4, 7]);
    calls.initialization(BOTH_DYNAMIC);
    for app in [1, 2, 3, 4] {
        calls.capability(&format!("850D0002 80 {:02X}", 0x80 | app << 4));
    }
    for app in [3, 1, 4, 2] {
        calls.capability(&format!("850D0002 80 {:02X}", app << 4));
    }
    for wishes in 1..16u32 {
        let apps: Vec<u32> = (1..=4).filter(|app| wishes >> (app - 1) & 1 == 1).collect();
        let elements: String = apps
            .iter()
            .map(|app| format!("{:02X}", 0x80 | app << 4))
            .collect();
        calls.enabling(&[]);
        calls.initialization(&format!("850D{:04X} 80 {elements}", 1 + apps.len()));
        calls.permitted_kinds();
    }
}

/// What a wish is refused for, and in which order.
fn wishes_refused(calls: &mut Calls) {
    // 10 by the record, before 15 and Unchanged
    calls.record("1600 0200 01 87 4800 0000 0000 00 00 00000000 01000000");
    calls.wish(0, 1, true, WISH_ROOM);
    calls.wish(0, 1, false, WISH_ROOM);
    calls.wish(0, 5, true, 0);
    // 10 by the wishes, all 32 bits back; then 15, then Unchanged, then 7: in Ready
    calls.enabling(&[4]);
    for wishes in [0x10, 0x11, 0x80, 0x100, 0x1_0001, 0x8000_000F, 0xFFFF_FFFF] {
        calls.wish(wishes, 1, true, WISH_ROOM);
        calls.wish(wishes, 9, true, 0);
    }
    for app in [0, 5, 6, 7, 8, 0x101, 0x1_0001, 0x8000_0001, 0xFFFF_FFFF] {
        calls.wish(15, app, true, WISH_ROOM);
        calls.wish(0, app, false, 0);
    }
    calls.wish(4, 3, true, 0);
    calls.wish(11, 3, false, 0);
    calls.wish(4, 3, false, WISH_ROOM);
    calls.wish(11, 3, true, 0);
    // 7 in Held and Gone
    for record in [
        "1600 0200 02 4E 4800 0000 0000 00 00 FFFFFFFF 01000000",
        "1600 0200 03 0B 4800 0000 0000 00 00 00000000 01000000",
    ] {
        calls.record(record);
        calls.wish(2, 2, true, 0);
        calls.wish(2, 2, false, WISH_ROOM);
        calls.wish(2, 7, false, WISH_ROOM);
    }
    // 9, with TAC used and not, before 8
    for roles in [HOLDS, INITIATING | ACTIVE] {
        calls.create(roles, 0, applications(&[4]), 1);
        calls.initialization("");
        calls.wish(8, 4, true, 0);
        calls.wish(8, 4, false, WISH_ROOM);
        calls.wish(8, 4, false, 0);
    }
    // 8 under 14 octets
    calls.enabling(&[4]);
    calls.initialization("85060001 80");
    for room in [0, 1, 13, WISH_ROOM, 15] {
        calls.wish(0, 4, true, room);
        calls.wish(15, 1, false, room);
    }
}

/// The SAC of all sets, with just enough room, with more and with too little.
fn wishes_in_initialization(calls: &mut Calls) {
    for wishes in 0..16u32 {
        let octets = 5 + wishes.count_ones() as u8;
        calls.wish_sac(wishes, octets);
        calls.wish_sac(wishes, octets - 1);
        calls.wish_sac(wishes, 40);
    }
    calls.wish_sac(0, 0);
    // 10, before 8
    for wishes in [0x10, 0x1F, 0x100, 0x1_0000, 0x8000_0001, 0xFFFF_FFFF] {
        calls.wish_sac(wishes, 9);
        calls.wish_sac(wishes, 0);
    }
}

fn bindings_wanted(calls: &mut Calls) {
    for kind in 0..=10 {
        for wishes in [0, 1, 2, 4, 8, 15] {
            calls.wanted(wishes, kind);
        }
    }
    for kind in [16, 0x100, 0x1_0000, 0x8000_0000, 0xFFFF_FFFF] {
        calls.wanted(0, kind);
    }
    // 10, before 6
    for wishes in [0x10, 0x1_0000, 0x8000_000F, 0xFFFF_FFFF] {
        calls.wanted(wishes, 2);
        calls.wanted(wishes, 10);
    }
}

/// Which kinds each capability is needed for, by whom it must be held, and how the peer's
/// come and go.
fn capabilities(calls: &mut Calls) {
    // the first and the eighth example with all three held by both ends, and by one
    for (ours, theirs) in [(7, ALL_HELD), (7, ""), (0, ALL_HELD)] {
        calls.holding(ours, &[]);
        calls.initialization(theirs);
        calls.permitted_kinds();
        calls.holding(ours, &[7]);
        calls.initialization(&format!("{theirs} 850F0009 80 00048000 00078000"));
        calls.capability("850D0002 80 C0");
        calls.capability("850F0001 00");
    }
    // each of ours against all of the peer's, each of the peer's against all of ours
    for (ours, tlv) in [(1, "85080001"), (2, "85090001"), (4, "89020001")] {
        calls.holding(ours, &[]);
        calls.initialization(ALL_HELD);
        calls.holding(7, &[3]);
        // S is not read in an Initialization
        calls.initialization(&format!("{tlv} 00 85060001 80 850F0005 80 00038000"));
        calls.permitted_kinds();
        // S = 0 is withdrawn, absent stays, S = 1 holds
        calls.capability(&format!("{tlv} 7F"));
        calls.capability(ALL_HELD);
        calls.capability("");
        calls.capability(&format!("{tlv} 00"));
        calls.capability(&format!("{tlv} FF"));
        // none is left where Open is left
        calls.closed();
        calls.initialization("");
        calls.capability(ALL_HELD);
        calls.mismatch();
    }
    // kinds of Session Protection need them too; so do those of a session without TAC
    for roles in [HOLDS, INITIATING | ACTIVE] {
        calls.create_with(roles, [0x3FF, applications(&[8]), 0, 0, 5]);
        calls.initialization(&format!("850F0005 80 00088000 {ALL_HELD}"));
        for kind in 0..10 {
            calls.permitted(kind);
        }
        calls.capability("85090001 80 89020001 00");
    }
    // a mismatch, and a refusal, leave none and the ones before
    calls.holding(7, &[4]);
    calls.initialization(&format!("{ALL_HELD} 850F0001 80"));
    calls.holding(7, &[4]);
    calls.initialization(&format!("{ALL_HELD} 85"));
    calls.initialization(ALL_HELD);
    calls.capability("85080001 00 85090000");
    // sets of ours at creation
    for ours in [
        1,
        2,
        4,
        7,
        8,
        15,
        0x80,
        0x100,
        0x107,
        0x1_0000,
        0x8000_0000,
        0xFFFF_FFFF,
    ] {
        calls.holding(ours, &[4]);
    }
}

/// Totals are answered as they stand, whatever they are.
fn totals(calls: &mut Calls) {
    let edges = [0, 1, 63, 64, 65, 66, 127, 128, 200, 255];
    for kind in 0..10 {
        calls.kind_total(edges, kind);
        calls.kind_total([0; 10], kind);
        calls.kind_total([255; 10], kind);
    }
    // each kind by a total of its own
    for kind in 0..10 {
        let mut one = [64; 10];
        one[kind] = 7;
        calls.kind_total(one, kind as u32);
    }
    // 6
    for kind in [10, 11, 16, 0x100, 0x109, 0x1_0000, 0x8000_0000, 0xFFFF_FFFF] {
        calls.kind_total(edges, kind);
        calls.kind_total([1; 10], kind);
    }
}

/// Records of kind 1 moved forward, what becomes of the sessions there, and the way back.
fn moves(calls: &mut Calls) {
    // the stored record, asked, led on and back again
    calls.record(&"A5".repeat(24));
    calls.forward(STORED);
    calls.permitted_kinds();
    calls.retry_interval();
    calls.load();
    calls.hello(7);
    calls.initialization(BOTH_DYNAMIC);
    calls.permitted_kinds();
    calls.back(KIND1_ROOM);
    calls.local_change(3, true, ROOM);
    // the peer's capabilities come to be known, and go again
    calls.capability(ALL_HELD);
    calls.back(KIND1_ROOM);
    calls.capability("85080001 00 85090001 00 89020001 00");
    calls.back(KIND1_ROOM);
    calls.capability("89020001 80");
    calls.back(KIND1_ROOM);
    calls.closed();
    calls.back(KIND1_ROOM);
    calls.mismatch();
    calls.back(KIND1_ROOM);
    // Open, and what is lost: not in force, with TAC or without; everything disabled
    for record in [
        "07 4800 0000 0000 00 00 00000000 01000000",
        "63 4800 0000 FF03 00 00 04030201 08070605",
        "24 0000 0000 0000 0F 00 00000000 FFFFFFFF",
        // by 3 and by 11; by what is protected: all, some, none of them
        "17 0400 0400 0000 0F 00 00000000 01000000",
        "17 0804 0804 0000 00 00 00000000 01000000",
        "17 8000 8000 FF03 00 00 00000000 01000000",
        "17 8000 8000 A902 00 00 00000000 01000000",
        "17 8000 8000 1401 0C 00 00000000 01000000",
        "17 8000 8000 8303 00 00 00000000 01000000",
        // 3 and 8 on one list alone; one that opens nothing; all others; all
        "17 0C00 8808 FF03 00 00 00000000 01000000",
        "17 8801 0C05 FF03 00 00 00000000 01000000",
        "17 0001 0001 FF03 00 00 00000000 01000000",
        "17 FF1F 7B1B FF03 00 00 00000000 01000000",
        "7F FF1F FF1F FF03 05 00 FFFFFFFF 00000000",
    ] {
        calls.forward(&format!("1400 0100 01 {record}"));
        calls.permitted_kinds();
        calls.back(KIND1_ROOM);
    }
    // the other states lose nothing; Held and Gone go on as they would
    for record in [
        "00 46 4800 0000 FF03 00 00 04030201 01000000",
        "02 47 0400 0000 FF03 00 00 07000000 01000000",
        "03 0F 0400 0000 FF03 00 00 00000000 01000000",
    ] {
        calls.forward(&format!("1400 0100 {record}"));
        calls.retry_interval();
        calls.back(KIND1_ROOM);
        calls.hello(0x0102_0305);
        calls.initialization(&format!("850F0005 80 00038000 {ALL_HELD}"));
    }
    moves_refused(calls);
}

/// What the moves are refused for. The record, in which one forward would be, stays as it is.
fn moves_refused(calls: &mut Calls) {
    calls.record(&"A5".repeat(24));
    for broken in BROKEN {
        calls.forward(&format!("1400 0100 {broken}"));
    }
    // length, kind, their high octets
    for head in [
        "1400 0200",
        "1600 0100",
        "1600 0200",
        "1401 0100",
        "1400 0101",
    ] {
        calls.forward(&format!("{head} {}", &STORED[10..]));
    }
    // 0, 21, 23 and 24 octets; what version 4.0.0 wrote; a record of kind 2
    calls.forward("");
    calls.forward(&STORED[..STORED.len() - 2]);
    for behind in ["00", "0000", "0707"] {
        calls.forward(&format!("{STORED} {behind}"));
    }
    calls.forward(&format!("1600 0200 {} 0000", &STORED[10..]));
    // and of all 24 octets nothing is left where it is not refused
    calls.forward(STORED);
    // the way back: 13 by ours, by the peer's, by both, in every state; 10 by the room before
    for record in [
        "00 07 4800 0000 0000 00 00 00000000 01000000 01 00",
        "01 07 4800 0000 0000 00 00 00000000 01000000 02 00",
        "01 07 4800 0000 0000 00 00 00000000 01000000 00 04",
        "01 07 4800 0000 0000 00 00 00000000 01000000 05 02",
        "02 07 4800 0000 0000 00 00 00000000 01000000 04 00",
        "03 0B 4800 0000 0000 00 00 00000000 01000000 07 00",
    ] {
        calls.record(&format!("1600 0200 {record}"));
        calls.back(KIND1_ROOM);
        calls.back(KIND1_ROOM - 1);
    }
    // 10 before 13: spare bits, the peer's unless Open, a spare flag
    for record in [
        "00 07 4800 0000 0000 00 00 00000000 01000000 08 00",
        "01 07 4800 0000 0000 00 00 00000000 01000000 07 80",
        "00 07 4800 0000 0000 00 00 00000000 01000000 00 01",
        "02 07 4800 0000 0000 00 00 00000000 01000000 02 02",
        "00 87 4800 0000 0000 00 00 00000000 01000000 01 00",
    ] {
        calls.record(&format!("1600 0200 {record}"));
        calls.back(KIND1_ROOM);
    }
    // 10 by rooms of another size
    calls.forward(STORED);
    for room in [0, 21, 23, 24, 0xFF] {
        calls.back(room);
    }
    // what version 4.0.0 wrote is refused by all, moved without its capabilities, or kept
    calls.record("1400 0100 01 07 4800 0000 0000 00 00 00000000 01000000 07 03");
    everything(calls);
    calls.forward("1400 0100 01 07 4800 0000 0000 00 00 00000000 01000000");
    calls.record("1600 0200 01 07 4800 0000 0000 00 00 00000000 01000000 07 03");
    calls.sound();
    calls.permitted_kinds();
}

fn all() -> Vec<u8> {
    let mut calls = Calls(Vec::new());
    examples(&mut calls);
    stored(&mut calls);
    for roles in 0..16 {
        life(&mut calls, roles);
    }
    applications_opened(&mut calls);
    lists(&mut calls);
    readings(&mut calls);
    numbers(&mut calls);
    records(&mut calls);
    limits(&mut calls);
    by_fields(&mut calls);
    wishes_at_creation(&mut calls);
    wishes_changed(&mut calls, HOLDS, "850F0005 80 00048000");
    wishes_changed(&mut calls, 0, "");
    wishes_read(&mut calls);
    wishes_refused(&mut calls);
    wishes_in_initialization(&mut calls);
    bindings_wanted(&mut calls);
    totals(&mut calls);
    capabilities(&mut calls);
    moves(&mut calls);
    assert!(calls.0.len() <= MOST, "{} octets", calls.0.len());
    calls.0
}

fn main() -> io::Result<()> {
    io::stdout().write_all(&all())
}

#[cfg(test)]
mod tests {
    use super::*;

    #[test]
    fn the_stored_calls_are_these() {
        let stored = concat!(env!("CARGO_MANIFEST_DIR"), "/../../crates/cases/stdin");
        assert!(
            all() == std::fs::read(stored).unwrap(),
            "stdin is not what is made"
        );
    }
}
