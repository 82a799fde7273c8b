//! The machine by itself: the edges, the order of refusals, whole tables.

use compare::machine::*;
use compare::maker::event;

/// Steps, and sees that a refusal has value 0 and changes nothing.
fn step(machine: &mut Machine, words: &[u32]) -> (u32, u32) {
    let before = machine.clone();
    let answer = machine.step(event(words[0], &words[1..]));
    if answer.code != 0 {
        assert_eq!(answer.value, 0);
        assert!(*machine == before, "a refusal changed a table");
    }
    (answer.code, answer.value)
}

/// A machine after these events, all accepted.
fn after(events: &[&[u32]]) -> Machine {
    let mut machine = empty();
    for words in events {
        assert_eq!(step(&mut machine, words).0, 0, "{:?}", words);
    }
    machine
}

fn refused(machine: &Machine, words: &[u32], code: u32) {
    assert_eq!(step(&mut machine.clone(), words), (code, 0), "{:?}", words);
}

fn accepted(machine: &Machine, words: &[u32], value: u32) {
    assert_eq!(step(&mut machine.clone(), words), (0, value), "{:?}", words);
}

#[test]
fn open_bounds() {
    let plant = empty();
    accepted(&plant, &[OPEN, 0, 1, 1, 0], 0);
    accepted(&plant, &[OPEN, 63, 999_999_999, 999_999_999, 7], 0);
    refused(&plant, &[OPEN, 0, 0, 1, 0], 3);
    refused(&plant, &[OPEN, 0, 1, 1_000_000_000, 0], 3);
    refused(&plant, &[OPEN, 0, 2, 1, 0], 3);
    refused(&plant, &[OPEN, 64, 1, 1, 0], 3);
    refused(&plant, &[OPEN, 0, 1, 1, 8], 3);
}

#[test]
fn draws_in_a_series_of_one() {
    let plant = after(&[&[OPEN, 0, 1, 1, 0], &[BEGIN, 0, 0], &[LOCKX, 0, 0]]);
    accepted(&plant, &[DRAW, 0, 0, 1], 0);
    refused(&plant, &[DRAW, 0, 0, 2], 14);
    accepted(&plant, &[COMMIT, 0], 0);
    refused(&plant, &[DRAW, 0, 0, 0], 3);
    refused(&plant, &[DRAW, 0, 0, 999_999_999], 14);
    refused(&plant, &[DRAW, 0, 0, 1_000_000_000], 3);
}

#[test]
fn transfers() {
    let sent = after(&[&[OPEN, 0, 1, 1, 0], &[SEND, 0, 0, 1]]);
    refused(&sent, &[ACK, 0, 0, 1, 1], 18);
    refused(&sent, &[GRANT, 0, 0, 1, 2], 18);
    refused(&sent, &[GRANT, 0, 0, 2, 1], 18);
    refused(&sent, &[GRANT, 0, 0, 1, 0], 3);
    refused(&sent, &[GRANT, 0, 0, 1, 10_000], 3);
    refused(&sent, &[ACK, 0, 0, 1, 2], 18);
    accepted(&sent, &[ACK, 0, 0, 2, 1], 0);
    accepted(&sent, &[GRANT, 0, 0, 1, 1], 1);
    refused(&empty(), &[SEND, 0, 0, 0], 3);
    let mut plant = sent;
    assert_eq!(step(&mut plant, &[GRANT, 0, 0, 1, 1]), (0, 1));
    assert_eq!(step(&mut plant, &[GRANT, 0, 0, 1, 1]), (0, 0));
    // The token is back before the first ACK: the Release still stands.
    assert_eq!(step(&mut plant, &[SEND, 0, 1, 0]), (0, 1));
    assert_eq!(step(&mut plant, &[GRANT, 0, 1, 0, 1]), (0, 1));
    assert_eq!(step(&mut plant, &[SEND, 0, 0, 2]), (15, 0));
    // A repeat of the first GRANT brings nothing back.
    assert_eq!(step(&mut plant, &[GRANT, 0, 0, 1, 1]), (0, 0));
    assert_eq!(plant.holders(0).set, 1);
    assert_eq!(step(&mut plant, &[ACK, 0, 0, 1, 1]), (0, 1));
    assert_eq!(step(&mut plant, &[ACK, 0, 0, 1, 1]), (0, 0));
    assert_eq!(step(&mut plant, &[SEND, 0, 0, 2]), (0, 2));
}

#[test]
fn shares() {
    let only = after(&[&[OPEN, 0, 1, 9, 0], &[DEMOTE, 0, 0]]);
    refused(&only, &[DROP, 0, 0], 17);
    accepted(&only, &[PROMOTE, 0, 0], 0);
    refused(&only, &[SEND, 0, 0, 1], 10);
    let mut plant = only;
    assert_eq!(step(&mut plant, &[SHARE, 0, 0, 1]), (0, 1));
    // One share is under way: it counts for PROMOTE and not for DROP.
    refused(&plant, &[PROMOTE, 0, 0], 17);
    refused(&plant, &[DROP, 0, 0], 17);
    refused(&plant, &[SHARE, 0, 0, 2], 15);
    assert_eq!(step(&mut plant, &[GRANT, 0, 0, 1, 1]), (0, 1));
    refused(&plant, &[PROMOTE, 0, 0], 17);
    accepted(&plant, &[DROP, 0, 0], 0);
    let locked = after(&[
        &[OPEN, 0, 1, 9, 0],
        &[DEMOTE, 0, 0],
        &[BEGIN, 0, 0],
        &[BEGIN, 1, 0],
        &[LOCKS, 0, 0],
        &[LOCKS, 1, 0],
    ]);
    refused(&locked, &[DROP, 0, 0], 11);
    refused(&locked, &[PROMOTE, 0, 0], 11);
    refused(&locked, &[DRAW, 0, 0, 1], 12);
    accepted(&locked, &[READ, 0, 0], 1);
    accepted(&locked, &[SHARE, 0, 0, 1], 1);
}

#[test]
fn locks_and_draws() {
    let mut plant = empty();
    for series in 0..5 {
        assert_eq!(step(&mut plant, &[OPEN, series, 10, 99, 0]), (0, 0));
    }
    assert_eq!(step(&mut plant, &[BEGIN, 3, 0]), (0, 0));
    for series in [2, 0, 3, 1] {
        assert_eq!(step(&mut plant, &[LOCKX, 3, series]), (0, 0));
    }
    refused(&plant, &[LOCKX, 3, 4], 9);
    refused(&plant, &[LOCKS, 3, 4], 9);
    refused(&plant, &[LOCKX, 3, 1], 8);
    refused(&plant, &[SEND, 1, 0, 1], 11);
    refused(&plant, &[DEMOTE, 1, 0], 11);
    assert_eq!(step(&mut plant, &[BEGIN, 4, 0]), (0, 0));
    refused(&plant, &[LOCKX, 4, 1], 11);
    refused(&plant, &[LOCKS, 4, 1], 10);
    refused(&plant, &[READ, 4, 1], 12);
    assert_eq!(step(&mut plant, &[DRAW, 3, 1, 5]), (0, 0));
    assert_eq!(step(&mut plant, &[DRAW, 3, 2, 90]), (0, 0));
    refused(&plant, &[DRAW, 3, 1, 1], 13);
    refused(&plant, &[DRAW, 3, 1, 999], 13);
    accepted(&plant, &[READ, 3, 1], 15);
    accepted(&plant, &[READ, 3, 0], 10);
    // Drawn and not committed: nothing is issued.
    accepted(&plant, &[CRASH, 0], 2);
    plant.output = [77; OUTPUT];
    assert_eq!(step(&mut plant, &[COMMIT, 3]), (0, 2));
    // In order of locking, and later places untouched.
    assert_eq!(plant.output[..7], [2, 10, 90, 1, 10, 5, 77]);
    assert_eq!(plant.values[place(2, 0)], 100);
    assert_eq!(plant.jobs[3], Job::default());
    refused(&plant, &[COMMIT, 3], 5);
}

#[test]
fn crash_and_restart() {
    let mut plant = after(&[
        &[OPEN, 0, 1, 9, 2],
        &[OPEN, 7, 1, 9, 2],
        &[BEGIN, 0, 2],
        &[BEGIN, 9, 2],
        &[BEGIN, 5, 1],
        &[LOCKX, 0, 0],
        &[DRAW, 0, 0, 3],
    ]);
    refused(&plant, &[RESTART, 2], 7);
    assert_eq!(step(&mut plant, &[CRASH, 2]), (0, 2));
    refused(&plant, &[CRASH, 2], 6);
    refused(&plant, &[BEGIN, 0, 2], 6);
    refused(&plant, &[OPEN, 1, 1, 9, 2], 6);
    refused(&plant, &[SEND, 0, 2, 1], 6);
    refused(&plant, &[DEMOTE, 0, 2], 6);
    assert_eq!(step(&mut plant, &[RESTART, 2]), (0, 2));
    assert_eq!(plant.values[place(0, 2)], 1);
    assert_eq!(step(&mut plant, &[SEND, 0, 2, 1]), (0, 1));
    // Only the receiver of a GRANT and the sender of an ACK must be up.
    assert_eq!(step(&mut plant, &[CRASH, 2]), (0, 0));
    assert_eq!(step(&mut plant, &[GRANT, 0, 2, 1, 1]), (0, 1));
    refused(&plant, &[ACK, 0, 2, 1, 1], 6);
    assert_eq!(step(&mut plant, &[RESTART, 2]), (0, 1));
    assert_eq!(step(&mut plant, &[CRASH, 1]), (0, 1));
    assert_eq!(step(&mut plant, &[ACK, 0, 2, 1, 1]), (0, 1));
}

#[test]
fn the_earlier_refusal_wins() {
    let plant = after(&[&[OPEN, 0, 1, 9, 0], &[BEGIN, 0, 0], &[CRASH, 1]]);
    refused(&plant, &[OPEN, 0, 5, 4, 1], 3);
    refused(&plant, &[OPEN, 0, 1, 9, 1], 4);
    refused(&plant, &[BEGIN, 0, 1], 4);
    refused(&plant, &[LOCKX, 1, 1], 5);
    refused(&plant, &[LOCKX, 0, 1], 5);
    refused(&plant, &[SEND, 1, 1, 0], 5);
    refused(&plant, &[SEND, 0, 1, 0], 6);
    refused(&plant, &[GRANT, 1, 0, 1, 1], 5);
    refused(&plant, &[GRANT, 0, 0, 1, 1], 6);
    refused(&plant, &[DRAW, 1, 0, 0], 3);
}

#[test]
fn bad_events() {
    let plant = after(&[&[OPEN, 0, 1, 9, 0], &[BEGIN, 0, 0]]);
    refused(&plant, &[0], 3);
    refused(&plant, &[18], 3);
    refused(&plant, &[u32::MAX], 3);
    refused(&plant, &[BEGIN, 16, 0], 3);
    refused(&plant, &[BEGIN, 1, 8], 3);
    refused(&plant, &[LOCKX, 0, 64], 3);
    // Every unused field must be 0.
    for kind in 1..18 {
        for unused in FIELDS[kind as usize]..4 {
            let mut words = [kind, 0, 0, 0, 0];
            words[unused + 1] = 1;
            refused(&plant, &words, 3);
        }
    }
}

#[test]
fn spent() {
    let mut plant = after(&[&[OPEN, 0, 1, 9, 0]]);
    plant.sent[0] = 9_998;
    accepted(&plant, &[SEND, 0, 0, 1], 9_999);
    plant.sent[0] = 9_999;
    refused(&plant, &[SEND, 0, 0, 1], 16);
    assert_eq!(step(&mut plant, &[DEMOTE, 0, 0]), (0, 0));
    refused(&plant, &[SHARE, 0, 0, 1], 16);
}

#[test]
fn holders() {
    let mut plant = after(&[&[OPEN, 5, 1, 9, 2]]);
    let refusal = |code| Holders { code, set: 0, count: 0, lowest: 0 };
    let given = |set, count, lowest| Holders { code: 0, set, count, lowest };
    assert_eq!(plant.holders(5), given(4, 1, 2));
    assert_eq!(plant.holders(4), refusal(5));
    assert_eq!(plant.holders(64), refusal(3));
    step(&mut plant, &[SEND, 5, 2, 0]);
    assert_eq!(plant.holders(5), given(0, 0, 8));
    step(&mut plant, &[GRANT, 5, 2, 0, 1]);
    step(&mut plant, &[DEMOTE, 5, 0]);
    step(&mut plant, &[SHARE, 5, 0, 7]);
    step(&mut plant, &[GRANT, 5, 0, 7, 1]);
    assert_eq!(plant.holders(5), given(0b1000_0001, 2, 0));
    plant.stations[0] = 2;
    assert_eq!(plant.holders(5), refusal(2));
    assert_eq!(plant.holders(64), refusal(2));
}

/// A plant in which every rule has something to say: series 0 under way from
/// 0 to 1, series 1 shared by 0 and 2 with locks, series 2 exclusive at 0
/// with a lock and a draw, series 3 delivered from 0 to 1 and not
/// acknowledged, station 7 down.
fn busy() -> Machine {
    after(&[
        &[OPEN, 0, 10, 19, 0],
        &[SEND, 0, 0, 1],
        &[OPEN, 1, 10, 19, 0],
        &[DEMOTE, 1, 0],
        &[SHARE, 1, 0, 2],
        &[GRANT, 1, 0, 2, 1],
        &[OPEN, 2, 10, 19, 0],
        &[BEGIN, 0, 0],
        &[LOCKX, 0, 2],
        &[DRAW, 0, 2, 10],
        &[LOCKS, 0, 1],
        &[BEGIN, 1, 0],
        &[LOCKS, 1, 1],
        &[OPEN, 3, 10, 19, 0],
        &[SEND, 3, 0, 1],
        &[GRANT, 3, 0, 1, 1],
        &[CRASH, 7],
    ])
}

/// The words begin with the name of the rule that is broken.
fn broken(words: &str, change: fn(&mut Machine)) {
    let mut plant = busy();
    assert!(plant.whole());
    change(&mut plant);
    let rule = plant.first_broken().map(|rule| format!("{:?}", rule));
    assert_eq!(rule.as_deref(), words.get(..2), "{}", words);
    assert!(!plant.whole());
    refused(&plant, &[0], 2);
    refused(&plant, &[CRASH, 1], 2);
}

fn still_whole(what: &str, change: fn(&mut Machine)) {
    let mut plant = busy();
    change(&mut plant);
    assert!(plant.whole(), "wrongly refused: {}", what);
}

#[test]
fn cleared_tables_are_an_empty_plant() {
    let mut plant = busy();
    plant.output = [7; OUTPUT];
    plant.clear();
    assert_eq!(plant.output, [7; OUTPUT]);
    plant.output = [0; OUTPUT];
    assert!(plant == empty());
}

#[test]
fn broken_ranges() {
    broken("W1 first above last", |m| m.firsts[4] = 1);
    broken("W1 last too high", |m| m.lasts[0] = 1_000_000_000);
    broken("W1 copy kind", |m| m.kinds[place(2, 0)] = 3);
    broken("W1 value below first", |m| m.values[place(2, 5)] = 9);
    broken("W1 value above last + 1", |m| m.values[place(2, 5)] = 21);
    broken("W1 sent count", |m| m.sent[place(2, 0)] = 10_000);
    broken("W1 Release to too large", |m| m.release_to[place(0, 0)] = 8);
    broken("W1 Release to itself", |m| m.release_to[place(0, 0)] = 0);
    broken("W1 Release kind", |m| m.release_kind[place(0, 0)] = 3);
    broken("W1 Release value low", |m| m.release_value[place(3, 0)] = 9);
    broken("W1 Release value high", |m| m.release_value[place(3, 0)] = 21);
    broken("W1 Release without a transfer", |m| {
        m.release_kind[place(2, 3)] = EXCLUSIVE;
        m.release_to[place(2, 3)] = 1;
        m.release_value[place(2, 3)] = 10;
    });
    broken("W1 station mark", |m| m.stations[6] = 2);
    broken("W1 job mark", |m| m.jobs[0].mark = 2);
    broken("W1 job station", |m| m.jobs[0].station = 8);
    broken("W1 lock series", |m| m.jobs[0].locks[1].series = 64);
    broken("W1 lock mode", |m| m.jobs[0].locks[1].mode = 3);
    still_whole("value last + 1 of a void copy", |m| m.values[place(2, 5)] = 20);
    still_whole("9,999 sent", |m| m.sent[place(2, 0)] = 9_999);
}

#[test]
fn broken_tokens() {
    broken("W2 second exclusive", |m| m.kinds[place(2, 1)] = EXCLUSIVE);
    broken("W2 share beside exclusive", |m| m.kinds[place(2, 1)] = SHARED);
    broken("W2 copy beside one under way", |m| m.kinds[place(0, 3)] = EXCLUSIVE);
    broken("W2 no token", |m| m.kinds[place(3, 1)] = VOID);
    broken("W2 values differ", |m| m.values[place(1, 2)] = 11);
    broken("W2 value under way differs", |m| {
        m.received[place(1, 2) * 8] = 0;
        m.release_value[place(1, 0)] = 11;
    });
    still_whole("the value of a delivered Release", |m| m.release_value[place(3, 0)] = 15);
}

#[test]
fn broken_received_numbers() {
    broken("W3 above the sent count", |m| m.received[place(2, 1) * 8] = 1);
    broken("W3 another has the number", |m| m.received[place(3, 5) * 8] = 1);
    broken("W3 from itself", |m| m.received[place(3, 0) * 8] = 1);
    still_whole("an earlier number elsewhere", |m| {
        m.sent[place(3, 0)] = 2;
        m.received[place(3, 1) * 8] = 2;
        m.received[place(3, 5) * 8] = 1;
    });
}

#[test]
fn broken_jobs() {
    broken("W4 station down", |m| m.stations[0] = 0);
    broken("W4 same series twice", |m| {
        m.jobs[1].locks[1] = m.jobs[1].locks[0];
    });
    broken("W4 series not open", |m| m.jobs[0].locks[1].series = 9);
    broken("W4 exclusive lock, share copy", |m| m.jobs[0].locks[1].mode = EXCLUSIVE);
    broken("W4 share lock, exclusive copy", |m| {
        m.jobs[0].locks[0] = Lock { series: 2, mode: SHARED, count: 0 };
    });
    broken("W4 second lock on an exclusive copy", |m| {
        m.jobs[1].locks[1] = Lock { series: 2, mode: EXCLUSIVE, count: 0 };
    });
    broken("W4 drawn under a share lock", |m| m.jobs[0].locks[1].count = 1);
    broken("W4 drawn too much", |m| m.jobs[0].locks[0].count = 11);
}

#[test]
fn broken_zeros() {
    broken("W5 unused slot, station", |m| m.jobs[9].station = 1);
    broken("W5 unused slot, lock", |m| m.jobs[9].locks[3].count = 1);
    broken("W5 unused lock, series", |m| m.jobs[0].locks[2].series = 1);
    broken("W5 unused lock, count", |m| m.jobs[0].locks[3].count = 1);
    broken("W5 used lock after an unused one", |m| {
        m.jobs[1].locks[1] = m.jobs[1].locks[0];
        m.jobs[1].locks[0] = Lock::default();
    });
    broken("W5 Release that doesn't stand, to", |m| m.release_to[place(2, 0)] = 1);
    broken("W5 Release that doesn't stand, value", |m| m.release_value[place(2, 0)] = 10);
    broken("W5 closed series, last", |m| m.lasts[9] = 1);
    broken("W5 closed series, copy", |m| m.kinds[place(9, 3)] = 1);
    broken("W5 closed series, value", |m| m.values[place(9, 3)] = 1);
    broken("W5 closed series, sent", |m| m.sent[place(63, 7)] = 1);
    broken("W5 closed series, Release to", |m| m.release_to[place(9, 3)] = 1);
    broken("W5 closed series, Release kind", |m| m.release_kind[place(9, 3)] = 1);
    broken("W5 closed series, Release value", |m| m.release_value[place(9, 3)] = 1);
    broken("W5 closed series, received", |m| m.received[4_095] = 1);
    still_whole("any output", |m| m.output = [u32::MAX; OUTPUT]);
}
