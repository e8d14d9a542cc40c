//! Peers that misbehave, each at an engine that serves an honest one beside it: the engine stands, the
//! honest peer is answered, and the other one has what it asked for.

#[path = "common/scene.rs"]
mod scene;

use masttomato::engine::{Answered, LONGEST_BODY, Misbehaved, Session, Ticket};
use masttomato::space::{Outcome, Reason, Refusal, SpaceError, Status, Value};
use scene::{HERE, HONEST, HOSTILE, Scene, call, frame, id, record, sent};
use std::time::Duration;

// It reads all it is given, and never acknowledges: a reply that finds no room waits, and nothing
// panics. As many calls as an honest peer may have open are served. The object that waits to answer it
// runs no other call; so after five seconds its session closes, and others are served again.
#[test]
fn one_that_never_acknowledges() {
    let mut scene = Scene::new();
    for number in 1..=4_096 {
        scene.send(&sent(number, &call(number, &[0]))).expect("a call");
        let _ = scene.turn();
        scene.read();
    }
    scene.serve_all();
    assert_eq!((scene.served, scene.session(HOSTILE)), (4_096, Session::Open));
    // All 4,096 replies wait for acknowledgements; those to further calls find no room among them.
    for number in 4_097..=4_150 {
        scene.send(&sent(number, &call(number, &[0]))).expect("a call");
        let _ = scene.turn();
    }
    scene.serve_all();
    assert!(scene.owner.counts().wants > 0 && scene.owner.counts().jobs_finished <= 4_096);
    let since = scene.now;
    while scene.session(HOSTILE) == Session::Open {
        scene.now += Duration::from_millis(100);
        let _ = scene.turn();
        assert!(scene.now - since < Duration::from_secs(7), "it is never given up");
    }
    assert!(scene.now - since >= Duration::from_secs(5));
    assert_eq!(scene.session(HOSTILE), Session::Closed(Reason::Asked));
    scene.assert_serves();
}

#[test]
fn one_that_speaks_in_anothers_name() {
    let mut scene = Scene::new();
    scene.assert_serves();
    let mut close = frame(HONEST, HERE, 0, &[1]);
    close[2] = 3;
    assert_eq!(scene.send(&record(0, 1, &close)), Err(Misbehaved::OtherSender));
    let both = [frame(HOSTILE, HERE, 1, &call(1, &[0])), close].concat();
    assert_eq!(scene.send(&record(0, 1, &both)), Err(Misbehaved::OtherSender));
    assert_eq!(scene.turn().jobs.len() + scene.served, 1, "nothing of the record was heard");
    assert_eq!(scene.session(HONEST), Session::Open);
    let elsewhere = frame(HOSTILE, HONEST, 1, &call(1, &[0]));
    assert_eq!(scene.send(&record(0, 1, &elsewhere)), Err(Misbehaved::OtherReceiver));
    assert_eq!(scene.owner.counts().misbehaved, 3);
    scene.assert_serves();
}

// What isn't read is kept up to one record; no more is transmitted to it.
#[test]
fn one_that_sends_long_frames_and_reads_nothing() {
    let mut scene = Scene::new();
    let bytes = [&[2, 0, 0, 0x1f, 0x40][..], &vec![7; 8_000]].concat();
    let long = [&[3, 0, 2][..], &bytes, &[2, 0, 0, 0x1e, 0x00], &vec![7; 0x1e00]].concat();
    for number in 1..=300 {
        scene.send(&sent(number, &call(number, &long))).expect("a call");
        for job in scene.owner.turn(scene.now).jobs {
            scene.owner.finish(job.job, Outcome::Answer(job.value));
        }
    }
    assert!(scene.owner.output(id(HOSTILE)).left().len() <= LONGEST_BODY + 64);
    let before = scene.owner.counts().frames_out;
    let _ = scene.turn();
    assert_eq!(scene.owner.counts().frames_out, before);
    scene.assert_serves();
}

#[test]
fn one_that_sends_a_byte_a_second() {
    let mut scene = Scene::new();
    let bytes = [sent(1, &call(1, &[0])), sent(2, &call(2, &[0]))].concat();
    for byte in bytes {
        scene.now += Duration::from_secs(1);
        scene.send(&[byte]).expect("a part of a record");
        let _ = scene.turn();
    }
    scene.serve_all();
    assert_eq!(scene.served, 2);
    scene.assert_serves();
}

// It is pinged after five seconds, and ten seconds later its connection is to be dropped. Its session
// stays open until it is given up.
#[test]
fn one_that_is_silent_after_connecting() {
    let mut scene = Scene::new();
    let mut silent_at = None;
    while silent_at.is_none() && scene.now < Duration::from_secs(60) {
        scene.now += Duration::from_millis(500);
        scene.assert_serves();
        let was_silent = scene.turn().silent.contains(&id(HOSTILE));
        silent_at = was_silent.then_some(scene.now.as_secs());
    }
    assert_eq!(silent_at, Some(15));
    scene.owner.disconnected(id(HOSTILE), scene.now);
    assert!(matches!(scene.session(HOSTILE), Session::Down { .. }));
    scene.now += Duration::from_secs(599);
    scene.owner.bytes(id(HONEST), &record(2, 0, &[]), scene.now).expect("a pong");
    let _ = scene.turn();
    assert!(matches!(scene.session(HOSTILE), Session::Down { .. }));
    scene.now += Duration::from_secs(2);
    let _ = scene.turn();
    assert_eq!(scene.session(HOSTILE), Session::Closed(Reason::RetriesUsedUp));
    assert_eq!(scene.session(HONEST), Session::Open);
}

// No honest space has more than 4,096 calls open: one more closes the session, and its memory is free.
#[test]
fn one_that_makes_4_097_calls() {
    let mut scene = Scene::new();
    for number in 1..=4_096 {
        scene.send(&sent(number, &call(number, &[0]))).expect("a call");
    }
    assert_eq!(scene.session(HOSTILE), Session::Open);
    scene.send(&sent(4_097, &call(4_097, &[0]))).expect("a call");
    assert_eq!(scene.session(HOSTILE), Session::Closed(Reason::Asked));
    assert_eq!(scene.owner.counts().misbehaved, 1);
    scene.assert_serves();
}

// References to objects of its own without end: more than 65,536 surrogates are never asked for, and its
// items wait from then on, those of the honest peer don't.
#[test]
fn one_that_passes_fresh_references_without_end() {
    let mut scene = Scene::new();
    let mut index = 0_u64;
    for number in 1..=2_100 {
        let mut pickle = vec![3, 0, 32];
        for _ in 0..32 {
            index += 1;
            pickle.extend([4, 0, 3]);
            pickle.extend(index.to_be_bytes());
        }
        scene.send(&sent(number, &call(number, &pickle))).expect("a call");
        let _ = scene.turn();
        scene.read();
    }
    assert!(scene.owner.counts().wants > 0);
    assert_eq!(scene.owner.report(scene.now).of_space.surrogates, 65_536);
    assert_eq!((scene.served, scene.session(HOSTILE)), (0, Session::Open));
    scene.assert_serves();
}

// Answers 5 to a call.
fn reply(number: u64) -> Vec<u8> {
    [&[2][..], &number.to_be_bytes(), &[0, 1], &5_i64.to_be_bytes()].concat()
}

// A note, or a reply without its value.
fn note(kind: u8, number: u64) -> Vec<u8> {
    [&[kind][..], &number.to_be_bytes()].concat()
}

// A value that is so many lists, one within the other.
fn nested(levels: usize) -> Vec<u8> {
    [[3, 0, 1].repeat(levels), vec![0]].concat()
}

// References to an object that isn't the owner's, so many in a list.
fn references(count: u8) -> Vec<u8> {
    let one = [4, 0, 3, 0, 0, 0, 0, 0, 0, 0, 1];
    [&[3, 0, count][..], &one.repeat(count.into())].concat()
}

// Those that spell nothing, or have a value beyond its limits.
fn unspelled() -> Vec<(&'static str, Vec<u8>)> {
    let long = |length: u32| [&[2][..], &length.to_be_bytes(), &vec![7; length as usize]].concat();
    vec![
        ("an item of no kind", note(9, 1)),
        ("half an item", call(1, &[0])[..12].to_vec()),
        ("a call without a number", call(0, &[0])),
        ("a call without a value", call(1, &[])),
        ("bytes behind the value", call(1, &[0, 0])),
        ("a value of no kind", call(1, &[9])),
        ("17 levels", call(1, &nested(17))),
        ("8,193 bytes", call(1, &long(8_193))),
        ("bytes that aren't there", call(1, &[2, 0, 0, 0x20, 0])),
        ("257 elements", call(1, &[&[3, 1, 1][..], &[0; 257]].concat())),
        ("33 references", call(1, &references(33))),
        ("a reply of an unknown status", [&note(2, 1)[..], &[4, 0]].concat()),
    ]
}

fn assert_closes(what: &str, item: &[u8], reason: Reason) {
    let mut scene = Scene::new();
    scene.send(&sent(1, item)).expect("a frame");
    scene.serve_all();
    assert_eq!((what, scene.session(HOSTILE)), (what, Session::Closed(reason)));
    assert_eq!((scene.served, scene.session(HONEST)), (0, Session::Open), "{what}");
    scene.assert_serves();
}

// Items that no space sends: they spell nothing, speak of objects that there aren't, or answer what nobody asked. The session
// closes at the first of them, with the reason, and nothing of it is carried out; all other sessions stay.
#[test]
fn one_that_sends_items_that_no_space_sends() {
    for (what, item) in unspelled() {
        assert_closes(what, &item, Reason::BadItem);
    }
    let reference = call(1, &[4, 0, 1, 0, 0, 0, 0, 0, 0, 0, 9]);
    assert_closes("a reference to nothing", &reference, Reason::BadReference);
    assert_closes("a call of nothing", &guess(1, 9), Reason::BadReference);
    assert_closes("a dirty of nothing", &note(4, 9), Reason::BadReference);
    assert_closes("a clean of nothing", &note(7, 9), Reason::BadReference);
    assert_closes("a reply to nothing", &reply(1), Reason::OutOfPlace);
    assert_closes("an answer to no dirty", &note(5, 1), Reason::OutOfPlace);
    assert_closes("a refusal of no dirty", &note(6, 1), Reason::OutOfPlace);
    assert_closes("a settled item that nobody sent", &note(3, 1), Reason::OutOfPlace);
}

// It acknowledges what it was never given, or with a number that no item has.
#[test]
fn one_that_acknowledges_what_it_was_never_given() {
    for ack in [2_u64, 1 << 40] {
        let mut scene = Scene::new();
        let mut bytes = frame(HOSTILE, HERE, 1, &call(1, &[0]));
        bytes[16..24].copy_from_slice(&ack.to_be_bytes());
        scene.send(&record(0, 1, &bytes)).expect("a frame");
        assert_eq!(scene.session(HOSTILE), Session::Closed(Reason::BadItem), "{ack}");
        scene.serve_all();
        assert_eq!(scene.served, 0);
        scene.assert_serves();
    }
}

// Its items come backwards, and after each another one of its number: the first of each counts, and a reply
// among them is given to who waits for it.
#[test]
fn one_that_sends_its_items_backwards_and_two_of_each_number() {
    let mut scene = Scene::new();
    scene.owner.call(Ticket(900), id(HOSTILE).agent(), 0, Value::Unit);
    let _ = scene.turn();
    let items = [call(1, &[0]), call(2, &[0]), reply(1), call(3, &[0])];
    for (number, item) in (1..=4).rev().zip(items.iter().rev()) {
        scene.send(&sent(number, item)).expect("an item");
        scene.send(&sent(number, &call(9, &[0]))).expect("another item");
    }
    let wanted = Answered::Replied { status: Status::Answered, value: Value::Int(5) };
    assert_eq!(scene.turn().answers, [(Ticket(900), wanted)]);
    scene.serve_all();
    assert_eq!((scene.served, scene.session(HOSTILE)), (3, Session::Open));
    scene.assert_serves();
}

// Its frames come of a session in which the owner's end never was, of an unknown version, or of a session that has
// no number.
#[test]
fn one_that_speaks_of_another_session() {
    let other = |place: usize, byte| {
        let mut frame = frame(HOSTILE, HERE, 1, &call(1, &[0]));
        frame[place] = byte;
        record(0, 1, &frame)
    };
    for (place, byte) in [(1, 1), (1, 3), (31, 0)] {
        let mut scene = Scene::new();
        assert_eq!(scene.send(&other(place, byte)), Err(Misbehaved::NoFrame));
        assert_eq!(scene.session(HOSTILE), Session::Open);
        scene.assert_serves();
    }
    for (place, byte) in [(31, 2), (28, 0xff)] {
        let mut scene = Scene::new();
        scene.send(&other(place, byte)).expect("a frame");
        assert_eq!(scene.session(HOSTILE), Session::Closed(Reason::PeerClosed));
        // Nothing but its number was looked at, and nothing is owed for it.
        scene.serve_all();
        assert_eq!((scene.served, scene.read()), (0, 0));
        scene.send(&other(place, byte)).expect("a frame");
        assert_eq!(scene.read(), 0);
        scene.assert_serves();
        // Opened anew, the session has the number that was said, however great, and its frames count from then on.
        let mut number = 1_u32.to_be_bytes();
        number[place - 28] = byte;
        let opened = scene.owner.open(id(HOSTILE), scene.now);
        assert_eq!(opened, Ok(u32::from_be_bytes(number)));
        let served = scene.served;
        scene.send(&other(place, byte)).expect("a frame");
        scene.serve_all();
        assert_eq!((scene.served, scene.session(HOSTILE)), (served + 1, Session::Open));
    }
}

// It says the last number that there is: the session opens under that once, and then no more.
#[test]
fn one_that_uses_the_numbers_of_sessions_up() {
    let mut scene = Scene::new();
    let mut last = frame(HOSTILE, HERE, 1, &call(1, &[0]));
    last[28..32].copy_from_slice(&u32::MAX.to_be_bytes());
    scene.send(&record(0, 1, &last)).expect("a frame");
    assert_eq!(scene.owner.open(id(HOSTILE), scene.now), Ok(u32::MAX));
    scene.owner.close(id(HOSTILE));
    let refused = Err(SpaceError::Refused(Refusal::Limit));
    assert_eq!(scene.owner.open(id(HOSTILE), scene.now), refused);
    assert_eq!(scene.session(HOSTILE), Session::Closed(Reason::Asked));
    scene.assert_serves();
}

// A call of an object by its index, which the peer wasn't given.
fn guess(number: u64, index: u64) -> Vec<u8> {
    let mut item = call(number, &[0]);
    item[9..17].copy_from_slice(&index.to_be_bytes());
    item
}

// The statuses of the replies in all that the owner has for it, a record after the other.
fn statuses(scene: &mut Scene) -> Vec<u8> {
    let mut statuses = Vec::new();
    while !scene.owner.output(id(HOSTILE)).is_empty() {
        let record = scene.owner.output(id(HOSTILE)).left().to_vec();
        let mut left = &record[16..];
        while left.len() > 32 {
            let length = 32 + u32::from_be_bytes([left[24], left[25], left[26], left[27]]) as usize;
            if left[2] == 1 && left[32] == 2 {
                statuses.push(left[32 + 9]);
            }
            left = &left[length..];
        }
        scene.read();
        let _ = scene.turn();
    }
    statuses
}

// It calls an object whose index it guessed: that isn't carried out, and answered as a call of a method that there
// isn't. Once it is listed, as whoever was given the reference is, it is served.
#[test]
fn one_that_guesses_an_index() {
    let mut scene = Scene::new();
    let object = scene.owner.export().expect("room");
    scene.send(&sent(1, &guess(1, object.index))).expect("a call");
    scene.serve_all();
    assert_eq!((scene.served, statuses(&mut scene)), (0, vec![2]));
    assert_eq!(scene.owner.counts().calls_unlisted, 1);
    let mut dirty = vec![4];
    dirty.extend(object.index.to_be_bytes());
    scene.send(&sent(2, &dirty)).expect("a note");
    scene.send(&sent(3, &guess(2, object.index))).expect("a call");
    scene.serve_all();
    assert_eq!((scene.served, statuses(&mut scene)), (1, vec![0]));
    assert_eq!((scene.owner.counts().calls_unlisted, scene.session(HOSTILE)), (1, Session::Open));
    scene.assert_serves();
}

// Nor is it carried out where it closes the session behind its call, or says another number of a session.
#[test]
fn one_that_guesses_an_index_and_goes() {
    let mut scene = Scene::new();
    let object = scene.owner.export().expect("room");
    let mut close = frame(HOSTILE, HERE, 0, &[1]);
    close[2] = 3;
    let both = [frame(HOSTILE, HERE, 1, &guess(1, object.index)), close].concat();
    scene.send(&record(0, 1, &both)).expect("frames");
    scene.serve_all();
    assert_eq!((scene.served, scene.session(HOSTILE)), (0, Session::Closed(Reason::PeerClosed)));
    let claimed = scene.owner.counts();
    assert_eq!(claimed.jobs_claimed, claimed.calls_unlisted);
    scene.assert_serves();
}

// It passes a reference on to an object of the honest peer's that never was. The owner asks that one for it, who takes this
// for the owner's own fault: their session closes. What it did isn't prevented; but their programs may open it anew.
#[test]
fn one_that_passes_on_what_never_was() {
    let mut scene = Scene::new();
    scene.assert_serves();
    let served = scene.served;
    let reference = [4, 0, 2, 0, 0, 0, 0, 0, 0, 0, 9];
    scene.send(&sent(1, &call(1, &reference))).expect("a call");
    scene.meet();
    assert_eq!(scene.session(HONEST), Session::Closed(Reason::PeerClosed));
    assert_eq!((scene.served, scene.session(HOSTILE)), (served, Session::Open));
    scene.serve_all();
    assert_eq!(scene.served, served, "its own call isn't carried out");
    assert_eq!(scene.open_anew(), 2);
    scene.assert_serves();
}

// It says that it has no use for an object that another space has: that one is listed for it as before.
#[test]
fn one_that_gives_back_what_another_has() {
    let mut scene = Scene::new();
    let object = scene.owner.export().expect("room");
    let index = object.index;
    let honest = |seq, kind| record(0, seq, &frame(HONEST, HERE, seq, &note(kind, index)));
    scene.owner.bytes(id(HONEST), &honest(1, 4), scene.now).expect("a note");
    scene.owner.release(object);
    for number in 1..=3 {
        scene.send(&sent(number, &note(7, index))).expect("a note");
        assert_eq!(scene.turn().withdrawn, []);
    }
    assert_eq!((scene.session(HOSTILE), scene.owner.report(scene.now).live), (Session::Open, 1));
    scene.owner.bytes(id(HONEST), &honest(2, 7), scene.now).expect("a note");
    assert_eq!(scene.turn().withdrawn, [index]);
}

// More items in one record than may wait at once: those behind them are kept up to the reach, and there when
// anything comes again; the rest is ignored, and may be others when they come again.
#[test]
fn one_that_sends_400_items_in_one_record() {
    let mut scene = Scene::new();
    for ticket in [901, 902] {
        scene.owner.call(Ticket(ticket), id(HOSTILE).agent(), 0, Value::Unit);
    }
    let _ = scene.turn();
    let items = |replies: [u64; 2]| {
        let item = |number| match replies.iter().position(|reply| *reply == number) {
            Some(place) => reply(place as u64 + 1),
            None => call(number, &[0]),
        };
        let frames = (1..=400).flat_map(|number| frame(HOSTILE, HERE, number, &item(number)));
        record(0, 1, &frames.collect::<Vec<u8>>())
    };
    let answered = |ticket| {
        (Ticket(ticket), Answered::Replied { status: Status::Answered, value: Value::Int(5) })
    };
    scene.send(&items([320, 400])).expect("items");
    scene.serve_all();
    assert_eq!(scene.served, 256);
    scene.send(&sent(1, &call(1, &[0]))).expect("a call");
    assert_eq!(scene.turn().answers, [answered(901)]);
    scene.serve_all();
    assert_eq!(scene.served, 256 + 63);
    scene.send(&items([320, 321])).expect("items");
    assert_eq!(scene.turn().answers, [answered(902)]);
    scene.serve_all();
    assert_eq!((scene.served, scene.session(HOSTILE)), (398, Session::Open));
    scene.assert_serves();
}

// A stamp that would leave none for those that follow isn't risen to.
#[test]
fn one_with_stamps_of_2_to_63() {
    let mut scene = Scene::new();
    scene.owner.record(Box::new(|_: &str| Ok(())));
    for (number, stamp) in [(1, 1 << 63), (2, u64::MAX), (3, (1 << 63) + 5)] {
        let bytes = record(0, stamp, &frame(HOSTILE, HERE, number, &call(number, &[0])));
        scene.send(&bytes).expect("a call");
    }
    scene.serve_all();
    assert_eq!(scene.served, 3);
    assert!(scene.owner.stamp() < 1_000);
    scene.assert_serves();
}

#[test]
fn one_that_sends_records_of_every_wrong_length() {
    let good = sent(1, &call(1, &[0]));
    let length = good.len() - 16;
    for wrong in (0..2 * length).filter(|wrong| *wrong != length && *wrong != 0) {
        let mut scene = Scene::new();
        let mut bytes = good.clone();
        bytes[..4].copy_from_slice(&(wrong as u32).to_be_bytes());
        let said = scene.send(&bytes);
        match wrong < length {
            true => assert_eq!(said, Err(Misbehaved::CutFrame), "{wrong}"),
            false => assert_eq!(said, Ok(()), "{wrong}: the rest of the record is waited for"),
        }
        scene.serve_all();
        assert_eq!(scene.served, 0);
        scene.assert_serves();
    }
    for (kind, length) in [(0, LONGEST_BODY as u32 + 1), (0, u32::MAX), (1, 1), (2, 9), (3, 1)] {
        let mut scene = Scene::new();
        let mut bytes = record(kind, 0, &[]);
        bytes[..4].copy_from_slice(&length.to_be_bytes());
        assert_eq!(scene.send(&bytes), Err(Misbehaved::LongRecord));
        scene.assert_serves();
    }
}

// Whatever bytes come, nothing panics: random ones, and a good record with any byte changed.
#[test]
fn one_that_sends_garbage() {
    let mut state = 88_u64;
    let mut next = move || {
        state ^= state << 13;
        state ^= state >> 7;
        state ^= state << 17;
        state
    };
    let good = [sent(1, &call(1, &[0])), record(1, 0, &[]), sent(2, &[3, 0, 0, 0, 0, 0, 0, 0, 9])]
        .concat();
    for _ in 0..3_000 {
        let mut scene = Scene::new();
        let mut bytes = good.clone();
        for _ in 0..1 + next() % 3 {
            let place = (next() >> 11) as usize % bytes.len();
            bytes[place] = (next() >> 13) as u8;
        }
        if next() % 9 == 0 {
            bytes = (0..next() % 200).map(|_| (next() >> 17) as u8).collect();
        }
        let _said = scene.send(&bytes);
        scene.serve_all();
        assert_eq!(scene.session(HONEST), Session::Open);
        scene.assert_serves();
    }
}
