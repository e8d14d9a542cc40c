//! What a space says by its own methods.

mod common;

use common::file;
use masttomato::space::{
    Answer, Arrived, BirthError, CallResult, Counts, Due, Event, Frame, FrameFault, FrontItem,
    Limits, Outcome, PeerCounts, PickleFault, Reason, Reference, Refusal, ReplyFate, Space,
    SpaceError, SpaceId, Status, StreamError, Use, Value,
};

fn id(number: u16) -> SpaceId {
    SpaceId::new(number).expect("a space")
}

// All spaces from 1 on, each with a trace.
fn spaces<const N: usize>() -> [Space; N] {
    std::array::from_fn(|place| {
        let mut space = Space::new(id(place as u16 + 1), id(N as u16), Limits::default()).unwrap();
        space.keep_trace();
        space
    })
}

fn refused(refusal: Refusal) -> SpaceError {
    SpaceError::Refused(refusal)
}

fn used(left: Use) -> Result<(), SpaceError> {
    Err(refused(Refusal::StillUsed(left)))
}

// Carries frames to and fro, and has both do what they can, until there are no more.
fn exchange(one: &mut Space, other: &mut Space) {
    while carry(one, other) | carry(other, one) {}
}

fn carry(from: &mut Space, to: &mut Space) -> bool {
    let frames = from.transmit(to.id()).unwrap();
    for frame in frames.iter() {
        to.arrive(&frame).unwrap();
    }
    while to.act(from.id()).is_ok() | to.settle().is_ok() | to.clean().is_ok() {}
    !frames.is_empty()
}

#[test]
fn a_reference_lives_as_long_as_somebody_holds_it() {
    let [mut one, mut two, mut three] = spaces();
    let object = one.export().unwrap();
    let call = one.call(id(2).agent(), 1, &Value::Ref(object)).unwrap();
    one.release(object).unwrap();
    assert_eq!(one.withdraw(object.index), used(Use::InTransit));

    exchange(&mut one, &mut two);
    two.dup(object).unwrap();
    let job = two.claim().unwrap();
    assert_eq!((job.client, job.target, job.value), (id(1), 0, Value::Ref(object)));
    assert_eq!(two.finish(job.job, &Outcome::Answer(Value::Unit)), Ok(ReplyFate::HandedOn));
    assert!(!one.reply_ready(call));
    exchange(&mut one, &mut two);
    assert!(one.reply_ready(call));
    let replied = CallResult::Replied { status: Status::Answered, value: Value::Unit };
    assert_eq!(one.take_reply(call), Ok(replied));
    assert!(one.lists(object.index, id(2)) && !one.lists(object.index, id(3)));
    assert_eq!(one.withdraw(object.index), used(Use::Listed));

    two.call(id(3).agent(), 1, &Value::Ref(object)).unwrap();
    two.release(object).unwrap();
    exchange(&mut two, &mut three);
    exchange(&mut one, &mut three);
    exchange(&mut two, &mut three);
    exchange(&mut one, &mut two);
    assert!(one.lists(object.index, id(3)) && !one.lists(object.index, id(2)));
    let job = three.claim().unwrap();
    three.finish(job.job, &Outcome::Fault(Value::Int(7))).unwrap();
    exchange(&mut one, &mut three);
    assert_eq!(one.work().withdraw, Some(object.index));
    assert_eq!(one.withdraw(object.index), Ok(()));
    assert_eq!(one.withdraw(object.index), Err(refused(Refusal::NoObject)));
    assert_eq!(one.withdraw(0), used(Use::Agent));
}

#[test]
fn a_stream_may_be_cut_anywhere() {
    let mut stream = Vec::new();
    let [mut one, _] = spaces();
    for number in 0..5 {
        let value = Value::List(vec![Value::Int(number), Value::Bytes(vec![1; 50])]);
        one.call(id(2).agent(), 0, &value).unwrap();
    }
    stream.extend_from_slice(one.transmit(id(2)).unwrap().as_bytes());
    let [_, mut whole] = spaces();
    assert_eq!(whole.push(id(1), &stream), Ok(5));
    assert_eq!(whole.push(id(1), &stream), Err(StreamError::Waiting));
    let mut arrivals = 0;
    while let Some(arrived) = whole.arrive_next() {
        assert_eq!(arrived, Ok(Arrived::Took(1)));
        arrivals += 1;
    }
    assert_eq!(arrivals, 5);
    for size in 1..stream.len() {
        let [_, mut cut] = spaces();
        for piece in stream.chunks(size) {
            cut.push(id(1), piece).unwrap();
            while let Some(arrived) = cut.arrive_next() {
                arrived.unwrap();
            }
        }
        assert_eq!(cut.trace().unwrap().to_string(), whole.trace().unwrap().to_string());
    }
}

#[test]
fn a_stream_of_other_bytes_is_refused_until_it_is_restarted() {
    let [mut one, mut two] = spaces();
    one.call(id(2).agent(), 0, &Value::Unit).unwrap();
    let frames = one.transmit(id(2)).unwrap();
    let fault = Err(StreamError::Fault(FrameFault::Version));
    let mut changed = frames.as_bytes().to_vec();
    changed[1] = 9;
    assert_eq!(two.push(id(1), &changed), fault);
    assert_eq!(two.push(id(1), frames.as_bytes()), fault);
    two.restart(id(1));
    assert_eq!(two.push(id(1), frames.as_bytes()), Ok(1));
    assert_eq!(two.arrive_next(), Some(Ok(Arrived::Took(1))));
    assert_eq!(two.arrive_next(), None);
}

// Frames of another space than the peer whose stream it is, and for another space: none of them waits, nothing of the space
// has changed, and the stream goes on behind them.
#[test]
fn a_piece_with_a_frame_of_others_is_refused() {
    let [mut one, mut two, mut three] = spaces::<3>();
    one.call(id(2).agent(), 0, &Value::Unit).unwrap();
    three.call(id(2).agent(), 0, &Value::Unit).unwrap();
    let [ones, threes] = [&mut one, &mut three].map(|space| space.transmit(id(2)).unwrap());
    let before = (two.counts(), two.work());
    // The stream of space 3 has what is from space 1; that of space 1 has both; and space 3 has what is for space 2.
    let both = [ones.as_bytes(), threes.as_bytes()].concat();
    assert_eq!(two.push(id(3), ones.as_bytes()), Err(StreamError::OfOthers));
    assert_eq!(two.push(id(1), &both), Err(StreamError::OfOthers));
    assert_eq!(three.push(id(1), ones.as_bytes()), Err(StreamError::OfOthers));
    assert_eq!((two.arrive_next(), three.arrive_next()), (None, None));
    assert_eq!((two.counts(), two.work()), before);
    assert_eq!(two.push(id(1), ones.as_bytes()), Ok(1));
    assert_eq!(two.arrive_next(), Some(Ok(Arrived::Took(1))));
    assert_eq!(two.push(id(3), threes.as_bytes()), Ok(1));
}

// What came is seen before it is acted on, and how much there is.
#[test]
fn what_a_space_has_is_counted_and_what_came_is_seen() {
    let [mut one, mut two] = spaces::<2>();
    let object = one.export().unwrap();
    let agent = id(1).agent();
    let value = Value::List(vec![Value::Ref(object), Value::Ref(agent), Value::Ref(object)]);
    let call = one.call(id(2).agent(), 7, &value).unwrap();
    let pinned = PeerCounts { pinned: 1, unacknowledged: 1, ..PeerCounts::default() };
    assert_eq!(one.peer_counts(id(2)), pinned);
    assert_eq!(one.counts(), Counts { live: 1, calls: 1, ..Counts::default() });
    assert_eq!(two.front(id(1)), None);
    for frame in one.transmit(id(2)).unwrap().iter() {
        two.arrive(&frame).unwrap();
    }
    assert_eq!(two.peer_counts(id(1)), PeerCounts { inbox: 1, ..PeerCounts::default() });
    let front = two.front(id(1)).unwrap();
    assert_eq!(front.is, FrontItem::Call { call, target: 0, method: 7, references: 3 });
    two.act(id(1)).unwrap();
    assert_eq!(two.counts(), Counts { surrogates: 1, waiting: 1, ..Counts::default() });
    assert_eq!((two.peer_counts(id(1)).waiting, two.peer_counts(id(1)).ready), (1, 0));
    assert_eq!((two.peer_counts(id(1)).surrogates, one.peer_counts(id(2)).surrogates), (1, 0));
    exchange(&mut one, &mut two);
    assert_eq!(two.counts(), Counts { surrogates: 1, ready: 1, ..Counts::default() });
    assert_eq!(one.peer_counts(id(2)).pinned, 0);
    assert_eq!((two.peer_counts(id(1)).waiting, two.peer_counts(id(1)).ready), (0, 1));
    two.claim().unwrap();
    assert_eq!(two.peer_counts(id(1)).ready, 0);
    assert_eq!((two.counts().running, two.counts().messages()), (1, 1));
    // A session that has closed has nothing in front, and no surrogates.
    two.close(id(1)).unwrap();
    assert_eq!(two.peer_counts(id(1)).surrogates, 0);
    assert_eq!((two.front(id(1)), two.front(id(2))), (None, None));
}

// The replies are told in the order of their coming, and a call that a close ended has none.
#[test]
fn the_reply_that_became_ready_first_is_the_next() {
    let [mut one, mut two, mut three] = spaces();
    let mut call = |peer| one.call(id(peer).agent(), 0, &Value::Unit).unwrap();
    let [first, second, third] = [2, 3, 2].map(&mut call);
    exchange(&mut one, &mut two);
    exchange(&mut one, &mut three);
    assert_eq!(one.next_reply(), None);
    let answer = |space: &mut Space| {
        let job = space.claim().unwrap().job;
        space.finish(job, &Outcome::Answer(Value::Unit)).unwrap();
    };
    answer(&mut three);
    exchange(&mut one, &mut three);
    answer(&mut two);
    exchange(&mut one, &mut two);
    assert_eq!(one.next_reply(), Some(second));
    one.take_reply(second).unwrap();
    assert_eq!(one.next_reply(), Some(first));
    one.close(id(2)).unwrap();
    assert_eq!(one.next_reply(), Some(first));
    one.take_reply(first).unwrap();
    assert_eq!(one.next_reply(), None);
    assert_eq!(one.take_reply(third), Ok(CallResult::Ended));
}

#[test]
fn a_value_without_a_pickle_is_refused_in_its_turn() {
    let [mut one, mut two] = spaces();
    let value = Value::Bytes(vec![0; 8_193]);
    assert_eq!(value.encode(), Err(PickleFault::Bytes));
    let mut call = |target| one.call(target, 0, &value);
    let held = Reference { owner: id(2), index: 1 };
    assert_eq!(call(id(3).agent()), Err(refused(Refusal::NoPeer)));
    assert_eq!(call(held), Err(refused(Refusal::NotHeld)));
    assert_eq!(call(id(2).agent()), Err(refused(Refusal::TooBig)));
    let too_big = Outcome::Answer(value.clone());
    one.call(id(2).agent(), 0, &Value::Unit).unwrap();
    exchange(&mut one, &mut two);
    let job = two.claim().unwrap().job;
    assert_eq!(two.finish(job, &too_big), Err(refused(Refusal::TooBig)));
    two.close(id(1)).unwrap();
    assert_eq!(two.finish(job, &too_big), Ok(ReplyFate::Dropped));
    assert_eq!(two.finish(job, &too_big), Err(refused(Refusal::NoJob)));
    assert_eq!(two.call(id(1).agent(), 0, &value), Err(refused(Refusal::Closed)));
}

#[test]
fn what_is_due_is_said() {
    let [mut one, mut two] = spaces();
    assert_eq!(one.due(id(2)), Due::Nothing);
    one.call(id(2).agent(), 0, &Value::Unit).unwrap();
    assert_eq!((one.due(id(2)), one.work().send(id(2))), (Due::New, true));
    let frames = one.transmit(id(2)).unwrap();
    assert_eq!(one.due(id(2)), Due::Again);
    for frame in frames.iter() {
        two.arrive(&frame).unwrap();
    }
    assert_eq!((two.due(id(1)), two.work().act(id(1))), (Due::Ack, true));
    assert_eq!(two.close(id(1)), Ok(Reason::Asked));
    assert_eq!(two.due(id(1)), Due::Close);
    let close = two.transmit(id(1)).unwrap().iter().next().unwrap();
    assert_eq!(one.arrive(&close), Ok(Arrived::Closed(Reason::PeerClosed)));
}

// ---- items that come early ------------------------------------------------------------------------

// Space 1, which has called space 2 so often, and the frames of its first Transmit.
fn calling(numbers: std::ops::Range<i64>) -> (Space, Vec<Frame>) {
    let mut one = Space::new(id(1), id(2), Limits::new(64, 255).unwrap()).unwrap();
    for number in numbers {
        one.call(id(2).agent(), 0, &Value::Int(number)).unwrap();
    }
    let frames = one.transmit(id(2)).unwrap().iter().collect();
    (one, frames)
}

// A frame of space 1 with an item of this number.
fn numbered(seq: u64) -> Frame {
    let (_, frames) = calling(0..1);
    let mut bytes = frames[0].as_bytes().to_vec();
    bytes[8..16].copy_from_slice(&seq.to_be_bytes());
    Frame::from_bytes(bytes).unwrap()
}

fn took(space: &mut Space, frame: &Frame) -> u64 {
    match space.arrive(frame) {
        Ok(Arrived::Took(count)) => count,
        other => panic!("{other:?}"),
    }
}

// What space 1's calls of a space were passed, in the order in which they are there.
fn passed_to(space: &mut Space) -> Vec<Value> {
    while space.act(id(1)).is_ok() {}
    let mut next = || {
        let job = space.claim().ok()?;
        space.finish(job.job, &Outcome::NoMethod).unwrap();
        Some(job.value)
    };
    std::iter::from_fn(&mut next).collect()
}

fn ack_of(space: &mut Space) -> u64 {
    space.transmit(id(1)).unwrap().iter().next().expect("an Ack").ack()
}

#[test]
fn an_item_that_comes_early_is_kept_until_those_before_it_come() {
    let ((_, frames), [_, mut two]) = (calling(1..5), spaces());
    assert_eq!([3, 1].map(|place| took(&mut two, &frames[place])), [0, 0]);
    // What is kept isn't acknowledged; but that something came is said.
    assert_eq!((two.due(id(1)), two.work().act(id(1))), (Due::Ack, false));
    assert_eq!(ack_of(&mut two), 1);
    assert_eq!([0, 2, 3].map(|place| took(&mut two, &frames[place])), [2, 2, 0]);
    assert_eq!(ack_of(&mut two), 5);
    assert_eq!(passed_to(&mut two), [1, 2, 3, 4].map(Value::Int));
}

#[test]
fn of_two_items_of_one_number_the_first_is_kept() {
    let ((_, frames), (_, others), [_, mut two]) = (calling(1..3), calling(11..13), spaces());
    assert_eq!([&others[1], &frames[1], &frames[0]].map(|frame| took(&mut two, frame)), [0, 0, 2]);
    assert_eq!([&others[0], &frames[1]].map(|frame| took(&mut two, frame)), [0, 0]);
    assert_eq!(passed_to(&mut two), [1, 12].map(Value::Int));
}

#[test]
fn an_item_is_kept_up_to_63_ahead() {
    let [_, mut two] = spaces();
    assert_eq!([66, 65, 64].map(|seq| took(&mut two, &numbered(seq))), [0, 0, 0]);
    assert!((1..63).all(|seq| took(&mut two, &numbered(seq)) == 1));
    // 65 was 64 ahead, and so isn't there.
    assert_eq!([63, 66, 65].map(|seq| took(&mut two, &numbered(seq))), [2, 0, 2]);
    let [_, mut all] = spaces();
    assert!((2..=64).rev().all(|seq| took(&mut all, &numbered(seq)) == 0));
    assert_eq!([took(&mut all, &numbered(1)), ack_of(&mut all)], [64, 65]);
}

#[test]
fn a_full_inbox_keeps_what_is_behind_it() {
    let [_, mut two] = spaces();
    assert!((1..=256).all(|seq| took(&mut two, &numbered(seq)) == 1));
    assert_eq!([257, 258].map(|seq| took(&mut two, &numbered(seq))), [0, 0]);
    assert_eq!(ack_of(&mut two), 257);
    two.act(id(1)).unwrap();
    // There is room for one; but a space accepts when a frame of data comes, and at nothing else.
    let mut ack = numbered(1).as_bytes()[..32].to_vec();
    ack[2] = 2;
    [8..16, 24..28].into_iter().for_each(|field| ack[field].fill(0));
    assert_eq!(took(&mut two, &Frame::from_bytes(ack).unwrap()), 0);
    assert_eq!(two.due(id(1)), Due::Nothing);
    assert_eq!(took(&mut two, &numbered(1)), 1);
    assert_eq!(took(&mut two, &numbered(1)), 0, "it is full again");
    while two.act(id(1)).is_ok() {}
    assert_eq!([took(&mut two, &numbered(400)), ack_of(&mut two)], [1, 259]);
}

#[test]
fn a_close_throws_away_what_was_kept() {
    let ((_, frames), [_, mut two]) = (calling(1..3), spaces());
    assert_eq!(took(&mut two, &frames[1]), 0);
    two.close(id(1)).unwrap();
    assert_eq!((took(&mut two, &frames[0]), two.work().act(id(1))), (0, false));
    assert_eq!(two.act(id(1)), Err(refused(Refusal::Closed)));
}

#[test]
fn a_transmit_repeats_the_first_item_alone() {
    let ((mut one, frames), [_, mut two]) = (calling(1..4), spaces());
    let seqs = |space: &mut Space| -> Vec<u64> {
        space.transmit(id(2)).unwrap().iter().map(|frame| frame.seq()).collect()
    };
    assert_eq!((one.due(id(2)), seqs(&mut one)), (Due::Again, vec![1]));
    one.call(id(2).agent(), 0, &Value::Int(4)).unwrap();
    assert_eq!((one.due(id(2)), seqs(&mut one)), (Due::New, vec![1, 4]));
    assert_eq!([0, 1].map(|place| took(&mut two, &frames[place])), [1, 1]);
    let ack = two.transmit(id(1)).unwrap().iter().next().unwrap();
    assert_eq!(one.arrive(&ack), Ok(Arrived::Took(0)));
    assert_eq!((one.due(id(2)), seqs(&mut one)), (Due::Again, vec![3]));
}

#[test]
fn retries_are_counted() {
    let limits = Limits::new(1, 3).unwrap();
    let mut space = Space::new(id(1), id(2), limits).unwrap();
    let call = space.call(id(2).agent(), 0, &Value::Unit).unwrap();
    space.transmit(id(2)).unwrap();
    let ticks: Vec<_> = (0..4).map(|_| space.tick(id(2))).collect();
    let closed = Ok(Some(Reason::RetriesUsedUp));
    assert_eq!(ticks, [Ok(None), Ok(None), closed, Err(refused(Refusal::Closed))]);
    assert_eq!(space.take_reply(call), Ok(CallResult::Ended));
}

#[test]
fn a_session_takes_so_many_calls_and_no_more() {
    let mut space = Space::new(id(1), id(2), Limits::default()).unwrap();
    let mut made = 0;
    let refusal = loop {
        match space.call(id(2).agent(), 0, &Value::Unit) {
            Ok(_) => made += 1,
            Err(error) => break error,
        }
    };
    assert_eq!((made, refusal), (4_096, refused(Refusal::Limit)));
}

#[test]
fn an_event_and_its_method_are_one() {
    let [mut one, _] = spaces();
    let answer = one.step(&Event::Export).unwrap();
    let Answer::Exported(object) = answer else { panic!("{answer:?}") };
    assert_eq!(one.step(&Event::Dup(object)), Ok(Answer::Done));
    let lines = one.trace().unwrap().lines();
    assert_eq!(lines, "1 export = exported 1.1\n2 dup 1.1 = ok\n");
    one.rise_to(70);
    one.settle().unwrap_err();
    let text = one.trace().unwrap().to_string();
    let first = "trace2 1 of 2 window 8 retry 16 entries 3\n";
    assert_eq!(text, format!("{first}1 export = exported 1.1\n2 dup 1.1 = ok\n71 settle = S10\n"));
}

#[test]
fn a_session_is_opened_anew_and_the_trace_says_so() {
    let [mut one, _] = spaces();
    assert_eq!(one.open(id(2)), Err(refused(Refusal::StillOpen)));
    one.close(id(2)).unwrap();
    assert_eq!(one.step(&"open 2".parse().unwrap()), Ok(Answer::Opened(2)));
    assert_eq!(one.open(id(1)), Err(refused(Refusal::NoPeer)));
    let lines = "1 open 2 = S15\n2 close 2 = closed 1\n3 open 2 = opened 2\n4 open 1 = S1\n";
    assert_eq!(one.trace().unwrap().lines(), lines);
    assert!(
        ["open", "open 0", "open 33", "open 02", "opened 2"]
            .iter()
            .all(|text| text.parse::<Event>().is_err())
    );
}

// A library of another version can't be linked here: so only what is said of one.
#[test]
fn a_library_of_another_version_is_said_to_be_that() {
    let said = "the library nob_host that is linked has functions of version 1; this crate wants those of 4";
    assert_eq!(SpaceError::OtherVersion(1).to_string(), said);
    assert_eq!(BirthError::OtherVersion(1).to_string(), said);
    assert_eq!(masttomato_sys::version(), masttomato_sys::VERSION);
}

// The texts are those of the proved crates.
#[test]
fn refusals_have_the_texts_of_the_proved_crates() {
    let sources = ["nob_model_types/src/refusal", "nob_pickle/src/fault", "nob_frame/src/fault"];
    let sources = sources.map(|source| file(&format!("crates/{source}.rt")));
    let has = |place: usize, text: String| {
        assert!(sources[place].contains(&format!("#[error(\"{text}\")]")), "{text}");
    };
    Refusal::ALL.iter().for_each(|refusal| has(0, refusal.to_string()));
    PickleFault::ALL.iter().for_each(|fault| has(1, fault.to_string()));
    FrameFault::ALL.iter().for_each(|fault| has(2, fault.to_string()));
}
