//! The stand-in beside the proved library: three spaces of each are asked the same, from seeds, and
//! tell the same in numbers and bytes. Where no library is linked there is nothing to compare.

#[cfg(not(nob_host_library))]
#[test]
fn the_stand_in_is_compared_with_the_library() {
    eprintln!("skipped: no libnob_host.a is linked, so nothing is compared with it");
}

#[cfg(nob_host_library)]
mod compared {
    use masttomato_sys::{Answered, Counts, Front, PeerCounts, Tally, Work, proved, stand_in};

    const SPACES: usize = 3;
    const SEEDS: u64 = 2_000;
    const STEPS: u64 = 250;

    /// Asks both of a pair the same: what they answer, which is the same.
    macro_rules! both {
        ($pair:expr, $name:ident $(, $argument:expr)*) => {{
            let (one, other) = $pair;
            let (said, wanted) = (other.$name($($argument),*), one.$name($($argument),*));
            assert_eq!(said, wanted, concat!("of ", stringify!($name)));
            wanted
        }};
    }

    type Pair = (proved::Handle, stand_in::Handle);

    struct Both {
        spaces: Vec<Pair>,
        state: u64,
        frames: Vec<Vec<u8>>,
    }

    impl Both {
        fn new(seed: u64) -> Both {
            let (window, retry) = ([1, 2, 3, 5, 8, 9, 64][seed as usize % 7], 1 + seed % 5);
            let pair = |id: usize| {
                let (id, n) = (id as u16, SPACES as u16);
                let proved = proved::Handle::new(id, n, window, retry).expect("memory");
                (proved, stand_in::Handle::new(id, n, window, retry).expect("numbers"))
            };
            let spaces = (1..=SPACES).map(pair).collect();
            let state = seed.wrapping_mul(0x9e37_79b9_7f4a_7c15) | 1;
            let mut both = Both { spaces, state, frames: Vec::new() };
            for place in (0..SPACES).filter(|place| seed >> place & 1 == 1) {
                both.spaces[place] = both.birth(place as u16 + 1, window, retry);
            }
            both
        }

        // A space whose life begins at random numbers. Those that are out of range are refused by both.
        fn birth(&mut self, id: u16, window: u64, retry: u64) -> Pair {
            loop {
                let [indexes, calls, jobs] = [0; 3].map(|_: u64| self.counted());
                let n = if self.below(20) == 0 { self.below(40) as u16 } else { SPACES as u16 };
                let count = if self.below(20) == 0 { self.below(40) as u16 } else { n };
                let sessions: Vec<u32> = (0..count).map(|_| self.session()).collect();
                let (one, two) = (indexes, calls);
                let proved =
                    proved::Handle::begin_at(id, n, window, retry, one, two, jobs, &sessions);
                let stands =
                    stand_in::Handle::begin_at(id, n, window, retry, one, two, jobs, &sessions);
                match (proved, stands) {
                    (Ok(proved), Ok(stands)) if n == SPACES as u16 => return (proved, stands),
                    (proved, stands) => {
                        let (proved, stands) = (proved.map(drop), stands.map(drop));
                        assert_eq!(proved, stands, "{n} {indexes} {calls} {jobs} {sessions:?}");
                    }
                }
            }
        }

        // A count of what was before: mostly small, seldom about its limit.
        fn counted(&mut self) -> u64 {
            match self.below(12) {
                0 => (1 << 48) - 1 + self.below(3),
                1 => u64::MAX - self.below(2),
                2 => (1 << 40) - 1 + self.below(3),
                _ => self.below(5),
            }
        }

        fn session(&mut self) -> u32 {
            match self.below(12) {
                0 => 0,
                1 => u32::MAX - self.below(2) as u32,
                _ => 1 + self.below(3) as u32,
            }
        }

        fn below(&mut self, bound: u64) -> u64 {
            self.state ^= self.state << 13;
            self.state ^= self.state >> 7;
            self.state ^= self.state << 17;
            (self.state >> 11) % bound
        }

        // A small number, seldom one out of every range.
        fn number(&mut self) -> u64 {
            if self.below(60) == 0 { u64::MAX } else { self.below(6) }
        }

        // A pickle, seldom bytes that are none.
        fn pickle(&mut self) -> Vec<u8> {
            let mut bytes = match self.below(4) {
                0 => vec![0],
                1 => [&[1][..], &self.below(9).to_be_bytes()].concat(),
                2 => self.reference(),
                _ => [&[3, 0, 2][..], &self.reference(), &self.reference()].concat(),
            };
            if self.below(40) == 0 {
                let place = self.below(bytes.len() as u64) as usize;
                bytes[place] ^= 1 << self.below(8);
            }
            bytes
        }

        fn reference(&mut self) -> Vec<u8> {
            let (owner, index) = (1 + self.below(SPACES as u64) as u16, self.below(4));
            [&[4][..], &owner.to_be_bytes(), &index.to_be_bytes()].concat()
        }

        fn step(&mut self) {
            let place = self.below(SPACES as u64) as usize;
            let (peer, index) = (1 + self.below(SPACES as u64) as u16, self.number());
            let (number, pickle, outcome) = (self.number(), self.pickle(), self.below(3) as u32);
            let method = self.below(3) as u16;
            let what = self.below(24);
            let frame = self.frame();
            let pair = &mut self.spaces[place];
            let _: Answered = match what {
                0 => both!(pair, export),
                1 => both!(pair, dup, peer, index),
                2 => both!(pair, release, peer, index),
                3..=5 => both!(pair, call, peer, index * u64::from(index < 3), method, &pickle),
                6 => both!(pair, take_reply, number),
                7 | 8 => both!(pair, claim),
                9 | 10 => both!(pair, finish, number, outcome, &pickle),
                11..=13 => both!(pair, act, peer),
                14 => both!(pair, settle),
                15 => both!(pair, clean),
                16 => both!(pair, withdraw, index),
                17..=19 => self.transmit(place, peer),
                20..=22 => self.arrive(frame),
                _ if number == 1 => both!(pair, tick, peer),
                _ if number == 2 && outcome == 0 => both!(pair, close, peer),
                _ if number == 4 => both!(pair, open, peer),
                _ if number == 3 => {
                    both!(pair, arrive, &frame[..frame.len().min((index % 6) as usize * 17)])
                }
                _ => both!(pair, arrive, &pickle),
            };
            self.look(place);
        }

        fn transmit(&mut self, place: usize, peer: u16) -> Answered {
            let pair = &mut self.spaces[place];
            let told = both!(pair, transmit, peer);
            let bytes = self.answer(place);
            if told.0 == 0 && told.1.number > 0 {
                self.frames.push(bytes);
            }
            told
        }

        fn frame(&mut self) -> Vec<u8> {
            match self.frames.len() as u64 {
                0 => Vec::new(),
                count => {
                    let back = self.below(count.min(4));
                    self.frames[(count - 1 - back) as usize].clone()
                }
            }
        }

        // What one Transmit gave comes as a stream to whom it is for; seldom to another space, or as another's stream, or with
        // another number in its first frame, which may be in reach of the next one or not, or with another session or version.
        fn arrive(&mut self, mut frames: Vec<u8>) -> Answered {
            let ahead = if self.below(12) == 0 { self.below(70) } else { 0 };
            for (place, one_of) in [(1, 200), (31, 80)] {
                if self.below(one_of) == 0
                    && let Some(byte) = frames.get_mut(place)
                {
                    *byte = self.below(4) as u8;
                }
            }
            if let [_, _, 1, _, _, _, _, _, number @ ..] = &mut frames[..]
                && let Some(number) = number.first_chunk_mut::<8>()
            {
                *number = (u64::from_be_bytes(*number) + ahead).to_be_bytes();
            }
            let [_, _, _, _, _, from, _, to, ..] = frames[..] else { return Default::default() };
            let is_astray = self.below(40) == 0;
            let [place, stream] = match is_astray {
                true => [self.below(SPACES as u64), 1 + self.below(SPACES as u64)],
                false => [u64::from(to) - 1, from.into()],
            };
            let (pair, stream) = (&mut self.spaces[place as usize], stream as u16);
            let cut = frames.len() / 2;
            for piece in [&frames[..cut], &frames[cut..]] {
                both!(&mut *pair, push, stream, piece);
                while both!(&mut *pair, bring_next).0 != 62 {}
            }
            both!(pair, restart, stream);
            Default::default()
        }

        fn answer(&mut self, place: usize) -> Vec<u8> {
            let pair = &mut self.spaces[place];
            let (mut proved, mut stands) = (vec![0; 1 << 20], vec![0; 1 << 20]);
            let length = pair.0.answer(&mut proved);
            assert_eq!(pair.1.answer(&mut stands), length);
            assert_eq!(proved[..length], stands[..length]);
            proved.truncate(length);
            proved
        }

        // All that only looks.
        fn look(&mut self, place: usize) {
            let pair = &mut self.spaces[place];
            let _: Work = both!(&mut *pair, work);
            both!(&mut *pair, value);
            both!(&mut *pair, live);
            both!(&mut *pair, next_reply);
            let _: Counts = both!(&mut *pair, counts);
            for peer in 0..=4 {
                both!(&mut *pair, due, peer);
                let _: Tally = both!(&mut *pair, tally, peer);
                let _: PeerCounts = both!(&mut *pair, peer_counts, peer);
                let _: Front = both!(&mut *pair, front, peer);
                for index in 0..4 {
                    both!(&mut *pair, lists, index, peer);
                    both!(&mut *pair, reply_ready, index);
                }
            }
        }
    }

    #[test]
    fn the_library_is_of_the_version_that_this_crate_wants() {
        assert_eq!(masttomato_sys::version(), masttomato_sys::VERSION);
    }

    #[test]
    fn the_stand_in_is_compared_with_the_library() {
        for seed in 1..=SEEDS {
            let mut both = Both::new(seed);
            for _ in 0..STEPS {
                both.step();
            }
            (0..SPACES).for_each(|place| drop(both.answer(place)));
        }
        println!("{SEEDS} seeds of {STEPS} steps told the same");
    }
}
