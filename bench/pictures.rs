//! Checks, loads and writes pictures of cards with 1,008 slips, in Rattle and in plain Rust beside
//! each other, and prints how long each takes and the ratio.
//!
//! The two take turns within each trial, and the least time of many trials counts.

use std::env;
use std::hint::black_box;
use std::process::ExitCode;
use std::time::Instant;

const SLIPS: usize = 1008;

/// Plain Rust: what a careful programmer writes without proofs.
mod plain {
    use super::SLIPS;

    /// A kind of element, by its code.
    pub trait Kind: Copy {
        const CODE: u8;
        const WIDTH: u32;
        const ZERO: Self;

        fn to_code(self) -> u32;
        fn from_code(code: u32) -> Option<Self>;
    }

    #[derive(Clone, Copy)]
    pub struct Word(u32);

    #[derive(Clone, Copy)]
    pub struct Mask(u8);

    #[derive(Clone, Copy)]
    pub struct Dial(u16);

    impl Kind for Word {
        const CODE: u8 = 1;
        const WIDTH: u32 = 32;
        const ZERO: Self = Word(0);

        fn to_code(self) -> u32 {
            self.0
        }

        fn from_code(code: u32) -> Option<Self> {
            Some(Word(code))
        }
    }

    impl Kind for Mask {
        const CODE: u8 = 2;
        const WIDTH: u32 = 8;
        const ZERO: Self = Mask(0);

        fn to_code(self) -> u32 {
            u32::from(self.0)
        }

        fn from_code(code: u32) -> Option<Self> {
            u8::try_from(code).ok().map(Mask)
        }
    }

    impl Kind for Dial {
        const CODE: u8 = 3;
        const WIDTH: u32 = 14;
        const ZERO: Self = Dial(0);

        fn to_code(self) -> u32 {
            u32::from(self.0 % 10_000)
        }

        fn from_code(code: u32) -> Option<Self> {
            (code < 10_000).then(|| Dial(code as u16))
        }
    }

    #[derive(Clone, Copy)]
    pub struct Head {
        harbours: u8,
        threshold: u8,
        harbour: u8,
        components: u8,
        issue: u32,
        round: u16,
    }

    /// C(n, r), by the same sum as the proved crate plans counts slips by: both sides shall do the
    /// same work.
    fn choose(n: usize, r: usize) -> usize {
        if r == 0 || r == n {
            return 1;
        }
        if r > n {
            return 0;
        }
        choose(n - 1, r - 1) + choose(n - 1, r)
    }

    impl Head {
        fn slips(&self) -> usize {
            usize::from(self.components)
                * choose(usize::from(self.harbours) - 1, usize::from(self.threshold) - 1)
        }
    }

    fn body_length(width: u32, slips: usize) -> usize {
        (slips * width as usize).div_ceil(8)
    }

    /// Hands out codes, a byte at a time.
    struct Reader<'a> {
        bytes: std::slice::Iter<'a, u8>,
        held: u64,
        bits: u32,
    }

    impl<'a> Reader<'a> {
        fn new(body: &'a [u8]) -> Self {
            Reader {
                bytes: body.iter(),
                held: 0,
                bits: 0,
            }
        }

        fn next(&mut self, width: u32) -> u32 {
            while self.bits < width {
                let byte = self.bytes.next().copied().unwrap_or(0);
                self.held = self.held << 8 | u64::from(byte);
                self.bits += 8;
            }
            self.bits -= width;
            let code = self.held >> self.bits;
            self.held &= (1 << self.bits) - 1;
            code as u32
        }
    }

    fn open<K: Kind>(picture: &[u8]) -> Result<(Head, &[u8]), u32> {
        let (head, body) = picture.split_first_chunk::<9>().ok_or(20u32)?;
        if head[0] >> 4 != 1 {
            return Err(21);
        }
        if head[0] & 15 != K::CODE {
            return Err(22);
        }
        let head = Head {
            harbours: head[1] >> 4,
            threshold: head[1] & 15,
            harbour: head[2] >> 4,
            components: head[2] & 15,
            issue: u32::from_be_bytes([head[3], head[4], head[5], head[6]]),
            round: u16::from_be_bytes([head[7], head[8]]),
        };
        if !(1..=10).contains(&head.harbours)
            || !(1..=head.harbours).contains(&head.threshold)
            || !(1..=8).contains(&head.components)
            || !(1..=head.harbours).contains(&head.harbour)
        {
            return Err(23);
        }
        if body.len() != body_length(K::WIDTH, head.slips()) {
            return Err(24);
        }
        Ok((head, body))
    }

    fn check_body<K: Kind>(body: &[u8], slips: usize) -> Result<(), u32> {
        let mut reader = Reader::new(body);
        for _ in 0..slips {
            K::from_code(reader.next(K::WIDTH)).ok_or(25u32)?;
        }
        if reader.held != 0 { Err(26) } else { Ok(()) }
    }

    fn check<K: Kind>(picture: &[u8]) -> Result<Head, u32> {
        let (head, body) = open::<K>(picture)?;
        check_body::<K>(body, head.slips())?;
        Ok(head)
    }

    /// A refused picture leaves the place as it was, so the codes are read twice.
    fn load<K: Kind>(picture: &[u8], place: &mut [K]) -> Result<Head, u32> {
        let (head, body) = open::<K>(picture)?;
        check_body::<K>(body, head.slips())?;
        if place.len() != head.slips() {
            return Err(19);
        }
        let mut reader = Reader::new(body);
        for slip in place {
            *slip = K::from_code(reader.next(K::WIDTH)).ok_or(25u32)?;
        }
        Ok(head)
    }

    fn write<K: Kind>(head: &Head, slips: &[K], place: &mut [u8]) -> Result<(), u32> {
        if !(1..=head.harbours).contains(&head.harbour) {
            return Err(15);
        }
        if slips.len() != head.slips() {
            return Err(19);
        }
        if place.len() != 9 + body_length(K::WIDTH, slips.len()) {
            return Err(18);
        }
        place[0] = 1 << 4 | K::CODE;
        place[1] = head.harbours << 4 | head.threshold;
        place[2] = head.harbour << 4 | head.components;
        place[3..7].copy_from_slice(&head.issue.to_be_bytes());
        place[7..9].copy_from_slice(&head.round.to_be_bytes());
        let mut at = 9;
        let (mut held, mut bits) = (0u64, 0);
        for slip in slips {
            held = held << K::WIDTH | u64::from(slip.to_code());
            bits += K::WIDTH;
            while bits >= 8 {
                bits -= 8;
                place[at] = (held >> bits) as u8;
                at += 1;
            }
        }
        if bits > 0 {
            place[at] = (held << (8 - bits)) as u8;
        }
        Ok(())
    }

    #[inline(never)]
    pub fn checked<K: Kind>(picture: &[u8]) -> u32 {
        check::<K>(picture).err().unwrap_or(0)
    }

    #[inline(never)]
    pub fn loaded<K: Kind>(picture: &[u8], at: usize) -> u32 {
        let mut slips = [K::ZERO; SLIPS];
        match load(picture, &mut slips) {
            Ok(_) => slips.get(at).map_or(0, |slip| slip.to_code()),
            Err(_) => 0,
        }
    }

    #[inline(never)]
    pub fn copied<K: Kind>(picture: &[u8], times: u32, place: &mut [u8]) -> u32 {
        let mut slips = [K::ZERO; SLIPS];
        let Ok(head) = load(picture, &mut slips) else {
            return 0;
        };
        for _ in 0..times {
            if write(&head, &slips, place).is_err() {
                return 0;
            }
        }
        times
    }
}

/// The proved functions, from the static library of the crate picturebench. A slice crosses as a
/// pointer and a length.
mod proved {
    unsafe extern "C" {
        pub fn picturebench_check_word(picture: *const u8, length: usize) -> u32;
        pub fn picturebench_check_mask(picture: *const u8, length: usize) -> u32;
        pub fn picturebench_check_dial(picture: *const u8, length: usize) -> u32;
        pub fn picturebench_load_word(picture: *const u8, length: usize, at: usize) -> u32;
        pub fn picturebench_load_mask(picture: *const u8, length: usize, at: usize) -> u32;
        pub fn picturebench_load_dial(picture: *const u8, length: usize, at: usize) -> u32;
        pub fn picturebench_write_word(picture: *const u8, length: usize, times: u32, place: *mut u8, long: usize) -> u32;
        pub fn picturebench_write_mask(picture: *const u8, length: usize, times: u32, place: *mut u8, long: usize) -> u32;
        pub fn picturebench_write_dial(picture: *const u8, length: usize, times: u32, place: *mut u8, long: usize) -> u32;
    }
}

type Check = unsafe extern "C" fn(*const u8, usize) -> u32;
type Load = unsafe extern "C" fn(*const u8, usize, usize) -> u32;
type Write = unsafe extern "C" fn(*const u8, usize, u32, *mut u8, usize) -> u32;

/// A kind as the benchmark runs it.
struct Work {
    name: &'static str,
    code: u8,
    width: u32,
    limit: u64,
    rattle: (Check, Load, Write),
    rust: (fn(&[u8]) -> u32, fn(&[u8], usize) -> u32, fn(&[u8], u32, &mut [u8]) -> u32),
}

/// A sound picture of harbour 4 of 10, threshold 5, 8 components, and its codes.
fn drawn(work: &Work) -> (Vec<u8>, Vec<u32>) {
    let mut state = 0x9E37_79B9_7F4A_7C15u64;
    let mut codes = Vec::new();
    let mut bits = Vec::new();
    for _ in 0..SLIPS {
        state = state.wrapping_mul(6_364_136_223_846_793_005).wrapping_add(1_442_695_040_888_963_407);
        let code = (state >> 32) % work.limit;
        codes.push(code as u32);
        bits.extend((0..work.width).rev().map(|bit| (code >> bit & 1) as u8));
    }
    bits.resize(bits.len().next_multiple_of(8), 0);
    let mut picture = vec![16 + work.code, 0xA5, 0x48, 0, 0, 0, 7, 0, 1];
    picture.extend(bits.chunks(8).map(|byte| byte.iter().fold(0, |held, bit| held << 1 | bit)));
    (picture, codes)
}

/// The least time of a turn, in ns, of Rattle and of Rust, which take turns.
fn race(trials: usize, turns: u32, mut rattle: impl FnMut(), mut rust: impl FnMut()) -> (f64, f64) {
    let timed = |work: &mut dyn FnMut()| {
        let start = Instant::now();
        work();
        start.elapsed().as_nanos() as f64 / f64::from(turns)
    };
    let (mut first, mut second) = (f64::INFINITY, f64::INFINITY);
    for trial in 0..trials {
        if trial % 2 == 0 {
            first = first.min(timed(&mut rattle));
            second = second.min(timed(&mut rust));
        } else {
            second = second.min(timed(&mut rust));
            first = first.min(timed(&mut rattle));
        }
    }
    (first, second)
}

/// Whether both do the same on the sound picture and on damaged ones.
fn agree(work: &Work, picture: &[u8], codes: &[u32]) -> bool {
    let (check, load, write) = work.rattle;
    let mut damaged = picture.to_vec();
    for bit in (0..8 * picture.len()).step_by(5) {
        damaged[bit / 8] ^= 1 << (bit % 8);
        let found = unsafe { check(damaged.as_ptr(), damaged.len()) };
        if found != (work.rust.0)(&damaged) {
            return false;
        }
        damaged[bit / 8] ^= 1 << (bit % 8);
    }
    for length in 0..12 {
        if unsafe { check(picture.as_ptr(), length) } != (work.rust.0)(&picture[..length]) {
            return false;
        }
    }
    for (at, code) in codes.iter().enumerate() {
        let found = unsafe { load(picture.as_ptr(), picture.len(), at) };
        if found != *code || (work.rust.1)(picture, at) != *code {
            return false;
        }
    }
    let (mut one, mut other) = (vec![0; picture.len()], vec![0; picture.len()]);
    let wrote = unsafe { write(picture.as_ptr(), picture.len(), 1, one.as_mut_ptr(), one.len()) };
    wrote == 1 && (work.rust.2)(picture, 1, &mut other) == 1 && one == picture && other == picture
}

/// Runs the three calls of a kind, prints a line for each, and answers the greatest ratio.
fn run(work: &Work, trials: usize, turns: u32) -> Option<f64> {
    let (picture, codes) = drawn(work);
    if !agree(work, &picture, &codes) {
        println!("{}: Rattle and Rust differ", work.name);
        return None;
    }
    let (check, load, write) = work.rattle;
    let long = picture.len();
    let checking = race(
        trials,
        turns,
        || {
            for _ in 0..turns {
                black_box(unsafe { check(black_box(picture.as_ptr()), long) });
            }
        },
        || {
            for _ in 0..turns {
                black_box((work.rust.0)(black_box(&picture)));
            }
        },
    );
    let loading = race(
        trials,
        turns,
        || {
            for turn in 0..turns as usize {
                black_box(unsafe { load(black_box(picture.as_ptr()), long, turn % SLIPS) });
            }
        },
        || {
            for turn in 0..turns as usize {
                black_box((work.rust.1)(black_box(&picture), turn % SLIPS));
            }
        },
    );
    let (mut one, mut other) = (vec![0; long], vec![0; long]);
    let writing = race(
        trials,
        turns,
        || {
            black_box(unsafe { write(black_box(picture.as_ptr()), long, black_box(turns), one.as_mut_ptr(), long) });
        },
        || {
            black_box((work.rust.2)(black_box(&picture), black_box(turns), &mut other));
        },
    );
    let mut most = 0f64;
    for (call, (rattle, rust)) in [("check", checking), ("load", loading), ("write", writing)] {
        let ratio = rattle / rust;
        most = most.max(ratio);
        println!("{} {call:5}  Rattle {rattle:8.1} ns  Rust {rust:8.1} ns  ratio {ratio:.2}", work.name);
    }
    Some(most)
}

fn main() -> ExitCode {
    let trials = env::args().nth(1).and_then(|word| word.parse().ok()).unwrap_or(60);
    let works = [
        Work {
            name: "word",
            code: 1,
            width: 32,
            limit: 1 << 32,
            rattle: (proved::picturebench_check_word, proved::picturebench_load_word, proved::picturebench_write_word),
            rust: (plain::checked::<plain::Word>, plain::loaded::<plain::Word>, plain::copied::<plain::Word>),
        },
        Work {
            name: "mask",
            code: 2,
            width: 8,
            limit: 1 << 8,
            rattle: (proved::picturebench_check_mask, proved::picturebench_load_mask, proved::picturebench_write_mask),
            rust: (plain::checked::<plain::Mask>, plain::loaded::<plain::Mask>, plain::copied::<plain::Mask>),
        },
        Work {
            name: "dial",
            code: 3,
            width: 14,
            limit: 10_000,
            rattle: (proved::picturebench_check_dial, proved::picturebench_load_dial, proved::picturebench_write_dial),
            rust: (plain::checked::<plain::Dial>, plain::loaded::<plain::Dial>, plain::copied::<plain::Dial>),
        },
    ];
    let mut most = 0f64;
    for work in &works {
        let Some(ratio) = run(work, trials, 1000) else {
            return ExitCode::FAILURE;
        };
        most = most.max(ratio);
    }
    println!("bench: the greatest ratio is {most:.2}");
    ExitCode::SUCCESS
}
