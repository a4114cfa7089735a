//! Times: of the clock, and of a processor in the program's own code (user time), which other programs on the machine alter less.
use std::time::Instant;

/// The least seconds of several rounds.
pub fn least(rounds: usize, mut work: impl FnMut()) -> f64 {
    let round = |_| {
        let start = Instant::now();
        work();
        start.elapsed().as_secs_f64()
    };
    (0..rounds).map(round).fold(f64::INFINITY, f64::min)
}

const SELF: i32 = 0;
const CHILDREN: i32 = -1;

/// Seconds and microseconds in user time and in system time, and 14 counts that are not read here.
#[repr(C)]
struct Usage([i64; 18]);

extern "C" {
    fn getrusage(who: i32, usage: *mut Usage) -> i32;
}

fn user_so_far(who: i32) -> f64 {
    let mut usage = Usage([0; 18]);
    assert_eq!(unsafe { getrusage(who, &mut usage) }, 0);
    usage.0[0] as f64 + usage.0[1] as f64 * 1e-6
}

/// Seconds of measuring that are enough, and the most rounds.
const ENOUGH: f64 = 0.5;
const MOST_ROUNDS: usize = 10;

fn user_mean(who: i32, most: usize, mut work: impl FnMut()) -> f64 {
    let (start, before) = (Instant::now(), user_so_far(who));
    for rounds in 1.. {
        work();
        if rounds == most || start.elapsed().as_secs_f64() > ENOUGH {
            return (user_so_far(who) - before) / rounds as f64;
        }
    }
    unreachable!()
}

/// The user seconds of what this program does, a round.
pub fn user(work: impl FnMut()) -> f64 {
    user_mean(SELF, 1000, work)
}

/// The user seconds of the programs that it starts and waits for, a round.
pub fn user_of_children(work: impl FnMut()) -> f64 {
    user_mean(CHILDREN, MOST_ROUNDS, work)
}
