//! Two ways to do the same, or more, timed turn and turn about. The time is
//! that of the processor spent on this thread, so that other work on the
//! machine counts only by what it takes of the caches.

/// Medians in nanoseconds, for one call.
pub struct Times {
    pub library: f64,
    pub plain: f64,
}

impl Times {
    pub fn ratio(&self) -> f64 {
        self.library / self.plain
    }
}

/// So many turns for each, of so many calls.
pub fn side_by_side(
    turns: usize,
    calls: usize,
    mut library: impl FnMut(),
    mut plain: impl FnMut(),
) -> Times {
    let times = in_turn(turns, calls, [&mut library, &mut plain]);
    Times { library: median_of(&times, |turn| turn[0]), plain: median_of(&times, |turn| turn[1]) }
}

/// What a call of each took, turn by turn.
pub fn in_turn<const N: usize>(
    turns: usize,
    calls: usize,
    mut ways: [&mut dyn FnMut(); N],
) -> Vec<[f64; N]> {
    let turn = |_| std::array::from_fn(|way| nanoseconds(calls, ways[way]));
    (0..turns).map(turn).collect()
}

pub fn median_of<T>(turns: &[T], time: impl Fn(&T) -> f64) -> f64 {
    median(turns.iter().map(time).collect())
}

fn nanoseconds(calls: usize, call: &mut dyn FnMut()) -> f64 {
    let start = processor_time();
    for _ in 0..calls {
        call();
    }
    (processor_time() - start) as f64 / calls as f64
}

fn median(mut list: Vec<f64>) -> f64 {
    list.sort_by(f64::total_cmp);
    list[list.len() / 2]
}

#[repr(C)]
struct Timespec {
    seconds: i64,
    nanoseconds: i64,
}

/// CLOCK_THREAD_CPUTIME_ID of Linux.
const THREAD_TIME: i32 = 3;

extern "C" {
    fn clock_gettime(clock: i32, time: *mut Timespec) -> i32;
}

fn processor_time() -> i64 {
    let mut time = Timespec { seconds: 0, nanoseconds: 0 };
    let failed = unsafe { clock_gettime(THREAD_TIME, &mut time) };
    assert_eq!(failed, 0, "the clock can't be read");
    1_000_000_000 * time.seconds + time.nanoseconds
}

/// `struct rusage` of Linux; what stands behind the times is not looked at.
#[repr(C)]
struct Usage {
    user: [i64; 2],
    system: [i64; 2],
    others: [i64; 14],
}

/// RUSAGE_CHILDREN of Linux.
const CHILDREN: i32 = -1;

extern "C" {
    fn getrusage(who: i32, usage: *mut Usage) -> i32;
}

/// Nanoseconds that all programs took that were started here and have ended.
pub fn children_time() -> i64 {
    let mut usage = Usage { user: [0; 2], system: [0; 2], others: [0; 14] };
    let failed = unsafe { getrusage(CHILDREN, &mut usage) };
    assert_eq!(failed, 0, "the times can't be read");
    let nanoseconds = |[seconds, micros]: [i64; 2]| 1_000_000_000 * seconds + 1_000 * micros;
    nanoseconds(usage.user) + nanoseconds(usage.system)
}
