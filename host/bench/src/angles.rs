//! Sine and cosine beside relay's own f32 kernels.

use crate::tries::{row, Bar, Taken};
use crate::Rng;
use compare::numbers::LIMIT;
use compare::println;
use std::hint::black_box;
use std::time::Instant;

/// The other side's calls, kept out of line as ours are.
mod theirs {
    #[inline(never)]
    pub extern "C" fn sinf(x: f32) -> f32 {
        relay_math_published::sinf(x)
    }

    #[inline(never)]
    pub extern "C" fn cosf(x: f32) -> f32 {
        relay_math_published::cosf(x)
    }

    /// The pair in memory, by a call of its own: so the test face's call has ours.
    #[inline(never)]
    fn both(x: f32, pair: &mut (f32, f32)) {
        *pair = (relay_math_published::sinf(x), relay_math_published::cosf(x));
    }

    #[inline(never)]
    pub extern "C" fn sincos(x: f32, sine: &mut f32) -> f32 {
        let mut pair = (0.0, 0.0);
        both(x, &mut pair);
        *sine = pair.0;
        pair.1
    }
}

/// So many headings that no branch predictor learns them.
const HEADINGS: usize = 50_000;
const TRIES: usize = 81;

/// How the calls hang together: no call waits for another, or each heading hangs on the last answer, as a tick's do.
#[derive(Clone, Copy)]
enum Calls {
    Apart,
    Chained,
}

fn once(f: impl Fn(f32) -> f32, headings: &[f32], calls: Calls) -> f64 {
    let start = Instant::now();
    let mut last = 0.0f32;
    match calls {
        Calls::Apart => headings.iter().for_each(|&x| last = if f(x) == -7.0 { x } else { last }),
        Calls::Chained => headings.iter().for_each(|&x| last = f(x + last * 0.001)),
    }
    black_box(last);
    start.elapsed().as_nanos() as f64 / headings.len() as f64
}

/// The two sides taking turns.
fn turns(ours: impl Fn(f32) -> f32, theirs: impl Fn(f32) -> f32, headings: &[f32], calls: Calls) -> [Taken; 2] {
    let (mut a, mut b) = (Vec::with_capacity(TRIES), Vec::with_capacity(TRIES));
    for _ in 0..TRIES {
        a.push(once(&ours, black_box(headings), calls));
        b.push(once(&theirs, black_box(headings), calls));
    }
    [a, b].map(Taken::of)
}

/// The rows; false where one is over its bar.
pub fn rows(rng: &mut Rng) -> bool {
    let ours = |x| {
        let (s, c) = archives::sincos(x);
        s + c
    };
    let theirs = |x| {
        let mut s = 0.0;
        let c = theirs::sincos(x, &mut s);
        s + c
    };
    let mut within = |size: f64| (0..HEADINGS).map(|_| ((rng.draw() - 0.5) * 2.0 * size) as f32).collect::<Vec<f32>>();
    let (turn, near, limit) = (within(std::f64::consts::PI), within(128.0), within(LIMIT.into()));
    let slow: Vec<f32> = (0..HEADINGS).map(|k| 0.3 + k as f32 * 1e-5).collect();
    println!("sine and cosine, against relay's kernels: median / least");
    let mut good = true;
    for (name, headings, barred) in [("±pi", turn, true), ("±128", near, true), ("±8192", limit, true), ("a heading that turns slowly", slow, false)] {
        let bar = |bar: f64| if barred { Bar::Both(bar) } else { Bar::None };
        let h = &headings;
        good &= row(&format!("sine, {name}"), turns(archives::sinf, |x| theirs::sinf(x), h, Calls::Apart), bar(0.6));
        good &= row(&format!("cosine, {name}"), turns(archives::cosf, |x| theirs::cosf(x), h, Calls::Apart), bar(0.6));
        good &= row(&format!("pair, {name}"), turns(ours, theirs, h, Calls::Apart), bar(0.7));
        good &= row(&format!("pair in a chain, {name}"), turns(ours, theirs, h, Calls::Chained), bar(0.85));
    }
    good
}
