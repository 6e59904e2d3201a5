//! Stated draws (document 02, A.5) as the judge reads them. The Rust has no generator: what
//! stands here rests on document 02 alone, and `oracle/draws` reads it a second time, in
//! whole numbers of any size. The slips are named in `call_slips.rs`.

/// How many draws a call gives at most; as many as a grid has times.
pub const MOST: usize = 1024;

/// "A step is Marsaglia's xorshift64, left 13, right 7, left 17." A number below 0 is a
/// shift to the right.
fn step(state: u64, slip: &str) -> u64 {
    let shifts: [i32; 3] = match slip {
        "step-12-for-13" => [12, -7, 17],
        "step-14-for-13" => [14, -7, 17],
        "step-6-for-7" => [13, -6, 17],
        "step-8-for-7" => [13, -8, 17],
        "step-16-for-17" => [13, -7, 16],
        "step-5-for-17" => [13, -7, 5],
        "step-13-and-17-exchanged" => [17, -7, 13],
        "step-7-first" => [-7, 13, 17],
        "step-7-left" => [13, 7, 17],
        "step-13-right" => [-13, -7, 17],
        "step-17-right" => [13, -7, -17],
        "step-mirrored" => [-13, 7, -17],
        "step-without-17" => [13, -7, 64],
        _ => [13, -7, 17],
    };
    let shifted = |x: u64, by: i32| match by {
        64 => 0,
        0.. if slip == "step-rotated" => x.rotate_left(by as u32),
        ..0 if slip == "step-rotated" => x.rotate_right(-by as u32),
        ..0 if slip == "step-signed" => (x as i64 >> -by) as u64,
        0.. => x << by,
        ..0 => x >> -by,
    };
    shifts.iter().fold(state, |x, by| match slip {
        "step-of-the-old-state" => x ^ shifted(state, *by),
        "step-added" => x.wrapping_add(shifted(x, *by)),
        _ => x ^ shifted(x, *by),
    })
}

/// "A draw adds the top 32 bits of the state after each of twelve steps, takes away
/// 6 × 2^32 and divides by 2^32, all exactly." The draw and the state it leaves.
fn draw(before: u64, slip: &str) -> (f64, u64) {
    let steps = match slip {
        "draw-of-11" => 11,
        "draw-of-13" => 13,
        _ => 12,
    };
    let (mut state, mut sum) = (before, 0i64);
    for _ in 0..steps {
        let old = state;
        state = step(state, slip);
        sum += match slip {
            "draw-before-the-step" => (old >> 32) as i64,
            "draw-low-bits" => i64::from(state as u32),
            "draw-signed-bits" => i64::from((state >> 32) as i32),
            "draw-31-bits" => (state >> 33 << 1) as i64,
            _ => (state >> 32) as i64,
        };
    }
    let less = match slip {
        "draw-less-5" => 5,
        "draw-less-nothing" => 0,
        _ => 6,
    };
    let sum = match slip {
        "draw-sum-of-32-bits" => i64::from(sum as u32),
        "draw-last-step" => (state >> 32) as i64 * 12,
        _ => sum,
    } - (less << 32);
    // Below 2^36 in size, which a float has to spare; a power of two divides exactly.
    let float = match slip {
        "draw-single" => f64::from(sum as f32),
        "draw-minus-zero" if sum == 0 => -0.0,
        _ => sum as f64,
    };
    let over = match slip {
        "draw-over-2^31" => 2f64.powi(31),
        "draw-over-2^32-1" => 2f64.powi(32) - 1.0,
        _ => 2f64.powi(32),
    };
    (float / over, state)
}

/// The first draws of a seed, and the state that they leave: the seed of those that follow.
pub fn drawn(seed: u64, count: usize, slip: &str) -> (Vec<f64>, u64) {
    let mut state = seed;
    let mut draws = Vec::with_capacity(count);
    for place in 0..count {
        let from = match slip {
            "draws-anew" => seed,
            "draws-a-step-apart" if place > 0 => step(state, slip),
            _ => state,
        };
        let (one, after) = draw(from, slip);
        draws.push(one);
        state = after;
    }
    if slip == "draws-reversed" {
        draws.reverse();
    }
    (draws, state)
}

/// The state that a call reports beside so many draws, and room for so many.
pub fn left(seed: u64, count: usize, room: usize, slip: &str) -> u64 {
    let after = |count: usize| drawn(seed, count, slip).1;
    match slip {
        "state-one-draw-short" => after(count.saturating_sub(1)),
        "state-one-draw-more" => after(count + 1),
        "state-one-step-more" => step(after(count), slip),
        "state-of-the-room" => after(room),
        "state-of-the-seed" => seed,
        _ => after(count),
    }
}
