// Times the proved settling (crates/settle_timing/out/settle_timing) and a plain program on the same work, and prints both and the ratio.
use std::collections::VecDeque;
use std::process::Command;
use std::time::{Duration, Instant};

const SIDE: usize = 64;
const SITES: usize = SIDE * SIDE;

// Settles by a first-in, first-out list of sites, one firing a visit, after one scan.
fn settle(heights: &mut [u64], list: &mut VecDeque<usize>, waits: &mut [bool]) -> u64 {
    for v in 0..SITES {
        waits[v] = heights[v] >= 4;
        if waits[v] {
            list.push_back(v);
        }
    }
    let mut fired = 0;
    while let Some(v) = list.pop_front() {
        waits[v] = false;
        if heights[v] < 4 {
            continue;
        }
        heights[v] -= 4;
        fired += 1;
        let (row, column) = (v / SIDE, v % SIDE);
        let mut give = |u: usize| {
            heights[u] += 1;
            if heights[u] >= 4 && !waits[u] {
                waits[u] = true;
                list.push_back(u);
            }
        };
        if row > 0 {
            give(v - SIDE);
        }
        if column > 0 {
            give(v - 1);
        }
        if column + 1 < SIDE {
            give(v + 1);
        }
        if row + 1 < SIDE {
            give(v + SIDE);
        }
        if heights[v] >= 4 && !waits[v] {
            waits[v] = true;
            list.push_back(v);
        }
    }
    fired
}

fn heap() -> u64 {
    let mut heights = vec![0; SITES];
    heights[2080] = 1_000_000;
    settle(&mut heights, &mut VecDeque::with_capacity(SITES), &mut vec![false; SITES])
}

fn drops(many: u32) -> u64 {
    let mut heights = vec![3; SITES];
    let mut list = VecDeque::with_capacity(SITES);
    let mut waits = vec![false; SITES];
    let (mut seed, mut sum) = (1u32, 0);
    for _ in 0..many {
        seed = seed.wrapping_mul(1_664_525).wrapping_add(1_013_904_223);
        heights[(seed / 1_048_576) as usize] += 1;
        sum += settle(&mut heights, &mut list, &mut waits);
    }
    sum
}

fn timed<T>(work: impl FnOnce() -> T) -> (T, Duration) {
    let start = Instant::now();
    let answer = work();
    (answer, start.elapsed())
}

fn proved(args: &[&str]) -> u64 {
    let out = Command::new("crates/settle_timing/out/settle_timing").args(args).output().expect("(cd crates/settle_timing && rt run) first");
    String::from_utf8_lossy(&out.stdout).trim().parse().expect("a number")
}

fn show(name: &str, ours: (u64, Duration), plain: (u64, Duration)) {
    let ratio = ours.1.as_secs_f64() / plain.1.as_secs_f64();
    println!("{name}: proved {} firings {:.3} s, plain {} firings {:.3} s, ratio {ratio:.2}", ours.0, ours.1.as_secs_f64(), plain.0, plain.1.as_secs_f64());
}

fn main() {
    show("1,000,000 grains on site 2080", timed(|| proved(&[])), timed(heap));
    show("100,000 drops of one grain", timed(|| proved(&["100000"])), timed(|| drops(100_000)));
}
