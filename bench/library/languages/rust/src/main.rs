//! Routes from Rust over the C library: one a call, and 1,000 a call. The words are how many legs there are and the file
//! of a frame. Prints `NAME: VALUE UNIT` a line.

use squall::{Rank, Router};
use std::error::Error;
use std::time::{Duration, Instant};

const REACH: u64 = 1 << 62;
const COUNT: usize = 1000;
const ROUNDS: usize = 1000;

/// The text of a plan by which one partition has all keys.
fn plan(part: u32) -> String {
    format!(r#"{{"plan":[{{"part":{part},"from":[0,0],"to":"end"}}]}}"#)
}

/// Keys drawn by chance, as in the other languages.
fn keys() -> Vec<Rank> {
    let mut state = 1_u64;
    let mut draw = || {
        let key = state & (REACH - 1);
        state = state
            .wrapping_mul(6_364_136_223_846_793_005)
            .wrapping_add(1_442_695_040_888_963_407);
        Rank(key)
    };
    std::iter::repeat_with(&mut draw).take(COUNT).collect()
}

/// The least time of a call in all rounds, in nanoseconds for each key.
fn least(mut call: impl FnMut()) -> f64 {
    let mut least = Duration::MAX;
    for _ in 0..ROUNDS {
        let start = Instant::now();
        call();
        least = least.min(start.elapsed());
    }
    least.as_secs_f64() * 1e9 / COUNT as f64
}

fn main() -> Result<(), Box<dyn Error>> {
    let words: Vec<String> = std::env::args().collect();
    let [_, legs, file] = words.as_slice() else {
        return Err("usage: routes LEGS FRAME".into());
    };
    let mut router = Router::open(1, plan(1).as_bytes(), plan(2).as_bytes())?;
    router.hear(&std::fs::read(file)?)?;
    let view = router.view()?;
    let keys = keys();
    let mut parts = vec![0; COUNT];
    let mut sum = 0_u64;
    let one = least(|| {
        for key in &keys {
            sum += u64::from(view.route(*key).unwrap_or(0));
        }
    });
    let many = least(|| {
        view.routes(&keys, &mut parts);
    });
    if keys
        .iter()
        .zip(&parts)
        .any(|(key, part)| view.route(*key) != Some(*part))
        || sum == 0
    {
        return Err("a batch answers otherwise than one call after another".into());
    }
    println!("route, {legs} legs: {one:.1} ns");
    println!("1,000 routes a call, {legs} legs, each: {many:.1} ns");
    Ok(())
}
