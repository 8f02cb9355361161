//! The proved functions held against the second implementation, call by call, on inputs from a seeded generator: honest, damaged
//! and absurd, short and long. The number, every value and every byte of each lent buffer are compared, and the guards looked at.
//!
//! Settings, each an environment variable: RUWEKIHA_SEED; RUWEKIHA_CALLS, how many calls to compare at least; RUWEKIHA_CASE, to run
//! one case of a seed again; RUWEKIHA_MEMCHECK, to fail where no memory checker looks on.

mod calls;
mod claims;
mod cuts;
mod draw;
mod ends;
mod fragments;
mod guarded;
mod joins;
mod memcheck;
mod nulls;
mod scene;
mod tally;

use calls::Caller;
use draw::{say, setting, Draw};
use ruwekiha::second::Second;
use scene::Scene;
use std::sync::atomic::{AtomicBool, AtomicU64, Ordering};
use tally::Tally;

/// What the gate compares; no fewer than 100,000 are asked for.
const CALLS: u64 = 500_000;

#[test]
fn both_sides_agree() {
    let seed = draw::seed();
    let calls = setting("RUWEKIHA_CALLS").unwrap_or(CALLS);
    say(format!("seed {seed}, at least {calls} calls"));
    let looked_on = memcheck::running();
    assert!(
        looked_on || setting("RUWEKIHA_MEMCHECK").is_none(),
        "no memory checker looks on"
    );
    if let Some(case) = setting("RUWEKIHA_CASE") {
        run_case(&Second::new(), seed, case);
        return;
    }
    let tally = run_cases(seed, calls);
    let compared = tally.calls();
    say(format!(
        "seed {seed}: {compared} calls compared, by number:\n{tally}"
    ));
    assert!(compared >= calls);
    tally.assert_covered(calls.div_ceil(2_000));
    for function in ["check", "open"] {
        tally.assert_gone(function, fragments::WAYS.iter().map(|w| w.0));
        tally.assert_gone(function, claims::DAMAGES.iter().map(|d| d.0));
    }
    tally.assert_gone("join", joins::WAYS.iter().map(|w| w.0));
    tally.assert_gone("join", claims::DAMAGES.iter().map(|d| d.0));
    tally.assert_gone("cut", cuts::FAULTS.iter().map(|f| f.0));
    tally.assert_gone("cut_standard", cuts::FAULTS[1..].iter().map(|f| f.0));
}

/// Cases 0, 1, 2, .. on every core, until there were enough calls.
fn run_cases(seed: u64, calls: u64) -> Tally {
    let second = Second::new();
    let (next, done, failed) = (AtomicU64::new(0), AtomicU64::new(0), AtomicBool::new(false));
    let work = || {
        let mut tally = Tally::default();
        while done.load(Ordering::Relaxed) < calls && !failed.load(Ordering::Relaxed) {
            let case = next.fetch_add(1, Ordering::Relaxed);
            let run = std::panic::catch_unwind(|| run_case(&second, seed, case));
            let Ok(new) = run else {
                failed.store(true, Ordering::Relaxed);
                panic!("again: RUWEKIHA_SEED={seed} RUWEKIHA_CASE={case}");
            };
            done.fetch_add(new.calls(), Ordering::Relaxed);
            tally.merge(new);
        }
        tally
    };
    let workers = std::thread::available_parallelism().map_or(1, |n| n.get());
    std::thread::scope(|scope| {
        let threads: Vec<_> = (0..workers).map(|_| scope.spawn(work)).collect();
        let mut tally = Tally::default();
        threads
            .into_iter()
            .for_each(|t| tally.merge(t.join().expect("a case failed")));
        tally
    })
}

/// One block and what is done with it.
fn run_case(second: &Second, seed: u64, case: u64) -> Tally {
    let mut draw = Draw::of_case(seed, case);
    let mut caller = Caller::new(second, Draw::of_case(!seed, case));
    let scene = Scene::draw(&mut draw, &mut caller);
    cuts::refused_cut(&mut draw, &mut caller, &scene);
    cuts::standard_cut(&mut draw, &mut caller, &scene);
    cuts::card_size(&mut draw, &mut caller);
    cuts::hash(&mut draw, &mut caller, &scene);
    cuts::print(&mut draw, &mut caller, &scene);
    for _ in 0..4 {
        fragments::check(&mut draw, &mut caller, &scene);
        fragments::open(&mut draw, &mut caller, &scene);
        joins::join(&mut draw, &mut caller, &scene);
    }
    if draw.once_in(4) {
        fragments::foreign(&mut draw, &mut caller, &scene);
    }
    if draw.once_in(2) {
        joins::filled(&mut draw, &mut caller, &scene);
    }
    caller.tally
}
