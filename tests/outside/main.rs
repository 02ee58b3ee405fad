//! The outside tests: the library behind its C interface, compared with what is written here a
//! second time from the documents. A seed may be given as the first argument; with `charts` instead
//! the sample charts and what is printed of them are written and nothing is tested.

mod account;
mod account_call;
mod account_cases;
mod account_draws;
mod bits;
mod book;
mod call;
mod chart;
mod chart_call;
mod chart_cases;
mod chart_draft;
mod chart_draws;
mod chart_image;
mod chart_moves;
mod chart_samples;
mod class;
mod class_call;
mod class_cases;
mod class_draws;
mod damage;
mod door;
mod draw;
mod envelope;
mod group;
mod image;
mod ledger;
mod mend_call;
mod mend_cases;
mod mend_draws;
mod mender;
mod router;
mod routing;
mod rules;
mod sequences;
mod sheet;
mod sheet_cases;
mod table;
mod table_call;
mod table_cases;
mod table_draws;
mod trace;
mod trace_call;
mod trace_cases;
mod trace_combs;
mod trace_draws;
mod trace_lists;
mod wire;

use group::Tests;
use std::process::exit;
use std::sync::atomic::{AtomicUsize, Ordering};
use std::thread;

const SEED: u64 = 92;

fn main() {
    let argument = std::env::args().nth(1);
    if argument.as_deref() == Some("charts") {
        chart_samples::write();
        return;
    }
    let seed = match argument.map(|text| text.parse()) {
        None => SEED,
        Some(Ok(seed)) => seed,
        Some(Err(_)) => {
            eprintln!("outside: the seed is a number");
            exit(2);
        }
    };
    println!("seed {seed}");
    let groups = [
        envelope::GROUPS,
        routing::GROUPS,
        ledger::GROUPS,
        damage::GROUPS,
        sequences::GROUPS,
        account_cases::GROUPS,
        account_draws::GROUPS,
        chart_cases::GROUPS,
        chart_draws::GROUPS,
        chart_moves::GROUPS,
        chart_samples::GROUPS,
        trace_cases::GROUPS,
        trace_combs::GROUPS,
        trace_draws::GROUPS,
        trace_lists::GROUPS,
        table_cases::GROUPS,
        table_draws::GROUPS,
        class_cases::GROUPS,
        class_draws::GROUPS,
        mend_cases::GROUPS,
        mend_draws::GROUPS,
        sheet_cases::GROUPS,
    ];
    let (checks, failed) = run_all(&groups.concat(), seed);
    println!("outside: {checks} checks, {failed} failed");
    if failed > 0 {
        exit(1);
    }
}

/// Runs the groups, as many at a time as the machine has processors, and adds up their checks and failures.
fn run_all(groups: &[Tests], seed: u64) -> (u64, u64) {
    let next = AtomicUsize::new(0);
    let worker = || {
        let mut sum = (0, 0);
        while let Some(&tests) = groups.get(next.fetch_add(1, Ordering::Relaxed)) {
            let group = group::run(tests, seed);
            sum = (sum.0 + group.checks, sum.1 + group.failed);
        }
        sum
    };
    let workers = thread::available_parallelism().map_or(1, |count| count.get());
    thread::scope(|scope| {
        let started: Vec<_> = (0..workers).map(|_| scope.spawn(worker)).collect();
        let sums = started.into_iter().map(|one| one.join().expect("a group panicked"));
        sums.fold((0, 0), |all, one| (all.0 + one.0, all.1 + one.1))
    })
}
