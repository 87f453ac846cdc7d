//! The judge on simulated runs of a correct queue, of up to 1,024 records: it must find an order,
//! since there is one.

use yauponroof_tests::compare::archive::Archives;
use yauponroof_tests::logs::simulation::{
    runs_in_batches, runs_of_all_sizes, runs_with_clients_apart, simulate_load, Clients, Load, Run,
};
use yauponroof_tests::model::sheet::ORDER;
use yauponroof_tests::random::Random;

/// How many of the orders list an open remove.
fn assert_orders(runs: &[Run]) -> u64 {
    let mut archives = Archives::new();
    for run in runs {
        assert_eq!(archives.compare_records(&run.records), ORDER);
    }
    assert!(runs.len() >= 60);
    archives.took()
}

#[test]
fn queues_that_are_often_empty() {
    assert_orders(&runs_of_all_sizes());
}

#[test]
fn queues_that_are_often_empty_with_clients_apart() {
    assert_orders(&runs_with_clients_apart());
}

#[test]
fn queues_that_are_seldom_empty() {
    let mut random = Random::new(84);
    let mut runs = Vec::new();
    for workers in [1, 2, 4, 8, 64] {
        for percent in [0, 5, 30] {
            for clients in [Clients::Reused, Clients::OnePerOperation] {
                for n in [200, 1024] {
                    let run = simulate_load(Load::Busy, workers, clients, n, random.next_u64());
                    runs.push(run.with_pending_adds(percent, &mut random));
                }
            }
        }
    }
    assert_orders(&runs);
}

#[test]
fn queues_with_hundreds_of_clients_at_work() {
    let mut random = Random::new(100);
    let mut runs = Vec::new();
    for load in [Load::Even, Load::Busy] {
        for workers in [128, 256, 512] {
            for percent in [0, 5, 30, 60, 90] {
                for n in [600, 1024] {
                    let seed = random.next_u64();
                    let run = simulate_load(load, workers, Clients::Reused, n, seed);
                    runs.push(run.with_pending_adds(percent, &mut random));
                }
            }
        }
    }
    assert_orders(&runs);
}

#[test]
fn queues_that_are_empty_in_the_end() {
    let mut random = Random::new(85);
    let mut runs = Vec::new();
    for load in [Load::Even, Load::Busy] {
        for workers in [1, 3, 8, 64] {
            for n in [20, 100, 300, 900] {
                let run = simulate_load(load, workers, Clients::Reused, n, random.next_u64());
                let drained = run.drained();
                runs.push(drained.with_pending_adds(10, &mut random));
                runs.push(drained);
            }
        }
    }
    assert_orders(&runs);
}

/// A remove of each run never returns; it took a value or found none.
#[test]
fn queues_of_which_a_consumer_never_came_back() {
    let mut random = Random::new(244);
    let mut lost = |run: &Run| run.with_pending_remove(&mut random);
    let mut took = 0;
    for runs in [runs_of_all_sizes(), runs_in_batches()] {
        let open: Vec<Run> = runs.iter().map(&mut lost).collect();
        took += assert_orders(&open);
    }
    assert!(took >= 100, "{took} list the open remove");
}

/// The same where the value that it took is missed: all others are removed in the end.
#[test]
fn queues_that_are_empty_in_the_end_but_for_what_an_open_remove_took() {
    let mut random = Random::new(245);
    let mut runs = Vec::new();
    for load in [Load::Even, Load::Busy] {
        for workers in [1, 3, 8, 64] {
            for n in [20, 60, 200, 400] {
                for _ in 0..2 {
                    let run = simulate_load(load, workers, Clients::Reused, n, random.next_u64());
                    runs.push(run.drained().with_pending_remove(&mut random));
                }
            }
        }
    }
    let took = assert_orders(&runs);
    assert!(took >= 45, "{took} list the open remove");
}
