//! Runs reports, placements, studies and sessions by the bodies without clauses, and says how long they took.

use obs_assign::{Assignment, Steps};
use obs_case::Case;
use obs_edit::{Done, Session};
use obs_kept::Kept;
use obs_network::Present;
use obs_outage::Outages;
use obs_pairs::{PairWork, find_classes};
use obs_placement::Placement;
use obs_script::Ask;
use obs_station::StationWork;
use shim::{Counted, Global};
use std::io::Read;
use std::time::Instant;

/// A number that all answers go into.
struct Hash(u64);

impl Hash {
    fn add(&mut self, x: u64) {
        self.0 = (self.0 ^ x).wrapping_mul(0x100000001b3).rotate_left(17);
    }

    fn add_pairs(&mut self, pairs: &Assignment, count: usize) {
        for m in 0..count {
            self.add(pairs.branch_of(m as u32).map_or(0, |e| e as u64 + 1));
        }
    }

    fn add_all(&mut self, numbers: &[u32]) {
        for x in numbers {
            self.add(*x as u64);
        }
    }
}

fn claims(session: &mut Session, steps: &mut Steps<Counted>, ask: Ask, hash: &mut Hash) {
    let tree = matches!(ask, Ask::Tree | Ask::Report | Ask::Cert);
    let bound = matches!(ask, Ask::Bound | Ask::Report | Ask::Cert);
    let network = session.network();
    let alive: Vec<u32> = (0..network.components())
        .filter(|c| network.energised(*c))
        .collect();
    for c in &alive {
        if session.observable(*c) {
            if tree {
                session.find_first(steps);
            }
        } else if bound {
            session.find_critical(steps);
            session.find_bound(*c);
            let found = session.found_bound(*c);
            hash.add(found.rank as u64);
            hash.add(found.outside as u64);
            hash.add_all(found.inside);
        }
    }
    if tree && alive.iter().any(|c| session.observable(*c)) {
        let count = session.present().meters().len();
        hash.add_pairs(session.found_pairs(), count);
    }
}

fn placement(session: &mut Session, steps: &mut Steps<Counted>, hash: &mut Hash) {
    session.find_placement(steps);
    match session.found_placement() {
        Placement::Cheapest(plan) => {
            hash.add_all(plan.chosen);
            hash.add(plan.cost);
            hash.add_all(plan.inside);
        }
        Placement::Shortfall(bound) => {
            hash.add(bound.rank as u64);
            hash.add_all(bound.inside);
        }
    }
    let count = session.present().meters().len() + session.present().candidates().len();
    hash.add_pairs(session.found_plan_pairs(), count);
}

fn answer(session: &mut Session, steps: &mut Steps<Counted>, ask: Ask, hash: &mut Hash) {
    hash.add(session.state().rank as u64);
    hash.add(session.state().needed as u64);
    claims(session, steps, ask, hash);
    if matches!(ask, Ask::Islands | Ask::Report) {
        session.find_islands(steps);
        hash.add_all(session.found_islands());
    }
    if matches!(ask, Ask::Critical | Ask::Report) {
        session.find_critical(steps);
        hash.add_all(session.found_critical());
    }
    if matches!(ask, Ask::Place) {
        placement(session, steps, hash);
    }
}

fn kind_of(line: &str) -> usize {
    match line.split(' ').next() {
        Some("open" | "close") => 0,
        Some("trip" | "restore") => 1,
        Some("lose" | "regain") => 2,
        _ => 3,
    }
}

fn lines(session: &mut Session, steps: &mut Steps<Counted>, hash: &mut Hash) {
    let mut text = String::new();
    std::io::stdin().read_to_string(&mut text).expect("lines");
    let (mut nanos, mut count) = ([0u128; 4], [0u32; 4]);
    for line in text.lines() {
        if line.is_empty() || line.starts_with('#') {
            continue;
        }
        let began = Instant::now();
        match session.apply(line.as_bytes(), steps) {
            Ok(Done::Edited(state)) => {
                hash.add(state.rank as u64);
                hash.add(state.needed as u64);
            }
            Ok(Done::Asked(ask)) => answer(session, steps, ask, hash),
            Err(_) => panic!("{line}"),
        }
        nanos[kind_of(line)] += began.elapsed().as_nanos();
        count[kind_of(line)] += 1;
    }
    for (k, word) in ["switches", "branches", "meters", "asks"]
        .iter()
        .enumerate()
    {
        if count[k] > 0 {
            let each = nanos[k] as f64 / 1e3 / count[k] as f64;
            eprintln!(
                "{word}: {} lines, {:.1} ms, {each:.1} us each",
                count[k],
                nanos[k] as f64 / 1e6
            );
        }
    }
}

/// Answers `outages`, `pairs` or `stations`, where the command is one of these.
fn study(command: &str, case: &mut Case, steps: &mut Steps<Counted>, hash: &mut Hash) -> bool {
    match command {
        "outages" => {
            let mut outages = Outages::make(Global, case, steps).expect("memory");
            outages.find_list(case, steps);
            for entry in outages.found() {
                hash.add_all(&[entry.branch, entry.rank, entry.needed]);
            }
        }
        "pairs" => {
            let mut kept = Kept::make(Global, case, steps).expect("memory");
            let (g, ms) = (kept.network.graph(), kept.network.meters());
            let mut work = PairWork::make(Global, ms.count(), g.positions(), g.vertices()).expect("memory");
            find_classes(g, ms, &mut kept.pairs, &mut work, steps);
            hash.add_all(work.list());
        }
        "stations" => {
            let mut kept = Kept::make(Global, case, steps).expect("memory");
            let mut work = StationWork::make(Global, case).expect("memory");
            work.find_losses(&Present::of(case, &kept.network), &mut kept.pairs, steps);
            for entry in work.list() {
                hash.add_all(&[entry.node, entry.lost, entry.rank]);
            }
        }
        _ => return false,
    }
    true
}

fn main() {
    let words: Vec<String> = std::env::args().collect();
    let (command, paths) = (words[1].as_str(), &words[2..]);
    let mut case = Case::read(paths);
    let mut steps: Steps<Counted> = Steps::begin();
    let mut hash = Hash(7);
    let began = Instant::now();
    if !study(command, &mut case, &mut steps, &mut hash) {
        let mut session =
            Session::begin(Global, case, paths.len() > 4, &mut steps).expect("memory");
        eprintln!("begun after {:.1} ms", began.elapsed().as_secs_f64() * 1e3);
        match command {
            "report" => answer(&mut session, &mut steps, Ask::Report, &mut hash),
            "place" => answer(&mut session, &mut steps, Ask::Place, &mut hash),
            "session" => lines(&mut session, &mut steps, &mut hash),
            _ => panic!("report, place, outages, pairs, stations or session"),
        }
    }
    let all = began.elapsed().as_secs_f64() * 1e3;
    eprintln!(
        "all {all:.1} ms, {} searches, answers {:016x}",
        steps.count, hash.0
    );
}
