//! A case of five tables, read without quotes and without faults.

use std::collections::HashMap;

#[derive(Clone, Copy, Debug, PartialEq, Eq)]
pub enum Kind {
    Flow,
    Injection,
    Zero,
    Angle,
}

pub struct Node {
    pub source: bool,
    pub absolute: bool,
}

pub struct Switch {
    pub from: u32,
    pub to: u32,
    pub closed: bool,
}

pub struct Branch {
    pub from: u32,
    pub to: u32,
    pub inservice: bool,
}

pub struct Meter {
    pub kind: Kind,
    pub at: u32,
    pub inservice: bool,
}

pub struct Candidate {
    pub kind: Kind,
    pub at: u32,
    pub price: u64,
}

type Names = HashMap<Vec<u8>, u32>;

#[derive(Default)]
pub struct Case {
    nodes: Vec<Node>,
    switches: Vec<Switch>,
    branches: Vec<Branch>,
    meters: Vec<Meter>,
    candidates: Vec<Candidate>,
    node_names: Names,
    switch_names: Names,
    branch_names: Names,
    meter_names: Names,
}

fn rows(path: &str) -> Vec<Vec<String>> {
    let text = std::fs::read_to_string(path).expect(path);
    text.lines()
        .skip(1)
        .map(|line| line.split(',').map(String::from).collect())
        .collect()
}

fn name(names: &mut Names, row: &[String]) {
    let at = names.len() as u32;
    names.insert(row[0].clone().into(), at);
}

fn kind(word: &str) -> Kind {
    match word {
        "flow" => Kind::Flow,
        "zero" => Kind::Zero,
        "angle" => Kind::Angle,
        _ => Kind::Injection,
    }
}

impl Case {
    pub fn nodes(&self) -> &[Node] {
        &self.nodes
    }

    pub fn switches(&self) -> &[Switch] {
        &self.switches
    }

    pub fn branches(&self) -> &[Branch] {
        &self.branches
    }

    pub fn meters(&self) -> &[Meter] {
        &self.meters
    }

    pub fn candidates(&self) -> &[Candidate] {
        &self.candidates
    }

    pub fn set_switch(&mut self, at: u32, closed: bool) {
        self.switches[at as usize].closed = closed;
    }

    pub fn set_branch(&mut self, at: u32, inservice: bool) {
        self.branches[at as usize].inservice = inservice;
    }

    pub fn set_meter(&mut self, at: u32, inservice: bool) {
        self.meters[at as usize].inservice = inservice;
    }

    pub fn find_switch(&self, name: &[u8]) -> Option<u32> {
        self.switch_names.get(name).copied()
    }

    pub fn find_branch(&self, name: &[u8]) -> Option<u32> {
        self.branch_names.get(name).copied()
    }

    pub fn find_meter(&self, name: &[u8]) -> Option<u32> {
        self.meter_names.get(name).copied()
    }

    fn node(&self, name: &str) -> u32 {
        self.node_names[name.as_bytes()]
    }

    fn place(&self, kind: Kind, name: &str) -> u32 {
        match kind {
            Kind::Flow => self.branch_names[name.as_bytes()],
            _ => self.node(name),
        }
    }

    /// Reads the tables of nodes, switches, branches, meters and, where there is one, candidates.
    pub fn read(paths: &[String]) -> Case {
        let mut case = Case::default();
        for row in rows(&paths[0]) {
            name(&mut case.node_names, &row);
            let absolute = row.get(2).is_some_and(|word| word == "1");
            case.nodes.push(Node {
                source: row[1] == "1",
                absolute,
            });
        }
        for row in rows(&paths[1]) {
            name(&mut case.switch_names, &row);
            let (from, to) = (case.node(&row[1]), case.node(&row[2]));
            case.switches.push(Switch {
                from,
                to,
                closed: row[3] == "1",
            });
        }
        for row in rows(&paths[2]) {
            name(&mut case.branch_names, &row);
            let (from, to) = (case.node(&row[1]), case.node(&row[2]));
            case.branches.push(Branch {
                from,
                to,
                inservice: row[3] == "1",
            });
        }
        for row in rows(&paths[3]) {
            name(&mut case.meter_names, &row);
            let kind = kind(&row[1]);
            let at = case.place(kind, &row[2]);
            case.meters.push(Meter {
                kind,
                at,
                inservice: row[3] == "1",
            });
        }
        for row in paths.get(4).map(|path| rows(path)).unwrap_or_default() {
            let kind = kind(&row[1]);
            let at = case.place(kind, &row[2]);
            let price = row[3].parse().expect("a price");
            case.candidates.push(Candidate { kind, at, price });
        }
        case
    }
}
