//! All routes of a chart by petgraph's all_simple_paths, listed over and over: simple_paths WHO FILE TIMES.
//! WHO is paths or none. The chart is taken to be right: nothing is tested. A path is a list of nodes, in petgraph's order; two links between the same
//! nodes give the path twice. How many there are is printed, and how many nodes they meet.

use petgraph::algo::all_simple_paths;
use petgraph::graph::{NodeIndex, UnGraph};

/// The enabled links of a chart as a graph, and the nodes asked about.
fn graph(chart: &[u8]) -> (UnGraph<(), ()>, NodeIndex, NodeIndex) {
    let mut graph = UnGraph::default();
    let mut stations: Vec<[u8; 3]> = Vec::new();
    let mut asked = (NodeIndex::new(0), NodeIndex::new(0));
    let mut rest = chart;
    while rest.len() >= 3 {
        let size = usize::from(rest[1]) * 256 + usize::from(rest[2]);
        let body = &rest[3..3 + size];
        let station = |at: usize| [body[at], body[at + 1], body[at + 2]];
        let place = |station| {
            NodeIndex::new(stations.iter().position(|&one| one == station).expect("a node"))
        };
        match rest[0] {
            1 => {
                let one = station(0);
                stations.push(one);
                graph.add_node(());
            }
            2 if body[8] == 1 => {
                let (one, other) = (place(station(0)), place(station(4)));
                graph.add_edge(one, other, ());
            }
            2 => (),
            _ => asked = (place(station(0)), place(station(3))),
        }
        rest = &rest[3 + size..];
    }
    (graph, asked.0, asked.1)
}

fn main() {
    let words: Vec<String> = std::env::args().collect();
    let chart = std::fs::read(&words[2]).expect("a chart");
    let (mut paths, mut nodes) = (0usize, 0usize);
    for _ in 0..words[3].parse().expect("a number") {
        if words[1] == "paths" {
            let (graph, from, to) = graph(&chart);
            (paths, nodes) = (0, 0);
            for path in all_simple_paths::<Vec<_>, _>(&graph, from, to, 0, None) {
                paths += 1;
                nodes += path.len();
            }
        }
    }
    println!("{paths} paths, {nodes} nodes");
}
