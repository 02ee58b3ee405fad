//! All routes of a chart, listed over and over: routes WHO CHART TIMES.
//! WHO is ours (pz_first, then pz_next until 43), list (pz_routes, which lists all routes of these charts), walk (an ordinary exhaustive walk over
//! adjacency lists), store (the same walk, each route stored before it is counted), none, or bytes, which writes the chart.
//! CHART is s, complete6, complete7, complete8, grid, comb, comb-start, comb-middle, comb-end, strands, mesh, or drawn1 to drawn20. The number of routes and
//! a sum over their links are printed, the same for all.

extern "C" {
    fn pz_first(chart: *const u8, n: usize, route: *mut u8, m: usize, length: usize) -> u8;
    fn pz_next(chart: *const u8, n: usize, route: *mut u8, m: usize, length: usize) -> u8;
    fn pz_routes(
        chart: *const u8,
        n: usize,
        slots: *mut u8,
        m: usize,
        count: *mut u16,
        more: *mut u8,
        place: *mut u16,
    ) -> u8;
}

/// What a listing found: how many routes, and a sum in which each link of each route counts.
#[derive(Default)]
struct Tally {
    routes: u64,
    sum: u64,
}

impl Tally {
    fn add(&mut self, route: &[u8]) {
        self.routes += 1;
        for &link in route {
            self.sum = self.sum.wrapping_mul(31).wrapping_add(u64::from(link) + 1);
        }
    }
}

/// The screen's way: the first route, then the next after each, over the chart's bytes.
fn ours(chart: &[u8]) -> Tally {
    let mut tally = Tally::default();
    let mut route = [0u8; 15];
    let mut length =
        unsafe { pz_first(chart.as_ptr(), chart.len(), route.as_mut_ptr(), route.len(), 0) };
    while length <= 15 {
        tally.add(&route[..usize::from(length)]);
        let given = usize::from(length);
        length =
            unsafe { pz_next(chart.as_ptr(), chart.len(), route.as_mut_ptr(), route.len(), given) };
    }
    assert_eq!(length, 43);
    tally
}

/// The lister's way: all routes in one call, each in a slot of 16 bytes.
fn list(chart: &[u8], slots: &mut [u8]) -> Tally {
    let (mut count, mut more, mut place) = (0, 0, 0);
    let refusal = unsafe {
        pz_routes(
            chart.as_ptr(),
            chart.len(),
            slots.as_mut_ptr(),
            slots.len(),
            &mut count,
            &mut more,
            &mut place,
        )
    };
    assert!((refusal == 0 || refusal == 43) && more == 0);
    let mut tally = Tally::default();
    for slot in slots.chunks_exact(16).take(usize::from(count)) {
        tally.add(&slot[1..1 + usize::from(slot[0])]);
    }
    tally
}

/// An ordinary program's way: the chart's fields once, then one walk. It takes the chart to be right: no range, no
/// duplicate and no used end is tested.
fn walk(chart: &[u8], store: bool) -> Tally {
    let mut stations: Vec<(u8, u16)> = Vec::new();
    let mut ways: Vec<Vec<(u8, usize)>> = Vec::new();
    let (mut links, mut from, mut to) = (0u8, 0, 0);
    let mut rest = chart;
    while rest.len() >= 3 {
        let size = usize::from(rest[1]) * 256 + usize::from(rest[2]);
        let body = &rest[3..3 + size];
        let station =
            |at: usize| (body[at], u16::from(body[at + 1]) * 256 + u16::from(body[at + 2]));
        let place = |station| stations.iter().position(|&one| one == station).unwrap();
        match rest[0] {
            1 => {
                let one = station(0);
                stations.push(one);
                ways.push(Vec::new());
            }
            2 => {
                if body[8] == 1 {
                    let (a, b) = (place(station(0)), place(station(4)));
                    ways[a].push((links, b));
                    ways[b].push((links, a));
                }
                links += 1;
            }
            _ => {
                from = place(station(0));
                to = place(station(3));
            }
        }
        rest = &rest[3 + size..];
    }
    let mut search = Search {
        ways: &ways,
        to,
        met: vec![false; stations.len()],
        path: Vec::new(),
        store,
        stored: Vec::new(),
        tally: Tally::default(),
    };
    search.met[from] = true;
    search.go(from);
    for route in &search.stored {
        search.tally.add(route);
    }
    search.tally
}

struct Search<'a> {
    ways: &'a [Vec<(u8, usize)>],
    to: usize,
    met: Vec<bool>,
    path: Vec<u8>,
    store: bool,
    stored: Vec<Vec<u8>>,
    tally: Tally,
}

impl Search<'_> {
    fn go(&mut self, at: usize) {
        if at == self.to {
            if self.store {
                self.stored.push(self.path.clone());
            } else {
                self.tally.add(&self.path);
            }
            return;
        }
        for &(link, far) in &self.ways[at] {
            if !self.met[far] {
                self.met[far] = true;
                self.path.push(link);
                self.go(far);
                self.path.pop();
                self.met[far] = false;
            }
        }
    }
}

/// The bytes of a chart of nodes 9/1, 9/2, .. without labels, asked from the first to another.
fn chart(nodes: u8, to: u8, links: &[(u8, u8, bool)]) -> Vec<u8> {
    let mut bytes = Vec::new();
    for node in 1..=nodes {
        bytes.extend([1, 0, 3, 9, 0, node]);
    }
    let mut ports = [0u8; 17];
    for &(a, b, on) in links {
        ports[usize::from(a)] += 1;
        ports[usize::from(b)] += 1;
        let (p, q) = (ports[usize::from(a)], ports[usize::from(b)]);
        bytes.extend([2, 0, 9, 9, 0, a, p, 9, 0, b, q, u8::from(on)]);
    }
    bytes.extend([3, 0, 6, 9, 0, 1, 9, 0, to]);
    bytes
}

fn complete(nodes: u8) -> Vec<u8> {
    chart(nodes, nodes, &pairs(1, nodes))
}

/// Each two of the nodes from one to another, joined.
fn pairs(first: u8, last: u8) -> Vec<(u8, u8, bool)> {
    (first..=last).flat_map(|a| (a + 1..=last).map(move |b| (a, b, true))).collect()
}

/// A ladder of eight nodes, asked from its one end to its other, and seven more nodes that lead nowhere: each joined to each other, and one of them to a node
/// of the ladder. The comb's links come first.
fn comb(hung_on: u8) -> Vec<u8> {
    let mut links = vec![(hung_on, 9, true)];
    links.extend(pairs(9, 15));
    links.extend((1..=6).map(|a| (a, a + 2, true)));
    links.extend([1, 3, 5, 7].map(|a| (a, a + 1, true)));
    chart(15, 8, &links)
}

/// Four rows of four nodes, each joined to its neighbours, asked from one corner to the opposite one.
fn grid() -> Vec<u8> {
    let mut links = Vec::new();
    for node in 1..=16 {
        if node % 4 != 0 {
            links.push((node, node + 1, true));
        }
        if node <= 12 {
            links.push((node, node + 4, true));
        }
    }
    chart(16, 16, &links)
}

/// A drawn chart: so many nodes and links, one link in eight off, from a fixed seed.
fn drawn(seed: u64, nodes: u8, links: usize) -> Vec<u8> {
    let mut state = seed;
    let mut below = |n: u64| {
        state = state.wrapping_mul(6364136223846793005).wrapping_add(1442695040888963407);
        (state >> 33) % n
    };
    let mut list = Vec::new();
    while list.len() < links {
        let a = 1 + below(u64::from(nodes)) as u8;
        let b = 1 + below(u64::from(nodes)) as u8;
        if a != b {
            list.push((a, b, below(8) != 0));
        }
    }
    chart(nodes, nodes, &list)
}

fn main() {
    let words: Vec<String> = std::env::args().collect();
    let chart = match words[2].as_str() {
        "s" => include_bytes!("../charts/s.chart").to_vec(),
        "complete6" => complete(6),
        "complete7" => complete(7),
        "complete8" => complete(8),
        "grid" => grid(),
        "comb" => comb(2),
        "comb-start" => comb(1),
        "comb-middle" => comb(4),
        "comb-end" => comb(7),
        "strands" => include_bytes!("../charts/strands.chart").to_vec(),
        "mesh" => include_bytes!("../charts/mesh.chart").to_vec(),
        other => match other.strip_prefix("drawn").and_then(|number| number.parse::<u64>().ok()) {
            Some(seed) => drawn(seed, 6 + (2 * seed % 7) as u8, 12 + (seed % 7) as usize * 2),
            None => panic!("no chart {other}"),
        },
    };
    if words[1] == "bytes" {
        std::io::Write::write_all(&mut std::io::stdout(), &chart).expect("a chart written");
        return;
    }
    // A pointer that is known only when the program runs: no call can be left out.
    let who: fn(&[u8], &mut [u8]) -> Tally = match words[1].as_str() {
        "ours" => |chart, _| ours(chart),
        "list" => list,
        "walk" => |chart, _| walk(chart, false),
        "store" => |chart, _| walk(chart, true),
        "none" => |_, _| Tally::default(),
        other => panic!("nobody {other}"),
    };
    let mut slots = vec![0; 65_520];
    let mut tally = Tally::default();
    for _ in 0..words[3].parse().unwrap() {
        tally = who(&chart, &mut slots);
    }
    println!("{} routes, sum {}", tally.routes, tally.sum);
}
