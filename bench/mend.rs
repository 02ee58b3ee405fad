//! One damaged chart mended, over and over: mend WHO CALL SHAPE TIMES.
//! WHO is ours (pz_mend), plain (an ordinary program with the same checks, below) or none. CALL is mend. SHAPE is s or largest, the sample chart as it is;
//! s-node or largest-node, with its second node out of range; zeros, as many fields of no bytes before S as 65,535 bytes have room for; charts, S over and
//! over, and links, one link of S over and over before the question, up to as many bytes.
//! A sum over what came is printed, the same for both.

extern "C" {
    fn pz_mend(
        input: *const u8,
        n: usize,
        chart: *mut u8,
        m: usize,
        kept: *mut u16,
        list: *mut u8,
        l: usize,
        listed: *mut u32,
    ) -> u8;
}

const LONGEST: usize = 65535;
const CHART_SIZE: usize = 1113;
const LIST_SIZE: usize = 65520;

/// A value that the compiler knows nothing of.
#[inline(never)]
fn hidden<T>(value: T) -> T {
    unsafe {
        let copy = std::ptr::read_volatile(&value);
        std::mem::forget(value);
        copy
    }
}

#[derive(Clone, Copy, PartialEq)]
struct Station {
    brigade: u8,
    node: u16,
}

#[derive(Clone, Copy, PartialEq)]
struct End {
    station: Station,
    port: u8,
}

fn station(b: &[u8]) -> Station {
    Station { brigade: b[0], node: u16::from_be_bytes([b[1], b[2]]) }
}

fn end(b: &[u8]) -> End {
    End { station: station(b), port: b[3] }
}

impl Station {
    fn in_range(self) -> bool {
        self.node <= 1023
    }
}

impl End {
    fn in_range(self) -> bool {
        self.station.in_range() && (1..=63).contains(&self.port)
    }
}

/// What is kept so far, as far as a later field is judged by it.
#[derive(Default)]
struct Kept {
    stations: Vec<Station>,
    links: Vec<(End, End)>,
    form: u8,
    asked: bool,
}

impl Kept {
    fn has(&self, station: Station) -> bool {
        self.stations.contains(&station)
    }

    fn used(&self, end: End) -> bool {
        self.links.iter().any(|&(a, b)| a == end || b == end)
    }

    fn add_node(&mut self, station: Station, label: &[u8]) -> Result<(), u8> {
        if !station.in_range() || !label.iter().all(|byte| (32..=126).contains(byte)) {
            return Err(24);
        }
        if !self.links.is_empty() || self.asked {
            return Err(25);
        }
        if self.stations.len() == 16 {
            return Err(26);
        }
        if self.has(station) {
            return Err(27);
        }
        self.stations.push(station);
        Ok(())
    }

    fn add_link(&mut self, form: u8, body: &[u8]) -> Result<(), u8> {
        let (a, b) = (end(body), end(&body[4..]));
        let direction = body.get(9).copied().unwrap_or(0);
        if body[8] > 1 || direction > 2 || !a.in_range() || !b.in_range() {
            return Err(24);
        }
        if self.asked || !self.links.is_empty() && self.form != form {
            return Err(25);
        }
        if self.links.len() == 48 {
            return Err(26);
        }
        if !self.has(a.station) || !self.has(b.station) {
            return Err(28);
        }
        if a.station == b.station {
            return Err(29);
        }
        if self.used(a) || self.used(b) {
            return Err(30);
        }
        self.links.push((a, b));
        self.form = form;
        Ok(())
    }

    fn ask(&mut self, from: Station, to: Station) -> Result<(), u8> {
        if !from.in_range() || !to.in_range() {
            return Err(24);
        }
        if self.asked {
            return Err(25);
        }
        if !self.has(from) || !self.has(to) {
            return Err(28);
        }
        self.asked = true;
        Ok(())
    }

    fn add_field(&mut self, tag: u8, body: &[u8]) -> Result<(), u8> {
        match (tag, body.len()) {
            (1, 3..=27) => self.add_node(station(body), &body[3..]),
            (2, 9) | (4, 10) => self.add_link(tag, body),
            (3, 6) => self.ask(station(body), station(&body[3..])),
            (1..=4, _) => Err(23),
            _ => Err(22),
        }
    }
}

/// The sizes of what is kept and of what is listed, or the refusal.
fn mend(bytes: &[u8], out: &mut [u8], list: &mut [u8]) -> Result<(usize, usize), u8> {
    if bytes.len() > LONGEST {
        return Err(33);
    }
    let mut so_far = Kept::default();
    let (mut kept, mut entries) = (Vec::with_capacity(CHART_SIZE), Vec::new());
    let mut at = 0;
    while at < bytes.len() {
        let whole = bytes.get(at..at + 3).and_then(|head| {
            let next = at + 3 + usize::from(u16::from_be_bytes([head[1], head[2]]));
            bytes.get(at + 3..next).map(|body| (head[0], body, next))
        });
        let (number, next) = match whole {
            Some((tag, body, next)) => (so_far.add_field(tag, body).err().unwrap_or(0), next),
            None => (21, bytes.len()),
        };
        if number == 0 {
            kept.extend_from_slice(&bytes[at..next]);
        } else {
            let [high, low] = (at as u16).to_be_bytes();
            entries.extend([high, low, number]);
        }
        at = next;
    }
    if !so_far.asked {
        return Err(31);
    }
    if kept.len() > out.len() || entries.len() > list.len() {
        return Err(10);
    }
    out[..kept.len()].copy_from_slice(&kept);
    list[..entries.len()].copy_from_slice(&entries);
    Ok((kept.len(), entries.len()))
}

fn ours(bytes: &[u8], out: &mut [u8], list: &mut [u8]) -> Result<(usize, usize), u8> {
    let (mut kept, mut listed) = (0u16, 0u32);
    let number = unsafe {
        pz_mend(
            bytes.as_ptr(),
            bytes.len(),
            out.as_mut_ptr(),
            out.len(),
            &mut kept,
            list.as_mut_ptr(),
            list.len(),
            &mut listed,
        )
    };
    match number {
        0 => Ok((usize::from(kept), listed as usize)),
        _ => Err(number),
    }
}

fn sample(name: &str) -> Vec<u8> {
    std::fs::read(format!("charts/{name}.chart")).expect("a sample chart")
}

fn over(part: &[u8], size: usize) -> Vec<u8> {
    part.repeat(size / part.len())
}

fn shaped(shape: &str) -> Vec<u8> {
    let s = sample("s");
    match shape {
        "zeros" => [over(&[0; 3], LONGEST - s.len()), s].concat(),
        "charts" => over(&s, LONGEST),
        // a link that is there already
        "links" => {
            let (before, question) = s.split_at(115);
            let links = over(&s[43..55], LONGEST - s.len());
            [before, &links, question].concat()
        }
        _ => match shape.strip_suffix("-node") {
            Some(name) => {
                let mut chart = sample(name);
                let second = 3 + usize::from(chart[2]);
                chart[second + 4] = 255;
                chart
            }
            None => sample(shape),
        },
    }
}

fn main() {
    let words: Vec<String> = std::env::args().skip(1).collect();
    let [who, _, shape, times] = [0, 1, 2, 3].map(|place| words[place].as_str());
    let bytes = shaped(shape);
    let (mut out, mut list) = (vec![0; CHART_SIZE], vec![0; LIST_SIZE]);
    let mut came = Ok((0, 0));
    for _ in 0..times.parse().expect("a number") {
        let (bytes, out, list) = (hidden(&bytes[..]), hidden(&mut out[..]), hidden(&mut list[..]));
        came = match who {
            "ours" => ours(bytes, out, list),
            "plain" => mend(bytes, out, list),
            _ => Ok((0, 0)),
        };
    }
    let (kept, listed) = came.unwrap_or((0, 0));
    let sum = out
        .iter()
        .chain(&list)
        .fold(0u64, |sum, &byte| sum.wrapping_mul(31).wrapping_add(u64::from(byte)));
    println!("{} {kept} {listed} {sum}", came.err().unwrap_or(0));
}
