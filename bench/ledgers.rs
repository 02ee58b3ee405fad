//! One call on the image of a ledger, over and over: ledgers WHO CALL LEGS TIMES.
//! WHO is ours (pz_tick, pz_answer, pz_clear, pz_accept), plain (an ordinary program with the same checks, below) or none. CALL is tick, newest,
//! oldest or unknown (answers), clear or accept; the image is the same before every call. A sum over what came is printed, the same for both.

extern "C" {
    fn pz_accept(
        ledger: *mut u8,
        m: usize,
        frame: *const u8,
        n: usize,
        arrival: u8,
        table: *const u8,
        t: usize,
        ticks: u16,
        added: *mut u8,
        place: *mut u16,
    ) -> u8;
    fn pz_answer(
        ledger: *mut u8,
        m: usize,
        by_brigade: u8,
        by_node: u16,
        by_port: u8,
        to_brigade: u8,
        to_node: u16,
        to_port: u8,
        seq: u16,
        nak: u8,
        set: u8,
        code: u8,
    ) -> u8;
    fn pz_tick(ledger: *mut u8, m: usize, ended: *mut u8) -> u8;
    fn pz_clear(ledger: *mut u8, m: usize, place: usize) -> u8;
}

const LEDGER_SIZE: usize = 1921;
const TABLE_SIZE: usize = 196;
const LEG: usize = 15;
const MOST_LEGS: usize = 128;

#[derive(Clone, Copy, PartialEq)]
struct Address {
    brigade: u8,
    node: u16,
    port: u8,
}

impl Address {
    fn from_four(b: &[u8]) -> Address {
        Address { brigade: b[0], node: u16::from_be_bytes([b[1], b[2]]), port: b[3] }
    }

    fn from_three(b: &[u8]) -> Address {
        let word = u16::from_be_bytes([b[1], b[2]]);
        Address { brigade: b[0], node: word >> 6, port: (word & 63) as u8 }
    }

    fn to_four(self) -> [u8; 4] {
        let [high, low] = self.node.to_be_bytes();
        [self.brigade, high, low, self.port]
    }

    fn in_range(self) -> bool {
        self.node <= 1023 && self.port <= 63
    }
}

#[derive(Clone, Copy, PartialEq)]
enum Standing {
    Open,
    Acknowledged,
    Refused(u8, u8),
    Undeliverable,
    TimedOut,
    Waiting,
}

#[derive(Clone, Copy)]
struct Leg {
    source: Address,
    destination: Address,
    seq: u16,
    ticks: u16,
    standing: Standing,
}

impl Leg {
    fn from_image(b: &[u8]) -> Option<Leg> {
        let standing = match (b[12], b[13], b[14]) {
            (0, 0, 0) => Standing::Open,
            (1, 0, 0) => Standing::Acknowledged,
            (2, set, code) => Standing::Refused(set, code),
            (3, 0, 0) => Standing::Undeliverable,
            (4, 0, 0) => Standing::TimedOut,
            (5, 0, 0) => Standing::Waiting,
            _ => return None,
        };
        Some(Leg {
            source: Address::from_four(b),
            destination: Address::from_four(&b[4..]),
            seq: u16::from_be_bytes([b[8], b[9]]),
            ticks: u16::from_be_bytes([b[10], b[11]]),
            standing,
        })
    }

    fn to_image(self, b: &mut [u8]) {
        b[..4].copy_from_slice(&self.source.to_four());
        b[4..8].copy_from_slice(&self.destination.to_four());
        b[8..10].copy_from_slice(&self.seq.to_be_bytes());
        b[10..12].copy_from_slice(&self.ticks.to_be_bytes());
        let standing = match self.standing {
            Standing::Open => [0, 0, 0],
            Standing::Acknowledged => [1, 0, 0],
            Standing::Refused(set, code) => [2, set, code],
            Standing::Undeliverable => [3, 0, 0],
            Standing::TimedOut => [4, 0, 0],
            Standing::Waiting => [5, 0, 0],
        };
        b[12..15].copy_from_slice(&standing);
    }

    fn is_open(&self) -> bool {
        matches!(self.standing, Standing::Open | Standing::Waiting)
    }

    fn is_right(&self) -> bool {
        let ticks = if self.is_open() { self.ticks > 0 } else { self.ticks == 0 };
        self.source.in_range() && self.destination.in_range() && self.seq <= 32767 && ticks
    }

    fn is_like(&self, other: &Leg) -> bool {
        self.source == other.source
            && self.destination == other.destination
            && self.seq == other.seq
    }
}

/// The legs of an image that keeps the rules, else 60.
fn legs_of(image: &[u8]) -> Result<Vec<Leg>, u8> {
    let count = usize::from(image[0]);
    if count > MOST_LEGS {
        return Err(60);
    }
    let legs: Option<Vec<Leg>> =
        image[1..1 + LEG * count].chunks_exact(LEG).map(Leg::from_image).collect();
    let legs = legs.ok_or(60)?;
    let right = legs.iter().all(Leg::is_right);
    let twin = |place: usize| {
        legs[place].is_open()
            && legs[..place].iter().any(|leg| leg.is_open() && leg.is_like(&legs[place]))
    };
    if !right || (0..legs.len()).any(twin) {
        return Err(60);
    }
    Ok(legs)
}

/// Writes these legs over the places of the image that counted before, and the count.
fn put_back(legs: &[Leg], image: &mut [u8]) {
    image[0] = legs.len() as u8;
    for (leg, place) in legs.iter().zip(image[1..].chunks_exact_mut(LEG)) {
        leg.to_image(place);
    }
}

#[inline(never)]
fn tick(image: &mut [u8], ended: &mut u8) -> Result<(), u8> {
    let mut legs = legs_of(image)?;
    for leg in legs.iter_mut().filter(|leg| leg.is_open()) {
        leg.ticks -= 1;
        if leg.ticks == 0 {
            leg.standing = Standing::TimedOut;
            *ended += 1;
        }
    }
    put_back(&legs, image);
    Ok(())
}

#[inline(never)]
fn answer(
    image: &mut [u8],
    by: Address,
    to: Address,
    seq: u16,
    standing: Standing,
) -> Result<(), u8> {
    let mut legs = legs_of(image)?;
    let named =
        |leg: &Leg| leg.is_open() && leg.destination == by && leg.source == to && leg.seq == seq;
    let place = legs.iter().position(named).ok_or(64)?;
    if standing == Standing::Refused(2, 13) {
        legs[place].standing = Standing::Waiting;
    } else {
        legs[place].standing = standing;
        legs[place].ticks = 0;
    }
    put_back(&legs, image);
    Ok(())
}

#[inline(never)]
fn clear(image: &mut [u8], place: usize) -> Result<(), u8> {
    let mut legs = legs_of(image)?;
    if place >= legs.len() || legs[place].is_open() {
        return Err(65);
    }
    let last = 1 + LEG * (legs.len() - 1);
    legs.remove(place);
    put_back(&legs, image);
    image[last..last + LEG].fill(0);
    Ok(())
}

/// The fields of a frame that an accept needs: source, whether it asks for an acknowledgement, sequence number, destinations. All checks of a reader.
fn read(frame: &[u8]) -> Result<(Address, bool, u16, Vec<Address>), u8> {
    if frame.len() < 10 {
        return Err(1);
    }
    let word = usize::from(frame[3]) << 8 | usize::from(frame[4]);
    let (count, length) = (word & 63, word >> 6);
    let size = 10 + 3 * count + length;
    if frame.len() < size {
        return Err(1);
    }
    if frame.len() > size {
        return Err(2);
    }
    if frame[..size - 1].iter().fold(0, |sum, byte| sum ^ byte) != frame[size - 1] {
        return Err(3);
    }
    if count == 0 {
        return Err(4);
    }
    let after = &frame[5 + 3 * count..];
    if after[0] >> 4 == 0 || after[0] >> 4 > 9 {
        return Err(7);
    }
    let destinations: Vec<Address> =
        frame[5..5 + 3 * count].chunks_exact(3).map(Address::from_three).collect();
    if (0..count).any(|place| destinations[..place].contains(&destinations[place])) {
        return Err(8);
    }
    if after[0] & 15 != if after[3] == 3 { 2 } else { 1 } {
        return Err(9);
    }
    let word = u16::from_be_bytes([after[1], after[2]]);
    Ok((Address::from_three(frame), word & 1 == 1, word >> 1, destinations))
}

/// Whether the table has a way to a destination.
fn has_way(table: &[u8], to: Address, arrival: u8) -> bool {
    let own = (table[0], u16::from_be_bytes([table[1], table[2]]));
    own == (to.brigade, to.node)
        || table[4..4 + 6 * usize::from(table[3])].chunks_exact(6).any(|e| {
            let covers = match e[0] {
                0 => e[1] == to.brigade && u16::from_be_bytes([e[2], e[3]]) == to.node,
                1 => e[1] == to.brigade,
                _ => true,
            };
            covers && e[5] == 1 && e[4] != arrival
        })
}

fn table_is_right(table: &[u8]) -> bool {
    let node = |b: &[u8]| u16::from_be_bytes([b[0], b[1]]) <= 1023;
    table[3] <= 32
        && node(&table[1..])
        && table[4..4 + 6 * usize::from(table[3])].chunks_exact(6).all(|e| {
            e[0] <= 2 && (e[0] != 0 || node(&e[2..])) && (1..=63).contains(&e[4]) && e[5] <= 1
        })
}

#[inline(never)]
fn accept(
    image: &mut [u8],
    frame: &[u8],
    arrival: u8,
    table: &[u8],
    ticks: u16,
    added: &mut u8,
) -> Result<(), u8> {
    let (source, ack, seq, destinations) = read(frame)?;
    if !table_is_right(table) {
        return Err(50);
    }
    if arrival > 63 {
        return Err(51);
    }
    let mut legs = legs_of(image)?;
    if !ack {
        return Ok(());
    }
    if ticks == 0 {
        return Err(61);
    }
    if legs.iter().any(|leg| leg.is_open() && leg.source == source && leg.seq == seq) {
        return Err(62);
    }
    if legs.len() + destinations.len() > MOST_LEGS {
        return Err(63);
    }
    *added = destinations.len() as u8;
    legs.extend(destinations.into_iter().map(|destination| {
        let (ticks, standing) = match has_way(table, destination, arrival) {
            true => (ticks, Standing::Open),
            false => (0, Standing::Undeliverable),
        };
        Leg { source, destination, seq, ticks, standing }
    }));
    put_back(&legs, image);
    Ok(())
}

// ---- what is measured

const CENTRE: Address = Address { brigade: 9, node: 1, port: 5 };
const STATION: Address = Address { brigade: 9, node: 20, port: 1 };

/// Open legs from 9/1/5 to 9/20/1, with sequence numbers 0, 1, 2, .. and 100 ticks; for clear the one in the middle is acknowledged.
fn image_of(call: &str, count: usize) -> Vec<u8> {
    let mut legs: Vec<Leg> = (0..count)
        .map(|place| Leg {
            source: CENTRE,
            destination: STATION,
            seq: place as u16,
            ticks: 100,
            standing: Standing::Open,
        })
        .collect();
    if call == "clear" {
        legs[count / 2].standing = Standing::Acknowledged;
        legs[count / 2].ticks = 0;
    }
    let mut image = vec![0; LEDGER_SIZE];
    put_back(&legs, &mut image);
    image
}

/// One entry: everything by port 4.
fn table() -> Vec<u8> {
    let mut table = vec![0; TABLE_SIZE];
    table[..10].copy_from_slice(&[9, 0, 1, 1, 2, 0, 0, 0, 4, 1]);
    table[2] = 1;
    table
}

/// A frame from 9/1/5 to 9/30/1 that asks for an acknowledgement.
fn frame() -> Vec<u8> {
    let mut frame = vec![9, 0, 69, 0, 1, 9, 7, 129, 0x51, 234, 97, 2];
    let check = frame.iter().fold(0, |sum, byte| sum ^ byte);
    frame.push(check);
    frame
}

fn ours(call: &str, image: &mut [u8], legs: usize, frame: &[u8], table: &[u8]) -> (u8, u8) {
    let (mut beside, mut place) = (0, 0);
    let (start, size) = (image.as_mut_ptr(), image.len());
    let seq = sequence(call, legs);
    let number = unsafe {
        match call {
            "tick" => pz_tick(start, size, &mut beside),
            "clear" => pz_clear(start, size, legs / 2),
            "accept" => pz_accept(
                start,
                size,
                frame.as_ptr(),
                frame.len(),
                3,
                table.as_ptr(),
                table.len(),
                100,
                &mut beside,
                &mut place,
            ),
            _ => pz_answer(start, size, 9, 20, 1, 9, 1, 5, seq, 0, 0, 0),
        }
    };
    (number, beside)
}

fn plain(call: &str, image: &mut [u8], legs: usize, frame: &[u8], table: &[u8]) -> (u8, u8) {
    let mut beside = 0;
    let came = match call {
        "tick" => tick(image, &mut beside),
        "clear" => clear(image, legs / 2),
        "accept" => accept(image, frame, 3, table, 100, &mut beside),
        _ => answer(image, STATION, CENTRE, sequence(call, legs), Standing::Acknowledged),
    };
    (came.err().unwrap_or(0), beside)
}

fn sequence(call: &str, legs: usize) -> u16 {
    match call {
        "newest" => legs as u16 - 1,
        "oldest" => 0,
        _ => 31000,
    }
}

fn main() {
    let words: Vec<String> = std::env::args().skip(1).collect();
    let [who, call, legs, times] = [0, 1, 2, 3].map(|place| words[place].as_str());
    let legs: usize = legs.parse().expect("a number");
    let (start, frame, table) = (image_of(call, legs), frame(), table());
    let mut image = start.clone();
    let mut sum = 0u64;
    for _ in 0..times.parse().expect("a number") {
        image.copy_from_slice(&start);
        let (number, beside) = match who {
            "ours" => ours(call, &mut image, legs, &frame, &table),
            "plain" => plain(call, &mut image, legs, &frame, &table),
            _ => (0, 0),
        };
        sum += u64::from(number) * 300 + u64::from(beside);
    }
    let bytes =
        image.iter().fold(0u64, |sum, &byte| sum.wrapping_mul(31).wrapping_add(u64::from(byte)));
    println!("{sum} {bytes}");
}
