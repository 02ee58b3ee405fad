//! One frame read or written, over and over: frames WHO CALL SHAPE TIMES.
//! WHO is ours (pz_read, pz_write), plain (an ordinary program with the same checks, below) or none. CALL is read or write. SHAPE is SIZE-COUNT,
//! the frame's size and its destinations, and after it `-check` for a wrong check character, `-twin` for a last destination that equals the first, or
//! `-version` for a wrong version, which is found last.
//! A sum over what came is printed, the same for both.

extern "C" {
    fn pz_read(frame: *const u8, n: usize, image: *mut u8, m: usize, place: *mut u16) -> u8;
    fn pz_write(
        image: *const u8,
        m: usize,
        contents: *const u8,
        k: usize,
        frame: *mut u8,
        n: usize,
        written: *mut u16,
    ) -> u8;
}

const IMAGE_SIZE: usize = 267;
const FRAME_SIZE: usize = 1222;

#[derive(Clone, Copy, PartialEq)]
struct Address {
    brigade: u8,
    node: u16,
    port: u8,
}

impl Address {
    fn from_three(bytes: &[u8]) -> Address {
        let word = u16::from_be_bytes([bytes[1], bytes[2]]);
        Address { brigade: bytes[0], node: word >> 6, port: (word & 63) as u8 }
    }

    fn to_three(self) -> [u8; 3] {
        let [high, low] = (self.node << 6 | u16::from(self.port)).to_be_bytes();
        [self.brigade, high, low]
    }

    fn from_four(bytes: &[u8]) -> Address {
        Address {
            brigade: bytes[0],
            node: u16::from_be_bytes([bytes[1], bytes[2]]),
            port: bytes[3],
        }
    }

    fn to_four(self) -> [u8; 4] {
        let [high, low] = self.node.to_be_bytes();
        [self.brigade, high, low, self.port]
    }

    fn in_range(self) -> bool {
        self.node <= 1023 && self.port <= 63
    }
}

/// An envelope as an ordinary program holds it.
struct Envelope {
    source: Address,
    length: usize,
    priority: u8,
    version: u8,
    ack: bool,
    seq: u16,
    kind: u8,
    destinations: Vec<Address>,
}

/// The first that equals an earlier one.
fn twin(places: &[Address]) -> Option<usize> {
    (0..places.len()).find(|&place| places[..place].contains(&places[place]))
}

fn version_for(kind: u8) -> u8 {
    if kind == 3 {
        2
    } else {
        1
    }
}

fn check(bytes: &[u8]) -> u8 {
    bytes.iter().fold(0, |sum, byte| sum ^ byte)
}

/// Reads a frame with all checks of a reader; a refusal has its number and its place.
fn read(frame: &[u8]) -> Result<Envelope, (u8, usize)> {
    if frame.len() < 10 {
        return Err((1, frame.len()));
    }
    let word = usize::from(frame[3]) << 8 | usize::from(frame[4]);
    let (count, length) = (word & 63, word >> 6);
    let size = 10 + 3 * count + length;
    if frame.len() < size {
        return Err((1, frame.len()));
    }
    if frame.len() > size {
        return Err((2, size));
    }
    if check(&frame[..size - 1]) != frame[size - 1] {
        return Err((3, size - 1));
    }
    if count == 0 {
        return Err((4, 4));
    }
    let after = &frame[5 + 3 * count..];
    let (priority, version, kind) = (after[0] >> 4, after[0] & 15, after[3]);
    if priority == 0 || priority > 9 {
        return Err((7, 5 + 3 * count));
    }
    let destinations: Vec<Address> =
        frame[5..5 + 3 * count].chunks_exact(3).map(Address::from_three).collect();
    if let Some(place) = twin(&destinations) {
        return Err((8, 5 + 3 * place));
    }
    if version != version_for(kind) {
        return Err((9, 5 + 3 * count));
    }
    let seq = u16::from_be_bytes([after[1], after[2]]);
    Ok(Envelope {
        source: Address::from_three(frame),
        length,
        priority,
        version,
        ack: seq & 1 == 1,
        seq: seq >> 1,
        kind,
        destinations,
    })
}

/// Writes an envelope with all checks of a writer.
fn write(e: &Envelope, contents: &[u8], frame: &mut [u8]) -> Result<usize, u8> {
    let (count, length) = (e.destinations.len(), contents.len());
    if count == 0 || count > 63 {
        return Err(4);
    }
    if length > 1023 {
        return Err(5);
    }
    if !e.source.in_range() || e.seq > 32767 || !e.destinations.iter().all(|one| one.in_range()) {
        return Err(6);
    }
    if e.priority == 0 || e.priority > 9 {
        return Err(7);
    }
    if twin(&e.destinations).is_some() {
        return Err(8);
    }
    if e.version != version_for(e.kind) {
        return Err(9);
    }
    let size = 10 + 3 * count + length;
    if frame.len() < size {
        return Err(10);
    }
    frame[..3].copy_from_slice(&e.source.to_three());
    frame[3..5].copy_from_slice(&((length << 6 | count) as u16).to_be_bytes());
    for (place, one) in frame[5..].chunks_exact_mut(3).zip(&e.destinations) {
        place.copy_from_slice(&one.to_three());
    }
    let after = &mut frame[5 + 3 * count..];
    after[0] = e.priority << 4 | e.version;
    after[1..3].copy_from_slice(&(e.seq << 1 | u16::from(e.ack)).to_be_bytes());
    after[3] = e.kind;
    after[4..4 + length].copy_from_slice(contents);
    frame[size - 1] = check(&frame[..size - 1]);
    Ok(size)
}

/// The image that the door hands over, from an envelope and back.
fn image_of(e: &Envelope, image: &mut [u8]) {
    let offset = 9 + 3 * e.destinations.len();
    image[..4].copy_from_slice(&e.source.to_four());
    image[4] = e.destinations.len() as u8;
    image[5..7].copy_from_slice(&(e.length as u16).to_be_bytes());
    image[7..10].copy_from_slice(&[e.priority, e.version, u8::from(e.ack)]);
    image[10..12].copy_from_slice(&e.seq.to_be_bytes());
    image[12] = e.kind;
    image[13..15].copy_from_slice(&(offset as u16).to_be_bytes());
    let end = 15 + 4 * e.destinations.len();
    for (place, one) in image[15..end].chunks_exact_mut(4).zip(&e.destinations) {
        place.copy_from_slice(&one.to_four());
    }
    image[end..IMAGE_SIZE].fill(0);
}

fn envelope_of(image: &[u8]) -> Result<Envelope, u8> {
    let count = usize::from(image[4]);
    if count > 63 {
        return Err(4);
    }
    if image[9] > 1 {
        return Err(6);
    }
    Ok(Envelope {
        source: Address::from_four(image),
        length: 0,
        priority: image[7],
        version: image[8],
        ack: image[9] == 1,
        seq: u16::from_be_bytes([image[10], image[11]]),
        kind: image[12],
        destinations: image[15..15 + 4 * count].chunks_exact(4).map(Address::from_four).collect(),
    })
}

// ---- what is measured

/// A frame to read, or an image and contents to write, and what comes of it.
struct Work {
    frame: Vec<u8>,
    image: Vec<u8>,
    contents: Vec<u8>,
}

fn work(shape: &str) -> Work {
    let parts: Vec<&str> = shape.split('-').collect();
    let number = |at: usize| parts[at].parse::<usize>().expect("a number");
    let (size, count) = (number(0), number(1));
    let contents: Vec<u8> = (0..size - 10 - 3 * count).map(|i| (i * 7) as u8).collect();
    let place = |i: usize| Address { brigade: 9, node: 20 + i as u16, port: 1 };
    let mut e = Envelope {
        source: Address { brigade: 9, node: 1, port: 5 },
        length: contents.len(),
        priority: 5,
        version: 1,
        ack: true,
        seq: 300,
        kind: 2,
        destinations: (0..count).map(place).collect(),
    };
    let mut frame = vec![0; FRAME_SIZE];
    write(&e, &contents, &mut frame).expect("a frame");
    frame.truncate(size);
    match parts.get(2) {
        Some(&"check") => frame[size - 1] ^= 1,
        Some(&"twin") => {
            // the last destination as the first: their bytes differ by what the check changes by
            for i in 0..3 {
                let last = 5 + 3 * (count - 1) + i;
                frame[size - 1] ^= frame[last] ^ frame[5 + i];
                frame[last] = frame[5 + i];
            }
            e.destinations[count - 1] = e.destinations[0];
        }
        Some(&"version") => {
            e.version = 2;
            frame[5 + 3 * count] ^= 3;
            frame[size - 1] ^= 3;
        }
        _ => (),
    }
    let mut image = vec![0; IMAGE_SIZE];
    image_of(&e, &mut image);
    Work { frame, image, contents }
}

#[inline(never)]
fn plain_read(w: &Work, image: &mut [u8]) -> (u8, u16) {
    match read(&w.frame) {
        Ok(e) => {
            image_of(&e, image);
            (0, 0)
        }
        Err((number, place)) => (number, place as u16),
    }
}

#[inline(never)]
fn plain_write(w: &Work, frame: &mut [u8]) -> (u8, u16) {
    match envelope_of(&w.image).and_then(|e| write(&e, &w.contents, frame)) {
        Ok(size) => (0, size as u16),
        Err(number) => (number, 0),
    }
}

fn our_read(w: &Work, image: &mut [u8]) -> (u8, u16) {
    let (frame, mut place) = (&w.frame, 0);
    let number = unsafe {
        pz_read(frame.as_ptr(), frame.len(), image.as_mut_ptr(), image.len(), &mut place)
    };
    (number, place)
}

fn our_write(w: &Work, frame: &mut [u8]) -> (u8, u16) {
    let mut written = 0;
    let number = unsafe {
        pz_write(
            w.image.as_ptr(),
            w.image.len(),
            w.contents.as_ptr(),
            w.contents.len(),
            frame.as_mut_ptr(),
            frame.len(),
            &mut written,
        )
    };
    (number, written)
}

fn main() {
    let words: Vec<String> = std::env::args().skip(1).collect();
    let [who, call, shape, times] = [0, 1, 2, 3].map(|place| words[place].as_str());
    let w = work(shape);
    let mut out = vec![0; FRAME_SIZE];
    let mut sum = 0u64;
    for _ in 0..times.parse().expect("a number") {
        let (number, beside) = match (who, call) {
            ("ours", "read") => our_read(&w, &mut out[..IMAGE_SIZE]),
            ("ours", _) => our_write(&w, &mut out),
            ("plain", "read") => plain_read(&w, &mut out[..IMAGE_SIZE]),
            ("plain", _) => plain_write(&w, &mut out),
            _ => (0, 0),
        };
        sum += u64::from(number) * 3 + u64::from(beside);
    }
    let bytes =
        out.iter().fold(0u64, |sum, &byte| sum.wrapping_mul(31).wrapping_add(u64::from(byte)));
    println!("{sum} {bytes}");
}
