//! pz_read and pz_write against the second reader and writer: frames worked by hand, both sides of
//! every limit, the order of the refusals, every value of every field, and drawn frames and values.

use crate::door::{self, hex, Expected, Given};
use crate::draw::Draw;
use crate::group::{Group, Outcome, Stop, Tally, Tests};
use crate::rules::{break_rules, Breach};
use crate::wire::{Address, Envelope, MOST_CONTENTS, MOST_DESTINATIONS};
use crate::{image, wire};

pub const GROUPS: &[Tests] = &[
    ("envelope by hand", by_hand),
    ("envelope limits", limits),
    ("envelope places", places),
    ("envelope lengths", lengths),
    ("envelope order", order),
    ("envelope sweeps", sweeps),
    ("envelope reads", reads),
    ("envelope writes", writes),
];

const DRAWN_READS: usize = 240_000;
const DRAWN_WRITES: usize = 120_000;

// 5 and 6 cannot come from a reader, 1 to 3 not from a writer.
const READ_NUMBERS: [u8; 9] = [0, 1, 2, 3, 4, 7, 8, 9, 10];
const WRITE_NUMBERS: [u8; 8] = [0, 4, 5, 6, 7, 8, 9, 10];

// A length whose low sixteen bits are all 0.
const LONG: usize = 1 << 16;

type Change = fn(&mut Envelope);
pub type Fault<T> = fn(&mut T, &mut Draw);

// ---- one call, compared ----

fn expected_read(frame: &[u8], image_size: usize) -> Expected {
    let envelope = match wire::read(frame) {
        Ok(envelope) => envelope,
        Err(number) => return Ok(Given::refused_at(number, wire::place(frame, number))),
    };
    if image_size < image::SIZE {
        return Err(10);
    }
    Ok(read_to(image::lay(&envelope)))
}

fn expected_write(image: &[u8], contents: &[u8], room: usize) -> Expected {
    if image.len() < image::SIZE {
        return Err(10);
    }
    wire::write(&image::take(image, contents.len()), contents, room).map(written_to)
}

fn read_to(image: Vec<u8>) -> Given {
    Given::new(image, &[0])
}

fn written_to(frame: Vec<u8>) -> Given {
    let size = frame.len();
    Given::new(frame, &[size])
}

// Reads a frame into an image of this size; an accepted one is written back to the same bytes.
fn try_read(group: &mut Group, name: &str, frame: &[u8], image_size: usize) -> Result<u8, Stop> {
    let came = door::read(frame, image_size);
    let expected = expected_read(frame, image_size);
    let held = group.compare(&came, &expected, || {
        format!("{name}: pz_read, image of {image_size}, frame {}", hex(frame))
    })?;
    if held && came.number == 0 {
        let image = &came.bytes()[..image::SIZE];
        let offset = image::number(image, image::OFFSET);
        let length = image::number(image, image::LENGTH);
        let back = door::write(image, &frame[offset..offset + length], frame.len());
        group.compare(&back, &Ok(written_to(frame.to_vec())), || {
            format!("{name}: pz_write of the image that pz_read gave for {}", hex(frame))
        })?;
    }
    Ok(came.number)
}

// Writes an image into a buffer of this size; an accepted one is read back to the same values.
fn try_write(
    group: &mut Group,
    name: &str,
    image: &[u8],
    contents: &[u8],
    room: usize,
) -> Result<u8, Stop> {
    let came = door::write(image, contents, room);
    let expected = expected_write(image, contents, room);
    let held = group.compare(&came, &expected, || {
        let (image, contents) = (hex(image), hex(contents));
        format!("{name}: pz_write, buffer of {room}, image {image}, contents {contents}")
    })?;
    if let (true, Ok(Given { bytes: frame, .. })) = (held, expected) {
        let values = image::take(image, contents.len());
        let back = door::read(&frame, image::SIZE);
        group.compare(&back, &Ok(read_to(image::lay(&values))), || {
            format!("{name}: pz_read of {}, that pz_write gave", hex(&frame))
        })?;
    }
    Ok(came.number)
}

// ---- named cases ----

/// Gives a valid envelope with three destinations.
pub fn plain() -> Envelope {
    let mut envelope = Envelope {
        source: Address::new(9, 1, 2),
        count: 0,
        length: 5,
        destinations: Vec::new(),
        priority: 5,
        version: 1,
        ack: 1,
        seq: 300,
        message_type: 2,
    };
    spread(&mut envelope, 3);
    envelope
}

/// Sets this many destinations, alike but for the node.
pub fn spread(e: &mut Envelope, count: usize) {
    e.count = count;
    e.destinations = (0..count).map(|place| Address::new(9, 20 + place, 1)).collect();
}

/// Image, frame before the contents, contents and check character, each worked by hand.
type ByHand = (&'static [u8], &'static [u8], &'static [u8], u8);

pub const BY_HAND: [ByHand; 3] = [
    (
        &[9, 0, 1, 2, 2, 0, 3, 1, 1, 1, 0, 5, 27, 0, 15, 9, 0, 20, 1, 255, 3, 255, 63],
        &[0x09, 0x00, 0x42, 0x00, 0xc2, 0x09, 0x05, 0x01, 0xff, 0xff, 0xff, 0x11, 0x00, 0x0b, 0x1b],
        b"abc",
        0x1a,
    ),
    (
        &[0, 0, 0, 0, 1, 0, 0, 9, 2, 0, 127, 255, 3, 0, 12, 0, 0, 0, 0],
        &[0x00, 0x00, 0x00, 0x00, 0x01, 0x00, 0x00, 0x00, 0x92, 0xff, 0xfe, 0x03],
        b"",
        0x91,
    ),
    (
        &[170, 2, 170, 21, 1, 2, 0, 8, 1, 0, 64, 0, 200, 0, 12, 85, 1, 85, 42],
        &[0xaa, 0xaa, 0x95, 0x80, 0x01, 0x55, 0x55, 0x6a, 0x81, 0x80, 0x00, 0xc8],
        &[0; 512],
        0xb7,
    ),
];

fn by_hand(group: &mut Group, _: &mut Draw) -> Outcome {
    for (image, head, contents, check) in BY_HAND {
        let image = [image, &vec![0; image::SIZE - image.len()]].concat();
        let frame = [head, contents, &[check]].concat();
        let read = door::read(&frame, image::SIZE);
        let expected = Ok(read_to(image.clone()));
        group.compare(&read, &expected, || format!("pz_read of {}", hex(&frame)))?;
        let written = door::write(&image, contents, frame.len());
        let expected = Ok(written_to(frame.clone()));
        group.compare(&written, &expected, || format!("pz_write of {}", hex(&image)))?;
        try_read(group, "by hand", &frame, image::SIZE)?;
        try_write(group, "by hand", &image, contents, frame.len())?;
    }
    Ok(())
}

const LIMITS: [(&str, u8, Change); 45] = [
    ("as it is", 0, |_| ()),
    ("0 destinations", 4, |e| spread(e, 0)),
    ("1 destination", 0, |e| spread(e, 1)),
    ("63 destinations", 0, |e| spread(e, MOST_DESTINATIONS)),
    ("64 destinations", 4, |e| {
        spread(e, MOST_DESTINATIONS);
        e.count += 1;
    }),
    ("contents of 0", 0, |e| e.length = 0),
    ("contents of 1", 0, |e| e.length = 1),
    ("contents of 1023", 0, |e| e.length = MOST_CONTENTS),
    ("contents of 1024", 5, |e| e.length = MOST_CONTENTS + 1),
    ("contents that sixteen bits count as 0", 5, |e| e.length = LONG),
    ("source brigade 0", 0, |e| e.source.brigade = 0),
    ("source brigade 255", 0, |e| e.source.brigade = 255),
    ("source node 0", 0, |e| e.source.node = 0),
    ("source node 1023", 0, |e| e.source.node = 1023),
    ("source node 1024", 6, |e| e.source.node = 1024),
    ("source port 0", 0, |e| e.source.port = 0),
    ("source port 63", 0, |e| e.source.port = 63),
    ("source port 64", 6, |e| e.source.port = 64),
    ("destination brigade 255", 0, |e| e.destinations[0].brigade = 255),
    ("destination node 1023", 0, |e| e.destinations[0].node = 1023),
    ("destination node 1024", 6, |e| e.destinations[0].node = 1024),
    ("destination port 63", 0, |e| e.destinations[0].port = 63),
    ("destination port 64", 6, |e| e.destinations[0].port = 64),
    ("last destination's node 1024", 6, |e| e.destinations[2].node = 1024),
    ("last destination's port 64", 6, |e| e.destinations[2].port = 64),
    ("63rd destination's node 1024", 6, |e| {
        spread(e, MOST_DESTINATIONS);
        e.destinations[62].node = 1024;
    }),
    ("sequence number 0", 0, |e| e.seq = 0),
    ("sequence number 32767", 0, |e| e.seq = 32767),
    ("sequence number 32768", 6, |e| e.seq = 32768),
    ("no acknowledgement", 0, |e| e.ack = 0),
    ("acknowledgement 2", 6, |e| e.ack = 2),
    ("acknowledgement 255", 6, |e| e.ack = 255),
    ("priority 0", 7, |e| e.priority = 0),
    ("priority 1", 0, |e| e.priority = 1),
    ("priority 9", 0, |e| e.priority = 9),
    ("priority 10", 7, |e| e.priority = 10),
    ("priority 15", 7, |e| e.priority = 15),
    ("neighbours equal", 8, |e| e.destinations[1] = e.destinations[0]),
    ("first and last equal", 8, |e| e.destinations[2] = e.destinations[0]),
    ("62nd and 63rd equal", 8, |e| {
        spread(e, MOST_DESTINATIONS);
        e.destinations[62] = e.destinations[61];
    }),
    ("equal but for the port", 0, |e| e.destinations[1] = Address::new(9, 20, 0)),
    ("equal but for the node's top bit", 0, |e| e.destinations[1] = Address::new(9, 532, 1)),
    ("equal but for the brigade", 0, |e| e.destinations[1] = Address::new(8, 20, 1)),
    ("a destination equal to the source", 0, |e| e.destinations[1] = e.source),
    ("version 0", 9, |e| e.version = 0),
];

// Where a refused frame of 3 destinations, or of as many as said, is at fault.
const PLACES: [(&str, u8, usize, Change); 11] = [
    ("0 destinations", 4, 4, |e| spread(e, 0)),
    ("priority 0", 7, 14, |e| e.priority = 0),
    ("version 2", 9, 14, |e| e.version = 2),
    ("priority 0 of 63 destinations", 7, 194, |e| {
        spread(e, MOST_DESTINATIONS);
        e.priority = 0;
    }),
    ("neighbours equal", 8, 8, |e| e.destinations[1] = e.destinations[0]),
    ("first and last equal", 8, 11, |e| e.destinations[2] = e.destinations[0]),
    ("all three equal", 8, 8, |e| e.destinations = vec![e.destinations[0]; 3]),
    ("two pairs, the second inside the first", 8, 11, |e| {
        spread(e, 4);
        e.destinations[2] = e.destinations[1];
        e.destinations[3] = e.destinations[0];
    }),
    ("two pairs in turn", 8, 11, |e| {
        spread(e, 4);
        e.destinations[2] = e.destinations[0];
        e.destinations[3] = e.destinations[1];
    }),
    ("62nd and 63rd equal", 8, 191, |e| {
        spread(e, MOST_DESTINATIONS);
        e.destinations[62] = e.destinations[61];
    }),
    ("the 2nd of 63 equals the 1st", 8, 8, |e| {
        spread(e, MOST_DESTINATIONS);
        e.destinations[1] = e.destinations[0];
    }),
];

fn place(group: &mut Group, name: &str, number: u8, place: usize, frame: &[u8]) -> Outcome {
    let came = try_read(group, name, frame, image::SIZE)?;
    group.known(name, number, came)?;
    let at = door::read(frame, image::SIZE).first_beside();
    group.check(at == place, || format!("{name}\n  expected place {place}\n  came {at}"))?;
    Ok(())
}

fn places(group: &mut Group, _: &mut Draw) -> Outcome {
    for (name, number, at, change) in PLACES {
        let mut envelope = Envelope { length: 0, ..plain() };
        change(&mut envelope);
        place(group, name, number, at, &wire::lay(&envelope, &[]))?;
    }
    let frame = wire::lay(&Envelope { length: 2, ..plain() }, &[7, 8]);
    place(group, "nothing", 1, 0, &[])?;
    place(group, "cut after the counts", 1, 5, &frame[..5])?;
    place(group, "a byte short", 1, 20, &frame[..20])?;
    place(group, "whole", 0, 0, &frame)?;
    for more in [1, 2, LONG] {
        let longer = [&frame[..], &vec![0; more]].concat();
        place(group, "longer", 2, 21, &longer)?;
    }
    for byte in 0..frame.len() {
        // A change of the counts asks for another size.
        if byte != 3 && byte != 4 {
            let mut spoiled = frame.clone();
            spoiled[byte] ^= 1;
            place(group, "spoiled", 3, 20, &spoiled)?;
        }
    }
    Ok(())
}

// Message type, version and number (3.3.2).
const VERSIONS: [(usize, usize, u8); 12] = [
    (3, 2, 0),
    (3, 1, 9),
    (3, 3, 9),
    (0, 1, 0),
    (0, 2, 9),
    (2, 1, 0),
    (2, 2, 9),
    (4, 1, 0),
    (4, 2, 9),
    (255, 1, 0),
    (255, 2, 9),
    (255, 15, 9),
];

fn limits(group: &mut Group, draw: &mut Draw) -> Outcome {
    for (name, number, change) in LIMITS {
        let mut envelope = plain();
        change(&mut envelope);
        limit(group, draw, name, number, &envelope)?;
    }
    for (message_type, version, number) in VERSIONS {
        let name = format!("version {version} for type {message_type}");
        let envelope = Envelope { message_type, version, ..plain() };
        limit(group, draw, &name, number, &envelope)?;
    }
    Ok(())
}

// Writes the values, and reads them where the wire can carry them.
fn limit(group: &mut Group, draw: &mut Draw, name: &str, number: u8, e: &Envelope) -> Outcome {
    let contents = draw.bytes(e.length);
    let written = try_write(group, name, &image::lay(e), &contents, e.size())?;
    group.known(name, number, written)?;
    let carried = number != 5 && number != 6 && e.count <= MOST_DESTINATIONS;
    if carried {
        let read = try_read(group, name, &wire::lay(e, &contents), image::SIZE)?;
        group.known(name, number, read)?;
    }
    Ok(())
}

fn lengths(group: &mut Group, draw: &mut Draw) -> Outcome {
    for (count, length) in [(1, 0), (1, 1), (3, 5), (MOST_DESTINATIONS, MOST_CONTENTS)] {
        let mut envelope = plain();
        spread(&mut envelope, count);
        envelope.length = length;
        let contents = draw.bytes(length);
        let image = image::lay(&envelope);
        let frame = wire::lay(&envelope, &contents);
        let size = frame.len();

        for (number, room) in [(10, 0), (10, size - 1), (0, size), (0, size + 1), (0, LONG)] {
            let name = format!("a buffer of {room} for a frame of {size}");
            let came = try_write(group, &name, &image, &contents, room)?;
            group.known(&name, number, came)?;
        }
        for (number, lent) in [(10, 0), (10, 266), (0, 267), (0, 268), (0, 400), (0, LONG)] {
            let name = format!("an image of {lent}");
            let mut lengthened = image.clone();
            lengthened.resize(lent, 0xff);
            let came = try_write(group, &name, &lengthened, &contents, size)?;
            group.known(&name, number, came)?;
            let came = try_read(group, &name, &frame, lent)?;
            group.known(&name, number, came)?;
        }
        let cuts = (0..size).map(|left| (1, left));
        for (number, left) in cuts.chain([(0, size), (2, size + 1), (2, size + LONG)]) {
            let name = format!("{left} bytes of a frame of {size}");
            let mut changed = frame.clone();
            changed.resize(left, 0);
            wire::mend(&mut changed);
            let came = try_read(group, &name, &changed, image::SIZE)?;
            group.known(&name, number, came)?;
        }
    }
    Ok(())
}

/// One breach for each number, the last first: a later row may undo what an earlier one needs.
pub const CARRIED: [Breach<Envelope>; 4] = [
    (9, |e| e.version = 2),
    (8, |e| e.destinations[1] = e.destinations[0]),
    (7, |e| e.priority = 10),
    (4, |e| spread(e, 0)),
];
const WRITTEN: [Breach<Envelope>; 6] = [
    CARRIED[0],
    CARRIED[1],
    CARRIED[2],
    (6, |e| e.source.port = 64),
    (5, |e| e.length = MOST_CONTENTS + 1),
    (4, |e| e.count = MOST_DESTINATIONS + 1),
];

/// Gives a frame as it is, and damaged so that 1, 2 or 3 comes first.
pub fn damaged(frame: &[u8]) -> [(Option<u8>, Vec<u8>); 5] {
    let last = frame.len() - 1;
    let change = |place: usize, by: u8| {
        let mut frame = frame.to_vec();
        frame[place] ^= by;
        frame
    };
    [
        (None, frame.to_vec()),
        (Some(1), frame[..last].to_vec()),
        (Some(2), [frame, &[0]].concat()),
        (Some(3), change(last, 0x80)),
        (Some(3), change(0, 0x01)),
    ]
}

// Every choice of breaches at once: the lowest number comes.
fn order(group: &mut Group, draw: &mut Draw) -> Outcome {
    for chosen in 0..1 << WRITTEN.len() {
        let mut envelope = plain();
        let lowest = break_rules(&WRITTEN, chosen, &mut envelope);
        let contents = draw.bytes(envelope.length);
        let image = image::lay(&envelope);
        for (other, room) in [(0, envelope.size()), (10, 12), (10, 0)] {
            let came = try_write(group, "order", &image, &contents, room)?;
            group.known("order", lowest.unwrap_or(other), came)?;
        }
        let short = &image[..image::SIZE - 1];
        let came = try_write(group, "order", short, &contents, envelope.size())?;
        group.known("order", 10, came)?;
    }
    for chosen in 0..1 << CARRIED.len() {
        let mut envelope = plain();
        let lowest = break_rules(&CARRIED, chosen, &mut envelope);
        let contents = draw.bytes(envelope.length);
        for (first, frame) in damaged(&wire::lay(&envelope, &contents)) {
            for (other, lent) in [(0, image::SIZE), (10, image::SIZE - 1), (10, 0)] {
                let number = first.or(lowest).unwrap_or(other);
                let came = try_read(group, "order", &frame, lent)?;
                group.known("order", number, came)?;
            }
        }
    }
    Ok(())
}

type Sweep = (&'static str, fn(&mut Envelope, usize));

// Sixteen bits cover a word of the envelope, or the priority, version and type together.
const SWEEPS: [Sweep; 5] = [
    ("every source node and port", |e, word| e.source = Address::new(9, word >> 6, word & 63)),
    ("every destination node and port", |e, word| {
        e.destinations[0] = Address::new(9, word >> 6, word & 63)
    }),
    ("every length and count", |e, word| {
        spread(e, word & 63);
        e.length = word >> 6;
    }),
    ("every sequence number", |e, word| {
        e.seq = word >> 1;
        e.ack = word & 1;
    }),
    ("every priority, version and type", |e, word| {
        e.priority = word >> 12;
        e.version = word >> 8 & 15;
        e.message_type = word & 255;
    }),
];

fn sweeps(group: &mut Group, draw: &mut Draw) -> Outcome {
    for (name, change) in SWEEPS {
        for word in 0..1 << 16 {
            let mut envelope = plain();
            change(&mut envelope, word);
            let contents = draw.bytes(envelope.length);
            try_read(group, name, &wire::lay(&envelope, &contents), image::SIZE)?;
        }
    }
    Ok(())
}

// ---- drawn cases ----

// Gives the address that 24 bits make (A.4).
fn address(number: usize) -> Address {
    Address::new(number >> 16, number >> 6 & 1023, number & 63)
}

// Draws different destinations, many of them one bit apart.
fn draw_destinations(draw: &mut Draw, count: usize) -> Vec<Address> {
    let mut drawn = Vec::new();
    while drawn.len() < count {
        let any = draw.below(1 << 24);
        let number = match draw.below(4) {
            0 => draw.one_of(&[0, 0xff_ffff, 0xff_0000, 0x00_ffc0, 0x00_003f]),
            1 => any,
            _ => drawn.last().map_or(any, |last| last ^ 1 << draw.below(24)),
        };
        if !drawn.contains(&number) {
            drawn.push(number);
        }
    }
    drawn.into_iter().map(address).collect()
}

// Draws an envelope that keeps every rule, of each size class.
fn draw_envelope(draw: &mut Draw) -> Envelope {
    let few = draw.within(2, 8);
    let many = draw.within(9, 62);
    let count = draw.one_of(&[1, few, many, MOST_DESTINATIONS]);
    let few = draw.within(2, 20);
    let many = draw.within(21, 1022);
    let length = draw.one_of(&[0, 1, few, many, MOST_CONTENTS]);
    let any = draw.below(256);
    let message_type = draw.one_of(&[3, 3, 0, 2, 4, 255, any, any]);
    let any = draw.below(1 << 15);
    let seq = draw.one_of(&[0, 32767, any, any]);
    Envelope {
        source: address(draw.below(1 << 24)),
        count,
        length,
        destinations: draw_destinations(draw, count),
        priority: draw.within(1, 9),
        version: wire::version_for(message_type),
        ack: draw.below(2),
        seq,
        message_type,
    }
}

fn repeat_destination(e: &mut Envelope, draw: &mut Draw) {
    let count = e.destinations.len();
    if count > 1 {
        let place = draw.below(count);
        let other = (place + draw.within(1, count - 1)) % count;
        e.destinations[place] = e.destinations[other];
    }
}

fn change_destination(e: &mut Envelope, draw: &mut Draw, change: Fault<Address>) {
    if !e.destinations.is_empty() {
        let place = draw.below(e.destinations.len());
        change(&mut e.destinations[place], draw);
    }
}

fn change_type(e: &mut Envelope, draw: &mut Draw) {
    e.message_type = draw.one_of(&[0, 2, 3, 4, 255]);
}

/// What the wire can carry: any value in each field, and the values that a rule refuses.
pub const CARRIED_FAULTS: [Fault<Envelope>; 13] = [
    |e, draw| e.source = address(draw.below(1 << 24)),
    |e, draw| e.count = draw.below(64),
    |e, draw| e.length = draw.below(1024),
    |e, draw| change_destination(e, draw, |a, draw| *a = address(draw.below(1 << 24))),
    |e, draw| e.priority = draw.below(16),
    |e, draw| e.version = draw.below(16),
    |e, draw| e.seq = draw.below(1 << 15),
    |e, _| e.ack ^= 1,
    |e, _| spread(e, 0),
    |e, draw| e.priority = draw.one_of(&[0, 10, 11, 12, 13, 14, 15]),
    |e, _| e.version ^= 3,
    change_type,
    repeat_destination,
];

/// What befalls a frame once it is laid.
pub const FRAME_FAULTS: [Fault<Vec<u8>>; 10] = [
    |f, _| f.clear(),
    |f, draw| f.truncate(draw.below(f.len())),
    |f, _| {
        f.pop();
    },
    |f, draw| f.resize(f.len() + draw.within(1, 100), 0),
    |f, draw| f.extend(draw.bytes(1)),
    |f, draw| flip(f, draw),
    |f, draw| {
        flip(f, draw);
        wire::mend(f);
    },
    |f, draw| *f.last_mut().expect("a frame") ^= draw.within(1, 255) as u8,
    |f, draw| {
        let size = draw.within(0, 1300);
        *f = draw.bytes(size);
    },
    |f, draw| {
        // Noise of the size it asks for, with a right check character.
        *f = draw.bytes(1300);
        let size = wire::asked_size(f).expect("a frame");
        f.truncate(size);
        wire::mend(f);
    },
];

// Changes one bit, most often before the contents.
fn flip(frame: &mut [u8], draw: &mut Draw) {
    let near = frame.len().min(16);
    let reach = draw.one_of(&[near, near, frame.len()]);
    frame[draw.below(reach)] ^= 0x80 >> draw.below(8);
}

fn reads(group: &mut Group, draw: &mut Draw) -> Outcome {
    let mut tally = Tally::new("pz_read");
    for _ in 0..DRAWN_READS {
        let mut envelope = draw_envelope(draw);
        let contents = draw.bytes(envelope.length);
        for _ in 0..draw.one_of(&[0, 0, 0, 1, 1, 1, 2, 3]) {
            draw.one_of(&CARRIED_FAULTS)(&mut envelope, draw);
        }
        let mut frame = wire::lay(&envelope, &contents);
        if draw.below(3) == 0 {
            draw.one_of(&FRAME_FAULTS)(&mut frame, draw);
        }
        let lent = draw.one_of(&[267, 267, 267, 267, 0, 266, 268, 400]);
        tally.saw(try_read(group, "drawn", &frame, lent)?);
    }
    tally.settle(group, &READ_NUMBERS)
}

// Values just out of range, and some whose low bits alone would be in range.
const WRITTEN_FAULTS: [Fault<Envelope>; 13] = [
    |e, draw| e.count = draw.one_of(&[0, 64, 65, 128, 255]),
    |e, draw| e.length = draw.within(1024, 1100),
    |e, _| e.length = 1024,
    |e, draw| e.source.node = draw.bad_node(),
    |e, draw| e.source.port = draw.bad_port(),
    |e, draw| change_destination(e, draw, |a, draw| a.node = draw.bad_node()),
    |e, draw| change_destination(e, draw, |a, draw| a.port = draw.bad_port()),
    |e, draw| e.seq = draw.bad_seq(),
    |e, draw| e.ack = draw.one_of(&[2, 3, 128, 255]),
    |e, draw| e.priority = draw.one_of(&[0, 10, 15, 16, 17, 25, 255]),
    |e, draw| e.version = draw.one_of(&[0, 1, 2, 3, 17, 18, 255]),
    change_type,
    repeat_destination,
];

// Puts noise, or destinations that would be refused, where a writer does not look.
fn fill_unlooked(image: &mut [u8], count: usize, draw: &mut Draw) {
    for range in [image::LENGTH, image::OFFSET, image::unused(count)] {
        let noise = draw.bytes(range.len());
        image[range].copy_from_slice(&noise);
    }
    if draw.below(2) == 0 {
        let first = image::unused(0).start;
        image.copy_within(first..first + image::unused(count).len(), image::unused(count).start);
    }
}

fn writes(group: &mut Group, draw: &mut Draw) -> Outcome {
    let mut tally = Tally::new("pz_write");
    for _ in 0..DRAWN_WRITES {
        let mut envelope = draw_envelope(draw);
        for _ in 0..draw.one_of(&[0, 0, 0, 1, 1, 1, 2, 3]) {
            draw.one_of(&WRITTEN_FAULTS)(&mut envelope, draw);
        }
        let contents = draw.bytes(envelope.length);
        let mut image = image::lay(&envelope);
        fill_unlooked(&mut image, envelope.count, draw);
        let noise = draw.bytes(33);
        image.extend(noise);
        image.truncate(draw.one_of(&[267, 267, 267, 267, 267, 300, 266, 0]));
        let size = envelope.size();
        let less = draw.below(size);
        let more = draw.within(size + 1, size + 100);
        let room = draw.one_of(&[size, size, size, size - 1, less, more]);
        tally.saw(try_write(group, "drawn", &image, &contents, room)?);
    }
    tally.settle(group, &WRITE_NUMBERS)
}
