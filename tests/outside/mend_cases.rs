//! Damaged charts whose mending is known beforehand, and every damage of a kind: bytes changed,
//! charts cut, fields doubled, exchanged, left out and put in, tags and lengths changed, forms
//! mixed; in buffers of every size, up to the longest input and beyond.

use crate::chart::{DIRECTED_LINK, LONGEST, NODE};
use crate::chart_cases::{largest, to_directed, ONE_WAY, S};
use crate::chart_draft::{lay_pieces, Draft, Piece};
use crate::draw::Draw;
use crate::group::{Group, Outcome, Tests};
use crate::mend_call::{mend_all, try_mend, Tallies};
use crate::mender::{Mended, LONGEST_DAMAGED, LONGEST_LIST};
use crate::rules::{break_rules, Breach};

pub const GROUPS: &[Tests] = &[
    ("mending by hand", by_hand),
    ("mending order", order),
    ("mending rooms", rooms),
    ("mending sweeps", sweeps),
    ("mending cuts", cuts),
    ("mending fields", fields),
    ("mending forms", forms),
    ("mending long inputs", long),
];

// ---- by hand ----

// A name, the input, where what is kept stands in it, and the entries: a place and a number.
type Case = (&'static str, Vec<u8>, Vec<std::ops::Range<usize>>, Vec<(usize, u8)>);

fn with(bytes: &[u8], at: usize, value: u8) -> Vec<u8> {
    let mut bytes = bytes.to_vec();
    bytes[at] = value;
    bytes
}

fn by_hand(group: &mut Group, _: &mut Draw) -> Outcome {
    let question = &S[115..];
    let cases: Vec<Case> = vec![
        ("S", S.to_vec(), vec![0..124], vec![]),
        ("S one way", ONE_WAY.to_vec(), vec![0..130], vec![]),
        // A spoiled node takes the links to it along.
        (
            "a node spoiled",
            with(&S, 17, 255),
            vec![0..13, 23..43, 55..67, 79..91, 103..124],
            vec![(13, 24), (43, 28), (67, 28), (91, 28)],
        ),
        ("a field of no bytes", [&[9, 0, 0], &S[..]].concat(), vec![3..127], vec![(0, 22)]),
        ("a node twice", [&S[..33], &S[23..]].concat(), vec![0..33, 43..134], vec![(33, 27)]),
        // What is dropped does not count: the node after a dropped link is kept.
        (
            "a node after a dropped link",
            [&S[..13], &S[43..55], &S[33..43], question, question].concat(),
            vec![0..13, 25..44],
            vec![(13, 28), (44, 25)],
        ),
        (
            "a plain link among directed ones",
            [&ONE_WAY[..121], &S[43..55], &ONE_WAY[121..]].concat(),
            vec![0..121, 133..142],
            vec![(121, 25)],
        ),
        // 21 ends the walk: what could be read behind it is not looked for.
        (
            "cut behind the question",
            [&S[..], &[1, 255, 255], &S].concat(),
            vec![0..124],
            vec![(124, 21)],
        ),
        ("one byte behind the question", [&S[..], &[3]].concat(), vec![0..124], vec![(124, 21)]),
        (
            "a place above 255",
            [&S[..], &[9, 1, 41], &[0; 297], &[1]].concat(),
            vec![0..124],
            vec![(124, 22), (424, 21)],
        ),
        ("a link switched to 2", with(&S, 54, 2), vec![0..43, 55..124], vec![(43, 24)]),
        ("a loop", with(&S, 100, 20), vec![0..91, 103..124], vec![(91, 29)]),
        ("an end taken", with(&S, 61, 2), vec![0..55, 67..124], vec![(55, 30)]),
        ("a tag lost", with(&S, 103, 0), vec![0..103, 115..124], vec![(103, 22)]),
    ];
    let mut tallies = Tallies::new();
    for (name, input, ranges, entries) in cases {
        let mended = Mended::of(&input);
        let kept: Vec<u8> = ranges.into_iter().flat_map(|range| input[range].to_vec()).collect();
        let listed: Vec<(usize, u8)> =
            mended.dropped.iter().map(|dropped| (dropped.place, dropped.number)).collect();
        group.check(mended.kept == kept && listed == entries, || {
            format!("{name}: known beforehand {entries:?}, listed here {listed:?}")
        })?;
        mend_all(group, name, &input, &mut tallies)?;
    }
    // Nothing, and charts whose question does not survive.
    for input in [&[][..], &S[..123], &S[..115], question, &with(&S, 123, 31), &[3; 200]] {
        let mended = Mended::of(input);
        let came = try_mend(group, "no question", input, &mended, LONGEST, LONGEST_LIST)?;
        group.known("no question", 31, came)?;
    }
    Ok(())
}

// ---- order ----

struct Request {
    input: Vec<u8>,
    room: usize,
    list_room: usize,
}

// The last number first, as a later row decides.
const BREACHES: [Breach<Request>; 6] = [
    (10, |r| r.list_room = 2),
    (10, |r| r.list_room = 0),
    (10, |r| r.room = 123),
    (10, |r| r.room = 0),
    (31, |r| r.input.truncate(115)),
    (33, |r| r.input.resize(LONGEST_DAMAGED + 1, 0)),
];

// Every choice of breaches at once: 33, 31, then 10 for either buffer.
fn order(group: &mut Group, _: &mut Draw) -> Outcome {
    for chosen in 0..1 << BREACHES.len() {
        let input = [&S[..], &[9]].concat();
        let mut request = Request { input, room: 124, list_room: 3 };
        let lowest = break_rules(&BREACHES, chosen, &mut request).unwrap_or(0);
        let Request { input, room, list_room } = request;
        let came = try_mend(group, "order", &input, &Mended::of(&input), room, list_room)?;
        group.known("order", lowest, came)?;
    }
    Ok(())
}

// ---- rooms ----

// Every size of either buffer: S with a node spoiled has 78 bytes kept and 12 listed.
fn rooms(group: &mut Group, _: &mut Draw) -> Outcome {
    let spoiled = with(&S, 17, 255);
    let mended = Mended::of(&spoiled);
    for room in (0..=130).chain([LONGEST, 1 << 16]) {
        for list_room in (0..=40).chain([LONGEST_LIST, 1 << 16]) {
            let came = try_mend(group, "rooms", &spoiled, &mended, room, list_room)?;
            let number = if room < 78 || list_room < 12 { 10 } else { 0 };
            group.known(&format!("rooms of {room} and {list_room}"), number, came)?;
        }
    }
    Ok(())
}

// ---- bytes ----

// S and the one-way chart with every value of every byte; the largest charts with some.
fn sweeps(group: &mut Group, _: &mut Draw) -> Outcome {
    let mut tallies = Tallies::new();
    for whole in [&S[..], &ONE_WAY] {
        for at in 0..whole.len() {
            for value in 0..=u8::MAX {
                mend_all(group, "sweeps", &with(whole, at, value), &mut tallies)?;
            }
        }
    }
    for whole in [largest().lay(), largest().directed().lay()] {
        for at in 0..whole.len() {
            for value in [0, 1, 4, 255, whole[at] ^ 1, whole[at] ^ 128] {
                mend_all(group, "sweeps, largest", &with(&whole, at, value), &mut tallies)?;
            }
        }
    }
    Ok(())
}

// Cut at either side, with some bytes taken out, and with some put in.
fn cuts(group: &mut Group, _: &mut Draw) -> Outcome {
    let mut tallies = Tallies::new();
    let largest = largest().directed().lay();
    for whole in [&S[..], &ONE_WAY, &largest] {
        for at in 0..=whole.len() {
            mend_all(group, "cut behind", &whole[..at], &mut tallies)?;
            mend_all(group, "cut before", &whole[at..], &mut tallies)?;
            for size in [1, 2, 3, 12, 13] {
                let out = [&whole[..at], &whole[(at + size).min(whole.len())..]].concat();
                mend_all(group, "bytes taken out", &out, &mut tallies)?;
                let put = [&whole[..at], &vec![0; size], &whole[at..]].concat();
                mend_all(group, "bytes put in", &put, &mut tallies)?;
            }
        }
    }
    Ok(())
}

// ---- fields ----

fn drafts() -> [Draft; 3] {
    [Draft::s(), Draft::s().direct(&[1, 0, 0, 0, 2, 0]), Draft::row(17)]
}

fn fields(group: &mut Group, _: &mut Draw) -> Outcome {
    let mut tallies = Tallies::new();
    for pieces in drafts().map(|draft| draft.pieces()) {
        let mut mend = |name: &str, pieces: &[Piece]| -> Outcome {
            mend_all(group, name, &lay_pieces(pieces), &mut tallies)
        };
        for one in 0..pieces.len() {
            for other in 0..=pieces.len() {
                let mut doubled = pieces.clone();
                doubled.insert(other, pieces[one].clone());
                mend("a field doubled", &doubled)?;
                if other < pieces.len() {
                    let mut exchanged = pieces.clone();
                    exchanged.swap(one, other);
                    mend("fields exchanged", &exchanged)?;
                    exchanged.remove(other);
                    mend("fields exchanged, one left out", &exchanged)?;
                }
            }
            for tag in 0..=u8::MAX {
                let mut changed = pieces.clone();
                changed[one].tag = tag;
                mend("a tag changed", &changed)?;
                let mut more = pieces.clone();
                more.insert(one, Piece::new(tag, vec![]));
                mend("a field of no bytes", &more)?;
            }
            for size in 0..40 {
                let mut changed = pieces.clone();
                changed[one].length = size;
                mend("another length", &changed)?;
                changed[one].body.resize(size, 32);
                mend("another body", &changed)?;
            }
            for length in [255, 256, 512, 32768, 65535] {
                let mut changed = pieces.clone();
                changed[one].length = length;
                mend("a great length", &changed)?;
            }
        }
    }
    Ok(())
}

// Every choice of links of S in the directed form, beside plain ones.
fn forms(group: &mut Group, _: &mut Draw) -> Outcome {
    let mut tallies = Tallies::new();
    for chosen in 0..1 << 6 {
        let mut pieces = Draft::s().pieces();
        for place in (0..6).filter(|place| chosen >> place & 1 == 1) {
            to_directed(&mut pieces[4 + place]);
        }
        let input = lay_pieces(&pieces);
        mend_all(group, "forms", &input, &mut tallies)?;
        // The links of the first one's form are kept.
        let links = pieces.iter().filter(|piece| piece.tag == pieces[4].tag).count();
        let size = if pieces[4].tag == DIRECTED_LINK { 13 } else { 12 };
        let kept = Mended::of(&input).kept.len();
        group.check(kept == 52 + size * links, || format!("forms: {kept} bytes kept"))?;
    }
    Ok(())
}

// ---- long inputs ----

// A node, so many fields of no bytes, and the question: as many entries.
fn strays(count: usize) -> Vec<u8> {
    let [node, question] = [&[NODE, 0, 3, 9, 0, 1][..], &[3, 0, 6, 9, 0, 1, 9, 0, 1]];
    [node, &vec![0; 3 * count], question].concat()
}

// Gives these bytes over and over, so many in all.
fn over(bytes: &[u8], size: usize) -> Vec<u8> {
    bytes.iter().copied().cycle().take(size).collect()
}

fn long(group: &mut Group, draw: &mut Draw) -> Outcome {
    let mut tallies = Tallies::new();
    // Around the lists that are laid aside, and the longest.
    for count in (0..20).chain(500..525).chain([1000, 5461, 21839, 21840]) {
        let input = strays(count);
        mend_all(group, &format!("{count} strays"), &input, &mut tallies)?;
        let mended = Mended::of(&input);
        for list_room in [0, 3 * count, 3 * count + 1, LONGEST_LIST, 1 << 16] {
            let came = try_mend(group, "strays", &input, &mended, LONGEST, list_room)?;
            group.known("strays", if list_room < 3 * count { 10 } else { 0 }, came)?;
        }
    }
    let largest = largest().directed().lay();
    let link = [&S[..43], &over(&S[43..55], 65400), &S[115..]].concat();
    for size in [4096, 4097, 32768, 65533, 65534, 65535, 65536, 65537, 70000, 1 << 17] {
        let noise = draw.bytes(size);
        for input in [
            over(&S, size),
            over(&ONE_WAY, size),
            over(&largest, size),
            [&vec![0; size - 124], &S[..]].concat(),
            [&vec![255; size - 124], &S[..]].concat(),
            [&S[..], &vec![0; size - 124]].concat(),
            [&largest[..], &noise[largest.len()..]].concat(),
            noise,
            link[..size.min(link.len())].to_vec(),
            link.clone(),
        ] {
            mend_all(group, &format!("{size} bytes"), &input, &mut tallies)?;
            if input.len() > LONGEST_DAMAGED {
                let mended = Mended::of(&input);
                let came = try_mend(group, "too long", &input, &mended, 0, 1 << 17)?;
                group.known("too long", 33, came)?;
            }
        }
    }
    Ok(())
}
