//! pz_mend beside the second mender, and what may be counted on: a chart that is sound is kept
//! whole, what is kept is read, mending it again changes nothing, and each number is the reader's.

use crate::chart;
use crate::chart_image;
use crate::door::{self, hex, Expected, Given};
use crate::group::{Group, Outcome, Stop, Tally};
use crate::mender::{Dropped, Mended};

// Of a longer list the entries at both ends are held against the reader.
const MANY: usize = 60;

/// Calls pz_mend and lends it buffers of these sizes; gives its number.
pub fn try_mend(
    group: &mut Group,
    name: &str,
    input: &[u8],
    mended: &Mended,
    room: usize,
    list_room: usize,
) -> Result<u8, Stop> {
    let came = door::mend(input, room, list_room);
    let (expected, list): (Expected, Vec<u8>) = match mended.refusal(room, list_room) {
        Ok(()) => {
            let list = mended.list();
            (Ok(Given::new(mended.kept.clone(), &[mended.kept.len(), list.len()])), list)
        }
        Err(number) => (Err(number), Vec::new()),
    };
    group.check(came.is(&expected, &list), || {
        let call = format!("pz_mend, chart of {room}, list of {list_room}, input {}", hex(input));
        format!("{name}: {call}\n  {}", came.against(&expected, &list))
    })?;
    Ok(came.answer.number)
}

/// How often each refusal came, and each number in a list.
pub struct Tallies {
    given: Tally,
    listed: Tally,
}

impl Tallies {
    pub fn new() -> Tallies {
        Tallies { given: Tally::new("pz_mend"), listed: Tally::new("pz_mend, listed") }
    }

    /// Checks that each came so many times at least, and no other.
    pub fn settle_often(&self, group: &mut Group, often: u64) -> Outcome {
        self.given.settle_often(group, &[0, 10, 31, 33], often)?;
        let numbers: Vec<u8> = (21..=30).collect();
        self.listed.settle_often(group, &numbers, often)
    }
}

/// Mends an input in buffers that just fit, and in those that are one byte short; then holds what
/// comes against the reader.
pub fn mend_all(group: &mut Group, name: &str, input: &[u8], tallies: &mut Tallies) -> Outcome {
    let mended = Mended::of(input);
    let (kept, listed) = (mended.kept.len(), 3 * mended.dropped.len());
    let rooms = [
        Some((kept, listed)),
        kept.checked_sub(1).map(|short| (short, listed)),
        listed.checked_sub(1).map(|short| (kept, short)),
    ];
    for (room, list_room) in rooms.into_iter().flatten() {
        tallies.given.saw(try_mend(group, name, input, &mended, room, list_room)?);
    }
    if mended.refusal(kept, listed).is_err() {
        return Ok(());
    }
    mended.dropped.iter().for_each(|dropped| tallies.listed.saw(dropped.number));
    let read = door::chart_read(&mended.kept, chart_image::SIZE).number;
    group.known(&format!("{name}: pz_chart_read of what is kept"), 0, read)?;
    again(group, name, &mended.kept)?;
    if chart::read(input).is_ok() {
        let whole = mended.kept == input && mended.dropped.is_empty();
        group.check(whole, || format!("{name}: a sound chart is not kept whole"))?;
    }
    readers_numbers(group, name, input, &mended)
}

// What was kept is sound: it stays as it is, and nothing is listed, in a list of no bytes.
fn again(group: &mut Group, name: &str, kept: &[u8]) -> Outcome {
    let came = door::mend(kept, kept.len(), 0);
    let expected = Ok(Given::new(kept.to_vec(), &[kept.len(), 0]));
    group.check(came.is(&expected, &[]), || {
        format!("{name}: mended again, {}\n  {}", hex(kept), came.against(&expected, &[]))
    })?;
    Ok(())
}

// Each listed number is the one that pz_chart_read gives for what was kept before it and, after
// that, the input from the dropped field on; and it is given where that field then begins.
fn readers_numbers(group: &mut Group, name: &str, input: &[u8], mended: &Mended) -> Outcome {
    let count = mended.dropped.len();
    let at_ends = |(i, _): &(usize, &Dropped)| *i < MANY || i + MANY >= count;
    for (_, dropped) in mended.dropped.iter().enumerate().filter(at_ends) {
        let Dropped { place, number, kept_before } = *dropped;
        let joined = [&mended.kept[..kept_before], &input[place..]].concat();
        let came = door::chart_read(&joined, chart_image::SIZE);
        let came = (came.number, came.first_beside());
        group.check(came == (number, kept_before), || {
            format!("{name}: the reader gave {came:?}, {number} is listed at {place}")
        })?;
    }
    Ok(())
}
