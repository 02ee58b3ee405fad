//! pz_chart_read and pz_chart_write, each beside the second reader and writer, and back again
//! through the other; and so pz_chart_renew and pz_chart_restore.

use crate::chart::{Refusal, LINK};
use crate::door::{self, hex, Answer, Expected, Given};
use crate::group::{Group, Outcome, Stop};
use crate::{chart, chart_image};

fn expected_read(chart: &[u8], image_size: usize) -> Expected {
    let fields = match chart::read(chart) {
        Ok(fields) => fields,
        Err((number, place)) => return Ok(Given::refused_at(number, place)),
    };
    if image_size < chart_image::SIZE {
        return Err(10);
    }
    Ok(read_to(chart_image::lay(&fields)))
}

fn read_to(image: Vec<u8>) -> Given {
    Given::new(image, &[0])
}

fn written_to(chart: Vec<u8>) -> Given {
    let size = chart.len();
    Given::new(chart, &[size])
}

/// Reads a chart into an image of this size; an accepted one is written back to the same bytes.
pub fn try_read(
    group: &mut Group,
    name: &str,
    chart: &[u8],
    image_size: usize,
) -> Result<Refusal, Stop> {
    let came = door::chart_read(chart, image_size);
    let expected = expected_read(chart, image_size);
    let held = group.compare(&came, &expected, || {
        format!("{name}: pz_chart_read, image of {image_size}, chart {}", hex(chart))
    })?;
    if held && came.number == 0 {
        let image = &came.bytes()[..chart_image::SIZE];
        let back = door::chart_write(image, chart.len());
        group.compare(&back, &Ok(written_to(chart.to_vec())), || {
            format!(
                "{name}: pz_chart_write of the image that pz_chart_read gave for {}",
                hex(chart)
            )
        })?;
    }
    Ok((came.number, came.first_beside()))
}

/// Writes an image into a buffer of this size; an accepted one is read back to the same values,
/// with zeros where a writer does not look.
pub fn try_write(group: &mut Group, name: &str, image: &[u8], room: usize) -> Result<u8, Stop> {
    let came = door::chart_write(image, room);
    let expected = chart::write(image, room).map(written_to);
    let held = group.compare(&came, &expected, || {
        format!("{name}: pz_chart_write, buffer of {room}, image {}", hex(image))
    })?;
    if let (true, Ok(Given { bytes: chart, .. })) = (held, expected) {
        let mut tidy = image.to_vec();
        chart_image::unlooked(image).into_iter().for_each(|place| tidy[place] = 0);
        if image[chart_image::LINK_COUNT] == 0 {
            tidy[chart_image::FORM] = LINK;
        }
        tidy.truncate(chart_image::SIZE);
        let back = door::chart_read(&chart, chart_image::SIZE);
        group.compare(&back, &Ok(read_to(tidy)), || {
            format!("{name}: pz_chart_read of {}, that pz_chart_write gave", hex(&chart))
        })?;
    }
    Ok(came.number)
}

fn call_move(form: u8, chart: &[u8], room: usize) -> Answer {
    match form {
        LINK => door::chart_restore(chart, room),
        _ => door::chart_renew(chart, room),
    }
}

// What a chart that is moved gives: beside a refusal of the chart its place is real.
fn moved_to(moved: Result<Vec<u8>, Refusal>) -> Expected {
    match moved {
        Ok(chart) => {
            let size = chart.len();
            Ok(Given::new(chart, &[size, 0]))
        }
        Err((number, place)) => Ok(Given { number, bytes: Vec::new(), beside: vec![0, place] }),
    }
}

/// Moves a chart to the form of this tag, in a buffer of this size; one that was moved is moved
/// back to the same bytes.
pub fn try_move(
    group: &mut Group,
    name: &str,
    form: u8,
    chart: &[u8],
    room: usize,
) -> Result<Refusal, Stop> {
    let came = call_move(form, chart, room);
    let moved = chart::move_to(form, chart, room);
    let refusal = moved.as_ref().err().copied().unwrap_or((0, 0));
    let held = group.compare(&came, &moved_to(moved.clone()), || {
        format!("{name}: to the form {form}, buffer of {room}, chart {}", hex(chart))
    })?;
    if let (true, Ok(moved), Ok(fields)) = (held, moved, chart::read(chart)) {
        let old = chart::form(&fields);
        let back = call_move(old, &moved, chart.len());
        group.compare(&back, &moved_to(Ok(chart.to_vec())), || {
            format!("{name}: back to the form {old}, chart {}", hex(chart))
        })?;
    }
    Ok(refusal)
}

/// Reads a chart whose refusal is known beforehand.
pub fn known_read(group: &mut Group, name: &str, refusal: Refusal, chart: &[u8]) -> Outcome {
    let came = try_read(group, name, chart, chart_image::SIZE)?;
    known(group, name, refusal, came)
}

/// Checks a refusal that is known beforehand, apart from what is written a second time.
pub fn known(group: &mut Group, name: &str, refusal: Refusal, came: Refusal) -> Outcome {
    group.check(came == refusal, || {
        let [expected, came] =
            [refusal, came].map(|(number, place)| format!("{number} at {place}"));
        format!("{name}\n  expected {expected}\n  came {came}")
    })?;
    Ok(())
}
