//! pz_first, pz_next and pz_routes, each beside the second list of routes; the walk through all
//! routes that a screen makes with the first two, and the list of them in slots.

use crate::door::{self, hex, Answer};
use crate::group::{Group, Outcome, Stop};
use crate::trace::{Route, Routes, MOST_STEPS, SLOT_SIZE};

/// Calls pz_first on a buffer that holds these bytes.
pub fn try_first(
    group: &mut Group,
    name: &str,
    chart: &[u8],
    routes: &Routes,
    buffer: &[u8],
    length: usize,
) -> Result<Answer, Stop> {
    let came = door::first(chart, buffer, length);
    group.compare(&came, &routes.first(buffer), || {
        let (buffer, chart) = (hex(buffer), hex(chart));
        format!("{name}: pz_first, length {length}, buffer {buffer}, chart {chart}")
    })?;
    Ok(came)
}

/// Calls pz_next on a buffer that holds these bytes.
pub fn try_next(
    group: &mut Group,
    name: &str,
    chart: &[u8],
    routes: &Routes,
    buffer: &[u8],
    length: usize,
) -> Result<Answer, Stop> {
    let came = door::next(chart, buffer, length);
    group.compare(&came, &routes.next(buffer, length), || {
        let (buffer, chart) = (hex(buffer), hex(chart));
        format!("{name}: pz_next, length {length}, buffer {buffer}, chart {chart}")
    })?;
    Ok(came)
}

/// Calls pz_routes and lends it slots of so many bytes.
pub fn try_list(
    group: &mut Group,
    name: &str,
    chart: &[u8],
    routes: &Routes,
    room: usize,
) -> Result<Answer, Stop> {
    let came = door::routes(chart, room);
    group.compare(&came, &routes.slots(room), || {
        format!("{name}: pz_routes, slots of {room}, chart {}", hex(chart))
    })?;
    Ok(came)
}

/// Lists the routes in slots without room, for one, for all but one, for all and for more.
pub fn list_rooms(group: &mut Group, name: &str, chart: &[u8], routes: &Routes) -> Outcome {
    let all = SLOT_SIZE * routes.list().len();
    let few = [0, SLOT_SIZE - 1, SLOT_SIZE, 2 * SLOT_SIZE - 1];
    let near = [all.saturating_sub(SLOT_SIZE), all.saturating_sub(1), all];
    let past = [all + 1, all + SLOT_SIZE - 1, all + SLOT_SIZE];
    for room in few.into_iter().chain(near).chain(past) {
        try_list(group, name, chart, routes, room)?;
    }
    Ok(())
}

/// Walks through all routes in one buffer, handed on from call to call; gives the numbers that
/// came, and checks the whole list. Then lists them in slots.
pub fn walk_through(
    group: &mut Group,
    name: &str,
    chart: &[u8],
    routes: &Routes,
    mut buffer: Vec<u8>,
    length: usize,
) -> Result<Vec<u8>, Stop> {
    let mut list: Vec<Route> = Vec::new();
    let mut came = try_first(group, name, chart, routes, &buffer, length)?;
    let mut numbers = vec![came.number];
    while usize::from(came.number) <= MOST_STEPS {
        let length = usize::from(came.number);
        buffer = came.bytes().to_vec();
        list.push(buffer[..length].to_vec());
        came = try_next(group, name, chart, routes, &buffer, length)?;
        numbers.push(came.number);
    }
    group.check(list == routes.list(), || {
        let [expected, came] = [routes.list(), &list].map(|list| format!("{list:?}"));
        format!("{name}: all routes of {}\n  expected {expected}\n  came {came}", hex(chart))
    })?;
    list_rooms(group, name, chart, routes)?;
    Ok(numbers)
}
