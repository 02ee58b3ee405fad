//! A second list of a chart's routes, from documents 01 and 02. Each way of walking on is put on a
//! pile until none is left; those that came to the end are sorted, and what is next is looked up. A
//! way from which the end can't be reached any more is left out, as document 02 has it; for charts
//! that are small enough every way can be walked instead.

use crate::chart::{self, Field, Refusal, StationBytes, QUESTION};
use crate::door::{Expected, Given};
use std::collections::BTreeMap;

pub const MOST_STEPS: usize = 15;

/// A slot has a byte for the route's length, and one for each link of the longest.
pub const SLOT_SIZE: usize = 1 + MOST_STEPS;

/// Routes that one call lists.
pub const MOST_SLOTS: usize = 4095;

/// Link places, from the first link on.
pub type Route = Vec<u8>;

// A route's beginning, and the stations met on it.
struct Part {
    route: Route,
    met: Vec<StationBytes>,
}

// Whether a beginning is walked on whose last station is there, with those before it met.
type Worth = fn(&Ways, &[StationBytes], StationBytes) -> bool;

/// All routes of a chart in order, or the chart's refusal.
pub struct Routes(Result<Vec<Route>, Refusal>);

impl Routes {
    /// Lists the routes of a chart, unless there are more beginnings of routes than this.
    pub fn of(chart: &[u8], most: usize) -> Option<Routes> {
        Routes::walked(chart, most, |ways, met, tip| ways.reach_end(met, tip))
    }

    /// Does so by walking into every dead end, each of which counts as a beginning too.
    pub fn of_every_walk(chart: &[u8], most: usize) -> Option<Routes> {
        Routes::walked(chart, most, |_, _, _| true)
    }

    fn walked(chart: &[u8], most: usize, worth: Worth) -> Option<Routes> {
        match chart::read(chart) {
            Ok(fields) => Ways::of(&fields).walk(most, worth).map(|routes| Routes(Ok(routes))),
            Err(refusal) => Some(Routes(Err(refusal))),
        }
    }

    /// Gives the list, empty for a refused chart.
    pub fn list(&self) -> &[Route] {
        self.0.as_ref().map_or(&[], |routes| routes)
    }

    // Gives the list for a call that is lent a buffer of this size, or the refusal.
    fn lent(&self, room: usize) -> Result<&[Route], u8> {
        let routes = self.0.as_ref().map_err(|(number, _)| *number)?;
        if room < MOST_STEPS {
            return Err(42);
        }
        Ok(routes)
    }

    /// Gives what pz_first should, whatever the buffer holds.
    pub fn first(&self, buffer: &[u8]) -> Expected {
        let least = self.lent(buffer.len())?.first();
        least.map(|route| Given::route(route)).ok_or(43)
    }

    /// Gives what pz_next should, for a route of this length in the buffer.
    pub fn next(&self, buffer: &[u8], length: usize) -> Expected {
        let routes = self.lent(buffer.len())?;
        let given = buffer.get(..length).ok_or(41)?;
        let place = routes.iter().position(|route| route == given).ok_or(41)?;
        routes.get(place + 1).map(|route| Given::route(route)).ok_or(43)
    }

    /// Gives what pz_routes should for slots of so many bytes: a chart's place is real.
    pub fn slots(&self, room: usize) -> Expected {
        let routes = match &self.0 {
            Ok(routes) => routes,
            Err((number, place)) => {
                return Ok(Given { number: *number, bytes: Vec::new(), beside: vec![0, 0, *place] })
            }
        };
        if room < SLOT_SIZE {
            return Err(42);
        }
        if routes.is_empty() {
            return Err(43);
        }
        let listed = &routes[..routes.len().min(room / SLOT_SIZE).min(MOST_SLOTS)];
        let more = usize::from(listed.len() < routes.len());
        let bytes = listed.iter().flat_map(|route| slot(route)).collect();
        Ok(Given::new(bytes, &[listed.len(), more, 0]))
    }
}

/// Gives the slot of a route.
pub fn slot(route: &[u8]) -> [u8; SLOT_SIZE] {
    let mut slot = [0; SLOT_SIZE];
    slot[0] = route.len() as u8;
    slot[1..=route.len()].copy_from_slice(route);
    slot
}

// The links that can be passed from each station and where they lead, and the stations asked about.
struct Ways {
    onward: BTreeMap<StationBytes, Vec<(u8, StationBytes)>>,
    asked: Vec<StationBytes>,
}

impl Ways {
    fn of(fields: &[Field]) -> Ways {
        let question = fields.iter().find(|field| field.tag == QUESTION).expect("a question");
        let mut ways = Ways { onward: BTreeMap::new(), asked: question.stations().collect() };
        for (place, link) in fields.iter().filter(|field| field.is_link()).enumerate() {
            if link.body[8] == 1 {
                let stations: Vec<StationBytes> = link.stations().collect();
                let passed: &[(usize, usize)] = match link.direction() {
                    0 => &[(0, 1), (1, 0)],
                    1 => &[(0, 1)],
                    _ => &[(1, 0)],
                };
                for &(near, far) in passed {
                    let onward = ways.onward.entry(stations[near]).or_default();
                    onward.push((place as u8, stations[far]));
                }
            }
        }
        ways
    }

    fn from(&self, station: StationBytes) -> impl Iterator<Item = &(u8, StationBytes)> {
        self.onward.get(&station).into_iter().flatten()
    }

    // Whether the end can be reached from a station without those already met (document 02,
    // Eleven): what lies next to what was reached is reached too, until nothing new comes.
    fn reach_end(&self, met: &[StationBytes], tip: StationBytes) -> bool {
        let mut reached = vec![tip];
        let mut looked_at = 0;
        while looked_at < reached.len() {
            for (_, far) in self.from(reached[looked_at]) {
                if !met.contains(far) && !reached.contains(far) {
                    reached.push(*far);
                }
            }
            looked_at += 1;
        }
        reached.contains(&self.asked[1])
    }

    // Routes of one chart are never each other's beginning, so sorting compares them where they
    // differ.
    fn walk(&self, most: usize, worth: Worth) -> Option<Vec<Route>> {
        let mut pile = vec![Part { route: Vec::new(), met: vec![self.asked[0]] }];
        let mut found = Vec::new();
        let mut taken = 0;
        while let Some(part) = pile.pop() {
            taken += 1;
            if taken > most {
                return None;
            }
            let tip = part.met[part.met.len() - 1];
            if tip == self.asked[1] {
                found.push(part.route);
                continue;
            }
            for (place, far) in self.from(tip) {
                if !part.met.contains(far) && worth(self, &part.met, *far) {
                    let route = [&part.route[..], &[*place]].concat();
                    let met = [&part.met[..], &[*far]].concat();
                    pile.push(Part { route, met });
                }
            }
        }
        found.sort();
        Some(found)
    }
}
