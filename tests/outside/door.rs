//! The library's C interface. Whatever is lent to a call lies between guard bytes, and each of its
//! bytes is known beforehand, so that every change can be seen.

use crate::chart_draft::Station;
use crate::wire::Address;
use std::array::from_fn;
use std::fmt;
use std::sync::atomic::{AtomicU8, Ordering};

extern "C" {
    fn pz_read(frame: *const u8, n: usize, image: *mut u8, m: usize, place: *mut u16) -> u8;
    fn pz_write(
        image: *const u8,
        m: usize,
        contents: *const u8,
        k: usize,
        frame: *mut u8,
        n: usize,
        written: *mut u16,
    ) -> u8;
    fn pz_choose(
        table: *const u8,
        m: usize,
        brigade: u8,
        node: u16,
        port: u8,
        arrival: u8,
        local: *mut u8,
        out: *mut u8,
    ) -> u8;
    fn pz_accept(
        ledger: *mut u8,
        m: usize,
        frame: *const u8,
        n: usize,
        arrival: u8,
        table: *const u8,
        t: usize,
        ticks: u16,
        added: *mut u8,
        place: *mut u16,
    ) -> u8;
    fn pz_answer(
        ledger: *mut u8,
        m: usize,
        by_brigade: u8,
        by_node: u16,
        by_port: u8,
        to_brigade: u8,
        to_node: u16,
        to_port: u8,
        seq: u16,
        nak: u8,
        set: u8,
        code: u8,
    ) -> u8;
    fn pz_tick(ledger: *mut u8, m: usize, ended: *mut u8) -> u8;
    fn pz_clear(ledger: *mut u8, m: usize, place: usize) -> u8;
    fn pz_chart_read(chart: *const u8, n: usize, image: *mut u8, m: usize, place: *mut u16) -> u8;
    fn pz_chart_write(
        image: *const u8,
        m: usize,
        chart: *mut u8,
        n: usize,
        written: *mut u16,
    ) -> u8;
    fn pz_table(
        chart: *const u8,
        n: usize,
        brigade: u8,
        node: u16,
        table: *mut u8,
        m: usize,
        place: *mut u16,
    ) -> u8;
    fn pz_pass(
        chart: *const u8,
        n: usize,
        tables: *const u8,
        t: usize,
        brigade: u8,
        node: u16,
        to_brigade: u8,
        to_node: u16,
        to_port: u8,
        way: *mut u8,
        w: usize,
        places: *mut u8,
        ending: *mut u8,
        place: *mut u16,
    ) -> u8;
    fn pz_begin(
        chart: *const u8,
        n: usize,
        tables: *const u8,
        t: usize,
        brigade: u8,
        node: u16,
        to_brigade: u8,
        to_node: u16,
        to_port: u8,
        message: *mut u8,
        m: usize,
        place: *mut u16,
    ) -> u8;
    fn pz_step(
        chart: *const u8,
        n: usize,
        tables: *const u8,
        t: usize,
        to_brigade: u8,
        to_node: u16,
        to_port: u8,
        message: *mut u8,
        m: usize,
        place: *mut u16,
    ) -> u8;
    fn pz_chart_renew(
        chart: *const u8,
        n: usize,
        out: *mut u8,
        m: usize,
        written: *mut u16,
        place: *mut u16,
    ) -> u8;
    fn pz_chart_restore(
        chart: *const u8,
        n: usize,
        out: *mut u8,
        m: usize,
        written: *mut u16,
        place: *mut u16,
    ) -> u8;
    fn pz_mend(
        input: *const u8,
        n: usize,
        chart: *mut u8,
        m: usize,
        kept: *mut u16,
        list: *mut u8,
        l: usize,
        listed: *mut u32,
    ) -> u8;
    fn pz_first(chart: *const u8, n: usize, route: *mut u8, m: usize, length: usize) -> u8;
    fn pz_next(chart: *const u8, n: usize, route: *mut u8, m: usize, length: usize) -> u8;
    fn pz_routes(
        chart: *const u8,
        n: usize,
        slots: *mut u8,
        m: usize,
        count: *mut u16,
        more: *mut u8,
        place: *mut u16,
    ) -> u8;
    fn pz_sheet(chart: *const u8, n: usize, text: *mut u8, m: usize, written: *mut u32) -> u8;
}

const GUARD: usize = 64;

// More than any frame or image that is not made too long on purpose.
const MOST_SHOWN: usize = 2000;

// No call gives a number made of such bytes.
const UNSET: u64 = 0xa5a5_a5a5_a5a5_a5a5;

/// What a call gives: its number, the first bytes of the lent buffer, the others left as they
/// were, and the numbers beside its own.
pub struct Given {
    pub number: u8,
    pub bytes: Vec<u8>,
    pub beside: Vec<usize>,
}

impl Given {
    /// What most calls give that are not refused.
    pub fn new(bytes: Vec<u8>, beside: &[usize]) -> Given {
        Given { number: 0, bytes, beside: beside.to_vec() }
    }

    /// A refused frame or chart: a number beside the refusal is real, the place.
    pub fn refused_at(number: u8, place: usize) -> Given {
        Given { number, bytes: Vec::new(), beside: vec![place] }
    }

    /// A route: the call's number is its length.
    pub fn route(links: &[u8]) -> Given {
        let number = links.len().try_into().expect("a route's length");
        Given { number, bytes: links.to_vec(), beside: Vec::new() }
    }
}

/// What a call should give, or the refusal; beside that every number is 0 and no byte changed.
pub type Expected = Result<Given, u8>;

/// Gives bytes as hex, the first ones of a great many.
pub fn hex(bytes: &[u8]) -> String {
    let shown = bytes.iter().take(MOST_SHOWN);
    let shown: String = shown.map(|byte| format!("{byte:02x}")).collect();
    match bytes.len() {
        0..=MOST_SHOWN => shown,
        size => format!("{shown}... ({size} bytes)"),
    }
}

// A lent buffer between its guards, beside what it held when it was lent.
struct Lent {
    name: &'static str,
    before: Vec<u8>,
    now: Vec<u8>,
    size: usize,
}

impl Lent {
    // Lends a buffer of this size, filled with a pattern that differs from one buffer to the next.
    fn blank(name: &'static str, size: usize) -> Lent {
        static SALT: AtomicU8 = AtomicU8::new(0);
        let salt = SALT.fetch_add(89, Ordering::Relaxed);
        let period: [u8; 256] = from_fn(|place| (place as u8).wrapping_mul(151) ^ salt);
        let mut before = period.repeat((size + 2 * GUARD) / period.len() + 1);
        before.truncate(size + 2 * GUARD);
        Lent { name, now: before.clone(), before, size }
    }

    // Lends a buffer that holds these bytes.
    fn holding(name: &'static str, bytes: &[u8]) -> Lent {
        let mut lent = Lent::blank(name, bytes.len());
        lent.now[GUARD..][..bytes.len()].copy_from_slice(bytes);
        lent.before.copy_from_slice(&lent.now);
        lent
    }

    // The guards may be reached from here too, by a call that oversteps.
    fn start(&mut self) -> *mut u8 {
        self.now.as_mut_ptr().wrapping_add(GUARD)
    }

    // Whether just these bytes were set, at the start.
    fn holds(&self, bytes: &[u8]) -> bool {
        let (start, end) = (GUARD, GUARD + bytes.len());
        bytes.len() <= self.size
            && self.now[..start] == self.before[..start]
            && self.now[start..end] == *bytes
            && self.now[end..] == self.before[end..]
    }

    // Tells where these bytes differ from what was lent, if they do.
    fn change(&self, now: &[u8]) -> String {
        let mut changed = (0..now.len()).filter(|&place| now[place] != self.before[place]);
        let first = match changed.next() {
            Some(first) => first,
            None => return String::new(),
        };
        let last = changed.next_back().unwrap_or(first);
        let place = first as isize - GUARD as isize;
        let bytes = hex(&now[first..=last]);
        format!(", {} of {} changed from {place} on: {bytes}", self.name, self.size)
    }
}

// A number that a call gives beside its own, in the low bytes of the second cell.
struct Beside {
    name: &'static str,
    width: u32,
    cells: [u64; 3],
}

impl Beside {
    // Lends room for a number of this many bits.
    fn new(name: &'static str, width: u32) -> Beside {
        Beside { name, width, cells: [UNSET; 3] }
    }

    fn start<T>(&mut self) -> *mut T {
        self.cells.as_mut_ptr().wrapping_add(1).cast()
    }

    fn number(&self) -> usize {
        (self.cells[1] & !(u64::MAX << self.width)) as usize
    }

    // Whether just this number was set.
    fn holds(&self, number: usize) -> bool {
        self.number() == number && self.is_alone()
    }

    // Whether no byte around the number was changed.
    fn is_alone(&self) -> bool {
        let [before, cell, after] = self.cells.map(|cell| cell ^ UNSET);
        before == 0 && cell >> self.width == 0 && after == 0
    }
}

/// What came of a call: its number, and all that it may have changed.
pub struct Answer {
    pub number: u8,
    lent: Lent,
    handed_in: Vec<Lent>,
    beside: Vec<Beside>,
}

impl Answer {
    // Gives the number, the bytes and the numbers beside that make up what is expected.
    fn parts(&self, expected: &Expected) -> (u8, Vec<u8>, Vec<usize>) {
        match expected {
            Ok(given) => (given.number, given.bytes.clone(), given.beside.clone()),
            Err(number) => (*number, Vec::new(), vec![0; self.beside.len()]),
        }
    }

    /// Whether this came, with no other byte changed.
    pub fn is(&self, expected: &Expected) -> bool {
        let (number, bytes, beside) = self.parts(expected);
        assert_eq!(self.beside.len(), beside.len());
        self.number == number
            && self.lent.holds(&bytes)
            && self.handed_in.iter().all(|lent| lent.holds(&[]))
            && self.beside.iter().zip(beside).all(|(cell, number)| cell.holds(number))
    }

    /// Tells what was expected and what came.
    pub fn against(&self, expected: &Expected) -> String {
        let (number, bytes, beside) = self.parts(expected);
        let mut text = format!("expected {number}");
        for (cell, number) in self.beside.iter().zip(beside) {
            text += &format!(", {} {number}", cell.name);
        }
        let mut now = self.lent.before.clone();
        now[GUARD..][..bytes.len()].copy_from_slice(&bytes);
        text += &self.lent.change(&now);
        format!("{text}\n  came {self}")
    }

    /// Gives the lent buffer.
    pub fn bytes(&self) -> &[u8] {
        &self.lent.now[GUARD..][..self.lent.size]
    }

    /// Gives the first number beside the answer's own.
    pub fn first_beside(&self) -> usize {
        self.beside[0].number()
    }

    /// Gives all of them.
    pub fn numbers_beside(&self) -> Vec<usize> {
        self.beside.iter().map(Beside::number).collect()
    }
}

impl fmt::Display for Answer {
    fn fmt(&self, f: &mut fmt::Formatter) -> fmt::Result {
        write!(f, "{}", self.number)?;
        for cell in &self.beside {
            write!(f, ", {} {}", cell.name, cell.number())?;
            if !cell.is_alone() {
                write!(f, " and bytes around it")?;
            }
        }
        for lent in self.handed_in.iter().chain([&self.lent]) {
            write!(f, "{}", lent.change(&lent.now))?;
        }
        Ok(())
    }
}

/// What came of mending, which is lent a second buffer.
pub struct Mending {
    pub answer: Answer,
    list: Lent,
}

impl Mending {
    /// Whether this came, with this at the start of the list and no other byte changed.
    pub fn is(&self, expected: &Expected, list: &[u8]) -> bool {
        self.answer.is(expected) && self.list.holds(list)
    }

    /// Tells what was expected and what came.
    pub fn against(&self, expected: &Expected, list: &[u8]) -> String {
        let mut now = self.list.before.clone();
        now[GUARD..][..list.len()].copy_from_slice(list);
        let (list, came) = (self.list.change(&now), self.list.change(&self.list.now));
        format!("{}{came}\n  the list expected{list}", self.answer.against(expected))
    }
}

/// Calls pz_read and lends it an image of this size.
pub fn read(frame: &[u8], image_size: usize) -> Answer {
    let mut frame = Lent::holding("frame", frame);
    let mut image = Lent::blank("image", image_size);
    let mut place = Beside::new("place", u16::BITS);
    let number =
        unsafe { pz_read(frame.start(), frame.size, image.start(), image.size, place.start()) };
    Answer { number, lent: image, handed_in: vec![frame], beside: vec![place] }
}

/// Calls pz_write and lends it a frame buffer of this size.
pub fn write(image: &[u8], contents: &[u8], frame_size: usize) -> Answer {
    let mut image = Lent::holding("image", image);
    let mut contents = Lent::holding("contents", contents);
    let mut frame = Lent::blank("frame", frame_size);
    let mut written = Beside::new("written", u16::BITS);
    let number = unsafe {
        pz_write(
            image.start(),
            image.size,
            contents.start(),
            contents.size,
            frame.start(),
            frame.size,
            written.start(),
        )
    };
    Answer { number, lent: frame, handed_in: vec![image, contents], beside: vec![written] }
}

fn byte(number: usize) -> u8 {
    number.try_into().expect("a number of one byte")
}

fn word(number: usize) -> u16 {
    number.try_into().expect("a number of two bytes")
}

/// Calls pz_choose.
pub fn choose(table: &[u8], destination: Address, arrival: usize) -> Answer {
    let mut table = Lent::holding("table", table);
    let mut local = Beside::new("local", u8::BITS);
    let mut out = Beside::new("out", u8::BITS);
    let number = unsafe {
        pz_choose(
            table.start(),
            table.size,
            byte(destination.brigade),
            word(destination.node),
            byte(destination.port),
            byte(arrival),
            local.start(),
            out.start(),
        )
    };
    Answer { number, lent: table, handed_in: vec![], beside: vec![local, out] }
}

/// Calls pz_accept.
pub fn accept(ledger: &[u8], frame: &[u8], arrival: usize, table: &[u8], ticks: usize) -> Answer {
    let mut ledger = Lent::holding("ledger", ledger);
    let mut frame = Lent::holding("frame", frame);
    let mut table = Lent::holding("table", table);
    let mut added = Beside::new("added", u8::BITS);
    let mut place = Beside::new("place", u16::BITS);
    let number = unsafe {
        pz_accept(
            ledger.start(),
            ledger.size,
            frame.start(),
            frame.size,
            byte(arrival),
            table.start(),
            table.size,
            word(ticks),
            added.start(),
            place.start(),
        )
    };
    Answer { number, lent: ledger, handed_in: vec![frame, table], beside: vec![added, place] }
}

/// Calls pz_answer: a number for ACK or NAK, then the reason set and the code.
pub fn answer(ledger: &[u8], by: Address, to: Address, seq: usize, reply: [usize; 3]) -> Answer {
    let mut ledger = Lent::holding("ledger", ledger);
    let [nak, set, code] = reply.map(byte);
    let number = unsafe {
        pz_answer(
            ledger.start(),
            ledger.size,
            byte(by.brigade),
            word(by.node),
            byte(by.port),
            byte(to.brigade),
            word(to.node),
            byte(to.port),
            word(seq),
            nak,
            set,
            code,
        )
    };
    Answer { number, lent: ledger, handed_in: vec![], beside: vec![] }
}

/// Calls pz_tick.
pub fn tick(ledger: &[u8]) -> Answer {
    let mut ledger = Lent::holding("ledger", ledger);
    let mut ended = Beside::new("ended", u8::BITS);
    let number = unsafe { pz_tick(ledger.start(), ledger.size, ended.start()) };
    Answer { number, lent: ledger, handed_in: vec![], beside: vec![ended] }
}

/// Calls pz_clear.
pub fn clear(ledger: &[u8], place: usize) -> Answer {
    let mut ledger = Lent::holding("ledger", ledger);
    let number = unsafe { pz_clear(ledger.start(), ledger.size, place) };
    Answer { number, lent: ledger, handed_in: vec![], beside: vec![] }
}

/// Calls pz_chart_read and lends it an image of this size.
pub fn chart_read(chart: &[u8], image_size: usize) -> Answer {
    let mut chart = Lent::holding("chart", chart);
    let mut image = Lent::blank("image", image_size);
    let mut place = Beside::new("place", u16::BITS);
    let number = unsafe {
        pz_chart_read(chart.start(), chart.size, image.start(), image.size, place.start())
    };
    Answer { number, lent: image, handed_in: vec![chart], beside: vec![place] }
}

/// Calls pz_chart_write and lends it a chart buffer of this size.
pub fn chart_write(image: &[u8], chart_size: usize) -> Answer {
    let mut image = Lent::holding("image", image);
    let mut chart = Lent::blank("chart", chart_size);
    let mut written = Beside::new("written", u16::BITS);
    let number = unsafe {
        pz_chart_write(image.start(), image.size, chart.start(), chart.size, written.start())
    };
    Answer { number, lent: chart, handed_in: vec![image], beside: vec![written] }
}

/// Calls pz_table and lends it an image of this size.
pub fn table(chart: &[u8], (brigade, node): Station, image_size: usize) -> Answer {
    let mut chart = Lent::holding("chart", chart);
    let mut table = Lent::blank("table", image_size);
    let mut place = Beside::new("place", u16::BITS);
    let number = unsafe {
        pz_table(
            chart.start(),
            chart.size,
            byte(brigade),
            word(node),
            table.start(),
            table.size,
            place.start(),
        )
    };
    Answer { number, lent: table, handed_in: vec![chart], beside: vec![place] }
}

/// Calls pz_pass and lends it a way of so many bytes.
pub fn pass(
    chart: &[u8],
    tables: &[u8],
    (brigade, node): Station,
    to: Address,
    room: usize,
) -> Answer {
    let mut chart = Lent::holding("chart", chart);
    let mut tables = Lent::holding("tables", tables);
    let mut way = Lent::blank("way", room);
    let mut places = Beside::new("places", u8::BITS);
    let mut ending = Beside::new("ending", u8::BITS);
    let mut place = Beside::new("place", u16::BITS);
    let number = unsafe {
        pz_pass(
            chart.start(),
            chart.size,
            tables.start(),
            tables.size,
            byte(brigade),
            word(node),
            byte(to.brigade),
            word(to.node),
            byte(to.port),
            way.start(),
            way.size,
            places.start(),
            ending.start(),
            place.start(),
        )
    };
    let handed_in = vec![chart, tables];
    Answer { number, lent: way, handed_in, beside: vec![places, ending, place] }
}

/// Calls pz_begin and lends it an image of so many bytes.
pub fn begin(
    chart: &[u8],
    tables: &[u8],
    (brigade, node): Station,
    to: Address,
    room: usize,
) -> Answer {
    let mut chart = Lent::holding("chart", chart);
    let mut tables = Lent::holding("tables", tables);
    let mut message = Lent::blank("message", room);
    let mut place = Beside::new("place", u16::BITS);
    let number = unsafe {
        pz_begin(
            chart.start(),
            chart.size,
            tables.start(),
            tables.size,
            byte(brigade),
            word(node),
            byte(to.brigade),
            word(to.node),
            byte(to.port),
            message.start(),
            message.size,
            place.start(),
        )
    };
    Answer { number, lent: message, handed_in: vec![chart, tables], beside: vec![place] }
}

/// Calls pz_step on the image of a message.
pub fn step(chart: &[u8], tables: &[u8], to: Address, message: &[u8]) -> Answer {
    let mut chart = Lent::holding("chart", chart);
    let mut tables = Lent::holding("tables", tables);
    let mut message = Lent::holding("message", message);
    let mut place = Beside::new("place", u16::BITS);
    let number = unsafe {
        pz_step(
            chart.start(),
            chart.size,
            tables.start(),
            tables.size,
            byte(to.brigade),
            word(to.node),
            byte(to.port),
            message.start(),
            message.size,
            place.start(),
        )
    };
    Answer { number, lent: message, handed_in: vec![chart, tables], beside: vec![place] }
}

/// Calls pz_chart_renew and lends it a buffer of this size.
pub fn chart_renew(chart: &[u8], room: usize) -> Answer {
    let mut chart = Lent::holding("chart", chart);
    let mut out = Lent::blank("out", room);
    let mut written = Beside::new("written", u16::BITS);
    let mut place = Beside::new("place", u16::BITS);
    let number = unsafe {
        pz_chart_renew(
            chart.start(),
            chart.size,
            out.start(),
            out.size,
            written.start(),
            place.start(),
        )
    };
    Answer { number, lent: out, handed_in: vec![chart], beside: vec![written, place] }
}

/// Calls pz_chart_restore and lends it a buffer of this size.
pub fn chart_restore(chart: &[u8], room: usize) -> Answer {
    let mut chart = Lent::holding("chart", chart);
    let mut out = Lent::blank("out", room);
    let mut written = Beside::new("written", u16::BITS);
    let mut place = Beside::new("place", u16::BITS);
    let number = unsafe {
        pz_chart_restore(
            chart.start(),
            chart.size,
            out.start(),
            out.size,
            written.start(),
            place.start(),
        )
    };
    Answer { number, lent: out, handed_in: vec![chart], beside: vec![written, place] }
}

/// Calls pz_mend and lends it a chart buffer and a list of these sizes.
pub fn mend(input: &[u8], room: usize, list_room: usize) -> Mending {
    let mut input = Lent::holding("input", input);
    let mut chart = Lent::blank("chart", room);
    let mut list = Lent::blank("list", list_room);
    let mut kept = Beside::new("kept", u16::BITS);
    let mut listed = Beside::new("listed", u32::BITS);
    let number = unsafe {
        pz_mend(
            input.start(),
            input.size,
            chart.start(),
            chart.size,
            kept.start(),
            list.start(),
            list.size,
            listed.start(),
        )
    };
    let beside = vec![kept, listed];
    Mending { answer: Answer { number, lent: chart, handed_in: vec![input], beside }, list }
}

/// Calls pz_first on a route buffer that holds these bytes.
pub fn first(chart: &[u8], route: &[u8], length: usize) -> Answer {
    let mut chart = Lent::holding("chart", chart);
    let mut route = Lent::holding("route", route);
    let number = unsafe { pz_first(chart.start(), chart.size, route.start(), route.size, length) };
    Answer { number, lent: route, handed_in: vec![chart], beside: vec![] }
}

/// Calls pz_next on a route buffer that holds these bytes.
pub fn next(chart: &[u8], route: &[u8], length: usize) -> Answer {
    let mut chart = Lent::holding("chart", chart);
    let mut route = Lent::holding("route", route);
    let number = unsafe { pz_next(chart.start(), chart.size, route.start(), route.size, length) };
    Answer { number, lent: route, handed_in: vec![chart], beside: vec![] }
}

/// Calls pz_routes and lends it slots of so many bytes.
pub fn routes(chart: &[u8], room: usize) -> Answer {
    let mut chart = Lent::holding("chart", chart);
    let mut slots = Lent::blank("slots", room);
    let mut count = Beside::new("count", u16::BITS);
    let mut more = Beside::new("more", u8::BITS);
    let mut place = Beside::new("place", u16::BITS);
    let number = unsafe {
        pz_routes(
            chart.start(),
            chart.size,
            slots.start(),
            slots.size,
            count.start(),
            more.start(),
            place.start(),
        )
    };
    Answer { number, lent: slots, handed_in: vec![chart], beside: vec![count, more, place] }
}

/// Calls pz_sheet and lends it a text buffer of this size.
pub fn sheet(chart: &[u8], text_size: usize) -> Answer {
    let mut chart = Lent::holding("chart", chart);
    let mut text = Lent::blank("text", text_size);
    let mut written = Beside::new("written", u32::BITS);
    let number =
        unsafe { pz_sheet(chart.start(), chart.size, text.start(), text.size, written.start()) };
    Answer { number, lent: text, handed_in: vec![chart], beside: vec![written] }
}
