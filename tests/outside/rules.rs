//! Refusals as a list, in the order in which they are tried, and ways to earn them.

/// A refusal number, and when it applies.
pub type Rule<T> = (u8, fn(&T) -> bool);

/// Gives the first number of the list that applies, as a refusal.
pub fn try_rules<T: ?Sized>(rules: &[Rule<T>], subject: &T) -> Result<(), u8> {
    match rules.iter().find(|(_, applies)| applies(subject)) {
        Some(&(number, _)) => Err(number),
        None => Ok(()),
    }
}

/// A number, and what makes it apply.
pub type Breach<T> = (u8, fn(&mut T));

/// Commits the chosen breaches, one bit each, in the list's order; gives the last one's number.
pub fn break_rules<T>(breaches: &[Breach<T>], chosen: usize, subject: &mut T) -> Option<u8> {
    let mut last = None;
    for (place, (number, breach)) in breaches.iter().enumerate() {
        if chosen >> place & 1 == 1 {
            breach(subject);
            last = Some(*number);
        }
    }
    last
}
