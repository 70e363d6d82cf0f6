//! What a message for k = 2 means: a strike, its bell, force and delay. Value 1
//! is 9 times a register, plus the force; value 0 is one of the register's 27
//! bells; values 2 and 3 are the delay. The reference has this layout of a
//! message in no other place.

use crate::refusal::Refusal;

/// A bell, a force and a delay.
pub type Fields = [u16; 3];

/// The largest bell, force and delay of a strike.
pub const LARGEST_FIELDS: Fields = [47, 8, 728];

/// The largest bell of a message, which is no strike's.
pub const LARGEST_MESSAGE_BELL: u16 = 80;

/// The strike that a message means, unless its bell is over the largest.
pub fn meaning(message: &[u16]) -> Result<Fields, Refusal> {
    let (register, force) = (message[1] / 9, message[1] % 9);
    let bell = 27 * register + message[0];
    match bell > LARGEST_FIELDS[0] {
        true => Err(Refusal::NoSuchBell),
        false => Ok([bell, force, 27 * message[2] + message[3]]),
    }
}

/// The only message of a strike; and of what would be one, but for its bell.
pub fn message([bell, force, delay]: Fields) -> [u16; 4] {
    let register = bell / 27;
    [bell % 27, 9 * register + force, delay / 27, delay % 27]
}

/// Each number, taken as bell, force and delay by turns, is in its range.
pub fn check_fields(strikes: &[u16]) -> Result<(), Refusal> {
    let largest = LARGEST_FIELDS.iter().cycle();
    match strikes
        .iter()
        .zip(largest)
        .all(|(field, most)| field <= most)
    {
        true => Ok(()),
        false => Err(Refusal::StrikeField),
    }
}
