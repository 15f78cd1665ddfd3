//! The layout of a station and of a message: how many numbers, and which stands where.

/// The version of the layout of a station's numbers. It stands in front of a save.
pub const LAYOUT_VERSION: u64 = 1;

/// How many numbers a station has.
pub const STATION_NUMBERS: usize = 134;

/// How many numbers a message has.
pub const MESSAGE_NUMBERS: usize = 13;

/// How many bytes the longest record has.
pub const RECORD_MAX: usize = 68;

/// Where a station's number stands.
pub const STATION_NUMBER: usize = 0;
/// Where the count of stations stands in a station.
pub const STATION_COUNT: usize = 1;
/// Where a station's value stands.
pub const STATION_VALUE: usize = 2;
/// Where a station's intake stands.
pub const STATION_INTAKE: usize = 3;
/// Where a station's source clock stands.
pub const STATION_SOURCE_CLOCK: usize = 4;
/// Where a station's destination clock stands.
pub const STATION_DESTINATION_CLOCK: usize = 5;

/// Where the slot for a peer starts in a station.
pub const fn station_slot(peer: usize) -> usize {
    6 + 4 * peer
}

/// Where the token for a peer starts in a station.
pub const fn station_token(peer: usize) -> usize {
    70 + 4 * peer
}

/// Where a message's sender stands.
pub const MESSAGE_FROM: usize = 0;
/// Where a message's receiver stands.
pub const MESSAGE_TO: usize = 1;
/// Where the sender's value stands in a message.
pub const MESSAGE_VALUE: usize = 2;
/// Where the sender's source clock stands in a message.
pub const MESSAGE_SOURCE_CLOCK: usize = 3;
/// Where the sender's destination clock stands in a message.
pub const MESSAGE_DESTINATION_CLOCK: usize = 4;
/// Where the slot starts in a message.
pub const MESSAGE_SLOT: usize = 5;
/// Where the token starts in a message.
pub const MESSAGE_TOKEN: usize = 9;

/// In a slot or token, counted from its start: 1 where it is held, else 0.
pub const PRESENT: usize = 0;
/// In a slot or token, counted from its start: the source clock.
pub const SOURCE_CLOCK: usize = 1;
/// In a slot or token, counted from its start: the destination clock.
pub const DESTINATION_CLOCK: usize = 2;
/// In a slot or token, counted from its start: the quantity.
pub const QUANTITY: usize = 3;
