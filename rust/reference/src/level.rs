//! The two levels: what each fixes of the fields F and K.

/// The number of the first level.
pub const FIRST: usize = 1;

/// The number of the second level.
pub const SECOND: usize = 2;

/// What a level fixes.
#[derive(Clone, Copy, Debug)]
pub struct Level {
    /// F has 2^width elements, with z^width = z^tap + 1.
    pub width: usize,
    /// The power of z in that rule.
    pub tap: usize,
    /// The largest number of an element of F.
    pub limit: u16,
    /// K has this many coordinates from F, with Y^coordinates = Y^power + 1.
    pub coordinates: usize,
    /// The power of Y in that rule.
    pub power: usize,
}

/// The levels 1 and 2. The first: "The small field F has 2,048 elements,
/// written as numbers 0 to 2047", "z^11 = z^2 + 1", "elements of 12
/// coordinates from F", "Y^12 = Y^3 + 1". The second: "There F has 4,096
/// elements with z^12 = z^3 + 1, K has 23 coordinates with Y^23 = Y^5 + 1, n
/// goes to 128 and elements to 4095."
const LEVELS: [Level; 2] = [
    Level {
        width: 11,
        tap: 2,
        limit: 2047,
        coordinates: 12,
        power: 3,
    },
    Level {
        width: 12,
        tap: 3,
        limit: 4095,
        coordinates: 23,
        power: 5,
    },
];

impl Level {
    /// The level with this number.
    pub const fn of(number: usize) -> Level {
        LEVELS[number - FIRST]
    }
}

/// The largest number of coordinates of a level.
pub const MOST_COORDINATES: usize = {
    let mut most = 0;
    let mut i = 0;
    while i < LEVELS.len() {
        if most < LEVELS[i].coordinates {
            most = LEVELS[i].coordinates;
        }
        i += 1;
    }
    most
};
