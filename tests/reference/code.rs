//! The printed list of codes.

/// One code of the list; its number is the one the panel shows.
#[derive(Clone, Copy, Debug, PartialEq, Eq)]
pub enum Code {
    Done = 0,
    LongerThan2000 = 10,
    WrongByte = 11,
    NotOneForm = 12,
    NotANumber = 13,
    NoSuchShape = 14,
    ShortBuffer = 15,
    ShortForShow = 16,
    OutOfLimits = 20,
    VoidDoesNotFit = 21,
    ColumnNotAbove = 22,
    TwentyColumns = 23,
    NoSuchHold = 24,
    TooManyTonnes = 26,
    TooFewTonnes = 27,
    NoShip = 30,
    FewerThanTwoColumns = 31,
    NoLoad = 32,
    OutsideColumns = 33,
    WeightMomentsTooHigh = 34,
    LowGm = 40,
    HeelLimitPassed = 41,
    ArmBelowZero = 42,
    ShortOfArea = 43,
}

impl Code {
    /// The two digits of the reply, as a number.
    pub fn number(self) -> u8 {
        self as u8
    }
}
