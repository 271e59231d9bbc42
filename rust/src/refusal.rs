use crate::MAX_SIDE;
use std::fmt;

/// Why a call refuses.
#[derive(Clone, Copy, Debug, PartialEq, Eq)]
pub enum Refusal {
    /// 1: no roastery or café, or more than 32.
    Sides,
    /// 2: the costs are not as many as the lanes.
    CostCount,
    /// 3: a supply or demand is above 1,000,000.
    Amount,
    /// 4: a cost is outside −1,000,000 to 1,000,000.
    Cost,
    /// 5: total demand is greater than total supply.
    Lacking,
    /// 6: the tableau does not belong to the sheet.
    ForeignTableau,
    /// 7: the tableau is not finished.
    Unfinished,
    /// 8: a lent list or output is too short.
    Room,
    /// 9: the text is not a sheet text.
    NotSheetText {
        /// How many bytes at its front some sheet text also has.
        place: usize,
    },
    /// 10: total supply is greater than total demand, and there are 32 cafés, so that a tableau has no room for the extra one.
    Crowded,
    /// 11: total demand is 0.
    Idle,
    /// 12: an edit names a roastery or café not on the sheet, or the counter is at its largest
    /// value.
    BadEdit,
}

impl Refusal {
    /// The number of the refusal, 1 to 12.
    pub fn number(self) -> u8 {
        match self {
            Refusal::Sides => 1,
            Refusal::CostCount => 2,
            Refusal::Amount => 3,
            Refusal::Cost => 4,
            Refusal::Lacking => 5,
            Refusal::ForeignTableau => 6,
            Refusal::Unfinished => 7,
            Refusal::Room => 8,
            Refusal::NotSheetText { .. } => 9,
            Refusal::Crowded => 10,
            Refusal::Idle => 11,
            Refusal::BadEdit => 12,
        }
    }

    /// What a result with this refusal says; the place is for 9.
    pub(crate) fn check(number: u8, place: usize) -> Result<(), Refusal> {
        Err(match number {
            0 => return Ok(()),
            1 => Refusal::Sides,
            2 => Refusal::CostCount,
            3 => Refusal::Amount,
            4 => Refusal::Cost,
            5 => Refusal::Lacking,
            6 => Refusal::ForeignTableau,
            7 => Refusal::Unfinished,
            8 => Refusal::Room,
            9 => Refusal::NotSheetText { place },
            10 => Refusal::Crowded,
            11 => Refusal::Idle,
            12 => Refusal::BadEdit,
            _ => unreachable!("no call refuses with {number}"),
        })
    }
}

impl fmt::Display for Refusal {
    fn fmt(&self, f: &mut fmt::Formatter<'_>) -> fmt::Result {
        match self {
            Refusal::Sides => write!(f, "no roastery or café, or more than {MAX_SIDE}"),
            Refusal::CostCount => write!(f, "the costs are not as many as the lanes"),
            Refusal::Amount => write!(f, "a supply or demand is above 1,000,000"),
            Refusal::Cost => write!(f, "a cost is outside -1,000,000 to 1,000,000"),
            Refusal::Lacking => write!(f, "total demand is greater than total supply"),
            Refusal::ForeignTableau => write!(f, "the tableau does not belong to the sheet"),
            Refusal::Unfinished => write!(f, "the tableau is not finished"),
            Refusal::Room => write!(f, "a lent list or output is too short"),
            Refusal::NotSheetText { place } => write!(f, "not a sheet text, at place {place}"),
            Refusal::Crowded => write!(f, "total supply is greater than total demand, with {MAX_SIDE} cafés"),
            Refusal::Idle => write!(f, "total demand is 0"),
            Refusal::BadEdit => write!(f, "the edit names a party not on the sheet, or the counter is at its largest value"),
        }
    }
}

impl std::error::Error for Refusal {}
