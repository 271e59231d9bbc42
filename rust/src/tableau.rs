use crate::MAX_CELLS;
use std::{fmt, ops::Deref};

/// A paired amount: `q` bags and `e` marks. Pairs compare by `q` first.
#[repr(C)]
#[derive(Clone, Copy, Debug, Default, PartialEq, Eq, PartialOrd, Ord)]
pub struct Pair {
    /// Bags.
    pub q: i64,
    /// Marks.
    pub e: i64,
}

/// A basic cell with its amount. Rows (roasteries) and columns (cafés) are those of the sheet, from 0. Where there is a surplus, column n is the extra café's.
#[repr(C)]
#[derive(Clone, Copy, Debug, Default, PartialEq, Eq)]
pub struct Cell {
    /// The roastery.
    pub row: usize,
    /// The café, or the extra one.
    pub col: usize,
    /// What the cell holds.
    pub amount: Pair,
}

/// A tableau that a call gives. It lends its cells, in sheet order, as a slice, and holds zeros
/// behind them.
///
/// A call takes a tableau as any slice of cells, so that of a `Tableau` or one's own. A standing
/// sheet has one by value, which may hold anything.
///
/// It covers the parties left, those whose amount is not 0, under their own numbers, with one cell fewer than these are. Where supply is above demand, an extra
/// café after those of the sheet takes the surplus at cost 0, and is a party left. It is in tableaux alone: prices, plans and texts are of the sheet, and there
/// parties whose amount is 0 stand too.
///
/// ```
/// let sheet = panel::Sheet { supply: vec![3, 4], demand: vec![5, 2], cost: vec![4, 1, 2, 6] };
/// let start = sheet.start()?;
/// assert_eq!((start.len(), start[0].amount), (3, panel::Pair { q: 3, e: 1 }));
/// assert!(sheet.run(&start, 1)?.finished);
///
/// let mut cells = start.to_vec();
/// cells.swap(0, 1);
/// assert_eq!(sheet.round(&cells), Err(panel::Refusal::ForeignTableau));
///
/// let one_stays = panel::Sheet { supply: vec![3], demand: vec![2], cost: vec![7] };
/// let start = one_stays.start()?;
/// assert_eq!((start.len(), start[1].col, start[1].amount), (2, 1, panel::Pair { q: 1, e: 1 }));
/// assert_eq!(one_stays.settle(&start)?, [2]);
///
/// let one_closed = panel::Sheet { supply: vec![2], demand: vec![0, 2], cost: vec![7, 9] };
/// let start = one_closed.start()?;
/// assert_eq!((start.len(), start[0].col), (1, 1));
/// assert_eq!(one_closed.settle(&start)?, [0, 2]);
/// # Ok::<(), panel::Refusal>(())
/// ```
#[repr(C)]
#[derive(Clone, Copy, PartialEq, Eq)]
pub struct Tableau {
    /// The cells, and room for more.
    pub cells: [Cell; MAX_CELLS],
    /// How many of them are the tableau's.
    pub count: usize,
}

impl Deref for Tableau {
    type Target = [Cell];

    fn deref(&self) -> &[Cell] {
        &self.cells[..self.count.min(MAX_CELLS)]
    }
}

impl fmt::Debug for Tableau {
    fn fmt(&self, f: &mut fmt::Formatter<'_>) -> fmt::Result {
        f.debug_tuple("Tableau").field(&&**self).finish()
    }
}
