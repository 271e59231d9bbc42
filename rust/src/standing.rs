//! Phone orders: a standing sheet, and edits of it.
use crate::{ffi, Refusal, Sheet, Solution, Solved, Tableau, MAX_LANES, MAX_SIDE};
use std::{fmt, mem::size_of};

/// A sheet by value: m supplies, n demands, and m × n costs in sheet order, at the fronts of the
/// arrays. Set up puts zeros behind them. It may hold anything; the calls check it.
#[repr(C)]
#[derive(Clone, Copy, PartialEq, Eq)]
pub struct KeptSheet {
    /// How many roasteries there are.
    pub m: usize,
    /// How many cafés there are.
    pub n: usize,
    /// The bags that each roastery has, and room for more of them.
    pub supply: [u64; MAX_SIDE],
    /// The bags that each café wants, and room for more of them.
    pub demand: [u64; MAX_SIDE],
    /// Cents a bag for each lane, and room for more of them.
    pub cost: [i64; MAX_LANES],
}

impl KeptSheet {
    /// The m supplies; all 32 places if m is greater.
    pub fn supplies(&self) -> &[u64] {
        &self.supply[..self.m.min(MAX_SIDE)]
    }

    /// The n demands; all 32 places if n is greater.
    pub fn demands(&self) -> &[u64] {
        &self.demand[..self.n.min(MAX_SIDE)]
    }

    /// The m × n costs, in sheet order; all 1,024 places if these are more.
    pub fn costs(&self) -> &[i64] {
        &self.cost[..self.m.saturating_mul(self.n).min(MAX_LANES)]
    }
}

impl fmt::Debug for KeptSheet {
    fn fmt(&self, f: &mut fmt::Formatter<'_>) -> fmt::Result {
        f.debug_struct("KeptSheet")
            .field("m", &self.m)
            .field("n", &self.n)
            .field("supply", &self.supplies())
            .field("demand", &self.demands())
            .field("cost", &self.costs())
            .finish()
    }
}

impl From<&KeptSheet> for Sheet {
    fn from(kept: &KeptSheet) -> Sheet {
        Sheet { supply: kept.supplies().to_vec(), demand: kept.demands().to_vec(), cost: kept.costs().to_vec() }
    }
}

/// A standing sheet: a sheet with its finished tableau, and the count of accepted edits.
///
/// A program keeps it, and may copy and store it. It may hold anything: an edit first checks its
/// sheet and tableau, as settle does.
///
/// An edit names one roastery and one café, from 0. It gives the cost, prices and plan that solve
/// gives for the edited sheet, and the rounds that it made itself. A refused edit alters nothing.
///
/// ```
/// let mut standing = panel::Standing::set_up(&[3, 4], &[5, 2], &[4, 1, 2, 6])?;
/// let solution = standing.set_cost(0, 1, 9)?;
/// assert_eq!((solution.cost, solution.rounds), (28, 1));
/// assert_eq!(solution.plan, [3, 0, 2, 2]);
///
/// assert_eq!(standing.set_amounts(0, 0, 3, 6), Err(panel::Refusal::Lacking));
/// assert_eq!(standing.set_cost(0, 2, 9), Err(panel::Refusal::BadEdit));
/// assert_eq!(standing.set_amounts(0, 0, 4, 6)?.plan, [4, 0, 2, 2]);
///
/// assert_eq!((standing.sheet.supplies(), standing.sheet.demands()), (&[4, 4][..], &[6, 2][..]));
/// assert_eq!((standing.sheet.costs(), standing.counter), (&[4, 9, 2, 6][..], 2));
/// # Ok::<(), panel::Refusal>(())
/// ```
#[repr(C)]
#[derive(Clone, Copy, Debug, PartialEq, Eq)]
pub struct Standing {
    /// The sheet.
    pub sheet: KeptSheet,
    /// Its finished tableau.
    pub tableau: Tableau,
    /// How many edits were accepted since the set-up.
    pub counter: u64,
}

// As in the library.
const _: () = assert!(size_of::<Standing>() == 10_752);

impl Standing {
    /// The standing sheet of a sheet; no edit is counted yet.
    pub fn set_up(supply: &[u64], demand: &[u64], cost: &[i64]) -> Result<Standing, Refusal> {
        set_up(supply, demand, cost)
    }

    /// Sets the cost of the lane from roastery `row` to café `col`, and goes on from the kept
    /// tableau.
    pub fn set_cost(&mut self, row: usize, col: usize, cost: i64) -> Result<Solution, Refusal> {
        let (m, n) = (self.sheet.m, self.sheet.n);
        Solution::owned(m, n, |u, v, plan| edit_cost(self, row, col, cost, u, v, plan))
    }

    /// Sets the supply of roastery `row` and the demand of café `col`, and begins afresh.
    pub fn set_amounts(&mut self, row: usize, col: usize, supply: u64, demand: u64) -> Result<Solution, Refusal> {
        let (m, n) = (self.sheet.m, self.sheet.n);
        Solution::owned(m, n, |u, v, plan| edit_amounts(self, row, col, supply, demand, u, v, plan))
    }
}

/// The standing sheet of a sheet, with its finished tableau; no edit is counted yet.
pub fn set_up(supply: &[u64], demand: &[u64], cost: &[i64]) -> Result<Standing, Refusal> {
    let (m, n, lanes) = (supply.len(), demand.len(), cost.len());
    // SAFETY: slices are what `ffi` asks for.
    let r = unsafe { ffi::panel_set_up(supply.as_ptr(), m, demand.as_ptr(), n, cost.as_ptr(), lanes) };
    Refusal::check(r.refusal, 0)?;
    Ok(r.standing)
}

/// Sets the cost of the lane from roastery `row` to café `col`, and goes on from the kept tableau.
/// The lists get prices and plan of the edited sheet, as from [`solve`](crate::solve).
pub fn edit_cost(
    standing: &mut Standing,
    row: usize,
    col: usize,
    cost: i64,
    u: &mut [i64],
    v: &mut [i64],
    plan: &mut [u64],
) -> Result<Solved, Refusal> {
    edit(standing, row, col, Change::Cost(cost), u, v, plan)
}

/// Sets the supply of roastery `row` and the demand of café `col`, and begins afresh. The lists get
/// prices and plan of the edited sheet, as from [`solve`](crate::solve).
#[allow(clippy::too_many_arguments)] // as many as the edit has, and the three lists
pub fn edit_amounts(
    standing: &mut Standing,
    row: usize,
    col: usize,
    supply: u64,
    demand: u64,
    u: &mut [i64],
    v: &mut [i64],
    plan: &mut [u64],
) -> Result<Solved, Refusal> {
    edit(standing, row, col, Change::Amounts { supply, demand }, u, v, plan)
}

/// What an edit sets at the roastery and the café that it names.
enum Change {
    Cost(i64),
    Amounts { supply: u64, demand: u64 },
}

/// An edit: a refusal leaves the standing sheet and the lists as they are.
fn edit(
    standing: &mut Standing,
    row: usize,
    col: usize,
    change: Change,
    u: &mut [i64],
    v: &mut [i64],
    plan: &mut [u64],
) -> Result<Solved, Refusal> {
    let (amounts, cost, supply, demand) = match change {
        Change::Cost(cost) => (false, cost, 0, 0),
        Change::Amounts { supply, demand } => (true, 0, supply, demand),
    };
    let (u_len, v_len, plan_len) = (u.len(), v.len(), plan.len());
    let (u, v, plan) = (u.as_mut_ptr(), v.as_mut_ptr(), plan.as_mut_ptr());
    // SAFETY: slices are what `ffi` asks for, and a standing sheet may hold anything.
    let r = unsafe {
        ffi::panel_edit(*standing, row, col, amounts, cost, supply, demand, u, u_len, v, v_len, plan, plan_len)
    };
    Refusal::check(r.refusal, 0)?;
    *standing = r.after;
    Ok(Solved { cost: r.cost, rounds: r.rounds })
}
