//! The calls of the bag plan panel, safe to use from Rust.
//!
//! The functions stand for the C functions of `crates/exports/panel.h`: they work on lent lists and allocate nothing. A call that refuses changes nothing
//! that was lent to it. The methods of [`Sheet`] and [`Standing`] are the same calls with results
//! that are owned. `docs/EMBEDDING.md` says more.
//!
//! ```
//! let sheet = panel::Sheet { supply: vec![3, 4], demand: vec![5, 2], cost: vec![4, 1, 2, 6] };
//! let solution = sheet.solve()?;
//! assert_eq!((solution.cost, solution.rounds), (14, 1));
//! assert_eq!(solution.plan, [1, 2, 4, 0]);
//! # Ok::<(), panel::Refusal>(())
//! ```
#![deny(unsafe_op_in_unsafe_fn, missing_docs)]

mod ffi;
mod refusal;
mod standing;
mod tableau;

pub use refusal::Refusal;
pub use standing::{edit_amounts, edit_cost, set_up, KeptSheet, Standing};
pub use tableau::{Cell, Pair, Tableau};

/// The most roasteries, and the most cafés, of a sheet.
pub const MAX_SIDE: usize = 32;
/// The most lanes of a sheet.
pub const MAX_LANES: usize = MAX_SIDE * MAX_SIDE;
/// The most cells of a tableau.
pub const MAX_CELLS: usize = 2 * MAX_SIDE - 1;
/// The longest sheet text, in bytes.
pub const MAX_SHEET_TEXT: usize = 9_756;
/// No plan text is longer, in bytes.
pub const MAX_PLAN_TEXT: usize = 1_604;

/// What a round gives.
#[derive(Clone, Copy, Debug, PartialEq, Eq)]
#[allow(clippy::large_enum_variant)] // nothing here allocates
pub enum Round {
    /// The next tableau.
    Next(Tableau),
    /// The tableau is finished, and these are its prices: m in `u` and n in `v`, also those of parties whose amount is 0; then zeros. The price of the extra
    /// café is not given.
    Finished {
        /// The prices of the roasteries.
        u: [i64; MAX_SIDE],
        /// The prices of the cafés.
        v: [i64; MAX_SIDE],
    },
}

/// What a run gives.
#[derive(Clone, Copy, Debug, PartialEq, Eq)]
pub struct Run {
    /// Whether the tableau is finished; else the allowance is spent.
    pub finished: bool,
    /// The rounds made.
    pub rounds: u64,
    /// The tableau after them.
    pub tableau: Tableau,
}

/// What solve, or an edit, gives beside the lists that it fills.
#[derive(Clone, Copy, Debug, PartialEq, Eq)]
pub struct Solved {
    /// The cost of the plan, in cents; below 0 where the plan earns money.
    pub cost: i64,
    /// The rounds to the first finished tableau: from the start, or from where an edit began.
    pub rounds: u64,
}

/// The first tableau.
pub fn start(supply: &[u64], demand: &[u64], cost: &[i64]) -> Result<Tableau, Refusal> {
    // SAFETY: slices are what `ffi` asks for.
    let r = unsafe { ffi::panel_start(supply.as_ptr(), supply.len(), demand.as_ptr(), demand.len(), cost.as_ptr(), cost.len()) };
    Refusal::check(r.refusal, 0)?;
    Ok(r.tableau)
}

/// One round on the tableau of these cells.
pub fn round(supply: &[u64], demand: &[u64], cost: &[i64], cells: &[Cell]) -> Result<Round, Refusal> {
    let (m, n, lanes) = (supply.len(), demand.len(), cost.len());
    // SAFETY: slices are what `ffi` asks for.
    let r = unsafe { ffi::panel_round(supply.as_ptr(), m, demand.as_ptr(), n, cost.as_ptr(), lanes, cells.as_ptr(), cells.len()) };
    Refusal::check(r.refusal, 0)?;
    Ok(if r.finished { Round::Finished { u: r.u, v: r.v } } else { Round::Next(r.tableau) })
}

/// Rounds until the tableau of these cells is finished, but no more than `allowance`.
pub fn run(supply: &[u64], demand: &[u64], cost: &[i64], cells: &[Cell], allowance: u32) -> Result<Run, Refusal> {
    let (m, n, lanes) = (supply.len(), demand.len(), cost.len());
    // SAFETY: slices are what `ffi` asks for.
    let r = unsafe { ffi::panel_run(supply.as_ptr(), m, demand.as_ptr(), n, cost.as_ptr(), lanes, cells.as_ptr(), cells.len(), allowance) };
    Refusal::check(r.refusal, 0)?;
    Ok(Run { finished: r.finished, rounds: r.rounds, tableau: r.tableau })
}

/// The settled plan of the finished tableau of these cells: m × n quantities at the front of `plan`.
pub fn settle(supply: &[u64], demand: &[u64], cost: &[i64], cells: &[Cell], plan: &mut [u64]) -> Result<(), Refusal> {
    // SAFETY: slices are what `ffi` asks for.
    let refusal = unsafe {
        ffi::panel_settle(
            supply.as_ptr(),
            supply.len(),
            demand.as_ptr(),
            demand.len(),
            cost.as_ptr(),
            cost.len(),
            cells.as_ptr(),
            cells.len(),
            plan.as_mut_ptr(),
            plan.len(),
        )
    };
    Refusal::check(refusal, 0)
}

/// The cheapest plan: m and n prices and m × n quantities at the fronts of `u`, `v` and `plan`.
pub fn solve(supply: &[u64], demand: &[u64], cost: &[i64], u: &mut [i64], v: &mut [i64], plan: &mut [u64]) -> Result<Solved, Refusal> {
    // SAFETY: slices are what `ffi` asks for.
    let r = unsafe {
        ffi::panel_solve(
            supply.as_ptr(),
            supply.len(),
            demand.as_ptr(),
            demand.len(),
            cost.as_ptr(),
            cost.len(),
            u.as_mut_ptr(),
            u.len(),
            v.as_mut_ptr(),
            v.len(),
            plan.as_mut_ptr(),
            plan.len(),
        )
    };
    Refusal::check(r.refusal, 0)?;
    Ok(Solved { cost: r.cost, rounds: r.rounds })
}

/// The sheet of a sheet text, at the fronts of the three lists; gives m and n.
pub fn read_sheet(text: &[u8], supply: &mut [u64], demand: &mut [u64], cost: &mut [i64]) -> Result<(usize, usize), Refusal> {
    // SAFETY: slices are what `ffi` asks for.
    let r = unsafe {
        ffi::panel_read_sheet(
            text.as_ptr(),
            text.len(),
            supply.as_mut_ptr(),
            supply.len(),
            demand.as_mut_ptr(),
            demand.len(),
            cost.as_mut_ptr(),
            cost.len(),
        )
    };
    Refusal::check(r.refusal, r.place)?;
    Ok((r.sources, r.sinks))
}

/// The sheet text of a sheet, at the front of `out`; gives its length.
pub fn write_sheet(supply: &[u64], demand: &[u64], cost: &[i64], out: &mut [u8]) -> Result<usize, Refusal> {
    let (m, n, lanes) = (supply.len(), demand.len(), cost.len());
    // SAFETY: slices are what `ffi` asks for.
    let r = unsafe { ffi::panel_write_sheet(supply.as_ptr(), m, demand.as_ptr(), n, cost.as_ptr(), lanes, out.as_mut_ptr(), out.len()) };
    Refusal::check(r.refusal, 0)?;
    Ok(r.length)
}

/// The plan text of a sheet, at the front of `out`; gives its length.
pub fn write_plan(supply: &[u64], demand: &[u64], cost: &[i64], out: &mut [u8]) -> Result<usize, Refusal> {
    let (m, n, lanes) = (supply.len(), demand.len(), cost.len());
    // SAFETY: slices are what `ffi` asks for.
    let r = unsafe { ffi::panel_write_plan(supply.as_ptr(), m, demand.as_ptr(), n, cost.as_ptr(), lanes, out.as_mut_ptr(), out.len()) };
    Refusal::check(r.refusal, 0)?;
    Ok(r.length)
}

/// A sheet that is owned. It need not be within the limits: the calls check it. What supply is above demand stays at the roasteries.
#[derive(Clone, Debug, Default, PartialEq, Eq)]
pub struct Sheet {
    /// The bags that each roastery has; 0 where it has nothing.
    pub supply: Vec<u64>,
    /// The bags that each café wants; 0 where it is closed.
    pub demand: Vec<u64>,
    /// Cents a bag for each lane, in sheet order; below 0 where a lane earns money.
    pub cost: Vec<i64>,
}

/// What solve, or an edit, gives, owned.
#[derive(Clone, Debug, PartialEq, Eq)]
pub struct Solution {
    /// The cost of the plan, in cents; below 0 where the plan earns money.
    pub cost: i64,
    /// The rounds to the first finished tableau: from the start, or from where an edit began.
    pub rounds: u64,
    /// The prices of the roasteries.
    pub u: Vec<i64>,
    /// The prices of the cafés.
    pub v: Vec<i64>,
    /// The bags on each lane, in sheet order.
    pub plan: Vec<u64>,
}

impl Sheet {
    /// The sheet of a sheet text.
    pub fn read(text: &[u8]) -> Result<Sheet, Refusal> {
        let (mut supply, mut demand, mut cost) = ([0; MAX_SIDE], [0; MAX_SIDE], [0; MAX_LANES]);
        let (m, n) = read_sheet(text, &mut supply, &mut demand, &mut cost)?;
        Ok(Sheet { supply: supply[..m].to_vec(), demand: demand[..n].to_vec(), cost: cost[..m * n].to_vec() })
    }

    /// The sheet text.
    pub fn text(&self) -> Result<String, Refusal> {
        let mut out = vec![0; MAX_SHEET_TEXT];
        let length = write_sheet(&self.supply, &self.demand, &self.cost, &mut out)?;
        Ok(front_of(out, length))
    }

    /// The plan text.
    pub fn plan_text(&self) -> Result<String, Refusal> {
        let mut out = vec![0; MAX_PLAN_TEXT];
        let length = write_plan(&self.supply, &self.demand, &self.cost, &mut out)?;
        Ok(front_of(out, length))
    }

    /// The first tableau.
    pub fn start(&self) -> Result<Tableau, Refusal> {
        start(&self.supply, &self.demand, &self.cost)
    }

    /// One round on the tableau of these cells.
    pub fn round(&self, cells: &[Cell]) -> Result<Round, Refusal> {
        round(&self.supply, &self.demand, &self.cost, cells)
    }

    /// Rounds until the tableau of these cells is finished, but no more than `allowance`.
    pub fn run(&self, cells: &[Cell], allowance: u32) -> Result<Run, Refusal> {
        run(&self.supply, &self.demand, &self.cost, cells, allowance)
    }

    /// The settled plan of the finished tableau of these cells, in sheet order.
    pub fn settle(&self, cells: &[Cell]) -> Result<Vec<u64>, Refusal> {
        let mut plan = [0; MAX_LANES];
        settle(&self.supply, &self.demand, &self.cost, cells, &mut plan)?;
        Ok(plan[..self.cost.len()].to_vec())
    }

    /// The cheapest plan, with its cost and prices.
    pub fn solve(&self) -> Result<Solution, Refusal> {
        let (m, n) = (self.supply.len(), self.demand.len());
        Solution::owned(m, n, |u, v, plan| solve(&self.supply, &self.demand, &self.cost, u, v, plan))
    }

    /// The standing sheet, with its finished tableau; no edit is counted yet.
    pub fn set_up(&self) -> Result<Standing, Refusal> {
        set_up(&self.supply, &self.demand, &self.cost)
    }
}

impl Solution {
    /// What a call gives for m roasteries and n cafés, with the lists that it fills.
    fn owned<F>(m: usize, n: usize, call: F) -> Result<Solution, Refusal>
    where
        F: FnOnce(&mut [i64], &mut [i64], &mut [u64]) -> Result<Solved, Refusal>,
    {
        let (mut u, mut v, mut plan) = ([0; MAX_SIDE], [0; MAX_SIDE], [0; MAX_LANES]);
        let Solved { cost, rounds } = call(&mut u, &mut v, &mut plan)?;
        Ok(Solution { cost, rounds, u: u[..m].to_vec(), v: v[..n].to_vec(), plan: plan[..m * n].to_vec() })
    }
}

fn front_of(mut out: Vec<u8>, length: usize) -> String {
    out.truncate(length);
    String::from_utf8(out).expect("texts are ASCII")
}
