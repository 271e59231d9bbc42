//! Tableaux as lent lists of cells: a list that is not a tableau of the sheet is refused with 6, after the sheet's own refusals and before 7 and 8.
mod common;
use common::{
    both_signs, both_signs_last, cell, closed, closed_last, columns, dear, dear_last, finished, first_empty, half_closed, largest,
    largest_with_surplus, last_closed, p1, p1_last, p3, p4, p5, p6, p8, p9, sheet, wide, MARK,
};
use panel::{round, run, settle, Cell, Pair, Refusal, Sheet, MAX_LANES};

/// Makes every call that takes a tableau, with these cells; each must refuse alike. Settle does so with any room, and changes nothing.
#[track_caller]
fn refused(sheet: &Sheet, cells: &[Cell], refusal: Refusal) {
    let Sheet { supply, demand, cost } = sheet;
    assert_eq!(round(supply, demand, cost, cells), Err(refusal));
    for allowance in [0, 1, u32::MAX] {
        assert_eq!(run(supply, demand, cost, cells, allowance), Err(refusal));
    }
    for room in [0, 1, cost.len().saturating_sub(1), cost.len(), MAX_LANES] {
        let mut plan = vec![MARK; room];
        assert_eq!(settle(supply, demand, cost, cells, &mut plan), Err(refusal));
        assert!(plan.iter().all(|&bags| bags == MARK));
    }
}

#[track_caller]
fn foreign(sheet: &Sheet, cells: &[Cell]) {
    refused(sheet, cells, Refusal::ForeignTableau);
}

/// Sheets with a tableau that belongs to each: the paper's, starts of 1, 62 and 63 cells, some with a column for the extra café, and some with struck parties.
fn belonging() -> Vec<(Sheet, Vec<Cell>)> {
    let started = |sheet: Sheet| {
        let cells = sheet.start().unwrap().to_vec();
        (sheet, cells)
    };
    let sides_31_32 = sheet(&[32; 31], &[31; 32], &[1; 31 * 32]);
    let mut all = vec![(p1(), p1_last().to_vec()), (p4(), p5().to_vec()), (dear(), dear_last().to_vec()), (both_signs(), both_signs_last().to_vec())];
    all.extend([p6(), p1(), p3(), p4(), sides_31_32, largest()].map(started));
    all.extend([p8(), dear(), wide(40, 31), largest_with_surplus()].map(started));
    all.push((closed(), closed_last().to_vec()));
    all.extend([closed(), first_empty(), last_closed(), half_closed()].map(started));
    all
}

/// Every change of one cell of a tableau that belongs must be refused.
fn changes_refused(edit: impl Fn(&Sheet, &mut Cell)) {
    for (sheet, cells) in belonging() {
        for k in 0..cells.len() {
            let mut changed = cells.clone();
            edit(&sheet, &mut changed[k]);
            foreign(&sheet, &changed);
        }
    }
}

#[test]
fn only_the_true_length() {
    for (sheet, cells) in belonging() {
        for length in [0, 1, 2, 3, 4, 61, 62, 63, 64, 65, 66, 10_000] {
            let list: Vec<Cell> = cells.iter().copied().cycle().take(length).collect();
            match length == cells.len() {
                true => assert!(sheet.round(&list).is_ok() && sheet.run(&list, 0).is_ok()),
                false => foreign(&sheet, &list),
            }
        }
    }
}

#[test]
fn a_true_tableau_and_more() {
    for (sheet, cells) in belonging() {
        let last = cells[cells.len() - 1];
        let none = Cell { amount: Pair::default(), ..last };
        for more in [last, none, Cell::default(), Cell { col: last.col + 1, ..none }, Cell { row: last.row + 1, col: 0, ..none }] {
            // Beyond one more: lengths that a byte, or two, would take for the true one.
            for count in [1, 2, 256, 65_536] {
                let mut list = cells.clone();
                list.resize(cells.len() + count, more);
                foreign(&sheet, &list);
            }
        }
    }
    // Every lane, in order and with true sums.
    let [a, b, c] = p1_last();
    foreign(&p1(), &[a, b, c, cell(2, 2, 0, 0)]);
}

#[test]
fn a_cell_too_few() {
    for (sheet, cells) in belonging() {
        for k in 0..cells.len() {
            let mut list = cells.clone();
            list.remove(k);
            foreign(&sheet, &list);
        }
    }
}

#[test]
fn cells_off_the_sheet() {
    let past = [1 << 5, 1 << 6, 1 << 8, 1 << 16, 1 << 32, 1 << 63, (1 << 63) + (1 << 62)];
    changes_refused(|sheet, c| c.row += sheet.supply.len());
    changes_refused(|sheet, c| c.col += sheet.demand.len());
    changes_refused(|sheet, c| c.col += columns(sheet));
    changes_refused(|sheet, c| c.col = columns(sheet));
    changes_refused(|_, c| (c.row, c.col) = (usize::MAX, usize::MAX));
    for far in past {
        changes_refused(|_, c| c.row += far);
        changes_refused(|_, c| c.col += far);
    }
    // The same place in sheet order, told from the row before: (1,3) for (2,1), and so on.
    changes_refused(|sheet, c| (c.row, c.col) = (c.row.wrapping_sub(1), c.col + sheet.demand.len()));
    changes_refused(|sheet, c| (c.row, c.col) = (c.row.wrapping_sub(1), c.col + columns(sheet)));
    let [a, b, c] = p1_last();
    foreign(&p1(), &[a, b, Cell { row: 0, col: 2, ..c }]);
    foreign(&p1(), &[a, Cell { row: usize::MAX, col: 3, ..b }, c]);
    let [a, b, c, d] = p5();
    foreign(&p4(), &[a, Cell { row: 0, col: 3, ..b }, Cell { row: 0, col: 4, ..c }, Cell { row: 0, col: 5, ..d }]);
}

/// A column for an extra café that is not there; and that of one that is, left out, elsewhere or twice.
#[test]
fn the_extra_cafe_misplaced() {
    // A balanced sheet has none, not even with the marks alone.
    foreign(&p6(), &[cell(1, 1, 1, 0), cell(1, 2, 0, 1)]);
    foreign(&p3(), &[cell(1, 1, 5, 0), cell(1, 2, 0, 1), cell(2, 2, 5, -1), cell(2, 3, 0, 2)]);
    foreign(&p1(), &[cell(1, 1, 3, 1), cell(2, 1, 2, -1), cell(2, 2, 2, 0), cell(2, 3, 0, 2)]);
    // With a surplus it cannot be left out: neither its cells nor what they hold.
    foreign(&p8(), &[cell(1, 1, 2, 1)]);
    foreign(&p8(), &[cell(1, 1, 3, 1)]);
    foreign(&p8(), &[cell(1, 1, 2, 0)]);
    foreign(&dear(), &[cell(1, 1, 1, 1), cell(2, 1, 3, 1)]);
    foreign(&dear(), &[cell(1, 1, 3, 1), cell(2, 1, 1, -1)]);
    // It stands last, and the marks with it.
    foreign(&p8(), &[cell(1, 1, 1, 1), cell(1, 2, 2, 0)]);
    foreign(&p8(), &[cell(1, 1, 2, 1), cell(1, 2, 1, 0)]);
    foreign(&dear(), &[cell(1, 1, 3, 1), cell(2, 1, 1, 1), cell(2, 2, 2, 0)]);
    foreign(&dear(), &[cell(1, 1, 2, 1), cell(1, 2, 1, 0), cell(2, 2, 3, 1)]);
    // There is one, in the column after the cafés of the sheet.
    foreign(&p8(), &[cell(1, 1, 2, 0), cell(1, 2, 1, 0), cell(1, 3, 0, 1)]);
    for column in [3, 31, 32, 33, 64, 65] {
        foreign(&p8(), &[cell(1, 1, 2, 0), cell(1, column, 1, 1)]);
        foreign(&dear(), &[cell(1, 1, 3, 1), cell(2, 1, 1, -1), cell(2, column, 2, 2)]);
    }
}

/// A cell at a struck party; or the count, the numbers or the marks as if none were struck.
#[test]
fn struck_parties() {
    let first = first_empty();
    foreign(&first, &[cell(1, 1, 3, 1), cell(3, 1, 2, -1), cell(3, 2, 2, 2)]);
    foreign(&first, &[cell(1, 1, 0, 1), cell(2, 1, 3, 1), cell(3, 1, 2, -2), cell(3, 2, 2, 3)]);
    foreign(&first, &[cell(1, 1, 0, 0), cell(2, 1, 3, 1), cell(3, 1, 2, -1), cell(3, 2, 2, 2)]);
    foreign(&first, &p1().start().unwrap());
    foreign(&first, &p1_last());
    foreign(&first, &[cell(2, 1, 3, 1), cell(3, 1, 2, -1), cell(3, 2, 2, 3)]);
    foreign(&p1(), &first.start().unwrap());
    let last = last_closed();
    foreign(&last, &[cell(1, 1, 3, 1), cell(2, 1, 2, -1), cell(2, 3, 2, 2)]);
    foreign(&last, &[cell(1, 1, 3, 1), cell(2, 1, 2, -1), cell(2, 2, 2, 0), cell(2, 3, 0, 2)]);
    foreign(&last, &[cell(1, 1, 3, 1), cell(2, 1, 2, -1), cell(2, 2, 2, 2), cell(2, 3, 0, 0)]);
    // The extra café keeps its number after all cafés of the sheet, and a mark for each of the two roasteries left.
    let start = [cell(2, 1, 12, 0), cell(2, 3, 8, 1), cell(3, 3, 7, -1)];
    for (column, marks) in [(2, 2), (3, 2), (4, 3), (4, 1), (5, 2)] {
        foreign(&closed(), &[&start[..], &[cell(3, column, 7, marks)]].concat());
    }
    foreign(&closed(), &[cell(1, 1, 12, 0), cell(1, 2, 8, 1), cell(2, 2, 7, -1), cell(2, 3, 7, 2)]);
    // A café left may not be taken for a closed one.
    foreign(&sheet(&[3, 4], &[5, 1, 1], &[4, 1, 3, 2, 6, 9]), &p1_last());
}

#[test]
fn another_order() {
    for (sheet, cells) in belonging() {
        for k in 1..cells.len() {
            let (mut swapped, mut far, mut turned) = (cells.clone(), cells.clone(), cells.clone());
            swapped.swap(k - 1, k);
            far.swap(0, k);
            turned.rotate_left(k);
            for list in [swapped, far, turned] {
                foreign(&sheet, &list);
            }
        }
    }
}

#[test]
fn a_cell_twice() {
    for (sheet, cells) in belonging() {
        for k in 1..cells.len() {
            // In the place of a neighbour; and beside itself, its amount in two parts.
            let (mut left, mut right, mut parts) = (cells.clone(), cells.clone(), cells.clone());
            left[k - 1] = cells[k];
            right[k] = cells[k - 1];
            parts[k].amount.q -= 1;
            parts.insert(k, Cell { amount: Pair { q: 1, e: 0 }, ..cells[k] });
            for list in [left, right, parts] {
                foreign(&sheet, &list);
            }
        }
    }
}

#[test]
fn amounts_at_the_ends() {
    let ends = [i64::MIN, i64::MIN + 1, -1_000_001, 1_000_001, i64::MAX - 1, i64::MAX];
    for end in ends {
        changes_refused(|_, c| c.amount.q = end);
        changes_refused(|_, c| c.amount.e = end);
        changes_refused(|_, c| c.amount = Pair { q: end, e: end });
        changes_refused(|_, c| c.amount = Pair { q: end, e: end.wrapping_neg() });
        for (sheet, mut cells) in belonging() {
            cells.iter_mut().for_each(|c| c.amount = Pair { q: end, e: end });
            foreign(&sheet, &cells);
        }
    }
}

#[test]
fn amounts_that_miss_the_sums() {
    changes_refused(|_, c| c.amount = Pair::default());
    for by in [-1, 1] {
        changes_refused(|_, c| c.amount.q += by);
        changes_refused(|_, c| c.amount.e += by);
        changes_refused(|_, c| (c.amount.q, c.amount.e) = (c.amount.q + by, c.amount.e - by));
    }
}

/// The sums are true, but a pair is below (0, 0).
#[test]
fn amounts_below_nothing() {
    foreign(&p1(), &[cell(1, 1, 5, 0), cell(1, 2, -2, 1), cell(2, 2, 4, 1)]);
    foreign(&p3(), &[cell(1, 1, 5, 1), cell(2, 1, 0, -1), cell(2, 2, 5, 2)]);
}

/// A loop, and a lane apart from it. The bags add up; marks never do.
#[test]
fn a_loop() {
    let three = sheet(&[2; 3], &[2; 3], &[0; 9]);
    foreign(&three, &[cell(1, 1, 1, 1), cell(1, 2, 1, 0), cell(2, 1, 1, -1), cell(2, 2, 1, 2), cell(3, 3, 2, 1)]);
    foreign(&three, &[cell(1, 1, 1, 0), cell(1, 2, 1, 1), cell(2, 1, 1, 0), cell(2, 2, 1, 1), cell(3, 3, 2, 3)]);
}

#[test]
fn a_tableau_of_another_sheet() {
    foreign(&p3(), &p1_last());
    foreign(&p1(), &p3().start().unwrap());
    foreign(&p4(), &p1().start().unwrap());
    foreign(&p1(), &p5());
    // One with a surplus, the other without, or both with one.
    foreign(&p8(), &p6().start().unwrap());
    foreign(&p6(), &p8().start().unwrap());
    foreign(&dear(), &p8().start().unwrap());
    foreign(&dear(), &p1_last());
    foreign(&wide(40, 31), &wide(32, 32).start().unwrap());
    foreign(&wide(32, 32), &wide(40, 31).start().unwrap());
}

/// The balanced sheet with a café more, at cost 0, has the same tableaux.
#[test]
fn the_sheet_with_the_extra_cafe_written_out() {
    for (surplus, written_out) in [
        (p8(), sheet(&[3], &[2, 1], &[0, 0])),
        (dear(), sheet(&[3, 3], &[4, 2], &[5, 0, 1, 0])),
        (wide(40, 31), sheet(&[40], &[&[1; 31][..], &[9]].concat(), &[&[1; 31][..], &[0]].concat())),
    ] {
        let start = surplus.start().unwrap();
        assert_eq!(written_out.start(), Ok(start));
        assert_eq!(written_out.run(&start, u32::MAX), surplus.run(&start, u32::MAX));
    }
}

/// P3's first two cells, and a third of any kind.
#[test]
fn a_hostile_third_cell() {
    let with = |third: Cell| [cell(1, 1, 5, 0), cell(1, 2, 0, 1), third];
    assert_eq!(p3().round(&with(cell(2, 2, 5, 1))), finished(&[0, 0], &[1, 1]));
    let (least, greatest) = (i64::MIN, i64::MAX);
    foreign(&p3(), &[]);
    foreign(&p3(), &with(cell(3, 2, 5, 1)));
    foreign(&p3(), &with(Cell { row: usize::MAX, col: usize::MAX, amount: Pair { q: 5, e: 1 } }));
    foreign(&p3(), &with(cell(1, 2, 5, 1)));
    foreign(&p3(), &with(cell(2, 2, greatest, greatest)));
    foreign(&p3(), &with(cell(2, 2, least, least)));
    foreign(&p3(), &p9());
    foreign(&p3(), &[cell(2, 2, 5, 1), cell(1, 2, 0, 1), cell(1, 1, 5, 0)]);
    let mut long = with(cell(2, 2, 5, 1)).to_vec();
    long.resize(64, Cell::default());
    foreign(&p3(), &long);
    refused(&sheet(&[5, 5], &[5, 5], &[1; 3]), &long, Refusal::CostCount);
    refused(&sheet(&[5, 4], &[5, 5], &[1; 4]), &long, Refusal::Lacking);
}

#[test]
fn the_sheet_is_refused_first() {
    let [a, b, c] = p1_last();
    let off = Cell { row: usize::MAX, col: usize::MAX, amount: Pair { q: i64::MIN, e: i64::MAX } };
    let lists = [vec![], p1_last().to_vec(), vec![b, a, c], vec![a, a, a], vec![a, b, off], vec![a; 64], vec![off; 10_000]];
    for (sheet, refusal) in [
        (sheet(&[], &[], &[]), Refusal::Sides),
        (sheet(&[0; 33], &[5, 2], &[]), Refusal::Sides),
        (sheet(&[0, 4], &[5, 2], &[4, 1, 2]), Refusal::CostCount),
        (sheet(&[0, 1_000_001], &[5, 2], &[1_000_001; 4]), Refusal::Amount),
        (sheet(&[3, 4], &[5, 3], &[1_000_001; 4]), Refusal::Cost),
        (sheet(&[3, 4], &[5, 3], &[-1_000_001; 4]), Refusal::Cost),
        (sheet(&[3, 4], &[5, 3], &[4, 1, 2, 6]), Refusal::Lacking),
        (wide(40, 32), Refusal::Crowded),
        (sheet(&[3, 4], &[0, 0], &[4, 1, 2, 6]), Refusal::Idle),
    ] {
        lists.iter().for_each(|cells| refused(&sheet, cells, refusal));
    }
}

#[test]
fn settle_refuses_6_before_7_before_8() {
    let settled = |cells: &[Cell], room: usize| {
        let mut plan = vec![MARK; room];
        let answer = settle(&[3, 4], &[5, 2], &[4, 1, 2, 6], cells, &mut plan);
        assert!(answer.is_ok() || plan.iter().all(|&bags| bags == MARK));
        answer
    };
    let start = p1().start().unwrap();
    let mut unfinished_and_foreign = start.to_vec();
    unfinished_and_foreign[0].amount.e += 1;
    for room in [0, 1, 3] {
        assert_eq!(settled(&unfinished_and_foreign, room), Err(Refusal::ForeignTableau));
        assert_eq!(settled(&start[..2], room), Err(Refusal::ForeignTableau));
        assert_eq!(settled(&start, room), Err(Refusal::Unfinished));
        assert_eq!(settled(&p1_last(), room), Err(Refusal::Room));
    }
    assert_eq!(settled(&start, 4), Err(Refusal::Unfinished));
    assert_eq!(settled(&p1_last(), 4), Ok(()));
}

/// The cells around a lent list do not count.
#[test]
fn a_tableau_within_a_list() {
    let [a, b, c] = p1_last();
    let list = [c, a, b, c, a];
    assert_eq!(p1().round(&list[1..4]), finished(&[0, -2], &[4, 1]));
    assert_eq!(p1().settle(&list[1..4]), Ok(vec![1, 2, 4, 0]));
    foreign(&p1(), &list[..3]);
    foreign(&p1(), &list[2..]);
}

#[test]
fn a_tableau_lends_its_cells() {
    let start = p6().start().unwrap();
    let copy = start;
    assert_eq!((copy, copy.len(), copy.iter().count()), (start, 1, 1));
    assert_ne!(start, p3().start().unwrap());
    assert_eq!(format!("{start:?}"), "Tableau([Cell { row: 0, col: 0, amount: Pair { q: 1, e: 1 } }])");
}
