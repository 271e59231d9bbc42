//! Sheet texts: there and back, the places of those that are none, and those of refused sheets.
mod common;
use common::{both_signs, closed, earns, full, p1, p8, sheet, wide, MARK, SIGNED_MARK};
use panel::{read_sheet, Refusal, Sheet, MAX_SHEET_TEXT};

const WORKED: &str = include_str!("../../examples/worked.sheet");
const WORKED_PLAN: &str = include_str!("../../examples/worked.plan");

#[test]
fn there_and_back() {
    let read = Sheet::read(WORKED.as_bytes()).unwrap();
    assert_eq!(read, p1());
    let text = read.text().unwrap();
    assert_eq!(text, "supply 2\n3\n4\ndemand 2\n5\n2\ncost 2\n4 1\n2 6\n");
    assert_eq!((text.as_str(), text.len()), (WORKED, 41));
    assert_eq!(read.plan_text().unwrap(), WORKED_PLAN);
}

/// Neither text shows the extra café.
#[test]
fn there_and_back_with_a_surplus() {
    let (text, plan) = (include_str!("../../examples/surplus.sheet"), include_str!("../../examples/surplus.plan"));
    let read = Sheet::read(text.as_bytes()).unwrap();
    assert_eq!((&*read.supply, &*read.demand, &*read.cost), (&[24, 18][..], &[16, 14, 10][..], &[95, 140, 120, 130, 85, 105][..]));
    assert_eq!((read.text().unwrap(), read.plan_text().unwrap()), (text.to_string(), plan.to_string()));
    let one_bag_stays = "supply 1\n3\ndemand 1\n2\ncost 1\n0\n";
    assert_eq!(Sheet::read(one_bag_stays.as_bytes()), Ok(p8()));
    assert_eq!(p8().text().unwrap(), one_bag_stays);
    assert_eq!(p8().plan_text().unwrap(), "total 1\n0\nrounds 1\n0\nroasteries 1\n0\ncafes 1\n0\nlanes 1\n1 1 2\n");
    assert_eq!(Sheet::read(wide(40, 31).text().unwrap().as_bytes()), Ok(wide(40, 31)));
}

/// Parties at 0 stand in both texts, and their lanes in none.
#[test]
fn there_and_back_with_parties_at_0() {
    let (text, plan) = (include_str!("../../examples/closed.sheet"), include_str!("../../examples/closed.plan"));
    assert_eq!(Sheet::read(text.as_bytes()), Ok(closed()));
    assert_eq!((closed().text().unwrap(), closed().plan_text().unwrap()), (text.to_string(), plan.to_string()));
    for (zero, place) in [("00\n", 10), ("01\n", 10), ("-0\n", 9)] {
        assert_eq!(Sheet::read(format!("supply 1\n{zero}").as_bytes()), Err(Refusal::NotSheetText { place }), "{zero:?}");
    }
}

/// The total and the prices may have a minus, and so may the costs.
#[test]
fn there_and_back_with_costs_below_0() {
    for (sheet, text, plan) in [
        (
            earns(),
            "supply 2\n3\n3\ndemand 1\n4\ncost 2\n1\n-5\n",
            "total 1\n-14\nrounds 1\n1\nroasteries 2\n0\n-6\ncafes 1\n1\nlanes 2\n1 1 1\n2 1 3\n",
        ),
        (
            both_signs(),
            "supply 2\n2\n3\ndemand 3\n1\n2\n2\ncost 2\n-1 0 -1\n-1 0 2\n",
            "total 1\n-3\nrounds 1\n2\nroasteries 2\n0\n3\ncafes 3\n-4\n-3\n-1\nlanes 3\n1 3 2\n2 1 1\n2 2 2\n",
        ),
        (
            sheet(&[2], &[2], &[-1_000_000]),
            &text_of_a_cost("-1000000\n"),
            "total 1\n-2000000\nrounds 1\n0\nroasteries 1\n0\ncafes 1\n-1000000\nlanes 1\n1 1 2\n",
        ),
    ] {
        assert_eq!(Sheet::read(text.as_bytes()), Ok(sheet.clone()));
        assert_eq!((sheet.text().unwrap(), sheet.plan_text().unwrap()), (text.to_string(), plan.to_string()));
    }
}

/// Two bags for one café, at a cost that is written so. It begins after 29 bytes.
fn text_of_a_cost(cost: &str) -> String {
    format!("supply 1\n2\ndemand 1\n2\ncost 1\n{cost}")
}

#[test]
fn places_of_costs_with_a_minus() {
    for (cost, place) in [("-0\n", 30), ("-01\n", 30), ("-", 30), ("-\n", 30), ("--1\n", 30), ("1-\n", 30), ("+1\n", 29), ("-10000000\n", 37)] {
        assert_eq!(Sheet::read(text_of_a_cost(cost).as_bytes()), Err(Refusal::NotSheetText { place }), "{cost:?}");
    }
}

#[test]
fn the_longest_text() {
    let longest = full(-1_000_000);
    let text = longest.text().unwrap();
    assert_eq!((text.len(), MAX_SHEET_TEXT), (9_756, 9_756));
    assert_eq!(Sheet::read(text.as_bytes()), Ok(longest));
    assert_eq!(Sheet::read((text + "\n").as_bytes()), Err(Refusal::NotSheetText { place: 9_756 }));
}

#[test]
fn places_of_texts_that_are_none() {
    for (text, place) in [
        ("", 0),
        ("supply 33", 8),
        ("supply 01", 7),
        ("supply 0", 7),
        ("supply 3x", 8),
        ("suppose", 4),
        ("supply 1\n01", 10),
        ("supply 1\n12345678", 16),
        ("supply 1\n1234567\n", 17),
        ("supply -1\n", 7),
        ("supply 1\n-2\n", 9),
        ("supply 1\n2\ndemand -1\n", 18),
        ("supply 1\n2\ndemand 1\n-2\n", 20),
        ("supply 1\n2\ndemand 1\n2\ncost -1\n", 27),
        ("supply 2\n3\n4\ndemand 2\n5\n2\ncost 3", 31),
        ("supply 2\n3\n4\ndemand 2\n5\n2\ncost 2\n4\n", 34),
        ("supply 2\n3\n4\ndemand 2\n5\n2\ncost 2\n4 1\n2 6", 40),
        ("supply 2\n3\n4\ndemand 2\n5\n2\ncost 2\n4 1\n2 6\n\n", 41),
    ] {
        assert_eq!(Sheet::read(text.as_bytes()), Err(Refusal::NotSheetText { place }), "{text:?}");
    }
}

#[test]
fn texts_of_refused_sheets() {
    for (text, refusal) in [
        ("supply 1\n0\ndemand 1\n2\ncost 1\n0\n", Refusal::Lacking),
        ("supply 1\n2\ndemand 1\n0\ncost 1\n0\n", Refusal::Idle),
        ("supply 1\n0\ndemand 1\n0\ncost 1\n0\n", Refusal::Idle),
        ("supply 1\n1000001\ndemand 1\n0\ncost 1\n0\n", Refusal::Amount),
        ("supply 1\n1\ndemand 1\n1000001\ncost 1\n0\n", Refusal::Amount),
        ("supply 1\n1\ndemand 1\n1\ncost 1\n1000001\n", Refusal::Cost),
        (&text_of_a_cost("-1000001\n"), Refusal::Cost),
        (&text_of_a_cost("-9999999\n"), Refusal::Cost),
        ("supply 1\n2\ndemand 1\n3\ncost 1\n-1\n", Refusal::Lacking),
        ("supply 1\n2\ndemand 1\n3\ncost 1\n0\n", Refusal::Lacking),
        (&text_of_32_cafes("40", "0"), Refusal::Crowded),
        (&text_of_32_cafes("33", "0"), Refusal::Crowded),
        (&text_of_32_cafes("31", "0"), Refusal::Lacking),
        (&text_of_32_cafes("40", "-1"), Refusal::Crowded),
        (&text_of_32_cafes("40", "-1000001"), Refusal::Cost),
        (&text_of_32_cafes("40", "1000001"), Refusal::Cost),
        (&text_of_32_cafes("1000001", "1000001"), Refusal::Amount),
    ] {
        assert_eq!(Sheet::read(text.as_bytes()), Err(refusal), "{text:?}");
    }
}

/// One roastery with this supply, and 32 cafés that want a bag each at this cost.
fn text_of_32_cafes(supply: &str, cost: &str) -> String {
    format!("supply 1\n{supply}\ndemand 32\n{}cost 1\n{}\n", "1\n".repeat(32), [cost; 32].join(" "))
}

#[test]
fn room_for_one_lane() {
    let (mut supply, mut demand, mut cost) = ([MARK], [MARK], [SIGNED_MARK]);
    let two_cafes = b"supply 1\n3\ndemand 2\n1\n2\ncost 1\n0 0\n";
    assert_eq!(read_sheet(two_cafes, &mut supply, &mut demand, &mut cost), Err(Refusal::Room));
    assert_eq!((supply, demand, cost), ([MARK], [MARK], [SIGNED_MARK]));
    let one_lane = b"supply 1\n3\ndemand 1\n3\ncost 1\n-7\n";
    assert_eq!(read_sheet(one_lane, &mut supply, &mut demand, &mut cost), Ok((1, 1)));
    assert_eq!((supply, demand, cost), ([3], [3], [-7]));
}
