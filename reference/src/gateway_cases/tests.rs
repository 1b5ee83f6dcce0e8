//! Case files of the box by hand.

use super::*;

fn text(file: &str) -> String {
    String::from_utf8(gateway_cases_text(file.as_bytes())).unwrap()
}

/// 01-scope, Trial program, the first two messages: an announcement, then its report.
#[test]
fn announced_and_reported() {
    let state = "; box 4 0 0100000000000000 10 1\n";
    let line = "    0: 1 0a0000000001 0a00000000010001 0\n    order 0; sets 0 1 0 0 0 0 0 0 0\n";
    let announced = "at 1: 04c4 0a0000000001 0a00000000010001\n";
    let reported = "at 0: 05b4 0a0000000009 0a00000000010001\n";
    let file = format!("start 4 010000000000ffff\n{announced}{reported}");
    let expected = format!("{announced}  1011{state}{line}{reported}  0100{state}{line}");
    assert!(text(&file).ends_with(&expected));
}

/// 01-scope, Gateway: a full table opens the port; its lines and their order by the total.
#[test]
fn full_table() {
    let file = "start 4 010000000000ffff\nrepeat ff 1: 04c4 0a0000000001 0a00000000010001\nat 2: 04c4 0a0000000002 0000000000000005\nat 3: 04c4 0a0000000002 0000000000000006\n";
    let text = text(file);
    let last = text.rsplit_once("at 3:").unwrap().1;
    assert!(last.contains("  1110; box 4 8 0100000000000000 10 100; total "));
    // The numbers stand in table order, so the total is that of i * (256 - i) for i up to 255: 256 * 32,640 - 5,559,680.
    let expected = "    fe: 1 0a0000000001 0a000000000100ff 0
    ff: 2 0a0000000002 0000000000000005 0
    order 0 1 2 3 fc fd fe ff total 00000000002aaa80; sets 0 1 1 0 0 0 0 0 0
";
    assert!(last.ends_with(expected), "{last}");
    assert_eq!(last.lines().count(), 11);
}

/// The total is weighted from the end, and tells the order.
#[test]
fn totals() {
    let mut bench = laid_out(2, 0, (0, 64), 2);
    bench.places[0].start = 5;
    bench.places[1].node = 7;
    assert_eq!(bench.total(), 5 * 2 + 7);
    bench.places.swap(0, 1);
    assert_eq!(bench.total(), 7 * 2 + 5);
}

/// 01-scope, Refusal numbers, 7: over 256 lines, wrong lengths; a refused call keeps all; 8 at a start.
#[test]
fn refusals() {
    let report = "05b4 0a0000000009 0a00000000010001";
    let laid = "box 4 0 0 40 101\n";
    assert!(text(&format!("{laid}at 0: {report}\n")).contains("  refused 7, kept; box 4"));
    for lengths in [
        "ff 100 100 100 100 9",
        "100 101 100 100 100 9",
        "100 100 1 100 100 9",
        "100 100 100 0 100 9",
        "100 100 100 100 ff 9",
        "100 100 100 100 0 9",
        "100 100 100 100 100 8",
        "100 100 100 100 100 0",
        "100 100 100 100 101 9",
        "100 100 100 100 100 a",
    ] {
        let file = format!("start 4 0\nlent {lengths} 0: {report}\n");
        assert!(text(&file).contains("  refused 7, kept; box 4"));
    }
    assert!(
        text("start 4 0\nlent 100 100 100 100 100 9 1: 0594 0a0000000009 01\n")
            .contains("refused 1, kept")
    );
    assert!(text("start 9 0\n").ends_with("  refused 8; box 0 0 0000000000000000 40 0\n"));
    assert!(text("start 9\n").ends_with("  line 1: cannot be read\n"));
}

/// 02, W2: a node's lines at two ports go by its restart at a third, the rest keep their order, and the open mark stays.
#[test]
fn a_board_that_moves() {
    let laid = "box 4 8 0100000000000000 10 6\nlines 0 5 1 1 0a0000000007 5 0 1\nlines 1 5 2 2 0a0000000008 5 0 1\nlines 4 4 1 3 0a0000000007 9 0 0\n";
    let restarted = "at 0: 0110 0a0000000007 0a0000000007\n";
    let expected = "  0111; box 4 8 0100000000000000 10 3
    0: 2 0a0000000008 0000000000000005 0
    1: 2 0a0000000008 0000000000000006 0
    2: 2 0a0000000008 0000000000000007 0
    order 0 1 2; sets 0 0 1 0 0 0 0 0 0
";
    assert!(text(&format!("{laid}{restarted}")).ends_with(expected));
}

/// 02, W4: an event inside a block is not stored, and a block replaces what it holds, wherever that stands; the given table has a nested line.
#[test]
fn covered_and_replaced() {
    let laid = "box 4 0 0100000000000000 10 4\nlines 0 0 1 1 0a0000000007 4 0 0\nlines 1 1 1 2 0a0000000007 4 0 0\nlines 2 2 1 1 0a0000000007 4 1 0\nlines 3 3 1 1 0a0000000008 4 0 0\n";
    let covered = "at 1: 04c5 0a0000000007 0000000000000005\n";
    let replacing = "at 1: 04a4 0a0000000007 0000000000000007\n";
    let expected = "  1011; box 4 0 0100000000000000 10 3
    0: 2 0a0000000007 0000000000000004 0
    1: 1 0a0000000008 0000000000000004 0
    2: 1 0a0000000007 0000000000000000 3
    order 1 2 0; sets 0 9 1 0 0 0 0 0 0
";
    let text = text(&format!("{laid}{covered}{replacing}"));
    assert!(text.contains("  1011; box 4 0 0100000000000000 10 4\n    0: 1 "));
    assert!(text.ends_with(expected));
}

/// 02, W1: each reason as it is printed, the line with its place, node and block, a refusal alone; the state stays.
#[test]
fn reasons() {
    let laid = "box 4 8 0100000000000000 10 b\nlines a a 1 2 0a0000000007 0a00000000010000 10 0\nlines 0 9 1 1 0a0000000001 5 0 0\n";
    let report = "05b4 0a0000000009 0a00000000010001";
    for (asked, expected) in [
        (format!("why 0 0: {report}"), "reason 1"),
        (
            "why 0 2: 05b4 0a0000000009 0100000000000000".to_string(),
            "reason 2",
        ),
        (format!("why 0 3: {report}"), "reason 3"),
        (
            format!("why 0 2: {report}"),
            "reason 4; line a 0a0000000007 0a00000000010000 10",
        ),
        (format!("why 0 1: {report}"), "reason 5"),
        (
            format!("why 100 100 100 100 100 9 0 1: {report}"),
            "reason 5",
        ),
        (
            format!("why 100 101 100 100 100 9 0 1: {report}"),
            "refused 7",
        ),
        (
            format!("why 100 100 100 100 100 8 0 1: {report}"),
            "refused 7",
        ),
        (
            format!("why 100 100 100 100 ff 9 0 1: {report}"),
            "refused 7",
        ),
        (
            format!("why ff 100 100 100 100 9 0 4: {report}"),
            "refused 7",
        ),
        (format!("why 0 4: {report}"), "refused 8"),
        (
            "why 0 1: 04c4 0a0000000009 0a00000000010001".to_string(),
            "refused 15",
        ),
        ("why 0: 05".to_string(), "line 4: cannot be read"),
    ] {
        let file = format!("{laid}{asked}\n");
        assert_eq!(text(&file), format!("{file}  {expected}\n"));
    }
}

/// CASE-FILES: `box` and `lines` lay the index out anew, and the numbers of lines past the count are not in it; `start` empties it.
#[test]
fn the_index_laid_out() {
    let report = "at 0: 05b4 0a0000000009 0000000000000063\n";
    let laid = "box 4 0 0 1 3\nlines 0 ff 1 1 0a0000000007 9 0 0\nlines 1 1 1 1 0a0000000007 4 2 0\nlines 2 2 1 0 0a0000000007 0 40 0\n";
    let index = "    order 2 0 1; sets 0 5 0 0 0 0 0 0 1\n";
    assert!(text(&format!("{laid}{report}")).ends_with(index));
    let again = "order 0 5\nsets 1 7\nlines 5 5 1 1 0a0000000007 4 2 0\n";
    assert!(text(&format!("{laid}{again}{report}")).ends_with(index));
    let empty = "    order; sets 0 0 0 0 0 0 0 0 0\n";
    assert!(text(&format!("{laid}start 4 0\n{report}")).ends_with(empty));
    assert!(text(&format!("box 4 0 0 1 0\n{report}")).ends_with(empty));
}

/// CASE-FILES: places of `order` and `sets` modulo their number; places past the count change no answer, and a refusal keeps them; any other is 7.
#[test]
fn the_index_changed() {
    let laid = "box 4 0 0 1 2\nlines 0 1 1 1 0a0000000007 9 0 0\n";
    let report = "at 0: 05b4 0a0000000009 0000000000000009\n";
    let after = |changed: &str| text(&format!("{laid}{changed}{report}"));
    let shown = |order: &str, sets: &str| format!("    order {order}; sets {sets} 0 0 0 0 0 0 0\n");
    for changed in [
        "",
        "order 2 ff\n",
        "order 102 0\norder ff 1\n",
        "order 101 101\n",
    ] {
        assert!(after(changed).contains("  0100; box 4"), "{changed}");
        assert!(after(changed).ends_with(&shown("0 1", "0 1")), "{changed}");
    }
    for (changed, order, sets) in [
        ("order 1 0\n", "0 0", "0 1"),
        ("order 100 1\norder 101 0\n", "1 0", "0 1"),
        ("order 1 2\n", "0 2", "0 1"),
        ("sets 1 0\n", "0 1", "0 0"),
        ("sets a 3\n", "0 1", "0 3"),
        ("sets 0 8000000000000000\n", "0 1", "8000000000000000 1"),
    ] {
        assert!(
            after(changed).contains("  refused 7, kept; box 4"),
            "{changed}"
        );
        assert!(after(changed).ends_with(&shown(order, sets)), "{changed}");
    }
    assert!(after("order 1\n").contains("  line 3: cannot be read"));
    assert!(after("sets 1 2 3\n").contains("  line 3: cannot be read"));
}

/// CASE-FILES, `kept`: the total of all places changes with any number of the index.
#[test]
fn totals_of_the_index() {
    let mut bench = laid_out(2, 0, (0, 64), 0);
    assert_eq!(bench.total_of_all_places(), 0);
    bench.order[255] = 3;
    bench.sets[0] = 2;
    bench.sets[8] = 5;
    assert_eq!(bench.total_of_all_places(), 3 + 2 * 9 + 5);
    bench.order[0] = 1;
    bench.places[254].start = 4;
    assert_eq!(bench.total_of_all_places(), 3 + 2 * 9 + 5 + 256 + 4 * 2);
}
