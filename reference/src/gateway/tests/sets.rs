//! What is covered, by sets of events (02, W4).

use super::covers::{announced, given, line};
use super::*;

/// The events of a line among the first 16, one by one.
fn events(line: &Line) -> BTreeSet<u64> {
    let held = |event: &u64| holds((line.start, line.k), *event);
    (0..16).filter(held).collect()
}

/// 02, W4, in the words of sets of events: random blocks among 16 events, at tables that need not come from a start, full and nearly full ones among them. What a
/// port gets only ever grows by what is announced, or not at all.
#[test]
fn by_sets_of_events() {
    let mut dice = Dice(88172645463325252);
    let any_line = |dice: &mut Dice| {
        let k = dice.roll(5) as u32;
        let start = dice.roll(16) >> k << k;
        line(1 + dice.roll(2) as u32, 7 + dice.roll(2), (start, k))
    };
    let mut times = [0; 4];
    for _ in 0..4_000 {
        let count = [0, 1, 3, 6, 255, 256][dice.roll(6) as usize];
        let mut lines: Vec<Line> = (0..count).map(|_| any_line(&mut dice)).collect();
        if count > 200 && dice.roll(2) == 0 {
            // Only a few are left of the port and node that announces.
            lines.iter_mut().skip(3).for_each(|line| line.node = 9);
        }
        let mut four = given(lines);
        let new = any_line(&mut dice);
        let before = four.clone();
        announced(&mut four, new.port, new.node, (new.start, new.k));
        let own = |line: &&Line| (line.port, line.node) == (new.port, new.node);
        let covers = |line: &Line| events(line).is_superset(&events(&new));
        let is_held = |line: &Line| events(line).is_subset(&events(&new));
        let (mut expected, mut open) = (before.lines.clone(), BTreeSet::new());
        let way = if before.lines.iter().filter(own).any(covers) {
            0
        } else if before.lines.iter().filter(own).any(is_held) {
            expected.retain(|line| !own(&line) || !is_held(line));
            expected.push(new);
            1
        } else if count < 256 {
            expected.push(new);
            2
        } else {
            open.insert(new.port);
            3
        };
        assert_eq!((&four.lines, &four.open), (&expected, &open));
        times[way] += 1;
        let wanted = |gateway: &Gateway, event| gateway.wants(new.port, event);
        for event in 0..20 {
            let asked = wanted(&before, event) || way == 3 || holds((new.start, new.k), event);
            assert_eq!(wanted(&four, event), asked);
        }
    }
    assert!(times.iter().all(|times| *times > 100), "{times:?}");
}
