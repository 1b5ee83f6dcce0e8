//! Boards that move legs (02, W2).

use super::*;

/// An announcement of an event at a port.
fn announced(gateway: &mut Gateway, port: u32, node: u64, event: u64) {
    sent(gateway, port, &message(0x04C7, node, event));
}

/// The restart of a node at a port.
fn restarted(gateway: &mut Gateway, port: u32, node: u64) {
    sent(gateway, port, &message(0x0100, node, 0));
}

/// The ports that get a report of the event which arrives at a port.
fn reported(gateway: &mut Gateway, port: u32, event: u64) -> Vec<u32> {
    sent(gateway, port, &message(0x05B4, 1, event))
}

/// The line of one event.
fn line(port: u32, node: u64, start: u64) -> Line {
    Line {
        port,
        node,
        start,
        k: 0,
    }
}

/// 02, W2, the club's case, with either MTI: board 7 goes from leg 1 to leg 3, and its report goes to leg 3 only.
#[test]
fn a_board_moves() {
    for mti in [0x0100, 0x0110] {
        let mut four = gateway(4);
        announced(&mut four, 1, 7, EVENT);
        assert_eq!(reported(&mut four, 0, EVENT), [1]);
        assert_eq!(sent(&mut four, 3, &message(mti, 7, 0)), [0, 1, 2]);
        assert!(four.lines.is_empty());
        assert!(reported(&mut four, 0, EVENT).is_empty());
        announced(&mut four, 3, 7, EVENT);
        assert_eq!(reported(&mut four, 0, EVENT), [3]);
        assert_eq!(four.lines, [line(3, 7, EVENT)]);
    }
}

/// 02, W2, "at every port": a node's lines at four ports, singles and a range, go by its restart at a fifth; the rest keep their order.
#[test]
fn lines_at_every_port() {
    let mut eight = gateway(8);
    for port in 0..4 {
        announced(&mut eight, port, 7, EVENT);
        announced(&mut eight, 3 - port, 9, EVENT + u64::from(port));
    }
    sent(&mut eight, 2, &message(0x04A4, 7, 7));
    announced(&mut eight, 7, 9, EVENT);
    assert_eq!(eight.lines.len(), 10);
    restarted(&mut eight, 6, 7);
    let left = [
        line(3, 9, EVENT),
        line(2, 9, EVENT + 1),
        line(1, 9, EVENT + 2),
        line(0, 9, EVENT + 3),
        line(7, 9, EVENT),
    ];
    assert_eq!(eight.lines, left);
    assert!(reported(&mut eight, 6, 5).is_empty());
}

/// 02, W2, "Two boards that share a Node ID": either one's restart takes both boards' lines; other nodes' lines stay in order.
#[test]
fn two_boards_with_one_node_id() {
    for port in [1, 2] {
        let mut four = gateway(4);
        announced(&mut four, 1, 9, EVENT);
        announced(&mut four, 1, 7, EVENT + 1);
        announced(&mut four, 2, 8, EVENT);
        announced(&mut four, 2, 7, EVENT + 2);
        announced(&mut four, 3, 9, EVENT);
        restarted(&mut four, port, 7);
        let others = [line(1, 9, EVENT), line(2, 8, EVENT), line(3, 9, EVENT)];
        assert_eq!(four.lines, others);
        assert!(reported(&mut four, 0, EVENT + 1).is_empty());
        assert!(reported(&mut four, 0, EVENT + 2).is_empty());
        announced(&mut four, 1, 7, EVENT + 1);
        announced(&mut four, 2, 7, EVENT + 2);
        assert_eq!(reported(&mut four, 0, EVENT + 1), [1]);
        assert_eq!(reported(&mut four, 0, EVENT + 2), [2]);
        assert_eq!(reported(&mut four, 0, EVENT), [1, 2, 3]);
    }
}

/// 00-order, demand 3, "No node's message removes another node's line": neighbouring Node IDs, and such as differ in a high bit only, keep theirs.
#[test]
fn near_node_ids() {
    let node = 0x0A0000000007;
    let near = [node - 1, node + 1, node ^ 1 << 32, node ^ 1 << 47];
    let mut four = gateway(4);
    for other in near {
        announced(&mut four, 1, other, EVENT);
        announced(&mut four, 1, node, EVENT);
        announced(&mut four, 3, other, EVENT);
    }
    restarted(&mut four, 3, node);
    let kept = near.map(|other| [line(1, other, EVENT), line(3, other, EVENT)]);
    assert_eq!(four.lines, kept.concat());
    assert_eq!(reported(&mut four, 0, EVENT), [1, 3]);
}

/// 01-scope, Gateway, "An open mark stays", with 02, W2: also where the node restarts elsewhere; the freed lines are used again.
#[test]
fn an_open_mark_stays() {
    let mut four = gateway(4);
    for event in 0..256 {
        announced(&mut four, 1, 7, EVENT + event);
    }
    announced(&mut four, 2, 9, EVENT);
    assert_eq!(four.open, BTreeSet::from([2]));
    restarted(&mut four, 3, 9);
    assert_eq!((four.lines.len(), four.open.len()), (256, 1));
    restarted(&mut four, 3, 7);
    assert!(four.lines.is_empty());
    assert_eq!(four.open, BTreeSet::from([2]));
    assert_eq!(reported(&mut four, 0, EVENT), [2]);
    announced(&mut four, 3, 7, EVENT);
    assert_eq!(four.lines, [line(3, 7, EVENT)]);
    assert_eq!(reported(&mut four, 0, EVENT), [2, 3]);
}

/// A refused restart takes nothing, at whichever port (00-order, demand 1).
#[test]
fn a_refused_restart() {
    let mut four = gateway(4);
    announced(&mut four, 1, 7, EVENT);
    let before = four.clone();
    let complete = message(0x0100, 7, 0);
    assert_eq!(four.receive(4, &complete).refusal, 8);
    assert_eq!(four.receive(3, &complete[..13]).refusal, 4);
    let other_content = [&complete[..8], &node_id_bytes(8)].concat();
    assert_eq!(four.receive(3, &other_content).refusal, 5);
    assert_eq!(four, before);
}

/// The messages that two histories share: announcements, which go to one port, and restarts.
fn shared_messages(dice: &mut Dice) -> Vec<Vec<u8>> {
    let mut messages = Vec::new();
    for _ in 0..5 + dice.roll(30) {
        let mti = [0x04C4, 0x04C5, 0x04C7, 0x04A4, 0x0100, 0x0110][dice.roll(6) as usize];
        messages.push(message(mti, 7 + dice.roll(3), EVENT + dice.roll(8)));
    }
    messages
}

/// A message that the sharing rule does not compare: an announcement at another port than p, a report or another message, or one that is refused.
fn unshared(dice: &mut Dice, gateway: &mut Gateway, p: u32) {
    let at_p = dice.roll(2) == 0;
    let port = if at_p {
        p
    } else {
        (p + 1 + dice.roll(3) as u32) % 4
    };
    let mtis: &[u16] = match at_p {
        true => &[0x05B4, 0x0F14, 0x04C6, 0x0544, 0x0490],
        false => &[0x05B4, 0x04C6, 0x04C4, 0x04C5, 0x04C7, 0x04A4],
    };
    let (node, event) = (7 + dice.roll(3), EVENT + dice.roll(8));
    if dice.roll(3) == 0 {
        let mti = [0x04C4, 0x04A4, 0x0100, 0x0110][dice.roll(4) as usize];
        let mut bytes = message(mti, node, event);
        bytes.pop();
        assert_ne!(gateway.receive(port, &bytes).refusal, 0);
        return;
    }
    let mti = mtis[dice.roll(mtis.len() as u64) as usize];
    sent(gateway, port, &message(mti, node, event));
}

/// A box after the shared messages, the announcements at port p and each restart at a port drawn anew, with others in between.
fn shared_history(dice: &mut Dice, p: u32, shared: &[Vec<u8>]) -> Gateway {
    let mut gateway = gateway(4);
    for bytes in shared {
        for _ in 0..dice.roll(3) {
            unshared(dice, &mut gateway, p);
        }
        let restart = message::is_initialization_complete(&message::read(bytes).unwrap());
        let port = if restart { dice.roll(4) as u32 } else { p };
        sent(&mut gateway, port, bytes);
    }
    assert!(gateway.open.is_empty());
    gateway
}

/// 01-scope, Sharing, with 02, W2: the same announcements at p and the same restarts of all ports, in the same order, so the same answer for p. W2 can
/// be read as comparing the restarts with their ports or without; here it is without, which takes in the other reading. With the same ports the restarts
/// at p would be the same too, and the base, where a restart took lines at its own port only, would agree as well: restarts at different ports tell.
#[test]
fn sharing() {
    let mut dice = Dice(88172645463325252);
    let mut answers = [0; 2];
    for _ in 0..300 {
        let p = dice.roll(4) as u32;
        let shared = shared_messages(&mut dice);
        let mut first = shared_history(&mut dice, p, &shared);
        let mut second = shared_history(&mut dice, p, &shared);
        for event in EVENT - 1..EVENT + 9 {
            for arrival in (0..4).filter(|arrival| *arrival != p) {
                let answer = reported(&mut first, arrival, event).contains(&p);
                assert_eq!(reported(&mut second, arrival, event).contains(&p), answer);
                answers[usize::from(answer)] += 1;
            }
        }
    }
    assert!(answers.iter().all(|times| *times > 1000), "{answers:?}");
}

/// 02, W2, "now compares the Initialization Completes of all ports": what is the same at p alone, as the base had it, is no longer enough.
#[test]
fn the_same_at_one_port_is_not_enough() {
    let (mut stays, mut moves) = (gateway(4), gateway(4));
    announced(&mut stays, 2, 7, EVENT);
    announced(&mut moves, 2, 7, EVENT);
    restarted(&mut moves, 1, 7);
    assert_eq!(reported(&mut stays, 0, EVENT), [2]);
    assert!(reported(&mut moves, 0, EVENT).is_empty());
}
