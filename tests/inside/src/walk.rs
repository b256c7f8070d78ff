//! The walk through the boxes, from items 5 and 9 and refusal 15 alone: over any tables.

use crate::calls::{Rect, Search};
use capi::exports::Shown;
use capi::prepared::node_count;

/// The most edges of a node that is not cut, and the most nodes that may wait.
const LEAF: usize = 8;
const WAITING: usize = 18;

/// Whether a box is entered.
pub fn enters(search: Search, held: Rect, rect: Rect) -> bool {
    match search {
        Search::Meeting => (0..2).all(|j| held[j] <= rect[j + 2] && rect[j] <= held[j + 2]),
        Search::Holding => {
            let holds = |j: usize, value: i64| held[j] <= value && value <= held[j + 2];
            (0..2).all(|j| holds(j, rect[j]) && holds(j, rect[j + 2]))
        }
    }
}

/// The edges that come, in their order, and whether the walk ends (or is refused with 15).
pub fn walk(shown: Shown, n: usize, search: Search, rect: Rect) -> (Vec<usize>, bool) {
    let mut found = Vec::new();
    let ended = go(shown, n, search, rect, &mut found).is_some();
    (found, ended)
}

fn go(shown: Shown, n: usize, search: Search, rect: Rect, found: &mut Vec<usize>) -> Option<()> {
    let nodes = node_count(n);
    let mut waiting = vec![0];
    let mut met = 0;
    while let Some(place) = waiting.pop() {
        if met == nodes || place >= nodes {
            return None;
        }
        met += 1;
        let [first, count, child] = shown.parts[place];
        let end = first.checked_add(count).filter(|&end| end <= n)?;
        if !enters(search, shown.boxes[place], rect) {
            continue;
        }
        if count > LEAF {
            if child.checked_add(1)? >= nodes || waiting.len() + 2 > WAITING {
                return None;
            }
            waiting.extend([child + 1, child]);
            continue;
        }
        for &edge in &shown.edges[first..end] {
            if edge >= n {
                return None;
            }
            found.push(edge);
        }
    }
    Some(())
}
