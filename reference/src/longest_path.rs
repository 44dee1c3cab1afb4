//! A longest path through the points of a chase, from the start to the end of the victim's operation.

use std::collections::{HashMap, VecDeque};

use crate::longest::Counted;

/// The places of the transitions along a path that attains the greatest count, from point `from` on.
pub fn longest_path(graph: &impl Counted, longest: &[u32], from: usize) -> Vec<usize> {
    let mut path = Vec::new();
    let mut point = from;
    while graph.is_pending(point) {
        let (places, target) = to_next_own_step(graph, longest, point);
        path.extend(places);
        point = target;
    }
    path
}

/// The shortest way over transitions without own steps to one with own steps, such that the whole count is attained.
fn to_next_own_step(graph: &impl Counted, longest: &[u32], from: usize) -> (Vec<usize>, usize) {
    let mut reached_by: HashMap<usize, (usize, usize)> = HashMap::new();
    let mut queue = VecDeque::from([from]);
    while let Some(point) = queue.pop_front() {
        let mut place = 0;
        while let Some((target, own_steps)) = graph.transition(point, place) {
            if own_steps > 0 && longest[target] + own_steps == longest[from] {
                let mut places = way_back(&reached_by, from, point);
                places.push(place);
                return (places, target);
            }
            let goes_on = own_steps == 0 && longest[target] == longest[from];
            if goes_on && target != from && !reached_by.contains_key(&target) {
                reached_by.insert(target, (point, place));
                queue.push_back(target);
            }
            place += 1;
        }
    }
    unreachable!("the count of a point is attained by a path")
}

fn way_back(reached_by: &HashMap<usize, (usize, usize)>, from: usize, to: usize) -> Vec<usize> {
    let mut places = Vec::new();
    let mut point = to;
    while point != from {
        let (before, place) = reached_by[&point];
        places.push(place);
        point = before;
    }
    places.reverse();
    places
}
