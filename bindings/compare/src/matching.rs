//! Lines that two texts have in common.

use std::collections::HashMap;
use std::ops::Range;

/// Places of equal lines: of the one text, and of the other.
pub type Pair = (usize, usize);

/// Returns the pairs of equal lines by a patience diff, in order: lines at the start and the end of both texts, then those that are in
/// each text once, and so on between these.
pub fn pairs(ours: &[String], theirs: &[String]) -> Vec<Pair> {
    let mut pairs = Vec::new();
    let mut open = vec![(0..ours.len(), 0..theirs.len())];
    while let Some((our, their)) = open.pop() {
        let (our, their) = without_ends(ours, theirs, our, their, &mut pairs);
        let anchors = in_order(unique_pairs(ours, theirs, our.clone(), their.clone()));
        let (mut our_start, mut their_start) = (our.start, their.start);
        for &(our_place, their_place) in &anchors {
            open.push((our_start..our_place, their_start..their_place));
            (our_start, their_start) = (our_place + 1, their_place + 1);
        }
        if !anchors.is_empty() {
            open.push((our_start..our.end, their_start..their.end));
        }
        pairs.extend(anchors);
    }
    pairs.sort_unstable();
    pairs
}

/// Appends the pairs of equal lines at the starts and the ends of two ranges. Returns the rest of both.
fn without_ends(
    ours: &[String],
    theirs: &[String],
    mut our: Range<usize>,
    mut their: Range<usize>,
    pairs: &mut Vec<Pair>,
) -> (Range<usize>, Range<usize>) {
    while !our.is_empty() && !their.is_empty() && ours[our.start] == theirs[their.start] {
        pairs.push((our.start, their.start));
        (our.start, their.start) = (our.start + 1, their.start + 1);
    }
    while !our.is_empty() && !their.is_empty() && ours[our.end - 1] == theirs[their.end - 1] {
        (our.end, their.end) = (our.end - 1, their.end - 1);
        pairs.push((our.end, their.end));
    }
    (our, their)
}

/// Returns the pairs of lines that are in each range once, in the order of the one.
fn unique_pairs(ours: &[String], theirs: &[String], our: Range<usize>, their: Range<usize>) -> Vec<Pair> {
    let places = |lines: &[String], range: Range<usize>| {
        let mut places: HashMap<String, Option<usize>> = HashMap::new();
        for place in range {
            places.entry(lines[place].clone()).and_modify(|known| *known = None).or_insert(Some(place));
        }
        places
    };
    let (our_places, their_places) = (places(ours, our.clone()), places(theirs, their));
    our.filter(|&place| our_places[&ours[place]].is_some()).filter_map(|place| Some((place, (*their_places.get(&ours[place])?)?))).collect()
}

/// Returns a longest selection of pairs whose places increase in both texts, of pairs in the order of the one.
fn in_order(pairs: Vec<Pair>) -> Vec<Pair> {
    // the last pair of the best selection of each length, and the pair before each one in its selection
    let (mut ends, mut before): (Vec<usize>, Vec<Option<usize>>) = (Vec::new(), Vec::new());
    for (number, &(_, place)) in pairs.iter().enumerate() {
        let length = ends.partition_point(|&end| pairs[end].1 < place);
        before.push(length.checked_sub(1).map(|shorter| ends[shorter]));
        ends.truncate(ends.len().max(length));
        match ends.get_mut(length) {
            Some(end) => *end = number,
            None => ends.push(number),
        }
    }
    let mut next = ends.last().copied();
    let mut chosen = Vec::new();
    while let Some(number) = next {
        chosen.push(pairs[number]);
        next = before[number];
    }
    chosen.reverse();
    chosen
}

#[cfg(test)]
mod tests {
    use super::*;

    fn found(ours: &str, theirs: &str) -> Vec<Pair> {
        let lines = |text: &str| text.split(' ').map(str::to_owned).collect::<Vec<_>>();
        pairs(&lines(ours), &lines(theirs))
    }

    #[test]
    fn equal_lines_are_paired() {
        assert_eq!(found("a b c", "a b c"), [(0, 0), (1, 1), (2, 2)]);
        assert_eq!(found("a x b c", "a b y c"), [(0, 0), (2, 1), (3, 3)]);
        assert_eq!(found("a - b - c", "z - b - y"), [(1, 1), (2, 2), (3, 3)]);
        assert_eq!(found("p a b c q", "r c a b s"), [(1, 2), (2, 3)]);
        assert_eq!(found("a", "b"), []);
    }
}
