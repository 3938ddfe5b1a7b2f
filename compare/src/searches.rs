//! What a random search for the nearest listed node brings: the node, the list and the hop limit.

use crate::memory::{Call, Memory};
use crate::plain::graph::Graph;
use crate::rng::Rng;

/// The nodes of a board by their distance from one of them; those that are not reached come in none of the layers.
pub fn layers(graph: &Graph, node: usize) -> Vec<Vec<usize>> {
    let mut layers = vec![vec![node]];
    let mut unseen: Vec<usize> = (0..graph.node_count()).filter(|&q| q != node).collect();
    loop {
        let last = &layers[layers.len() - 1];
        let (next, rest): (Vec<usize>, _) = unseen.iter().partition(|&&q| last.iter().any(|&p| graph.has(p, q)));
        if next.is_empty() {
            return layers;
        }
        unseen = rest;
        layers.push(next);
    }
}

/// Some of the nodes, at least one where there is one.
fn some(rng: &mut Rng, nodes: &[usize]) -> Vec<usize> {
    let mut some = nodes.to_vec();
    rng.shuffle(&mut some);
    some.truncate(rng.between(1, 6));
    some
}

/// The listed nodes, before some are repeated: none, one, some or many of any, of those that are not reached, of one
/// layer or of it and the later ones, often the last layer.
fn list(rng: &mut Rng, n: usize, layers: &[Vec<usize>]) -> Vec<usize> {
    let all: Vec<usize> = (0..n).collect();
    let first = if rng.chance(50) { layers.len() - 1 } else { rng.below(layers.len()) };
    match rng.below(20) {
        0..=1 => Vec::new(),
        2..=3 => vec![rng.pick(&all)],
        4..=6 => some(rng, &all),
        7 => all.into_iter().filter(|_| rng.chance(12)).collect(),
        8..=9 => {
            let reached = layers.concat();
            let unreached: Vec<usize> = all.into_iter().filter(|q| !reached.contains(q)).collect();
            some(rng, &unreached)
        }
        10..=12 => vec![rng.pick(&layers[first])],
        13..=16 => some(rng, &layers[first]),
        _ => [some(rng, &layers[first]), some(rng, &layers[first..].concat())].concat(),
    }
}

/// The list as it is lent: in any order, at times with the node itself, at times with some more than once.
fn lent(rng: &mut Rng, node: usize, mut list: Vec<usize>) -> Vec<u64> {
    if rng.chance(5) {
        list.push(node);
    }
    if !list.is_empty() && rng.chance(20) {
        for _ in 0..rng.pick(&[1, 3, 300]) {
            list.push(rng.pick(&list));
        }
    }
    rng.shuffle(&mut list);
    list.into_iter().map(|q| q as u64).collect()
}

/// A hop limit: mostly about the distance of the nearest listed node, where one is reached.
fn limit(rng: &mut Rng, distance: Option<usize>) -> u8 {
    let any = rng.next() as u8;
    let other = rng.pick(&[0, 1, 2, 3, 5, 254, 255, any]);
    match distance.and_then(|distance| u8::try_from(distance).ok()) {
        Some(distance) => match rng.below(20) {
            0..=6 => distance,
            7..=10 => distance.saturating_sub(1),
            11 => distance.saturating_add(1),
            12..=14 => 255,
            _ => other,
        },
        None => rng.pick(&[255, other]),
    }
}

/// The node of a search, any or one that is far from another, with its list and its limit.
pub fn bring_search(rng: &mut Rng, n: usize, memory: &mut Memory, call: &mut Call) {
    let graph = Graph::read(n, &memory.edges);
    let mut node = rng.below(n);
    let mut layers = self::layers(&graph, node);
    if rng.chance(50) {
        node = rng.pick(&layers[layers.len() - 1]);
        layers = self::layers(&graph, node);
    }
    let list = list(rng, n, &layers);
    memory.listed = lent(rng, node, list);
    call.a = node as u64;
    let is_listed = |&q: &usize| memory.listed.contains(&(q as u64));
    call.hops = limit(rng, layers.iter().position(|layer| layer.iter().any(is_listed)));
}

#[cfg(test)]
mod tests {
    use super::layers;
    use crate::boards::{node_count, state};
    use crate::damage::damage;
    use crate::generate::single_call;
    use crate::memory::{Call, Kind, Memory};
    use crate::plain::calls::Plain;
    use crate::plain::graph::Graph;
    use crate::plain::nearest::NONE;
    use crate::plain::paths;
    use crate::rng::Rng;

    const PLAIN: Plain = Plain { name: "plain", scorer: paths::score };

    /// A search with what it is lent, the nodes by their distance where it is not damaged, and its answer.
    struct Met {
        n: usize,
        call: Call,
        lent: Memory,
        layers: Vec<Vec<usize>>,
        answer: u64,
    }

    impl Met {
        /// The listed nodes at a distance, each once.
        fn listed_at(&self, distance: usize) -> Vec<usize> {
            let is_listed = |q: &usize| self.lent.listed.contains(&(*q as u64));
            self.layers[distance].iter().copied().filter(is_listed).collect()
        }

        /// The distance of the nearest listed nodes, where one is reached.
        fn distance(&self) -> Option<usize> {
            (0..self.layers.len()).find(|&distance| !self.listed_at(distance).is_empty())
        }

        /// The distance of what is found.
        fn found(&self) -> Option<usize> {
            (self.answer < NONE).then_some((self.answer >> 16) as usize)
        }

        fn limit(&self) -> usize {
            self.call.hops.into()
        }

        fn is_refused(&self, number: u64) -> bool {
            self.answer == number.wrapping_neg()
        }

        /// The only number of the list that is no node is such, and first, within the list or last.
        fn has_far(&self, place: Place, is_such: impl Fn(u64) -> bool) -> bool {
            let listed = &self.lent.listed;
            let mut far = (0..listed.len()).filter(|&at| listed[at] >= self.n as u64);
            let (Some(at), None) = (far.next(), far.next()) else {
                return false;
            };
            let there = match place {
                Place::First => at == 0,
                Place::Within => at > 0 && at + 1 < listed.len(),
                Place::Last => at + 1 == listed.len(),
            };
            there && listed.len() > 2 && is_such(listed[at])
        }

        /// No crowded node is within the limit.
        fn is_free_within_limit(&self) -> bool {
            let graph = Graph::read(self.n, &self.lent.edges);
            let layers = layers(&graph, self.call.a as usize);
            !layers.iter().take(self.limit() + 1).flatten().any(|&p| graph.is_crowded(p))
        }
    }

    /// A place in a list.
    #[derive(Clone, Copy, Debug)]
    enum Place {
        First,
        Within,
        Last,
    }

    /// Searches as they are generated, or after damage.
    fn searches(count: usize, damaged: bool) -> Vec<Met> {
        let mut rng = Rng::new(9);
        let mut one = |_| {
            let n = node_count(&mut rng);
            let mut lent = state(&mut rng, n);
            let mut call = single_call(&mut rng, n, &mut lent, Kind::Nearest);
            let layers = layers(&Graph::read(n, &lent.edges), call.a as usize);
            if damaged {
                damage(&mut rng, n, &mut lent, &mut call);
            }
            let answer = lent.clone().run(&PLAIN, call);
            Met { n, call, lent, layers, answer }
        };
        (0..count).map(&mut one).collect()
    }

    /// Of the searches at least so many are such.
    fn assert_met(searches: &[Met], fewest: usize, what: &str, is_so: impl Fn(&Met) -> bool) {
        let count = searches.iter().filter(|met| is_so(met)).count();
        assert!(count >= fewest, "{what}: {count}");
    }

    #[test]
    fn searches_meet_distances_and_limits() {
        let searches = searches(4_000, false);
        let met = |what: &str, is_so: &dyn Fn(&Met) -> bool| assert_met(&searches, 5, what, is_so);
        for (low, high) in [(0, 0), (1, 1), (2, 4), (5, 19), (20, 99), (100, 255)] {
            let within = |distance: Option<usize>| distance.is_some_and(|distance| (low..=high).contains(&distance));
            met("found below the limit", &|met| within(met.found()) && met.found() < Some(met.limit()));
            met("found at the limit", &|met| within(met.found()) && met.found() == Some(met.limit()));
            if high > 0 {
                let missed = |met: &Met| met.answer == NONE && met.distance() == Some(met.limit() + 1);
                met("none by one hop", &|met| within(met.distance()) && missed(met));
            }
        }
        met("none within 0 hops", &|met| met.answer == NONE && met.distance().is_some() && met.limit() == 0);
        met("none within 255 hops", &|met| met.answer == NONE && !met.lent.listed.is_empty() && met.limit() == 255);
    }

    #[test]
    fn searches_meet_lists() {
        let searches = searches(4_000, false);
        let met = |what: &str, is_so: &dyn Fn(&Met) -> bool| assert_met(&searches, 5, what, is_so);
        let tie = |met: &Met| met.found().is_some_and(|hops| met.listed_at(hops).len() > 1);
        let lower = |met: &Met| met.lent.listed.iter().any(|&q| q < met.answer % 65_536);
        let repeats =
            |met: &Met| (1..met.lent.listed.len()).any(|i| met.lent.listed[..i].contains(&met.lent.listed[i]));
        met("an empty list", &|met| met.lent.listed.is_empty() && met.answer == NONE);
        met("a list of one", &|met| met.lent.listed.len() == 1);
        met("the node itself and others", &|met| met.answer == met.call.a && met.lent.listed.len() > 1);
        met("a tie", &|met| tie(met) && met.found() > Some(0));
        met("a tie five hops away", &|met| tie(met) && met.found() > Some(4));
        met("a lower number that is farther", &|met| met.found().is_some() && lower(met));
        met("a tie and a lower number that is farther", &|met| tie(met) && lower(met));
        met("a number twice", &|met| met.found().is_some() && repeats(met));
        met("more numbers than nodes", &|met| met.found().is_some() && met.lent.listed.len() > met.n);
        met("a board of many edges", &|met| met.found() > Some(0) && met.layers[1].len() > 20);
    }

    #[test]
    fn damaged_searches_meet_every_refusal() {
        let searches = searches(8_000, true);
        let met = |what: &str, is_so: &dyn Fn(&Met) -> bool| assert_met(&searches, 1, what, is_so);
        met("refusal 1", &|met| met.is_refused(1));
        met("refusal 2", &|met| met.is_refused(2));
        met("refusal 4 of the node", &|met| met.is_refused(4) && met.call.a >= met.n as u64);
        met("refusal 11 of an empty list", &|met| met.is_refused(11) && met.lent.listed.is_empty());
        let whole = |met: &Met| met.call.n == met.n as u64;
        met("refusal 11 beyond the limit", &|met| met.is_refused(11) && whole(met) && met.is_free_within_limit());
        for place in [Place::First, Place::Within, Place::Last] {
            let listed = |what: &str, is_such: &dyn Fn(usize, u64) -> bool| {
                let has = |met: &Met| met.has_far(place, |number| is_such(met.n, number));
                met(&format!("{what} in a list, {place:?}"), &|met| met.is_refused(4) && has(met));
            };
            listed("n", &|n, number| number == n as u64);
            listed("n + 1", &|n, number| number == n as u64 + 1);
            listed("256", &|n, number| n < 255 && number == 256);
            listed("2^32", &|_, number| number == 1 << 32);
            listed("a node and 2^32", &|n, number| number > 1 << 32 && number < (1 << 32) + n as u64);
            listed("the largest number", &|_, number| number == u64::MAX);
        }
    }
}
