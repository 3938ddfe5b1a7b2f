//! A search for the nearest listed node against other searches of the same version: of the neighbours, within other
//! limits, with parts of the list, and with one more edge.

use crate::calls::Calls;
use crate::memory::{Call, Kind, Memory};
use crate::plain::graph::Graph;
use crate::plain::limits::MAX_DEGREE;
use crate::plain::nearest::NONE;
use crate::plain::packing::{pair_index, put_bit};

/// What an answer is more for each hop.
const HOP: u64 = 65_536;

/// An accepted search on a board, its list, and its answer.
struct Search<'a> {
    version: &'a dyn Calls,
    graph: Graph,
    call: Call,
    edges: &'a [u8],
    listed: &'a [u64],
    answer: u64,
}

impl Search<'_> {
    /// What the search answers from another node, with another list or within another limit.
    fn other(&self, node: u64, listed: &[u64], hops: u8) -> u64 {
        self.version.nearest(self.edges, self.call.n, node, listed, hops)
    }

    /// The node itself where it is listed, otherwise the least answer of its neighbours within a hop less, a hop more.
    fn by_neighbours(&self) -> u64 {
        let Call { a, hops, .. } = self.call;
        if self.listed.contains(&a) {
            return a;
        }
        let Some(fewer) = hops.checked_sub(1) else {
            return NONE;
        };
        let neighbours = self.graph.neighbours(a as usize);
        let answers = neighbours.iter().map(|&q| self.other(q as u64, self.listed, fewer));
        answers.filter(|&answer| answer != NONE).min().map_or(NONE, |answer| answer + HOP)
    }

    /// The least answer of the two halves of the list.
    fn by_halves(&self) -> u64 {
        let (first, second) = self.listed.split_at(self.listed.len() / 2);
        [first, second].map(|half| self.other(self.call.a, half, self.call.hops)).into_iter().min().unwrap_or(NONE)
    }

    /// What is found stays within its own hops and within 255, and is not found within one less. Where nothing is found
    /// within the limit, nothing is within 0, and what is within 255 is further.
    fn check_limits(&self) -> Result<(), String> {
        let [none, all] = [0, 255].map(|hops| self.other(self.call.a, self.listed, hops));
        let holds = if self.answer == NONE {
            none == NONE && (all == NONE || all / HOP > u64::from(self.call.hops))
        } else {
            let hops = (self.answer / HOP) as u8;
            let within = |hops: u8| self.other(self.call.a, self.listed, hops);
            let before = hops.checked_sub(1).map_or(NONE, within);
            all == self.answer && within(hops) == self.answer && before == NONE
        };
        due(holds, || format!("the answer: {}, {none} within 0 hops and {all} within 255", self.answer))
    }

    /// One more edge of the node, where the limit lets it in, makes no answer larger.
    fn check_edge(&self) -> Result<(), String> {
        let node = self.call.a as usize;
        let free = |p: usize| self.graph.degree(p) < MAX_DEGREE;
        let absent = |&q: &usize| q != node && !self.graph.has(node, q) && free(q) && free(node);
        let Some(q) = (0..self.graph.node_count()).rev().find(absent) else {
            return Ok(());
        };
        let mut edges = self.edges.to_vec();
        put_bit(&mut edges, pair_index(node, q), true);
        let answer = self.version.nearest(&edges, self.call.n, self.call.a, self.listed, self.call.hops);
        due(answer <= self.answer, || format!("the answer: {}, {answer} with the edge to {q}", self.answer))
    }
}

/// An error where something does not hold.
fn due(holds: bool, what: impl FnOnce() -> String) -> Result<(), String> {
    if holds {
        Ok(())
    } else {
        Err(what())
    }
}

/// An accepted search agrees with the other searches. Calls of other kinds pass.
pub fn check(version: &dyn Calls, call: Call, before: &Memory, _: &Memory, answer: u64) -> Result<(), String> {
    if call.kind != Kind::Nearest || call.kind.refusal(answer) != 0 {
        return Ok(());
    }
    let graph = Graph::read(call.n as usize, &before.edges);
    let search = Search { version, graph, call, edges: &before.edges, listed: &before.listed, answer };
    let found = search.by_neighbours();
    due(found == answer, || format!("the answer: {answer}, {found} by the neighbours"))?;
    let found = search.by_halves();
    due(found == answer, || format!("the answer: {answer}, {found} by the halves of the list"))?;
    search.check_limits()?;
    search.check_edge()
}
