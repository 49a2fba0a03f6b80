//! The search over the trees, in whole branches.
//!
//! The trees are gone through in their order, component by component. All trees that begin with the same links are a branch. How many they are is counted, and what they
//! cost at least is bounded, so that a branch that cannot have the first tree of least cost is passed over as a whole.

use super::balance::{Balance, Potentials};
use super::count::{completions, merged, sources, EntryCounts};
use super::Steps;
use crate::plan::MOST_PARTS;

/// A link into a component.
#[derive(Clone, Copy, Debug)]
pub struct Candidate {
    pub tail: usize,
    pub head: usize,
    /// The unit that evens the link out, by the places of its ends.
    pub from: usize,
    pub to: usize,
    /// The component that it comes from.
    pub parent: usize,
    pub length: i64,
}

/// What trying the trees found.
pub struct Found {
    /// The first tree of least cost among those tried, as pairs of (tail, head), and its cost.
    pub links: Vec<(usize, usize)>,
    pub cost: i64,
    pub tried: u64,
    pub whole: bool,
}

/// Potentials without a negative reduced cost, and what they say that balancing a state costs: no more than it does.
struct Prices {
    u: Potentials,
    value: i64,
}

impl Prices {
    /// What they say of the state without a link.
    fn without(self, link: &Candidate) -> Prices {
        Prices { value: self.value - (self.u[link.from] - self.u[link.to]), ..self }
    }
}

/// What prices say of the trees of a branch.
struct Bound {
    prices: Prices,
    /// What a tree costs at least, but for the link of the next component.
    beside: i64,
}

impl Bound {
    fn of(&self, link: &Candidate) -> i64 {
        self.beside + reduced(&self.prices.u, link)
    }
}

/// What a link costs at least, with the unit that evens it out.
fn reduced(u: &Potentials, link: &Candidate) -> i64 {
    link.length + u[link.from] - u[link.to]
}

/// What the trees of a branch share: the components below some component have chosen their links.
struct Branch<'a> {
    /// R and the d of the links that are chosen.
    fixed: i64,
    /// The required arcs and those links, balanced.
    state: Balance<'a>,
    /// What each component has become one with: one that has chosen, with the component that its link comes from.
    names: [usize; MOST_PARTS],
    /// The entries between the components that are left.
    entries: EntryCounts,
}

impl<'a> Branch<'a> {
    /// What the state's own potentials say.
    fn own_prices(&self) -> Prices {
        Prices { u: *self.state.potentials(), value: self.state.cost }
    }

    /// What prices say of the trees, by the least link of each component behind the next.
    fn bound(&self, prices: Prices, behind: &[Vec<Candidate>]) -> Bound {
        let least = |links: &Vec<Candidate>| links.iter().map(|link| reduced(&prices.u, link)).min();
        let beside = self.fixed + prices.value + behind.iter().filter_map(least).sum::<i64>();
        Bound { prices, beside }
    }

    /// How many trees of the branch enter component a from each other.
    fn counts(&self, a: usize, parts: usize) -> [u64; MOST_PARTS] {
        let mut counts = [0; MOST_PARTS];
        for p in sources(a, parts).filter(|&p| self.entries[a][p] != 0) {
            counts[p] = completions(&merged(&self.entries, a, p, parts), a + 1, parts);
        }
        counts
    }

    /// The trees of the branch in which component a is entered by a link.
    fn enter<S: Steps>(&self, steps: &S, a: usize, parts: usize, link: &Candidate) -> Branch<'a> {
        let p = self.names[link.parent];
        Branch {
            fixed: self.fixed + link.length,
            state: steps.balanced_with(&self.state, link),
            names: self.names.map(|name| if name == a { p } else { name }),
            entries: merged(&self.entries, a, p, parts),
        }
    }
}

struct Search<'a, S> {
    steps: &'a S,
    candidates: &'a [Vec<Candidate>],
    /// How many trees are tried in all, and how many of them are left.
    tried: u64,
    left: u64,
    best: i64,
    links: Vec<(usize, usize)>,
    /// The links that the branch has chosen.
    chosen: Vec<(usize, usize)>,
}

impl<S: Steps> Search<'_, S> {
    /// Goes through the trees of a branch, in which the components below a have chosen. It leaves the prices of the last branch in it that has one component left: each link that was tried
    /// there has brought them up, and they bound the branches beside it well.
    fn branch(&mut self, a: usize, mut branch: Branch) -> Option<Prices> {
        let candidates = self.candidates;
        let parts = candidates.len();
        if a == parts {
            self.tree(branch.fixed + branch.state.cost);
            return None;
        }
        let behind = &candidates[a + 1..];
        let counts = branch.counts(a, parts);
        let mut own = branch.bound(branch.own_prices(), behind);
        let mut last: Option<Bound> = None;
        for link in &candidates[a] {
            if self.left == 0 {
                return None;
            }
            let trees = counts[branch.names[link.parent]];
            if trees == 0 {
                continue;
            }
            let bound = last.as_ref().unwrap_or(&own).of(link);
            if self.steps.is_hopeless(bound, self.best) {
                self.left -= trees.min(self.left);
            } else {
                let below = branch.enter(self.steps, a, parts, link);
                if behind.is_empty() {
                    // The potentials that come of adding a link are good ones for the links beside it.
                    branch.state.set_potentials(below.state.potentials());
                    own = branch.bound(branch.own_prices(), behind);
                }
                self.chosen.push((link.tail, link.head));
                let prices = self.branch(a + 1, below);
                self.chosen.pop();
                last = prices.map(|prices| branch.bound(prices.without(link), behind));
            }
        }
        Some(last.unwrap_or(own).prices)
    }

    /// A tree is complete.
    fn tree(&mut self, cost: i64) {
        let place = self.tried - self.left;
        self.left -= 1;
        if self.steps.considers(place) && cost < self.best {
            self.best = cost;
            self.links = self.chosen.clone();
        }
    }
}

/// Tries the trees in order up to the budget. The state is that of the required arcs, and its potentials decide how good the bounds are.
pub fn try_trees<S: Steps>(
    steps: &S,
    candidates: &[Vec<Candidate>],
    required_cost: i64,
    state: Balance,
    budget: u64,
) -> Found {
    let mut entries = EntryCounts::default();
    for (q, links) in candidates.iter().enumerate() {
        links.iter().for_each(|link| entries[q][link.parent] += 1);
    }
    let all = completions(&entries, 1, candidates.len());
    let tried = all.min(budget);
    let (links, chosen) = (Vec::new(), Vec::new());
    let mut search = Search { steps, candidates, tried, left: tried, best: i64::MAX, links, chosen };
    let names = std::array::from_fn(|q| q);
    search.branch(1, Branch { fixed: required_cost, state, names, entries });
    Found { links: search.links, cost: search.best, tried, whole: all <= budget }
}
