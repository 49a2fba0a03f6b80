//! The deep call, round by round: a list of all rounds, and what is the best in it.

use super::{count_trees, first, lagrangian_bound, lent_refusal, parse, plan_refusal, read_refusal, Graph};
use crate::plan::{Plan, MOST_ROUNDS, MOST_VERTICES};
use crate::planner::{Answer, Refusal};

/// A round: the vertex of each number, the most trees in all, how many are left after them, how many of them were not tried before, and what is
/// answered, u by the file's numbers.
pub struct Round {
    pub vertices: Vec<usize>,
    pub trees: u64,
    pub left: u64,
    pub new: u64,
    pub answer: Answer,
}

/// The deep call's refusal, 0 for none.
pub fn deep_refusal(bytes: &[u8], budget: u64, rounds: u32, places: usize) -> Refusal {
    let number = read_refusal(bytes, usize::MAX);
    if number != 0 {
        return number;
    }
    let lent = lent_refusal(budget, places);
    match first(&[(lent != 0, lent), (!(1..=MOST_ROUNDS).contains(&rounds), 23)]) {
        0 => plan_refusal(&parse(bytes)),
        number => number,
    }
}

/// The plan in which vertex `vertices[i]` has number i.
pub fn with_numbers(plan: &Plan, vertices: &[usize]) -> Plan {
    let number = |v: u8| vertices.iter().position(|&w| w == v.into()).expect("every vertex has a number") as u8;
    let mut plan = plan.clone();
    plan.arcs.iter_mut().for_each(|arc| (arc.tail, arc.head) = (number(arc.tail), number(arc.head)));
    plan
}

/// The generator's k-th number: 48,271 to the power of k, modulo 2³¹ − 1.
pub fn drawn(k: u32) -> u64 {
    const MODULUS: u64 = (1 << 31) - 1;
    match k {
        0 => 1,
        _ if k % 2 == 1 => drawn(k - 1) * 48_271 % MODULUS,
        _ => drawn(k / 2).pow(2) % MODULUS,
    }
}

/// The vertices by their numbers after two exchanges, before which so many numbers were drawn. The exchanges are undone from the last to the first.
pub fn vertices_of(before: u32, kept: &[usize]) -> Vec<usize> {
    let n = kept.len() as u64;
    let pairs = [before + 1, before + 2].map(drawn).map(|number| ((number % n) as usize, (number / n % n) as usize));
    let exchanged = |i: usize, &(a, b): &(usize, usize)| match i {
        _ if i == a => b,
        _ if i == b => a,
        _ => i,
    };
    (0..kept.len()).map(|i| kept[pairs.iter().rev().fold(i, exchanged)]).collect()
}

/// How many trees are left once so many are tried. A count ends at 2³².
fn left_of(plan: &Plan, trees: u64) -> u64 {
    let all = count_trees(&Graph::new(plan)).min(1 << 32) as u64;
    all - all.min(trees)
}

/// The least cost and the highest floor of some rounds.
fn bests(rounds: &[Round]) -> Option<(u64, u64)> {
    let cost = rounds.iter().map(|round| round.answer.cost).min()?;
    let floor = rounds.iter().map(|round| round.answer.floor).max()?;
    Some((cost, floor))
}

/// Whether a round goes on with the search of which so many trees, the fewest, are left; none are before the first.
pub fn goes_on(round: u32, fewest: Option<u64>) -> bool {
    let is_turn = |left| match (left > 100_000_000, left > 1_000_000_000) {
        (false, _) => round.is_multiple_of(2),
        (true, far) => far && round.is_multiple_of(8),
    };
    fewest.is_some_and(is_turn)
}

/// The rounds of a deep call on a plan that is not refused, up to the one at which floor and cost meet. `solve` gives what the plan call answers.
pub fn rounds(plan: &Plan, budget: u64, most: u32, solve: &dyn Fn(&Plan, u64) -> Answer) -> Vec<Round> {
    let mut rounds: Vec<Round> = Vec::new();
    let mut numbers_drawn = 0;
    for round in 1..=most {
        let least = bests(&rounds);
        if least.is_some_and(|(cost, floor)| cost == floor) {
            break;
        }
        // The last of those of which the fewest trees are left.
        let fewest = rounds.iter().map(|round| round.left).min();
        let kept = rounds.iter().rev().find(|round| Some(round.left) == fewest);
        // Where more are left than all rounds together can try, the first of the cheapest rounds is what the exchanges begin with.
        let is_far = fewest.is_some_and(|left| left > 1_000_000_000);
        let cheapest = rounds.iter().find(|round| Some(round.answer.cost) == least.map(|(cost, _)| cost));
        let (vertices, before) = match kept {
            None => ((0..plan.n).collect(), 0),
            Some(kept) if goes_on(round, fewest) => (kept.vertices.clone(), kept.trees),
            Some(kept) => {
                let from = if is_far { cheapest.expect("a round before") } else { kept };
                numbers_drawn += 2;
                (vertices_of(numbers_drawn - 2, &from.vertices), 0)
            }
        };
        let trees = before + budget;
        let other = with_numbers(plan, &vertices);
        let mut answer = solve(&other, trees);
        let new = answer.trees - answer.trees.min(before);
        let u = answer.multipliers;
        answer.multipliers = [0; MOST_VERTICES];
        vertices.iter().enumerate().for_each(|(i, &v)| answer.multipliers[v] = u[i]);
        rounds.push(Round { vertices, trees, left: left_of(&other, trees), new, answer });
    }
    rounds
}

/// What the deep call answers for its rounds. The drive is left open.
pub fn best_of(rounds: &[Round]) -> Answer {
    let (cost, floor) = bests(rounds).expect("a round");
    let highest = rounds.iter().find(|round| round.answer.floor == floor).expect("a round has it");
    let trees = rounds.iter().map(|round| round.new).sum();
    Answer { places: 0, cost, floor, trees, whole: cost == floor, ..highest.answer.clone() }
}

/// The larger of L(0) and L(u) for each part as the root, from which the trees start.
pub fn bounds_by_root(graph: &Graph, u: &[i64; MOST_VERTICES]) -> Vec<i64> {
    let bound = |q: usize| {
        let lowest = *graph.required.iter().find(|&&v| graph.part[v] == Some(q)).expect("a part has a vertex");
        let mut vertices: Vec<usize> = (0..graph.plan.n).collect();
        vertices.swap(0, lowest);
        let rooted = Graph::new(&with_numbers(&graph.plan, &vertices));
        let mut carried = *u;
        carried.swap(0, lowest);
        lagrangian_bound(&rooted, &[0; MOST_VERTICES]).max(lagrangian_bound(&rooted, &carried))
    };
    (0..graph.parts).map(bound).collect()
}
