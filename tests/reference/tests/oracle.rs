//! The oracle is held to document 01's numbers, and its algorithms to plainer ones.

use reference::instances::{checked, many_paths, random_plan, Shape};
use reference::oracle::*;
use reference::plan::{Arc, Plan, CLOSED, LONGEST_FILE, MOST_VERTICES, OPTIONAL, REQUIRED, SHEET_PLACES};
use reference::planner::Planner;
use reference::random::Random;
use reference::suite::{
    case_a, case_b, case_c, funnels, matrices, refused_files, spelt_files, tables, FILE_A, FILE_A_CHECKED,
};
use reference::yardstick::{cheapest_arborescence, Entries, Yardstick};

const SEED: u64 = 70_000;

/// The facts of small random plans that are not refused.
fn some_facts(count: u64) -> impl Iterator<Item = Facts> {
    (SEED..SEED + count).filter_map(|seed| {
        let random = &mut Random::new(seed);
        let shape = Shape::small(random);
        let plan = random_plan(random, &shape);
        let good = call_refusal(&file_of(&plan), 1, SHEET_PLACES) == 0;
        good.then(|| Facts::of(&plan, &Effort::BRUTE_FORCE))
    })
}

/// The facts of plans whose required arcs are passed again.
fn some_funnels(count: u64) -> impl Iterator<Item = Facts> {
    funnels(count).filter_map(|case| case.facts.ok())
}

#[test]
fn stated_numbers() {
    let facts = |plan: &Plan| Facts::of(plan, &Effort::BRUTE_FORCE);
    let a = facts(&case_a());
    assert_eq!((a.tree_costs, a.tree_count, a.least_balancing, a.optimum), (vec![8], 1, 3, Some(8)));
    assert_eq!(file_of(&case_a()), FILE_A);
    assert_eq!(parse(&FILE_A), case_a());

    let b = facts(&case_b());
    assert_eq!((b.graph.parts, b.tree_count, b.tree_costs), (2, 1, vec![22]));
    assert_eq!((b.least_balancing, b.bound_at_zero, b.optimum), (2, 12, Some(22)));

    let c = facts(&case_c());
    assert_eq!((c.graph.links.len(), c.tree_count, c.tree_costs), (4, 2, vec![14, 9]));
    assert_eq!((c.bound_at_zero, c.optimum), (7, Some(9)));
}

/// Case A in edition 2: "A drive costs one checking pass of each must arc plus plain cost for every other pass, R is the sum of checking costs".
#[test]
fn stated_numbers_of_edition_2() {
    let plan = checked(case_a(), |_, _| 9);
    assert_eq!(file_of(&plan), FILE_A_CHECKED);
    assert_eq!(parse(&FILE_A_CHECKED), plan);
    let a = Facts::of(&plan, &Effort::BRUTE_FORCE);
    assert_eq!((a.graph.required_cost, a.least_balancing), (9, 3));
    assert_eq!((a.tree_costs, a.tree_count, a.bound_at_zero, a.optimum), (vec![12], 1, 9, Some(12)));
    assert_eq!(judge(&plan, &[0, 1]), Ok(12));
    assert_eq!(judge(&plan, &[0, 1, 0, 1, 1, 0]).map_err(|_| ()), Err(()));
    assert_eq!(judge(&plan, &[1, 0, 1, 0]), Ok(20));
}

/// Files that are spelt in bytes, which the oracle did not write.
#[test]
fn spelt_files_are_read_and_written() {
    for (what, file, plan) in spelt_files() {
        assert_eq!(file_of(&plan), file, "{what}");
        assert_eq!(parse(&file), plan, "{what}");
        assert_eq!(read_refusal(&file, plan.arcs.len()), 0, "{what}");
    }
    for (what, file, number) in refused_files() {
        assert_eq!(read_refusal(&file, usize::MAX), number, "{what}");
    }
}

#[test]
fn stated_tables() {
    for (what, plan, rows) in tables() {
        let entry = |&d: &u32| if d == u32::MAX { INFINITE } else { d.into() };
        let stated: Vec<Vec<u64>> = rows.iter().map(|row| row.iter().map(entry).collect()).collect();
        // a sum of two infinite ones is infinite too
        let told: Vec<Vec<u64>> =
            Graph::new(&plan).d.iter().map(|row| row.iter().map(|&d| d.min(INFINITE)).collect()).collect();
        assert_eq!(told, stated, "{what}");
    }
}

/// A(0) of a plan whose parts are its vertices, and the same by the yardstick's recursion.
#[test]
fn stated_cheapest_trees() {
    for (plan, least) in matrices() {
        let graph = Graph::new(&plan);
        assert_eq!(cheapest_tree(&graph, &[0; MOST_VERTICES]), least, "{plan:?}");
        let mut entries = Entries::default();
        (0..plan.n).for_each(|p| (0..plan.n).for_each(|q| entries[p][q] = graph.d[p][q] as i64));
        assert_eq!(cheapest_arborescence(&entries, plan.n), least, "{plan:?}");
    }
}

#[test]
fn files_read_back() {
    for facts in some_facts(300) {
        assert_eq!(parse(&file_of(&facts.graph.plan)), facts.graph.plan);
    }
    let longest = Plan::new(64, vec![Arc::new(63, 63, CLOSED, 65_535); 256]);
    assert_eq!(file_of(&longest).len(), 963);
    assert_eq!(file_of(&Plan { edition: 2, ..longest }).len(), LONGEST_FILE);
}

#[test]
fn trees_are_counted_alike() {
    let mut complete = 0;
    for facts in some_facts(1_500) {
        let enumerated = first_trees(&facts.graph, 40_000, 40_000);
        if enumerated.complete {
            complete += 1;
            assert_eq!(enumerated.trees.len() as u128, facts.tree_count, "{:?}", facts.graph.plan);
        }
    }
    assert!(complete > 1_000);
}

/// The least cost of sending each vertex of a list to one of another, over all ways: by the sets of the second list that are taken.
fn assignment_by_sets(graph: &Graph, from: &[usize], to: &[usize]) -> u64 {
    let mut least = vec![u64::MAX; 1 << to.len()];
    least[0] = 0;
    for set in 0usize..1 << to.len() {
        let placed = set.count_ones() as usize;
        for j in (0..to.len()).filter(|j| set >> j & 1 == 0) {
            let sum = least[set] + graph.d[from[placed]][to[j]];
            least[set | 1 << j] = least[set | 1 << j].min(sum);
        }
    }
    least[(1 << to.len()) - 1]
}

/// All heads to all tails, without first taking away what balances: the same cost.
#[test]
fn balancing_is_least() {
    let mut tried = 0;
    for facts in some_facts(600) {
        let (graph, arcs) = (&facts.graph, &facts.graph.plan.arcs);
        for tree in &first_trees(graph, 40_000, 3).trees {
            let tails = graph.required_arcs.iter().map(|&k| usize::from(arcs[k].tail)).chain(tree.iter().map(|l| l.0));
            let heads = graph.required_arcs.iter().map(|&k| usize::from(arcs[k].head)).chain(tree.iter().map(|l| l.1));
            let (tails, heads): (Vec<usize>, Vec<usize>) = (tails.collect(), heads.collect());
            if tails.len() <= 11 {
                tried += 1;
                assert_eq!(assignment(graph, tree).cost, assignment_by_sets(graph, &heads, &tails), "{:?}", graph.plan);
            }
        }
    }
    assert!(tried > 300);
}

/// A(u) against the list of trees, for any u, lawful or not.
#[test]
fn cheapest_tree_is_the_cheapest() {
    let random = &mut Random::new(SEED);
    for facts in some_facts(600) {
        let u: [i64; MOST_VERTICES] = std::array::from_fn(|_| random.below(200) as i64 - 100);
        let enumerated = first_trees(&facts.graph, 40_000, 40_000);
        let sum = |tree: &Vec<(usize, usize)>| tree.iter().map(|&(i, j)| facts.graph.reduced(&u, i, j)).sum::<i64>();
        if enumerated.complete {
            assert_eq!(Some(cheapest_tree(&facts.graph, &u)), enumerated.trees.iter().map(sum).min());
        }
    }
}

/// Lawful multipliers are closed under taking the larger at each vertex, and whole; so a u is the greatest exactly when no set of vertices without the root
/// can be raised by 1.
#[test]
fn greatest_multipliers_cannot_be_raised() {
    let is_lawful = |facts: &Facts, u: &[i64]| {
        let graph = &facts.graph;
        let feasible = graph.required.iter().all(|&i| graph.required.iter().all(|&j| graph.reduced(u, i, j) >= 0));
        feasible && graph.price(u) == facts.least_balancing as i64
    };
    for facts in some_facts(600) {
        assert!(is_lawful(&facts, &facts.greatest));
        let others = &facts.graph.required[1..];
        for set in 1usize..1 << others.len() {
            let mut raised = facts.greatest;
            (0..others.len()).filter(|i| set >> i & 1 == 1).for_each(|i| raised[others[i]] += 1);
            assert!(!is_lawful(&facts, &raised), "{:?}", facts.graph.plan);
        }
    }
}

/// The judge takes all passes at their plain costs and then corrects that; here each pass is priced as it comes, the first of a must arc at its
/// checking cost.
fn pass_by_pass(plan: &Plan, drive: &[u16]) -> u64 {
    let mut passed = vec![false; plan.arcs.len()];
    let pass = |&k: &u16| {
        let arc = &plan.arcs[usize::from(k)];
        let again = std::mem::replace(&mut passed[usize::from(k)], true);
        u64::from(if arc.standing == REQUIRED && !again { arc.checking } else { arc.cost })
    };
    drive.iter().map(pass).sum()
}

/// Drives of any beginning, driven once and three times.
#[test]
fn drives_are_priced_alike() {
    let mut again = 0;
    for facts in some_facts(300).chain(some_funnels(300)) {
        let plan = &facts.graph.plan;
        let mut sheet = vec![0; SHEET_PLACES];
        let answer = Yardstick.plan_call(&file_of(plan), 10, &mut sheet).expect("a good plan");
        let drive = &mut sheet[..answer.places];
        again += usize::from(
            (0..drive.len())
                .any(|i| plan.arcs[usize::from(drive[i])].standing == REQUIRED && drive[..i].contains(&drive[i])),
        );
        for turn in [0, 1, drive.len() / 2] {
            drive.rotate_left(turn);
            for drive in [drive.to_vec(), drive.repeat(3)] {
                assert_eq!(judge(plan, &drive), Ok(pass_by_pass(plan, &drive)), "{plan:?}");
            }
        }
    }
    assert!(again > 100, "{again} drives pass a required arc again");
}

/// Every drive passes each must arc, so that checking costs move all drives by the same: the search that prices each pass as it comes finds just that.
/// Costs are met below, at and above.
#[test]
fn checking_costs_move_the_optimum_with_r() {
    let (mut searched, mut met) = (0, [0; 3]);
    for facts in some_facts(1_200).chain(some_funnels(300)) {
        let plan = &facts.graph.plan;
        let musts = || plan.arcs.iter().filter(|a| a.standing == REQUIRED);
        musts().for_each(|a| met[(a.checking.cmp(&a.cost) as i8 + 1) as usize] += 1);
        let plain = checked(plan.clone(), |_, cost| cost);
        if let Some(cheapest) = facts.optimum {
            searched += 1;
            let beyond: i64 = musts().map(|a| i64::from(a.checking) - i64::from(a.cost)).sum();
            assert_eq!(Some(cheapest), optimum(&plain).and_then(|x| x.checked_add_signed(beyond)), "{plan:?}");
        }
    }
    assert!(searched > 1_000 && met.iter().all(|&count| count > 300), "{searched} searched, {met:?}");
}

#[test]
fn judge_finds_every_fault() {
    let arcs = [(0, 1, REQUIRED), (1, 0, OPTIONAL), (1, 2, REQUIRED), (2, 0, OPTIONAL), (0, 1, CLOSED)];
    let plan = Plan::new(3, arcs.iter().map(|&(t, h, s)| Arc::new(t, h, s, 10)).collect());
    assert_eq!(judge(&plan, &[0, 2, 3]), Ok(30));
    assert_eq!(judge(&plan, &[0, 1, 0, 2, 3]), Ok(50));
    assert_eq!(judge(&plan, &[3, 0, 2]), Ok(30));
    let faults: [&[u16]; 7] = [&[], &[0, 1], &[4, 2, 3, 0, 1], &[0, 2], &[0, 3, 2], &[0, 2, 3, 5], &[2, 3]];
    for drive in faults {
        assert!(judge(&plan, drive).is_err(), "{drive:?}");
    }
}

/// Every walk of open arcs from a vertex that costs no more than d at any vertex, and has fewer arcs than there are vertices, with its last vertex.
fn cheap_walks(graph: &Graph, from: usize) -> Vec<(usize, Vec<u16>)> {
    let plan = &graph.plan;
    let mut walks = vec![(from, Vec::new(), 0)];
    let mut at = 0;
    while at < walks.len() && walks.len() < 200_000 {
        let (v, walk, cost): (usize, Vec<u16>, u64) = walks[at].clone();
        for (k, a) in plan.arcs.iter().enumerate() {
            let (head, sum) = (usize::from(a.head), cost + u64::from(a.cost));
            let goes_on = usize::from(a.tail) == v && a.standing != CLOSED && walk.len() + 1 < plan.n;
            if goes_on && sum <= graph.d[from][head] {
                walks.push((head, walk.iter().copied().chain([k as u16]).collect(), sum));
            }
        }
        at += 1;
    }
    walks.into_iter().map(|(v, walk, _)| (v, walk)).collect()
}

/// The path of fewest arcs is the first of all cheapest walks, by their number of arcs and then as lists.
#[test]
fn fewest_paths_are_the_first_of_all() {
    let random_plans = some_facts(300).map(|facts| facts.graph.plan);
    let equal = (0..200).map(|seed| many_paths(&mut Random::new(seed))).filter(|plan| plan.n <= 20);
    let (mut looked, mut tied) = (0, 0);
    for plan in random_plans.chain(equal) {
        let graph = Graph::new(&plan);
        for from in 0..plan.n {
            let walks = cheap_walks(&graph, from);
            for (to, path) in fewest_paths(&plan, &graph.d, from).into_iter().enumerate() {
                let all = walks.iter().filter(|(v, _)| *v == to).map(|(_, walk)| (walk.len(), walk));
                tied += usize::from(all.clone().count() > 1);
                assert_eq!(all.min().map(|(_, walk)| walk), path.as_ref(), "{from} to {to} of {plan:?}");
                looked += 1;
            }
        }
    }
    assert!(looked > 10_000 && tied > 2_000, "{tied} of {looked} have several");
}

/// The numbers that rounds draw, worked out by hand and by another program.
#[test]
fn numbers_of_the_first_rounds() {
    let (own, other) = ([0, 1, 2, 3, 4], [3, 1, 4, 0, 2]);
    assert_eq!(vertices_of(0, &own), [0, 4, 2, 1, 3]);
    assert_eq!(vertices_of(2, &other), [3, 4, 1, 0, 2]);
    assert_eq!(vertices_of(0, &[0]), [0]);
    let on = |round| {
        [None, Some(0), Some(100_000_000), Some(100_000_001), Some(1_000_000_000), Some(1 << 32)]
            .map(|left| goes_on(round, left))
    };
    assert_eq!(on(8), [false, true, true, false, false, true]);
    assert_eq!(on(6), [false, true, true, false, false, false]);
    assert_eq!(on(3), [false; 6]);
    let mut third: Vec<usize> = (0..64).collect();
    [(15, 50), (31, 34), (34, 31), (50, 15)].iter().for_each(|&(number, vertex)| third[number] = vertex);
    assert_eq!(vertices_of(0, &(0..64).collect::<Vec<usize>>()), third);
    assert_eq!(drawn(8), 854_716_505);
}
