//! Planners that take one step of the method wrong.

use super::Mutant;
use crate::plan::{Arc, Plan, CLOSED, MOST_VERTICES, OPTIONAL, REQUIRED};
use crate::planner::Planner;
use crate::properties::Property::{self, *};
use crate::yardstick::{
    costs, distances, shortest_path, Balance, Candidate, Components, Distances, Entries, Lengths, Steps, NO_PATH,
};

/// Defines wrong planners, and lists them with their names and the properties that they violate.
macro_rules! wrong_steps {
    ($($name:ident violates [$($property:ident),*] { $($step:item)* })*) => {
        $(struct $name;
        impl Steps for $name { $($step)* })*

        pub fn mutants() -> Vec<Mutant<dyn Planner>> {
            vec![$(Mutant { name: stringify!($name), violates: &[$($property),*] as &[Property], wrong: Box::new($name) }),*]
        }
    };
}

wrong_steps! {
    ImbalanceTurned violates [Drive, Stated] {
        fn unit(&self, tail: usize, head: usize) -> (usize, usize) {
            (tail, head)
        }
    }

    ImbalanceTurnedInTheBound violates [FloorEquation] {
        fn price(&self, u: &[i64; MOST_VERTICES], imbalance: &[i64; MOST_VERTICES]) -> i64 {
            -u.iter().zip(imbalance).map(|(u, d)| u * d).sum::<i64>()
        }
    }

    StronglyConnectedParts violates [Parts, Trees, Stated] {
        fn components(&self, plan: &Plan) -> Components {
            let d = distances(plan, |a| (a.standing == REQUIRED).then_some(1));
            let mutual = |v: usize, w: usize| d[v][w] < NO_PATH && d[w][v] < NO_PATH;
            let lowest = |v: usize| (0..=v).find(|&w| mutual(v, w)).expect("v itself");
            Components::from_labels(plan, &std::array::from_fn(lowest))
        }
    }

    PartsByTheirFirstArc violates [LeastCost] {
        fn components(&self, plan: &Plan) -> Components {
            let mut right = crate::yardstick::components(plan);
            let mut met: Vec<usize> = Vec::new();
            for a in plan.arcs.iter().filter(|a| a.standing == REQUIRED) {
                let part = right.of[usize::from(a.tail)];
                if !met.contains(&part) {
                    met.push(part);
                }
            }
            for part in &mut right.of {
                *part = met.iter().position(|q| q == part).expect("every part has an arc");
            }
            right
        }
    }

    ThinningSkipped violates [Trees, Stated] {
        fn is_via(&self, _d: &Distances, _i: usize, _k: usize, _j: usize) -> bool {
            false
        }
    }

    // Document 01's thinning: where free arcs make a circle, all links go.
    DroppedByDroppedPairs violates [Trees, Whole, Stated] {
        fn serves(&self, _held: bool) -> bool {
            true
        }
    }

    LinksByHeadThenTail violates [LeastCost] {
        fn link_order(&self, tail: usize, head: usize) -> (usize, usize) {
            (head, tail)
        }
    }

    FirstTreeOnly violates [LeastCost, Optimum, FloorHolds] {
        fn considers(&self, place: u64) -> bool {
            place == 0
        }
    }

    PrunesTooMuch violates [LeastCost] {
        fn is_hopeless(&self, bound: i64, best: i64) -> bool {
            bound + 1 >= best
        }
    }

    BalancedWithoutTheLinks violates [DriveCost, LeastCost, FloorHolds] {
        fn balanced_with<'a>(&self, state: &Balance<'a>, _link: &Candidate) -> Balance<'a> {
            state.clone()
        }
    }

    OneArcForALeg violates [Drive] {
        fn path(&self, plan: &Plan, weights: &Distances, i: usize, j: usize) -> Vec<u16> {
            let mut path = shortest_path(plan, weights, |a| self.weight(a), i, j);
            path.truncate(1);
            path
        }
    }

    LowestFirstArcOfAnyCheapestPath violates [FewestArcs] {
        fn path(&self, plan: &Plan, weights: &Distances, i: usize, j: usize) -> Vec<u16> {
            shortest_path(plan, &costs(weights), |a| self.length(a), i, j)
        }
    }

    HighestNumberAmongEquals violates [FewestArcs] {
        fn path(&self, plan: &Plan, weights: &Distances, i: usize, j: usize) -> Vec<u16> {
            let last = plan.arcs.len() - 1;
            let turned = Plan { arcs: plan.arcs.iter().rev().copied().collect(), ..plan.clone() };
            shortest_path(&turned, weights, |a| self.weight(a), i, j).iter().map(|k| last as u16 - k).collect()
        }
    }

    ClosedArcsDriven violates [Drive, Refusal] {
        fn length(&self, arc: &Arc) -> Option<u64> {
            Some(arc.cost.into())
        }
    }

    RequiredArcsServeInNoPath violates [Refusal, LeastCost] {
        fn length(&self, arc: &Arc) -> Option<u64> {
            (arc.standing == OPTIONAL).then_some(arc.cost.into())
        }
    }

    EveryPassChecked violates [LeastCost, DriveCost, Optimum, CheckingCosts, Stated] {
        fn length(&self, arc: &Arc) -> Option<u64> {
            let pass = if arc.standing == REQUIRED { arc.checking } else { arc.cost };
            (arc.standing != CLOSED).then_some(pass.into())
        }
    }

    RequiredCostPlain violates [LeastCost, DriveCost, Optimum, FloorHolds, FloorEquation, CheckingCosts, Stated] {
        fn checking(&self, arc: &Arc) -> u16 {
            arc.cost
        }
    }

    CheckedAndPassed violates [LeastCost, DriveCost, Optimum, FloorHolds, Stated] {
        fn checking(&self, arc: &Arc) -> u16 {
            arc.checking.saturating_add(arc.cost)
        }
    }

    CheckedAtNoLessThanItsCost violates [LeastCost, DriveCost, Stated] {
        fn checking(&self, arc: &Arc) -> u16 {
            arc.checking.max(arc.cost)
        }
    }

    RequiredCostLeftOut violates [FloorEquation, FloorAboveBalancing] {
        fn lagrangian_bound(&self, _required_cost: i64, price: i64, arborescence: i64) -> i64 {
            price + arborescence
        }
    }

    CirclesNotShrunk violates [FloorEquation] {
        fn cheapest_arborescence(&self, entries: &Entries, parts: usize) -> i64 {
            let cheapest = |q: usize| (0..parts).filter(|&p| p != q).map(|p| entries[p][q]).min().expect("another part");
            (1..parts).map(cheapest).sum()
        }
    }

    EverythingFromPartZero violates [FloorEquation, FloorHolds] {
        fn cheapest_arborescence(&self, entries: &Entries, parts: usize) -> i64 {
            (1..parts).map(|q| entries[0][q]).sum()
        }
    }

    // Lawful by document 01's conditions, and worthless as a bound.
    MultipliersOfTheWrongDirection violates [NoLower] {
        fn multipliers(&self, balance: &Balance, _: &Lengths, _: &[usize], _: usize) -> Vec<i64> {
            balance.least_potentials(0)
        }
    }

    MultipliersOfAnotherRoot violates [NoLower] {
        fn multipliers(&self, balance: &Balance, _: &Lengths, _: &[usize], _: usize) -> Vec<i64> {
            let u = balance.greatest_potentials(balance.vertices() - 1);
            u.iter().map(|x| x - u[0]).collect()
        }
    }

    MultipliersNotRooted violates [Root] {
        fn multipliers(&self, balance: &Balance, _: &Lengths, _: &[usize], _: usize) -> Vec<i64> {
            balance.greatest_potentials(balance.vertices() - 1)
        }
    }

    MultipliersZero violates [Tight] {
        fn multipliers(&self, balance: &Balance, _: &Lengths, _: &[usize], _: usize) -> Vec<i64> {
            vec![0; balance.vertices()]
        }
    }

    MultipliersTurned violates [Tight, Feasible] {
        fn multipliers(&self, balance: &Balance, _: &Lengths, _: &[usize], _: usize) -> Vec<i64> {
            balance.greatest_potentials(0).iter().map(|x| -x).collect()
        }
    }
}
