//! Prints the refusals' texts, and then what every call says of plan files, a line of JSON for each: `cargo run --example answers PLAN...`. The Python
//! package's tests hold its own words and answers to these.

use postman::{
    distances, judge, plan_call, plan_call_at, short_call, tree_count, two_cars, Answer, Car, Departure, Districts,
    OpenPlan, Plan, Refusal, Standing, TreeCount, Turn, Window,
};

/// An answer as JSON, or the refusal.
fn answer(told: Result<Answer, Refusal>) -> String {
    told.map_or_else(refusal, |a| {
        format!(
            r#"{{"cost": {}, "floor": {}, "trees": {}, "whole": {}, "parts": {}, "drive": {:?}, "multipliers": {:?}}}"#,
            a.cost, a.floor, a.trees, a.whole, a.parts, a.drive, a.multipliers
        )
    })
}

fn refusal(refusal: Refusal) -> String {
    format!(r#"{{"refused": {}, "text": {:?}}}"#, refusal.number(), refusal.to_string())
}

fn list(values: impl IntoIterator<Item = String>) -> String {
    format!("[{}]", values.into_iter().collect::<Vec<String>>().join(", "))
}

/// Every third arc is shut on Wednesday morning.
fn windows(plan: &Plan) -> Vec<Window> {
    (0..plan.arcs.len() as u16).step_by(3).map(|arc| Window { arc, weekday: 2, from: 480, to: 720 }).collect()
}

/// The arcs that a car must drive: the plan's own of even or of odd numbers.
fn marks(plan: &Plan, remainder: usize) -> Vec<bool> {
    let of_car = |(k, arc): (usize, &postman::Arc)| k % 2 == remainder && arc.standing == Standing::Required;
    plan.arcs.iter().enumerate().map(of_car).collect()
}

/// Each must arc in turn becomes one that may be driven, until one is left, and then the mark that was set at the third is returned to.
fn edited(file: &[u8], plan: &Plan) -> Result<Vec<String>, Refusal> {
    let mut open = OpenPlan::open(file)?;
    let mut told = Vec::new();
    let musts = (0..plan.arcs.len()).filter(|&k| plan.arcs[k].standing == Standing::Required);
    for (i, k) in musts.enumerate().take(6) {
        let changed = open.change(k as u32, plan.arcs[k].cost, 0, Standing::Optional);
        told.push(changed.map_or_else(refusal, |()| "null".to_string()));
        if i == 2 {
            open.mark(1)?;
        }
        told.push(answer(open.ask(20, &windows(plan), Departure { weekday: 1, minute: 600 })));
    }
    let returned = open.return_to(1);
    told.push(returned.map_or_else(refusal, |()| format!("{:?}", open.file())));
    Ok(told)
}

/// The file enters with three budgets, and turns go on until all have left.
fn in_turn(file: &[u8]) -> Vec<String> {
    let mut districts = Districts::new();
    let entries = [2_500, 0, 7].map(|budget| districts.enter(file, budget).map_or_else(refusal, |p| p.to_string()));
    let turns = std::iter::from_fn(|| districts.turn()).map(|turn| match turn {
        Turn::Unfinished { place, cost, trees } => format!(r#"{{"place": {place}, "cost": {cost}, "trees": {trees}}}"#),
        Turn::Finished { place, answer: a } => format!(r#"{{"place": {place}, "answer": {}}}"#, answer(Ok(*a))),
    });
    entries.into_iter().chain(turns).collect()
}

fn line(file: &[u8]) -> Result<String, Refusal> {
    let plan = Plan::read(file)?;
    let arcs = plan
        .arcs
        .iter()
        .map(|a| format!("{:?}", [a.tail.into(), a.head.into(), a.standing as u16, a.cost, a.checking]));
    let read = format!("[{}, {}, {}]", plan.edition.number(), plan.vertices, list(arcs));
    let n = plan.vertices as u8;
    let pairs: Vec<(u8, u8)> = (0..=255).map(|k| (k % n, (k / n).wrapping_mul(7).wrapping_add(k) % n)).collect();
    let page = distances(file, &pairs)?;
    let entries = page.entries.iter().map(|entry| entry.map_or("null".to_string(), |d| d.to_string()));
    let count = tree_count(file).map_or_else(refusal, |count| match count {
        TreeCount::Known(count) => count.to_string(),
        TreeCount::Above => "null".to_string(),
    });
    let drive = plan_call(file, 10).map_or_else(|_| vec![0], |a| a.drive);
    let lists = [&drive[..], &drive[1..], &[], &[u16::MAX]];
    let judged = lists.map(|places| judge(file, places).map_or_else(refusal, |cost| cost.to_string()));
    let (even, odd) = (marks(&plan, 0), marks(&plan, 1));
    let cars = two_cars(file, Car { marks: &even, budget: 30 }, Car { marks: &odd, budget: 40 })?;
    let departures = [(2, 600), (2, 720), (7, 0)];
    let at = departures
        .map(|(weekday, minute)| answer(plan_call_at(file, 15, &windows(&plan), Departure { weekday, minute })));
    let fields = [
        ("read", read),
        ("plan_call", list([0, 1, 10, 1_000].map(|budget| answer(plan_call(file, budget))))),
        ("short_call", answer(short_call(file))),
        ("plan_call_at", list(at)),
        ("tree_count", count),
        ("distances", format!("[{}, {}]", list(entries), page.searches)),
        ("judge", list(judged)),
        ("two_cars", list(cars.map(answer))),
        ("open_plan", list(edited(file, &plan)?)),
        ("districts", list(in_turn(file))),
    ];
    Ok(format!("{{{}}}", fields.map(|(name, value)| format!("{name:?}: {value}")).join(", ")))
}

fn main() {
    println!("{}", list(Refusal::ALL.iter().map(|refusal| format!("{:?}", refusal.to_string()))));
    for name in std::env::args().skip(1) {
        let file = std::fs::read(&name).unwrap_or_else(|error| panic!("{name}: {error}"));
        println!("{}", line(&file).unwrap_or_else(|refusal| panic!("{name}: {refusal}")));
    }
}
