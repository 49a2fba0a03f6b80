//! What document 01 promises, as properties that any planner can be held to.

mod budgets;
mod call;
mod cars;
mod checking;
mod codec;
mod count;
mod deep;
mod departure;
mod districts;
mod editing;
mod judging;
mod page;

pub use budgets::examine_raised;
pub(crate) use call::{call, FILL};
pub use call::{examine_answer, examine_refusal, Case};
pub use cars::{examine_alone, examine_car, examine_cars, examine_own_marks, Brought};
pub use checking::examine_checking;
pub use codec::{examine_codec, examine_writing};
pub use count::{examine_count, examine_whole};
pub use deep::{examine_deep, examine_deep_refusal, examine_more_rounds, examine_one_round};
pub use departure::{examine_departure, examine_departure_refusal, examine_no_windows};
pub use districts::{examine_districts, examine_misplaced, Request, Told};
pub use editing::{examine_editing, Question, Step};
pub use judging::{examine_judgement, examine_written};
pub use page::examine_page;

use std::collections::BTreeSet;

/// One promise.
#[derive(Clone, Copy, PartialEq, Eq, PartialOrd, Ord, Debug)]
pub enum Property {
    /// The call comes back.
    Returns,
    /// The refusal is the first that applies, and none otherwise.
    Refusal,
    /// A refusal leaves the sheet as it was.
    SheetKept,
    /// So do the places after the count.
    RestKept,
    /// The places are a drive.
    Drive,
    /// Its cost is the answer's.
    DriveCost,
    /// It begins with the lowest required arc.
    FirstArc,
    /// It is made of must arcs and paths of fewest arcs.
    FewestArcs,
    /// The cost is the least of the first T trees.
    LeastCost,
    /// T is the smaller of budget and N.
    Trees,
    /// Whole exactly when N is at most the budget.
    Whole,
    /// k.
    Parts,
    /// Whole: no drive is cheaper.
    Optimum,
    /// Whole: the floor is the cost.
    FloorOfWhole,
    /// No drive costs less than the floor.
    FloorHolds,
    /// The floor is at least R + Z.
    FloorAboveBalancing,
    /// Not whole: the floor is the larger of L(0) and L(u).
    FloorEquation,
    /// Every reduced cost is at least 0.
    Feasible,
    /// The sum of u(i) × D(i) is Z.
    Tight,
    /// u is 0 where not required.
    Elsewhere,
    /// u is 0 at the lowest required vertex: our choice too.
    Root,
    /// L(u) is at least what the greatest u gives that meets all this: our choice, where document 01 leaves one.
    NoLower,
    /// The same input gives the same answer, whatever the sheet held.
    Repeatable,
    /// The short call is the plan call with 100,000.
    ShortCall,
    /// The same plan in both editions gives the same answer, where the checking costs agree.
    Editions,
    /// Other checking costs move cost and floor by as much as they move R, and nothing else.
    CheckingCosts,
    /// A larger budget gives a drive no dearer and a floor no lower, at the same u; once all trees are reached, nothing else.
    RaisedBudget,
    /// A case or a limit that document 01 states in numbers.
    Stated,
    /// Reading answers the edition, n, m and the arcs, or the first refusal that applies.
    Reading,
    /// Records from m on, and all in a refusal, are kept.
    RecordsKept,
    /// Writing answers the length and gives the file, or the first refusal that applies.
    Writing,
    /// Bytes after the file, and all in a refusal, are kept.
    BytesKept,
    /// The distance call gives the first refusal that applies, and none otherwise.
    PageRefusal,
    /// Each entry of a page is d.
    Entries,
    /// Entries after the pairs, and all in a refusal, are kept.
    EntriesKept,
    /// The searches are as many as the distinct first vertices.
    Searches,
    /// Each entry is what the page of that pair alone gives.
    SingleQuery,
    /// The count answers N, or that it is above 4,294,967,295, or the first refusal that applies.
    TreeCount,
    /// Whole exactly when that number is known and no larger than the budget.
    WholeTold,
    /// A list of arcs is judged to cost what it costs as a drive, or for the first refusal that applies.
    Judgement,
    /// A drive that the planner writes passes with the cost that it answers.
    WrittenPasses,
    /// No list of arcs is judged to cost less than the floor of its plan.
    FloorBelowJudged,
    /// With no window the call at a departure is the plan call.
    NoWindows,
    /// With windows it is the plan call on the plan with the shut arcs closed by hand, where that is a good file.
    ClosedByHand,
    /// A refusal reaches both cars exactly if it is the file's: 1 to 7 or 13.
    ReachesBoth,
    /// Whatever the other car brings, a car's refusal, answer and sheet are the same.
    Alone,
    /// A car whose marks are the plan's own is answered what the plan call answers.
    OwnMarks,
    /// With any marks it is the plan call on the plan with the arcs marked by hand, where that is a good file.
    MarkedByHand,
    /// Each call of an open plan is refused as its history says, and so is opening.
    CallRefusal,
    /// The file of an open plan is that of the plan that its history gives.
    OpenFile,
    /// It is accepted by reading.
    OpenReads,
    /// Asking gives what the plan call at a departure gives for that file.
    Asking,
    /// Asking after a return gives what asking at the mark gave.
    AskedAgain,
    /// An entry is refused for what the plan call refuses, 8 apart, then with 22 where eight districts are inside, and not otherwise.
    EntryRefusal,
    /// An entry answers the lowest free place.
    LowestPlace,
    /// A turn with a short sheet gets 8, but where no district is inside: that is said.
    TurnRefusal,
    /// A turn goes to the front of the line: an entrant, and an unfinished district after its turn, go to the back.
    FrontServed,
    /// A district finishes in turn T ÷ 1,000 of its own, rounded up.
    LastTurn,
    /// Before that it is told 1,000 trees for each of its turns.
    TreesSoFar,
    /// And their least cost, which is that of a plan call with as many for its budget.
    CostSoFar,
    /// No turn but a district's last writes to the sheet.
    SheetBetween,
    /// A district's answer and sheet are those of one plan call with its budget.
    AnswerOfTurns,
    /// No waiting district sees more than seven turns of others before its own.
    SevenTurns,
    /// Without the calls that are refused or find no district inside, the others are told the same.
    NothingMoves,
    /// A machine that all districts have left is what a start gives.
    Drained,
    /// A front district at no place, or at that of another in line, is not gone on with.
    Misplaced,
    /// With one round the deep call is the plan call, but for what it says of whole.
    OneRound,
    /// Its drive is no dearer and its floor no lower than the plan call's with that budget.
    NoWorse,
    /// More rounds give a drive no dearer and a floor no lower; once floor and cost are equal, nothing else.
    MoreRounds,
    /// It says whole exactly when floor and cost are equal.
    FloorMet,
    /// And otherwise its floor is the larger of L(0) and L(u), where the trees start from some part.
    FloorOfSomeRoot,
    /// Cost, floor, trees and u are those of the rounds.
    EachRound,
}

/// All of them.
pub const PROPERTIES: [Property; 72] = {
    use Property::*;
    [
        Returns,
        Refusal,
        SheetKept,
        RestKept,
        Drive,
        DriveCost,
        FirstArc,
        FewestArcs,
        LeastCost,
        Trees,
        Whole,
        Parts,
        Optimum,
        FloorOfWhole,
        FloorHolds,
        FloorAboveBalancing,
        FloorEquation,
        Feasible,
        Tight,
        Elsewhere,
        Root,
        NoLower,
        Repeatable,
        ShortCall,
        Editions,
        CheckingCosts,
        RaisedBudget,
        Stated,
        Reading,
        RecordsKept,
        Writing,
        BytesKept,
        PageRefusal,
        Entries,
        EntriesKept,
        Searches,
        SingleQuery,
        TreeCount,
        WholeTold,
        Judgement,
        WrittenPasses,
        FloorBelowJudged,
        NoWindows,
        ClosedByHand,
        ReachesBoth,
        Alone,
        OwnMarks,
        MarkedByHand,
        CallRefusal,
        OpenFile,
        OpenReads,
        Asking,
        AskedAgain,
        EntryRefusal,
        LowestPlace,
        TurnRefusal,
        FrontServed,
        LastTurn,
        TreesSoFar,
        CostSoFar,
        SheetBetween,
        AnswerOfTurns,
        SevenTurns,
        NothingMoves,
        Drained,
        Misplaced,
        OneRound,
        NoWorse,
        MoreRounds,
        FloorMet,
        FloorOfSomeRoot,
        EachRound,
    ]
};

/// What was found against a planner.
#[derive(Default)]
pub struct Findings {
    pub violated: BTreeSet<Property>,
    /// The first few, told.
    pub stories: Vec<String>,
    /// How often a property was looked at.
    pub looks: u64,
}

impl Findings {
    pub fn expect(&mut self, property: Property, holds: bool, story: impl FnOnce() -> String) {
        self.looks += 1;
        if !holds {
            self.violated.insert(property);
            if self.stories.len() < 8 {
                self.stories.push(format!("{property:?}: {}", story()));
            }
        }
    }

    /// Fails a test if anything was found, and tells from which seed.
    pub fn assert_none(&self, planner: &str, seed: u64) {
        assert!(self.violated.is_empty(), "{planner}, SEED={seed}:\n{}", self.stories.join("\n"));
    }
}
