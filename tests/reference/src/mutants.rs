//! Wrong planners, each wrong in one way, and what has to catch it.

mod answers;
mod cars;
mod codecs;
mod counters;
mod deep;
mod departures;
mod districts;
mod editors;
mod judges;
mod pages;
mod steps;

use crate::planner::{
    CarsCall, Codec, Counter, DeepCall, DepartureCall, DistanceCall, Districts, Editor, Judge, Planner,
};
use crate::properties::Property;

pub struct Mutant<T: ?Sized> {
    pub name: &'static str,
    /// The properties that it violates, among others.
    pub violates: &'static [Property],
    pub wrong: Box<T>,
}

/// Wrong in a step of the method, or in what is answered.
pub fn planners() -> Vec<Mutant<dyn Planner>> {
    let mut all = steps::mutants();
    all.extend(answers::mutants());
    all
}

/// Wrong in reading or writing.
pub fn codecs() -> Vec<Mutant<dyn Codec>> {
    codecs::mutants()
}

/// Wrong in distances.
pub fn pages() -> Vec<Mutant<dyn DistanceCall>> {
    pages::mutants()
}

/// Wrong in counting trees.
pub fn counters() -> Vec<Mutant<dyn Counter>> {
    counters::mutants()
}

/// Wrong in windows and departures.
pub fn departures() -> Vec<Mutant<dyn DepartureCall>> {
    departures::mutants()
}

/// Wrong in the rounds of a deep call, or in what is answered.
pub fn deep() -> Vec<Mutant<dyn DeepCall>> {
    deep::mutants()
}

/// Wrong in the call for two cars.
pub fn cars() -> Vec<Mutant<dyn CarsCall>> {
    cars::mutants()
}

/// Wrong in changes, marks, returns or asking.
pub fn editors() -> Vec<Mutant<dyn Editor>> {
    editors::mutants()
}

/// Wrong in entries or turns.
pub fn districts() -> Vec<Mutant<dyn Districts>> {
    districts::mutants()
}

/// Wrong in judging a list of arcs.
pub fn judges() -> Vec<Mutant<dyn Judge>> {
    judges::mutants()
}
