//! What was reported, and what one board tells beyond another.

use crate::plan::Plan;
use crate::spans::{minus, union, Span};
use std::collections::BTreeMap;
use std::rc::Rc;

/// Number, sub-plan and partition.
pub type Place = (u32, u32, u16);

#[derive(Default)]
pub struct Cell {
    pub done: bool,
    pub spans: Vec<Span>,
}

/// A pair of plans, or a clash.
#[derive(Clone, PartialEq)]
pub enum Issue {
    One(Rc<(Plan, Plan)>),
    Clash,
}

#[derive(Default)]
pub struct Board {
    pub opened: BTreeMap<u32, u32>,
    pub issues: BTreeMap<u32, Issue>,
    pub cells: BTreeMap<Place, Cell>,
}

impl Board {
    pub fn open(&mut self, number: u32, count: u32) {
        let opened = self.opened.entry(number).or_default();
        *opened = count.max(*opened);
    }

    pub fn issue(&mut self, number: u32, issue: Issue) {
        let known = self.issues.entry(number).or_insert_with(|| issue.clone());
        if *known != issue {
            *known = Issue::Clash;
        }
    }

    pub fn take(&mut self, place: Place, done: bool, spans: Vec<Span>) {
        let cell = self.cells.entry(place).or_default();
        cell.done |= done;
        if cell.spans.is_empty() {
            cell.spans = spans;
        } else if !spans.is_empty() {
            cell.spans = union(&cell.spans, &spans);
        }
    }

    /// What it tells and the other does not.
    pub fn beyond(self, other: &Board) -> Board {
        let opened = self.opened.into_iter().filter(|(number, count)| other.opened.get(number) < Some(count));
        let lacks = |number: &u32, issue: &Issue| match other.issues.get(number) {
            Some(Issue::Clash) => false,
            known => known != Some(issue),
        };
        let issues = self.issues.into_iter().filter(|(number, issue)| lacks(number, issue));
        let cells = self.cells.into_iter().filter_map(|(place, cell)| {
            let rest = match other.cells.get(&place) {
                None => cell,
                Some(known) => {
                    Cell { done: cell.done && !known.done, spans: minus(&cell.spans, &known.spans) }
                }
            };
            (rest.done || !rest.spans.is_empty()).then_some((place, rest))
        });
        Board { opened: opened.collect(), issues: issues.collect(), cells: cells.collect() }
    }

    pub fn is_empty(&self) -> bool {
        self.opened.is_empty() && self.issues.is_empty() && self.cells.is_empty()
    }

    /// The newest pair of plans of a number above 1.
    pub fn newest(&self) -> Option<(u32, Rc<(Plan, Plan)>)> {
        self.issues.iter().rev().find_map(|(number, issue)| match issue {
            Issue::One(plans) if *number > 1 => Some((*number, plans.clone())),
            _ => None,
        })
    }
}
