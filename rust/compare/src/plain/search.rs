//! The search for slots, cell by cell, with a row of choices in place of a recursion, and its count of visits. Assumes a request that reads.
use super::holding::clashing_offsets;
use crate::model::{Assignment, Request};

pub enum Found {
    Offsets { visits: u32, assignment: Assignment },
    NoRoom { visits: u32 },
    Unfinished,
}

#[derive(Clone, Copy, PartialEq)]
enum Choice {
    Take,
    Skip,
}

struct Cell {
    circuit: usize,
    offset: usize,
    /// The cells behind this one in the same circuit.
    left: usize,
    /// The cells of later circuits that taking this one shuts.
    shuts: Vec<usize>,
}

struct Search<'a> {
    request: &'a Request,
    cells: Vec<Cell>,
    /// For each cell, how many taken cells shut it.
    shut: Vec<usize>,
    /// For each circuit, how many of its cells are taken.
    taken: Vec<usize>,
    /// The choices made so far, one for each cell from the first on.
    row: Vec<Choice>,
}

pub fn search(request: &Request, budget: u32) -> Found {
    let mut search = Search::new(request);
    let mut visits = 0;
    let mut choice = search.first_allowed(&[Choice::Take, Choice::Skip]);
    while search.row.len() < search.cells.len() {
        match choice {
            Some(_) if visits == budget => return Found::Unfinished,
            Some(allowed) => {
                visits += 1;
                search.enter(allowed);
                choice = search.first_allowed(&[Choice::Take, Choice::Skip]);
            }
            None => match search.leave() {
                Some(Choice::Take) => choice = search.first_allowed(&[Choice::Skip]),
                Some(Choice::Skip) => choice = None,
                None => return Found::NoRoom { visits },
            },
        }
    }
    Found::Offsets { visits, assignment: search.assignment() }
}

impl<'a> Search<'a> {
    fn new(request: &'a Request) -> Self {
        let cells = cells(request);
        Search { request, shut: vec![0; cells.len()], taken: vec![0; request.circuits.len()], row: Vec::new(), cells }
    }

    /// The first of these choices that is allowed at the cell behind the row.
    fn first_allowed(&self, choices: &[Choice]) -> Option<Choice> {
        let cell = self.cells.get(self.row.len())?;
        let wanted = self.request.circuits[cell.circuit].demand - self.taken[cell.circuit];
        let allowed = |choice: &Choice| match choice {
            Choice::Take => wanted > 0 && self.shut[self.row.len()] == 0,
            Choice::Skip => wanted <= cell.left,
        };
        choices.iter().copied().find(allowed)
    }

    fn enter(&mut self, choice: Choice) {
        let cell = &self.cells[self.row.len()];
        self.row.push(choice);
        if choice == Choice::Take {
            self.taken[cell.circuit] += 1;
            cell.shuts.iter().for_each(|&later| self.shut[later] += 1);
        }
    }

    /// Takes back the last choice, if there is one.
    fn leave(&mut self) -> Option<Choice> {
        let choice = self.row.pop()?;
        let cell = &self.cells[self.row.len()];
        if choice == Choice::Take {
            self.taken[cell.circuit] -= 1;
            cell.shuts.iter().for_each(|&later| self.shut[later] -= 1);
        }
        Some(choice)
    }

    fn assignment(&self) -> Assignment {
        let mut assignment = vec![Vec::new(); self.request.circuits.len()];
        for (cell, choice) in self.cells.iter().zip(&self.row) {
            if *choice == Choice::Take {
                assignment[cell.circuit].push(cell.offset);
            }
        }
        assignment
    }
}

fn cells(request: &Request) -> Vec<Cell> {
    let mut cells: Vec<Cell> = Vec::new();
    let mut first_cells = Vec::new();
    for (circuit, booked) in request.circuits.iter().enumerate() {
        first_cells.push(cells.len());
        cells.extend((0..booked.cycle).map(|offset| Cell { circuit, offset, left: booked.cycle - 1 - offset, shuts: Vec::new() }));
    }
    for (circuit, booked) in request.circuits.iter().enumerate() {
        for later in circuit + 1..request.circuits.len() {
            for (offset, other) in clashing_offsets(request, booked, &request.circuits[later]) {
                cells[first_cells[circuit] + offset].shuts.push(first_cells[later] + other);
            }
        }
    }
    cells
}
