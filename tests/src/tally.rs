//! The tally of a list of calls (01, 'The tally of a list'), worked from their numbers and arguments alone.

use crate::month::{worked, Given};
use crate::recorder::Plant;

/// The figures of the ledger, a TEO and a count; beside them what they must add up to.
pub struct Tally {
    opened: bool,
    allotted: Vec<u64>,
    accounts: Vec<i64>,
    tariff: u64,
    k: u64,
    /// Of each row: the generation metered and the covered guarantees, both added up over the hours.
    metered: Vec<u64>,
    covered: Vec<u64>,
    /// The generation metered in each submarket.
    generation: [u64; 4],
    /// No submarket sent out more than its surplus of that hour.
    sent_within: bool,
}

impl Tally {
    /// Before the first call, over the ledger as it came.
    pub fn new(at: &Given) -> Tally {
        Tally {
            opened: false,
            allotted: at.allotted.clone(),
            accounts: at.accounts.clone(),
            tariff: 0,
            k: 0,
            metered: Vec::new(),
            covered: Vec::new(),
            generation: [0; 4],
            sent_within: true,
        }
    }

    /// A call, as it was put, and the number that it answered.
    pub fn add(&mut self, call: &str, asked: &Given, number: u64) {
        match (call, number) {
            ("open", 0) => self.open(asked),
            ("settle", 0) => self.settle(asked),
            _ => {}
        }
    }

    fn open(&mut self, asked: &Given) {
        let rows = asked.plants.len();
        *self = Tally {
            opened: true,
            allotted: vec![0; 4 * rows],
            accounts: vec![0; 2 * rows],
            tariff: asked.tariff,
            k: 0,
            metered: vec![0; rows],
            covered: vec![0; rows],
            generation: [0; 4],
            sent_within: true,
        };
    }

    fn settle(&mut self, asked: &Given) {
        self.k += 1;
        let hour = worked(asked, self.k);
        for (row, Plant { submarket, .. }) in asked.plants.iter().enumerate() {
            for s in 0..4 {
                self.allotted[4 * row + s] += hour.figures[row][s];
            }
            self.accounts[2 * row] += hour.net[row];
            self.accounts[2 * row + 1] += hour.net[row] * self.tariff as i64;
            self.metered[row] += asked.metered[row];
            self.covered[row] += hour.covered[row];
            self.generation[*submarket as usize - 1] += asked.metered[row];
        }
        for s in 0..4 {
            let sent: u64 = hour.cover_table[s].iter().chain(&hour.secondary_table[s]).sum();
            self.sent_within &= sent <= hour.surplus[s];
        }
    }

    /// After a call: the ledger is the tally, and the period due follows the count.
    pub fn is_ledger(&self, at: &Given) -> bool {
        self.allotted == at.allotted && self.accounts == at.accounts && (!self.opened || at.month.due == self.k + 1)
    }

    /// An accepted statement, of the tally's figures for the plants as they were lent, and of its count of periods.
    pub fn is_stated(&self, asked: &Given, bytes: &[u8]) -> bool {
        let mut wanted = String::new();
        for (row, plant) in asked.plants.iter().enumerate() {
            let (figures, signed) = (&self.allotted[4 * row..4 * row + 4], &self.accounts[2 * row..2 * row + 2]);
            wanted += &format!("A,{},{}{}{}\n", plant.submarket, plant.number, fields(figures), fields(signed));
        }
        let columns: Vec<u64> = (0..4).map(|s| self.allotted.iter().skip(s).step_by(4).sum()).collect();
        let whole: u64 = columns.iter().sum();
        wanted += &format!("T,{},{}{},{}\n", self.k, asked.plants.len(), fields(&columns), whole);
        bytes.starts_with(wanted.as_bytes())
    }

    /// Each plant's figures and net are its generation and its figures no less than its covered guarantees, each
    /// column is the generation metered there, nets and money add up to zero.
    pub fn adds_up(&self) -> bool {
        let whole = |row: usize| self.allotted[4 * row..4 * row + 4].iter().sum::<u64>();
        let row_holds = |row: usize| {
            whole(row) as i64 + self.accounts[2 * row] == self.metered[row] as i64 && whole(row) >= self.covered[row]
        };
        let column = |s: usize| self.allotted.iter().skip(s).step_by(4).sum::<u64>();
        let signed = |from: usize| self.accounts.iter().skip(from).step_by(2).sum::<i64>();
        !self.opened
            || (0..self.metered.len()).all(row_holds)
                && (0..4).all(|s| column(s) == self.generation[s])
                && (signed(0), signed(1)) == (0, 0)
                && self.sent_within
    }
}

/// Each figure with a comma before it.
fn fields<T: std::fmt::Display>(figures: &[T]) -> String {
    figures.iter().map(|figure| format!(",{}", figure)).collect()
}
