//! What is known of L symbols, one equation after the other, any number of them: the harness's own elimination for long nights. A row is held for each column
//! that leads one, 1 there and 0 before; once all columns have one, the symbols are worked out, and what comes is compared with their sum.
use differential::system::{Verdict, add, inverse, made, scale};

pub struct Known {
    l: usize,
    t: usize,
    /// By the column that leads: coefficients, then the symbol.
    rows: Vec<Option<Vec<u8>>>,
    held: usize,
    contradicted: bool,
    /// The symbols, once a row is held for each column.
    set: Option<Vec<u8>>,
}

impl Known {
    /// What the rows whose symbols are 0 say.
    pub fn new(fixed: &[Vec<u8>], l: usize, t: usize) -> Known {
        let mut known = Known { l, t, rows: vec![None; l], held: 0, contradicted: false, set: None };
        for row in fixed {
            known.take(row, &vec![0; t]);
        }
        known
    }

    /// One equation more; whether its row is independent of those before. Of a contradiction nothing more is to be known.
    pub fn take(&mut self, coefficients: &[u8], symbol: &[u8]) -> bool {
        if let Some(set) = &self.set {
            self.contradicted |= made(coefficients, set, self.t) != symbol;
            return false;
        }
        let mut row = [coefficients, symbol].concat();
        for c in 0..self.l {
            if row[c] == 0 {
                continue;
            }
            let by = row[c];
            let Some(held) = &self.rows[c] else {
                scale(&mut row, inverse(by));
                self.hold(c, row);
                return true;
            };
            add(&mut row, by, held);
        }
        self.contradicted |= row[self.l..].iter().any(|octet| *octet != 0);
        false
    }

    fn hold(&mut self, c: usize, row: Vec<u8>) {
        self.rows[c] = Some(row);
        self.held += 1;
        if self.held == self.l {
            self.set = Some(self.symbols());
        }
    }

    /// From the last column back: a row's symbol less what the later ones make of it.
    fn symbols(&self) -> Vec<u8> {
        let (l, t) = (self.l, self.t);
        let mut set = vec![0; l * t];
        for c in (0..l).rev() {
            let row = self.rows[c].as_ref().expect("each column has one");
            let mut symbol = made(&row[..l], &set, t);
            add(&mut symbol, 1, &row[l..]);
            set[c * t..][..t].copy_from_slice(&symbol);
        }
        set
    }

    pub fn verdict(&self) -> Verdict {
        match &self.set {
            _ if self.contradicted => Verdict::Contradiction,
            Some(set) => Verdict::Solved(set.clone()),
            None => Verdict::Open((self.l - self.held) as u64),
        }
    }
}
