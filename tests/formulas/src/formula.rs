//! A prenex CNF formula under construction, its text in QDIMACS, and the preprocessor's limits.

#[derive(Clone, Copy, PartialEq, Eq, Debug)]
pub enum Quantifier {
    Exists,
    Forall,
}

/// A stretch of the prefix; each is one quantifier line of the text.
#[derive(Clone, Debug)]
pub struct Block {
    pub quantifier: Quantifier,
    pub variables: Vec<i32>,
}

/// Literals are as in QDIMACS: v plain, -v negated. `largest` is the M of the `p` line.
#[derive(Clone, Debug, Default)]
pub struct Formula {
    pub prefix: Vec<Block>,
    pub clauses: Vec<Vec<i32>>,
    pub largest: i32,
}

impl Formula {
    pub fn new() -> Formula {
        Formula::default()
    }

    /// A new block at the right end of the prefix, still without variables. Its index is given.
    pub fn block(&mut self, quantifier: Quantifier) -> usize {
        self.prefix.push(Block { quantifier, variables: Vec::new() });
        self.prefix.len() - 1
    }

    /// A new variable at the right end of a block.
    pub fn variable(&mut self, block: usize) -> i32 {
        self.largest += 1;
        self.prefix[block].variables.push(self.largest);
        self.largest
    }

    /// A new block of n existential variables.
    pub fn exists(&mut self, n: usize) -> Vec<i32> {
        let block = self.block(Quantifier::Exists);
        (0..n).map(|_| self.variable(block)).collect()
    }

    /// A new block of n universal variables.
    pub fn forall(&mut self, n: usize) -> Vec<i32> {
        let block = self.block(Quantifier::Forall);
        (0..n).map(|_| self.variable(block)).collect()
    }

    pub fn clause(&mut self, literals: &[i32]) {
        self.clauses.push(literals.to_vec());
    }

    pub fn variables(&self) -> usize {
        self.prefix.iter().map(|block| block.variables.len()).sum()
    }

    pub fn literals(&self) -> usize {
        self.clauses.iter().map(Vec::len).sum()
    }

    /// The text: the `p` line, a line per block that has variables, a line per clause.
    pub fn text(&self) -> String {
        let mut text = format!("p cnf {} {}\n", self.largest, self.clauses.len());
        for block in self.prefix.iter().filter(|block| !block.variables.is_empty()) {
            text.push(if block.quantifier == Quantifier::Exists { 'e' } else { 'a' });
            for variable in &block.variables {
                text.push_str(&format!(" {variable}"));
            }
            text.push_str(" 0\n");
        }
        for clause in &self.clauses {
            for literal in clause {
                text.push_str(&format!("{literal} "));
            }
            text.push_str("0\n");
        }
        text
    }

    /// The limits of document 01. Literals are counted as written, so tidying can only leave fewer.
    pub fn fits(&self) -> bool {
        self.largest <= 1023
            && self.variables() <= 1023
            && self.clauses.len() <= 2047
            && self.literals() <= 8191
            && self.text().len() <= 65536
    }
}
