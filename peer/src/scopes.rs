//! Sets of scopes as bits.

/// A set of scopes: variables as bits of one word, edges as bits of two.
#[derive(Clone, Copy, PartialEq, Eq, Debug, Default)]
pub struct Scopes {
    pub variables: u64,
    pub edges: [u64; 2],
}

impl Scopes {
    pub fn range(variables: usize, from: usize, to: usize) -> Scopes {
        let links = span(from.min(variables), to.min(variables));
        let (from, to) = (
            from.max(variables) - variables,
            to.max(variables) - variables,
        );
        let low = span(from.min(64), to.min(64));
        let high = span(from.max(64) - 64, to.max(64) - 64);
        Scopes {
            variables: links,
            edges: [low, high],
        }
    }

    #[inline]
    pub fn has_edge(&self, edge: usize) -> bool {
        self.edges[edge >> 6] >> (edge & 63) & 1 == 1
    }

    #[inline]
    pub fn insert(&mut self, variables: usize, scope: usize) {
        if scope < variables {
            self.variables |= 1 << scope;
        } else {
            let edge = scope - variables;
            self.edges[edge >> 6] |= 1 << (edge & 63);
        }
    }

    pub fn remove(&mut self, variables: usize, scope: usize) {
        if scope < variables {
            self.variables &= !(1 << scope);
        } else {
            let edge = scope - variables;
            self.edges[edge >> 6] &= !(1 << (edge & 63));
        }
    }

    #[inline]
    pub fn union(&self, other: &Scopes) -> Scopes {
        Scopes {
            variables: self.variables | other.variables,
            edges: [
                self.edges[0] | other.edges[0],
                self.edges[1] | other.edges[1],
            ],
        }
    }

    pub fn count(&self) -> usize {
        let edges = self.edges[0].count_ones() + self.edges[1].count_ones();
        (self.variables.count_ones() + edges) as usize
    }

    #[inline]
    pub fn each_variable(&self, mut visit: impl FnMut(usize)) {
        let mut left = self.variables;
        while left != 0 {
            visit(left.trailing_zeros() as usize);
            left &= left - 1;
        }
    }

    #[inline]
    pub fn each_edge(&self, mut visit: impl FnMut(usize)) {
        for word in 0..2 {
            let mut left = self.edges[word];
            while left != 0 {
                visit(word * 64 + left.trailing_zeros() as usize);
                left &= left - 1;
            }
        }
    }

    /// All scopes of the set, rising.
    pub fn list(&self, variables: usize) -> Vec<usize> {
        let mut list = Vec::with_capacity(self.count());
        self.each_variable(|variable| list.push(variable));
        self.each_edge(|edge| list.push(variables + edge));
        list
    }
}

fn span(from: usize, to: usize) -> u64 {
    let below = |bits: usize| {
        if bits >= 64 {
            u64::MAX
        } else {
            (1 << bits) - 1
        }
    };
    if from >= to {
        0
    } else {
        below(to) & !below(from)
    }
}
