//! The four senses of marking, read from wish 7: "R2 (after the answering hop, zero or more marked hops lead to s4), R3 (zero or more marked hops come before the
//! answering hop) and R8 (both, and s3 reaches s4 by zero or more too)". R1 is document 01's condition.

use crate::silent::{Admitted, Pairs};
use crate::{refuse, Refusal};

/// "the sense as a number 1, 2, 3 or 8"
pub const SENSES: [u64; 4] = [1, 2, 3, 8];

/// "19 for another sense"
pub(crate) fn is_one(sense: u64) -> Result<(), Refusal> {
    if SENSES.contains(&sense) {
        Ok(())
    } else {
        refuse(19, 0)
    }
}

/// The walks of zero or more hops of a set: for each state the states that it leads to.
pub(crate) struct Walks {
    lists: Vec<Vec<u64>>,
    pairs: Vec<Vec<bool>>,
}

impl Walks {
    /// By a search from each state; none are made for R1, which asks for none.
    pub(crate) fn over(graph: &Admitted, sense: u64, u: &Pairs) -> Walks {
        let mut walks = Walks { lists: vec![], pairs: vec![] };
        if sense == 1 {
            return walks;
        }
        for start in 0..graph.states {
            let mut reached = vec![false; graph.states];
            reached[start] = true;
            let mut list = vec![start as u64];
            let mut next = 0;
            while next < list.len() {
                let from = list[next];
                next += 1;
                for hop in graph.leaving[from as usize].iter().filter(|h| h.label == 0 && u.has(h.from, h.to)) {
                    if !reached[hop.to as usize] {
                        reached[hop.to as usize] = true;
                        list.push(hop.to);
                    }
                }
            }
            walks.lists.push(list);
            walks.pairs.push(reached);
        }
        walks
    }

    fn lead(&self, from: u64, to: u64) -> bool {
        self.pairs[from as usize][to as usize]
    }

    fn from(&self, state: u64) -> &[u64] {
        &self.lists[state as usize]
    }
}

/// The condition of a sense for the hop `s1` to `s2`: for each hop s1, a, s3 there are states p, q, s4 such that the four lines below hold.
pub(crate) fn closes(graph: &Admitted, sense: u64, u: &Pairs, walks: &Walks, s1: u64, s2: u64) -> bool {
    graph.leaving[s1 as usize].iter().all(|tried| {
        let (a, s3) = (tried.label, tried.to);
        // s3 = s4 or the silent hop s3 to s4 is in U (R1, R2, R3), or s3 leads to s4 by zero or more hops of U (R8)
        let fourth = |s4: u64| if sense == 8 { walks.lead(s3, s4) } else { s3 == s4 || u.has(s3, s4) };
        // s4 is q (R1, R3), or q leads to s4 by zero or more hops of U (R2, R8)
        let third = |q: u64| if [2, 8].contains(&sense) { walks.from(q).iter().any(|&s4| fourth(s4)) } else { fourth(q) };
        // p has a hop labelled a to q, or a is silent and q = p
        let second = |p: u64| graph.leaving[p as usize].iter().any(|h| h.label == a && third(h.to)) || (a == 0 && third(p));
        // p is s2 (R1, R2), or s2 leads to p by zero or more hops of U (R3, R8)
        if [3, 8].contains(&sense) {
            walks.from(s2).iter().any(|&p| second(p))
        } else {
            second(s2)
        }
    })
}
