//! The lines that the program prints of a graph (docs/REFERENCE.md), put into a buffer.

use crate::made;
use differential::entries::Graph;

/// All that is printed.
pub struct Report<'a> {
    graph: &'a Graph,
    marks: Vec<u8>,
    map: Vec<u16>,
    short: Graph,
}

impl Report<'_> {
    pub fn of(graph: &Graph) -> Report<'_> {
        let (short, map) = made::reduced(graph);
        Report { graph, marks: made::marks(graph), map, short }
    }

    pub fn put(&self, out: &mut Vec<u8>) {
        let (hops, short) = (self.graph.each_hop(), self.short.each_hop());
        put_line(out, "in", &[self.graph.states as u16, hops.len() as u16]);
        for (hop, _) in hops.zip(&self.marks).filter(|(_, &mark)| mark == 1) {
            put_line(out, "marked", &[hop[0], hop[2]]);
        }
        for (old, &new) in (0..).zip(&self.map) {
            put_line(out, "map", &[old, new]);
        }
        put_line(out, "out", &[self.short.states as u16, short.len() as u16, self.short.initial as u16]);
        for hop in short {
            put_line(out, "hop", &hop);
        }
    }
}

fn put_line(out: &mut Vec<u8>, word: &str, numbers: &[u16]) {
    out.extend_from_slice(word.as_bytes());
    for &number in numbers {
        out.push(b' ');
        put_number(out, number);
    }
    out.push(b'\n');
}

/// By hand: the formatting of the standard library takes several times as long, and the program would be measured by that.
fn put_number(out: &mut Vec<u8>, number: u16) {
    let mut digits = [0; 5];
    let mut at = digits.len();
    let mut rest = number;
    loop {
        at -= 1;
        digits[at] = b'0' + (rest % 10) as u8;
        rest /= 10;
        if rest == 0 {
            break;
        }
    }
    out.extend_from_slice(&digits[at..]);
}
