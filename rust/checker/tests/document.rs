//! The graphs worked by hand, the limits and the examples of the readings, against the checker.

use checker::*;

/// A list of three numbers a hop as one of four, each line 0; what is left behind the last whole hop stays.
fn without_lines(three: &[u16]) -> Vec<u16> {
    let hops = three.chunks_exact(3);
    let left = hops.remainder();
    hops.flat_map(|h| [h[0], h[1], h[2], 0]).chain(left.iter().copied()).collect()
}

/// A list of three numbers a hop with these lines, one a hop.
fn with_lines(three: &[u16], lines: &[u16]) -> Vec<u16> {
    assert_eq!(three.len(), 3 * lines.len());
    three.chunks_exact(3).zip(lines).flat_map(|(h, &line)| [h[0], h[1], h[2], line]).collect()
}

/// The list of three numbers a hop of one whose lines are 0.
fn three(hops: &[u16]) -> Vec<u16> {
    assert!(hops.chunks(4).all(|h| h.len() == 4 && h[3] == 0));
    hops.chunks(4).flat_map(|h| h[..3].to_vec()).collect()
}

/// A graph of a list of three numbers a hop, without lines.
fn graph(states: u64, labels: u64, three: &[u16]) -> Graph<'static> {
    Graph { states, labels, initial: 0, hops: without_lines(three).leak() }
}

const P1: [u16; 12] = [0, 0, 1, 0, 1, 2, 1, 1, 3, 2, 0, 3];
const P10: [u16; 15] = [0, 0, 1, 0, 1, 2, 1, 1, 3, 2, 0, 3, 2, 2, 4];

fn marks(states: u64, labels: u64, hops: &[u16]) -> Vec<u8> {
    marks_in(1, states, labels, hops)
}

/// Those of a sense.
fn marks_in(sense: u64, states: u64, labels: u64, hops: &[u16]) -> Vec<u8> {
    let (answer, after) = mark(&graph(states, labels, hops), sense, &vec![7; hops.len() / 3]);
    assert_eq!(answer.numbers(), [0, 1, 0]);
    after
}

/// Map, short hops and figures under R1.
fn reduced(states: u64, labels: u64, hops: &[u16]) -> (Vec<u16>, Vec<u16>, Vec<u64>) {
    reduced_in(1, states, labels, hops)
}

/// Outputs are longer than asked for, and hold what they held there.
fn reduced_in(sense: u64, states: u64, labels: u64, hops: &[u16]) -> (Vec<u16>, Vec<u16>, Vec<u64>) {
    let (answer, map, short) = reduce(&graph(states, labels, hops), sense, &vec![77; states as usize + 2], &vec![88; hops.len() / 3 * 4 + 2]);
    assert_eq!((answer.number, answer.table, answer.place), (0, 1, 0));
    let written = 4 * answer.figures[2] as usize;
    assert_eq!(map[states as usize..], [77, 77]);
    assert!(short[written..].iter().all(|&x| x == 88));
    (map[..states as usize].to_vec(), three(&short[..written]), answer.figures)
}

#[test]
fn p1() {
    assert_eq!(marks(4, 2, &P1), [1, 0, 0, 1]);
    assert_eq!(reduced(4, 2, &P1), (vec![0, 0, 1, 1], vec![0, 1, 1], vec![2, 2, 1, 0]));
}

#[test]
fn p2() {
    assert_eq!(marks(4, 2, &P1[..9]), [0, 0, 0]);
    assert_eq!(reduced(4, 2, &P1[..9]), (vec![0, 1, 2, 3], P1[..9].to_vec(), vec![4, 2, 3, 0]));
    let p2 = graph(4, 2, &P1[..9]);
    assert_eq!(round(&p2, 0, 0).numbers(), [0, 1, 0, 1]);
    assert_eq!(round(&p2, 0, 1).numbers(), [0, 1, 0, 0]);
}

#[test]
fn p3() {
    assert_eq!(marks(3, 1, &[0, 0, 1, 0, 0, 2]), [0, 0]);
}

#[test]
fn p4() {
    let hops = [0, 0, 1, 0, 0, 2, 1, 0, 2];
    assert_eq!(marks(3, 1, &hops), [1, 1, 1]);
    assert_eq!(reduced(3, 1, &hops), (vec![0, 0, 0], vec![], vec![1, 1, 0, 0]));
}

#[test]
fn p5() {
    let hops = [0, 0, 1, 0, 0, 2, 1, 0, 3, 1, 1, 4, 2, 0, 3];
    assert_eq!(marks(5, 2, &hops), [1, 0, 0, 0, 1]);
    assert_eq!(reduced(5, 2, &hops), (vec![0, 0, 1, 1, 2], vec![0, 0, 1, 0, 1, 2], vec![3, 2, 2, 0]));
}

#[test]
fn p6() {
    let hops = [0, 0, 1, 0, 1, 0, 1, 1, 1];
    assert_eq!(marks(2, 2, &hops), [1, 0, 0]);
    assert_eq!(reduced(2, 2, &hops), (vec![0, 0], vec![0, 1, 0], vec![1, 2, 1, 0]));
}

#[test]
fn p7_and_p8() {
    for (states, hops, place) in [(1, &[0, 0, 0][..], 0), (3, &[0, 0, 1, 1, 0, 2, 2, 0, 1][..], 1)] {
        let g = graph(states, 1, hops);
        assert_eq!(check(&g).numbers(), [0, 1, 0]);
        // 5 comes before 6: the outputs are too short
        let (answer, after) = mark(&g, 1, &[]);
        assert_eq!((answer.numbers(), after), (vec![5, 1, place], vec![]));
        let (answer, map, short) = reduce(&g, 1, &[9], &[8, 8]);
        assert_eq!((answer.numbers(), map, short), (vec![5, 1, place, 0, 0, 0, 0], vec![9], vec![8, 8]));
    }
}

#[test]
fn p9() {
    let one = graph(4, 2, &P1);
    let map = [0, 0, 1, 1];
    assert_eq!(audit(&one, &graph(2, 2, &[0, 1, 1]), &map).numbers(), [0, 1, 0, 0, 0, 0, 0]);
    // W3.5
    assert_eq!(audit(&one, &graph(2, 2, &[]), &map).numbers(), [0, 1, 0, 2, 2, 1, 0]);
    assert_eq!(audit(&one, &graph(2, 2, &[0, 1, 1, 1, 1, 1]), &map).numbers(), [0, 1, 0, 2, 3, 1, 2]);
}

#[test]
fn p10() {
    assert_eq!(marks(5, 3, &P10), [0, 0, 0, 0, 0]);
    let g = graph(5, 3, &P10);
    let survives = |place, rounds| round(&g, place, rounds).figures[0];
    assert_eq!([survives(3, 0), survives(3, 1), survives(3, 2)], [1, 0, 0]);
    assert_eq!([survives(0, 0), survives(0, 1), survives(0, 2), survives(0, 3)], [1, 1, 0, 0]);
}

/// The number of tests; the marks are those of `mark`.
fn tests(states: u64, labels: u64, hops: &[u16]) -> u64 {
    let (answer, after) = mark_fast(&graph(states, labels, hops), &vec![7; hops.len() / 3]);
    assert_eq!(after, marks(states, labels, hops));
    assert_eq!((answer.number, answer.table, answer.place, answer.figures.len()), (0, 1, 0, 1));
    answer.figures[0]
}

#[test]
fn tests_of_the_worked_graphs() {
    assert_eq!(tests(4, 2, &P1), 2);
    assert_eq!(tests(4, 2, &P1[..9]), 1);
    assert_eq!(tests(3, 1, &[0, 0, 1, 0, 0, 2]), 2);
    assert_eq!(tests(3, 1, &[0, 0, 1, 0, 0, 2, 1, 0, 2]), 3);
    assert_eq!(tests(5, 2, &[0, 0, 1, 0, 0, 2, 1, 0, 3, 1, 1, 4, 2, 0, 3]), 6);
    assert_eq!(tests(2, 2, &[0, 0, 1, 0, 1, 0, 1, 1, 1]), 1);
    assert_eq!(tests(5, 3, &P10), 3);
}

#[test]
fn no_silent_hop_is_no_test() {
    assert_eq!(tests(1, 1, &[]), 0);
    assert_eq!(tests(3, 3, &[0, 1, 0, 0, 2, 1, 2, 1, 0]), 0);
}

/// From each state to the next a silent hop and one labelled 1; the last has one labelled 1 to the first. A silent hop closes while the next one is marked.
fn one_a_round(states: u16) -> Vec<u16> {
    let last = states - 1;
    (0..states).flat_map(|s| if s < last { vec![s, 0, s + 1, s, 1, s + 1] } else { vec![s, 1, 0] }).collect()
}

#[test]
fn a_chain_that_falls_one_hop_a_round() {
    assert_eq!(tests(2, 2, &one_a_round(2)), 1);
    assert_eq!(tests(3, 2, &one_a_round(3)), 3);
    assert_eq!(one_a_round(1024).len(), 3 * 2047);
    assert_eq!(tests(1024, 2, &one_a_round(1024)), 2045);
}

/// W10.3: the hop 0 to 1 is tested again when 2 to 3 falls, even if 2 to 4 still closes the hop labelled 1; and once if both fell.
#[test]
fn tested_again_wherever_a_closing_fell() {
    let hops = [0, 0, 1, 0, 1, 2, 1, 1, 3, 1, 1, 4, 2, 0, 3, 2, 0, 4, 2, 2, 5, 3, 0, 4, 4, 2, 5];
    assert_eq!((marks(6, 3, &hops), tests(6, 3, &hops)), (vec![1, 0, 0, 0, 0, 1, 0, 1, 0], 5));
    assert_eq!((marks(6, 3, &hops[..24]), tests(6, 3, &hops[..24])), (vec![0, 0, 0, 0, 0, 0, 0, 1], 5));
}

#[test]
fn mark_fast_refuses_as_mark() {
    let p1 = graph(4, 2, &P1);
    assert_eq!(mark_fast(&p1, &[5; 3]), (mark_fast(&p1, &[]).0, vec![5; 3]));
    assert_eq!(mark_fast(&p1, &[5; 3]).0.numbers(), [6, 1, 0, 0]);
    assert_eq!(mark_fast(&p1, &[5; 6]).1, [1, 0, 0, 1, 5, 5]);
    assert_eq!(mark_fast(&graph(1025, 1, &[]), &[]).0.numbers(), [1, 1, 0, 0]);
    assert_eq!(mark_fast(&Graph { states: 3, labels: 1, initial: 3, hops: &[] }, &[]).0.numbers(), [2, 1, 0, 0]);
    assert_eq!(mark_fast(&graph(3, 1, &[0, 0, 1, 1, 0, 3]), &[]).0.numbers(), [3, 1, 1, 0]);
    assert_eq!(mark_fast(&graph(3, 1, &[0, 0, 1, 0, 0, 1]), &[]).0.numbers(), [4, 1, 1, 0]);
    // 5 comes before 6: the output is too short
    assert_eq!(mark_fast(&graph(3, 1, &[0, 0, 1, 1, 0, 2, 2, 0, 1]), &[]).0.numbers(), [5, 1, 1, 0]);
}

#[test]
fn limits() {
    assert_eq!(check(&graph(1024, 1, &[])).number, 0);
    assert_eq!(check(&graph(1025, 1, &[])).numbers(), [1, 1, 0]);
    assert_eq!(check(&graph(0, 1, &[])).number, 1);
    assert_eq!(check(&graph(1, 1024, &[])).number, 0);
    assert_eq!(check(&graph(1, 1025, &[])).number, 1);
    assert_eq!(check(&graph(1, 0, &[])).number, 1);
    assert_eq!(check(&graph(1, 1, &[0, 0])).number, 1);
    let hops: Vec<u16> = (0..4097u16).flat_map(|i| [i / 4, 1, i % 4]).collect();
    assert_eq!(check(&graph(1024, 2, &hops[..3 * 4096])).number, 0);
    assert_eq!(check(&graph(1025, 2, &hops)).number, 1);
    let hops: Vec<u16> = (0..4097u16).flat_map(|i| [i / 8, 1, i % 8]).collect();
    assert_eq!(check(&graph(1024, 2, &hops)).numbers(), [1, 1, 0]);
    assert_eq!(check(&Graph { states: 3, labels: 1, initial: 70_000, hops: &[] }).numbers(), [2, 1, 0]);
    // "1 speaks of multiples of four", and of 16,384 numbers at most
    for numbers in 0..=9 {
        let zeros = vec![0; numbers];
        let expected = if numbers % 4 != 0 {
            [1, 0]
        } else if numbers > 4 {
            [4, 1]
        } else {
            [0, 0]
        };
        let answer = check(&Graph { states: 1, labels: 1, initial: 0, hops: &zeros });
        assert_eq!([answer.number, answer.place], expected, "{numbers} numbers");
    }
}

/// "Order and equality go by the first three": two hops that differ in the line alone are 4, and lines need not ascend.
#[test]
fn order_and_equality_go_by_the_first_three() {
    let checked = |hops: &[u16]| {
        let answer = check(&Graph { states: 4, labels: 2, initial: 0, hops });
        [answer.number, answer.place]
    };
    assert_eq!(checked(&[0, 0, 1, 7, 0, 0, 1, 8]), [4, 1]);
    assert_eq!(checked(&[0, 0, 1, 8, 0, 0, 1, 7]), [4, 1]);
    assert_eq!(checked(&with_lines(&P1, &[9, 7, 65_535, 0])), [0, 0]);
    let lined = with_lines(&P1, &[9, 7, 65_535, 0]);
    for (place, hop) in (0..).zip(graph(4, 2, &P1).hop_list()) {
        let p1 = Graph { states: 4, labels: 2, initial: 0, hops: &lined };
        assert_eq!(find(&p1, hop.from, hop.label, hop.to).numbers(), [0, 1, 0, 1, place]);
    }
}

/// "marking and faults ignore the fourth".
#[test]
fn marking_and_faults_ignore_the_line() {
    let (lined, short) = (with_lines(&P10, &[3, 0, 7, 65_535, 1]), [0, 1, 1, 9]);
    let p10 = Graph { hops: &lined, ..graph(5, 3, &P10) };
    assert_eq!(mark(&p10, 1, &[7; 5]), mark(&graph(5, 3, &P10), 1, &[7; 5]));
    assert_eq!(mark_fast(&p10, &[7; 5]), mark_fast(&graph(5, 3, &P10), &[7; 5]));
    for rounds in 0..=4 {
        assert_eq!(round(&p10, 0, rounds), round(&graph(5, 3, &P10), 0, rounds));
    }
    let p1 = graph(4, 2, &P1);
    assert_eq!(audit(&p1, &Graph { hops: &short, ..graph(2, 2, &[]) }, &[0, 0, 1, 1]).figures, [0; 4]);
    let rings = Graph { states: 1, labels: 1, initial: 0, hops: &[0, 0, 0, 5] };
    assert_eq!(mark(&rings, 1, &[]).0.numbers(), [5, 1, 0]);
}

/// The short hops of a graph with lines under R1, four numbers each.
fn short_with_lines(states: u64, labels: u64, three: &[u16], lines: &[u16]) -> Vec<u16> {
    let hops = with_lines(three, lines);
    let (answer, _, short) = reduce(&Graph { hops: &hops, ..graph(states, labels, &[]) }, 1, &vec![0; states as usize], &vec![0; hops.len()]);
    assert_eq!(answer.number, 0);
    short[..4 * answer.figures[2] as usize].to_vec()
}

/// M4: "the hops it comes from" are those of the representative whose image it is, and no other member's.
#[test]
fn the_line_of_a_short_hop_is_its_representatives() {
    assert_eq!(short_with_lines(4, 2, &P1, &[3, 4, 5, 2]), [0, 1, 1, 5]);
    assert_eq!(short_with_lines(2, 2, &[0, 0, 1, 0, 1, 0, 1, 1, 1], &[3, 4, 5]), [0, 1, 0, 5]);
    assert_eq!(short_with_lines(2, 2, &[0, 0, 1, 0, 1, 0, 1, 1, 1], &[3, 4, 0]), [0, 1, 0, 0]);
    // nothing is marked: the lines stay
    assert_eq!(short_with_lines(4, 2, &P1[..9], &[9, 0, 65_535]), with_lines(&P1[..9], &[9, 0, 65_535]));
}

/// M5: state 0 has hops labelled 1 to 1, 2 and 3, which marked hops make one state.
#[test]
fn the_smallest_line_that_is_not_0() {
    let hops = [0, 1, 1, 0, 1, 2, 0, 1, 3, 1, 0, 3, 2, 0, 3];
    let of = |lines: [u16; 3]| short_with_lines(4, 2, &hops, &[lines[0], lines[1], lines[2], 1, 1]);
    for (lines, line) in [
        ([0, 7, 3], 3),
        ([0, 3, 7], 3),
        ([7, 0, 3], 3),
        ([3, 7, 0], 3),
        ([0, 0, 7], 7),
        ([7, 0, 0], 7),
        ([0, 0, 0], 0),
        ([65_535, 0, 65_534], 65_534),
        ([0, 65_535, 0], 65_535),
        ([256, 1, 255], 1),
    ] {
        assert_eq!(of(lines), [0, 1, 1, line], "{lines:?}");
    }
}

/// W13.3, on the chain of W13.6: its last state is what is left, and each reduction takes the line of the representative's hop.
#[test]
fn lines_through_all_reductions() {
    let three = one_a_reduction(3);
    let last = |lines: [u16; 8]| {
        let hops = with_lines(&three, &lines);
        let (answer, _, last) = shrink(&Graph { hops: &hops, ..graph(3, 3, &[]) }, 1, &[0; 3], &vec![0; hops.len()]);
        assert_eq!(answer.figures, [1, 3, 2, 0, 2]);
        last[..8].to_vec()
    };
    assert_eq!(last([1, 2, 3, 4, 5, 6, 7, 8]), [0, 1, 0, 7, 0, 2, 0, 8]);
    assert_eq!(last([1, 2, 3, 4, 5, 6, 0, 8]), [0, 1, 0, 0, 0, 2, 0, 8]);
    // nothing is marked at first: the graph itself, its lines too
    let p3 = with_lines(&[0, 0, 1, 0, 0, 2], &[9, 0]);
    assert_eq!(shrink(&Graph { hops: &p3, ..graph(3, 1, &[]) }, 1, &[0; 3], &[0; 8]).2, p3);
}

#[test]
fn three_is_asked_of_the_whole_list_before_four() {
    assert_eq!(check(&graph(3, 2, &[1, 0, 0, 1, 0, 0, 2, 0, 3])).numbers(), [3, 1, 2]);
    assert_eq!(check(&graph(4, 2, &[1, 0, 0, 1, 0, 0, 2, 0, 3])).numbers(), [4, 1, 1]);
}

#[test]
fn mark_and_reduce_refuse_short_outputs() {
    let g = graph(4, 2, &P1);
    assert_eq!(mark(&g, 1, &[5; 3]), (mark(&g, 1, &[]).0, vec![5; 3]));
    assert_eq!(mark(&g, 1, &[5; 3]).0.numbers(), [6, 1, 0]);
    assert_eq!(mark(&g, 1, &[5; 6]).1, [1, 0, 0, 1, 5, 5]);
    assert_eq!(reduce(&g, 1, &[5; 3], &[6; 16]).0.numbers(), [6, 1, 0, 0, 0, 0, 0]);
    // enough for the result, but not for four numbers a hop of the input
    let (answer, map, short) = reduce(&g, 1, &[5; 4], &[6; 15]);
    assert_eq!((answer.number, map, short), (6, vec![5; 4], vec![6; 15]));
}

/// The marks of each of the four senses. What reduce leaves in it has no faults.
fn in_each(states: u64, labels: u64, hops: &[u16]) -> [Vec<u8>; 4] {
    SENSES.map(|sense| {
        let (map, short, figures) = reduced_in(sense, states, labels, hops);
        assert_eq!(audit(&graph(states, labels, hops), &graph(figures[0], figures[1], &short), &map).figures, [0; 4]);
        marks_in(sense, states, labels, hops)
    })
}

/// Wish 7: "(0,0,1) (0,1,2) (1,1,3) (2,0,4) (4,0,3) has 0 to 1 marked by R8 alone; the other silent hops are marked by all four".
#[test]
fn the_case_of_the_senses() {
    let hops = [0, 0, 1, 0, 1, 2, 1, 1, 3, 2, 0, 4, 4, 0, 3];
    let others = vec![0, 0, 0, 1, 1];
    assert_eq!(in_each(5, 2, &hops), [others.clone(), others.clone(), others, vec![1, 0, 0, 1, 1]]);
    assert_eq!(reduced_in(8, 5, 2, &hops), (vec![0, 0, 1, 1, 1], vec![0, 1, 1], vec![2, 2, 1, 0]));
}

/// Only R8 closes by a walk, and R2 and R3 are not comparable.
#[test]
fn the_senses_apart() {
    let marks = |states, hops: &[u16], place: usize| in_each(states, 2, hops).map(|marks| marks[place]);
    assert_eq!(marks(3, &[0, 1, 0, 1, 0, 0, 1, 1, 2, 2, 0, 1], 1), [0, 0, 0, 1]);
    assert_eq!(marks(2, &[0, 1, 1, 1, 0, 0, 1, 1, 0], 1), [0, 1, 0, 1]);
    assert_eq!(marks(3, &[0, 0, 1, 0, 1, 0, 1, 0, 2, 2, 1, 1], 0), [0, 0, 1, 1]);
}

/// Walks go over marked hops alone.
#[test]
fn walks_over_marked_hops() {
    assert_eq!(marks_in(2, 3, 2, &[1, 0, 2, 1, 1, 0, 2, 0, 0, 2, 1, 2])[0], 0);
}

/// A silent hop needs no answer where the walk ends.
#[test]
fn a_silent_hop_alone() {
    assert_eq!(in_each(2, 1, &[0, 0, 1]), [[1]; 4].map(Vec::from));
}

/// The walks are least also where there is a ring.
#[test]
fn the_walks_on_a_ring() {
    let ring = [0, 0, 1, 0, 1, 0, 1, 0, 1];
    assert_eq!(marked(&graph(2, 2, &ring), 3)[0], 0);
}

/// 19 stands after 4 and before 5 and 6.
#[test]
fn other_senses() {
    let (p1, ring) = (graph(4, 2, &P1), graph(1, 1, &[0, 0, 0]));
    for sense in [0, 4, 5, 6, 7, 9, 10, 65_537, u64::from(u32::MAX)] {
        assert_eq!(mark(&p1, sense, &[5; 4]), (mark(&p1, sense, &[]).0, vec![5; 4]));
        assert_eq!(mark(&p1, sense, &[5; 4]).0.numbers(), [19, 1, 0]);
        assert_eq!(mark(&ring, sense, &[]).0.numbers(), [19, 1, 0]);
        assert_eq!(reduce(&ring, sense, &[], &[]).0.numbers(), [19, 1, 0, 0, 0, 0, 0]);
        assert_eq!(reduce(&p1, sense, &[5; 4], &[6; 16]), (reduce(&p1, sense, &[], &[]).0, vec![5; 4], vec![6; 16]));
        assert_eq!(mark(&graph(3, 1, &[0, 0, 1, 0, 0, 1]), sense, &[]).0.numbers(), [4, 1, 1]);
    }
    for sense in SENSES {
        assert_eq!(mark(&ring, sense, &[]).0.numbers(), [5, 1, 0]);
        assert_eq!(mark(&p1, sense, &[5; 3]).0.numbers(), [6, 1, 0]);
    }
}

/// Map, last hops and figures. The map has no faults, the number of reductions is below the state count, and nothing is marked in the last graph, whatever the graph.
fn shrunk_in(sense: u64, states: u64, labels: u64, hops: &[u16]) -> (Vec<u16>, Vec<u16>, Vec<u64>) {
    let first = graph(states, labels, hops);
    let (answer, map, last) = shrink(&first, sense, &vec![77; states as usize + 2], &vec![88; first.hops.len() + 2]);
    assert_eq!((answer.number, answer.table, answer.place), (0, 1, 0));
    let (map, map_behind) = map.split_at(states as usize);
    let (last, last_behind) = last.split_at(4 * answer.figures[2] as usize);
    assert_eq!(map_behind, [77, 77]);
    assert!(last_behind.iter().all(|&x| x == 88));
    let [states_left, labels_left, _, initial, reductions] = answer.figures[..] else { panic!("five figures") };
    let end = Graph { states: states_left, labels: labels_left, initial, hops: last };
    assert_eq!(audit(&first, &end, map).figures, [0; 4]);
    assert!(reductions < states && (sense != 8 || reductions <= 1));
    assert!(!marked(&end, sense).contains(&1));
    (map.to_vec(), three(last), answer.figures)
}

/// The number of reductions in each of the four senses.
fn reductions_in_each(states: u64, labels: u64, hops: &[u16]) -> [u64; 4] {
    SENSES.map(|sense| shrunk_in(sense, states, labels, hops).2[4])
}

/// W13.6: a silent chain in which state i has a hop labelled 1 to itself for odd i and to 0 for even i, and one labelled 2 the other way round.
fn one_a_reduction(states: u16) -> Vec<u16> {
    let to = |i: u16, own: bool| if own { i } else { 0 };
    let mut hops = vec![];
    for i in 0..states {
        if i + 1 < states {
            hops.extend([i, 0, i + 1]);
        }
        hops.extend([i, 1, to(i, i % 2 == 1), i, 2, to(i, i % 2 == 0)]);
    }
    hops
}

#[test]
fn one_reduction_lays_bare_another() {
    let hops = one_a_reduction(3);
    assert_eq!(hops, [0, 0, 1, 0, 1, 0, 0, 2, 0, 1, 0, 2, 1, 1, 1, 1, 2, 0, 2, 1, 0, 2, 2, 2]);
    let last = (vec![0, 0, 0], vec![0, 1, 0, 0, 2, 0]);
    for (sense, reductions) in [(1, 2), (2, 2), (3, 2), (8, 1)] {
        assert_eq!(shrunk_in(sense, 3, 3, &hops), (last.0.clone(), last.1.clone(), vec![1, 3, 2, 0, reductions]));
    }
    // the first of them leaves the chain of two states
    assert_eq!(reduced(3, 3, &hops), (vec![0, 0, 1], vec![0, 0, 1, 0, 1, 0, 0, 2, 0, 1, 1, 0, 1, 2, 1], vec![2, 3, 5, 0]));
}

#[test]
fn the_bound_is_reached() {
    for states in [1, 2, 4, 5, 10, 33] {
        let (all, once) = (u64::from(states) - 1, u64::from(states > 1));
        assert_eq!(reductions_in_each(states.into(), 3, &one_a_reduction(states)), [all, all, all, once], "{states} states");
    }
}

#[test]
fn nothing_is_marked_at_first() {
    for sense in SENSES {
        let p3 = [0, 0, 1, 0, 0, 2];
        assert_eq!(shrunk_in(sense, 3, 1, &p3), (vec![0, 1, 2], p3.to_vec(), vec![3, 1, 2, 0, 0]));
        assert_eq!(shrunk_in(sense, 2, 1, &[]), (vec![0, 1], vec![], vec![2, 1, 0, 0, 0]));
        assert_eq!(shrunk_in(sense, 2, 2, &[0, 1, 1, 1, 1, 0]), (vec![0, 1], vec![0, 1, 1, 1, 1, 0], vec![2, 2, 2, 0, 0]));
    }
}

/// The worked graphs are reduced once at the most, and shrink leaves what reduce leaves.
#[test]
fn one_reduction_is_enough() {
    for (states, labels, hops) in
        [(4, 2, &P1[..]), (4, 2, &P1[..9]), (3, 1, &[0, 0, 1, 0, 0, 2, 1, 0, 2]), (2, 2, &[0, 0, 1, 0, 1, 0, 1, 1, 1]), (5, 3, &P10)]
    {
        for sense in SENSES {
            let (map, short, mut figures) = reduced_in(sense, states, labels, hops);
            figures.push(u64::from(figures[0] < states));
            assert_eq!(shrunk_in(sense, states, labels, hops), (map, short, figures));
        }
    }
}

/// "one map from first states to last": the maps of the reductions one after the other.
#[test]
fn the_maps_one_after_the_other() {
    let (states, hops) = (6, one_a_reduction(6));
    // 5 and 4 change their numbers
    let number = |state: u16| [0, 1, 2, 3, 5, 4][usize::from(state)];
    let mut turned: Vec<[u16; 3]> = hops.chunks(3).map(|hop| [number(hop[0]), hop[1], number(hop[2])]).collect();
    turned.sort();
    let (mut hops, mut map, mut count): (Vec<u16>, Vec<u16>, u64) = (turned.concat(), (0..states).collect(), states.into());
    let whole = hops.clone();
    for left in (1..states).rev() {
        let (step, short, figures) = reduced(count, 3, &hops);
        map = map.iter().map(|&state| step[usize::from(state)]).collect();
        (hops, count) = (short, figures[0]);
        assert_eq!(count, u64::from(left));
    }
    assert_eq!(shrunk_in(1, states.into(), 3, &whole), (map, hops, vec![1, 3, 2, 0, 5]));
}

/// The initial state goes where the map leads it.
#[test]
fn the_last_initial_state() {
    let g = Graph { initial: 2, ..graph(3, 2, &[0, 0, 1, 2, 1, 0]) };
    let (answer, map, last) = shrink(&g, 1, &[9; 3], &[9; 8]);
    assert_eq!(answer.numbers(), [0, 1, 0, 2, 2, 1, 1, 1]);
    assert_eq!((map, last), (vec![0, 0, 1], vec![1, 1, 0, 0, 9, 9, 9, 9]));
}

/// W13.5, and the laws of `shrunk_in`, on all graphs without a ring of up to three states and two labels; some take two reductions under R1, R2 and R3.
#[test]
fn small_graphs_shrunk() {
    let (mut all, mut twice) = (0, [0; 4]);
    for (states, labels) in [(1, 1), (1, 2), (2, 1), (2, 2), (3, 1), (3, 2)] {
        let hops: Vec<[u16; 3]> = (0..states).flat_map(|s| (0..labels).flat_map(move |a| (0..states).map(move |t| [s, a, t]))).collect();
        for rank in 0..1u32 << hops.len() {
            let chosen: Vec<u16> = (0..hops.len()).filter(|i| rank >> i & 1 == 1).flat_map(|i| hops[i]).collect();
            if lowest_on_ring(&graph(states.into(), labels.into(), &chosen)).is_none() {
                all += 1;
                for (twice, count) in twice.iter_mut().zip(reductions_in_each(states.into(), labels.into(), &chosen)) {
                    *twice += u32::from(count == 2);
                }
            }
        }
    }
    assert_eq!((all, twice), (1 + 2 + 3 + 48 + 25 + 12_800, [1206, 582, 708, 0]));
}

#[test]
fn shrink_refuses_as_reduce() {
    let (p1, ring) = (graph(4, 2, &P1), graph(3, 1, &[0, 0, 1, 1, 0, 2, 2, 0, 1]));
    let refused = |g: &Graph, sense, map: &[u16], short: &[u16]| {
        let (answer, map_after, short_after) = shrink(g, sense, map, short);
        assert_eq!((&map_after[..], &short_after[..], &answer.figures[..]), (map, short, &[0; 5][..]));
        assert_eq!(answer.numbers()[..3], reduce(g, sense, map, short).0.numbers()[..3]);
        [answer.number, answer.table, answer.place]
    };
    for sense in SENSES {
        assert_eq!(refused(&p1, sense, &[5; 3], &[6; 16]), [6, 1, 0]);
        assert_eq!(refused(&p1, sense, &[5; 4], &[6; 15]), [6, 1, 0]);
        assert_eq!(refused(&ring, sense, &[], &[]), [5, 1, 1]);
        assert_eq!(refused(&graph(1025, 1, &[]), sense, &[], &[]), [1, 1, 0]);
        assert_eq!(refused(&Graph { initial: 4, ..p1 }, sense, &[5; 4], &[6; 16]), [2, 1, 0]);
        assert_eq!(refused(&graph(3, 2, &P1), sense, &[], &[]), [3, 1, 2]);
    }
    for sense in [0, 4, 7, 9, 65_537] {
        assert_eq!(refused(&p1, sense, &[5; 4], &[6; 16]), [19, 1, 0]);
        assert_eq!(refused(&ring, sense, &[], &[]), [19, 1, 0]);
        assert_eq!(refused(&graph(3, 1, &[0, 0, 1, 0, 0, 1]), sense, &[], &[]), [4, 1, 1]);
    }
}

#[test]
fn the_order_of_nine_and_ten() {
    let g = graph(4, 2, &P1);
    assert_eq!(round(&g, 1, 5).numbers(), [9, 1, 0, 0]);
    assert_eq!(round(&g, 4, 0).numbers(), [9, 1, 0, 0]);
    assert_eq!(round(&g, u64::MAX, 0).numbers(), [9, 1, 0, 0]);
    assert_eq!(round(&g, 0, 5).numbers(), [10, 1, 0, 0]);
    assert_eq!(round(&graph(1, 1, &[0, 0, 0]), 0, 4).numbers(), [0, 1, 0, 1]);
}

/// E1: the silent way may lead through states with another map value.
#[test]
fn audit_through_other_classes() {
    let one = graph(3, 2, &[0, 0, 1, 1, 0, 2, 2, 1, 2]);
    let two = graph(2, 2, &[0, 0, 1, 0, 1, 0, 1, 0, 0]);
    assert_eq!(audit(&one, &two, &[0, 1, 0]).numbers(), [0, 1, 0, 1, 3, 0, 2]);
}

/// W3.2: kinds come first, whatever the places.
#[test]
fn the_first_fault_of_all_kinds() {
    let one = graph(2, 2, &[0, 1, 1]);
    let mapped = |two: &Graph, map: [u16; 2]| audit(&one, two, &map).figures;
    assert_eq!(mapped(&one, [0, 1]), [0, 0, 0, 0]);
    assert_eq!(mapped(&one, [1, 0]), [3, 1, 0, 0]);
    assert_eq!(mapped(&Graph { initial: 1, ..one }, [1, 0]), [2, 2, 0, 0]);
    assert_eq!(mapped(&Graph { initial: 1, ..one }, [1, 1]), [1, 2, 0, 0]);
    assert_eq!(mapped(&graph(2, 2, &[0, 1, 0, 0, 1, 1]), [0, 1]), [1, 3, 0, 0]);
}

/// W3.3: the hop of graph 2 comes before the state, though the first state with a fault has it at a later hop.
#[test]
fn the_first_fault_of_kind_3_goes_by_hops() {
    let one = graph(2, 3, &[0, 1, 0, 1, 2, 1]);
    let two = graph(1, 3, &[0, 1, 0, 0, 2, 0]);
    assert_eq!(audit(&one, &two, &[0, 0]).numbers(), [0, 1, 0, 2, 3, 0, 1]);
}

#[test]
fn audit_refusals() {
    let good = graph(4, 2, &P1);
    let two = graph(2, 2, &[0, 1, 1]);
    assert_eq!(audit(&graph(4, 1, &P1), &graph(2, 2, &[9, 9, 9]), &[]).numbers(), [3, 1, 1, 0, 0, 0, 0]);
    assert_eq!(audit(&good, &graph(2, 2, &[0, 1, 1, 0, 0, 0]), &[]).numbers(), [4, 2, 1, 0, 0, 0, 0]);
    assert_eq!(audit(&good, &graph(2, 3, &[0, 1, 1]), &[]).numbers(), [7, 1, 0, 0, 0, 0, 0]);
    assert_eq!(audit(&good, &two, &[9; 5]).numbers(), [8, 1, 5, 0, 0, 0, 0]);
    assert_eq!(audit(&good, &two, &[0, 1, 2, 9]).numbers(), [8, 1, 2, 0, 0, 0, 0]);
}

/// The bound of the fault count is reached.
#[test]
fn most_faults() {
    let one: Vec<u16> = (0..4096u16).flat_map(|i| [i / 4, 1, i % 4]).collect();
    let two: Vec<u16> = (0..4096u16).flat_map(|i| [0, 2 + i / 1024, i % 1024]).collect();
    let g1 = graph(1024, 6, &one);
    let g2 = Graph { initial: 1, ..graph(1024, 6, &two) };
    assert_eq!(audit(&g1, &g2, &[0; 1024]).figures, [4_198_401, 1, 0, 0]);
}

#[test]
fn find_a_hop() {
    let p1 = graph(4, 2, &P1);
    let found = |from, label, to| find(&p1, from, label, to).numbers();
    for (place, hop) in (0..).zip(p1.hop_list()) {
        assert_eq!(found(hop.from, hop.label, hop.to), [0, 1, 0, 1, place]);
    }
    let gaps = [(0, 0, 0, 0), (0, 0, 2, 1), (0, 1, 1, 1), (0, 1, 3, 2), (1, 0, 3, 2), (1, 1, 2, 2), (2, 0, 0, 3), (2, 1, 0, 4), (3, 1, 3, 4)];
    for (from, label, to, before) in gaps {
        assert_eq!(found(from, label, to), [0, 1, 0, 0, before]);
    }
    // W3.6: a hop whose numbers are out of range is one that the graph hasn't
    for high in [1024, 65_535, 65_536, 65_537, 4_294_967_295] {
        assert_eq!(found(high, 0, 1), [0, 1, 0, 0, 4]);
        assert_eq!(found(0, high, 1), [0, 1, 0, 0, 2]);
        assert_eq!(found(0, 0, high), [0, 1, 0, 0, 1]);
    }
    assert_eq!(find(&graph(1, 1, &[]), 0, 0, 0).numbers(), [0, 1, 0, 0, 0]);
}

#[test]
fn find_refusals() {
    assert_eq!(find(&graph(1025, 2, &P1), 0, 0, 1).numbers(), [1, 1, 0, 0, 0]);
    assert_eq!(find(&Graph { initial: 4, ..graph(4, 2, &P1) }, 0, 0, 1).numbers(), [2, 1, 0, 0, 0]);
    assert_eq!(find(&graph(3, 2, &P1), 0, 0, 1).numbers(), [3, 1, 2, 0, 0]);
    assert_eq!(find(&graph(4, 2, &[0, 0, 1, 0, 0, 1]), 0, 0, 1).numbers(), [4, 1, 1, 0, 0]);
    // a ring is no matter
    assert_eq!(find(&graph(1, 1, &[0, 0, 0]), 0, 0, 0).numbers(), [0, 1, 0, 1, 0]);
}

#[test]
fn hops_of_a_state() {
    let (g1, g2) = (graph(4, 2, &P1), graph(2, 2, &[0, 1, 1]));
    assert_eq!(hops_of(1, 0, &g1, &g2), (0, 8));
    assert_eq!(hops_of(1, 2, &g1, &g2), (12, 4));
    assert_eq!(hops_of(1, 3, &g1, &g2), (0, 0));
    assert_eq!(hops_of(2, 0, &g1, &g2), (0, 4));
    assert_eq!(hops_of(3, 0, &g1, &g2), (0, 0));
    assert_eq!(hops_of(1, 0, &g1, &graph(1, 2, &[0, 1, 1])), (0, 0));
}

fn p1_file() -> Vec<u8> {
    let mut file = vec![2, 4, 0, 2, 0, 4, 0];
    file.extend(P1.iter().flat_map(|x| x.to_le_bytes()));
    file
}

#[test]
fn p1_as_a_file() {
    let file = p1_file();
    assert_eq!(file.len(), 31);
    let (answer, out) = write(&graph(4, 2, &P1), &[], &[9; 33]);
    assert_eq!(answer.numbers(), [0, 1, 0, 31]);
    assert_eq!((&out[..31], &out[31..]), (&file[..], &[9, 9][..]));
    assert_eq!(write(&graph(4, 2, &P1), &[], &[9; 30]).0.numbers(), [6, 1, 0, 0]);
    let (answer, hops) = read(&file, &[9; 17]);
    assert_eq!(answer.numbers(), [0, 1, 0, 4, 2, 0, 4, 0, 0]);
    assert_eq!((&hops[..16], hops[16]), (&without_lines(&P1)[..], 9));
    assert_eq!(read(&file, &[9; 15]).0.numbers(), [6, 1, 0, 0, 0, 0, 0, 0, 0]);
    for end in 0..31 {
        assert_eq!(read(&file[..end], &[]).0.numbers()[..3], [11, 1, end as u64]);
    }
}

/// M7, M8: six bytes a hop, the lines behind the names, and the names end where the lines begin.
#[test]
fn p1_with_lines_as_a_file() {
    let lined = with_lines(&P1, &[3, 4, 5, 0x0201]);
    let g = Graph { hops: &lined, ..graph(4, 2, &[]) };
    for names in [&b""[..], b"\x04pass"] {
        let mut file = p1_file();
        file[0] = if names.is_empty() { 10 } else { 14 };
        file.extend(names);
        file.extend([3, 0, 4, 0, 5, 0, 1, 2]);
        let (answer, out) = write(&g, names, &[9; 50]);
        assert_eq!(answer.numbers(), [0, 1, 0, file.len() as u64]);
        assert_eq!(out[..file.len()], file);
        assert_eq!(write(&g, names, &vec![9; file.len() - 1]).0.numbers(), [6, 1, 0, 0]);
        let (answer, hops) = read(&file, &[9; 18]);
        let block = if names.is_empty() { [0, 0] } else { [31, 5] };
        assert_eq!(answer.numbers(), [0, 1, 0, 4, 2, 0, 4, block[0], block[1]]);
        assert_eq!(hops, [&lined[..], &[9, 9]].concat());
        for end in 0..file.len() {
            assert_eq!(read(&file[..end], &[]).0.numbers()[..3], [11, 1, end as u64]);
        }
        assert_eq!(read_answer(&[&file[..], &[0]].concat()), [13, file.len() as u64]);
    }
}

fn read_answer(file: &[u8]) -> [u64; 2] {
    let (answer, after) = read(file, &[3; 3]);
    if answer.number != 0 {
        assert_eq!(after, [3; 3]);
        assert_eq!(answer.figures, [0; 6]);
    }
    [answer.number, answer.place]
}

#[test]
fn the_order_of_reading() {
    assert_eq!(read_answer(&[]), [11, 0]);
    for bit in 4..8 {
        assert_eq!(read_answer(&[1 << bit]), [12, 0]);
    }
    assert_eq!(read_answer(&[16, 1]), [12, 0]);
    assert_eq!(read_answer(&[15]), [11, 1]);
    assert_eq!(read_answer(&vec![255; 66_537]), [13, 66_536]);
    assert_eq!(read_answer(&vec![255; 66_536]), [12, 0]);
    assert_eq!(read_answer(&[0, 1, 0, 1, 0]), [0, 0]);
    assert_eq!(read_answer(&[0, 1, 0, 0, 0]), [1, 0]);
    assert_eq!(read_answer(&[0, 1, 0, 1, 0, 0]), [13, 5]);
    assert_eq!(read_answer(&[1, 1, 0, 1, 0, 0, 0]), [12, 0]);
    assert_eq!(read_answer(&[1, 1, 0, 1, 0, 0, 0, 0]), [13, 7]);
    assert_eq!(read_answer(&[1, 1, 0, 1, 0, 1, 0]), [2, 0]);
    assert_eq!(read_answer(&[2, 1, 0, 1, 0, 0, 0]), [12, 0]);
    // G5
    assert_eq!(read_answer(&[4, 1, 0, 0, 0]), [12, 0]);
    assert_eq!(read_answer(&[4, 1, 0, 1, 0]), [12, 0]);
    assert_eq!(read_answer(&[4, 1, 0, 0, 0, 1]), [13, 5]);
}

/// M9, M10: "12 no longer speaks of bit 3, except over lines all 0"; no lines are all 0. 11 and left over come first, 14 and 1 to 4 later.
#[test]
fn bit_3() {
    // without bit 1, and over a hop count of 0
    assert_eq!(read_answer(&[8, 1, 0, 1, 0]), [12, 0]);
    assert_eq!(read_answer(&[8, 1, 0, 1, 0, 0]), [13, 5]);
    assert_eq!(read_answer(&[10, 1, 0, 1, 0, 0, 0]), [12, 0]);
    // over one hop: its line is cut, 0, followed by a byte, or there
    let file = [10, 1, 0, 2, 0, 1, 0, 0, 0, 1, 0, 0, 0];
    let with = |bytes: &[u8]| [&file[..], bytes].concat();
    assert_eq!(read_answer(&file), [11, 13]);
    assert_eq!(read_answer(&with(&[1])), [11, 14]);
    assert_eq!(read_answer(&with(&[0, 0])), [12, 0]);
    assert_eq!(read_answer(&with(&[0, 0, 0])), [13, 15]);
    assert_eq!(read_answer(&with(&[0, 1, 0])), [13, 15]);
    let (answer, hops) = read(&with(&[0, 1]), &[9; 5]);
    assert_eq!((answer.numbers(), hops), (vec![0, 1, 0, 1, 2, 0, 1, 0, 0], vec![0, 1, 0, 256, 9]));
    // over two hops, one line is enough
    let file = [10, 1, 0, 3, 0, 2, 0, 0, 0, 1, 0, 0, 0, 0, 0, 2, 0, 0, 0];
    let read_lines = |lines: &[u8]| read(&[&file[..], lines].concat(), &[9; 8]);
    assert_eq!(read_lines(&[0; 4]).0.numbers()[..3], [12, 1, 0]);
    assert_eq!(read_lines(&[0, 0, 1, 0]).1, [0, 1, 0, 0, 0, 2, 0, 1]);
    assert_eq!(read_lines(&[1, 0, 0, 0]).1, [0, 1, 0, 1, 0, 2, 0, 0]);
    // lines all 0 come before a bad name, and that one before 3
    let file = |line: u8, name: u8| [14, 1, 0, 2, 0, 1, 0, 0, 0, 1, 0, 9, 0, 1, name, line, 0];
    assert_eq!(read_answer(&file(0, 7)), [12, 0]);
    assert_eq!(read_answer(&file(1, 7)), [3, 0]);
    assert_eq!(read_answer(&[&file(1, 7)[..13], &[0, 1, 0]].concat()), [14, 13]);
    assert_eq!(read_answer(&[&file(1, 7)[..13], &[0, 0, 0]].concat()), [12, 0]);
}

/// Writing sets bit 3 exactly when some line is not 0.
#[test]
fn bit_3_is_written_for_a_line() {
    let byte_0 = |lines: [u16; 4]| {
        let hops = with_lines(&P1, &lines);
        write(&Graph { hops: &hops, ..graph(4, 2, &[]) }, &[], &[0; 39]).1[0]
    };
    assert_eq!([[0; 4], [0, 0, 0, 1], [1, 0, 0, 0], [0, 256, 0, 0]].map(byte_0), [2, 10, 10, 10]);
    assert_eq!(write(&graph(4, 2, &[]), &[], &[0; 39]).1[0], 0);
}

#[test]
fn names_in_a_file() {
    assert_eq!(read(&[4, 1, 0, 2, 0, 1, b'a'], &[]).0.numbers(), [0, 1, 0, 1, 2, 0, 0, 5, 2]);
    // G4: a refused length still says how many bytes follow
    let mut file = vec![4, 1, 0, 2, 0, 200];
    file.extend([1; 100]);
    assert_eq!(read_answer(&file), [11, 106]);
    file.extend([1; 100]);
    assert_eq!(read_answer(&file), [14, 5]);
    assert_eq!(read_answer(&[4, 1, 0, 2, 0, 0, 1]), [13, 6]);
    assert_eq!(read_answer(&[4, 1, 0, 2, 0, 0]), [14, 5]);
    // G8: the first faulty name, whatever its fault
    assert_eq!(read_answer(&[4, 1, 0, 4, 0, 1, 7, 1, 7, 0]), [14, 7]);
    // 14 comes before 1
    assert_eq!(read_answer(&[4, 0, 0, 3, 0, 1, 7, 1, 7]), [14, 7]);
    assert_eq!(read_answer(&[4, 0, 0, 3, 0, 1, 7, 1, 8]), [1, 0]);
}

#[test]
fn names_to_write() {
    let answer = |labels: u64, block: &[u8]| {
        let answer = write(&graph(1, labels, &[]), block, &[0; 300]).0;
        [answer.number, answer.place]
    };
    assert_eq!(answer(1024, &[]), [0, 0]);
    // H2
    assert_eq!(answer(1, &[1, 2]), [14, 0]);
    // H3: label count 3 and a block of 33 + 33 bytes
    let mut block = vec![33];
    block.extend([5; 33]);
    assert_eq!(answer(3, &block), [14, 34]);
    assert_eq!(answer(2, &block), [14, 0]);
    assert_eq!(answer(2, &block[..20]), [14, 20]);
    // H4
    assert_eq!(answer(2, &[0, 1, b'b']), [14, 1]);
    assert_eq!(answer(3, &[1, 9, 1, 9]), [14, 2]);
    assert_eq!(answer(3, &[1, 9, 1, 8]), [0, 0]);
}

/// "The longest legal file has 66,536 bytes"; without lines it has 58,344.
#[test]
fn the_longest_file() {
    let mut block = vec![];
    for label in 1..1024u16 {
        block.push(32);
        block.extend([0; 30]);
        block.extend(label.to_be_bytes());
    }
    for (line, longest) in [(0, 58_344), (1, 66_536)] {
        let hops: Vec<u16> = (0..4096u16).flat_map(|i| [i / 4, 1023, i % 4, line * (i + 1)]).collect();
        let g = Graph { states: 1024, labels: 1024, initial: 1023, hops: &hops };
        let (answer, file) = write(&g, &block, &vec![0; longest]);
        assert_eq!(answer.numbers(), [0, 1, 0, longest as u64]);
        let (answer, after) = read(&file, &vec![0; 16_384]);
        assert_eq!(answer.numbers(), [0, 1, 0, 1024, 1024, 1023, 4096, 24_585, 33_759]);
        assert_eq!(after, hops);
    }
}
