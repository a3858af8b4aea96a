//! What a run has met, entry by entry: which row of the table of answers spoke, and by which of its conditions. A run that never met one of them says
//! nothing of it, and fails.

use checker::Fault;
use differential::entries::{Graph, NUMBERS};
use std::collections::BTreeMap;

/// Rows 1 to 4.
const GRAPH: &[&str] = &[
    "1 no states",
    "1 too many states",
    "1 no labels",
    "1 too many labels",
    "1 too many hops",
    "2 initial state",
    "3 from",
    "3 label",
    "3 to",
    "4 the same",
    "4 the same but for the line",
    "4 below",
    "4 below, with a higher line",
];

/// Row 1 of a list that is lent; that of a file is always whole. A list whose length is a multiple of three alone was whole before hops had lines.
const LENGTH: &[&str] = &["1 no multiple of four", "1 no multiple of four, but of three"];

/// What an accepted file has behind its hops.
const ACCEPTED_FILE: &[&str] = &["0 with names", "0 without names", "0 with lines", "0 with names and lines"];

/// Row 14 of a name, in a file and in a block.
const NAME: &[&str] = &["14 no bytes", "14 too many bytes", "14 the same"];

/// What an accepted mark_fast did. Again and again: after the first round there were more than two tests for each silent hop.
const FAST: &[&str] = &[
    "0 no silent hop",
    "0 tested once, all marked",
    "0 tested once, some marked",
    "0 tested once, none marked",
    "0 tested again, some marked",
    "0 tested again, none marked",
    "0 tested again and again",
];

/// What the search for a hop found.
const FOUND: &[&str] = &[
    "0 the only hop",
    "0 the first hop",
    "0 the last hop",
    "0 a hop between",
    "0 not there, no hops",
    "0 not there, before all hops",
    "0 not there, behind all hops",
    "0 not there, between hops",
];

/// What the search was asked for with one number out of range. Cut: to 16 bits it would be a hop of the graph.
const FAR: &[&str] = &[
    "0 from 1,024",
    "0 from 65,535",
    "0 from 65,536, cut",
    "0 from 4,294,967,295",
    "0 label 1,024",
    "0 label 65,535",
    "0 label 65,536, cut",
    "0 label 4,294,967,295",
    "0 to 1,024",
    "0 to 65,535",
    "0 to 65,536, cut",
    "0 to 4,294,967,295",
];

/// The first fault of an accepted audit. One of kind 3 may not be the one that is met first by states, and may be at a hop that several states do not answer.
const FAULTS: &[&str] = &[
    "0 no faults",
    "0 first of kind 1",
    "0 first of kind 2, at the first hop",
    "0 first of kind 2, at a later hop",
    "0 first of kind 3, of the first state with one, alone at its hop",
    "0 first of kind 3, of the first state with one, not alone at its hop",
    "0 first of kind 3, of a later state, alone at its hop",
    "0 first of kind 3, of a later state, not alone at its hop",
];

/// An accepted mark.
const MARKED: &[&str] = &[
    "0 R1, some marked",
    "0 R1, none marked",
    "0 R2, some marked",
    "0 R2, none marked",
    "0 R3, some marked",
    "0 R3, none marked",
    "0 R8, some marked",
    "0 R8, none marked",
];

/// An accepted reduce.
const SMALLER: &[&str] = &[
    "0 R1, smaller",
    "0 R1, as many states",
    "0 R2, smaller",
    "0 R2, as many states",
    "0 R3, smaller",
    "0 R3, as many states",
    "0 R8, smaller",
    "0 R8, as many states",
];

/// How many reductions an accepted shrink took. All: as many as there can be, one below the state count, which is three at least.
const REDUCTIONS: &[&str] = &["0 no reduction", "0 one reduction", "0 some reductions", "0 ten reductions or more", "0 all reductions"];

/// Those under R8, which takes one at the most.
const REDUCTIONS_R8: &[&str] = &[REDUCTIONS[0], REDUCTIONS[1]];

/// The line of a short hop, by the hops of the representative that it comes from; a like hop of another member of the class has no part in it.
const LINES: &[&str] = &[
    "that of the only hop it comes from",
    "0, the only hop it comes from has none",
    "the least of several",
    "the least of several, not of the first",
    "the least of several, with 0 among them",
    "of several, all but one with 0",
    "0, several hops have none",
    "65,535, of several with 0 among them",
    "another member has a lower one",
    "0, another member has one",
];

/// The same of the last graph, where shrink took several reductions: in which of them hops came together, one of them with another line, in what leads to the hop.
const LINES_OF_TURNS: &[&str] = &[
    "not 0, no hops came together",
    "of hops that came together in the last reduction",
    "of hops that came together in an earlier reduction",
    "of hops that came together in two reductions",
    "of hops that came together, with 0 among them",
    "0 after all",
];

/// Rows 5 and 6 of reduce and shrink.
const RING_AND_ROOM: &[&str] = &["5", "6 map", "6 short hops"];

/// Numbers that are no sense, on what is accepted with one. Cut: to 8 or 16 bits each is a sense.
const NO_SENSE: [(u32, &str); 9] = [
    (0, "19 for 0"),
    (4, "19 for 4"),
    (5, "19 for 5"),
    (6, "19 for 6"),
    (7, "19 for 7"),
    (9, "19 for 9"),
    (0x0000_0102, "19 for 258, cut"),
    (0x0001_0001, "19 for 65,537, cut"),
    (u32::MAX, "19 for 4,294,967,295"),
];

/// Row 19: the numbers above, and its order among what else a call could be refused with.
const SENSE: &[&str] = &[
    NO_SENSE[0].1,
    NO_SENSE[1].1,
    NO_SENSE[2].1,
    NO_SENSE[3].1,
    NO_SENSE[4].1,
    NO_SENSE[5].1,
    NO_SENSE[6].1,
    NO_SENSE[7].1,
    NO_SENSE[8].1,
    "1 before 19",
    "2 before 19",
    "3 before 19",
    "4 before 19",
    "19 before 5",
    "19 before 6",
    "19 before 5 and 6",
];

/// The marks of the four senses beside each other.
const BESIDE: &[&str] = &["all the same", "R2 more than R1", "R3 more than R1", "R2 without R3", "R3 without R2", "R8 more than R2 and R3"];

const SHORT_ANSWER: &[&str] = &["answer too short, else accepted", "answer too short, else refused"];

/// All that a run must meet.
const MUST: [(&str, &[&[&str]]); 22] = [
    ("check", &[&["0"], GRAPH, LENGTH, SHORT_ANSWER]),
    ("find", &[FOUND, FAR, GRAPH, LENGTH, SHORT_ANSWER]),
    ("mark", &[MARKED, GRAPH, LENGTH, SENSE, &["5", "6"], SHORT_ANSWER]),
    ("marks of the senses", &[BESIDE]),
    ("mark_fast", &[FAST, GRAPH, LENGTH, &["5", "6"], SHORT_ANSWER]),
    ("reduce", &[SMALLER, GRAPH, LENGTH, SENSE, RING_AND_ROOM, SHORT_ANSWER]),
    ("shrink", &[SENSE, SHORT_ANSWER]),
    ("shrink, R1", &[REDUCTIONS, GRAPH, LENGTH, RING_AND_ROOM]),
    ("shrink, R2", &[REDUCTIONS, GRAPH, LENGTH, RING_AND_ROOM]),
    ("shrink, R3", &[REDUCTIONS, GRAPH, LENGTH, RING_AND_ROOM]),
    ("shrink, R8", &[REDUCTIONS_R8, GRAPH, LENGTH, RING_AND_ROOM]),
    ("line of a short hop", &[LINES]),
    ("line of a last hop", &[LINES_OF_TURNS]),
    ("audit", &[FAULTS, &["7", "8 too short", "8 too long", "8 entry"], SHORT_ANSWER]),
    ("audit, graph 1", &[GRAPH, LENGTH]),
    ("audit, graph 2", &[GRAPH, LENGTH]),
    (
        "round question",
        &[&["0 survives", "0 falls"], GRAPH, LENGTH, &["9 past the list", "9 cut to 32 bits a silent hop", "9 not silent", "10"], SHORT_ANSWER],
    ),
    (
        "hops of",
        &[
            &["shown on side 1", "shown on side 2", "another side", "absent state", "absent state, cut to 16 bits a present one", "no hops"],
            &["answer too short, else accepted"],
        ],
    ),
    ("hops of, graph 1", &[GRAPH, LENGTH]),
    ("hops of, graph 2", &[GRAPH, LENGTH]),
    (
        "read",
        &[
            ACCEPTED_FILE,
            GRAPH,
            &["6", "11 empty", "11 cut", "11 where the lines begin", "11 cut in the lines", "11 in the lines, before 12"],
            &["12 bit 4", "12 bit 5, 6 or 7", "12 initial state", "12 no hops", "12 no names"],
            &["12 lines all 0", "12 bit 3 over no hops", "12 bit 3 without bit 1", "12 lines all 0, before 14", "12 lines all 0, before 1 to 4"],
            &["13 too long", "13 left over", "13 left over behind lines", "13 left over behind lines all 0"],
            NAME,
            &["14 the same, past byte 65,535"],
            SHORT_ANSWER,
        ],
    ),
    ("write", &[ACCEPTED_FILE, GRAPH, LENGTH, &["6"], NAME, &["14 ends early", "14 left over"], SHORT_ANSWER]),
];

/// An entry and one of its conditions; no condition where several hold at once, for then none of them alone is tried.
pub type Condition = (&'static str, Option<&'static str>);

/// How often each condition of each entry was met.
pub struct Met {
    counts: BTreeMap<(&'static str, &'static str), u64>,
}

impl Met {
    pub fn new() -> Met {
        let all = MUST.iter().flat_map(|(entry, groups)| groups.iter().copied().flatten().map(move |word| ((*entry, *word), 0)));
        Met { counts: all.collect() }
    }

    pub fn count(&mut self, (entry, word): Condition) {
        if let Some(word) = word {
            *self.counts.get_mut(&(entry, word)).unwrap_or_else(|| panic!("{entry} has no condition {word}")) += 1;
        }
    }

    /// A call whose answer did not fit; what stands behind a comma is no part of the entry's name.
    pub fn count_short_answer(&mut self, entry: &'static str, accepted: bool) {
        let entry = entry.split(',').next().unwrap_or(entry);
        self.count((entry, Some(if accepted { "answer too short, else accepted" } else { "answer too short, else refused" })));
    }

    /// What was never met.
    pub fn missing(&self) -> Vec<String> {
        self.counts.iter().filter(|(_, &count)| count == 0).map(|((entry, word), _)| format!("{entry}: {word}")).collect()
    }

    /// One line an entry, for printing.
    pub fn lines(&self) -> impl Iterator<Item = String> + '_ {
        MUST.iter().map(|(entry, groups)| {
            let words = groups.iter().copied().flatten();
            let counts: Vec<String> = words.map(|word| format!("{word} ×{}", self.counts[&(*entry, *word)])).collect();
            format!("{entry}: {}", counts.join(", "))
        })
    }
}

/// The one condition that holds.
fn alone(conditions: &[(&'static str, bool)]) -> Option<&'static str> {
    let mut holding = conditions.iter().filter(|(_, holds)| *holds);
    let first = holding.next();
    first.filter(|_| holding.next().is_none()).map(|(word, _)| *word)
}

/// Which condition of rows 1 to 4 refuses a graph with this number at this place.
pub fn graph_word(g: &Graph, number: u64, place: u64) -> Option<&'static str> {
    let hop = |place: u64| g.three_at(place as usize);
    let line = |place: u64| g.line_at(place as usize);
    let numbers = g.hops.len();
    match number {
        1 => alone(&[
            ("1 no states", g.states == 0),
            ("1 too many states", g.states > 1024),
            ("1 no labels", g.labels == 0),
            ("1 too many labels", g.labels > 1024),
            ("1 too many hops", g.hop_count() > 4096),
            ("1 no multiple of four", numbers % NUMBERS != 0 && numbers % 3 != 0),
            ("1 no multiple of four, but of three", numbers % NUMBERS != 0 && numbers % 3 == 0),
        ]),
        2 => Some("2 initial state"),
        3 => {
            let over = |i: usize, count: u32| u32::from(hop(place)[i]) >= count;
            alone(&[("3 from", over(0, g.states)), ("3 label", over(1, g.labels)), ("3 to", over(2, g.states))])
        }
        4 if hop(place) == hop(place - 1) => Some(if line(place) == line(place - 1) { "4 the same" } else { "4 the same but for the line" }),
        4 => Some(if line(place) > line(place - 1) { "4 below, with a higher line" } else { "4 below" }),
        _ => None,
    }
}

/// The word of a sense's pair, its first or its second.
fn of_sense(words: &'static [&'static str], sense: u32, first: bool) -> &'static str {
    let pair = checker::SENSES.iter().position(|&number| number == u64::from(sense)).expect("a sense");
    words[2 * pair + usize::from(!first)]
}

/// Whether an accepted mark marked something.
pub fn marked_word(sense: u32, some: bool) -> &'static str {
    of_sense(MARKED, sense, some)
}

/// Whether an accepted reduce left fewer states.
pub fn smaller_word(sense: u32, fewer: bool) -> &'static str {
    of_sense(SMALLER, sense, fewer)
}

/// Shrink in a sense, or in what is none.
pub fn shrink_in(sense: u32) -> &'static str {
    match sense {
        1 => "shrink, R1",
        2 => "shrink, R2",
        3 => "shrink, R3",
        8 => "shrink, R8",
        _ => "shrink",
    }
}

/// How many reductions an accepted shrink of a graph took.
pub fn reductions_word(g: &Graph, reductions: u64) -> &'static str {
    match reductions {
        0 => REDUCTIONS[0],
        1 => REDUCTIONS[1],
        _ if reductions + 1 == g.states.into() => REDUCTIONS[4],
        2..=9 => REDUCTIONS[2],
        _ => REDUCTIONS[3],
    }
}

/// Which condition of rows 1 to 6 and 19 refuses a graph with a sense and with outputs of such lengths to reduce or shrink.
pub fn short_word(g: &Graph, sense: u32, number: u64, place: u64, map_len: usize, short_len: usize) -> Option<&'static str> {
    let (map, short) = (map_len >= g.states as usize, short_len >= g.hops.len());
    match number {
        5 => Some("5"),
        6 if short => Some("6 map"),
        6 => map.then_some("6 short hops"),
        _ => sensed_word(g, sense, number, place, map && short),
    }
}

/// Which condition of rows 1 to 4 and 19 refuses a graph with a sense, where the outputs have room or not.
pub fn sensed_word(g: &Graph, sense: u32, number: u64, place: u64, room: bool) -> Option<&'static str> {
    if checker::SENSES.contains(&sense.into()) {
        return graph_word(g, number, place);
    }
    match number {
        1 => Some("1 before 19"),
        2 => Some("2 before 19"),
        3 => Some("3 before 19"),
        4 => Some("4 before 19"),
        _ => match (checker::lowest_on_ring(&g.lent()), room) {
            (None, true) => NO_SENSE.iter().find(|(number, _)| *number == sense).map(|(_, word)| *word),
            (Some(_), true) => Some("19 before 5"),
            (None, false) => Some("19 before 6"),
            (Some(_), false) => Some("19 before 5 and 6"),
        },
    }
}

/// The numbers of row 19 that a run must meet.
pub fn no_senses() -> impl Iterator<Item = u32> {
    NO_SENSE.iter().map(|(number, _)| *number)
}

/// For each short hop the places of the hops that it comes from: those of the representative, which no marked hop leaves.
fn origins(g: &Graph, marks: &[u8], map: &[u16], short: &Graph) -> Vec<Vec<usize>> {
    let mut rests = vec![true; map.len()];
    for (hop, _) in g.each_hop().zip(marks).filter(|(_, &mark)| mark == 1) {
        rests[usize::from(hop[0])] = false;
    }
    let mut origins = vec![vec![]; short.hop_count()];
    for (place, [from, label, to, _]) in g.each_hop().enumerate().filter(|(_, hop)| rests[usize::from(hop[0])]) {
        let image = [map[usize::from(from)], label, map[usize::from(to)]];
        let at = (0..short.hop_count()).find(|&at| short.three_at(at) == image).expect("a short hop for each of a representative");
        origins[at].push(place);
    }
    origins
}

/// How the short hops of a small graph came by their lines.
pub fn line_words(g: &Graph, marks: &[u8], map: &[u16], short: &Graph) -> Vec<&'static str> {
    let mut words = vec![];
    for (at, origins) in origins(g, marks, map, short).iter().enumerate() {
        let line = short.line_at(at);
        let lines: Vec<u16> = origins.iter().map(|&place| g.line_at(place)).collect();
        let with = lines.iter().filter(|&&line| line != 0).count();
        words.push(match (lines.len(), with) {
            (1, 1) => "that of the only hop it comes from",
            (1, _) => "0, the only hop it comes from has none",
            (_, 0) => "0, several hops have none",
            (all, _) if all > with && line == 65_535 => "65,535, of several with 0 among them",
            (_, 1) => "of several, all but one with 0",
            (all, _) if all > with => "the least of several, with 0 among them",
            _ if lines[0] == line => "the least of several",
            _ => "the least of several, not of the first",
        });
        // like hops of other members of the class
        let like = |place: &usize| {
            let [from, label, to] = g.three_at(*place);
            [map[usize::from(from)], label, map[usize::from(to)]] == short.three_at(at) && !origins.contains(place)
        };
        match (0..g.hop_count()).filter(like).map(|place| g.line_at(place)).filter(|&line| line != 0).min() {
            Some(_) if line == 0 => words.push("0, another member has one"),
            Some(other) if other < line => words.push("another member has a lower one"),
            _ => {}
        }
    }
    words
}

/// One of several reductions: the graph, its marks, and the map and the short graph.
pub struct Turn {
    pub graph: Graph,
    pub marks: Vec<u8>,
    pub map: Vec<u16>,
    pub short: Graph,
}

/// How the hops of a last graph came by their lines through several reductions.
pub fn turn_words(turns: &[Turn]) -> Vec<&'static str> {
    // for each hop the lines that it comes from in the first graph, and in how many reductions hops with different lines came together in what leads to it; in the last
    // and before
    let first = &turns[0].graph;
    let mut hops: Vec<(Vec<u16>, usize, bool)> = (0..first.hop_count()).map(|place| (vec![first.line_at(place)], 0, false)).collect();
    for Turn { graph, marks, map, short } in turns {
        let join = |origins: &Vec<usize>| {
            let lines: Vec<u16> = origins.iter().map(|&place| graph.line_at(place)).collect();
            let together = lines.iter().any(|&line| line != lines[0]);
            let earlier = origins.iter().map(|&place| hops[place].1).max().unwrap_or(0);
            let all = origins.iter().flat_map(|&place| hops[place].0.clone()).collect();
            (all, earlier + usize::from(together), together)
        };
        hops = origins(graph, marks, map, short).iter().map(join).collect();
    }
    let word = |(lines, times, last): &(Vec<u16>, usize, bool)| match (times, last) {
        _ if lines.iter().all(|&line| line == 0) => "0 after all",
        (0, _) => "not 0, no hops came together",
        (2.., _) => "of hops that came together in two reductions",
        _ if lines.contains(&0) => "of hops that came together, with 0 among them",
        (_, true) => "of hops that came together in the last reduction",
        (_, false) => "of hops that came together in an earlier reduction",
    };
    hops.iter().map(word).collect()
}

/// How the marks of R1, R2, R3 and R8 stand to each other: "R1's marks are among R2's and R3's, and theirs among R8's", which must hold.
pub fn beside_words(g: &Graph, marks: &[Vec<u8>; 4]) -> Vec<&'static str> {
    let among = |few: &[u8], many: &[u8]| few.iter().zip(many).all(|(few, many)| few <= many);
    let [r1, r2, r3, r8] = marks;
    assert!(among(r1, r2) && among(r1, r3) && among(r2, r8) && among(r3, r8), "marks of the senses of {g:?}: {marks:?}");
    let both: Vec<u8> = r2.iter().zip(r3).map(|(r2, r3)| r2 | r3).collect();
    let holding = [
        ("all the same", r1 == r8),
        ("R2 more than R1", r2 != r1),
        ("R3 more than R1", r3 != r1),
        ("R2 without R3", !among(r2, r3)),
        ("R3 without R2", !among(r3, r2)),
        ("R8 more than R2 and R3", *r8 != both),
    ];
    holding.into_iter().filter(|(_, holds)| *holds).map(|(word, _)| word).collect()
}

/// What an accepted search for a hop found or did not find at this place.
pub fn find_word(g: &Graph, hop: [u32; 3], found: bool, place: u64) -> Option<&'static str> {
    let count = g.hop_count() as u64;
    let out_of_range = [hop[0] >= g.states, hop[1] >= g.labels, hop[2] >= g.states];
    if out_of_range.contains(&true) {
        let number = out_of_range.iter().position(|&out| out).filter(|_| out_of_range.iter().filter(|&&out| out).count() == 1)?;
        let cut = (0..g.hop_count()).any(|there| g.three_at(there) == hop.map(|number| number as u16));
        let far = match hop[number] {
            1024 => 0,
            65_535 => 1,
            65_536 if cut => 2,
            u32::MAX => 3,
            _ => return None,
        };
        return Some(FAR[4 * number + far]);
    }
    Some(match (found, place) {
        (true, _) if count == 1 => "0 the only hop",
        (true, 0) => "0 the first hop",
        (true, _) if place + 1 == count => "0 the last hop",
        (true, _) => "0 a hop between",
        (false, _) if count == 0 => "0 not there, no hops",
        (false, 0) => "0 not there, before all hops",
        (false, _) if place == count => "0 not there, behind all hops",
        (false, _) => "0 not there, between hops",
    })
}

/// Which fault of an accepted audit is the first.
pub fn fault_word(faults: &[Fault]) -> &'static str {
    let Some(first) = faults.iter().min() else {
        return "0 no faults";
    };
    let later_state = faults.iter().any(|fault| fault.state < first.state);
    let alone = faults.iter().all(|fault| fault == first || fault.place != first.place);
    match (first.kind, later_state, alone) {
        (1, _, _) => "0 first of kind 1",
        (2, _, _) if first.place == 0 => "0 first of kind 2, at the first hop",
        (2, _, _) => "0 first of kind 2, at a later hop",
        (_, false, true) => "0 first of kind 3, of the first state with one, alone at its hop",
        (_, false, false) => "0 first of kind 3, of the first state with one, not alone at its hop",
        (_, true, true) => "0 first of kind 3, of a later state, alone at its hop",
        (_, true, false) => "0 first of kind 3, of a later state, not alone at its hop",
    }
}

/// What an accepted mark_fast with so many tests and these marks did.
pub fn fast_word(g: &Graph, tests: u64, marks: &[u8]) -> &'static str {
    let silent = g.each_hop().filter(|hop| hop[1] == 0).count();
    let marked = marks[..g.hop_count()].iter().filter(|&&mark| mark == 1).count();
    let again = tests - silent as u64;
    match (again, marked) {
        _ if silent == 0 => "0 no silent hop",
        (0, 0) => "0 tested once, none marked",
        (0, _) if marked == silent => "0 tested once, all marked",
        (0, _) => "0 tested once, some marked",
        _ if again > 2 * silent as u64 => "0 tested again and again",
        (_, 0) => "0 tested again, none marked",
        _ => "0 tested again, some marked",
    }
}

/// What stands in a file: the graph, without lines where these are not there whole, and where the names and the lines begin.
struct Contents {
    graph: Graph,
    names: usize,
    lines: usize,
}

/// The contents of a file which is long enough for what stands in front of its lines.
fn contents_of(file: &[u8]) -> Option<Contents> {
    let number = |at: usize| Some(u16::from_le_bytes([*file.get(at)?, *file.get(at + 1)?]));
    let has = |bit: u8| file[0] >> bit & 1 == 1;
    let (states, labels) = (number(1)?, number(3)?);
    let initial = if has(0) { number(5)? } else { 0 };
    let at = if has(0) { 7 } else { 5 };
    let count = if has(1) { number(at)?.into() } else { 0 };
    let hops = if has(1) { at + 2 } else { at };
    let names = hops + 6 * count;
    let mut lines = names;
    for _ in 1..if has(2) { labels } else { 0 } {
        lines += 1 + usize::from(*file.get(lines)?);
    }
    if lines > file.len() {
        return None;
    }
    let hop = |i: usize| {
        let line = if has(3) { number(lines + 2 * i).unwrap_or(0) } else { 0 };
        Some([number(hops + 6 * i)?, number(hops + 6 * i + 2)?, number(hops + 6 * i + 4)?, line])
    };
    let flat = (0..count).map(hop).collect::<Option<Vec<_>>>()?.concat();
    Some(Contents { graph: Graph { states: states.into(), labels: labels.into(), initial: initial.into(), hops: flat }, names, lines })
}

/// Why a file that ends early does.
fn cut_word(file: &[u8]) -> &'static str {
    let idle = |c: &Contents| file[0] & 1 != 0 && c.graph.initial == 0 || file[0] & 4 != 0 && c.graph.labels <= 1;
    match contents_of(file) {
        _ if file.is_empty() => "11 empty",
        None => "11 cut",
        Some(contents) if idle(&contents) => "11 in the lines, before 12",
        Some(contents) if contents.lines == file.len() => "11 where the lines begin",
        Some(_) => "11 cut in the lines",
    }
}

/// Why a bit of a file must not stand.
fn bit_word(file: &[u8]) -> Option<&'static str> {
    let (map, Contents { graph: g, names, lines }) = (file[0], contents_of(file).expect("a file that is there whole"));
    let idle_lines = map & 8 != 0 && g.each_hop().all(|hop| hop[3] == 0);
    let word = alone(&[
        ("12 initial state", map & 1 != 0 && g.initial == 0),
        ("12 no hops", map & 10 == 2 && g.hops.is_empty()),
        ("12 bit 3 over no hops", map & 10 == 10 && g.hops.is_empty()),
        ("12 bit 3 without bit 1", map & 10 == 8),
        ("12 no names", map & 4 != 0 && g.labels <= 1),
        ("12 lines all 0", idle_lines && !g.hops.is_empty()),
    ]);
    if word != Some("12 lines all 0") {
        return word;
    }
    // what would be said if it were not for the lines
    let unlined = [&[map - 8][..], &file[1..lines]].concat();
    match checker::read(&unlined, &vec![0; g.hops.len()]).0.number {
        0 => word,
        14 if names < lines => Some("12 lines all 0, before 14"),
        _ => Some("12 lines all 0, before 1 to 4"),
    }
}

/// Why bytes are left over.
fn left_word(file: &[u8]) -> &'static str {
    if file[0] & 8 == 0 {
        return "13 left over";
    }
    let g = contents_of(file).expect("a file that is there whole").graph;
    if g.each_hop().all(|hop| hop[3] == 0) {
        "13 left over behind lines all 0"
    } else {
        "13 left over behind lines"
    }
}

/// What an accepted file has.
fn accepted_file_word(names: bool, lines: bool) -> &'static str {
    match (names, lines) {
        (true, false) => "0 with names",
        (false, false) => "0 without names",
        (false, true) => "0 with lines",
        (true, true) => "0 with names and lines",
    }
}

/// Why a name is refused, from its length byte.
fn name_word(length: u8) -> &'static str {
    match length {
        0 => "14 no bytes",
        1..=32 => "14 the same",
        _ => "14 too many bytes",
    }
}

/// Which condition made reading answer with this number and place.
pub fn read_word(file: &[u8], number: u64, place: u64) -> Option<&'static str> {
    match number {
        0 => Some(accepted_file_word(file[0] & 4 != 0, file[0] & 8 != 0)),
        6 => Some("6"),
        11 => Some(cut_word(file)),
        12 if file[0] >= 32 => Some("12 bit 5, 6 or 7"),
        12 if file[0] >= 16 => Some("12 bit 4"),
        12 => bit_word(file),
        13 if file.len() > checker::LONGEST_FILE => Some("13 too long"),
        13 => Some(left_word(file)),
        14 if place > 65_535 && name_word(file[place as usize]) == "14 the same" => Some("14 the same, past byte 65,535"),
        14 => Some(name_word(file[place as usize])),
        _ => graph_word(&contents_of(file).expect("a file that is there whole").graph, number, place),
    }
}

/// Which condition made writing answer with this number and place.
pub fn write_word(g: &Graph, names: &[u8], number: u64, place: u64) -> Option<&'static str> {
    let place_at = place as usize;
    match number {
        0 => Some(accepted_file_word(!names.is_empty(), g.each_hop().any(|hop| hop[3] != 0))),
        6 => Some("6"),
        14 if place_at == names.len() => Some("14 ends early"),
        14 if place_at == (1..g.labels).fold(0, |at, _| at + 1 + usize::from(names.get(at).copied().unwrap_or(0))) => Some("14 left over"),
        14 => Some(name_word(names[place_at])),
        _ => graph_word(g, number, place),
    }
}

/// Which condition made the round question answer with this number and place.
pub fn round_word(g: &Graph, asked: u64, survives: bool, number: u64, place: u64) -> Option<&'static str> {
    let silent = |place: u64| g.hops.get(NUMBERS * place as usize + 1) == Some(&0);
    match number {
        0 => Some(if survives { "0 survives" } else { "0 falls" }),
        9 if asked < g.hop_count() as u64 => Some("9 not silent"),
        9 if silent(asked & 0xffff_ffff) => Some("9 cut to 32 bits a silent hop"),
        9 => Some("9 past the list"),
        10 => Some("10"),
        _ => graph_word(g, number, place),
    }
}

/// Why hops of a state are shown or not. A refused graph counts only where hops would stand there else.
pub fn hops_of_condition(side: u32, state: u32, one: &Graph, two: &Graph) -> Condition {
    let [refused1, refused2] = [one, two].map(|g| checker::check(&g.lent()));
    let has = |g: &Graph, state: u32| g.each_hop().any(|hop| u32::from(hop[0]) == state);
    let asked = match side {
        1 => one,
        2 => two,
        _ if refused1.number == 0 && refused2.number == 0 && has(one, state) && has(two, state) => return ("hops of", Some("another side")),
        _ => return ("hops of", None),
    };
    match (refused1.number, refused2.number) {
        (0, 0) if has(asked, state) => ("hops of", Some(if side == 1 { "shown on side 1" } else { "shown on side 2" })),
        (0, 0) if state < asked.states => ("hops of", Some("no hops")),
        (0, 0) if has(asked, state & 0xffff) => ("hops of", Some("absent state, cut to 16 bits a present one")),
        (0, 0) => ("hops of", Some("absent state")),
        (number, 0) if has(asked, state) => ("hops of, graph 1", graph_word(one, number, refused1.place)),
        (0, number) if has(asked, state) => ("hops of, graph 2", graph_word(two, number, refused2.place)),
        _ => ("hops of", None),
    }
}
