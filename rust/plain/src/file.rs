use crate::{check, hop_count, refuse, Answer, Contents, Shape, ACCEPTED, LONGEST_FILE, MOST_HOPS, NUMBERS};

fn number_at(bytes: &[u8], place: usize) -> u16 {
    u16::from_le_bytes([bytes[place], bytes[place + 1]])
}

/// Where the contents of a file stand; `None` where it ends before them.
struct Layout {
    states: u16,
    labels: u16,
    initial: u16,
    hops_place: usize,
    hops: usize,
    names_place: usize,
    /// Where the names end and the lines begin; without lines the end.
    lines_place: usize,
    end: usize,
    /// A bit stands over a field that holds what absence means.
    idle_bit: bool,
}

fn layout(file: &[u8]) -> Option<Layout> {
    if file.len() < 5 {
        return None;
    }
    let (states, labels) = (number_at(file, 1), number_at(file, 3));
    let mut at = 5;
    let mut idle_bit = false;
    let mut initial = 0;
    if file[0] & 1 != 0 {
        if file.len() - at < 2 {
            return None;
        }
        initial = number_at(file, at);
        idle_bit |= initial == 0;
        at += 2;
    }
    let mut hops = 0;
    let mut hops_place = at;
    if file[0] & 2 != 0 {
        if file.len() - at < 2 {
            return None;
        }
        hops = usize::from(number_at(file, at));
        idle_bit |= hops == 0;
        hops_place = at + 2;
        if file.len() - hops_place < 6 * hops {
            return None;
        }
        at = hops_place + 6 * hops;
    }
    let names_place = at;
    if file[0] & 4 != 0 {
        idle_bit |= labels <= 1;
        at = skip_names(file, at, labels.into())?;
    }
    let lines_place = at;
    if file[0] & 8 != 0 {
        if file.len() - at < 2 * hops {
            return None;
        }
        at += 2 * hops;
        idle_bit |= file[lines_place..at].iter().all(|&byte| byte == 0);
    }
    Some(Layout { states, labels, initial, hops_place, hops, names_place, lines_place, end: at, idle_bit })
}

/// The place behind the names for labels 1 upward; `None` where the bytes end before it.
fn skip_names(bytes: &[u8], mut at: usize, labels: usize) -> Option<usize> {
    for _ in 1..labels {
        if at >= bytes.len() {
            return None;
        }
        at += 1 + usize::from(bytes[at]);
        if at > bytes.len() {
            return None;
        }
    }
    Some(at)
}

/// The first bad name of the names that fill `bytes[start..end]`. The places of names fit 16 bits, but for those in the last thousand bytes of the longest file.
fn first_bad_name(bytes: &[u8], start: usize, end: usize) -> Option<usize> {
    if end <= 1 << 16 {
        first_bad(bytes, start, end, |place| place as u16, usize::from)
    } else {
        first_bad(bytes, start, end, |place| place as u32, |place| place as usize)
    }
}

/// The places of those that passed are kept in the order of the names, each put into as few bits as it fits: most of the time is taken by moving them.
fn first_bad<P: Copy>(bytes: &[u8], start: usize, end: usize, put: impl Fn(usize) -> P, place_of: impl Fn(P) -> usize) -> Option<usize> {
    let mut passed: Vec<P> = vec![];
    let mut at = start;
    while at < end {
        let len = bytes[at];
        if len == 0 || len > 32 {
            return Some(at);
        }
        let name = name_at(bytes, at);
        match passed.binary_search_by(|&place| name_at(bytes, place_of(place)).cmp(name)) {
            Ok(_) => return Some(at),
            Err(gap) => passed.insert(gap, put(at)),
        }
        at += name.len();
    }
    None
}

/// The name at a place with its length byte in front, so that names are ordered by length first.
#[inline]
fn name_at(bytes: &[u8], place: usize) -> &[u8] {
    &bytes[place..=place + usize::from(bytes[place])]
}

/// Decodes the hops, six bytes each, and their lines, two bytes each or 0 where there are none, into a list that has room for just these.
fn take_hops(file: &[u8], layout: &Layout, list: &mut [u16]) {
    for (hop, bytes) in list.chunks_exact_mut(NUMBERS).zip(file[layout.hops_place..].chunks_exact(6)) {
        hop.copy_from_slice(&[number_at(bytes, 0), number_at(bytes, 2), number_at(bytes, 4), 0]);
    }
    for (hop, bytes) in list.chunks_exact_mut(NUMBERS).zip(file[layout.lines_place..layout.end].chunks_exact(2)) {
        hop[3] = number_at(bytes, 0);
    }
}

/// The entry file read. Nothing is written before the last check has passed; the hops are decoded again then.
pub fn read(file: &[u8], hops: &mut [u16]) -> (Answer, Contents) {
    match admitted(file, hops.len()) {
        Err(refusal) => (refusal, Contents::default()),
        Ok(layout) => {
            take_hops(file, &layout, &mut hops[..NUMBERS * layout.hops]);
            (ACCEPTED, contents(&layout))
        }
    }
}

/// The layout of a file that every check lets pass, with room for so many numbers.
fn admitted(file: &[u8], room: usize) -> Result<Layout, Answer> {
    if file.len() > LONGEST_FILE {
        return Err(refuse(13, LONGEST_FILE));
    }
    if !file.is_empty() && file[0] > 15 {
        return Err(refuse(12, 0));
    }
    let layout = layout(file).ok_or(refuse(11, file.len()))?;
    if layout.end < file.len() {
        return Err(refuse(13, layout.end));
    }
    if layout.idle_bit {
        return Err(refuse(12, 0));
    }
    if let Some(place) = first_bad_name(file, layout.names_place, layout.lines_place) {
        return Err(refuse(14, place));
    }
    let checked = check_copy(file, &layout);
    if checked.number != 0 {
        return Err(checked);
    }
    if room < NUMBERS * layout.hops {
        return Err(refuse(6, 0));
    }
    Ok(layout)
}

/// The entry check, of a copy of the hops.
fn check_copy(file: &[u8], layout: &Layout) -> Answer {
    if layout.hops > MOST_HOPS {
        return refuse(1, 0);
    }
    let mut copy = [0; NUMBERS * MOST_HOPS];
    let copy = &mut copy[..NUMBERS * layout.hops];
    take_hops(file, layout, copy);
    check(Shape { states: layout.states.into(), labels: layout.labels.into(), initial: layout.initial.into() }, copy)
}

fn contents(layout: &Layout) -> Contents {
    let names_len = layout.lines_place - layout.names_place;
    Contents {
        states: layout.states.into(),
        labels: layout.labels.into(),
        initial: layout.initial.into(),
        hops: layout.hops as u32,
        names_place: if names_len == 0 { 0 } else { layout.names_place },
        names_len,
    }
}

/// The entry file write, with the length.
pub fn write(shape: Shape, hops: &[u16], names: &[u8], out: &mut [u8]) -> (Answer, usize) {
    let checked = check(shape, hops);
    if checked.number != 0 {
        return (checked, 0);
    }
    if !names.is_empty() {
        match skip_names(names, 0, shape.labels as usize) {
            None => return (refuse(14, names.len()), 0),
            Some(end) if end < names.len() => return (refuse(14, end), 0),
            Some(_) => {}
        }
        if let Some(place) = first_bad_name(names, 0, names.len()) {
            return (refuse(14, place), 0);
        }
    }
    let initial_len = if shape.initial == 0 { 0 } else { 2 };
    let hops_len = if hops.is_empty() { 0 } else { 2 + 6 * hop_count(hops) };
    let lined = hops.chunks_exact(NUMBERS).any(|hop| hop[3] != 0);
    let lines_len = if lined { 2 * hop_count(hops) } else { 0 };
    let len = 5 + initial_len + hops_len + names.len() + lines_len;
    if out.len() < len {
        return (refuse(6, 0), 0);
    }
    out[0] = u8::from(shape.initial != 0) + 2 * u8::from(!hops.is_empty()) + 4 * u8::from(!names.is_empty()) + 8 * u8::from(lined);
    put(out, 1, shape.states as u16);
    put(out, 3, shape.labels as u16);
    let mut at = 5;
    if shape.initial != 0 {
        put(out, at, shape.initial as u16);
        at += 2;
    }
    if !hops.is_empty() {
        put(out, at, hop_count(hops) as u16);
        at += 2;
        for (hop, bytes) in hops.chunks_exact(NUMBERS).zip(out[at..].chunks_exact_mut(6)) {
            put(bytes, 0, hop[0]);
            put(bytes, 2, hop[1]);
            put(bytes, 4, hop[2]);
        }
        at += 6 * hop_count(hops);
    }
    out[at..at + names.len()].copy_from_slice(names);
    at += names.len();
    if lined {
        for (hop, bytes) in hops.chunks_exact(NUMBERS).zip(out[at..].chunks_exact_mut(2)) {
            put(bytes, 0, hop[3]);
        }
    }
    (ACCEPTED, len)
}

fn put(out: &mut [u8], place: usize, number: u16) {
    out[place] = number as u8;
    out[place + 1] = (number >> 8) as u8;
}
