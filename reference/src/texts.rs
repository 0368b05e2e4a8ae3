//! Test texts from a seed, in families.

use crate::event::*;
use crate::generate::{self, bad_kind, bare_event, turn, use_unused};
use crate::random::Random;
use crate::record::{self, Record, BOARD};
use crate::text::{canonical, HEAD_DIGITS, MOST_BYTES};

pub struct Text {
    pub family: &'static str,
    pub bytes: Vec<u8>,
}

type Family = (&'static str, fn(&mut Random) -> Vec<u8>);

pub const FAMILIES: &[Family] = &[
    ("canonical", plain),
    ("dressed", dressed),
    ("dressed, long", dressed_long),
    ("byte replaced", byte_replaced),
    ("byte inserted", byte_inserted),
    ("byte removed", byte_removed),
    ("carriage returns", carriage_returns),
    ("stray comments", stray_comments),
    ("colons", colons),
    ("digits", digits),
    ("short heads", short_heads),
    ("foreign bytes", foreign_bytes),
    ("lines moved", lines_moved),
    ("last line", last_line),
    ("wrong N", wrong_sources),
    ("unknown kind", unknown_kind),
    ("unused parts", unused_parts),
    ("several faults", several_faults),
    ("retired", retired),
    ("nothing said", nothing_said),
    ("empty", empty),
    ("event counts", event_counts),
    ("lengths", lengths),
    ("noise", noise),
];

/// Text `index` of `seed`.
pub fn make(seed: u64, index: u64) -> Text {
    let (family, build) = FAMILIES[turn(index, FAMILIES.len())];
    let mut random = Random::for_index(seed, index);
    Text {
        family,
        bytes: build(&mut random),
    }
}

// Good texts.

/// The record with a look or a commit in the place of every chain, which no text may have.
fn unchained(mut record: Record, random: &mut Random) -> Record {
    for event in &mut record.events {
        if event.kind() == CHAIN {
            let commit = Event::new(COMMIT, random.below(256), 0);
            *event = random.pick(&[Event::new(LOOK, 0, 0), commit]);
        }
    }
    record
}

/// A record that the writer accepts, of any family.
fn any_record(random: &mut Random) -> Record {
    loop {
        let (_, build) = random.pick(generate::FAMILIES);
        if let Ok(record) = record::read(&build(random, BOARD), BOARD, BOARD.events) {
            return unchained(record, random);
        }
    }
}

/// A few events or none.
fn small_record(random: &mut Random) -> Record {
    let record = generate::small_record(random, BOARD);
    unchained(record, random)
}

/// One event or more.
fn with_events(random: &mut Random) -> Record {
    let record = generate::with_events(random, BOARD);
    unchained(record, random)
}

fn plain(random: &mut Random) -> Vec<u8> {
    canonical(&any_record(random))
}

fn dressed(random: &mut Random) -> Vec<u8> {
    let record = small_record(random);
    dress(&record, random)
}

fn dressed_long(random: &mut Random) -> Vec<u8> {
    let record = any_record(random);
    dress(&record, random)
}

/// How often, of 8 times, a text has each thing that changes nothing.
struct Dress {
    skipped: u32,
    comment: u32,
    blanks: u32,
    zeros: u32,
    upper: u32,
    carriage_return: u32,
}

fn choose_dress(random: &mut Random) -> Dress {
    let often = [0, 0, 1, 4, 8];
    Dress {
        skipped: random.pick(&[0, 0, 1, 4]),
        comment: random.pick(&often),
        blanks: random.pick(&often),
        zeros: random.pick(&often),
        upper: random.pick(&often),
        carriage_return: random.pick(&often),
    }
}

/// A text of the record, with comments, skipped lines, blanks, zeros before N and values, and the
/// like. Heads have their eight digits.
pub fn dress(record: &Record, random: &mut Random) -> Vec<u8> {
    let dress = choose_dress(random);
    let mut text = Vec::new();
    put_skipped(&mut text, &dress, random);
    put_part(&mut text, &record.sources.to_string(), 3, &dress, random);
    put_end(&mut text, &dress, random);
    for event in &record.events {
        put_skipped(&mut text, &dress, random);
        let (head, value) = (format!("{:08x}", event.head), format!("{:x}", event.value));
        put_part(&mut text, &head, HEAD_DIGITS, &dress, random);
        text.push(b':');
        put_part(&mut text, &value, 8, &dress, random);
        put_end(&mut text, &dress, random);
    }
    put_skipped(&mut text, &dress, random);
    if random.chance(1, 3) {
        // No final line feed.
        text.pop();
    }
    text
}

fn put_skipped(text: &mut Vec<u8>, dress: &Dress, random: &mut Random) {
    while random.chance(dress.skipped, 8) {
        put_blanks(text, dress, random);
        put_end(text, dress, random);
    }
}

fn put_blanks(text: &mut Vec<u8>, dress: &Dress, random: &mut Random) {
    if random.chance(dress.blanks, 8) {
        for _ in 0..random.between(1, 4) {
            text.push(random.pick(b" \t"));
        }
    }
}

fn put_part(text: &mut Vec<u8>, digits: &str, most: usize, dress: &Dress, random: &mut Random) {
    put_blanks(text, dress, random);
    if random.chance(dress.zeros, 8) {
        let zeros = random.between(0, (most - digits.len()) as u32) as usize;
        text.resize(text.len() + zeros, b'0');
    }
    for digit in digits.bytes() {
        text.push(if random.chance(dress.upper, 8) {
            digit.to_ascii_uppercase()
        } else {
            digit
        });
    }
    put_blanks(text, dress, random);
}

/// The end of a line: a comment or none, a carriage return or none.
fn put_end(text: &mut Vec<u8>, dress: &Dress, random: &mut Random) {
    if random.chance(dress.comment, 8) {
        put_comment(text, random.below(30) as usize, random);
    }
    if random.chance(dress.carriage_return, 8) {
        text.push(b'\r');
    }
    text.push(b'\n');
}

/// A comment of any bytes but a line feed.
fn put_comment(text: &mut Vec<u8>, size: usize, random: &mut Random) {
    text.push(b'#');
    let all = random.coin();
    for _ in 0..size {
        let byte = if all {
            random.word() as u8
        } else {
            random.pick(b"#: \t\r0123456789abcdef")
        };
        text.push(if byte == b'\n' { b'#' } else { byte });
    }
}

// Damaged texts.

/// A good text of some events, plain or dressed.
fn sound(random: &mut Random) -> Vec<u8> {
    let record = with_events(random);
    if random.coin() {
        canonical(&record)
    } else {
        dress(&record, random)
    }
}

/// A place of a byte, often in the first line or beside a colon or a line feed.
fn a_place(text: &[u8], random: &mut Random) -> usize {
    let last = text.len() as u32 - 1;
    let from = random.below(last + 1) as usize;
    match random.below(4) {
        0 => random.between(0, last.min(4)) as usize,
        1 => next(text, from, b":"),
        2 => next(text, from, b"\n"),
        _ => from,
    }
}

/// The next place, from `from` on, of one of the bytes; else the last place.
fn next(text: &[u8], from: usize, bytes: &[u8]) -> usize {
    let found = text[from..].iter().position(|byte| bytes.contains(byte));
    found.map_or(text.len() - 1, |more| from + more)
}

fn a_byte(random: &mut Random) -> u8 {
    match random.below(3) {
        0 => random.word() as u8,
        1 => random.pick(b"0123456789abcdefABCDEF"),
        _ => random.pick(b"\r\n#: \tgGxX-+,.;/@`_\0\x0B\x0C\x7F\x85\xA0\xFF"),
    }
}

fn insert(text: &mut Vec<u8>, place: usize, bytes: &[u8]) {
    text.splice(place..place, bytes.iter().copied());
}

fn byte_replaced(random: &mut Random) -> Vec<u8> {
    let mut text = sound(random);
    let place = a_place(&text, random);
    text[place] = a_byte(random);
    text
}

fn byte_inserted(random: &mut Random) -> Vec<u8> {
    let mut text = sound(random);
    let place = a_place(&text, random) + random.below(2) as usize;
    text.insert(place, a_byte(random));
    text
}

fn byte_removed(random: &mut Random) -> Vec<u8> {
    let mut text = sound(random);
    let place = a_place(&text, random);
    text.remove(place);
    text
}

/// One or more carriage returns, most of them beside a line feed.
fn carriage_returns(random: &mut Random) -> Vec<u8> {
    let returns: [&[u8]; 4] = [b"\r", b"\r\r", b"\r#", b"\r "];
    let mut text = sound(random);
    for _ in 0..random.between(1, 3) {
        let from = random.below(text.len() as u32) as usize;
        let feed = next(&text, from, b"\n");
        let place = match random.below(4) {
            0 | 1 => feed,
            2 => feed + 1,
            _ => from,
        };
        insert(&mut text, place, random.pick(&returns));
    }
    text
}

/// A comment where there was none, often in the middle of a part.
fn stray_comments(random: &mut Random) -> Vec<u8> {
    let mut text = sound(random);
    for _ in 0..random.between(1, 2) {
        let place = a_place(&text, random) + random.below(2) as usize;
        text.insert(place, b'#');
    }
    text
}

fn colons(random: &mut Random) -> Vec<u8> {
    let mut text = sound(random);
    let from = random.below(text.len() as u32) as usize;
    let colon = next(&text, from, b":");
    match random.below(6) {
        0 | 1 => text.insert(colon, b':'),
        2 => {
            text.remove(colon);
        }
        3 => text[colon] = random.pick(b";.= \t,"),
        4 => insert(&mut text, colon, b": "),
        _ => text.insert(from, b':'),
    }
    text
}

/// Too many digits or none, signs, prefixes, and the bytes just beside the digits.
fn digits(random: &mut Random) -> Vec<u8> {
    let mut record = with_events(random);
    let place = random.below(record.events.len() as u32) as usize;
    let event = &mut record.events[place];
    if random.coin() {
        event.value = random.word() >> random.below(32);
    }
    let (head, value) = (event.head, event.value);
    let junk = random.pick(&["/", ":", "@", "G", "`", "g", "-", "+", "0x", "_", ".", "٣"]);
    let bad = match random.below(14) {
        0 | 1 => format!("{head:09x}:{value:x}"),
        2 => format!("f{head:08x}:{value:x}"),
        3 | 4 => format!("{head:08x}:{value:09x}"),
        5 => format!("{head:08x}:f{value:08x}"),
        6 => format!(":{value:x}"),
        7 => format!("{head:08x}:"),
        8 => ":".to_string(),
        9 => format!("{junk}{head:07x}:{value:x}"),
        10 => format!("{head:08x}:{junk}{value:x}"),
        11 => format!("{head:08x}:{value:x}{junk}"),
        12 => format!("{head:07x} 0:{value:x}"),
        _ => format!("{head:08x}:{value:08x}"),
    };
    let sources = record.sources;
    let first = match random.below(20) {
        0 => format!("{sources:04}"),
        1 => format!("{junk}{sources}"),
        2 => format!("{sources}{junk}"),
        3 => format!("{sources:x}"),
        4 => format!("{sources} {sources}"),
        _ => format!("{sources:03}"),
    };
    let mut text = first + "\n";
    for (index, event) in record.events.iter().enumerate() {
        if index == place {
            text += &bad;
        } else {
            text += &event.to_string();
        }
        text.push('\n');
    }
    text.into_bytes()
}

/// The places of the heads of eight digits in a text.
fn heads(text: &[u8]) -> Vec<usize> {
    let (mut heads, mut start) = (Vec::new(), 0);
    for line in text.split_inclusive(|&byte| byte == b'\n') {
        let blank = |byte: &&u8| b" \t".contains(byte);
        let blanks = line.iter().take_while(blank).count();
        let digit = |byte: &&u8| byte.is_ascii_hexdigit();
        if line[blanks..].iter().take_while(digit).count() == HEAD_DIGITS {
            heads.push(start + blanks);
        }
        start += line.len();
    }
    heads
}

/// One of the heads of eight digits, often the first or the last.
fn a_head(text: &[u8], random: &mut Random) -> Option<usize> {
    let heads = heads(text);
    let (&first, &last) = (heads.first()?, heads.last()?);
    let any = random.pick(&heads);
    Some(random.pick(&[first, last, any, any]))
}

/// Leaves a head one to seven of its digits, most times without changing its number, and gives its
/// place.
fn shorten_head(text: &mut Vec<u8>, random: &mut Random) -> Option<usize> {
    let head = a_head(text, random)?;
    let last = head + HEAD_DIGITS - 1;
    let zeros = text[head..last].iter().take_while(|&&digit| digit == b'0');
    let zeros = zeros.count() as u32;
    let dropped = if zeros > 0 && random.chance(2, 3) {
        head..head + random.between(1, zeros) as usize
    } else if random.coin() {
        head..head + random.between(1, 7) as usize
    } else {
        head + random.between(1, 7) as usize..last + 1
    };
    text.drain(dropped);
    Some(head)
}

/// Makes the line of a head no HEAD:VALUE, whatever its head.
fn spoil_line(text: &mut Vec<u8>, head: usize, random: &mut Random) {
    let junk: [&[u8]; 9] = [b"/", b":", b"@", b"G", b"`", b"g", b"-", b"0x", b"#"];
    let colon = next(text, head, b":");
    match random.below(5) {
        0 => insert(text, colon + 1, b"000000000"),
        1 => insert(text, colon + 1, random.pick(&junk)),
        2 => insert(text, colon, random.pick(&junk)),
        3 => insert(text, head, random.pick(&junk[..8])),
        _ => text[colon] = random.pick(b";.= \t,"),
    }
}

/// Heads of one to seven digits, alone or beside other faults, in the same line or in others.
fn short_heads(random: &mut Random) -> Vec<u8> {
    let mut record = with_events(random);
    // The lines come before the record's questions.
    match random.below(10) {
        0 => spoil_kind(&mut record, random),
        1 => spoil_unused(&mut record, random),
        2 => put_chains(&mut record, random),
        3 => record.sources = random.pick(&[0, 1, 256, 999, 1000]),
        _ => {}
    }
    let mut text = dress_or_not(&record, random);
    let head = shorten_head(&mut text, random);
    match random.below(10) {
        // No HEAD:VALUE at all.
        0 | 1 => {
            if let Some(head) = head {
                spoil_line(&mut text, head, random);
            }
        }
        // The first bad line decides.
        2 | 3 => {
            if let Some(other) = a_head(&text, random) {
                spoil_line(&mut text, other, random);
            }
        }
        4 => {
            for _ in 0..random.between(1, 3) {
                shorten_head(&mut text, random);
            }
        }
        5 => {
            let place = a_place(&text, random);
            text[place] = a_byte(random);
        }
        _ => {}
    }
    text
}

/// Other white space, a NUL, bytes outside ASCII, a byte order mark.
fn foreign_bytes(random: &mut Random) -> Vec<u8> {
    let foreign: [&[u8]; 12] = [
        b"\0",
        b"\x0B",
        b"\x0C",
        b"\x1A",
        b"\x7F",
        b"\x80",
        b"\xFF",
        b"\xA0",
        b"\xC2\xA0",
        b"\xE2\x80\xA8",
        b"\xEF\xBC\x91",
        b"\xEF\xBB\xBF",
    ];
    let mut text = sound(random);
    let bytes = random.pick(&foreign);
    let place = match random.below(4) {
        0 => 0,
        1 => text.len(),
        _ => a_place(&text, random),
    };
    insert(&mut text, place, bytes);
    text
}

/// N twice, late or missing; lines swapped, doubled or joined.
fn lines_moved(random: &mut Random) -> Vec<u8> {
    let text = sound(random);
    let mut lines: Vec<&[u8]> = text.split_inclusive(|&byte| byte == b'\n').collect();
    let place = random.below(lines.len() as u32) as usize;
    match random.below(5) {
        0 => {
            lines.remove(0);
        }
        1 => lines.insert(place, lines[0]),
        2 => lines.swap(0, place),
        3 => lines.insert(place, lines[place]),
        _ => lines[place] = lines[place].strip_suffix(b"\n").unwrap_or(lines[place]),
    }
    lines.concat()
}

/// The end of the last line in all its forms.
fn last_line(random: &mut Random) -> Vec<u8> {
    let mut record = small_record(random);
    if random.chance(1, 3) {
        record.events.clear();
    }
    let mut text = canonical(&record);
    text.pop();
    let ends: [&[u8]; 16] = [
        b"", b"\r", b"\n", b"\r\n", b"\r\r", b"\r\r\n", b"\n\r", b"\n\r\r", b"\n\n", b"\n\n\r",
        b" ", b" \r", b"\r ", b"#", b"#\r\r", b"\r#",
    ];
    text.extend(random.pick(&ends));
    text
}

fn wrong_sources(random: &mut Random) -> Vec<u8> {
    let mut record = small_record(random);
    record.sources = random.pick(&[0, 1, 2, 255, 256, 257, 999, 1000]);
    dress_or_not(&record, random)
}

/// A record with faults of its own as a text; dressed only where N has no more than three digits.
fn dress_or_not(record: &Record, random: &mut Random) -> Vec<u8> {
    if record.sources > 999 || random.coin() {
        canonical(record)
    } else {
        dress(record, random)
    }
}

fn spoil_kind(record: &mut Record, random: &mut Random) {
    let place = random.below(record.events.len() as u32) as usize;
    let event = &mut record.events[place];
    event.head = bad_kind(random) << 16 | event.address();
}

fn spoil_unused(record: &mut Record, random: &mut Random) {
    let place = random.below(record.events.len() as u32) as usize;
    let event = &mut record.events[place];
    if random.coin() {
        *event = bare_event(random);
    }
    use_unused(event, random);
}

fn unknown_kind(random: &mut Random) -> Vec<u8> {
    let mut record = with_events(random);
    for _ in 0..random.between(1, 2) {
        spoil_kind(&mut record, random);
    }
    dress_or_not(&record, random)
}

fn unused_parts(random: &mut Random) -> Vec<u8> {
    let mut record = with_events(random);
    // Of an unknown kind and a used unused part the earlier decides.
    if random.chance(1, 3) {
        spoil_kind(&mut record, random);
    }
    for _ in 0..random.between(1, 3) {
        spoil_unused(&mut record, random);
    }
    dress_or_not(&record, random)
}

/// Faults of the record and bad lines in one text.
fn several_faults(random: &mut Random) -> Vec<u8> {
    let mut record = with_events(random);
    if random.coin() {
        spoil_kind(&mut record, random);
    }
    if random.coin() {
        spoil_unused(&mut record, random);
    }
    if random.chance(1, 3) {
        record.sources = random.pick(&[0, 1, 256, 999]);
    }
    let mut text = dress_or_not(&record, random);
    if random.chance(1, 4) {
        shorten_head(&mut text, random);
    }
    if random.chance(1, 3) {
        let place = a_place(&text, random);
        text[place] = a_byte(random);
    }
    text
}

/// Kind 7, which is refused with 27, alone or beside another fault, and what only looks like it.
fn retired(random: &mut Random) -> Vec<u8> {
    let mut record = with_events(random);
    match random.below(12) {
        // Nothing retired.
        0..=2 => put_events(&mut record, NEARLY_RETIRED, random),
        // The first of all faults decides.
        3..=5 => {
            put_events(&mut record, NEARLY_RETIRED_AND_WRONG, random);
            put_chains(&mut record, random);
        }
        // N comes before the events.
        6 => {
            record.sources = random.pick(&[0, 1, 256, 999]);
            put_chains(&mut record, random);
        }
        7 | 8 => {
            put_events(&mut record, NEARLY_RETIRED, random);
            put_chains(&mut record, random);
        }
        _ => put_chains(&mut record, random),
    }
    let mut text = dress_or_not(&record, random);
    if random.chance(1, 12) {
        let place = a_place(&text, random);
        text[place] = a_byte(random);
    }
    text
}

/// Heads and values that could be taken for kind 7, of kinds that the writer takes.
const NEARLY_RETIRED: &[(u32, u32)] = &[
    (0x0000_0007, 0),
    (0x0000_0070, 0),
    (0x0000_0700, 7),
    (0x0000_7000, 0),
    (0x0000_0000, 0x0007_0000),
    (0x0001_7000, 0),
    (0x0002_0007, 0x0007_0000),
    (0x0003_7000, 0),
    (0x0004_0BC9, 7),
    (0x0006_0000, 0),
    (0x0008_0000, 0),
    (0x0009_0000, 7),
    (0x0009_0000, 0x0007_0000),
    (0x000B_0007, 0),
    (0x000C_0000, 0),
    (0x000D_0007, 0),
    (0x000D_7000, 0),
];

/// The same, refused with 6 or 7.
const NEARLY_RETIRED_AND_WRONG: &[(u32, u32)] = &[
    (0x0070_0000, 0),
    (0x0700_0000, 0),
    (0x7000_0000, 0),
    (0x0017_0000, 0),
    (0x0107_0000, 0),
    (0x8007_0000, 0),
    (0xFFF7_0007, 7),
    (NO_KIND | 7, 0),
    (0x0001_0000, 7),
    (0x0003_0BC9, 0x0007_0000),
    (0x0005_0007, 0),
    (0x0006_0007, 0),
    (0x0006_0000, 7),
    (0x0008_0007, 0),
    (0x0008_0000, 7),
    (0x0009_7000, 0),
    (0x000C_0007, 0),
    (0x000C_0000, 0x0007_0000),
    (0x000D_0007, 7),
];

/// Puts in an event, often the first or the last.
fn put_event(record: &mut Record, event: Event, random: &mut Random) {
    let after = record.events.len() as u32;
    let any = random.between(0, after);
    let place = random.pick(&[0, after, any, any]);
    record.events.insert(place as usize, event);
}

fn put_events(record: &mut Record, choices: &[(u32, u32)], random: &mut Random) {
    for _ in 0..random.between(1, 3) {
        let (head, value) = random.pick(choices);
        put_event(record, Event { head, value }, random);
    }
}

/// One chain or more, in half of the texts with an address, a value or both.
fn put_chains(record: &mut Record, random: &mut Random) {
    let bare = random.coin();
    for _ in 0..random.pick(&[1, 1, 2, 3]) {
        let (mut address, mut value) = (0, 0);
        if !bare {
            let any = random.between(1, 0xFFFF);
            address = random.pick(&[0, 0, 1, 7, 0xFFFF, any]);
            let any = random.word() >> random.below(32);
            value = random.pick(&[0, 0, 1, 0x8000_0000, any]);
        }
        put_event(record, Event::new(CHAIN, address, value), random);
    }
}

/// Lines that are all skipped.
fn nothing_said(random: &mut Random) -> Vec<u8> {
    let dress = choose_dress(random);
    let mut text = Vec::new();
    for _ in 0..random.between(1, 12) {
        put_blanks(&mut text, &dress, random);
        put_end(&mut text, &dress, random);
    }
    if random.chance(1, 3) {
        text.pop();
    }
    text
}

fn empty(random: &mut Random) -> Vec<u8> {
    let texts: [&[u8]; 12] = [
        b"", b"", b"\n", b"\r\n", b"\r", b"\r\r", b"#", b" ", b"\t\n", b":", b"\n\n", b"\0",
    ];
    random.pick(&texts).to_vec()
}

/// About as many events as a record holds.
fn event_counts(random: &mut Random) -> Vec<u8> {
    let count = random.pick(&[3999, 4000, 4000, 4001, 4002]);
    let some = with_events(random);
    let mut record = Record {
        sources: some.sources,
        events: some.events.iter().copied().cycle().take(count).collect(),
    };
    if random.chance(1, 10) {
        record.sources = 1;
    }
    if random.chance(1, 10) {
        spoil_kind(&mut record, random);
    }
    let mut text = dress_or_not(&record, random);
    if random.chance(1, 4) {
        shorten_head(&mut text, random);
    }
    // One more line, which may be one too many whatever it holds.
    if random.coin() {
        if text.last() != Some(&b'\n') {
            text.push(b'\n');
        }
        let lines: [&[u8]; 9] = [
            b"?",
            b"4:\n",
            b"#\n",
            b" \r\n",
            b"0:0",
            b"50000:0\n",
            b"0000000:0\n",
            b"00000000:0",
            b"\r\r\n",
        ];
        text.extend(random.pick(&lines));
    }
    if random.chance(1, 10) {
        let place = a_place(&text, random);
        text[place] = a_byte(random);
    }
    text
}

/// Texts about as long as a text may be.
fn lengths(random: &mut Random) -> Vec<u8> {
    let mut text = match random.below(8) {
        0 => Vec::new(),
        1 => byte_replaced(random),
        2 => event_counts(random),
        3 => unknown_kind(random),
        4 => short_heads(random),
        _ => sound(random),
    };
    let size = match random.below(4) {
        0 => MOST_BYTES - 1,
        1 => MOST_BYTES,
        2 => MOST_BYTES + 1,
        _ => MOST_BYTES + random.between(2, 300_000) as usize,
    };
    let missing = size.saturating_sub(text.len());
    let padding = pad(missing, random);
    if random.coin() {
        insert(&mut text, 0, &padding);
    } else {
        if random.coin() && text.last() == Some(&b'\n') {
            // The padding goes on with the last line.
            text.pop();
            text.push(b'\t');
        }
        text.extend(padding);
    }
    text
}

/// So many bytes of lines that are skipped; the last may have no line feed.
fn pad(size: usize, random: &mut Random) -> Vec<u8> {
    let line: &[u8] = match random.below(8) {
        0 => b"\n",
        1 => b"\r\n",
        2 => b" ",
        3 => b" \t \t",
        4 => b"#",
        5 => b"# 00050000:0 \r\xFF\0",
        6 => b"# a comment\n",
        _ => b"   \t # a comment with a carriage return\r\n\n",
    };
    let mut padding: Vec<u8> = line.iter().copied().cycle().take(size).collect();
    if random.chance(3, 4) {
        if let Some(last) = padding.last_mut() {
            *last = b'\n';
        }
    }
    padding
}

/// Random bytes, or bits of lines in any order.
fn noise(random: &mut Random) -> Vec<u8> {
    let bits: [&[u8]; 20] = [
        b"0",
        b"5",
        b"F",
        b":",
        b"0:0",
        b"0000",
        b"0005",
        b"50000:0",
        b"00000000:0",
        b"00050000:0",
        b"\n",
        b"\n",
        b"\n",
        b"\r\n",
        b"\r",
        b" ",
        b"\t",
        b"#",
        b"#a#\n",
        b"4",
    ];
    let mut text = random.pick::<&[u8]>(&[b"", b"4\n", b"4\r\n"]).to_vec();
    let bytes = random.chance(1, 4);
    for _ in 0..random.below(24) {
        if bytes {
            text.push(random.word() as u8);
        } else {
            text.extend(random.pick(&bits));
        }
    }
    text
}
