//! The same work written by hand in safe Rust, over the same kinds of values: hand_written_rust INPUTS ROUNDS WORKLOAD..
use std::hint::black_box;

const WIDTH: usize = 4;
const PIECE: usize = 65_536;
const FULL: usize = 16_777_215;
const BUFFER_LEN: usize = 8_192;
const KINDS: [u8; WIDTH] = [8, 253, 253, 8];
const NAMES: [&str; WIDTH] = ["id", "name", "note", "age"];

#[derive(Clone)]
enum Value {
    Null,
    Bytes(Vec<u8>),
    Int(i64),
}

enum Content {
    Null,
    Number(i128),
    Bytes(Vec<u8>),
}

fn load(name: &str) -> Vec<u8> {
    std::fs::read(format!("{}/{name}", std::env::args().nth(1).unwrap())).unwrap()
}

fn packet_to_chunks(mut number: u8, payload: &[u8], out: &mut Vec<u8>) {
    out.reserve(payload.len() + 4 * (payload.len() / FULL + 1));
    let mut rest = payload;
    loop {
        let n = rest.len().min(FULL);
        out.extend_from_slice(&[n as u8, (n >> 8) as u8, (n >> 16) as u8, number]);
        out.extend_from_slice(&rest[..n]);
        rest = &rest[n..];
        number = number.wrapping_add(1);
        if n < FULL {
            return;
        }
    }
}

#[derive(Default)]
struct Splitter {
    head: [u8; 4],
    had: usize,
    want: usize,
    number: u8,
    payload: Vec<u8>,
}

impl Splitter {
    /// Hands each payload that stands whole over to `take`, which answers the number of the next packet.
    fn feed(&mut self, mut piece: &[u8], limit: usize, take: &mut impl FnMut(&mut Vec<u8>, u8) -> Option<u8>) -> Option<()> {
        loop {
            if self.had < 4 {
                let n = (4 - self.had).min(piece.len());
                self.head[self.had..self.had + n].copy_from_slice(&piece[..n]);
                self.had += n;
                piece = &piece[n..];
                if self.had < 4 {
                    return Some(());
                }
                self.want = u32::from_le_bytes([self.head[0], self.head[1], self.head[2], 0]) as usize;
                if self.payload.len() + self.want > limit {
                    return None;
                }
            }
            let n = self.want.min(piece.len());
            self.payload.extend_from_slice(&piece[..n]);
            piece = &piece[n..];
            self.want -= n;
            if self.want > 0 {
                return Some(());
            }
            if self.head[3] != self.number {
                return None;
            }
            self.had = 0;
            self.number = self.number.wrapping_add(1);
            if self.payload.is_empty() || self.payload.len() % FULL != 0 {
                self.number = take(&mut self.payload, self.number)?;
                self.payload.clear();
            }
        }
    }
}

fn split(stream: &[u8]) -> Option<usize> {
    let mut packets = Vec::new();
    let mut splitter = Splitter::default();
    for piece in stream.chunks(PIECE) {
        splitter.feed(piece, 1 << 25, &mut |payload, number| {
            packets.push(std::mem::take(payload));
            Some(number)
        })?;
    }
    Some(packets.len())
}

fn load_sets(name: &str, count: usize, width: usize) -> Vec<Vec<Value>> {
    let data = load(name);
    let mut rest = &data[..];
    let mut next = || {
        let kind = rest[0];
        if kind == 6 {
            rest = &rest[1..];
            return Value::Null;
        }
        let (value, more) = cell(kind, &rest[1..]).unwrap();
        rest = more;
        value
    };
    (0..count).map(|_| (0..width).map(|_| next()).collect()).collect()
}

fn lenenc(bytes: &[u8]) -> Option<(&[u8], &[u8])> {
    let (first, rest) = bytes.split_first()?;
    let (size, rest) = match first {
        0..=250 => (*first as usize, rest),
        252 => (u16::from_le_bytes(rest.get(..2)?.try_into().ok()?) as usize, &rest[2..]),
        _ => return None,
    };
    rest.split_at_checked(size)
}

/// The value of a cell of this type, and what follows it.
fn cell(kind: u8, bytes: &[u8]) -> Option<(Value, &[u8])> {
    match kind {
        8 => {
            let (number, more) = bytes.split_at_checked(8)?;
            Some((Value::Int(i64::from_le_bytes(number.try_into().ok()?)), more))
        }
        253 => {
            let (text, more) = lenenc(bytes)?;
            Some((Value::Bytes(text.to_vec()), more))
        }
        _ => None,
    }
}

fn put_literal(value: &Value, out: &mut Vec<u8>) {
    match value {
        Value::Null => out.extend_from_slice(b"NULL"),
        Value::Int(n) => {
            use std::io::Write;
            write!(out, "{n}").unwrap();
        }
        Value::Bytes(bytes) => {
            if std::str::from_utf8(bytes).is_err() {
                out.extend_from_slice(b"0x");
                out.reserve(2 * bytes.len());
                const DIGITS: &[u8; 16] = b"0123456789ABCDEF";
                bytes.iter().for_each(|b| out.extend_from_slice(&[DIGITS[(b >> 4) as usize], DIGITS[(b & 15) as usize]]));
                return;
            }
            out.reserve(bytes.len() + 2);
            out.push(b'\'');
            let mut start = 0;
            for (i, &b) in bytes.iter().enumerate() {
                let pair = match b {
                    0 => b'0',
                    b'\n' => b'n',
                    b'\r' => b'r',
                    26 => b'Z',
                    b'\\' | b'\'' | b'"' => b,
                    _ => continue,
                };
                out.extend_from_slice(&bytes[start..i]);
                out.extend_from_slice(&[b'\\', pair]);
                start = i + 1;
            }
            out.extend_from_slice(&bytes[start..]);
            out.push(b'\'');
        }
    }
}

fn marks(query: &[u8]) -> Vec<usize> {
    (0..query.len()).filter(|&k| query[k] == b'?').collect()
}

fn bind(query: &[u8], marks: &[usize], set: &[Value], out: &mut Vec<u8>) {
    let mut at = 0;
    for (mark, value) in marks.iter().zip(set) {
        out.extend_from_slice(&query[at..*mark]);
        put_literal(value, out);
        at = mark + 1;
    }
    out.extend_from_slice(&query[at..]);
}

/// How sets are sent: all into one buffer, or each into a buffer that is emptied before, with the marks found for each set or once.
#[derive(Clone, Copy, PartialEq)]
enum Way {
    Together,
    Apart,
    Kept,
}

fn send_text(query: &[u8], sets: &[Vec<Value>], times: usize, way: Way) -> usize {
    let (mut out, mut command, mut written) = (Vec::new(), Vec::new(), 0);
    for _ in 0..times {
        out.clear();
        written = 0;
        let once = marks(query);
        for set in sets {
            command.clear();
            command.push(3);
            if way != Way::Together {
                written += out.len();
                out.clear();
            }
            if way == Way::Apart {
                bind(query, &marks(query), set, &mut command);
            } else {
                bind(query, &once, set, &mut command);
            }
            packet_to_chunks(0, &command, &mut out);
        }
    }
    written + out.len()
}

fn kind_of(value: &Value) -> u8 {
    match value {
        Value::Null => 6,
        Value::Int(_) => 8,
        Value::Bytes(_) => 253,
    }
}

fn put_cell(value: &Value, out: &mut Vec<u8>) {
    match value {
        Value::Null => {}
        Value::Int(number) => out.extend_from_slice(&number.to_le_bytes()),
        Value::Bytes(bytes) => {
            if bytes.len() < 251 {
                out.push(bytes.len() as u8);
            } else {
                out.extend_from_slice(&[252, bytes.len() as u8, (bytes.len() >> 8) as u8]);
            }
            out.extend_from_slice(bytes);
        }
    }
}

fn put_prepare(query: &[u8], command: &mut Vec<u8>, out: &mut Vec<u8>) {
    command.clear();
    command.push(0x16);
    command.extend_from_slice(query);
    packet_to_chunks(0, command, out);
}

fn put_execution(set: &[Value], command: &mut Vec<u8>, out: &mut Vec<u8>) {
    command.clear();
    command.extend_from_slice(&[0x17, 1, 0, 0, 0, 0, 1, 0, 0, 0]);
    for eight in set.chunks(8) {
        let bit = |(place, value): (usize, &Value)| (matches!(value, Value::Null) as u8) << place;
        command.push(eight.iter().enumerate().map(bit).sum());
    }
    command.push(1);
    for value in set {
        command.extend_from_slice(&[kind_of(value), 0]);
    }
    for value in set {
        put_cell(value, command);
    }
    packet_to_chunks(0, command, out);
}

fn send_execute(query: &[u8], sets: &[Vec<Value>], times: usize) -> usize {
    let (mut out, mut command) = (Vec::new(), Vec::new());
    for _ in 0..times {
        out.clear();
        put_prepare(query, &mut command, &mut out);
        for set in sets {
            put_execution(set, &mut command, &mut out);
        }
    }
    out.len()
}

/// Each set is sent by itself, of a statement that was prepared before.
fn send_execute_kept(sets: &[Vec<Value>], times: usize) -> usize {
    let (mut out, mut command, mut written) = (Vec::new(), Vec::new(), 0);
    for _ in 0..times {
        written = 0;
        for set in sets {
            out.clear();
            put_execution(set, &mut command, &mut out);
            written += out.len();
        }
    }
    written
}

/// What stands in the buffer goes to a writer that counts the bytes and keeps none.
#[inline(never)]
fn flush(out: &mut Vec<u8>, written: &mut usize) {
    *written += black_box(&out[..]).len();
    out.clear();
}

/// All sets to a writer: packets are gathered in one buffer, which is flushed once it has so many bytes.
fn send_text_to(query: &[u8], sets: &[Vec<Value>], times: usize) -> usize {
    let (mut out, mut command, mut written) = (Vec::new(), Vec::new(), 0);
    let marks = marks(query);
    for _ in 0..times {
        written = 0;
        for set in sets {
            command.clear();
            command.push(3);
            bind(query, &marks, set, &mut command);
            packet_to_chunks(0, &command, &mut out);
            if out.len() >= BUFFER_LEN {
                flush(&mut out, &mut written);
            }
        }
        flush(&mut out, &mut written);
    }
    written
}

fn send_execute_to(query: &[u8], sets: &[Vec<Value>], times: usize) -> usize {
    let (mut out, mut command, mut written) = (Vec::new(), Vec::new(), 0);
    for _ in 0..times {
        written = 0;
        put_prepare(query, &mut command, &mut out);
        for set in sets {
            put_execution(set, &mut command, &mut out);
            if out.len() >= BUFFER_LEN {
                flush(&mut out, &mut written);
            }
        }
        flush(&mut out, &mut written);
    }
    written
}

/// All sets make one request here.
fn put_request(sets: &[Vec<Value>], command: &mut Vec<u8>, out: &mut Vec<u8>) {
    command.clear();
    command.extend_from_slice(&[0xfa, 1, 0, 0, 0, 0x80, 0]);
    for place in 0..sets[0].len() {
        let kind = sets.iter().map(|set| kind_of(&set[place])).find(|kind| *kind != 6);
        command.extend_from_slice(&[kind.unwrap_or(6), 0]);
    }
    for value in sets.iter().flatten() {
        command.push(matches!(value, Value::Null) as u8);
        put_cell(value, command);
    }
    packet_to_chunks(0, command, out);
}

fn send_bulk(query: &[u8], sets: &[Vec<Value>], times: usize) -> usize {
    let (mut out, mut command) = (Vec::new(), Vec::new());
    for _ in 0..times {
        out.clear();
        put_prepare(query, &mut command, &mut out);
        put_request(sets, &mut command, &mut out);
    }
    out.len()
}

/// What has a value: a copy is made of it, as an object behind a trait gives it.
trait ToValue {
    fn to_value(&self) -> Value;
}

impl ToValue for Value {
    fn to_value(&self) -> Value {
        self.clone()
    }
}

type Objects = Vec<Box<dyn ToValue>>;

fn values_of(objects: &Objects) -> Vec<Value> {
    objects.iter().map(|object| object.to_value()).collect()
}

/// A bulk request wants all values before its first byte; the other roads make those of one set at a time.
fn send_values(query: &[u8], lists: &[Objects], times: usize, road: &str) -> usize {
    let (mut out, mut command) = (Vec::new(), Vec::new());
    let marks = marks(query);
    for _ in 0..times {
        out.clear();
        if road != "text" {
            put_prepare(query, &mut command, &mut out);
        }
        if road == "bulk" {
            let sets: Vec<_> = lists.iter().map(values_of).collect();
            put_request(&sets, &mut command, &mut out);
            continue;
        }
        for objects in lists {
            let set = values_of(objects);
            if road == "execute" {
                put_execution(&set, &mut command, &mut out);
                continue;
            }
            command.clear();
            command.push(3);
            bind(query, &marks, &set, &mut command);
            packet_to_chunks(0, &command, &mut out);
        }
    }
    out.len()
}

fn literal(text: &[u8]) -> Option<(Content, &[u8])> {
    if text.len() >= 4 && text[..4].eq_ignore_ascii_case(b"null") {
        return Some((Content::Null, &text[4..]));
    }
    if let Some(inside) = text.strip_prefix(b"'") {
        let mut bytes = Vec::new();
        let mut rest = inside;
        loop {
            let run = rest.iter().position(|b| matches!(b, b'\'' | b'\\'))?;
            bytes.extend_from_slice(&rest[..run]);
            match &rest[run..] {
                [b'\'', b'\'', more @ ..] => {
                    bytes.push(b'\'');
                    rest = more;
                }
                [b'\'', more @ ..] => return Some((Content::Bytes(bytes), more)),
                [_, b, more @ ..] => {
                    match b {
                        b'0' => bytes.push(0),
                        b'b' => bytes.push(8),
                        b'n' => bytes.push(b'\n'),
                        b'r' => bytes.push(b'\r'),
                        b't' => bytes.push(b'\t'),
                        b'Z' => bytes.push(26),
                        b'%' | b'_' => bytes.extend_from_slice(&[b'\\', *b]),
                        _ => bytes.push(*b),
                    }
                    rest = more;
                }
                _ => return None,
            }
        }
    }
    let (minus, digits) = match text.strip_prefix(b"-") {
        Some(digits) => (true, digits),
        None => (false, text),
    };
    let len = digits.iter().take_while(|b| b.is_ascii_digit()).count();
    let mut n: u64 = 0;
    for b in &digits[..len] {
        n = n.checked_mul(10)?.checked_add(u64::from(b - b'0'))?;
    }
    let n = i128::from(n);
    (len > 0).then(|| (Content::Number(if minus { -n } else { n }), &digits[len..]))
}

fn text_set(query: &[u8], marks: &[usize], text: &[u8]) -> Option<Vec<Content>> {
    let (mut set, mut at, mut rest) = (Vec::new(), 0, text);
    for mark in marks {
        let (content, more) = literal(rest.strip_prefix(&query[at..*mark])?)?;
        set.push(content);
        rest = more;
        at = mark + 1;
    }
    (rest == &query[at..]).then_some(set)
}

fn content(value: Value) -> Content {
    match value {
        Value::Null => Content::Null,
        Value::Bytes(bytes) => Content::Bytes(bytes),
        Value::Int(number) => Content::Number(i128::from(number)),
    }
}

/// The contents of an execution's body behind the statement's id.
fn execute_set(places: usize, body: &[u8]) -> Option<Vec<Content>> {
    let rest = body.strip_prefix(&[0, 1, 0, 0, 0])?;
    let (nulls, rest) = rest.split_at_checked(places.div_ceil(8))?;
    let (types, mut rest) = rest.strip_prefix(&[1])?.split_at_checked(2 * places)?;
    let mut set = Vec::new();
    for (place, kind) in types.chunks(2).enumerate() {
        if nulls[place / 8] >> (place % 8) & 1 == 1 {
            set.push(Content::Null);
            continue;
        }
        let (value, more) = cell(kind[0], rest)?;
        set.push(content(value));
        rest = more;
    }
    rest.is_empty().then_some(set)
}

/// Puts the sets of a bulk request's body behind the statement's id.
fn bulk_sets(places: usize, body: &[u8], sets: &mut Vec<Vec<Content>>) -> Option<()> {
    let (types, mut rest) = body.strip_prefix(&[0x80, 0])?.split_at_checked(2 * places)?;
    while !rest.is_empty() {
        let mut set = Vec::new();
        for kind in types.chunks(2) {
            let (indicator, more) = rest.split_first()?;
            rest = more;
            match indicator {
                0 => {
                    let (value, more) = cell(kind[0], rest)?;
                    set.push(content(value));
                    rest = more;
                }
                1 => set.push(Content::Null),
                _ => return None,
            }
        }
        sets.push(set);
    }
    Some(())
}

fn receive(query: &[u8], stream: &[u8], piece: usize) -> Option<Vec<Vec<Content>>> {
    let marks = marks(query);
    let mut sets = Vec::new();
    let mut prepared = false;
    let mut splitter = Splitter::default();
    for piece in stream.chunks(piece) {
        splitter.feed(piece, FULL, &mut |payload, _| {
            match payload.split_first()? {
                (0x03, text) => sets.push(text_set(query, &marks, text)?),
                (0x16, text) => prepared = text == query,
                (0x17, body) if prepared => sets.push(execute_set(marks.len(), body.strip_prefix(&[1, 0, 0, 0])?)?),
                (0xfa, body) if prepared => bulk_sets(marks.len(), body.strip_prefix(&[1, 0, 0, 0])?, &mut sets)?,
                _ => return None,
            }
            Some(0)
        })?;
    }
    Some(sets)
}

fn recode(query: &[u8], stream: &[u8]) -> Option<usize> {
    let value = |content| match content {
        Content::Null => Some(Value::Null),
        Content::Bytes(bytes) => Some(Value::Bytes(bytes)),
        Content::Number(number) => i64::try_from(number).ok().map(Value::Int),
    };
    let (mut out, mut command) = (Vec::new(), Vec::new());
    put_prepare(query, &mut command, &mut out);
    for set in receive(query, stream, PIECE)? {
        let values: Option<Vec<Value>> = set.into_iter().map(value).collect();
        put_execution(&values?, &mut command, &mut out);
    }
    Some(out.len())
}

fn text_row(payload: &[u8]) -> Option<Vec<Value>> {
    let (mut row, mut rest) = (Vec::new(), payload);
    for _ in 0..WIDTH {
        if let Some(more) = rest.strip_prefix(&[251]) {
            row.push(Value::Null);
            rest = more;
        } else {
            let (value, more) = cell(253, rest)?;
            row.push(value);
            rest = more;
        }
    }
    rest.is_empty().then_some(row)
}

fn binary_row(payload: &[u8]) -> Option<Vec<Value>> {
    let (nulls, mut rest) = payload.strip_prefix(&[0])?.split_first()?;
    let mut row = Vec::new();
    for (place, kind) in KINDS.iter().enumerate() {
        if nulls >> (place + 2) & 1 == 1 {
            row.push(Value::Null);
            continue;
        }
        let (value, more) = cell(*kind, rest)?;
        row.push(value);
        rest = more;
    }
    rest.is_empty().then_some(row)
}

/// Cuts packets out of pieces, and hands each payload over where it lies; what a piece cuts is put together in a buffer.
#[derive(Default)]
struct InPlace {
    cut: Vec<u8>,
    number: u8,
}

impl InPlace {
    fn size(bytes: &[u8]) -> usize {
        u32::from_le_bytes([bytes[0], bytes[1], bytes[2], 0]) as usize
    }

    fn next_number(&mut self, found: u8) -> Option<()> {
        let number = self.number;
        self.number = number.wrapping_add(1);
        (found == number).then_some(())
    }

    fn feed(&mut self, mut piece: &[u8], take: &mut impl FnMut(&[u8]) -> Option<()>) -> Option<()> {
        while !self.cut.is_empty() {
            let has_head = self.cut.len() >= 4;
            let want = if has_head { 4 + Self::size(&self.cut) } else { 4 };
            if has_head && self.cut.len() == want {
                self.next_number(self.cut[3])?;
                take(&self.cut[4..])?;
                self.cut.clear();
                break;
            }
            let (more, rest) = piece.split_at((want - self.cut.len()).min(piece.len()));
            if more.is_empty() {
                return Some(());
            }
            self.cut.extend_from_slice(more);
            piece = rest;
        }
        while let Some((head, rest)) = piece.split_at_checked(4) {
            let Some((payload, rest)) = rest.split_at_checked(Self::size(head)) else { break };
            self.next_number(head[3])?;
            take(payload)?;
            piece = rest;
        }
        self.cut.extend_from_slice(piece);
        Some(())
    }
}

/// A cell where it lies.
#[derive(Clone, Copy)]
enum Cell<'p> {
    Null,
    Number(i64),
    Bytes(&'p [u8]),
}

fn lent_text_row(payload: &[u8]) -> Option<[Cell<'_>; WIDTH]> {
    let (mut row, mut rest) = ([Cell::Null; WIDTH], payload);
    for cell in &mut row {
        if let Some(more) = rest.strip_prefix(&[251]) {
            rest = more;
        } else {
            let (text, more) = lenenc(rest)?;
            *cell = Cell::Bytes(text);
            rest = more;
        }
    }
    rest.is_empty().then_some(row)
}

fn lent_binary_row(payload: &[u8]) -> Option<[Cell<'_>; WIDTH]> {
    let (nulls, mut rest) = payload.strip_prefix(&[0])?.split_first()?;
    let mut row = [Cell::Null; WIDTH];
    for (place, cell) in row.iter_mut().enumerate() {
        if nulls >> (place + 2) & 1 == 1 {
            continue;
        }
        if KINDS[place] == 8 {
            let (number, more) = rest.split_at_checked(8)?;
            *cell = Cell::Number(i64::from_le_bytes(number.try_into().ok()?));
            rest = more;
        } else {
            let (text, more) = lenenc(rest)?;
            *cell = Cell::Bytes(text);
            rest = more;
        }
    }
    rest.is_empty().then_some(row)
}

fn lent_row(payload: &[u8], binary: bool) -> Option<[Cell<'_>; WIDTH]> {
    if binary { lent_binary_row(payload) } else { lent_text_row(payload) }
}

/// What the cells of a row come to, of bytes how many, and 1 for the row.
fn sum_of(row: &[Cell<'_>; WIDTH]) -> usize {
    let amount = |cell: &Cell<'_>| match cell {
        Cell::Null => 0,
        Cell::Number(number) => *number as usize,
        Cell::Bytes(bytes) => bytes.len(),
    };
    row.iter().map(amount).sum::<usize>() + 1
}

/// Hands over each row of a reply, where it lies.
fn lend_rows(stream: &[u8], binary: bool, take: &mut impl FnMut(&[u8], &[Cell<'_>; WIDTH])) -> Option<()> {
    let mut reader = InPlace { number: 1, ..InPlace::default() };
    let mut seen = 0;
    for piece in stream.chunks(PIECE) {
        reader.feed(piece, &mut |payload| {
            seen += 1;
            if seen > 6 && !(payload.first()? == &254 && payload.len() < 9) {
                take(payload, &lent_row(payload, binary)?);
            }
            Some(())
        })?;
    }
    Some(())
}

fn reply_lent(stream: &[u8], binary: bool) -> Option<usize> {
    let mut sum = 0;
    lend_rows(stream, binary, &mut |_, row| sum += sum_of(row))?;
    Some(sum)
}

/// A cell of a row that is kept: its bytes lie from one place to another in the list of all payloads.
#[derive(Clone, Copy)]
enum Place {
    Null,
    Number(i64),
    Bytes(usize, usize),
}

/// Keeps the rows in two lists, of payloads and of places, and then looks at them.
fn reply_stored(stream: &[u8], binary: bool) -> Option<usize> {
    let (mut payloads, mut places) = (Vec::new(), Vec::new());
    lend_rows(stream, binary, &mut |payload, row| {
        let start = payloads.len();
        payloads.extend_from_slice(payload);
        let begin = payload.as_ptr() as usize;
        places.push(row.map(|cell| match cell {
            Cell::Null => Place::Null,
            Cell::Number(number) => Place::Number(number),
            Cell::Bytes(bytes) => {
                let from = start + (bytes.as_ptr() as usize - begin);
                Place::Bytes(from, from + bytes.len())
            }
        }));
    })?;
    let lent = |row: &[Place; WIDTH]| {
        row.map(|place| match place {
            Place::Null => Cell::Null,
            Place::Number(number) => Cell::Number(number),
            Place::Bytes(from, to) => Cell::Bytes(&payloads[from..to]),
        })
    };
    Some(black_box(&places).iter().map(|row| sum_of(&lent(row))).sum())
}

/// The count, four columns and an end come before the rows.
fn reply(stream: &[u8], piece: usize, binary: bool) -> Option<Vec<Vec<Value>>> {
    let mut rows = Vec::new();
    let mut seen = 0;
    let mut splitter = Splitter { number: 1, ..Splitter::default() };
    for piece in stream.chunks(piece) {
        splitter.feed(piece, FULL, &mut |payload, number| {
            seen += 1;
            if seen > 6 && !(payload.first()? == &254 && payload.len() < 9) {
                rows.push(if binary { binary_row(payload)? } else { text_row(payload)? });
            }
            Some(number)
        })?;
    }
    Some(rows)
}

/// A text cell of the value, for which digits are made in place.
fn put_text_cell(value: &Value, out: &mut Vec<u8>) {
    match value {
        Value::Null => out.push(251),
        Value::Int(number) => {
            use std::io::Write;
            let start = out.len();
            out.push(0);
            write!(out, "{number}").unwrap();
            out[start] = (out.len() - start - 1) as u8;
        }
        bytes => put_cell(bytes, out),
    }
}

fn put_binary_row(row: &[Value], out: &mut Vec<u8>) {
    let bit = |(place, value): (usize, &Value)| (matches!(value, Value::Null) as u8) << (place + 2);
    out.extend_from_slice(&[0, row.iter().enumerate().map(bit).sum()]);
    row.iter().for_each(|value| put_cell(value, out));
}

/// The rows of a reply in binary, read once and written again so many times, as text or in binary.
fn write_reply(stream: &[u8], binary: bool, times: usize) -> Option<usize> {
    let rows = reply(stream, PIECE, true)?;
    // A packet with the count, four of columns, and an end come before the rows.
    let mut front = 0;
    for _ in 0..6 {
        front += 4 + u32::from_le_bytes([stream[front], stream[front + 1], stream[front + 2], 0]) as usize;
    }
    let (mut out, mut payload) = (Vec::new(), Vec::new());
    for _ in 0..times {
        out.clear();
        out.extend_from_slice(&stream[..front]);
        let mut number = 7u8;
        for row in &rows {
            payload.clear();
            if binary {
                put_binary_row(row, &mut payload);
            } else {
                row.iter().for_each(|value| put_text_cell(value, &mut payload));
            }
            packet_to_chunks(number, &payload, &mut out);
            number = number.wrapping_add(1);
        }
        packet_to_chunks(number, &[254, 0, 0, 2, 0], &mut out);
    }
    Some(out.len())
}

/// The number that a copy of a value converts to.
fn number(value: &Value) -> Option<i64> {
    match value.clone() {
        Value::Null => None,
        Value::Int(number) => Some(number),
        Value::Bytes(digits) => std::str::from_utf8(&digits).ok()?.parse().ok(),
    }
}

/// The length of a copy of a text.
fn text_len(value: &Value) -> usize {
    match value.clone() {
        Value::Bytes(text) => black_box(text).len(),
        _ => 0,
    }
}

fn place_of(name: &str) -> usize {
    NAMES.iter().position(|each| *each == black_box(name)).unwrap()
}

fn cells(stream: &[u8], binary: bool, by_name: bool) -> Option<usize> {
    let rows = reply(stream, PIECE, binary)?;
    let mut sum = 0;
    for _ in 0..CELL_TIMES {
        sum = 0;
        for row in black_box(&rows) {
            let at = |place: usize| if by_name { &row[place_of(NAMES[place])] } else { &row[place] };
            sum += number(at(0)).unwrap_or(0) as usize + text_len(at(1)) + text_len(at(2)) + number(at(3)).unwrap_or(0) as usize;
        }
    }
    Some(sum)
}

fn convert(values: &[Vec<Value>], times: usize) -> usize {
    let mut sum = 0;
    for _ in 0..times {
        sum = black_box(values).iter().flatten().map(|value| number(value).unwrap_or(0) as usize).sum();
    }
    sum
}

/// How many times fewer there are of all, where callgrind counts instructions in place of time (`--cfg counted`).
const SCALE: usize = if cfg!(counted) { 50 } else { 1 };
/// How often a thousand rows are gone over, which are read once: often enough that reading them counts for little.
const CELL_TIMES: usize = if cfg!(counted) { 200 } else { 1000 };

fn scaled(count: usize) -> usize {
    count.div_ceil(SCALE)
}

#[cfg(not(counted))]
mod measuring {
    use std::time::Instant;

    fn processor() -> f64 {
        // user and system time, in ticks of the scheduler's clock
        let text = std::fs::read_to_string("/proc/self/schedstat").unwrap();
        text.split(' ').next().unwrap().parse().unwrap()
    }

    pub fn measure(what: &str, units: usize, rounds: usize, mut run: impl FnMut() -> Option<usize>) {
        let units = units as f64;
        for _ in 0..rounds {
            let (wall, before) = (Instant::now(), processor());
            let check = run().unwrap();
            println!("{what} hand-rust {:.4} {:.4} {check}", wall.elapsed().as_nanos() as f64 / units, (processor() - before) / units);
        }
    }
}

#[cfg(counted)]
mod measuring {
    const ZERO: usize = 1;
    const DUMP_AT: usize = 3;
    const START: usize = 4;
    const STOP: usize = 5;

    /// Asks callgrind for something as its header `callgrind.h` does, by instructions that otherwise do nothing.
    fn ask(what: usize, name: &str) {
        let words = [0x4354_0000 + what, name.as_ptr() as usize, 0, 0, 0, 0];
        unsafe {
            std::arch::asm!(
                "rol rdi, 3", "rol rdi, 13", "rol rdi, 61", "rol rdi, 51", "xchg rbx, rbx",
                in("rax") words.as_ptr(), inout("rdx") 0usize => _,
            );
        }
    }

    /// Has callgrind count what `run` takes, and dump it under a name with its units.
    pub fn measure(what: &str, units: usize, _: usize, mut run: impl FnMut() -> Option<usize>) {
        ask(START, "");
        ask(ZERO, "");
        let check = std::hint::black_box(run());
        ask(STOP, "");
        check.unwrap();
        ask(DUMP_AT, &format!("{what} hand-rust {units}\0"));
    }
}

use measuring::measure;

fn framed(payload: usize, count: usize) -> Vec<u8> {
    let mut out = Vec::with_capacity((payload + 4) * count);
    for i in 0..count {
        packet_to_chunks(i as u8, &vec![b'a' + (i % 26) as u8; payload], &mut out);
    }
    out
}

/// The commands of a workload, 10,000 sets a copy.
fn commands(what: &str, copies: usize) -> Vec<u8> {
    let (mut all, block) = match what {
        _ if what.contains("texts") => (Vec::new(), load("texts")),
        _ if what.contains("executes") => (load("prepare"), load("executes")),
        _ => (load("prepare"), load("bulks")),
    };
    (0..copies).for_each(|_| all.extend_from_slice(&block));
    all
}

fn frame(payload: &[u8], count: usize, full: usize) -> usize {
    let (mut out, mut written) = (Vec::new(), 0);
    for _ in 0..count {
        if out.len() >= full {
            written += out.len();
            out.clear();
        }
        packet_to_chunks(0, payload, &mut out);
    }
    written + out.len()
}

fn send_sets(what: &str, rounds: usize) {
    let works = String::from_utf8(load("works")).unwrap();
    let Some(line) = works.lines().find(|line| line.split(' ').next() == Some(what)) else { return };
    let words: Vec<_> = line.split(' ').collect();
    let (count, times): (usize, usize) = (words[4].parse().unwrap(), scaled(words[5].parse().unwrap()));
    let (query, sets) = (load(words[2]), load_sets(words[3], count, WIDTH));
    if what.starts_with("send-values") {
        let boxed = |set: Vec<Value>| set.into_iter().map(|value| Box::new(value) as Box<dyn ToValue>).collect();
        let lists: Vec<Objects> = sets.into_iter().map(boxed).collect();
        return measure(what, count * times, rounds, || Some(send_values(&query, &lists, times, words[1])));
    }
    let listed = what.ends_with("-listed");
    let way = if what.ends_with("-kept") { Way::Kept } else if what == "send-text-apart" { Way::Apart } else { Way::Together };
    measure(what, count * times, rounds, || {
        Some(match words[1] {
            "text" if way == Way::Together && !listed => send_text_to(&query, &sets, times),
            "text" => send_text(&query, &sets, times, way),
            "execute" if way == Way::Kept => send_execute_kept(&sets, times),
            "execute" if listed => send_execute(&query, &sets, times),
            "execute" => send_execute_to(&query, &sets, times),
            _ => send_bulk(&query, &sets, times),
        })
    });
}

fn run(what: &str, rounds: usize) {
    let query = load("query");
    let (binary, bytewise) = (what.contains("binary"), what.contains("bytewise"));
    let (copies, piece) = if bytewise { (scaled(10), 1) } else { (scaled(100), PIECE) };
    match what.split('-').next().unwrap() {
        "frame" => {
            let (len, count, full) = if what == "frame-100" { (100, scaled(10_000_000), 65_536) } else { (16_000_000, scaled(64), 1) };
            let payload = black_box(vec![b'a'; len]);
            measure(what, len * count, rounds, || Some(frame(&payload, count, full)));
        }
        "split" => {
            let stream = if what == "split-16M" { framed(16_000_000, scaled(64)) } else { framed(100, scaled(2_560_000)) };
            measure(what, stream.len(), rounds, || split(&stream));
        }
        "receive" => {
            let stream = commands(what, copies);
            measure(what, 10_000 * copies, rounds, || receive(&query, &stream, piece).map(|sets| sets.len()));
        }
        "recode" => {
            let stream = commands(what, copies);
            measure(what, 10_000 * copies, rounds, || recode(&query, &stream));
        }
        "reply" => {
            let stream = load(if binary { "reply-binary" } else { "reply-text" });
            measure(what, scaled(1_000_000), rounds, || match () {
                _ if what.ends_with("-lent") => reply_lent(&stream, binary),
                _ if what.ends_with("-stored") => reply_stored(&stream, binary),
                _ => reply(&stream, piece, binary).map(|rows| rows.len()),
            });
        }
        "write" => {
            let stream = load("cells-binary");
            measure(what, 1000 * CELL_TIMES, rounds, || write_reply(&stream, binary, CELL_TIMES));
        }
        "cells" => {
            let stream = load(if binary { "cells-binary" } else { "cells-text" });
            measure(what, 1000 * CELL_TIMES, rounds, || cells(&stream, binary, what.contains("by-name")));
        }
        "convert" => {
            let values = load_sets(if what == "convert-digits" { "digits" } else { "numbers" }, 10_000, 1);
            measure(what, 10_000 * scaled(1000), rounds, || Some(convert(&values, scaled(1000))));
        }
        _ => send_sets(what, rounds),
    }
}

fn main() {
    let arguments: Vec<String> = std::env::args().collect();
    for what in &arguments[3..] {
        run(what, arguments[2].parse().unwrap());
    }
}
