//! Parameter sets sent by each method, and read back as they come.

use mysql_session::{
    bind_text, recode, send, value_text, Bytes, Code, Content, Date, End, Error, ParameterSets,
    Receiver, Recoder, Road, Time, Value,
};

const QUERY: &[u8] = b"INSERT INTO t VALUES (?, ?, ?)";

const STATEMENT: u32 = 7;

const LIMIT: usize = 1 << 24;

const ROADS: [Road; 3] = [Road::Text, Road::Execute, Road::Bulk];

/// A content that is kept.
#[derive(Clone, Debug, PartialEq)]
enum Kept {
    Null,
    Int(i64),
    UInt(u64),
    Bytes(Vec<u8>),
}

impl From<Content<'_>> for Kept {
    fn from(content: Content<'_>) -> Kept {
        match content {
            Content::Null => Kept::Null,
            Content::Int(number) => Kept::Int(number),
            Content::UInt(number) => Kept::UInt(number),
            Content::Bytes(bytes) => Kept::Bytes(bytes.to_vec()),
        }
    }
}

/// Sets of numbers with a sign, without one, and bytes, with NULL among them.
fn values() -> Vec<[Value<'static>; 3]> {
    vec![
        [i64::MIN.into(), u64::MAX.into(), "it's".into()],
        [Value::Null, (1u64 << 63).into(), b"\0\x1a\\\"\xff".into()],
        [(-7).into(), 5u64.into(), "".into()],
        [i64::MAX.into(), Value::Null, Value::Null],
    ]
}

/// What they are read as: a number that 64 bits with a sign hold is one with a sign.
fn contents() -> Vec<Vec<Kept>> {
    let bytes = |text: &[u8]| Kept::Bytes(text.to_vec());
    vec![
        vec![Kept::Int(i64::MIN), Kept::UInt(u64::MAX), bytes(b"it's")],
        vec![Kept::Null, Kept::UInt(1 << 63), bytes(b"\0\x1a\\\"\xff")],
        vec![Kept::Int(-7), Kept::Int(5), bytes(b"")],
        vec![Kept::Int(i64::MAX), Kept::Null, Kept::Null],
    ]
}

fn sets_of(values: &[[Value<'_>; 3]]) -> Result<ParameterSets, Error> {
    let mut sets = ParameterSets::new()?;
    for set in values {
        sets.add(set)?;
    }
    Ok(sets)
}

fn sent(sets: &ParameterSets, road: Road) -> Result<Bytes, Error> {
    let mut out = Bytes::new()?;
    send(sets, QUERY, road, STATEMENT, LIMIT, &mut out)?;
    Ok(out)
}

/// The sets that a receiver has, which it lets go of.
fn taken(receiver: &mut Receiver) -> Vec<Vec<Kept>> {
    let sets = receiver
        .sets()
        .map(|set| set.iter().map(Kept::from).collect())
        .collect();
    receiver.clear();
    assert_eq!(receiver.sets().len(), 0);
    sets
}

#[test]
fn each_road_is_received_byte_by_byte() -> Result<(), Error> {
    let sets = sets_of(&values())?;
    for road in ROADS {
        let out = sent(&sets, road)?;
        let mut receiver = Receiver::new(QUERY, STATEMENT, LIMIT)?;
        let mut read = Vec::new();
        for byte in out.iter() {
            receiver.feed(&[*byte])?;
            read.extend(taken(&mut receiver));
        }
        assert_eq!(read, contents(), "{road:?}");
        let audit = receiver.end();
        assert_eq!(audit.end(), End::Whole, "{road:?}");
        assert_eq!(audit.sets().len(), 0, "{road:?}");
    }
    Ok(())
}

#[test]
fn each_front_is_read_without_a_fault() -> Result<(), Error> {
    let sets = sets_of(&values())?;
    for road in ROADS {
        let out = sent(&sets, road)?;
        for length in 0..out.len() {
            let mut receiver = Receiver::new(QUERY, STATEMENT, LIMIT)?;
            receiver.feed(&out[..length])?;
            let audit = receiver.end();
            let read = audit.sets().len();
            assert!(read < values().len(), "{road:?}, {length}: {read} sets");
            let unfinished = matches!(audit.end(), End::Whole | End::UnfinishedPacket);
            assert!(unfinished, "{road:?}, {length}: {}", audit.end());
        }
    }
    Ok(())
}

#[test]
fn roads_are_the_commands_that_they_name() -> Result<(), Error> {
    let sets = sets_of(&values()[..2])?;
    let commands = |road| -> Result<Vec<u8>, Error> {
        let out = sent(&sets, road)?;
        let (mut rest, mut commands) = (&out[..], Vec::new());
        while let [a, b, c, 0, command, ..] = rest {
            commands.push(*command);
            rest = &rest[4 + u32::from_le_bytes([*a, *b, *c, 0]) as usize..];
        }
        Ok(commands)
    };
    assert_eq!(commands(Road::Text)?, [0x03, 0x03]);
    assert_eq!(commands(Road::Execute)?, [0x16, 0x17, 0x17]);
    assert_eq!(commands(Road::Bulk)?, [0x16, 0xfa]);
    Ok(())
}

#[test]
fn values_are_pushed_as_they_are_added() -> Result<(), Error> {
    let mut pushed = ParameterSets::new()?;
    for set in values() {
        for value in set {
            pushed.push(value)?;
        }
        pushed.end_set()?;
    }
    let added = sets_of(&values())?;
    assert_eq!(pushed.len(), added.len());
    for road in ROADS {
        assert_eq!(
            sent(&pushed, road)?.as_slice(),
            sent(&added, road)?.as_slice()
        );
    }
    Ok(())
}

#[test]
fn a_set_that_is_added_leaves_what_was_pushed() -> Result<(), Error> {
    let mut sets = ParameterSets::new()?;
    sets.push(1)?;
    sets.add(&values()[0])?;
    sets.push(2u64)?;
    sets.push("three")?;
    assert_eq!(sets.len(), 1);
    sets.end_set()?;
    assert_eq!(sets.len(), 2);
    let out = sent(&sets, Road::Text)?;
    assert!(out.ends_with(b"VALUES (1, 2, 'three')"));
    sets.clear();
    assert!(sets.is_empty());
    assert_eq!(sent(&sets, Road::Text)?.len(), 0);
    Ok(())
}

#[test]
fn a_set_that_was_not_ended_is_not_sent() -> Result<(), Error> {
    let mut sets = sets_of(&values()[..1])?;
    sets.push(1)?;
    assert_eq!(
        sent(&sets, Road::Text)?.as_slice(),
        sent(&sets_of(&values()[..1])?, Road::Text)?.as_slice()
    );
    Ok(())
}

#[test]
fn what_was_sent_before_stays() -> Result<(), Error> {
    let sets = sets_of(&values())?;
    let mut out = sent(&sets, Road::Text)?;
    let before = out.to_vec();
    send(&sets, QUERY, Road::Execute, STATEMENT, LIMIT, &mut out)?;
    assert_eq!(out[..before.len()], before);
    assert_eq!(&out[before.len()..], sent(&sets, Road::Execute)?.as_slice());
    let mut receiver = Receiver::new(QUERY, STATEMENT, LIMIT)?;
    receiver.feed(&out)?;
    let twice: Vec<_> = contents().into_iter().chain(contents()).collect();
    assert_eq!(taken(&mut receiver), twice);
    Ok(())
}

#[test]
fn contents_are_sent_again() -> Result<(), Error> {
    let out = sent(&sets_of(&values())?, Road::Execute)?;
    let mut receiver = Receiver::new(QUERY, STATEMENT, LIMIT)?;
    receiver.feed(&out)?;
    let mut again = ParameterSets::new()?;
    for set in receiver.sets() {
        for content in set.iter() {
            again.push(content)?;
        }
        again.end_set()?;
    }
    let mut receiver = Receiver::new(QUERY, STATEMENT, LIMIT)?;
    receiver.feed(&sent(&again, Road::Text)?)?;
    assert_eq!(taken(&mut receiver), contents());
    Ok(())
}

#[test]
fn texts_have_literals_in_place() -> Result<(), Error> {
    let mut sets = ParameterSets::new()?;
    let date = Date {
        year: 2026,
        month: 2,
        day: 3,
        hour: 4,
        minute: 5,
        second: 6,
        micros: 7,
    };
    let time = Time {
        negative: true,
        days: 1,
        hours: 2,
        minutes: 3,
        seconds: 4,
        micros: 0,
    };
    sets.add(&[date.into(), time.into(), Value::Null])?;
    sets.add(&[true.into(), u64::MAX.into(), "a'b".into()])?;
    let mut out = Bytes::new()?;
    bind_text(&sets, 0, b"SELECT ?, ?, ?", &mut out)?;
    assert_eq!(
        out.as_slice(),
        b"SELECT '2026-02-03 04:05:06.000007', '-026:03:04', NULL"
    );
    out.clear();
    bind_text(&sets, 1, b"SELECT ?, ?, ?", &mut out)?;
    assert_eq!(out.as_slice(), b"SELECT 1, 18446744073709551615, 'a\\'b'");
    out.clear();
    value_text(&sets, 1, 2, &mut out)?;
    value_text(&sets, 0, 2, &mut out)?;
    assert_eq!(out.as_slice(), b"'a\\'b'NULL");
    for (set, place) in [(2, 0), (0, 3)] {
        let error = value_text(&sets, set, place, &mut out).unwrap_err();
        assert_eq!(error.code(), Code::OUT_OF_RANGE);
    }
    let error = bind_text(&sets, 2, b"SELECT ?, ?, ?", &mut out).unwrap_err();
    assert_eq!(error.code(), Code::OUT_OF_RANGE);
    assert_eq!(out.as_slice(), b"'a\\'b'NULL");
    Ok(())
}

#[test]
fn streams_of_the_same_sets_are_recoded_as_the_same_bytes() -> Result<(), Error> {
    let sets = sets_of(&values())?;
    let recoded = recode(QUERY, STATEMENT, LIMIT, &sent(&sets, Road::Text)?)?;
    for road in ROADS {
        let mut recoder = Recoder::new(QUERY, STATEMENT, LIMIT)?;
        let mut out = Bytes::new()?;
        for piece in sent(&sets, road)?.chunks(5) {
            recoder.feed(piece, &mut out)?;
        }
        recoder.end(&mut out)?;
        assert_eq!(out.as_slice(), recoded.as_slice(), "{road:?}");
    }
    let mut receiver = Receiver::new(QUERY, STATEMENT, LIMIT)?;
    receiver.feed(&recoded)?;
    assert_eq!(taken(&mut receiver), contents());
    Ok(())
}

#[test]
fn a_stream_without_sets_is_recoded_as_a_prepare() -> Result<(), Error> {
    let recoded = recode(b"SELECT :a", STATEMENT, LIMIT, b"")?;
    assert_eq!(recoded.as_slice(), b"\x09\0\0\0\x16SELECT ?");
    Ok(())
}

#[test]
fn sets_are_looked_at_from_both_ends() -> Result<(), Error> {
    let mut receiver = Receiver::new(QUERY, STATEMENT, LIMIT)?;
    receiver.feed(&sent(&sets_of(&values())?, Road::Execute)?)?;
    let last = receiver.sets().next_back().expect("there are sets");
    assert_eq!((last.len(), last.is_empty()), (3, false));
    assert_eq!(last.content(0), Some(Content::Int(i64::MAX)));
    assert_eq!(last.content(3), None);
    assert_eq!(
        format!("{last:?}"),
        "[Int(9223372036854775807), Null, Null]"
    );
    let audit = receiver.end();
    assert_eq!(audit.sets().len(), 4);
    Ok(())
}

#[test]
fn threads_share_nothing() {
    let threads: Vec<_> = (0..4)
        .map(|number| {
            std::thread::spawn(move || -> Result<(), Error> {
                let mut sets = ParameterSets::new()?;
                let mut receiver = Receiver::new(b"SELECT ?", STATEMENT, LIMIT)?;
                for value in 0..50 {
                    sets.clear();
                    sets.add(&[(100 * number + value).into()])?;
                    let mut out = Bytes::new()?;
                    send(&sets, b"SELECT ?", Road::Text, STATEMENT, LIMIT, &mut out)?;
                    receiver.feed(&out)?;
                    let wanted = vec![vec![Kept::Int((100 * number + value).into())]];
                    assert_eq!(taken(&mut receiver), wanted);
                }
                Ok(())
            })
        })
        .collect();
    for thread in threads {
        assert_eq!(thread.join().expect("no thread panics"), Ok(()));
    }
}

#[test]
fn numbers_of_each_width_are_values() {
    assert_eq!(Value::from(-1i8), Value::Int(-1));
    assert_eq!(Value::from(u32::MAX), Value::Int(4294967295));
    assert_eq!(Value::from(5u64), Value::UInt(5));
    assert_eq!(Value::from(false), Value::Int(0));
    assert_eq!(Value::from(&vec![1, 2]), Value::Bytes(&[1, 2]));
    assert_eq!(Value::from(&"ab".to_string()), Value::Bytes(b"ab"));
    assert_eq!(Value::from(Some(3)), Value::Int(3));
    assert_eq!(Value::from(None::<&str>), Value::Null);
}
