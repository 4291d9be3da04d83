//! Cells as types of Rust, and rows as tuples.

use mysql_session::{
    Bytes, ColumnType, Date, Error, FromRow, FromValue, ParameterSets, ReplyKind, ReplyReader,
    ReplyResult, ReplyWriter, Row, RowError, Time, Value,
};
use std::fmt::Debug;
use std::time::Duration;

/// What a text converts to.
fn text<'a, T: FromValue<'a>>(text: &'a str) -> Option<T> {
    T::from_value(Value::Bytes(text.as_bytes()))
}

/// Looks whether values convert to these.
fn convert<'a, T: FromValue<'a> + PartialEq + Debug>(rows: &[(Value<'a>, Option<T>)]) {
    for (value, wanted) in rows {
        assert_eq!(T::from_value(*value), *wanted, "{value:?}");
    }
}

#[test]
fn whole_numbers_are_in_their_range() {
    convert::<i8>(&[
        (Value::Int(-128), Some(-128)),
        (Value::Int(-129), None),
        (Value::UInt(127), Some(127)),
        (Value::UInt(128), None),
        (Value::Bytes(b"-128"), Some(-128)),
        (Value::Bytes(b"+7"), Some(7)),
        (Value::Bytes(b"128"), None),
        (Value::Bytes(b""), None),
        (Value::Bytes(b"-"), None),
        (Value::Bytes(b"7 "), None),
        (Value::Bytes(b"7.0"), None),
        (Value::Null, None),
        (Value::Double(7.0), None),
    ]);
    convert::<u64>(&[
        (Value::UInt(u64::MAX), Some(u64::MAX)),
        (Value::Bytes(b"18446744073709551615"), Some(u64::MAX)),
        (Value::Bytes(b"18446744073709551616"), None),
        (Value::Int(-1), None),
        (Value::Bytes(b"-0"), Some(0)),
    ]);
    convert::<i64>(&[
        (Value::Int(i64::MIN), Some(i64::MIN)),
        (Value::Bytes(b"-9223372036854775808"), Some(i64::MIN)),
        (Value::UInt(1 << 63), None),
        (Value::Bytes(b"9223372036854775808"), None),
    ]);
    assert_eq!(text::<u8>("255"), Some(255));
    assert_eq!(text::<u16>("65536"), None);
    assert_eq!(text::<i16>("-32768"), Some(-32768));
    assert_eq!(text::<i32>("2147483648"), None);
    assert_eq!(text::<u32>("4294967295"), Some(u32::MAX));
    assert_eq!(text::<usize>("7"), Some(7));
    assert_eq!(text::<isize>("-7"), Some(-7));
}

#[test]
fn a_boolean_is_zero_or_one() {
    convert::<bool>(&[
        (Value::Int(0), Some(false)),
        (Value::UInt(1), Some(true)),
        (Value::Bytes(b"1"), Some(true)),
        (Value::Bytes(b"0"), Some(false)),
        (Value::Int(2), None),
        (Value::Bytes(b"01"), None),
        (Value::Bytes(b"true"), None),
        (Value::Null, None),
    ]);
}

#[test]
fn floats_are_numbers() {
    convert::<f64>(&[
        (Value::Double(0.1), Some(0.1)),
        (Value::Float(0.5), Some(0.5)),
        (Value::Bytes(b"-1.5e300"), Some(-1.5e300)),
        (Value::Bytes(b"7"), Some(7.0)),
        (Value::Bytes(b"inf"), None),
        (Value::Bytes(b"NaN"), None),
        (Value::Bytes(b"1e309"), None),
        (Value::Bytes(b"1_0"), None),
        (Value::Bytes(b" 1"), None),
        (Value::Bytes(b""), None),
        (Value::Date(Date::default()), None),
        (Value::Null, None),
        (Value::Int(-7), Some(-7.0)),
        // Up to 2^53 no whole number is rounded.
        (Value::UInt(1 << 53), Some(9_007_199_254_740_992.0)),
        (Value::Int(-(1 << 53)), Some(-9_007_199_254_740_992.0)),
        (Value::Int((1 << 53) + 1), None),
        (Value::UInt(u64::MAX), None),
        (Value::Int(i64::MIN), None),
    ]);
    convert::<f32>(&[
        (Value::Float(0.1), Some(0.1)),
        (Value::Double(0.5), None),
        (Value::Bytes(b"0.1"), Some(0.1)),
        (Value::Bytes(b"-1e39"), None),
        (Value::Int(1 << 24), Some(16_777_216.0)),
        (Value::UInt((1 << 24) + 1), None),
    ]);
}

#[test]
fn bytes_and_texts_are_themselves() {
    let (text, bytes) = (Value::Bytes("maté".as_bytes()), Value::Bytes(b"\xff\0"));
    assert_eq!(<&str>::from_value(text), Some("maté"));
    assert_eq!(String::from_value(text), Some("maté".to_string()));
    assert_eq!(<&str>::from_value(bytes), None);
    assert_eq!(String::from_value(bytes), None);
    assert_eq!(<&[u8]>::from_value(bytes), Some(&b"\xff\0"[..]));
    assert_eq!(Vec::from_value(bytes), Some(b"\xff\0".to_vec()));
    assert_eq!(<[u8; 2]>::from_value(bytes), Some(*b"\xff\0"));
    assert_eq!(<[u8; 3]>::from_value(bytes), None);
    assert_eq!(<&[u8]>::from_value(Value::Int(1)), None);
    assert_eq!(Value::from_value(bytes), Some(bytes));
}

#[test]
fn a_string_is_the_text_of_any_value() {
    let day = Date {
        year: 2024,
        month: 2,
        day: 29,
        ..Date::default()
    };
    let moment = Date { micros: 5, ..day };
    let time = Time {
        negative: true,
        days: 34,
        hours: 22,
        seconds: 9,
        ..Time::default()
    };
    let rows = [
        (Value::Int(-7), "-7"),
        (Value::UInt(u64::MAX), "18446744073709551615"),
        (Value::Float(0.1), "0.1"),
        (Value::Double(-2.0), "-2"),
        (Value::Double(0.0), "0"),
        (Value::Double(1e300), "1e300"),
        (Value::Double(-2.5e-20), "-2.5e-20"),
        (Value::Date(day), "2024-02-29"),
        (Value::Date(moment), "2024-02-29 00:00:00.000005"),
        (Value::Date(Date::default()), "0000-00-00"),
        (Value::Time(time), "-838:00:09"),
        (Value::Time(Time::default()), "00:00:00"),
    ];
    for (value, wanted) in rows {
        assert_eq!(String::from_value(value).as_deref(), Some(wanted));
    }
    assert_eq!(String::from_value(Value::Null), None);
    // What is written is read as the same value.
    assert_eq!(text("2024-02-29 00:00:00.000005"), Some(moment));
    assert_eq!(text("-838:00:09"), Some(time));
    assert_eq!(text("1e300"), Some(1e300f64));
}

#[test]
fn dates_are_read_from_texts() {
    let day = Date {
        year: 2024,
        month: 2,
        day: 29,
        ..Date::default()
    };
    let moment = Date {
        hour: 12,
        minute: 30,
        second: 1,
        micros: 500_000,
        ..day
    };
    assert_eq!(Date::from_value(Value::Date(moment)), Some(moment));
    assert_eq!(text("2024-02-29"), Some(day));
    assert_eq!(text("2024-02-29 00:00:00"), Some(day));
    assert_eq!(text("2024-02-29 12:30:01.5"), Some(moment));
    assert_eq!(text("2024-02-29 12:30:01.500000"), Some(moment));
    for wrong in [
        "",
        "2024",
        "2024-2-29",
        "2024-02-29 ",
        "2024-02-29T12:30:01",
        "2024-02-29 12:30",
        "2024-02-29 12:60:00",
        "2024-02-29 12:30:60",
        "2024-02-29 12:30:01.",
        "2024-02-29 12:30:01.1234567",
        "2024-02-29 12:30:01x",
        "20 4-02-29",
    ] {
        assert_eq!(text::<Date>(wrong), None, "{wrong}");
    }
    assert_eq!(Date::from_value(Value::Null), None);
}

#[test]
fn durations_are_read_from_texts() {
    let time = Time {
        negative: true,
        days: 34,
        hours: 22,
        minutes: 59,
        seconds: 59,
        micros: 20,
    };
    assert_eq!(Time::from_value(Value::Time(time)), Some(time));
    assert_eq!(text("-838:59:59.00002"), Some(time));
    let short = Time {
        hours: 8,
        minutes: 5,
        ..Time::default()
    };
    assert_eq!(text("08:05:00"), Some(short));
    for wrong in [
        "",
        "8:05:00",
        "1000:00:00",
        "08:60:00",
        "08:05",
        "--08:05:00",
        "08:05:00 ",
    ] {
        assert_eq!(text::<Time>(wrong), None, "{wrong}");
    }
    assert_eq!(text("24:00:01.5"), Some(Duration::from_millis(86_401_500)));
    assert_eq!(text::<Duration>("-00:00:01"), None);
    let most = Time {
        days: u32::MAX,
        hours: 255,
        minutes: 255,
        seconds: 255,
        micros: u32::MAX,
        ..Time::default()
    };
    assert!(Duration::from_value(Value::Time(most)).is_some());
}

#[test]
fn null_is_none_of_an_option_alone() {
    assert_eq!(Option::<u8>::from_value(Value::Null), Some(None));
    assert_eq!(Option::from_value(Value::Int(7)), Some(Some(7u8)));
    assert_eq!(Option::<u8>::from_value(Value::Int(-7)), None);
    assert_eq!(Value::from_value(Value::Null), Some(Value::Null));
}

/// The names of the columns of such a reply.
const NAMES: [&str; 12] = [
    "id", "name", "note", "", "e", "f", "g", "h", "id", "j", "k", "l",
];

/// The reply to an execution that has one row of these values, in columns of these types.
fn reply_of(cells: &[(u8, Value<'_>)]) -> Result<Vec<u8>, Error> {
    let mut writer = ReplyWriter::new(ReplyKind::Execute, 512, 1, 1 << 24)?;
    let mut out = Bytes::new()?;
    for ((kind, _), name) in cells.iter().zip(NAMES) {
        let column = ColumnType {
            kind: *kind,
            charset: 45,
            length: 99,
            ..ColumnType::default()
        };
        writer.column(name.as_bytes(), column)?;
    }
    writer.rows(&mut out)?;
    let mut sets = ParameterSets::new()?;
    let values: Vec<Value<'_>> = cells.iter().map(|(_, value)| *value).collect();
    sets.add(&values)?;
    writer.row(&sets, 0, &mut out)?;
    writer.end_rows(0, 0, false, &mut out)?;
    Ok(out.to_vec())
}

/// Hands the one row of such a reply on.
fn with_row(cells: &[(u8, Value<'_>)], look: impl FnOnce(Row<'_>)) -> Result<(), Error> {
    let mut reader = ReplyReader::new(ReplyKind::Execute, 512, 1, 1 << 24)?;
    reader.feed(&reply_of(cells)?)?;
    let results = reader.take()?;
    let [ReplyResult::Rows(rows)] = &results[..] else {
        panic!("{results:?}");
    };
    look(rows.row(0).expect("there is a row"));
    Ok(())
}

const CELLS: [(u8, Value<'static>); 3] = [
    (8, Value::Int(-7)),
    (253, Value::Bytes(b"tea")),
    (253, Value::Null),
];

#[test]
fn a_row_is_a_tuple() -> Result<(), Error> {
    with_row(&CELLS, |row| {
        assert_eq!(row.into_tuple(), Ok((-7, "tea".to_string(), None::<u8>)));
        assert_eq!(row.into_tuple(), Ok((-7i64, &b"tea"[..], Value::Null)));
        assert_eq!(row.get::<i16>(0), Ok(-7));
        assert_eq!(row.get::<&str>(1), Ok("tea"));
        assert_eq!(row.get::<Option<String>>(2), Ok(None));
    })
}

#[test]
fn a_row_that_does_not_convert_says_why() -> Result<(), Error> {
    with_row(&CELLS, |row| {
        let error = row.get::<u8>(3).expect_err("there are three columns");
        assert_eq!(
            error,
            RowError::NoColumn {
                column: 3,
                columns: 3
            }
        );
        assert_eq!(error.to_string(), "there is no column 3 among 3");
        let error = row.into_tuple::<(i8, String)>().expect_err("of three");
        assert_eq!(
            error,
            RowError::OtherWidth {
                columns: 3,
                fields: 2
            }
        );
        assert_eq!(error.to_string(), "the row has 3 columns in place of 2");
        // The first cell that doesn't convert is named.
        let error = row.into_tuple::<(i8, u8, u8)>().expect_err("a text");
        assert_eq!(
            error,
            RowError::OtherType {
                column: 1,
                name: "name".to_string(),
                value: "a text",
                wanted: "u8"
            }
        );
        let text = "column 1 (name): a text doesn't convert to u8";
        assert_eq!(error.to_string(), text);
        let error: Box<dyn std::error::Error> = row.get::<u8>(2).expect_err("NULL").into();
        let text = "column 2 (note): NULL doesn't convert to u8";
        assert_eq!(error.to_string(), text);
        let error = row.get::<Option<Date>>(1).expect_err("a text");
        let text = "column 1 (name): a text doesn't convert to Option<Date>";
        assert_eq!(error.to_string(), text);
        let error = row.get::<[u8; 3]>(0).expect_err("a number");
        let text = "column 0 (id): a whole number doesn't convert to [u8; 3]";
        assert_eq!(error.to_string(), text);
    })?;
    // A column without a name is told by its number.
    let cells = [CELLS[0], CELLS[1], CELLS[2], CELLS[2]];
    with_row(&cells, |row| {
        let error = row.get::<u8>(3).expect_err("NULL");
        assert_eq!(error.to_string(), "column 3: NULL doesn't convert to u8");
    })
}

#[test]
fn a_cell_is_found_by_its_name() -> Result<(), Error> {
    let cells: Vec<_> = (0..12).map(|number| (8, Value::Int(number))).collect();
    with_row(&cells, |row| {
        assert_eq!(row.get_named("l"), Ok(11));
        assert_eq!(row.get_named(b"note"), Ok("2".to_string()));
        // Of two columns with a name it is the first one's.
        assert_eq!(row.get_named("id"), Ok(0));
        let error = row.get_named::<u8>("Id").expect_err("another name");
        let name = "Id".to_string();
        assert_eq!(error, RowError::NoName { name });
        assert_eq!(error.to_string(), "there is no column \"Id\"");
        let error = row.get_named::<Date>("name").expect_err("a number");
        let text = "column 1 (name): a whole number doesn't convert to Date";
        assert_eq!(error.to_string(), text);
        let names: Vec<_> = row.columns().map(|column| column.name_text()).collect();
        assert_eq!(names, NAMES);
        assert_eq!(row.column(12), None);
    })
}

/// The reply to a command that has one row of these cells: their types, their flags, their values.
fn typed_reply(kind: ReplyKind, cells: &[(u8, u16, Value<'_>)]) -> Result<Vec<u8>, Error> {
    let mut writer = ReplyWriter::new(kind, 512, 1, 1 << 24)?;
    let (mut sets, mut out) = (ParameterSets::new()?, Bytes::new()?);
    for (kind, flags, value) in cells {
        let column = ColumnType {
            kind: *kind,
            flags: *flags,
            charset: 45,
            length: 99,
            ..ColumnType::default()
        };
        writer.column(b"cell", column)?;
        sets.push(*value)?;
    }
    sets.end_set()?;
    writer.rows(&mut out)?;
    writer.row(&sets, 0, &mut out)?;
    writer.end_rows(0, 0, false, &mut out)?;
    Ok(out.to_vec())
}

/// Hands the one row of such a reply on.
fn with_typed_row(
    kind: ReplyKind,
    cells: &[(u8, u16, Value<'_>)],
    look: impl FnOnce(Row<'_>),
) -> Result<(), Error> {
    let mut reader = ReplyReader::new(kind, 512, 1, 1 << 24)?;
    reader.feed(&typed_reply(kind, cells)?)?;
    let results = reader.take()?;
    let [ReplyResult::Rows(rows)] = &results[..] else {
        panic!("{results:?}");
    };
    look(rows.row(0).expect("there is a row"));
    Ok(())
}

#[test]
fn texts_have_the_types_of_their_columns() -> Result<(), Error> {
    use mysql_session::column_flag::UNSIGNED_FLAG;
    use mysql_session::column_type as of;
    let day = Date {
        year: 2024,
        month: 2,
        day: 29,
        ..Date::default()
    };
    let noon = Date { hour: 12, ..day };
    let time = Time {
        hours: 8,
        minutes: 5,
        ..Time::default()
    };
    let rows = [
        (of::TINY, 0, "-128", Value::Int(-128)),
        (of::SHORT, UNSIGNED_FLAG, "65535", Value::Int(65535)),
        (of::INT24, 0, "7", Value::Int(7)),
        (of::LONG, 0, "-2147483648", Value::Int(-2147483648)),
        (of::LONGLONG, 0, "-7", Value::Int(-7)),
        (
            of::LONGLONG,
            UNSIGNED_FLAG,
            "18446744073709551615",
            Value::UInt(u64::MAX),
        ),
        (of::YEAR, UNSIGNED_FLAG, "2024", Value::Int(2024)),
        (of::FLOAT, 0, "0.1", Value::Float(0.1)),
        (of::DOUBLE, 0, "-1e-300", Value::Double(-1e-300)),
        (of::DATE, 0, "2024-02-29", Value::Date(day)),
        (of::DATETIME, 0, "2024-02-29 12:00:00", Value::Date(noon)),
        (of::TIMESTAMP, 0, "2024-02-29 12:00:00", Value::Date(noon)),
        (of::DATE, 0, "0000-00-00", Value::Date(Date::default())),
        (of::TIME, 0, "08:05:00", Value::Time(time)),
        (of::NEWDECIMAL, 0, "2.50", Value::Bytes(b"2.50")),
        (of::VAR_STRING, 0, "7", Value::Bytes(b"7")),
        (of::JSON, 0, "7", Value::Bytes(b"7")),
        // What isn't of the type stays as it is.
        (of::LONG, 0, "tea", Value::Bytes(b"tea")),
        (of::LONG, 0, "7.5", Value::Bytes(b"7.5")),
        (of::DATE, 0, "29.2.", Value::Bytes(b"29.2.")),
        (of::DOUBLE, 0, "inf", Value::Bytes(b"inf")),
    ];
    let cells = rows.map(|(kind, flags, text, _)| (kind, flags, text.into()));
    let wanted = rows.map(|(_, _, _, value)| value);
    with_typed_row(ReplyKind::Query, &cells, |row| {
        assert_eq!(row.values().collect::<Vec<_>>(), wanted);
        assert_eq!(row.value(rows.len()), None);
        assert_eq!(row.cell(0), Some(Value::Bytes(b"-128")));
    })?;
    // NULL and values of an execution stay.
    let double = ColumnType {
        kind: of::DOUBLE,
        ..ColumnType::default()
    };
    for value in [Value::Null, Value::Int(7), Value::Double(0.5)] {
        assert_eq!(double.value(value), value);
    }
    Ok(())
}

#[test]
fn both_kinds_of_replies_have_the_same_values() -> Result<(), Error> {
    use mysql_session::column_flag::UNSIGNED_FLAG;
    use mysql_session::column_type as of;
    let day = Date {
        year: 2024,
        month: 2,
        day: 29,
        ..Date::default()
    };
    let time = Time {
        negative: true,
        days: 34,
        hours: 22,
        micros: 5,
        ..Time::default()
    };
    let cells = [
        (of::TINY, 0, Value::Int(-7)),
        (of::TINY, UNSIGNED_FLAG, Value::UInt(255)),
        (of::SHORT, UNSIGNED_FLAG, Value::UInt(7)),
        (of::INT24, UNSIGNED_FLAG, Value::UInt(7)),
        (of::LONG, UNSIGNED_FLAG, Value::UInt(7)),
        (of::LONG, 0, Value::Int(7)),
        (of::LONGLONG, 0, Value::Int(i64::MIN)),
        (of::LONGLONG, UNSIGNED_FLAG, Value::UInt(7)),
        (of::LONGLONG, UNSIGNED_FLAG, Value::UInt(u64::MAX)),
        (of::YEAR, UNSIGNED_FLAG, Value::UInt(2024)),
        (of::DATE, 0, Value::Date(day)),
        (of::DATETIME, 0, Value::Date(Date { hour: 8, ..day })),
        (of::TIMESTAMP, 0, Value::Date(Date { micros: 5, ..day })),
        (of::DATE, 0, Value::Date(Date::default())),
        (of::TIME, 0, Value::Time(time)),
        (of::TIME, 0, Value::Time(Time::default())),
        (of::NEWDECIMAL, 0, Value::Bytes(b"2.50")),
        (of::VAR_STRING, 0, Value::Bytes(b"7")),
        (of::LONG, 0, Value::Null),
    ];
    let mut values: [Vec<String>; 2] = Default::default();
    for (kind, values) in [ReplyKind::Query, ReplyKind::Execute]
        .iter()
        .zip(&mut values)
    {
        with_typed_row(*kind, &cells, |row| {
            values.extend(row.values().map(|value| format!("{value:?}")));
        })?;
    }
    let [by_query, by_execution] = values;
    assert_eq!(by_query, by_execution);
    Ok(())
}

#[test]
fn a_tuple_has_up_to_twelve_fields() -> Result<(), Error> {
    type Twelve = (u8, u8, u8, u8, u8, u8, u8, u8, u8, u8, u8, u8);
    let cells: Vec<_> = (0..12).map(|number| (8, Value::Int(number))).collect();
    with_row(&cells, |row| {
        let found: Twelve = row.into_tuple().expect("twelve numbers");
        assert_eq!(found, (0, 1, 2, 3, 4, 5, 6, 7, 8, 9, 10, 11));
    })?;
    with_row(&cells[..1], |row| assert_eq!(row.into_tuple(), Ok((0u64,))))?;
    assert_eq!(
        (<(u8,)>::WIDTH, <(u8, u8)>::WIDTH, Twelve::WIDTH),
        (1, 2, 12)
    );
    Ok(())
}

#[test]
fn a_row_is_a_type_of_its_own() -> Result<(), Error> {
    #[derive(Debug, PartialEq)]
    struct Article<'a> {
        id: i64,
        name: &'a str,
        note: Option<&'a str>,
    }

    impl<'a> FromRow<'a> for Article<'a> {
        const WIDTH: usize = 3;

        fn from_cells(cell: impl Fn(usize) -> Value<'a>) -> Result<Article<'a>, RowError> {
            let (id, name, note) = FromRow::from_cells(cell)?;
            Ok(Article { id, name, note })
        }
    }

    with_row(&CELLS, |row| {
        let wanted = Article {
            id: -7,
            name: "tea",
            note: None,
        };
        assert_eq!(row.into_tuple(), Ok(wanted));
    })
}
