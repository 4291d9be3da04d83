//! Queries whose placeholders have names, and sets by these.

use mysql_session::{
    bind_text, executions, put_execution, send, Bytes, Code, Error, Mode, NameError, NamedQuery,
    ParameterSets, Receiver, Road, Value,
};

const LIMIT: usize = 1 << 24;

/// A query with names in which much else looks like one.
const QUERY: &str = "SELECT :a, ':c', :b_2 + :a, :: :é /* :d */, `:e`, :9, \":f\", :b_2x";

#[test]
fn names_are_those_of_the_places() -> Result<(), Error> {
    let ansi_quotes = Mode {
        ansi_quotes: true,
        ..Mode::default()
    };
    let rows: [(&str, Mode, &str, &[&str]); 8] = [
        (
            QUERY,
            Mode::default(),
            "SELECT ?, ':c', ? + ?, :: :é /* :d */, `:e`, :9, \":f\", ?",
            &["a", "b_2", "a", "b_2x"],
        ),
        (
            "SELECT :aB, :_",
            Mode::default(),
            "SELECT ?B, ?",
            &["a", "_"],
        ),
        ("SELECT ?", Mode::default(), "SELECT ?", &[]),
        ("SELECT 1", Mode::default(), "SELECT 1", &[]),
        ("", Mode::default(), "", &[]),
        ("SELECT ':a'", Mode::default(), "SELECT ':a'", &[]),
        ("SELECT \":a\"", ansi_quotes, "SELECT \":a\"", &[]),
        (":a:b", Mode::default(), "??", &["a", "b"]),
    ];
    for (query, mode, text, names) in rows {
        let found = NamedQuery::new_in(query.as_bytes(), mode)?;
        assert_eq!(found.text(), text.as_bytes(), "{query}");
        assert_eq!(found.names(), names, "{query}");
    }
    Ok(())
}

#[test]
fn a_mode_says_where_strings_end() -> Result<(), Error> {
    let query = br"SELECT '\' :a '";
    let no_escapes = Mode {
        no_backslash_escapes: true,
        ..Mode::default()
    };
    assert!(NamedQuery::new(query)?.names().is_empty());
    let found = NamedQuery::new_in(query, no_escapes)?;
    assert_eq!(found.text(), br"SELECT '\' ? '");
    assert_eq!(found.names(), ["a"]);
    Ok(())
}

#[test]
fn a_query_is_refused_as_by_a_send() {
    let error = NamedQuery::new(b"SELECT ?, :a").unwrap_err();
    assert_eq!(error.code(), Code::MIXED);
    let many = format!("SELECT {}", vec![":a"; 65536].join(","));
    let error = NamedQuery::new(many.as_bytes()).unwrap_err();
    assert_eq!(error.code(), Code::REFUSED_TOO_MANY_PLACES);
}

#[test]
fn a_long_query_has_names() -> Result<(), Error> {
    // Its prepare has two packets.
    let query = [&b"SELECT :a, '"[..], &vec![b'x'; 1 << 24], b"', :b"].concat();
    let found = NamedQuery::new(&query)?;
    assert_eq!(found.names(), ["a", "b"]);
    assert_eq!(found.text().len(), query.len() - 2);
    Ok(())
}

#[test]
fn a_set_by_names_is_one_in_their_order() -> Result<(), Box<dyn std::error::Error>> {
    let query = NamedQuery::new(QUERY.as_bytes())?;
    let (mut named, mut in_order) = (ParameterSets::new()?, ParameterSets::new()?);
    let rows: [[(&str, Value<'_>); 4]; 2] = [
        [
            ("a", 1.into()),
            ("b_2", "it's".into()),
            ("b_2x", Value::Null),
            ("more", 5.into()),
        ],
        [
            ("b_2x", b"x".into()),
            ("a", 2.into()),
            ("b_2", "y".into()),
            ("a", 3.into()),
        ],
    ];
    for row in &rows {
        named.add_named(&query, row)?;
    }
    in_order.add(&[1.into(), "it's".into(), 1.into(), Value::Null])?;
    in_order.add(&[2.into(), "y".into(), 2.into(), "x".into()])?;
    for road in [Road::Text, Road::Execute, Road::Bulk] {
        let (mut out, mut wanted) = (Bytes::new()?, Bytes::new()?);
        send(&named, query.text(), road, 1, LIMIT, &mut out)?;
        send(&in_order, query.text(), road, 1, LIMIT, &mut wanted)?;
        assert_eq!(out.as_slice(), wanted.as_slice());
        // A receiver of the query with names reads them back.
        let mut receiver = Receiver::new(QUERY.as_bytes(), 1, LIMIT)?;
        receiver.feed(&out)?;
        assert_eq!(receiver.sets().len(), 2);
        let set = receiver.sets().next().expect("the first of them");
        let by_name: Vec<_> = query.names().iter().zip(set).collect();
        assert_eq!(by_name.len(), 4);
        assert_eq!(by_name[2].0, "a");
    }
    assert_eq!(
        executions(&named, query.text(), 5, LIMIT)?,
        executions(&in_order, query.text(), 5, LIMIT)?
    );
    let (mut out, mut wanted) = (Bytes::new()?, Bytes::new()?);
    bind_text(&named, 1, query.text(), &mut out)?;
    bind_text(&in_order, 1, query.text(), &mut wanted)?;
    assert_eq!(out.as_slice(), wanted.as_slice());
    Ok(())
}

#[test]
fn a_set_that_lacks_a_name_is_not_added() -> Result<(), Error> {
    let query = NamedQuery::new(b"SELECT :a, :b")?;
    let mut sets = ParameterSets::new()?;
    let error = sets.add_named(&query, &[("a", 1.into())]).unwrap_err();
    assert_eq!(
        error,
        NameError::NoValue {
            name: "b".to_string()
        }
    );
    assert_eq!(error.to_string(), "no value is given for :b");
    assert!(sets.is_empty());
    Ok(())
}

#[test]
fn a_float_has_a_name() -> Result<(), Error> {
    let query = NamedQuery::new(b"SELECT :a, :b")?;
    let given = [("b", Value::Null), ("a", Value::Double(0.5))];
    let mut named = ParameterSets::new()?;
    assert_eq!(named.add_named(&query, &given), Ok(()));
    let mut listed = ParameterSets::new()?;
    listed.add(&[Value::Double(0.5), Value::Null])?;
    let [mut by_name, mut by_place] = [Bytes::new()?, Bytes::new()?];
    put_execution(&named, 0, 1, &mut by_name)?;
    put_execution(&listed, 0, 1, &mut by_place)?;
    assert_eq!(by_name.as_slice(), by_place.as_slice());
    Ok(())
}

#[test]
fn a_set_by_names_of_a_query_with_question_marks_has_no_values() -> Result<(), Error> {
    let query = NamedQuery::new(b"SELECT ?")?;
    let mut sets = ParameterSets::new()?;
    sets.add_named(&query, &[("a", 1.into())])
        .expect("it is a set");
    let mut out = Bytes::new()?;
    let error = send(&sets, query.text(), Road::Execute, 1, LIMIT, &mut out).unwrap_err();
    assert_eq!(error.code(), Code::REFUSED_WRONG_COUNT);
    Ok(())
}
