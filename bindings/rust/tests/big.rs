//! Values and packets that take more than one chunk of 16777215 bytes.

use mysql_session::{
    put_packet, send, Bytes, Content, End, Error, PacketReader, ParameterSets, Receiver, Road,
};

/// The most bytes of a chunk.
const CHUNK: usize = 0xff_ff_ff;

const QUERY: &[u8] = b"INSERT INTO t VALUES (?)";

const LIMIT: usize = 1 << 26;

#[test]
fn packets_of_whole_chunks_end_with_a_short_one() -> Result<(), Error> {
    for length in [CHUNK - 1, CHUNK, CHUNK + 1, 2 * CHUNK] {
        let payload = vec![0x5a; length];
        let mut out = Bytes::new()?;
        let mut number = 7;
        put_packet(&payload, &mut number, LIMIT, &mut out)?;
        let chunks = length / CHUNK + 1;
        assert_eq!(usize::from(number), 7 + chunks);
        assert_eq!(out.len(), length + 4 * chunks);
        let mut reader = PacketReader::new(7, LIMIT)?;
        let (mut found, mut pieces) = (None, out.chunks(1 << 20));
        while let (None, Some(piece)) = (&found, pieces.next()) {
            let mut rest = piece;
            found = reader.advance(&mut rest)?.map(<[u8]>::to_vec);
        }
        assert!(
            found.is_some_and(|found| found == payload),
            "{length} bytes"
        );
        assert_eq!(pieces.len(), 0, "{length} bytes");
    }
    Ok(())
}

#[test]
fn values_of_more_than_a_chunk_are_received() -> Result<(), Error> {
    let value: Vec<u8> = (0..CHUNK + 5).map(|at| (at % 251) as u8).collect();
    let mut sets = ParameterSets::new()?;
    sets.add(&[(&value).into()])?;
    for road in [Road::Text, Road::Execute, Road::Bulk] {
        let mut out = Bytes::new()?;
        send(&sets, QUERY, road, 1, LIMIT, &mut out)?;
        assert!(out.len() > value.len(), "{road:?}");
        let mut receiver = Receiver::new(QUERY, 1, LIMIT)?;
        for piece in out.chunks(1 << 16) {
            receiver.feed(piece)?;
        }
        let audit = receiver.end();
        assert_eq!(audit.end(), End::Whole, "{road:?}");
        let set = audit.sets().next().expect("one set was sent");
        assert!(set.content(0) == Some(Content::Bytes(&value)), "{road:?}");
    }
    Ok(())
}
