//! The safe API against answers that are known beforehand.

use rindovesh::{piece, train, Refusal, Seeding, Settings, Table};

fn bytes(words: &[&str]) -> Table {
    Table::new(words, &vec![1; words.len()]).unwrap()
}

#[test]
fn a_doubled_symbol() {
    let trained = train(&bytes(&["aaa"]), &Settings::new(Seeding::Bytes, 300)).unwrap();
    assert_eq!(trained.merges(), [(97, 97), (256, 97)]);
    assert_eq!(trained.savings(), [2, 1]);
    assert_eq!((trained.len(), trained.alphabet_len()), (258, 256));
    assert_eq!(trained.piece(257), Some(&b"aaa"[..]));
    assert_eq!(trained.piece(258), None);
    assert_eq!(trained.pieces().len(), 258);
    assert!(trained.pieces().take(256).enumerate().all(|(value, piece)| piece == [value as u8]));
}

#[test]
fn a_prefix_is_dropped_where_pieces_join() {
    let settings = Settings { prefix: b"##".to_vec(), ..Settings::new(Seeding::Chars, 300) };
    let trained = train(&bytes(&["abb"]), &settings).unwrap();
    assert_eq!(trained.pieces().collect::<Vec<_>>(), [&b"a"[..], b"b", b"##b", b"ab", b"abb"]);
    assert_eq!(trained.merges(), [(0, 2), (3, 2)]);
}

#[test]
fn the_alphabet_and_the_limit() {
    let mut settings = Settings { alphabet: vec![b"ab".to_vec()], ..Settings::new(Seeding::Bytes, 300) };
    let trained = train(&bytes(&["ab"]), &settings).unwrap();
    assert_eq!((trained.alphabet_len(), trained.piece(257)), (257, Some(&b"ab"[..])));
    settings.max_piece_length = Some(1);
    assert_eq!(train(&bytes(&["ab"]), &settings).unwrap().merges(), []);
}

#[test]
fn the_piece_room_grows() {
    // A thousand characters of four bytes, all different: the pieces are far longer than guessed.
    let word: String = (0..1000).map(|n| char::from_u32(0x1F000 + n).unwrap()).collect();
    let trained = train(&bytes(&[&word]), &Settings::new(Seeding::Chars, 5000)).unwrap();
    assert_eq!(trained.merges().len(), 999);
    assert_eq!(trained.pieces().last(), Some(word.as_bytes()));
}

#[test]
fn refusals_have_their_numbers() {
    let settings = Settings::new(Seeding::Bytes, 300);
    let says = |words: &[&str], frequencies: &[u64]| {
        Table::new(words, frequencies).and_then(|table| train(&table, &settings)).unwrap_err()
    };
    assert_eq!(says(&["a"], &[]), Refusal::BadShape);
    assert_eq!(says(&[], &[]), Refusal::EmptyCorpus);
    assert_eq!(says(&["a", "b"], &[1, 0]), Refusal::ZeroFrequency { word: 1 });
    assert_eq!(says(&["a", "c", "b"], &[1; 3]), Refusal::OutOfOrder { word: 2 });
    assert_eq!(says(&["ab"], &[1 << 52]), Refusal::TooHeavy);
    let small = Settings::new(Seeding::Bytes, 255);
    let refusal = train(&bytes(&["ab"]), &small).unwrap_err();
    assert_eq!(refusal, Refusal::VocabTooSmall { requested: 255, alphabet: 256 });
    assert_eq!(refusal.number(), 9);
    assert_eq!(refusal.to_string(), "a vocabulary of 255 cannot hold the alphabet of 256");
    let many = Settings::new(Seeding::Bytes, 16_777_217);
    assert_eq!(train(&bytes(&["ab"]), &many), Err(Refusal::TooMany));
}

#[test]
fn pairs_are_sorted_and_come_once() {
    let table = Table::from_pairs([("b", 2), ("a", 1)]).unwrap();
    assert_eq!(table, Table::new(&["a", "b"], &[1, 2]).unwrap());
    assert_eq!(Table::from_pairs([("b", 2), ("a", 1), ("b", 3)]), Err(Refusal::OutOfOrder { word: 2 }));
}

#[test]
fn only_the_empty_word() {
    let trained = train(&bytes(&[""]), &Settings::new(Seeding::Chars, 0)).unwrap();
    assert!(trained.is_empty() && trained.merges().is_empty());
}

#[test]
fn the_reader_takes_what_training_gives() {
    let trained = train(&bytes(&["abab"]), &Settings::new(Seeding::Bytes, 300)).unwrap();
    for (number, spelling) in trained.pieces().enumerate() {
        assert_eq!(piece(trained.piece_bytes(), trained.piece_ends(), number as u64), Ok(spelling));
    }
    assert_eq!(piece(trained.piece_bytes(), trained.piece_ends(), 258), Err(Refusal::NoSuchId));
    assert_eq!(piece(&[1], &[], 0), Err(Refusal::BadShape));
}
