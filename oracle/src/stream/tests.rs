//! Small streams, written as records by hand.

use super::run;

fn name(name: &[u8]) -> Vec<u8> {
    [&[name.len() as u8], name].concat()
}

fn integer(number: i64) -> Vec<u8> {
    [&[2], &number.to_be_bytes()[..]].concat()
}

fn float(bits: u64) -> Vec<u8> {
    [&[3], &bits.to_be_bytes()[..]].concat()
}

fn null() -> Vec<u8> {
    vec![0]
}

fn counted(items: &[Vec<u8>]) -> Vec<u8> {
    [vec![items.len() as u8], items.concat()].concat()
}

fn record(operation: u8, operands: &[Vec<u8>]) -> Vec<u8> {
    let body = [vec![1, operation], operands.concat()].concat();
    [(body.len() as u16).to_be_bytes().to_vec(), body].concat()
}

/// `plan`: a key `id` and a nullable text.
fn create_plan() -> Vec<u8> {
    let columns = [[name(b"id"), vec![2, 4]].concat(), [name(b"sheet"), vec![4, 3, 0]].concat()];
    record(1, &[name(b"plan"), vec![0], counted(&columns)])
}

/// `point`: a key `id` and a nullable, indexed reference to `plan`.
fn create_point() -> Vec<u8> {
    let reference = [name(b"plan"), vec![2, 27, 0], name(b"plan")].concat();
    let columns = [[name(b"id"), vec![2, 4]].concat(), reference];
    record(1, &[name(b"point"), vec![0], counted(&columns)])
}

fn insert(table: &[u8], rows: &[Vec<Vec<u8>>]) -> Vec<u8> {
    let rows: Vec<_> = rows.iter().map(|row| counted(row)).collect();
    record(3, &[name(table), vec![0], counted(&rows)])
}

fn update(table: &[u8], old: Vec<u8>, row: &[Vec<u8>]) -> Vec<u8> {
    record(4, &[name(table), vec![1], old, counted(row)])
}

fn delete(table: &[u8], key: Vec<u8>) -> Vec<u8> {
    record(5, &[name(table), counted(&[key])])
}

fn scan(table: &[u8]) -> Vec<u8> {
    record(8, &[name(table)])
}

#[test]
fn curators_sheet() {
    let text = [vec![4], name(b"A")].concat();
    let records = [
        create_plan(),
        create_point(),
        insert(b"plan", &[vec![integer(7), text]]),
        insert(b"point", &[vec![integer(1), integer(7)], vec![integer(2), integer(9)]]),
        scan(b"point"),
        update(b"point", integer(1), &[integer(3), integer(8)]),
        scan(b"point"),
        insert(b"point", &[vec![integer(4)]]),
        delete(b"plan", null()),
        scan(b"point"),
        delete(b"plan", integer(7)),
    ];
    let outcome = run(70, &records.concat()).expect("a good R");
    let lines = "ok 0\nok 0\nok 1\nno 30 1 0\nrow 1 7\nok 1\nno 30 0 1\nok 0\nok 1\n\
        no 32 0 0\nrow 4 NULL\nok 1\nok 1\n";
    assert_eq!(String::from_utf8(outcome.lines).unwrap(), lines);
    let notes = String::from_utf8(outcome.notes).unwrap();
    let carried: Vec<_> = notes.lines().map(|note| &note[9..]).collect();
    assert_eq!(carried[8], "32 t:706f696e74 0 4");
    assert!(carried.iter().enumerate().all(|(i, carried)| i == 8 || *carried == "-"));
    assert_eq!(outcome.store.len(), 64_958);
    assert_eq!(outcome.store[..12], [0, 0, 0xfd, 0xbe, 1, 2, 0, 1, 0, 0, 0, 1]);
}

#[test]
fn a_referenced_table_is_kept() {
    let records = [create_plan(), create_point(), record(2, &[name(b"plan"), vec![0]])];
    let outcome = run(1, &records.concat()).expect("a good R");
    assert_eq!(String::from_utf8(outcome.lines).unwrap(), "ok 0\nok 0\nno 20 0 0\n");
    assert!(String::from_utf8(outcome.notes).unwrap().ends_with(" 20 t:706f696e74 1\n"));
}

/// What follows `create plan` in a store with one row place, and why it is outside.
#[test]
fn outside_the_domain() {
    let row = |key: Vec<u8>| vec![key, null()];
    let cases = [
        (vec![0], "broken record: half a length"),
        (vec![0, 1, 1], "broken record: length outside range"),
        (vec![0, 2, 1], "broken record: cut off"),
        (vec![0, 2, 2, 9], "broken record: version"),
        (vec![0, 2, 1, 10], "broken record: unknown operation"),
        (vec![0, 3, 1, 9, 0], "broken record: bytes left over"),
        (scan(b"\xff"), "a name or text is not UTF-8"),
        (delete(b"plan", float(1 << 63)), "minus zero"),
        (delete(b"plan", float(0x7ff8_0000_0000_0001)), "a NaN other than 7ff8000000000000"),
        (delete(b"plan", float(0)), "a key of another kind than its column"),
        (insert(b"plan", &[row(float(0))]), "a key of another kind than its column"),
        (insert(b"plan", &[row(integer(1)), row(integer(2))]), "more rows than row places"),
        (update(b"plan", integer(1), &row(integer(1))), "a same-key pair without a stored row"),
        (update(b"plan", integer(1), &[integer(2)]), "an update with a row that is not full"),
        (record(7, &[name(b"plan"), vec![1, 0]]), "a lookup of a column that is not indexed"),
        (record(7, &[name(b"point"), vec![1, 0]]), "a lookup in an unknown table"),
        (record(3, &[name(b"plan"), vec![1, 1, 2, 0]]), "a map column out of range"),
        (record(3, &[name(b"plan"), vec![1, 2, 1, 1, 0]]), "a map column twice"),
    ];
    let before = run(1, &create_plan()).expect("a good R");
    for (records, reason) in cases {
        let outcome = run(1, &[create_plan(), records].concat()).expect("a good R");
        let notes = String::from_utf8(outcome.notes).unwrap();
        assert_eq!(notes.lines().last(), Some(format!("outside {reason}").as_str()));
        assert_eq!(outcome.lines, b"ok 0\n");
        assert!(outcome.store == before.store, "{reason}");
    }
}
