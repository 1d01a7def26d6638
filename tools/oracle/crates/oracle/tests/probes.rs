//! probes.tsv: 536 small texts with the answer of document 01 and the reading in words.
use oracle::{answer_line, brief_line, unescape};

#[test]
fn probes() {
    let path = concat!(env!("CARGO_MANIFEST_DIR"), "/../../probes.tsv");
    let table = std::fs::read_to_string(path).expect("probes.tsv");
    assert_eq!(table.lines().count(), 536);
    for line in table.lines() {
        let mut columns = line.split('\t');
        let text = unescape(columns.next().unwrap());
        assert_eq!(columns.next().unwrap(), answer_line(&text), "{line}");
        assert_eq!(columns.next().unwrap(), brief_line(&text), "{line}");
    }
}
