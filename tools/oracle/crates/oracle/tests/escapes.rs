//! escapes.tsv: texts on one line, the hex of their bytes, and the line that the bytes are written as. tools/tests holds tools/common.py to the same rows.
use oracle::{escape, hex, unescape};

#[test]
fn escapes() {
    let path = concat!(env!("CARGO_MANIFEST_DIR"), "/../../escapes.tsv");
    let table = std::fs::read_to_string(path).expect("escapes.tsv");
    assert!(table.lines().count() > 50);
    for line in table.lines() {
        let columns: Vec<&str> = line.split('\t').collect();
        let bytes = unescape(columns[0]);
        assert_eq!(columns[1..], [hex(&bytes), escape(&bytes)], "{line}");
        assert_eq!(unescape(columns[2]), bytes, "{line}");
    }
}
