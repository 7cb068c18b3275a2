//! The archive that these tests are linked with is the one that lies there now.
use std::fs;

#[test]
fn is_not_stale() {
    let linked = include_bytes!(env!("PORT_LINKED"));
    let now = fs::read(env!("PORT_ARCHIVE")).unwrap();
    assert!(now == linked, "the archive was replaced: build again");
    println!("archive, total: {} bytes compared, 0 differ", now.len());
}
