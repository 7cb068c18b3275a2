//! A caller that changes one `use` line compiles and is told the same.
use differential::tally::Tally;

mod over_the_original {
    use differential::phy;
    include!("caller.rs");
}

mod over_the_crate {
    use bindings as phy;
    include!("caller.rs");
}

#[test]
fn tells_the_same() {
    let told = over_the_crate::told().expect("accepted");
    assert_eq!(told, over_the_original::told().expect("accepted"));
    let mut tally = Tally::new("crate, one caller over both");
    tally.part("lines of answers", told.lines().count() as u64);
    tally.end();
}
