//! The C header and the crate name the same version of the library.

#[test]
fn the_header_names_the_crates_version() {
    let header = include_str!("../../include/tandrekily.h");
    let line = format!(
        "#define TANDREKILY_VERSION \"{}\"\n",
        env!("CARGO_PKG_VERSION")
    );
    assert!(header.contains(&line));
}
