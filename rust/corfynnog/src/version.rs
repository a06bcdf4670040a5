//! Which program this is.

/// The version, the commit that it was built from, and the kit that proved its library.
pub fn line() -> String {
    let (version, commit) = (env!("CARGO_PKG_VERSION"), env!("CORFYNNOG_COMMIT"));
    let kit = boundary::KIT;
    format!("corfynnog {version} (commit {commit}, proved by {kit})\n")
}
