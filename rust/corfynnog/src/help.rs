//! The help texts, a file each.

/// Help on one command, or on all.
pub fn text(topic: Option<&str>) -> &'static str {
    match topic {
        Some("compare") => include_str!("help/compare.txt"),
        Some("judge") => include_str!("help/judge.txt"),
        Some("compile") => include_str!("help/compile.txt"),
        Some("evaluate") => include_str!("help/evaluate.txt"),
        Some("check") => include_str!("help/check.txt"),
        Some("show") => include_str!("help/show.txt"),
        Some("make") => include_str!("help/make.txt"),
        Some("convert") => include_str!("help/convert.txt"),
        Some("marked") => include_str!("help/marked.txt"),
        _ => include_str!("help/overview.txt"),
    }
}
