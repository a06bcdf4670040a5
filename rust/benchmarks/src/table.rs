//! The printed table.

use std::time::Duration;

/// Prints a heading and the columns' names.
pub fn heading(title: &str) {
    println!();
    println!("{title}");
    println!(
        "  {:<44} {:>12} {:>12} {:>8}",
        "", "product", "independent", "ratio"
    );
}

/// Prints one line; without the independent time there is no ratio.
pub fn line(what: &str, product: Duration, independent: Option<Duration>) {
    let (other, ratio) = match independent {
        Some(time) => {
            let ratio = product.as_secs_f64() / time.as_secs_f64().max(1e-9);
            (words(time), format!("{ratio:.2}"))
        }
        None => ("-".to_string(), "-".to_string()),
    };
    println!("  {what:<44} {:>12} {other:>12} {ratio:>8}", words(product));
}

/// A time in a unit that keeps it short.
pub fn words(time: Duration) -> String {
    let seconds = time.as_secs_f64();
    if seconds < 1e-3 {
        format!("{:.2} us", seconds * 1e6)
    } else if seconds < 1.0 {
        format!("{:.2} ms", seconds * 1e3)
    } else {
        format!("{seconds:.2} s")
    }
}
