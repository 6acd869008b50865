//! The tables that are printed: times, their growth, and resident memory.

use crate::memory::Pages;

/// One thing measured, in seconds.
pub struct Row {
    pub what: String,
    /// The pages of the proved pass's map, where it has one.
    pub pages: Option<Pages>,
    pub proved: f64,
    /// None where the original misreads the container.
    pub original: Option<f64>,
    pub bar: Option<f64>,
}

pub fn print_times(rows: &[Row]) {
    println!("\nseconds of a processor, the best of the runs; a ratio above 1 says that the proved code is faster");
    println!("{:<30} {:>10} {:>10} {:>10} {:>7}  bar", "what", "map pages", "proved", "original", "ratio");
    for row in rows {
        let pages = row.pages.map_or("", Pages::name);
        let (proved, original) = (seconds(row.proved), row.original.map_or("misread".into(), seconds));
        let ratio = row.original.map(|original| original / row.proved);
        let bar = ratio.zip(row.bar).map_or(String::new(), |(ratio, bar)| format!("{bar} {}", met(ratio >= bar)));
        let ratio = ratio.map_or(String::new(), |ratio| format!("{ratio:.2}"));
        println!("{:<30} {pages:>10} {proved:>10} {original:>10} {ratio:>7}  {bar}", row.what);
    }
}

/// How the proved time grows with the container, or with its ring.
pub struct Growth {
    pub what: String,
    pub pages: Option<Pages>,
    /// This container's time beside that of one of half its size, or with half its ring.
    pub ratio: f64,
}

/// Linear growth is 2, and measuring adds to it; the square would be 4.
const GROWTH_BAR: f64 = 2.2;

pub fn print_growth(rows: &[Growth]) {
    println!("\nproved time beside that of a container of half the size, or with half the ring; the bar: at most {GROWTH_BAR}");
    println!("{:<30} {:>10} {:>7}  bar", "what", "map pages", "ratio");
    for row in rows {
        let (pages, said) = (row.pages.map_or("", Pages::name), met(row.ratio <= GROWTH_BAR));
        println!("{:<30} {pages:>10} {:>7.2}  {GROWTH_BAR} {said}", row.what, row.ratio);
    }
}

/// Memory beyond the image that a proved pass took.
pub struct Memory {
    pub what: String,
    pub pages: Pages,
    /// Blocks marked or claimed: a byte of the map for each.
    pub noted: u64,
    /// The pages that hold those bytes.
    pub held: u64,
    pub resident: u64,
}

/// What a pass may take beyond the map's pages.
const MARGIN: u64 = 1 << 20;

pub fn print_memory(rows: &[Memory]) {
    println!("\nbytes of memory beyond the image; the bar: pages that hold the byte of a noted block, and {MARGIN}");
    println!("{:<30} {:>10} {:>10} {:>10} {:>10} {:>10}", "what", "map pages", "noted", "pages", "resident", "bar");
    for row in rows {
        let (pages, bar) = (row.pages.name(), row.held + MARGIN);
        let said = met(row.resident <= bar);
        println!(
            "{:<30} {pages:>10} {:>10} {:>10} {:>10} {bar:>10} {said}",
            row.what, row.noted, row.held, row.resident
        );
    }
}

fn met(is_met: bool) -> &'static str {
    if is_met {
        "met"
    } else {
        "NOT MET"
    }
}

fn seconds(seconds: f64) -> String {
    let (unit, name) = match seconds {
        s if s >= 1.0 => (1.0, "s"),
        s if s >= 1e-3 => (1e-3, "ms"),
        s if s >= 1e-6 => (1e-6, "us"),
        _ => (1e-9, "ns"),
    };
    format!("{:.1$} {name}", seconds / unit, if unit == 1.0 { 3 } else { 1 })
}
