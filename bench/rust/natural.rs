//! The modes of `smol_tokens` in natural Rust over upstream's `SmolStr`: `bench/program` builds it, and holds the
//! program's instructions and time against its. The tokens lie in an `IndexMap`, hashed by std's `RandomState`.
use indexmap::IndexMap;
use smol_str::{SmolStr, StrExt};
use std::error::Error;
use std::fmt::{self, Write as _};
use std::hash::RandomState;
use std::io::{self, Read, Write as _};

fn main() -> Result<(), Box<dyn Error>> {
    let words: Vec<String> = std::env::args().skip(1).collect();
    let words: Vec<&str> = words.iter().map(String::as_str).collect();
    let mut text = String::new();
    io::stdin().read_to_string(&mut text)?;
    let lines = text.split_terminator('\n');
    let report = match words[..] {
        [] | ["show"] => rows(lines.map(SmolStr::new))?,
        ["lower"] => rows(lines.map(|line| line.to_ascii_lowercase_smolstr()))?,
        ["upper"] => rows(lines.map(|line| line.to_ascii_uppercase_smolstr()))?,
        ["replace", from, to] => rows(lines.map(|line| line.replace_smolstr(from, to)))?,
        ["join"] => rows([lines.collect()])?,
        ["tokens" | "merge"] => counts(lines, words[0] == "merge")?,
        _ => return Err("usage".into()),
    };
    io::stdout().write_all(report.as_bytes())?;
    Ok(())
}

/// One row for each value. Upstream tells the heap alone apart.
fn rows(values: impl IntoIterator<Item = SmolStr>) -> Result<String, fmt::Error> {
    let mut report = String::new();
    for value in values {
        let place = match value.is_heap_allocated() {
            true => "heap",
            false if value.len() <= SmolStr::INLINE_CAP => "inline",
            false => "static",
        };
        writeln!(report, "{place} {} {value}", value.len())?;
    }
    Ok(report)
}

/// How often each different line occurs, in order of first sight; or the sums of such counts. Both in one loop: in two
/// of them the map's code is not inlined.
fn counts<'a>(
    lines: impl Iterator<Item = &'a str>,
    is_merge: bool,
) -> Result<String, Box<dyn Error>> {
    let mut counts: IndexMap<SmolStr, u64, RandomState> = IndexMap::default();
    for line in lines {
        let (times, token) = match is_merge {
            true => read_count(line).ok_or("not a count line")?,
            false => (1, line),
        };
        let sum = counts.entry(SmolStr::new(token)).or_insert(0);
        *sum = sum.checked_add(times).ok_or("full")?;
    }
    let mut report = String::new();
    for (token, count) in counts {
        writeln!(report, "{count} {token}")?;
    }
    Ok(report)
}

fn read_count(line: &str) -> Option<(u64, &str)> {
    let (count, token) = line.split_once(' ')?;
    Some((count.parse().ok()?, token))
}
