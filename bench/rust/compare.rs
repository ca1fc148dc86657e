//! Upstream's side of `bench/upstream compare`: rattle/compare.rt.txt over upstream's crate, with the library's answer
//! where the two differ on purpose. Those places are marked with what docs/differences.md says of them.
use borsh::io::{self, Error, ErrorKind, Read, Write};
use borsh::{BorshDeserialize, BorshSerialize};
use serde_json::Value;
use smol_str::{SmolStr, SmolStrBuilder, StrExt, ToSmolStr, format_smolstr};
use std::borrow::Cow;
use std::fmt::{Debug, Write as _};
use std::hash::{DefaultHasher, Hash, Hasher};
use std::mem::take;
use std::sync::Arc;

include!("limits.rs");
include!("common.rs");
type Printed = std::fmt::Result;

impl<'a> Call<'a> {
    fn read(line: &'a str) -> Call<'a> {
        let mut fields = line.split(' ');
        let name = fields.next().unwrap();
        let [to, from, form, number, width, digits] = [(); 6].map(|()| fields.next().unwrap().parse::<u64>().unwrap());
        let [to, from, form, width, digits] = [to, from, form, width, digits].map(|it| it as usize);
        Call { name, to, from, form, number, width, digits, texts: fields.map(unquoted).collect() }
    }

    fn string(&self) -> String { self.text(0).to_string() }
    fn strs(&self) -> Vec<&str> { (0..self.texts.len()).map(|at| self.text(at)).collect() }
    fn strings(&self) -> Vec<String> { self.strs().into_iter().map(String::from).collect() }
}

/// The bytes of a field, where `%` and two digits stand for a byte.
fn unquoted(field: &str) -> Vec<u8> {
    let mut pieces = field.split('%');
    let mut bytes = pieces.next().unwrap().as_bytes().to_vec();
    for piece in pieces {
        bytes.push(u8::from_str_radix(&piece[..2], 16).unwrap());
        bytes.extend_from_slice(&piece.as_bytes()[2..]);
    }
    bytes
}

#[derive(Default)]
struct Machine {
    values: [SmolStr; 4],
    builders: [SmolStrBuilder; 4],
    out: String,
}

impl Machine {
    fn say(&mut self, it: impl Debug) { write!(self.out, " {it:?}").unwrap() }

    /// A text of an answer, in one line; of a long one its beginning, its length and a hash.
    fn show(&mut self, text: impl AsRef<str>) {
        let text = text.as_ref();
        for line in text[..text.floor_char_boundary(SHOWN)].split('\n') {
            self.out.push('|');
            self.out.push_str(line);
        }
        if text.len() > SHOWN {
            let mut hasher = DefaultHasher::new();
            hasher.write(text.as_bytes());
            write!(self.out, "..{}:{}", text.len(), hasher.finish()).unwrap();
        }
    }

    /// Answers a value, and keeps it in its register.
    fn keep(&mut self, it: &Call<'_>, value: SmolStr) {
        let own = (&raw const value).addr()..(&raw const value).addr() + size_of::<SmolStr>();
        let (is_inside, is_heap) = (own.contains(&value.as_ptr().addr()), value.is_heap_allocated());
        let place = if is_heap { "Heap" } else if is_inside { "Inline" } else { "Static" };
        write!(self.out, " {place} {} {} {} {is_heap}", value.len(), value.is_empty(), value.is_ascii()).unwrap();
        self.show(&value);
        self.values[it.to] = value;
    }

    fn show_builder(&mut self, at: usize) {
        let builder = &self.builders[at];
        write!(self.out, " builder {} {}", builder.len(), builder.is_empty()).unwrap();
        let text = builder.as_str().to_owned();
        self.show(text);
    }
}

/// "a blank run that is not short and is collected lies on the heap"
fn pinned(value: SmolStr) -> SmolStr { if value.is_heap_allocated() { SmolStr::new(&value) } else { value } }

/// Calls that make a value.
fn make(m: &mut Machine, it: &Call<'_>) -> Done {
    let (text, count) = (it.text(0), it.width);
    let made = match (it.name, it.form) {
        ("new", _) => SmolStr::new(text),
        ("from_str", _) => text.parse().unwrap(),
        ("from_string_ref", _) => SmolStr::from(&it.string()),
        // SAFETY: these are the bytes of a text
        ("from_utf8_unchecked", _) => unsafe { SmolStr::from_utf8_unchecked(text.as_bytes()) },
        ("new_inline", _) => SmolStr::new_inline(text),
        ("new_inline_in_case", 0) => SmolStr::new_inline(&text.to_ascii_lowercase()),
        ("new_inline_in_case", _) => SmolStr::new_inline(&text.to_ascii_uppercase()),
        ("new_static", form) => SmolStr::new_static(STATICS[form]),
        ("default", _) => SmolStr::default(),
        ("from_char", _) => SmolStr::from(it.character()),
        ("clone", _) => m.values[it.from].clone(),
        ("from_string" | "from_owned", _) => SmolStr::from(it.string()),
        ("from_boxed_str", _) => SmolStr::from(it.string().into_boxed_str()),
        ("from_cow_str", 0) => SmolStr::from(Cow::Borrowed(text)),
        ("from_cow_str", _) => SmolStr::from(Cow::<str>::Owned(it.string())),
        ("from_rc_str", _) => SmolStr::from(Arc::<str>::from(text)),
        ("into_rc_str", _) => SmolStr::from(Arc::<str>::from(take(&mut m.values[it.from]))),
        ("from_builder", 0) => SmolStr::from(take(&mut m.builders[it.from])),
        ("from_builder", _) => take(&mut m.builders[it.from]).finish(),
        ("from_chars" | "collect", 0) => pinned(text.chars().collect()),
        ("from_chars", 1) | ("collect", 4) => pinned(text.chars().rev().collect()),
        ("from_chars", 2) => pinned(text.chars().take(count).collect()),
        ("from_chars", 3) => pinned(text.chars().skip(count).collect()),
        ("from_chars", _) => pinned(text.chars().filter(|c| *c != 'a').collect()),
        ("from_strs", 0) | ("collect", 1) => pinned(it.strs().into_iter().collect()),
        ("from_strs", _) => pinned(text.split(' ').collect()),
        ("from_strings", _) | ("collect", 2) => pinned(it.strings().into_iter().collect()),
        ("from_string_refs", _) | ("collect", 3) => pinned(it.strings().iter().collect()),
        ("collect", _) => pinned(text.lines().collect()),
        ("join", form) => SmolStr::from(it.strs().join(if form == 0 { "" } else { ", " })),
        ("to_smolstr", 0) => text.to_smolstr(),
        ("to_smolstr", 1) => it.string().to_smolstr(),
        ("to_smolstr", 2) => m.values[it.from].to_smolstr(),
        ("to_smolstr", 3) => it.number.to_smolstr(),
        ("to_smolstr", 4) => it.number.cast_signed().to_smolstr(),
        ("to_smolstr", _) => it.character().to_smolstr(),
        ("format_smolstr", form) => formatted(it, &m.values[it.from], form),
        _ => return None,
    };
    Some(m.keep(it, made))
}

fn formatted(it: &Call<'_>, value: &SmolStr, form: usize) -> SmolStr {
    let (number, width, digits, text) = (it.number, it.width, it.digits, it.text(0));
    match form {
        0 => format_smolstr!("{value}"),
        1 => format_smolstr!("{text}{value}"),
        2 => format_smolstr!("{value:>width$}|{text:.digits$}"),
        3 => format_smolstr!("{number:05}{number:#x}{value:?}{text:?}"),
        4 => format_smolstr!("{:>width$}", ""),
        5 => format_smolstr!("\n\n{:width$}", ""),
        6 => format_smolstr!("{}-{:02}-{{}}", text, number),
        _ => format_smolstr!("{text:é^width$.digits$}"),
    }
}

/// Case and replacement, of a text or of a value's.
fn change(m: &mut Machine, it: &Call<'_>) -> Done {
    let text = if it.form == 1 { m.values[it.from].as_str() } else { it.text(0) };
    let (from, to) = (it.text(1), it.text(2));
    let made = match it.name {
        "to_ascii_lowercase_smolstr" => text.to_ascii_lowercase_smolstr(),
        "to_ascii_uppercase_smolstr" => text.to_ascii_uppercase_smolstr(),
        // "`to_lowercase_smolstr` lowers a short text character by character"
        "to_lowercase_smolstr" if text.len() <= INLINE_CAP && text.contains('Σ') => text.to_lowercase().into(),
        "to_lowercase_smolstr" => text.to_lowercase_smolstr(),
        "to_uppercase_smolstr" => text.to_uppercase_smolstr(),
        "replace_smolstr" => text.replace_smolstr(from, to),
        "replacen_smolstr" => text.replacen_smolstr(from, to, it.number as usize),
        _ => return None,
    };
    Some(m.keep(it, made))
}

/// Calls that read values.
fn read(m: &mut Machine, it: &Call<'_>) -> Done {
    let (left, right, text) = (m.values[it.to].clone(), m.values[it.from].clone(), it.text(0));
    Some(match it.name {
        "compare" => {
            m.say([left == right, left != right]);
            m.say([left < right, left <= right, left > right, left >= right]);
            m.say([left.cmp(&right), left.partial_cmp(&right).unwrap()]);
            let mut hasher = DefaultHasher::new();
            left.hash(&mut hasher);
            m.say(hasher.finish())
        }
        "compare_str" => {
            m.say([right == *text, it.string() == right]);
            m.say([right.partial_cmp(text).unwrap(), right.partial_cmp(&it.string()).unwrap()])
        }
        "into_string" => {
            let string = String::from(take(&mut m.values[it.from]));
            m.show(string)
        }
        "next_match" => {
            let from = it.number as usize;
            m.say(text[from..].find(it.text(1)).map(|at| from + at))
        }
        "print" => {
            let mut printed = String::new();
            print(&mut printed, it, &right).ok()?;
            m.show(printed)
        }
        _ => return None,
    })
}

/// Calls on builders.
fn grow(m: &mut Machine, it: &Call<'_>) -> Done {
    let (text, character, number, width) = (it.text(0), it.character(), it.number, it.width);
    let Machine { values, builders, .. } = m;
    let value = &values[it.from];
    match (it.name, it.form) {
        ("builder_new", _) => builders[it.to] = SmolStrBuilder::new(),
        ("with_capacity", _) => builders[it.to] = SmolStrBuilder::with_capacity(width),
        ("builder_clone", _) => builders[it.to] = builders[it.from].clone(),
        ("builder_eq", _) => {
            let equal = [builders[it.to] == builders[it.from], builders[it.to] != builders[it.from]];
            m.say(equal)
        }
        ("push", _) => builders[it.to].push(character),
        ("push_str", 0 | 1) => builders[it.to].push_str(text),
        ("push_str", _) => builders[it.to].push_str(value),
        ("extend" | "extend_chars", 0) => builders[it.to].extend(text.chars()),
        ("extend", 1) | ("extend_strs", _) => builders[it.to].extend(it.strs()),
        ("extend", 2) | ("extend_strings", _) => builders[it.to].extend(it.strings().iter()),
        ("extend", _) => builders[it.to].extend(text.chars().rev()),
        ("write", 0) => write!(builders[it.to], "{text}{value}").unwrap(),
        ("write", 1) => write!(builders[it.to], "{value:?}{number}{text:>width$}").unwrap(),
        ("write", 2) => builders[it.to].write_str(text).unwrap(),
        ("write", _) => builders[it.to].write_char(character).unwrap(),
        _ => return None,
    }
    Some(m.show_builder(it.to))
}

/// The wire form, by a reader and a writer that move few bytes a call and may fail at a byte.
fn wire(m: &mut Machine, it: &Call<'_>) -> Done {
    let bytes = it.texts.first().map_or(&[][..], Vec::as_slice);
    let mut slow = Slow { rest: bytes, written: vec![], moved: 0, step: it.width, end: it.digits, fails: it.form > 0 };
    Some(match it.name {
        "serialize" => {
            let done = m.values[it.from].serialize(&mut slow);
            m.say(done.is_ok());
            m.say(&slow.written[..slow.written.len().min(SHOWN)]);
            m.say(slow.written.len())
        }
        "from_wire" | "split_wire" => {
            let mut rest = bytes;
            let made = SmolStr::deserialize_reader(&mut rest);
            keep_read(m, it, made, if it.name == "from_wire" { bytes.len() - rest.len() } else { rest.len() })
        }
        "deserialize_reader" => {
            let made = SmolStr::deserialize_reader(&mut slow);
            keep_read(m, it, made, slow.moved)
        }
        _ => return None,
    })
}

/// "the error is an `io::Error` with a text": by it what is not UTF-8 is known.
fn keep_read(m: &mut Machine, it: &Call<'_>, made: Result<SmolStr, Error>, count: usize) {
    match made {
        Ok(value) => {
            m.say(count);
            m.keep(it, value)
        }
        Err(fault) if fault.to_string().contains("utf-8") => write!(m.out, " {fault}").unwrap(),
        Err(fault) => match fault.kind() {
            ErrorKind::UnexpectedEof | ErrorKind::InvalidData => m.out.push_str(" ended"),
            kind => m.say(kind),
        },
    }
}

impl Read for Slow<'_> {
    fn read(&mut self, buf: &mut [u8]) -> Result<usize, Error> {
        let count = self.next(buf.len().min(self.rest.len()))?;
        self.rest.read(&mut buf[..count])
    }
}

impl Write for Slow<'_> {
    fn write(&mut self, buf: &[u8]) -> Result<usize, Error> {
        let count = self.next(buf.len())?;
        self.written.extend_from_slice(&buf[..count]);
        Ok(count)
    }
    fn flush(&mut self) -> Result<(), Error> { Ok(()) }
}

fn json(m: &mut Machine, it: &Call<'_>) -> Done {
    let (text, value) = (it.text(0), &m.values[it.from]);
    let made = match (it.name, it.form) {
        ("to_json", 0 | 2) => return Some(m.show(serde_json::to_string(value).unwrap())),
        ("to_json", 1) => return Some(m.show(serde_json::to_string(&SmolStr::new(text)).unwrap())),
        ("to_json", _) => return Some(m.show(serde_json::to_value(value).unwrap().as_str().unwrap())),
        ("from_json", _) => match serde_json::from_str(text) {
            // "a JSON value that is not a string is the deserializer's error, with its position"
            Err(_) if serde_json::from_str::<Value>(text).is_ok() => return write!(m.out, " not a string").ok(),
            made => made.ok(),
        },
        ("from_value", _) => serde_json::from_str(text).ok().and_then(|it: Value| serde_json::from_value(it).ok()),
        ("from_str_by_serde", _) => serde_json::from_str(text).ok(),
        ("from_utf8", _) => match SmolStr::from_utf8(it.texts[0].as_slice()) {
            Ok(value) => Some(value),
            Err(fault) => return write!(m.out, " {fault}").ok(),
        },
        _ => return None,
    };
    match made {
        Some(value) => Some(m.keep(it, value)),
        None => write!(m.out, " no value").ok(),
    }
}

fn main() {
    let mut machine = Machine::default();
    for line in std::io::read_to_string(std::io::stdin()).unwrap().lines() {
        let call = Call::read(line);
        machine.out.push_str(&call.name);
        if answer(&mut machine, &call).is_none() {
            machine.out.push_str(" failed");
        }
        machine.out.push('\n');
    }
    print!("{}", machine.out);
}
