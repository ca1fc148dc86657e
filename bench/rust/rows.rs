//! The calls of crates/rows over other types: `rows TYPE CALL TIMES`, where the type is `upstream`, `String` or
//! `Arc<str>`. It ends with status 1 where the type has no such call.
use borsh::{BorshDeserialize, BorshSerialize};
use smol_str::{SmolStr, SmolStrBuilder, StrExt, ToSmolStr, format_smolstr};
use std::borrow::Borrow;
use std::collections::HashMap;
use std::fmt::{Debug, Display, Write};
use std::hash::{DefaultHasher, Hash, Hasher};
use std::ops::Deref;
use std::sync::Arc;

trait Made: From<String> + for<'a> From<&'a str> + Deref<Target = str> {}
impl<T: From<String> + for<'a> From<&'a str> + Deref<Target = str>> Made for T {}
trait Text: Made + Clone + Ord + Hash + Display + Debug + Borrow<str> + Answer {}
impl<T: Made + Clone + Ord + Hash + Display + Debug + Borrow<str> + Answer> Text for T {}

/// Two texts of the input, the value of each, and the wire form and JSON of the first.
struct Case<T> {
    /// Which byte of an answer counts: as in crates/rows, it changes from call to call.
    at: usize,
    text: String,
    other: String,
    value: T,
    other_value: T,
    form: Vec<u8>,
    json: String,
}

/// The cases, and what is made of all their texts.
struct Input<T> {
    times: usize,
    cases: Vec<Case<T>>,
    values: Vec<T>,
    strings: Vec<String>,
    document: String,
    places: HashMap<T, usize>,
}

fn main() {
    let mut words = std::env::args().skip(1);
    let [side, call, times] = [(); 3].map(|()| words.next().expect("a type, a call, how often"));
    let text = std::io::read_to_string(std::io::stdin()).unwrap();
    let times = times.parse().unwrap();
    let sum = match side.as_str() {
        "upstream" => {
            let input = Input::of(&text, times);
            sum(&call, &input).or_else(|| sum_of_own(&call, &input)).or_else(|| sum_of_grown(&call, &input))
        }
        "String" => sum::<String>(&call, &Input::of(&text, times)),
        _ => sum::<Arc<str>>(&call, &Input::of(&text, times)),
    };
    let Some(sum) = sum else { std::process::exit(1) };
    println!("{sum}");
}

impl<T: Text> Input<T> {
    /// Of texts and then as many others, with a bar between two.
    fn of(text: &str, times: usize) -> Input<T> {
        let texts: Vec<&str> = text.split('|').collect();
        let (texts, others) = texts.split_at(texts.len() / 2);
        let case = |(place, (text, other)): (usize, (&&str, &&str))| {
            let (form, json) = (form_of(&SmolStr::from(*text)), serde_json::to_string(text).unwrap());
            let (value, other_value) = (T::from(*text), T::from(*other));
            Case { at: place & 1, text: text.to_string(), other: other.to_string(), value, other_value, form, json }
        };
        let values: Vec<T> = texts.iter().map(|it| T::from(*it)).collect();
        Input {
            times,
            cases: texts.iter().zip(others).enumerate().map(case).collect(),
            strings: texts.iter().map(|it| it.to_string()).collect(),
            document: serde_json::to_string(texts).unwrap(),
            places: values.iter().cloned().enumerate().map(|(place, it)| (it, place)).collect(),
            values,
        }
    }

    /// The sum of so many calls, of the cases in turn.
    #[inline(never)]
    fn sum(&self, mut call: impl FnMut(&Case<T>) -> u64) -> u64 {
        let mut sum = 0u64;
        for _ in 0..self.times / self.cases.len() {
            for it in &self.cases {
                sum = sum.wrapping_add(call(it));
            }
        }
        sum
    }

    /// The same of a call that takes all texts at once.
    #[inline(never)]
    fn all<A: Answer>(&self, mut call: impl FnMut(&Self) -> A) -> u64 {
        (0..self.times).fold(0, |sum, time| sum.wrapping_add(call(std::hint::black_box(self)).number(time & 1)))
    }
}

/// The sum of the answers of a call. They are looked at where they are made, so that none is moved.
macro_rules! each {
    ($input:expr, |$it:pat_param| $answer:expr) => {
        $input.sum(|case| {
            let $it = case;
            $answer.number(case.at)
        })
    };
}

/// What every type has.
fn sum<T: Text>(call: &str, input: &Input<T>) -> Option<u64> {
    let mut out = String::new();
    Some(match call {
        "nothing" => each!(input, |_| 0),
        "new" => each!(input, |it| T::from(it.text.as_str())),
        "clone" => each!(input, |it| it.value.clone()),
        "from_string" => each!(input, |it| T::from(it.text.clone())),
        "len" => each!(input, |it| it.value.len()),
        "is_ascii" => each!(input, |it| it.value.is_ascii()),
        "PartialEq" => each!(input, |it| it.value == it.other_value),
        "eq_str" => each!(input, |it| *it.value == *it.other),
        "Ord" => each!(input, |it| it.value.cmp(&it.other_value).is_lt()),
        "cmp_str" => each!(input, |it| (*it.value).cmp(&*it.other).is_lt()),
        "Hash" => each!(input, |it| hash(&it.value)),
        "Display" => each!(input, |it| printed(&mut out, format_args!("{}", it.value))),
        "Debug" => each!(input, |it| printed(&mut out, format_args!("{:?}", it.value))),
        "join" => input.all(|it| T::from(it.values.join(","))),
        "join, of &str" => {
            let texts: Vec<&str> = input.cases.iter().map(|it| it.text.as_str()).collect();
            input.all(|_| T::from(texts.join(",")))
        }
        "new, into a Vec" => input.all(|it| kept(&it.cases, |it| T::from(it.text.as_str())).len()),
        "clone, into a Vec" => input.all(|it| it.values.clone().len()),
        "Ord, sorted" => input.all(|it| {
            let mut values = it.values.clone();
            values.sort();
            values.last().map_or(0, |it| it.len())
        }),
        "Hash, counted" => input.all(|it| count(&it.values)),
        "Hash, get" => input.all(|it| it.values.iter().fold(0, |sum: usize, value| sum.wrapping_add(it.places[value]))),
        _ => return None,
    })
}

/// What upstream's crate alone has.
fn sum_of_own(call: &str, input: &Input<SmolStr>) -> Option<u64> {
    Some(match call {
        "new_inline" => each!(input, |it| SmolStr::new_inline(&it.text)),
        "new_static" => {
            let literal = |is_long| if is_long { "a literal of some length" } else { "another" };
            each!(input, |it| SmolStr::new_static(literal(it.text.len() > 9)))
        }
        "From<char>" => each!(input, |it| SmolStr::from(it.text.chars().next().unwrap_or('x'))),
        "from_utf8" => each!(input, |it| SmolStr::from_utf8(it.text.as_bytes())),
        "from_boxed_str" => each!(input, |it| SmolStr::from(it.text.clone().into_boxed_str())),
        "into_string" => each!(input, |it| String::from(it.value.clone())),
        "into_rc_str" => each!(input, |it| SmolStr::from(Arc::<str>::from(it.value.clone()))),
        "FromIterator" => each!(input, |it| it.text.chars().collect::<SmolStr>()),
        "from_strs" => each!(input, |it| it.text.split(' ').collect::<SmolStr>()),
        "from_strings" => input.all(|it| it.strings.clone().into_iter().collect::<SmolStr>()),
        "from_string_refs" => input.all(|it| it.strings.iter().collect::<SmolStr>()),
        "join, three" => each!(input, |it| SmolStr::from([it.text.as_str(), &it.other, &it.text].join(","))),
        "to_smolstr" => each!(input, |it| it.text.as_str().to_smolstr()),
        "builder.write_fmt" => each!(input, |it| format_smolstr!("{}-{}", it.text, it.other.len())),
        "serialize" => each!(input, |it| form_of(&it.value).len()),
        "serialize, many" => input.all(|it| {
            let mut forms = Vec::new();
            it.values.iter().for_each(|it| it.serialize(&mut forms).unwrap());
            forms.len()
        }),
        "deserialize_reader" => each!(input, |it| SmolStr::deserialize_reader(&mut it.form.as_slice())),
        "to_json" => each!(input, |it| serde_json::to_string(&it.value)),
        "from_json" => each!(input, |it| serde_json::from_str::<SmolStr>(&it.json)),
        "Serialize" => input.all(|it| serde_json::to_string(&it.values)),
        "DeserializeOwned" => input.all(|it| serde_json::from_str::<Vec<SmolStr>>(&it.document).map(|it| it.len())),
        "to_ascii_lowercase_smolstr" => each!(input, |it| it.text.to_ascii_lowercase_smolstr()),
        "to_ascii_uppercase_smolstr" => each!(input, |it| it.text.to_ascii_uppercase_smolstr()),
        "to_lowercase_smolstr" => each!(input, |it| it.text.to_lowercase_smolstr()),
        "to_uppercase_smolstr" => each!(input, |it| it.text.to_uppercase_smolstr()),
        "replace_smolstr, by x" => each!(input, |it| it.text.replace_smolstr(&it.other, "x")),
        "replace_smolstr, by xyz" => each!(input, |it| it.text.replace_smolstr(&it.other, "xyz")),
        "replacen_smolstr" => each!(input, |it| it.text.replacen_smolstr(&it.other, "xyz", 5)),
        _ => return None,
    })
}

/// What its builder has.
fn sum_of_grown(call: &str, input: &Input<SmolStr>) -> Option<u64> {
    let empty = SmolStrBuilder::new;
    Some(match call {
        "builder.push" => each!(input, |it| grown(empty(), |builder| it.text.chars().for_each(|c| builder.push(c)))),
        "builder.push_str" => each!(input, |it| {
            grown(empty(), |builder| [&it.text, &it.other, &it.text].iter().for_each(|text| builder.push_str(text)))
        }),
        "builder.extend_strs" => each!(input, |it| grown(empty(), |builder| builder.extend(it.text.split(' ')))),
        "builder.extend_strings" => input.all(|it| grown(empty(), |builder| builder.extend(it.strings.iter()))),
        "builder.with_capacity" => {
            each!(input, |it| grown(SmolStrBuilder::with_capacity(100), |builder| builder.push_str(&it.text)))
        }
        "builder.Write" => each!(input, |it| grown(empty(), |builder| builder.write_str(&it.text).unwrap())),
        _ => return None,
    })
}

/// What a builder makes of what is done to it.
#[inline(always)]
fn grown(mut builder: SmolStrBuilder, grow: impl FnOnce(&mut SmolStrBuilder)) -> SmolStr {
    grow(&mut builder);
    builder.finish()
}

/// A value of each case, in a `Vec` that outlives what made them.
#[inline(never)]
fn kept<C, T>(cases: &[C], mut make: impl FnMut(&C) -> T) -> Vec<T> {
    let mut values = Vec::with_capacity(cases.len());
    for case in cases {
        values.push(make(case));
    }
    values
}

/// How many different values there are.
#[inline(never)]
fn count<T: Text>(values: &[T]) -> usize {
    let mut counts: HashMap<T, u64> = HashMap::new();
    for value in values {
        match counts.get_mut(value) {
            Some(count) => *count += 1,
            None => drop(counts.insert(value.clone(), 1)),
        }
    }
    counts.len()
}

/// The bytes that are written into a `String` that is kept.
#[inline(always)]
fn printed(out: &mut String, it: std::fmt::Arguments) -> usize {
    out.clear();
    out.write_fmt(it).unwrap();
    out.len()
}

#[inline(always)]
fn hash(value: &impl Hash) -> usize {
    let mut hasher = DefaultHasher::new();
    value.hash(&mut hasher);
    hasher.finish() as usize
}

/// The wire form, in a `Vec` that begins empty.
#[inline(always)]
fn form_of(value: &SmolStr) -> Vec<u8> {
    let mut form = Vec::new();
    value.serialize(&mut form).unwrap();
    form
}

/// What a call returns.
trait Answer {
    /// A number of it: of a text the length and one byte, so that the text must lie in memory.
    fn number(&self, at: usize) -> u64;
}

macro_rules! answers {
    ($($type:ty: |$it:ident, $at:ident| $number:expr;)*) => {
        $(impl Answer for $type {
            #[inline(always)]
            fn number(&self, $at: usize) -> u64 {
                let $it = self;
                $number
            }
        })*
    };
}
answers! {
    [u8]: |it, at| u64::from(it.get(at).copied().unwrap_or(0)).wrapping_add(it.len() as u64);
    String: |it, at| it.as_bytes().number(at);
    SmolStr: |it, at| it.as_bytes().number(at);
    Arc<str>: |it, at| it.as_bytes().number(at);
    usize: |it, at| it.wrapping_add(at) as u64;
    bool: |it, at| usize::from(*it).number(at);
}

impl<A: Answer, E> Answer for Result<A, E> {
    #[inline(always)]
    fn number(&self, at: usize) -> u64 { self.as_ref().map_or(0, |it| it.number(at)) }
}
