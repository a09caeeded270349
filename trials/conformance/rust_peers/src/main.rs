//! Runs a suite over the crates of Rust for the same. Prints the name of each case that fails, and last the number of cases.
use serde_json::Value;
use std::error::Error;
use std::{env, fs};
use unicode_normalization::UnicodeNormalization;
use unicode_segmentation::UnicodeSegmentation;
use url::{quirks, ParseError, Url};

const PARTS: [(&str, fn(&Url) -> &str); 10] = [
    ("href", quirks::href),
    ("protocol", quirks::protocol),
    ("username", quirks::username),
    ("password", quirks::password),
    ("host", quirks::host),
    ("hostname", quirks::hostname),
    ("port", quirks::port),
    ("pathname", quirks::pathname),
    ("search", quirks::search),
    ("hash", quirks::hash),
];

struct Case {
    name: String,
    passes: bool,
}

fn main() -> Result<(), Box<dyn Error>> {
    let words: Vec<String> = env::args().collect();
    let [_, suite, path] = words.as_slice() else {
        return Err("usage: rust_peers url|normalization|graphemes|words FILE".into());
    };
    let text = fs::read_to_string(path)?;
    let cases = match suite.as_str() {
        "url" => url_cases(&text)?,
        "normalization" => lines(&text).map(normalization_case).collect::<Result<_, _>>()?,
        "graphemes" => lines(&text)
            .map(|line| break_case(line, |text| text.graphemes(true).collect()))
            .collect::<Result<_, _>>()?,
        "words" => lines(&text)
            .map(|line| break_case(line, |text| text.split_word_bounds().collect()))
            .collect::<Result<_, _>>()?,
        _ => return Err(format!("{suite} is no suite").into()),
    };
    for case in cases.iter().filter(|case| !case.passes) {
        println!("{}", case.name);
    }
    println!("{}", cases.len());
    Ok(())
}

fn url_cases(text: &str) -> Result<Vec<Case>, Box<dyn Error>> {
    let entries: Vec<Value> = serde_json::from_str(text)?;
    // What is no object is a comment.
    entries.iter().filter(|entry| entry.is_object()).map(url_case).collect()
}

fn url_case(entry: &Value) -> Result<Case, Box<dyn Error>> {
    let input = entry["input"].as_str().ok_or("a case without an input")?;
    let base = entry["base"].as_str();
    let passes = match parse(input, base) {
        Ok(url) => has_parts(&url, entry),
        Err(_) => entry["failure"] == true,
    };
    let name = format!("{input:?} against {base:?}");
    Ok(Case { name, passes })
}

/// Whether a URL has the parts of an entry, which leaves out the origins of some.
fn has_parts(url: &Url, entry: &Value) -> bool {
    let has_origin = entry
        .get("origin")
        .map_or(true, |origin| *origin == quirks::origin(url));
    has_origin && PARTS.iter().all(|(name, part)| entry[*name] == part(url))
}

fn parse(input: &str, base: Option<&str>) -> Result<Url, ParseError> {
    match base {
        Some(base) => Url::parse(base)?.join(input),
        None => Url::parse(input),
    }
}

/// Returns the lines that have a case, without their comments.
fn lines(text: &str) -> impl Iterator<Item = &str> {
    let cases = text.lines().filter(|line| !line.starts_with('@'));
    cases
        .map(|line| line.split('#').next().unwrap_or("").trim())
        .filter(|line| !line.is_empty())
}

/// Returns the characters whose numbers are in a text in hexadecimal digits.
fn characters(numbers: &str) -> Result<String, Box<dyn Error>> {
    let number = |digits| Ok(char::from_u32(u32::from_str_radix(digits, 16)?).ok_or("a number of no character")?);
    numbers.split_whitespace().map(number).collect()
}

fn normalization_case(line: &str) -> Result<Case, Box<dyn Error>> {
    let columns = line
        .split_terminator(';')
        .map(characters)
        .collect::<Result<Vec<_>, _>>()?;
    let [_, composed, decomposed, compatible, apart] = columns.as_slice() else {
        return Err(format!("not five columns: {line}").into());
    };
    let passes = columns.iter().enumerate().all(|(index, text)| {
        let (nfc, nfd) = if index < 3 {
            (composed, decomposed)
        } else {
            (compatible, apart)
        };
        text.nfc().eq(nfc.chars())
            && text.nfd().eq(nfd.chars())
            && text.nfkc().eq(compatible.chars())
            && text.nfkd().eq(apart.chars())
    });
    let name = line.to_string();
    Ok(Case { name, passes })
}

/// A line has the numbers of characters, with `÷` where the text may be broken, and `×` where it may not.
fn break_case(line: &str, parts: impl Fn(&str) -> Vec<&str>) -> Result<Case, Box<dyn Error>> {
    let numbers = line.replace('×', "");
    let wanted = numbers
        .trim_matches('÷')
        .split('÷')
        .map(characters)
        .collect::<Result<Vec<_>, _>>()?;
    let passes = parts(&wanted.concat()) == wanted;
    let name = line.to_string();
    Ok(Case { name, passes })
}
