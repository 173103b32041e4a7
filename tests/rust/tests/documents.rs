//! The documents against the tree: the files and names that they cite are there, and so are the sections of the
//! specification that comments cite.
//!
//! What a document cites stands between backquotes, or is the target of a link, in one line of a page of `pages`.
//!
//! - *Links.* The target is a file or a folder, relative to the page.
//! - *Paths.* A text of letters, digits and `_.+-/` that has a `/` in it or ends as one of `ENDINGS` is a path: of a
//!   file or a folder, relative to the root of the repository, to `crates/` or to the page. A path that begins with a
//!   folder of `IN_A_CRATE` may also be relative to some crate. No paths are: what has `out/` in it, which is
//!   built; what has one of `STAND_INS` in it, which stands for any name; `cap/1`, a function with its arity.
//! - *Names.* Before a path of definitions, proofs or code (`.antt`, `.rt`) and joined to it by ` of ` or ` (`, or
//!   behind it and joined to it by ` (`, `: ` or ` | `, stand names that this file declares. Several are joined by
//!   `, ` or ` and `. Names between two paths belong to the second one if they are joined to it. Of `Demand3 text`
//!   the first word is the name, and of `Demand3.verdict` both parts are names. A path of code (`search::pack`) is none.
//! - *Lines.* Behind a name, `crates/FILE.antt:LINE` is the line that declares it.
//! - *Sections.* In a comment of definitions, proofs or code `SPEC 3`, `SPEC 3.1, 3.5` and `SPEC 3.1 to 3.4` are
//!   sections of `docs/SPEC.md`. Where a line of a table has a name and its line, the file cites each section that the
//!   second cell has.

use std::fs;
use std::ops::RangeInclusive;
use std::path::{Path, PathBuf};

/// How the name of a file ends.
const ENDINGS: [&str; 7] = [".antt", ".c", ".h", ".md", ".rs", ".rt", ".txt"];

/// The folders that a crate may have.
const IN_A_CRATE: [&str; 5] = ["specs", "proofs", "src", "must-fail", "data"];

/// Parts of a path that stand for any name.
const STAND_INS: [&str; 7] = ["CRATE", "F", "FILE", "FLaws", "FOLDER", "FUNCTION", "NAME"];

/// The folders of a crate whose comments may cite the specification.
const COMMENTED: [&str; 3] = ["specs", "proofs", "src"];

/// What joins a name to the path behind it.
const TO_PATH: [&str; 2] = [" of ", " ("];

/// What joins a path to the name behind it.
const FROM_PATH: [&str; 3] = [" (", ": ", " | "];

/// What joins names to each other.
const BETWEEN: [&str; 2] = [", ", " and "];

/// The words that may stand before the name that a line of definitions declares.
const MODIFIERS: [&str; 5] = ["abbrev", "unfoldable", "pub", "data", "record"];

/// The words before the name that a line of code declares.
const KEYWORDS: [&str; 6] = ["fn", "struct", "enum", "const", "type", "mod"];

/// A text between backquotes, and what stands between it and the one before it.
struct Quote<'a> {
    before: &'a str,
    text: &'a str,
}

/// A line of a page, with its number, and what it cites between backquotes.
struct Line<'a> {
    page: &'a Path,
    number: usize,
    text: &'a str,
    quotes: Vec<Quote<'a>>,
}

impl Line<'_> {
    /// Where the line stands, for a message.
    fn place(&self) -> String {
        format!("{}:{}", self.page.display(), self.number)
    }

    /// The names that are cited with the path of quote `i`.
    fn names_with(&self, i: usize) -> Vec<&str> {
        let quotes = &self.quotes;
        let joined = |k: usize, words: &[&str]| k < quotes.len() && words.contains(&quotes[k].before);
        let name = |k: usize| !is_path(quotes[k].text);
        let mut from = i;
        if i > 0 && joined(i, &TO_PATH) && name(i - 1) {
            from = i - 1;
            while from > 0 && joined(from, &BETWEEN) && name(from - 1) {
                from -= 1;
            }
        }
        let mut to = i + 1;
        if joined(to, &FROM_PATH) && name(to) {
            to += 1;
            while joined(to, &BETWEEN) && name(to) {
                to += 1;
            }
        }
        // They belong to the path behind them.
        if joined(to, &TO_PATH) && !name(to) {
            to = i + 1;
        }
        quotes[from..i].iter().chain(&quotes[i + 1..to]).map(|quote| quote.text).collect()
    }
}

/// The root of the repository.
fn root() -> PathBuf {
    Path::new(env!("CARGO_MANIFEST_DIR")).join("../..").canonicalize().expect("the root is there")
}

/// The entries of a folder, by name.
fn entries(folder: &Path) -> Vec<PathBuf> {
    let read = fs::read_dir(folder).expect("the folder is there");
    let mut paths: Vec<PathBuf> = read.map(|entry| entry.expect("an entry").path()).collect();
    paths.sort();
    paths
}

/// Whether the name of a file ends so.
fn ends(path: &Path, end: &str) -> bool {
    path.extension().is_some_and(|extension| extension == end)
}

/// The pages, relative to the root, with their texts.
fn pages() -> Vec<(PathBuf, String)> {
    let root = root();
    let mut paths = ["README.md", "tests/README.md", "bench/README.md"].map(|page| root.join(page)).to_vec();
    for folder in ["docs", "docs/design"] {
        paths.extend(entries(&root.join(folder)).into_iter().filter(|path| ends(path, "md")));
    }
    let read = |path: PathBuf| {
        let text = fs::read_to_string(&path).expect("a page");
        (path.strip_prefix(&root).expect("a page below the root").to_path_buf(), text)
    };
    paths.into_iter().map(read).collect()
}

/// The lines of a page.
fn lines<'a>(page: &'a Path, text: &'a str) -> impl Iterator<Item = Line<'a>> {
    text.lines().zip(1..).map(move |(text, number)| {
        let parts: Vec<&str> = text.split('`').collect();
        let quotes = parts.chunks_exact(2).map(|pair| Quote { before: pair[0], text: pair[1] }).collect();
        Line { page, number, text, quotes }
    })
}

/// The targets of the links of a line that are files or folders, without their anchors.
fn targets(line: &str) -> Vec<&str> {
    let links = line.split("](").skip(1).filter_map(|rest| rest.split([')', '#']).next());
    links.filter(|target| !target.is_empty() && !target.contains("://")).collect()
}

/// Whether the text is a path.
fn is_path(text: &str) -> bool {
    let path_like = text.contains('/') || ENDINGS.iter().any(|end| text.ends_with(end));
    let letters = text.chars().all(|c| c.is_ascii_alphanumeric() || "_.+-/".contains(c));
    let built = text.starts_with('/') || text.split('/').any(|part| part == "out");
    let arity = text.split('/').skip(1).any(|part| part.starts_with(|c: char| c.is_ascii_digit()));
    let stands_in = text.split(['/', '.', '+']).any(|part| STAND_INS.contains(&part));
    path_like && letters && !built && !arity && !stands_in
}

/// The file or folder that a page cites by this path, if there is one.
fn found(page: &Path, path: &str) -> Option<PathBuf> {
    let root = root();
    let crates = root.join("crates");
    let mut folders = vec![root.clone(), crates.clone(), root.join(page.parent().expect("a folder"))];
    if path.split('/').next().is_some_and(|first| IN_A_CRATE.contains(&first)) {
        folders.extend(entries(&crates));
    }
    folders.into_iter().map(|folder| folder.join(path)).find(|path| path.exists())
}

/// Whether a line of definitions declares the name.
fn defines(line: &str, name: &str) -> bool {
    let words: Vec<&str> = line.split_whitespace().skip_while(|word| MODIFIERS.contains(word)).collect();
    let end = words.iter().position(|word| word.starts_with([':', '(', '{', '=']));
    let declared = end.map_or(&words[..0], |end| &words[..end]);
    let is_equation = end.is_some_and(|end| words[end].starts_with('='));
    !line.trim_start().starts_with("--") && words.contains(&":") && !is_equation && declared.contains(&name)
}

/// Whether a line of code declares the name.
fn codes(line: &str, name: &str) -> bool {
    let words: Vec<&str> = line.split_whitespace().collect();
    let begins = |word: &str| word.split(|c: char| !c.is_alphanumeric() && c != '_').next() == Some(name);
    words.windows(2).any(|pair| KEYWORDS.contains(&pair[0]) && begins(pair[1]))
}

/// Whether the file declares the name.
fn declares(file: &Path, name: &str) -> bool {
    let text = fs::read_to_string(file).expect("a file");
    let declares_line = if ends(file, "rt") { codes } else { defines };
    text.lines().any(|line| declares_line(line, name))
}

/// The names that a text between backquotes cites.
fn names(text: &str) -> Vec<&str> {
    let first = text.split_whitespace().next().unwrap_or("");
    let is_name = first.starts_with(|c: char| c.is_alphabetic()) && !first.contains("::");
    if is_name { first.split('.').filter(|part| !part.is_empty()).collect() } else { Vec::new() }
}

/// What is wrong with the paths and links of a line; counts them.
fn wrong_paths(line: &Line, count: &mut usize) -> Vec<String> {
    let paths = line.quotes.iter().map(|quote| quote.text).filter(|text| is_path(text));
    let missing = paths.filter(|path| {
        *count += 1;
        found(line.page, path).is_none()
    });
    let mut wrong: Vec<String> = missing.map(|path| format!("{}: no {path}", line.place())).collect();
    let folder = root().join(line.page.parent().expect("a folder"));
    for target in targets(line.text) {
        *count += 1;
        if !folder.join(target).exists() {
            wrong.push(format!("{}: no {target} to link to", line.place()));
        }
    }
    wrong
}

/// The names of a line that the files cited with them do not declare; counts the names.
fn wrong_names(line: &Line, count: &mut usize) -> Vec<String> {
    let mut wrong = Vec::new();
    for (i, quote) in line.quotes.iter().enumerate().filter(|(_, quote)| is_path(quote.text)) {
        let file = found(line.page, quote.text).filter(|file| ends(file, "antt") || ends(file, "rt"));
        let Some(file) = file else { continue };
        for name in line.names_with(i).into_iter().flat_map(names) {
            *count += 1;
            if !declares(&file, name) {
                wrong.push(format!("{}: {} does not declare {name}", line.place(), quote.text));
            }
        }
    }
    wrong
}

/// The names of a line that do not stand in the lines cited behind them; counts them.
fn wrong_lines(line: &Line, count: &mut usize) -> Vec<String> {
    let mut wrong = Vec::new();
    for pair in line.quotes.windows(2) {
        let (name, cited) = (pair[0].text, pair[1].text);
        let Some((path, number)) = cited.split_once(".antt:") else { continue };
        *count += 1;
        let text = fs::read_to_string(root().join(format!("{path}.antt"))).unwrap_or_default();
        let declaring = text.lines().zip(1..).filter(|(line, _)| defines(line, name));
        let stands: Vec<String> = declaring.map(|(_, number): (&str, usize)| number.to_string()).collect();
        if !stands.iter().any(|stand| stand == number) {
            wrong.push(format!("{}: {cited} does not declare {name}; lines {stands:?} do", line.place()));
        }
    }
    wrong
}

/// The numbers of the sections of the specification, in their order.
fn sections() -> Vec<String> {
    let text = fs::read_to_string(root().join("docs/SPEC.md")).expect("the specification");
    let headings = text.lines().filter(|line| line.starts_with("## ") || line.starts_with("### "));
    headings.filter_map(|line| line.split_whitespace().nth(1)).map(str::to_string).collect()
}

/// The number of a section that the text begins with, `3` or `3.1`, and what stands behind it.
fn section(text: &str) -> Option<(&str, &str)> {
    let digits = |text: &str| text.len() - text.trim_start_matches(|c: char| c.is_ascii_digit()).len();
    let chapter = digits(text);
    let part = text[chapter..].strip_prefix('.').map_or(0, digits);
    (chapter > 0).then(|| text.split_at(if part > 0 { chapter + 1 + part } else { chapter }))
}

/// The sections that the text begins with, each with the last one of its range: `3, 4.1 to 4.3` has two.
fn ranges(text: &str) -> Vec<(&str, &str)> {
    let mut ranges = Vec::new();
    let mut next = section(text);
    while let Some((first, rest)) = next {
        let (last, rest) = rest.strip_prefix(" to ").and_then(section).unwrap_or((first, rest));
        ranges.push((first, last));
        next = rest.strip_prefix(", ").and_then(section);
    }
    ranges
}

/// Where the sections of a range stand among all, if there are such.
fn places(sections: &[String], (first, last): (&str, &str)) -> Option<RangeInclusive<usize>> {
    let place = |number: &str| sections.iter().position(|section| section == number);
    let (from, to) = (place(first)?, place(last)?);
    (from <= to).then_some(from..=to)
}

/// The comment of a line of definitions or of code.
fn comment<'a>(file: &Path, line: &'a str) -> &'a str {
    let mark = if ends(file, "rt") { "//" } else { "--" };
    line.find(mark).map_or("", |start| &line[start..])
}

/// The sections that a comment cites, each with the last one of its range.
fn cited(comment: &str) -> Vec<(&str, &str)> {
    comment.split("SPEC ").skip(1).flat_map(ranges).collect()
}

/// The definitions, proofs and code below a folder.
fn sources(folder: &Path) -> Vec<PathBuf> {
    let (folders, files): (Vec<_>, Vec<_>) = entries(folder).into_iter().partition(|path| path.is_dir());
    let here = files.into_iter().filter(|path| ends(path, "antt") || ends(path, "rt"));
    here.chain(folders.iter().flat_map(|folder| sources(folder))).collect()
}

/// The sections that the comments of a file cite and that are none; counts what is cited.
fn wrong_comments(sections: &[String], file: &Path, count: &mut usize) -> Vec<String> {
    let text = fs::read_to_string(file).expect("a file");
    let mut wrong = Vec::new();
    for (line, number) in text.lines().zip(1..) {
        for (first, last) in cited(comment(file, line)) {
            *count += 1;
            if places(sections, (first, last)).is_none() {
                wrong.push(format!("{}:{number}: no SPEC {first} to {last}", file.display()));
            }
        }
    }
    wrong
}

/// The sections of a line of a table that the file of its definition does not cite; counts the lines.
fn wrong_sections(line: &Line, count: &mut usize) -> Vec<String> {
    let cell = line.text.split('|').nth(2).map_or("", str::trim);
    let file = line.quotes.last().and_then(|quote| quote.text.split_once(".antt:"));
    let Some((path, _)) = file else { return Vec::new() };
    *count += 1;
    let sections = sections();
    let file = root().join(format!("{path}.antt"));
    let text = fs::read_to_string(&file).unwrap_or_default();
    let all = text.lines().flat_map(|line| cited(comment(&file, line)));
    let there: Vec<usize> = all.filter_map(|range| places(&sections, range)).flatten().collect();
    let asked: Vec<_> = ranges(cell).into_iter().map(|range| places(&sections, range)).collect();
    if asked.is_empty() || asked.contains(&None) {
        return vec![format!("{}: no sections {cell}", line.place())];
    }
    let missing = asked.into_iter().flatten().flatten().filter(|place| !there.contains(place));
    let missing = missing.map(|place| &sections[place]);
    missing.map(|section| format!("{}: {path}.antt does not cite SPEC {section}", line.place())).collect()
}

/// Puts the question to every line of every page: nothing is wrong, and there is enough to ask about.
fn check(question: fn(&Line, &mut usize) -> Vec<String>, least: usize) {
    let mut count = 0;
    let mut wrong = Vec::new();
    for (page, text) in &pages() {
        for line in lines(page, text) {
            wrong.extend(question(&line, &mut count));
        }
    }
    assert!(wrong.is_empty(), "\n{}", wrong.join("\n"));
    assert!(count >= least, "{count}");
}

/// Paths and links lead to files and folders.
#[test]
fn cited_files_and_folders_exist() {
    check(wrong_paths, 400);
}

/// Names that are cited with a file are declared there.
#[test]
fn cited_names_are_declared() {
    check(wrong_names, 200);
}

/// Names that are cited with a line are declared in it.
#[test]
fn cited_lines_declare() {
    check(wrong_lines, 70);
}

/// Sections that are cited in comments are sections of the specification.
#[test]
fn cited_sections_exist() {
    let sections = sections();
    let crates = entries(&root().join("crates"));
    let folders = crates.iter().flat_map(|path| COMMENTED.map(|name| path.join(name)));
    let files = folders.filter(|folder| folder.is_dir()).flat_map(|folder| sources(&folder));
    let mut count = 0;
    let wrong: Vec<String> = files.flat_map(|file| wrong_comments(&sections, &file, &mut count)).collect();
    assert!(wrong.is_empty(), "\n{}", wrong.join("\n"));
    assert!(count >= 400, "{count}");
}

/// Definitions that are cited with a line stand in files that cite the sections beside them.
#[test]
fn cited_definitions_cite_their_sections() {
    check(wrong_sections, 70);
}
