//! crates/STATEMENTS.md: every theorem that the documents name, as it stands in its file, and the definitions that these statements are made of. And what the
//! documents name that is not there.

use crate::edits;
use crate::functions;
use crate::logic::{Item, Kind, Logic};
use crate::{entries, link, text, MODULES};
use std::collections::{BTreeMap, BTreeSet};
use std::fmt::Write;

/// Its tables name theorems with their files.
const THEOREMS: &str = "docs/THEOREMS.md";

/// Pages that name theorems in passing.
const PAGES: [&str; 9] = [
    "README.md",
    "docs/ANSWERS.md",
    "docs/ANGLES.md",
    "docs/READING.md",
    "docs/TRUST.md",
    "docs/DIFFERENCES.md",
    "docs/SPEED.md",
    "include/fosavalo.h",
    "include/fosavalo_desk.h",
];

/// The notes on the requests. They tell of names that are gone too.
const NOTES: &str = "docs/history/requests";

/// Where else a page's word with a `_` may stand that is no theorem: the sources of all that is not proved, and the crates' own.
const SOURCES: [&str; 10] = ["crates", "docs/src", "host", "include", "web", "python", "tools", "examples", "targets", "Makefile"];

/// A part of a page that is read at once: a row of a table by its cells, or else a paragraph. `above` are the cells of the table's head.
struct Part {
    above: Vec<String>,
    cells: Vec<String>,
}

fn parts(page: &str) -> Vec<Part> {
    let (mut parts, mut above): (Vec<Part>, Vec<String>) = (Vec::new(), Vec::new());
    let (mut paragraph, mut fenced) = (String::new(), false);
    let close = |paragraph: &mut String, parts: &mut Vec<Part>| {
        if !paragraph.trim().is_empty() {
            parts.push(Part { above: Vec::new(), cells: vec![std::mem::take(paragraph)] });
        }
    };
    for line in page.lines() {
        if line.trim_start().starts_with("```") {
            fenced = !fenced;
            continue;
        }
        if fenced {
            continue;
        }
        let row = line.strip_prefix('|').and_then(|row| row.strip_suffix('|'));
        if line.starts_with("|--") {
            continue;
        }
        let Some(row) = row else {
            above.clear();
            if line.trim().is_empty() || line.starts_with("- ") || line.starts_with('#') {
                close(&mut paragraph, &mut parts);
            }
            paragraph = format!("{paragraph} {}", line.trim());
            continue;
        };
        close(&mut paragraph, &mut parts);
        let mut cells: Vec<String> = row.replace("\\|", "\u{1}").split('|').map(|cell| cell.trim().replace('\u{1}', "|")).collect();
        if above.is_empty() {
            above = cells;
        } else {
            cells.resize(above.len(), String::new());
            parts.push(Part { above: above.clone(), cells });
        }
    }
    close(&mut paragraph, &mut parts);
    parts
}

/// The words of a text between back quotes, each with what stands before it since the last.
fn quoted(text: &str) -> Vec<(&str, &str)> {
    let pieces: Vec<&str> = text.split('`').collect();
    pieces.chunks(2).filter(|two| two.len() == 2).map(|two| (two[0], two[1])).collect()
}

fn is_name(word: &str) -> bool {
    !word.is_empty() && !word.contains([' ', '/', '.', '=', '*', ':', '(', '<', '"'])
}

/// A word that may be a theorem's name wherever it stands: of several words.
fn is_joined(word: &str) -> bool {
    let plain = word.chars().all(|letter| letter.is_ascii_lowercase() || letter.is_ascii_digit() || letter == '_');
    is_name(word) && plain && word.starts_with(|letter: char| letter.is_ascii_lowercase()) && word.contains('_') && !word.ends_with('_')
}

/// The words with a `_` of all sources.
fn in_sources() -> Result<BTreeSet<String>, String> {
    fn of(path: &std::path::Path, found: &mut BTreeSet<String>) {
        let name = path.file_name().unwrap_or_default().to_string_lossy();
        if path.is_dir() && name != "target" && name != "out" {
            std::fs::read_dir(path).into_iter().flatten().flatten().for_each(|entry| of(&entry.path(), found));
        } else if let Some(text) = std::fs::read(path).ok().filter(|_| !name.ends_with(".md")).and_then(|bytes| String::from_utf8(bytes).ok()) {
            let apart = |letter: char| !(letter.is_alphanumeric() || letter == '_');
            found.extend(text.split(apart).filter(|word| word.contains('_')).map(str::to_string));
        }
    }
    let (top, mut found) = (checkout::root()?, BTreeSet::new());
    SOURCES.iter().for_each(|source| of(&top.join(source), &mut found));
    Ok(found)
}

/// What the documents name.
pub struct Named {
    /// theorems and definitions, as items of the sources
    pub items: BTreeSet<usize>,
    /// must-fail edits, `crate/must-fail/label`
    pub edits: BTreeSet<String>,
    pub faults: Vec<String>,
}

struct Reader<'a> {
    logic: &'a Logic,
    /// words that stand somewhere else
    others: &'a BTreeSet<String>,
    named: Named,
}

impl Reader<'_> {
    fn fault(&mut self, page: &str, text: String) {
        let fault = format!("{page} {text}");
        if !self.named.faults.contains(&fault) {
            self.named.faults.push(fault);
        }
    }

    /// The file that a page means: under crates/ or under what the column's head says.
    fn file(&self, prefix: &str, word: &str) -> Option<String> {
        let word = word.strip_prefix("crates/").unwrap_or(word);
        [format!("crates/{prefix}{word}"), format!("crates/{word}")].into_iter().find(|file| self.logic.has_file(file))
    }

    /// Names with the files that they are said to stand in: each in one of these, and none of these for nothing.
    fn bound(&mut self, page: &str, names: &[&str], files: &[String]) {
        let mut used = BTreeSet::new();
        for name in names {
            let at: Vec<usize> = files.iter().filter_map(|file| self.logic.get(file, name)).collect();
            match at[..] {
                [one] => {
                    used.insert(self.logic.items[one].file.clone());
                    self.named.items.insert(one);
                }
                [] => self.fault(page, format!("names {name} of {}, which has none", files.join(" or "))),
                _ => self.fault(page, format!("names {name}, and it is in each of {}", files.join(", "))),
            }
        }
        for file in files.iter().filter(|file| files.len() > 1 && !used.contains(*file)) {
            self.fault(page, format!("names {file} beside {}, none of which is there", names.join(", ")));
        }
    }

    /// A row's first words: `names` of theorems, or "promise of" functions; and its files.
    fn row(&mut self, page: &str, cell: &str, prefix: &str, files: &str) {
        let (names, rest) = cell.split_once(" (").unwrap_or((cell, ""));
        let said: Vec<&str> = quoted(names).into_iter().map(|(_, word)| word).filter(|word| !word.contains('/')).collect();
        let within: Vec<&str> = quoted(rest).into_iter().map(|(_, word)| word).filter(|word| word.ends_with(".antt")).collect();
        let places = if within.is_empty() { quoted(files).into_iter().map(|(_, word)| word).collect() } else { within };
        if said.is_empty() {
            return;
        }
        if places.is_empty() {
            return self.fault(page, format!("names {} in a table and no file", said.join(", ")));
        }
        let mut found = Vec::new();
        for place in places {
            match self.file(prefix, place) {
                Some(file) => found.push(file),
                None => return self.fault(page, format!("names the file {place}, and there is none under crates/{prefix}")),
            }
        }
        if names.starts_with("promise") {
            self.promised(page, &said, &found);
        } else {
            self.bound(page, &said, &found);
        }
    }

    /// Functions with a promise, in these files of `src/`.
    fn promised(&mut self, page: &str, names: &[&str], files: &[String]) {
        for name in names {
            if !files.iter().any(|file| self.logic.has_function(file, name)) {
                self.fault(page, format!("names the promise of {name} in {}, which has no such function", files.join(", ")));
            }
        }
    }

    /// Text: names right before a file are of that file. Other names of several words are theorems of some file, which has to be one, or to be named
    /// elsewhere with its file; or they stand in some source. Where it is not `strict`, what is not there is passed over.
    fn passage(&mut self, page: &str, passage: &str, prefix: &str, strict: bool) {
        let words = quoted(passage);
        let mut run: Vec<&str> = Vec::new();
        let mut loose: Vec<&str> = Vec::new();
        for (before, word) in &words {
            let follows = [", ", " and ", ", and ", " or "].contains(before);
            if word.ends_with(".antt") {
                let beside = ([" (", ", ", " of ", " in "].contains(before)) && !run.is_empty();
                let is_ours = !word.contains('*') && beside;
                match self.file(prefix, word).filter(|_| is_ours) {
                    Some(file) if strict => {
                        let names = std::mem::take(&mut run);
                        self.bound(page, &names, &[file]);
                    }
                    Some(file) => self.named.items.extend(run.drain(..).filter_map(|name| self.logic.get(&file, name))),
                    None if is_ours && strict => self.fault(page, format!("names the file {word}, and there is none")),
                    None => {}
                }
            }
            if !follows || !is_name(word) {
                loose.append(&mut run);
            }
            if is_name(word) {
                run.push(word);
            }
        }
        loose.append(&mut run);
        for name in loose.into_iter().filter(|name| is_joined(name)) {
            let all = self.logic.theorems(name);
            let here =
                |at: &usize| words.iter().any(|(_, word)| self.file(prefix, word).is_some_and(|file| file == self.logic.items[*at].file));
            let near: Vec<usize> = all.iter().copied().filter(here).collect();
            match (&all[..], &near[..]) {
                ([one], _) | (_, [one]) => {
                    self.named.items.insert(*one);
                }
                ([], _) if strict && !self.others.contains(name) => {
                    self.fault(page, format!("names {name}, and neither a proof file nor any source has it"));
                }
                (several, _) if strict && several.len() > 1 && !several.iter().any(|at| self.named.items.contains(at)) => {
                    self.fault(page, format!("names {name}, which is in several files, and not whose"));
                }
                _ => {}
            }
        }
    }

    fn edits(&mut self, page: &str) {
        for (at, _) in page.match_indices("/must-fail/") {
            let krate = page[..at].rsplit(|letter: char| !(letter.is_ascii_lowercase() || letter == '_')).next().unwrap_or_default();
            let rest = &page[at + "/must-fail/".len()..];
            let rest = rest.strip_prefix("more/").unwrap_or(rest);
            let label = rest
                .split(|letter: char| !(letter.is_ascii_lowercase() || letter.is_ascii_digit() || letter == '_'))
                .next()
                .unwrap_or_default();
            if !label.is_empty() && !krate.is_empty() {
                self.named.edits.insert(format!("{krate}/must-fail/{label}"));
            }
        }
    }
}

/// Every must-fail edit there is.
fn edits() -> Result<BTreeSet<String>, String> {
    Ok(edits::files()?.iter().map(|(krate, file)| format!("{krate}/must-fail/{}", edits::label(file))).collect())
}

/// A page by its name and its text.
type Page = (String, String);

/// What the documents name, and what is wrong with it: nothing, if the gate is to pass.
pub fn named(logic: &Logic) -> Result<Named, String> {
    let page = |name: String| text(&name).map(|text| (name, text));
    let pages = PAGES.iter().map(|name| page(name.to_string())).collect::<Result<Vec<Page>, _>>()?;
    let notes = entries(NOTES)?.iter().map(|name| page(format!("{NOTES}/{name}"))).collect::<Result<Vec<Page>, _>>()?;
    // the page of edits names them all, and a test holds the file to this
    let listed = edits::page()?;
    Ok(in_pages(logic, &in_sources()?, &text(THEOREMS)?, &pages, &notes, &listed, &edits()?))
}

fn in_pages(
    logic: &Logic,
    others: &BTreeSet<String>,
    theorems: &str,
    pages: &[Page],
    notes: &[Page],
    listed: &str,
    edits: &BTreeSet<String>,
) -> Named {
    let mut reader = Reader { logic, others, named: Named { items: BTreeSet::new(), edits: BTreeSet::new(), faults: Vec::new() } };
    let rows = parts(theorems);
    let column = |part: &Part, is_it: fn(&str) -> bool| part.above.iter().position(|head| is_it(head));
    let theorem = |part: &Part| column(part, |head| head.to_lowercase().contains("theorem"));
    let file = |part: &Part| column(part, |head| head.starts_with("File"));
    // "File under `crate/proofs/`"
    let under =
        |part: &Part| file(part).and_then(|at| quoted(&part.above[at]).first().map(|(_, word)| word.to_string())).unwrap_or_default();
    // the tables first: passages may name again what they name
    for part in &rows {
        let Some(at) = theorem(part) else { continue };
        // without a column of files, "Theorem in `crate/proofs/File.antt`"
        let files = file(part).map_or(&part.above[at], |at| &part.cells[at]);
        reader.row(THEOREMS, &part.cells[at], &under(part), files);
    }
    for part in &rows {
        for (at, cell) in part.cells.iter().enumerate().filter(|(at, _)| Some(*at) != file(part)) {
            let beside = cell.split_once(" (").map_or("", |(_, beside)| beside);
            reader.passage(THEOREMS, if Some(at) == theorem(part) { beside } else { cell }, &under(part), true);
        }
    }
    for (page, strict) in pages.iter().map(|page| (page, true)).chain(notes.iter().map(|page| (page, false))) {
        for cell in parts(&page.1).iter().flat_map(|part| &part.cells) {
            reader.passage(&page.0, cell, "", strict);
        }
    }
    for text in notes.iter().map(|(_, text)| text.as_str()).chain([theorems, listed]) {
        reader.edits(text);
    }
    let mut named = reader.named;
    named.faults.extend(logic.unread.iter().map(|line| format!("what stands beneath a statement may be more than is read here: {line}")));
    named
        .faults
        .extend(edits.difference(&named.edits).map(|edit| format!("crates/{edit} is named neither in {THEOREMS} nor in a request's note")));
    named.faults.extend(
        named.edits.difference(edits).map(|edit| format!("{THEOREMS} or a request's note names the edit {edit}, and there is none")),
    );
    named
}

/// What a function of a ported crate promises to equal, and all that this is made of: the Rust's routines, which the host compares with the Rust.
fn routines(logic: &Logic) -> Result<BTreeSet<usize>, String> {
    let mut named = BTreeSet::new();
    for function in functions::all()?.iter().filter(|function| MODULES.iter().any(|module| module.krate == function.krate)) {
        for clause in &function.ensures {
            if let Some(at) = clause.iter().position(|word| word == "≡") {
                named.extend(logic.in_contract(&function.file, &clause[at + 1..]));
            }
        }
    }
    let below = logic.made_of(&named);
    Ok(below.into_iter().filter(|at| MODULES.iter().any(|module| module.krate == logic.items[*at].krate)).collect())
}

/// The lines of items of one file, with the sections that they stand under.
fn block(page: &mut String, items: &[&Item], shown: fn(&Item) -> Vec<String>) {
    let mut open: &[Vec<String>] = &[];
    page.push_str("\n```\n");
    for (at, item) in items.iter().enumerate() {
        if at > 0 {
            page.push('\n');
        }
        let same = open.iter().zip(&item.sections).take_while(|(open, own)| open == own).count();
        for (depth, section) in item.sections.iter().enumerate().skip(same) {
            section.iter().enumerate().for_each(|(k, line)| {
                let _ = writeln!(page, "{}{line}", "  ".repeat(depth + if k > 0 { 2 } else { 0 }));
            });
        }
        open = &item.sections;
        for line in shown(item) {
            let _ = writeln!(page, "{}", format!("{}{line}", "  ".repeat(open.len())).trim_end());
        }
    }
    page.push_str("```\n");
}

/// All of these by crate and file.
fn blocks(page: &mut String, logic: &Logic, items: &BTreeSet<usize>, shown: fn(&Item) -> Vec<String>) {
    let mut krate = "";
    for (file, items) in by_file(logic, items) {
        if items[0].krate != krate {
            krate = &items[0].krate;
            let _ = write!(page, "\n### {krate}\n");
        }
        let _ = write!(page, "\n{}\n", link(&file, &file));
        block(page, &items, shown);
    }
}

/// Each file's items, in the order of crates.txt and of the files.
fn by_file<'a>(logic: &'a Logic, items: &BTreeSet<usize>) -> Vec<(String, Vec<&'a Item>)> {
    let mut files: Vec<(String, Vec<&Item>)> = Vec::new();
    for at in items {
        let item = &logic.items[*at];
        match files.last_mut().filter(|(file, _)| *file == item.file) {
            Some((_, items)) => items.push(item),
            None => files.push((item.file.clone(), vec![item])),
        }
    }
    files
}

fn statement(item: &Item) -> Vec<String> {
    item.head.clone()
}

fn definition(item: &Item) -> Vec<String> {
    let comment = item.comment.iter().filter(|line| !line.starts_with("-- ----"));
    comment.chain(&item.head).chain(&item.body).cloned().collect()
}

/// A sum of a definition's text, so that a change of one that is not copied shows.
fn sum(item: &Item) -> u32 {
    let text = item.head.iter().chain(&item.body).flat_map(|line| line.bytes().chain([b'\n']));
    text.fold(0x811c_9dc5, |sum, byte| (sum ^ u32::from(byte)).wrapping_mul(0x0100_0193))
}

/// Whether an item is a theorem: a plain signature of a proof file.
fn is_theorem(item: &Item) -> bool {
    item.kind == Kind::Plain && item.file.contains("/proofs/")
}

/// The whole page.
pub(crate) fn page() -> Result<String, String> {
    let logic = Logic::read()?;
    let named = named(&logic)?;
    Ok(written(&logic, &named.items, &routines(&logic)?))
}

fn written(logic: &Logic, named: &BTreeSet<usize>, routines: &BTreeSet<usize>) -> String {
    let (theorems, others): (BTreeSet<usize>, BTreeSet<usize>) = named.iter().partition(|at| is_theorem(&logic.items[**at]));
    let mut made_of = logic.reached(&theorems);
    made_of.extend(logic.made_of(&others));
    let (mirrors, definitions): (BTreeSet<usize>, BTreeSet<usize>) = made_of.iter().partition(|at| routines.contains(at));
    let mut page = String::from(
        "# Statements\n\n\
         What is claimed, as it stands in the files: each theorem that a page names, without its proof, and then every definition that these statements are made of. The pages are\n\
         [THEOREMS](../docs/THEOREMS.md), which says in words what they say, [README](../README.md), [ANSWERS](../docs/ANSWERS.md), [ANGLES](../docs/ANGLES.md),\n\
         [READING](../docs/READING.md), which says how to read them, [TRUST](../docs/TRUST.md), [DIFFERENCES](../docs/DIFFERENCES.md), [SPEED](../docs/SPEED.md), the headers\n\
         and the [requests' notes](../docs/history/requests/). `make map` writes this page from the sources, and the gate holds it to them (`host/pages/tests`). So no statement, and\n\
         no definition beneath one, is changed, weakened or dropped without a difference on this page for a person to read.\n\n\
         A theorem under `module _ (x : A) where` holds for every such x. Words to the prover (`unfolding`) are left out. A name means what the `use` lines of its file say, so one may\n\
         stand here under another name (`as`). One that stands neither under Theorems nor below is the toolchain's. What each function promises is in [PROMISES](PROMISES.md).\n\n## Theorems\n",
    );
    blocks(&mut page, logic, &theorems, statement);
    page.push_str("\n## Definitions\n\nOf structs and enums of `src/`, what the source has.\n");
    blocks(&mut page, logic, &definitions, definition);
    let crates: Vec<String> = MODULES.iter().map(|module| format!("`{}`", module.krate)).collect();
    let _ = write!(
        page,
        "\n## The routines' definitions\n\n\
         What a function of {} promises to equal, and what that is made of, is not copied here.\n\
         It mirrors the Rust, which the host runs beside it ([MAP](MAP.md)), and a change of it changes the code. Of each that the statements speak of: its name, and a sum of its text, so that a change shows.\n\n",
        crates.join(", ")
    );
    for (file, items) in by_file(logic, &mirrors) {
        let sums: BTreeMap<&str, u32> = items.iter().map(|item| (item.name(), sum(item))).collect();
        let sums: Vec<String> = sums.iter().map(|(name, sum)| format!("`{name}` {sum:08x}")).collect();
        let _ = writeln!(page, "- {}:\n  {}", link(&file, &file), sums.join(",\n  "));
    }
    page
}

#[cfg(test)]
mod tests {
    use super::*;

    const SPECS: &str = "\
        -- what a number shows\n\
        pub record Shows (n : ℕ) : Type 0 where\n  pub flag : n ≡ 0\n  pub fallback : n ≡ first\n\n\
        abbrev pub first : ℕ\nfirst = 1\n\n\
        abbrev pub unused : ℕ\nunused = 2\n";
    const PROOFS: &str = "\
        use Rattle.a.proofs.{Prelude.{Shows, ◌≡◌}, Other.x as y}\n\n\
        module _ (n : ℕ) where\n  pub expands : Shows n\n  unfolding first\n  expands =\n      record {\n        flag = refl;\n      }\n\n\
        pub stays_so : (n : ℕ) → n ≡ n\nstays_so n = refl\n";
    const PAGE: &str = "\
        # Theorems\n\n| Theorem | File under `a/proofs/` | In words |\n|---|---|---|\n| `expands` | `P.antt` | it shows; `stays_so` as well |\n\n\
        The edit `a/must-fail/wrong`.\n";

    fn logic(specs: &str, files: &[(&str, &str)]) -> Logic {
        let prelude = "pub use Rattle.a.specs.{S.Shows}\n";
        let all = [("specs/S", specs), ("proofs/Prelude", prelude)].into_iter().chain(files.iter().copied());
        Logic::of(all.map(|(file, text)| ("a".to_string(), format!("crates/a/{file}.antt"), text.to_string())).collect())
    }

    fn named(logic: &Logic, page: &str) -> Named {
        in_pages(logic, &BTreeSet::new(), page, &[], &[], "", &BTreeSet::from(["a/must-fail/wrong".to_string()]))
    }

    fn page(specs: &str, proofs: &str) -> String {
        let logic = logic(specs, &[("proofs/P", proofs)]);
        let named = named(&logic, PAGE);
        assert_eq!(named.faults, [""; 0]);
        written(&logic, &named.items, &BTreeSet::new())
    }

    #[test]
    fn a_statement_stands_there_with_what_it_is_made_of() {
        let page = page(SPECS, PROOFS);
        assert!(page.contains("```\nmodule _ (n : ℕ) where\n  pub expands : Shows n\n\npub stays_so : (n : ℕ) → n ≡ n\n```\n"), "{page}");
        assert!(page.contains("-- what a number shows\npub record Shows (n : ℕ) : Type 0 where\n  pub flag : n ≡ 0\n"), "{page}");
        assert!(page.contains("abbrev pub first : ℕ\nfirst = 1\n") && !page.contains("unused") && !page.contains("refl"), "{page}");
    }

    #[test]
    fn a_weaker_statement_shows() {
        let now = page(SPECS, PROOFS);
        assert_ne!(now, page(&SPECS.replace("fallback : n ≡ first", "fallback : n ≡ n"), PROOFS));
        assert_ne!(now, page(&SPECS.replace("first = 1", "first = 3"), PROOFS));
        assert_ne!(now, page(SPECS, &PROOFS.replace("(n : ℕ) →", "(n : ℕ) → n ≡ 7 →")));
        assert_ne!(now, page(SPECS, &PROOFS.replace("_ (n : ℕ) where", "_ (n : ℕ) (seven : n ≡ 7) where")));
        assert_eq!(now, page(SPECS, &PROOFS.replace("n = refl", "n = sym refl")));
    }

    #[test]
    fn a_routine_is_told_by_its_sum() {
        let sums = |specs: &str| {
            let logic = logic(specs, &[("proofs/P", PROOFS)]);
            let first = logic.get("crates/a/specs/S.antt", "first").expect("it is there");
            written(&logic, &named(&logic, PAGE).items, &BTreeSet::from([first]))
        };
        let now = sums(SPECS);
        assert!(now.contains("  `first` ") && !now.contains("first = 1"), "{now}");
        assert_ne!(now, sums(&SPECS.replace("first = 1", "first = 3")));
    }

    #[test]
    fn a_name_is_looked_for_in_its_file() {
        let told = |files: &[(&str, &str)], page: &str| named(&logic(SPECS, files), page).faults;
        let gone = PROOFS.replace("expands", "spreads");
        let none = "docs/THEOREMS.md names expands of crates/a/proofs/P.antt, which has none";
        assert_eq!(told(&[("proofs/P", &gone)], PAGE)[0], none);
        assert_eq!(told(&[("proofs/P", &gone), ("proofs/Q", PROOFS)], PAGE)[0], none);
        assert_eq!(
            told(&[("proofs/P", PROOFS)], &PAGE.replace("P.antt", "Q.antt")),
            ["docs/THEOREMS.md names the file Q.antt, and there is none under crates/a/proofs/"]
        );
        assert_eq!(
            told(&[("proofs/P", PROOFS)], &PAGE.replace("`stays_so`", "`stays_put`")),
            ["docs/THEOREMS.md names stays_put, and neither a proof file nor any source has it"]
        );
        assert_eq!(
            told(&[("proofs/P", PROOFS), ("proofs/Q", "pub stays_so : ℕ\n")], PAGE),
            ["docs/THEOREMS.md names stays_so, which is in several files, and not whose"]
        );
        assert_eq!(
            told(&[("proofs/P", PROOFS), ("proofs/Q", "pub stays_so : ℕ\n")], &PAGE.replace("`stays_so`", "`stays_so` (`P.antt`)")),
            [""; 0]
        );
    }

    #[test]
    fn a_name_may_be_written_out() {
        let proofs = PROOFS.replace("→ n ≡ n", "→ Rattle.a.specs.S.unused ≡ n");
        assert!(page(SPECS, &proofs).contains("unused = 2"));
    }

    #[test]
    fn what_is_not_read_is_told() {
        let told = |line: &str| named(&logic(SPECS, &[("proofs/P", &format!("{line}\n{PROOFS}"))]), PAGE).faults.len();
        assert_eq!(["use A.*", "open R t using (x)", "mutual", "opens = refl"].map(told), [1, 1, 1, 0]);
    }

    #[test]
    fn an_edit_is_named() {
        let told = |page: &str| named(&logic(SPECS, &[("proofs/P", PROOFS)]), page).faults;
        assert_eq!(
            told(&PAGE.replace("/wrong", "/right")),
            [
                "crates/a/must-fail/wrong is named neither in docs/THEOREMS.md nor in a request's note",
                "docs/THEOREMS.md or a request's note names the edit a/must-fail/right, and there is none"
            ]
        );
    }
}
