//! Our definitions and theorems, as the files of `crates/*/specs` and `crates/*/proofs` have them, and the structs of `src/` that they speak of.

use crate::functions::crates;
use crate::{entries, text};
use std::collections::{BTreeSet, HashMap};

#[derive(Clone, Copy, PartialEq, Debug)]
pub enum Kind {
    /// a signature: what is under it is a proof, or the value of a definition
    Plain,
    /// `abbrev` or `unfoldable`
    Definition,
    /// `record` or `data`
    Type,
    /// a struct or an enum of `src/`
    Declared,
}

pub struct Item {
    pub krate: String,
    /// from the checkout's top
    pub file: String,
    /// as they are declared, `◌⊕◌`; a `data`'s cases too
    pub names: Vec<String>,
    pub kind: Kind,
    /// the `module _ (..) where` that it stands under, the outermost first
    pub sections: Vec<Vec<String>>,
    pub comment: Vec<String>,
    /// the signature; of a record or `data` up to `where`
    pub head: Vec<String>,
    /// its equations, fields or cases
    pub body: Vec<String>,
}

impl Item {
    pub fn name(&self) -> &str {
        &self.names[0]
    }

    /// The names that its statement speaks of.
    fn stated(&self) -> Vec<String> {
        self.sections.iter().flatten().chain(&self.head).flat_map(|line| words(line)).collect()
    }

    /// And all that it is made of.
    fn made_of(&self) -> Vec<String> {
        self.stated().into_iter().chain(self.body.iter().flat_map(|line| words(line))).collect()
    }

    /// The lines to be read and believed: no comment, no import, no word to the prover.
    pub fn lines(&self) -> usize {
        let is_line =
            |line: &&String| !line.trim_start().starts_with("--") && !line.trim_start().starts_with("//") && !line.trim().is_empty();
        self.head.iter().chain(&self.body).filter(is_line).count()
    }
}

/// What a name stands for: a path whose first part is the crate, then `specs` or `proofs`, folders and files, and at its end a name or none.
type Path = Vec<String>;

pub struct Logic {
    pub items: Vec<Item>,
    /// by file and name
    at: HashMap<(String, String), usize>,
    /// by file, what its `use` lines bring
    scopes: HashMap<String, HashMap<String, Path>>,
    /// by file, the functions of `src/`
    functions: HashMap<String, BTreeSet<String>>,
    /// lines that may bring in a name in a way that is not read here
    pub unread: Vec<String>,
}

impl Logic {
    /// Every file of every crate, in the order of crates.txt.
    pub fn read() -> Result<Logic, String> {
        let mut files = Vec::new();
        for (krate, _) in crates()? {
            for part in ["specs", "proofs", "src"] {
                let mut here = Vec::new();
                below(&format!("crates/{krate}/{part}"), &mut here);
                for file in here {
                    files.push((krate.clone(), file.clone(), text(&file)?));
                }
            }
        }
        Ok(Logic::of(files))
    }

    /// Of these: crate, file and text of each.
    pub fn of(files: Vec<(String, String, String)>) -> Logic {
        let mut logic =
            Logic { items: Vec::new(), at: HashMap::new(), scopes: HashMap::new(), functions: HashMap::new(), unread: Vec::new() };
        for (krate, file, text) in files {
            let (found, scope) = if file.ends_with(".rt") { declared(&krate, &file, &text) } else { items(&krate, &file, &text) };
            for item in found {
                for name in &item.names {
                    logic.at.entry((file.clone(), name.clone())).or_insert(logic.items.len());
                }
                logic.items.push(item);
            }
            // what answers the goals of a function states nothing that a page could name
            let states = !file.split_once("/proofs/").is_some_and(|(_, file)| file.contains('/'));
            logic.unread.extend(text.lines().filter(|_| states).filter(|line| is_unread(line)).map(|line| format!("{file}: {}", line.trim())));
            logic.functions.insert(file.clone(), text.lines().filter_map(function).collect());
            logic.scopes.insert(file, scope);
        }
        logic
    }

    pub fn has_file(&self, file: &str) -> bool {
        self.scopes.contains_key(file)
    }

    pub fn has_function(&self, file: &str, name: &str) -> bool {
        self.functions.get(file).is_some_and(|functions| functions.contains(name))
    }

    /// The item that a file declares under this name.
    pub fn get(&self, file: &str, name: &str) -> Option<usize> {
        self.at.get(&(file.to_string(), name.to_string())).copied()
    }

    /// The items that proof files declare under this name.
    pub fn theorems(&self, name: &str) -> Vec<usize> {
        // in a file of proofs/ itself: a folder's answer the goals of a function
        let is_one = |file: &str| file.split_once("/proofs/").is_some_and(|(_, file)| !file.contains('/'));
        let is_it = |item: &Item| is_one(&item.file) && item.names.iter().any(|own| own == name);
        (0..self.items.len()).filter(|at| is_it(&self.items[*at])).collect()
    }

    /// What a word of a file means, if it is ours.
    fn meant(&self, file: &str, word: &str) -> Option<usize> {
        if let Some(at) = self.get(file, word) {
            return Some(at);
        }
        if let Some(path) = path_of(word) {
            return self.found(&path);
        }
        let scope = self.scopes.get(file)?;
        if let Some(path) = scope.get(word) {
            return self.found(path);
        }
        // through a module that a `use` line brings
        let (module, rest) = word.split_once('.')?;
        let rest = rest.split('.').map(str::to_string);
        let within = scope.get(module).and_then(|path| self.found(&path.iter().cloned().chain(rest).collect::<Path>()));
        // or a part of what the first word names
        within.or_else(|| self.meant(file, module))
    }

    /// What stands at the end of a path.
    fn found(&self, path: &[String]) -> Option<usize> {
        let (krate, rest) = path.split_first()?;
        if let Some(at) = rest.iter().position(|part| part == "declared") {
            let rest = &rest[at + 1..];
            let kind = rest.iter().position(|part| part.starts_with(char::is_uppercase))?;
            let module = if kind == 0 { "lib".to_string() } else { rest[..kind].join("/") };
            return self.get(&format!("crates/{krate}/src/{module}.rt"), &rest[kind]);
        }
        let (name, folders) = rest.split_last()?;
        let file = format!("crates/{krate}/{}.antt", folders.join("/"));
        self.meant(&file, name)
    }

    /// What the statement of an item speaks of, or, of one that is `whole`, what it is made of.
    fn next(&self, at: usize, whole: bool) -> BTreeSet<usize> {
        let item = &self.items[at];
        let words = if whole { item.made_of() } else { item.stated() };
        let one = |word: &String| match item.kind {
            Kind::Declared => self.declared(&item.krate, word),
            _ => self.meant(&item.file, word),
        };
        words.iter().filter_map(one).filter(|next| *next != at).collect()
    }

    /// A type of `src/`: the crate's own, or else the one of that name.
    fn declared(&self, krate: &str, name: &str) -> Option<usize> {
        let is_it = |item: &Item| item.kind == Kind::Declared && item.name() == name;
        let of = |own: bool| self.items.iter().position(|item| is_it(item) && (item.krate == krate) == own);
        of(true).or_else(|| of(false))
    }

    /// The items that these statements speak of, and all that those are made of.
    pub fn reached(&self, statements: &BTreeSet<usize>) -> BTreeSet<usize> {
        self.made_of(&statements.iter().flat_map(|at| self.next(*at, false)).collect())
    }

    /// These and all that they are made of.
    pub fn made_of(&self, items: &BTreeSet<usize>) -> BTreeSet<usize> {
        let mut queue: Vec<usize> = items.iter().copied().collect();
        let mut seen = BTreeSet::new();
        while let Some(at) = queue.pop() {
            if seen.insert(at) {
                queue.extend(self.next(at, true));
            }
        }
        seen
    }

    /// What words of a file of `src/` mean, as a contract there has them.
    pub fn in_contract(&self, file: &str, clause: &[String]) -> BTreeSet<usize> {
        clause.iter().filter_map(|word| self.meant(file, word)).collect()
    }
}

/// Whether a line brings in names that it does not list: `open` of a whole module, a glob; or stands in another way than at its section's level: `mutual`.
/// `open VALUE use {..}` lists the fields that it brings in.
fn is_unread(line: &str) -> bool {
    let (rest, _) = bare(line);
    rest.starts_with("open ") && !rest.contains(" use {") || rest.trim_end() == "mutual" || rest.starts_with("use ") && rest.contains(".*")
}

/// The files of a folder and of those below it, in order.
fn below(folder: &str, found: &mut Vec<String>) {
    for name in entries(folder).unwrap_or_default() {
        let path = format!("{folder}/{name}");
        if name.ends_with(".antt") || name.ends_with(".rt") {
            found.push(path);
        } else {
            below(&path, found);
        }
    }
}

/// The names in a line of text. A projection is none: it goes with its record.
fn words(line: &str) -> Vec<String> {
    let line = line.trim_start();
    let line = if line.starts_with("--") || line.starts_with("//") { "" } else { line.split(" -- ").next().unwrap_or_default() };
    let apart = |mark: char| mark.is_whitespace() || "(){}[];,<>&«»λ".contains(mark);
    line.split(apart)
        .filter(|word| !word.starts_with('.'))
        .map(|word| word.trim_end_matches(['.', ':']))
        .filter(|word| !word.is_empty())
        .map(str::to_string)
        .collect()
}

/// Without the words before its name.
fn bare(line: &str) -> (&str, bool) {
    let (mut rest, mut definition) = (line.trim_start(), false);
    while let Some((word, more)) = rest.split_once(' ').filter(|(word, _)| ["pub", "abbrev", "unfoldable"].contains(word)) {
        definition |= word != "pub";
        rest = more;
    }
    (rest, definition)
}

/// The names of a signature, if the line begins one.
fn signature(line: &str) -> Option<Vec<String>> {
    let line = format!("{} ", line.trim_end());
    let (names, _) = line.split_once(" : ")?;
    let plain = !names.contains(['(', ')', '{', '}', ',']) && !format!("{names} ").contains(" = ");
    plain.then(|| names.split_whitespace().map(str::to_string).collect())
}

/// A name as it is declared, and as it is written between its arguments.
fn spellings(name: String) -> Vec<String> {
    let between = name.trim_matches('◌').to_string();
    let name = name.trim_matches(['«', '»']).to_string();
    if between.is_empty() || between == name {
        vec![name]
    } else {
        vec![name, between]
    }
}

fn indent(line: &str) -> usize {
    line.len() - line.trim_start().len()
}

fn items(krate: &str, file: &str, text: &str) -> (Vec<Item>, HashMap<String, Path>) {
    let (mut found, mut scope): (Vec<Item>, _) = (Vec::new(), HashMap::new());
    // each with the indent of what stands under it
    let mut sections: Vec<(usize, Vec<String>)> = Vec::new();
    let mut comment: Vec<String> = Vec::new();
    let lines: Vec<&str> = text.lines().collect();
    let mut at = 0;
    while at < lines.len() {
        let line = lines[at];
        let level = indent(line);
        at += 1;
        if line.trim().is_empty() {
            comment.clear();
            continue;
        }
        sections.retain(|(inner, _)| *inner <= level);
        if line.trim_start().starts_with("--") {
            comment.push(line.trim_start().to_string());
            continue;
        }
        let comment = std::mem::take(&mut comment);
        let (rest, definition) = bare(line);
        if rest.starts_with("module ") {
            let from = at - 1;
            while !lines[at - 1].trim_end().ends_with(" where") && at < lines.len() {
                at += 1;
            }
            let head = lines[from..at].iter().map(|line| line.trim_start().to_string()).collect();
            let inner = lines[at..].iter().find(|line| !line.trim().is_empty()).map_or(0, |line| indent(line));
            sections.push((inner, head));
            continue;
        }
        // it goes on while what follows is set in
        let from = at - 1;
        while lines[at..].iter().find(|line| !line.trim().is_empty()).is_some_and(|line| indent(line) > level) {
            at += 1;
        }
        let whole: Vec<String> = lines[from..at].iter().map(|line| line.get(level..).unwrap_or_default().to_string()).collect();
        if let Some(used) = rest.strip_prefix("use ") {
            let more: Vec<&str> = whole[1..].iter().map(|line| line.trim()).collect();
            uses(&format!("{used} {}", more.join(" ")), &mut scope);
        } else if let Some((kind, named)) = rest.split_once(' ').filter(|(kind, _)| ["record", "data"].contains(kind)) {
            let head = whole.iter().position(|line| line.trim_end().ends_with("where")).map_or(whole.len(), |at| at + 1);
            let mut names = spellings(named.split([' ', '(']).next().unwrap_or_default().to_string());
            if kind == "data" {
                names.extend(whole[head..].iter().filter(|line| indent(line) == 2).filter_map(|line| signature(line)).flatten());
            }
            let sections = sections.iter().map(|(_, head)| head.clone()).collect();
            let (head, body) = (whole[..head].to_vec(), whole[head..].to_vec());
            found.push(Item { krate: krate.into(), file: file.into(), names, kind: Kind::Type, sections, comment, head, body });
        } else if let Some(names) = signature(rest).filter(|_| !rest.starts_with("unfolding ")) {
            let names = names.into_iter().flat_map(spellings).collect();
            let sections = sections.iter().map(|(_, head)| head.clone()).collect();
            let kind = if definition { Kind::Definition } else { Kind::Plain };
            found.push(Item { krate: krate.into(), file: file.into(), names, kind, sections, comment, head: whole, body: Vec::new() });
        } else if !["unfolding ", "mod ", "infix", "open "].iter().any(|word| rest.starts_with(word)) {
            if let Some(last) = found.last_mut() {
                last.body.extend(whole);
            }
        }
    }
    (found, scope)
}

/// What a `use` line brings: by each name the path that it stands for.
fn uses(line: &str, scope: &mut HashMap<String, Path>) {
    fn group(prefix: &str, text: &str, scope: &mut HashMap<String, Path>) {
        let (mut depth, mut from) = (0, 0);
        for (at, mark) in text.char_indices().chain([(text.len(), ',')]) {
            match mark {
                '{' => depth += 1,
                '}' => depth -= 1,
                ',' if depth == 0 => {
                    one(prefix, text[from..at].trim(), scope);
                    from = at + 1;
                }
                _ => {}
            }
        }
    }
    fn one(prefix: &str, text: &str, scope: &mut HashMap<String, Path>) {
        if let Some((path, inner)) = text.split_once(".{") {
            return group(&format!("{prefix}{path}."), inner.trim().trim_end_matches(';').strip_suffix('}').unwrap_or(inner), scope);
        }
        let (path, name) = text.split_once(" as ").unwrap_or((text, text.rsplit('.').next().unwrap_or_default()));
        if let Some(path) = path_of(&format!("{prefix}{path}")).filter(|_| !name.is_empty()) {
            for name in spellings(name.trim().to_string()) {
                scope.insert(name, path.clone());
            }
        }
    }
    one("", line.trim(), scope);
}

/// `Rattle.latch.specs.Latch.x`.
fn path_of(path: &str) -> Option<Path> {
    let (krate, rest) = path.strip_prefix("Rattle.")?.split_once('.')?;
    Some([krate].into_iter().chain(rest.split('.')).map(|part| part.trim_matches(['«', '»']).to_string()).collect())
}

/// The name of the function that a line of `src/` begins.
fn function(line: &str) -> Option<String> {
    let (_, rest) = line.split_once("fn ").filter(|(before, _)| !before.contains('/'))?;
    Some(rest.split(['(', '<']).next()?.to_string())
}

/// The structs and enums of a file of `src/`, and what its contracts may name.
fn declared(krate: &str, file: &str, text: &str) -> (Vec<Item>, HashMap<String, Path>) {
    let (mut found, mut scope, mut comment) = (Vec::new(), HashMap::new(), Vec::new());
    let lines: Vec<&str> = text.lines().collect();
    for (at, line) in lines.iter().enumerate() {
        if line.starts_with("// ") {
            comment.push(line.to_string());
            continue;
        }
        if line.starts_with("#[") {
            continue;
        }
        let comment = std::mem::take(&mut comment);
        if let Some(used) = line.strip_prefix("ghost use ") {
            uses(used.trim_end_matches(';'), &mut scope);
        }
        let item = line.strip_prefix("pub ").or(line.strip_prefix("pub(crate) ")).unwrap_or(line);
        let Some(named) = item.strip_prefix("struct ").or(item.strip_prefix("enum ")) else { continue };
        let name = named.split([' ', '(', '<', '{', ';']).next().unwrap_or_default().to_string();
        let last = if line.ends_with('{') { lines[at..].iter().position(|line| *line == "}").map_or(at, |more| at + more) } else { at };
        let body = lines[at + 1..=last].iter().map(|line| line.to_string()).collect();
        found.push(Item {
            krate: krate.into(),
            file: file.into(),
            names: vec![name],
            kind: Kind::Declared,
            sections: Vec::new(),
            comment,
            head: vec![line.to_string()],
            body,
        });
    }
    (found, scope)
}
