//! Our functions and their contracts, as the files of `crates/*/src` have them.

use crate::{entries, text};
use std::collections::HashMap;
use std::rc::Rc;

pub struct Function {
    pub krate: String,
    /// from the checkout's top
    pub file: String,
    /// `name`, or `Type::name` of a method
    pub routine: String,
    /// the same with its module
    pub path: String,
    pub public: bool,
    /// what stands above it
    pub comment: String,
    /// each with its type
    pub parameters: Vec<(String, String)>,
    pub requires: Vec<Vec<String>>,
    pub ensures: Vec<Vec<String>>,
    pub body: String,
    /// where the names in its file's contracts are defined
    pub scope: Rc<HashMap<String, String>>,
}

impl Function {
    /// With its crate, as other crates may be meant.
    pub fn name(&self) -> String {
        format!("{}::{}", self.krate, self.path)
    }
}

/// The names of crates.txt, in its order, and what it says of each.
pub fn crates() -> Result<Vec<(String, String)>, String> {
    let listed = text("crates.txt")?;
    let lines = listed.lines().filter_map(|line| line.split_once(':'));
    // behind the name of a static library it says so
    let name = |line: &str| line.split_whitespace().next().unwrap_or_default().to_string();
    Ok(lines.map(|(line, rest)| (name(line), rest.split_once("# ").map_or("", |(_, what)| what).to_string())).collect())
}

/// Every function of every crate.
pub fn all() -> Result<Vec<Function>, String> {
    let mut found = Vec::new();
    for (krate, _) in crates()? {
        let folder = format!("crates/{krate}/src");
        let files = entries(&folder)?;
        let library = !files.iter().any(|file| file == "main.rt");
        for file in files {
            let module = file.trim_end_matches(".rt");
            let module = if module == "lib" || module == "main" { String::new() } else { format!("{module}::") };
            let file = format!("{folder}/{file}");
            in_file(&krate, &file, &module, &text(&file)?, library, &mut found)?;
        }
    }
    Ok(found)
}

/// `U32FromRefusal` of `From<Refusal> for u32 {`, as the toolchain names what converts one type into another.
fn conversion(of: &str) -> Option<String> {
    let (from, into) = of.strip_suffix(" {")?.split_once("> for ")?;
    let (kind, from) = from.split_once('<').filter(|(kind, _)| ["From", "TryFrom"].contains(kind))?;
    let whole = |name: &str| name[..1].to_uppercase() + &name[1..];
    Some(format!("{}{kind}{}", whole(into), whole(from)))
}

/// What the law of a conversion says of its answer, with the parameter's own name: of `{ λ x r. r ≡ f x };` that `result ≡ f x`.
fn given_by(law: &str, parameter: &str) -> Option<Vec<String>> {
    let (names, said) = law.strip_prefix("{ λ ")?.strip_suffix(" };")?.split_once(". ")?;
    let (given, answer) = names.split_once(' ')?;
    let named = |word: String| if word == given { parameter.to_string() } else if word == answer { "result".to_string() } else { word };
    Some(tokens(said).into_iter().map(named).collect())
}

/// In a library what converts its types is public as well: it promises what its law says.
fn in_file(krate: &str, file: &str, module: &str, text: &str, library: bool, found: &mut Vec<Function>) -> Result<(), String> {
    let scope = Rc::new(scope(text));
    let (mut owner, mut comment) = (String::new(), Vec::new());
    // of a conversion: the comment above it, and its law
    let (mut converts, mut law) = (None, "");
    let mut lines = text.lines();
    while let Some(line) = lines.next() {
        let item = line.trim_start();
        if let Some(said) = item.strip_prefix("// ") {
            comment.push(said);
            continue;
        }
        if item.starts_with("#[") {
            continue;
        }
        let comment = std::mem::take(&mut comment).join(" ");
        // `impl Words {`, and `impl<'a> Words<'a> {`
        if let Some(rest) = line.strip_prefix("impl ").or_else(|| line.strip_prefix("impl<")?.split_once("> ").map(|(_, rest)| rest)) {
            let converted = conversion(rest).filter(|_| library);
            owner = format!("{}::", converted.as_deref().unwrap_or(rest.split([' ', '{', '<']).next().unwrap_or_default()));
            converts = converted.map(|_| comment.clone());
            law = "";
        } else if line.starts_with('}') {
            owner.clear();
            converts = None;
        } else if let Some((_, said)) = item.strip_prefix("ghost ").and_then(|item| item.split_once("from_gives = ")) {
            law = said;
        }
        let Some((before, rest)) = item.split_once("fn ") else { continue };
        let public = match before {
            "pub " | "pub extern \"C\" " => true,
            "" => converts.is_some(),
            "pub(crate) " => false,
            _ if !format!(" {before}").contains(" pub ") => continue,
            _ => return Err(format!("{krate}: a public function is written in a way that is not read here: {item}")),
        };
        let mut head = rest.to_string();
        while !head.ends_with('{') {
            let more = lines.next().filter(|more| !more.contains("fn ")).ok_or(format!("{krate}: no body is found here: {item}"))?;
            head = format!("{head} {}", more.trim());
        }
        let end = format!("{}}}", &line[..line.len() - item.len()]);
        let body: Vec<&str> = lines.by_ref().take_while(|line| **line != end).map(str::trim).collect();
        let (name, rest) = head.split_once(['(', '<']).ok_or(format!("{krate}: no parameters: {item}"))?;
        // the parameters stand behind those of types, if there are any
        let rest = if head[name.len()..].starts_with('<') { rest.split_once(">(").map_or(rest, |(_, rest)| rest) } else { rest };
        let (given, contract) = rest.split_once(')').ok_or(format!("{krate}: no parameters: {item}"))?;
        let given = given.rsplit('(').next().unwrap_or_default().split(',').map(str::trim).filter(|one| !one.is_empty());
        let parameters = given.map(|one| match one.split_once(": ") {
            Some((name, kind)) => (name.to_string(), kind.to_string()),
            None => ("self".to_string(), one.replace("self", owner.trim_end_matches(':'))),
        });
        let parameters: Vec<(String, String)> = parameters.collect();
        let clause = |said: &str| tokens(said.split_once('{').and_then(|(_, said)| said.rsplit_once('}')).map_or("", |(said, _)| said));
        let mut clauses = contract.trim_end_matches('{').split(" ensures ");
        let requires = clauses.next().unwrap_or_default().split(" requires ").skip(1).map(clause).collect();
        let ensures = match (&converts, &parameters[..]) {
            (Some(_), [(parameter, _)]) => vec![given_by(law, parameter).ok_or(format!("{krate}: the law of {owner}{name} is written in a way that is not read here: {law}"))?],
            _ => clauses.map(clause).collect(),
        };
        found.push(Function {
            krate: krate.to_string(),
            file: file.to_string(),
            routine: format!("{owner}{name}"),
            path: format!("{module}{owner}{name}"),
            public,
            comment: converts.clone().filter(|_| comment.is_empty()).unwrap_or(comment),
            parameters,
            requires,
            ensures,
            body: body.join(" "),
            scope: scope.clone(),
        });
    }
    Ok(())
}

/// For each name that a file's contracts use, the file of its definition.
fn scope(text: &str) -> HashMap<String, String> {
    let used = text.lines().filter_map(|line| line.strip_prefix("ghost use ")?.strip_suffix("};")?.split_once(".{"));
    used.flat_map(|(file, names)| names.split(", ").map(move |name| (name.to_string(), file.to_string()))).collect()
}

/// A clause's words and brackets, and the parts of what is named apart from it, as `self` and `.now`. The marks around a name say nothing more.
pub fn tokens(said: &str) -> Vec<String> {
    let spaced = said.replace(['«', '»'], "").replace('(', " ( ").replace(')', " ) ").replace(',', " , ");
    let apart = |word: &str| -> Vec<String> {
        let mut parts = word.split('.');
        let first = parts.next().unwrap_or_default().to_string();
        [first].into_iter().filter(|first| !first.is_empty()).chain(parts.map(|part| format!(".{part}"))).collect()
    };
    spaced.split_whitespace().flat_map(apart).collect()
}

/// A clause to be read: with `b` and `b′` for what a lent `b` holds before and after.
pub fn shown(clause: &[String]) -> String {
    let mut words: Vec<String> = Vec::new();
    for word in clause {
        match (word.as_str(), words.last_mut()) {
            (".new", Some(lent)) => lent.push('′'),
            (".old" | ".now", Some(_)) => {}
            (part, Some(whole)) if part.starts_with('.') => whole.push_str(part),
            _ => words.push(word.clone()),
        }
    }
    words.join(" ").replace("( ", "(").replace(" )", ")").replace(" ,", ",")
}
