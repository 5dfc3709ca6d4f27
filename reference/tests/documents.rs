//! The documents against the code: what they name is there, and what is there they name.

use std::collections::{BTreeMap, BTreeSet};
use std::fs;
use std::ops::Range;
use std::path::{Path, PathBuf};

fn root() -> PathBuf {
    Path::new(env!("CARGO_MANIFEST_DIR")).join("..")
}

fn read(path: &Path) -> String {
    fs::read_to_string(path).unwrap_or_else(|error| panic!("{}: {error}", path.display()))
}

fn document(name: &str) -> String {
    read(&root().join(name))
}

/// The files below a folder that have this extension, in order; none if there is no such folder.
fn files(folder: &Path, extension: &str) -> Vec<PathBuf> {
    let mut found = Vec::new();
    let Ok(entries) = fs::read_dir(folder) else { return found };
    for entry in entries {
        let path = entry.expect("a folder can be read").path();
        if path.is_dir() {
            found.extend(files(&path, extension));
        } else if path.extension().is_some_and(|found| found == extension) {
            found.push(path);
        }
    }
    found.sort();
    found
}

fn stem(path: &Path) -> String {
    path.file_stem().and_then(|name| name.to_str()).expect("a name in UTF-8").to_string()
}

/// The crates that are listed. Behind a crate's name a word may say what is made of it.
fn crates() -> Vec<String> {
    let text = document("crates.txt");
    let names = text.lines().filter(|line| !line.starts_with('#')).filter_map(|line| line.split_once(':'));
    names.map(|(name, _)| name.split(' ').next().expect("a split has a first part").to_string()).collect()
}

/// Each listed crate with the files of one of its folders.
fn crate_files(folder: &str, extension: &str) -> Vec<(String, PathBuf)> {
    let of = |name: String| {
        let found = files(&root().join("crates").join(&name).join(folder), extension);
        found.into_iter().map(move |path| (name.clone(), path))
    };
    crates().into_iter().flat_map(of).collect()
}

/// The words that a text has in backquotes.
fn quoted(text: &str) -> BTreeSet<&str> {
    text.lines().flat_map(|line| line.split('`').skip(1).step_by(2)).collect()
}

/// Whether a text has this name as a word.
fn has_word(text: &str, word: &str) -> bool {
    text.match_indices(word)
        .any(|(at, _)| !text[..at].ends_with(is_part) && !text[at + word.len()..].starts_with(is_part))
}

/// A function of a crate, by its path from the crate's root on: `module::name`, or `name` in the root itself. A method stands behind its
/// type's name, one of a trait's impl behind the names of the type, the trait and the trait's arguments, run together, and one that a
/// trait asks for behind the trait's name.
struct Function {
    of: String,
    /// The file in the crate's folder, and where in it the function's name and contract are.
    file: PathBuf,
    contract: Range<usize>,
    path: String,
    is_public: bool,
    /// Whether a public trait asks for it.
    is_asked_for: bool,
    /// The type whose trait's impl it stands in.
    type_of_impl: Option<String>,
    /// From its name to its body, as it would stand at the left margin.
    signature: String,
    body: String,
}

impl Function {
    /// `crate::module::name`, as the documents write it.
    fn full_path(&self) -> String {
        format!("{}::{}", self.of, self.path)
    }

    fn name(&self) -> &str {
        self.path.rsplit("::").next().unwrap_or(&self.path)
    }

    /// Whether it is called on a value or behind a type's name.
    fn is_method(&self) -> bool {
        self.path.rsplit("::").nth(1).is_some_and(is_type_name)
    }

    /// Whether its text has this piece.
    fn has(&self, piece: &str) -> bool {
        self.signature.contains(piece) || self.body.contains(piece)
    }

    /// Whether its signature has a clause that begins with this word.
    fn has_clause(&self, word: &str) -> bool {
        self.signature.lines().any(|line| line.strip_prefix("    ").is_some_and(|clause| clause.starts_with(word)))
    }

    /// Whether a text calls it: a method on a value or behind a type's name, another function behind no more than its module's name.
    fn is_called_in(&self, text: &str) -> bool {
        let call = format!("{}(", self.name());
        text.match_indices(&call).map(|(at, _)| &text[..at]).any(|before| match before.strip_suffix("::") {
            Some(outer) => is_type_name(last_word(outer)) == self.is_method(),
            None if before.ends_with('.') => self.is_method(),
            None => !self.is_method() && !before.ends_with("fn ") && !before.ends_with(is_part),
        })
    }

    /// Whether another function hands it by its name to what it calls. What that function binds to the name is another thing.
    fn is_handed_by(&self, other: &Function) -> bool {
        let name = self.name();
        let binds = |text: &str| ["let ", "mut ", "|"].iter().any(|before| text.contains(&format!("{before}{name}")));
        let hands =
            |text: &str| ["(", " "].iter().any(|a| [",", ")"].iter().any(|b| text.contains(&format!("{a}{name}{b}"))));
        !self.is_method()
            && !other.signature.contains(&format!("{name}: "))
            && !binds(&other.body)
            && hands(&other.body)
    }

    /// Whether another function of its crate calls it, or hands it on to be called. What is handed a value of a type may call what a trait's
    /// impl says of that type.
    fn is_used_by(&self, other: &Function) -> bool {
        let named = |name: &String| called(&other.body).contains(name.as_str());
        self.is_called_in(&other.body) || self.is_handed_by(other) || self.type_of_impl.as_ref().is_some_and(named)
    }
}

/// Whether a letter can be part of a name.
fn is_part(letter: char) -> bool {
    letter.is_alphanumeric() || letter == '_'
}

/// The name that a text ends with, without the arguments behind a type's name.
fn last_word(text: &str) -> &str {
    let text = text.strip_suffix('>').and_then(|text| text.rsplit_once('<')).map_or(text, |(name, _)| name);
    let text = text.trim_end_matches(':');
    &text[text.trim_end_matches(is_part).len()..]
}

fn is_type_name(name: &str) -> bool {
    name.starts_with(char::is_uppercase)
}

/// A function's name, from a text that begins with it.
fn name_of(text: &str) -> &str {
    text.split(['(', '<']).next().expect("a split has a first part")
}

/// Where a function's body begins, in a text that begins with its name and stands at the left margin: at the bracket that ends the first
/// line, or a line that is not indented. A function that a trait asks for has none: a line ends with a semicolon before.
fn body_at(text: &str) -> Option<usize> {
    let mut start = 0;
    for line in text.split('\n') {
        let ends = line.strip_suffix("{}").or(line.strip_suffix('{'));
        if let Some(before) = ends.filter(|_| start == 0 || !line.starts_with(' ')) {
            return Some(start + before.len());
        }
        if line.ends_with(';') {
            return None;
        }
        start += line.len() + 1;
    }
    None
}

/// What stands between the brackets that a text begins with, and what stands behind them.
fn bracketed(text: &str) -> Option<(&str, &str)> {
    let inside = text.strip_prefix('<')?;
    let mut depth = 1;
    for (at, letter) in inside.char_indices() {
        depth += match letter {
            '<' => 1,
            '>' if !inside[..at].ends_with('-') => -1,
            _ => 0,
        };
        if depth == 0 {
            return Some((&inside[..at], &inside[at + 1..]));
        }
    }
    None
}

/// The names of a type and its arguments run together: `From<&Table>` is `FromRefTable`, and `Result<usize, Refusal>` `ResultUsizeRefusal`.
fn run_together(text: &str) -> String {
    let mut found = String::new();
    for word in text.replace('&', " Ref ").split(|letter: char| !is_part(letter) && letter != '\'') {
        let mut letters = word.chars();
        if let Some(first) = letters.next().filter(|first| *first != '\'') {
            found.extend(first.to_uppercase());
            found.push_str(letters.as_str());
        }
    }
    found
}

/// What functions that are indented stand in.
struct Block {
    /// What their names stand behind.
    name: String,
    is_public_trait: bool,
    type_of_impl: Option<String>,
}

/// The block that a line at the left margin begins, if it begins one.
fn block(line: &str) -> Option<Block> {
    if let Some(asked) = line.strip_prefix("pub trait ").or(line.strip_prefix("trait ")) {
        let name = asked.split(|letter| !is_part(letter)).next().unwrap_or_default().to_string();
        return Some(Block { name, is_public_trait: line.starts_with("pub "), type_of_impl: None });
    }
    let rest = line.strip_prefix("impl").filter(|rest| rest.starts_with(['<', ' ']))?;
    let rest = bracketed(rest).map_or(rest, |(_, rest)| rest).trim_end_matches('{').trim();
    let (of, what) = match rest.split_once(" for ") {
        Some((of, what)) => (Some(of), what),
        None => (None, rest),
    };
    let what = what.split(['<', ' ']).next().unwrap_or_default().to_string();
    assert!(is_type_name(&what), "whose impl is {line}?");
    Some(Block {
        name: format!("{what}{}", of.map(run_together).unwrap_or_default()),
        is_public_trait: false,
        type_of_impl: of.map(|_| what),
    })
}

/// What may stand before `fn`.
const BEFORE: [&str; 4] = ["", "pub ", "pub(crate) ", "pub extern \"C\" "];

/// Where a function is: its crate and its file, where its name begins in the file's text, how its lines are indented, and what stands before
/// `fn`.
struct Place<'a> {
    of: &'a str,
    path: &'a Path,
    at: usize,
    indentation: &'a str,
    before: &'a str,
}

/// The function at a place of a file's text, in this block if it stands in one.
fn function_at(place: &Place, text: &str, inside: Option<&Block>) -> Function {
    let rest = text[place.at..].replace(&format!("\n{}", place.indentation), "\n");
    let name = name_of(&rest);
    let asked = inside.is_some_and(|block| block.is_public_trait);
    let body = body_at(&rest).or(asked.then(|| rest.find(";\n").unwrap_or(rest.len())));
    let body = body.unwrap_or_else(|| panic!("{}: {name} has no body", place.path.display()));
    let end = if rest[body..].starts_with("{\n") { rest[body..].find("\n}").expect("a body ends") } else { 0 };
    let name = inside.map_or(name.to_string(), |block| format!("{}::{name}", block.name));
    let (signature, module) = (rest[..body].to_string(), stem(place.path));
    let indented = signature.matches('\n').count() * place.indentation.len();
    let folder = root().join("crates").join(place.of);
    Function {
        of: place.of.to_string(),
        file: place.path.strip_prefix(folder).expect("a file is in its crate").to_path_buf(),
        contract: place.at..place.at + body + indented,
        path: if module == "lib" { name } else { format!("{module}::{name}") },
        is_public: place.before.starts_with("pub ") || place.before.starts_with("pub extern"),
        is_asked_for: asked,
        type_of_impl: inside.and_then(|block| block.type_of_impl.clone()),
        signature,
        body: rest[body..body + end].to_string(),
    }
}

/// The functions of a file: those at the left margin, and those of its traits and impls, which are indented by four spaces.
fn functions_in(of: &str, path: &Path) -> Vec<Function> {
    let text = read(path);
    let (mut found, mut inside, mut start) = (Vec::new(), None::<Block>, 0);
    for line in text.split('\n') {
        let indentation = &line[..line.len() - line.trim_start().len()];
        let head = &line[indentation.len()..];
        inside = if inside.is_none() { block(line) } else { inside.filter(|_| line != "}") };
        if let Some((before, _)) = head.split_once("fn ").filter(|(before, _)| BEFORE.contains(before)) {
            let block = inside.as_ref().filter(|_| indentation == "    ");
            assert!(block.is_some() || indentation.is_empty(), "{}: {line} is in no impl", path.display());
            let at = start + indentation.len() + before.len() + "fn ".len();
            found.push(function_at(&Place { of, path, at, indentation, before }, &text, block));
        } else {
            let is_other = ["pub", "const", "unsafe", "extern"].iter().any(|word| head.starts_with(word));
            assert!(!is_other || !head.contains("fn "), "{}: what is {line}?", path.display());
        }
        start += line.len() + 1;
    }
    found
}

/// Every function of every crate; a program's own are none.
fn functions() -> Vec<Function> {
    let files = crate_files("src", "rt").into_iter().filter(|(_, path)| stem(path) != "main");
    files.flat_map(|(of, path)| functions_in(&of, &path)).collect()
}

/// Every public function of every crate.
fn public_functions() -> Vec<Function> {
    let found: Vec<Function> = functions().into_iter().filter(|function| function.is_public).collect();
    assert!(found.len() > 50, "only {} public functions were found", found.len());
    found
}

/// The functions of a crate that a function's answer is made by: itself, and those of its crate that it uses, directly or through others.
fn made_by<'a>(function: &'a Function, all: &'a [Function]) -> Vec<&'a Function> {
    let mut found = vec![function];
    let mut next = 0;
    while next < found.len() {
        let more = all.iter().filter(|other| other.of == function.of && other.is_used_by(found[next]));
        for other in more.collect::<Vec<_>>() {
            if !found.iter().any(|known| known.path == other.path) {
                found.push(other);
            }
        }
        next += 1;
    }
    found
}

/// A method goes by the name that Rattle gives it, which is the one that the wrong programs name.
#[test]
fn methods_go_by_their_types() {
    let heads = [
        ("impl<'a> Line<'a> {", "Line"),
        ("impl<'a, R: Input, E: Print> Program<'a, R, E>", "Program"),
        ("impl From<&Table> for TableForm {", "TableFormFromRefTable"),
        ("impl From<Result<usize, Refusal>> for Written {", "WrittenFromResultUsizeRefusal"),
        ("impl TryFrom<BeaconForm> for Beacon {", "BeaconTryFromBeaconForm"),
        ("pub trait Record {", "Record"),
    ];
    for (head, name) in heads {
        assert_eq!(block(head).expect("a block begins").name, name);
    }
    let methods = functions().into_iter().filter(Function::is_method).count();
    assert!(methods > 30, "only {methods} methods were found");
}

/// Fails with all that was found wrong; `tried` says that the search found what it looks through.
fn expect_none(what: &str, wrong: Vec<String>, tried: usize, at_least: usize) {
    assert!(tried >= at_least, "{what}: only {tried} were looked at");
    assert!(wrong.is_empty(), "{what}: {wrong:#?}");
}

#[test]
fn public_functions_promise_and_ask_nothing() {
    let is_offered = |function: &Function| function.is_public || function.is_asked_for;
    let functions: Vec<Function> = functions().into_iter().filter(is_offered).collect();
    let fits = |function: &&Function| function.has_clause("ensures") && !function.signature.contains("requires");
    let wrong = functions.iter().filter(|function| !fits(function)).map(Function::full_path).collect();
    expect_none("public functions without an ensures, or with a requires", wrong, functions.len(), 50);
}

#[test]
fn public_functions_are_claimed() {
    let claims = document("docs/CLAIMS.md");
    let quoted = quoted(&claims);
    let functions = public_functions();
    let claimed = |function: &&Function| quoted.contains(function.full_path().as_str());
    let wrong = functions.iter().filter(|function| !claimed(function)).map(Function::full_path).collect();
    expect_none("public functions that CLAIMS.md does not name by their full path", wrong, functions.len(), 50);
}

/// A wrong program, or a wrong definition or claim, that the prover must refuse.
struct Wrong {
    of: String,
    name: String,
    /// The function whose text is changed; a definition or a claim has none.
    function: Option<String>,
}

impl Wrong {
    /// `crate/name`, as the documents write it.
    fn full_path(&self) -> String {
        format!("{}/{}", self.of, self.name)
    }
}

/// Whether a crate's proofs have a law of this name.
fn is_law(of: &str, name: &str) -> bool {
    let declares = |line: &str| line.trim_start().trim_start_matches("pub ").starts_with(&format!("{name} : "));
    files(&root().join("crates").join(of).join("proofs"), "antt").iter().any(|path| read(path).lines().any(declares))
}

/// What every must-fail edit says is wrong: lines `wrong: NAME, in FUNCTION (what)` or, of a definition or a claim,
/// `wrong: NAME, of LAW (what)`.
fn wrong_programs() -> Vec<Wrong> {
    let mut found = Vec::new();
    for (of, path) in crate_files("must-fail", "edit") {
        let text = read(&path);
        let before = found.len();
        for line in text.lines().filter_map(|line| line.strip_prefix("wrong: ")) {
            let (said, _) =
                line.split_once(" (").unwrap_or_else(|| panic!("{}: what is wrong in {line}?", path.display()));
            let (name, function) = match said.split_once(", in ") {
                Some((name, function)) => (name, Some(function.to_string())),
                None => match said.split_once(", of ") {
                    Some((name, law)) if is_law(&of, law) => (name, None),
                    _ => panic!("{}: no function and no law of the crate in {line}", path.display()),
                },
            };
            found.push(Wrong { of: of.clone(), name: name.to_string(), function });
        }
        assert!(found.len() > before, "{} does not say what is wrong", path.display());
    }
    found
}

#[test]
fn wrong_programs_are_claimed() {
    let claims = document("docs/CLAIMS.md");
    let quoted = quoted(&claims);
    let all = wrong_programs();
    let claimed = |wrong: &&Wrong| quoted.contains(wrong.full_path().as_str());
    let wrong = all.iter().filter(|wrong| !claimed(wrong)).map(Wrong::full_path).collect();
    expect_none("wrong programs that CLAIMS.md does not name by their full path", wrong, all.len(), 200);
}

#[test]
fn wrong_programs_have_names_of_their_own() {
    let all = wrong_programs();
    let mut seen = BTreeSet::new();
    let wrong = all.iter().filter(|wrong| !seen.insert(wrong.full_path())).map(Wrong::full_path).collect();
    expect_none("names that two wrong programs of a crate have", wrong, all.len(), 200);
}

/// The constant that a piece of a crate's text belongs to, if it does.
fn constant_of(of: &str, piece: &str) -> Option<String> {
    let lines = crate_files("src", "rt").into_iter().filter(|(found, _)| found == of).map(|(_, path)| read(&path));
    let text: String = lines.collect();
    let line = text.lines().find(|line| line.contains("const ") && line.contains(piece))?;
    let name = line.split("const ").nth(1)?.split(':').next()?;
    Some(name.to_string())
}

/// Of two wrong programs of one function that are tried together, either could be refused for the other alone.
#[test]
fn wrong_programs_of_an_edit_change_different_functions() {
    let (mut wrong, mut tried) = (Vec::new(), 0);
    for (of, path) in crate_files("must-fail", "edit") {
        let text = read(&path);
        let mut seen = BTreeSet::new();
        for line in text.lines().filter_map(|line| line.strip_prefix("wrong: ")) {
            let (said, _) = line.split_once(" (").expect("a wrong program says what is wrong");
            let (_, changed) = said.split_once(", ").expect("a wrong program names its function or its law");
            tried += 1;
            if !seen.insert(changed) {
                wrong.push(format!("{of}/{}: {changed}", stem(&path)));
            }
        }
    }
    expect_none("functions and laws that an edit changes twice", wrong, tried, 200);
}

/// The function that a wrong program names is the one whose text is changed, or that names a constant whose text is. Where lines of a proof
/// are changed too, they are of that function's.
#[test]
fn wrong_programs_name_their_function() {
    let functions = functions();
    let (mut wrong, mut tried) = (Vec::new(), 0);
    for (of, path) in crate_files("must-fail", "edit") {
        let text = read(&path);
        let (mut named, mut file, mut put) = (None, "", Vec::new());
        let mut without_code = BTreeSet::new();
        for line in text.lines() {
            if let Some(said) = line.strip_prefix("wrong: ") {
                named = said.split_once(" (").and_then(|(said, _)| said.split_once(", in "));
                without_code.extend(named);
                put.clear();
            } else if let Some(path) = line.strip_prefix("file: ") {
                file = path;
            } else if let (false, Some(new)) = (file.starts_with("proofs/"), line.strip_prefix("new: ")) {
                put.push(new);
            } else if let (Some((name, function)), Some(old)) = (named, line.strip_prefix("old: ")) {
                tried += 1;
                if file.starts_with("proofs/") {
                    if file != format!("proofs/{}/Answers.antt", function.replace("::", "/")) {
                        wrong.push(format!("{of}/{name}, in {file}"));
                    }
                    continue;
                }
                without_code.remove(&(name, function));
                let constant = constant_of(&of, old.trim());
                let has = |ours: &Function| match old.strip_prefix("fn ") {
                    Some(head) => {
                        ours.file == Path::new(file) && head.contains('(') && ours.signature.starts_with(head)
                    }
                    None => {
                        let names_it = constant.as_ref().is_some_and(|name| ours.has(name));
                        ours.has(old.trim()) || put.contains(&old) || names_it
                    }
                };
                if !functions.iter().any(|ours| ours.of == of && ours.path == function && has(ours)) {
                    wrong.push(format!("{of}/{name}, in {function}"));
                }
            }
        }
        wrong.extend(without_code.iter().map(|(name, function)| format!("{of}/{name}, in no code of {function}")));
    }
    expect_none("wrong programs whose text is not that of the function they name", wrong, tried, 150);
}

/// Whether a crate uses a function of its own.
fn is_used(function: &Function, all: &[Function]) -> bool {
    let sources = files(&root().join("crates").join(&function.of).join("src"), "rt");
    let others = |other: &&Function| other.of == function.of && other.path != function.path;
    sources.iter().any(|path| function.is_called_in(&read(path)))
        || all.iter().filter(others).any(|other| function.is_used_by(other))
}

/// Among wrong programs that are tried together, a changed contract would reach the proofs of its function's callers.
#[test]
fn changed_contracts_have_no_callers() {
    let functions = functions();
    let (mut wrong, mut tried) = (Vec::new(), 0);
    for (of, path) in crate_files("must-fail", "edit") {
        let text = read(&path);
        let (mut file, mut code) = ("", String::new());
        let lines: Vec<&str> = text.lines().filter(|_| text.contains("\nwrong: ")).collect();
        for (i, line) in lines.iter().enumerate() {
            // What stands in front of a function's head is none of its contract.
            let stays = |old: &str| old.starts_with("fn ") && lines.get(i + 1).is_some_and(|new| new.ends_with(old));
            let start = |old: &str| code.find(old).map(|at| if old.starts_with("fn ") { at + "fn ".len() } else { at });
            if let Some(named) = line.strip_prefix("file: ") {
                (file, code) = (named, read(&root().join("crates").join(&of).join(named)));
            } else if let Some(at) = line.strip_prefix("old: ").filter(|old| !stays(old)).and_then(start) {
                tried += 1;
                let stands_in =
                    |ours: &&Function| ours.of == of && ours.file == Path::new(file) && ours.contract.contains(&at);
                let reaches = functions.iter().filter(stands_in).filter(|ours| is_used(ours, &functions));
                wrong.extend(reaches.map(Function::full_path));
            }
        }
    }
    expect_none("contracts that are changed together with other functions, and called", wrong, tried, 100);
}

/// The lines of an edit whose old text does not stand exactly once in its file, with what the lines before them put there, or stays as it is.
fn unfit_lines(of: &str, edit: &str) -> Vec<String> {
    let mut codes: BTreeMap<&str, String> = BTreeMap::new();
    let (mut file, mut old, mut unfit) = ("", "", Vec::new());
    for line in edit.lines() {
        if let Some(named) = line.strip_prefix("file: ") {
            file = named;
            codes.entry(file).or_insert_with(|| read(&root().join("crates").join(of).join(file)));
        } else if let Some(text) = line.strip_prefix("old: ") {
            old = text;
        } else if let Some(new) = line.strip_prefix("new:") {
            let code = codes.get_mut(file).expect("an edit names its file first");
            let new = new.strip_prefix(' ').unwrap_or(new);
            if code.matches(old).count() == 1 && new != old {
                *code = code.replacen(old, new, 1);
            } else {
                unfit.push(format!("{of}/{file}: {old}"));
            }
        }
    }
    unfit
}

/// What a wrong program changes stands in the code as it is.
#[test]
fn changed_texts_are_there() {
    let edits = crate_files("must-fail", "edit");
    let wrong = edits.iter().flat_map(|(of, path)| unfit_lines(of, &read(path))).collect();
    expect_none("changed texts that do not stand once in the code, or stay as they are", wrong, edits.len(), 100);
}

/// The rows of the tables of public functions in CLAIMS.md, each with the functions of its first column and the wrong programs of its last.
fn function_rows(claims: &str) -> Vec<(Vec<&str>, Vec<&str>)> {
    let rows = claims.lines().filter(|line| line.starts_with("| `"));
    let cells = |row: &'_ str| row.trim_matches([' ', '|']).split(" | ").map(str::to_string).collect::<Vec<_>>();
    let mut found = Vec::new();
    for row in rows {
        let cells = cells(row);
        let (first, last) = (&cells[0], &cells[cells.len() - 1]);
        let at = |cell: &str| row.find(cell).expect("a row has its cells");
        let (first, last) = (&row[at(first)..][..first.len()], &row[at(last)..][..last.len()]);
        let functions: Vec<&str> = quoted(first).into_iter().filter(|word| word.contains("::")).collect();
        if !functions.is_empty() {
            found.push((functions, quoted(last).into_iter().filter(|word| word.contains('/')).collect()));
        }
    }
    found
}

/// Each public function, and each other one that CLAIMS.md has a row for, has two wrong programs at least, each in the function itself or in
/// one of its crate that its answer is made by; and its row has these alone. A function that cites theorems, or gives a constant of the
/// definitions, has wrong claims and definitions of its crate too.
#[test]
fn functions_have_two_wrong_programs() {
    let claims = document("docs/CLAIMS.md");
    let (all, wrongs) = (functions(), wrong_programs());
    let rows = function_rows(&claims);
    let has_row = |path: &str| rows.iter().any(|(functions, _)| functions.contains(&path));
    let mut bad = Vec::new();
    for function in all.iter().filter(|function| function.is_public || has_row(&function.full_path())) {
        let path = function.full_path();
        let makers = made_by(function, &all);
        let shuts_out = |wrong: &&Wrong| {
            wrong.of == function.of
                && match &wrong.function {
                    Some(named) => makers.iter().any(|maker| maker.path == *named),
                    None => function.of.ends_with("_spec"),
                }
        };
        let ours: BTreeSet<String> = wrongs.iter().filter(shuts_out).map(Wrong::full_path).collect();
        let named: Vec<&str> = rows
            .iter()
            .filter(|(functions, _)| functions.contains(&path.as_str()))
            .flat_map(|(_, wrong)| wrong.iter().copied())
            .collect();
        if named.len() < 2 {
            bad.push(format!("{path}: {} wrong programs in its row", named.len()));
        }
        bad.extend(
            named
                .iter()
                .filter(|wrong| !ours.contains(**wrong))
                .map(|wrong| format!("{path}: {wrong} is none of its own")),
        );
    }
    expect_none("functions without two wrong programs of their own", bad, all.len(), 100);
}

/// Whatever CLAIMS.md names by a full path is there.
#[test]
fn claimed_paths_are_there() {
    let claims = document("docs/CLAIMS.md");
    let crates = crates();
    let known: BTreeSet<String> =
        functions().iter().map(Function::full_path).chain(wrong_programs().iter().map(Wrong::full_path)).collect();
    let is_path = |word: &&&str| {
        let of = word.split(['/', ':']).next().unwrap_or_default();
        crates.iter().any(|name| name == of) && *word != &of && !word.contains([' ', '*', '.'])
    };
    let words = quoted(&claims);
    let named: Vec<&&str> = words.iter().filter(is_path).collect();
    let wrong = named.iter().filter(|word| !known.contains(***word)).map(|word| word.to_string()).collect();
    expect_none("paths that CLAIMS.md names and that are not there", wrong, named.len(), 200);
}

/// What a line of definitions says of a claim, without the name that it defines, imports and comments.
fn claim_body(line: &str) -> Option<String> {
    let says_nothing = line.ends_with(" =") || ["use ", "--", "abbrev "].iter().any(|start| line.starts_with(start));
    if says_nothing {
        return None;
    }
    Some(line.split_once(" = ").map_or(line, |(_, body)| body).to_string())
}

/// A claim in specs/ that no function promises could be left unproved.
#[test]
fn claims_are_promised() {
    let is_promise = |line: &&str| !line.starts_with("ghost use") && !line.starts_with("//");
    let promises: Vec<String> = crate_files("src", "rt")
        .iter()
        .map(|(_, path)| read(path).lines().filter(is_promise).collect::<Vec<_>>().join("\n"))
        .collect();
    // A claim may be a part of another one.
    let bodies: Vec<String> = crate_files("specs", "antt")
        .iter()
        .flat_map(|(_, path)| read(path).lines().filter_map(claim_body).collect::<Vec<_>>())
        .collect();
    let mut claims = Vec::new();
    for (of, path) in crate_files("specs", "antt") {
        let text = read(&path);
        let closed = |line: &str| Some(line.strip_prefix("abbrev pub ")?.strip_suffix(" : Type 0")?.to_string());
        claims.extend(text.lines().filter_map(closed).map(|name| (of.clone(), name)));
    }
    let promised = |name: &str| promises.iter().chain(&bodies).any(|text| has_word(text, name));
    let wrong = claims.iter().filter(|(_, name)| !promised(name)).map(|(of, name)| format!("{of}: {name}")).collect();
    expect_none("claims that no function promises", wrong, claims.len(), 20);
}

/// Each file of definitions names sections of the rules, which are there.
#[test]
fn definitions_cite_the_rules() {
    let rules = document("docs/RULES.md");
    let sections: BTreeSet<&str> = rules.lines().filter_map(|line| line.strip_prefix("## ")).collect();
    let definitions: Vec<(String, PathBuf)> =
        crate_files("specs", "antt").into_iter().filter(|(_, path)| stem(path) != "Lib").collect();
    let cites = |path: &Path| {
        let text = read(path);
        let comment: Vec<&str> = text.lines().map_while(|line| line.strip_prefix("--")).map(str::trim).collect();
        let comment = comment.join(" ");
        let cited: Vec<&str> = comment.split("docs/RULES.md, ").skip(1).collect();
        !cited.is_empty() && cited.iter().all(|rest| sections.iter().any(|section| rest.starts_with(section)))
    };
    let wrong: Vec<String> =
        definitions.iter().filter(|(_, path)| !cites(path)).map(|(of, path)| format!("{of}/{}", stem(path))).collect();
    expect_none("definitions that cite no section of the rules", wrong, definitions.len(), 40);
}

/// Files that the documents name, from the root or from crates/ on, are there.
#[test]
fn named_files_are_there() {
    let names =
        ["README.md", "docs/CLAIMS.md", "docs/DECISIONS.md", "docs/PROGRAMS.md", "docs/PROVING.md", "docs/RULES.md"];
    let texts = names.into_iter().chain(["docs/SPEED.md"]).map(document).collect::<Vec<_>>();
    let is_file = |word: &&str| {
        let extension = word.rsplit_once('.').map_or("", |(_, extension)| extension);
        word.contains('/')
            && !word.contains([' ', '*'])
            && ["antt", "rt", "rs", "h", "md", "c", "txt"].contains(&extension)
    };
    let named: BTreeSet<&str> = texts.iter().flat_map(|text| quoted(text)).filter(is_file).collect();
    let there = |word: &&&str| root().join(word).exists() || root().join("crates").join(word).exists();
    let wrong = named.iter().filter(|word| !there(word)).map(|word| word.to_string()).collect();
    expect_none("files that the documents name and that are not there", wrong, named.len(), 20);
}

/// README.md has every crate, and every document.
#[test]
fn crates_and_documents_are_listed() {
    let readme = document("README.md");
    let quoted = quoted(&readme);
    let in_tree = |path: PathBuf| path.strip_prefix(root()).expect("a document is in the tree").display().to_string();
    let documents = files(&root().join("docs"), "md").into_iter().map(in_tree);
    let expected: Vec<String> = crates().into_iter().chain(documents).collect();
    let wrong = expected.iter().filter(|name| !quoted.contains(name.as_str())).cloned().collect();
    expect_none("crates and documents that README.md does not name", wrong, expected.len(), 40);
}

/// The names behind which a text has an opening bracket.
fn called(text: &str) -> BTreeSet<&str> {
    text.split('(').map(|before| &before[before.trim_end_matches(is_part).len()..]).collect()
}

/// The header declares what the library exports, and nothing else.
#[test]
fn exported_functions_are_declared() {
    let header = document("include/tesolvagna.h");
    let code: String = header.split("*/").map(|part| part.split("/*").next().unwrap_or_default()).collect();
    let declared: BTreeSet<&str> = called(&code).into_iter().filter(|name| name.starts_with("tesolvagna_")).collect();
    let functions = public_functions();
    let exported: BTreeSet<&str> =
        functions.iter().map(Function::name).filter(|name| name.starts_with("tesolvagna_")).collect();
    assert_eq!(declared, exported);
    assert!(exported.len() > 10, "only {} exported functions were found", exported.len());
}
