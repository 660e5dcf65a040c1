//! The list of public items, `api.txt`, is that of the source; each has an example of its own; files are short; `unsafe`
//! stands in one module. BITM_WRITE_API=1 writes the list.
use std::collections::BTreeSet;
use std::fs;
use std::path::{Path, PathBuf};

fn files(folder: &Path, end: &str) -> Vec<PathBuf> {
    let mut all: Vec<PathBuf> = Vec::new();
    for entry in fs::read_dir(folder).expect("a folder").map(|it| it.expect("an entry").path()) {
        match entry.is_dir() {
            true => all.extend(files(&entry, end)),
            false => all.extend(Some(entry).filter(|it| it.to_string_lossy().ends_with(end))),
        }
    }
    all.sort();
    all
}

fn own() -> PathBuf {
    PathBuf::from(env!("CARGO_MANIFEST_DIR"))
}

/// The source's files, but for the declarations that bindgen makes.
fn source() -> Vec<(String, String)> {
    let all = files(&own().join("src"), ".rs").into_iter();
    let of = |it: PathBuf| {
        let name = it.strip_prefix(own().join("src")).expect("inside").display().to_string();
        (name, fs::read_to_string(it).expect("text"))
    };
    all.map(of).filter(|(name, _)| !name.starts_with("ffi")).collect()
}

/// How a line begins that calls a macro which makes items or impls.
const BY_MACRO: [&str; 11] = [
    "answers",
    "by_view!",
    "combines!",
    "compares!",
    "deserializes",
    "files!",
    "hash_queries!",
    "iterates!",
    "owners",
    "serializes",
    "views!",
];

/// Whether a line begins an item that somebody else sees.
fn begins(line: &str, in_trait: bool, in_enum: bool) -> bool {
    let is_seen = line.starts_with("pub ") && !line.starts_with("pub use crate::sys");
    let is_impl = line.starts_with("impl") || BY_MACRO.iter().any(|it| line.starts_with(it));
    let is_method = in_trait && ["fn ", "unsafe fn ", "type "].iter().any(|it| line.starts_with(it));
    let is_variant = in_enum && line.starts_with(char::is_uppercase);
    is_seen || is_impl || is_method || is_variant
}

/// Whether the text of an item is whole: up to its body, or its end.
fn ends(item: &str) -> bool {
    item.ends_with(['{', ';', ',', '}']) && item.matches('(').count() == item.matches(')').count()
}

/// What a line begins: a trait, or the methods of one in a macro without arguments, an enum, or neither.
fn block_of(line: &str) -> Option<&'static str> {
    let is_trait = line.starts_with("pub trait") || line == "    () => {";
    let begun = [(is_trait, "trait"), (line.starts_with("pub enum"), "enum"), (line == "}", "")];
    begun.iter().find(|(it, _)| *it).map(|(_, block)| *block)
}

fn items_of(name: &str, text: &str) -> Vec<String> {
    let (mut all, mut open, mut block) = (Vec::new(), None::<String>, "");
    for line in text.lines() {
        block = block_of(line).unwrap_or(block);
        let line = line.trim();
        let is_seen = !line.starts_with("//") && !line.starts_with('#');
        match &mut open {
            _ if !is_seen => continue,
            Some(item) => *item += &format!(" {line}"),
            None if begins(line, block == "trait", block == "enum") => open = Some(line.to_string()),
            None => continue,
        }
        if let Some(item) = open.take_if(|it| ends(it)) {
            let item = item.trim_end_matches(['{', ';', ',', '}']).trim().replace("( ", "(").replace(", )", ")");
            // Of a method that a macro makes by another one: without that one, and not in the macro.
            let made_by = item.split_once(" = ").filter(|_| item.contains("fn "));
            let item = made_by.map_or(item.as_str(), |(item, _)| item);
            all.extend((!item.contains("$name")).then(|| format!("{name}: {item}")));
        }
    }
    all
}

#[test]
fn the_list_of_public_items_is_that_of_the_source() {
    let source = source();
    let list: Vec<String> = source.iter().flat_map(|(name, text)| items_of(name, text)).collect();
    let (path, text) = (own().join("api.txt"), list.join("\n") + "\n");
    if std::env::var_os("BITM_WRITE_API").is_some() {
        fs::write(&path, &text).expect("written");
    }
    let wanted = fs::read_to_string(path).expect("api.txt");
    let (mine, kept): (BTreeSet<&str>, BTreeSet<&str>) = (text.lines().collect(), wanted.lines().collect());
    let (new, gone): (Vec<_>, Vec<_>) = (mine.difference(&kept).collect(), kept.difference(&mine).collect());
    assert!(new.is_empty() && gone.is_empty(), "not in api.txt: {new:#?}; only in api.txt: {gone:#?}");
}

/// The name of a public item with documentation of its own that a line begins.
fn name_of<'a>(line: &'a str, block: &str) -> Option<&'a str> {
    if let Some((made_by_macro, _)) = line.split_once(", bitm_").filter(|(it, _)| !it.contains(' ')) {
        return Some(made_by_macro);
    }
    let is_nameless = line.starts_with("pub use") || line.starts_with("impl") || line.contains(['!', '$']);
    let keywords = ["pub", "unsafe", "const", "fn", "struct", "enum", "trait", "type", "mod", ""];
    let mut words = line.split(|it: char| !it.is_alphanumeric() && it != '_');
    let name = words.find(|it| !keywords.contains(it));
    name.filter(|_| begins(line, block == "trait", block == "enum") && !is_nameless)
}

/// The items of a file without an example of their own that has their name, but for what nobody sees.
fn without_example(text: &str) -> Vec<&str> {
    let (mut all, mut docs, mut block) = (Vec::new(), Vec::new(), "");
    for line in text.lines() {
        block = block_of(line).unwrap_or(block);
        let line = line.trim();
        if line.starts_with("///") || line.starts_with("#[") {
            docs.push(line);
            continue;
        }
        let code: Vec<&[&str]> = docs.split(|it| it.starts_with("/// ```")).skip(1).step_by(2).collect();
        let name = name_of(line, block).filter(|it| *it != "Sealed" && !docs.contains(&"#[doc(hidden)]"));
        all.extend(name.filter(|name| !code.concat().iter().any(|it| it.contains(name))));
        docs.clear();
    }
    all
}

#[test]
fn each_item_has_an_example() {
    let source = source();
    let without: Vec<_> = source.iter().map(|(name, text)| (name, without_example(text))).collect();
    let without: Vec<_> = without.iter().filter(|(_, items)| !items.is_empty()).collect();
    assert!(without.is_empty(), "no example of their own: {without:#?}");
}

#[test]
fn unsafe_code_stands_in_one_module() {
    for (name, text) in source().iter().filter(|(name, _)| !name.starts_with("sys")) {
        let code = text.lines().filter(|it| !it.trim().starts_with("//"));
        let found = code.filter(|it| {
            ["unsafe {", "unsafe impl", "unsafe trait", "extern \"C\""].iter().any(|word| it.contains(word))
        });
        assert_eq!(found.collect::<Vec<_>>(), [""; 0], "in {name}");
    }
}

/// Inlined Rust says so where it is: the items of these files, and of the trait of bits.
#[test]
fn what_is_not_proved_says_so() {
    let is_inlined = |name: &str| name.starts_with("bits/") || ["masks.rs", "iterators.rs"].contains(&name);
    for (name, text) in source().iter().filter(|(name, _)| is_inlined(name)) {
        let text = text.replace("\n        /// ", " ").replace("\n    /// ", " ");
        let docs = ["not proved", "/// As `", "proved call"].iter().map(|it| text.matches(it).count()).sum::<usize>();
        let items = items_of(name, &text).iter().filter(|it| it.contains(" fn ") && name != "iterators.rs").count();
        assert!(docs >= items, "{name}: {docs} of {items} items say it");
    }
}

#[test]
fn files_and_functions_are_short() {
    for path in ["src", "tests", "examples"].iter().flat_map(|it| files(&own().join(it), ".rs")) {
        let text = fs::read_to_string(&path).expect("text");
        assert!(text.lines().count() < 400, "{}", path.display());
        if path.starts_with(own().join("src")) && !path.starts_with(own().join("src/ffi")) {
            longest(&path, &text);
        }
    }
}

fn longest(path: &Path, text: &str) {
    let lines: Vec<&str> = text.lines().collect();
    for (begin, line) in lines.iter().enumerate() {
        let indent = line.len() - line.trim_start().len();
        let is_function = line.contains("fn ") && !line.trim().starts_with("//");
        let ends = lines[begin..].iter().find(|it| it.ends_with([';', '{']));
        let is_foreign = ends.is_some_and(|it| it.ends_with(';'));
        if is_function && !is_foreign {
            let close = format!("{}}}", " ".repeat(indent));
            let len = lines[begin..].iter().position(|it| *it == close).unwrap_or(0);
            assert!(len <= 30, "{}:{}: {len} lines", path.display(), begin + 1);
        }
    }
}
