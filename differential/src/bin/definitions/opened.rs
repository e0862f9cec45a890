//! The definitions of a crate that are marked `unfoldable`: a case names them on its `unfolding` line, so
//! that they compute. They are found in the crates' own files, in the folder of the repository.
use std::collections::BTreeSet;
use std::fs;

/// The crate and all that it stands on, by crates.txt; none where it is not listed.
pub fn stands_on(name: &str) -> BTreeSet<String> {
    let listed = fs::read_to_string("crates.txt").expect("crates.txt");
    let lines = listed.lines().filter_map(|line| line.split_once(':'));
    let Some((_, below)) = lines.into_iter().find(|(of, _)| of.split(' ').next() == Some(name)) else {
        return BTreeSet::new();
    };
    let mut crates: BTreeSet<String> = below.split_whitespace().flat_map(stands_on).collect();
    crates.insert(name.into());
    crates
}

/// The `use` lines and the `unfolding` line for all that these crates mark.
pub fn opened(crates: &BTreeSet<String>) -> (String, String) {
    let mut uses = String::new();
    let mut names = String::new();
    for name in crates {
        for module in modules(name) {
            let alias = format!("{}{module}", in_camel_case(name));
            let marked = marked(name, &module);
            if !marked.is_empty() {
                uses += &format!("use Rattle.{name}.specs.{module} as {alias}\n");
                names.extend(marked.iter().map(|definition| format!(" {alias}.{definition}")));
            }
        }
    }
    let unfolding = if names.is_empty() { names } else { format!("unfolding{names}\n") };
    (uses, unfolding)
}

fn in_camel_case(name: &str) -> String {
    let capital = |word: &str| word[..1].to_uppercase() + &word[1..];
    name.split('_').map(capital).collect()
}

/// The modules that the crate's specs/ list, where it has any.
fn modules(name: &str) -> Vec<String> {
    let lib = fs::read_to_string(format!("crates/{name}/specs/Lib.antt")).unwrap_or_default();
    lib.lines().filter_map(|line| line.strip_prefix("pub mod ")).map(str::to_string).collect()
}

fn marked(name: &str, module: &str) -> Vec<String> {
    let text = fs::read_to_string(format!("crates/{name}/specs/{module}.antt")).expect("a module of specs/");
    let named = |line: &str| line.strip_prefix("unfoldable pub ")?.split(' ').next().map(str::to_string);
    text.lines().filter_map(named).collect()
}
