//! Reads the crates of the repository, and checks that each rule and each name of a list is for something in them.

use crate::files::{files_of, read};
use crate::items::{Names, declared_names, functions};
use crate::laws::effect;
use crate::recipe::Recipe;
use crate::rules::{Rule, lex_and_apply};
use crate::tokens::Token;
use std::path::{Path, PathBuf};

/// The files of all crates, and what is known of them.
#[derive(Default)]
pub(crate) struct Repository {
    pub files: Vec<File>,
    /// The laws of all crates.
    pub laws: Names,
}

/// One file of a crate, as the steps of this program take it.
pub(crate) struct File {
    /// What is made of its crate.
    pub recipe: &'static Recipe,
    /// Its path in the folder `src` of the crate, such as `digits/write.rt`.
    pub path: String,
    /// Its text, after the rules of `replacements` have changed it.
    pub tokens: Vec<Token>,
}

impl Repository {
    /// Reads these crates of the repository in a folder, and applies these rules to them.
    pub fn read(top: &Path, recipes: &'static [Recipe], mut rules: Vec<Rule>) -> Result<Repository, String> {
        let mut repository = Repository::default();
        for recipe in recipes {
            let mut files = Vec::new();
            for path in files_of(top, &recipe.folder_of_crate(), "rt")? {
                files.push(File::read(top, recipe, &path, &mut rules)?);
            }
            check_that_listed_names_exist(recipe, &files)?;
            repository.laws.extend(files.iter().flat_map(File::laws).cloned());
            repository.files.extend(files);
        }
        repository.files.iter().try_for_each(|file| file.check_that_no_law_has_a_namesake(&repository.laws))?;
        let faults: Vec<String> = rules.iter().filter_map(Rule::fault).collect();
        if faults.is_empty() { Ok(repository) } else { Err(faults.join("\n")) }
    }
}

/// Returns an error if the lists of a crate name what its files do not have.
fn check_that_listed_names_exist(recipe: &Recipe, files: &[File]) -> Result<(), String> {
    let known: Names = files.iter().flat_map(File::names_for_lists).collect();
    let unknown = recipe.listed_names().find(|name| !known.contains(*name));
    unknown.map_or(Ok(()), |name| Err(format!("{}: it has no {name}", recipe.name)))
}

impl File {
    /// Reads a file at a path in the repository, and applies these rules to it.
    fn read(top: &Path, recipe: &'static Recipe, path: &Path, rules: &mut [Rule]) -> Result<File, String> {
        let in_crate = path.strip_prefix(recipe.folder_of_crate()).unwrap_or(path).to_string_lossy().into_owned();
        let tokens = lex_and_apply(&read(&top.join(path))?, recipe, &in_crate, rules);
        let tokens = tokens.map_err(|what| format!("{}:{what}", path.display()))?;
        let file = File { recipe, path: in_crate, tokens };
        file.check_that_laws_only_prove().map(|()| file)
    }

    pub fn path_in_repository(&self) -> PathBuf {
        self.recipe.folder_of_crate().join(&self.path)
    }

    /// Returns what a list can name: the file, its module, and what it declares, as `NAME` and as `FILE:NAME`.
    fn names_for_lists(&self) -> impl Iterator<Item = String> {
        let declares = |pair: &&[Token]| pair[0].is_in(&["fn", "const", "struct", "enum", "trait"]);
        let declared = self.tokens.windows(2).filter(declares).map(|pair| &pair[1].text);
        let names = declared.flat_map(|name| [name.clone(), format!("{}:{name}", self.path)]);
        names.chain([self.path.clone(), self.path.trim_end_matches(".rt").to_owned()])
    }

    /// Returns the names of its functions and constants that are left out as laws.
    fn laws(&self) -> impl Iterator<Item = &String> {
        declared_names(&self.tokens).filter(|name| self.recipe.is_law(name, &self.path))
    }

    /// Returns an error if a function that is listed as a law does more than a law, because that would be lost.
    fn check_that_laws_only_prove(&self) -> Result<(), String> {
        for function in functions(&self.tokens) {
            let (name, line) = (function.name(&self.tokens), self.tokens[function.at].line);
            let effect = effect(&self.tokens, &function).filter(|_| self.recipe.is_law(name, &self.path));
            if let Some(effect) = effect {
                let path = self.path_in_repository();
                return Err(format!("{}:{line}: {name} is listed as a law, and {effect}", path.display()));
            }
        }
        Ok(())
    }

    /// Returns an error if it declares the name of a law for something else, whose calls would be left out too.
    fn check_that_no_law_has_a_namesake(&self, laws: &Names) -> Result<(), String> {
        let is_other = |name: &&String| laws.contains(*name) && !self.recipe.is_law(name, &self.path);
        let other = declared_names(&self.tokens).find(is_other);
        let path = self.path_in_repository();
        other.map_or(Ok(()), |name| Err(format!("{}: {name} is also the name of a law", path.display())))
    }
}
