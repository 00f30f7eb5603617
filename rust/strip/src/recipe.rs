//! A recipe says what is made of a crate. `crates` has the recipe of each one.

use crate::attributes::Attributes;
use std::path::{Path, PathBuf};

/// Names or paths, with white space between them. rustfmt would give each member of a slice a line of its own.
pub(crate) type List = &'static str;

/// A crate of Rattle, and the files that are made of it. Each path of a file or a module is one in the folder `src` of
/// the crate. It is an error if the crate has nothing of a listed name.
#[derive(Clone, Copy)]
pub(crate) struct Recipe {
    /// The name of the crate.
    pub name: &'static str,
    /// The package that the made files are of.
    pub package: &'static str,
    /// The module of the package that is made of the crate, or empty for its root.
    pub module: &'static str,
    /// What is added to its functions and types. The first entry that names one counts for it.
    pub attributes: &'static [Attributes],
    /// Modules of which nothing is made: only proofs need them, or only Rattle has them.
    pub modules_left_out: List,
    /// Modules of which nothing is made, because all their functions are laws.
    pub modules_of_laws: List,
    /// Other laws, which are functions that only prove something, and functions that only record. They are listed
    /// because no declaration says so: a function without a result might be called for what it asserts. One that does
    /// more than a law is refused.
    pub laws: List,
    /// Constants that only contracts read.
    pub constants_left_out: List,
}

impl Recipe {
    /// Returns the folder of its sources.
    pub fn folder_of_crate(&self) -> PathBuf {
        Path::new("crates").join(self.name).join("src")
    }

    /// Returns whether these are tests, or what only they call.
    pub fn is_test(&self) -> bool {
        self.package == "repository_tests"
    }

    /// Returns whether the made files are committed. The others are made when cargo builds their package.
    pub fn is_committed(&self) -> bool {
        matches!(self.package, "cojimuran" | "lexical_c")
    }

    /// Returns whether the made files have a documentation for users.
    pub fn is_documented(&self) -> bool {
        matches!(self.package, "cojimuran" | "lexwrite")
    }

    /// Returns the lines of the first attributes that are for a type or a function, or `None`.
    pub fn lines_to_add(&self, are_for_it: impl Fn(&Attributes) -> bool) -> Option<&'static str> {
        self.attributes.iter().find(|attributes| are_for_it(attributes)).map(|attributes| attributes.lines)
    }

    /// Returns the names of the modules of which nothing is made, without what is before them in their paths.
    pub fn names_of_modules_left_out(&self) -> Vec<&'static str> {
        let paths = [self.modules_left_out, self.modules_of_laws].into_iter().flat_map(str::split_whitespace);
        paths.map(|path| path.rsplit('/').next().unwrap_or_default()).collect()
    }

    /// Returns whether a function or a constant of a file is left out, because only proofs need it.
    pub fn is_law(&self, name: &str, file: &str) -> bool {
        has(self.laws, name) || has(self.constants_left_out, name) || is_of_module(file, self.modules_of_laws)
    }

    /// Returns all that the lists name.
    pub fn listed_names(&self) -> impl Iterator<Item = &'static str> {
        let attributes = self.attributes.iter().flat_map(|entry| [entry.types, entry.functions, entry.files]);
        let others = [self.modules_left_out, self.modules_of_laws, self.laws, self.constants_left_out];
        attributes.chain(others).flat_map(str::split_whitespace)
    }

    /// Returns the path of what is made of a file, or `None` if nothing is. It begins in the folder of the repository,
    /// or in that of what cargo builds.
    pub fn path_of_made(&self, file: &str) -> Option<PathBuf> {
        let folder = Path::new("rust").join(self.package).join("src");
        match file {
            _ if is_of_module(file, self.modules_left_out) || is_of_module(file, self.modules_of_laws) => None,
            _ if !self.is_committed() => Some(Path::new(self.name).join(file).with_extension("rs")),
            "lib.rt" if self.module.is_empty() => None,
            "lib.rt" => Some(folder.join(self.module).with_extension("rs")),
            _ => Some(folder.join(self.module).join(file).with_extension("rs")),
        }
    }
}

/// Returns whether a file is of one of these modules.
fn is_of_module(file: &str, modules: List) -> bool {
    let is_of = |module: &str| file.strip_prefix(module).is_some_and(|rest| rest.starts_with(['.', '/']));
    modules.split_whitespace().any(is_of)
}

/// Returns whether a list has the name.
pub(crate) fn has(list: List, name: &str) -> bool {
    list.split_whitespace().any(|listed| listed == name)
}
