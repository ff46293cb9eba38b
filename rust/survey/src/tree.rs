//! The crates of the library with their definitions and code.
use crate::catalogue::Catalogue;
use crate::files;
use crate::source::Source;
use crate::spec::Spec;
use std::io;
use std::path::Path;

/// A file of definitions.
#[derive(Debug)]
pub struct SpecFile {
    /// Its crate.
    pub library: String,
    /// The names that lead to it in specs/, with points between.
    pub module: String,
    /// Its path from the root.
    pub path: String,
    /// What it says.
    pub spec: Spec,
}

/// A file of code.
#[derive(Debug)]
pub struct SourceFile {
    /// Its crate.
    pub library: String,
    /// Its path from the root.
    pub path: String,
    /// What it says.
    pub source: Source,
}

/// All files of all crates of crates.txt.
#[derive(Debug)]
pub struct Tree {
    /// crates.txt.
    pub catalogue: Catalogue,
    /// The definitions, crate by crate, in the order of their lists of modules.
    pub specs: Vec<SpecFile>,
    /// The code, crate by crate.
    pub sources: Vec<SourceFile>,
}

/// The file in specs/ that lists the modules.
const LIST: &str = "Lib";

/// The files of definitions of a crate, in the order of its list of modules.
fn specs(root: &Path, library: &str) -> io::Result<Vec<SpecFile>> {
    let folder = root.join("crates").join(library).join("specs");
    let list = folder.join(format!("{LIST}.antt"));
    let listed = if list.is_file() { files::text(&list)? } else { String::new() };
    let mut found = vec![];
    for path in files::below(&folder, "antt")? {
        let module = files::from_root(&folder, &path.with_extension("")).replace('/', ".");
        if module.rsplit('.').next() != Some(LIST) {
            let spec = Spec::parse(&files::text(&path)?);
            found.push(SpecFile { library: library.to_string(), module, path: files::from_root(root, &path), spec });
        }
    }
    let place = |module: &str| listed.lines().position(|line| line.trim() == format!("pub mod {module}"));
    found.sort_by_key(|file| place(&file.module).unwrap_or(usize::MAX));
    Ok(found)
}

/// The files of code of a crate.
fn sources(root: &Path, library: &str) -> io::Result<Vec<SourceFile>> {
    let read = |path: &std::path::PathBuf| {
        let source = Source::parse(&files::text(path)?);
        Ok(SourceFile { library: library.to_string(), path: files::from_root(root, path), source })
    };
    files::below(&root.join("crates").join(library).join("src"), "rt")?.iter().map(read).collect()
}

impl Tree {
    /// Reads the tree at a root.
    pub fn read(root: &Path) -> io::Result<Tree> {
        let catalogue = Catalogue::read(root)?;
        let mut tree = Tree { catalogue, specs: vec![], sources: vec![] };
        for one in &tree.catalogue.crates {
            tree.specs.extend(specs(root, &one.name)?);
            tree.sources.extend(sources(root, &one.name)?);
        }
        Ok(tree)
    }
}
