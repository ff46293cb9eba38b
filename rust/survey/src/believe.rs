//! What a reader must believe: the definitions that public contracts and claims rest on, and whether each stands where
//! rules stand.
use crate::Report;
use crate::closure::{Graph, Node};
use crate::reading;
use crate::source::Function;
use crate::tree::{SpecFile, Tree};
use std::collections::BTreeSet;
use std::io;
use std::path::Path;

/// The crates whose functions C calls: the face, and the static library over it.
const EXPORTS: [&str; 2] = ["quads", "quads_c"];

/// The crates whose definitions are the claims.
const CLAIMS: [&str; 9] = [
    "safety",
    "safety_tight",
    "corners_exact",
    "page_exact",
    "band_exact",
    "job_exact",
    "valence_bound",
    "subdivide_exact",
    "cases",
];

/// What the head of a file says whose definitions are not believed, though it stands in a crate of rules.
const NOT_A_RULE: &str = "Not a rule";

/// A public function, with its file among the files of code.
#[derive(Debug)]
pub struct Contract<'a> {
    /// Its file.
    pub file: usize,
    /// The function.
    pub function: &'a Function,
}

/// What is believed, and from where.
#[derive(Debug)]
pub struct Beliefs<'a> {
    /// The tree.
    pub tree: &'a Tree,
    /// The operations, and the methods of the types that rules speak of.
    pub doors: Vec<Contract<'a>>,
    /// The functions that C calls.
    pub exports: Vec<Contract<'a>>,
    /// What the contracts of the operations rest on.
    pub of_doors: BTreeSet<Node>,
    /// What the contracts of the exports rest on.
    pub of_exports: BTreeSet<Node>,
    /// The crates of claims, and what the definitions of each rest on.
    pub claims: Vec<(&'static str, BTreeSet<Node>)>,
    /// What all of these rest on.
    pub of_claims: BTreeSet<Node>,
    /// All of these.
    pub all: BTreeSet<Node>,
    /// The imports that could not be followed.
    pub lost: Vec<String>,
}

/// Whether a text calls a function of a crate.
fn calls(code: &str, library: &str, function: &str) -> bool {
    code.contains(&format!("{library}::{function}("))
}

/// The public functions of the crates for which `wanted` says yes.
fn contracts<'a>(tree: &'a Tree, wanted: impl Fn(&str, &Function) -> bool) -> Vec<Contract<'a>> {
    let files = tree.sources.iter().enumerate();
    let functions = files.flat_map(|(file, source)| source.source.functions.iter().map(move |one| (file, one)));
    let public = functions.filter(|(file, one)| one.public && wanted(&tree.sources[*file].library, one));
    public.map(|(file, function)| Contract { file, function }).collect()
}

/// The operations: the functions of doors that a face calls, and the methods that stand in crates of rules.
fn doors(tree: &Tree) -> Vec<Contract<'_>> {
    let is_face = |library: &str| tree.catalogue.family(library) == Some("faces");
    let faces: Vec<&str> =
        tree.sources.iter().filter(|file| is_face(&file.library)).map(|file| &*file.source.code).collect();
    contracts(tree, |library, one| match tree.catalogue.family(library) {
        Some("doors") => faces.iter().any(|code| calls(code, library, &one.name)),
        Some("rules") => true,
        _ => false,
    })
}

/// The definitions of a crate.
fn stated<'a>(tree: &'a Tree, name: &'a str) -> impl Iterator<Item = Node> + 'a {
    let files = tree.specs.iter().enumerate().filter(move |(_, file)| file.library == name);
    files.flat_map(|(i, file)| (0..file.spec.definitions.len()).map(move |j| Node::Definition(i, j)))
}

impl<'a> Beliefs<'a> {
    /// Finds what is believed of a tree.
    pub fn of(tree: &'a Tree) -> Beliefs<'a> {
        let graph = Graph::new(tree);
        let cited = |contracts: &[Contract]| -> BTreeSet<Node> {
            graph.closure(contracts.iter().flat_map(|one| graph.cited_in(one.file, &one.function.contract)))
        };
        let doors = doors(tree);
        let exports = contracts(tree, |library, one| EXPORTS.contains(&library) && one.export);
        let (of_doors, of_exports) = (cited(&doors), cited(&exports));
        let claims = CLAIMS.map(|name| (name, graph.closure(stated(tree, name))));
        let claims: Vec<_> = claims.into_iter().filter(|(_, nodes)| !nodes.is_empty()).collect();
        let of_claims: BTreeSet<Node> = claims.iter().flat_map(|(_, nodes)| nodes).cloned().collect();
        let all = of_doors.iter().chain(&of_exports).chain(&of_claims).cloned().collect();
        Beliefs { tree, doors, exports, of_doors, of_exports, claims, of_claims, all, lost: graph.lost }
    }

    /// Whether a definition is believed.
    pub fn believes(&self, file: usize, place: usize) -> bool {
        self.all.contains(&Node::Definition(file, place))
    }

    /// What is wrong with the place of a definition, if anything.
    fn misplaced(&self, file: &SpecFile, believed: bool) -> Option<String> {
        let library = &file.library;
        let is_rule = library.starts_with("rule_");
        let is_claim = CLAIMS.iter().any(|claims| library.starts_with(claims));
        let is_home = is_rule || is_claim || self.tree.catalogue.family(library) == Some("words");
        let says_not = file.spec.head.contains(NOT_A_RULE);
        match believed {
            true if !is_home => Some(format!("is believed, but {library} is neither words nor a rule nor a claim")),
            true if is_rule && says_not => Some(format!("is believed, but the head of its file says \"{NOT_A_RULE}\"")),
            false if is_rule && !says_not => Some(format!(
                "is cited by no contract and no claim, and the head of its file does not say \"{NOT_A_RULE}\""
            )),
            _ => None,
        }
    }

    /// The operations, exports and claims that are missing.
    fn missing(&self) -> Vec<String> {
        let opened = |library: &str| self.doors.iter().any(|one| self.tree.sources[one.file].library == library);
        let closed = self.tree.catalogue.of("doors").filter(|door| !opened(&door.name));
        let mut found: Vec<String> = closed
            .map(|door| format!("crates/{}: no crate of the faces calls a public function of it", door.name))
            .collect();
        if self.exports.is_empty() {
            found.push(format!("crates/{}: no export is found", EXPORTS[0]));
        }
        let is_stated = |name: &str| self.claims.iter().any(|(claims, _)| *claims == name);
        let listed = |name: &str| name == CLAIMS[0] || self.tree.catalogue.family(name).is_some();
        let empty = CLAIMS.into_iter().filter(|name| listed(name) && !is_stated(name));
        found.extend(empty.map(|name| format!("crates/{name}/specs: no claim is found")));
        found
    }

    /// What is wrong, one line each.
    pub fn faults(&self) -> Vec<String> {
        let mut found = self.missing();
        found.extend(self.lost.iter().cloned());
        for (i, file) in self.tree.specs.iter().enumerate() {
            for (j, definition) in file.spec.definitions.iter().enumerate() {
                if let Some(fault) = self.misplaced(file, self.believes(i, j)) {
                    found.push(format!("{}:{}: {} {fault}", file.path, definition.line, definition.name));
                }
            }
        }
        found
    }
}

/// docs/READING.md of the tree at a root, and what is wrong.
pub fn report(root: &Path) -> io::Result<Report> {
    let tree = Tree::read(root)?;
    let beliefs = Beliefs::of(&tree);
    Ok(Report { text: reading::page(&beliefs), faults: beliefs.faults() })
}
