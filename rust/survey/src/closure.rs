//! Which definitions rest on which.
use crate::imports::{Import, Place, What};
use crate::tokens;
use crate::tree::Tree;
use std::collections::{BTreeMap, BTreeSet};

/// What a name can mean.
#[derive(Debug, Clone, PartialEq, Eq, PartialOrd, Ord)]
pub enum Node {
    /// A definition: its file among the files of definitions, and its place there.
    Definition(usize, usize),
    /// A type of the code: its file among the files of code, and its place there.
    Type(usize, usize),
    /// A name of a module of the kit.
    Kit(String, String),
}

/// The names that a file can use.
#[derive(Debug, Default)]
struct Scope {
    names: BTreeMap<String, Node>,
    modules: BTreeMap<String, Place>,
}

impl Scope {
    /// Adds a name. An operator is used by the parts of its name between its operands.
    fn add(&mut self, name: &str, node: &Node) {
        for part in name.split(OPERAND).filter(|part| name.contains(OPERAND) && !part.is_empty()) {
            self.names.insert(part.to_string(), node.clone());
        }
        self.names.insert(name.to_string(), node.clone());
    }
}

/// What stands in the name of an operator for an operand.
const OPERAND: char = '◌';

/// How often an import is followed that hands on another.
const LONGEST_WAY: usize = 8;

/// The definitions, types and contracts of a tree, and what they cite.
#[derive(Debug)]
pub struct Graph<'a> {
    tree: &'a Tree,
    specs: Vec<Scope>,
    sources: Vec<Scope>,
    /// The imports whose names were not found, one line each.
    pub lost: Vec<String>,
}

impl<'a> Graph<'a> {
    /// Reads the imports of all files.
    pub fn new(tree: &'a Tree) -> Graph<'a> {
        let mut graph = Graph { tree, specs: vec![], sources: vec![], lost: vec![] };
        for i in 0..tree.specs.len() {
            let scope = graph.spec_scope(i);
            graph.specs.push(scope);
        }
        for i in 0..tree.sources.len() {
            let scope = graph.source_scope(i);
            graph.sources.push(scope);
        }
        graph.lost.extend(graph.unfound());
        graph
    }

    /// The type of this name in the code of a crate.
    fn type_in(&self, library: &str, name: &str) -> Option<Node> {
        let files = self.tree.sources.iter().enumerate().filter(|(_, file)| file.library == library);
        let mut found = files
            .filter_map(|(i, file)| Some(Node::Type(i, file.source.types.iter().position(|one| one.name == name)?)));
        found.next()
    }

    /// The definition, or the constructor of one, of this name in a file.
    fn defined(&self, file: usize, name: &str) -> Option<Node> {
        let definitions = &self.tree.specs[file].spec.definitions;
        let own = definitions.iter().position(|one| one.name == name);
        let made = || definitions.iter().position(|one| one.constructors.iter().any(|made| made == name));
        own.or_else(made).map(|place| Node::Definition(file, place))
    }

    /// What a file hands on under this name.
    fn handed_on(&self, file: usize, name: &str, left: usize) -> Option<Node> {
        let public = self.tree.specs[file].spec.imports.iter().filter(|import| import.public);
        let mut found = public.filter_map(|import| {
            let What::Names(names) = &import.what else { return None };
            let (there, _) = names.iter().find(|(_, here)| here == name)?;
            self.find(&import.place, there, left.checked_sub(1)?)
        });
        found.next()
    }

    /// What a name of a module means.
    fn find(&self, place: &Place, name: &str, left: usize) -> Option<Node> {
        let Some(library) = place.library.as_ref().filter(|library| !self.tree.catalogue.is_of_kit(library)) else {
            return Some(Node::Kit(place.to_string(), name.to_string()));
        };
        if place.path.first().is_some_and(|first| first == "declared") {
            let is_type = |name: &&String| name.starts_with(char::is_uppercase);
            let declared = place.path.iter().find(is_type).map_or(name, String::as_str);
            return self.type_in(library, declared);
        }
        let module = place.path.join(".");
        let file = self.tree.specs.iter().position(|file| file.library == *library && file.module == module)?;
        self.defined(file, name).or_else(|| self.handed_on(file, name, left))
    }

    /// The names that imports bring to the file with this path.
    fn imported(&mut self, path: &str, imports: &[Import]) -> Scope {
        let mut scope = Scope::default();
        for import in imports {
            match &import.what {
                What::Module(here) => drop(scope.modules.insert(here.clone(), import.place.clone())),
                What::Names(names) => names.iter().for_each(|name| self.bring(path, &import.place, name, &mut scope)),
            }
        }
        scope
    }

    /// Brings a name of a module to the scope of the file with this path, under the name that it has there.
    fn bring(&mut self, path: &str, place: &Place, (there, here): &(String, String), scope: &mut Scope) {
        match self.find(place, there, LONGEST_WAY) {
            Some(node) => scope.add(here, &node),
            None => self.lost.push(format!("{path}: the import {there} is not found")),
        }
    }

    /// The names that a file of definitions can use.
    fn spec_scope(&mut self, file: usize) -> Scope {
        let spec = &self.tree.specs[file];
        let mut scope = self.imported(&spec.path, &spec.spec.imports);
        for (place, definition) in spec.spec.definitions.iter().enumerate() {
            let node = Node::Definition(file, place);
            definition.constructors.iter().for_each(|name| scope.add(name, &node));
            scope.add(&definition.name, &node);
        }
        scope
    }

    /// The names that a file of code can use.
    fn source_scope(&mut self, file: usize) -> Scope {
        let source = &self.tree.sources[file];
        let mut scope = self.imported(&source.path, &source.source.imports);
        for (name, library) in &source.source.uses {
            let node = self.type_in(library, name).or_else(|| self.type_in(&source.library, name));
            node.iter().for_each(|node| scope.add(name, node));
        }
        for (place, one) in source.source.types.iter().enumerate() {
            scope.add(&one.name, &Node::Type(file, place));
        }
        scope
    }

    /// What a word with the name of a module before it means; none where the word has none. Fields may follow on the
    /// name: the longest part of the word that means something counts.
    fn qualified(&self, scope: &Scope, word: &str) -> Option<Option<Node>> {
        let (first, rest) = word.split_once('.')?;
        let place = scope.modules.get(first)?;
        let rest: Vec<String> = rest.split('.').map(String::from).collect();
        let meaning = |last: usize| {
            let path = [place.path.as_slice(), &rest[..last]].concat();
            self.find(&Place { library: place.library.clone(), path }, &rest[last], LONGEST_WAY)
        };
        Some((0..rest.len()).rev().find_map(meaning))
    }

    /// What the words of a text mean in a scope.
    fn cited(&self, scope: &Scope, text: &str) -> Vec<Node> {
        let plain = |word: &str| scope.names.get(word.split('.').next()?).cloned();
        let meaning = |word: &str| self.qualified(scope, word).unwrap_or_else(|| plain(word));
        tokens::names(text).into_iter().filter_map(meaning).collect()
    }

    /// The words of definitions and contracts that their modules do not have, one line each.
    fn unfound(&self) -> Vec<String> {
        let specs = self.tree.specs.iter().zip(&self.specs);
        let defined =
            specs.flat_map(|(file, scope)| file.spec.definitions.iter().map(move |one| (&file.path, scope, &one.text)));
        let sources = self.tree.sources.iter().zip(&self.sources);
        let promised = sources
            .flat_map(|(file, scope)| file.source.functions.iter().map(move |one| (&file.path, scope, &one.contract)));
        let mut found = vec![];
        for (path, scope, text) in defined.chain(promised) {
            let lost = tokens::names(text).into_iter().filter(|word| self.qualified(scope, word) == Some(None));
            found.extend(lost.map(|word| format!("{path}: {word} is not found")));
        }
        found
    }

    /// What a definition or a type cites.
    fn next(&self, node: &Node) -> Vec<Node> {
        match node {
            Node::Definition(file, place) => {
                self.cited(&self.specs[*file], &self.tree.specs[*file].spec.definitions[*place].text)
            }
            Node::Type(file, place) => {
                self.cited(&self.sources[*file], &self.tree.sources[*file].source.types[*place].text)
            }
            Node::Kit(..) => vec![],
        }
    }

    /// What a text, a contract or a part of one, in a file of code cites.
    pub fn cited_in(&self, file: usize, text: &str) -> Vec<Node> {
        self.cited(&self.sources[file], text)
    }

    /// All that these rest on, themselves among them.
    pub fn closure(&self, roots: impl IntoIterator<Item = Node>) -> BTreeSet<Node> {
        let mut left: Vec<Node> = roots.into_iter().collect();
        let mut found = BTreeSet::new();
        while let Some(node) = left.pop() {
            if found.insert(node.clone()) {
                left.extend(self.next(&node));
            }
        }
        found
    }
}
