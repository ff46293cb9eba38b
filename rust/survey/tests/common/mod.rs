//! A small tree in a temporary folder.
#![allow(dead_code, reason = "no test uses all of them")]
use std::path::PathBuf;

/// The crates of the tree: one of each family.
pub const CRATES: &str = "\
# words
numbers:

# rules
rule_add: numbers

# machines
machine: numbers rule_add

# doors
add: numbers rule_add machine

# claims
safety: numbers rule_add

# faces
quads: rule_add add
";

/// The words.
pub const NUMBERS: &str = "\
-- Whole numbers. Nothing else.
use Rattle.std.specs.Prelude.{ℕ, ◌+◌}

infixl 65 ◌⊕◌
-- the sum
abbrev pub ◌⊕◌ : ℕ → ℕ → ℕ
◌⊕◌ a b = a + b

-- used by code alone
abbrev pub spare : ℕ
spare = 0
";

/// The rule.
pub const RULE: &str = "\
-- The rule of `add`.
use Rattle.std.specs.Prelude.{ℕ}
use Rattle.numbers.specs.Numbers.{◌⊕◌}
use Rattle.rule_add.specs.declared.Answer.{Answer}
use Rattle.rule_add.specs.declared.Answer.TheVariants as answer

-- the answer
pub data Outcome : Type 0 where
  gives : ℕ → Outcome

module _ (limit : Limit) where
  -- the sum as an answer
  abbrev pub add_rule : ℕ → ℕ → Outcome
  add_rule a b = gives (a ⊕ b)

-- what bounds it
pub record Limit : Type 0 where
  pub most : ℕ
";

/// The door.
pub const ADD: &str = "\
// Adds.
use rule_add::Answer;
ghost use Rattle.std.specs.Prelude.{◌≡◌};
ghost use Rattle.rule_add.specs.Rule.{add_rule};

// The sum of two numbers.
pub fn add(a: u32, b: u32) -> Answer
    ensures { result ≡ add_rule
        a b }
{
    inner(a, b)
}
";

/// The face.
pub const QUADS: &str = "\
// The exports.
ghost use Rattle.rule_add.specs.Rule as rules;

// `add` for C.
#[unsafe(no_mangle)]
pub extern \"C\" fn quads_add(a: u32, b: u32) -> u32
    ensures { result ≡ rules.add_rule a b }
{
    add::add(a, b)
}
";

/// The claim.
pub const CLAIM: &str = "\
-- The claim.
use Rattle.rule_add.specs.Rule.{Outcome, gives}

-- what holds of a list
pub record Claim (o : Outcome) : Type 0 where
  pub holds : o ≡ gives 0
";

/// A tree in a folder of its own.
pub struct Tree {
    /// Its root.
    pub root: PathBuf,
}

impl Drop for Tree {
    fn drop(&mut self) {
        let _ = std::fs::remove_dir_all(&self.root);
    }
}

impl Tree {
    /// The small tree, in a folder of this name outside the repository, whose own files the prover would take it for.
    pub fn new(name: &str) -> Tree {
        let root = std::env::temp_dir().join(format!("survey-{}-{name}", std::process::id()));
        let _ = std::fs::remove_dir_all(&root);
        let tree = Tree { root };
        tree.put("crates.txt", CRATES).put("README.md", "# A tree\n").put("docs/ORDER.md", "See README.md.\n");
        tree.put("crates/numbers/specs/Numbers.antt", NUMBERS)
            .put("crates/numbers/specs/Lib.antt", "pub mod Numbers\n");
        tree.put("crates/rule_add/specs/Rule.antt", RULE).put("crates/rule_add/specs/Lib.antt", "pub mod Rule\n");
        tree.put("crates/rule_add/src/lib.rt", "// An answer.\npub enum Answer {\n    Done(u32),\n}\n");
        tree.put("crates/machine/specs/Steps.antt", "-- Steps.\nabbrev pub step : ℕ\nstep = 1\n");
        tree.put("crates/add/src/lib.rt", ADD).put("crates/quads/src/lib.rt", QUADS);
        tree.put("crates/safety/specs/Claim.antt", CLAIM);
        tree
    }

    /// Writes a file of the tree.
    pub fn put(&self, path: &str, text: &str) -> &Tree {
        let path = self.root.join(path);
        std::fs::create_dir_all(path.parent().unwrap()).unwrap();
        std::fs::write(path, text).unwrap();
        self
    }

    /// The text of a file of the tree.
    pub fn get(&self, path: &str) -> String {
        std::fs::read_to_string(self.root.join(path)).unwrap()
    }
}
