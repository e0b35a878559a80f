//! The theorems that docs/PROOFS.md names say what docs/statements.txt has: none is weakened unseen.

use check::program::root;
use check::statements::{stored, theorems, written, Named, Proofs, COMMAND, FILE};
use std::collections::{BTreeMap, BTreeSet};
use std::fs;

fn read(path: &str) -> String {
    fs::read_to_string(root().join(path)).unwrap_or_else(|error| panic!("{path}: {error}"))
}

/// A text without its layout.
fn folded(text: &str) -> String {
    text.split_whitespace().collect::<Vec<_>>().join(" ")
}

fn named() -> Vec<Named> {
    let named = theorems(&read("docs/PROOFS.md"));
    assert!(named.len() > 140, "{} theorems", named.len());
    named
}

fn proofs() -> Proofs {
    Proofs::new(root().join("crates"))
}

/// What a part says of each name; two of a file that have the same name are one.
fn by_name(part: Vec<(Named, String)>) -> BTreeMap<Named, String> {
    let mut names: BTreeMap<Named, String> = BTreeMap::new();
    for (name, text) in part {
        *names.entry(name).or_default() += &format!("\n{text}\n");
    }
    names
}

#[test]
fn the_statements_are_those_stored() {
    let named = named();
    let now = proofs().parts(&named).map(by_name);
    let missing = named.iter().filter(|theorem| !now[0].contains_key(theorem));
    let mut wrong: Vec<String> = missing
        .map(|(file, name)| {
            format!("{file}: {name}\n\nis in docs/PROOFS.md, and not there, or twice\n")
        })
        .collect();
    for (now, stored) in now.into_iter().zip(stored(&read(FILE)).map(by_name)) {
        let names: BTreeSet<&Named> = now.keys().chain(stored.keys()).collect();
        for named in names {
            let text = |part: &BTreeMap<Named, String>| {
                part.get(named).cloned().unwrap_or("\nnothing\n".into())
            };
            let (now, stored) = (text(&now), text(&stored));
            if folded(&now) != folded(&stored) {
                let (file, name) = named;
                wrong.push(format!(
                    "{file}: {name}\n\n{FILE} has\n{stored}\nand the proofs have\n{now}"
                ));
            }
        }
    }
    assert!(
        wrong.is_empty(),
        "{}\nIf this is what shall be proved, `{COMMAND}` writes the file anew; the commit says why.",
        wrong.join("\n")
    );
}

/// Every statement with a hypothesis more that nothing meets is another one, and so is one whose modules have such a parameter.
#[test]
fn a_weaker_statement_is_another() {
    let mut before = proofs();
    let (mut types, mut modules) = (0, 0);
    for theorem in named() {
        let (file, name) = &theorem;
        let source = read(&format!("crates/{file}"));
        let own = before.statement(&theorem).unwrap();
        let differs = |text: String| {
            let mut after = proofs();
            after.take(file, &text);
            let now = after.statement(&theorem).unwrap();
            assert_ne!(folded(&now), folded(&own), "{file}: {name}");
        };
        let head = format!("{name} :");
        let weaker = source.lines().map(|line| {
            let declared = line.trim_start().trim_start_matches("pub ");
            match declared.starts_with(&head) {
                true => line.replacen(" :", " : ⊥ →", 1),
                false => line.to_string(),
            }
        });
        differs(weaker.collect::<Vec<_>>().join("\n"));
        types += 1;
        if own.contains("\n    under ") {
            differs(source.replace("module _ ", "module _ (never : ⊥) "));
            modules += 1;
        }
    }
    assert!(types > 140 && modules > 20, "{types} {modules}");
}

const SOURCE: &str = "\
use Rattle.std.specs.Prelude.{ℕ, ◌+◌, ◌<◌, ◌*◌}
use Rattle.other.proofs.Words.{Far as Away, near}
use Rattle.own.specs.Rule.{next as step}

limit : ℕ
limit = 5

-- a word
abbrev pub Close : ℕ → Type 0
Close n = n < limit

unused : ℕ
unused = 6

module _ (n : ℕ)
    (some : 0 < n) where
  abbrev twice : ℕ
  twice = n + n

  module _ (m : ℕ) where
    -- what it says
    pub bound : Close m → Away twice
        → step m ≡ n   -- and that
    unfolding limit
    bound c a = proved c

    other : Close unused
    other = near

plain : step 0 ≡ 0
plain = refl

module _ (k : ℕ) where
  plainer : k ≡ k
  plainer = refl
";

const WORDS: &str = "\
use Rattle.std.specs.Prelude.{◌<◌}
use elsewhere.Numbers.{ℕ}

module _ (x : ℕ) where
  pub Far : ℕ → Type 0
  Far n = x < n

near : ℕ
near = 0
";

fn own(source: &str, words: &str) -> Proofs {
    let mut proofs = proofs();
    proofs.take("own/proofs/Own.antt", source);
    proofs.take("other/proofs/Words.antt", words);
    proofs
}

/// One of the first source.
fn theorem(name: &str) -> Named {
    ("own/proofs/Own.antt".into(), name.into())
}

/// All that belongs to a statement.
fn said(source: &str, words: &str, name: &str) -> Option<String> {
    let mut proofs = own(source, words);
    proofs.statement(&theorem(name))?;
    Some(written(&proofs.parts(&[theorem(name)])))
}

#[test]
fn what_belongs_to_a_statement() {
    let bound = "
own/proofs/Own.antt

bound : Close m → Away twice
    → step m ≡ n
    under (n : ℕ)
        (some : 0 < n)
    under (m : ℕ)

# The words of proofs/ that these are made with.

own/proofs/Own.antt

limit : ℕ
limit = 5

abbrev Close : ℕ → Type 0
Close n = n < limit

abbrev twice : ℕ
twice = n + n
    under (n : ℕ)
        (some : 0 < n)

other/proofs/Words.antt

Far : ℕ → Type 0
Far n = x < n
    under (x : ℕ)

# Where the other names of both come from.

own/proofs/Own.antt

use Rattle.own.specs.Rule.{next as step}
use Rattle.std.specs.Prelude.{ℕ, ◌+◌, ◌<◌}

other/proofs/Words.antt

use Rattle.std.specs.Prelude.{◌<◌}
use elsewhere.Numbers.{ℕ}
";
    let text = said(SOURCE, WORDS, "bound").unwrap();
    assert!(text.ends_with(bound), "{text}");
    // What was written is read.
    let parts = own(SOURCE, WORDS).parts(&[theorem("bound")]);
    assert_eq!(stored(&text), parts);

    let mut proofs = own(SOURCE, WORDS);
    let mut statement = |name: &str| proofs.statement(&theorem(name));
    assert_eq!(statement("plain").unwrap(), "plain : step 0 ≡ 0");
    let plainer = "plainer : k ≡ k\n    under (k : ℕ)";
    assert_eq!(statement("plainer").unwrap(), plainer);
    assert_eq!(statement("absent"), None);
    let twice = format!("{SOURCE}\nplain : step 1 ≡ 1\nplain = refl\n");
    assert_eq!(said(&twice, WORDS, "plain"), None);
}

/// A field of a record is none of the words above it.
#[test]
fn fields_are_no_words() {
    let record = "
pub record Both (n : ℕ) : Type 0 where
  pub limit : ℕ
  pub below : Close n

both : Both 0
both = proved
";
    let [_, words, _] = own(&format!("{SOURCE}{record}"), WORDS).parts(&[theorem("both")]);
    let names: Vec<&str> = words.iter().map(|((_, name), _)| &name[..]).collect();
    // Only through Close does the number belong to it.
    assert_eq!(names, ["limit", "Close", "Both"]);
    let other = SOURCE.replace("n < limit", "n < 5") + record;
    let [_, words, _] = own(&other, WORDS).parts(&[theorem("both")]);
    let names: Vec<&str> = words.iter().map(|((_, name), _)| &name[..]).collect();
    assert_eq!(names, ["Close", "Both"]);
}

/// What may change under a statement, and what may not.
#[test]
fn what_makes_another_statement() {
    let own = folded(&said(SOURCE, WORDS, "bound").unwrap());
    for (old, new, same) in [
        ("    -- what it says\n", "", true),
        ("   -- and that", "", true),
        ("Away twice\n        →", "Away twice →", true),
        ("pub bound", "bound", true),
        ("unfolding limit", "unfolding limit twice", true),
        ("proved c", "proved a c", true),
        ("unused = 6", "unused = 7", true),
        ("step m ≡ n", "step m ≤ n", false),
        ("bound : ", "bound : ⊥ → ", false),
        ("bound : ", "bound : (c : ℕ) → ", false),
        ("(some : 0 < n)", "(some : 1 < n)", false),
        ("module _ (m : ℕ)", "module _ {m : ℕ}", false),
        ("Close n = n <", "Close n = n ≤", false),
        ("limit = 5", "limit = 4", false),
        ("twice = n + n", "twice = n", false),
        ("Far as Away", "near as Away", false),
        ("Rule.{next as", "Other.{next as", false),
        ("{next as", "{last as", false),
        ("◌<◌, ◌*◌", "◌<◌", true),
    ] {
        assert_eq!(SOURCE.matches(old).count(), 1, "{old}");
        let now = said(&SOURCE.replace(old, new), WORDS, "bound").unwrap();
        assert_eq!(folded(&now) == own, same, "{old}: {now}");
    }
    for (old, new) in [
        ("x < n", "n < x"),
        ("(x : ℕ)", "(x y : ℕ)"),
        ("elsewhere", "nowhere"),
    ] {
        let now = said(SOURCE, &WORDS.replace(old, new), "bound").unwrap();
        assert_ne!(folded(&now), own, "{old}");
    }
}
