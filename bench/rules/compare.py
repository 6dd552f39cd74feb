#!/usr/bin/env python3
"""Compares the definitions of valid graphs and their costs with an independent reading of the rules, by proof.

    bench/rules/compare.py [FOLDER]

cases.tar.gz holds random problems, each with a graph, and what that reading says of them: whether each rule is kept, each
demand in its order, the 31 numbers, and the first broken rule; it is older than the virtuals of edges, which are named as for a
lock file of version 1. Each is a theorem by computation. They are put into a scratch repository (FOLDER, or a temporary one) over
copies of this repository's crates, as a crate `compared`, and proved there, apart from the gate. The last line says how many theorems there are. It takes some minutes where nothing of the crates is kept.
"""
import os
import re
import shutil
import subprocess
import sys
import tarfile
import tempfile

HERE = os.path.dirname(os.path.abspath(__file__))
TOP = os.path.dirname(os.path.dirname(HERE))

MAKE = """-- Words to write cases with, and what is asked of each.
use Rattle.std.specs.Prelude.{ℕ, Bool, List, [], ◌∷◌, ◌++◌, map, Option}
use Rattle.version_order.specs.declared.item.Item.{Item as Range}
use Rattle.variant_values.specs.declared.kind.VariantKind.{VariantKind}
use Rattle.spec_grammar.specs.declared.part.Part.{Part}
use Rattle.spec_grammar.specs.declared.part.Spec.{Spec}
use Rattle.spec_grammar.specs.declared.part.TargetItem.{TargetItem}
use Rattle.target_table.specs.declared.entry.TargetEntry.{TargetEntry}
use Rattle.graph_core.specs.Graphs.{Text, Content, is_graph}
use Rattle.graph_core.specs.declared.node.Node.{Node}
use Rattle.graph_core.specs.declared.node.Edge.{Edge}
use Rattle.graph_core.specs.declared.node.Kinds.{Kinds}
use Rattle.graph_core.specs.declared.node.Origin.{Origin}
use Rattle.graph_core.specs.declared.node.Compiler.{Compiler}
use Rattle.site_settings.specs.declared.settings.Settings.{Settings}
use Rattle.site_settings.specs.declared.settings.CompilerEntry.{CompilerEntry}
use Rattle.site_settings.specs.declared.settings.PackageEntry.{PackageEntry}
use Rattle.site_settings.specs.declared.settings.ExternalEntry.{ExternalEntry}
use Rattle.recipe_data.specs.declared.recipe.Recipe.{Recipe}
use Rattle.recipe_data.specs.declared.recipe.VersionRow.{VersionRow}
use Rattle.recipe_data.specs.declared.recipe.VariantRow.{VariantRow}
use Rattle.recipe_data.specs.declared.recipe.DependRow.{DependRow}
use Rattle.recipe_data.specs.declared.recipe.ProvideRow.{ProvideRow}
use Rattle.recipe_data.specs.declared.recipe.ConflictRow.{ConflictRow}
use Rattle.recipe_data.specs.declared.recipe.RequireRow.{RequireRow}
use Rattle.reuse_db.specs.declared.record.Dependency.{Dependency}
use Rattle.reuse_db.specs.declared.record.Record.{Record}
use Rattle.problem.specs.Problems.{Problem}
use Rattle.problem.specs.Demands.{demands}
use Rattle.problem.specs.Assembled.{is_assembled}
use Rattle.graph_rules.specs.Named.{named}
use Rattle.graph_rules.specs.Valid.{keeps, keeps_demand}
use Rattle.graph_rules.specs.declared.rule.Rule.{Rule}
use Rattle.graph_rules.specs.declared.rule.Rule.TheVariants as which
use Rattle.graph_rules.specs.Verdict.{verdict}
use Rattle.graph_rules.specs.declared.rule.Verdict.{Verdict}
use Rattle.graph_rules.specs.Costs.{vector}

abbrev pub part : Option Text → Option (List Range) → List (Text × List Text) → Option (Text × Option (List Range)) → Option Text → Option Text → Option (List TargetItem) → Part
part n v vs c p o t = record { name = n; versions = v; variants = vs; compiler = c; platform = p; os = o; targets = t }

abbrev pub target : Option Text → Option Text → Bool → TargetItem
target l h r = record { low = l; high = h; range = r }

abbrev pub spec : Part → List Part → Spec
spec t b = record { top = t; below = b }

abbrev pub kinds : Bool → Bool → Bool → Kinds
kinds b l r = record { build = b; link = l; run = r }

abbrev pub version : Text → Bool → Bool → ℕ → VersionRow
version t p d n = record { version = t; preferred = p; deprecated = d; number = n }

abbrev pub variant : Text → VariantKind → List Text → List Text → List Spec → ℕ → VariantRow
variant n k vs d w m = record { name = n; kind = k; values = vs; default = d; when = record { specs = w }; number = m }

abbrev pub depend : Part → Kinds → List Spec → ℕ → DependRow
depend p k w n = record { part = p; kinds = k; when = record { specs = w }; number = n }

abbrev pub provide : Text → Option (List Range) → List Spec → ℕ → ProvideRow
provide t v w n = record { name = t; versions = v; when = record { specs = w }; number = n }

abbrev pub conflict : Spec → List Spec → ℕ → ConflictRow
conflict s w n = record { spec = s; when = record { specs = w }; number = n }

abbrev pub require : List Spec → Bool → List Spec → ℕ → RequireRow
require ss o w n = record { specs = ss; one_of = o; when = record { specs = w }; number = n }

abbrev pub recipe : Text → List VersionRow → List VariantRow → List DependRow → List ProvideRow → List ConflictRow → List RequireRow → Recipe
recipe n v vs d p c r = record { name = n; versions = v; variants = vs; depends = d; provides = p; conflicts = c; requirements = r }

abbrev pub compiler : Text → Text → Compiler
compiler n v = record { name = n; version = v }

abbrev pub settings : Text → List Text → List TargetEntry → List CompilerEntry → List (Text × List Text) → List PackageEntry → Settings
settings p o t c v ps = record { platform = p; conflict_budget = 7; os = o; targets = t; compilers = c; providers = v; provided_together = false; packages = ps }

abbrev pub entry : Text → List Text → TargetEntry
entry n p = record { name = n; parents = p }

abbrev pub compiler_entry : Compiler → Option (List Text) → Option (List Text) → CompilerEntry
compiler_entry c o t = record { compiler = c; os = o; targets = t }

abbrev pub package_entry : Text → List (List Range) → Bool → List ExternalEntry → PackageEntry
package_entry n v b e = record { name = n; versions = v; buildable = b; externals = e; require = [] }

abbrev pub external : Text → List (Text × List Text) → Option Compiler → Option Text → Option Text → Text → ExternalEntry
external v vs c o t p = record { version = v; variants = vs; compiler = c; os = o; target = t; prefix = p }

-- the cases were written before dependencies named virtuals
abbrev pub dependency : Text × Kinds → Dependency
dependency d = record { hash = d.0; kinds = d.1; virtuals = [] }

abbrev pub entry_of_db : Text → Text → Text → List (Text × List Text) → Option Compiler → Text → Text → Option Text → List (Text × Kinds) → Record
entry_of_db h n v vs c o t e d = record { hash = h; name = n; version = v; variants = vs; compiler = c; os = o; target = t; external = e; dependencies = map dependency d }

abbrev pub problem : List Recipe → Settings → List Record → List Spec → Problem
problem r s d ss = record { recipes = r; settings = s; database = d; roots = ss }

abbrev pub node : Text → Text → List (Text × List Text) → Option Compiler → Text → Text → Option Text → Origin → Node
node n v vs c o t p r = record { name = n; version = v; variants = vs; compiler = c; os = o; target = t; prefix = p; origin = r }

abbrev pub edge : Text → Text → Kinds → Edge
edge p c k = record { parent = p; child = c; kinds = k; virtuals = [] }

abbrev pub graph : List Node → List Edge → List (Text × Text) → Content
graph n e p = record { nodes = n; edges = e; providers = p }

pub record Answers : Type 0 where
  pub is_assembled : Bool
  pub is_graph : Bool
  pub rules : List Bool
  pub demands : List Bool
  pub vector : List ℕ
  pub verdict : Verdict

-- all but Required and Together, which the cases were written before: their settings ask for neither
abbrev pub older_rules : List Rule
older_rules =
    which.Root ∷ which.Buildable ∷ which.Version ∷ which.Variant ∷ which.Compiler ∷ which.Machine ∷ which.Edge ∷ which.ExtraEdge ∷ which.Constraint
    ∷ which.Conflict ∷ which.Requirement ∷ which.Kept ∷ which.Provider ∷ which.UnusedProvider ∷ which.Cycle ∷ which.Unreachable ∷ []

abbrev pub answered : Problem → Content → Answers
answered p g = record { is_assembled = is_assembled p; is_graph = is_graph g; rules = map (λ rule. keeps rule p g) older_rules; demands = map (keeps_demand p g) (demands p); vector = vector p g; verdict = verdict p g }

-- their edges name what those of a lock file of version 1 name
abbrev pub answers : Problem → Content → Answers
answers p g = answered p (named p g)
"""

# what the cases were written over, and what stands for it here
NAMES = [
    ("Rattle.graph_sketch.specs.Graphs.{Graph}", "Rattle.graph_core.specs.Graphs.{Content as Graph}"),
    ("Rattle.graph_sketch.specs.declared.node", "Rattle.graph_core.specs.declared.node"),
    ("Rattle.problem_sketch.specs.declared.problem.Problem.{Problem}", "Rattle.problem.specs.Problems.{Problem}"),
    ("Rattle.problem_sketch.specs.declared.rule", "Rattle.graph_rules.specs.declared.rule"),
    ("Rattle.problem_rows.proofs.Computing", "Rattle.rule_rows.proofs.Computing"),
]


def needed(lines, name, found):
    """The crates of the repository that a crate stands on, and itself."""
    if name in lines and name not in found:
        found.add(name)
        for other in lines[name].split(":", 1)[1].split():
            needed(lines, other, found)
    return found


def main():
    work = sys.argv[1] if len(sys.argv) > 1 else tempfile.mkdtemp()
    lines = {}
    for line in open(os.path.join(TOP, "crates.txt")):
        if ":" in line and not line.startswith("#"):
            lines[line.split(":")[0].split()[0]] = line.strip()
    crates = sorted(needed(lines, "rule_rows", set()))
    shutil.copy(os.path.join(TOP, "HANDLES"), work)
    for name in crates:
        target = os.path.join(work, "crates", name)
        shutil.rmtree(target, ignore_errors=True)
        shutil.copytree(os.path.join(TOP, "crates", name), target)
    below = lines["rule_rows"].split(":", 1)[1]
    with open(os.path.join(work, "crates.txt"), "w") as out:
        out.writelines(lines[name] + "\n" for name in crates)
        out.write("compared: rule_rows" + below + "\n")

    crate = os.path.join(work, "crates", "compared")
    shutil.rmtree(crate, ignore_errors=True)
    for folder in ("src", "specs", "proofs"):
        os.makedirs(os.path.join(crate, folder))
    with open(os.path.join(crate, "src", "lib.rt"), "w") as out:
        out.write("//! Random rows.\n#![tactic(auto)]\n\n/// Nothing.\npub fn compared() {}\n")
    with open(os.path.join(crate, "specs", "Make.antt"), "w") as out:
        out.write(MAKE)
    with open(os.path.join(crate, "specs", "Lib.antt"), "w") as out:
        out.write("pub mod Make\n")
    modules, theorems = [], 0
    with tarfile.open(os.path.join(HERE, "cases.tar.gz")) as archive:
        for member in archive.getmembers():
            base = os.path.basename(member.name)
            if not base.startswith("Case"):
                continue
            text = archive.extractfile(member).read().decode()
            for old, new in NAMES:
                text = text.replace(old, new)
            theorems += len(re.findall(r"= refl$", text, re.M))
            modules.append(base[: -len(".antt")])
            with open(os.path.join(crate, "proofs", base), "w") as out:
                out.write(text)
    with open(os.path.join(crate, "proofs", "Lib.antt"), "w") as out:
        out.writelines("pub mod " + name + "\n" for name in sorted(modules))
    done = subprocess.run(["rt", "check", "--jobs", "2"], cwd=crate, capture_output=True, text=True)
    told = done.stdout + done.stderr
    wrong = sorted(set(re.findall(r"proofs/(Case\d+)", told)))
    verdict = [line for line in told.splitlines() if line.startswith("logic=")]
    print("\n".join(verdict[-1:]))
    print(f"{theorems} theorems of {len(modules)} problems; named in the log: {', '.join(wrong) or 'none'}")
    with open(os.path.join(work, "log"), "w") as out:
        out.write(told)
    sys.exit(done.returncode)


main()
