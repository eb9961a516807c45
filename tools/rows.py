#!/usr/bin/env python3
"""Makes the terms of crates/computed_examples from the worked examples.

Each examples/NAME.plan with an examples/NAME.out is a plan, whose first line is a comment that says what it shows, and
what a run of it writes. For each the script writes specs/NAME.antt, the plan, the lines and the report as terms, and the
proof that they come out by computation; and it writes src/lib.rt and specs/Lib.antt. tools/terms.py reads the texts.
Run it, and then `rt fmt` in crates/computed_examples.
"""
import pathlib
import re

from terms import Example, definition, fielded, items, listed, record

TOP = pathlib.Path(__file__).resolve().parent.parent
CRATE = TOP / "crates" / "computed_examples"

ALIASES = {
    "event": "boki_types.specs.declared.event.Event", "line": "boki_types.specs.declared.line.Line",
    "step": "boki_types.specs.declared.line.StepLine", "miss": "boki_types.specs.declared.line.Miss",
    "stmt": "boki_types.specs.declared.program.Stmt", "expr": "boki_types.specs.declared.expr.Expr",
    "op": "boki_types.specs.declared.expr.BinOp", "turn": "boki_types.specs.declared.turn.Turn",
    "trap": "lb_base.specs.declared.value.TrapKind",
}
NAMES = [
    ("std.specs.Prelude", ["pos", "negsuc", "List", "[]", "◌∷◌", "Some", "None", "true", "false", "codes"]),
    ("lb_base.specs.declared.value.Value.TheVariants", ["Int", "Text", "Nothing"]),
    ("lb_base.specs.declared.value.Mode.TheVariants", ["R", "W", "T"]),
    ("lb_base.specs.declared.value.Outcome.TheVariants", ["Good", "Trap"]),
    ("boki_types.specs.declared.plan.Plan", ["Plan"]),
    ("boki_types.specs.declared.event.Event", ["Event"]),
    ("boki_types.specs.declared.line.Line", ["Line"]),
    ("boki_types.specs.declared.turn.Report", ["Report"]),
    ("boki_types.specs.declared.program.Function", ["Function"]),
    ("boki_types.specs.declared.program.Stmt", ["Stmt"]),
    ("boki_machine.specs.Step", ["seqnum"]),
    ("computed_examples.specs.Computed", ["Computes", "sent", "tag", "one_by_one"]),
]

def uses(body, library=()):
    """The use lines for what the text names."""
    text = re.sub(r'"[^"]*"', "", re.sub(r"--.*", "", body))
    words = set(re.findall(r"(?<![\w.])\w+(?![\w.])|\[\]|∷", text))
    out = []
    for module, names in NAMES + [("computed_examples.specs.Functions", list(library))]:
        found = [name for name in names if name.strip("◌") in words]
        if found:
            out.append(f"use Rattle.{module}.{{{', '.join(found)}}}")
    for alias, module in ALIASES.items():
        if re.search(rf"(?<![\w.]){alias}\.[A-Z]", text):
            out.append(f"use Rattle.{module}.TheVariants as {alias}")
    return "\n".join(out)

def write(path, text):
    path.parent.mkdir(parents=True, exist_ok=True)
    path.write_text(text)

def functions_file(library):
    body = "".join(library[name] for name in library)
    write(CRATE / "specs" / "Functions.antt", "-- The functions that the examples share; tools/rows.py makes this file.\n" + uses(body) + "\n" + body)

def plan_term(example):
    """The term of a plan, a field a line."""
    fields = dict(
        setup=example.setup, objects=items(example.objects),
        program=record(functions=items(f"{name}_function" for name in example.names)), items="one_by_one events")
    return fielded(fields)

def spec_file(example, library):
    run = f"{example.module}Run"
    body = "".join([
        *(f.text() for f in example.functions if library.get(f.name) != f.text()),
        definition("events", "List Event", listed(example.events)),
        definition("plan", "Plan", plan_term(example)),
        definition("lines", "List Line", listed(example.lines)),
        definition("report", "Report", fielded(example.report)),
        definition(run, "Type 0", " Computes plan lines report"),
    ])
    shared = [f"{f.name}_function" for f in example.functions if library.get(f.name) == f.text()]
    head = f"-- {example.shows}.\n-- tools/rows.py makes this file from examples/{example.name}.plan and .out.\n"
    write(CRATE / "specs" / f"{example.module}.antt", head + uses(body, shared) + "\n" + body)

def proof_file(example):
    write(CRATE / "proofs" / example.name / "Answers.antt", f"""-- It comes out by computation.
use Rattle.std.proofs.Common.{{refl}}
use Rattle.boki_types.specs.declared.expr.Expr.TheBlock.{{hidden-the_row-Expr-0}}
use denote.Hole.Carrier.{{hidden}}
use Rattle.computed_examples.proofs.{example.name}.Goals as goal

pub returns : goal.returns
unfolding hidden-the_row-Expr-0 hidden
returns c = record {{ valid = refl; lines = refl; report = refl; executed = refl; each_attempt = refl }}
""")

def code_file(examples):
    uses = "".join(f"ghost use Rattle.computed_examples.specs.{e.module}.{{{e.module}Run}};\n" for e in examples)
    body = "".join(f"\n/// {e.shows}.\npub fn {e.name}()\n    ensures {{ {e.module}Run }}\n{{}}\n" for e in examples)
    head = ("//! The definitions of the machine and of the failure-free execution, computed on worked examples: each function has\n"
            "//! as its contract that the plan of that name gives the lines and the report that stand beside it in `examples/`.\n"
            "#![tactic(auto)]\n\nmod by_hand;\n\n")
    reexports = "\npub use by_hand::{illegal_turns, known_tags};\n"
    write(CRATE / "src" / "lib.rt", head + uses + reexports + body)

def main():
    examples = [Example(out.with_suffix(".plan")) for out in sorted((TOP / "examples").glob("*.out"))]
    texts = [f.text() for example in examples for f in example.functions]
    library = {f.name: f.text() for example in examples for f in example.functions if texts.count(f.text()) > 1}
    functions_file(library)
    for example in examples:
        spec_file(example, library)
        proof_file(example)
    code_file(examples)
    modules = ["Computed", "Functions", "ByHand"] + [example.module for example in examples]
    write(CRATE / "specs" / "Lib.antt", "".join(f"pub mod {module}\n" for module in modules))

main()
