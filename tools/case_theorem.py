#!/usr/bin/env python3
"""Writes theorems on runs: that the definitions of the machine give certain printed lines, each proved by computing.

    python3 tools/case_theorem.py LIST > FILE.antt

Each line of LIST is a theorem, of these words with one blank between them:

    NAME IMAGE INJECTIONS LINES run direct N
    NAME IMAGE INJECTIONS LINES run deferred N
    NAME IMAGE INJECTIONS LINES both N

A line that begins with `#` is a comment on the theorem behind it. NAME is the theorem's name. IMAGE is a file with a binary image
of version 2 (`ucos3 image` writes one), INJECTIONS a file with lines as they stand behind `.inject`, without a fault, and LINES a
file with the lines that the command writes. FILE.antt goes into the proofs/ of machine_model, or of a crate that stands on it;
where the lines are others, the check refuses the theorem. Runs of up to some thousand raw steps are cheap. The gate does not run
this.
"""
import re
import struct
import sys
from pathlib import Path
from typing import Dict, Iterable, List, NamedTuple, Tuple

KINDS = ["Sem", "Queue", "Flags", "Mutex", "OneShot", "Periodic"]
SETTINGS = ["isr_limit", "defer_size", "pool", "tmr_div", "round_robin", "quanta", "tick_prio", "tmr_prio", "tmr_sp", "insert"]
COUNTS = struct.Struct("<4sHHIIHHHH")
NAMED_WORDS = struct.Struct("<16s5I")
FOUR_WORDS = struct.Struct("<4I")

HEADER = """\
-- Runs and what they print.
use Rattle.std.specs.Prelude.{ℕ, ◌++◌, Bool, true, false, codes, decimal}
use Rattle.std.specs.Fmt.{digits}
use Rattle.std.proofs.Common.{◌≡◌, refl, List, [], ◌∷◌}
use Rattle.kern_base.specs.declared.kinds.Kind.TheVariants.{Sem, Queue, Flags, Mutex, OneShot, Periodic}
use Rattle.kern_base.specs.declared.kinds.Method.TheVariants.{Direct, Deferred}
use Rattle.kern_model.specs.Services.{cost, serves_all}
use Rattle.rv32_isa.specs.Decoded.{decoded}
use Rattle.app_image.specs.declared.records.TaskDef.{TaskDef}
use Rattle.app_image.specs.declared.records.ObjDef.{ObjDef}
use Rattle.app_image.specs.declared.records.VectorDef.{VectorDef}
use Rattle.app_image.specs.declared.settings.Config.{Config}
use Rattle.app_image.specs.Image.{ImageRecord}
use Rattle.inject_list.specs.Lists.{ListRecord}
use Rattle.inject_list.specs.declared.lists.Injection.{Injection}
use Rattle.inject_list.specs.declared.lists.Look.{Look}
use Rattle.inject_list.specs.declared.lists.Moment.TheVariants.{Task, Step}
use Rattle.inject_list.specs.declared.lists.Seen.TheVariants.{Obj, Ready}
use Rattle.machine_model.specs.Run.{Run, run, run_text, history}
use Rattle.machine_model.specs.Premises.{premise_lines, is_broken}

-- what both runs print, and whether a premise is broken
abbrev both_text : ImageRecord → Run → Run → List ℕ × Bool
both_text image direct deferred = (
  codes "method direct\\n" ++ (history image direct ++ (codes "method deferred\\n" ++ (history image deferred
      ++ (premise_lines image deferred ++ (codes "raw " ++ (decimal direct.last.s ++ (codes " " ++ (decimal deferred.last.s ++ codes "\\n")))))))),
  is_broken deferred,
)

abbrev both_texts : ImageRecord → ListRecord → ℕ → List ℕ × Bool
both_texts image l n = both_text image (run serves_all Direct image l n) (run serves_all Deferred image l n)
"""


class Image(NamedTuple):
    """The parts of a binary image, each already as a term, and the names of its objects."""
    term: str
    objects: List[bytes]


def text(codes: bytes) -> str:
    quoted = codes.decode("ascii").replace("\\", "\\\\").replace('"', '\\"').replace("\n", "\\n")
    return f'codes "{quoted}"'


def items(terms: Iterable[str]) -> str:
    return "".join(f"{term} ∷ " for term in terms) + "[]"


def numbers(values: Iterable[int]) -> str:
    return items(str(value) for value in values)


def record(**fields: object) -> str:
    return "record { " + "; ".join(f"{name} = {value}" for name, value in fields.items()) + " }"


def task(fields: tuple) -> str:
    name, entry, sp, prio, quanta, qsize = fields
    return record(name=text(name.rstrip(b"\0")), entry=entry, prio=prio, quanta=quanta, qsize=qsize, sp=sp, line=0)


def an_object(fields: tuple) -> str:
    name, kind, *content = fields
    return record(name=text(name.rstrip(b"\0")), kind=KINDS[kind - 1], f=numbers(content), line=0)


def vector(fields: tuple) -> str:
    name, level, entry, sp = fields
    return record(number=name, level=level, entry=entry, sp=sp, line=0)


def read_image(data: bytes) -> Image:
    magic, version, _, code, ram, tasks, objects, vectors, _ = COUNTS.unpack_from(data)
    if magic != b"UC3I" or version != 2:
        raise ValueError("no binary image of version 2")
    at = COUNTS.size

    def take(shape: struct.Struct, count: int) -> List[tuple]:
        nonlocal at
        start, at = at, at + shape.size * count
        return list(shape.iter_unpack(data[start:at]))

    def words(count: int) -> List[int]:
        return [word for (word,) in take(struct.Struct("<I"), count)]

    config = record(**dict(zip(SETTINGS, words(len(SETTINGS)))))
    task_rows, object_rows, vector_rows = take(NAMED_WORDS, tasks), take(NAMED_WORDS, objects), take(FOUR_WORDS, vectors)
    term = record(tasks=items(map(task, task_rows)), objects=items(map(an_object, object_rows)),
                  vectors=items(map(vector, vector_rows)), code=numbers(words(code)), ram=numbers(words(ram)), config=config)
    return Image(term, [row[0].rstrip(b"\0") for row in object_rows])


def number(word: str) -> int:
    return int(word, 16 if "x" in word else 10)


def injection(kind: str, moment: int, rest: List[str]) -> str:
    words = [number(word) % 2 ** 32 for word in rest[1:]]
    return record(moment=f"{kind.capitalize()} {moment}", vector=number(rest[0]), words=numbers((words + [0] * 4)[:4]), count=len(words))


def look(moment: int, what: str, image: Image) -> str:
    if what[0].isdigit():
        return record(at=moment, what=f"Ready (record {{ 0 = {number(what)} }})")
    return record(at=moment, what=f"Obj (record {{ 0 = {image.objects.index(what.encode())} }})")


def read_list(lines: str, image: Image) -> str:
    """The list of the injections and looks of some lines."""
    injections, looks = [], []
    for line in lines.splitlines():
        words = re.findall(r"[^\s,]+", line.partition("#")[0])
        if not words:
            continue
        kind, moment, rest = words[0], number(words[1]), words[2:]
        if kind == "look":
            looks.append(look(moment, rest[0], image))
        else:
            injections.append(injection(kind, moment, rest))
    return record(injections=items(injections), looks=items(looks))


def statement(words: List[str], case: str, lines: bytes) -> str:
    if words[0] == "run":
        return f"run_text serves_all {words[1].capitalize()} {case} {int(words[2])} ≡ {text(lines)}"
    broken = re.search(rb"^P[1-5] broken", lines, re.MULTILINE) is not None
    return f"both_texts {case} {int(words[1])} ≡ ({text(lines)}, {str(broken).lower()})"


def theorem(comment: str, name: str, case: str, words: List[str], lines: bytes) -> str:
    return f"\n{comment}{name} : {statement(words, case, lines)}\nunfolding digits cost decoded\n{name} = refl\n"


def definitions(at: int, image: Image, injections: str) -> str:
    """The image and the list at this place."""
    return (f"\nabbrev image_{at} : ImageRecord\nimage_{at} = {image.term}\n"
            f"\nabbrev list_{at} : ListRecord\nlist_{at} = {read_list(injections, image)}\n")


def main() -> None:
    if len(sys.argv) != 2:
        sys.exit("usage: python3 tools/case_theorem.py LIST > FILE.antt")
    listed = Path(sys.argv[1])
    parts: List[str] = [HEADER]
    cases: Dict[Tuple[str, str], int] = {}
    comment = ""
    for line in listed.read_text().splitlines():
        if line.startswith("#"):
            comment += f"--{line[1:]}\n"
            continue
        name, image, injections, lines, *words = line.split(" ")
        if (image, injections) not in cases:
            cases[image, injections] = len(cases)
            parts.append(definitions(len(cases) - 1, read_image((listed.parent / image).read_bytes()), (listed.parent / injections).read_text()))
        at = cases[image, injections]
        parts.append(theorem(comment, name, f"image_{at} list_{at}", words, (listed.parent / lines).read_bytes()))
        comment = ""
    sys.stdout.write("".join(parts))


if __name__ == "__main__":
    main()
