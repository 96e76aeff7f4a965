"""What bench/rules, bench/certificates and bench/verdicts share: a program over a copy of the crates and its runs, sources of C, and
tables.

A program's words are cases, each of the same number of words, a file's name among them. For each case it prints lines `NAME VALUE`
and then a line `end`. Proved and built, it runs once for each case; where it is only tried, once for all.
"""
import collections
import contextlib
import os
import re
import subprocess
import tempfile

TOP = os.path.dirname(os.path.dirname(os.path.realpath(__file__)))

Answer = collections.namedtuple("Answer", "lines peak")
Answer.__doc__ = "The lines of a case, by their names, and the most memory of its run in bytes, 0 where that is not known."


class Program:
    """A program in its folder, outside the repository. The files that its words name lie there too."""

    def __init__(self, folder, is_tried):
        self.folder = folder
        self.is_tried = is_tried

    def put(self, name, text):
        with open(f"{self.folder}/{name}", "w", encoding="ascii") as it:
            it.write(text)

    def answers(self, cases):
        """The answers to these cases, each as it comes."""
        if self.is_tried:
            words = [str(word) for case in cases for word in case]
            yield from parted(output_of(["rt", "try", "--steps", "1000", "--seconds", "3000", "--", *words], self.folder)[0], 0)
            return
        for case in cases:
            output, peak = output_of([f"{self.folder}/out/bench_program", *map(str, case)], self.folder)
            yield from parted(output, peak)


def output_of(words, folder):
    """What a command prints, and the most memory of its process in bytes."""
    with subprocess.Popen(words, cwd=folder, stdout=subprocess.PIPE, text=True) as it:
        output = it.stdout.read()
        _, status, usage = os.wait4(it.pid, 0)
        it.returncode = os.WEXITSTATUS(status) if os.WIFEXITED(status) else 1
    if it.returncode != 0:
        raise SystemExit(f"{words[0]} ended with {it.returncode}")
    return output, usage.ru_maxrss * 1024


def parted(output, peak):
    lines = {}
    for line in output.splitlines():
        if line == "end":
            yield Answer(lines, peak)
            lines = {}
        else:
            name, _, value = line.partition(" ")
            lines[name] = value


@contextlib.contextmanager
def made(text, crates, is_tried):
    """The program of a text over these crates, on a copy of the repository's: proved and built, or to be tried with no proof."""
    with tempfile.TemporaryDirectory() as work:
        files = subprocess.run(["git", "ls-files", "-z", "crates.txt", "HANDLES", "crates"], cwd=TOP, check=True, capture_output=True).stdout
        packed = subprocess.run(["tar", "-cf", "-", "--null", "-T", "-"], cwd=TOP, input=files, check=True, capture_output=True).stdout
        subprocess.run(["tar", "-xf", "-", "-C", work], input=packed, check=True)
        with open(f"{work}/crates.txt", "a", encoding="utf-8") as it:
            it.write(f"bench_program: {crates}\n")
        folder = f"{work}/crates/bench_program"
        os.makedirs(f"{folder}/src")
        with open(f"{folder}/src/main.rt", "w", encoding="utf-8") as it:
            it.write(text)
        if not is_tried:
            subprocess.run(["rt", "run"], cwd=folder, check=True)
        yield Program(folder, is_tried)


# Parts of programs. A program's root line, its `use` lines and its own functions stand before them.

WORDS = r"""
/// The words that the program is given.
fn given_words(rt: &HostRuntime) -> io::Result<Vec<String>> {
    let mut words = Vec::new(rt.alloc());
    for word in env::args(rt)?.skip(1) {
        words.push(word)?;
    }
    Ok(words)
}

/// The bytes of a source.
fn bytes_of(rt: &HostRuntime, name: &str) -> Option<Vec<u8>> {
    let mut files = StdFiles::new(rt);
    read_file(rt.alloc(), &mut files, name, 4194304).ok()
}
"""

PROGRAM_OF = r"""
/// The program of a source.
fn program_of(rt: &HostRuntime, name: &str) -> Option<Program> {
    let bytes = bytes_of(rt, name)?;
    if bytes.len() > 4194304 {
        return None;
    }
    let typed = typed_source(rt.alloc(), bytes.as_slice()).ok()?;
    program(rt.alloc(), typed).ok()
}
"""

WHOLE_SCOPE = r"""
/// The scope of all names.
fn whole_scope(alloc: Global) -> Scope {
    let after = ConstraintName {
        proc: 0,
        place: 0,
        edge: 0,
        rule: 0,
        slot: 0,
        field: 0,
        other: 0,
    };
    Scope {
        keep: Names { items: Vec::new(alloc) },
        after,
        without: Names { items: Vec::new(alloc) },
    }
}
"""

# Sources of C. Each is of the language that is read and within its limits.


def main_of(lines):
    return "int main(void) {\n" + "".join(f"{line}\n" for line in lines) + "return 0;\n}\n"


def handed_on(statements, pointers):
    """One object after the other, each handed on through all pointers and then freed."""
    turn = ["p0=malloc(8);", *(f"p{k}=p{k - 1};" for k in range(1, pointers)), f"free(p{pointers - 1});"]
    whole, rest = divmod(statements, len(turn))
    return main_of([*(f"char *p{k};" for k in range(pointers)), *(turn * whole), *(["p0=NULL;"] * rest)])


def chain(procedures):
    """Procedures of which each hands its argument to the one before, the first of which frees it. `main` is one of them."""
    lines = ["void f0(char *p) { free(p); }"]
    lines += [f"void f{k}(char *p) {{ f{k - 1}(p); }}" for k in range(1, procedures - 1)]
    return "\n".join(lines) + "\n" + main_of(["char *p;", "p=malloc(8);", f"f{procedures - 2}(p);"])


MODULE = """struct nodeK { int v; struct nodeK *next; };
struct nodeK *newK(int v) {
  struct nodeK *p = malloc(sizeof(struct nodeK));
  if (p == NULL) return NULL;
  p->v = v;
  p->next = NULL;
  return p;
}
void freeK(struct nodeK *p) {
  struct nodeK *q;
  while (p != NULL) {
    q = p->next;
    free(p);
    p = q;
  }
}
struct nodeK *pushK(struct nodeK *p, int v) {
  struct nodeK *q = malloc(sizeof(struct nodeK));
  if (q == NULL) return p;
  q->v = v;
  q->next = p;
  return q;
}
struct nodeK *popK(struct nodeK *p) {
  struct nodeK *q;
  if (p == NULL) return NULL;
  q = p->next;
  free(p);
  return q;
}
void useK(int n) {
  struct nodeK *p = newK(n);
  p = pushK(p, n);
  p = popK(p);
  say(n);
  freeK(p);
}
"""


def modules(count):
    """Modules of five procedures, each with a list of its own, and `say`, which has no body."""
    text = "".join(MODULE.replace("K", str(k)) for k in range(count))
    return "void say(int n);\n" + text + main_of([f"use{k}({k});" for k in range(count)])


def fields(count, statements):
    """A struct of so many pointer fields, each of which is filled, in turn emptied and filled again, and emptied at the end, in some
    so many statements."""
    fill = [f"t=malloc(8);\np->f{k}=t;" for k in range(count)]
    empty = [f"t=p->f{k};\nfree(t);" for k in range(count)]
    turns = [part[k % count] for k in range(statements // 4 - count) for part in (empty, fill)]
    members = "".join(f"char *f{k};\n" for k in range(count))
    lines = ["struct s *p;", "char *t;", "p=malloc(sizeof(struct s));", *fill, *turns, *empty, "free(p);"]
    return "struct s {\n" + members + "};\n" + main_of(lines)


def calls(count):
    """So many calls in one body, each of which takes the object that the one before gave."""
    return "char *same(char *p) { return p; }\n" + main_of(["char *p;", "p=malloc(8);", *(["p=same(p);"] * count), "free(p);"])


def sample(procedures):
    """The source that `clouseau sample` judges."""
    lines = ["struct node { int v; struct node *next; };", "struct node *f0(struct node *p) { return p; }"]
    for k in range(1, procedures):
        lines.append(f"struct node *f{k}(struct node *p) {{ struct node *q; q = f{k - 1}(p); return f{k - 1}(q); }}")
    lines.append(
        "int main(void) { struct node *a; struct node *b; a = malloc(sizeof(struct node)); "
        f"b = f{procedures - 1}(a); free(b); return 0; }}"
    )
    return "\n".join(lines) + "\n"


def module_of(example, number):
    """An example as a module: its structs and procedures have names of this number, and `main` is one of them."""
    with open(f"{TOP}/examples/{example}.c", encoding="ascii") as it:
        text = it.read()
    text = text.replace("main(", f"{example}_main(")
    named = set(re.findall(r"\bstruct (\w+)", text)) | set(re.findall(r"^\w[\w ]*[ *](\w+)\(", text, re.MULTILINE))
    return re.sub(r"\b(" + "|".join(sorted(named)) + r")\b", rf"\1_{number}", text)


def library(lines, examples):
    """A source of at least so many lines: modules made of these examples in turn, and a `main` that uses each."""
    parts, uses, count = [], [], 6
    while count < lines:
        number = len(parts)
        example = examples[number % len(examples)]
        parts.append(module_of(example, number))
        uses.append(f"  total = total + {example}_main_{number}();")
        count += parts[-1].count("\n") + 1
    return "".join(parts) + "int main(void) {\n  int total = 0;\n" + "".join(f"{use}\n" for use in uses) + "  return total;\n}\n"


def copies(fields_each, slots, statements):
    """A struct for each two slots, with so many pointer fields, and `main` with so many assignments among the slots of a struct."""
    pairs = slots // 2
    structs = [f"struct s{kind} {{\n" + "".join(f"int *f{field};\n" for field in range(fields_each)) + "};\n" for kind in range(pairs)]
    lines = [f"struct s{slot} *a{slot};\nstruct s{slot} *b{slot};" for slot in range(pairs)]
    for number in range(statements):
        slot = number * 7 % pairs
        if number % 16 == 0:
            lines.append(f"a{slot}=malloc(sizeof(struct s{slot}));")
        else:
            lines.append(f"b{slot}=a{slot};" if number % 16 in (1, 3, 5, 7) else f"a{slot}=b{slot};")
    return "".join(structs) + main_of(lines)


def circling(parameters, pointers, statements):
    """A procedure of so many parameters and further pointers that does so many assignments again and again, and a `main` with one
    pointer."""
    given = ", ".join(f"int *p{k}" for k in range(parameters))
    lines = ["int i;", *(f"int *q{k};" for k in range(pointers)), *(f"q{k} = p0;" for k in range(pointers)), "for (;;) {"]
    lines += ["i = 0;"] * statements
    return f"void f({given}) {{\n" + "".join(f"{line}\n" for line in lines) + "} }\n" + main_of(["int *q;"])


# Tables


class Table:
    """A table whose rows are printed as they come: the first column from its left end, the others to their right."""

    def __init__(self, *heads):
        self.widths = [max(len(head), 9) for head in heads]
        self.row(*heads)

    def row(self, *cells):
        first, *rest = (str(cell) for cell in cells)
        laid = [first.ljust(self.widths[0])] + [cell.rjust(width) for cell, width in zip(rest, self.widths[1:])]
        print("  ".join(laid).rstrip(), flush=True)


def seconds(micros):
    return f"{micros / 1e6:.2f}"


def growth(now, before):
    """How many times as much as before; nothing where there was none."""
    return f"{now / before:.2f}" if before else "-"


def each(whole, count):
    """What there is of a whole for each of so many."""
    return f"{whole / max(count, 1):.1f}"
