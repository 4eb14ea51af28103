"""What the tools of this folder read of a tree: its crates, the functions of their code, the declarations of their definitions and
proofs, and their must-fail edits. Code and proofs are read by their layout, which is that of `rt fmt`: an attribute is one line."""

import re
import sys
from pathlib import Path


def crates(root):
    """The crates of crates.txt in its order, each with those of the repository that it depends on. Behind a name may stand what else
    it is, as in `NAME staticlib:`."""
    needs = {}
    for line in (root / "crates.txt").read_text().splitlines():
        name, colon, rest = line.partition("#")[0].partition(":")
        if colon:
            needs[name.split()[0]] = rest.split()
    return {name: [need for need in rest if need in needs] for name, rest in needs.items()}


def first_sentences(text, most):
    """The first sentence of a text, and those after it while all together have at most so many characters."""
    sentences = re.split(r"(?<=\.)\s+(?=[A-Z])", text)
    taken = sentences[0]
    for sentence in sentences[1:]:
        if len(taken) + len(sentence) >= most:
            break
        taken += " " + sentence
    return taken


def comment_above(lines, number, mark):
    """The comment that ends right above a line, as one text; attributes may stand between."""
    taken = []
    while number > 0 and lines[number - 1].lstrip().startswith((mark, "#[")):
        number -= 1
        if lines[number].lstrip().startswith(mark):
            taken.insert(0, lines[number].strip().removeprefix(mark).strip())
    return " ".join(taken)


# ---- code


class Function:
    """A function of a crate: module is '' at the root, lines are numbered from 0, the last one included. Of a method, block is the
    line `impl` or `trait` that it stands below, owner the type or the trait, and of_trait the trait of an `impl .. for ..`."""

    def __init__(self, crate, module, block, name, public, comment, first, opens, last, lines):
        self.crate, self.module, self.block, self.name, self.public, self.comment = crate, module, block, name, public, comment
        self.first, self.last, self.offered, self.impls = first, last, False, []
        self.owner, self.of_trait, self.in_trait = owner_of(block)
        # with its contract; what is required of a trait's impls has no body
        self.signature = "\n".join(lines[first:opens] or [lines[first].rstrip("{} ")])
        self.body = "\n".join(lines[opens : last + 1])

    @property
    def path(self):
        return "::".join(filter(None, [self.crate, self.module, self.owner, self.name]))

    @property
    def key(self):
        return self.module, self.block, self.name


def owner_of(block):
    """The type or trait that the line `impl` or `trait` is of, the trait of an impl, and whether it declares a trait."""
    while block != (block := re.sub(r"<[^<>]*>", "", block)):
        pass
    head = re.match(r"(?:pub(?:\(crate\))? )?(?:(trait)|impl)\s+(?:([\w:]+) for )?([\w:]+|\[.*\])", block)
    declares, of_trait, owner = head.groups() if head else (None, None, "")
    return owner.split("::")[-1].rstrip(":"), (of_trait or "").split("::")[-1], declares is not None


def ends_of(lines, number, indent):
    """The lines where the body of the function whose head is a line begins and ends. It begins with the brace below a contract, or with
    the line of the head that ends with one; of a trait's method without a body it is nothing, behind the end."""
    depth = 0
    for at in range(number, len(lines)):
        line = lines[at]
        depth += line.count("{") - line.count("}")
        if depth == 0 and line.endswith(";"):
            return at + 1, at
        if depth == 0 and at == number and line.endswith("}"):
            return at, at
        if depth == 1 and line.endswith("{") and not re.match(r" *(ensures|requires)", line):
            return at, next(last for last in range(at, len(lines)) if lines[last] == indent + "}")
    raise ValueError(f"a function without an end: {lines[number]}")


def functions_in(crate, module, text):
    """The functions of a file, methods among them."""
    lines = text.splitlines()
    found, number, block, of_block = [], 0, "", ""
    while number < len(lines):
        line = lines[number]
        head = re.match(r'( *)(pub |pub\(crate\) )?(?:const )?(?:extern "C" )?fn ([A-Za-z_0-9]+)', line)
        if not head:
            if re.match(r"(pub(\(crate\))? )?(impl|trait)\b.*\{$", line):
                block, of_block = line, comment_above(lines, number, "//")
            elif line == "}":
                block = ""
            number += 1
            continue
        indent, public, name = head.groups()
        opens, last = ends_of(lines, number, indent)
        comment = comment_above(lines, number, "//")
        beside = bool(found) and found[-1].block == block
        between = lines[found[-1].last + 1 : number] if beside else ["none"]
        if not comment and not "".join(line for line in between if not line.lstrip().startswith("#[")).strip():
            comment = found[-1].comment  # one comment above a group of functions serves them all
        if not comment and block and not beside:
            comment = of_block  # and one above an impl its first
        found.append(Function(crate, module, block, name, public == "pub ", comment, number, opens, last, lines))
        number = last + 1
    return found


def item_at(text, line):
    """The item of a file that a line outside its functions belongs to: a constant, a type, a trait or an impl."""
    for head in reversed(text.splitlines()[: line + 1]):
        if re.match(r"(pub(\(crate\))? )?(impl|trait)\b", head):
            return owner_of(head)[1] or owner_of(head)[0]
        found = re.match(r"(?:pub(?:\(crate\))? )?(?:const|struct|enum|static|type) (\w+)", head)
        if found:
            return found.group(1)
    return ""


class Code:
    """The code of a crate."""

    def __init__(self, root, crate):
        self.crate, self.files, self.functions, self.uses = crate, {}, [], {}
        for path in sorted((root / "crates" / crate / "src").glob("*.rt"), key=lambda path: (path.stem not in ("lib", "main"), path.stem)):
            module = "" if path.stem in ("lib", "main") else path.stem
            text = path.read_text()
            self.files[module] = text
            self.uses[module] = {use.split("::")[-1]: use for use in used(text)}
            self.functions += functions_in(crate, module, text)
        root_text = self.files.setdefault("", "")
        reached = {""} | set(re.findall(r"^pub mod ([a-z_0-9]+);", root_text, re.M))
        passed_on = {tuple(use.split("::")) for use in used(root_text, "pub ")}
        traits = {(function.owner, function.name): function for function in self.functions if function.in_trait}
        types = {name: (module if public else None, name) for module, text in self.files.items() for public, name in declared_types(text)}
        for function in self.functions:
            here = (function.module, function.name)
            offers = types.get(function.owner, ("", "")) if function.owner else here  # a method is offered where its type is
            seen = offers[0] in reached or offers in passed_on or ("crate", *offers) in passed_on
            if (function.of_trait, function.name) in traits:
                traits[function.of_trait, function.name].impls.append(function)  # it keeps the trait's promise and has none of its own
            elif function.in_trait:
                function.offered = seen and function.block.startswith("pub ")
            else:
                function.offered = seen and (function.public or function.of_trait != "")
            if here == ("", "main") and (root / "crates" / crate / "src/main.rt").exists():
                function.offered = True  # the program itself

    def what_it_is(self, module=""):
        """The first paragraph of the comment at the top of a module's file; without a name, of the crate's. Attributes of the whole
        file may stand before it or behind it."""
        lines = re.sub(r"^#!\[.*\n", "", self.files[module], flags=re.M).strip().splitlines() + [""]
        end = next(i for i, line in enumerate(lines) if not line.startswith("//") or line == "//")
        return comment_above(lines, end, "//")

    def promise_of(self, function):
        """What a function promises: its signature with its contract. An impl of a trait of another crate says it in ghost lines."""
        text = self.files[function.module]
        said = text[text.index(function.block) :].split("\n}")[0] if function.of_trait else ""
        return function.signature + "".join("\n" + line for line in said.splitlines() if line.startswith(f"    ghost {function.name}_"))

    def place_of(self, module, path):
        """The module and the name that a path in a module leads to; nothing where it leads out of the crate."""
        path = self.uses[module].get(path, path)
        parts = path.split("::")
        if len(parts) == 1:
            return module, path
        if parts[0] in ("crate", "super"):
            parts = parts[1:]
        if len(parts) == 1 or parts[0] in self.files:
            return "::".join(parts[:-1]), parts[-1]
        return None

    def called_by(self, function):
        """The functions of the crate that one calls, of a trait's also those that its impls call. A method that is called on a value is
        known by its name alone; one that is called by a type of the crate, by both."""
        called = []
        owners = {other.owner for other in self.functions}
        for caller in [function, *function.impls]:
            body = "\n".join(without_comment(line, "//") for line in caller.body.splitlines())
            for before, path in re.findall(r"(\.|[A-Z]\w*::)?\b((?:[a-z_0-9]+::)*[a-z_0-9]+)(?:::<[^()]*>)?\(", body):
                owner = caller.owner if before == "Self::" else before.removesuffix("::")
                place = self.place_of(caller.module, path)
                for other in self.functions:
                    if before:
                        fits = other.owner and other.name == path and (owner not in owners or owner == other.owner)
                    else:
                        fits = not other.owner and place == (other.module, other.name)
                    if fits and other not in called:
                        called.append(other)
        return called


def declared_types(text):
    """The types and traits that a file declares, each with whether it is public."""
    return re.findall(r"^(pub )?(?:pub\(crate\) )?(?:struct|enum|trait) (\w+)", text, re.M)


def used(text, before=""):
    """The paths that the lines `use` of a file bring in."""
    paths = []
    for prefix, names, name in re.findall(rf"^{before}use ([A-Za-z_0-9:]+)(?:::)(?:\{{([^}}]*)\}}|([A-Za-z_0-9]+));", text, re.M):
        paths += [f"{prefix}::{each.strip()}" for each in (names or name).split(",") if each.strip()]
    return paths


def definitions_named(text, source):
    """The definitions that a contract names, of those that the lines `ghost use` of its file bring in from files of specs: each as
    the pages cite it, FILE.NAME of the crate semantics and CRATE/specs/FILE.NAME of another. Types of the code are left out, and what
    is the toolchain's standard library."""
    files = {}
    for crate, file, names in re.findall(r"^ghost use Rattle\.([a-z_0-9]+)\.specs\.([\w.-]+)\.\{([^}]*)\};", source, re.M):
        if crate != "std" and not file.startswith("declared."):
            for name in names.split(","):
                name, _, here = name.strip().partition(" as ")
                cited = file.replace(".", "/") + "." + name
                files[here or name] = cited if crate == "semantics" else f"{crate}/specs/{cited}"
    clauses = " ".join(re.split(r"^ *(?=ensures|requires|ghost)", text, flags=re.M)[1:])
    words = re.findall(r"[^\s(){}\[\];,]+(?:\s*=(?=\s))?", clauses)
    named = [files[word] for word in words if word in files]  # a field that is given a value is `word =`, and no definition
    return list(dict.fromkeys(named))


# ---- definitions and proofs


class Declaration:
    """A definition, a theorem, a record or a data type: the heads of the modules around it, what it states, and what follows. Lines are
    numbered from 0."""

    def __init__(self, name, around):
        self.name, self.around, self.statement, self.body, self.lines = name, around, [], [], set()


def declarations_in(text):
    """The declarations of a file of antt. Each begins at the indent of its module, and all that is indented more, or names no other,
    belongs to it."""
    found, group, modules, part = [], [], [], "body"
    for number, line in enumerate(text.splitlines()):
        line = without_comment(line, "--")
        if not line.strip():
            continue
        indent = len(line) - len(line.lstrip())
        while modules and indent <= modules[-1][0] and not re.match(r" *[\])]", line):
            modules.pop()
        level = modules[-1][0] + 2 if modules else 0
        words = re.sub(r"^((unfoldable|abbrev|pub) )+", "", line.strip())
        heads = re.match(r'([^:=(){}"]+) :(?: |$)', words)
        if indent > level:
            if part == "module":
                modules[-1][1] += line
        elif re.match(r"(use|mod|infix[lr]?) ", words):
            group, part = [], "skipped"
        elif words.startswith("module "):
            modules.append([indent, line])
            group, part = [], "module"
        elif re.match(r"(record|data|ruleset) ", words):
            group, part = [Declaration(words.split()[1], [each for _, each in modules])], "statement"
            found += group
        elif heads or line.strip().startswith("abbrev "):
            names = heads.group(1).split() if heads else words.split()[:1]
            group, part = [Declaration(name, [each for _, each in modules]) for name in names], "statement"
            found += group
        else:
            part = "body"
        if part == "module" and line.rstrip().endswith(" where"):
            part = "skipped"
        for declaration in group:
            declaration.lines.add(number)
            getattr(declaration, part).append(line)
    return found


# ---- must-fail edits


class Edit:
    """A must-fail edit: its pairs of an old and a new text, each with its file, in the order in which they are applied."""

    def __init__(self, root, path):
        self.root, self.crate, self.label, self.pairs = root, path.parts[-3], path.stem, []
        file = old = ""
        for line in path.read_text().splitlines():
            if line.startswith("file: "):
                file = line.removeprefix("file: ")
            elif line.startswith("old: "):
                old = line.removeprefix("old: ")
            elif line.startswith("new:"):
                self.pairs.append((file, old, line.removeprefix("new:").removeprefix(" ")))
                old = ""

    def places(self):
        """Applies the edit as rt does, and says where: a file, its text before and the line, for each pair. An error is a text."""
        texts, found = {}, []
        if not self.pairs:
            return f"{self.crate}/{self.label}: an edit without an old and a new text"
        for file, old, new in self.pairs:
            path = self.root / "crates" / self.crate / file
            if file not in texts and not path.is_file():
                return f"{self.crate}/{self.label}: no file {file} in the crate"
            text = texts.get(file) or path.read_text()
            times = text.count(old) if old else 0
            if times != 1:
                return f"{self.crate}/{self.label}: its old text is {times} times in {file}, and not once: {old}"
            found.append((file, text, text[: text.index(old)].count("\n")))
            texts[file] = text.replace(old, new)
        return found


def edits_of(root, crate):
    return [Edit(root, path) for path in sorted((root / "crates" / crate / "must-fail").glob("*.edit"))]


# ---- pages


def without_comment(line, mark):
    return re.sub(rf"(^|\s){mark}.*", "", line)


def write_page(name, text):
    """Writes a page below the folder that is the tool's argument, or in the repository."""
    folder = Path(sys.argv[1]) if len(sys.argv) > 1 else Path(".")
    (folder / name).parent.mkdir(parents=True, exist_ok=True)
    (folder / name).write_text(text)


def with_block(page, marker, block):
    """A page with what stands between <!-- marker --> and <!-- /marker --> replaced."""
    begin, end = f"<!-- {marker} -->\n", f"<!-- /{marker} -->\n"
    text = Path(page).read_text()
    if text.count(begin) != 1 or text.count(end) != 1 or text.index(begin) > text.index(end):
        sys.exit(f"{page}: the lines {begin.strip()} and {end.strip()} are wanted, once each and in this order")
    return text.split(begin)[0] + begin + block + end + text.split(end)[1]
