"""What the definitions in crates/*/specs/ rest on: a file's definitions and imports, and all that some statements reach. For docs/promises-check."""
import functools
import pathlib
import re
import sys

ROOT = pathlib.Path(__file__).resolve().parent.parent
CRATES = ROOT / "crates"
DEFINES = re.compile(r"^ *(?:abbrev |unfoldable )?(?:pub )?(?:record |data )?([^\s(){}:;]+)(?: [^=]*)? : ")
WORD = re.compile(r"[^\s(){}\[\],;.]+")
# the names of a field or of cases, where they are defined
LABEL = re.compile(r"  (?:pub )?((?:[^\s:(){}]+ )+): ")


class File:
    """A file of specs/: its definitions with their lines, and what it imports."""

    def __init__(self, path):
        self.blocks, self.imports, self.modules = {}, {}, {}
        text = re.sub(r"--.*", "", path.read_text())
        lines = []
        for line in text.splitlines():
            if re.match(r"(pub )?use ", line):
                self.take_import(line)
            elif line.startswith("pub mod ") or line.startswith("mod "):
                pass
            else:
                lines.append(line)
        block, names = [], []

        def close():
            for name in names:
                self.blocks.setdefault(name, []).append(list(block))
            block.clear()
            names.clear()

        for line in lines:
            if not line.strip():
                continue
            indent = len(line) - len(line.lstrip())
            if indent == 0:
                found = DEFINES.match(line)
                if found and (found[1] not in names):
                    close()
                    names.append(found[1])
                elif re.match(r"(infix|module)", line):
                    close()
            elif names and indent == 2:
                # a field or a case has its own name, and stands for its whole block
                case = LABEL.match(line)
                if case:
                    names.extend(n for n in case[1].split() if n not in names)
            block.append(line)
        close()

    def take_import(self, line):
        found = re.match(r"(?:pub )?use Rattle\.(\w+)\.specs\.([\w.]+)(?: as (\S+)|\.\{(.*)\})?$", line.strip())
        if not found:
            return
        crate, module, name, names = found.groups()
        if name:
            self.modules[name] = f"{crate}/{module}"
        for word in (names or "").split(","):
            parts = word.split(" as ")
            self.imports[parts[-1].strip()] = (f"{crate}/{module}", parts[0].strip())


@functools.lru_cache(maxsize=None)
def file_of(name):
    crate, module = name.split("/")
    path = CRATES / crate / "specs" / (module.replace(".", "/") + ".antt")
    return File(path) if path.exists() else None


def reach(roots):
    """The blocks that the statements rest on: (file, first line of the block) -> its number of lines."""
    todo, seen, blocks = [], set(), {}
    for where, names in roots:
        file = file_of(where)
        if file is None:
            sys.exit(f"docs/promises-check: no file of specs/ is {where}")
        for name in file.blocks if names == "*" else names.split():
            if name not in file.blocks:
                sys.exit(f"docs/promises-check: {where} does not define {name}")
            todo.append((where, name))
    while todo:
        where, name = todo.pop()
        if (where, name) in seen:
            continue
        seen.add((where, name))
        file = file_of(where)
        if file is None or name not in file.blocks:
            if file is not None and name in file.imports:
                todo.append(file.imports[name])
            continue
        for block in file.blocks[name]:
            if (where, block[0]) in blocks:
                continue
            blocks[(where, block[0])] = len(block)
            # a field's own label leads to no other record that has a field of that name
            text = "\n".join(LABEL.sub("", line, 1) if LABEL.match(line) else line for line in block)
            for word in set(WORD.findall(text)):
                for part in {word} | ({p for p in word.split("◌") if p} if "◌" in word else set()):
                    if part in file.blocks:
                        todo.append((where, part))
                    elif part in file.imports:
                        todo.append(file.imports[part])
            for module in file.modules:
                for member in re.findall(rf"(?<![\w·]){re.escape(module)}\.([^\s(){{}}\[\],;.]+)", text):
                    todo.append((file.modules[module], member))
    return blocks


def key(path):
    """How roots name a file of specs/: crate/Module."""
    crate, _, *rest = path.relative_to(CRATES).with_suffix("").parts
    return f"{crate}/{'.'.join(rest)}"
