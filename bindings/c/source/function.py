"""Translates one function of Rattle to a function of C."""

import re
import textwrap

import names
from kinds import Slice, Value
from rattle import Unknown
from statements import INDENT, Statements

TYPED = re.compile(r"    (const )?(enum |unsigned |JCOBS_)?[a-zA-Z_]+ \**(const )?\w+( = .*)?[;,]$")


class Function(Statements):
    def __init__(self, out, crate, path, item):
        self.out, self.crate, self.path = out, crate, path
        _, self.name, self.params, self.result, self.body, self.docs, self.attributes = item
        self.key, self.is_above, self.is_below = (path, self.name), False, False
        self.is_exported = any("no_mangle" in it for it in self.attributes)
        self.name_here = self.name  # the name of the function whose body this is
        self.passed = {}  # the body's names of this function's parameters
        self.lines, self.depth, self.env, self.declared_names = [], 1, {}, {}

    def take_body(self, crate, path, item, args):
        """Takes the body of a function to which this function passes its parameters on."""
        self.crate, self.path, self.name_here, self.body = crate, path, item[1], item[4]
        self.passed = {arg[1]: name for (name, _), arg in zip(item[2], args)}

    @property
    def own(self):
        """The function whose body this is, without the body."""
        return ("fn", self.name_here, self.params, self.result)

    def other(self, crate, path, name):
        """Returns an object that translates a function or a constant of another file."""
        return Function(self.out, crate, path, ("fn", name, [], None, [], [], []))

    def written(self):
        if isinstance(self.body, Unknown):
            raise self.body
        params = self.parameters()
        self.block(self.body, bool(self.result))
        text = "\n".join(self.lines)
        for name, kind in self.params:
            if self.is_exported or not is_slice(kind):
                continue
            length = self.length_name(self.passed.get(name, name), kind[1])
            if not re.search(rf"\b{length}\b", text):
                self.out.unused.add((*self.key, name))
                params.remove(f"size_t {length}")
        text = self.with_unused(text, params)
        lines = [it for line in self.with_pointers(text).split("\n") for it in wrapped(line)]
        return "\n".join([self.comment(), *self.head(params), "{", *paragraphs(lines), "}"])

    def with_unused(self, text, params):
        """Uses each parameter that is used only above the threshold, so that compilers don't warn without JCOBS_FAST."""
        below = re.sub(r"#ifdef JCOBS_FAST\n.*?#(?:else|endif)|/\*.*?\*/", "", text, flags=re.S)
        given = [re.search(r"\w+$", it)[0] for it in params]
        for name in [*given, *re.findall(r"^ +[a-z][\w ]*?[ *](\w+) = ", below, re.M)] if below != text else []:
            if not re.search(rf"\b{name}\b(?! = )", below):
                text = re.sub(rf"(#ifdef JCOBS_FAST\n(?:(?!#endif).)*?\n)( *)([^\n]*\b{name}\b(?! = )(?:(?!#endif).)*?)#endif", rf"\1\2\3#else\n{INDENT}(void){name};\n#endif", text, count=1, flags=re.S)
        return text

    def parameters(self):
        """Returns the parameters in C, and records the meaning of each name of Rattle."""
        words, given = [], self.out.calls[self.name].params if self.is_exported else None
        at = 0
        for name, kind in self.params:
            own = self.passed.get(name, name)
            if is_slice(kind):
                pointer, length = (given[at][1], given[at + 1][1]) if given else (self.c_name(own), self.length_name(own, kind[1]))
                const = "" if kind[1] else "const "
                words += [f"{const}unsigned char *{pointer}", f"size_t {length}"]
                self.env[own] = Slice(f"@{pointer}@" if given else pointer, length, kind[1])
                at += 2
                continue
            at += 1
            kind = self.kind_of(kind)
            c_name = name if given else self.name_of_self(kind) if own == "self" else self.c_name(own)
            words.append(self.declared(kind, c_name))
            self.env[own] = Value(c_name, kind)
        self.declared_names = {re.search(r"\w+$", word)[0]: 0 for word in words}
        return words

    def c_name(self, name):
        """Returns the C name of a parameter or a variable."""
        for of in (self.name_here, ""):
            if name in names.VARIABLES.get(of, {}):
                self.out.renamed.add((of, name))
                return names.VARIABLES[of][name]
        return name

    def length_name(self, name, is_mutable):
        """Returns the name of a slice's length: the name in names.py, if there is one. Otherwise it ends in `_size` or `_len`."""
        wanted = self.c_name(f"{name}_len")
        return wanted if wanted != f"{name}_len" else f"{self.c_name(name)}_{'size' if is_mutable else 'len'}"

    def name_of_self(self, kind):
        """Returns the name of a method's object: the last word of its type."""
        return self.out.struct(self.item(kind), self).rsplit("_", 1)[-1]

    def with_pointers(self, text):
        """Casts the void pointers of an exported function.

        A pointer that is used more than once, or whose bytes are read or written, is cast once, into a variable. Any other pointer is
        cast in the call that it is passed to.
        """
        for name, kind in self.params if self.is_exported else []:
            if not is_slice(kind):
                continue
            own = self.passed.get(name, name)
            pointer = self.env[own].pointer if isinstance(self.env.get(own), Slice) else f"@{name}@"
            cast = f"{'' if kind[1] else 'const '}unsigned char *"
            if f"{pointer}[" in text or text.count(pointer) > 1:
                local = "data" if pointer == "@bytes@" else f"{pointer[1:-1]}_bytes"
                text = f"{INDENT}{cast}const {local} = ({cast}){pointer[1:-1]};\n" + text.replace(pointer, local)
            else:
                text = text.replace(pointer, f"({cast}){pointer[1:-1]}")
        return text

    def comment(self):
        docs = self.docs[: self.docs.index("")] if "" in self.docs else self.docs
        lines = textwrap.wrap(self.in_c(" ".join(docs)), 112)
        if self.is_exported:
            says, source = self.out.contracts[self.name][1:]
            lines += textwrap.wrap(f"Proved, by the contract in {source}: {says}", 112)
        return "/* " + "\n * ".join(lines) + " */"

    def in_c(self, text):
        """Returns a comment with the names of C."""
        for old, new in [*names.COMMENTS[""], *names.COMMENTS.get(self.name_here, [])]:
            if old in text:
                self.out.replaced.add((self.name_here, old))
                text = text.replace(old, new)
        return re.sub(r"\[?`([^`]*)`\]?(\([^)]*\))?", lambda found: quoted(self.word_in_c(found[1], found[2] or "")), text)

    def word_in_c(self, word, link=""):
        """Translates a text in backticks in a comment: the name of a parameter, a variable or another function, or a number.

        `link` is the path in brackets behind it. It may name a method of this function's type.
        """
        if word == "None":
            return "JCOBS_END_NONE"
        if found := re.fullmatch(r"(\w+)( [-+] \d+)", word):
            return self.word_in_c(found[1]) + found[2]
        if link.startswith("(Self::"):
            word = f"{self.name_here.partition('::')[0]}::{link[7:-1]}"
        if self.c_name(word) != word or word in self.known_names():
            return self.c_name(word)
        if word in self.out.calls or not re.search(r"[A-Za-z]", word) or any(word in fields for fields in self.out.given):
            return word
        owner = self.name_here.rpartition("::")[0]
        for name in (f"{owner}::{word}", word):
            try:
                crate, path, item = self.find(name)
                break
            except Unknown:
                pass
        else:
            raise Unknown(f"{self.name}: its comment names {word}, which C doesn't know")
        self.out.mentioned.add((path, item[1]))
        return self.out.name_of(Function(self.out, crate, path, item))

    def known_names(self):
        """Returns the names that comments of this function may contain: its parameters, its variables and the members of structs."""
        found = re.findall(r"'(?:name|for|field)', '(\w+)'", str(self.body))
        return {name for name, _ in self.params} | set(found)

    def head(self, params):
        if self.is_exported:
            text = self.out.calls[self.name].text
        else:
            is_inline = self.name not in names.ONE_COPY and any("inline(always)" in it for it in self.attributes)
            is_apart = self.name in names.APART or any("inline(never)" in it for it in self.attributes)
            name = self.out.names[self.key]
            text = f"static {'JCOBS_ONCE ' * (self.name in names.ONE_COPY)}{'JCOBS_INLINE ' * is_inline}{'JCOBS_APART ' * is_apart}{self.declared(self.result_of(self.own), name)}({', '.join(params) or 'void'})"
        return wrapped(text)


def wrapped(head):
    """Returns the lines of a function's head, or of a statement with a call."""
    if len(head) <= 120 or "(" not in head or "/*" in head:
        return [head]
    begun = head.index("(") + 1
    lines = [head[:begun]]
    words = head[begun:].split(", ")
    for word in [*(f"{it}," for it in words[:-1]), words[-1]]:
        if len(lines[-1]) + len(word) >= 120:
            lines.append(" " * begun + word)
        else:
            lines[-1] += word if lines[-1].endswith("(") else f" {word}"
    return lines


def quoted(word):
    """Returns a name as a comment has it: in backticks, if it could be read as an ordinary word."""
    return f"`{word}`" if re.fullmatch("[a-z]+", word) else word


def paragraphs(lines):
    """Returns the lines of a function, with an empty line before and after the declarations among its statements."""
    out, was_declared = [], None
    for i, line in enumerate(lines):
        if line.startswith("#if") and was_declared:
            out.append("")
        if line.startswith("#"):
            was_declared = None
        if re.match(rf"{INDENT}[^\s}}]", line):  # a statement, and not a part of one
            code = next(it for it in lines[i:] if re.match(rf"{INDENT}(?!/\*)[^\s}}]", it))  # without the comment before it
            is_declared = bool(TYPED.match(code) and not code.startswith(f"{INDENT}return"))
            if was_declared not in (None, is_declared):
                out.append("")
            was_declared = is_declared
        out.append(line)
    return out


def is_slice(kind):
    return kind[0] == "ref" and kind[2][0] == "slice"
