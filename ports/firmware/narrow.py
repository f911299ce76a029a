"""The text of a module for 64-bit pointers, as one for a machine with 32-bit pointers, lowest byte first.

Rattle's code counts on `usize` and pointers of 8 bytes: sizes and offsets are numbers in the text. So all that lies in memory keeps its
place. A pointer in memory becomes a number of 64 bits, whose upper half is 0: a load of a pointer becomes a load of that number and
`inttoptr`, and a store `ptrtoint` and a store. Between loads and stores pointers have the machine's 32 bits. Numbers stay as they are,
`usize` with its 64 bits. Lengths for memset, memcpy and memmove are cut to 32 bits: no buffer is longer. Of malloc and realloc a length
that 32 bits don't hold is asked for as one that they never grant.

Each line has to be in a form that is named here. Any other is refused, so nothing that depends on a pointer's size is passed over.
"""

import re
import sys

NAME = r'(?:%"[^"]*"|%[-\w.$]+)'
GLOBAL = r'(?:@"[^"]*"|@[-\w.$]+)'
VALUE = rf"(?:{NAME}|{GLOBAL}|null|undef|poison)"
NUMBER = rf"(?:{NAME}|-?\d+|undef|poison)"
SCALAR = r"(?:i\d+|ptr)"
PAIR = rf"\{{ {SCALAR}(?:, {SCALAR})* \}}"
# what lies in memory alike for both sizes
PLAIN = r"(?:i\d+|<\d+ x i\d+>|\[\d+ x i\d+\]|\{ i\d+(?:, i\d+)* \})"
FLAGS = r"((?:, ![\w.]+ ![0-9]+)*)"
LIMIT = 1 << 31

ALLOCA = re.compile(rf"  ({NAME}) = alloca (ptr|{PAIR}|{PLAIN}), align (\d+)")
LOAD = re.compile(rf"  ({NAME}) = load (ptr|{PAIR}|{PLAIN}), ptr ({VALUE}), align (\d+){FLAGS}")
STORE = re.compile(rf"  store (ptr|{PAIR}|{PLAIN}) (.*), ptr ({VALUE}), align (\d+){FLAGS}")
FILL = re.compile(rf"  ((?:tail )?call void @llvm\.(?:memset|memmove|memcpy)\.p0(?:\.p0)?)\.i64\((.*), i64 ({NAME}|\d+), i1 false\)(.*)")
GRANT = re.compile(rf"  ({NAME}) = call ptr @(malloc|realloc)\((ptr {VALUE}, )?i64 ({NAME}|\d+)\)")
TO_ADDRESS = re.compile(rf"  ({NAME}) = ptrto(?:addr|int) ptr ({VALUE}) to i64")
OFFSET = re.compile(rf"  {NAME} = getelementptr (?:inbounds |nuw |nusw )*(?:i\d+|\[\d+ x i\d+\]), ptr {VALUE}(?:, i\d+ {NUMBER})+")
ARITHMETIC = "add|sub|mul|udiv|sdiv|urem|srem|and|or|xor|shl|lshr|ashr|trunc|zext|sext|icmp|bitcast|extractelement|insertelement|shufflevector"
KNOWN = (
    OFFSET,
    re.compile(rf"  {NAME} = (?:{ARITHMETIC}) (?!.*\bptr\b).*"),
    re.compile(rf"  {NAME} = icmp (?:eq|ne|ult|ule|ugt|uge) ptr {VALUE}, {VALUE}"),
    re.compile(rf"  {NAME} = phi (?:{SCALAR}|{PAIR}|{PLAIN}) \[.*\]"),
    re.compile(rf"  {NAME} = (?:select i1 {NUMBER}, |freeze |extractvalue |insertvalue )(?:{SCALAR}|{PAIR}|{PLAIN}) .*"),
    re.compile(rf"  {NAME} = inttoptr i64 {NUMBER} to ptr"),
    re.compile(rf"  (?:{NAME} = )?(?:tail |musttail |notail )?call (?:fastcc )?(?:\w+ )*(?:void|{SCALAR}|{PAIR}|{PLAIN}) (?:{GLOBAL}|{NAME})\(.*\)(?: #\d+)?{FLAGS}"),
    re.compile(rf"  ret (?:void|(?:{SCALAR}|{PAIR}|{PLAIN}) .*)"),
    re.compile(rf"  br (?:label {NAME}|i1 {NUMBER}, label {NAME}, label {NAME}){FLAGS}"),
    re.compile(rf"  switch i\d+ {NUMBER}, label {NAME} \["),
    re.compile(rf"    i\d+ -?\d+, label {NAME}"),
    re.compile(r"  \]"),
    re.compile(r"  unreachable"),
)
# intrinsics whose name doesn't say how wide a pointer or a length is
FOREIGN = re.compile(r"\.p0(\.p0)?\.i64\b|\.i\d+\.p0\b|\b(byval|sret|inalloca|preallocated|elementtype)\b|\.\.\.|\bx ptr[\]>]|\baddrspace\b")


def refuse(line):
    sys.exit(f"narrow: a form that isn't known: {line[:300]}")


def bare(line):
    """Returns a line without its quoted names and texts."""
    return re.sub(r'"[^"]*"', '""', line)


def fields_of(kind):
    """Returns the kinds of a pair's fields, as the text has them and as they lie in memory."""
    fields = kind.strip("{} ").split(", ")
    return fields, ["i64" if it == "ptr" else it for it in fields]


def in_memory(kind):
    return "i64" if kind == "ptr" else "{ " + ", ".join(fields_of(kind)[1]) + " }" if kind.startswith("{") else kind


class Names:
    """Names that no other value of a function has."""

    def __init__(self):
        self.count = 0

    def next(self):
        self.count += 1
        return f"%narrow.{self.count}"


def loaded(found, names):
    """Returns the lines for a load."""
    name, kind, at, align, flags = found.groups()
    if kind == "ptr":
        whole, noundef = names.next(), "".join(re.findall(r", !noundef !\d+", flags))
        return [f"  {whole} = load i64, ptr {at}, align {align}{noundef}", f"  {name} = inttoptr i64 {whole} to ptr"]
    memory, whole, so_far, lines = in_memory(kind), names.next(), "poison", []
    lines.append(f"  {whole} = load {memory}, ptr {at}, align {align}")
    fields = list(zip(*fields_of(kind)))
    for index, (field, stored) in enumerate(fields):
        value = names.next()
        lines.append(f"  {value} = extractvalue {memory} {whole}, {index}")
        if field == "ptr":
            number, value = value, names.next()
            lines.append(f"  {value} = inttoptr i64 {number} to ptr")
        made = name if index == len(fields) - 1 else names.next()
        lines.append(f"  {made} = insertvalue {kind} {so_far}, {field} {value}, {index}")
        so_far = made
    return lines


def stored(found, names):
    """Returns the lines for a store."""
    kind, value, at, align, _ = found.groups()
    if not re.fullmatch(VALUE, value):
        refuse(found[0])
    if kind == "ptr":
        if value == "null":
            return [f"  store i64 0, ptr {at}, align {align}"]
        whole = names.next()
        return [f"  {whole} = ptrtoint ptr {value} to i64", f"  store i64 {whole}, ptr {at}, align {align}"]
    memory, so_far, lines = in_memory(kind), "poison", []
    for index, (field, _) in enumerate(zip(*fields_of(kind))):
        part, made = names.next(), names.next()
        lines.append(f"  {part} = extractvalue {kind} {value}, {index}")
        if field == "ptr":
            pointer, part = part, names.next()
            lines.append(f"  {part} = ptrtoint ptr {pointer} to i64")
        lines.append(f"  {made} = insertvalue {memory} {so_far}, {'i64' if field == 'ptr' else field} {part}, {index}")
        so_far = made
    return [*lines, f"  store {memory} {so_far}, ptr {at}, align {align}"]


def filled(found, names):
    """Returns the lines for a call that fills or copies memory."""
    call, arguments, count, rest = found.groups()
    if count.isdigit():
        if int(count) >= LIMIT:
            refuse(found[0])
        return [f"  {call}.i32({arguments}, i32 {count}, i1 false){rest}"]
    cut = names.next()
    return [f"  {cut} = trunc i64 {count} to i32", f"  {call}.i32({arguments}, i32 {cut}, i1 false){rest}"]


def granted(found, names):
    """Returns the lines for a call of malloc or realloc."""
    name, function, first, count = found.groups()
    is_held, then, cut = names.next(), names.next(), names.next()
    return [f"  {is_held} = icmp ult i64 {count}, {LIMIT}", f"  {then} = select i1 {is_held}, i64 {count}, i64 {LIMIT}",
            f"  {cut} = trunc i64 {then} to i32", f"  {name} = call ptr @{function}({first or ''}i32 {cut})"]


def lines_of(line, names):
    """Returns the lines for one line of a function's body."""
    if found := FILL.fullmatch(line):
        return filled(found, names)
    if found := GRANT.fullmatch(line):
        return granted(found, names)
    if FOREIGN.search(bare(line)):
        refuse(line)
    if found := ALLOCA.fullmatch(line):
        return [f"  {found[1]} = alloca {in_memory(found[2])}, align {found[3]}"]
    for form, by in ((LOAD, loaded), (STORE, stored)):
        if found := form.fullmatch(line):
            return by(found, names) if "ptr" in found[2 if form is LOAD else 1] else [line]
    if found := TO_ADDRESS.fullmatch(line):
        return [f"  {found[1]} = ptrtoint ptr {found[2]} to i64"]
    if not any(form.fullmatch(line) for form in KNOWN):
        refuse(line)
    return [line]


def declared(line, c_functions):
    """Returns the line that declares a function of C or of LLVM."""
    if found := re.fullmatch(r"declare void @(llvm\.mem(?:set|move|cpy)\.p0(?:\.p0)?)\.i64\((.*), i64, i1 immarg\)(.*)", line):
        return f"declare void @{found[1]}.i32({found[2]}, i32, i1 immarg){found[3]}"
    if found := re.fullmatch(r"declare ptr @(malloc|realloc)\((ptr, )?i64\)", line):
        return f"declare ptr @{found[1]}({found[2] or ''}i32)"
    name = re.search(r"@([\w.]+)\(", line)
    if FOREIGN.search(line) or not name or not (name[1].startswith("llvm.") or name[1] == "free" or name[1] in c_functions):
        refuse(line)
    return line


def narrowed(text, c_functions=()):
    """Returns the module for 32-bit pointers. It may call malloc, realloc, free, these functions of C, and LLVM's own."""
    lines, names, is_body = [], Names(), False
    for line in text.splitlines():
        if is_body:
            is_body = line != "}"
            if line.startswith(" "):
                lines += lines_of(line.split(" ; preds")[0], names)
                continue
            if not re.fullmatch(r'}||(?:"[^"]*"|[-\w.$]+):(?: +; (?:preds = .*|No predecessors!))?', line):
                refuse(line)
        elif line.startswith("define "):
            is_body = True
            if FOREIGN.search(bare(line)):
                refuse(line)
        elif line.startswith("declare "):
            line = declared(line, c_functions)
        elif re.match(rf"{GLOBAL} = ", line):
            if re.search(r"\bptr\b", bare(line)):
                refuse(line)
        elif not re.match(r"$|;|source_filename = |target (datalayout|triple) = |attributes #\d+ = |!", line):
            refuse(line)
        lines.append(line)
    return "\n".join(lines) + "\n"
