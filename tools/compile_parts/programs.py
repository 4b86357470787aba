"""Compares two built programs: section by section, and by their functions."""
import struct

# Sections that name how a program was made: the compiler's line, and the linker's sum over the file.
OF_MAKING = {".comment", ".note.gnu.build-id", ".symtab", ".strtab", ".shstrtab"}
# The kinds of a section that has nothing in the file, and of a symbol that is a function.
NO_BITS, FUNCTION = 8, 2


class Program:
    """An ELF file of 64 bits: its sections' bytes by name, and its functions' bytes by name."""

    def __init__(self, data):
        start, = struct.unpack_from("<Q", data, 0x28)
        size, count, names = struct.unpack_from("<HHH", data, 0x3A)
        heads = [struct.unpack_from("<IIQQQQIIQQ", data, start + size * it) for it in range(count)]

        def text(table, at):
            begin = heads[table][4] + at
            return data[begin : data.index(b"\0", begin)].decode()

        self.sections = {
            text(names, it[0]): b"" if it[1] == NO_BITS else data[it[4] : it[4] + it[5]] for it in heads
        }
        self.functions = {}
        symbols = next((it for it in heads if text(names, it[0]) == ".symtab"), None)
        for at in range(symbols[4], symbols[4] + symbols[5], 24) if symbols else ():
            name, kind, _, section, address, length = struct.unpack_from("<IBBHQQ", data, at)
            if kind & 15 == FUNCTION and 0 < section < count and length:
                begin = heads[section][4] + address - heads[section][3]
                self.functions[text(symbols[6], name)] = data[begin : begin + length]


def compared(made, proved):
    """How the compiled program differs from the proved one, of which these are the bytes, in words; and the share of the
    code that functions of another size are."""
    made, proved = Program(made), Program(proved)
    names = {*made.sections, *proved.sections}
    other = sorted(it for it in names if made.sections.get(it) != proved.sections.get(it))
    if {*other} <= OF_MAKING:
        return f"the same bytes in each section, but for {', '.join(other) or 'none'}", 0
    functions = {*made.functions, *proved.functions}
    size = lambda program, name: len(program.functions.get(name, b""))  # noqa: E731
    ill = sorted(it for it in functions if size(made, it) != size(proved, it))
    part = sum(max(size(made, it), size(proved, it)) for it in ill) / max(1, sum(map(len, proved.functions.values())))
    text = f"{len(ill)} of {len(functions)} functions are of another size, {100 * part:.2f} % of the code"
    return f"{text}: {', '.join(ill[:20])}", part
