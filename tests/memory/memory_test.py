"""Holds the memory of the program and of the calls to what docs/PERFORMANCE.md and docs/EMBEDDING.md tell, and the code and its read-only data to request Three:
digits are made in one file, by division, and no powers of ten and no digits are stored. The argument is the file of the stacks that were measured."""
import pathlib
import re
import struct
import subprocess
import sys

PROGRAM = "target/bin/panel"
LIBRARY = "target/staticlib/libexports.a"
PRINTER = "target/staticlib/libprinter.a"
DIGITS = [b"0123456789", b"00010203"]
passed = failed = 0


def test(name, faults):
    """Passes if there are no faults, and shows them else."""
    global passed, failed
    if faults:
        failed += 1
        print(f"failed: {name}")
        for fault in faults:
            print(f"  {fault}")
    else:
        passed += 1


def contents(path):
    """A program, or the one object of a library."""
    if path.endswith(".a"):
        return subprocess.run(["ar", "p", path], check=True, capture_output=True).stdout
    return pathlib.Path(path).read_bytes()


def sections(path, name):
    """The sections of an ELF file of 64 bits that have this name, or this name and a suffix, as bytes."""
    elf = contents(path)
    (offset,) = struct.unpack_from("<Q", elf, 0x28)
    size, count, names = struct.unpack_from("<HHH", elf, 0x3A)
    headers = [struct.unpack_from("<IIQQQQ", elf, offset + k * size) for k in range(count)]
    start = headers[names][4]
    for header in headers:
        end = elf.index(b"\0", start + header[0])
        label = elf[start + header[0] : end].decode()
        if label == name or label.startswith(name + "."):
            yield elf[header[4] : header[4] + header[5]]


def length(path, name):
    return sum(len(section) for section in sections(path, name))


def power_of_ten(n):
    return re.fullmatch("10+", str(n)) is not None


def tables(data):
    """Where two different powers of ten stand side by side, as numbers of 2, 4 or 8 bytes, or digits in their order."""
    faults = [f"{digits}" for digits in DIGITS if digits in data]
    for letter, width in ("H", 2), ("I", 4), ("Q", 8):
        numbers = [n for (n,) in struct.iter_unpack(f"<{letter}", data[: len(data) // width * width])]
        faults += [f"{a}, {b}" for a, b in zip(numbers, numbers[1:]) if a != b and power_of_ten(a) and power_of_ten(b)]
    return faults


def told(document, unit):
    """The figures of a document's tables: the rows with a name, or names, and a number of this unit."""
    text = pathlib.Path(document).read_text(encoding="utf-8")
    rows = re.findall(rf"^\| ([^|]+) \| ([0-9,]+) {unit} \|$", text, re.MULTILINE)
    return {name: int(figure.replace(",", "")) for names, figure in rows for name in names.split(", ")}


def within(name, used, limits, scale):
    if name not in limits:
        return [f"{name}: not told, and is {used:,}"]
    return [] if used <= limits[name] * scale else [f"{name}: {used:,}, and told is {limits[name]:,}"]


stacks = dict(re.findall(r"^stack of (.+): ([0-9]+) bytes$", pathlib.Path(sys.argv[1]).read_text(encoding="utf-8"), re.MULTILINE))
program = told("docs/PERFORMANCE.md", "bytes")
test("read-only data of the program", within("read-only data", length(PROGRAM, ".rodata"), program, 1))
test("code of the program", within("code", length(PROGRAM, ".text"), program, 1))
test("stack of the program", within("stack", int(stacks.pop("the program")), program, 1))
calls = told("docs/EMBEDDING.md", "KiB")
test("there are stacks of calls", [] if stacks else ["none was measured"])
for call, stack in stacks.items():
    test(f"stack of {call}", within(call, int(stack), calls, 1024))

for path in PROGRAM, LIBRARY, PRINTER:
    test(f"{path}: has code", [] if length(path, ".text") > 0 else ["none was found"])
    test(f"{path}: no table of powers of ten or digits", [fault for data in sections(path, ".rodata") for fault in tables(data)])
test("the printer has no read-only data", [f"{length(PRINTER, '.rodata')} bytes"] if length(PRINTER, ".rodata") else [])

# A digit is made by a sum with '0', from a rest by ten: both stand in the printer's file alone.
lines = [(str(path), line) for path in sorted(pathlib.Path("crates").glob("*/src/**/*.rt")) for line in path.read_text(encoding="utf-8").splitlines()]
for made in r"b'0' \+", r"% 10\b":
    places = {path for path, line in lines if re.search(made, line.split("//")[0])}
    test(f"digits are made in one file: {made}", [] if places == {"crates/decimals/src/lib.rt"} else sorted(places) or ["nowhere"])

print(f"{passed} passed, {failed} failed")
sys.exit(failed > 0)
