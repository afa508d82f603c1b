#!/usr/bin/env python3
"""Plants faults in what is believed and not proved, one at a time, and prints which test sees each:
the heap, and the JavaScript over the calls.

usage: faults.py [WORD]      (those whose file or text has the word)
       faults.py --check     only looks whether each fault can be planted: its file has its text once

It works on a copy of bindings/ in a temporary folder, over the C file of the folder DIST, or of dist
without it, and the native library. It takes some minutes, and CI only does the check. A fault that
no test sees ends it with status 1.
"""

import os
import pathlib
import shutil
import subprocess
import sys
import tempfile

TOP = pathlib.Path(__file__).resolve().parent.parent.parent
OUT = TOP / "bindings" / "out"
DIST = pathlib.Path(os.environ.get("DIST", TOP / "dist")).resolve()

HEAP = "wasm/heap.c"
CORE, BLOCK, CID, TEXT, WRITER, CAR, CAR_FILE, PB = (
    f"js/src/{name}.js"
    for name in ("core", "block", "cid", "text", "writer", "car", "car-file", "pb")
)
OF_UNIXFS = [
    f"js/src/{name}.js" for name in ("walk", "file", "folder", "unixfs", "pack", "car-writer")
]
WALK, FILE, FOLDER, UNIXFS, PACK, CAR_WRITER = OF_UNIXFS

FAULTS = [
    # The heap.
    (HEAP, "ALIGNMENT = 16", "ALIGNMENT = 8"),
    (HEAP, "    top += HEAD + taken;", "    top += taken;"),
    (HEAP, "block, head_of(from)->size);", "block, head_of(from)->size / 2);"),
    (HEAP, "    free(block);\n    return moved;", "    return moved;"),
    (HEAP, "if (from == last) {", "if (1) {"),
    (HEAP, "        last = head_of(block)->before;", "        last = heap;"),
    (HEAP, "if (before != heap && head_of(before)->next != IN_USE) {", "if (0) {"),
    (HEAP, "if (block != last && head_of(after(block))->next != IN_USE) {", "if (0) {"),
    (HEAP, "        unlist(before);\n", ""),
    (HEAP, "    if (head->next) head_of(head->next)->prior = head->prior;\n", ""),
    (HEAP, "    if (list) head_of(list)->prior = block;\n", ""),
    (HEAP, "if (head_of(block)->size >= taken) {", "if (head_of(block)->size + HEAD >= taken) {"),
    (HEAP, "    if (head->size - size < HEAD + ALIGNMENT) return;\n", "    return;\n"),
    (HEAP, "    head_of(after(block))->before = rest;\n", ""),
    (HEAP, "TRIES = 8", "TRIES = 1"),
    (HEAP, "(PAGE - 1)) / PAGE) != SIZE_MAX", "(PAGE - 1)) / PAGE) != 0"),
    (HEAP, "    if (end > bound) return 0;\n", ""),
    (
        HEAP,
        "    if (!reaches(top, HEAD + taken)) return NULL;\n",
        "    reaches(top, HEAD + taken);\n",
    ),
    (
        HEAP,
        "    heap = top = last = base() + aligned(size);",
        "    heap = top = last = base() + aligned(size) / 2;",
    ),
    (HEAP, "if (live != 0 || !reaches(", "if (!reaches("),
    # The stack.
    ("wasm.sh", " --stack-first", ""),
    # What JavaScript passes.
    (CORE, "const RECORD = 96", "const RECORD = 80"),
    (CORE, "this.offsetAt = begins + 4", "this.offsetAt = begins"),
    (CORE, "this.cidAt = begins + 8", "this.cidAt = begins + 4"),
    (CORE, "this.room = begins + RECORD", "this.room = begins"),
    (BLOCK, "out, size, core.neededAt, core.offsetAt)", "out, size, core.offsetAt, core.neededAt)"),
    (BLOCK, "spans, most, core.neededAt,", "spans, most, core.offsetAt,"),
    (
        BLOCK,
        "tape, most, core.neededAt, core.offsetAt)",
        "tape, most, core.offsetAt, core.neededAt)",
    ),
    (
        BLOCK,
        "kombilad_block_check(core.room, size, levels, values,",
        "kombilad_block_check(core.room, size, values, levels,",
    ),
    (BLOCK, "kombilad_links_count(core.room, size,", "kombilad_links_count(core.room, size - 1,"),
    (PB, "tape, most, core.neededAt, core.offsetAt)", "tape, most, core.offsetAt, core.neededAt)"),
    (CID, "length, core.cidAt, core.neededAt)", "length, core.cidAt, core.offsetAt)"),
    (CID, "(code, core.room, size, core.cidAt)", "(code, core.room, size + 1, core.cidAt)"),
    (
        CID,
        "kombilad_verify(at, cid.length, core.room, size)",
        "kombilad_verify(at, cid.length, core.room, size - 1)",
    ),
    (CORE, "most = (1n << 64n) - 1n", "most = 1n << 64n"),
    (CID, "number > 127n; number >>= 7n", "number > 128n; number >>= 7n"),
    # The JavaScript.
    (CORE, "if (this.bytes.length === 0) this.view()", ""),
    (CORE, "if (reported === error) keep(core)", "keep(core)"),
    (CORE, "{ return core.bound === bound }", "{ return true }"),
    (CORE, "  instance = undefined\n  try {", "  try {"),
    (
        CORE,
        "error instanceof WebAssembly.RuntimeError || error instanceof RangeError",
        "error instanceof RangeError",
    ),
    (CORE, "    this.calls.kombilad_wasm_bound(bound)\n", ""),
    (CORE, "const has = status === 6 || status === 7 || status >= 48", "const has = status >= 48"),
    (CORE, "const after = (size + 15) & ~15", "const after = size & ~15"),
    (CORE, "  if (size > LARGEST) throw ofStatus(1)\n  const after", "  const after"),
    (
        CORE,
        "return new Uint8Array(arrayBuffer(input), arrayOffset(input), size)",
        "return new Uint8Array(arrayBuffer(input))",
    ),
    (CORE, "new Uint8Array(input, 0, bufferSize(input))", "new Uint8Array(input)"),
    (CORE, "    if (size === 0) arrayKeys(input)\n", ""),
    (CORE, "{ return arraySize(bytes) }", "{ return bytes.length }"),
    (CORE, "if (sizeOf(bytes) !== size) throw", "if (false) throw"),
    (
        BLOCK,
        "if (status === 0 || status === 3) return status === 0",
        "if (status === 0 || status === 3) return true",
    ),
    (BLOCK, "const most = Math.floor(size / SHORTEST_LINK)", "const most = Math.floor(size / 16)"),
    (BLOCK, "const begins = room + words[at]", "const begins = words[at]"),
    (BLOCK, "const SAFE_HIGH = 0x1fffff", "const SAFE_HIGH = 0x3fffff"),
    (BLOCK, "(high === SAFE_HIGH && low < 0xffffffff)", "high === SAFE_HIGH"),
    (BLOCK, ": ~longs[(at + 2) >>> 1]", ": -longs[(at + 2) >>> 1]"),
    (BLOCK, "getFloat64(block + words[at + 2])", "getFloat64(block + words[at + 2], true)"),
    (
        BLOCK,
        "high * TWO_32 + (words[at + 2] >>> 0) : longs",
        "high * TWO_32 + words[at + 2] : longs",
    ),
    (
        BLOCK,
        "TWO_32 + (words[at + 2] >>> 0) : longs[(at + 2) >>> 1]",
        "TWO_32 + (words[at + 2] >>> 0) : longs[at >>> 1]",
    ),
    (
        BLOCK,
        "if ((isFew || this.mayInherit(key)) && hasOwn(INHERITED, key)) define(map, key, value)\n"
        "      else map[key] = value",
        "map[key] = value",
    ),
    (
        BLOCK,
        "this.calls < CALLS ? this.list(words[at + 2]) : this.deep(at)",
        "this.list(words[at + 2])",
    ),
    (BLOCK, "parents.push(parent, isMap, left)", "parents.push(parent, isMap, left - 1)"),
    (BLOCK, "return parents.length === 3 ? parent : parents[3]", "return parent"),
    (BLOCK, "    most = count\n", "    most = count - 1\n"),
    (
        BLOCK,
        "case 3: return [this.value(), this.value(), this.value()]",
        "case 3: return [this.value(), this.value()]",
    ),
    (BLOCK, "        value = negative(core, at)", "        value = -integer(core, at)"),
    (
        BLOCK,
        "      if (words[at] === 3) {\n        this.at = at + 4",
        "      if (words[at] === 3) {\n        this.at = at + 8",
    ),
    (PB, "    most = count\n", "    most = count - 1\n"),
    (
        PB,
        "      case 3: link.Tsize = integer(core, at); break",
        "      case 3: link.Tsize = words[at + 2]; break",
    ),
    (
        PB,
        "node.Data = bytes.slice(begins, begins + words[at + 1])",
        "node.Data = bytes.subarray(begins, begins + words[at + 1])",
    ),
    (
        CID,
        "return core.bytes.slice(cid + 1, cid + 1 + core.bytes[cid])",
        "return core.bytes.slice(cid, cid + 1 + core.bytes[cid])",
    ),
    (
        CID,
        "const own = new Uint8Array(bytesOf(bytes))\n    run(isCid, own)",
        "const own = new Uint8Array(bytesOf(bytes))",
    ),
    (
        CID,
        "return this.version === 0 ? DAG_PB : varint",
        "return this.version === 0 ? 0x55 : varint",
    ),
    (CID, "if (unit > 127) break\n    core", "core"),
    (CID, "    this['/'] = this.bytes\n", ""),
    (CID, "      if (code !== DAG_PB) throw ofName('WRONG_VERSION')\n", ""),
    (CID, "if (!hasBytes && value[OLD] !== true) return null", "if (!hasBytes) return null"),
    (CID, "return status === 0\n", "return status !== 0\n"),
    (CID, "const UNKNOWN_HASH = 112", "const UNKNOWN_HASH = 113"),
    (TEXT, "let same = at\n", "let same = end\n"),
    (TEXT, "if (!isAscii(bytes, at, end)) return", "if (false) return"),
    (TEXT, "if (key.length === length) keys[place]", "keys[place]"),
    (
        TEXT,
        "if (at < this.from || end > this.to) this.take(at)",
        "if (at < this.from || at > this.to) this.take(at)",
    ),
    (
        TEXT,
        "return this.piece.substring(at - this.from, end - this.from)",
        "return this.piece.substring(at, end)",
    ),
    (WRITER, "a.length - b.length || (a < b ? -1 : 1)", "a < b ? -1 : 1"),
    (WRITER, "block = writer.written(value, byUtf8)", "block = writer.written(value, byUnits)"),
    (WRITER, "if (!run(isCanonicalIn, block)) {", "if (false) {"),
    (WRITER, "const WIDEST = 3", "const WIDEST = 2"),
    (WRITER, "if (moved !== begins) this", "if (false) this"),
    (WRITER, "    checkUnicode(text)\n    this.more", "    this.more"),
    (
        WRITER,
        "argument < 24 ? 1 : argument < 0x100 ? 2 : argument < 0x10000 ? 3 : 5",
        "argument < 24 ? 1 : argument < 0x100 ? 2 : 3",
    ),
    (
        WRITER,
        "      this.head(3, content.length)\n      return this.put(content,",
        "      this.head(3, length)\n      return this.put(content,",
    ),
    (WRITER, "isSorted && byLength(before, key) < 0", "isSorted"),
    (WRITER, "this.more(HEAD + length)", "this.more(length)"),
    (WRITER, "this.at + (length < 24 ? 1 : 2)", "this.at + 1"),
    (WRITER, "argument < 0x100)", "argument <= 0x100)"),
    (WRITER, "if (!Number.isFinite(number)) throw ofName('ENCODE_NUMBER')", ""),
    (WRITER, "if (argument >= 1n << 64n) throw", "if (argument > 1n << 64n) throw"),
    (
        WRITER,
        "if (text.isWellFormed !== undefined ? !text.isWellFormed() : LONE.test(text)) throw ofName('ENCODE_STRING')",
        "",
    ),
    (WRITER, "    this.at = this.level = 0\n", "    this.at = 0\n"),
    (WRITER, "if (++this.level > LEVELS)", "if (false)"),
    (CAR, "    if (error !== undefined) throw error\n", ""),
    (CAR, "setBigUint64(records + 16, at.end, true)", "setBigUint64(records + 16, 0n, true)"),
    (CAR, "section.offset += begins", "section.offset += 1"),
    (CAR, "const bytes = bytesOf(value)", "const bytes = value"),
    (CAR, "if (!named.has(key)) named.set(key, item)", "named.set(key, item)"),
    (CAR, "offset: begins, blockOffset: offset }", "offset: begins, blockOffset: begins }"),
    (CAR_FILE, "blockLength - there, blockOffset + there)", "blockLength - there, there)"),
    (
        CAR_FILE,
        "if (bytesRead === 0) throw ofName('CAR_UNEXPECTED_END', blockOffset + there)",
        "if (bytesRead === 0) break",
    ),
    (CAR_FILE, "async close () { await this._file.close() }", "async close () {}"),
    (CAR, "    if (this._begun) throw ofName('CAR_READ_ONCE')\n", ""),
    (WALK, "if (block === undefined || block === null)", "if (block === undefined)"),
    (WALK, "    error.cid = cid\n", ""),
    (WALK, "if (cid.multihash.code === IDENTITY) return cid.multihash.digest", ""),
    (
        WALK,
        "for (let each = 0; each < count; each++) yield",
        "if (count > 0) for (let each = 0; each < 1; each++) yield",
    ),
    (FILE, "longOf(start ?? 0, 'the start')", "0n"),
    (FILE, ": longOf(length, 'the length')", ": longOf(length, 'the length') + 1n"),
    (FILE, "return Math.min(this.needed(), 1)", "return 1"),
    (FILE, "item () { return this.bytes.slice(", "item () { return this.bytes.subarray("),
    (
        FILE,
        "short(waiting, 2 ** 18), short(levels, 64)",
        "short(levels, 64), short(waiting, 2 ** 18)",
    ),
    (FOLDER, "if (size + behind > this.size) {", "if (false) {"),
    (
        FOLDER,
        "const most = Math.floor(size / SHORTEST_ENTRY)",
        "const most = Math.floor(size / ENTRY)",
    ),
    (
        FOLDER,
        "cid: checkedCid(bytes.slice(at + 1, at + 1 +",
        "cid: checkedCid(bytes.slice(at, at + 1 +",
    ),
    (FOLDER, "tsize: hasSize === 0 ?", "tsize: hasSize !== 0 ?"),
    (FOLDER, "getBigUint64(at + 104, true)", "getBigUint64(at + 96, true)"),
    (FOLDER, "    if (from === to) continue\n", ""),
    (
        FOLDER,
        "blocks.push(core.bytes.slice(folderAt -",
        "blocks.push(core.bytes.subarray(folderAt -",
    ),
    (
        FOLDER,
        "status === MISSING ? undefined : checkedCid",
        "status === MORE ? undefined : checkedCid",
    ),
    (UNIXFS, "const [SIZE, MODE, TIME] = [1, 2, 4]", "const [SIZE, MODE, TIME] = [1, 4, 2]"),
    (UNIXFS, "numbers.getUint32(node + 28, true)", "numbers.getUint32(node + 24, true)"),
    (UNIXFS, "numbers.getBigInt64(node + 16, true)", "numbers.getBigUint64(node + 16, true)"),
    (UNIXFS, "kind === SYMLINK ? bytes.slice", "true ? bytes.slice"),
    (UNIXFS, "(mode == null ? 0 : MODE)", "(mode ? MODE : 0)"),
    (UNIXFS, "-(2n ** 63n), 2n ** 63n - 1n", "0n, 2n ** 63n - 1n"),
    (UNIXFS, "0n, 999999999n", "0n, 1000000000n"),
    (WALK, "      this.isStopped = true\n", ""),
    (PACK, "if (there === chunk.length) {", "if (there > 0) {"),
    (PACK, "            if (bytes.length !== length) throw detached()\n", ""),
    (PACK, "packing.end(chunk.subarray(0, there), attributes)", "packing.end(chunk, attributes)"),
    (PACK, "byBytes(a.utf8, b.utf8)", "a.name < b.name ? -1 : 1"),
    (PACK, "      await put(made.cid, made.block)", "      put(made.cid, made.block)"),
    (PACK, "        packing.free()\n", ""),
    (PACK, "isCurrent(spare) ? spare", "true ? spare"),
    (
        PACK,
        "packed: { cid: cid(),",
        "packed: { cid: checkedCid(bytes.subarray(room + 1, room + 35)),",
    ),
    (PACK, "    await reader.cancel()\n", ""),
    (PACK, "throw ofEntry(ofStatus(status),", "throw (ofStatus(status),"),
    (CAR_WRITER, "section.set(block, head.length)", "section.set(block)"),
    (CAR_WRITER, "(roots.length + 1) * SECTION", "(roots.length + 1) * 80"),
    (CAR_WRITER, "CID.decode(ownCid(root).bytes).bytes", "ownCid(root).bytes"),
]


def seen(copy, file, cases):
    """The first test that fails of this fault, or None."""
    bindings = copy / "bindings"
    package = bindings / "out" / "js" / "package"
    env = {
        **os.environ,
        "DIST": str(DIST),
        "PACKAGE": str(copy / "node_modules" / "kombilad"),
        "CASES": str(cases),
        "HEADER": str(bindings / "c" / "kombilad.h"),
        "FILES": str(copy / "files"),
        "FOLDERS": str(copy / "folders"),
    }
    env["HEAP"] = str(bindings / "out" / "wasm" / "heap.wasm")
    steps = []
    tests = ["heap.test.mjs", "native.test.mjs", "api.test.mjs", "car.test.mjs"]
    if file.startswith("js/"):
        shutil.copy(bindings / file, package / "src")
        tests = ["api.test.mjs", "car.test.mjs", "native.test.mjs"]
        if file in OF_UNIXFS:
            tests = ["pack.test.mjs", "file.test.mjs", "folder.test.mjs"]
    else:
        steps.append(("wasm.sh", ["./wasm.sh"]))
    steps += [(name, ["node", "--test", f"js/test/{name}"]) for name in tests]
    for name, words in steps:
        try:
            if subprocess.run(
                words,
                cwd=bindings,
                env=env,
                stdout=subprocess.DEVNULL,
                stderr=subprocess.DEVNULL,
                timeout=120 if words[0] == "node" else 300,
            ).returncode:
                return name
        except subprocess.TimeoutExpired:
            return f"{name}, by its time"
    return None


def stale():
    """Returns the faults whose text doesn't stand in its file once."""
    return [
        (file, old)
        for file, old, _ in FAULTS
        if (TOP / "bindings" / file).read_text(encoding="utf-8").count(old) != 1
    ]


def main():
    word = sys.argv[1] if len(sys.argv) > 1 else ""
    for file, old in stale():
        sys.exit(f"faults.py: bindings/{file} doesn't have this text once: {old!r}")
    if word == "--check":
        return
    missed = 0
    with tempfile.TemporaryDirectory(prefix="faults-") as folder:
        copy, cases = pathlib.Path(folder), pathlib.Path(folder) / "cases"
        library = os.environ.get("LIBRARY", str(OUT / "libkombilad.so.0"))
        subprocess.run(
            [
                sys.executable,
                "-B",
                str(TOP / "bindings/test/native_cases.py"),
                library,
                str(cases),
                "3000",
            ],
            check=True,
        )
        shutil.copytree(
            TOP / "bindings", copy / "bindings", ignore=shutil.ignore_patterns("out", "rust")
        )
        for name in ("VERSION", "LICENSE-APACHE", "LICENSE-MIT", ".ci", "tests"):
            (copy / name).symlink_to(TOP / name)
        for script, made in (
            ("test/file_cases.py", "files"),
            ("js/test/folder_cases.py", "folders"),
        ):
            subprocess.run(
                [sys.executable, "-B", str(TOP / "bindings" / script), str(copy / made)],
                check=True,
                env={**os.environ, "PYTHONPATH": str(TOP)},
            )
        modules = copy / "node_modules"
        modules.mkdir()
        (modules / "kombilad").symlink_to(copy / "bindings" / "out" / "js" / "package")
        without = seen(copy, "wasm/", cases) or seen(copy, WALK, cases)
        if without:
            sys.exit(f"faults.py: without a fault {without} fails")
        print("| file | fault | seen by |\n|---|---|---|", flush=True)
        was = "js/"  # the module is the one without a fault
        for file, old, new in FAULTS:
            if word not in file and word not in old:
                continue
            if file.startswith("js/") and not was.startswith("js/"):
                # The module of the fault before this one goes.
                assert seen(copy, "wasm/", cases) is None
            was = file
            path = copy / "bindings" / file
            text = path.read_text(encoding="utf-8")
            path.write_text(text.replace(old, new), encoding="utf-8")
            by = seen(copy, file, cases)
            path.write_text(text, encoding="utf-8")
            if file.startswith("js/"):
                shutil.copy(path, copy / "bindings" / "out" / "js" / "package" / "src")
            missed += by is None
            line = " ".join(new.split())[:70] or f"without {' '.join(old.split())[:60]}"
            print(f"| {file} | `{line}` | {by or '**nothing**'} |", flush=True)
    sys.exit(1 if missed else 0)


if __name__ == "__main__":
    main()
