"""Tests of the modules and of the command for Node: sizes, rows, drawn cases, types, forms of recordings."""
import json
import os
import re
import shutil
import subprocess

from shared import HERE, PAGE, SOURCES, TOP, Skipped, program, source_test, test

NODE = ["node", "--experimental-wasm-memory64"]
MOST = {"tmchan.wasm": 250_000, "tmchan32.wasm": 250_000, "program.wasm": 700_000}


def report_of(made):
    for name, it in made.items():
        print(f"    {name}: {it['all']}, {it['failed']} differ", *it["wrong"])
    assert not any(it["failed"] for it in made.values()) and all(it["all"] for it in made.values())
    return f"{sum(it['all'] for it in made.values()):,} rows and cases"


@test
def sizes(room):
    """Each module is as small as it has to be."""
    found = {name: (PAGE / name).stat().st_size for name in MOST}
    assert all(found[name] <= MOST[name] for name in MOST), found
    return ", ".join(f"{name} {size:,}" for name, size in found.items()) + " octets"


@test
def rows_in_node(room):
    """All rows of the C tests, and 300 drawn cases, in Node."""
    room.rows()
    ran = subprocess.run([*NODE, HERE / "in-node.mjs", PAGE, room.folder], stdout=subprocess.PIPE, check=True)
    return report_of(json.loads(ran.stdout))


@test
def rows_in_browser(room):
    """The same in headless Chromium."""
    room.rows()
    for name in ("rows.txt", "streams.txt", "refusals.json", "cases.json", "library-cases.json"):
        room.server.files[f"/files/{name}"] = room.path(name).read_bytes()
    browser = room.browser()
    browser.go(room.server.address + "icon.svg")
    return report_of(
        browser.run(
            """(async () => {
        const { calls, cases, hostStreams, libraryCases, streams } = await import("/tests/web/rows.mjs");
        const tmchan = await import("/tmchan.mjs"), { runOn } = await import("/program.mjs");
        const read = async (name) => (await fetch(`/files/${name}`)).text(), drawn = JSON.parse(await read("cases.json")), made = {};
        const drawnForLibrary = JSON.parse(await read("library-cases.json"));
        for (const name of ["tmchan.wasm", "tmchan32.wasm"]) {
            const library = await tmchan.load(await tmchan.octetsOf(new URL(`/${name}`, location)));
            made[`${name}: calls`] = calls(library, await read("rows.txt"), JSON.parse(await read("refusals.json")));
            made[`${name}: streams`] = streams(tmchan, library, await read("streams.txt"));
            made[`${name}: drawn cases`] = libraryCases(tmchan, library, drawnForLibrary);
            made[`${name}: the host's streams, and errors`] = await hostStreams(tmchan, library);
        }
        const program = await WebAssembly.compile(await tmchan.octetsOf(new URL("/program.wasm", location)));
        made["program.wasm: drawn cases"] = await cases(program, runOn, drawn);
        return made;
    })()"""
        )
    )


@test
def types(room):
    """What tmchan.d.ts declares is there, and is what programs in TypeScript use (by tsc of Debian's node-typescript)."""
    text = (PAGE / "tmchan.d.ts").read_text()
    declared = re.findall(r"^export (?:class|function|const) (\w+)", text, re.M)
    script = f"""
        import * as it from "{PAGE}/tmchan.mjs";
        console.log(JSON.stringify({json.dumps(declared)}.filter((name) => !(name in it))));"""
    missing = json.loads(
        subprocess.run(["node", "--input-type=module", "-e", script], stdout=subprocess.PIPE, check=True).stdout
    )
    # (what streams and classes make is not exported)
    assert not set(missing), missing
    if not shutil.which("tsc"):
        return f"{len(declared)} names; there is no tsc"
    folder = room.path("types")
    folder.mkdir()
    (folder / "tmchan.d.mts").write_text(text)
    (folder / "types.mts").write_text((HERE / "types.mts").read_text())
    words = [
        "--noEmit",
        "--strict",
        "--target",
        "es2022",
        "--module",
        "nodenext",
        "--moduleResolution",
        "nodenext",
        "--lib",
        "es2022,dom,dom.iterable",
    ]
    ran = subprocess.run(["tsc", *words, "types.mts"], cwd=folder, stdout=subprocess.PIPE, check=False, text=True)
    assert ran.returncode == 0, ran.stdout
    return f"{len(declared)} names, and a program by tsc"


@test
def node_command(room):
    """The program for Node: its pipes, statuses and threads, from a Node without the flag."""
    path, words = room.recording("clean.u8"), ["decode", "--start", "any"]
    octets = path.read_bytes()
    status, frames, notes = program(words, octets)
    command = ["node", str(PAGE / "tmchan-node.mjs")]
    ran = subprocess.run([*command, *words], input=octets, stdout=subprocess.PIPE, stderr=subprocess.PIPE, check=False)
    assert (ran.returncode, ran.stdout, ran.stderr) == (status, frames, notes), ran.stderr[-500:]
    ran = subprocess.run(
        [*command, *words, "--workers", "4"], input=octets, stdout=subprocess.PIPE, stderr=subprocess.PIPE, check=False
    )
    said, _, rest = ran.stderr.partition(b"\n")
    assert b"no threads" in said and (ran.returncode, ran.stdout, rest) == (status, frames, notes)
    for words, status in (
        (["decode", "--depth", "6"], 2),
        (["--help"], 2),
        (["word", "00" * 40], 0),
        (["encode", "--length", "9"], 6),
    ):
        given = b"abc"
        ran = subprocess.run(
            [*command, *words], input=given, stdout=subprocess.PIPE, stderr=subprocess.PIPE, check=False
        )
        assert (ran.returncode, ran.stdout, ran.stderr) == program(words, given) and ran.returncode == status, (
            words,
            ran,
        )
    # An output that is full, an input that is a folder, and one that waits.
    with open("/dev/full", "wb") as full:
        assert (
            subprocess.run(
                [*command, "encode"], input=bytes(223), stdout=full, stderr=subprocess.PIPE, check=False
            ).returncode
            == 4
        )
    folder = os.open("/", os.O_RDONLY)
    assert (
        subprocess.run(
            [*command, "encode"], stdin=folder, stdout=subprocess.PIPE, stderr=subprocess.PIPE, check=False
        ).returncode
        == 3
    )
    os.close(folder)
    ran = subprocess.run(
        ["bash", "-c", f"(printf ab; sleep 0.4; printf c) | {' '.join(command)} encode --length 3 --inner none"],
        stdout=subprocess.PIPE,
        check=True,
    )
    assert ran.stdout == program(["encode", "--length", "3", "--inner", "none"], b"abc")[1]
    return f"{len(frames):,} octets of frames as the program's, statuses 0, 2, 3, 4 and 6"


def sources_of(room):
    """A folder with the modules of web/, and the layout that they load."""
    folder = room.path("sources")
    if not folder.exists():
        folder.mkdir()
        for it in SOURCES.glob("*.mjs"):
            shutil.copy(it, folder)
        with open(TOP / "include/tmchan.h") as header, open(folder / "layout.mjs", "w") as layout:
            subprocess.run([SOURCES / "layout"], stdin=header, stdout=layout, check=True)
    return folder


@source_test
def refused_rooms(room):
    """Where a room is refused, what was taken before is given back."""
    ran = subprocess.run(["node", HERE / "refused.mjs", sources_of(room)], stdout=subprocess.PIPE, check=True, text=True)
    assert int(ran.stdout) > 30, ran.stdout
    return f"{int(ran.stdout)} of them"


@source_test
def receive_words(room):
    """The command of tmchan-receive that the page's lines of JSON have: with an option of the link always."""
    cases = [
        ({}, ["--code", "rs16"]),
        ({"depth": 5, "rescan": "on"}, ["--depth", "5"]),
        ({"tolerance": 0, "batch": 1}, ["--code", "rs16", "--tolerance", "0", "--batch", "1"]),
        ({"start": "zero", "inner": "none", "pack": "off"}, ["--inner", "none", "--start", "zero"]),
    ]
    script = f"""
        import {{ receiveWords }} from "{sources_of(room)}/lines.mjs";
        console.log(JSON.stringify({json.dumps([it for it, _ in cases])}.map((it) => receiveWords(it, "u8", true))));"""
    ran = subprocess.run(["node", "--input-type=module", "-e", script], stdout=subprocess.PIPE, check=True)
    assert json.loads(ran.stdout) == [["--input", "u8", "--swap", *words] for _, words in cases], ran.stdout
    return f"{len(cases)} commands"


@source_test
def samples(room):
    """The symbols of each form are those of the Python package, octet for octet (by numpy, where it is there)."""
    ran = subprocess.run(
        ["/usr/bin/python3", HERE / "samples.py", room.folder],
        env={**os.environ, "PYTHONPATH": str(TOP / "python")},
        stdout=subprocess.PIPE,
        check=False,
        text=True,
    )
    if ran.returncode == 77:
        raise Skipped("Debian's python3-numpy")
    assert ran.returncode == 0, ran.stdout
    script = f"""
        import {{ readFileSync, writeFileSync }} from "node:fs"; import {{ Symbols }} from "{SOURCES}/recordings.mjs";
        for (const [form, swap, pieces] of JSON.parse(readFileSync("{room.folder}/forms.json"))) {{
            const it = new Symbols(form, swap), given = new Uint8Array(readFileSync("{room.folder}/" + form + ".given")), made = [];
            let at = 0;
            for (const size of pieces) {{ made.push(it.push(given.subarray(at, at + size))); at += size; }}
            made.push(it.finish());
            writeFileSync("{room.folder}/" + form + (swap ? ".swapped" : "") + ".got", Buffer.concat(made));
        }}"""
    subprocess.run(["node", "--input-type=module", "-e", script], check=True)
    count = 0
    for form, swap, _ in json.loads(room.path("forms.json").read_text()):
        name = form + (".swapped" if swap else "")
        got, right = room.path(f"{name}.got").read_bytes(), room.path(f"{name}.right").read_bytes()
        assert got == right, (
            name,
            len(got),
            len(right),
            [(k, a, b) for k, (a, b) in enumerate(zip(got, right)) if a != b][:5],
        )
        count += len(got)
    return f"{count:,} symbols"
