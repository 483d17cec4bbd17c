"""What a person does on the page, through the browser's protocol."""
import base64
import json
import pathlib
import os

# The words of the program for the page's settings for a recording, at rate 1/2 and at others
SETTINGS = "--tolerance 3 --fly 1 --start any --phase follow --polarity find --rescan on".split()
HALF = [*SETTINGS, "--keep", "128", "--ahead", "64"]
# The first view shows what was asked for last.
DRAWN = (
    "document.querySelector('#stage-received .frames li')"
    " && !document.getElementById('learn-said').hasAttribute('aria-busy')"
)


def opened(room, view, width=1400, height=1000, is_dark=False):
    browser = room.browser()
    browser.size(width, height, is_dark)
    browser.go(f"{room.server.address}#{view}")
    browser.until("/^Library/.test(document.getElementById('module').textContent)")
    return browser


def text(browser, name):
    """What stands in an element, by its id."""
    return browser.run(f"document.getElementById({json.dumps(name)}).innerText")


def press(browser, name):
    browser.run(f"document.getElementById({json.dumps(name)}).click()")


def count(browser, selector):
    """How many elements there are of a kind."""
    return browser.run(f"document.querySelectorAll({json.dumps(selector)}).length")


def take(browser, path):
    """Chooses a recording, and waits until the page says its name."""
    browser.choose("#file", path)
    browser.until(f"document.getElementById('use-said').textContent.startsWith({json.dumps(path.name)})")


def received(browser, seconds=120):
    """Presses Receive, and waits for what the page says."""
    browser.run("document.getElementById('receive').click()")
    browser.until(
        "!document.getElementById('receive').disabled && !/^Receiving/.test(document.getElementById('use-said').textContent)",
        seconds,
    )
    return browser.run("document.getElementById('use-said').innerText")


def set_options(browser, **options):
    """Puts options into the fields of the page, as a person does."""
    for name, value in options.items():
        browser.run(
            f"""(() => {{ const it = document.getElementById({json.dumps(name if name in ('form', 'from', 'swap') else 'option-' + name)});
            if (it.type === 'checkbox') it.checked = {json.dumps(bool(value))}; else it.value = {json.dumps(str(value))};
            it.dispatchEvent(new Event('change', {{ bubbles: true }})); }})()"""
        )


def frames_of(browser):
    """The frames that the page offers."""
    return base64.b64decode(
        browser.run(
            """(async () => {
        const { last } = await import('/use-view.mjs'), octets = new Uint8Array(await new Blob(last().parts).arrayBuffer());
        let text = '';
        for (let at = 0; at < octets.length; at += 8192) text += String.fromCharCode(...octets.subarray(at, at + 8192));
        return btoa(text);
    })()"""
        )
    )


def slide(browser, name, value):
    """Moves a slider, and waits until what it makes is shown."""
    browser.run(
        f"""(() => {{
            const it = document.getElementById({json.dumps(name)});
            it.value = {value};
            it.dispatchEvent(new Event('input', {{ bubbles: true }}));
        }})()"""
    )
    browser.until(DRAWN)
    return browser.run("document.getElementById('learn-said').innerText")


def processes(browser):
    """The browser's processes: of each, by its number, its processor time in seconds, and its memory in octets."""
    found, below = {}, {}
    for it in pathlib.Path("/proc").iterdir():
        if it.name.isdigit():
            try:
                fields = (it / "stat").read_text().rpartition(")")[2].split()
                below.setdefault(int(fields[1]), []).append(int(it.name))
                found[int(it.name)] = (int(fields[11]) + int(fields[12])) / os.sysconf("SC_CLK_TCK"), int(
                    fields[21]
                ) * 4096
            except OSError:
                pass
    rest, mine = [browser._process.pid], []
    while rest:
        mine.append(rest.pop())
        rest += below.get(mine[-1], [])
    return {it: found[it] for it in mine if it in found}


def processor_time(browser):
    return sum(it for it, _ in processes(browser).values())


def worker_time(browser):
    """The processor time of those threads of the browser that are workers of a page, in seconds."""
    ticks = 0
    for process in processes(browser):
        for it in pathlib.Path(f"/proc/{process}/task").glob("*/stat"):
            try:
                name, _, rest = it.read_text().partition("(")[2].rpartition(")")
            except OSError:
                continue
            if name.startswith("DedicatedWorker"):
                ticks += sum(map(int, rest.split()[11:13]))
    return ticks / os.sysconf("SC_CLK_TCK")
