"""Tests the page in Chromium: page.py PAGE SQRE EXPLAIN [--pictures DIR]. The last line is 'N passed, M failed'."""

import base64
import json
import pathlib
import subprocess
import sys
import tempfile
import time

from browser import Browser, Tab

TOP = pathlib.Path(__file__).resolve().parent.parent
EXAMPLES = TOP / "crates/examples/data"
REFUSALS = TOP / "crates/explain/data"

SUM = "stream(plain, col(n, int))\nmain(iter(atom(any, n), 0, add(x, y)))\n"
PULSES = SUM.replace("col(n", "col(pulses").replace("any, n", "any, pulses")
AMBIGUOUS = "stream(plain, col(n, int))\nmain(iter(iter(atom(any, n), 0, add(x, y)), 0, add(x, y)))\n"
UNKNOWN = "# Café\nstream(plain, col(n, int))\nmain(iter(atom(any, m), 0, add(x, y)))\n"

DONE = "document.body.dataset.state === 'done'"
TEXT = "document.getElementById('{}').innerText"

passed = failed = 0


def same(test, wanted, found):
    global passed, failed
    if wanted == found:
        passed += 1
        return
    failed += 1
    print(f"FAILED {test}\nwanted: {str(wanted)[:600]}\nfound:  {str(found)[:600]}")


def holds(test, found):
    same(test, True, bool(found))


def has(test, wanted, found):
    if wanted not in found:
        same(test, f".. {wanted} ..", found)
    else:
        same(test, True, True)


def asked(tab, program, words, files):
    """The status and the bytes of a run of a program in the page."""
    texts = {name: base64.b64encode(text).decode() for name, text in files.items()}
    code = f"""(async () => {{
        const files = {json.dumps(texts)};
        for (const name of Object.keys(files)) files[name] = bytesOfBase64(files[name]);
        const ran = await page.background.ask('call', {{ program: '{program}', words: {json.dumps(words)}, files }});
        let text = '';
        for (const byte of ran.bytes) text += String.fromCharCode(byte);
        return [ran.status, btoa(text)];
    }})()"""
    status, text = tab.js(code)
    return status, base64.b64decode(text)


def native(program, words, files):
    """The same of the program itself, in a folder with these files alone."""
    with tempfile.TemporaryDirectory() as room:
        for name, text in files.items():
            (pathlib.Path(room) / name).write_bytes(text)
        ran = subprocess.run([program, *words], cwd=room, stdin=subprocess.DEVNULL, stdout=subprocess.PIPE)
    return ran.returncode, ran.stdout


def compare(tab, test, name, program, words, files):
    same(test, native(program, words, files), asked(tab, name, words, files))


def compare_examples(tab, sqre, explain):
    for folder in sorted(EXAMPLES.iterdir()):
        items = folder / "readings.csv"
        files = {"query.sqre": (folder / "query.sqre").read_bytes(), "items": items.read_bytes() if items.exists() else b""}
        for command in ("check", "why", "bound", "rewrite"):
            compare(tab, f"{command} of {folder.name}", "sqre", sqre, [command, "query.sqre"], files)
        compare(tab, f"a drill of {folder.name}", "sqre", sqre, ["drill", "query.sqre", "50", "7"], files)
        compare(tab, f"the answers to {folder.name}", "sqre", sqre, ["run", "query.sqre", "items"], files)
        if files["items"].count(b"\n") <= 1000:
            compare(tab, f"the answers to {folder.name}, searched anew", "sqre", sqre, ["slow", "query.sqre", "items"], files)
        compare(tab, f"the explanation of {folder.name}", "explain", explain, ["query.sqre"], files)


def compare_refusals(tab, sqre, explain):
    for query in sorted(REFUSALS.iterdir()):
        files = {query.name: query.read_bytes()}
        compare(tab, f"why of {query.name}", "sqre", sqre, ["why", query.name], files)
        compare(tab, f"the explanation of {query.name}", "explain", explain, [query.name], files)


def compare_faults(tab, sqre, explain):
    for words in ([], ["go"], ["run", "query"], ["check", "nothing"], ["run", "query", "nothing"]):
        compare(tab, f"the words {words}", "sqre", sqre, words, {"query": SUM.encode()})
    compare(tab, "no words to explain", "explain", explain, [], {})
    compare(tab, "an explanation of nothing", "explain", explain, ["nothing"], {})


def rows(tab):
    """The lines in sight with their answers."""
    code = """page.items.lines.slice(0, document.getElementById('answers').children.length).map((line, at) =>
        [line, document.getElementById('answers').children[at].innerText.trim()])"""
    return tab.js(code)


def put(tab, place, text):
    """Types a text in place of all that is there."""
    tab.js(f"(document.getElementById('{place}').focus(), document.getElementById('{place}').select())")
    tab.type(text)
    tab.js("new Promise((resolve) => setTimeout(resolve, 0))")
    return tab.wait(DONE)


def test_opening(browser, address):
    begun = time.monotonic()
    tab = Tab(browser, address)
    holds("an example is answered", tab.wait(DONE))
    took = time.monotonic() - begun
    print(f"the page is opened and an example is answered in {took:.1f} s")
    holds("an example is answered in a moment", took < 8)
    same("the lines of the example, with their answers", [["time,degrees", ""], ["08:00,91.5", "1"], ["08:10,92.0", "2"], ["08:20,89.9", "0"],
         ["08:30,90", "1"], ["08:40,90.4", "2"], ["08:50,93.1", "3"]], rows(tab))
    has("what is kept", "17 slots, for at most 3 starts", tab.js(TEXT.format("verdict")))
    same("a line of the chart with six numbers", [1, 6],
         tab.js("['path.series', '#chart > circle'].map((it) => document.querySelectorAll(it).length)"))
    return tab


def test_skipped(tab):
    tab.js("page.showExample('rainfall')")
    holds("rainfall is answered", tab.wait(DONE))
    found = dict(rows(tab))
    tab.js("page.pointAt(4)")
    has("the whole of it below", "Line 5: ridge,n/a  →  skipped number 2 (rain: not written", tab.js(TEXT.format("told")))
    same("skipped lines say why", ["skipped number 2 rain: not written as a number of this column"],
         [it for it in found.values() if it.startswith("skipped number")])


def test_long_example(tab):
    tab.js("page.showExample('packets')")
    holds("a long example is answered", tab.wait(f"{DONE} && page.items.told.length === 16_000"))
    expected = (EXAMPLES / "packets" / "expected.awk", EXAMPLES / "packets" / "readings.csv")
    wanted = subprocess.run(["awk", "-F,", "-f", *expected], capture_output=True, check=True, text=True).stdout
    same("as by its program for awk", wanted.splitlines()[-1], tab.js("page.items.told.at(-1)"))


def test_refusals(tab):
    holds("a refused query is typed", put(tab, "query", UNKNOWN))
    same("the place is marked", "atom(any, m)", tab.js("[...document.querySelectorAll('#colors mark')].map((it) => it.textContent).join('')"))
    told = tab.js(TEXT.format("verdict"))
    for words in ("Refused: name", "Line 3, column 11", "main(iter(atom(any, m), 0, add(x, y)))\n          ^^^^^^^^^^^^", "Not known here: m"):
        has("what is said of the refusal", words, told)
    holds("another query is typed", put(tab, "query", AMBIGUOUS))
    has("the word with two readings", "Refused: iter", tab.js(TEXT.format("verdict")))
    same("its words", "refused iter 32..84\nfirst 0\nsecond 0 0", tab.js("document.querySelector('#verdict details pre').textContent"))
    holds("it is ended too early", put(tab, "query", "stream(plain, col(n, int))\nmain("))
    same("the end of the text is marked", 1, tab.js("document.querySelectorAll('#colors mark.end').length"))
    holds("the query is mended", put(tab, "query", SUM))
    same("no place is marked", 0, tab.js("document.querySelectorAll('#colors mark').length"))


def test_readings(tab):
    tab.js("page.showExample('refused_batches')")
    holds("a query of batches is refused", tab.wait(DONE))
    same("five items are read as two and three, and as three and two", 5, tab.js("document.querySelectorAll('.readings tbody tr').length"))
    same("which piece reads each", [["1", "1", "1", "2", "2"], ["1", "1", "2", "2", "2"]], sorted(
        tab.js("[0, 1].map((at) => [...document.querySelectorAll('.readings tbody tr')].map((row) => row.children[at].textContent))")))


def test_link(browser, tab, address):
    put(tab, "query", PULSES)
    put(tab, "items", "5\n7 é\n-2\n")
    tab.js("document.getElementById('share').click()")
    holds("the link is in the address", tab.wait("location.hash.startsWith('#try=')"))
    other = Tab(browser, address + tab.js("location.hash"))
    holds("the link is opened", other.wait(DONE))
    both = "[document.getElementById('query').value, document.getElementById('items').value]"
    same("the link brings back the same", [PULSES, "5\n7 é\n-2\n"], other.js(both))
    same("its answers", [["5", "5"], ["7 é", "skipped number 1 pulses: not written as a number of this column"], ["-2", "3"]], rows(other))
    other.close()
    broken = Tab(browser, address + "#try=nothing")
    holds("a broken link is opened", broken.wait(DONE))
    has("a broken link", "The link is broken", broken.js(TEXT.format("notice")))
    broken.close()


def test_file(tab):
    put(tab, "query", SUM)
    tab.js("""(() => {
        const dropped = new DataTransfer();
        dropped.items.add(new File(['5\\r\\n7\\r\\n'], 'items.csv'));
        document.body.dispatchEvent(new DragEvent('drop', { dataTransfer: dropped, bubbles: true, cancelable: true }));
    })()""")
    holds("a file that is dropped is answered", tab.wait(f"{DONE} && page.items.told.join() === '5,12'"))


def focused(tab):
    return tab.js("document.activeElement.id")


def test_keyboard(browser, address):
    tab = Tab(browser, address)
    holds("the page is opened to be used by its keys", tab.wait(DONE))
    order = []
    for _ in range(7):
        tab.key("Tab")
        order.append(focused(tab))
    same("Tab goes through all that can be used", ["menu", "open", "share", "query", "verdict", "items", "chart"], order)
    tab.key("ArrowRight")
    has("an arrow key goes to the first answer", "Line 2: 08:00,91.5  →  1", tab.js(TEXT.format("told")))
    tab.key("End")
    has("End goes to the last one", "Line 7: 08:50,93.1  →  3", tab.js(TEXT.format("told")))
    tab.key("Enter", "\r")
    same("Enter goes to its line", ["items", 6], [focused(tab), tab.js("page.items.caretLine")])
    tab.key("ArrowUp")
    has("the caret's line is told", "Line 6: 08:40,90.4  →  2", tab.js(TEXT.format("told")))
    tab.close()


def test_many_lines(tab):
    put(tab, "query", SUM)
    tab.js("""(() => {
        window.longest = 0;
        let before = performance.now();
        const beat = () => {
            const now = performance.now();
            window.longest = Math.max(window.longest, now - before);
            before = now;
            setTimeout(beat, 0);
        };
        beat();
        const pasted = new DataTransfer();
        pasted.setData('text/plain', Array.from({ length: 100_000 }, (_, at) => at % 1000 - 300).join('\\n'));
        document.getElementById('items').select();
        document.getElementById('items').dispatchEvent(new ClipboardEvent('paste', { clipboardData: pasted, cancelable: true }));
    })()""")
    tab.js("document.getElementById('query').focus()")
    tab.key("End", modifiers=2)
    for letter in "# typed":
        tab.type(letter)
    holds("100,000 lines are answered", tab.wait(f"{DONE} && page.items.told.length === 100_000"))
    same("the last of their answers", str(sum(at % 1000 - 300 for at in range(100_000))), tab.js("page.items.told.at(-1)"))
    run = tab.js("Number(/in ([0-9]+) ms/.exec(document.getElementById('time').textContent)[1])")
    longest = tab.js("window.longest")
    print(f"100,000 lines: the run took {run} ms, and typing waited at most {longest:.0f} ms")
    holds("a run of 100,000 lines takes less than a second", run < 1000)
    holds("typing does not wait for it", longest < 1000)
    holds("what is typed meanwhile is there", "# typed" in tab.js("document.getElementById('query').value"))
    holds("few lines are drawn", tab.js("document.getElementById('answers').children.length") < 100)
    tab.js("document.getElementById('list').focus()")
    tab.key("End")
    has("End goes to the last of them", "Line 100000: 699  →  ", tab.js(TEXT.format("told")))
    tab.js("document.getElementById('added').focus()")
    tab.type("1000000")
    tab.key("Enter", "\r")
    holds("a line is added", tab.wait(f"{DONE} && page.items.told.length === 100_001"))
    same("its answer", str(sum(at % 1000 - 300 for at in range(100_000)) + 1_000_000), tab.js("page.items.told.at(-1)"))
    tab.js("document.getElementById('shorten').click()")
    holds("the first 2,000 are kept", tab.wait(f"{DONE} && page.items.told.length === 2000"))
    same("one can type among them", 2001, tab.js("document.getElementById('items').value.split('\\n').length"))


def test_faults(tab):
    ended = tab.js("page.background.ask('call', { program: 'none', words: [], files: {} }).then(() => 'answered', (error) => 'failed')")
    same("a fault is told", "failed", ended)
    ended = tab.js("(() => { const asked = page.background.ask('answer', {}); page.background.worker.onerror({ message: 'it ended' }); "
                   "return asked.then(() => 'answered', (error) => error.message); })()")
    same("a worker that ends is told", "it ended", ended)
    same("the next run is answered", (0, b"5\n12\n"), asked(tab, "sqre", ["run", "query", "items"], {"query": SUM.encode(), "items": b"5\n7\n"}))


def test_joining(tab):
    """Which line has which answer, and what is drawn of answers, also of such as no program writes yet."""
    same("a header has none, and empty lines", [-1, 0, -1, 1, -1], tab.js("[...placesOf(['', 'a', '', 'b', '\\r'], true)]"))
    same("without a header", [-1, 0], tab.js("[...placesOf(['', 'a'], false)]"))
    same("what stands after the last LF is a line", ["a", "", "b"], tab.js("linesOf('a\\n\\nb')"))
    draw = "(({{ at, series, left }}) => [[...at], series.map(({{ name, values }}) => [name, ...values].map(String)), left])(seriesOf({}, {}))"
    same("numbers, and none where there is none", [[0, 2, 3], [["", "5", "NaN", "-7"]], 0],
         tab.js(draw.format("['5', 'skipped cr 0', 'undefined', '-7']", "[0, 1, 2, 3]")))
    same("a table", [[1, 2], [["A,\"é", "1", "2"], ["b", "NaN", "30"]], 0],
         tab.js(draw.format("['{\"A,\\\\x22\\\\xC3\\\\xA9\":1}', '{\"A,\\\\x22\\\\xC3\\\\xA9\":2,\"b\":30,\"c\":overflow}']", "[-1, 0, 1]")))
    same("a record", [[0, 1], [["part 1", "5", "12"], ["part 2", "NaN", "2"]], 0], tab.js(draw.format("['(5,divzero)', '(12,2)']", "[0, 1]")))
    same("more keys than lines of a chart", 2, tab.js("seriesOf(['{' + [...'abcdefgh'].map((key) => `\"${key}\":1`).join(',') + '}'], [0]).left"))
    same("what is read of a query", {"hasHeader": True, "columns": ["or", "b"], "hasKeys": False},
         tab.js("outlineOf('# plain\\nstream ( header,col(or, text), col(b, int)) let(c, col) main(c)')"))


def test_hints(tab):
    """What the second program may say one day of a query that is accepted is shown below what a run keeps."""
    hint = "query:2:6 (the column in bytes): no value follows\\n    main(f)\\n         ^\\nSo it is for ever after:\\n    5\\n    7\\n"
    tab.js(f"page.verdict.accept({{ bound: 'places 1 slots 6', explanation: '{hint}' }}, false)")
    told = tab.js(TEXT.format("verdict"))
    for words in ("6 slots, for at most 1 start", "Line 2, column 6: no value follows", "main(f)\n     ^", "So it is for ever after:", "5\n7"):
        has("a hint", words, told)


def test_looks(browser, address):
    seen = set()
    for scheme in ("light", "dark"):
        tab = Tab(browser, address, scheme=scheme)
        holds(f"the page in the {scheme}", tab.wait(DONE))
        seen.add(tab.js("getComputedStyle(document.body).backgroundColor"))
        tab.close()
    same("the light page and the dark one differ", 2, len(seen))
    phone = Tab(browser, address + "#example=refused_split", width=360, height=740)
    holds("the page on a phone", phone.wait(DONE))
    same("no part of it is wider than the phone", 360, phone.js("document.scrollingElement.scrollWidth"))
    phone.close()


def take_pictures(browser, address, folder):
    folder.mkdir(parents=True, exist_ok=True)
    views = {"light": {}, "dark": {"scheme": "dark"}, "phone": {"width": 390, "height": 844}}
    for example in ("hot_run", "quotes", "rainfall", "refused_name", "refused_batches"):
        for name, how in views.items():
            tab = Tab(browser, f"{address}#example={example}", **how)
            tab.wait(DONE)
            if name == "phone":
                height = tab.js("document.body.scrollHeight + 16")
                tab.call("Emulation.setDeviceMetricsOverride", width=390, height=height, deviceScaleFactor=1, mobile=True)
                time.sleep(0.2)
            tab.picture(folder / f"{example}_{name}.png")
            tab.close()


def main(page, sqre, explain, *pictures):
    address = pathlib.Path(page).resolve().as_uri()
    browser = Browser()
    try:
        tab = test_opening(browser, address)
        compare_examples(tab, sqre, explain)
        compare_refusals(tab, sqre, explain)
        compare_faults(tab, sqre, explain)
        for test in (test_skipped, test_long_example, test_readings, test_refusals, test_joining, test_hints, test_faults):
            test(tab)
        test_file(tab)
        test_link(browser, tab, address)
        test_keyboard(browser, address)
        test_looks(browser, address)
        test_many_lines(tab)
        hosts = [it for it in tab.requests() if not it.startswith((address, "blob:", "data:"))]
        same("nothing is asked of any host", [], hosts)
        same("nothing can be asked of any", "connect-src", tab.js("""new Promise((resolve) => {
            addEventListener('securitypolicyviolation', (event) => resolve(event.effectiveDirective));
            fetch('https://host.invalid/').catch(() => {});
        })"""))
        if pictures:
            take_pictures(browser, address, pathlib.Path(pictures[1]))
    finally:
        browser.close()
    print(f"{passed} passed, {failed} failed")


main(*sys.argv[1:])
