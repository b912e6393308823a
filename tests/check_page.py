#!/usr/bin/env python3
"""Opens web/check.html in Chromium, from its file and without a window, and checks what it says.

    check_page.py [--all] [--only WORD] [--seed N] [--models DIR] [--certificates DIR] [--pictures DIR] [PROGRAM]

It checks that

- web/check.html is what tools/build_page.py makes, its security policy lets nothing out, and nothing is asked for;
- the page says of the examples, of texts with each fault, of texts at the edges of the formats, and of the texts in
  tests/cases.txt what `PROGRAM check` says, and what is said there;
- so it is of models that are made with right certificates, of these with one number changed, and of mutated texts: the
  same line and, where a condition fails, the same row or column as the checker of clients/python. Where PROGRAM says
  PAST, or numbers pass 127 bits, what that checker says counts;
- what a person does works: files, pasted texts, drops, a claim, sorting and filtering, keys, reports, and a page with a
  result in it;
- models of up to 65,536 rows and 131,072 columns are read where numbers may have any width;
- a model of 256 rows, 512 columns and 100,000 entries is checked while the page goes on, a text of 66 MB is read, and
  one of 70 MB refused in words.

With --all it makes 500 models, instead of 40, for each of the three. With --models it makes the basis at which glpsol stops on
each model DIR/*.mps exact, as `certify --by python` of clients/python does, in numbers of any width, and the page has to accept
that certificate for the text, or for what it is converted to. With --certificates it gives the page the files NAME.mps (or
NAME.fixed.mps) and NAME.certificate of each name in DIR, which all have to be accepted, and then the same with one digit and with one
number changed: the page says the line of `PROGRAM check --wide`, shows progress, and goes on. It prints how long each takes, of the
wall and of the processor. With --only just the checks are made whose names have WORD. With --pictures it takes the pictures of docs/. Without
PROGRAM the checker of clients/python stands for it. It prints what is wrong, and the status is 1 where something is.
"""
import argparse
import base64
import json
import os
import random
import re
import subprocess
import sys
import tempfile
import time
from fractions import Fraction
from pathlib import Path

TOP = Path(__file__).resolve().parent.parent
sys.path[:0] = [str(TOP / "clients" / "python"), str(TOP / "tools")]

import build_page  # noqa: E402
import lpd  # noqa: E402
from browser import Browser, find_browser  # noqa: E402
from lpd.certifying import PYTHON, certify  # noqa: E402
from lpd.conversion import Options, convert  # noqa: E402
from lpd.page import page_with  # noqa: E402
from made_models import Made, Maker, mutated, with_one_digit_changed, with_one_number_changed  # noqa: E402
from page_texts import CLAIMS, FAULTS, edges, large_model, wide_edges  # noqa: E402

PAGE = TOP / "web" / "check.html"
# A certificate for the diet of examples/models, which fails in several places.
WRONG = "OPTIMAL\nx oatmeal 4\nx milk 4.5\nx pie 1\ny energy 0.05625\nEND\n"
# Of a certificate with so many bytes the page has to show progress.
MUCH = 1_000_000
# Scripts of the tests: what the page has no need of itself.
HELPERS = """
    globalThis.until = (condition) => new Promise((done) => {
      const look = () => condition() ? done() : setTimeout(look, 5);
      look();
    });
    globalThis.settled = () => until(() => !byId("outcome").hidden && byId("working").hidden);
    globalThis.type = (id, text) => {
      byId(id).value = text;
      byId(id).dispatchEvent(new Event("input", { bubbles: true }));
    };
    globalThis.textsOf = (selector) => [...document.querySelectorAll(selector)].map((each) => each.textContent);
    globalThis.press = async (id) => { byId(id).click(); await settled(); };
    globalThis.said = () => byId("line")?.textContent ?? byId("verdict").textContent;
    globalThis.batch = async (cases, every) => {
      const worker = startWorker();
      const found = [];
      for (const [model, fixed, wide] of cases) {
        const verdict = await new Promise((done) => {
          worker.onmessage = ({ data }) => {
            if (data.stage === undefined) done(data.verdict ?? { line: data.broken });
          };
          worker.postMessage({ model: bytesOf(model), certificate: null, fixed, wide, claim: "" });
        });
        if (verdict.texts && found.length % every === 0) show(verdict);
        found.push([verdict.line, verdict.reason, verdict.found?.failures[0]?.name ?? ""]);
      }
      worker.terminate();
      return found;
    };
"""


# How often the page's clock ticks while it works, how long it stood at most, and what it says that it does.
CLOCK = """
    Object.assign(globalThis, { longest: 0, ticks: 0, stages: new Set() });
    let last = performance.now();
    setInterval(() => {
      const now = performance.now();
      longest = Math.max(longest, now - last);
      last = now;
      if (!byId("working").hidden) ticks += 1;
    }, 5);
    new MutationObserver(() => stages.add(byId("stage").textContent)).observe(byId("stage"), { childList: true });
"""


# Scripts that are not the page's own.
OTHERS = """
    const other = document.createElement("script");
    other.textContent = "globalThis.ran = 1";
    document.body.append(other);
    document.body.insertAdjacentHTML("beforeend", "<img src=x onerror='globalThis.ran = 2'>");
"""


class Wrong(Exception):
    """What is wrong."""


def expect(condition, words):
    if not condition:
        raise Wrong(words)


def same(said, expected, of):
    expect(said == expected, f"{of}: the page says {said!r}, and not {expected!r}")


def by_python(made, wide):
    """The line of the checker of clients/python, and why it says so."""
    try:
        verdict = lpd.check(made.text + made.certificate, None, made.fixed, wide)
    except lpd.Refused as refused:
        return refused.reply, ""
    return str(verdict), getattr(verdict, "why", None) or ""


def bits_of(line):
    """The bits of the number in a line of a certificate."""
    number = Fraction(line.split()[2]) if line.count(" ") == 2 else Fraction(0)
    return max(number.numerator.bit_length(), number.denominator.bit_length())


def by_program(program, made, wide=False):
    text = (made.text + made.certificate).encode("latin-1")
    words = ["--form", "fixed" if made.fixed else "free", *["--wide"] * wide]
    done = subprocess.run([program, "check", *words], input=text, capture_output=True, check=False)
    return done.stdout.decode("latin-1").rstrip("\n")


class PageCheck:
    """All checks in one browser."""

    def __init__(self, browser, words):
        self.browser, self.words, self.program = browser, words, words.program
        self.folder = Path(browser.folder.name)
        self.counts = {}

    def fresh(self, path=PAGE):
        self.browser.open(path)
        self.browser.run(HELPERS)

    def run(self, script):
        return self.browser.run(script)

    def typed(self, model, certificate, claim="", fixed=False):
        """What the page says of texts that are put into its fields."""
        for name, text in (("model", model), ("certificate", certificate), ("claim", claim)):
            self.run(f"type('{name}', {json.dumps(text)})")
        self.run(f"document.querySelector('[name=form][value={'fixed' if fixed else 'free'}]').checked = true")
        return self.run("press('check').then(said)")

    def count(self, what, number=1):
        self.counts[what] = self.counts.get(what, 0) + number

    # The page itself

    def check_build(self):
        is_made = PAGE.read_text(encoding="utf-8") == build_page.page()
        expect(is_made, "web/check.html is not what tools/build_page.py makes")

    def check_policy(self):
        """Nothing is let out, and no script runs but the page's own."""
        self.fresh()
        refused = "fetch('https://example.org').then(() => false, () => true)"
        expect(self.run(refused), "the page may ask for something")
        self.run(OTHERS)
        time.sleep(0.1)
        expect(self.run("globalThis.ran === undefined"), "a script that is not the page's own runs")
        self.browser.events.clear()

    def check_silence(self):
        """The page asks for nothing, also while it works."""
        self.fresh()
        self.browser.call("Network.enable")
        self.browser.events.clear()
        self.run("press('example')")
        self.fresh()
        asked = [event["params"]["request"]["url"] for event in self.browser.events
                 if event["method"] == "Network.requestWillBeSent"]
        expect(all(url.startswith(("blob:", PAGE.as_uri())) for url in asked), f"the page asks for {asked}")
        expect(asked, "the browser does not say what is asked for")
        self.browser.call("Network.disable")

    # What it says

    def check_examples(self):
        for path in sorted((TOP / "examples").glob("*.mps")):
            text = path.read_text()
            same(self.typed(text, "") + "\n", path.with_suffix(".said").read_text(), path.name)
            self.count("examples")
        for path in sorted((TOP / "examples" / "models").glob("*.mps")):
            answer, _, certificate = path.with_suffix(".solved").read_text().partition("\n")
            said = self.typed(path.read_text(), certificate, answer, fixed=".fixed." in path.name)
            same(said, f"YES {answer}", path.name)
            holds = self.run("byId('claim-said').className") == "card good"
            expect(holds, f"{path.name}: the claim {answer} is refused")
            self.count("examples")

    def check_faults(self):
        """Each fault, and where the page says it; one of each in each form by the fields of the page."""
        said = self.batch([(Made(text, fixed, ""), False) for text, fixed, _, _ in FAULTS])
        for (text, fixed, line, code), (told, words, _) in zip(FAULTS, said):
            expected = f"ERR 8 MPS {line} M{code}"
            if self.program:
                same(by_program(self.program, Made(text, fixed, "")), expected, f"PROGRAM on {text[-200:]!r}")
            same(told, expected, repr(text[-200:]))
            expect(words.startswith(f"Line {line} of the model is wrong: "), f"{expected}: {words}")
            self.count("faults")
        self.run("byId('narrow').checked = true")
        for (code, fixed), (text, line) in {(code, fixed): (text, line) for text, fixed, line, code in FAULTS}.items():
            same(self.typed(text, "OPTIMAL\nEND\n", fixed=fixed), f"ERR 8 MPS {line} M{code}", repr(text[-200:]))
        self.run("byId('narrow').checked = false")
        codes = {code for _, _, _, code in FAULTS}
        expect(codes == set(range(1, 20)), f"no text with the faults {set(range(1, 20)) - codes}")

    def check_cases(self):
        """The texts of all cases and example scripts, as the program reads them."""
        scripts = [*(TOP / "examples").glob("*.lpd"), TOP / "tests" / "cases.txt"]
        loads = re.compile(r"^\d+ LOAD (FREE|FIXED)\n(.*?^ENDATA(?:[ \t].*)?\n)", re.M | re.S)
        texts = [each for path in scripts for each in loads.findall(path.read_text(encoding="latin-1"))]
        mades = [Made(text, form == "FIXED", "CLASH nothing\nEND\n") for form, text in texts if "\n%" not in text]
        self.compare([(made, False) for made in mades], "texts of the cases")
        self.compare([(Made(*edge), False) for edge in edges()], "texts at the edges of the formats")
        self.compare([(Made(*edge), True) for edge in wide_edges()], "texts at the edges of wide ones")

    def batch(self, cases):
        """The page's line, reason, and row or column of each case, from one worker. Of all, or some, all is shown."""
        texts = [(base64.b64encode((made.text + made.certificate).encode("latin-1")).decode(), made.fixed, wide)
                 for made, wide in cases]
        every = 1 if self.words.all or len(cases) < 25 else 8
        parts = [texts[start:start + 25] for start in range(0, len(texts), 25)]
        return [told for part in parts for told in self.run(f"batch({json.dumps(part)}, {every})")]

    def expected(self, made, wide):
        """The line that counts, and why it is so. Of numbers that the program takes nowhere the checker in Python speaks alone."""
        line, why = by_python(made, wide)
        if self.program is None:
            return line, why
        proved = by_program(self.program, made, wide)
        is_past = proved.startswith("PAST ") or wide and re.fullmatch(r"ERR 8 MPS \d+ M10", proved) is not None
        self.count("past 127 bits", is_past)
        return (line if is_past else proved), why

    def compare(self, cases, what):
        """The same line, and the same row or column, as the program and the checker of clients/python."""
        for (made, wide), (line, _, name) in zip(cases, self.batch(cases)):
            expected, why = self.expected(made, wide)
            shown = f"{made.text[:3000]!r} {made.certificate!r} {'fixed' if made.fixed else 'free'}"
            same(line, expected, shown)
            expect(name in why, f"{shown}: {name} fails, and not as in {why!r}")
            self.count(what)

    def check_made(self):
        dice = random.Random(self.words.seed)
        whats = ["made models", "made models with one number changed", "mutated texts"]
        for what, change in zip(whats, [lambda _, made: made, with_one_number_changed, mutated]):
            cases = []
            for _ in range(500 if self.words.all else 40):
                bits = dice.choice([5, 5, 7, 20, 40, 100, 200])
                made = Maker(dice, bits).made()
                expect(by_python(made, True)[0].startswith("YES "), f"a made certificate is wrong: {made}")
                cases.append((change(dice, made), bits >= 100 or dice.random() < 0.2))
            self.compare(cases, what)

    def check_certificates(self):
        """Certificates of a folder, which are all right, and each with one digit, and with one number, changed."""
        dice = random.Random(self.words.seed)
        for path in sorted(Path(self.words.certificates).glob("*.mps")):
            certificate = path.with_name(path.name.split(".")[0] + ".certificate")
            text = path.read_text(encoding="latin-1").rstrip("\n") + "\n"
            made = Made(text, ".fixed." in path.name, certificate.read_text())
            line = self.chosen(path, certificate, made.fixed)
            expect(line.startswith("YES "), f"{path.name}: {line[:80]} {self.run('byId(`reason`)?.textContent')}")
            same(line, self.expected(made, True)[0], path.name)
            self.count("certificates of the folder")
            self.check_digit(path, with_one_digit_changed(dice, made))
            self.compare([(with_one_number_changed(dice, made), True)], "of these with one number changed")

    def check_digit(self, path, made):
        """The page says of the files with a digit changed what the program does, and that is no YES."""
        changed = self.folder / path.with_suffix(".changed").name
        changed.write_text(made.certificate)
        line = self.chosen(path, changed, made.fixed)
        same(line, self.expected(made, True)[0], f"{path.name} with one digit changed")
        self.count("of these refused with one digit changed", not line.startswith("YES "))

    def chosen(self, model, certificate, fixed):
        """What the page says of two files that are chosen, and a line that says how long that takes."""
        self.fresh()
        self.run(f"document.querySelector('[name=form][value={'fixed' if fixed else 'free'}]').checked = true")
        self.browser.choose("#certificate-file", certificate)
        self.run(CLOCK)
        start, spent = time.monotonic(), self.browser.page_seconds()
        self.browser.choose("#model-file", model)
        line = self.run("until(() => stages.size > 0).then(settled).then(said)")
        seconds, longest = time.monotonic() - start, self.run("longest")
        spent = self.browser.page_seconds() - spent
        expect(certificate.stat().st_size < MUCH or self.run("stages.size") >= 2, f"{model.name}: no progress is shown")
        times = f"{seconds:.2f} s, of the processor {spent:.2f} s; the page stood for {longest:.0f} ms at most"
        print(f"check_page.py: {model.name} and {certificate.name}: {line[:12]} in {times}", flush=True)
        return line

    def check_models(self):
        """What holds of each model of a folder, in numbers of any width: its text as it is, and what it is converted to."""
        widest = 0
        for path in sorted(Path(self.words.models).glob("*.mps")):
            data = path.read_bytes().rstrip(b"\n") + b"\n"
            text = convert(data, None, Options(wide=True)).text
            found = certify(text, way=PYTHON)
            certificate = "".join(f"{line}\n" for line in found.certificate)
            mades = [Made(data.decode("latin-1"), fixed, certificate) for fixed in (False, True)]
            mades = [made for made in mades if by_python(made, True)[0].startswith("YES ")]
            self.count("models of the folder")
            self.count("of their texts as they are", len(mades))
            mades.append(Made(text, False, certificate))
            for made, (line, reason, _) in zip(mades, self.batch([(made, True) for made in mades])):
                same(line, f"YES {found.known}", f"{path.name}, {'fixed' if made.fixed else 'free'} form: {reason}")
            self.count("of them past 127 bits", not found.narrow)
            widest = max(widest, *map(bits_of, found.certificate))
        self.count("bits of the widest number", widest)

    # What a person does

    def check_claims(self):
        model = (TOP / "examples" / "models" / "diet.mps").read_text()
        certificate = (TOP / "examples" / "models" / "diet.solved").read_text().partition("\n")[2]
        for claim, holds, words in CLAIMS:
            self.typed(model, certificate, claim)
            said = self.run("byId('claim-said').textContent")
            expect(said.startswith("✓" if holds else "✗") and words in said, f"the claim {claim}: {said!r}")
            self.count("claims")

    def check_answer(self):
        """An answer of lpd solve, put in whole: its first line can be taken as the claim."""
        model = (TOP / "examples" / "models" / "diet.mps").read_text()
        same(self.typed(model, (TOP / "examples" / "models" / "diet.solved").read_text()), "ERR 14 CERT 1", "an answer")
        same(self.run("press('take-answer').then(said)"), "YES OPTIMAL 92.5", "an answer, taken")
        same(self.run("byId('claim').value"), "OPTIMAL 92.5", "the claim")
        same(self.typed(model, "OPTIMAL\nx milk\nEND\n"), "ERR 14 CERT 2", "a part without a number")
        self.run("byId('go-to-line').click()")
        line = self.run("[document.activeElement.id, getSelection().toString()].join()")
        same(line, "certificate,x milk", "the line that does not fit")

    def check_long_answer(self):
        """A long file with an answer in front of the certificate, which the worker reads."""
        columns = range(25)
        model, certificate = self.folder / "many.mps", self.folder / "many.certificate"
        model.write_text("\n".join(["ROWS", " N cost", "COLUMNS", *(f" x{n} cost 1" for n in columns), "ENDATA", ""]))
        certificate.write_text("\n".join(["OPTIMAL 0", "OPTIMAL", *(f"x x{n} 0.{'0' * 16000}" for n in columns), "END", ""]))
        self.fresh()
        self.browser.choose("#model-file", model)
        self.browser.choose("#certificate-file", certificate)
        same(self.run("settled().then(said)"), "ERR 14 CERT 1", "a long answer")
        same(self.run("byId('certificate').hidden"), True, "a long answer is held")
        same(self.run("press('take-answer').then(said)"), "YES OPTIMAL 0", "a long answer, taken")
        same(self.run("byId('claim-said').className"), "card good", "its claim")

    def check_left(self):
        """How long the work still takes is told when some of it is done."""
        cases = {"500, 0.5": "", "2000, 0.01": "", "10000, 0.25": "about 30 seconds left", "60000, 0.1": "about 9 minutes left"}
        cases["9000, 0.95"] = "about a second left"
        self.fresh()
        for spent, words in cases.items():
            same(self.run(f"leftText({spent})"), words, f"what is left of {spent}")

    def check_tables(self):
        """What fails is marked and first; sorting and filtering."""
        model = (TOP / "examples" / "models" / "diet.mps").read_text()
        line = self.typed(model, WRONG)
        expected, why = by_python(Made(model, False, WRONG), False)
        same(line, expected, "a wrong certificate")
        first = self.run("textsOf('#tables tbody tr:first-child.fails th')")
        expect(first and first[0] in why, f"the first rows of the tables are {first}, and {why}")
        names, head = "textsOf('#tables section:last-child tbody th')", "#tables section:last-child th"
        columns = self.run(names)
        self.run(f"document.querySelector('{head} button').click()")
        same(self.run(names), sorted(columns), "sorted by name")
        self.run(f"document.querySelector('{head} button').click()")
        same(self.run(names), sorted(columns, reverse=True), "sorted the other way")
        same(self.run(f"document.querySelector('{head}').getAttribute('aria-sort')"), "descending", "aria-sort")
        self.run("const filter = document.querySelector('#tables select'); filter.value = 'fails'")
        self.run("filter.dispatchEvent(new Event('change'))")
        same(self.run("textsOf('#tables section:first-child tbody th')"), ["energy"], "what fails")

    def check_reports(self):
        """The report as JSON has the numbers, and that as text the verdict."""
        self.run("press('example')")
        report = json.loads(self.run("reportJson(shown)"))
        found = report["found"]
        said = (report["line"], found["value"], found["rows"][0]["multiplier"], report["claim"]["holds"])
        same(said, ("YES OPTIMAL 24.8", "24.8", "-0.8", True), "JSON")
        text = self.run("reportText(shown)")
        expect("Verdict: YES OPTIMAL 24.8\n" in text, f"the report is {text!r}")
        expect("flour\tL\t\t10\t10\t0\t-0.8\ttight\n" in text, f"the report is {text!r}")
        texts = re.search(r"Text of the model, in free form: \d+ bytes, SHA-256 [0-9a-f]{64}\n", text)
        expect(texts, "the report does not say of which texts it is")
        same(self.run("document.querySelectorAll('#pictures svg[role=img][aria-label]').length"), 2, "the pictures")

    def check_keys(self):
        """By keys alone: to the button and to the verdict, with names for all that can be reached."""
        self.fresh()
        self.browser.press("Tab")
        same(self.run("document.activeElement.className"), "skip", "the first stop")
        for _ in range(20):
            self.browser.press("Tab")
            if self.run("document.activeElement.id") == "example":
                break
        self.browser.press("Enter", text="\r")
        self.run("settled()")
        same(self.run("document.activeElement.id + said()"), "outcomeYES OPTIMAL 24.8", "the example by keys")
        self.browser.call("Accessibility.enable")
        nodes = self.browser.call("Accessibility.getFullAXTree")["nodes"]
        roles = {"button", "textbox", "radio", "checkbox", "searchbox", "combobox", "image", "region", "progressbar"}
        for node in nodes:
            role, name = node.get("role", {}).get("value"), node.get("name", {}).get("value")
            expect(node.get("ignored") or role not in roles or name, f"a {role} has no name")
        self.browser.call("Accessibility.disable")

    def check_files(self):
        """Chosen and dropped files, also one with a result in it, by which the page checks at once."""
        self.fresh()
        model, certificate = self.folder / "diet.mps", self.folder / "diet.certificate"
        solved = (TOP / "examples" / "models" / "diet.solved").read_text()
        model.write_bytes((TOP / "examples" / "models" / "diet.mps").read_bytes())
        certificate.write_text(solved.partition("\n")[2])
        self.browser.choose("#model-file", model)
        self.browser.choose("#certificate-file", certificate)
        same(self.run("settled().then(said)"), "YES OPTIMAL 92.5", "chosen files")
        result = self.folder / "result.html"
        result.write_text(page_with(model.read_bytes(), certificate.read_bytes(), claim="92.5"), encoding="utf-8")
        self.fresh(result)
        same(self.run("settled().then(said)"), "YES OPTIMAL 92.5", "a page with a result")
        same(self.run("byId('claim-said').className"), "card good", "the claim of a page with a result")
        self.fresh()
        self.browser.choose("#model-file", result)
        same(self.run("settled().then(said)"), "YES OPTIMAL 92.5", "that page, on another one")
        self.fresh()
        self.run("const data = new DataTransfer()")
        for path in (model, certificate):
            self.run(f"data.items.add(new File([{json.dumps(path.read_text())}], '{path.name}'))")
        self.run("document.body.dispatchEvent(new DragEvent('drop', { dataTransfer: data, bubbles: true }))")
        same(self.run("settled().then(said)"), "YES OPTIMAL 92.5", "dropped files")
        self.run("const pasted = new DataTransfer()")
        self.run(f"pasted.setData('text/plain', '* long\\n'.repeat(100000) + {json.dumps(model.read_text())})")
        self.run("const paste = new ClipboardEvent('paste', { clipboardData: pasted, cancelable: true })")
        self.run("byId('model').dispatchEvent(paste)")
        same(self.run("[byId('model').hidden, byId('model').value].join()"), "true,", "a long text, held and not shown")
        same(self.run("press('check').then(said)"), "YES OPTIMAL 92.5", "a long text that is pasted")

    # Much to do

    def check_large(self):
        """A large model while the page goes on: it shows progress, and its clock ticks."""
        text, certificate = large_model(self.words.seed)
        model, part = self.folder / "large.mps", self.folder / "large.certificate"
        model.write_text(text)
        part.write_text(certificate)
        line = self.chosen(model, part, False)
        expect(line.startswith("YES OPTIMAL "), f"the large model: {line}")
        expect(self.run("stages.size") >= 2, "the large model shows no progress")
        expect(self.run("ticks") >= 10, f"the page's clock ticked {self.run('ticks')} times while it worked")

    def check_megabytes(self):
        self.fresh()
        text = (TOP / "examples" / "optimal.mps").read_bytes()
        comment = b"*" + b" said by the way" * 500 + b"\n"
        long = self.folder / "long.mps"
        long.write_bytes(comment * (66_000_000 // len(comment)) + text)
        self.browser.choose("#model-file", long)
        self.run("until(() => document.querySelector('.held').textContent.includes('it is held'))")
        same(self.run("press('check').then(said)"), "YES OPTIMAL 4", "a text of 66 MB")
        long = long.rename(self.folder / "longer.mps")
        long.write_bytes(comment * (70_000_000 // len(comment)) + text)
        self.run("byId('outcome').hidden = true")
        self.browser.choose("#model-file", long)
        words = self.run("settled().then(said)")
        expect("is not read" in words, f"a text of 70 MB: {words}")

    # Pictures for docs/PAGE.md

    def take_pictures(self, folder):
        models = TOP / "examples" / "models"
        self.fresh()
        self.run("press('example')")
        self.browser.picture(folder / "page-accepted.png", "#outcome", 760, 640)
        self.typed((models / "diet.mps").read_text(), WRONG, "92.5")
        self.browser.picture(folder / "page-fails.png", "#outcome", 760, 640, dark=True)
        self.typed((models / "orders.mps").read_text(), (models / "orders.solved").read_text().partition("\n")[2])
        self.browser.picture(folder / "page-infeasible.png", "#pictures h3:nth-of-type(2)", 760, 420)

    def complaints(self):
        """What the page itself threw or was refused."""
        for event in self.browser.events:
            if event.get("method") in ("Runtime.exceptionThrown", "Log.entryAdded"):
                details = event["params"]
                yield json.dumps(details.get("exceptionDetails", details.get("entry")))[:500]


def main():
    parser = argparse.ArgumentParser(description="Checks web/check.html in Chromium.")
    parser.add_argument("--all", action="store_true", help="500 made models, instead of 40")
    parser.add_argument("--only", default="", metavar="WORD", help="just the checks whose names have this word")
    parser.add_argument("--seed", type=int, default=1, metavar="N", help="of what is made (1)")
    parser.add_argument("--models", metavar="DIR", help="models, each of which is certified and checked")
    parser.add_argument("--certificates", metavar="DIR", help="pairs of NAME.mps and NAME.certificate, all right")
    parser.add_argument("--pictures", metavar="DIR", help="where pictures of three states are put, as docs/ has them")
    parser.add_argument("program", nargs="?", help="the proved program")
    words = parser.parse_args()
    if words.program:
        os.environ["LPD"] = words.program = os.path.abspath(words.program)
    wrong, started = 0, time.monotonic()
    program = find_browser()
    if program is None:
        sys.exit("check_page.py: there is no chromium on the path")
    with Browser(program) as browser:
        page = PageCheck(browser, words)
        checks = [page.check_build, page.check_policy, page.check_silence, page.check_examples, page.check_faults,
                  page.check_cases, page.check_made, page.check_claims, page.check_answer, page.check_long_answer,
                  page.check_left, page.check_tables,
                  page.check_reports, page.check_keys, page.check_files, page.check_large, page.check_megabytes]
        checks += [page.check_models] if words.models else []
        checks += [page.check_certificates] if words.certificates else []
        for check in checks:
            if words.only not in check.__name__:
                continue
            try:
                check()
            except Wrong as what:
                wrong += 1
                print(f"check_page.py: {check.__name__}, seed {words.seed}: {what}")
        if words.pictures:
            page.take_pictures(Path(words.pictures))
        for complaint in page.complaints():
            wrong += 1
            print(f"check_page.py: the page complains: {complaint}")
    counted = ", ".join(f"{number} {what}" for what, number in page.counts.items() if number)
    print(f"check_page.py: seed {words.seed}: {counted}; {time.monotonic() - started:.0f} s")
    return 1 if wrong else 0


if __name__ == "__main__":
    sys.exit(main())
