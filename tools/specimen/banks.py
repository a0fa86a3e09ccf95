#!/usr/bin/env python3
"""A page that says which fonts each locker bank may print: fonts down, banks across, and the glyphs that fail, drawn.

    banks.py [--cribstork target/bin/cribstork] --banks banks.tsv [--need label.txt] FONT.. > page.html
    banks.py --table rows.tsv [--messages errors.txt] [--banks banks.tsv] [--need label.txt] > page.html

The rows are those that `cribstork --banks` prints; nothing is judged here. With --table they are read from a file, and
what the command said on standard error from --messages. The fonts are read here, to draw the glyphs that fail.
The exit status is 2 where there is nothing to draw.
"""
import argparse
import html
import os
import re
import subprocess
import sys

sys.dont_write_bytecode = True
import specimen

REFUSALS = os.path.join(os.path.dirname(os.path.abspath(__file__)), "..", "..", "docs", "REFUSALS.md")

WORDS = ("yes", "no", "unreadable")
NEEDED_COLUMNS = ("font", "bank", "prints", "failing", "which")
LABELS = {"short": "short of", "default": "default width", "nominal": "nominal width"}
PRINTED = ("short", "notes")  # on paper, beside what fails
MATRIX = ["a", "b", "c", "d", "tx", "ty"]
WINDOW = ["x0", "y0", "x1", "y1"]


class BadTable(Exception):
    pass


# ---- the table. Its bytes are read as latin-1, as the font's names are, so that names can be compared.

WHICH = re.compile(r"(\S+) (\d+|crossing|outside|missing)(?:, |$)")
TOTALS = re.compile(r"cribstork: fonts (\d+), banks (\d+), yes (\d+), no (\d+), unreadable (\d+)$")


def read_failing(text):
    """The needed glyphs that fail, each with the reason: a number, how it lies to the window, or None where the font lacks it."""
    out, at = [], 0
    while at < len(text):
        m = WHICH.match(text, at)
        if not m:
            raise BadTable("no glyph and reason: %s" % text[at:at + 40])
        reason = m.group(2)
        out.append((m.group(1), None if reason == "missing" else int(reason) if reason.isdigit() else reason))
        at = m.end()
    return out


class Row:
    """What one bank makes of one font. `of` has every cell by its column's name, an empty one as ""."""

    def __init__(self, columns, cells):
        self.of = {c: "" if v == "-" else v for c, v in zip(columns, cells)}
        self.font, self.bank, self.prints = cells[columns.index("font")], self.of["bank"], self.of["prints"]
        if self.prints not in WORDS:
            raise BadTable("prints is %s" % self.prints)
        self.failing = read_failing(self.of["which"])
        if self.of["failing"] and int(self.of["failing"]) != len(self.failing):
            raise BadTable("failing is %s, and which has %d" % (self.of["failing"], len(self.failing)))


def read_rows(text):
    """The columns and the rows of the table."""
    lines = [line for line in text.split("\n") if line]
    columns = lines[0].split("\t") if lines else []
    lost = [c for c in NEEDED_COLUMNS if c not in columns]
    if lost:
        raise BadTable("no column %s" % lost[0])
    rows = []
    for number, line in enumerate(lines[1:], 2):
        cells = line.split("\t")
        if len(cells) != len(columns):
            raise BadTable("line %d has %d cells for %d columns" % (number, len(cells), len(columns)))
        try:
            rows.append(Row(columns, cells))
        except (BadTable, ValueError) as e:
            raise BadTable("line %d: %s" % (number, e))
    if not rows:
        raise BadTable("no rows")
    return columns, rows


class FontRow:
    """A font with its rows by bank."""

    def __init__(self, path):
        self.path = path
        self.banks = {}

    def failing(self):
        """The failing glyphs in order: name, and by reason the banks where it fails so."""
        out = {}
        for bank, row in self.banks.items():
            for name, reason in row.failing:
                if reason is not None:
                    out.setdefault(name, {}).setdefault(reason, []).append(bank)
        return out


def by_font(rows):
    """The fonts and the banks, in the table's order. A bank that comes again begins the next font."""
    fonts, banks = [], []
    for row in rows:
        if not fonts or fonts[-1].path != row.font or row.bank in fonts[-1].banks:
            fonts.append(FontRow(row.font))
        fonts[-1].banks[row.bank] = row
        if row.bank not in banks:
            banks.append(row.bank)
    return fonts, banks


def sums_of(fonts, banks):
    """Fonts, banks, and how often each word stands, as in the command's last line."""
    words = [row.prints for f in fonts for row in f.banks.values()]
    return [len(fonts), len(banks)] + [words.count(w) for w in WORDS]


def messages_of(text):
    """The lines said of files, without the totals."""
    return [line for line in text.split("\n") if line and not TOTALS.match(line)]


def message_for(path, messages):
    """What was said of this font."""
    return [line[len(path) + 2:] for line in messages if line.startswith(path + ": ")]


def read_banks(text):
    """What is said of each bank: its stores, its matrix where that is not the identity, its window, and whether its reading is strict."""
    lines = [line.split("#", 1)[0].rstrip() for line in text.split("\n")]
    cells = [[c.strip() for c in line.split("\t")] for line in lines if line]
    said = {}
    for line in cells[1:]:
        of = dict(zip(cells[0], line))
        name = of.pop("name", "")
        matrix = [of.pop(c, "") for c in MATRIX]
        window = [of.pop(c, "") for c in WINDOW]
        strict = of.pop("strict", "")
        out = ["%s %s" % (c, v) for c, v in of.items() if v not in ("", "-")]
        if all(matrix) and matrix not in (["-"] * 6, ["1", "0", "0", "1", "0", "0"]):
            out.append("matrix " + " ".join(matrix))
        if all(window) and window != ["-"] * 4:
            out.append("window " + " ".join(window))
        if strict not in ("", "-"):
            out.append("strict " + strict)
        if name in said:
            raise BadTable("two banks are named %s" % name)
        said[name] = out
    return said


def read_refusals(text):
    """Meaning and what to do, by number, from docs/REFUSALS.md."""
    found = re.findall(r"^\| (\d+) \| ([^|]*) \| [^|]* \| ([^|]*) \|$", text, re.M)
    return {int(number): (meaning, advice) for number, meaning, advice in found}


# ---- the drawings

class Drawings:
    """The glyphs of one font that fail, as Type 1 draws them. `fault` says why there are none."""

    def __init__(self, path, names):
        self.of, self.fault = {}, None
        try:
            with open(path.encode("latin-1"), "rb") as f:
                font = specimen.Font(f.read())
        except OSError as e:
            self.fault = "the file cannot be read (%s)" % e.strerror
            return
        except specimen.NoFont as e:
            self.fault = str(e)
            return
        for full, charstring in font.glyphs:
            name = specimen.printed(full)
            if name in names:
                g = self.of[name] = specimen.Outline(font, name, charstring, specimen.IDENTITY)
                g.keep_finite()
        self.frame = specimen.Frame(self.of.values())


# ---- the page

def text_of(latin):
    """The text of bytes that were read as latin-1: UTF-8 where they are that."""
    try:
        return latin.encode("latin-1").decode("utf-8")
    except UnicodeError:
        return latin


def shown(latin):
    """Text for the page. What cannot be seen is written as its number."""
    out = "".join(c if c.isprintable() else "\\x%02x" % ord(c) for c in text_of(latin))
    return html.escape(out)


def anchor(font, name):
    """The place of a glyph's drawing. A letter that an address cannot have is ~ and its number."""
    return "font-%d-glyph-%s" % (font, "".join(c if re.match(r"[A-Za-z0-9._-]", c) else "~%02X" % ord(c) for c in name))


def words_of(reason):
    """What stands after a number, or after `crossing` or `outside`."""
    return specimen.MEANINGS.get(reason, "unknown number") if isinstance(reason, int) else "the bank's window"


def reason_of(reason):
    if isinstance(reason, int):
        return '<a class="number" href="#refusal-%d">%d</a> %s' % (reason, reason, words_of(reason))
    return '<b>%s</b> %s' % (reason, words_of(reason))


def count(n, word):
    return "%d %s%s" % (n, word, "" if n == 1 else "s")


def file_of(path, said=""):
    """A path in two parts: the file, with what is said of it, and where it lies."""
    folder, name = os.path.split(path)
    folder = '<span class="folder">%s</span>' % shown(folder) if folder else ""
    return "<b>%s</b>%s%s" % (shown(name), said, folder)


def parts(text):
    """The parts of a list; a line breaks between them."""
    return " ".join("<span>%s</span>" % shown(part) for part in text.replace(", ", ",\t").split("\t"))


def failing_list(n, row):
    """The failing glyphs, a line for each reason; a glyph that the font has is a link to its drawing."""
    by_reason = {}
    for name, reason in row.failing:
        by_reason.setdefault(reason, []).append(name)
    out = []
    for reason in sorted(by_reason, key=lambda v: (v is None, isinstance(v, str), v)):
        names = by_reason[reason]
        if reason is None:
            head = "missing: the font has no such glyph"
            links = ["<span>%s</span>" % shown(name) for name in names]
        else:
            head = reason_of(reason)
            links = ['<a class="glyph" href="#%s">%s</a>' % (anchor(n, name), shown(name)) for name in names]
        out.append("<dt>%s</dt><dd>%s</dd>" % (head, " ".join(links)))
    return '<dl class="failing">%s</dl>' % "".join(out)


def facts(n, row, columns, messages, needed):
    """What a cell shows: why, and then every other column of the row."""
    out = ['<p class="title">%s</p>' % file_of(row.font, " at <b>%s</b>: %s" % (shown(row.bank), row.prints))]
    if row.failing:
        out.append(failing_list(n, row))
    elif row.prints == "yes":
        out.append("<p>%s</p>" % ("All %d needed glyphs print." % needed if needed else "Every needed glyph prints."))
    if row.prints == "unreadable":
        said = message_for(row.font, messages) or ["The file cannot be read as a Type 1 font."]
        out += ['<p class="message">%s</p>' % shown(line) for line in said]
    rest = [(c, LABELS.get(c, c.replace("_", " ")), row.of[c]) for c in columns if c not in NEEDED_COLUMNS and row.of[c]]
    if rest:
        lines = ['<tr%s><th scope="row">%s</th><td>%s</td></tr>'
                 % (' class="printed"' if c in PRINTED else "", shown(label), parts(value)) for c, label, value in rest]
        out.append("<table>%s</table>" % "".join(lines))
    return "".join(out)


def cell(n, m, row, columns, messages, needed):
    if row is None:
        return '<td class="none">no row</td>'
    tally = "not read" if row.prints == "unreadable" else "%d failing" % len(row.failing)
    return ('<td class="cell %s" id="cell-%d-%d"><button type="button" aria-expanded="false" aria-controls="facts-%d-%d">'
            '<b>%s</b> <span>%s</span></button><div class="facts" id="facts-%d-%d">%s</div></td>'
            % (row.prints, n, m, n, m, row.prints, tally, n, m, facts(n, row, columns, messages, needed)))


def bank_head(bank, fonts, said):
    rows = [f.banks[bank] for f in fonts if bank in f.banks]
    lines = ["prints %d of %d" % (sum(r.prints == "yes" for r in rows), len(rows))] + [shown(v) for v in said.get(bank, [])]
    return '<th scope="col"><b>%s</b>%s</th>' % (shown(bank), "".join("<span>%s</span>" % v for v in lines))


def drawing_note(g):
    """What the picture leaves out, or nothing."""
    if g.run.number_given and g.listed:
        return "Drawn as far as its run goes."
    if g.run.number_given:
        return "Refused before anything is drawn."
    return "" if g.listed else "The glyph is empty."


def figure(n, name, refused, banks, drawings):
    """A failing glyph: its drawing, and at which bank it fails for which reason."""
    g = drawings.of.get(name)
    note = drawing_note(g) if g else "No drawing: %s." % (drawings.fault or "the glyph was not found here")
    image = specimen.picture(g, drawings.frame) if g and g.listed else '<div class="blank">nothing to draw</div>'
    out = ['<figure class="refused" id="%s" tabindex="-1">%s<figcaption><b title="%s">%s</b>'
           % (anchor(n, name), image, shown(name), shown(name))]
    for reason, where in refused.items():
        links = ", ".join('<a href="#cell-%d-%d">%s</a>' % (n, banks.index(b) + 1, shown(b)) for b in where)
        out.append('<span>%s, at %s</span>' % (reason_of(reason), links))
    if note:
        out.append('<span class="note">%s</span>' % shown(note))
    return "".join(out) + "</figcaption></figure>"


def drawn_section(n, font, banks):
    failing = font.failing()
    if not failing:
        return ""
    drawings = Drawings(font.path, failing)
    figures = [figure(n, name, refused, banks, drawings) for name, refused in failing.items()]
    return '<section id="font-%d"><h3>%s</h3><div class="glyphs">%s</div></section>' % (n, file_of(font.path), "\n".join(figures))


def refusal_section(numbers, refusals):
    """The numbers on this page: the words, and from docs/REFUSALS.md what is meant and what to do."""
    out = []
    for number in sorted(numbers):
        meaning, advice = (re.sub(r"`([^`]*)`", r"<code>\1</code>", html.escape(t)) for t in refusals.get(number, ("", "")))
        out.append('<dt id="refusal-%d" tabindex="-1">%d: %s</dt><dd>%s<br>%s</dd>' % (number, number, words_of(number), meaning, advice))
    return '<section class="numbers"><h2>The numbers</h2><dl>%s</dl></section>' % "".join(out) if out else ""


MEANT = {
    "yes": "every needed glyph prints", "no": "a needed glyph is refused, missing or not within the window",
    "unreadable": "the file cannot be read as a Type 1 font",
}

STYLE = """
:root{--ink:#1f2a35;--dim:#5d6873;--line:#d9d5cd;--red:#b3261e;--paper:#f7f5f1}
*{box-sizing:border-box}
body{margin:0;padding:24px 28px 60px;background:var(--paper);color:var(--ink);font:14px/1.45 system-ui,sans-serif}
h1{margin:0 0 6px;font-size:22px;font-weight:600}
h2{margin:34px 0 4px;font-size:18px;font-weight:600}
h3{margin:22px 0 6px;font-size:14px;font-weight:400}
p{margin:4px 0;max-width:70em}
a{color:#1a4f8b}
.dim,.folder{color:var(--dim)}
.folder{display:block;font-size:11px;overflow-wrap:anywhere}
h3 .folder{display:inline;margin-left:8px}
.legend{display:flex;flex-wrap:wrap;gap:6px 18px;margin:12px 0;padding:0;list-style:none}
.legend b{display:inline-block;margin-right:6px;padding:1px 9px;border:2px solid;border-radius:4px}
.legend .yes b,.cell.yes button{background:#cfeccf;color:#124a1c;border-color:#3b8446}
.legend .no b,.cell.no button{background:#fbd3cf;color:#7c120c;border-color:#b3261e}
.legend .unreadable b,.cell.unreadable button{background:#dcdcdc;color:#3a3a3a;border-color:#777}
.cell.no button{border-width:2px}
.legend .unreadable b,.cell.unreadable button{border-style:dashed}
summary{cursor:pointer}
.names{max-width:70em;overflow-wrap:anywhere}
label{cursor:pointer}
.scroll{max-height:88vh;max-width:max-content;margin:12px -4px 0;overflow:auto}
#banks{border-collapse:separate;border-spacing:4px}
#banks>thead th{position:sticky;top:0;z-index:2;min-width:112px;max-width:190px;padding:6px 8px;background:var(--paper);text-align:left;vertical-align:top;font-weight:400;overflow-wrap:anywhere}
#banks>thead b{font-size:15px}
#banks>thead span{display:block;color:var(--dim);font-size:11px;line-height:1.35}
#banks>tbody>tr>th{position:sticky;left:0;z-index:1;max-width:300px;padding:4px 12px 4px 4px;background:var(--paper);text-align:left;font-weight:400;overflow-wrap:anywhere}
#banks>thead th:first-child{left:0;z-index:3}
.none{color:var(--dim);padding:8px}
.cell{padding:0;height:1px}
.cell button{display:block;width:100%;height:100%;min-height:44px;padding:4px 10px;border:1px solid;border-radius:5px;font:inherit;text-align:left;cursor:pointer;scroll-margin:140px 8px 8px 240px}
.cell button b{display:block;line-height:1.25}
.cell button span{font-size:12px}
.cell.open button,.cell button:focus-visible{outline:3px solid #1a4f8b;outline-offset:1px}
.facts{display:none;position:fixed;z-index:10;left:8px;right:8px;bottom:8px;max-height:48vh;overflow:auto;overscroll-behavior:contain;padding:10px 14px 12px;background:#fff;border:1px solid #8a929a;border-radius:6px;box-shadow:0 4px 18px rgba(0,0,0,.22);font-size:13px}
.cell.open .facts,html:not(.js) .cell:hover .facts,html:not(.js) .cell:focus-within .facts{display:block}
@media(min-width:700px){.js .facts{right:auto;bottom:auto;width:380px;max-height:76vh}}
.title{margin:0 0 6px;overflow-wrap:anywhere}
.message{color:var(--red);overflow-wrap:anywhere}
.facts table{border-collapse:collapse;margin-top:8px}
.facts table th{padding:1px 14px 1px 0;color:var(--dim);font-weight:400;text-align:left;vertical-align:top;white-space:nowrap}
.facts table td{padding:1px 0;overflow-wrap:anywhere}
.facts table td span{display:inline-block}
.failing{margin:0}
.failing dt{margin-top:4px}
.failing dd{display:flex;flex-wrap:wrap;gap:4px;margin:3px 0 6px}
.failing dd>*{padding:2px 8px;border:1px solid var(--line);border-radius:4px;overflow-wrap:anywhere}
.failing dd>a:hover{background:#eaf1f8}
.number{font-weight:700}
.glyphs{display:grid;grid-template-columns:repeat(auto-fill,minmax(150px,1fr));gap:10px}
.blank{display:grid;place-items:center;aspect-ratio:1;padding:10px;color:var(--dim);text-align:center}
.numbers dt{max-width:71em;margin-top:10px;font-weight:600}
.numbers dd{margin:0;max-width:70em}
""" + specimen.FIGURE_STYLE + """\
.refused .t1{fill:#3d4a57;stroke:#3d4a57;stroke-width:1px}
figure.refused{background:#fff}
figcaption{font-size:12px}
figcaption b{font-size:13px}
figcaption>.note{color:var(--ink)}
figure{scroll-margin:60px 8px 8px}
figure:target{outline:3px solid #1a4f8b;outline-offset:1px}
dt:target{background:#dbe6f2;outline:none}
#only:checked~.scroll .prints{display:none}
@media(max-width:699px){
body{padding:14px 12px 60px}
.glyphs{grid-template-columns:repeat(auto-fill,minmax(130px,1fr))}
#banks{border-spacing:3px}
#banks>thead th{min-width:80px;max-width:110px;padding:4px}
#banks>thead b{font-size:13px}
#banks>tbody>tr>th{min-width:84px;max-width:32vw;padding:4px 4px 4px 2px;font-size:12px}
#banks>tbody>tr>th .folder{display:none}
.cell button{padding:4px 5px;font-size:12px;scroll-margin-left:130px}
.cell button span{font-size:11px}
.failing dd>*{padding:6px 10px}
}
@media print{
body{padding:0;background:#fff}
.scroll{max-height:none;max-width:none;overflow:visible}
#banks>thead th,#banks>tbody>tr>th{position:static;background:#fff;vertical-align:top}
#only,label,.hint,.title,.facts tr:not(.printed){display:none!important}
.facts table{margin:0}
.facts,.js .facts{display:block;position:static;width:auto;max-height:none;padding:2px 4px;border:0;box-shadow:none;font-size:11px}
.yes .facts{display:none}
.cell{vertical-align:top;height:auto}
.cell button{height:auto;min-height:0}
.failing dd>*{padding:0 4px}
a{color:inherit;text-decoration:none}
tr,figure,dt,dd{break-inside:avoid}
figure{content-visibility:visible}
.refused .t1{fill:#bbb;stroke:#000}
}
"""

SCRIPT = """
(function () {
  "use strict";
  var root = document.documentElement, open = null, kept = false, later = 0;
  root.classList.add("js");
  function cellOf(node) { return node && node.closest ? node.closest(".cell") : null; }
  function button(cell) { return cell.querySelector("button"); }
  function hide() {
    clearTimeout(later);
    if (open) {
      open.classList.remove("open");
      button(open).setAttribute("aria-expanded", "false");
    }
    open = null;
    kept = false;
  }
  // Beside the table, or beside the cell; in a narrow window at the end of the window that is away from the cell.
  function place() {
    var box = open.querySelector(".facts"), s = box.style, c = button(open).getBoundingClientRect();
    var w = root.clientWidth, h = window.innerHeight;
    s.cssText = "";
    if (window.innerWidth < 700) {
      if (c.bottom > h / 2) { s.top = "8px"; s.bottom = "auto"; }
      return;
    }
    var left = document.querySelector(".scroll").getBoundingClientRect().right, top = c.top;
    if (left + box.offsetWidth > w) { left = c.right; }
    if (left + box.offsetWidth > w) { left = c.left - box.offsetWidth; }
    if (left < 0) { left = Math.max(0, w - box.offsetWidth - 8); top = c.bottom; }
    s.left = left + "px";
    s.top = Math.max(8, Math.min(top, h - box.offsetHeight - 8)) + "px";
  }
  function show(cell, keep) {
    if (open !== cell) {
      hide();
      open = cell;
      cell.classList.add("open");
      button(cell).setAttribute("aria-expanded", "true");
    }
    clearTimeout(later);
    kept = kept || keep;
    place();
  }
  function near(cell, key) {
    var row = cell.parentNode, at = Array.prototype.indexOf.call(row.children, cell);
    if (key === "ArrowLeft" || key === "ArrowRight") { return row.children[at + (key === "ArrowLeft" ? -1 : 1)]; }
    do { row = key === "ArrowUp" ? row.previousElementSibling : row.nextElementSibling; } while (row && !row.offsetParent);
    return row && row.children[at];
  }
  // What is open waits a little, so that the mouse can cross other cells on its way to a link.
  document.addEventListener("mouseover", function (e) {
    var cell = cellOf(e.target);
    clearTimeout(later);
    if (kept || cell === open) { return; }
    if (!open) { show(cell, false); return; }
    later = setTimeout(function () {
      if (cell) { show(cell, false); } else if (!open.contains(document.activeElement)) { hide(); }
    }, 180);
  });
  document.addEventListener("focusin", function (e) {
    var cell = cellOf(e.target);
    if (cell) { show(cell, false); } else { hide(); }
  });
  document.addEventListener("click", function (e) {
    var cell = cellOf(e.target), link = e.target.closest("a");
    if (link) { setTimeout(follow, 0); return; }
    if (!cell) { hide(); return; }
    if (!button(cell).contains(e.target)) { kept = true; return; }
    if (open === cell && kept) { hide(); } else { show(cell, true); }
  });
  document.addEventListener("keydown", function (e) {
    var cell = cellOf(e.target);
    if (e.key === "Escape" && open) {
      if (cell) { button(cell).focus(); }
      hide();
    } else if (cell && e.target === button(cell) && e.key.indexOf("Arrow") === 0) {
      var next = near(cell, e.key);
      e.preventDefault();
      if (next && next.classList.contains("cell")) { button(next).focus(); }
    }
  });
  // A link to a cell opens it; a link to a drawing closes what covers it.
  function follow() {
    var cell = document.getElementById(decodeURIComponent(location.hash.slice(1)));
    hide();
    if (cell && cell.classList.contains("cell")) { button(cell).focus(); show(cell, true); }
  }
  window.addEventListener("hashchange", follow);
  window.addEventListener("load", function () { if (location.hash) { follow(); } });
  window.addEventListener("resize", function () { if (open) { place(); } });
  document.addEventListener("scroll", function (e) {
    if (open && !cellOf(e.target)) { place(); }
  }, { capture: true, passive: true });
}());
"""


def page(columns, rows, messages=(), said=None, needed=None, refusals=None):
    """The page; `said` has each bank's stores, `needed` the label's glyphs."""
    fonts, banks = by_font(rows)
    total = sums_of(fonts, banks)
    out = ['<!DOCTYPE html><html lang="en"><head><meta charset="utf-8"><meta name="viewport" content="width=device-width,initial-scale=1">']
    out.append("<title>Fonts and locker banks</title><style>%s</style></head><body>" % STYLE)
    out.append('<header><h1>Fonts and locker banks</h1>')
    out.append('<p id="totals">%s, %s: %d yes, %d no, %d unreadable.</p>' % (count(total[0], "font"), count(total[1], "bank"), *total[2:]))
    if needed:
        names = " ".join(shown(name) for name in needed)
        out.append('<details><summary>The label needs %s.</summary><p class="names">%s</p></details>' % (count(len(needed), "glyph"), names))
    out.append('<ul class="legend">%s</ul>' % "".join('<li class="%s"><b>%s</b>%s</li>' % (w, w, MEANT[w]) for w in WORDS))
    out.append('<p class="hint dim">Point at a cell to see why; click it to keep that open. '
               "With keys: Tab and the arrows go from cell to cell, Escape closes.</p></header>")
    out.append('<input type="checkbox" id="only"><label for="only"> only fonts that some bank does not print</label>')
    out.append('<div class="scroll"><table id="banks"><thead><tr><th scope="col">font</th>%s</tr></thead><tbody>'
               % "".join(bank_head(b, fonts, said or {}) for b in banks))
    for n, font in enumerate(fonts, 1):
        prints = all(b in font.banks and font.banks[b].prints == "yes" for b in banks)
        cells = [cell(n, m, font.banks.get(b), columns, messages, len(needed or [])) for m, b in enumerate(banks, 1)]
        out.append('<tr%s><th scope="row">%s</th>%s</tr>' % (' class="prints"' if prints else "", file_of(font.path), "".join(cells)))
    out.append("</tbody></table></div>")
    drawn = [drawn_section(n, font, banks) for n, font in enumerate(fonts, 1)]
    if any(drawn):
        out.append('<h2>The glyphs that fail</h2><p class="dim">As the Type 1 font draws them; no bank\'s matrix is applied.</p>')
        out += [d for d in drawn if d]
    numbers = {reason for row in rows for _, reason in row.failing if isinstance(reason, int)}
    out.append(refusal_section(numbers, refusals or {}))
    out.append("<script>%s</script></body></html>" % SCRIPT)
    return "\n".join(out) + "\n"


# ---- the command

def stop(text):
    sys.stderr.write("banks: %s\n" % text)
    sys.exit(2)


def read(path):
    if not path:
        return ""
    with open(path, "rb") as f:
        return f.read().decode("latin-1")


def ask(options):
    """The table and the messages of the command."""
    need = ["--need", options.need] if options.need else []
    ran = subprocess.run([options.cribstork, "--banks", options.banks] + need + ["--strict"] * options.strict + options.font,
                         stdout=subprocess.PIPE, stderr=subprocess.PIPE)
    sys.stderr.buffer.write(ran.stderr)
    return ran.stdout.decode("latin-1"), ran.stderr.decode("latin-1")


def main():
    p = argparse.ArgumentParser(description="A page that says which fonts each locker bank may print.")
    p.add_argument("--cribstork", default="target/bin/cribstork", metavar="PROGRAM", help="the program (default: %(default)s)")
    p.add_argument("--banks", metavar="BANKS", help="the banks")
    p.add_argument("--need", metavar="LABEL", help="the glyphs that the label needs")
    p.add_argument("--strict", action="store_true", help="the strict reading for banks that do not say how they read")
    p.add_argument("--table", metavar="ROWS", help="what the command printed; the program is not run")
    p.add_argument("--messages", metavar="LINES", help="with --table: what the command said on standard error")
    p.add_argument("font", nargs="*", metavar="FONT")
    options = p.parse_args()
    if not options.table and not (options.banks and options.font):
        p.error("--banks and a font are needed, or --table")
    try:
        text, errors = (read(options.table), read(options.messages)) if options.table else ask(options)
        columns, rows = read_rows(text)
        totals = [m for m in map(TOTALS.match, errors.split("\n")) if m]
        if totals and [int(v) for v in totals[-1].groups()] != sums_of(*by_font(rows)):
            raise BadTable("the totals differ from the rows: " + totals[-1].group())
        said = read_banks(read(options.banks))
        needed = list(dict.fromkeys(read(options.need).split()))
        refusals = read_refusals(open(REFUSALS, encoding="utf-8").read()) if os.path.exists(REFUSALS) else {}
    except (OSError, BadTable) as e:
        stop(e)
    sys.stdout.buffer.write(page(columns, rows, messages_of(errors), said, needed, refusals).encode("utf-8"))


if __name__ == "__main__":
    main()
