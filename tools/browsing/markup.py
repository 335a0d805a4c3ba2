"""The page, of what is asked and what is answered. It has no script, and nothing of it comes from elsewhere."""
import html
import urllib.parse

import page
from browsing.style import STYLE
from page import code, counted, plain

# How many items a list has at most, and how many of a chain are shown at each of its ends.
LISTED, ENDS = 200, 30

REASONS = {
    "yes": "Data lead from the one to the other, in whatever way the run is finished.",
    "no": "No data lead from the one to the other, in whatever way the run is finished.",
}


class Asked:
    """What a request asks: the number of a view, two items or texts in their place, and what is searched for."""

    def __init__(self, view=0, first="", second="", find=""):
        self.view, self.first, self.second, self.find = view, first or second, second if first else "", find

    def address(self, **changes):
        """Returns the address of the page with something changed, for an attribute."""
        return "?" + html.escape(urllib.parse.urlencode({word: text for word, text in {**vars(self), **changes}.items() if text != ""}))

    def clicked(self, name):
        """Returns the address of a click on an item: it is the second where a first is chosen, and otherwise the first."""
        return self.address(second=name) if self.first else self.address(first=name)


def head():
    yield '<!DOCTYPE html>\n<html lang="en">\n<head>\n<meta charset="utf-8"/>'
    yield '<meta name="viewport" content="width=device-width, initial-scale=1"/>'
    yield f"<title>What rests on what</title>\n<style>{STYLE}</style>\n</head>\n<body>"


def opening(asked, spec, events, views):
    """Yields the top of the page, on which a view is chosen."""
    yield f"<header><h1>What rests on what?</h1><p>The workflow {code(spec)} and its run {code(events)}</p></header>"
    yield "<nav>Seen through the view"
    for number, view in enumerate(views):
        current = ' aria-current="page"' if number == asked.view else ""
        yield f'<a{current} href="{asked.address(view=number)}">{plain(view)}</a>'
    yield "</nav>"


def field(name, value, label):
    return f'<input name="{name}" value="{plain(value)}" aria-label="{label}" placeholder="{label}" autocomplete="off" spellcheck="false"/>'


def hidden(asked, *words):
    return "".join(f'<input type="hidden" name="{word}" value="{plain(str(getattr(asked, word)))}"/>' for word in words)


def question_part(asked):
    """Yields the question, which is asked by clicks or by typing."""
    yield '<section id="question"><form method="get">' + hidden(asked, "view")
    yield f"Does {field('second', asked.second, 'the second item')} rest on {field('first', asked.first, 'the first item')}?"
    yield "<button>Ask</button>"
    if asked.second:
        yield f'<a href="{asked.address(first=asked.second, second=asked.first)}">the other way round</a>'
    if asked.first:
        yield f'<a href="{asked.address(first="", second="")}">begin anew</a>'
    yield "</form>"
    if not asked.first:
        yield "<p>Click an item, and then another: the answer says whether the second rests on the first.</p>"
    elif not asked.second:
        yield f"<p>{code(asked.first)} is chosen. Click another item to ask whether it rests on {code(asked.first)}.</p>"
    else:
        yield f"<p>Click another item to ask whether it rests on {code(asked.first)} too.</p>"
    yield "</section>"


def notice(says):
    yield f'<section id="notice" role="alert">{plain(says)}</section>'


def link(asked, name):
    chosen = ' class="asked-item"' if name in (asked.first, asked.second) else ""
    return f'<a{chosen} href="{asked.clicked(name)}">{plain(name)}</a>'


def items_of(asked, names, total, more=""):
    """Yields a list of items that can be clicked, and how many there are besides."""
    yield '<ul class="items">'
    for name in names[:LISTED]:
        yield f"<li>{link(asked, name)}</li>"
    yield "</ul>"
    if total > len(names[:LISTED]):
        yield f'<p class="note">These are {counted(len(names[:LISTED]), "item")} of {more}{total:,}.</p>'


def commands_part(commands):
    yield "<details><summary>The commands that give this again</summary>"
    yield f'<pre class="commands">{html.escape(chr(10).join(commands))}</pre></details>'


def chain_part(asked, chain):
    """Yields a chain of items."""
    yield "<p>This is a shortest chain of items, each of which rests on the one before it through one step."
    yield "<code>verify</code> looked at each of its lines and accepted it.</p>"
    yield '<ol class="chain">'
    items, vias = chain[::2], [""] + [line.removeprefix("via ") for line in chain[1::2]]
    for number, (name, via) in enumerate(zip(items, vias)):
        if ENDS <= number < len(items) - ENDS:
            if number == ENDS:
                yield f'<li class="via">and so through {counted(len(items) - 2 * ENDS, "item")} more</li>'
            continue
        through = f'<span class="via">through {code(via)} to</span> ' if via else ""
        yield f"<li>{through}{link(asked, name)}</li>"
    yield "</ol>"


def answer_part(asked, answer):
    """Yields an answer with its reason."""
    yield f'<section id="answer" class="{answer.word}"><p class="word">{answer.word}</p>'
    yield f'<p class="says">{answer.says}</p>'
    if answer.word in REASONS:
        yield f"<p>{REASONS[answer.word]}</p>"
    if answer.chain:
        yield from chain_part(asked, answer.chain)
    yield from commands_part(answer.commands)
    yield f'<p><a href="page.html{asked.address(find="")}">Keep this answer as a page</a></p>'
    yield "</section>"


def related_part(asked, related):
    """Yields what the chosen item rests on, and what rests on it."""
    if related.says:
        yield f'<section id="answer" class="hidden"><p class="says">{related.says}</p></section>'
        return
    yield '<section id="related"><div class="pair">'
    for word, title, names in (("before", f"{code(asked.first)} rests on", related.before), ("after", f"On {code(asked.first)} rest", related.after)):
        yield f'<div class="{word}"><h2>{title} {counted(len(names), "item") if names else "no item"}</h2>'
        yield from items_of(asked, names, len(names)) if names else ()
        yield "</div>"
    yield "</div>"
    yield from commands_part(related.commands)
    yield "</section>"


def search_part(asked, found, total):
    """Yields the search and the items that it found."""
    yield f'<section id="items"><h2>{counted(total, "item")} under this view</h2>'
    yield '<form method="get">' + hidden(asked, "view", "first", "second")
    yield f"{field('find', asked.find, 'part of a name')}<button>Find items</button></form>"
    if asked.find:
        some = "more than " if found.is_cut else ""
        yield f"<p>{some}{counted(found.total, 'item')} with {code(asked.find)} in the name</p>"
    yield from items_of(asked, found.names, found.total, "more than " if found.is_cut else "")
    yield "</section>"


def links_of(asked, lines):
    """Yields links as a list, in which items can be clicked."""
    items = {line[5:] for line in lines if line.startswith("item ")}
    yield "<p>Data go from the first port to the second.</p>"
    yield '<ul class="links">'
    for line in lines:
        if line.startswith("link "):
            told = [link(asked, port) if port in items else code(port) for port in line.split(" ")[1:]]
            yield f"<li>{told[0]} to {told[1]}</li>"
    yield "</ul>"


def details(title, lines):
    yield f"<details><summary>{title}</summary>"
    yield from lines
    yield "</details>"


def files_part(files):
    """Yields the files as they were read."""
    yield "<table><thead><tr><th>File</th><th>SHA-256</th><th>Bytes</th></tr></thead><tbody>"
    for file in files:
        yield f'<tr><td>{code(file.path)}</td><td><code class="digest">{file.told[1]}</code></td><td>{file.told[0]:,}</td></tr>'
    yield "</tbody></table>"
