"""How Sphinx makes the handbook. `tools/handbook` calls it, over the files that making.py lays
out."""
import re

from propbench.grammar import parsed
from propbench.lexer import PropbenchLexer
from pygments.token import Generic

project = "propbench"
extensions = ["myst_parser"]
root_doc = "index"
source_suffix = {".md": "markdown"}
myst_heading_anchors = 4
highlight_language = "none"
# (a block that is no shell's throughout is shown plainly)
suppress_warnings = ["misc.highlighting_failure"]

html_theme = "furo"
html_title = "propbench"
html_static_path = ["static"]
html_css_files = ["book.css"]
pygments_style, pygments_dark_style = "friendly", "native"
html_copy_source = html_show_sphinx = html_show_copyright = False
html_use_index = html_domain_indices = False

# A line that propwide alone knows, and a reply that says how many lines follow.
WIDE = re.compile(r"(?:step|list|solve( .*)?|(?:how|least|greatest) [^\d-].*|plans \d+ .*)")
COUNTED = re.compile(r"(?:nogoods|step|how|list|plans?|least|greatest) (\d+)")


class SessionLexer(PropbenchLexer):
    """Lines of the workbench's language, and below each what it is answered."""

    name, aliases, filenames = "session", ["session"], []

    def get_tokens_unprocessed(self, text):
        start = left = 0
        for line in text.splitlines(keepends=True):
            said = line.rstrip("\n")
            is_sent = left == 0 and (parsed(said).complete or WIDE.fullmatch(said))
            counted = None if is_sent else COUNTED.fullmatch(said)
            left = int(counted[1]) if counted and not left else max(left - 1, 0)
            if is_sent or not said or said.startswith("#"):
                for place, kind, piece in super().get_tokens_unprocessed(line):
                    yield start + place, kind, piece
            else:
                yield start, Generic.Output, line
            start += len(line)


def setup(app):
    app.add_lexer("session", SessionLexer)
