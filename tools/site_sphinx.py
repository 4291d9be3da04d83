"""Makes the site's pages by Sphinx, and beside them the references of Rust (rustdoc) and C (doxygen).

Sphinx reads Markdown by MyST, and the calls of Python from their docstrings. The library need not be built.
"""
import os
import pathlib
import re
import shutil
import subprocess
import sys

from markdown import DEFINED, FENCE

TARGET = re.compile(r'(!?\[(?:[^\[\]]|\[[^\[\]]*\])*\]\()([^()\s]+)(\s*\))')
CONF = '''import itertools, pathlib, re, sys, types, unittest.mock
project, author, copyright = "MySQL's protocol, proved", "", ""
extensions = ["myst_parser", "sphinx.ext.autodoc"]
source_suffix = {".md": "markdown", ".rst": "restructuredtext"}
myst_heading_anchors = 6
suppress_warnings = ["myst", "misc.highlighting_failure", "toc", "autodoc", "ref"]
html_theme, html_title, html_show_copyright = "alabaster", project, False
html_theme_options = {"page_width": "76rem", "sidebar_width": "17rem", "body_max_width": "none"}
html_static_path, templates_path, html_copy_source = ["_static"], ["_templates"], False
html_sidebars = {"**": ["searchbox.html", "localtoc.html", "navigation.html"]}
html_css_files, html_js_files = ["site.css"], [("search.js", {"defer": "defer"})]
pygments_style, autodoc_member_order = "default", "bysource"

# The module of Python is read without its extension, which needs a built library.
path = pathlib.Path(PYTHON)
text = path.read_text(encoding="utf-8").replace("\\n_native = _loaded()\\n", "\\n_native = _Nothing()\\n")
module = types.ModuleType("mysql_session")
module.__file__, module._Nothing = str(path), unittest.mock.MagicMock
sys.modules["mysql_session"] = module
exec(compile(text, str(path), "exec"), module.__dict__)


def name_sections(app, tree):
    """Gives each section the name by which the documents link it."""
    from docutils import nodes
    for section in tree.findall(nodes.section):
        if "slug" in section:
            section["ids"] = [section["slug"], *(it for it in section["ids"] if it != section["slug"])]


def as_written(app, what, name, thing, options, lines):
    """Has docstrings mean what they say: lines that are indented and what is between backquotes are code."""
    found = []
    for is_code, part in itertools.groupby(lines, lambda line: line.startswith("    ")):
        if is_code:
            found += ["", ".. code-block:: text", "", *part, ""]
            continue
        text = re.sub(r"(?<!`)`([^`]+)`(?!`)", r"``\\1``", "\\n".join(part))
        parts = re.split(r"(``[^`]*``)", text)
        parts[::2] = [re.sub(r"[*|\\\\]|_(?!\\w)", lambda it: "\\\\" + it[0], it) for it in parts[::2]]
        found += "".join(parts).split("\\n")
    lines[:] = found


def setup(app):
    app.connect("doctree-read", name_sections)
    app.connect("autodoc-process-docstring", as_written)
'''
SEARCH = '<input id="search" type="search" placeholder="Search" aria-label="Search" data-base="{{ pathto(\'\', 1) }}">\n'
STYLE = '''#search { width: 100%; padding: 0.4rem; font: inherit; box-sizing: border-box; }
.found { padding: 0; list-style: none; }
.found li { margin: 0 0 1rem; }
.found .where { color: #59636e; font-size: 0.85rem; }
.found mark { background: #fff3bf; }
div.body table { display: block; max-width: 100%; overflow-x: auto; }
div.body img { max-width: 100%; }
div.body { overflow-wrap: break-word; }
div.body span.pre { white-space: normal; }
div.body pre { overflow-x: auto; }
@media (min-width: 876px) {
  div.sphinxsidebar { max-height: 100vh; overflow-y: auto; position: fixed; }
}
@media (max-width: 875px) {
  div.document { display: flex; flex-direction: column; width: auto; }
  div.documentwrapper { width: 100%; }
  div.bodywrapper { margin: 0; }
  div.sphinxsidebar { order: -1; position: static; max-height: 40vh; overflow-y: auto; width: auto; margin: 0; }
}
'''
# A phone's width is enough for the pages of the header: what is wider scrolls by itself.
C_STYLE = '''@media (max-width: 875px) {
  div.header, div.contents, div.headertitle, #top, #titlearea { max-width: 100%; overflow-x: auto; }
  div.contents { margin: 0 4px; }
}
'''
PYTHON = '''Python's calls
==============

What `help(mysql_session)` shows, from the docstrings of the module.

.. automodule:: mysql_session
   :members:
   :undoc-members:
'''
REFERENCES = {'rust': ("Rust's calls", 'by rustdoc', 'rust/mysql_session/index.html'),
              'python': ("Python's calls", 'by Sphinx', 'python.html'),
              'c': ("The header for C", 'by doxygen', 'c/mysql__session_8h.html')}


def interpreter():
    """Returns the Python that has Sphinx and MyST; Debian's, where another one comes first. None where none has."""
    for python in (sys.executable, '/usr/bin/python3'):
        if shutil.which(python) and not subprocess.run([python, '-c', 'import sphinx, myst_parser'], check=False,
                                                       capture_output=True).returncode:
            return python
    return None


def is_here():
    """Whether this machine has Sphinx with MyST."""
    return interpreter() is not None


# ---- The documents for Sphinx -------------------------------------------------------------------


def page_of(address):
    """Returns the file of Markdown from which the page at an address is made."""
    return address.removesuffix('.html') + '.md'


def relinked(text, relink):
    """Returns a document with other targets of its links, but in code between fences."""
    out, fence = [], None
    for line in text.split('\n'):
        found = FENCE.match(line)
        if found and fence is None:
            fence = found[1]
        elif fence and line.strip().startswith(fence):
            fence = None
        elif fence is None:
            line = TARGET.sub(lambda it: it[1] + relink(it[2], it[1].startswith('!')) + it[3], line)
        out.append(line)
    # A link whose words and target are in two lines.
    return re.sub(r'\]\(([^()\s]+)\)', lambda it: it[0], DEFINED.sub(
        lambda it: f'[{it[1]}]: {relink(it[2], False)}', '\n'.join(out)))


def write_project(site, folder, root):
    """Writes what Sphinx reads: a page for each document, and for each source that one names."""
    def write(address, text):
        file = folder / page_of(address)
        file.parent.mkdir(parents=True, exist_ok=True)
        file.write_text(text, encoding='utf-8')

    for name, page in site.pages.items():
        def relink(target, is_image, at=name):
            to = site.address(at, target, is_image)
            path, mark, place = to.partition('#')
            return to if re.match(r'\w+:', to) or is_image or not path else page_of(path) + mark + place

        text = relinked(folded((root / name).read_text(encoding='utf-8')), relink)
        write(site.address_of(name), text + (trees(site) if name == 'README.md' else ''))
    for name in site.sources:
        path = root / name
        text = path.read_text(encoding='utf-8') if path.is_file() else '\n'.join(sorted(it.name for it in path.iterdir()))
        ticks = '`' * max(4, 1 + max(map(len, re.findall('`+', text)), default=0))
        write(site.address_of(name), f'---\norphan: true\n---\n# {name}\n\n{ticks}text\n{text}\n{ticks}\n')
    for name in site.images:
        (folder / name).parent.mkdir(parents=True, exist_ok=True)
        shutil.copy(root / name, folder / name)
    for name, text in (('conf.py', f'PYTHON = {str(root / "bindings" / "python" / "mysql_session.py")!r}\n{CONF}'),
                       ('python.rst', PYTHON), ('_templates/searchbox.html', SEARCH), ('_static/site.css', STYLE)):
        (folder / name).parent.mkdir(parents=True, exist_ok=True)
        (folder / name).write_text(text, encoding='utf-8')
    shutil.copy(root / 'docs' / 'site' / 'search.js', folder / '_static')


def folded(text):
    """Returns a document in which no link is broken by the end of a line."""
    return re.sub(r'\[((?:[^\[\]`\n]|`[^`\n]*`)*)\n *((?:[^\[\]`\n]|`[^`\n]*`)*)\]\(', r'[\1 \2](', text)


def trees(site):
    """Returns what Sphinx makes the margin of: the pages by groups, and the references."""
    found = ''
    for group, names in site.groups.items():
        rows = [page_of(site.address_of(it)).removesuffix('.md') for it in names if it != 'README.md']
        more = ['references', 'python'] if group == 'Libraries' else []
        found += f'\n```{{toctree}}\n:hidden:\n:caption: {group}\n:maxdepth: 1\n\n' + '\n'.join(rows + more) + '\n```\n'
    return found


# ---- The references -----------------------------------------------------------------------------


def make_rust(folder, room, root):
    """Makes the pages of Rust's calls; the library need not be there."""
    (room / 'library').mkdir()
    (room / 'library' / 'libmysql_session.a').touch()
    words = ['cargo', 'doc', '--no-deps', '--offline', '--quiet', '--lib', '--target-dir', str(room / 'rust')]
    subprocess.run(words, cwd=root / 'bindings' / 'rust', check=True, stdin=subprocess.DEVNULL,
                   env={**os.environ, 'MYSQL_SESSION_LIBRARY': str(room / 'library')})
    shutil.copytree(room / 'rust' / 'doc', folder / 'rust', dirs_exist_ok=True)
    # Two of its pages link a first page of all crates, which it doesn't make of one.
    (folder / 'rust' / 'index.html').write_text(
        '<!DOCTYPE html>\n<html lang="en"><head><meta charset="utf-8"><title>mysql_session</title>\n'
        '<meta http-equiv="refresh" content="0; url=mysql_session/index.html"></head>\n'
        '<body><a href="mysql_session/index.html">mysql_session</a></body></html>\n', encoding='utf-8')


def make_c(folder, room, root):
    """Makes the pages of the header. Its comments become those that doxygen looks for."""
    (room / 'phone.css').write_text(C_STYLE, encoding='utf-8')
    comments = r"sed -E 's#@#\\@#g; s#^( *)/\* #\1/** #; s#^( *[^ /].*)/\* #\1/**< #; 1s#^/\*$#/** @file#'"
    lines = {'PROJECT_NAME': 'mysql_session.h', 'EXTRACT_ALL': 'YES', 'INPUT': root / 'bindings' / 'c' / 'mysql_session.h',
             'OUTPUT_DIRECTORY': folder, 'HTML_OUTPUT': 'c', 'HTML_EXTRA_STYLESHEET': room / 'phone.css',
             'GENERATE_LATEX': 'NO', 'QUIET': 'YES', 'WARNINGS': 'NO', 'OPTIMIZE_OUTPUT_FOR_C': 'YES', 'FULL_PATH_NAMES': 'NO', 'JAVADOC_AUTOBRIEF': 'YES',
             'SORT_MEMBER_DOCS': 'NO', 'HAVE_DOT': 'NO', 'INPUT_FILTER': f'"{comments}"'}
    text = '\n'.join(f'{name} = {value}' for name, value in lines.items())
    subprocess.run(['doxygen', '-'], input=text, text=True, check=True, stdout=subprocess.DEVNULL)


def references(folder, room, root):
    """Makes the references for which this machine has the tools; returns which ones there are."""
    found = ['python']
    for name, tool, make in (('rust', 'cargo', make_rust), ('c', 'doxygen', make_c)):
        if shutil.which(tool):
            make(folder, room, root)
            found.append(name)
    return found


# ---- The site -----------------------------------------------------------------------------------


def make(site, folder, room, root):
    """Makes the site by Sphinx, with those references for which this machine has the tools."""
    found = references(folder, room, root)
    rows = ''.join(f'| <a href="{link}">{title}</a> | {how} |\n'
                   for name, (title, how, link) in REFERENCES.items() if name in found)
    project = room / 'project'
    write_project(site, project, root)
    (project / 'references.md').write_text(f'# References by language\n\n| what | made |\n|---|---|\n{rows}', encoding='utf-8')
    subprocess.run([interpreter(), '-m', 'sphinx', '-q', '-b', 'html', '-j', 'auto', '-d', str(room / 'doctrees'), str(project), str(folder)],
                   check=True, stdin=subprocess.DEVNULL)
