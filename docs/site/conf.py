"""The site of documents and references, which docs/site/build makes of the packages of Debian 12, without network."""
import os
import pathlib
import sys

from lexers import Commands, Output, Rattle

OUT = pathlib.Path(os.environ["SITE"])  # where build puts the XML of Doxygen and the Python package
sys.path.insert(0, str(OUT / "python"))

project = "Vokhuliza"
version = release = os.environ["VERSION"]
copyright = "the authors of Vokhuliza; Apache-2.0"
extensions = ["myst_parser", "breathe", "sphinx.ext.autodoc", "sphinx_inline_tabs", "sphinx_copybutton", "entries", "finding"]
nitpicky = False
highlight_language = "none"
default_role = "py:obj"  # `name` in a docstring is code, and a link where there is such a name
myst_enable_extensions = ["colon_fence", "deflist"]
myst_heading_anchors = 3
suppress_warnings = ["config.cache", "myst.header"]

breathe_projects = {"c": str(OUT / "doxygen/c/xml"), "cpp": str(OUT / "doxygen/cpp/xml")}
breathe_default_project = "c"
breathe_domain_by_extension = {"h": "c", "hpp": "cpp"}
breathe_show_include = False

autodoc_member_order = "bysource"
python_use_unqualified_type_names = True
add_module_names = False
toc_object_entries_show_parents = "hide"

html_theme = "furo"
html_title = f"Vokhuliza {release}"
html_static_path = ["static"]
html_css_files = ["site.css"]
html_js_files = ["language.js"]
html_search_scorer = str(pathlib.Path(__file__).parent / "static/scorer.js")
html_copy_source = False
html_show_sphinx = False
html_show_copyright = False
html_theme_options = {"navigation_with_keys": True}
if address := os.environ.get("SOURCE_URL"):  # where the repository is, if it is anywhere
    html_theme_options["footer_icons"] = [{"name": "Source", "url": address, "html": "Source", "class": ""}]
pygments_dark_style = "github-dark"
copybutton_selector = ("article div.doctest pre, "  # without quotes, which would end the script's own
                       "article div[class^=highlight-]:not(.highlight-output, .highlight-none, .highlight-antt, table.contract *) pre")
copybutton_prompt_text = r">>> |\.\.\. |\$ "
copybutton_prompt_is_regexp = True


def mend_furo(app, failed):
    """Debian's furo takes normalize.css from an address of Debian's web server, and has lost the dark colours of
    readers whose system is dark: both are put into its style sheet."""
    sheet = pathlib.Path(app.outdir) / "_static/styles/furo.css"
    plain = pathlib.Path("/usr/share/javascript/normalize.css/normalize.css")
    if failed or app.builder.format != "html" or not plain.exists():
        return
    text = sheet.read_text()
    start = text.find('body[data-theme="dark"] {')
    dark = text[start:text.find("}", start) + 1]
    lost = "@import url(/javascript/normalize.css/normalize.css);"
    if lost in text:
        by_system = dark.replace('body[data-theme="dark"]', 'body:not([data-theme="light"])')
        sheet.write_text(text.replace(lost, plain.read_text()) + "@media not print { @media (prefers-color-scheme: dark) {" + by_system + "} }\n")


def setup(app):
    app.connect("build-finished", mend_furo)
    for lexer in (Rattle, Output, Commands):
        for alias in lexer.aliases:
            app.add_lexer(alias, lexer)
