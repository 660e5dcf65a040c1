"""The definitions in the specs of the libraries, which clauses name: the list, and its page."""
import pathlib
import re

TOP = pathlib.Path(__file__).resolve().parents[2] / "crates"
CRATES = """bitm bitm_bits bitm_view postings sparse_bits elias_fano elias_fano_view text_index suffix_order wavelet_matrix
    perfect_hash hash_buckets digits block_sections block_items tree_block text_block matrix_block levels_view
    sequence_block hash_block
    block_tables bitm_block louds matrix_levels tables_view bitm_selection bitm_strategies bitm_select bitm_tables bit_words
    broadword bit_lists tuning""".split()  # the lowest ones last


def definitions():
    """Name to (crate, file, comment, text) of each public definition; of two with one name the lower crate's stays."""
    found = {}
    for path in (it for crate in CRATES for it in sorted((TOP / crate / "specs").glob("*.antt"))):
        for block in path.read_text(encoding="utf-8").split("\n\n"):
            made = re.search(r"^(?:\w+ )*pub (?:record )?(\w+)", block, re.M)
            if made and not block.startswith("use "):
                comment = " ".join(re.findall(r"^-- ?(.*)$", block[: made.start()], re.M))
                text = re.sub(r"^-- .*\n", "", block[made.start():], flags=re.M)
                found[made[1]] = (path.parts[-3], path.name, comment, text)
    return found


def anchor(name):  # labels have no case: `Parts` and `parts` are two
    return ("def-" if name[0].islower() else "prop-") + name


def definitions_page(known):
    text = "---\nnosearch: true\n---\n# Definitions\n\nWhat the clauses mean: the prover reads these texts. The sentences are their comments.\n"
    for crate in CRATES:
        text += f"\n## {crate}\n"
        for name, (of, file, comment, made) in known.items():
            if of == crate:
                source = f'<a href="../../source/crates/{of}/specs/{file}.html">{file}</a>'
                text += f"\n({anchor(name)})=\n### {name}\n\n{comment or '*no comment*'} ({source})\n\n```antt\n{made}\n```\n"
    return text
