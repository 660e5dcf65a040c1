"""Colours for Rattle and the language of its definitions, and none for what programs print."""
from pygments.lexer import RegexLexer, words
from pygments.lexers.shell import BashLexer
from pygments.lexers.special import TextLexer
from pygments.token import Comment, Keyword, Name, Number, Operator, String, Text


class Rattle(RegexLexer):
    """Rattle, and the language of its definitions."""

    name, aliases = "Rattle", ["rattle", "antt"]
    tokens = {
        "root": [
            (r"(//[/!]?|--) .*?$|//$", Comment.Single),
            (r'"(?:\\.|[^"\\])*"', String),
            (words(("requires", "ensures", "ghost", "invariant", "record", "abbrev", "unfoldable", "where", "then", "λ"),
                   suffix=r"\b"), Keyword.Declaration),
            (words(("as const else enum fn for if impl in let match mod mut pub return self Self struct trait type use "
                    "while loop break continue").split(), prefix=r"\b", suffix=r"\b"), Keyword),
            (r"\b(?:[ui](?:8|16|32|64|size)|bool|str)\b", Keyword.Type),
            (r"\b[A-Z]\w*", Name.Class),
            (r"\b\d[\d_]*(?:[ui]\w+)?\b|\b0x[0-9a-f_]+", Number),
            (r"'[a-z_]\w*\b", Name.Label),
            (r"[≡≤<>↔→×∷¬+*/^=&|-]+", Operator),
            (r"\w+|\s+|.", Text),
        ]
    }


class Output(TextLexer):
    """What a guide's programs print: test_blocks and test_guides compare it."""

    name, aliases = "Output", ["output"]


class Commands(BashLexer):
    """What makes the data of a guide, and the ordinary way to its answers."""

    name, aliases = "Commands", ["data", "ordinary"]
