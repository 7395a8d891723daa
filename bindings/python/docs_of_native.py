"""Makes the header `native_docs.h` of the documentation in `_native.pyi`: that of each call, after its signature.

    python3 docs_of_native.py _native.pyi native_docs.h
"""

import ast
import json
import sys
from pathlib import Path


def signature(of, is_method):
    """The parameters without their types, as `inspect` reads them."""
    arguments = of.args
    for argument in (*arguments.posonlyargs, *arguments.args, *arguments.kwonlyargs, arguments.vararg):
        if argument:
            argument.annotation = None
    if is_method:
        arguments.args[0].arg = "$self" if arguments.args[0].arg == "self" else "$type"
    return f"{of.name}({ast.unparse(arguments)})\n--\n\n"


def documented(body, prefix=""):
    """The names of all that have documentation, with it."""
    for at, node in enumerate(body):
        doc = ast.get_docstring(node) if isinstance(node, (ast.FunctionDef, ast.ClassDef)) else None
        if isinstance(node, ast.ClassDef):
            yield prefix + node.name, doc or ""
            yield from documented(node.body, f"{node.name}_")
        elif isinstance(node, ast.AnnAssign) and prefix and isinstance(body[at + 1], ast.Expr):
            yield prefix + node.target.id, ast.literal_eval(body[at + 1].value)
        elif doc:
            is_property = any(ast.unparse(decorator) == "property" for decorator in node.decorator_list)
            yield prefix + node.name, doc if is_property else signature(node, bool(prefix)) + doc


if __name__ == "__main__":
    found = documented(ast.parse(Path(sys.argv[1]).read_text()).body)
    Path(sys.argv[2]).write_text("".join(f"#define DOC_{name} {json.dumps(text)}\n" for name, text in found))
