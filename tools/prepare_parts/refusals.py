"""What is refused wherever it stands: found in one walk over the parser's tree, so that all of it is told at once."""
from pycparser import c_ast

CALLS = {"scanf", "fprintf", "calloc"}


def refusals(tree, faults):
    """Tells each construct that no pass takes."""
    walk(tree, faults)


def walk(node, faults):
    if isinstance(node, c_ast.Goto):
        faults.add(node, "goto: if and while")
    elif isinstance(node, c_ast.Union):
        faults.add(node, "a union: a struct with a member for each")
    elif isinstance(node, c_ast.IdentifierType) and {"float", "double"} & set(node.names):
        faults.add(node, "a floating type: an integer type")
    elif isinstance(node, c_ast.EllipsisParam):
        faults.add(node, "any number of arguments: so many parameters as there are")
    elif isinstance(node, c_ast.Decl) and node.bitsize is not None:
        faults.add(node, "a bit-field: a whole member")
    elif isinstance(node, c_ast.PtrDecl) and isinstance(node.type, c_ast.FuncDecl):
        faults.add(node.type, "a pointer to a function: call functions by their names")
    elif isinstance(node, c_ast.Constant) and ("float" in node.type or "double" in node.type):
        faults.add(node, "a floating constant or a wide character: an integer")
    for _, child in node.children():
        walk(child, faults)
