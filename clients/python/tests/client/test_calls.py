"""The calls that `Store` and `AsyncStore` have in common are written once."""
import ast
import asyncio
import os

from jpstore.wire.finished import finished
from support import PACKAGE, raised


SAME = {"asyncio": "time", "StopAsyncIteration": "StopIteration"}


class Plain(ast.NodeTransformer):
    """Takes `async` and `await` away."""

    def visit_Await(self, node):
        return self.visit(node.value)

    def visit_Name(self, node):
        node.id = SAME.get(node.id, node.id)
        return node

    def visit_AsyncFor(self, node):
        return self.renamed(node, ast.For)

    def visit_AsyncWith(self, node):
        return self.renamed(node, ast.With)

    def renamed(self, node, kind):
        self.generic_visit(node)
        return kind(**{name: getattr(node, name) for name in node._fields})


def statements(function):
    """The text of a function's statements without `async` and `await`; nothing if there is only one."""
    body = function.body[ast.get_docstring(function) is not None:]
    count = sum(isinstance(node, ast.stmt) for statement in body for node in ast.walk(statement))
    return [ast.dump(Plain().visit(statement)) for statement in body] if count > 1 else []


def test_no_function_is_the_same_as_another_but_for_await():
    plain, awaiting = [], []
    for folder, _, names in os.walk(os.path.join(PACKAGE, "jpstore")):
        for name in names:
            if name.endswith(".py"):
                with open(os.path.join(folder, name), encoding="utf-8") as opened:
                    tree = ast.parse(opened.read())
                for node in ast.walk(tree):
                    if isinstance(node, (ast.FunctionDef, ast.AsyncFunctionDef)):
                        (plain if isinstance(node, ast.FunctionDef) else awaiting).append(statements(node))
    assert len(plain) > 500
    assert len(awaiting) > 100
    assert not [each for each in awaiting if each and each in plain]


def test_a_coroutine_that_waits_is_not_finished():
    async def waits():
        await asyncio.sleep(0)

    async def returns():
        return 5

    async def fails():
        raise KeyError
    assert finished(returns()) == 5
    raised(KeyError, finished, fails())
    raised(AssertionError, finished, waits())
