"""Tests of the library: the proved archive with the heap of c/heap.c as a shared library, called from this process and
from python/topk.py.

`make lib` builds the archive, and so does tests/run.py with --library.
"""
from __future__ import annotations

import array
import contextlib
import ctypes
import doctest
import functools
import importlib
import os
import pathlib
import random
import re
import subprocess
import sys
import tempfile
import threading
from collections.abc import Callable, Iterator, Sequence
from types import ModuleType
from typing import Any, Tuple

from machine import SECONDS, Skipped, needs, no_memory, no_threads, path_of, peer
from special import LARGEST, MAX_INPUT, padded_bundle
from support import REPOSITORY, first_difference, list_text, ranked, run, worked_out

HERE = pathlib.Path(__file__).resolve().parent
EXAMPLES = REPOSITORY / "crates" / "examples" / "data"
ARCHIVE = REPOSITORY / "crates" / "topk_c" / "out" / "libtopk_c.a"
BUNDLE = b"list A\n1,900\n2,800\n3,100\nlist B\n2,700\n3,600\n1,500\nquery top 1 by sum(A,B) using ta\n"
BEATEN = (HERE / "cases" / "judge_beaten" / "input").read_bytes()
GUARD = b"\xa5"
# A list's name and rows.
NamedRows = Tuple[bytes, "list[tuple[int, int]]"]
_BUILDING = threading.Lock()
COUNTED = threading.Lock()


def built(heap: str) -> str:
    """The path of the shared library over this heap."""
    compiler = path_of("cc", "gcc", "clang")
    if not ARCHIVE.exists():
        raise Skipped("there is no proved archive")
    with _BUILDING:
        return linked(heap, compiler)[1]


@functools.lru_cache(None)
def linked(heap: str, compiler: str) -> tuple[tempfile.TemporaryDirectory[str], str]:
    """The shared library over this heap, and the folder in which it stands as long as this is kept."""
    place = tempfile.TemporaryDirectory()
    path = f"{place.name}/libtopk.so"
    subprocess.run([compiler, "-shared", "-fPIC", "-O2", "-o", path, REPOSITORY / heap, "-Wl,--whole-archive", ARCHIVE,
                    "-Wl,--no-whole-archive"], check=True, timeout=SECONDS)
    return place, path


class Row(ctypes.Structure):
    """A row as the library takes it."""

    _fields_ = [("object", ctypes.c_uint32), ("grade", ctypes.c_uint32)]


class List(ctypes.Structure):
    """A list as the library takes it."""

    _fields_ = [("name", ctypes.c_char_p), ("name_length", ctypes.c_size_t), ("rows", ctypes.POINTER(Row)),
                ("rows_length", ctypes.c_size_t)]


def library(heap: str = "c/heap.c") -> ctypes.CDLL:
    """The library, its calls with their types."""
    found = ctypes.CDLL(built(heap))
    text = [ctypes.c_char_p, ctypes.c_size_t]
    of_rows = [ctypes.POINTER(List), ctypes.c_size_t, *text]
    for call, given in ((found.topk_answer, text), (found.topk_judge, text), (found.topk_answer_rows, of_rows)):
        call.argtypes = [*given, *text, ctypes.POINTER(ctypes.c_size_t)]
        call.restype = ctypes.c_uint8
    return found


@contextlib.contextmanager
def counted_library() -> Iterator[ctypes.CDLL]:
    """The library over the heap that counts, for one test at a time: its count is of the whole process."""
    with COUNTED:
        yield library("tests/failing_heap.c")


def rows_given(lists: Sequence[NamedRows], query: bytes) -> tuple[Any, ...]:
    """Lists, as pairs of a name and rows, and a query, as the library takes them."""
    made = []
    for name, rows in lists:
        of_list = (Row * max(1, len(rows)))(*[Row(*row) for row in rows])
        made.append(List(name, len(name), of_list, len(rows)))
    return (List * len(made))(*made), len(made), query, len(query)


def printed(lists: Sequence[NamedRows], query: bytes) -> bytes:
    """The text of a bundle that lists and a query print as."""
    rows = [b"list " + name + b"\n" + b"".join(b"%d,%d\n" % row for row in rows) for name, rows in lists]
    return b"".join([*rows, b"query " + query + b"\n"])


def taken_apart(bundle: bytes) -> tuple[list[NamedRows], bytes] | None:
    """The lists and the query that print as a text, or None where none do."""
    lists: list[NamedRows] = []
    query = b""
    for line in bundle.split(b"\n"):
        word, _, rest = line.partition(b" ")
        if word == b"list":
            lists.append((rest, []))
        elif word == b"query":
            query = rest
        elif lists and re.fullmatch(rb"[0-9]{1,9},[0-9]{1,9}", line):
            item, _, grade = line.partition(b",")
            lists[-1][1].append((int(item), int(grade)))
    return (lists, query) if printed(lists, query) == bundle else None


def rows_of_bundle() -> tuple[Any, ...]:
    """The lists and the query of BUNDLE, as the library takes them."""
    lists = [(b"A", [(1, 900), (2, 800), (3, 100)]), (b"B", [(2, 700), (3, 600), (1, 500)])]
    return rows_given(lists, b"top 1 by sum(A,B) using ta")


def called(call: Any, given: Any, room: int) -> tuple[int, int, bytes]:
    """The status, the length that is told, and the buffer of so much room after a call; a byte behind it is watched."""
    out = ctypes.create_string_buffer(GUARD * (room + 1), room + 1)
    written = ctypes.c_size_t(room + 12345)
    status = call(*((given, len(given)) if isinstance(given, bytes) else given), out, room, ctypes.byref(written))
    return status, written.value, out.raw


def whole(call: Any, given: Any) -> tuple[int, bytes, bool]:
    """The status and the text, by a call that tells the length and a second one with so much room."""
    status, length, _ = called(call, given, 0)
    again = called(call, given, length)
    return again[0], again[2][:length], (status, length) == again[:2]


def module() -> ModuleType:
    """The package python/topk over the library that was built here."""
    os.environ["TOPK_LIBRARY"] = built("c/heap.c")
    if "topk" not in sys.modules:
        sys.path.insert(0, str(REPOSITORY / "python"))
    return importlib.import_module("topk")


def made_bundle(count: int, lists: int, query: bytes) -> bytes:
    """Lists of which each ranks the objects in an order of its own."""
    text = b""
    for number in range(lists):
        text += b"list l%d\n" % number
        rows = ranked({it: it * (2 * number + 3) * 7919 % 1009 for it in range(count)})
        text += list_text(rows).encode()
    return text + b"query " + query + b"\n"


def says(program: str, word: str, given: bytes) -> tuple[int, bytes]:
    """How a command of the program ends over an input, and what it writes."""
    done = run(program, [word], given)
    return done.returncode, done.stdout


def compared(program: str, word: str, call: Any, given: Any, name: str, text_given: bytes | None = None) -> str | None:
    """What is wrong with a call in comparison with the command over a text, which is what is given if no other is, or
    None."""
    status, text, same = whole(call, given)
    wanted = says(program, word, given if text_given is None else text_given)
    if not same:
        return f"{name}: a buffer with room changed the status or the length"
    other_end = None if status == wanted[0] else f"ended with {status} in place of {wanted[0]}"
    wrong = first_difference(text, wanted[1]) or other_end
    return wrong and f"{name}: {wrong}"


def library_one_as_program(program: str) -> str | None:
    """Every bundle of the examples: the text of the program, which is the one that stands beside it."""
    answer = library().topk_answer
    for path in sorted(EXAMPLES.glob("*.bundle")):
        wrong = compared(program, "one", answer, path.read_bytes(), path.name)
        if wrong is None and path.name != "refused_words.bundle":
            wrong = first_difference(whole(answer, path.read_bytes())[1], path.with_suffix(".text").read_bytes())
        if wrong is not None:
            return wrong
    return None


def library_rows_as_program(program: str) -> str | None:
    """Every bundle of the examples that lists print as, and made ones: the text that the program writes of the printed
    text."""
    answer = library().topk_answer_rows
    texts = {path.name: path.read_bytes() for path in sorted(EXAMPLES.glob("*.bundle"))}
    query = "top 7 by sum(l0,min(l1,l2),median(l3,l4)) using"
    texts.update({word: made_bundle(500, 5, f"{query} {word}".encode()) for word in ("ta", "nra", "ca", "fa")})
    apart = {name: (text, taken_apart(text)) for name, text in texts.items()}
    if sum(parts is not None for _, parts in apart.values()) < 20:
        return "too few examples are what lists print as"
    for name, (text, parts) in apart.items():
        wrong = None if parts is None else compared(program, "one", answer, rows_given(*parts), name, text)
        if wrong is not None:
            return wrong
    return None


def library_rows_of_no_bundle(program: str) -> str | None:
    """Each way in which rows make no bundle: what the program writes of the printed text; and of names and queries that
    are no line, by hand."""
    answer = library().topk_answer_rows
    two, query = (b"B", [(2, 700), (1, 500)]), b"top 1 by A using ta"
    rows_at_fault: tuple[list[tuple[int, int]], ...] = (
        [(1, 900), (2, 901)], [(1, 1_000_001), (2, 5)], [(1, 9), (1, 8)], [(1, 9)], [(1, 9), (3, 8)], [],
        [(1, 9), (2, 8), (3, 7)], [(4_294_967_295, 9), (1, 8)])
    names_at_fault = (b"B", b"", b"1A", b"A" * 33, b"A b")
    for one in [(b"A", rows) for rows in rows_at_fault] + [(name, [(1, 9), (2, 8)]) for name in names_at_fault]:
        for lists in ([one, two], [two, one]):
            wrong = compared(program, "one", answer, rows_given(lists, query), str(lists), printed(lists, query))
            if wrong is not None:
                return wrong
    many = [(b"l%d" % number, [(1, 5)]) for number in range(65)]
    for lists in ([], many, many[:64]):
        one_list = b"top 1 by l0 using ta"
        given, text = rows_given(lists, one_list), printed(lists, one_list)
        wrong = compared(program, "one", answer, given, f"{len(lists)} lists", text)
        if wrong is not None:
            return wrong
    row = [(1, 5)]
    for lists, query, line in (([(b"A\n1,5\nlist B", row)], query, 1), ([(b"A", row), (b"B\n1,5", row)], query, 3),
                               ([(b"A", row)], query + b"\n", 3), ([(b"A", row)], b"\n", 3),
                               ([(b"A", [(1, 5), (2, 6)])], b"a\nb", 3)):
        found = whole(answer, rows_given(lists, query))
        if found != (10, b"refused bundle %d\n" % line, True):
            return f"{lists} with {query!r}: {found}"
    return None


def library_judge_as_program(program: str) -> str | None:
    """Every text of the examples and of the cases of `judge`: the certificates, and what is none."""
    judge = library().topk_judge
    paths = sorted(EXAMPLES.glob("*.text")) + sorted((HERE / "cases").glob("judge_*/input"))
    for path in paths:
        wrong = compared(program, "judge", judge, path.read_bytes(), str(path))
        if wrong is not None:
            return wrong
    return None


def library_short_buffer(program: str) -> str | None:
    """A buffer with room for all but one byte, and one for one more: the first stays as it was, and of the second the
    byte more does."""
    found = library()
    for call, given in ((found.topk_answer, BUNDLE), (found.topk_answer_rows, rows_of_bundle()),
                        (found.topk_judge, BEATEN)):
        status, text, _ = whole(call, given)
        length = len(text)
        if called(call, given, length - 1) != (status, length, GUARD * length):
            return "a buffer that is too short was told or written otherwise"
        if called(call, given, length + 1) != (status, length, text + GUARD * 2):
            return "a buffer with a byte to spare was told or written otherwise"
    return None


def library_empty_input(program: str) -> str | None:
    found = library()
    if whole(found.topk_answer, b"")[:2] != (10, b"refused bundle 1\n"):
        return f"a bundle of no byte: {whole(found.topk_answer, b'')}"
    if whole(found.topk_judge, b"")[:2] != (1, b"refused BadLine 1\n"):
        return f"a certificate of no byte: {whole(found.topk_judge, b'')}"
    return None


def library_largest_input(program: str) -> str | None:
    needs(no_memory(LARGEST))
    answer = library().topk_answer
    found = whole(answer, padded_bundle(MAX_INPUT))[:2]
    if found != (1, b"refused 1 LongLine 4096\n"):
        return f"the largest input: {found}"
    if called(answer, padded_bundle(MAX_INPUT + 1), 64) != (9, 0, GUARD * 65):
        return "an input of one byte more was answered otherwise"
    return None


def library_on_threads(program: str) -> str | None:
    """Eight threads at once, each with queries of its own, get what one thread gets."""
    needs(no_threads(20))
    answer = library().topk_answer
    bundles = [BUNDLE.replace(b"top 1", b"top %d" % k).replace(b"ta\n", word + b"\n")
               for k in (1, 2, 3, 4) for word in (b"ta", b"ca")]
    wanted, wrong = [whole(answer, bundle) for bundle in bundles], list[int]()

    def work(it: int) -> None:
        for _ in range(500):
            if whole(answer, bundles[it]) != wanted[it]:
                wrong.append(it)

    threads = [threading.Thread(target=work, args=(it,)) for it in range(8)]
    for thread in threads:
        thread.start()
    for thread in threads:
        thread.join()
    return f"threads {sorted(set(wrong))} got another text" if wrong else None


def library_keeps_nothing(program: str) -> str | None:
    """After each of 10,000 calls no block is left."""
    rows = rows_of_bundle()
    with counted_library() as found:
        out, written = ctypes.create_string_buffer(4096), ctypes.c_size_t()
        found.test_fail_at(0)
        for number in range(10_000):
            found.topk_answer_rows(*rows, out, 4096, ctypes.byref(written))
            found.topk_answer(BUNDLE, len(BUNDLE), out, 4096, ctypes.byref(written))
            found.topk_judge(BEATEN, len(BEATEN), out, 4096, ctypes.byref(written))
            if found.test_blocks() != 0:
                return f"round {number}: {found.test_blocks()} blocks weren't given back"
        return None


def library_refused_memory(program: str) -> str | None:
    """Each of the first 200 allocations refused in turn: the whole text or none, and every block is given back."""
    with counted_library() as found:
        bundle = made_bundle(300, 6, b"top 20 by sum(min(l0,l1),wsum(2*l2,3*l3),median(l3,l4,l5)) using ca cost 1 3")
        certificate = whole(found.topk_answer, bundle)[1]
        rows = rows_given(*(taken_apart(bundle) or ([], b"")))
        for call, given in ((found.topk_answer, BUNDLE), (found.topk_judge, BEATEN), (found.topk_answer, bundle),
                            (found.topk_answer_rows, rows), (found.topk_judge, certificate)):
            found.test_fail_at(0)
            status, text, _ = whole(call, given)
            refused = 0
            for number in range(1, 201):
                found.test_fail_at(number)
                ended = called(call, given, len(text))
                if ended not in ((status, len(text), text + GUARD), (8, 0, GUARD * (len(text) + 1))):
                    return f"allocation {number} was refused: {ended}"
                if found.test_blocks() != 0:
                    return f"allocation {number} was refused: {found.test_blocks()} blocks weren't given back"
                refused += ended[0] == 8
            if refused == 0:
                return "no allocation was refused"
        return None


def library_header(program: str) -> str | None:
    """The header is C and C++, and a program in C is linked with the static library."""
    built("c/heap.c")
    with tempfile.TemporaryDirectory() as place:
        source, ended = pathlib.Path(place) / "call.c", pathlib.Path(place) / "call"
        source.write_text(f"""#include "{REPOSITORY}/c/topk.h"
#include <string.h>
int main(void) {{
    const char *bundle = "list A\\n1,5\\nquery top 1 by A using ta\\n";
    uint8_t out[200];
    size_t written;
    uint8_t status = topk_answer((const uint8_t *)bundle, strlen(bundle), out, sizeof out, &written);
    struct topk_row rows[] = {{{{1, 5}}}};
    struct topk_list lists[] = {{{{(const uint8_t *)"A", 1, rows, 1}}}};
    const char *query = "top 1 by A using ta";
    uint8_t again[200];
    size_t length;
    uint8_t same = topk_answer_rows(lists, 1, (const uint8_t *)query, strlen(query), again, sizeof again, &length);
    if (same != status || length != written || memcmp(again, out, length) != 0)
        return 2;
    return status == TOPK_DONE && written < sizeof out && memcmp(out, "certificate 1\\n", 14) == 0 ? 0 : 1;
}}
""", encoding="utf-8")
        strict = ["-Wall", "-Wextra", "-Werror"]
        words = [path_of("cc", "gcc", "clang"), "-std=c11", *strict, "-o", ended, source]
        subprocess.run([*words, REPOSITORY / "c" / "heap.c", ARCHIVE], check=True, timeout=SECONDS)
        if peer([ended]).returncode != 0:
            return "a program in C got another answer"
        other = path_of("c++", "g++", "clang++")
        subprocess.run([other, *strict, "-x", "c++", "-fsyntax-only", source], check=True, timeout=SECONDS)
        return None


def python_doctests(program: str) -> str | None:
    topk = module()
    names = sorted(path.stem for path in (REPOSITORY / "python" / "topk").glob("[a-z]*.py"))
    tried = [doctest.testmod(it) for it in (topk, *(importlib.import_module(f"topk.{name}") for name in names))]
    failed, attempted = sum(it.failed for it in tried), sum(it.attempted for it in tried)
    return None if failed == 0 and attempted > 0 else f"{failed} of {attempted} doctests fail"


def python_page(program: str) -> str | None:
    """The examples of the page on the library."""
    module()
    tried = doctest.testfile(str(REPOSITORY / "docs" / "LIBRARY.md"), module_relative=False)
    return None if tried.failed == 0 and tried.attempted > 0 else f"{tried.failed} of {tried.attempted} examples fail"


def python_answers(program: str) -> str | None:
    """The figures of the page on certificates, by pairs, by two arrays, by a text."""
    topk = module()
    lists: dict[str, Any] = {"A": [(1, 900), (2, 800), (3, 100)],
                             "B": (array.array("I", [2, 3, 1]), array.array("I", [700, 600, 500]))}
    answer = topk.answer(lists, "top 1 by sum(A,B) using ta")
    query = "top 1 by sum(A,B) using ta"
    certificate = worked_out([query], {"A": lists["A"], "B": [(2, 700), (3, 600), (1, 500)]}).decode()
    wanted = topk.Answer((topk.Ranked(2, 1500, 1500),), query, 3, 2, 4, 3, 7, certificate)
    if answer != wanted or answer != topk.answer_bundle(BUNDLE):
        return f"answered {answer}"
    if topk.judge(answer.certificate) != topk.Fixes():
        return "its certificate doesn't fix it"
    beaten = topk.judge(BEATEN)
    text = says(program, "judge", BEATEN)[1].decode()
    line = f"beaten inside {beaten.inside} low {beaten.low} outside {beaten.outside} high {beaten.high}\n"
    return None if text == line + beaten.counter else f"{beaten} was read from {text!r}"


def python_any_order(program: str) -> str | None:
    """Rows in any order are ranked, and rows whose grades never rise stay as they are, ties too: the text is the
    program's of the bundle."""
    topk = module()
    lists = {"A": [(it, it * 7919 % 101) for it in range(300)], "B": [(it, 1000 - it // 3) for it in range(300)],
             "C": [(299 - it, 5) for it in range(300)]}
    in_order = {name: topk.ranked(lists[name]) for name in "AB"} | {"C": lists["C"]}
    shuffled = {"A": random.Random(1).sample(lists["A"], 300), "B": lists["B"], "C": lists["C"]}
    columns = {name: tuple(array.array("I", column) for column in zip(*rows)) for name, rows in shuffled.items()}
    query = "top 5 by sum(A,B,C) using ca"
    text = printed([(name.encode(), rows) for name, rows in in_order.items()], query.encode())
    wanted = topk.answer_bundle(text)
    if wanted.certificate != says(program, "one", text)[1].decode():
        return "the ranked bundle is answered otherwise"
    for given in (in_order, shuffled, columns, {name: iter(rows) for name, rows in shuffled.items()}):
        if topk.answer(given, query) != wanted:
            return f"{list(given.items())[0]} is answered otherwise"
    return None if topk.bundle_of(columns, query) == text else "the text of the bundle isn't ranked"


def python_refusals(program: str) -> str | None:
    """Each kind of error: what it says of itself."""
    topk = module()
    wrong: list[str] = []

    def expect(kind: type[Exception], call: Callable[..., Any], *given: Any, **shown: Any) -> None:
        try:
            wrong.append(f"{given} gave {call(*given)}")
        except kind as error:
            found = {key: getattr(error, key) for key in shown}
            wrong.extend(f"{given}: {key} is {found[key]!r}" for key, value in shown.items() if found[key] != value)

    one = {"A": [(1, 5)]}
    expect(topk.Refused, topk.answer, one, "top 1 by Z using ta", name="UnknownList", fields=("Z",))
    expect(topk.Refused, topk.answer, one, "top 2 by A using ta", name="KAboveCount", fields=(2, 1))
    expect(topk.Refused, topk.answer, {"A": [(1, 5), (1, 4)]}, "top 1 by A using ta", name="NoBundle", fields=(3,),
           hint="row 2 of the list A, the object 1 with the grade 4")
    hint = "the line 'query top 1 by A using ta'"
    for lists, line in (({"A": [(1, 5), (2, 5)], "B": [(1, 5)]}, 6), ({"A": []}, 2), ({}, 1)):
        expect(topk.Refused, topk.answer, lists, "top 1 by A using ta", name="NoBundle", fields=(line,), hint=hint)
    expect(topk.Refused, topk.answer_bundle, b"list A\n", name="NoBundle", fields=(2,))
    expect(topk.Refused, topk.answer_bundle, padded_bundle(MAX_INPUT + 1), name="LongInput", fields=(MAX_INPUT,))
    expect(topk.Refused, topk.judge, b"", name="BadLine", fields=(1,))
    expect(ValueError, topk.answer, {"A\n1,5": []}, "top 1 by A using ta")
    expect(ValueError, topk.answer, one, "top 1 by A using ta\nlist B")
    expect(ValueError, topk.answer, {"A": (array.array("I", [1, 2]), array.array("I", [5]))}, "top 1 by A using ta")
    expect(ValueError, topk.answer, {"A": [(1, -5)]}, "top 1 by A using ta")
    expect(ValueError, topk.answer, {"A": (array.array("q", [1 << 32]), array.array("q", [5]))}, "top 1 by A using ta")
    expect(ValueError, topk.answer, {"A": [(1, 5, 6)]}, "top 1 by A using ta")
    expect(TypeError, topk.answer, {"A": [(1, 0.5)]}, "top 1 by A using ta")
    return "; ".join(wrong) or None


def python_long_text(program: str) -> str | None:
    """A certificate that is longer than the room that the module tries first."""
    topk = module()
    rows = [(it, 1000) for it in range(3000)]
    names = [f"a_list_with_a_long_name_{it}" for it in range(8)]
    found = topk.answer({name: rows for name in names}, f"top 3000 by sum({','.join(names)}) using nra")
    if len(found.certificate) <= len(topk.bundle_of({name: rows for name in names}, "")):
        return "the certificate isn't long enough to test anything"
    is_whole = len(found.objects) == 3000 and found.certificate.endswith("\nend\n")
    return None if is_whole else "the certificate isn't whole"


def python_numpy(program: str) -> str | None:
    """Arrays of numpy, of several types and strides."""
    topk = module()
    try:
        numpy: Any = importlib.import_module("numpy")
    except ImportError:
        raise Skipped("there is no numpy") from None
    wanted = topk.answer({"A": [(7, 900), (4, 850), (3, 7)]}, "top 1 by A using ta")
    objects, grades = numpy.array([3, 7, 4]), numpy.array([7, 900, 850])
    for kind in ("int64", "uint32", "uint16", ">i4"):
        if topk.answer({"A": (objects.astype(kind), grades.astype(kind))}, "top 1 by A using ta") != wanted:
            return f"arrays of {kind} are answered otherwise"
    if topk.answer({"A": (objects[::2], grades[::2])}, "top 1 by A using ta").count != 2:
        return "every other row is answered otherwise"
    wrongs = ((ValueError, -grades), (ValueError, grades + (1 << 32)), (TypeError, grades.astype("float64")),
              (ValueError, grades[:2]))
    for error, wrong in wrongs:
        try:
            topk.answer({"A": (objects, wrong)}, "top 1 by A using ta")
            return f"{wrong} was answered"
        except error:
            pass
    return None


def tests() -> Iterator[tuple[str, Callable[[str], str | None]]]:
    """Each test with its name."""
    for test in (library_one_as_program, library_rows_as_program, library_rows_of_no_bundle, library_judge_as_program,
                 library_short_buffer, library_empty_input, library_largest_input, library_on_threads,
                 library_keeps_nothing, library_refused_memory, library_header, python_doctests, python_page,
                 python_answers, python_any_order, python_refusals, python_long_text, python_numpy):
        yield test.__name__, test
