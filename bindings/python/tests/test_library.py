"""How the library is found, and that its functions are those of the header."""

import ctypes
import os
import re
import shutil
import subprocess
import sys
import tempfile
import unittest
from pathlib import Path
from typing import Any, Dict, List, Tuple

import squall
from squall import Place, _room, _status
from squall import _library as lib
from squall import part

HERE = Path(__file__).resolve().parent
HEADER = HERE.parent.parent / "c" / "squall.h"
VERSION = HERE.parent.parent.parent / "VERSION"

PLAIN: Dict[str, Any] = {
    "void": None,
    "size_t": ctypes.c_size_t,
    "uint32_t": ctypes.c_uint32,
    "uint64_t": ctypes.c_uint64,
    "char *": ctypes.c_char_p,
    "uint8_t *": ctypes.c_void_p,
    "uint32_t *": ctypes.c_void_p,
    "uint64_t *": ctypes.c_void_p,
    "squall_router *": ctypes.POINTER(_room.RouterRoom),
    "squall_view *": ctypes.POINTER(_room.ViewRoom),
    "squall_course *": ctypes.POINTER(_room.CourseRoom),
    "squall_errand *": ctypes.POINTER(_room.ErrandRoom),
    "squall_part *": ctypes.POINTER(_room.PartRoom),
    "squall_leader *": ctypes.POINTER(_room.LeaderRoom),
    "squall_leg *": ctypes.POINTER(_room.LegRecord),
    "squall_move *": ctypes.POINTER(_room.MoveRecord),
    "squall_place *": ctypes.c_void_p,
    "squall_span *": ctypes.POINTER(_room.SpanRecord),
    "squall_counts *": ctypes.POINTER(_room.CountsRecord),
    "squall_chunk *": ctypes.POINTER(_room.ChunkRecord),
    "squall_answer *": ctypes.POINTER(_room.AnswerRecord),
}


def kind(words: str) -> Any:
    """The type of ctypes for one of C, perhaps with a name."""
    found = re.match(r"(?:const )?(\w+)(?: (\*))?", words.strip())
    assert found is not None, words
    return PLAIN[" ".join(it for it in found.groups() if it)]


def fields_of(record: Any) -> List[Any]:
    """The fields of a record, those of the record on which it stands first."""
    return [it for of in reversed(record.__mro__) for it in vars(of).get("_fields_", [])]


def declared() -> Dict[str, Tuple[Any, List[Any]]]:
    """What each function of the header answers and takes."""
    text = re.sub(r"/\*.*?\*/", "", HEADER.read_text(encoding="utf-8"), flags=re.DOTALL)
    found = re.findall(r"^([\w ]+\*?)\b(squall_\w+)\(([^)]*)\);", text, re.MULTILINE)
    made = {}
    for answer, name, takes in found:
        words = [] if takes == "void" else takes.split(",")
        made[name] = (kind(answer), [kind(it) for it in words])
    return made


def imported(**environment: str) -> "subprocess.CompletedProcess[str]":
    """A process that imports squall and says the version of the library."""
    kept = {name: it for name, it in os.environ.items() if name != "SQUALL_DIR"}
    return subprocess.run(
        [sys.executable, "-B", "-c", "import squall; print(squall.version())"],
        cwd=HERE.parent,
        env={**kept, **environment},
        stdout=subprocess.PIPE,
        stderr=subprocess.PIPE,
        universal_newlines=True,
        check=False,
    )


class Functions(unittest.TestCase):
    """The functions of the header."""

    def test_versions(self) -> None:
        self.assertRegex(squall.version(), r"^\d+\.\d+\.\d+$")
        if VERSION.is_file():
            self.assertEqual(squall.__version__, VERSION.read_text(encoding="utf-8").strip())

    @unittest.skipUnless(HEADER.is_file(), "squall.h is not here")
    def test_each_function_of_the_header_is_called_by_its_types(self) -> None:
        wanted = declared()
        self.assertEqual(len(wanted), 107)
        bound: Dict[str, int] = dict.fromkeys(wanted, 0)
        in_tuples = [*lib.router_frames, *lib.part_frames, *lib.leader_frames]
        for function in [*vars(lib).values(), *in_tuples]:
            name = getattr(function, "__name__", "")
            if name in bound and hasattr(function, "argtypes"):
                bound[name] += 1
                with self.subTest(name=name):
                    takes = list(function.argtypes or [])
                    self.assertEqual((function.restype, takes), wanted[name])
        kinds = ["router", "part", "leader"]
        twice = {f"squall_{it}_{call}" for it in kinds for call in ["feed", "hear"]}
        twice |= {"squall_view_locate"}
        self.assertEqual(bound, {it: 2 if it in twice else 1 for it in wanted})

    @unittest.skipUnless(HEADER.is_file(), "squall.h is not here")
    def test_records_have_the_fields_of_the_header(self) -> None:
        text = HEADER.read_text(encoding="utf-8")
        found = re.findall(r"typedef struct \w+ \{(.*?)\} squall_(\w+);", text, re.DOTALL)
        fields = {name: re.findall(r"^ *(\w+) (\w+);", it, re.MULTILINE) for it, name in found}
        wanted = {name: [(it, PLAIN[of]) for of, it in its] for name, its in fields.items()}
        place = [(it, ctypes.c_uint32) for it in Place._fields]
        self.assertEqual(ctypes.sizeof(_room.PlaceRecord), 4 * len(place))
        records: Dict[str, Any] = {
            "leg": fields_of(_room.LegRecord),
            "move": fields_of(_room.MoveRecord),
            "place": place,
            "span": fields_of(_room.SpanRecord),
            "counts": fields_of(_room.CountsRecord),
            "chunk": fields_of(_room.ChunkRecord),
            "answer": fields_of(_room.AnswerRecord),
        }
        self.assertEqual(records, wanted)

    def test_values_have_the_fields_of_their_records(self) -> None:
        pairs: List[Any] = [
            (squall.Leg, _room.LegRecord),
            (squall.Move, _room.MoveRecord),
            (squall.Span, _room.SpanRecord),
            (squall.Counts, _room.CountsRecord),
            (squall.Chunk, _room.ChunkRecord),
            (squall.Answer, _room.AnswerRecord),
        ]
        for kind_of, record in pairs:
            self.assertEqual(list(kind_of._fields), [name for name, _ in fields_of(record)])

    @unittest.skipUnless(HEADER.is_file(), "squall.h is not here")
    def test_constants(self) -> None:
        text = HEADER.read_text(encoding="utf-8")
        form = r"\bSQUALL_(\w+) (?:= |(?:UINT\d\d_C\()?)(\d+)"
        wanted = {name: int(number) for name, number in re.findall(form, text)}
        both: List[Any] = [squall.Reply, squall.Next]
        found = {it.name: it.value for members in both for it in members}
        found.update({f"PLAN_{it.name}": it.value for it in squall.PlanFault})
        found.update({f"NEW_PLAN_{it.name}": it.value + 20 for it in squall.PlanFault})
        found.update({f"FRAME_{it.name}": it.value for it in squall.FrameFault})
        found.update(NOWHERE=squall.NOWHERE, TOP=squall.END, FRAME_BYTES=squall.FRAME_BYTES)
        found.update(NO_PLACE=_status.NO_PLACE, ALIGN=_room.ALIGN, BAD_REPLY=255)
        found.update(OK=0, NO_MEMORY=1, LIMIT=2, CLOSED=3, FAILED=4, TOO_LONG=5, NO_DIGEST=6)
        found.update(FULL=squall.FullError.status)
        reasons = squall.PartError.__subclasses__() + squall.LeaderError.__subclasses__()
        for reason in reasons:
            words = re.findall("[A-Z][a-z]+", reason.__name__.replace("Error", ""))
            found["_".join(words).upper()] = reason.status
        found.update(LOADED_BEFORE=part._LOADED_BEFORE)
        self.assertEqual(found, wanted)


class Loading(unittest.TestCase):
    """Where the library is looked for."""

    def test_a_folder_without_a_library(self) -> None:
        with tempfile.TemporaryDirectory() as folder:
            ran = imported(SQUALL_DIR=folder)
            self.assertEqual(ran.returncode, 1)
            said = ran.stderr.splitlines()[-1]
            wanted = f"libsquall.so.3 can't be loaded from the folder {folder} of SQUALL_DIR: "
            self.assertIn(f"LibraryError: {wanted}{folder}/libsquall.so.3: ", said)

    def test_a_file_that_is_no_library(self) -> None:
        with tempfile.TemporaryDirectory() as folder:
            Path(folder, "libsquall.so.3").write_text("no library", encoding="utf-8")
            ran = imported(SQUALL_DIR=folder)
            self.assertEqual(ran.returncode, 1)
            self.assertIn(f"can't be loaded from the folder {folder}", ran.stderr)

    def test_a_library_that_is_too_old(self) -> None:
        compiler = shutil.which("cc")
        if compiler is None:
            self.skipTest("needs cc")
        with tempfile.TemporaryDirectory() as folder:
            source, library = f"{folder}/old.c", f"{folder}/libsquall.so.3"
            Path(source).write_text("void squall_router_open(void) {}\n", encoding="utf-8")
            subprocess.run([compiler, "-shared", "-fPIC", "-o", library, source], check=True)
            ran = imported(SQUALL_DIR=folder)
            self.assertEqual(ran.returncode, 1)
            said = ran.stderr.splitlines()[-1]
            self.assertIn(f"libsquall.so.3 from the folder {folder} of SQUALL_DIR is too old", said)

    def test_the_loader_of_the_system(self) -> None:
        folder = os.environ.get("SQUALL_DIR")
        if folder:
            path = os.path.abspath(folder)
            for ran in [
                imported(LD_LIBRARY_PATH=path),
                imported(LD_LIBRARY_PATH=path, SQUALL_DIR=""),
            ]:
                self.assertEqual((ran.stdout, ran.stderr), (squall.version() + "\n", ""))
            ran = imported(SQUALL_DIR=os.path.relpath(path, HERE.parent))
            self.assertEqual((ran.stdout, ran.stderr), (squall.version() + "\n", ""))
        ran = imported(LD_LIBRARY_PATH="/nowhere")
        if ran.returncode:
            said = ran.stderr.splitlines()[-1]
            self.assertIn("the folders of the system's loader (SQUALL_DIR names no other", said)

    def test_handles_that_are_left_at_the_end(self) -> None:
        script = (
            "import sys, squall\n"
            "router = squall.Router(1, *[squall.Plan.of([(0, squall.END, 1)])] * 2)\n"
            "sys.modules['kept'] = [router.view(), router.errand(0), router.course()]\n"
            "ring = [router]; ring.append(ring)\n"
        )
        ran = subprocess.run(
            [sys.executable, "-B", "-c", script],
            cwd=HERE.parent,
            stdout=subprocess.PIPE,
            stderr=subprocess.STDOUT,
            universal_newlines=True,
            check=False,
        )
        self.assertEqual((ran.returncode, ran.stdout), (0, ""))


if __name__ == "__main__":
    unittest.main()
