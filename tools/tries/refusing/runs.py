"""Runs of the program in which calls that take memory are refused: the kinds of runs, and what is seen of one."""
import os
import shutil
import socket
import subprocess
import sys
import tempfile
from collections.abc import Sequence
from dataclasses import replace
from pathlib import Path

from lib.program import TOP
from lib.served import HOST, Process, free_port
from tries.refusing.judge import Kind, Request, Run, file_at

HERE = Path(__file__).resolve().parent
EXAMPLES = TOP / "examples"
Refused = tuple[int, int]
PROJECT = {
    "m.urp": "m\n",
    "m.urs": "val list : unit -> transaction page\n",
    "m.ur": """table item : {Id : int, Body : string} PRIMARY KEY Id
sequence ids

fun list (u : unit) : transaction page =
  rows <- queryX (SELECT item.Id, item.Body FROM item ORDER BY item.Id)
    (fn r => <xml><p>{[r.Item.Body]}</p></xml>);
  return <xml><body>{rows}<form><textbox{#Body}/><submit action={add}/></form></body></xml>
and add (r : {Body : string}) : transaction page =
  _ <- list ();
  n <- nextval ids;
  dml (INSERT INTO item (Id, Body) VALUES ({[n]}, {[r.Body]}));
  list ()
"""}
HELLO_PAGE = "<!DOCTYPE html>\n<html><head><title>Hello</title></head><body><p>n is 3</p></body></html>"


def post(body: str) -> Request:
    """Returns the request that adds a row."""
    form = f"Body={body}"
    return Request(f"POST /M/add HTTP/1.1\r\nHost: localhost\r\nContent-Length: {len(form)}\r\n\r\n{form}".encode(), adds=body)


LIST = Request(b"GET /M/list HTTP/1.1\r\nHost: localhost\r\n\r\n")
HELLO = Request((EXAMPLES / "hello.request").read_bytes(), page=HELLO_PAGE)
ONE = ((post("x"), LIST),)
SOME = ((LIST, post("x")), (LIST, LIST), (post("y"), LIST))
KINDS = {
    "hello": Kind("hello.urp", ((HELLO,),)),
    "memory": Kind("m", ONE),
    "file": Kind("m", ONE, first=()),
    "kept": Kind("m", ONE, first=("first",)),
    "served": Kind("m", SOME, is_served=True),
    "served-file": Kind("m", SOME, first=(), is_served=True),
    "served-kept": Kind("m", SOME, first=("first",), is_served=True)}


class Lab:
    """The program, the library that refuses, and a folder in which the folders of runs stand."""

    def __init__(self, program: Path, folder: str, limit: float) -> None:
        self.program, self.folder, self.limit = program, folder, limit
        self.library = os.path.join(folder, "refuse.so")
        subprocess.run(["gcc", "-O2", "-Wall", "-shared", "-fPIC", "-o", self.library, HERE / "refuse.c"], check=True)
        self.first = os.path.join(folder, "first")

    def prepare(self, kind: Kind) -> None:
        """Makes the file of tables with which runs of the kind begin, where it has rows."""
        if not kind.first or os.path.exists(self.first):
            return
        at = self.fresh(Kind("m", ()))
        run = self.replayed(Kind("m", (), first=()), at, b"".join(post(it).text for it in kind.first), None)
        copy_file(at, self.first)
        copy_file(at, os.path.join(at, "seen"))
        if run.status != 0 or file_at(os.path.join(at, "seen", "f")).rows != kind.first:
            sys.exit(f"refuse: the file of tables cannot be made: {run}")

    def fresh(self, kind: Kind) -> str:
        """Makes a folder with the project, and the file of tables where it has rows."""
        at = tempfile.mkdtemp(dir=self.folder)
        for name, text in PROJECT.items():
            Path(at, name).write_text(text, encoding="utf-8")
        for name in ("hello.ur", "hello.urp"):
            shutil.copy(EXAMPLES / name, at)
        if kind.first:
            copy_file(self.first, at)
        return at

    def environment(self, at: str, refused: Refused | None) -> dict[str, str]:
        """Returns the environment in which calls of these numbers are refused; nothing is loaded where it is None."""
        plain = {"PATH": os.environ.get("PATH", "")}
        if refused is None:
            return plain
        count = os.path.join(at, "count")
        Path(count).write_bytes(bytes(16))
        return plain | {"LD_PRELOAD": self.library, "REFUSE_FILE": count, "REFUSE_FROM": str(refused[0]), "REFUSE_TO": str(refused[1])}

    def started(self, kind: Kind, at: str, refused: Refused | None, words: Sequence[str], stdin: int) -> Process:
        """Starts the program with a word and the project and what comes after it."""
        command: list[str | Path] = [self.program, words[0], kind.project, *words[1:], *(("--db", "f") if kind.first is not None else ())]
        return Process(command, Path(at), self.limit, self.environment(at, refused), stdin)

    def replayed(self, kind: Kind, at: str, requests: bytes, refused: Refused | None) -> Run:
        """Runs `replay` with these requests."""
        with open(os.path.join(at, "requests"), "w+b") as file:
            file.write(requests)
            file.flush()
            file.seek(0)
            end = self.started(kind, at, refused, ["replay"], file.fileno()).ended()
        return Run(end.status, (end.printed,), end.said)

    def served(self, kind: Kind, at: str, refused: Refused | None) -> Run:
        """Runs `serve`, and sends the requests of each connection, one connection after the other."""
        port = free_port()
        words = ["serve", "--port", str(port), "--connections", str(len(kind.connections))]
        process = self.started(kind, at, refused, words, subprocess.DEVNULL)
        line = process.line()
        given = tuple(asked(port, b"".join(it.text for it in requests), self.limit) if line.startswith(b"serving") else b""
                      for requests in kind.connections)
        end = process.ended()
        return Run(end.status, given, line + end.printed, end.said, f"serving on {HOST}:{port}\n".encode())

    def with_file(self, run: Run, at: str) -> Run:
        """Adds to a run its file of tables, and a run after it over the same file."""
        copy_file(at, os.path.join(at, "seen"))
        left = file_at(os.path.join(at, "seen", "f"))
        later = self.replayed(Kind("m", ((LIST,),), first=()), at, LIST.text, None)
        return replace(run, left=left, later=replace(later, left=file_at(os.path.join(at, "f"))))

    def tried(self, kind: Kind, refused: Refused) -> tuple[Run, str, int, int]:
        """Makes one run with these numbers refused. Returns it with its folder, how many calls there were and how many were refused."""
        at = self.fresh(kind)
        if kind.is_served:
            run = self.served(kind, at, refused)
        else:
            run = self.replayed(kind, at, b"".join(it.text for it in kind.connections[0]), refused)
        counted = Path(at, "count").read_bytes()
        if kind.first is not None:
            run = self.with_file(run, at)
        return run, at, int.from_bytes(counted[:8], "little"), int.from_bytes(counted[8:], "little")


def copy_file(at: str, to: str) -> None:
    """Copies the file of tables of a folder, with its log or journal, to another folder."""
    os.makedirs(to, exist_ok=True)
    for name in os.listdir(at):
        if name == "f" or name.startswith("f-"):
            shutil.copy(os.path.join(at, name), to)


def asked(port: int, requests: bytes, limit: float) -> bytes:
    """Sends the requests on a connection of their own, and returns what comes; nothing where nobody listens."""
    given = b""
    try:
        with socket.create_connection((HOST, port), limit) as link:
            link.sendall(requests)
            link.shutdown(socket.SHUT_WR)
            while piece := link.recv(65536):
                given += piece
    except OSError:
        pass
    return given
