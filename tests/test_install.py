"""Installs below a temporary folder and uses what is there; then builds ti by a stand-in for rt.

What is installed must work with no repository and no rt around it, also where the folder was copied.
The manual pages are held to `ti help` and to the header.
"""

import os
import re
import shutil
import signal
import subprocess
import sys
import tempfile
import time
from pathlib import Path

import act4

ROOT = Path(__file__).resolve().parent.parent
TI = ROOT / "ti"
PATH = "/usr/bin:/bin"  # of what is installed: without rt
COMMANDS = {"compile", "check", "show", "merge", "expand", "help", "build", "install"}
COMMAND = re.compile(r"^ti (\w+)", re.MULTILINE)
PROTOTYPE = re.compile(r"^(?:static inline )?((?:const )?\w+ \**terminfo_\w+\([^;{]*?\))", re.MULTILINE)
MACRO = re.compile(r"^ *#define ((\w+)\(.*)$", re.MULTILINE)  # one that takes arguments
OTHER_USER = ["setpriv", "--reuid=65534", "--regid=65534", "--clear-groups"]
STAND_IN = """#!/bin/sh
# Proves nothing: writes what rt writes, and the program or a library.
top=$(dirname "$0")/..
crate=${PWD##*/}
echo "$crate $*" >>"$top/runs"
fails() {
    [ ! -e "$top/fails" ] || { echo "an error"; exit 1; }
}
proved() {
    echo "fn $1::f: proved"
    echo "logic=proved functions=1"
}
case $1 in
all)
    echo "== base"
    proved base
    sleep "${WAIT:-0}"
    echo "== ti"
    fails
    proved ti
    echo "== summary"
    ;;
run)
    proved base
    fails
    mkdir -p out
    cp "$top/program" out/ti
    echo "rt: running out/ti; to give it other input, run that file yourself"
    exit 2
    ;;
lib)
    fails
    mkdir -p out
    echo archive >"out/lib$crate.a"
    ;;
esac
"""
PROGRAM = """#!/bin/sh
echo "called by $*"
"""

folder = Path()
runs = 0  # how many runs of ti and of other programs were as stated


def same(found, expected, where):
    if found != expected:
        sys.exit(f"{where}: {found} instead of {expected}")


def run(words, cwd=None, status=0, text=b"", **environment):
    """Standard output and standard error of a run that must end with the status."""
    global runs
    done = subprocess.run([str(word) for word in words], cwd=cwd or folder, input=text,
                          env={**os.environ, **environment}, capture_output=True, check=False)
    out, errors = done.stdout.decode(), done.stderr.decode()
    same(done.returncode, status, f"status of {words}: {out}{errors}")
    runs += 1
    return out, errors


def contents(prefix):
    return {str(path.relative_to(prefix)): (path.read_bytes(), path.stat().st_mode & 0o777)
            for path in prefix.rglob("*") if path.is_file()}


def installed():
    """The files that are put below a prefix, with their bytes and modes."""
    files = {"bin/ti": (TI, 0o755), "lib/chulindafe/ti": (ROOT / "crates/ti/out/ti", 0o755),
             "lib/libterminfo_c.a": (ROOT / "crates/terminfo_c/out/libterminfo_c.a", 0o644),
             "lib/libterminfo_texts_c.a":
                 (ROOT / "crates/terminfo_texts_c/out/libterminfo_texts_c.a", 0o644),
             "share/man/man1/ti.1": (ROOT / "docs/man/ti.1", 0o644),
             "share/man/man3/terminfo_c.3": (ROOT / "docs/man/terminfo_c.3", 0o644)}
    for header in (ROOT / "include").glob("*.h"):
        files[f"include/{header.name}"] = header, 0o644
    return {name: (file.read_bytes(), mode) for name, (file, mode) in files.items()}


def check_install():
    """Installs, installs again over old files, and into a folder that is named relatively."""
    prefix = folder / "a prefix"
    out, _ = run([TI, "install", prefix])
    found = contents(prefix)
    same(sorted(out.splitlines()), sorted(f"installed: {prefix}/{name}" for name in found), "install")
    same(found.pop("lib/pkgconfig/chulindafe.pc")[1], 0o644, "mode")
    same(found.keys(), installed().keys(), "installed")
    same(found, installed(), "installed")
    whole = contents(prefix)
    for name in whole:
        (prefix / name).write_bytes(b"older and longer" * 100000)
        (prefix / name).chmod(0o400)
    same(run([TI, "install", prefix])[0], out, "second install")
    same(contents(prefix), whole, "second install")
    run([TI, "install", "-relative"])
    same(contents(folder / "-relative"), whole, "relative prefix")
    shutil.rmtree(folder / "-relative")


def check_refused():
    """A prefix that can't be written to, and wrong use."""
    (folder / "file").write_bytes(b"a file")
    held = folder / "held"
    (held / "bin/ti").mkdir(parents=True)
    for prefix in (folder / "file", folder / "file/below", held):
        _, errors = run([TI, "install", prefix], status=2)
        same(errors.splitlines()[-1].startswith(f"ti: {prefix}/"), True, errors)
    same([path for path in held.rglob("*") if path.is_file()], [held / "lib/chulindafe/ti"], "held")
    for words in (["install"], ["install", "a", "b"], ["install", ""], ["build", "x"]):
        _, errors = run([TI, *words], status=2)
        same(errors.startswith(("usage: ti ", "ti: ")), True, errors)
    user = OTHER_USER if os.geteuid() == 0 else []
    closed = folder / "closed"
    closed.mkdir()
    closed.chmod(0o555)
    if user and (not shutil.which(user[0]) or
                 subprocess.run([*user, TI, "help"], capture_output=True, check=False).returncode):
        print("a prefix without rights: not tried, another user can't run ti here")
        return
    _, errors = run([*user, TI, "install", closed], status=2)
    same("Permission denied" in errors and errors.count(f"ti: {closed}/") == 1, True, errors)
    same(list(closed.iterdir()), [], "closed")


def check_alone():
    """The installed ti in a copy of the prefix, through links, without rt and the repository."""
    copy, away = folder / "copy", folder / "away"
    (folder / "a prefix").rename(copy)
    away.mkdir()
    (away / "linked").symlink_to("../copy/bin/ti")
    (away / "twice").symlink_to(away / "linked")
    for ti in (copy / "bin/ti", "../copy/bin/ti", away / "linked", "./twice"):
        out, errors = run([ti, "compile", "act4"], cwd=away, text=act4.TEXT, PATH=PATH)
        same((out, errors), (f"compiled: {act4.SECOND_SIZE} bytes\n", ""), ti)
        out, errors = run([ti, "compile", "-e", "1", "act4"], cwd=away, text=act4.TEXT, PATH=PATH)
        same((out, errors), (f"compiled: {act4.SIZE} bytes\n", ""), ti)
        same((away / "act4").read_bytes(), act4.dumped(), "act4")
        same(run([ti, "expand", "act4", "cup", 5, 70], cwd=away, PATH=PATH), ("\x14\x05F", ""), ti)
    ti = copy / "bin/ti"
    run([ti, "check", "file"], status=1, PATH=PATH)
    run([ti, "check", "missing"], status=2, PATH=PATH)
    for word in ("build", "install"):
        same(run([ti, word, "x"], status=2, PATH=PATH),
             ("", f"ti: {word}: only ti in its repository does this\n"), word)
    (copy / "lib/chulindafe/ti").rename(away / "program")
    _, errors = run([ti, "help"], status=2, PATH=PATH)
    same(errors.endswith(", the program behind ti, is missing\n"), True, errors)
    (away / "program").rename(copy / "lib/chulindafe/ti")


def check_c():
    """The program of the manual page, built by what pkg-config says."""
    _, _, page = rendered("terminfo_c.3").partition("EXAMPLES")
    code = re.search(r"^ *#include <stdio.h>.*?^ *return 0;\n *}$", page, re.MULTILINE | re.DOTALL)
    (folder / "cols.c").write_text(code[0], encoding="utf-8")
    where = str(folder / "copy/lib/pkgconfig")
    flags, _ = run(["pkg-config", "--cflags", "--libs", "chulindafe"], PKG_CONFIG_PATH=where)
    run(["gcc", "-Wall", "-Wextra", "-Werror", "cols.c", "-o", "cols", *flags.split()])
    same(run(["./cols"], text=act4.dumped()), ("cols 80\n", ""), "cols")


def rendered(page):
    """A manual page as it is shown; a warning is a fault."""
    out, errors = run(["man", "--warnings", "--no-hyphenation", "--no-justification", "-l",
                       ROOT / "docs/man" / page], LC_ALL="C.UTF-8", MANWIDTH="100")
    same(errors, "", page)
    return out


def check_pages():
    """Each command of `ti help` has its paragraph, each call of the header its prototype and its own.

    So has each macro that takes arguments, with its definition instead of the prototype.
    """
    page = rendered("ti.1")
    texts = run([TI, "help"])[0] + "".join(run([TI, "help", w])[0] for w in ("build", "install"))
    commands = COMMAND.findall(texts)
    same(COMMANDS - set(commands), set(), "commands that ti help leaves out")
    synopsis, _, paragraphs = page.partition("\nDESCRIPTION\n")
    for command in commands:
        for part in (synopsis, paragraphs):
            same(re.search(rf"^ +ti {command}\b", part, re.MULTILINE) is not None, True, command)
    for header in (ROOT / "include").glob("*.h"):
        text = header.read_text(encoding="utf-8")
        prototypes, macros = PROTOTYPE.findall(text), MACRO.findall(text)
        synopsis, _, paragraphs = rendered("terminfo_c.3").partition("\nDESCRIPTION\n")
        shown = MACRO.findall(synopsis)
        synopsis = "".join(synopsis.split())
        names = [name for _, name in macros]
        for prototype in prototypes:
            names.append(re.search(r"terminfo_\w+", prototype)[0])
            same("".join(prototype.split()) + ";" in synopsis, True, f"synopsis of {names[-1]}")
        for name in names:
            same(re.search(rf"^ {{7}}(\S.*)?\b{name}\(\)", paragraphs, re.MULTILINE) is not None, True,
                 f"paragraph of {name}")
        if header.name == "terminfo_c.h":
            same(len(prototypes) == synopsis.count(");"), True, "calls in the synopsis")
            same(shown, macros, "macros in the synopsis")


def repository(name):
    """A repository of some crates with ti, and a folder with a stand-in for rt."""
    top = folder / name
    (top / "bin").mkdir(parents=True)
    (top / "repository").mkdir()
    shutil.copy(TI, top / "repository/ti")
    for crate in ("ti", "terminfo_c", "terminfo_texts_c"):
        (top / "repository/crates" / crate).mkdir(parents=True)
    for part in ("include", "docs/man"):
        shutil.copytree(ROOT / part, top / "repository" / part)
    crates = "# some crates\nbase:\nlone:\nti: base io\n"
    crates += "terminfo_c staticlib: base\nterminfo_texts_c staticlib: base\n"
    (top / "repository/crates.txt").write_text(crates, encoding="utf-8")
    for path, text in (("bin/rt", STAND_IN), ("program", PROGRAM)):
        (top / path).write_text(text, encoding="utf-8")
        (top / path).chmod(0o755)
    return top, top / "repository/ti", f"{top}/bin:{PATH}"


def rt_runs(top):
    return (top / "runs").read_text(encoding="utf-8").splitlines() if (top / "runs").exists() else []


def builds(top):
    """How often ti began to prove and build."""
    return sum(" all check " in words for words in rt_runs(top))


def await_build(top, count):
    while builds(top) < count:
        time.sleep(0.1)


def check_build():
    """The first call builds, and only it; progress, failure, no rt; the library on install."""
    top, ti, path = repository("build")
    jobs = (os.cpu_count() or 1) + 1
    _, errors = run([ti, "a"], status=2, PATH=PATH)
    same(errors, "ti: rt, of the Rattle kit, is not on the path\n", "no rt")
    (top / "fails").touch()
    _, errors = run([ti, "a"], status=2, PATH=path)
    same("an error\nrt ended with status 1\nti: not proved" in errors, True, errors)
    same("base::f: proved" in errors, False, errors)
    (top / "fails").unlink()
    (top / "runs").unlink()
    out, errors = run([ti, "a", "b c", ""], PATH=path, RT_JOBS=str(jobs))
    same(out, "called by plain a b c \n", "words")
    same(errors.splitlines()[1:], ["ti: proved 1 of 5: base", "ti: proved 2 of 5: ti"], "progress")
    same(run([ti, "a"], PATH=PATH), ("called by plain a\n", ""), "second call")
    (top / "repository/crates.txt").touch()
    run([ti, "a"], PATH=PATH)
    os.mkfifo(top / "pipe")  # an output that is no regular file never reaches the program
    for words in (["compile", top / "pipe"], ["merge", "a", "b", top / "pipe"]):
        same(run([ti, *words], status=2, PATH=PATH), ("", f"ti: {top}/pipe: not a regular file\n"), words)
    same(run([ti, "compile", TI], PATH=PATH)[0], f"called by plain compile {TI}\n", "regular file")
    same(rt_runs(top), [f"repository all check --jobs {jobs}", "ti run"], "runs of rt")
    out, _ = run([ti, "build"], PATH=path)
    same(out, f"built: {top}/repository/crates/ti/out/ti\n", "build")
    run([ti, "install", top / "prefix"], PATH=path, RT_JOBS="7")
    same(rt_runs(top)[4:], [words for library in ("terminfo_c", "terminfo_texts_c")
                            for words in ("repository all check --jobs 7", f"{library} lib")], "libraries")
    for library in ("terminfo_c", "terminfo_texts_c"):
        same((top / f"prefix/lib/lib{library}.a").read_bytes(), b"archive\n", library)
    later = time.time() + 10
    os.utime(top / "repository/crates.txt", (later, later))
    _, errors = run([ti, "install", top / "prefix"], PATH=path)
    same(errors.count("crates.txt is newer than"), 3, errors)
    same((top / "repository/target/ti.lock").is_symlink(), False, "lock")


def check_lock():
    """Calls at the same time build once; the lock of one that was killed is recovered."""
    top, ti, path = repository("lock")
    lock = top / "repository/target/ti.lock"
    words = {"env": {**os.environ, "PATH": path, "WAIT": "2"}, "stdout": subprocess.PIPE,
             "stderr": subprocess.PIPE}
    calls = [subprocess.Popen([ti, str(i)], **words) for i in range(4)]
    for i, call in enumerate(calls):
        out, errors = call.communicate()
        same((call.returncode, out.decode()), (0, f"called by plain {i}\n"), errors.decode())
    same(builds(top), 1, "builds")
    call = subprocess.Popen([ti, "build"], start_new_session=True,
                            **{**words, "env": {**words["env"], "WAIT": "60"}})
    await_build(top, 2)
    os.killpg(call.pid, signal.SIGKILL)
    call.communicate()
    out, errors = run([ti, "after"], PATH=path)
    same((out, builds(top), lock.is_symlink()), ("called by plain after\n", 3, False), errors)
    call = subprocess.Popen([ti, "build"], **words)
    await_build(top, 4)
    call.terminate()  # ti alone: rt goes on, and the lock with it
    same(run([ti, "next"], PATH=path)[0], "called by plain next\n", "terminated")
    same((call.wait(), builds(top)), (143, 4), "terminated")
    call.communicate()
    for owner in (f"{call.pid} 1", f"{os.getpid()} 1"):  # gone; a number that another process has now
        lock.symlink_to(owner)
        same(run([ti, "again"], PATH=path)[0], "called by plain again\n", owner)
    lock.symlink_to(f"{call.pid} 1")
    several = [subprocess.Popen([ti, "again"], **words) for _ in range(6)]
    same([c.communicate()[0] for c in several], 6 * [b"called by plain again\n"], "recovered at once")
    same((builds(top), lock.is_symlink()), (7, False), "recovered")


if __name__ == "__main__":
    with tempfile.TemporaryDirectory() as name:
        folder = Path(name)
        folder.chmod(0o755)
        for check in (check_install, check_refused, check_alone, check_c, check_pages, check_build,
                      check_lock):
            check()
    print(f"{runs} runs as stated, with what is installed and while building")
