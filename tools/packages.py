"""What `installed` tries of installing itself, of a Debian package, and of the files for editors. Each trial has a name and what is wrong, or None."""

import json
import os
import shutil
import subprocess
import sys

import debian
from form import TOP

FAULTY = f"{TOP}/examples/hour/3-lost.aom"
FAULT_LINE = "21"


def unlike(wanted, got):
    return None if wanted == got else f"{got!r} in place of {wanted!r}"


def said(words, folder, **around):
    """The status of a call, and the lines that it writes."""
    ran = subprocess.run(words, cwd=folder, env={**os.environ, **around}, stdin=subprocess.DEVNULL, stdout=subprocess.PIPE, stderr=subprocess.STDOUT, text=True, errors="replace")
    return ran.returncode, ran.stdout.splitlines()


def files_below(folder):
    return sorted(os.path.relpath(f"{at}/{name}", folder) for at, _, names in os.walk(folder) for name in names)


def removal_trials(program, place):
    """An installation under a strict umask, below DESTDIR, whose output nobody reads; a second one over it; and its removal."""
    root, install = f"{place}/root", [sys.executable, f"{TOP}/tools/install"]
    os.makedirs(f"{root}/usr/bin")
    call = f"umask 077; {' '.join(install)} {program} /usr > /dev/full"
    status, _ = said(["sh", "-c", call], place, DESTDIR=root)
    there = files_below(root)
    with open(f"{root}/usr/share/aom/manifest", encoding="utf-8") as it:
        listed = sorted(f"usr/{line}" for line in it.read().splitlines() if not line.endswith("/"))
    yield "install below DESTDIR, and nobody reads its names", unlike((0, listed), (status, there))
    modes = {oct(os.stat(f"{at}/{it}").st_mode & 0o777) for at, folders, _ in os.walk(f"{root}/usr/share") for it in folders}
    yield "folders of an installation have one mode", unlike({"0o755"}, modes)
    status, lines = said([*install, program, "/usr"], place, DESTDIR=root)
    yield "install over an installation", unlike((0, there), (status, sorted(os.path.relpath(it, root) for it in lines)))
    status, _ = said([*install, "", "uninstall", "/usr"], place, DESTDIR=root)
    left = [os.path.relpath(f"{at}/{it}", root) for at, folders, names in os.walk(root) for it in [*folders, *names]]
    yield "uninstall leaves what was there before", unlike((0, ["usr", "usr/bin"]), (status, sorted(left)))
    yield "uninstall where nothing is installed", unlike(5, said([*install, "", "uninstall", "/usr"], place, DESTDIR=root)[0])
    shutil.rmtree(root)


def debian_trials(program, place):
    if not shutil.which("dpkg-deb") or not shutil.which("strip"):
        print("installed: skipped: a Debian package, no dpkg-deb or strip here")
        return
    os.makedirs(f"{place}/deb")
    made = debian.package(program, f"{place}/deb")
    subprocess.run(["dpkg-deb", "-x", made, f"{place}/deb/out"], check=True)
    shutil.copy(f"{TOP}/examples/first.aom", f"{place}/deb/first.aom")
    status, lines = said([f"{place}/deb/out/usr/bin/aom", "run", "--asm", "first.aom", "/dev/null"], f"{place}/deb")
    yield "the program of a Debian package runs", unlike((0, ["@0 main", "out 7", "end stopped cells 0"]), (status, lines))
    status, _ = said([f"{place}/deb/out/usr/bin/aom-view", "--to", "page.html", "first.aom", "/dev/null"], f"{place}/deb")
    yield "aom-view of a Debian package writes a page", unlike((0, True), (status, os.path.isfile(f"{place}/deb/page.html")))
    if not shutil.which("lintian"):
        print("installed: skipped: what lintian says of a Debian package, no lintian here")
        return
    yield "lintian finds no error in a Debian package", unlike([], debian.errors_of(made))


def man_lint_trials(prefix):
    if not shutil.which("mandoc"):
        print("installed: skipped: mandoc's look at the man page, no mandoc here")
        return
    # of a page that no package has put into a system it tells that it knows no such place
    _, lines = said(["mandoc", "-T", "lint", "-W", "warning", f"{prefix}/share/man/man1/aom.1"], prefix)
    yield "mandoc finds nothing wrong with the man page", unlike([], lines)


def make_trials(place, prefix):
    """In Vim :make leads to the line of a fault."""
    folder = f"{place}/make"
    os.makedirs(folder)
    shutil.copy(FAULTY, f"{folder}/lost.aom")
    begin = ["set nocompatible", f"set rtp^={prefix}/share/vim/vimfiles", "filetype plugin on", "edit lost.aom", "silent! make"]
    with open(f"{folder}/make.vim", "w", encoding="utf-8") as it:
        it.write("\n".join([*begin, "call writefile([&commentstring, string(get(getqflist(), 0, {'lnum': 0}).lnum)], 'found')", "qall!"]))
    said(["vim", "-Nu", "NONE", "-i", "NONE", "-n", "-es", "-S", "make.vim"], folder, PATH=f"{prefix}/bin:{os.environ['PATH']}")
    found = open(f"{folder}/found", encoding="utf-8").read().splitlines() if os.path.isfile(f"{folder}/found") else []
    yield "Vim's :make leads to a fault", unlike(["# %s", FAULT_LINE], found)


def emacs_trials(place, prefix):
    if not shutil.which("emacs"):
        print("installed: skipped: the mode for Emacs, no emacs here")
        return
    shutil.copy(FAULTY, f"{place}/lost.aom")
    strict = "(setq byte-compile-error-on-warn t)"
    for name in ("aom-mode.el", "aom-source-mode.el"):
        shutil.copy(f"{prefix}/share/emacs/site-lisp/{name}", f"{place}/{name}")
        status, lines = said(["emacs", "-Q", "--batch", "--eval", strict, "-f", "batch-byte-compile", name], place)
        yield f"Emacs compiles {name}", unlike((0, []), (status, [it for it in lines if "rror" in it or "arning" in it]))
    faces = "(dolist (it '(\"class\" \"newl\\\\|new\" \"r0\")) (goto-char (point-min)) (re-search-forward (concat \"^\\\\(?:\" it \"\\\\)\\\\| \" it) nil t) (princ (format \"%s\\n\" (get-text-property (1- (point)) 'face))))"
    look = f'(progn (find-file "lost.aom") (font-lock-ensure) (princ (format "%s\\n%s\\n" major-mode comment-start)) {faces})'
    _, lines = said(["emacs", "-Q", "--batch", "-l", "aom-mode.el", "--eval", look], place)
    wanted = ["aom-mode", "# ", "font-lock-keyword-face", "font-lock-builtin-face", "font-lock-variable-name-face"]
    yield "Emacs knows a text, its comments and its words", unlike(wanted, [it for it in lines if not it.startswith("Loading")])


def code_trials(prefix):
    """The folder for VS Code: the keys that its form asks for, and files that are there."""
    folder = f"{prefix}/share/aom/vscode"

    def read(name):
        with open(f"{folder}/{name}", encoding="utf-8") as it:
            return json.load(it)

    head, tasks = read("package.json"), read("tasks.json")
    yield "VS Code: the keys of an extension", unlike([], [it for it in ("name", "version", "publisher", "engines", "contributes") if not head.get(it)])
    contributes = head["contributes"]
    named = [it["path"] for it in contributes["grammars"]] + [it["configuration"] for it in contributes["languages"]]
    yield "VS Code: the files that it names", unlike([], [it for it in named if not os.path.isfile(f"{folder}/{it}")])
    matchers = {f"${it['name']}" for it in contributes["problemMatchers"]}
    yield "VS Code: the tasks' matchers", unlike([], [it["label"] for it in tasks["tasks"] if it["problemMatcher"] not in matchers])
    yield "VS Code: the grammar is the one of other editors", unlike(0, subprocess.call(["cmp", "-s", f"{folder}/syntaxes/aom.tmLanguage.json", f"{prefix}/share/aom/aom.tmLanguage.json"]))
