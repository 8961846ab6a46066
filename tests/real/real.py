"""Builds real projects with tup and tup_sh, edits them as their programmers would, and tells what each update ran.

Words: tup, tup_sh, the folder in which fetch.sh has left the sources, and the projects (all, if none is named). After each
edit the files have to be those of a clean build in another folder. Beside the number of commands that tup ran stands the
number that ninja runs for the same edit. It ends with 1 where anything differs.
"""
import os
import re
import shutil
import signal
import subprocess
import sys
import time

HERE = os.path.dirname(os.path.abspath(__file__))

# Of each project: a header, a source that isn't there yet, another name for that, and how the result is tested, in its folder.
PROJECTS = {
    "lua5.4": ("src/llimits.h", "src/lextra.c", "src/lother.c",
               "src/lua -e 'local t = {} for i = 1, 1e5 do t[i] = i end assert(#t == 1e5)' && "
               "echo 'return 1' | src/luac -o /dev/null -"),
    "zlib": ("zutil.h", "extra.c", "other.c",
             "echo hello world | test/minigzip | test/minigzip -d | grep -qx 'hello world' && "
             "test/example \"$(mktemp)\" && test/infcover"),
    "brotli": ("c/common/platform.h", "c/dec/extra.c", "c/dec/other.c",
               "for file in README.md tests/testdata/*[!d]; do "
               "c/tools/brotli -c $file | c/tools/brotli -dc | cmp - $file || exit 1; done"),
    "ninja-build": ("src/graph.h", "src/extra.cc", "src/extra_two.cc", "src/ninja_test && src/ninja --version"),
}


class Wrong(Exception):
    """A result that isn't as it has to be."""


class Tup:
    """The two programs."""

    def __init__(self, tup, runner):
        self.tup, self.runner = os.path.abspath(tup), os.path.abspath(runner)

    def begin(self, folder):
        self.call(folder, "init", "--no-sync", "--proc", self.runner)

    def call(self, folder, *words):
        """The lines of a call that has to be good."""
        done = subprocess.run([self.tup, *words], cwd=folder, capture_output=True, text=True, check=False)
        if done.returncode != 0:
            raise Wrong(f"tup ended with {done.returncode}: {done.stdout[-2000:]}{done.stderr[-2000:]}")
        return done.stdout.splitlines()

    def update(self, folder):
        """The commands that an update ran: pairs of a folder and a text."""
        runs = [line[4:].split(": ", 1) for line in self.call(folder) if line.startswith("run ")]
        return [(place, text) for place, text in runs]

    def kill(self, folder, seconds):
        """An update that is killed after so long, with all that it started."""
        update = subprocess.Popen([self.tup], cwd=folder, stdout=subprocess.DEVNULL, stderr=subprocess.DEVNULL,
                                  preexec_fn=os.setpgrp)
        time.sleep(seconds)
        os.killpg(update.pid, signal.SIGKILL)
        update.wait()
        # Until what it started has let go of the project.
        subprocess.run(["flock", ".", "true"], cwd=folder, check=True)


def files(folder):
    """The contents below a folder, without what tup and ninja keep for themselves."""
    found = {}
    for place, folders, names in os.walk(folder):
        folders[:] = [name for name in folders if name != ".tup"]
        for name in names:
            path = os.path.join(place, name)
            found[os.path.relpath(path, folder)] = content(path)
    return found


def content(path):
    """What a file holds, or where a link leads."""
    if os.path.islink(path):
        return os.readlink(path)
    with open(path, "rb") as file:
        return file.read()


def compare(folder, clean):
    """The files of two folders have to be the same."""
    here, there = files(folder), files(clean)
    differing = sorted(path for path in here.keys() | there.keys() if here.get(path) != there.get(path))
    if differing:
        raise Wrong(f"not as a clean build: {' '.join(differing[:5])}")


def ninja_edge(top, place, text, made):
    """The lines of build.ninja for a command. All of its paths are absolute, so that those of depfiles are too."""
    folder = os.path.normpath(os.path.join(top, place))
    output = os.path.join(folder, re.search(r"(?:-o|ar rcs|>) (\S+)", text).group(1))
    words = [os.path.normpath(os.path.join(folder, word)) for word in text.split()]
    inputs = [word for word in words if word != output and (word in made or os.path.isfile(word))]
    is_compiled = " -c " in text
    if is_compiled:
        text = re.sub(r"-I(\S+)", lambda found: "-I" + os.path.normpath(os.path.join(folder, found.group(1))), text)
        text = text.replace(f"-c {os.path.relpath(inputs[0], folder)}", f"-c {inputs[0]}") + f" -MD -MF {output}.d"
    order = [path for path in made if path.endswith(".h")] if is_compiled else []
    return "\n".join([
        f"build {output}: run {' '.join(inputs)}" + (f" || {' '.join(order)}" if order else ""),
        f"  command = cd {folder} && {text.replace('$', '$$')}",
        *([f"  depfile = {output}.d", "  deps = gcc"] if is_compiled else []),
    ])


def ninja_count(top, runs):
    """How many commands ninja runs in a folder where these are all commands."""
    outputs = [os.path.normpath(os.path.join(top, place, re.search(r"(?:-o|ar rcs|>) (\S+)", text).group(1)))
               for place, text in runs]
    edges = [ninja_edge(top, place, text, outputs) for place, text in runs]
    with open(os.path.join(top, "build.ninja"), "w", encoding="utf-8") as file:
        file.write("rule run\n  command = $command\n\n" + "\n".join(edges) + "\n")
    done = subprocess.run(["ninja", "-v"], cwd=top, capture_output=True, text=True, check=False)
    if done.returncode != 0:
        raise Wrong(f"ninja: {done.stdout[-2000:]}")
    return len(re.findall(r"^\[\d+/\d+\]", done.stdout, re.MULTILINE))


class Project:
    """A project in three folders: tup's, ninja's, and one for clean builds."""

    def __init__(self, tup, name, sources, work):
        self.tup, self.name = tup, name
        self.header, self.added, self.renamed, self.test = PROJECTS[name]
        self.mine, self.ninja, self.clean = (os.path.join(work, f"{name}-{use}") for use in ("tup", "ninja", "clean"))
        for folder in (self.mine, self.ninja):
            shutil.copytree(os.path.join(sources, name), folder, symlinks=True)
            shutil.copytree(os.path.join(HERE, name), folder, dirs_exist_ok=True)
        self.source = os.path.join(work, f"{name}-source")
        shutil.copytree(self.mine, self.source, symlinks=True)
        tup.begin(self.mine)

    def edit(self, change):
        """Makes the same edit in each folder that isn't built from nothing."""
        for folder in (self.mine, self.ninja, self.source):
            change(folder)

    def build_clean(self):
        """The commands of a clean build of the sources as they are."""
        shutil.rmtree(self.clean, ignore_errors=True)
        shutil.copytree(self.source, self.clean, symlinks=True)
        self.tup.begin(self.clean)
        return self.tup.update(self.clean)

    def step(self, what, change=lambda folder: None, is_killed=False):
        """An edit, the update after it and what it came to, as a row of the table."""
        self.edit(change)
        started = time.monotonic()
        if is_killed:
            self.tup.kill(self.mine, self.whole / 2)
        runs = self.tup.update(self.mine)
        seconds = time.monotonic() - started
        every = self.build_clean()
        compare(self.mine, self.clean)
        by_ninja = ninja_count(self.ninja, every)
        print(f"| {self.name} | {what} | {len(runs)} | {by_ninja} | {seconds:.1f} |", flush=True)
        return seconds

    def try_out(self):
        """Tests what was built, in the folder of the clean build, which holds the same and is made anew at the next step."""
        done = subprocess.run(["sh", "-c", self.test], cwd=self.clean, capture_output=True, text=True, check=False)
        if done.returncode != 0:
            raise Wrong(f"its own tests: {done.stdout[-1000:]}{done.stderr[-1000:]}")

    def run_all(self):
        """The edits, one after another."""
        self.whole = self.step("first build")
        self.try_out()
        self.step("nothing to do")
        self.step("a header touched", lambda folder: os.utime(os.path.join(folder, self.header)))
        self.step("a header changed", lambda folder: append(folder, self.header, "/* changed */\nextern int changed;\n"))
        self.step("a source added", lambda folder: append(folder, self.added, "int extra_one(void) { return 1; }\n"))
        self.step("it is renamed", lambda folder: os.rename(*(os.path.join(folder, path)
                                                               for path in (self.added, self.renamed))))
        self.step("it is removed", lambda folder: os.remove(os.path.join(folder, self.renamed)))
        self.step("a flag changed", lambda folder: flag(folder, "-DREAL_ONE"))
        self.step("a flag changed, killed half way", lambda folder: flag(folder, "-DREAL_TWO"), is_killed=True)
        self.step("nothing to do at the end")


def append(folder, path, text):
    """Adds a text to a file, which is made where there is none."""
    with open(os.path.join(folder, path), "a", encoding="utf-8") as file:
        file.write(text)


def flag(folder, word):
    """Adds a flag to all compilations."""
    path = os.path.join(folder, "Tuprules.tup")
    with open(path, encoding="utf-8") as file:
        rules = file.read()
    with open(path, "w", encoding="utf-8") as file:
        file.write(rules.replace("FLAGS = ", f"FLAGS = {word} ", 1))


def main():
    tup, runner, sources, *names = sys.argv[1:]
    work = os.path.join(sources, "work")
    shutil.rmtree(work, ignore_errors=True)
    os.makedirs(work)
    print("| project | edit | commands of tup | of ninja | seconds of tup |\n|---|---|---|---|---|", flush=True)
    wrong = 0
    for name in names or PROJECTS:
        try:
            Project(Tup(tup, runner), name, sources, work).run_all()
        except Wrong as found:
            wrong += 1
            print(f"wrong: {name}: {found}", flush=True)
    sys.exit(1 if wrong else 0)


main()
