#!/bin/bash
# Tests the completions in bash, zsh and fish: each shell runs on its own terminal, lines are typed and TAB is pressed. The listed words must
# be the commands and options that --help of the built program lists, and for names the files that suit. Prints how many lines were
# completed correctly, or what differs. A missing shell is left out, which is a failure under CI.
# usage: tools/check_completions.sh [PROGRAM [FOLDER OF COMPLETIONS]]
set -u
cd "$(dirname "$0")/.."
sealer=${1:-$PWD/crates/sealer/out/sealer}
from=$(cd "${2:-completions}" && pwd)
export sealer from
for shell in bash zsh fish; do
    command -v $shell >/dev/null && continue
    echo "left out: $shell, which isn't there"
    [ -z "${CI:-}" ] || exit 1
done
exec python3 - <<'END'
import os, pty, re, select, shutil, subprocess, sys, tempfile, time, fcntl, struct, termios

SEALER, FROM, SECONDS = os.environ["sealer"], os.environ["from"], 20


def told(*words):
    """The commands and the options that --help lists."""
    text = subprocess.run([SEALER, *words, "--help"], capture_output=True, text=True, stdin=subprocess.DEVNULL).stdout
    commands = re.search(r"^Commands:\n((?: .*\n)*)", text, re.M)
    options = re.search(r"^Options:\n((?: .*\n)*)", text, re.M)
    return (
        set(re.findall(r"^ {2}(\w+)", commands.group(1), re.M)) if commands else set(),
        set(re.findall(r"^ +(?:-\w, )?(--[\w-]+)", options.group(1), re.M)) if options else set(),
    )


class Terminal:
    """A shell on a terminal of its own."""

    def __init__(self, words, room):
        env = {"PATH": os.environ["PATH"], "HOME": room, "TERM": "dumb", "LC_ALL": "C.UTF-8", "INPUTRC": "/dev/null"}
        self.child, self.file = pty.fork()
        if self.child == 0:
            os.chdir(room)
            os.execvpe(words[0], words, env)
        fcntl.ioctl(self.file, termios.TIOCSWINSZ, struct.pack("HHHH", 500, 120, 0, 0))
        self.rounds = 0

    def type(self, text):
        os.write(self.file, text.encode())

    def until(self, end):
        """What is printed up to this text."""
        seen, last = "", time.monotonic() + SECONDS
        while end not in seen:
            if not select.select([self.file], [], [], max(0, last - time.monotonic()))[0]:
                raise TimeoutError(f"'{end}' didn't come after: {seen!r}")
            seen += os.read(self.file, 65536).decode(errors="replace")
        return seen[: seen.index(end)]

    def run(self, command):
        """Runs a command, and gives what it printed."""
        self.rounds += 1
        self.type(f"{command}; echo mark-$(({self.rounds} + 0))-\r")
        return self.until(f"mark-{self.rounds}-")

    def listed(self, line, seconds):
        """What the terminal shows some seconds after a line and TAB were typed. The line is then erased."""
        self.type(line + "\t")
        # zsh lists nothing while more is typed
        time.sleep(seconds)
        self.type("\x15")
        # what comes after that is typed here
        return re.sub(r"\x1b\[[0-9;?]*\w", "", self.run("true")).split("true; echo mark")[0]

    def end(self):
        os.close(self.file)
        os.waitpid(self.child, 0)


def bash(room):
    shell = Terminal(["bash", "--norc", "--noprofile", "-i"], room)
    shell.run("PS1='> '")
    for setting in ("show-all-if-ambiguous on", "page-completions off", "completion-query-items 0", "bell-style none",
                    "completion-display-width 0", "enable-bracketed-paste off"):
        shell.run(f"bind 'set {setting}'")
    shell.run(f"source {FROM}/sealer.bash")
    return shell


def zsh(room):
    shell = Terminal(["zsh", "-f", "-i"], room)
    shell.run("PROMPT='> '; LISTMAX=10000; setopt nobeep; unsetopt zle_bracketed_paste prompt_cr prompt_sp")
    shell.run(f"fpath=({FROM} $fpath); autoload -Uz compinit; compinit -u -D; zstyle ':completion:*' verbose no")
    shell.run("bindkey -e; bindkey '^I' list-choices; bindkey '^U' kill-whole-line")
    return shell


class Fish:
    """fish, which prints its completions by a command."""

    def __init__(self, room):
        self.room = room

    def listed(self, line, _):
        command = f"source {FROM}/sealer.fish; complete -C '{line}'"
        env = {"PATH": os.environ["PATH"], "HOME": self.room, "LC_ALL": "C.UTF-8"}
        text = subprocess.run(["fish", "--no-config", "-c", command], cwd=self.room, env=env, capture_output=True, text=True)
        # less the descriptions
        return text.stderr + "".join(it.split("\t")[0] + "\n" for it in text.stdout.splitlines())

    def end(self):
        pass


room, wrong, lines = tempfile.mkdtemp(prefix="sealer-completions-"), [], 0
try:
    for name in ("one.stm", "two words.stm", "plain", ".zshrc"):
        open(os.path.join(room, name), "w").close()
    os.mkdir(os.path.join(room, "below"))
    names, options = told()
    if not {"seal", "pipe", "unpipe", "open", "verify", "audit"} <= names:
        sys.exit(f"--help lists these commands: {names}")
    for kind, start in (("bash", bash), ("zsh", zsh), ("fish", Fish)):
        if not shutil.which(kind):
            continue
        shell = start(room)
        try:
            asked = [("sealer ", names, r"(?<![\w.-])(?:{})(?![\w.-])".format("|".join([*names, "plain"])))]
            asked += [("sealer --", options, r"(?<![\w-])--[a-z][\w-]*")]
            asked += [(f"sealer {it} --", told(it)[1], r"(?<![\w-])--[a-z][\w-]*") for it in sorted(names - {"help"})]
            stm, all_names = {"one.stm", "words.stm"}, {"one.stm", "words.stm", "plain"}
            pattern = r"(?:one\.stm|words\.stm|plain)\b"
            # fish has those with the end first, and then the others
            asked += [("sealer open ", all_names if kind == "fish" else stm, pattern)]
            asked += [(f"sealer {it} ", all_names, pattern) for it in ("verify --key", "open --to", "seal", "unpipe", "audit")]
            # these options take a folder
            asked += [(f"sealer {it} ", {"below"}, r"(?:one\.stm|words\.stm|plain|below)\b") for it in ("seal --into", "unpipe --spool")]
            # in a folder after a tilde, folders too
            asked += [("sealer open ~/", {"below"} | (all_names if kind == "fish" else stm), r"(?:one\.stm|words\.stm|plain|below)\b")]
            asked += [("sealer pipe ", set(), pattern), ("sealer seal --label ", set(), pattern)]
            asked += [(f"sealer {it} --exponent ", {str(it) for it in range(12, 21)}, r"\b\d\d\b") for it in ("seal", "pipe")]
            asked += [("sealer seal --progress=", {"terminal", "always"}, r"\b(?:terminal|always)\b")]
            asked += [("sealer pipe --depth ", {str(1 << it) for it in range(7)}, r"\b\d\d?\b")]
            for line, wanted, words in asked:
                lines += 1
                # on a busy machine once more, with more time; that nothing is listed takes some in any case
                for seconds in (0.2 if wanted else 1, 2, 6):
                    seen = shell.listed(line, seconds)
                    found = set(re.findall(words, seen))
                    if found == wanted:
                        break
                if found != wanted:
                    wrong.append(f"{kind}: '{line}' lists {sorted(found)}, and not {sorted(wanted)}: {seen!r}")
        except TimeoutError as fault:
            wrong.append(f"{kind}: {fault}")
        finally:
            shell.end()
finally:
    shutil.rmtree(room, ignore_errors=True)
for it in wrong:
    print(it)
if not wrong:
    print(f"{lines} lines are completed as they should be")
sys.exit(1 if wrong else 0)
END
