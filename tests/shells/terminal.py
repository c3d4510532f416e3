"""Completes command lines in bash, fish and zsh: each shell runs on a terminal of its own, and the
lines are typed there.

The program and its completions are below a folder at the places at which `install` puts them below
its prefix, and each shell finds the completions there by itself. Or the folder is a home with what
`install` put there, and zsh reads the lines that `install` printed.
"""

import fcntl
import os
import pty
import select
import subprocess
import termios
import time
from pathlib import Path

SECONDS = 20
TAB, ALL, REPLY = "\t", "\x0f", "\x14"
TOP = Path(__file__).resolve().parents[2]
PLACES = {
    "completions/debctl.bash": "share/bash-completion/completions/debctl",
    "completions/debctl.fish": "share/fish/vendor_completions.d/debctl.fish",
    "completions/_debctl": "share/zsh/site-functions/_debctl",
}
LOADER = "/usr/share/bash-completion/bash_completion"

# Each shell reads its lines below first. Then control-o puts all that the shell offers into the
# line, and control-t writes the line to the file `reply` and empties it.
BASH = rf"""
. {LOADER}
bind 'set bell-style none'
bind '"\C-o": insert-completions'
reply() {{
    printf '%s' "$READLINE_LINE" >"$ROOM/new" && mv "$ROOM/new" "$ROOM/reply"
    READLINE_LINE= READLINE_POINT=0
}}
bind -x '"\C-t": reply'
"""
ZSH_FPATH = r"""
fpath=($ROOM/share/zsh/site-functions $fpath)
autoload -Uz compinit && compinit -u -D
"""
ZSH = r"""
setopt no_beep
zle -C all-matches complete-word _generic
zstyle ':completion:all-matches:*' completer _all_matches _complete
zstyle ':completion:all-matches:*' insert true
bindkey '^O' all-matches
reply() {
    printf '%s' "$BUFFER" >$ROOM/new && mv $ROOM/new $ROOM/reply
    BUFFER=
}
zle -N reply
bindkey '^T' reply
"""
FISH = r"""
function all_matches
    set -l words (complete -C (commandline -cp) | string replace -r '\t.*' '')
    commandline -rt -- (string join ' ' -- $words)
end
function reply
    printf '%s' (commandline) >$ROOM/new && mv $ROOM/new $ROOM/reply
    commandline -r ''
end
bind \co all_matches
bind \ct reply
"""


class Shell:
    """A shell on a terminal, below the folder `room`, in a folder that has the given files. With
    `lines` nothing is put there, and zsh starts as it does for a user who has them in ~/.zshrc."""

    def __init__(self, name, room, program, files=(), lines=None):
        self.room, work, self.shown, self.lines = Path(room), Path(room) / "work", b"", lines
        for file, place in {program: "bin/debctl", **PLACES}.items() if lines is None else ():
            (self.room / place).parent.mkdir(parents=True)
            (self.room / place).symlink_to(TOP / file)
        work.mkdir()
        for file in files:
            (work / file).touch()
        self.master, slave = pty.openpty()
        self.process = subprocess.Popen(
            self._command(name), cwd=work, env=self._environment(), stdin=slave, stdout=slave,
            stderr=slave, start_new_session=True,
            preexec_fn=lambda: fcntl.ioctl(0, termios.TIOCSCTTY, 0),
        )
        os.close(slave)
        self._wait(lambda: (self.room / "ready").exists())

    def __enter__(self):
        return self

    def __exit__(self, *_):
        self.process.kill()
        self.process.wait()
        os.close(self.master)

    def completed(self, line):
        """The line after a TAB at its end."""
        return self._after(line, TAB)

    def offered(self, line):
        """The words that the shell offers in place of the last word of a line, or for what comes
        after the `=` in it."""
        after, last = self._after(line, ALL), line.rpartition(" ")[2]
        if after == line:
            return []
        words = after[len(line) - len(last):].split()
        return [word.partition("=")[2] if "=" in last and "=" in word else word for word in words]

    def _command(self, name):
        """The command line that starts a shell which has read its lines."""
        ready = '\n: >"$ROOM/ready"\n'
        if name == "fish":
            # Else it makes completions of its own from all manual pages.
            (self.room / "fish/generated_completions").mkdir(parents=True)
            return ["fish", "--init-command", FISH + ready]
        if name == "bash":
            (self.room / "lines").write_text(BASH + ready)
            return ["bash", "--noprofile", "--rcfile", str(self.room / "lines"), "-i"]
        (self.room / ".zshrc").write_text((self.lines or ZSH_FPATH) + ZSH + ready)
        return ["zsh", "-d", "-i"] if self.lines is None else ["zsh", "-i"]

    def _environment(self):
        """The variables of a user for whom the program is below the folder."""
        room = str(self.room)
        return {
            "HOME": room, "LC_ALL": "C.UTF-8", "PATH": f"{room}/bin:{os.environ['PATH']}",
            "ROOM": room, "TERM": "vt100", "XDG_DATA_DIRS": f"{room}/share:/usr/share",
            "XDG_DATA_HOME": room,
        }

    def _after(self, line, key):
        """The line after a key at its end."""
        reply = self.room / "reply"
        reply.unlink(missing_ok=True)
        os.write(self.master, (line + key + REPLY).encode())
        self._wait(reply.exists)
        return reply.read_text()

    def _wait(self, is_so):
        """Waits until something is so, and reads what the shell shows meanwhile."""
        end = time.monotonic() + SECONDS
        while not is_so():
            if time.monotonic() > end or self.process.poll() is not None:
                raise AssertionError(f"no answer of the shell, which shows {self.shown!r}")
            if select.select([self.master], [], [], 0.02)[0]:
                self.shown += os.read(self.master, 65536)
