"""Devices that are full, closed, missing, slow or endless."""

import os
import pty
import re
import resource
import select
import shlex
import subprocess
import tempfile
import termios
import threading
import time
from contextlib import contextmanager
from pathlib import Path

from program import SECONDS, Outcome

ROWS = b"CREATE VIRTUAL TABLE t USING rtree_i32(id,a,b); INSERT INTO t VALUES(9,5,7),(2,-1,0); SELECT * FROM t;"
PRINTED = b"2|-1|0\n9|5|7\n"
DUMP = b"rtree 1 5 1 1 0\nnode 1 0 - 0\nend\n"

# What a person types, line by line, and what must show before the next line is typed.
PROMPT, CONTINUATION = b"rtsh> ", b" ...> "
IN_TEXT, IN_NAME, IN_COMMENT = b" '..> ", b' "..> ', b" *..> "
HINT = b"rtsh: Enter .help for help, or .quit to end.\n"
TYPED = [
    (b"CREATE VIRTUAL TABLE t USING rtree_i32(id,a,b);", PROMPT),
    (b"INSERT INTO t VALUES(9,5,7),", CONTINUATION),
    (b"(2,-1,0);", PROMPT),
    (b"SELECT * FROM t;", PRINTED + PROMPT),
    (b".watch v FROM t WHERE a<0", PROMPT),
    (b"DELETE FROM t WHERE id=2; FOO;", b"-v 2|-1|0\nrefused 6 1: syntax error\n" + PROMPT),
]
REFUSED = b"refused 1 1: syntax error\n"

# The length of a long input, and the memory that the program may take for an input of any length, both in bytes.
LONG = 100_000_000
MOST_MEMORY = 64 * 1024 * 1024


def fault(outcome, name, printed=b""):
    """What is wrong, unless the run ended at this fault."""
    return None if outcome.failed_with(name, printed) else str(outcome)


def same(outcome, status, printed):
    """What is wrong, unless the run gave just this and said nothing."""
    return None if outcome == Outcome(status, printed) and not outcome.complained else str(outcome)


def by_shell(program, command, given=b""):
    """Runs a command of sh, in which $RTSH is the program."""
    how = {"input": given, "capture_output": True, "timeout": SECONDS, "env": {"RTSH": program.path, "PATH": os.environ["PATH"]}}
    ran = subprocess.run(["sh", "-c", command], **how)
    return Outcome(ran.returncode, ran.stdout, ran.stderr)


def full_device(program):
    return (
        fault(by_shell(program, "$RTSH run > /dev/full", ROWS), "write fault")
        or fault(by_shell(program, "$RTSH check > /dev/full", DUMP), "write fault")
        or fault(by_shell(program, "$RTSH run --help > /dev/full"), "write fault")
    )


def full_error_output(program):
    return same(by_shell(program, "$RTSH run /nowhere/at/all 2> /dev/full"), 3, b"")


def closed_pipe(program):
    reading, writing = os.pipe()
    os.close(reading)
    pipes = {"stdin": subprocess.PIPE, "stdout": writing, "stderr": subprocess.PIPE}
    started = subprocess.Popen([program.path, "run"], **pipes)
    os.close(writing)
    _, complained = started.communicate(ROWS, timeout=SECONDS)
    return fault(Outcome(started.returncode, b"", complained), "write fault")


def folder_as_file(program):
    outcome = program.run(["run", "/"])
    return fault(outcome, "read fault") and fault(outcome, "cannot open file")


def missing_file(program):
    return fault(program.run(["check", "/nowhere/at/all"]), "cannot open file")


def file_without_rights(program):
    """The program is run as nobody, since root may read any file."""
    with tempfile.TemporaryDirectory() as room:
        copy, script = Path(room, "rtsh"), Path(room, "script.sql")
        copy.write_bytes(Path(program.path).read_bytes())
        script.write_bytes(ROWS)
        for path, mode in ((room, 0o755), (copy, 0o755), (script, 0)):
            os.chmod(path, mode)
        nobody = ["setpriv", "--reuid=65534", "--regid=65534", "--clear-groups"] if os.geteuid() == 0 else []
        ran = subprocess.run([*nobody, str(copy), "run", str(script)], capture_output=True, timeout=SECONDS)
    return fault(Outcome(ran.returncode, ran.stdout, ran.stderr), "cannot open file")


def closed_input(program):
    return fault(by_shell(program, "exec $RTSH run <&-"), "read fault") or fault(by_shell(program, "exec $RTSH check <&-"), "read fault")


def closed_output(program):
    return fault(by_shell(program, "exec $RTSH run >&-", ROWS), "write fault")


def closed_output_and_a_file(program):
    """The file takes the number of the closed output, and is not written to."""
    with tempfile.NamedTemporaryFile() as script:
        script.write(ROWS)
        script.flush()
        wrong = fault(by_shell(program, f"exec $RTSH run {shlex.quote(script.name)} >&-"), "write fault")
        return wrong or (None if Path(script.name).read_bytes() == ROWS else "the script was written to")


def feed(started, parts):
    """Writes the parts to the program's input, until they or the reader end; answers how many bytes went."""
    count = 0
    try:
        for part in parts:
            count += started.stdin.write(part)
        started.stdin.close()
    except BrokenPipeError:
        pass
    return count


def fed(program, words, parts):
    """A run with little memory, whose input is written in parts while it runs; and how many bytes of it were taken."""

    def limit():
        resource.setrlimit(resource.RLIMIT_AS, (MOST_MEMORY, MOST_MEMORY))

    pipes = {"stdin": subprocess.PIPE, "stdout": subprocess.PIPE, "stderr": subprocess.PIPE, "bufsize": 0}
    started = subprocess.Popen([program.path, *words], preexec_fn=limit, **pipes)
    count = []
    feeding = threading.Thread(target=lambda: count.append(feed(started, parts)), daemon=True)
    feeding.start()
    with started.stdout as out, started.stderr as err:
        printed, complained = out.read(), err.read()
    started.wait(SECONDS)
    feeding.join(SECONDS)
    return Outcome(started.returncode, printed, complained), count[0] if count else None


def long_script(program):
    """Many statements, each after a long comment."""
    head = b"CREATE VIRTUAL TABLE t USING rtree_i32(id,a,b);"
    step = b"INSERT OR REPLACE INTO t VALUES(1,2,3); --" + b"x" * 10_000 + b"\n"
    outcome, _ = fed(program, ["run"], [head, *[step] * (LONG // len(step)), b"SELECT * FROM t;"])
    return same(outcome, 0, b"1|2|3\n")


def endless(begins, status, printed):
    """An input that begins so and then goes on with one letter."""

    def check(program):
        part = b"a" * 1_000_000
        outcome, _ = fed(program, ["run"], [begins, *[part] * (LONG // len(part))])
        return same(outcome, status, printed)

    return check


def endless_dump_line(program):
    """The dump's line is no line of a dump, however long it is, or there is no memory to hold it."""
    part = b"a" * 1_000_000
    outcome, _ = fed(program, ["check"], [part] * (LONG // len(part)))
    return same(outcome, 1, b"bad dump 1 5: truncated\n") and fault(outcome, "out of memory")


def bail_with_more_to_come(program):
    """The writer of the input sees that nobody reads any more, and the program ends."""
    part = b"SELECT * FROM t; " * 10_000
    outcome, count = fed(program, ["run", "--bail"], [b"FOO;", *[part] * (LONG // len(part))])
    wrong = same(outcome, 1, b"refused 1 1: syntax error\n")
    return wrong or (None if count < LONG // 10 else f"{count} bytes were taken")


def slow_input(program):
    """One byte, then none for two seconds, then one at a time."""

    def parts():
        yield ROWS[:1]
        time.sleep(2)
        for at in range(1, len(ROWS)):
            yield ROWS[at : at + 1]

    outcome, _ = fed(program, ["run"], parts())
    return same(outcome, 0, PRINTED)


def slow_output(program):
    """Nobody reads the output for two seconds; it is more than a pipe holds."""
    words = [b"CREATE VIRTUAL TABLE t USING rtree_i32(id,a,b); INSERT INTO t VALUES(1,2,3);"]
    pipes = {"stdin": subprocess.PIPE, "stdout": subprocess.PIPE, "stderr": subprocess.PIPE}
    started = subprocess.Popen([program.path, "run"], **pipes)
    script = words[0] + b"SELECT * FROM t;" * 100_000
    threading.Thread(target=lambda: feed(started, [script]), daemon=True).start()
    time.sleep(2)
    with started.stdout as out, started.stderr as err:
        outcome = Outcome(0, out.read(), err.read())
    wrong = same(outcome, 0, b"1|2|3\n" * 100_000)
    return wrong or (f"status {started.returncode}" if started.wait(SECONDS) else None)


def shown(terminal, wanted):
    """What a terminal shows until it ends in what is wanted, or nothing more comes for long."""
    text = b""
    while not text.endswith(wanted) and select.select([terminal], [], [], 10)[0]:
        text += os.read(terminal, 4096).replace(b"\r\n", b"\n")
    return text


@contextmanager
def at_a_terminal(program, words, *streams, **how):
    """A run with these streams at a terminal, which doesn't echo what is typed; its master's end, and the process."""
    terminal, end = pty.openpty()
    modes = termios.tcgetattr(end)
    modes[3] &= ~termios.ECHO
    termios.tcsetattr(end, termios.TCSANOW, modes)
    started = subprocess.Popen([program.path, *words], **{stream: end for stream in streams}, **how)
    try:
        yield terminal, started
    finally:
        started.kill()
        started.wait()
        os.close(end)
        os.close(terminal)


def typed(program, lines, status):
    """What is wrong, unless each line shows just what it must, and the last one ends the run with this status."""
    with at_a_terminal(program, ["run"], "stdin", "stdout", "stderr") as (terminal, started):
        text = shown(terminal, PROMPT)
        if not text.startswith(b"rtsh: ") or b".help" not in text or not text.endswith(b"\n" + PROMPT):
            return f"at the start: {text}"
        for line, wanted in lines:
            os.write(terminal, line)
            text = shown(terminal, wanted)
            if text != wanted:
                return f"after {line}: {text}"
        ended = started.wait(SECONDS)
        return None if ended == status else f"status {ended}"


def typed_at_a_terminal(program):
    """Each answer is there before the next line is typed."""
    return typed(program, [*[(line + b"\n", wanted) for line, wanted in TYPED], (b"\x04", b"\n")], 1)


def quit_at_a_terminal(program):
    """These lines end the run between pieces and in a statement, which is then incomplete."""
    for line in (b".quit\n", b".exit\n", b" .QUIT ;\n"):
        wrong = typed(program, [(line, b"")], 0) or typed(program, [(b"SELECT\n", CONTINUATION), (line, b"refused 1 2: incomplete input\n")], 1)
        if wrong:
            return f"{line}: {wrong}"
    return None


def open_at_a_terminal(program):
    """The prompt shows an open quote or comment, in which these lines are part of the statement."""
    for opened, prompt, closed in ((b"'", IN_TEXT, b"'"), (b'"', IN_NAME, b'"'), (b"/*", IN_COMMENT, b"*/")):
        lines = [(b"SELECT " + opened + b"\n", prompt), (b".quit\n", prompt), (b".help\n", prompt), (closed + b"\n", CONTINUATION)]
        wrong = typed(program, [*lines, (b"-- '\n", CONTINUATION), (b".quit or not\n", CONTINUATION), (b";\n", REFUSED + PROMPT), (b"\x04", b"\n")], 1)
        if wrong:
            return f"{opened}: {wrong}"
    # Between pieces a comment has no piece around it, and Ctrl-D breaks a line, which .quit then goes on with.
    lines = [(b"/* it's\n", IN_COMMENT), (b".quit\n", IN_COMMENT), (b"*/\n", PROMPT), (b"SELECT\x04", CONTINUATION), (b".quit\n", CONTINUATION)]
    return typed(program, [*lines, (b";\n", REFUSED + PROMPT), (b".quit\n", b"")], 1)


def lost_at_a_terminal(program):
    """Lines of other shells are refused as ever, and a hint follows."""
    unknown = b"refused 1 21: unknown command\n"
    for line in (b".tables\n", b".schema t\n", b".q\n"):
        wrong = typed(program, [(line, unknown + HINT + PROMPT), (b"\n", PROMPT), (b".exit\n", b"")], 1)
        if wrong:
            return f"{line}: {wrong}"
    for word in (b"quit", b"EXIT", b"help"):
        lines = [(word + b"\n", HINT + CONTINUATION), (b"exit\n", CONTINUATION), (b";\n", REFUSED + PROMPT)]
        wrong = typed(program, [*lines, (word + b" ;\n", REFUSED.replace(b"1 1", b"2 1") + HINT + PROMPT), (b".quit\n", b"")], 1)
        if wrong:
            return f"{word}: {wrong}"
    return None


def helped_at_a_terminal(program):
    """The help fits on a screen, and is no part of the script, nor of a statement in which it is asked for."""
    with at_a_terminal(program, ["run"], "stdin", "stdout", "stderr") as (terminal, _):
        shown(terminal, PROMPT)
        os.write(terminal, b".help\n")
        lines = shown(terminal, PROMPT).decode().splitlines()
        if len(lines) > 24 or max(map(len, lines)) > 80:
            return f"{len(lines)} lines, the longest of {max(map(len, lines))} characters"
        words = "CREATE DROP INSERT UPDATE DELETE SELECT rtreecheck WHERE .watch .view .unwatch .nodes .help .quit .exit Ctrl-D rlwrap".split()
        lacking = [word for word in words if not any(word in line for line in lines)]
        os.write(terminal, b"CREATE VIRTUAL TABLE t\n")
        shown(terminal, CONTINUATION)
        os.write(terminal, b".help\n")
        again = shown(terminal, CONTINUATION).decode().splitlines()
        os.write(terminal, b"USING rtree_i32(id,a,b);SELECT * FROM t; FOO;\n")
        text, wanted = shown(terminal, PROMPT), REFUSED.replace(b"1 1", b"3 1") + PROMPT
        return f"lacks {lacking}" if lacking or again[:-1] != lines[:-1] else None if text == wanted else f"then: {text}"


def terminal_lines_in_a_pipe(program):
    lines = [b".help", b".quit", b".exit"]
    printed = b"".join(b"refused %d 21: unknown command\n" % number for number in range(1, 4))
    return same(program.run(["run"], b"\n".join(lines)), 1, printed)


def all_shown(terminal, started):
    """What a terminal shows until the run has ended."""
    text = b""
    while started.poll() is None or select.select([terminal], [], [], 0.1)[0]:
        if select.select([terminal], [], [], 0.1)[0]:
            text += os.read(terminal, 65536)
    return text.replace(b"\r\n", b"\n")


# Each refused piece of the script WRONG: its number and its line, and if its syntax is wrong, the line, the column and the word that
# no statement goes on with. All were counted by hand.
WRONG = b"""FOO; SELECT 'refused 1';
-- a comment

  SELECT *
FROM t;.view v
.nodes t
/* \xc3\xa9 */ SELECT '\xc3\xa9\xc3\xa9', /* ;
 */ id FROM t;
CREATE VIRTUAL TABLE t USING rtree_i32(id, a, b, +n);
  SELECT id, n
  FROM t
  WHERE a <= <= 5;
INSERT INTO t VALUES (1, 2, 3, 'x'),
  (2, 3, 0x10, 'y');
DELETE FROM t WHERE n = "n"; SELECT * FROM t LIMIT 5;
.view
.watch v FROM t where\x20
.view v w
UPDATE t SET a = 5, \xc3\xa9 = a * 2;
SELECT * FROM t WHERE a = 99999999999999999999;
INSERT INTO t VALUES ('it''s
there', 5 6);
CREATE VIRTUAL TABLE IF NOT there USING rtree_i32(id, a, b);
DROP TABLE IF there;
DELETE FROM t WHERE a IS X'0G';
SELECT a FROM t ORDER BY a 'a\x1b[2Jb';
UPDATE t SET a = 'aaaaaaaaaabbbbbbbbbbccccccccccddddddddddeeeeeeeeee' WHERE 'aaaaaaaaaabbbbbbbbbbccccccccccddddddddddeeeeeeeeee' = 5;
INSERT INTO t VALUES (1,2,3,'');SELECT id FROM t;
"""
STOPS = [
    (1, 1, "line 1, column 1: FOO"),
    (2, 1, "line 1, column 13: 'refused 1'"),
    (3, 4, None),
    (4, 5, None),
    (5, 6, None),
    (6, 7, "line 7, column 16: '\u00e9\u00e9'"),
    (8, 10, "line 12, column 14: <="),
    (9, 13, "line 14, column 10: 0x10"),
    (10, 15, 'line 15, column 25: "n"'),
    (11, 15, "line 15, column 46: LIMIT"),
    (12, 16, "line 16, column 6: the end of the line"),
    (13, 17, "line 17, column 23: the end of the line"),
    (14, 18, "line 18, column 9: w"),
    (15, 19, "line 19, column 27: *"),
    (16, 20, None),
    (17, 21, "line 22, column 11: 6"),
    (18, 23, "line 23, column 29: there"),
    (19, 24, "line 24, column 15: there"),
    (20, 25, "line 25, column 26: X"),
    (21, 26, "line 26, column 28: 'a"),
    (22, 27, "line 27, column 77: 'aaaaaaaaaabbbbbbbbbbccccccccccddddddddd"),
]


def told(name, stops):
    """What the error output says of these refused pieces."""
    lines = (f"rtsh: {name}: line {line}: statement {number} was refused{f' at {at}' if at else ''}\n" for number, line, at in stops)
    return "".join(lines).encode()


def places_of_refusals(program):
    """The error output tells where each refused statement of a file or a pipe stands, in their order, and nothing else, if it
    is a terminal or --where is given. Without both it says nothing."""
    # The last pieces are too long and incomplete, and a line feed in a quote counts.
    script = WRONG + b"FOO /*" + b"\n" * 65_000 + b"*/;" + b" " * 200_000 + b"SELECT '" + b"\n" * 70_000 + b"'; BAR;\nSELECT id\n"
    stops = [*STOPS, (25, 29, "line 29, column 1: FOO"), (26, 135_029, None), (27, 135_029, "line 135029, column 4: BAR"), (28, 135_030, None)]
    with tempfile.NamedTemporaryFile() as file:
        file.write(script)
        file.flush()
        for words, given, name in (([], script, "standard input"), (["--echo", file.name], b"", file.name)):
            wanted = told(name, stops)
            with at_a_terminal(program, ["run", *words], "stderr", stdin=subprocess.PIPE, stdout=subprocess.DEVNULL) as (terminal, started):
                threading.Thread(target=lambda: feed(started, [given]), daemon=True).start()
                text = all_shown(terminal, started)
                if text != wanted or started.returncode != 1:
                    return f"{words}: {text[:3000]}, status {started.returncode}"
            plain, where = (program.run(["run", *options, *words], given) for options in ([], ["--where"]))
            if where.complained != wanted or where != plain or plain.complained:
                return f"{words}: {where.complained[:3000]}, {where}, {plain}"
    return None


def places_in_part(program):
    """A run that ends at the first refusal tells its place; so does one that is read byte by byte, and one whose error output
    goes where its output goes."""
    script, wanted = b"-- one\nSELECT * FROM t\n LIMIT 5; FOO;", told("standard input", [(1, 2, "line 3, column 2: LIMIT")])
    outcome = program.run(["run", "--where", "--bail"], script)
    if outcome.complained != wanted:
        return str(outcome)
    outcome, _ = fed(program, ["run", "--where", "--bail"], [script[at : at + 1] for at in range(len(script))])
    if outcome.complained != wanted:
        return str(outcome)
    beside = by_shell(program, "$RTSH run --where --unbuffered 2>&1", script)
    both = REFUSED + wanted + b"refused 2 1: syntax error\n" + told("standard input", [(2, 3, "line 3, column 11: FOO")])
    return None if beside.printed == both else str(beside)


def places_at_a_terminal(program):
    """With --where a typed script's refusals are told too, before the next prompt."""
    line = b"SELECT 5; .view v\n"
    first = REFUSED + told("standard input", [(1, 1, "line 1, column 8: 5")])
    second = b"refused 2 16: no such view\n" + told("standard input", [(2, 1, None)])
    with at_a_terminal(program, ["run", "--where"], "stdin", "stdout", "stderr") as (terminal, _):
        shown(terminal, PROMPT)
        os.write(terminal, line)
        text = shown(terminal, second + PROMPT)
    return None if text == first + second + PROMPT else str(text)


def part_read(program):
    """A file of more than a megabyte shows how much of it is read, on one line, which is clear at the end. A shorter one and
    a pipe don't, and nothing shows where the error output is no terminal."""
    long = ROWS + b"-- more\n" * 200_000
    for script, given, is_shown in ((long, None, True), (ROWS, None, False), (b"", long, False)):
        with tempfile.NamedTemporaryFile() as file:
            file.write(script)
            file.flush()
            words = ["run", "-" if given else file.name]
            with at_a_terminal(program, words, "stderr", stdin=subprocess.PIPE, stdout=subprocess.PIPE) as (terminal, started):
                threading.Thread(target=lambda: feed(started, [given or b""]), daemon=True).start()
                text, printed = all_shown(terminal, started), started.stdout.read()
        parts = [int(part) for part in re.findall(rb"(\d+) % read", text)]
        is_right = parts == sorted(set(parts)) and parts[-1:] == [100] and text.endswith(b"% read\r\x1b[K") and b"\n" not in text
        if printed != PRINTED or (not is_right if is_shown else text):
            return f"{text[-300:]}, printed {printed}"
    with tempfile.NamedTemporaryFile() as file:
        file.write(long)
        file.flush()
        return same(program.run(["run", "--where", file.name]), 0, PRINTED)


def spoken_with(program):
    """The guide's program of Python speaks with the shell through two pipes."""
    guide = (Path(__file__).resolve().parent.parent / "docs" / "GUIDE.md").read_text()
    lines, printed = re.search(r"```python\n(.*?)```.*?```text\n(.*?)```", guide, re.S).groups()
    how = {"input": lines.replace("bin/rtsh", program.path), "capture_output": True, "text": True, "timeout": SECONDS}
    ran = subprocess.run(["python3", "-"], **how)
    return None if ran.stdout == printed and not ran.stderr else f"{ran.stdout} {ran.stderr}"


def first_contact(program):
    """Words of the command line, and how what is said of them begins."""
    for words, status, begins in CONTACT:
        outcome = program.run(words)
        said = outcome.printed if status == 0 else outcome.complained
        if outcome.status != status or not said.startswith(begins) or (outcome.printed and outcome.complained):
            return f"{words}: {outcome}"
    return None


def little_memory(program):
    """Rows until memory runs out, and then more: once another table has gone, what was taken is still there, and the table
    goes on."""
    create = b"CREATE VIRTUAL TABLE %s USING rtree_i32(id,a,b,+n TEXT);"
    insert = b"INSERT INTO %s VALUES(NULL,0,0,'" + b"x" * 60_000 + b"');"
    tail = b"DROP TABLE s; SELECT id FROM t WHERE id<=2; DELETE FROM t WHERE id>2; SELECT id FROM t; SELECT rtreecheck('t');"
    head = [create % b"s", *[insert % b"s"] * 40, create % b"t"]
    outcome, _ = fed(program, ["run"], [*head, *[insert % b"t"] * 2000, tail])
    lines = outcome.printed.split(b"\n")
    refused = [line for line in lines if line.endswith(b" 20: out of memory")]
    is_well = refused and lines == [*refused, b"1", b"2", b"1", b"2", b"ok", b""]
    return None if is_well and outcome.status == 1 and not outcome.complained else str(outcome)


def capacities(program):
    for capacity in ("4", "52", "0", "256", "-5", "x"):
        outcome = program.run(["run", f"--capacity={capacity}"], ROWS)
        if outcome.status != 2 or outcome.printed or not outcome.complained:
            return f"{capacity}: {outcome}"
    return same(program.run(["run", "--capacity", "5"], ROWS), 0, PRINTED) or same(
        program.run(["run", "--capacity", "51"], ROWS), 0, PRINTED
    )


# What is asked at a first contact, the status, and how the answer begins.
CONTACT = [
    ([], 2, b"Tables of boxes"),
    (["help"], 0, b"Tables of boxes"),
    (["--help"], 0, b"Tables of boxes"),
    (["help", "run"], 0, b"Runs a script"),
    (["run", "--help"], 0, b"Runs a script"),
    (["check", "-h"], 0, b"Says of a dump"),
    (["--version"], 0, b"rtsh "),
    (["runs"], 2, b"error: unrecognized subcommand 'runs'"),
    (["run", "--ehco"], 2, b"error: unexpected argument '--ehco'"),
    (["run", "a", "b"], 2, b"error: unexpected argument 'b'"),
    (["run", "/nowhere/at/all"], 3, b"rtsh: cannot open file: /nowhere/at/all: "),
]

TOO_LONG = b"refused 1 3: statement too long\n"
CHECKS = {
    "the output is a full device": full_device,
    "the error output is a full device": full_error_output,
    "the output is a pipe that nobody reads": closed_pipe,
    "FILE is a folder": folder_as_file,
    "FILE is missing": missing_file,
    "FILE may not be read": file_without_rights,
    "the input is closed": closed_input,
    "the output is closed": closed_output,
    "the output is closed, and FILE is there": closed_output_and_a_file,
    "a script of 100 MB from a pipe, with little memory": long_script,
    "a quote without end": endless(b"SELECT '", 1, TOO_LONG),
    "a statement without end": endless(b"SELECT ", 1, TOO_LONG),
    "a line without end": endless(b".view ", 1, TOO_LONG),
    "a comment without end": endless(b"--", 0, b""),
    "a dump of one line without end": endless_dump_line,
    "--bail with more input to come": bail_with_more_to_come,
    "an input of one byte, and then none for long": slow_input,
    "an output that is read late": slow_output,
    "a script that is typed at a terminal": typed_at_a_terminal,
    "lines that end a run at a terminal": quit_at_a_terminal,
    "open quotes and comments at a terminal": open_at_a_terminal,
    "lines of other shells at a terminal": lost_at_a_terminal,
    "help at a terminal": helped_at_a_terminal,
    "lines of a terminal in a pipe": terminal_lines_in_a_pipe,
    "places of refused statements": places_of_refusals,
    "places of refused statements in part of a script": places_in_part,
    "places of refused statements at a terminal": places_at_a_terminal,
    "the part read of a long file at a terminal": part_read,
    "a program that speaks with the shell": spoken_with,
    "a first contact": first_contact,
    "rows until memory runs out": little_memory,
    "capacities at and past the limits": capacities,
}
