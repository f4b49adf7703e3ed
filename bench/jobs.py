"""Makes the jobs that measure.sh runs, in the folder that is given: NAME.job, and NAME.status with its exit status."""
import os
import sys

LONGEST_JOB = 1_048_576
LONGEST_LINE = 1_024
MOST_WORK = 20_000
DONE, REFUSED = 0, 3
HEAD = "fenix 1\nranks {}\nspares 0\nseparation 1\narray a {}\nbegin\n"
TAIL = "end\nschedule\nstop\n"


def job(ranks, length, body):
    return HEAD.format(ranks, length) + body + TAIL


def of_ranks(ranks, prints, events):
    """A job of so many ranks that each print so often, with these events."""
    body = "let a + a rank\n" + "print a\n" * prints
    return HEAD.format(ranks, 16) + body + "end\nschedule\n" + "".join(event + "\n" for event in events) + "stop\n"


def numbers(x):
    """A sequence of numbers that is always the same from its first one on: a call gives the next, below a limit."""

    def below(m):
        nonlocal x
        x = (x * 6364136223846793005 + 1442695040888963407) % 2**64
        return (x >> 33) % m

    return below


def drawn(ranks, count):
    """So many steps, rests and deliveries, drawn."""
    below = numbers(5)
    for _ in range(count):
        kind = ("step", "rest", "deliver")[below(3)]
        yield f"{kind} {below(ranks)}" + (f" {below(ranks)}" if kind == "deliver" else "")


def losing(ranks, spares, kills):
    """A job that loses processes: 2,000 steps and deliveries in front of each kill, and a round in front of every other one."""
    below = numbers(6)
    events = []
    for kill in range(kills):
        events += ["run 1"] * (kill % 2)
        for _ in range(2_000):
            kind = "step" if below(4) else "deliver"
            events.append(f"{kind} {below(ranks + spares)}" + (f" {below(ranks + spares)}" if kind == "deliver" else ""))
        events.append(f"kill {below(ranks + spares)}")
    head = f"fenix 1\nranks {ranks}\nspares {spares}\nseparation 1\narray a 64\ncallback n\nprint a\nendcallback\nbegin\n"
    body = "register n\nlet a + a 5\n" + "print a\n" * 300
    return head + body + "end\nschedule\n" + "".join(event + "\n" for event in events) + "stop\n"


def looped(turns, declared, body, behind):
    """A job of one rank with a loop of so many turns, whose counter is c."""
    head = "fenix 1\nranks 1\nspares 0\nseparation 1\n" + declared + "begin\n"
    return head + f"for c 0 {turns - 1}\n" + body + "endfor\n" + behind + TAIL


def meeting(ranks, turns):
    """A job of so many ranks that meet at so many barriers."""
    declared = f"fenix 1\nranks {ranks}\nspares 0\nseparation 1\narray a 16\ncounter c\nbegin\n"
    return declared + f"for c 0 {turns - 1}\nbarrier\nendfor\n" + TAIL


def calling(ranks, turns, spares, kills):
    """A job of so many ranks that make four kinds of calls in turn: two rounds and up to 29 steps in front of each kill."""
    below = numbers(7)
    events = []
    for _ in range(kills):
        steps = below(30)
        events += ["run 2"] + [f"step {below(ranks + spares)}" for _ in range(steps)]
        events.append(f"kill {below(ranks + spares)}")
    head = f"fenix 1\nranks {ranks}\nspares {spares}\nseparation 1\n"
    declared = "array a 64\narray b 64\ncounter c\ncounter d\nbegin\n"
    body = f"for c 0 {turns - 1}\nsum d a\nagree d a 0\nshift b a 1\nbarrier\nendfor\nprint b\n"
    return head + declared + body + "end\nschedule\n" + "".join(event + "\n" for event in events) + "stop\n"


def filled(size, start, piece, behind):
    """A job of at most `size` bytes with `piece` again and again between a start and what is behind."""
    room = size - len(start) - len(behind)
    return start + piece * (room // len(piece)) + behind


def padded(line):
    """A line of the most bytes, filled up with spaces in front of its last word."""
    words = line.rsplit(" ", 1)
    return words[0] + " " * (LONGEST_LINE - len(line) + 1) + words[1] + "\n"


def checked(text):
    """The status of a job that keeps all other rules and has no loop: it is refused where its work is too much."""
    body = text.split("\nbegin\n")[1].split("\nend\n")[0].split("\n")
    return REFUSED if sum(line != "endif" for line in body) > MOST_WORK else DONE


def jobs():
    # What is run: the journal of a print of 256 zeros has 525 bytes.
    yield "prints_2000", job(1, 256, "print a\n" * 2_000), DONE
    yield "prints_20000", job(1, 256, "print a\n" * 20_000), DONE
    yield "source_1mb", job(1, 1, ("print" + " " * 45 + "a\n") * 20_000), DONE

    # What is computed: loops that write little.
    arrays = "array a 256\narray b 256\ncounter c\n"
    for turns in (1_000, 9_999):
        yield f"lets_{turns}", looped(turns, arrays, "let a + b * a index\n", "print a\n"), DONE
    longest = "let a" + " +" * 60 + " a index rank size c 3" * 10 + " a\n"
    for turns in (500, 5_000):
        yield f"expressions_{turns}", looped(turns, "array a 64\ncounter c\n", longest, "print a\n"), DONE
    branch = "if lt c 150\nset d + d 1\nelse\nset d + d c\nendif\nwhen initial\nlet a + a d\nendwhen\n"
    for turns in (300, 3_000):
        counted = looped(turns, "array a 1\ncounter c\ncounter d\n", branch, "print d\nprint a\n")
        yield f"branches_{turns}", counted, DONE

    # Many ranks: what they print by themselves, and a schedule of many events.
    for ranks, prints in ((4, 1_000), (16, 1_000), (16, 4_000)):
        yield f"plain_{ranks}_{prints}", of_ranks(ranks, prints, []), DONE
    for count in (10_000, 100_000):
        yield f"events_16_{count}", of_ranks(16, 200, drawn(16, count)), DONE
    for ranks, spares, kills in ((8, 8, 8), (4, 12, 12)):
        yield f"losses_{ranks}_{spares}_{kills}", losing(ranks, spares, kills), DONE

    # Calls, one after another: barriers alone, and all kinds in turn.
    for ranks, turns in ((4, 500), (16, 500), (16, 2_000)):
        yield f"barriers_{ranks}_{turns}", meeting(ranks, turns), DONE
    yield "calls_16_100", calling(16, 100, 0, 0), DONE
    yield "calls_8_400_losses", calling(8, 400, 8, 8), DONE

    # What is read alone: 17 ranks are refused at the second line.
    opened, closed = "when initial\n" * 64, "endwhen\n" * 64
    signs = (LONGEST_LINE - len("let a 1")) // len("+ 1 ")
    kinds = {
        "prints": ("print a\n", "", ""),
        "blocks_opened_and_closed": (opened + closed, "", ""),
        "within_64_open_blocks": ("print a\n", opened, closed),
        "long_comments": ("#" + " x" * 511 + "x\n", "", ""),
        "long_lines_of_spaces": (padded("print a"), "", ""),
        "ranges_of_16_pairs": (padded("store 0 0 ranges" + " -9223372036854775808 9223372036854775807" * 16), "", ""),
        "signs_first": ("let a" + " +" * signs + " 1" * (signs + 1) + "\n", "", ""),
        "signs_between": ("let a" + " + 1" * signs + " 1\n", "", ""),
    }
    for name, (piece, before, behind) in kinds.items():
        for label, size in (("100kb", 102_400), ("1mb", LONGEST_JOB)):
            yield f"read_{name}_{label}", filled(size, HEAD.format(17, 1) + before, piece, behind + TAIL), REFUSED

    # What is checked to its end.
    names = "".join(f"array a{k} 256\n" for k in range(8)) + "".join(f"counter c{k}\n" for k in range(16))
    groups = "".join(f"group {g} 0 0\n" for g in range(8))
    members = "".join(f"member {g} {m} a7\n" for g in range(8) for m in range(8))
    start = "fenix 1\nranks 1\nspares 0\nseparation 1\n" + names + "begin\n" + groups + members
    opened, closed = "if lt c15 c14\n" * 8, "endif\n" * 8
    kinds = {
        "prints": "print a7\n",
        "blocks": opened + closed,
        "names": "let a7" + " +" * 150 + " a7" * 151 + "\n",
        "groups": "set c15" + " + latest 7" * 60 + " 1\n",
        "commits": "commit 7\n",
        "members": "member 7 7 a7\n",
        "strided": "store 7 7 strided 128 0 0 2\n",
        "ranges": "store 7 7 ranges" + " 0 255 9 9" * 8 + "\n",
    }
    for name, piece in kinds.items():
        for label, size in (("100kb", 102_400), ("1mb", LONGEST_JOB)):
            text = filled(size, start, piece, TAIL)
            yield f"check_{name}_{label}", text, checked(text)
    # An unknown group in front of all that could create it.
    for label, size in (("100kb", 102_400), ("1mb", LONGEST_JOB)):
        yield f"check_unknown_{label}", filled(size, start + "commit 9\n", "group 8 0 0\n", TAIL), REFUSED
    yield "check_events_700kb", start + "end\nschedule\n" + "step 0\n" * 100_000 + "stop\n", DONE
    yield "check_wide_prints_1mb", job(1, 1, ("print" + " " * 45 + "a\n") * 20_000), DONE


def main():
    for name, text, status in jobs():
        assert len(text) <= LONGEST_JOB, name
        assert all(len(line) <= LONGEST_LINE for line in text.splitlines()), name
        for ending, content in ((".job", text), (".status", f"{status}\n")):
            with open(os.path.join(sys.argv[1], name + ending), "w", encoding="ascii") as file:
                file.write(content)


main()
