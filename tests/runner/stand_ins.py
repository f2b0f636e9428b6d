"""Stand-ins for programs. Each does what the real one does, and one thing wrong."""
import dataclasses

from runner.texts import lines_of


def without_last_line(came):
    return dataclasses.replace(came, out=b"".join(lines_of(came.out)[:-1]))


def with_swapped_lines(came):
    """The last two lines that differ and lie side by side are swapped."""
    lines = lines_of(came.out)
    for at in range(len(lines) - 1, 0, -1):
        if lines[at] != lines[at - 1]:
            lines[at - 1 : at + 1] = lines[at], lines[at - 1]
            break
    return dataclasses.replace(came, out=b"".join(lines))


def with_status_0(came):
    return dataclasses.replace(came, status=0)


def with_errors_among_lines(came):
    return dataclasses.replace(came, out=came.out + came.err, err=b"")


def with_a_line_twice(came):
    return dataclasses.replace(came, out=b"".join(lines_of(came.out)[:1]) + came.out)


STAND_INS = {
    "drops the last line": without_last_line,
    "swaps two lines": with_swapped_lines,
    "ends with status 0": with_status_0,
    "writes errors to standard output": with_errors_among_lines,
    "writes a path twice": with_a_line_twice,
}


def says_nothing_of(row, stand_in):
    """Whether the row leaves open what the stand-in changes: lines beside the parts that it has, or their order."""
    if stand_in is with_status_0:
        return False
    return bool(row.out.parts) or (row.any_order and stand_in is with_swapped_lines)
