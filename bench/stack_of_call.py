"""Run by gdb: how many bytes of stack a function of a program touches, the most of all calls but the first.

$function is its name, $input what the program reads. Below the first call's stack all that is mapped is painted before each later call, and what
is left of the paint is counted; the first call is left alone, so that its stack is mapped."""
import gdb

PAINT = 0xA5


def lowest(pid):
    """Where the part of the stack that is mapped begins."""
    with open(f"/proc/{pid}/maps") as maps:
        line = next(line for line in maps if line.rstrip().endswith("[stack]"))
    return int(line.split("-")[0], 16)


def touched(inferior):
    """The bytes below the stack pointer that the call touches, at whose first instruction the program stands."""
    top = int(gdb.parse_and_eval("(unsigned long)$rsp"))
    low = lowest(inferior.pid)
    inferior.write_memory(low, bytes([PAINT]) * (top - low))
    back = int(gdb.parse_and_eval("*(unsigned long *)$rsp"))
    gdb.execute(f"tbreak *{back}", to_string=True)
    gdb.execute("continue", to_string=True)
    left = bytes(inferior.read_memory(low, top - low))
    return len(left.lstrip(bytes([PAINT]))) if lowest(inferior.pid) == low else 0


def main():
    function = gdb.parse_and_eval("$function").string()
    given = gdb.parse_and_eval("$input").string()
    gdb.execute("set confirm off")
    gdb.execute(f"starti <{given} >/dev/null", to_string=True)
    at = int(gdb.parse_and_eval(f"(unsigned long)&'{function}'"))
    gdb.execute(f"break *{at}", to_string=True)
    inferior = gdb.selected_inferior()
    gdb.execute("continue", to_string=True)
    gdb.execute("continue", to_string=True)
    most = 0
    while inferior.pid:
        most = max(most, touched(inferior))
        gdb.execute("continue", to_string=True)
    print(most)


main()
