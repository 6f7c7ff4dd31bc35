"""Scripts that end anywhere."""
from runs import require_ended
from scripts import LINES, SCRIPT, of_cut_line


def a_script_is_cut_after_each_byte(programs):
    """The whole lines print what they print. What is left of the last line is run if it lacks no word; otherwise the
    script ends there, with the number of that line."""
    for cut in range(len(SCRIPT) + 1):
        given = SCRIPT[:cut]
        count = given.count("\n")
        prints, told = of_cut_line(count, given.rpartition("\n")[2])
        before = "".join(prints for _, prints in LINES[:count])
        run = programs.plain(given.encode())
        require_ended(run, 1 if told else 0, before + prints, told, f"a script of {cut} bytes")
    return f"{len(SCRIPT) + 1} cuts, and each line that is whole has run"
