"""Two runs of the program over one table at once, for bench/hostile."""
import collections
import time

from forms import get

# The form that writes the file NEW, and the one that goes on beside it over the same file.
PAIRS = [("compile", "compile"), ("compile", "migrate"), ("compile", "check"), ("migrate", "migrate"), ("migrate", "check"), ("compile", "audit")]
TIMES = 20
# The codes with which each of the two may end: a table that is being written is none yet.
CODES = {"compile": {0, 7}, "migrate": {0, 7}, "check": {0, 5}, "audit": {0, 1, 5}}


def both(outside, first, second):
    """Runs two forms at once many times, the second begun at moments of the first. The form that counts, what was tried, the codes of both,
    and what was not as promised: a code, or a table that `check` neither accepts nor refuses afterwards."""
    files = outside.long_files()
    begin = time.perf_counter()
    outside.run(first, files)
    wall = time.perf_counter() - begin
    codes, faults = collections.Counter(), []
    for number in range(TIMES):
        outside.put_files(files)
        words = {} if second in ("compile", "migrate") else {"TABLE": "new"}
        with outside.start(first) as one:
            time.sleep(wall * number / TIMES)
            with outside.start(second, words) as other:
                ended = [(form, run.communicate()[1], run.returncode) for form, run in ((first, one), (second, other))]
        for form, error, code in ended:
            codes[code] += 1
            if code not in CODES[form]:
                faults.append(f"beside {second}, {number} of {TIMES}: {form} ended with code {code} and {error[:80]}")
        left = outside.run("check", files | {"TABLE": get(outside.path("new"))})
        if left.code != 0 and not (left.code == 5 and left.error.startswith(b"acas: table refused: ")):
            faults.append(f"beside {second}, {number} of {TIMES}: check ends with code {left.code} and {left.error[:80]} afterwards")
    return first, f"{second} at once", codes, faults
