"""Too little address space: want of memory is told, or the answer is whole."""

from .program import FORMS, differs, refusal

# Above the least so many steps of one page, then steps of 2 percent up to 1 GiB.
PAGES, GROWTH, MOST = 128, 1.02, 2**20


def cases(program):
    for form in FORMS:
        yield f"{form.name}: ulimit -v upward", upward(program, form)


def limited(program, form, size):
    """How a run ends with so many KiB of address space."""
    return program.end(form.words, form.text, before=["bash", "-c", f'ulimit -v {size} && exec "$0" "$@"'])


def has_started(end):
    """Neither did the shell fail to run the program, nor the loader to load it."""
    return end[0] is not None and end[0] >= 0 and end[0] < 126


def least(program, form):
    """The least number of KiB, in whole pages, with which the program starts."""
    none, some = 0, 4 * 2**20
    while some - none > 4:
        middle = (none + some) // 8 * 4
        if has_started(limited(program, form, middle)):
            some = middle
        else:
            none = middle
    return some


def upward(program, form):
    def judge():
        want = form.want()
        first = least(program, form)
        sizes = [first + 4 * step for step in range(PAGES)]
        while sizes[-1] < MOST:
            sizes.append(int(sizes[-1] * GROWTH) // 4 * 4)
        for size in sizes:
            got = limited(program, form, size)
            wrong = refusal(want, got, 8, b"no memory\n")
            if wrong:
                return f"with {size} KiB: {wrong}"
        return differs(want, got)

    return judge
