"""How the cost grows: the same table over larger and larger flashes, each with as many rows as are always kept."""
import pathlib
import shutil
import subprocess

import works
from contenders import flashts, inside

SIZES, PAGE, GETS = (576, 4_096, 16_384, 65_536), 1_024, 20_000  # 65,536 pages are the most that a configuration may have
COUNTER = pathlib.Path(__file__).resolve().parent.parent / "checks" / "refuse.c"


def on_flash(pages):
    """A configuration that fills a flash of so many pages, and the rows that it always keeps."""
    index = works.blocks_for(pages // works.bitmaps_a_page(PAGE) + 1)
    data = pages // works.BLOCK - index
    return works.configuration(data, index, PAGE), works.rows_a_page(PAGE) * ((data - 1) * works.BLOCK - 1)


def works_on(pages):
    """The works over a flash of so many pages, by the column of the table."""
    configuration, rows = on_flash(pages)
    begin = (configuration, "mount")
    load = works.Work(f"load of {rows} rows", works.script(*begin, *works.loads(rows), "flush t"))
    lines = {"mount": [], "get": [f"get t {1 + i * 7_919 % rows}" for i in range(GETS)], "print": [f"scan t 0 {rows}"]}
    return {"load": load} | {name: works.Work(f"{name}, {rows} rows", works.script(*begin, *of), start=load) for name, of in lines.items()}


def memory(program, folder, work):
    """The most bytes of memory that a run holds, counted by checks/refuse.c; None if they can't be counted."""
    if not shutil.which("cc"):
        return None
    library, told = folder.path / "refuse.so", folder.path / "told"
    if not library.exists():
        subprocess.run(["cc", "-O2", "-shared", "-fPIC", "-o", library, COUNTER, "-ldl"], check=True)
    counted = inside("sh", ("-c", f'LD_PRELOAD={library} REFUSE=0 "$0" "$@" 9> {told}'), program)
    folder.execute(counted, work, folder.made_by(flashts(program), work.start), subprocess.DEVNULL)
    return int(told.read_text().split()[1]) or None


def figures(pages, rows, micros, held):
    """The figures of one flash: the times of gets and prints are those beside the mount before them."""
    yield from (f"{rows:,}", f"{pages:,}", f"{micros['load'] / rows:.3f}", f"{micros['mount'] / pages:.3f}")
    yield f"{(micros['get'] - micros['mount']) / GETS:.2f}"
    yield f"{(micros['print'] - micros['mount']) / rows:.3f}"
    yield from ("", "") if held is None else (f"{held:,}", f"{held / pages:.1f}")


def table(program, folder, most, turns):
    """A row for each flash whose rows are at most so many, and for the smallest."""
    sizes = [pages for pages in SIZES if most is None or on_flash(pages)[1] <= most] or SIZES[:1]
    of_size = {pages: works_on(pages) for pages in sizes}
    least = folder.least_seconds([flashts(program)], [work for each in of_size.values() for work in each.values()], turns)
    yield "| Rows | pages | load, µs a row | mount, µs a page | get, µs | print, µs a row | memory, bytes | of it a page |"
    yield "|---|---|---|---|---|---|---|---|"
    for pages, each in of_size.items():
        micros = {name: 1e6 * least[work.name, "flashts"] for name, work in each.items()}
        yield f"| {' | '.join(figures(pages, on_flash(pages)[1], micros, memory(program, folder, each['get'])))} |"
