"""Which files are not as `rt fmt` lays them out: `rt ci` refuses their crates, but only once it comes to them."""

import os
import tempfile
from concurrent.futures import ThreadPoolExecutor

from house import House, copy_tree, files_of, read_bytes, run_rt


def changed_by_layout(top, place, name):
    """The files of a crate in a copy that `rt fmt` changes there, and what it says where it fails."""
    status, lines, _ = run_rt(f"{place}/crates/{name}", "fmt")
    if status:
        return [f"crates/{name}: rt fmt: {' / '.join(lines[-2:])[:200]}"]
    files = [os.path.relpath(it, place) for it in files_of(f"{place}/crates/{name}")]
    return [f"{it} is not in the layout of rt fmt" for it in files if read_bytes(f"{place}/{it}") != read_bytes(f"{top}/{it}")]


def layout_faults(top, jobs):
    """What is not laid out, in words; nothing in the repository is changed."""
    with tempfile.TemporaryDirectory(prefix="aom-layout-", ignore_cleanup_errors=True) as place:
        copy_tree(top, place)
        with ThreadPoolExecutor(jobs) as pool:
            found = pool.map(lambda name: changed_by_layout(top, place, name), House(place).direct)
            return [fault for faults in found for fault in faults]
