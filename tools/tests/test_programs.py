"""The C examples: built anew they are the files that stand there, and the C library links and runs."""

import re
import shutil
import subprocess

import pytest

COMPILER = "riscv64-unknown-elf-gcc"
PLAIN_4 = ("cores = 1", "cores = 4")

pytestmark = pytest.mark.skipif(shutil.which(COMPILER) is None, reason=f"there is no {COMPILER}")


def make(folder, *words):
    return subprocess.run(["make", *words], cwd=folder, capture_output=True, text=True, timeout=120, check=False)


@pytest.fixture(scope="module")
def folder(repository, tmp_path_factory):
    """A copy of the examples without what was built there."""
    copy = tmp_path_factory.mktemp("examples")
    for name in ("c", "sweeps"):
        shutil.copytree(repository / "examples" / name, copy / name, ignore=shutil.ignore_patterns("*.elf", "*.o", "*.a"))
    return copy / "c"


def compiler_version():
    return subprocess.run([COMPILER, "-dumpfullversion"], capture_output=True, text=True, check=True).stdout.strip()


@pytest.mark.skipif(
    shutil.which(COMPILER) is not None and compiler_version() != "12.2.0", reason="the compiler is another one"
)
@pytest.mark.parametrize("name", ["c", "sweeps"])
def test_what_is_built_is_what_stands_there(folder, repository, name):
    ended = make(folder.parent / name)
    assert ended.returncode == 0 and "warning" not in ended.stderr, ended.stderr
    built = sorted(path.name for path in (folder.parent / name).glob("*.elf"))
    assert built == sorted(path.name for path in (repository / "examples" / name).glob("*.elf"))
    for file in built:
        stored = (repository / "examples" / name / file).read_bytes()
        assert (folder.parent / name / file).read_bytes() == stored, file


def test_the_library_links_where_it_is_used(folder):
    ended = make(folder, "means.elf", "hello.elf")
    assert ended.returncode == 0 and ended.stderr == ""
    assert (folder / "means.elf").stat().st_size > 10 * (folder / "hello.elf").stat().st_size


def test_the_library_runs_on_several_cores(folder, built_zsim, repository, tmp_path):
    """Doubles, printf, malloc, and errno: each core prints the mean of a list of its own, and exits with 0."""
    assert make(folder, "means.elf", "CORES=4").returncode == 0
    (tmp_path / "four.toml").write_text((repository / "tools/zsim_tools/plain.toml").read_text().replace(*PLAIN_4))
    words = [built_zsim, "run", tmp_path / "four.toml", folder / "means.elf", "--workers", "2"]
    ended = subprocess.run(words, capture_output=True, text=True, timeout=120, check=True)
    consoles = re.findall(r'(?m)^core [0-9] console [0-9]+ "(.*)\\x0a"$', ended.stdout)
    assert consoles == [
        "core 0 of 4: the mean of 4 numbers is 0.625",
        "core 1 of 4: the mean of 5 numbers is 0.750",
        "core 2 of 4: the mean of 6 numbers is 0.875",
        "core 3 of 4: the mean of 7 numbers is 1.000",
    ]
    assert re.findall("halt (.*)", ended.stdout) == ["exit 0"] * 4


@pytest.mark.parametrize(
    "words, fits",
    [
        ("CORES=16", True),
        ("CORES=255", False),
        ("CORES=64 STACK=65600 MEMORY=0x8000000", True),
        ("CORES=64 STACK=65600", False),
        ("MEMORY=0x1000", False),
    ],
)
def test_the_stacks_of_so_many_cores_are_checked(folder, words, fits):
    assert make(folder, "hello.elf").returncode == 0
    # (also where the program is there already)
    ended = make(folder, "hello.elf", *words.split())
    assert (ended.returncode == 0) == fits
    assert fits or "the program reaches into the stacks" in ended.stderr


DEEP = """\
#include "cores.h"

static uint64_t deep(uint64_t depth)
{
    volatile char bytes[256];
    for (int i = 0; i < 256; i++)
        bytes[i] = 1;
    return depth == 0 ? 0 : deep(depth - 1) + (uint64_t)bytes[0];
}

int main(long core, long cores)
{
    (void)cores;
    deep(DEPTH);
    print_number(stack_left(core));
    return 0;
}
"""


@pytest.mark.parametrize("depth, least, most", [(0, 3000, 3900), (9, 600, 1600), (30, 0, 0)])
def test_how_much_of_a_stack_is_left(folder, built_zsim, tmp_path, depth, least, most):
    (folder / "deep.c").write_text(f"#define DEPTH {depth}\n{DEEP}")
    assert make(folder, "deep.elf").returncode == 0
    words = [built_zsim, "run", "plain", folder / "deep.elf"]
    ended = subprocess.run(words, capture_output=True, text=True, timeout=120, check=True)
    assert least <= int(re.search(r'console [0-9]+ "([0-9]*)"', ended.stdout)[1]) <= most, ended.stdout


def test_what_has_storage_of_its_own_alone_says_what_it_needs(folder):
    main = 'int main(void) { static char a[] = "a b"; return !strtok(a, " "); }'
    (folder / "words.c").write_text(f"#include <string.h>\n{main}\n")
    ended = make(folder, "words.elf")
    assert ended.returncode != 0 and "thread-local storage needs LIBRARY=1" in ended.stderr
    assert make(folder, "words.elf", "LIBRARY=1").returncode == 0
