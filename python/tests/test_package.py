"""The package: installed by pip without the network, and one version everywhere."""

import ast
import importlib.util
import os
import re
import shutil
import subprocess
import sys
import sysconfig
import tarfile
import tempfile
import unittest
import zipfile
from pathlib import Path
from unittest import mock

import bahrufaz
from bahrufaz import library
from bahrufaz.numbers import sentence

from .worlds import CHECKOUT, PATTERN_A, SMALL

HAS_PIP = importlib.util.find_spec("pip") is not None


def installed(source: Path, directory: str) -> None:
    """Installs by pip, without the network, into the directory."""
    options = "--quiet --no-index --no-build-isolation --no-deps --no-warn-script-location".split()
    done = subprocess.run(
        [sys.executable, "-m", "pip", "install", *options, "--target", directory, str(source)],
        capture_output=True,
        text=True,
        check=False,
    )
    if done.returncode:
        raise AssertionError(done.stderr)


def run_installed(directory: str, *arguments: str) -> subprocess.CompletedProcess:
    """Runs the command that is installed there, with nothing of the checkout."""
    return subprocess.run(
        [str(Path(directory) / "bin" / "bahrufaz"), *arguments],
        env={"PYTHONPATH": directory, "PATH": os.environ["PATH"]},
        cwd=directory,
        capture_output=True,
        text=True,
        check=False,
    )


def sources_alone(directory: str) -> Path:
    """A copy of what the package is made from, in a checkout without a library."""
    copy = Path(directory) / "checkout" / "python"
    return shutil.copytree(CHECKOUT / "python", copy, ignore=shutil.ignore_patterns("__pycache__"))


def backend_of(package: Path):
    """The backend of a copy, as pip loads it."""
    spec = importlib.util.spec_from_file_location("backend", package / "backend.py")
    module = importlib.util.module_from_spec(spec)
    spec.loader.exec_module(module)
    return module


@unittest.skipUnless(HAS_PIP, "pip is not installed")
class Installed(unittest.TestCase):
    def test_pip_installs_it_offline_with_its_library_and_the_command_runs(self):
        with tempfile.TemporaryDirectory() as directory:
            installed(CHECKOUT / "python", directory)
            found = {path.name for path in (Path(directory) / "bahrufaz").iterdir()} - {"__pycache__"}
            ours = {path.name for path in (CHECKOUT / "python" / "bahrufaz").iterdir()} - {"__pycache__"}
            self.assertEqual(found, ours | {"libbahrufaz.so"})
            carried = Path(directory).resolve() / "bahrufaz" / "libbahrufaz.so"
            told = run_installed(directory, "--version")
            self.assertEqual(told.stdout.splitlines()[1:], [f"library: {carried}"])
            done = run_installed(directory, "show", str(SMALL))
        self.assertEqual((done.returncode, done.stderr), (0, ""))
        self.assertIn("432 bytes", done.stdout)


class Wheels(unittest.TestCase):
    def test_a_wheel_with_the_library_is_for_this_platform(self):
        with tempfile.TemporaryDirectory() as directory:
            name = backend_of(CHECKOUT / "python").build_wheel(directory)
            platform = re.sub("[-.]", "_", sysconfig.get_platform())
            self.assertEqual(name, f"bahrufaz-{bahrufaz.__version__}-py3-none-{platform}.whl")
            with zipfile.ZipFile(Path(directory) / name) as wheel:
                self.assertEqual(wheel.read("bahrufaz/libbahrufaz.so"), library.checkout_library().read_bytes())

    def test_a_wheel_without_one_is_for_any(self):
        with tempfile.TemporaryDirectory() as directory:
            name = backend_of(sources_alone(directory)).build_wheel(directory)
            self.assertEqual(name, f"bahrufaz-{bahrufaz.__version__}-py3-none-any.whl")

    def test_packed_sources_give_the_same_package(self):
        with tempfile.TemporaryDirectory() as directory:
            package = sources_alone(directory)
            with tarfile.open(Path(directory) / backend_of(package).build_sdist(directory)) as packed:
                packed.extractall(directory)
            records = []
            for source in (package, Path(directory) / f"bahrufaz-{bahrufaz.__version__}"):
                name = backend_of(source).build_wheel(directory)
                with zipfile.ZipFile(Path(directory) / name) as wheel:
                    records.append(wheel.read(f"bahrufaz-{bahrufaz.__version__}.dist-info/RECORD"))
            self.assertEqual(*records)


class Sentences(unittest.TestCase):
    def test_a_number_says_the_same_everywhere(self):
        files = ["include/bahrufaz.h", "rust/src/number.rs"]
        for file in files:
            # without line breaks, comment stars, and the quotes where a string goes on
            text = re.sub(r'"\s+"|\s*\n[ *]*', " ", (CHECKOUT / file).read_text()).replace("  ", " ")
            for number in range(1, 12):
                self.assertIn(sentence("list", number), text, file)
            self.assertIn(sentence("admit", 5), text, file)
            self.assertIn("also g or e not 0", text, file)
        self.assertTrue(sentence("build", 1).endswith("also g or e not 0"))


class Boundary(unittest.TestCase):
    def test_the_upper_half_of_matches_is_the_result_that_the_header_says(self):
        header = (CHECKOUT / "include" / "bahrufaz.h").read_text()
        place = re.search(r"BAHRUFAZ_LIST_MATCHES_UPPER = (\d+)", header)[1]
        self.assertEqual(bahrufaz.library.UPPER_MATCHES, int(place))


class Names(unittest.TestCase):
    def test_every_name_is_there_and_told_to_type_checkers(self):
        for name in bahrufaz.__all__:
            self.assertIsNotNone(getattr(bahrufaz, name))
            self.assertIn(name, dir(bahrufaz))
        with self.assertRaises(AttributeError):
            bahrufaz.nothing
        script = "import bahrufaz; bahrufaz.library.find"
        subprocess.run([sys.executable, "-c", script], env={"PYTHONPATH": str(CHECKOUT / "python")}, check=True)
        text = (CHECKOUT / "python" / "bahrufaz" / "__init__.py").read_text()
        imported = re.search(r"^if TYPE_CHECKING:\n((?:    .*\n)+)", text, re.MULTILINE)[1]
        told = [name.split(" as ")[-1] for line in imported.splitlines() for name in line.split(" import ")[1].split(", ")]
        self.assertEqual(sorted(told), bahrufaz.__all__)


class Modules(unittest.TestCase):
    def test_no_two_modules_import_each_other(self):
        wants = {path.stem: imported(path) for path in (CHECKOUT / "python" / "bahrufaz").glob("*.py")}
        wants = {name: modules & wants.keys() for name, modules in wants.items() if not name.startswith("__")}
        self.assertIn("feed", wants["graph"])
        while wants:  # the modules that want none of those left are taken away, until none is left
            free = {name for name, modules in wants.items() if not modules & wants.keys()}
            self.assertTrue(free, f"these import each other: {sorted(wants)}")
            wants = {name: modules for name, modules in wants.items() if name not in free}

    def test_types_are_told(self):
        self.assertTrue((CHECKOUT / "python" / "bahrufaz" / "py.typed").exists())


def imported(path: Path) -> set[str]:
    """The modules beside it that a module imports, for type checking too."""
    found = set()
    for node in ast.walk(ast.parse(path.read_text(encoding="utf-8"))):
        if isinstance(node, ast.ImportFrom) and node.level == 1:
            found |= {node.module} if node.module else {name.name for name in node.names}
    return found


class Notebooks(unittest.TestCase):
    def setUp(self):
        self.store, self.pattern = bahrufaz.Graph.read(SMALL).build(), bahrufaz.Pattern.read(PATTERN_A)

    def test_tables(self):
        listing = bahrufaz.list(self.store, self.pattern)
        self.assertIn("<td>german</td><td>comma</td><td>weight</td><td>feeding</td>", listing._repr_html_())
        self.assertIn("<td>locale -&gt; format at most 1</td>", bahrufaz.plan(self.store, self.pattern)._repr_html_())
        self.assertIn("<td>locale</td><td>format</td>", self.store._repr_html_())

    def test_a_long_listing_is_cut(self):
        graph = bahrufaz.Graph()
        for _ in range(60):
            graph.add_node(None, 1)
        graph.add_constraint([], 1, 60)
        pattern = bahrufaz.Pattern()
        pattern.add_node("<b>", 1)
        told = bahrufaz.list(graph.build(), pattern)._repr_html_()
        self.assertEqual(told.count("<tr>"), 51)
        self.assertIn("<p>10 more</p>", told)
        self.assertIn("&lt;b&gt;", told)

    def test_pictures(self):
        drawn = bahrufaz.draw_matches(bahrufaz.list(self.store, self.pattern))
        if shutil.which("dot"):
            self.assertIn("<svg", drawn._repr_svg_())
        with mock.patch("shutil.which", return_value=None):
            self.assertIsNone(drawn._repr_svg_())

    def test_reprs(self):
        told = [bahrufaz.Graph.read(SMALL), self.store, self.pattern, self.store.names]
        told += [bahrufaz.plan(self.store, self.pattern), bahrufaz.list(self.store, self.pattern), bahrufaz.draw_pattern(self.pattern)]
        self.assertEqual(
            [repr(one) for one in told],
            [
                "<Graph: 7 nodes, 6 edges, 4 constraints>",
                "<AdmittedStore: 7 nodes, 6 edges, 4 constraints, 7 groups, 8 entries, 432 bytes>",
                "<Pattern of 4 nodes and 3 edges: Pattern A: the fields that use a format of locale 2, with the screens they stand on.>",
                "<Names of 4 labels and 7 nodes>",
                "<Plan: T = 38, 7 steps>",
                "<Listing: 1 matches, 8 entries read of at most 38>",
                "<Picture: the pattern>",
            ],
        )


class Versions(unittest.TestCase):
    def test_one_version_everywhere(self):
        version = (CHECKOUT / "VERSION").read_text().strip()
        self.assertEqual(bahrufaz.__version__, version)
        for file, form in {
            "rust/Cargo.toml": r'^version = "(.*)"$',
            "rust/Cargo.lock": r'^name = "bahrufaz"\nversion = "(.*)"$',
            "include/bahrufaz.h": r'^#define BAHRUFAZ_VERSION "(.*)"$',
        }.items():
            found = re.search(form, (CHECKOUT / file).read_text(), re.MULTILINE)
            self.assertIsNotNone(found, file)
            self.assertEqual(found[1], version, file)
