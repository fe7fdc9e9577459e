"""What the benches judge, of few numbers: bench/NAME takes many, and times them. A fault has its number, with which the
bench shows it."""

import importlib.util
import os
import shutil
from importlib.machinery import SourceFileLoader

import pytest
from lpis_helpers import damage
from lpis_helpers.places import TOP

import common
import stop_cases


def bench(name):
    loader = SourceFileLoader(f"bench_{name}", os.path.join(TOP, "bench", name))
    module = importlib.util.module_from_spec(importlib.util.spec_from_loader(loader.name, loader))
    loader.exec_module(module)
    return module


nasty, exact, country, publish_country = map(bench, ("nasty", "exact", "country", "publish_country"))
beside_check, stops = bench("beside_check"), bench("stops")


@pytest.fixture(name="built", scope="module")
def built_programs(tmp_path_factory):
    """Makes a program in C++ of bench/, once."""
    folder, made = tmp_path_factory.mktemp("built"), {}

    def built(name):
        if not shutil.which("g++"):
            pytest.skip("there is no g++ (Debian: g++)")
        if name not in made:
            made[name] = common.compiled(folder, name)
        return made[name]

    return built


@pytest.mark.parametrize("number", range(40))
def test_nasty(number, tmp_path):
    """A release of nasty shapes is cut, or refused with a fault that is there."""
    *_, fault = nasty.judge(number, tmp_path)
    assert not fault, fault


@pytest.mark.parametrize("number", range(exact.FEW))
def test_exact(number):
    """Two years with marked rows."""
    *_, faults = exact.judged(number)
    assert not faults, faults


@pytest.mark.parametrize("number", range(publish_country.FEW))
def test_publish_country(number):
    """A country through three years, with planted faults."""
    _, faults = publish_country.judged_country(number)
    assert not faults, faults


class TestCountries:
    """A country's line has its counts and a yes, and is that of its source by the tools."""

    @pytest.mark.parametrize("size", country.FEW[1:])
    def test_sizes(self, built, size, tmp_path):
        assert country.Country(built("make_country"), size, country.MOST_FEW, tmp_path / "country").is_right

    def test_by_tools(self, built, tmp_path):
        source, size = tmp_path / "source", country.FEW[0]
        first = country.Country(built("make_country"), size, country.MOST_FEW, tmp_path / "country", source)
        is_right, line = country.by_tools(source, country.MOST_FEW // 4, tmp_path / "split", first)
        assert first.is_right and is_right, line


class TestBeside:
    """The checker in C++ says what `lpis check` says."""

    def test_codes(self, built, tmp_path):
        """Damaged certificates have the same code, and each condition refuses some."""
        answers = common.Answers()
        beside_check.compare_codes(built("beside_check"), tmp_path / "small", answers)
        assert answers.passed > len(damage.CONDITIONS) and not answers.failed, answers.lines

    @pytest.mark.parametrize("size", (beside_check.FEW[0] // 10, *beside_check.FEW))
    def test_reports(self, built, tmp_path, size):
        """The reports are the same; where it only reads the last line is not there. No certificate makes none other."""
        folder = tmp_path / "release"
        common.certified(size, folder)
        words = [folder, folder / common.CERT]
        ours = common.answer([common.lpis(), "check", *words])
        assert ours == common.answer([built("beside_check"), *words]) and ours[0] == 0
        assert ours[1] == f"{common.answer([built('beside_check'), *words, 'read'])[1]}yes\n"
        assert ours[1] == common.answer([common.lpis(), "check", folder])[1]


class TestStops:
    """Openings and publishes that are stopped at each call leave the register as before or whole."""

    @pytest.fixture(name="cases", scope="class")
    def small_cases(self, tmp_path_factory):
        return stop_cases.small_cases(tmp_path_factory.mktemp("cases"))

    @pytest.fixture(name="library", scope="class")
    def stopping_library(self, preloaded):
        return str(preloaded(stops.SOURCE))

    @pytest.mark.parametrize("number", range(stop_cases.SMALL))
    def test_each_call(self, cases, library, number):
        assert len(cases) == stop_cases.SMALL
        lefts = [left for job in stops.jobs(cases[number], library)[1] for left in stops.stopped(job)]
        assert lefts and not [(stop, left) for stop, left in lefts if left not in ("before", "after")]
