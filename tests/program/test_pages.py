"""What looks at sources and pages finds nothing: what each holds is said in its docstring."""

import os
import re

import pytest
from lpis_helpers.calls import run
from lpis_helpers.places import TOP

LEFT_OUT = re.compile(r"(?m)^left out: .*")


@pytest.mark.parametrize("name", ("trust", "lint", "crates", "form"))
def test_pages(name):
    ended = run(os.path.join(TOP, "dev", name), cwd=TOP)
    assert ended.returncode == 0, ended.stdout + ended.stderr
    if left_out := LEFT_OUT.findall(ended.stdout):
        pytest.skip("; ".join(left_out))
