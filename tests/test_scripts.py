"""The scripts of the repository, as bash and shellcheck read them."""

import shutil
import subprocess

import pytest
from conftest import TOP


SCRIPTS = ["check", "ctm", "ctm-wait", "ctm-tools", "launcher/path", "launcher/stack", "launcher/check_proofs", "launcher/check_small_proof", "launcher/check_handles",
           "launcher/words", "launcher/waiting", "launcher/commit", "launcher/current",
           "launcher/having", "launcher/install", "launcher/try", "launcher/installed/ctm", "launcher/installed/ctm-wait",
           "launcher/installed/ctm-tools", "packaging/debian/postinst", "packaging/debian/prerm",
           "tests/fake_rt", "tests/fake_rattle", "tests/program", "tests/launcher", "examples/check", "tools/check", "tools/find-python",
           "tools/documents", "docs/site", "tools/package", "tools/pictures", "tools/setup", ".ci/run", "bench/installed", "bench/fuzz",
           "tests/fuzz"]


@pytest.mark.parametrize("script", SCRIPTS)
def test_bash_reads_each_script(script):
    subprocess.run(["bash", "-n", script], cwd=TOP, check=True)


@pytest.mark.skipif(not shutil.which("shellcheck"), reason="shellcheck isn't installed")
@pytest.mark.parametrize("script", SCRIPTS)
def test_shellcheck_finds_nothing(script):
    subprocess.run(["shellcheck", "-x", script], cwd=TOP, check=True)
