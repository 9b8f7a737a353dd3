"""Compiles the catalogues of messages while the package is built."""
from pathlib import Path

from babel.messages.mofile import write_mo
from babel.messages.pofile import read_po
from setuptools import setup
from setuptools.command.build_py import build_py


class BuildWithCatalogues(build_py):
    """Puts a compiled catalogue beside each one of the package that is built."""

    def run(self):
        super().run()
        for source in Path(self.build_lib).glob("oldstyle_web/locale/*/LC_MESSAGES/*.po"):
            with source.open("rb") as text, source.with_suffix(".mo").open("wb") as made:
                write_mo(made, read_po(text))


setup(cmdclass={"build_py": BuildWithCatalogues})
