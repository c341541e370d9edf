"""The wheel is of one platform, since it holds a shared object, and of any Python 3, since nothing of it is compiled against one."""

from setuptools import setup
from setuptools.dist import Distribution
from wheel.bdist_wheel import bdist_wheel


class OfOnePlatform(Distribution):
    def has_ext_modules(self):
        return True


class OfAnyPython(bdist_wheel):
    def get_tag(self):
        return "py3", "none", super().get_tag()[2]


setup(distclass=OfOnePlatform, cmdclass={"bdist_wheel": OfAnyPython})
