"""Makes a wheel of the followers for pip, as bindings/python/backend.py makes that of the package changecap.

That package is not among what it requires, so that no registry is asked for one of its name: install it
first.
"""
import importlib.util
import os

HERE = os.path.dirname(os.path.abspath(__file__))
SCRIPTS = """[console_scripts]
changecap-publish = changecap_followers.publish:main
changecap-follow = changecap_followers.follow:main
"""


def build_wheel(wheel_directory, config_settings=None, metadata_directory=None):
    """Writes the wheel and answers its name, as PEP 517 has it."""
    spec = importlib.util.spec_from_file_location("wheels", f"{HERE}/../bindings/python/backend.py")
    wheels = importlib.util.module_from_spec(spec)
    spec.loader.exec_module(wheels)
    files, package = {}, f"{HERE}/src/changecap_followers"
    for name in sorted(os.listdir(package)):
        if name.endswith((".py", "py.typed")):
            with open(f"{package}/{name}", "rb") as file:
                files[f"changecap_followers/{name}"] = file.read()
    return wheels.write_wheel(wheel_directory, "changecap_followers", "py3-none-any", files,
                              "Requires-Dist: redis >=4.3\n", {"entry_points.txt": SCRIPTS.encode()})
