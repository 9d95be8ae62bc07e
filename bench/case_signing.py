"""What the scripts that write cases share: the module `sign-cases.py`, whose name is no name of Python."""

import importlib.util
import os


def load_signing():
    path = os.path.join(os.path.dirname(os.path.abspath(__file__)), "sign-cases.py")
    spec = importlib.util.spec_from_file_location("sign_cases", path)
    module = importlib.util.module_from_spec(spec)
    spec.loader.exec_module(module)
    return module
