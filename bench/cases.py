"""Cases of a file that ask `concretize`, and their files on the disk, for the scripts beside this one."""
import base64
import gzip
import json
import os


def cases_of(file):
    with (gzip.open if file.endswith(".gz") else open)(file, "rt") as lines:
        for line in lines:
            case = json.loads(line)
            if case["words"][0] == "concretize":
                yield case


def unpack(case, folder):
    for path, content in case["files"].items():
        target = os.path.join(folder, path)
        os.makedirs(os.path.dirname(target), exist_ok=True)
        with open(target, "wb") as file:
            file.write(base64.b64decode(content))
