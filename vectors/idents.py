"""Prints the identifiers of a manifest's stages as `inspect` does, by hashlib and json alone, or compares them.

Usage: python3 vectors/idents.py MANIFEST [INSPECTED]

With INSPECTED, a file of what `inspect` printed, it ends with status 1 and the first line that differs.
"""

import hashlib
import json
import sys

TREE = ("org.osbuild.tree", "org.osbuild.pipeline")


def digest(*parts):
    """The SHA-256 of what json.dumps gives of each part, joined."""
    joined = "".join(json.dumps(part, sort_keys=True) for part in parts)
    return hashlib.sha256(joined.encode()).hexdigest()


def references(given):
    """A map from reference to options."""
    if isinstance(given, dict):
        return given
    return dict((item, {}) if isinstance(item, str) else (item["id"], item.get("options", {})) for item in given)


def of_name(pipelines, reference):
    """The identifier of the pipeline that `name:X` refers to, or None where it has no stages."""
    ids = pipelines[reference.removeprefix("name:")]
    return ids[-1] if ids else None


def input_id(pipelines, given):
    referred = references(given["references"])
    if (given["type"], given["origin"]) == TREE:
        referred = {of_name(pipelines, name): options for name, options in referred.items()}
    return digest(given["type"], given["origin"], referred, {})


def stage_id(pipelines, build, before, stage):
    parts = [stage["type"], build, before, stage.get("options", {})]
    inputs = stage.get("inputs", {})
    if inputs:
        parts.append({name: input_id(pipelines, given) for name, given in inputs.items()})
    return digest(*parts)


def manifest_ids(manifest):
    """The identifiers by the pipelines' names."""
    pipelines = {}
    for pipeline in manifest.get("pipelines", []):
        build = of_name(pipelines, pipeline["build"]) if "build" in pipeline else None
        ids = []
        for stage in pipeline.get("stages", []):
            ids.append(stage_id(pipelines, build, ids[-1] if ids else None, stage))
        pipelines[pipeline["name"]] = ids
    return pipelines


def lines(manifest):
    for name, ids in manifest_ids(manifest).items():
        if not ids:
            yield f"{name} - null"
        for place, one in enumerate(ids):
            yield f"{name} {place} {one}"


def main(arguments):
    with open(arguments[0], encoding="utf-8") as file:
        wanted = list(lines(json.load(file)))
    if len(arguments) == 1:
        print("\n".join(wanted))
        return 0
    with open(arguments[1], encoding="utf-8") as file:
        found = file.read().split("\n")[:-1]
    for place, line in enumerate(wanted + [None] * (len(found) - len(wanted))):
        other = found[place] if place < len(found) else None
        if line != other:
            print(f"line {place + 1}: wanted {line!r}, found {other!r}")
            return 1
    print(f"{len(wanted)} lines are the same")
    return 0


if __name__ == "__main__":
    sys.exit(main(sys.argv[1:]))
