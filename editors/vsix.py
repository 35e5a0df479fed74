#!/usr/bin/env python3
"""Packs editors/vscode into a `.vsix`, which Visual Studio Code installs as an extension, and reads it back.

usage: vsix.py FILE

A `.vsix` is a zip with a list of content types, a manifest, and the extension's files in the folder `extension`. The
same files give the same bytes. After packing, FILE is read back: the manifest has to say what package.json says, each
file that one of them names has to be there, the grammar's patterns and the snippets have to be readable, and the
snippets have to be texts of PL/0 tokens. Prints what is wrong, and ends with status 1 where anything is.
"""
from __future__ import annotations

import json
import os
import re
import sys
import xml.etree.ElementTree
import zipfile
from collections.abc import Iterator
from xml.sax.saxutils import escape, quoteattr

TOP = os.path.realpath(os.path.join(os.path.dirname(__file__), ".."))
SOURCE = os.path.join(TOP, "editors", "vscode")
LEFT_OUT = ("launch.json",)  # a template for the user's own folder
LICENSE = "LICENSE.txt"
THE_FIRST_DAY = (1980, 1, 1, 0, 0, 0)
KINDS = {"js": "application/javascript", "json": "application/json", "md": "text/markdown", "txt": "text/plain",
         "vsixmanifest": "text/xml"}
MANIFEST, TYPES = "extension.vsixmanifest", "[Content_Types].xml"
MANIFEST_SPACE = "{http://schemas.microsoft.com/developer/vsx-schema/2011}"
TYPES_SPACE = "{http://schemas.openxmlformats.org/package/2006/content-types}"
PLACEHOLDER = re.compile(r"\$\{(\d+):([^}]*)\}|\$(\d+)|\$\{(\d+)\}")
TOKENS = re.compile(r"(?:\s+|[A-Za-z][A-Za-z0-9]*|[0-9]+|:=|<=|>=|[-+*/()=#<>,;.!])*")


def read(*path: str) -> bytes:
    with open(os.path.join(*path), "rb") as file:
        return file.read()


def extension() -> dict[str, bytes]:
    """The extension's files by their names in its folder."""
    found = {LICENSE: read(TOP, "LICENSE")}
    for folder, _, names in os.walk(SOURCE):
        for name in names:
            path = os.path.relpath(os.path.join(folder, name), SOURCE)
            if path not in LEFT_OUT:
                found[path] = read(folder, name)
    return found


def types() -> str:
    kinds = "".join(f'<Default Extension=".{end}" ContentType="{kind}"/>' for end, kind in KINDS.items())
    return f'<?xml version="1.0" encoding="utf-8"?>\n<Types xmlns="{TYPES_SPACE[1:-1]}">{kinds}</Types>\n'


def manifest(package: dict) -> str:
    """The manifest, which says again what package.json says."""
    words = ("name", "version", "publisher")
    name, version, publisher = (quoteattr(package[word]) for word in words)
    return f"""<?xml version="1.0" encoding="utf-8"?>
<PackageManifest Version="2.0.0" xmlns="{MANIFEST_SPACE[1:-1]}">
  <Metadata>
    <Identity Language="en-US" Id={name} Version={version} Publisher={publisher}/>
    <DisplayName>{escape(package["displayName"])}</DisplayName>
    <Description xml:space="preserve">{escape(package["description"])}</Description>
    <Categories>{escape(",".join(package["categories"]))}</Categories>
    <License>extension/{LICENSE}</License>
    <Properties>
      <Property Id="Microsoft.VisualStudio.Code.Engine" Value={quoteattr(package["engines"]["vscode"])}/>
    </Properties>
  </Metadata>
  <Installation>
    <InstallationTarget Id="Microsoft.VisualStudio.Code"/>
  </Installation>
  <Dependencies/>
  <Assets>
    <Asset Type="Microsoft.VisualStudio.Code.Manifest" Path="extension/package.json" Addressable="true"/>
    <Asset Type="Microsoft.VisualStudio.Services.Content.Details" Path="extension/README.md" Addressable="true"/>
    <Asset Type="Microsoft.VisualStudio.Services.Content.License" Path="extension/{LICENSE}" Addressable="true"/>
  </Assets>
</PackageManifest>
"""


def pack(place: str) -> None:
    files = extension()
    entries = {
        TYPES: types().encode(),
        MANIFEST: manifest(json.loads(files["package.json"])).encode(),
        **{f"extension/{name}": files[name] for name in sorted(files)},
    }
    os.makedirs(os.path.dirname(os.path.abspath(place)), exist_ok=True)
    with zipfile.ZipFile(place, "w") as file:
        for name, text in entries.items():
            entry = zipfile.ZipInfo(name, THE_FIRST_DAY)
            entry.external_attr = 0o644 << 16
            file.writestr(entry, text, zipfile.ZIP_DEFLATED)


def wrong_types(file: zipfile.ZipFile) -> Iterator[str]:
    kinds = {one.get("Extension")
             for one in xml.etree.ElementTree.fromstring(file.read(TYPES)).iter(f"{TYPES_SPACE}Default")}
    for name in file.namelist():
        if name != TYPES and os.path.splitext(name)[1] not in kinds:
            yield f"{TYPES} has no type for {name}"


def wrong_manifest(file: zipfile.ZipFile, package: dict) -> Iterator[str]:
    """Where the manifest differs from package.json, or names what isn't there."""
    read_back = xml.etree.ElementTree.fromstring(file.read(MANIFEST))
    identity = read_back.find(f"{MANIFEST_SPACE}Metadata/{MANIFEST_SPACE}Identity")
    said = [identity.get(name) for name in ("Id", "Version", "Publisher")]
    if said != [package[name] for name in ("name", "version", "publisher")]:
        yield f"{MANIFEST} says {said}"
    engines = [one.get("Value") for one in read_back.iter(f"{MANIFEST_SPACE}Property")]
    if engines != [package["engines"]["vscode"]]:
        yield f"{MANIFEST} names the engines {engines}"
    for asset in read_back.iter(f"{MANIFEST_SPACE}Asset"):
        if asset.get("Path") not in file.namelist():
            yield f"{MANIFEST} names {asset.get('Path')}"


def named(part: object) -> Iterator[str]:
    """The files that a part of package.json names."""
    if isinstance(part, str) and part.startswith("./"):
        yield part[2:]
    for inner in part.values() if isinstance(part, dict) else part if isinstance(part, list) else ():
        yield from named(inner)


def wrong_package(file: zipfile.ZipFile, package: dict) -> Iterator[str]:
    """What package.json names and isn't there, and languages that it uses and doesn't declare."""
    for name in named(package):
        if f"extension/{name}" not in file.namelist():
            yield f"package.json names {name}"
    given = package["contributes"]
    languages = {one["id"] for one in given["languages"]}
    used = [one["language"] for kind in ("grammars", "snippets", "breakpoints") for one in given[kind]]
    used += [language for one in given["debuggers"] for language in one["languages"]]
    yield from (f"package.json uses the language {language}" for language in used if language not in languages)


def wrong_grammar(grammar: dict, scope: str) -> Iterator[str]:
    """What can't be read of a grammar. Its patterns have to be plain enough to be read by Python as well."""
    if grammar["scopeName"] != scope:
        yield f"the grammar is of {grammar['scopeName']}"
    for pattern in grammar["patterns"]:
        groups = re.compile(pattern["match"]).groups
        captures = pattern.get("captures", {})
        if any(int(number) > groups for number in captures):
            yield f"{pattern['match']} has {groups} groups"
        scopes = [one["name"] for one in (*captures.values(), pattern) if "name" in one]
        yield from (f"the scope {name} doesn't end in .pl0" for name in scopes if not name.endswith(".pl0"))


def plain(body: list[str]) -> str:
    """A snippet as it is inserted: each placeholder as its default, wherever its number stands again."""
    text = "\n".join(body)
    defaults = {number: default for number, default, _, _ in PLACEHOLDER.findall(text) if number}
    return PLACEHOLDER.sub(lambda match: match[2] if match[1] else defaults.get(match[3] or match[4], ""), text)


def wrong_snippets(snippets: dict) -> Iterator[str]:
    prefixes = [one["prefix"] for one in snippets.values()]
    if len(set(prefixes)) < len(prefixes):
        yield "two snippets have one prefix"
    for name, one in snippets.items():
        text = plain(one["body"])
        if "$" in text or not TOKENS.fullmatch(text):
            yield f"the snippet {name} is no text of PL/0: {text}"


def packed(file: zipfile.ZipFile, path: str) -> dict | None:
    """What a file that package.json names holds, if it is there."""
    name = "extension/" + (path[2:] if path.startswith("./") else path)
    return json.loads(file.read(name)) if name in file.namelist() else None


def wrong(place: str) -> Iterator[str]:
    """What is wrong with a package, read back."""
    with zipfile.ZipFile(place) as file:
        if (name := file.testzip()) is not None:
            yield f"{name} is damaged"
        package = json.loads(file.read("extension/package.json"))
        yield from wrong_types(file)
        yield from wrong_manifest(file, package)
        yield from wrong_package(file, package)
        for one in package["contributes"]["grammars"]:
            if (grammar := packed(file, one["path"])) is not None:
                yield from wrong_grammar(grammar, one["scopeName"])
        for one in package["contributes"]["snippets"]:
            if (snippets := packed(file, one["path"])) is not None:
                yield from wrong_snippets(snippets)


def main() -> int:
    if len(sys.argv) != 2:
        print(__doc__, file=sys.stderr)
        return 4
    place = sys.argv[1]
    pack(place)
    found = list(wrong(place))
    print("\n".join(found) or f"{place}: {os.path.getsize(place)} bytes, and all of it can be read back")
    return 1 if found else 0


if __name__ == "__main__":
    sys.exit(main())
