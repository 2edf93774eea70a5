#!/usr/bin/env python3
"""Brings the names of definitions and lemmas to the kit's spelling, once, after the kit's own port script.

Run at the top of the repository. Words are in snake case, types, facts and modules in camel case; a dash joins two
names, as that of a function and that of what it is applied to. Names of the code, and those that the toolchain makes
for goals, stay. It stops, and changes nothing, where a new name already stands in a file that has the old one.
"""
import pathlib
import re
import sys

# words in camel case to snake case
CAMEL = """
atHeader atMessage atTag badLength begunPrepared benchF benchUnder causeNumber ciphertextBlock ctrBlocks endBlock
endText endingText faultText filledUp fourL frameLine frameLines frameText grownTo handOut handedIn handedOf
headerBlock headerMax headerOf inputMax intoFirst intoLast isFull kindNumber lineText linesAt listNumber
messageMax nextByte nonceBlock nonceMax passNumber putFrom recordNumber startingAt suiteNumber tagMin
trailerBytes trailerOf tweakNumber twoL withMask withRoom withinLimits zeroBlock omacOf
""".split()

# names in which a dash joined plain words
PLAIN = """
advanced-within after-join after-piece all-tags back-of by-checks by-limits by-test by-trailer cbc-last cmac-last
ctr-blocks-twice ctr-laws cut-joined encoded-parts faithful-message faithful-tag fields-end frame-answered frame-passed
hands-all header-answer header-block header-held idle-parts last-bytes last-read lawful-by-number message-answer
message-held more-tags next-lines next-mask next-numbered no-frame no-list no-message nonce-block none-answered not-cut
nothing-behind one-frame placed-err placed-ok put-at put-from-at put-from-before put-from-past put-one-more refused-at
replaced-above replaced-below replaced-same same-front same-lengths same-mask short-last tag-held trailer-back
trailer-read undone-byte whole-blocks whole-lines
""".split()

OTHER = {
    # a dash stays between the names of two functions
    "block-filled-up": "block-filled_up",
    "byte-block-of": "byte-block_of",
    "byte-put-other": "byte-put_other",
    "byte-put-same": "byte-put_same",
    "bytes-block-of": "bytes-block_of",
    "getD-bytes": "get_or-bytes",
    "getD-enciphered": "get_or-enciphered",
    "getD-into-first": "get_or-into_first",
    "getD-zeros": "get_or-zeros",
    "length-ctr-blocks": "length-ctr_blocks",
    "length-into-first": "length-into_first",
    # a lemma that would have its function's name
    "byte-at": "byte_at_lem",
    # a fact keeps its capital; `string_bytes` is the library's word for a text's bytes
    "string-append": "IsString-append",
    "string-drop": "IsString-drop",
    "string-take": "IsString-take",
    "string-ctr-blocks": "IsString-ctr_blocks",
    # a trait's ghost member; `key_size` is the name of its method
    "keySize": "key_width",
    # these would fall together with a function, or with a field, of the code
    "isTagLen": "is_tag_len_of",
    "tagBlock": "tag_block_of",
    "withByte": "with_byte_at",
}

# a method has a module of its own, so its name may be that of its definition
METHODS = {"starting_at"}

# names that mean something else elsewhere, with the files in which they are respelled
ONLY_IN = {
    "L": ("l", ["mode/specs/Strings.antt", "mode/proofs/table/table/Answers.antt", "stream/proofs/chain/Chain/finish/Answers.antt"]),
    "string_bytes": ("IsString-bytes", ["block/proofs/Bytes.antt", "mode/proofs/Ctr.antt"]),
}

# the meaning of a cipher, where it is a trait's ghost member and not the variable of a definition
MEANING = [
    (r"\bghost F(?=[ :])", "ghost f"),
    (r"(?<=Cipher\.)F\b", "f"),
    (r"(?<=result ≡ )F(?= self\.now block)", "f"),
    (r"(?<=\()F(?= cipher\.now\))", "f"),
    (r"(?<=\.form )F\b", "f"),
]
MEANING_IN_CLAUSES = re.compile(r"^\s*(requires|ensures)\b")


def snake(name):
    return re.sub(r"(?<=[a-z0-9])([A-Z]+)", lambda m: "_" + m.group(1).lower(), name)


def names():
    table = {name: snake(name) for name in CAMEL}
    table.update({name: name.replace("-", "_") for name in PLAIN})
    table.update(OTHER)
    return table


def word(name):
    return re.compile(r"(?<![\w'·-])" + re.escape(name) + r"(?![\w'-])")


def without_comments(text, mark):
    return "\n".join(line for line in text.split("\n") if not line.lstrip().startswith(mark))


def respell(path, text, table):
    for old, new in table.items():
        text = word(old).sub(new, text)
    for old, (new, files) in ONLY_IN.items():
        if any(str(path).endswith(file) for file in files):
            lines = text.split("\n")
            text = "\n".join(line if line.lstrip().startswith("--") else word(old).sub(new, line) for line in lines)
    if path.suffix == ".antt" and "proofs" in path.parts:
        text = re.sub(r"(?<=Cipher\.)F\b", "f", text)
    if path.suffix == ".rt":
        lines = text.split("\n")
        for i, line in enumerate(lines):
            bound = "(F : " in line or line.lstrip().startswith("//")
            if not bound and (MEANING_IN_CLAUSES.match(line) or "ghost F" in line):
                for old, new in MEANING:
                    line = re.sub(old, new, line)
                lines[i] = line
        text = "\n".join(lines)
    return text


def main():
    table = names()
    folder = pathlib.Path("crates")
    paths = [p for p in sorted(folder.rglob("*")) if p.suffix in (".antt", ".rt", ".edit") and "out" not in p.parts]
    together = []
    for path in paths:
        code = without_comments(path.read_text(), "--")
        for old, new in table.items():
            if new not in METHODS and word(old).search(code) and word(new).search(code):
                together.append(f"{path}: {old} and {new}")
    for line in together:
        print("together:", line)
    if together:
        sys.exit("respell: names fall together; nothing was changed")
    count = 0
    for path in paths:
        text = path.read_text()
        new = respell(path, text, table)
        if new != text:
            path.write_text(new)
            count += 1
    print(f"respell: {count} files")


if __name__ == "__main__":
    main()
