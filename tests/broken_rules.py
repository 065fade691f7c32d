#!/usr/bin/env python3
"""The rules that proto3 sources break, each by itself: a plain enumeration of docs/LANGUAGE.md, "The rules of a file", over a plain
parser of its grammar. `broken_rules.py FOLDER` prints a line for each file below the folder and each rule that it breaks, as
`FILE:LINE:COLUMN: KIND` in the order of places and kinds, and `FILE: no file` for one that its tokens or its grammar refuse.

`broken_rules.py --mutate SEED COUNT FOLDER` makes so many sources there that break rules: changed from a few that break none."""
import os
import random
import re
import sys

SCALARS = """double float int32 int64 uint32 uint64 sint32 sint64 fixed32 fixed64 sfixed32 sfixed64 bool string bytes""".split()
WIDE = {"int64", "uint64", "sint64", "fixed64", "sfixed64"}
NO_TYPE = """message enum option oneof reserved extend extensions optional repeated required group""".split()
FIELD_MAX, VALUE_MIN, VALUE_MAX = 536870911, -(1 << 31), (1 << 31) - 1
TRUTH = ("bool", {"true", "false"})
TEXT = ("text", None)
OPTIONS = {
    "file": {
        **{
            name: TEXT
            for name in """java_package java_outer_classname go_package objc_class_prefix csharp_namespace swift_prefix
            php_class_prefix php_namespace php_metadata_namespace ruby_package""".split()
        },
        "java_multiple_files": TRUTH,
        "deprecated": TRUTH,
        "cc_enable_arenas": TRUTH,
        "optimize_for": ("word", {"SPEED", "CODE_SIZE", "LITE_RUNTIME"}),
    },
    "message": {"deprecated": TRUTH},
    "field": {
        "packed": TRUTH,
        "deprecated": TRUTH,
        "jstype": ("word", {"JS_NORMAL", "JS_STRING", "JS_NUMBER"}),
        "json_name": TEXT,
    },
    "oneof": {},
    "enum": {"allow_alias": TRUTH, "deprecated": TRUTH},
    "value": {"deprecated": TRUTH},
    "service": {"deprecated": TRUTH},
    "method": {"deprecated": TRUTH, "idempotency_level": ("word", {"IDEMPOTENCY_UNKNOWN", "NO_SIDE_EFFECTS", "IDEMPOTENT"})},
}
KINDS = {
    "NotProto3Syntax": 20,
    "PackageTwice": 21,
    "ImportTwice": 22,
    "UnknownOption": 23,
    "OptionTwice": 24,
    "BadOptionValue": 25,
    "FieldNumberRange": 26,
    "FieldNumberTwice": 27,
    "ReservedNumberUsed": 28,
    "ReservedNameUsed": 29,
    "ReservedOverlap": 30,
    "ReservedNameTwice": 31,
    "ReservedBackwards": 32,
    "JsonNameTwice": 33,
    "PackedOnWrongKind": 34,
    "JstypeOnWrongKind": 35,
    "EnumEmpty": 36,
    "EnumFirstNotZero": 37,
    "EnumNumberRange": 38,
    "EnumNumberTwice": 39,
    "OneofEmpty": 40,
}
TOKEN = re.compile(
    rb"""(?P<blank>[ \t\n\r\v\f]+|//[^\n]*|/\*.*?\*/)|(?P<name>[A-Za-z_][A-Za-z0-9_]*)|(?P<number>[0-9][A-Za-z0-9_.]*)"""
    rb"""|(?P<string>"[^"\\\n]*"|'[^'\\\n]*')|(?P<sign>[!-/:-@\[-`{-~])""",
    re.DOTALL,
)


class NoFile(Exception):
    """The tokens or the grammar refuse a source."""


class Parser:
    """Reads a source statement by statement, and notes the rules that it breaks."""

    def __init__(self, text):
        self.tokens, self.at, self.broken = [], 0, set()
        at = 0
        while at < len(text):
            found = TOKEN.match(text, at)
            if not found:
                raise NoFile
            if found.lastgroup != "blank":
                self.tokens.append((found.lastgroup, found.group().decode(), at))
            at = found.end()
        self.tokens.append(("end", "", len(text)))

    # ---- tokens

    def look(self, ahead=0):
        return self.tokens[min(self.at + ahead, len(self.tokens) - 1)]

    def take(self, group=None, text=None):
        token = self.look()
        if (group and token[0] != group) or (text and token[1] != text):
            raise NoFile
        self.at += 1
        return token

    def takes(self, text):
        if self.look()[1] == text and self.look()[0] in ("name", "sign"):
            self.at += 1
            return True
        return False

    def number(self):
        _, text, place = self.take("number")
        if not re.fullmatch(r"0[xX][0-9a-fA-F]+|0[0-7]*|[1-9][0-9]*", text):
            raise NoFile
        value = int(text, 16) if text[:2].lower() == "0x" else int(text, 8) if text[0] == "0" else int(text)
        if value >= 1 << 64:
            raise NoFile
        return value, place

    def signed(self):
        place = self.look()[2]
        minus = self.takes("-")
        value, at = self.number()
        return (-value, place) if minus else (value, at)

    def string(self):
        _, text, place = self.take("string")
        text = text[1:-1]
        while self.look()[0] == "string":
            text += self.take()[1][1:-1]
        return text, place

    def full(self):
        _, name, place = self.take("name")
        while self.takes("."):
            name += "." + self.take("name")[1]
        return name, place

    def tell(self, place, kind):
        self.broken.add((place, KINDS[kind], kind))

    # ---- options

    def setting(self):
        name, place = self.full()
        self.take(text="=")
        group, text, at = self.look()
        if group == "string":
            value = ("text", self.string()[0])
        elif group == "name":
            value = ("word", self.full()[0])
        else:
            if text in "+-" and group == "sign":
                self.take()
            self.number()
            value = ("number", None)
        return name, place, value, at

    def statement(self, settings):
        self.take(text="option")
        settings.append(self.setting())
        self.take(text=";")

    def brackets(self):
        settings = []
        if self.takes("["):
            settings.append(self.setting())
            while self.takes(","):
                settings.append(self.setting())
            self.take(text="]")
        return settings

    def judge(self, element, settings):
        seen = set()
        for name, place, (group, value), at in settings:
            if name in seen:
                self.tell(place, "OptionTwice")
            seen.add(name)
            if name not in OPTIONS[element]:
                self.tell(place, "UnknownOption")
                continue
            kind, words = OPTIONS[element][name]
            if group != ("text" if kind == "text" else "word") or (words and value not in words):
                self.tell(at, "BadOptionValue")

    # ---- numbers and names

    def reserved(self, number, greatest):
        self.take(text="reserved")
        ranges, names = [], []
        if self.look()[0] == "string":
            names.append(self.string())
            while self.takes(","):
                names.append(self.string())
        else:
            while True:
                start, place = number()
                end, bounds = start, [(start, place)]
                if self.takes("to"):
                    if self.takes("max"):
                        end = greatest
                    else:
                        end, at = number()
                        bounds.append((end, at))
                ranges.append((start, end, place, bounds))
                if not self.takes(","):
                    break
        self.take(text=";")
        return ranges, names

    def judge_reserved(self, ranges, names, numbers, used, least, greatest, kind):
        for at, (start, end, place, bounds) in enumerate(ranges):
            for bound, where in bounds:
                if not least <= bound <= greatest:
                    self.tell(where, kind)
            if end < start:
                self.tell(place, "ReservedBackwards")
            if any(max(start, s) <= min(end, e) for s, e, _, _ in ranges[:at]):
                self.tell(place, "ReservedOverlap")
        for value, place in numbers:
            if any(start <= value <= end for start, end, _, _ in ranges):
                self.tell(place, "ReservedNumberUsed")
        seen = set()
        for name, place in names:
            if name in seen:
                self.tell(place, "ReservedNameTwice")
            seen.add(name)
        for name, place in used:
            if name in seen:
                self.tell(place, "ReservedNameUsed")

    # ---- elements

    def type(self, is_start, in_oneof):
        group, text, _ = self.look()
        if group == "sign" and text == ".":
            self.take()
            self.full()
            return None
        if group != "name" or (is_start and text in NO_TYPE) or (text == "group" and not is_start):
            raise NoFile
        if text in SCALARS:
            self.take()
            return text
        self.full()
        return None

    def declarator(self, fields, is_packable, scalar):
        _, name, place = self.take("name")
        self.take(text="=")
        number = self.number()
        settings = self.brackets()
        self.take(text=";")
        json = re.sub(r"_+([a-z])", lambda found: found.group(1).upper(), name).replace("_", "")
        for option, at, (group, value), _ in settings:
            if option == "packed" and (group, value) == ("word", "true") and not is_packable:
                self.tell(at, "PackedOnWrongKind")
            if option == "jstype" and group == "word" and value in ("JS_STRING", "JS_NUMBER") and scalar not in WIDE:
                self.tell(at, "JstypeOnWrongKind")
        group, value = next((value for option, _, value, _ in settings if option == "json_name"), (None, None))
        if group == "text":
            json = value
        self.judge("field", settings)
        fields.append((name, place, number, json))

    def oneof(self, fields):
        self.take(text="oneof")
        _, _, place = self.take("name")
        self.take(text="{")
        settings, members = [], 0
        while not self.takes("}"):
            if self.takes(";"):
                continue
            if self.look()[1] == "option" and self.look()[0] == "name":
                self.statement(settings)
                continue
            scalar = self.type(True, True)
            self.declarator(fields, False, scalar)
            members += 1
        if not members:
            self.tell(place, "OneofEmpty")
        self.judge("oneof", settings)

    def map(self, fields):
        self.take(text="map")
        self.take(text="<")
        _, key, _ = self.take("name")
        if key not in SCALARS or key in ("double", "float", "bytes"):
            raise NoFile
        self.take(text=",")
        group, text, _ = self.look()
        if group == "name" and text in SCALARS:
            self.take()
        else:
            self.takes(".")
            self.full()
        self.take(text=">")
        self.declarator(fields, False, None)

    def message(self, depth):
        if depth > 64:
            raise NoFile
        self.take(text="message")
        self.take("name")
        self.take(text="{")
        settings, fields, ranges, names = [], [], [], []
        while not self.takes("}"):
            group, text, _ = self.look()
            if self.takes(";"):
                continue
            word = text if group == "name" else None
            if word == "message":
                self.message(depth + 1)
            elif word == "enum":
                self.enum()
            elif word == "option":
                self.statement(settings)
            elif word == "oneof":
                self.oneof(fields)
            elif word == "reserved":
                more = self.reserved(self.number, FIELD_MAX)
                ranges += more[0]
                names += more[1]
            elif word == "map" and self.look(1)[1] == "<":
                self.map(fields)
            else:
                label = self.take()[1] if word in ("optional", "repeated") else None
                scalar_word = self.look()[1] if self.look()[0] == "name" else None
                scalar = self.type(label is None, False)
                is_packable = label == "repeated" and scalar_word not in ("string", "bytes")
                self.declarator(fields, is_packable, scalar)
        self.judge("message", settings)
        numbers, seen, jsons = [number for _, _, number, _ in fields], set(), set()
        for value, place in numbers:
            if not 1 <= value <= FIELD_MAX or 19000 <= value <= 19999:
                self.tell(place, "FieldNumberRange")
            if value in seen:
                self.tell(place, "FieldNumberTwice")
            seen.add(value)
        for _, place, _, json in fields:
            if json in jsons:
                self.tell(place, "JsonNameTwice")
            jsons.add(json)
        used = [(name, place) for name, place, _, _ in fields]
        self.judge_reserved(ranges, names, numbers, used, 1, FIELD_MAX, "FieldNumberRange")

    def enum(self):
        self.take(text="enum")
        _, _, place = self.take("name")
        self.take(text="{")
        settings, values, ranges, names = [], [], [], []
        while not self.takes("}"):
            if self.takes(";"):
                continue
            word = self.look()[1]
            if word == "option" and self.look()[0] == "name":
                self.statement(settings)
            elif word == "reserved" and self.look()[0] == "name":
                more = self.reserved(self.signed, VALUE_MAX)
                ranges += more[0]
                names += more[1]
            else:
                _, name, at = self.take("name")
                self.take(text="=")
                number = self.signed()
                self.judge("value", self.brackets())
                self.take(text=";")
                values.append((name, at, number))
        if not values:
            self.tell(place, "EnumEmpty")
        self.judge("enum", settings)
        aliases = next((value for name, _, (_, value), _ in settings if name == "allow_alias"), None) == "true"
        numbers, seen = [number for _, _, number in values], set()
        for at, (value, where) in enumerate(numbers):
            if at == 0 and value != 0:
                self.tell(where, "EnumFirstNotZero")
            if not VALUE_MIN <= value <= VALUE_MAX:
                self.tell(where, "EnumNumberRange")
            if value in seen and not aliases:
                self.tell(where, "EnumNumberTwice")
            seen.add(value)
        used = [(name, at) for name, at, _ in values]
        self.judge_reserved(ranges, names, numbers, used, VALUE_MIN, VALUE_MAX, "EnumNumberRange")

    def service(self):
        self.take(text="service")
        self.take("name")
        self.take(text="{")
        settings = []
        while not self.takes("}"):
            if self.takes(";"):
                continue
            if self.look()[1] == "option":
                self.statement(settings)
                continue
            self.take(text="rpc")
            self.take("name")
            for part in (0, 1):
                self.take(text="(")
                self.takes("stream")
                group, text, _ = self.look()
                if not self.takes(".") and (group != "name" or text in SCALARS):
                    raise NoFile
                self.full()
                self.take(text=")")
                if part == 0:
                    self.take(text="returns")
            own = []
            if not self.takes(";"):
                self.take(text="{")
                while not self.takes("}"):
                    if not self.takes(";"):
                        self.statement(own)
            self.judge("method", own)
        self.judge("service", settings)

    def file(self):
        self.take(text="syntax")
        self.take(text="=")
        version, place = self.string()
        self.take(text=";")
        if version != "proto3":
            self.tell(place, "NotProto3Syntax")
        packages, imports, settings = 0, set(), []
        while self.look()[0] != "end":
            group, word, at = self.look()
            if self.takes(";"):
                continue
            if group != "name":
                raise NoFile
            if word == "import":
                self.take()
                self.takes("public")
                path, where = self.string()
                self.take(text=";")
                if path in imports:
                    self.tell(where, "ImportTwice")
                imports.add(path)
            elif word == "package":
                self.take()
                self.full()
                self.take(text=";")
                if packages:
                    self.tell(at, "PackageTwice")
                packages += 1
            elif word == "option":
                self.statement(settings)
            elif word == "message":
                self.message(1)
            elif word == "enum":
                self.enum()
            elif word == "service":
                self.service()
            else:
                raise NoFile
        self.judge("file", settings)
        return sorted(self.broken)


def lines_of(folder):
    """What is told of the files of a folder."""
    for name in sorted(os.listdir(folder)):
        with open(os.path.join(folder, name), "rb") as file:
            text = file.read()
        try:
            broken = Parser(text).file()
        except NoFile:
            print(f"{name}: no file")
            continue
        for place, _, kind in broken:
            line, start = text.count(b"\n", 0, place) + 1, text.rfind(b"\n", 0, place)
            print(f"{name}:{line}:{place - start}: {kind}")


SOUND = [
    """syntax = "proto3";
package a.b; import "x.proto"; import public "y.proto"; option java_package = "p"; option deprecated = true;
message A {
  option deprecated = false; reserved 10, 12 to 14, 20 to max; reserved "old", "older";
  int32 a = 1; repeated int32 b_c = 2 [packed = true]; optional string d = 3 [json_name = "dd", deprecated = true];
  map<string, A> m = 4; oneof o { int64 e = 5 [jstype = JS_STRING]; A f = 6; }
  message B { uint64 a = 1 [jstype = JS_NUMBER]; repeated A a_b = 2; } enum E { Z = 0; Y = 1; reserved 5 to 7, -3; }
}
""",
    """syntax = "proto3";
enum E { option allow_alias = true; NONE = 0 [deprecated = true]; ONE = 1; UNO = 1; MINUS = -1; reserved "TWO"; reserved 2, 10 to max; }
service S { option deprecated = true; rpc R(A) returns (stream A) { option idempotency_level = IDEMPOTENT; } rpc Q(stream .A) returns (A); }
message A { oneof one { bool x = 1; bytes y = 2; } fixed64 z = 3 [jstype = JS_NORMAL]; repeated string w = 4; reserved 100 to 200; }
""",
]
PIECES = [
    """1 2 3 5 6 7 10 12 13 14 20 0 19000 536870911 536870912 2147483648 max""".split(),
    """true false deprecated packed jstype json_name allow_alias JS_STRING optional repeated int32 string int64 a b_c bC aB old TWO Z Y
    ONE java_package""".split(),
    """"x" "x.proto" "old" "TWO" "dd" "proto2" """.split(),
]
KEPT = set("syntax package import public option message enum service rpc returns stream oneof map reserved to".split())


def pieces_for(token):
    """What a token may become, so that most often a source is still a file."""
    if token[0].isdigit():
        return PIECES[0]
    if token[0] == '"':
        return PIECES[2]
    return PIECES[1] if token[0].isalpha() and token not in KEPT else []


def mutate(seed, count, folder):
    """Makes sources of which a few tokens are others, and a few statements are there twice."""
    dice = random.Random(seed)
    for number in range(count):
        tokens = re.findall(r'"[^"]*"|[A-Za-z_0-9.]+|\S|\n', dice.choice(SOUND))
        for _ in range(dice.randint(1, 5)):
            at = dice.choice([at for at, token in enumerate(tokens) if pieces_for(token)])
            if dice.random() < 0.8:
                tokens[at] = dice.choice(pieces_for(tokens[at]))
            else:
                start = max((i + 1 for i in range(at) if tokens[i] in ";{}"), default=0)
                end = next((i for i in range(at, len(tokens)) if tokens[i] in ";{"), at)
                tokens[end + 1 : end + 1] = tokens[start : end + 1] + (["}"] if tokens[end] == "{" else [])
        with open(os.path.join(folder, f"{number:05}.proto"), "w") as file:
            file.write(" ".join(tokens))


if sys.argv[1] == "--mutate":
    mutate(int(sys.argv[2]), int(sys.argv[3]), sys.argv[4])
else:
    lines_of(sys.argv[1])
